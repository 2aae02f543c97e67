# Made by dist/refresh of what is proved.

	.text
	.p2align	4
	.type	"core::cmp::slices::RefSliceOrd::cmp::<#914af4d8504a0b72>",@function
"core::cmp::slices::RefSliceOrd::cmp::<#914af4d8504a0b72>":
	cmpq	%rsi, %rcx
	movq	%rsi, %rax
	cmovbq	%rcx, %rax
	xorl	%r8d, %r8d
	cmpq	$64, %rax
	jb	2f
	movq	%rax, %r9
	.p2align	4
1:
	movdqu	(%rdi,%r8), %xmm0
	movdqu	16(%rdi,%r8), %xmm1
	movdqu	32(%rdi,%r8), %xmm2
	movdqu	48(%rdi,%r8), %xmm3
	movdqu	(%rdx,%r8), %xmm4
	pcmpeqb	%xmm0, %xmm4
	movdqu	16(%rdx,%r8), %xmm0
	pcmpeqb	%xmm1, %xmm0
	movdqu	32(%rdx,%r8), %xmm1
	pcmpeqb	%xmm2, %xmm1
	pand	%xmm4, %xmm1
	movdqu	48(%rdx,%r8), %xmm2
	pcmpeqb	%xmm3, %xmm2
	pand	%xmm0, %xmm2
	pand	%xmm1, %xmm2
	pmovmskb	%xmm2, %r10d
	cmpl	$65535, %r10d
	jne	2f
	addq	$64, %r8
	addq	$-64, %r9
	cmpq	$63, %r9
	ja	1b
2:
	movq	%rax, %r9
	subq	%r8, %r9
	cmpq	$8, %r9
	jb	4f
	.p2align	4
3:
	movq	(%rdi,%r8), %r10
	cmpq	(%rdx,%r8), %r10
	jne	4f
	addq	$8, %r8
	addq	$-8, %r9
	cmpq	$7, %r9
	ja	3b
4:
	cmpq	%rax, %r8
	jae	6f
	.p2align	4
5:
	movzbl	(%rdx,%r8), %r9d
	cmpb	%r9b, (%rdi,%r8)
	jne	7f
	incq	%r8
	cmpq	%r8, %rax
	jne	5b
6:
	cmpq	%rcx, %rsi
	setae	%al
	addb	%al, %al
	cmpq	%rcx, %rsi
	movzbl	%al, %ecx
	movl	$1, %eax
	cmovnel	%ecx, %eax
	retq
7:
	setae	%al
	addb	%al, %al
	retq
8:
	.size	"core::cmp::slices::RefSliceOrd::cmp::<#914af4d8504a0b72>", 8b-"core::cmp::slices::RefSliceOrd::cmp::<#914af4d8504a0b72>"

	.text
	.p2align	4
	.type	"core::cmp::slices::groups_equal::<i8,31'core::cmp::numbers::U8PartialEq{}>",@function
"core::cmp::slices::groups_equal::<i8,31'core::cmp::numbers::U8PartialEq{}>":
	cmpq	$8, %rsi
	ja	1f
	movd	(%rdi), %xmm0
	pinsrd	$1, -4(%rdi,%rsi), %xmm0
	movd	(%rdx), %xmm1
	pinsrd	$1, -4(%rdx,%rsi), %xmm1
	movq	%xmm0, %rax
	movq	%xmm1, %rcx
	cmpq	%rcx, %rax
	jmp	9f
1:
	cmpq	$32, %rsi
	ja	2f
	leaq	-8(%rsi), %rax
	cmpq	$8, %rax
	movl	$8, %ecx
	cmovbq	%rax, %rcx
	cmpq	$16, %rax
	movl	$16, %r8d
	cmovbq	%rax, %r8
	movq	(%rdi,%rcx), %xmm0
	movq	(%rdi), %xmm1
	punpcklqdq	%xmm0, %xmm1
	movq	(%rdi,%r8), %xmm0
	movq	-8(%rdi,%rsi), %xmm2
	punpcklqdq	%xmm2, %xmm0
	movq	(%rdx,%rcx), %xmm2
	movq	(%rdx), %xmm3
	punpcklqdq	%xmm2, %xmm3
	pxor	%xmm1, %xmm3
	movq	(%rdx,%r8), %xmm1
	movq	-8(%rdx,%rsi), %xmm2
	punpcklqdq	%xmm2, %xmm1
	pxor	%xmm0, %xmm1
	por	%xmm3, %xmm1
	ptest	%xmm1, %xmm1
	jmp	9f
2:
	cmpq	$65, %rsi
	jae	3f
	movdqu	(%rdi), %xmm0
	movdqu	16(%rdi), %xmm1
	movdqu	(%rdx), %xmm2
	pxor	%xmm0, %xmm2
	movdqu	16(%rdx), %xmm0
	pxor	%xmm1, %xmm0
	movdqu	-32(%rdi,%rsi), %xmm1
	movdqu	-16(%rdi,%rsi), %xmm3
	movdqu	-32(%rdx,%rsi), %xmm4
	pxor	%xmm1, %xmm4
	por	%xmm2, %xmm4
	movdqu	-16(%rdx,%rsi), %xmm1
	pxor	%xmm3, %xmm1
	por	%xmm0, %xmm1
	por	%xmm4, %xmm1
	ptest	%xmm1, %xmm1
	jmp	9f
3:
	xorl	%eax, %eax
	movq	%rsi, %rcx
	.p2align	4
4:
	movdqu	(%rdi,%rax), %xmm0
	movdqu	16(%rdi,%rax), %xmm1
	movdqu	32(%rdi,%rax), %xmm2
	movdqu	48(%rdi,%rax), %xmm3
	movdqu	(%rdx,%rax), %xmm4
	pcmpeqb	%xmm0, %xmm4
	movdqu	16(%rdx,%rax), %xmm0
	pcmpeqb	%xmm1, %xmm0
	movdqu	32(%rdx,%rax), %xmm1
	pcmpeqb	%xmm2, %xmm1
	pand	%xmm4, %xmm1
	movdqu	48(%rdx,%rax), %xmm2
	pcmpeqb	%xmm3, %xmm2
	pand	%xmm0, %xmm2
	pand	%xmm1, %xmm2
	pmovmskb	%xmm2, %r8d
	cmpl	$65535, %r8d
	jne	5f
	addq	$64, %rax
	addq	$-64, %rcx
	cmpq	$63, %rcx
	ja	4b
5:
	cmpq	$32, %rcx
	jb	8f
	movq	%rsi, %rcx
	subq	%rax, %rcx
	.p2align	4
6:
	movdqu	(%rdi,%rax), %xmm0
	movdqu	16(%rdi,%rax), %xmm1
	movdqu	(%rdx,%rax), %xmm2
	pxor	%xmm0, %xmm2
	movdqu	16(%rdx,%rax), %xmm0
	pxor	%xmm1, %xmm0
	por	%xmm2, %xmm0
	ptest	%xmm0, %xmm0
	jne	7f
	addq	$32, %rax
	addq	$-32, %rcx
	cmpq	$31, %rcx
	ja	6b
	jmp	8f
7:
	movb	$1, %al
	cmpq	$31, %rcx
	ja	10f
8:
	movdqu	-32(%rdi,%rsi), %xmm0
	movdqu	-16(%rdi,%rsi), %xmm1
	movdqu	-32(%rdx,%rsi), %xmm2
	pxor	%xmm0, %xmm2
	movdqu	-16(%rdx,%rsi), %xmm0
	pxor	%xmm1, %xmm0
	por	%xmm2, %xmm0
	ptest	%xmm0, %xmm0
9:
	setne	%al
10:
	xorb	$1, %al
	retq
11:
	.size	"core::cmp::slices::groups_equal::<i8,31'core::cmp::numbers::U8PartialEq{}>", 11b-"core::cmp::slices::groups_equal::<i8,31'core::cmp::numbers::U8PartialEq{}>"

	.text
	.p2align	4
	.type	"core::slice::edits::mirror::<#2262cf5b90b10fda>",@function
"core::slice::edits::mirror::<#2262cf5b90b10fda>":
	leaq	(%rdx,%rdx,2), %rax
	leaq	(%rsi,%rax,8), %rax
	addq	$-24, %rax
	.p2align	4
1:
	movq	16(%rdi), %rcx
	movq	%rcx, -8(%rsp)
	movups	(%rdi), %xmm0
	movaps	%xmm0, -24(%rsp)
	movq	16(%rax), %rcx
	movups	(%rax), %xmm0
	movups	%xmm0, (%rdi)
	movq	%rcx, 16(%rdi)
	movq	-8(%rsp), %rcx
	movq	%rcx, 16(%rax)
	movaps	-24(%rsp), %xmm0
	movups	%xmm0, (%rax)
	addq	$24, %rdi
	addq	$-24, %rax
	decq	%rdx
	jne	1b
	retq
2:
	.size	"core::slice::edits::mirror::<#2262cf5b90b10fda>", 2b-"core::slice::edits::mirror::<#2262cf5b90b10fda>"

	.text
	.p2align	4
	.type	"core::slice::edits::mirror::<*>",@function
"core::slice::edits::mirror::<*>":
	leaq	(%rdi,%rdx,8), %rax
	leaq	(%rsi,%rdx,8), %rcx
	cmpq	%rcx, %rdi
	setb	%cl
	cmpq	%rax, %rsi
	setb	%al
	testb	%al, %cl
	je	1f
	xorl	%eax, %eax
	jmp	3f
1:
	movabsq	$9223372036854775806, %rax
	andq	%rdx, %rax
	movq	%rdx, %rcx
	andq	$-2, %rcx
	negq	%rcx
	leaq	(%rsi,%rdx,8), %r8
	addq	$-16, %r8
	xorl	%r9d, %r9d
	movq	%rdi, %r10
	.p2align	4
2:
	movdqu	(%r10), %xmm0
	movdqu	(%r8,%r9,8), %xmm1
	pshufd	$78, %xmm1, %xmm1
	movdqu	%xmm1, (%r10)
	pshufd	$78, %xmm0, %xmm0
	movdqu	%xmm0, (%r8,%r9,8)
	addq	$-2, %r9
	addq	$16, %r10
	cmpq	%r9, %rcx
	jne	2b
	cmpq	%rax, %rdx
	je	6f
3:
	movq	%rax, %rcx
	orq	$1, %rcx
	testb	$1, %dl
	je	4f
	movq	%rax, %r8
	notq	%r8
	addq	%rdx, %r8
	movq	(%rdi,%rax,8), %r9
	movq	(%rsi,%r8,8), %r10
	movq	%r10, (%rdi,%rax,8)
	movq	%r9, (%rsi,%r8,8)
	movq	%rcx, %rax
4:
	cmpq	%rcx, %rdx
	je	6f
	subq	%rax, %rdx
	leaq	(%rdi,%rax,8), %rax
	addq	$8, %rax
	.p2align	4
5:
	movq	-8(%rax), %rcx
	movq	-8(%rsi,%rdx,8), %rdi
	movq	%rdi, -8(%rax)
	movq	%rcx, -8(%rsi,%rdx,8)
	movq	(%rax), %rcx
	movq	-16(%rsi,%rdx,8), %rdi
	movq	%rdi, (%rax)
	movq	%rcx, -16(%rsi,%rdx,8)
	addq	$16, %rax
	addq	$-2, %rdx
	jne	5b
6:
	retq
7:
	.size	"core::slice::edits::mirror::<*>", 7b-"core::slice::edits::mirror::<*>"

	.text
	.p2align	4
	.type	"core::slice::edits::mirror::<14'(,)::<i32,i32>>",@function
"core::slice::edits::mirror::<14'(,)::<i32,i32>>":
	leaq	(%rdi,%rsi,8), %r8
	leaq	(%r8,%rcx,8), %rax
	leaq	(%rdx,%rcx,8), %r9
	cmpq	%r9, %r8
	setb	%r9b
	cmpq	%rax, %rdx
	setb	%al
	testb	%al, %r9b
	je	1f
	xorl	%eax, %eax
	jmp	3f
1:
	movabsq	$9223372036854775806, %rax
	andq	%rcx, %rax
	movq	%rcx, %r9
	andq	$-2, %r9
	negq	%r9
	leaq	(%rdx,%rcx,8), %r10
	addq	$-16, %r10
	xorl	%r11d, %r11d
	.p2align	4
2:
	movdqu	(%r8), %xmm0
	movdqu	(%r10,%r11,8), %xmm1
	pshufd	$78, %xmm1, %xmm1
	movdqu	%xmm1, (%r8)
	pshufd	$78, %xmm0, %xmm0
	movdqu	%xmm0, (%r10,%r11,8)
	addq	$-2, %r11
	addq	$16, %r8
	cmpq	%r11, %r9
	jne	2b
	cmpq	%rax, %rcx
	je	6f
3:
	movq	%rax, %r8
	orq	$1, %r8
	testb	$1, %cl
	je	4f
	leaq	(%rax,%rsi), %r9
	notq	%rax
	addq	%rcx, %rax
	movq	(%rdi,%r9,8), %r10
	movq	(%rdx,%rax,8), %r11
	movq	%r11, (%rdi,%r9,8)
	movq	%r10, (%rdx,%rax,8)
	movq	%r8, %rax
4:
	cmpq	%r8, %rcx
	je	6f
	addq	%rax, %rsi
	leaq	(%rdi,%rsi,8), %rsi
	addq	$8, %rsi
	subq	%rax, %rcx
	.p2align	4
5:
	movq	-8(%rsi), %rax
	movq	-8(%rdx,%rcx,8), %rdi
	movq	%rdi, -8(%rsi)
	movq	%rax, -8(%rdx,%rcx,8)
	movq	(%rsi), %rax
	movq	-16(%rdx,%rcx,8), %rdi
	movq	%rdi, (%rsi)
	movq	%rax, -16(%rdx,%rcx,8)
	addq	$16, %rsi
	addq	$-2, %rcx
	jne	5b
6:
	retq
7:
	.size	"core::slice::edits::mirror::<14'(,)::<i32,i32>>", 7b-"core::slice::edits::mirror::<14'(,)::<i32,i32>>"

	.text
	.p2align	4
	.type	"core::slice::edits::mirror::<25'mime_base::magic::Section>",@function
"core::slice::edits::mirror::<25'mime_base::magic::Section>":
	subq	$24, %rsp
	leaq	(%rdx,%rdx,4), %rax
	shlq	$4, %rax
	addq	%rsi, %rax
	addq	$-80, %rax
	.p2align	4
1:
	movl	(%rdi), %ecx
	movzbl	8(%rdi), %esi
	movq	48(%rdi), %r8
	movq	%r8, -32(%rsp)
	movups	32(%rdi), %xmm0
	movaps	%xmm0, -48(%rsp)
	movups	16(%rdi), %xmm0
	movaps	%xmm0, -64(%rsp)
	movq	72(%rdi), %r8
	movq	%r8, -112(%rsp)
	movups	56(%rdi), %xmm0
	movaps	%xmm0, -128(%rsp)
	movl	(%rax), %r8d
	movzbl	8(%rax), %r9d
	movq	48(%rax), %r10
	movq	%r10, 16(%rsp)
	movups	32(%rax), %xmm0
	movaps	%xmm0, (%rsp)
	movups	16(%rax), %xmm0
	movaps	%xmm0, -16(%rsp)
	movq	72(%rax), %r10
	movq	%r10, -80(%rsp)
	movups	56(%rax), %xmm0
	movaps	%xmm0, -96(%rsp)
	movl	%r8d, (%rdi)
	movq	%r9, 8(%rdi)
	movaps	-16(%rsp), %xmm0
	movaps	(%rsp), %xmm1
	movups	%xmm0, 16(%rdi)
	movups	%xmm1, 32(%rdi)
	movq	16(%rsp), %r8
	movq	%r8, 48(%rdi)
	movaps	-96(%rsp), %xmm0
	movups	%xmm0, 56(%rdi)
	movq	-80(%rsp), %r8
	movq	%r8, 72(%rdi)
	movl	%ecx, (%rax)
	movq	%rsi, 8(%rax)
	movaps	-64(%rsp), %xmm0
	movaps	-48(%rsp), %xmm1
	movups	%xmm0, 16(%rax)
	movups	%xmm1, 32(%rax)
	movq	-32(%rsp), %rcx
	movq	%rcx, 48(%rax)
	movaps	-128(%rsp), %xmm0
	movups	%xmm0, 56(%rax)
	movq	-112(%rsp), %rcx
	movq	%rcx, 72(%rax)
	addq	$80, %rdi
	addq	$-80, %rax
	decq	%rdx
	jne	1b
	addq	$24, %rsp
	retq
2:
	.size	"core::slice::edits::mirror::<25'mime_base::magic::Section>", 2b-"core::slice::edits::mirror::<25'mime_base::magic::Section>"

	.text
	.p2align	4
	.type	"core::slice::edits::mirror::<26'mime_load::leaf::LeafEntry>",@function
"core::slice::edits::mirror::<26'mime_load::leaf::LeafEntry>":
	movq	%rdx, %rax
	shlq	$5, %rax
	addq	%rsi, %rax
	addq	$-32, %rax
	.p2align	4
1:
	movups	(%rdi), %xmm0
	movups	16(%rdi), %xmm1
	movaps	%xmm1, -24(%rsp)
	movaps	%xmm0, -40(%rsp)
	movups	(%rax), %xmm0
	movups	16(%rax), %xmm1
	movups	%xmm0, (%rdi)
	movups	%xmm1, 16(%rdi)
	movaps	-40(%rsp), %xmm0
	movaps	-24(%rsp), %xmm1
	movups	%xmm1, 16(%rax)
	movups	%xmm0, (%rax)
	addq	$32, %rdi
	addq	$-32, %rax
	decq	%rdx
	jne	1b
	retq
2:
	.size	"core::slice::edits::mirror::<26'mime_load::leaf::LeafEntry>", 2b-"core::slice::edits::mirror::<26'mime_load::leaf::LeafEntry>"

	.text
	.p2align	4
	.type	"core::slice::edits::mirror::<26'mime_store::ending::Ending>",@function
"core::slice::edits::mirror::<26'mime_store::ending::Ending>":
	leaq	(%rdx,%rdx,4), %rax
	leaq	(%rsi,%rax,8), %rax
	addq	$-40, %rax
	.p2align	4
1:
	movq	32(%rdi), %rcx
	movq	%rcx, -8(%rsp)
	movups	(%rdi), %xmm0
	movups	16(%rdi), %xmm1
	movaps	%xmm1, -24(%rsp)
	movaps	%xmm0, -40(%rsp)
	movq	32(%rax), %rcx
	movups	(%rax), %xmm0
	movups	16(%rax), %xmm1
	movups	%xmm0, (%rdi)
	movups	%xmm1, 16(%rdi)
	movq	%rcx, 32(%rdi)
	movq	-8(%rsp), %rcx
	movq	%rcx, 32(%rax)
	movaps	-40(%rsp), %xmm0
	movaps	-24(%rsp), %xmm1
	movups	%xmm1, 16(%rax)
	movups	%xmm0, (%rax)
	addq	$40, %rdi
	addq	$-40, %rax
	decq	%rdx
	jne	1b
	retq
2:
	.size	"core::slice::edits::mirror::<26'mime_store::ending::Ending>", 2b-"core::slice::edits::mirror::<26'mime_store::ending::Ending>"

	.text
	.p2align	4
	.type	"core::slice::edits::mirror::<3'&[](*,i64,)>",@function
"core::slice::edits::mirror::<3'&[](*,i64,)>":
	movq	%rdx, %rax
	shlq	$4, %rax
	addq	%rsi, %rax
	addq	$-16, %rax
	.p2align	4
1:
	movups	(%rdi), %xmm0
	movaps	%xmm0, -24(%rsp)
	movups	(%rax), %xmm0
	movups	%xmm0, (%rdi)
	movaps	-24(%rsp), %xmm0
	movups	%xmm0, (%rax)
	addq	$16, %rdi
	addq	$-16, %rax
	decq	%rdx
	jne	1b
	retq
2:
	.size	"core::slice::edits::mirror::<3'&[](*,i64,)>", 2b-"core::slice::edits::mirror::<3'&[](*,i64,)>"

	.text
	.p2align	4
	.type	"core::slice::edits::mirror::<31'mime_base::database::icon::Icon>",@function
"core::slice::edits::mirror::<31'mime_base::database::icon::Icon>":
	subq	$56, %rsp
	addq	$56, %rdi
	leaq	(%rdx,%rdx,2), %rax
	shlq	$5, %rax
	addq	%rsi, %rax
	addq	$-40, %rax
	.p2align	4
1:
	movzbl	-56(%rdi), %ecx
	movq	-16(%rdi), %rsi
	movq	%rsi, -48(%rsp)
	movups	-48(%rdi), %xmm0
	movups	-32(%rdi), %xmm1
	movaps	%xmm1, -64(%rsp)
	movaps	%xmm0, -80(%rsp)
	movzbl	-8(%rdi), %esi
	movups	(%rdi), %xmm0
	movups	16(%rdi), %xmm1
	movaps	%xmm1, -112(%rsp)
	movaps	%xmm0, -128(%rsp)
	movq	32(%rdi), %r8
	movq	%r8, -96(%rsp)
	movzbl	-56(%rax), %r8d
	movups	-48(%rax), %xmm0
	movups	-32(%rax), %xmm1
	movaps	%xmm1, 32(%rsp)
	movaps	%xmm0, 16(%rsp)
	movq	-16(%rax), %r9
	movq	%r9, 48(%rsp)
	movzbl	-8(%rax), %r9d
	movups	(%rax), %xmm0
	movups	16(%rax), %xmm1
	movaps	%xmm1, -16(%rsp)
	movaps	%xmm0, -32(%rsp)
	movq	32(%rax), %r10
	movq	%r10, (%rsp)
	movq	%r8, -56(%rdi)
	movaps	16(%rsp), %xmm0
	movaps	32(%rsp), %xmm1
	movups	%xmm0, -48(%rdi)
	movups	%xmm1, -32(%rdi)
	movq	48(%rsp), %r8
	movq	%r8, -16(%rdi)
	movq	%r9, -8(%rdi)
	movaps	-32(%rsp), %xmm0
	movaps	-16(%rsp), %xmm1
	movups	%xmm0, (%rdi)
	movups	%xmm1, 16(%rdi)
	movq	(%rsp), %r8
	movq	%r8, 32(%rdi)
	movq	%rcx, -56(%rax)
	movaps	-80(%rsp), %xmm0
	movaps	-64(%rsp), %xmm1
	movups	%xmm0, -48(%rax)
	movups	%xmm1, -32(%rax)
	movq	-48(%rsp), %rcx
	movq	%rcx, -16(%rax)
	movq	%rsi, -8(%rax)
	movaps	-128(%rsp), %xmm0
	movaps	-112(%rsp), %xmm1
	movups	%xmm0, (%rax)
	movups	%xmm1, 16(%rax)
	movq	-96(%rsp), %rcx
	movq	%rcx, 32(%rax)
	addq	$96, %rdi
	addq	$-96, %rax
	decq	%rdx
	jne	1b
	addq	$56, %rsp
	retq
2:
	.size	"core::slice::edits::mirror::<31'mime_base::database::icon::Icon>", 2b-"core::slice::edits::mirror::<31'mime_base::database::icon::Icon>"

	.text
	.p2align	4
	.type	"core::slice::edits::mirror::<31'mime_base::database::pair::Pair>",@function
"core::slice::edits::mirror::<31'mime_base::database::pair::Pair>":
	subq	$56, %rsp
	addq	$56, %rdi
	leaq	(%rdx,%rdx,2), %rax
	shlq	$5, %rax
	addq	%rsi, %rax
	addq	$-40, %rax
	.p2align	4
1:
	movzbl	-56(%rdi), %ecx
	movq	-16(%rdi), %rsi
	movq	%rsi, -48(%rsp)
	movups	-48(%rdi), %xmm0
	movups	-32(%rdi), %xmm1
	movaps	%xmm1, -64(%rsp)
	movaps	%xmm0, -80(%rsp)
	movzbl	-8(%rdi), %esi
	movups	(%rdi), %xmm0
	movups	16(%rdi), %xmm1
	movaps	%xmm1, -112(%rsp)
	movaps	%xmm0, -128(%rsp)
	movq	32(%rdi), %r8
	movq	%r8, -96(%rsp)
	movzbl	-56(%rax), %r8d
	movups	-48(%rax), %xmm0
	movups	-32(%rax), %xmm1
	movaps	%xmm1, 32(%rsp)
	movaps	%xmm0, 16(%rsp)
	movq	-16(%rax), %r9
	movq	%r9, 48(%rsp)
	movzbl	-8(%rax), %r9d
	movups	(%rax), %xmm0
	movups	16(%rax), %xmm1
	movaps	%xmm1, -16(%rsp)
	movaps	%xmm0, -32(%rsp)
	movq	32(%rax), %r10
	movq	%r10, (%rsp)
	movq	%r8, -56(%rdi)
	movaps	16(%rsp), %xmm0
	movaps	32(%rsp), %xmm1
	movups	%xmm0, -48(%rdi)
	movups	%xmm1, -32(%rdi)
	movq	48(%rsp), %r8
	movq	%r8, -16(%rdi)
	movq	%r9, -8(%rdi)
	movaps	-32(%rsp), %xmm0
	movaps	-16(%rsp), %xmm1
	movups	%xmm0, (%rdi)
	movups	%xmm1, 16(%rdi)
	movq	(%rsp), %r8
	movq	%r8, 32(%rdi)
	movq	%rcx, -56(%rax)
	movaps	-80(%rsp), %xmm0
	movaps	-64(%rsp), %xmm1
	movups	%xmm0, -48(%rax)
	movups	%xmm1, -32(%rax)
	movq	-48(%rsp), %rcx
	movq	%rcx, -16(%rax)
	movq	%rsi, -8(%rax)
	movaps	-128(%rsp), %xmm0
	movaps	-112(%rsp), %xmm1
	movups	%xmm0, (%rax)
	movups	%xmm1, 16(%rax)
	movq	-96(%rsp), %rcx
	movq	%rcx, 32(%rax)
	addq	$96, %rdi
	addq	$-96, %rax
	decq	%rdx
	jne	1b
	addq	$56, %rsp
	retq
2:
	.size	"core::slice::edits::mirror::<31'mime_base::database::pair::Pair>", 2b-"core::slice::edits::mirror::<31'mime_base::database::pair::Pair>"

	.text
	.p2align	4
	.type	"core::slice::edits::mirror::<31'mime_store::text_pair::TextPair>",@function
"core::slice::edits::mirror::<31'mime_store::text_pair::TextPair>":
	movq	%rdx, %rax
	shlq	$5, %rax
	addq	%rsi, %rax
	addq	$-32, %rax
	.p2align	4
1:
	movups	(%rdi), %xmm0
	movups	16(%rdi), %xmm1
	movaps	%xmm1, -24(%rsp)
	movaps	%xmm0, -40(%rsp)
	movups	(%rax), %xmm0
	movups	16(%rax), %xmm1
	movups	%xmm0, (%rdi)
	movups	%xmm1, 16(%rdi)
	movaps	-40(%rsp), %xmm0
	movaps	-24(%rsp), %xmm1
	movups	%xmm1, 16(%rax)
	movups	%xmm0, (%rax)
	addq	$32, %rdi
	addq	$-32, %rax
	decq	%rdx
	jne	1b
	retq
2:
	.size	"core::slice::edits::mirror::<31'mime_store::text_pair::TextPair>", 2b-"core::slice::edits::mirror::<31'mime_store::text_pair::TextPair>"

	.text
	.p2align	4
	.type	"core::slice::edits::mirror::<35'mime_base::database::rule::GlobRule>",@function
"core::slice::edits::mirror::<35'mime_base::database::rule::GlobRule>":
	imulq	$104, %rdx, %rax
	addq	%rsi, %rax
	addq	$-104, %rax
	.p2align	4
1:
	movq	96(%rdi), %rcx
	movq	%rcx, -8(%rsp)
	movups	80(%rdi), %xmm0
	movaps	%xmm0, -24(%rsp)
	movups	64(%rdi), %xmm0
	movaps	%xmm0, -40(%rsp)
	movups	(%rdi), %xmm0
	movups	16(%rdi), %xmm1
	movups	32(%rdi), %xmm2
	movups	48(%rdi), %xmm3
	movaps	%xmm3, -56(%rsp)
	movaps	%xmm2, -72(%rsp)
	movaps	%xmm1, -88(%rsp)
	movaps	%xmm0, -104(%rsp)
	movq	96(%rax), %rcx
	movups	80(%rax), %xmm0
	movups	64(%rax), %xmm1
	movups	(%rax), %xmm2
	movups	16(%rax), %xmm3
	movups	32(%rax), %xmm4
	movups	48(%rax), %xmm5
	movups	%xmm2, (%rdi)
	movups	%xmm3, 16(%rdi)
	movups	%xmm4, 32(%rdi)
	movups	%xmm5, 48(%rdi)
	movups	%xmm1, 64(%rdi)
	movups	%xmm0, 80(%rdi)
	movq	%rcx, 96(%rdi)
	movq	-8(%rsp), %rcx
	movq	%rcx, 96(%rax)
	movaps	-24(%rsp), %xmm0
	movups	%xmm0, 80(%rax)
	movaps	-40(%rsp), %xmm0
	movups	%xmm0, 64(%rax)
	movaps	-104(%rsp), %xmm0
	movaps	-88(%rsp), %xmm1
	movaps	-72(%rsp), %xmm2
	movaps	-56(%rsp), %xmm3
	movups	%xmm3, 48(%rax)
	movups	%xmm2, 32(%rax)
	movups	%xmm1, 16(%rax)
	movups	%xmm0, (%rax)
	addq	$104, %rdi
	addq	$-104, %rax
	decq	%rdx
	jne	1b
	retq
2:
	.size	"core::slice::edits::mirror::<35'mime_base::database::rule::GlobRule>", 2b-"core::slice::edits::mirror::<35'mime_base::database::rule::GlobRule>"

	.text
	.p2align	4
	.type	"core::slice::edits::mirror::<35'mime_store::stored_rule::StoredRule>",@function
"core::slice::edits::mirror::<35'mime_store::stored_rule::StoredRule>":
	movq	%rdx, %rax
	shlq	$5, %rax
	addq	%rsi, %rax
	addq	$-32, %rax
	.p2align	4
1:
	movups	(%rdi), %xmm0
	movups	16(%rdi), %xmm1
	movaps	%xmm1, -24(%rsp)
	movaps	%xmm0, -40(%rsp)
	movups	(%rax), %xmm0
	movups	16(%rax), %xmm1
	movups	%xmm0, (%rdi)
	movups	%xmm1, 16(%rdi)
	movaps	-40(%rsp), %xmm0
	movaps	-24(%rsp), %xmm1
	movups	%xmm1, 16(%rax)
	movups	%xmm0, (%rax)
	addq	$32, %rdi
	addq	$-32, %rax
	decq	%rdx
	jne	1b
	retq
2:
	.size	"core::slice::edits::mirror::<35'mime_store::stored_rule::StoredRule>", 2b-"core::slice::edits::mirror::<35'mime_store::stored_rule::StoredRule>"

	.text
	.p2align	4
	.type	"core::slice::edits::mirror::<39'(,,)::<i64,3'&[](*,i64,),3'&[](*,i64,)>>",@function
"core::slice::edits::mirror::<39'(,,)::<i64,3'&[](*,i64,),3'&[](*,i64,)>>":
	leaq	(%rdx,%rdx,4), %rax
	leaq	(%rsi,%rax,8), %rax
	addq	$-40, %rax
	.p2align	4
1:
	movq	32(%rdi), %rcx
	movq	%rcx, -8(%rsp)
	movups	(%rdi), %xmm0
	movups	16(%rdi), %xmm1
	movaps	%xmm1, -24(%rsp)
	movaps	%xmm0, -40(%rsp)
	movq	32(%rax), %rcx
	movups	(%rax), %xmm0
	movups	16(%rax), %xmm1
	movups	%xmm0, (%rdi)
	movups	%xmm1, 16(%rdi)
	movq	%rcx, 32(%rdi)
	movq	-8(%rsp), %rcx
	movq	%rcx, 32(%rax)
	movaps	-40(%rsp), %xmm0
	movaps	-24(%rsp), %xmm1
	movups	%xmm1, 16(%rax)
	movups	%xmm0, (%rax)
	addq	$40, %rdi
	addq	$-40, %rax
	decq	%rdx
	jne	1b
	retq
2:
	.size	"core::slice::edits::mirror::<39'(,,)::<i64,3'&[](*,i64,),3'&[](*,i64,)>>", 2b-"core::slice::edits::mirror::<39'(,,)::<i64,3'&[](*,i64,),3'&[](*,i64,)>>"

	.section	.rodata.cst16,"aM",@progbits,16
	.p2align	4, 0x0
1:
	.byte	14,15,12,13,10,11,8,9,6,7,4,5,2,3,0,1
	.text
	.p2align	4
	.type	"core::slice::edits::mirror::<i16>",@function
"core::slice::edits::mirror::<i16>":
	leaq	(%rdi,%rdx,2), %rax
	leaq	(%rsi,%rdx,2), %rcx
	cmpq	%rcx, %rdi
	setb	%cl
	cmpq	%rax, %rsi
	setb	%al
	testb	%al, %cl
	je	2f
	xorl	%eax, %eax
	jmp	4f
2:
	movabsq	$9223372036854775800, %rax
	andq	%rdx, %rax
	movq	%rdx, %rcx
	andq	$-8, %rcx
	negq	%rcx
	leaq	(%rsi,%rdx,2), %r8
	addq	$-16, %r8
	xorl	%r9d, %r9d
	movq	%rdi, %r10
	.p2align	4
3:
	movdqu	(%r10), %xmm0
	movdqu	(%r8,%r9,2), %xmm1
	movdqa	1b(%rip), %xmm2
	pshufb	%xmm2, %xmm1
	movdqu	%xmm1, (%r10)
	pshufb	%xmm2, %xmm0
	movdqu	%xmm0, (%r8,%r9,2)
	addq	$-8, %r9
	addq	$16, %r10
	cmpq	%r9, %rcx
	jne	3b
	cmpq	%rax, %rdx
	je	7f
4:
	movq	%rax, %rcx
	orq	$1, %rcx
	testb	$1, %dl
	je	5f
	movq	%rax, %r8
	notq	%r8
	addq	%rdx, %r8
	movzwl	(%rdi,%rax,2), %r9d
	movzwl	(%rsi,%r8,2), %r10d
	movw	%r10w, (%rdi,%rax,2)
	movw	%r9w, (%rsi,%r8,2)
	movq	%rcx, %rax
5:
	cmpq	%rcx, %rdx
	je	7f
	subq	%rax, %rdx
	leaq	(%rdi,%rax,2), %rax
	addq	$2, %rax
	.p2align	4
6:
	movzwl	-2(%rax), %ecx
	movzwl	-2(%rsi,%rdx,2), %edi
	movw	%di, -2(%rax)
	movw	%cx, -2(%rsi,%rdx,2)
	movzwl	(%rax), %ecx
	movzwl	-4(%rsi,%rdx,2), %edi
	movw	%di, (%rax)
	movw	%cx, -4(%rsi,%rdx,2)
	addq	$4, %rax
	addq	$-2, %rdx
	jne	6b
7:
	retq
8:
	.size	"core::slice::edits::mirror::<i16>", 8b-"core::slice::edits::mirror::<i16>"

	.text
	.p2align	4
	.type	"core::slice::edits::mirror::<i32>",@function
"core::slice::edits::mirror::<i32>":
	leaq	(%rdi,%rsi,4), %r8
	leaq	(%r8,%rcx,4), %rax
	leaq	(%rdx,%rcx,4), %r9
	cmpq	%r9, %r8
	setb	%r9b
	cmpq	%rax, %rdx
	setb	%al
	testb	%al, %r9b
	je	1f
	xorl	%eax, %eax
	jmp	3f
1:
	movabsq	$9223372036854775804, %rax
	andq	%rcx, %rax
	movq	%rcx, %r9
	andq	$-4, %r9
	negq	%r9
	leaq	(%rdx,%rcx,4), %r10
	addq	$-16, %r10
	xorl	%r11d, %r11d
	.p2align	4
2:
	movdqu	(%r8), %xmm0
	movdqu	(%r10,%r11,4), %xmm1
	pshufd	$27, %xmm1, %xmm1
	movdqu	%xmm1, (%r8)
	pshufd	$27, %xmm0, %xmm0
	movdqu	%xmm0, (%r10,%r11,4)
	addq	$-4, %r11
	addq	$16, %r8
	cmpq	%r11, %r9
	jne	2b
	cmpq	%rax, %rcx
	je	6f
3:
	movq	%rax, %r8
	orq	$1, %r8
	testb	$1, %cl
	je	4f
	leaq	(%rax,%rsi), %r9
	notq	%rax
	addq	%rcx, %rax
	movl	(%rdi,%r9,4), %r10d
	movl	(%rdx,%rax,4), %r11d
	movl	%r11d, (%rdi,%r9,4)
	movl	%r10d, (%rdx,%rax,4)
	movq	%r8, %rax
4:
	cmpq	%r8, %rcx
	je	6f
	addq	%rax, %rsi
	leaq	(%rdi,%rsi,4), %rsi
	addq	$4, %rsi
	subq	%rax, %rcx
	.p2align	4
5:
	movl	-4(%rsi), %eax
	movl	-4(%rdx,%rcx,4), %edi
	movl	%edi, -4(%rsi)
	movl	%eax, -4(%rdx,%rcx,4)
	movl	(%rsi), %eax
	movl	-8(%rdx,%rcx,4), %edi
	movl	%edi, (%rsi)
	movl	%eax, -8(%rdx,%rcx,4)
	addq	$8, %rsi
	addq	$-2, %rcx
	jne	5b
6:
	retq
7:
	.size	"core::slice::edits::mirror::<i32>", 7b-"core::slice::edits::mirror::<i32>"

	.text
	.p2align	4
	.type	"core::slice::edits::mirror::<i64>",@function
"core::slice::edits::mirror::<i64>":
	leaq	(%rdi,%rsi,8), %r8
	leaq	(%r8,%rcx,8), %rax
	leaq	(%rdx,%rcx,8), %r9
	cmpq	%r9, %r8
	setb	%r9b
	cmpq	%rax, %rdx
	setb	%al
	testb	%al, %r9b
	je	1f
	xorl	%eax, %eax
	jmp	3f
1:
	movabsq	$9223372036854775806, %rax
	andq	%rcx, %rax
	movq	%rcx, %r9
	andq	$-2, %r9
	negq	%r9
	leaq	(%rdx,%rcx,8), %r10
	addq	$-16, %r10
	xorl	%r11d, %r11d
	.p2align	4
2:
	movdqu	(%r8), %xmm0
	movdqu	(%r10,%r11,8), %xmm1
	pshufd	$78, %xmm1, %xmm1
	movdqu	%xmm1, (%r8)
	pshufd	$78, %xmm0, %xmm0
	movdqu	%xmm0, (%r10,%r11,8)
	addq	$-2, %r11
	addq	$16, %r8
	cmpq	%r11, %r9
	jne	2b
	cmpq	%rax, %rcx
	je	6f
3:
	movq	%rax, %r8
	orq	$1, %r8
	testb	$1, %cl
	je	4f
	leaq	(%rax,%rsi), %r9
	notq	%rax
	addq	%rcx, %rax
	movq	(%rdi,%r9,8), %r10
	movq	(%rdx,%rax,8), %r11
	movq	%r11, (%rdi,%r9,8)
	movq	%r10, (%rdx,%rax,8)
	movq	%r8, %rax
4:
	cmpq	%r8, %rcx
	je	6f
	addq	%rax, %rsi
	leaq	(%rdi,%rsi,8), %rsi
	addq	$8, %rsi
	subq	%rax, %rcx
	.p2align	4
5:
	movq	-8(%rsi), %rax
	movq	-8(%rdx,%rcx,8), %rdi
	movq	%rdi, -8(%rsi)
	movq	%rax, -8(%rdx,%rcx,8)
	movq	(%rsi), %rax
	movq	-16(%rdx,%rcx,8), %rdi
	movq	%rdi, (%rsi)
	movq	%rax, -16(%rdx,%rcx,8)
	addq	$16, %rsi
	addq	$-2, %rcx
	jne	5b
6:
	retq
7:
	.size	"core::slice::edits::mirror::<i64>", 7b-"core::slice::edits::mirror::<i64>"

	.section	.rodata.cst16,"aM",@progbits,16
	.p2align	4, 0x0
1:
	.byte	15,14,13,12,11,10,9,8,7,6,5,4,3,2,1,0
2:
	.byte	7,6,5,4,3,2,1,0
	.zero	1
	.zero	1
	.zero	1
	.zero	1
	.zero	1
	.zero	1
	.zero	1
	.zero	1
3:
	.byte	7,6,5,4,3,2,1,0,0,0,0,0,0,0,0,0
	.text
	.p2align	4
	.type	"core::slice::edits::mirror::<i8>",@function
"core::slice::edits::mirror::<i8>":
	pushq	%rbp
	pushq	%r15
	pushq	%r14
	pushq	%rbx
	leaq	(%rdi,%rsi), %rax
	leaq	(%rdx,%rcx), %r8
	leaq	(%rax,%rcx), %r9
	cmpq	%r8, %rax
	setb	%r10b
	cmpq	%r9, %rdx
	setb	%r9b
	testb	%r9b, %r10b
	je	4f
	xorl	%r9d, %r9d
	jmp	9f
4:
	movabsq	$9223372036854775776, %r10
	cmpq	$32, %rcx
	jae	5f
	xorl	%r9d, %r9d
	jmp	7f
5:
	movq	%rcx, %r9
	andq	%r10, %r9
	movq	%rcx, %r11
	andq	$-32, %r11
	negq	%r11
	leaq	(%rcx,%rdx), %rbx
	addq	$-16, %rbx
	leaq	(%rsi,%rdi), %r14
	addq	$16, %r14
	xorl	%r15d, %r15d
	.p2align	4
6:
	movdqu	-16(%r14), %xmm0
	movdqu	(%r14), %xmm1
	movdqu	-16(%rbx,%r15), %xmm2
	movdqu	(%rbx,%r15), %xmm3
	movdqa	1b(%rip), %xmm4
	pshufb	%xmm4, %xmm3
	pshufb	%xmm4, %xmm2
	movdqu	%xmm3, -16(%r14)
	movdqu	%xmm2, (%r14)
	pshufb	%xmm4, %xmm0
	pshufb	%xmm4, %xmm1
	movdqu	%xmm0, (%rbx,%r15)
	movdqu	%xmm1, -16(%rbx,%r15)
	addq	$-32, %r15
	addq	$32, %r14
	cmpq	%r15, %r11
	jne	6b
	cmpq	%r9, %rcx
	je	12f
	testb	$24, %cl
	je	9f
7:
	movq	%r9, %r11
	addq	$24, %r10
	movq	%r10, %r9
	andq	%rcx, %r9
	movq	%rcx, %r10
	andq	$-8, %r10
	negq	%r10
	leaq	(%rcx,%rdx), %rbx
	addq	$-8, %rbx
	leaq	(%rax,%r11), %r14
	negq	%r11
	.p2align	4
8:
	movq	(%r14), %xmm0
	movq	(%rbx,%r11), %xmm1
	movq	3b(%rip), %xmm2
	pshufb	%xmm2, %xmm1
	movq	%xmm1, (%r14)
	pshufb	%xmm2, %xmm0
	movq	%xmm0, (%rbx,%r11)
	addq	$-8, %r11
	addq	$8, %r14
	cmpq	%r11, %r10
	jne	8b
	cmpq	%r9, %rcx
	je	12f
9:
	movq	%r9, %r10
	orq	$1, %r10
	testb	$1, %cl
	je	10f
	movq	%r9, %r11
	notq	%r11
	movzbl	(%rax,%r9), %ebx
	movzbl	(%r8,%r11), %ebp
	movb	%bpl, (%rax,%r9)
	movb	%bl, (%r8,%r11)
	movq	%r10, %r9
10:
	cmpq	%r10, %rcx
	je	12f
	addq	%r9, %rsi
	leaq	(%rdi,%rsi), %rax
	incq	%rax
	subq	%r9, %rcx
	.p2align	4
11:
	movzbl	-1(%rax), %esi
	movzbl	-1(%rdx,%rcx), %edi
	movb	%dil, -1(%rax)
	movb	%sil, -1(%rdx,%rcx)
	movzbl	(%rax), %esi
	movzbl	-2(%rdx,%rcx), %edi
	movb	%dil, (%rax)
	movb	%sil, -2(%rdx,%rcx)
	addq	$2, %rax
	addq	$-2, %rcx
	jne	11b
12:
	popq	%rbx
	popq	%r14
	popq	%r15
	popq	%rbp
	retq
13:
	.size	"core::slice::edits::mirror::<i8>", 13b-"core::slice::edits::mirror::<i8>"

	.text
	.p2align	4
	.type	"core::slice::edits::slice+T::reverse::<25'mime_base::magic::Section>",@function
"core::slice::edits::slice+T::reverse::<25'mime_base::magic::Section>":
	cmpq	$15, %rsi
	jbe	1f
	movq	%rsi, %rdx
	shrq	%rdx
	subq	%rdx, %rsi
	leaq	(%rsi,%rsi,4), %rsi
	shlq	$4, %rsi
	addq	%rdi, %rsi
	jmp	"core::slice::edits::mirror::<25'mime_base::magic::Section>"
1:
	cmpq	$2, %rsi
	jb	6f
	pushq	%rbx
	subq	$32, %rsp
	leaq	-2(%rsi), %rax
	shrq	%rax
	incq	%rax
	leaq	(%rsi,%rsi,4), %rcx
	shlq	$4, %rcx
	addq	%rdi, %rcx
	addq	$-80, %rcx
	decq	%rsi
	xorl	%edx, %edx
	jmp	4f
	.p2align	4
2:
	movl	(%rdi), %r8d
	movzbl	8(%rdi), %r9d
	movq	48(%rdi), %r10
	movq	%r10, -32(%rsp)
	movups	32(%rdi), %xmm0
	movaps	%xmm0, -48(%rsp)
	movups	16(%rdi), %xmm0
	movaps	%xmm0, -64(%rsp)
	movq	72(%rdi), %r10
	movq	%r10, -112(%rsp)
	movups	56(%rdi), %xmm0
	movaps	%xmm0, -128(%rsp)
	movl	(%rcx), %r10d
	movzbl	8(%rcx), %r11d
	movups	32(%rcx), %xmm0
	movaps	%xmm0, (%rsp)
	movups	16(%rcx), %xmm0
	movaps	%xmm0, -16(%rsp)
	movq	48(%rcx), %rbx
	movq	%rbx, 16(%rsp)
	movups	56(%rcx), %xmm0
	movaps	%xmm0, -96(%rsp)
	movq	72(%rcx), %rbx
	movq	%rbx, -80(%rsp)
	movl	%r10d, (%rdi)
	movq	%r11, 8(%rdi)
	movaps	-16(%rsp), %xmm0
	movaps	(%rsp), %xmm1
	movups	%xmm0, 16(%rdi)
	movups	%xmm1, 32(%rdi)
	movq	16(%rsp), %r10
	movq	%r10, 48(%rdi)
	movaps	-96(%rsp), %xmm0
	movups	%xmm0, 56(%rdi)
	movq	-80(%rsp), %r10
	movq	%r10, 72(%rdi)
	movl	%r8d, (%rcx)
	movq	%r9, 8(%rcx)
	movaps	-64(%rsp), %xmm0
	movaps	-48(%rsp), %xmm1
	movups	%xmm0, 16(%rcx)
	movups	%xmm1, 32(%rcx)
	movq	-32(%rsp), %r8
	movq	%r8, 48(%rcx)
	movaps	-128(%rsp), %xmm0
	movups	%xmm0, 56(%rcx)
	movq	-112(%rsp), %r8
	movq	%r8, 72(%rcx)
3:
	incq	%rdx
	addq	$80, %rdi
	addq	$-80, %rcx
	decq	%rsi
	cmpq	%rdx, %rax
	je	5f
4:
	cmpq	%rsi, %rdx
	jb	2b
	jbe	3b
	movl	(%rcx), %r8d
	movzbl	8(%rcx), %r9d
	movq	48(%rcx), %r10
	movq	%r10, -32(%rsp)
	movups	32(%rcx), %xmm0
	movaps	%xmm0, -48(%rsp)
	movups	16(%rcx), %xmm0
	movaps	%xmm0, -64(%rsp)
	movq	72(%rcx), %r10
	movq	%r10, -112(%rsp)
	movups	56(%rcx), %xmm0
	movaps	%xmm0, -128(%rsp)
	movl	(%rdi), %r10d
	movzbl	8(%rdi), %r11d
	movups	32(%rdi), %xmm0
	movaps	%xmm0, (%rsp)
	movups	16(%rdi), %xmm0
	movaps	%xmm0, -16(%rsp)
	movq	48(%rdi), %rbx
	movq	%rbx, 16(%rsp)
	movups	56(%rdi), %xmm0
	movaps	%xmm0, -96(%rsp)
	movq	72(%rdi), %rbx
	movq	%rbx, -80(%rsp)
	movl	%r10d, (%rcx)
	movq	%r11, 8(%rcx)
	movaps	-16(%rsp), %xmm0
	movaps	(%rsp), %xmm1
	movups	%xmm0, 16(%rcx)
	movups	%xmm1, 32(%rcx)
	movq	16(%rsp), %r10
	movq	%r10, 48(%rcx)
	movaps	-96(%rsp), %xmm0
	movups	%xmm0, 56(%rcx)
	movq	-80(%rsp), %r10
	movq	%r10, 72(%rcx)
	movl	%r8d, (%rdi)
	movq	%r9, 8(%rdi)
	movaps	-64(%rsp), %xmm0
	movaps	-48(%rsp), %xmm1
	movups	%xmm0, 16(%rdi)
	movups	%xmm1, 32(%rdi)
	movq	-32(%rsp), %r8
	movq	%r8, 48(%rdi)
	movaps	-128(%rsp), %xmm0
	movups	%xmm0, 56(%rdi)
	movq	-112(%rsp), %r8
	movq	%r8, 72(%rdi)
	jmp	3b
5:
	addq	$32, %rsp
	popq	%rbx
6:
	retq
7:
	.size	"core::slice::edits::slice+T::reverse::<25'mime_base::magic::Section>", 7b-"core::slice::edits::slice+T::reverse::<25'mime_base::magic::Section>"

	.text
	.p2align	4
	.type	"core::slice::edits::slice+T::swap_with_slice::<i32>",@function
"core::slice::edits::slice+T::swap_with_slice::<i32>":
	testq	%rsi, %rsi
	je	7f
	cmpq	$8, %rsi
	jb	1f
	leaq	(%rdi,%rsi,4), %rax
	leaq	(%rdx,%rsi,4), %rcx
	cmpq	%rcx, %rdi
	setb	%cl
	cmpq	%rax, %rdx
	setb	%al
	testb	%al, %cl
	je	5f
1:
	xorl	%eax, %eax
2:
	movq	%rax, %rcx
	orq	$1, %rcx
	testb	$1, %sil
	je	3f
	movl	(%rdi,%rax,4), %r8d
	movl	(%rdx,%rax,4), %r9d
	movl	%r9d, (%rdi,%rax,4)
	movl	%r8d, (%rdx,%rax,4)
	movq	%rcx, %rax
3:
	cmpq	%rcx, %rsi
	je	7f
	.p2align	4
4:
	movl	(%rdi,%rax,4), %ecx
	movl	(%rdx,%rax,4), %r8d
	movl	%r8d, (%rdi,%rax,4)
	movl	%ecx, (%rdx,%rax,4)
	movl	4(%rdi,%rax,4), %ecx
	movl	4(%rdx,%rax,4), %r8d
	movl	%r8d, 4(%rdi,%rax,4)
	movl	%ecx, 4(%rdx,%rax,4)
	addq	$2, %rax
	cmpq	%rax, %rsi
	jne	4b
	jmp	7f
5:
	movq	%rsi, %rax
	andq	$-8, %rax
	xorl	%ecx, %ecx
	.p2align	4
6:
	movups	(%rdi,%rcx,4), %xmm0
	movups	16(%rdi,%rcx,4), %xmm1
	movups	(%rdx,%rcx,4), %xmm2
	movups	16(%rdx,%rcx,4), %xmm3
	movups	%xmm2, (%rdi,%rcx,4)
	movups	%xmm3, 16(%rdi,%rcx,4)
	movups	%xmm0, (%rdx,%rcx,4)
	movups	%xmm1, 16(%rdx,%rcx,4)
	addq	$8, %rcx
	cmpq	%rcx, %rax
	jne	6b
	cmpq	%rax, %rsi
	jne	2b
7:
	retq
8:
	.size	"core::slice::edits::slice+T::swap_with_slice::<i32>", 8b-"core::slice::edits::slice+T::swap_with_slice::<i32>"

	.text
	.p2align	4
	.type	"core::slice::edits::slice+T::swap_with_slice::<i8>",@function
"core::slice::edits::slice+T::swap_with_slice::<i8>":
	testq	%rsi, %rsi
	je	5f
	cmpq	$4, %rsi
	jb	1f
	leaq	(%rdi,%rsi), %rax
	leaq	(%rdx,%rsi), %rcx
	cmpq	%rcx, %rdi
	setb	%cl
	cmpq	%rax, %rdx
	setb	%al
	testb	%al, %cl
	je	6f
1:
	xorl	%eax, %eax
2:
	movq	%rax, %rcx
	orq	$1, %rcx
	testb	$1, %sil
	je	3f
	movzbl	(%rdi,%rax), %r8d
	movzbl	(%rdx,%rax), %r9d
	movb	%r9b, (%rdi,%rax)
	movb	%r8b, (%rdx,%rax)
	movq	%rcx, %rax
3:
	cmpq	%rcx, %rsi
	je	5f
	.p2align	4
4:
	movzbl	(%rdi,%rax), %ecx
	movzbl	(%rdx,%rax), %r8d
	movb	%r8b, (%rdi,%rax)
	movb	%cl, (%rdx,%rax)
	movzbl	1(%rdi,%rax), %ecx
	movzbl	1(%rdx,%rax), %r8d
	movb	%r8b, 1(%rdi,%rax)
	movb	%cl, 1(%rdx,%rax)
	addq	$2, %rax
	cmpq	%rax, %rsi
	jne	4b
5:
	retq
6:
	cmpq	$32, %rsi
	jae	7f
	xorl	%eax, %eax
	jmp	9f
7:
	movq	%rsi, %rax
	andq	$-32, %rax
	xorl	%ecx, %ecx
	.p2align	4
8:
	movups	(%rdi,%rcx), %xmm0
	movups	16(%rdi,%rcx), %xmm1
	movups	(%rdx,%rcx), %xmm2
	movups	16(%rdx,%rcx), %xmm3
	movups	%xmm2, (%rdi,%rcx)
	movups	%xmm3, 16(%rdi,%rcx)
	movups	%xmm0, (%rdx,%rcx)
	movups	%xmm1, 16(%rdx,%rcx)
	addq	$32, %rcx
	cmpq	%rcx, %rax
	jne	8b
	cmpq	%rax, %rsi
	je	5b
	testb	$28, %sil
	je	2b
9:
	movq	%rax, %rcx
	movq	%rsi, %rax
	andq	$-4, %rax
	.p2align	4
10:
	movl	(%rdi,%rcx), %r8d
	movl	(%rdx,%rcx), %r9d
	movl	%r9d, (%rdi,%rcx)
	movl	%r8d, (%rdx,%rcx)
	addq	$4, %rcx
	cmpq	%rcx, %rax
	jne	10b
	cmpq	%rax, %rsi
	je	5b
	jmp	2b
11:
	.size	"core::slice::edits::slice+T::swap_with_slice::<i8>", 11b-"core::slice::edits::slice+T::swap_with_slice::<i8>"

	.text
	.p2align	4
	.type	"core::slice::edits::turn_through_room::<i32>",@function
"core::slice::edits::turn_through_room::<i32>":
	pushq	%rbp
	pushq	%r15
	pushq	%r14
	pushq	%r13
	pushq	%r12
	pushq	%rbx
	subq	$3072, %rsp
	movq	$0, (%rsp)
	subq	$1032, %rsp
	movq	%rcx, %r14
	movq	%rdx, %r15
	movq	%rsi, %r13
	movq	%rdi, %rbx
	movq	%rsi, %rbp
	subq	%rcx, %rbp
	movq	%rsp, %r12
	movl	$4096, %edx
	movq	%r12, %rdi
	xorl	%esi, %esi
	callq	memset@PLT
	cmpq	%r15, %r14
	jne	10f
	leaq	(,%r14,4), %r15
	movq	%rsp, %rdi
	movq	%rbx, %rsi
	movq	%r15, %rdx
	callq	memcpy@PLT
	cmpq	$513, %rbp
	jb	11f
	movabsq	$4611686018427387896, %rcx
	movq	%r15, %rdx
	negq	%rdx
	leaq	(%rbx,%r14,4), %rdi
	xorl	%esi, %esi
	movq	%rbx, %r8
	jmp	2f
	.p2align	4
1:
	addq	$512, %rsi
	movq	%rbp, %rax
	subq	%rsi, %rax
	addq	$2048, %rdi
	addq	$2048, %r8
	cmpq	$512, %rax
	jbe	12f
2:
	leaq	(%rsi,%r14), %rax
	cmpq	%rax, %rsi
	jae	4f
	leaq	(%r8,%r15), %rax
	cmpq	$32, %rdx
	jae	6f
	movl	$3, %r9d
	.p2align	4
3:
	movl	-12(%rax,%r9,4), %r10d
	movl	%r10d, -12(%r8,%r9,4)
	movl	-8(%rax,%r9,4), %r10d
	movl	%r10d, -8(%r8,%r9,4)
	movl	-4(%rax,%r9,4), %r10d
	movl	%r10d, -4(%r8,%r9,4)
	movl	(%rax,%r9,4), %r10d
	movl	%r10d, (%r8,%r9,4)
	addq	$4, %r9
	cmpq	$515, %r9
	jne	3b
	jmp	1b
	.p2align	4
4:
	testq	%rcx, %r14
	je	8f
	movl	$496, %eax
	.p2align	4
5:
	movups	32(%rdi,%rax,4), %xmm0
	movups	48(%rdi,%rax,4), %xmm1
	movups	%xmm1, 48(%r8,%rax,4)
	movups	%xmm0, 32(%r8,%rax,4)
	movups	(%rdi,%rax,4), %xmm0
	movups	16(%rdi,%rax,4), %xmm1
	movups	%xmm1, 16(%r8,%rax,4)
	movups	%xmm0, (%r8,%rax,4)
	addq	$-16, %rax
	cmpq	$-16, %rax
	jne	5b
	jmp	1b
	.p2align	4
6:
	movl	$12, %r9d
	.p2align	4
7:
	movups	-48(%rax,%r9,4), %xmm0
	movups	-32(%rax,%r9,4), %xmm1
	movups	%xmm0, -48(%r8,%r9,4)
	movups	%xmm1, -32(%r8,%r9,4)
	movups	-16(%rax,%r9,4), %xmm0
	movups	(%rax,%r9,4), %xmm1
	movups	%xmm0, -16(%r8,%r9,4)
	movups	%xmm1, (%r8,%r9,4)
	addq	$16, %r9
	cmpq	$524, %r9
	jne	7b
	jmp	1b
8:
	movl	$508, %eax
	.p2align	4
9:
	movl	12(%rdi,%rax,4), %r9d
	movl	%r9d, 12(%r8,%rax,4)
	movl	8(%rdi,%rax,4), %r9d
	movl	%r9d, 8(%r8,%rax,4)
	movl	4(%rdi,%rax,4), %r9d
	movl	%r9d, 4(%r8,%rax,4)
	movl	(%rdi,%rax,4), %r9d
	movl	%r9d, (%r8,%rax,4)
	addq	$-4, %rax
	cmpq	$-4, %rax
	jne	9b
	jmp	1b
10:
	leaq	(%rbx,%rbp,4), %rsi
	leaq	(,%r14,4), %r15
	movq	%r12, %rax
	subq	%rsi, %rax
	cmpq	%r15, %rax
	jae	18f
	testq	%r14, %r14
	je	25f
	movq	%rsp, %rdi
	movq	%r15, %rdx
	callq	memcpy@PLT
	jmp	19f
11:
	xorl	%esi, %esi
	movq	%rbp, %rax
12:
	leaq	(%rsi,%r14), %r9
	leaq	(,%r9,4), %r8
	leaq	(%rbx,%r9,4), %rdx
	leaq	(,%rsi,4), %rcx
	leaq	(%rbx,%rsi,4), %rdi
	cmpq	%r9, %rsi
	jae	24f
	cmpq	%rsi, %rbp
	je	32f
	xorl	%esi, %esi
	cmpq	$8, %rax
	jb	14f
	movq	%r15, %r9
	negq	%r9
	cmpq	$32, %r9
	jb	14f
	movl	%eax, %esi
	andl	$1016, %esi
	addq	%rbx, %r8
	addq	$16, %r8
	leaq	(%rcx,%rbx), %r9
	addq	$16, %r9
	xorl	%r10d, %r10d
	.p2align	4
13:
	movups	-16(%r8,%r10,4), %xmm0
	movups	(%r8,%r10,4), %xmm1
	movups	%xmm0, -16(%r9,%r10,4)
	movups	%xmm1, (%r9,%r10,4)
	addq	$8, %r10
	cmpq	%r10, %rsi
	jne	13b
	cmpq	%rsi, %rax
	je	32f
14:
	movq	%rax, %r9
	movq	%rsi, %r8
	andq	$3, %r9
	je	16f
	movq	%rsi, %r8
	.p2align	4
15:
	movl	(%rdx,%r8,4), %r10d
	movl	%r10d, (%rdi,%r8,4)
	incq	%r8
	decq	%r9
	jne	15b
16:
	subq	%rax, %rsi
	cmpq	$-4, %rsi
	ja	32f
	leaq	(%rcx,%r8,4), %rdx
	leaq	(%rbx,%rdx), %rcx
	addq	$12, %rcx
	addq	%rbx, %rdx
	leaq	(%rdx,%r14,4), %rdx
	addq	$12, %rdx
	subq	%r8, %rax
	xorl	%esi, %esi
	.p2align	4
17:
	movl	-12(%rdx,%rsi,4), %edi
	movl	%edi, -12(%rcx,%rsi,4)
	movl	-8(%rdx,%rsi,4), %edi
	movl	%edi, -8(%rcx,%rsi,4)
	movl	-4(%rdx,%rsi,4), %edi
	movl	%edi, -4(%rcx,%rsi,4)
	movl	(%rdx,%rsi,4), %edi
	movl	%edi, (%rcx,%rsi,4)
	addq	$4, %rsi
	cmpq	%rsi, %rax
	jne	17b
	jmp	32f
18:
	movq	%rsp, %rdi
	movq	%r15, %rdx
	callq	memcpy@PLT
	testq	%r14, %r14
	je	25f
19:
	cmpq	%r14, %r13
	je	23f
	xorl	%eax, %eax
	cmpq	$8, %rbp
	jb	21f
	movq	%r15, %rcx
	negq	%rcx
	cmpq	$32, %rcx
	jb	21f
	movq	%rbp, %rax
	andq	$-8, %rax
	movq	%rax, %rcx
	negq	%rcx
	leaq	-16(,%r13,4), %rdx
	subq	%r15, %rdx
	addq	%rbx, %rdx
	leaq	(%rbx,%r13,4), %rsi
	addq	$-16, %rsi
	xorl	%edi, %edi
	.p2align	4
20:
	movups	-16(%rdx,%rdi,4), %xmm0
	movups	(%rdx,%rdi,4), %xmm1
	movups	%xmm1, (%rsi,%rdi,4)
	movups	%xmm0, -16(%rsi,%rdi,4)
	addq	$-8, %rdi
	cmpq	%rdi, %rcx
	jne	20b
	cmpq	%rax, %rbp
	je	23f
21:
	subq	%r13, %r14
	negq	%rax
	leaq	-4(,%r13,4), %rcx
	subq	%r15, %rcx
	addq	%rbx, %rcx
	leaq	(%rbx,%r13,4), %rdx
	addq	$-4, %rdx
	.p2align	4
22:
	movl	(%rcx,%rax,4), %esi
	movl	%esi, (%rdx,%rax,4)
	decq	%rax
	cmpq	%rax, %r14
	jne	22b
23:
	movq	%rbx, %rax
	subq	%r12, %rax
	cmpq	%r15, %rax
	jmp	26f
24:
	cmpq	%rsi, %rbp
	je	32f
	cmpq	$8, %rax
	setb	%sil
	movabsq	$4611686018427387896, %r9
	testq	%r9, %r14
	sete	%r9b
	orb	%sil, %r9b
	je	27f
	xorl	%esi, %esi
	jmp	29f
25:
	movq	%rbx, %rax
	subq	%r12, %rax
	cmpq	%r15, %rax
	jb	34f
26:
	movq	%rsp, %rsi
	movq	%rbx, %rdi
	jmp	33f
27:
	movl	%eax, %esi
	andl	$1016, %esi
	movq	%rsi, %r9
	negq	%r9
	leaq	(%r8,%rax,4), %r8
	addq	%rbx, %r8
	addq	$-16, %r8
	leaq	(%rcx,%rax,4), %r10
	addq	%rbx, %r10
	addq	$-16, %r10
	xorl	%r11d, %r11d
	.p2align	4
28:
	movups	-16(%r8,%r11,4), %xmm0
	movups	(%r8,%r11,4), %xmm1
	movups	%xmm1, (%r10,%r11,4)
	movups	%xmm0, -16(%r10,%r11,4)
	addq	$-8, %r11
	cmpq	%r11, %r9
	jne	28b
	cmpq	%rsi, %rax
	je	32f
29:
	movq	%rsi, %r8
	orq	$1, %r8
	testb	$1, %al
	je	30f
	notq	%rsi
	addq	%rax, %rsi
	movl	(%rdx,%rsi,4), %edx
	movl	%edx, (%rdi,%rsi,4)
	movq	%r8, %rsi
30:
	cmpq	%r8, %rax
	je	32f
	leaq	(%rcx,%rax,4), %rcx
	leal	(,%rsi,4), %edi
	leaq	(%rcx,%r14,4), %rdx
	subq	%rdi, %rcx
	addq	%rbx, %rcx
	subq	%rdi, %rdx
	addq	%rbx, %rdx
	subq	%rax, %rsi
	xorl	%eax, %eax
	.p2align	4
31:
	movl	-4(%rdx,%rax,4), %edi
	movl	%edi, -4(%rcx,%rax,4)
	movl	-8(%rdx,%rax,4), %edi
	movl	%edi, -8(%rcx,%rax,4)
	addq	$-2, %rax
	cmpq	%rax, %rsi
	jne	31b
32:
	leaq	(%rbx,%rbp,4), %rdi
	movq	%rsp, %rsi
33:
	movq	%r15, %rdx
	callq	memcpy@PLT
34:
	addq	$4104, %rsp
	popq	%rbx
	popq	%r12
	popq	%r13
	popq	%r14
	popq	%r15
	popq	%rbp
	retq
35:
	.size	"core::slice::edits::turn_through_room::<i32>", 35b-"core::slice::edits::turn_through_room::<i32>"

	.text
	.p2align	4
	.type	"core::slice::edits::turn_through_room::<i8>",@function
"core::slice::edits::turn_through_room::<i8>":
	pushq	%r15
	pushq	%r14
	pushq	%r13
	pushq	%r12
	pushq	%rbx
	subq	$3072, %rsp
	movq	$0, (%rsp)
	subq	$1024, %rsp
	movq	%rcx, %rbx
	movq	%rdx, %r12
	movq	%rsi, %r15
	movq	%rdi, %r14
	movq	%rsi, %r13
	subq	%rcx, %r13
	movq	%rsp, %rdi
	movl	$4096, %edx
	xorl	%esi, %esi
	callq	memset@PLT
	cmpq	%r12, %rbx
	jne	10f
	movq	%rsp, %rdi
	movq	%r14, %rsi
	movq	%rbx, %rdx
	callq	memcpy@PLT
	cmpq	$2049, %r13
	jb	11f
	leaq	31(%rbx), %rdx
	leaq	(%r14,%rbx), %rsi
	addq	$2032, %rsi
	leaq	2032(%r14), %rdi
	leaq	(%r14,%rbx), %r8
	xorl	%eax, %eax
	movq	%r14, %r9
	jmp	2f
	.p2align	4
1:
	addq	$2048, %rax
	movq	%r13, %rcx
	subq	%rax, %rcx
	addq	$2048, %rsi
	addq	$2048, %rdi
	addq	$2048, %r8
	addq	$2048, %r9
	cmpq	$2048, %rcx
	jbe	12f
2:
	leaq	(%rax,%rbx), %rcx
	cmpq	%rcx, %rax
	jae	4f
	leaq	(%r9,%rbx), %rcx
	cmpq	$32, %rdx
	jae	6f
	movl	$3, %r10d
	.p2align	4
3:
	movzbl	-3(%rcx,%r10), %r11d
	movb	%r11b, -3(%r9,%r10)
	movzbl	-2(%rcx,%r10), %r11d
	movb	%r11b, -2(%r9,%r10)
	movzbl	-1(%rcx,%r10), %r11d
	movb	%r11b, -1(%r9,%r10)
	movzbl	(%rcx,%r10), %r11d
	movb	%r11b, (%r9,%r10)
	addq	$4, %r10
	cmpq	$2051, %r10
	jne	3b
	jmp	1b
	.p2align	4
4:
	cmpq	$32, %rbx
	jae	8f
	movl	$2048, %ecx
	.p2align	4
5:
	movzbl	-1(%r8,%rcx), %r10d
	movb	%r10b, -1(%r9,%rcx)
	movzbl	-2(%r8,%rcx), %r10d
	movb	%r10b, -2(%r9,%rcx)
	movzbl	-3(%r8,%rcx), %r10d
	movb	%r10b, -3(%r9,%rcx)
	movzbl	-4(%r8,%rcx), %r10d
	movb	%r10b, -4(%r9,%rcx)
	addq	$-4, %rcx
	jne	5b
	jmp	1b
	.p2align	4
6:
	movl	$112, %r10d
	.p2align	4
7:
	movups	-112(%rcx,%r10), %xmm0
	movups	-96(%rcx,%r10), %xmm1
	movups	%xmm0, -112(%r9,%r10)
	movups	%xmm1, -96(%r9,%r10)
	movups	-80(%rcx,%r10), %xmm0
	movups	-64(%rcx,%r10), %xmm1
	movups	%xmm0, -80(%r9,%r10)
	movups	%xmm1, -64(%r9,%r10)
	movups	-48(%rcx,%r10), %xmm0
	movups	-32(%rcx,%r10), %xmm1
	movups	%xmm0, -48(%r9,%r10)
	movups	%xmm1, -32(%r9,%r10)
	movups	-16(%rcx,%r10), %xmm0
	movups	(%rcx,%r10), %xmm1
	movups	%xmm0, -16(%r9,%r10)
	movups	%xmm1, (%r9,%r10)
	subq	$-128, %r10
	cmpq	$2160, %r10
	jne	7b
	jmp	1b
	.p2align	4
8:
	xorl	%ecx, %ecx
	.p2align	4
9:
	movups	-16(%rsi,%rcx), %xmm0
	movups	(%rsi,%rcx), %xmm1
	movups	%xmm1, (%rdi,%rcx)
	movups	%xmm0, -16(%rdi,%rcx)
	movups	-48(%rsi,%rcx), %xmm0
	movups	-32(%rsi,%rcx), %xmm1
	movups	%xmm1, -32(%rdi,%rcx)
	movups	%xmm0, -48(%rdi,%rcx)
	movups	-80(%rsi,%rcx), %xmm0
	movups	-64(%rsi,%rcx), %xmm1
	movups	%xmm1, -64(%rdi,%rcx)
	movups	%xmm0, -80(%rdi,%rcx)
	movups	-112(%rsi,%rcx), %xmm0
	movups	-96(%rsi,%rcx), %xmm1
	movups	%xmm1, -96(%rdi,%rcx)
	movups	%xmm0, -112(%rdi,%rcx)
	addq	$-128, %rcx
	cmpq	$-2048, %rcx
	jne	9b
	jmp	1b
10:
	leaq	(%r14,%r13), %rsi
	movq	%rsp, %rdi
	movq	%rbx, %rdx
	callq	memcpy@PLT
	testq	%rbx, %rbx
	je	40f
	cmpq	%rbx, %r15
	je	40f
	cmpq	$8, %r13
	setb	%al
	leaq	31(%rbx), %rcx
	cmpq	$32, %rcx
	setb	%cl
	orb	%al, %cl
	je	14f
	xorl	%eax, %eax
	jmp	21f
11:
	xorl	%eax, %eax
	movq	%r13, %rcx
12:
	leaq	(%rax,%rbx), %rdx
	cmpq	%rdx, %rax
	jae	13f
	cmpq	%rax, %r13
	je	39f
	addq	%r14, %rdx
	leaq	(%r14,%rax), %rsi
	cmpq	$4, %rcx
	setb	%dil
	leaq	31(%rbx), %r8
	cmpq	$32, %r8
	setb	%r8b
	orb	%dil, %r8b
	je	15f
	xorl	%edi, %edi
	jmp	27f
13:
	cmpq	%rax, %r13
	je	39f
	cmpq	$8, %rcx
	setb	%dl
	cmpq	$32, %rbx
	setb	%sil
	orb	%dl, %sil
	je	16f
	xorl	%edx, %edx
	jmp	35f
14:
	cmpq	$32, %r13
	jae	17f
	xorl	%eax, %eax
	jmp	19f
15:
	cmpq	$32, %rcx
	jae	23f
	xorl	%edi, %edi
	jmp	25f
16:
	cmpq	$32, %rcx
	jae	31f
	xorl	%edx, %edx
	jmp	33f
17:
	movq	%r13, %rax
	andq	$-32, %rax
	movq	%rax, %rcx
	negq	%rcx
	leaq	-16(%r15), %rdx
	subq	%rbx, %rdx
	addq	%r14, %rdx
	leaq	(%r14,%r15), %rsi
	addq	$-16, %rsi
	xorl	%edi, %edi
	.p2align	4
18:
	movups	-16(%rdx,%rdi), %xmm0
	movups	(%rdx,%rdi), %xmm1
	movups	%xmm1, (%rsi,%rdi)
	movups	%xmm0, -16(%rsi,%rdi)
	addq	$-32, %rdi
	cmpq	%rdi, %rcx
	jne	18b
	cmpq	%rax, %r13
	je	40f
	testb	$24, %r13b
	je	21f
19:
	movq	%rax, %rcx
	movq	%r13, %rax
	andq	$-8, %rax
	movq	%rax, %rdx
	negq	%rdx
	negq	%rcx
	leaq	-8(%r15), %rsi
	subq	%rbx, %rsi
	addq	%r14, %rsi
	leaq	(%r14,%r15), %rdi
	addq	$-8, %rdi
	.p2align	4
20:
	movq	(%rsi,%rcx), %r8
	movq	%r8, (%rdi,%rcx)
	addq	$-8, %rcx
	cmpq	%rcx, %rdx
	jne	20b
	cmpq	%rax, %r13
	je	40f
21:
	subq	%rax, %r15
	movq	%rbx, %rax
	notq	%rax
	addq	%r14, %rax
	.p2align	4
22:
	movzbl	(%rax,%r15), %ecx
	movb	%cl, -1(%r14,%r15)
	decq	%r15
	cmpq	%r15, %rbx
	jne	22b
	jmp	40f
23:
	movl	%ecx, %edi
	andl	$4064, %edi
	leaq	(%rbx,%rsi), %r8
	addq	$16, %r8
	leaq	(%rax,%r14), %r9
	addq	$16, %r9
	xorl	%r10d, %r10d
	.p2align	4
24:
	movups	-16(%r8,%r10), %xmm0
	movups	(%r8,%r10), %xmm1
	movups	%xmm0, -16(%r9,%r10)
	movups	%xmm1, (%r9,%r10)
	addq	$32, %r10
	cmpq	%r10, %rdi
	jne	24b
	cmpq	%rdi, %rcx
	je	39f
	testb	$28, %cl
	je	27f
25:
	movq	%rdi, %r8
	movl	%ecx, %edi
	andl	$4092, %edi
	.p2align	4
26:
	movl	(%rdx,%r8), %r9d
	movl	%r9d, (%rsi,%r8)
	addq	$4, %r8
	cmpq	%r8, %rdi
	jne	26b
	cmpq	%rdi, %rcx
	je	39f
27:
	movq	%rcx, %r9
	movq	%rdi, %r8
	andq	$3, %r9
	je	29f
	movq	%rdi, %r8
	.p2align	4
28:
	movzbl	(%rdx,%r8), %r10d
	movb	%r10b, (%rsi,%r8)
	incq	%r8
	decq	%r9
	jne	28b
29:
	subq	%rcx, %rdi
	cmpq	$-4, %rdi
	ja	39f
	leaq	(%rbx,%rsi), %rdx
	addq	$3, %rdx
	addq	%r14, %rax
	addq	$3, %rax
	.p2align	4
30:
	movzbl	-3(%rdx,%r8), %esi
	movb	%sil, -3(%rax,%r8)
	movzbl	-2(%rdx,%r8), %esi
	movb	%sil, -2(%rax,%r8)
	movzbl	-1(%rdx,%r8), %esi
	movb	%sil, -1(%rax,%r8)
	movzbl	(%rdx,%r8), %esi
	movb	%sil, (%rax,%r8)
	addq	$4, %r8
	cmpq	%r8, %rcx
	jne	30b
	jmp	39f
31:
	movl	%ecx, %edx
	andl	$4064, %edx
	movq	%rdx, %rsi
	negq	%rsi
	leaq	(%rcx,%rax), %r8
	leaq	(%r8,%r14), %rdi
	addq	%rbx, %rdi
	addq	$-16, %rdi
	addq	%r14, %r8
	addq	$-16, %r8
	xorl	%r9d, %r9d
	.p2align	4
32:
	movups	-16(%rdi,%r9), %xmm0
	movups	(%rdi,%r9), %xmm1
	movups	%xmm1, (%r8,%r9)
	movups	%xmm0, -16(%r8,%r9)
	addq	$-32, %r9
	cmpq	%r9, %rsi
	jne	32b
	cmpq	%rdx, %rcx
	je	39f
	testb	$24, %cl
	je	35f
33:
	movq	%rdx, %rsi
	leaq	(%rcx,%rax), %r8
	leaq	(%r8,%rbx), %rdi
	subq	%rdx, %rdi
	subq	%rdx, %r8
	movl	%ecx, %edx
	andl	$4088, %edx
	subq	%rdx, %rsi
	addq	%r14, %rdi
	addq	$-8, %rdi
	addq	%r14, %r8
	addq	$-8, %r8
	xorl	%r9d, %r9d
	.p2align	4
34:
	movq	(%rdi,%r9), %r10
	movq	%r10, (%r8,%r9)
	addq	$-8, %r9
	cmpq	%r9, %rsi
	jne	34b
	cmpq	%rdx, %rcx
	je	39f
35:
	movq	%rcx, %rdi
	movq	%rdx, %rsi
	andq	$3, %rdi
	je	37f
	leaq	(%rcx,%rax), %r9
	leaq	(%r9,%rbx), %rsi
	movq	%rdx, %r8
	notq	%r8
	addq	%r14, %rsi
	addq	%r8, %rsi
	addq	%r9, %r8
	addq	%r14, %r8
	negq	%rdi
	xorl	%r9d, %r9d
	.p2align	4
36:
	movzbl	(%rsi,%r9), %r10d
	movb	%r10b, (%r8,%r9)
	decq	%r9
	cmpq	%r9, %rdi
	jne	36b
	movq	%rdx, %rsi
	subq	%r9, %rsi
37:
	subq	%rcx, %rdx
	cmpq	$-4, %rdx
	ja	39f
	addq	%rcx, %rax
	movq	%rsi, %rdi
	notq	%rdi
	leaq	(%r14,%rax), %rdx
	addq	%rdi, %rdx
	addq	%rbx, %rax
	addq	%r14, %rax
	addq	%rdi, %rax
	subq	%rcx, %rsi
	xorl	%ecx, %ecx
	.p2align	4
38:
	movzbl	(%rax,%rcx), %edi
	movb	%dil, (%rdx,%rcx)
	movzbl	-1(%rax,%rcx), %edi
	movb	%dil, -1(%rdx,%rcx)
	movzbl	-2(%rax,%rcx), %edi
	movb	%dil, -2(%rdx,%rcx)
	movzbl	-3(%rax,%rcx), %edi
	movb	%dil, -3(%rdx,%rcx)
	addq	$-4, %rcx
	cmpq	%rcx, %rsi
	jne	38b
39:
	addq	%r13, %r14
40:
	movq	%rsp, %rsi
	movq	%r14, %rdi
	movq	%rbx, %rdx
	callq	memcpy@PLT
	addq	$4096, %rsp
	popq	%rbx
	popq	%r12
	popq	%r13
	popq	%r14
	popq	%r15
	retq
41:
	.size	"core::slice::edits::turn_through_room::<i8>", 41b-"core::slice::edits::turn_through_room::<i8>"

	.text
	.p2align	4
	.type	"core::slice::sort::merge::merge::<#12eb916b83b0f891>",@function
"core::slice::sort::merge::merge::<#12eb916b83b0f891>":
	pushq	%rbp
	pushq	%r15
	pushq	%r14
	pushq	%r13
	pushq	%r12
	pushq	%rbx
	subq	$24, %rsp
	movq	%rcx, %rbp
	movq	%rdx, %r12
	movq	%rsi, %r15
	movq	%rdi, %r14
	movq	%rsi, %rcx
	shrq	$2, %rcx
	cmpq	%rdx, %rcx
	setbe	%al
	movq	%rsi, %rbx
	subq	%rdx, %rbx
	cmpq	%rbx, %rcx
	setbe	%cl
	cmpq	$4097, %rsi
	jb	1f
	andb	%cl, %al
	jne	1f
	leaq	(,%r12,8), %rdx
	movq	(%rbp), %r13
	movq	8(%rbp), %rax
	movq	%rax, 16(%rsp)
	cmpq	%rbx, %r12
	jbe	11f
	movq	%rbp, 8(%rsp)
	leaq	(%r14,%rdx), %rsi
	leaq	(%rdx,%r13), %rbp
	leaq	(,%rbx,8), %r8
	movq	%rbp, %rax
	subq	%rsi, %rax
	cmpq	%r8, %rax
	jae	12f
	cmpq	%r12, %r15
	je	40f
	cmpq	$4, %rbx
	setb	%al
	movq	%r13, %rcx
	subq	%r14, %rcx
	cmpq	$32, %rcx
	setb	%cl
	orb	%al, %cl
	je	36f
	xorl	%eax, %eax
	jmp	38f
1:
	movq	(%rbp), %r13
	movq	8(%rbp), %rbx
	leaq	(,%r15,8), %rdx
	movq	%r13, %rax
	subq	%r14, %rax
	cmpq	%rdx, %rax
	jae	2f
	testq	%r15, %r15
	je	3f
	cmpq	$4, %r15
	setb	%cl
	cmpq	$32, %rax
	setb	%al
	orb	%cl, %al
	je	20f
	xorl	%eax, %eax
	jmp	22f
2:
	movq	%r13, %rdi
	movq	%r14, %rsi
	callq	memmove@PLT
3:
	testq	%r12, %r12
	sete	%al
	cmpq	%r12, %r15
	setbe	%cl
	orb	%al, %cl
	jne	7f
	xorl	%eax, %eax
	xorl	%edx, %edx
	movq	%r12, %rcx
	movq	%r15, %rsi
	.p2align	4
4:
	movq	%rcx, %rdi
	movl	(%r13,%rdx,8), %r8d
	movl	(%r13,%rcx,8), %r9d
	cmpl	%r9d, %r8d
	adcq	$0, %rcx
	cmpl	%r9d, %r8d
	cmovaeq	%rdx, %rdi
	movq	(%r13,%rdi,8), %rdi
	movq	%rdi, (%r14,%rax,8)
	sbbq	$-1, %rdx
	cmpq	%r12, %rdx
	jae	5f
	cmpq	%rsi, %rcx
	jae	5f
	movl	-8(%r13,%r12,8), %edi
	movl	-8(%r13,%rsi,8), %r8d
	cmpl	%r8d, %edi
	movq	%r12, %r9
	sbbq	$0, %r9
	cmpl	%r8d, %edi
	cmovaeq	%rsi, %r12
	adcq	$-1, %rsi
	movq	-8(%r13,%r12,8), %rdi
	movq	%rdi, -8(%r14,%r15,8)
	decq	%r15
	movq	%r9, %r12
5:
	incq	%rax
	cmpq	%r12, %rdx
	jae	6f
	cmpq	%rsi, %rcx
	jb	4b
6:
	cmpq	%r12, %rdx
	cmovbq	%rdx, %rcx
	shlq	$3, %rcx
	jmp	8f
7:
	xorl	%eax, %eax
	xorl	%ecx, %ecx
8:
	movq	%r15, %r8
	subq	%rax, %r8
	leaq	(%rcx,%r13), %rsi
	leaq	(%r14,%rax,8), %rdi
	leaq	(,%r8,8), %rdx
	movq	%rdi, %r9
	subq	%rsi, %r9
	cmpq	%rdx, %r9
	jae	10f
	cmpq	%rax, %r15
	je	58f
	cmpq	$8, %r8
	jb	9f
	shlq	$3, %rax
	leaq	(%rax,%r14), %rdx
	subq	%rsi, %rdx
	cmpq	$32, %rdx
	jae	34f
9:
	xorl	%edx, %edx
	jmp	56f
10:
	callq	memmove@PLT
	jmp	58f
11:
	movq	%r13, %rax
	subq	%r14, %rax
	cmpq	%rdx, %rax
	jae	13f
	testq	%r12, %r12
	je	26f
	cmpq	$4, %r12
	setb	%cl
	cmpq	$32, %rax
	setb	%al
	orb	%cl, %al
	je	28f
	xorl	%eax, %eax
	jmp	30f
12:
	movq	%rbp, %rdi
	movq	%r8, %rdx
	callq	memmove@PLT
	leaq	(,%rbx,8), %r8
	leaq	(,%r12,8), %rdx
	jmp	40f
13:
	movq	%r13, %rdi
	movq	%r14, %rsi
	callq	memmove@PLT
14:
	testq	%r12, %r12
	sete	%al
	cmpq	%r12, %r15
	setbe	%cl
	orb	%al, %cl
	jne	16f
	xorl	%eax, %eax
	xorl	%r8d, %r8d
	movq	%r12, %rcx
	.p2align	4
15:
	movq	%rcx, %rdx
	movl	(%r13,%r8,8), %esi
	movl	(%r14,%rcx,8), %edi
	cmpl	%edi, %esi
	adcq	$0, %rcx
	cmpl	%edi, %esi
	movq	%r13, %rsi
	cmovbq	%r14, %rsi
	cmovaeq	%r8, %rdx
	movq	(%rsi,%rdx,8), %rdx
	movq	%rdx, (%r14,%rax)
	sbbq	$-1, %r8
	addq	$8, %rax
	cmpq	%r12, %r8
	jae	17f
	cmpq	%r15, %rcx
	jb	15b
	jmp	17f
16:
	xorl	%eax, %eax
	xorl	%r8d, %r8d
17:
	movq	%r12, %rcx
	subq	%r8, %rcx
	leaq	(,%r8,8), %rsi
	addq	%r13, %rsi
	leaq	(%r14,%rax), %rdi
	leaq	(,%rcx,8), %rdx
	movq	%rdi, %r9
	subq	%rsi, %r9
	cmpq	%rdx, %r9
	jae	19f
	cmpq	%r8, %r12
	je	61f
	cmpq	$8, %rcx
	jb	18f
	shlq	$3, %r8
	leaq	(%r14,%rax), %rdx
	subq	%r8, %rdx
	subq	%r13, %rdx
	cmpq	$32, %rdx
	jae	54f
18:
	xorl	%edx, %edx
	jmp	59f
19:
	movq	%rdi, %r14
	jmp	27f
20:
	movq	%r15, %rax
	andq	$-4, %rax
	xorl	%ecx, %ecx
	.p2align	4
21:
	movups	(%r14,%rcx,8), %xmm0
	movups	16(%r14,%rcx,8), %xmm1
	movups	%xmm0, (%r13,%rcx,8)
	movups	%xmm1, 16(%r13,%rcx,8)
	addq	$4, %rcx
	cmpq	%rcx, %rax
	jne	21b
	cmpq	%rax, %r15
	je	3b
22:
	movq	%r15, %rdx
	movq	%rax, %rcx
	andq	$3, %rdx
	je	24f
	movq	%rax, %rcx
	.p2align	4
23:
	movq	(%r14,%rcx,8), %rsi
	movq	%rsi, (%r13,%rcx,8)
	incq	%rcx
	decq	%rdx
	jne	23b
24:
	subq	%r15, %rax
	cmpq	$-4, %rax
	ja	3b
	.p2align	4
25:
	movq	(%r14,%rcx,8), %rax
	movq	%rax, (%r13,%rcx,8)
	movq	8(%r14,%rcx,8), %rax
	movq	%rax, 8(%r13,%rcx,8)
	movq	16(%r14,%rcx,8), %rax
	movq	%rax, 16(%r13,%rcx,8)
	movq	24(%r14,%rcx,8), %rax
	movq	%rax, 24(%r13,%rcx,8)
	addq	$4, %rcx
	cmpq	%rcx, %r15
	jne	25b
	jmp	3b
26:
	xorl	%edx, %edx
	movq	%r13, %rsi
27:
	movq	%r14, %rdi
	callq	memmove@PLT
	jmp	61f
28:
	movq	%r12, %rax
	andq	$-4, %rax
	xorl	%ecx, %ecx
	.p2align	4
29:
	movups	(%r14,%rcx,8), %xmm0
	movups	16(%r14,%rcx,8), %xmm1
	movups	%xmm0, (%r13,%rcx,8)
	movups	%xmm1, 16(%r13,%rcx,8)
	addq	$4, %rcx
	cmpq	%rcx, %rax
	jne	29b
	cmpq	%rax, %r12
	je	14b
30:
	movq	%r12, %rdx
	movq	%rax, %rcx
	andq	$3, %rdx
	je	32f
	movq	%rax, %rcx
	.p2align	4
31:
	movq	(%r14,%rcx,8), %rsi
	movq	%rsi, (%r13,%rcx,8)
	incq	%rcx
	decq	%rdx
	jne	31b
32:
	subq	%r12, %rax
	cmpq	$-4, %rax
	ja	14b
	.p2align	4
33:
	movq	(%r14,%rcx,8), %rax
	movq	%rax, (%r13,%rcx,8)
	movq	8(%r14,%rcx,8), %rax
	movq	%rax, 8(%r13,%rcx,8)
	movq	16(%r14,%rcx,8), %rax
	movq	%rax, 16(%r13,%rcx,8)
	movq	24(%r14,%rcx,8), %rax
	movq	%rax, 24(%r13,%rcx,8)
	addq	$4, %rcx
	cmpq	%rcx, %r12
	jne	33b
	jmp	14b
34:
	movq	%r8, %rdx
	andq	$-4, %rdx
	addq	%r13, %rcx
	addq	$16, %rcx
	addq	%r14, %rax
	addq	$16, %rax
	xorl	%r9d, %r9d
	.p2align	4
35:
	movups	-16(%rcx,%r9,8), %xmm0
	movups	(%rcx,%r9,8), %xmm1
	movups	%xmm0, -16(%rax,%r9,8)
	movups	%xmm1, (%rax,%r9,8)
	addq	$4, %r9
	cmpq	%r9, %rdx
	jne	35b
	jmp	57f
36:
	movq	%rbx, %rax
	andq	$-4, %rax
	leaq	(%r14,%rdx), %rcx
	addq	$16, %rcx
	leaq	(%rdx,%r13), %rdi
	addq	$16, %rdi
	xorl	%esi, %esi
	.p2align	4
37:
	movups	-16(%rcx,%rsi,8), %xmm0
	movups	(%rcx,%rsi,8), %xmm1
	movups	%xmm0, -16(%rdi,%rsi,8)
	movups	%xmm1, (%rdi,%rsi,8)
	addq	$4, %rsi
	cmpq	%rsi, %rax
	jne	37b
	cmpq	%rax, %rbx
	je	40f
38:
	addq	%r12, %rax
	.p2align	4
39:
	movq	(%r14,%rax,8), %rcx
	movq	%rcx, (%r13,%rax,8)
	incq	%rax
	cmpq	%rax, %r15
	jne	39b
40:
	cmpq	%r12, %r15
	jbe	43f
	leaq	(%r14,%r15,8), %rcx
	addq	$-8, %rcx
	movq	%r12, %rax
	.p2align	4
41:
	leaq	-1(%r15), %r9
	leaq	-1(%rax), %rsi
	movl	-8(%r14,%rax,8), %edi
	movl	-8(%r13,%r15,8), %r8d
	cmpl	%r8d, %edi
	adcq	$-1, %r15
	cmpl	%r8d, %edi
	movq	%r13, %rdi
	cmovbq	%r14, %rdi
	cmovbq	%rsi, %r9
	movq	(%rdi,%r9,8), %rsi
	movq	%rsi, (%rcx)
	sbbq	$0, %rax
	je	42f
	addq	$-8, %rcx
	cmpq	%r12, %r15
	ja	41b
42:
	movq	%r15, %rbx
	subq	%r12, %rbx
	shlq	$3, %rax
	leaq	(,%rbx,8), %r8
	jmp	44f
43:
	movq	%rdx, %rax
44:
	leaq	(%r14,%rax), %rdi
	movq	%rdi, %rcx
	subq	%rbp, %rcx
	cmpq	%r8, %rcx
	jae	50f
	cmpq	%r12, %r15
	movq	8(%rsp), %r9
	je	51f
	cmpq	$8, %rbx
	jb	45f
	cmpq	$32, %rcx
	jae	52f
45:
	xorl	%ecx, %ecx
46:
	movq	%rbx, %rsi
	movq	%rcx, %r10
	andq	$3, %rsi
	je	48f
	movq	%rcx, %r10
	.p2align	4
47:
	movq	(%rbp,%r10,8), %r8
	movq	%r8, (%rdi,%r10,8)
	incq	%r10
	decq	%rsi
	jne	47b
48:
	subq	%rbx, %rcx
	cmpq	$-4, %rcx
	ja	51f
	addq	%r14, %rax
	addq	$24, %rax
	leaq	(%rdx,%r13), %rcx
	addq	$24, %rcx
	.p2align	4
49:
	movq	-24(%rcx,%r10,8), %rsi
	movq	%rsi, -24(%rax,%r10,8)
	movq	-16(%rcx,%r10,8), %rsi
	movq	%rsi, -16(%rax,%r10,8)
	movq	-8(%rcx,%r10,8), %rsi
	movq	%rsi, -8(%rax,%r10,8)
	movq	(%rcx,%r10,8), %rsi
	movq	%rsi, (%rax,%r10,8)
	addq	$4, %r10
	cmpq	%r10, %rbx
	jne	49b
	jmp	51f
50:
	movq	%rbp, %rsi
	movq	%r8, %rdx
	callq	memmove@PLT
	movq	8(%rsp), %r9
51:
	movq	%r13, (%r9)
	movq	16(%rsp), %rax
	movq	%rax, 8(%r9)
	jmp	62f
52:
	movq	%rbx, %rcx
	andq	$-4, %rcx
	leaq	(%rdx,%r13), %r10
	addq	$16, %r10
	leaq	(%rax,%r14), %rsi
	addq	$16, %rsi
	xorl	%r8d, %r8d
	.p2align	4
53:
	movups	-16(%r10,%r8,8), %xmm0
	movups	(%r10,%r8,8), %xmm1
	movups	%xmm0, -16(%rsi,%r8,8)
	movups	%xmm1, (%rsi,%r8,8)
	addq	$4, %r8
	cmpq	%r8, %rcx
	jne	53b
	cmpq	%rcx, %rbx
	je	51b
	jmp	46b
54:
	movq	%rcx, %rdx
	andq	$-4, %rdx
	addq	%r13, %r8
	addq	$16, %r8
	addq	%r14, %rax
	addq	$16, %rax
	xorl	%r9d, %r9d
	.p2align	4
55:
	movups	-16(%r8,%r9,8), %xmm0
	movups	(%r8,%r9,8), %xmm1
	movups	%xmm0, -16(%rax,%r9,8)
	movups	%xmm1, (%rax,%r9,8)
	addq	$4, %r9
	cmpq	%r9, %rdx
	jne	55b
	jmp	60f
56:
	movq	(%rsi,%rdx,8), %rax
	movq	%rax, (%rdi,%rdx,8)
	incq	%rdx
57:
	cmpq	%rdx, %r8
	jne	56b
58:
	movq	%r13, (%rbp)
	movq	%rbx, 8(%rbp)
	jmp	62f
59:
	movq	(%rsi,%rdx,8), %rax
	movq	%rax, (%rdi,%rdx,8)
	incq	%rdx
60:
	cmpq	%rdx, %rcx
	jne	59b
61:
	movq	%r13, (%rbp)
	movq	16(%rsp), %rax
	movq	%rax, 8(%rbp)
62:
	addq	$24, %rsp
	popq	%rbx
	popq	%r12
	popq	%r13
	popq	%r14
	popq	%r15
	popq	%rbp
	retq
63:
	.size	"core::slice::sort::merge::merge::<#12eb916b83b0f891>", 63b-"core::slice::sort::merge::merge::<#12eb916b83b0f891>"

	.text
	.p2align	4
	.type	"core::slice::sort::merge::merge::<#196989f31ad14034>",@function
"core::slice::sort::merge::merge::<#196989f31ad14034>":
	pushq	%rbp
	pushq	%r15
	pushq	%r14
	pushq	%r13
	pushq	%r12
	pushq	%rbx
	subq	$24, %rsp
	movq	%rcx, %rbp
	movq	%rdx, %r12
	movq	%rsi, %r15
	movq	%rdi, %r14
	movq	%rsi, %rcx
	shrq	$2, %rcx
	cmpq	%rdx, %rcx
	setbe	%al
	movq	%rsi, %rbx
	subq	%rdx, %rbx
	cmpq	%rbx, %rcx
	setbe	%cl
	cmpq	$4097, %rsi
	jb	1f
	andb	%cl, %al
	jne	1f
	leaq	(,%r12,8), %rdx
	movq	(%rbp), %r13
	movq	8(%rbp), %rax
	movq	%rax, 16(%rsp)
	cmpq	%rbx, %r12
	jbe	11f
	movq	%rbp, 8(%rsp)
	leaq	(%r14,%rdx), %rsi
	leaq	(%rdx,%r13), %rbp
	leaq	(,%rbx,8), %r8
	movq	%rbp, %rax
	subq	%rsi, %rax
	cmpq	%r8, %rax
	jae	12f
	cmpq	%r12, %r15
	je	40f
	cmpq	$4, %rbx
	setb	%al
	movq	%r13, %rcx
	subq	%r14, %rcx
	cmpq	$32, %rcx
	setb	%cl
	orb	%al, %cl
	je	36f
	xorl	%eax, %eax
	jmp	38f
1:
	movq	(%rbp), %r13
	movq	8(%rbp), %rbx
	leaq	(,%r15,8), %rdx
	movq	%r13, %rax
	subq	%r14, %rax
	cmpq	%rdx, %rax
	jae	2f
	testq	%r15, %r15
	je	3f
	cmpq	$4, %r15
	setb	%cl
	cmpq	$32, %rax
	setb	%al
	orb	%cl, %al
	je	20f
	xorl	%eax, %eax
	jmp	22f
2:
	movq	%r13, %rdi
	movq	%r14, %rsi
	callq	memmove@PLT
3:
	testq	%r12, %r12
	sete	%al
	cmpq	%r12, %r15
	setbe	%cl
	orb	%al, %cl
	jne	7f
	xorl	%eax, %eax
	xorl	%edx, %edx
	movq	%r12, %rcx
	movq	%r15, %rsi
	.p2align	4
4:
	movq	%rcx, %rdi
	movq	(%r13,%rcx,8), %r8
	movq	(%r13,%rdx,8), %r9
	movl	56(%r9), %r9d
	movl	56(%r8), %r8d
	cmpl	%r8d, %r9d
	adcq	$0, %rcx
	cmpl	%r8d, %r9d
	cmovaeq	%rdx, %rdi
	movq	(%r13,%rdi,8), %rdi
	movq	%rdi, (%r14,%rax,8)
	sbbq	$-1, %rdx
	cmpq	%r12, %rdx
	jae	5f
	cmpq	%rsi, %rcx
	jae	5f
	movq	-8(%r13,%rsi,8), %rdi
	movq	-8(%r13,%r12,8), %r8
	movl	56(%r8), %r8d
	movl	56(%rdi), %edi
	cmpl	%edi, %r8d
	movq	%r12, %r9
	sbbq	$0, %r9
	cmpl	%edi, %r8d
	cmovaeq	%rsi, %r12
	adcq	$-1, %rsi
	movq	-8(%r13,%r12,8), %rdi
	movq	%rdi, -8(%r14,%r15,8)
	decq	%r15
	movq	%r9, %r12
5:
	incq	%rax
	cmpq	%r12, %rdx
	jae	6f
	cmpq	%rsi, %rcx
	jb	4b
6:
	cmpq	%r12, %rdx
	cmovbq	%rdx, %rcx
	shlq	$3, %rcx
	jmp	8f
7:
	xorl	%eax, %eax
	xorl	%ecx, %ecx
8:
	movq	%r15, %r8
	subq	%rax, %r8
	leaq	(%rcx,%r13), %rsi
	leaq	(%r14,%rax,8), %rdi
	leaq	(,%r8,8), %rdx
	movq	%rdi, %r9
	subq	%rsi, %r9
	cmpq	%rdx, %r9
	jae	10f
	cmpq	%rax, %r15
	je	58f
	cmpq	$8, %r8
	jb	9f
	shlq	$3, %rax
	leaq	(%rax,%r14), %rdx
	subq	%rsi, %rdx
	cmpq	$32, %rdx
	jae	34f
9:
	xorl	%edx, %edx
	jmp	56f
10:
	callq	memmove@PLT
	jmp	58f
11:
	movq	%r13, %rax
	subq	%r14, %rax
	cmpq	%rdx, %rax
	jae	13f
	testq	%r12, %r12
	je	26f
	cmpq	$4, %r12
	setb	%cl
	cmpq	$32, %rax
	setb	%al
	orb	%cl, %al
	je	28f
	xorl	%eax, %eax
	jmp	30f
12:
	movq	%rbp, %rdi
	movq	%r8, %rdx
	callq	memmove@PLT
	leaq	(,%rbx,8), %r8
	leaq	(,%r12,8), %rdx
	jmp	40f
13:
	movq	%r13, %rdi
	movq	%r14, %rsi
	callq	memmove@PLT
14:
	testq	%r12, %r12
	sete	%al
	cmpq	%r12, %r15
	setbe	%cl
	orb	%al, %cl
	jne	16f
	xorl	%eax, %eax
	xorl	%r8d, %r8d
	movq	%r12, %rcx
	.p2align	4
15:
	movq	%rcx, %rdx
	movq	(%r14,%rcx,8), %rsi
	movq	(%r13,%r8,8), %rdi
	movl	56(%rdi), %edi
	movl	56(%rsi), %esi
	cmpl	%esi, %edi
	adcq	$0, %rcx
	cmpl	%esi, %edi
	movq	%r13, %rsi
	cmovbq	%r14, %rsi
	cmovaeq	%r8, %rdx
	movq	(%rsi,%rdx,8), %rdx
	movq	%rdx, (%r14,%rax)
	sbbq	$-1, %r8
	addq	$8, %rax
	cmpq	%r12, %r8
	jae	17f
	cmpq	%r15, %rcx
	jb	15b
	jmp	17f
16:
	xorl	%eax, %eax
	xorl	%r8d, %r8d
17:
	movq	%r12, %rcx
	subq	%r8, %rcx
	leaq	(,%r8,8), %rsi
	addq	%r13, %rsi
	leaq	(%r14,%rax), %rdi
	leaq	(,%rcx,8), %rdx
	movq	%rdi, %r9
	subq	%rsi, %r9
	cmpq	%rdx, %r9
	jae	19f
	cmpq	%r8, %r12
	je	61f
	cmpq	$8, %rcx
	jb	18f
	shlq	$3, %r8
	leaq	(%r14,%rax), %rdx
	subq	%r8, %rdx
	subq	%r13, %rdx
	cmpq	$32, %rdx
	jae	54f
18:
	xorl	%edx, %edx
	jmp	59f
19:
	movq	%rdi, %r14
	jmp	27f
20:
	movq	%r15, %rax
	andq	$-4, %rax
	xorl	%ecx, %ecx
	.p2align	4
21:
	movups	(%r14,%rcx,8), %xmm0
	movups	16(%r14,%rcx,8), %xmm1
	movups	%xmm0, (%r13,%rcx,8)
	movups	%xmm1, 16(%r13,%rcx,8)
	addq	$4, %rcx
	cmpq	%rcx, %rax
	jne	21b
	cmpq	%rax, %r15
	je	3b
22:
	movq	%r15, %rdx
	movq	%rax, %rcx
	andq	$3, %rdx
	je	24f
	movq	%rax, %rcx
	.p2align	4
23:
	movq	(%r14,%rcx,8), %rsi
	movq	%rsi, (%r13,%rcx,8)
	incq	%rcx
	decq	%rdx
	jne	23b
24:
	subq	%r15, %rax
	cmpq	$-4, %rax
	ja	3b
	.p2align	4
25:
	movq	(%r14,%rcx,8), %rax
	movq	%rax, (%r13,%rcx,8)
	movq	8(%r14,%rcx,8), %rax
	movq	%rax, 8(%r13,%rcx,8)
	movq	16(%r14,%rcx,8), %rax
	movq	%rax, 16(%r13,%rcx,8)
	movq	24(%r14,%rcx,8), %rax
	movq	%rax, 24(%r13,%rcx,8)
	addq	$4, %rcx
	cmpq	%rcx, %r15
	jne	25b
	jmp	3b
26:
	xorl	%edx, %edx
	movq	%r13, %rsi
27:
	movq	%r14, %rdi
	callq	memmove@PLT
	jmp	61f
28:
	movq	%r12, %rax
	andq	$-4, %rax
	xorl	%ecx, %ecx
	.p2align	4
29:
	movups	(%r14,%rcx,8), %xmm0
	movups	16(%r14,%rcx,8), %xmm1
	movups	%xmm0, (%r13,%rcx,8)
	movups	%xmm1, 16(%r13,%rcx,8)
	addq	$4, %rcx
	cmpq	%rcx, %rax
	jne	29b
	cmpq	%rax, %r12
	je	14b
30:
	movq	%r12, %rdx
	movq	%rax, %rcx
	andq	$3, %rdx
	je	32f
	movq	%rax, %rcx
	.p2align	4
31:
	movq	(%r14,%rcx,8), %rsi
	movq	%rsi, (%r13,%rcx,8)
	incq	%rcx
	decq	%rdx
	jne	31b
32:
	subq	%r12, %rax
	cmpq	$-4, %rax
	ja	14b
	.p2align	4
33:
	movq	(%r14,%rcx,8), %rax
	movq	%rax, (%r13,%rcx,8)
	movq	8(%r14,%rcx,8), %rax
	movq	%rax, 8(%r13,%rcx,8)
	movq	16(%r14,%rcx,8), %rax
	movq	%rax, 16(%r13,%rcx,8)
	movq	24(%r14,%rcx,8), %rax
	movq	%rax, 24(%r13,%rcx,8)
	addq	$4, %rcx
	cmpq	%rcx, %r12
	jne	33b
	jmp	14b
34:
	movq	%r8, %rdx
	andq	$-4, %rdx
	addq	%r13, %rcx
	addq	$16, %rcx
	addq	%r14, %rax
	addq	$16, %rax
	xorl	%r9d, %r9d
	.p2align	4
35:
	movups	-16(%rcx,%r9,8), %xmm0
	movups	(%rcx,%r9,8), %xmm1
	movups	%xmm0, -16(%rax,%r9,8)
	movups	%xmm1, (%rax,%r9,8)
	addq	$4, %r9
	cmpq	%r9, %rdx
	jne	35b
	jmp	57f
36:
	movq	%rbx, %rax
	andq	$-4, %rax
	leaq	(%r14,%rdx), %rcx
	addq	$16, %rcx
	leaq	(%rdx,%r13), %rdi
	addq	$16, %rdi
	xorl	%esi, %esi
	.p2align	4
37:
	movups	-16(%rcx,%rsi,8), %xmm0
	movups	(%rcx,%rsi,8), %xmm1
	movups	%xmm0, -16(%rdi,%rsi,8)
	movups	%xmm1, (%rdi,%rsi,8)
	addq	$4, %rsi
	cmpq	%rsi, %rax
	jne	37b
	cmpq	%rax, %rbx
	je	40f
38:
	addq	%r12, %rax
	.p2align	4
39:
	movq	(%r14,%rax,8), %rcx
	movq	%rcx, (%r13,%rax,8)
	incq	%rax
	cmpq	%rax, %r15
	jne	39b
40:
	cmpq	%r12, %r15
	jbe	43f
	leaq	(%r14,%r15,8), %rcx
	addq	$-8, %rcx
	movq	%r12, %rax
	.p2align	4
41:
	leaq	-1(%r15), %r9
	leaq	-1(%rax), %rsi
	movq	-8(%r13,%r15,8), %rdi
	movq	-8(%r14,%rax,8), %r8
	movl	56(%r8), %r8d
	movl	56(%rdi), %edi
	cmpl	%edi, %r8d
	adcq	$-1, %r15
	cmpl	%edi, %r8d
	movq	%r13, %rdi
	cmovbq	%r14, %rdi
	cmovbq	%rsi, %r9
	movq	(%rdi,%r9,8), %rsi
	movq	%rsi, (%rcx)
	sbbq	$0, %rax
	je	42f
	addq	$-8, %rcx
	cmpq	%r12, %r15
	ja	41b
42:
	movq	%r15, %rbx
	subq	%r12, %rbx
	shlq	$3, %rax
	leaq	(,%rbx,8), %r8
	jmp	44f
43:
	movq	%rdx, %rax
44:
	leaq	(%r14,%rax), %rdi
	movq	%rdi, %rcx
	subq	%rbp, %rcx
	cmpq	%r8, %rcx
	jae	50f
	cmpq	%r12, %r15
	movq	8(%rsp), %r9
	je	51f
	cmpq	$8, %rbx
	jb	45f
	cmpq	$32, %rcx
	jae	52f
45:
	xorl	%ecx, %ecx
46:
	movq	%rbx, %rsi
	movq	%rcx, %r10
	andq	$3, %rsi
	je	48f
	movq	%rcx, %r10
	.p2align	4
47:
	movq	(%rbp,%r10,8), %r8
	movq	%r8, (%rdi,%r10,8)
	incq	%r10
	decq	%rsi
	jne	47b
48:
	subq	%rbx, %rcx
	cmpq	$-4, %rcx
	ja	51f
	addq	%r14, %rax
	addq	$24, %rax
	leaq	(%rdx,%r13), %rcx
	addq	$24, %rcx
	.p2align	4
49:
	movq	-24(%rcx,%r10,8), %rsi
	movq	%rsi, -24(%rax,%r10,8)
	movq	-16(%rcx,%r10,8), %rsi
	movq	%rsi, -16(%rax,%r10,8)
	movq	-8(%rcx,%r10,8), %rsi
	movq	%rsi, -8(%rax,%r10,8)
	movq	(%rcx,%r10,8), %rsi
	movq	%rsi, (%rax,%r10,8)
	addq	$4, %r10
	cmpq	%r10, %rbx
	jne	49b
	jmp	51f
50:
	movq	%rbp, %rsi
	movq	%r8, %rdx
	callq	memmove@PLT
	movq	8(%rsp), %r9
51:
	movq	%r13, (%r9)
	movq	16(%rsp), %rax
	movq	%rax, 8(%r9)
	jmp	62f
52:
	movq	%rbx, %rcx
	andq	$-4, %rcx
	leaq	(%rdx,%r13), %r10
	addq	$16, %r10
	leaq	(%rax,%r14), %rsi
	addq	$16, %rsi
	xorl	%r8d, %r8d
	.p2align	4
53:
	movups	-16(%r10,%r8,8), %xmm0
	movups	(%r10,%r8,8), %xmm1
	movups	%xmm0, -16(%rsi,%r8,8)
	movups	%xmm1, (%rsi,%r8,8)
	addq	$4, %r8
	cmpq	%r8, %rcx
	jne	53b
	cmpq	%rcx, %rbx
	je	51b
	jmp	46b
54:
	movq	%rcx, %rdx
	andq	$-4, %rdx
	addq	%r13, %r8
	addq	$16, %r8
	addq	%r14, %rax
	addq	$16, %rax
	xorl	%r9d, %r9d
	.p2align	4
55:
	movups	-16(%r8,%r9,8), %xmm0
	movups	(%r8,%r9,8), %xmm1
	movups	%xmm0, -16(%rax,%r9,8)
	movups	%xmm1, (%rax,%r9,8)
	addq	$4, %r9
	cmpq	%r9, %rdx
	jne	55b
	jmp	60f
56:
	movq	(%rsi,%rdx,8), %rax
	movq	%rax, (%rdi,%rdx,8)
	incq	%rdx
57:
	cmpq	%rdx, %r8
	jne	56b
58:
	movq	%r13, (%rbp)
	movq	%rbx, 8(%rbp)
	jmp	62f
59:
	movq	(%rsi,%rdx,8), %rax
	movq	%rax, (%rdi,%rdx,8)
	incq	%rdx
60:
	cmpq	%rdx, %rcx
	jne	59b
61:
	movq	%r13, (%rbp)
	movq	16(%rsp), %rax
	movq	%rax, 8(%rbp)
62:
	addq	$24, %rsp
	popq	%rbx
	popq	%r12
	popq	%r13
	popq	%r14
	popq	%r15
	popq	%rbp
	retq
63:
	.size	"core::slice::sort::merge::merge::<#196989f31ad14034>", 63b-"core::slice::sort::merge::merge::<#196989f31ad14034>"

	.text
	.p2align	4
	.type	"core::slice::sort::merge::merge::<#32fabb223415b920>",@function
"core::slice::sort::merge::merge::<#32fabb223415b920>":
	pushq	%rbp
	pushq	%r15
	pushq	%r14
	pushq	%r13
	pushq	%r12
	pushq	%rbx
	subq	$56, %rsp
	movq	%rcx, %r12
	movq	%rdx, %r9
	movq	%rsi, %r10
	movq	%rdi, %r15
	movq	%rsi, %rax
	shrq	$2, %rax
	cmpq	%rdx, %rax
	setbe	%cl
	movq	%rsi, %rbp
	subq	%rdx, %rbp
	cmpq	%rbp, %rax
	setbe	%al
	andb	%cl, %al
	cmpq	$4097, %rsi
	setb	%cl
	xorb	$1, %al
	orb	%al, %cl
	movq	%rsi, 8(%rsp)
	movq	%rdi, 48(%rsp)
	movq	%rdx, 16(%rsp)
	je	2f
	cmpq	$4097, %r10
	setae	%cl
	testb	%al, %cl
	je	3f
1:
	leaq	(,%r9,8), %rax
	movq	(%r12), %r13
	movq	8(%r12), %r14
	leaq	(%rax,%rax,4), %rdx
	cmpq	%rbp, %r9
	jbe	4f
	leaq	(%r15,%rdx), %rsi
	movq	%rdx, 32(%rsp)
	leaq	(%rdx,%r13), %rbx
	leaq	(,%rbp,8), %rax
	leaq	(%rax,%rax,4), %r8
	movq	%rbx, %rax
	subq	%rsi, %rax
	cmpq	%r8, %rax
	movq	%r12, 40(%rsp)
	jae	6f
	cmpq	%r9, %r10
	je	47f
	movl	%ebp, %eax
	andl	$7, %eax
	movq	%r9, %rcx
	subq	%r10, %rcx
	cmpq	$-8, %rcx
	jbe	43f
	xorl	%ecx, %ecx
	jmp	45f
2:
	cmpq	$65537, %r10
	jae	1b
3:
	movq	(%r12), %r13
	movq	8(%r12), %rbx
	leaq	(,%r10,8), %rax
	leaq	(%rax,%rax,4), %rdx
	movq	%r13, %rax
	subq	%r15, %rax
	cmpq	%rdx, %rax
	jae	5f
	testq	%r10, %r10
	je	12f
	movl	%r10d, %eax
	andl	$7, %eax
	cmpq	$8, %r10
	jae	8f
	xorl	%ecx, %ecx
	jmp	10f
4:
	movq	%r13, %rax
	subq	%r15, %rax
	cmpq	%rdx, %rax
	movq	%r14, 24(%rsp)
	jae	7f
	testq	%r9, %r9
	je	30f
	movl	%r9d, %eax
	andl	$7, %eax
	cmpq	$8, %r9
	jae	31f
	xorl	%ecx, %ecx
	jmp	33f
5:
	movq	%r13, %rdi
	movq	%r15, %rsi
	callq	memmove@PLT
	movq	16(%rsp), %r9
	movq	8(%rsp), %r10
	jmp	12f
6:
	movq	%rbx, %rdi
	movq	%r8, %rdx
	movq	%r14, %r12
	movq	%r8, %r14
	callq	memmove@PLT
	movq	%r14, %r8
	movq	%r12, %r14
	movq	40(%rsp), %r12
	movq	16(%rsp), %r9
	movq	8(%rsp), %r10
	jmp	47f
7:
	movq	%r13, %rdi
	movq	%r15, %rsi
	callq	memmove@PLT
	movq	16(%rsp), %r9
	movq	8(%rsp), %r10
	jmp	35f
8:
	movq	%r10, %rdx
	andq	$-8, %rdx
	xorl	%ecx, %ecx
	xorl	%esi, %esi
	.p2align	4
9:
	movups	(%r15,%rsi), %xmm0
	movups	16(%r15,%rsi), %xmm1
	movq	32(%r15,%rsi), %rdi
	movq	%rdi, 32(%r13,%rsi)
	movups	%xmm1, 16(%r13,%rsi)
	movups	%xmm0, (%r13,%rsi)
	movups	40(%r15,%rsi), %xmm0
	movups	56(%r15,%rsi), %xmm1
	movq	72(%r15,%rsi), %rdi
	movq	%rdi, 72(%r13,%rsi)
	movups	%xmm1, 56(%r13,%rsi)
	movups	%xmm0, 40(%r13,%rsi)
	movups	80(%r15,%rsi), %xmm0
	movups	96(%r15,%rsi), %xmm1
	movq	112(%r15,%rsi), %rdi
	movq	%rdi, 112(%r13,%rsi)
	movups	%xmm1, 96(%r13,%rsi)
	movups	%xmm0, 80(%r13,%rsi)
	movups	120(%r15,%rsi), %xmm0
	movups	136(%r15,%rsi), %xmm1
	movq	152(%r15,%rsi), %rdi
	movq	%rdi, 152(%r13,%rsi)
	movups	%xmm1, 136(%r13,%rsi)
	movups	%xmm0, 120(%r13,%rsi)
	movups	160(%r15,%rsi), %xmm0
	movups	176(%r15,%rsi), %xmm1
	movq	192(%r15,%rsi), %rdi
	movq	%rdi, 192(%r13,%rsi)
	movups	%xmm1, 176(%r13,%rsi)
	movups	%xmm0, 160(%r13,%rsi)
	movups	200(%r15,%rsi), %xmm0
	movups	216(%r15,%rsi), %xmm1
	movq	232(%r15,%rsi), %rdi
	movq	%rdi, 232(%r13,%rsi)
	movups	%xmm1, 216(%r13,%rsi)
	movups	%xmm0, 200(%r13,%rsi)
	movups	240(%r15,%rsi), %xmm0
	movups	256(%r15,%rsi), %xmm1
	movq	272(%r15,%rsi), %rdi
	movq	%rdi, 272(%r13,%rsi)
	movups	%xmm1, 256(%r13,%rsi)
	movups	%xmm0, 240(%r13,%rsi)
	movups	280(%r15,%rsi), %xmm0
	movups	296(%r15,%rsi), %xmm1
	movq	312(%r15,%rsi), %rdi
	movq	%rdi, 312(%r13,%rsi)
	movups	%xmm1, 296(%r13,%rsi)
	movups	%xmm0, 280(%r13,%rsi)
	addq	$8, %rcx
	addq	$320, %rsi
	cmpq	%rcx, %rdx
	jne	9b
	testq	%rax, %rax
	je	12f
10:
	shlq	$3, %rcx
	leaq	(%rcx,%rcx,4), %rcx
	leaq	(%r15,%rcx), %rdx
	addq	%r13, %rcx
	shll	$3, %eax
	leaq	(%rax,%rax,4), %rax
	xorl	%esi, %esi
	.p2align	4
11:
	movups	(%rdx,%rsi), %xmm0
	movups	16(%rdx,%rsi), %xmm1
	movq	32(%rdx,%rsi), %rdi
	movq	%rdi, 32(%rcx,%rsi)
	movups	%xmm1, 16(%rcx,%rsi)
	movups	%xmm0, (%rcx,%rsi)
	addq	$40, %rsi
	cmpq	%rsi, %rax
	jne	11b
12:
	testq	%r9, %r9
	sete	%al
	cmpq	%r10, %r9
	setae	%cl
	orb	%al, %cl
	jne	22f
	movq	%rbx, 24(%rsp)
	movq	%r12, 40(%rsp)
	xorl	%edi, %edi
	movq	%r15, %r14
	movq	%r9, %rbx
	movq	%r10, %r12
	xorl	%r11d, %r11d
	movq	%r13, 16(%rsp)
	.p2align	4
13:
	leaq	(,%rbx,8), %rax
	leaq	(%rax,%rax,4), %rax
	leaq	(,%rdi,8), %rcx
	leaq	(%rcx,%rcx,4), %rcx
	movq	(%r13,%rax), %rdx
	movq	(%r13,%rcx), %rsi
	cmpq	%rsi, %rdx
	jne	14f
	movq	%rdi, 8(%rsp)
	movq	8(%r13,%rax), %rdi
	movq	16(%r13,%rax), %rsi
	movq	8(%r13,%rcx), %rdx
	movq	16(%r13,%rcx), %rcx
	movq	%r10, %r15
	movq	%r9, %rbp
	movq	%rbx, %r13
	movq	%r11, %rbx
	callq	"core::cmp::slices::RefSliceOrd::cmp::<#914af4d8504a0b72>"
	movq	8(%rsp), %rdi
	movq	%rbx, %r11
	movq	%r13, %rbx
	movq	%rbp, %r9
	movq	%r15, %r10
	movq	48(%rsp), %r15
	testb	%al, %al
	sete	%al
	movq	%rbx, %rcx
	testb	%al, %al
	je	15f
	jmp	16f
	.p2align	4
14:
	bswapq	%rsi
	bswapq	%rdx
	cmpq	%rsi, %rdx
	setb	%al
	movq	%rbx, %rcx
	testb	%al, %al
	jne	16f
15:
	movq	%rdi, %rcx
16:
	leaq	(%rcx,%rcx,4), %rcx
	movq	16(%rsp), %r13
	movups	(%r13,%rcx,8), %xmm0
	movups	16(%r13,%rcx,8), %xmm1
	movq	32(%r13,%rcx,8), %rcx
	movq	%rcx, 32(%r14)
	movups	%xmm1, 16(%r14)
	movups	%xmm0, (%r14)
	movzbl	%al, %ecx
	addq	%rcx, %rbx
	xorb	$1, %al
	movzbl	%al, %eax
	addq	%rax, %rdi
	cmpq	%r9, %rdi
	jae	20f
	cmpq	%r12, %rbx
	jae	20f
	leaq	(,%r12,8), %rax
	leaq	(%rax,%rax,4), %rax
	leaq	(,%r9,8), %rcx
	leaq	(%rcx,%rcx,4), %rcx
	movq	-40(%r13,%rax), %rdx
	movq	-40(%r13,%rcx), %rsi
	cmpq	%rsi, %rdx
	jne	17f
	movq	%rdi, 8(%rsp)
	movq	-32(%r13,%rax), %rdi
	movq	-24(%r13,%rax), %rsi
	movq	-32(%r13,%rcx), %rdx
	movq	-24(%r13,%rcx), %rcx
	movq	%r10, %r15
	movq	%r9, %rbp
	movq	%rbx, %r13
	movq	%r11, %rbx
	callq	"core::cmp::slices::RefSliceOrd::cmp::<#914af4d8504a0b72>"
	movq	8(%rsp), %rdi
	movq	%rbx, %r11
	movq	%r13, %rbx
	movq	%rbp, %r9
	movq	%r15, %r10
	movq	48(%rsp), %r15
	testb	%al, %al
	sete	%al
	movq	%r9, %rcx
	testb	%al, %al
	je	18f
	jmp	19f
	.p2align	4
17:
	bswapq	%rsi
	bswapq	%rdx
	cmpq	%rsi, %rdx
	setb	%al
	movq	%r9, %rcx
	testb	%al, %al
	jne	19f
18:
	movq	%r12, %rcx
19:
	decq	%r10
	leaq	(%rcx,%rcx,4), %rcx
	leaq	(%r10,%r10,4), %rdx
	movq	16(%rsp), %r13
	movups	-40(%r13,%rcx,8), %xmm0
	movups	-24(%r13,%rcx,8), %xmm1
	movq	-8(%r13,%rcx,8), %rcx
	movq	%rcx, 32(%r15,%rdx,8)
	movups	%xmm1, 16(%r15,%rdx,8)
	movups	%xmm0, (%r15,%rdx,8)
	movzbl	%al, %ecx
	subq	%rcx, %r9
	xorb	$1, %al
	movzbl	%al, %eax
	subq	%rax, %r12
20:
	incq	%r11
	cmpq	%r9, %rdi
	jae	21f
	addq	$40, %r14
	cmpq	%r12, %rbx
	jb	13b
21:
	cmpq	%r9, %rdi
	cmovbq	%rdi, %rbx
	shlq	$3, %rbx
	leaq	(%rbx,%rbx,4), %rax
	movq	40(%rsp), %r12
	movq	24(%rsp), %rbx
	jmp	23f
22:
	xorl	%r11d, %r11d
	xorl	%eax, %eax
23:
	movq	%r10, %r8
	subq	%r11, %r8
	leaq	(%rax,%r13), %rsi
	leaq	(,%r11,8), %rcx
	leaq	(%rcx,%rcx,4), %rcx
	leaq	(%r15,%rcx), %rdi
	leaq	(,%r8,8), %rdx
	leaq	(%rdx,%rdx,4), %rdx
	movq	%rdi, %r9
	subq	%rsi, %r9
	cmpq	%rdx, %r9
	jae	24f
	cmpq	%r11, %r10
	je	29f
	movl	%r8d, %edx
	andl	$7, %edx
	subq	%r10, %r11
	cmpq	$-8, %r11
	jbe	25f
	xorl	%r9d, %r9d
	jmp	27f
24:
	callq	memmove@PLT
	jmp	29f
25:
	andq	$-8, %r8
	movl	$280, %r10d
	xorl	%r9d, %r9d
	.p2align	4
26:
	movups	-280(%rsi,%r10), %xmm0
	movups	-264(%rsi,%r10), %xmm1
	movq	-248(%rsi,%r10), %r11
	movq	%r11, -248(%rdi,%r10)
	movups	%xmm1, -264(%rdi,%r10)
	movups	%xmm0, -280(%rdi,%r10)
	movups	-240(%rsi,%r10), %xmm0
	movups	-224(%rsi,%r10), %xmm1
	movq	-208(%rsi,%r10), %r11
	movq	%r11, -208(%rdi,%r10)
	movups	%xmm1, -224(%rdi,%r10)
	movups	%xmm0, -240(%rdi,%r10)
	movups	-200(%rsi,%r10), %xmm0
	movups	-184(%rsi,%r10), %xmm1
	movq	-168(%rsi,%r10), %r11
	movq	%r11, -168(%rdi,%r10)
	movups	%xmm1, -184(%rdi,%r10)
	movups	%xmm0, -200(%rdi,%r10)
	movups	-160(%rsi,%r10), %xmm0
	movups	-144(%rsi,%r10), %xmm1
	movq	-128(%rsi,%r10), %r11
	movq	%r11, -128(%rdi,%r10)
	movups	%xmm1, -144(%rdi,%r10)
	movups	%xmm0, -160(%rdi,%r10)
	movups	-120(%rsi,%r10), %xmm0
	movups	-104(%rsi,%r10), %xmm1
	movq	-88(%rsi,%r10), %r11
	movq	%r11, -88(%rdi,%r10)
	movups	%xmm1, -104(%rdi,%r10)
	movups	%xmm0, -120(%rdi,%r10)
	movups	-80(%rsi,%r10), %xmm0
	movups	-64(%rsi,%r10), %xmm1
	movq	-48(%rsi,%r10), %r11
	movq	%r11, -48(%rdi,%r10)
	movups	%xmm1, -64(%rdi,%r10)
	movups	%xmm0, -80(%rdi,%r10)
	movups	-40(%rsi,%r10), %xmm0
	movups	-24(%rsi,%r10), %xmm1
	movq	-8(%rsi,%r10), %r11
	movq	%r11, -8(%rdi,%r10)
	movups	%xmm1, -24(%rdi,%r10)
	movups	%xmm0, -40(%rdi,%r10)
	movups	(%rsi,%r10), %xmm0
	movups	16(%rsi,%r10), %xmm1
	movq	32(%rsi,%r10), %r11
	movq	%r11, 32(%rdi,%r10)
	movups	%xmm1, 16(%rdi,%r10)
	movups	%xmm0, (%rdi,%r10)
	addq	$8, %r9
	addq	$320, %r10
	cmpq	%r9, %r8
	jne	26b
	testq	%rdx, %rdx
	je	29f
27:
	shlq	$3, %r9
	leaq	(%r9,%r9,4), %rsi
	addq	%rsi, %rax
	addq	%r13, %rax
	addq	%rsi, %rcx
	addq	%rcx, %r15
	shll	$3, %edx
	leaq	(%rdx,%rdx,4), %rcx
	xorl	%edx, %edx
	.p2align	4
28:
	movups	(%rax,%rdx), %xmm0
	movups	16(%rax,%rdx), %xmm1
	movq	32(%rax,%rdx), %rsi
	movq	%rsi, 32(%r15,%rdx)
	movups	%xmm1, 16(%r15,%rdx)
	movups	%xmm0, (%r15,%rdx)
	addq	$40, %rdx
	cmpq	%rdx, %rcx
	jne	28b
29:
	movq	%r13, (%r12)
	movq	%rbx, 8(%r12)
	jmp	67f
30:
	movq	%r15, %rax
	subq	%r13, %rax
	cmpq	%rdx, %rax
	jb	66f
	xorl	%edx, %edx
	movq	%r13, %rsi
	jmp	42f
31:
	movq	%r9, %rdx
	andq	$-8, %rdx
	xorl	%ecx, %ecx
	xorl	%esi, %esi
	.p2align	4
32:
	movups	(%r15,%rsi), %xmm0
	movups	16(%r15,%rsi), %xmm1
	movq	32(%r15,%rsi), %rdi
	movq	%rdi, 32(%r13,%rsi)
	movups	%xmm1, 16(%r13,%rsi)
	movups	%xmm0, (%r13,%rsi)
	movups	40(%r15,%rsi), %xmm0
	movups	56(%r15,%rsi), %xmm1
	movq	72(%r15,%rsi), %rdi
	movq	%rdi, 72(%r13,%rsi)
	movups	%xmm1, 56(%r13,%rsi)
	movups	%xmm0, 40(%r13,%rsi)
	movups	80(%r15,%rsi), %xmm0
	movups	96(%r15,%rsi), %xmm1
	movq	112(%r15,%rsi), %rdi
	movq	%rdi, 112(%r13,%rsi)
	movups	%xmm1, 96(%r13,%rsi)
	movups	%xmm0, 80(%r13,%rsi)
	movups	120(%r15,%rsi), %xmm0
	movups	136(%r15,%rsi), %xmm1
	movq	152(%r15,%rsi), %rdi
	movq	%rdi, 152(%r13,%rsi)
	movups	%xmm1, 136(%r13,%rsi)
	movups	%xmm0, 120(%r13,%rsi)
	movups	160(%r15,%rsi), %xmm0
	movups	176(%r15,%rsi), %xmm1
	movq	192(%r15,%rsi), %rdi
	movq	%rdi, 192(%r13,%rsi)
	movups	%xmm1, 176(%r13,%rsi)
	movups	%xmm0, 160(%r13,%rsi)
	movups	200(%r15,%rsi), %xmm0
	movups	216(%r15,%rsi), %xmm1
	movq	232(%r15,%rsi), %rdi
	movq	%rdi, 232(%r13,%rsi)
	movups	%xmm1, 216(%r13,%rsi)
	movups	%xmm0, 200(%r13,%rsi)
	movups	240(%r15,%rsi), %xmm0
	movups	256(%r15,%rsi), %xmm1
	movq	272(%r15,%rsi), %rdi
	movq	%rdi, 272(%r13,%rsi)
	movups	%xmm1, 256(%r13,%rsi)
	movups	%xmm0, 240(%r13,%rsi)
	movups	280(%r15,%rsi), %xmm0
	movups	296(%r15,%rsi), %xmm1
	movq	312(%r15,%rsi), %rdi
	movq	%rdi, 312(%r13,%rsi)
	movups	%xmm1, 296(%r13,%rsi)
	movups	%xmm0, 280(%r13,%rsi)
	addq	$8, %rcx
	addq	$320, %rsi
	cmpq	%rcx, %rdx
	jne	32b
	testq	%rax, %rax
	je	35f
33:
	shlq	$3, %rcx
	leaq	(%rcx,%rcx,4), %rcx
	leaq	(%r15,%rcx), %rdx
	addq	%r13, %rcx
	shll	$3, %eax
	leaq	(%rax,%rax,4), %rax
	xorl	%esi, %esi
	.p2align	4
34:
	movups	(%rdx,%rsi), %xmm0
	movups	16(%rdx,%rsi), %xmm1
	movq	32(%rdx,%rsi), %rdi
	movq	%rdi, 32(%rcx,%rsi)
	movups	%xmm1, 16(%rcx,%rsi)
	movups	%xmm0, (%rcx,%rsi)
	addq	$40, %rsi
	cmpq	%rsi, %rax
	jne	34b
35:
	movq	%r12, %rbp
	testq	%r9, %r9
	sete	%al
	cmpq	%r10, %r9
	setae	%cl
	xorl	%ebx, %ebx
	xorl	%r14d, %r14d
	orb	%al, %cl
	jne	40f
	movq	%r9, %r12
	.p2align	4
36:
	leaq	(,%r12,8), %rax
	leaq	(%rax,%rax,4), %rax
	leaq	(,%r14,8), %rcx
	leaq	(%rcx,%rcx,4), %rcx
	movq	(%r15,%rax), %rdx
	movq	(%r13,%rcx), %rsi
	cmpq	%rsi, %rdx
	jne	37f
	movq	8(%r15,%rax), %rdi
	movq	16(%r15,%rax), %rsi
	movq	8(%r13,%rcx), %rdx
	movq	16(%r13,%rcx), %rcx
	callq	"core::cmp::slices::RefSliceOrd::cmp::<#914af4d8504a0b72>"
	movq	16(%rsp), %r9
	movq	8(%rsp), %r10
	testb	%al, %al
	sete	%al
	movq	%r15, %rcx
	movq	%r12, %rdx
	testb	%al, %al
	je	38f
	jmp	39f
	.p2align	4
37:
	bswapq	%rsi
	bswapq	%rdx
	cmpq	%rsi, %rdx
	setb	%al
	movq	%r15, %rcx
	movq	%r12, %rdx
	testb	%al, %al
	jne	39f
38:
	movq	%r13, %rcx
	movq	%r14, %rdx
39:
	leaq	(%rdx,%rdx,4), %rdx
	movups	(%rcx,%rdx,8), %xmm0
	movups	16(%rcx,%rdx,8), %xmm1
	movq	32(%rcx,%rdx,8), %rcx
	movq	%rcx, 32(%r15,%rbx)
	movups	%xmm1, 16(%r15,%rbx)
	movups	%xmm0, (%r15,%rbx)
	movl	%eax, %ecx
	xorb	$1, %cl
	movzbl	%cl, %ecx
	addq	%rcx, %r14
	addq	$40, %rbx
	cmpq	%r9, %r14
	jae	40f
	movzbl	%al, %eax
	addq	%rax, %r12
	cmpq	%r10, %r12
	jb	36b
40:
	movq	%r9, %rdi
	subq	%r14, %rdi
	leaq	(,%r14,8), %rax
	leaq	(%rax,%rax,4), %rax
	leaq	(%rax,%r13), %rsi
	leaq	(%r15,%rbx), %r8
	leaq	(,%rdi,8), %rcx
	leaq	(%rcx,%rcx,4), %rdx
	movq	%r8, %rcx
	subq	%rsi, %rcx
	cmpq	%rdx, %rcx
	jae	41f
	cmpq	%r14, %r9
	movq	%rbp, %r12
	je	66f
	movl	%edi, %ecx
	andl	$7, %ecx
	subq	%r9, %r14
	cmpq	$-8, %r14
	jbe	62f
	xorl	%edx, %edx
	jmp	64f
41:
	movq	%r8, %r15
	movq	%rbp, %r12
42:
	movq	%r15, %rdi
	callq	memmove@PLT
	jmp	66f
43:
	movq	%rbp, %rdx
	andq	$-8, %rdx
	xorl	%ecx, %ecx
	movq	32(%rsp), %rsi
	.p2align	4
44:
	movups	(%r15,%rsi), %xmm0
	movups	16(%r15,%rsi), %xmm1
	movq	32(%r15,%rsi), %rdi
	movq	%rdi, 32(%r13,%rsi)
	movups	%xmm1, 16(%r13,%rsi)
	movups	%xmm0, (%r13,%rsi)
	movups	40(%r15,%rsi), %xmm0
	movups	56(%r15,%rsi), %xmm1
	movq	72(%r15,%rsi), %rdi
	movq	%rdi, 72(%r13,%rsi)
	movups	%xmm1, 56(%r13,%rsi)
	movups	%xmm0, 40(%r13,%rsi)
	movups	80(%r15,%rsi), %xmm0
	movups	96(%r15,%rsi), %xmm1
	movq	112(%r15,%rsi), %rdi
	movq	%rdi, 112(%r13,%rsi)
	movups	%xmm1, 96(%r13,%rsi)
	movups	%xmm0, 80(%r13,%rsi)
	movups	120(%r15,%rsi), %xmm0
	movups	136(%r15,%rsi), %xmm1
	movq	152(%r15,%rsi), %rdi
	movq	%rdi, 152(%r13,%rsi)
	movups	%xmm1, 136(%r13,%rsi)
	movups	%xmm0, 120(%r13,%rsi)
	movups	160(%r15,%rsi), %xmm0
	movups	176(%r15,%rsi), %xmm1
	movq	192(%r15,%rsi), %rdi
	movq	%rdi, 192(%r13,%rsi)
	movups	%xmm1, 176(%r13,%rsi)
	movups	%xmm0, 160(%r13,%rsi)
	movups	200(%r15,%rsi), %xmm0
	movups	216(%r15,%rsi), %xmm1
	movq	232(%r15,%rsi), %rdi
	movq	%rdi, 232(%r13,%rsi)
	movups	%xmm1, 216(%r13,%rsi)
	movups	%xmm0, 200(%r13,%rsi)
	movups	240(%r15,%rsi), %xmm0
	movups	256(%r15,%rsi), %xmm1
	movq	272(%r15,%rsi), %rdi
	movq	%rdi, 272(%r13,%rsi)
	movups	%xmm1, 256(%r13,%rsi)
	movups	%xmm0, 240(%r13,%rsi)
	movups	280(%r15,%rsi), %xmm0
	movups	296(%r15,%rsi), %xmm1
	movq	312(%r15,%rsi), %rdi
	movq	%rdi, 312(%r13,%rsi)
	movups	%xmm1, 296(%r13,%rsi)
	movups	%xmm0, 280(%r13,%rsi)
	addq	$8, %rcx
	addq	$320, %rsi
	cmpq	%rcx, %rdx
	jne	44b
	testq	%rax, %rax
	je	47f
45:
	leaq	(%rcx,%rcx,4), %rcx
	movq	32(%rsp), %rdx
	leaq	(%rdx,%rcx,8), %rcx
	leaq	(%r15,%rcx), %rdx
	addq	%r13, %rcx
	shll	$3, %eax
	leaq	(%rax,%rax,4), %rax
	xorl	%esi, %esi
	.p2align	4
46:
	movups	(%rdx,%rsi), %xmm0
	movups	16(%rdx,%rsi), %xmm1
	movq	32(%rdx,%rsi), %rdi
	movq	%rdi, 32(%rcx,%rsi)
	movups	%xmm1, 16(%rcx,%rsi)
	movups	%xmm0, (%rcx,%rsi)
	addq	$40, %rsi
	cmpq	%rsi, %rax
	jne	46b
47:
	cmpq	%r10, %r9
	jae	54f
	movq	%r14, 24(%rsp)
	leaq	(%r10,%r10,4), %rax
	leaq	(%r15,%rax,8), %r12
	addq	$-40, %r12
	movq	%r9, %r14
	.p2align	4
48:
	leaq	-8(,%r10,8), %rax
	leaq	(%rax,%rax,4), %rax
	leaq	-8(,%r14,8), %rcx
	leaq	(%rcx,%rcx,4), %rcx
	movq	(%r13,%rax), %rdx
	movq	(%r15,%rcx), %rsi
	cmpq	%rsi, %rdx
	jne	50f
	movq	8(%r13,%rax), %rdi
	movq	16(%r13,%rax), %rsi
	movq	8(%r15,%rcx), %rdx
	movq	16(%r15,%rcx), %rcx
	movq	%r10, %r15
	callq	"core::cmp::slices::RefSliceOrd::cmp::<#914af4d8504a0b72>"
	movq	16(%rsp), %r9
	movq	%r15, %r10
	testb	%al, %al
	sete	%al
	testb	%al, %al
	je	51f
49:
	leaq	-1(%r14), %rdx
	movq	48(%rsp), %r15
	movq	%r15, %rcx
	jmp	52f
	.p2align	4
50:
	bswapq	%rsi
	bswapq	%rdx
	cmpq	%rsi, %rdx
	setb	%al
	testb	%al, %al
	jne	49b
51:
	leaq	-1(%r10), %rdx
	movq	%r13, %rcx
	movq	48(%rsp), %r15
52:
	leaq	(%rdx,%rdx,4), %rdx
	movups	(%rcx,%rdx,8), %xmm0
	movups	16(%rcx,%rdx,8), %xmm1
	movq	32(%rcx,%rdx,8), %rcx
	movq	%rcx, 32(%r12)
	movups	%xmm1, 16(%r12)
	movups	%xmm0, (%r12)
	movzbl	%al, %ecx
	xorb	$1, %al
	movzbl	%al, %eax
	subq	%rax, %r10
	subq	%rcx, %r14
	je	53f
	addq	$-40, %r12
	cmpq	%r9, %r10
	ja	48b
53:
	movq	%r10, %rbp
	subq	%r9, %rbp
	shlq	$3, %r14
	leaq	(%r14,%r14,4), %rax
	leaq	(,%rbp,8), %rcx
	leaq	(%rcx,%rcx,4), %r8
	movq	40(%rsp), %r12
	movq	24(%rsp), %r14
	jmp	55f
54:
	movq	32(%rsp), %rax
55:
	addq	%rax, %r15
	movq	%r15, %rax
	subq	%rbx, %rax
	cmpq	%r8, %rax
	jae	56f
	cmpq	%r9, %r10
	movq	32(%rsp), %rdi
	je	61f
	leaq	-1(%rbp), %rcx
	movl	%ebp, %eax
	andl	$7, %eax
	cmpq	$7, %rcx
	jae	57f
	xorl	%ecx, %ecx
	jmp	59f
56:
	movq	%r15, %rdi
	movq	%rbx, %rsi
	movq	%r8, %rdx
	callq	memmove@PLT
	jmp	61f
57:
	andq	$-8, %rbp
	movl	$280, %edx
	xorl	%ecx, %ecx
	.p2align	4
58:
	movups	-280(%rbx,%rdx), %xmm0
	movups	-264(%rbx,%rdx), %xmm1
	movq	-248(%rbx,%rdx), %rsi
	movq	%rsi, -248(%r15,%rdx)
	movups	%xmm1, -264(%r15,%rdx)
	movups	%xmm0, -280(%r15,%rdx)
	movups	-240(%rbx,%rdx), %xmm0
	movups	-224(%rbx,%rdx), %xmm1
	movq	-208(%rbx,%rdx), %rsi
	movq	%rsi, -208(%r15,%rdx)
	movups	%xmm1, -224(%r15,%rdx)
	movups	%xmm0, -240(%r15,%rdx)
	movups	-200(%rbx,%rdx), %xmm0
	movups	-184(%rbx,%rdx), %xmm1
	movq	-168(%rbx,%rdx), %rsi
	movq	%rsi, -168(%r15,%rdx)
	movups	%xmm1, -184(%r15,%rdx)
	movups	%xmm0, -200(%r15,%rdx)
	movups	-160(%rbx,%rdx), %xmm0
	movups	-144(%rbx,%rdx), %xmm1
	movq	-128(%rbx,%rdx), %rsi
	movq	%rsi, -128(%r15,%rdx)
	movups	%xmm1, -144(%r15,%rdx)
	movups	%xmm0, -160(%r15,%rdx)
	movups	-120(%rbx,%rdx), %xmm0
	movups	-104(%rbx,%rdx), %xmm1
	movq	-88(%rbx,%rdx), %rsi
	movq	%rsi, -88(%r15,%rdx)
	movups	%xmm1, -104(%r15,%rdx)
	movups	%xmm0, -120(%r15,%rdx)
	movups	-80(%rbx,%rdx), %xmm0
	movups	-64(%rbx,%rdx), %xmm1
	movq	-48(%rbx,%rdx), %rsi
	movq	%rsi, -48(%r15,%rdx)
	movups	%xmm1, -64(%r15,%rdx)
	movups	%xmm0, -80(%r15,%rdx)
	movups	-40(%rbx,%rdx), %xmm0
	movups	-24(%rbx,%rdx), %xmm1
	movq	-8(%rbx,%rdx), %rsi
	movq	%rsi, -8(%r15,%rdx)
	movups	%xmm1, -24(%r15,%rdx)
	movups	%xmm0, -40(%r15,%rdx)
	movups	(%rbx,%rdx), %xmm0
	movups	16(%rbx,%rdx), %xmm1
	movq	32(%rbx,%rdx), %rsi
	movq	%rsi, 32(%r15,%rdx)
	movups	%xmm1, 16(%r15,%rdx)
	movups	%xmm0, (%r15,%rdx)
	addq	$8, %rcx
	addq	$320, %rdx
	cmpq	%rcx, %rbp
	jne	58b
	testq	%rax, %rax
	je	61f
59:
	shlq	$3, %rcx
	leaq	(%rcx,%rcx,4), %rcx
	addq	%rcx, %rdi
	addq	%r13, %rdi
	addq	%rcx, %r15
	shll	$3, %eax
	leaq	(%rax,%rax,4), %rax
	xorl	%ecx, %ecx
	.p2align	4
60:
	movups	(%rdi,%rcx), %xmm0
	movups	16(%rdi,%rcx), %xmm1
	movq	32(%rdi,%rcx), %rdx
	movq	%rdx, 32(%r15,%rcx)
	movups	%xmm1, 16(%r15,%rcx)
	movups	%xmm0, (%r15,%rcx)
	addq	$40, %rcx
	cmpq	%rcx, %rax
	jne	60b
61:
	movq	%r13, (%r12)
	movq	%r14, 8(%r12)
	jmp	67f
62:
	andq	$-8, %rdi
	movl	$280, %r9d
	xorl	%edx, %edx
	.p2align	4
63:
	movups	-280(%rsi,%r9), %xmm0
	movups	-264(%rsi,%r9), %xmm1
	movq	-248(%rsi,%r9), %r10
	movq	%r10, -248(%r8,%r9)
	movups	%xmm1, -264(%r8,%r9)
	movups	%xmm0, -280(%r8,%r9)
	movups	-240(%rsi,%r9), %xmm0
	movups	-224(%rsi,%r9), %xmm1
	movq	-208(%rsi,%r9), %r10
	movq	%r10, -208(%r8,%r9)
	movups	%xmm1, -224(%r8,%r9)
	movups	%xmm0, -240(%r8,%r9)
	movups	-200(%rsi,%r9), %xmm0
	movups	-184(%rsi,%r9), %xmm1
	movq	-168(%rsi,%r9), %r10
	movq	%r10, -168(%r8,%r9)
	movups	%xmm1, -184(%r8,%r9)
	movups	%xmm0, -200(%r8,%r9)
	movups	-160(%rsi,%r9), %xmm0
	movups	-144(%rsi,%r9), %xmm1
	movq	-128(%rsi,%r9), %r10
	movq	%r10, -128(%r8,%r9)
	movups	%xmm1, -144(%r8,%r9)
	movups	%xmm0, -160(%r8,%r9)
	movups	-120(%rsi,%r9), %xmm0
	movups	-104(%rsi,%r9), %xmm1
	movq	-88(%rsi,%r9), %r10
	movq	%r10, -88(%r8,%r9)
	movups	%xmm1, -104(%r8,%r9)
	movups	%xmm0, -120(%r8,%r9)
	movups	-80(%rsi,%r9), %xmm0
	movups	-64(%rsi,%r9), %xmm1
	movq	-48(%rsi,%r9), %r10
	movq	%r10, -48(%r8,%r9)
	movups	%xmm1, -64(%r8,%r9)
	movups	%xmm0, -80(%r8,%r9)
	movups	-40(%rsi,%r9), %xmm0
	movups	-24(%rsi,%r9), %xmm1
	movq	-8(%rsi,%r9), %r10
	movq	%r10, -8(%r8,%r9)
	movups	%xmm1, -24(%r8,%r9)
	movups	%xmm0, -40(%r8,%r9)
	movups	(%rsi,%r9), %xmm0
	movups	16(%rsi,%r9), %xmm1
	movq	32(%rsi,%r9), %r10
	movq	%r10, 32(%r8,%r9)
	movups	%xmm1, 16(%r8,%r9)
	movups	%xmm0, (%r8,%r9)
	addq	$8, %rdx
	addq	$320, %r9
	cmpq	%rdx, %rdi
	jne	63b
	testq	%rcx, %rcx
	je	66f
64:
	shlq	$3, %rdx
	leaq	(%rdx,%rdx,4), %rdx
	addq	%rdx, %rax
	addq	%r13, %rax
	addq	%rbx, %r15
	addq	%rdx, %r15
	shll	$3, %ecx
	leaq	(%rcx,%rcx,4), %rcx
	xorl	%edx, %edx
	.p2align	4
65:
	movups	(%rax,%rdx), %xmm0
	movups	16(%rax,%rdx), %xmm1
	movq	32(%rax,%rdx), %rsi
	movq	%rsi, 32(%r15,%rdx)
	movups	%xmm1, 16(%r15,%rdx)
	movups	%xmm0, (%r15,%rdx)
	addq	$40, %rdx
	cmpq	%rdx, %rcx
	jne	65b
66:
	movq	%r13, (%r12)
	movq	24(%rsp), %rax
	movq	%rax, 8(%r12)
67:
	addq	$56, %rsp
	popq	%rbx
	popq	%r12
	popq	%r13
	popq	%r14
	popq	%r15
	popq	%rbp
	retq
68:
	.size	"core::slice::sort::merge::merge::<#32fabb223415b920>", 68b-"core::slice::sort::merge::merge::<#32fabb223415b920>"

	.text
	.p2align	4
	.type	"core::slice::sort::merge::merge::<#54047240e3f04dbb>",@function
"core::slice::sort::merge::merge::<#54047240e3f04dbb>":
	pushq	%rbp
	pushq	%r15
	pushq	%r14
	pushq	%r13
	pushq	%r12
	pushq	%rbx
	subq	$104, %rsp
	movq	%rcx, %rbp
	movq	%rdx, %r12
	movq	%rsi, %rbx
	movq	%rdi, %r14
	movq	%rsi, %rax
	shrq	$2, %rax
	cmpq	%rdx, %rax
	setbe	%cl
	movq	%rsi, %r15
	subq	%rdx, %r15
	cmpq	%r15, %rax
	setbe	%al
	andb	%cl, %al
	cmpq	$4097, %rsi
	setb	%cl
	xorb	$1, %al
	orb	%al, %cl
	je	3f
	cmpq	$4097, %rbx
	setae	%cl
	testb	%al, %cl
	je	4f
1:
	movq	(%rbp), %r13
	movq	8(%rbp), %r9
	cmpq	%r15, %r12
	jbe	6f
	movq	%rbp, 96(%rsp)
	movq	%r12, %rax
	shlq	$4, %rax
	leaq	(%rax,%rax,4), %r10
	leaq	(%r14,%r10), %rsi
	leaq	(%r10,%r13), %rbp
	movq	%r15, %rax
	shlq	$4, %rax
	leaq	(%rax,%rax,4), %rdx
	movq	%rbp, %rax
	subq	%rsi, %rax
	cmpq	%rdx, %rax
	movq	%r9, 72(%rsp)
	jae	21f
	movq	%r10, %rax
	movq	%r15, %rcx
	cmpq	%r12, %rbx
	je	22f
	.p2align	4
2:
	movl	(%r14,%rax), %r8d
	movzbl	8(%r14,%rax), %esi
	movq	48(%r14,%rax), %rdi
	movq	%rdi, 64(%rsp)
	movups	32(%r14,%rax), %xmm0
	movaps	%xmm0, 48(%rsp)
	movups	16(%r14,%rax), %xmm0
	movaps	%xmm0, 32(%rsp)
	movq	72(%r14,%rax), %rdi
	movq	%rdi, 16(%rsp)
	movups	56(%r14,%rax), %xmm0
	movaps	%xmm0, (%rsp)
	movl	%r8d, (%r13,%rax)
	movq	%rsi, 8(%r13,%rax)
	movaps	32(%rsp), %xmm0
	movaps	48(%rsp), %xmm1
	movups	%xmm0, 16(%r13,%rax)
	movups	%xmm1, 32(%r13,%rax)
	movq	64(%rsp), %rsi
	movq	%rsi, 48(%r13,%rax)
	movaps	(%rsp), %xmm0
	movups	%xmm0, 56(%r13,%rax)
	movq	16(%rsp), %rsi
	movq	%rsi, 72(%r13,%rax)
	addq	$80, %rax
	decq	%rcx
	jne	2b
	jmp	22f
3:
	cmpq	$65537, %rbx
	jae	1b
4:
	movq	(%rbp), %r13
	movq	8(%rbp), %r15
	movq	%rbx, %rax
	shlq	$4, %rax
	leaq	(%rax,%rax,4), %rdx
	movq	%r13, %rax
	subq	%r14, %rax
	cmpq	%rdx, %rax
	jae	8f
	testq	%rbx, %rbx
	je	9f
	xorl	%eax, %eax
	movq	%rbx, %rcx
	.p2align	4
5:
	movl	(%r14,%rax), %edx
	movzbl	8(%r14,%rax), %esi
	movq	48(%r14,%rax), %rdi
	movq	%rdi, 64(%rsp)
	movups	32(%r14,%rax), %xmm0
	movaps	%xmm0, 48(%rsp)
	movups	16(%r14,%rax), %xmm0
	movaps	%xmm0, 32(%rsp)
	movq	72(%r14,%rax), %rdi
	movq	%rdi, 16(%rsp)
	movups	56(%r14,%rax), %xmm0
	movaps	%xmm0, (%rsp)
	movl	%edx, (%r13,%rax)
	movq	%rsi, 8(%r13,%rax)
	movaps	32(%rsp), %xmm0
	movaps	48(%rsp), %xmm1
	movups	%xmm0, 16(%r13,%rax)
	movups	%xmm1, 32(%r13,%rax)
	movq	64(%rsp), %rdx
	movq	%rdx, 48(%r13,%rax)
	movaps	(%rsp), %xmm0
	movups	%xmm0, 56(%r13,%rax)
	movq	16(%rsp), %rdx
	movq	%rdx, 72(%r13,%rax)
	addq	$80, %rax
	decq	%rcx
	jne	5b
	jmp	9f
6:
	movq	%r12, %rax
	shlq	$4, %rax
	leaq	(%rax,%rax,4), %rdx
	movq	%r13, %rax
	subq	%r14, %rax
	cmpq	%rdx, %rax
	jae	29f
	testq	%r12, %r12
	je	38f
	movq	%r9, %r15
	xorl	%eax, %eax
	movq	%r12, %rcx
	.p2align	4
7:
	movl	(%r14,%rax), %edx
	movzbl	8(%r14,%rax), %esi
	movq	48(%r14,%rax), %rdi
	movq	%rdi, 64(%rsp)
	movups	32(%r14,%rax), %xmm0
	movaps	%xmm0, 48(%rsp)
	movups	16(%r14,%rax), %xmm0
	movaps	%xmm0, 32(%rsp)
	movq	72(%r14,%rax), %rdi
	movq	%rdi, 16(%rsp)
	movups	56(%r14,%rax), %xmm0
	movaps	%xmm0, (%rsp)
	movl	%edx, (%r13,%rax)
	movq	%rsi, 8(%r13,%rax)
	movaps	32(%rsp), %xmm0
	movaps	48(%rsp), %xmm1
	movups	%xmm0, 16(%r13,%rax)
	movups	%xmm1, 32(%r13,%rax)
	movq	64(%rsp), %rdx
	movq	%rdx, 48(%r13,%rax)
	movaps	(%rsp), %xmm0
	movups	%xmm0, 56(%r13,%rax)
	movq	16(%rsp), %rdx
	movq	%rdx, 72(%r13,%rax)
	addq	$80, %rax
	decq	%rcx
	jne	7b
	jmp	30f
8:
	movq	%r13, %rdi
	movq	%r14, %rsi
	callq	memmove@PLT
9:
	testq	%r12, %r12
	sete	%al
	cmpq	%r12, %rbx
	setbe	%cl
	orb	%al, %cl
	jne	16f
	xorl	%ecx, %ecx
	movq	%r14, %rsi
	movq	%r12, %rdx
	movq	%rbx, %rdi
	xorl	%eax, %eax
	jmp	12f
	.p2align	4
10:
	movq	%r12, %r8
	incq	%rax
	cmpq	%r8, %rcx
	jae	15f
11:
	addq	$80, %rsi
	movq	%r8, %r12
	cmpq	%rdi, %rdx
	jae	15f
12:
	movq	%rdx, %r8
	leaq	(%rdx,%rdx,4), %r9
	shlq	$4, %r9
	leaq	(%rcx,%rcx,4), %r10
	shlq	$4, %r10
	movl	(%r13,%r10), %r10d
	movl	(%r13,%r9), %r9d
	cmpl	%r9d, %r10d
	adcq	$0, %rdx
	cmpl	%r9d, %r10d
	jb	13f
	movq	%rcx, %r8
13:
	leaq	(%r8,%r8,4), %r8
	sbbq	$-1, %rcx
	shlq	$4, %r8
	movl	(%r13,%r8), %r9d
	movzbl	8(%r13,%r8), %r10d
	movq	48(%r13,%r8), %r11
	movq	%r11, 64(%rsp)
	movups	16(%r13,%r8), %xmm0
	movups	32(%r13,%r8), %xmm1
	movaps	%xmm1, 48(%rsp)
	movaps	%xmm0, 32(%rsp)
	movq	72(%r13,%r8), %r11
	movq	%r11, 16(%rsp)
	movups	56(%r13,%r8), %xmm0
	movaps	%xmm0, (%rsp)
	movl	%r9d, (%rsi)
	movq	%r10, 8(%rsi)
	movaps	32(%rsp), %xmm0
	movaps	48(%rsp), %xmm1
	movups	%xmm0, 16(%rsi)
	movups	%xmm1, 32(%rsi)
	movq	64(%rsp), %r8
	movq	%r8, 48(%rsi)
	movaps	(%rsp), %xmm0
	movups	%xmm0, 56(%rsi)
	movq	16(%rsp), %r8
	movq	%r8, 72(%rsi)
	cmpq	%r12, %rcx
	jae	10b
	cmpq	%rdi, %rdx
	jae	10b
	leaq	(%rdi,%rdi,4), %r8
	shlq	$4, %r8
	leaq	(%r12,%r12,4), %r9
	shlq	$4, %r9
	movl	-80(%r13,%r9), %r9d
	movl	-80(%r13,%r8), %r10d
	cmpl	%r10d, %r9d
	movq	%r12, %r8
	sbbq	$0, %r8
	cmpl	%r10d, %r9d
	jb	14f
	movq	%rdi, %r12
14:
	adcq	$-1, %rdi
	decq	%rbx
	leaq	(%r12,%r12,4), %r9
	shlq	$4, %r9
	movl	-80(%r13,%r9), %r10d
	movzbl	-72(%r13,%r9), %r11d
	movq	-32(%r13,%r9), %r12
	movq	%r12, 64(%rsp)
	movups	-64(%r13,%r9), %xmm0
	movups	-48(%r13,%r9), %xmm1
	movaps	%xmm1, 48(%rsp)
	movaps	%xmm0, 32(%rsp)
	movq	-8(%r13,%r9), %r12
	movq	%r12, 16(%rsp)
	movups	-24(%r13,%r9), %xmm0
	movaps	%xmm0, (%rsp)
	leaq	(%rbx,%rbx,4), %r9
	shlq	$4, %r9
	movl	%r10d, (%r14,%r9)
	movq	%r11, 8(%r14,%r9)
	movaps	32(%rsp), %xmm0
	movaps	48(%rsp), %xmm1
	movups	%xmm0, 16(%r14,%r9)
	movups	%xmm1, 32(%r14,%r9)
	movq	64(%rsp), %r10
	movq	%r10, 48(%r14,%r9)
	movaps	(%rsp), %xmm0
	movups	%xmm0, 56(%r14,%r9)
	movq	16(%rsp), %r10
	movq	%r10, 72(%r14,%r9)
	incq	%rax
	cmpq	%r8, %rcx
	jb	11b
15:
	cmpq	%r8, %rcx
	cmovbq	%rcx, %rdx
	shlq	$4, %rdx
	leaq	(%rdx,%rdx,4), %rsi
	jmp	17f
16:
	xorl	%eax, %eax
	xorl	%esi, %esi
17:
	movq	%rbx, %rcx
	subq	%rax, %rcx
	addq	%r13, %rsi
	leaq	(%rax,%rax,4), %rdx
	shlq	$4, %rdx
	addq	%rdx, %r14
	movq	%rcx, %rdx
	shlq	$4, %rdx
	leaq	(%rdx,%rdx,4), %rdx
	movq	%r14, %rdi
	subq	%rsi, %rdi
	cmpq	%rdx, %rdi
	jae	19f
	cmpq	%rax, %rbx
	je	20f
	xorl	%eax, %eax
	.p2align	4
18:
	movl	(%rsi,%rax), %edx
	movzbl	8(%rsi,%rax), %edi
	movq	48(%rsi,%rax), %r8
	movq	%r8, 64(%rsp)
	movups	32(%rsi,%rax), %xmm0
	movaps	%xmm0, 48(%rsp)
	movups	16(%rsi,%rax), %xmm0
	movaps	%xmm0, 32(%rsp)
	movq	72(%rsi,%rax), %r8
	movq	%r8, 16(%rsp)
	movups	56(%rsi,%rax), %xmm0
	movaps	%xmm0, (%rsp)
	movl	%edx, (%r14,%rax)
	movq	%rdi, 8(%r14,%rax)
	movaps	32(%rsp), %xmm0
	movaps	48(%rsp), %xmm1
	movups	%xmm0, 16(%r14,%rax)
	movups	%xmm1, 32(%r14,%rax)
	movq	64(%rsp), %rdx
	movq	%rdx, 48(%r14,%rax)
	movaps	(%rsp), %xmm0
	movups	%xmm0, 56(%r14,%rax)
	movq	16(%rsp), %rdx
	movq	%rdx, 72(%r14,%rax)
	addq	$80, %rax
	decq	%rcx
	jne	18b
	jmp	20f
19:
	movq	%r14, %rdi
	callq	memmove@PLT
20:
	movq	%r13, (%rbp)
	movq	%r15, 8(%rbp)
	jmp	41f
21:
	movq	%rbp, %rdi
	movq	%rdx, 88(%rsp)
	movq	%r10, 80(%rsp)
	callq	memmove@PLT
	movq	80(%rsp), %r10
	movq	88(%rsp), %rdx
22:
	cmpq	%r12, %rbx
	jbe	27f
	leaq	(%rbx,%rbx,4), %rax
	shlq	$4, %rax
	leaq	(%rax,%r14), %rcx
	addq	$-80, %rcx
	movq	%r12, %rax
	.p2align	4
23:
	leaq	-1(%rbx), %rdx
	leaq	(%rdx,%rdx,4), %r8
	shlq	$4, %r8
	leaq	-1(%rax), %rsi
	leaq	(%rsi,%rsi,4), %rdi
	shlq	$4, %rdi
	movl	(%r14,%rdi), %edi
	movl	(%r13,%r8), %r9d
	cmpl	%r9d, %edi
	jb	24f
	movq	%rdx, %rsi
24:
	leaq	(%rsi,%rsi,4), %rsi
	adcq	$-1, %rbx
	shlq	$4, %rsi
	leaq	-80(%rcx), %rdx
	movq	%r14, %r8
	cmpl	%r9d, %edi
	jb	25f
	movq	%r13, %r8
25:
	movl	(%r8,%rsi), %edi
	movzbl	8(%r8,%rsi), %r9d
	movups	16(%r8,%rsi), %xmm0
	movups	32(%r8,%rsi), %xmm1
	movaps	%xmm0, 32(%rsp)
	movaps	%xmm1, 48(%rsp)
	movq	48(%r8,%rsi), %r10
	movq	%r10, 64(%rsp)
	movups	56(%r8,%rsi), %xmm0
	movaps	%xmm0, (%rsp)
	movq	72(%r8,%rsi), %rsi
	movq	%rsi, 16(%rsp)
	movl	%edi, (%rcx)
	movq	%r9, 8(%rcx)
	movaps	32(%rsp), %xmm0
	movaps	48(%rsp), %xmm1
	movups	%xmm0, 16(%rcx)
	movups	%xmm1, 32(%rcx)
	movq	64(%rsp), %rsi
	movq	%rsi, 48(%rcx)
	movaps	(%rsp), %xmm0
	movups	%xmm0, 56(%rcx)
	movq	16(%rsp), %rsi
	movq	%rsi, 72(%rcx)
	sbbq	$0, %rax
	je	26f
	movq	%rdx, %rcx
	cmpq	%r12, %rbx
	ja	23b
26:
	movq	%rbx, %r15
	subq	%r12, %r15
	shlq	$4, %rax
	leaq	(%rax,%rax,4), %r10
	movq	%r15, %rax
	shlq	$4, %rax
	leaq	(%rax,%rax,4), %rdx
27:
	addq	%r10, %r14
	movq	%r14, %rax
	subq	%rbp, %rax
	cmpq	%rdx, %rax
	jae	33f
	cmpq	%r12, %rbx
	movq	72(%rsp), %rdi
	je	34f
	xorl	%eax, %eax
	.p2align	4
28:
	movl	(%rbp,%rax), %ecx
	movzbl	8(%rbp,%rax), %edx
	movq	48(%rbp,%rax), %rsi
	movq	%rsi, 64(%rsp)
	movups	32(%rbp,%rax), %xmm0
	movaps	%xmm0, 48(%rsp)
	movups	16(%rbp,%rax), %xmm0
	movaps	%xmm0, 32(%rsp)
	movq	72(%rbp,%rax), %rsi
	movq	%rsi, 16(%rsp)
	movups	56(%rbp,%rax), %xmm0
	movaps	%xmm0, (%rsp)
	movl	%ecx, (%r14,%rax)
	movq	%rdx, 8(%r14,%rax)
	movaps	32(%rsp), %xmm0
	movaps	48(%rsp), %xmm1
	movups	%xmm0, 16(%r14,%rax)
	movups	%xmm1, 32(%r14,%rax)
	movq	64(%rsp), %rcx
	movq	%rcx, 48(%r14,%rax)
	movaps	(%rsp), %xmm0
	movups	%xmm0, 56(%r14,%rax)
	movq	16(%rsp), %rcx
	movq	%rcx, 72(%r14,%rax)
	addq	$80, %rax
	decq	%r15
	jne	28b
	jmp	34f
29:
	movq	%r9, %r15
	movq	%r13, %rdi
	movq	%r14, %rsi
	callq	memmove@PLT
30:
	testq	%r12, %r12
	sete	%al
	cmpq	%r12, %rbx
	setbe	%cl
	orb	%al, %cl
	jne	35f
	xorl	%ecx, %ecx
	xorl	%eax, %eax
	movq	%r12, %rdx
	.p2align	4
31:
	movq	%rdx, %rdi
	leaq	(%rdx,%rdx,4), %rsi
	shlq	$4, %rsi
	leaq	(%rax,%rax,4), %r8
	shlq	$4, %r8
	movl	(%r13,%r8), %r8d
	movl	(%r14,%rsi), %r9d
	cmpl	%r9d, %r8d
	adcq	$0, %rdx
	movq	%r14, %rsi
	cmpl	%r9d, %r8d
	jb	32f
	movq	%r13, %rsi
	movq	%rax, %rdi
32:
	sbbq	$-1, %rax
	leaq	(%rdi,%rdi,4), %rdi
	shlq	$4, %rdi
	movl	(%rsi,%rdi), %r8d
	movzbl	8(%rsi,%rdi), %r9d
	movups	16(%rsi,%rdi), %xmm0
	movups	32(%rsi,%rdi), %xmm1
	movaps	%xmm0, 32(%rsp)
	movaps	%xmm1, 48(%rsp)
	movq	48(%rsi,%rdi), %r10
	movq	%r10, 64(%rsp)
	movups	56(%rsi,%rdi), %xmm0
	movaps	%xmm0, (%rsp)
	movq	72(%rsi,%rdi), %rsi
	movq	%rsi, 16(%rsp)
	movl	%r8d, (%r14,%rcx)
	movq	%r9, 8(%r14,%rcx)
	movaps	32(%rsp), %xmm0
	movaps	48(%rsp), %xmm1
	movups	%xmm0, 16(%r14,%rcx)
	movups	%xmm1, 32(%r14,%rcx)
	movq	64(%rsp), %rsi
	movq	%rsi, 48(%r14,%rcx)
	movaps	(%rsp), %xmm0
	movups	%xmm0, 56(%r14,%rcx)
	movq	16(%rsp), %rsi
	movq	%rsi, 72(%r14,%rcx)
	addq	$80, %rcx
	cmpq	%r12, %rax
	jae	36f
	cmpq	%rbx, %rdx
	jb	31b
	jmp	36f
33:
	movq	%r14, %rdi
	movq	%rbp, %rsi
	callq	memmove@PLT
	movq	72(%rsp), %rdi
34:
	movq	96(%rsp), %rax
	movq	%r13, (%rax)
	movq	%rdi, 8(%rax)
	jmp	41f
35:
	xorl	%ecx, %ecx
	xorl	%eax, %eax
36:
	movq	%r12, %rdi
	subq	%rax, %rdi
	leaq	(%rax,%rax,4), %rsi
	shlq	$4, %rsi
	addq	%r13, %rsi
	addq	%rcx, %r14
	movq	%rdi, %rcx
	shlq	$4, %rcx
	leaq	(%rcx,%rcx,4), %rdx
	movq	%r14, %rcx
	subq	%rsi, %rcx
	cmpq	%rdx, %rcx
	jae	39f
	cmpq	%rax, %r12
	movq	%r15, %r9
	je	40f
	xorl	%eax, %eax
	.p2align	4
37:
	movl	(%rsi,%rax), %ecx
	movzbl	8(%rsi,%rax), %edx
	movq	48(%rsi,%rax), %r8
	movq	%r8, 64(%rsp)
	movups	32(%rsi,%rax), %xmm0
	movaps	%xmm0, 48(%rsp)
	movups	16(%rsi,%rax), %xmm0
	movaps	%xmm0, 32(%rsp)
	movq	72(%rsi,%rax), %r8
	movq	%r8, 16(%rsp)
	movups	56(%rsi,%rax), %xmm0
	movaps	%xmm0, (%rsp)
	movl	%ecx, (%r14,%rax)
	movq	%rdx, 8(%r14,%rax)
	movaps	32(%rsp), %xmm0
	movaps	48(%rsp), %xmm1
	movups	%xmm0, 16(%r14,%rax)
	movups	%xmm1, 32(%r14,%rax)
	movq	64(%rsp), %rcx
	movq	%rcx, 48(%r14,%rax)
	movaps	(%rsp), %xmm0
	movups	%xmm0, 56(%r14,%rax)
	movq	16(%rsp), %rcx
	movq	%rcx, 72(%r14,%rax)
	addq	$80, %rax
	decq	%rdi
	jne	37b
	jmp	40f
38:
	movq	%r14, %rax
	subq	%r13, %rax
	cmpq	%rdx, %rax
	jb	40f
	movq	%r9, %r15
	xorl	%edx, %edx
	movq	%r13, %rsi
39:
	movq	%r14, %rdi
	callq	memmove@PLT
	movq	%r15, %r9
40:
	movq	%r13, (%rbp)
	movq	%r9, 8(%rbp)
41:
	addq	$104, %rsp
	popq	%rbx
	popq	%r12
	popq	%r13
	popq	%r14
	popq	%r15
	popq	%rbp
	retq
42:
	.size	"core::slice::sort::merge::merge::<#54047240e3f04dbb>", 42b-"core::slice::sort::merge::merge::<#54047240e3f04dbb>"

	.text
	.p2align	4
	.type	"core::slice::sort::merge::merge::<#b4bd7111e818b46c>",@function
"core::slice::sort::merge::merge::<#b4bd7111e818b46c>":
	pushq	%rbp
	pushq	%r15
	pushq	%r14
	pushq	%r13
	pushq	%r12
	pushq	%rbx
	subq	$72, %rsp
	movq	%rcx, %r12
	movq	%rdx, %r9
	movq	%rsi, %rbx
	movq	%rdi, %r15
	movq	%rsi, %rax
	shrq	$2, %rax
	cmpq	%rdx, %rax
	setbe	%cl
	movq	%rsi, %rbp
	subq	%rdx, %rbp
	cmpq	%rbp, %rax
	setbe	%al
	andb	%cl, %al
	cmpq	$4097, %rsi
	setb	%cl
	xorb	$1, %al
	orb	%al, %cl
	movq	%rdi, 24(%rsp)
	movq	%rdx, 16(%rsp)
	je	2f
	cmpq	$4097, %rbx
	setae	%cl
	testb	%al, %cl
	je	3f
1:
	movq	%r9, %r14
	shlq	$5, %r14
	movq	(%r12), %r11
	movq	8(%r12), %r13
	cmpq	%rbp, %r9
	movq	%r11, 8(%rsp)
	movq	%r13, 32(%rsp)
	jbe	4f
	leaq	(%r15,%r14), %rsi
	leaq	(%r11,%r14), %r8
	movq	%rbp, %rdx
	shlq	$5, %rdx
	movq	%r8, %rax
	subq	%rsi, %rax
	cmpq	%rdx, %rax
	movq	%r12, 40(%rsp)
	jae	6f
	cmpq	%r9, %rbx
	je	42f
	movl	%ebp, %eax
	andl	$7, %eax
	movq	%r9, %rcx
	subq	%rbx, %rcx
	cmpq	$-8, %rcx
	jbe	38f
	xorl	%ecx, %ecx
	jmp	40f
2:
	cmpq	$65537, %rbx
	jae	1b
3:
	movq	(%r12), %r13
	movq	8(%r12), %r14
	movq	%rbx, %rdx
	shlq	$5, %rdx
	movq	%r13, %rax
	subq	%r15, %rax
	cmpq	%rdx, %rax
	jae	5f
	testq	%rbx, %rbx
	je	12f
	movl	%ebx, %eax
	andl	$7, %eax
	cmpq	$8, %rbx
	jae	8f
	xorl	%ecx, %ecx
	jmp	10f
4:
	movq	%r11, %rax
	subq	%r15, %rax
	cmpq	%r14, %rax
	jae	7f
	testq	%r9, %r9
	je	26f
	movl	%r9d, %eax
	andl	$7, %eax
	cmpq	$8, %r9
	jae	27f
	xorl	%ecx, %ecx
	jmp	29f
5:
	movq	%r13, %rdi
	movq	%r15, %rsi
	callq	memmove@PLT
	movq	16(%rsp), %r9
	jmp	12f
6:
	movq	%r8, %rdi
	movq	%r8, %r13
	movq	%rdx, %r12
	callq	memmove@PLT
	movq	%r12, %rdx
	movq	%r13, %r8
	movq	32(%rsp), %r13
	movq	40(%rsp), %r12
	movq	8(%rsp), %r11
	movq	16(%rsp), %r9
	jmp	42f
7:
	movq	%r11, %rdi
	movq	%r15, %rsi
	movq	%r14, %rdx
	callq	memmove@PLT
	movq	8(%rsp), %r11
	movq	16(%rsp), %r9
	jmp	31f
8:
	movq	%rbx, %rdx
	andq	$-8, %rdx
	movl	$224, %esi
	xorl	%ecx, %ecx
	.p2align	4
9:
	movups	-224(%r15,%rsi), %xmm0
	movups	-208(%r15,%rsi), %xmm1
	movups	%xmm1, -208(%r13,%rsi)
	movups	%xmm0, -224(%r13,%rsi)
	movups	-192(%r15,%rsi), %xmm0
	movups	-176(%r15,%rsi), %xmm1
	movups	%xmm1, -176(%r13,%rsi)
	movups	%xmm0, -192(%r13,%rsi)
	movups	-160(%r15,%rsi), %xmm0
	movups	-144(%r15,%rsi), %xmm1
	movups	%xmm1, -144(%r13,%rsi)
	movups	%xmm0, -160(%r13,%rsi)
	movups	-128(%r15,%rsi), %xmm0
	movups	-112(%r15,%rsi), %xmm1
	movups	%xmm1, -112(%r13,%rsi)
	movups	%xmm0, -128(%r13,%rsi)
	movups	-96(%r15,%rsi), %xmm0
	movups	-80(%r15,%rsi), %xmm1
	movups	%xmm1, -80(%r13,%rsi)
	movups	%xmm0, -96(%r13,%rsi)
	movups	-64(%r15,%rsi), %xmm0
	movups	-48(%r15,%rsi), %xmm1
	movups	%xmm1, -48(%r13,%rsi)
	movups	%xmm0, -64(%r13,%rsi)
	movups	-32(%r15,%rsi), %xmm0
	movups	-16(%r15,%rsi), %xmm1
	movups	%xmm1, -16(%r13,%rsi)
	movups	%xmm0, -32(%r13,%rsi)
	movups	(%r15,%rsi), %xmm0
	movups	16(%r15,%rsi), %xmm1
	movups	%xmm1, 16(%r13,%rsi)
	movups	%xmm0, (%r13,%rsi)
	addq	$8, %rcx
	addq	$256, %rsi
	cmpq	%rcx, %rdx
	jne	9b
	testq	%rax, %rax
	je	12f
10:
	shlq	$5, %rcx
	leaq	(%r15,%rcx), %rdx
	addq	%r13, %rcx
	shll	$5, %eax
	xorl	%esi, %esi
	.p2align	4
11:
	movups	(%rdx,%rsi), %xmm0
	movups	16(%rdx,%rsi), %xmm1
	movups	%xmm1, 16(%rcx,%rsi)
	movups	%xmm0, (%rcx,%rsi)
	addq	$32, %rsi
	cmpq	%rsi, %rax
	jne	11b
12:
	testq	%r9, %r9
	sete	%al
	cmpq	%rbx, %r9
	setae	%cl
	orb	%al, %cl
	movq	%rbx, 48(%rsp)
	jne	18f
	movq	%r14, 32(%rsp)
	movq	%r12, 40(%rsp)
	xorl	%r12d, %r12d
	movq	%r15, %r14
	movq	%r9, %r11
	movq	%rbx, %r10
	xorl	%ebx, %ebx
	.p2align	4
13:
	movq	%r9, 16(%rsp)
	movq	%r10, %rbp
	movq	%r11, %rax
	shlq	$5, %rax
	movq	%r12, %rcx
	shlq	$5, %rcx
	movq	(%r13,%rax), %rdi
	movq	8(%r13,%rax), %rsi
	movq	(%r13,%rcx), %rdx
	movq	8(%r13,%rcx), %rcx
	movq	%r11, %r15
	callq	"core::cmp::slices::RefSliceOrd::cmp::<#914af4d8504a0b72>"
	movq	%r15, %r11
	xorl	%ecx, %ecx
	xorl	%edx, %edx
	movq	%r15, %rdi
	testb	%al, %al
	setne	%al
	sete	%sil
	je	14f
	movq	%r12, %rdi
14:
	shlq	$5, %rdi
	movups	(%r13,%rdi), %xmm0
	movups	16(%r13,%rdi), %xmm1
	movups	%xmm0, (%r14)
	movups	%xmm1, 16(%r14)
	movb	%sil, %dl
	addq	%rdx, %r11
	movb	%al, %cl
	addq	%rcx, %r12
	movq	16(%rsp), %r9
	cmpq	%r9, %r12
	movq	%rbp, %r10
	jae	16f
	cmpq	%r10, %r11
	jae	16f
	movq	%r11, 8(%rsp)
	movq	%r10, %rax
	shlq	$5, %rax
	shlq	$5, %r9
	movq	-32(%r13,%rax), %rdi
	movq	-24(%r13,%rax), %rsi
	movq	-32(%r13,%r9), %rdx
	movq	-24(%r13,%r9), %rcx
	callq	"core::cmp::slices::RefSliceOrd::cmp::<#914af4d8504a0b72>"
	movq	%rbp, %r10
	movq	16(%rsp), %r9
	xorl	%ecx, %ecx
	xorl	%edx, %edx
	movq	%r9, %rdi
	testb	%al, %al
	setne	%al
	sete	%sil
	je	15f
	movq	%r10, %rdi
15:
	movq	48(%rsp), %r8
	decq	%r8
	shlq	$5, %rdi
	movq	%r8, 48(%rsp)
	shlq	$5, %r8
	movups	-32(%r13,%rdi), %xmm0
	movups	-16(%r13,%rdi), %xmm1
	movq	24(%rsp), %rdi
	movups	%xmm0, (%rdi,%r8)
	movups	%xmm1, 16(%rdi,%r8)
	movb	%sil, %dl
	subq	%rdx, %r9
	movb	%al, %cl
	subq	%rcx, %r10
	movq	8(%rsp), %r11
16:
	incq	%rbx
	cmpq	%r9, %r12
	jae	17f
	addq	$32, %r14
	cmpq	%r10, %r11
	jb	13b
17:
	cmpq	%r9, %r12
	cmovbq	%r12, %r11
	shlq	$5, %r11
	movq	40(%rsp), %r12
	movq	24(%rsp), %r15
	movq	32(%rsp), %r14
	jmp	19f
18:
	xorl	%ebx, %ebx
	xorl	%r11d, %r11d
19:
	movq	48(%rsp), %r9
	movq	%r9, %r8
	subq	%rbx, %r8
	leaq	(%r11,%r13), %rsi
	movq	%rbx, %rcx
	shlq	$5, %rcx
	leaq	(%r15,%rcx), %rdi
	movq	%r8, %rdx
	shlq	$5, %rdx
	movq	%rdi, %rax
	subq	%rsi, %rax
	cmpq	%rdx, %rax
	jae	20f
	cmpq	%rbx, %r9
	je	25f
	movl	%r8d, %eax
	andl	$7, %eax
	subq	%r9, %rbx
	cmpq	$-8, %rbx
	jbe	21f
	xorl	%edx, %edx
	jmp	23f
20:
	callq	memmove@PLT
	jmp	25f
21:
	andq	$-8, %r8
	movl	$224, %r9d
	xorl	%edx, %edx
	.p2align	4
22:
	movups	-224(%rsi,%r9), %xmm0
	movups	-208(%rsi,%r9), %xmm1
	movups	%xmm1, -208(%rdi,%r9)
	movups	%xmm0, -224(%rdi,%r9)
	movups	-192(%rsi,%r9), %xmm0
	movups	-176(%rsi,%r9), %xmm1
	movups	%xmm1, -176(%rdi,%r9)
	movups	%xmm0, -192(%rdi,%r9)
	movups	-160(%rsi,%r9), %xmm0
	movups	-144(%rsi,%r9), %xmm1
	movups	%xmm1, -144(%rdi,%r9)
	movups	%xmm0, -160(%rdi,%r9)
	movups	-128(%rsi,%r9), %xmm0
	movups	-112(%rsi,%r9), %xmm1
	movups	%xmm1, -112(%rdi,%r9)
	movups	%xmm0, -128(%rdi,%r9)
	movups	-96(%rsi,%r9), %xmm0
	movups	-80(%rsi,%r9), %xmm1
	movups	%xmm1, -80(%rdi,%r9)
	movups	%xmm0, -96(%rdi,%r9)
	movups	-64(%rsi,%r9), %xmm0
	movups	-48(%rsi,%r9), %xmm1
	movups	%xmm1, -48(%rdi,%r9)
	movups	%xmm0, -64(%rdi,%r9)
	movups	-32(%rsi,%r9), %xmm0
	movups	-16(%rsi,%r9), %xmm1
	movups	%xmm1, -16(%rdi,%r9)
	movups	%xmm0, -32(%rdi,%r9)
	movups	(%rsi,%r9), %xmm0
	movups	16(%rsi,%r9), %xmm1
	movups	%xmm1, 16(%rdi,%r9)
	movups	%xmm0, (%rdi,%r9)
	addq	$8, %rdx
	addq	$256, %r9
	cmpq	%rdx, %r8
	jne	22b
	testq	%rax, %rax
	je	25f
23:
	shlq	$5, %rdx
	addq	%rdx, %r11
	addq	%r13, %r11
	addq	%rcx, %rdx
	addq	%rdx, %r15
	shll	$5, %eax
	xorl	%ecx, %ecx
	.p2align	4
24:
	movups	(%r11,%rcx), %xmm0
	movups	16(%r11,%rcx), %xmm1
	movups	%xmm1, 16(%r15,%rcx)
	movups	%xmm0, (%r15,%rcx)
	addq	$32, %rcx
	cmpq	%rcx, %rax
	jne	24b
25:
	movq	%r13, (%r12)
	movq	%r14, 8(%r12)
	jmp	50f
26:
	xorl	%edx, %edx
	movq	%r11, %rsi
	jmp	37f
27:
	movq	%r9, %rdx
	andq	$-8, %rdx
	movl	$224, %esi
	xorl	%ecx, %ecx
	.p2align	4
28:
	movups	-224(%r15,%rsi), %xmm0
	movups	-208(%r15,%rsi), %xmm1
	movups	%xmm1, -208(%r11,%rsi)
	movups	%xmm0, -224(%r11,%rsi)
	movups	-192(%r15,%rsi), %xmm0
	movups	-176(%r15,%rsi), %xmm1
	movups	%xmm1, -176(%r11,%rsi)
	movups	%xmm0, -192(%r11,%rsi)
	movups	-160(%r15,%rsi), %xmm0
	movups	-144(%r15,%rsi), %xmm1
	movups	%xmm1, -144(%r11,%rsi)
	movups	%xmm0, -160(%r11,%rsi)
	movups	-128(%r15,%rsi), %xmm0
	movups	-112(%r15,%rsi), %xmm1
	movups	%xmm1, -112(%r11,%rsi)
	movups	%xmm0, -128(%r11,%rsi)
	movups	-96(%r15,%rsi), %xmm0
	movups	-80(%r15,%rsi), %xmm1
	movups	%xmm1, -80(%r11,%rsi)
	movups	%xmm0, -96(%r11,%rsi)
	movups	-64(%r15,%rsi), %xmm0
	movups	-48(%r15,%rsi), %xmm1
	movups	%xmm1, -48(%r11,%rsi)
	movups	%xmm0, -64(%r11,%rsi)
	movups	-32(%r15,%rsi), %xmm0
	movups	-16(%r15,%rsi), %xmm1
	movups	%xmm1, -16(%r11,%rsi)
	movups	%xmm0, -32(%r11,%rsi)
	movups	(%r15,%rsi), %xmm0
	movups	16(%r15,%rsi), %xmm1
	movups	%xmm1, 16(%r11,%rsi)
	movups	%xmm0, (%r11,%rsi)
	addq	$8, %rcx
	addq	$256, %rsi
	cmpq	%rcx, %rdx
	jne	28b
	testq	%rax, %rax
	je	31f
29:
	shlq	$5, %rcx
	leaq	(%r15,%rcx), %rdx
	addq	%r11, %rcx
	shll	$5, %eax
	xorl	%esi, %esi
	.p2align	4
30:
	movups	(%rdx,%rsi), %xmm0
	movups	16(%rdx,%rsi), %xmm1
	movups	%xmm1, 16(%rcx,%rsi)
	movups	%xmm0, (%rcx,%rsi)
	addq	$32, %rsi
	cmpq	%rsi, %rax
	jne	30b
31:
	movq	%r12, %r13
	testq	%r9, %r9
	sete	%al
	cmpq	%rbx, %r9
	setae	%cl
	orb	%al, %cl
	jne	34f
	movq	%rbx, %r12
	xorl	%ebx, %ebx
	xorl	%r14d, %r14d
	movq	%r9, %r15
	.p2align	4
32:
	movq	%r15, %rax
	shlq	$5, %rax
	movq	%r14, %rcx
	shlq	$5, %rcx
	movq	24(%rsp), %rbp
	movq	(%rbp,%rax), %rdi
	movq	8(%rbp,%rax), %rsi
	movq	(%r11,%rcx), %rdx
	movq	8(%r11,%rcx), %rcx
	callq	"core::cmp::slices::RefSliceOrd::cmp::<#914af4d8504a0b72>"
	movq	8(%rsp), %r11
	xorl	%edx, %edx
	xorl	%ecx, %ecx
	movq	%rbp, %rdi
	movq	%r15, %r8
	testb	%al, %al
	setne	%sil
	sete	%al
	je	33f
	movq	%r11, %rdi
	movq	%r14, %r8
33:
	shlq	$5, %r8
	movups	(%rdi,%r8), %xmm0
	movups	16(%rdi,%r8), %xmm1
	movq	24(%rsp), %rdi
	movups	%xmm0, (%rdi,%rbx)
	movups	%xmm1, 16(%rdi,%rbx)
	movb	%sil, %dl
	addq	%rdx, %r14
	addq	$32, %rbx
	movq	16(%rsp), %r9
	cmpq	%r9, %r14
	jae	35f
	movb	%al, %cl
	addq	%rcx, %r15
	cmpq	%r12, %r15
	jb	32b
	jmp	35f
34:
	xorl	%ebx, %ebx
	xorl	%r14d, %r14d
35:
	movq	%r9, %rdi
	subq	%r14, %rdi
	movq	%r14, %rax
	shlq	$5, %rax
	leaq	(%r11,%rax), %rsi
	movq	24(%rsp), %r10
	leaq	(%r10,%rbx), %r15
	movq	%rdi, %rdx
	shlq	$5, %rdx
	movq	%r15, %rcx
	subq	%rsi, %rcx
	cmpq	%rdx, %rcx
	jae	36f
	cmpq	%r14, %r9
	movq	%r13, %r12
	movq	32(%rsp), %r13
	je	49f
	movl	%edi, %ecx
	andl	$7, %ecx
	subq	%r9, %r14
	cmpq	$-8, %r14
	jbe	55f
	xorl	%edx, %edx
	jmp	57f
36:
	movq	%r13, %r12
	movq	32(%rsp), %r13
37:
	movq	%r15, %rdi
	jmp	48f
38:
	movq	%rbp, %rdi
	andq	$-8, %rdi
	leaq	224(%r14), %rsi
	xorl	%ecx, %ecx
	.p2align	4
39:
	movups	-224(%r15,%rsi), %xmm0
	movups	-208(%r15,%rsi), %xmm1
	movups	%xmm1, -208(%r11,%rsi)
	movups	%xmm0, -224(%r11,%rsi)
	movups	-192(%r15,%rsi), %xmm0
	movups	-176(%r15,%rsi), %xmm1
	movups	%xmm1, -176(%r11,%rsi)
	movups	%xmm0, -192(%r11,%rsi)
	movups	-160(%r15,%rsi), %xmm0
	movups	-144(%r15,%rsi), %xmm1
	movups	%xmm1, -144(%r11,%rsi)
	movups	%xmm0, -160(%r11,%rsi)
	movups	-128(%r15,%rsi), %xmm0
	movups	-112(%r15,%rsi), %xmm1
	movups	%xmm1, -112(%r11,%rsi)
	movups	%xmm0, -128(%r11,%rsi)
	movups	-96(%r15,%rsi), %xmm0
	movups	-80(%r15,%rsi), %xmm1
	movups	%xmm1, -80(%r11,%rsi)
	movups	%xmm0, -96(%r11,%rsi)
	movups	-64(%r15,%rsi), %xmm0
	movups	-48(%r15,%rsi), %xmm1
	movups	%xmm1, -48(%r11,%rsi)
	movups	%xmm0, -64(%r11,%rsi)
	movups	-32(%r15,%rsi), %xmm0
	movups	-16(%r15,%rsi), %xmm1
	movups	%xmm1, -16(%r11,%rsi)
	movups	%xmm0, -32(%r11,%rsi)
	movups	(%r15,%rsi), %xmm0
	movups	16(%r15,%rsi), %xmm1
	movups	%xmm1, 16(%r11,%rsi)
	movups	%xmm0, (%r11,%rsi)
	addq	$8, %rcx
	addq	$256, %rsi
	cmpq	%rcx, %rdi
	jne	39b
	testq	%rax, %rax
	je	42f
40:
	shlq	$5, %rcx
	addq	%r14, %rcx
	leaq	(%r15,%rcx), %rdi
	addq	%r11, %rcx
	shll	$5, %eax
	xorl	%esi, %esi
	.p2align	4
41:
	movups	(%rdi,%rsi), %xmm0
	movups	16(%rdi,%rsi), %xmm1
	movups	%xmm1, 16(%rcx,%rsi)
	movups	%xmm0, (%rcx,%rsi)
	addq	$32, %rsi
	cmpq	%rsi, %rax
	jne	41b
42:
	cmpq	%rbx, %r9
	movq	%r14, 64(%rsp)
	jae	46f
	movq	%r8, 56(%rsp)
	movq	%rbx, %rax
	shlq	$5, %rax
	addq	%rax, %r15
	addq	$-32, %r15
	movq	%r9, %r14
	.p2align	4
43:
	movq	%rbx, %r13
	leaq	-1(%rbx), %rbp
	movq	%rbp, %rax
	shlq	$5, %rax
	leaq	-1(%r14), %r12
	movq	%r12, %rcx
	shlq	$5, %rcx
	movq	(%r11,%rax), %rdi
	movq	8(%r11,%rax), %rsi
	movq	24(%rsp), %rbx
	movq	(%rbx,%rcx), %rdx
	movq	8(%rbx,%rcx), %rcx
	callq	"core::cmp::slices::RefSliceOrd::cmp::<#914af4d8504a0b72>"
	movq	8(%rsp), %r11
	xorl	%edx, %edx
	xorl	%ecx, %ecx
	testb	%al, %al
	setne	%al
	sete	%sil
	je	44f
	movq	%r11, %rbx
	movq	%rbp, %r12
44:
	shlq	$5, %r12
	movups	(%rbx,%r12), %xmm0
	movups	16(%rbx,%r12), %xmm1
	movups	%xmm0, (%r15)
	movups	%xmm1, 16(%r15)
	movb	%sil, %cl
	movb	%al, %dl
	movq	%r13, %rbx
	subq	%rdx, %rbx
	subq	%rcx, %r14
	movq	16(%rsp), %r9
	je	45f
	addq	$-32, %r15
	cmpq	%r9, %rbx
	ja	43b
45:
	movq	%rbx, %rbp
	subq	%r9, %rbp
	shlq	$5, %r14
	movq	%rbp, %rdx
	shlq	$5, %rdx
	movq	40(%rsp), %r12
	movq	24(%rsp), %r15
	movq	32(%rsp), %r13
	movq	56(%rsp), %r8
46:
	addq	%r14, %r15
	movq	%r15, %rax
	subq	%r8, %rax
	cmpq	%rdx, %rax
	jae	47f
	cmpq	%r9, %rbx
	movq	64(%rsp), %rsi
	je	49f
	leaq	-1(%rbp), %rcx
	movl	%ebp, %eax
	andl	$7, %eax
	cmpq	$7, %rcx
	jae	51f
	xorl	%ecx, %ecx
	jmp	53f
47:
	movq	%r15, %rdi
	movq	%r8, %rsi
48:
	callq	memmove@PLT
	movq	8(%rsp), %r11
49:
	movq	%r11, (%r12)
	movq	%r13, 8(%r12)
50:
	addq	$72, %rsp
	popq	%rbx
	popq	%r12
	popq	%r13
	popq	%r14
	popq	%r15
	popq	%rbp
	retq
51:
	andq	$-8, %rbp
	movl	$224, %edx
	xorl	%ecx, %ecx
	.p2align	4
52:
	movups	-224(%r8,%rdx), %xmm0
	movups	-208(%r8,%rdx), %xmm1
	movups	%xmm1, -208(%r15,%rdx)
	movups	%xmm0, -224(%r15,%rdx)
	movups	-192(%r8,%rdx), %xmm0
	movups	-176(%r8,%rdx), %xmm1
	movups	%xmm1, -176(%r15,%rdx)
	movups	%xmm0, -192(%r15,%rdx)
	movups	-160(%r8,%rdx), %xmm0
	movups	-144(%r8,%rdx), %xmm1
	movups	%xmm1, -144(%r15,%rdx)
	movups	%xmm0, -160(%r15,%rdx)
	movups	-128(%r8,%rdx), %xmm0
	movups	-112(%r8,%rdx), %xmm1
	movups	%xmm1, -112(%r15,%rdx)
	movups	%xmm0, -128(%r15,%rdx)
	movups	-96(%r8,%rdx), %xmm0
	movups	-80(%r8,%rdx), %xmm1
	movups	%xmm1, -80(%r15,%rdx)
	movups	%xmm0, -96(%r15,%rdx)
	movups	-64(%r8,%rdx), %xmm0
	movups	-48(%r8,%rdx), %xmm1
	movups	%xmm1, -48(%r15,%rdx)
	movups	%xmm0, -64(%r15,%rdx)
	movups	-32(%r8,%rdx), %xmm0
	movups	-16(%r8,%rdx), %xmm1
	movups	%xmm1, -16(%r15,%rdx)
	movups	%xmm0, -32(%r15,%rdx)
	movups	(%r8,%rdx), %xmm0
	movups	16(%r8,%rdx), %xmm1
	movups	%xmm1, 16(%r15,%rdx)
	movups	%xmm0, (%r15,%rdx)
	addq	$8, %rcx
	addq	$256, %rdx
	cmpq	%rcx, %rbp
	jne	52b
	testq	%rax, %rax
	je	49b
53:
	shlq	$5, %rcx
	addq	%rcx, %rsi
	addq	%r11, %rsi
	addq	%rcx, %r15
	shll	$5, %eax
	xorl	%ecx, %ecx
	.p2align	4
54:
	movups	(%rsi,%rcx), %xmm0
	movups	16(%rsi,%rcx), %xmm1
	movups	%xmm1, 16(%r15,%rcx)
	movups	%xmm0, (%r15,%rcx)
	addq	$32, %rcx
	cmpq	%rcx, %rax
	jne	54b
	jmp	49b
55:
	andq	$-8, %rdi
	movl	$224, %r9d
	xorl	%edx, %edx
	.p2align	4
56:
	movups	-224(%rsi,%r9), %xmm0
	movups	-208(%rsi,%r9), %xmm1
	movups	%xmm1, -208(%r15,%r9)
	movups	%xmm0, -224(%r15,%r9)
	movups	-192(%rsi,%r9), %xmm0
	movups	-176(%rsi,%r9), %xmm1
	movups	%xmm1, -176(%r15,%r9)
	movups	%xmm0, -192(%r15,%r9)
	movups	-160(%rsi,%r9), %xmm0
	movups	-144(%rsi,%r9), %xmm1
	movups	%xmm1, -144(%r15,%r9)
	movups	%xmm0, -160(%r15,%r9)
	movups	-128(%rsi,%r9), %xmm0
	movups	-112(%rsi,%r9), %xmm1
	movups	%xmm1, -112(%r15,%r9)
	movups	%xmm0, -128(%r15,%r9)
	movups	-96(%rsi,%r9), %xmm0
	movups	-80(%rsi,%r9), %xmm1
	movups	%xmm1, -80(%r15,%r9)
	movups	%xmm0, -96(%r15,%r9)
	movups	-64(%rsi,%r9), %xmm0
	movups	-48(%rsi,%r9), %xmm1
	movups	%xmm1, -48(%r15,%r9)
	movups	%xmm0, -64(%r15,%r9)
	movups	-32(%rsi,%r9), %xmm0
	movups	-16(%rsi,%r9), %xmm1
	movups	%xmm1, -16(%r15,%r9)
	movups	%xmm0, -32(%r15,%r9)
	movups	(%rsi,%r9), %xmm0
	movups	16(%rsi,%r9), %xmm1
	movups	%xmm1, 16(%r15,%r9)
	movups	%xmm0, (%r15,%r9)
	addq	$8, %rdx
	addq	$256, %r9
	cmpq	%rdx, %rdi
	jne	56b
	testq	%rcx, %rcx
	je	49b
57:
	shlq	$5, %rdx
	addq	%rdx, %rax
	addq	%r11, %rax
	addq	%rbx, %r10
	addq	%rdx, %r10
	shll	$5, %ecx
	xorl	%edx, %edx
	.p2align	4
58:
	movups	(%rax,%rdx), %xmm0
	movups	16(%rax,%rdx), %xmm1
	movups	%xmm1, 16(%r10,%rdx)
	movups	%xmm0, (%r10,%rdx)
	addq	$32, %rdx
	cmpq	%rdx, %rcx
	jne	58b
	jmp	49b
59:
	.size	"core::slice::sort::merge::merge::<#b4bd7111e818b46c>", 59b-"core::slice::sort::merge::merge::<#b4bd7111e818b46c>"

	.text
	.p2align	4
	.type	"core::slice::sort::merge::merge::<#f98e8d76978ecc20>",@function
"core::slice::sort::merge::merge::<#f98e8d76978ecc20>":
	pushq	%rbp
	pushq	%r15
	pushq	%r14
	pushq	%r13
	pushq	%r12
	pushq	%rbx
	subq	$56, %rsp
	movq	%rcx, %rbp
	movq	%rdx, %r11
	movq	%rsi, %rbx
	movq	%rdi, %r14
	movq	%rsi, %rax
	shrq	$2, %rax
	cmpq	%rdx, %rax
	setbe	%cl
	movq	%rsi, %r12
	subq	%rdx, %r12
	cmpq	%r12, %rax
	setbe	%al
	andb	%cl, %al
	cmpq	$4097, %rsi
	setb	%cl
	xorb	$1, %al
	orb	%al, %cl
	movq	%rdx, 8(%rsp)
	je	2f
	cmpq	$4097, %rbx
	setae	%cl
	testb	%al, %cl
	je	3f
1:
	movq	%r11, %r15
	shlq	$5, %r15
	movq	(%rbp), %r13
	movq	8(%rbp), %rax
	movq	%rax, 32(%rsp)
	cmpq	%r12, %r11
	jbe	4f
	leaq	(%r14,%r15), %rsi
	leaq	(%r15,%r13), %r8
	movq	%r12, %rdx
	shlq	$5, %rdx
	movq	%r8, %rax
	subq	%rsi, %rax
	cmpq	%rdx, %rax
	movq	%rbp, 16(%rsp)
	jae	6f
	cmpq	%r11, %rbx
	je	55f
	movl	%r12d, %eax
	andl	$7, %eax
	movq	%r11, %rcx
	subq	%rbx, %rcx
	cmpq	$-8, %rcx
	jbe	51f
	xorl	%ecx, %ecx
	jmp	53f
2:
	cmpq	$65537, %rbx
	jae	1b
3:
	movq	(%rbp), %r13
	movq	8(%rbp), %r15
	movq	%rbx, %rdx
	shlq	$5, %rdx
	movq	%r13, %rax
	subq	%r14, %rax
	cmpq	%rdx, %rax
	jae	5f
	testq	%rbx, %rbx
	je	12f
	movl	%ebx, %eax
	andl	$7, %eax
	cmpq	$8, %rbx
	jae	8f
	xorl	%ecx, %ecx
	jmp	10f
4:
	movq	%r13, %rax
	subq	%r14, %rax
	cmpq	%r15, %rax
	jae	7f
	testq	%r11, %r11
	je	34f
	movl	%r11d, %eax
	andl	$7, %eax
	cmpq	$8, %r11
	jae	35f
	xorl	%ecx, %ecx
	jmp	37f
5:
	movq	%r13, %rdi
	movq	%r14, %rsi
	callq	memmove@PLT
	movq	8(%rsp), %r11
	jmp	12f
6:
	movq	%r8, %rdi
	movq	%rdx, %rbp
	callq	memmove@PLT
	movq	%rbp, %rdx
	movq	16(%rsp), %rbp
	leaq	(%r15,%r13), %r8
	movq	8(%rsp), %r11
	jmp	55f
7:
	movq	%r13, %rdi
	movq	%r14, %rsi
	movq	%r15, %rdx
	callq	memmove@PLT
	movq	8(%rsp), %r11
	jmp	39f
8:
	movq	%rbx, %rdx
	andq	$-8, %rdx
	movl	$224, %esi
	xorl	%ecx, %ecx
	.p2align	4
9:
	movups	-224(%r14,%rsi), %xmm0
	movups	-208(%r14,%rsi), %xmm1
	movups	%xmm1, -208(%r13,%rsi)
	movups	%xmm0, -224(%r13,%rsi)
	movups	-192(%r14,%rsi), %xmm0
	movups	-176(%r14,%rsi), %xmm1
	movups	%xmm1, -176(%r13,%rsi)
	movups	%xmm0, -192(%r13,%rsi)
	movups	-160(%r14,%rsi), %xmm0
	movups	-144(%r14,%rsi), %xmm1
	movups	%xmm1, -144(%r13,%rsi)
	movups	%xmm0, -160(%r13,%rsi)
	movups	-128(%r14,%rsi), %xmm0
	movups	-112(%r14,%rsi), %xmm1
	movups	%xmm1, -112(%r13,%rsi)
	movups	%xmm0, -128(%r13,%rsi)
	movups	-96(%r14,%rsi), %xmm0
	movups	-80(%r14,%rsi), %xmm1
	movups	%xmm1, -80(%r13,%rsi)
	movups	%xmm0, -96(%r13,%rsi)
	movups	-64(%r14,%rsi), %xmm0
	movups	-48(%r14,%rsi), %xmm1
	movups	%xmm1, -48(%r13,%rsi)
	movups	%xmm0, -64(%r13,%rsi)
	movups	-32(%r14,%rsi), %xmm0
	movups	-16(%r14,%rsi), %xmm1
	movups	%xmm1, -16(%r13,%rsi)
	movups	%xmm0, -32(%r13,%rsi)
	movups	(%r14,%rsi), %xmm0
	movups	16(%r14,%rsi), %xmm1
	movups	%xmm1, 16(%r13,%rsi)
	movups	%xmm0, (%r13,%rsi)
	addq	$8, %rcx
	addq	$256, %rsi
	cmpq	%rcx, %rdx
	jne	9b
	testq	%rax, %rax
	je	12f
10:
	shlq	$5, %rcx
	leaq	(%r14,%rcx), %rdx
	addq	%r13, %rcx
	shll	$5, %eax
	xorl	%esi, %esi
	.p2align	4
11:
	movups	(%rdx,%rsi), %xmm0
	movups	16(%rdx,%rsi), %xmm1
	movups	%xmm1, 16(%rcx,%rsi)
	movups	%xmm0, (%rcx,%rsi)
	addq	$32, %rsi
	cmpq	%rsi, %rax
	jne	11b
12:
	movq	%rbp, 16(%rsp)
	testq	%r11, %r11
	sete	%al
	cmpq	%rbx, %r11
	setae	%cl
	orb	%al, %cl
	movq	%rbx, 24(%rsp)
	jne	26f
	movq	%r15, 32(%rsp)
	xorl	%r12d, %r12d
	movq	%r11, %rbp
	movq	%rbx, %r15
	xorl	%ebx, %ebx
	.p2align	4
13:
	movq	%r11, 8(%rsp)
	movq	%rbp, %rax
	shlq	$5, %rax
	movq	%r12, %rcx
	shlq	$5, %rcx
	movq	(%r13,%rax), %rdi
	movq	8(%r13,%rax), %rsi
	movq	(%r13,%rcx), %rdx
	movq	8(%r13,%rcx), %rcx
	cmpq	%rsi, %rcx
	movq	%rsi, %rax
	cmovbq	%rcx, %rax
	cmpq	$24, %rax
	movl	$24, %r8d
	cmovbq	%rax, %r8
	cmpq	$8, %rax
	jb	15f
	xorl	%eax, %eax
	.p2align	4
14:
	movq	(%rdi,%rax), %r9
	movq	(%rdx,%rax), %r10
	cmpq	%r10, %r9
	jne	17f
	addq	$8, %rax
	addq	$-8, %r8
	cmpq	$7, %r8
	ja	14b
	jmp	16f
	.p2align	4
15:
	xorl	%eax, %eax
16:
	addq	%rax, %rdi
	subq	%rax, %rsi
	addq	%rax, %rdx
	subq	%rax, %rcx
	callq	"core::cmp::slices::RefSliceOrd::cmp::<#914af4d8504a0b72>"
	testb	%al, %al
	sete	%al
	jmp	18f
	.p2align	4
17:
	bswapq	%r10
	bswapq	%r9
	cmpq	%r10, %r9
	setb	%al
18:
	testb	%al, %al
	movq	%r12, %rcx
	cmovneq	%rbp, %rcx
	shlq	$5, %rcx
	movq	%rbx, %rdx
	shlq	$5, %rdx
	movups	(%r13,%rcx), %xmm0
	movups	16(%r13,%rcx), %xmm1
	movups	%xmm1, 16(%r14,%rdx)
	movups	%xmm0, (%r14,%rdx)
	movzbl	%al, %eax
	addq	%rax, %rbp
	xorb	$1, %al
	movzbl	%al, %eax
	addq	%rax, %r12
	movq	8(%rsp), %r11
	cmpq	%r11, %r12
	jae	24f
	cmpq	%r15, %rbp
	jae	24f
	movq	%r15, %rax
	shlq	$5, %rax
	movq	%r11, %rcx
	shlq	$5, %rcx
	movq	-32(%r13,%rax), %rdi
	movq	-24(%r13,%rax), %rsi
	movq	-32(%r13,%rcx), %rdx
	movq	-24(%r13,%rcx), %rcx
	cmpq	%rsi, %rcx
	movq	%rsi, %rax
	cmovbq	%rcx, %rax
	cmpq	$24, %rax
	movl	$24, %r8d
	cmovbq	%rax, %r8
	cmpq	$8, %rax
	jb	20f
	xorl	%eax, %eax
	.p2align	4
19:
	movq	(%rdi,%rax), %r9
	movq	(%rdx,%rax), %r10
	cmpq	%r10, %r9
	jne	22f
	addq	$8, %rax
	addq	$-8, %r8
	cmpq	$7, %r8
	ja	19b
	jmp	21f
	.p2align	4
20:
	xorl	%eax, %eax
21:
	addq	%rax, %rdi
	subq	%rax, %rsi
	addq	%rax, %rdx
	subq	%rax, %rcx
	callq	"core::cmp::slices::RefSliceOrd::cmp::<#914af4d8504a0b72>"
	movq	8(%rsp), %r11
	testb	%al, %al
	sete	%al
	jmp	23f
22:
	bswapq	%r10
	bswapq	%r9
	cmpq	%r10, %r9
	setb	%al
23:
	movq	24(%rsp), %rdx
	decq	%rdx
	testb	%al, %al
	movq	%r15, %rcx
	cmovneq	%r11, %rcx
	shlq	$5, %rcx
	movq	%rdx, 24(%rsp)
	shlq	$5, %rdx
	movups	-32(%r13,%rcx), %xmm0
	movups	-16(%r13,%rcx), %xmm1
	movups	%xmm1, 16(%r14,%rdx)
	movups	%xmm0, (%r14,%rdx)
	movzbl	%al, %eax
	subq	%rax, %r11
	xorb	$1, %al
	movzbl	%al, %eax
	subq	%rax, %r15
24:
	incq	%rbx
	cmpq	%r11, %r12
	jae	25f
	cmpq	%r15, %rbp
	jb	13b
25:
	cmpq	%r11, %r12
	cmovbq	%r12, %rbp
	shlq	$5, %rbp
	movq	32(%rsp), %r15
	jmp	27f
26:
	xorl	%ebx, %ebx
	xorl	%ebp, %ebp
27:
	movq	24(%rsp), %r9
	movq	%r9, %r8
	subq	%rbx, %r8
	movq	%r13, %rsi
	addq	%rbp, %rsi
	movq	%rbx, %rcx
	shlq	$5, %rcx
	leaq	(%r14,%rcx), %rdi
	movq	%r8, %rdx
	shlq	$5, %rdx
	movq	%rdi, %rax
	subq	%rsi, %rax
	cmpq	%rdx, %rax
	jae	28f
	cmpq	%rbx, %r9
	je	33f
	movl	%r8d, %eax
	andl	$7, %eax
	subq	%r9, %rbx
	cmpq	$-8, %rbx
	jbe	29f
	xorl	%edx, %edx
	jmp	31f
28:
	callq	memmove@PLT
	jmp	33f
29:
	andq	$-8, %r8
	movl	$224, %r9d
	xorl	%edx, %edx
	.p2align	4
30:
	movups	-224(%rsi,%r9), %xmm0
	movups	-208(%rsi,%r9), %xmm1
	movups	%xmm1, -208(%rdi,%r9)
	movups	%xmm0, -224(%rdi,%r9)
	movups	-192(%rsi,%r9), %xmm0
	movups	-176(%rsi,%r9), %xmm1
	movups	%xmm1, -176(%rdi,%r9)
	movups	%xmm0, -192(%rdi,%r9)
	movups	-160(%rsi,%r9), %xmm0
	movups	-144(%rsi,%r9), %xmm1
	movups	%xmm1, -144(%rdi,%r9)
	movups	%xmm0, -160(%rdi,%r9)
	movups	-128(%rsi,%r9), %xmm0
	movups	-112(%rsi,%r9), %xmm1
	movups	%xmm1, -112(%rdi,%r9)
	movups	%xmm0, -128(%rdi,%r9)
	movups	-96(%rsi,%r9), %xmm0
	movups	-80(%rsi,%r9), %xmm1
	movups	%xmm1, -80(%rdi,%r9)
	movups	%xmm0, -96(%rdi,%r9)
	movups	-64(%rsi,%r9), %xmm0
	movups	-48(%rsi,%r9), %xmm1
	movups	%xmm1, -48(%rdi,%r9)
	movups	%xmm0, -64(%rdi,%r9)
	movups	-32(%rsi,%r9), %xmm0
	movups	-16(%rsi,%r9), %xmm1
	movups	%xmm1, -16(%rdi,%r9)
	movups	%xmm0, -32(%rdi,%r9)
	movups	(%rsi,%r9), %xmm0
	movups	16(%rsi,%r9), %xmm1
	movups	%xmm1, 16(%rdi,%r9)
	movups	%xmm0, (%rdi,%r9)
	addq	$8, %rdx
	addq	$256, %r9
	cmpq	%rdx, %r8
	jne	30b
	testq	%rax, %rax
	je	33f
31:
	shlq	$5, %rdx
	addq	%rdx, %rbp
	addq	%r13, %rbp
	addq	%rcx, %rdx
	addq	%rdx, %r14
	shll	$5, %eax
	xorl	%ecx, %ecx
	.p2align	4
32:
	movups	(%rbp,%rcx), %xmm0
	movups	16(%rbp,%rcx), %xmm1
	movups	%xmm1, 16(%r14,%rcx)
	movups	%xmm0, (%r14,%rcx)
	addq	$32, %rcx
	cmpq	%rcx, %rax
	jne	32b
33:
	movq	16(%rsp), %rax
	movq	%r13, (%rax)
	movq	%r15, 8(%rax)
	jmp	74f
34:
	xorl	%edx, %edx
	movq	%r13, %rsi
	jmp	50f
35:
	movq	%r11, %rdx
	andq	$-8, %rdx
	movl	$224, %esi
	xorl	%ecx, %ecx
	.p2align	4
36:
	movups	-224(%r14,%rsi), %xmm0
	movups	-208(%r14,%rsi), %xmm1
	movups	%xmm1, -208(%r13,%rsi)
	movups	%xmm0, -224(%r13,%rsi)
	movups	-192(%r14,%rsi), %xmm0
	movups	-176(%r14,%rsi), %xmm1
	movups	%xmm1, -176(%r13,%rsi)
	movups	%xmm0, -192(%r13,%rsi)
	movups	-160(%r14,%rsi), %xmm0
	movups	-144(%r14,%rsi), %xmm1
	movups	%xmm1, -144(%r13,%rsi)
	movups	%xmm0, -160(%r13,%rsi)
	movups	-128(%r14,%rsi), %xmm0
	movups	-112(%r14,%rsi), %xmm1
	movups	%xmm1, -112(%r13,%rsi)
	movups	%xmm0, -128(%r13,%rsi)
	movups	-96(%r14,%rsi), %xmm0
	movups	-80(%r14,%rsi), %xmm1
	movups	%xmm1, -80(%r13,%rsi)
	movups	%xmm0, -96(%r13,%rsi)
	movups	-64(%r14,%rsi), %xmm0
	movups	-48(%r14,%rsi), %xmm1
	movups	%xmm1, -48(%r13,%rsi)
	movups	%xmm0, -64(%r13,%rsi)
	movups	-32(%r14,%rsi), %xmm0
	movups	-16(%r14,%rsi), %xmm1
	movups	%xmm1, -16(%r13,%rsi)
	movups	%xmm0, -32(%r13,%rsi)
	movups	(%r14,%rsi), %xmm0
	movups	16(%r14,%rsi), %xmm1
	movups	%xmm1, 16(%r13,%rsi)
	movups	%xmm0, (%r13,%rsi)
	addq	$8, %rcx
	addq	$256, %rsi
	cmpq	%rcx, %rdx
	jne	36b
	testq	%rax, %rax
	je	39f
37:
	shlq	$5, %rcx
	leaq	(%r14,%rcx), %rdx
	addq	%r13, %rcx
	shll	$5, %eax
	xorl	%esi, %esi
	.p2align	4
38:
	movups	(%rdx,%rsi), %xmm0
	movups	16(%rdx,%rsi), %xmm1
	movups	%xmm1, 16(%rcx,%rsi)
	movups	%xmm0, (%rcx,%rsi)
	addq	$32, %rsi
	cmpq	%rsi, %rax
	jne	38b
39:
	testq	%r11, %r11
	sete	%al
	cmpq	%rbx, %r11
	setae	%cl
	orb	%al, %cl
	jne	47f
	movq	%rbp, 16(%rsp)
	movq	%rbx, %rbp
	xorl	%r15d, %r15d
	movq	%r11, %r12
	xorl	%ebx, %ebx
	.p2align	4
40:
	movq	%r12, %rax
	shlq	$5, %rax
	movq	%r15, %rcx
	shlq	$5, %rcx
	movq	(%r14,%rax), %rdi
	movq	8(%r14,%rax), %rsi
	movq	(%r13,%rcx), %rdx
	movq	8(%r13,%rcx), %rcx
	cmpq	%rsi, %rcx
	movq	%rsi, %rax
	cmovbq	%rcx, %rax
	cmpq	$24, %rax
	movl	$24, %r8d
	cmovbq	%rax, %r8
	cmpq	$8, %rax
	jb	42f
	xorl	%eax, %eax
	.p2align	4
41:
	movq	(%rdi,%rax), %r9
	movq	(%rdx,%rax), %r10
	cmpq	%r10, %r9
	jne	44f
	addq	$8, %rax
	addq	$-8, %r8
	cmpq	$7, %r8
	ja	41b
	jmp	43f
	.p2align	4
42:
	xorl	%eax, %eax
43:
	addq	%rax, %rdi
	subq	%rax, %rsi
	addq	%rax, %rdx
	subq	%rax, %rcx
	callq	"core::cmp::slices::RefSliceOrd::cmp::<#914af4d8504a0b72>"
	testb	%al, %al
	sete	%al
	jmp	45f
	.p2align	4
44:
	bswapq	%r10
	bswapq	%r9
	cmpq	%r10, %r9
	setb	%al
45:
	testb	%al, %al
	movq	%r13, %rcx
	cmovneq	%r14, %rcx
	movq	%r15, %rdx
	cmovneq	%r12, %rdx
	shlq	$5, %rdx
	movq	%rbx, %rsi
	shlq	$5, %rsi
	movups	(%rcx,%rdx), %xmm0
	movups	16(%rcx,%rdx), %xmm1
	movups	%xmm1, 16(%r14,%rsi)
	movups	%xmm0, (%r14,%rsi)
	movl	%eax, %ecx
	xorb	$1, %cl
	movzbl	%cl, %ecx
	addq	%rcx, %r15
	incq	%rbx
	movq	8(%rsp), %r11
	cmpq	%r11, %r15
	jae	46f
	movzbl	%al, %eax
	addq	%rax, %r12
	cmpq	%rbp, %r12
	jb	40b
46:
	shlq	$5, %rbx
	movq	16(%rsp), %rbp
	jmp	48f
47:
	xorl	%ebx, %ebx
	xorl	%r15d, %r15d
48:
	movq	%r11, %rdi
	subq	%r15, %rdi
	movq	%r15, %rax
	shlq	$5, %rax
	leaq	(%rax,%r13), %rsi
	leaq	(%r14,%rbx), %r8
	movq	%rdi, %rdx
	shlq	$5, %rdx
	movq	%r8, %rcx
	subq	%rsi, %rcx
	cmpq	%rdx, %rcx
	jae	49f
	cmpq	%r15, %r11
	je	73f
	movl	%edi, %ecx
	andl	$7, %ecx
	subq	%r11, %r15
	cmpq	$-8, %r15
	jbe	69f
	xorl	%edx, %edx
	jmp	71f
49:
	movq	%r8, %r14
50:
	movq	%r14, %rdi
	callq	memmove@PLT
	jmp	73f
51:
	movq	%r12, %rdi
	andq	$-8, %rdi
	leaq	224(%r15), %rsi
	xorl	%ecx, %ecx
	.p2align	4
52:
	movups	-224(%r14,%rsi), %xmm0
	movups	-208(%r14,%rsi), %xmm1
	movups	%xmm1, -208(%r13,%rsi)
	movups	%xmm0, -224(%r13,%rsi)
	movups	-192(%r14,%rsi), %xmm0
	movups	-176(%r14,%rsi), %xmm1
	movups	%xmm1, -176(%r13,%rsi)
	movups	%xmm0, -192(%r13,%rsi)
	movups	-160(%r14,%rsi), %xmm0
	movups	-144(%r14,%rsi), %xmm1
	movups	%xmm1, -144(%r13,%rsi)
	movups	%xmm0, -160(%r13,%rsi)
	movups	-128(%r14,%rsi), %xmm0
	movups	-112(%r14,%rsi), %xmm1
	movups	%xmm1, -112(%r13,%rsi)
	movups	%xmm0, -128(%r13,%rsi)
	movups	-96(%r14,%rsi), %xmm0
	movups	-80(%r14,%rsi), %xmm1
	movups	%xmm1, -80(%r13,%rsi)
	movups	%xmm0, -96(%r13,%rsi)
	movups	-64(%r14,%rsi), %xmm0
	movups	-48(%r14,%rsi), %xmm1
	movups	%xmm1, -48(%r13,%rsi)
	movups	%xmm0, -64(%r13,%rsi)
	movups	-32(%r14,%rsi), %xmm0
	movups	-16(%r14,%rsi), %xmm1
	movups	%xmm1, -16(%r13,%rsi)
	movups	%xmm0, -32(%r13,%rsi)
	movups	(%r14,%rsi), %xmm0
	movups	16(%r14,%rsi), %xmm1
	movups	%xmm1, 16(%r13,%rsi)
	movups	%xmm0, (%r13,%rsi)
	addq	$8, %rcx
	addq	$256, %rsi
	cmpq	%rcx, %rdi
	jne	52b
	testq	%rax, %rax
	je	55f
53:
	shlq	$5, %rcx
	addq	%r15, %rcx
	leaq	(%r14,%rcx), %rdi
	addq	%r13, %rcx
	shll	$5, %eax
	xorl	%esi, %esi
	.p2align	4
54:
	movups	(%rdi,%rsi), %xmm0
	movups	16(%rdi,%rsi), %xmm1
	movups	%xmm1, 16(%rcx,%rsi)
	movups	%xmm0, (%rcx,%rsi)
	addq	$32, %rsi
	cmpq	%rsi, %rax
	jne	54b
55:
	cmpq	%rbx, %r11
	movq	%r15, 48(%rsp)
	jae	63f
	movq	%r8, 40(%rsp)
	movq	%r11, %r15
	movq	%rbx, %r12
	.p2align	4
56:
	movq	%rbx, 24(%rsp)
	leaq	-1(%rbx), %rbp
	movq	%rbp, %rax
	shlq	$5, %rax
	leaq	-1(%r15), %rbx
	movq	%rbx, %rcx
	shlq	$5, %rcx
	movq	(%r13,%rax), %rdi
	movq	8(%r13,%rax), %rsi
	movq	(%r14,%rcx), %rdx
	movq	8(%r14,%rcx), %rcx
	cmpq	%rsi, %rcx
	movq	%rsi, %rax
	cmovbq	%rcx, %rax
	cmpq	$24, %rax
	movl	$24, %r8d
	cmovbq	%rax, %r8
	cmpq	$8, %rax
	jb	58f
	xorl	%eax, %eax
	.p2align	4
57:
	movq	(%rdi,%rax), %r9
	movq	(%rdx,%rax), %r10
	cmpq	%r10, %r9
	jne	60f
	addq	$8, %rax
	addq	$-8, %r8
	cmpq	$7, %r8
	ja	57b
	jmp	59f
	.p2align	4
58:
	xorl	%eax, %eax
59:
	addq	%rax, %rdi
	subq	%rax, %rsi
	addq	%rax, %rdx
	subq	%rax, %rcx
	callq	"core::cmp::slices::RefSliceOrd::cmp::<#914af4d8504a0b72>"
	movq	8(%rsp), %r11
	testb	%al, %al
	sete	%al
	jmp	61f
	.p2align	4
60:
	bswapq	%r10
	bswapq	%r9
	cmpq	%r10, %r9
	setb	%al
61:
	testb	%al, %al
	movq	%r13, %rcx
	cmovneq	%r14, %rcx
	cmovneq	%rbx, %rbp
	shlq	$5, %rbp
	decq	%r12
	movq	%r12, %rdx
	shlq	$5, %rdx
	movups	(%rcx,%rbp), %xmm0
	movups	16(%rcx,%rbp), %xmm1
	movups	%xmm1, 16(%r14,%rdx)
	movups	%xmm0, (%r14,%rdx)
	movzbl	%al, %eax
	movl	%eax, %ecx
	xorb	$1, %cl
	movzbl	%cl, %ecx
	movq	24(%rsp), %rbx
	subq	%rcx, %rbx
	subq	%rax, %r15
	je	62f
	cmpq	%r11, %rbx
	ja	56b
62:
	movq	%rbx, %r12
	subq	%r11, %r12
	shlq	$5, %r15
	movq	%r12, %rdx
	shlq	$5, %rdx
	movq	16(%rsp), %rbp
	movq	40(%rsp), %r8
63:
	addq	%r15, %r14
	movq	%r14, %rax
	subq	%r8, %rax
	cmpq	%rdx, %rax
	jae	64f
	cmpq	%r11, %rbx
	movq	48(%rsp), %rsi
	je	73f
	leaq	-1(%r12), %rcx
	movl	%r12d, %eax
	andl	$7, %eax
	cmpq	$7, %rcx
	jae	65f
	xorl	%ecx, %ecx
	jmp	67f
64:
	movq	%r14, %rdi
	movq	%r8, %rsi
	callq	memmove@PLT
	jmp	73f
65:
	andq	$-8, %r12
	movl	$224, %edx
	xorl	%ecx, %ecx
	.p2align	4
66:
	movups	-224(%r8,%rdx), %xmm0
	movups	-208(%r8,%rdx), %xmm1
	movups	%xmm1, -208(%r14,%rdx)
	movups	%xmm0, -224(%r14,%rdx)
	movups	-192(%r8,%rdx), %xmm0
	movups	-176(%r8,%rdx), %xmm1
	movups	%xmm1, -176(%r14,%rdx)
	movups	%xmm0, -192(%r14,%rdx)
	movups	-160(%r8,%rdx), %xmm0
	movups	-144(%r8,%rdx), %xmm1
	movups	%xmm1, -144(%r14,%rdx)
	movups	%xmm0, -160(%r14,%rdx)
	movups	-128(%r8,%rdx), %xmm0
	movups	-112(%r8,%rdx), %xmm1
	movups	%xmm1, -112(%r14,%rdx)
	movups	%xmm0, -128(%r14,%rdx)
	movups	-96(%r8,%rdx), %xmm0
	movups	-80(%r8,%rdx), %xmm1
	movups	%xmm1, -80(%r14,%rdx)
	movups	%xmm0, -96(%r14,%rdx)
	movups	-64(%r8,%rdx), %xmm0
	movups	-48(%r8,%rdx), %xmm1
	movups	%xmm1, -48(%r14,%rdx)
	movups	%xmm0, -64(%r14,%rdx)
	movups	-32(%r8,%rdx), %xmm0
	movups	-16(%r8,%rdx), %xmm1
	movups	%xmm1, -16(%r14,%rdx)
	movups	%xmm0, -32(%r14,%rdx)
	movups	(%r8,%rdx), %xmm0
	movups	16(%r8,%rdx), %xmm1
	movups	%xmm1, 16(%r14,%rdx)
	movups	%xmm0, (%r14,%rdx)
	addq	$8, %rcx
	addq	$256, %rdx
	cmpq	%rcx, %r12
	jne	66b
	testq	%rax, %rax
	je	73f
67:
	shlq	$5, %rcx
	addq	%rcx, %rsi
	addq	%r13, %rsi
	addq	%rcx, %r14
	shll	$5, %eax
	xorl	%ecx, %ecx
	.p2align	4
68:
	movups	(%rsi,%rcx), %xmm0
	movups	16(%rsi,%rcx), %xmm1
	movups	%xmm1, 16(%r14,%rcx)
	movups	%xmm0, (%r14,%rcx)
	addq	$32, %rcx
	cmpq	%rcx, %rax
	jne	68b
	jmp	73f
69:
	andq	$-8, %rdi
	movl	$224, %r9d
	xorl	%edx, %edx
	.p2align	4
70:
	movups	-224(%rsi,%r9), %xmm0
	movups	-208(%rsi,%r9), %xmm1
	movups	%xmm1, -208(%r8,%r9)
	movups	%xmm0, -224(%r8,%r9)
	movups	-192(%rsi,%r9), %xmm0
	movups	-176(%rsi,%r9), %xmm1
	movups	%xmm1, -176(%r8,%r9)
	movups	%xmm0, -192(%r8,%r9)
	movups	-160(%rsi,%r9), %xmm0
	movups	-144(%rsi,%r9), %xmm1
	movups	%xmm1, -144(%r8,%r9)
	movups	%xmm0, -160(%r8,%r9)
	movups	-128(%rsi,%r9), %xmm0
	movups	-112(%rsi,%r9), %xmm1
	movups	%xmm1, -112(%r8,%r9)
	movups	%xmm0, -128(%r8,%r9)
	movups	-96(%rsi,%r9), %xmm0
	movups	-80(%rsi,%r9), %xmm1
	movups	%xmm1, -80(%r8,%r9)
	movups	%xmm0, -96(%r8,%r9)
	movups	-64(%rsi,%r9), %xmm0
	movups	-48(%rsi,%r9), %xmm1
	movups	%xmm1, -48(%r8,%r9)
	movups	%xmm0, -64(%r8,%r9)
	movups	-32(%rsi,%r9), %xmm0
	movups	-16(%rsi,%r9), %xmm1
	movups	%xmm1, -16(%r8,%r9)
	movups	%xmm0, -32(%r8,%r9)
	movups	(%rsi,%r9), %xmm0
	movups	16(%rsi,%r9), %xmm1
	movups	%xmm1, 16(%r8,%r9)
	movups	%xmm0, (%r8,%r9)
	addq	$8, %rdx
	addq	$256, %r9
	cmpq	%rdx, %rdi
	jne	70b
	testq	%rcx, %rcx
	je	73f
71:
	shlq	$5, %rdx
	addq	%rdx, %rax
	addq	%r13, %rax
	addq	%rbx, %r14
	addq	%rdx, %r14
	shll	$5, %ecx
	xorl	%edx, %edx
	.p2align	4
72:
	movups	(%rax,%rdx), %xmm0
	movups	16(%rax,%rdx), %xmm1
	movups	%xmm1, 16(%r14,%rdx)
	movups	%xmm0, (%r14,%rdx)
	addq	$32, %rdx
	cmpq	%rdx, %rcx
	jne	72b
73:
	movq	%r13, (%rbp)
	movq	32(%rsp), %rax
	movq	%rax, 8(%rbp)
74:
	addq	$56, %rsp
	popq	%rbx
	popq	%r12
	popq	%r13
	popq	%r14
	popq	%r15
	popq	%rbp
	retq
75:
	.size	"core::slice::sort::merge::merge::<#f98e8d76978ecc20>", 75b-"core::slice::sort::merge::merge::<#f98e8d76978ecc20>"

	.text
	.p2align	4
	.type	"core::slice::sort::pivot::median_of_medians::<#12eb916b83b0f891>",@function
"core::slice::sort::pivot::median_of_medians::<#12eb916b83b0f891>":
	pushq	%rbp
	pushq	%r15
	pushq	%r14
	pushq	%r13
	pushq	%r12
	pushq	%rbx
	pushq	%rax
	movq	%rcx, %r14
	movq	%rdx, %rbx
	cmpq	$8, %r8
	jae	1f
	movl	(%rdi,%rsi,8), %eax
	movl	(%rdi,%rbx,8), %ecx
	cmpl	%eax, %ecx
	setb	%dl
	movl	(%rdi,%r14,8), %edi
	cmpl	%eax, %edi
	setb	%al
	xorb	%dl, %al
	cmpl	%ecx, %edi
	setb	%cl
	xorb	%dl, %cl
	cmovneq	%r14, %rbx
	testb	%al, %al
	cmovneq	%rsi, %rbx
	jmp	2f
1:
	movq	%r8, %r12
	shrq	$3, %r12
	leaq	(%rsi,%r12,4), %rdx
	andq	$-8, %r8
	subq	%r12, %r8
	leaq	(%r8,%rsi), %rcx
	movq	%rdi, %r13
	movq	%r8, %rbp
	movq	%r12, %r8
	callq	"core::slice::sort::pivot::median_of_medians::<#12eb916b83b0f891>"
	movq	%rax, %r15
	leaq	(%rbx,%r12,4), %rdx
	leaq	(%rbx,%rbp), %rcx
	movq	%r13, %rdi
	movq	%rbx, %rsi
	movq	%r12, %r8
	callq	"core::slice::sort::pivot::median_of_medians::<#12eb916b83b0f891>"
	movq	%rax, %rbx
	leaq	(%r14,%r12,4), %rdx
	addq	%r14, %rbp
	movq	%r13, %rdi
	movq	%r14, %rsi
	movq	%rbp, %rcx
	movq	%r12, %r8
	callq	"core::slice::sort::pivot::median_of_medians::<#12eb916b83b0f891>"
	movl	(%r13,%r15,8), %ecx
	movl	(%r13,%rbx,8), %edx
	cmpl	%ecx, %edx
	setb	%sil
	movl	(%r13,%rax,8), %edi
	cmpl	%ecx, %edi
	setb	%cl
	xorb	%sil, %cl
	cmpl	%edx, %edi
	setb	%dl
	xorb	%sil, %dl
	cmovneq	%rax, %rbx
	testb	%cl, %cl
	cmovneq	%r15, %rbx
2:
	movq	%rbx, %rax
	addq	$8, %rsp
	popq	%rbx
	popq	%r12
	popq	%r13
	popq	%r14
	popq	%r15
	popq	%rbp
	retq
3:
	.size	"core::slice::sort::pivot::median_of_medians::<#12eb916b83b0f891>", 3b-"core::slice::sort::pivot::median_of_medians::<#12eb916b83b0f891>"

	.text
	.p2align	4
	.type	"core::slice::sort::pivot::median_of_medians::<#196989f31ad14034>",@function
"core::slice::sort::pivot::median_of_medians::<#196989f31ad14034>":
	pushq	%rbp
	pushq	%r15
	pushq	%r14
	pushq	%r13
	pushq	%r12
	pushq	%rbx
	pushq	%rax
	movq	%rcx, %r14
	movq	%rdx, %rbx
	cmpq	$8, %r8
	jae	1f
	movq	(%rdi,%rsi,8), %rax
	movq	(%rdi,%rbx,8), %rcx
	movl	56(%rax), %eax
	movl	56(%rcx), %ecx
	cmpl	%eax, %ecx
	setb	%dl
	movq	(%rdi,%r14,8), %rdi
	movl	56(%rdi), %edi
	cmpl	%eax, %edi
	setb	%al
	xorb	%dl, %al
	cmpl	%ecx, %edi
	setb	%cl
	xorb	%dl, %cl
	cmovneq	%r14, %rbx
	testb	%al, %al
	cmovneq	%rsi, %rbx
	jmp	2f
1:
	movq	%r8, %r13
	shrq	$3, %r13
	leaq	(%rsi,%r13,4), %rdx
	andq	$-8, %r8
	subq	%r13, %r8
	leaq	(%r8,%rsi), %rcx
	movq	%rdi, %r12
	movq	%r8, %rbp
	movq	%r13, %r8
	callq	"core::slice::sort::pivot::median_of_medians::<#196989f31ad14034>"
	movq	%rax, %r15
	leaq	(%rbx,%r13,4), %rdx
	leaq	(%rbx,%rbp), %rcx
	movq	%r12, %rdi
	movq	%rbx, %rsi
	movq	%r13, %r8
	callq	"core::slice::sort::pivot::median_of_medians::<#196989f31ad14034>"
	movq	%rax, %rbx
	leaq	(%r14,%r13,4), %rdx
	addq	%r14, %rbp
	movq	%r12, %rdi
	movq	%r14, %rsi
	movq	%rbp, %rcx
	movq	%r13, %r8
	callq	"core::slice::sort::pivot::median_of_medians::<#196989f31ad14034>"
	movq	(%r12,%r15,8), %rcx
	movq	(%r12,%rbx,8), %rdx
	movl	56(%rcx), %ecx
	movl	56(%rdx), %edx
	cmpl	%ecx, %edx
	setb	%sil
	movq	(%r12,%rax,8), %rdi
	movl	56(%rdi), %edi
	cmpl	%ecx, %edi
	setb	%cl
	xorb	%sil, %cl
	cmpl	%edx, %edi
	setb	%dl
	xorb	%sil, %dl
	cmovneq	%rax, %rbx
	testb	%cl, %cl
	cmovneq	%r15, %rbx
2:
	movq	%rbx, %rax
	addq	$8, %rsp
	popq	%rbx
	popq	%r12
	popq	%r13
	popq	%r14
	popq	%r15
	popq	%rbp
	retq
3:
	.size	"core::slice::sort::pivot::median_of_medians::<#196989f31ad14034>", 3b-"core::slice::sort::pivot::median_of_medians::<#196989f31ad14034>"

	.text
	.p2align	4
	.type	"core::slice::sort::pivot::median_of_medians::<#32fabb223415b920>",@function
"core::slice::sort::pivot::median_of_medians::<#32fabb223415b920>":
	cmpq	$7, %r8
	ja	1f
	jmp	"core::slice::sort::pivot::median_of_three::<#32fabb223415b920>"
1:
	pushq	%rbp
	pushq	%r15
	pushq	%r14
	pushq	%r13
	pushq	%r12
	pushq	%rbx
	pushq	%rax
	movq	%r8, %rbx
	shrq	$3, %rbx
	leaq	(%rsi,%rbx,4), %rax
	andq	$-8, %r8
	subq	%rbx, %r8
	leaq	(%r8,%rsi), %r9
	movq	%rdi, %r14
	movq	%rdx, %r15
	movq	%rax, %rdx
	movq	%rcx, %r12
	movq	%r9, %rcx
	movq	%r8, %r13
	movq	%rbx, %r8
	callq	"core::slice::sort::pivot::median_of_medians::<#32fabb223415b920>"
	movq	%rax, %rbp
	leaq	(%r15,%rbx,4), %rdx
	leaq	(%r15,%r13), %rcx
	movq	%r14, %rdi
	movq	%r15, %rsi
	movq	%rbx, %r8
	callq	"core::slice::sort::pivot::median_of_medians::<#32fabb223415b920>"
	movq	%rax, %r15
	leaq	(%r12,%rbx,4), %rdx
	addq	%r12, %r13
	movq	%r14, %rdi
	movq	%r12, %rsi
	movq	%r13, %rcx
	movq	%rbx, %r8
	callq	"core::slice::sort::pivot::median_of_medians::<#32fabb223415b920>"
	movq	%r14, %rdi
	movq	%rbp, %rsi
	movq	%r15, %rdx
	movq	%rax, %rcx
	addq	$8, %rsp
	popq	%rbx
	popq	%r12
	popq	%r13
	popq	%r14
	popq	%r15
	popq	%rbp
	jmp	"core::slice::sort::pivot::median_of_three::<#32fabb223415b920>"
2:
	.size	"core::slice::sort::pivot::median_of_medians::<#32fabb223415b920>", 2b-"core::slice::sort::pivot::median_of_medians::<#32fabb223415b920>"

	.text
	.p2align	4
	.type	"core::slice::sort::pivot::median_of_medians::<#54047240e3f04dbb>",@function
"core::slice::sort::pivot::median_of_medians::<#54047240e3f04dbb>":
	pushq	%rbp
	pushq	%r15
	pushq	%r14
	pushq	%r13
	pushq	%r12
	pushq	%rbx
	pushq	%rax
	movq	%rcx, %r14
	movq	%rdx, %rbx
	cmpq	$8, %r8
	jae	1f
	leaq	(%rsi,%rsi,4), %rax
	shlq	$4, %rax
	leaq	(%rbx,%rbx,4), %rcx
	shlq	$4, %rcx
	movl	(%rdi,%rax), %eax
	movl	(%rdi,%rcx), %ecx
	cmpl	%eax, %ecx
	setb	%dl
	leaq	(%r14,%r14,4), %r8
	shlq	$4, %r8
	movl	(%rdi,%r8), %edi
	cmpl	%eax, %edi
	setb	%al
	xorb	%dl, %al
	cmpl	%ecx, %edi
	setb	%cl
	xorb	%dl, %cl
	cmovneq	%r14, %rbx
	testb	%al, %al
	cmovneq	%rsi, %rbx
	jmp	2f
1:
	movq	%r8, %r13
	shrq	$3, %r13
	leaq	(%rsi,%r13,4), %rdx
	andq	$-8, %r8
	subq	%r13, %r8
	leaq	(%r8,%rsi), %rcx
	movq	%rdi, %r12
	movq	%r8, %rbp
	movq	%r13, %r8
	callq	"core::slice::sort::pivot::median_of_medians::<#54047240e3f04dbb>"
	movq	%rax, %r15
	leaq	(%rbx,%r13,4), %rdx
	leaq	(%rbx,%rbp), %rcx
	movq	%r12, %rdi
	movq	%rbx, %rsi
	movq	%r13, %r8
	callq	"core::slice::sort::pivot::median_of_medians::<#54047240e3f04dbb>"
	movq	%rax, %rbx
	leaq	(%r14,%r13,4), %rdx
	addq	%r14, %rbp
	movq	%r12, %rdi
	movq	%r14, %rsi
	movq	%rbp, %rcx
	movq	%r13, %r8
	callq	"core::slice::sort::pivot::median_of_medians::<#54047240e3f04dbb>"
	leaq	(%r15,%r15,4), %rcx
	shlq	$4, %rcx
	leaq	(%rbx,%rbx,4), %rdx
	shlq	$4, %rdx
	movl	(%r12,%rcx), %ecx
	movl	(%r12,%rdx), %edx
	cmpl	%ecx, %edx
	setb	%sil
	leaq	(%rax,%rax,4), %rdi
	shlq	$4, %rdi
	movl	(%r12,%rdi), %edi
	cmpl	%ecx, %edi
	setb	%cl
	xorb	%sil, %cl
	cmpl	%edx, %edi
	setb	%dl
	xorb	%sil, %dl
	cmovneq	%rax, %rbx
	testb	%cl, %cl
	cmovneq	%r15, %rbx
2:
	movq	%rbx, %rax
	addq	$8, %rsp
	popq	%rbx
	popq	%r12
	popq	%r13
	popq	%r14
	popq	%r15
	popq	%rbp
	retq
3:
	.size	"core::slice::sort::pivot::median_of_medians::<#54047240e3f04dbb>", 3b-"core::slice::sort::pivot::median_of_medians::<#54047240e3f04dbb>"

	.text
	.p2align	4
	.type	"core::slice::sort::pivot::median_of_medians::<#7ab9c65c4fe95e6e>",@function
"core::slice::sort::pivot::median_of_medians::<#7ab9c65c4fe95e6e>":
	pushq	%rbp
	pushq	%r15
	pushq	%r14
	pushq	%r13
	pushq	%r12
	pushq	%rbx
	pushq	%rax
	movq	%rcx, %r14
	movq	%rdx, %rbx
	cmpq	$8, %r8
	jae	1f
	movq	(%rdi,%rsi,8), %rax
	movq	(%rdi,%rbx,8), %rcx
	cmpq	%rcx, %rax
	setb	%dl
	movq	(%rdi,%r14,8), %rdi
	cmpq	%rdi, %rax
	setb	%al
	xorb	%dl, %al
	cmpq	%rdi, %rcx
	setb	%cl
	xorb	%dl, %cl
	cmovneq	%r14, %rbx
	testb	%al, %al
	cmovneq	%rsi, %rbx
	jmp	2f
1:
	movq	%r8, %r12
	shrq	$3, %r12
	leaq	(%rsi,%r12,4), %rdx
	andq	$-8, %r8
	subq	%r12, %r8
	leaq	(%r8,%rsi), %rcx
	movq	%rdi, %r13
	movq	%r8, %rbp
	movq	%r12, %r8
	callq	"core::slice::sort::pivot::median_of_medians::<#7ab9c65c4fe95e6e>"
	movq	%rax, %r15
	leaq	(%rbx,%r12,4), %rdx
	leaq	(%rbx,%rbp), %rcx
	movq	%r13, %rdi
	movq	%rbx, %rsi
	movq	%r12, %r8
	callq	"core::slice::sort::pivot::median_of_medians::<#7ab9c65c4fe95e6e>"
	movq	%rax, %rbx
	leaq	(%r14,%r12,4), %rdx
	addq	%r14, %rbp
	movq	%r13, %rdi
	movq	%r14, %rsi
	movq	%rbp, %rcx
	movq	%r12, %r8
	callq	"core::slice::sort::pivot::median_of_medians::<#7ab9c65c4fe95e6e>"
	movq	(%r13,%r15,8), %rcx
	movq	(%r13,%rbx,8), %rdx
	cmpq	%rdx, %rcx
	setb	%sil
	movq	(%r13,%rax,8), %rdi
	cmpq	%rdi, %rcx
	setb	%cl
	xorb	%sil, %cl
	cmpq	%rdi, %rdx
	setb	%dl
	xorb	%sil, %dl
	cmovneq	%rax, %rbx
	testb	%cl, %cl
	cmovneq	%r15, %rbx
2:
	movq	%rbx, %rax
	addq	$8, %rsp
	popq	%rbx
	popq	%r12
	popq	%r13
	popq	%r14
	popq	%r15
	popq	%rbp
	retq
3:
	.size	"core::slice::sort::pivot::median_of_medians::<#7ab9c65c4fe95e6e>", 3b-"core::slice::sort::pivot::median_of_medians::<#7ab9c65c4fe95e6e>"

	.text
	.p2align	4
	.type	"core::slice::sort::pivot::median_of_medians::<#b4bd7111e818b46c>",@function
"core::slice::sort::pivot::median_of_medians::<#b4bd7111e818b46c>":
	pushq	%rbp
	pushq	%r15
	pushq	%r14
	pushq	%r13
	pushq	%r12
	pushq	%rbx
	subq	$40, %rsp
	movq	%rcx, %r14
	movq	%rdx, %r12
	movq	%rsi, %rbx
	movq	%rdi, %r15
	cmpq	$8, %r8
	jae	1f
	movq	%rbx, %rax
	shlq	$5, %rax
	movq	%r12, %rcx
	shlq	$5, %rcx
	movq	(%r15,%rax), %r13
	movq	8(%r15,%rax), %rbp
	movq	(%r15,%rcx), %rdx
	movq	8(%r15,%rcx), %rcx
	movq	%r13, %rdi
	movq	%rbp, %rsi
	movq	%rdx, 24(%rsp)
	movq	%rcx, 16(%rsp)
	callq	"core::cmp::slices::RefSliceOrd::cmp::<#914af4d8504a0b72>"
	movb	%al, 8(%rsp)
	testb	%al, %al
	sete	7(%rsp)
	movq	%r14, %rax
	shlq	$5, %rax
	movq	(%r15,%rax), %rcx
	movq	8(%r15,%rax), %r15
	movq	%r13, %rdi
	movq	%rcx, %r13
	movq	%rbp, %rsi
	movq	%rcx, %rdx
	movq	%r15, %rcx
	callq	"core::cmp::slices::RefSliceOrd::cmp::<#914af4d8504a0b72>"
	testb	%al, %al
	sete	%al
	xorb	7(%rsp), %al
	jne	2f
	cmpb	$0, 8(%rsp)
	sete	%bl
	movq	24(%rsp), %rdi
	movq	16(%rsp), %rsi
	movq	%r13, %rdx
	movq	%r15, %rcx
	callq	"core::cmp::slices::RefSliceOrd::cmp::<#914af4d8504a0b72>"
	testb	%al, %al
	sete	%al
	xorb	%bl, %al
	cmovneq	%r14, %r12
	movq	%r12, %rbx
	jmp	2f
1:
	movq	%r8, %r13
	shrq	$3, %r13
	leaq	(%rbx,%r13,4), %rdx
	andq	$-8, %r8
	subq	%r13, %r8
	leaq	(%r8,%rbx), %rcx
	movq	%r15, %rdi
	movq	%rbx, %rsi
	movq	%r8, %rbp
	movq	%r13, %r8
	callq	"core::slice::sort::pivot::median_of_medians::<#b4bd7111e818b46c>"
	movq	%rax, %rbx
	leaq	(%r12,%r13,4), %rdx
	leaq	(%r12,%rbp), %rcx
	movq	%r15, %rdi
	movq	%r12, %rsi
	movq	%r13, %r8
	callq	"core::slice::sort::pivot::median_of_medians::<#b4bd7111e818b46c>"
	movq	%rax, %r12
	leaq	(%r14,%r13,4), %rdx
	addq	%r14, %rbp
	movq	%r15, %rdi
	movq	%r14, %rsi
	movq	%rbp, %rcx
	movq	%r13, %r8
	callq	"core::slice::sort::pivot::median_of_medians::<#b4bd7111e818b46c>"
	movq	%rax, %r14
	movq	%rbx, %rax
	shlq	$5, %rax
	movq	%r12, 24(%rsp)
	shlq	$5, %r12
	movq	(%r15,%rax), %r13
	movq	8(%r15,%rax), %rbp
	movq	(%r15,%r12), %rdx
	movq	8(%r15,%r12), %rcx
	movq	%r13, %rdi
	movq	%rbp, %rsi
	movq	%rdx, 8(%rsp)
	movq	%rcx, 32(%rsp)
	callq	"core::cmp::slices::RefSliceOrd::cmp::<#914af4d8504a0b72>"
	movl	%eax, %r12d
	testb	%al, %al
	sete	7(%rsp)
	movq	%r14, 16(%rsp)
	movq	%r14, %rax
	shlq	$5, %rax
	movq	(%r15,%rax), %r14
	movq	8(%r15,%rax), %r15
	movq	%r13, %rdi
	movq	%rbp, %rsi
	movq	%r14, %rdx
	movq	%r15, %rcx
	callq	"core::cmp::slices::RefSliceOrd::cmp::<#914af4d8504a0b72>"
	testb	%al, %al
	sete	%al
	xorb	7(%rsp), %al
	jne	2f
	testb	%r12b, %r12b
	sete	%bl
	movq	8(%rsp), %rdi
	movq	32(%rsp), %rsi
	movq	%r14, %rdx
	movq	%r15, %rcx
	callq	"core::cmp::slices::RefSliceOrd::cmp::<#914af4d8504a0b72>"
	testb	%al, %al
	sete	%al
	xorb	%bl, %al
	movq	24(%rsp), %rbx
	cmovneq	16(%rsp), %rbx
2:
	movq	%rbx, %rax
	addq	$40, %rsp
	popq	%rbx
	popq	%r12
	popq	%r13
	popq	%r14
	popq	%r15
	popq	%rbp
	retq
3:
	.size	"core::slice::sort::pivot::median_of_medians::<#b4bd7111e818b46c>", 3b-"core::slice::sort::pivot::median_of_medians::<#b4bd7111e818b46c>"

	.text
	.p2align	4
	.type	"core::slice::sort::pivot::median_of_medians::<#f98e8d76978ecc20>",@function
"core::slice::sort::pivot::median_of_medians::<#f98e8d76978ecc20>":
	cmpq	$7, %r8
	ja	1f
	jmp	"core::slice::sort::pivot::median_of_three::<#f98e8d76978ecc20>"
1:
	pushq	%rbp
	pushq	%r15
	pushq	%r14
	pushq	%r13
	pushq	%r12
	pushq	%rbx
	pushq	%rax
	movq	%r8, %rbx
	shrq	$3, %rbx
	leaq	(%rsi,%rbx,4), %rax
	andq	$-8, %r8
	subq	%rbx, %r8
	leaq	(%r8,%rsi), %r9
	movq	%rdi, %r14
	movq	%rdx, %r15
	movq	%rax, %rdx
	movq	%rcx, %r12
	movq	%r9, %rcx
	movq	%r8, %r13
	movq	%rbx, %r8
	callq	"core::slice::sort::pivot::median_of_medians::<#f98e8d76978ecc20>"
	movq	%rax, %rbp
	leaq	(%r15,%rbx,4), %rdx
	leaq	(%r15,%r13), %rcx
	movq	%r14, %rdi
	movq	%r15, %rsi
	movq	%rbx, %r8
	callq	"core::slice::sort::pivot::median_of_medians::<#f98e8d76978ecc20>"
	movq	%rax, %r15
	leaq	(%r12,%rbx,4), %rdx
	addq	%r12, %r13
	movq	%r14, %rdi
	movq	%r12, %rsi
	movq	%r13, %rcx
	movq	%rbx, %r8
	callq	"core::slice::sort::pivot::median_of_medians::<#f98e8d76978ecc20>"
	movq	%r14, %rdi
	movq	%rbp, %rsi
	movq	%r15, %rdx
	movq	%rax, %rcx
	addq	$8, %rsp
	popq	%rbx
	popq	%r12
	popq	%r13
	popq	%r14
	popq	%r15
	popq	%rbp
	jmp	"core::slice::sort::pivot::median_of_three::<#f98e8d76978ecc20>"
2:
	.size	"core::slice::sort::pivot::median_of_medians::<#f98e8d76978ecc20>", 2b-"core::slice::sort::pivot::median_of_medians::<#f98e8d76978ecc20>"

	.text
	.p2align	4
	.type	"core::slice::sort::pivot::median_of_three::<#32fabb223415b920>",@function
"core::slice::sort::pivot::median_of_three::<#32fabb223415b920>":
	pushq	%rbp
	pushq	%r15
	pushq	%r14
	pushq	%r13
	pushq	%r12
	pushq	%rbx
	subq	$40, %rsp
	movq	%rcx, %r14
	movq	%rdi, %r15
	movq	%rsi, 32(%rsp)
	leaq	(,%rsi,8), %rax
	leaq	(%rax,%rax,4), %rbx
	movq	%rdx, 24(%rsp)
	leaq	(,%rdx,8), %rax
	leaq	(%rax,%rax,4), %rcx
	movq	(%rdi,%rbx), %rbp
	movq	(%rdi,%rcx), %rax
	movq	%rbp, %r13
	bswapq	%r13
	cmpq	%rax, %rbp
	movq	%rax, 8(%rsp)
	movq	%rcx, (%rsp)
	jne	1f
	movq	8(%r15,%rbx), %rdi
	movq	16(%r15,%rbx), %rsi
	movq	8(%r15,%rcx), %rdx
	movq	16(%r15,%rcx), %rcx
	callq	"core::cmp::slices::RefSliceOrd::cmp::<#914af4d8504a0b72>"
	testb	%al, %al
	sete	%cl
	jmp	2f
1:
	bswapq	%rax
	cmpq	%rax, %r13
	setb	%cl
2:
	movq	%r14, 16(%rsp)
	leaq	(,%r14,8), %rax
	leaq	(%rax,%rax,4), %r14
	movq	(%r15,%r14), %r12
	cmpq	%r12, %rbp
	jne	3f
	movq	8(%r15,%rbx), %rdi
	movq	16(%r15,%rbx), %rsi
	movq	8(%r15,%r14), %rdx
	movl	%ecx, %ebx
	movq	16(%r15,%r14), %rcx
	callq	"core::cmp::slices::RefSliceOrd::cmp::<#914af4d8504a0b72>"
	movl	%ebx, %ecx
	testb	%al, %al
	sete	%al
	cmpb	%al, %cl
	movq	32(%rsp), %rax
	je	4f
	jmp	7f
3:
	movq	%r12, %rax
	bswapq	%rax
	cmpq	%rax, %r13
	setb	%al
	cmpb	%al, %cl
	movq	32(%rsp), %rax
	jne	7f
4:
	movq	8(%rsp), %rax
	cmpq	%r12, %rax
	jne	5f
	movq	(%rsp), %rax
	movq	8(%r15,%rax), %rdi
	movq	16(%r15,%rax), %rsi
	movq	8(%r15,%r14), %rdx
	movl	%ecx, %ebx
	movq	16(%r15,%r14), %rcx
	callq	"core::cmp::slices::RefSliceOrd::cmp::<#914af4d8504a0b72>"
	movl	%ebx, %ecx
	testb	%al, %al
	sete	%al
	jmp	6f
5:
	bswapq	%r12
	bswapq	%rax
	cmpq	%r12, %rax
	setb	%al
6:
	xorb	%al, %cl
	movq	24(%rsp), %rax
	cmovneq	16(%rsp), %rax
7:
	addq	$40, %rsp
	popq	%rbx
	popq	%r12
	popq	%r13
	popq	%r14
	popq	%r15
	popq	%rbp
	retq
8:
	.size	"core::slice::sort::pivot::median_of_three::<#32fabb223415b920>", 8b-"core::slice::sort::pivot::median_of_three::<#32fabb223415b920>"

	.text
	.p2align	4
	.type	"core::slice::sort::pivot::median_of_three::<#f98e8d76978ecc20>",@function
"core::slice::sort::pivot::median_of_three::<#f98e8d76978ecc20>":
	pushq	%rbp
	pushq	%r15
	pushq	%r14
	pushq	%r13
	pushq	%r12
	pushq	%rbx
	subq	$40, %rsp
	movq	%rcx, %rbp
	movq	%rdi, %r14
	movq	%rsi, 32(%rsp)
	movq	%rsi, %rax
	shlq	$5, %rax
	movq	%rdx, 24(%rsp)
	movq	%rdx, %rcx
	shlq	$5, %rcx
	movq	(%rdi,%rax), %rbx
	movq	8(%rdi,%rax), %r13
	movq	(%rdi,%rcx), %r15
	movq	8(%rdi,%rcx), %r12
	cmpq	%r13, %r12
	movq	%r13, %rax
	cmovbq	%r12, %rax
	cmpq	$24, %rax
	movl	$24, %ecx
	cmovbq	%rax, %rcx
	cmpq	$8, %rax
	jb	2f
	xorl	%eax, %eax
	.p2align	4
1:
	movq	(%rbx,%rax), %rdx
	movq	(%r15,%rax), %rsi
	cmpq	%rsi, %rdx
	jne	4f
	addq	$8, %rax
	addq	$-8, %rcx
	cmpq	$7, %rcx
	ja	1b
	jmp	3f
2:
	xorl	%eax, %eax
3:
	leaq	(%rbx,%rax), %rdi
	movq	%r13, %rsi
	subq	%rax, %rsi
	leaq	(%r15,%rax), %rdx
	movq	%r12, %rcx
	subq	%rax, %rcx
	callq	"core::cmp::slices::RefSliceOrd::cmp::<#914af4d8504a0b72>"
	testb	%al, %al
	sete	15(%rsp)
	jmp	5f
4:
	bswapq	%rsi
	bswapq	%rdx
	cmpq	%rsi, %rdx
	setb	15(%rsp)
5:
	movq	%rbp, 16(%rsp)
	movq	%rbp, %rax
	shlq	$5, %rax
	movq	(%r14,%rax), %rbp
	movq	8(%r14,%rax), %r14
	cmpq	%r13, %r14
	movq	%r13, %rax
	cmovbq	%r14, %rax
	cmpq	$24, %rax
	movl	$24, %ecx
	cmovbq	%rax, %rcx
	cmpq	$8, %rax
	jb	7f
	xorl	%eax, %eax
	.p2align	4
6:
	movq	(%rbx,%rax), %rdx
	movq	(%rbp,%rax), %rsi
	cmpq	%rsi, %rdx
	jne	9f
	addq	$8, %rax
	addq	$-8, %rcx
	cmpq	$7, %rcx
	ja	6b
	jmp	8f
7:
	xorl	%eax, %eax
8:
	addq	%rax, %rbx
	subq	%rax, %r13
	leaq	(%rax,%rbp), %rdx
	movq	%r14, %rcx
	subq	%rax, %rcx
	movq	%rbx, %rdi
	movq	%r13, %rsi
	callq	"core::cmp::slices::RefSliceOrd::cmp::<#914af4d8504a0b72>"
	testb	%al, %al
	sete	%al
	movzbl	15(%rsp), %ebx
	cmpb	%al, %bl
	movq	32(%rsp), %rax
	je	10f
	jmp	16f
9:
	bswapq	%rsi
	bswapq	%rdx
	cmpq	%rsi, %rdx
	setb	%al
	movzbl	15(%rsp), %ebx
	cmpb	%al, %bl
	movq	32(%rsp), %rax
	jne	16f
10:
	cmpq	%r12, %r14
	movq	%r12, %rax
	cmovbq	%r14, %rax
	cmpq	$24, %rax
	movl	$24, %ecx
	cmovbq	%rax, %rcx
	cmpq	$8, %rax
	jb	12f
	xorl	%eax, %eax
	.p2align	4
11:
	movq	(%r15,%rax), %rdx
	movq	(%rbp,%rax), %rsi
	cmpq	%rsi, %rdx
	jne	14f
	addq	$8, %rax
	addq	$-8, %rcx
	cmpq	$7, %rcx
	ja	11b
	jmp	13f
12:
	xorl	%eax, %eax
13:
	addq	%rax, %r15
	subq	%rax, %r12
	addq	%rax, %rbp
	subq	%rax, %r14
	movq	%r15, %rdi
	movq	%r12, %rsi
	movq	%rbp, %rdx
	movq	%r14, %rcx
	callq	"core::cmp::slices::RefSliceOrd::cmp::<#914af4d8504a0b72>"
	testb	%al, %al
	sete	%al
	jmp	15f
14:
	bswapq	%rsi
	bswapq	%rdx
	cmpq	%rsi, %rdx
	setb	%al
15:
	xorb	%al, %bl
	movq	24(%rsp), %rax
	cmovneq	16(%rsp), %rax
16:
	addq	$40, %rsp
	popq	%rbx
	popq	%r12
	popq	%r13
	popq	%r14
	popq	%r15
	popq	%rbp
	retq
17:
	.size	"core::slice::sort::pivot::median_of_three::<#f98e8d76978ecc20>", 17b-"core::slice::sort::pivot::median_of_three::<#f98e8d76978ecc20>"

	.text
	.p2align	4
	.type	"core::slice::sort::pivot::run_from::<#32fabb223415b920>",@function
"core::slice::sort::pivot::run_from::<#32fabb223415b920>":
	pushq	%rbp
	pushq	%r15
	pushq	%r14
	pushq	%r12
	pushq	%rbx
	movq	%rdx, %r12
	movq	%rsi, %r14
	movq	%rdi, %r15
	leaq	2(%rdx), %rbx
	leaq	(,%rdx,8), %rax
	leaq	(%rax,%rax,4), %rax
	movq	(%rdi,%rax), %rcx
	movq	40(%rdi,%rax), %rdx
	cmpq	%rcx, %rdx
	jne	6f
	movq	48(%r15,%rax), %rdi
	movq	56(%r15,%rax), %rsi
	movq	8(%r15,%rax), %rdx
	movq	16(%r15,%rax), %rcx
	callq	"core::cmp::slices::RefSliceOrd::cmp::<#914af4d8504a0b72>"
	testb	%al, %al
	je	7f
1:
	cmpq	%r14, %rbx
	jae	5f
	leaq	(%r12,%r12,4), %rax
	leaq	(%r15,%rax,8), %r15
	addq	$96, %r15
	jmp	4f
	.p2align	4
2:
	bswapq	%rax
	bswapq	%rcx
	cmpq	%rax, %rcx
	jb	5f
3:
	incq	%rbx
	addq	$40, %r15
	cmpq	%rbx, %r14
	je	11f
4:
	movq	-56(%r15), %rax
	movq	-16(%r15), %rcx
	cmpq	%rax, %rcx
	jne	2b
	movq	-8(%r15), %rdi
	movq	(%r15), %rsi
	movq	-48(%r15), %rdx
	movq	-40(%r15), %rcx
	callq	"core::cmp::slices::RefSliceOrd::cmp::<#914af4d8504a0b72>"
	testb	%al, %al
	jne	3b
5:
	xorl	%ebp, %ebp
	jmp	13f
6:
	bswapq	%rcx
	bswapq	%rdx
	cmpq	%rcx, %rdx
	jae	1b
7:
	movb	$1, %bpl
	cmpq	%r14, %rbx
	jae	13f
	leaq	(%r12,%r12,4), %rax
	leaq	(%r15,%rax,8), %r15
	addq	$96, %r15
	jmp	10f
	.p2align	4
8:
	movq	-8(%r15), %rdi
	movq	(%r15), %rsi
	movq	-48(%r15), %rdx
	movq	-40(%r15), %rcx
	callq	"core::cmp::slices::RefSliceOrd::cmp::<#914af4d8504a0b72>"
	testb	%al, %al
	jne	13f
9:
	incq	%rbx
	addq	$40, %r15
	cmpq	%rbx, %r14
	je	12f
10:
	movq	-56(%r15), %rax
	movq	-16(%r15), %rcx
	cmpq	%rax, %rcx
	je	8b
	bswapq	%rax
	bswapq	%rcx
	cmpq	%rax, %rcx
	jb	9b
	jmp	13f
11:
	xorl	%ebp, %ebp
12:
	movq	%r14, %rbx
13:
	movq	%rbx, %rax
	movl	%ebp, %edx
	popq	%rbx
	popq	%r12
	popq	%r14
	popq	%r15
	popq	%rbp
	retq
14:
	.size	"core::slice::sort::pivot::run_from::<#32fabb223415b920>", 14b-"core::slice::sort::pivot::run_from::<#32fabb223415b920>"

	.text
	.p2align	4
	.type	"core::slice::sort::pivot::run_from::<#b4bd7111e818b46c>",@function
"core::slice::sort::pivot::run_from::<#b4bd7111e818b46c>":
	pushq	%r15
	pushq	%r14
	pushq	%r12
	pushq	%rbx
	pushq	%rax
	movq	%rdx, %r15
	movq	%rsi, %r14
	movq	%rdi, %r12
	leaq	2(%rdx), %rbx
	shlq	$5, %r15
	movq	32(%rdi,%r15), %rdi
	movq	40(%r12,%r15), %rsi
	movq	(%r12,%r15), %rdx
	movq	8(%r12,%r15), %rcx
	callq	"core::cmp::slices::RefSliceOrd::cmp::<#914af4d8504a0b72>"
	testb	%al, %al
	je	3f
	cmpq	%r14, %rbx
	jae	2f
	addq	%r12, %r15
	addq	$72, %r15
	.p2align	4
1:
	movq	-8(%r15), %rdi
	movq	(%r15), %rsi
	movq	-40(%r15), %rdx
	movq	-32(%r15), %rcx
	callq	"core::cmp::slices::RefSliceOrd::cmp::<#914af4d8504a0b72>"
	testb	%al, %al
	je	2f
	incq	%rbx
	addq	$32, %r15
	cmpq	%rbx, %r14
	jne	1b
	xorl	%edx, %edx
	movq	%r14, %rbx
	jmp	6f
2:
	xorl	%edx, %edx
	jmp	6f
3:
	movb	$1, %dl
	cmpq	%r14, %rbx
	jae	6f
	addq	%r12, %r15
	addq	$72, %r15
	.p2align	4
4:
	movq	-8(%r15), %rdi
	movq	(%r15), %rsi
	movq	-40(%r15), %rdx
	movq	-32(%r15), %rcx
	callq	"core::cmp::slices::RefSliceOrd::cmp::<#914af4d8504a0b72>"
	testb	%al, %al
	jne	5f
	incq	%rbx
	addq	$32, %r15
	cmpq	%rbx, %r14
	jne	4b
	movq	%r14, %rbx
5:
	movb	$1, %dl
6:
	movq	%rbx, %rax
	addq	$8, %rsp
	popq	%rbx
	popq	%r12
	popq	%r14
	popq	%r15
	retq
7:
	.size	"core::slice::sort::pivot::run_from::<#b4bd7111e818b46c>", 7b-"core::slice::sort::pivot::run_from::<#b4bd7111e818b46c>"

	.text
	.p2align	4
	.type	"core::slice::sort::pivot::run_from::<#f98e8d76978ecc20>",@function
"core::slice::sort::pivot::run_from::<#f98e8d76978ecc20>":
	pushq	%rbp
	pushq	%r15
	pushq	%r14
	pushq	%rbx
	pushq	%rax
	movq	%rdx, %rax
	movq	%rsi, %r14
	movq	%rdi, %r15
	leaq	2(%rdx), %rbx
	shlq	$5, %rax
	movq	32(%rdi,%rax), %rdi
	movq	40(%r15,%rax), %rsi
	movq	(%r15,%rax), %rdx
	movq	8(%r15,%rax), %rcx
	cmpq	%rsi, %rcx
	movq	%rsi, %rax
	cmovbq	%rcx, %rax
	cmpq	$24, %rax
	movl	$24, %r8d
	cmovbq	%rax, %r8
	cmpq	$8, %rax
	jb	2f
	xorl	%eax, %eax
	.p2align	4
1:
	movq	(%rdi,%rax), %r9
	movq	(%rdx,%rax), %r10
	cmpq	%r10, %r9
	jne	12f
	addq	$8, %rax
	addq	$-8, %r8
	cmpq	$7, %r8
	ja	1b
	jmp	3f
2:
	xorl	%eax, %eax
3:
	addq	%rax, %rdi
	subq	%rax, %rsi
	addq	%rax, %rdx
	subq	%rax, %rcx
	callq	"core::cmp::slices::RefSliceOrd::cmp::<#914af4d8504a0b72>"
	testb	%al, %al
	je	13f
4:
	cmpq	%r14, %rbx
	jb	7f
	jmp	11f
	.p2align	4
5:
	bswapq	%r10
	bswapq	%r9
	cmpq	%r10, %r9
	jb	11f
6:
	incq	%rbx
	cmpq	%r14, %rbx
	je	20f
7:
	movq	%rbx, %rax
	shlq	$5, %rax
	movq	(%r15,%rax), %rdi
	movq	8(%r15,%rax), %rsi
	movq	-32(%r15,%rax), %rdx
	movq	-24(%r15,%rax), %rcx
	cmpq	%rsi, %rcx
	movq	%rsi, %rax
	cmovbq	%rcx, %rax
	cmpq	$24, %rax
	movl	$24, %r8d
	cmovbq	%rax, %r8
	cmpq	$8, %rax
	jb	9f
	xorl	%eax, %eax
	.p2align	4
8:
	movq	(%rdi,%rax), %r9
	movq	(%rdx,%rax), %r10
	cmpq	%r10, %r9
	jne	5b
	addq	$8, %rax
	addq	$-8, %r8
	cmpq	$7, %r8
	ja	8b
	jmp	10f
	.p2align	4
9:
	xorl	%eax, %eax
10:
	addq	%rax, %rdi
	subq	%rax, %rsi
	addq	%rax, %rdx
	subq	%rax, %rcx
	callq	"core::cmp::slices::RefSliceOrd::cmp::<#914af4d8504a0b72>"
	testb	%al, %al
	jne	6b
11:
	xorl	%ebp, %ebp
	jmp	22f
12:
	bswapq	%r10
	bswapq	%r9
	cmpq	%r10, %r9
	jae	4b
13:
	movb	$1, %bpl
	cmpq	%r14, %rbx
	jb	16f
	jmp	22f
	.p2align	4
14:
	bswapq	%r10
	bswapq	%r9
	cmpq	%r10, %r9
	jae	22f
15:
	incq	%rbx
	cmpq	%r14, %rbx
	je	21f
16:
	movq	%rbx, %rax
	shlq	$5, %rax
	movq	(%r15,%rax), %rdi
	movq	8(%r15,%rax), %rsi
	movq	-32(%r15,%rax), %rdx
	movq	-24(%r15,%rax), %rcx
	cmpq	%rsi, %rcx
	movq	%rsi, %rax
	cmovbq	%rcx, %rax
	cmpq	$24, %rax
	movl	$24, %r8d
	cmovbq	%rax, %r8
	cmpq	$8, %rax
	jb	18f
	xorl	%eax, %eax
	.p2align	4
17:
	movq	(%rdi,%rax), %r9
	movq	(%rdx,%rax), %r10
	cmpq	%r10, %r9
	jne	14b
	addq	$8, %rax
	addq	$-8, %r8
	cmpq	$7, %r8
	ja	17b
	jmp	19f
	.p2align	4
18:
	xorl	%eax, %eax
19:
	addq	%rax, %rdi
	subq	%rax, %rsi
	addq	%rax, %rdx
	subq	%rax, %rcx
	callq	"core::cmp::slices::RefSliceOrd::cmp::<#914af4d8504a0b72>"
	testb	%al, %al
	je	15b
	jmp	22f
20:
	xorl	%ebp, %ebp
21:
	movq	%r14, %rbx
22:
	movq	%rbx, %rax
	movl	%ebp, %edx
	addq	$8, %rsp
	popq	%rbx
	popq	%r14
	popq	%r15
	popq	%rbp
	retq
23:
	.size	"core::slice::sort::pivot::run_from::<#f98e8d76978ecc20>", 23b-"core::slice::sort::pivot::run_from::<#f98e8d76978ecc20>"

	.text
	.p2align	4
	.type	"core::slice::sort::runs::climb::<#12eb916b83b0f891>",@function
"core::slice::sort::runs::climb::<#12eb916b83b0f891>":
	pushq	%rbp
	pushq	%r15
	pushq	%r14
	pushq	%r13
	pushq	%r12
	pushq	%rbx
	subq	$104, %rsp
	movl	%r9d, %ebp
	movq	%r8, %rbx
	movq	%rsi, 32(%rsp)
	movq	$0, 72(%rsp)
	movq	%rdx, %rax
	subq	%r8, %rax
	jne	1f
	movq	%rbx, (%rdi)
	movb	%bpl, 8(%rdi)
	movl	$0, 9(%rdi)
	movl	$0, 12(%rdi)
	movq	%rbx, 16(%rdi)
	movb	%bpl, 24(%rdi)
	movq	$0, 25(%rdi)
	movq	$0, 32(%rdi)
	jmp	24f
1:
	movq	%rdx, %r12
	movq	%rcx, 80(%rsp)
	movq	%rdi, 96(%rsp)
	xorl	%r13d, %r13d
	movq	%rdx, %r15
	movl	$0, %r14d
	cmpq	168(%rsp), %rax
	jb	15f
	leaq	2(%rbx), %r15
	movq	32(%rsp), %rax
	leaq	(%rax,%rbx,8), %rdi
	movl	(%rax,%rbx,8), %ecx
	movl	8(%rax,%rbx,8), %edx
	cmpl	%edx, %ecx
	jae	3f
	cmpq	%r12, %r15
	jae	7f
	.p2align	4
2:
	movq	32(%rsp), %rsi
	movl	-8(%rsi,%r15,8), %eax
	cmpl	(%rsi,%r15,8), %eax
	jae	6f
	incq	%r15
	cmpq	%r15, %r12
	jne	2b
	jmp	5f
3:
	cmpq	%r12, %r15
	jae	12f
	.p2align	4
4:
	movq	32(%rsp), %rsi
	movl	-8(%rsi,%r15,8), %eax
	cmpl	(%rsi,%r15,8), %eax
	jb	6f
	incq	%r15
	cmpq	%r15, %r12
	jne	4b
5:
	movq	%r12, %r15
6:
	movq	%r15, %rax
	subq	%rbx, %rax
	cmpq	168(%rsp), %rax
	jb	13f
	movb	$1, %r14b
	cmpl	%edx, %ecx
	jae	15f
	cmpq	$15, %rax
	jbe	25f
	movq	%rax, %rcx
	shrq	%rcx
	subq	%rcx, %rax
	leaq	(%rdi,%rax,8), %rdx
	xorl	%esi, %esi
	callq	"core::slice::edits::mirror::<14'(,)::<i32,i32>>"
	jmp	15f
7:
	movl	$2, %eax
	cmpq	$2, 168(%rsp)
	ja	13f
8:
	leaq	-2(%rax), %rcx
	shrq	%rcx
	incq	%rcx
	decq	%rax
	xorl	%edx, %edx
	jmp	11f
	.p2align	4
9:
	movq	(%rdi,%rdx,8), %rsi
	movq	(%rdi,%rax,8), %r8
	movq	%r8, (%rdi,%rdx,8)
	movq	%rsi, (%rdi,%rax,8)
10:
	incq	%rdx
	decq	%rax
	cmpq	%rdx, %rcx
	je	14f
11:
	cmpq	%rax, %rdx
	jb	9b
	jbe	10b
	movq	(%rdi,%rax,8), %rsi
	movq	(%rdi,%rdx,8), %r8
	movq	%r8, (%rdi,%rax,8)
	movq	%rsi, (%rdi,%rdx,8)
	jmp	10b
12:
	movb	$1, %r14b
	cmpq	$3, 168(%rsp)
	jb	15f
13:
	movq	168(%rsp), %rax
	leaq	(%rax,%rbx), %r15
	xorl	%r14d, %r14d
	jmp	15f
14:
	movb	$1, %r14b
15:
	movq	80(%rsp), %rsi
	leaq	(%rbx,%rsi), %rax
	movq	176(%rsp), %rdx
	imulq	%rdx, %rax
	leaq	(%r15,%rbx), %rcx
	imulq	%rdx, %rcx
	xorq	%rax, %rcx
	movl	$127, %edx
	bsrq	%rcx, %rdx
	xorl	$63, %edx
	leal	1(%rdx), %eax
	movq	%rbx, 40(%rsp)
	movb	%bpl, 48(%rsp)
	movl	$0, 49(%rsp)
	movl	$0, 52(%rsp)
	movq	%r15, 56(%rsp)
	movb	%r14b, 64(%rsp)
	movl	$0, 65(%rsp)
	movl	$0, 68(%rsp)
	movl	%eax, 72(%rsp)
	cmpl	%edx, 160(%rsp)
	ja	23f
	movq	32(%rsp), %rcx
	leaq	(%rcx,%rsi,8), %rcx
	movq	%rcx, 88(%rsp)
	movq	%rsi, %r15
	jmp	18f
	.p2align	4
16:
	movl	%r12d, %ebp
	movq	%r13, %r12
17:
	movb	%bpl, 48(%rsp)
	leaq	49(%rsp), %rax
	movl	$0, 3(%rax)
	movl	$0, (%rax)
	movl	72(%rsp), %eax
	cmpl	%eax, 160(%rsp)
	jae	22f
18:
	movq	%rbx, %r14
	movq	56(%rsp), %r8
	movl	64(%rsp), %r9d
	movq	184(%rsp), %rcx
	movq	%rcx, 24(%rsp)
	movq	176(%rsp), %rcx
	movq	%rcx, 16(%rsp)
	movq	168(%rsp), %rcx
	movq	%rcx, 8(%rsp)
	movl	%eax, (%rsp)
	leaq	40(%rsp), %rdi
	movq	32(%rsp), %rsi
	movq	%r12, %r13
	movq	%r12, %rdx
	movq	%rbx, %rcx
	callq	"core::slice::sort::runs::climb::<#12eb916b83b0f891>"
	movq	40(%rsp), %rbx
	movzbl	48(%rsp), %r12d
	movl	%r12d, %eax
	orb	%bpl, %al
	testb	$1, %al
	je	16b
	testb	$1, %bpl
	jne	19f
	movq	%r14, %rdx
	subq	%r15, %rdx
	movl	$127, %eax
	bsrq	%rdx, %rax
	xorl	$63, %eax
	addl	%eax, %eax
	movl	$126, %ecx
	subl	%eax, %ecx
	movq	88(%rsp), %rdi
	movq	%rdx, %rsi
	movq	184(%rsp), %r8
	callq	"core::slice::sort::stable::quicksort::<#12eb916b83b0f891>"
19:
	leaq	(,%r14,8), %r15
	testb	$1, %r12b
	jne	20f
	movq	32(%rsp), %rax
	leaq	(%rax,%r15), %rdi
	movq	%rbx, %rdx
	subq	%r14, %rdx
	movl	$127, %eax
	bsrq	%rdx, %rax
	xorl	$63, %eax
	addl	%eax, %eax
	movl	$126, %ecx
	subl	%eax, %ecx
	movq	%rdx, %rsi
	movq	184(%rsp), %r8
	callq	"core::slice::sort::stable::quicksort::<#12eb916b83b0f891>"
20:
	movq	32(%rsp), %rcx
	movl	-8(%rcx,%r15), %eax
	movb	$1, %bpl
	cmpl	(%rcx,%r15), %eax
	movq	%r13, %r12
	jae	21f
	movq	%rbx, %rsi
	movq	80(%rsp), %r15
	subq	%r15, %rsi
	subq	%r15, %r14
	movq	88(%rsp), %rdi
	movq	%r14, %rdx
	movq	184(%rsp), %rcx
	callq	"core::slice::sort::merge::merge::<#12eb916b83b0f891>"
	jmp	17b
	.p2align	4
21:
	movq	80(%rsp), %r15
	jmp	17b
22:
	movq	56(%rsp), %r15
	movzbl	64(%rsp), %r14d
	movl	76(%rsp), %r13d
23:
	movq	96(%rsp), %rsi
	movq	%rbx, (%rsi)
	movb	%bpl, 8(%rsi)
	leaq	49(%rsp), %rdi
	movl	(%rdi), %ecx
	movl	3(%rdi), %edx
	movl	%ecx, 9(%rsi)
	movl	%edx, 12(%rsi)
	movq	%r15, 16(%rsi)
	movb	%r14b, 24(%rsi)
	movl	16(%rdi), %ecx
	movl	19(%rdi), %edx
	movl	%ecx, 25(%rsi)
	movl	%edx, 28(%rsi)
	movl	%eax, 32(%rsi)
	movl	%r13d, 36(%rsi)
24:
	addq	$104, %rsp
	popq	%rbx
	popq	%r12
	popq	%r13
	popq	%r14
	popq	%r15
	popq	%rbp
	retq
25:
	cmpq	$2, %rax
	jae	8b
	jmp	15b
26:
	.size	"core::slice::sort::runs::climb::<#12eb916b83b0f891>", 26b-"core::slice::sort::runs::climb::<#12eb916b83b0f891>"

	.text
	.p2align	4
	.type	"core::slice::sort::runs::climb::<#196989f31ad14034>",@function
"core::slice::sort::runs::climb::<#196989f31ad14034>":
	pushq	%rbp
	pushq	%r15
	pushq	%r14
	pushq	%r13
	pushq	%r12
	pushq	%rbx
	subq	$104, %rsp
	movl	%r9d, %ebp
	movq	%r8, %rbx
	movq	$0, 72(%rsp)
	movq	%rdx, %rax
	subq	%r8, %rax
	jne	1f
	movq	%rbx, (%rdi)
	movb	%bpl, 8(%rdi)
	movl	$0, 9(%rdi)
	movl	$0, 12(%rdi)
	movq	%rbx, 16(%rdi)
	movb	%bpl, 24(%rdi)
	movq	$0, 25(%rdi)
	movq	$0, 32(%rdi)
	jmp	23f
1:
	movq	%rdx, %r12
	movq	%rsi, %r13
	movq	%rcx, 80(%rsp)
	movq	%rdi, 96(%rsp)
	xorl	%r9d, %r9d
	movq	%rdx, %r15
	movl	$0, %r14d
	cmpq	168(%rsp), %rax
	jb	15f
	leaq	2(%rbx), %r15
	leaq	(,%rbx,8), %rdi
	addq	%r13, %rdi
	movq	(%r13,%rbx,8), %rax
	movq	8(%r13,%rbx,8), %rcx
	movl	56(%rcx), %ecx
	movl	56(%rax), %edx
	cmpl	%ecx, %edx
	jae	3f
	cmpq	%r12, %r15
	jae	7f
	.p2align	4
2:
	movq	-8(%r13,%r15,8), %rax
	movq	(%r13,%r15,8), %rsi
	movl	56(%rax), %eax
	cmpl	56(%rsi), %eax
	jae	6f
	incq	%r15
	cmpq	%r15, %r12
	jne	2b
	jmp	5f
3:
	cmpq	%r12, %r15
	jae	12f
	.p2align	4
4:
	movq	-8(%r13,%r15,8), %rax
	movq	(%r13,%r15,8), %rsi
	movl	56(%rax), %eax
	cmpl	56(%rsi), %eax
	jb	6f
	incq	%r15
	cmpq	%r15, %r12
	jne	4b
5:
	movq	%r12, %r15
6:
	movq	%r15, %rax
	subq	%rbx, %rax
	cmpq	168(%rsp), %rax
	jb	13f
	movb	$1, %r14b
	cmpl	%ecx, %edx
	jae	15f
	cmpq	$15, %rax
	jbe	24f
	movq	%rax, %rdx
	shrq	%rdx
	subq	%rdx, %rax
	leaq	(%rdi,%rax,8), %rsi
	callq	"core::slice::edits::mirror::<*>"
	xorl	%r9d, %r9d
	jmp	15f
7:
	movl	$2, %eax
	cmpq	$2, 168(%rsp)
	ja	13f
8:
	leaq	-2(%rax), %rcx
	shrq	%rcx
	incq	%rcx
	decq	%rax
	xorl	%edx, %edx
	jmp	11f
	.p2align	4
9:
	movq	(%rdi,%rdx,8), %rsi
	movq	(%rdi,%rax,8), %r8
	movq	%r8, (%rdi,%rdx,8)
	movq	%rsi, (%rdi,%rax,8)
10:
	incq	%rdx
	decq	%rax
	cmpq	%rdx, %rcx
	je	14f
11:
	cmpq	%rax, %rdx
	jb	9b
	jbe	10b
	movq	(%rdi,%rax,8), %rsi
	movq	(%rdi,%rdx,8), %r8
	movq	%r8, (%rdi,%rax,8)
	movq	%rsi, (%rdi,%rdx,8)
	jmp	10b
12:
	movb	$1, %r14b
	cmpq	$3, 168(%rsp)
	jb	15f
13:
	movq	168(%rsp), %rax
	leaq	(%rax,%rbx), %r15
	xorl	%r14d, %r14d
	jmp	15f
14:
	movb	$1, %r14b
15:
	movq	80(%rsp), %rsi
	leaq	(%rbx,%rsi), %rax
	movq	176(%rsp), %rdx
	imulq	%rdx, %rax
	leaq	(%r15,%rbx), %rcx
	imulq	%rdx, %rcx
	xorq	%rax, %rcx
	movl	$127, %edx
	bsrq	%rcx, %rdx
	xorl	$63, %edx
	leal	1(%rdx), %eax
	movq	%rbx, 40(%rsp)
	movb	%bpl, 48(%rsp)
	movl	$0, 49(%rsp)
	movl	$0, 52(%rsp)
	movq	%r15, 56(%rsp)
	movb	%r14b, 64(%rsp)
	movl	$0, 65(%rsp)
	movl	$0, 68(%rsp)
	movl	%eax, 72(%rsp)
	cmpl	%edx, 160(%rsp)
	ja	22f
	leaq	(,%rsi,8), %rcx
	addq	%r13, %rcx
	movq	%rcx, 88(%rsp)
	jmp	18f
	.p2align	4
16:
	movl	%r12d, %ebp
	movq	%r15, %r12
17:
	movb	%bpl, 48(%rsp)
	leaq	49(%rsp), %rax
	movl	$0, 3(%rax)
	movl	$0, (%rax)
	movl	72(%rsp), %eax
	cmpl	%eax, 160(%rsp)
	jae	21f
18:
	movq	%rbx, %r14
	movq	56(%rsp), %r8
	movl	64(%rsp), %r9d
	movq	184(%rsp), %rcx
	movq	%rcx, 24(%rsp)
	movq	176(%rsp), %rcx
	movq	%rcx, 16(%rsp)
	movq	168(%rsp), %rcx
	movq	%rcx, 8(%rsp)
	movl	%eax, (%rsp)
	leaq	40(%rsp), %rdi
	movq	%r13, %rsi
	movq	%r12, %r15
	movq	%r12, %rdx
	movq	%rbx, %rcx
	callq	"core::slice::sort::runs::climb::<#196989f31ad14034>"
	movq	40(%rsp), %rbx
	movzbl	48(%rsp), %r12d
	movl	%r12d, %eax
	orb	%bpl, %al
	testb	$1, %al
	je	16b
	testb	$1, %bpl
	jne	19f
	movq	%r14, %rdx
	subq	80(%rsp), %rdx
	movl	$127, %eax
	bsrq	%rdx, %rax
	xorl	$63, %eax
	addl	%eax, %eax
	movl	$126, %ecx
	subl	%eax, %ecx
	movq	88(%rsp), %rdi
	movq	%rdx, %rsi
	movq	184(%rsp), %r8
	callq	"core::slice::sort::stable::quicksort::<#196989f31ad14034>"
19:
	leaq	(,%r14,8), %rbp
	testb	$1, %r12b
	jne	20f
	movq	%r13, %rdi
	addq	%rbp, %rdi
	movq	%rbx, %rdx
	subq	%r14, %rdx
	movl	$127, %eax
	bsrq	%rdx, %rax
	xorl	$63, %eax
	addl	%eax, %eax
	movl	$126, %ecx
	subl	%eax, %ecx
	movq	%rdx, %rsi
	movq	184(%rsp), %r8
	callq	"core::slice::sort::stable::quicksort::<#196989f31ad14034>"
20:
	movq	-8(%r13,%rbp), %rax
	movq	(%r13,%rbp), %rcx
	movl	56(%rax), %eax
	movb	$1, %bpl
	cmpl	56(%rcx), %eax
	movq	%r15, %r12
	jae	17b
	movq	%rbx, %rsi
	movq	80(%rsp), %rax
	subq	%rax, %rsi
	subq	%rax, %r14
	movq	88(%rsp), %rdi
	movq	%r14, %rdx
	movq	184(%rsp), %rcx
	callq	"core::slice::sort::merge::merge::<#196989f31ad14034>"
	jmp	17b
21:
	movq	56(%rsp), %r15
	movzbl	64(%rsp), %r14d
	movl	76(%rsp), %r9d
22:
	movq	96(%rsp), %rsi
	movq	%rbx, (%rsi)
	movb	%bpl, 8(%rsi)
	leaq	49(%rsp), %rdi
	movl	(%rdi), %ecx
	movl	3(%rdi), %edx
	movl	%ecx, 9(%rsi)
	movl	%edx, 12(%rsi)
	movq	%r15, 16(%rsi)
	movb	%r14b, 24(%rsi)
	movl	16(%rdi), %ecx
	movl	19(%rdi), %edx
	movl	%ecx, 25(%rsi)
	movl	%edx, 28(%rsi)
	movl	%eax, 32(%rsi)
	movl	%r9d, 36(%rsi)
23:
	addq	$104, %rsp
	popq	%rbx
	popq	%r12
	popq	%r13
	popq	%r14
	popq	%r15
	popq	%rbp
	retq
24:
	cmpq	$2, %rax
	jae	8b
	jmp	15b
25:
	.size	"core::slice::sort::runs::climb::<#196989f31ad14034>", 25b-"core::slice::sort::runs::climb::<#196989f31ad14034>"

	.text
	.p2align	4
	.type	"core::slice::sort::runs::climb::<#32fabb223415b920>",@function
"core::slice::sort::runs::climb::<#32fabb223415b920>":
	pushq	%rbp
	pushq	%r15
	pushq	%r14
	pushq	%r13
	pushq	%r12
	pushq	%rbx
	subq	$152, %rsp
	movl	%r9d, %ebp
	movq	%r8, %r12
	movq	%rsi, %r13
	movq	$0, 136(%rsp)
	movq	%rdx, %rsi
	subq	%r8, %rsi
	jne	1f
	movq	%r12, (%rdi)
	movb	%bpl, 8(%rdi)
	movl	$0, 9(%rdi)
	movl	$0, 12(%rdi)
	movq	%r12, 16(%rdi)
	movb	%bpl, 24(%rdi)
	movq	$0, 25(%rdi)
	movq	$0, 32(%rdi)
	jmp	14f
1:
	movq	216(%rsp), %r10
	xorl	%r15d, %r15d
	movq	%rdx, %rax
	movl	$0, %r14d
	cmpq	%r10, %rsi
	movq	%rcx, 40(%rsp)
	movq	%rdx, 96(%rsp)
	movq	%rdi, 88(%rsp)
	jb	4f
	movq	%r13, %rdi
	movq	%rdx, %rsi
	movq	%r12, %rdx
	callq	"core::slice::sort::pivot::run_from::<#32fabb223415b920>"
	movq	216(%rsp), %r10
	movq	%rax, %r9
	subq	%r12, %r9
	cmpq	%r10, %r9
	jae	2f
	leaq	(%r10,%r12), %rax
	xorl	%r14d, %r14d
	jmp	3f
2:
	movb	$1, %r14b
	cmpb	$1, %dl
	jne	3f
	movq	%rax, %rbx
	leaq	(%r12,%r12,4), %rcx
	leaq	(,%rcx,8), %rdi
	addq	%r13, %rdi
	cmpq	$15, %r9
	jbe	15f
	movq	%r9, %rdx
	shrq	%rdx
	subq	%rdx, %r9
	leaq	(%r9,%r9,4), %rax
	leaq	(%rdi,%rax,8), %rsi
	callq	"core::slice::edits::mirror::<26'mime_store::ending::Ending>"
	movq	88(%rsp), %rdi
	movq	40(%rsp), %rcx
	movq	96(%rsp), %rdx
	movq	216(%rsp), %r10
	movq	%rbx, %rax
	jmp	4f
3:
	movq	88(%rsp), %rdi
	movq	40(%rsp), %rcx
	movq	96(%rsp), %rdx
4:
	movq	%rdx, %r8
	leaq	(%r12,%rcx), %r9
	movq	224(%rsp), %rdx
	imulq	%rdx, %r9
	movq	%rcx, %rsi
	leaq	(%rax,%r12), %rcx
	imulq	%rdx, %rcx
	xorq	%r9, %rcx
	movl	$127, %edx
	bsrq	%rcx, %rdx
	xorl	$63, %edx
	leal	1(%rdx), %r11d
	movq	%r12, 104(%rsp)
	movb	%bpl, 112(%rsp)
	leaq	113(%rsp), %rbx
	movl	$0, 113(%rsp)
	movl	$0, 116(%rsp)
	movq	%rax, 120(%rsp)
	movb	%r14b, 128(%rsp)
	movl	$0, 129(%rsp)
	movl	$0, 132(%rsp)
	movl	%r11d, 136(%rsp)
	cmpl	%edx, 208(%rsp)
	ja	13f
	leaq	(%rsi,%rsi,4), %rcx
	leaq	(,%rcx,8), %rax
	addq	%r13, %rax
	movq	%rax, 144(%rsp)
	movq	%r8, %rdx
	jmp	7f
	.p2align	4
5:
	movl	%r12d, %ebp
	movq	%r15, %r12
6:
	movb	%bpl, 112(%rsp)
	movl	$0, 3(%rbx)
	movl	$0, (%rbx)
	movl	136(%rsp), %r11d
	cmpl	%r11d, 208(%rsp)
	movq	96(%rsp), %rdx
	movq	216(%rsp), %r10
	jae	12f
7:
	movq	%r12, %r14
	movq	120(%rsp), %r8
	movl	128(%rsp), %r9d
	movq	232(%rsp), %rax
	movq	%rax, 24(%rsp)
	movq	224(%rsp), %rcx
	movq	%rcx, 16(%rsp)
	movq	%r10, 8(%rsp)
	movl	%r11d, (%rsp)
	leaq	104(%rsp), %rdi
	movq	%r13, %rsi
	movq	%r12, %rcx
	callq	"core::slice::sort::runs::climb::<#32fabb223415b920>"
	movq	104(%rsp), %r15
	movzbl	112(%rsp), %r12d
	movl	%r12d, %eax
	orb	%bpl, %al
	testb	$1, %al
	je	5b
	testb	$1, %bpl
	jne	8f
	movq	%r14, %rdx
	subq	40(%rsp), %rdx
	movl	$127, %eax
	bsrq	%rdx, %rax
	xorl	$63, %eax
	addl	%eax, %eax
	movl	$126, %ecx
	subl	%eax, %ecx
	movq	144(%rsp), %rdi
	movq	%rdx, %rsi
	movq	232(%rsp), %r8
	callq	"core::slice::sort::stable::quicksort::<#32fabb223415b920>"
8:
	leaq	(,%r14,8), %rax
	leaq	(%rax,%rax,4), %rbp
	testb	$1, %r12b
	movq	%r15, %r12
	jne	9f
	movq	%r13, %rdi
	addq	%rbp, %rdi
	movq	%r12, %rdx
	subq	%r14, %rdx
	movl	$127, %eax
	bsrq	%rdx, %rax
	xorl	$63, %eax
	addl	%eax, %eax
	movl	$126, %ecx
	subl	%eax, %ecx
	movq	%rdx, %rsi
	movq	232(%rsp), %r8
	callq	"core::slice::sort::stable::quicksort::<#32fabb223415b920>"
9:
	movq	-40(%r13,%rbp), %rax
	movq	(%r13,%rbp), %rcx
	cmpq	%rax, %rcx
	jne	10f
	movq	8(%r13,%rbp), %rdi
	movq	16(%r13,%rbp), %rsi
	movq	-32(%r13,%rbp), %rdx
	movq	-24(%r13,%rbp), %rcx
	callq	"core::cmp::slices::RefSliceOrd::cmp::<#914af4d8504a0b72>"
	movb	$1, %bpl
	testb	%al, %al
	jne	6b
	jmp	11f
	.p2align	4
10:
	bswapq	%rax
	bswapq	%rcx
	movb	$1, %bpl
	cmpq	%rax, %rcx
	jae	6b
11:
	movq	%r12, %rsi
	movq	40(%rsp), %rax
	subq	%rax, %rsi
	subq	%rax, %r14
	movq	144(%rsp), %rdi
	movq	%r14, %rdx
	movq	232(%rsp), %rcx
	callq	"core::slice::sort::merge::merge::<#32fabb223415b920>"
	movb	$1, %bpl
	jmp	6b
12:
	movq	120(%rsp), %rax
	movzbl	128(%rsp), %r14d
	movl	140(%rsp), %r15d
	movq	88(%rsp), %rdi
13:
	movq	%r12, (%rdi)
	movb	%bpl, 8(%rdi)
	movl	(%rbx), %ecx
	movl	3(%rbx), %edx
	movl	%ecx, 9(%rdi)
	movl	%edx, 12(%rdi)
	movq	%rax, 16(%rdi)
	movb	%r14b, 24(%rdi)
	movl	16(%rbx), %ecx
	movl	19(%rbx), %edx
	movl	%ecx, 25(%rdi)
	movl	%edx, 28(%rdi)
	movl	%r11d, 32(%rdi)
	movl	%r15d, 36(%rdi)
14:
	addq	$152, %rsp
	popq	%rbx
	popq	%r12
	popq	%r13
	popq	%r14
	popq	%r15
	popq	%rbp
	retq
15:
	cmpq	$2, %r9
	jb	17f
	leaq	-2(%r9), %rdx
	movq	%rdx, %rcx
	shrq	%rcx
	movq	%r9, %rsi
	decq	%rsi
	je	16f
	leaq	(%rsi,%rsi,4), %rsi
	movq	32(%rdi), %r8
	movq	%r8, 80(%rsp)
	movups	(%rdi), %xmm0
	movups	16(%rdi), %xmm1
	movaps	%xmm1, 64(%rsp)
	movaps	%xmm0, 48(%rsp)
	movq	32(%rdi,%rsi,8), %r8
	movups	(%rdi,%rsi,8), %xmm0
	movups	16(%rdi,%rsi,8), %xmm1
	movups	%xmm0, (%rdi)
	movups	%xmm1, 16(%rdi)
	movq	%r8, 32(%rdi)
	movq	80(%rsp), %r8
	movq	%r8, 32(%rdi,%rsi,8)
	movaps	48(%rsp), %xmm0
	movaps	64(%rsp), %xmm1
	movups	%xmm1, 16(%rdi,%rsi,8)
	movups	%xmm0, (%rdi,%rsi,8)
16:
	testq	%rcx, %rcx
	movq	96(%rsp), %r8
	movq	%rbx, %rax
	je	28f
	cmpq	$1, %rdx
	jbe	18f
	leaq	(%rdx,%rdx,4), %rdx
	movq	72(%rdi), %rsi
	movq	%rsi, 80(%rsp)
	movups	40(%rdi), %xmm0
	movups	56(%rdi), %xmm1
	movaps	%xmm1, 64(%rsp)
	movaps	%xmm0, 48(%rsp)
	movq	32(%rdi,%rdx,8), %rsi
	movups	(%rdi,%rdx,8), %xmm0
	movups	16(%rdi,%rdx,8), %xmm1
	movups	%xmm0, 40(%rdi)
	movups	%xmm1, 56(%rdi)
	movq	%rsi, 72(%rdi)
	movq	80(%rsp), %rsi
	movq	%rsi, 32(%rdi,%rdx,8)
	movaps	48(%rsp), %xmm0
	movaps	64(%rsp), %xmm1
	movups	%xmm1, 16(%rdi,%rdx,8)
	movups	%xmm0, (%rdi,%rdx,8)
	jmp	19f
17:
	movq	88(%rsp), %rdi
	movq	40(%rsp), %rcx
	movq	96(%rsp), %rdx
	movq	%rbx, %rax
	jmp	4b
18:
	testq	%rdx, %rdx
	jne	19f
	leaq	(%rdx,%rdx,4), %rdx
	movq	32(%rdi,%rdx,8), %rsi
	movq	%rsi, 80(%rsp)
	movups	(%rdi,%rdx,8), %xmm0
	movups	16(%rdi,%rdx,8), %xmm1
	movaps	%xmm1, 64(%rsp)
	movaps	%xmm0, 48(%rsp)
	movq	72(%rdi), %rsi
	movups	40(%rdi), %xmm0
	movups	56(%rdi), %xmm1
	movups	%xmm0, (%rdi,%rdx,8)
	movups	%xmm1, 16(%rdi,%rdx,8)
	movq	%rsi, 32(%rdi,%rdx,8)
	movq	80(%rsp), %rdx
	movq	%rdx, 72(%rdi)
	movaps	48(%rsp), %xmm0
	movaps	64(%rsp), %xmm1
	movups	%xmm1, 56(%rdi)
	movups	%xmm0, 40(%rdi)
19:
	cmpq	$1, %rcx
	je	28f
	leaq	-3(%r9), %rdx
	cmpq	$2, %rdx
	jbe	20f
	leaq	(%rdx,%rdx,4), %rdx
	movq	112(%rdi), %rsi
	movq	%rsi, 80(%rsp)
	movups	80(%rdi), %xmm0
	movups	96(%rdi), %xmm1
	movaps	%xmm1, 64(%rsp)
	movaps	%xmm0, 48(%rsp)
	movq	32(%rdi,%rdx,8), %rsi
	movups	(%rdi,%rdx,8), %xmm0
	movups	16(%rdi,%rdx,8), %xmm1
	movups	%xmm0, 80(%rdi)
	movups	%xmm1, 96(%rdi)
	movq	%rsi, 112(%rdi)
	movq	80(%rsp), %rsi
	movq	%rsi, 32(%rdi,%rdx,8)
	movaps	48(%rsp), %xmm0
	movaps	64(%rsp), %xmm1
	movups	%xmm1, 16(%rdi,%rdx,8)
	movups	%xmm0, (%rdi,%rdx,8)
	jmp	21f
20:
	je	21f
	leaq	(%rdx,%rdx,4), %rdx
	movq	32(%rdi,%rdx,8), %rsi
	movq	%rsi, 80(%rsp)
	movups	(%rdi,%rdx,8), %xmm0
	movups	16(%rdi,%rdx,8), %xmm1
	movaps	%xmm1, 64(%rsp)
	movaps	%xmm0, 48(%rsp)
	movq	112(%rdi), %rsi
	movups	80(%rdi), %xmm0
	movups	96(%rdi), %xmm1
	movups	%xmm0, (%rdi,%rdx,8)
	movups	%xmm1, 16(%rdi,%rdx,8)
	movq	%rsi, 32(%rdi,%rdx,8)
	movq	80(%rsp), %rdx
	movq	%rdx, 112(%rdi)
	movaps	48(%rsp), %xmm0
	movaps	64(%rsp), %xmm1
	movups	%xmm1, 96(%rdi)
	movups	%xmm0, 80(%rdi)
21:
	cmpq	$2, %rcx
	je	28f
	leaq	-4(%r9), %rdx
	cmpq	$3, %rdx
	jbe	22f
	leaq	(%rdx,%rdx,4), %rdx
	movq	152(%rdi), %rsi
	movq	%rsi, 80(%rsp)
	movups	120(%rdi), %xmm0
	movups	136(%rdi), %xmm1
	movaps	%xmm1, 64(%rsp)
	movaps	%xmm0, 48(%rsp)
	movq	32(%rdi,%rdx,8), %rsi
	movups	(%rdi,%rdx,8), %xmm0
	movups	16(%rdi,%rdx,8), %xmm1
	movups	%xmm0, 120(%rdi)
	movups	%xmm1, 136(%rdi)
	movq	%rsi, 152(%rdi)
	movq	80(%rsp), %rsi
	movq	%rsi, 32(%rdi,%rdx,8)
	movaps	48(%rsp), %xmm0
	movaps	64(%rsp), %xmm1
	movups	%xmm1, 16(%rdi,%rdx,8)
	movups	%xmm0, (%rdi,%rdx,8)
	jmp	23f
22:
	je	23f
	leaq	(%rdx,%rdx,4), %rdx
	movq	32(%rdi,%rdx,8), %rsi
	movq	%rsi, 80(%rsp)
	movups	(%rdi,%rdx,8), %xmm0
	movups	16(%rdi,%rdx,8), %xmm1
	movaps	%xmm1, 64(%rsp)
	movaps	%xmm0, 48(%rsp)
	movq	152(%rdi), %rsi
	movups	120(%rdi), %xmm0
	movups	136(%rdi), %xmm1
	movups	%xmm0, (%rdi,%rdx,8)
	movups	%xmm1, 16(%rdi,%rdx,8)
	movq	%rsi, 32(%rdi,%rdx,8)
	movq	80(%rsp), %rdx
	movq	%rdx, 152(%rdi)
	movaps	48(%rsp), %xmm0
	movaps	64(%rsp), %xmm1
	movups	%xmm1, 136(%rdi)
	movups	%xmm0, 120(%rdi)
23:
	cmpq	$3, %rcx
	je	28f
	leaq	-5(%r9), %rdx
	cmpq	$4, %rdx
	jbe	24f
	leaq	(%rdx,%rdx,4), %rdx
	movq	192(%rdi), %rsi
	movq	%rsi, 80(%rsp)
	movups	160(%rdi), %xmm0
	movups	176(%rdi), %xmm1
	movaps	%xmm1, 64(%rsp)
	movaps	%xmm0, 48(%rsp)
	movq	32(%rdi,%rdx,8), %rsi
	movups	(%rdi,%rdx,8), %xmm0
	movups	16(%rdi,%rdx,8), %xmm1
	movups	%xmm0, 160(%rdi)
	movups	%xmm1, 176(%rdi)
	movq	%rsi, 192(%rdi)
	movq	80(%rsp), %rsi
	movq	%rsi, 32(%rdi,%rdx,8)
	movaps	48(%rsp), %xmm0
	movaps	64(%rsp), %xmm1
	movups	%xmm1, 16(%rdi,%rdx,8)
	movups	%xmm0, (%rdi,%rdx,8)
	jmp	25f
24:
	je	25f
	leaq	(%rdx,%rdx,4), %rdx
	movq	32(%rdi,%rdx,8), %rsi
	movq	%rsi, 80(%rsp)
	movups	(%rdi,%rdx,8), %xmm0
	movups	16(%rdi,%rdx,8), %xmm1
	movaps	%xmm1, 64(%rsp)
	movaps	%xmm0, 48(%rsp)
	movq	192(%rdi), %rsi
	movups	160(%rdi), %xmm0
	movups	176(%rdi), %xmm1
	movups	%xmm0, (%rdi,%rdx,8)
	movups	%xmm1, 16(%rdi,%rdx,8)
	movq	%rsi, 32(%rdi,%rdx,8)
	movq	80(%rsp), %rdx
	movq	%rdx, 192(%rdi)
	movaps	48(%rsp), %xmm0
	movaps	64(%rsp), %xmm1
	movups	%xmm1, 176(%rdi)
	movups	%xmm0, 160(%rdi)
25:
	cmpq	$4, %rcx
	je	28f
	leaq	-6(%r9), %rdx
	cmpq	$5, %rdx
	jbe	26f
	leaq	(%rdx,%rdx,4), %rdx
	movq	232(%rdi), %rsi
	movq	%rsi, 80(%rsp)
	movups	200(%rdi), %xmm0
	movups	216(%rdi), %xmm1
	movaps	%xmm1, 64(%rsp)
	movaps	%xmm0, 48(%rsp)
	movq	32(%rdi,%rdx,8), %rsi
	movups	(%rdi,%rdx,8), %xmm0
	movups	16(%rdi,%rdx,8), %xmm1
	movups	%xmm0, 200(%rdi)
	movups	%xmm1, 216(%rdi)
	movq	%rsi, 232(%rdi)
	movq	80(%rsp), %rsi
	movq	%rsi, 32(%rdi,%rdx,8)
	movaps	48(%rsp), %xmm0
	movaps	64(%rsp), %xmm1
	movups	%xmm1, 16(%rdi,%rdx,8)
	movups	%xmm0, (%rdi,%rdx,8)
	jmp	27f
26:
	je	27f
	leaq	(%rdx,%rdx,4), %rdx
	movq	32(%rdi,%rdx,8), %rsi
	movq	%rsi, 80(%rsp)
	movups	(%rdi,%rdx,8), %xmm0
	movups	16(%rdi,%rdx,8), %xmm1
	movaps	%xmm1, 64(%rsp)
	movaps	%xmm0, 48(%rsp)
	movq	232(%rdi), %rsi
	movups	200(%rdi), %xmm0
	movups	216(%rdi), %xmm1
	movups	%xmm0, (%rdi,%rdx,8)
	movups	%xmm1, 16(%rdi,%rdx,8)
	movq	%rsi, 32(%rdi,%rdx,8)
	movq	80(%rsp), %rdx
	movq	%rdx, 232(%rdi)
	movaps	48(%rsp), %xmm0
	movaps	64(%rsp), %xmm1
	movups	%xmm1, 216(%rdi)
	movups	%xmm0, 200(%rdi)
27:
	cmpq	$5, %rcx
	jne	29f
28:
	movq	88(%rsp), %rdi
	movq	40(%rsp), %rcx
	movq	%r8, %rdx
	jmp	4b
29:
	addq	$-7, %r9
	cmpq	$6, %r9
	movq	%r8, %rdx
	jbe	30f
	leaq	(%r9,%r9,4), %rsi
	movq	272(%rdi), %rcx
	movq	%rcx, 80(%rsp)
	movups	240(%rdi), %xmm0
	movups	256(%rdi), %xmm1
	movaps	%xmm1, 64(%rsp)
	movaps	%xmm0, 48(%rsp)
	movq	32(%rdi,%rsi,8), %rcx
	movups	(%rdi,%rsi,8), %xmm0
	movups	16(%rdi,%rsi,8), %xmm1
	movups	%xmm0, 240(%rdi)
	movups	%xmm1, 256(%rdi)
	movq	%rcx, 272(%rdi)
	movq	80(%rsp), %rcx
	movq	%rcx, 32(%rdi,%rsi,8)
	movaps	48(%rsp), %xmm0
	movaps	64(%rsp), %xmm1
	movups	%xmm1, 16(%rdi,%rsi,8)
	movups	%xmm0, (%rdi,%rsi,8)
	jmp	31f
30:
	je	31f
	leaq	(%r9,%r9,4), %rsi
	movq	32(%rdi,%rsi,8), %rcx
	movq	%rcx, 80(%rsp)
	movups	(%rdi,%rsi,8), %xmm0
	movups	16(%rdi,%rsi,8), %xmm1
	movaps	%xmm1, 64(%rsp)
	movaps	%xmm0, 48(%rsp)
	movq	272(%rdi), %rcx
	movups	240(%rdi), %xmm0
	movups	256(%rdi), %xmm1
	movups	%xmm0, (%rdi,%rsi,8)
	movups	%xmm1, 16(%rdi,%rsi,8)
	movq	%rcx, 32(%rdi,%rsi,8)
	movq	80(%rsp), %rcx
	movq	%rcx, 272(%rdi)
	movaps	48(%rsp), %xmm0
	movaps	64(%rsp), %xmm1
	movups	%xmm1, 256(%rdi)
	movups	%xmm0, 240(%rdi)
31:
	movq	88(%rsp), %rdi
	movq	40(%rsp), %rcx
	jmp	4b
32:
	.size	"core::slice::sort::runs::climb::<#32fabb223415b920>", 32b-"core::slice::sort::runs::climb::<#32fabb223415b920>"

	.text
	.p2align	4
	.type	"core::slice::sort::runs::climb::<#54047240e3f04dbb>",@function
"core::slice::sort::runs::climb::<#54047240e3f04dbb>":
	pushq	%rbp
	pushq	%r15
	pushq	%r14
	pushq	%r13
	pushq	%r12
	pushq	%rbx
	subq	$104, %rsp
	movl	%r9d, %ebp
	movq	%r8, %rbx
	movq	%rdx, %r12
	movq	%rsi, 32(%rsp)
	movq	$0, 72(%rsp)
	subq	%r8, %rdx
	jne	1f
	movq	%rbx, (%rdi)
	movb	%bpl, 8(%rdi)
	movl	$0, 9(%rdi)
	movl	$0, 12(%rdi)
	movq	%rbx, 16(%rdi)
	movb	%bpl, 24(%rdi)
	movq	$0, 25(%rdi)
	movq	$0, 32(%rdi)
	jmp	20f
1:
	movq	%rcx, 80(%rsp)
	movq	%rdi, 96(%rsp)
	xorl	%r14d, %r14d
	movq	%r12, %r15
	movl	$0, %eax
	cmpq	168(%rsp), %rdx
	jb	11f
	leaq	2(%rbx), %r15
	leaq	(%rbx,%rbx,4), %rdi
	shlq	$4, %rdi
	movq	32(%rsp), %rax
	movl	(%rax,%rdi), %ecx
	movl	80(%rax,%rdi), %edx
	cmpl	%edx, %ecx
	jae	3f
	cmpq	%r12, %r15
	jae	7f
	movq	32(%rsp), %rax
	addq	%rdi, %rax
	addq	$160, %rax
	.p2align	4
2:
	movl	-80(%rax), %esi
	cmpl	(%rax), %esi
	jae	6f
	incq	%r15
	addq	$80, %rax
	cmpq	%r15, %r12
	jne	2b
	jmp	5f
3:
	cmpq	%r12, %r15
	jae	9f
	movq	32(%rsp), %rax
	addq	%rdi, %rax
	addq	$160, %rax
	.p2align	4
4:
	movl	-80(%rax), %esi
	cmpl	(%rax), %esi
	jb	6f
	incq	%r15
	addq	$80, %rax
	cmpq	%r15, %r12
	jne	4b
5:
	movq	%r12, %r15
6:
	movq	%r15, %rsi
	subq	%rbx, %rsi
	cmpq	168(%rsp), %rsi
	jb	10f
	movb	$1, %al
	cmpl	%edx, %ecx
	jb	8f
	jmp	11f
7:
	movl	$2, %esi
	cmpq	$2, 168(%rsp)
	ja	10f
8:
	addq	32(%rsp), %rdi
	callq	"core::slice::edits::slice+T::reverse::<25'mime_base::magic::Section>"
	movb	$1, %al
	jmp	11f
9:
	movb	$1, %al
	cmpq	$3, 168(%rsp)
	jb	11f
10:
	movq	168(%rsp), %rax
	leaq	(%rax,%rbx), %r15
	xorl	%eax, %eax
11:
	movq	80(%rsp), %rdi
	leaq	(%rbx,%rdi), %rcx
	movq	176(%rsp), %rsi
	imulq	%rsi, %rcx
	leaq	(%r15,%rbx), %rdx
	imulq	%rsi, %rdx
	xorq	%rcx, %rdx
	movl	$127, %esi
	bsrq	%rdx, %rsi
	xorl	$63, %esi
	leal	1(%rsi), %ecx
	movq	%rbx, 40(%rsp)
	movb	%bpl, 48(%rsp)
	movl	$0, 49(%rsp)
	movl	$0, 52(%rsp)
	movq	%r15, 56(%rsp)
	movb	%al, 64(%rsp)
	movl	$0, 65(%rsp)
	movl	$0, 68(%rsp)
	movl	%ecx, 72(%rsp)
	cmpl	%esi, 160(%rsp)
	ja	19f
	leaq	(%rdi,%rdi,4), %rax
	shlq	$4, %rax
	addq	32(%rsp), %rax
	movq	%rax, 88(%rsp)
	movq	%rdi, %r15
	jmp	14f
	.p2align	4
12:
	movl	%r12d, %ebp
	movq	%r13, %r12
13:
	movb	%bpl, 48(%rsp)
	leaq	49(%rsp), %rax
	movl	$0, 3(%rax)
	movl	$0, (%rax)
	movl	72(%rsp), %ecx
	cmpl	%ecx, 160(%rsp)
	jae	18f
14:
	movq	%rbx, %r14
	movq	56(%rsp), %r8
	movl	64(%rsp), %r9d
	movq	184(%rsp), %rax
	movq	%rax, 24(%rsp)
	movq	176(%rsp), %rax
	movq	%rax, 16(%rsp)
	movq	168(%rsp), %rax
	movq	%rax, 8(%rsp)
	movl	%ecx, (%rsp)
	leaq	40(%rsp), %rdi
	movq	32(%rsp), %rsi
	movq	%r12, %r13
	movq	%r12, %rdx
	movq	%rbx, %rcx
	callq	"core::slice::sort::runs::climb::<#54047240e3f04dbb>"
	movq	40(%rsp), %rbx
	movzbl	48(%rsp), %r12d
	movl	%r12d, %eax
	orb	%bpl, %al
	testb	$1, %al
	je	12b
	testb	$1, %bpl
	jne	15f
	movq	%r14, %rdx
	subq	%r15, %rdx
	movl	$127, %eax
	bsrq	%rdx, %rax
	xorl	$63, %eax
	addl	%eax, %eax
	movl	$126, %ecx
	subl	%eax, %ecx
	movq	88(%rsp), %rdi
	movq	%rdx, %rsi
	movq	184(%rsp), %r8
	callq	"core::slice::sort::stable::quicksort::<#54047240e3f04dbb>"
15:
	movq	%r14, %rax
	shlq	$4, %rax
	leaq	(%rax,%rax,4), %r15
	testb	$1, %r12b
	jne	16f
	movq	32(%rsp), %rax
	leaq	(%rax,%r15), %rdi
	movq	%rbx, %rdx
	subq	%r14, %rdx
	movl	$127, %eax
	bsrq	%rdx, %rax
	xorl	$63, %eax
	addl	%eax, %eax
	movl	$126, %ecx
	subl	%eax, %ecx
	movq	%rdx, %rsi
	movq	184(%rsp), %r8
	callq	"core::slice::sort::stable::quicksort::<#54047240e3f04dbb>"
16:
	movq	32(%rsp), %rcx
	movl	-80(%rcx,%r15), %eax
	movb	$1, %bpl
	cmpl	(%rcx,%r15), %eax
	movq	%r13, %r12
	jae	17f
	movq	%rbx, %rsi
	movq	80(%rsp), %r15
	subq	%r15, %rsi
	subq	%r15, %r14
	movq	88(%rsp), %rdi
	movq	%r14, %rdx
	movq	184(%rsp), %rcx
	callq	"core::slice::sort::merge::merge::<#54047240e3f04dbb>"
	jmp	13b
	.p2align	4
17:
	movq	80(%rsp), %r15
	jmp	13b
18:
	movq	56(%rsp), %r15
	movzbl	64(%rsp), %eax
	movl	76(%rsp), %r14d
19:
	movq	96(%rsp), %rdi
	movq	%rbx, (%rdi)
	movb	%bpl, 8(%rdi)
	leaq	49(%rsp), %r8
	movl	(%r8), %edx
	movl	3(%r8), %esi
	movl	%edx, 9(%rdi)
	movl	%esi, 12(%rdi)
	movq	%r15, 16(%rdi)
	movb	%al, 24(%rdi)
	movl	16(%r8), %eax
	movl	19(%r8), %edx
	movl	%eax, 25(%rdi)
	movl	%edx, 28(%rdi)
	movl	%ecx, 32(%rdi)
	movl	%r14d, 36(%rdi)
20:
	addq	$104, %rsp
	popq	%rbx
	popq	%r12
	popq	%r13
	popq	%r14
	popq	%r15
	popq	%rbp
	retq
21:
	.size	"core::slice::sort::runs::climb::<#54047240e3f04dbb>", 21b-"core::slice::sort::runs::climb::<#54047240e3f04dbb>"

	.text
	.p2align	4
	.type	"core::slice::sort::runs::climb::<#b4bd7111e818b46c>",@function
"core::slice::sort::runs::climb::<#b4bd7111e818b46c>":
	pushq	%rbp
	pushq	%r15
	pushq	%r14
	pushq	%r13
	pushq	%r12
	pushq	%rbx
	subq	$152, %rsp
	movl	%r9d, %ebp
	movq	%rsi, %r13
	movq	$0, 136(%rsp)
	movq	%rdx, %rsi
	subq	%r8, %rsi
	jne	1f
	movq	%r8, (%rdi)
	movb	%bpl, 8(%rdi)
	movl	$0, 9(%rdi)
	movl	$0, 12(%rdi)
	movq	%r8, 16(%rdi)
	movb	%bpl, 24(%rdi)
	movq	$0, 25(%rdi)
	movq	$0, 32(%rdi)
	jmp	15f
1:
	movq	216(%rsp), %r10
	xorl	%r15d, %r15d
	movq	%rdx, 96(%rsp)
	movq	%rdx, %rax
	movl	$0, %r14d
	cmpq	%r10, %rsi
	movq	%rcx, 88(%rsp)
	movq	%rdi, 40(%rsp)
	jb	6f
	movq	%r13, %rdi
	movq	96(%rsp), %rsi
	movq	%r8, %rdx
	movq	%r8, %r12
	callq	"core::slice::sort::pivot::run_from::<#b4bd7111e818b46c>"
	movq	216(%rsp), %r10
	movq	%r12, %r8
	movq	%rax, %rsi
	subq	%r12, %rsi
	cmpq	%r10, %rsi
	jae	2f
	leaq	(%r10,%r8), %rax
	xorl	%r14d, %r14d
	jmp	5f
2:
	movb	$1, %r14b
	cmpb	$1, %dl
	jne	5f
	movq	%r8, %rdi
	shlq	$5, %rdi
	addq	%r13, %rdi
	cmpq	$15, %rsi
	jbe	3f
	movq	%rsi, %rdx
	shrq	%rdx
	subq	%rdx, %rsi
	shlq	$5, %rsi
	addq	%rdi, %rsi
	movq	%rax, %rbx
	callq	"core::slice::edits::mirror::<35'mime_store::stored_rule::StoredRule>"
	movq	%rbx, %rax
	movq	%r12, %r8
	movq	40(%rsp), %rdi
	movq	88(%rsp), %rcx
	movq	216(%rsp), %r10
	jmp	6f
3:
	cmpq	$2, %rsi
	jb	5f
	leaq	-2(%rsi), %r9
	movq	%r9, %r11
	shrq	%r11
	movq	%rsi, %rdx
	decq	%rdx
	je	4f
	shlq	$5, %rdx
	movups	(%rdi), %xmm0
	movups	16(%rdi), %xmm1
	movaps	%xmm1, 64(%rsp)
	movaps	%xmm0, 48(%rsp)
	movups	(%rdi,%rdx), %xmm0
	movups	16(%rdi,%rdx), %xmm1
	movups	%xmm0, (%rdi)
	movups	%xmm1, 16(%rdi)
	movaps	48(%rsp), %xmm0
	movaps	64(%rsp), %xmm1
	movups	%xmm1, 16(%rdi,%rdx)
	movups	%xmm0, (%rdi,%rdx)
4:
	testq	%r11, %r11
	movq	88(%rsp), %rcx
	je	27f
	cmpq	$1, %r9
	jbe	16f
	shlq	$5, %r9
	movups	32(%rdi), %xmm0
	movups	48(%rdi), %xmm1
	movaps	%xmm1, 64(%rsp)
	movaps	%xmm0, 48(%rsp)
	movups	(%rdi,%r9), %xmm0
	movups	16(%rdi,%r9), %xmm1
	movups	%xmm0, 32(%rdi)
	movups	%xmm1, 48(%rdi)
	movaps	48(%rsp), %xmm0
	movaps	64(%rsp), %xmm1
	movups	%xmm1, 16(%rdi,%r9)
	movups	%xmm0, (%rdi,%r9)
	jmp	17f
5:
	movq	40(%rsp), %rdi
	movq	88(%rsp), %rcx
6:
	leaq	(%r8,%rcx), %r9
	movq	224(%rsp), %rdx
	imulq	%rdx, %r9
	leaq	(%rax,%r8), %rsi
	imulq	%rdx, %rsi
	xorq	%r9, %rsi
	movl	$127, %edx
	bsrq	%rsi, %rdx
	xorl	$63, %edx
	leal	1(%rdx), %esi
	movq	%r8, 104(%rsp)
	movb	%bpl, 112(%rsp)
	leaq	113(%rsp), %rbx
	movl	$0, 113(%rsp)
	movl	$0, 116(%rsp)
	movq	%rax, 120(%rsp)
	movb	%r14b, 128(%rsp)
	movl	$0, 129(%rsp)
	movl	$0, 132(%rsp)
	movl	%esi, 136(%rsp)
	cmpl	%edx, 208(%rsp)
	ja	14f
	shlq	$5, %rcx
	addq	%r13, %rcx
	movq	%rcx, 144(%rsp)
	movq	96(%rsp), %r15
	jmp	9f
	.p2align	4
7:
	movl	%r12d, %ebp
8:
	movb	%bpl, 112(%rsp)
	movl	$0, 3(%rbx)
	movl	$0, (%rbx)
	movl	136(%rsp), %esi
	cmpl	%esi, 208(%rsp)
	movq	216(%rsp), %r10
	jae	13f
9:
	movq	%r8, %r14
	movq	120(%rsp), %r8
	movl	128(%rsp), %r9d
	movq	232(%rsp), %rax
	movq	%rax, 24(%rsp)
	movq	224(%rsp), %rcx
	movq	%rcx, 16(%rsp)
	movq	%r10, 8(%rsp)
	movl	%esi, (%rsp)
	leaq	104(%rsp), %rdi
	movq	%r13, %rsi
	movq	%r15, %rdx
	movq	%r14, %rcx
	callq	"core::slice::sort::runs::climb::<#b4bd7111e818b46c>"
	movq	104(%rsp), %r8
	movzbl	112(%rsp), %r12d
	movl	%r12d, %eax
	orb	%bpl, %al
	testb	$1, %al
	je	7b
	movq	%r8, %r15
	testb	$1, %bpl
	jne	10f
	movq	%r14, %rdx
	subq	88(%rsp), %rdx
	movl	$127, %eax
	bsrq	%rdx, %rax
	xorl	$63, %eax
	addl	%eax, %eax
	movl	$126, %ecx
	subl	%eax, %ecx
	movq	144(%rsp), %rdi
	movq	%rdx, %rsi
	movq	232(%rsp), %r8
	callq	"core::slice::sort::stable::quicksort::<#b4bd7111e818b46c>"
10:
	movq	%r14, %rbp
	shlq	$5, %rbp
	testb	$1, %r12b
	jne	11f
	movq	%r13, %rdi
	addq	%rbp, %rdi
	movq	%r15, %rdx
	subq	%r14, %rdx
	movl	$127, %eax
	bsrq	%rdx, %rax
	xorl	$63, %eax
	addl	%eax, %eax
	movl	$126, %ecx
	subl	%eax, %ecx
	movq	%rdx, %rsi
	movq	232(%rsp), %r8
	callq	"core::slice::sort::stable::quicksort::<#b4bd7111e818b46c>"
11:
	movq	(%r13,%rbp), %rdi
	movq	8(%r13,%rbp), %rsi
	movq	-32(%r13,%rbp), %rdx
	movq	-24(%r13,%rbp), %rcx
	callq	"core::cmp::slices::RefSliceOrd::cmp::<#914af4d8504a0b72>"
	movb	$1, %bpl
	testb	%al, %al
	jne	12f
	movq	%r15, %rsi
	movq	88(%rsp), %rax
	subq	%rax, %rsi
	subq	%rax, %r14
	movq	144(%rsp), %rdi
	movq	%r14, %rdx
	movq	232(%rsp), %rcx
	callq	"core::slice::sort::merge::merge::<#b4bd7111e818b46c>"
12:
	movq	%r15, %r8
	movq	96(%rsp), %r15
	jmp	8b
13:
	movq	120(%rsp), %rax
	movzbl	128(%rsp), %r14d
	movl	140(%rsp), %r15d
	movq	40(%rsp), %rdi
14:
	movq	%r8, (%rdi)
	movb	%bpl, 8(%rdi)
	movl	(%rbx), %ecx
	movl	3(%rbx), %edx
	movl	%ecx, 9(%rdi)
	movl	%edx, 12(%rdi)
	movq	%rax, 16(%rdi)
	movb	%r14b, 24(%rdi)
	movl	16(%rbx), %ecx
	movl	19(%rbx), %edx
	movl	%ecx, 25(%rdi)
	movl	%edx, 28(%rdi)
	movl	%esi, 32(%rdi)
	movl	%r15d, 36(%rdi)
15:
	addq	$152, %rsp
	popq	%rbx
	popq	%r12
	popq	%r13
	popq	%r14
	popq	%r15
	popq	%rbp
	retq
16:
	testq	%r9, %r9
	jne	17f
	movups	(%rdi), %xmm0
	movups	16(%rdi), %xmm1
	movaps	%xmm1, 64(%rsp)
	movaps	%xmm0, 48(%rsp)
	movups	32(%rdi), %xmm0
	movups	48(%rdi), %xmm1
	movups	%xmm0, (%rdi)
	movups	%xmm1, 16(%rdi)
	movaps	48(%rsp), %xmm0
	movaps	64(%rsp), %xmm1
	movups	%xmm0, 32(%rdi)
	movups	%xmm1, 48(%rdi)
17:
	cmpq	$1, %r11
	je	27f
	leaq	-3(%rsi), %rdx
	cmpq	$2, %rdx
	jbe	18f
	shlq	$5, %rdx
	movups	64(%rdi), %xmm0
	movups	80(%rdi), %xmm1
	movaps	%xmm1, 64(%rsp)
	movaps	%xmm0, 48(%rsp)
	movups	(%rdi,%rdx), %xmm0
	movups	16(%rdi,%rdx), %xmm1
	movups	%xmm0, 64(%rdi)
	movups	%xmm1, 80(%rdi)
	movaps	48(%rsp), %xmm0
	movaps	64(%rsp), %xmm1
	movups	%xmm1, 16(%rdi,%rdx)
	movups	%xmm0, (%rdi,%rdx)
	jmp	19f
18:
	je	19f
	shlq	$5, %rdx
	movups	(%rdi,%rdx), %xmm0
	movups	16(%rdi,%rdx), %xmm1
	movaps	%xmm1, 64(%rsp)
	movaps	%xmm0, 48(%rsp)
	movups	64(%rdi), %xmm0
	movups	80(%rdi), %xmm1
	movups	%xmm0, (%rdi,%rdx)
	movups	%xmm1, 16(%rdi,%rdx)
	movaps	48(%rsp), %xmm0
	movaps	64(%rsp), %xmm1
	movups	%xmm1, 80(%rdi)
	movups	%xmm0, 64(%rdi)
19:
	cmpq	$2, %r11
	je	27f
	leaq	-4(%rsi), %rdx
	cmpq	$3, %rdx
	jbe	20f
	shlq	$5, %rdx
	movups	96(%rdi), %xmm0
	movups	112(%rdi), %xmm1
	movaps	%xmm1, 64(%rsp)
	movaps	%xmm0, 48(%rsp)
	movups	(%rdi,%rdx), %xmm0
	movups	16(%rdi,%rdx), %xmm1
	movups	%xmm0, 96(%rdi)
	movups	%xmm1, 112(%rdi)
	movaps	48(%rsp), %xmm0
	movaps	64(%rsp), %xmm1
	movups	%xmm1, 16(%rdi,%rdx)
	movups	%xmm0, (%rdi,%rdx)
	jmp	21f
20:
	je	21f
	shlq	$5, %rdx
	movups	(%rdi,%rdx), %xmm0
	movups	16(%rdi,%rdx), %xmm1
	movaps	%xmm1, 64(%rsp)
	movaps	%xmm0, 48(%rsp)
	movups	96(%rdi), %xmm0
	movups	112(%rdi), %xmm1
	movups	%xmm0, (%rdi,%rdx)
	movups	%xmm1, 16(%rdi,%rdx)
	movaps	48(%rsp), %xmm0
	movaps	64(%rsp), %xmm1
	movups	%xmm1, 112(%rdi)
	movups	%xmm0, 96(%rdi)
21:
	cmpq	$3, %r11
	je	27f
	leaq	-5(%rsi), %rdx
	cmpq	$4, %rdx
	jbe	22f
	shlq	$5, %rdx
	movups	128(%rdi), %xmm0
	movups	144(%rdi), %xmm1
	movaps	%xmm1, 64(%rsp)
	movaps	%xmm0, 48(%rsp)
	movups	(%rdi,%rdx), %xmm0
	movups	16(%rdi,%rdx), %xmm1
	movups	%xmm0, 128(%rdi)
	movups	%xmm1, 144(%rdi)
	movaps	48(%rsp), %xmm0
	movaps	64(%rsp), %xmm1
	movups	%xmm1, 16(%rdi,%rdx)
	movups	%xmm0, (%rdi,%rdx)
	jmp	23f
22:
	je	23f
	shlq	$5, %rdx
	movups	(%rdi,%rdx), %xmm0
	movups	16(%rdi,%rdx), %xmm1
	movaps	%xmm1, 64(%rsp)
	movaps	%xmm0, 48(%rsp)
	movups	128(%rdi), %xmm0
	movups	144(%rdi), %xmm1
	movups	%xmm0, (%rdi,%rdx)
	movups	%xmm1, 16(%rdi,%rdx)
	movaps	48(%rsp), %xmm0
	movaps	64(%rsp), %xmm1
	movups	%xmm1, 144(%rdi)
	movups	%xmm0, 128(%rdi)
23:
	cmpq	$4, %r11
	je	27f
	leaq	-6(%rsi), %rdx
	cmpq	$5, %rdx
	jbe	24f
	shlq	$5, %rdx
	movups	160(%rdi), %xmm0
	movups	176(%rdi), %xmm1
	movaps	%xmm1, 64(%rsp)
	movaps	%xmm0, 48(%rsp)
	movups	(%rdi,%rdx), %xmm0
	movups	16(%rdi,%rdx), %xmm1
	movups	%xmm0, 160(%rdi)
	movups	%xmm1, 176(%rdi)
	movaps	48(%rsp), %xmm0
	movaps	64(%rsp), %xmm1
	movups	%xmm1, 16(%rdi,%rdx)
	movups	%xmm0, (%rdi,%rdx)
	jmp	25f
24:
	je	25f
	shlq	$5, %rdx
	movups	(%rdi,%rdx), %xmm0
	movups	16(%rdi,%rdx), %xmm1
	movaps	%xmm1, 64(%rsp)
	movaps	%xmm0, 48(%rsp)
	movups	160(%rdi), %xmm0
	movups	176(%rdi), %xmm1
	movups	%xmm0, (%rdi,%rdx)
	movups	%xmm1, 16(%rdi,%rdx)
	movaps	48(%rsp), %xmm0
	movaps	64(%rsp), %xmm1
	movups	%xmm1, 176(%rdi)
	movups	%xmm0, 160(%rdi)
25:
	cmpq	$5, %r11
	je	27f
	addq	$-7, %rsi
	cmpq	$6, %rsi
	jbe	26f
	shlq	$5, %rsi
	movups	192(%rdi), %xmm0
	movups	208(%rdi), %xmm1
	movaps	%xmm1, 64(%rsp)
	movaps	%xmm0, 48(%rsp)
	movups	(%rdi,%rsi), %xmm0
	movups	16(%rdi,%rsi), %xmm1
	movups	%xmm0, 192(%rdi)
	movups	%xmm1, 208(%rdi)
	movaps	48(%rsp), %xmm0
	movaps	64(%rsp), %xmm1
	movups	%xmm1, 16(%rdi,%rsi)
	movups	%xmm0, (%rdi,%rsi)
	jmp	27f
26:
	je	27f
	shlq	$5, %rsi
	movups	(%rdi,%rsi), %xmm0
	movups	16(%rdi,%rsi), %xmm1
	movaps	%xmm1, 64(%rsp)
	movaps	%xmm0, 48(%rsp)
	movups	192(%rdi), %xmm0
	movups	208(%rdi), %xmm1
	movups	%xmm0, (%rdi,%rsi)
	movups	%xmm1, 16(%rdi,%rsi)
	movaps	48(%rsp), %xmm0
	movaps	64(%rsp), %xmm1
	movups	%xmm1, 208(%rdi)
	movups	%xmm0, 192(%rdi)
27:
	movq	40(%rsp), %rdi
	jmp	6b
28:
	.size	"core::slice::sort::runs::climb::<#b4bd7111e818b46c>", 28b-"core::slice::sort::runs::climb::<#b4bd7111e818b46c>"

	.text
	.p2align	4
	.type	"core::slice::sort::runs::climb::<#f98e8d76978ecc20>",@function
"core::slice::sort::runs::climb::<#f98e8d76978ecc20>":
	pushq	%rbp
	pushq	%r15
	pushq	%r14
	pushq	%r13
	pushq	%r12
	pushq	%rbx
	subq	$152, %rsp
	movl	%r9d, %ebp
	movq	%r8, %r12
	movq	%rsi, %r13
	movq	$0, 136(%rsp)
	movq	%rdx, %rsi
	subq	%r8, %rsi
	jne	1f
	movq	%r12, (%rdi)
	movb	%bpl, 8(%rdi)
	movl	$0, 9(%rdi)
	movl	$0, 12(%rdi)
	movq	%r12, 16(%rdi)
	movb	%bpl, 24(%rdi)
	movq	$0, 25(%rdi)
	movq	$0, 32(%rdi)
	jmp	17f
1:
	movq	216(%rsp), %r10
	xorl	%r15d, %r15d
	movq	%rdx, %rax
	movl	$0, %r14d
	cmpq	%r10, %rsi
	movq	%rcx, 88(%rsp)
	movq	%rdx, 96(%rsp)
	movq	%rdi, 40(%rsp)
	jb	4f
	movq	%r13, %rdi
	movq	%rdx, %rsi
	movq	%r12, %rdx
	callq	"core::slice::sort::pivot::run_from::<#f98e8d76978ecc20>"
	movq	216(%rsp), %r10
	movq	%rax, %rsi
	subq	%r12, %rsi
	cmpq	%r10, %rsi
	jae	2f
	leaq	(%r10,%r12), %rax
	xorl	%r14d, %r14d
	jmp	3f
2:
	movb	$1, %r14b
	cmpb	$1, %dl
	jne	3f
	movq	%rax, %rbx
	movq	%r12, %rdi
	shlq	$5, %rdi
	addq	%r13, %rdi
	cmpq	$15, %rsi
	jbe	18f
	movq	%rsi, %rdx
	shrq	%rdx
	subq	%rdx, %rsi
	shlq	$5, %rsi
	addq	%rdi, %rsi
	callq	"core::slice::edits::mirror::<31'mime_store::text_pair::TextPair>"
	movq	40(%rsp), %rdi
	movq	88(%rsp), %rcx
	movq	96(%rsp), %rdx
	movq	216(%rsp), %r10
	movq	%rbx, %rax
	jmp	4f
3:
	movq	40(%rsp), %rdi
	movq	88(%rsp), %rcx
	movq	96(%rsp), %rdx
4:
	leaq	(%r12,%rcx), %r9
	movq	224(%rsp), %r8
	imulq	%r8, %r9
	leaq	(%rax,%r12), %rsi
	imulq	%r8, %rsi
	xorq	%r9, %rsi
	movl	$127, %r8d
	bsrq	%rsi, %r8
	xorl	$63, %r8d
	leal	1(%r8), %esi
	movq	%r12, 104(%rsp)
	movb	%bpl, 112(%rsp)
	leaq	113(%rsp), %rbx
	movl	$0, 113(%rsp)
	movl	$0, 116(%rsp)
	movq	%rax, 120(%rsp)
	movb	%r14b, 128(%rsp)
	movl	$0, 129(%rsp)
	movl	$0, 132(%rsp)
	movl	%esi, 136(%rsp)
	cmpl	%r8d, 208(%rsp)
	ja	16f
	shlq	$5, %rcx
	addq	%r13, %rcx
	movq	%rcx, 144(%rsp)
	jmp	7f
	.p2align	4
5:
	movl	%r15d, %ebp
6:
	movb	%bpl, 112(%rsp)
	movl	$0, 3(%rbx)
	movl	$0, (%rbx)
	movl	136(%rsp), %esi
	cmpl	%esi, 208(%rsp)
	movq	96(%rsp), %rdx
	movq	216(%rsp), %r10
	jae	15f
7:
	movq	%r12, %r14
	movq	120(%rsp), %r8
	movl	128(%rsp), %r9d
	movq	232(%rsp), %rax
	movq	%rax, 24(%rsp)
	movq	224(%rsp), %rcx
	movq	%rcx, 16(%rsp)
	movq	%r10, 8(%rsp)
	movl	%esi, (%rsp)
	leaq	104(%rsp), %rdi
	movq	%r13, %rsi
	movq	%r12, %rcx
	callq	"core::slice::sort::runs::climb::<#f98e8d76978ecc20>"
	movq	104(%rsp), %r12
	movzbl	112(%rsp), %r15d
	movl	%r15d, %eax
	orb	%bpl, %al
	testb	$1, %al
	je	5b
	testb	$1, %bpl
	jne	8f
	movq	%r14, %rdx
	subq	88(%rsp), %rdx
	movl	$127, %eax
	bsrq	%rdx, %rax
	xorl	$63, %eax
	addl	%eax, %eax
	movl	$126, %ecx
	subl	%eax, %ecx
	movq	144(%rsp), %rdi
	movq	%rdx, %rsi
	movq	232(%rsp), %r8
	callq	"core::slice::sort::stable::quicksort::<#f98e8d76978ecc20>"
8:
	movq	%r14, %rbp
	shlq	$5, %rbp
	testb	$1, %r15b
	jne	9f
	movq	%r13, %rdi
	addq	%rbp, %rdi
	movq	%r12, %rdx
	subq	%r14, %rdx
	movl	$127, %eax
	bsrq	%rdx, %rax
	xorl	$63, %eax
	addl	%eax, %eax
	movl	$126, %ecx
	subl	%eax, %ecx
	movq	%rdx, %rsi
	movq	232(%rsp), %r8
	callq	"core::slice::sort::stable::quicksort::<#f98e8d76978ecc20>"
9:
	movq	(%r13,%rbp), %rdi
	movq	8(%r13,%rbp), %rsi
	movq	-32(%r13,%rbp), %rdx
	movq	-24(%r13,%rbp), %rcx
	cmpq	%rsi, %rcx
	movq	%rsi, %rax
	cmovbq	%rcx, %rax
	cmpq	$24, %rax
	movl	$24, %r8d
	cmovbq	%rax, %r8
	cmpq	$8, %rax
	jb	11f
	xorl	%eax, %eax
	.p2align	4
10:
	movq	(%rdi,%rax), %r9
	movq	(%rdx,%rax), %r10
	cmpq	%r10, %r9
	jne	13f
	addq	$8, %rax
	addq	$-8, %r8
	cmpq	$7, %r8
	ja	10b
	jmp	12f
	.p2align	4
11:
	xorl	%eax, %eax
12:
	addq	%rax, %rdi
	subq	%rax, %rsi
	addq	%rax, %rdx
	subq	%rax, %rcx
	callq	"core::cmp::slices::RefSliceOrd::cmp::<#914af4d8504a0b72>"
	movb	$1, %bpl
	testb	%al, %al
	jne	6b
	jmp	14f
13:
	bswapq	%r10
	bswapq	%r9
	movb	$1, %bpl
	cmpq	%r10, %r9
	jae	6b
14:
	movq	%r12, %rsi
	movq	88(%rsp), %rax
	subq	%rax, %rsi
	subq	%rax, %r14
	movq	144(%rsp), %rdi
	movq	%r14, %rdx
	movq	232(%rsp), %rcx
	callq	"core::slice::sort::merge::merge::<#f98e8d76978ecc20>"
	movb	$1, %bpl
	jmp	6b
15:
	movq	120(%rsp), %rax
	movzbl	128(%rsp), %r14d
	movl	140(%rsp), %r15d
	movq	40(%rsp), %rdi
16:
	movq	%r12, (%rdi)
	movb	%bpl, 8(%rdi)
	movl	(%rbx), %ecx
	movl	3(%rbx), %edx
	movl	%ecx, 9(%rdi)
	movl	%edx, 12(%rdi)
	movq	%rax, 16(%rdi)
	movb	%r14b, 24(%rdi)
	movl	16(%rbx), %ecx
	movl	19(%rbx), %edx
	movl	%ecx, 25(%rdi)
	movl	%edx, 28(%rdi)
	movl	%esi, 32(%rdi)
	movl	%r15d, 36(%rdi)
17:
	addq	$152, %rsp
	popq	%rbx
	popq	%r12
	popq	%r13
	popq	%r14
	popq	%r15
	popq	%rbp
	retq
18:
	cmpq	$2, %rsi
	jb	20f
	leaq	-2(%rsi), %r8
	movq	%r8, %r9
	shrq	%r9
	movq	%rsi, %rdx
	decq	%rdx
	je	19f
	shlq	$5, %rdx
	movups	(%rdi), %xmm0
	movups	16(%rdi), %xmm1
	movaps	%xmm1, 64(%rsp)
	movaps	%xmm0, 48(%rsp)
	movups	(%rdi,%rdx), %xmm0
	movups	16(%rdi,%rdx), %xmm1
	movups	%xmm0, (%rdi)
	movups	%xmm1, 16(%rdi)
	movaps	48(%rsp), %xmm0
	movaps	64(%rsp), %xmm1
	movups	%xmm1, 16(%rdi,%rdx)
	movups	%xmm0, (%rdi,%rdx)
19:
	testq	%r9, %r9
	movq	88(%rsp), %rcx
	movq	96(%rsp), %rdx
	movq	%rbx, %rax
	je	32f
	cmpq	$1, %r8
	jbe	21f
	shlq	$5, %r8
	movups	32(%rdi), %xmm0
	movups	48(%rdi), %xmm1
	movaps	%xmm1, 64(%rsp)
	movaps	%xmm0, 48(%rsp)
	movups	(%rdi,%r8), %xmm0
	movups	16(%rdi,%r8), %xmm1
	movups	%xmm0, 32(%rdi)
	movups	%xmm1, 48(%rdi)
	movaps	48(%rsp), %xmm0
	movaps	64(%rsp), %xmm1
	movups	%xmm1, 16(%rdi,%r8)
	movups	%xmm0, (%rdi,%r8)
	jmp	22f
20:
	movq	40(%rsp), %rdi
	movq	88(%rsp), %rcx
	movq	96(%rsp), %rdx
	movq	%rbx, %rax
	jmp	4b
21:
	testq	%r8, %r8
	jne	22f
	movups	(%rdi), %xmm0
	movups	16(%rdi), %xmm1
	movaps	%xmm1, 64(%rsp)
	movaps	%xmm0, 48(%rsp)
	movups	32(%rdi), %xmm0
	movups	48(%rdi), %xmm1
	movups	%xmm0, (%rdi)
	movups	%xmm1, 16(%rdi)
	movaps	48(%rsp), %xmm0
	movaps	64(%rsp), %xmm1
	movups	%xmm0, 32(%rdi)
	movups	%xmm1, 48(%rdi)
22:
	cmpq	$1, %r9
	je	32f
	leaq	-3(%rsi), %r8
	cmpq	$2, %r8
	jbe	23f
	shlq	$5, %r8
	movups	64(%rdi), %xmm0
	movups	80(%rdi), %xmm1
	movaps	%xmm1, 64(%rsp)
	movaps	%xmm0, 48(%rsp)
	movups	(%rdi,%r8), %xmm0
	movups	16(%rdi,%r8), %xmm1
	movups	%xmm0, 64(%rdi)
	movups	%xmm1, 80(%rdi)
	movaps	48(%rsp), %xmm0
	movaps	64(%rsp), %xmm1
	movups	%xmm1, 16(%rdi,%r8)
	movups	%xmm0, (%rdi,%r8)
	jmp	24f
23:
	je	24f
	shlq	$5, %r8
	movups	(%rdi,%r8), %xmm0
	movups	16(%rdi,%r8), %xmm1
	movaps	%xmm1, 64(%rsp)
	movaps	%xmm0, 48(%rsp)
	movups	64(%rdi), %xmm0
	movups	80(%rdi), %xmm1
	movups	%xmm0, (%rdi,%r8)
	movups	%xmm1, 16(%rdi,%r8)
	movaps	48(%rsp), %xmm0
	movaps	64(%rsp), %xmm1
	movups	%xmm1, 80(%rdi)
	movups	%xmm0, 64(%rdi)
24:
	cmpq	$2, %r9
	je	32f
	leaq	-4(%rsi), %r8
	cmpq	$3, %r8
	jbe	25f
	shlq	$5, %r8
	movups	96(%rdi), %xmm0
	movups	112(%rdi), %xmm1
	movaps	%xmm1, 64(%rsp)
	movaps	%xmm0, 48(%rsp)
	movups	(%rdi,%r8), %xmm0
	movups	16(%rdi,%r8), %xmm1
	movups	%xmm0, 96(%rdi)
	movups	%xmm1, 112(%rdi)
	movaps	48(%rsp), %xmm0
	movaps	64(%rsp), %xmm1
	movups	%xmm1, 16(%rdi,%r8)
	movups	%xmm0, (%rdi,%r8)
	jmp	26f
25:
	je	26f
	shlq	$5, %r8
	movups	(%rdi,%r8), %xmm0
	movups	16(%rdi,%r8), %xmm1
	movaps	%xmm1, 64(%rsp)
	movaps	%xmm0, 48(%rsp)
	movups	96(%rdi), %xmm0
	movups	112(%rdi), %xmm1
	movups	%xmm0, (%rdi,%r8)
	movups	%xmm1, 16(%rdi,%r8)
	movaps	48(%rsp), %xmm0
	movaps	64(%rsp), %xmm1
	movups	%xmm1, 112(%rdi)
	movups	%xmm0, 96(%rdi)
26:
	cmpq	$3, %r9
	je	32f
	leaq	-5(%rsi), %r8
	cmpq	$4, %r8
	jbe	27f
	shlq	$5, %r8
	movups	128(%rdi), %xmm0
	movups	144(%rdi), %xmm1
	movaps	%xmm1, 64(%rsp)
	movaps	%xmm0, 48(%rsp)
	movups	(%rdi,%r8), %xmm0
	movups	16(%rdi,%r8), %xmm1
	movups	%xmm0, 128(%rdi)
	movups	%xmm1, 144(%rdi)
	movaps	48(%rsp), %xmm0
	movaps	64(%rsp), %xmm1
	movups	%xmm1, 16(%rdi,%r8)
	movups	%xmm0, (%rdi,%r8)
	jmp	28f
27:
	je	28f
	shlq	$5, %r8
	movups	(%rdi,%r8), %xmm0
	movups	16(%rdi,%r8), %xmm1
	movaps	%xmm1, 64(%rsp)
	movaps	%xmm0, 48(%rsp)
	movups	128(%rdi), %xmm0
	movups	144(%rdi), %xmm1
	movups	%xmm0, (%rdi,%r8)
	movups	%xmm1, 16(%rdi,%r8)
	movaps	48(%rsp), %xmm0
	movaps	64(%rsp), %xmm1
	movups	%xmm1, 144(%rdi)
	movups	%xmm0, 128(%rdi)
28:
	cmpq	$4, %r9
	je	32f
	leaq	-6(%rsi), %r8
	cmpq	$5, %r8
	jbe	29f
	shlq	$5, %r8
	movups	160(%rdi), %xmm0
	movups	176(%rdi), %xmm1
	movaps	%xmm1, 64(%rsp)
	movaps	%xmm0, 48(%rsp)
	movups	(%rdi,%r8), %xmm0
	movups	16(%rdi,%r8), %xmm1
	movups	%xmm0, 160(%rdi)
	movups	%xmm1, 176(%rdi)
	movaps	48(%rsp), %xmm0
	movaps	64(%rsp), %xmm1
	movups	%xmm1, 16(%rdi,%r8)
	movups	%xmm0, (%rdi,%r8)
	jmp	30f
29:
	je	30f
	shlq	$5, %r8
	movups	(%rdi,%r8), %xmm0
	movups	16(%rdi,%r8), %xmm1
	movaps	%xmm1, 64(%rsp)
	movaps	%xmm0, 48(%rsp)
	movups	160(%rdi), %xmm0
	movups	176(%rdi), %xmm1
	movups	%xmm0, (%rdi,%r8)
	movups	%xmm1, 16(%rdi,%r8)
	movaps	48(%rsp), %xmm0
	movaps	64(%rsp), %xmm1
	movups	%xmm1, 176(%rdi)
	movups	%xmm0, 160(%rdi)
30:
	cmpq	$5, %r9
	je	32f
	addq	$-7, %rsi
	cmpq	$6, %rsi
	jbe	31f
	shlq	$5, %rsi
	movups	192(%rdi), %xmm0
	movups	208(%rdi), %xmm1
	movaps	%xmm1, 64(%rsp)
	movaps	%xmm0, 48(%rsp)
	movups	(%rdi,%rsi), %xmm0
	movups	16(%rdi,%rsi), %xmm1
	movups	%xmm0, 192(%rdi)
	movups	%xmm1, 208(%rdi)
	movaps	48(%rsp), %xmm0
	movaps	64(%rsp), %xmm1
	movups	%xmm1, 16(%rdi,%rsi)
	movups	%xmm0, (%rdi,%rsi)
	jmp	32f
31:
	je	32f
	shlq	$5, %rsi
	movups	(%rdi,%rsi), %xmm0
	movups	16(%rdi,%rsi), %xmm1
	movaps	%xmm1, 64(%rsp)
	movaps	%xmm0, 48(%rsp)
	movups	192(%rdi), %xmm0
	movups	208(%rdi), %xmm1
	movups	%xmm0, (%rdi,%rsi)
	movups	%xmm1, 16(%rdi,%rsi)
	movaps	48(%rsp), %xmm0
	movaps	64(%rsp), %xmm1
	movups	%xmm1, 208(%rdi)
	movups	%xmm0, 192(%rdi)
32:
	movq	40(%rsp), %rdi
	jmp	4b
33:
	.size	"core::slice::sort::runs::climb::<#f98e8d76978ecc20>", 33b-"core::slice::sort::runs::climb::<#f98e8d76978ecc20>"

	.text
	.p2align	4
	.type	"core::slice::sort::short::sort::<#12eb916b83b0f891>",@function
"core::slice::sort::short::sort::<#12eb916b83b0f891>":
	pushq	%rbp
	pushq	%r15
	pushq	%r14
	pushq	%r13
	pushq	%r12
	pushq	%rbx
	subq	$56, %rsp
	movq	%rdx, %rbx
	cmpq	$16, %rsi
	jae	1f
	movq	%rbx, %rdx
	addq	$56, %rsp
	popq	%rbx
	popq	%r12
	popq	%r13
	popq	%r14
	popq	%r15
	popq	%rbp
	jmp	"core::slice::sort::short::sort_half::<#12eb916b83b0f891>"
1:
	movq	%rsi, %r12
	shrq	%r12
	leaq	(%rdi,%r12,8), %r15
	movq	%rsi, %r13
	subq	%r12, %r13
	movq	%rdi, %r14
	movq	%rsi, %rbp
	movq	%r12, %rsi
	movq	%rbx, %rdx
	callq	"core::slice::sort::short::sort_half::<#12eb916b83b0f891>"
	movq	%r15, %rdi
	movq	%r13, %rsi
	movq	%rbx, %rdx
	callq	"core::slice::sort::short::sort_half::<#12eb916b83b0f891>"
	movq	%rbp, %rax
	movq	%r14, %rdi
	movq	(%rbx), %r14
	movq	8(%rbx), %rcx
	movq	%rcx, 8(%rsp)
	xorps	%xmm0, %xmm0
	movaps	%xmm0, 32(%rsp)
	movaps	%xmm0, 16(%rsp)
	leaq	16(%rsp), %rcx
	leaq	(%rcx,%rbp), %r9
	decq	%r9
	xorl	%ecx, %ecx
	movq	%r12, %r15
	movq	%r12, %rsi
	movq	%rbp, %r8
	xorl	%r10d, %r10d
	.p2align	4
2:
	movq	%rsi, %r11
	movl	(%rdi,%rcx,8), %ebp
	movl	(%rdi,%rsi,8), %r13d
	cmpl	%r13d, %ebp
	adcq	$0, %rsi
	movq	%r15, %rdx
	cmpl	%r13d, %ebp
	cmovael	%ecx, %r11d
	movb	%r11b, 16(%rsp,%r10)
	sbbq	$-1, %rcx
	movl	-8(%rdi,%r15,8), %r11d
	movl	-8(%rdi,%r8,8), %ebp
	cmpl	%ebp, %r11d
	sbbq	$0, %r15
	cmpl	%ebp, %r11d
	cmovael	%r8d, %edx
	adcq	$-1, %r8
	decb	%dl
	movb	%dl, (%r9)
	incq	%r10
	decq	%r9
	cmpq	%r10, %r12
	jne	2b
	testb	$1, %al
	je	3f
	cmpq	%r15, %rcx
	movl	%esi, %edx
	cmovbl	%ecx, %edx
	movb	%dl, 16(%rsp,%r12)
3:
	cmpq	%r8, %rsi
	ja	6f
	cmpq	%r15, %rcx
	ja	6f
	movl	%eax, %edx
	andl	$62, %edx
	xorl	%ecx, %ecx
	.p2align	4
4:
	movzbl	16(%rsp,%rcx), %esi
	movq	(%rdi,%rsi,8), %rsi
	movq	%rsi, (%r14,%rcx,8)
	movzbl	17(%rsp,%rcx), %esi
	movq	(%rdi,%rsi,8), %rsi
	movq	%rsi, 8(%r14,%rcx,8)
	addq	$2, %rcx
	cmpq	%rcx, %rdx
	jne	4b
	testb	$1, %al
	je	5f
	movzbl	16(%rsp,%rcx), %edx
	movq	(%rdi,%rdx,8), %rdx
	movq	%rdx, (%r14,%rcx,8)
5:
	leaq	(,%rax,8), %rdx
	movq	%rdi, %rcx
	subq	%r14, %rcx
	cmpq	%rdx, %rcx
	jae	13f
	cmpq	$32, %rcx
	movq	8(%rsp), %r9
	jae	14f
	xorl	%ecx, %ecx
	jmp	16f
6:
	movl	$1, %ecx
	jmp	10f
7:
	xorl	%esi, %esi
8:
	movq	%rdx, (%rdi,%rsi)
9:
	incq	%rcx
	cmpq	%rax, %rcx
	je	21f
10:
	movl	-8(%rdi,%rcx,8), %edx
	cmpl	(%rdi,%rcx,8), %edx
	jae	9b
	movq	%rcx, %rsi
	movq	-8(%rdi,%rcx,8), %r8
	movq	(%rdi,%rcx,8), %rdx
	movq	%r8, (%rdi,%rcx,8)
	decq	%rsi
	je	7b
	.p2align	4
11:
	cmpl	%edx, -8(%rdi,%rsi,8)
	jae	12f
	movq	-8(%rdi,%rsi,8), %r8
	movq	%r8, (%rdi,%rsi,8)
	decq	%rsi
	jne	11b
	xorl	%esi, %esi
12:
	shlq	$3, %rsi
	jmp	8b
13:
	movq	%r14, %rsi
	callq	memmove@PLT
	movq	8(%rsp), %r9
	jmp	20f
14:
	movl	%eax, %ecx
	andl	$60, %ecx
	xorl	%edx, %edx
	.p2align	4
15:
	movups	(%r14,%rdx,8), %xmm0
	movups	16(%r14,%rdx,8), %xmm1
	movups	%xmm0, (%rdi,%rdx,8)
	movups	%xmm1, 16(%rdi,%rdx,8)
	addq	$4, %rdx
	cmpq	%rdx, %rcx
	jne	15b
	cmpq	%rcx, %rax
	je	20f
16:
	movq	%rax, %rsi
	movq	%rcx, %rdx
	andq	$3, %rsi
	je	18f
	movq	%rcx, %rdx
	.p2align	4
17:
	movq	(%r14,%rdx,8), %r8
	movq	%r8, (%rdi,%rdx,8)
	incq	%rdx
	decq	%rsi
	jne	17b
18:
	subq	%rax, %rcx
	cmpq	$-4, %rcx
	ja	20f
	.p2align	4
19:
	movq	(%r14,%rdx,8), %rcx
	movq	%rcx, (%rdi,%rdx,8)
	movq	8(%r14,%rdx,8), %rcx
	movq	%rcx, 8(%rdi,%rdx,8)
	movq	16(%r14,%rdx,8), %rcx
	movq	%rcx, 16(%rdi,%rdx,8)
	movq	24(%r14,%rdx,8), %rcx
	movq	%rcx, 24(%rdi,%rdx,8)
	addq	$4, %rdx
	cmpq	%rdx, %rax
	jne	19b
20:
	movq	%r14, (%rbx)
	movq	%r9, 8(%rbx)
21:
	addq	$56, %rsp
	popq	%rbx
	popq	%r12
	popq	%r13
	popq	%r14
	popq	%r15
	popq	%rbp
	retq
22:
	.size	"core::slice::sort::short::sort::<#12eb916b83b0f891>", 22b-"core::slice::sort::short::sort::<#12eb916b83b0f891>"

	.text
	.p2align	4
	.type	"core::slice::sort::short::sort::<#196989f31ad14034>",@function
"core::slice::sort::short::sort::<#196989f31ad14034>":
	pushq	%rbp
	pushq	%r15
	pushq	%r14
	pushq	%r13
	pushq	%r12
	pushq	%rbx
	subq	$56, %rsp
	movq	%rdx, %rbx
	cmpq	$16, %rsi
	jae	1f
	movq	%rbx, %rdx
	addq	$56, %rsp
	popq	%rbx
	popq	%r12
	popq	%r13
	popq	%r14
	popq	%r15
	popq	%rbp
	jmp	"core::slice::sort::short::sort_half::<#196989f31ad14034>"
1:
	movq	%rsi, %r15
	shrq	%r15
	leaq	(%rdi,%r15,8), %r12
	movq	%rsi, %r13
	subq	%r15, %r13
	movq	%rdi, %r14
	movq	%rsi, %rbp
	movq	%r15, %rsi
	movq	%rbx, %rdx
	callq	"core::slice::sort::short::sort_half::<#196989f31ad14034>"
	movq	%r12, %rdi
	movq	%r13, %rsi
	movq	%rbx, %rdx
	callq	"core::slice::sort::short::sort_half::<#196989f31ad14034>"
	movq	%rbp, %rax
	movq	%r14, %rdi
	movq	(%rbx), %r14
	movq	8(%rbx), %rcx
	movq	%rcx, 8(%rsp)
	xorps	%xmm0, %xmm0
	movaps	%xmm0, 32(%rsp)
	movaps	%xmm0, 16(%rsp)
	leaq	16(%rsp), %rcx
	leaq	(%rcx,%rbp), %r9
	decq	%r9
	xorl	%ecx, %ecx
	movq	%r15, %rdx
	movq	%r15, %rsi
	movq	%rbp, %r8
	xorl	%r10d, %r10d
	.p2align	4
2:
	movq	%rsi, %r13
	movq	%rdx, %r11
	movq	(%rdi,%rsi,8), %rbp
	movq	(%rdi,%rcx,8), %r12
	movl	56(%r12), %r12d
	movl	56(%rbp), %ebp
	cmpl	%ebp, %r12d
	adcq	$0, %rsi
	cmpl	%ebp, %r12d
	cmovael	%ecx, %r13d
	sbbq	$-1, %rcx
	movb	%r13b, 16(%rsp,%r10)
	movq	-8(%rdi,%r8,8), %r12
	movq	-8(%rdi,%rdx,8), %r13
	movl	56(%r13), %ebp
	movl	56(%r12), %r12d
	cmpl	%r12d, %ebp
	sbbq	$0, %rdx
	cmpl	%r12d, %ebp
	cmovael	%r8d, %r11d
	adcq	$-1, %r8
	decb	%r11b
	movb	%r11b, (%r9)
	incq	%r10
	decq	%r9
	cmpq	%r10, %r15
	jne	2b
	testb	$1, %al
	je	3f
	cmpq	%rdx, %rcx
	movl	%esi, %r9d
	cmovbl	%ecx, %r9d
	movb	%r9b, 16(%rsp,%r15)
3:
	cmpq	%r8, %rsi
	ja	6f
	cmpq	%rdx, %rcx
	ja	6f
	movl	%eax, %edx
	andl	$62, %edx
	xorl	%ecx, %ecx
	.p2align	4
4:
	movzbl	16(%rsp,%rcx), %esi
	movq	(%rdi,%rsi,8), %rsi
	movq	%rsi, (%r14,%rcx,8)
	movzbl	17(%rsp,%rcx), %esi
	movq	(%rdi,%rsi,8), %rsi
	movq	%rsi, 8(%r14,%rcx,8)
	addq	$2, %rcx
	cmpq	%rcx, %rdx
	jne	4b
	testb	$1, %al
	je	5f
	movzbl	16(%rsp,%rcx), %edx
	movq	(%rdi,%rdx,8), %rdx
	movq	%rdx, (%r14,%rcx,8)
5:
	leaq	(,%rax,8), %rdx
	movq	%rdi, %rcx
	subq	%r14, %rcx
	cmpq	%rdx, %rcx
	jae	13f
	cmpq	$32, %rcx
	movq	8(%rsp), %r9
	jae	14f
	xorl	%ecx, %ecx
	jmp	16f
6:
	movl	$1, %ecx
	jmp	10f
7:
	xorl	%esi, %esi
8:
	movq	%rdx, (%rdi,%rsi)
9:
	incq	%rcx
	cmpq	%rax, %rcx
	je	21f
10:
	movq	-8(%rdi,%rcx,8), %r8
	movq	(%rdi,%rcx,8), %rdx
	movl	56(%r8), %esi
	cmpl	56(%rdx), %esi
	jae	9b
	movq	%rcx, %rsi
	movq	%r8, (%rdi,%rcx,8)
	decq	%rsi
	je	7b
	.p2align	4
11:
	movq	-8(%rdi,%rsi,8), %r8
	movl	56(%r8), %r9d
	cmpl	56(%rdx), %r9d
	jae	12f
	movq	%r8, (%rdi,%rsi,8)
	decq	%rsi
	jne	11b
	xorl	%esi, %esi
12:
	shlq	$3, %rsi
	jmp	8b
13:
	movq	%r14, %rsi
	callq	memmove@PLT
	movq	8(%rsp), %r9
	jmp	20f
14:
	movl	%eax, %ecx
	andl	$60, %ecx
	xorl	%edx, %edx
	.p2align	4
15:
	movups	(%r14,%rdx,8), %xmm0
	movups	16(%r14,%rdx,8), %xmm1
	movups	%xmm0, (%rdi,%rdx,8)
	movups	%xmm1, 16(%rdi,%rdx,8)
	addq	$4, %rdx
	cmpq	%rdx, %rcx
	jne	15b
	cmpq	%rcx, %rax
	je	20f
16:
	movq	%rax, %rsi
	movq	%rcx, %rdx
	andq	$3, %rsi
	je	18f
	movq	%rcx, %rdx
	.p2align	4
17:
	movq	(%r14,%rdx,8), %r8
	movq	%r8, (%rdi,%rdx,8)
	incq	%rdx
	decq	%rsi
	jne	17b
18:
	subq	%rax, %rcx
	cmpq	$-4, %rcx
	ja	20f
	.p2align	4
19:
	movq	(%r14,%rdx,8), %rcx
	movq	%rcx, (%rdi,%rdx,8)
	movq	8(%r14,%rdx,8), %rcx
	movq	%rcx, 8(%rdi,%rdx,8)
	movq	16(%r14,%rdx,8), %rcx
	movq	%rcx, 16(%rdi,%rdx,8)
	movq	24(%r14,%rdx,8), %rcx
	movq	%rcx, 24(%rdi,%rdx,8)
	addq	$4, %rdx
	cmpq	%rdx, %rax
	jne	19b
20:
	movq	%r14, (%rbx)
	movq	%r9, 8(%rbx)
21:
	addq	$56, %rsp
	popq	%rbx
	popq	%r12
	popq	%r13
	popq	%r14
	popq	%r15
	popq	%rbp
	retq
22:
	.size	"core::slice::sort::short::sort::<#196989f31ad14034>", 22b-"core::slice::sort::short::sort::<#196989f31ad14034>"

	.text
	.p2align	4
	.type	"core::slice::sort::short::sort::<#32fabb223415b920>",@function
"core::slice::sort::short::sort::<#32fabb223415b920>":
	pushq	%rbp
	pushq	%r15
	pushq	%r14
	pushq	%r13
	pushq	%r12
	pushq	%rbx
	subq	$104, %rsp
	movq	%rdi, %r15
	cmpq	$15, %rsi
	ja	1f
	movq	%r15, %rdi
	addq	$104, %rsp
	popq	%rbx
	popq	%r12
	popq	%r13
	popq	%r14
	popq	%r15
	popq	%rbp
	jmp	"core::slice::sort::short::sort_half::<#32fabb223415b920>"
1:
	movq	%rsi, %r14
	shrq	%r14
	leaq	(%r14,%r14,4), %rax
	movq	%rsi, %r12
	leaq	(%r15,%rax,8), %r13
	movq	%rsi, %rbp
	subq	%r14, %rbp
	movq	%r15, %rdi
	movq	%r14, %rsi
	movq	%rdx, %rbx
	callq	"core::slice::sort::short::sort_half::<#32fabb223415b920>"
	movq	%r13, %rdi
	movq	%rbp, %rsi
	movq	%rbx, %rdx
	callq	"core::slice::sort::short::sort_half::<#32fabb223415b920>"
	movq	(%rbx), %rax
	movq	%rax, 32(%rsp)
	movq	%rbx, 40(%rsp)
	movq	8(%rbx), %rax
	movq	%rax, 24(%rsp)
	xorps	%xmm0, %xmm0
	movaps	%xmm0, 80(%rsp)
	movaps	%xmm0, 64(%rsp)
	leaq	64(%rsp), %rax
	leaq	(%r12,%rax), %rdx
	decq	%rdx
	xorl	%edi, %edi
	movq	%r14, %r13
	movq	%r14, 8(%rsp)
	movq	%r12, 48(%rsp)
	movq	%r12, %rbp
	xorl	%r12d, %r12d
	jmp	4f
	.p2align	4
2:
	movq	%rdi, 56(%rsp)
	movq	-32(%r15,%rax), %rdi
	movq	-24(%r15,%rax), %rsi
	movq	-32(%r15,%rcx), %rdx
	movq	-24(%r15,%rcx), %rcx
	callq	"core::cmp::slices::RefSliceOrd::cmp::<#914af4d8504a0b72>"
	movq	56(%rsp), %rdi
	testb	%al, %al
	sete	%al
3:
	movq	16(%rsp), %rdx
	movzbl	%bl, %ecx
	addq	%rcx, %r14
	xorb	$1, %bl
	movzbl	%bl, %ecx
	addq	%rcx, %rdi
	testb	%al, %al
	movl	%ebp, %ecx
	cmovnel	%r13d, %ecx
	decb	%cl
	movb	%cl, (%rdx)
	movzbl	%al, %eax
	subq	%rax, %r13
	xorb	$1, %al
	movzbl	%al, %eax
	subq	%rax, %rbp
	incq	%r12
	decq	%rdx
	cmpq	%r12, 8(%rsp)
	je	7f
4:
	movq	%rdx, 16(%rsp)
	leaq	(,%r14,8), %rax
	leaq	(%rax,%rax,4), %rax
	leaq	(,%rdi,8), %rcx
	leaq	(%rcx,%rcx,4), %rcx
	movq	(%r15,%rax), %rdx
	movq	(%r15,%rcx), %rsi
	cmpq	%rsi, %rdx
	jne	5f
	movq	%rdi, %rbx
	movq	8(%r15,%rax), %rdi
	movq	16(%r15,%rax), %rsi
	movq	8(%r15,%rcx), %rdx
	movq	16(%r15,%rcx), %rcx
	callq	"core::cmp::slices::RefSliceOrd::cmp::<#914af4d8504a0b72>"
	movq	%rbx, %rdi
	testb	%al, %al
	sete	%bl
	jmp	6f
	.p2align	4
5:
	bswapq	%rsi
	bswapq	%rdx
	cmpq	%rsi, %rdx
	setb	%bl
6:
	testb	%bl, %bl
	movl	%edi, %eax
	cmovnel	%r14d, %eax
	movb	%al, 64(%rsp,%r12)
	leaq	(,%rbp,8), %rax
	leaq	(%rax,%rax,4), %rax
	leaq	(,%r13,8), %rcx
	leaq	(%rcx,%rcx,4), %rcx
	movq	-40(%r15,%rax), %rdx
	movq	-40(%r15,%rcx), %rsi
	cmpq	%rsi, %rdx
	je	2b
	bswapq	%rsi
	bswapq	%rdx
	cmpq	%rsi, %rdx
	setb	%al
	jmp	3b
7:
	movq	48(%rsp), %rsi
	testb	$1, %sil
	je	8f
	cmpq	%r13, %rdi
	movl	%r14d, %eax
	cmovbl	%edi, %eax
	movq	8(%rsp), %rcx
	movb	%al, 64(%rsp,%rcx)
8:
	cmpq	%rbp, %r14
	ja	14f
	cmpq	%r13, %rdi
	ja	14f
	movl	%esi, %ecx
	andl	$3, %ecx
	leaq	(,%rsi,8), %rax
	movq	%rax, %rdx
	andq	$-32, %rdx
	leaq	(%rdx,%rdx,4), %r8
	xorl	%edx, %edx
	movq	32(%rsp), %r14
	leaq	64(%rsp), %r9
	.p2align	4
9:
	movzbl	(%r9), %edi
	leaq	(%rdi,%rdi,4), %rdi
	movups	(%r15,%rdi,8), %xmm0
	movups	16(%r15,%rdi,8), %xmm1
	movq	32(%r15,%rdi,8), %rdi
	movq	%rdi, 32(%r14,%rdx)
	movups	%xmm1, 16(%r14,%rdx)
	movups	%xmm0, (%r14,%rdx)
	movzbl	1(%r9), %edi
	leaq	(%rdi,%rdi,4), %rdi
	movups	(%r15,%rdi,8), %xmm0
	movups	16(%r15,%rdi,8), %xmm1
	movq	32(%r15,%rdi,8), %rdi
	movq	%rdi, 72(%r14,%rdx)
	movups	%xmm1, 56(%r14,%rdx)
	movups	%xmm0, 40(%r14,%rdx)
	movzbl	2(%r9), %edi
	leaq	(%rdi,%rdi,4), %rdi
	movups	(%r15,%rdi,8), %xmm0
	movups	16(%r15,%rdi,8), %xmm1
	movq	32(%r15,%rdi,8), %rdi
	movq	%rdi, 112(%r14,%rdx)
	movups	%xmm1, 96(%r14,%rdx)
	movups	%xmm0, 80(%r14,%rdx)
	movzbl	3(%r9), %edi
	leaq	(%rdi,%rdi,4), %rdi
	movups	(%r15,%rdi,8), %xmm0
	movups	16(%r15,%rdi,8), %xmm1
	movq	32(%r15,%rdi,8), %rdi
	movq	%rdi, 152(%r14,%rdx)
	movups	%xmm1, 136(%r14,%rdx)
	movups	%xmm0, 120(%r14,%rdx)
	addq	$4, %r9
	addq	$160, %rdx
	cmpq	%rdx, %r8
	jne	9b
	testq	%rcx, %rcx
	movq	40(%rsp), %rbx
	je	11f
	addq	%r14, %rdx
	.p2align	4
10:
	movzbl	(%r9), %edi
	leaq	(%rdi,%rdi,4), %rdi
	movups	(%r15,%rdi,8), %xmm0
	movups	16(%r15,%rdi,8), %xmm1
	movq	32(%r15,%rdi,8), %rdi
	movq	%rdi, 32(%rdx)
	movups	%xmm1, 16(%rdx)
	movups	%xmm0, (%rdx)
	addq	$40, %rdx
	incq	%r9
	decq	%rcx
	jne	10b
11:
	leaq	(%rax,%rax,4), %rdx
	movq	%r15, %rcx
	subq	%r14, %rcx
	cmpq	%rdx, %rcx
	jae	15f
	andl	$7, %esi
	andq	$-64, %rax
	leaq	(%rax,%rax,4), %rcx
	xorl	%eax, %eax
	.p2align	4
12:
	movups	(%r14,%rax), %xmm0
	movups	16(%r14,%rax), %xmm1
	movq	32(%r14,%rax), %rdx
	movq	%rdx, 32(%r15,%rax)
	movups	%xmm1, 16(%r15,%rax)
	movups	%xmm0, (%r15,%rax)
	movups	40(%r14,%rax), %xmm0
	movups	56(%r14,%rax), %xmm1
	movq	72(%r14,%rax), %rdx
	movq	%rdx, 72(%r15,%rax)
	movups	%xmm1, 56(%r15,%rax)
	movups	%xmm0, 40(%r15,%rax)
	movups	80(%r14,%rax), %xmm0
	movups	96(%r14,%rax), %xmm1
	movq	112(%r14,%rax), %rdx
	movq	%rdx, 112(%r15,%rax)
	movups	%xmm1, 96(%r15,%rax)
	movups	%xmm0, 80(%r15,%rax)
	movups	120(%r14,%rax), %xmm0
	movups	136(%r14,%rax), %xmm1
	movq	152(%r14,%rax), %rdx
	movq	%rdx, 152(%r15,%rax)
	movups	%xmm1, 136(%r15,%rax)
	movups	%xmm0, 120(%r15,%rax)
	movups	160(%r14,%rax), %xmm0
	movups	176(%r14,%rax), %xmm1
	movq	192(%r14,%rax), %rdx
	movq	%rdx, 192(%r15,%rax)
	movups	%xmm1, 176(%r15,%rax)
	movups	%xmm0, 160(%r15,%rax)
	movups	200(%r14,%rax), %xmm0
	movups	216(%r14,%rax), %xmm1
	movq	232(%r14,%rax), %rdx
	movq	%rdx, 232(%r15,%rax)
	movups	%xmm1, 216(%r15,%rax)
	movups	%xmm0, 200(%r15,%rax)
	movups	240(%r14,%rax), %xmm0
	movups	256(%r14,%rax), %xmm1
	movq	272(%r14,%rax), %rdx
	movq	%rdx, 272(%r15,%rax)
	movups	%xmm1, 256(%r15,%rax)
	movups	%xmm0, 240(%r15,%rax)
	movups	280(%r14,%rax), %xmm0
	movups	296(%r14,%rax), %xmm1
	movq	312(%r14,%rax), %rdx
	movq	%rdx, 312(%r15,%rax)
	movups	%xmm1, 296(%r15,%rax)
	movups	%xmm0, 280(%r15,%rax)
	addq	$320, %rax
	cmpq	%rax, %rcx
	jne	12b
	testq	%rsi, %rsi
	je	16f
	.p2align	4
13:
	movups	(%r14,%rax), %xmm0
	movups	16(%r14,%rax), %xmm1
	movq	32(%r14,%rax), %rcx
	movq	%rcx, 32(%r15,%rax)
	movups	%xmm1, 16(%r15,%rax)
	movups	%xmm0, (%r15,%rax)
	addq	$40, %rax
	decq	%rsi
	jne	13b
	jmp	16f
14:
	movl	$1, %edx
	movq	%r15, %rdi
	addq	$104, %rsp
	popq	%rbx
	popq	%r12
	popq	%r13
	popq	%r14
	popq	%r15
	popq	%rbp
	jmp	"core::slice::sort::small::insert_from::<#32fabb223415b920>"
15:
	movq	%r15, %rdi
	movq	%r14, %rsi
	callq	memmove@PLT
16:
	movq	%r14, (%rbx)
	movq	24(%rsp), %rax
	movq	%rax, 8(%rbx)
	addq	$104, %rsp
	popq	%rbx
	popq	%r12
	popq	%r13
	popq	%r14
	popq	%r15
	popq	%rbp
	retq
17:
	.size	"core::slice::sort::short::sort::<#32fabb223415b920>", 17b-"core::slice::sort::short::sort::<#32fabb223415b920>"

	.text
	.p2align	4
	.type	"core::slice::sort::short::sort::<#54047240e3f04dbb>",@function
"core::slice::sort::short::sort::<#54047240e3f04dbb>":
	cmpq	$16, %rsi
	jb	"core::slice::sort::short::sort_half::<#54047240e3f04dbb>"
	pushq	%rbp
	pushq	%r15
	pushq	%r14
	pushq	%r13
	pushq	%r12
	pushq	%rbx
	subq	$120, %rsp
	movq	%rsi, %r15
	shrq	%r15
	leaq	(%r15,%r15,4), %r12
	shlq	$4, %r12
	addq	%rdi, %r12
	movq	%rsi, %r13
	subq	%r15, %r13
	movq	%rdi, %r14
	movq	%rsi, %rbp
	movq	%r15, %rsi
	movq	%rdx, %rbx
	callq	"core::slice::sort::short::sort_half::<#54047240e3f04dbb>"
	movq	%r12, %rdi
	movq	%r13, %rsi
	movq	%rbx, %rdx
	callq	"core::slice::sort::short::sort_half::<#54047240e3f04dbb>"
	movq	%rbp, %rax
	movq	%r14, %rdi
	movq	(%rbx), %r14
	movq	%rbx, 112(%rsp)
	movq	8(%rbx), %rcx
	movq	%rcx, 40(%rsp)
	xorps	%xmm0, %xmm0
	movaps	%xmm0, 96(%rsp)
	movaps	%xmm0, 80(%rsp)
	leaq	80(%rsp), %rcx
	leaq	(%rcx,%rbp), %r10
	decq	%r10
	xorl	%edx, %edx
	movq	%r15, %rsi
	movq	%r15, %r8
	movq	%rbp, %r9
	xorl	%r11d, %r11d
	.p2align	4
1:
	movq	%r8, %rbp
	leaq	(%r8,%r8,4), %r13
	shlq	$4, %r13
	leaq	(%rdx,%rdx,4), %r12
	shlq	$4, %r12
	movl	(%rdi,%r12), %r12d
	movl	(%rdi,%r13), %ebx
	cmpl	%ebx, %r12d
	adcq	$0, %r8
	movq	%rsi, %r13
	cmpl	%ebx, %r12d
	cmovael	%edx, %ebp
	movb	%bpl, 80(%rsp,%r11)
	sbbq	$-1, %rdx
	leaq	(%r9,%r9,4), %rbx
	shlq	$4, %rbx
	leaq	(%rsi,%rsi,4), %r12
	shlq	$4, %r12
	movl	-80(%rdi,%r12), %ebp
	movl	-80(%rdi,%rbx), %ebx
	cmpl	%ebx, %ebp
	sbbq	$0, %rsi
	cmpl	%ebx, %ebp
	cmovael	%r9d, %r13d
	adcq	$-1, %r9
	decb	%r13b
	movb	%r13b, (%r10)
	incq	%r11
	decq	%r10
	cmpq	%r11, %r15
	jne	1b
	testb	$1, %al
	je	2f
	cmpq	%rsi, %rdx
	movl	%r8d, %r10d
	cmovbl	%edx, %r10d
	movb	%r10b, 80(%rsp,%r15)
2:
	cmpq	%r9, %r8
	ja	5f
	cmpq	%rsi, %rdx
	ja	5f
	shlq	$4, %rax
	leaq	(%rax,%rax,4), %rdx
	xorl	%eax, %eax
	.p2align	4
3:
	movzbl	(%rcx), %esi
	leaq	(%rsi,%rsi,4), %rsi
	shll	$4, %esi
	movl	(%rdi,%rsi), %r8d
	movzbl	8(%rdi,%rsi), %r9d
	movq	48(%rdi,%rsi), %r10
	movq	%r10, 32(%rsp)
	movups	16(%rdi,%rsi), %xmm0
	movups	32(%rdi,%rsi), %xmm1
	movaps	%xmm1, 16(%rsp)
	movaps	%xmm0, (%rsp)
	movq	72(%rdi,%rsi), %r10
	movq	%r10, 64(%rsp)
	movups	56(%rdi,%rsi), %xmm0
	movaps	%xmm0, 48(%rsp)
	movl	%r8d, (%r14,%rax)
	movq	%r9, 8(%r14,%rax)
	movaps	(%rsp), %xmm0
	movaps	16(%rsp), %xmm1
	movups	%xmm0, 16(%r14,%rax)
	movups	%xmm1, 32(%r14,%rax)
	movq	32(%rsp), %rsi
	movq	%rsi, 48(%r14,%rax)
	movaps	48(%rsp), %xmm0
	movups	%xmm0, 56(%r14,%rax)
	movq	64(%rsp), %rsi
	movq	%rsi, 72(%r14,%rax)
	addq	$80, %rax
	incq	%rcx
	cmpq	%rax, %rdx
	jne	3b
	movq	%rdi, %rax
	subq	%r14, %rax
	cmpq	%rdx, %rax
	movq	112(%rsp), %rbx
	jae	12f
	xorl	%eax, %eax
	movq	40(%rsp), %r9
	.p2align	4
4:
	movl	(%r14,%rax), %ecx
	movzbl	8(%r14,%rax), %esi
	movq	48(%r14,%rax), %r8
	movq	%r8, 32(%rsp)
	movups	32(%r14,%rax), %xmm0
	movaps	%xmm0, 16(%rsp)
	movups	16(%r14,%rax), %xmm0
	movaps	%xmm0, (%rsp)
	movq	72(%r14,%rax), %r8
	movq	%r8, 64(%rsp)
	movups	56(%r14,%rax), %xmm0
	movaps	%xmm0, 48(%rsp)
	movl	%ecx, (%rdi,%rax)
	movq	%rsi, 8(%rdi,%rax)
	movaps	(%rsp), %xmm0
	movaps	16(%rsp), %xmm1
	movups	%xmm0, 16(%rdi,%rax)
	movups	%xmm1, 32(%rdi,%rax)
	movq	32(%rsp), %rcx
	movq	%rcx, 48(%rdi,%rax)
	movaps	48(%rsp), %xmm0
	movups	%xmm0, 56(%rdi,%rax)
	movq	64(%rsp), %rcx
	movq	%rcx, 72(%rdi,%rax)
	addq	$80, %rax
	cmpq	%rax, %rdx
	jne	4b
	jmp	13f
5:
	movl	$1, %ecx
	movq	%rdi, %rdx
	jmp	9f
6:
	xorl	%r9d, %r9d
7:
	movl	%esi, (%rdi,%r9)
	movq	%r8, 8(%rdi,%r9)
	movaps	(%rsp), %xmm0
	movaps	16(%rsp), %xmm1
	movups	%xmm0, 16(%rdi,%r9)
	movups	%xmm1, 32(%rdi,%r9)
	movq	32(%rsp), %rsi
	movq	%rsi, 48(%rdi,%r9)
	movaps	80(%rsp), %xmm0
	movups	%xmm0, 56(%rdi,%r9)
	movq	96(%rsp), %rsi
	movq	%rsi, 72(%rdi,%r9)
8:
	incq	%rcx
	addq	$80, %rdx
	cmpq	%rax, %rcx
	je	14f
9:
	leaq	(%rcx,%rcx,4), %r8
	shlq	$4, %r8
	movl	-80(%rdi,%r8), %r10d
	movl	(%rdi,%r8), %esi
	cmpl	%esi, %r10d
	jae	8b
	leaq	(%rdi,%r8), %r11
	movq	%rcx, %r9
	leaq	(%rdi,%r8), %rbx
	addq	$-80, %rbx
	movzbl	8(%r11), %r8d
	movq	48(%r11), %r14
	movq	%r14, 32(%rsp)
	movups	16(%r11), %xmm0
	movups	32(%r11), %xmm1
	movaps	%xmm1, 16(%rsp)
	movaps	%xmm0, (%rsp)
	movups	56(%r11), %xmm0
	movaps	%xmm0, 80(%rsp)
	movq	72(%r11), %r14
	movq	%r14, 96(%rsp)
	movzbl	8(%rbx), %r14d
	movl	%r10d, (%r11)
	movq	%r14, 8(%r11)
	movq	48(%rbx), %r10
	movq	%r10, 48(%r11)
	movups	16(%rbx), %xmm0
	movups	32(%rbx), %xmm1
	movups	%xmm1, 32(%r11)
	movups	%xmm0, 16(%r11)
	movq	72(%rbx), %r10
	movq	%r10, 72(%r11)
	movups	56(%rbx), %xmm0
	movups	%xmm0, 56(%r11)
	decq	%r9
	je	6b
	movq	%rdx, %r10
	.p2align	4
10:
	movl	-80(%r10), %r11d
	cmpl	%esi, %r11d
	jae	11f
	decq	%r9
	movzbl	-72(%r10), %ebx
	movl	%r11d, (%r10)
	movq	%rbx, 8(%r10)
	movups	-64(%r10), %xmm0
	movups	-48(%r10), %xmm1
	movups	%xmm0, 16(%r10)
	movups	%xmm1, 32(%r10)
	movq	-32(%r10), %r11
	movq	%r11, 48(%r10)
	movups	-24(%r10), %xmm0
	movups	%xmm0, 56(%r10)
	movq	-8(%r10), %r11
	movq	%r11, 72(%r10)
	addq	$-80, %r10
	testq	%r9, %r9
	jne	10b
	xorl	%r9d, %r9d
11:
	shlq	$4, %r9
	leaq	(%r9,%r9,4), %r9
	jmp	7b
12:
	movq	%r14, %rsi
	callq	memmove@PLT
	movq	40(%rsp), %r9
13:
	movq	%r14, (%rbx)
	movq	%r9, 8(%rbx)
14:
	addq	$120, %rsp
	popq	%rbx
	popq	%r12
	popq	%r13
	popq	%r14
	popq	%r15
	popq	%rbp
	retq
15:
	.size	"core::slice::sort::short::sort::<#54047240e3f04dbb>", 15b-"core::slice::sort::short::sort::<#54047240e3f04dbb>"

	.text
	.p2align	4
	.type	"core::slice::sort::short::sort::<#b4bd7111e818b46c>",@function
"core::slice::sort::short::sort::<#b4bd7111e818b46c>":
	pushq	%rbp
	pushq	%r15
	pushq	%r14
	pushq	%r13
	pushq	%r12
	pushq	%rbx
	subq	$120, %rsp
	cmpq	$15, %rsi
	ja	1f
	addq	$120, %rsp
	popq	%rbx
	popq	%r12
	popq	%r13
	popq	%r14
	popq	%r15
	popq	%rbp
	jmp	"core::slice::sort::short::sort_half::<#b4bd7111e818b46c>"
1:
	movq	%rsi, %r13
	shrq	%r13
	movq	%r13, %rbx
	shlq	$5, %rbx
	addq	%rdi, %rbx
	movq	%rsi, %rbp
	subq	%r13, %rbp
	movq	%rsi, %r12
	movq	%r13, %rsi
	movq	%rdi, 16(%rsp)
	movq	%rdx, %r14
	callq	"core::slice::sort::short::sort_half::<#b4bd7111e818b46c>"
	movq	%rbx, %rdi
	movq	%rbp, %rsi
	movq	%r14, %rdx
	callq	"core::slice::sort::short::sort_half::<#b4bd7111e818b46c>"
	movq	(%r14), %rax
	movq	%rax, 40(%rsp)
	movq	%r14, 48(%rsp)
	movq	8(%r14), %rax
	movq	%rax, 32(%rsp)
	xorps	%xmm0, %xmm0
	movaps	%xmm0, 96(%rsp)
	movaps	%xmm0, 80(%rsp)
	leaq	80(%rsp), %rax
	addq	%r12, %rax
	decq	%rax
	xorl	%r15d, %r15d
	movq	%r13, 8(%rsp)
	movq	%r13, %r14
	movq	%r12, 56(%rsp)
	xorl	%ebp, %ebp
	movq	%r13, 64(%rsp)
	.p2align	4
2:
	movq	%rax, 24(%rsp)
	movq	%r12, 72(%rsp)
	movq	%r14, %r13
	movq	%r15, %r12
	movq	%r14, %rax
	shlq	$5, %rax
	movq	%r15, %rcx
	shlq	$5, %rcx
	movq	16(%rsp), %rbx
	movq	(%rbx,%rax), %rdi
	movq	8(%rbx,%rax), %rsi
	movq	(%rbx,%rcx), %rdx
	movq	8(%rbx,%rcx), %rcx
	callq	"core::cmp::slices::RefSliceOrd::cmp::<#914af4d8504a0b72>"
	xorl	%r15d, %r15d
	xorl	%r14d, %r14d
	testb	%al, %al
	setne	%r15b
	movl	%r12d, %eax
	cmovel	%r13d, %eax
	sete	%r14b
	movb	%al, 80(%rsp,%rbp)
	addq	%r13, %r14
	addq	%r12, %r15
	movq	72(%rsp), %r12
	movq	%r12, %rax
	shlq	$5, %rax
	movq	8(%rsp), %r13
	movq	%r13, %rcx
	shlq	$5, %rcx
	movq	-32(%rbx,%rax), %rdi
	movq	-24(%rbx,%rax), %rsi
	movq	-32(%rbx,%rcx), %rdx
	movq	-24(%rbx,%rcx), %rcx
	callq	"core::cmp::slices::RefSliceOrd::cmp::<#914af4d8504a0b72>"
	xorl	%ecx, %ecx
	xorl	%edx, %edx
	testb	%al, %al
	setne	%cl
	movl	%r12d, %eax
	cmovel	%r13d, %eax
	sete	%dl
	decb	%al
	movq	24(%rsp), %rsi
	movb	%al, (%rsi)
	movq	24(%rsp), %rax
	subq	%rdx, %r13
	movq	%r13, 8(%rsp)
	subq	%rcx, %r12
	incq	%rbp
	decq	%rax
	movq	64(%rsp), %rcx
	cmpq	%rbp, %rcx
	jne	2b
	movq	%rcx, %rdx
	movq	16(%rsp), %rdi
	movq	56(%rsp), %rsi
	testb	$1, %sil
	movq	8(%rsp), %rcx
	je	3f
	cmpq	%rcx, %r15
	movl	%r14d, %eax
	cmovbl	%r15d, %eax
	movb	%al, 80(%rsp,%rdx)
3:
	cmpq	%r12, %r14
	ja	9f
	cmpq	%rcx, %r15
	ja	9f
	movl	%esi, %eax
	andl	$3, %eax
	movl	%esi, %edx
	andl	$60, %edx
	movq	40(%rsp), %r14
	movq	%r14, %rcx
	leaq	80(%rsp), %r9
	.p2align	4
4:
	movzbl	(%r9), %r8d
	shll	$5, %r8d
	movups	(%rdi,%r8), %xmm0
	movups	16(%rdi,%r8), %xmm1
	movups	%xmm1, 16(%rcx)
	movups	%xmm0, (%rcx)
	movzbl	1(%r9), %r8d
	shll	$5, %r8d
	movups	(%rdi,%r8), %xmm0
	movups	16(%rdi,%r8), %xmm1
	movups	%xmm1, 48(%rcx)
	movups	%xmm0, 32(%rcx)
	movzbl	2(%r9), %r8d
	shll	$5, %r8d
	movups	(%rdi,%r8), %xmm0
	movups	16(%rdi,%r8), %xmm1
	movups	%xmm1, 80(%rcx)
	movups	%xmm0, 64(%rcx)
	movzbl	3(%r9), %r8d
	shll	$5, %r8d
	movups	(%rdi,%r8), %xmm0
	movups	16(%rdi,%r8), %xmm1
	movups	%xmm1, 112(%rcx)
	movups	%xmm0, 96(%rcx)
	addq	$4, %r9
	subq	$-128, %rcx
	addq	$-4, %rdx
	jne	4b
	testq	%rax, %rax
	movq	48(%rsp), %rbx
	je	6f
	.p2align	4
5:
	movzbl	(%r9), %edx
	shll	$5, %edx
	movups	(%rdi,%rdx), %xmm0
	movups	16(%rdi,%rdx), %xmm1
	movups	%xmm1, 16(%rcx)
	movups	%xmm0, (%rcx)
	addq	$32, %rcx
	incq	%r9
	decq	%rax
	jne	5b
6:
	movq	%rsi, %rdx
	shlq	$5, %rdx
	movq	%rdi, %rax
	subq	%r14, %rax
	cmpq	%rdx, %rax
	jae	10f
	movl	%esi, %eax
	andl	$7, %eax
	andl	$56, %esi
	leaq	224(%rdi), %rdx
	leaq	224(%r14), %r8
	xorl	%ecx, %ecx
	.p2align	4
7:
	movups	-224(%r8,%rcx), %xmm0
	movups	-208(%r8,%rcx), %xmm1
	movups	%xmm1, -208(%rdx,%rcx)
	movups	%xmm0, -224(%rdx,%rcx)
	movups	-192(%r8,%rcx), %xmm0
	movups	-176(%r8,%rcx), %xmm1
	movups	%xmm1, -176(%rdx,%rcx)
	movups	%xmm0, -192(%rdx,%rcx)
	movups	-160(%r8,%rcx), %xmm0
	movups	-144(%r8,%rcx), %xmm1
	movups	%xmm1, -144(%rdx,%rcx)
	movups	%xmm0, -160(%rdx,%rcx)
	movups	-128(%r8,%rcx), %xmm0
	movups	-112(%r8,%rcx), %xmm1
	movups	%xmm1, -112(%rdx,%rcx)
	movups	%xmm0, -128(%rdx,%rcx)
	movups	-96(%r8,%rcx), %xmm0
	movups	-80(%r8,%rcx), %xmm1
	movups	%xmm1, -80(%rdx,%rcx)
	movups	%xmm0, -96(%rdx,%rcx)
	movups	-64(%r8,%rcx), %xmm0
	movups	-48(%r8,%rcx), %xmm1
	movups	%xmm1, -48(%rdx,%rcx)
	movups	%xmm0, -64(%rdx,%rcx)
	movups	-32(%r8,%rcx), %xmm0
	movups	-16(%r8,%rcx), %xmm1
	movups	%xmm1, -16(%rdx,%rcx)
	movups	%xmm0, -32(%rdx,%rcx)
	movups	(%r8,%rcx), %xmm0
	movups	16(%r8,%rcx), %xmm1
	movups	%xmm1, 16(%rdx,%rcx)
	movups	%xmm0, (%rdx,%rcx)
	addq	$256, %rcx
	addq	$-8, %rsi
	jne	7b
	testq	%rax, %rax
	je	11f
	.p2align	4
8:
	movups	(%r14,%rcx), %xmm0
	movups	16(%r14,%rcx), %xmm1
	movups	%xmm1, 16(%rdi,%rcx)
	movups	%xmm0, (%rdi,%rcx)
	addq	$32, %rcx
	decq	%rax
	jne	8b
	jmp	11f
9:
	movl	$1, %edx
	addq	$120, %rsp
	popq	%rbx
	popq	%r12
	popq	%r13
	popq	%r14
	popq	%r15
	popq	%rbp
	jmp	"core::slice::sort::small::insert_from::<#b4bd7111e818b46c>"
10:
	movq	%r14, %rsi
	callq	memmove@PLT
11:
	movq	%r14, (%rbx)
	movq	32(%rsp), %rax
	movq	%rax, 8(%rbx)
	addq	$120, %rsp
	popq	%rbx
	popq	%r12
	popq	%r13
	popq	%r14
	popq	%r15
	popq	%rbp
	retq
12:
	.size	"core::slice::sort::short::sort::<#b4bd7111e818b46c>", 12b-"core::slice::sort::short::sort::<#b4bd7111e818b46c>"

	.text
	.p2align	4
	.type	"core::slice::sort::short::sort::<#f98e8d76978ecc20>",@function
"core::slice::sort::short::sort::<#f98e8d76978ecc20>":
	pushq	%rbp
	pushq	%r15
	pushq	%r14
	pushq	%r13
	pushq	%r12
	pushq	%rbx
	subq	$104, %rsp
	cmpq	$15, %rsi
	ja	1f
	addq	$104, %rsp
	popq	%rbx
	popq	%r12
	popq	%r13
	popq	%r14
	popq	%r15
	popq	%rbp
	jmp	"core::slice::sort::short::sort_half::<#f98e8d76978ecc20>"
1:
	movq	%rsi, %r15
	shrq	%r15
	movq	%r15, %r12
	shlq	$5, %r12
	addq	%rdi, %r12
	movq	%rsi, %rbp
	subq	%r15, %rbp
	movq	%rsi, %r14
	movq	%r15, %rsi
	movq	%rdx, %rbx
	movq	%rdi, 8(%rsp)
	callq	"core::slice::sort::short::sort_half::<#f98e8d76978ecc20>"
	movq	%r12, %rdi
	movq	%rbp, %rsi
	movq	%rbx, %rdx
	callq	"core::slice::sort::short::sort_half::<#f98e8d76978ecc20>"
	movq	8(%rsp), %r11
	movq	(%rbx), %rax
	movq	%rax, 32(%rsp)
	movq	%rbx, 40(%rsp)
	movq	8(%rbx), %rax
	movq	%rax, 24(%rsp)
	leaq	64(%rsp,%r14), %rax
	movq	%rax, 56(%rsp)
	xorps	%xmm0, %xmm0
	movaps	%xmm0, 80(%rsp)
	movaps	%xmm0, 64(%rsp)
	xorl	%ebp, %ebp
	movq	%r15, %r13
	movq	%r15, 16(%rsp)
	movq	%r14, 48(%rsp)
	movq	%r14, %r12
	xorl	%ebx, %ebx
	jmp	4f
	.p2align	4
2:
	bswapq	%r10
	bswapq	%r9
	cmpq	%r10, %r9
	setb	%al
3:
	movzbl	%r14b, %ecx
	addq	%rcx, %r15
	xorb	$1, %r14b
	movzbl	%r14b, %ecx
	addq	%rcx, %rbp
	testb	%al, %al
	movl	%r12d, %ecx
	cmovnel	%r13d, %ecx
	decb	%cl
	movq	%rbx, %rdx
	notq	%rdx
	movq	56(%rsp), %rsi
	movb	%cl, (%rsi,%rdx)
	movzbl	%al, %eax
	subq	%rax, %r13
	xorb	$1, %al
	movzbl	%al, %eax
	subq	%rax, %r12
	incq	%rbx
	cmpq	16(%rsp), %rbx
	je	13f
4:
	movq	%r15, %rax
	shlq	$5, %rax
	movq	%rbp, %rcx
	shlq	$5, %rcx
	movq	(%r11,%rax), %rdi
	movq	8(%r11,%rax), %rsi
	movq	(%r11,%rcx), %rdx
	movq	8(%r11,%rcx), %rcx
	cmpq	%rsi, %rcx
	movq	%rsi, %rax
	cmovbq	%rcx, %rax
	cmpq	$24, %rax
	movl	$24, %r8d
	cmovbq	%rax, %r8
	cmpq	$8, %rax
	jb	6f
	xorl	%eax, %eax
	.p2align	4
5:
	movq	(%rdi,%rax), %r9
	movq	(%rdx,%rax), %r10
	cmpq	%r10, %r9
	jne	8f
	addq	$8, %rax
	addq	$-8, %r8
	cmpq	$7, %r8
	ja	5b
	jmp	7f
	.p2align	4
6:
	xorl	%eax, %eax
7:
	addq	%rax, %rdi
	subq	%rax, %rsi
	addq	%rax, %rdx
	subq	%rax, %rcx
	callq	"core::cmp::slices::RefSliceOrd::cmp::<#914af4d8504a0b72>"
	movq	8(%rsp), %r11
	testb	%al, %al
	sete	%r14b
	jmp	9f
	.p2align	4
8:
	bswapq	%r10
	bswapq	%r9
	cmpq	%r10, %r9
	setb	%r14b
9:
	testb	%r14b, %r14b
	movl	%ebp, %eax
	cmovnel	%r15d, %eax
	movb	%al, 64(%rsp,%rbx)
	movq	%r12, %rax
	shlq	$5, %rax
	movq	%r13, %rcx
	shlq	$5, %rcx
	movq	-32(%r11,%rax), %rdi
	movq	-24(%r11,%rax), %rsi
	movq	-32(%r11,%rcx), %rdx
	movq	-24(%r11,%rcx), %rcx
	cmpq	%rsi, %rcx
	movq	%rsi, %rax
	cmovbq	%rcx, %rax
	cmpq	$24, %rax
	movl	$24, %r8d
	cmovbq	%rax, %r8
	cmpq	$8, %rax
	jb	11f
	xorl	%eax, %eax
	.p2align	4
10:
	movq	(%rdi,%rax), %r9
	movq	(%rdx,%rax), %r10
	cmpq	%r10, %r9
	jne	2b
	addq	$8, %rax
	addq	$-8, %r8
	cmpq	$7, %r8
	ja	10b
	jmp	12f
	.p2align	4
11:
	xorl	%eax, %eax
12:
	addq	%rax, %rdi
	subq	%rax, %rsi
	addq	%rax, %rdx
	subq	%rax, %rcx
	callq	"core::cmp::slices::RefSliceOrd::cmp::<#914af4d8504a0b72>"
	movq	8(%rsp), %r11
	testb	%al, %al
	sete	%al
	jmp	3b
13:
	movq	48(%rsp), %rsi
	testb	$1, %sil
	je	14f
	cmpq	%r13, %rbp
	movl	%r15d, %eax
	cmovbl	%ebp, %eax
	movq	16(%rsp), %rcx
	movb	%al, 64(%rsp,%rcx)
14:
	cmpq	%r12, %r15
	ja	20f
	cmpq	%r13, %rbp
	ja	20f
	movl	%esi, %eax
	andl	$3, %eax
	movl	%esi, %r8d
	andl	$60, %r8d
	leaq	64(%rsp), %rcx
	movq	32(%rsp), %r14
	movq	%r14, %rdx
	.p2align	4
15:
	movzbl	(%rcx), %edi
	shll	$5, %edi
	movups	(%r11,%rdi), %xmm0
	movups	16(%r11,%rdi), %xmm1
	movups	%xmm1, 16(%rdx)
	movups	%xmm0, (%rdx)
	movzbl	1(%rcx), %edi
	shll	$5, %edi
	movups	(%r11,%rdi), %xmm0
	movups	16(%r11,%rdi), %xmm1
	movups	%xmm1, 48(%rdx)
	movups	%xmm0, 32(%rdx)
	movzbl	2(%rcx), %edi
	shll	$5, %edi
	movups	(%r11,%rdi), %xmm0
	movups	16(%r11,%rdi), %xmm1
	movups	%xmm1, 80(%rdx)
	movups	%xmm0, 64(%rdx)
	movzbl	3(%rcx), %edi
	shll	$5, %edi
	movups	(%r11,%rdi), %xmm0
	movups	16(%r11,%rdi), %xmm1
	movups	%xmm1, 112(%rdx)
	movups	%xmm0, 96(%rdx)
	addq	$4, %rcx
	subq	$-128, %rdx
	addq	$-4, %r8
	jne	15b
	testq	%rax, %rax
	movq	40(%rsp), %rbx
	je	17f
	.p2align	4
16:
	movzbl	(%rcx), %edi
	shll	$5, %edi
	movups	(%r11,%rdi), %xmm0
	movups	16(%r11,%rdi), %xmm1
	movups	%xmm1, 16(%rdx)
	movups	%xmm0, (%rdx)
	addq	$32, %rdx
	incq	%rcx
	decq	%rax
	jne	16b
17:
	movq	%rsi, %rdx
	shlq	$5, %rdx
	movq	%r11, %rax
	subq	%r14, %rax
	cmpq	%rdx, %rax
	jae	21f
	movl	%esi, %eax
	andl	$7, %eax
	andl	$56, %esi
	leaq	224(%r11), %rdx
	leaq	224(%r14), %rdi
	xorl	%ecx, %ecx
	.p2align	4
18:
	movups	-224(%rdi,%rcx), %xmm0
	movups	-208(%rdi,%rcx), %xmm1
	movups	%xmm1, -208(%rdx,%rcx)
	movups	%xmm0, -224(%rdx,%rcx)
	movups	-192(%rdi,%rcx), %xmm0
	movups	-176(%rdi,%rcx), %xmm1
	movups	%xmm1, -176(%rdx,%rcx)
	movups	%xmm0, -192(%rdx,%rcx)
	movups	-160(%rdi,%rcx), %xmm0
	movups	-144(%rdi,%rcx), %xmm1
	movups	%xmm1, -144(%rdx,%rcx)
	movups	%xmm0, -160(%rdx,%rcx)
	movups	-128(%rdi,%rcx), %xmm0
	movups	-112(%rdi,%rcx), %xmm1
	movups	%xmm1, -112(%rdx,%rcx)
	movups	%xmm0, -128(%rdx,%rcx)
	movups	-96(%rdi,%rcx), %xmm0
	movups	-80(%rdi,%rcx), %xmm1
	movups	%xmm1, -80(%rdx,%rcx)
	movups	%xmm0, -96(%rdx,%rcx)
	movups	-64(%rdi,%rcx), %xmm0
	movups	-48(%rdi,%rcx), %xmm1
	movups	%xmm1, -48(%rdx,%rcx)
	movups	%xmm0, -64(%rdx,%rcx)
	movups	-32(%rdi,%rcx), %xmm0
	movups	-16(%rdi,%rcx), %xmm1
	movups	%xmm1, -16(%rdx,%rcx)
	movups	%xmm0, -32(%rdx,%rcx)
	movups	(%rdi,%rcx), %xmm0
	movups	16(%rdi,%rcx), %xmm1
	movups	%xmm1, 16(%rdx,%rcx)
	movups	%xmm0, (%rdx,%rcx)
	addq	$256, %rcx
	addq	$-8, %rsi
	jne	18b
	testq	%rax, %rax
	je	22f
	.p2align	4
19:
	movups	(%r14,%rcx), %xmm0
	movups	16(%r14,%rcx), %xmm1
	movups	%xmm1, 16(%r11,%rcx)
	movups	%xmm0, (%r11,%rcx)
	addq	$32, %rcx
	decq	%rax
	jne	19b
	jmp	22f
20:
	movl	$1, %edx
	movq	%r11, %rdi
	addq	$104, %rsp
	popq	%rbx
	popq	%r12
	popq	%r13
	popq	%r14
	popq	%r15
	popq	%rbp
	jmp	"core::slice::sort::small::insert_from::<#f98e8d76978ecc20>"
21:
	movq	%r11, %rdi
	movq	%r14, %rsi
	callq	memmove@PLT
22:
	movq	%r14, (%rbx)
	movq	24(%rsp), %rax
	movq	%rax, 8(%rbx)
	addq	$104, %rsp
	popq	%rbx
	popq	%r12
	popq	%r13
	popq	%r14
	popq	%r15
	popq	%rbp
	retq
23:
	.size	"core::slice::sort::short::sort::<#f98e8d76978ecc20>", 23b-"core::slice::sort::short::sort::<#f98e8d76978ecc20>"

	.text
	.p2align	4
	.type	"core::slice::sort::short::sort_half::<#12eb916b83b0f891>",@function
"core::slice::sort::short::sort_half::<#12eb916b83b0f891>":
	pushq	%rbp
	pushq	%r15
	pushq	%r14
	pushq	%r13
	pushq	%r12
	pushq	%rbx
	subq	$16, %rsp
	cmpq	$8, %rsi
	jb	1f
	movl	(%rdi), %ecx
	xorl	%eax, %eax
	xorl	%r14d, %r14d
	cmpl	8(%rdi), %ecx
	movl	16(%rdi), %r8d
	setae	%al
	setb	%r14b
	xorl	%ecx, %ecx
	cmpl	24(%rdi), %r8d
	setb	%cl
	leal	2(%rcx), %r8d
	xorl	$3, %ecx
	movl	(%rdi,%r14,8), %r10d
	movl	(%rdi,%r8,8), %r11d
	cmpl	%r11d, %r10d
	movl	(%rdi,%rax,8), %ebx
	movl	%r8d, %r9d
	cmovbl	%eax, %r9d
	cmpl	(%rdi,%rcx,8), %ebx
	cmovbl	%ecx, %r9d
	cmovbl	%eax, %ecx
	movl	%eax, %ebx
	cmovbl	%r8d, %ebx
	cmpl	%r11d, %r10d
	movq	(%rdx), %rax
	movq	%rdx, -128(%rsp)
	movq	8(%rdx), %rdx
	movq	%rdx, 8(%rsp)
	cmovbl	%r14d, %ebx
	movl	(%rdi,%rbx,8), %r10d
	cmovbl	%r8d, %r14d
	cmpl	(%rdi,%r9,8), %r10d
	movq	(%rdi,%r14,8), %r15
	movl	%ebx, %edx
	cmovbl	%r9d, %edx
	movq	%r15, (%rax)
	movq	(%rdi,%rdx,8), %rdx
	cmovael	%r9d, %ebx
	movq	%rdx, 8(%rax)
	movq	(%rdi,%rbx,8), %rdx
	movq	%rdx, 16(%rax)
	movq	(%rdi,%rcx,8), %r12
	movq	%r12, 24(%rax)
	movl	32(%rdi), %ecx
	movl	48(%rdi), %edx
	xorl	%r8d, %r8d
	cmpl	40(%rdi), %ecx
	setb	%r8b
	xorl	%ecx, %ecx
	cmpl	56(%rdi), %edx
	setb	%cl
	leal	4(%r8), %edx
	xorl	$5, %r8d
	leal	6(%rcx), %r9d
	xorl	$7, %ecx
	movl	(%rdi,%rdx,8), %r10d
	movl	(%rdi,%r9,8), %r11d
	cmpl	%r11d, %r10d
	movl	(%rdi,%r8,8), %ebx
	movl	%r9d, %r14d
	cmovbl	%r8d, %r14d
	cmpl	(%rdi,%rcx,8), %ebx
	cmovbl	%ecx, %r14d
	cmovbl	%r8d, %ecx
	cmovbl	%r9d, %r8d
	cmpl	%r11d, %r10d
	cmovbl	%edx, %r8d
	movl	(%rdi,%r8,8), %r10d
	cmovbl	%r9d, %edx
	cmpl	(%rdi,%r14,8), %r10d
	movq	(%rdi,%rdx,8), %r11
	movq	%r11, 32(%rax)
	movl	%r8d, %edx
	cmovbl	%r14d, %edx
	movq	(%rdi,%rdx,8), %rdx
	movq	%rdx, 40(%rax)
	cmovael	%r14d, %r8d
	movq	(%rdi,%r8,8), %rdx
	movq	%rdx, 48(%rax)
	movq	(%rdi,%rcx,8), %rdx
	movq	%rdx, 56(%rax)
	xorl	%ecx, %ecx
	movq	%r12, -8(%rsp)
	movq	%rdx, -56(%rsp)
	cmpl	%edx, %r12d
	setb	%cl
	movl	$4, %r10d
	movl	$4, %edx
	subq	%rcx, %rdx
	leaq	7(%rcx), %r12
	movl	48(%rax,%rcx,8), %r9d
	movq	%rdx, -16(%rsp)
	movl	-8(%rax,%rdx,8), %edx
	cmpl	%r9d, %edx
	sbbq	%rcx, %r10
	movl	%r9d, -84(%rsp)
	movl	%edx, -88(%rsp)
	cmpl	%r9d, %edx
	movq	%r12, -24(%rsp)
	adcq	$-1, %r12
	movl	-8(%rax,%r12,8), %edx
	movl	-8(%rax,%r10,8), %r8d
	xorl	%ecx, %ecx
	movl	%edx, -92(%rsp)
	movl	%r8d, -96(%rsp)
	cmpl	%edx, %r8d
	setb	%cl
	movq	%r12, -48(%rsp)
	adcq	$-1, %r12
	movq	%r10, %rdx
	subq	%rcx, %rdx
	movl	-8(%rax,%r12,8), %r8d
	movq	%rdx, -64(%rsp)
	movl	-8(%rax,%rdx,8), %edx
	cmpl	%r8d, %edx
	movq	%r10, -32(%rsp)
	sbbq	%rcx, %r10
	movq	%r10, (%rsp)
	movl	%r8d, -100(%rsp)
	movl	%edx, -104(%rsp)
	cmpl	%r8d, %edx
	movl	%r12d, %ecx
	adcl	$-1, %ecx
	xorl	%ebp, %ebp
	movq	%r15, -80(%rsp)
	movq	%r11, -40(%rsp)
	cmpl	%r11d, %r15d
	setae	%bpl
	movq	%rbp, %rdx
	xorq	$5, %rdx
	movl	(%rax,%rdx,8), %r9d
	movl	(%rax,%rbp,8), %r10d
	xorl	%r8d, %r8d
	movl	%r9d, -108(%rsp)
	movl	%r10d, -112(%rsp)
	cmpl	%r9d, %r10d
	setb	%r8b
	movq	%rbp, %r11
	sbbq	$-1, %r11
	movl	%r11d, %r9d
	movl	(%rax,%r9,8), %r10d
	leaq	(%rdx,%r8), %r9
	movq	%r9, -72(%rsp)
	movl	(%rax,%r9,8), %r13d
	cmpl	%r13d, %r10d
	adcq	%rdx, %r8
	movl	%r10d, -116(%rsp)
	cmpl	%r13d, %r10d
	movq	%r11, %r10
	sbbq	$-1, %r10
	movl	%r8d, %r9d
	movl	(%rax,%r9,8), %r14d
	movl	%r10d, %r9d
	movl	(%rax,%r9,8), %r15d
	cmpl	%r14d, %r15d
	movl	%r8d, %ebx
	adcl	$0, %ebx
	cmpl	%r14d, %r15d
	movq	%r10, %r9
	sbbq	$-1, %r9
	cmpl	%ecx, %ebx
	ja	2f
	cmpq	(%rsp), %r9
	ja	2f
	xorl	%ebx, %ebx
	movq	-56(%rsp), %rcx
	cmpl	%ecx, -8(%rsp)
	setae	%bl
	xorl	%ecx, %ecx
	movq	-40(%rsp), %r9
	cmpl	%r9d, -80(%rsp)
	setb	%cl
	cmpl	%r14d, %r15d
	cmovbq	%r8, %r10
	cmpl	%r13d, -116(%rsp)
	cmovbq	-72(%rsp), %r11
	shll	$5, %ecx
	movl	-112(%rsp), %r8d
	cmpl	-108(%rsp), %r8d
	cmovbl	%edx, %ebp
	movl	-104(%rsp), %edx
	cmpl	-100(%rsp), %edx
	cmovbl	-64(%rsp), %r12d
	leal	2040(,%r12,8), %edx
	andl	$2040, %edx
	movl	-96(%rsp), %r8d
	cmpl	-92(%rsp), %r8d
	movq	-48(%rsp), %r8
	cmovbl	-32(%rsp), %r8d
	leal	2040(,%r8,8), %r8d
	andl	$2040, %r8d
	movl	-88(%rsp), %r9d
	cmpl	-84(%rsp), %r9d
	movq	(%rax,%rcx), %rcx
	movq	%rcx, (%rdi)
	movq	(%rax,%rbp,8), %rcx
	movq	%rcx, 8(%rdi)
	movq	(%rax,%r11,8), %rcx
	movq	%rcx, 16(%rdi)
	movq	(%rax,%r10,8), %rcx
	movq	%rcx, 24(%rdi)
	movq	(%rax,%rdx), %rcx
	movq	%rcx, 32(%rdi)
	movq	(%rax,%r8), %rcx
	movq	%rcx, 40(%rdi)
	movq	-24(%rsp), %rcx
	cmovbl	-16(%rsp), %ecx
	leal	2040(,%rcx,8), %ecx
	andl	$2040, %ecx
	movq	(%rax,%rcx), %rcx
	movq	%rcx, 48(%rdi)
	shll	$5, %ebx
	movq	24(%rax,%rbx), %rcx
	movq	%rcx, 56(%rdi)
	movl	$8, %ecx
	jmp	5f
1:
	movl	$1, %ecx
	cmpq	$4, %rsi
	jb	6f
	movl	(%rdi), %eax
	xorl	%r14d, %r14d
	xorl	%ecx, %ecx
	cmpl	8(%rdi), %eax
	movl	16(%rdi), %r8d
	setae	%r14b
	setb	%cl
	xorl	%eax, %eax
	cmpl	24(%rdi), %r8d
	setb	%al
	leal	2(%rax), %r9d
	xorl	$3, %eax
	movl	(%rdi,%rcx,8), %r8d
	movl	(%rdi,%r9,8), %r11d
	cmpl	%r11d, %r8d
	movl	(%rdi,%r14,8), %ebx
	movl	%r9d, %r10d
	cmovbl	%r14d, %r10d
	cmpl	(%rdi,%rax,8), %ebx
	cmovbl	%eax, %r10d
	cmovbl	%r14d, %eax
	movl	%r14d, %ebx
	cmovbl	%r9d, %ebx
	cmpl	%r11d, %r8d
	movq	(%rdx), %r14
	movq	8(%rdx), %r8
	cmovbl	%ecx, %ebx
	movl	(%rdi,%rbx,8), %r11d
	cmovbl	%r9d, %ecx
	cmpl	(%rdi,%r10,8), %r11d
	movq	(%rdi,%rcx,8), %rcx
	movl	%ebx, %r9d
	cmovbl	%r10d, %r9d
	movq	%rcx, (%r14)
	movq	(%rdi,%r9,8), %r9
	cmovael	%r10d, %ebx
	movq	%r9, 8(%r14)
	movq	(%rdi,%rbx,8), %r9
	movq	%r9, 16(%r14)
	movq	(%rdi,%rax,8), %rax
	movq	%rax, 24(%r14)
	movq	%rdi, %rax
	subq	%r14, %rax
	cmpq	$31, %rax
	ja	8f
	movq	%rcx, (%rdi)
	movq	8(%r14), %rax
	movq	%rax, 8(%rdi)
	movq	16(%r14), %rax
	movq	%rax, 16(%rdi)
	movq	24(%r14), %rax
	movq	%rax, 24(%rdi)
	jmp	9f
2:
	movq	%rdi, %rcx
	subq	%rax, %rcx
	cmpq	$63, %rcx
	ja	3f
	movq	-80(%rsp), %rcx
	movq	%rcx, (%rdi)
	movq	8(%rax), %rcx
	movq	%rcx, 8(%rdi)
	movq	16(%rax), %rcx
	movq	%rcx, 16(%rdi)
	movq	24(%rax), %rcx
	movq	%rcx, 24(%rdi)
	movq	32(%rax), %rcx
	movq	%rcx, 32(%rdi)
	movq	40(%rax), %rcx
	movq	%rcx, 40(%rdi)
	movq	48(%rax), %rcx
	movq	%rcx, 48(%rdi)
	movq	56(%rax), %rcx
	movq	%rcx, 56(%rdi)
	jmp	4f
3:
	movups	(%rax), %xmm0
	movups	16(%rax), %xmm1
	movups	32(%rax), %xmm2
	movups	48(%rax), %xmm3
	movups	%xmm3, 48(%rdi)
	movups	%xmm2, 32(%rdi)
	movups	%xmm1, 16(%rdi)
	movups	%xmm0, (%rdi)
4:
	movl	$4, %ecx
5:
	movq	-128(%rsp), %rdx
	movq	%rax, (%rdx)
	movq	8(%rsp), %rax
	movq	%rax, 8(%rdx)
6:
	cmpq	%rsi, %rcx
	jb	13f
7:
	addq	$16, %rsp
	popq	%rbx
	popq	%r12
	popq	%r13
	popq	%r14
	popq	%r15
	popq	%rbp
	retq
8:
	movups	(%r14), %xmm0
	movups	16(%r14), %xmm1
	movups	%xmm1, 16(%rdi)
	movups	%xmm0, (%rdi)
9:
	movq	%r14, (%rdx)
	movq	%r8, 8(%rdx)
	movl	$4, %ecx
	cmpq	%rsi, %rcx
	jb	13f
	jmp	7b
10:
	xorl	%edx, %edx
11:
	movq	%rax, (%rdi,%rdx)
12:
	incq	%rcx
	cmpq	%rsi, %rcx
	je	7b
13:
	movl	-8(%rdi,%rcx,8), %eax
	cmpl	(%rdi,%rcx,8), %eax
	jae	12b
	movq	%rcx, %rdx
	movq	-8(%rdi,%rcx,8), %r8
	movq	(%rdi,%rcx,8), %rax
	movq	%r8, (%rdi,%rcx,8)
	decq	%rdx
	je	10b
	.p2align	4
14:
	cmpl	%eax, -8(%rdi,%rdx,8)
	jae	15f
	movq	%rdx, %r8
	decq	%r8
	movq	(%rdi,%r8,8), %r9
	movq	%r9, (%rdi,%rdx,8)
	movq	%r8, %rdx
	jne	14b
	xorl	%edx, %edx
15:
	shlq	$3, %rdx
	jmp	11b
16:
	.size	"core::slice::sort::short::sort_half::<#12eb916b83b0f891>", 16b-"core::slice::sort::short::sort_half::<#12eb916b83b0f891>"

	.text
	.p2align	4
	.type	"core::slice::sort::short::sort_half::<#196989f31ad14034>",@function
"core::slice::sort::short::sort_half::<#196989f31ad14034>":
	pushq	%rbp
	pushq	%r15
	pushq	%r14
	pushq	%r13
	pushq	%r12
	pushq	%rbx
	pushq	%rax
	cmpq	$8, %rsi
	jb	1f
	movq	(%rdi), %rax
	movq	8(%rdi), %rcx
	movl	56(%rax), %r8d
	xorl	%eax, %eax
	xorl	%r14d, %r14d
	cmpl	56(%rcx), %r8d
	setae	%al
	setb	%r14b
	movq	24(%rdi), %r8
	movq	16(%rdi), %rcx
	movl	56(%rcx), %r9d
	xorl	%ecx, %ecx
	cmpl	56(%r8), %r9d
	setb	%cl
	leal	2(%rcx), %r8d
	xorl	$3, %ecx
	movq	(%rdi,%r8,8), %r9
	movq	(%rdi,%r14,8), %r10
	movl	56(%r10), %r10d
	movl	56(%r9), %r11d
	cmpl	%r11d, %r10d
	movq	(%rdi,%rcx,8), %rbx
	movq	(%rdi,%rax,8), %r9
	movl	56(%r9), %ebp
	movl	%r8d, %r9d
	cmovbl	%eax, %r9d
	cmpl	56(%rbx), %ebp
	cmovbl	%ecx, %r9d
	cmovbl	%eax, %ecx
	movl	%eax, %ebx
	cmovbl	%r8d, %ebx
	cmpl	%r11d, %r10d
	movq	(%rdx), %rax
	cmovbl	%r14d, %ebx
	movq	%rdx, -120(%rsp)
	movq	8(%rdx), %rdx
	movq	%rdx, (%rsp)
	movq	(%rdi,%r9,8), %r10
	movq	(%rdi,%rbx,8), %r11
	movl	56(%r11), %r11d
	cmovbl	%r8d, %r14d
	cmpl	56(%r10), %r11d
	movq	(%rdi,%r14,8), %r13
	movl	%ebx, %edx
	cmovbl	%r9d, %edx
	movq	%r13, (%rax)
	movq	(%rdi,%rdx,8), %rdx
	cmovael	%r9d, %ebx
	movq	%rdx, 8(%rax)
	movq	(%rdi,%rbx,8), %rdx
	movq	%rdx, 16(%rax)
	movq	(%rdi,%rcx,8), %rcx
	movq	%rcx, 24(%rax)
	movq	32(%rdi), %rdx
	movq	40(%rdi), %r8
	movl	56(%rdx), %edx
	xorl	%r9d, %r9d
	cmpl	56(%r8), %edx
	setb	%r9b
	movq	56(%rdi), %r8
	movq	48(%rdi), %rdx
	movl	56(%rdx), %r10d
	xorl	%edx, %edx
	cmpl	56(%r8), %r10d
	setb	%dl
	leal	4(%r9), %r8d
	xorl	$5, %r9d
	leal	6(%rdx), %r10d
	xorl	$7, %edx
	movq	(%rdi,%r10,8), %r11
	movq	(%rdi,%r8,8), %rbx
	movl	56(%rbx), %ebx
	movl	56(%r11), %ebp
	cmpl	%ebp, %ebx
	movq	(%rdi,%rdx,8), %r14
	movq	(%rdi,%r9,8), %r11
	movl	56(%r11), %r15d
	movl	%r10d, %r11d
	cmovbl	%r9d, %r11d
	cmpl	56(%r14), %r15d
	cmovbl	%edx, %r11d
	cmovbl	%r9d, %edx
	cmovbl	%r10d, %r9d
	cmpl	%ebp, %ebx
	cmovbl	%r8d, %r9d
	movq	(%rdi,%r11,8), %rbx
	movq	(%rdi,%r9,8), %r14
	movl	56(%r14), %ebp
	cmovbl	%r10d, %r8d
	cmpl	56(%rbx), %ebp
	movq	(%rdi,%r8,8), %r8
	movq	%r8, 32(%rax)
	movl	%r9d, %r10d
	cmovbl	%r11d, %r10d
	movq	(%rdi,%r10,8), %r10
	movq	%r10, 40(%rax)
	cmovael	%r11d, %r9d
	movq	(%rdi,%r9,8), %r9
	movq	%r9, 48(%rax)
	movq	(%rdi,%rdx,8), %rdx
	movq	%rdx, 56(%rax)
	movl	56(%rdx), %edx
	movl	56(%rcx), %r9d
	xorl	%ecx, %ecx
	movl	%edx, -84(%rsp)
	movl	%r9d, -88(%rsp)
	cmpl	%edx, %r9d
	setb	%cl
	movl	$4, %r11d
	movl	$4, %r9d
	subq	%rcx, %r9
	leaq	7(%rcx), %r12
	movq	48(%rax,%rcx,8), %rdx
	movq	%r9, -16(%rsp)
	movq	-8(%rax,%r9,8), %r9
	movl	56(%rdx), %edx
	movl	56(%r9), %r9d
	cmpl	%edx, %r9d
	sbbq	%rcx, %r11
	movl	%edx, -68(%rsp)
	movl	%r9d, -72(%rsp)
	cmpl	%edx, %r9d
	movq	%r12, -24(%rsp)
	adcq	$-1, %r12
	movq	-8(%rax,%r12,8), %rcx
	movq	-8(%rax,%r11,8), %rdx
	movl	56(%rcx), %r9d
	movl	56(%rdx), %edx
	xorl	%ecx, %ecx
	movl	%r9d, -76(%rsp)
	movl	%edx, -80(%rsp)
	cmpl	%r9d, %edx
	setb	%cl
	movq	%r12, -40(%rsp)
	adcq	$-1, %r12
	movq	%r11, %r9
	subq	%rcx, %r9
	movq	-8(%rax,%r12,8), %rdx
	movl	56(%rdx), %r10d
	movq	%r9, -48(%rsp)
	movq	-8(%rax,%r9,8), %rdx
	movl	56(%rdx), %edx
	cmpl	%r10d, %edx
	movq	%r11, -32(%rsp)
	sbbq	%rcx, %r11
	movq	%r11, -8(%rsp)
	movl	%r10d, -92(%rsp)
	movl	%edx, -96(%rsp)
	cmpl	%r10d, %edx
	movl	56(%r8), %ecx
	movl	%r12d, %edx
	adcl	$-1, %edx
	movl	%edx, -128(%rsp)
	movq	%r13, -64(%rsp)
	movl	56(%r13), %edx
	xorl	%r8d, %r8d
	movl	%ecx, -100(%rsp)
	movl	%edx, -108(%rsp)
	cmpl	%ecx, %edx
	setae	%r8b
	movq	%r8, %r15
	xorq	$5, %r15
	movq	(%rax,%r15,8), %rcx
	movl	56(%rcx), %edx
	movq	(%rax,%r8,8), %rcx
	movl	56(%rcx), %ecx
	xorl	%ebp, %ebp
	movl	%edx, -104(%rsp)
	movl	%ecx, -112(%rsp)
	cmpl	%edx, %ecx
	setb	%bpl
	movq	%r8, %r10
	sbbq	$-1, %r10
	movl	%r10d, %ecx
	movq	(%rax,%rcx,8), %rcx
	leaq	(%r15,%rbp), %rdx
	movq	%rdx, -56(%rsp)
	movq	(%rax,%rdx,8), %rdx
	movl	56(%rdx), %r13d
	movl	56(%rcx), %edx
	cmpl	%r13d, %edx
	adcq	%r15, %rbp
	cmpl	%r13d, %edx
	movq	%r10, %rbx
	sbbq	$-1, %rbx
	movl	%ebp, %ecx
	movq	(%rax,%rcx,8), %rcx
	movl	%ebx, %r9d
	movq	(%rax,%r9,8), %r9
	movl	56(%rcx), %r11d
	movl	56(%r9), %r9d
	cmpl	%r11d, %r9d
	movl	%ebp, %r14d
	adcl	$0, %r14d
	cmpl	%r11d, %r9d
	movq	%rbx, %rcx
	sbbq	$-1, %rcx
	cmpl	-128(%rsp), %r14d
	ja	2f
	cmpq	-8(%rsp), %rcx
	ja	2f
	xorl	%r14d, %r14d
	movl	-88(%rsp), %ecx
	cmpl	-84(%rsp), %ecx
	setae	%r14b
	movq	%r14, -128(%rsp)
	xorl	%ecx, %ecx
	movl	-108(%rsp), %r14d
	cmpl	-100(%rsp), %r14d
	setb	%cl
	cmpl	%r11d, %r9d
	cmovbq	%rbp, %rbx
	cmpl	%r13d, %edx
	cmovbq	-56(%rsp), %r10
	shll	$5, %ecx
	movl	-112(%rsp), %edx
	cmpl	-104(%rsp), %edx
	cmovbl	%r15d, %r8d
	movl	-96(%rsp), %edx
	cmpl	-92(%rsp), %edx
	cmovbl	-48(%rsp), %r12d
	leal	2040(,%r12,8), %edx
	andl	$2040, %edx
	movl	-80(%rsp), %r9d
	cmpl	-76(%rsp), %r9d
	movq	-40(%rsp), %r9
	cmovbl	-32(%rsp), %r9d
	leal	2040(,%r9,8), %r9d
	andl	$2040, %r9d
	movl	-72(%rsp), %r11d
	cmpl	-68(%rsp), %r11d
	movq	(%rax,%rcx), %rcx
	movq	%rcx, (%rdi)
	movq	(%rax,%r8,8), %rcx
	movq	%rcx, 8(%rdi)
	movq	(%rax,%r10,8), %rcx
	movq	%rcx, 16(%rdi)
	movq	(%rax,%rbx,8), %rcx
	movq	%rcx, 24(%rdi)
	movq	(%rax,%rdx), %rcx
	movq	%rcx, 32(%rdi)
	movq	(%rax,%r9), %rcx
	movq	%rcx, 40(%rdi)
	movq	-24(%rsp), %rcx
	cmovbl	-16(%rsp), %ecx
	leal	2040(,%rcx,8), %ecx
	andl	$2040, %ecx
	movq	(%rax,%rcx), %rcx
	movq	%rcx, 48(%rdi)
	movq	-128(%rsp), %rcx
	shll	$5, %ecx
	movq	24(%rax,%rcx), %rcx
	movq	%rcx, 56(%rdi)
	movl	$8, %ecx
	jmp	5f
1:
	movl	$1, %ecx
	cmpq	$4, %rsi
	jb	6f
	movq	(%rdi), %rax
	movq	8(%rdi), %r8
	movl	56(%rax), %eax
	xorl	%r14d, %r14d
	xorl	%ecx, %ecx
	cmpl	56(%r8), %eax
	setae	%r14b
	setb	%cl
	movq	24(%rdi), %r8
	movq	16(%rdi), %rax
	movl	56(%rax), %r9d
	xorl	%eax, %eax
	cmpl	56(%r8), %r9d
	setb	%al
	leal	2(%rax), %r9d
	xorl	$3, %eax
	movq	(%rdi,%r9,8), %r8
	movq	(%rdi,%rcx,8), %r10
	movl	56(%r10), %r11d
	movl	56(%r8), %r8d
	cmpl	%r8d, %r11d
	movq	(%rdi,%rax,8), %rbx
	movq	(%rdi,%r14,8), %r10
	movl	56(%r10), %ebp
	movl	%r9d, %r10d
	cmovbl	%r14d, %r10d
	cmpl	56(%rbx), %ebp
	cmovbl	%eax, %r10d
	cmovbl	%r14d, %eax
	movl	%r14d, %ebx
	cmovbl	%r9d, %ebx
	cmpl	%r8d, %r11d
	movq	(%rdx), %r15
	cmovbl	%ecx, %ebx
	movq	8(%rdx), %r8
	movq	(%rdi,%r10,8), %r11
	movq	(%rdi,%rbx,8), %r14
	movl	56(%r14), %ebp
	cmovbl	%r9d, %ecx
	cmpl	56(%r11), %ebp
	movq	(%rdi,%rcx,8), %rcx
	movl	%ebx, %r9d
	cmovbl	%r10d, %r9d
	movq	%rcx, (%r15)
	movq	(%rdi,%r9,8), %r9
	cmovael	%r10d, %ebx
	movq	%r9, 8(%r15)
	movq	(%rdi,%rbx,8), %r9
	movq	%r9, 16(%r15)
	movq	(%rdi,%rax,8), %rax
	movq	%rax, 24(%r15)
	movq	%rdi, %rax
	subq	%r15, %rax
	cmpq	$31, %rax
	ja	8f
	movq	%rcx, (%rdi)
	movq	8(%r15), %rax
	movq	%rax, 8(%rdi)
	movq	16(%r15), %rax
	movq	%rax, 16(%rdi)
	movq	24(%r15), %rax
	movq	%rax, 24(%rdi)
	jmp	9f
2:
	movq	%rdi, %rcx
	subq	%rax, %rcx
	cmpq	$63, %rcx
	ja	3f
	movq	-64(%rsp), %rcx
	movq	%rcx, (%rdi)
	movq	8(%rax), %rcx
	movq	%rcx, 8(%rdi)
	movq	16(%rax), %rcx
	movq	%rcx, 16(%rdi)
	movq	24(%rax), %rcx
	movq	%rcx, 24(%rdi)
	movq	32(%rax), %rcx
	movq	%rcx, 32(%rdi)
	movq	40(%rax), %rcx
	movq	%rcx, 40(%rdi)
	movq	48(%rax), %rcx
	movq	%rcx, 48(%rdi)
	movq	56(%rax), %rcx
	movq	%rcx, 56(%rdi)
	jmp	4f
3:
	movups	(%rax), %xmm0
	movups	16(%rax), %xmm1
	movups	32(%rax), %xmm2
	movups	48(%rax), %xmm3
	movups	%xmm3, 48(%rdi)
	movups	%xmm2, 32(%rdi)
	movups	%xmm1, 16(%rdi)
	movups	%xmm0, (%rdi)
4:
	movl	$4, %ecx
5:
	movq	-120(%rsp), %rdx
	movq	%rax, (%rdx)
	movq	(%rsp), %rax
	movq	%rax, 8(%rdx)
6:
	cmpq	%rsi, %rcx
	jb	13f
7:
	addq	$8, %rsp
	popq	%rbx
	popq	%r12
	popq	%r13
	popq	%r14
	popq	%r15
	popq	%rbp
	retq
8:
	movups	(%r15), %xmm0
	movups	16(%r15), %xmm1
	movups	%xmm1, 16(%rdi)
	movups	%xmm0, (%rdi)
9:
	movq	%r15, (%rdx)
	movq	%r8, 8(%rdx)
	movl	$4, %ecx
	cmpq	%rsi, %rcx
	jb	13f
	jmp	7b
10:
	xorl	%edx, %edx
11:
	movq	%rax, (%rdi,%rdx)
12:
	incq	%rcx
	cmpq	%rsi, %rcx
	je	7b
13:
	movq	-8(%rdi,%rcx,8), %r8
	movq	(%rdi,%rcx,8), %rax
	movl	56(%r8), %edx
	cmpl	56(%rax), %edx
	jae	12b
	movq	%rcx, %rdx
	movq	%r8, (%rdi,%rcx,8)
	decq	%rdx
	je	10b
	.p2align	4
14:
	movq	-8(%rdi,%rdx,8), %r8
	movl	56(%r8), %r9d
	cmpl	56(%rax), %r9d
	jae	15f
	movq	%r8, (%rdi,%rdx,8)
	decq	%rdx
	jne	14b
	xorl	%edx, %edx
15:
	shlq	$3, %rdx
	jmp	11b
16:
	.size	"core::slice::sort::short::sort_half::<#196989f31ad14034>", 16b-"core::slice::sort::short::sort_half::<#196989f31ad14034>"

	.text
	.p2align	4
	.type	"core::slice::sort::short::sort_half::<#32fabb223415b920>",@function
"core::slice::sort::short::sort_half::<#32fabb223415b920>":
	pushq	%rbp
	pushq	%r15
	pushq	%r14
	pushq	%r13
	pushq	%r12
	pushq	%rbx
	subq	$88, %rsp
	movq	%rdx, %rax
	movq	%rdi, %r14
	cmpq	$8, %rsi
	jb	2f
	movq	(%rax), %r12
	movq	%rax, 32(%rsp)
	movq	8(%rax), %rax
	movq	%rax, 24(%rsp)
	movq	(%r14), %rax
	movq	40(%r14), %rcx
	cmpq	%rax, %rcx
	movq	%rsi, 40(%rsp)
	jne	4f
	movq	48(%r14), %rdi
	movq	56(%r14), %rsi
	movq	8(%r14), %rdx
	movq	16(%r14), %rcx
	callq	"core::cmp::slices::RefSliceOrd::cmp::<#914af4d8504a0b72>"
	testb	%al, %al
	sete	%bl
	movq	80(%r14), %rax
	movq	120(%r14), %rcx
	cmpq	%rax, %rcx
	je	5f
1:
	bswapq	%rax
	bswapq	%rcx
	cmpq	%rax, %rcx
	setb	%al
	jmp	6f
2:
	movl	$1, %edx
	cmpq	$4, %rsi
	jb	55f
	movq	(%rax), %r12
	movq	%rax, 32(%rsp)
	movq	8(%rax), %rax
	movq	%rax, 24(%rsp)
	movq	(%r14), %rax
	movq	40(%r14), %rcx
	cmpq	%rax, %rcx
	movq	%rsi, 40(%rsp)
	jne	43f
	movq	48(%r14), %rdi
	movq	56(%r14), %rsi
	movq	8(%r14), %rdx
	movq	16(%r14), %rcx
	callq	"core::cmp::slices::RefSliceOrd::cmp::<#914af4d8504a0b72>"
	testb	%al, %al
	sete	%bl
	movq	80(%r14), %rax
	movq	120(%r14), %rcx
	cmpq	%rax, %rcx
	je	44f
3:
	bswapq	%rax
	bswapq	%rcx
	cmpq	%rax, %rcx
	setb	%al
	jmp	45f
4:
	bswapq	%rax
	bswapq	%rcx
	cmpq	%rax, %rcx
	setb	%bl
	movq	80(%r14), %rax
	movq	120(%r14), %rcx
	cmpq	%rax, %rcx
	jne	1b
5:
	movq	128(%r14), %rdi
	movq	136(%r14), %rsi
	movq	88(%r14), %rdx
	movq	96(%r14), %rcx
	callq	"core::cmp::slices::RefSliceOrd::cmp::<#914af4d8504a0b72>"
	testb	%al, %al
	sete	%al
6:
	movzbl	%bl, %r13d
	movl	%r13d, %ecx
	xorb	$1, %cl
	movzbl	%cl, %ebx
	movzbl	%al, %ebp
	leaq	2(%rbp), %r15
	xorq	$3, %rbp
	leal	(,%r15,8), %ecx
	xorl	%edx, %edx
	testb	%r13b, %r13b
	movl	$40, %eax
	cmoveq	%rdx, %rax
	leaq	(%rcx,%rcx,4), %rsi
	movq	(%r14,%rsi), %rcx
	movq	(%r14,%rax), %rdx
	cmpq	%rdx, %rcx
	jne	7f
	movq	8(%r14,%rsi), %rdi
	movq	16(%r14,%rsi), %rsi
	movq	8(%r14,%rax), %rdx
	movq	16(%r14,%rax), %rcx
	callq	"core::cmp::slices::RefSliceOrd::cmp::<#914af4d8504a0b72>"
	testb	%al, %al
	sete	%dil
	jmp	8f
7:
	bswapq	%rdx
	bswapq	%rcx
	cmpq	%rdx, %rcx
	setb	%dil
8:
	leal	(,%rbp,8), %ecx
	xorl	%edx, %edx
	testb	%r13b, %r13b
	movl	$40, %eax
	cmovneq	%rdx, %rax
	leaq	(%rcx,%rcx,4), %rsi
	movq	(%r14,%rsi), %rcx
	movq	(%r14,%rax), %rdx
	cmpq	%rdx, %rcx
	jne	9f
	movq	%rbx, 8(%rsp)
	movl	%edi, %ebx
	movq	8(%r14,%rsi), %rdi
	movq	16(%r14,%rsi), %rsi
	movq	8(%r14,%rax), %rdx
	movq	16(%r14,%rax), %rcx
	callq	"core::cmp::slices::RefSliceOrd::cmp::<#914af4d8504a0b72>"
	movl	%ebx, %edi
	movq	8(%rsp), %rbx
	testb	%al, %al
	sete	%al
	jmp	10f
9:
	bswapq	%rdx
	bswapq	%rcx
	cmpq	%rdx, %rcx
	setb	%al
10:
	testb	%al, %al
	movq	%rbx, %rcx
	cmovneq	%r15, %rbx
	testb	%dil, %dil
	cmovneq	%r13, %rbx
	cmovneq	%r15, %r13
	cmovneq	%rcx, %r15
	testb	%al, %al
	cmoveq	%rbp, %rcx
	movq	%rcx, 8(%rsp)
	cmovneq	%rbp, %r15
	leal	(,%r15,8), %eax
	leaq	(%rax,%rax,4), %rax
	leal	(,%rbx,8), %ecx
	leaq	(%rcx,%rcx,4), %rcx
	movq	(%r14,%rax), %rdx
	movq	(%r14,%rcx), %rsi
	cmpq	%rsi, %rdx
	jne	11f
	movq	8(%r14,%rax), %rdi
	movq	16(%r14,%rax), %rsi
	movq	8(%r14,%rcx), %rdx
	movq	16(%r14,%rcx), %rcx
	callq	"core::cmp::slices::RefSliceOrd::cmp::<#914af4d8504a0b72>"
	testb	%al, %al
	sete	%al
	jmp	12f
11:
	bswapq	%rsi
	bswapq	%rdx
	cmpq	%rsi, %rdx
	setb	%al
12:
	testb	%al, %al
	movq	%rbx, %rax
	cmovneq	%r15, %rax
	cmovneq	%rbx, %r15
	leaq	(,%r13,4), %rcx
	addq	%r13, %rcx
	movups	(%r14,%rcx,8), %xmm0
	movups	16(%r14,%rcx,8), %xmm1
	movq	32(%r14,%rcx,8), %rcx
	movq	%rcx, 32(%r12)
	movups	%xmm1, 16(%r12)
	movups	%xmm0, (%r12)
	leaq	(%rax,%rax,4), %rax
	movups	(%r14,%rax,8), %xmm0
	movups	16(%r14,%rax,8), %xmm1
	movq	32(%r14,%rax,8), %rax
	movq	%rax, 72(%r12)
	movups	%xmm1, 56(%r12)
	movups	%xmm0, 40(%r12)
	leaq	(%r15,%r15,4), %rax
	movups	(%r14,%rax,8), %xmm0
	movups	16(%r14,%rax,8), %xmm1
	movq	32(%r14,%rax,8), %rax
	movq	%rax, 112(%r12)
	movups	%xmm1, 96(%r12)
	movups	%xmm0, 80(%r12)
	movq	8(%rsp), %rax
	leaq	(%rax,%rax,4), %rax
	movups	(%r14,%rax,8), %xmm0
	movups	16(%r14,%rax,8), %xmm1
	movq	32(%r14,%rax,8), %rax
	movq	%rax, 152(%r12)
	movups	%xmm1, 136(%r12)
	movups	%xmm0, 120(%r12)
	movq	160(%r14), %rax
	movq	200(%r14), %rcx
	cmpq	%rax, %rcx
	jne	14f
	movq	208(%r14), %rdi
	movq	216(%r14), %rsi
	movq	168(%r14), %rdx
	movq	176(%r14), %rcx
	callq	"core::cmp::slices::RefSliceOrd::cmp::<#914af4d8504a0b72>"
	testb	%al, %al
	sete	%bl
	movq	240(%r14), %rax
	movq	280(%r14), %rcx
	cmpq	%rax, %rcx
	je	15f
13:
	bswapq	%rax
	bswapq	%rcx
	cmpq	%rax, %rcx
	setb	%al
	jmp	16f
14:
	bswapq	%rax
	bswapq	%rcx
	cmpq	%rax, %rcx
	setb	%bl
	movq	240(%r14), %rax
	movq	280(%r14), %rcx
	cmpq	%rax, %rcx
	jne	13b
15:
	movq	288(%r14), %rdi
	movq	296(%r14), %rsi
	movq	248(%r14), %rdx
	movq	256(%r14), %rcx
	callq	"core::cmp::slices::RefSliceOrd::cmp::<#914af4d8504a0b72>"
	testb	%al, %al
	sete	%al
16:
	movzbl	%bl, %r13d
	leaq	4(%r13), %rbx
	xorq	$5, %r13
	movzbl	%al, %ebp
	leaq	6(%rbp), %r15
	xorq	$7, %rbp
	leal	(,%r15,8), %eax
	leaq	(%rax,%rax,4), %rax
	leal	(,%rbx,8), %ecx
	leaq	(%rcx,%rcx,4), %rcx
	movq	(%r14,%rax), %rdx
	movq	(%r14,%rcx), %rsi
	cmpq	%rsi, %rdx
	movq	%rbx, 8(%rsp)
	jne	17f
	movq	8(%r14,%rax), %rdi
	movq	16(%r14,%rax), %rsi
	movq	8(%r14,%rcx), %rdx
	movq	16(%r14,%rcx), %rcx
	callq	"core::cmp::slices::RefSliceOrd::cmp::<#914af4d8504a0b72>"
	testb	%al, %al
	sete	%r8b
	jmp	18f
17:
	bswapq	%rsi
	bswapq	%rdx
	cmpq	%rsi, %rdx
	setb	%r8b
18:
	leal	(,%rbp,8), %eax
	leaq	(%rax,%rax,4), %rax
	leal	(,%r13,8), %ecx
	leaq	(%rcx,%rcx,4), %rcx
	movq	(%r14,%rax), %rdx
	movq	(%r14,%rcx), %rsi
	cmpq	%rsi, %rdx
	jne	19f
	movq	8(%r14,%rax), %rdi
	movq	16(%r14,%rax), %rsi
	movq	8(%r14,%rcx), %rdx
	movq	16(%r14,%rcx), %rcx
	movl	%r8d, %ebx
	callq	"core::cmp::slices::RefSliceOrd::cmp::<#914af4d8504a0b72>"
	movl	%ebx, %r8d
	testb	%al, %al
	sete	%al
	jmp	20f
19:
	bswapq	%rsi
	bswapq	%rdx
	cmpq	%rsi, %rdx
	setb	%al
20:
	movq	8(%rsp), %rdi
	testb	%al, %al
	movq	%r13, %rbx
	cmovneq	%r15, %rbx
	testb	%r8b, %r8b
	cmovneq	%rdi, %rbx
	cmovneq	%r15, %rdi
	cmovneq	%r13, %r15
	testb	%al, %al
	cmoveq	%rbp, %r13
	cmovneq	%rbp, %r15
	leal	(,%r15,8), %eax
	leaq	(%rax,%rax,4), %rax
	leal	(,%rbx,8), %ecx
	leaq	(%rcx,%rcx,4), %rcx
	movq	(%r14,%rax), %rdx
	movq	(%r14,%rcx), %rsi
	cmpq	%rsi, %rdx
	jne	21f
	movq	%rdi, %rbp
	movq	8(%r14,%rax), %rdi
	movq	16(%r14,%rax), %rsi
	movq	8(%r14,%rcx), %rdx
	movq	16(%r14,%rcx), %rcx
	callq	"core::cmp::slices::RefSliceOrd::cmp::<#914af4d8504a0b72>"
	movq	%rbp, %rdi
	testb	%al, %al
	sete	%al
	jmp	22f
21:
	bswapq	%rsi
	bswapq	%rdx
	cmpq	%rsi, %rdx
	setb	%al
22:
	leaq	120(%r12), %rbp
	testb	%al, %al
	movq	%rbx, %rax
	cmovneq	%r15, %rax
	cmovneq	%rbx, %r15
	leaq	(%rdi,%rdi,4), %rcx
	movups	(%r14,%rcx,8), %xmm0
	movups	16(%r14,%rcx,8), %xmm1
	movq	32(%r14,%rcx,8), %rcx
	movq	%rcx, 192(%r12)
	movups	%xmm1, 176(%r12)
	movups	%xmm0, 160(%r12)
	leaq	(%rax,%rax,4), %rax
	movups	(%r14,%rax,8), %xmm0
	movups	16(%r14,%rax,8), %xmm1
	movq	32(%r14,%rax,8), %rax
	movq	%rax, 232(%r12)
	movups	%xmm1, 216(%r12)
	movups	%xmm0, 200(%r12)
	leaq	(%r15,%r15,4), %rax
	movups	(%r14,%rax,8), %xmm0
	movups	16(%r14,%rax,8), %xmm1
	movq	32(%r14,%rax,8), %rax
	movq	%rax, 272(%r12)
	movups	%xmm1, 256(%r12)
	movups	%xmm0, 240(%r12)
	leaq	(%r13,%r13,4), %rax
	leaq	280(%r12), %r15
	movups	(%r14,%rax,8), %xmm0
	movups	16(%r14,%rax,8), %xmm1
	movq	32(%r14,%rax,8), %rax
	movq	%rax, 312(%r12)
	movups	%xmm1, 296(%r12)
	movups	%xmm0, 280(%r12)
	movq	(%r12), %rax
	movq	160(%r12), %rcx
	cmpq	%rax, %rcx
	jne	23f
	movq	168(%r12), %rdi
	movq	176(%r12), %rsi
	movq	8(%r12), %rdx
	movq	16(%r12), %rcx
	callq	"core::cmp::slices::RefSliceOrd::cmp::<#914af4d8504a0b72>"
	testb	%al, %al
	sete	%sil
	jmp	24f
23:
	bswapq	%rax
	bswapq	%rcx
	cmpq	%rax, %rcx
	setb	%sil
24:
	movzbl	%sil, %eax
	leaq	4(%rax), %rbx
	xorb	$1, %al
	movzbl	%al, %eax
	movq	%rax, 8(%rsp)
	movq	(%r15), %rax
	movq	(%rbp), %rcx
	cmpq	%rcx, %rax
	jne	25f
	movq	288(%r12), %rdi
	movl	%esi, %ebp
	movq	296(%r12), %rsi
	movq	128(%r12), %rdx
	movq	136(%r12), %rcx
	callq	"core::cmp::slices::RefSliceOrd::cmp::<#914af4d8504a0b72>"
	movl	%ebp, %esi
	testb	%al, %al
	sete	%al
	jmp	26f
25:
	bswapq	%rcx
	bswapq	%rax
	cmpq	%rcx, %rax
	setb	%al
26:
	movb	%al, 23(%rsp)
	movzbl	%al, %r13d
	movl	$4, %r15d
	subq	%r13, %r15
	addq	$7, %r13
	leal	(,%rbx,8), %ecx
	xorl	%edx, %edx
	movb	%sil, 22(%rsp)
	testb	%sil, %sil
	movl	$40, %eax
	cmovneq	%rdx, %rax
	leaq	(%rcx,%rcx,4), %rsi
	movq	(%r12,%rsi), %rcx
	movq	(%r12,%rax), %rdx
	cmpq	%rdx, %rcx
	jne	27f
	movq	8(%r12,%rsi), %rdi
	movq	16(%r12,%rsi), %rsi
	movq	8(%r12,%rax), %rdx
	movq	16(%r12,%rax), %rcx
	callq	"core::cmp::slices::RefSliceOrd::cmp::<#914af4d8504a0b72>"
	testb	%al, %al
	sete	%al
	jmp	28f
27:
	bswapq	%rdx
	bswapq	%rcx
	cmpq	%rdx, %rcx
	setb	%al
28:
	testb	%al, %al
	movq	8(%rsp), %rdx
	movq	%rdx, %rcx
	cmovneq	%rbx, %rcx
	movq	%rcx, 80(%rsp)
	movzbl	%al, %eax
	addq	%rax, %rbx
	xorb	$1, %al
	movzbl	%al, %ebp
	addq	%rdx, %rbp
	leal	(,%r13,8), %eax
	leaq	(%rax,%rax,4), %rax
	leal	(,%r15,8), %ecx
	leaq	(%rcx,%rcx,4), %rcx
	movq	-40(%r12,%rax), %rdx
	movq	-40(%r12,%rcx), %rsi
	cmpq	%rsi, %rdx
	jne	29f
	movq	-32(%r12,%rax), %rdi
	movq	-24(%r12,%rax), %rsi
	movq	-32(%r12,%rcx), %rdx
	movq	-24(%r12,%rcx), %rcx
	callq	"core::cmp::slices::RefSliceOrd::cmp::<#914af4d8504a0b72>"
	testb	%al, %al
	sete	%al
	jmp	30f
29:
	bswapq	%rsi
	bswapq	%rdx
	cmpq	%rsi, %rdx
	setb	%al
30:
	testb	%al, %al
	movq	%r13, %rcx
	cmovneq	%r15, %rcx
	movq	%rcx, 72(%rsp)
	movzbl	%al, %eax
	subq	%rax, %r15
	xorb	$1, %al
	movzbl	%al, %eax
	subq	%rax, %r13
	leal	(,%rbx,8), %eax
	leaq	(%rax,%rax,4), %rax
	leal	(,%rbp,8), %ecx
	leaq	(%rcx,%rcx,4), %rcx
	movq	(%r12,%rax), %rdx
	movq	(%r12,%rcx), %rsi
	cmpq	%rsi, %rdx
	jne	31f
	movq	8(%r12,%rax), %rdi
	movq	16(%r12,%rax), %rsi
	movq	8(%r12,%rcx), %rdx
	movq	16(%r12,%rcx), %rcx
	callq	"core::cmp::slices::RefSliceOrd::cmp::<#914af4d8504a0b72>"
	testb	%al, %al
	sete	%al
	jmp	32f
31:
	bswapq	%rsi
	bswapq	%rdx
	cmpq	%rsi, %rdx
	setb	%al
32:
	testb	%al, %al
	movq	%rbp, %rcx
	cmovneq	%rbx, %rcx
	movq	%rcx, 64(%rsp)
	movzbl	%al, %eax
	leaq	(%rax,%rbx), %rdi
	xorb	$1, %al
	movzbl	%al, %ebx
	addq	%rbp, %rbx
	leaq	(,%r13,8), %rax
	leaq	(%rax,%rax,4), %rax
	leaq	(,%r15,8), %rcx
	leaq	(%rcx,%rcx,4), %rcx
	movq	-40(%r12,%rax), %rdx
	movq	-40(%r12,%rcx), %rsi
	cmpq	%rsi, %rdx
	jne	33f
	movq	%rdi, %rbp
	movq	-32(%r12,%rax), %rdi
	movq	-24(%r12,%rax), %rsi
	movq	-32(%r12,%rcx), %rdx
	movq	-24(%r12,%rcx), %rcx
	callq	"core::cmp::slices::RefSliceOrd::cmp::<#914af4d8504a0b72>"
	movq	%rbp, %rdi
	testb	%al, %al
	sete	%al
	jmp	34f
33:
	bswapq	%rsi
	bswapq	%rdx
	cmpq	%rsi, %rdx
	setb	%al
34:
	testb	%al, %al
	movq	%r13, %rcx
	cmovneq	%r15, %rcx
	movq	%rcx, 56(%rsp)
	movzbl	%al, %eax
	subq	%rax, %r15
	xorb	$1, %al
	movzbl	%al, %eax
	subq	%rax, %r13
	leal	(,%rdi,8), %eax
	leaq	(%rax,%rax,4), %rax
	leal	(,%rbx,8), %ecx
	leaq	(%rcx,%rcx,4), %rcx
	movq	(%r12,%rax), %rdx
	movq	(%r12,%rcx), %rsi
	cmpq	%rsi, %rdx
	movq	%r15, 8(%rsp)
	jne	35f
	movq	%rdi, %r15
	movq	8(%r12,%rax), %rdi
	movq	16(%r12,%rax), %rsi
	movq	8(%r12,%rcx), %rdx
	movq	16(%r12,%rcx), %rcx
	callq	"core::cmp::slices::RefSliceOrd::cmp::<#914af4d8504a0b72>"
	movq	%r15, %rdi
	testb	%al, %al
	sete	%bpl
	jmp	36f
35:
	bswapq	%rsi
	bswapq	%rdx
	cmpq	%rsi, %rdx
	setb	%bpl
36:
	testb	%bpl, %bpl
	movq	%rbx, %rax
	cmovneq	%rdi, %rax
	movq	%rax, 48(%rsp)
	movzbl	%bpl, %r15d
	addq	%rdi, %r15
	leaq	(,%r13,8), %rax
	leaq	(%rax,%rax,4), %rax
	movq	8(%rsp), %rcx
	leaq	(,%rcx,8), %rcx
	leaq	(%rcx,%rcx,4), %rcx
	movq	-40(%r12,%rax), %rdx
	movq	-40(%r12,%rcx), %rsi
	cmpq	%rsi, %rdx
	jne	37f
	movq	-32(%r12,%rax), %rdi
	movq	-24(%r12,%rax), %rsi
	movq	-32(%r12,%rcx), %rdx
	movq	-24(%r12,%rcx), %rcx
	callq	"core::cmp::slices::RefSliceOrd::cmp::<#914af4d8504a0b72>"
	testb	%al, %al
	sete	%al
	jmp	38f
37:
	bswapq	%rsi
	bswapq	%rdx
	cmpq	%rsi, %rdx
	setb	%al
38:
	leaq	40(%r14), %r9
	leaq	120(%r14), %rdi
	leaq	80(%r14), %r8
	leaq	200(%r14), %rdx
	leaq	160(%r14), %rsi
	leaq	160(%r12), %r10
	movl	%eax, %r11d
	xorb	$1, %r11b
	movzbl	%r11b, %r11d
	movl	%r13d, %ecx
	subl	%r11d, %ecx
	cmpl	%ecx, %r15d
	movq	8(%rsp), %r15
	ja	39f
	xorb	$1, %bpl
	movzbl	%bpl, %ecx
	addq	%rcx, %rbx
	movzbl	%al, %ecx
	movq	%r15, %r11
	subq	%rcx, %r11
	cmpl	%r11d, %ebx
	ja	39f
	movq	72(%rsp), %rcx
	addq	$255, %rcx
	movq	56(%rsp), %r11
	addq	$255, %r11
	testb	%al, %al
	cmovnel	%r15d, %r13d
	decl	%r13d
	cmpb	$0, 22(%rsp)
	cmoveq	%r12, %r10
	movups	(%r10), %xmm0
	movups	16(%r10), %xmm1
	movq	32(%r10), %rax
	movq	%rax, 32(%r14)
	movups	%xmm1, 16(%r14)
	movups	%xmm0, (%r14)
	movq	80(%rsp), %rax
	leaq	(%rax,%rax,4), %rax
	movups	(%r12,%rax,8), %xmm0
	movups	16(%r12,%rax,8), %xmm1
	movq	32(%r12,%rax,8), %rax
	movq	%rax, 32(%r9)
	movups	%xmm1, 16(%r9)
	movups	%xmm0, (%r9)
	movq	64(%rsp), %rax
	leaq	(%rax,%rax,4), %rax
	movups	(%r12,%rax,8), %xmm0
	movups	16(%r12,%rax,8), %xmm1
	movq	32(%r12,%rax,8), %rax
	movq	%rax, 32(%r8)
	movups	%xmm1, 16(%r8)
	movups	%xmm0, (%r8)
	movq	48(%rsp), %rax
	leaq	(%rax,%rax,4), %rax
	movups	(%r12,%rax,8), %xmm0
	movups	16(%r12,%rax,8), %xmm1
	movq	32(%r12,%rax,8), %rax
	movq	%rax, 32(%rdi)
	movups	%xmm1, 16(%rdi)
	movups	%xmm0, (%rdi)
	movzbl	%r13b, %eax
	leaq	(%rax,%rax,4), %rax
	movups	(%r12,%rax,8), %xmm0
	movups	16(%r12,%rax,8), %xmm1
	movq	32(%r12,%rax,8), %rax
	movq	%rax, 32(%rsi)
	movups	%xmm1, 16(%rsi)
	movups	%xmm0, (%rsi)
	movzbl	%r11b, %eax
	leaq	(%rax,%rax,4), %rax
	movups	(%r12,%rax,8), %xmm0
	movups	16(%r12,%rax,8), %xmm1
	movq	32(%r12,%rax,8), %rax
	movq	%rax, 32(%rdx)
	movups	%xmm1, 16(%rdx)
	movups	%xmm0, (%rdx)
	movzbl	%cl, %eax
	leaq	(%rax,%rax,4), %rax
	movups	(%r12,%rax,8), %xmm0
	movups	16(%r12,%rax,8), %xmm1
	movq	32(%r12,%rax,8), %rax
	leaq	240(%r14), %rdx
	movq	%rax, 32(%rdx)
	cmpb	$0, 23(%rsp)
	leaq	280(%r12), %rax
	leaq	120(%r12), %rcx
	cmovneq	%rcx, %rax
	movups	%xmm1, 16(%rdx)
	movups	%xmm0, (%rdx)
	movups	(%rax), %xmm0
	movups	16(%rax), %xmm1
	movq	32(%rax), %rax
	leaq	280(%r14), %rcx
	movq	%rax, 32(%rcx)
	movups	%xmm1, 16(%rcx)
	movups	%xmm0, (%rcx)
	movl	$8, %edx
	jmp	42f
39:
	movq	%r14, %rax
	subq	%r12, %rax
	cmpq	$319, %rax
	ja	40f
	movups	(%r12), %xmm0
	movups	16(%r12), %xmm1
	movq	32(%r12), %rax
	movq	%rax, 32(%r14)
	leaq	40(%r12), %rax
	movups	%xmm1, 16(%r14)
	movups	%xmm0, (%r14)
	movups	(%rax), %xmm0
	movups	16(%rax), %xmm1
	movq	32(%rax), %rax
	movq	%rax, 32(%r9)
	movups	%xmm1, 16(%r9)
	movups	%xmm0, (%r9)
	leaq	80(%r12), %rax
	movups	(%rax), %xmm0
	movups	16(%rax), %xmm1
	movq	32(%rax), %rax
	movq	%rax, 32(%r8)
	movups	%xmm1, 16(%r8)
	movups	%xmm0, (%r8)
	leaq	120(%r12), %rax
	movups	(%rax), %xmm0
	movups	16(%rax), %xmm1
	movq	32(%rax), %rax
	movq	%rax, 32(%rdi)
	movups	%xmm1, 16(%rdi)
	movups	%xmm0, (%rdi)
	movups	(%r10), %xmm0
	movups	16(%r10), %xmm1
	movq	32(%r10), %rax
	movq	%rax, 32(%rsi)
	movups	%xmm1, 16(%rsi)
	movups	%xmm0, (%rsi)
	leaq	200(%r12), %rax
	movups	(%rax), %xmm0
	movups	16(%rax), %xmm1
	movq	32(%rax), %rax
	movq	%rax, 32(%rdx)
	movups	%xmm1, 16(%rdx)
	movups	%xmm0, (%rdx)
	leaq	240(%r12), %rax
	movups	(%rax), %xmm0
	movups	16(%rax), %xmm1
	movq	32(%rax), %rax
	leaq	240(%r14), %rcx
	movq	%rax, 32(%rcx)
	movups	%xmm1, 16(%rcx)
	movups	%xmm0, (%rcx)
	leaq	280(%r12), %rax
	movups	(%rax), %xmm0
	movups	16(%rax), %xmm1
	movq	32(%rax), %rax
	leaq	280(%r14), %rcx
	movq	%rax, 32(%rcx)
	movups	%xmm1, 16(%rcx)
	movups	%xmm0, (%rcx)
	jmp	41f
40:
	movl	$320, %edx
	movq	%r14, %rdi
	movq	%r12, %rsi
	callq	memmove@PLT
41:
	movl	$4, %edx
42:
	movq	32(%rsp), %rax
	movq	%r12, (%rax)
	movq	24(%rsp), %rcx
	movq	%rcx, 8(%rax)
	jmp	54f
43:
	bswapq	%rax
	bswapq	%rcx
	cmpq	%rax, %rcx
	setb	%bl
	movq	80(%r14), %rax
	movq	120(%r14), %rcx
	cmpq	%rax, %rcx
	jne	3b
44:
	movq	128(%r14), %rdi
	movq	136(%r14), %rsi
	movq	88(%r14), %rdx
	movq	96(%r14), %rcx
	callq	"core::cmp::slices::RefSliceOrd::cmp::<#914af4d8504a0b72>"
	testb	%al, %al
	sete	%al
45:
	movzbl	%bl, %ebp
	movl	%ebp, %ecx
	xorb	$1, %cl
	movzbl	%cl, %r15d
	movzbl	%al, %ebx
	leaq	2(%rbx), %r13
	xorq	$3, %rbx
	leal	(,%r13,8), %ecx
	xorl	%edx, %edx
	testb	%bpl, %bpl
	movl	$40, %eax
	cmoveq	%rdx, %rax
	leaq	(%rcx,%rcx,4), %rsi
	movq	(%r14,%rsi), %rcx
	movq	(%r14,%rax), %rdx
	cmpq	%rdx, %rcx
	jne	46f
	movq	8(%r14,%rsi), %rdi
	movq	16(%r14,%rsi), %rsi
	movq	8(%r14,%rax), %rdx
	movq	16(%r14,%rax), %rcx
	callq	"core::cmp::slices::RefSliceOrd::cmp::<#914af4d8504a0b72>"
	testb	%al, %al
	sete	%dil
	jmp	47f
46:
	bswapq	%rdx
	bswapq	%rcx
	cmpq	%rdx, %rcx
	setb	%dil
47:
	leal	(,%rbx,8), %ecx
	xorl	%edx, %edx
	testb	%bpl, %bpl
	movl	$40, %eax
	cmovneq	%rdx, %rax
	leaq	(%rcx,%rcx,4), %rsi
	movq	(%r14,%rsi), %rcx
	movq	(%r14,%rax), %rdx
	cmpq	%rdx, %rcx
	jne	48f
	movq	%r15, 8(%rsp)
	movl	%edi, %r15d
	movq	8(%r14,%rsi), %rdi
	movq	16(%r14,%rsi), %rsi
	movq	8(%r14,%rax), %rdx
	movq	16(%r14,%rax), %rcx
	callq	"core::cmp::slices::RefSliceOrd::cmp::<#914af4d8504a0b72>"
	movl	%r15d, %edi
	movq	8(%rsp), %r15
	testb	%al, %al
	sete	%al
	jmp	49f
48:
	bswapq	%rdx
	bswapq	%rcx
	cmpq	%rdx, %rcx
	setb	%al
49:
	testb	%al, %al
	movq	%r15, %rcx
	cmovneq	%r13, %r15
	testb	%dil, %dil
	cmovneq	%rbp, %r15
	cmovneq	%r13, %rbp
	cmovneq	%rcx, %r13
	testb	%al, %al
	cmoveq	%rbx, %rcx
	movq	%rcx, 8(%rsp)
	cmovneq	%rbx, %r13
	leal	(,%r13,8), %eax
	leaq	(%rax,%rax,4), %rax
	leal	(,%r15,8), %ecx
	leaq	(%rcx,%rcx,4), %rcx
	movq	(%r14,%rax), %rdx
	movq	(%r14,%rcx), %rsi
	cmpq	%rsi, %rdx
	jne	50f
	movq	8(%r14,%rax), %rdi
	movq	16(%r14,%rax), %rsi
	movq	8(%r14,%rcx), %rdx
	movq	16(%r14,%rcx), %rcx
	callq	"core::cmp::slices::RefSliceOrd::cmp::<#914af4d8504a0b72>"
	testb	%al, %al
	sete	%al
	jmp	51f
50:
	bswapq	%rsi
	bswapq	%rdx
	cmpq	%rsi, %rdx
	setb	%al
51:
	testb	%al, %al
	movq	%r15, %rax
	cmovneq	%r13, %rax
	cmovneq	%r15, %r13
	leaq	(,%rbp,4), %rcx
	addq	%rbp, %rcx
	movups	(%r14,%rcx,8), %xmm0
	movups	16(%r14,%rcx,8), %xmm1
	movq	32(%r14,%rcx,8), %rcx
	movq	%rcx, 32(%r12)
	movups	%xmm1, 16(%r12)
	movups	%xmm0, (%r12)
	leaq	(%rax,%rax,4), %rax
	movups	(%r14,%rax,8), %xmm0
	movups	16(%r14,%rax,8), %xmm1
	movq	32(%r14,%rax,8), %rax
	movq	%rax, 72(%r12)
	movups	%xmm1, 56(%r12)
	movups	%xmm0, 40(%r12)
	leaq	(%r13,%r13,4), %rax
	movups	(%r14,%rax,8), %xmm0
	movups	16(%r14,%rax,8), %xmm1
	movq	32(%r14,%rax,8), %rax
	movq	%rax, 112(%r12)
	movups	%xmm1, 96(%r12)
	movups	%xmm0, 80(%r12)
	movq	8(%rsp), %rax
	leaq	(%rax,%rax,4), %rax
	movups	(%r14,%rax,8), %xmm0
	movups	16(%r14,%rax,8), %xmm1
	movq	32(%r14,%rax,8), %rax
	movq	%rax, 152(%r12)
	movups	%xmm1, 136(%r12)
	movups	%xmm0, 120(%r12)
	movq	%r14, %rax
	subq	%r12, %rax
	cmpq	$159, %rax
	ja	52f
	leaq	40(%r14), %rax
	leaq	120(%r14), %rcx
	leaq	80(%r14), %rdx
	leaq	40(%r12), %rsi
	leaq	80(%r12), %rdi
	leaq	120(%r12), %r8
	movups	(%r12), %xmm0
	movups	16(%r12), %xmm1
	movq	32(%r12), %r9
	movq	%r9, 32(%r14)
	movups	%xmm1, 16(%r14)
	movups	%xmm0, (%r14)
	movups	(%rsi), %xmm0
	movups	16(%rsi), %xmm1
	movq	32(%rsi), %rsi
	movq	%rsi, 32(%rax)
	movups	%xmm1, 16(%rax)
	movups	%xmm0, (%rax)
	movups	(%rdi), %xmm0
	movups	16(%rdi), %xmm1
	movq	32(%rdi), %rax
	movq	%rax, 32(%rdx)
	movups	%xmm1, 16(%rdx)
	movups	%xmm0, (%rdx)
	movups	(%r8), %xmm0
	movups	16(%r8), %xmm1
	movq	32(%r8), %rax
	movq	%rax, 32(%rcx)
	movups	%xmm1, 16(%rcx)
	movups	%xmm0, (%rcx)
	jmp	53f
52:
	movl	$160, %edx
	movq	%r14, %rdi
	movq	%r12, %rsi
	callq	memmove@PLT
53:
	movq	32(%rsp), %rax
	movq	%r12, (%rax)
	movq	24(%rsp), %rcx
	movq	%rcx, 8(%rax)
	movl	$4, %edx
54:
	movq	40(%rsp), %rsi
55:
	movq	%r14, %rdi
	addq	$88, %rsp
	popq	%rbx
	popq	%r12
	popq	%r13
	popq	%r14
	popq	%r15
	popq	%rbp
	jmp	"core::slice::sort::small::insert_from::<#32fabb223415b920>"
56:
	.size	"core::slice::sort::short::sort_half::<#32fabb223415b920>", 56b-"core::slice::sort::short::sort_half::<#32fabb223415b920>"

	.text
	.p2align	4
	.type	"core::slice::sort::short::sort_half::<#54047240e3f04dbb>",@function
"core::slice::sort::short::sort_half::<#54047240e3f04dbb>":
	pushq	%rbp
	pushq	%r15
	pushq	%r14
	pushq	%r13
	pushq	%r12
	pushq	%rbx
	subq	$216, %rsp
	movq	%rdx, 88(%rsp)
	movq	%rsi, 96(%rsp)
	cmpq	$8, %rsi
	jb	1f
	leaq	80(%rdi), %rsi
	movl	160(%rdi), %ecx
	xorl	%eax, %eax
	cmpl	240(%rdi), %ecx
	movl	(%rdi), %r10d
	setb	%al
	leaq	2(%rax), %r8
	xorq	$3, %rax
	leaq	(%r8,%r8,4), %r9
	shll	$4, %r9d
	leaq	(%rax,%rax,4), %r11
	shll	$4, %r11d
	xorl	%ecx, %ecx
	xorl	%edx, %edx
	cmpl	80(%rdi), %r10d
	setae	%cl
	movq	%rdi, %r10
	cmovbq	%rsi, %r10
	setb	%dl
	movl	(%r10), %r10d
	cmovbq	%rdi, %rsi
	movl	(%rsi), %ebx
	movl	(%rdi,%r11), %r11d
	cmpl	%r11d, %ebx
	movq	%rcx, %rsi
	cmovbq	%r8, %rsi
	cmpl	(%rdi,%r9), %r10d
	cmovbq	%rdx, %rsi
	cmovbq	%r8, %rdx
	cmovbq	%rcx, %r8
	cmpl	%r11d, %ebx
	movq	88(%rsp), %r9
	movq	(%r9), %rbx
	cmovaeq	%rax, %rcx
	cmovbq	%rax, %r8
	leaq	(%r8,%r8,4), %rax
	shll	$4, %eax
	leaq	(%rsi,%rsi,4), %r10
	shll	$4, %r10d
	movl	(%rdi,%r10), %r10d
	cmpl	(%rdi,%rax), %r10d
	movq	%rsi, %rax
	cmovbq	%r8, %rax
	cmovbq	%rsi, %r8
	movq	8(%r9), %rsi
	movq	%rsi, 208(%rsp)
	leaq	(%rdx,%rdx,4), %rdx
	shll	$4, %edx
	movl	(%rdi,%rdx), %ebp
	movzbl	8(%rdi,%rdx), %esi
	movq	48(%rdi,%rdx), %r9
	movq	%r9, 64(%rsp)
	movups	16(%rdi,%rdx), %xmm0
	movups	32(%rdi,%rdx), %xmm1
	movaps	%xmm1, 48(%rsp)
	movaps	%xmm0, 32(%rsp)
	movq	72(%rdi,%rdx), %r9
	movq	%r9, 16(%rsp)
	movups	56(%rdi,%rdx), %xmm0
	movaps	%xmm0, (%rsp)
	movl	%ebp, (%rbx)
	movq	%rsi, 8(%rbx)
	movaps	32(%rsp), %xmm0
	movaps	48(%rsp), %xmm1
	movups	%xmm0, 16(%rbx)
	movups	%xmm1, 32(%rbx)
	movq	64(%rsp), %rdx
	movq	%rdx, 48(%rbx)
	movaps	(%rsp), %xmm0
	movups	%xmm0, 56(%rbx)
	movq	16(%rsp), %rdx
	movq	%rdx, 72(%rbx)
	leaq	(%rax,%rax,4), %rax
	shlq	$4, %rax
	movl	(%rdi,%rax), %edx
	movzbl	8(%rdi,%rax), %esi
	movq	48(%rdi,%rax), %r9
	movq	%r9, 64(%rsp)
	movups	16(%rdi,%rax), %xmm0
	movups	32(%rdi,%rax), %xmm1
	movaps	%xmm1, 48(%rsp)
	movaps	%xmm0, 32(%rsp)
	movq	72(%rdi,%rax), %r9
	movq	%r9, 16(%rsp)
	movups	56(%rdi,%rax), %xmm0
	movaps	%xmm0, (%rsp)
	movl	%edx, 80(%rbx)
	movq	%rsi, 88(%rbx)
	movaps	32(%rsp), %xmm0
	movaps	48(%rsp), %xmm1
	movups	%xmm0, 96(%rbx)
	movups	%xmm1, 112(%rbx)
	movq	64(%rsp), %rax
	movq	%rax, 128(%rbx)
	movaps	(%rsp), %xmm0
	movups	%xmm0, 136(%rbx)
	movq	16(%rsp), %rax
	movq	%rax, 152(%rbx)
	leaq	(%r8,%r8,4), %rax
	shlq	$4, %rax
	movl	(%rdi,%rax), %edx
	movzbl	8(%rdi,%rax), %esi
	movq	48(%rdi,%rax), %r8
	movq	%r8, 64(%rsp)
	movups	16(%rdi,%rax), %xmm0
	movups	32(%rdi,%rax), %xmm1
	movaps	%xmm1, 48(%rsp)
	movaps	%xmm0, 32(%rsp)
	movq	72(%rdi,%rax), %r8
	movq	%r8, 16(%rsp)
	movups	56(%rdi,%rax), %xmm0
	movaps	%xmm0, (%rsp)
	movl	%edx, 160(%rbx)
	movq	%rsi, 168(%rbx)
	movaps	32(%rsp), %xmm0
	movaps	48(%rsp), %xmm1
	movups	%xmm0, 176(%rbx)
	movups	%xmm1, 192(%rbx)
	movq	64(%rsp), %rax
	movq	%rax, 208(%rbx)
	movaps	(%rsp), %xmm0
	movups	%xmm0, 216(%rbx)
	movq	16(%rsp), %rax
	movq	%rax, 232(%rbx)
	leaq	(%rcx,%rcx,4), %rax
	shll	$4, %eax
	movl	(%rdi,%rax), %r15d
	movzbl	8(%rdi,%rax), %ecx
	movq	48(%rdi,%rax), %rdx
	movq	%rdx, 64(%rsp)
	movups	16(%rdi,%rax), %xmm0
	movups	32(%rdi,%rax), %xmm1
	movaps	%xmm1, 48(%rsp)
	movaps	%xmm0, 32(%rsp)
	movq	72(%rdi,%rax), %rdx
	movq	%rdx, 16(%rsp)
	movups	56(%rdi,%rax), %xmm0
	movaps	%xmm0, (%rsp)
	movl	%r15d, 240(%rbx)
	movq	%rcx, 248(%rbx)
	movaps	32(%rsp), %xmm0
	movaps	48(%rsp), %xmm1
	movups	%xmm0, 256(%rbx)
	movups	%xmm1, 272(%rbx)
	movq	64(%rsp), %rax
	movq	%rax, 288(%rbx)
	movaps	(%rsp), %xmm0
	movups	%xmm0, 296(%rbx)
	movq	16(%rsp), %rax
	movq	%rax, 312(%rbx)
	movl	320(%rdi), %eax
	movl	480(%rdi), %edx
	xorl	%r9d, %r9d
	cmpl	400(%rdi), %eax
	setb	%r9b
	xorl	%ecx, %ecx
	cmpl	560(%rdi), %edx
	setb	%cl
	leaq	4(%r9), %rax
	xorq	$5, %r9
	leaq	6(%rcx), %r10
	xorq	$7, %rcx
	leaq	(%r10,%r10,4), %rdx
	shll	$4, %edx
	leaq	(%rax,%rax,4), %rsi
	shll	$4, %esi
	movl	(%rdi,%rsi), %esi
	leaq	(%rcx,%rcx,4), %r8
	shll	$4, %r8d
	leaq	(%r9,%r9,4), %r11
	shll	$4, %r11d
	movl	(%rdi,%r11), %r11d
	movl	(%rdi,%r8), %r8d
	cmpl	%r8d, %r11d
	movq	%r9, %r14
	cmovbq	%r10, %r14
	cmpl	(%rdi,%rdx), %esi
	cmovbq	%rax, %r14
	cmovbq	%r10, %rax
	cmovbq	%r9, %r10
	cmpl	%r8d, %r11d
	cmovaeq	%rcx, %r9
	cmovbq	%rcx, %r10
	leaq	(%r10,%r10,4), %rcx
	shll	$4, %ecx
	leaq	(%r14,%r14,4), %rdx
	shll	$4, %edx
	movl	(%rdi,%rdx), %edx
	cmpl	(%rdi,%rcx), %edx
	movq	%r14, %rcx
	cmovbq	%r10, %rcx
	cmovbq	%r14, %r10
	leaq	(%rax,%rax,4), %rax
	shll	$4, %eax
	movl	(%rdi,%rax), %r8d
	movzbl	8(%rdi,%rax), %edx
	movq	48(%rdi,%rax), %rsi
	movq	%rsi, 64(%rsp)
	movups	16(%rdi,%rax), %xmm0
	movups	32(%rdi,%rax), %xmm1
	movaps	%xmm1, 48(%rsp)
	movaps	%xmm0, 32(%rsp)
	movq	72(%rdi,%rax), %rsi
	movq	%rsi, 16(%rsp)
	movups	56(%rdi,%rax), %xmm0
	movaps	%xmm0, (%rsp)
	movl	%r8d, 320(%rbx)
	movq	%rdx, 328(%rbx)
	movaps	32(%rsp), %xmm0
	movaps	48(%rsp), %xmm1
	movups	%xmm0, 336(%rbx)
	movups	%xmm1, 352(%rbx)
	movq	64(%rsp), %rax
	movq	%rax, 368(%rbx)
	movaps	(%rsp), %xmm0
	movups	%xmm0, 376(%rbx)
	movq	16(%rsp), %rax
	movq	%rax, 392(%rbx)
	leaq	(%rcx,%rcx,4), %rax
	shlq	$4, %rax
	movl	(%rdi,%rax), %ecx
	movzbl	8(%rdi,%rax), %edx
	movq	48(%rdi,%rax), %rsi
	movq	%rsi, 64(%rsp)
	movups	16(%rdi,%rax), %xmm0
	movups	32(%rdi,%rax), %xmm1
	movaps	%xmm1, 48(%rsp)
	movaps	%xmm0, 32(%rsp)
	movq	72(%rdi,%rax), %rsi
	movq	%rsi, 16(%rsp)
	movups	56(%rdi,%rax), %xmm0
	movaps	%xmm0, (%rsp)
	movl	%ecx, 400(%rbx)
	movq	%rdx, 408(%rbx)
	movaps	32(%rsp), %xmm0
	movaps	48(%rsp), %xmm1
	movups	%xmm0, 416(%rbx)
	movups	%xmm1, 432(%rbx)
	movq	64(%rsp), %rax
	movq	%rax, 448(%rbx)
	movaps	(%rsp), %xmm0
	movups	%xmm0, 456(%rbx)
	movq	16(%rsp), %rax
	movq	%rax, 472(%rbx)
	leaq	(%r10,%r10,4), %rax
	shlq	$4, %rax
	movl	(%rdi,%rax), %ecx
	movzbl	8(%rdi,%rax), %edx
	movq	48(%rdi,%rax), %rsi
	movq	%rsi, 64(%rsp)
	movups	16(%rdi,%rax), %xmm0
	movups	32(%rdi,%rax), %xmm1
	movaps	%xmm1, 48(%rsp)
	movaps	%xmm0, 32(%rsp)
	movq	72(%rdi,%rax), %rsi
	movq	%rsi, 16(%rsp)
	movups	56(%rdi,%rax), %xmm0
	movaps	%xmm0, (%rsp)
	movl	%ecx, 480(%rbx)
	movq	%rdx, 488(%rbx)
	movaps	32(%rsp), %xmm0
	movaps	48(%rsp), %xmm1
	movups	%xmm0, 496(%rbx)
	movups	%xmm1, 512(%rbx)
	movq	64(%rsp), %rax
	movq	%rax, 528(%rbx)
	movaps	(%rsp), %xmm0
	movups	%xmm0, 536(%rbx)
	movq	16(%rsp), %rax
	movq	%rax, 552(%rbx)
	leaq	(%r9,%r9,4), %rax
	shll	$4, %eax
	movl	(%rdi,%rax), %esi
	movzbl	8(%rdi,%rax), %ecx
	movq	48(%rdi,%rax), %rdx
	movq	%rdx, 64(%rsp)
	movups	16(%rdi,%rax), %xmm0
	movups	32(%rdi,%rax), %xmm1
	movaps	%xmm1, 48(%rsp)
	movaps	%xmm0, 32(%rsp)
	movq	72(%rdi,%rax), %rdx
	movq	%rdx, 16(%rsp)
	movups	56(%rdi,%rax), %xmm0
	movaps	%xmm0, (%rsp)
	movl	%esi, 560(%rbx)
	movq	%rcx, 568(%rbx)
	movaps	32(%rsp), %xmm0
	movaps	48(%rsp), %xmm1
	movups	%xmm0, 576(%rbx)
	movups	%xmm1, 592(%rbx)
	movq	64(%rsp), %rax
	movq	%rax, 608(%rbx)
	movaps	(%rsp), %xmm0
	movups	%xmm0, 616(%rbx)
	movq	16(%rsp), %rax
	movq	%rax, 632(%rbx)
	xorl	%eax, %eax
	movl	%r15d, 148(%rsp)
	movl	%esi, 140(%rsp)
	cmpl	%esi, %r15d
	setb	%al
	movl	$4, %r9d
	movl	$4, %ecx
	subq	%rax, %rcx
	leaq	7(%rax), %r13
	movq	%rcx, 176(%rsp)
	leaq	(%rcx,%rcx,4), %rcx
	shll	$4, %ecx
	leaq	(%rax,%rax,4), %rdx
	shll	$4, %edx
	movl	480(%rdx,%rbx), %edx
	movl	-80(%rbx,%rcx), %ecx
	cmpl	%edx, %ecx
	sbbq	%rax, %r9
	movl	%edx, 136(%rsp)
	movl	%ecx, 132(%rsp)
	cmpl	%edx, %ecx
	movq	%r13, 192(%rsp)
	adcq	$-1, %r13
	leaq	(,%r13,4), %rax
	addq	%r13, %rax
	shlq	$4, %rax
	leaq	(%r9,%r9,4), %rcx
	shlq	$4, %rcx
	movl	-80(%rbx,%rax), %edx
	movl	-80(%rbx,%rcx), %ecx
	xorl	%eax, %eax
	movl	%edx, 128(%rsp)
	movl	%ecx, 124(%rsp)
	cmpl	%edx, %ecx
	setb	%al
	movq	%r13, 184(%rsp)
	adcq	$-1, %r13
	movq	%r9, %rdx
	subq	%rax, %rdx
	leaq	(,%r13,4), %rcx
	addq	%r13, %rcx
	shlq	$4, %rcx
	movq	%rdx, 160(%rsp)
	leaq	(%rdx,%rdx,4), %rdx
	shlq	$4, %rdx
	movl	-80(%rbx,%rcx), %ecx
	movl	-80(%rbx,%rdx), %edx
	cmpl	%ecx, %edx
	movq	%r9, 168(%rsp)
	sbbq	%rax, %r9
	movq	%r9, 200(%rsp)
	movl	%ecx, 112(%rsp)
	movl	%edx, 108(%rsp)
	cmpl	%ecx, %edx
	movl	%r13d, %r14d
	adcl	$-1, %r14d
	xorl	%r12d, %r12d
	movl	%ebp, 84(%rsp)
	movl	%r8d, 144(%rsp)
	cmpl	%r8d, %ebp
	setae	%r12b
	leaq	80(%rbx), %rax
	cmovbq	%rbx, %rax
	movq	%r12, %rcx
	xorq	$5, %rcx
	leaq	(%rcx,%rcx,4), %rdx
	shll	$4, %edx
	movl	(%rbx,%rdx), %edx
	movl	(%rax), %eax
	xorl	%esi, %esi
	movl	%edx, 120(%rsp)
	movl	%eax, 116(%rsp)
	cmpl	%edx, %eax
	setb	%sil
	movq	%r12, %r10
	sbbq	$-1, %r10
	leaq	(%rcx,%rsi), %rax
	movq	%rax, 152(%rsp)
	leaq	(%rax,%rax,4), %rax
	shll	$4, %eax
	leaq	(%r10,%r10,4), %rdx
	shll	$4, %edx
	movl	(%rbx,%rax), %ebp
	movl	(%rbx,%rdx), %r15d
	cmpl	%ebp, %r15d
	adcq	%rcx, %rsi
	cmpl	%ebp, %r15d
	movq	%r10, %rax
	sbbq	$-1, %rax
	leaq	(%rsi,%rsi,4), %rdx
	shll	$4, %edx
	leaq	(%rax,%rax,4), %r8
	shll	$4, %r8d
	movl	(%rbx,%rdx), %edx
	movl	(%rbx,%r8), %r8d
	cmpl	%edx, %r8d
	movl	%esi, %r11d
	adcl	$0, %r11d
	cmpl	%edx, %r8d
	movq	%rax, %r9
	sbbq	$-1, %r9
	cmpl	%r14d, %r11d
	ja	2f
	cmpq	200(%rsp), %r9
	ja	2f
	movl	108(%rsp), %r9d
	cmpl	112(%rsp), %r9d
	cmovbl	160(%rsp), %r13d
	decl	%r13d
	cmpl	%edx, %r8d
	cmovbq	%rsi, %rax
	movl	124(%rsp), %edx
	cmpl	128(%rsp), %edx
	movq	184(%rsp), %r8
	cmovbl	168(%rsp), %r8d
	decl	%r8d
	cmpl	%ebp, %r15d
	cmovbq	152(%rsp), %r10
	movl	132(%rsp), %edx
	cmpl	136(%rsp), %edx
	movq	192(%rsp), %r9
	cmovbl	176(%rsp), %r9d
	decl	%r9d
	movl	116(%rsp), %edx
	cmpl	120(%rsp), %edx
	cmovbq	%rcx, %r12
	movl	144(%rsp), %ecx
	cmpl	%ecx, 84(%rsp)
	leaq	320(%rbx), %rsi
	cmovaeq	%rbx, %rsi
	leaq	(%r12,%r12,4), %rdx
	shll	$4, %edx
	leaq	(%r10,%r10,4), %rcx
	shlq	$4, %rcx
	leaq	(%rax,%rax,4), %r15
	shlq	$4, %r15
	movzbl	%r13b, %eax
	leaq	(%rax,%rax,4), %r14
	shll	$4, %r14d
	movzbl	%r8b, %eax
	leaq	(%rax,%rax,4), %r8
	shll	$4, %r8d
	movzbl	%r9b, %eax
	leaq	(%rax,%rax,4), %rax
	shll	$4, %eax
	movl	140(%rsp), %r9d
	cmpl	%r9d, 148(%rsp)
	movl	(%rsi), %r9d
	movzbl	8(%rsi), %r10d
	movq	48(%rsi), %r11
	movq	%r11, 64(%rsp)
	movups	16(%rsi), %xmm0
	movups	32(%rsi), %xmm1
	movaps	%xmm1, 48(%rsp)
	movaps	%xmm0, 32(%rsp)
	movq	72(%rsi), %r11
	movq	%r11, 16(%rsp)
	movups	56(%rsi), %xmm0
	movaps	%xmm0, (%rsp)
	movl	%r9d, (%rdi)
	movq	%r10, 8(%rdi)
	movaps	32(%rsp), %xmm0
	movaps	48(%rsp), %xmm1
	movups	%xmm0, 16(%rdi)
	movups	%xmm1, 32(%rdi)
	movq	64(%rsp), %rsi
	movq	%rsi, 48(%rdi)
	movaps	(%rsp), %xmm0
	movups	%xmm0, 56(%rdi)
	movq	16(%rsp), %rsi
	movq	%rsi, 72(%rdi)
	movl	(%rbx,%rdx), %esi
	movzbl	8(%rbx,%rdx), %r9d
	movq	48(%rbx,%rdx), %r10
	movq	%r10, 64(%rsp)
	movups	16(%rbx,%rdx), %xmm0
	movups	32(%rbx,%rdx), %xmm1
	movaps	%xmm1, 48(%rsp)
	movaps	%xmm0, 32(%rsp)
	movq	72(%rbx,%rdx), %r10
	movq	%r10, 16(%rsp)
	movups	56(%rbx,%rdx), %xmm0
	movaps	%xmm0, (%rsp)
	movl	%esi, 80(%rdi)
	movq	%r9, 88(%rdi)
	movaps	32(%rsp), %xmm0
	movaps	48(%rsp), %xmm1
	movups	%xmm0, 96(%rdi)
	movups	%xmm1, 112(%rdi)
	movq	64(%rsp), %rdx
	movq	%rdx, 128(%rdi)
	movaps	(%rsp), %xmm0
	movups	%xmm0, 136(%rdi)
	movq	16(%rsp), %rdx
	movq	%rdx, 152(%rdi)
	movl	(%rbx,%rcx), %edx
	movzbl	8(%rbx,%rcx), %esi
	movq	48(%rbx,%rcx), %r9
	movq	%r9, 64(%rsp)
	movups	16(%rbx,%rcx), %xmm0
	movups	32(%rbx,%rcx), %xmm1
	movaps	%xmm1, 48(%rsp)
	movaps	%xmm0, 32(%rsp)
	movq	72(%rbx,%rcx), %r9
	movq	%r9, 16(%rsp)
	movups	56(%rbx,%rcx), %xmm0
	movaps	%xmm0, (%rsp)
	movl	%edx, 160(%rdi)
	movq	%rsi, 168(%rdi)
	movaps	32(%rsp), %xmm0
	movaps	48(%rsp), %xmm1
	movups	%xmm0, 176(%rdi)
	movups	%xmm1, 192(%rdi)
	movq	64(%rsp), %rcx
	movq	%rcx, 208(%rdi)
	movaps	(%rsp), %xmm0
	movups	%xmm0, 216(%rdi)
	movq	16(%rsp), %rcx
	movq	%rcx, 232(%rdi)
	movl	(%rbx,%r15), %ecx
	movzbl	8(%rbx,%r15), %edx
	movq	48(%rbx,%r15), %rsi
	movq	%rsi, 64(%rsp)
	movups	16(%rbx,%r15), %xmm0
	movups	32(%rbx,%r15), %xmm1
	movaps	%xmm1, 48(%rsp)
	movaps	%xmm0, 32(%rsp)
	movq	72(%rbx,%r15), %rsi
	movq	%rsi, 16(%rsp)
	movups	56(%rbx,%r15), %xmm0
	movaps	%xmm0, (%rsp)
	movl	%ecx, 240(%rdi)
	movq	%rdx, 248(%rdi)
	movaps	32(%rsp), %xmm0
	movaps	48(%rsp), %xmm1
	movups	%xmm0, 256(%rdi)
	movups	%xmm1, 272(%rdi)
	movq	64(%rsp), %rcx
	movq	%rcx, 288(%rdi)
	movaps	(%rsp), %xmm0
	movups	%xmm0, 296(%rdi)
	movq	16(%rsp), %rcx
	movq	%rcx, 312(%rdi)
	movl	(%rbx,%r14), %ecx
	movzbl	8(%rbx,%r14), %edx
	movq	48(%rbx,%r14), %rsi
	movq	%rsi, 64(%rsp)
	movups	16(%rbx,%r14), %xmm0
	movups	32(%rbx,%r14), %xmm1
	movaps	%xmm1, 48(%rsp)
	movaps	%xmm0, 32(%rsp)
	movq	72(%rbx,%r14), %rsi
	movq	%rsi, 16(%rsp)
	movups	56(%rbx,%r14), %xmm0
	movaps	%xmm0, (%rsp)
	movl	%ecx, 320(%rdi)
	movq	%rdx, 328(%rdi)
	movaps	32(%rsp), %xmm0
	movaps	48(%rsp), %xmm1
	movups	%xmm0, 336(%rdi)
	movups	%xmm1, 352(%rdi)
	movq	64(%rsp), %rcx
	movq	%rcx, 368(%rdi)
	movaps	(%rsp), %xmm0
	movups	%xmm0, 376(%rdi)
	movq	16(%rsp), %rcx
	movq	%rcx, 392(%rdi)
	movl	(%rbx,%r8), %ecx
	movzbl	8(%rbx,%r8), %edx
	movq	48(%rbx,%r8), %rsi
	movq	%rsi, 64(%rsp)
	movups	16(%rbx,%r8), %xmm0
	movups	32(%rbx,%r8), %xmm1
	movaps	%xmm1, 48(%rsp)
	movaps	%xmm0, 32(%rsp)
	movq	72(%rbx,%r8), %rsi
	movq	%rsi, 16(%rsp)
	movups	56(%rbx,%r8), %xmm0
	movaps	%xmm0, (%rsp)
	movl	%ecx, 400(%rdi)
	movq	%rdx, 408(%rdi)
	movaps	32(%rsp), %xmm0
	movaps	48(%rsp), %xmm1
	movups	%xmm0, 416(%rdi)
	movups	%xmm1, 432(%rdi)
	movq	64(%rsp), %rcx
	movq	%rcx, 448(%rdi)
	movaps	(%rsp), %xmm0
	movups	%xmm0, 456(%rdi)
	movq	16(%rsp), %rcx
	movq	%rcx, 472(%rdi)
	movl	(%rbx,%rax), %ecx
	movzbl	8(%rbx,%rax), %edx
	movq	48(%rbx,%rax), %rsi
	movq	%rsi, 64(%rsp)
	movups	16(%rbx,%rax), %xmm0
	movups	32(%rbx,%rax), %xmm1
	movaps	%xmm1, 48(%rsp)
	movaps	%xmm0, 32(%rsp)
	movq	72(%rbx,%rax), %rsi
	movq	%rsi, 16(%rsp)
	leaq	560(%rbx), %rsi
	movups	56(%rbx,%rax), %xmm0
	leaq	240(%rbx), %rax
	movaps	%xmm0, (%rsp)
	movl	%ecx, 480(%rdi)
	movq	%rdx, 488(%rdi)
	movaps	32(%rsp), %xmm0
	movaps	48(%rsp), %xmm1
	movups	%xmm0, 496(%rdi)
	movups	%xmm1, 512(%rdi)
	movq	64(%rsp), %rcx
	movq	%rcx, 528(%rdi)
	movaps	(%rsp), %xmm0
	movups	%xmm0, 536(%rdi)
	movq	16(%rsp), %rcx
	movq	%rcx, 552(%rdi)
	cmovbq	%rax, %rsi
	movl	(%rsi), %eax
	movzbl	8(%rsi), %ecx
	movq	48(%rsi), %rdx
	movq	%rdx, 64(%rsp)
	movups	16(%rsi), %xmm0
	movups	32(%rsi), %xmm1
	movaps	%xmm1, 48(%rsp)
	movaps	%xmm0, 32(%rsp)
	movq	72(%rsi), %rdx
	movq	%rdx, 16(%rsp)
	movups	56(%rsi), %xmm0
	movaps	%xmm0, (%rsp)
	movl	%eax, 560(%rdi)
	movq	%rcx, 568(%rdi)
	movaps	32(%rsp), %xmm0
	movaps	48(%rsp), %xmm1
	movups	%xmm0, 576(%rdi)
	movups	%xmm1, 592(%rdi)
	movq	64(%rsp), %rax
	movq	%rax, 608(%rdi)
	movaps	(%rsp), %xmm0
	movups	%xmm0, 616(%rdi)
	movq	16(%rsp), %rax
	movq	%rax, 632(%rdi)
	movl	$8, %eax
	jmp	5f
1:
	movl	$1, %eax
	cmpq	$4, 96(%rsp)
	jb	6f
	leaq	80(%rdi), %rsi
	movl	160(%rdi), %eax
	xorl	%ecx, %ecx
	cmpl	240(%rdi), %eax
	movl	(%rdi), %r10d
	setb	%cl
	leaq	2(%rcx), %r9
	xorq	$3, %rcx
	leaq	(%r9,%r9,4), %r8
	shll	$4, %r8d
	leaq	(%rcx,%rcx,4), %r11
	shll	$4, %r11d
	xorl	%eax, %eax
	xorl	%edx, %edx
	cmpl	80(%rdi), %r10d
	setae	%al
	movq	%rdi, %r10
	cmovbq	%rsi, %r10
	setb	%dl
	movl	(%r10), %ebx
	cmovbq	%rdi, %rsi
	movl	(%rsi), %esi
	movl	(%rdi,%r11), %r11d
	cmpl	%r11d, %esi
	movq	%rax, %r10
	cmovbq	%r9, %r10
	cmpl	(%rdi,%r8), %ebx
	cmovbq	%rdx, %r10
	cmovbq	%r9, %rdx
	cmovbq	%rax, %r9
	cmpl	%r11d, %esi
	movq	88(%rsp), %r8
	movq	(%r8), %rbx
	cmovaeq	%rcx, %rax
	cmovbq	%rcx, %r9
	leaq	(%r9,%r9,4), %rcx
	shll	$4, %ecx
	leaq	(%r10,%r10,4), %rsi
	shll	$4, %esi
	movl	(%rdi,%rsi), %esi
	cmpl	(%rdi,%rcx), %esi
	movq	%r10, %rsi
	cmovbq	%r9, %rsi
	cmovbq	%r10, %r9
	movq	8(%r8), %r15
	leaq	(%rdx,%rdx,4), %rdx
	shll	$4, %edx
	movl	(%rdi,%rdx), %ecx
	movzbl	8(%rdi,%rdx), %r8d
	movq	48(%rdi,%rdx), %r10
	movq	%r10, 64(%rsp)
	movups	16(%rdi,%rdx), %xmm0
	movups	32(%rdi,%rdx), %xmm1
	movaps	%xmm1, 48(%rsp)
	movaps	%xmm0, 32(%rsp)
	movq	72(%rdi,%rdx), %r10
	movq	%r10, 16(%rsp)
	movups	56(%rdi,%rdx), %xmm0
	movaps	%xmm0, (%rsp)
	movl	%ecx, (%rbx)
	movq	%r8, 8(%rbx)
	movaps	32(%rsp), %xmm0
	movaps	48(%rsp), %xmm1
	movups	%xmm0, 16(%rbx)
	movups	%xmm1, 32(%rbx)
	movq	64(%rsp), %rdx
	movq	%rdx, 48(%rbx)
	movaps	(%rsp), %xmm0
	movups	%xmm0, 56(%rbx)
	movq	16(%rsp), %rdx
	movq	%rdx, 72(%rbx)
	leaq	(%rsi,%rsi,4), %rdx
	shlq	$4, %rdx
	movl	(%rdi,%rdx), %esi
	movzbl	8(%rdi,%rdx), %r10d
	movq	48(%rdi,%rdx), %r11
	movq	%r11, 64(%rsp)
	movups	16(%rdi,%rdx), %xmm0
	movups	32(%rdi,%rdx), %xmm1
	movaps	%xmm1, 48(%rsp)
	movaps	%xmm0, 32(%rsp)
	movq	72(%rdi,%rdx), %r11
	movq	%r11, 16(%rsp)
	movups	56(%rdi,%rdx), %xmm0
	movaps	%xmm0, (%rsp)
	movl	%esi, 80(%rbx)
	movq	%r10, 88(%rbx)
	movaps	32(%rsp), %xmm0
	movaps	48(%rsp), %xmm1
	movups	%xmm0, 96(%rbx)
	movups	%xmm1, 112(%rbx)
	movq	64(%rsp), %rdx
	movq	%rdx, 128(%rbx)
	movaps	(%rsp), %xmm0
	movups	%xmm0, 136(%rbx)
	movq	16(%rsp), %rdx
	movq	%rdx, 152(%rbx)
	leaq	(%r9,%r9,4), %rdx
	shlq	$4, %rdx
	movl	(%rdi,%rdx), %esi
	movzbl	8(%rdi,%rdx), %r9d
	movq	48(%rdi,%rdx), %r10
	movq	%r10, 64(%rsp)
	movups	16(%rdi,%rdx), %xmm0
	movups	32(%rdi,%rdx), %xmm1
	movaps	%xmm1, 48(%rsp)
	movaps	%xmm0, 32(%rsp)
	movq	72(%rdi,%rdx), %r10
	movq	%r10, 16(%rsp)
	movups	56(%rdi,%rdx), %xmm0
	movaps	%xmm0, (%rsp)
	movl	%esi, 160(%rbx)
	movq	%r9, 168(%rbx)
	movaps	32(%rsp), %xmm0
	movaps	48(%rsp), %xmm1
	movups	%xmm0, 176(%rbx)
	movups	%xmm1, 192(%rbx)
	movq	64(%rsp), %rdx
	movq	%rdx, 208(%rbx)
	movaps	(%rsp), %xmm0
	movups	%xmm0, 216(%rbx)
	movq	16(%rsp), %rdx
	movq	%rdx, 232(%rbx)
	leaq	(%rax,%rax,4), %rax
	shll	$4, %eax
	movl	(%rdi,%rax), %edx
	movzbl	8(%rdi,%rax), %esi
	movq	48(%rdi,%rax), %r9
	movq	%r9, 64(%rsp)
	movups	16(%rdi,%rax), %xmm0
	movups	32(%rdi,%rax), %xmm1
	movaps	%xmm1, 48(%rsp)
	movaps	%xmm0, 32(%rsp)
	movq	72(%rdi,%rax), %r9
	movq	%r9, 16(%rsp)
	movups	56(%rdi,%rax), %xmm0
	movaps	%xmm0, (%rsp)
	movl	%edx, 240(%rbx)
	movq	%rsi, 248(%rbx)
	movaps	32(%rsp), %xmm0
	movaps	48(%rsp), %xmm1
	movups	%xmm0, 256(%rbx)
	movups	%xmm1, 272(%rbx)
	movq	64(%rsp), %rax
	movq	%rax, 288(%rbx)
	movaps	(%rsp), %xmm0
	movups	%xmm0, 296(%rbx)
	movq	16(%rsp), %rax
	movq	%rax, 312(%rbx)
	movq	%rdi, %rax
	subq	%rbx, %rax
	cmpq	$319, %rax
	ja	14f
	leaq	16(%rbx), %r14
	leaq	56(%rbx), %r12
	leaq	96(%rbx), %r11
	leaq	136(%rbx), %r10
	leaq	176(%rbx), %r9
	leaq	216(%rbx), %rsi
	leaq	256(%rbx), %rdx
	leaq	296(%rbx), %rax
	movq	32(%r14), %r13
	movq	%r13, 64(%rsp)
	movups	(%r14), %xmm0
	movups	16(%r14), %xmm1
	movaps	%xmm1, 48(%rsp)
	movaps	%xmm0, 32(%rsp)
	movups	(%r12), %xmm0
	movaps	%xmm0, (%rsp)
	movq	16(%r12), %r14
	movq	%r14, 16(%rsp)
	movl	%ecx, (%rdi)
	movq	%r8, 8(%rdi)
	movq	64(%rsp), %rcx
	movq	%rcx, 48(%rdi)
	movaps	32(%rsp), %xmm0
	movaps	48(%rsp), %xmm1
	movups	%xmm1, 32(%rdi)
	movups	%xmm0, 16(%rdi)
	movq	16(%rsp), %rcx
	movq	%rcx, 72(%rdi)
	movaps	(%rsp), %xmm0
	movups	%xmm0, 56(%rdi)
	movl	80(%rbx), %ecx
	movzbl	88(%rbx), %r8d
	movups	(%r11), %xmm0
	movups	16(%r11), %xmm1
	movaps	%xmm0, 32(%rsp)
	movaps	%xmm1, 48(%rsp)
	movq	32(%r11), %r11
	movq	%r11, 64(%rsp)
	movups	(%r10), %xmm0
	movaps	%xmm0, (%rsp)
	movq	16(%r10), %r10
	movq	%r10, 16(%rsp)
	movl	%ecx, 80(%rdi)
	movq	%r8, 88(%rdi)
	movq	64(%rsp), %rcx
	movq	%rcx, 128(%rdi)
	movaps	32(%rsp), %xmm0
	movaps	48(%rsp), %xmm1
	movups	%xmm1, 112(%rdi)
	movups	%xmm0, 96(%rdi)
	movq	16(%rsp), %rcx
	movq	%rcx, 152(%rdi)
	movaps	(%rsp), %xmm0
	movups	%xmm0, 136(%rdi)
	movl	160(%rbx), %ecx
	movzbl	168(%rbx), %r8d
	movups	(%r9), %xmm0
	movups	16(%r9), %xmm1
	movaps	%xmm0, 32(%rsp)
	movaps	%xmm1, 48(%rsp)
	movq	32(%r9), %r9
	movq	%r9, 64(%rsp)
	movups	(%rsi), %xmm0
	movaps	%xmm0, (%rsp)
	movq	16(%rsi), %rsi
	movq	%rsi, 16(%rsp)
	movl	%ecx, 160(%rdi)
	movq	%r8, 168(%rdi)
	movq	64(%rsp), %rcx
	movq	%rcx, 208(%rdi)
	movaps	32(%rsp), %xmm0
	movaps	48(%rsp), %xmm1
	movups	%xmm1, 192(%rdi)
	movups	%xmm0, 176(%rdi)
	movq	16(%rsp), %rcx
	movq	%rcx, 232(%rdi)
	movaps	(%rsp), %xmm0
	movups	%xmm0, 216(%rdi)
	movl	240(%rbx), %ecx
	movzbl	248(%rbx), %esi
	movups	(%rdx), %xmm0
	movups	16(%rdx), %xmm1
	movaps	%xmm0, 32(%rsp)
	movaps	%xmm1, 48(%rsp)
	movq	32(%rdx), %rdx
	movq	%rdx, 64(%rsp)
	movups	(%rax), %xmm0
	movaps	%xmm0, (%rsp)
	movq	16(%rax), %rax
	movq	%rax, 16(%rsp)
	movl	%ecx, 240(%rdi)
	movq	%rsi, 248(%rdi)
	movaps	32(%rsp), %xmm0
	movaps	48(%rsp), %xmm1
	movups	%xmm0, 256(%rdi)
	movups	%xmm1, 272(%rdi)
	movq	64(%rsp), %rax
	movq	%rax, 288(%rdi)
	movaps	(%rsp), %xmm0
	movups	%xmm0, 296(%rdi)
	movq	16(%rsp), %rax
	movq	%rax, 312(%rdi)
	jmp	15f
2:
	movq	%rdi, %rax
	subq	%rbx, %rax
	cmpq	$639, %rax
	ja	3f
	leaq	16(%rbx), %rax
	movzbl	8(%rbx), %ecx
	movq	32(%rax), %rdx
	movq	%rdx, 64(%rsp)
	movups	(%rax), %xmm0
	movups	16(%rax), %xmm1
	leaq	56(%rbx), %rax
	movaps	%xmm1, 48(%rsp)
	movaps	%xmm0, 32(%rsp)
	movups	(%rax), %xmm0
	movaps	%xmm0, (%rsp)
	movq	16(%rax), %rax
	movq	%rax, 16(%rsp)
	leaq	96(%rbx), %rax
	movl	84(%rsp), %edx
	movl	%edx, (%rdi)
	movq	%rcx, 8(%rdi)
	movq	64(%rsp), %rcx
	movq	%rcx, 48(%rdi)
	movaps	32(%rsp), %xmm0
	movaps	48(%rsp), %xmm1
	movups	%xmm1, 32(%rdi)
	movups	%xmm0, 16(%rdi)
	movq	16(%rsp), %rcx
	movq	%rcx, 72(%rdi)
	movaps	(%rsp), %xmm0
	movups	%xmm0, 56(%rdi)
	movl	80(%rbx), %ecx
	movzbl	88(%rbx), %edx
	movups	(%rax), %xmm0
	movups	16(%rax), %xmm1
	movaps	%xmm0, 32(%rsp)
	movaps	%xmm1, 48(%rsp)
	movq	32(%rax), %rax
	movq	%rax, 64(%rsp)
	leaq	136(%rbx), %rax
	movups	(%rax), %xmm0
	movaps	%xmm0, (%rsp)
	movq	16(%rax), %rax
	movq	%rax, 16(%rsp)
	leaq	176(%rbx), %rax
	movl	%ecx, 80(%rdi)
	movq	%rdx, 88(%rdi)
	movq	64(%rsp), %rcx
	movq	%rcx, 128(%rdi)
	movaps	32(%rsp), %xmm0
	movaps	48(%rsp), %xmm1
	movups	%xmm1, 112(%rdi)
	movups	%xmm0, 96(%rdi)
	movq	16(%rsp), %rcx
	movq	%rcx, 152(%rdi)
	movaps	(%rsp), %xmm0
	movups	%xmm0, 136(%rdi)
	movl	160(%rbx), %ecx
	movzbl	168(%rbx), %edx
	movups	(%rax), %xmm0
	movups	16(%rax), %xmm1
	movaps	%xmm0, 32(%rsp)
	movaps	%xmm1, 48(%rsp)
	movq	32(%rax), %rax
	movq	%rax, 64(%rsp)
	leaq	216(%rbx), %rax
	movups	(%rax), %xmm0
	movaps	%xmm0, (%rsp)
	movq	16(%rax), %rax
	movq	%rax, 16(%rsp)
	leaq	256(%rbx), %rax
	movl	%ecx, 160(%rdi)
	movq	%rdx, 168(%rdi)
	movq	64(%rsp), %rcx
	movq	%rcx, 208(%rdi)
	movaps	32(%rsp), %xmm0
	movaps	48(%rsp), %xmm1
	movups	%xmm1, 192(%rdi)
	movups	%xmm0, 176(%rdi)
	movq	16(%rsp), %rcx
	movq	%rcx, 232(%rdi)
	movaps	(%rsp), %xmm0
	movups	%xmm0, 216(%rdi)
	movl	240(%rbx), %ecx
	movzbl	248(%rbx), %edx
	movups	(%rax), %xmm0
	movups	16(%rax), %xmm1
	movaps	%xmm0, 32(%rsp)
	movaps	%xmm1, 48(%rsp)
	movq	32(%rax), %rax
	movq	%rax, 64(%rsp)
	leaq	296(%rbx), %rax
	movups	(%rax), %xmm0
	movaps	%xmm0, (%rsp)
	movq	16(%rax), %rax
	movq	%rax, 16(%rsp)
	leaq	336(%rbx), %rax
	movl	%ecx, 240(%rdi)
	movq	%rdx, 248(%rdi)
	movq	64(%rsp), %rcx
	movq	%rcx, 288(%rdi)
	movaps	32(%rsp), %xmm0
	movaps	48(%rsp), %xmm1
	movups	%xmm1, 272(%rdi)
	movups	%xmm0, 256(%rdi)
	movq	16(%rsp), %rcx
	movq	%rcx, 312(%rdi)
	movaps	(%rsp), %xmm0
	movups	%xmm0, 296(%rdi)
	movl	320(%rbx), %ecx
	movzbl	328(%rbx), %edx
	movups	(%rax), %xmm0
	movups	16(%rax), %xmm1
	movaps	%xmm0, 32(%rsp)
	movaps	%xmm1, 48(%rsp)
	movq	32(%rax), %rax
	movq	%rax, 64(%rsp)
	leaq	376(%rbx), %rax
	movups	(%rax), %xmm0
	movaps	%xmm0, (%rsp)
	movq	16(%rax), %rax
	movq	%rax, 16(%rsp)
	leaq	416(%rbx), %rax
	movl	%ecx, 320(%rdi)
	movq	%rdx, 328(%rdi)
	movq	64(%rsp), %rcx
	movq	%rcx, 368(%rdi)
	movaps	32(%rsp), %xmm0
	movaps	48(%rsp), %xmm1
	movups	%xmm1, 352(%rdi)
	movups	%xmm0, 336(%rdi)
	movq	16(%rsp), %rcx
	movq	%rcx, 392(%rdi)
	movaps	(%rsp), %xmm0
	movups	%xmm0, 376(%rdi)
	movl	400(%rbx), %ecx
	movzbl	408(%rbx), %edx
	movups	(%rax), %xmm0
	movups	16(%rax), %xmm1
	movaps	%xmm0, 32(%rsp)
	movaps	%xmm1, 48(%rsp)
	movq	32(%rax), %rax
	movq	%rax, 64(%rsp)
	leaq	456(%rbx), %rax
	movups	(%rax), %xmm0
	movaps	%xmm0, (%rsp)
	movq	16(%rax), %rax
	movq	%rax, 16(%rsp)
	leaq	496(%rbx), %rax
	movl	%ecx, 400(%rdi)
	movq	%rdx, 408(%rdi)
	movq	64(%rsp), %rcx
	movq	%rcx, 448(%rdi)
	movaps	32(%rsp), %xmm0
	movaps	48(%rsp), %xmm1
	movups	%xmm1, 432(%rdi)
	movups	%xmm0, 416(%rdi)
	movq	16(%rsp), %rcx
	movq	%rcx, 472(%rdi)
	movaps	(%rsp), %xmm0
	movups	%xmm0, 456(%rdi)
	movl	480(%rbx), %ecx
	movzbl	488(%rbx), %edx
	movups	(%rax), %xmm0
	movups	16(%rax), %xmm1
	movaps	%xmm0, 32(%rsp)
	movaps	%xmm1, 48(%rsp)
	movq	32(%rax), %rax
	movq	%rax, 64(%rsp)
	leaq	536(%rbx), %rax
	movups	(%rax), %xmm0
	movaps	%xmm0, (%rsp)
	movq	16(%rax), %rax
	movq	%rax, 16(%rsp)
	leaq	576(%rbx), %rax
	movl	%ecx, 480(%rdi)
	movq	%rdx, 488(%rdi)
	movq	64(%rsp), %rcx
	movq	%rcx, 528(%rdi)
	movaps	32(%rsp), %xmm0
	movaps	48(%rsp), %xmm1
	movups	%xmm1, 512(%rdi)
	movups	%xmm0, 496(%rdi)
	movq	16(%rsp), %rcx
	movq	%rcx, 552(%rdi)
	movaps	(%rsp), %xmm0
	movups	%xmm0, 536(%rdi)
	movl	560(%rbx), %ecx
	movzbl	568(%rbx), %edx
	movups	(%rax), %xmm0
	movups	16(%rax), %xmm1
	movaps	%xmm0, 32(%rsp)
	movaps	%xmm1, 48(%rsp)
	movq	32(%rax), %rax
	movq	%rax, 64(%rsp)
	leaq	616(%rbx), %rax
	movups	(%rax), %xmm0
	movaps	%xmm0, (%rsp)
	movq	16(%rax), %rax
	movq	%rax, 16(%rsp)
	movl	%ecx, 560(%rdi)
	movq	%rdx, 568(%rdi)
	movaps	32(%rsp), %xmm0
	movaps	48(%rsp), %xmm1
	movups	%xmm0, 576(%rdi)
	movups	%xmm1, 592(%rdi)
	movq	64(%rsp), %rax
	movq	%rax, 608(%rdi)
	movaps	(%rsp), %xmm0
	movups	%xmm0, 616(%rdi)
	movq	16(%rsp), %rax
	movq	%rax, 632(%rdi)
	jmp	4f
3:
	movl	$640, %edx
	movq	%rdi, %r14
	movq	%rbx, %rsi
	callq	memmove@PLT
	movq	%r14, %rdi
4:
	movl	$4, %eax
5:
	movq	88(%rsp), %rcx
	movq	%rbx, (%rcx)
	movq	208(%rsp), %rdx
	movq	%rdx, 8(%rcx)
6:
	cmpq	96(%rsp), %rax
	jae	16f
7:
	leaq	(%rax,%rax,4), %rcx
	shll	$4, %ecx
	addq	%rdi, %rcx
	addq	$-160, %rcx
	jmp	11f
8:
	xorl	%esi, %esi
9:
	movl	%edx, (%rdi,%rsi)
	movq	%r8, 8(%rdi,%rsi)
	movaps	32(%rsp), %xmm0
	movaps	48(%rsp), %xmm1
	movups	%xmm0, 16(%rdi,%rsi)
	movups	%xmm1, 32(%rdi,%rsi)
	movq	64(%rsp), %rdx
	movq	%rdx, 48(%rdi,%rsi)
	movaps	(%rsp), %xmm0
	movups	%xmm0, 56(%rdi,%rsi)
	movq	16(%rsp), %rdx
	movq	%rdx, 72(%rdi,%rsi)
10:
	incq	%rax
	addq	$80, %rcx
	cmpq	96(%rsp), %rax
	je	16f
11:
	leaq	(%rax,%rax,4), %r8
	shlq	$4, %r8
	movl	-80(%rdi,%r8), %esi
	movl	(%rdi,%r8), %edx
	cmpl	%edx, %esi
	jae	10b
	leaq	(%rdi,%r8), %r10
	movq	%rax, %r9
	leaq	(%rdi,%r8), %r11
	addq	$-80, %r11
	movzbl	8(%r10), %r8d
	movq	48(%r10), %rbx
	movq	%rbx, 64(%rsp)
	movups	16(%r10), %xmm0
	movups	32(%r10), %xmm1
	movaps	%xmm1, 48(%rsp)
	movaps	%xmm0, 32(%rsp)
	movups	56(%r10), %xmm0
	movaps	%xmm0, (%rsp)
	movq	72(%r10), %rbx
	movq	%rbx, 16(%rsp)
	movzbl	8(%r11), %ebx
	movl	%esi, (%r10)
	movq	%rbx, 8(%r10)
	movq	48(%r11), %rsi
	movq	%rsi, 48(%r10)
	movups	16(%r11), %xmm0
	movups	32(%r11), %xmm1
	movups	%xmm1, 32(%r10)
	movups	%xmm0, 16(%r10)
	movq	72(%r11), %rsi
	movq	%rsi, 72(%r10)
	movups	56(%r11), %xmm0
	movups	%xmm0, 56(%r10)
	decq	%r9
	je	8b
	movq	%rcx, %rsi
	.p2align	4
12:
	movl	(%rsi), %r10d
	cmpl	%edx, %r10d
	jae	13f
	decq	%r9
	movzbl	8(%rsi), %r11d
	movl	%r10d, 80(%rsi)
	movq	%r11, 88(%rsi)
	movups	16(%rsi), %xmm0
	movups	32(%rsi), %xmm1
	movups	%xmm0, 96(%rsi)
	movups	%xmm1, 112(%rsi)
	movq	48(%rsi), %r10
	movq	%r10, 128(%rsi)
	movups	56(%rsi), %xmm0
	movups	%xmm0, 136(%rsi)
	movq	72(%rsi), %r10
	movq	%r10, 152(%rsi)
	addq	$-80, %rsi
	testq	%r9, %r9
	jne	12b
	xorl	%r9d, %r9d
13:
	shlq	$4, %r9
	leaq	(%r9,%r9,4), %rsi
	jmp	9b
14:
	movl	$320, %edx
	movq	%rdi, %r14
	movq	%rbx, %rsi
	callq	memmove@PLT
	movq	%r14, %rdi
15:
	movq	88(%rsp), %rax
	movq	%rbx, (%rax)
	movq	%r15, 8(%rax)
	movl	$4, %eax
	cmpq	96(%rsp), %rax
	jb	7b
16:
	addq	$216, %rsp
	popq	%rbx
	popq	%r12
	popq	%r13
	popq	%r14
	popq	%r15
	popq	%rbp
	retq
17:
	.size	"core::slice::sort::short::sort_half::<#54047240e3f04dbb>", 17b-"core::slice::sort::short::sort_half::<#54047240e3f04dbb>"

	.text
	.p2align	4
	.type	"core::slice::sort::short::sort_half::<#b4bd7111e818b46c>",@function
"core::slice::sort::short::sort_half::<#b4bd7111e818b46c>":
	pushq	%rbp
	pushq	%r15
	pushq	%r14
	pushq	%r13
	pushq	%r12
	pushq	%rbx
	subq	$120, %rsp
	movq	%rdx, %rax
	movq	%rdi, %r14
	cmpq	$8, %rsi
	jb	1f
	movq	%rsi, 24(%rsp)
	movq	(%rax), %r12
	movq	%rax, 40(%rsp)
	movq	8(%rax), %rax
	movq	%rax, 112(%rsp)
	movq	32(%r14), %rdi
	movq	40(%r14), %rsi
	movq	(%r14), %rdx
	movq	8(%r14), %rcx
	callq	"core::cmp::slices::RefSliceOrd::cmp::<#914af4d8504a0b72>"
	xorl	%ebx, %ebx
	xorl	%r13d, %r13d
	testb	%al, %al
	setne	%bl
	sete	%r13b
	movq	96(%r14), %rdi
	movq	104(%r14), %rsi
	movq	64(%r14), %rdx
	movq	72(%r14), %rcx
	callq	"core::cmp::slices::RefSliceOrd::cmp::<#914af4d8504a0b72>"
	xorl	%r15d, %r15d
	testb	%al, %al
	sete	%r15b
	leal	2(%r15), %eax
	movl	%eax, 16(%rsp)
	xorl	$3, %r15d
	shll	$5, %eax
	movl	%r13d, %ecx
	shll	$5, %ecx
	movq	(%r14,%rax), %rdi
	movq	8(%r14,%rax), %rsi
	movq	(%r14,%rcx), %rdx
	movq	8(%r14,%rcx), %rcx
	callq	"core::cmp::slices::RefSliceOrd::cmp::<#914af4d8504a0b72>"
	movl	%eax, %ebp
	movl	%r15d, %eax
	shll	$5, %eax
	movl	%ebx, %ecx
	shll	$5, %ecx
	movq	(%r14,%rax), %rdi
	movq	8(%r14,%rax), %rsi
	movq	(%r14,%rcx), %rdx
	movq	8(%r14,%rcx), %rcx
	callq	"core::cmp::slices::RefSliceOrd::cmp::<#914af4d8504a0b72>"
	movl	%ebp, %esi
	testb	%bpl, %bpl
	movl	16(%rsp), %edx
	movl	%edx, %ebp
	movl	%ebx, %ecx
	cmovel	%ebx, %ebp
	testb	%al, %al
	cmovel	%edx, %ebx
	cmovel	%r15d, %ebp
	cmovel	%ecx, %r15d
	testb	%sil, %sil
	cmovel	%r13d, %ebx
	cmovel	%edx, %r13d
	movl	%ebp, %eax
	shll	$5, %eax
	movl	%ebx, %ecx
	shll	$5, %ecx
	movq	(%r14,%rax), %rdi
	movq	8(%r14,%rax), %rsi
	movq	(%r14,%rcx), %rdx
	movq	8(%r14,%rcx), %rcx
	callq	"core::cmp::slices::RefSliceOrd::cmp::<#914af4d8504a0b72>"
	shll	$5, %r13d
	testb	%al, %al
	movups	(%r14,%r13), %xmm0
	movups	16(%r14,%r13), %xmm1
	movups	%xmm0, (%r12)
	movl	%ebx, %eax
	cmovel	%ebp, %eax
	cmovnel	%ebp, %ebx
	movups	%xmm1, 16(%r12)
	shll	$5, %eax
	movups	(%r14,%rax), %xmm0
	movups	16(%r14,%rax), %xmm1
	movups	%xmm1, 48(%r12)
	movups	%xmm0, 32(%r12)
	shll	$5, %ebx
	movups	(%r14,%rbx), %xmm0
	movups	16(%r14,%rbx), %xmm1
	movups	%xmm0, 64(%r12)
	movups	%xmm1, 80(%r12)
	shll	$5, %r15d
	movups	(%r14,%r15), %xmm0
	movups	16(%r14,%r15), %xmm1
	movups	%xmm1, 112(%r12)
	movups	%xmm0, 96(%r12)
	movq	160(%r14), %rdi
	movq	168(%r14), %rsi
	movq	128(%r14), %rdx
	movq	136(%r14), %rcx
	callq	"core::cmp::slices::RefSliceOrd::cmp::<#914af4d8504a0b72>"
	xorl	%ebx, %ebx
	testb	%al, %al
	sete	%bl
	movq	224(%r14), %rdi
	movq	232(%r14), %rsi
	movq	192(%r14), %rdx
	movq	200(%r14), %rcx
	callq	"core::cmp::slices::RefSliceOrd::cmp::<#914af4d8504a0b72>"
	xorl	%r15d, %r15d
	testb	%al, %al
	sete	%r15b
	leal	4(%rbx), %ecx
	movq	%rcx, 16(%rsp)
	xorl	$5, %ebx
	leal	6(%r15), %ebp
	xorl	$7, %r15d
	movl	%ebp, %eax
	shll	$5, %eax
	shll	$5, %ecx
	movq	(%r14,%rax), %rdi
	movq	8(%r14,%rax), %rsi
	movq	(%r14,%rcx), %rdx
	movq	8(%r14,%rcx), %rcx
	callq	"core::cmp::slices::RefSliceOrd::cmp::<#914af4d8504a0b72>"
	movl	%eax, %r13d
	movl	%r15d, %eax
	shll	$5, %eax
	movl	%ebx, %ecx
	shll	$5, %ecx
	movq	(%r14,%rax), %rdi
	movq	8(%r14,%rax), %rsi
	movq	(%r14,%rcx), %rdx
	movq	8(%r14,%rcx), %rcx
	callq	"core::cmp::slices::RefSliceOrd::cmp::<#914af4d8504a0b72>"
	movl	%r13d, %edx
	testb	%r13b, %r13b
	movl	%ebp, %ecx
	movl	%ebp, %r13d
	cmovel	%ebx, %r13d
	testb	%al, %al
	movl	%ebx, %ebp
	cmovel	%ecx, %ebp
	cmovel	%r15d, %r13d
	cmovel	%ebx, %r15d
	testb	%dl, %dl
	movq	16(%rsp), %rax
	cmovel	%eax, %ebp
	cmovel	%ecx, %eax
	movq	%rax, %rbx
	movl	%r13d, %eax
	shll	$5, %eax
	movl	%ebp, %ecx
	shll	$5, %ecx
	movq	(%r14,%rax), %rdi
	movq	8(%r14,%rax), %rsi
	movq	(%r14,%rcx), %rdx
	movq	8(%r14,%rcx), %rcx
	callq	"core::cmp::slices::RefSliceOrd::cmp::<#914af4d8504a0b72>"
	shll	$5, %ebx
	testb	%al, %al
	movups	(%r14,%rbx), %xmm0
	movups	16(%r14,%rbx), %xmm1
	movups	%xmm1, 144(%r12)
	movl	%ebp, %eax
	cmovel	%r13d, %eax
	cmovnel	%r13d, %ebp
	movups	%xmm0, 128(%r12)
	shll	$5, %eax
	movups	(%r14,%rax), %xmm0
	movups	16(%r14,%rax), %xmm1
	movups	%xmm0, 160(%r12)
	movups	%xmm1, 176(%r12)
	shll	$5, %ebp
	movups	(%r14,%rbp), %xmm0
	movups	16(%r14,%rbp), %xmm1
	movups	%xmm0, 192(%r12)
	movups	%xmm1, 208(%r12)
	shll	$5, %r15d
	movups	(%r14,%r15), %xmm0
	movups	16(%r14,%r15), %xmm1
	movups	%xmm1, 240(%r12)
	movups	%xmm0, 224(%r12)
	movq	128(%r12), %rdi
	movq	136(%r12), %rsi
	movq	(%r12), %rdx
	movq	8(%r12), %rcx
	callq	"core::cmp::slices::RefSliceOrd::cmp::<#914af4d8504a0b72>"
	xorl	%ebp, %ebp
	movb	%al, 13(%rsp)
	testb	%al, %al
	setne	%bpl
	movq	%rbp, %rbx
	xorq	$5, %rbx
	movq	224(%r12), %rdi
	movq	232(%r12), %rsi
	movq	96(%r12), %rdx
	movq	104(%r12), %rcx
	callq	"core::cmp::slices::RefSliceOrd::cmp::<#914af4d8504a0b72>"
	movb	%al, 12(%rsp)
	testb	%al, %al
	movl	$0, %eax
	sete	%al
	movq	%rax, 16(%rsp)
	movl	$4, %ecx
	subq	%rax, %rcx
	movq	%rcx, 56(%rsp)
	addq	$7, %rax
	movq	%rax, 32(%rsp)
	movl	%ebx, %eax
	shll	$5, %eax
	movl	%ebp, %ecx
	shll	$5, %ecx
	movq	(%r12,%rax), %rdi
	movq	8(%r12,%rax), %rsi
	movq	(%r12,%rcx), %rdx
	movq	8(%r12,%rcx), %rcx
	callq	"core::cmp::slices::RefSliceOrd::cmp::<#914af4d8504a0b72>"
	xorl	%r15d, %r15d
	xorl	%r13d, %r13d
	movb	%al, 11(%rsp)
	testb	%al, %al
	setne	%r15b
	sete	%r13b
	movq	%rbx, 104(%rsp)
	addq	%rbx, %r13
	movq	%rbp, 88(%rsp)
	addq	%rbp, %r15
	movq	32(%rsp), %rax
	shll	$5, %eax
	movq	56(%rsp), %rbx
	movl	%ebx, %ecx
	shll	$5, %ecx
	movq	-32(%r12,%rax), %rdi
	movq	-24(%r12,%rax), %rsi
	movq	-32(%r12,%rcx), %rdx
	movq	-24(%r12,%rcx), %rcx
	callq	"core::cmp::slices::RefSliceOrd::cmp::<#914af4d8504a0b72>"
	xorl	%esi, %esi
	xorl	%ecx, %ecx
	movb	%al, 14(%rsp)
	testb	%al, %al
	setne	%sil
	sete	%cl
	subq	%rcx, %rbx
	negq	%rsi
	movq	16(%rsp), %rax
	addq	%rsi, %rax
	addq	$7, %rax
	movq	%rax, 48(%rsp)
	movl	%r13d, %eax
	shll	$5, %eax
	movl	%r15d, %ecx
	shll	$5, %ecx
	movq	(%r12,%rax), %rdi
	movq	8(%r12,%rax), %rsi
	movq	(%r12,%rcx), %rdx
	movq	8(%r12,%rcx), %rcx
	callq	"core::cmp::slices::RefSliceOrd::cmp::<#914af4d8504a0b72>"
	xorl	%ecx, %ecx
	xorl	%ebp, %ebp
	movb	%al, 10(%rsp)
	testb	%al, %al
	setne	%cl
	sete	%bpl
	movq	%r13, 80(%rsp)
	addq	%r13, %rbp
	movq	%r15, 96(%rsp)
	addq	%r15, %rcx
	movq	%rcx, 16(%rsp)
	movq	48(%rsp), %r13
	movq	%r13, %rax
	shlq	$5, %rax
	movq	%rbx, %rcx
	shlq	$5, %rcx
	movq	-32(%r12,%rax), %rdi
	movq	-24(%r12,%rax), %rsi
	movq	-32(%r12,%rcx), %rdx
	movq	-24(%r12,%rcx), %rcx
	callq	"core::cmp::slices::RefSliceOrd::cmp::<#914af4d8504a0b72>"
	xorl	%esi, %esi
	xorl	%ecx, %ecx
	movb	%al, 9(%rsp)
	testb	%al, %al
	setne	%sil
	sete	%cl
	movq	%rbx, 64(%rsp)
	movq	%rbx, %r15
	subq	%rcx, %r15
	subq	%rsi, %r13
	movl	%ebp, %eax
	shll	$5, %eax
	movq	16(%rsp), %rcx
	shll	$5, %ecx
	movq	(%r12,%rax), %rdi
	movq	8(%r12,%rax), %rsi
	movq	(%r12,%rcx), %rdx
	movq	8(%r12,%rcx), %rcx
	callq	"core::cmp::slices::RefSliceOrd::cmp::<#914af4d8504a0b72>"
	xorl	%ebx, %ebx
	movb	%al, 8(%rsp)
	testb	%al, %al
	setne	15(%rsp)
	sete	%bl
	movq	%rbp, 72(%rsp)
	addl	%ebp, %ebx
	movq	%r13, %rax
	shlq	$5, %rax
	movq	%r15, %rcx
	shlq	$5, %rcx
	movq	-32(%r12,%rax), %rdi
	movq	-24(%r12,%rax), %rsi
	movq	-32(%r12,%rcx), %rdx
	movq	-24(%r12,%rcx), %rcx
	callq	"core::cmp::slices::RefSliceOrd::cmp::<#914af4d8504a0b72>"
	movq	16(%rsp), %r9
	xorl	%esi, %esi
	xorl	%ecx, %ecx
	testb	%al, %al
	setne	%sil
	sete	%dl
	movl	%r13d, %edi
	subl	%esi, %edi
	cmpl	%edi, %ebx
	ja	2f
	xorl	%esi, %esi
	movzbl	15(%rsp), %edi
	movb	%dil, %sil
	addq	%r9, %rsi
	movb	%dl, %cl
	movq	%r15, %rdx
	subq	%rcx, %rdx
	cmpl	%edx, %esi
	ja	2f
	xorl	%ecx, %ecx
	cmpb	$0, 12(%rsp)
	setne	%cl
	xorl	%edx, %edx
	cmpb	$0, 13(%rsp)
	sete	%dl
	shll	$7, %ecx
	shll	$7, %edx
	cmpb	$0, 11(%rsp)
	movq	104(%rsp), %rsi
	cmovnel	88(%rsp), %esi
	shll	$5, %esi
	cmpb	$0, 10(%rsp)
	movq	96(%rsp), %rdi
	cmovel	80(%rsp), %edi
	shll	$5, %edi
	cmpb	$0, 8(%rsp)
	cmovel	72(%rsp), %r9d
	shll	$5, %r9d
	testb	%al, %al
	cmovel	%r15d, %r13d
	shll	$5, %r13d
	addl	$8160, %r13d
	andl	$8160, %r13d
	cmpb	$0, 9(%rsp)
	movq	48(%rsp), %r8
	cmovel	64(%rsp), %r8d
	movups	(%r12,%rdx), %xmm0
	movups	16(%r12,%rdx), %xmm1
	movups	%xmm1, 16(%r14)
	movups	%xmm0, (%r14)
	movups	(%r12,%rsi), %xmm0
	movups	16(%r12,%rsi), %xmm1
	leaq	32(%r14), %rax
	movups	%xmm1, 16(%rax)
	movups	%xmm0, (%rax)
	movups	(%r12,%rdi), %xmm0
	movups	16(%r12,%rdi), %xmm1
	leaq	64(%r14), %rax
	movups	%xmm1, 16(%rax)
	movups	%xmm0, (%rax)
	movups	(%r12,%r9), %xmm0
	movups	16(%r12,%r9), %xmm1
	leaq	96(%r14), %rax
	movups	%xmm1, 16(%rax)
	movups	%xmm0, (%rax)
	movups	(%r12,%r13), %xmm0
	movups	16(%r12,%r13), %xmm1
	leaq	128(%r14), %rax
	movups	%xmm1, 16(%rax)
	movups	%xmm0, (%rax)
	shll	$5, %r8d
	addl	$8160, %r8d
	andl	$8160, %r8d
	movups	(%r12,%r8), %xmm0
	movups	16(%r12,%r8), %xmm1
	leaq	160(%r14), %rax
	movups	%xmm1, 16(%rax)
	movups	%xmm0, (%rax)
	cmpb	$0, 14(%rsp)
	movq	32(%rsp), %rax
	cmovel	56(%rsp), %eax
	shll	$5, %eax
	addl	$8160, %eax
	andl	$8160, %eax
	movups	(%r12,%rax), %xmm0
	movups	16(%r12,%rax), %xmm1
	leaq	192(%r14), %rax
	movups	%xmm1, 16(%rax)
	movups	%xmm0, (%rax)
	movups	96(%r12,%rcx), %xmm0
	movups	112(%r12,%rcx), %xmm1
	leaq	224(%r14), %rax
	movups	%xmm1, 16(%rax)
	movups	%xmm0, (%rax)
	movl	$8, %edx
	jmp	5f
1:
	movl	$1, %edx
	cmpq	$4, %rsi
	jb	8f
	movq	%rsi, 24(%rsp)
	movq	(%rax), %r15
	movq	%rax, 40(%rsp)
	movq	8(%rax), %rax
	movq	%rax, 16(%rsp)
	movq	32(%r14), %rdi
	movq	40(%r14), %rsi
	movq	(%r14), %rdx
	movq	8(%r14), %rcx
	callq	"core::cmp::slices::RefSliceOrd::cmp::<#914af4d8504a0b72>"
	xorl	%ebx, %ebx
	xorl	%ebp, %ebp
	testb	%al, %al
	setne	%bl
	sete	%bpl
	movq	96(%r14), %rdi
	movq	104(%r14), %rsi
	movq	64(%r14), %rdx
	movq	72(%r14), %rcx
	callq	"core::cmp::slices::RefSliceOrd::cmp::<#914af4d8504a0b72>"
	xorl	%r13d, %r13d
	testb	%al, %al
	sete	%r13b
	leal	2(%r13), %eax
	movl	%eax, 32(%rsp)
	xorl	$3, %r13d
	shll	$5, %eax
	movl	%ebp, %ecx
	shll	$5, %ecx
	movq	(%r14,%rax), %rdi
	movq	8(%r14,%rax), %rsi
	movq	(%r14,%rcx), %rdx
	movq	8(%r14,%rcx), %rcx
	callq	"core::cmp::slices::RefSliceOrd::cmp::<#914af4d8504a0b72>"
	movl	%eax, %r12d
	movl	%r13d, %eax
	shll	$5, %eax
	movl	%ebx, %ecx
	shll	$5, %ecx
	movq	(%r14,%rax), %rdi
	movq	8(%r14,%rax), %rsi
	movq	(%r14,%rcx), %rdx
	movq	8(%r14,%rcx), %rcx
	callq	"core::cmp::slices::RefSliceOrd::cmp::<#914af4d8504a0b72>"
	movl	%r12d, %esi
	testb	%r12b, %r12b
	movl	32(%rsp), %edx
	movl	%edx, %r12d
	movl	%ebx, %ecx
	cmovel	%ebx, %r12d
	testb	%al, %al
	cmovel	%edx, %ebx
	cmovel	%r13d, %r12d
	cmovel	%ecx, %r13d
	testb	%sil, %sil
	cmovel	%ebp, %ebx
	cmovel	%edx, %ebp
	movl	%r12d, %eax
	shll	$5, %eax
	movl	%ebx, %ecx
	shll	$5, %ecx
	movq	(%r14,%rax), %rdi
	movq	8(%r14,%rax), %rsi
	movq	(%r14,%rcx), %rdx
	movq	8(%r14,%rcx), %rcx
	callq	"core::cmp::slices::RefSliceOrd::cmp::<#914af4d8504a0b72>"
	shll	$5, %ebp
	testb	%al, %al
	movups	(%r14,%rbp), %xmm0
	movups	16(%r14,%rbp), %xmm1
	movups	%xmm1, 16(%r15)
	movups	%xmm0, (%r15)
	movl	%ebx, %eax
	cmovel	%r12d, %eax
	cmovnel	%r12d, %ebx
	shll	$5, %eax
	movups	(%r14,%rax), %xmm0
	movups	16(%r14,%rax), %xmm1
	movups	%xmm0, 32(%r15)
	movups	%xmm1, 48(%r15)
	shll	$5, %ebx
	movups	(%r14,%rbx), %xmm0
	movups	16(%r14,%rbx), %xmm1
	movups	%xmm0, 64(%r15)
	movups	%xmm1, 80(%r15)
	shll	$5, %r13d
	movups	(%r14,%r13), %xmm0
	movups	16(%r14,%r13), %xmm1
	movups	%xmm1, 112(%r15)
	movups	%xmm0, 96(%r15)
	movq	%r14, %rax
	subq	%r15, %rax
	cmpq	$127, %rax
	ja	6f
	leaq	32(%r14), %rax
	leaq	96(%r14), %rcx
	leaq	64(%r14), %rdx
	leaq	32(%r15), %rsi
	leaq	64(%r15), %rdi
	leaq	96(%r15), %r8
	movups	(%r15), %xmm0
	movups	16(%r15), %xmm1
	movups	%xmm1, 16(%r14)
	movups	%xmm0, (%r14)
	movups	(%rsi), %xmm0
	movups	16(%rsi), %xmm1
	movups	%xmm1, 16(%rax)
	movups	%xmm0, (%rax)
	movups	(%rdi), %xmm0
	movups	16(%rdi), %xmm1
	movups	%xmm1, 16(%rdx)
	movups	%xmm0, (%rdx)
	movups	(%r8), %xmm0
	movups	16(%r8), %xmm1
	movups	%xmm1, 16(%rcx)
	movups	%xmm0, (%rcx)
	jmp	7f
2:
	movq	%r14, %rax
	subq	%r12, %rax
	cmpq	$255, %rax
	ja	3f
	leaq	32(%r12), %rax
	movups	(%r12), %xmm0
	movups	16(%r12), %xmm1
	movups	%xmm1, 16(%r14)
	movups	%xmm0, (%r14)
	movups	(%rax), %xmm0
	movups	16(%rax), %xmm1
	leaq	32(%r14), %rax
	movups	%xmm1, 16(%rax)
	movups	%xmm0, (%rax)
	leaq	64(%r12), %rax
	movups	(%rax), %xmm0
	movups	16(%rax), %xmm1
	leaq	64(%r14), %rax
	movups	%xmm1, 16(%rax)
	movups	%xmm0, (%rax)
	leaq	96(%r12), %rax
	movups	(%rax), %xmm0
	movups	16(%rax), %xmm1
	leaq	96(%r14), %rax
	movups	%xmm1, 16(%rax)
	movups	%xmm0, (%rax)
	leaq	128(%r12), %rax
	movups	(%rax), %xmm0
	movups	16(%rax), %xmm1
	leaq	128(%r14), %rax
	movups	%xmm1, 16(%rax)
	movups	%xmm0, (%rax)
	leaq	160(%r12), %rax
	movups	(%rax), %xmm0
	movups	16(%rax), %xmm1
	leaq	160(%r14), %rax
	movups	%xmm1, 16(%rax)
	movups	%xmm0, (%rax)
	leaq	192(%r12), %rax
	movups	(%rax), %xmm0
	movups	16(%rax), %xmm1
	leaq	192(%r14), %rax
	movups	%xmm1, 16(%rax)
	movups	%xmm0, (%rax)
	leaq	224(%r12), %rax
	movups	(%rax), %xmm0
	movups	16(%rax), %xmm1
	leaq	224(%r14), %rax
	movups	%xmm1, 16(%rax)
	movups	%xmm0, (%rax)
	jmp	4f
3:
	movl	$256, %edx
	movq	%r14, %rdi
	movq	%r12, %rsi
	callq	memmove@PLT
4:
	movl	$4, %edx
5:
	movq	24(%rsp), %rsi
	movq	40(%rsp), %rax
	movq	%r12, (%rax)
	movq	112(%rsp), %rcx
	movq	%rcx, 8(%rax)
	jmp	8f
6:
	movups	(%r15), %xmm0
	movups	16(%r15), %xmm1
	movups	32(%r15), %xmm2
	movups	48(%r15), %xmm3
	movups	64(%r15), %xmm4
	movups	80(%r15), %xmm5
	movups	96(%r15), %xmm6
	movups	112(%r15), %xmm7
	movups	%xmm7, 112(%r14)
	movups	%xmm6, 96(%r14)
	movups	%xmm5, 80(%r14)
	movups	%xmm4, 64(%r14)
	movups	%xmm3, 48(%r14)
	movups	%xmm2, 32(%r14)
	movups	%xmm1, 16(%r14)
	movups	%xmm0, (%r14)
7:
	movq	40(%rsp), %rax
	movq	%r15, (%rax)
	movq	16(%rsp), %rcx
	movq	%rcx, 8(%rax)
	movl	$4, %edx
	movq	24(%rsp), %rsi
8:
	movq	%r14, %rdi
	addq	$120, %rsp
	popq	%rbx
	popq	%r12
	popq	%r13
	popq	%r14
	popq	%r15
	popq	%rbp
	jmp	"core::slice::sort::small::insert_from::<#b4bd7111e818b46c>"
9:
	.size	"core::slice::sort::short::sort_half::<#b4bd7111e818b46c>", 9b-"core::slice::sort::short::sort_half::<#b4bd7111e818b46c>"

	.text
	.p2align	4
	.type	"core::slice::sort::short::sort_half::<#f98e8d76978ecc20>",@function
"core::slice::sort::short::sort_half::<#f98e8d76978ecc20>":
	pushq	%rbp
	pushq	%r15
	pushq	%r14
	pushq	%r13
	pushq	%r12
	pushq	%rbx
	subq	$184, %rsp
	movq	%rdx, %rax
	movq	%rdi, %r15
	cmpq	$8, %rsi
	movq	%rdi, (%rsp)
	jb	2f
	movq	%rsi, 24(%rsp)
	movq	(%rax), %rcx
	movq	%rcx, 8(%rsp)
	movq	%rax, 16(%rsp)
	movq	8(%rax), %rax
	movq	%rax, 176(%rsp)
	movq	32(%r15), %rdi
	movq	40(%r15), %rsi
	movq	(%r15), %rdx
	movq	8(%r15), %rcx
	cmpq	%rsi, %rcx
	movq	%rsi, %rax
	cmovbq	%rcx, %rax
	cmpq	$24, %rax
	movl	$24, %r8d
	cmovbq	%rax, %r8
	cmpq	$8, %rax
	jb	4f
	xorl	%eax, %eax
	.p2align	4
1:
	movq	(%rdi,%rax), %r9
	movq	(%rdx,%rax), %r10
	cmpq	%r10, %r9
	jne	6f
	addq	$8, %rax
	addq	$-8, %r8
	cmpq	$7, %r8
	ja	1b
	jmp	5f
2:
	movl	$1, %edx
	cmpq	$4, %rsi
	jb	95f
	movq	%rsi, 24(%rsp)
	movq	(%rax), %r12
	movq	%rax, 16(%rsp)
	movq	8(%rax), %rax
	movq	%rax, 8(%rsp)
	movq	32(%r15), %rdi
	movq	40(%r15), %rsi
	movq	(%r15), %rdx
	movq	8(%r15), %rcx
	cmpq	%rsi, %rcx
	movq	%rsi, %rax
	cmovbq	%rcx, %rax
	cmpq	$24, %rax
	movl	$24, %r8d
	cmovbq	%rax, %r8
	cmpq	$8, %rax
	jb	69f
	xorl	%eax, %eax
	.p2align	4
3:
	movq	(%rdi,%rax), %r9
	movq	(%rdx,%rax), %r10
	cmpq	%r10, %r9
	jne	71f
	addq	$8, %rax
	addq	$-8, %r8
	cmpq	$7, %r8
	ja	3b
	jmp	70f
4:
	xorl	%eax, %eax
5:
	addq	%rax, %rdi
	subq	%rax, %rsi
	addq	%rax, %rdx
	subq	%rax, %rcx
	callq	"core::cmp::slices::RefSliceOrd::cmp::<#914af4d8504a0b72>"
	testb	%al, %al
	sete	%bl
	jmp	7f
6:
	bswapq	%r10
	bswapq	%r9
	cmpq	%r10, %r9
	setb	%bl
7:
	movq	96(%r15), %rdi
	movq	104(%r15), %rsi
	movq	64(%r15), %rdx
	movq	72(%r15), %rcx
	cmpq	%rsi, %rcx
	movq	%rsi, %rax
	cmovbq	%rcx, %rax
	cmpq	$24, %rax
	movl	$24, %r8d
	cmovbq	%rax, %r8
	cmpq	$8, %rax
	jb	9f
	xorl	%eax, %eax
	.p2align	4
8:
	movq	(%rdi,%rax), %r9
	movq	(%rdx,%rax), %r10
	cmpq	%r10, %r9
	jne	11f
	addq	$8, %rax
	addq	$-8, %r8
	cmpq	$7, %r8
	ja	8b
	jmp	10f
9:
	xorl	%eax, %eax
10:
	addq	%rax, %rdi
	subq	%rax, %rsi
	addq	%rax, %rdx
	subq	%rax, %rcx
	callq	"core::cmp::slices::RefSliceOrd::cmp::<#914af4d8504a0b72>"
	testb	%al, %al
	sete	%al
	jmp	12f
11:
	bswapq	%r10
	bswapq	%r9
	cmpq	%r10, %r9
	setb	%al
12:
	movzbl	%bl, %ebx
	movl	%ebx, %ecx
	xorb	$1, %cl
	movzbl	%cl, %r12d
	movzbl	%al, %r14d
	leaq	2(%r14), %r13
	xorq	$3, %r14
	movl	%r13d, %eax
	shll	$5, %eax
	movl	%ebx, %ecx
	shll	$5, %ecx
	movq	(%r15,%rax), %rdi
	movq	8(%r15,%rax), %rsi
	movq	(%r15,%rcx), %rdx
	movq	8(%r15,%rcx), %rcx
	cmpq	%rsi, %rcx
	movq	%rsi, %rax
	cmovbq	%rcx, %rax
	cmpq	$24, %rax
	movl	$24, %r8d
	cmovbq	%rax, %r8
	cmpq	$8, %rax
	jb	14f
	xorl	%eax, %eax
	.p2align	4
13:
	movq	(%rdi,%rax), %r9
	movq	(%rdx,%rax), %r10
	cmpq	%r10, %r9
	jne	16f
	addq	$8, %rax
	addq	$-8, %r8
	cmpq	$7, %r8
	ja	13b
	jmp	15f
14:
	xorl	%eax, %eax
15:
	addq	%rax, %rdi
	subq	%rax, %rsi
	addq	%rax, %rdx
	subq	%rax, %rcx
	callq	"core::cmp::slices::RefSliceOrd::cmp::<#914af4d8504a0b72>"
	testb	%al, %al
	sete	%bpl
	jmp	17f
16:
	bswapq	%r10
	bswapq	%r9
	cmpq	%r10, %r9
	setb	%bpl
17:
	movl	%r14d, %eax
	shll	$5, %eax
	movl	%r12d, %ecx
	shll	$5, %ecx
	movq	(%r15,%rax), %rdi
	movq	8(%r15,%rax), %rsi
	movq	(%r15,%rcx), %rdx
	movq	8(%r15,%rcx), %rcx
	cmpq	%rsi, %rcx
	movq	%rsi, %rax
	cmovbq	%rcx, %rax
	cmpq	$24, %rax
	movl	$24, %r8d
	cmovbq	%rax, %r8
	cmpq	$8, %rax
	jb	19f
	xorl	%eax, %eax
	.p2align	4
18:
	movq	(%rdi,%rax), %r9
	movq	(%rdx,%rax), %r10
	cmpq	%r10, %r9
	jne	21f
	addq	$8, %rax
	addq	$-8, %r8
	cmpq	$7, %r8
	ja	18b
	jmp	20f
19:
	xorl	%eax, %eax
20:
	addq	%rax, %rdi
	subq	%rax, %rsi
	addq	%rax, %rdx
	subq	%rax, %rcx
	callq	"core::cmp::slices::RefSliceOrd::cmp::<#914af4d8504a0b72>"
	testb	%al, %al
	sete	%al
	jmp	22f
21:
	bswapq	%r10
	bswapq	%r9
	cmpq	%r10, %r9
	setb	%al
22:
	testb	%al, %al
	movq	%r12, %r15
	cmovneq	%r13, %r15
	testb	%bpl, %bpl
	cmovneq	%rbx, %r15
	cmovneq	%r13, %rbx
	cmovneq	%r12, %r13
	testb	%al, %al
	movq	%r14, %rbp
	cmovneq	%r12, %rbp
	cmovneq	%r14, %r13
	movl	%r13d, %eax
	shll	$5, %eax
	movl	%r15d, %ecx
	shll	$5, %ecx
	movq	(%rsp), %r8
	movq	(%r8,%rax), %rdi
	movq	8(%r8,%rax), %rsi
	movq	(%r8,%rcx), %rdx
	movq	8(%r8,%rcx), %rcx
	cmpq	%rsi, %rcx
	movq	%rsi, %rax
	cmovbq	%rcx, %rax
	cmpq	$24, %rax
	movl	$24, %r8d
	cmovbq	%rax, %r8
	cmpq	$8, %rax
	jb	24f
	xorl	%eax, %eax
	.p2align	4
23:
	movq	(%rdi,%rax), %r9
	movq	(%rdx,%rax), %r10
	cmpq	%r10, %r9
	jne	26f
	addq	$8, %rax
	addq	$-8, %r8
	cmpq	$7, %r8
	ja	23b
	jmp	25f
24:
	xorl	%eax, %eax
25:
	addq	%rax, %rdi
	subq	%rax, %rsi
	addq	%rax, %rdx
	subq	%rax, %rcx
	callq	"core::cmp::slices::RefSliceOrd::cmp::<#914af4d8504a0b72>"
	testb	%al, %al
	sete	%al
	jmp	27f
26:
	bswapq	%r10
	bswapq	%r9
	cmpq	%r10, %r9
	setb	%al
27:
	shll	$5, %ebx
	movq	(%rsp), %rcx
	movups	(%rcx,%rbx), %xmm0
	movups	16(%rcx,%rbx), %xmm1
	movq	8(%rsp), %rdx
	movups	%xmm0, (%rdx)
	movups	%xmm1, 16(%rdx)
	testb	%al, %al
	movl	%r15d, %eax
	cmovnel	%r13d, %eax
	cmovnel	%r15d, %r13d
	movq	%rcx, %r15
	shll	$5, %eax
	movups	(%rcx,%rax), %xmm0
	movups	16(%rcx,%rax), %xmm1
	movups	%xmm0, 32(%rdx)
	movups	%xmm1, 48(%rdx)
	shll	$5, %r13d
	movups	(%rcx,%r13), %xmm0
	movups	16(%rcx,%r13), %xmm1
	movups	%xmm1, 80(%rdx)
	movups	%xmm0, 64(%rdx)
	shll	$5, %ebp
	movups	(%rcx,%rbp), %xmm0
	movups	16(%rcx,%rbp), %xmm1
	movups	%xmm1, 112(%rdx)
	movups	%xmm0, 96(%rdx)
	movq	160(%rcx), %rdi
	movq	168(%rcx), %rsi
	movq	128(%rcx), %rdx
	movq	136(%rcx), %rcx
	cmpq	%rsi, %rcx
	movq	%rsi, %rax
	cmovbq	%rcx, %rax
	cmpq	$24, %rax
	movl	$24, %r8d
	cmovbq	%rax, %r8
	cmpq	$8, %rax
	jb	29f
	xorl	%eax, %eax
	.p2align	4
28:
	movq	(%rdi,%rax), %r9
	movq	(%rdx,%rax), %r10
	cmpq	%r10, %r9
	jne	31f
	addq	$8, %rax
	addq	$-8, %r8
	cmpq	$7, %r8
	ja	28b
	jmp	30f
29:
	xorl	%eax, %eax
30:
	addq	%rax, %rdi
	subq	%rax, %rsi
	addq	%rax, %rdx
	subq	%rax, %rcx
	callq	"core::cmp::slices::RefSliceOrd::cmp::<#914af4d8504a0b72>"
	testb	%al, %al
	sete	%bl
	jmp	32f
31:
	bswapq	%r10
	bswapq	%r9
	cmpq	%r10, %r9
	setb	%bl
32:
	movq	224(%r15), %rdi
	movq	232(%r15), %rsi
	movq	192(%r15), %rdx
	movq	200(%r15), %rcx
	cmpq	%rsi, %rcx
	movq	%rsi, %rax
	cmovbq	%rcx, %rax
	cmpq	$24, %rax
	movl	$24, %r8d
	cmovbq	%rax, %r8
	cmpq	$8, %rax
	jb	34f
	xorl	%eax, %eax
	.p2align	4
33:
	movq	(%rdi,%rax), %r9
	movq	(%rdx,%rax), %r10
	cmpq	%r10, %r9
	jne	36f
	addq	$8, %rax
	addq	$-8, %r8
	cmpq	$7, %r8
	ja	33b
	jmp	35f
34:
	xorl	%eax, %eax
35:
	addq	%rax, %rdi
	subq	%rax, %rsi
	addq	%rax, %rdx
	subq	%rax, %rcx
	callq	"core::cmp::slices::RefSliceOrd::cmp::<#914af4d8504a0b72>"
	testb	%al, %al
	sete	%al
	jmp	37f
36:
	bswapq	%r10
	bswapq	%r9
	cmpq	%r10, %r9
	setb	%al
37:
	movzbl	%bl, %ebp
	leaq	4(%rbp), %rbx
	xorq	$5, %rbp
	movzbl	%al, %r14d
	leaq	6(%r14), %r13
	xorq	$7, %r14
	movl	%r13d, %eax
	shll	$5, %eax
	movl	%ebx, %ecx
	shll	$5, %ecx
	movq	(%r15,%rax), %rdi
	movq	8(%r15,%rax), %rsi
	movq	(%r15,%rcx), %rdx
	movq	8(%r15,%rcx), %rcx
	cmpq	%rsi, %rcx
	movq	%rsi, %rax
	cmovbq	%rcx, %rax
	cmpq	$24, %rax
	movl	$24, %r8d
	cmovbq	%rax, %r8
	cmpq	$8, %rax
	jb	39f
	xorl	%eax, %eax
	.p2align	4
38:
	movq	(%rdi,%rax), %r9
	movq	(%rdx,%rax), %r10
	cmpq	%r10, %r9
	jne	41f
	addq	$8, %rax
	addq	$-8, %r8
	cmpq	$7, %r8
	ja	38b
	jmp	40f
39:
	xorl	%eax, %eax
40:
	addq	%rax, %rdi
	subq	%rax, %rsi
	addq	%rax, %rdx
	subq	%rax, %rcx
	callq	"core::cmp::slices::RefSliceOrd::cmp::<#914af4d8504a0b72>"
	testb	%al, %al
	sete	%r12b
	jmp	42f
41:
	bswapq	%r10
	bswapq	%r9
	cmpq	%r10, %r9
	setb	%r12b
42:
	movl	%r14d, %eax
	shll	$5, %eax
	movl	%ebp, %ecx
	shll	$5, %ecx
	movq	(%r15,%rax), %rdi
	movq	8(%r15,%rax), %rsi
	movq	(%r15,%rcx), %rdx
	movq	8(%r15,%rcx), %rcx
	cmpq	%rsi, %rcx
	movq	%rsi, %rax
	cmovbq	%rcx, %rax
	cmpq	$24, %rax
	movl	$24, %r8d
	cmovbq	%rax, %r8
	cmpq	$8, %rax
	jb	44f
	xorl	%eax, %eax
	.p2align	4
43:
	movq	(%rdi,%rax), %r9
	movq	(%rdx,%rax), %r10
	cmpq	%r10, %r9
	jne	46f
	addq	$8, %rax
	addq	$-8, %r8
	cmpq	$7, %r8
	ja	43b
	jmp	45f
44:
	xorl	%eax, %eax
45:
	addq	%rax, %rdi
	subq	%rax, %rsi
	addq	%rax, %rdx
	subq	%rax, %rcx
	callq	"core::cmp::slices::RefSliceOrd::cmp::<#914af4d8504a0b72>"
	testb	%al, %al
	sete	%al
	jmp	47f
46:
	bswapq	%r10
	bswapq	%r9
	cmpq	%r10, %r9
	setb	%al
47:
	testb	%al, %al
	movq	%rbp, %r15
	cmovneq	%r13, %r15
	testb	%r12b, %r12b
	cmovneq	%rbx, %r15
	cmovneq	%r13, %rbx
	cmovneq	%rbp, %r13
	testb	%al, %al
	cmoveq	%r14, %rbp
	cmovneq	%r14, %r13
	movl	%r13d, %eax
	shll	$5, %eax
	movl	%r15d, %ecx
	shll	$5, %ecx
	movq	(%rsp), %r8
	movq	(%r8,%rax), %rdi
	movq	8(%r8,%rax), %rsi
	movq	(%r8,%rcx), %rdx
	movq	8(%r8,%rcx), %rcx
	cmpq	%rsi, %rcx
	movq	%rsi, %rax
	cmovbq	%rcx, %rax
	cmpq	$24, %rax
	movl	$24, %r8d
	cmovbq	%rax, %r8
	cmpq	$8, %rax
	jb	49f
	xorl	%eax, %eax
	.p2align	4
48:
	movq	(%rdi,%rax), %r9
	movq	(%rdx,%rax), %r10
	cmpq	%r10, %r9
	jne	51f
	addq	$8, %rax
	addq	$-8, %r8
	cmpq	$7, %r8
	ja	48b
	jmp	50f
49:
	xorl	%eax, %eax
50:
	addq	%rax, %rdi
	subq	%rax, %rsi
	addq	%rax, %rdx
	subq	%rax, %rcx
	callq	"core::cmp::slices::RefSliceOrd::cmp::<#914af4d8504a0b72>"
	testb	%al, %al
	sete	%al
	jmp	52f
51:
	bswapq	%r10
	bswapq	%r9
	cmpq	%r10, %r9
	setb	%al
52:
	movq	(%rsp), %rcx
	leaq	32(%rcx), %rdx
	movq	%rdx, 64(%rsp)
	leaq	96(%rcx), %rdx
	movq	%rdx, 80(%rsp)
	leaq	64(%rcx), %rdx
	movq	%rdx, 72(%rsp)
	movq	8(%rsp), %r11
	leaq	32(%r11), %rdx
	movq	%rdx, 152(%rsp)
	leaq	64(%r11), %rdx
	movq	%rdx, 160(%rsp)
	leaq	96(%r11), %rdx
	movq	%rdx, 168(%rsp)
	leaq	160(%rcx), %rdx
	movq	%rdx, 96(%rsp)
	leaq	128(%rcx), %rdx
	movq	%rdx, 88(%rsp)
	leaq	224(%rcx), %rdx
	movq	%rdx, 112(%rsp)
	leaq	192(%rcx), %rdx
	movq	%rdx, 104(%rsp)
	shll	$5, %ebx
	movups	(%rcx,%rbx), %xmm0
	movups	16(%rcx,%rbx), %xmm1
	leaq	128(%r11), %rdx
	movq	%rdx, 144(%rsp)
	movups	%xmm0, 128(%r11)
	movups	%xmm1, 144(%r11)
	testb	%al, %al
	movl	%r15d, %eax
	cmovnel	%r13d, %eax
	cmovnel	%r15d, %r13d
	shll	$5, %eax
	leaq	160(%r11), %rdx
	movq	%rdx, 136(%rsp)
	movups	(%rcx,%rax), %xmm0
	movups	16(%rcx,%rax), %xmm1
	movups	%xmm0, 160(%r11)
	movups	%xmm1, 176(%r11)
	shll	$5, %r13d
	leaq	192(%r11), %rax
	movq	%rax, 128(%rsp)
	movups	(%rcx,%r13), %xmm0
	movups	16(%rcx,%r13), %xmm1
	movups	%xmm1, 208(%r11)
	movups	%xmm0, 192(%r11)
	shll	$5, %ebp
	leaq	224(%r11), %rax
	movq	%rax, 120(%rsp)
	movups	(%rcx,%rbp), %xmm0
	movups	16(%rcx,%rbp), %xmm1
	movups	%xmm1, 240(%r11)
	movups	%xmm0, 224(%r11)
	xorps	%xmm0, %xmm0
	movaps	%xmm0, 48(%rsp)
	movaps	%xmm0, 32(%rsp)
	movl	$8, %r13d
	movl	$4, %ebp
	xorl	%ebx, %ebx
	movl	$4, %r15d
	xorl	%r14d, %r14d
	jmp	55f
	.p2align	4
53:
	bswapq	%r10
	bswapq	%r9
	cmpq	%r10, %r9
	setb	%al
54:
	movzbl	%r12b, %ecx
	addq	%rcx, %r15
	xorb	$1, %r12b
	movzbl	%r12b, %ecx
	addq	%rcx, %rbx
	testb	%al, %al
	movl	%r13d, %ecx
	cmovnel	%ebp, %ecx
	decb	%cl
	movq	%r14, %rdx
	notq	%rdx
	movb	%cl, 40(%rsp,%rdx)
	movzbl	%al, %eax
	subq	%rax, %rbp
	xorb	$1, %al
	movzbl	%al, %eax
	subq	%rax, %r13
	incq	%r14
	cmpq	$4, %r14
	je	64f
55:
	movq	%r15, %rax
	shlq	$5, %rax
	movq	%rbx, %rcx
	shlq	$5, %rcx
	movq	(%r11,%rax), %rdi
	movq	8(%r11,%rax), %rsi
	movq	(%r11,%rcx), %rdx
	movq	8(%r11,%rcx), %rcx
	cmpq	%rsi, %rcx
	movq	%rsi, %rax
	cmovbq	%rcx, %rax
	cmpq	$24, %rax
	movl	$24, %r8d
	cmovbq	%rax, %r8
	cmpq	$8, %rax
	jb	57f
	xorl	%eax, %eax
	.p2align	4
56:
	movq	(%rdi,%rax), %r9
	movq	(%rdx,%rax), %r10
	cmpq	%r10, %r9
	jne	59f
	addq	$8, %rax
	addq	$-8, %r8
	cmpq	$7, %r8
	ja	56b
	jmp	58f
	.p2align	4
57:
	xorl	%eax, %eax
58:
	addq	%rax, %rdi
	subq	%rax, %rsi
	addq	%rax, %rdx
	subq	%rax, %rcx
	callq	"core::cmp::slices::RefSliceOrd::cmp::<#914af4d8504a0b72>"
	movq	8(%rsp), %r11
	testb	%al, %al
	sete	%r12b
	jmp	60f
	.p2align	4
59:
	bswapq	%r10
	bswapq	%r9
	cmpq	%r10, %r9
	setb	%r12b
60:
	testb	%r12b, %r12b
	movl	%ebx, %eax
	cmovnel	%r15d, %eax
	movb	%al, 32(%rsp,%r14)
	movq	%r13, %rax
	shlq	$5, %rax
	movq	%rbp, %rcx
	shlq	$5, %rcx
	movq	-32(%r11,%rax), %rdi
	movq	-24(%r11,%rax), %rsi
	movq	-32(%r11,%rcx), %rdx
	movq	-24(%r11,%rcx), %rcx
	cmpq	%rsi, %rcx
	movq	%rsi, %rax
	cmovbq	%rcx, %rax
	cmpq	$24, %rax
	movl	$24, %r8d
	cmovbq	%rax, %r8
	cmpq	$8, %rax
	jb	62f
	xorl	%eax, %eax
	.p2align	4
61:
	movq	(%rdi,%rax), %r9
	movq	(%rdx,%rax), %r10
	cmpq	%r10, %r9
	jne	53b
	addq	$8, %rax
	addq	$-8, %r8
	cmpq	$7, %r8
	ja	61b
	jmp	63f
	.p2align	4
62:
	xorl	%eax, %eax
63:
	addq	%rax, %rdi
	subq	%rax, %rsi
	addq	%rax, %rdx
	subq	%rax, %rcx
	callq	"core::cmp::slices::RefSliceOrd::cmp::<#914af4d8504a0b72>"
	movq	8(%rsp), %r11
	testb	%al, %al
	sete	%al
	jmp	54b
64:
	cmpq	%r13, %r15
	ja	65f
	cmpq	%rbp, %rbx
	ja	65f
	movzbl	32(%rsp), %eax
	shll	$5, %eax
	movups	(%r11,%rax), %xmm0
	movups	16(%r11,%rax), %xmm1
	movq	(%rsp), %r15
	movups	%xmm1, 16(%r15)
	movups	%xmm0, (%r15)
	movzbl	33(%rsp), %eax
	shll	$5, %eax
	movups	(%r11,%rax), %xmm0
	movups	16(%r11,%rax), %xmm1
	movq	64(%rsp), %rax
	movups	%xmm1, 16(%rax)
	movups	%xmm0, (%rax)
	movzbl	34(%rsp), %eax
	shll	$5, %eax
	movups	(%r11,%rax), %xmm0
	movups	16(%r11,%rax), %xmm1
	movq	72(%rsp), %rax
	movups	%xmm1, 16(%rax)
	movups	%xmm0, (%rax)
	movzbl	35(%rsp), %eax
	shll	$5, %eax
	movups	(%r11,%rax), %xmm0
	movups	16(%r11,%rax), %xmm1
	movq	80(%rsp), %rax
	movups	%xmm1, 16(%rax)
	movups	%xmm0, (%rax)
	movzbl	36(%rsp), %eax
	shll	$5, %eax
	movups	(%r11,%rax), %xmm0
	movups	16(%r11,%rax), %xmm1
	movq	88(%rsp), %rax
	movups	%xmm1, 16(%rax)
	movups	%xmm0, (%rax)
	movzbl	37(%rsp), %eax
	shll	$5, %eax
	movups	(%r11,%rax), %xmm0
	movups	16(%r11,%rax), %xmm1
	movq	96(%rsp), %rax
	movups	%xmm1, 16(%rax)
	movups	%xmm0, (%rax)
	movzbl	38(%rsp), %eax
	shll	$5, %eax
	movups	(%r11,%rax), %xmm0
	movups	16(%r11,%rax), %xmm1
	movq	104(%rsp), %rax
	movups	%xmm1, 16(%rax)
	movups	%xmm0, (%rax)
	movzbl	39(%rsp), %eax
	shll	$5, %eax
	movups	(%r11,%rax), %xmm0
	movups	16(%r11,%rax), %xmm1
	movq	112(%rsp), %rax
	movups	%xmm1, 16(%rax)
	movups	%xmm0, (%rax)
	movl	$8, %edx
	jmp	68f
65:
	movq	(%rsp), %r15
	movq	%r15, %rax
	subq	%r11, %rax
	cmpq	$255, %rax
	ja	66f
	movups	(%r11), %xmm0
	movups	16(%r11), %xmm1
	movups	%xmm1, 16(%r15)
	movups	%xmm0, (%r15)
	movq	152(%rsp), %rax
	movups	(%rax), %xmm0
	movups	16(%rax), %xmm1
	movq	64(%rsp), %rax
	movups	%xmm1, 16(%rax)
	movups	%xmm0, (%rax)
	movq	160(%rsp), %rax
	movups	(%rax), %xmm0
	movups	16(%rax), %xmm1
	movq	72(%rsp), %rax
	movups	%xmm1, 16(%rax)
	movups	%xmm0, (%rax)
	movq	168(%rsp), %rax
	movups	(%rax), %xmm0
	movups	16(%rax), %xmm1
	movq	80(%rsp), %rax
	movups	%xmm1, 16(%rax)
	movups	%xmm0, (%rax)
	movq	144(%rsp), %rax
	movups	(%rax), %xmm0
	movups	16(%rax), %xmm1
	movq	88(%rsp), %rax
	movups	%xmm1, 16(%rax)
	movups	%xmm0, (%rax)
	movq	136(%rsp), %rax
	movups	(%rax), %xmm0
	movups	16(%rax), %xmm1
	movq	96(%rsp), %rax
	movups	%xmm1, 16(%rax)
	movups	%xmm0, (%rax)
	movq	128(%rsp), %rax
	movups	(%rax), %xmm0
	movups	16(%rax), %xmm1
	movq	104(%rsp), %rax
	movups	%xmm1, 16(%rax)
	movups	%xmm0, (%rax)
	movq	120(%rsp), %rax
	movups	(%rax), %xmm0
	movups	16(%rax), %xmm1
	movq	112(%rsp), %rax
	movups	%xmm1, 16(%rax)
	movups	%xmm0, (%rax)
	jmp	67f
66:
	movl	$256, %edx
	movq	%r15, %rdi
	movq	%r11, %rsi
	callq	memmove@PLT
	movq	8(%rsp), %r11
67:
	movl	$4, %edx
68:
	movq	24(%rsp), %rsi
	movq	16(%rsp), %rax
	movq	%r11, (%rax)
	movq	176(%rsp), %rcx
	movq	%rcx, 8(%rax)
	jmp	95f
69:
	xorl	%eax, %eax
70:
	addq	%rax, %rdi
	subq	%rax, %rsi
	addq	%rax, %rdx
	subq	%rax, %rcx
	callq	"core::cmp::slices::RefSliceOrd::cmp::<#914af4d8504a0b72>"
	testb	%al, %al
	sete	%bl
	jmp	72f
71:
	bswapq	%r10
	bswapq	%r9
	cmpq	%r10, %r9
	setb	%bl
72:
	movq	96(%r15), %rdi
	movq	104(%r15), %rsi
	movq	64(%r15), %rdx
	movq	72(%r15), %rcx
	cmpq	%rsi, %rcx
	movq	%rsi, %rax
	cmovbq	%rcx, %rax
	cmpq	$24, %rax
	movl	$24, %r8d
	cmovbq	%rax, %r8
	cmpq	$8, %rax
	jb	74f
	xorl	%eax, %eax
	.p2align	4
73:
	movq	(%rdi,%rax), %r9
	movq	(%rdx,%rax), %r10
	cmpq	%r10, %r9
	jne	76f
	addq	$8, %rax
	addq	$-8, %r8
	cmpq	$7, %r8
	ja	73b
	jmp	75f
74:
	xorl	%eax, %eax
75:
	addq	%rax, %rdi
	subq	%rax, %rsi
	addq	%rax, %rdx
	subq	%rax, %rcx
	callq	"core::cmp::slices::RefSliceOrd::cmp::<#914af4d8504a0b72>"
	testb	%al, %al
	sete	%al
	jmp	77f
76:
	bswapq	%r10
	bswapq	%r9
	cmpq	%r10, %r9
	setb	%al
77:
	movzbl	%bl, %ebx
	movl	%ebx, %ecx
	xorb	$1, %cl
	movzbl	%cl, %r11d
	movzbl	%al, %r13d
	leaq	2(%r13), %rbp
	xorq	$3, %r13
	movl	%ebp, %eax
	shll	$5, %eax
	movl	%ebx, %ecx
	shll	$5, %ecx
	movq	(%r15,%rax), %rdi
	movq	8(%r15,%rax), %rsi
	movq	(%r15,%rcx), %rdx
	movq	8(%r15,%rcx), %rcx
	cmpq	%rsi, %rcx
	movq	%rsi, %rax
	cmovbq	%rcx, %rax
	cmpq	$24, %rax
	movl	$24, %r8d
	cmovbq	%rax, %r8
	cmpq	$8, %rax
	jb	79f
	xorl	%eax, %eax
	.p2align	4
78:
	movq	(%rdi,%rax), %r9
	movq	(%rdx,%rax), %r10
	cmpq	%r10, %r9
	jne	81f
	addq	$8, %rax
	addq	$-8, %r8
	cmpq	$7, %r8
	ja	78b
	jmp	80f
79:
	xorl	%eax, %eax
80:
	addq	%rax, %rdi
	subq	%rax, %rsi
	addq	%rax, %rdx
	subq	%rax, %rcx
	movq	%r11, %r14
	callq	"core::cmp::slices::RefSliceOrd::cmp::<#914af4d8504a0b72>"
	movq	%r14, %r11
	testb	%al, %al
	sete	%r14b
	jmp	82f
81:
	bswapq	%r10
	bswapq	%r9
	cmpq	%r10, %r9
	setb	%r14b
82:
	movl	%r13d, %eax
	shll	$5, %eax
	movl	%r11d, %ecx
	shll	$5, %ecx
	movq	(%r15,%rax), %rdi
	movq	8(%r15,%rax), %rsi
	movq	(%r15,%rcx), %rdx
	movq	8(%r15,%rcx), %rcx
	cmpq	%rsi, %rcx
	movq	%rsi, %rax
	cmovbq	%rcx, %rax
	cmpq	$24, %rax
	movl	$24, %r8d
	cmovbq	%rax, %r8
	cmpq	$8, %rax
	jb	84f
	xorl	%eax, %eax
	.p2align	4
83:
	movq	(%rdi,%rax), %r9
	movq	(%rdx,%rax), %r10
	cmpq	%r10, %r9
	jne	86f
	addq	$8, %rax
	addq	$-8, %r8
	cmpq	$7, %r8
	ja	83b
	jmp	85f
84:
	xorl	%eax, %eax
85:
	addq	%rax, %rdi
	subq	%rax, %rsi
	addq	%rax, %rdx
	subq	%rax, %rcx
	movq	%r11, %r15
	callq	"core::cmp::slices::RefSliceOrd::cmp::<#914af4d8504a0b72>"
	movq	%r15, %r11
	testb	%al, %al
	sete	%al
	jmp	87f
86:
	bswapq	%r10
	bswapq	%r9
	cmpq	%r10, %r9
	setb	%al
87:
	testb	%al, %al
	movq	%r11, %r15
	cmovneq	%rbp, %r15
	testb	%r14b, %r14b
	cmovneq	%rbx, %r15
	cmovneq	%rbp, %rbx
	cmovneq	%r11, %rbp
	testb	%al, %al
	movq	%r13, %r14
	cmovneq	%r11, %r14
	cmovneq	%r13, %rbp
	movl	%ebp, %eax
	shll	$5, %eax
	movl	%r15d, %ecx
	shll	$5, %ecx
	movq	(%rsp), %r8
	movq	(%r8,%rax), %rdi
	movq	8(%r8,%rax), %rsi
	movq	(%r8,%rcx), %rdx
	movq	8(%r8,%rcx), %rcx
	cmpq	%rsi, %rcx
	movq	%rsi, %rax
	cmovbq	%rcx, %rax
	cmpq	$24, %rax
	movl	$24, %r8d
	cmovbq	%rax, %r8
	cmpq	$8, %rax
	jb	89f
	xorl	%eax, %eax
	.p2align	4
88:
	movq	(%rdi,%rax), %r9
	movq	(%rdx,%rax), %r10
	cmpq	%r10, %r9
	jne	91f
	addq	$8, %rax
	addq	$-8, %r8
	cmpq	$7, %r8
	ja	88b
	jmp	90f
89:
	xorl	%eax, %eax
90:
	addq	%rax, %rdi
	subq	%rax, %rsi
	addq	%rax, %rdx
	subq	%rax, %rcx
	callq	"core::cmp::slices::RefSliceOrd::cmp::<#914af4d8504a0b72>"
	testb	%al, %al
	sete	%al
	jmp	92f
91:
	bswapq	%r10
	bswapq	%r9
	cmpq	%r10, %r9
	setb	%al
92:
	shll	$5, %ebx
	movq	(%rsp), %rcx
	movups	(%rcx,%rbx), %xmm0
	movups	16(%rcx,%rbx), %xmm1
	movups	%xmm0, (%r12)
	movups	%xmm1, 16(%r12)
	testb	%al, %al
	movl	%r15d, %eax
	cmovnel	%ebp, %eax
	cmovnel	%r15d, %ebp
	movq	%rcx, %r15
	shll	$5, %eax
	movups	(%rcx,%rax), %xmm0
	movups	16(%rcx,%rax), %xmm1
	movups	%xmm0, 32(%r12)
	movups	%xmm1, 48(%r12)
	shll	$5, %ebp
	movups	(%rcx,%rbp), %xmm0
	movups	16(%rcx,%rbp), %xmm1
	movups	%xmm1, 80(%r12)
	movups	%xmm0, 64(%r12)
	shll	$5, %r14d
	movups	(%rcx,%r14), %xmm0
	movups	16(%rcx,%r14), %xmm1
	movups	%xmm1, 112(%r12)
	movups	%xmm0, 96(%r12)
	movq	%rcx, %rax
	subq	%r12, %rax
	cmpq	$127, %rax
	ja	93f
	leaq	32(%r15), %rax
	leaq	96(%r15), %rcx
	leaq	64(%r15), %rdx
	leaq	32(%r12), %rsi
	leaq	64(%r12), %rdi
	leaq	96(%r12), %r8
	movups	(%r12), %xmm0
	movups	16(%r12), %xmm1
	movups	%xmm1, 16(%r15)
	movups	%xmm0, (%r15)
	movups	(%rsi), %xmm0
	movups	16(%rsi), %xmm1
	movups	%xmm1, 16(%rax)
	movups	%xmm0, (%rax)
	movups	(%rdi), %xmm0
	movups	16(%rdi), %xmm1
	movups	%xmm1, 16(%rdx)
	movups	%xmm0, (%rdx)
	movups	(%r8), %xmm0
	movups	16(%r8), %xmm1
	movups	%xmm1, 16(%rcx)
	movups	%xmm0, (%rcx)
	jmp	94f
93:
	movups	(%r12), %xmm0
	movups	16(%r12), %xmm1
	movups	32(%r12), %xmm2
	movups	48(%r12), %xmm3
	movups	64(%r12), %xmm4
	movups	80(%r12), %xmm5
	movups	96(%r12), %xmm6
	movups	112(%r12), %xmm7
	movups	%xmm7, 112(%r15)
	movups	%xmm6, 96(%r15)
	movups	%xmm5, 80(%r15)
	movups	%xmm4, 64(%r15)
	movups	%xmm3, 48(%r15)
	movups	%xmm2, 32(%r15)
	movups	%xmm1, 16(%r15)
	movups	%xmm0, (%r15)
94:
	movq	24(%rsp), %rsi
	movq	16(%rsp), %rax
	movq	%r12, (%rax)
	movq	8(%rsp), %rcx
	movq	%rcx, 8(%rax)
	movl	$4, %edx
95:
	movq	%r15, %rdi
	addq	$184, %rsp
	popq	%rbx
	popq	%r12
	popq	%r13
	popq	%r14
	popq	%r15
	popq	%rbp
	jmp	"core::slice::sort::small::insert_from::<#f98e8d76978ecc20>"
96:
	.size	"core::slice::sort::short::sort_half::<#f98e8d76978ecc20>", 96b-"core::slice::sort::short::sort_half::<#f98e8d76978ecc20>"

	.text
	.p2align	4
	.type	"core::slice::sort::slice+T::sort_by::<#67790cc31fa64999>",@function
"core::slice::sort::slice+T::sort_by::<#67790cc31fa64999>":
	cmpq	$20, %rsi
	ja	7f
	cmpq	$2, %rsi
	jb	10f
	movl	$1, %eax
	jmp	4f
1:
	xorl	%edx, %edx
2:
	movq	%rcx, (%rdi,%rdx)
3:
	incq	%rax
	cmpq	%rsi, %rax
	je	10f
4:
	movl	-8(%rdi,%rax,8), %ecx
	cmpl	(%rdi,%rax,8), %ecx
	jae	3b
	movq	%rax, %rdx
	movq	-8(%rdi,%rax,8), %r8
	movq	(%rdi,%rax,8), %rcx
	movq	%r8, (%rdi,%rax,8)
	decq	%rdx
	je	1b
	.p2align	4
5:
	cmpl	%ecx, -8(%rdi,%rdx,8)
	jae	6f
	movq	-8(%rdi,%rdx,8), %r8
	movq	%r8, (%rdi,%rdx,8)
	decq	%rdx
	jne	5b
	xorl	%edx, %edx
6:
	shlq	$3, %rdx
	jmp	2b
7:
	pushq	%rbp
	pushq	%r15
	pushq	%r14
	pushq	%r13
	pushq	%r12
	pushq	%rbx
	subq	$104, %rsp
	movl	(%rdi), %ebp
	movl	8(%rdi), %r14d
	movl	$2, %r12d
	cmpl	%r14d, %ebp
	jae	9f
	.p2align	4
8:
	movl	-8(%rdi,%r12,8), %eax
	cmpl	(%rdi,%r12,8), %eax
	jae	11f
	incq	%r12
	cmpq	%r12, %rsi
	jne	8b
	jmp	12f
	.p2align	4
9:
	movl	-8(%rdi,%r12,8), %eax
	cmpl	(%rdi,%r12,8), %eax
	jb	11f
	incq	%r12
	cmpq	%r12, %rsi
	jne	9b
	jmp	13f
10:
	xorl	%eax, %eax
	retq
11:
	cmpq	%rsi, %r12
	jne	15f
	cmpl	%r14d, %ebp
	jae	13f
12:
	movq	%rsi, %rcx
	shrq	%rcx
	subq	%rcx, %rsi
	leaq	(%rdi,%rsi,8), %rdx
	xorl	%esi, %esi
	callq	"core::slice::edits::mirror::<14'(,)::<i32,i32>>"
13:
	xorl	%eax, %eax
14:
	addq	$104, %rsp
	popq	%rbx
	popq	%r12
	popq	%r13
	popq	%r14
	popq	%r15
	popq	%rbp
	retq
15:
	leaq	(,%rsi,8), %rcx
	movb	$1, %al
	testq	%rcx, %rcx
	js	14b
	movq	%rsi, %r15
	movq	%rdi, 40(%rsp)
	movl	$4, %esi
	movq	%rcx, %rdi
	callq	rattle_alloc@PLT
	movq	%rax, %rcx
	movb	$1, %al
	xorl	%ebx, %ebx
	testb	$1, %cl
	cmovneq	%rdx, %rbx
	je	14b
	movq	%rdx, 48(%rsp)
	movq	%r15, %rsi
	movq	%r15, 56(%rsp)
	cmpq	$65, %r15
	setae	%cl
	movq	%r15, %rax
	shrq	%rax
	cmpq	%rax, %r12
	setae	%dl
	orb	%cl, %dl
	jne	16f
	bsrq	%rsi, %rcx
	xorl	$63, %ecx
	addl	%ecx, %ecx
	xorl	$126, %ecx
	leaq	48(%rsp), %r8
	movq	40(%rsp), %rdi
	movq	%rsi, %rdx
	jmp	34f
16:
	xorps	%xmm0, %xmm0
	movaps	%xmm0, 80(%rsp)
	movaps	%xmm0, 64(%rsp)
	movq	$0, 96(%rsp)
	movl	$64, %r13d
	cmpq	$4097, %rsi
	jb	18f
	movabsq	$4294967296, %rdx
	xorl	%ecx, %ecx
	.p2align	4
17:
	movq	%rcx, %rdi
	addq	%rdx, %rcx
	shrq	%rcx
	movq	%rcx, %r8
	imulq	%rcx, %r8
	cmpq	%rsi, %r8
	cmovaq	%rcx, %rdx
	cmovaq	%rdi, %rcx
	leaq	1(%rcx), %rdi
	cmpq	%rdx, %rdi
	jb	17b
	cmpq	$65, %rcx
	movl	$64, %r13d
	cmovaeq	%rcx, %r13
18:
	cmpq	%r13, %rax
	cmovbq	%rax, %r13
	movabsq	$4611686018427387904, %rax
	xorl	%edx, %edx
	divq	%rsi
	incq	%rax
	cmpq	%r13, %r12
	setae	%cl
	movq	%r13, %r8
	cmovaq	%r12, %r8
	cmpl	%r14d, %ebp
	jae	33f
	cmpq	%r13, %r12
	jb	33f
	cmpq	$15, %r12
	jbe	19f
	movq	%r12, %rcx
	shrq	%rcx
	movq	%r12, %rdx
	subq	%rcx, %rdx
	movq	40(%rsp), %rdi
	leaq	(%rdi,%rdx,8), %rdx
	xorl	%esi, %esi
	movq	%rax, %r14
	callq	"core::slice::edits::mirror::<14'(,)::<i32,i32>>"
	movq	%r14, %rax
	movb	$1, %cl
	jmp	32f
19:
	leaq	-2(%r12), %rdi
	movq	%rdi, %rsi
	shrq	%rsi
	cmpq	$1, %r12
	movq	40(%rsp), %rdx
	je	20f
	movq	(%rdx), %rcx
	movq	-8(%rdx,%r12,8), %r8
	movq	%r8, (%rdx)
	movq	%rcx, -8(%rdx,%r12,8)
20:
	movb	$1, %cl
	testq	%rsi, %rsi
	je	32f
	cmpq	$1, %rdi
	jbe	21f
	movq	8(%rdx), %rdi
	movq	-16(%rdx,%r12,8), %r8
	movq	%r8, 8(%rdx)
	movq	%rdi, -16(%rdx,%r12,8)
	jmp	22f
21:
	testq	%rdi, %rdi
	jne	22f
	movq	(%rdx), %rdi
	movq	8(%rdx), %r8
	movq	%r8, (%rdx)
	movq	%rdi, 8(%rdx)
22:
	cmpq	$1, %rsi
	je	32f
	leaq	-3(%r12), %rdi
	cmpq	$2, %rdi
	jbe	23f
	movq	16(%rdx), %rdi
	movq	-24(%rdx,%r12,8), %r8
	movq	%r8, 16(%rdx)
	movq	%rdi, -24(%rdx,%r12,8)
	jmp	24f
23:
	je	24f
	movq	-24(%rdx,%r12,8), %rdi
	movq	16(%rdx), %r8
	movq	%r8, -24(%rdx,%r12,8)
	movq	%rdi, 16(%rdx)
24:
	cmpq	$2, %rsi
	je	32f
	leaq	-4(%r12), %rdi
	cmpq	$3, %rdi
	jbe	25f
	movq	24(%rdx), %rdi
	movq	-32(%rdx,%r12,8), %r8
	movq	%r8, 24(%rdx)
	movq	%rdi, -32(%rdx,%r12,8)
	jmp	26f
25:
	je	26f
	movq	-32(%rdx,%r12,8), %rdi
	movq	24(%rdx), %r8
	movq	%r8, -32(%rdx,%r12,8)
	movq	%rdi, 24(%rdx)
26:
	cmpq	$3, %rsi
	je	32f
	leaq	-5(%r12), %rdi
	cmpq	$4, %rdi
	jbe	27f
	movq	32(%rdx), %rdi
	movq	-40(%rdx,%r12,8), %r8
	movq	%r8, 32(%rdx)
	movq	%rdi, -40(%rdx,%r12,8)
	jmp	28f
27:
	je	28f
	movq	-40(%rdx,%r12,8), %rdi
	movq	32(%rdx), %r8
	movq	%r8, -40(%rdx,%r12,8)
	movq	%rdi, 32(%rdx)
28:
	cmpq	$4, %rsi
	je	32f
	leaq	-6(%r12), %rdi
	cmpq	$5, %rdi
	jbe	29f
	movq	40(%rdx), %rdi
	movq	-48(%rdx,%r12,8), %r8
	movq	%r8, 40(%rdx)
	movq	%rdi, -48(%rdx,%r12,8)
	jmp	30f
29:
	je	30f
	movq	-48(%rdx,%r12,8), %rdi
	movq	40(%rdx), %r8
	movq	%r8, -48(%rdx,%r12,8)
	movq	%rdi, 40(%rdx)
30:
	cmpq	$5, %rsi
	je	32f
	leaq	-7(%r12), %rsi
	cmpq	$6, %rsi
	jbe	31f
	movq	48(%rdx), %rsi
	movq	-56(%rdx,%r12,8), %rdi
	movq	%rdi, 48(%rdx)
	movq	%rsi, -56(%rdx,%r12,8)
	jmp	32f
31:
	je	32f
	movq	40(%rsp), %rdx
	movq	-56(%rdx,%r12,8), %rsi
	movq	48(%rdx), %rdi
	movq	%rdi, -56(%rdx,%r12,8)
	movq	%rsi, 48(%rdx)
32:
	movq	%r12, %r8
33:
	leaq	48(%rsp), %rdx
	movq	%rdx, 24(%rsp)
	movq	%rax, 16(%rsp)
	movq	%r13, 8(%rsp)
	movl	$0, (%rsp)
	movzbl	%cl, %r9d
	leaq	64(%rsp), %rdi
	movq	40(%rsp), %rsi
	movq	%r15, %rdx
	xorl	%ecx, %ecx
	callq	"core::slice::sort::runs::climb::<#12eb916b83b0f891>"
	testb	$1, 72(%rsp)
	jne	35f
	movq	64(%rsp), %rdx
	movl	$127, %eax
	bsrq	%rdx, %rax
	xorl	$63, %eax
	addl	%eax, %eax
	movl	$126, %ecx
	subl	%eax, %ecx
	leaq	48(%rsp), %r8
	movq	40(%rsp), %rdi
	movq	%rdx, %rsi
34:
	callq	"core::slice::sort::stable::quicksort::<#12eb916b83b0f891>"
35:
	movq	%rbx, %rdi
	callq	rattle_dealloc@PLT
	jmp	13b
36:
	.size	"core::slice::sort::slice+T::sort_by::<#67790cc31fa64999>", 36b-"core::slice::sort::slice+T::sort_by::<#67790cc31fa64999>"

	.text
	.p2align	4
	.type	"core::slice::sort::slice+T::sort_unstable::<#17f159365526a5ba>",@function
"core::slice::sort::slice+T::sort_unstable::<#17f159365526a5ba>":
	movq	%rsi, %rdx
	cmpq	$20, %rsi
	ja	7f
	cmpq	$2, %rdx
	jb	13f
	movl	$1, %eax
	jmp	4f
1:
	xorl	%esi, %esi
2:
	movq	%rcx, (%rdi,%rsi)
3:
	incq	%rax
	cmpq	%rdx, %rax
	je	13f
4:
	movq	-8(%rdi,%rax,8), %r8
	movq	(%rdi,%rax,8), %rcx
	cmpq	%r8, %rcx
	jae	3b
	movq	%rax, %rsi
	movq	%r8, (%rdi,%rax,8)
	decq	%rsi
	je	1b
	.p2align	4
5:
	movq	-8(%rdi,%rsi,8), %r8
	cmpq	%r8, %rcx
	jae	6f
	movq	%r8, (%rdi,%rsi,8)
	decq	%rsi
	jne	5b
	xorl	%esi, %esi
6:
	shlq	$3, %rsi
	jmp	2b
7:
	movq	(%rdi), %rax
	movq	8(%rdi), %rcx
	movl	$2, %esi
	cmpq	%rax, %rcx
	jae	9f
	.p2align	4
8:
	movq	(%rdi,%rsi,8), %r8
	cmpq	-8(%rdi,%rsi,8), %r8
	jae	10f
	incq	%rsi
	cmpq	%rsi, %rdx
	jne	8b
	jmp	12f
	.p2align	4
9:
	movq	(%rdi,%rsi,8), %r8
	cmpq	-8(%rdi,%rsi,8), %r8
	jb	10f
	incq	%rsi
	cmpq	%rsi, %rdx
	jne	9b
	jmp	13f
10:
	cmpq	%rdx, %rsi
	jae	11f
	bsrq	%rdx, %rcx
	xorl	$63, %ecx
	addl	%ecx, %ecx
	xorl	$126, %ecx
	xorl	%esi, %esi
	jmp	"core::slice::sort::unstable::quicksort::<#7ab9c65c4fe95e6e>"
11:
	cmpq	%rax, %rcx
	jae	13f
12:
	movq	%rdx, %rcx
	shrq	%rcx
	subq	%rcx, %rdx
	leaq	(%rdi,%rdx,8), %rdx
	xorl	%esi, %esi
	jmp	"core::slice::edits::mirror::<i64>"
13:
	retq
14:
	.size	"core::slice::sort::slice+T::sort_unstable::<#17f159365526a5ba>", 14b-"core::slice::sort::slice+T::sort_unstable::<#17f159365526a5ba>"

	.text
	.p2align	4
	.type	"core::slice::sort::small::insert_from::<#32fabb223415b920>",@function
"core::slice::sort::small::insert_from::<#32fabb223415b920>":
	pushq	%rbp
	pushq	%r15
	pushq	%r14
	pushq	%r13
	pushq	%r12
	pushq	%rbx
	subq	$40, %rsp
	movq	%rsi, 8(%rsp)
	cmpq	%rsi, %rdx
	jae	19f
	movq	%rdx, %rbx
	movq	%rdi, %r15
	jmp	4f
1:
	xorl	%eax, %eax
2:
	movq	%rbp, (%r15,%rax)
	movq	%r12, 8(%r15,%rax)
	movq	%r13, 16(%r15,%rax)
	movdqa	16(%rsp), %xmm0
	movdqu	%xmm0, 24(%r15,%rax)
3:
	incq	%rbx
	cmpq	8(%rsp), %rbx
	je	19f
4:
	leaq	(%rbx,%rbx,4), %rcx
	leaq	(%r15,%rcx,8), %r14
	movq	-40(%r15,%rcx,8), %rax
	movq	(%r15,%rcx,8), %rbp
	cmpq	%rax, %rbp
	jne	5f
	movq	8(%r14), %r12
	movq	16(%r14), %r13
	movq	-32(%r14), %rdx
	movq	-24(%r14), %rcx
	movq	%r12, %rdi
	movq	%r13, %rsi
	callq	"core::cmp::slices::RefSliceOrd::cmp::<#914af4d8504a0b72>"
	testb	%al, %al
	jne	3b
	jmp	6f
	.p2align	4
5:
	bswapq	%rax
	movq	%rbp, %rcx
	bswapq	%rcx
	cmpq	%rax, %rcx
	jae	3b
	movq	8(%r14), %r12
	movq	16(%r14), %r13
6:
	movq	%rbx, %rax
	movups	24(%r14), %xmm0
	movaps	%xmm0, 16(%rsp)
	movdqu	-40(%r14), %xmm0
	movdqu	-24(%r14), %xmm1
	movdqu	%xmm0, (%r14)
	movq	-8(%r14), %rcx
	movq	%rcx, 32(%r14)
	movdqu	%xmm1, 16(%r14)
	decq	%rax
	je	1b
	movq	%rbp, %rdx
	bswapq	%rdx
	jmp	9f
	.p2align	4
7:
	bswapq	%rdi
	cmpq	%rdi, %rdx
	jae	18f
8:
	leaq	(%rcx,%rcx,4), %rcx
	movq	32(%rsi), %rdi
	movq	%rdi, 32(%r15,%rcx,8)
	movdqu	(%rsi), %xmm0
	movdqu	16(%rsi), %xmm1
	movdqu	%xmm1, 16(%r15,%rcx,8)
	movdqu	%xmm0, (%r15,%rcx,8)
	testq	%rax, %rax
	je	17f
9:
	movq	%rax, %rcx
	decq	%rax
	leaq	(%rax,%rax,4), %rdi
	leaq	(%r15,%rdi,8), %rsi
	movq	(%r15,%rdi,8), %rdi
	cmpq	%rdi, %rbp
	jne	7b
	movq	8(%rsi), %r8
	movq	16(%rsi), %rdi
	cmpq	%r13, %rdi
	movq	%r13, %r9
	cmovbq	%rdi, %r9
	xorl	%r10d, %r10d
	cmpq	$64, %r9
	jb	11f
	movq	%r9, %r11
	.p2align	4
10:
	movdqu	(%r12,%r10), %xmm0
	movdqu	16(%r12,%r10), %xmm1
	movdqu	32(%r12,%r10), %xmm2
	movdqu	48(%r12,%r10), %xmm3
	movdqu	(%r8,%r10), %xmm4
	pcmpeqb	%xmm0, %xmm4
	movdqu	16(%r8,%r10), %xmm0
	pcmpeqb	%xmm1, %xmm0
	movdqu	32(%r8,%r10), %xmm1
	pcmpeqb	%xmm2, %xmm1
	pand	%xmm4, %xmm1
	movdqu	48(%r8,%r10), %xmm2
	pcmpeqb	%xmm3, %xmm2
	pand	%xmm0, %xmm2
	pand	%xmm1, %xmm2
	pmovmskb	%xmm2, %r14d
	cmpl	$65535, %r14d
	jne	11f
	addq	$64, %r10
	addq	$-64, %r11
	cmpq	$63, %r11
	ja	10b
11:
	movq	%r9, %r11
	subq	%r10, %r11
	cmpq	$8, %r11
	jb	13f
	.p2align	4
12:
	movq	(%r12,%r10), %r14
	cmpq	(%r8,%r10), %r14
	jne	13f
	addq	$8, %r10
	addq	$-8, %r11
	cmpq	$7, %r11
	ja	12b
13:
	cmpq	%r9, %r10
	jae	15f
	.p2align	4
14:
	movzbl	(%r8,%r10), %r11d
	cmpb	%r11b, (%r12,%r10)
	jne	16f
	incq	%r10
	cmpq	%r10, %r9
	jne	14b
15:
	cmpq	%rdi, %r13
16:
	jb	8b
	jmp	18f
17:
	xorl	%ecx, %ecx
18:
	shlq	$3, %rcx
	leaq	(%rcx,%rcx,4), %rax
	jmp	2b
19:
	addq	$40, %rsp
	popq	%rbx
	popq	%r12
	popq	%r13
	popq	%r14
	popq	%r15
	popq	%rbp
	retq
20:
	.size	"core::slice::sort::small::insert_from::<#32fabb223415b920>", 20b-"core::slice::sort::small::insert_from::<#32fabb223415b920>"

	.text
	.p2align	4
	.type	"core::slice::sort::small::insert_from::<#b4bd7111e818b46c>",@function
"core::slice::sort::small::insert_from::<#b4bd7111e818b46c>":
	pushq	%rbp
	pushq	%r15
	pushq	%r14
	pushq	%r13
	pushq	%r12
	pushq	%rbx
	subq	$40, %rsp
	movq	%rsi, (%rsp)
	cmpq	%rsi, %rdx
	jae	16f
	movq	%rdx, %r13
	movq	%rdi, %r15
	jmp	4f
1:
	xorl	%ebp, %ebp
	movq	%rax, %rbx
2:
	movq	%r12, (%r15,%rbp)
	movq	%rbx, 8(%r15,%rbp)
	movdqa	16(%rsp), %xmm0
	movdqu	%xmm0, 16(%r15,%rbp)
3:
	incq	%r13
	cmpq	(%rsp), %r13
	je	16f
4:
	movq	%r13, %rbx
	shlq	$5, %rbx
	leaq	-1(%r13), %rbp
	movq	%rbp, %r14
	shlq	$5, %r14
	movq	(%r15,%rbx), %r12
	movq	8(%r15,%rbx), %rsi
	movq	(%r15,%r14), %rdx
	movq	8(%r15,%r14), %rcx
	movq	%r12, %rdi
	movq	%rsi, 8(%rsp)
	callq	"core::cmp::slices::RefSliceOrd::cmp::<#914af4d8504a0b72>"
	testb	%al, %al
	jne	3b
	movq	8(%rsp), %rax
	addq	%r15, %rbx
	addq	%r15, %r14
	movups	16(%rbx), %xmm0
	movaps	%xmm0, 16(%rsp)
	movdqu	(%r14), %xmm0
	movdqu	16(%r14), %xmm1
	movdqu	%xmm0, (%rbx)
	movdqu	%xmm1, 16(%rbx)
	testq	%rbp, %rbp
	je	1b
	movq	%rax, %rbx
	jmp	7f
	.p2align	4
5:
	cmpq	%rdx, %rbx
	jae	15f
6:
	addq	%r15, %rcx
	shlq	$5, %rbp
	movdqu	(%rcx), %xmm0
	movdqu	16(%rcx), %xmm1
	movdqu	%xmm1, 16(%r15,%rbp)
	movdqu	%xmm0, (%r15,%rbp)
	movq	%rax, %rbp
	testq	%rax, %rax
	je	14f
7:
	leaq	-1(%rbp), %rax
	movq	%rax, %rcx
	shlq	$5, %rcx
	movq	(%r15,%rcx), %rsi
	movq	8(%r15,%rcx), %rdx
	cmpq	%rbx, %rdx
	movq	%rbx, %rdi
	cmovbq	%rdx, %rdi
	xorl	%r8d, %r8d
	cmpq	$64, %rdi
	jb	9f
	movq	%rdi, %r9
	.p2align	4
8:
	movdqu	(%r12,%r8), %xmm0
	movdqu	16(%r12,%r8), %xmm1
	movdqu	32(%r12,%r8), %xmm2
	movdqu	48(%r12,%r8), %xmm3
	movdqu	(%rsi,%r8), %xmm4
	pcmpeqb	%xmm0, %xmm4
	movdqu	16(%rsi,%r8), %xmm0
	pcmpeqb	%xmm1, %xmm0
	movdqu	32(%rsi,%r8), %xmm1
	pcmpeqb	%xmm2, %xmm1
	pand	%xmm4, %xmm1
	movdqu	48(%rsi,%r8), %xmm2
	pcmpeqb	%xmm3, %xmm2
	pand	%xmm0, %xmm2
	pand	%xmm1, %xmm2
	pmovmskb	%xmm2, %r10d
	cmpl	$65535, %r10d
	jne	9f
	addq	$64, %r8
	addq	$-64, %r9
	cmpq	$63, %r9
	ja	8b
9:
	movq	%rdi, %r9
	subq	%r8, %r9
	cmpq	$8, %r9
	jb	11f
	.p2align	4
10:
	movq	(%r12,%r8), %r10
	cmpq	(%rsi,%r8), %r10
	jne	11f
	addq	$8, %r8
	addq	$-8, %r9
	cmpq	$7, %r9
	ja	10b
11:
	cmpq	%rdi, %r8
	jae	5b
	.p2align	4
12:
	movzbl	(%rsi,%r8), %r9d
	cmpb	%r9b, (%r12,%r8)
	jne	13f
	incq	%r8
	cmpq	%r8, %rdi
	jne	12b
	jmp	5b
	.p2align	4
13:
	jb	6b
	jmp	15f
14:
	xorl	%ebp, %ebp
15:
	shlq	$5, %rbp
	jmp	2b
16:
	addq	$40, %rsp
	popq	%rbx
	popq	%r12
	popq	%r13
	popq	%r14
	popq	%r15
	popq	%rbp
	retq
17:
	.size	"core::slice::sort::small::insert_from::<#b4bd7111e818b46c>", 17b-"core::slice::sort::small::insert_from::<#b4bd7111e818b46c>"

	.text
	.p2align	4
	.type	"core::slice::sort::small::insert_from::<#f98e8d76978ecc20>",@function
"core::slice::sort::small::insert_from::<#f98e8d76978ecc20>":
	pushq	%rbp
	pushq	%r15
	pushq	%r14
	pushq	%r13
	pushq	%r12
	pushq	%rbx
	subq	$56, %rsp
	movq	%rsi, 16(%rsp)
	cmpq	%rsi, %rdx
	jae	26f
	movq	%rdi, %r15
	jmp	4f
1:
	xorl	%eax, %eax
2:
	movq	%r12, (%r15,%rax)
	movq	%rbx, 8(%r15,%rax)
	movdqa	32(%rsp), %xmm0
	movdqu	%xmm0, 16(%r15,%rax)
3:
	movq	24(%rsp), %rdx
	incq	%rdx
	cmpq	16(%rsp), %rdx
	je	26f
4:
	movq	%rdx, %r14
	shlq	$5, %r14
	movq	%rdx, 24(%rsp)
	leaq	-1(%rdx), %r13
	movq	%r13, %rbp
	shlq	$5, %rbp
	movq	(%r15,%r14), %r12
	movq	8(%r15,%r14), %rbx
	movq	(%r15,%rbp), %rdx
	movq	8(%r15,%rbp), %rcx
	cmpq	%rbx, %rcx
	movq	%rbx, %rax
	cmovbq	%rcx, %rax
	cmpq	$24, %rax
	movl	$24, %esi
	cmovbq	%rax, %rsi
	cmpq	$8, %rax
	jb	6f
	xorl	%eax, %eax
	.p2align	4
5:
	movq	(%r12,%rax), %rdi
	movq	(%rdx,%rax), %r8
	cmpq	%r8, %rdi
	jne	8f
	addq	$8, %rax
	addq	$-8, %rsi
	cmpq	$7, %rsi
	ja	5b
	jmp	7f
	.p2align	4
6:
	xorl	%eax, %eax
7:
	leaq	(%r12,%rax), %rdi
	movq	%rbx, %rsi
	subq	%rax, %rsi
	addq	%rax, %rdx
	subq	%rax, %rcx
	callq	"core::cmp::slices::RefSliceOrd::cmp::<#914af4d8504a0b72>"
	testb	%al, %al
	jne	3b
	jmp	9f
	.p2align	4
8:
	bswapq	%r8
	bswapq	%rdi
	cmpq	%r8, %rdi
	jae	3b
9:
	addq	%r15, %r14
	addq	%r15, %rbp
	movups	16(%r14), %xmm0
	movaps	%xmm0, 32(%rsp)
	movdqu	(%rbp), %xmm0
	movdqu	16(%rbp), %xmm1
	movdqu	%xmm0, (%r14)
	movdqu	%xmm1, 16(%r14)
	testq	%r13, %r13
	je	1b
	movq	%rbx, 8(%rsp)
	jmp	12f
	.p2align	4
10:
	bswapq	%r9
	bswapq	%r8
	cmpq	%r9, %r8
	jae	25f
11:
	addq	%r15, %rdx
	shlq	$5, %rax
	movdqu	(%rdx), %xmm0
	movdqu	16(%rdx), %xmm1
	movdqu	%xmm1, 16(%r15,%rax)
	movdqu	%xmm0, (%r15,%rax)
	testq	%r13, %r13
	je	24f
12:
	movq	%r13, %rax
	decq	%r13
	movq	%r13, %rdx
	shlq	$5, %rdx
	movq	(%r15,%rdx), %rdi
	movq	8(%r15,%rdx), %rsi
	cmpq	%rbx, %rsi
	movq	%rbx, %r8
	cmovbq	%rsi, %r8
	cmpq	$24, %r8
	movl	$24, %ecx
	cmovbq	%r8, %rcx
	xorl	%r14d, %r14d
	cmpq	$8, %r8
	jb	14f
	.p2align	4
13:
	movq	(%r12,%r14), %r8
	movq	(%rdi,%r14), %r9
	cmpq	%r9, %r8
	jne	10b
	addq	$8, %r14
	addq	$-8, %rcx
	cmpq	$7, %rcx
	ja	13b
14:
	movq	%rbx, %r13
	subq	%r14, %r13
	movq	%rsi, %r9
	subq	%r14, %r9
	cmpq	%r13, %r9
	movq	%r13, %r8
	cmovbq	%r9, %r8
	cmpq	$64, %r8
	jb	16f
	leaq	48(%r12), %rcx
	leaq	(%rcx,%r14), %rbp
	leaq	(%rdi,%r14), %rcx
	addq	$48, %rcx
	xorl	%r11d, %r11d
	movq	%r8, %r10
	.p2align	4
15:
	movdqu	-48(%rbp,%r11), %xmm0
	movdqu	-32(%rbp,%r11), %xmm1
	movdqu	-16(%rbp,%r11), %xmm2
	movdqu	(%rbp,%r11), %xmm3
	movdqu	-48(%rcx,%r11), %xmm4
	pcmpeqb	%xmm0, %xmm4
	movdqu	-32(%rcx,%r11), %xmm0
	pcmpeqb	%xmm1, %xmm0
	movdqu	-16(%rcx,%r11), %xmm1
	pcmpeqb	%xmm2, %xmm1
	pand	%xmm4, %xmm1
	movdqu	(%rcx,%r11), %xmm2
	pcmpeqb	%xmm3, %xmm2
	pand	%xmm0, %xmm2
	pand	%xmm1, %xmm2
	pmovmskb	%xmm2, %ebx
	cmpl	$65535, %ebx
	jne	17f
	addq	$64, %r11
	addq	$-64, %r10
	cmpq	$63, %r10
	ja	15b
	jmp	17f
	.p2align	4
16:
	xorl	%r11d, %r11d
17:
	leaq	(%r12,%r14), %rbp
	addq	%r14, %rdi
	movq	%r8, %rcx
	subq	%r11, %rcx
	cmpq	$8, %rcx
	jb	21f
	movq	8(%rsp), %rbx
	.p2align	4
18:
	movq	(%rbp,%r11), %r10
	cmpq	(%rdi,%r11), %r10
	jne	19f
	addq	$8, %r11
	addq	$-8, %rcx
	cmpq	$7, %rcx
	ja	18b
19:
	cmpq	%r8, %r11
	jae	22f
	.p2align	4
20:
	movzbl	(%rdi,%r11), %ecx
	cmpb	%cl, (%rbp,%r11)
	jne	23f
	incq	%r11
	cmpq	%r11, %r8
	jne	20b
	jmp	22f
	.p2align	4
21:
	movq	8(%rsp), %rbx
	cmpq	%r8, %r11
	jb	20b
22:
	cmpq	%rsi, %rbx
	je	25f
	cmpq	%r9, %r13
23:
	leaq	-1(%rax), %r13
	jb	11b
	jmp	25f
24:
	xorl	%eax, %eax
25:
	shlq	$5, %rax
	jmp	2b
26:
	addq	$56, %rsp
	popq	%rbx
	popq	%r12
	popq	%r13
	popq	%r14
	popq	%r15
	popq	%rbp
	retq
27:
	.size	"core::slice::sort::small::insert_from::<#f98e8d76978ecc20>", 27b-"core::slice::sort::small::insert_from::<#f98e8d76978ecc20>"

	.text
	.p2align	4
	.type	"core::slice::sort::stable::merge_sort::<#12eb916b83b0f891>",@function
"core::slice::sort::stable::merge_sort::<#12eb916b83b0f891>":
	cmpq	$32, %rsi
	ja	1f
	jmp	"core::slice::sort::short::sort::<#12eb916b83b0f891>"
1:
	pushq	%rbp
	pushq	%r15
	pushq	%r14
	pushq	%r13
	pushq	%r12
	pushq	%rbx
	pushq	%rax
	movq	%rsi, %rbx
	shrq	%rbx
	leaq	(%rdi,%rbx,8), %r14
	movq	%rsi, %r15
	subq	%rbx, %r15
	movq	%rdi, %r12
	movq	%rsi, %r13
	movq	%rbx, %rsi
	movq	%rdx, %rbp
	callq	"core::slice::sort::stable::merge_sort::<#12eb916b83b0f891>"
	movq	%r14, %rdi
	movq	%r15, %rsi
	movq	%rbp, %rdx
	callq	"core::slice::sort::stable::merge_sort::<#12eb916b83b0f891>"
	movq	%r12, %rdi
	movq	%r13, %rsi
	movq	%rbx, %rdx
	movq	%rbp, %rcx
	addq	$8, %rsp
	popq	%rbx
	popq	%r12
	popq	%r13
	popq	%r14
	popq	%r15
	popq	%rbp
	jmp	"core::slice::sort::merge::merge::<#12eb916b83b0f891>"
2:
	.size	"core::slice::sort::stable::merge_sort::<#12eb916b83b0f891>", 2b-"core::slice::sort::stable::merge_sort::<#12eb916b83b0f891>"

	.text
	.p2align	4
	.type	"core::slice::sort::stable::merge_sort::<#196989f31ad14034>",@function
"core::slice::sort::stable::merge_sort::<#196989f31ad14034>":
	cmpq	$32, %rsi
	ja	1f
	jmp	"core::slice::sort::short::sort::<#196989f31ad14034>"
1:
	pushq	%rbp
	pushq	%r15
	pushq	%r14
	pushq	%r13
	pushq	%r12
	pushq	%rbx
	pushq	%rax
	movq	%rsi, %rbx
	shrq	%rbx
	leaq	(%rdi,%rbx,8), %r14
	movq	%rsi, %r15
	subq	%rbx, %r15
	movq	%rdi, %r12
	movq	%rsi, %r13
	movq	%rbx, %rsi
	movq	%rdx, %rbp
	callq	"core::slice::sort::stable::merge_sort::<#196989f31ad14034>"
	movq	%r14, %rdi
	movq	%r15, %rsi
	movq	%rbp, %rdx
	callq	"core::slice::sort::stable::merge_sort::<#196989f31ad14034>"
	movq	%r12, %rdi
	movq	%r13, %rsi
	movq	%rbx, %rdx
	movq	%rbp, %rcx
	addq	$8, %rsp
	popq	%rbx
	popq	%r12
	popq	%r13
	popq	%r14
	popq	%r15
	popq	%rbp
	jmp	"core::slice::sort::merge::merge::<#196989f31ad14034>"
2:
	.size	"core::slice::sort::stable::merge_sort::<#196989f31ad14034>", 2b-"core::slice::sort::stable::merge_sort::<#196989f31ad14034>"

	.text
	.p2align	4
	.type	"core::slice::sort::stable::merge_sort::<#32fabb223415b920>",@function
"core::slice::sort::stable::merge_sort::<#32fabb223415b920>":
	cmpq	$32, %rsi
	ja	1f
	jmp	"core::slice::sort::short::sort::<#32fabb223415b920>"
1:
	pushq	%rbp
	pushq	%r15
	pushq	%r14
	pushq	%r13
	pushq	%r12
	pushq	%rbx
	pushq	%rax
	movq	%rsi, %rbx
	shrq	%rbx
	leaq	(%rbx,%rbx,4), %rax
	leaq	(%rdi,%rax,8), %r14
	movq	%rsi, %r15
	subq	%rbx, %r15
	movq	%rdi, %r12
	movq	%rsi, %r13
	movq	%rbx, %rsi
	movq	%rdx, %rbp
	callq	"core::slice::sort::stable::merge_sort::<#32fabb223415b920>"
	movq	%r14, %rdi
	movq	%r15, %rsi
	movq	%rbp, %rdx
	callq	"core::slice::sort::stable::merge_sort::<#32fabb223415b920>"
	movq	%r12, %rdi
	movq	%r13, %rsi
	movq	%rbx, %rdx
	movq	%rbp, %rcx
	addq	$8, %rsp
	popq	%rbx
	popq	%r12
	popq	%r13
	popq	%r14
	popq	%r15
	popq	%rbp
	jmp	"core::slice::sort::merge::merge::<#32fabb223415b920>"
2:
	.size	"core::slice::sort::stable::merge_sort::<#32fabb223415b920>", 2b-"core::slice::sort::stable::merge_sort::<#32fabb223415b920>"

	.text
	.p2align	4
	.type	"core::slice::sort::stable::merge_sort::<#54047240e3f04dbb>",@function
"core::slice::sort::stable::merge_sort::<#54047240e3f04dbb>":
	cmpq	$32, %rsi
	ja	1f
	jmp	"core::slice::sort::short::sort::<#54047240e3f04dbb>"
1:
	pushq	%rbp
	pushq	%r15
	pushq	%r14
	pushq	%r13
	pushq	%r12
	pushq	%rbx
	pushq	%rax
	movq	%rsi, %rbx
	shrq	%rbx
	leaq	(%rbx,%rbx,4), %r14
	shlq	$4, %r14
	addq	%rdi, %r14
	movq	%rsi, %r15
	subq	%rbx, %r15
	movq	%rdi, %r12
	movq	%rsi, %r13
	movq	%rbx, %rsi
	movq	%rdx, %rbp
	callq	"core::slice::sort::stable::merge_sort::<#54047240e3f04dbb>"
	movq	%r14, %rdi
	movq	%r15, %rsi
	movq	%rbp, %rdx
	callq	"core::slice::sort::stable::merge_sort::<#54047240e3f04dbb>"
	movq	%r12, %rdi
	movq	%r13, %rsi
	movq	%rbx, %rdx
	movq	%rbp, %rcx
	addq	$8, %rsp
	popq	%rbx
	popq	%r12
	popq	%r13
	popq	%r14
	popq	%r15
	popq	%rbp
	jmp	"core::slice::sort::merge::merge::<#54047240e3f04dbb>"
2:
	.size	"core::slice::sort::stable::merge_sort::<#54047240e3f04dbb>", 2b-"core::slice::sort::stable::merge_sort::<#54047240e3f04dbb>"

	.text
	.p2align	4
	.type	"core::slice::sort::stable::merge_sort::<#b4bd7111e818b46c>",@function
"core::slice::sort::stable::merge_sort::<#b4bd7111e818b46c>":
	cmpq	$32, %rsi
	ja	1f
	jmp	"core::slice::sort::short::sort::<#b4bd7111e818b46c>"
1:
	pushq	%rbp
	pushq	%r15
	pushq	%r14
	pushq	%r13
	pushq	%r12
	pushq	%rbx
	pushq	%rax
	movq	%rsi, %rbx
	shrq	%rbx
	movq	%rbx, %r14
	shlq	$5, %r14
	addq	%rdi, %r14
	movq	%rsi, %r15
	subq	%rbx, %r15
	movq	%rdi, %r12
	movq	%rsi, %r13
	movq	%rbx, %rsi
	movq	%rdx, %rbp
	callq	"core::slice::sort::stable::merge_sort::<#b4bd7111e818b46c>"
	movq	%r14, %rdi
	movq	%r15, %rsi
	movq	%rbp, %rdx
	callq	"core::slice::sort::stable::merge_sort::<#b4bd7111e818b46c>"
	movq	%r12, %rdi
	movq	%r13, %rsi
	movq	%rbx, %rdx
	movq	%rbp, %rcx
	addq	$8, %rsp
	popq	%rbx
	popq	%r12
	popq	%r13
	popq	%r14
	popq	%r15
	popq	%rbp
	jmp	"core::slice::sort::merge::merge::<#b4bd7111e818b46c>"
2:
	.size	"core::slice::sort::stable::merge_sort::<#b4bd7111e818b46c>", 2b-"core::slice::sort::stable::merge_sort::<#b4bd7111e818b46c>"

	.text
	.p2align	4
	.type	"core::slice::sort::stable::merge_sort::<#f98e8d76978ecc20>",@function
"core::slice::sort::stable::merge_sort::<#f98e8d76978ecc20>":
	cmpq	$32, %rsi
	ja	1f
	jmp	"core::slice::sort::short::sort::<#f98e8d76978ecc20>"
1:
	pushq	%rbp
	pushq	%r15
	pushq	%r14
	pushq	%r13
	pushq	%r12
	pushq	%rbx
	pushq	%rax
	movq	%rsi, %rbx
	shrq	%rbx
	movq	%rbx, %r14
	shlq	$5, %r14
	addq	%rdi, %r14
	movq	%rsi, %r15
	subq	%rbx, %r15
	movq	%rdi, %r12
	movq	%rsi, %r13
	movq	%rbx, %rsi
	movq	%rdx, %rbp
	callq	"core::slice::sort::stable::merge_sort::<#f98e8d76978ecc20>"
	movq	%r14, %rdi
	movq	%r15, %rsi
	movq	%rbp, %rdx
	callq	"core::slice::sort::stable::merge_sort::<#f98e8d76978ecc20>"
	movq	%r12, %rdi
	movq	%r13, %rsi
	movq	%rbx, %rdx
	movq	%rbp, %rcx
	addq	$8, %rsp
	popq	%rbx
	popq	%r12
	popq	%r13
	popq	%r14
	popq	%r15
	popq	%rbp
	jmp	"core::slice::sort::merge::merge::<#f98e8d76978ecc20>"
2:
	.size	"core::slice::sort::stable::merge_sort::<#f98e8d76978ecc20>", 2b-"core::slice::sort::stable::merge_sort::<#f98e8d76978ecc20>"

	.text
	.p2align	4
	.type	"core::slice::sort::stable::quicksort::<#12eb916b83b0f891>",@function
"core::slice::sort::stable::quicksort::<#12eb916b83b0f891>":
	pushq	%rbp
	pushq	%r15
	pushq	%r14
	pushq	%r13
	pushq	%r12
	pushq	%rbx
	subq	$40, %rsp
	movq	%r8, 8(%rsp)
	movl	%ecx, %r12d
	movq	%rdx, %rbx
	movq	%rsi, %r14
	movq	%rdi, %r15
	cmpq	$33, %rsi
	jae	5f
1:
	movq	%r15, %rdi
	movq	%r14, %rsi
	movq	8(%rsp), %rdx
	addq	$40, %rsp
	popq	%rbx
	popq	%r12
	popq	%r13
	popq	%r14
	popq	%r15
	popq	%rbp
	jmp	"core::slice::sort::short::sort::<#12eb916b83b0f891>"
	.p2align	4
2:
	leaq	(%r15,%rbx,8), %rdi
	movq	%r12, %rsi
	movq	%r9, 24(%rsp)
	callq	memmove@PLT
	movq	24(%rsp), %r9
3:
	movq	8(%rsp), %r8
	movq	%r12, (%r8)
	movq	%r9, 8(%r8)
	movl	20(%rsp), %r12d
	decl	%r12d
	movq	%r15, %rdi
	movq	%rbx, %rsi
	movq	%r14, %rdx
	movl	%r12d, %ecx
	callq	"core::slice::sort::stable::quicksort::<#12eb916b83b0f891>"
	movq	32(%rsp), %rdi
	movq	%r13, %r14
4:
	movq	%r14, %rbx
	movq	%rdi, %r15
	movq	%rbp, %r14
	cmpq	$33, %rbp
	jb	1b
5:
	testl	%r12d, %r12d
	je	31f
	movq	%r14, %r8
	shrq	$3, %r8
	leaq	(,%r8,4), %rdx
	movq	%r14, %rcx
	andq	$-8, %rcx
	subq	%r8, %rcx
	cmpq	$63, %r14
	ja	7f
	imulq	$56, %r8, %rax
	shlq	$5, %r8
	movl	(%r15), %esi
	movl	(%r15,%r8), %edi
	cmpl	%esi, %edi
	setb	%r8b
	movl	(%r15,%rax), %eax
	cmpl	%esi, %eax
	setb	%sil
	xorb	%r8b, %sil
	cmpl	%edi, %eax
	setb	%al
	xorb	%r8b, %al
	cmovneq	%rcx, %rdx
	xorl	%r13d, %r13d
	testb	%sil, %sil
	cmoveq	%rdx, %r13
	movl	%r12d, 20(%rsp)
	cmpq	%r14, %rbx
	jb	8f
6:
	movq	8(%rsp), %rax
	movq	(%rax), %r12
	movq	8(%rax), %r9
	jmp	9f
	.p2align	4
7:
	movq	%r15, %rdi
	xorl	%esi, %esi
	callq	"core::slice::sort::pivot::median_of_medians::<#12eb916b83b0f891>"
	movq	%rax, %r13
	movl	%r12d, 20(%rsp)
	cmpq	%r14, %rbx
	jae	6b
8:
	movl	(%r15,%r13,8), %eax
	movq	8(%rsp), %rcx
	movq	(%rcx), %r12
	movq	8(%rcx), %r9
	cmpl	(%r15,%rbx,8), %eax
	jae	15f
9:
	movq	(%r15,%r13,8), %rax
	xorl	%ecx, %ecx
	testq	%r13, %r13
	je	11f
	xorl	%edx, %edx
	.p2align	4
10:
	leaq	(,%rcx,8), %rsi
	movq	%r12, %rdi
	subq	%rsi, %rdi
	cmpl	(%r15,%rdx,8), %eax
	movq	(%r15,%rdx,8), %rsi
	movq	%rsi, (%r15,%rcx,8)
	movq	%rsi, (%rdi,%rdx,8)
	adcq	$0, %rcx
	incq	%rdx
	cmpq	%rdx, %r13
	jne	10b
11:
	leaq	1(%r13), %rdx
	movq	%rcx, %rbx
	cmpq	%r14, %rdx
	jae	13f
	movq	%rcx, %rbx
	.p2align	4
12:
	leaq	(,%rbx,8), %rsi
	movq	%r12, %rdi
	subq	%rsi, %rdi
	cmpl	(%r15,%rdx,8), %eax
	movq	(%r15,%rdx,8), %rsi
	movq	%rsi, (%r15,%rbx,8)
	movq	%rsi, (%rdi,%rdx,8)
	adcq	$0, %rbx
	incq	%rdx
	cmpq	%rdx, %r14
	jne	12b
13:
	subq	%rcx, %r13
	movq	%rax, (%r12,%r13,8)
	movq	%r14, %rbp
	subq	%rbx, %rbp
	leaq	(%r15,%rbx,8), %rsi
	leaq	(,%rbp,8), %rdx
	movq	%rsi, %rax
	subq	%r12, %rax
	cmpq	%rdx, %rax
	movq	%rsi, 32(%rsp)
	jae	2b
	cmpq	%rbx, %r14
	je	3b
	cmpq	$4, %rbp
	jb	14f
	leaq	(,%rbx,8), %rcx
	leaq	(%rcx,%r15), %rax
	subq	%r12, %rax
	cmpq	$32, %rax
	jae	22f
14:
	xorl	%eax, %eax
	jmp	26f
	.p2align	4
15:
	movq	(%r15,%r13,8), %rax
	xorl	%ecx, %ecx
	testq	%r13, %r13
	je	17f
	xorl	%edx, %edx
	.p2align	4
16:
	leaq	(,%rcx,8), %rsi
	movq	%r12, %rdi
	subq	%rsi, %rdi
	cmpl	%eax, (%r15,%rdx,8)
	movq	(%r15,%rdx,8), %rsi
	movq	%rsi, (%r15,%rcx,8)
	movq	%rsi, (%rdi,%rdx,8)
	sbbq	$-1, %rcx
	incq	%rdx
	cmpq	%rdx, %r13
	jne	16b
17:
	leaq	1(%rcx), %rsi
	incq	%r13
	cmpq	%r14, %r13
	jae	19f
	.p2align	4
18:
	leaq	(,%rsi,8), %rdx
	movq	%r12, %rdi
	subq	%rdx, %rdi
	cmpl	%eax, (%r15,%r13,8)
	movq	(%r15,%r13,8), %rdx
	movq	%rdx, (%r15,%rsi,8)
	movq	%rdx, (%rdi,%r13,8)
	sbbq	$-1, %rsi
	incq	%r13
	cmpq	%r13, %r14
	jne	18b
19:
	movq	%rax, (%r15,%rcx,8)
	movq	%r14, %rbp
	subq	%rsi, %rbp
	leaq	(%r15,%rsi,8), %rdi
	leaq	(,%rbp,8), %rdx
	movq	%rdi, %rax
	subq	%r12, %rax
	cmpq	%rdx, %rax
	jae	21f
	cmpq	%rsi, %r14
	je	30f
	cmpq	$4, %rbp
	jb	20f
	shlq	$3, %rsi
	leaq	(%rsi,%r15), %rax
	subq	%r12, %rax
	cmpq	$32, %rax
	jae	24f
20:
	xorl	%eax, %eax
	jmp	28f
21:
	movq	%rdi, %r15
	movq	%r12, %rsi
	movq	%r9, %rbx
	callq	memmove@PLT
	movq	%r15, %rdi
	movq	%rbx, %r9
	jmp	30f
22:
	movq	%rbp, %rax
	andq	$-4, %rax
	addq	%r15, %rcx
	addq	$16, %rcx
	xorl	%edx, %edx
	.p2align	4
23:
	movups	(%r12,%rdx,8), %xmm0
	movups	16(%r12,%rdx,8), %xmm1
	movups	%xmm0, -16(%rcx,%rdx,8)
	movups	%xmm1, (%rcx,%rdx,8)
	addq	$4, %rdx
	cmpq	%rdx, %rax
	jne	23b
	jmp	27f
24:
	movq	%rbp, %rax
	andq	$-4, %rax
	leaq	(%r15,%rsi), %rcx
	addq	$16, %rcx
	xorl	%edx, %edx
	.p2align	4
25:
	movups	(%r12,%rdx,8), %xmm0
	movups	16(%r12,%rdx,8), %xmm1
	movups	%xmm0, -16(%rcx,%rdx,8)
	movups	%xmm1, (%rcx,%rdx,8)
	addq	$4, %rdx
	cmpq	%rdx, %rax
	jne	25b
	jmp	29f
	.p2align	4
26:
	movq	(%r12,%rax,8), %rcx
	movq	%rcx, (%rsi,%rax,8)
	incq	%rax
27:
	cmpq	%rax, %rbp
	jne	26b
	jmp	3b
	.p2align	4
28:
	movq	(%r12,%rax,8), %rcx
	movq	%rcx, (%rdi,%rax,8)
	incq	%rax
29:
	cmpq	%rax, %rbp
	jne	28b
30:
	movq	8(%rsp), %rax
	movq	%r12, (%rax)
	movq	%r9, 8(%rax)
	movl	20(%rsp), %r12d
	decl	%r12d
	jmp	4b
31:
	movq	%r15, %rdi
	movq	%r14, %rsi
	movq	8(%rsp), %rdx
	addq	$40, %rsp
	popq	%rbx
	popq	%r12
	popq	%r13
	popq	%r14
	popq	%r15
	popq	%rbp
	jmp	"core::slice::sort::stable::merge_sort::<#12eb916b83b0f891>"
32:
	.size	"core::slice::sort::stable::quicksort::<#12eb916b83b0f891>", 32b-"core::slice::sort::stable::quicksort::<#12eb916b83b0f891>"

	.text
	.p2align	4
	.type	"core::slice::sort::stable::quicksort::<#196989f31ad14034>",@function
"core::slice::sort::stable::quicksort::<#196989f31ad14034>":
	pushq	%rbp
	pushq	%r15
	pushq	%r14
	pushq	%r13
	pushq	%r12
	pushq	%rbx
	subq	$40, %rsp
	movq	%r8, 8(%rsp)
	movl	%ecx, %r12d
	movq	%rdx, %rbx
	movq	%rsi, %r14
	movq	%rdi, %r15
	cmpq	$33, %rsi
	jae	5f
1:
	movq	%r15, %rdi
	movq	%r14, %rsi
	movq	8(%rsp), %rdx
	addq	$40, %rsp
	popq	%rbx
	popq	%r12
	popq	%r13
	popq	%r14
	popq	%r15
	popq	%rbp
	jmp	"core::slice::sort::short::sort::<#196989f31ad14034>"
	.p2align	4
2:
	leaq	(%r15,%rbx,8), %rdi
	movq	%r12, %rsi
	movq	%r10, 24(%rsp)
	callq	memmove@PLT
	movq	24(%rsp), %r10
3:
	movq	8(%rsp), %r8
	movq	%r12, (%r8)
	movq	%r10, 8(%r8)
	movl	20(%rsp), %r12d
	decl	%r12d
	movq	%r15, %rdi
	movq	%rbx, %rsi
	movq	%r14, %rdx
	movl	%r12d, %ecx
	callq	"core::slice::sort::stable::quicksort::<#196989f31ad14034>"
	movq	32(%rsp), %rdi
	movq	%r13, %r14
4:
	movq	%r14, %rbx
	movq	%rdi, %r15
	movq	%rbp, %r14
	cmpq	$33, %rbp
	jb	1b
5:
	testl	%r12d, %r12d
	je	31f
	movq	%r14, %r8
	shrq	$3, %r8
	leaq	(,%r8,4), %rdx
	movq	%r14, %rcx
	andq	$-8, %rcx
	subq	%r8, %rcx
	cmpq	$63, %r14
	ja	7f
	imulq	$56, %r8, %rax
	shlq	$5, %r8
	movq	(%r15), %rsi
	movq	(%r15,%r8), %rdi
	movl	56(%rsi), %esi
	movl	56(%rdi), %edi
	cmpl	%esi, %edi
	setb	%r8b
	movq	(%r15,%rax), %rax
	movl	56(%rax), %eax
	cmpl	%esi, %eax
	setb	%sil
	xorb	%r8b, %sil
	cmpl	%edi, %eax
	setb	%al
	xorb	%r8b, %al
	cmovneq	%rcx, %rdx
	xorl	%r13d, %r13d
	testb	%sil, %sil
	cmoveq	%rdx, %r13
	movl	%r12d, 20(%rsp)
	cmpq	%r14, %rbx
	jb	8f
6:
	movq	8(%rsp), %rax
	movq	(%rax), %r12
	movq	8(%rax), %r10
	movq	(%r15,%r13,8), %rax
	jmp	9f
	.p2align	4
7:
	movq	%r15, %rdi
	xorl	%esi, %esi
	callq	"core::slice::sort::pivot::median_of_medians::<#196989f31ad14034>"
	movq	%rax, %r13
	movl	%r12d, 20(%rsp)
	cmpq	%r14, %rbx
	jae	6b
8:
	movq	(%r15,%rbx,8), %rcx
	movq	(%r15,%r13,8), %rax
	movl	56(%rax), %edx
	movq	8(%rsp), %rsi
	movq	(%rsi), %r12
	movq	8(%rsi), %r10
	cmpl	56(%rcx), %edx
	jae	15f
9:
	xorl	%ecx, %ecx
	testq	%r13, %r13
	je	11f
	xorl	%edx, %edx
	.p2align	4
10:
	movq	(%r15,%rdx,8), %rsi
	movl	56(%rax), %edi
	leaq	(,%rcx,8), %r8
	movq	%r12, %r9
	subq	%r8, %r9
	cmpl	56(%rsi), %edi
	movq	%rsi, (%r15,%rcx,8)
	movq	%rsi, (%r9,%rdx,8)
	adcq	$0, %rcx
	incq	%rdx
	cmpq	%rdx, %r13
	jne	10b
11:
	leaq	1(%r13), %rdx
	movq	%rcx, %rbx
	cmpq	%r14, %rdx
	jae	13f
	movq	%rcx, %rbx
	.p2align	4
12:
	movq	(%r15,%rdx,8), %rsi
	movl	56(%rax), %edi
	leaq	(,%rbx,8), %r8
	movq	%r12, %r9
	subq	%r8, %r9
	cmpl	56(%rsi), %edi
	movq	%rsi, (%r15,%rbx,8)
	movq	%rsi, (%r9,%rdx,8)
	adcq	$0, %rbx
	incq	%rdx
	cmpq	%rdx, %r14
	jne	12b
13:
	subq	%rcx, %r13
	movq	%rax, (%r12,%r13,8)
	movq	%r14, %rbp
	subq	%rbx, %rbp
	leaq	(%r15,%rbx,8), %rsi
	leaq	(,%rbp,8), %rdx
	movq	%rsi, %rax
	subq	%r12, %rax
	cmpq	%rdx, %rax
	movq	%rsi, 32(%rsp)
	jae	2b
	cmpq	%rbx, %r14
	je	3b
	cmpq	$4, %rbp
	jb	14f
	leaq	(,%rbx,8), %rcx
	leaq	(%rcx,%r15), %rax
	subq	%r12, %rax
	cmpq	$32, %rax
	jae	22f
14:
	xorl	%eax, %eax
	jmp	26f
	.p2align	4
15:
	xorl	%ecx, %ecx
	testq	%r13, %r13
	je	17f
	xorl	%edx, %edx
	.p2align	4
16:
	movq	(%r15,%rdx,8), %rsi
	movl	56(%rsi), %edi
	leaq	(,%rcx,8), %r8
	movq	%r12, %r9
	subq	%r8, %r9
	cmpl	56(%rax), %edi
	movq	%rsi, (%r15,%rcx,8)
	movq	%rsi, (%r9,%rdx,8)
	sbbq	$-1, %rcx
	incq	%rdx
	cmpq	%rdx, %r13
	jne	16b
17:
	leaq	1(%rcx), %rsi
	incq	%r13
	cmpq	%r14, %r13
	jae	19f
	.p2align	4
18:
	movq	(%r15,%r13,8), %rdx
	movl	56(%rdx), %edi
	leaq	(,%rsi,8), %r8
	movq	%r12, %r9
	subq	%r8, %r9
	cmpl	56(%rax), %edi
	movq	%rdx, (%r15,%rsi,8)
	movq	%rdx, (%r9,%r13,8)
	sbbq	$-1, %rsi
	incq	%r13
	cmpq	%r13, %r14
	jne	18b
19:
	movq	%rax, (%r15,%rcx,8)
	movq	%r14, %rbp
	subq	%rsi, %rbp
	leaq	(%r15,%rsi,8), %rdi
	leaq	(,%rbp,8), %rdx
	movq	%rdi, %rax
	subq	%r12, %rax
	cmpq	%rdx, %rax
	jae	21f
	cmpq	%rsi, %r14
	je	30f
	cmpq	$4, %rbp
	jb	20f
	shlq	$3, %rsi
	leaq	(%rsi,%r15), %rax
	subq	%r12, %rax
	cmpq	$32, %rax
	jae	24f
20:
	xorl	%eax, %eax
	jmp	28f
21:
	movq	%rdi, %r15
	movq	%r12, %rsi
	movq	%r10, %rbx
	callq	memmove@PLT
	movq	%r15, %rdi
	movq	%rbx, %r10
	jmp	30f
22:
	movq	%rbp, %rax
	andq	$-4, %rax
	addq	%r15, %rcx
	addq	$16, %rcx
	xorl	%edx, %edx
	.p2align	4
23:
	movups	(%r12,%rdx,8), %xmm0
	movups	16(%r12,%rdx,8), %xmm1
	movups	%xmm0, -16(%rcx,%rdx,8)
	movups	%xmm1, (%rcx,%rdx,8)
	addq	$4, %rdx
	cmpq	%rdx, %rax
	jne	23b
	jmp	27f
24:
	movq	%rbp, %rax
	andq	$-4, %rax
	leaq	(%r15,%rsi), %rcx
	addq	$16, %rcx
	xorl	%edx, %edx
	.p2align	4
25:
	movups	(%r12,%rdx,8), %xmm0
	movups	16(%r12,%rdx,8), %xmm1
	movups	%xmm0, -16(%rcx,%rdx,8)
	movups	%xmm1, (%rcx,%rdx,8)
	addq	$4, %rdx
	cmpq	%rdx, %rax
	jne	25b
	jmp	29f
	.p2align	4
26:
	movq	(%r12,%rax,8), %rcx
	movq	%rcx, (%rsi,%rax,8)
	incq	%rax
27:
	cmpq	%rax, %rbp
	jne	26b
	jmp	3b
	.p2align	4
28:
	movq	(%r12,%rax,8), %rcx
	movq	%rcx, (%rdi,%rax,8)
	incq	%rax
29:
	cmpq	%rax, %rbp
	jne	28b
30:
	movq	8(%rsp), %rax
	movq	%r12, (%rax)
	movq	%r10, 8(%rax)
	movl	20(%rsp), %r12d
	decl	%r12d
	jmp	4b
31:
	movq	%r15, %rdi
	movq	%r14, %rsi
	movq	8(%rsp), %rdx
	addq	$40, %rsp
	popq	%rbx
	popq	%r12
	popq	%r13
	popq	%r14
	popq	%r15
	popq	%rbp
	jmp	"core::slice::sort::stable::merge_sort::<#196989f31ad14034>"
32:
	.size	"core::slice::sort::stable::quicksort::<#196989f31ad14034>", 32b-"core::slice::sort::stable::quicksort::<#196989f31ad14034>"

	.text
	.p2align	4
	.type	"core::slice::sort::stable::quicksort::<#32fabb223415b920>",@function
"core::slice::sort::stable::quicksort::<#32fabb223415b920>":
	pushq	%rbp
	pushq	%r15
	pushq	%r14
	pushq	%r13
	pushq	%r12
	pushq	%rbx
	subq	$104, %rsp
	movq	%r8, %rbp
	movl	%ecx, %r13d
	movq	%rdx, %rbx
	movq	%rsi, %r14
	cmpq	$33, %rsi
	movq	%r8, 64(%rsp)
	jae	4f
1:
	movq	%r14, %rsi
	movq	%rbp, %rdx
	addq	$104, %rsp
	popq	%rbx
	popq	%r12
	popq	%r13
	popq	%r14
	popq	%r15
	popq	%rbp
	jmp	"core::slice::sort::short::sort::<#32fabb223415b920>"
	.p2align	4
2:
	movq	%r15, %rdi
	movq	%r13, %rsi
	callq	memmove@PLT
	movq	40(%rsp), %r9
	movq	64(%rsp), %rbp
3:
	movq	%r13, (%rbp)
	movq	72(%rsp), %rax
	movq	%rax, 8(%rbp)
	movl	52(%rsp), %r13d
	decl	%r13d
	movq	%r9, %rdi
	movq	%r14, %rsi
	movq	32(%rsp), %rdx
	movl	%r13d, %ecx
	movq	%rbp, %r8
	callq	"core::slice::sort::stable::quicksort::<#32fabb223415b920>"
	movq	%r15, %rdi
	movq	%r12, %r14
	cmpq	$33, %r12
	jb	1b
4:
	testl	%r13d, %r13d
	je	38f
	movq	%r14, %r8
	shrq	$3, %r8
	leaq	(,%r8,4), %rdx
	movq	%r14, %rcx
	andq	$-8, %rcx
	subq	%r8, %rcx
	cmpq	$63, %r14
	movq	%rdi, 40(%rsp)
	ja	5f
	xorl	%esi, %esi
	callq	"core::slice::sort::pivot::median_of_three::<#32fabb223415b920>"
	jmp	6f
	.p2align	4
5:
	xorl	%esi, %esi
	callq	"core::slice::sort::pivot::median_of_medians::<#32fabb223415b920>"
6:
	movq	%rax, 8(%rsp)
	movq	%r14, 32(%rsp)
	cmpq	%r14, %rbx
	movl	%r13d, 52(%rsp)
	jae	7f
	shlq	$3, %rbx
	leaq	(%rbx,%rbx,4), %rax
	movq	8(%rsp), %rcx
	leaq	(,%rcx,8), %rcx
	leaq	(%rcx,%rcx,4), %r15
	movq	40(%rsp), %r9
	leaq	(%r9,%r15), %rbx
	movq	(%r9,%rax), %rcx
	movq	(%r9,%r15), %r14
	cmpq	%r14, %rcx
	jne	17f
	movq	8(%r9,%rax), %rdi
	movq	16(%r9,%rax), %rsi
	movq	8(%rbx), %rdx
	movq	16(%rbx), %rcx
	movq	%rdx, 24(%rsp)
	movq	%rcx, 16(%rsp)
	callq	"core::cmp::slices::RefSliceOrd::cmp::<#914af4d8504a0b72>"
	movq	40(%rsp), %r9
	testb	%al, %al
	jne	18f
	jmp	8f
	.p2align	4
7:
	movq	8(%rsp), %rax
	leaq	(,%rax,8), %rax
	leaq	(%rax,%rax,4), %r15
	movq	40(%rsp), %r9
8:
	movq	(%rbp), %r13
	movq	8(%rbp), %rax
	movq	%rax, 72(%rsp)
	movq	(%r9,%r15), %r12
	movq	8(%r9,%r15), %rax
	movq	%rax, 24(%rsp)
	movq	16(%r9,%r15), %rax
	movq	%rax, 16(%rsp)
	movups	24(%r9,%r15), %xmm0
	movaps	%xmm0, 80(%rsp)
	movq	%r12, %rax
	bswapq	%rax
	movq	%rax, 56(%rsp)
	movq	8(%rsp), %rbp
	xorl	%ebx, %ebx
	testq	%rbp, %rbp
	je	12f
	movq	%r9, %r14
	xorl	%r15d, %r15d
	jmp	11f
	.p2align	4
9:
	movq	8(%r14), %rdi
	movq	16(%r14), %rsi
	movq	24(%rsp), %rdx
	movq	16(%rsp), %rcx
	callq	"core::cmp::slices::RefSliceOrd::cmp::<#914af4d8504a0b72>"
	movq	40(%rsp), %r9
	testb	%al, %al
	sete	%al
10:
	movq	%r15, %rcx
	subq	%rbx, %rcx
	testb	%al, %al
	movq	%r13, %rdx
	cmovneq	%r9, %rdx
	cmovneq	%rbx, %rcx
	leaq	(%rcx,%rcx,4), %rcx
	movups	(%r14), %xmm0
	movups	16(%r14), %xmm1
	movq	32(%r14), %rsi
	movq	%rsi, 32(%rdx,%rcx,8)
	movups	%xmm1, 16(%rdx,%rcx,8)
	movups	%xmm0, (%rdx,%rcx,8)
	movzbl	%al, %eax
	addq	%rax, %rbx
	incq	%r15
	addq	$40, %r14
	cmpq	%r15, %rbp
	je	12f
11:
	movq	(%r14), %rax
	cmpq	%r12, %rax
	je	9b
	bswapq	%rax
	cmpq	56(%rsp), %rax
	setb	%al
	jmp	10b
	.p2align	4
12:
	leaq	1(%rbp), %r15
	movq	%rbx, %r14
	cmpq	32(%rsp), %r15
	jae	16f
	movq	8(%rsp), %rax
	leaq	(%rax,%rax,4), %rax
	leaq	(%r9,%rax,8), %rbp
	addq	$40, %rbp
	movq	%rbx, %r14
	jmp	15f
	.p2align	4
13:
	movq	8(%rbp), %rdi
	movq	16(%rbp), %rsi
	movq	24(%rsp), %rdx
	movq	16(%rsp), %rcx
	callq	"core::cmp::slices::RefSliceOrd::cmp::<#914af4d8504a0b72>"
	movq	40(%rsp), %r9
	testb	%al, %al
	sete	%al
14:
	movq	%r15, %rcx
	subq	%r14, %rcx
	testb	%al, %al
	movq	%r13, %rdx
	cmovneq	%r9, %rdx
	cmovneq	%r14, %rcx
	leaq	(%rcx,%rcx,4), %rcx
	movups	(%rbp), %xmm0
	movups	16(%rbp), %xmm1
	movq	32(%rbp), %rsi
	movq	%rsi, 32(%rdx,%rcx,8)
	movups	%xmm1, 16(%rdx,%rcx,8)
	movups	%xmm0, (%rdx,%rcx,8)
	movzbl	%al, %eax
	addq	%rax, %r14
	incq	%r15
	addq	$40, %rbp
	cmpq	%r15, 32(%rsp)
	je	16f
15:
	movq	(%rbp), %rax
	cmpq	%r12, %rax
	je	13b
	bswapq	%rax
	cmpq	56(%rsp), %rax
	setb	%al
	jmp	14b
	.p2align	4
16:
	movq	8(%rsp), %rax
	subq	%rbx, %rax
	movq	%rax, %rbx
	leaq	(%rax,%rax,4), %rax
	movq	%r12, (%r13,%rax,8)
	movq	24(%rsp), %rcx
	movq	%rcx, 8(%r13,%rax,8)
	movq	16(%rsp), %rcx
	movq	%rcx, 16(%r13,%rax,8)
	movaps	80(%rsp), %xmm0
	movups	%xmm0, 24(%r13,%rax,8)
	movq	32(%rsp), %rsi
	movq	%rsi, %r12
	subq	%r14, %r12
	leaq	(,%r14,8), %rax
	leaq	(%rax,%rax,4), %rax
	leaq	(%r9,%rax), %r15
	leaq	(,%r12,8), %rcx
	leaq	(%rcx,%rcx,4), %rdx
	movq	%r15, %rcx
	subq	%r13, %rcx
	cmpq	%rdx, %rcx
	jae	2b
	cmpq	%r14, %rsi
	movq	64(%rsp), %rbp
	je	3b
	movl	%r12d, %ecx
	andl	$7, %ecx
	movq	%r14, %rdx
	subq	32(%rsp), %rdx
	cmpq	$-8, %rdx
	jbe	29f
	xorl	%edx, %edx
	jmp	31f
	.p2align	4
17:
	movq	%r14, %rax
	bswapq	%rax
	bswapq	%rcx
	cmpq	%rax, %rcx
	jb	8b
	movq	8(%rbx), %rax
	movq	%rax, 24(%rsp)
	movq	16(%rbx), %rax
	movq	%rax, 16(%rsp)
18:
	movq	(%rbp), %r13
	movq	8(%rbp), %rax
	movq	%rax, 72(%rsp)
	movups	24(%rbx), %xmm0
	movaps	%xmm0, 80(%rsp)
	cmpq	$0, 8(%rsp)
	je	22f
	movq	%r14, %rbx
	bswapq	%rbx
	xorl	%r12d, %r12d
	movq	%r9, %r15
	xorl	%ebp, %ebp
	jmp	21f
	.p2align	4
19:
	movq	8(%r15), %rdx
	movq	16(%r15), %rcx
	movq	24(%rsp), %rdi
	movq	16(%rsp), %rsi
	callq	"core::cmp::slices::RefSliceOrd::cmp::<#914af4d8504a0b72>"
	movq	40(%rsp), %r9
	testb	%al, %al
	sete	%al
20:
	movl	%eax, %ecx
	xorb	$1, %cl
	movq	%rbp, %rdx
	subq	%r12, %rdx
	testb	%al, %al
	movq	%r9, %rax
	cmovneq	%r13, %rax
	cmoveq	%r12, %rdx
	leaq	(%rdx,%rdx,4), %rdx
	movups	(%r15), %xmm0
	movups	16(%r15), %xmm1
	movq	32(%r15), %rsi
	movq	%rsi, 32(%rax,%rdx,8)
	movups	%xmm1, 16(%rax,%rdx,8)
	movups	%xmm0, (%rax,%rdx,8)
	movzbl	%cl, %eax
	addq	%rax, %r12
	incq	%rbp
	addq	$40, %r15
	cmpq	%rbp, 8(%rsp)
	je	23f
21:
	movq	(%r15), %rax
	cmpq	%rax, %r14
	je	19b
	bswapq	%rax
	cmpq	%rax, %rbx
	setb	%al
	jmp	20b
22:
	xorl	%r12d, %r12d
23:
	leaq	1(%r12), %rbp
	movq	8(%rsp), %rax
	leaq	1(%rax), %rbx
	cmpq	32(%rsp), %rbx
	jae	27f
	movq	%r14, %rcx
	bswapq	%rcx
	movq	%rcx, 56(%rsp)
	leaq	(%rax,%rax,4), %rax
	leaq	(%r9,%rax,8), %r15
	addq	$40, %r15
	jmp	26f
	.p2align	4
24:
	movq	8(%r15), %rdx
	movq	16(%r15), %rcx
	movq	24(%rsp), %rdi
	movq	16(%rsp), %rsi
	callq	"core::cmp::slices::RefSliceOrd::cmp::<#914af4d8504a0b72>"
	movq	40(%rsp), %r9
	testb	%al, %al
	sete	%al
25:
	movl	%eax, %ecx
	xorb	$1, %cl
	movq	%rbx, %rdx
	subq	%rbp, %rdx
	testb	%al, %al
	movq	%r9, %rax
	cmovneq	%r13, %rax
	cmoveq	%rbp, %rdx
	leaq	(%rdx,%rdx,4), %rdx
	movups	(%r15), %xmm0
	movups	16(%r15), %xmm1
	movq	32(%r15), %rsi
	movq	%rsi, 32(%rax,%rdx,8)
	movups	%xmm1, 16(%rax,%rdx,8)
	movups	%xmm0, (%rax,%rdx,8)
	movzbl	%cl, %eax
	addq	%rax, %rbp
	incq	%rbx
	addq	$40, %r15
	cmpq	%rbx, 32(%rsp)
	je	27f
26:
	movq	(%r15), %rax
	cmpq	%rax, %r14
	je	24b
	bswapq	%rax
	cmpq	%rax, 56(%rsp)
	setb	%al
	jmp	25b
	.p2align	4
27:
	leaq	(%r12,%r12,4), %rax
	movq	%r14, (%r9,%rax,8)
	movq	24(%rsp), %rcx
	movq	%rcx, 8(%r9,%rax,8)
	movq	16(%rsp), %rcx
	movq	%rcx, 16(%r9,%rax,8)
	movaps	80(%rsp), %xmm0
	movups	%xmm0, 24(%r9,%rax,8)
	movq	32(%rsp), %rbx
	movq	%rbx, %r12
	subq	%rbp, %r12
	leaq	(,%rbp,8), %rax
	leaq	(%rax,%rax,4), %rax
	leaq	(%r9,%rax), %r15
	leaq	(,%r12,8), %rcx
	leaq	(%rcx,%rcx,4), %rdx
	movq	%r15, %rcx
	subq	%r13, %rcx
	cmpq	%rdx, %rcx
	jae	28f
	cmpq	%rbp, %rbx
	je	37f
	movl	%r12d, %ecx
	andl	$7, %ecx
	subq	%rbx, %rbp
	cmpq	$-8, %rbp
	jbe	33f
	xorl	%edx, %edx
	jmp	35f
28:
	movq	%r15, %rdi
	movq	%r13, %rsi
	callq	memmove@PLT
	jmp	37f
29:
	movq	%r12, %rsi
	andq	$-8, %rsi
	movl	$280, %edi
	xorl	%edx, %edx
	.p2align	4
30:
	movups	-280(%r13,%rdi), %xmm0
	movups	-264(%r13,%rdi), %xmm1
	movq	-248(%r13,%rdi), %r8
	movq	%r8, -248(%r15,%rdi)
	movups	%xmm1, -264(%r15,%rdi)
	movups	%xmm0, -280(%r15,%rdi)
	movups	-240(%r13,%rdi), %xmm0
	movups	-224(%r13,%rdi), %xmm1
	movq	-208(%r13,%rdi), %r8
	movq	%r8, -208(%r15,%rdi)
	movups	%xmm1, -224(%r15,%rdi)
	movups	%xmm0, -240(%r15,%rdi)
	movups	-200(%r13,%rdi), %xmm0
	movups	-184(%r13,%rdi), %xmm1
	movq	-168(%r13,%rdi), %r8
	movq	%r8, -168(%r15,%rdi)
	movups	%xmm1, -184(%r15,%rdi)
	movups	%xmm0, -200(%r15,%rdi)
	movups	-160(%r13,%rdi), %xmm0
	movups	-144(%r13,%rdi), %xmm1
	movq	-128(%r13,%rdi), %r8
	movq	%r8, -128(%r15,%rdi)
	movups	%xmm1, -144(%r15,%rdi)
	movups	%xmm0, -160(%r15,%rdi)
	movups	-120(%r13,%rdi), %xmm0
	movups	-104(%r13,%rdi), %xmm1
	movq	-88(%r13,%rdi), %r8
	movq	%r8, -88(%r15,%rdi)
	movups	%xmm1, -104(%r15,%rdi)
	movups	%xmm0, -120(%r15,%rdi)
	movups	-80(%r13,%rdi), %xmm0
	movups	-64(%r13,%rdi), %xmm1
	movq	-48(%r13,%rdi), %r8
	movq	%r8, -48(%r15,%rdi)
	movups	%xmm1, -64(%r15,%rdi)
	movups	%xmm0, -80(%r15,%rdi)
	movups	-40(%r13,%rdi), %xmm0
	movups	-24(%r13,%rdi), %xmm1
	movq	-8(%r13,%rdi), %r8
	movq	%r8, -8(%r15,%rdi)
	movups	%xmm1, -24(%r15,%rdi)
	movups	%xmm0, -40(%r15,%rdi)
	movups	(%r13,%rdi), %xmm0
	movups	16(%r13,%rdi), %xmm1
	movq	32(%r13,%rdi), %r8
	movq	%r8, 32(%r15,%rdi)
	movups	%xmm1, 16(%r15,%rdi)
	movups	%xmm0, (%r15,%rdi)
	addq	$8, %rdx
	addq	$320, %rdi
	cmpq	%rdx, %rsi
	jne	30b
	testq	%rcx, %rcx
	je	3b
31:
	shlq	$3, %rdx
	leaq	(%rdx,%rdx,4), %rdx
	leaq	(%rdx,%r13), %rsi
	addq	%r9, %rdx
	addq	%rax, %rdx
	shll	$3, %ecx
	leaq	(%rcx,%rcx,4), %rax
	xorl	%ecx, %ecx
	.p2align	4
32:
	movups	(%rsi,%rcx), %xmm0
	movups	16(%rsi,%rcx), %xmm1
	movq	32(%rsi,%rcx), %rdi
	movq	%rdi, 32(%rdx,%rcx)
	movups	%xmm1, 16(%rdx,%rcx)
	movups	%xmm0, (%rdx,%rcx)
	addq	$40, %rcx
	cmpq	%rcx, %rax
	jne	32b
	jmp	3b
33:
	movq	%r12, %rsi
	andq	$-8, %rsi
	movl	$280, %edi
	xorl	%edx, %edx
	.p2align	4
34:
	movups	-280(%r13,%rdi), %xmm0
	movups	-264(%r13,%rdi), %xmm1
	movq	-248(%r13,%rdi), %r8
	movq	%r8, -248(%r15,%rdi)
	movups	%xmm1, -264(%r15,%rdi)
	movups	%xmm0, -280(%r15,%rdi)
	movups	-240(%r13,%rdi), %xmm0
	movups	-224(%r13,%rdi), %xmm1
	movq	-208(%r13,%rdi), %r8
	movq	%r8, -208(%r15,%rdi)
	movups	%xmm1, -224(%r15,%rdi)
	movups	%xmm0, -240(%r15,%rdi)
	movups	-200(%r13,%rdi), %xmm0
	movups	-184(%r13,%rdi), %xmm1
	movq	-168(%r13,%rdi), %r8
	movq	%r8, -168(%r15,%rdi)
	movups	%xmm1, -184(%r15,%rdi)
	movups	%xmm0, -200(%r15,%rdi)
	movups	-160(%r13,%rdi), %xmm0
	movups	-144(%r13,%rdi), %xmm1
	movq	-128(%r13,%rdi), %r8
	movq	%r8, -128(%r15,%rdi)
	movups	%xmm1, -144(%r15,%rdi)
	movups	%xmm0, -160(%r15,%rdi)
	movups	-120(%r13,%rdi), %xmm0
	movups	-104(%r13,%rdi), %xmm1
	movq	-88(%r13,%rdi), %r8
	movq	%r8, -88(%r15,%rdi)
	movups	%xmm1, -104(%r15,%rdi)
	movups	%xmm0, -120(%r15,%rdi)
	movups	-80(%r13,%rdi), %xmm0
	movups	-64(%r13,%rdi), %xmm1
	movq	-48(%r13,%rdi), %r8
	movq	%r8, -48(%r15,%rdi)
	movups	%xmm1, -64(%r15,%rdi)
	movups	%xmm0, -80(%r15,%rdi)
	movups	-40(%r13,%rdi), %xmm0
	movups	-24(%r13,%rdi), %xmm1
	movq	-8(%r13,%rdi), %r8
	movq	%r8, -8(%r15,%rdi)
	movups	%xmm1, -24(%r15,%rdi)
	movups	%xmm0, -40(%r15,%rdi)
	movups	(%r13,%rdi), %xmm0
	movups	16(%r13,%rdi), %xmm1
	movq	32(%r13,%rdi), %r8
	movq	%r8, 32(%r15,%rdi)
	movups	%xmm1, 16(%r15,%rdi)
	movups	%xmm0, (%r15,%rdi)
	addq	$8, %rdx
	addq	$320, %rdi
	cmpq	%rdx, %rsi
	jne	34b
	testq	%rcx, %rcx
	je	37f
35:
	shlq	$3, %rdx
	leaq	(%rdx,%rdx,4), %rsi
	leaq	(%rsi,%r13), %rdx
	addq	%rsi, %r9
	addq	%rax, %r9
	shll	$3, %ecx
	leaq	(%rcx,%rcx,4), %rax
	xorl	%ecx, %ecx
	.p2align	4
36:
	movups	(%rdx,%rcx), %xmm0
	movups	16(%rdx,%rcx), %xmm1
	movq	32(%rdx,%rcx), %rsi
	movq	%rsi, 32(%r9,%rcx)
	movups	%xmm1, 16(%r9,%rcx)
	movups	%xmm0, (%r9,%rcx)
	addq	$40, %rcx
	cmpq	%rcx, %rax
	jne	36b
37:
	movq	64(%rsp), %rbp
	movq	%r13, (%rbp)
	movq	72(%rsp), %rax
	movq	%rax, 8(%rbp)
	movl	52(%rsp), %r13d
	decl	%r13d
	movq	%r15, %rdi
	movq	%r12, %r14
	cmpq	$33, %r12
	jae	4b
	jmp	1b
38:
	movq	%r14, %rsi
	movq	%rbp, %rdx
	addq	$104, %rsp
	popq	%rbx
	popq	%r12
	popq	%r13
	popq	%r14
	popq	%r15
	popq	%rbp
	jmp	"core::slice::sort::stable::merge_sort::<#32fabb223415b920>"
39:
	.size	"core::slice::sort::stable::quicksort::<#32fabb223415b920>", 39b-"core::slice::sort::stable::quicksort::<#32fabb223415b920>"

	.text
	.p2align	4
	.type	"core::slice::sort::stable::quicksort::<#54047240e3f04dbb>",@function
"core::slice::sort::stable::quicksort::<#54047240e3f04dbb>":
	pushq	%rbp
	pushq	%r15
	pushq	%r14
	pushq	%r13
	pushq	%r12
	pushq	%rbx
	subq	$184, %rsp
	movq	%r8, 80(%rsp)
	movl	%ecx, %r12d
	movq	%rdx, %rbx
	movq	%rsi, %r14
	movq	%rdi, %rbp
	cmpq	$33, %rsi
	jae	5f
1:
	movq	%rbp, %rdi
	movq	%r14, %rsi
	movq	80(%rsp), %rdx
	addq	$184, %rsp
	popq	%rbx
	popq	%r12
	popq	%r13
	popq	%r14
	popq	%r15
	popq	%rbp
	jmp	"core::slice::sort::short::sort::<#54047240e3f04dbb>"
	.p2align	4
2:
	movq	%r15, %rdi
	movq	%r12, %rsi
	callq	memmove@PLT
	movq	88(%rsp), %r9
3:
	movq	80(%rsp), %r8
	movq	%r12, (%r8)
	movq	%r9, 8(%r8)
	movl	100(%rsp), %r12d
	decl	%r12d
	movq	%rbp, %rdi
	movq	%rbx, %rsi
	movq	%r14, %rdx
	movl	%r12d, %ecx
	callq	"core::slice::sort::stable::quicksort::<#54047240e3f04dbb>"
	movq	%r13, %r14
	movq	104(%rsp), %r13
4:
	movq	%r14, %rbx
	movq	%r15, %rbp
	movq	%r13, %r14
	cmpq	$33, %r13
	jb	1b
5:
	testl	%r12d, %r12d
	je	22f
	movq	%r14, %r8
	shrq	$3, %r8
	leaq	(,%r8,4), %rdx
	movq	%r14, %rcx
	andq	$-8, %rcx
	subq	%r8, %rcx
	cmpq	$63, %r14
	ja	6f
	leaq	(%r8,%r8,4), %rax
	shlq	$6, %rax
	movl	(%rbp), %esi
	movl	(%rbp,%rax), %eax
	cmpl	%esi, %eax
	setb	%dil
	imulq	$560, %r8, %r8
	movl	(%rbp,%r8), %r8d
	cmpl	%esi, %r8d
	setb	%sil
	xorb	%dil, %sil
	cmpl	%eax, %r8d
	setb	%al
	xorb	%dil, %al
	cmovneq	%rcx, %rdx
	xorl	%r13d, %r13d
	testb	%sil, %sil
	cmoveq	%rdx, %r13
	jmp	7f
	.p2align	4
6:
	movq	%rbp, %rdi
	xorl	%esi, %esi
	callq	"core::slice::sort::pivot::median_of_medians::<#54047240e3f04dbb>"
	movq	%rax, %r13
7:
	movl	%r12d, 100(%rsp)
	movq	%r13, %rax
	shlq	$4, %rax
	leaq	(%rax,%rax,4), %rdx
	leaq	(%rdx,%rbp), %rsi
	cmpq	%r14, %rbx
	jae	13f
	leaq	(%rbx,%rbx,4), %rcx
	shlq	$4, %rcx
	movl	(%rsi), %eax
	movq	80(%rsp), %rdi
	movq	(%rdi), %r12
	movq	8(%rdi), %rdi
	cmpl	(%rbp,%rcx), %eax
	jb	14f
	movq	%rdi, 88(%rsp)
	movzbl	8(%rsi), %ecx
	movq	48(%rsi), %rdx
	movq	%rdx, 176(%rsp)
	movups	16(%rsi), %xmm0
	movups	32(%rsi), %xmm1
	movaps	%xmm1, 160(%rsp)
	movaps	%xmm0, 144(%rsp)
	movups	56(%rsi), %xmm0
	movaps	%xmm0, 112(%rsp)
	movq	72(%rsi), %rdx
	movq	%rdx, 128(%rsp)
	xorl	%edx, %edx
	testq	%r13, %r13
	je	9f
	movq	%rbp, %rsi
	xorl	%edi, %edi
	.p2align	4
8:
	movl	(%rsi), %r8d
	movq	%rdi, %r9
	subq	%rdx, %r9
	cmpl	%eax, %r8d
	movzbl	8(%rsi), %r10d
	movq	48(%rsi), %r11
	movq	%r11, 64(%rsp)
	movups	16(%rsi), %xmm0
	movups	32(%rsi), %xmm1
	movaps	%xmm1, 48(%rsp)
	movaps	%xmm0, 32(%rsp)
	movq	72(%rsi), %r11
	movq	%r11, 16(%rsp)
	movups	56(%rsi), %xmm0
	movq	%r12, %r11
	cmovaeq	%rbp, %r11
	cmovaeq	%rdx, %r9
	movaps	%xmm0, (%rsp)
	leaq	(%r9,%r9,4), %r9
	sbbq	$-1, %rdx
	shlq	$4, %r9
	movl	%r8d, (%r11,%r9)
	movq	%r10, 8(%r11,%r9)
	movaps	32(%rsp), %xmm0
	movaps	48(%rsp), %xmm1
	movups	%xmm0, 16(%r11,%r9)
	movups	%xmm1, 32(%r11,%r9)
	movq	64(%rsp), %r8
	movq	%r8, 48(%r11,%r9)
	movaps	(%rsp), %xmm0
	movups	%xmm0, 56(%r11,%r9)
	movq	16(%rsp), %r8
	movq	%r8, 72(%r11,%r9)
	incq	%rdi
	addq	$80, %rsi
	cmpq	%rdi, %r13
	jne	8b
9:
	leaq	1(%rdx), %rsi
	leaq	1(%r13), %rdi
	cmpq	%r14, %rdi
	jae	11f
	leaq	(,%r13,4), %r8
	addq	%r13, %r8
	shlq	$4, %r8
	addq	%rbp, %r8
	addq	$80, %r8
	.p2align	4
10:
	movl	(%r8), %r9d
	movq	%rdi, %r10
	subq	%rsi, %r10
	cmpl	%eax, %r9d
	movzbl	8(%r8), %r11d
	movq	48(%r8), %rbx
	movq	%rbx, 64(%rsp)
	movups	16(%r8), %xmm0
	movups	32(%r8), %xmm1
	movaps	%xmm1, 48(%rsp)
	movaps	%xmm0, 32(%rsp)
	movq	72(%r8), %rbx
	movq	%rbx, 16(%rsp)
	movups	56(%r8), %xmm0
	movq	%r12, %rbx
	cmovaeq	%rbp, %rbx
	cmovaeq	%rsi, %r10
	movaps	%xmm0, (%rsp)
	leaq	(%r10,%r10,4), %r10
	sbbq	$-1, %rsi
	shlq	$4, %r10
	movl	%r9d, (%rbx,%r10)
	movq	%r11, 8(%rbx,%r10)
	movaps	32(%rsp), %xmm0
	movaps	48(%rsp), %xmm1
	movups	%xmm0, 16(%rbx,%r10)
	movups	%xmm1, 32(%rbx,%r10)
	movq	64(%rsp), %r9
	movq	%r9, 48(%rbx,%r10)
	movaps	(%rsp), %xmm0
	movups	%xmm0, 56(%rbx,%r10)
	movq	16(%rsp), %r9
	movq	%r9, 72(%rbx,%r10)
	incq	%rdi
	addq	$80, %r8
	cmpq	%rdi, %r14
	jne	10b
11:
	leaq	(%rdx,%rdx,4), %rdx
	shlq	$4, %rdx
	movl	%eax, (%rbp,%rdx)
	movq	%rcx, 8(%rbp,%rdx)
	movaps	144(%rsp), %xmm0
	movaps	160(%rsp), %xmm1
	movups	%xmm0, 16(%rbp,%rdx)
	movups	%xmm1, 32(%rbp,%rdx)
	movq	176(%rsp), %rax
	movq	%rax, 48(%rbp,%rdx)
	movaps	112(%rsp), %xmm0
	movups	%xmm0, 56(%rbp,%rdx)
	movq	128(%rsp), %rax
	movq	%rax, 72(%rbp,%rdx)
	movq	%r14, %r13
	subq	%rsi, %r13
	leaq	(%rsi,%rsi,4), %r15
	shlq	$4, %r15
	addq	%rbp, %r15
	movq	%r13, %rax
	shlq	$4, %rax
	leaq	(%rax,%rax,4), %rdx
	movq	%r15, %rax
	subq	%r12, %rax
	cmpq	%rdx, %rax
	jae	20f
	cmpq	%rsi, %r14
	movq	88(%rsp), %r8
	je	21f
	xorl	%eax, %eax
	movq	%r13, %rcx
	.p2align	4
12:
	movl	(%r12,%rax), %edx
	movzbl	8(%r12,%rax), %esi
	movq	48(%r12,%rax), %rdi
	movq	%rdi, 64(%rsp)
	movups	32(%r12,%rax), %xmm0
	movaps	%xmm0, 48(%rsp)
	movups	16(%r12,%rax), %xmm0
	movaps	%xmm0, 32(%rsp)
	movq	72(%r12,%rax), %rdi
	movq	%rdi, 16(%rsp)
	movups	56(%r12,%rax), %xmm0
	movaps	%xmm0, (%rsp)
	movl	%edx, (%r15,%rax)
	movq	%rsi, 8(%r15,%rax)
	movaps	32(%rsp), %xmm0
	movaps	48(%rsp), %xmm1
	movups	%xmm0, 16(%r15,%rax)
	movups	%xmm1, 32(%r15,%rax)
	movq	64(%rsp), %rdx
	movq	%rdx, 48(%r15,%rax)
	movaps	(%rsp), %xmm0
	movups	%xmm0, 56(%r15,%rax)
	movq	16(%rsp), %rdx
	movq	%rdx, 72(%r15,%rax)
	addq	$80, %rax
	decq	%rcx
	jne	12b
	jmp	21f
	.p2align	4
13:
	movq	80(%rsp), %rax
	movq	(%rax), %r12
	movq	8(%rax), %rdi
	movl	(%rsi), %eax
14:
	movq	%rdi, 88(%rsp)
	movzbl	8(%rbp,%rdx), %ecx
	movq	48(%rbp,%rdx), %rsi
	movq	%rsi, 176(%rsp)
	movups	16(%rbp,%rdx), %xmm0
	movups	32(%rbp,%rdx), %xmm1
	movaps	%xmm1, 160(%rsp)
	movaps	%xmm0, 144(%rsp)
	movups	56(%rbp,%rdx), %xmm0
	movaps	%xmm0, 112(%rsp)
	movq	72(%rbp,%rdx), %rdx
	movq	%rdx, 128(%rsp)
	xorl	%edx, %edx
	testq	%r13, %r13
	je	16f
	movq	%rbp, %rsi
	xorl	%edi, %edi
	.p2align	4
15:
	movl	(%rsi), %r8d
	movq	%rdi, %r9
	subq	%rdx, %r9
	cmpl	%r8d, %eax
	movzbl	8(%rsi), %r10d
	movq	48(%rsi), %r11
	movq	%r11, 64(%rsp)
	movups	16(%rsi), %xmm0
	movups	32(%rsi), %xmm1
	movaps	%xmm1, 48(%rsp)
	movaps	%xmm0, 32(%rsp)
	movq	72(%rsi), %r11
	movq	%r11, 16(%rsp)
	movups	56(%rsi), %xmm0
	movq	%r12, %r11
	cmovbq	%rbp, %r11
	cmovbq	%rdx, %r9
	movaps	%xmm0, (%rsp)
	leaq	(%r9,%r9,4), %r9
	adcq	$0, %rdx
	shlq	$4, %r9
	movl	%r8d, (%r11,%r9)
	movq	%r10, 8(%r11,%r9)
	movaps	32(%rsp), %xmm0
	movaps	48(%rsp), %xmm1
	movups	%xmm0, 16(%r11,%r9)
	movups	%xmm1, 32(%r11,%r9)
	movq	64(%rsp), %r8
	movq	%r8, 48(%r11,%r9)
	movaps	(%rsp), %xmm0
	movups	%xmm0, 56(%r11,%r9)
	movq	16(%rsp), %r8
	movq	%r8, 72(%r11,%r9)
	incq	%rdi
	addq	$80, %rsi
	cmpq	%rdi, %r13
	jne	15b
16:
	leaq	1(%r13), %rsi
	movq	%rdx, %rbx
	cmpq	%r14, %rsi
	jae	18f
	leaq	(,%r13,4), %rdi
	addq	%r13, %rdi
	shlq	$4, %rdi
	addq	%rbp, %rdi
	addq	$80, %rdi
	movq	%rdx, %rbx
	.p2align	4
17:
	movl	(%rdi), %r8d
	movq	%rsi, %r9
	subq	%rbx, %r9
	cmpl	%r8d, %eax
	movzbl	8(%rdi), %r10d
	movq	48(%rdi), %r11
	movq	%r11, 64(%rsp)
	movups	16(%rdi), %xmm0
	movups	32(%rdi), %xmm1
	movaps	%xmm1, 48(%rsp)
	movaps	%xmm0, 32(%rsp)
	movq	72(%rdi), %r11
	movq	%r11, 16(%rsp)
	movups	56(%rdi), %xmm0
	movq	%r12, %r11
	cmovbq	%rbp, %r11
	cmovbq	%rbx, %r9
	movaps	%xmm0, (%rsp)
	leaq	(%r9,%r9,4), %r9
	adcq	$0, %rbx
	shlq	$4, %r9
	movl	%r8d, (%r11,%r9)
	movq	%r10, 8(%r11,%r9)
	movaps	32(%rsp), %xmm0
	movaps	48(%rsp), %xmm1
	movups	%xmm0, 16(%r11,%r9)
	movups	%xmm1, 32(%r11,%r9)
	movq	64(%rsp), %r8
	movq	%r8, 48(%r11,%r9)
	movaps	(%rsp), %xmm0
	movups	%xmm0, 56(%r11,%r9)
	movq	16(%rsp), %r8
	movq	%r8, 72(%r11,%r9)
	incq	%rsi
	addq	$80, %rdi
	cmpq	%rsi, %r14
	jne	17b
18:
	subq	%rdx, %r13
	leaq	(,%r13,4), %rdx
	addq	%r13, %rdx
	shlq	$4, %rdx
	movl	%eax, (%r12,%rdx)
	movq	%rcx, 8(%r12,%rdx)
	movaps	144(%rsp), %xmm0
	movaps	160(%rsp), %xmm1
	movups	%xmm0, 16(%r12,%rdx)
	movups	%xmm1, 32(%r12,%rdx)
	movq	176(%rsp), %rax
	movq	%rax, 48(%r12,%rdx)
	movaps	112(%rsp), %xmm0
	movups	%xmm0, 56(%r12,%rdx)
	movq	128(%rsp), %rax
	movq	%rax, 72(%r12,%rdx)
	movq	%r14, %rax
	subq	%rbx, %rax
	leaq	(%rbx,%rbx,4), %r15
	shlq	$4, %r15
	addq	%rbp, %r15
	movq	%rax, 104(%rsp)
	shlq	$4, %rax
	leaq	(%rax,%rax,4), %rdx
	movq	%r15, %rax
	subq	%r12, %rax
	cmpq	%rdx, %rax
	jae	2b
	cmpq	%rbx, %r14
	movq	88(%rsp), %r9
	je	3b
	xorl	%eax, %eax
	movq	104(%rsp), %rcx
	.p2align	4
19:
	movl	(%r12,%rax), %edx
	movzbl	8(%r12,%rax), %esi
	movq	48(%r12,%rax), %rdi
	movq	%rdi, 64(%rsp)
	movups	32(%r12,%rax), %xmm0
	movaps	%xmm0, 48(%rsp)
	movups	16(%r12,%rax), %xmm0
	movaps	%xmm0, 32(%rsp)
	movq	72(%r12,%rax), %rdi
	movq	%rdi, 16(%rsp)
	movups	56(%r12,%rax), %xmm0
	movaps	%xmm0, (%rsp)
	movl	%edx, (%r15,%rax)
	movq	%rsi, 8(%r15,%rax)
	movaps	32(%rsp), %xmm0
	movaps	48(%rsp), %xmm1
	movups	%xmm0, 16(%r15,%rax)
	movups	%xmm1, 32(%r15,%rax)
	movq	64(%rsp), %rdx
	movq	%rdx, 48(%r15,%rax)
	movaps	(%rsp), %xmm0
	movups	%xmm0, 56(%r15,%rax)
	movq	16(%rsp), %rdx
	movq	%rdx, 72(%r15,%rax)
	addq	$80, %rax
	decq	%rcx
	jne	19b
	jmp	3b
20:
	movq	%r15, %rdi
	movq	%r12, %rsi
	callq	memmove@PLT
	movq	88(%rsp), %r8
21:
	movq	80(%rsp), %rax
	movq	%r12, (%rax)
	movq	%r8, 8(%rax)
	movl	100(%rsp), %r12d
	decl	%r12d
	jmp	4b
22:
	movq	%rbp, %rdi
	movq	%r14, %rsi
	movq	80(%rsp), %rdx
	addq	$184, %rsp
	popq	%rbx
	popq	%r12
	popq	%r13
	popq	%r14
	popq	%r15
	popq	%rbp
	jmp	"core::slice::sort::stable::merge_sort::<#54047240e3f04dbb>"
23:
	.size	"core::slice::sort::stable::quicksort::<#54047240e3f04dbb>", 23b-"core::slice::sort::stable::quicksort::<#54047240e3f04dbb>"

	.text
	.p2align	4
	.type	"core::slice::sort::stable::quicksort::<#b4bd7111e818b46c>",@function
"core::slice::sort::stable::quicksort::<#b4bd7111e818b46c>":
	pushq	%rbp
	pushq	%r15
	pushq	%r14
	pushq	%r13
	pushq	%r12
	pushq	%rbx
	subq	$104, %rsp
	movq	%r8, %r13
	movl	%ecx, %r12d
	movq	%rdx, %r14
	movq	%rdi, 8(%rsp)
	movq	%rsi, 16(%rsp)
	cmpq	$33, %rsi
	movq	%r8, 40(%rsp)
	jae	4f
1:
	movq	8(%rsp), %rdi
	movq	16(%rsp), %rsi
	movq	%r13, %rdx
	addq	$104, %rsp
	popq	%rbx
	popq	%r12
	popq	%r13
	popq	%r14
	popq	%r15
	popq	%rbp
	jmp	"core::slice::sort::short::sort::<#b4bd7111e818b46c>"
	.p2align	4
2:
	movq	%rbx, %rdi
	movq	%r12, %rsi
	callq	memmove@PLT
	movq	40(%rsp), %r13
3:
	movq	%r12, (%r13)
	movq	72(%rsp), %rax
	movq	%rax, 8(%r13)
	movl	60(%rsp), %r12d
	decl	%r12d
	movq	8(%rsp), %rdi
	movq	%r15, %rsi
	movq	16(%rsp), %rdx
	movl	%r12d, %ecx
	movq	%r13, %r8
	callq	"core::slice::sort::stable::quicksort::<#b4bd7111e818b46c>"
	movq	%rbx, 8(%rsp)
	movq	%rbp, 16(%rsp)
	cmpq	$33, %rbp
	jb	1b
4:
	testl	%r12d, %r12d
	je	32f
	movq	16(%rsp), %r15
	movq	%r15, %rbp
	shrq	$3, %rbp
	cmpq	$63, %r15
	movl	%r12d, 60(%rsp)
	ja	5f
	movq	%rbp, %rax
	shlq	$7, %rax
	movq	8(%rsp), %r13
	movq	(%r13), %rbx
	movq	8(%r13), %r15
	movq	(%r13,%rax), %rdx
	movq	8(%r13,%rax), %rcx
	movq	%rbx, %rdi
	movq	%r15, %rsi
	movq	%rdx, 24(%rsp)
	movq	%rcx, 48(%rsp)
	callq	"core::cmp::slices::RefSliceOrd::cmp::<#914af4d8504a0b72>"
	movl	%eax, %r12d
	testb	%al, %al
	sete	32(%rsp)
	imulq	$224, %rbp, %rax
	movq	(%r13,%rax), %rdx
	movq	8(%r13,%rax), %rcx
	movq	%rdx, %r13
	movq	%rbx, %rdi
	movq	%r15, %rsi
	movq	%rcx, %rbx
	callq	"core::cmp::slices::RefSliceOrd::cmp::<#914af4d8504a0b72>"
	testb	%al, %al
	sete	%al
	xorb	32(%rsp), %al
	je	6f
	xorl	%ebp, %ebp
	jmp	7f
	.p2align	4
5:
	leaq	(,%rbp,4), %rdx
	leaq	(,%rbp,8), %rcx
	subq	%rbp, %rcx
	movq	8(%rsp), %r12
	movq	%r12, %rdi
	xorl	%esi, %esi
	movq	%rbp, %r8
	callq	"core::slice::sort::pivot::median_of_medians::<#b4bd7111e818b46c>"
	movq	%rax, %rbp
	jmp	8f
	.p2align	4
6:
	testb	%r12b, %r12b
	sete	%r12b
	leaq	(,%rbp,8), %r15
	subq	%rbp, %r15
	shlq	$2, %rbp
	movq	24(%rsp), %rdi
	movq	48(%rsp), %rsi
	movq	%r13, %rdx
	movq	%rbx, %rcx
	callq	"core::cmp::slices::RefSliceOrd::cmp::<#914af4d8504a0b72>"
	testb	%al, %al
	sete	%al
	xorb	%r12b, %al
	cmovneq	%r15, %rbp
7:
	movq	16(%rsp), %r15
	movq	8(%rsp), %r12
	movq	40(%rsp), %r13
8:
	movq	%rbp, %rsi
	shlq	$5, %rsi
	leaq	(%r12,%rsi), %rbx
	cmpq	%r15, %r14
	movq	%rbp, 48(%rsp)
	movq	%rsi, 64(%rsp)
	jae	10f
	shlq	$5, %r14
	movq	(%r12,%r14), %rdi
	movq	8(%r12,%r14), %rsi
	movq	(%rbx), %rdx
	movq	8(%rbx), %rcx
	movq	%rdx, 32(%rsp)
	movq	%rcx, 24(%rsp)
	callq	"core::cmp::slices::RefSliceOrd::cmp::<#914af4d8504a0b72>"
	movq	(%r13), %r12
	movq	8(%r13), %rcx
	movq	%rcx, 72(%rsp)
	testb	%al, %al
	je	11f
	movups	16(%rbx), %xmm0
	movaps	%xmm0, 80(%rsp)
	xorl	%r14d, %r14d
	testq	%rbp, %rbp
	je	18f
	movq	8(%rsp), %r13
	movq	%r13, %rbx
	xorl	%r15d, %r15d
	movq	32(%rsp), %rdi
	movq	24(%rsp), %rsi
	.p2align	4
9:
	movq	%r14, %rbp
	movq	(%rbx), %rdx
	movq	8(%rbx), %rcx
	callq	"core::cmp::slices::RefSliceOrd::cmp::<#914af4d8504a0b72>"
	movq	24(%rsp), %rsi
	movq	32(%rsp), %rdi
	movq	%r15, %rcx
	subq	%r14, %rcx
	xorl	%r14d, %r14d
	testb	%al, %al
	movq	%r12, %rax
	cmovneq	%r13, %rax
	setne	%r14b
	cmovneq	%rbp, %rcx
	shlq	$5, %rcx
	movups	(%rbx), %xmm0
	movups	16(%rbx), %xmm1
	movups	%xmm0, (%rax,%rcx)
	movups	%xmm1, 16(%rax,%rcx)
	addq	%rbp, %r14
	movq	48(%rsp), %rbp
	incq	%r15
	addq	$32, %rbx
	cmpq	%r15, %rbp
	jne	9b
	jmp	19f
	.p2align	4
10:
	movq	(%r13), %r12
	movq	8(%r13), %rax
	movq	%rax, 72(%rsp)
	movq	(%rbx), %rdx
	movq	8(%rbx), %rcx
	jmp	12f
11:
	movq	32(%rsp), %rdx
	movq	24(%rsp), %rcx
	movq	64(%rsp), %rsi
12:
	movq	8(%rsp), %r13
	movups	16(%r13,%rsi), %xmm0
	movaps	%xmm0, 80(%rsp)
	testq	%rbp, %rbp
	movq	%rdx, 32(%rsp)
	movq	%rcx, 24(%rsp)
	je	14f
	xorl	%r14d, %r14d
	movq	%r13, %rbx
	xorl	%r15d, %r15d
	.p2align	4
13:
	movq	%r14, %rbp
	movq	(%rbx), %rdi
	movq	8(%rbx), %rsi
	callq	"core::cmp::slices::RefSliceOrd::cmp::<#914af4d8504a0b72>"
	movq	24(%rsp), %rcx
	movq	32(%rsp), %rdx
	movq	%r15, %rsi
	subq	%r14, %rsi
	xorl	%r14d, %r14d
	testb	%al, %al
	movq	%r12, %rax
	cmoveq	%r13, %rax
	sete	%r14b
	cmoveq	%rbp, %rsi
	shlq	$5, %rsi
	movups	(%rbx), %xmm0
	movups	16(%rbx), %xmm1
	movups	%xmm0, (%rax,%rsi)
	movups	%xmm1, 16(%rax,%rsi)
	addq	%rbp, %r14
	movq	48(%rsp), %rbp
	incq	%r15
	addq	$32, %rbx
	cmpq	%r15, %rbp
	jne	13b
	jmp	15f
	.p2align	4
14:
	xorl	%r14d, %r14d
15:
	leaq	1(%rbp), %rbx
	movq	%r14, %r15
	movq	16(%rsp), %rsi
	cmpq	%rsi, %rbx
	movq	%r13, 8(%rsp)
	movq	%r12, %rdi
	jae	17f
	movq	64(%rsp), %rax
	movq	8(%rsp), %r8
	leaq	(%r8,%rax), %rbp
	addq	$32, %rbp
	movq	%r14, %r15
	.p2align	4
16:
	movq	%r15, %r13
	movq	%rdi, %r15
	movq	(%rbp), %rdi
	movq	%rsi, %r12
	movq	8(%rbp), %rsi
	callq	"core::cmp::slices::RefSliceOrd::cmp::<#914af4d8504a0b72>"
	movq	%r15, %rdi
	movq	24(%rsp), %rcx
	movq	32(%rsp), %rdx
	movq	%rbx, %rsi
	subq	%r13, %rsi
	xorl	%r15d, %r15d
	testb	%al, %al
	movq	%rdi, %rax
	cmoveq	8(%rsp), %rax
	sete	%r15b
	cmoveq	%r13, %rsi
	shlq	$5, %rsi
	movups	(%rbp), %xmm0
	movups	16(%rbp), %xmm1
	movups	%xmm0, (%rax,%rsi)
	movups	%xmm1, 16(%rax,%rsi)
	movq	%r12, %rsi
	addq	%r13, %r15
	incq	%rbx
	addq	$32, %rbp
	cmpq	%rbx, %r12
	jne	16b
17:
	movq	48(%rsp), %rax
	subq	%r14, %rax
	movq	%rax, %r14
	shlq	$5, %rax
	movq	%rdx, (%rdi,%rax)
	movq	%rcx, 8(%rdi,%rax)
	movaps	80(%rsp), %xmm0
	movups	%xmm0, 16(%rdi,%rax)
	movq	%rsi, %rbp
	subq	%r15, %rbp
	movq	%r15, %rax
	shlq	$5, %rax
	movq	8(%rsp), %rcx
	leaq	(%rcx,%rax), %rbx
	movq	%rbp, %rdx
	shlq	$5, %rdx
	movq	%rbx, %rcx
	subq	%rdi, %rcx
	cmpq	%rdx, %rcx
	movq	%rdi, %r12
	jae	2b
	cmpq	%r15, %rsi
	movq	40(%rsp), %r13
	je	3b
	movl	%ebp, %ecx
	andl	$7, %ecx
	movq	%r15, %rdx
	subq	16(%rsp), %rdx
	cmpq	$-8, %rdx
	jbe	23f
	xorl	%edx, %edx
	jmp	25f
18:
	movq	32(%rsp), %rdi
	movq	24(%rsp), %rsi
19:
	leaq	1(%r14), %r8
	incq	%rbp
	movq	16(%rsp), %r13
	cmpq	%r13, %rbp
	jae	21f
	movq	64(%rsp), %rax
	movq	8(%rsp), %rdx
	leaq	(%rdx,%rax), %rbx
	addq	$32, %rbx
	.p2align	4
20:
	movq	%r8, %r15
	movq	(%rbx), %rdx
	movq	8(%rbx), %rcx
	callq	"core::cmp::slices::RefSliceOrd::cmp::<#914af4d8504a0b72>"
	movq	24(%rsp), %rsi
	movq	32(%rsp), %rdi
	movq	%rbp, %rcx
	subq	%r15, %rcx
	xorl	%r8d, %r8d
	testb	%al, %al
	movq	%r12, %rax
	cmovneq	8(%rsp), %rax
	setne	%r8b
	cmovneq	%r15, %rcx
	shlq	$5, %rcx
	movups	(%rbx), %xmm0
	movups	16(%rbx), %xmm1
	movups	%xmm0, (%rax,%rcx)
	movups	%xmm1, 16(%rax,%rcx)
	addq	%r15, %r8
	incq	%rbp
	addq	$32, %rbx
	cmpq	%rbp, %r13
	jne	20b
21:
	shlq	$5, %r14
	movq	8(%rsp), %rax
	movq	%rdi, (%rax,%r14)
	movq	%rsi, 8(%rax,%r14)
	movaps	80(%rsp), %xmm0
	movups	%xmm0, 16(%rax,%r14)
	movq	%r13, %rbp
	subq	%r8, %rbp
	movq	%r8, %rcx
	shlq	$5, %rcx
	leaq	(%rax,%rcx), %rbx
	movq	%rbp, %rdx
	shlq	$5, %rdx
	movq	%rbx, %rax
	subq	%r12, %rax
	cmpq	%rdx, %rax
	jae	22f
	cmpq	%r8, %r13
	movq	40(%rsp), %r13
	je	31f
	movl	%ebp, %eax
	andl	$7, %eax
	subq	16(%rsp), %r8
	cmpq	$-8, %r8
	jbe	27f
	xorl	%edx, %edx
	movq	8(%rsp), %rdi
	jmp	29f
22:
	movq	%rbx, %rdi
	movq	%r12, %rsi
	callq	memmove@PLT
	movq	40(%rsp), %r13
	jmp	31f
23:
	movq	%rbp, %rsi
	andq	$-8, %rsi
	movl	$224, %edi
	xorl	%edx, %edx
	.p2align	4
24:
	movups	-224(%r12,%rdi), %xmm0
	movups	-208(%r12,%rdi), %xmm1
	movups	%xmm1, -208(%rbx,%rdi)
	movups	%xmm0, -224(%rbx,%rdi)
	movups	-192(%r12,%rdi), %xmm0
	movups	-176(%r12,%rdi), %xmm1
	movups	%xmm1, -176(%rbx,%rdi)
	movups	%xmm0, -192(%rbx,%rdi)
	movups	-160(%r12,%rdi), %xmm0
	movups	-144(%r12,%rdi), %xmm1
	movups	%xmm1, -144(%rbx,%rdi)
	movups	%xmm0, -160(%rbx,%rdi)
	movups	-128(%r12,%rdi), %xmm0
	movups	-112(%r12,%rdi), %xmm1
	movups	%xmm1, -112(%rbx,%rdi)
	movups	%xmm0, -128(%rbx,%rdi)
	movups	-96(%r12,%rdi), %xmm0
	movups	-80(%r12,%rdi), %xmm1
	movups	%xmm1, -80(%rbx,%rdi)
	movups	%xmm0, -96(%rbx,%rdi)
	movups	-64(%r12,%rdi), %xmm0
	movups	-48(%r12,%rdi), %xmm1
	movups	%xmm1, -48(%rbx,%rdi)
	movups	%xmm0, -64(%rbx,%rdi)
	movups	-32(%r12,%rdi), %xmm0
	movups	-16(%r12,%rdi), %xmm1
	movups	%xmm1, -16(%rbx,%rdi)
	movups	%xmm0, -32(%rbx,%rdi)
	movups	(%r12,%rdi), %xmm0
	movups	16(%r12,%rdi), %xmm1
	movups	%xmm1, 16(%rbx,%rdi)
	movups	%xmm0, (%rbx,%rdi)
	addq	$8, %rdx
	addq	$256, %rdi
	cmpq	%rdx, %rsi
	jne	24b
	testq	%rcx, %rcx
	je	3b
25:
	shlq	$5, %rdx
	leaq	(%r12,%rdx), %rsi
	addq	8(%rsp), %rax
	addq	%rdx, %rax
	shll	$5, %ecx
	xorl	%edx, %edx
	.p2align	4
26:
	movups	(%rsi,%rdx), %xmm0
	movups	16(%rsi,%rdx), %xmm1
	movups	%xmm1, 16(%rax,%rdx)
	movups	%xmm0, (%rax,%rdx)
	addq	$32, %rdx
	cmpq	%rdx, %rcx
	jne	26b
	jmp	3b
27:
	movq	%rbp, %rsi
	andq	$-8, %rsi
	movl	$224, %edi
	xorl	%edx, %edx
	.p2align	4
28:
	movups	-224(%r12,%rdi), %xmm0
	movups	-208(%r12,%rdi), %xmm1
	movups	%xmm1, -208(%rbx,%rdi)
	movups	%xmm0, -224(%rbx,%rdi)
	movups	-192(%r12,%rdi), %xmm0
	movups	-176(%r12,%rdi), %xmm1
	movups	%xmm1, -176(%rbx,%rdi)
	movups	%xmm0, -192(%rbx,%rdi)
	movups	-160(%r12,%rdi), %xmm0
	movups	-144(%r12,%rdi), %xmm1
	movups	%xmm1, -144(%rbx,%rdi)
	movups	%xmm0, -160(%rbx,%rdi)
	movups	-128(%r12,%rdi), %xmm0
	movups	-112(%r12,%rdi), %xmm1
	movups	%xmm1, -112(%rbx,%rdi)
	movups	%xmm0, -128(%rbx,%rdi)
	movups	-96(%r12,%rdi), %xmm0
	movups	-80(%r12,%rdi), %xmm1
	movups	%xmm1, -80(%rbx,%rdi)
	movups	%xmm0, -96(%rbx,%rdi)
	movups	-64(%r12,%rdi), %xmm0
	movups	-48(%r12,%rdi), %xmm1
	movups	%xmm1, -48(%rbx,%rdi)
	movups	%xmm0, -64(%rbx,%rdi)
	movups	-32(%r12,%rdi), %xmm0
	movups	-16(%r12,%rdi), %xmm1
	movups	%xmm1, -16(%rbx,%rdi)
	movups	%xmm0, -32(%rbx,%rdi)
	movups	(%r12,%rdi), %xmm0
	movups	16(%r12,%rdi), %xmm1
	movups	%xmm1, 16(%rbx,%rdi)
	movups	%xmm0, (%rbx,%rdi)
	addq	$8, %rdx
	addq	$256, %rdi
	cmpq	%rdx, %rsi
	jne	28b
	testq	%rax, %rax
	movq	8(%rsp), %rdi
	je	31f
29:
	shlq	$5, %rdx
	leaq	(%r12,%rdx), %rsi
	addq	%rcx, %rdi
	addq	%rdx, %rdi
	shll	$5, %eax
	xorl	%ecx, %ecx
	.p2align	4
30:
	movups	(%rsi,%rcx), %xmm0
	movups	16(%rsi,%rcx), %xmm1
	movups	%xmm1, 16(%rdi,%rcx)
	movups	%xmm0, (%rdi,%rcx)
	addq	$32, %rcx
	cmpq	%rcx, %rax
	jne	30b
31:
	movq	%r12, (%r13)
	movq	72(%rsp), %rax
	movq	%rax, 8(%r13)
	movl	60(%rsp), %r12d
	decl	%r12d
	movq	16(%rsp), %r14
	movq	%rbx, 8(%rsp)
	movq	%rbp, 16(%rsp)
	cmpq	$33, %rbp
	jae	4b
	jmp	1b
32:
	movq	8(%rsp), %rdi
	movq	16(%rsp), %rsi
	movq	%r13, %rdx
	addq	$104, %rsp
	popq	%rbx
	popq	%r12
	popq	%r13
	popq	%r14
	popq	%r15
	popq	%rbp
	jmp	"core::slice::sort::stable::merge_sort::<#b4bd7111e818b46c>"
33:
	.size	"core::slice::sort::stable::quicksort::<#b4bd7111e818b46c>", 33b-"core::slice::sort::stable::quicksort::<#b4bd7111e818b46c>"

	.text
	.p2align	4
	.type	"core::slice::sort::stable::quicksort::<#f98e8d76978ecc20>",@function
"core::slice::sort::stable::quicksort::<#f98e8d76978ecc20>":
	pushq	%rbp
	pushq	%r15
	pushq	%r14
	pushq	%r13
	pushq	%r12
	pushq	%rbx
	subq	$88, %rsp
	movq	%r8, %r14
	movl	%ecx, %ebp
	movq	%rdx, %rbx
	movq	%rsi, %r15
	cmpq	$33, %rsi
	movq	%r8, 48(%rsp)
	jae	4f
1:
	movq	%r15, %rsi
	movq	%r14, %rdx
	addq	$88, %rsp
	popq	%rbx
	popq	%r12
	popq	%r13
	popq	%r14
	popq	%r15
	popq	%rbp
	jmp	"core::slice::sort::short::sort::<#f98e8d76978ecc20>"
	.p2align	4
2:
	movq	%r15, %rdi
	callq	memmove@PLT
	movq	32(%rsp), %rsi
	movq	24(%rsp), %r9
	movq	48(%rsp), %r14
	movl	12(%rsp), %ebp
3:
	movq	%rsi, (%r14)
	movq	56(%rsp), %rax
	movq	%rax, 8(%r14)
	decl	%ebp
	movq	%r9, %rdi
	movq	%r12, %rsi
	movq	%rbx, %rdx
	movl	%ebp, %ecx
	movq	%r14, %r8
	callq	"core::slice::sort::stable::quicksort::<#f98e8d76978ecc20>"
	movq	%r13, %rbx
	movq	40(%rsp), %r8
	movq	%r15, %rdi
	movq	%r8, %r15
	cmpq	$33, %r8
	jb	1b
4:
	testl	%ebp, %ebp
	je	54f
	movq	%r15, %r8
	shrq	$3, %r8
	leaq	(,%r8,4), %rdx
	movq	%r15, %rcx
	andq	$-8, %rcx
	subq	%r8, %rcx
	cmpq	$63, %r15
	movq	%rdi, 24(%rsp)
	ja	5f
	xorl	%esi, %esi
	callq	"core::slice::sort::pivot::median_of_three::<#f98e8d76978ecc20>"
	jmp	6f
	.p2align	4
5:
	xorl	%esi, %esi
	callq	"core::slice::sort::pivot::median_of_medians::<#f98e8d76978ecc20>"
6:
	movq	%rax, %r13
	cmpq	%r15, %rbx
	movq	%r15, 16(%rsp)
	movl	%ebp, 12(%rsp)
	movq	%rax, 40(%rsp)
	jae	8f
	shlq	$5, %rbx
	movq	%r13, %r12
	shlq	$5, %r12
	movq	24(%rsp), %r9
	movq	(%r9,%rbx), %rdi
	movq	8(%r9,%rbx), %rsi
	movq	(%r9,%r12), %r15
	movq	8(%r9,%r12), %rbx
	cmpq	%rsi, %rbx
	movq	%rsi, %rax
	cmovbq	%rbx, %rax
	cmpq	$24, %rax
	movl	$24, %ecx
	cmovbq	%rax, %rcx
	cmpq	$8, %rax
	jb	9f
	xorl	%eax, %eax
	.p2align	4
7:
	movq	(%rdi,%rax), %rdx
	movq	(%r15,%rax), %r8
	cmpq	%r8, %rdx
	jne	18f
	addq	$8, %rax
	addq	$-8, %rcx
	cmpq	$7, %rcx
	ja	7b
	jmp	10f
	.p2align	4
8:
	movq	%r13, %r12
	shlq	$5, %r12
	movq	24(%rsp), %r9
	jmp	19f
	.p2align	4
9:
	xorl	%eax, %eax
10:
	addq	%rax, %rdi
	subq	%rax, %rsi
	leaq	(%r15,%rax), %rdx
	movq	%rbx, %rcx
	subq	%rax, %rcx
	callq	"core::cmp::slices::RefSliceOrd::cmp::<#914af4d8504a0b72>"
	movq	24(%rsp), %r9
	testb	%al, %al
	je	19f
11:
	addq	%r9, %r12
	movq	(%r14), %rax
	movq	%rax, 32(%rsp)
	movq	8(%r14), %rax
	movups	16(%r12), %xmm0
	movaps	%xmm0, 64(%rsp)
	testq	%r13, %r13
	movq	%rax, 56(%rsp)
	je	35f
	xorl	%r14d, %r14d
	xorl	%r12d, %r12d
	movq	32(%rsp), %r13
	jmp	14f
	.p2align	4
12:
	bswapq	%r8
	bswapq	%rdi
	cmpq	%r8, %rdi
	setb	%al
13:
	addq	%r9, %rbp
	movl	%eax, %ecx
	xorb	$1, %cl
	movq	%r12, %rdx
	subq	%r14, %rdx
	testb	%al, %al
	movq	%r9, %rax
	cmovneq	%r13, %rax
	cmoveq	%r14, %rdx
	shlq	$5, %rdx
	movups	(%rbp), %xmm0
	movups	16(%rbp), %xmm1
	movups	%xmm1, 16(%rax,%rdx)
	movups	%xmm0, (%rax,%rdx)
	movzbl	%cl, %eax
	addq	%rax, %r14
	incq	%r12
	cmpq	40(%rsp), %r12
	je	36f
14:
	movq	%r12, %rbp
	shlq	$5, %rbp
	movq	(%r9,%rbp), %rdx
	movq	8(%r9,%rbp), %rcx
	cmpq	%rbx, %rcx
	movq	%rbx, %rax
	cmovbq	%rcx, %rax
	cmpq	$24, %rax
	movl	$24, %esi
	cmovbq	%rax, %rsi
	cmpq	$8, %rax
	jb	16f
	xorl	%eax, %eax
	.p2align	4
15:
	movq	(%r15,%rax), %rdi
	movq	(%rdx,%rax), %r8
	cmpq	%r8, %rdi
	jne	12b
	addq	$8, %rax
	addq	$-8, %rsi
	cmpq	$7, %rsi
	ja	15b
	jmp	17f
	.p2align	4
16:
	xorl	%eax, %eax
17:
	leaq	(%r15,%rax), %rdi
	movq	%rbx, %rsi
	subq	%rax, %rsi
	addq	%rax, %rdx
	subq	%rax, %rcx
	callq	"core::cmp::slices::RefSliceOrd::cmp::<#914af4d8504a0b72>"
	movq	24(%rsp), %r9
	testb	%al, %al
	sete	%al
	jmp	13b
18:
	bswapq	%r8
	bswapq	%rdx
	cmpq	%r8, %rdx
	jae	11b
	.p2align	4
19:
	movq	(%r14), %rsi
	movq	8(%r14), %rax
	movq	%rax, 56(%rsp)
	movq	(%r9,%r12), %r15
	movq	8(%r9,%r12), %r14
	movups	16(%r9,%r12), %xmm0
	movaps	%xmm0, 64(%rsp)
	testq	%r13, %r13
	movq	%rsi, 32(%rsp)
	je	26f
	xorl	%ebx, %ebx
	xorl	%r12d, %r12d
	jmp	22f
	.p2align	4
20:
	bswapq	%r8
	bswapq	%rdx
	cmpq	%r8, %rdx
	setb	%al
21:
	addq	%r9, %rbp
	movq	%r12, %rcx
	subq	%rbx, %rcx
	testb	%al, %al
	movq	32(%rsp), %rsi
	movq	%rsi, %rdx
	cmovneq	%r9, %rdx
	cmovneq	%rbx, %rcx
	shlq	$5, %rcx
	movups	(%rbp), %xmm0
	movups	16(%rbp), %xmm1
	movups	%xmm1, 16(%rdx,%rcx)
	movups	%xmm0, (%rdx,%rcx)
	movzbl	%al, %eax
	addq	%rax, %rbx
	incq	%r12
	cmpq	%r13, %r12
	je	27f
22:
	movq	%r12, %rbp
	shlq	$5, %rbp
	movq	(%r9,%rbp), %rdi
	movq	8(%r9,%rbp), %rsi
	cmpq	%rsi, %r14
	movq	%rsi, %rax
	cmovbq	%r14, %rax
	cmpq	$24, %rax
	movl	$24, %ecx
	cmovbq	%rax, %rcx
	cmpq	$8, %rax
	jb	24f
	xorl	%eax, %eax
	.p2align	4
23:
	movq	(%rdi,%rax), %rdx
	movq	(%r15,%rax), %r8
	cmpq	%r8, %rdx
	jne	20b
	addq	$8, %rax
	addq	$-8, %rcx
	cmpq	$7, %rcx
	ja	23b
	jmp	25f
	.p2align	4
24:
	xorl	%eax, %eax
25:
	addq	%rax, %rdi
	subq	%rax, %rsi
	leaq	(%r15,%rax), %rdx
	movq	%r14, %rcx
	subq	%rax, %rcx
	callq	"core::cmp::slices::RefSliceOrd::cmp::<#914af4d8504a0b72>"
	movq	24(%rsp), %r9
	testb	%al, %al
	sete	%al
	jmp	21b
	.p2align	4
26:
	xorl	%ebx, %ebx
27:
	incq	%r13
	movq	%rbx, %r12
	cmpq	16(%rsp), %r13
	jae	34f
	movq	%rbx, %r12
	jmp	30f
	.p2align	4
28:
	bswapq	%r8
	bswapq	%rdx
	cmpq	%r8, %rdx
	setb	%al
29:
	addq	%r9, %rbp
	movq	%r13, %rcx
	subq	%r12, %rcx
	testb	%al, %al
	movq	32(%rsp), %rsi
	movq	%rsi, %rdx
	cmovneq	%r9, %rdx
	cmovneq	%r12, %rcx
	shlq	$5, %rcx
	movups	(%rbp), %xmm0
	movups	16(%rbp), %xmm1
	movups	%xmm1, 16(%rdx,%rcx)
	movups	%xmm0, (%rdx,%rcx)
	movzbl	%al, %eax
	addq	%rax, %r12
	incq	%r13
	cmpq	16(%rsp), %r13
	je	34f
30:
	movq	%r13, %rbp
	shlq	$5, %rbp
	movq	(%r9,%rbp), %rdi
	movq	8(%r9,%rbp), %rsi
	cmpq	%rsi, %r14
	movq	%rsi, %rax
	cmovbq	%r14, %rax
	cmpq	$24, %rax
	movl	$24, %ecx
	cmovbq	%rax, %rcx
	cmpq	$8, %rax
	jb	32f
	xorl	%eax, %eax
	.p2align	4
31:
	movq	(%rdi,%rax), %rdx
	movq	(%r15,%rax), %r8
	cmpq	%r8, %rdx
	jne	28b
	addq	$8, %rax
	addq	$-8, %rcx
	cmpq	$7, %rcx
	ja	31b
	jmp	33f
	.p2align	4
32:
	xorl	%eax, %eax
33:
	addq	%rax, %rdi
	subq	%rax, %rsi
	leaq	(%r15,%rax), %rdx
	movq	%r14, %rcx
	subq	%rax, %rcx
	callq	"core::cmp::slices::RefSliceOrd::cmp::<#914af4d8504a0b72>"
	movq	24(%rsp), %r9
	testb	%al, %al
	sete	%al
	jmp	29b
	.p2align	4
34:
	movq	40(%rsp), %r13
	subq	%rbx, %r13
	movq	%r13, %rax
	shlq	$5, %rax
	movq	%r15, (%rsi,%rax)
	movq	%r14, 8(%rsi,%rax)
	movaps	64(%rsp), %xmm0
	movups	%xmm0, 16(%rsi,%rax)
	movq	16(%rsp), %rbx
	movq	%rbx, %rdx
	subq	%r12, %rdx
	movq	%r12, %rax
	shlq	$5, %rax
	leaq	(%r9,%rax), %r15
	movq	%rdx, 40(%rsp)
	shlq	$5, %rdx
	movq	%r15, %rcx
	subq	%rsi, %rcx
	cmpq	%rdx, %rcx
	jae	2b
	cmpq	%r12, %rbx
	movq	48(%rsp), %r14
	movl	12(%rsp), %ebp
	je	3b
	movq	40(%rsp), %rdi
	movl	%edi, %ecx
	andl	$7, %ecx
	movq	%r12, %rdx
	subq	%rbx, %rdx
	cmpq	$-8, %rdx
	jbe	45f
	xorl	%edx, %edx
	jmp	47f
35:
	xorl	%r14d, %r14d
	movq	32(%rsp), %r13
36:
	leaq	1(%r14), %r12
	movq	40(%rsp), %rax
	incq	%rax
	cmpq	16(%rsp), %rax
	jae	43f
	movq	%rax, %rsi
	jmp	39f
	.p2align	4
37:
	bswapq	%r8
	bswapq	%rdi
	cmpq	%r8, %rdi
	setb	%al
38:
	addq	%r9, %rbp
	movl	%eax, %ecx
	xorb	$1, %cl
	movq	%r13, %rsi
	movq	%r13, %rdx
	subq	%r12, %rdx
	testb	%al, %al
	movq	%r9, %rax
	movq	32(%rsp), %r13
	cmovneq	%r13, %rax
	cmoveq	%r12, %rdx
	shlq	$5, %rdx
	movups	(%rbp), %xmm0
	movups	16(%rbp), %xmm1
	movups	%xmm1, 16(%rax,%rdx)
	movups	%xmm0, (%rax,%rdx)
	movzbl	%cl, %eax
	addq	%rax, %r12
	incq	%rsi
	cmpq	16(%rsp), %rsi
	je	43f
39:
	movq	%rsi, %r13
	movq	%rsi, %rbp
	shlq	$5, %rbp
	movq	(%r9,%rbp), %rdx
	movq	8(%r9,%rbp), %rcx
	cmpq	%rbx, %rcx
	movq	%rbx, %rax
	cmovbq	%rcx, %rax
	cmpq	$24, %rax
	movl	$24, %esi
	cmovbq	%rax, %rsi
	cmpq	$8, %rax
	jb	41f
	xorl	%eax, %eax
	.p2align	4
40:
	movq	(%r15,%rax), %rdi
	movq	(%rdx,%rax), %r8
	cmpq	%r8, %rdi
	jne	37b
	addq	$8, %rax
	addq	$-8, %rsi
	cmpq	$7, %rsi
	ja	40b
	jmp	42f
	.p2align	4
41:
	xorl	%eax, %eax
42:
	leaq	(%r15,%rax), %rdi
	movq	%rbx, %rsi
	subq	%rax, %rsi
	addq	%rax, %rdx
	subq	%rax, %rcx
	callq	"core::cmp::slices::RefSliceOrd::cmp::<#914af4d8504a0b72>"
	movq	24(%rsp), %r9
	testb	%al, %al
	sete	%al
	jmp	38b
	.p2align	4
43:
	shlq	$5, %r14
	movq	%r15, (%r9,%r14)
	movq	%rbx, 8(%r9,%r14)
	movaps	64(%rsp), %xmm0
	movups	%xmm0, 16(%r9,%r14)
	movq	16(%rsp), %rsi
	movq	%rsi, %r8
	subq	%r12, %r8
	movq	%r12, %rcx
	shlq	$5, %rcx
	leaq	(%r9,%rcx), %r15
	movq	%r8, %rdx
	shlq	$5, %rdx
	movq	%r15, %rax
	subq	%r13, %rax
	cmpq	%rdx, %rax
	jae	44f
	cmpq	%r12, %rsi
	movq	48(%rsp), %r14
	movl	12(%rsp), %ebp
	je	53f
	movl	%r8d, %eax
	andl	$7, %eax
	subq	16(%rsp), %r12
	cmpq	$-8, %r12
	jbe	49f
	xorl	%edx, %edx
	jmp	51f
44:
	movq	%r15, %rdi
	movq	%r13, %rsi
	movq	%r8, %rbx
	callq	memmove@PLT
	movq	%rbx, %r8
	movq	48(%rsp), %r14
	movl	12(%rsp), %ebp
	jmp	53f
45:
	movq	%rdi, %r8
	andq	$-8, %r8
	movl	$224, %edi
	xorl	%edx, %edx
	.p2align	4
46:
	movups	-224(%rsi,%rdi), %xmm0
	movups	-208(%rsi,%rdi), %xmm1
	movups	%xmm1, -208(%r15,%rdi)
	movups	%xmm0, -224(%r15,%rdi)
	movups	-192(%rsi,%rdi), %xmm0
	movups	-176(%rsi,%rdi), %xmm1
	movups	%xmm1, -176(%r15,%rdi)
	movups	%xmm0, -192(%r15,%rdi)
	movups	-160(%rsi,%rdi), %xmm0
	movups	-144(%rsi,%rdi), %xmm1
	movups	%xmm1, -144(%r15,%rdi)
	movups	%xmm0, -160(%r15,%rdi)
	movups	-128(%rsi,%rdi), %xmm0
	movups	-112(%rsi,%rdi), %xmm1
	movups	%xmm1, -112(%r15,%rdi)
	movups	%xmm0, -128(%r15,%rdi)
	movups	-96(%rsi,%rdi), %xmm0
	movups	-80(%rsi,%rdi), %xmm1
	movups	%xmm1, -80(%r15,%rdi)
	movups	%xmm0, -96(%r15,%rdi)
	movups	-64(%rsi,%rdi), %xmm0
	movups	-48(%rsi,%rdi), %xmm1
	movups	%xmm1, -48(%r15,%rdi)
	movups	%xmm0, -64(%r15,%rdi)
	movups	-32(%rsi,%rdi), %xmm0
	movups	-16(%rsi,%rdi), %xmm1
	movups	%xmm1, -16(%r15,%rdi)
	movups	%xmm0, -32(%r15,%rdi)
	movups	(%rsi,%rdi), %xmm0
	movups	16(%rsi,%rdi), %xmm1
	movups	%xmm1, 16(%r15,%rdi)
	movups	%xmm0, (%r15,%rdi)
	addq	$8, %rdx
	addq	$256, %rdi
	cmpq	%rdx, %r8
	jne	46b
	testq	%rcx, %rcx
	je	3b
47:
	shlq	$5, %rdx
	leaq	(%rsi,%rdx), %rdi
	addq	%r9, %rax
	addq	%rdx, %rax
	shll	$5, %ecx
	xorl	%edx, %edx
	.p2align	4
48:
	movups	(%rdi,%rdx), %xmm0
	movups	16(%rdi,%rdx), %xmm1
	movups	%xmm1, 16(%rax,%rdx)
	movups	%xmm0, (%rax,%rdx)
	addq	$32, %rdx
	cmpq	%rdx, %rcx
	jne	48b
	jmp	3b
49:
	movq	%r8, %rsi
	andq	$-8, %rsi
	movl	$224, %edi
	xorl	%edx, %edx
	.p2align	4
50:
	movups	-224(%r13,%rdi), %xmm0
	movups	-208(%r13,%rdi), %xmm1
	movups	%xmm1, -208(%r15,%rdi)
	movups	%xmm0, -224(%r15,%rdi)
	movups	-192(%r13,%rdi), %xmm0
	movups	-176(%r13,%rdi), %xmm1
	movups	%xmm1, -176(%r15,%rdi)
	movups	%xmm0, -192(%r15,%rdi)
	movups	-160(%r13,%rdi), %xmm0
	movups	-144(%r13,%rdi), %xmm1
	movups	%xmm1, -144(%r15,%rdi)
	movups	%xmm0, -160(%r15,%rdi)
	movups	-128(%r13,%rdi), %xmm0
	movups	-112(%r13,%rdi), %xmm1
	movups	%xmm1, -112(%r15,%rdi)
	movups	%xmm0, -128(%r15,%rdi)
	movups	-96(%r13,%rdi), %xmm0
	movups	-80(%r13,%rdi), %xmm1
	movups	%xmm1, -80(%r15,%rdi)
	movups	%xmm0, -96(%r15,%rdi)
	movups	-64(%r13,%rdi), %xmm0
	movups	-48(%r13,%rdi), %xmm1
	movups	%xmm1, -48(%r15,%rdi)
	movups	%xmm0, -64(%r15,%rdi)
	movups	-32(%r13,%rdi), %xmm0
	movups	-16(%r13,%rdi), %xmm1
	movups	%xmm1, -16(%r15,%rdi)
	movups	%xmm0, -32(%r15,%rdi)
	movups	(%r13,%rdi), %xmm0
	movups	16(%r13,%rdi), %xmm1
	movups	%xmm1, 16(%r15,%rdi)
	movups	%xmm0, (%r15,%rdi)
	addq	$8, %rdx
	addq	$256, %rdi
	cmpq	%rdx, %rsi
	jne	50b
	testq	%rax, %rax
	je	53f
51:
	shlq	$5, %rdx
	leaq	(%rdx,%r13), %rsi
	addq	%rcx, %r9
	addq	%rdx, %r9
	shll	$5, %eax
	xorl	%ecx, %ecx
	.p2align	4
52:
	movups	(%rsi,%rcx), %xmm0
	movups	16(%rsi,%rcx), %xmm1
	movups	%xmm1, 16(%r9,%rcx)
	movups	%xmm0, (%r9,%rcx)
	addq	$32, %rcx
	cmpq	%rcx, %rax
	jne	52b
53:
	movq	%r13, (%r14)
	movq	56(%rsp), %rax
	movq	%rax, 8(%r14)
	decl	%ebp
	movq	16(%rsp), %rbx
	movq	%r15, %rdi
	movq	%r8, %r15
	cmpq	$33, %r8
	jae	4b
	jmp	1b
54:
	movq	%r15, %rsi
	movq	%r14, %rdx
	addq	$88, %rsp
	popq	%rbx
	popq	%r12
	popq	%r13
	popq	%r14
	popq	%r15
	popq	%rbp
	jmp	"core::slice::sort::stable::merge_sort::<#f98e8d76978ecc20>"
55:
	.size	"core::slice::sort::stable::quicksort::<#f98e8d76978ecc20>", 55b-"core::slice::sort::stable::quicksort::<#f98e8d76978ecc20>"

	.text
	.p2align	4
	.type	"core::slice::sort::unstable::quicksort::<#7ab9c65c4fe95e6e>",@function
"core::slice::sort::unstable::quicksort::<#7ab9c65c4fe95e6e>":
	pushq	%rbp
	pushq	%r15
	pushq	%r14
	pushq	%r13
	pushq	%r12
	pushq	%rbx
	subq	$72, %rsp
	movq	%rdx, %rbx
	movq	%rdi, %r14
	movq	%rdx, %r12
	subq	%rsi, %r12
	cmpq	$17, %r12
	jb	24f
	movl	%ecx, %ebp
	movq	%rsi, %r15
	movq	%rbx, 40(%rsp)
	jmp	4f
	.p2align	4
1:
	xorl	%ecx, %ecx
2:
	movq	%rax, (%rsi,%rcx)
	addq	%r15, %rdx
	movq	%r14, %rdi
	movq	%r15, %rsi
	movl	%ebp, %ecx
	callq	"core::slice::sort::unstable::quicksort::<#7ab9c65c4fe95e6e>"
3:
	addq	%r13, %r15
	movq	%rbx, %r12
	subq	%r15, %r12
	cmpq	$16, %r12
	jbe	24f
4:
	testl	%ebp, %ebp
	je	25f
	movq	%r12, %r8
	shrq	$3, %r8
	movq	%r12, %rcx
	andq	$-8, %rcx
	subq	%r8, %rcx
	addq	%r15, %rcx
	leaq	(%r15,%r8,4), %rax
	cmpq	$63, %r12
	ja	13f
	movq	(%r14,%r15,8), %rdx
	movq	(%r14,%rax,8), %rsi
	cmpq	%rsi, %rdx
	setb	%dil
	movq	(%r14,%rcx,8), %r8
	cmpq	%r8, %rdx
	setb	%dl
	xorb	%dil, %dl
	cmpq	%r8, %rsi
	setb	%sil
	xorb	%dil, %sil
	cmovneq	%rcx, %rax
	testb	%dl, %dl
	cmovneq	%r15, %rax
	decl	%ebp
	testq	%r15, %r15
	je	14f
5:
	leaq	(,%r15,8), %rcx
	movq	-8(%r14,%r15,8), %rdx
	cmpq	(%r14,%rax,8), %rdx
	jb	15f
	leaq	(%r14,%r15,8), %rdx
	subq	%r15, %rax
	je	6f
	movq	(%rdx), %rsi
	movq	(%rdx,%rax,8), %rdi
	movq	%rdi, (%rdx)
	movq	%rsi, (%rdx,%rax,8)
6:
	movq	(%rdx), %rax
	movl	$1, %r13d
	.p2align	4
7:
	cmpq	(%rdx,%r13,8), %rax
	jb	8f
	incq	%r13
	cmpq	%r13, %r12
	jne	7b
	movq	%r12, %r13
8:
	leaq	-1(%r12), %r8
	cmpq	%r8, %r13
	jae	12f
	leaq	1(%r13), %rdi
	movq	8(%rdx,%r13,8), %rsi
	cmpq	%r8, %rdi
	jae	11f
	movl	%r12d, %r8d
	subl	%r13d, %r8d
	movq	%r13, %r9
	testb	$1, %r8b
	je	9f
	leaq	2(%r13), %rdi
	movq	(%rdx,%r13,8), %r8
	movq	16(%rdx,%r13,8), %r9
	cmpq	%r9, %rax
	movq	%r8, 8(%rdx,%r13,8)
	movq	%r9, (%rdx,%r13,8)
	movq	%r13, %r9
	sbbq	$-1, %r9
9:
	leaq	-3(%r12), %r8
	cmpq	%r13, %r8
	movq	%r9, %r13
	je	11f
	movq	%r12, %r8
	subq	%rdi, %r8
	leaq	(%rcx,%rdi,8), %rcx
	addq	%r14, %rcx
	movl	$1, %edi
	movq	%r9, %r13
	.p2align	4
10:
	movq	(%rcx,%rdi,8), %r9
	cmpq	%r9, %rax
	movq	(%rdx,%r13,8), %r10
	movq	%r10, -8(%rcx,%rdi,8)
	movq	%r9, (%rdx,%r13,8)
	sbbq	$-1, %r13
	movq	8(%rcx,%rdi,8), %r9
	cmpq	%r9, %rax
	movq	(%rdx,%r13,8), %r10
	movq	%r10, (%rcx,%rdi,8)
	movq	%r9, (%rdx,%r13,8)
	sbbq	$-1, %r13
	addq	$2, %rdi
	cmpq	%rdi, %r8
	jne	10b
11:
	cmpq	%rsi, %rax
	movq	(%rdx,%r13,8), %rcx
	movq	%rcx, -8(%rdx,%r12,8)
	movq	%rsi, (%rdx,%r13,8)
	sbbq	$-1, %r13
12:
	movq	%r13, %rcx
	decq	%rcx
	je	23f
	movq	(%rdx,%rcx,8), %rsi
	shlq	$3, %rcx
	movq	%rsi, (%rdx)
	movq	%rax, (%rdx,%rcx)
	jmp	3b
	.p2align	4
13:
	movq	%r14, %rdi
	movq	%r15, %rsi
	movq	%rax, %rdx
	callq	"core::slice::sort::pivot::median_of_medians::<#7ab9c65c4fe95e6e>"
	decl	%ebp
	testq	%r15, %r15
	jne	5b
14:
	xorl	%ecx, %ecx
15:
	leaq	(%r14,%rcx), %rsi
	subq	%r15, %rax
	je	16f
	movq	(%rsi), %rdx
	movq	(%rsi,%rax,8), %rdi
	movq	%rdi, (%rsi)
	movq	%rdx, (%rsi,%rax,8)
16:
	movq	(%rsi), %rax
	movl	$1, %r13d
	.p2align	4
17:
	cmpq	%rax, (%rsi,%r13,8)
	jae	18f
	incq	%r13
	cmpq	%r13, %r12
	jne	17b
	movq	%r12, %r13
18:
	leaq	-1(%r12), %r8
	cmpq	%r8, %r13
	jae	22f
	leaq	1(%r13), %rdi
	movq	8(%rsi,%r13,8), %rdx
	cmpq	%r8, %rdi
	jae	21f
	movl	%r12d, %r8d
	subl	%r13d, %r8d
	movq	%r13, %r9
	testb	$1, %r8b
	je	19f
	leaq	2(%r13), %rdi
	movq	(%rsi,%r13,8), %r8
	movq	16(%rsi,%r13,8), %r9
	cmpq	%rax, %r9
	movq	%r8, 8(%rsi,%r13,8)
	movq	%r9, (%rsi,%r13,8)
	movq	%r13, %r9
	adcq	$0, %r9
19:
	leaq	-3(%r12), %r8
	cmpq	%r13, %r8
	movq	%r9, %r13
	je	21f
	movq	%r12, %r8
	subq	%rdi, %r8
	leaq	(%rcx,%rdi,8), %rcx
	addq	%r14, %rcx
	movl	$1, %edi
	movq	%r9, %r13
	.p2align	4
20:
	movq	(%rcx,%rdi,8), %r9
	xorl	%r10d, %r10d
	cmpq	%rax, %r9
	setb	%r10b
	movq	(%rsi,%r13,8), %r11
	movq	%r11, -8(%rcx,%rdi,8)
	movq	%r9, (%rsi,%r13,8)
	leaq	(%r10,%r13), %r9
	movq	8(%rcx,%rdi,8), %r11
	cmpq	%rax, %r11
	movq	(%rsi,%r9,8), %rbx
	movq	%rbx, (%rcx,%rdi,8)
	movq	%r11, (%rsi,%r9,8)
	adcq	%r10, %r13
	addq	$2, %rdi
	cmpq	%rdi, %r8
	jne	20b
21:
	cmpq	%rax, %rdx
	movq	(%rsi,%r13,8), %rcx
	movq	%rcx, -8(%rsi,%r12,8)
	movq	%rdx, (%rsi,%r13,8)
	adcq	$0, %r13
	movq	40(%rsp), %rbx
22:
	movq	%r13, %rdx
	decq	%rdx
	je	1b
	leaq	(,%rdx,8), %rcx
	movq	(%rsi,%rdx,8), %rdi
	movq	%rdi, (%rsi)
	jmp	2b
23:
	xorl	%ecx, %ecx
	movq	%rax, (%rdx,%rcx)
	jmp	3b
24:
	cmpq	$2, %r12
	jb	50f
	xorl	%eax, %eax
	cmpq	$13, %r12
	setae	%al
	leaq	12(,%rax,4), %rax
	cmpq	$9, %r12
	movl	$8, %ecx
	cmovaeq	%rax, %rcx
	xorl	%edx, %edx
	movq	%rbx, %rax
	subq	%rcx, %rax
	cmovaeq	%rax, %rdx
	leaq	(%r14,%rdx,8), %rax
	subq	%rdx, %rbx
	cmpq	$16, %rbx
	jb	40f
	movq	104(%rax), %rcx
	movq	(%rax), %rsi
	movq	8(%rax), %rdx
	cmpq	%rsi, %rcx
	movq	%rsi, %rdi
	cmovbq	%rcx, %rdi
	movq	%rdi, 40(%rsp)
	cmovaq	%rcx, %rsi
	movq	%rsi, 8(%rsp)
	movq	96(%rax), %rcx
	cmpq	%rdx, %rcx
	movq	%rdx, %rsi
	cmovbq	%rcx, %rsi
	movq	%rsi, 24(%rsp)
	cmovaq	%rcx, %rdx
	movq	%rdx, 48(%rsp)
	movq	16(%rax), %rdx
	movq	120(%rax), %rcx
	cmpq	%rdx, %rcx
	movq	%rdx, %r11
	cmovaq	%rcx, %rdx
	movq	%rdx, 16(%rsp)
	cmovbq	%rcx, %r11
	movq	24(%rax), %r10
	movq	112(%rax), %rcx
	cmpq	%r10, %rcx
	movq	%r10, %r12
	cmovbq	%rcx, %r12
	cmovaq	%rcx, %r10
	movq	32(%rax), %rbp
	movq	64(%rax), %rcx
	cmpq	%rbp, %rcx
	movq	%rbp, %rdx
	cmovaq	%rcx, %rbp
	cmovbq	%rcx, %rdx
	movq	%rdx, 56(%rsp)
	movq	40(%rax), %r8
	movq	48(%rax), %rcx
	cmpq	%r8, %rcx
	movq	%r8, %r15
	cmovbq	%rcx, %r15
	cmovaq	%rcx, %r8
	movq	56(%rax), %rdi
	movq	88(%rax), %rdx
	cmpq	%rdi, %rdx
	movq	%rdi, %rsi
	cmovaq	%rdx, %rdi
	cmovbq	%rdx, %rsi
	movq	72(%rax), %r13
	movq	80(%rax), %r9
	cmpq	%r13, %r9
	movq	%r13, %r14
	cmovbq	%r9, %r14
	cmovaq	%r9, %r13
	movq	40(%rsp), %rcx
	cmpq	%rcx, %r15
	movq	%rcx, %r9
	cmovbq	%r15, %r9
	cmovbeq	%rcx, %r15
	movq	24(%rsp), %rdx
	cmpq	%rdx, %rsi
	movq	%rdx, %rcx
	cmovbq	%rsi, %rcx
	movq	%rcx, 32(%rsp)
	cmovbeq	%rdx, %rsi
	cmpq	%r11, %r14
	movq	%rbx, 40(%rsp)
	movq	%r11, %rbx
	cmovbq	%r14, %rbx
	cmovbeq	%r11, %r14
	movq	56(%rsp), %rcx
	cmpq	%r12, %rcx
	movq	%r12, %r11
	cmovbq	%rcx, %r11
	cmovbeq	%r12, %rcx
	movq	%rcx, 56(%rsp)
	movq	8(%rsp), %r12
	cmpq	%r8, %r12
	movq	%r8, %rcx
	cmovbq	%r12, %rcx
	cmovaq	%r12, %r8
	cmpq	%rbp, %r10
	movq	%rbp, %rdx
	cmovbq	%r10, %rdx
	movq	%rdx, 8(%rsp)
	cmovaq	%r10, %rbp
	movq	%rbp, 24(%rsp)
	movq	16(%rsp), %rdx
	cmpq	%r13, %rdx
	movq	%r13, %r12
	cmovbq	%rdx, %r12
	cmovaq	%rdx, %r13
	movq	48(%rsp), %r10
	cmpq	%rdi, %r10
	movq	%rdi, %rdx
	cmovbq	%r10, %rdx
	cmovaq	%r10, %rdi
	movq	32(%rsp), %r10
	cmpq	%r9, %r10
	movq	%r9, %rbp
	cmovbq	%r10, %rbp
	movq	%rbp, 16(%rsp)
	cmovbeq	%r9, %r10
	movq	%r10, 32(%rsp)
	cmpq	%rbx, %r11
	movq	%rbx, %rbp
	cmovbq	%r11, %rbp
	cmovbeq	%rbx, %r11
	movq	56(%rsp), %rbx
	cmpq	%rbx, %r15
	movq	%rbx, %r9
	cmovbq	%r15, %r9
	movq	%r9, 48(%rsp)
	cmovaq	%r15, %rbx
	movq	8(%rsp), %r9
	cmpq	%rcx, %r9
	movq	%rcx, %r15
	cmovbq	%r9, %r15
	cmovbeq	%rcx, %r9
	movq	%r9, 8(%rsp)
	cmpq	%rsi, %r14
	movq	%rsi, %r10
	cmovbq	%r14, %r10
	cmovbeq	%rsi, %r14
	cmpq	%r12, %rdx
	movq	%r12, %r9
	cmovbq	%rdx, %r9
	cmovbeq	%r12, %rdx
	cmpq	%rdi, %r8
	movq	%rdi, %rcx
	cmovbq	%r8, %rcx
	movq	%rcx, 64(%rsp)
	cmovaq	%r8, %rdi
	movq	24(%rsp), %rsi
	cmpq	%rsi, %r13
	movq	%rsi, %r8
	cmovbq	%r13, %r8
	cmovbeq	%rsi, %r13
	movq	16(%rsp), %r12
	cmpq	%r12, %rbp
	movq	%r12, %rsi
	cmovbq	%rbp, %rsi
	movq	%rsi, 56(%rsp)
	cmovbeq	%r12, %rbp
	movq	32(%rsp), %rsi
	cmpq	%rsi, %r11
	movq	%rsi, %r12
	cmovbq	%r11, %r12
	cmovbeq	%rsi, %r11
	movq	48(%rsp), %rcx
	cmpq	%rcx, %r9
	movq	%rcx, %rsi
	cmovbq	%r9, %rsi
	movq	%rsi, 24(%rsp)
	cmovbeq	%rcx, %r9
	cmpq	%rbx, %rdx
	movq	%rbx, %rcx
	cmovbq	%rdx, %rcx
	movq	%rcx, 16(%rsp)
	cmovbeq	%rbx, %rdx
	cmpq	%r15, %r10
	movq	%r15, %rsi
	cmovbq	%r10, %rsi
	cmovbeq	%r15, %r10
	movq	8(%rsp), %rbx
	cmpq	%rbx, %r14
	movq	%rbx, %r15
	cmovbq	%r14, %r15
	cmovbeq	%rbx, %r14
	movq	64(%rsp), %rcx
	cmpq	%rcx, %r8
	movq	%rcx, %rbx
	cmovbq	%r8, %rbx
	cmovbeq	%rcx, %r8
	movq	%r13, %rcx
	cmpq	%rdi, %r13
	movq	%rdi, %r13
	cmovbq	%rcx, %r13
	cmovbeq	%rdi, %rcx
	movq	%rcx, 8(%rsp)
	cmpq	%r12, %rbp
	movq	%r12, %rdi
	cmovbq	%rbp, %rdi
	cmovaq	%rbp, %r12
	cmpq	%r11, %rbx
	movq	%r11, %rcx
	cmovbq	%rbx, %rcx
	movq	%rcx, 48(%rsp)
	cmovbeq	%r11, %rbx
	movq	%rbx, 32(%rsp)
	movq	24(%rsp), %r11
	cmpq	%r11, %rsi
	movq	%r11, %rcx
	cmovbq	%rsi, %rcx
	cmovbeq	%r11, %rsi
	movq	16(%rsp), %r11
	cmpq	%r11, %r10
	movq	%r11, %rbx
	cmovbq	%r10, %rbx
	cmovbeq	%r11, %r10
	cmpq	%r15, %r9
	movq	%r15, %r11
	cmovbq	%r9, %r11
	cmovaq	%r9, %r15
	cmpq	%r14, %rdx
	movq	%r14, %rbp
	cmovbq	%rdx, %rbp
	cmovaq	%rdx, %r14
	cmpq	%r13, %r8
	movq	%r13, %r9
	cmovbq	%r8, %r9
	cmovaq	%r8, %r13
	movq	%r13, %rdx
	cmpq	%rdi, %rcx
	movq	%rdi, %r8
	cmovbq	%rcx, %r8
	movq	%r8, 24(%rsp)
	cmovbeq	%rdi, %rcx
	cmpq	%r12, %rsi
	movq	%r12, %r13
	cmovbq	%rsi, %r13
	cmovbeq	%r12, %rsi
	cmpq	%rbx, %r11
	movq	%rbx, %r12
	cmovbq	%r11, %r12
	cmovbeq	%rbx, %r11
	cmpq	%r10, %r15
	movq	%r10, %rdi
	cmovbq	%r15, %rdi
	movq	%rdi, 16(%rsp)
	cmovbeq	%r10, %r15
	cmpq	%rbp, %r9
	movq	%rbp, %rdi
	cmovbq	%r9, %rdi
	cmovbeq	%rbp, %r9
	cmpq	%r14, %rdx
	movq	%r14, %r8
	cmovbq	%rdx, %r8
	cmovbeq	%r14, %rdx
	movq	%rdx, %r14
	cmpq	%r13, %rcx
	movq	%r13, %rdx
	cmovbq	%rcx, %rdx
	movq	%rdx, 64(%rsp)
	cmovaq	%rcx, %r13
	movq	48(%rsp), %rcx
	cmpq	%rcx, %rsi
	movq	%rcx, %rbp
	cmovbq	%rsi, %rbp
	cmovbeq	%rcx, %rsi
	movq	32(%rsp), %rcx
	cmpq	%rdi, %rcx
	movq	%rdi, %r10
	cmovbq	%rcx, %r10
	cmovaq	%rcx, %rdi
	cmpq	%r8, %r9
	movq	%r8, %rdx
	cmovbq	%r9, %rdx
	movq	56(%rsp), %rcx
	movq	%rcx, (%rax)
	cmovaq	%r9, %r8
	cmpq	%rbp, %r12
	movq	%rbp, %rbx
	cmovbq	%r12, %rbx
	movq	8(%rsp), %rcx
	movq	%rcx, 120(%rax)
	cmovaq	%r12, %rbp
	cmpq	%rsi, %r11
	movq	%rsi, %r9
	cmovbq	%r11, %r9
	movq	24(%rsp), %rcx
	movq	%rcx, 8(%rax)
	cmovaq	%r11, %rsi
	movq	16(%rsp), %r11
	cmpq	%r11, %r10
	movq	%r11, %rcx
	cmovbq	%r10, %rcx
	movq	%r14, 112(%rax)
	cmovbeq	%r11, %r10
	cmpq	%r15, %rdi
	movq	%r15, %r11
	cmovbq	%rdi, %r11
	movq	64(%rsp), %r12
	movq	%r12, 16(%rax)
	cmovbeq	%r15, %rdi
	cmpq	%rbx, %r13
	movq	%rbx, %r15
	cmovbq	%r13, %r15
	movq	%r8, 104(%rax)
	cmovaq	%r13, %rbx
	cmpq	%rbp, %r9
	movq	%rbp, %r14
	cmovbq	%r9, %r14
	movq	%r15, 24(%rax)
	cmovbeq	%rbp, %r9
	cmpq	%rcx, %rsi
	movq	%rcx, %r8
	cmovbq	%rsi, %r8
	movq	%rbx, 32(%rax)
	movq	40(%rsp), %rbx
	cmovaq	%rsi, %rcx
	cmpq	%r10, %r11
	movq	%r10, %rsi
	cmovbq	%r11, %rsi
	movq	%r14, 40(%rax)
	cmovbeq	%r10, %r11
	cmpq	%rdx, %rdi
	movq	%rdx, %r10
	cmovbq	%rdi, %r10
	movq	%r11, 80(%rax)
	cmovbeq	%rdx, %rdi
	cmpq	%r9, %r8
	movq	%r9, %rdx
	cmovbq	%r8, %rdx
	movq	%r10, 88(%rax)
	cmovbeq	%r9, %r8
	cmpq	%rcx, %rsi
	movq	%rcx, %r9
	cmovbq	%rsi, %r9
	movq	%rdi, 96(%rax)
	cmovbeq	%rcx, %rsi
	movq	%rdx, 48(%rax)
	movq	%r8, 56(%rax)
	movq	%r9, 64(%rax)
	movq	%rsi, 72(%rax)
	jmp	43f
25:
	leaq	(%r14,%r15,8), %rax
	movq	%r12, %rcx
	shrq	%rcx
	movq	%rcx, %rdx
	jmp	27f
	.p2align	4
26:
	testq	%rdx, %rdx
	je	34f
27:
	decq	%rdx
	movq	%rdx, %rsi
	jmp	30f
	.p2align	4
28:
	movq	%r9, (%rax,%rdi,8)
	movq	%r8, (%rax,%rsi,8)
29:
	cmpq	%rcx, %rsi
	jae	26b
30:
	movq	%rsi, %rdi
	leaq	1(,%rsi,2), %rsi
	leaq	2(,%rdi,2), %r8
	cmpq	%r12, %r8
	je	32f
	leaq	(%rdi,%rdi), %r9
	movq	(%rax,%rsi,8), %r10
	cmpq	16(%rax,%r9,8), %r10
	jb	31f
	movq	%rsi, %r8
31:
	movq	%r8, %rsi
32:
	movq	(%rax,%rdi,8), %r8
	movq	(%rax,%rsi,8), %r9
	cmpq	%r9, %r8
	jae	26b
	cmpq	%rsi, %rdi
	jb	28b
	jbe	29b
	movq	%r8, (%rax,%rsi,8)
	movq	%r9, (%rax,%rdi,8)
	jmp	29b
	.p2align	4
33:
	cmpq	$1, %r12
	jbe	50f
34:
	movq	(%rax), %rcx
	movq	-8(%rax,%r12,8), %rdx
	movq	%rdx, (%rax)
	movq	%rcx, -8(%rax,%r12,8)
	decq	%r12
	movq	%r12, %rcx
	shrq	%rcx
	je	33b
	xorl	%edx, %edx
	jmp	37f
	.p2align	4
35:
	movq	%r8, (%rax,%rsi,8)
	movq	%rdi, (%rax,%rdx,8)
36:
	cmpq	%rcx, %rdx
	jae	33b
37:
	movq	%rdx, %rsi
	leaq	1(,%rdx,2), %rdx
	leaq	2(,%rsi,2), %rdi
	cmpq	%r12, %rdi
	je	39f
	leaq	(%rsi,%rsi), %r8
	movq	(%rax,%rdx,8), %r9
	cmpq	16(%rax,%r8,8), %r9
	jb	38f
	movq	%rdx, %rdi
38:
	movq	%rdi, %rdx
39:
	movq	(%rax,%rsi,8), %rdi
	movq	(%rax,%rdx,8), %r8
	cmpq	%r8, %rdi
	jae	33b
	cmpq	%rdx, %rsi
	jb	35b
	jbe	36b
	movq	%rdi, (%rax,%rdx,8)
	movq	%r8, (%rax,%rsi,8)
	jmp	36b
40:
	cmpq	$12, %rbx
	jb	41f
	movq	64(%rax), %rcx
	movq	(%rax), %r12
	movq	8(%rax), %rbp
	cmpq	%r12, %rcx
	movq	%r12, %r9
	cmovbq	%rcx, %r9
	cmovaq	%rcx, %r12
	movq	56(%rax), %rcx
	cmpq	%rbp, %rcx
	movq	%rbp, %rsi
	cmovbq	%rcx, %rsi
	cmovaq	%rcx, %rbp
	movq	16(%rax), %r14
	movq	48(%rax), %rcx
	cmpq	%r14, %rcx
	movq	%r14, %rdx
	cmovaq	%rcx, %r14
	cmovbq	%rcx, %rdx
	movq	24(%rax), %r10
	movq	88(%rax), %rcx
	cmpq	%r10, %rcx
	movq	%rbx, 40(%rsp)
	movq	%r10, %rbx
	cmovbq	%rcx, %rbx
	cmovaq	%rcx, %r10
	movq	32(%rax), %rcx
	movq	80(%rax), %r8
	cmpq	%rcx, %r8
	movq	%rcx, %rdi
	cmovaq	%r8, %rcx
	cmovbq	%r8, %rdi
	movq	40(%rax), %r11
	movq	72(%rax), %r8
	cmpq	%r11, %r8
	movq	%r11, %r15
	cmovbq	%r8, %r15
	cmovaq	%r8, %r11
	cmpq	%r9, %rsi
	movq	%r9, %r8
	cmovbq	%rsi, %r8
	cmovbeq	%r9, %rsi
	cmpq	%rdx, %r15
	movq	%rdx, %r13
	cmovbq	%r15, %r13
	cmovbeq	%rdx, %r15
	cmpq	%rbx, %rdi
	movq	%rbx, %rdx
	cmovbq	%rdi, %rdx
	cmovbeq	%rbx, %rdi
	cmpq	%r14, %r11
	movq	%r14, %r9
	cmovbq	%r11, %r9
	cmovbeq	%r14, %r11
	cmpq	%rbp, %r12
	movq	%rbp, %rbx
	cmovbq	%r12, %rbx
	movq	%rbx, 32(%rsp)
	cmovaq	%r12, %rbp
	cmpq	%rcx, %r10
	movq	%rcx, %r12
	cmovbq	%r10, %r12
	cmovaq	%r10, %rcx
	cmpq	%r8, %r13
	movq	%r8, %r14
	cmovbq	%r13, %r14
	cmovbeq	%r8, %r13
	cmpq	%rsi, %r9
	movq	%rsi, %r10
	cmovbq	%r9, %r10
	cmovbeq	%rsi, %r9
	cmpq	%r15, %r12
	movq	%r15, %r8
	cmovbq	%r12, %r8
	cmovbeq	%r15, %r12
	cmpq	%r11, %rcx
	movq	%r11, %rsi
	cmovbq	%rcx, %rsi
	cmovbeq	%r11, %rcx
	cmpq	%r14, %rdx
	movq	%r14, %r11
	cmovbq	%rdx, %r11
	movq	%r11, 8(%rsp)
	cmovaq	%rdx, %r14
	cmpq	%r10, %r13
	movq	%r10, %rbx
	cmovbq	%r13, %rbx
	cmovaq	%r13, %r10
	cmpq	%rdi, %r9
	movq	%rdi, %r11
	cmovbq	%r9, %r11
	cmovbeq	%rdi, %r9
	movq	32(%rsp), %rdx
	cmpq	%r8, %rdx
	movq	%r8, %rdi
	cmovbq	%rdx, %rdi
	cmovaq	%rdx, %r8
	cmpq	%rbp, %rcx
	movq	%rbp, %r13
	cmovbq	%rcx, %r13
	cmovbeq	%rbp, %rcx
	cmpq	%rsi, %r12
	movq	%rsi, %r15
	cmovbq	%r12, %r15
	cmovaq	%r12, %rsi
	cmpq	%rbx, %r11
	movq	%rbx, %rdx
	cmovbq	%r11, %rdx
	cmovbeq	%rbx, %r11
	cmpq	%r14, %rdi
	movq	%r14, %rbx
	cmovbq	%rdi, %rbx
	cmovbeq	%r14, %rdi
	cmpq	%r9, %r13
	movq	%r9, %r14
	cmovbq	%r13, %r14
	cmovbeq	%r9, %r13
	cmpq	%r8, %rsi
	movq	%r8, %r12
	cmovbq	%rsi, %r12
	cmovbeq	%r8, %rsi
	cmpq	%rdx, %rbx
	movq	%rdx, %rbp
	cmovbq	%rbx, %rbp
	cmovbeq	%rdx, %rbx
	cmpq	%r10, %rdi
	movq	%r10, %r9
	cmovbq	%rdi, %r9
	cmovbeq	%r10, %rdi
	cmpq	%r14, %r15
	movq	%r14, %rdx
	cmovbq	%r15, %rdx
	cmovaq	%r15, %r14
	cmpq	%r13, %rsi
	movq	%r13, %r8
	cmovbq	%rsi, %r8
	cmovbeq	%r13, %rsi
	cmpq	%r9, %rbx
	movq	%r9, %r15
	cmovbq	%rbx, %r15
	cmovaq	%rbx, %r9
	cmpq	%r11, %rdi
	movq	%r11, %rbx
	cmovbq	%rdi, %rbx
	movq	8(%rsp), %r10
	movq	%r10, (%rax)
	cmovbeq	%r11, %rdi
	cmpq	%rdx, %r12
	movq	%rdx, %r10
	cmovbq	%r12, %r10
	movq	%rcx, 88(%rax)
	cmovaq	%r12, %rdx
	cmpq	%r8, %r14
	movq	%r8, %rcx
	cmovbq	%r14, %rcx
	movq	%rbp, 8(%rax)
	cmovaq	%r14, %r8
	cmpq	%rbx, %r10
	movq	%rbx, %r11
	cmovbq	%r10, %r11
	movq	%rsi, 80(%rax)
	cmovbeq	%rbx, %r10
	movq	40(%rsp), %rbx
	cmpq	%rdi, %rdx
	movq	%rdi, %rsi
	cmovbq	%rdx, %rsi
	movq	%r15, 16(%rax)
	cmovbeq	%rdi, %rdx
	cmpq	%r9, %r11
	movq	%r9, %rdi
	cmovbq	%r11, %rdi
	movq	%r8, 72(%rax)
	cmovbeq	%r9, %r11
	cmpq	%rsi, %r10
	movq	%rsi, %r8
	cmovbq	%r10, %r8
	movq	%rdi, 24(%rax)
	cmovaq	%r10, %rsi
	movq	%r11, 32(%rax)
	movq	%r8, 40(%rax)
	movq	%rsi, 48(%rax)
	cmpq	%rdx, %rcx
	movq	%rdx, %rsi
	cmovaq	%rcx, %rdx
	cmovbq	%rcx, %rsi
	movq	%rsi, 56(%rax)
	movq	%rdx, 64(%rax)
	jmp	43f
41:
	cmpq	$8, %rbx
	jb	42f
	movq	16(%rax), %rcx
	movq	(%rax), %r10
	movq	8(%rax), %r9
	cmpq	%r10, %rcx
	movq	%r10, %rdi
	cmovbq	%rcx, %rdi
	cmovaq	%rcx, %r10
	movq	24(%rax), %rcx
	cmpq	%r9, %rcx
	movq	%r9, %r11
	cmovbq	%rcx, %r11
	cmovaq	%rcx, %r9
	movq	32(%rax), %rsi
	movq	48(%rax), %rcx
	cmpq	%rsi, %rcx
	movq	%rsi, %r8
	cmovaq	%rcx, %rsi
	cmovbq	%rcx, %r8
	movq	40(%rax), %rdx
	movq	%rbx, %r15
	movq	56(%rax), %rbx
	cmpq	%rdx, %rbx
	movq	%rdx, %rcx
	cmovbq	%rbx, %rcx
	cmovaq	%rbx, %rdx
	cmpq	%rdi, %r8
	movq	%rdi, %rbx
	cmovbq	%r8, %rbx
	cmovbeq	%rdi, %r8
	cmpq	%r11, %rcx
	movq	%r11, %rdi
	cmovbq	%rcx, %rdi
	cmovbeq	%r11, %rcx
	cmpq	%r10, %rsi
	movq	%r10, %r14
	cmovbq	%rsi, %r14
	cmovbeq	%r10, %rsi
	cmpq	%r9, %rdx
	movq	%r9, %r11
	cmovbq	%rdx, %r11
	cmovbeq	%r9, %rdx
	cmpq	%rbx, %rdi
	movq	%rbx, %r10
	cmovbq	%rdi, %r10
	cmovbeq	%rbx, %rdi
	cmpq	%r14, %r11
	movq	%r14, %rbx
	cmovbq	%r11, %rbx
	cmovbeq	%r14, %r11
	cmpq	%r8, %rcx
	movq	%r8, %r9
	cmovbq	%rcx, %r9
	cmovbeq	%r8, %rcx
	cmpq	%rsi, %rdx
	movq	%rsi, %r8
	cmovbq	%rdx, %r8
	cmovbeq	%rsi, %rdx
	cmpq	%rbx, %r9
	movq	%rbx, %r14
	cmovbq	%r9, %r14
	cmovbeq	%rbx, %r9
	movq	%r15, %rbx
	cmpq	%r11, %rcx
	movq	%r11, %rsi
	cmovbq	%rcx, %rsi
	cmovbeq	%r11, %rcx
	cmpq	%rdi, %r9
	movq	%rdi, %r11
	cmovbq	%r9, %r11
	cmovbeq	%rdi, %r9
	cmpq	%rsi, %r8
	movq	%rsi, %rdi
	cmovbq	%r8, %rdi
	movq	%r10, (%rax)
	cmovaq	%r8, %rsi
	cmpq	%r11, %r14
	movq	%r11, %r8
	cmovbq	%r14, %r8
	movq	%rdx, 56(%rax)
	cmovaq	%r14, %r11
	cmpq	%rdi, %r9
	movq	%rdi, %rdx
	cmovbq	%r9, %rdx
	movq	%r8, 8(%rax)
	cmovaq	%r9, %rdi
	cmpq	%rcx, %rsi
	movq	%rcx, %r8
	cmovbq	%rsi, %r8
	movq	%r11, 16(%rax)
	cmovbeq	%rcx, %rsi
	movq	%rdx, 24(%rax)
	movq	%rdi, 32(%rax)
	movq	%r8, 40(%rax)
	movq	%rsi, 48(%rax)
	jmp	43f
42:
	cmpq	$2, %rbx
	jb	50f
43:
	movl	$1, %ecx
	jmp	47f
44:
	xorl	%esi, %esi
45:
	movq	%rdx, (%rax,%rsi)
46:
	incq	%rcx
	cmpq	%rbx, %rcx
	je	50f
47:
	movq	-8(%rax,%rcx,8), %rdi
	movq	(%rax,%rcx,8), %rdx
	cmpq	%rdi, %rdx
	jae	46b
	movq	%rcx, %rsi
	movq	%rdi, (%rax,%rcx,8)
	decq	%rsi
	je	44b
	.p2align	4
48:
	movq	-8(%rax,%rsi,8), %rdi
	cmpq	%rdi, %rdx
	jae	49f
	movq	%rdi, (%rax,%rsi,8)
	decq	%rsi
	jne	48b
	xorl	%esi, %esi
49:
	shlq	$3, %rsi
	jmp	45b
50:
	addq	$72, %rsp
	popq	%rbx
	popq	%r12
	popq	%r13
	popq	%r14
	popq	%r15
	popq	%rbp
	retq
51:
	.size	"core::slice::sort::unstable::quicksort::<#7ab9c65c4fe95e6e>", 51b-"core::slice::sort::unstable::quicksort::<#7ab9c65c4fe95e6e>"
