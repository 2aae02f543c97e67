# Made by dist/refresh of what is proved.

	.text
	.p2align	4
	.type	"mime_tool::build::cache_of",@function
"mime_tool::build::cache_of":
	pushq	%rbp
	pushq	%r15
	pushq	%r14
	pushq	%r13
	pushq	%r12
	pushq	%rbx
	subq	$776, %rsp
	movq	%rsi, %r15
	movq	%rdi, %rbx
	xorps	%xmm0, %xmm0
	movaps	%xmm0, 576(%rsp)
	movaps	%xmm0, 304(%rsp)
	movq	$0, 320(%rsp)
	movaps	%xmm0, 512(%rsp)
	movq	$0, 528(%rsp)
	movaps	%xmm0, 480(%rsp)
	movq	$0, 496(%rsp)
	movaps	%xmm0, 64(%rsp)
	movaps	%xmm0, 80(%rsp)
	movaps	%xmm0, 96(%rsp)
	movaps	%xmm0, 112(%rsp)
	movaps	%xmm0, 128(%rsp)
	movaps	%xmm0, 144(%rsp)
	movaps	%xmm0, 160(%rsp)
	movaps	%xmm0, 176(%rsp)
	movaps	%xmm0, 192(%rsp)
	movaps	%xmm0, 208(%rsp)
	movq	$0, 224(%rsp)
	movaps	%xmm0, 592(%rsp)
	movaps	%xmm0, 608(%rsp)
	movaps	%xmm0, 624(%rsp)
	movaps	%xmm0, 640(%rsp)
	movaps	%xmm0, 656(%rsp)
	movaps	%xmm0, 672(%rsp)
	movaps	%xmm0, 688(%rsp)
	movaps	%xmm0, 704(%rsp)
	movaps	%xmm0, 720(%rsp)
	movaps	%xmm0, 736(%rsp)
	movaps	%xmm0, 752(%rsp)
	movaps	%xmm0, 416(%rsp)
	movaps	%xmm0, 400(%rsp)
	movaps	%xmm0, 432(%rsp)
	leaq	592(%rsp), %rdi
	callq	"mime_store::parts::parts_of"
	cmpb	$0, 592(%rsp)
	jne	70f
	leaq	600(%rsp), %rsi
	leaq	64(%rsp), %rdi
	movl	$168, %edx
	callq	memcpy@PLT
	movq	88(%rsp), %rsi
	movq	96(%rsp), %rdx
	leaq	400(%rsp), %rdi
	callq	"mime_store::parents::runs"
	cmpb	$0, 400(%rsp)
	je	13f
	cmpq	$0, 80(%rsp)
	je	1f
	movq	64(%rsp), %rdi
	callq	rattle_dealloc@PLT
1:
	cmpq	$0, 104(%rsp)
	je	2f
	movq	88(%rsp), %rdi
	callq	rattle_dealloc@PLT
2:
	movq	112(%rsp), %r14
	movq	120(%rsp), %r12
	movq	128(%rsp), %r15
	testq	%r12, %r12
	je	5f
	leaq	16(%r14), %r13
	jmp	4f
	.p2align	4
3:
	addq	$32, %r13
	decq	%r12
	je	5f
4:
	cmpq	$0, (%r13)
	je	3b
	movq	-16(%r13), %rdi
	callq	rattle_dealloc@PLT
	jmp	3b
5:
	testq	%r15, %r15
	je	6f
	movq	%r14, %rdi
	callq	rattle_dealloc@PLT
6:
	movq	136(%rsp), %r14
	movq	144(%rsp), %r12
	movq	152(%rsp), %r15
	testq	%r12, %r12
	je	9f
	leaq	24(%r14), %r13
	jmp	8f
	.p2align	4
7:
	addq	$40, %r13
	decq	%r12
	je	9f
8:
	cmpq	$0, (%r13)
	je	7b
	movq	-16(%r13), %rdi
	callq	rattle_dealloc@PLT
	jmp	7b
9:
	testq	%r15, %r15
	je	10f
	movq	%r14, %rdi
	callq	rattle_dealloc@PLT
10:
	movq	160(%rsp), %r14
	movq	168(%rsp), %r12
	movq	176(%rsp), %r15
	testq	%r12, %r12
	je	67f
	leaq	16(%r14), %r13
	jmp	12f
	.p2align	4
11:
	addq	$32, %r13
	decq	%r12
	je	67f
12:
	cmpq	$0, (%r13)
	je	11b
	movq	-16(%r13), %rdi
	callq	rattle_dealloc@PLT
	jmp	11b
13:
	movq	408(%rsp), %r14
	movq	416(%rsp), %r12
	movq	424(%rsp), %rbp
	leaq	64(%rsp), %rsi
	movq	%r15, %rdi
	movq	%r14, %rdx
	movq	%r12, %rcx
	callq	"mime_store::cache::size_within"
	cmpb	$1, %al
	jne	14f
	movq	%rdx, %r13
	xorps	%xmm0, %xmm0
	movaps	%xmm0, 352(%rsp)
	movaps	%xmm0, 336(%rsp)
	movq	$0, 368(%rsp)
	testq	%rdx, %rdx
	je	33f
	testq	%r13, %r13
	js	53f
	movl	$1, %esi
	movq	%r13, %rdi
	callq	rattle_alloc@PLT
	testb	$1, %al
	jne	34f
	jmp	53f
14:
	testq	%rbp, %rbp
	je	15f
	movq	%r14, %rdi
	callq	rattle_dealloc@PLT
15:
	cmpq	$0, 80(%rsp)
	je	16f
	movq	64(%rsp), %rdi
	callq	rattle_dealloc@PLT
16:
	cmpq	$0, 104(%rsp)
	je	17f
	movq	88(%rsp), %rdi
	callq	rattle_dealloc@PLT
17:
	movq	112(%rsp), %r14
	movq	120(%rsp), %r12
	movq	128(%rsp), %r15
	testq	%r12, %r12
	je	20f
	leaq	16(%r14), %r13
	jmp	19f
	.p2align	4
18:
	addq	$32, %r13
	decq	%r12
	je	20f
19:
	cmpq	$0, (%r13)
	je	18b
	movq	-16(%r13), %rdi
	callq	rattle_dealloc@PLT
	jmp	18b
20:
	testq	%r15, %r15
	je	21f
	movq	%r14, %rdi
	callq	rattle_dealloc@PLT
21:
	movq	136(%rsp), %r14
	movq	144(%rsp), %r12
	movq	152(%rsp), %r15
	testq	%r12, %r12
	je	24f
	leaq	24(%r14), %r13
	jmp	23f
	.p2align	4
22:
	addq	$40, %r13
	decq	%r12
	je	24f
23:
	cmpq	$0, (%r13)
	je	22b
	movq	-16(%r13), %rdi
	callq	rattle_dealloc@PLT
	jmp	22b
24:
	testq	%r15, %r15
	je	25f
	movq	%r14, %rdi
	callq	rattle_dealloc@PLT
25:
	movq	160(%rsp), %r14
	movq	168(%rsp), %r12
	movq	176(%rsp), %r15
	testq	%r12, %r12
	je	28f
	leaq	16(%r14), %r13
	jmp	27f
	.p2align	4
26:
	addq	$32, %r13
	decq	%r12
	je	28f
27:
	cmpq	$0, (%r13)
	je	26b
	movq	-16(%r13), %rdi
	callq	rattle_dealloc@PLT
	jmp	26b
28:
	testq	%r15, %r15
	je	29f
	movq	%r14, %rdi
	callq	rattle_dealloc@PLT
29:
	cmpq	$0, 200(%rsp)
	je	30f
	movq	184(%rsp), %rdi
	callq	rattle_dealloc@PLT
30:
	cmpq	$0, 224(%rsp)
	je	31f
	movq	208(%rsp), %rdi
	callq	rattle_dealloc@PLT
31:
	xorps	%xmm0, %xmm0
	movaps	%xmm0, 592(%rsp)
	movaps	%xmm0, 608(%rsp)
	movaps	%xmm0, 64(%rsp)
	movq	$0, 80(%rsp)
	leaq	.L20b52a83b3e7(%rip), %rsi
	leaq	592(%rsp), %rdi
	movl	$29, %edx
	callq	"std_alloc::string::String::format::<#cba637970f1a6228>"
	movl	$2, %r15d
	cmpb	$0, 592(%rsp)
	jne	32f
	movq	616(%rsp), %rax
	movq	%rax, 80(%rsp)
	movups	600(%rsp), %xmm0
	movaps	%xmm0, 64(%rsp)
	xorl	%r15d, %r15d
32:
	movq	80(%rsp), %rax
	movq	%rax, 528(%rsp)
	movaps	64(%rsp), %xmm0
	movaps	%xmm0, 512(%rsp)
	movaps	%xmm0, 304(%rsp)
	movq	%rax, 320(%rsp)
	jmp	71f
33:
	leaq	55(%rsp), %rdx
34:
	movq	%rdx, 8(%rsp)
	movq	$0, 16(%rsp)
	movq	%r13, 24(%rsp)
	movl	$40, %r13d
	xorl	%eax, %eax
	jmp	36f
	.p2align	4
35:
	movb	$0, (%rdx,%rax)
	incq	%rax
	movq	%rax, 16(%rsp)
	decq	%r13
	je	37f
36:
	cmpq	%rax, 24(%rsp)
	jne	35b
	leaq	8(%rsp), %rdi
	movl	$1, %esi
	callq	"std_alloc::vec::Vec::grow_amortized::<#06f9579a8fe94b13>"
	testb	%al, %al
	je	51f
	movq	8(%rsp), %rdx
	movq	16(%rsp), %rax
	jmp	35b
37:
	movq	64(%rsp), %rsi
	movq	72(%rsp), %rdx
	leaq	8(%rsp), %rdi
	callq	"mime_store::list::write_list::<#a1c591a832a2edc1>"
	xorl	%ecx, %ecx
	testb	$1, %al
	cmovel	%edx, %ecx
	testb	%al, %al
	jne	51f
	movl	%ecx, 232(%rsp)
	movq	%rbp, 32(%rsp)
	leaq	(%r12,%r12), %rbp
	testq	%r12, %r12
	movq	$-1, %rdi
	cmovnsq	%rbp, %rdi
	xorl	%edx, %edx
	movl	$0, %eax
	movl	$0, %r13d
	cmpq	$5, %rdi
	jb	38f
	movq	%rdi, %rax
	shrq	$61, %rax
	jne	50f
	shlq	$2, %rdi
	movl	$4, %esi
	callq	rattle_alloc@PLT
	testb	$1, %al
	je	50f
	movl	$1, %r13d
	movq	%rbp, %rax
38:
	movq	%r13, 272(%rsp)
	movq	%rdx, 280(%rsp)
	movq	$0, 288(%rsp)
	movq	%rax, 296(%rsp)
	testq	%r12, %r12
	je	46f
	xorl	%r13d, %r13d
39:
	movq	%r13, %rbp
	shlq	$5, %rbp
	movq	(%r14,%rbp), %rsi
	movq	8(%r14,%rbp), %rdx
	leaq	8(%rsp), %rdi
	callq	"mime_store::bytes::append_text"
	testb	%al, %al
	jne	49f
	movl	%edx, 44(%rsp)
	movb	%al, 48(%rsp)
	movq	%r13, 384(%rsp)
	movq	16(%r14,%rbp), %r13
	movq	24(%r14,%rbp), %rbp
	cmpq	$5, %rbp
	movq	%rbp, 56(%rsp)
	jb	40f
	movq	%rbp, %rax
	shrq	$61, %rax
	jne	49f
	leaq	(,%rbp,4), %rdi
	movl	$4, %esi
	callq	rattle_alloc@PLT
	testb	$1, %al
	je	49f
	movq	$1, 240(%rsp)
	movq	%rdx, 248(%rsp)
	movq	$0, 256(%rsp)
	movq	%rbp, 264(%rsp)
	jmp	41f
40:
	xorps	%xmm0, %xmm0
	movaps	%xmm0, 256(%rsp)
	movaps	%xmm0, 240(%rsp)
	testq	%rbp, %rbp
	je	43f
41:
	addq	$24, %r13
42:
	movq	-8(%r13), %rsi
	movq	(%r13), %rdx
	leaq	8(%rsp), %rdi
	callq	"mime_store::bytes::append_text"
	testb	%al, %al
	jne	47f
	movl	%edx, 236(%rsp)
	leaq	240(%rsp), %rdi
	leaq	236(%rsp), %rsi
	movl	$1, %edx
	callq	"smallvec::small_vec::SmallVec::extend_from_slice::<#8f588e0f66f62309>"
	testb	%al, %al
	jne	47f
	addq	$32, %r13
	decq	%rbp
	jne	42b
	movzbl	240(%rsp), %eax
	jmp	44f
43:
	xorl	%eax, %eax
44:
	leaq	248(%rsp), %rdx
	movq	16(%rdx), %rcx
	leaq	552(%rsp), %rsi
	movq	%rcx, 16(%rsi)
	movups	(%rdx), %xmm0
	movups	%xmm0, (%rsi)
	movzbl	%al, %ebp
	movq	%rbp, 544(%rsp)
	testb	%bpl, %bpl
	movq	552(%rsp), %rdx
	movq	%rdx, 328(%rsp)
	cmoveq	%rsi, %rdx
	movq	568(%rsp), %rax
	movq	%rax, 376(%rsp)
	movq	560(%rsp), %rcx
	cmoveq	%rax, %rcx
	leaq	8(%rsp), %rdi
	movq	56(%rsp), %rsi
	callq	"mime_store::bytes::append_list"
	movl	%edx, %r13d
	cmpb	$1, %bpl
	setne	%dl
	cmpq	$0, 376(%rsp)
	sete	%cl
	orb	%dl, %cl
	testb	%al, %al
	jne	78f
	testb	%cl, %cl
	jne	45f
	movq	328(%rsp), %rdi
	callq	rattle_dealloc@PLT
45:
	movl	44(%rsp), %eax
	xorl	%ecx, %ecx
	testb	$1, 48(%rsp)
	cmoveq	%rax, %rcx
	shlq	$32, %r13
	orq	%rcx, %r13
	movq	%r13, 392(%rsp)
	leaq	272(%rsp), %rdi
	leaq	392(%rsp), %rsi
	movl	$2, %edx
	callq	"smallvec::small_vec::SmallVec::extend_from_slice::<#8f588e0f66f62309>"
	testb	%al, %al
	jne	49f
	movq	384(%rsp), %r13
	incq	%r13
	cmpq	%r12, %r13
	jne	39b
	movzbl	272(%rsp), %r13d
46:
	leaq	280(%rsp), %rax
	movups	(%rax), %xmm0
	movups	%xmm0, 456(%rsp)
	movq	16(%rax), %rbp
	movq	%rbp, 472(%rsp)
	movzbl	%r13b, %eax
	movq	%rax, 448(%rsp)
	movq	456(%rsp), %rdx
	testb	%al, %al
	movq	%rdx, 56(%rsp)
	je	73f
	movq	464(%rsp), %rcx
	jmp	74f
47:
	cmpb	$1, 240(%rsp)
	jne	49f
	cmpq	$0, 264(%rsp)
	je	49f
	movq	248(%rsp), %rdi
48:
	callq	rattle_dealloc@PLT
49:
	cmpb	$1, 272(%rsp)
	jne	50f
	cmpq	$0, 296(%rsp)
	je	50f
	movq	280(%rsp), %rdi
	callq	rattle_dealloc@PLT
50:
	movq	32(%rsp), %rbp
51:
	cmpq	$0, 24(%rsp)
	je	53f
52:
	movq	8(%rsp), %rdi
	callq	rattle_dealloc@PLT
53:
	testq	%rbp, %rbp
	je	54f
	movq	%r14, %rdi
	callq	rattle_dealloc@PLT
54:
	cmpq	$0, 80(%rsp)
	je	55f
	movq	64(%rsp), %rdi
	callq	rattle_dealloc@PLT
55:
	cmpq	$0, 104(%rsp)
	je	56f
	movq	88(%rsp), %rdi
	callq	rattle_dealloc@PLT
56:
	movq	112(%rsp), %r14
	movq	120(%rsp), %r12
	movq	128(%rsp), %r15
	testq	%r12, %r12
	je	59f
	leaq	16(%r14), %r13
	jmp	58f
	.p2align	4
57:
	addq	$32, %r13
	decq	%r12
	je	59f
58:
	cmpq	$0, (%r13)
	je	57b
	movq	-16(%r13), %rdi
	callq	rattle_dealloc@PLT
	jmp	57b
59:
	testq	%r15, %r15
	je	60f
	movq	%r14, %rdi
	callq	rattle_dealloc@PLT
60:
	movq	136(%rsp), %r14
	movq	144(%rsp), %r12
	movq	152(%rsp), %r15
	testq	%r12, %r12
	je	63f
	leaq	24(%r14), %r13
	jmp	62f
	.p2align	4
61:
	addq	$40, %r13
	decq	%r12
	je	63f
62:
	cmpq	$0, (%r13)
	je	61b
	movq	-16(%r13), %rdi
	callq	rattle_dealloc@PLT
	jmp	61b
63:
	testq	%r15, %r15
	je	64f
	movq	%r14, %rdi
	callq	rattle_dealloc@PLT
64:
	movq	160(%rsp), %r14
	movq	168(%rsp), %r12
	movq	176(%rsp), %r15
	testq	%r12, %r12
	je	67f
	leaq	16(%r14), %r13
	jmp	66f
	.p2align	4
65:
	addq	$32, %r13
	decq	%r12
	je	67f
66:
	cmpq	$0, (%r13)
	je	65b
	movq	-16(%r13), %rdi
	callq	rattle_dealloc@PLT
	jmp	65b
67:
	testq	%r15, %r15
	je	68f
	movq	%r14, %rdi
	callq	rattle_dealloc@PLT
68:
	cmpq	$0, 200(%rsp)
	je	69f
	movq	184(%rsp), %rdi
	callq	rattle_dealloc@PLT
69:
	cmpq	$0, 224(%rsp)
	je	70f
	movq	208(%rsp), %rdi
	callq	rattle_dealloc@PLT
70:
	movaps	480(%rsp), %xmm0
	movaps	%xmm0, 304(%rsp)
	movq	496(%rsp), %rax
	movq	%rax, 320(%rsp)
	movl	$2, %r15d
71:
	movl	$1, %eax
72:
	movq	%rax, (%rbx)
	movq	%r15, 8(%rbx)
	movaps	304(%rsp), %xmm0
	movups	%xmm0, 16(%rbx)
	movq	320(%rsp), %rax
	movq	%rax, 32(%rbx)
	addq	$776, %rsp
	popq	%rbx
	popq	%r12
	popq	%r13
	popq	%r14
	popq	%r15
	popq	%rbp
	retq
73:
	leaq	456(%rsp), %rdx
	movq	%rbp, %rcx
74:
	leaq	8(%rsp), %rdi
	movl	%r12d, %esi
	callq	"mime_store::bytes::append_list"
	cmpb	$1, %r13b
	setne	%sil
	testq	%rbp, %rbp
	sete	%cl
	orb	%sil, %cl
	testb	%al, %al
	je	75f
	testb	%cl, %cl
	movq	32(%rsp), %rbp
	jne	51b
	movq	56(%rsp), %rdi
	callq	rattle_dealloc@PLT
	jmp	51b
75:
	movl	%edx, %r12d
	testb	%cl, %cl
	movq	32(%rsp), %rbp
	jne	76f
	movq	56(%rsp), %rdi
	callq	rattle_dealloc@PLT
76:
	movq	112(%rsp), %rsi
	movq	120(%rsp), %rdx
	leaq	8(%rsp), %rdi
	callq	"mime_store::list::write_list::<#aefa0a0a70fe95cb>"
	testb	%al, %al
	jne	51b
	movl	%edx, %r13d
	movq	136(%rsp), %rsi
	movq	144(%rsp), %rdx
	leaq	8(%rsp), %rdi
	callq	"mime_store::suffix_tree::write_tree"
	testb	%al, %al
	jne	51b
	movl	%edx, 56(%rsp)
	movq	160(%rsp), %rsi
	movq	168(%rsp), %rdx
	leaq	8(%rsp), %rdi
	callq	"mime_store::list::write_list::<#aefa0a0a70fe95cb>"
	movl	%edx, 48(%rsp)
	testb	%al, %al
	jne	51b
	movq	72(%r15), %rsi
	movq	80(%r15), %rdx
	leaq	8(%rsp), %rdi
	callq	"mime_store::magic::write_magic"
	testb	%al, %al
	jne	77f
	movl	%edx, %r15d
	leaq	.L22d5119de29e(%rip), %rdx
	leaq	8(%rsp), %rdi
	xorl	%esi, %esi
	xorl	%ecx, %ecx
	callq	"mime_store::bytes::append_list"
	testb	%al, %al
	jne	77f
	movl	%edx, %ebp
	movq	184(%rsp), %rsi
	movq	192(%rsp), %rdx
	leaq	8(%rsp), %rdi
	callq	"mime_store::list::write_list::<#a1c591a832a2edc1>"
	movl	%edx, 44(%rsp)
	testb	%al, %al
	jne	77f
	movq	208(%rsp), %rsi
	movq	216(%rsp), %rdx
	leaq	8(%rsp), %rdi
	callq	"mime_store::list::write_list::<#a1c591a832a2edc1>"
	testb	%al, %al
	je	79f
77:
	cmpq	$0, 24(%rsp)
	movq	32(%rsp), %rbp
	jne	52b
	jmp	53b
78:
	testb	%cl, %cl
	jne	49b
	movq	328(%rsp), %rdi
	jmp	48b
79:
	movl	$65538, 336(%rsp)
	movl	232(%rsp), %eax
	movl	%eax, 340(%rsp)
	movl	%r12d, 344(%rsp)
	movl	%r13d, 348(%rsp)
	movl	56(%rsp), %eax
	movl	%eax, 352(%rsp)
	movl	48(%rsp), %eax
	movl	%eax, 356(%rsp)
	movl	%r15d, 360(%rsp)
	movl	%ebp, 364(%rsp)
	movl	44(%rsp), %eax
	movl	%eax, 368(%rsp)
	movl	%edx, 372(%rsp)
	movq	8(%rsp), %r15
	leaq	336(%rsp), %rsi
	movq	%r15, %rdi
	callq	"mime_store::bytes::patch"
	leaq	16(%rsp), %rax
	movups	(%rax), %xmm0
	movaps	%xmm0, 432(%rsp)
	cmpq	$0, 32(%rsp)
	je	80f
	movq	%r14, %rdi
	callq	rattle_dealloc@PLT
80:
	cmpq	$0, 80(%rsp)
	je	81f
	movq	64(%rsp), %rdi
	callq	rattle_dealloc@PLT
81:
	cmpq	$0, 104(%rsp)
	je	82f
	movq	88(%rsp), %rdi
	callq	rattle_dealloc@PLT
82:
	movq	112(%rsp), %r14
	movq	120(%rsp), %r13
	movq	128(%rsp), %r12
	testq	%r13, %r13
	je	85f
	leaq	16(%r14), %rbp
	jmp	84f
83:
	addq	$32, %rbp
	decq	%r13
	je	85f
84:
	cmpq	$0, (%rbp)
	je	83b
	movq	-16(%rbp), %rdi
	callq	rattle_dealloc@PLT
	jmp	83b
85:
	testq	%r12, %r12
	je	86f
	movq	%r14, %rdi
	callq	rattle_dealloc@PLT
86:
	movq	136(%rsp), %r14
	movq	144(%rsp), %r13
	movq	152(%rsp), %r12
	testq	%r13, %r13
	je	89f
	leaq	24(%r14), %rbp
	jmp	88f
87:
	addq	$40, %rbp
	decq	%r13
	je	89f
88:
	cmpq	$0, (%rbp)
	je	87b
	movq	-16(%rbp), %rdi
	callq	rattle_dealloc@PLT
	jmp	87b
89:
	testq	%r12, %r12
	je	90f
	movq	%r14, %rdi
	callq	rattle_dealloc@PLT
90:
	movq	160(%rsp), %r14
	movq	168(%rsp), %r13
	movq	176(%rsp), %r12
	testq	%r13, %r13
	je	93f
	leaq	16(%r14), %rbp
	jmp	92f
91:
	addq	$32, %rbp
	decq	%r13
	je	93f
92:
	cmpq	$0, (%rbp)
	je	91b
	movq	-16(%rbp), %rdi
	callq	rattle_dealloc@PLT
	jmp	91b
93:
	testq	%r12, %r12
	je	94f
	movq	%r14, %rdi
	callq	rattle_dealloc@PLT
94:
	cmpq	$0, 200(%rsp)
	je	95f
	movq	184(%rsp), %rdi
	callq	rattle_dealloc@PLT
95:
	cmpq	$0, 224(%rsp)
	je	96f
	movq	208(%rsp), %rdi
	callq	rattle_dealloc@PLT
96:
	movaps	432(%rsp), %xmm0
	movaps	%xmm0, 576(%rsp)
	movaps	%xmm0, 304(%rsp)
	xorl	%eax, %eax
	jmp	72b
97:
	.size	"mime_tool::build::cache_of", 97b-"mime_tool::build::cache_of"

	.text
	.p2align	4
	.type	"mime_tool::build::written",@function
"mime_tool::build::written":
	pushq	%rbp
	pushq	%r15
	pushq	%r14
	pushq	%r13
	pushq	%r12
	pushq	%rbx
	subq	$1096, %rsp
	movq	%rdi, 528(%rsp)
	movq	(%rsi), %r13
	movdqu	8(%rsi), %xmm5
	movq	24(%rsi), %rax
	movq	%rax, 104(%rsp)
	movups	32(%rsi), %xmm0
	movaps	%xmm0, 208(%rsp)
	movq	48(%rsi), %rax
	movq	%rax, 112(%rsp)
	movups	56(%rsi), %xmm0
	movaps	%xmm0, 224(%rsp)
	movq	72(%rsi), %r14
	movups	80(%rsi), %xmm0
	movaps	%xmm0, 240(%rsp)
	movq	96(%rsi), %rax
	movq	%rax, 120(%rsp)
	movups	104(%rsi), %xmm0
	movaps	%xmm0, 256(%rsp)
	movq	120(%rsi), %rax
	movq	%rax, 128(%rsp)
	movdqu	128(%rsi), %xmm0
	movdqa	%xmm0, 272(%rsp)
	testl	%edx, %edx
	je	58f
	pxor	%xmm0, %xmm0
	movdqa	%xmm0, 752(%rsp)
	movdqa	%xmm0, 768(%rsp)
	movdqa	%xmm0, 784(%rsp)
	movdqa	%xmm0, 800(%rsp)
	movdqa	%xmm0, 816(%rsp)
	movdqa	%xmm0, 832(%rsp)
	movdqa	%xmm0, 848(%rsp)
	movdqa	%xmm0, 864(%rsp)
	movdqa	%xmm0, 880(%rsp)
	movq	$0, 896(%rsp)
	movdqa	%xmm0, 720(%rsp)
	movdqu	%xmm0, 735(%rsp)
	movdqa	%xmm0, 912(%rsp)
	movdqa	%xmm0, 928(%rsp)
	movdqa	%xmm0, 944(%rsp)
	movdqa	%xmm0, 960(%rsp)
	movdqa	%xmm0, 976(%rsp)
	movdqa	%xmm0, 992(%rsp)
	movdqa	%xmm0, 1008(%rsp)
	movdqa	%xmm0, 1024(%rsp)
	movdqa	%xmm0, 1040(%rsp)
	movdqa	%xmm0, 592(%rsp)
	movq	$0, 608(%rsp)
	movdqa	%xmm0, 416(%rsp)
	movdqu	%xmm0, 431(%rsp)
	movdqa	%xmm0, 80(%rsp)
	movq	$0, 96(%rsp)
	movq	$0, 24(%rsp)
	movq	%xmm5, %r12
	testq	%r12, %r12
	je	78f
	xorl	%ebx, %ebx
	movq	$0, 312(%rsp)
	xorl	%r15d, %r15d
	movq	%r14, 176(%rsp)
	movdqa	%xmm5, 64(%rsp)
	movq	%r13, 160(%rsp)
	movq	%r12, 40(%rsp)
	jmp	4f
	.p2align	4
1:
	andl	$15, %r12d
	addq	168(%rsp), %rbx
	cmpq	$15, %rbx
	movq	(%rsp), %rax
	movq	16(%rsp), %rcx
	leaq	608(%rax,%rcx,8), %rax
	leaq	24(%rsp), %rcx
	cmovneq	%rax, %rcx
	movq	(%rcx), %rax
	movzwl	(%rax), %eax
	cmpl	%eax, %r12d
	movq	40(%rsp), %r12
	jae	129f
2:
	movb	$1, %r15b
	movq	176(%rsp), %r14
	movq	160(%rsp), %r13
	movq	536(%rsp), %rbx
3:
	incq	%rbx
	cmpq	%r12, %rbx
	je	59f
4:
	imulq	$104, %rbx, %rax
	cmpb	$1, 96(%r13,%rax)
	jne	3b
	addq	%r13, %rax
	cmpb	$0, 8(%rax)
	je	6f
	movq	16(%rax), %r13
	leaq	24(%rax), %rcx
	cmpb	$0, 56(%rax)
	je	7f
5:
	movq	64(%rax), %rdx
	movq	%rdx, 192(%rsp)
	leaq	72(%rax), %rdx
	jmp	8f
6:
	leaq	16(%rax), %r13
	leaq	48(%rax), %rcx
	cmpb	$0, 56(%rax)
	jne	5b
7:
	leaq	64(%rax), %rdx
	movq	%rdx, 192(%rsp)
	leaq	80(%rax), %rdx
8:
	movzbl	(%rax), %r11d
	movq	(%rcx), %r10
	movq	(%rdx), %rax
	movq	%rax, 184(%rsp)
	movl	$0, 203(%rsp)
	movl	$0, 200(%rsp)
	movl	$0, 35(%rsp)
	movl	$0, 32(%rsp)
	cmpb	$1, %r15b
	movq	%r10, 56(%rsp)
	movb	%r11b, 48(%rsp)
	movq	%rbx, 536(%rsp)
	jne	9f
	movq	24(%rsp), %rdx
	movzwl	2(%rdx), %eax
	jmp	10f
	.p2align	4
9:
	movl	$608, %edi
	movl	$8, %esi
	callq	rattle_alloc@PLT
	testb	$1, %al
	je	91f
	movl	$0, (%rdx)
	movq	%rdx, 24(%rsp)
	xorl	%eax, %eax
	movdqa	64(%rsp), %xmm5
	movq	56(%rsp), %r10
	movzbl	48(%rsp), %r11d
10:
	movzwl	%ax, %eax
	movl	$15, %ebx
	subq	%rax, %rbx
	movq	%rax, 168(%rsp)
	negb	%al
	movb	%al, 144(%rsp)
	movq	$0, 8(%rsp)
	movq	%rdx, %rax
	movq	$0, 16(%rsp)
	movq	%rdx, 136(%rsp)
	movq	%rdx, (%rsp)
	movq	%rbx, 304(%rsp)
	xorl	%r14d, %r14d
11:
	movq	%rax, %r15
	movzwl	(%rax), %ebp
	xorl	%r12d, %r12d
	testq	%rbp, %rbp
	jne	14f
	jmp	24f
	.p2align	4
12:
	addb	%al, %al
	cmpb	$2, %al
	jne	22f
13:
	incq	%r12
	cmpq	%rbp, %r12
	je	23f
14:
	leaq	(,%r12,8), %rax
	leaq	(%rax,%rax,4), %rcx
	movzbl	8(%r15,%rcx), %eax
	cmpb	%al, %r11b
	setae	%al
	jne	12b
	movq	16(%r15,%rcx), %rdx
	movq	24(%r15,%rcx), %rax
	cmpq	%r10, %rax
	movq	%r10, %rsi
	cmovbq	%rax, %rsi
	xorl	%edi, %edi
	cmpq	$64, %rsi
	jb	16f
	movq	%rsi, %r8
	.p2align	4
15:
	movdqu	(%r13,%rdi), %xmm0
	movdqu	16(%r13,%rdi), %xmm1
	movdqu	32(%r13,%rdi), %xmm2
	movdqu	48(%r13,%rdi), %xmm3
	movdqu	(%rdx,%rdi), %xmm4
	pcmpeqb	%xmm0, %xmm4
	movdqu	16(%rdx,%rdi), %xmm0
	pcmpeqb	%xmm1, %xmm0
	movdqu	32(%rdx,%rdi), %xmm1
	pcmpeqb	%xmm2, %xmm1
	pand	%xmm4, %xmm1
	movdqu	48(%rdx,%rdi), %xmm2
	pcmpeqb	%xmm3, %xmm2
	pand	%xmm0, %xmm2
	pand	%xmm1, %xmm2
	pmovmskb	%xmm2, %r9d
	cmpl	$65535, %r9d
	jne	16f
	addq	$64, %rdi
	addq	$-64, %r8
	cmpq	$63, %r8
	ja	15b
16:
	movq	%rsi, %r8
	subq	%rdi, %r8
	cmpq	$8, %r8
	jb	18f
	.p2align	4
17:
	movq	(%r13,%rdi), %r9
	cmpq	(%rdx,%rdi), %r9
	jne	18f
	addq	$8, %rdi
	addq	$-8, %r8
	cmpq	$7, %r8
	ja	17b
18:
	cmpq	%rsi, %rdi
	jae	20f
	.p2align	4
19:
	movzbl	(%rdx,%rdi), %r8d
	cmpb	%r8b, (%r13,%rdi)
	jne	21f
	incq	%rdi
	cmpq	%rdi, %rsi
	jne	19b
20:
	cmpq	%rax, %r10
	setae	%al
	jne	12b
	movq	32(%r15,%rcx), %rdx
	movq	40(%r15,%rcx), %rcx
	movq	192(%rsp), %rdi
	movq	184(%rsp), %rsi
	callq	"core::cmp::slices::RefSliceOrd::cmp::<#914af4d8504a0b72>"
	movzbl	48(%rsp), %r11d
	movq	56(%rsp), %r10
	movdqa	64(%rsp), %xmm5
	cmpb	$2, %al
	je	13b
	jmp	22f
21:
	jae	13b
	jmp	24f
	.p2align	4
22:
	movzbl	%al, %eax
	testl	%eax, %eax
	jne	1b
	jmp	24f
	.p2align	4
23:
	movq	%rbp, %r12
24:
	shlq	$4, %r14
	addq	%r12, %r14
	incq	%rbx
	cmpw	$0, 2(%r15)
	je	25f
	movq	608(%r15,%r12,8), %rax
	incq	8(%rsp)
	incb	144(%rsp)
	movq	%r12, 16(%rsp)
	movq	%r15, (%rsp)
	jmp	11b
25:
	movabsq	$9223372036854775806, %rax
	cmpq	%rax, 312(%rsp)
	ja	88f
	movq	%rbx, %rcx
	subq	304(%rsp), %rcx
	cmpq	$1, %rcx
	movq	(%rsp), %rax
	movq	16(%rsp), %rsi
	leaq	608(%rax,%rsi,8), %rax
	leaq	24(%rsp), %r15
	cmoveq	%r15, %rax
	movq	(%rax), %rax
	cmpw	$14, (%rax)
	movq	40(%rsp), %r12
	ja	26f
	shlq	$3, %rsi
	movl	$0, 32(%rsp)
	movl	$0, 35(%rsp)
	movq	(%rsp), %rdx
	jmp	57f
26:
	movq	136(%rsp), %rax
	cmpw	$15, (%rax)
	jae	27f
	movq	304(%rsp), %rax
	jmp	28f
27:
	cmpw	$10, 168(%rsp)
	ja	89f
	movl	$736, %edi
	movl	$8, %esi
	callq	rattle_alloc@PLT
	testb	$1, %al
	je	89f
	movq	168(%rsp), %rcx
	leal	1(%rcx), %eax
	movw	%ax, 2(%rdx)
	movq	136(%rsp), %rax
	movq	%rax, 608(%rdx)
	movw	$0, (%rdx)
	movq	%rdx, 24(%rsp)
	movl	$14, %eax
	subq	%rcx, %rax
	movq	%rdx, 136(%rsp)
	movq	56(%rsp), %r10
	movzbl	48(%rsp), %r11d
28:
	pxor	%xmm0, %xmm0
	movdqa	%xmm0, 288(%rsp)
	movq	%rbx, %rcx
	subq	%rax, %rcx
	movq	%rcx, 168(%rsp)
	jbe	32f
	movl	%ebx, %ecx
	subl	%eax, %ecx
	testb	$3, %cl
	je	30f
	movzbl	144(%rsp), %ecx
	subb	%al, %cl
	movzbl	%cl, %ecx
	andl	$3, %ecx
	.p2align	4
29:
	movl	%r14d, %edx
	andb	$15, %dl
	movb	%dl, 287(%rsp,%rbx)
	decq	%rbx
	shrq	$4, %r14
	decq	%rcx
	jne	29b
30:
	movq	8(%rsp), %rcx
	addq	304(%rsp), %rcx
	subq	%rax, %rcx
	cmpq	$3, %rcx
	jb	32f
	.p2align	4
31:
	movl	%r14d, %ecx
	andb	$15, %cl
	movb	%cl, 287(%rsp,%rbx)
	movl	%r14d, %ecx
	shrb	$4, %cl
	movb	%cl, 286(%rsp,%rbx)
	movl	%r14d, %ecx
	shrl	$8, %ecx
	andb	$15, %cl
	movb	%cl, 285(%rsp,%rbx)
	movl	%r14d, %ecx
	shrl	$12, %ecx
	andb	$15, %cl
	movb	%cl, 284(%rsp,%rbx)
	addq	$-4, %rbx
	shrq	$16, %r14
	cmpq	%rbx, %rax
	jb	31b
32:
	movl	$16, %ebp
	subq	%rax, %rbp
	cmpq	$2, %rbp
	movq	(%rsp), %rdx
	movq	136(%rsp), %rdi
	movq	16(%rsp), %rsi
	jb	56f
	leaq	(%rsp,%rax), %rcx
	addq	$288, %rcx
	jmp	36f
	.p2align	4
33:
	movq	144(%rsp), %rsi
	incl	%esi
	movb	%sil, (%rcx)
	addb	$-8, %al
	movb	%al, 1(%rcx)
34:
	movq	56(%rsp), %r10
	movzbl	48(%rsp), %r11d
	movq	8(%rsp), %rbp
35:
	movzbl	%sil, %esi
	leaq	(%rdx,%rsi,8), %r15
	addq	$608, %r15
	incq	%rcx
	cmpq	$2, %rbp
	leaq	-1(%rbp), %rbp
	jbe	55f
36:
	movzbl	(%rcx), %edi
	movl	%edi, %esi
	movq	(%r15), %rdx
	movq	608(%rdx,%rdi,8), %rax
	cmpw	$15, (%rax)
	jb	35b
	movq	%rdi, (%rsp)
	movq	%rsi, 144(%rsp)
	movq	%rcx, 16(%rsp)
	movzwl	2(%rdx), %ebx
	decq	%rbx
	movq	%rbp, 8(%rsp)
	je	37f
	movl	$736, %edi
	movl	$8, %esi
	callq	rattle_alloc@PLT
	testb	$1, %al
	jne	38f
	jmp	82f
37:
	movl	$608, %edi
	movl	$8, %esi
	callq	rattle_alloc@PLT
	testb	$1, %al
	je	82f
38:
	movq	%rdx, %r14
	movw	%bx, 2(%rdx)
	leaq	8(%rdx), %rdi
	movq	%r15, %rbp
	movq	(%r15), %rax
	pxor	%xmm0, %xmm0
	movdqa	%xmm0, 640(%rsp)
	movdqa	%xmm0, 624(%rsp)
	movq	$0, 656(%rsp)
	movzwl	(%rax), %edx
	leaq	1(%rdx), %rsi
	xorl	%ecx, %ecx
	xorl	%r8d, %r8d
	cmpw	$0, 2(%rax)
	setne	%r8b
	cmoveq	%rcx, %rsi
	shll	$4, %r8d
	leaq	608(%rax), %rbx
	leaq	8(%rax), %r9
	movq	%r9, 448(%rsp)
	movq	%rdx, 456(%rsp)
	movq	$15, 464(%rsp)
	movq	%rbx, 472(%rsp)
	movq	%rdx, 480(%rsp)
	movq	$15, 488(%rsp)
	movq	%rbx, 496(%rsp)
	movq	%rsi, 504(%rsp)
	movq	%r8, 512(%rsp)
	movq	%rax, 520(%rsp)
	movdqa	%xmm0, 560(%rsp)
	movdqa	%xmm0, 544(%rsp)
	movq	$0, 576(%rsp)
	movq	(%rsp), %rdx
	movq	608(%rax,%rdx,8), %rax
	movdqa	%xmm0, 1072(%rsp)
	movdqa	%xmm0, 1056(%rsp)
	movq	$0, 1088(%rsp)
	movzwl	2(%rax), %r15d
	movzwl	(%rax), %r8d
	leaq	1(%r8), %rdx
	xorl	%esi, %esi
	testw	%r15w, %r15w
	setne	%sil
	cmoveq	%rcx, %rdx
	shll	$4, %esi
	leaq	608(%rax), %rcx
	leaq	8(%rax), %r9
	movq	%r9, 320(%rsp)
	movq	$15, 336(%rsp)
	movq	%rcx, 344(%rsp)
	movq	$15, 360(%rsp)
	movq	%rcx, 368(%rsp)
	movq	%rdx, 376(%rsp)
	movq	%rsi, 384(%rsp)
	movq	%rax, 392(%rsp)
	leaq	-8(%r8), %r12
	leaq	328(%rax), %rsi
	leaq	-64(,%r8,8), %rcx
	leaq	(%rcx,%rcx,4), %rdx
	movq	%rdi, %rcx
	subq	%rsi, %rcx
	cmpq	%rdx, %rcx
	jae	39f
	testq	%r12, %r12
	je	44f
	movl	%r8d, %ecx
	andl	$7, %ecx
	addl	$-9, %r8d
	cmpw	$7, %r8w
	jae	40f
	xorl	%edx, %edx
	jmp	42f
	.p2align	4
39:
	callq	memmove@PLT
	jmp	44f
40:
	movq	%r12, %r8
	andq	$-8, %r8
	xorl	%edx, %edx
	xorl	%r9d, %r9d
	.p2align	4
41:
	movups	(%rsi,%r9), %xmm0
	movups	16(%rsi,%r9), %xmm1
	movq	32(%rsi,%r9), %r10
	movq	%r10, 32(%rdi,%r9)
	movups	%xmm1, 16(%rdi,%r9)
	movups	%xmm0, (%rdi,%r9)
	movups	40(%rsi,%r9), %xmm0
	movups	56(%rsi,%r9), %xmm1
	movq	72(%rsi,%r9), %r10
	movq	%r10, 72(%rdi,%r9)
	movups	%xmm1, 56(%rdi,%r9)
	movups	%xmm0, 40(%rdi,%r9)
	movups	80(%rsi,%r9), %xmm0
	movups	96(%rsi,%r9), %xmm1
	movq	112(%rsi,%r9), %r10
	movq	%r10, 112(%rdi,%r9)
	movups	%xmm1, 96(%rdi,%r9)
	movups	%xmm0, 80(%rdi,%r9)
	movups	120(%rsi,%r9), %xmm0
	movups	136(%rsi,%r9), %xmm1
	movq	152(%rsi,%r9), %r10
	movq	%r10, 152(%rdi,%r9)
	movups	%xmm1, 136(%rdi,%r9)
	movups	%xmm0, 120(%rdi,%r9)
	movups	160(%rsi,%r9), %xmm0
	movups	176(%rsi,%r9), %xmm1
	movq	192(%rsi,%r9), %r10
	movq	%r10, 192(%rdi,%r9)
	movups	%xmm1, 176(%rdi,%r9)
	movups	%xmm0, 160(%rdi,%r9)
	movups	200(%rsi,%r9), %xmm0
	movups	216(%rsi,%r9), %xmm1
	movq	232(%rsi,%r9), %r10
	movq	%r10, 232(%rdi,%r9)
	movups	%xmm1, 216(%rdi,%r9)
	movups	%xmm0, 200(%rdi,%r9)
	movups	240(%rsi,%r9), %xmm0
	movups	256(%rsi,%r9), %xmm1
	movq	272(%rsi,%r9), %r10
	movq	%r10, 272(%rdi,%r9)
	movups	%xmm1, 256(%rdi,%r9)
	movups	%xmm0, 240(%rdi,%r9)
	movdqu	280(%rsi,%r9), %xmm0
	movdqu	296(%rsi,%r9), %xmm1
	movq	312(%rsi,%r9), %r10
	movq	%r10, 312(%rdi,%r9)
	movdqu	%xmm1, 296(%rdi,%r9)
	movdqu	%xmm0, 280(%rdi,%r9)
	addq	$8, %rdx
	addq	$320, %r9
	cmpq	%rdx, %r8
	jne	41b
	testq	%rcx, %rcx
	je	44f
42:
	shlq	$3, %rdx
	leaq	(%rdx,%rdx,4), %rdx
	addq	%rdx, %rax
	addq	$328, %rax
	addq	%r14, %rdx
	addq	$8, %rdx
	shll	$3, %ecx
	leaq	(%rcx,%rcx,4), %rcx
	xorl	%esi, %esi
	.p2align	4
43:
	movdqu	(%rax,%rsi), %xmm0
	movdqu	16(%rax,%rsi), %xmm1
	movq	32(%rax,%rsi), %rdi
	movq	%rdi, 32(%rdx,%rsi)
	movdqu	%xmm1, 16(%rdx,%rsi)
	movdqu	%xmm0, (%rdx,%rsi)
	addq	$40, %rsi
	cmpq	%rsi, %rcx
	jne	43b
44:
	movq	$8, 328(%rsp)
	movq	$8, 352(%rsp)
	pxor	%xmm0, %xmm0
	movdqa	%xmm0, 672(%rsp)
	movdqa	%xmm0, 688(%rsp)
	movq	$0, 704(%rsp)
	leaq	672(%rsp), %rdi
	leaq	320(%rsp), %rsi
	movl	$7, %edx
	callq	"std_alloc::vec::Vec::remove::<#21647806b46d5bf1>"
	testw	%r15w, %r15w
	je	51f
	leaq	608(%r14), %rdi
	movq	368(%rsp), %rax
	movq	376(%rsp), %r8
	leaq	64(%rax), %rsi
	leaq	-64(,%r8,8), %rdx
	movq	%rdi, %rcx
	subq	%rsi, %rcx
	cmpq	%rdx, %rcx
	jae	50f
	movq	%r8, %rcx
	addq	$-8, %rcx
	je	51f
	cmpq	$4, %rcx
	jb	45f
	movq	%r14, %rdx
	subq	%rax, %rdx
	addq	$544, %rdx
	cmpq	$32, %rdx
	jae	53f
45:
	xorl	%edx, %edx
46:
	movq	%r8, %r10
	movq	%rdx, %r9
	andq	$3, %r10
	je	48f
	movq	%rdx, %r9
	.p2align	4
47:
	movq	(%rsi,%r9,8), %r11
	movq	%r11, (%rdi,%r9,8)
	incq	%r9
	decq	%r10
	jne	47b
48:
	subq	%rdx, %r8
	addq	$-9, %r8
	cmpq	$3, %r8
	jb	51f
	.p2align	4
49:
	movq	64(%rax,%r9,8), %rdx
	movq	%rdx, 608(%r14,%r9,8)
	movq	72(%rax,%r9,8), %rdx
	movq	%rdx, 616(%r14,%r9,8)
	movq	80(%rax,%r9,8), %rdx
	movq	%rdx, 624(%r14,%r9,8)
	movq	88(%rax,%r9,8), %rdx
	movq	%rdx, 632(%r14,%r9,8)
	addq	$4, %r9
	cmpq	%r9, %rcx
	jne	49b
	jmp	51f
50:
	callq	memmove@PLT
51:
	movzwl	328(%rsp), %eax
	movq	392(%rsp), %rcx
	movw	%ax, (%rcx)
	movw	%r12w, (%r14)
	movq	704(%rsp), %rax
	movaps	672(%rsp), %xmm0
	movaps	688(%rsp), %xmm1
	movaps	%xmm0, 544(%rsp)
	movaps	%xmm1, 560(%rsp)
	movq	%rax, 576(%rsp)
	movq	(%rsp), %r12
	movq	%rcx, (%rbx,%r12,8)
	movq	576(%rsp), %rax
	movq	%rax, 656(%rsp)
	movdqa	544(%rsp), %xmm0
	movdqa	560(%rsp), %xmm1
	movdqa	%xmm1, 640(%rsp)
	movdqa	%xmm0, 624(%rsp)
	leaq	448(%rsp), %rdi
	leaq	624(%rsp), %rdx
	movq	%r12, %rsi
	callq	"std_alloc::vec::lodged::Vec+T+Lodged::insert_reserved::<38'(,,)::<i8,3'&[](*,i64,),3'&[](*,i64,)>>"
	incq	%r12
	movq	496(%rsp), %rbx
	movq	504(%rsp), %rdx
	leal	(,%r12,8), %r15d
	subq	%r12, %rdx
	je	52f
	leaq	(%rbx,%r15), %rsi
	leaq	(%rbx,%r15), %rdi
	addq	$8, %rdi
	shlq	$3, %rdx
	callq	memmove@PLT
52:
	movq	%r14, (%rbx,%r15)
	movzwl	456(%rsp), %eax
	movq	520(%rsp), %rdx
	movw	%ax, (%rdx)
	movq	%rdx, (%rbp)
	movq	16(%rsp), %rcx
	movzbl	1(%rcx), %eax
	cmpb	$7, %al
	movq	40(%rsp), %r12
	ja	33b
	movzbl	(%rcx), %esi
	jmp	34b
53:
	movq	%rcx, %rdx
	andq	$-4, %rdx
	xorl	%r9d, %r9d
	.p2align	4
54:
	movdqu	64(%rax,%r9,8), %xmm0
	movdqu	80(%rax,%r9,8), %xmm1
	movdqu	%xmm0, 608(%r14,%r9,8)
	movdqu	%xmm1, 624(%r14,%r9,8)
	addq	$4, %r9
	cmpq	%r9, %rdx
	jne	54b
	cmpq	%rdx, %rcx
	je	51b
	jmp	46b
55:
	movq	24(%rsp), %rdi
56:
	cmpw	$0, (%rdi)
	je	83f
	movzbl	303(%rsp), %r14d
	movl	200(%rsp), %eax
	movl	203(%rsp), %ecx
	movl	%eax, 32(%rsp)
	movl	%ecx, 35(%rsp)
	shlq	$3, %rsi
	movq	168(%rsp), %rcx
57:
	cmpq	$1, %rcx
	leaq	608(%rdx,%rsi), %rax
	leaq	24(%rsp), %rbx
	cmovneq	%rax, %rbx
	andl	$15, %r14d
	movb	%r11b, 448(%rsp)
	movl	32(%rsp), %eax
	movl	35(%rsp), %ecx
	leaq	449(%rsp), %rdx
	movl	%ecx, 3(%rdx)
	movl	%eax, (%rdx)
	movq	%r13, 456(%rsp)
	movq	%r10, 464(%rsp)
	movq	192(%rsp), %rax
	movq	%rax, 472(%rsp)
	movq	184(%rsp), %rax
	movq	%rax, 480(%rsp)
	movq	(%rbx), %rax
	movzwl	(%rax), %ecx
	leaq	1(%rcx), %rdx
	xorl	%esi, %esi
	xorl	%edi, %edi
	cmpw	$0, 2(%rax)
	setne	%dil
	cmovneq	%rdx, %rsi
	shll	$4, %edi
	leaq	608(%rax), %rdx
	leaq	8(%rax), %r8
	movq	%r8, 320(%rsp)
	movq	%rcx, 328(%rsp)
	movq	$15, 336(%rsp)
	movq	%rdx, 344(%rsp)
	movq	%rcx, 352(%rsp)
	movq	$15, 360(%rsp)
	movq	%rdx, 368(%rsp)
	movq	%rsi, 376(%rsp)
	movq	%rdi, 384(%rsp)
	movq	%rax, 392(%rsp)
	leaq	320(%rsp), %rdi
	leaq	448(%rsp), %rdx
	movq	%r14, %rsi
	callq	"std_alloc::vec::lodged::Vec+T+Lodged::insert_reserved::<38'(,,)::<i8,3'&[](*,i64,),3'&[](*,i64,)>>"
	movzwl	328(%rsp), %eax
	movq	392(%rsp), %rcx
	movw	%ax, (%rcx)
	movq	%rcx, (%rbx)
	incq	312(%rsp)
	movdqa	64(%rsp), %xmm5
	jmp	2b
58:
	xorl	%ebx, %ebx
	jmp	126f
59:
	movq	24(%rsp), %rax
	movq	%rax, 8(%rsp)
	testq	%r12, %r12
	js	80f
	movl	$1, %esi
	movq	%r12, %rdi
	callq	rattle_alloc@PLT
	movdqa	64(%rsp), %xmm5
	testb	$1, %al
	je	80f
	movq	%rdx, 80(%rsp)
	movq	$0, 88(%rsp)
	movq	%r12, 96(%rsp)
	testb	%r15b, %r15b
	je	84f
	xorl	%esi, %esi
	xorl	%ebx, %ebx
	movq	%r15, 144(%rsp)
	jmp	63f
	.p2align	4
60:
	xorl	%ebp, %ebp
	movq	176(%rsp), %r14
	movq	160(%rsp), %r13
	movq	40(%rsp), %r12
	movq	144(%rsp), %r15
	movq	184(%rsp), %rdx
	movq	(%rsp), %rbx
	movq	16(%rsp), %rsi
61:
	cmpq	%rsi, 96(%rsp)
	je	76f
62:
	movb	%bpl, (%rdx,%rsi)
	incq	%rsi
	movq	%rsi, 88(%rsp)
	incq	%rbx
	cmpq	%r12, %rbx
	je	87f
63:
	imulq	$104, %rbx, %rax
	movb	$1, %bpl
	cmpb	$0, 96(%r13,%rax)
	jne	61b
	addq	%r13, %rax
	cmpb	$0, 8(%rax)
	je	64f
	movq	16(%rax), %rcx
	movq	%rcx, 56(%rsp)
	leaq	24(%rax), %rcx
	jmp	65f
64:
	leaq	16(%rax), %rcx
	movq	%rcx, 56(%rsp)
	leaq	48(%rax), %rcx
65:
	cmpb	$0, 56(%rax)
	movq	%rdx, 184(%rsp)
	movq	%rbx, (%rsp)
	movq	%rsi, 16(%rsp)
	je	66f
	movq	64(%rax), %rdx
	movq	%rdx, 48(%rsp)
	leaq	72(%rax), %rdx
	jmp	67f
66:
	leaq	64(%rax), %rdx
	movq	%rdx, 48(%rsp)
	leaq	80(%rax), %rdx
67:
	movzbl	(%rax), %ebp
	movq	(%rcx), %rbx
	movq	(%rdx), %rax
	movq	%rax, 192(%rsp)
	movq	8(%rsp), %r14
	movzwl	(%r14), %r12d
	testq	%r12, %r12
	je	74f
68:
	leaq	40(%r14), %r13
	xorl	%r15d, %r15d
	.p2align	4
69:
	movzbl	-32(%r13), %eax
	cmpb	%al, %bpl
	setae	%al
	jne	70f
	movq	-24(%r13), %rdx
	movq	-16(%r13), %rcx
	movq	56(%rsp), %rdi
	movq	%rbx, %rsi
	callq	"core::cmp::slices::RefSliceOrd::cmp::<#914af4d8504a0b72>"
	movdqa	64(%rsp), %xmm5
	cmpb	$1, %al
	jne	71f
	movq	-8(%r13), %rdx
	movq	(%r13), %rcx
	movq	48(%rsp), %rdi
	movq	192(%rsp), %rsi
	callq	"core::cmp::slices::RefSliceOrd::cmp::<#914af4d8504a0b72>"
	movdqa	64(%rsp), %xmm5
	jmp	71f
	.p2align	4
70:
	addb	%al, %al
71:
	cmpb	$2, %al
	jne	72f
	incq	%r15
	addq	$40, %r13
	cmpq	%r15, %r12
	jne	69b
	movq	%r12, %r15
	jmp	73f
	.p2align	4
72:
	movzbl	%al, %eax
	testl	%eax, %eax
	jne	60b
73:
	movq	160(%rsp), %r13
	movq	40(%rsp), %r12
	shlq	$3, %r15
	cmpw	$0, 2(%r14)
	jne	75f
	jmp	77f
	.p2align	4
74:
	xorl	%r15d, %r15d
	movq	40(%rsp), %r12
	cmpw	$0, 2(%r14)
	je	77f
75:
	movq	608(%r14,%r15), %r14
	movzwl	(%r14), %r12d
	testq	%r12, %r12
	jne	68b
	jmp	74b
76:
	leaq	80(%rsp), %rdi
	callq	"std_alloc::vec::Vec::grow_amortized::<#0135d645f841a886>"
	testb	%al, %al
	je	127f
	movq	80(%rsp), %rdx
	movq	88(%rsp), %rsi
	movdqa	64(%rsp), %xmm5
	jmp	62b
77:
	movq	176(%rsp), %r14
	movq	144(%rsp), %r15
	movq	184(%rsp), %rdx
	movq	(%rsp), %rbx
	movq	16(%rsp), %rsi
	movb	$1, %bpl
	jmp	61b
78:
	leaq	159(%rsp), %rax
	movq	%rax, 80(%rsp)
	leaq	423(%rsp), %rbx
	movdqu	%xmm0, 88(%rsp)
	movq	80(%rsp), %rax
	movq	%rax, 423(%rsp)
	movq	88(%rsp), %rax
	movq	%rax, 431(%rsp)
	movq	96(%rsp), %rax
	movq	%rax, 439(%rsp)
79:
	movq	16(%rbx), %rax
	movq	%rax, 743(%rsp)
	movups	(%rbx), %xmm0
	movups	%xmm0, 727(%rsp)
	movq	%r13, 912(%rsp)
	movdqu	%xmm5, 920(%rsp)
	movq	104(%rsp), %rax
	movq	%rax, 936(%rsp)
	movaps	208(%rsp), %xmm1
	movaps	%xmm1, 944(%rsp)
	movq	112(%rsp), %rax
	movq	%rax, 960(%rsp)
	movaps	224(%rsp), %xmm1
	movups	%xmm1, 968(%rsp)
	movq	%r14, 984(%rsp)
	movaps	240(%rsp), %xmm1
	movaps	%xmm1, 992(%rsp)
	movq	120(%rsp), %rax
	movq	%rax, 1008(%rsp)
	movaps	256(%rsp), %xmm1
	movups	%xmm1, 1016(%rsp)
	movq	128(%rsp), %rax
	movq	%rax, 1032(%rsp)
	movdqa	272(%rsp), %xmm1
	movdqa	%xmm1, 1040(%rsp)
	movaps	%xmm0, 592(%rsp)
	movq	743(%rsp), %rax
	movq	%rax, 608(%rsp)
	leaq	752(%rsp), %rdi
	leaq	912(%rsp), %rsi
	leaq	592(%rsp), %rdx
	callq	"mime_text::merging::hidden::with_marked"
	movzbl	752(%rsp), %ebx
	movq	760(%rsp), %r13
	movdqa	768(%rsp), %xmm5
	movq	784(%rsp), %rax
	movq	%rax, 104(%rsp)
	movups	792(%rsp), %xmm0
	movaps	%xmm0, 208(%rsp)
	movq	808(%rsp), %rax
	movq	%rax, 112(%rsp)
	movaps	816(%rsp), %xmm0
	movaps	%xmm0, 224(%rsp)
	movq	832(%rsp), %r14
	movups	840(%rsp), %xmm0
	movaps	%xmm0, 240(%rsp)
	movq	856(%rsp), %rax
	movq	%rax, 120(%rsp)
	movaps	864(%rsp), %xmm0
	movaps	%xmm0, 256(%rsp)
	movq	880(%rsp), %rax
	movq	%rax, 128(%rsp)
	movdqu	888(%rsp), %xmm0
	jmp	125f
80:
	testb	%r15b, %r15b
	je	92f
81:
	movq	8(%rsp), %rdi
	callq	"std_collections::btree::node::Node::destroy::<#45aa1b6c98681d8c>"
	movaps	64(%rsp), %xmm5
	jmp	92f
82:
	movq	24(%rsp), %rdi
	cmpw	$0, (%rdi)
	jne	90f
83:
	cmpw	$0, 2(%rdi)
	je	90f
	movq	608(%rdi), %rbx
	callq	rattle_dealloc@PLT
	movq	%rbx, %rdi
	jmp	90f
84:
	xorl	%eax, %eax
	movq	%r12, %rbx
	jmp	86f
	.p2align	4
85:
	movb	$1, (%rdx,%rax)
	incq	%rax
	movq	%rax, 88(%rsp)
	decq	%rbx
	je	87f
86:
	cmpq	%rax, 96(%rsp)
	jne	85b
	leaq	80(%rsp), %rdi
	callq	"std_alloc::vec::Vec::grow_amortized::<#0135d645f841a886>"
	testb	%al, %al
	je	127f
	movq	80(%rsp), %rdx
	movq	88(%rsp), %rax
	movdqa	64(%rsp), %xmm5
	jmp	85b
87:
	movq	96(%rsp), %rax
	movq	%rax, 439(%rsp)
	movq	80(%rsp), %rax
	movq	%rax, 423(%rsp)
	movq	88(%rsp), %rax
	movq	%rax, 431(%rsp)
	leaq	423(%rsp), %rbx
	testb	%r15b, %r15b
	je	79b
	movq	8(%rsp), %rdi
	callq	"std_collections::btree::node::Node::destroy::<#45aa1b6c98681d8c>"
	movdqa	64(%rsp), %xmm5
	jmp	79b
88:
	movq	40(%rsp), %r12
89:
	movq	136(%rsp), %rdi
90:
	callq	"std_collections::btree::node::Node::destroy::<#45aa1b6c98681d8c>"
91:
	movdqa	64(%rsp), %xmm5
	movq	160(%rsp), %r13
92:
	leaq	8(%r13), %r14
	jmp	94f
	.p2align	4
93:
	addq	$104, %r14
	decq	%r12
	je	96f
94:
	movzbl	48(%r14), %ebp
	movq	56(%r14), %rbx
	movq	72(%r14), %r15
	cmpb	$0, (%r14)
	je	95f
	cmpq	$0, 24(%r14)
	je	95f
	movq	8(%r14), %rdi
	callq	rattle_dealloc@PLT
	movdqa	64(%rsp), %xmm5
95:
	testb	%bpl, %bpl
	je	93b
	testq	%r15, %r15
	je	93b
	movq	%rbx, %rdi
	callq	rattle_dealloc@PLT
	movdqa	64(%rsp), %xmm5
	jmp	93b
96:
	pextrq	$1, %xmm5, %rax
	testq	%rax, %rax
	je	97f
	movq	%r13, %rdi
	callq	rattle_dealloc@PLT
97:
	movdqa	208(%rsp), %xmm0
	movq	%xmm0, %r14
	testq	%r14, %r14
	je	101f
	movq	104(%rsp), %r15
	jmp	99f
	.p2align	4
98:
	addq	$96, %r15
	decq	%r14
	je	101f
99:
	movzbl	48(%r15), %ebp
	movq	56(%r15), %rbx
	movq	72(%r15), %r12
	cmpb	$0, (%r15)
	je	100f
	cmpq	$0, 24(%r15)
	je	100f
	movq	8(%r15), %rdi
	callq	rattle_dealloc@PLT
100:
	testb	%bpl, %bpl
	je	98b
	testq	%r12, %r12
	je	98b
	movq	%rbx, %rdi
	callq	rattle_dealloc@PLT
	jmp	98b
101:
	movdqa	208(%rsp), %xmm0
	pextrq	$1, %xmm0, %rax
	testq	%rax, %rax
	je	102f
	movq	104(%rsp), %rdi
	callq	rattle_dealloc@PLT
102:
	movdqa	224(%rsp), %xmm0
	movq	%xmm0, %r14
	testq	%r14, %r14
	je	106f
	movq	112(%rsp), %r15
	jmp	104f
	.p2align	4
103:
	addq	$96, %r15
	decq	%r14
	je	106f
104:
	movzbl	48(%r15), %ebp
	movq	56(%r15), %rbx
	movq	72(%r15), %r12
	cmpb	$0, (%r15)
	je	105f
	cmpq	$0, 24(%r15)
	je	105f
	movq	8(%r15), %rdi
	callq	rattle_dealloc@PLT
105:
	testb	%bpl, %bpl
	je	103b
	testq	%r12, %r12
	je	103b
	movq	%rbx, %rdi
	callq	rattle_dealloc@PLT
	jmp	103b
106:
	movdqa	224(%rsp), %xmm0
	pextrq	$1, %xmm0, %rax
	testq	%rax, %rax
	je	107f
	movq	112(%rsp), %rdi
	callq	rattle_dealloc@PLT
107:
	movdqa	240(%rsp), %xmm0
	movq	%xmm0, %r14
	testq	%r14, %r14
	je	113f
	xorl	%r15d, %r15d
	jmp	109f
	.p2align	4
108:
	incq	%r15
	cmpq	%r14, %r15
	je	113f
109:
	movq	%r15, %rax
	shlq	$4, %rax
	leaq	(%rax,%rax,4), %rax
	movq	176(%rsp), %rcx
	movq	56(%rcx,%rax), %rbx
	movq	64(%rcx,%rax), %r13
	movq	72(%rcx,%rax), %r12
	cmpb	$0, 8(%rcx,%rax)
	je	110f
	cmpq	$0, 32(%rcx,%rax)
	je	110f
	movq	16(%rcx,%rax), %rdi
	callq	rattle_dealloc@PLT
110:
	testq	%r13, %r13
	je	112f
	movq	%rbx, %rbp
	.p2align	4
111:
	movups	80(%rbp), %xmm0
	movaps	%xmm0, 400(%rsp)
	movups	64(%rbp), %xmm0
	movaps	%xmm0, 384(%rsp)
	movdqu	(%rbp), %xmm0
	movdqu	16(%rbp), %xmm1
	movdqu	32(%rbp), %xmm2
	movdqu	48(%rbp), %xmm3
	movdqa	%xmm3, 368(%rsp)
	movdqa	%xmm2, 352(%rsp)
	movdqa	%xmm1, 336(%rsp)
	movdqa	%xmm0, 320(%rsp)
	leaq	320(%rsp), %rdi
	callq	"mime_text::mime_base++magic++matchlet++Matchlet+Destruct::drop"
	addq	$96, %rbp
	decq	%r13
	jne	111b
112:
	testq	%r12, %r12
	je	108b
	movq	%rbx, %rdi
	callq	rattle_dealloc@PLT
	jmp	108b
113:
	movdqa	240(%rsp), %xmm0
	pextrq	$1, %xmm0, %rax
	testq	%rax, %rax
	je	114f
	movq	176(%rsp), %rdi
	callq	rattle_dealloc@PLT
114:
	movdqa	256(%rsp), %xmm0
	movq	%xmm0, %r14
	testq	%r14, %r14
	je	118f
	movq	120(%rsp), %r15
	jmp	116f
	.p2align	4
115:
	addq	$96, %r15
	decq	%r14
	je	118f
116:
	movzbl	48(%r15), %ebp
	movq	56(%r15), %rbx
	movq	72(%r15), %r12
	cmpb	$0, (%r15)
	je	117f
	cmpq	$0, 24(%r15)
	je	117f
	movq	8(%r15), %rdi
	callq	rattle_dealloc@PLT
117:
	testb	%bpl, %bpl
	je	115b
	testq	%r12, %r12
	je	115b
	movq	%rbx, %rdi
	callq	rattle_dealloc@PLT
	jmp	115b
118:
	movdqa	256(%rsp), %xmm0
	pextrq	$1, %xmm0, %rax
	testq	%rax, %rax
	je	119f
	movq	120(%rsp), %rdi
	callq	rattle_dealloc@PLT
119:
	movdqa	272(%rsp), %xmm0
	movq	%xmm0, %r14
	testq	%r14, %r14
	je	123f
	movq	128(%rsp), %r15
	jmp	121f
	.p2align	4
120:
	addq	$96, %r15
	decq	%r14
	je	123f
121:
	movzbl	48(%r15), %ebp
	movq	56(%r15), %rbx
	movq	72(%r15), %r12
	cmpb	$0, (%r15)
	je	122f
	cmpq	$0, 24(%r15)
	je	122f
	movq	8(%r15), %rdi
	callq	rattle_dealloc@PLT
122:
	testb	%bpl, %bpl
	je	120b
	testq	%r12, %r12
	je	120b
	movq	%rbx, %rdi
	callq	rattle_dealloc@PLT
	jmp	120b
123:
	movdqa	272(%rsp), %xmm0
	pextrq	$1, %xmm0, %rax
	pxor	%xmm5, %xmm5
	movb	$1, %bl
	testq	%rax, %rax
	je	124f
	movq	128(%rsp), %rdi
	callq	rattle_dealloc@PLT
	pxor	%xmm5, %xmm5
124:
	xorl	%r13d, %r13d
	movq	$0, 104(%rsp)
	movq	$0, 112(%rsp)
	xorl	%r14d, %r14d
	movq	$0, 120(%rsp)
	movq	$0, 128(%rsp)
	pxor	%xmm0, %xmm0
	movdqa	%xmm0, 208(%rsp)
	movdqa	%xmm0, 224(%rsp)
	movdqa	%xmm0, 240(%rsp)
	movdqa	%xmm0, 256(%rsp)
125:
	movdqa	%xmm0, 272(%rsp)
126:
	movq	528(%rsp), %rax
	movb	%bl, (%rax)
	movq	%r13, 8(%rax)
	movdqu	%xmm5, 16(%rax)
	movq	104(%rsp), %rcx
	movq	%rcx, 32(%rax)
	movaps	208(%rsp), %xmm0
	movups	%xmm0, 40(%rax)
	movq	112(%rsp), %rcx
	movq	%rcx, 56(%rax)
	movaps	224(%rsp), %xmm0
	movups	%xmm0, 64(%rax)
	movq	%r14, 80(%rax)
	movaps	240(%rsp), %xmm0
	movups	%xmm0, 88(%rax)
	movq	120(%rsp), %rcx
	movq	%rcx, 104(%rax)
	movaps	256(%rsp), %xmm0
	movups	%xmm0, 112(%rax)
	movq	128(%rsp), %rcx
	movq	%rcx, 128(%rax)
	movaps	272(%rsp), %xmm0
	movups	%xmm0, 136(%rax)
	addq	$1096, %rsp
	popq	%rbx
	popq	%r12
	popq	%r13
	popq	%r14
	popq	%r15
	popq	%rbp
	retq
127:
	cmpq	$0, 96(%rsp)
	je	128f
	movq	80(%rsp), %rdi
	callq	rattle_dealloc@PLT
128:
	testb	%r15b, %r15b
	movdqa	64(%rsp), %xmm5
	jne	81b
	jmp	92b
129:
	ud2
130:
	.size	"mime_tool::build::written", 130b-"mime_tool::build::written"

	.text
	.p2align	4
	.type	"mime_tool::cache::faulty",@function
"mime_tool::cache::faulty":
	pushq	%rbp
	pushq	%r15
	pushq	%r14
	pushq	%r13
	pushq	%r12
	pushq	%rbx
	subq	$296, %rsp
	movq	%rdi, %rbx
	movzbl	(%rcx), %r9d
	movzwl	2(%rcx), %eax
	movzwl	4(%rcx), %edi
	movq	8(%rcx), %rcx
	xorps	%xmm0, %xmm0
	movaps	%xmm0, 160(%rsp)
	movq	$0, 176(%rsp)
	movl	$2, %r8d
	cmpl	$7, %r9d
	je	7f
	movq	%rsi, %rbp
	movq	%rdx, %r12
	movaps	%xmm0, 256(%rsp)
	movups	%xmm0, 271(%rsp)
	movaps	%xmm0, 192(%rsp)
	movq	$0, 208(%rsp)
	movups	%xmm0, 239(%rsp)
	movaps	%xmm0, 224(%rsp)
	movaps	%xmm0, 80(%rsp)
	movaps	%xmm0, 96(%rsp)
	movl	%r9d, %edx
	leaq	66f(%rip), %rsi
	movslq	(%rsi,%rdx,4), %rdx
	addq	%rsi, %rdx
	jmpq	*%rdx
1:
	leaq	.L6d755b90110b(%rip), %rsi
	jmp	4f
2:
	leaq	.L912ff23d9ff8(%rip), %rsi
	leaq	80(%rsp), %rdi
	movl	$12, %edx
	callq	"std_alloc::string::String::format::<#cba637970f1a6228>"
	movzbl	80(%rsp), %r14d
	testb	%r14b, %r14b
	jne	5f
	jmp	11f
3:
	leaq	.L7ae2a5bad0f0(%rip), %rsi
4:
	leaq	80(%rsp), %rdi
	movl	$9, %edx
	callq	"std_alloc::string::String::format::<#cba637970f1a6228>"
	movzbl	80(%rsp), %r14d
	testb	%r14b, %r14b
	je	11f
5:
	movl	$2, %r8d
6:
	movq	208(%rsp), %rax
	movq	%rax, 176(%rsp)
	movaps	192(%rsp), %xmm0
	movaps	%xmm0, 160(%rsp)
7:
	movq	%r8, (%rbx)
	movaps	160(%rsp), %xmm0
	movups	%xmm0, 8(%rbx)
	movq	176(%rsp), %rax
	movq	%rax, 24(%rbx)
	addq	$296, %rsp
	popq	%rbx
	popq	%r12
	popq	%r13
	popq	%r14
	popq	%r15
	popq	%rbp
	retq
8:
	movq	%rcx, 128(%rsp)
	leaq	.L07334fd0fe93(%rip), %rax
	movq	%rax, 8(%rsp)
	movq	$13, 16(%rsp)
	jmp	10f
9:
	movq	%rcx, 128(%rsp)
	leaq	.L3af445e6ed54(%rip), %rax
	movq	%rax, 8(%rsp)
	movq	$16, 16(%rsp)
10:
	leaq	128(%rsp), %rax
	movq	%rax, 24(%rsp)
	leaq	80(%rsp), %rdi
	leaq	8(%rsp), %rsi
	callq	"std_alloc::string::String::format::<#404683268f87e58f>"
	movzbl	80(%rsp), %r14d
	testb	%r14b, %r14b
	jne	5b
11:
	movq	88(%rsp), %r14
	movq	96(%rsp), %r15
	movq	104(%rsp), %r13
	xorps	%xmm0, %xmm0
	movups	%xmm0, 95(%rsp)
	movaps	%xmm0, 80(%rsp)
	movups	%xmm0, 16(%rsp)
	movl	$0, 65(%rsp)
	movl	$0, 68(%rsp)
	leaq	7(%rsp), %rax
	movq	%rax, 8(%rsp)
	movq	$0, 56(%rsp)
	movb	$0, 64(%rsp)
	movl	$32, 32(%rsp)
	movq	$0, 36(%rsp)
	movl	$0, 44(%rsp)
	movq	$-1, 48(%rsp)
	leaq	8(%rsp), %rdi
	movl	$10, %esi
	callq	"std_alloc::vec::Vec::grow_amortized::<#1d775b5957dec42c>"
	testb	%al, %al
	je	58f
	movq	%r13, 120(%rsp)
	leaq	36(%rsp), %r11
	movq	24(%rsp), %r10
	movq	8(%rsp), %r13
	movq	16(%rsp), %rax
	leaq	(%rax,%r13), %rcx
	addq	$10, %rax
	leaq	.Ld9078770f0cd(%rip), %rdx
	movq	%rcx, %rsi
	subq	%rdx, %rsi
	movabsq	$7741528795821992301, %rdx
	cmpq	$9, %rsi
	movq	%rdx, (%rcx)
	movw	$8250, 8(%rcx)
	movq	%r12, %rdx
	movq	%rbp, %rsi
	movq	%rax, 16(%rsp)
	movl	$32, 32(%rsp)
	movl	$0, 8(%r11)
	movq	$0, (%r11)
	movq	$-1, 48(%rsp)
	cmpq	$0, 56(%rsp)
	jne	42f
	movq	%r10, %rcx
	subq	%rax, %rcx
	cmpq	%rcx, %rdx
	ja	47f
12:
	leaq	(%rax,%rdx), %r12
	leaq	(%rax,%r13), %rdi
	movq	%rdi, %rcx
	subq	%rsi, %rcx
	cmpq	%rdx, %rcx
	jae	19f
	cmpq	$4, %rdx
	jb	13f
	cmpq	$32, %rcx
	jae	40f
13:
	xorl	%ecx, %ecx
14:
	movq	%r10, %rbp
	movq	%rdx, %r9
	movq	%rcx, %r8
	andq	$3, %r9
	je	16f
	movq	%rcx, %r8
15:
	movzbl	(%rsi,%r8), %r10d
	movb	%r10b, (%rdi,%r8)
	incq	%r8
	decq	%r9
	jne	15b
16:
	subq	%rdx, %rcx
	cmpq	$-4, %rcx
	movq	%rbp, %r10
	ja	20f
	addq	%r13, %rax
	addq	$3, %rax
17:
	movzbl	(%rsi,%r8), %ecx
	movb	%cl, -3(%rax,%r8)
	movzbl	1(%rsi,%r8), %ecx
	movb	%cl, -2(%rax,%r8)
	movzbl	2(%rsi,%r8), %ecx
	movb	%cl, -1(%rax,%r8)
	movzbl	3(%rsi,%r8), %ecx
	movb	%cl, (%rax,%r8)
	addq	$4, %r8
	cmpq	%r8, %rdx
	jne	17b
	jmp	20f
18:
	leaq	.L75f850512cff(%rip), %rsi
	leaq	80(%rsp), %rdi
	movl	$8, %edx
	callq	"std_alloc::string::String::format::<#cba637970f1a6228>"
	movzbl	80(%rsp), %r14d
	testb	%r14b, %r14b
	jne	5b
	jmp	11b
19:
	movq	%r10, %rbp
	callq	memmove@PLT
	movq	%rbp, %r10
	leaq	36(%rsp), %r11
20:
	movq	%r13, 8(%rsp)
	movq	%r12, 16(%rsp)
	movq	%r10, 24(%rsp)
	movq	120(%rsp), %r13
21:
	movl	$32, 32(%rsp)
	movl	$0, 8(%r11)
	movq	$0, (%r11)
	movq	$-1, 48(%rsp)
	cmpq	$0, 56(%rsp)
	jne	48f
	movq	16(%rsp), %rcx
	movq	24(%rsp), %rax
	movq	%rax, %rdx
	subq	%rcx, %rdx
	cmpq	$1, %rdx
	jbe	49f
22:
	leaq	2(%rcx), %rdx
	addq	8(%rsp), %rcx
	leaq	.L226a292f443d(%rip), %rsi
	movq	%rcx, %rdi
	subq	%rsi, %rdi
	cmpq	$1, %rdi
	movw	$8250, (%rcx)
	movq	%rdx, 16(%rsp)
	movq	%rax, 24(%rsp)
23:
	movl	$32, 32(%rsp)
	movl	$0, 8(%r11)
	movq	$0, (%r11)
	movq	$-1, 48(%rsp)
	cmpq	$0, 56(%rsp)
	jne	50f
	movq	16(%rsp), %rax
	movq	24(%rsp), %r12
	movq	%r12, %rcx
	subq	%rax, %rcx
	cmpq	%rcx, %r15
	ja	55f
24:
	leaq	(%rax,%r15), %r13
	movq	8(%rsp), %rcx
	leaq	(%rcx,%rax), %rdi
	movq	%rdi, %rdx
	subq	%r14, %rdx
	cmpq	%r15, %rdx
	jae	30f
	cmpq	$4, %r15
	jb	25f
	cmpq	$32, %rdx
	jae	41f
25:
	xorl	%edx, %edx
26:
	movq	%r15, %r8
	movq	%rdx, %rsi
	andq	$3, %r8
	je	28f
	movq	%rdx, %rsi
27:
	movzbl	(%r14,%rsi), %r9d
	movb	%r9b, (%rdi,%rsi)
	incq	%rsi
	decq	%r8
	jne	27b
28:
	subq	%r15, %rdx
	cmpq	$-4, %rdx
	ja	31f
	addq	%rcx, %rax
	addq	$3, %rax
29:
	movzbl	(%r14,%rsi), %ecx
	movb	%cl, -3(%rax,%rsi)
	movzbl	1(%r14,%rsi), %ecx
	movb	%cl, -2(%rax,%rsi)
	movzbl	2(%r14,%rsi), %ecx
	movb	%cl, -1(%rax,%rsi)
	movzbl	3(%r14,%rsi), %ecx
	movb	%cl, (%rax,%rsi)
	addq	$4, %rsi
	cmpq	%rsi, %r15
	jne	29b
	jmp	31f
30:
	movq	%r14, %rsi
	movq	%r15, %rdx
	callq	memmove@PLT
	leaq	36(%rsp), %r11
31:
	movq	%r13, 16(%rsp)
	movq	%r12, 24(%rsp)
	movq	120(%rsp), %r13
32:
	movl	$32, 32(%rsp)
	movl	$0, 8(%r11)
	movq	$0, (%r11)
	movq	$-1, 48(%rsp)
	cmpq	$0, 56(%rsp)
	jne	56f
	movq	16(%rsp), %rax
	movq	24(%rsp), %rcx
	cmpq	%rax, %rcx
	je	57f
33:
	movq	8(%rsp), %rdx
	movb	$10, (%rdx,%rax)
	incq	%rax
	movq	%rax, 16(%rsp)
	movq	%rcx, 24(%rsp)
34:
	movq	24(%rsp), %rax
	movq	%rax, 103(%rsp)
	movq	8(%rsp), %rax
	movq	%rax, 87(%rsp)
	movq	16(%rsp), %rax
	movq	%rax, 95(%rsp)
	movb	$1, %bpl
	jmp	60f
35:
	movw	%ax, 78(%rsp)
	movw	%di, 76(%rsp)
	movups	%xmm0, 143(%rsp)
	movaps	%xmm0, 128(%rsp)
	movups	%xmm0, 16(%rsp)
	movl	$0, 65(%rsp)
	movl	$0, 68(%rsp)
	leaq	7(%rsp), %rax
	movq	%rax, 8(%rsp)
	movq	$0, 56(%rsp)
	movb	$0, 64(%rsp)
	movl	$32, 32(%rsp)
	movq	$0, 36(%rsp)
	movl	$0, 44(%rsp)
	movq	$-1, 48(%rsp)
	leaq	8(%rsp), %rdi
	movl	$8, %esi
	callq	"std_alloc::vec::Vec::grow_amortized::<#1d775b5957dec42c>"
	testb	%al, %al
	je	38f
	movq	8(%rsp), %rax
	movq	16(%rsp), %rcx
	movabsq	$2336927755350992246, %rdx
	movq	%rdx, (%rax,%rcx)
	addq	$8, %rcx
	movq	%rcx, 16(%rsp)
	leaq	8(%rsp), %rdi
	leaq	78(%rsp), %rsi
	callq	"core::fmt::formatter::Formatter::write_piece::<#6604b212283e4c39>"
	testb	%al, %al
	jne	38f
	leaq	36(%rsp), %rax
	movl	$32, 32(%rsp)
	movl	$0, 8(%rax)
	movq	$0, (%rax)
	movq	$-1, 48(%rsp)
	cmpq	$0, 56(%rsp)
	jne	63f
	movq	16(%rsp), %rax
	movq	24(%rsp), %rcx
	cmpq	%rax, %rcx
	je	64f
36:
	movq	8(%rsp), %rdx
	movb	$46, (%rdx,%rax)
	incq	%rax
	movq	%rax, 16(%rsp)
	movq	%rcx, 24(%rsp)
37:
	leaq	8(%rsp), %rdi
	leaq	76(%rsp), %rsi
	callq	"core::fmt::formatter::Formatter::write_piece::<#6604b212283e4c39>"
	testb	%al, %al
	je	62f
38:
	movb	$1, %r14b
	cmpq	$0, 24(%rsp)
	je	39f
	movq	8(%rsp), %rdi
	callq	rattle_dealloc@PLT
39:
	movq	151(%rsp), %rax
	movq	%rax, 104(%rsp)
	movups	135(%rsp), %xmm0
	movups	%xmm0, 88(%rsp)
	testb	%r14b, %r14b
	jne	5b
	jmp	11b
40:
	cmpq	$32, %rdx
	jae	43f
	xorl	%ecx, %ecx
	jmp	45f
41:
	cmpq	$32, %r15
	jae	51f
	xorl	%edx, %edx
	jmp	53f
42:
	leaq	8(%rsp), %rdi
	callq	"core::fmt::formatter::Formatter::write_indented::<#0a7ff941e43d6b30>"
	leaq	36(%rsp), %r11
	testb	%al, %al
	movq	120(%rsp), %r13
	jne	58f
	jmp	21b
43:
	movq	%rdx, %rcx
	andq	$-32, %rcx
	leaq	(%rax,%r13), %r8
	addq	$16, %r8
	xorl	%r9d, %r9d
44:
	movups	(%rsi,%r9), %xmm0
	movups	16(%rsi,%r9), %xmm1
	movups	%xmm0, -16(%r8,%r9)
	movups	%xmm1, (%r8,%r9)
	addq	$32, %r9
	cmpq	%r9, %rcx
	jne	44b
	cmpq	%rcx, %rdx
	je	20b
	testb	$28, %dl
	je	14b
45:
	movq	%rcx, %r8
	movq	%rdx, %rcx
	andq	$-4, %rcx
46:
	movl	(%rsi,%r8), %r9d
	movl	%r9d, (%rdi,%r8)
	addq	$4, %r8
	cmpq	%r8, %rcx
	jne	46b
	cmpq	%rcx, %rdx
	je	20b
	jmp	14b
47:
	leaq	8(%rsp), %rdi
	movq	%rdx, %rsi
	callq	"std_alloc::vec::Vec::grow_amortized::<#1d775b5957dec42c>"
	leaq	36(%rsp), %r11
	testb	%al, %al
	movq	120(%rsp), %r13
	je	58f
	movq	8(%rsp), %r13
	movq	16(%rsp), %rax
	movq	24(%rsp), %r10
	movq	%r12, %rdx
	movq	%rbp, %rsi
	jmp	12b
48:
	leaq	.L226a292f443d(%rip), %rsi
	leaq	8(%rsp), %rdi
	movl	$2, %edx
	callq	"core::fmt::formatter::Formatter::write_indented::<#0a7ff941e43d6b30>"
	leaq	36(%rsp), %r11
	testb	%al, %al
	jne	58f
	jmp	23b
49:
	leaq	8(%rsp), %rdi
	movl	$2, %esi
	callq	"std_alloc::vec::Vec::grow_amortized::<#1d775b5957dec42c>"
	leaq	36(%rsp), %r11
	testb	%al, %al
	je	58f
	movq	16(%rsp), %rcx
	movq	24(%rsp), %rax
	jmp	22b
50:
	leaq	8(%rsp), %rdi
	movq	%r14, %rsi
	movq	%r15, %rdx
	callq	"core::fmt::formatter::Formatter::write_indented::<#0a7ff941e43d6b30>"
	leaq	36(%rsp), %r11
	testb	%al, %al
	jne	58f
	jmp	32b
51:
	movq	%r15, %rdx
	andq	$-32, %rdx
	leaq	(%rax,%rcx), %rsi
	addq	$16, %rsi
	xorl	%r8d, %r8d
52:
	movups	(%r14,%r8), %xmm0
	movups	16(%r14,%r8), %xmm1
	movups	%xmm0, -16(%rsi,%r8)
	movups	%xmm1, (%rsi,%r8)
	addq	$32, %r8
	cmpq	%r8, %rdx
	jne	52b
	cmpq	%rdx, %r15
	je	31b
	testb	$28, %r15b
	je	26b
53:
	movq	%rdx, %rsi
	movq	%r15, %rdx
	andq	$-4, %rdx
54:
	movl	(%r14,%rsi), %r8d
	movl	%r8d, (%rdi,%rsi)
	addq	$4, %rsi
	cmpq	%rsi, %rdx
	jne	54b
	cmpq	%rdx, %r15
	je	31b
	jmp	26b
55:
	leaq	8(%rsp), %rdi
	movq	%r15, %rsi
	callq	"std_alloc::vec::Vec::grow_amortized::<#1d775b5957dec42c>"
	leaq	36(%rsp), %r11
	testb	%al, %al
	je	58f
	movq	16(%rsp), %rax
	movq	24(%rsp), %r12
	jmp	24b
56:
	leaq	.Lb9d66d2d8f9c(%rip), %rsi
	leaq	8(%rsp), %rdi
	movl	$1, %edx
	callq	"core::fmt::formatter::Formatter::write_indented::<#0a7ff941e43d6b30>"
	testb	%al, %al
	jne	58f
	jmp	34b
57:
	leaq	8(%rsp), %rdi
	movl	$1, %esi
	callq	"std_alloc::vec::Vec::grow_amortized::<#1d775b5957dec42c>"
	testb	%al, %al
	je	58f
	movq	16(%rsp), %rax
	movq	24(%rsp), %rcx
	jmp	33b
58:
	cmpq	$0, 24(%rsp)
	je	59f
	movq	8(%rsp), %rdi
	callq	rattle_dealloc@PLT
59:
	xorl	%ebp, %ebp
60:
	leaq	231(%rsp), %r15
	movq	103(%rsp), %rax
	movq	%rax, 247(%rsp)
	movq	87(%rsp), %rax
	movq	%rax, 231(%rsp)
	movq	95(%rsp), %rax
	movq	%rax, 239(%rsp)
	testq	%r13, %r13
	je	61f
	movq	%r14, %rdi
	callq	rattle_dealloc@PLT
61:
	movq	16(%r15), %rax
	movq	%rax, 279(%rsp)
	movups	(%r15), %xmm0
	movups	%xmm0, 263(%rsp)
	movl	$2, %r8d
	testb	%bpl, %bpl
	je	6b
	leaq	263(%rsp), %rax
	movq	16(%rax), %rcx
	movq	%rcx, 208(%rsp)
	movups	(%rax), %xmm0
	movaps	%xmm0, 192(%rsp)
	xorl	%r8d, %r8d
	jmp	6b
62:
	movq	24(%rsp), %rax
	movq	%rax, 151(%rsp)
	movups	8(%rsp), %xmm0
	movups	%xmm0, 135(%rsp)
	xorl	%r14d, %r14d
	jmp	39b
63:
	leaq	.La487fc8a0498(%rip), %rsi
	leaq	8(%rsp), %rdi
	movl	$1, %edx
	callq	"core::fmt::formatter::Formatter::write_indented::<#0a7ff941e43d6b30>"
	testb	%al, %al
	jne	38b
	jmp	37b
64:
	leaq	8(%rsp), %rdi
	movl	$1, %esi
	callq	"std_alloc::vec::Vec::grow_amortized::<#1d775b5957dec42c>"
	testb	%al, %al
	je	38b
	movq	16(%rsp), %rax
	movq	24(%rsp), %rcx
	jmp	36b
65:
	.size	"mime_tool::cache::faulty", 65b-"mime_tool::cache::faulty"
	.section	.rodata,"a",@progbits
	.p2align	2, 0x0
66:
	.long	1b-66b
	.long	35b-66b
	.long	3b-66b
	.long	9b-66b
	.long	8b-66b
	.long	2b-66b
	.long	18b-66b

	.section	.text.unlikely,"ax",@progbits
	.p2align	4
	.type	"mime_tool::check::first_lines",@function
"mime_tool::check::first_lines":
	pushq	%rbp
	pushq	%r15
	pushq	%r14
	pushq	%r12
	pushq	%rbx
	subq	$256, %rsp
	movq	%rdi, %rbx
	movq	(%rsi), %rax
	movq	8(%rsi), %rcx
	movq	16(%rsi), %rdx
	xorps	%xmm0, %xmm0
	movups	%xmm0, 95(%rsp)
	movaps	%xmm0, 80(%rsp)
	movq	%rax, 160(%rsp)
	movq	%rcx, 152(%rsp)
	movq	%rdx, 144(%rsp)
	movups	%xmm0, 127(%rsp)
	movaps	%xmm0, 112(%rsp)
	movups	%xmm0, 24(%rsp)
	movl	$0, 73(%rsp)
	movl	$0, 76(%rsp)
	leaq	15(%rsp), %rax
	movq	%rax, 16(%rsp)
	movq	$0, 64(%rsp)
	movb	$0, 72(%rsp)
	leaq	.L6816ec0e2931(%rip), %r15
	movq	%r15, 168(%rsp)
	movq	$6, 176(%rsp)
	leaq	160(%rsp), %rax
	movq	%rax, 184(%rsp)
	leaq	.Lc870429636bc(%rip), %r12
	movq	%r12, 192(%rsp)
	movq	$9, 200(%rsp)
	leaq	152(%rsp), %rax
	movq	%rax, 208(%rsp)
	leaq	.Ld07916865064(%rip), %r14
	movq	%r14, 216(%rsp)
	movq	$12, 224(%rsp)
	leaq	144(%rsp), %rax
	movq	%rax, 232(%rsp)
	leaq	.Lb9d66d2d8f9c(%rip), %rax
	movq	%rax, 240(%rsp)
	movq	$1, 248(%rsp)
	movl	$32, 40(%rsp)
	movl	$0, 52(%rsp)
	movq	$0, 44(%rsp)
	movq	$-1, 56(%rsp)
	leaq	16(%rsp), %rdi
	movl	$6, %esi
	callq	"std_alloc::vec::Vec::grow_amortized::<#1d775b5957dec42c>"
	testb	%al, %al
	je	7f
	movq	24(%rsp), %rcx
	leaq	6(%rcx), %rax
	addq	16(%rsp), %rcx
	leaq	184(%rsp), %rsi
	movq	%rcx, %rdx
	subq	%r15, %rdx
	cmpq	$5, %rdx
	ja	1f
	movl	$1701606770, (%rcx)
	movw	$8307, 4(%rcx)
	jmp	2f
1:
	movw	$8307, 4(%rcx)
	movl	$1701606770, (%rcx)
2:
	movq	%rax, 24(%rsp)
	leaq	16(%rsp), %rdi
	callq	"core::fmt::formatter::Formatter::write_piece::<#0584b03bf03810b7>"
	testb	%al, %al
	jne	7f
	leaq	44(%rsp), %r15
	movl	$32, 40(%rsp)
	movl	$0, 8(%r15)
	movq	$0, (%r15)
	movq	$-1, 56(%rsp)
	cmpq	$0, 64(%rsp)
	jne	12f
	movq	24(%rsp), %rcx
	movq	32(%rsp), %rax
	movq	%rax, %rdx
	subq	%rcx, %rdx
	cmpq	$8, %rdx
	jbe	13f
3:
	leaq	9(%rcx), %rdx
	addq	16(%rsp), %rcx
	movq	%rcx, %rsi
	subq	%r12, %rsi
	cmpq	$8, %rsi
	movabsq	$8315179149227221258, %rsi
	movq	%rsi, (%rcx)
	movb	$32, 8(%rcx)
	movq	%rdx, 24(%rsp)
	movq	%rax, 32(%rsp)
4:
	leaq	208(%rsp), %rsi
	leaq	16(%rsp), %rdi
	callq	"core::fmt::formatter::Formatter::write_piece::<#0584b03bf03810b7>"
	testb	%al, %al
	jne	7f
	movl	$32, 40(%rsp)
	movl	$0, 8(%r15)
	movq	$0, (%r15)
	movq	$-1, 56(%rsp)
	cmpq	$0, 64(%rsp)
	jne	14f
	movq	24(%rsp), %rcx
	movq	32(%rsp), %rax
	movq	%rax, %rdx
	subq	%rcx, %rdx
	cmpq	$11, %rdx
	jbe	15f
5:
	leaq	12(%rcx), %rdx
	addq	16(%rsp), %rcx
	movq	%rcx, %rsi
	subq	%r14, %rsi
	cmpq	$11, %rsi
	movabsq	$8314045561212072714, %rsi
	movq	%rsi, (%rcx)
	movl	$544433523, 8(%rcx)
	movq	%rdx, 24(%rsp)
	movq	%rax, 32(%rsp)
6:
	leaq	232(%rsp), %rsi
	leaq	16(%rsp), %rdi
	callq	"core::fmt::formatter::Formatter::write_piece::<#0584b03bf03810b7>"
	testb	%al, %al
	je	9f
7:
	movb	$1, %bpl
	cmpq	$0, 32(%rsp)
	je	8f
	movq	16(%rsp), %rdi
	callq	rattle_dealloc@PLT
8:
	movq	135(%rsp), %rax
	movq	%rax, 103(%rsp)
	movq	119(%rsp), %rax
	movq	%rax, 87(%rsp)
	movq	127(%rsp), %rax
	movq	%rax, 95(%rsp)
	movb	%bpl, (%rbx)
	movq	87(%rsp), %rax
	movq	%rax, 8(%rbx)
	movq	95(%rsp), %rax
	movq	%rax, 16(%rbx)
	movq	103(%rsp), %rax
	movq	%rax, 24(%rbx)
	addq	$256, %rsp
	popq	%rbx
	popq	%r12
	popq	%r14
	popq	%r15
	popq	%rbp
	retq
9:
	movl	$32, 40(%rsp)
	movl	$0, 8(%r15)
	movq	$0, (%r15)
	movq	$-1, 56(%rsp)
	cmpq	$0, 64(%rsp)
	jne	16f
	movq	24(%rsp), %rax
	movq	32(%rsp), %rcx
	cmpq	%rax, %rcx
	je	17f
10:
	movq	16(%rsp), %rdx
	movb	$10, (%rdx,%rax)
	incq	%rax
	movq	%rax, 24(%rsp)
	movq	%rcx, 32(%rsp)
11:
	movq	32(%rsp), %rax
	movq	%rax, 135(%rsp)
	movq	16(%rsp), %rax
	movq	%rax, 119(%rsp)
	movq	24(%rsp), %rax
	movq	%rax, 127(%rsp)
	xorl	%ebp, %ebp
	jmp	8b
12:
	leaq	.Lc870429636bc(%rip), %rsi
	leaq	16(%rsp), %rdi
	movl	$9, %edx
	callq	"core::fmt::formatter::Formatter::write_indented::<#0a7ff941e43d6b30>"
	testb	%al, %al
	jne	7b
	jmp	4b
13:
	leaq	16(%rsp), %rdi
	movl	$9, %esi
	callq	"std_alloc::vec::Vec::grow_amortized::<#1d775b5957dec42c>"
	testb	%al, %al
	je	7b
	movq	24(%rsp), %rcx
	movq	32(%rsp), %rax
	jmp	3b
14:
	leaq	.Ld07916865064(%rip), %rsi
	leaq	16(%rsp), %rdi
	movl	$12, %edx
	callq	"core::fmt::formatter::Formatter::write_indented::<#0a7ff941e43d6b30>"
	testb	%al, %al
	jne	7b
	jmp	6b
15:
	leaq	16(%rsp), %rdi
	movl	$12, %esi
	callq	"std_alloc::vec::Vec::grow_amortized::<#1d775b5957dec42c>"
	testb	%al, %al
	je	7b
	movq	24(%rsp), %rcx
	movq	32(%rsp), %rax
	jmp	5b
16:
	leaq	.Lb9d66d2d8f9c(%rip), %rsi
	leaq	16(%rsp), %rdi
	movl	$1, %edx
	callq	"core::fmt::formatter::Formatter::write_indented::<#0a7ff941e43d6b30>"
	testb	%al, %al
	jne	7b
	jmp	11b
17:
	leaq	16(%rsp), %rdi
	movl	$1, %esi
	callq	"std_alloc::vec::Vec::grow_amortized::<#1d775b5957dec42c>"
	testb	%al, %al
	je	7b
	movq	24(%rsp), %rax
	movq	32(%rsp), %rcx
	jmp	10b
18:
	.size	"mime_tool::check::first_lines", 18b-"mime_tool::check::first_lines"

	.text
	.p2align	4
	.type	"mime_tool::check::lists_of",@function
"mime_tool::check::lists_of":
	pushq	%rbp
	pushq	%r15
	pushq	%r14
	pushq	%r13
	pushq	%r12
	pushq	%rbx
	subq	$680, %rsp
	pxor	%xmm1, %xmm1
	movdqa	%xmm1, 336(%rsp)
	movq	$0, 352(%rsp)
	movq	%rsi, 224(%rsp)
	movq	%rdx, 232(%rsp)
	movdqa	%xmm1, 80(%rsp)
	movq	$0, 96(%rsp)
	leaq	224(%rsp), %rax
	movq	%rax, 112(%rsp)
	movq	$0, 152(%rsp)
	movq	%rdx, 160(%rsp)
	movq	%rdx, 168(%rsp)
	movdqa	%xmm1, 432(%rsp)
	movdqa	%xmm1, 448(%rsp)
	movdqa	%xmm1, 544(%rsp)
	movdqa	%xmm1, 560(%rsp)
	movdqa	%xmm1, 576(%rsp)
	movq	$0, 592(%rsp)
	movdqa	%xmm1, 400(%rsp)
	movdqa	%xmm1, 416(%rsp)
	movdqa	%xmm1, 480(%rsp)
	movdqa	%xmm1, 496(%rsp)
	movdqa	%xmm1, 512(%rsp)
	movq	$0, 528(%rsp)
	movdqa	%xmm1, 368(%rsp)
	movdqa	%xmm1, 384(%rsp)
	movdqa	%xmm1, 608(%rsp)
	movdqa	%xmm1, 624(%rsp)
	movq	$1, 144(%rsp)
	cmpq	$40, %rdx
	jae	3f
1:
	movdqa	%xmm1, 80(%rsp)
	movq	$0, 96(%rsp)
	movb	$1, %al
	movl	%eax, (%rsp)
	xorl	%esi, %esi
	xorl	%ebx, %ebx
	xorl	%edx, %edx
	xorl	%r10d, %r10d
	xorl	%r8d, %r8d
	xorl	%r11d, %r11d
	xorl	%r15d, %r15d
	xorl	%r9d, %r9d
	xorl	%r12d, %r12d
	xorl	%eax, %eax
	xorl	%r14d, %r14d
	xorl	%ebp, %ebp
	xorl	%r13d, %r13d
	xorps	%xmm2, %xmm2
	xorps	%xmm3, %xmm3
	xorps	%xmm4, %xmm4
	xorps	%xmm5, %xmm5
	xorps	%xmm6, %xmm6
	xorps	%xmm7, %xmm7
	xorps	%xmm8, %xmm8
2:
	movq	96(%rsp), %rcx
	movq	%rcx, 352(%rsp)
	movaps	80(%rsp), %xmm0
	movaps	%xmm0, 336(%rsp)
	movl	(%rsp), %ecx
	movb	%cl, (%rdi)
	movb	%sil, 1(%rdi)
	movb	%bl, 2(%rdi)
	movq	%rdx, 8(%rdi)
	movdqu	%xmm1, 16(%rdi)
	movq	%r10, 32(%rdi)
	movq	%r8, 40(%rdi)
	movq	%r11, 48(%rdi)
	movq	%r15, 56(%rdi)
	movups	%xmm2, 64(%rdi)
	movq	%r9, 80(%rdi)
	movups	%xmm3, 88(%rdi)
	movq	%r12, 104(%rdi)
	movups	%xmm4, 112(%rdi)
	movq	%rax, 128(%rdi)
	movups	%xmm5, 136(%rdi)
	movq	%r14, 152(%rdi)
	movups	%xmm6, 160(%rdi)
	movq	%rbp, 176(%rdi)
	movups	%xmm7, 184(%rdi)
	movq	%r13, 200(%rdi)
	movups	%xmm8, 208(%rdi)
	movq	352(%rsp), %rax
	movq	%rax, 240(%rdi)
	movaps	336(%rsp), %xmm0
	movups	%xmm0, 224(%rdi)
	addq	$680, %rsp
	popq	%rbx
	popq	%r12
	popq	%r13
	popq	%r14
	popq	%r15
	popq	%rbp
	retq
3:
	cmpq	$268435456, %rdx
	ja	1b
	cmpl	$33554688, (%rsi)
	jne	1b
	movq	%rdi, 48(%rsp)
	movl	8(%rsi), %eax
	movl	20(%rsi), %ecx
	movl	%ecx, (%rsp)
	movl	24(%rsi), %r14d
	movl	32(%rsi), %ebx
	movl	36(%rsi), %r12d
	movl	4(%rsi), %ebp
	shlq	$32, %rbp
	orq	%rax, %rbp
	bswapq	%rbp
	movl	12(%rsi), %r15d
	movl	16(%rsi), %r13d
	pxor	%xmm0, %xmm0
	movdqa	%xmm0, 192(%rsp)
	movdqa	%xmm0, 176(%rsp)
	movl	%ebp, %edx
	leaq	176(%rsp), %rdi
	leaq	112(%rsp), %rsi
	leaq	144(%rsp), %rcx
	callq	"mime_load::pairs::pairs_at"
	cmpb	$0, 176(%rsp)
	je	4f
	movzbl	177(%rsp), %esi
	testb	%sil, %sil
	sete	%bl
	pxor	%xmm0, %xmm0
	movdqa	%xmm0, 80(%rsp)
	movq	$0, 96(%rsp)
	movb	$1, %al
	movl	%eax, (%rsp)
	xorl	%edx, %edx
	xorl	%r10d, %r10d
	xorl	%r8d, %r8d
	xorl	%r11d, %r11d
	xorl	%r15d, %r15d
	xorl	%r9d, %r9d
	xorl	%r12d, %r12d
	xorl	%eax, %eax
	xorl	%r14d, %r14d
	xorl	%ebp, %ebp
	xorl	%r13d, %r13d
	xorps	%xmm2, %xmm2
	xorps	%xmm3, %xmm3
	xorps	%xmm4, %xmm4
	xorps	%xmm5, %xmm5
	xorps	%xmm6, %xmm6
	xorps	%xmm7, %xmm7
	xorps	%xmm8, %xmm8
	movq	48(%rsp), %rdi
	pxor	%xmm1, %xmm1
	jmp	2b
4:
	movq	%r15, 128(%rsp)
	movq	%r13, 104(%rsp)
	movq	184(%rsp), %rsi
	movq	200(%rsp), %r13
	movdqa	192(%rsp), %xmm1
	shrq	$32, %rbp
	movq	144(%rsp), %rax
	incq	%rax
	movq	$-1, %rcx
	cmovneq	%rax, %rcx
	movq	%rcx, 144(%rsp)
	movq	232(%rsp), %rax
	movq	%rax, %rcx
	subq	%rbp, %rcx
	setb	%dl
	cmpq	$4, %rcx
	setb	%cl
	orb	%dl, %cl
	jne	5f
	movq	224(%rsp), %rcx
	movl	(%rcx,%rbp), %ecx
	movl	%ecx, %r9d
	bswapl	%r9d
	leaq	4(,%r9,8), %rdx
	addq	%rbp, %rdx
	cmpq	%rdx, %rax
	jae	8f
5:
	movb	$2, %al
	movq	%rax, 24(%rsp)
	xorl	%ecx, %ecx
	movq	48(%rsp), %rdi
	testq	%r13, %r13
	je	7f
6:
	movq	%rsi, %rdi
	movq	%rcx, %rbx
	callq	rattle_dealloc@PLT
	movq	%rbx, %rcx
	movq	48(%rsp), %rdi
7:
	pxor	%xmm1, %xmm1
	movdqa	%xmm1, 80(%rsp)
	movq	$0, 96(%rsp)
	movb	$1, %al
	movl	%eax, (%rsp)
	xorl	%edx, %edx
	xorl	%r10d, %r10d
	xorl	%r8d, %r8d
	xorl	%r11d, %r11d
	xorl	%r15d, %r15d
	xorl	%r9d, %r9d
	xorl	%r12d, %r12d
	xorl	%eax, %eax
	xorl	%r14d, %r14d
	xorl	%ebp, %ebp
	xorl	%r13d, %r13d
	xorps	%xmm2, %xmm2
	xorps	%xmm3, %xmm3
	xorps	%xmm4, %xmm4
	xorps	%xmm5, %xmm5
	xorps	%xmm6, %xmm6
	xorps	%xmm7, %xmm7
	xorps	%xmm8, %xmm8
	movq	24(%rsp), %rbx
	movq	%rcx, %rsi
	jmp	2b
8:
	leaq	16(%rsp), %rax
	movq	%rax, 176(%rsp)
	pxor	%xmm0, %xmm0
	movdqu	%xmm0, 184(%rsp)
	testl	%ecx, %ecx
	movq	%rsi, 8(%rsp)
	movdqa	%xmm1, 656(%rsp)
	je	22f
	movl	%r14d, 272(%rsp)
	movl	%ebx, 216(%rsp)
	movl	%r12d, 240(%rsp)
	addq	$4, %rbp
	leaq	.L22d5119de29e(%rip), %rcx
	movq	%rax, 40(%rsp)
	xorl	%r8d, %r8d
	xorl	%r14d, %r14d
	xorl	%r10d, %r10d
	movq	128(%rsp), %rdi
	movq	%r13, 32(%rsp)
	movq	%r9, 288(%rsp)
9:
	movq	%r10, 120(%rsp)
	movq	%rcx, 304(%rsp)
	leaq	(,%r14,8), %rax
	addq	%rbp, %rax
	movq	232(%rsp), %r15
	movq	%r15, %rcx
	movb	$1, %dl
	movq	%rdx, 24(%rsp)
	subq	%rax, %rcx
	jb	47f
	cmpq	$8, %rcx
	jb	47f
	movq	%r14, 320(%rsp)
	movq	224(%rsp), %rbx
	movl	(%rbx,%rax), %r14d
	movl	4(%rbx,%rax), %eax
	shlq	$32, %r14
	orq	%rax, %r14
	bswapq	%r14
	movl	%r14d, %r9d
	movq	%r15, %rax
	subq	%r9, %rax
	jbe	47f
	movq	144(%rsp), %r12
	addq	%rbx, %r9
	cmpq	$32, %rax
	movq	%r9, 72(%rsp)
	jae	11f
10:
	movq	%r8, %r13
	cmpq	$256, %rax
	movl	$256, %edx
	cmovbq	%rax, %rdx
	xorl	%edi, %edi
	movq	%r9, %rsi
	callq	"memchr::bytes::memchr"
	cmpb	$1, %al
	jne	45f
	movq	%rdx, %r10
	movq	%rdx, %rcx
	incq	%rcx
	addq	152(%rsp), %rcx
	movq	$-1, %rax
	cmovaeq	%rcx, %rax
	movq	8(%rsp), %rsi
	movq	%r13, %r8
	movq	32(%rsp), %r13
	movq	128(%rsp), %rdi
	movq	72(%rsp), %r9
	jmp	13f
11:
	movdqu	(%r9), %xmm1
	pxor	%xmm0, %xmm0
	pcmpeqb	%xmm0, %xmm1
	pmovmskb	%xmm1, %edx
	movl	$64, %ecx
	movl	$64, %r10d
	rep		bsfq	%rdx, %r10
	cmpq	$16, %r10
	jb	12f
	movdqu	16(%r9), %xmm1
	pcmpeqb	%xmm0, %xmm1
	pmovmskb	%xmm1, %edx
	rep		bsfq	%rdx, %rcx
	cmpq	$15, %rcx
	ja	10b
	orq	$16, %rcx
	movq	%rcx, %r10
12:
	leaq	1(%r10), %rcx
	addq	152(%rsp), %rcx
	movq	$-1, %rax
	cmovaeq	%rcx, %rax
13:
	shrq	$32, %r14
	addq	$2, %r12
	movq	$-1, %rcx
	cmovaeq	%r12, %rcx
	movq	%rax, 152(%rsp)
	movq	%rcx, 144(%rsp)
	movq	%r15, %rax
	subq	%r14, %rax
	jb	47f
	cmpq	$4, %rax
	jb	47f
	movl	(%rbx,%r14), %ebx
	testl	%ebx, %ebx
	je	47f
	bswapl	%ebx
	leaq	(%r14,%rbx,4), %rax
	addq	$4, %rax
	cmpq	%rax, %r15
	jb	47f
	leaq	(,%rbx,4), %rcx
	movq	160(%rsp), %rax
	subq	%rcx, %rax
	jb	47f
	leaq	4(%r14), %r13
	movq	%rax, 160(%rsp)
	cmpl	$1, %ebx
	adcl	$0, %ebx
	movq	$-4, %r15
	subq	%r14, %r15
	movq	%r10, 64(%rsp)
14:
	movq	144(%rsp), %rax
	incq	%rax
	movq	$-1, %rcx
	cmovneq	%rax, %rcx
	movq	%rcx, 144(%rsp)
	movq	232(%rsp), %rax
	cmpq	%r13, %rax
	jb	46f
	leaq	(%r15,%rax), %rcx
	cmpq	$4, %rcx
	jb	46f
	movq	224(%rsp), %r14
	movl	(%r14,%r13), %ecx
	bswapl	%ecx
	subq	%rcx, %rax
	jbe	46f
	addq	%rcx, %r14
	cmpq	$32, %rax
	jae	16f
15:
	movq	%r13, 56(%rsp)
	movq	%rbp, %r13
	movq	%r15, %rbp
	movq	%rbx, %r15
	movq	%r8, %rbx
	cmpq	$256, %rax
	movl	$256, %edx
	cmovbq	%rax, %rdx
	xorl	%edi, %edi
	movq	%r14, %rsi
	callq	"memchr::bytes::memchr"
	cmpb	$1, %al
	jne	45f
	movq	%rdx, %r12
	movq	%rdx, %rcx
	incq	%rcx
	addq	152(%rsp), %rcx
	movq	$-1, %rax
	cmovaeq	%rcx, %rax
	movq	8(%rsp), %rsi
	movq	%rbx, %r8
	movq	128(%rsp), %rdi
	movq	72(%rsp), %r9
	movq	64(%rsp), %r10
	movq	%r15, %rbx
	movq	%rbp, %r15
	movq	%r13, %rbp
	movq	56(%rsp), %r13
	movq	%rax, 152(%rsp)
	cmpq	%r8, 192(%rsp)
	jne	18f
	jmp	19f
16:
	movdqu	(%r14), %xmm1
	pxor	%xmm0, %xmm0
	pcmpeqb	%xmm0, %xmm1
	pmovmskb	%xmm1, %edx
	movl	$64, %ecx
	movl	$64, %r12d
	rep		bsfq	%rdx, %r12
	cmpq	$16, %r12
	jb	17f
	movdqu	16(%r14), %xmm1
	pcmpeqb	%xmm0, %xmm1
	pmovmskb	%xmm1, %edx
	rep		bsfq	%rdx, %rcx
	cmpq	$15, %rcx
	ja	15b
	orq	$16, %rcx
	movq	%rcx, %r12
17:
	leaq	1(%r12), %rcx
	addq	152(%rsp), %rcx
	movq	$-1, %rax
	cmovaeq	%rcx, %rax
	movq	%rax, 152(%rsp)
	cmpq	%r8, 192(%rsp)
	je	19f
18:
	movq	%r8, %rax
	shlq	$5, %rax
	movq	40(%rsp), %rcx
	movq	%r9, (%rcx,%rax)
	movq	%r10, 8(%rcx,%rax)
	movq	%r14, 16(%rcx,%rax)
	movq	%r12, 24(%rcx,%rax)
	incq	%r8
	movq	%r8, 184(%rsp)
	addq	$4, %r13
	addq	$-4, %r15
	decq	%rbx
	jne	14b
	jmp	20f
19:
	leaq	176(%rsp), %rdi
	callq	"std_alloc::vec::Vec::grow_amortized::<#52d1c8244e310953>"
	testb	%al, %al
	je	44f
	movq	176(%rsp), %rax
	movq	%rax, 40(%rsp)
	movq	184(%rsp), %r8
	movq	8(%rsp), %rsi
	movq	128(%rsp), %rdi
	movq	72(%rsp), %r9
	movq	64(%rsp), %r10
	jmp	18b
20:
	movq	320(%rsp), %r14
	testq	%r14, %r14
	movq	32(%rsp), %r13
	je	21f
	movq	304(%rsp), %rdi
	movq	120(%rsp), %rsi
	movq	%r9, %rdx
	movq	%r10, %rcx
	movq	%r8, %rbx
	callq	"core::cmp::slices::RefSliceOrd::cmp::<#914af4d8504a0b72>"
	movq	64(%rsp), %r10
	movq	72(%rsp), %r9
	movq	128(%rsp), %rdi
	movq	%rbx, %r8
	movq	8(%rsp), %rsi
	testb	%al, %al
	jne	58f
21:
	incq	%r14
	movq	%r9, %rcx
	movq	288(%rsp), %r9
	cmpq	%r9, %r14
	jne	9b
	movq	%r8, 24(%rsp)
	movq	176(%rsp), %rax
	movq	%rax, 40(%rsp)
	movq	192(%rsp), %rax
	movq	%rax, 56(%rsp)
	movl	240(%rsp), %r12d
	movl	216(%rsp), %ebx
	movl	272(%rsp), %r14d
	jmp	23f
22:
	movq	%rax, 40(%rsp)
	movq	$0, 56(%rsp)
	movq	$0, 24(%rsp)
	movq	128(%rsp), %rdi
23:
	shlq	$32, %rdi
	movq	104(%rsp), %rbp
	orq	%rdi, %rbp
	bswapq	%rbp
	leaq	432(%rsp), %rdi
	leaq	112(%rsp), %rsi
	leaq	144(%rsp), %rcx
	movl	%ebp, %edx
	callq	"mime_load::rules::literals_at"
	cmpb	$0, 432(%rsp)
	je	27f
	movzbl	433(%rsp), %esi
	xorl	%ebx, %ebx
	testb	%sil, %sil
	sete	%bl
	cmpq	$0, 56(%rsp)
	je	24f
	movq	40(%rsp), %rdi
	movq	%rsi, %r14
	callq	rattle_dealloc@PLT
	movq	%r14, %rsi
24:
	leal	(%rbx,%rbx,2), %ebx
	testq	%r13, %r13
	je	26f
	movq	8(%rsp), %rdi
	movq	%rsi, %r14
25:
	callq	rattle_dealloc@PLT
	movq	%r14, %rsi
26:
	pxor	%xmm1, %xmm1
	movdqa	%xmm1, 80(%rsp)
	movq	$0, 96(%rsp)
	movb	$1, %al
	movl	%eax, (%rsp)
	jmp	32f
27:
	movl	%r12d, 240(%rsp)
	shrq	$32, %rbp
	movq	440(%rsp), %r12
	movq	456(%rsp), %r15
	movdqa	448(%rsp), %xmm0
	movdqa	%xmm0, 128(%rsp)
	leaq	544(%rsp), %rdi
	leaq	112(%rsp), %rsi
	leaq	144(%rsp), %rcx
	movl	%ebp, %edx
	callq	"mime_load::suffix_tree::leaves_at"
	cmpb	$0, 544(%rsp)
	je	33f
	movzbl	545(%rsp), %esi
	testb	%sil, %sil
	sete	%dl
	testq	%r15, %r15
	movq	%rdx, %rbx
	movq	%rsi, %r14
	je	28f
	movq	%r12, %rdi
	callq	rattle_dealloc@PLT
	movq	%r14, %rsi
	movq	%rbx, %rdx
28:
	cmpq	$0, 56(%rsp)
	je	29f
	movq	40(%rsp), %rdi
	callq	rattle_dealloc@PLT
	movq	%r14, %rsi
	movq	%rbx, %rdx
29:
	testq	%r13, %r13
	je	30f
	movq	8(%rsp), %rdi
	callq	rattle_dealloc@PLT
	movq	%r14, %rsi
	movq	%rbx, %rdx
30:
	shlb	$2, %dl
31:
	pxor	%xmm1, %xmm1
	movdqa	%xmm1, 80(%rsp)
	movq	$0, 96(%rsp)
	movb	$1, %al
	movl	%eax, (%rsp)
	movq	%rdx, %rbx
32:
	xorl	%edx, %edx
	xorl	%r10d, %r10d
	xorl	%r8d, %r8d
	xorl	%r11d, %r11d
	xorl	%r15d, %r15d
	xorl	%r9d, %r9d
	xorl	%r12d, %r12d
	xorl	%eax, %eax
	xorl	%r14d, %r14d
	xorl	%ebp, %ebp
	xorl	%r13d, %r13d
	xorps	%xmm2, %xmm2
	xorps	%xmm3, %xmm3
	xorps	%xmm4, %xmm4
	xorps	%xmm5, %xmm5
	xorps	%xmm6, %xmm6
	xorps	%xmm7, %xmm7
	xorps	%xmm8, %xmm8
	movq	48(%rsp), %rdi
	jmp	2b
33:
	movq	%r15, 72(%rsp)
	movq	%r12, 64(%rsp)
	movl	%r14d, %ebp
	movl	%ebx, %r14d
	movl	(%rsp), %edx
	bswapl	%edx
	movq	552(%rsp), %r12
	movq	568(%rsp), %r15
	movaps	560(%rsp), %xmm0
	movaps	%xmm0, 320(%rsp)
	movq	576(%rsp), %rax
	movq	%rax, 104(%rsp)
	movq	592(%rsp), %rbx
	movdqu	584(%rsp), %xmm0
	movdqa	%xmm0, 304(%rsp)
	leaq	400(%rsp), %rdi
	leaq	112(%rsp), %rsi
	leaq	144(%rsp), %rcx
	callq	"mime_load::rules::globs_at"
	cmpb	$0, 400(%rsp)
	je	38f
	movq	%r15, %rax
	movq	%rbx, %r15
	movzbl	401(%rsp), %esi
	xorl	%ebx, %ebx
	testb	%sil, %sil
	sete	%bpl
	testq	%rax, %rax
	movq	%rsi, %r14
	je	34f
	movq	%r12, %rdi
	callq	rattle_dealloc@PLT
	movq	%r14, %rsi
34:
	testq	%r15, %r15
	je	35f
	movq	104(%rsp), %rdi
	callq	rattle_dealloc@PLT
	movq	%r14, %rsi
35:
	movb	%bpl, %bl
	cmpq	$0, 72(%rsp)
	je	36f
	movq	64(%rsp), %rdi
	callq	rattle_dealloc@PLT
	movq	%r14, %rsi
36:
	cmpq	$0, 56(%rsp)
	je	37f
	movq	40(%rsp), %rdi
	callq	rattle_dealloc@PLT
	movq	%r14, %rsi
37:
	leal	(%rbx,%rbx,4), %ebx
	testq	%r13, %r13
	je	26b
	movq	8(%rsp), %rdi
	jmp	25b
38:
	movl	%ebp, %edx
	bswapl	%edx
	movq	408(%rsp), %rax
	movq	%rax, 120(%rsp)
	movq	424(%rsp), %rbp
	movdqa	416(%rsp), %xmm0
	movdqa	%xmm0, 288(%rsp)
	leaq	480(%rsp), %rdi
	leaq	112(%rsp), %rsi
	leaq	144(%rsp), %rcx
	callq	"mime_load::sections::magic_at"
	cmpb	$0, 480(%rsp)
	je	49f
	movq	%rbx, (%rsp)
	movzbl	481(%rsp), %esi
	xorl	%eax, %eax
	testb	%sil, %sil
	movl	$6, %edx
	cmovnel	%eax, %edx
	testq	%rbp, %rbp
	movq	%rdx, %rbx
	movq	%rsi, %r14
	je	39f
	movq	120(%rsp), %rdi
	callq	rattle_dealloc@PLT
	movq	%r14, %rsi
	movq	%rbx, %rdx
39:
	testq	%r15, %r15
	je	40f
	movq	%r12, %rdi
	callq	rattle_dealloc@PLT
	movq	%r14, %rsi
	movq	%rbx, %rdx
40:
	cmpq	$0, (%rsp)
	movq	64(%rsp), %r12
	je	41f
	movq	104(%rsp), %rdi
	callq	rattle_dealloc@PLT
	movq	%r14, %rsi
	movq	%rbx, %rdx
41:
	cmpq	$0, 72(%rsp)
	je	42f
	movq	%r12, %rdi
	callq	rattle_dealloc@PLT
	movq	%r14, %rsi
	movq	%rbx, %rdx
42:
	cmpq	$0, 56(%rsp)
	je	43f
	movq	40(%rsp), %rdi
	callq	rattle_dealloc@PLT
	movq	%r14, %rsi
	movq	%rbx, %rdx
43:
	testq	%r13, %r13
	movq	8(%rsp), %rdi
	je	31b
	callq	rattle_dealloc@PLT
	movq	%r14, %rsi
	movq	%rbx, %rdx
	jmp	31b
44:
	movq	$0, 24(%rsp)
45:
	movq	8(%rsp), %rsi
46:
	movq	32(%rsp), %r13
47:
	cmpq	$0, 192(%rsp)
	je	48f
	movq	176(%rsp), %rdi
	callq	rattle_dealloc@PLT
	movq	8(%rsp), %rsi
48:
	movq	24(%rsp), %rax
	movl	%eax, %ecx
	xorb	$1, %cl
	addb	%al, %al
	movq	%rax, 24(%rsp)
	movq	48(%rsp), %rdi
	testq	%r13, %r13
	jne	6b
	jmp	7b
49:
	movq	%rbp, 216(%rsp)
	movq	%r15, (%rsp)
	movq	%r13, 32(%rsp)
	movl	%r14d, %edx
	bswapl	%edx
	movq	488(%rsp), %r14
	movq	504(%rsp), %r15
	movaps	496(%rsp), %xmm0
	movaps	%xmm0, 272(%rsp)
	movq	512(%rsp), %rbp
	movq	528(%rsp), %r13
	movdqu	520(%rsp), %xmm0
	movdqa	%xmm0, 640(%rsp)
	leaq	368(%rsp), %rdi
	leaq	112(%rsp), %rsi
	leaq	144(%rsp), %rcx
	callq	"mime_load::pairs::icons_at"
	cmpb	$0, 368(%rsp)
	je	59f
	movzbl	369(%rsp), %ecx
	xorl	%eax, %eax
	movq	%rcx, 128(%rsp)
	testb	%cl, %cl
	movl	$7, %ecx
	cmovnel	%eax, %ecx
	movq	%rcx, 24(%rsp)
	testq	%r15, %r15
	je	50f
	movq	%r14, %rdi
	callq	rattle_dealloc@PLT
50:
	testq	%r13, %r13
	je	51f
	movq	%rbp, %rdi
	callq	rattle_dealloc@PLT
51:
	cmpq	$0, 216(%rsp)
	je	52f
	movq	120(%rsp), %rdi
	callq	rattle_dealloc@PLT
52:
	cmpq	$0, (%rsp)
	je	53f
	movq	%r12, %rdi
	callq	rattle_dealloc@PLT
53:
	testq	%rbx, %rbx
	je	54f
	movq	104(%rsp), %rdi
	callq	rattle_dealloc@PLT
54:
	cmpq	$0, 72(%rsp)
	je	55f
	movq	64(%rsp), %rdi
	callq	rattle_dealloc@PLT
55:
	cmpq	$0, 56(%rsp)
	je	56f
	movq	40(%rsp), %rdi
	callq	rattle_dealloc@PLT
56:
	cmpq	$0, 32(%rsp)
	je	57f
	movq	8(%rsp), %rdi
	callq	rattle_dealloc@PLT
57:
	pxor	%xmm1, %xmm1
	movdqa	%xmm1, 80(%rsp)
	movq	$0, 96(%rsp)
	movb	$1, %al
	movl	%eax, (%rsp)
	xorl	%edx, %edx
	xorl	%r10d, %r10d
	xorl	%r8d, %r8d
	xorl	%r11d, %r11d
	xorl	%r15d, %r15d
	xorl	%r9d, %r9d
	xorl	%r12d, %r12d
	xorl	%eax, %eax
	xorl	%r14d, %r14d
	xorl	%ebp, %ebp
	xorl	%r13d, %r13d
	xorps	%xmm2, %xmm2
	xorps	%xmm3, %xmm3
	xorps	%xmm4, %xmm4
	xorps	%xmm5, %xmm5
	xorps	%xmm6, %xmm6
	xorps	%xmm7, %xmm7
	xorps	%xmm8, %xmm8
	movq	48(%rsp), %rdi
	movq	24(%rsp), %rbx
	jmp	69f
58:
	cmpq	$0, 192(%rsp)
	je	5b
	movq	176(%rsp), %rdi
	callq	rattle_dealloc@PLT
	movq	8(%rsp), %rsi
	jmp	5b
59:
	movq	%r13, 472(%rsp)
	movq	%r12, 264(%rsp)
	movl	240(%rsp), %edx
	bswapl	%edx
	movq	376(%rsp), %r13
	movq	392(%rsp), %r12
	movdqa	384(%rsp), %xmm0
	movdqa	%xmm0, 240(%rsp)
	leaq	608(%rsp), %rdi
	leaq	112(%rsp), %rsi
	leaq	144(%rsp), %rcx
	callq	"mime_load::pairs::icons_at"
	cmpb	$0, 608(%rsp)
	je	70f
	movzbl	609(%rsp), %eax
	movq	%rax, 128(%rsp)
	testb	%al, %al
	sete	%al
	movq	%rax, 24(%rsp)
	testq	%r12, %r12
	je	60f
	movq	%r13, %rdi
	callq	rattle_dealloc@PLT
60:
	testq	%r15, %r15
	je	61f
	movq	%r14, %rdi
	callq	rattle_dealloc@PLT
61:
	cmpq	$0, 472(%rsp)
	je	62f
	movq	%rbp, %rdi
	callq	rattle_dealloc@PLT
62:
	cmpq	$0, 216(%rsp)
	je	63f
	movq	120(%rsp), %rdi
	callq	rattle_dealloc@PLT
63:
	cmpq	$0, (%rsp)
	je	64f
	movq	264(%rsp), %rdi
	callq	rattle_dealloc@PLT
64:
	testq	%rbx, %rbx
	je	65f
	movq	104(%rsp), %rdi
	callq	rattle_dealloc@PLT
65:
	cmpq	$0, 72(%rsp)
	je	66f
	movq	64(%rsp), %rdi
	callq	rattle_dealloc@PLT
66:
	cmpq	$0, 56(%rsp)
	je	67f
	movq	40(%rsp), %rdi
	callq	rattle_dealloc@PLT
67:
	cmpq	$0, 32(%rsp)
	je	68f
	movq	8(%rsp), %rdi
	callq	rattle_dealloc@PLT
68:
	movq	24(%rsp), %rbx
	shlb	$3, %bl
	pxor	%xmm1, %xmm1
	movdqa	%xmm1, 80(%rsp)
	movq	$0, 96(%rsp)
	movb	$1, %al
	movl	%eax, (%rsp)
	xorl	%edx, %edx
	xorl	%r10d, %r10d
	xorl	%r8d, %r8d
	xorl	%r11d, %r11d
	xorl	%r15d, %r15d
	xorl	%r9d, %r9d
	xorl	%r12d, %r12d
	xorl	%eax, %eax
	xorl	%r14d, %r14d
	xorl	%ebp, %ebp
	xorl	%r13d, %r13d
	xorps	%xmm2, %xmm2
	xorps	%xmm3, %xmm3
	xorps	%xmm4, %xmm4
	xorps	%xmm5, %xmm5
	xorps	%xmm6, %xmm6
	xorps	%xmm7, %xmm7
	xorps	%xmm8, %xmm8
	movq	48(%rsp), %rdi
69:
	movq	128(%rsp), %rsi
	jmp	2b
70:
	movq	632(%rsp), %rax
	movq	%rax, 96(%rsp)
	movdqu	616(%rsp), %xmm0
	movdqa	%xmm0, 80(%rsp)
	movl	$0, (%rsp)
	xorl	%esi, %esi
	xorl	%ebx, %ebx
	movq	48(%rsp), %rdi
	movq	8(%rsp), %rdx
	movdqa	656(%rsp), %xmm1
	movq	24(%rsp), %r8
	movq	40(%rsp), %r10
	movq	56(%rsp), %r11
	movq	64(%rsp), %r15
	movq	104(%rsp), %r12
	movq	264(%rsp), %r9
	movq	120(%rsp), %rax
	movaps	128(%rsp), %xmm2
	movaps	320(%rsp), %xmm3
	movaps	304(%rsp), %xmm4
	movaps	288(%rsp), %xmm5
	movaps	272(%rsp), %xmm6
	movaps	640(%rsp), %xmm7
	movaps	240(%rsp), %xmm8
	jmp	2b
71:
	.size	"mime_tool::check::lists_of", 71b-"mime_tool::check::lists_of"

	.section	.text.unlikely,"ax",@progbits
	.p2align	4
	.type	"mime_tool::check::print_counts::<#2e1b2a3647f851f7>",@function
"mime_tool::check::print_counts::<#2e1b2a3647f851f7>":
	pushq	%r15
	pushq	%r14
	pushq	%r12
	pushq	%rbx
	subq	$88, %rsp
	movq	%rsi, %r15
	movq	%rdi, %rbx
	movq	48(%rdx), %rax
	movq	%rax, 80(%rsp)
	movups	(%rdx), %xmm0
	movups	16(%rdx), %xmm1
	movups	32(%rdx), %xmm2
	movaps	%xmm2, 64(%rsp)
	movaps	%xmm1, 48(%rsp)
	movaps	%xmm0, 32(%rsp)
	xorps	%xmm0, %xmm0
	movaps	%xmm0, (%rsp)
	movaps	%xmm0, 16(%rsp)
	movq	%rsp, %rdi
	leaq	32(%rsp), %rsi
	callq	"mime_tool::check::text_of"
	cmpb	$0, (%rsp)
	je	2f
	movw	$1, (%rbx)
	movq	$2, 8(%rbx)
1:
	xorps	%xmm0, %xmm0
	movups	%xmm0, 16(%rbx)
	movq	$0, 32(%rbx)
	jmp	6f
2:
	movq	8(%rsp), %r14
	movq	16(%rsp), %rdx
	movq	24(%rsp), %r12
	testq	%rdx, %rdx
	je	4f
	movq	8(%r15), %rdi
	movq	%r14, %rsi
	callq	"mime_tool::system::StreamSink::put::<#87f05e477b504f42>"
	testb	%al, %al
	je	4f
	incb	%dl
	movzbl	%dl, %r15d
	testq	%r12, %r12
	je	3f
	movq	%r14, %rdi
	callq	rattle_dealloc@PLT
3:
	movw	$1, (%rbx)
	movq	%r15, 8(%rbx)
	jmp	1b
4:
	testq	%r12, %r12
	je	5f
	movq	%r14, %rdi
	callq	rattle_dealloc@PLT
5:
	movw	$0, (%rbx)
	xorps	%xmm0, %xmm0
	movups	%xmm0, 8(%rbx)
	movups	%xmm0, 24(%rbx)
6:
	addq	$88, %rsp
	popq	%rbx
	popq	%r12
	popq	%r14
	popq	%r15
	retq
7:
	.size	"mime_tool::check::print_counts::<#2e1b2a3647f851f7>", 7b-"mime_tool::check::print_counts::<#2e1b2a3647f851f7>"

	.section	.text.unlikely,"ax",@progbits
	.p2align	4
	.type	"mime_tool::check::text_of",@function
"mime_tool::check::text_of":
	pushq	%rbp
	pushq	%r15
	pushq	%r14
	pushq	%r13
	pushq	%r12
	pushq	%rbx
	subq	$456, %rsp
	movq	%rdi, %rbx
	movups	(%rsi), %xmm0
	movups	16(%rsi), %xmm1
	movups	32(%rsi), %xmm2
	movaps	%xmm1, 288(%rsp)
	movaps	%xmm2, 304(%rsp)
	movq	48(%rsi), %rax
	movq	%rax, 320(%rsp)
	movaps	%xmm0, 272(%rsp)
	xorps	%xmm0, %xmm0
	movaps	%xmm0, 240(%rsp)
	movaps	%xmm0, 256(%rsp)
	movaps	%xmm0, 208(%rsp)
	movups	%xmm0, 223(%rsp)
	movq	296(%rsp), %rax
	movq	%rax, 200(%rsp)
	movq	304(%rsp), %rax
	movq	312(%rsp), %rcx
	movq	%rax, 192(%rsp)
	movq	%rcx, 184(%rsp)
	movq	320(%rsp), %rax
	movq	%rax, 176(%rsp)
	leaq	240(%rsp), %rdi
	leaq	272(%rsp), %rsi
	callq	"mime_tool::check::first_lines"
	cmpb	$0, 240(%rsp)
	je	1f
	movb	$1, (%rbx)
	xorps	%xmm0, %xmm0
	movups	%xmm0, 8(%rbx)
	movq	$0, 24(%rbx)
	jmp	46f
1:
	movq	264(%rsp), %rax
	movq	%rax, 96(%rsp)
	movups	248(%rsp), %xmm0
	movaps	%xmm0, 80(%rsp)
	xorps	%xmm0, %xmm0
	movups	%xmm0, 127(%rsp)
	movaps	%xmm0, 112(%rsp)
	movups	%xmm0, 16(%rsp)
	movl	$0, 65(%rsp)
	movl	$0, 68(%rsp)
	leaq	79(%rsp), %r14
	movq	%r14, 8(%rsp)
	movl	$32, 32(%rsp)
	movq	$0, 36(%rsp)
	movl	$0, 44(%rsp)
	movq	$-1, 48(%rsp)
	movq	$0, 56(%rsp)
	movb	$0, 64(%rsp)
	leaq	80(%rsp), %rax
	movq	%rax, 336(%rsp)
	leaq	.L86b0a5dcfbaa(%rip), %r12
	movq	%r12, 344(%rsp)
	movq	$9, 352(%rsp)
	leaq	200(%rsp), %rax
	movq	%rax, 360(%rsp)
	leaq	.L13ac6419e7c4(%rip), %rax
	movq	%rax, 368(%rsp)
	movq	$7, 376(%rsp)
	leaq	192(%rsp), %rax
	movq	%rax, 384(%rsp)
	leaq	.Lac43eb984e3c(%rip), %rax
	movq	%rax, 392(%rsp)
	movq	$7, 400(%rsp)
	leaq	184(%rsp), %rax
	movq	%rax, 408(%rsp)
	leaq	.Lcae166085bec(%rip), %rax
	movq	%rax, 416(%rsp)
	movq	$15, 424(%rsp)
	leaq	176(%rsp), %rax
	movq	%rax, 432(%rsp)
	leaq	.Lb9d66d2d8f9c(%rip), %rax
	movq	%rax, 440(%rsp)
	movq	$1, 448(%rsp)
	movq	48(%rsp), %rax
	movq	%rax, 160(%rsp)
	movups	32(%rsp), %xmm0
	movaps	%xmm0, 144(%rsp)
	movl	$32, 32(%rsp)
	movl	$0, 44(%rsp)
	movq	$0, 36(%rsp)
	movq	$-1, 48(%rsp)
	movq	80(%rsp), %rsi
	movq	88(%rsp), %rdx
	testq	%rdx, %rdx
	jne	22f
	xorl	%r13d, %r13d
	xorl	%eax, %eax
2:
	leaq	16(%rsp), %r15
	leaq	(%rax,%rdx), %rbp
	xorps	%xmm0, %xmm0
	movups	%xmm0, (%r15)
	leaq	(%r14,%rax), %rdi
	movq	%rdi, %rcx
	subq	%rsi, %rcx
	cmpq	%rdx, %rcx
	jae	8f
	cmpq	$4, %rdx
	jb	3f
	cmpq	$32, %rcx
	jae	17f
3:
	xorl	%ecx, %ecx
4:
	movq	%rdx, %r9
	movq	%rcx, %r8
	andq	$3, %r9
	je	6f
	movq	%rcx, %r8
	.p2align	4
5:
	movzbl	(%rsi,%r8), %r10d
	movb	%r10b, (%rdi,%r8)
	incq	%r8
	decq	%r9
	jne	5b
6:
	subq	%rdx, %rcx
	cmpq	$-4, %rcx
	ja	9f
	addq	%r14, %rax
	addq	$3, %rax
	.p2align	4
7:
	movzbl	(%rsi,%r8), %ecx
	movb	%cl, -3(%rax,%r8)
	movzbl	1(%rsi,%r8), %ecx
	movb	%cl, -2(%rax,%r8)
	movzbl	2(%rsi,%r8), %ecx
	movb	%cl, -1(%rax,%r8)
	movzbl	3(%rsi,%r8), %ecx
	movb	%cl, (%rax,%r8)
	addq	$4, %r8
	cmpq	%r8, %rdx
	jne	7b
	jmp	9f
8:
	callq	memmove@PLT
9:
	movq	%r14, 8(%rsp)
	movq	%rbp, 16(%rsp)
	movq	%r13, 24(%rsp)
	movl	$32, 32(%rsp)
	movl	$0, 28(%r15)
	movq	$0, 20(%r15)
	movq	$-1, 48(%rsp)
	cmpq	$0, 56(%rsp)
	jne	23f
	movq	%r13, %rax
	subq	%rbp, %rax
	cmpq	$8, %rax
	jbe	28f
10:
	leaq	(%r14,%rbp), %rax
	addq	$9, %rbp
	movq	%rax, %rdx
	subq	%r12, %rdx
	movabsq	$8317708060514805107, %rcx
	cmpq	$8, %rdx
	movq	%rcx, (%rax)
	movb	$32, 8(%rax)
	movq	%r14, 8(%rsp)
	movq	%rbp, 16(%rsp)
	movq	%r13, 24(%rsp)
11:
	leaq	360(%rsp), %rsi
	leaq	8(%rsp), %rdi
	callq	"core::fmt::formatter::Formatter::write_piece::<#0584b03bf03810b7>"
	testb	%al, %al
	jne	42f
	movl	$32, 32(%rsp)
	movl	$0, 28(%r15)
	movq	$0, 20(%r15)
	movq	$-1, 48(%rsp)
	cmpq	$0, 56(%rsp)
	jne	29f
	movq	16(%rsp), %rax
	movq	24(%rsp), %rcx
	movq	%rcx, %rdx
	subq	%rax, %rdx
	cmpq	$6, %rdx
	jbe	35f
12:
	movq	8(%rsp), %rdx
	leaq	(%rdx,%rax), %rsi
	addq	$7, %rax
	movq	%rsi, %rdi
	leaq	.L13ac6419e7c4(%rip), %r8
	subq	%r8, %rdi
	cmpq	$7, %rdi
	jae	13f
	movl	$1852402698, (%rsi)
	movw	$29541, 4(%rsi)
	movb	$32, 6(%rsi)
	jmp	14f
13:
	movl	$544433518, 3(%rsi)
	movl	$1852402698, (%rsi)
14:
	movq	%rdx, 8(%rsp)
	movq	%rax, 16(%rsp)
	movq	%rcx, 24(%rsp)
15:
	leaq	384(%rsp), %rsi
	leaq	8(%rsp), %rdi
	callq	"core::fmt::formatter::Formatter::write_piece::<#0584b03bf03810b7>"
	testb	%al, %al
	jne	42f
	movl	$32, 32(%rsp)
	movl	$0, 28(%r15)
	movq	$0, 20(%r15)
	movq	$-1, 48(%rsp)
	cmpq	$0, 56(%rsp)
	jne	36f
	movq	16(%rsp), %rax
	movq	24(%rsp), %rcx
	movq	%rcx, %rdx
	subq	%rax, %rdx
	cmpq	$6, %rdx
	jbe	37f
16:
	movq	8(%rsp), %rdx
	leaq	(%rdx,%rax), %rsi
	addq	$7, %rax
	movq	%rsi, %rdi
	leaq	.Lac43eb984e3c(%rip), %r8
	subq	%r8, %rdi
	cmpq	$7, %rdi
	jae	24f
	movl	$1868785930, (%rsi)
	movw	$29550, 4(%rsi)
	movb	$32, 6(%rsi)
	jmp	25f
17:
	cmpq	$32, %rdx
	jae	18f
	xorl	%ecx, %ecx
	jmp	20f
18:
	movq	%rdx, %rcx
	andq	$-32, %rcx
	leaq	(%rax,%r14), %r8
	addq	$16, %r8
	xorl	%r9d, %r9d
	.p2align	4
19:
	movups	(%rsi,%r9), %xmm0
	movups	16(%rsi,%r9), %xmm1
	movups	%xmm0, -16(%r8,%r9)
	movups	%xmm1, (%r8,%r9)
	addq	$32, %r9
	cmpq	%r9, %rcx
	jne	19b
	cmpq	%rcx, %rdx
	je	9b
	testb	$28, %dl
	je	4b
20:
	movq	%rcx, %r8
	movq	%rdx, %rcx
	andq	$-4, %rcx
	.p2align	4
21:
	movl	(%rsi,%r8), %r9d
	movl	%r9d, (%rdi,%r8)
	addq	$4, %r8
	cmpq	%r8, %rcx
	jne	21b
	cmpq	%rcx, %rdx
	je	9b
	jmp	4b
22:
	movq	%rsi, %r15
	leaq	8(%rsp), %rdi
	movq	%rdx, %rbp
	movq	%rdx, %rsi
	callq	"std_alloc::vec::Vec::grow_amortized::<#1d775b5957dec42c>"
	testb	%al, %al
	je	42f
	movq	8(%rsp), %r14
	movq	16(%rsp), %rax
	movq	24(%rsp), %r13
	movq	%r15, %rsi
	movq	%rbp, %rdx
	jmp	2b
23:
	leaq	.L86b0a5dcfbaa(%rip), %rsi
	leaq	8(%rsp), %rdi
	movl	$9, %edx
	callq	"core::fmt::formatter::Formatter::write_indented::<#0a7ff941e43d6b30>"
	testb	%al, %al
	jne	42f
	jmp	11b
24:
	movl	$544435823, 3(%rsi)
	movl	$1868785930, (%rsi)
25:
	movq	%rdx, 8(%rsp)
	movq	%rax, 16(%rsp)
	movq	%rcx, 24(%rsp)
26:
	leaq	408(%rsp), %rsi
	leaq	8(%rsp), %rdi
	callq	"core::fmt::formatter::Formatter::write_piece::<#0584b03bf03810b7>"
	testb	%al, %al
	jne	42f
	movl	$32, 32(%rsp)
	movl	$0, 28(%r15)
	movq	$0, 20(%r15)
	movq	$-1, 48(%rsp)
	cmpq	$0, 56(%rsp)
	jne	38f
	movq	16(%rsp), %rax
	movq	24(%rsp), %rcx
	movq	%rcx, %rdx
	subq	%rax, %rdx
	cmpq	$14, %rdx
	jbe	39f
27:
	movq	8(%rsp), %rdx
	leaq	(%rdx,%rax), %rsi
	addq	$15, %rax
	movq	%rsi, %rdi
	leaq	.Lcae166085bec(%rip), %r8
	subq	%r8, %rdi
	cmpq	$15, %rdi
	jae	30f
	movabsq	$7163382462278887178, %rdi
	movq	%rdi, (%rsi)
	movl	$1868785965, 8(%rsi)
	movw	$29550, 12(%rsi)
	movb	$32, 14(%rsi)
	jmp	31f
28:
	leaq	8(%rsp), %rdi
	movl	$9, %esi
	callq	"std_alloc::vec::Vec::grow_amortized::<#1d775b5957dec42c>"
	testb	%al, %al
	je	42f
	movq	8(%rsp), %r14
	movq	16(%rsp), %rbp
	movq	24(%rsp), %r13
	jmp	10b
29:
	leaq	.L13ac6419e7c4(%rip), %rsi
	leaq	8(%rsp), %rdi
	movl	$7, %edx
	callq	"core::fmt::formatter::Formatter::write_indented::<#0a7ff941e43d6b30>"
	testb	%al, %al
	jne	42f
	jmp	15b
30:
	movabsq	$2338334056223681891, %rdi
	movq	%rdi, 7(%rsi)
	movabsq	$7163382462278887178, %rdi
	movq	%rdi, (%rsi)
31:
	movq	%rdx, 8(%rsp)
	movq	%rax, 16(%rsp)
	movq	%rcx, 24(%rsp)
32:
	leaq	432(%rsp), %rsi
	leaq	8(%rsp), %rdi
	callq	"core::fmt::formatter::Formatter::write_piece::<#0584b03bf03810b7>"
	testb	%al, %al
	jne	42f
	movl	$32, 32(%rsp)
	movl	$0, 28(%r15)
	movq	$0, 20(%r15)
	movq	$-1, 48(%rsp)
	cmpq	$0, 56(%rsp)
	jne	40f
	movq	16(%rsp), %rax
	movq	24(%rsp), %rcx
	cmpq	%rax, %rcx
	je	41f
33:
	movq	8(%rsp), %rdx
	movb	$10, (%rdx,%rax)
	incq	%rax
	movq	%rdx, 8(%rsp)
	movq	%rax, 16(%rsp)
	movq	%rcx, 24(%rsp)
34:
	movq	24(%rsp), %rax
	movq	%rax, 135(%rsp)
	movq	8(%rsp), %rax
	movq	%rax, 119(%rsp)
	movq	16(%rsp), %rax
	movq	%rax, 127(%rsp)
	xorl	%ebp, %ebp
	jmp	44f
35:
	leaq	8(%rsp), %rdi
	movl	$7, %esi
	callq	"std_alloc::vec::Vec::grow_amortized::<#1d775b5957dec42c>"
	testb	%al, %al
	je	42f
	movq	16(%rsp), %rax
	movq	24(%rsp), %rcx
	jmp	12b
36:
	leaq	.Lac43eb984e3c(%rip), %rsi
	leaq	8(%rsp), %rdi
	movl	$7, %edx
	callq	"core::fmt::formatter::Formatter::write_indented::<#0a7ff941e43d6b30>"
	testb	%al, %al
	jne	42f
	jmp	26b
37:
	leaq	8(%rsp), %rdi
	movl	$7, %esi
	callq	"std_alloc::vec::Vec::grow_amortized::<#1d775b5957dec42c>"
	testb	%al, %al
	je	42f
	movq	16(%rsp), %rax
	movq	24(%rsp), %rcx
	jmp	16b
38:
	leaq	.Lcae166085bec(%rip), %rsi
	leaq	8(%rsp), %rdi
	movl	$15, %edx
	callq	"core::fmt::formatter::Formatter::write_indented::<#0a7ff941e43d6b30>"
	testb	%al, %al
	jne	42f
	jmp	32b
39:
	leaq	8(%rsp), %rdi
	movl	$15, %esi
	callq	"std_alloc::vec::Vec::grow_amortized::<#1d775b5957dec42c>"
	testb	%al, %al
	je	42f
	movq	16(%rsp), %rax
	movq	24(%rsp), %rcx
	jmp	27b
40:
	leaq	.Lb9d66d2d8f9c(%rip), %rsi
	leaq	8(%rsp), %rdi
	movl	$1, %edx
	callq	"core::fmt::formatter::Formatter::write_indented::<#0a7ff941e43d6b30>"
	movaps	144(%rsp), %xmm0
	leaq	32(%rsp), %rdx
	movups	%xmm0, (%rdx)
	movq	160(%rsp), %rcx
	movq	%rcx, 16(%rdx)
	testb	%al, %al
	jne	43f
	jmp	34b
41:
	leaq	8(%rsp), %rdi
	movl	$1, %esi
	callq	"std_alloc::vec::Vec::grow_amortized::<#1d775b5957dec42c>"
	testb	%al, %al
	je	42f
	movq	16(%rsp), %rax
	movq	24(%rsp), %rcx
	jmp	33b
42:
	movq	160(%rsp), %rax
	leaq	32(%rsp), %rcx
	movq	%rax, 16(%rcx)
	movaps	144(%rsp), %xmm0
	movups	%xmm0, (%rcx)
43:
	movb	$1, %bpl
	cmpq	$0, 24(%rsp)
	je	44f
	movq	8(%rsp), %rdi
	callq	rattle_dealloc@PLT
44:
	leaq	215(%rsp), %r14
	movq	135(%rsp), %rax
	movq	%rax, 231(%rsp)
	movq	119(%rsp), %rax
	movq	%rax, 215(%rsp)
	movq	127(%rsp), %rax
	movq	%rax, 223(%rsp)
	cmpq	$0, 96(%rsp)
	je	45f
	movq	80(%rsp), %rdi
	callq	rattle_dealloc@PLT
45:
	movb	%bpl, (%rbx)
	movups	(%r14), %xmm0
	movups	%xmm0, 8(%rbx)
	movq	16(%r14), %rax
	movq	%rax, 24(%rbx)
46:
	addq	$456, %rsp
	popq	%rbx
	popq	%r12
	popq	%r13
	popq	%r14
	popq	%r15
	popq	%rbp
	retq
47:
	.size	"mime_tool::check::text_of", 47b-"mime_tool::check::text_of"

	.section	.rodata.cst16,"aM",@progbits,16
	.p2align	4, 0x0
1:
	.byte	0,1,2,3,4,5,6,7,8,9,10,11,12,13,14,15
2:
	.byte	16,17,18,19,20,21,22,23,24,25,26,27,28,29,30,31
	.text
	.p2align	4
	.type	"mime_tool::desk::StreamsDesk::exists::<#6c31bac265adaac4>",@function
"mime_tool::desk::StreamsDesk::exists::<#6c31bac265adaac4>":
	pushq	%rbx
	subq	$272, %rsp
	movq	%rsi, %rcx
	movq	%rdi, %rdx
	xorps	%xmm0, %xmm0
	movaps	%xmm0, 160(%rsp)
	movaps	%xmm0, 144(%rsp)
	movaps	%xmm0, 128(%rsp)
	movaps	%xmm0, 112(%rsp)
	movaps	%xmm0, 96(%rsp)
	movaps	%xmm0, 80(%rsp)
	movaps	%xmm0, 64(%rsp)
	movaps	%xmm0, 48(%rsp)
	movaps	%xmm0, 32(%rsp)
	movaps	%xmm0, 16(%rsp)
	movaps	%xmm0, (%rsp)
	testq	%rsi, %rsi
	je	5f
	xorl	%eax, %eax
	.p2align	4
3:
	cmpb	$0, (%rdx,%rax)
	je	4f
	incq	%rax
	cmpq	%rax, %rcx
	jne	3b
	jmp	5f
4:
	cmpq	%rcx, %rax
	jae	5f
	leaq	.L399de51ae489(%rip), %rcx
	leaq	184(%rsp), %rdi
	movl	$42, %r8d
	movl	$42, %r9d
	movl	$2, %esi
	movl	$20, %edx
	callq	"std_io::io::error::Error::from_bytes"
	movzbl	185(%rsp), %eax
	jmp	6f
5:
	movq	%rsp, %rdi
	xorl	%ebx, %ebx
	movl	$-100, %esi
	xorl	%r8d, %r8d
	callq	"std::fs::stat::stat_at"
	cmpb	$0, (%rsp)
	je	8f
	movzbl	9(%rsp), %eax
6:
	movaps	1b(%rip), %xmm0
	movaps	%xmm0, (%rsp)
	movaps	2b(%rip), %xmm0
	movaps	%xmm0, 16(%rsp)
	movabsq	$2820983053732684064, %rcx
	movq	%rcx, 32(%rsp)
	movb	$40, 40(%rsp)
	cmpb	$41, %al
	jae	7f
	movzbl	%al, %eax
	movzbl	(%rsp,%rax), %eax
	leaq	".Lswitch.table.mime_tool::desk::StreamsDesk::exists::<#6c31bac265adaac4>"(%rip), %rcx
	movzbl	(%rax,%rcx), %ebx
	leaq	".Lswitch.table.mime_tool::desk::StreamsDesk::exists::<#6c31bac265adaac4>.2670"(%rip), %rcx
	movzbl	(%rax,%rcx), %edx
	movl	%ebx, %eax
	addq	$272, %rsp
	popq	%rbx
	retq
7:
	movb	$1, %dl
	xorl	%ebx, %ebx
	movl	%ebx, %eax
	addq	$272, %rsp
	popq	%rbx
	retq
8:
	movb	$1, %dl
	movl	%ebx, %eax
	addq	$272, %rsp
	popq	%rbx
	retq
9:
	.size	"mime_tool::desk::StreamsDesk::exists::<#6c31bac265adaac4>", 9b-"mime_tool::desk::StreamsDesk::exists::<#6c31bac265adaac4>"

	.section	.rodata.cst16,"aM",@progbits,16
	.p2align	4, 0x0
1:
	.byte	0,1,2,3,4,5,6,7,8,9,10,11,12,13,14,15
2:
	.byte	16,17,18,19,20,21,22,23,24,25,26,27,28,29,30,31
3:
	.long	0,2
	.zero	4
	.zero	4
4:
	.long	0,1
	.zero	4
	.zero	4
5:
	.long	1,0,0,0
6:
	.long	0,2,0,0
7:
	.long	0,1,0,0
	.section	.rodata.cst4,"aM",@progbits,4
	.p2align	2, 0x0
8:
	.long	1
	.text
	.p2align	4
	.type	"mime_tool::desk::StreamsDesk::open::<#6c31bac265adaac4>",@function
"mime_tool::desk::StreamsDesk::open::<#6c31bac265adaac4>":
	pushq	%rbx
	subq	$176, %rsp
	movq	%rdi, %rbx
	xorps	%xmm0, %xmm0
	movaps	%xmm0, 48(%rsp)
	movq	$0, 64(%rsp)
	movaps	%xmm0, 160(%rsp)
	movaps	%xmm0, 144(%rsp)
	movaps	%xmm0, 128(%rsp)
	movaps	%xmm0, 112(%rsp)
	movaps	%xmm0, 96(%rsp)
	movaps	%xmm0, 80(%rsp)
	movaps	%xmm0, (%rsp)
	movq	$0, 16(%rsp)
	movq	%rsp, %rdi
	callq	"core::str::utf8::from_utf8"
	cmpb	$0, (%rsp)
	je	12f
9:
	movsd	6b(%rip), %xmm0
10:
	xorl	%eax, %eax
11:
	movlps	%xmm0, (%rbx)
	movl	%eax, 8(%rbx)
	movaps	48(%rsp), %xmm0
	movups	%xmm0, 16(%rbx)
	movq	64(%rsp), %rax
	movq	%rax, 32(%rbx)
	addq	$176, %rsp
	popq	%rbx
	retq
12:
	movq	8(%rsp), %rsi
	movq	16(%rsp), %rdx
	leaq	80(%rsp), %rdi
	callq	"mime_tool::system::open_file::<#a1ba6ce099ef6b20>"
	cmpb	$0, 80(%rsp)
	je	13f
	movzbl	89(%rsp), %eax
	movaps	1b(%rip), %xmm0
	movaps	%xmm0, (%rsp)
	movaps	2b(%rip), %xmm0
	movaps	%xmm0, 16(%rsp)
	movabsq	$2820983053732684064, %rcx
	movq	%rcx, 32(%rsp)
	movb	$40, 40(%rsp)
	cmpq	$41, %rax
	jae	9b
	movzbl	(%rsp,%rax), %eax
	movabsq	$4123168571391, %rcx
	btq	%rax, %rcx
	jb	9b
	cmpq	$15, %rax
	jne	14f
	movsd	7b(%rip), %xmm0
	jmp	10b
13:
	movl	88(%rsp), %eax
	xorps	%xmm0, %xmm0
	jmp	11b
14:
	xorps	%xmm0, %xmm0
	movaps	%xmm0, 48(%rsp)
	movq	$0, 64(%rsp)
	movss	8b(%rip), %xmm0
	movl	$2, %eax
	jmp	11b
15:
	.size	"mime_tool::desk::StreamsDesk::open::<#6c31bac265adaac4>", 15b-"mime_tool::desk::StreamsDesk::open::<#6c31bac265adaac4>"

	.section	.text.unlikely,"ax",@progbits
	.p2align	4
	.type	"mime_tool::desk::report::<#2e1b2a3647f851f7>",@function
"mime_tool::desk::report::<#2e1b2a3647f851f7>":
	pushq	%rbp
	pushq	%r15
	pushq	%r14
	pushq	%r13
	pushq	%r12
	pushq	%rbx
	subq	$88, %rsp
	movq	%r9, %r15
	movq	%r8, %r12
	movq	%rcx, %r13
	movq	%rdx, %rbp
	movq	%rsi, %r14
	movq	%rdi, %rbx
	xorps	%xmm0, %xmm0
	movaps	%xmm0, 48(%rsp)
	movq	$0, 64(%rsp)
	leaq	39(%rsp), %rax
	movq	%rax, (%rsp)
	movups	%xmm0, 8(%rsp)
	movq	%rsp, %rdi
	movl	$10, %esi
	callq	"std_alloc::vec::Vec::grow_amortized::<#1d775b5957dec42c>"
	testb	%al, %al
	je	7f
	movq	%r14, 80(%rsp)
	movq	%rbx, 40(%rsp)
	movq	(%rsp), %r9
	movq	8(%rsp), %rax
	movq	16(%rsp), %r14
	leaq	(%r9,%rax), %rcx
	addq	$10, %rax
	leaq	.Ld9078770f0cd(%rip), %rdx
	movq	%rcx, %rsi
	subq	%rdx, %rsi
	cmpq	$9, %rsi
	movabsq	$7741528795821992301, %rdx
	movq	%rdx, (%rcx)
	movw	$8250, 8(%rcx)
	movq	%rax, 8(%rsp)
	movq	%r14, %rcx
	subq	%rax, %rcx
	cmpq	%rcx, %r13
	ja	32f
1:
	leaq	(%rax,%r13), %rbx
	leaq	(%r9,%rax), %rdi
	movq	%rdi, %rcx
	subq	%rbp, %rcx
	cmpq	%r13, %rcx
	jae	10f
	cmpq	$4, %r13
	jb	2f
	cmpq	$32, %rcx
	jae	26f
2:
	xorl	%ecx, %ecx
3:
	movq	%r13, %rsi
	movq	%rcx, %rdx
	andq	$3, %rsi
	je	5f
	movq	%rcx, %rdx
	.p2align	4
4:
	movzbl	(%rbp,%rdx), %r8d
	movb	%r8b, (%rdi,%rdx)
	incq	%rdx
	decq	%rsi
	jne	4b
5:
	subq	%r13, %rcx
	cmpq	$-4, %rcx
	ja	11f
	addq	%r9, %rax
	addq	$3, %rax
	.p2align	4
6:
	movzbl	(%rbp,%rdx), %ecx
	movb	%cl, -3(%rax,%rdx)
	movzbl	1(%rbp,%rdx), %ecx
	movb	%cl, -2(%rax,%rdx)
	movzbl	2(%rbp,%rdx), %ecx
	movb	%cl, -1(%rax,%rdx)
	movzbl	3(%rbp,%rdx), %ecx
	movb	%cl, (%rax,%rdx)
	addq	$4, %rdx
	cmpq	%rdx, %r13
	jne	6b
	jmp	11f
7:
	cmpq	$0, 16(%rsp)
	je	9f
8:
	movq	(%rsp), %rdi
	callq	rattle_dealloc@PLT
9:
	movb	$1, (%rbx)
	movq	$2, 8(%rbx)
	xorps	%xmm0, %xmm0
	movups	%xmm0, 16(%rbx)
	movq	$0, 32(%rbx)
	jmp	25f
10:
	movq	%rbp, %rsi
	movq	%r13, %rdx
	movq	%r9, %r13
	callq	memmove@PLT
	movq	%r13, %r9
11:
	movq	%rbx, 8(%rsp)
	movq	%r14, 16(%rsp)
	movq	%r14, %rax
	subq	%rbx, %rax
	cmpq	$1, %rax
	jbe	37f
12:
	leaq	(%r9,%rbx), %rax
	addq	$2, %rbx
	leaq	.L226a292f443d(%rip), %rcx
	movq	%rax, %rdx
	subq	%rcx, %rdx
	cmpq	$1, %rdx
	movw	$8250, (%rax)
	movq	%rbx, 8(%rsp)
	movq	%r14, 16(%rsp)
	movq	%r14, %rax
	subq	%rbx, %rax
	cmpq	%rax, %r15
	ja	38f
13:
	leaq	(%rbx,%r15), %r13
	leaq	(%r9,%rbx), %rdi
	movq	%rdi, %rax
	subq	%r12, %rax
	cmpq	%r15, %rax
	jae	19f
	cmpq	$4, %r15
	jb	14f
	cmpq	$32, %rax
	jae	27f
14:
	xorl	%eax, %eax
15:
	movq	%r15, %rdx
	movq	%rax, %rcx
	andq	$3, %rdx
	je	17f
	movq	%rax, %rcx
	.p2align	4
16:
	movzbl	(%r12,%rcx), %esi
	movb	%sil, (%rdi,%rcx)
	incq	%rcx
	decq	%rdx
	jne	16b
17:
	subq	%r15, %rax
	cmpq	$-4, %rax
	ja	20f
	leaq	(%rbx,%r9), %rax
	addq	$3, %rax
	.p2align	4
18:
	movzbl	(%r12,%rcx), %edx
	movb	%dl, -3(%rax,%rcx)
	movzbl	1(%r12,%rcx), %edx
	movb	%dl, -2(%rax,%rcx)
	movzbl	2(%r12,%rcx), %edx
	movb	%dl, -1(%rax,%rcx)
	movzbl	3(%r12,%rcx), %edx
	movb	%dl, (%rax,%rcx)
	addq	$4, %rcx
	cmpq	%rcx, %r15
	jne	18b
	jmp	20f
19:
	movq	%r12, %rsi
	movq	%r15, %rdx
	callq	memmove@PLT
20:
	movq	%r13, 8(%rsp)
	movq	%r14, 16(%rsp)
	cmpq	%r13, %r14
	je	39f
21:
	movq	(%rsp), %r15
	movb	$10, (%r15,%r13)
	movq	80(%rsp), %rax
	movq	8(%rax), %rdi
	callq	"mime_tool::system::StreamSink::flush::<#87f05e477b504f42>"
	testb	%al, %al
	je	22f
	incb	%dl
	xorps	%xmm0, %xmm0
	movaps	%xmm0, (%rsp)
	movq	$0, 16(%rsp)
	movb	$1, %bpl
	jmp	23f
22:
	incq	%r13
	movq	%r15, %rdi
	movq	%r13, %rsi
	callq	"mime_tool::stop::complain::<#6dca9f1b7737a2bb>"
	movl	%eax, %ebp
	xorps	%xmm0, %xmm0
	movaps	%xmm0, (%rsp)
	movq	$0, 16(%rsp)
	movl	%eax, %edx
	addb	%al, %dl
23:
	movzbl	%dl, %ebx
	movq	16(%rsp), %rax
	movq	%rax, 64(%rsp)
	movaps	(%rsp), %xmm0
	movaps	%xmm0, 48(%rsp)
	testq	%r14, %r14
	je	24f
	movq	%r15, %rdi
	callq	rattle_dealloc@PLT
24:
	movq	40(%rsp), %rcx
	movb	%bpl, (%rcx)
	movq	%rbx, 8(%rcx)
	movaps	48(%rsp), %xmm0
	movups	%xmm0, 16(%rcx)
	movq	64(%rsp), %rax
	movq	%rax, 32(%rcx)
25:
	addq	$88, %rsp
	popq	%rbx
	popq	%r12
	popq	%r13
	popq	%r14
	popq	%r15
	popq	%rbp
	retq
26:
	cmpq	$32, %r13
	jae	28f
	xorl	%ecx, %ecx
	jmp	30f
27:
	cmpq	$32, %r15
	jae	33f
	xorl	%eax, %eax
	jmp	35f
28:
	movq	%r13, %rcx
	andq	$-32, %rcx
	leaq	(%rax,%r9), %rdx
	addq	$16, %rdx
	xorl	%esi, %esi
	.p2align	4
29:
	movups	(%rbp,%rsi), %xmm0
	movups	16(%rbp,%rsi), %xmm1
	movups	%xmm0, -16(%rdx,%rsi)
	movups	%xmm1, (%rdx,%rsi)
	addq	$32, %rsi
	cmpq	%rsi, %rcx
	jne	29b
	cmpq	%rcx, %r13
	je	11b
	testb	$28, %r13b
	je	3b
30:
	movq	%rcx, %rdx
	movq	%r13, %rcx
	andq	$-4, %rcx
	.p2align	4
31:
	movl	(%rbp,%rdx), %esi
	movl	%esi, (%rdi,%rdx)
	addq	$4, %rdx
	cmpq	%rdx, %rcx
	jne	31b
	cmpq	%rcx, %r13
	je	11b
	jmp	3b
32:
	movq	%rsp, %rdi
	movq	%r13, %rsi
	callq	"std_alloc::vec::Vec::grow_amortized::<#1d775b5957dec42c>"
	testb	%al, %al
	je	40f
	movq	(%rsp), %r9
	movq	8(%rsp), %rax
	movq	16(%rsp), %r14
	jmp	1b
33:
	movq	%r15, %rax
	andq	$-32, %rax
	leaq	(%rbx,%r9), %rcx
	addq	$16, %rcx
	xorl	%edx, %edx
	.p2align	4
34:
	movups	(%r12,%rdx), %xmm0
	movups	16(%r12,%rdx), %xmm1
	movups	%xmm0, -16(%rcx,%rdx)
	movups	%xmm1, (%rcx,%rdx)
	addq	$32, %rdx
	cmpq	%rdx, %rax
	jne	34b
	cmpq	%rax, %r15
	je	20b
	testb	$28, %r15b
	je	15b
35:
	movq	%rax, %rcx
	movq	%r15, %rax
	andq	$-4, %rax
	.p2align	4
36:
	movl	(%r12,%rcx), %edx
	movl	%edx, (%rdi,%rcx)
	addq	$4, %rcx
	cmpq	%rcx, %rax
	jne	36b
	cmpq	%rax, %r15
	je	20b
	jmp	15b
37:
	movq	%rsp, %rdi
	movl	$2, %esi
	callq	"std_alloc::vec::Vec::grow_amortized::<#1d775b5957dec42c>"
	testb	%al, %al
	je	40f
	movq	(%rsp), %r9
	movq	8(%rsp), %rbx
	movq	16(%rsp), %r14
	jmp	12b
38:
	movq	%rsp, %rdi
	movq	%r15, %rsi
	callq	"std_alloc::vec::Vec::grow_amortized::<#1d775b5957dec42c>"
	testb	%al, %al
	je	40f
	movq	(%rsp), %r9
	movq	8(%rsp), %rbx
	movq	16(%rsp), %r14
	jmp	13b
39:
	movq	%rsp, %rdi
	movl	$1, %esi
	callq	"std_alloc::vec::Vec::grow_amortized::<#1d775b5957dec42c>"
	testb	%al, %al
	je	40f
	movq	8(%rsp), %r13
	movq	16(%rsp), %r14
	jmp	21b
40:
	cmpq	$0, 16(%rsp)
	movq	40(%rsp), %rbx
	jne	8b
	jmp	9b
41:
	.size	"mime_tool::desk::report::<#2e1b2a3647f851f7>", 41b-"mime_tool::desk::report::<#2e1b2a3647f851f7>"

	.text
	.p2align	4
	.type	"mime_tool::directories::line_file::read_lines::<#8e88f010607fa174>",@function
"mime_tool::directories::line_file::read_lines::<#8e88f010607fa174>":
	pushq	%rbp
	pushq	%r15
	pushq	%r14
	pushq	%r13
	pushq	%r12
	pushq	%rbx
	subq	$376, %rsp
	movq	%rsi, %r12
	movq	%rdi, %r14
	pxor	%xmm0, %xmm0
	movdqa	%xmm0, 16(%rsp)
	movdqa	%xmm0, 32(%rsp)
	movq	%rdx, 80(%rsp)
	movq	%rcx, 88(%rsp)
	leaq	.Lbd551c3abc3e(%rip), %rax
	movq	%rax, 96(%rsp)
	movq	$6, 104(%rsp)
	movq	%r8, 112(%rsp)
	movq	%r9, 120(%rsp)
	leaq	16(%rsp), %rdi
	leaq	80(%rsp), %rsi
	callq	"std_alloc::string::String::format::<#ae563473db7f7f6d>"
	cmpb	$0, 16(%rsp)
	je	1f
	movq	$1, (%r14)
	movq	$2, 8(%r14)
	pxor	%xmm0, %xmm0
	movdqu	%xmm0, 16(%r14)
	movdqu	%xmm0, 32(%r14)
	movq	$0, 48(%r14)
	jmp	41f
1:
	movq	24(%rsp), %rbx
	movq	32(%rsp), %r15
	movq	40(%rsp), %rax
	movq	%rax, 312(%rsp)
	pxor	%xmm0, %xmm0
	movdqa	%xmm0, 32(%rsp)
	movdqa	%xmm0, 16(%rsp)
	movq	$0, 48(%rsp)
	leaq	16(%rsp), %rdi
	movq	%rbx, %rsi
	movq	%r15, %rdx
	callq	"mime_tool::system::SystemFilesFiles::whole::<#a1ba6ce099ef6b20>"
	cmpb	$0, 16(%rsp)
	movq	%rbx, 216(%rsp)
	je	2f
	cmpb	$2, 17(%rsp)
	jne	16f
	pxor	%xmm0, %xmm0
	movdqa	%xmm0, 64(%rsp)
	movl	$2, %r12d
	xorl	%r13d, %r13d
	jmp	19f
2:
	movq	%r15, 192(%rsp)
	movq	%r14, 200(%rsp)
	movzbl	24(%rsp), %eax
	xorl	%r15d, %r15d
	movb	%al, 7(%rsp)
	cmpb	$1, %al
	movq	32(%rsp), %r13
	movq	40(%rsp), %rbp
	cmoveq	%rbp, %r15
	leaq	8(%rsp), %rbx
	movq	%r13, 296(%rsp)
	cmovneq	%rbx, %r13
	movq	48(%rsp), %rax
	movq	%rax, 304(%rsp)
	pxor	%xmm0, %xmm0
	movdqa	%xmm0, 240(%rsp)
	movdqa	%xmm0, 224(%rsp)
	movabsq	$-6148914691236517205, %rcx
	movq	%r15, %rax
	mulq	%rcx
	shrq	$4, %rdx
	cmpq	$4096, %rdx
	movl	$4096, %r14d
	cmovbq	%rdx, %r14
	movq	%rbx, %rdx
	cmpq	$24, %r15
	jb	3f
	movq	%r14, %rax
	shlq	$5, %rax
	leaq	(%rax,%rax,2), %rdi
	movl	$8, %esi
	callq	rattle_alloc@PLT
	testb	$1, %al
	je	36f
	pxor	%xmm0, %xmm0
3:
	movq	%rdx, 16(%rsp)
	movq	$0, 24(%rsp)
	movq	%r14, 32(%rsp)
	movq	%rbx, 40(%rsp)
	movdqu	%xmm0, 48(%rsp)
	testq	%r15, %r15
	je	22f
	movq	%r12, 184(%rsp)
	movq	$0, 64(%rsp)
	jmp	6f
	.p2align	4
4:
	movdqa	%xmm0, 240(%rsp)
	movdqa	%xmm0, 224(%rsp)
	cmpb	$1, %r14b
	jne	20f
5:
	incq	%r12
	movq	%rbx, %r13
	subq	%r12, %rbp
	je	20f
6:
	movl	$10, %edi
	movq	%r13, %rsi
	movq	%rbp, %rdx
	callq	"memchr::bytes::memchr"
	movl	%eax, %r14d
	movq	%rdx, %r12
	cmpb	$1, %al
	leaq	1(%r13,%rdx), %rax
	movq	%rdx, %r15
	cmovneq	%rbp, %r15
	leaq	.L22d5119de29e(%rip), %rbx
	cmoveq	%rax, %rbx
	incq	64(%rsp)
	pxor	%xmm0, %xmm0
	movdqa	%xmm0, 352(%rsp)
	movdqa	%xmm0, 336(%rsp)
	testq	%r15, %r15
	je	4b
	cmpb	$35, (%r13)
	je	4b
	movl	$58, %edi
	movq	%r13, %rsi
	movq	%r15, %rdx
	callq	"memchr::bytes::memchr"
	cmpb	$1, %al
	jne	10f
	pxor	%xmm0, %xmm0
	movdqa	%xmm0, 112(%rsp)
	movdqa	%xmm0, 96(%rsp)
	movdqa	%xmm0, 80(%rsp)
	movq	$0, 128(%rsp)
	leaq	80(%rsp), %rdi
	movq	%r13, %rsi
	movq	%rdx, 144(%rsp)
	callq	"mime_base::names::TypeName::new"
	cmpb	$0, 80(%rsp)
	je	7f
	cmpb	$2, 81(%rsp)
	jne	10f
	jmp	33f
7:
	movq	144(%rsp), %rsi
	leaq	1(%rsi), %rax
	movq	%r15, %rdx
	subq	%rax, %rdx
	movzbl	88(%rsp), %r8d
	movq	96(%rsp), %rdi
	movq	112(%rsp), %r9
	movdqu	104(%rsp), %xmm1
	leaq	120(%rsp), %rcx
	movdqu	(%rcx), %xmm0
	movdqa	%xmm0, 256(%rsp)
	pxor	%xmm0, %xmm0
	movdqa	%xmm0, 112(%rsp)
	movdqa	%xmm0, 96(%rsp)
	movdqa	%xmm0, 80(%rsp)
	movq	$0, 128(%rsp)
	leaq	-1(%rdx), %rcx
	cmpq	$254, %rcx
	ja	9f
	addq	%r13, %rsi
	incq	%rsi
	.p2align	4
8:
	cmpq	%rax, %r15
	je	13f
	movzbl	(%r13,%rax), %ecx
	testl	%ecx, %ecx
	je	9f
	incq	%rax
	cmpl	$10, %ecx
	jne	8b
9:
	cmpl	$1, %r8d
	setne	%al
	testq	%r9, %r9
	sete	%cl
	orb	%al, %cl
	jne	10f
	callq	rattle_dealloc@PLT
	.p2align	4
10:
	movaps	352(%rsp), %xmm0
	movaps	%xmm0, 240(%rsp)
	movdqa	336(%rsp), %xmm0
	movdqa	%xmm0, 224(%rsp)
	movq	48(%rsp), %rax
	cmpq	%rax, 56(%rsp)
	je	12f
11:
	movq	40(%rsp), %rcx
	movq	64(%rsp), %rdx
	movq	%rdx, (%rcx,%rax,8)
	incq	%rax
	movq	%rax, 48(%rsp)
	cmpb	$1, %r14b
	je	5b
	jmp	20f
12:
	leaq	40(%rsp), %rdi
	callq	"std_alloc::vec::Vec::grow_amortized::<#33f378437a29c276>"
	testb	%al, %al
	je	47f
	movq	48(%rsp), %rax
	jmp	11b
13:
	movdqa	%xmm1, 144(%rsp)
	movq	%r9, 160(%rsp)
	movq	%r8, %r13
	movq	%rdi, %r15
	leaq	80(%rsp), %rdi
	callq	"smallvec::small_vec::SmallVec::from_slice::<#940dc9c6c8ede164>"
	cmpb	$0, 80(%rsp)
	jne	32f
	movzbl	88(%rsp), %r9d
	movq	96(%rsp), %r8
	movq	112(%rsp), %rcx
	movdqu	104(%rsp), %xmm1
	leaq	120(%rsp), %rax
	movups	(%rax), %xmm0
	movaps	%xmm0, 224(%rsp)
	movdqa	256(%rsp), %xmm0
	movdqa	%xmm0, 240(%rsp)
	movq	24(%rsp), %rax
	cmpq	%rax, 32(%rsp)
	movq	%r15, %rsi
	movq	%r13, %rdi
	je	15f
14:
	movq	16(%rsp), %rcx
	leaq	(%rax,%rax,2), %rdx
	shlq	$5, %rdx
	movq	%rdi, (%rcx,%rdx)
	movq	%rsi, 8(%rcx,%rdx)
	movaps	144(%rsp), %xmm0
	movups	%xmm0, 16(%rcx,%rdx)
	movaps	240(%rsp), %xmm0
	movups	%xmm0, 32(%rcx,%rdx)
	movq	%r9, 48(%rcx,%rdx)
	movq	%r8, 56(%rcx,%rdx)
	movdqu	%xmm1, 64(%rcx,%rdx)
	movdqa	224(%rsp), %xmm0
	movdqu	%xmm0, 80(%rcx,%rdx)
	incq	%rax
	movq	%rax, 24(%rsp)
	cmpb	$1, %r14b
	je	5b
	jmp	20f
15:
	movdqa	%xmm1, 320(%rsp)
	movq	%rcx, 288(%rsp)
	movq	%r9, 136(%rsp)
	movq	%r8, 208(%rsp)
	leaq	16(%rsp), %rdi
	movl	$1, %esi
	callq	"std_alloc::vec::Vec::grow_amortized::<#af4d00d87a514b9c>"
	testb	%al, %al
	je	45f
	movq	24(%rsp), %rax
	movq	%r15, %rsi
	movq	%r13, %rdi
	movq	208(%rsp), %r8
	movq	136(%rsp), %r9
	movdqa	320(%rsp), %xmm1
	jmp	14b
16:
	pxor	%xmm1, %xmm1
	movdqa	%xmm1, 256(%rsp)
	pxor	%xmm0, %xmm0
	movdqa	%xmm0, 64(%rsp)
	movdqa	%xmm1, 272(%rsp)
	leaq	.Ld9078770f0cd(%rip), %rax
	movq	%rax, 80(%rsp)
	movq	$10, 88(%rsp)
	movq	%rbx, 96(%rsp)
	movq	%r15, 104(%rsp)
	leaq	.L38ad3f25f51f(%rip), %rax
	movq	%rax, 112(%rsp)
	movq	$14, 120(%rsp)
	leaq	256(%rsp), %rdi
	leaq	80(%rsp), %rsi
	callq	"std_alloc::string::String::format::<#ae563473db7f7f6d>"
	xorl	%r13d, %r13d
	xorl	%r12d, %r12d
	cmpb	$0, 256(%rsp)
	setne	%al
	jne	17f
	movq	280(%rsp), %r13
17:
	movb	%al, %r12b
	jne	18f
	movdqu	264(%rsp), %xmm0
	movdqa	%xmm0, 64(%rsp)
18:
	addl	%r12d, %r12d
19:
	movl	$1, %r15d
	xorl	%ebx, %ebx
	xorl	%ebp, %ebp
	jmp	39f
20:
	movq	48(%rsp), %rbx
	movq	16(%rsp), %rdx
	movdqu	24(%rsp), %xmm1
	movq	40(%rsp), %rax
	movq	56(%rsp), %rbp
	pxor	%xmm0, %xmm0
	movdqa	%xmm0, 96(%rsp)
	movdqa	%xmm0, 80(%rsp)
	movq	$0, 112(%rsp)
	testq	%rbx, %rbx
	je	23f
	movdqa	%xmm1, 160(%rsp)
	movq	%rbp, 136(%rsp)
	movq	%rdx, 144(%rsp)
	xorl	%r14d, %r14d
	movq	216(%rsp), %r15
	movq	184(%rsp), %r12
	movq	192(%rsp), %r13
21:
	movq	%rax, %rbp
	movq	(%rax,%r14,8), %r8
	leaq	80(%rsp), %rdi
	movq	%r12, %rsi
	movq	%r15, %rdx
	movq	%r13, %rcx
	callq	"mime_tool::directories::line_file::report_line::<#2e1b2a3647f851f7>"
	cmpb	$0, 80(%rsp)
	jne	25f
	incq	%r14
	cmpq	%r14, %rbx
	movq	%rbp, %rax
	jne	21b
	movq	144(%rsp), %rdx
	movq	136(%rsp), %rbp
	movdqa	160(%rsp), %xmm1
	jmp	24f
22:
	movq	%r14, %xmm1
	pslldq	$8, %xmm1
	leaq	8(%rsp), %rax
	xorl	%ebx, %ebx
	xorl	%ebp, %ebp
	jmp	24f
23:
	xorl	%ebx, %ebx
24:
	xorl	%r15d, %r15d
	movq	%rdx, %r12
	movq	%rax, %r13
	movdqa	%xmm1, 64(%rsp)
	jmp	37f
25:
	movzbl	88(%rsp), %r12d
	movaps	96(%rsp), %xmm0
	movaps	%xmm0, 64(%rsp)
	movq	112(%rsp), %r13
	movdqa	160(%rsp), %xmm0
	movq	%xmm0, %r15
	testq	%r15, %r15
	movq	144(%rsp), %rdi
	je	29f
	movq	%rdi, %r14
	jmp	27f
26:
	addq	$96, %r14
	decq	%r15
	je	29f
27:
	movzbl	48(%r14), %ebx
	movq	56(%r14), %rax
	movq	72(%r14), %rcx
	cmpb	$0, (%r14)
	je	28f
	cmpq	$0, 24(%r14)
	je	28f
	movq	8(%r14), %rdi
	movq	%rax, 192(%rsp)
	movq	%rcx, 184(%rsp)
	callq	rattle_dealloc@PLT
	movq	184(%rsp), %rcx
	movq	192(%rsp), %rax
	movdqa	160(%rsp), %xmm0
	movq	144(%rsp), %rdi
28:
	testb	%bl, %bl
	je	26b
	testq	%rcx, %rcx
	je	26b
	movq	%rax, %rdi
	callq	rattle_dealloc@PLT
	movdqa	160(%rsp), %xmm0
	movq	144(%rsp), %rdi
	jmp	26b
29:
	pextrq	$1, %xmm0, %rax
	testq	%rax, %rax
	je	30f
	callq	rattle_dealloc@PLT
30:
	movl	$1, %r15d
	cmpq	$0, 136(%rsp)
	movq	200(%rsp), %r14
	je	31f
	movq	%rbp, %rdi
	callq	rattle_dealloc@PLT
31:
	xorl	%ebx, %ebx
	xorl	%ebp, %ebp
	jmp	38f
32:
	cmpl	$1, %r13d
	setne	%al
	cmpq	$0, 160(%rsp)
	sete	%cl
	orb	%al, %cl
	jne	33f
	movq	%r15, %rdi
	callq	rattle_dealloc@PLT
33:
	movq	16(%rsp), %r14
	movq	24(%rsp), %r12
	movq	32(%rsp), %rax
	movq	%rax, 64(%rsp)
	movq	%r14, %r13
	testq	%r12, %r12
	jne	43f
34:
	cmpq	$0, 64(%rsp)
	je	35f
	movq	%r14, %rdi
	callq	rattle_dealloc@PLT
35:
	cmpq	$0, 56(%rsp)
	je	36f
	movq	40(%rsp), %rdi
	callq	rattle_dealloc@PLT
36:
	pxor	%xmm0, %xmm0
	movdqa	%xmm0, 64(%rsp)
	movl	$2, %r12d
	movl	$1, %r15d
	xorl	%r13d, %r13d
	xorl	%ebx, %ebx
	xorl	%ebp, %ebp
37:
	movq	200(%rsp), %r14
38:
	movzbl	7(%rsp), %eax
	cmpb	$1, %al
	jne	39f
	cmpq	$0, 304(%rsp)
	je	39f
	movq	296(%rsp), %rdi
	callq	rattle_dealloc@PLT
39:
	cmpq	$0, 312(%rsp)
	je	40f
	movq	216(%rsp), %rdi
	callq	rattle_dealloc@PLT
40:
	movq	%r15, (%r14)
	movq	%r12, 8(%r14)
	movdqa	64(%rsp), %xmm0
	movdqu	%xmm0, 16(%r14)
	movq	%r13, 32(%r14)
	movq	%rbx, 40(%r14)
	movq	%rbp, 48(%r14)
41:
	addq	$376, %rsp
	popq	%rbx
	popq	%r12
	popq	%r13
	popq	%r14
	popq	%r15
	popq	%rbp
	retq
42:
	addq	$96, %r13
	decq	%r12
	je	34b
43:
	movzbl	48(%r13), %r15d
	movq	56(%r13), %rbx
	movq	72(%r13), %rbp
	cmpb	$0, (%r13)
	je	44f
	cmpq	$0, 24(%r13)
	je	44f
	movq	8(%r13), %rdi
	callq	rattle_dealloc@PLT
44:
	testb	%r15b, %r15b
	je	42b
	testq	%rbp, %rbp
	je	42b
	movq	%rbx, %rdi
	callq	rattle_dealloc@PLT
	jmp	42b
45:
	testq	%r13, %r13
	je	46f
	cmpq	$0, 160(%rsp)
	je	46f
	movq	%r15, %rdi
	callq	rattle_dealloc@PLT
46:
	cmpq	$0, 136(%rsp)
	je	47f
	cmpq	$0, 288(%rsp)
	je	47f
	movq	208(%rsp), %rdi
	callq	rattle_dealloc@PLT
47:
	movq	16(%rsp), %r14
	movq	24(%rsp), %r12
	movq	32(%rsp), %rax
	movq	%rax, 64(%rsp)
	testq	%r12, %r12
	je	34b
	movq	%r14, %r13
	jmp	49f
48:
	addq	$96, %r13
	decq	%r12
	je	34b
49:
	movzbl	48(%r13), %r15d
	movq	56(%r13), %rbx
	movq	72(%r13), %rbp
	cmpb	$0, (%r13)
	je	50f
	cmpq	$0, 24(%r13)
	je	50f
	movq	8(%r13), %rdi
	callq	rattle_dealloc@PLT
50:
	testb	%r15b, %r15b
	je	48b
	testq	%rbp, %rbp
	je	48b
	movq	%rbx, %rdi
	callq	rattle_dealloc@PLT
	jmp	48b
51:
	.size	"mime_tool::directories::line_file::read_lines::<#8e88f010607fa174>", 51b-"mime_tool::directories::line_file::read_lines::<#8e88f010607fa174>"

	.text
	.p2align	4
	.type	"mime_tool::directories::line_file::read_lines::<#a396a1851f6c60ad>",@function
"mime_tool::directories::line_file::read_lines::<#a396a1851f6c60ad>":
	pushq	%rbp
	pushq	%r15
	pushq	%r14
	pushq	%r13
	pushq	%r12
	pushq	%rbx
	subq	$408, %rsp
	movq	%rsi, %r12
	movq	%rdi, %r14
	pxor	%xmm0, %xmm0
	movdqa	%xmm0, 32(%rsp)
	movdqa	%xmm0, 48(%rsp)
	movq	%rdx, 112(%rsp)
	movq	%rcx, 120(%rsp)
	leaq	.Lbd551c3abc3e(%rip), %rax
	movq	%rax, 128(%rsp)
	movq	$6, 136(%rsp)
	movq	%r8, 144(%rsp)
	movq	%r9, 152(%rsp)
	leaq	32(%rsp), %rdi
	leaq	112(%rsp), %rsi
	callq	"std_alloc::string::String::format::<#ae563473db7f7f6d>"
	cmpb	$0, 32(%rsp)
	je	1f
	movq	$1, (%r14)
	movq	$2, 8(%r14)
	pxor	%xmm0, %xmm0
	movdqu	%xmm0, 16(%r14)
	movdqu	%xmm0, 32(%r14)
	movq	$0, 48(%r14)
	jmp	49f
1:
	movq	40(%rsp), %rbx
	movq	48(%rsp), %r13
	movq	56(%rsp), %r15
	pxor	%xmm0, %xmm0
	movdqa	%xmm0, 48(%rsp)
	movdqa	%xmm0, 32(%rsp)
	movq	$0, 64(%rsp)
	leaq	32(%rsp), %rdi
	movq	%rbx, %rsi
	movq	%r13, %rdx
	callq	"mime_tool::system::SystemFilesFiles::whole::<#a1ba6ce099ef6b20>"
	cmpb	$0, 32(%rsp)
	movq	%rbx, 232(%rsp)
	movq	%r15, 328(%rsp)
	je	2f
	cmpb	$2, 33(%rsp)
	jne	15f
	pxor	%xmm0, %xmm0
	movdqa	%xmm0, 96(%rsp)
	movl	$2, %r12d
	xorl	%r13d, %r13d
	jmp	18f
2:
	movq	%r13, 208(%rsp)
	movq	%r14, 216(%rsp)
	movzbl	40(%rsp), %eax
	xorl	%r15d, %r15d
	movb	%al, 15(%rsp)
	cmpb	$1, %al
	movq	48(%rsp), %r13
	movq	56(%rsp), %rbp
	cmoveq	%rbp, %r15
	leaq	16(%rsp), %rbx
	movq	%r13, 312(%rsp)
	cmovneq	%rbx, %r13
	movq	64(%rsp), %rax
	movq	%rax, 320(%rsp)
	pxor	%xmm0, %xmm0
	movdqa	%xmm0, 256(%rsp)
	movdqa	%xmm0, 240(%rsp)
	movabsq	$-6148914691236517205, %rcx
	movq	%r15, %rax
	mulq	%rcx
	shrq	$4, %rdx
	cmpq	$4096, %rdx
	movl	$4096, %r14d
	cmovbq	%rdx, %r14
	movq	%rbx, %rdx
	cmpq	$24, %r15
	jb	3f
	movq	%r14, %rax
	shlq	$5, %rax
	leaq	(%rax,%rax,2), %rdi
	movl	$8, %esi
	callq	rattle_alloc@PLT
	testb	$1, %al
	je	44f
	pxor	%xmm0, %xmm0
3:
	movq	%rdx, 32(%rsp)
	movq	$0, 40(%rsp)
	movq	%r14, 48(%rsp)
	movq	%rbx, 56(%rsp)
	movdqu	%xmm0, 64(%rsp)
	testq	%r15, %r15
	je	21f
	movq	%r12, 200(%rsp)
	movl	$1, %ebx
	jmp	6f
	.p2align	4
4:
	movdqa	%xmm0, 256(%rsp)
	movdqa	%xmm0, 240(%rsp)
	cmpb	$1, %al
	jne	19f
5:
	incq	%r12
	subq	%r12, %rbp
	incq	%rbx
	movq	%r14, %r13
	testq	%rbp, %rbp
	je	19f
6:
	movl	$10, %edi
	movq	%r13, %rsi
	movq	%rbp, %rdx
	callq	"memchr::bytes::memchr"
	movq	%rdx, %r12
	cmpb	$1, %al
	movq	%rdx, %r15
	cmovneq	%rbp, %r15
	leaq	1(%r13,%rdx), %rcx
	leaq	.L22d5119de29e(%rip), %r14
	cmoveq	%rcx, %r14
	pxor	%xmm0, %xmm0
	movdqa	%xmm0, 384(%rsp)
	movdqa	%xmm0, 368(%rsp)
	testq	%r15, %r15
	je	4b
	cmpb	$35, (%r13)
	je	4b
	movb	%al, 96(%rsp)
	movl	$32, %edi
	movq	%r13, %rsi
	movq	%r15, %rdx
	callq	"memchr::bytes::memchr"
	cmpb	$1, %al
	jne	8f
	leaq	1(%rdx), %rax
	movq	%rdx, 176(%rsp)
	leaq	(%rdx,%r13), %rsi
	incq	%rsi
	subq	%rax, %r15
	movl	$32, %edi
	movq	%rsi, 24(%rsp)
	movq	%r15, %rdx
	callq	"memchr::bytes::memchr"
	cmpb	$1, %al
	jne	7f
	movq	24(%rsp), %rax
	leaq	(%rax,%rdx), %rsi
	incq	%rsi
	incq	%rdx
	subq	%rdx, %r15
	movl	$32, %edi
	movq	%r15, %rdx
	callq	"memchr::bytes::memchr"
	jmp	8f
7:
	pxor	%xmm0, %xmm0
	movdqa	%xmm0, 144(%rsp)
	movdqa	%xmm0, 128(%rsp)
	movdqa	%xmm0, 112(%rsp)
	movq	$0, 160(%rsp)
	leaq	112(%rsp), %rdi
	movq	%r13, %rsi
	movq	176(%rsp), %rdx
	callq	"mime_base::names::TypeName::new"
	cmpb	$0, 112(%rsp)
	je	10f
	cmpb	$2, 113(%rsp)
	je	32f
	.p2align	4
8:
	movaps	384(%rsp), %xmm0
	movaps	%xmm0, 256(%rsp)
	movdqa	368(%rsp), %xmm0
	movdqa	%xmm0, 240(%rsp)
	movq	64(%rsp), %rax
	cmpq	%rax, 72(%rsp)
	je	11f
9:
	movq	56(%rsp), %rcx
	movq	%rbx, (%rcx,%rax,8)
	incq	%rax
	movq	%rax, 64(%rsp)
	movzbl	96(%rsp), %eax
	cmpb	$1, %al
	je	5b
	jmp	19f
10:
	movzbl	120(%rsp), %eax
	movq	%rax, 176(%rsp)
	movq	128(%rsp), %rax
	movq	%rax, 88(%rsp)
	movq	144(%rsp), %rax
	movq	%rax, 224(%rsp)
	movups	136(%rsp), %xmm0
	movaps	%xmm0, 352(%rsp)
	leaq	152(%rsp), %r13
	movdqu	(%r13), %xmm0
	movdqa	%xmm0, 272(%rsp)
	pxor	%xmm0, %xmm0
	movdqa	%xmm0, 144(%rsp)
	movdqa	%xmm0, 128(%rsp)
	movdqa	%xmm0, 112(%rsp)
	movq	$0, 160(%rsp)
	leaq	112(%rsp), %rdi
	movq	24(%rsp), %rsi
	movq	%r15, %rdx
	callq	"mime_base::names::TypeName::new"
	cmpb	$0, 112(%rsp)
	je	12f
	cmpl	$1, 176(%rsp)
	setne	%cl
	cmpq	$0, 224(%rsp)
	sete	%al
	orb	%cl, %al
	cmpb	$2, 113(%rsp)
	je	31f
	testb	%al, %al
	jne	8b
	movq	88(%rsp), %rdi
	callq	rattle_dealloc@PLT
	jmp	8b
11:
	leaq	56(%rsp), %rdi
	callq	"std_alloc::vec::Vec::grow_amortized::<#33f378437a29c276>"
	testb	%al, %al
	je	38f
	movq	64(%rsp), %rax
	jmp	9b
12:
	movq	176(%rsp), %r15
	movzbl	120(%rsp), %r8d
	movq	128(%rsp), %rdi
	movq	144(%rsp), %rcx
	movdqu	136(%rsp), %xmm1
	movups	(%r13), %xmm0
	movaps	%xmm0, 240(%rsp)
	movdqa	272(%rsp), %xmm0
	movdqa	%xmm0, 256(%rsp)
	movq	40(%rsp), %rax
	cmpq	%rax, 48(%rsp)
	je	14f
13:
	movq	32(%rsp), %rcx
	leaq	(%rax,%rax,2), %rdx
	shlq	$5, %rdx
	movq	%r15, (%rcx,%rdx)
	movq	88(%rsp), %rsi
	movq	%rsi, 8(%rcx,%rdx)
	movaps	352(%rsp), %xmm0
	movups	%xmm0, 16(%rcx,%rdx)
	movaps	256(%rsp), %xmm0
	movups	%xmm0, 32(%rcx,%rdx)
	movq	%r8, 48(%rcx,%rdx)
	movq	%rdi, 56(%rcx,%rdx)
	movdqu	%xmm1, 64(%rcx,%rdx)
	movdqa	240(%rsp), %xmm0
	movdqu	%xmm0, 80(%rcx,%rdx)
	incq	%rax
	movq	%rax, 40(%rsp)
	movzbl	96(%rsp), %eax
	cmpb	$1, %al
	je	5b
	jmp	19f
14:
	movdqa	%xmm1, 336(%rsp)
	movq	%rcx, 304(%rsp)
	movq	%r8, %r13
	movq	%rdi, 24(%rsp)
	leaq	32(%rsp), %rdi
	movl	$1, %esi
	callq	"std_alloc::vec::Vec::grow_amortized::<#af4d00d87a514b9c>"
	testb	%al, %al
	je	36f
	movq	40(%rsp), %rax
	movq	24(%rsp), %rdi
	movq	%r13, %r8
	movdqa	336(%rsp), %xmm1
	jmp	13b
15:
	pxor	%xmm1, %xmm1
	movdqa	%xmm1, 272(%rsp)
	pxor	%xmm0, %xmm0
	movdqa	%xmm0, 96(%rsp)
	movdqa	%xmm1, 288(%rsp)
	leaq	.Ld9078770f0cd(%rip), %rax
	movq	%rax, 112(%rsp)
	movq	$10, 120(%rsp)
	movq	%rbx, 128(%rsp)
	movq	%r13, 136(%rsp)
	leaq	.L38ad3f25f51f(%rip), %rax
	movq	%rax, 144(%rsp)
	movq	$14, 152(%rsp)
	leaq	272(%rsp), %rdi
	leaq	112(%rsp), %rsi
	callq	"std_alloc::string::String::format::<#ae563473db7f7f6d>"
	xorl	%r13d, %r13d
	xorl	%r12d, %r12d
	cmpb	$0, 272(%rsp)
	setne	%al
	jne	16f
	movq	296(%rsp), %r13
16:
	movb	%al, %r12b
	jne	17f
	movdqu	280(%rsp), %xmm0
	movdqa	%xmm0, 96(%rsp)
17:
	addl	%r12d, %r12d
18:
	movl	$1, %r15d
	xorl	%ebx, %ebx
	xorl	%ebp, %ebp
	jmp	47f
19:
	movq	64(%rsp), %rbx
	movq	32(%rsp), %rdx
	movdqu	40(%rsp), %xmm1
	movq	56(%rsp), %rax
	movq	72(%rsp), %rbp
	pxor	%xmm0, %xmm0
	movdqa	%xmm0, 128(%rsp)
	movdqa	%xmm0, 112(%rsp)
	movq	$0, 144(%rsp)
	testq	%rbx, %rbx
	je	22f
	movdqa	%xmm1, 176(%rsp)
	movq	%rbp, 88(%rsp)
	movq	%rdx, 24(%rsp)
	xorl	%r14d, %r14d
	movq	232(%rsp), %r15
	movq	200(%rsp), %r12
	movq	208(%rsp), %r13
20:
	movq	%rax, %rbp
	movq	(%rax,%r14,8), %r8
	leaq	112(%rsp), %rdi
	movq	%r12, %rsi
	movq	%r15, %rdx
	movq	%r13, %rcx
	callq	"mime_tool::directories::line_file::report_line::<#2e1b2a3647f851f7>"
	cmpb	$0, 112(%rsp)
	jne	24f
	incq	%r14
	cmpq	%r14, %rbx
	movq	%rbp, %rax
	jne	20b
	movq	24(%rsp), %rdx
	movq	88(%rsp), %rbp
	movdqa	176(%rsp), %xmm1
	jmp	23f
21:
	movq	%r14, %xmm1
	pslldq	$8, %xmm1
	leaq	16(%rsp), %rax
	xorl	%ebx, %ebx
	xorl	%ebp, %ebp
	jmp	23f
22:
	xorl	%ebx, %ebx
23:
	xorl	%r15d, %r15d
	movq	%rdx, %r12
	movq	%rax, %r13
	movdqa	%xmm1, 96(%rsp)
	jmp	45f
24:
	movzbl	120(%rsp), %r12d
	movaps	128(%rsp), %xmm0
	movaps	%xmm0, 96(%rsp)
	movq	144(%rsp), %r13
	movdqa	176(%rsp), %xmm0
	movq	%xmm0, %r15
	testq	%r15, %r15
	movq	24(%rsp), %rdi
	je	28f
	movq	%rdi, %r14
	jmp	26f
25:
	addq	$96, %r14
	decq	%r15
	je	28f
26:
	movzbl	48(%r14), %ebx
	movq	56(%r14), %rax
	movq	72(%r14), %rcx
	cmpb	$0, (%r14)
	je	27f
	cmpq	$0, 24(%r14)
	je	27f
	movq	8(%r14), %rdi
	movq	%rax, 208(%rsp)
	movq	%rcx, 200(%rsp)
	callq	rattle_dealloc@PLT
	movq	200(%rsp), %rcx
	movq	208(%rsp), %rax
	movdqa	176(%rsp), %xmm0
	movq	24(%rsp), %rdi
27:
	testb	%bl, %bl
	je	25b
	testq	%rcx, %rcx
	je	25b
	movq	%rax, %rdi
	callq	rattle_dealloc@PLT
	movdqa	176(%rsp), %xmm0
	movq	24(%rsp), %rdi
	jmp	25b
28:
	pextrq	$1, %xmm0, %rax
	testq	%rax, %rax
	je	29f
	callq	rattle_dealloc@PLT
29:
	movl	$1, %r15d
	cmpq	$0, 88(%rsp)
	movq	216(%rsp), %r14
	je	30f
	movq	%rbp, %rdi
	callq	rattle_dealloc@PLT
30:
	xorl	%ebx, %ebx
	xorl	%ebp, %ebp
	jmp	46f
31:
	testb	%al, %al
	jne	32f
	movq	88(%rsp), %rdi
	callq	rattle_dealloc@PLT
32:
	movq	32(%rsp), %r14
	movq	40(%rsp), %r12
	movq	48(%rsp), %rax
	movq	%rax, 96(%rsp)
	movq	%r14, %r13
	testq	%r12, %r12
	jne	34f
	jmp	42f
33:
	addq	$96, %r13
	decq	%r12
	je	42f
34:
	movzbl	48(%r13), %r15d
	movq	56(%r13), %rbx
	movq	72(%r13), %rbp
	cmpb	$0, (%r13)
	je	35f
	cmpq	$0, 24(%r13)
	je	35f
	movq	8(%r13), %rdi
	callq	rattle_dealloc@PLT
35:
	testb	%r15b, %r15b
	je	33b
	testq	%rbp, %rbp
	je	33b
	movq	%rbx, %rdi
	callq	rattle_dealloc@PLT
	jmp	33b
36:
	testq	%r15, %r15
	je	37f
	cmpq	$0, 224(%rsp)
	je	37f
	movq	88(%rsp), %rdi
	callq	rattle_dealloc@PLT
37:
	testq	%r13, %r13
	je	38f
	cmpq	$0, 304(%rsp)
	je	38f
	movq	24(%rsp), %rdi
	callq	rattle_dealloc@PLT
38:
	movq	32(%rsp), %r14
	movq	40(%rsp), %r12
	movq	48(%rsp), %rax
	movq	%rax, 96(%rsp)
	testq	%r12, %r12
	je	42f
	movq	%r14, %r13
	jmp	40f
39:
	addq	$96, %r13
	decq	%r12
	je	42f
40:
	movzbl	48(%r13), %r15d
	movq	56(%r13), %rbx
	movq	72(%r13), %rbp
	cmpb	$0, (%r13)
	je	41f
	cmpq	$0, 24(%r13)
	je	41f
	movq	8(%r13), %rdi
	callq	rattle_dealloc@PLT
41:
	testb	%r15b, %r15b
	je	39b
	testq	%rbp, %rbp
	je	39b
	movq	%rbx, %rdi
	callq	rattle_dealloc@PLT
	jmp	39b
42:
	cmpq	$0, 96(%rsp)
	je	43f
	movq	%r14, %rdi
	callq	rattle_dealloc@PLT
43:
	cmpq	$0, 72(%rsp)
	je	44f
	movq	56(%rsp), %rdi
	callq	rattle_dealloc@PLT
44:
	pxor	%xmm0, %xmm0
	movdqa	%xmm0, 96(%rsp)
	movl	$2, %r12d
	movl	$1, %r15d
	xorl	%r13d, %r13d
	xorl	%ebx, %ebx
	xorl	%ebp, %ebp
45:
	movq	216(%rsp), %r14
46:
	movzbl	15(%rsp), %eax
	cmpb	$1, %al
	jne	47f
	cmpq	$0, 320(%rsp)
	je	47f
	movq	312(%rsp), %rdi
	callq	rattle_dealloc@PLT
47:
	cmpq	$0, 328(%rsp)
	je	48f
	movq	232(%rsp), %rdi
	callq	rattle_dealloc@PLT
48:
	movq	%r15, (%r14)
	movq	%r12, 8(%r14)
	movdqa	96(%rsp), %xmm0
	movdqu	%xmm0, 16(%r14)
	movq	%r13, 32(%r14)
	movq	%rbx, 40(%r14)
	movq	%rbp, 48(%r14)
49:
	addq	$408, %rsp
	popq	%rbx
	popq	%r12
	popq	%r13
	popq	%r14
	popq	%r15
	popq	%rbp
	retq
50:
	.size	"mime_tool::directories::line_file::read_lines::<#a396a1851f6c60ad>", 50b-"mime_tool::directories::line_file::read_lines::<#a396a1851f6c60ad>"

	.section	.text.unlikely,"ax",@progbits
	.p2align	4
	.type	"mime_tool::directories::line_file::report_line::<#2e1b2a3647f851f7>",@function
"mime_tool::directories::line_file::report_line::<#2e1b2a3647f851f7>":
	pushq	%rbp
	pushq	%r15
	pushq	%r14
	pushq	%r13
	pushq	%r12
	pushq	%rbx
	subq	$200, %rsp
	movq	%rcx, %r15
	movq	%rdx, %r12
	movq	%rsi, %rbp
	movq	%rdi, %rbx
	xorps	%xmm0, %xmm0
	movaps	%xmm0, 80(%rsp)
	movq	$0, 96(%rsp)
	movq	%r8, 120(%rsp)
	movups	%xmm0, 24(%rsp)
	movl	$0, 73(%rsp)
	movl	$0, 76(%rsp)
	leaq	15(%rsp), %rax
	movq	%rax, 16(%rsp)
	movq	$0, 64(%rsp)
	movb	$0, 72(%rsp)
	leaq	.Ld9078770f0cd(%rip), %r14
	movq	%r14, 128(%rsp)
	movq	$10, 136(%rsp)
	movq	%rdx, 144(%rsp)
	movq	%rcx, 152(%rsp)
	leaq	.Lcbd2e040a5e1(%rip), %rax
	movq	%rax, 160(%rsp)
	movq	$7, 168(%rsp)
	leaq	120(%rsp), %rax
	movq	%rax, 176(%rsp)
	leaq	.L3a4325345b7b(%rip), %rax
	movq	%rax, 184(%rsp)
	movq	$9, 192(%rsp)
	movl	$32, 40(%rsp)
	movq	$0, 44(%rsp)
	movl	$0, 52(%rsp)
	movq	$-1, 56(%rsp)
	leaq	16(%rsp), %rdi
	movl	$10, %esi
	callq	"std_alloc::vec::Vec::grow_amortized::<#1d775b5957dec42c>"
	testb	%al, %al
	je	14f
	leaq	44(%rsp), %r9
	movq	16(%rsp), %r13
	movq	24(%rsp), %rax
	leaq	(%rax,%r13), %rcx
	addq	$10, %rax
	movq	%rcx, %rsi
	subq	%r14, %rsi
	movabsq	$7741528795821992301, %rdx
	cmpq	$9, %rsi
	movq	%rdx, (%rcx)
	movw	$8250, 8(%rcx)
	movq	32(%rsp), %r14
	movq	%rax, 24(%rsp)
	movl	$32, 40(%rsp)
	movl	$0, 8(%r9)
	movq	$0, (%r9)
	movq	$-1, 56(%rsp)
	cmpq	$0, 64(%rsp)
	jne	21f
	movq	%r14, %rcx
	subq	%rax, %rcx
	cmpq	%rcx, %r15
	ja	26f
1:
	movq	%rbp, 112(%rsp)
	leaq	(%rax,%r15), %rbp
	leaq	(%rax,%r13), %rdi
	movq	%rdi, %rcx
	subq	%r12, %rcx
	cmpq	%r15, %rcx
	jae	7f
	cmpq	$4, %r15
	jb	2f
	cmpq	$32, %rcx
	jae	20f
2:
	xorl	%ecx, %ecx
3:
	movq	%r15, %rsi
	movq	%rcx, %rdx
	andq	$3, %rsi
	je	5f
	movq	%rcx, %rdx
	.p2align	4
4:
	movzbl	(%r12,%rdx), %r8d
	movb	%r8b, (%rdi,%rdx)
	incq	%rdx
	decq	%rsi
	jne	4b
5:
	subq	%r15, %rcx
	cmpq	$-4, %rcx
	ja	8f
	addq	%r13, %rax
	addq	$3, %rax
	.p2align	4
6:
	movzbl	(%r12,%rdx), %ecx
	movb	%cl, -3(%rax,%rdx)
	movzbl	1(%r12,%rdx), %ecx
	movb	%cl, -2(%rax,%rdx)
	movzbl	2(%r12,%rdx), %ecx
	movb	%cl, -1(%rax,%rdx)
	movzbl	3(%r12,%rdx), %ecx
	movb	%cl, (%rax,%rdx)
	addq	$4, %rdx
	cmpq	%rdx, %r15
	jne	6b
	jmp	8f
7:
	movq	%r12, %rsi
	movq	%r15, %rdx
	callq	memmove@PLT
	leaq	44(%rsp), %r9
8:
	movq	%r13, 16(%rsp)
	movq	%rbp, 24(%rsp)
	movq	%r14, 32(%rsp)
	movq	112(%rsp), %rbp
	leaq	.L3a4325345b7b(%rip), %r13
9:
	movl	$32, 40(%rsp)
	movl	$0, 8(%r9)
	movq	$0, (%r9)
	movq	$-1, 56(%rsp)
	cmpq	$0, 64(%rsp)
	jne	27f
	movq	24(%rsp), %rcx
	movq	32(%rsp), %rax
	movq	%rax, %rdx
	subq	%rcx, %rdx
	cmpq	$6, %rdx
	jbe	28f
10:
	leaq	7(%rcx), %rdx
	addq	16(%rsp), %rcx
	movq	%rcx, %rsi
	leaq	.Lcbd2e040a5e1(%rip), %rdi
	subq	%rdi, %rsi
	cmpq	$6, %rsi
	ja	11f
	movl	$1768693818, (%rcx)
	movw	$25966, 4(%rcx)
	movb	$32, 6(%rcx)
	jmp	12f
11:
	movl	$543518313, 3(%rcx)
	movl	$1768693818, (%rcx)
12:
	movq	%rdx, 24(%rsp)
	movq	%rax, 32(%rsp)
13:
	leaq	176(%rsp), %rsi
	leaq	16(%rsp), %rdi
	callq	"core::fmt::formatter::Formatter::write_piece::<#0584b03bf03810b7>"
	leaq	44(%rsp), %rcx
	testb	%al, %al
	je	17f
14:
	cmpq	$0, 32(%rsp)
	je	15f
	movq	16(%rsp), %rdi
	callq	rattle_dealloc@PLT
15:
	movb	$1, (%rbx)
	movq	$2, 8(%rbx)
	xorps	%xmm0, %xmm0
	movups	%xmm0, 16(%rbx)
	movq	$0, 32(%rbx)
16:
	addq	$200, %rsp
	popq	%rbx
	popq	%r12
	popq	%r13
	popq	%r14
	popq	%r15
	popq	%rbp
	retq
17:
	movl	$32, 40(%rsp)
	movl	$0, 8(%rcx)
	movq	$0, (%rcx)
	movq	$-1, 56(%rsp)
	cmpq	$0, 64(%rsp)
	jne	29f
	movq	24(%rsp), %r12
	movq	32(%rsp), %r14
	movq	%r14, %rax
	subq	%r12, %rax
	cmpq	$8, %rax
	jbe	33f
18:
	movq	16(%rsp), %r15
	leaq	(%r15,%r12), %rax
	addq	$9, %r12
	movq	%rax, %rcx
	subq	%r13, %rcx
	cmpq	$8, %rcx
	movabsq	$7234314199359777056, %rcx
	movq	%rcx, (%rax)
	movb	$10, 8(%rax)
	movq	8(%rbp), %rdi
	callq	"mime_tool::system::StreamSink::flush::<#87f05e477b504f42>"
	testb	%al, %al
	je	30f
19:
	incb	%dl
	xorps	%xmm0, %xmm0
	movaps	%xmm0, 128(%rsp)
	movq	$0, 144(%rsp)
	movb	$1, %bpl
	jmp	31f
20:
	cmpq	$32, %r15
	jae	22f
	xorl	%ecx, %ecx
	jmp	24f
21:
	leaq	16(%rsp), %rdi
	movq	%r12, %rsi
	movq	%r15, %rdx
	callq	"core::fmt::formatter::Formatter::write_indented::<#0a7ff941e43d6b30>"
	leaq	44(%rsp), %r9
	testb	%al, %al
	leaq	.L3a4325345b7b(%rip), %r13
	jne	14b
	jmp	9b
22:
	movq	%r15, %rcx
	andq	$-32, %rcx
	leaq	(%rax,%r13), %rdx
	addq	$16, %rdx
	xorl	%esi, %esi
	.p2align	4
23:
	movups	(%r12,%rsi), %xmm0
	movups	16(%r12,%rsi), %xmm1
	movups	%xmm0, -16(%rdx,%rsi)
	movups	%xmm1, (%rdx,%rsi)
	addq	$32, %rsi
	cmpq	%rsi, %rcx
	jne	23b
	cmpq	%rcx, %r15
	je	8b
	testb	$28, %r15b
	je	3b
24:
	movq	%rcx, %rdx
	movq	%r15, %rcx
	andq	$-4, %rcx
	.p2align	4
25:
	movl	(%r12,%rdx), %esi
	movl	%esi, (%rdi,%rdx)
	addq	$4, %rdx
	cmpq	%rdx, %rcx
	jne	25b
	cmpq	%rcx, %r15
	je	8b
	jmp	3b
26:
	leaq	16(%rsp), %rdi
	movq	%r15, %rsi
	callq	"std_alloc::vec::Vec::grow_amortized::<#1d775b5957dec42c>"
	leaq	44(%rsp), %r9
	testb	%al, %al
	je	14b
	movq	16(%rsp), %r13
	movq	24(%rsp), %rax
	movq	32(%rsp), %r14
	jmp	1b
27:
	leaq	.Lcbd2e040a5e1(%rip), %rsi
	leaq	16(%rsp), %rdi
	movl	$7, %edx
	callq	"core::fmt::formatter::Formatter::write_indented::<#0a7ff941e43d6b30>"
	testb	%al, %al
	jne	14b
	jmp	13b
28:
	leaq	16(%rsp), %rdi
	movl	$7, %esi
	callq	"std_alloc::vec::Vec::grow_amortized::<#1d775b5957dec42c>"
	testb	%al, %al
	je	14b
	movq	24(%rsp), %rcx
	movq	32(%rsp), %rax
	jmp	10b
29:
	leaq	.L3a4325345b7b(%rip), %rsi
	leaq	16(%rsp), %rdi
	movl	$9, %edx
	callq	"core::fmt::formatter::Formatter::write_indented::<#0a7ff941e43d6b30>"
	testb	%al, %al
	jne	14b
	movq	32(%rsp), %r14
	movq	16(%rsp), %r15
	movq	24(%rsp), %r12
	movq	8(%rbp), %rdi
	callq	"mime_tool::system::StreamSink::flush::<#87f05e477b504f42>"
	testb	%al, %al
	jne	19b
30:
	movq	%r15, %rdi
	movq	%r12, %rsi
	callq	"mime_tool::stop::complain::<#6dca9f1b7737a2bb>"
	movl	%eax, %ebp
	xorps	%xmm0, %xmm0
	movaps	%xmm0, 128(%rsp)
	movq	$0, 144(%rsp)
	movl	%eax, %edx
	addb	%al, %dl
31:
	movzbl	%dl, %r12d
	movq	144(%rsp), %rax
	movq	%rax, 96(%rsp)
	movaps	128(%rsp), %xmm0
	movaps	%xmm0, 80(%rsp)
	testq	%r14, %r14
	je	32f
	movq	%r15, %rdi
	callq	rattle_dealloc@PLT
32:
	movb	%bpl, (%rbx)
	movq	%r12, 8(%rbx)
	movaps	80(%rsp), %xmm0
	movups	%xmm0, 16(%rbx)
	movq	96(%rsp), %rax
	movq	%rax, 32(%rbx)
	jmp	16b
33:
	leaq	16(%rsp), %rdi
	movl	$9, %esi
	callq	"std_alloc::vec::Vec::grow_amortized::<#1d775b5957dec42c>"
	testb	%al, %al
	je	14b
	movq	24(%rsp), %r12
	movq	32(%rsp), %r14
	jmp	18b
34:
	.size	"mime_tool::directories::line_file::report_line::<#2e1b2a3647f851f7>", 34b-"mime_tool::directories::line_file::report_line::<#2e1b2a3647f851f7>"

	.text
	.p2align	4
	.type	"mime_tool::directories::load::<#2e1b2a3647f851f7>",@function
"mime_tool::directories::load::<#2e1b2a3647f851f7>":
	pushq	%rbp
	pushq	%r15
	pushq	%r14
	pushq	%r13
	pushq	%r12
	pushq	%rbx
	subq	$776, %rsp
	movq	%rdx, %rax
	movq	%rsi, %r13
	movq	%rdi, %r12
	movzbl	(%rdx), %r15d
	movzbl	8(%rdx), %r11d
	movq	16(%rdx), %rsi
	movq	24(%rdx), %rdx
	movzbl	32(%rax), %r10d
	movq	40(%rax), %rdi
	movq	48(%rax), %r9
	movzbl	56(%rax), %ebp
	movq	64(%rax), %r14
	movq	72(%rax), %rbx
	movzbl	(%r8), %eax
	addq	$8, %r8
	xorps	%xmm0, %xmm0
	movaps	%xmm0, 720(%rsp)
	movaps	%xmm0, 704(%rsp)
	movaps	%xmm0, 688(%rsp)
	movaps	%xmm0, 672(%rsp)
	movaps	%xmm0, 656(%rsp)
	movaps	%xmm0, 640(%rsp)
	movaps	%xmm0, 624(%rsp)
	movaps	%xmm0, 608(%rsp)
	movaps	%xmm0, 592(%rsp)
	movq	$0, 736(%rsp)
	movaps	%xmm0, 304(%rsp)
	movq	$0, 320(%rsp)
	cmpb	$0, (%rcx)
	je	1f
	movq	%r13, 168(%rsp)
	movaps	%xmm0, 96(%rsp)
	movq	$0, 112(%rsp)
	movaps	%xmm0, 176(%rsp)
	movaps	%xmm0, 192(%rsp)
	movaps	%xmm0, 208(%rsp)
	movaps	%xmm0, 224(%rsp)
	movaps	%xmm0, 240(%rsp)
	movaps	%xmm0, 256(%rsp)
	movaps	%xmm0, 272(%rsp)
	movaps	%xmm0, 528(%rsp)
	movq	$0, 544(%rsp)
	cmpb	$1, %r15b
	jne	2f
	movq	%rax, 56(%rsp)
	movups	(%r8), %xmm0
	movaps	%xmm0, 752(%rsp)
	xorps	%xmm0, %xmm0
	movaps	%xmm0, 368(%rsp)
	movaps	%xmm0, 384(%rsp)
	movaps	%xmm0, 400(%rsp)
	movaps	%xmm0, 416(%rsp)
	movaps	%xmm0, 432(%rsp)
	movaps	%xmm0, 448(%rsp)
	movaps	%xmm0, 464(%rsp)
	movaps	%xmm0, 480(%rsp)
	movaps	%xmm0, 496(%rsp)
	movq	$0, 512(%rsp)
	movaps	%xmm0, 336(%rsp)
	movq	$0, 352(%rsp)
	movaps	%xmm0, (%rsp)
	movaps	%xmm0, 16(%rsp)
	movaps	%xmm0, 64(%rsp)
	movaps	%xmm0, 80(%rsp)
	cmpb	$1, %r11b
	setne	%al
	testq	%rdx, %rdx
	sete	%cl
	orb	%al, %cl
	je	4f
	cmpb	$1, %r10b
	setne	%al
	testq	%r9, %r9
	sete	%cl
	orb	%al, %cl
	je	5f
	leaq	.L22d5119de29e(%rip), %rsi
	leaq	64(%rsp), %rdi
	xorl	%edx, %edx
	callq	"std_alloc::string::String::format::<#cba637970f1a6228>"
	jmp	6f
1:
	movq	8(%rcx), %rdx
	movq	16(%rcx), %rcx
	movq	%rax, 304(%rsp)
	movups	(%r8), %xmm0
	movups	%xmm0, 312(%rsp)
	leaq	592(%rsp), %rdi
	leaq	304(%rsp), %r8
	movq	%r13, %rsi
	callq	"mime_tool::directories::load_these::<#2e1b2a3647f851f7>"
	movzbl	592(%rsp), %eax
	jmp	10f
2:
	movaps	%xmm0, 368(%rsp)
	movaps	%xmm0, 384(%rsp)
	movaps	%xmm0, (%rsp)
	movq	$0, 16(%rsp)
	leaq	.L0ed347691fda(%rip), %rsi
	leaq	368(%rsp), %rdi
	movl	$67, %edx
	callq	"std_alloc::string::String::format::<#cba637970f1a6228>"
	movl	$2, %ecx
	cmpb	$0, 368(%rsp)
	jne	3f
	movq	392(%rsp), %rax
	movq	%rax, 16(%rsp)
	movups	376(%rsp), %xmm0
	movaps	%xmm0, (%rsp)
	xorl	%ecx, %ecx
3:
	movq	16(%rsp), %rax
	movq	%rax, 544(%rsp)
	movaps	(%rsp), %xmm0
	movaps	%xmm0, 528(%rsp)
	movaps	%xmm0, 96(%rsp)
	movq	%rax, 112(%rsp)
	jmp	8f
4:
	movq	%rsp, %rdi
	callq	"std_alloc::string::String::format::<#cba637970f1a6228>"
	movzbl	(%rsp), %eax
	testb	%al, %al
	jne	7f
	jmp	11f
5:
	movq	%rdi, 560(%rsp)
	movq	%r9, 568(%rsp)
	leaq	.Leb88b6dc7e6f(%rip), %rax
	movq	%rax, 576(%rsp)
	movq	$13, 584(%rsp)
	leaq	64(%rsp), %rdi
	leaq	560(%rsp), %rsi
	callq	"std_alloc::string::String::format::<#004689434896fd94>"
6:
	movzbl	64(%rsp), %eax
	movups	72(%rsp), %xmm0
	movups	%xmm0, 8(%rsp)
	movq	88(%rsp), %rcx
	movq	%rcx, 24(%rsp)
	testb	%al, %al
	je	11f
7:
	xorps	%xmm0, %xmm0
	movaps	%xmm0, 96(%rsp)
	movq	$0, 112(%rsp)
	movaps	%xmm0, 176(%rsp)
	movaps	%xmm0, 192(%rsp)
	movaps	%xmm0, 208(%rsp)
	movaps	%xmm0, 224(%rsp)
	movaps	%xmm0, 240(%rsp)
	movaps	%xmm0, 256(%rsp)
	movaps	%xmm0, 272(%rsp)
	movl	$2, %ecx
8:
	movb	$1, %al
9:
	movq	%rcx, 600(%rsp)
	movaps	96(%rsp), %xmm0
	movaps	%xmm0, 608(%rsp)
	movq	112(%rsp), %rcx
	movq	%rcx, 624(%rsp)
	movaps	176(%rsp), %xmm0
	movaps	192(%rsp), %xmm1
	movaps	208(%rsp), %xmm2
	movaps	224(%rsp), %xmm3
	movups	%xmm0, 632(%rsp)
	movups	%xmm1, 648(%rsp)
	movups	%xmm2, 664(%rsp)
	movups	%xmm3, 680(%rsp)
	movaps	240(%rsp), %xmm0
	movups	%xmm0, 696(%rsp)
	movaps	256(%rsp), %xmm0
	movups	%xmm0, 712(%rsp)
	movaps	272(%rsp), %xmm0
	movups	%xmm0, 728(%rsp)
10:
	movzbl	%al, %eax
	leaq	600(%rsp), %rsi
	movq	%rax, (%r12)
	addq	$8, %r12
	movl	$144, %edx
	movq	%r12, %rdi
	callq	memcpy@PLT
	addq	$776, %rsp
	popq	%rbx
	popq	%r12
	popq	%r13
	popq	%r14
	popq	%r15
	popq	%rbp
	retq
11:
	movq	%r12, 136(%rsp)
	movq	8(%rsp), %rax
	movq	%rax, 128(%rsp)
	movq	16(%rsp), %rax
	movq	%rax, 296(%rsp)
	movq	24(%rsp), %rax
	movq	%rax, 120(%rsp)
	cmpb	$1, %bpl
	sete	%al
	testq	%rbx, %rbx
	setne	%cl
	leaq	.L78410b8842b3(%rip), %r12
	testb	%cl, %al
	cmovneq	%r14, %r12
	movl	$27, %r14d
	cmovneq	%rbx, %r14
	leaq	40(%rsp), %rbp
	movq	%rbp, 64(%rsp)
	xorps	%xmm0, %xmm0
	movups	%xmm0, 72(%rsp)
	movq	$0, 160(%rsp)
	movq	$0, 48(%rsp)
	xorl	%r15d, %r15d
	movq	$0, 32(%rsp)
12:
	movq	%rbp, 152(%rsp)
	movq	%r14, %rbx
13:
	xorps	%xmm0, %xmm0
	movaps	%xmm0, (%rsp)
	movq	$0, 16(%rsp)
	movq	%rsp, %rdi
	movl	$58, %esi
	movq	%r12, %rdx
	movq	%rbx, %rcx
	callq	"core::iter::pattern::CharPattern::first_in"
	cmpb	$1, (%rsp)
	jne	14f
	movq	16(%rsp), %rax
	testq	%rax, %rax
	sete	%cl
	andb	%cl, %r15b
	cmpb	$1, %r15b
	jne	15f
	testq	%rbx, %rbx
	je	14f
	movzbl	(%r12), %edx
	movl	$1, %ecx
	movl	$1, %eax
	testb	%dl, %dl
	jns	16f
	movl	$2, %ecx
	movl	$2, %eax
	cmpb	$-32, %dl
	jb	16f
	cmpb	$-16, %dl
	movl	$4, %ecx
	sbbq	$0, %rcx
	movq	%rcx, %rax
	jmp	16f
14:
	xorl	%r13d, %r13d
	xorl	%r15d, %r15d
	xorl	%ebp, %ebp
	xorl	%eax, %eax
	testq	%rbx, %rbx
	jne	17f
	jmp	18f
15:
	movq	8(%rsp), %rcx
16:
	leaq	(%r12,%rax), %r15
	subq	%rax, %rbx
	movb	$1, %r13b
	movq	%rbx, %rbp
	movb	$1, %al
	movq	%rcx, %rbx
	testq	%rbx, %rbx
	je	18f
17:
	cmpb	$47, (%r12)
	jne	18f
	movq	%r12, 144(%rsp)
	movq	%r15, %r12
	movq	%rbp, %r14
	jmp	25f
18:
	testb	%al, %al
	jne	20f
	jmp	35f
	.p2align	4
19:
	movq	%r12, %r15
	movq	%r14, %rbp
	testb	%al, %al
	je	29f
20:
	xorps	%xmm0, %xmm0
	movaps	%xmm0, (%rsp)
	movq	$0, 16(%rsp)
	movq	%rsp, %rdi
	movl	$58, %esi
	movq	%r15, %rdx
	movq	%rbp, %rcx
	callq	"core::iter::pattern::CharPattern::first_in"
	cmpb	$1, (%rsp)
	jne	23f
	movq	16(%rsp), %rax
	testq	%rax, %rax
	je	22f
	movq	8(%rsp), %rcx
21:
	leaq	(%r15,%rax), %r12
	subq	%rax, %rbp
	movb	$1, %r13b
	movq	%rbp, %r14
	movb	$1, %al
	movq	%rcx, %rbp
	testq	%rbp, %rbp
	jne	24f
	jmp	19b
22:
	testq	%rbp, %rbp
	je	23f
	movzbl	(%r15), %edx
	movl	$1, %ecx
	movl	$1, %eax
	testb	%dl, %dl
	jns	21b
	movl	$2, %ecx
	movl	$2, %eax
	cmpb	$-32, %dl
	jb	21b
	cmpb	$-16, %dl
	movl	$4, %ecx
	sbbq	$0, %rcx
	movq	%rcx, %rax
	jmp	21b
	.p2align	4
23:
	xorl	%r13d, %r13d
	xorl	%r12d, %r12d
	xorl	%r14d, %r14d
	xorl	%eax, %eax
	testq	%rbp, %rbp
	je	19b
24:
	cmpb	$47, (%r15)
	jne	19b
	movq	%rbp, %rbx
	movq	%r15, 144(%rsp)
25:
	movq	32(%rsp), %rdx
	movq	160(%rsp), %rsi
	cmpq	%rsi, %rdx
	movq	152(%rsp), %rbp
	je	26f
	movq	%rdx, %rcx
	shlq	$4, %rcx
	movq	144(%rsp), %rsi
	movq	%rsi, (%rbp,%rcx)
	movq	%rbx, 8(%rbp,%rcx)
	incq	%rdx
	movq	%rdx, 32(%rsp)
	movb	$1, %r15b
	movq	%r14, %rbx
	testb	%al, %al
	jne	13b
	jmp	30f
26:
	movq	%rbp, 64(%rsp)
	movq	%rsi, 72(%rsp)
	movq	48(%rsp), %rdx
	movq	%rdx, 80(%rsp)
	cmpq	%rsi, %rdx
	je	28f
27:
	movq	64(%rsp), %rbp
	movq	%rsi, %rcx
	movq	%rsi, %rax
	shlq	$4, %rax
	movq	144(%rsp), %rsi
	movq	%rsi, (%rbp,%rax)
	movq	%rbx, 8(%rbp,%rax)
	xorl	%eax, %eax
	incq	%rcx
	movq	%rcx, 32(%rsp)
	movq	%rdx, 48(%rsp)
	cmovneq	%rdx, %rax
	xorps	%xmm0, %xmm0
	leaq	72(%rsp), %rcx
	movups	%xmm0, (%rcx)
	movb	$1, %r15b
	movq	%rax, 160(%rsp)
	testb	%r13b, %r13b
	jne	12b
	jmp	30f
28:
	leaq	64(%rsp), %rdi
	movl	$1, %esi
	callq	"std_alloc::vec::Vec::grow_amortized::<#a658b02dc117231d>"
	movq	72(%rsp), %rsi
	movq	80(%rsp), %rdx
	cmpq	%rsi, %rdx
	setne	%cl
	orb	%al, %cl
	jne	27b
	leaq	64(%rsp), %rdi
	movl	$1, %esi
	callq	"std_alloc::vec::Vec::grow_amortized::<#a658b02dc117231d>"
	testb	%al, %al
	je	44f
	movq	72(%rsp), %rsi
	movq	80(%rsp), %rdx
	jmp	27b
29:
	movq	152(%rsp), %rbp
30:
	movq	296(%rsp), %r13
	testq	%r13, %r13
	je	36f
31:
	movq	128(%rsp), %r14
	cmpb	$47, (%r14)
	movq	136(%rsp), %r12
	movq	168(%rsp), %rsi
	movq	56(%rsp), %rax
	movq	120(%rsp), %r15
	jne	37f
	movq	%rbp, (%rsp)
	movq	32(%rsp), %rdx
	movq	%rdx, 8(%rsp)
	movq	48(%rsp), %rcx
	movq	%rcx, 16(%rsp)
	cmpq	%rcx, %rdx
	jb	33f
	je	40f
32:
	movq	32(%rsp), %rdx
33:
	testq	%rdx, %rdx
	je	34f
	leaq	16(%rbp), %rdi
	shlq	$4, %rdx
	movq	%rsi, %rbx
	movq	%rbp, %rsi
	callq	memmove@PLT
	movq	56(%rsp), %rax
	movq	%rbx, %rsi
34:
	movq	%r14, (%rbp)
	movq	%r13, 8(%rbp)
	incq	32(%rsp)
	movq	(%rsp), %rbp
	jmp	37f
35:
	movq	152(%rsp), %rbp
	movq	296(%rsp), %r13
	testq	%r13, %r13
	jne	31b
36:
	movq	136(%rsp), %r12
	movq	168(%rsp), %rsi
	movq	56(%rsp), %rax
	movq	128(%rsp), %r14
	movq	120(%rsp), %r15
37:
	movq	%rax, 336(%rsp)
	movaps	752(%rsp), %xmm0
	movups	%xmm0, 344(%rsp)
	leaq	368(%rsp), %rdi
	leaq	336(%rsp), %r8
	movq	%rbp, %rdx
	movq	32(%rsp), %rcx
	callq	"mime_tool::directories::load_these::<#2e1b2a3647f851f7>"
	cmpq	$0, 48(%rsp)
	je	38f
	movq	%rbp, %rdi
	callq	rattle_dealloc@PLT
38:
	testq	%r15, %r15
	je	39f
	movq	%r14, %rdi
	callq	rattle_dealloc@PLT
39:
	movzbl	368(%rsp), %eax
	movq	376(%rsp), %rcx
	movaps	384(%rsp), %xmm0
	movaps	%xmm0, 96(%rsp)
	movq	400(%rsp), %rdx
	movq	%rdx, 112(%rsp)
	movups	408(%rsp), %xmm0
	movaps	%xmm0, 176(%rsp)
	movups	424(%rsp), %xmm0
	movaps	%xmm0, 192(%rsp)
	movups	440(%rsp), %xmm0
	movaps	%xmm0, 208(%rsp)
	movups	456(%rsp), %xmm0
	movaps	%xmm0, 224(%rsp)
	movups	472(%rsp), %xmm0
	movaps	%xmm0, 240(%rsp)
	movups	488(%rsp), %xmm0
	movaps	%xmm0, 256(%rsp)
	movups	504(%rsp), %xmm0
	movaps	%xmm0, 272(%rsp)
	jmp	9b
40:
	movq	%rsi, %rbx
	movq	%rsp, %rdi
	movl	$1, %esi
	callq	"std_alloc::vec::Vec::grow_amortized::<#a658b02dc117231d>"
	movq	16(%rsp), %rcx
	testb	%al, %al
	je	41f
	movq	%rcx, 48(%rsp)
	movq	(%rsp), %rbp
	movq	8(%rsp), %rax
	movq	%rax, 32(%rsp)
	movq	%rbx, %rsi
	movq	56(%rsp), %rax
	jmp	32b
41:
	testq	%rcx, %rcx
	je	42f
	movq	(%rsp), %rdi
	callq	rattle_dealloc@PLT
42:
	testq	%r15, %r15
	je	7b
43:
	movq	%r14, %rdi
	callq	rattle_dealloc@PLT
	jmp	7b
44:
	cmpq	$0, 80(%rsp)
	je	45f
	movq	64(%rsp), %rdi
	callq	rattle_dealloc@PLT
45:
	movq	136(%rsp), %r12
	movq	128(%rsp), %r14
	movq	120(%rsp), %r15
	testq	%r15, %r15
	jne	43b
	jmp	7b
46:
	.size	"mime_tool::directories::load::<#2e1b2a3647f851f7>", 46b-"mime_tool::directories::load::<#2e1b2a3647f851f7>"

	.section	.rodata.cst16,"aM",@progbits,16
	.p2align	4, 0x0
1:
	.byte	110,111,32,116,101,120,116,32,102,105,108,101,115,44,32,115
	.text
	.p2align	4
	.type	"mime_tool::directories::load_these::<#2e1b2a3647f851f7>",@function
"mime_tool::directories::load_these::<#2e1b2a3647f851f7>":
	pushq	%rbp
	pushq	%r15
	pushq	%r14
	pushq	%r13
	pushq	%r12
	pushq	%rbx
	subq	$2024, %rsp
	movq	%rcx, %r12
	movq	%rsi, %r14
	movq	%rdi, 824(%rsp)
	movzbl	(%r8), %eax
	movq	8(%r8), %r15
	movq	16(%r8), %rbp
	pxor	%xmm0, %xmm0
	movdqa	%xmm0, 1632(%rsp)
	movdqa	%xmm0, 1520(%rsp)
	movdqa	%xmm0, 1536(%rsp)
	movdqa	%xmm0, 1552(%rsp)
	movdqa	%xmm0, 1568(%rsp)
	movdqa	%xmm0, 1584(%rsp)
	movdqa	%xmm0, 1600(%rsp)
	movdqa	%xmm0, 1616(%rsp)
	movdqa	%xmm0, 640(%rsp)
	movdqa	%xmm0, 1648(%rsp)
	testq	%rcx, %rcx
	movq	%rdx, 48(%rsp)
	movb	%al, 56(%rsp)
	je	11f
	movq	%rbp, 80(%rsp)
	movq	%r15, 8(%rsp)
	movq	%r14, 88(%rsp)
	leaq	8(%rdx), %rbx
	movq	%r12, %r14
	movq	%r12, 24(%rsp)
2:
	movq	%r14, 16(%rsp)
	movq	-8(%rbx), %r14
	movq	(%rbx), %r12
	pxor	%xmm0, %xmm0
	movdqa	%xmm0, 1056(%rsp)
	movdqa	%xmm0, 1072(%rsp)
	movq	%r14, 320(%rsp)
	movq	%r12, 328(%rsp)
	leaq	.Lbd551c3abc3e(%rip), %r15
	movq	%r15, 336(%rsp)
	movq	$6, 344(%rsp)
	leaq	.Lc86eb0c0bc7c+96(%rip), %rax
	movq	%rax, 352(%rsp)
	movq	$6, 360(%rsp)
	leaq	1056(%rsp), %rdi
	leaq	320(%rsp), %rsi
	callq	"std_alloc::string::String::format::<#ae563473db7f7f6d>"
	cmpb	$0, 1056(%rsp)
	jne	19f
	movq	1064(%rsp), %r13
	movq	1072(%rsp), %rsi
	movq	1080(%rsp), %rbp
	movq	%r13, %rdi
	callq	"mime_tool::desk::StreamsDesk::exists::<#6c31bac265adaac4>"
	testb	%al, %al
	jne	12f
	testb	$1, %dl
	jne	13f
	testq	%rbp, %rbp
	je	3f
	movq	%r13, %rdi
	callq	rattle_dealloc@PLT
3:
	pxor	%xmm0, %xmm0
	movdqa	%xmm0, 1056(%rsp)
	movdqa	%xmm0, 1072(%rsp)
	movq	%r14, 320(%rsp)
	movq	%r12, 328(%rsp)
	movq	%r15, 336(%rsp)
	movq	$6, 344(%rsp)
	leaq	.Lc86eb0c0bc7c+102(%rip), %rax
	movq	%rax, 352(%rsp)
	movq	$5, 360(%rsp)
	leaq	1056(%rsp), %rdi
	leaq	320(%rsp), %rsi
	callq	"std_alloc::string::String::format::<#ae563473db7f7f6d>"
	cmpb	$0, 1056(%rsp)
	jne	19f
	movq	1064(%rsp), %r13
	movq	1072(%rsp), %rsi
	movq	1080(%rsp), %rbp
	movq	%r13, %rdi
	callq	"mime_tool::desk::StreamsDesk::exists::<#6c31bac265adaac4>"
	testb	%al, %al
	jne	12f
	testb	$1, %dl
	jne	13f
	testq	%rbp, %rbp
	je	4f
	movq	%r13, %rdi
	callq	rattle_dealloc@PLT
4:
	pxor	%xmm0, %xmm0
	movdqa	%xmm0, 1056(%rsp)
	movdqa	%xmm0, 1072(%rsp)
	movq	%r14, 320(%rsp)
	movq	%r12, 328(%rsp)
	movq	%r15, 336(%rsp)
	movq	$6, 344(%rsp)
	leaq	.Lc86eb0c0bc7c+107(%rip), %rax
	movq	%rax, 352(%rsp)
	movq	$7, 360(%rsp)
	leaq	1056(%rsp), %rdi
	leaq	320(%rsp), %rsi
	callq	"std_alloc::string::String::format::<#ae563473db7f7f6d>"
	cmpb	$0, 1056(%rsp)
	jne	19f
	movq	1064(%rsp), %r13
	movq	1072(%rsp), %rsi
	movq	1080(%rsp), %rbp
	movq	%r13, %rdi
	callq	"mime_tool::desk::StreamsDesk::exists::<#6c31bac265adaac4>"
	testb	%al, %al
	jne	12f
	testb	$1, %dl
	jne	13f
	testq	%rbp, %rbp
	je	5f
	movq	%r13, %rdi
	callq	rattle_dealloc@PLT
5:
	pxor	%xmm0, %xmm0
	movdqa	%xmm0, 1056(%rsp)
	movdqa	%xmm0, 1072(%rsp)
	movq	%r14, 320(%rsp)
	movq	%r12, 328(%rsp)
	movq	%r15, 336(%rsp)
	movq	$6, 344(%rsp)
	leaq	.Lc86eb0c0bc7c+114(%rip), %rax
	movq	%rax, 352(%rsp)
	movq	$10, 360(%rsp)
	leaq	1056(%rsp), %rdi
	leaq	320(%rsp), %rsi
	callq	"std_alloc::string::String::format::<#ae563473db7f7f6d>"
	cmpb	$0, 1056(%rsp)
	jne	19f
	movq	1064(%rsp), %r13
	movq	1072(%rsp), %rsi
	movq	1080(%rsp), %rbp
	movq	%r13, %rdi
	callq	"mime_tool::desk::StreamsDesk::exists::<#6c31bac265adaac4>"
	testb	%al, %al
	jne	12f
	testb	$1, %dl
	jne	13f
	testq	%rbp, %rbp
	je	6f
	movq	%r13, %rdi
	callq	rattle_dealloc@PLT
6:
	pxor	%xmm0, %xmm0
	movdqa	%xmm0, 1056(%rsp)
	movdqa	%xmm0, 1072(%rsp)
	movq	%r14, 320(%rsp)
	movq	%r12, 328(%rsp)
	movq	%r15, 336(%rsp)
	movq	$6, 344(%rsp)
	leaq	.Lc86eb0c0bc7c+124(%rip), %rax
	movq	%rax, 352(%rsp)
	movq	$5, 360(%rsp)
	leaq	1056(%rsp), %rdi
	leaq	320(%rsp), %rsi
	callq	"std_alloc::string::String::format::<#ae563473db7f7f6d>"
	cmpb	$0, 1056(%rsp)
	jne	19f
	movq	1064(%rsp), %r13
	movq	1072(%rsp), %rsi
	movq	1080(%rsp), %rbp
	movq	%r13, %rdi
	callq	"mime_tool::desk::StreamsDesk::exists::<#6c31bac265adaac4>"
	testb	%al, %al
	jne	12f
	testb	$1, %dl
	jne	13f
	testq	%rbp, %rbp
	je	7f
	movq	%r13, %rdi
	callq	rattle_dealloc@PLT
7:
	pxor	%xmm0, %xmm0
	movdqa	%xmm0, 1056(%rsp)
	movdqa	%xmm0, 1072(%rsp)
	movq	%r14, 320(%rsp)
	movq	%r12, 328(%rsp)
	movq	%r15, 336(%rsp)
	movq	$6, 344(%rsp)
	leaq	.Lc86eb0c0bc7c+129(%rip), %rax
	movq	%rax, 352(%rsp)
	movq	$13, 360(%rsp)
	leaq	1056(%rsp), %rdi
	leaq	320(%rsp), %rsi
	callq	"std_alloc::string::String::format::<#ae563473db7f7f6d>"
	cmpb	$0, 1056(%rsp)
	jne	19f
	movq	1064(%rsp), %r13
	movq	1072(%rsp), %rsi
	movq	1080(%rsp), %rbp
	movq	%r13, %rdi
	callq	"mime_tool::desk::StreamsDesk::exists::<#6c31bac265adaac4>"
	testb	%al, %al
	jne	12f
	testb	$1, %dl
	jne	13f
	testq	%rbp, %rbp
	movq	24(%rsp), %r12
	movq	16(%rsp), %r14
	je	8f
	movq	%r13, %rdi
	callq	rattle_dealloc@PLT
8:
	addq	$16, %rbx
	decq	%r14
	jne	2b
	pxor	%xmm0, %xmm0
	movdqa	%xmm0, 832(%rsp)
	movdqa	%xmm0, 704(%rsp)
	movdqa	%xmm0, 176(%rsp)
	movq	48(%rsp), %rax
	leaq	8(%rax), %r14
	movq	(%rax), %rcx
	movq	%rcx, 40(%rsp)
	movq	8(%rax), %rax
	movq	%rax, 16(%rsp)
	movdqa	%xmm0, 1072(%rsp)
	movdqa	%xmm0, 1056(%rsp)
	movq	$0, 1088(%rsp)
	movq	%r12, %r15
	.p2align	4
9:
	movdqu	-8(%r14), %xmm0
	pxor	%xmm1, %xmm1
	movdqa	%xmm1, 320(%rsp)
	movdqa	%xmm1, 336(%rsp)
	movdqu	%xmm0, 1376(%rsp)
	leaq	.Ld38e3d4473f4(%rip), %rax
	movq	%rax, 1392(%rsp)
	movq	$7, 1400(%rsp)
	leaq	320(%rsp), %rdi
	leaq	1376(%rsp), %rsi
	callq	"std_alloc::string::String::format::<#004689434896fd94>"
	cmpb	$0, 320(%rsp)
	jne	228f
	movq	328(%rsp), %rbx
	movq	336(%rsp), %rsi
	movq	344(%rsp), %r12
	movq	%rbx, %rdi
	callq	"mime_tool::desk::StreamsDesk::exists::<#6c31bac265adaac4>"
	movl	%eax, %r13d
	movl	%edx, %ebp
	testq	%r12, %r12
	je	10f
	movq	%rbx, %rdi
	callq	rattle_dealloc@PLT
10:
	testb	%r13b, %r13b
	jne	228f
	cmpb	$1, %bpl
	je	230f
	addq	$16, %r14
	decq	%r15
	jne	9b
	movq	$0, 64(%rsp)
	movq	%rsp, %rbx
	movq	$0, 32(%rsp)
	movq	24(%rsp), %r12
	movq	8(%rsp), %r15
	movq	80(%rsp), %rbp
	jmp	280f
11:
	movq	8(%r14), %rdi
	callq	"mime_tool::system::StreamSink::flush::<#87f05e477b504f42>"
	testb	%al, %al
	je	15f
	incb	%dl
	pxor	%xmm0, %xmm0
	movdqa	%xmm0, 1744(%rsp)
	movb	$1, %al
	jmp	16f
12:
	testq	%rbp, %rbp
	je	19f
	movq	%r13, %rdi
	callq	rattle_dealloc@PLT
	jmp	19f
13:
	movq	24(%rsp), %r12
	movq	88(%rsp), %r14
	testq	%rbp, %rbp
	je	14f
	movq	%r13, %rdi
	callq	rattle_dealloc@PLT
14:
	movdqa	1648(%rsp), %xmm0
	jmp	21f
15:
	leaq	.Le6dda6977809(%rip), %rdi
	movl	$30, %esi
	callq	"mime_tool::stop::complain::<#6dca9f1b7737a2bb>"
	pxor	%xmm0, %xmm0
	movdqa	%xmm0, 1744(%rsp)
	movl	%eax, %edx
	addb	%dl, %dl
16:
	movdqa	1744(%rsp), %xmm0
	movdqa	%xmm0, 176(%rsp)
	xorl	%ecx, %ecx
17:
	movdqa	176(%rsp), %xmm0
	movdqa	%xmm0, 704(%rsp)
	testb	%al, %al
	je	18f
	movdqa	704(%rsp), %xmm0
	movdqa	%xmm0, 640(%rsp)
	jmp	20f
18:
	pxor	%xmm0, %xmm0
	movdqa	%xmm0, 1376(%rsp)
	cmpb	$1, 56(%rsp)
	jne	21f
	movq	%r15, %rdi
	movq	%rbp, %rsi
	callq	"mime_tool::desk::StreamsDesk::exists::<#6c31bac265adaac4>"
	testb	%al, %al
	je	223f
19:
	pxor	%xmm0, %xmm0
	movdqa	%xmm0, 640(%rsp)
	movb	$2, %dl
	xorl	%ecx, %ecx
20:
	movzbl	%dl, %eax
	movq	824(%rsp), %rdx
	movq	$1, (%rdx)
	movq	%rax, 8(%rdx)
	movaps	640(%rsp), %xmm0
	movups	%xmm0, 16(%rdx)
	movq	%rcx, 32(%rdx)
	xorps	%xmm0, %xmm0
	movups	%xmm0, 40(%rdx)
	movups	%xmm0, 56(%rdx)
	movups	%xmm0, 72(%rdx)
	movups	%xmm0, 88(%rdx)
	movups	%xmm0, 104(%rdx)
	movups	%xmm0, 120(%rdx)
	jmp	35f
21:
	movdqa	%xmm0, 640(%rsp)
22:
	pxor	%xmm0, %xmm0
	movdqa	%xmm0, 736(%rsp)
	movdqa	%xmm0, 1920(%rsp)
	movdqa	%xmm0, 1744(%rsp)
	movdqa	%xmm0, 1760(%rsp)
	movdqa	%xmm0, 1776(%rsp)
	movdqa	%xmm0, 1792(%rsp)
	movdqa	%xmm0, 1808(%rsp)
	movdqa	%xmm0, 1824(%rsp)
	movdqa	%xmm0, 1840(%rsp)
	leaq	320(%rsp), %rdi
	movl	$320, %edx
	xorl	%esi, %esi
	callq	memset@PLT
	movq	%rsp, %rax
	movq	%rax, 944(%rsp)
	pxor	%xmm0, %xmm0
	movdqu	%xmm0, 952(%rsp)
	testq	%r12, %r12
	je	32f
	leaq	336(%rsp), %r15
	movq	48(%rsp), %rax
	addq	$8, %rax
	movq	%rsp, %rcx
	movq	%rcx, 16(%rsp)
	xorl	%ebp, %ebp
	.p2align	4
23:
	movq	-8(%rax), %rdx
	movq	%rax, %r13
	movq	(%rax), %rcx
	leaq	320(%rsp), %rdi
	movq	%r14, %rsi
	callq	"mime_tool::directories::read_directory::<#2e1b2a3647f851f7>"
	movq	328(%rsp), %rbx
	cmpb	$0, 320(%rsp)
	jne	26f
	movups	(%r15), %xmm0
	movaps	%xmm0, 1376(%rsp)
	movq	16(%r15), %rax
	movq	%rax, 1392(%rsp)
	leaq	1056(%rsp), %rdi
	movl	$280, %edx
	leaq	360(%rsp), %rsi
	callq	memcpy@PLT
	cmpq	%rbp, 960(%rsp)
	je	25f
24:
	imulq	$312, %rbp, %rax
	movq	16(%rsp), %rdx
	movq	%rbx, (%rdx,%rax)
	movdqa	1376(%rsp), %xmm0
	movdqu	%xmm0, 8(%rdx,%rax)
	movq	1392(%rsp), %rcx
	movq	%rcx, 24(%rdx,%rax)
	leaq	(%rdx,%rax), %rdi
	addq	$32, %rdi
	leaq	1056(%rsp), %rsi
	movl	$280, %edx
	callq	memcpy@PLT
	incq	%rbp
	movq	%rbp, 952(%rsp)
	movq	%r13, %rax
	addq	$16, %rax
	decq	%r12
	jne	23b
	jmp	31f
25:
	leaq	944(%rsp), %rdi
	callq	"std_alloc::vec::Vec::grow_amortized::<#db6731f0a815ca15>"
	testb	%al, %al
	je	237f
	movq	944(%rsp), %rax
	movq	%rax, 16(%rsp)
	movq	952(%rsp), %rbp
	jmp	24b
26:
	movdqu	(%r15), %xmm0
	movdqa	%xmm0, 176(%rsp)
	movq	352(%rsp), %r13
	movq	960(%rsp), %r12
	testq	%rbp, %rbp
	je	28f
	movq	16(%rsp), %r14
	.p2align	4
27:
	leaq	1056(%rsp), %r15
	movl	$312, %edx
	movq	%r15, %rdi
	movq	%r14, %rsi
	callq	memcpy@PLT
	movq	%r15, %rdi
	callq	"mime_tool::mime_text++merging++DirFiles+Destruct::drop"
	addq	$312, %r14
	decq	%rbp
	jne	27b
28:
	testq	%r12, %r12
	je	29f
	movq	16(%rsp), %rdi
	callq	rattle_dealloc@PLT
29:
	movdqa	176(%rsp), %xmm0
	movdqa	%xmm0, 736(%rsp)
	movzbl	%bl, %eax
30:
	movaps	736(%rsp), %xmm0
	movaps	%xmm0, 1632(%rsp)
	xorps	%xmm0, %xmm0
	movaps	%xmm0, 1520(%rsp)
	movaps	%xmm0, 1536(%rsp)
	movaps	%xmm0, 1552(%rsp)
	movaps	%xmm0, 1568(%rsp)
	movaps	%xmm0, 1584(%rsp)
	movaps	%xmm0, 1600(%rsp)
	movaps	%xmm0, 1616(%rsp)
	movl	$1, %ecx
	jmp	34f
31:
	movq	944(%rsp), %rax
32:
	leaq	952(%rsp), %rcx
	movups	(%rcx), %xmm0
	movaps	%xmm0, 736(%rsp)
	xorps	%xmm0, %xmm0
	movaps	%xmm0, 1936(%rsp)
	movaps	%xmm0, 944(%rsp)
	movaps	%xmm0, 960(%rsp)
	movaps	%xmm0, 976(%rsp)
	movaps	%xmm0, 992(%rsp)
	movaps	%xmm0, 1008(%rsp)
	movaps	%xmm0, 1024(%rsp)
	movaps	%xmm0, 1040(%rsp)
	movaps	%xmm0, 1056(%rsp)
	movaps	%xmm0, 1072(%rsp)
	movaps	%xmm0, 1088(%rsp)
	movaps	%xmm0, 1104(%rsp)
	movaps	%xmm0, 1120(%rsp)
	movaps	%xmm0, 1136(%rsp)
	movaps	%xmm0, 1152(%rsp)
	movaps	%xmm0, 1168(%rsp)
	movaps	%xmm0, 1184(%rsp)
	movq	$0, 1200(%rsp)
	movq	%rax, 1976(%rsp)
	movdqa	736(%rsp), %xmm0
	movdqu	%xmm0, 1984(%rsp)
	leaq	1056(%rsp), %rdi
	leaq	1976(%rsp), %rsi
	callq	"mime_text::merging::merge"
	cmpb	$0, 1056(%rsp)
	je	36f
33:
	pxor	%xmm0, %xmm0
	movdqa	%xmm0, 1632(%rsp)
	movdqa	%xmm0, 1520(%rsp)
	movdqa	%xmm0, 1536(%rsp)
	movdqa	%xmm0, 1552(%rsp)
	movdqa	%xmm0, 1568(%rsp)
	movdqa	%xmm0, 1584(%rsp)
	movdqa	%xmm0, 1600(%rsp)
	movdqa	%xmm0, 1616(%rsp)
	movl	$2, %eax
	movl	$1, %ecx
	xorl	%r13d, %r13d
34:
	movq	824(%rsp), %rdx
	movq	%rcx, (%rdx)
	movq	%rax, 8(%rdx)
	movaps	1632(%rsp), %xmm0
	movups	%xmm0, 16(%rdx)
	movq	%r13, 32(%rdx)
	movaps	1520(%rsp), %xmm0
	movdqa	1536(%rsp), %xmm1
	movaps	1552(%rsp), %xmm2
	movaps	1568(%rsp), %xmm3
	movups	%xmm0, 40(%rdx)
	movdqu	%xmm1, 56(%rdx)
	movups	%xmm2, 72(%rdx)
	movups	%xmm3, 88(%rdx)
	movaps	1584(%rsp), %xmm0
	movups	%xmm0, 104(%rdx)
	movaps	1600(%rsp), %xmm0
	movups	%xmm0, 120(%rdx)
	movaps	1616(%rsp), %xmm0
35:
	movups	%xmm0, 136(%rdx)
	addq	$2024, %rsp
	popq	%rbx
	popq	%r12
	popq	%r13
	popq	%r14
	popq	%r15
	popq	%rbp
	retq
36:
	movq	1064(%rsp), %rax
	movq	%rax, 32(%rsp)
	movq	1072(%rsp), %rcx
	movq	1080(%rsp), %rax
	movq	%rax, 776(%rsp)
	movq	1088(%rsp), %rax
	movq	%rax, 672(%rsp)
	movq	1096(%rsp), %r13
	movq	1104(%rsp), %rax
	movq	%rax, 784(%rsp)
	movq	1112(%rsp), %rax
	movq	%rax, 680(%rsp)
	movq	1120(%rsp), %rdx
	movq	1128(%rsp), %rax
	movq	%rax, 792(%rsp)
	movq	1136(%rsp), %r15
	movq	1144(%rsp), %rax
	movq	%rax, 80(%rsp)
	movq	1152(%rsp), %rax
	movq	%rax, 800(%rsp)
	movq	1160(%rsp), %rax
	movq	%rax, 688(%rsp)
	movq	1168(%rsp), %rax
	movq	%rax, 88(%rsp)
	movq	1176(%rsp), %rax
	movq	%rax, 808(%rsp)
	pxor	%xmm0, %xmm0
	movdqa	%xmm0, 320(%rsp)
	movdqa	%xmm0, 336(%rsp)
	movdqa	%xmm0, 352(%rsp)
	movdqa	%xmm0, 368(%rsp)
	movdqa	%xmm0, 384(%rsp)
	movdqa	%xmm0, 400(%rsp)
	movdqa	%xmm0, 416(%rsp)
	movdqa	%xmm0, 432(%rsp)
	movdqa	%xmm0, 448(%rsp)
	movq	$0, 464(%rsp)
	movdqa	%xmm0, 1648(%rsp)
	movdqu	%xmm0, 1663(%rsp)
	movdqa	%xmm0, 1376(%rsp)
	movdqa	%xmm0, 1392(%rsp)
	movdqa	%xmm0, 1408(%rsp)
	movdqa	%xmm0, 1424(%rsp)
	movdqa	%xmm0, 1440(%rsp)
	movdqa	%xmm0, 1456(%rsp)
	movdqa	%xmm0, 1472(%rsp)
	movdqa	%xmm0, 1488(%rsp)
	movdqa	%xmm0, 1504(%rsp)
	movdqa	%xmm0, 1856(%rsp)
	movq	$0, 1872(%rsp)
	movdqa	%xmm0, 704(%rsp)
	movdqu	%xmm0, 719(%rsp)
	movdqa	%xmm0, 288(%rsp)
	movq	$0, 304(%rsp)
	movq	$0, 96(%rsp)
	movdqa	%xmm0, 144(%rsp)
	movq	$0, 160(%rsp)
	movdqa	%xmm0, 176(%rsp)
	movq	$0, 192(%rsp)
	movq	1184(%rsp), %rax
	movq	%rax, 696(%rsp)
	movq	1192(%rsp), %r14
	movq	1200(%rsp), %rax
	movq	%rax, 816(%rsp)
	movq	%rcx, 24(%rsp)
	testq	%rcx, %rcx
	je	224f
	movq	$0, 112(%rsp)
	movq	%r14, 768(%rsp)
	xorl	%r14d, %r14d
	movq	%r15, 664(%rsp)
	movq	%rdx, 760(%rsp)
	movq	%r13, 40(%rsp)
	movq	32(%rsp), %r15
	movq	24(%rsp), %rbx
	jmp	39f
	.p2align	4
37:
	movq	40(%rsp), %r13
	movq	%r12, %r15
38:
	incq	%r14
	cmpq	%rbx, %r14
	je	107f
39:
	imulq	$104, %r14, %rax
	cmpb	$1, 96(%r15,%rax)
	jne	38b
	movq	%r15, %r12
	addq	%r15, %rax
	cmpb	$0, 56(%rax)
	je	40f
	movq	64(%rax), %r13
	leaq	72(%rax), %rcx
	jmp	41f
40:
	leaq	64(%rax), %r13
	leaq	80(%rax), %rcx
41:
	movq	(%rcx), %rbp
	movzbl	(%rax), %r15d
	leaq	176(%rsp), %rdi
	movq	%r13, %rsi
	movq	%rbp, %rdx
	callq	"mime_text::merging::hidden::weight_of"
	movl	%r15d, 56(%rsp)
	cmpw	%r15w, %ax
	ja	37b
	cmpb	$1, 176(%rsp)
	movq	%r14, 64(%rsp)
	jne	42f
	movq	184(%rsp), %rax
	movq	%rax, 8(%rsp)
	movzwl	2(%rax), %eax
	jmp	43f
42:
	movl	$280, %edi
	movl	$8, %esi
	callq	rattle_alloc@PLT
	movq	%rdx, 8(%rsp)
	testb	$1, %al
	je	244f
	movq	8(%rsp), %rax
	movl	$0, (%rax)
	movq	$1, 176(%rsp)
	movq	%rax, 184(%rsp)
	xorl	%eax, %eax
43:
	incl	56(%rsp)
	movzwl	%ax, %eax
	movl	$15, %r14d
	subq	%rax, %r14
	movq	%rax, 104(%rsp)
	movl	%eax, %r15d
	negb	%r15b
	xorl	%edx, %edx
	movq	8(%rsp), %rax
	movq	%rax, %rsi
	movq	$0, 48(%rsp)
	movq	%rax, 16(%rsp)
	movq	%r14, 72(%rsp)
	xorl	%r12d, %r12d
44:
	movq	%rsi, %rcx
	movzwl	(%rsi), %esi
	xorl	%eax, %eax
	testq	%rsi, %rsi
	je	53f
	.p2align	4
45:
	movq	%rax, %rdi
	shlq	$4, %rdi
	movq	8(%rcx,%rdi), %r8
	movq	16(%rcx,%rdi), %rdi
	cmpq	%rbp, %rdi
	movq	%rbp, %r9
	cmovbq	%rdi, %r9
	xorl	%r10d, %r10d
	cmpq	$64, %r9
	jb	47f
	movq	%r9, %r11
	.p2align	4
46:
	movdqu	(%r13,%r10), %xmm0
	movdqu	16(%r13,%r10), %xmm1
	movdqu	32(%r13,%r10), %xmm2
	movdqu	48(%r13,%r10), %xmm3
	movdqu	(%r8,%r10), %xmm4
	pcmpeqb	%xmm0, %xmm4
	movdqu	16(%r8,%r10), %xmm0
	pcmpeqb	%xmm1, %xmm0
	movdqu	32(%r8,%r10), %xmm1
	pcmpeqb	%xmm2, %xmm1
	pand	%xmm4, %xmm1
	movdqu	48(%r8,%r10), %xmm2
	pcmpeqb	%xmm3, %xmm2
	pand	%xmm0, %xmm2
	pand	%xmm1, %xmm2
	pmovmskb	%xmm2, %ebx
	cmpl	$65535, %ebx
	jne	47f
	addq	$64, %r10
	addq	$-64, %r11
	cmpq	$63, %r11
	ja	46b
47:
	movq	%r9, %r11
	subq	%r10, %r11
	cmpq	$8, %r11
	jb	49f
	.p2align	4
48:
	movq	(%r13,%r10), %rbx
	cmpq	(%r8,%r10), %rbx
	jne	49f
	addq	$8, %r10
	addq	$-8, %r11
	cmpq	$7, %r11
	ja	48b
49:
	cmpq	%r9, %r10
	jae	51f
	.p2align	4
50:
	movzbl	(%r8,%r10), %r11d
	cmpb	%r11b, (%r13,%r10)
	jne	52f
	incq	%r10
	cmpq	%r10, %r9
	jne	50b
51:
	cmpq	%rdi, %rbp
	je	54f
52:
	jb	53f
	incq	%rax
	cmpq	%rsi, %rax
	jne	45b
	movq	%rsi, %rax
53:
	shlq	$4, %r12
	addq	%rax, %r12
	incq	%r14
	cmpw	$0, 2(%rcx)
	je	56f
	movq	280(%rcx,%rax,8), %rsi
	incq	%rdx
	incb	%r15b
	movq	%rax, 48(%rsp)
	movq	%rcx, 16(%rsp)
	jmp	44b
	.p2align	4
54:
	andl	$15, %eax
	addq	104(%rsp), %r14
	cmpq	$15, %r14
	movq	16(%rsp), %rcx
	movq	48(%rsp), %rdx
	leaq	280(%rcx,%rdx,8), %rcx
	leaq	184(%rsp), %rdx
	cmoveq	%rdx, %rcx
	movq	(%rcx), %rcx
	movzwl	(%rcx), %edx
	cmpq	%rdx, %rax
	jae	365f
	movl	56(%rsp), %edx
	movw	%dx, 248(%rcx,%rax,2)
55:
	movq	40(%rsp), %r13
	movq	32(%rsp), %r15
	movq	24(%rsp), %rbx
	movq	64(%rsp), %r14
	jmp	38b
56:
	movabsq	$9223372036854775806, %rax
	cmpq	%rax, 112(%rsp)
	ja	243f
	movq	%r14, %rax
	subq	72(%rsp), %rax
	movq	%rax, 752(%rsp)
	cmpq	$1, %rax
	movq	16(%rsp), %rax
	movq	48(%rsp), %rdi
	leaq	280(%rax,%rdi,8), %rax
	leaq	184(%rsp), %rcx
	cmoveq	%rcx, %rax
	movq	(%rax), %rax
	cmpw	$15, (%rax)
	jae	57f
	shlq	$3, %rdi
	movq	16(%rsp), %rcx
	jmp	104f
57:
	movq	%rdx, %rbx
	movq	8(%rsp), %rax
	cmpw	$15, (%rax)
	jae	58f
	movq	72(%rsp), %rax
	jmp	59f
58:
	cmpw	$10, 104(%rsp)
	ja	243f
	movl	$408, %edi
	movl	$8, %esi
	callq	rattle_alloc@PLT
	testb	$1, %al
	je	243f
	movq	%rdx, %rcx
	movq	104(%rsp), %rdx
	leal	1(%rdx), %eax
	movw	%ax, 2(%rcx)
	movq	8(%rsp), %rax
	movq	%rax, 280(%rcx)
	movw	$0, (%rcx)
	movq	%rcx, 184(%rsp)
	movl	$14, %eax
	subq	%rdx, %rax
	movq	%rcx, 8(%rsp)
59:
	pxor	%xmm0, %xmm0
	movdqa	%xmm0, 832(%rsp)
	movq	%r14, %rcx
	subq	%rax, %rcx
	movq	%rcx, 752(%rsp)
	jbe	63f
	movl	%r14d, %ecx
	subl	%eax, %ecx
	testb	$3, %cl
	je	61f
	subb	%al, %r15b
	movzbl	%r15b, %ecx
	andl	$3, %ecx
60:
	movl	%r12d, %esi
	andb	$15, %sil
	movb	%sil, 831(%rsp,%r14)
	decq	%r14
	shrq	$4, %r12
	decq	%rcx
	jne	60b
61:
	addq	72(%rsp), %rbx
	subq	%rax, %rbx
	cmpq	$3, %rbx
	jb	63f
62:
	movl	%r12d, %ecx
	andb	$15, %cl
	movb	%cl, 831(%rsp,%r14)
	movl	%r12d, %ecx
	shrb	$4, %cl
	movb	%cl, 830(%rsp,%r14)
	movl	%r12d, %ecx
	shrl	$8, %ecx
	andb	$15, %cl
	movb	%cl, 829(%rsp,%r14)
	movl	%r12d, %ecx
	shrl	$12, %ecx
	andb	$15, %cl
	movb	%cl, 828(%rsp,%r14)
	addq	$-4, %r14
	shrq	$16, %r12
	cmpq	%r14, %rax
	jb	62b
63:
	movdqa	832(%rsp), %xmm0
	movdqa	%xmm0, 912(%rsp)
	movl	$16, %r15d
	subq	%rax, %r15
	cmpq	$2, %r15
	movq	16(%rsp), %rcx
	movq	48(%rsp), %rdi
	jb	103f
	leaq	(%rsp,%rax), %r12
	addq	$912, %r12
	leaq	184(%rsp), %rsi
	jmp	66f
64:
	movq	312(%rsp), %rdx
	incl	%edx
	movb	%dl, (%r12)
	addb	$-8, %al
	movb	%al, 1(%r12)
65:
	movzbl	%dl, %edi
	leaq	(%rcx,%rdi,8), %rsi
	addq	$280, %rsi
	incq	%r12
	cmpq	$2, %r15
	leaq	-1(%r15), %r15
	jbe	102f
66:
	movzbl	(%r12), %edi
	movl	%edi, %edx
	movq	(%rsi), %rcx
	movq	280(%rcx,%rdi,8), %rax
	cmpw	$15, (%rax)
	jb	65b
	movq	%rdi, 48(%rsp)
	movq	%rsi, 8(%rsp)
	movq	%rdx, 312(%rsp)
	movzwl	2(%rcx), %ebx
	decq	%rbx
	movq	%r15, 104(%rsp)
	movq	%r12, 72(%rsp)
	je	67f
	movl	$408, %edi
	movl	$8, %esi
	callq	rattle_alloc@PLT
	testb	$1, %al
	jne	68f
	jmp	241f
67:
	movl	$280, %edi
	movl	$8, %esi
	callq	rattle_alloc@PLT
	testb	$1, %al
	je	241f
68:
	movq	%rdx, %r14
	movw	%bx, 2(%rdx)
	leaq	8(%rdx), %rdi
	movq	8(%rsp), %rax
	movq	(%rax), %r9
	movzwl	(%r9), %eax
	movq	%rax, 128(%rsp)
	leaq	1(%rax), %rcx
	xorl	%r8d, %r8d
	cmpw	$0, 2(%r9)
	cmovneq	%rcx, %r8
	movq	48(%rsp), %rax
	movq	280(%r9,%rax,8), %r12
	movzwl	2(%r12), %r10d
	movzwl	(%r12), %ebx
	leaq	-8(%rbx), %r11
	leaq	136(%r12), %rsi
	movq	%r11, %rdx
	shlq	$4, %rdx
	movq	%rdi, %rax
	subq	%rsi, %rax
	cmpq	%rdx, %rax
	movq	%r9, 16(%rsp)
	movq	%rcx, 112(%rsp)
	movq	%r8, 136(%rsp)
	movw	%r10w, 120(%rsp)
	jae	69f
	testq	%r11, %r11
	je	70f
	movl	%ebx, %eax
	andl	$7, %eax
	leal	-9(%rbx), %ecx
	cmpw	$7, %cx
	jae	71f
	xorl	%ecx, %ecx
	leaq	248(%r14), %rdi
	jmp	73f
69:
	movq	%rbx, %r15
	movq	%r11, %rbx
	callq	memmove@PLT
	movq	%rbx, %r11
	movq	%r15, %rbx
	leaq	248(%r14), %rdi
	jmp	75f
70:
	movq	%rbx, %r15
	movq	%r11, %rbx
	leaq	264(%r12), %rsi
	xorl	%edx, %edx
	leaq	248(%r14), %rdi
	jmp	82f
71:
	movq	%r11, %rdx
	andq	$-8, %rdx
	leaq	120(%r14), %rsi
	leaq	248(%r12), %rdi
	xorl	%ecx, %ecx
	xorl	%r8d, %r8d
	.p2align	4
72:
	movups	-112(%rdi,%r8), %xmm0
	movups	%xmm0, -112(%rsi,%r8)
	movups	-96(%rdi,%r8), %xmm0
	movups	%xmm0, -96(%rsi,%r8)
	movups	-80(%rdi,%r8), %xmm0
	movups	%xmm0, -80(%rsi,%r8)
	movups	-64(%rdi,%r8), %xmm0
	movups	%xmm0, -64(%rsi,%r8)
	movups	-48(%rdi,%r8), %xmm0
	movups	%xmm0, -48(%rsi,%r8)
	movups	-32(%rdi,%r8), %xmm0
	movups	%xmm0, -32(%rsi,%r8)
	movups	-16(%rdi,%r8), %xmm0
	movups	%xmm0, -16(%rsi,%r8)
	movdqu	(%rdi,%r8), %xmm0
	movdqu	%xmm0, (%rsi,%r8)
	addq	$8, %rcx
	subq	$-128, %r8
	cmpq	%rcx, %rdx
	jne	72b
	testq	%rax, %rax
	leaq	248(%r14), %rdi
	je	75f
73:
	shlq	$4, %rcx
	leaq	(%r12,%rcx), %rdx
	addq	$136, %rdx
	addq	%r14, %rcx
	addq	$8, %rcx
	shll	$4, %eax
	xorl	%esi, %esi
	.p2align	4
74:
	movdqu	(%rdx,%rsi), %xmm0
	movdqu	%xmm0, (%rcx,%rsi)
	addq	$16, %rsi
	cmpq	%rsi, %rax
	jne	74b
75:
	leaq	264(%r12), %rsi
	leaq	(%r11,%r11), %rdx
	movq	%rdi, %rax
	subq	%rsi, %rax
	cmpq	%rdx, %rax
	jae	81f
	testq	%r11, %r11
	movq	48(%rsp), %r10
	je	83f
	cmpl	$4, %r11d
	jb	76f
	movq	%r14, %rax
	subq	%r12, %rax
	addq	$-16, %rax
	cmpq	$32, %rax
	jae	95f
76:
	xorl	%eax, %eax
77:
	movq	%rbx, %rdx
	movq	%rax, %rcx
	andq	$3, %rdx
	je	79f
	movq	%rax, %rcx
	.p2align	4
78:
	movzwl	(%rsi,%rcx,2), %r8d
	movw	%r8w, (%rdi,%rcx,2)
	incq	%rcx
	decq	%rdx
	jne	78b
79:
	negq	%rax
	addq	%rbx, %rax
	addq	$-9, %rax
	cmpl	$3, %eax
	jb	83f
	.p2align	4
80:
	movzwl	264(%r12,%rcx,2), %eax
	movw	%ax, 248(%r14,%rcx,2)
	movzwl	266(%r12,%rcx,2), %eax
	movw	%ax, 250(%r14,%rcx,2)
	movzwl	268(%r12,%rcx,2), %eax
	movw	%ax, 252(%r14,%rcx,2)
	movzwl	270(%r12,%rcx,2), %eax
	movw	%ax, 254(%r14,%rcx,2)
	addq	$4, %rcx
	cmpq	%rcx, %r11
	jne	80b
	jmp	83f
81:
	movq	%rbx, %r15
	movq	%r11, %rbx
82:
	callq	memmove@PLT
	movq	48(%rsp), %r10
	movq	%rbx, %r11
	movq	%r15, %rbx
83:
	movq	120(%r12), %rax
	movq	%rax, 272(%rsp)
	movq	128(%r12), %r9
	movzwl	262(%r12), %r8d
	cmpw	$0, 120(%rsp)
	je	90f
	leaq	280(%r14), %rdi
	leaq	344(%r12), %rsi
	leaq	-56(,%rbx,8), %rdx
	movq	%rdi, %rax
	subq	%rsi, %rax
	cmpq	%rdx, %rax
	jae	89f
	movq	%rbx, %rax
	addq	$-7, %rax
	je	90f
	cmpl	$4, %eax
	jb	84f
	movq	%r14, %rcx
	subq	%r12, %rcx
	addq	$-64, %rcx
	cmpq	$32, %rcx
	jae	96f
84:
	xorl	%ecx, %ecx
85:
	movq	%r9, 280(%rsp)
	movl	%r8d, %r15d
	movl	%ebx, %r8d
	notl	%r8d
	movq	%rcx, %rdx
	testb	$3, %r8b
	je	87f
	leal	1(%rbx), %r8d
	andl	$3, %r8d
	movq	%rcx, %rdx
	.p2align	4
86:
	movq	(%rsi,%rdx,8), %r9
	movq	%r9, (%rdi,%rdx,8)
	incq	%rdx
	decq	%r8
	jne	86b
87:
	negq	%rcx
	addq	%rbx, %rcx
	addq	$-8, %rcx
	cmpl	$3, %ecx
	movl	%r15d, %r8d
	movq	280(%rsp), %r9
	jb	90f
	.p2align	4
88:
	movq	344(%r12,%rdx,8), %rcx
	movq	%rcx, 280(%r14,%rdx,8)
	movq	352(%r12,%rdx,8), %rcx
	movq	%rcx, 288(%r14,%rdx,8)
	movq	360(%r12,%rdx,8), %rcx
	movq	%rcx, 296(%r14,%rdx,8)
	movq	368(%r12,%rdx,8), %rcx
	movq	%rcx, 304(%r14,%rdx,8)
	addq	$4, %rdx
	cmpq	%rdx, %rax
	jne	88b
	jmp	90f
89:
	movq	%r11, %rbx
	movw	%r8w, 120(%rsp)
	movq	%r9, %r15
	callq	memmove@PLT
	movq	%r15, %r9
	movzwl	120(%rsp), %r8d
	movq	%rbx, %r11
	movq	48(%rsp), %r10
90:
	movq	16(%rsp), %rax
	leaq	280(%rax), %rsi
	leaq	248(%rax), %rbx
	addq	$8, %rax
	movw	$7, (%r12)
	movw	%r11w, (%r14)
	movq	%r12, (%rsi,%r10,8)
	movl	%r10d, %r12d
	shll	$4, %r12d
	addq	%rax, %r12
	movq	128(%rsp), %r15
	cmpl	%r10d, %r15d
	jne	91f
	movq	272(%rsp), %rax
	movq	%rax, (%r12)
	movq	%r9, 8(%r12)
	movw	%r8w, (%rbx,%r10,2)
	jmp	92f
91:
	leaq	16(%r12), %rdi
	subq	%r10, %r15
	movq	%r15, %rdx
	shlq	$4, %rdx
	movq	%rsi, 128(%rsp)
	movq	%r12, %rsi
	movw	%r8w, 120(%rsp)
	movq	%r9, 280(%rsp)
	callq	memmove@PLT
	movq	272(%rsp), %rax
	movq	%rax, (%r12)
	movq	280(%rsp), %rax
	movq	%rax, 8(%r12)
	movq	48(%rsp), %rax
	leaq	(%rbx,%rax,2), %rsi
	movq	48(%rsp), %rax
	leaq	(%rbx,%rax,2), %rdi
	addq	$2, %rdi
	addq	%r15, %r15
	movq	%r15, %rdx
	callq	memmove@PLT
	movq	128(%rsp), %rsi
	movq	48(%rsp), %r10
	movzwl	120(%rsp), %eax
	movw	%ax, (%rbx,%r10,2)
92:
	movq	136(%rsp), %rdx
	incq	%r10
	cmpl	%r10d, %edx
	movq	72(%rsp), %r12
	jne	93f
	shll	$3, %edx
	jmp	94f
93:
	leal	(,%r10,8), %r15d
	leaq	(%rsi,%r15), %rdi
	addq	$8, %rdi
	addq	%r15, %rsi
	subq	%r10, %rdx
	shlq	$3, %rdx
	callq	memmove@PLT
	movq	%r15, %rdx
94:
	movq	16(%rsp), %rcx
	movq	104(%rsp), %r15
	movq	8(%rsp), %rax
	movq	%r14, 280(%rcx,%rdx)
	movq	112(%rsp), %rdx
	movw	%dx, (%rcx)
	movq	%rcx, (%rax)
	movzbl	1(%r12), %eax
	cmpb	$7, %al
	ja	64b
	movzbl	(%r12), %edx
	jmp	65b
95:
	cmpl	$16, %r11d
	jae	98f
	xorl	%eax, %eax
	jmp	100f
96:
	movq	%rax, %rcx
	andq	$-4, %rcx
	xorl	%edx, %edx
97:
	movdqu	344(%r12,%rdx,8), %xmm0
	movdqu	360(%r12,%rdx,8), %xmm1
	movdqu	%xmm0, 280(%r14,%rdx,8)
	movdqu	%xmm1, 296(%r14,%rdx,8)
	addq	$4, %rdx
	cmpq	%rdx, %rcx
	jne	97b
	cmpl	%ecx, %eax
	je	90b
	jmp	85b
98:
	movq	%r11, %rax
	andq	$-16, %rax
	xorl	%ecx, %ecx
99:
	movdqu	264(%r12,%rcx,2), %xmm0
	movdqu	280(%r12,%rcx,2), %xmm1
	movdqu	%xmm0, 248(%r14,%rcx,2)
	movdqu	%xmm1, 264(%r14,%rcx,2)
	addq	$16, %rcx
	cmpq	%rcx, %rax
	jne	99b
	cmpl	%eax, %r11d
	je	83b
	testb	$12, %r11b
	je	77b
100:
	movq	%rax, %rcx
	movq	%r11, %rax
	andq	$-4, %rax
101:
	movq	(%rsi,%rcx,2), %rdx
	movq	%rdx, (%rdi,%rcx,2)
	addq	$4, %rcx
	cmpq	%rcx, %rax
	jne	101b
	cmpl	%eax, %r11d
	je	83b
	jmp	77b
102:
	movq	184(%rsp), %rax
	movq	%rax, 8(%rsp)
103:
	movq	8(%rsp), %rax
	cmpw	$0, (%rax)
	je	242f
	movzbl	927(%rsp), %r12d
	shlq	$3, %rdi
104:
	cmpq	$1, 752(%rsp)
	leaq	280(%rcx,%rdi), %rcx
	leaq	184(%rsp), %rax
	cmoveq	%rax, %rcx
	andl	$15, %r12d
	movq	(%rcx), %r15
	movzwl	(%r15), %edx
	movl	%r12d, %eax
	shll	$4, %eax
	movq	%rdx, %rbx
	leaq	(%r15,%rax), %r14
	addq	$8, %r14
	subq	%r12, %rbx
	jne	105f
	movq	%r13, (%r14)
	movq	%rbp, 8(%r14)
	addl	%r12d, %r12d
	jmp	106f
105:
	leaq	16(%r14), %rdi
	movq	%rdx, 48(%rsp)
	movq	%rbx, %rdx
	shlq	$4, %rdx
	movq	%r14, %rsi
	movq	%rcx, 16(%rsp)
	callq	memmove@PLT
	movq	%r13, (%r14)
	movq	%rbp, 8(%r14)
	addl	%r12d, %r12d
	leaq	248(%r15), %rsi
	leaq	(%rsi,%r12), %rdi
	addq	$2, %rdi
	addq	%r12, %rsi
	addq	%rbx, %rbx
	movq	%rbx, %rdx
	callq	memmove@PLT
	movq	48(%rsp), %rdx
	movq	16(%rsp), %rcx
106:
	incl	%edx
	movl	56(%rsp), %eax
	movw	%ax, 248(%r15,%r12)
	movw	%dx, (%r15)
	movq	%r15, (%rcx)
	movq	192(%rsp), %rcx
	incq	%rcx
	movq	%rcx, 112(%rsp)
	movq	%rcx, 192(%rsp)
	jmp	55b
107:
	movq	%rbx, %rbp
	movzbl	176(%rsp), %r14d
	movq	184(%rsp), %rbx
	movq	%r14, 288(%rsp)
	movq	%rbx, 296(%rsp)
	movq	112(%rsp), %rax
	movq	%rax, 304(%rsp)
	movq	$0, 96(%rsp)
	testq	%rbp, %rbp
	js	227f
	movl	$1, %esi
	movq	%rbp, %rdi
	callq	rattle_alloc@PLT
	testb	$1, %al
	je	227f
	movq	%rdx, 144(%rsp)
	movq	$0, 152(%rsp)
	movq	%rbp, 160(%rsp)
	xorl	%ebx, %ebx
	xorl	%r12d, %r12d
	movq	$0, 120(%rsp)
	movq	$0, 56(%rsp)
	movq	%rbp, %r14
	jmp	111f
108:
	movq	40(%rsp), %r13
	movq	32(%rsp), %r15
	movq	24(%rsp), %r14
	movq	16(%rsp), %r12
109:
	cmpq	%rbx, 160(%rsp)
	je	115f
110:
	movq	144(%rsp), %rax
	movb	%bpl, (%rax,%rbx)
	incq	%rbx
	movq	%rbx, 152(%rsp)
	incq	%r12
	cmpq	%r14, %r12
	je	232f
111:
	imulq	$104, %r12, %rax
	movb	$1, %bpl
	cmpb	$0, 96(%r15,%rax)
	jne	109b
	addq	%rax, %r15
	movzbl	56(%r15), %r13d
	leaq	64(%r15), %r14
	testb	%r13b, %r13b
	movq	%r12, 16(%rsp)
	je	112f
	movq	64(%r15), %rsi
	leaq	72(%r15), %rcx
	jmp	113f
112:
	leaq	80(%r15), %rcx
	movq	%r14, %rsi
113:
	movq	32(%rsp), %rdx
	movzbl	(%rdx,%rax), %r12d
	movq	(%rcx), %rdx
	leaq	288(%rsp), %rdi
	callq	"mime_text::merging::hidden::weight_of"
	movl	%r12d, 48(%rsp)
	cmpw	%r12w, %ax
	jbe	108b
	cmpb	$2, 88(%r15)
	movq	16(%rsp), %r12
	jne	114f
	movq	40(%rsp), %r13
	movq	32(%rsp), %r15
	movq	24(%rsp), %r14
	jmp	109b
114:
	testb	%r13b, %r13b
	je	116f
	movq	64(%r15), %r14
	addq	$72, %r15
	jmp	117f
115:
	leaq	144(%rsp), %rdi
	callq	"std_alloc::vec::Vec::grow_amortized::<#0135d645f841a886>"
	testb	%al, %al
	je	281f
	movq	152(%rsp), %rbx
	movq	32(%rsp), %r15
	jmp	110b
116:
	addq	$80, %r15
117:
	movq	(%r15), %rbx
	testq	%rbx, %rbx
	movq	40(%rsp), %r13
	je	122f
	js	278f
	movl	$1, %esi
	movq	%rbx, %rdi
	callq	rattle_alloc@PLT
	testb	$1, %al
	je	278f
	movq	%rdx, 176(%rsp)
	movq	$0, 184(%rsp)
	movq	%rbx, 192(%rsp)
	xorl	%ebp, %ebp
	xorl	%r15d, %r15d
	jmp	120f
118:
	movq	176(%rsp), %rdx
	movq	184(%rsp), %rbp
	.p2align	4
119:
	movb	%r13b, (%rdx,%rbp)
	incq	%rbp
	movq	%rbp, 184(%rsp)
	incq	%r15
	cmpq	%r15, %rbx
	je	121f
120:
	movzbl	(%r14,%r15), %eax
	leal	-65(%rax), %ecx
	leal	32(%rax), %esi
	cmpb	$26, %cl
	movzbl	%sil, %r13d
	cmovael	%eax, %r13d
	cmpq	%rbp, 192(%rsp)
	jne	119b
	leaq	176(%rsp), %rdi
	callq	"std_alloc::vec::Vec::grow_amortized::<#0135d645f841a886>"
	testb	%al, %al
	jne	118b
	jmp	277f
121:
	movq	176(%rsp), %r13
	movq	192(%rsp), %rax
	movq	%rax, 104(%rsp)
	jmp	123f
122:
	movq	%rsp, %r13
	movq	$0, 104(%rsp)
	xorl	%ebp, %ebp
123:
	movq	56(%rsp), %rbx
	cmpb	$1, %bl
	movq	32(%rsp), %r15
	movq	24(%rsp), %r14
	jne	135f
	leaq	96(%rsp), %rax
124:
	movq	(%rax), %rax
	movzwl	(%rax), %edx
	xorl	%ecx, %ecx
	testq	%rdx, %rdx
	je	134f
	.p2align	4
125:
	leaq	(%rcx,%rcx,2), %rsi
	movq	8(%rax,%rsi,8), %rdi
	movq	16(%rax,%rsi,8), %rsi
	cmpq	%rbp, %rsi
	movq	%rbp, %r8
	cmovbq	%rsi, %r8
	xorl	%r9d, %r9d
	cmpq	$64, %r8
	jb	127f
	movq	%r8, %r10
	.p2align	4
126:
	movdqu	(%r13,%r9), %xmm0
	movdqu	16(%r13,%r9), %xmm1
	movdqu	32(%r13,%r9), %xmm2
	movdqu	48(%r13,%r9), %xmm3
	movdqu	(%rdi,%r9), %xmm4
	pcmpeqb	%xmm0, %xmm4
	movdqu	16(%rdi,%r9), %xmm0
	pcmpeqb	%xmm1, %xmm0
	movdqu	32(%rdi,%r9), %xmm1
	pcmpeqb	%xmm2, %xmm1
	pand	%xmm4, %xmm1
	movdqu	48(%rdi,%r9), %xmm2
	pcmpeqb	%xmm3, %xmm2
	pand	%xmm0, %xmm2
	pand	%xmm1, %xmm2
	pmovmskb	%xmm2, %r11d
	cmpl	$65535, %r11d
	jne	127f
	addq	$64, %r9
	addq	$-64, %r10
	cmpq	$63, %r10
	ja	126b
127:
	movq	%r8, %r10
	subq	%r9, %r10
	cmpq	$8, %r10
	jb	129f
	.p2align	4
128:
	movq	(%r13,%r9), %r11
	cmpq	(%rdi,%r9), %r11
	jne	129f
	addq	$8, %r9
	addq	$-8, %r10
	cmpq	$7, %r10
	ja	128b
129:
	cmpq	%r8, %r9
	jae	131f
	.p2align	4
130:
	movzbl	(%rdi,%r9), %r10d
	cmpb	%r10b, (%r13,%r9)
	jne	132f
	incq	%r9
	cmpq	%r9, %r8
	jne	130b
131:
	cmpq	%rsi, %rbp
	je	136f
132:
	jb	133f
	incq	%rcx
	cmpq	%rdx, %rcx
	jne	125b
	movq	%rdx, %rcx
133:
	shlq	$3, %rcx
134:
	cmpw	$0, 2(%rax)
	je	135f
	addq	%rcx, %rax
	addq	$400, %rax
	jmp	124b
135:
	testq	%rbp, %rbp
	je	137f
	js	311f
	movl	$1, %esi
	movq	%rbp, %rdi
	callq	rattle_alloc@PLT
	testb	$1, %al
	je	311f
	movq	%rdx, %r14
	jmp	138f
136:
	movzwl	368(%rax,%rcx,2), %ebp
	cmpq	$0, 104(%rsp)
	je	140f
	movq	%r13, %rdi
	callq	rattle_dealloc@PLT
	movq	40(%rsp), %r13
	jmp	221f
137:
	movq	%rsp, %r14
138:
	movq	%r14, %rcx
	subq	%r13, %rcx
	cmpq	%rbp, %rcx
	jae	139f
	xorl	%eax, %eax
	cmpq	$4, %rbp
	jb	145f
	cmpq	$32, %rcx
	jb	145f
	cmpq	$32, %rbp
	jae	141f
	xorl	%eax, %eax
	jmp	143f
139:
	movq	%r14, %rdi
	movq	%r13, %rsi
	movq	%rbp, %rdx
	callq	memmove@PLT
	leaq	288(%rsp), %rdi
	movq	%r14, %rsi
	movq	%rbp, %rdx
	xorl	%ecx, %ecx
	callq	"mime_text::merging::hidden::least_weight"
	movw	%ax, 112(%rsp)
	testq	%rbp, %rbp
	jne	150f
	jmp	151f
140:
	movq	40(%rsp), %r13
	jmp	221f
141:
	movq	%rbp, %rax
	andq	$-32, %rax
	xorl	%ecx, %ecx
142:
	movdqu	(%r13,%rcx), %xmm0
	movdqu	16(%r13,%rcx), %xmm1
	movdqu	%xmm0, (%r14,%rcx)
	movdqu	%xmm1, 16(%r14,%rcx)
	addq	$32, %rcx
	cmpq	%rcx, %rax
	jne	142b
	cmpq	%rax, %rbp
	je	149f
	testb	$28, %bpl
	je	145f
143:
	movq	%rax, %rcx
	movq	%rbp, %rax
	andq	$-4, %rax
144:
	movl	(%r13,%rcx), %edx
	movl	%edx, (%r14,%rcx)
	addq	$4, %rcx
	cmpq	%rcx, %rax
	jne	144b
	cmpq	%rax, %rbp
	je	149f
145:
	movq	%rbp, %rdx
	movq	%rax, %rcx
	andq	$3, %rdx
	je	147f
	movq	%rax, %rcx
146:
	movzbl	(%r13,%rcx), %esi
	movb	%sil, (%r14,%rcx)
	incq	%rcx
	decq	%rdx
	jne	146b
147:
	subq	%rbp, %rax
	cmpq	$-4, %rax
	ja	149f
148:
	movzbl	(%r13,%rcx), %eax
	movb	%al, (%r14,%rcx)
	movzbl	1(%r13,%rcx), %eax
	movb	%al, 1(%r14,%rcx)
	movzbl	2(%r13,%rcx), %eax
	movb	%al, 2(%r14,%rcx)
	movzbl	3(%r13,%rcx), %eax
	movb	%al, 3(%r14,%rcx)
	addq	$4, %rcx
	cmpq	%rcx, %rbp
	jne	148b
149:
	leaq	288(%rsp), %rdi
	movq	%r14, %rsi
	movq	%rbp, %rdx
	xorl	%ecx, %ecx
	callq	"mime_text::merging::hidden::least_weight"
	movw	%ax, 112(%rsp)
150:
	movq	%r14, %rdi
	callq	rattle_dealloc@PLT
151:
	cmpb	$1, %bl
	jne	152f
	movq	96(%rsp), %rax
	movq	%rax, 72(%rsp)
	movzwl	2(%rax), %eax
	jmp	153f
152:
	movl	$400, %edi
	movl	$8, %esi
	callq	rattle_alloc@PLT
	movq	%rdx, 72(%rsp)
	testb	$1, %al
	je	284f
	movq	72(%rsp), %rax
	movl	$0, (%rax)
	movq	%rax, 96(%rsp)
	xorl	%eax, %eax
153:
	movzwl	%ax, %eax
	movl	$15, %r15d
	subq	%rax, %r15
	movq	%rax, 136(%rsp)
	movl	%eax, %edi
	negb	%dil
	xorl	%edx, %edx
	movq	72(%rsp), %rax
	movq	%rax, %rsi
	movq	$0, 8(%rsp)
	movq	%rax, 56(%rsp)
	movq	%r15, 128(%rsp)
	xorl	%r14d, %r14d
	movq	%rsi, %rcx
	movzwl	(%rsi), %esi
	testq	%rsi, %rsi
	je	164f
154:
	movb	%dil, 64(%rsp)
	xorl	%eax, %eax
	.p2align	4
155:
	leaq	(%rax,%rax,2), %rdi
	movq	8(%rcx,%rdi,8), %r8
	movq	16(%rcx,%rdi,8), %rdi
	cmpq	%rbp, %rdi
	movq	%rbp, %r9
	cmovbq	%rdi, %r9
	xorl	%r10d, %r10d
	cmpq	$64, %r9
	jb	157f
	movq	%r9, %r11
	.p2align	4
156:
	movdqu	(%r13,%r10), %xmm0
	movdqu	16(%r13,%r10), %xmm1
	movdqu	32(%r13,%r10), %xmm2
	movdqu	48(%r13,%r10), %xmm3
	movdqu	(%r8,%r10), %xmm4
	pcmpeqb	%xmm0, %xmm4
	movdqu	16(%r8,%r10), %xmm0
	pcmpeqb	%xmm1, %xmm0
	movdqu	32(%r8,%r10), %xmm1
	pcmpeqb	%xmm2, %xmm1
	pand	%xmm4, %xmm1
	movdqu	48(%r8,%r10), %xmm2
	pcmpeqb	%xmm3, %xmm2
	pand	%xmm0, %xmm2
	pand	%xmm1, %xmm2
	pmovmskb	%xmm2, %ebx
	cmpl	$65535, %ebx
	jne	157f
	addq	$64, %r10
	addq	$-64, %r11
	cmpq	$63, %r11
	ja	156b
157:
	movq	%r9, %r11
	subq	%r10, %r11
	cmpq	$8, %r11
	jb	159f
	.p2align	4
158:
	movq	(%r13,%r10), %rbx
	cmpq	(%r8,%r10), %rbx
	jne	159f
	addq	$8, %r10
	addq	$-8, %r11
	cmpq	$7, %r11
	ja	158b
159:
	cmpq	%r9, %r10
	jae	161f
	.p2align	4
160:
	movzbl	(%r8,%r10), %r11d
	cmpb	%r11b, (%r13,%r10)
	jne	162f
	incq	%r10
	cmpq	%r10, %r9
	jne	160b
161:
	cmpq	%rdi, %rbp
	je	166f
162:
	jb	163f
	incq	%rax
	cmpq	%rsi, %rax
	jne	155b
	movq	%rsi, %rax
163:
	movzbl	64(%rsp), %edi
	jmp	165f
164:
	xorl	%eax, %eax
165:
	shlq	$4, %r14
	addq	%rax, %r14
	incq	%r15
	cmpw	$0, 2(%rcx)
	je	168f
	movq	400(%rcx,%rax,8), %rsi
	incq	%rdx
	incb	%dil
	movq	%rax, 8(%rsp)
	movq	%rcx, 56(%rsp)
	movq	%rsi, %rcx
	movzwl	(%rsi), %esi
	testq	%rsi, %rsi
	jne	154b
	jmp	164b
166:
	andl	$15, %eax
	addq	136(%rsp), %r15
	cmpq	$15, %r15
	movq	56(%rsp), %rcx
	movq	8(%rsp), %rdx
	leaq	400(%rcx,%rdx,8), %rcx
	leaq	96(%rsp), %rdx
	cmovneq	%rcx, %rdx
	movq	(%rdx), %rcx
	movzwl	(%rcx), %edx
	cmpq	%rdx, %rax
	jae	365f
	movzwl	112(%rsp), %ebp
	movw	%bp, 368(%rcx,%rax,2)
	cmpq	$0, 104(%rsp)
	movq	32(%rsp), %r15
	movq	24(%rsp), %r14
	movl	48(%rsp), %ebx
	je	167f
	movq	%r13, %rdi
	callq	rattle_dealloc@PLT
167:
	movq	40(%rsp), %r13
	jmp	222f
168:
	movb	%dil, 64(%rsp)
	movq	%rdx, 272(%rsp)
	movb	$1, %bl
	movabsq	$9223372036854775806, %rax
	cmpq	%rax, 120(%rsp)
	ja	310f
	movq	%r15, %rcx
	movq	128(%rsp), %r8
	subq	%r8, %rcx
	cmpq	$1, %rcx
	movq	56(%rsp), %rax
	movq	8(%rsp), %rdi
	leaq	400(%rax,%rdi,8), %rax
	leaq	96(%rsp), %rsi
	cmoveq	%rsi, %rax
	movq	(%rax), %rax
	cmpw	$15, (%rax)
	jae	169f
	shlq	$3, %rdi
	movq	%rdi, %rdx
	jmp	219f
169:
	movq	72(%rsp), %rax
	cmpw	$15, (%rax)
	movq	%r8, %rax
	jb	170f
	cmpw	$10, 136(%rsp)
	ja	310f
	movl	$528, %edi
	movl	$8, %esi
	callq	rattle_alloc@PLT
	movq	72(%rsp), %rcx
	testb	$1, %al
	je	310f
	movq	136(%rsp), %rsi
	leal	1(%rsi), %eax
	movw	%ax, 2(%rdx)
	movq	%rcx, 400(%rdx)
	movw	$0, (%rdx)
	movq	%rdx, 96(%rsp)
	movl	$14, %eax
	subq	%rsi, %rax
	movq	%rdx, 72(%rsp)
170:
	pxor	%xmm0, %xmm0
	movdqa	%xmm0, 176(%rsp)
	movq	%r15, %rcx
	subq	%rax, %rcx
	movq	%rcx, 280(%rsp)
	movq	272(%rsp), %rdx
	movzbl	64(%rsp), %esi
	jbe	174f
	movl	%r15d, %ecx
	subl	%eax, %ecx
	testb	$3, %cl
	je	172f
	subb	%al, %sil
	movzbl	%sil, %ecx
	andl	$3, %ecx
171:
	movl	%r14d, %esi
	andb	$15, %sil
	movb	%sil, 175(%rsp,%r15)
	decq	%r15
	shrq	$4, %r14
	decq	%rcx
	jne	171b
172:
	addq	128(%rsp), %rdx
	subq	%rax, %rdx
	cmpq	$3, %rdx
	jb	174f
173:
	movl	%r14d, %ecx
	andb	$15, %cl
	movb	%cl, 175(%rsp,%r15)
	movl	%r14d, %ecx
	shrb	$4, %cl
	movb	%cl, 174(%rsp,%r15)
	movl	%r14d, %ecx
	shrl	$8, %ecx
	andb	$15, %cl
	movb	%cl, 173(%rsp,%r15)
	movl	%r14d, %ecx
	shrl	$12, %ecx
	andb	$15, %cl
	movb	%cl, 172(%rsp,%r15)
	addq	$-4, %r15
	shrq	$16, %r14
	cmpq	%r15, %rax
	jb	173b
174:
	movdqa	176(%rsp), %xmm0
	movdqa	%xmm0, 1952(%rsp)
	movl	$16, %ecx
	subq	%rax, %rcx
	cmpq	$2, %rcx
	jb	218f
	leaq	(%rsp,%rax), %r14
	addq	$1952, %r14
	leaq	96(%rsp), %r15
	jmp	178f
175:
	incl	%esi
	movb	%sil, (%r14)
	addb	$-8, %al
	movb	%al, 1(%r14)
176:
	movb	$1, %bl
	movq	64(%rsp), %rcx
177:
	movzbl	%sil, %esi
	leaq	(%rdx,%rsi,8), %r15
	addq	$400, %r15
	incq	%r14
	cmpq	$2, %rcx
	leaq	-1(%rcx), %rcx
	jbe	217f
178:
	movzbl	(%r14), %esi
	movq	(%r15), %rdx
	movq	400(%rdx,%rsi,8), %rax
	cmpw	$15, (%rax)
	jb	177b
	movq	%rsi, 56(%rsp)
	movq	%rcx, 64(%rsp)
	movzwl	2(%rdx), %ebx
	decq	%rbx
	je	179f
	movl	$528, %edi
	jmp	180f
179:
	movl	$400, %edi
180:
	movl	$8, %esi
	callq	rattle_alloc@PLT
	testb	$1, %al
	je	308f
	movq	%rdx, %r11
	movw	%bx, 2(%rdx)
	leaq	8(%rdx), %rdi
	leaq	368(%rdx), %rax
	movq	%rax, 312(%rsp)
	movq	%r15, 72(%rsp)
	movq	(%r15), %rcx
	pxor	%xmm0, %xmm0
	movdqa	%xmm0, 1888(%rsp)
	movq	$0, 1904(%rsp)
	movzwl	(%rcx), %edx
	xorl	%eax, %eax
	xorl	%esi, %esi
	cmpw	$0, 2(%rcx)
	leaq	1(%rdx), %r8
	setne	%sil
	cmoveq	%rax, %r8
	shll	$4, %esi
	leaq	400(%rcx), %rbx
	leaq	368(%rcx), %r9
	leaq	8(%rcx), %r10
	movq	%r10, 832(%rsp)
	movq	%rdx, 840(%rsp)
	movq	$15, 848(%rsp)
	movq	%r9, 856(%rsp)
	movq	%rdx, 864(%rsp)
	movq	$15, 872(%rsp)
	movq	%rbx, 136(%rsp)
	movq	%rbx, 880(%rsp)
	movq	%r8, 888(%rsp)
	movq	%rsi, 896(%rsp)
	movq	%rcx, 904(%rsp)
	movdqa	%xmm0, 1680(%rsp)
	movq	$0, 1696(%rsp)
	movq	56(%rsp), %rdx
	movq	400(%rcx,%rdx,8), %rbx
	movdqa	%xmm0, 2000(%rsp)
	movq	$0, 2016(%rsp)
	movdqa	%xmm0, 1712(%rsp)
	movq	$0, 1728(%rsp)
	movzwl	2(%rbx), %r9d
	movzwl	(%rbx), %r15d
	leaq	1(%r15), %rcx
	xorl	%edx, %edx
	testw	%r9w, %r9w
	cmoveq	%rax, %rcx
	setne	%dl
	shll	$4, %edx
	leaq	400(%rbx), %rax
	leaq	368(%rbx), %rsi
	leaq	8(%rbx), %r8
	movq	%r8, 176(%rsp)
	movq	$15, 192(%rsp)
	movq	%rsi, 200(%rsp)
	movq	$15, 216(%rsp)
	movq	%rax, 224(%rsp)
	movq	%rcx, 232(%rsp)
	movq	%rdx, 240(%rsp)
	movq	%rbx, 248(%rsp)
	leaq	-8(%r15), %r10
	leaq	200(%rbx), %rsi
	leaq	-64(,%r15,8), %rax
	leaq	(%rax,%rax,2), %rdx
	movq	%rdi, %rax
	subq	%rsi, %rax
	cmpq	%rdx, %rax
	movq	%r11, 8(%rsp)
	movq	%r10, 128(%rsp)
	movw	%r9w, 272(%rsp)
	jae	181f
	testq	%r10, %r10
	je	182f
	movl	%r15d, %eax
	andl	$7, %eax
	leal	-9(%r15), %ecx
	cmpw	$7, %cx
	jae	183f
	xorl	%ecx, %ecx
	leaq	368(%r11), %rdi
	jmp	185f
181:
	callq	memmove@PLT
	leaq	-8(%r15), %r10
	movq	8(%rsp), %r11
	movq	312(%rsp), %rdi
	jmp	187f
182:
	movq	$8, 184(%rsp)
	addq	$384, %rbx
	xorl	%edx, %edx
	movq	%rbx, %rsi
	movq	312(%rsp), %rdi
	jmp	193f
183:
	movq	%r10, %rdx
	andq	$-8, %rdx
	xorl	%ecx, %ecx
	xorl	%r8d, %r8d
184:
	movups	(%rsi,%r8), %xmm0
	movq	16(%rsi,%r8), %r9
	movq	%r9, 16(%rdi,%r8)
	movups	%xmm0, (%rdi,%r8)
	movups	24(%rsi,%r8), %xmm0
	movq	40(%rsi,%r8), %r9
	movq	%r9, 40(%rdi,%r8)
	movups	%xmm0, 24(%rdi,%r8)
	movups	48(%rsi,%r8), %xmm0
	movq	64(%rsi,%r8), %r9
	movq	%r9, 64(%rdi,%r8)
	movups	%xmm0, 48(%rdi,%r8)
	movups	72(%rsi,%r8), %xmm0
	movq	88(%rsi,%r8), %r9
	movq	%r9, 88(%rdi,%r8)
	movups	%xmm0, 72(%rdi,%r8)
	movups	96(%rsi,%r8), %xmm0
	movq	112(%rsi,%r8), %r9
	movq	%r9, 112(%rdi,%r8)
	movups	%xmm0, 96(%rdi,%r8)
	movups	120(%rsi,%r8), %xmm0
	movq	136(%rsi,%r8), %r9
	movq	%r9, 136(%rdi,%r8)
	movups	%xmm0, 120(%rdi,%r8)
	movups	144(%rsi,%r8), %xmm0
	movq	160(%rsi,%r8), %r9
	movq	%r9, 160(%rdi,%r8)
	movups	%xmm0, 144(%rdi,%r8)
	movdqu	168(%rsi,%r8), %xmm0
	movq	184(%rsi,%r8), %r9
	movq	%r9, 184(%rdi,%r8)
	movdqu	%xmm0, 168(%rdi,%r8)
	addq	$8, %rcx
	addq	$192, %r8
	cmpq	%rcx, %rdx
	jne	184b
	testq	%rax, %rax
	leaq	368(%r11), %rdi
	je	187f
185:
	shlq	$3, %rcx
	leaq	(%rcx,%rcx,2), %rdx
	leaq	(%rbx,%rdx), %rcx
	addq	$200, %rcx
	addq	%r11, %rdx
	addq	$8, %rdx
	shll	$3, %eax
	leaq	(%rax,%rax,2), %rax
	xorl	%esi, %esi
186:
	movdqu	(%rcx,%rsi), %xmm0
	movq	16(%rcx,%rsi), %r8
	movq	%r8, 16(%rdx,%rsi)
	movdqu	%xmm0, (%rdx,%rsi)
	addq	$24, %rsi
	cmpq	%rsi, %rax
	jne	186b
187:
	movq	$8, 184(%rsp)
	leaq	384(%rbx), %rsi
	leaq	(%r10,%r10), %rdx
	movq	%rdi, %rax
	subq	%rsi, %rax
	cmpq	%rdx, %rax
	jae	193f
	testq	%r10, %r10
	je	194f
	cmpl	$4, %r10d
	jb	188f
	movq	%r11, %rax
	subq	%rbx, %rax
	addq	$-16, %rax
	cmpq	$32, %rax
	jae	210f
188:
	xorl	%eax, %eax
189:
	movq	%r15, %rdx
	movq	%rax, %rcx
	andq	$3, %rdx
	je	191f
	movq	%rax, %rcx
190:
	movzwl	(%rsi,%rcx,2), %r8d
	movw	%r8w, (%rdi,%rcx,2)
	incq	%rcx
	decq	%rdx
	jne	190b
191:
	negq	%rax
	addq	%r15, %rax
	addq	$-9, %rax
	cmpl	$3, %eax
	jb	194f
192:
	movzwl	384(%rbx,%rcx,2), %eax
	movw	%ax, 368(%r11,%rcx,2)
	movzwl	386(%rbx,%rcx,2), %eax
	movw	%ax, 370(%r11,%rcx,2)
	movzwl	388(%rbx,%rcx,2), %eax
	movw	%ax, 372(%r11,%rcx,2)
	movzwl	390(%rbx,%rcx,2), %eax
	movw	%ax, 374(%r11,%rcx,2)
	addq	$4, %rcx
	cmpq	%rcx, %r10
	jne	192b
	jmp	194f
193:
	callq	memmove@PLT
194:
	movq	$8, 208(%rsp)
	pxor	%xmm0, %xmm0
	movdqa	%xmm0, 912(%rsp)
	movq	$0, 928(%rsp)
	leaq	912(%rsp), %rdi
	leaq	176(%rsp), %rsi
	movl	$7, %r15d
	movl	$7, %edx
	callq	"std_alloc::vec::Vec::remove::<#c1573421a60ec32d>"
	movq	200(%rsp), %rax
	movq	208(%rsp), %rsi
	movzwl	14(%rax), %ebx
	leaq	-1(%rsi), %rcx
	leaq	-8(%rsi), %rdx
	movl	$14, %r8d
	cmpq	$1025, %rdx
	jb	197f
	leaq	64(%rax), %r8
	leaq	-1032(%rsi), %r9
	movl	$7, %r15d
195:
	movq	%r9, %rdi
	xorl	%edx, %edx
	.p2align	4
196:
	movdqu	-48(%r8,%rdx,2), %xmm0
	movdqu	-32(%r8,%rdx,2), %xmm1
	movdqu	-16(%r8,%rdx,2), %xmm2
	movdqu	(%r8,%rdx,2), %xmm3
	movdqu	%xmm0, -50(%r8,%rdx,2)
	movdqu	%xmm1, -34(%r8,%rdx,2)
	movdqu	%xmm2, -18(%r8,%rdx,2)
	movdqu	%xmm3, -2(%r8,%rdx,2)
	addq	$32, %rdx
	cmpq	$1024, %rdx
	jne	196b
	addq	$1024, %r15
	movq	%rcx, %rdx
	subq	%r15, %rdx
	addq	$2048, %r8
	leaq	-1024(%rdi), %r9
	cmpq	$1024, %rdx
	ja	195b
	cmpq	$-1, %r15
	je	198f
	leaq	(%r15,%r15), %r8
197:
	cmpq	%r15, %rcx
	je	200f
	leaq	(%rax,%r8), %rdi
	leaq	(%rax,%r8), %rsi
	addq	$2, %rsi
	addq	%rdx, %rdx
	callq	memmove@PLT
	jmp	200f
198:
	testq	%rsi, %rsi
	je	200f
	movzwl	-2(%rax,%rsi,2), %ecx
	leaq	(%rax,%rsi,2), %rax
	addq	$-4, %rax
199:
	movw	%cx, (%rax)
	addq	$-2, %rax
	decq	%rdi
	jne	199b
200:
	movq	928(%rsp), %rax
	movq	%rax, 1728(%rsp)
	movdqa	912(%rsp), %xmm0
	movdqa	%xmm0, 1712(%rsp)
	cmpw	$0, 272(%rsp)
	movq	8(%rsp), %r10
	je	207f
	leaq	400(%r10), %rdi
	movq	224(%rsp), %rax
	movq	232(%rsp), %r8
	leaq	64(%rax), %rsi
	leaq	-64(,%r8,8), %rdx
	movq	%rdi, %rcx
	subq	%rsi, %rcx
	cmpq	%rdx, %rcx
	jae	206f
	movq	%r8, %rcx
	addq	$-8, %rcx
	je	207f
	cmpq	$4, %rcx
	jb	201f
	movq	%r10, %rdx
	subq	%rax, %rdx
	addq	$336, %rdx
	cmpq	$32, %rdx
	jae	211f
201:
	xorl	%edx, %edx
202:
	movq	%r8, %r10
	movq	%rdx, %r9
	andq	$3, %r10
	je	204f
	movq	%rdx, %r9
203:
	movq	(%rsi,%r9,8), %r11
	movq	%r11, (%rdi,%r9,8)
	incq	%r9
	decq	%r10
	jne	203b
204:
	subq	%rdx, %r8
	addq	$-9, %r8
	cmpq	$3, %r8
	movq	8(%rsp), %r10
	jb	207f
205:
	movq	64(%rax,%r9,8), %rdx
	movq	%rdx, 400(%r10,%r9,8)
	movq	72(%rax,%r9,8), %rdx
	movq	%rdx, 408(%r10,%r9,8)
	movq	80(%rax,%r9,8), %rdx
	movq	%rdx, 416(%r10,%r9,8)
	movq	88(%rax,%r9,8), %rdx
	movq	%rdx, 424(%r10,%r9,8)
	addq	$4, %r9
	cmpq	%r9, %rcx
	jne	205b
	jmp	207f
206:
	callq	memmove@PLT
	movq	8(%rsp), %r10
207:
	movzwl	184(%rsp), %eax
	movq	248(%rsp), %rcx
	movw	%ax, (%rcx)
	movq	128(%rsp), %rax
	movw	%ax, (%r10)
	movq	1728(%rsp), %rax
	movaps	1712(%rsp), %xmm0
	movaps	%xmm0, 1680(%rsp)
	movq	%rax, 1696(%rsp)
	movq	56(%rsp), %r15
	movq	136(%rsp), %rax
	movq	%rcx, (%rax,%r15,8)
	movq	1696(%rsp), %rax
	movq	%rax, 1904(%rsp)
	movdqa	1680(%rsp), %xmm0
	movdqa	%xmm0, 1888(%rsp)
	leaq	832(%rsp), %rdi
	leaq	1888(%rsp), %rdx
	movq	%r15, %rsi
	callq	"std_alloc::vec::lodged::Vec+T+Lodged::insert_reserved::<#2262cf5b90b10fda>"
	movq	%r15, %rsi
	movq	856(%rsp), %r15
	movq	864(%rsp), %rdx
	subq	%rsi, %rdx
	je	208f
	leal	(%rsi,%rsi), %eax
	leaq	(%r15,%rax), %rsi
	leaq	(%r15,%rax), %rdi
	addq	$2, %rdi
	addq	%rdx, %rdx
	callq	memmove@PLT
	movq	56(%rsp), %rsi
208:
	movw	%bx, (%r15,%rsi,2)
	movq	%rsi, %rax
	incq	%rax
	movq	880(%rsp), %rbx
	movq	888(%rsp), %rdx
	leal	(,%rax,8), %r15d
	subq	%rax, %rdx
	je	209f
	leaq	(%rbx,%r15), %rsi
	leaq	(%rbx,%r15), %rdi
	addq	$8, %rdi
	shlq	$3, %rdx
	callq	memmove@PLT
	movq	56(%rsp), %rsi
209:
	movq	8(%rsp), %rax
	movq	%rax, (%rbx,%r15)
	movzwl	840(%rsp), %eax
	movq	904(%rsp), %rdx
	movw	%ax, (%rdx)
	movq	72(%rsp), %rax
	movq	%rdx, (%rax)
	movzbl	1(%r14), %eax
	cmpb	$7, %al
	ja	175b
	movzbl	(%r14), %esi
	jmp	176b
210:
	cmpl	$16, %r10d
	jae	213f
	xorl	%eax, %eax
	jmp	215f
211:
	movq	%rcx, %rdx
	andq	$-4, %rdx
	xorl	%r9d, %r9d
212:
	movdqu	64(%rax,%r9,8), %xmm0
	movdqu	80(%rax,%r9,8), %xmm1
	movdqu	%xmm0, 400(%r10,%r9,8)
	movdqu	%xmm1, 416(%r10,%r9,8)
	addq	$4, %r9
	cmpq	%r9, %rdx
	jne	212b
	cmpq	%rdx, %rcx
	je	207b
	jmp	202b
213:
	movq	%r10, %rax
	andq	$-16, %rax
	xorl	%ecx, %ecx
214:
	movdqu	384(%rbx,%rcx,2), %xmm0
	movdqu	400(%rbx,%rcx,2), %xmm1
	movdqu	%xmm0, 368(%r11,%rcx,2)
	movdqu	%xmm1, 384(%r11,%rcx,2)
	addq	$16, %rcx
	cmpq	%rcx, %rax
	jne	214b
	cmpl	%eax, %r10d
	je	194b
	testb	$12, %r10b
	je	189b
215:
	movq	%rax, %rcx
	movq	%r10, %rax
	andq	$-4, %rax
216:
	movq	(%rsi,%rcx,2), %rdx
	movq	%rdx, (%rdi,%rcx,2)
	addq	$4, %rcx
	cmpq	%rcx, %rax
	jne	216b
	cmpl	%eax, %r10d
	je	194b
	jmp	189b
217:
	movq	%rsi, 8(%rsp)
	movq	%rdx, 56(%rsp)
	movq	96(%rsp), %rax
	movq	%rax, 72(%rsp)
218:
	movq	72(%rsp), %rax
	cmpw	$0, (%rax)
	je	309f
	movzbl	1967(%rsp), %r14d
	movq	8(%rsp), %rdx
	shlq	$3, %rdx
	movq	280(%rsp), %rcx
219:
	cmpq	$1, %rcx
	movq	56(%rsp), %rax
	leaq	400(%rax,%rdx), %rax
	leaq	96(%rsp), %rbx
	cmovneq	%rax, %rbx
	andl	$15, %r14d
	movq	%r13, 832(%rsp)
	movq	%rbp, 840(%rsp)
	movq	104(%rsp), %rax
	movq	%rax, 848(%rsp)
	movq	(%rbx), %rax
	movzwl	(%rax), %ecx
	leaq	1(%rcx), %rdx
	xorl	%esi, %esi
	xorl	%edi, %edi
	cmpw	$0, 2(%rax)
	setne	%dil
	cmovneq	%rdx, %rsi
	shll	$4, %edi
	leaq	400(%rax), %rdx
	leaq	368(%rax), %r8
	leaq	8(%rax), %r9
	movq	%r9, 176(%rsp)
	movq	%rcx, 184(%rsp)
	movq	$15, 192(%rsp)
	movq	%r8, 200(%rsp)
	movq	%rcx, 208(%rsp)
	movq	$15, 216(%rsp)
	movq	%rdx, 224(%rsp)
	movq	%rsi, 232(%rsp)
	movq	%rdi, 240(%rsp)
	movq	%rax, 248(%rsp)
	leaq	176(%rsp), %rdi
	leaq	832(%rsp), %rdx
	movq	%r14, %rsi
	callq	"std_alloc::vec::lodged::Vec+T+Lodged::insert_reserved::<#2262cf5b90b10fda>"
	movq	200(%rsp), %r15
	movq	208(%rsp), %rdx
	leal	(%r14,%r14), %r13d
	subq	%r14, %rdx
	je	220f
	leaq	(%r15,%r13), %rsi
	leaq	(%r15,%r13), %rdi
	addq	$2, %rdi
	addq	%rdx, %rdx
	callq	memmove@PLT
220:
	movzwl	112(%rsp), %ebp
	movw	%bp, (%r15,%r13)
	movzwl	184(%rsp), %eax
	movq	248(%rsp), %rcx
	movw	%ax, (%rcx)
	movq	%rcx, (%rbx)
	incq	120(%rsp)
	movq	40(%rsp), %r13
	movq	32(%rsp), %r15
	movq	24(%rsp), %r14
221:
	movl	48(%rsp), %ebx
222:
	cmpw	%bx, %bp
	setbe	%bpl
	movb	$1, %al
	movq	%rax, 56(%rsp)
	movq	152(%rsp), %rbx
	jmp	109b
223:
	movl	%edx, %ebx
	testb	$1, %dl
	je	229f
	pxor	%xmm0, %xmm0
	movdqa	%xmm0, 1056(%rsp)
	movdqa	%xmm0, 1072(%rsp)
	movdqa	%xmm0, 944(%rsp)
	leaq	.Ld9078770f0cd(%rip), %rax
	movq	%rax, 320(%rsp)
	movq	$10, 328(%rsp)
	movq	%r15, 336(%rsp)
	movq	%rbp, 344(%rsp)
	leaq	.L81cfd07821a2(%rip), %rax
	movq	%rax, 352(%rsp)
	movq	$15, 360(%rsp)
	leaq	1056(%rsp), %rdi
	leaq	320(%rsp), %rsi
	callq	"std_alloc::string::String::format::<#ae563473db7f7f6d>"
	cmpb	$0, 1056(%rsp)
	je	234f
	movb	$2, %dl
	xorl	%ecx, %ecx
	jmp	235f
224:
	movq	%rdx, %r12
	movdqa	%xmm0, 288(%rsp)
	movq	$0, 304(%rsp)
	movq	%rsp, %rax
	movq	%rax, 144(%rsp)
	leaq	711(%rsp), %rbx
	movdqu	%xmm0, 152(%rsp)
	movq	144(%rsp), %rax
	movq	%rax, 711(%rsp)
	movq	152(%rsp), %rax
	movq	%rax, 719(%rsp)
	movq	160(%rsp), %rax
	movq	%rax, 727(%rsp)
	cmpb	$1, 288(%rsp)
	jne	226f
225:
	movq	296(%rsp), %rdi
	callq	"std_collections::btree::node::Node::destroy::<#541a865a6e83d6a3>"
226:
	movq	16(%rbx), %rax
	movq	%rax, 1671(%rsp)
	movups	(%rbx), %xmm0
	movq	32(%rsp), %rax
	movq	%rax, 1376(%rsp)
	movq	24(%rsp), %rax
	movq	%rax, 1384(%rsp)
	movq	776(%rsp), %rax
	movq	%rax, 1392(%rsp)
	movq	672(%rsp), %rax
	movq	%rax, 1400(%rsp)
	movq	%r13, 1408(%rsp)
	movq	784(%rsp), %rax
	movq	%rax, 1416(%rsp)
	movq	680(%rsp), %rax
	movq	%rax, 1424(%rsp)
	movq	%r12, 1432(%rsp)
	movq	792(%rsp), %rax
	movq	%rax, 1440(%rsp)
	movq	%r15, 1448(%rsp)
	movq	80(%rsp), %rax
	movq	%rax, 1456(%rsp)
	movq	800(%rsp), %rax
	movq	%rax, 1464(%rsp)
	movq	688(%rsp), %rax
	movq	%rax, 1472(%rsp)
	movq	88(%rsp), %rax
	movq	%rax, 1480(%rsp)
	movq	808(%rsp), %rax
	movq	%rax, 1488(%rsp)
	movq	696(%rsp), %rax
	movq	%rax, 1496(%rsp)
	movq	%r14, 1504(%rsp)
	movq	816(%rsp), %rax
	movq	%rax, 1512(%rsp)
	movq	1671(%rsp), %rax
	movq	%rax, 1872(%rsp)
	movups	%xmm0, 1655(%rsp)
	movups	1655(%rsp), %xmm0
	movaps	%xmm0, 1856(%rsp)
	leaq	320(%rsp), %rdi
	leaq	1376(%rsp), %rsi
	leaq	1856(%rsp), %rdx
	callq	"mime_text::merging::hidden::with_marked"
	movq	328(%rsp), %rax
	movaps	336(%rsp), %xmm0
	movaps	%xmm0, 1936(%rsp)
	movq	352(%rsp), %r13
	movups	360(%rsp), %xmm0
	movaps	%xmm0, 944(%rsp)
	movups	376(%rsp), %xmm0
	movaps	%xmm0, 960(%rsp)
	movups	392(%rsp), %xmm0
	movaps	%xmm0, 976(%rsp)
	movups	408(%rsp), %xmm0
	movaps	%xmm0, 992(%rsp)
	movups	424(%rsp), %xmm0
	movaps	%xmm0, 1008(%rsp)
	movups	440(%rsp), %xmm0
	movaps	%xmm0, 1024(%rsp)
	movups	456(%rsp), %xmm0
	movaps	%xmm0, 1040(%rsp)
	cmpb	$0, 320(%rsp)
	movaps	1936(%rsp), %xmm0
	movaps	%xmm0, 1920(%rsp)
	movaps	944(%rsp), %xmm0
	movdqa	960(%rsp), %xmm1
	movdqa	976(%rsp), %xmm2
	movdqa	992(%rsp), %xmm3
	movaps	%xmm0, 1744(%rsp)
	movdqa	%xmm1, 1760(%rsp)
	movdqa	%xmm2, 1776(%rsp)
	movdqa	%xmm3, 1792(%rsp)
	movaps	1008(%rsp), %xmm0
	movaps	%xmm0, 1808(%rsp)
	movaps	1024(%rsp), %xmm0
	movaps	%xmm0, 1824(%rsp)
	movdqa	1040(%rsp), %xmm0
	movdqa	%xmm0, 1840(%rsp)
	jne	33b
	movaps	1920(%rsp), %xmm0
	movaps	%xmm0, 1632(%rsp)
	movaps	1744(%rsp), %xmm0
	movdqa	1760(%rsp), %xmm1
	movdqa	1776(%rsp), %xmm2
	movdqa	1792(%rsp), %xmm3
	movaps	%xmm0, 1520(%rsp)
	movdqa	%xmm1, 1536(%rsp)
	movdqa	%xmm2, 1552(%rsp)
	movdqa	%xmm3, 1568(%rsp)
	movaps	1808(%rsp), %xmm0
	movaps	%xmm0, 1584(%rsp)
	movaps	1824(%rsp), %xmm0
	movaps	%xmm0, 1600(%rsp)
	movdqa	1840(%rsp), %xmm0
	movdqa	%xmm0, 1616(%rsp)
	xorl	%ecx, %ecx
	jmp	34b
227:
	cmpb	$1, %r14b
	jne	245f
	movq	%rbx, %rdi
	callq	"std_collections::btree::node::Node::destroy::<#541a865a6e83d6a3>"
	jmp	245f
228:
	pxor	%xmm0, %xmm0
	movdqa	%xmm0, 176(%rsp)
	movb	$2, %dl
	movb	$1, %al
	xorl	%ecx, %ecx
	movq	24(%rsp), %r12
	movq	88(%rsp), %r14
	movq	8(%rsp), %r15
	movq	80(%rsp), %rbp
	jmp	17b
229:
	xorl	%ecx, %ecx
	xorl	%edx, %edx
	jmp	236f
230:
	movdqu	-8(%r14), %xmm0
	pxor	%xmm1, %xmm1
	movdqa	%xmm1, 1376(%rsp)
	movdqa	%xmm1, 1392(%rsp)
	leaq	.Lad6fdadda423(%rip), %rax
	movq	%rax, 320(%rsp)
	movq	$11, 328(%rsp)
	movdqu	%xmm0, 336(%rsp)
	leaq	.L2592ead59db3(%rip), %rax
	movq	%rax, 352(%rsp)
	movq	$30, 360(%rsp)
	leaq	1376(%rsp), %rdi
	leaq	320(%rsp), %rsi
	callq	"std_alloc::string::String::format::<#ae563473db7f7f6d>"
	cmpb	$0, 1376(%rsp)
	movq	24(%rsp), %r12
	movq	8(%rsp), %r15
	movq	80(%rsp), %rbp
	je	279f
231:
	pxor	%xmm0, %xmm0
	movdqa	%xmm0, 176(%rsp)
	movb	$2, %dl
	movb	$1, %al
	xorl	%ecx, %ecx
	movq	88(%rsp), %r14
	jmp	17b
232:
	movq	160(%rsp), %rax
	movq	%rax, 727(%rsp)
	movq	144(%rsp), %rax
	movq	%rax, 711(%rsp)
	movq	152(%rsp), %rax
	movq	%rax, 719(%rsp)
	leaq	711(%rsp), %rbx
	cmpb	$0, 56(%rsp)
	movq	768(%rsp), %r14
	movq	760(%rsp), %r12
	je	233f
	movq	96(%rsp), %rdi
	callq	"std_collections::btree::node::Node::destroy::<#75908c3a02a00b6b>"
233:
	movq	664(%rsp), %r15
	cmpb	$1, 288(%rsp)
	je	225b
	jmp	226b
234:
	movdqu	1064(%rsp), %xmm0
	movdqa	%xmm0, 944(%rsp)
	movq	1080(%rsp), %rcx
	xorl	%edx, %edx
235:
	movdqa	944(%rsp), %xmm0
	movdqa	%xmm0, 1376(%rsp)
236:
	movdqa	1376(%rsp), %xmm0
	movdqa	%xmm0, 640(%rsp)
	testb	$1, %bl
	je	22b
	jmp	20b
237:
	movq	%rbx, 1056(%rsp)
	movdqu	(%r15), %xmm0
	movdqu	%xmm0, 1064(%rsp)
	movq	16(%r15), %rax
	movq	%rax, 1080(%rsp)
	leaq	1088(%rsp), %rdi
	movl	$280, %edx
	leaq	360(%rsp), %rsi
	callq	memcpy@PLT
	leaq	1056(%rsp), %rdi
	callq	"mime_tool::mime_text++merging++DirFiles+Destruct::drop"
	movq	944(%rsp), %rbx
	movq	952(%rsp), %r13
	movq	960(%rsp), %r12
	movq	%rbx, %r14
	testq	%r13, %r13
	je	239f
238:
	leaq	1056(%rsp), %r15
	movl	$312, %edx
	movq	%r15, %rdi
	movq	%r14, %rsi
	callq	memcpy@PLT
	movq	%r15, %rdi
	callq	"mime_tool::mime_text++merging++DirFiles+Destruct::drop"
	addq	$312, %r14
	decq	%r13
	jne	238b
239:
	testq	%r12, %r12
	je	240f
	movq	%rbx, %rdi
	callq	rattle_dealloc@PLT
240:
	pxor	%xmm0, %xmm0
	movdqa	%xmm0, 736(%rsp)
	movl	$2, %eax
	xorl	%r13d, %r13d
	jmp	30b
241:
	movq	184(%rsp), %rax
	movq	%rax, 8(%rsp)
	cmpw	$0, (%rax)
	jne	243f
242:
	movq	8(%rsp), %rax
	cmpw	$0, 2(%rax)
	je	243f
	movq	8(%rsp), %rdi
	movq	280(%rdi), %rbx
	callq	rattle_dealloc@PLT
	movq	%rbx, 8(%rsp)
243:
	movq	8(%rsp), %rdi
	callq	"std_collections::btree::node::Node::destroy::<#541a865a6e83d6a3>"
	movq	32(%rsp), %r12
244:
	movq	40(%rsp), %r13
	movq	%r12, %r15
245:
	leaq	8(%r15), %r14
	jmp	247f
	.p2align	4
246:
	addq	$104, %r14
	decq	24(%rsp)
	je	249f
247:
	movzbl	48(%r14), %ebp
	movq	56(%r14), %rbx
	movq	72(%r14), %r15
	cmpb	$0, (%r14)
	je	248f
	cmpq	$0, 24(%r14)
	je	248f
	movq	8(%r14), %rdi
	callq	rattle_dealloc@PLT
248:
	testb	%bpl, %bpl
	je	246b
	testq	%r15, %r15
	je	246b
	movq	%rbx, %rdi
	callq	rattle_dealloc@PLT
	jmp	246b
249:
	cmpq	$0, 776(%rsp)
	je	250f
	movq	32(%rsp), %rdi
	callq	rattle_dealloc@PLT
250:
	testq	%r13, %r13
	je	254f
	movq	672(%rsp), %r14
	jmp	252f
	.p2align	4
251:
	addq	$96, %r14
	decq	%r13
	je	254f
252:
	movzbl	48(%r14), %ebp
	movq	56(%r14), %rbx
	movq	72(%r14), %r15
	cmpb	$0, (%r14)
	je	253f
	cmpq	$0, 24(%r14)
	je	253f
	movq	8(%r14), %rdi
	callq	rattle_dealloc@PLT
253:
	testb	%bpl, %bpl
	je	251b
	testq	%r15, %r15
	je	251b
	movq	%rbx, %rdi
	callq	rattle_dealloc@PLT
	jmp	251b
254:
	cmpq	$0, 784(%rsp)
	je	255f
	movq	672(%rsp), %rdi
	callq	rattle_dealloc@PLT
255:
	movq	760(%rsp), %r12
	testq	%r12, %r12
	je	259f
	movq	680(%rsp), %r14
	jmp	257f
	.p2align	4
256:
	addq	$96, %r14
	decq	%r12
	je	259f
257:
	movzbl	48(%r14), %ebp
	movq	56(%r14), %rbx
	movq	72(%r14), %r15
	cmpb	$0, (%r14)
	je	258f
	cmpq	$0, 24(%r14)
	je	258f
	movq	8(%r14), %rdi
	callq	rattle_dealloc@PLT
258:
	testb	%bpl, %bpl
	je	256b
	testq	%r15, %r15
	je	256b
	movq	%rbx, %rdi
	callq	rattle_dealloc@PLT
	jmp	256b
259:
	cmpq	$0, 792(%rsp)
	je	260f
	movq	680(%rsp), %rdi
	callq	rattle_dealloc@PLT
260:
	cmpq	$0, 80(%rsp)
	movq	664(%rsp), %rbp
	je	266f
	xorl	%r14d, %r14d
	jmp	262f
	.p2align	4
261:
	incq	%r14
	cmpq	80(%rsp), %r14
	je	266f
262:
	movq	%r14, %rax
	shlq	$4, %rax
	leaq	(%rax,%rax,4), %rax
	movq	56(%rbp,%rax), %rbx
	movq	64(%rbp,%rax), %r12
	movq	72(%rbp,%rax), %r15
	cmpb	$0, 8(%rbp,%rax)
	je	263f
	cmpq	$0, 32(%rbp,%rax)
	je	263f
	movq	16(%rbp,%rax), %rdi
	callq	rattle_dealloc@PLT
263:
	testq	%r12, %r12
	je	265f
	movq	%rbx, %r13
	.p2align	4
264:
	movups	80(%r13), %xmm0
	movaps	%xmm0, 256(%rsp)
	movups	64(%r13), %xmm0
	movaps	%xmm0, 240(%rsp)
	movdqu	(%r13), %xmm0
	movdqu	16(%r13), %xmm1
	movdqu	32(%r13), %xmm2
	movdqu	48(%r13), %xmm3
	movdqa	%xmm3, 224(%rsp)
	movdqa	%xmm2, 208(%rsp)
	movdqa	%xmm1, 192(%rsp)
	movdqa	%xmm0, 176(%rsp)
	leaq	176(%rsp), %rdi
	callq	"mime_text::mime_base++magic++matchlet++Matchlet+Destruct::drop"
	addq	$96, %r13
	decq	%r12
	jne	264b
265:
	testq	%r15, %r15
	je	261b
	movq	%rbx, %rdi
	callq	rattle_dealloc@PLT
	jmp	261b
266:
	cmpq	$0, 800(%rsp)
	je	267f
	movq	%rbp, %rdi
	callq	rattle_dealloc@PLT
267:
	cmpq	$0, 88(%rsp)
	movq	768(%rsp), %r12
	je	271f
	movq	688(%rsp), %r14
	jmp	269f
	.p2align	4
268:
	addq	$96, %r14
	decq	88(%rsp)
	je	271f
269:
	movzbl	48(%r14), %ebp
	movq	56(%r14), %rbx
	movq	72(%r14), %r15
	cmpb	$0, (%r14)
	je	270f
	cmpq	$0, 24(%r14)
	je	270f
	movq	8(%r14), %rdi
	callq	rattle_dealloc@PLT
270:
	testb	%bpl, %bpl
	je	268b
	testq	%r15, %r15
	je	268b
	movq	%rbx, %rdi
	callq	rattle_dealloc@PLT
	jmp	268b
271:
	cmpq	$0, 808(%rsp)
	je	272f
	movq	688(%rsp), %rdi
	callq	rattle_dealloc@PLT
272:
	testq	%r12, %r12
	je	276f
	movq	696(%rsp), %r14
	jmp	274f
	.p2align	4
273:
	addq	$96, %r14
	decq	%r12
	je	276f
274:
	movzbl	48(%r14), %ebp
	movq	56(%r14), %rbx
	movq	72(%r14), %r15
	cmpb	$0, (%r14)
	je	275f
	cmpq	$0, 24(%r14)
	je	275f
	movq	8(%r14), %rdi
	callq	rattle_dealloc@PLT
275:
	testb	%bpl, %bpl
	je	273b
	testq	%r15, %r15
	je	273b
	movq	%rbx, %rdi
	callq	rattle_dealloc@PLT
	jmp	273b
276:
	cmpq	$0, 816(%rsp)
	je	33b
	movq	696(%rsp), %rdi
	callq	rattle_dealloc@PLT
	jmp	33b
277:
	cmpq	$0, 192(%rsp)
	movq	40(%rsp), %r13
	je	278f
	movq	176(%rsp), %rdi
	callq	rattle_dealloc@PLT
278:
	movq	32(%rsp), %r15
	movq	56(%rsp), %rbx
	jmp	313f
279:
	movq	1384(%rsp), %rbx
	movq	1392(%rsp), %rax
	movq	%rax, 64(%rsp)
	movq	1400(%rsp), %rax
	movq	%rax, 32(%rsp)
280:
	pxor	%xmm0, %xmm0
	movdqu	%xmm0, 328(%rsp)
	movl	$0, 377(%rsp)
	movl	$0, 380(%rsp)
	movq	%rsp, %rax
	movq	%rax, 320(%rsp)
	movq	$0, 368(%rsp)
	movb	$0, 376(%rsp)
	movl	$32, 344(%rsp)
	movq	$0, 348(%rsp)
	movl	$0, 356(%rsp)
	movq	$-1, 360(%rsp)
	leaq	320(%rsp), %rdi
	movl	$23, %esi
	callq	"std_alloc::vec::Vec::grow_amortized::<#1d775b5957dec42c>"
	testb	%al, %al
	je	331f
	leaq	348(%rsp), %r13
	movq	336(%rsp), %r14
	movq	320(%rsp), %r15
	movq	328(%rsp), %rax
	leaq	(%r15,%rax), %rcx
	addq	$23, %rax
	leaq	.Le9a4351e97e0(%rip), %rdx
	movq	%rcx, %rsi
	subq	%rdx, %rsi
	cmpq	$22, %rsi
	ja	285f
	movdqa	1b(%rip), %xmm0
	movdqu	%xmm0, (%rcx)
	movl	$543712117, 16(%rcx)
	movw	$29537, 20(%rcx)
	movb	$32, 22(%rcx)
	jmp	286f
281:
	cmpq	$0, 160(%rsp)
	je	282f
	movq	144(%rsp), %rdi
	callq	rattle_dealloc@PLT
282:
	cmpb	$0, 56(%rsp)
	je	283f
	movq	96(%rsp), %rdi
	callq	"std_collections::btree::node::Node::destroy::<#75908c3a02a00b6b>"
283:
	cmpb	$1, 288(%rsp)
	movq	32(%rsp), %r15
	jne	245b
	movq	296(%rsp), %rdi
	callq	"std_collections::btree::node::Node::destroy::<#541a865a6e83d6a3>"
	movq	32(%rsp), %r15
	jmp	245b
284:
	xorl	%ebx, %ebx
	jmp	311f
285:
	movdqu	.Le9a4351e97e0(%rip), %xmm0
	movdqu	%xmm0, (%rcx)
	movabsq	$2338319423353615731, %rdx
	movq	%rdx, 15(%rcx)
286:
	movq	16(%rsp), %rdx
	movq	40(%rsp), %rsi
	movq	%rax, 328(%rsp)
	movl	$32, 344(%rsp)
	movl	$0, 8(%r13)
	movq	$0, (%r13)
	movq	$-1, 360(%rsp)
	cmpq	$0, 368(%rsp)
	jne	318f
	movq	%r14, %rcx
	subq	%rax, %rcx
	cmpq	%rcx, %rdx
	ja	323f
287:
	leaq	(%rax,%rdx), %r12
	leaq	(%r15,%rax), %rdi
	movq	%rdi, %rcx
	subq	%rsi, %rcx
	cmpq	%rdx, %rcx
	jae	293f
	cmpq	$4, %rdx
	jb	288f
	cmpq	$32, %rcx
	jae	316f
288:
	xorl	%ecx, %ecx
289:
	movq	%rdx, %r10
	movq	%rcx, %r9
	andq	$3, %r10
	je	291f
	movq	%rcx, %r9
290:
	movzbl	(%rsi,%r9), %r8d
	movb	%r8b, (%rdi,%r9)
	incq	%r9
	decq	%r10
	jne	290b
291:
	subq	%rdx, %rcx
	cmpq	$-4, %rcx
	ja	294f
	addq	%r15, %rax
	addq	$3, %rax
292:
	movzbl	(%rsi,%r9), %ecx
	movb	%cl, -3(%rax,%r9)
	movzbl	1(%rsi,%r9), %ecx
	movb	%cl, -2(%rax,%r9)
	movzbl	2(%rsi,%r9), %ecx
	movb	%cl, -1(%rax,%r9)
	movzbl	3(%rsi,%r9), %ecx
	movb	%cl, (%rax,%r9)
	addq	$4, %r9
	cmpq	%r9, %rdx
	jne	292b
	jmp	294f
293:
	callq	memmove@PLT
294:
	movq	%r15, 320(%rsp)
	movq	%r12, 328(%rsp)
	movq	%r14, 336(%rsp)
	movq	24(%rsp), %r12
	movq	8(%rsp), %r15
295:
	movl	$32, 344(%rsp)
	movl	$0, 8(%r13)
	movq	$0, (%r13)
	movq	$-1, 360(%rsp)
	cmpq	$0, 368(%rsp)
	jne	324f
	movq	328(%rsp), %rcx
	movq	336(%rsp), %rax
	movq	%rax, %rdx
	subq	%rcx, %rdx
	cmpq	$11, %rdx
	jbe	325f
296:
	leaq	12(%rcx), %rdx
	addq	320(%rsp), %rcx
	leaq	.L1aa1dd9a1423(%rip), %rsi
	movq	%rcx, %rdi
	subq	%rsi, %rdi
	cmpq	$11, %rdi
	movabsq	$7811264191371242799, %rsi
	movq	%rsi, (%rcx)
	movl	$846422639, 8(%rcx)
	movq	%rdx, 328(%rsp)
	movq	%rax, 336(%rsp)
297:
	movl	$32, 344(%rsp)
	movl	$0, 8(%r13)
	movq	$0, (%r13)
	movq	$-1, 360(%rsp)
	cmpq	$0, 368(%rsp)
	jne	326f
	movq	328(%rsp), %rax
	movq	336(%rsp), %r14
	movq	%r14, %rcx
	subq	%rax, %rcx
	movq	64(%rsp), %rdx
	cmpq	%rcx, %rdx
	movq	%rbx, %r13
	ja	330f
298:
	leaq	(%rax,%rdx), %rcx
	movq	%rcx, 40(%rsp)
	movq	320(%rsp), %rsi
	movq	%rsi, 16(%rsp)
	leaq	(%rsi,%rax), %rdi
	movq	%rdi, %rcx
	subq	%r13, %rcx
	cmpq	%rdx, %rcx
	jae	305f
	cmpq	$4, %rdx
	jb	299f
	cmpq	$32, %rcx
	jae	317f
299:
	xorl	%ecx, %ecx
300:
	movq	%rdx, %rsi
	movq	%rcx, %r9
	andq	$3, %rsi
	je	302f
	movq	%rcx, %r9
301:
	movzbl	(%r13,%r9), %r8d
	movb	%r8b, (%rdi,%r9)
	incq	%r9
	decq	%rsi
	jne	301b
302:
	subq	%rdx, %rcx
	cmpq	$-4, %rcx
	ja	304f
	movq	16(%rsp), %rcx
	addq	%rcx, %rax
	addq	$3, %rax
303:
	movzbl	(%r13,%r9), %ecx
	movb	%cl, -3(%rax,%r9)
	movzbl	1(%r13,%r9), %ecx
	movb	%cl, -2(%rax,%r9)
	movzbl	2(%r13,%r9), %ecx
	movb	%cl, -1(%rax,%r9)
	movzbl	3(%r13,%r9), %ecx
	movb	%cl, (%rax,%r9)
	addq	$4, %r9
	cmpq	%r9, %rdx
	jne	303b
304:
	movq	24(%rsp), %r12
	movq	8(%rsp), %r15
	movq	80(%rsp), %rbp
	jmp	306f
305:
	movq	%r13, %rsi
	callq	memmove@PLT
306:
	movq	%rsp, %r8
307:
	movq	32(%rsp), %rax
	testq	%r14, %r14
	sete	8(%rsp)
	movb	$1, %r14b
	jmp	333f
308:
	movq	96(%rsp), %rax
	movq	%rax, 72(%rsp)
	cmpw	$0, (%rax)
	movb	$1, %bl
	jne	310f
309:
	movq	72(%rsp), %rax
	cmpw	$0, 2(%rax)
	je	310f
	movq	72(%rsp), %rdi
	movq	400(%rdi), %rbx
	callq	rattle_dealloc@PLT
	movq	%rbx, 96(%rsp)
	movb	$1, %bl
310:
	movq	32(%rsp), %r15
311:
	cmpq	$0, 104(%rsp)
	je	312f
	movq	%r13, %rdi
	callq	rattle_dealloc@PLT
312:
	movq	40(%rsp), %r13
313:
	cmpq	$0, 160(%rsp)
	movq	%r15, %r14
	je	314f
	movq	144(%rsp), %rdi
	callq	rattle_dealloc@PLT
	movq	%r14, %r15
314:
	cmpb	$1, %bl
	jne	315f
	movq	96(%rsp), %rdi
	callq	"std_collections::btree::node::Node::destroy::<#75908c3a02a00b6b>"
	movq	%r14, %r15
315:
	cmpb	$1, 288(%rsp)
	jne	245b
	movq	296(%rsp), %rdi
	callq	"std_collections::btree::node::Node::destroy::<#541a865a6e83d6a3>"
	movq	%r14, %r15
	jmp	245b
316:
	cmpq	$32, %rdx
	jae	319f
	xorl	%ecx, %ecx
	movq	16(%rsp), %rdx
	movq	40(%rsp), %rsi
	jmp	321f
317:
	cmpq	$32, %rdx
	jae	327f
	xorl	%ecx, %ecx
	movq	%rbx, %r13
	movq	64(%rsp), %rdx
	jmp	363f
318:
	leaq	320(%rsp), %rdi
	callq	"core::fmt::formatter::Formatter::write_indented::<#0a7ff941e43d6b30>"
	testb	%al, %al
	movq	24(%rsp), %r12
	movq	8(%rsp), %r15
	jne	331f
	jmp	295b
319:
	movq	16(%rsp), %rcx
	andq	$-32, %rcx
	leaq	(%rax,%r15), %rdx
	addq	$16, %rdx
	xorl	%r8d, %r8d
	movq	40(%rsp), %rsi
320:
	movdqu	(%rsi,%r8), %xmm0
	movdqu	16(%rsi,%r8), %xmm1
	movdqu	%xmm0, -16(%rdx,%r8)
	movdqu	%xmm1, (%rdx,%r8)
	addq	$32, %r8
	cmpq	%r8, %rcx
	jne	320b
	movq	16(%rsp), %rdx
	cmpq	%rcx, %rdx
	movq	80(%rsp), %rbp
	je	294b
	testb	$28, %dl
	je	289b
321:
	movq	%rcx, %r8
	movq	%rdx, %rcx
	andq	$-4, %rcx
322:
	movl	(%rsi,%r8), %edx
	movl	%edx, (%rdi,%r8)
	addq	$4, %r8
	cmpq	%r8, %rcx
	jne	322b
	movq	16(%rsp), %rdx
	cmpq	%rcx, %rdx
	movq	80(%rsp), %rbp
	je	294b
	jmp	289b
323:
	leaq	320(%rsp), %rdi
	movq	%rdx, %rsi
	callq	"std_alloc::vec::Vec::grow_amortized::<#1d775b5957dec42c>"
	testb	%al, %al
	movq	24(%rsp), %r12
	movq	8(%rsp), %r15
	je	331f
	movq	320(%rsp), %r15
	movq	328(%rsp), %rax
	movq	336(%rsp), %r14
	movq	16(%rsp), %rdx
	movq	40(%rsp), %rsi
	jmp	287b
324:
	leaq	.L1aa1dd9a1423(%rip), %rsi
	leaq	320(%rsp), %rdi
	movl	$12, %edx
	callq	"core::fmt::formatter::Formatter::write_indented::<#0a7ff941e43d6b30>"
	testb	%al, %al
	jne	331f
	jmp	297b
325:
	leaq	320(%rsp), %rdi
	movl	$12, %esi
	callq	"std_alloc::vec::Vec::grow_amortized::<#1d775b5957dec42c>"
	testb	%al, %al
	je	331f
	movq	328(%rsp), %rcx
	movq	336(%rsp), %rax
	jmp	296b
326:
	leaq	320(%rsp), %rdi
	movq	%rbx, %rsi
	movq	64(%rsp), %rdx
	callq	"core::fmt::formatter::Formatter::write_indented::<#0a7ff941e43d6b30>"
	testb	%al, %al
	jne	331f
	movq	320(%rsp), %rax
	movq	%rax, 16(%rsp)
	movq	328(%rsp), %rax
	movq	%rax, 40(%rsp)
	movq	336(%rsp), %r14
	jmp	329f
327:
	movq	64(%rsp), %rcx
	andq	$-32, %rcx
	movq	16(%rsp), %rdx
	addq	%rax, %rdx
	addq	$16, %rdx
	xorl	%esi, %esi
	movq	%rbx, %r8
328:
	movdqu	(%r8,%rsi), %xmm0
	movdqu	16(%r8,%rsi), %xmm1
	movdqu	%xmm0, -16(%rdx,%rsi)
	movdqu	%xmm1, (%rdx,%rsi)
	addq	$32, %rsi
	cmpq	%rsi, %rcx
	jne	328b
	cmpq	%rcx, 64(%rsp)
	jne	362f
	movq	24(%rsp), %r12
	movq	8(%rsp), %r15
	movq	80(%rsp), %rbp
329:
	movq	%rsp, %r8
	movq	%rbx, %r13
	jmp	307b
330:
	leaq	320(%rsp), %rdi
	movq	%rdx, %rsi
	callq	"std_alloc::vec::Vec::grow_amortized::<#1d775b5957dec42c>"
	testb	%al, %al
	je	331f
	movq	328(%rsp), %rax
	movq	336(%rsp), %r14
	movq	%rbx, %r13
	movq	64(%rsp), %rdx
	jmp	298b
331:
	movb	$1, 8(%rsp)
	cmpq	$0, 336(%rsp)
	je	332f
	movq	320(%rsp), %rdi
	callq	rattle_dealloc@PLT
332:
	movq	$0, 16(%rsp)
	movq	$0, 40(%rsp)
	xorl	%r14d, %r14d
	movq	%rsp, %r8
	movq	%rbx, %r13
	movq	32(%rsp), %rax
333:
	testq	%rax, %rax
	je	334f
	movq	%r13, %rdi
	callq	rattle_dealloc@PLT
	movq	%rsp, %r8
334:
	testb	%r14b, %r14b
	je	231b
	movq	%r8, 320(%rsp)
	pxor	%xmm0, %xmm0
	movdqu	%xmm0, 328(%rsp)
	xorl	%r13d, %r13d
	xorl	%r14d, %r14d
	xorl	%r12d, %r12d
	jmp	337f
335:
	movq	%rbx, %rsi
	movq	%rbp, %rdx
	movq	%r8, %rbx
	callq	memmove@PLT
	movq	%rbx, %r8
336:
	addq	%rbp, %r13
	movq	%r13, 328(%rsp)
	movq	%r14, 336(%rsp)
	incq	%r12
	cmpq	24(%rsp), %r12
	movq	80(%rsp), %rbp
	je	353f
337:
	testq	%r12, %r12
	je	339f
	cmpq	%r13, %r14
	je	352f
338:
	movb	$58, (%r8,%r13)
	incq	%r13
	movq	%r13, 328(%rsp)
	movq	%r14, 336(%rsp)
339:
	movq	%r12, %rax
	shlq	$4, %rax
	movq	48(%rsp), %rcx
	movq	(%rcx,%rax), %rbx
	movq	8(%rcx,%rax), %rbp
	movq	%r14, %rax
	subq	%r13, %rax
	cmpq	%rax, %rbp
	ja	351f
340:
	movq	320(%rsp), %r8
	leaq	(%r8,%r13), %rdi
	movq	%rdi, %rax
	subq	%rbx, %rax
	cmpq	%rbp, %rax
	jae	335b
	cmpq	$4, %rbp
	jb	341f
	cmpq	$32, %rax
	jae	346f
341:
	xorl	%eax, %eax
342:
	movq	%rbp, %rdx
	movq	%rax, %rcx
	andq	$3, %rdx
	je	344f
	movq	%rax, %rcx
	.p2align	4
343:
	movzbl	(%rbx,%rcx), %esi
	movb	%sil, (%rdi,%rcx)
	incq	%rcx
	decq	%rdx
	jne	343b
344:
	subq	%rbp, %rax
	cmpq	$-4, %rax
	ja	336b
	leaq	(%r8,%r13), %rax
	addq	$3, %rax
	.p2align	4
345:
	movzbl	(%rbx,%rcx), %edx
	movb	%dl, -3(%rax,%rcx)
	movzbl	1(%rbx,%rcx), %edx
	movb	%dl, -2(%rax,%rcx)
	movzbl	2(%rbx,%rcx), %edx
	movb	%dl, -1(%rax,%rcx)
	movzbl	3(%rbx,%rcx), %edx
	movb	%dl, (%rax,%rcx)
	addq	$4, %rcx
	cmpq	%rcx, %rbp
	jne	345b
	jmp	336b
346:
	cmpq	$32, %rbp
	jae	347f
	xorl	%eax, %eax
	jmp	349f
347:
	movq	%rbp, %rax
	andq	$-32, %rax
	leaq	(%r8,%r13), %rcx
	addq	$16, %rcx
	xorl	%edx, %edx
348:
	movdqu	(%rbx,%rdx), %xmm0
	movdqu	16(%rbx,%rdx), %xmm1
	movdqu	%xmm0, -16(%rcx,%rdx)
	movdqu	%xmm1, (%rcx,%rdx)
	addq	$32, %rdx
	cmpq	%rdx, %rax
	jne	348b
	cmpq	%rax, %rbp
	je	336b
	testb	$28, %bpl
	je	342b
349:
	movq	%rax, %rcx
	movq	%rbp, %rax
	andq	$-4, %rax
	.p2align	4
350:
	movl	(%rbx,%rcx), %edx
	movl	%edx, (%rdi,%rcx)
	addq	$4, %rcx
	cmpq	%rcx, %rax
	jne	350b
	cmpq	%rax, %rbp
	je	336b
	jmp	342b
351:
	leaq	320(%rsp), %rdi
	movq	%rbp, %rsi
	callq	"std_alloc::vec::Vec::grow_amortized::<#1d775b5957dec42c>"
	testb	%al, %al
	je	356f
	movq	328(%rsp), %r13
	movq	336(%rsp), %r14
	jmp	340b
352:
	leaq	320(%rsp), %rdi
	movl	$1, %esi
	callq	"std_alloc::vec::Vec::grow_amortized::<#1d775b5957dec42c>"
	testb	%al, %al
	je	361f
	movq	320(%rsp), %r8
	movq	328(%rsp), %r13
	movq	336(%rsp), %r14
	jmp	338b
353:
	leaq	1056(%rsp), %rdi
	movq	88(%rsp), %rsi
	movq	%r8, %rdx
	movq	%r13, %rcx
	movq	%r8, %rbx
	movq	16(%rsp), %r8
	movq	40(%rsp), %r9
	callq	"mime_tool::desk::report::<#2e1b2a3647f851f7>"
	testq	%r14, %r14
	je	354f
	movq	%rbx, %rdi
	callq	rattle_dealloc@PLT
354:
	cmpb	$0, 8(%rsp)
	movq	24(%rsp), %r12
	jne	355f
	movq	16(%rsp), %rdi
	callq	rattle_dealloc@PLT
355:
	movzbl	1056(%rsp), %eax
	movzbl	1064(%rsp), %edx
	movdqa	1072(%rsp), %xmm0
	movdqa	%xmm0, 176(%rsp)
	movq	1088(%rsp), %rcx
	movq	88(%rsp), %r14
	jmp	17b
356:
	cmpq	$0, 336(%rsp)
	movq	80(%rsp), %rbp
	je	358f
357:
	movq	320(%rsp), %rdi
	callq	rattle_dealloc@PLT
358:
	movb	$1, 1056(%rsp)
	movq	$2, 1064(%rsp)
	leaq	1072(%rsp), %rbx
	pxor	%xmm0, %xmm0
	movdqa	%xmm0, 1072(%rsp)
	movq	$0, 1088(%rsp)
	cmpb	$0, 8(%rsp)
	movq	88(%rsp), %r14
	movq	24(%rsp), %r12
	je	359f
	movb	$1, %al
	movb	$2, %dl
	xorl	%ecx, %ecx
	jmp	360f
359:
	movq	16(%rsp), %rdi
	callq	rattle_dealloc@PLT
	movzbl	1056(%rsp), %eax
	movzbl	1064(%rsp), %edx
	movq	1088(%rsp), %rcx
360:
	movups	(%rbx), %xmm0
	movaps	%xmm0, 176(%rsp)
	jmp	17b
361:
	cmpq	$0, 336(%rsp)
	jne	357b
	jmp	358b
362:
	movq	64(%rsp), %rdx
	testb	$28, %dl
	movq	%rbx, %r13
	je	300b
363:
	movq	%rcx, %r8
	movq	%rdx, %rcx
	andq	$-4, %rcx
364:
	movl	(%r13,%r8), %esi
	movl	%esi, (%rdi,%r8)
	addq	$4, %r8
	cmpq	%r8, %rcx
	jne	364b
	movq	64(%rsp), %rdx
	cmpq	%rcx, %rdx
	jne	300b
	jmp	304b
365:
	ud2
366:
	.size	"mime_tool::directories::load_these::<#2e1b2a3647f851f7>", 366b-"mime_tool::directories::load_these::<#2e1b2a3647f851f7>"

	.section	.text.unlikely,"ax",@progbits
	.p2align	4
	.type	"mime_tool::directories::magic_file::faulty_at",@function
"mime_tool::directories::magic_file::faulty_at":
	pushq	%rbp
	pushq	%r15
	pushq	%r14
	pushq	%r13
	pushq	%r12
	pushq	%rbx
	subq	$296, %rsp
	movq	%r8, %r14
	movq	%rcx, %r15
	movq	%rdx, %r12
	movq	%rsi, %r13
	movq	%rdi, %rbx
	xorps	%xmm0, %xmm0
	movups	%xmm0, 271(%rsp)
	movaps	%xmm0, 256(%rsp)
	movaps	%xmm0, 80(%rsp)
	movq	$0, 96(%rsp)
	movq	%r9, 144(%rsp)
	movups	%xmm0, 8(%rsp)
	movl	$0, 57(%rsp)
	movl	$0, 60(%rsp)
	leaq	71(%rsp), %rax
	movq	%rax, (%rsp)
	movl	$32, 24(%rsp)
	movq	$0, 28(%rsp)
	movl	$0, 36(%rsp)
	movq	$-1, 40(%rsp)
	movq	$0, 48(%rsp)
	movb	$0, 56(%rsp)
	leaq	.Ld9078770f0cd(%rip), %rbp
	movq	%rbp, 152(%rsp)
	movq	$10, 160(%rsp)
	movq	%rsi, 168(%rsp)
	movq	%rdx, 176(%rsp)
	leaq	.L50972cac8e3a(%rip), %rax
	movq	%rax, 184(%rsp)
	movq	$8, 192(%rsp)
	movq	%rcx, 200(%rsp)
	movq	%r8, 208(%rsp)
	leaq	.L840b088e8271(%rip), %rax
	movq	%rax, 216(%rsp)
	movq	$4, 224(%rsp)
	leaq	144(%rsp), %rax
	movq	%rax, 232(%rsp)
	leaq	.Lb9d66d2d8f9c(%rip), %rax
	movq	%rax, 240(%rsp)
	movq	$1, 248(%rsp)
	movups	24(%rsp), %xmm0
	movaps	%xmm0, 112(%rsp)
	movq	$-1, 128(%rsp)
	movl	$32, 24(%rsp)
	movl	$0, 36(%rsp)
	movq	$0, 28(%rsp)
	movq	$-1, 40(%rsp)
	movq	%rsp, %rdi
	movl	$10, %esi
	callq	"std_alloc::vec::Vec::grow_amortized::<#1d775b5957dec42c>"
	testb	%al, %al
	je	20f
	movq	%rbx, 72(%rsp)
	leaq	28(%rsp), %rdi
	movq	16(%rsp), %r9
	movq	(%rsp), %rbx
	movq	8(%rsp), %rax
	leaq	(%rbx,%rax), %rcx
	addq	$10, %rax
	movq	%rcx, %rsi
	subq	%rbp, %rsi
	movabsq	$7741528795821992301, %rdx
	cmpq	$9, %rsi
	movq	%rdx, (%rcx)
	movw	$8250, 8(%rcx)
	movq	%rbx, (%rsp)
	movq	%rax, 8(%rsp)
	movq	%r9, 16(%rsp)
	movl	$32, 24(%rsp)
	movq	%rdi, %rbp
	movl	$0, 8(%rdi)
	movq	$0, (%rdi)
	movq	$-1, 40(%rsp)
	cmpq	$0, 48(%rsp)
	jne	28f
	movq	%r9, %rcx
	subq	%rax, %rcx
	cmpq	%rcx, %r12
	ja	33f
1:
	leaq	(%rax,%r12), %r10
	leaq	(%rbx,%rax), %rdi
	movq	%rdi, %rcx
	subq	%r13, %rcx
	cmpq	%r12, %rcx
	jae	7f
	cmpq	$4, %r12
	jb	2f
	cmpq	$32, %rcx
	jae	27f
2:
	xorl	%ecx, %ecx
3:
	movq	%r12, %rsi
	movq	%rcx, %rdx
	andq	$3, %rsi
	je	5f
	movq	%rcx, %rdx
	.p2align	4
4:
	movzbl	(%r13,%rdx), %r8d
	movb	%r8b, (%rdi,%rdx)
	incq	%rdx
	decq	%rsi
	jne	4b
5:
	subq	%r12, %rcx
	cmpq	$-4, %rcx
	ja	8f
	addq	%rbx, %rax
	addq	$3, %rax
	.p2align	4
6:
	movzbl	(%r13,%rdx), %ecx
	movb	%cl, -3(%rax,%rdx)
	movzbl	1(%r13,%rdx), %ecx
	movb	%cl, -2(%rax,%rdx)
	movzbl	2(%r13,%rdx), %ecx
	movb	%cl, -1(%rax,%rdx)
	movzbl	3(%r13,%rdx), %ecx
	movb	%cl, (%rax,%rdx)
	addq	$4, %rdx
	cmpq	%rdx, %r12
	jne	6b
	jmp	8f
7:
	movq	%r13, %rsi
	movq	%r12, %rdx
	movq	%r9, %r12
	movq	%r10, %r13
	callq	memmove@PLT
	movq	%r13, %r10
	movq	%r12, %r9
8:
	movq	%rbx, (%rsp)
	movq	%r10, 8(%rsp)
	movq	%r9, 16(%rsp)
	movq	72(%rsp), %rbx
9:
	movl	$32, 24(%rsp)
	movl	$0, 8(%rbp)
	movq	$0, (%rbp)
	movq	$-1, 40(%rsp)
	cmpq	$0, 48(%rsp)
	jne	34f
	movq	8(%rsp), %rax
	movq	16(%rsp), %rcx
	movq	%rcx, %rdx
	subq	%rax, %rdx
	cmpq	$7, %rdx
	jbe	35f
10:
	movq	(%rsp), %rdx
	leaq	(%rdx,%rax), %rsi
	addq	$8, %rax
	movq	%rsi, %rdi
	leaq	.L50972cac8e3a(%rip), %r8
	subq	%r8, %rdi
	cmpq	$8, %rdi
	movabsq	$2333824924645138490, %rdi
	movq	%rdi, (%rsi)
	movq	%rdx, (%rsp)
	movq	%rax, 8(%rsp)
	movq	%rcx, 16(%rsp)
11:
	movl	$32, 24(%rsp)
	movl	$0, 8(%rbp)
	movq	$0, (%rbp)
	movq	$-1, 40(%rsp)
	cmpq	$0, 48(%rsp)
	jne	36f
	movq	8(%rsp), %rax
	movq	16(%rsp), %rbx
	movq	%rbx, %rcx
	subq	%rax, %rcx
	cmpq	%rcx, %r14
	ja	37f
12:
	leaq	(%rax,%r14), %r12
	movq	(%rsp), %r13
	leaq	(%rax,%r13), %rdi
	movq	%rdi, %rcx
	subq	%r15, %rcx
	cmpq	%r14, %rcx
	jae	15f
	andl	$3, %r14d
	leaq	(%rax,%r13), %rcx
	addq	$3, %rcx
	xorl	%eax, %eax
	.p2align	4
13:
	movzbl	(%r15,%rax), %edx
	movb	%dl, -3(%rcx,%rax)
	movzbl	1(%r15,%rax), %edx
	movb	%dl, -2(%rcx,%rax)
	movzbl	2(%r15,%rax), %edx
	movb	%dl, -1(%rcx,%rax)
	movzbl	3(%r15,%rax), %edx
	movb	%dl, (%rcx,%rax)
	addq	$4, %rax
	cmpq	$8, %rax
	jne	13b
	testq	%r14, %r14
	je	16f
	.p2align	4
14:
	movzbl	(%r15,%rax), %ecx
	movb	%cl, (%rdi,%rax)
	incq	%rax
	decq	%r14
	jne	14b
	jmp	16f
15:
	movq	%r15, %rsi
	movq	%r14, %rdx
	callq	memmove@PLT
16:
	movq	%r13, (%rsp)
	movq	%r12, 8(%rsp)
	movq	%rbx, 16(%rsp)
	movq	72(%rsp), %rbx
17:
	movl	$32, 24(%rsp)
	movl	$0, 8(%rbp)
	movq	$0, (%rbp)
	movq	$-1, 40(%rsp)
	cmpq	$0, 48(%rsp)
	jne	38f
	movq	8(%rsp), %rax
	movq	16(%rsp), %rcx
	movq	%rcx, %rdx
	subq	%rax, %rdx
	cmpq	$3, %rdx
	jbe	39f
18:
	movq	(%rsp), %rdx
	leaq	(%rdx,%rax), %rsi
	addq	$4, %rax
	movq	%rsi, %rdi
	leaq	.L840b088e8271(%rip), %r8
	subq	%r8, %rdi
	cmpq	$4, %rdi
	movl	$544497952, (%rsi)
	movq	%rdx, (%rsp)
	movq	%rax, 8(%rsp)
	movq	%rcx, 16(%rsp)
19:
	leaq	232(%rsp), %rsi
	movq	%rsp, %rdi
	callq	"core::fmt::formatter::Formatter::write_piece::<#0584b03bf03810b7>"
	testb	%al, %al
	je	24f
20:
	movq	128(%rsp), %rax
	leaq	24(%rsp), %rcx
	movq	%rax, 16(%rcx)
	movaps	112(%rsp), %xmm0
	movups	%xmm0, (%rcx)
21:
	cmpq	$0, 16(%rsp)
	je	22f
	movq	(%rsp), %rdi
	callq	rattle_dealloc@PLT
22:
	movl	$2, %eax
23:
	movq	%rax, (%rbx)
	movaps	80(%rsp), %xmm0
	movups	%xmm0, 8(%rbx)
	movq	96(%rsp), %rax
	movq	%rax, 24(%rbx)
	addq	$296, %rsp
	popq	%rbx
	popq	%r12
	popq	%r13
	popq	%r14
	popq	%r15
	popq	%rbp
	retq
24:
	movl	$32, 24(%rsp)
	movl	$0, 8(%rbp)
	movq	$0, (%rbp)
	movq	$-1, 40(%rsp)
	cmpq	$0, 48(%rsp)
	jne	40f
	movq	8(%rsp), %rax
	movq	16(%rsp), %rcx
	cmpq	%rax, %rcx
	je	41f
25:
	movq	(%rsp), %rdx
	movb	$10, (%rdx,%rax)
	incq	%rax
	movq	%rdx, (%rsp)
	movq	%rax, 8(%rsp)
	movq	%rcx, 16(%rsp)
26:
	movq	16(%rsp), %rax
	movq	%rax, 279(%rsp)
	movups	(%rsp), %xmm0
	movups	%xmm0, 263(%rsp)
	movaps	%xmm0, 80(%rsp)
	movq	%rax, 96(%rsp)
	xorl	%eax, %eax
	jmp	23b
27:
	cmpq	$32, %r12
	jae	29f
	xorl	%ecx, %ecx
	jmp	31f
28:
	movq	%rsp, %rdi
	movq	%r13, %rsi
	movq	%r12, %rdx
	callq	"core::fmt::formatter::Formatter::write_indented::<#0a7ff941e43d6b30>"
	testb	%al, %al
	movq	72(%rsp), %rbx
	jne	20b
	jmp	9b
29:
	movq	%r12, %rcx
	andq	$-32, %rcx
	leaq	(%rax,%rbx), %rdx
	addq	$16, %rdx
	xorl	%esi, %esi
	.p2align	4
30:
	movups	(%r13,%rsi), %xmm0
	movups	16(%r13,%rsi), %xmm1
	movups	%xmm0, -16(%rdx,%rsi)
	movups	%xmm1, (%rdx,%rsi)
	addq	$32, %rsi
	cmpq	%rsi, %rcx
	jne	30b
	cmpq	%rcx, %r12
	je	8b
	testb	$28, %r12b
	je	3b
31:
	movq	%rcx, %rdx
	movq	%r12, %rcx
	andq	$-4, %rcx
	.p2align	4
32:
	movl	(%r13,%rdx), %esi
	movl	%esi, (%rdi,%rdx)
	addq	$4, %rdx
	cmpq	%rdx, %rcx
	jne	32b
	cmpq	%rcx, %r12
	je	8b
	jmp	3b
33:
	movq	%rsp, %rdi
	movq	%r12, %rsi
	callq	"std_alloc::vec::Vec::grow_amortized::<#1d775b5957dec42c>"
	testb	%al, %al
	movq	72(%rsp), %rbx
	je	20b
	movq	(%rsp), %rbx
	movq	8(%rsp), %rax
	movq	16(%rsp), %r9
	jmp	1b
34:
	leaq	.L50972cac8e3a(%rip), %rsi
	movq	%rsp, %rdi
	movl	$8, %edx
	callq	"core::fmt::formatter::Formatter::write_indented::<#0a7ff941e43d6b30>"
	testb	%al, %al
	jne	20b
	jmp	11b
35:
	movq	%rsp, %rdi
	movl	$8, %esi
	callq	"std_alloc::vec::Vec::grow_amortized::<#1d775b5957dec42c>"
	testb	%al, %al
	je	20b
	movq	8(%rsp), %rax
	movq	16(%rsp), %rcx
	jmp	10b
36:
	movq	%rsp, %rdi
	movq	%r15, %rsi
	movq	%r14, %rdx
	callq	"core::fmt::formatter::Formatter::write_indented::<#0a7ff941e43d6b30>"
	testb	%al, %al
	jne	20b
	jmp	17b
37:
	movq	%rsp, %rdi
	movq	%r14, %rsi
	callq	"std_alloc::vec::Vec::grow_amortized::<#1d775b5957dec42c>"
	testb	%al, %al
	movq	72(%rsp), %rbx
	je	20b
	movq	8(%rsp), %rax
	movq	16(%rsp), %rbx
	jmp	12b
38:
	leaq	.L840b088e8271(%rip), %rsi
	movq	%rsp, %rdi
	movl	$4, %edx
	callq	"core::fmt::formatter::Formatter::write_indented::<#0a7ff941e43d6b30>"
	testb	%al, %al
	jne	20b
	jmp	19b
39:
	movq	%rsp, %rdi
	movl	$4, %esi
	callq	"std_alloc::vec::Vec::grow_amortized::<#1d775b5957dec42c>"
	testb	%al, %al
	je	20b
	movq	8(%rsp), %rax
	movq	16(%rsp), %rcx
	jmp	18b
40:
	leaq	.Lb9d66d2d8f9c(%rip), %rsi
	movq	%rsp, %rdi
	movl	$1, %edx
	callq	"core::fmt::formatter::Formatter::write_indented::<#0a7ff941e43d6b30>"
	movaps	112(%rsp), %xmm0
	leaq	24(%rsp), %rdx
	movups	%xmm0, (%rdx)
	movq	128(%rsp), %rcx
	movq	%rcx, 16(%rdx)
	testb	%al, %al
	jne	21b
	jmp	26b
41:
	movq	%rsp, %rdi
	movl	$1, %esi
	callq	"std_alloc::vec::Vec::grow_amortized::<#1d775b5957dec42c>"
	testb	%al, %al
	je	20b
	movq	8(%rsp), %rax
	movq	16(%rsp), %rcx
	jmp	25b
42:
	.size	"mime_tool::directories::magic_file::faulty_at", 42b-"mime_tool::directories::magic_file::faulty_at"

	.section	.rodata.cst16,"aM",@progbits,16
	.p2align	4, 0x0
1:
	.byte	42,42,42,42,42,42,42,42
	.zero	1
	.zero	1
	.zero	1
	.zero	1
	.zero	1
	.zero	1
	.zero	1
	.zero	1
2:
	.byte	63,63,63,63,63,63,63,63
	.zero	1
	.zero	1
	.zero	1
	.zero	1
	.zero	1
	.zero	1
	.zero	1
	.zero	1
3:
	.byte	92,92,92,92,92,92,92,92
	.zero	1
	.zero	1
	.zero	1
	.zero	1
	.zero	1
	.zero	1
	.zero	1
	.zero	1
4:
	.byte	91,91,91,91,91,91,91,91
	.zero	1
	.zero	1
	.zero	1
	.zero	1
	.zero	1
	.zero	1
	.zero	1
	.zero	1
	.text
	.p2align	4
	.type	"mime_tool::directories::read_directory::<#2e1b2a3647f851f7>",@function
"mime_tool::directories::read_directory::<#2e1b2a3647f851f7>":
	pushq	%rbp
	pushq	%r15
	pushq	%r14
	pushq	%r13
	pushq	%r12
	pushq	%rbx
	subq	$1768, %rsp
	movq	%rcx, %rbp
	movq	%rdx, %r12
	movq	%rsi, %rbx
	movq	%rdi, %r13
	pxor	%xmm0, %xmm0
	movdqa	%xmm0, 816(%rsp)
	movdqa	%xmm0, 1536(%rsp)
	movdqa	%xmm0, 1552(%rsp)
	movdqa	%xmm0, 1568(%rsp)
	movq	$0, 1584(%rsp)
	movdqa	%xmm0, 1472(%rsp)
	movdqa	%xmm0, 1488(%rsp)
	movdqa	%xmm0, 1504(%rsp)
	movq	$0, 1520(%rsp)
	movdqa	%xmm0, 1408(%rsp)
	movdqa	%xmm0, 1424(%rsp)
	movdqa	%xmm0, 1440(%rsp)
	movq	$0, 1456(%rsp)
	movdqa	%xmm0, 1616(%rsp)
	movdqa	%xmm0, 1632(%rsp)
	movdqa	%xmm0, 1648(%rsp)
	movq	$0, 1664(%rsp)
	movdqa	%xmm0, 1376(%rsp)
	movq	$0, 1392(%rsp)
	movdqa	%xmm0, 1344(%rsp)
	movq	$0, 1360(%rsp)
	movdqa	%xmm0, 1712(%rsp)
	movq	$0, 1728(%rsp)
	movdqa	%xmm0, 1312(%rsp)
	movq	$0, 1328(%rsp)
	movdqa	%xmm0, 1280(%rsp)
	movq	$0, 1296(%rsp)
	movdqa	%xmm0, 1248(%rsp)
	movq	$0, 1264(%rsp)
	movdqa	%xmm0, 1216(%rsp)
	movq	$0, 1232(%rsp)
	movdqa	%xmm0, 1184(%rsp)
	movq	$0, 1200(%rsp)
	movdqa	%xmm0, 1152(%rsp)
	movq	$0, 1168(%rsp)
	movdqa	%xmm0, 1680(%rsp)
	movq	$0, 1696(%rsp)
	movdqa	%xmm0, 1120(%rsp)
	movq	$0, 1136(%rsp)
	movdqa	%xmm0, 1088(%rsp)
	movq	$0, 1104(%rsp)
	movdqa	%xmm0, 1056(%rsp)
	movq	$0, 1072(%rsp)
	movdqa	%xmm0, 528(%rsp)
	movdqa	%xmm0, 544(%rsp)
	movq	%rdx, 192(%rsp)
	movq	%rcx, 200(%rsp)
	leaq	.Lbd551c3abc3e(%rip), %r14
	movq	%r14, 208(%rsp)
	movq	$6, 216(%rsp)
	leaq	.Lce1aeece1a5a(%rip), %rax
	movq	%rax, 224(%rsp)
	movq	$6, 232(%rsp)
	leaq	528(%rsp), %rdi
	leaq	192(%rsp), %rsi
	callq	"std_alloc::string::String::format::<#ae563473db7f7f6d>"
	cmpb	$0, 528(%rsp)
	je	5f
	xorl	%ecx, %ecx
	movl	$2, %eax
	xorl	%esi, %esi
	xorl	%edx, %edx
	jmp	98f
5:
	movq	536(%rsp), %rsi
	movq	544(%rsp), %rdx
	movq	552(%rsp), %r15
	pxor	%xmm0, %xmm0
	movdqa	%xmm0, 544(%rsp)
	movdqa	%xmm0, 528(%rsp)
	movq	$0, 560(%rsp)
	leaq	528(%rsp), %rdi
	movq	%rsi, 104(%rsp)
	movq	%rdx, 448(%rsp)
	callq	"mime_tool::system::SystemFilesFiles::whole::<#a1ba6ce099ef6b20>"
	cmpb	$0, 528(%rsp)
	movq	%r12, 168(%rsp)
	movq	%rbx, 1032(%rsp)
	movq	%r15, 152(%rsp)
	je	8f
	cmpb	$2, 529(%rsp)
	je	6f
	pxor	%xmm0, %xmm0
	movdqa	%xmm0, 640(%rsp)
	movdqa	%xmm0, 656(%rsp)
	leaq	.Ld9078770f0cd(%rip), %rax
	movq	%rax, 192(%rsp)
	movq	$10, 200(%rsp)
	movq	104(%rsp), %rax
	movq	%rax, 208(%rsp)
	movq	448(%rsp), %rax
	movq	%rax, 216(%rsp)
	leaq	.L38ad3f25f51f(%rip), %rax
	movq	%rax, 224(%rsp)
	movq	$14, 232(%rsp)
	leaq	640(%rsp), %rdi
	leaq	192(%rsp), %rsi
	callq	"std_alloc::string::String::format::<#ae563473db7f7f6d>"
	cmpb	$0, 640(%rsp)
	je	57f
6:
	movl	$2, %eax
	movq	%rax, 336(%rsp)
	movq	$0, 96(%rsp)
	movq	$0, 120(%rsp)
	movq	$0, 352(%rsp)
7:
	movb	$1, %bl
	movq	$0, 384(%rsp)
	movq	$0, 392(%rsp)
	xorl	%r15d, %r15d
	movq	$0, 800(%rsp)
	movq	$0, 400(%rsp)
	jmp	96f
8:
	movq	%r13, 88(%rsp)
	movzbl	536(%rsp), %eax
	xorl	%ebx, %ebx
	movb	%al, 416(%rsp)
	cmpb	$1, %al
	movq	544(%rsp), %r15
	movq	552(%rsp), %r13
	movq	560(%rsp), %rax
	movq	%rax, 128(%rsp)
	cmoveq	%r13, %rbx
	movq	%rsp, %r14
	movq	%r15, 624(%rsp)
	cmovneq	%r14, %r15
	pxor	%xmm0, %xmm0
	movdqa	%xmm0, 576(%rsp)
	movdqa	%xmm0, 560(%rsp)
	movdqa	%xmm0, 544(%rsp)
	movdqa	%xmm0, 528(%rsp)
	movq	$0, 592(%rsp)
	movdqa	%xmm0, 192(%rsp)
	movdqa	%xmm0, 208(%rsp)
	movdqa	%xmm0, 224(%rsp)
	movdqa	%xmm0, 240(%rsp)
	movq	$0, 256(%rsp)
	movl	$0, 792(%rsp)
	movl	$0, 795(%rsp)
	movdqa	%xmm0, 1040(%rsp)
	movdqa	%xmm0, 896(%rsp)
	movq	$0, 912(%rsp)
	movdqa	%xmm0, 736(%rsp)
	movdqa	%xmm0, 752(%rsp)
	movq	$0, 768(%rsp)
	movdqa	%xmm0, 976(%rsp)
	movdqa	%xmm0, 992(%rsp)
	movq	$0, 1008(%rsp)
	movl	$0, 440(%rsp)
	movl	$0, 443(%rsp)
	movl	$0, 432(%rsp)
	movl	$0, 435(%rsp)
	movabsq	$-6148914691236517205, %rcx
	movq	%rbx, %rax
	mulq	%rcx
	shrq	$4, %rdx
	cmpq	$4096, %rdx
	movl	$4096, %eax
	cmovbq	%rdx, %rax
	movq	%r14, %rdx
	cmpq	$24, %rbx
	movq	%rbp, 312(%rsp)
	jb	9f
	movq	%rax, %rbp
	imulq	$112, %rax, %rdi
	movl	$8, %esi
	callq	rattle_alloc@PLT
	testb	$1, %al
	je	92f
	movq	%rbp, %rax
	movq	312(%rsp), %rbp
	pxor	%xmm0, %xmm0
9:
	movq	%rdx, 480(%rsp)
	movq	$0, 488(%rsp)
	movq	%rax, 496(%rsp)
	movq	%r14, 504(%rsp)
	movdqu	%xmm0, 512(%rsp)
	testq	%rbx, %rbx
	je	58f
	xorl	%r14d, %r14d
	jmp	12f
	.p2align	4
10:
	movl	$0, 443(%rsp)
	movl	$0, 440(%rsp)
	movl	$0, 432(%rsp)
	movl	$0, 435(%rsp)
	cmpb	$1, %al
	jne	56f
11:
	incq	%rdx
	movq	%rsi, %r15
	subq	%rdx, %r13
	je	56f
12:
	movl	$10, %edi
	movq	%r15, %rsi
	movq	%r13, %rdx
	callq	"memchr::bytes::memchr"
	cmpb	$1, %al
	leaq	1(%r15,%rdx), %rcx
	movq	%rdx, %rbx
	cmovneq	%r13, %rbx
	leaq	.L22d5119de29e(%rip), %rsi
	cmoveq	%rcx, %rsi
	incq	%r14
	movl	$0, 872(%rsp)
	movl	$0, 875(%rsp)
	movl	$0, 864(%rsp)
	movl	$0, 867(%rsp)
	testq	%rbx, %rbx
	je	10b
	cmpb	$35, (%r15)
	je	10b
	movq	%rsi, 144(%rsp)
	movq	%rbp, %r12
	movb	%al, 32(%rsp)
	movq	%rdx, 64(%rsp)
	movl	$58, %edi
	movq	%r15, %rsi
	movq	%rbx, %rdx
	callq	"memchr::bytes::memchr"
	cmpb	$1, %al
	jne	15f
	leaq	1(%rdx), %rax
	leaq	(%r15,%rdx), %rbp
	incq	%rbp
	subq	%rax, %rbx
	movl	$58, %edi
	movq	%rbp, %rsi
	movq	%rdx, 48(%rsp)
	movq	%rbx, %rdx
	callq	"memchr::bytes::memchr"
	cmpb	$1, %al
	jne	15f
	movq	%r14, 80(%rsp)
	leaq	1(%rdx), %rax
	movq	%rdx, 184(%rsp)
	movq	%rbp, 8(%rsp)
	leaq	(%rdx,%rbp), %r14
	incq	%r14
	subq	%rax, %rbx
	movl	$58, %edi
	movq	%r14, %rsi
	movq	%rbx, %rdx
	callq	"memchr::bytes::memchr"
	cmpb	$1, %al
	movq	%rbx, %r9
	cmoveq	%rdx, %r9
	movq	%r14, 176(%rsp)
	jne	16f
	movq	%r9, 24(%rsp)
	leaq	1(%rdx), %rax
	subq	%rax, %rbx
	leaq	(%r14,%rdx), %rbp
	incq	%rbp
	movl	$58, %edi
	movq	%rbp, %rsi
	movq	%rbx, %rdx
	callq	"memchr::bytes::memchr"
	movq	%rdx, %r14
	cmpb	$1, %al
	cmovneq	%rbx, %r14
	jmp	14f
	.p2align	4
13:
	movq	%rcx, %rbp
	cmpb	$1, %al
	jne	17f
14:
	movl	$44, %edi
	movq	%rbp, %rsi
	movq	%r14, %rdx
	callq	"memchr::bytes::memchr"
	leaq	1(%rdx), %rsi
	xorl	%ecx, %ecx
	cmpb	$1, %al
	cmoveq	%rsi, %rcx
	cmovneq	%r14, %rdx
	subq	%rcx, %r14
	addq	%rbp, %rcx
	cmpq	$2, %rdx
	jne	13b
	cmpb	$99, (%rbp)
	jne	13b
	movzbl	1(%rbp), %edx
	cmpb	$115, %dl
	sete	%bl
	cmpb	$1, %al
	jne	18f
	movq	%rcx, %rbp
	cmpb	$115, %dl
	jne	14b
	jmp	18f
	.p2align	4
15:
	movq	64(%rsp), %rdx
	movzbl	32(%rsp), %eax
	movq	%r12, %rbp
	jmp	27f
16:
	xorl	%ebx, %ebx
	movq	%r12, %rbp
	jmp	19f
17:
	xorl	%ebx, %ebx
18:
	movq	312(%rsp), %rbp
	movq	24(%rsp), %r9
19:
	movq	48(%rsp), %r10
	testq	%r10, %r10
	movq	64(%rsp), %rdx
	movzbl	32(%rsp), %eax
	movq	8(%rsp), %rsi
	je	26f
	xorl	%r14d, %r14d
	xorl	%ecx, %ecx
	.p2align	4
20:
	movzbl	(%r15,%rcx), %r8d
	addb	$-48, %r8b
	cmpb	$9, %r8b
	ja	26f
	addl	%r14d, %r14d
	leal	(%r14,%r14,4), %edi
	movzbl	%r8b, %r8d
	addl	%edi, %r8d
	movzwl	%r8w, %edi
	cmpl	$256, %edi
	movl	$256, %r14d
	cmovbl	%r8d, %r14d
	incq	%rcx
	cmpq	%rcx, %r10
	jne	20b
	cmpl	$255, %edi
	ja	26f
	movq	%r9, 24(%rsp)
	pxor	%xmm0, %xmm0
	movdqa	%xmm0, 672(%rsp)
	movdqa	%xmm0, 656(%rsp)
	movdqa	%xmm0, 640(%rsp)
	movq	$0, 688(%rsp)
	leaq	640(%rsp), %rdi
	movq	184(%rsp), %rdx
	callq	"mime_base::names::TypeName::new"
	cmpb	$0, 640(%rsp)
	je	21f
	cmpb	$2, 641(%rsp)
	movq	64(%rsp), %rdx
	movzbl	32(%rsp), %eax
	movq	80(%rsp), %r14
	jne	27f
	jmp	91f
21:
	movzbl	648(%rsp), %r11d
	movq	656(%rsp), %r10
	movq	664(%rsp), %rbp
	movq	672(%rsp), %r9
	movq	680(%rsp), %rax
	movq	%rax, 8(%rsp)
	movq	688(%rsp), %rax
	movq	%rax, 328(%rsp)
	movq	24(%rsp), %r8
	cmpq	$11, %r8
	movq	64(%rsp), %rdx
	movzbl	32(%rsp), %eax
	jne	22f
	movl	$10, %ecx
	movq	%rcx, 704(%rsp)
	movq	176(%rsp), %rdi
	cmpl	$1330536287, (%rdi)
	jne	23f
	leaq	.L357803851c0b(%rip), %rdx
	movl	$11, %esi
	movq	%r10, 96(%rsp)
	movq	%rbp, 336(%rsp)
	movq	%r11, %rbp
	movq	%r9, 136(%rsp)
	callq	"core::cmp::slices::groups_equal::<i8,31'core::cmp::numbers::U8PartialEq{}>"
	movq	136(%rsp), %r9
	movq	%rbp, %r11
	movq	336(%rsp), %rbp
	movq	96(%rsp), %r10
	movq	24(%rsp), %r8
	movq	64(%rsp), %rdx
	movl	%eax, %ecx
	movzbl	32(%rsp), %eax
	testb	%cl, %cl
	je	23f
	movl	$0, 883(%rsp)
	movl	$0, 880(%rsp)
	movl	$0, 808(%rsp)
	movl	$0, 811(%rsp)
	movl	$1, %r14d
	movq	$0, 48(%rsp)
	movq	$0, 184(%rsp)
	movq	%r9, %rcx
	xorl	%r9d, %r9d
	movq	%rbp, %rsi
	xorl	%ebp, %ebp
	movq	%r11, %r8
	movq	%r10, %r11
	movq	%rsi, %r10
	movq	%rcx, 336(%rsp)
	movq	8(%rsp), %rcx
	movq	%rcx, 136(%rsp)
	movq	328(%rsp), %rcx
	movq	%rcx, 8(%rsp)
	movq	$0, 328(%rsp)
	xorl	%r15d, %r15d
	xorl	%r12d, %r12d
	xorl	%ebx, %ebx
	jmp	53f
22:
	leaq	-1(%r8), %rcx
	movq	%rcx, 704(%rsp)
	cmpq	$254, %rcx
	ja	25f
23:
	movzwl	%r14w, %ecx
	movq	%rcx, 352(%rsp)
	movq	48(%rsp), %rcx
	addq	184(%rsp), %rcx
	movq	%rcx, 48(%rsp)
	leaq	(%r15,%rcx), %r14
	addq	$2, %r14
	xorl	%ecx, %ecx
24:
	cmpq	%rcx, %r8
	je	30f
	movzbl	(%r14,%rcx), %esi
	incq	%rcx
	cmpq	$58, %rsi
	ja	24b
	movabsq	$288230376151712769, %rdi
	btq	%rsi, %rdi
	jae	24b
25:
	cmpl	$1, %r11d
	setne	%cl
	testq	%r9, %r9
	sete	%sil
	orb	%cl, %sil
	movq	312(%rsp), %rbp
	jne	26f
	movq	%r10, %rdi
	callq	rattle_dealloc@PLT
	movzbl	32(%rsp), %eax
	movq	64(%rsp), %rdx
26:
	movq	80(%rsp), %r14
27:
	movl	872(%rsp), %ecx
	movl	875(%rsp), %esi
	movl	%esi, 443(%rsp)
	movl	%ecx, 440(%rsp)
	movl	864(%rsp), %ecx
	movl	867(%rsp), %esi
	movl	%ecx, 432(%rsp)
	movl	%esi, 435(%rsp)
	movq	512(%rsp), %rcx
	cmpq	%rcx, 520(%rsp)
	je	29f
28:
	movq	504(%rsp), %rsi
	movq	%r14, (%rsi,%rcx,8)
	incq	%rcx
	movq	%rcx, 512(%rsp)
	movq	144(%rsp), %rsi
	cmpb	$1, %al
	je	11b
	jmp	56f
29:
	leaq	504(%rsp), %rdi
	callq	"std_alloc::vec::Vec::grow_amortized::<#33f378437a29c276>"
	testb	%al, %al
	je	91f
	movq	512(%rsp), %rcx
	movq	64(%rsp), %rdx
	movzbl	32(%rsp), %eax
	jmp	28b
30:
	movq	%rbp, 336(%rsp)
	movq	%r9, 136(%rsp)
	cmpq	$17, %r8
	movq	%r10, 96(%rsp)
	jae	31f
	pxor	%xmm0, %xmm0
	movdqa	%xmm0, 640(%rsp)
	leaq	640(%rsp), %rdi
	movq	176(%rsp), %r12
	movq	%r12, %rsi
	movq	%r8, %rdx
	movq	%r11, %rbp
	callq	memcpy@PLT
	movq	%rbp, %r11
	movq	96(%rsp), %r10
	movq	24(%rsp), %r9
	movzbl	32(%rsp), %eax
	movq	64(%rsp), %rdx
	movq	640(%rsp), %rbp
	movq	648(%rsp), %rcx
	movq	%rcx, 184(%rsp)
	xorl	%ecx, %ecx
	testq	%r9, %r9
	movq	352(%rsp), %r8
	jne	43f
	jmp	47f
31:
	movq	%r11, 120(%rsp)
	testq	%r8, %r8
	js	89f
	movl	$1, %esi
	movq	%r8, %rdi
	callq	rattle_alloc@PLT
	movq	24(%rsp), %r9
	testb	$1, %al
	je	89f
	movq	%rdx, %rbp
	movq	%rdx, 640(%rsp)
	movq	%rdx, %rax
	movq	176(%rsp), %rsi
	subq	%rsi, %rax
	cmpq	%r9, %rax
	jae	32f
	movq	48(%rsp), %rax
	addq	%r15, %rax
	movq	%rbp, %rsi
	subq	%rax, %rbp
	addq	$-2, %rbp
	cmpq	$32, %rbp
	movq	64(%rsp), %rdx
	movzbl	32(%rsp), %eax
	movq	96(%rsp), %r10
	movq	120(%rsp), %r11
	jae	33f
	xorl	%ecx, %ecx
	movq	%rsi, %rbp
	jmp	38f
32:
	movq	%rbp, %rdi
	movq	%r9, %rdx
	callq	memmove@PLT
	movq	24(%rsp), %r9
	movq	64(%rsp), %rdx
	movzbl	32(%rsp), %eax
	movq	96(%rsp), %r10
	movq	120(%rsp), %r11
	jmp	42f
33:
	movabsq	$9223372036854775776, %r12
	cmpq	$32, %r9
	jae	34f
	xorl	%ecx, %ecx
	movq	%rsi, %rbp
	jmp	36f
34:
	movq	%r9, %rcx
	andq	%r12, %rcx
	movq	48(%rsp), %rdi
	addq	%r15, %rdi
	addq	$18, %rdi
	xorl	%r8d, %r8d
	movq	%rsi, %rbp
35:
	movdqu	-16(%rdi,%r8), %xmm0
	movdqu	(%rdi,%r8), %xmm1
	movdqu	%xmm0, (%rbp,%r8)
	movdqu	%xmm1, 16(%rbp,%r8)
	addq	$32, %r8
	cmpq	%r8, %rcx
	jne	35b
	cmpq	%rcx, %r9
	je	42f
	testb	$28, %r9b
	je	38f
36:
	movq	%rcx, %rdi
	addq	$28, %r12
	movq	%r12, %rcx
	andq	%r9, %rcx
	movq	176(%rsp), %r8
37:
	movl	(%r8,%rdi), %esi
	movl	%esi, (%rbp,%rdi)
	addq	$4, %rdi
	cmpq	%rdi, %rcx
	jne	37b
	cmpq	%rcx, %r9
	je	42f
38:
	movq	%r9, %rdi
	movq	%rcx, %rsi
	andq	$3, %rdi
	movq	176(%rsp), %r11
	je	40f
	movq	%rcx, %rsi
39:
	movzbl	(%r11,%rsi), %r8d
	movb	%r8b, (%rbp,%rsi)
	incq	%rsi
	decq	%rdi
	jne	39b
40:
	subq	%r9, %rcx
	cmpq	$-4, %rcx
	movq	120(%rsp), %r11
	ja	42f
	movq	48(%rsp), %rcx
	addq	%r15, %rcx
	addq	$5, %rcx
41:
	movzbl	-3(%rcx,%rsi), %edi
	movb	%dil, (%rbp,%rsi)
	movzbl	-2(%rcx,%rsi), %edi
	movb	%dil, 1(%rbp,%rsi)
	movzbl	-1(%rcx,%rsi), %edi
	movb	%dil, 2(%rbp,%rsi)
	movzbl	(%rcx,%rsi), %edi
	movb	%dil, 3(%rbp,%rsi)
	addq	$4, %rsi
	cmpq	%rsi, %r9
	jne	41b
42:
	movb	$1, %cl
	movq	%r9, 184(%rsp)
	movq	352(%rsp), %r8
	movq	176(%rsp), %r12
43:
	movq	%r12, %rsi
	cmpb	$42, (%r12)
	jne	46f
	cmpq	$8, 704(%rsp)
	jb	44f
	movq	1(%rsi), %xmm0
	movdqa	1b(%rip), %xmm1
	pcmpeqb	%xmm0, %xmm1
	movdqa	2b(%rip), %xmm2
	pcmpeqb	%xmm0, %xmm2
	por	%xmm1, %xmm2
	movdqa	3b(%rip), %xmm1
	pcmpeqb	%xmm0, %xmm1
	pcmpeqb	4b(%rip), %xmm0
	por	%xmm1, %xmm0
	por	%xmm2, %xmm0
	pmovmskb	%xmm0, %esi
	movb	$2, %r12b
	testb	%sil, %sil
	jne	52f
44:
	movq	48(%rsp), %rsi
	addq	%r15, %rsi
	addq	$3, %rsi
	xorl	%edi, %edi
	movabsq	$1688849862361089, %r14
	movq	704(%rsp), %r15
45:
	cmpq	%rdi, %r15
	je	50f
	movzbl	(%rsi,%rdi), %r8d
	incq	%rdi
	addl	$-42, %r8d
	cmpl	$50, %r8d
	ja	45b
	btq	%r8, %r14
	jae	45b
	movb	$2, %r12b
	jmp	51f
46:
	cmpq	$8, %r9
	jb	47f
	movq	(%rsi), %xmm0
	movdqa	1b(%rip), %xmm1
	pcmpeqb	%xmm0, %xmm1
	movdqa	2b(%rip), %xmm2
	pcmpeqb	%xmm0, %xmm2
	por	%xmm1, %xmm2
	movdqa	3b(%rip), %xmm1
	pcmpeqb	%xmm0, %xmm1
	pcmpeqb	4b(%rip), %xmm0
	por	%xmm1, %xmm0
	por	%xmm2, %xmm0
	pmovmskb	%xmm0, %esi
	movb	$2, %r12b
	testb	%sil, %sil
	jne	52f
47:
	xorl	%esi, %esi
	movabsq	$1688849862361089, %r15
48:
	cmpq	%rsi, %r9
	je	49f
	movzbl	(%r14,%rsi), %edi
	incq	%rsi
	addl	$-42, %edi
	cmpl	$50, %edi
	ja	48b
	btq	%rdi, %r15
	jae	48b
	movb	$2, %r12b
	jmp	52f
49:
	xorl	%r12d, %r12d
	jmp	52f
50:
	movb	$1, %r12b
51:
	movq	352(%rsp), %r8
52:
	movq	%rbp, 48(%rsp)
	movzbl	%cl, %r15d
	movl	$0, 883(%rsp)
	movl	$0, 880(%rsp)
	movl	$0, 808(%rsp)
	movl	$0, 811(%rsp)
	movb	$1, %bpl
	xorl	%r14d, %r14d
53:
	movl	880(%rsp), %ecx
	movl	883(%rsp), %esi
	movl	%esi, 443(%rsp)
	movl	%ecx, 440(%rsp)
	movl	808(%rsp), %ecx
	movl	811(%rsp), %esi
	movl	%ecx, 432(%rsp)
	movl	%esi, 435(%rsp)
	movq	488(%rsp), %rcx
	cmpq	%rcx, 496(%rsp)
	je	55f
54:
	movq	480(%rsp), %rsi
	imulq	$112, %rcx, %rdi
	movq	%r14, (%rsi,%rdi)
	movq	%r8, 8(%rsi,%rdi)
	movq	%r11, 16(%rsi,%rdi)
	movq	%r10, 24(%rsi,%rdi)
	movq	336(%rsp), %r8
	movq	%r8, 32(%rsi,%rdi)
	movq	136(%rsp), %r8
	movq	%r8, 40(%rsi,%rdi)
	movq	8(%rsp), %r8
	movq	%r8, 48(%rsi,%rdi)
	movq	328(%rsp), %r8
	movq	%r8, 56(%rsi,%rdi)
	movq	%r15, 64(%rsi,%rdi)
	movq	48(%rsp), %r8
	movq	%r8, 72(%rsi,%rdi)
	movq	184(%rsp), %r8
	movq	%r8, 80(%rsi,%rdi)
	movq	%r9, 88(%rsi,%rdi)
	movb	%r12b, 96(%rsi,%rdi)
	movl	440(%rsp), %r8d
	movl	443(%rsp), %r9d
	movl	%r8d, 97(%rsi,%rdi)
	movl	%r9d, 100(%rsi,%rdi)
	movb	%bl, 104(%rsi,%rdi)
	movl	432(%rsp), %r8d
	movl	435(%rsp), %r9d
	movl	%r8d, 105(%rsi,%rdi)
	movl	%r9d, 108(%rsi,%rdi)
	incq	%rcx
	movq	%rcx, 488(%rsp)
	movq	312(%rsp), %rbp
	movq	80(%rsp), %r14
	movq	144(%rsp), %rsi
	cmpb	$1, %al
	je	11b
	jmp	56f
55:
	movq	%r8, 352(%rsp)
	movq	%r11, 120(%rsp)
	movq	%r10, 96(%rsp)
	movq	%r9, 24(%rsp)
	leaq	480(%rsp), %rdi
	callq	"std_alloc::vec::Vec::grow_amortized::<#b0aa9f4bede84b75>"
	testb	%al, %al
	je	395f
	movq	488(%rsp), %rcx
	movq	64(%rsp), %rdx
	movzbl	32(%rsp), %eax
	movq	24(%rsp), %r9
	movq	96(%rsp), %r10
	movq	120(%rsp), %r11
	movq	352(%rsp), %r8
	jmp	54b
56:
	movq	480(%rsp), %rdx
	movq	488(%rsp), %r8
	movq	496(%rsp), %rcx
	movq	504(%rsp), %r15
	movq	512(%rsp), %r14
	movq	520(%rsp), %rbx
	testq	%r8, %r8
	je	61f
	movq	%r15, 696(%rsp)
	movq	%rdx, %r15
	movabsq	$88686269585142075, %rax
	cmpq	%rax, %r8
	movq	88(%rsp), %r13
	ja	59f
	imulq	$104, %r8, %rdi
	movl	$8, %esi
	movq	%rcx, 80(%rsp)
	movq	%r8, %r12
	callq	rattle_alloc@PLT
	movq	%r12, %r8
	movq	80(%rsp), %rcx
	testb	$1, %al
	je	59f
	movq	%rdx, %rcx
	movq	168(%rsp), %r12
	movq	%r15, %rdx
	movq	696(%rsp), %r15
	jmp	62f
57:
	movq	648(%rsp), %rax
	movq	%rax, 96(%rsp)
	movq	656(%rsp), %rax
	movq	%rax, 120(%rsp)
	movq	664(%rsp), %rax
	movq	%rax, 352(%rsp)
	movq	$0, 336(%rsp)
	jmp	7b
58:
	movq	%rax, 80(%rsp)
	movq	%rsp, %r15
	xorl	%r8d, %r8d
	xorl	%r14d, %r14d
	xorl	%ebx, %ebx
	movq	%r15, %rcx
	movq	88(%rsp), %r13
	jmp	62f
59:
	movq	%r15, 896(%rsp)
	movq	%r8, 904(%rsp)
	movq	%rcx, 912(%rsp)
	leaq	896(%rsp), %rdi
	callq	"std_alloc::vec::Vec::drop::<#a85d6931f7cfb01d>"
	testq	%rbx, %rbx
	movq	168(%rsp), %r12
	leaq	.Lbd551c3abc3e(%rip), %r14
	je	93f
	movq	696(%rsp), %rdi
60:
	callq	rattle_dealloc@PLT
	jmp	93f
61:
	movq	%rcx, 80(%rsp)
	movq	%rsp, %rcx
	xorl	%r8d, %r8d
	movq	88(%rsp), %r13
	movq	168(%rsp), %r12
62:
	movq	%rcx, 192(%rsp)
	movq	$0, 200(%rsp)
	movq	%r8, 208(%rsp)
	movq	%rsp, %rax
	movq	%rax, 216(%rsp)
	pxor	%xmm0, %xmm0
	movdqa	%xmm0, 224(%rsp)
	movq	%r15, 240(%rsp)
	movq	%r14, 248(%rsp)
	movq	%rbx, 256(%rsp)
	testq	%r8, %r8
	je	70f
	movq	%rdx, 184(%rsp)
	leaq	96(%rdx), %rbp
	xorl	%r14d, %r14d
	movq	%r8, 24(%rsp)
	jmp	65f
	.p2align	4
63:
	movq	224(%rsp), %rax
	cmpq	%rax, 232(%rsp)
	movq	%r11, %r8
	je	67f
64:
	movzbl	32(%rsp), %ecx
	movq	216(%rsp), %rdx
	leaq	(%rax,%rax,2), %rsi
	shlq	$4, %rsi
	movq	%rcx, (%rdx,%rsi)
	movq	%rdi, 8(%rdx,%rsi)
	movq	%r9, 16(%rdx,%rsi)
	movq	%r10, 24(%rdx,%rsi)
	movups	%xmm3, 32(%rdx,%rsi)
	incq	%rax
	movq	%rax, 224(%rsp)
	incq	%r14
	addq	$112, %rbp
	cmpq	%r14, %r8
	je	69f
65:
	movq	%r8, %r11
	movzbl	-88(%rbp), %eax
	movb	%al, 32(%rsp)
	movzwl	-83(%rbp), %r15d
	movzbl	-81(%rbp), %eax
	movl	%eax, 64(%rsp)
	movl	-87(%rbp), %r12d
	movq	-80(%rbp), %rdi
	movq	-72(%rbp), %r9
	movq	-64(%rbp), %r10
	movdqu	-48(%rbp), %xmm2
	movups	-56(%rbp), %xmm3
	movq	-56(%rbp), %rsi
	movzbl	-32(%rbp), %r8d
	movq	-24(%rbp), %r13
	movq	-8(%rbp), %rbx
	movdqu	-16(%rbp), %xmm1
	cmpb	$0, -96(%rbp)
	movl	-31(%rbp), %eax
	movzbl	-25(%rbp), %ecx
	movzwl	-27(%rbp), %edx
	movw	%dx, 796(%rsp)
	movb	%cl, 798(%rsp)
	movl	%eax, 792(%rsp)
	movdqu	(%rbp), %xmm0
	movdqa	%xmm0, 1040(%rsp)
	jne	63b
	movq	%rbx, 8(%rsp)
	movb	%r8b, 48(%rsp)
	movq	%rsi, 144(%rsp)
	movq	200(%rsp), %rax
	cmpq	%rax, 208(%rsp)
	movq	%r11, %r8
	movl	64(%rsp), %ebx
	je	68f
66:
	shll	$16, %ebx
	orl	%ebx, %r15d
	shlq	$32, %r15
	orq	%r15, %r12
	movq	192(%rsp), %rcx
	imulq	$104, %rax, %rdx
	movzbl	32(%rsp), %esi
	movb	%sil, (%rcx,%rdx)
	movl	%r12d, 1(%rcx,%rdx)
	movq	%r12, %rsi
	shrq	$48, %rsi
	movb	%sil, 7(%rcx,%rdx)
	shrq	$32, %r12
	movw	%r12w, 5(%rcx,%rdx)
	movq	%rdi, 8(%rcx,%rdx)
	movq	%r9, 16(%rcx,%rdx)
	movq	%r10, 24(%rcx,%rdx)
	movq	144(%rsp), %rsi
	movq	%rsi, 32(%rcx,%rdx)
	movdqu	%xmm2, 40(%rcx,%rdx)
	movzbl	48(%rsp), %esi
	movb	%sil, 56(%rcx,%rdx)
	movl	792(%rsp), %esi
	movl	795(%rsp), %edi
	movl	%esi, 57(%rcx,%rdx)
	movl	%edi, 60(%rcx,%rdx)
	movq	%r13, 64(%rcx,%rdx)
	movdqu	%xmm1, 72(%rcx,%rdx)
	movdqa	1040(%rsp), %xmm0
	movdqu	%xmm0, 88(%rcx,%rdx)
	incq	%rax
	movq	%rax, 200(%rsp)
	incq	%r14
	addq	$112, %rbp
	cmpq	%r14, %r8
	jne	65b
	jmp	69f
67:
	movaps	%xmm3, 64(%rsp)
	movq	%r10, %r12
	movq	%r9, %r15
	movq	%rdi, %rbx
	leaq	216(%rsp), %rdi
	callq	"std_alloc::vec::Vec::grow_amortized::<#3a45404b3fcd1c9c>"
	testb	%al, %al
	je	75f
	movq	224(%rsp), %rax
	movq	24(%rsp), %r8
	movq	%rbx, %rdi
	movq	%r15, %r9
	movq	%r12, %r10
	movaps	64(%rsp), %xmm3
	jmp	64b
68:
	movdqa	%xmm2, 352(%rsp)
	movdqa	%xmm1, 336(%rsp)
	movq	%r13, 704(%rsp)
	movq	%r10, 136(%rsp)
	movq	%r9, 328(%rsp)
	movq	%rdi, 176(%rsp)
	leaq	192(%rsp), %rdi
	callq	"std_alloc::vec::Vec::grow_amortized::<#9f351709e7e1a03a>"
	testb	%al, %al
	je	76f
	movq	200(%rsp), %rax
	movq	24(%rsp), %r8
	movq	176(%rsp), %rdi
	movq	328(%rsp), %r9
	movq	136(%rsp), %r10
	movq	704(%rsp), %r13
	movdqa	336(%rsp), %xmm1
	movdqa	352(%rsp), %xmm2
	jmp	66b
69:
	movq	192(%rsp), %rax
	movq	%rax, 336(%rsp)
	movq	200(%rsp), %rax
	movq	%rax, 96(%rsp)
	movq	240(%rsp), %r15
	movq	248(%rsp), %rbx
	movq	256(%rsp), %rax
	movq	%rax, 400(%rsp)
	movq	208(%rsp), %rax
	movq	%rax, 120(%rsp)
	movq	216(%rsp), %rax
	movq	%rax, 352(%rsp)
	movq	224(%rsp), %rax
	movq	%rax, 384(%rsp)
	movq	232(%rsp), %rax
	movq	%rax, 392(%rsp)
	movq	88(%rsp), %r13
	movq	312(%rsp), %rbp
	movq	168(%rsp), %r12
	movq	184(%rsp), %rdx
	jmp	71f
70:
	movq	%rcx, 336(%rsp)
	movq	%rax, 352(%rsp)
	movq	%rbx, 400(%rsp)
	movq	$0, 392(%rsp)
	movq	$0, 384(%rsp)
	movq	$0, 120(%rsp)
	movq	$0, 96(%rsp)
	movq	%r14, %rbx
71:
	movq	%rdx, 976(%rsp)
	movq	$0, 984(%rsp)
	movq	80(%rsp), %rax
	movq	%rax, 992(%rsp)
	movq	%r8, 1000(%rsp)
	movq	$0, 1008(%rsp)
	leaq	976(%rsp), %rdi
	callq	"std_alloc::vec::deque::VecDeque::drop::<#a85d6931f7cfb01d>"
	pxor	%xmm0, %xmm0
	movdqa	%xmm0, 208(%rsp)
	movdqa	%xmm0, 192(%rsp)
	movq	$0, 224(%rsp)
	movq	%rbx, 800(%rsp)
	testq	%rbx, %rbx
	leaq	.Lbd551c3abc3e(%rip), %r14
	je	73f
	xorl	%ebx, %ebx
72:
	movq	(%r15,%rbx,8), %r8
	leaq	192(%rsp), %rdi
	movq	1032(%rsp), %rsi
	movq	104(%rsp), %rdx
	movq	448(%rsp), %rcx
	callq	"mime_tool::directories::line_file::report_line::<#2e1b2a3647f851f7>"
	cmpb	$0, 192(%rsp)
	jne	74f
	incq	%rbx
	cmpq	%rbx, 800(%rsp)
	jne	72b
73:
	xorl	%ebx, %ebx
	jmp	95f
74:
	movzbl	200(%rsp), %r14d
	movq	%r15, %rax
	movq	208(%rsp), %r15
	movq	216(%rsp), %r12
	movq	224(%rsp), %r13
	movq	336(%rsp), %rcx
	movq	%rcx, 528(%rsp)
	movq	96(%rsp), %rcx
	movq	%rcx, 536(%rsp)
	movq	120(%rsp), %rcx
	movq	%rcx, 544(%rsp)
	movq	352(%rsp), %rcx
	movq	%rcx, 552(%rsp)
	movq	384(%rsp), %rcx
	movq	%rcx, 560(%rsp)
	movq	392(%rsp), %rcx
	movq	%rcx, 568(%rsp)
	movq	%rax, 576(%rsp)
	movq	800(%rsp), %rax
	movq	%rax, 584(%rsp)
	movq	400(%rsp), %rax
	movq	%rax, 592(%rsp)
	leaq	528(%rsp), %rdi
	callq	"mime_tool::mime_text++lines++globs2++GlobsFile+Destruct::drop"
	movb	$1, %bl
	movq	$0, 384(%rsp)
	movq	$0, 392(%rsp)
	movq	%r15, 96(%rsp)
	movq	%r12, 120(%rsp)
	movq	168(%rsp), %r12
	movq	%r13, 352(%rsp)
	movq	88(%rsp), %r13
	movq	%r14, 336(%rsp)
	leaq	.Lbd551c3abc3e(%rip), %r14
	jmp	94f
75:
	cmpb	$0, 32(%rsp)
	je	79f
	testq	%r12, %r12
	je	79f
	movq	%rbx, %rdi
	jmp	78f
76:
	cmpb	$0, 48(%rsp)
	sete	%al
	cmpq	$0, 8(%rsp)
	sete	%bl
	orb	%al, %bl
	cmpb	$0, 176(%rsp)
	movq	328(%rsp), %rdi
	movq	144(%rsp), %rax
	je	77f
	testq	%rax, %rax
	je	77f
	callq	rattle_dealloc@PLT
77:
	testb	%bl, %bl
	movq	704(%rsp), %rdi
	jne	79f
78:
	callq	rattle_dealloc@PLT
79:
	movq	184(%rsp), %rax
	movq	%rax, 736(%rsp)
	movq	%r14, %rax
	notq	%rax
	addq	24(%rsp), %rax
	movq	%rax, 744(%rsp)
	movq	80(%rsp), %rax
	movq	%rax, 752(%rsp)
	incq	%r14
	movq	%r14, 760(%rsp)
	movq	$0, 768(%rsp)
	leaq	736(%rsp), %rdi
	callq	"std_alloc::vec::deque::VecDeque::drop::<#a85d6931f7cfb01d>"
	movq	192(%rsp), %rbx
	movq	200(%rsp), %r12
	movq	208(%rsp), %rax
	movq	%rax, 32(%rsp)
	testq	%r12, %r12
	je	83f
	leaq	80(%rbx), %r13
	jmp	81f
80:
	addq	$104, %r13
	decq	%r12
	je	83f
81:
	movzbl	-24(%r13), %r15d
	movq	-16(%r13), %r14
	movq	(%r13), %rbp
	cmpb	$0, -72(%r13)
	je	82f
	cmpq	$0, -48(%r13)
	je	82f
	movq	-64(%r13), %rdi
	callq	rattle_dealloc@PLT
82:
	testb	%r15b, %r15b
	je	80b
	testq	%rbp, %rbp
	je	80b
	movq	%r14, %rdi
	callq	rattle_dealloc@PLT
	jmp	80b
83:
	cmpq	$0, 32(%rsp)
	je	84f
	movq	%rbx, %rdi
	callq	rattle_dealloc@PLT
84:
	movq	216(%rsp), %rbx
	movq	224(%rsp), %r15
	movq	232(%rsp), %r14
	testq	%r15, %r15
	movq	88(%rsp), %r13
	movq	312(%rsp), %rbp
	je	87f
	movq	%rbx, %r12
	jmp	86f
85:
	addq	$48, %r12
	decq	%r15
	je	87f
86:
	cmpb	$0, (%r12)
	je	85b
	cmpq	$0, 24(%r12)
	je	85b
	movq	8(%r12), %rdi
	callq	rattle_dealloc@PLT
	jmp	85b
87:
	testq	%r14, %r14
	je	88f
	movq	%rbx, %rdi
	callq	rattle_dealloc@PLT
88:
	cmpq	$0, 256(%rsp)
	movq	168(%rsp), %r12
	leaq	.Lbd551c3abc3e(%rip), %r14
	je	93f
	movq	240(%rsp), %rdi
	jmp	60b
89:
	cmpl	$1, 120(%rsp)
	setne	%al
	cmpq	$0, 136(%rsp)
	sete	%cl
	orb	%al, %cl
	jne	91f
	movq	96(%rsp), %rdi
90:
	callq	rattle_dealloc@PLT
91:
	leaq	480(%rsp), %rdi
	callq	"std_alloc::vec::Vec::drop::<#a85d6931f7cfb01d>"
	cmpq	$0, 520(%rsp)
	movq	168(%rsp), %r12
	je	92f
	movq	504(%rsp), %rdi
	callq	rattle_dealloc@PLT
92:
	movq	88(%rsp), %r13
	leaq	.Lbd551c3abc3e(%rip), %r14
	movq	312(%rsp), %rbp
93:
	movl	$2, %eax
	movq	%rax, 336(%rsp)
	movb	$1, %bl
	movq	$0, 384(%rsp)
	movq	$0, 392(%rsp)
	movq	$0, 96(%rsp)
	movq	$0, 120(%rsp)
	movq	$0, 352(%rsp)
94:
	xorl	%r15d, %r15d
	movq	$0, 800(%rsp)
	movq	$0, 400(%rsp)
95:
	cmpb	$1, 416(%rsp)
	jne	96f
	cmpq	$0, 128(%rsp)
	je	96f
	movq	624(%rsp), %rdi
	callq	rattle_dealloc@PLT
96:
	cmpq	$0, 152(%rsp)
	je	97f
	movq	104(%rsp), %rdi
	callq	rattle_dealloc@PLT
97:
	testb	%bl, %bl
	je	100f
	movq	352(%rsp), %rcx
	movq	336(%rsp), %rax
	movq	96(%rsp), %rdx
	movq	120(%rsp), %rsi
98:
	movzbl	%al, %eax
	movq	$1, (%r13)
	movq	%rax, 8(%r13)
	movq	%rdx, 16(%r13)
	movq	%rsi, 24(%r13)
	movq	%rcx, 32(%r13)
	addq	$40, %r13
	movl	$280, %edx
	movq	%r13, %rdi
	xorl	%esi, %esi
	callq	memset@PLT
99:
	addq	$1768, %rsp
	popq	%rbx
	popq	%r12
	popq	%r13
	popq	%r14
	popq	%r15
	popq	%rbp
	retq
100:
	pxor	%xmm0, %xmm0
	movdqa	%xmm0, 528(%rsp)
	movdqa	%xmm0, 544(%rsp)
	movq	%r12, 192(%rsp)
	movq	%rbp, 200(%rsp)
	movq	%r14, 208(%rsp)
	movq	$6, 216(%rsp)
	leaq	.L08f2e589dacb(%rip), %rax
	movq	%rax, 224(%rsp)
	movq	$5, 232(%rsp)
	leaq	528(%rsp), %rdi
	leaq	192(%rsp), %rsi
	callq	"std_alloc::string::String::format::<#ae563473db7f7f6d>"
	cmpb	$0, 528(%rsp)
	movq	%r15, 696(%rsp)
	je	101f
	movq	$0, 160(%rsp)
	movl	$2, %eax
	movq	%rax, 64(%rsp)
	pxor	%xmm0, %xmm0
	movdqa	%xmm0, 32(%rsp)
	jmp	263f
101:
	movq	536(%rsp), %rsi
	movq	544(%rsp), %rbx
	movq	552(%rsp), %rax
	movq	%rax, 1608(%rsp)
	pxor	%xmm1, %xmm1
	movdqa	%xmm1, 544(%rsp)
	pxor	%xmm0, %xmm0
	movdqa	%xmm0, 32(%rsp)
	movdqa	%xmm1, 528(%rsp)
	movq	$0, 560(%rsp)
	leaq	528(%rsp), %rdi
	movq	%rsi, 960(%rsp)
	movq	%rbx, %rdx
	callq	"mime_tool::system::SystemFilesFiles::whole::<#a1ba6ce099ef6b20>"
	cmpb	$0, 528(%rsp)
	je	102f
	cmpb	$2, 529(%rsp)
	jne	169f
	movl	$2, %r14d
	movq	$0, 160(%rsp)
	jmp	172f
102:
	movzbl	536(%rsp), %eax
	movb	%al, 303(%rsp)
	cmpb	$1, %al
	setne	%al
	movq	544(%rsp), %rcx
	movq	552(%rsp), %r8
	movq	560(%rsp), %rdx
	movq	%rdx, 1600(%rsp)
	testq	%r8, %r8
	sete	%dl
	orb	%al, %dl
	movq	%rcx, 112(%rsp)
	movq	%rbp, 312(%rsp)
	jne	173f
	leaq	.L6c36dbee23df(%rip), %rsi
	leaq	976(%rsp), %rdi
	movl	$12, %edx
	movq	%r8, 144(%rsp)
	callq	"mime_text::magic::section::after_prefix"
	cmpb	$0, 976(%rsp)
	je	335f
	movq	984(%rsp), %r14
	movq	992(%rsp), %rdi
	pxor	%xmm0, %xmm0
	movdqa	%xmm0, 880(%rsp)
	movq	%rsp, %rax
	movq	%rax, 736(%rsp)
	movdqu	%xmm0, 744(%rsp)
	testq	%rdi, %rdi
	je	173f
	movq	%rbx, 104(%rsp)
103:
	pxor	%xmm0, %xmm0
	movdqa	%xmm0, 896(%rsp)
	movdqa	%xmm0, 1040(%rsp)
	movdqa	%xmm0, 640(%rsp)
	cmpb	$91, (%r14)
	movq	%rdi, 64(%rsp)
	jne	217f
	leaq	1(%r14), %rbx
	leaq	-1(%rdi), %rbp
	movl	$10, %edi
	movq	%rbx, %rsi
	movq	%rbp, %rdx
	callq	"memchr::bytes::memchr"
	cmpb	$1, %al
	jne	348f
	pxor	%xmm0, %xmm0
	movdqa	%xmm0, 528(%rsp)
	testq	%rdx, %rdx
	je	217f
	leaq	(%rbx,%rdx), %r15
	incq	%r15
	movq	%rdx, %rax
	incq	%rax
	subq	%rax, %rbp
	xorl	%ebx, %ebx
	xorl	%eax, %eax
104:
	movzbl	1(%r14,%rax), %ecx
	leal	-48(%rcx), %esi
	cmpb	$9, %sil
	ja	105f
	leaq	(%rbx,%rbx,4), %rcx
	movzbl	%sil, %esi
	leaq	(%rsi,%rcx,2), %rcx
	movabsq	$4294967296, %rbx
	cmpq	%rbx, %rcx
	cmovbq	%rcx, %rbx
	incq	%rax
	cmpq	%rax, %rdx
	jne	104b
	jmp	217f
105:
	movq	%rbx, %rsi
	shrq	$32, %rsi
	jne	217f
	testq	%rax, %rax
	je	217f
	cmpb	$58, %cl
	jne	217f
	leaq	-1(%rdx), %rcx
	pxor	%xmm0, %xmm0
	movdqa	%xmm0, 224(%rsp)
	movdqa	%xmm0, 208(%rsp)
	movdqa	%xmm0, 192(%rsp)
	movq	$0, 240(%rsp)
	cmpq	%rax, %rcx
	je	217f
	leaq	(%r14,%rax), %rsi
	addq	$2, %rsi
	subq	%rax, %rdx
	cmpb	$93, -2(%rsi,%rdx)
	jne	217f
	addq	$-2, %rdx
	leaq	192(%rsp), %rdi
	callq	"mime_base::names::TypeName::new"
	cmpb	$0, 192(%rsp)
	jne	349f
	movzbl	200(%rsp), %edx
	movdqa	208(%rsp), %xmm1
	movq	208(%rsp), %rax
	movq	224(%rsp), %rcx
	leaq	232(%rsp), %rsi
	movdqu	(%rsi), %xmm0
	movdqa	%xmm0, 1040(%rsp)
	movdqa	%xmm0, 896(%rsp)
	pxor	%xmm0, %xmm0
	leaq	488(%rsp), %rsi
	movdqu	%xmm0, (%rsi)
	movq	%rsp, %rsi
	movq	%rsi, 480(%rsp)
	testq	%rbp, %rbp
	movq	%r13, 88(%rsp)
	je	162f
	movq	%rax, 448(%rsp)
	movq	%rcx, 152(%rsp)
	movzbl	(%r15), %eax
	cmpb	$62, %al
	setne	%cl
	addb	$-48, %al
	cmpb	$10, %al
	setae	%al
	xorl	%r9d, %r9d
	testb	%al, %cl
	jne	163f
	movq	%r15, %r14
	movq	%rdx, 80(%rsp)
106:
	cmpq	$5, %rbp
	jb	114f
	cmpb	$95, 3(%r14)
	je	107f
	cmpb	$11, 4(%r14)
	jne	114f
107:
	movq	%r9, %r12
	movdqa	%xmm1, 416(%rsp)
	movq	%rdx, %r15
	leaq	.L11b0047a3772(%rip), %rsi
	leaq	528(%rsp), %rdi
	movl	$15, %edx
	movq	%r14, %rcx
	movq	%rbp, %r8
	callq	"mime_text::magic::section::after_prefix"
	cmpb	$1, 528(%rsp)
	jne	108f
	movq	536(%rsp), %r14
	movq	544(%rsp), %rdi
	jmp	109f
108:
	leaq	.Lfd004d2b9c93(%rip), %rsi
	leaq	640(%rsp), %rdi
	movl	$14, %edx
	movq	%r14, %rcx
	movq	%rbp, %r8
	callq	"mime_text::magic::section::after_prefix"
	cmpb	$1, 640(%rsp)
	jne	113f
	movq	648(%rsp), %r14
	movq	656(%rsp), %rdi
109:
	movq	%r15, %rdx
	movdqa	416(%rsp), %xmm1
110:
	xorl	%ebp, %ebp
	movl	$2, %eax
	movq	%rax, 48(%rsp)
	xorl	%r10d, %r10d
	xorl	%ecx, %ecx
	xorl	%esi, %esi
	xorl	%r11d, %r11d
	xorl	%r9d, %r9d
	xorl	%r8d, %r8d
	xorl	%r13d, %r13d
	xorl	%r15d, %r15d
111:
	movq	%rbp, 32(%rsp)
	movq	488(%rsp), %r12
	cmpq	%r12, 496(%rsp)
	je	125f
112:
	movq	480(%rsp), %r13
	imulq	$88, %r12, %rax
	movl	%r15d, (%r13,%rax)
	movq	48(%rsp), %rbp
	movq	%rbp, 8(%r13,%rax)
	movq	%r8, 16(%r13,%rax)
	movq	%r9, 24(%r13,%rax)
	movq	%r11, 32(%r13,%rax)
	movq	%rsi, 40(%r13,%rax)
	movq	%rsi, 48(%r13,%rax)
	movq	%rcx, 56(%r13,%rax)
	movq	%r10, 64(%r13,%rax)
	movq	32(%rsp), %rcx
	movq	%rcx, 72(%r13,%rax)
	movq	%rcx, 80(%r13,%rax)
	incq	%r12
	movq	%r12, 488(%rsp)
	testq	%rdi, %rdi
	je	168f
	incl	%r15d
	movzbl	(%r14), %eax
	cmpb	$62, %al
	setne	%cl
	addb	$-48, %al
	cmpb	$10, %al
	setae	%al
	movq	%rdi, %rbp
	movl	%r15d, %r9d
	testb	%al, %cl
	je	106b
	jmp	168f
113:
	leaq	.L0e1bfeee433c(%rip), %rsi
	leaq	192(%rsp), %rdi
	movl	$17, %edx
	movq	%r14, %rcx
	movq	%rbp, %r8
	callq	"mime_text::magic::section::after_prefix"
	cmpb	$1, 192(%rsp)
	movdqa	416(%rsp), %xmm1
	movq	%r12, %r9
	jne	114f
	movq	%r15, %rdx
	movq	200(%rsp), %r14
	movq	208(%rsp), %rdi
	jmp	110b
114:
	movzbl	(%r14), %ecx
	movabsq	$4294967296, %rax
	cmpb	$62, %cl
	jne	115f
	leaq	-1(%rbp), %rcx
	xorl	%r15d, %r15d
	jmp	117f
115:
	addb	$-48, %cl
	cmpb	$9, %cl
	ja	384f
	movl	$1, %edx
	xorl	%r15d, %r15d
116:
	cmpq	%rdx, %rbp
	je	337f
	leaq	(%r15,%r15,4), %rsi
	movzbl	%cl, %ecx
	leaq	(%rcx,%rsi,2), %rsi
	cmpq	%rax, %rsi
	movq	%rax, %r15
	cmovbq	%rsi, %r15
	movzbl	1(%r14), %edi
	incq	%r14
	leal	-48(%rdi), %ecx
	incq	%rdx
	cmpb	$9, %cl
	jbe	116b
	cmpq	$1, %rdx
	sete	%cl
	movq	%rsi, %r8
	shrq	$32, %r8
	setne	%r8b
	orb	%cl, %r8b
	jne	392f
	cmpb	$62, %dil
	jne	392f
	cmpl	%r15d, %r9d
	jb	393f
	cmpq	$63, %rsi
	ja	394f
	movq	%rbp, %rcx
	subq	%rdx, %rcx
117:
	movq	%r14, %r11
	movq	%rbp, 8(%rsp)
	movb	$1, %dl
	movq	%rdx, 32(%rsp)
	testq	%rcx, %rcx
	je	338f
	leaq	4(%r11), %r12
	xorl	%r13d, %r13d
	xorl	%ebp, %ebp
118:
	movzbl	1(%r11,%rbp), %edx
	leal	-48(%rdx), %esi
	cmpb	$9, %sil
	ja	119f
	leaq	(,%r13,4), %rdx
	addq	%r13, %rdx
	movzbl	%sil, %esi
	leaq	(%rsi,%rdx,2), %r13
	cmpq	%rax, %r13
	cmovaeq	%rax, %r13
	incq	%rbp
	incq	%r12
	cmpq	%rbp, %rcx
	jne	118b
	jmp	338f
119:
	movq	%r13, %rsi
	shrq	$32, %rsi
	movb	$3, %sil
	movq	%rsi, 48(%rsp)
	jne	391f
	testq	%rbp, %rbp
	je	391f
	cmpb	$61, %dl
	jne	391f
	movq	%rcx, %rsi
	subq	%rbp, %rsi
	cmpq	$3, %rsi
	jb	338f
	addq	$-3, %rsi
	movzbl	2(%r11,%rbp), %edx
	movl	%edx, %r9d
	shll	$8, %r9d
	movzbl	3(%r11,%rbp), %edi
	leaq	(%r9,%rdi), %r8
	cmpq	%r8, %rsi
	jb	338f
	movq	%rdi, 128(%rsp)
	addq	%rdi, %r9
	movq	%rcx, %rsi
	subq	%r9, %rsi
	leaq	-3(%rsi), %rdi
	cmpq	%rbp, %rdi
	je	338f
	leaq	(%r11,%rbp), %rdi
	leaq	(%r8,%rdi), %r14
	addq	$4, %r14
	subq	%rbp, %rsi
	movzbl	(%r14), %edi
	cmpb	$38, %dil
	movq	%r9, 328(%rsp)
	movq	%r11, 184(%rsp)
	jne	120f
	addq	$-4, %rsi
	cmpq	%r8, %rsi
	jb	338f
	movl	%edx, %esi
	shll	$9, %esi
	movq	128(%rsp), %r9
	leal	(%rsi,%r9,2), %esi
	subq	%rsi, %rcx
	leaq	-4(%rcx), %rsi
	cmpq	%rbp, %rsi
	je	338f
	subq	%rbp, %rcx
	addq	$-4, %rcx
	leaq	(%r11,%r8), %rsi
	leaq	(%rsi,%rbp), %r10
	addq	$5, %r10
	shll	$9, %edx
	leal	(%rdx,%r9,2), %edx
	addq	%r11, %rdx
	leaq	(%rdx,%rbp), %r14
	addq	$5, %r14
	movzbl	5(%rbp,%rdx), %edx
	movl	$1, %esi
	movq	%rsi, 624(%rsp)
	movq	%rcx, %rsi
	movq	%r8, %r11
	jmp	121f
120:
	addq	$-3, %rsi
	movq	$0, 624(%rsp)
	movl	%edi, %edx
	xorl	%r11d, %r11d
	xorl	%r10d, %r10d
121:
	movl	$1, %ecx
	cmpb	$126, %dl
	movb	%dil, 176(%rsp)
	jne	123f
	decq	%rsi
	je	338f
	xorl	%r9d, %r9d
	xorl	%ecx, %ecx
122:
	movzbl	1(%r14,%rcx), %edx
	leal	-48(%rdx), %edi
	cmpb	$9, %dil
	ja	124f
	leaq	(%r9,%r9,4), %rdx
	movzbl	%dil, %edi
	leaq	(%rdi,%rdx,2), %r9
	cmpq	%rax, %r9
	cmovaeq	%rax, %r9
	incq	%rcx
	cmpq	%rcx, %rsi
	jne	122b
	jmp	338f
123:
	movq	%r11, 24(%rsp)
	movq	%r10, 704(%rsp)
	movq	%rsi, %rdi
	movl	$1, %r11d
	jmp	129f
124:
	movq	%r11, 24(%rsp)
	movq	%r10, 704(%rsp)
	movq	%r9, %rdi
	shrq	$32, %rdi
	jne	406f
	testq	%rcx, %rcx
	je	406f
	movq	%r8, %r10
	movq	%r9, %r11
	movq	%rsi, %rdi
	subq	%rcx, %rdi
	movq	%rdi, %r9
	addq	%rcx, %r14
	incq	%r14
	cmpq	$2, %r11
	je	126f
	movq	%r11, %rcx
	cmpl	$1, %ecx
	jne	127f
	movl	$1, %r11d
	movq	%r9, %rdi
	movq	%r10, %r8
	movl	$1, %ecx
	jmp	129f
125:
	movq	%r10, 128(%rsp)
	movq	%r11, 8(%rsp)
	movq	%r9, 408(%rsp)
	movq	%r8, 784(%rsp)
	movq	%rcx, 624(%rsp)
	movq	%rsi, 136(%rsp)
	movq	%rdi, 64(%rsp)
	movdqa	%xmm1, 416(%rsp)
	leaq	480(%rsp), %rdi
	callq	"std_alloc::vec::Vec::grow_amortized::<#9df5fbc9122c907f>"
	testb	%al, %al
	je	410f
	movq	488(%rsp), %r12
	movq	80(%rsp), %rdx
	movdqa	416(%rsp), %xmm1
	movq	64(%rsp), %rdi
	movq	136(%rsp), %rsi
	movq	624(%rsp), %rcx
	movq	784(%rsp), %r8
	movq	408(%rsp), %r9
	movq	8(%rsp), %r11
	movq	128(%rsp), %r10
	jmp	112b
126:
	movq	128(%rsp), %rcx
	xorb	$1, %cl
	jmp	128f
127:
	xorl	%ecx, %ecx
128:
	movq	%r11, %rdi
	xorq	$4, %rdi
	movq	128(%rsp), %r8
	andl	$3, %r8d
	orq	%rdi, %r8
	sete	%dil
	orb	%cl, %dil
	testb	$1, %dil
	movq	%r9, %rdi
	movq	%r10, %r8
	movl	$1, %ecx
	je	409f
129:
	cmpb	$43, %dl
	jne	132f
	decq	%rdi
	je	338f
	xorl	%r9d, %r9d
	xorl	%ecx, %ecx
130:
	movzbl	1(%r14,%rcx), %edx
	leal	-48(%rdx), %esi
	cmpb	$9, %sil
	ja	131f
	leaq	(%r9,%r9,4), %rdx
	movzbl	%sil, %esi
	leaq	(%rsi,%rdx,2), %r9
	cmpq	%rax, %r9
	cmovaeq	%rax, %r9
	incq	%rcx
	cmpq	%rcx, %rdi
	jne	130b
	jmp	338f
131:
	movq	%r9, %rax
	shrq	$32, %rax
	jne	408f
	testq	%rcx, %rcx
	je	408f
	subq	%rcx, %rdi
	addq	%rcx, %r14
	incq	%r14
	movq	%r9, %rcx
132:
	movdqa	%xmm1, 416(%rsp)
	incq	%r14
	decq	%rdi
	movq	%rdi, 64(%rsp)
	cmpb	$10, %dl
	jne	133f
	movq	%r11, 408(%rsp)
	leaq	(%r8,%r13), %rax
	movq	%rcx, 784(%rsp)
	addq	%rcx, %rax
	shrq	$32, %rax
	jne	340f
	testq	%r8, %r8
	movq	%r8, 136(%rsp)
	je	134f
	movl	$1, %esi
	movq	%r8, %rdi
	callq	rattle_alloc@PLT
	testb	$1, %al
	je	419f
	movq	136(%rsp), %r8
	movq	%rdx, %rdi
	jmp	135f
133:
	movl	$10, %edi
	movq	%r14, %rsi
	movq	64(%rsp), %r12
	movq	%r12, %rdx
	callq	"memchr::bytes::memchr"
	cmpb	$1, %al
	jne	338f
	addq	%rdx, %r14
	incq	%r14
	incq	%rdx
	subq	%rdx, %r12
	movl	$1, %eax
	movq	%rax, 48(%rsp)
	xorl	%ebp, %ebp
	xorl	%r10d, %r10d
	xorl	%ecx, %ecx
	xorl	%esi, %esi
	xorl	%r11d, %r11d
	xorl	%r9d, %r9d
	xorl	%r8d, %r8d
	xorl	%r13d, %r13d
	movq	80(%rsp), %rdx
	movdqa	416(%rsp), %xmm1
	movq	%r12, %rdi
	jmp	111b
134:
	movq	%rsp, %rdi
135:
	movq	%rdi, %rax
	movq	184(%rsp), %rdx
	subq	%rdx, %rax
	subq	%rbp, %rax
	addq	$-4, %rax
	cmpq	%r8, %rax
	movq	%rdi, 8(%rsp)
	jae	141f
	movq	%r8, %r10
	cmpl	$4, %r8d
	jb	136f
	cmpq	$32, %rax
	jae	146f
136:
	xorl	%eax, %eax
	movq	8(%rsp), %r11
137:
	movq	128(%rsp), %rsi
	subl	%eax, %esi
	movq	%rax, %rcx
	andl	$3, %esi
	je	139f
	movq	%rax, %rcx
138:
	movzbl	(%r12,%rcx), %edx
	movb	%dl, (%r11,%rcx)
	incq	%rcx
	decq	%rsi
	jne	138b
139:
	notq	%rax
	addq	328(%rsp), %rax
	cmpl	$3, %eax
	movq	%r10, %rsi
	jb	142f
140:
	movzbl	(%r12,%rcx), %eax
	movb	%al, (%r11,%rcx)
	movzbl	1(%r12,%rcx), %eax
	movb	%al, 1(%r11,%rcx)
	movzbl	2(%r12,%rcx), %eax
	movb	%al, 2(%r11,%rcx)
	movzbl	3(%r12,%rcx), %eax
	movb	%al, 3(%r11,%rcx)
	addq	$4, %rcx
	cmpq	%rcx, %rsi
	jne	140b
	jmp	142f
141:
	leaq	(%rdx,%rbp), %rsi
	addq	$4, %rsi
	movq	%r8, %rdx
	movq	%r8, %r12
	callq	memmove@PLT
	movq	8(%rsp), %r11
	movq	%r12, %rsi
142:
	xorl	%ebp, %ebp
	movl	$0, %r10d
	cmpb	$38, 176(%rsp)
	jne	161f
	cmpq	$0, 24(%rsp)
	je	143f
	movl	$1, %esi
	movq	24(%rsp), %rdi
	callq	rattle_alloc@PLT
	testb	$1, %al
	jne	144f
	jmp	418f
143:
	movq	%rsp, %rdx
144:
	movq	%rdx, %rcx
	subq	704(%rsp), %rcx
	cmpq	24(%rsp), %rcx
	jae	145f
	xorl	%eax, %eax
	cmpl	$4, 24(%rsp)
	jb	156f
	cmpq	$32, %rcx
	jb	156f
	cmpl	$32, 24(%rsp)
	jae	151f
	xorl	%eax, %eax
	jmp	153f
145:
	movq	%rdx, %r12
	movq	%rdx, %rdi
	movq	704(%rsp), %rsi
	movq	24(%rsp), %rbp
	movq	%rbp, %rdx
	callq	memmove@PLT
	movq	%r12, %r10
	jmp	160f
146:
	cmpl	$32, %r10d
	jae	147f
	xorl	%eax, %eax
	movq	%r10, %rsi
	movq	8(%rsp), %r11
	jmp	149f
147:
	movq	128(%rsp), %rcx
	andl	$31, %ecx
	movq	%r10, %rax
	subq	%rcx, %rax
	addq	%rbp, %rdx
	addq	$20, %rdx
	xorl	%esi, %esi
	movq	8(%rsp), %r11
148:
	movdqu	-16(%rdx,%rsi), %xmm0
	movdqu	(%rdx,%rsi), %xmm1
	movdqu	%xmm0, (%r11,%rsi)
	movdqu	%xmm1, 16(%r11,%rsi)
	addq	$32, %rsi
	cmpq	%rsi, %rax
	jne	148b
	testq	%rcx, %rcx
	movq	%r10, %rsi
	je	142b
	cmpl	$4, %ecx
	jb	137b
149:
	movq	%rax, %rcx
	movq	128(%rsp), %rdx
	andl	$3, %edx
	movq	%rsi, %rax
	subq	%rdx, %rax
	leaq	(%r12,%rcx), %rsi
	movq	328(%rsp), %rdi
	subq	%rcx, %rdi
	subq	%rdx, %rdi
	addq	%r11, %rcx
	xorl	%r8d, %r8d
150:
	movl	(%rsi,%r8), %r9d
	movl	%r9d, (%rcx,%r8)
	addq	$4, %r8
	cmpq	%r8, %rdi
	jne	150b
	testq	%rdx, %rdx
	movq	%r10, %rsi
	movq	8(%rsp), %r11
	jne	137b
	jmp	142b
151:
	movq	24(%rsp), %rax
	andl	$-32, %eax
	xorl	%ecx, %ecx
	movq	704(%rsp), %rsi
	movq	%rdx, %rdi
152:
	movdqu	(%rsi,%rcx), %xmm0
	movdqu	16(%rsi,%rcx), %xmm1
	movdqu	%xmm0, (%rdi,%rcx)
	movdqu	%xmm1, 16(%rdi,%rcx)
	addq	$32, %rcx
	cmpq	%rcx, %rax
	jne	152b
	cmpl	%eax, 24(%rsp)
	je	155f
	testb	$28, 24(%rsp)
	je	156f
153:
	movq	%rax, %rcx
	movq	24(%rsp), %rax
	andl	$-4, %eax
	movq	704(%rsp), %rsi
	movq	%rdx, %rdi
154:
	movl	(%rsi,%rcx), %r8d
	movl	%r8d, (%rdi,%rcx)
	addq	$4, %rcx
	cmpq	%rcx, %rax
	jne	154b
	cmpl	%eax, 24(%rsp)
	jne	156f
155:
	movq	24(%rsp), %rbp
	movq	136(%rsp), %rsi
	movq	8(%rsp), %r11
	movq	%rdx, %r10
	jmp	161f
156:
	movq	24(%rsp), %r8
	movq	%rax, %rcx
	andq	$3, %r8
	movq	704(%rsp), %rdi
	movq	%rdx, %r10
	je	158f
	movq	%rax, %rcx
157:
	movzbl	(%rdi,%rcx), %esi
	movb	%sil, (%r10,%rcx)
	incq	%rcx
	decq	%r8
	jne	157b
158:
	movq	24(%rsp), %rbp
	subl	%ebp, %eax
	cmpl	$-4, %eax
	ja	160f
159:
	movzbl	(%rdi,%rcx), %eax
	movb	%al, (%r10,%rcx)
	movzbl	1(%rdi,%rcx), %eax
	movb	%al, 1(%r10,%rcx)
	movzbl	2(%rdi,%rcx), %eax
	movb	%al, 2(%r10,%rcx)
	movzbl	3(%rdi,%rcx), %eax
	movb	%al, 3(%r10,%rcx)
	addq	$4, %rcx
	cmpq	%rcx, %rbp
	jne	159b
160:
	movq	136(%rsp), %rsi
	movq	8(%rsp), %r11
161:
	movq	784(%rsp), %r8
	shlq	$32, %r8
	orq	%r13, %r8
	movb	$1, %r13b
	movq	$0, 48(%rsp)
	movq	80(%rsp), %rdx
	movdqa	416(%rsp), %xmm1
	movq	64(%rsp), %rdi
	movq	624(%rsp), %rcx
	movq	408(%rsp), %r9
	jmp	111b
162:
	xorl	%r9d, %r9d
	xorl	%r12d, %r12d
	movq	%rsi, %r13
	movq	%r15, %r14
	xorl	%edi, %edi
	jmp	165f
163:
	xorl	%r12d, %r12d
	movq	%rsi, %r13
	movq	%r15, %r14
	movq	%rbp, %rdi
164:
	movq	152(%rsp), %rcx
	movq	448(%rsp), %rax
165:
	movdqa	896(%rsp), %xmm0
	movdqa	%xmm0, 880(%rsp)
	movq	744(%rsp), %rbp
	cmpq	%rbp, 752(%rsp)
	je	167f
166:
	movq	736(%rsp), %rsi
	leaq	(,%rbp,4), %rax
	addq	%rbp, %rax
	shlq	$4, %rax
	movl	%ebx, (%rsi,%rax)
	movq	%rdx, 8(%rsi,%rax)
	movdqu	%xmm1, 16(%rsi,%rax)
	movq	%rcx, 32(%rsi,%rax)
	movdqa	880(%rsp), %xmm0
	movdqu	%xmm0, 40(%rsi,%rax)
	movq	%r13, 56(%rsi,%rax)
	movq	%r12, 64(%rsi,%rax)
	movq	%r9, 72(%rsi,%rax)
	leaq	1(%rbp), %rdx
	movq	%rdx, 744(%rsp)
	testq	%rdi, %rdi
	movq	88(%rsp), %r13
	movq	168(%rsp), %r12
	jne	103b
	jmp	350f
167:
	movq	%r9, 32(%rsp)
	movq	%rdi, 64(%rsp)
	movdqa	%xmm1, 416(%rsp)
	movq	%rdx, 80(%rsp)
	movq	%rax, %rbp
	movq	%rcx, 152(%rsp)
	leaq	736(%rsp), %rdi
	callq	"std_alloc::vec::Vec::grow_amortized::<#098efa60f427b085>"
	testb	%al, %al
	je	397f
	movq	744(%rsp), %rbp
	movq	152(%rsp), %rcx
	movq	80(%rsp), %rdx
	movdqa	416(%rsp), %xmm1
	movq	64(%rsp), %rdi
	movq	32(%rsp), %r9
	jmp	166b
168:
	movq	496(%rsp), %r9
	jmp	164b
169:
	pxor	%xmm1, %xmm1
	movdqa	%xmm1, 640(%rsp)
	pxor	%xmm0, %xmm0
	movdqa	%xmm0, 32(%rsp)
	movdqa	%xmm1, 656(%rsp)
	leaq	.Ld9078770f0cd(%rip), %rax
	movq	%rax, 192(%rsp)
	movq	$10, 200(%rsp)
	movq	960(%rsp), %rax
	movq	%rax, 208(%rsp)
	movq	%rbx, 216(%rsp)
	leaq	.L38ad3f25f51f(%rip), %rax
	movq	%rax, 224(%rsp)
	movq	$14, 232(%rsp)
	leaq	640(%rsp), %rdi
	leaq	192(%rsp), %rsi
	callq	"std_alloc::string::String::format::<#ae563473db7f7f6d>"
	movq	$0, 160(%rsp)
	xorl	%r14d, %r14d
	cmpb	$0, 640(%rsp)
	setne	%al
	jne	170f
	movq	664(%rsp), %rcx
	movq	%rcx, 160(%rsp)
170:
	movb	%al, %r14b
	jne	171f
	movdqu	648(%rsp), %xmm0
	movdqa	%xmm0, 32(%rsp)
171:
	addl	%r14d, %r14d
172:
	movb	$1, %bl
	movq	$0, 304(%rsp)
	movq	$0, 376(%rsp)
	jmp	261f
173:
	movq	%rsp, %rsi
	movb	$1, %al
	xorl	%edx, %edx
	movb	$1, 23(%rsp)
	movq	$0, 376(%rsp)
	movq	%rsi, 160(%rsp)
	xorl	%ecx, %ecx
174:
	movq	%rcx, 304(%rsp)
	pxor	%xmm0, %xmm0
	movdqa	%xmm0, 896(%rsp)
	movq	%rsp, %r15
	movq	%r15, 480(%rsp)
	movdqu	%xmm0, 488(%rsp)
	movq	%r15, 736(%rsp)
	movdqu	%xmm0, 744(%rsp)
	testb	%al, %al
	je	181f
175:
	movq	%r13, %rbp
	cmpb	$0, 23(%rsp)
	jne	176f
	movq	%rsi, %rdi
	callq	rattle_dealloc@PLT
176:
	movq	736(%rsp), %r14
	movdqu	744(%rsp), %xmm0
	movdqa	%xmm0, 32(%rsp)
	movq	488(%rsp), %r12
	movq	496(%rsp), %rbx
	testq	%r12, %r12
	movq	112(%rsp), %rdi
	je	179f
	leaq	16(%r15), %r13
	jmp	178f
177:
	addq	$112, %r13
	decq	%r12
	je	179f
178:
	cmpb	$0, -8(%r13)
	je	177b
	movups	80(%r13), %xmm0
	movaps	%xmm0, 272(%rsp)
	movups	64(%r13), %xmm0
	movaps	%xmm0, 256(%rsp)
	movdqu	(%r13), %xmm0
	movdqu	16(%r13), %xmm1
	movdqu	32(%r13), %xmm2
	movups	48(%r13), %xmm3
	movaps	%xmm3, 240(%rsp)
	movdqa	%xmm2, 224(%rsp)
	movdqa	%xmm1, 208(%rsp)
	movdqa	%xmm0, 192(%rsp)
	leaq	192(%rsp), %rdi
	callq	"mime_text::mime_base++magic++matchlet++Matchlet+Destruct::drop"
	movq	112(%rsp), %rdi
	jmp	177b
179:
	testq	%rbx, %rbx
	movq	168(%rsp), %r12
	je	180f
	movq	%r15, %rdi
	callq	rattle_dealloc@PLT
	movq	112(%rsp), %rdi
180:
	xorl	%ebx, %ebx
	movq	%rbp, %r13
	movq	312(%rsp), %rbp
	jmp	260f
181:
	leaq	648(%rsp), %r8
	leaq	199(%rsp), %r9
	xorl	%eax, %eax
	movq	%r13, 88(%rsp)
	movq	%rsi, 472(%rsp)
	jmp	185f
182:
	movq	744(%rsp), %rax
	cmpq	%rax, 752(%rsp)
	je	212f
183:
	movq	736(%rsp), %rcx
	leaq	(%rax,%rax,4), %rdx
	shlq	$4, %rdx
	movl	972(%rsp), %esi
	movl	%esi, (%rcx,%rdx)
	movq	856(%rsp), %rsi
	movq	%rsi, 8(%rcx,%rdx)
	movq	840(%rsp), %rsi
	movq	%rsi, 16(%rcx,%rdx)
	movaps	1744(%rsp), %xmm0
	movups	%xmm0, 24(%rcx,%rdx)
	movdqa	896(%rsp), %xmm0
	movdqu	%xmm0, 40(%rcx,%rdx)
	movq	%r12, 56(%rcx,%rdx)
	movq	%rbx, 64(%rcx,%rdx)
	movq	%rbp, 72(%rcx,%rdx)
	incq	%rax
	movq	%rax, 744(%rsp)
184:
	movq	848(%rsp), %rdx
	testq	%rdx, %rdx
	movq	472(%rsp), %rsi
	movq	944(%rsp), %rax
	je	175b
185:
	movq	%rax, %rcx
	incq	%rax
	movq	%rax, 944(%rsp)
	movq	%rdx, 928(%rsp)
	leaq	-1(%rdx), %rax
	movq	%rax, 848(%rsp)
	movq	%rcx, 1024(%rsp)
	leaq	(%rcx,%rcx,4), %rax
	shlq	$4, %rax
	movl	(%rsi,%rax), %ecx
	movl	%ecx, 972(%rsp)
	movzbl	8(%rsi,%rax), %ecx
	movq	%rcx, 856(%rsp)
	movq	16(%rsi,%rax), %rcx
	movq	%rcx, 840(%rsp)
	movq	32(%rsi,%rax), %rcx
	movq	%rcx, 936(%rsp)
	movups	24(%rsi,%rax), %xmm0
	movaps	%xmm0, 1744(%rsp)
	movq	56(%rsi,%rax), %rdi
	movq	64(%rsi,%rax), %rdx
	movq	72(%rsi,%rax), %rcx
	movq	%rcx, 952(%rsp)
	movdqu	40(%rsi,%rax), %xmm0
	movdqa	%xmm0, 976(%rsp)
	movq	488(%rsp), %rbp
	testq	%rdx, %rdx
	movq	%rdi, 320(%rsp)
	jne	194f
186:
	movq	%rsp, %r12
	movq	%r12, 640(%rsp)
	pxor	%xmm0, %xmm0
	movdqu	%xmm0, (%r8)
	movb	$1, %r13b
	testq	%rbp, %rbp
	je	211f
	movl	$1, %r14d
	subq	%rbp, %r14
	imulq	$112, %rbp, %rax
	leaq	(%r15,%rax), %rbp
	addq	$-96, %rbp
	xorl	%ebx, %ebx
	jmp	189f
	.p2align	4
187:
	leaq	(%rbx,%rbx,2), %rax
	shlq	$5, %rax
	movaps	608(%rsp), %xmm0
	movups	%xmm0, 80(%r12,%rax)
	movaps	592(%rsp), %xmm0
	movups	%xmm0, 64(%r12,%rax)
	movdqa	528(%rsp), %xmm0
	movdqa	544(%rsp), %xmm1
	movdqa	560(%rsp), %xmm2
	movaps	576(%rsp), %xmm3
	movups	%xmm3, 48(%r12,%rax)
	movdqu	%xmm2, 32(%r12,%rax)
	movdqu	%xmm1, 16(%r12,%rax)
	movdqu	%xmm0, (%r12,%rax)
	incq	%rbx
	movq	%rbx, 648(%rsp)
	pxor	%xmm0, %xmm0
	movdqu	%xmm0, 80(%r9)
	movdqu	%xmm0, 64(%r9)
	movdqu	%xmm0, 48(%r9)
	movdqu	%xmm0, 32(%r9)
	movdqu	%xmm0, 16(%r9)
	movdqu	%xmm0, (%r9)
188:
	incq	%r14
	addq	$-112, %rbp
	cmpq	$1, %r14
	je	207f
189:
	cmpb	$1, -8(%rbp)
	jne	188b
	movups	80(%rbp), %xmm0
	movaps	%xmm0, 608(%rsp)
	movups	64(%rbp), %xmm0
	movaps	%xmm0, 592(%rsp)
	movups	(%rbp), %xmm0
	movups	16(%rbp), %xmm1
	movups	32(%rbp), %xmm2
	movups	48(%rbp), %xmm3
	movaps	%xmm3, 576(%rsp)
	movaps	%xmm2, 560(%rsp)
	movaps	%xmm1, 544(%rsp)
	movaps	%xmm0, 528(%rsp)
	cmpq	%rbx, 656(%rsp)
	jne	187b
	leaq	640(%rsp), %rdi
	callq	"std_alloc::vec::Vec::grow_amortized::<#fae293e493dc3251>"
	testb	%al, %al
	je	213f
	movq	640(%rsp), %r12
	movq	648(%rsp), %rbx
	movq	320(%rsp), %rdi
	leaq	648(%rsp), %r8
	leaq	199(%rsp), %r9
	jmp	187b
190:
	movq	%r15, 128(%rsp)
	movq	784(%rsp), %rax
191:
	movl	$1, %r14d
	movq	24(%rsp), %r12
	movq	%r10, %r15
	movq	%r8, %r10
	movq	704(%rsp), %r8
	movq	%r8, 32(%rsp)
	movq	%r10, %r8
	movq	624(%rsp), %r10
	movq	%r10, 64(%rsp)
	movq	%r11, 144(%rsp)
	movq	136(%rsp), %r10
	movq	%r10, 48(%rsp)
	movq	%rax, 104(%rsp)
	movq	%r13, 152(%rsp)
	movl	184(%rsp), %eax
	movl	%eax, 448(%rsp)
	movl	176(%rsp), %eax
	movl	%eax, 80(%rsp)
	movl	328(%rsp), %eax
	movl	%eax, 416(%rsp)
	movq	%r15, 8(%rsp)
	movb	$1, %r15b
192:
	cmpq	%rbp, 496(%rsp)
	je	206f
193:
	movq	480(%rsp), %r15
	imulq	$112, %rbp, %rax
	movl	%esi, (%r15,%rax)
	movq	%r14, 8(%r15,%rax)
	movl	448(%rsp), %edx
	movl	%edx, 16(%r15,%rax)
	movl	80(%rsp), %edx
	movl	%edx, 20(%r15,%rax)
	movl	416(%rsp), %edx
	movl	%edx, 24(%r15,%rax)
	movl	$0, 28(%r15,%rax)
	movq	%r12, 32(%r15,%rax)
	movq	32(%rsp), %rdx
	movq	%rdx, 40(%r15,%rax)
	movq	64(%rsp), %rdx
	movq	%rdx, 48(%r15,%rax)
	movq	8(%rsp), %rdx
	movq	%rdx, 56(%r15,%rax)
	movq	144(%rsp), %rdx
	movq	%rdx, 64(%r15,%rax)
	movq	48(%rsp), %rdx
	movq	%rdx, 72(%r15,%rax)
	movq	104(%rsp), %rdx
	movq	%rdx, 80(%r15,%rax)
	movq	152(%rsp), %rdx
	movq	%rdx, 88(%r15,%rax)
	movq	%rbx, 96(%r15,%rax)
	movq	128(%rsp), %rdx
	movq	%rdx, 104(%r15,%rax)
	incq	%rbp
	movq	%rbp, 488(%rsp)
	movq	%rcx, %rdx
	testq	%rcx, %rcx
	je	186b
194:
	leaq	-1(%rdx), %rcx
	imulq	$88, %rcx, %rax
	movl	(%rdi,%rax), %esi
	movzbl	8(%rdi,%rax), %r12d
	movl	16(%rdi,%rax), %r10d
	movl	%r10d, 184(%rsp)
	movl	20(%rdi,%rax), %r10d
	movl	%r10d, 176(%rsp)
	movl	24(%rdi,%rax), %r10d
	movl	%r10d, 328(%rsp)
	movq	32(%rdi,%rax), %r10
	movq	%r10, 24(%rsp)
	movq	40(%rdi,%rax), %r10
	movq	%r10, 704(%rsp)
	movq	48(%rdi,%rax), %r10
	movq	%r10, 624(%rsp)
	movzbl	56(%rdi,%rax), %r10d
	movq	64(%rdi,%rax), %r11
	movq	72(%rdi,%rax), %rbx
	movq	%rbx, 136(%rsp)
	movq	80(%rdi,%rax), %rax
	movq	%rsp, %r13
	movq	%r13, 640(%rsp)
	pxor	%xmm0, %xmm0
	movdqu	%xmm0, (%r8)
	testq	%rbp, %rbp
	je	199f
	movq	%rax, 784(%rsp)
	imulq	$112, %rbp, %rax
	cmpl	-112(%r15,%rax), %esi
	jae	200f
	decq	%rbp
	leaq	(%r15,%rax), %r14
	addq	$-96, %r14
	xorl	%ebx, %ebx
	movq	%rbp, %rax
	movq	%rdx, 728(%rsp)
	movq	%rcx, 408(%rsp)
	.p2align	4
195:
	movq	%rax, %rbp
	cmpb	$1, -8(%r14)
	jne	197f
	movups	80(%r14), %xmm0
	movaps	%xmm0, 608(%rsp)
	movups	64(%r14), %xmm0
	movaps	%xmm0, 592(%rsp)
	movups	(%r14), %xmm0
	movups	16(%r14), %xmm1
	movups	32(%r14), %xmm2
	movups	48(%r14), %xmm3
	movaps	%xmm3, 576(%rsp)
	movaps	%xmm2, 560(%rsp)
	movaps	%xmm1, 544(%rsp)
	movaps	%xmm0, 528(%rsp)
	cmpq	%rbx, 656(%rsp)
	je	198f
196:
	leaq	(%rbx,%rbx,2), %rax
	shlq	$5, %rax
	movaps	608(%rsp), %xmm0
	movups	%xmm0, 80(%r13,%rax)
	movaps	592(%rsp), %xmm0
	movups	%xmm0, 64(%r13,%rax)
	movdqa	528(%rsp), %xmm0
	movdqa	544(%rsp), %xmm1
	movdqa	560(%rsp), %xmm2
	movaps	576(%rsp), %xmm3
	movups	%xmm3, 48(%r13,%rax)
	movdqu	%xmm2, 32(%r13,%rax)
	movdqu	%xmm1, 16(%r13,%rax)
	movdqu	%xmm0, (%r13,%rax)
	incq	%rbx
	movq	%rbx, 648(%rsp)
	pxor	%xmm0, %xmm0
	movdqu	%xmm0, 80(%r9)
	movdqu	%xmm0, 64(%r9)
	movdqu	%xmm0, 48(%r9)
	movdqu	%xmm0, 32(%r9)
	movdqu	%xmm0, 16(%r9)
	movdqu	%xmm0, (%r9)
197:
	movq	%rbp, %rax
	subq	$1, %rax
	jb	201f
	cmpl	-128(%r14), %esi
	leaq	-112(%r14), %r14
	jb	195b
	jmp	201f
198:
	movl	%r12d, %r15d
	movq	%r11, 64(%rsp)
	movq	%r10, 32(%rsp)
	movl	%esi, %r12d
	leaq	640(%rsp), %rdi
	callq	"std_alloc::vec::Vec::grow_amortized::<#fae293e493dc3251>"
	testb	%al, %al
	je	222f
	movq	640(%rsp), %r13
	movq	648(%rsp), %rbx
	movq	320(%rsp), %rdi
	leaq	648(%rsp), %r8
	leaq	199(%rsp), %r9
	movq	728(%rsp), %rdx
	movq	408(%rsp), %rcx
	movl	%r12d, %esi
	movq	32(%rsp), %r10
	movq	64(%rsp), %r11
	movl	%r15d, %r12d
	jmp	196b
	.p2align	4
199:
	xorl	%ebp, %ebp
	movl	$0, %ebx
	movl	$0, %r14d
	movq	%r14, 128(%rsp)
	movl	$0, %r15d
	movq	%r8, %r14
	movl	$0, %r8d
	movq	%r8, 32(%rsp)
	movq	%r14, %r8
	movl	$0, %r14d
	movq	%r14, 64(%rsp)
	movl	$0, %r14d
	movq	%r14, 144(%rsp)
	movl	$0, %r14d
	movq	%r14, 48(%rsp)
	movl	$0, %r14d
	movq	%r14, 104(%rsp)
	movl	$0, %r14d
	movq	%r14, 152(%rsp)
	movl	$0, 448(%rsp)
	movl	$0, 80(%rsp)
	movl	$0, 416(%rsp)
	movl	$0, %r14d
	movq	%r14, 8(%rsp)
	movl	$0, %r14d
	testb	%r12b, %r12b
	movl	$0, %r12d
	jne	192b
	jmp	191b
	.p2align	4
200:
	movq	%rbp, 488(%rsp)
	xorl	%ebx, %ebx
	movl	$0, %eax
	movq	%rax, 128(%rsp)
	movl	$0, %r15d
	movl	$0, %eax
	movq	%rax, 32(%rsp)
	movl	$0, %eax
	movq	%rax, 64(%rsp)
	movl	$0, %eax
	movq	%rax, 144(%rsp)
	movl	$0, %eax
	movq	%rax, 48(%rsp)
	movl	$0, %eax
	movq	%rax, 104(%rsp)
	movl	$0, %eax
	movq	%rax, 152(%rsp)
	movl	$0, 448(%rsp)
	movl	$0, 80(%rsp)
	movl	%r12d, %eax
	movl	$0, %r12d
	movl	$0, 416(%rsp)
	movl	$0, %r14d
	movq	%r14, 8(%rsp)
	movl	$0, %r14d
	testb	%al, %al
	movq	784(%rsp), %rax
	jne	192b
	jmp	191b
	.p2align	4
201:
	movq	656(%rsp), %r15
	movq	%rbp, 488(%rsp)
	testb	%r12b, %r12b
	je	190b
	movl	%esi, 624(%rsp)
	testq	%rbx, %rbx
	je	203f
	movq	%r13, %r14
	.p2align	4
202:
	movups	80(%r14), %xmm0
	movaps	%xmm0, 272(%rsp)
	movups	64(%r14), %xmm0
	movaps	%xmm0, 256(%rsp)
	movdqu	(%r14), %xmm0
	movdqu	16(%r14), %xmm1
	movdqu	32(%r14), %xmm2
	movups	48(%r14), %xmm3
	movaps	%xmm3, 240(%rsp)
	movdqa	%xmm2, 224(%rsp)
	movdqa	%xmm1, 208(%rsp)
	movdqa	%xmm0, 192(%rsp)
	leaq	192(%rsp), %rdi
	callq	"mime_text::mime_base++magic++matchlet++Matchlet+Destruct::drop"
	addq	$96, %r14
	decq	%rbx
	jne	202b
203:
	testq	%r15, %r15
	je	204f
	movq	%r13, %rdi
	callq	rattle_dealloc@PLT
	xorl	%r15d, %r15d
	movq	488(%rsp), %rbp
	jmp	205f
204:
	xorl	%r15d, %r15d
205:
	xorl	%r12d, %r12d
	movq	$0, 32(%rsp)
	movq	$0, 64(%rsp)
	movq	$0, 144(%rsp)
	movq	$0, 48(%rsp)
	movq	$0, 104(%rsp)
	movq	$0, 152(%rsp)
	xorl	%ebx, %ebx
	movq	$0, 128(%rsp)
	movl	$0, 448(%rsp)
	movl	$0, 80(%rsp)
	movl	$0, 416(%rsp)
	movq	$0, 8(%rsp)
	xorl	%r14d, %r14d
	movq	320(%rsp), %rdi
	leaq	648(%rsp), %r8
	leaq	199(%rsp), %r9
	movq	728(%rsp), %rdx
	movq	408(%rsp), %rcx
	movl	624(%rsp), %esi
	jmp	192b
206:
	movl	%esi, %r13d
	movq	%rcx, 408(%rsp)
	movq	%rdx, %rbp
	leaq	480(%rsp), %rdi
	callq	"std_alloc::vec::Vec::grow_amortized::<#b0aa9f4bede84b75>"
	testb	%al, %al
	je	231f
	movq	488(%rsp), %rbp
	movq	320(%rsp), %rdi
	leaq	648(%rsp), %r8
	leaq	199(%rsp), %r9
	movq	408(%rsp), %rcx
	movl	%r13d, %esi
	jmp	193b
207:
	movq	$0, 488(%rsp)
	movq	656(%rsp), %rbp
	cmpq	$0, 952(%rsp)
	je	209f
208:
	callq	rattle_dealloc@PLT
	leaq	199(%rsp), %r9
	leaq	648(%rsp), %r8
209:
	testb	%r13b, %r13b
	movq	88(%rsp), %r13
	je	237f
	movdqa	976(%rsp), %xmm0
	movdqa	%xmm0, 896(%rsp)
	testq	%rbx, %rbx
	jne	182b
	cmpl	$1, 856(%rsp)
	setne	%al
	cmpq	$0, 936(%rsp)
	sete	%cl
	orb	%al, %cl
	jne	210f
	movq	840(%rsp), %rdi
	callq	rattle_dealloc@PLT
	leaq	199(%rsp), %r9
	leaq	648(%rsp), %r8
210:
	testq	%rbp, %rbp
	je	184b
	movq	%r12, %rdi
	callq	rattle_dealloc@PLT
	leaq	199(%rsp), %r9
	leaq	648(%rsp), %r8
	jmp	184b
211:
	xorl	%ebx, %ebx
	xorl	%ebp, %ebp
	cmpq	$0, 952(%rsp)
	jne	208b
	jmp	209b
212:
	leaq	736(%rsp), %rdi
	callq	"std_alloc::vec::Vec::grow_amortized::<#aac2e341597f1126>"
	testb	%al, %al
	je	366f
	movq	744(%rsp), %rax
	leaq	648(%rsp), %r8
	leaq	199(%rsp), %r9
	jmp	183b
213:
	negq	%r14
	movq	%r14, 488(%rsp)
	movaps	608(%rsp), %xmm0
	leaq	199(%rsp), %rax
	movups	%xmm0, 80(%rax)
	movaps	592(%rsp), %xmm0
	movups	%xmm0, 64(%rax)
	movaps	528(%rsp), %xmm0
	movaps	544(%rsp), %xmm1
	movaps	560(%rsp), %xmm2
	movaps	576(%rsp), %xmm3
	movups	%xmm3, 48(%rax)
	movups	%xmm2, 32(%rax)
	movups	%xmm1, 16(%rax)
	movups	%xmm0, (%rax)
	movups	80(%rax), %xmm0
	movaps	%xmm0, 608(%rsp)
	movups	64(%rax), %xmm0
	movaps	%xmm0, 592(%rsp)
	movdqu	(%rax), %xmm0
	movdqu	16(%rax), %xmm1
	movdqu	32(%rax), %xmm2
	movups	48(%rax), %xmm3
	movaps	%xmm3, 576(%rsp)
	movdqa	%xmm2, 560(%rsp)
	movdqa	%xmm1, 544(%rsp)
	movdqa	%xmm0, 528(%rsp)
	leaq	528(%rsp), %rdi
	callq	"mime_text::mime_base++magic++matchlet++Matchlet+Destruct::drop"
	movq	640(%rsp), %r12
	movq	648(%rsp), %r14
	movq	656(%rsp), %rbx
	testq	%r14, %r14
	je	215f
	movq	%r12, %r13
214:
	movups	80(%r13), %xmm0
	movaps	%xmm0, 608(%rsp)
	movups	64(%r13), %xmm0
	movaps	%xmm0, 592(%rsp)
	movdqu	(%r13), %xmm0
	movdqu	16(%r13), %xmm1
	movdqu	32(%r13), %xmm2
	movups	48(%r13), %xmm3
	movaps	%xmm3, 576(%rsp)
	movdqa	%xmm2, 560(%rsp)
	movdqa	%xmm1, 544(%rsp)
	movdqa	%xmm0, 528(%rsp)
	leaq	528(%rsp), %rdi
	callq	"mime_text::mime_base++magic++matchlet++Matchlet+Destruct::drop"
	addq	$96, %r13
	decq	%r14
	jne	214b
215:
	testq	%rbx, %rbx
	je	216f
	movq	%r12, %rdi
	callq	rattle_dealloc@PLT
216:
	xorl	%ebx, %ebx
	xorl	%ebp, %ebp
	xorl	%r12d, %r12d
	xorl	%r13d, %r13d
	movq	320(%rsp), %rdi
	leaq	648(%rsp), %r8
	leaq	199(%rsp), %r9
	cmpq	$0, 952(%rsp)
	jne	208b
	jmp	209b
217:
	movb	$2, %al
	movq	%rax, 48(%rsp)
	movb	$1, %al
	movq	%rax, 32(%rsp)
218:
	movq	112(%rsp), %rdi
	movq	736(%rsp), %rbx
	movq	744(%rsp), %rdx
	movq	752(%rsp), %r14
	testq	%rdx, %rdx
	je	219f
	movq	%rbx, %rdi
	xorl	%esi, %esi
	callq	"std_alloc::vec::opened::drop_run::<#2dfd7e2cc785f18c>"
	movq	112(%rsp), %rdi
219:
	testq	%r14, %r14
	movq	312(%rsp), %rbp
	je	220f
	movq	%rbx, %rdi
	callq	rattle_dealloc@PLT
	movq	112(%rsp), %rdi
220:
	cmpb	$0, 32(%rsp)
	je	258f
	xorl	%r9d, %r9d
	movq	144(%rsp), %rax
	subq	64(%rsp), %rax
	cmovaeq	%rax, %r9
	pxor	%xmm0, %xmm0
	movdqa	%xmm0, 208(%rsp)
	movdqa	%xmm0, 192(%rsp)
	movl	$9, %r8d
	movzbl	48(%rsp), %eax
	leaq	426f(%rip), %rcx
	movslq	(%rcx,%rax,4), %rax
	addq	%rcx, %rax
	jmpq	*%rax
221:
	leaq	.L036fffc6ae9d(%rip), %rcx
	jmp	364f
222:
	movq	%rbp, 488(%rsp)
	movdqa	528(%rsp), %xmm0
	movdqa	544(%rsp), %xmm1
	movdqa	560(%rsp), %xmm2
	movaps	576(%rsp), %xmm3
	movdqu	%xmm0, 199(%rsp)
	movdqu	%xmm1, 215(%rsp)
	movdqu	%xmm2, 231(%rsp)
	movups	%xmm3, 247(%rsp)
	movaps	592(%rsp), %xmm4
	movups	%xmm4, 263(%rsp)
	movaps	608(%rsp), %xmm5
	movups	%xmm5, 279(%rsp)
	movaps	%xmm5, 608(%rsp)
	movaps	%xmm4, 592(%rsp)
	movaps	%xmm3, 576(%rsp)
	movdqa	%xmm2, 560(%rsp)
	movdqa	%xmm1, 544(%rsp)
	movdqa	%xmm0, 528(%rsp)
	leaq	528(%rsp), %rdi
	callq	"mime_text::mime_base++magic++matchlet++Matchlet+Destruct::drop"
	movq	640(%rsp), %r13
	movq	648(%rsp), %r14
	movq	656(%rsp), %rbx
	testq	%r14, %r14
	je	224f
	movq	%r13, %r12
223:
	movups	80(%r12), %xmm0
	movaps	%xmm0, 608(%rsp)
	movups	64(%r12), %xmm0
	movaps	%xmm0, 592(%rsp)
	movdqu	(%r12), %xmm0
	movdqu	16(%r12), %xmm1
	movdqu	32(%r12), %xmm2
	movups	48(%r12), %xmm3
	movaps	%xmm3, 576(%rsp)
	movdqa	%xmm2, 560(%rsp)
	movdqa	%xmm1, 544(%rsp)
	movdqa	%xmm0, 528(%rsp)
	leaq	528(%rsp), %rdi
	callq	"mime_text::mime_base++magic++matchlet++Matchlet+Destruct::drop"
	addq	$96, %r12
	decq	%r14
	jne	223b
224:
	testq	%rbx, %rbx
	je	225f
	movq	%r13, %rdi
	callq	rattle_dealloc@PLT
225:
	testb	%r15b, %r15b
	movq	728(%rsp), %rdx
	jne	227f
	cmpq	$0, 624(%rsp)
	je	226f
	movq	24(%rsp), %rdi
	callq	rattle_dealloc@PLT
	movq	728(%rsp), %rdx
226:
	cmpl	$1, 32(%rsp)
	setne	%al
	cmpq	$0, 784(%rsp)
	sete	%cl
	orb	%al, %cl
	jne	227f
	movq	64(%rsp), %rdi
	callq	rattle_dealloc@PLT
	movq	728(%rsp), %rdx
227:
	cmpq	$0, 408(%rsp)
	movq	320(%rsp), %rdi
	je	236f
	leaq	80(%rdi), %r14
	movl	$1, %r15d
	jmp	229f
228:
	incq	%r15
	addq	$88, %r14
	cmpq	%r15, %rdx
	je	236f
229:
	cmpb	$0, -72(%r14)
	jne	228b
	movzbl	-24(%r14), %ebp
	movq	-16(%r14), %rbx
	movq	(%r14), %r12
	cmpq	$0, -32(%r14)
	je	230f
	movq	-48(%r14), %rdi
	callq	rattle_dealloc@PLT
	movq	728(%rsp), %rdx
	movq	320(%rsp), %rdi
230:
	testb	%bpl, %bpl
	je	228b
	testq	%r12, %r12
	je	228b
	movq	%rbx, %rdi
	callq	rattle_dealloc@PLT
	movq	728(%rsp), %rdx
	movq	320(%rsp), %rdi
	jmp	228b
231:
	testb	%r15b, %r15b
	je	232f
	movl	448(%rsp), %eax
	movl	%eax, 192(%rsp)
	movl	80(%rsp), %eax
	movl	%eax, 196(%rsp)
	movl	416(%rsp), %eax
	movl	%eax, 200(%rsp)
	movl	$0, 204(%rsp)
	movq	%r12, 208(%rsp)
	movq	32(%rsp), %rax
	movq	%rax, 216(%rsp)
	movq	64(%rsp), %rax
	movq	%rax, 224(%rsp)
	movq	8(%rsp), %rax
	movq	%rax, 232(%rsp)
	movq	144(%rsp), %rax
	movq	%rax, 240(%rsp)
	movq	48(%rsp), %rax
	movq	%rax, 248(%rsp)
	movq	104(%rsp), %rax
	movq	%rax, 256(%rsp)
	movq	152(%rsp), %rax
	movq	%rax, 264(%rsp)
	movq	%rbx, 272(%rsp)
	movq	128(%rsp), %rax
	movq	%rax, 280(%rsp)
	leaq	192(%rsp), %rdi
	callq	"mime_text::mime_base++magic++matchlet++Matchlet+Destruct::drop"
232:
	cmpq	$0, 408(%rsp)
	movq	320(%rsp), %rdi
	je	236f
	movq	%rbp, %rax
	leaq	80(%rdi), %r14
	movl	$1, %r15d
	jmp	234f
233:
	incq	%r15
	addq	$88, %r14
	cmpq	%r15, %rax
	je	236f
234:
	cmpb	$0, -72(%r14)
	jne	233b
	movzbl	-24(%r14), %r13d
	movq	-16(%r14), %rbx
	movq	(%r14), %r12
	cmpq	$0, -32(%r14)
	je	235f
	movq	-48(%r14), %rdi
	callq	rattle_dealloc@PLT
	movq	%rbp, %rax
	movq	320(%rsp), %rdi
235:
	testb	%r13b, %r13b
	je	233b
	testq	%r12, %r12
	je	233b
	movq	%rbx, %rdi
	callq	rattle_dealloc@PLT
	movq	%rbp, %rax
	movq	320(%rsp), %rdi
	jmp	233b
236:
	cmpq	$0, 952(%rsp)
	je	237f
	callq	rattle_dealloc@PLT
237:
	cmpl	$1, 856(%rsp)
	setne	%al
	cmpq	$0, 936(%rsp)
	sete	%cl
	orb	%al, %cl
	jne	238f
	movq	840(%rsp), %rdi
	callq	rattle_dealloc@PLT
238:
	movq	928(%rsp), %rdx
	leaq	-1(%rdx), %rax
	testq	%rax, %rax
	movq	472(%rsp), %rbx
	je	239f
	addq	1024(%rsp), %rdx
	movq	%rbx, %rdi
	movq	944(%rsp), %rsi
	callq	"std_alloc::vec::opened::drop_run::<#2dfd7e2cc785f18c>"
239:
	cmpb	$0, 23(%rsp)
	jne	240f
	movq	%rbx, %rdi
	callq	rattle_dealloc@PLT
240:
	movq	736(%rsp), %r14
	movq	744(%rsp), %rcx
	movq	752(%rsp), %rax
	movq	%rax, 64(%rsp)
	movq	%rcx, 32(%rsp)
	testq	%rcx, %rcx
	je	246f
	xorl	%r13d, %r13d
	jmp	242f
241:
	incq	%r13
	cmpq	32(%rsp), %r13
	je	246f
242:
	movq	%r13, %rax
	shlq	$4, %rax
	leaq	(%rax,%rax,4), %rax
	movq	56(%r14,%rax), %r12
	movq	64(%r14,%rax), %r15
	movq	72(%r14,%rax), %rbp
	cmpb	$0, 8(%r14,%rax)
	je	243f
	cmpq	$0, 32(%r14,%rax)
	je	243f
	movq	16(%r14,%rax), %rdi
	callq	rattle_dealloc@PLT
243:
	testq	%r15, %r15
	je	245f
	movq	%r12, %rbx
	.p2align	4
244:
	movups	80(%rbx), %xmm0
	movaps	%xmm0, 272(%rsp)
	movups	64(%rbx), %xmm0
	movaps	%xmm0, 256(%rsp)
	movdqu	(%rbx), %xmm0
	movdqu	16(%rbx), %xmm1
	movdqu	32(%rbx), %xmm2
	movups	48(%rbx), %xmm3
	movaps	%xmm3, 240(%rsp)
	movdqa	%xmm2, 224(%rsp)
	movdqa	%xmm1, 208(%rsp)
	movdqa	%xmm0, 192(%rsp)
	leaq	192(%rsp), %rdi
	callq	"mime_text::mime_base++magic++matchlet++Matchlet+Destruct::drop"
	addq	$96, %rbx
	decq	%r15
	jne	244b
245:
	testq	%rbp, %rbp
	je	241b
	movq	%r12, %rdi
	callq	rattle_dealloc@PLT
	jmp	241b
246:
	cmpq	$0, 64(%rsp)
	je	247f
	movq	%r14, %rdi
	callq	rattle_dealloc@PLT
247:
	movq	480(%rsp), %rbx
	movq	488(%rsp), %r15
	movq	496(%rsp), %r14
	testq	%r15, %r15
	movq	88(%rsp), %r13
	movq	312(%rsp), %rbp
	movq	112(%rsp), %rdi
	je	250f
	leaq	16(%rbx), %r12
	jmp	249f
248:
	addq	$112, %r12
	decq	%r15
	je	250f
249:
	cmpb	$0, -8(%r12)
	je	248b
	movups	80(%r12), %xmm0
	movaps	%xmm0, 272(%rsp)
	movups	64(%r12), %xmm0
	movaps	%xmm0, 256(%rsp)
	movdqu	(%r12), %xmm0
	movdqu	16(%r12), %xmm1
	movdqu	32(%r12), %xmm2
	movups	48(%r12), %xmm3
	movaps	%xmm3, 240(%rsp)
	movdqa	%xmm2, 224(%rsp)
	movdqa	%xmm1, 208(%rsp)
	movdqa	%xmm0, 192(%rsp)
	leaq	192(%rsp), %rdi
	callq	"mime_text::mime_base++magic++matchlet++Matchlet+Destruct::drop"
	movq	112(%rsp), %rdi
	jmp	248b
250:
	testq	%r14, %r14
	je	252f
251:
	movq	%rbx, %rdi
	callq	rattle_dealloc@PLT
	movq	112(%rsp), %rdi
252:
	cmpq	$0, 304(%rsp)
	movq	168(%rsp), %r12
	je	255f
	movq	160(%rsp), %rbx
	jmp	254f
253:
	addq	$48, %rbx
	decq	304(%rsp)
	je	255f
254:
	cmpb	$0, (%rbx)
	je	253b
	cmpq	$0, 24(%rbx)
	je	253b
	movq	8(%rbx), %rdi
	callq	rattle_dealloc@PLT
	movq	112(%rsp), %rdi
	jmp	253b
255:
	cmpq	$0, 376(%rsp)
	je	258f
	movq	160(%rsp), %rdi
256:
	callq	rattle_dealloc@PLT
257:
	movq	112(%rsp), %rdi
258:
	pxor	%xmm0, %xmm0
	movdqa	%xmm0, 32(%rsp)
	movl	$2, %r14d
	movq	$0, 160(%rsp)
259:
	movb	$1, %bl
	movq	$0, 304(%rsp)
	movq	$0, 376(%rsp)
260:
	cmpb	$1, 303(%rsp)
	jne	261f
	cmpq	$0, 1600(%rsp)
	je	261f
	callq	rattle_dealloc@PLT
261:
	cmpq	$0, 1608(%rsp)
	je	262f
	movq	960(%rsp), %rdi
	callq	rattle_dealloc@PLT
262:
	testb	%bl, %bl
	je	275f
	movq	%r14, 64(%rsp)
263:
	pxor	%xmm0, %xmm0
	movdqa	%xmm0, 816(%rsp)
	movq	96(%rsp), %r14
	testq	%r14, %r14
	je	267f
	movq	336(%rsp), %rax
	leaq	80(%rax), %r15
	jmp	265f
	.p2align	4
264:
	addq	$104, %r15
	decq	%r14
	je	267f
265:
	movzbl	-24(%r15), %ebp
	movq	-16(%r15), %rbx
	movq	(%r15), %r12
	cmpb	$0, -72(%r15)
	je	266f
	cmpq	$0, -48(%r15)
	je	266f
	movq	-64(%r15), %rdi
	callq	rattle_dealloc@PLT
266:
	testb	%bpl, %bpl
	je	264b
	testq	%r12, %r12
	je	264b
	movq	%rbx, %rdi
	callq	rattle_dealloc@PLT
	jmp	264b
267:
	cmpq	$0, 120(%rsp)
	je	268f
	movq	336(%rsp), %rdi
	callq	rattle_dealloc@PLT
268:
	movq	384(%rsp), %rbp
	testq	%rbp, %rbp
	movq	696(%rsp), %r15
	movq	352(%rsp), %r12
	movq	64(%rsp), %r14
	je	271f
	movq	%r12, %rbx
	jmp	270f
	.p2align	4
269:
	addq	$48, %rbx
	decq	%rbp
	je	271f
270:
	cmpb	$0, (%rbx)
	je	269b
	cmpq	$0, 24(%rbx)
	je	269b
	movq	8(%rbx), %rdi
	callq	rattle_dealloc@PLT
	jmp	269b
271:
	movzbl	%r14b, %ebx
	cmpq	$0, 392(%rsp)
	je	272f
	movq	%r12, %rdi
	callq	rattle_dealloc@PLT
272:
	cmpq	$0, 400(%rsp)
	je	273f
	movq	%r15, %rdi
	callq	rattle_dealloc@PLT
273:
	movq	$1, (%r13)
	movq	%rbx, 8(%r13)
	movaps	32(%rsp), %xmm0
	movups	%xmm0, 16(%r13)
	movq	160(%rsp), %rax
274:
	movq	%rax, 32(%r13)
	leaq	40(%r13), %rdi
	movl	$264, %edx
	xorl	%esi, %esi
	callq	memset@PLT
	movdqa	816(%rsp), %xmm0
	movdqu	%xmm0, 304(%r13)
	jmp	99b
275:
	leaq	.Lb18950a248ac(%rip), %r8
	leaq	1536(%rsp), %rdi
	movl	$7, %r9d
	movq	1032(%rsp), %rbx
	movq	%rbx, %rsi
	movq	%r12, %rdx
	movq	%rbp, %rcx
	callq	"mime_tool::directories::line_file::read_lines::<#a396a1851f6c60ad>"
	movq	1544(%rsp), %rax
	movq	%rax, 144(%rsp)
	cmpb	$0, 1536(%rsp)
	je	297f
	movq	%r13, 88(%rsp)
	movaps	1552(%rsp), %xmm0
	movaps	%xmm0, 48(%rsp)
	movq	1568(%rsp), %rax
	movq	%rax, 104(%rsp)
	xorps	%xmm0, %xmm0
	movaps	%xmm0, 816(%rsp)
	movdqa	32(%rsp), %xmm0
	movq	%xmm0, %rax
	movq	%rax, 64(%rsp)
	testq	%rax, %rax
	je	281f
	xorl	%ebp, %ebp
	jmp	277f
	.p2align	4
276:
	incq	%rbp
	cmpq	64(%rsp), %rbp
	je	281f
277:
	movq	%rbp, %rax
	shlq	$4, %rax
	leaq	(%rax,%rax,4), %rax
	movq	56(%r14,%rax), %r13
	movq	64(%r14,%rax), %r12
	movq	72(%r14,%rax), %r15
	cmpb	$0, 8(%r14,%rax)
	je	278f
	cmpq	$0, 32(%r14,%rax)
	je	278f
	movq	16(%r14,%rax), %rdi
	callq	rattle_dealloc@PLT
278:
	testq	%r12, %r12
	je	280f
	movq	%r13, %rbx
	.p2align	4
279:
	movups	80(%rbx), %xmm0
	movaps	%xmm0, 272(%rsp)
	movups	64(%rbx), %xmm0
	movaps	%xmm0, 256(%rsp)
	movdqu	(%rbx), %xmm0
	movdqu	16(%rbx), %xmm1
	movdqu	32(%rbx), %xmm2
	movups	48(%rbx), %xmm3
	movaps	%xmm3, 240(%rsp)
	movdqa	%xmm2, 224(%rsp)
	movdqa	%xmm1, 208(%rsp)
	movdqa	%xmm0, 192(%rsp)
	leaq	192(%rsp), %rdi
	callq	"mime_text::mime_base++magic++matchlet++Matchlet+Destruct::drop"
	addq	$96, %rbx
	decq	%r12
	jne	279b
280:
	testq	%r15, %r15
	je	276b
	movq	%r13, %rdi
	callq	rattle_dealloc@PLT
	jmp	276b
281:
	movq	%r14, %rdi
	movdqa	32(%rsp), %xmm0
	pextrq	$1, %xmm0, %rax
	testq	%rax, %rax
	movq	160(%rsp), %r14
	je	282f
	callq	rattle_dealloc@PLT
282:
	movq	304(%rsp), %r13
	testq	%r13, %r13
	movq	88(%rsp), %r12
	movq	96(%rsp), %r15
	je	285f
	movq	%r14, %rbx
	jmp	284f
	.p2align	4
283:
	addq	$48, %rbx
	decq	%r13
	je	285f
284:
	cmpb	$0, (%rbx)
	je	283b
	cmpq	$0, 24(%rbx)
	je	283b
	movq	8(%rbx), %rdi
	callq	rattle_dealloc@PLT
	jmp	283b
285:
	cmpq	$0, 376(%rsp)
	je	286f
	movq	%r14, %rdi
	callq	rattle_dealloc@PLT
286:
	testq	%r15, %r15
	je	290f
	movq	336(%rsp), %rax
	leaq	80(%rax), %r14
	jmp	288f
	.p2align	4
287:
	addq	$104, %r14
	movq	%r13, %r15
	decq	%r15
	je	290f
288:
	movq	%r15, %r13
	movzbl	-24(%r14), %ebp
	movq	-16(%r14), %rbx
	movq	(%r14), %r15
	cmpb	$0, -72(%r14)
	je	289f
	cmpq	$0, -48(%r14)
	je	289f
	movq	-64(%r14), %rdi
	callq	rattle_dealloc@PLT
289:
	testb	%bpl, %bpl
	je	287b
	testq	%r15, %r15
	je	287b
	movq	%rbx, %rdi
	callq	rattle_dealloc@PLT
	jmp	287b
290:
	cmpq	$0, 120(%rsp)
	je	291f
	movq	336(%rsp), %rdi
	callq	rattle_dealloc@PLT
291:
	movq	384(%rsp), %r13
	testq	%r13, %r13
	movq	696(%rsp), %r14
	movq	352(%rsp), %r15
	je	294f
	movq	%r15, %rbx
	jmp	293f
	.p2align	4
292:
	addq	$48, %rbx
	decq	%r13
	je	294f
293:
	cmpb	$0, (%rbx)
	je	292b
	cmpq	$0, 24(%rbx)
	je	292b
	movq	8(%rbx), %rdi
	callq	rattle_dealloc@PLT
	jmp	292b
294:
	movzbl	144(%rsp), %ebx
	cmpq	$0, 392(%rsp)
	je	295f
	movq	%r15, %rdi
	callq	rattle_dealloc@PLT
295:
	cmpq	$0, 400(%rsp)
	je	296f
	movq	%r14, %rdi
	callq	rattle_dealloc@PLT
296:
	movq	$1, (%r12)
	movq	%rbx, 8(%r12)
	movaps	48(%rsp), %xmm0
	movups	%xmm0, 16(%r12)
	movq	104(%rsp), %rax
	jmp	325f
297:
	movq	%r12, %r15
	movq	1552(%rsp), %r12
	movq	1560(%rsp), %rax
	movq	%rax, 64(%rsp)
	movq	1568(%rsp), %rax
	movq	%rax, 152(%rsp)
	movq	1584(%rsp), %rax
	movq	%rax, 104(%rsp)
	movups	1576(%rsp), %xmm0
	movaps	%xmm0, 448(%rsp)
	leaq	.Lcf324260551e(%rip), %r8
	leaq	1472(%rsp), %rdi
	movl	$10, %r9d
	movq	%rbx, %rsi
	movq	%r15, %rdx
	movq	%rbp, %rcx
	callq	"mime_tool::directories::line_file::read_lines::<#a396a1851f6c60ad>"
	movq	1480(%rsp), %rax
	movq	%rax, 48(%rsp)
	cmpb	$0, 1472(%rsp)
	je	326f
	movq	%r13, 88(%rsp)
	movaps	1488(%rsp), %xmm0
	movaps	%xmm0, 448(%rsp)
	movq	1504(%rsp), %rax
	movq	%rax, 8(%rsp)
	xorps	%xmm0, %xmm0
	movaps	%xmm0, 816(%rsp)
	testq	%r12, %r12
	je	301f
	movq	144(%rsp), %r15
	jmp	299f
298:
	addq	$96, %r15
	decq	%r12
	je	301f
299:
	movzbl	48(%r15), %r13d
	movq	56(%r15), %rbx
	movq	72(%r15), %rbp
	cmpb	$0, (%r15)
	je	300f
	cmpq	$0, 24(%r15)
	je	300f
	movq	8(%r15), %rdi
	callq	rattle_dealloc@PLT
300:
	testb	%r13b, %r13b
	je	298b
	testq	%rbp, %rbp
	je	298b
	movq	%rbx, %rdi
	callq	rattle_dealloc@PLT
	jmp	298b
301:
	cmpq	$0, 64(%rsp)
	je	302f
	movq	144(%rsp), %rdi
	callq	rattle_dealloc@PLT
302:
	cmpq	$0, 104(%rsp)
	je	303f
	movq	152(%rsp), %rdi
	callq	rattle_dealloc@PLT
303:
	movdqa	32(%rsp), %xmm0
	movq	%xmm0, %rax
	movq	%rax, 64(%rsp)
	testq	%rax, %rax
	je	309f
	xorl	%r12d, %r12d
	jmp	305f
304:
	incq	%r12
	cmpq	64(%rsp), %r12
	je	309f
305:
	movq	%r12, %rax
	shlq	$4, %rax
	leaq	(%rax,%rax,4), %rax
	movq	56(%r14,%rax), %r15
	movq	64(%r14,%rax), %rbp
	movq	72(%r14,%rax), %r13
	cmpb	$0, 8(%r14,%rax)
	je	306f
	cmpq	$0, 32(%r14,%rax)
	je	306f
	movq	16(%r14,%rax), %rdi
	callq	rattle_dealloc@PLT
306:
	testq	%rbp, %rbp
	je	308f
	movq	%r15, %rbx
	.p2align	4
307:
	movups	80(%rbx), %xmm0
	movaps	%xmm0, 272(%rsp)
	movups	64(%rbx), %xmm0
	movaps	%xmm0, 256(%rsp)
	movdqu	(%rbx), %xmm0
	movdqu	16(%rbx), %xmm1
	movdqu	32(%rbx), %xmm2
	movups	48(%rbx), %xmm3
	movaps	%xmm3, 240(%rsp)
	movdqa	%xmm2, 224(%rsp)
	movdqa	%xmm1, 208(%rsp)
	movdqa	%xmm0, 192(%rsp)
	leaq	192(%rsp), %rdi
	callq	"mime_text::mime_base++magic++matchlet++Matchlet+Destruct::drop"
	addq	$96, %rbx
	decq	%rbp
	jne	307b
308:
	testq	%r13, %r13
	je	304b
	movq	%r15, %rdi
	callq	rattle_dealloc@PLT
	jmp	304b
309:
	movdqa	32(%rsp), %xmm0
	pextrq	$1, %xmm0, %rax
	testq	%rax, %rax
	movq	88(%rsp), %r12
	je	310f
	movq	%r14, %rdi
	callq	rattle_dealloc@PLT
310:
	movq	304(%rsp), %r13
	testq	%r13, %r13
	movq	96(%rsp), %r15
	movq	160(%rsp), %r14
	je	313f
	movq	%r14, %rbx
	jmp	312f
311:
	addq	$48, %rbx
	decq	%r13
	je	313f
312:
	cmpb	$0, (%rbx)
	je	311b
	cmpq	$0, 24(%rbx)
	je	311b
	movq	8(%rbx), %rdi
	callq	rattle_dealloc@PLT
	jmp	311b
313:
	cmpq	$0, 376(%rsp)
	je	314f
	movq	%r14, %rdi
	callq	rattle_dealloc@PLT
314:
	testq	%r15, %r15
	je	318f
	movq	336(%rsp), %rax
	leaq	80(%rax), %r14
	jmp	316f
315:
	addq	$104, %r14
	movq	%r13, %r15
	decq	%r15
	je	318f
316:
	movq	%r15, %r13
	movzbl	-24(%r14), %ebp
	movq	-16(%r14), %rbx
	movq	(%r14), %r15
	cmpb	$0, -72(%r14)
	je	317f
	cmpq	$0, -48(%r14)
	je	317f
	movq	-64(%r14), %rdi
	callq	rattle_dealloc@PLT
317:
	testb	%bpl, %bpl
	je	315b
	testq	%r15, %r15
	je	315b
	movq	%rbx, %rdi
	callq	rattle_dealloc@PLT
	jmp	315b
318:
	cmpq	$0, 120(%rsp)
	je	319f
	movq	336(%rsp), %rdi
	callq	rattle_dealloc@PLT
319:
	movq	384(%rsp), %r13
	testq	%r13, %r13
	movq	696(%rsp), %r14
	movq	352(%rsp), %r15
	je	322f
	movq	%r15, %rbx
	jmp	321f
320:
	addq	$48, %rbx
	decq	%r13
	je	322f
321:
	cmpb	$0, (%rbx)
	je	320b
	cmpq	$0, 24(%rbx)
	je	320b
	movq	8(%rbx), %rdi
	callq	rattle_dealloc@PLT
	jmp	320b
322:
	movzbl	48(%rsp), %ebx
	cmpq	$0, 392(%rsp)
	je	323f
	movq	%r15, %rdi
	callq	rattle_dealloc@PLT
323:
	cmpq	$0, 400(%rsp)
	je	324f
	movq	%r14, %rdi
	callq	rattle_dealloc@PLT
324:
	movq	$1, (%r12)
	movq	%rbx, 8(%r12)
	movaps	448(%rsp), %xmm0
	movups	%xmm0, 16(%r12)
	movq	8(%rsp), %rax
325:
	movq	%rax, 32(%r12)
	leaq	40(%r12), %rdi
	movl	$264, %edx
	xorl	%esi, %esi
	callq	memset@PLT
	movdqa	816(%rsp), %xmm0
	movdqu	%xmm0, 304(%r12)
	jmp	99b
326:
	movq	1488(%rsp), %rax
	movq	%rax, 80(%rsp)
	movq	1496(%rsp), %rax
	movq	%rax, 8(%rsp)
	movq	1504(%rsp), %rax
	movq	%rax, 128(%rsp)
	movq	1520(%rsp), %rax
	movq	%rax, 416(%rsp)
	movups	1512(%rsp), %xmm0
	movaps	%xmm0, 624(%rsp)
	leaq	.L9dcb29949991(%rip), %r8
	leaq	1408(%rsp), %rdi
	movl	$5, %r9d
	movq	%rbx, %rsi
	movq	%r15, %rdx
	movq	%rbp, %rcx
	callq	"mime_tool::directories::line_file::read_lines::<#8e88f010607fa174>"
	movq	%rbx, %rsi
	movq	1416(%rsp), %rbx
	cmpb	$0, 1408(%rsp)
	je	329f
	movaps	1424(%rsp), %xmm0
	movaps	%xmm0, 448(%rsp)
	movq	1440(%rsp), %rax
	movq	%rax, 624(%rsp)
	xorps	%xmm0, %xmm0
	movaps	%xmm0, 816(%rsp)
	movq	48(%rsp), %rax
	movq	%rax, 1376(%rsp)
	movq	80(%rsp), %rax
	movq	%rax, 1384(%rsp)
	movq	8(%rsp), %rax
	movq	%rax, 1392(%rsp)
	leaq	1376(%rsp), %rdi
	callq	"std_alloc::vec::Vec::drop::<#00910116450e14d9>"
	cmpq	$0, 416(%rsp)
	je	327f
	movq	128(%rsp), %rdi
	callq	rattle_dealloc@PLT
327:
	movzbl	%bl, %ebx
	movq	144(%rsp), %rax
	movq	%rax, 1344(%rsp)
	movq	%r12, 1352(%rsp)
	movq	64(%rsp), %rax
	movq	%rax, 1360(%rsp)
	leaq	1344(%rsp), %rdi
	callq	"std_alloc::vec::Vec::drop::<#00910116450e14d9>"
	cmpq	$0, 104(%rsp)
	movq	696(%rsp), %r15
	movq	352(%rsp), %r12
	movq	384(%rsp), %rbp
	je	328f
	movq	152(%rsp), %rdi
	callq	rattle_dealloc@PLT
328:
	movq	%r14, 1712(%rsp)
	movaps	32(%rsp), %xmm0
	movups	%xmm0, 1720(%rsp)
	leaq	1712(%rsp), %rdi
	callq	"std_alloc::vec::Vec::drop::<#19687a60d315e203>"
	movq	160(%rsp), %rax
	movq	%rax, 1312(%rsp)
	movq	304(%rsp), %rax
	movq	%rax, 1320(%rsp)
	movq	376(%rsp), %rax
	movq	%rax, 1328(%rsp)
	leaq	1312(%rsp), %rdi
	callq	"std_alloc::vec::Vec::drop::<#0f47a7c1cd4b426f>"
	movq	336(%rsp), %rax
	movq	%rax, 1280(%rsp)
	movq	96(%rsp), %rax
	movq	%rax, 1288(%rsp)
	movq	120(%rsp), %rax
	movq	%rax, 1296(%rsp)
	leaq	1280(%rsp), %rdi
	callq	"std_alloc::vec::Vec::drop::<#6d65fad926a67069>"
	movq	%r12, 1248(%rsp)
	movq	%rbp, 1256(%rsp)
	movq	392(%rsp), %rax
	movq	%rax, 1264(%rsp)
	leaq	1248(%rsp), %rdi
	callq	"std_alloc::vec::Vec::drop::<#0f47a7c1cd4b426f>"
	cmpq	$0, 400(%rsp)
	je	334f
	movq	%r15, %rdi
	jmp	333f
329:
	movq	1424(%rsp), %rax
	movq	%rax, 184(%rsp)
	movq	1432(%rsp), %rax
	movq	%rax, 24(%rsp)
	movq	1440(%rsp), %rax
	movq	%rax, 176(%rsp)
	movq	1456(%rsp), %rax
	movq	%rax, 328(%rsp)
	movups	1448(%rsp), %xmm0
	movaps	%xmm0, 704(%rsp)
	leaq	.L0049c4eb9448(%rip), %r8
	leaq	1616(%rsp), %rdi
	movl	$13, %r9d
	movq	%r15, %rdx
	movq	%rbp, %rcx
	callq	"mime_tool::directories::line_file::read_lines::<#8e88f010607fa174>"
	movq	1624(%rsp), %r15
	cmpb	$0, 1616(%rsp)
	je	336f
	movaps	1632(%rsp), %xmm0
	movaps	%xmm0, 448(%rsp)
	movq	1648(%rsp), %rax
	movq	%rax, 624(%rsp)
	xorps	%xmm0, %xmm0
	movaps	%xmm0, 816(%rsp)
	movq	%rbx, 1216(%rsp)
	movq	184(%rsp), %rax
	movq	%rax, 1224(%rsp)
	movq	24(%rsp), %rax
	movq	%rax, 1232(%rsp)
	leaq	1216(%rsp), %rdi
	callq	"std_alloc::vec::Vec::drop::<#00910116450e14d9>"
	cmpq	$0, 328(%rsp)
	movq	352(%rsp), %rbp
	je	330f
	movq	176(%rsp), %rdi
	callq	rattle_dealloc@PLT
330:
	movq	48(%rsp), %rax
	movq	%rax, 1184(%rsp)
	movq	80(%rsp), %rax
	movq	%rax, 1192(%rsp)
	movq	8(%rsp), %rax
	movq	%rax, 1200(%rsp)
	leaq	1184(%rsp), %rdi
	callq	"std_alloc::vec::Vec::drop::<#00910116450e14d9>"
	cmpq	$0, 416(%rsp)
	je	331f
	movq	128(%rsp), %rdi
	callq	rattle_dealloc@PLT
331:
	movzbl	%r15b, %ebx
	movq	144(%rsp), %rax
	movq	%rax, 1152(%rsp)
	movq	%r12, 1160(%rsp)
	movq	64(%rsp), %rax
	movq	%rax, 1168(%rsp)
	leaq	1152(%rsp), %rdi
	callq	"std_alloc::vec::Vec::drop::<#00910116450e14d9>"
	cmpq	$0, 104(%rsp)
	je	332f
	movq	152(%rsp), %rdi
	callq	rattle_dealloc@PLT
332:
	movq	%r14, 1680(%rsp)
	movaps	32(%rsp), %xmm0
	movups	%xmm0, 1688(%rsp)
	leaq	1680(%rsp), %rdi
	callq	"std_alloc::vec::Vec::drop::<#19687a60d315e203>"
	movq	160(%rsp), %rax
	movq	%rax, 1120(%rsp)
	movq	304(%rsp), %rax
	movq	%rax, 1128(%rsp)
	movq	376(%rsp), %rax
	movq	%rax, 1136(%rsp)
	leaq	1120(%rsp), %rdi
	callq	"std_alloc::vec::Vec::drop::<#0f47a7c1cd4b426f>"
	movq	336(%rsp), %rax
	movq	%rax, 1088(%rsp)
	movq	96(%rsp), %rax
	movq	%rax, 1096(%rsp)
	movq	120(%rsp), %rax
	movq	%rax, 1104(%rsp)
	leaq	1088(%rsp), %rdi
	callq	"std_alloc::vec::Vec::drop::<#6d65fad926a67069>"
	movq	%rbp, 1056(%rsp)
	movq	384(%rsp), %rax
	movq	%rax, 1064(%rsp)
	movq	392(%rsp), %rax
	movq	%rax, 1072(%rsp)
	leaq	1056(%rsp), %rdi
	callq	"std_alloc::vec::Vec::drop::<#0f47a7c1cd4b426f>"
	cmpq	$0, 400(%rsp)
	je	334f
	movq	696(%rsp), %rdi
333:
	callq	rattle_dealloc@PLT
334:
	movq	$1, (%r13)
	movq	%rbx, 8(%r13)
	movaps	448(%rsp), %xmm0
	movups	%xmm0, 16(%r13)
	movq	624(%rsp), %rax
	jmp	274b
335:
	pxor	%xmm0, %xmm0
	movdqa	%xmm0, 208(%rsp)
	movdqa	%xmm0, 192(%rsp)
	leaq	.L036fffc6ae9d(%rip), %rcx
	movl	$9, %r8d
	xorl	%r9d, %r9d
	jmp	365f
336:
	movq	1648(%rsp), %rax
	movq	$0, (%r13)
	movq	336(%rsp), %rcx
	movq	%rcx, 8(%r13)
	movq	96(%rsp), %rcx
	movq	%rcx, 16(%r13)
	movq	120(%rsp), %rcx
	movq	%rcx, 24(%r13)
	movq	352(%rsp), %rcx
	movq	%rcx, 32(%r13)
	movq	384(%rsp), %rcx
	movq	%rcx, 40(%r13)
	movq	392(%rsp), %rcx
	movq	%rcx, 48(%r13)
	movq	696(%rsp), %rcx
	movq	%rcx, 56(%r13)
	movq	800(%rsp), %rcx
	movq	%rcx, 64(%r13)
	movq	400(%rsp), %rcx
	movq	%rcx, 72(%r13)
	movq	%r14, 80(%r13)
	movaps	32(%rsp), %xmm0
	movups	%xmm0, 88(%r13)
	movq	160(%rsp), %rcx
	movq	%rcx, 104(%r13)
	movq	304(%rsp), %rcx
	movq	%rcx, 112(%r13)
	movq	376(%rsp), %rcx
	movq	%rcx, 120(%r13)
	movq	144(%rsp), %rcx
	movq	%rcx, 128(%r13)
	movq	%r12, 136(%r13)
	movq	64(%rsp), %rcx
	movq	%rcx, 144(%r13)
	movq	152(%rsp), %rcx
	movq	%rcx, 152(%r13)
	movaps	448(%rsp), %xmm0
	movups	%xmm0, 160(%r13)
	movq	48(%rsp), %rcx
	movq	%rcx, 176(%r13)
	movq	80(%rsp), %rcx
	movq	%rcx, 184(%r13)
	movq	8(%rsp), %rcx
	movq	%rcx, 192(%r13)
	movq	128(%rsp), %rcx
	movq	%rcx, 200(%r13)
	movaps	624(%rsp), %xmm0
	movups	%xmm0, 208(%r13)
	movq	%rbx, 224(%r13)
	movq	184(%rsp), %rcx
	movq	%rcx, 232(%r13)
	movq	24(%rsp), %rcx
	movq	%rcx, 240(%r13)
	movq	176(%rsp), %rcx
	movq	%rcx, 248(%r13)
	movaps	704(%rsp), %xmm0
	movups	%xmm0, 256(%r13)
	movq	%r15, 272(%r13)
	movaps	1632(%rsp), %xmm0
	movups	%xmm0, 280(%r13)
	movq	%rax, 296(%r13)
	movdqu	1656(%rsp), %xmm0
	movdqu	%xmm0, 304(%r13)
	jmp	99b
337:
	movb	$1, %al
	movq	%rax, 32(%rsp)
338:
	movq	$0, 8(%rsp)
	movb	$1, %al
339:
	movq	%rax, 48(%rsp)
340:
	movq	480(%rsp), %rbx
	movq	488(%rsp), %r12
	movq	496(%rsp), %rax
	movq	%rax, 64(%rsp)
	testq	%r12, %r12
	je	344f
	leaq	80(%rbx), %r13
	jmp	342f
341:
	addq	$88, %r13
	decq	%r12
	je	344f
342:
	cmpb	$0, -72(%r13)
	jne	341b
	movzbl	-24(%r13), %r15d
	movq	-16(%r13), %r14
	movq	(%r13), %rbp
	cmpq	$0, -32(%r13)
	je	343f
	movq	-48(%r13), %rdi
	callq	rattle_dealloc@PLT
343:
	testb	%r15b, %r15b
	je	341b
	testq	%rbp, %rbp
	je	341b
	movq	%r14, %rdi
	callq	rattle_dealloc@PLT
	jmp	341b
344:
	cmpq	$0, 64(%rsp)
	je	345f
	movq	%rbx, %rdi
	callq	rattle_dealloc@PLT
345:
	movq	88(%rsp), %r13
	movq	168(%rsp), %r12
	movq	8(%rsp), %rbx
346:
	cmpl	$1, 80(%rsp)
	setne	%al
	cmpq	$0, 152(%rsp)
	sete	%cl
	orb	%al, %cl
	je	347f
	movq	%rbx, 64(%rsp)
	jmp	218b
347:
	movq	448(%rsp), %rdi
	callq	rattle_dealloc@PLT
	movq	%rbx, 64(%rsp)
	jmp	218b
348:
	movb	$1, %al
	movq	%rax, 32(%rsp)
	movq	$0, 64(%rsp)
	movb	$1, %al
	movq	%rax, 48(%rsp)
	jmp	218b
349:
	xorl	%eax, %eax
	cmpb	$2, 193(%rsp)
	setne	%dl
	movq	64(%rsp), %rcx
	cmoveq	%rax, %rcx
	movq	%rcx, 64(%rsp)
	movq	%rdx, 32(%rsp)
	leal	(%rdx,%rdx), %eax
	movq	%rax, 48(%rsp)
	jmp	218b
350:
	movq	%rsi, 472(%rsp)
	movq	752(%rsp), %rax
	movq	%rax, 32(%rsp)
	testq	%rax, %rax
	sete	23(%rsp)
	movq	%rsp, %rcx
	movq	%rcx, 160(%rsp)
	movq	%rcx, 528(%rsp)
	pxor	%xmm0, %xmm0
	movdqu	%xmm0, 536(%rsp)
	movq	%rdx, 848(%rsp)
	testq	%rdx, %rdx
	je	383f
	movq	%rsp, %r14
	movq	$0, 304(%rsp)
	xorl	%r12d, %r12d
	jmp	353f
351:
	leaq	(%rcx,%rcx,2), %rax
	shlq	$4, %rax
	movq	%r13, (%r14,%rax)
	movq	%rbx, 8(%r14,%rax)
	movdqu	%xmm1, 16(%r14,%rax)
	movdqa	192(%rsp), %xmm0
	movdqu	%xmm0, 32(%r14,%rax)
	incq	%rcx
	movq	%rcx, 304(%rsp)
	movq	%rcx, 536(%rsp)
352:
	cmpq	%rbp, %r12
	leaq	1(%r12), %r12
	je	382f
353:
	leaq	(%r12,%r12,4), %rcx
	shlq	$4, %rcx
	movq	472(%rsp), %rsi
	leaq	(%rsi,%rcx), %rax
	movq	56(%rsi,%rcx), %rdx
	movq	64(%rsi,%rcx), %rcx
	addq	$8, %rdx
	incq	%rcx
354:
	decq	%rcx
	je	352b
	cmpb	$2, (%rdx)
	leaq	88(%rdx), %rdx
	jne	354b
	pxor	%xmm0, %xmm0
	movdqa	%xmm0, 224(%rsp)
	movdqa	%xmm0, 208(%rsp)
	movdqa	%xmm0, 192(%rsp)
	movq	$0, 240(%rsp)
	cmpb	$0, 8(%rax)
	je	355f
	movq	16(%rax), %rsi
	addq	$24, %rax
	jmp	356f
355:
	leaq	16(%rax), %rsi
	addq	$48, %rax
356:
	movq	(%rax), %rdx
	leaq	192(%rsp), %rdi
	callq	"mime_base::names::TypeName::new"
	cmpb	$0, 192(%rsp)
	jne	385f
	movzbl	200(%rsp), %r13d
	movq	208(%rsp), %rbx
	movq	224(%rsp), %r15
	movdqu	216(%rsp), %xmm1
	leaq	232(%rsp), %rax
	movdqu	(%rax), %xmm0
	movdqa	%xmm0, 640(%rsp)
	movdqa	%xmm0, 192(%rsp)
	movq	304(%rsp), %rcx
	cmpq	%rcx, 544(%rsp)
	jne	351b
	movdqa	%xmm1, 64(%rsp)
	leaq	528(%rsp), %rdi
	callq	"std_alloc::vec::Vec::grow_amortized::<#3a45404b3fcd1c9c>"
	testb	%al, %al
	je	420f
	movq	528(%rsp), %r14
	movq	536(%rsp), %rcx
	movdqa	64(%rsp), %xmm1
	jmp	351b
357:
	leaq	.Lf2c7ae87a724(%rip), %rcx
	jmp	363f
358:
	leaq	.L5b8add496c03(%rip), %rcx
	movl	$11, %r8d
	jmp	364f
359:
	leaq	.Le3bb24733db3(%rip), %rcx
	movl	$10, %r8d
	jmp	364f
360:
	leaq	.L6d755b90110b(%rip), %rcx
	jmp	364f
361:
	leaq	.Lf70c8939a4a7(%rip), %rcx
	movl	$10, %r8d
	jmp	364f
362:
	leaq	.L75f850512cff(%rip), %rcx
363:
	movl	$8, %r8d
364:
	movq	104(%rsp), %rbx
365:
	leaq	192(%rsp), %rdi
	movq	960(%rsp), %rsi
	movq	%rbx, %rdx
	callq	"mime_tool::directories::magic_file::faulty_at"
	movzbl	192(%rsp), %r14d
	movdqu	200(%rsp), %xmm0
	movdqa	%xmm0, 32(%rsp)
	movq	216(%rsp), %rax
	movq	%rax, 160(%rsp)
	movq	112(%rsp), %rdi
	jmp	259b
366:
	cmpq	$0, 856(%rsp)
	je	367f
	cmpq	$0, 936(%rsp)
	je	367f
	movq	840(%rsp), %rdi
	callq	rattle_dealloc@PLT
367:
	movq	%r12, %r14
368:
	movups	80(%r14), %xmm0
	movaps	%xmm0, 272(%rsp)
	movups	64(%r14), %xmm0
	movaps	%xmm0, 256(%rsp)
	movdqu	(%r14), %xmm0
	movdqu	16(%r14), %xmm1
	movdqu	32(%r14), %xmm2
	movups	48(%r14), %xmm3
	movaps	%xmm3, 240(%rsp)
	movdqa	%xmm2, 224(%rsp)
	movdqa	%xmm1, 208(%rsp)
	movdqa	%xmm0, 192(%rsp)
	leaq	192(%rsp), %rdi
	callq	"mime_text::mime_base++magic++matchlet++Matchlet+Destruct::drop"
	addq	$96, %r14
	decq	%rbx
	jne	368b
	testq	%rbp, %rbp
	je	369f
	movq	%r12, %rdi
	callq	rattle_dealloc@PLT
369:
	movq	928(%rsp), %rax
	decq	%rax
	testq	%rax, %rax
	je	370f
	movq	928(%rsp), %rdx
	addq	1024(%rsp), %rdx
	movq	472(%rsp), %rdi
	movq	944(%rsp), %rsi
	callq	"std_alloc::vec::opened::drop_run::<#2dfd7e2cc785f18c>"
370:
	cmpb	$0, 23(%rsp)
	jne	371f
	movq	472(%rsp), %rdi
	callq	rattle_dealloc@PLT
371:
	movq	736(%rsp), %r14
	movq	744(%rsp), %rcx
	movq	752(%rsp), %rax
	movq	%rax, 64(%rsp)
	movq	%rcx, 32(%rsp)
	testq	%rcx, %rcx
	je	377f
	xorl	%r13d, %r13d
	jmp	373f
372:
	incq	%r13
	cmpq	32(%rsp), %r13
	je	377f
373:
	movq	%r13, %rax
	shlq	$4, %rax
	leaq	(%rax,%rax,4), %rax
	movq	56(%r14,%rax), %r12
	movq	64(%r14,%rax), %r15
	movq	72(%r14,%rax), %rbp
	cmpb	$0, 8(%r14,%rax)
	je	374f
	cmpq	$0, 32(%r14,%rax)
	je	374f
	movq	16(%r14,%rax), %rdi
	callq	rattle_dealloc@PLT
374:
	testq	%r15, %r15
	je	376f
	movq	%r12, %rbx
375:
	movups	80(%rbx), %xmm0
	movaps	%xmm0, 272(%rsp)
	movups	64(%rbx), %xmm0
	movaps	%xmm0, 256(%rsp)
	movdqu	(%rbx), %xmm0
	movdqu	16(%rbx), %xmm1
	movdqu	32(%rbx), %xmm2
	movups	48(%rbx), %xmm3
	movaps	%xmm3, 240(%rsp)
	movdqa	%xmm2, 224(%rsp)
	movdqa	%xmm1, 208(%rsp)
	movdqa	%xmm0, 192(%rsp)
	leaq	192(%rsp), %rdi
	callq	"mime_text::mime_base++magic++matchlet++Matchlet+Destruct::drop"
	addq	$96, %rbx
	decq	%r15
	jne	375b
376:
	testq	%rbp, %rbp
	je	372b
	movq	%r12, %rdi
	callq	rattle_dealloc@PLT
	jmp	372b
377:
	cmpq	$0, 64(%rsp)
	je	378f
	movq	%r14, %rdi
	callq	rattle_dealloc@PLT
378:
	movq	480(%rsp), %rbx
	movq	488(%rsp), %r15
	movq	496(%rsp), %r14
	testq	%r15, %r15
	je	381f
	leaq	16(%rbx), %r12
	jmp	380f
379:
	addq	$112, %r12
	decq	%r15
	je	381f
380:
	cmpb	$0, -8(%r12)
	je	379b
	movups	80(%r12), %xmm0
	movaps	%xmm0, 272(%rsp)
	movups	64(%r12), %xmm0
	movaps	%xmm0, 256(%rsp)
	movdqu	(%r12), %xmm0
	movdqu	16(%r12), %xmm1
	movdqu	32(%r12), %xmm2
	movups	48(%r12), %xmm3
	movaps	%xmm3, 240(%rsp)
	movdqa	%xmm2, 224(%rsp)
	movdqa	%xmm1, 208(%rsp)
	movdqa	%xmm0, 192(%rsp)
	leaq	192(%rsp), %rdi
	callq	"mime_text::mime_base++magic++matchlet++Matchlet+Destruct::drop"
	jmp	379b
381:
	testq	%r14, %r14
	movq	88(%rsp), %r13
	movq	312(%rsp), %rbp
	movq	112(%rsp), %rdi
	jne	251b
	jmp	252b
382:
	movq	528(%rsp), %rax
	movq	%rax, 160(%rsp)
	movq	544(%rsp), %rax
	movq	%rax, 376(%rsp)
	xorl	%eax, %eax
	movq	88(%rsp), %r13
	movq	304(%rsp), %rcx
	movq	472(%rsp), %rsi
	movq	848(%rsp), %rdx
	jmp	174b
383:
	movb	$1, %al
	xorl	%edx, %edx
	movq	$0, 376(%rsp)
	xorl	%ecx, %ecx
	movq	88(%rsp), %r13
	movq	472(%rsp), %rsi
	jmp	174b
384:
	movq	%rbp, 8(%rsp)
	movb	$1, %al
	movq	%rax, 32(%rsp)
	movb	$3, %al
	jmp	339b
385:
	pxor	%xmm0, %xmm0
	movdqa	%xmm0, 640(%rsp)
	movq	544(%rsp), %rbx
	movq	304(%rsp), %r15
	testq	%r15, %r15
	je	388f
	movq	%r14, %r12
	jmp	387f
386:
	addq	$48, %r12
	decq	%r15
	je	388f
387:
	cmpb	$0, (%r12)
	je	386b
	cmpq	$0, 24(%r12)
	je	386b
	movq	8(%r12), %rdi
	callq	rattle_dealloc@PLT
	jmp	386b
388:
	testq	%rbx, %rbx
	je	390f
	movq	%r14, %rdi
389:
	callq	rattle_dealloc@PLT
390:
	movq	472(%rsp), %rdi
	xorl	%esi, %esi
	movq	848(%rsp), %rdx
	callq	"std_alloc::vec::opened::drop_run::<#2dfd7e2cc785f18c>"
	cmpq	$0, 32(%rsp)
	movq	88(%rsp), %r13
	movq	312(%rsp), %rbp
	movq	168(%rsp), %r12
	movq	112(%rsp), %rdi
	je	258b
	movq	472(%rsp), %rdi
	jmp	256b
391:
	movq	%rcx, 8(%rsp)
	jmp	340b
392:
	movb	$1, %al
	movq	%rax, 32(%rsp)
	movq	%rbp, 8(%rsp)
	xorb	$1, %r8b
	addb	%r8b, %r8b
	addb	$3, %r8b
	movq	%r8, 48(%rsp)
	jmp	340b
393:
	movb	$1, %al
	movq	%rax, 32(%rsp)
	movq	%rbp, 8(%rsp)
	movb	$5, %al
	jmp	339b
394:
	movb	$1, %al
	movq	%rax, 32(%rsp)
	movq	%rbp, 8(%rsp)
	movb	$6, %al
	jmp	339b
395:
	testq	%r15, %r15
	sete	%bl
	cmpq	$0, 24(%rsp)
	sete	%al
	testb	%bpl, %bpl
	je	407f
	orb	%al, %bl
	cmpb	$0, 120(%rsp)
	je	396f
	cmpq	$0, 136(%rsp)
	je	396f
	movq	96(%rsp), %rdi
	callq	rattle_dealloc@PLT
396:
	testb	%bl, %bl
	jne	91b
	movq	48(%rsp), %rdi
	jmp	90b
397:
	cmpq	$0, 80(%rsp)
	je	398f
	cmpq	$0, 152(%rsp)
	je	398f
	movq	%rbp, %rdi
	callq	rattle_dealloc@PLT
398:
	testq	%r12, %r12
	je	402f
	leaq	80(%r13), %r14
	jmp	400f
399:
	addq	$88, %r14
	decq	%r12
	je	402f
400:
	cmpb	$0, -72(%r14)
	jne	399b
	movzbl	-24(%r14), %ebp
	movq	-16(%r14), %rbx
	movq	(%r14), %r15
	cmpq	$0, -32(%r14)
	je	401f
	movq	-48(%r14), %rdi
	callq	rattle_dealloc@PLT
401:
	testb	%bpl, %bpl
	je	399b
	testq	%r15, %r15
	je	399b
	movq	%rbx, %rdi
	callq	rattle_dealloc@PLT
	jmp	399b
402:
	cmpq	$0, 32(%rsp)
	je	403f
	movq	%r13, %rdi
	callq	rattle_dealloc@PLT
403:
	movq	736(%rsp), %rbx
	movq	744(%rsp), %rdx
	movq	752(%rsp), %r14
	testq	%rdx, %rdx
	je	404f
	movq	%rbx, %rdi
	xorl	%esi, %esi
	callq	"std_alloc::vec::opened::drop_run::<#2dfd7e2cc785f18c>"
404:
	testq	%r14, %r14
	je	405f
	movq	%rbx, %rdi
	callq	rattle_dealloc@PLT
405:
	movq	88(%rsp), %r13
	movq	312(%rsp), %rbp
	movq	168(%rsp), %r12
	jmp	257b
406:
	movq	%rsi, 8(%rsp)
	jmp	340b
407:
	cmpb	$0, 352(%rsp)
	je	91b
	cmpq	$0, 336(%rsp)
	je	91b
	movq	120(%rsp), %rdi
	jmp	90b
408:
	movq	%rdi, 8(%rsp)
	jmp	340b
409:
	movb	$4, %al
	movq	%rax, 48(%rsp)
	movq	%rsi, 8(%rsp)
	jmp	340b
410:
	testb	%r13b, %r13b
	je	412f
	cmpq	$0, 136(%rsp)
	je	411f
	movq	8(%rsp), %rdi
	callq	rattle_dealloc@PLT
411:
	cmpq	$0, 32(%rsp)
	je	412f
	cmpq	$0, 624(%rsp)
	je	412f
	movq	128(%rsp), %rdi
	callq	rattle_dealloc@PLT
412:
	movq	480(%rsp), %rbx
	movq	488(%rsp), %r12
	movq	496(%rsp), %rax
	movq	%rax, 32(%rsp)
	testq	%r12, %r12
	je	416f
	leaq	80(%rbx), %r13
	jmp	414f
413:
	addq	$88, %r13
	decq	%r12
	je	416f
414:
	cmpb	$0, -72(%r13)
	jne	413b
	movzbl	-24(%r13), %r15d
	movq	-16(%r13), %r14
	movq	(%r13), %rbp
	cmpq	$0, -32(%r13)
	je	415f
	movq	-48(%r13), %rdi
	callq	rattle_dealloc@PLT
415:
	testb	%r15b, %r15b
	je	413b
	testq	%rbp, %rbp
	je	413b
	movq	%r14, %rdi
	callq	rattle_dealloc@PLT
	jmp	413b
416:
	cmpq	$0, 32(%rsp)
	je	417f
	movq	%rbx, %rdi
	callq	rattle_dealloc@PLT
417:
	movq	$0, 32(%rsp)
	movq	$0, 48(%rsp)
	xorl	%ebx, %ebx
	movq	88(%rsp), %r13
	movq	168(%rsp), %r12
	jmp	346b
418:
	cmpq	$0, 136(%rsp)
	je	419f
	movq	8(%rsp), %rdi
	callq	rattle_dealloc@PLT
419:
	movq	$0, 48(%rsp)
	movq	$0, 32(%rsp)
	movq	$0, 8(%rsp)
	jmp	340b
420:
	testq	%r13, %r13
	je	421f
	testq	%r15, %r15
	je	421f
	movq	%rbx, %rdi
	callq	rattle_dealloc@PLT
421:
	movq	528(%rsp), %rbx
	movq	536(%rsp), %r12
	movq	544(%rsp), %r14
	testq	%r12, %r12
	je	424f
	movq	%rbx, %r13
	jmp	423f
422:
	addq	$48, %r13
	decq	%r12
	je	424f
423:
	cmpb	$0, (%r13)
	je	422b
	cmpq	$0, 24(%r13)
	je	422b
	movq	8(%r13), %rdi
	callq	rattle_dealloc@PLT
	jmp	422b
424:
	testq	%r14, %r14
	je	390b
	movq	%rbx, %rdi
	jmp	389b
425:
	.size	"mime_tool::directories::read_directory::<#2e1b2a3647f851f7>", 425b-"mime_tool::directories::read_directory::<#2e1b2a3647f851f7>"
	.section	.rodata,"a",@progbits
	.p2align	2, 0x0
426:
	.long	221b-426b
	.long	360b-426b
	.long	358b-426b
	.long	359b-426b
	.long	357b-426b
	.long	361b-426b
	.long	362b-426b

	.text
	.p2align	4
	.type	"mime_tool::explain::aliases::kinds_of",@function
"mime_tool::explain::aliases::kinds_of":
	pushq	%rbp
	pushq	%r15
	pushq	%r14
	pushq	%r13
	pushq	%r12
	pushq	%rbx
	subq	$72, %rsp
	movq	%rdx, 32(%rsp)
	movq	%rsi, 56(%rsp)
	movq	%rdi, 40(%rsp)
	movq	%rsp, %rax
	movq	%rax, 48(%rsp)
	movq	%rax, 8(%rsp)
	xorps	%xmm0, %xmm0
	movups	%xmm0, 16(%rsp)
	testq	%r8, %r8
	je	19f
	movq	%r8, %r12
	movq	%rcx, %r15
	cmpq	$0, 32(%rsp)
	je	13f
	xorl	%r13d, %r13d
	movq	%r12, 64(%rsp)
	jmp	4f
	.p2align	4
1:
	movq	16(%r12), %rbp
	movq	24(%r12), %rbx
2:
	movq	16(%rsp), %rax
	cmpq	%rax, 24(%rsp)
	movq	64(%rsp), %r12
	je	12f
3:
	movq	%rax, %rcx
	shlq	$4, %rcx
	movq	48(%rsp), %rdx
	movq	%rbp, (%rdx,%rcx)
	movq	%rbx, 8(%rdx,%rcx)
	incq	%rax
	movq	%rax, 16(%rsp)
	incq	%r13
	cmpq	%r12, %r13
	je	19f
4:
	leaq	(,%r13,2), %rax
	addq	%r13, %rax
	shlq	$4, %rax
	movq	8(%r15,%rax), %rbp
	movq	16(%r15,%rax), %rbx
	movq	56(%rsp), %r12
	movq	32(%rsp), %r14
	cmpq	$4, %rbx
	jae	7f
	movq	56(%rsp), %r12
	movq	32(%rsp), %rax
	movq	%rax, %rcx
	testq	%rbx, %rbx
	jne	11f
	.p2align	4
5:
	cmpq	$0, 8(%r12)
	je	1b
	addq	$32, %r12
	decq	%rcx
	jne	5b
	xorl	%ebx, %ebx
	jmp	2b
	.p2align	4
6:
	addq	$32, %r12
	decq	%r14
	je	2b
7:
	cmpq	%rbx, 8(%r12)
	jne	6b
	movq	(%r12), %rdi
	movl	(%rdi), %eax
	cmpl	(%rbp), %eax
	jne	6b
	movq	%rbx, %rsi
	movq	%rbp, %rdx
	callq	"core::cmp::slices::groups_equal::<i8,31'core::cmp::numbers::U8PartialEq{}>"
	testb	%al, %al
	je	6b
	jmp	1b
	.p2align	4
8:
	xorl	%edx, %edx
9:
	cmpq	%rbx, %rdx
	jae	1b
10:
	addq	$32, %r12
	decq	%rax
	je	2b
11:
	cmpq	%rbx, 8(%r12)
	jne	10b
	movq	(%r12), %rcx
	movzbl	(%rcx), %edx
	cmpb	(%rbp), %dl
	jne	8b
	cmpq	$1, %rbx
	je	1b
	movzbl	1(%rcx), %esi
	movl	$1, %edx
	cmpb	1(%rbp), %sil
	jne	9b
	cmpq	$2, %rbx
	je	1b
	movzbl	2(%rcx), %ecx
	movl	$2, %edx
	cmpb	2(%rbp), %cl
	jne	9b
	jmp	1b
12:
	leaq	8(%rsp), %rdi
	movl	$1, %esi
	callq	"std_alloc::vec::Vec::grow_amortized::<#a658b02dc117231d>"
	testb	%al, %al
	je	17f
	movq	8(%rsp), %rax
	movq	%rax, 48(%rsp)
	movq	16(%rsp), %rax
	jmp	3b
13:
	movq	16(%rsp), %rax
	addq	$16, %r15
	movq	%rsp, %rcx
	jmp	16f
14:
	movq	8(%rsp), %rcx
	movq	16(%rsp), %rax
	.p2align	4
15:
	movq	%rax, %rdx
	shlq	$4, %rdx
	movq	%rbx, (%rcx,%rdx)
	movq	%r14, 8(%rcx,%rdx)
	incq	%rax
	movq	%rax, 16(%rsp)
	addq	$48, %r15
	decq	%r12
	je	19f
16:
	movq	-8(%r15), %rbx
	movq	(%r15), %r14
	cmpq	%rax, 24(%rsp)
	jne	15b
	leaq	8(%rsp), %rdi
	movl	$1, %esi
	callq	"std_alloc::vec::Vec::grow_amortized::<#a658b02dc117231d>"
	testb	%al, %al
	jne	14b
17:
	cmpq	$0, 24(%rsp)
	je	18f
	movq	8(%rsp), %rdi
	callq	rattle_dealloc@PLT
18:
	movq	40(%rsp), %rax
	movb	$1, (%rax)
	xorps	%xmm0, %xmm0
	movups	%xmm0, 8(%rax)
	movq	$0, 24(%rax)
	jmp	20f
19:
	movq	40(%rsp), %rcx
	movb	$0, (%rcx)
	movq	8(%rsp), %rax
	movq	%rax, 8(%rcx)
	movq	16(%rsp), %rax
	movq	%rax, 16(%rcx)
	movq	24(%rsp), %rax
	movq	%rax, 24(%rcx)
20:
	addq	$72, %rsp
	popq	%rbx
	popq	%r12
	popq	%r13
	popq	%r14
	popq	%r15
	popq	%rbp
	retq
21:
	.size	"mime_tool::explain::aliases::kinds_of", 21b-"mime_tool::explain::aliases::kinds_of"

	.section	.rodata.cst16,"aM",@progbits,16
	.p2align	4, 0x0
1:
	.zero	16,47
2:
	.byte	0,1,2,3,4,5,6,7,8,9,10,11,12,13,14,15
3:
	.byte	16,17,18,19,20,21,22,23,24,25,26,27,28,29,30,31
4:
	.byte	42,42,42,42,42,42,42,42
	.zero	1
	.zero	1
	.zero	1
	.zero	1
	.zero	1
	.zero	1
	.zero	1
	.zero	1
5:
	.byte	63,63,63,63,63,63,63,63
	.zero	1
	.zero	1
	.zero	1
	.zero	1
	.zero	1
	.zero	1
	.zero	1
	.zero	1
6:
	.byte	92,92,92,92,92,92,92,92
	.zero	1
	.zero	1
	.zero	1
	.zero	1
	.zero	1
	.zero	1
	.zero	1
	.zero	1
7:
	.byte	91,91,91,91,91,91,91,91
	.zero	1
	.zero	1
	.zero	1
	.zero	1
	.zero	1
	.zero	1
	.zero	1
	.zero	1
8:
	.zero	16,93
9:
	.byte	3,2,1,0,7,6,5,4,11,10,9,8,15,14,13,12
10:
	.short	288,288,288,288,288,288,288,288
	.text
	.p2align	4
	.type	"mime_tool::explain::explain_lists::<#2e1b2a3647f851f7>",@function
"mime_tool::explain::explain_lists::<#2e1b2a3647f851f7>":
	pushq	%rbp
	pushq	%r15
	pushq	%r14
	pushq	%r13
	pushq	%r12
	pushq	%rbx
	subq	$3072, %rsp
	movq	$0, (%rsp)
	subq	$2280, %rsp
	movq	%rcx, 264(%rsp)
	movq	%rdx, 544(%rsp)
	movq	%rsi, 304(%rsp)
	movq	%rdi, 576(%rsp)
	movzbl	(%r9), %eax
	movb	%al, 47(%rsp)
	movzbl	1(%r9), %eax
	movb	%al, 79(%rsp)
	movzbl	2(%r9), %r13d
	movzbl	3(%r9), %eax
	movb	%al, 96(%rsp)
	movzwl	6(%r9), %eax
	movl	%eax, 300(%rsp)
	movzbl	8(%r9), %eax
	movb	%al, 46(%rsp)
	leaq	40(%rsp), %rax
	movq	%rax, 1248(%rsp)
	pxor	%xmm0, %xmm0
	movdqu	%xmm0, 1256(%rsp)
	movq	48(%r8), %rbx
	movq	56(%r8), %r14
	movl	$0, 595(%rsp)
	movl	$0, 592(%rsp)
	testq	%r14, %r14
	movq	%r8, 184(%rsp)
	je	14f
	leaq	599(%rsp), %r15
	xorl	%esi, %esi
	jmp	13f
11:
	movq	1248(%rsp), %rax
	movq	1256(%rsp), %rsi
	movq	184(%rsp), %r8
	.p2align	4
12:
	leaq	(%rsi,%rsi,2), %rcx
	shlq	$4, %rcx
	movb	%r12b, (%rax,%rcx)
	movups	592(%rsp), %xmm0
	movups	%xmm0, 1(%rax,%rcx)
	movq	607(%rsp), %rdx
	movq	%rdx, 16(%rax,%rcx)
	movdqa	400(%rsp), %xmm0
	movdqu	%xmm0, 24(%rax,%rcx)
	movb	%bpl, 40(%rax,%rcx)
	movl	$0, 41(%rax,%rcx)
	movl	$0, 44(%rax,%rcx)
	incq	%rsi
	movq	%rsi, 1256(%rsp)
	addq	$48, %rbx
	decq	%r14
	je	15f
13:
	movzbl	(%rbx), %r12d
	movzbl	40(%rbx), %ebp
	movups	8(%rbx), %xmm0
	movups	%xmm0, (%r15)
	movups	24(%rbx), %xmm0
	movaps	%xmm0, 400(%rsp)
	cmpq	%rsi, 1264(%rsp)
	jne	12b
	leaq	1248(%rsp), %rdi
	callq	"std_alloc::vec::Vec::grow_amortized::<#56d67e81838936ab>"
	testb	%al, %al
	jne	11b
	jmp	23f
14:
	xorl	%esi, %esi
15:
	movb	%r13b, 80(%rsp)
	movl	$0, 339(%rsp)
	movl	$0, 336(%rsp)
	movl	$0, 595(%rsp)
	movl	$0, 592(%rsp)
	cmpq	$0, 80(%r8)
	je	19f
	leaq	599(%rsp), %rdi
	leaq	343(%rsp), %r9
	movl	$26, %r12d
	leaq	407(%rsp), %r10
	xorl	%ebx, %ebx
	jmp	18f
16:
	movq	1256(%rsp), %rsi
	movq	184(%rsp), %r8
	leaq	599(%rsp), %rdi
	leaq	343(%rsp), %r9
	leaq	407(%rsp), %r10
	.p2align	4
17:
	movq	1248(%rsp), %rax
	leaq	(%rsi,%rsi,2), %rcx
	shlq	$4, %rcx
	movb	%r13b, (%rax,%rcx)
	movdqu	336(%rsp), %xmm0
	movdqu	%xmm0, 1(%rax,%rcx)
	movq	351(%rsp), %rdx
	movq	%rdx, 16(%rax,%rcx)
	movq	%rbp, 24(%rax,%rcx)
	movq	%r14, 32(%rax,%rcx)
	movb	%r15b, 40(%rax,%rcx)
	movl	$0, 41(%rax,%rcx)
	movl	$0, 44(%rax,%rcx)
	incq	%rsi
	movq	%rsi, 1256(%rsp)
	incq	%rbx
	movl	$0, 595(%rsp)
	movl	$0, 592(%rsp)
	addq	$32, %r12
	cmpq	80(%r8), %rbx
	jae	19f
18:
	movq	72(%r8), %rax
	movq	96(%r8), %rbp
	movzbl	-1(%rax,%r12), %r13d
	addq	-10(%rax,%r12), %rbp
	movzbl	-2(%rax,%r12), %r14d
	movzbl	(%rax,%r12), %r15d
	movups	-26(%rax,%r12), %xmm0
	movups	%xmm0, (%rdi)
	movq	607(%rsp), %rax
	movq	%rax, 415(%rsp)
	movl	592(%rsp), %eax
	movl	%eax, 400(%rsp)
	movzwl	596(%rsp), %eax
	movw	%ax, 404(%rsp)
	movzbl	598(%rsp), %eax
	movb	%al, 406(%rsp)
	movq	599(%rsp), %rax
	movq	%rax, 407(%rsp)
	movzbl	607(%rsp), %eax
	movb	%al, 415(%rsp)
	movups	(%r10), %xmm0
	movups	%xmm0, (%r9)
	cmpq	%rsi, 1264(%rsp)
	jne	17b
	leaq	1248(%rsp), %rdi
	callq	"std_alloc::vec::Vec::grow_amortized::<#56d67e81838936ab>"
	testb	%al, %al
	jne	16b
	jmp	23f
19:
	movq	120(%r8), %rbx
	movq	128(%r8), %r14
	movl	$0, 595(%rsp)
	movl	$0, 592(%rsp)
	testq	%r14, %r14
	je	25f
	leaq	599(%rsp), %r15
	movzbl	80(%rsp), %r13d
	jmp	22f
20:
	movq	1256(%rsp), %rsi
	.p2align	4
21:
	movq	1248(%rsp), %rdx
	leaq	(%rsi,%rsi,2), %rax
	shlq	$4, %rax
	movb	%r12b, (%rdx,%rax)
	movups	592(%rsp), %xmm0
	movups	%xmm0, 1(%rdx,%rax)
	movq	607(%rsp), %rcx
	movq	%rcx, 16(%rdx,%rax)
	movdqa	400(%rsp), %xmm0
	movdqu	%xmm0, 24(%rdx,%rax)
	movb	%bpl, 40(%rdx,%rax)
	movq	%rdx, %rbp
	movl	$0, 44(%rdx,%rax)
	movl	$0, 41(%rdx,%rax)
	incq	%rsi
	movq	%rsi, 1256(%rsp)
	addq	$48, %rbx
	decq	%r14
	je	26f
22:
	movzbl	(%rbx), %r12d
	movzbl	40(%rbx), %ebp
	movups	8(%rbx), %xmm0
	movups	%xmm0, (%r15)
	movdqu	24(%rbx), %xmm0
	movdqa	%xmm0, 400(%rsp)
	cmpq	%rsi, 1264(%rsp)
	jne	21b
	leaq	1248(%rsp), %rdi
	callq	"std_alloc::vec::Vec::grow_amortized::<#56d67e81838936ab>"
	testb	%al, %al
	jne	20b
23:
	cmpq	$0, 1264(%rsp)
	je	24f
	movq	1248(%rsp), %rdi
	callq	rattle_dealloc@PLT
24:
	movq	576(%rsp), %rax
	movw	$1, (%rax)
	movq	$2, 8(%rax)
	pxor	%xmm0, %xmm0
	movdqu	%xmm0, 16(%rax)
	movq	$0, 32(%rax)
	jmp	531f
25:
	movq	1248(%rsp), %rbp
	movzbl	80(%rsp), %r13d
26:
	movq	1264(%rsp), %rax
	movq	%rax, 1160(%rsp)
	movzbl	96(%rsp), %eax
	addb	%al, %al
	andb	$2, %al
	movzbl	%al, %eax
	testb	$1, %r13b
	movl	$1, %ecx
	cmovel	%eax, %ecx
	testb	$1, 79(%rsp)
	movl	$3, %eax
	cmovel	%ecx, %eax
	movl	%eax, 316(%rsp)
	xorl	%edx, %edx
	cmpq	$0, 5416(%rsp)
	je	525f
	movq	%rsi, 584(%rsp)
	movq	264(%rsp), %rax
	shrq	$2, %rax
	movq	%rax, 568(%rsp)
	movl	300(%rsp), %ecx
	testb	$1, %cl
	movl	$10, %eax
	cmovnel	%edx, %eax
	movl	%eax, 388(%rsp)
	leaq	.L0791a6fb5224(%rip), %rax
	leaq	.L226a292f443d(%rip), %rsi
	cmovneq	%rax, %rsi
	movzwl	%cx, %eax
	andl	$1, %eax
	movl	$2, %ecx
	subq	%rax, %rcx
	movq	%rcx, 392(%rsp)
	movq	%rsi, 1152(%rsp)
	movzbl	(%rsi), %eax
	movb	%al, 215(%rsp)
	movl	$0, 296(%rsp)
	movq	%rbp, 88(%rsp)
	jmp	31f
27:
	xorl	%ebp, %ebp
	xorl	%ebx, %ebx
	pxor	%xmm1, %xmm1
	testq	%r12, %r12
	je	29f
28:
	movq	%r14, %rdi
	callq	rattle_dealloc@PLT
	pxor	%xmm1, %xmm1
29:
	xorl	%r14d, %r14d
	movq	160(%rsp), %rdx
	testb	%bpl, %bpl
	movq	88(%rsp), %rbp
	jne	528f
30:
	incq	%rdx
	cmpq	5416(%rsp), %rdx
	je	526f
31:
	movq	%rdx, 160(%rsp)
	movq	%rdx, %rax
	shlq	$4, %rax
	movq	5408(%rsp), %rcx
	movq	(%rcx,%rax), %rdx
	movq	8(%rcx,%rax), %rcx
	movq	5424(%rsp), %rdi
	movq	5432(%rsp), %rsi
	callq	"mime_tool::words::name_of"
	movq	%rax, %rbx
	movq	%rdx, 136(%rsp)
	pxor	%xmm0, %xmm0
	movdqa	%xmm0, 1184(%rsp)
	movdqa	%xmm0, 1168(%rsp)
	movq	$0, 1200(%rsp)
	movl	$0, 260(%rsp)
	testb	$1, 47(%rsp)
	movq	%rax, 248(%rsp)
	jne	32f
	leaq	1168(%rsp), %rdi
	movq	%rbx, %rsi
	movq	136(%rsp), %rdx
	callq	"mime_tool::desk::StreamsDesk::open::<#6c31bac265adaac4>"
	movl	1176(%rsp), %eax
	movl	%eax, 260(%rsp)
	cmpb	$0, 1168(%rsp)
	jne	527f
	movzbl	1172(%rsp), %eax
	testl	%eax, %eax
	je	32f
	cmpl	$1, %eax
	jne	41f
	movb	$3, %al
	xorl	%r14d, %r14d
	movzbl	%al, %eax
	leaq	536f(%rip), %rcx
	movslq	(%rcx,%rax,4), %rax
	addq	%rcx, %rax
	xorl	%r15d, %r15d
	xorl	%r12d, %r12d
	jmpq	*%rax
	.p2align	4
32:
	testb	$1, 79(%rsp)
	movq	184(%rsp), %rsi
	jne	43f
	movq	136(%rsp), %rax
	movq	%rax, %rcx
	cmpq	$32, %rax
	jb	38f
33:
	movdqu	-32(%rbx,%rax), %xmm1
	movdqu	-16(%rbx,%rax), %xmm2
	movdqa	1b(%rip), %xmm0
	pcmpeqb	%xmm0, %xmm1
	pmovmskb	%xmm1, %edx
	pcmpeqb	%xmm0, %xmm2
	pmovmskb	%xmm2, %ecx
	shll	$16, %ecx
	orl	%edx, %ecx
	je	35f
	leaq	-32(%rax), %rdx
	movl	%ecx, %esi
	.p2align	4
34:
	bsrq	%rsi, %rcx
	leaq	(%rcx,%rdx), %rdi
	cmpb	$47, (%rbx,%rdi)
	je	42f
	movq	$-2, %rdi
	rolq	%cl, %rdi
	andq	%rdi, %rsi
	jne	34b
35:
	movq	%rax, %rdx
	.p2align	4
36:
	movq	%rdx, %rcx
	leaq	-32(%rdx), %rax
	cmpq	$128, %rax
	jb	37f
	movdqu	-160(%rbx,%rcx), %xmm1
	movdqu	-144(%rbx,%rcx), %xmm2
	movdqu	-128(%rbx,%rcx), %xmm3
	movdqu	-112(%rbx,%rcx), %xmm4
	pcmpeqb	%xmm0, %xmm1
	pcmpeqb	%xmm0, %xmm2
	pcmpeqb	%xmm0, %xmm3
	por	%xmm1, %xmm3
	pcmpeqb	%xmm0, %xmm4
	por	%xmm2, %xmm4
	movdqu	-80(%rbx,%rcx), %xmm1
	movdqu	-96(%rbx,%rcx), %xmm2
	pcmpeqb	%xmm0, %xmm2
	pcmpeqb	%xmm0, %xmm1
	movdqu	-48(%rbx,%rcx), %xmm5
	movdqu	-64(%rbx,%rcx), %xmm6
	pcmpeqb	%xmm0, %xmm6
	por	%xmm2, %xmm6
	por	%xmm3, %xmm6
	pcmpeqb	%xmm0, %xmm5
	por	%xmm1, %xmm5
	por	%xmm4, %xmm5
	por	%xmm6, %xmm5
	pmovmskb	%xmm5, %esi
	leaq	-128(%rcx), %rdx
	testl	%esi, %esi
	je	36b
37:
	cmpq	$31, %rax
	ja	33b
	addq	$-32, %rcx
	movq	184(%rsp), %rsi
	movq	136(%rsp), %rax
38:
	incq	%rcx
	.p2align	4
39:
	cmpq	$1, %rcx
	je	88f
	leaq	-1(%rcx), %rdi
	cmpb	$47, -2(%rbx,%rcx)
	movq	%rdi, %rcx
	jne	39b
	subq	%rdi, %rax
	cmpq	$4096, %rax
	jbe	43f
40:
	pxor	%xmm1, %xmm1
	movb	$2, %bl
	movb	$1, %r13b
	xorl	%r14d, %r14d
	xorl	%r15d, %r15d
	xorl	%r12d, %r12d
	testb	$1, 47(%rsp)
	je	212f
	jmp	213f
41:
	movb	$1, %al
	xorl	%r14d, %r14d
	movzbl	%al, %eax
	leaq	536f(%rip), %rcx
	movslq	(%rcx,%rax,4), %rax
	addq	%rcx, %rax
	xorl	%r15d, %r15d
	xorl	%r12d, %r12d
	jmpq	*%rax
42:
	incq	%rdi
	movq	184(%rsp), %rsi
	movq	136(%rsp), %rax
	subq	%rdi, %rax
	cmpq	$4096, %rax
	ja	40b
	.p2align	4
43:
	testb	$1, 47(%rsp)
	je	45f
	movb	$1, 45(%rsp)
	xorl	%r9d, %r9d
	movq	$0, 232(%rsp)
	xorl	%r8d, %r8d
	movq	264(%rsp), %rax
44:
	pxor	%xmm0, %xmm0
	movdqa	%xmm0, 48(%rsp)
	movq	$0, 64(%rsp)
	testb	$1, 79(%rsp)
	je	53f
	leaq	.L22d5119de29e(%rip), %rcx
	movq	%rcx, 128(%rsp)
	xorl	%r12d, %r12d
	jmp	93f
	.p2align	4
45:
	movq	152(%rsi), %rax
	testq	%rax, %rax
	je	61f
	movq	144(%rsi), %rcx
	movq	%rsi, %rdx
	movq	168(%rsi), %rsi
	movq	176(%rdx), %rdi
	xorl	%r8d, %r8d
	xorl	%edx, %edx
	xorl	%r9d, %r9d
	jmp	50f
	.p2align	4
46:
	xorl	%ebx, %ebx
	xorl	%r14d, %r14d
47:
	movq	%rbx, %r15
	shlq	$6, %r14
	movl	(%r11,%r14), %r12d
	movl	4(%r11,%r14), %ebx
	addq	%r12, %rbx
	addq	24(%r11,%r14), %rbx
	cmpq	%rbx, %r15
	cmovaq	%r15, %rbx
48:
	cmpq	%rbx, %rdx
	cmovbeq	%rbx, %rdx
49:
	addq	%r10, %r8
	incq	%r9
	cmpq	%rax, %r9
	je	52f
50:
	movq	%r9, %r10
	shlq	$5, %r10
	movq	24(%rcx,%r10), %r11
	movq	%rdi, %r10
	subq	%r8, %r10
	cmpq	%r11, %r10
	cmovaeq	%r11, %r10
	testq	%r10, %r10
	je	49b
	movq	%r8, %r11
	shlq	$6, %r11
	addq	%rsi, %r11
	cmpq	$1, %r10
	je	46b
	movq	%r10, %r15
	andq	$-2, %r15
	xorl	%ebx, %ebx
	movq	%r11, %r12
	xorl	%r14d, %r14d
	.p2align	4
51:
	movl	(%r12), %r13d
	movl	4(%r12), %ebp
	addq	%r13, %rbp
	addq	24(%r12), %rbp
	cmpq	%rbp, %rbx
	cmovaq	%rbx, %rbp
	movl	64(%r12), %r13d
	movl	68(%r12), %ebx
	addq	%r13, %rbx
	addq	88(%r12), %rbx
	cmpq	%rbx, %rbp
	cmovaq	%rbp, %rbx
	addq	$2, %r14
	subq	$-128, %r12
	cmpq	%r14, %r15
	jne	51b
	testb	$1, %r10b
	jne	47b
	jmp	48b
52:
	cmpq	$129, %rdx
	movl	$128, %r14d
	cmovaeq	%rdx, %r14
	jmp	62f
53:
	movq	136(%rsp), %rdx
	movq	%rdx, %rcx
	cmpq	$32, %rdx
	jb	59f
	movq	%rdx, %rax
54:
	movdqu	-32(%rbx,%rax), %xmm2
	movdqu	-16(%rbx,%rax), %xmm3
	movdqa	1b(%rip), %xmm1
	pcmpeqb	%xmm1, %xmm2
	pmovmskb	%xmm2, %edx
	pcmpeqb	%xmm1, %xmm3
	pmovmskb	%xmm3, %ecx
	shll	$16, %ecx
	orl	%edx, %ecx
	je	56f
	leaq	-32(%rax), %rdx
	movl	%ecx, %edi
	.p2align	4
55:
	bsrq	%rdi, %rcx
	leaq	(%rcx,%rdx), %rsi
	cmpb	$47, (%rbx,%rsi)
	je	89f
	movq	$-2, %rsi
	rolq	%cl, %rsi
	andq	%rsi, %rdi
	jne	55b
56:
	movq	%rax, %rdx
	.p2align	4
57:
	movq	%rdx, %rcx
	leaq	-32(%rdx), %rax
	cmpq	$128, %rax
	jb	58f
	movdqu	-160(%rbx,%rcx), %xmm2
	movdqu	-144(%rbx,%rcx), %xmm3
	movdqu	-128(%rbx,%rcx), %xmm4
	movdqu	-112(%rbx,%rcx), %xmm5
	pcmpeqb	%xmm1, %xmm2
	pcmpeqb	%xmm1, %xmm3
	pcmpeqb	%xmm1, %xmm4
	por	%xmm2, %xmm4
	pcmpeqb	%xmm1, %xmm5
	por	%xmm3, %xmm5
	movdqu	-80(%rbx,%rcx), %xmm2
	movdqu	-96(%rbx,%rcx), %xmm3
	pcmpeqb	%xmm1, %xmm3
	pcmpeqb	%xmm1, %xmm2
	movdqu	-48(%rbx,%rcx), %xmm6
	movdqu	-64(%rbx,%rcx), %xmm7
	pcmpeqb	%xmm1, %xmm7
	por	%xmm3, %xmm7
	por	%xmm4, %xmm7
	pcmpeqb	%xmm1, %xmm6
	por	%xmm2, %xmm6
	por	%xmm5, %xmm6
	por	%xmm7, %xmm6
	pmovmskb	%xmm6, %esi
	leaq	-128(%rcx), %rdx
	testl	%esi, %esi
	je	57b
58:
	cmpq	$31, %rax
	ja	54b
	addq	$-32, %rcx
	movq	264(%rsp), %rax
59:
	incq	%rcx
	.p2align	4
60:
	cmpq	$1, %rcx
	je	91f
	leaq	-1(%rcx), %rsi
	cmpb	$47, -2(%rbx,%rcx)
	movq	%rsi, %rcx
	jne	60b
	jmp	92f
61:
	movl	$128, %r14d
62:
	leaq	40(%rsp), %rcx
	pxor	%xmm0, %xmm0
	leaq	408(%rsp), %rax
	movdqu	%xmm0, (%rax)
	movq	%rcx, 168(%rsp)
	movq	%rcx, 400(%rsp)
	leaq	1248(%rsp), %rdi
	movq	$0, 80(%rsp)
	movl	$4096, %edx
	xorl	%esi, %esi
	callq	memset@PLT
	cmpq	$65536, %r14
	movl	$65536, %eax
	cmovbq	%r14, %rax
	movq	%rax, 200(%rsp)
	movl	$1000, %eax
	movq	%rax, 96(%rsp)
	xorl	%ebp, %ebp
	xorl	%r12d, %r12d
	xorl	%r15d, %r15d
	xorl	%r13d, %r13d
	movq	%r14, 152(%rsp)
	jmp	65f
	.p2align	4
63:
	leaq	1248(%rsp), %rsi
	movq	%r14, %rdx
	callq	memmove@PLT
64:
	movq	%rbx, 168(%rsp)
	addq	%r14, %r13
	movq	%r13, 408(%rsp)
	movq	%r15, 80(%rsp)
	movq	%r15, 416(%rsp)
	movq	%r13, %r15
	shrq	$16, %r15
	movq	%r13, %r12
	shrq	$32, %r12
	movq	%r13, %rbp
	shrq	$48, %rbp
	movq	152(%rsp), %r14
	cmpq	%r14, %r13
	jae	90f
65:
	subq	%r13, %r14
	cmpq	$4096, %r14
	movl	$4096, %eax
	cmovaeq	%rax, %r14
	pxor	%xmm0, %xmm0
	movdqa	%xmm0, 336(%rsp)
	leaq	336(%rsp), %rdi
	leaq	1248(%rsp), %rdx
	movl	260(%rsp), %esi
	movq	%r14, %rcx
	callq	"mime_lookup::content::UntoldContent::read_piece::<13'std::fs::File,17'std::fs::FileRead{}>"
	cmpb	$0, 336(%rsp)
	je	67f
	cmpb	$1, 337(%rsp)
	movq	96(%rsp), %rax
	je	86f
	testl	%eax, %eax
	je	86f
	leal	-1(%rax), %ebx
	leaq	1248(%rsp), %rsi
	movl	260(%rsp), %edi
	movq	%r14, %rdx
	callq	read@PLT
	testq	%rax, %rax
	js	69f
66:
	cmpq	%r14, %rax
	cmovbq	%rax, %r14
	movl	%ebx, %eax
	testq	%r14, %r14
	jne	68f
	jmp	90f
	.p2align	4
67:
	movq	344(%rsp), %r14
	movq	96(%rsp), %rax
	testq	%r14, %r14
	je	90f
68:
	testq	%r13, %r13
	movq	%rax, 96(%rsp)
	jne	71f
	cmpq	$4096, %r14
	movq	88(%rsp), %rbp
	movq	80(%rsp), %r15
	jne	72f
	cmpq	%r15, 200(%rsp)
	ja	84f
	xorl	%r13d, %r13d
	movq	%r15, %rax
	subq	%r13, %rax
	cmpq	%rax, %r14
	jbe	73f
	jmp	85f
	.p2align	4
69:
	callq	rattle_errno@PLT
	leaq	592(%rsp), %rdi
	movl	%eax, %esi
	callq	"std_io::io::error::Error::from_raw_os_error"
	movq	592(%rsp), %rax
	shrq	$8, %rax
	movaps	2b(%rip), %xmm0
	movaps	%xmm0, 592(%rsp)
	movdqa	3b(%rip), %xmm0
	movdqa	%xmm0, 608(%rsp)
	movabsq	$2820983053732684064, %rcx
	movq	%rcx, 624(%rsp)
	movb	$40, 632(%rsp)
	cmpb	$41, %al
	jae	86f
	andl	$63, %eax
	cmpb	$35, 592(%rsp,%rax)
	movq	96(%rsp), %rax
	jne	86f
	testl	%ebx, %ebx
	je	86f
	addl	$-2, %eax
	movl	%eax, %ebx
	.p2align	4
70:
	leaq	1248(%rsp), %rsi
	movl	260(%rsp), %edi
	movq	%r14, %rdx
	callq	read@PLT
	testq	%rax, %rax
	jns	66b
	callq	rattle_errno@PLT
	leaq	592(%rsp), %rdi
	movl	%eax, %esi
	callq	"std_io::io::error::Error::from_raw_os_error"
	movq	592(%rsp), %rax
	shrq	$8, %rax
	movaps	2b(%rip), %xmm0
	movaps	%xmm0, 592(%rsp)
	movdqa	3b(%rip), %xmm0
	movdqa	%xmm0, 608(%rsp)
	movabsq	$2820983053732684064, %rcx
	movq	%rcx, 624(%rsp)
	movb	$40, 632(%rsp)
	cmpb	$41, %al
	jae	86f
	andl	$63, %eax
	subl	$1, %ebx
	setb	%cl
	cmpb	$35, 592(%rsp,%rax)
	jne	86f
	testb	%cl, %cl
	je	70b
	jmp	86f
	.p2align	4
71:
	movq	88(%rsp), %rbp
	movq	80(%rsp), %r15
72:
	movq	%r15, %rax
	subq	%r13, %rax
	cmpq	%rax, %r14
	ja	85f
73:
	movq	400(%rsp), %rbx
	leaq	(%rbx,%r13), %rdi
	movq	%rdi, %rax
	leaq	1248(%rsp), %rcx
	subq	%rcx, %rax
	cmpq	%r14, %rax
	jae	63b
	cmpq	$4, %r14
	jb	74f
	movq	%r13, %rax
	subq	%rcx, %rax
	addq	%rbx, %rax
	cmpq	$32, %rax
	jae	79f
74:
	xorl	%eax, %eax
75:
	movq	%r14, %rdx
	movq	%rax, %rcx
	andq	$3, %rdx
	je	77f
	movq	%rax, %rcx
	.p2align	4
76:
	movzbl	1248(%rsp,%rcx), %esi
	movb	%sil, (%rdi,%rcx)
	incq	%rcx
	decq	%rdx
	jne	76b
77:
	subq	%r14, %rax
	cmpq	$-4, %rax
	ja	64b
	leaq	(%rbx,%r13), %rax
	addq	$3, %rax
	.p2align	4
78:
	movzbl	1248(%rsp,%rcx), %edx
	movb	%dl, -3(%rax,%rcx)
	movzbl	1249(%rsp,%rcx), %edx
	movb	%dl, -2(%rax,%rcx)
	movzbl	1250(%rsp,%rcx), %edx
	movb	%dl, -1(%rax,%rcx)
	movzbl	1251(%rsp,%rcx), %edx
	movb	%dl, (%rax,%rcx)
	addq	$4, %rcx
	cmpq	%rcx, %r14
	jne	78b
	jmp	64b
79:
	cmpq	$32, %r14
	jae	80f
	xorl	%eax, %eax
	jmp	82f
80:
	movq	%r14, %rax
	andq	$-32, %rax
	leaq	(%rbx,%r13), %rcx
	addq	$16, %rcx
	xorl	%edx, %edx
	.p2align	4
81:
	movdqu	1248(%rsp,%rdx), %xmm0
	movdqu	1264(%rsp,%rdx), %xmm1
	movdqu	%xmm0, -16(%rcx,%rdx)
	movdqu	%xmm1, (%rcx,%rdx)
	addq	$32, %rdx
	cmpq	%rdx, %rax
	jne	81b
	cmpq	%rax, %r14
	je	64b
	testb	$28, %r14b
	je	75b
82:
	movq	%rax, %rcx
	movq	%r14, %rax
	andq	$-4, %rax
	.p2align	4
83:
	movl	1248(%rsp,%rcx), %edx
	movl	%edx, (%rdi,%rcx)
	addq	$4, %rcx
	cmpq	%rcx, %rax
	jne	83b
	cmpq	%rax, %r14
	je	64b
	jmp	75b
84:
	leaq	400(%rsp), %rdi
	movq	200(%rsp), %rsi
	callq	"std_alloc::vec::Vec::grow_amortized::<#06f9579a8fe94b13>"
	movq	416(%rsp), %r15
	testb	%al, %al
	je	353f
	movq	408(%rsp), %r13
	movq	%r15, %rax
	subq	%r13, %rax
	cmpq	%rax, %r14
	jbe	73b
85:
	leaq	400(%rsp), %rdi
	movq	%r14, %rsi
	callq	"std_alloc::vec::Vec::grow_amortized::<#06f9579a8fe94b13>"
	testb	%al, %al
	je	349f
	movq	408(%rsp), %r13
	movq	416(%rsp), %r15
	jmp	73b
86:
	cmpq	$0, 80(%rsp)
	je	87f
	movq	168(%rsp), %rdi
	callq	rattle_dealloc@PLT
87:
	pxor	%xmm1, %xmm1
	movb	$3, %bl
	movb	$1, %r13b
	xorl	%r14d, %r14d
	xorl	%r15d, %r15d
	xorl	%r12d, %r12d
	movq	88(%rsp), %rbp
	testb	$1, 47(%rsp)
	je	212f
	jmp	213f
88:
	xorl	%edi, %edi
	subq	%rdi, %rax
	cmpq	$4096, %rax
	ja	40b
	jmp	43b
89:
	incq	%rsi
	movq	264(%rsp), %rax
	jmp	92f
90:
	shlq	$48, %rbp
	movzwl	%r12w, %eax
	shlq	$32, %rax
	orq	%rbp, %rax
	shll	$16, %r15d
	orq	%rax, %r15
	movzwl	%r13w, %r8d
	orq	%r15, %r8
	cmpq	$0, 80(%rsp)
	sete	45(%rsp)
	movb	$1, %al
	movq	%rax, 232(%rsp)
	movq	184(%rsp), %rsi
	movq	264(%rsp), %rax
	movq	88(%rsp), %rbp
	movq	248(%rsp), %rbx
	movq	168(%rsp), %r9
	jmp	44b
91:
	xorl	%esi, %esi
92:
	leaq	(%rbx,%rsi), %rcx
	movq	%rcx, 128(%rsp)
	movq	136(%rsp), %r12
	subq	%rsi, %r12
	movq	184(%rsp), %rsi
93:
	movq	%r8, 552(%rsp)
	leaq	40(%rsp), %rcx
	movq	%rcx, 592(%rsp)
	leaq	600(%rsp), %rcx
	movdqu	%xmm0, (%rcx)
	cmpq	$0, 584(%rsp)
	movq	%r9, 168(%rsp)
	je	94f
	xorl	%edi, %edi
	movq	%r12, 176(%rsp)
	jmp	100f
94:
	leaq	40(%rsp), %rdx
	xorl	%r12d, %r12d
	movq	$0, 200(%rsp)
	movq	%rdx, %rcx
	movq	$0, 80(%rsp)
	xorl	%r13d, %r13d
	testb	$1, 47(%rsp)
	movq	%rcx, 96(%rsp)
	movq	%rdx, 152(%rsp)
	jne	201f
95:
	cmpq	$40, %rax
	movq	544(%rsp), %rdx
	movq	552(%rsp), %rbx
	movq	168(%rsp), %r14
	jb	532f
	cmpq	$268435456, %rax
	ja	532f
	cmpl	$33554688, (%rdx)
	jne	532f
	movq	%rax, %rcx
	movl	36(%rdx), %eax
	bswapl	%eax
	movq	%rdx, 400(%rsp)
	movq	%rcx, 408(%rsp)
	movq	%rdx, 416(%rsp)
	movq	%rcx, 424(%rsp)
	movl	$65538, 432(%rsp)
	movdqu	4(%rdx), %xmm0
	movdqa	9b(%rip), %xmm1
	pshufb	%xmm1, %xmm0
	movdqu	%xmm0, 436(%rsp)
	movdqu	20(%rdx), %xmm0
	pshufb	%xmm1, %xmm0
	movdqa	%xmm0, 272(%rsp)
	movdqu	%xmm0, 452(%rsp)
	movl	%eax, 468(%rsp)
	pxor	%xmm0, %xmm0
	leaq	408(%rsp), %rax
	movdqu	%xmm0, 112(%rax)
	movdqu	%xmm0, 96(%rax)
	movdqu	%xmm0, 80(%rax)
	movdqu	%xmm0, 64(%rax)
	movq	$0, 1784(%rsp)
	movdqa	%xmm0, 336(%rsp)
	movdqa	%xmm0, 352(%rsp)
	movq	$0, 368(%rsp)
	leaq	592(%rsp), %rdi
	movl	$512, %edx
	xorl	%esi, %esi
	callq	memset@PLT
	movdqa	10b(%rip), %xmm0
	movdqa	%xmm0, 592(%rsp)
	movdqa	%xmm0, 608(%rsp)
	movdqa	%xmm0, 624(%rsp)
	movdqa	%xmm0, 640(%rsp)
	movdqa	%xmm0, 656(%rsp)
	movdqa	%xmm0, 672(%rsp)
	movdqa	%xmm0, 688(%rsp)
	movdqa	%xmm0, 704(%rsp)
	movdqa	%xmm0, 720(%rsp)
	movdqa	%xmm0, 736(%rsp)
	movdqa	%xmm0, 752(%rsp)
	movdqa	%xmm0, 768(%rsp)
	movdqa	%xmm0, 784(%rsp)
	movdqa	%xmm0, 800(%rsp)
	movdqa	%xmm0, 816(%rsp)
	movdqa	%xmm0, 832(%rsp)
	movdqa	%xmm0, 848(%rsp)
	movdqa	%xmm0, 864(%rsp)
	movdqa	%xmm0, 880(%rsp)
	movdqa	%xmm0, 896(%rsp)
	movdqa	%xmm0, 912(%rsp)
	movdqa	%xmm0, 928(%rsp)
	movdqa	%xmm0, 944(%rsp)
	movdqa	%xmm0, 960(%rsp)
	movdqa	%xmm0, 976(%rsp)
	movdqa	%xmm0, 992(%rsp)
	movdqa	%xmm0, 1008(%rsp)
	movdqa	%xmm0, 1024(%rsp)
	movdqa	%xmm0, 1040(%rsp)
	movdqa	%xmm0, 1056(%rsp)
	movdqa	%xmm0, 1072(%rsp)
	movdqa	%xmm0, 1088(%rsp)
	testq	%rbx, %rbx
	je	184f
	cmpq	$288, %rbx
	movl	$288, %ecx
	cmovbq	%rbx, %rcx
	movq	%rcx, %rdx
	andq	$3, %rdx
	je	181f
	.p2align	4
96:
	leaq	-1(%rcx), %rax
	movzbl	-1(%r14,%rcx), %esi
	decl	%ecx
	movw	%cx, 592(%rsp,%rsi,2)
	movq	%rax, %rcx
	decq	%rdx
	jne	96b
	cmpq	$4, %rbx
	jae	182f
	jmp	184f
97:
	movq	88(%rsp), %rbp
	.p2align	4
98:
	movq	176(%rsp), %r12
99:
	movq	200(%rsp), %rdi
	incq	%rdi
	cmpq	584(%rsp), %rdi
	je	163f
100:
	leaq	(%rdi,%rdi,2), %rax
	shlq	$4, %rax
	movzbl	(%rbp,%rax), %ecx
	movb	%cl, 192(%rsp)
	movq	24(%rbp,%rax), %r14
	movq	32(%rbp,%rax), %r10
	movzbl	40(%rbp,%rax), %ecx
	movb	%cl, 144(%rsp)
	movzbl	%cl, %ecx
	movl	%ecx, 80(%rsp)
	movq	16(%rbp,%rax), %rcx
	movq	%rcx, 415(%rsp)
	movdqu	1(%rbp,%rax), %xmm0
	movdqa	%xmm0, 400(%rsp)
	movl	41(%rbp,%rax), %ecx
	movl	44(%rbp,%rax), %eax
	movl	%ecx, 336(%rsp)
	movl	%eax, 339(%rsp)
	movabsq	$1688849862361089, %rbx
	testq	%r10, %r10
	movq	%rdi, 200(%rsp)
	je	110f
	movzbl	(%r14), %ecx
	cmpl	$42, %ecx
	jne	103f
	leaq	-1(%r10), %rax
	cmpq	$8, %rax
	jb	101f
	movq	1(%r14), %xmm0
	movdqa	4b(%rip), %xmm1
	pcmpeqb	%xmm0, %xmm1
	movdqa	5b(%rip), %xmm2
	pcmpeqb	%xmm0, %xmm2
	por	%xmm1, %xmm2
	movdqa	6b(%rip), %xmm1
	pcmpeqb	%xmm0, %xmm1
	pcmpeqb	7b(%rip), %xmm0
	por	%xmm1, %xmm0
	por	%xmm2, %xmm0
	pmovmskb	%xmm0, %edx
	testb	%dl, %dl
	jne	103f
101:
	movl	$1, %edx
	.p2align	4
102:
	cmpq	%rdx, %r10
	je	152f
	movzbl	(%r14,%rdx), %esi
	incq	%rdx
	addl	$-42, %esi
	cmpl	$50, %esi
	ja	102b
	btq	%rsi, %rbx
	jae	102b
103:
	testq	%r12, %r12
	je	104f
	leal	-42(%rcx), %eax
	cmpl	$50, %eax
	ja	145f
	btq	%rax, %rbx
	jae	145f
104:
	movq	%r10, %rcx
	cmpq	$32, %r10
	jb	111f
	movq	%r10, %rax
105:
	movdqu	-32(%r14,%rax), %xmm1
	movdqu	-16(%r14,%rax), %xmm2
	movdqa	8b(%rip), %xmm0
	pcmpeqb	%xmm0, %xmm1
	pmovmskb	%xmm1, %edx
	pcmpeqb	%xmm0, %xmm2
	pmovmskb	%xmm2, %ecx
	shll	$16, %ecx
	orl	%edx, %ecx
	je	107f
	leaq	-32(%rax), %rdx
	movl	%ecx, %esi
	.p2align	4
106:
	bsrq	%rsi, %rcx
	leaq	(%rcx,%rdx), %r13
	cmpb	$93, (%r14,%r13)
	je	112f
	movq	$-2, %rdi
	rolq	%cl, %rdi
	andq	%rdi, %rsi
	jne	106b
107:
	movq	%rax, %rdx
	.p2align	4
108:
	movq	%rdx, %rcx
	leaq	-32(%rdx), %rax
	cmpq	$128, %rax
	jb	109f
	movdqu	-160(%r14,%rcx), %xmm1
	movdqu	-144(%r14,%rcx), %xmm2
	movdqu	-128(%r14,%rcx), %xmm3
	movdqu	-112(%r14,%rcx), %xmm4
	pcmpeqb	%xmm0, %xmm1
	pcmpeqb	%xmm0, %xmm2
	pcmpeqb	%xmm0, %xmm3
	por	%xmm1, %xmm3
	pcmpeqb	%xmm0, %xmm4
	por	%xmm2, %xmm4
	movdqu	-80(%r14,%rcx), %xmm1
	movdqu	-96(%r14,%rcx), %xmm2
	pcmpeqb	%xmm0, %xmm2
	pcmpeqb	%xmm0, %xmm1
	movdqu	-48(%r14,%rcx), %xmm5
	movdqu	-64(%r14,%rcx), %xmm6
	pcmpeqb	%xmm0, %xmm6
	por	%xmm2, %xmm6
	por	%xmm3, %xmm6
	pcmpeqb	%xmm0, %xmm5
	por	%xmm1, %xmm5
	por	%xmm4, %xmm5
	por	%xmm6, %xmm5
	pmovmskb	%xmm5, %esi
	leaq	-128(%rcx), %rdx
	testl	%esi, %esi
	je	108b
109:
	cmpq	$31, %rax
	ja	105b
	addq	$-32, %rcx
	jmp	111f
	.p2align	4
110:
	xorl	%ecx, %ecx
	.p2align	4
111:
	testq	%rcx, %rcx
	je	113f
	leaq	-1(%rcx), %r13
	cmpb	$93, -1(%r14,%rcx)
	movq	%r13, %rcx
	jne	111b
112:
	notq	%r13
	addq	%r10, %r13
	jmp	114f
	.p2align	4
113:
	movq	%r10, %r13
114:
	pxor	%xmm0, %xmm0
	movdqa	%xmm0, 1264(%rsp)
	movdqa	%xmm0, 1248(%rsp)
	movq	$0, 1280(%rsp)
	testq	%r10, %r10
	je	115f
	cmpb	$42, (%r14)
	jne	115f
	leaq	1(%r14), %rax
	movq	%rax, 96(%rsp)
	leaq	-1(%r10), %rdx
	xorl	%eax, %eax
	jmp	117f
	.p2align	4
115:
	movq	%r12, (%rsp)
	movl	80(%rsp), %r8d
	andl	$1, %r8d
	leaq	1248(%rsp), %rdi
	movq	%r14, %rsi
	movq	%r10, %rdx
	movq	%r13, %rcx
	movq	128(%rsp), %r9
	movq	%r10, %r15
	callq	"mime_base::matching::attempt::attempt"
	movq	%r15, %r10
	movzbl	1248(%rsp), %eax
	leaq	534f(%rip), %rcx
	movslq	(%rcx,%rax,4), %rax
	addq	%rcx, %rax
	jmpq	*%rax
116:
	movq	1256(%rsp), %rax
	movq	1264(%rsp), %rcx
	movq	%rcx, 96(%rsp)
	movq	1272(%rsp), %rdx
117:
	movq	128(%rsp), %rcx
	addq	%rax, %rcx
	movq	%rcx, 152(%rsp)
	subq	%rax, %r12
	cmpq	$8, %rdx
	jb	119f
118:
	movq	96(%rsp), %rax
	movq	(%rax), %xmm0
	movdqa	4b(%rip), %xmm1
	pcmpeqb	%xmm0, %xmm1
	movdqa	5b(%rip), %xmm2
	pcmpeqb	%xmm0, %xmm2
	por	%xmm1, %xmm2
	movdqa	6b(%rip), %xmm1
	pcmpeqb	%xmm0, %xmm1
	pcmpeqb	7b(%rip), %xmm0
	por	%xmm1, %xmm0
	por	%xmm2, %xmm0
	pmovmskb	%xmm0, %eax
	orl	$256, %eax
	rep		bsfl	%eax, %eax
	movq	%rdx, %rdi
	subq	%rax, %rdi
	jne	120f
	jmp	140f
	.p2align	4
119:
	xorl	%eax, %eax
	movq	%rdx, %rdi
	subq	%rax, %rdi
	je	140f
120:
	movq	96(%rsp), %rcx
	leaq	(%rcx,%rax), %rsi
	jmp	123f
	.p2align	4
121:
	xorl	%esi, %esi
	testq	%r9, %r9
	setne	%sil
	addq	%rsi, %rcx
	subq	%rsi, %r9
122:
	incq	%rax
	movq	%r9, %rdi
	movq	%rcx, %rsi
	testq	%r9, %r9
	je	140f
123:
	leaq	1(%rsi), %rcx
	leaq	-1(%rdi), %r9
	movzbl	(%rsi), %r8d
	cmpl	$91, %r8d
	je	124f
	cmpl	$92, %r8d
	je	121b
	cmpl	$42, %r8d
	jne	122b
	jmp	128f
	.p2align	4
124:
	testq	%r9, %r9
	je	139f
	movzbl	1(%rsi), %r8d
	addq	$2, %rsi
	addq	$-2, %rdi
	cmpl	$33, %r8d
	je	125f
	cmpl	$94, %r8d
	je	125f
	movq	%rcx, %rsi
	movq	%r9, %rdi
125:
	movq	%rdi, %r8
	addq	$-1, %r8
	jae	122b
	cmpq	%r13, %r8
	jbe	122b
	addq	$2, %rsi
	movl	$2, %r8d
	subq	%rdi, %r8
	.p2align	4
126:
	cmpb	$93, -1(%rsi)
	je	127f
	incq	%rsi
	incq	%r8
	cmpq	$1, %r8
	jne	126b
	jmp	122b
127:
	negq	%r8
	movq	%rsi, %rcx
	movq	%r8, %r9
	jmp	122b
	.p2align	4
128:
	pxor	%xmm0, %xmm0
	movdqa	%xmm0, 1264(%rsp)
	movdqa	%xmm0, 1248(%rsp)
	movq	$0, 1280(%rsp)
	testq	%rdx, %rdx
	je	137f
	movq	%rdx, 272(%rsp)
	movq	%r10, 240(%rsp)
	xorl	%r15d, %r15d
	.p2align	4
129:
	movq	%r12, %rbx
	subq	%r15, %rbx
	movq	96(%rsp), %rax
	movzbl	(%rax), %ebp
	cmpl	$64, %ebp
	ja	131f
	cmpl	$42, %ebp
	je	131f
	cmpl	$63, %ebp
	je	131f
	movq	152(%rsp), %rax
	leaq	(%rax,%r15), %rsi
	movl	%ebp, %edi
	movq	%rbx, %rdx
	callq	"memchr::bytes::memchr"
	cmpb	$1, %al
	cmovneq	%rbx, %rdx
	addq	%rdx, %r15
	testq	%rdx, %rdx
	je	130f
	cmpq	%r15, %r12
	je	97b
130:
	movq	%r12, %rbx
	subq	%r15, %rbx
	.p2align	4
131:
	movq	152(%rsp), %rax
	leaq	(%rax,%r15), %r9
	testq	%rbx, %rbx
	je	132f
	leal	-42(%rbp), %eax
	cmpl	$50, %eax
	ja	134f
	movabsq	$1688849862361089, %rcx
	btq	%rax, %rcx
	jae	134f
132:
	movq	%rbx, (%rsp)
	movl	80(%rsp), %r8d
	andl	$1, %r8d
	leaq	1248(%rsp), %rdi
	movq	96(%rsp), %rsi
	movq	272(%rsp), %rdx
	movq	%r13, %rcx
	callq	"mime_base::matching::attempt::attempt"
	movzbl	1248(%rsp), %eax
	cmpb	$4, %al
	jne	136f
133:
	incq	%r15
	jmp	129b
134:
	leal	-65(%rbp), %eax
	leal	32(%rbp), %ecx
	cmpb	$26, %al
	movzbl	%cl, %eax
	cmovael	%ebp, %eax
	movzbl	(%r9), %edx
	leal	-65(%rdx), %ecx
	leal	32(%rdx), %esi
	cmpb	$26, %cl
	movzbl	%sil, %ecx
	cmovael	%edx, %ecx
	testb	$1, 144(%rsp)
	cmovnel	%ebp, %eax
	cmovnel	%edx, %ecx
	cmpq	$1, 272(%rsp)
	je	132b
	cmpq	$1, %rbx
	je	132b
	cmpb	%cl, %al
	jne	132b
	movq	96(%rsp), %rax
	movzbl	1(%rax), %eax
	leal	-42(%rax), %ecx
	cmpl	$50, %ecx
	ja	135f
	movabsq	$1688849862361089, %rdx
	btq	%rcx, %rdx
	jb	132b
135:
	leal	-65(%rax), %ecx
	leal	32(%rax), %edx
	cmpb	$26, %cl
	movzbl	%dl, %ecx
	movzbl	%al, %eax
	cmovael	%eax, %ecx
	movzbl	1(%r9), %edx
	leal	-65(%rdx), %esi
	leal	32(%rdx), %edi
	cmpb	$26, %sil
	movzbl	%dil, %esi
	cmovael	%edx, %esi
	testb	$1, 144(%rsp)
	cmovnel	%eax, %ecx
	cmovnel	%edx, %esi
	cmpb	%sil, %cl
	je	132b
	jmp	133b
	.p2align	4
136:
	movq	1256(%rsp), %rcx
	movq	1264(%rsp), %rdx
	movq	%rdx, 96(%rsp)
	movq	1272(%rsp), %rdx
	movq	88(%rsp), %rbp
	movq	240(%rsp), %r10
	cmpb	$3, %al
	je	138f
	jmp	160f
137:
	testq	%r12, %r12
	setne	%al
	xorl	%edx, %edx
	xorl	%ecx, %ecx
	xorl	%r15d, %r15d
	cmpb	$3, %al
	jne	160f
138:
	addq	%rcx, %r15
	addq	%r15, 152(%rsp)
	subq	%r15, %r12
	movabsq	$1688849862361089, %rbx
	cmpq	$8, %rdx
	jae	118b
	jmp	119b
139:
	incq	%rax
140:
	pxor	%xmm0, %xmm0
	movdqa	%xmm0, 1264(%rsp)
	movdqa	%xmm0, 1248(%rsp)
	movq	$0, 1280(%rsp)
	subq	%rax, %r12
	jb	98b
	addq	%r12, 152(%rsp)
	testq	%rdx, %rdx
	je	141f
	testq	%rax, %rax
	je	141f
	movq	96(%rsp), %rcx
	movzbl	(%rcx), %ecx
	leal	-42(%rcx), %esi
	cmpl	$50, %esi
	ja	155f
	btq	%rsi, %rbx
	jae	155f
141:
	movq	%rax, (%rsp)
	movl	80(%rsp), %r8d
	andl	$1, %r8d
	leaq	1248(%rsp), %rdi
	movq	96(%rsp), %rsi
	movq	%r13, %rcx
	movq	152(%rsp), %r9
	movq	%r10, %r15
	callq	"mime_base::matching::attempt::attempt"
	movq	%r15, %r10
	cmpb	$0, 1248(%rsp)
	movq	176(%rsp), %r12
	jne	99b
142:
	testq	%r10, %r10
	je	147f
	cmpb	$42, (%r14)
	jne	146f
	leaq	-1(%r10), %rax
	cmpq	$8, %rax
	jb	143f
	movq	1(%r14), %xmm0
	movdqa	4b(%rip), %xmm1
	pcmpeqb	%xmm0, %xmm1
	movdqa	5b(%rip), %xmm2
	pcmpeqb	%xmm0, %xmm2
	por	%xmm1, %xmm2
	movdqa	6b(%rip), %xmm1
	pcmpeqb	%xmm0, %xmm1
	pcmpeqb	7b(%rip), %xmm0
	por	%xmm1, %xmm0
	por	%xmm2, %xmm0
	pmovmskb	%xmm0, %eax
	testb	%al, %al
	jne	149f
143:
	movl	$1, %eax
	.p2align	4
144:
	cmpq	%rax, %r10
	je	157f
	movzbl	(%r14,%rax), %ecx
	incq	%rax
	addl	$-42, %ecx
	cmpl	$50, %ecx
	ja	144b
	btq	%rcx, %rbx
	jae	144b
	jmp	149f
145:
	leal	-65(%rcx), %eax
	leal	32(%rcx), %edx
	cmpb	$26, %al
	movzbl	%dl, %eax
	cmovael	%ecx, %eax
	movq	128(%rsp), %rdx
	movzbl	(%rdx), %edx
	leal	-65(%rdx), %esi
	leal	32(%rdx), %edi
	cmpb	$26, %sil
	movzbl	%dil, %esi
	cmovael	%edx, %esi
	testb	$1, 144(%rsp)
	cmovnel	%ecx, %eax
	cmovnel	%edx, %esi
	cmpb	%sil, %al
	jne	99b
	jmp	104b
146:
	cmpq	$8, %r10
	jb	147f
	movq	(%r14), %xmm0
	movdqa	4b(%rip), %xmm1
	pcmpeqb	%xmm0, %xmm1
	movdqa	5b(%rip), %xmm2
	pcmpeqb	%xmm0, %xmm2
	por	%xmm1, %xmm2
	movdqa	6b(%rip), %xmm1
	pcmpeqb	%xmm0, %xmm1
	pcmpeqb	7b(%rip), %xmm0
	por	%xmm1, %xmm0
	por	%xmm2, %xmm0
	pmovmskb	%xmm0, %eax
	testb	%al, %al
	jne	149f
147:
	xorl	%eax, %eax
	.p2align	4
148:
	cmpq	%rax, %r10
	je	154f
	movzbl	(%r14,%rax), %ecx
	incq	%rax
	addl	$-42, %ecx
	cmpl	$50, %ecx
	ja	148b
	btq	%rcx, %rbx
	jae	148b
149:
	xorl	%ebx, %ebx
150:
	movq	600(%rsp), %rax
	cmpq	%rax, 608(%rsp)
	je	156f
151:
	movzbl	192(%rsp), %ecx
	orl	%ecx, %ebx
	shll	$17, %ebx
	movzwl	%r10w, %edx
	leal	(%rbx,%rdx,2), %edx
	movl	80(%rsp), %edi
	andl	$1, %edi
	orl	%edx, %edi
	movq	592(%rsp), %rdx
	imulq	$56, %rax, %rsi
	movl	%edi, (%rdx,%rsi)
	movl	$0, 4(%rdx,%rsi)
	movb	%cl, 8(%rdx,%rsi)
	movdqa	400(%rsp), %xmm0
	movdqu	%xmm0, 9(%rdx,%rsi)
	movq	415(%rsp), %rcx
	movq	%rcx, 24(%rdx,%rsi)
	movq	%r14, 32(%rdx,%rsi)
	movq	%r10, 40(%rdx,%rsi)
	movzbl	144(%rsp), %ecx
	movb	%cl, 48(%rdx,%rsi)
	movl	336(%rsp), %ecx
	movl	339(%rsp), %edi
	movl	%ecx, 49(%rdx,%rsi)
	movl	%edi, 52(%rdx,%rsi)
	incq	%rax
	movq	%rax, 600(%rsp)
	jmp	99b
152:
	movq	%r12, %rcx
	subq	%rax, %rcx
	jb	99b
	testq	%rax, %rax
	je	158f
	addq	128(%rsp), %rcx
	testb	$1, 144(%rsp)
	je	161f
	xorl	%edx, %edx
	.p2align	4
153:
	movzbl	1(%r14,%rdx), %esi
	cmpb	(%rcx,%rdx), %sil
	jne	159f
	incq	%rdx
	cmpq	%rdx, %rax
	jne	153b
	jmp	142b
154:
	movl	$512, %ebx
	jmp	150b
155:
	leal	-65(%rcx), %edi
	leal	32(%rcx), %esi
	cmpb	$26, %dil
	movzbl	%sil, %r9d
	movzbl	%cl, %ecx
	cmovael	%ecx, %r9d
	movq	152(%rsp), %rsi
	movzbl	(%rsi), %esi
	leal	-65(%rsi), %edi
	leal	32(%rsi), %r8d
	cmpb	$26, %dil
	movzbl	%r8b, %edi
	cmovael	%esi, %edi
	testb	$1, 144(%rsp)
	cmovnel	%ecx, %r9d
	cmovnel	%esi, %edi
	cmpb	%dil, %r9b
	je	141b
	jmp	98b
156:
	movq	%r10, %r13
	leaq	592(%rsp), %rdi
	callq	"std_alloc::vec::Vec::grow_amortized::<#4355f86bd2b6ceb4>"
	testb	%al, %al
	je	267f
	movq	600(%rsp), %rax
	movq	%r13, %r10
	jmp	151b
157:
	movl	$256, %ebx
	jmp	150b
158:
	xorl	%edx, %edx
159:
	cmpq	%rax, %rdx
	jne	99b
	jmp	142b
160:
	movzbl	%al, %eax
	decl	%eax
	cmpl	$2, %eax
	movq	176(%rsp), %r12
	movabsq	$1688849862361089, %rbx
	jb	99b
	jmp	142b
161:
	xorl	%edx, %edx
	.p2align	4
162:
	movzbl	1(%r14,%rdx), %esi
	leal	-65(%rsi), %edi
	leal	32(%rsi), %r8d
	cmpb	$26, %dil
	movzbl	%r8b, %edi
	cmovael	%esi, %edi
	movzbl	(%rcx,%rdx), %esi
	leal	-65(%rsi), %r8d
	leal	32(%rsi), %r9d
	cmpb	$26, %r8b
	movzbl	%r9b, %r8d
	cmovael	%esi, %r8d
	cmpb	%r8b, %dil
	jne	159b
	incq	%rdx
	cmpq	%rdx, %rax
	jne	162b
	jmp	142b
163:
	movq	592(%rsp), %r14
	movq	600(%rsp), %r13
	movq	608(%rsp), %rsi
	movq	$0, 592(%rsp)
	leaq	40(%rsp), %rcx
	movq	%rcx, 600(%rsp)
	pxor	%xmm0, %xmm0
	leaq	600(%rsp), %rax
	movdqu	%xmm0, 8(%rax)
	testq	%r13, %r13
	je	177f
	movq	%rsi, 152(%rsp)
	leaq	8(%r14), %rbp
	xorl	%edx, %edx
	movq	%rbp, %rbx
	movq	%r13, %r12
	xorl	%eax, %eax
	movq	184(%rsp), %rsi
	jmp	168f
	.p2align	4
164:
	xorl	%edx, %edx
165:
	cmpq	%rdx, 616(%rsp)
	je	169f
166:
	leaq	(%rdx,%rdx,2), %rax
	shlq	$4, %rax
	movdqa	1248(%rsp), %xmm0
	movdqa	1264(%rsp), %xmm1
	movdqa	1280(%rsp), %xmm2
	movdqu	%xmm2, 32(%rcx,%rax)
	movdqu	%xmm1, 16(%rcx,%rax)
	movdqu	%xmm0, (%rcx,%rax)
	incq	%rdx
	movq	%rdx, 608(%rsp)
	movl	%r15d, 592(%rsp)
	movl	%r15d, %eax
167:
	addq	$56, %rbx
	decq	%r12
	je	170f
168:
	movl	-8(%rbx), %r15d
	movdqu	(%rbx), %xmm0
	movdqu	16(%rbx), %xmm1
	movdqu	32(%rbx), %xmm2
	movdqa	%xmm2, 1280(%rsp)
	movdqa	%xmm1, 1264(%rsp)
	movdqa	%xmm0, 1248(%rsp)
	cmpl	%eax, %r15d
	jb	167b
	jbe	165b
	testq	%rdx, %rdx
	je	164b
	movq	$0, 608(%rsp)
	jmp	164b
169:
	leaq	600(%rsp), %rdi
	callq	"std_alloc::vec::Vec::grow_amortized::<#3a45404b3fcd1c9c>"
	testb	%al, %al
	je	265f
	movq	600(%rsp), %rcx
	movq	608(%rsp), %rdx
	movq	184(%rsp), %rsi
	jmp	166b
170:
	movq	616(%rsp), %rax
	movq	%rax, 272(%rsp)
	cmpq	$20, %r13
	movq	%rcx, 96(%rsp)
	movq	%rdx, 80(%rsp)
	ja	178f
	cmpq	$1, %r13
	je	194f
	leaq	-56(%r14), %rax
	movl	$1, %ecx
	jmp	174f
171:
	xorl	%esi, %esi
172:
	movl	%edx, (%r14,%rsi)
	movdqa	1248(%rsp), %xmm0
	movdqa	1264(%rsp), %xmm1
	movdqa	1280(%rsp), %xmm2
	movdqu	%xmm0, 4(%r14,%rsi)
	movdqu	%xmm1, 20(%r14,%rsi)
	movdqu	%xmm2, 36(%r14,%rsi)
	movl	1296(%rsp), %edx
	movl	%edx, 52(%r14,%rsi)
	movq	184(%rsp), %rsi
173:
	incq	%rcx
	addq	$56, %rax
	cmpq	%r13, %rcx
	je	194f
174:
	imulq	$56, %rcx, %rdi
	movl	(%r14,%rdi), %edx
	cmpl	%edx, -56(%r14,%rdi)
	jae	173b
	leaq	(%r14,%rdi), %r8
	movq	%rcx, %rsi
	addq	%r14, %rdi
	addq	$-56, %rdi
	movl	52(%r8), %r9d
	movl	%r9d, 1296(%rsp)
	movups	4(%r8), %xmm0
	movups	20(%r8), %xmm1
	movups	36(%r8), %xmm2
	movaps	%xmm2, 1280(%rsp)
	movaps	%xmm1, 1264(%rsp)
	movaps	%xmm0, 1248(%rsp)
	movdqu	(%rdi), %xmm0
	movdqu	16(%rdi), %xmm1
	movdqu	32(%rdi), %xmm2
	movdqu	%xmm0, (%r8)
	movdqu	%xmm1, 16(%r8)
	movdqu	%xmm2, 32(%r8)
	movq	48(%rdi), %rdi
	movq	%rdi, 48(%r8)
	decq	%rsi
	je	171b
	movq	%rax, %rdi
	.p2align	4
175:
	cmpl	%edx, (%rdi)
	jae	176f
	decq	%rsi
	movq	48(%rdi), %r8
	movq	%r8, 104(%rdi)
	movdqu	(%rdi), %xmm0
	movdqu	16(%rdi), %xmm1
	movdqu	32(%rdi), %xmm2
	movdqu	%xmm2, 88(%rdi)
	movdqu	%xmm1, 72(%rdi)
	movdqu	%xmm0, 56(%rdi)
	addq	$-56, %rdi
	testq	%rsi, %rsi
	jne	175b
	xorl	%esi, %esi
176:
	imulq	$56, %rsi, %rsi
	jmp	172b
177:
	xorl	%r12d, %r12d
	leaq	40(%rsp), %rdx
	testq	%rsi, %rsi
	movq	184(%rsp), %rsi
	je	225f
	movq	$0, 200(%rsp)
	xorl	%r13d, %r13d
	movq	$0, 80(%rsp)
	movq	%rdx, %rcx
	jmp	199f
178:
	movl	(%r14), %r15d
	movl	56(%r14), %ebx
	leaq	112(%r14), %rax
	movl	$2, %r12d
	cmpl	%ebx, %r15d
	jae	180f
	.p2align	4
179:
	movl	-56(%rax), %ecx
	cmpl	(%rax), %ecx
	jae	192f
	incq	%r12
	addq	$56, %rax
	cmpq	%r12, %r13
	jne	179b
	jmp	193f
	.p2align	4
180:
	movl	-56(%rax), %ecx
	cmpl	(%rax), %ecx
	jb	192f
	incq	%r12
	addq	$56, %rax
	cmpq	%r12, %r13
	jne	180b
	jmp	194f
181:
	movq	%rcx, %rax
	cmpq	$4, %rbx
	jb	184f
182:
	leaq	-1(%r14), %rcx
	movq	$-4, %rdx
	xorl	%esi, %esi
	.p2align	4
183:
	movzbl	(%rcx,%rax), %edi
	leal	(%rax,%rdx), %r8d
	addl	$3, %r8d
	movw	%r8w, 592(%rsp,%rdi,2)
	movzbl	-1(%rcx,%rax), %edi
	leal	2(%rax,%rdx), %r8d
	movw	%r8w, 592(%rsp,%rdi,2)
	movzbl	-2(%rcx,%rax), %edi
	leal	1(%rax,%rdx), %r8d
	movw	%r8w, 592(%rsp,%rdi,2)
	leal	(%rax,%rdx), %edi
	movzbl	-3(%rcx,%rax), %r8d
	movw	%di, 592(%rsp,%r8,2)
	addq	$4, %rsi
	addq	$-4, %rcx
	addq	$-4, %rdx
	cmpq	%rsi, %rax
	jne	183b
184:
	leaq	416(%rsp), %rax
	movq	%rax, 1248(%rsp)
	movq	%r14, 1256(%rsp)
	movq	%rbx, 1264(%rsp)
	leaq	592(%rsp), %rsi
	movl	$512, %edx
	leaq	1272(%rsp), %rdi
	callq	memcpy@PLT
	pxor	%xmm0, %xmm0
	movdqa	%xmm0, 1104(%rsp)
	movq	568(%rsp), %rax
	movq	%rax, 1120(%rsp)
	movq	264(%rsp), %rax
	movq	%rax, 1128(%rsp)
	movdqa	272(%rsp), %xmm0
	pextrd	$1, %xmm0, %edx
	leaq	336(%rsp), %rdi
	leaq	1248(%rsp), %rsi
	leaq	1104(%rsp), %rcx
	callq	"mime_view::magic::sniff"
	cmpb	$0, 336(%rsp)
	jne	532f
	movzbl	344(%rsp), %eax
	movq	%rax, 144(%rsp)
	movq	352(%rsp), %rbx
	movq	360(%rsp), %rax
	movq	%rax, 192(%rsp)
	movq	368(%rsp), %rax
	movq	%rax, 176(%rsp)
	cmpb	$1, 472(%rsp)
	jne	187f
	movq	480(%rsp), %rdi
	callq	"std_alloc::boxed::Box::drop::<#fbe121e601c74963>"
	cmpb	$1, 488(%rsp)
	je	188f
185:
	cmpb	$1, 504(%rsp)
	jne	189f
186:
	movq	512(%rsp), %rdi
	callq	"std_alloc::boxed::Box::drop::<#2a53b42b743d619c>"
	cmpb	$1, 520(%rsp)
	je	190f
	jmp	191f
187:
	cmpb	$1, 488(%rsp)
	jne	185b
188:
	movq	496(%rsp), %rdi
	callq	"std_alloc::boxed::Box::drop::<#e973df45dd2be47d>"
	cmpb	$1, 504(%rsp)
	je	186b
189:
	cmpb	$1, 520(%rsp)
	jne	191f
190:
	movq	528(%rsp), %rdi
	callq	"std_alloc::boxed::Box::drop::<#02fc8b7b85195ce8>"
191:
	movq	%rbx, 128(%rsp)
	movq	184(%rsp), %rsi
	movq	96(%rsp), %rcx
	jmp	202f
192:
	cmpq	%r13, %r12
	jne	228f
	cmpl	%ebx, %r15d
	jae	194f
193:
	movq	%r13, %rdx
	shrq	%rdx
	movq	%r13, %rax
	subq	%rdx, %rax
	imulq	$56, %rax, %rsi
	addq	%r14, %rsi
	movq	%r14, %rdi
	callq	"core::slice::edits::mirror::<#20cb9571558e0242>"
	movq	184(%rsp), %rsi
194:
	leaq	40(%rsp), %rax
	movq	%rax, 592(%rsp)
	pxor	%xmm0, %xmm0
	leaq	600(%rsp), %rax
	movdqu	%xmm0, (%rax)
195:
	leaq	40(%rsp), %rdx
	xorl	%r12d, %r12d
	movq	96(%rsp), %rcx
	jmp	197f
	.p2align	4
196:
	leaq	(%r12,%r12,2), %rax
	shlq	$4, %rax
	movdqa	1248(%rsp), %xmm0
	movdqa	1264(%rsp), %xmm1
	movdqa	1280(%rsp), %xmm2
	movdqu	%xmm2, 32(%rdx,%rax)
	movdqu	%xmm1, 16(%rdx,%rax)
	movdqu	%xmm0, (%rdx,%rax)
	incq	%r12
	movq	%r12, 600(%rsp)
	addq	$56, %rbp
	decq	%r13
	je	198f
197:
	movdqu	(%rbp), %xmm0
	movdqu	16(%rbp), %xmm1
	movdqu	32(%rbp), %xmm2
	movdqa	%xmm2, 1280(%rsp)
	movdqa	%xmm1, 1264(%rsp)
	movdqa	%xmm0, 1248(%rsp)
	cmpq	%r12, 608(%rsp)
	jne	196b
	leaq	592(%rsp), %rdi
	callq	"std_alloc::vec::Vec::grow_amortized::<#56d67e81838936ab>"
	testb	%al, %al
	je	245f
	movq	592(%rsp), %rdx
	movq	600(%rsp), %r12
	movq	184(%rsp), %rsi
	movq	96(%rsp), %rcx
	jmp	196b
198:
	movq	608(%rsp), %rax
	movq	%rax, 200(%rsp)
	cmpq	$0, 152(%rsp)
	movq	264(%rsp), %rax
	movq	88(%rsp), %rbp
	movq	272(%rsp), %r13
	je	200f
199:
	movq	%r14, %rdi
	movq	%rcx, %rbx
	movq	%rdx, %r14
	callq	rattle_dealloc@PLT
	movq	%r14, %rdx
	movq	%rbx, %rcx
	movq	264(%rsp), %rax
	movq	184(%rsp), %rsi
200:
	testb	$1, 47(%rsp)
	movq	%rcx, 96(%rsp)
	movq	%rdx, 152(%rsp)
	je	95b
201:
	movq	$0, 128(%rsp)
	movq	$0, 192(%rsp)
	movq	$0, 176(%rsp)
	movq	$0, 144(%rsp)
202:
	pxor	%xmm0, %xmm0
	movdqa	%xmm0, 336(%rsp)
	movdqa	%xmm0, 352(%rsp)
	movdqa	%xmm0, 1104(%rsp)
	movdqa	%xmm0, 1120(%rsp)
	movq	(%rsi), %rbx
	movq	8(%rsi), %r14
	leaq	336(%rsp), %rdi
	movq	%rbx, %rsi
	movq	%r14, %rdx
	movq	80(%rsp), %r8
	callq	"mime_tool::explain::aliases::kinds_of"
	cmpb	$0, 336(%rsp)
	je	222f
203:
	movq	96(%rsp), %rdi
204:
	testq	%r13, %r13
	je	205f
	callq	rattle_dealloc@PLT
205:
	cmpq	$0, 200(%rsp)
	movq	168(%rsp), %rbx
	je	208f
206:
	movq	152(%rsp), %rdi
207:
	callq	rattle_dealloc@PLT
208:
	cmpb	$0, 45(%rsp)
	jne	211f
209:
	movq	%rbx, %rdi
210:
	callq	rattle_dealloc@PLT
211:
	pxor	%xmm1, %xmm1
	movb	$2, %bl
	xorl	%r14d, %r14d
	xorl	%r15d, %r15d
	xorl	%r12d, %r12d
	xorl	%r13d, %r13d
	testb	$1, 47(%rsp)
	jne	213f
212:
	movl	260(%rsp), %edi
	movdqa	%xmm1, 96(%rsp)
	callq	close@PLT
	movdqa	96(%rsp), %xmm1
213:
	testb	%r13b, %r13b
	je	528f
	movzbl	%bl, %eax
	leaq	536f(%rip), %rcx
	movslq	(%rcx,%rax,4), %rax
	addq	%rcx, %rax
	jmpq	*%rax
214:
	testq	%r15, %r15
	je	27b
	movq	304(%rsp), %rax
	movq	8(%rax), %rdi
	movq	%r14, %rsi
	movq	%r15, %rdx
	callq	"mime_tool::system::StreamSink::put::<#87f05e477b504f42>"
	testb	%al, %al
	je	27b
	movl	%edx, %ebx
	incb	%bl
	movb	$1, %bpl
	pxor	%xmm1, %xmm1
	testq	%r12, %r12
	jne	28b
	jmp	29b
	.p2align	4
215:
	pxor	%xmm0, %xmm0
	movdqa	%xmm0, 608(%rsp)
	movdqa	%xmm0, 592(%rsp)
	testb	$1, 46(%rsp)
	je	229f
	leaq	592(%rsp), %rdi
	movq	248(%rsp), %rsi
	movq	136(%rsp), %rdx
	callq	"mime_tool::line::escape::escaped"
	cmpb	$0, 592(%rsp)
	jne	218f
	movq	600(%rsp), %r15
	movq	608(%rsp), %rcx
	movq	616(%rsp), %r13
	pxor	%xmm0, %xmm0
	movdqa	%xmm0, 1264(%rsp)
	movdqa	%xmm0, 1248(%rsp)
	movq	$0, 1280(%rsp)
	leaq	.L9dce95591b63(%rip), %r8
	leaq	1248(%rsp), %rdi
	movl	$13, %r9d
	jmp	237f
	.p2align	4
216:
	pxor	%xmm0, %xmm0
	movdqa	%xmm0, 608(%rsp)
	movdqa	%xmm0, 592(%rsp)
	testb	$1, 46(%rsp)
	je	230f
	leaq	592(%rsp), %rdi
	movq	248(%rsp), %rsi
	movq	136(%rsp), %rdx
	callq	"mime_tool::line::escape::escaped"
	cmpb	$0, 592(%rsp)
	jne	218f
	movq	600(%rsp), %r15
	movq	608(%rsp), %rcx
	movq	616(%rsp), %r13
	pxor	%xmm0, %xmm0
	movdqa	%xmm0, 1264(%rsp)
	movdqa	%xmm0, 1248(%rsp)
	movq	$0, 1280(%rsp)
	leaq	.Lccd068a4cc1e(%rip), %r8
	jmp	236f
	.p2align	4
217:
	pxor	%xmm0, %xmm0
	movdqa	%xmm0, 608(%rsp)
	movdqa	%xmm0, 592(%rsp)
	testb	$1, 46(%rsp)
	je	231f
	leaq	592(%rsp), %rdi
	movq	248(%rsp), %rsi
	movq	136(%rsp), %rdx
	callq	"mime_tool::line::escape::escaped"
	cmpb	$0, 592(%rsp)
	je	235f
218:
	pxor	%xmm1, %xmm1
	movb	$2, %bl
	movb	$1, %bpl
	xorl	%r14d, %r14d
219:
	xorl	%r12d, %r12d
220:
	movq	160(%rsp), %rdx
221:
	movzbl	%r12b, %eax
	movl	296(%rsp), %ecx
	movzbl	%cl, %ecx
	cmpb	%cl, %al
	cmoval	%eax, %ecx
	movl	%ecx, 296(%rsp)
	testb	%bpl, %bpl
	movq	88(%rsp), %rbp
	je	30b
	jmp	528f
222:
	movq	%r13, 272(%rsp)
	movq	344(%rsp), %rax
	movq	%rax, 240(%rsp)
	movq	352(%rsp), %r13
	movq	360(%rsp), %r15
	leaq	1104(%rsp), %rdi
	movq	%rbx, %rsi
	movq	%r14, %rdx
	movq	152(%rsp), %rcx
	movq	%r12, %r8
	callq	"mime_tool::explain::aliases::kinds_of"
	cmpb	$0, 1104(%rsp)
	je	223f
	testq	%r15, %r15
	movq	272(%rsp), %r13
	je	203b
	movq	240(%rsp), %rdi
	callq	rattle_dealloc@PLT
	jmp	203b
223:
	movq	%r15, 120(%rsp)
	movq	1112(%rsp), %r15
	movq	1120(%rsp), %r10
	movq	1128(%rsp), %r8
	cmpb	$1, 144(%rsp)
	movq	%r8, 1144(%rsp)
	jne	226f
	movq	%r15, 328(%rsp)
	movq	264(%rsp), %rax
	cmpq	$40, %rax
	movq	544(%rsp), %rdx
	movq	128(%rsp), %r14
	jb	532f
	cmpq	$268435456, %rax
	ja	532f
	cmpl	$33554688, (%rdx)
	jne	532f
	movq	%r10, %r15
	movq	%rax, %rcx
	movl	36(%rdx), %eax
	bswapl	%eax
	movq	%rdx, 1248(%rsp)
	movq	%rcx, 1256(%rsp)
	movq	%rdx, 1264(%rsp)
	movq	%rcx, 1272(%rsp)
	movl	$65538, 1280(%rsp)
	movdqu	4(%rdx), %xmm0
	movdqa	9b(%rip), %xmm1
	pshufb	%xmm1, %xmm0
	movdqu	%xmm0, 1284(%rsp)
	movdqu	20(%rdx), %xmm2
	pshufb	%xmm1, %xmm2
	movdqu	%xmm2, 1300(%rsp)
	movl	%eax, 1316(%rsp)
	pxor	%xmm1, %xmm1
	leaq	1272(%rsp), %rax
	movdqu	%xmm1, 96(%rax)
	movdqu	%xmm1, 80(%rax)
	movdqu	%xmm1, 64(%rax)
	movdqu	%xmm1, 48(%rax)
	movdqa	%xmm1, 400(%rsp)
	movdqa	%xmm1, 608(%rsp)
	movdqa	%xmm1, 592(%rsp)
	movq	%xmm0, %rax
	movl	%eax, %edx
	leaq	592(%rsp), %rdi
	leaq	400(%rsp), %r9
	leaq	1264(%rsp), %rsi
	movq	%r14, %rcx
	movq	192(%rsp), %rbx
	movq	%rbx, %r8
	callq	"mime_view::pairs::look_up_pair"
	cmpb	$0, 592(%rsp)
	jne	532f
	cmpb	$1, 600(%rsp)
	movq	%r15, %r10
	jne	224f
	movq	608(%rsp), %r14
	movq	616(%rsp), %rbx
224:
	movb	$1, %al
	movq	%rax, 224(%rsp)
	movzbl	316(%rsp), %eax
	leaq	535f(%rip), %rcx
	movslq	(%rcx,%rax,4), %rax
	addq	%rcx, %rax
	movq	%rbx, %rsi
	movq	%r14, %rbx
	movq	%r14, %r9
	movq	%rsi, %r14
	movb	$1, %cl
	movl	%ecx, 216(%rsp)
	movq	96(%rsp), %rdi
	movq	120(%rsp), %rcx
	movq	328(%rsp), %r15
	jmpq	*%rax
225:
	movq	$0, 200(%rsp)
	movq	%rdx, %rcx
	movq	$0, 80(%rsp)
	xorl	%r13d, %r13d
	movq	264(%rsp), %rax
	testb	$1, 47(%rsp)
	movq	%rcx, 96(%rsp)
	movq	%rdx, 152(%rsp)
	jne	201b
	jmp	95b
226:
	leaq	.L67248b46a1a0(%rip), %r9
	testb	$1, 47(%rsp)
	movq	552(%rsp), %rcx
	movq	168(%rsp), %rdi
	je	242f
227:
	movl	$24, %esi
	jmp	253f
228:
	imulq	$56, %r13, %rdi
	testq	%rdi, %rdi
	js	240f
	movl	$8, %esi
	callq	rattle_alloc@PLT
	xorl	%r10d, %r10d
	testb	$1, %al
	cmovneq	%rdx, %r10
	je	240f
	movq	%rdx, 400(%rsp)
	movq	%r13, 408(%rsp)
	cmpq	$65, %r13
	setae	%cl
	movq	%r13, %rax
	shrq	%rax
	cmpq	%rax, %r12
	setae	%dl
	orb	%cl, %dl
	jne	268f
	movq	%r10, %r15
	bsrq	%r13, %rcx
	xorl	$63, %ecx
	addl	%ecx, %ecx
	xorl	$126, %ecx
	leaq	400(%rsp), %r8
	movq	%r14, %rdi
	movq	%r13, %rsi
	movq	%r13, %rdx
	jmp	483f
229:
	movdqa	%xmm0, 1264(%rsp)
	movdqa	%xmm0, 1248(%rsp)
	movq	$0, 1280(%rsp)
	leaq	.L9dce95591b63(%rip), %r8
	leaq	1248(%rsp), %rdi
	movl	$13, %r9d
	jmp	233f
230:
	movdqa	%xmm0, 1264(%rsp)
	movdqa	%xmm0, 1248(%rsp)
	movq	$0, 1280(%rsp)
	leaq	.Lccd068a4cc1e(%rip), %r8
	jmp	232f
231:
	movdqa	%xmm0, 1264(%rsp)
	movdqa	%xmm0, 1248(%rsp)
	movq	$0, 1280(%rsp)
	leaq	.L3c133a697ae7(%rip), %r8
232:
	leaq	1248(%rsp), %rdi
	movl	$11, %r9d
233:
	movq	304(%rsp), %rsi
	movq	248(%rsp), %rdx
	movq	136(%rsp), %rcx
	callq	"mime_tool::desk::report::<#2e1b2a3647f851f7>"
	cmpb	$0, 1248(%rsp)
	je	234f
	movzbl	1256(%rsp), %ebx
	movq	1264(%rsp), %r14
	movb	$1, %bpl
	movdqu	1272(%rsp), %xmm1
	jmp	219b
234:
	movb	$1, %r12b
	xorl	%r14d, %r14d
	xorl	%ebp, %ebp
	xorl	%ebx, %ebx
	movq	160(%rsp), %rdx
	pxor	%xmm1, %xmm1
	jmp	221b
235:
	movq	600(%rsp), %r15
	movq	608(%rsp), %rcx
	movq	616(%rsp), %r13
	pxor	%xmm0, %xmm0
	movdqa	%xmm0, 1264(%rsp)
	movdqa	%xmm0, 1248(%rsp)
	movq	$0, 1280(%rsp)
	leaq	.L3c133a697ae7(%rip), %r8
236:
	leaq	1248(%rsp), %rdi
	movl	$11, %r9d
237:
	movq	304(%rsp), %rsi
	movq	%r15, %rdx
	callq	"mime_tool::desk::report::<#2e1b2a3647f851f7>"
	cmpb	$0, 1248(%rsp)
	je	238f
	movzbl	1256(%rsp), %ebx
	movq	1264(%rsp), %r14
	movb	$1, %bpl
	movdqu	1272(%rsp), %xmm1
	xorl	%r12d, %r12d
	testq	%r13, %r13
	jne	239f
	jmp	220b
238:
	movb	$1, %r12b
	xorl	%r14d, %r14d
	xorl	%ebp, %ebp
	xorl	%ebx, %ebx
	pxor	%xmm1, %xmm1
	testq	%r13, %r13
	je	220b
239:
	movq	%r15, %rdi
	movdqa	%xmm1, 96(%rsp)
	callq	rattle_dealloc@PLT
	movdqa	96(%rsp), %xmm1
	jmp	220b
240:
	cmpq	$0, 152(%rsp)
	je	241f
	movq	%r14, %rdi
	callq	rattle_dealloc@PLT
241:
	cmpq	$0, 272(%rsp)
	movq	88(%rsp), %rbp
	jne	248f
	jmp	250f
242:
	testq	%rcx, %rcx
	je	252f
	cmpq	$128, %rcx
	movl	$128, %eax
	cmovbq	%rcx, %rax
	xorl	%ecx, %ecx
	jmp	244f
	.p2align	4
243:
	incq	%rcx
	cmpq	%rcx, %rax
	je	251f
244:
	movzbl	(%rdi,%rcx), %edx
	cmpl	$31, %edx
	ja	243b
	cmpl	$13, %edx
	ja	227b
	movl	$9728, %esi
	btl	%edx, %esi
	jb	243b
	jmp	227b
245:
	cmpq	$0, 608(%rsp)
	je	246f
	movq	592(%rsp), %rdi
	callq	rattle_dealloc@PLT
246:
	cmpq	$0, 152(%rsp)
	movq	88(%rsp), %rbp
	movq	272(%rsp), %rbx
	je	247f
	movq	%r14, %rdi
	callq	rattle_dealloc@PLT
247:
	testq	%rbx, %rbx
	je	250f
248:
	movq	96(%rsp), %rdi
249:
	callq	rattle_dealloc@PLT
250:
	cmpb	$0, 45(%rsp)
	movq	168(%rsp), %rbx
	je	209b
	jmp	211b
251:
	movl	$10, %esi
	leaq	.Laafe98300121(%rip), %r9
	jmp	253f
252:
	movl	$22, %esi
	leaq	.L74bbd0aeee0d(%rip), %r9
253:
	movb	$1, %al
	movq	%rax, 224(%rsp)
	movzbl	316(%rsp), %eax
	leaq	535f(%rip), %rcx
	movslq	(%rcx,%rax,4), %rax
	addq	%rcx, %rax
	movq	%r9, %rbx
	movq	%rsi, %r14
	movb	$1, %cl
	movl	%ecx, 216(%rsp)
	movq	96(%rsp), %rdi
	movq	120(%rsp), %rcx
	jmpq	*%rax
254:
	cmpb	$1, 144(%rsp)
	sete	%al
	cmpl	$80, 176(%rsp)
	setae	%cl
	movb	$1, %dl
	movq	%rdx, 224(%rsp)
	movq	%r9, %rbx
	movq	%rsi, %r14
	movb	$1, %dl
	movl	%edx, 216(%rsp)
	testb	%cl, %al
	movq	120(%rsp), %rcx
	movq	96(%rsp), %rdi
	jne	280f
255:
	movq	%r9, 216(%rsp)
	movq	%rsi, 560(%rsp)
	cmpb	$2, 316(%rsp)
	sete	%al
	testb	%al, 144(%rsp)
	movq	240(%rsp), %rax
	cmovneq	%r15, %rax
	cmovneq	%r10, %r13
	testq	%r13, %r13
	je	260f
	movq	%r13, %rbp
	movq	(%rax), %rbx
	movq	8(%rax), %r14
	decq	%rbp
	je	261f
	movq	%rax, 320(%rsp)
	cmpq	$4, %r14
	movq	%r15, 328(%rsp)
	movb	$1, %al
	jae	262f
	movq	%rax, 224(%rsp)
	testq	%r14, %r14
	je	271f
	movq	320(%rsp), %rax
	addq	$24, %rax
	jmp	259f
256:
	xorl	%edx, %edx
257:
	cmpq	%r14, %rdx
	jb	273f
258:
	addq	$16, %rax
	decq	%rbp
	je	264f
259:
	cmpq	(%rax), %r14
	jne	273f
	movq	-8(%rax), %rcx
	movzbl	(%rbx), %edx
	cmpb	(%rcx), %dl
	jne	256b
	cmpq	$1, %r14
	je	258b
	movzbl	1(%rbx), %esi
	movl	$1, %edx
	cmpb	1(%rcx), %sil
	jne	257b
	cmpq	$2, %r14
	je	258b
	movzbl	2(%rbx), %esi
	movl	$2, %edx
	cmpb	2(%rcx), %sil
	jne	257b
	jmp	258b
260:
	movq	232(%rsp), %rax
	xorb	$1, %al
	addb	%al, %al
	incb	%al
	movb	$1, %dl
	movq	%rdx, 224(%rsp)
	movq	216(%rsp), %rbx
	movq	560(%rsp), %r14
	movl	%eax, 216(%rsp)
	jmp	280f
261:
	movb	$1, %al
	movq	%rax, 224(%rsp)
	movl	$0, 216(%rsp)
	movq	88(%rsp), %rbp
	jmp	280f
262:
	movq	%rax, 224(%rsp)
	movq	320(%rsp), %rax
	leaq	24(%rax), %r15
	.p2align	4
263:
	cmpq	(%r15), %r14
	jne	273f
	movq	-8(%r15), %rdx
	movl	(%rbx), %eax
	cmpl	(%rdx), %eax
	jne	273f
	movq	%rbx, %rdi
	movq	%r14, %rsi
	callq	"core::cmp::slices::groups_equal::<i8,31'core::cmp::numbers::U8PartialEq{}>"
	testb	%al, %al
	je	273f
	addq	$16, %r15
	decq	%rbp
	jne	263b
264:
	movl	$0, 216(%rsp)
	movq	88(%rsp), %rbp
	movq	96(%rsp), %rdi
	movq	120(%rsp), %rcx
	movq	328(%rsp), %r15
	jmp	280f
265:
	cmpq	$0, 616(%rsp)
	je	266f
	movq	600(%rsp), %rdi
	callq	rattle_dealloc@PLT
266:
	cmpq	$0, 152(%rsp)
	movq	88(%rsp), %rbp
	je	250b
	movq	%r14, %rdi
	jmp	249b
267:
	cmpq	$0, 608(%rsp)
	je	250b
	movq	592(%rsp), %rdi
	jmp	249b
268:
	pxor	%xmm0, %xmm0
	movdqa	%xmm0, 608(%rsp)
	movdqa	%xmm0, 592(%rsp)
	movq	$0, 624(%rsp)
	movl	$64, %r9d
	cmpq	$4097, %r13
	jb	270f
	movabsq	$4294967296, %rdx
	xorl	%ecx, %ecx
	.p2align	4
269:
	movq	%rcx, %rsi
	addq	%rdx, %rcx
	shrq	%rcx
	movq	%rcx, %rdi
	imulq	%rcx, %rdi
	cmpq	%r13, %rdi
	cmovaq	%rcx, %rdx
	cmovaq	%rsi, %rcx
	leaq	1(%rcx), %rsi
	cmpq	%rdx, %rsi
	jb	269b
	cmpq	$65, %rcx
	movl	$64, %r9d
	cmovaeq	%rcx, %r9
270:
	cmpq	%r9, %rax
	cmovbq	%rax, %r9
	movabsq	$4611686018427387904, %rax
	xorl	%edx, %edx
	divq	%r13
	cmpq	%r9, %r12
	movq	%r9, %r8
	cmovaq	%r12, %r8
	setae	%cl
	cmpl	%ebx, %r15d
	jae	371f
	movq	%r10, %r15
	cmpq	%r9, %r12
	jb	482f
	cmpq	$15, %r12
	jbe	372f
	movq	%r12, %rdx
	shrq	%rdx
	movq	%r12, %rcx
	subq	%rdx, %rcx
	imulq	$56, %rcx, %rsi
	addq	%r14, %rsi
	movq	%r14, %rdi
	movq	%rax, 200(%rsp)
	movq	%r9, %rbx
	callq	"core::slice::edits::mirror::<#20cb9571558e0242>"
	movq	%rbx, %r9
	movq	200(%rsp), %rax
	movb	$1, %cl
	jmp	481f
271:
	movq	320(%rsp), %rax
	cmpq	$0, 24(%rax)
	jne	273f
	movq	320(%rsp), %rax
	addq	$40, %rax
272:
	decq	%rbp
	movq	328(%rsp), %r15
	je	383f
	cmpq	$0, (%rax)
	leaq	16(%rax), %rax
	je	272b
273:
	movq	264(%rsp), %rax
	cmpq	$39, %rax
	jbe	532f
	cmpq	$268435456, %rax
	movq	88(%rsp), %rbp
	movq	328(%rsp), %r15
	movq	560(%rsp), %rbx
	ja	532f
	movq	320(%rsp), %rax
	leaq	8(%rax), %r14
	.p2align	4
274:
	movq	544(%rsp), %rsi
	cmpl	$33554688, (%rsi)
	jne	532f
	movq	-8(%r14), %rcx
	movq	(%r14), %r8
	movl	36(%rsi), %eax
	bswapl	%eax
	movq	%rsi, 1248(%rsp)
	movq	264(%rsp), %rdx
	movq	%rdx, 1256(%rsp)
	movq	%rsi, 1264(%rsp)
	movq	%rdx, 1272(%rsp)
	movl	$65538, 1280(%rsp)
	movdqu	4(%rsi), %xmm0
	movdqa	9b(%rip), %xmm1
	pshufb	%xmm1, %xmm0
	movdqu	%xmm0, 1284(%rsp)
	movdqu	20(%rsi), %xmm0
	pshufb	%xmm1, %xmm0
	movdqu	%xmm0, 1300(%rsp)
	movl	%eax, 1316(%rsp)
	pxor	%xmm0, %xmm0
	leaq	1272(%rsp), %rax
	movdqu	%xmm0, 96(%rax)
	movdqu	%xmm0, 80(%rax)
	movdqu	%xmm0, 64(%rax)
	movdqu	%xmm0, 48(%rax)
	movdqa	%xmm0, 1216(%rsp)
	movq	$0, 1232(%rsp)
	movdqa	%xmm0, 592(%rsp)
	movdqa	%xmm0, 608(%rsp)
	movdqa	%xmm0, 400(%rsp)
	movq	568(%rsp), %rax
	movq	%rax, 416(%rsp)
	movq	%rdx, 424(%rsp)
	leaq	400(%rsp), %rax
	movq	%rax, 8(%rsp)
	movq	%rbx, (%rsp)
	leaq	1216(%rsp), %rdi
	leaq	1248(%rsp), %rsi
	leaq	592(%rsp), %rdx
	movq	216(%rsp), %r9
	callq	"mime_lookup::cached::ancestry::climbs_to"
	cmpb	$1, 600(%rsp)
	jne	275f
	movq	608(%rsp), %rdi
	callq	"std_collections::btree::node::Node::destroy::<#edcdc2349bef7e9b>"
275:
	cmpb	$0, 1216(%rsp)
	jne	276f
	movzbl	1217(%rsp), %eax
	cmpb	$1, %al
	movq	96(%rsp), %rdi
	je	278f
	addq	$16, %r14
	decq	%r13
	jne	274b
	xorl	%ebx, %ebx
	movb	$3, %cl
	movl	%ecx, 216(%rsp)
	xorl	%r14d, %r14d
	jmp	279f
276:
	movq	$0, 224(%rsp)
	xorl	%ebx, %ebx
	xorl	%r14d, %r14d
	movl	$0, 216(%rsp)
277:
	movq	96(%rsp), %rdi
	movq	120(%rsp), %rcx
	jmp	280f
278:
	movq	-8(%r14), %rbx
	movq	(%r14), %r14
	movq	232(%rsp), %rcx
	xorb	$3, %cl
	movl	%ecx, 216(%rsp)
279:
	testb	$1, %al
	movq	120(%rsp), %rcx
	jne	280f
	movq	320(%rsp), %rax
	movq	(%rax), %rbx
	movq	8(%rax), %r14
280:
	cmpq	$0, 1144(%rsp)
	je	281f
	movq	%r15, %rdi
	callq	rattle_dealloc@PLT
	movq	120(%rsp), %rcx
	movq	96(%rsp), %rdi
281:
	testq	%rcx, %rcx
	movq	272(%rsp), %r13
	je	282f
	movq	240(%rsp), %rdi
	callq	rattle_dealloc@PLT
	movq	96(%rsp), %rdi
282:
	cmpb	$0, 224(%rsp)
	je	204b
	leaq	40(%rsp), %rax
	movq	%rax, 48(%rsp)
	pxor	%xmm0, %xmm0
	leaq	56(%rsp), %rcx
	movdqu	%xmm0, (%rcx)
	movdqa	%xmm0, 1264(%rsp)
	movdqa	%xmm0, 1248(%rsp)
	testb	$1, 46(%rsp)
	je	284f
	leaq	1248(%rsp), %rdi
	movq	248(%rsp), %rsi
	movq	136(%rsp), %rdx
	callq	"mime_tool::line::escape::escaped"
	cmpb	$0, 1248(%rsp)
	jne	338f
	movq	1256(%rsp), %r15
	movq	1264(%rsp), %rax
	movq	%rax, 232(%rsp)
	movq	1272(%rsp), %rax
	movq	%rax, 240(%rsp)
	pxor	%xmm0, %xmm0
	movdqa	%xmm0, 1264(%rsp)
	movdqa	%xmm0, 1248(%rsp)
	leaq	1248(%rsp), %rdi
	movq	%rbx, %rsi
	movq	%r14, %rdx
	callq	"mime_tool::line::escape::escaped"
	cmpb	$0, 1248(%rsp)
	je	350f
283:
	cmpq	$0, 240(%rsp)
	je	338f
	movq	%r15, %rdi
	callq	rattle_dealloc@PLT
	jmp	338f
284:
	movq	%rax, 592(%rsp)
	leaq	600(%rsp), %rcx
	movdqu	%xmm0, (%rcx)
	cmpq	$0, 136(%rsp)
	jne	369f
	xorl	%r13d, %r13d
	xorl	%ebp, %ebp
285:
	leaq	(%rax,%rbp), %rdi
	movq	%rdi, %rcx
	movq	248(%rsp), %rsi
	subq	%rsi, %rcx
	movq	136(%rsp), %r15
	cmpq	%r15, %rcx
	jae	291f
	cmpq	$4, %r15
	jb	286f
	cmpq	$32, %rcx
	jae	351f
286:
	xorl	%ecx, %ecx
	movq	136(%rsp), %r15
	movq	248(%rsp), %r9
287:
	movq	%rcx, %rdx
	andq	$3, %r15
	je	289f
	movq	%rcx, %rdx
	.p2align	4
288:
	movzbl	(%r9,%rdx), %r8d
	movb	%r8b, (%rdi,%rdx)
	incq	%rdx
	decq	%r15
	jne	288b
289:
	movq	136(%rsp), %r15
	subq	%r15, %rcx
	cmpq	$-4, %rcx
	ja	292f
	addq	%rbp, %rax
	addq	$3, %rax
	.p2align	4
290:
	movzbl	(%r9,%rdx), %ecx
	movb	%cl, -3(%rax,%rdx)
	movzbl	1(%r9,%rdx), %ecx
	movb	%cl, -2(%rax,%rdx)
	movzbl	2(%r9,%rdx), %ecx
	movb	%cl, -1(%rax,%rdx)
	movzbl	3(%r9,%rdx), %ecx
	movb	%cl, (%rax,%rdx)
	addq	$4, %rdx
	cmpq	%rdx, %r15
	jne	290b
	jmp	292f
291:
	movq	%r15, %rdx
	callq	memmove@PLT
292:
	addq	%r15, %rbp
	movq	%rbp, 600(%rsp)
	movq	%r13, 608(%rsp)
	leaq	1272(%rsp), %rcx
	movq	%r13, (%rcx)
	movq	592(%rsp), %rax
	movq	%rax, -16(%rcx)
	movq	600(%rsp), %rax
	movq	%rax, -8(%rcx)
	movq	1256(%rsp), %r15
	movq	1264(%rsp), %r10
	movq	1272(%rsp), %rax
	movq	%rax, 240(%rsp)
	leaq	40(%rsp), %rax
	movq	%rax, 592(%rsp)
	pxor	%xmm0, %xmm0
	leaq	600(%rsp), %rcx
	movdqu	%xmm0, (%rcx)
	testq	%r14, %r14
	jne	370f
	xorl	%r13d, %r13d
	xorl	%ebp, %ebp
293:
	leaq	(%rax,%rbp), %rdi
	movq	%rdi, %rcx
	subq	%rbx, %rcx
	cmpq	%r14, %rcx
	jae	299f
	cmpq	$4, %r14
	jb	294f
	cmpq	$32, %rcx
	jae	352f
294:
	xorl	%ecx, %ecx
295:
	movq	%r14, %rsi
	movq	%rcx, %rdx
	andq	$3, %rsi
	je	297f
	movq	%rcx, %rdx
	.p2align	4
296:
	movzbl	(%rbx,%rdx), %r8d
	movb	%r8b, (%rdi,%rdx)
	incq	%rdx
	decq	%rsi
	jne	296b
297:
	subq	%r14, %rcx
	cmpq	$-4, %rcx
	ja	300f
	addq	%rbp, %rax
	addq	$3, %rax
	.p2align	4
298:
	movzbl	(%rbx,%rdx), %ecx
	movb	%cl, -3(%rax,%rdx)
	movzbl	1(%rbx,%rdx), %ecx
	movb	%cl, -2(%rax,%rdx)
	movzbl	2(%rbx,%rdx), %ecx
	movb	%cl, -1(%rax,%rdx)
	movzbl	3(%rbx,%rdx), %ecx
	movb	%cl, (%rax,%rdx)
	addq	$4, %rdx
	cmpq	%rdx, %r14
	jne	298b
	jmp	300f
299:
	movq	%rbx, %rsi
	movq	%r14, %rdx
	movq	%r10, %rbx
	callq	memmove@PLT
	movq	%rbx, %r10
300:
	addq	%r14, %rbp
	movq	%rbp, 600(%rsp)
	movq	%r13, 608(%rsp)
	leaq	1272(%rsp), %rcx
	movq	%r13, (%rcx)
	movq	592(%rsp), %rax
	movq	%rax, -16(%rcx)
	movq	600(%rsp), %rax
	movq	%rax, -8(%rcx)
	movq	1256(%rsp), %r13
	movq	1264(%rsp), %rbx
	movq	1272(%rsp), %r8
	movq	88(%rsp), %rbp
301:
	movq	56(%rsp), %r14
	movq	64(%rsp), %r9
	movq	%r9, %rax
	subq	%r14, %rax
	testl	$256, 300(%rsp)
	jne	308f
	cmpq	%rax, %r10
	ja	393f
302:
	movq	48(%rsp), %r11
	pxor	%xmm0, %xmm0
	leaq	56(%rsp), %rax
	movdqu	%xmm0, (%rax)
	leaq	(%r11,%r14), %rdi
	movq	%rdi, %rax
	subq	%r15, %rax
	cmpq	%r10, %rax
	movq	%r8, 232(%rsp)
	jae	315f
	cmpq	$4, %r10
	jb	303f
	cmpq	$32, %rax
	jae	355f
303:
	xorl	%eax, %eax
304:
	movq	%r10, %rdx
	movq	%rax, %rcx
	andq	$3, %rdx
	je	306f
	movq	%rax, %rcx
	.p2align	4
305:
	movzbl	(%r15,%rcx), %esi
	movb	%sil, (%rdi,%rcx)
	incq	%rcx
	decq	%rdx
	jne	305b
306:
	subq	%r10, %rax
	cmpq	$-4, %rax
	ja	316f
	leaq	(%r11,%r14), %rax
	addq	$3, %rax
	.p2align	4
307:
	movzbl	(%r15,%rcx), %edx
	movb	%dl, -3(%rax,%rcx)
	movzbl	1(%r15,%rcx), %edx
	movb	%dl, -2(%rax,%rcx)
	movzbl	2(%r15,%rcx), %edx
	movb	%dl, -1(%rax,%rcx)
	movzbl	3(%r15,%rcx), %edx
	movb	%dl, (%rax,%rcx)
	addq	$4, %rcx
	cmpq	%rcx, %r10
	jne	307b
	jmp	316f
308:
	cmpq	%rax, %rbx
	ja	394f
309:
	movq	48(%rsp), %r10
	pxor	%xmm0, %xmm0
	leaq	56(%rsp), %rax
	movdqu	%xmm0, (%rax)
	leaq	(%r10,%r14), %rdi
	movq	%rdi, %rax
	subq	%r13, %rax
	cmpq	%rbx, %rax
	jae	318f
	cmpq	$4, %rbx
	jb	310f
	cmpq	$32, %rax
	jae	356f
310:
	xorl	%eax, %eax
311:
	movq	%rbx, %rdx
	movq	%rax, %rcx
	andq	$3, %rdx
	je	313f
	movq	%rax, %rcx
	.p2align	4
312:
	movzbl	(%r13,%rcx), %esi
	movb	%sil, (%rdi,%rcx)
	incq	%rcx
	decq	%rdx
	jne	312b
313:
	subq	%rbx, %rax
	cmpq	$-4, %rax
	ja	319f
	leaq	(%r10,%r14), %rax
	addq	$3, %rax
	.p2align	4
314:
	movzbl	(%r13,%rcx), %edx
	movb	%dl, -3(%rax,%rcx)
	movzbl	1(%r13,%rcx), %edx
	movb	%dl, -2(%rax,%rcx)
	movzbl	2(%r13,%rcx), %edx
	movb	%dl, -1(%rax,%rcx)
	movzbl	3(%r13,%rcx), %edx
	movb	%dl, (%rax,%rcx)
	addq	$4, %rcx
	cmpq	%rcx, %rbx
	jne	314b
	jmp	319f
315:
	movq	%r15, %rsi
	movq	%r10, %rdx
	movq	%r9, 224(%rsp)
	movq	%r10, %rbp
	movq	%r11, 120(%rsp)
	callq	memmove@PLT
	movq	120(%rsp), %r11
	movq	%rbp, %r10
	movq	224(%rsp), %r9
316:
	addq	%r10, %r14
	movq	%r11, 48(%rsp)
	movq	%r14, 56(%rsp)
	movq	%r9, 64(%rsp)
	movq	%r9, %rax
	subq	%r14, %rax
	movq	392(%rsp), %rcx
	cmpq	%rax, %rcx
	ja	399f
317:
	leaq	(%r11,%r14), %rdi
	movq	%rdi, %rax
	movq	1152(%rsp), %rsi
	subq	%rsi, %rax
	cmpq	%rcx, %rax
	jae	324f
	movzbl	215(%rsp), %eax
	movb	%al, (%rdi)
	testb	$1, 300(%rsp)
	jne	325f
	movb	$32, 1(%rdi)
	jmp	325f
318:
	movq	%r13, %rsi
	movq	%rbx, %rdx
	movq	%rbx, 120(%rsp)
	movq	%r8, 232(%rsp)
	movq	%r9, %rbx
	movq	%r10, 224(%rsp)
	callq	memmove@PLT
	movq	224(%rsp), %r10
	movq	%rbx, %r9
	movq	232(%rsp), %r8
	movq	120(%rsp), %rbx
319:
	addq	%rbx, %r14
	movq	%r10, 48(%rsp)
	movq	%r14, 56(%rsp)
	movq	%r9, 64(%rsp)
	cmpq	%r14, %r9
	je	400f
320:
	movl	388(%rsp), %eax
	movb	%al, (%r10,%r14)
	incq	%r14
	movq	%r10, 48(%rsp)
	movq	%r14, 56(%rsp)
	movq	%r9, 64(%rsp)
	xorl	%ebx, %ebx
321:
	testq	%r8, %r8
	je	322f
	movq	%r13, %rdi
	callq	rattle_dealloc@PLT
322:
	cmpq	$0, 240(%rsp)
	je	337f
323:
	movq	%r15, %rdi
	callq	rattle_dealloc@PLT
	testb	%bl, %bl
	movq	272(%rsp), %r13
	jne	338f
	jmp	342f
324:
	movq	392(%rsp), %rdx
	movq	%r9, %rbp
	movq	%r11, 120(%rsp)
	callq	memcpy@PLT
	movq	120(%rsp), %r11
	movq	%rbp, %r9
	movq	392(%rsp), %rcx
325:
	addq	%rcx, %r14
	movq	%r11, 48(%rsp)
	movq	%r14, 56(%rsp)
	movq	%r9, 64(%rsp)
	movq	%r9, %rax
	subq	%r14, %rax
	cmpq	%rax, %rbx
	ja	401f
326:
	pxor	%xmm0, %xmm0
	leaq	56(%rsp), %rax
	movdqu	%xmm0, (%rax)
	leaq	(%r11,%r14), %rdi
	movq	%rdi, %rax
	subq	%r13, %rax
	cmpq	%rbx, %rax
	jae	332f
	cmpq	$4, %rbx
	movq	232(%rsp), %r8
	jb	327f
	cmpq	$32, %rax
	jae	360f
327:
	xorl	%eax, %eax
328:
	movq	%rbx, %rdx
	movq	%rax, %rcx
	andq	$3, %rdx
	je	330f
	movq	%rax, %rcx
	.p2align	4
329:
	movzbl	(%r13,%rcx), %esi
	movb	%sil, (%rdi,%rcx)
	incq	%rcx
	decq	%rdx
	jne	329b
330:
	subq	%rbx, %rax
	cmpq	$-4, %rax
	ja	333f
	leaq	(%r11,%r14), %rax
	addq	$3, %rax
331:
	movzbl	(%r13,%rcx), %edx
	movb	%dl, -3(%rax,%rcx)
	movzbl	1(%r13,%rcx), %edx
	movb	%dl, -2(%rax,%rcx)
	movzbl	2(%r13,%rcx), %edx
	movb	%dl, -1(%rax,%rcx)
	movzbl	3(%r13,%rcx), %edx
	movb	%dl, (%rax,%rcx)
	addq	$4, %rcx
	cmpq	%rcx, %rbx
	jne	331b
	jmp	333f
332:
	movq	%r13, %rsi
	movq	%rbx, %rdx
	movq	%r9, 224(%rsp)
	movq	%r11, %rbp
	callq	memmove@PLT
	movq	%rbp, %r11
	movq	224(%rsp), %r9
	movq	232(%rsp), %r8
333:
	addq	%rbx, %r14
	movq	%r11, 48(%rsp)
	movq	%r14, 56(%rsp)
	movq	%r9, 64(%rsp)
	cmpq	%r14, %r9
	je	403f
334:
	movl	388(%rsp), %eax
	movb	%al, (%r11,%r14)
	incq	%r14
	movq	%r11, 48(%rsp)
	movq	%r14, 56(%rsp)
	movq	%r9, 64(%rsp)
	xorl	%ebx, %ebx
335:
	testq	%r8, %r8
	je	336f
	movq	%r13, %rdi
	callq	rattle_dealloc@PLT
336:
	cmpq	$0, 240(%rsp)
	movq	88(%rsp), %rbp
	jne	323b
337:
	movq	272(%rsp), %r13
	testb	%bl, %bl
	je	342f
338:
	cmpq	$0, 64(%rsp)
	je	339f
	movq	48(%rsp), %rdi
	callq	rattle_dealloc@PLT
339:
	testq	%r13, %r13
	movq	168(%rsp), %rbx
	je	341f
340:
	movq	96(%rsp), %rdi
	callq	rattle_dealloc@PLT
341:
	cmpq	$0, 200(%rsp)
	jne	206b
	jmp	208b
342:
	movl	300(%rsp), %ecx
	movw	%cx, 336(%rsp)
	movzbl	46(%rsp), %edx
	movb	%dl, 338(%rsp)
	movq	184(%rsp), %rax
	movq	(%rax), %r13
	movq	8(%rax), %r14
	movw	%cx, 1248(%rsp)
	movb	%dl, 1250(%rsp)
	testb	$1, 79(%rsp)
	je	345f
343:
	testb	$1, 47(%rsp)
	jne	429f
	cmpb	$0, 144(%rsp)
	je	357f
	pxor	%xmm0, %xmm0
	movdqa	%xmm0, 608(%rsp)
	movdqa	%xmm0, 592(%rsp)
	leaq	1272(%rsp), %rax
	movdqu	%xmm0, -16(%rax)
	movl	$0, 36(%rax)
	movl	$0, 33(%rax)
	leaq	40(%rsp), %r8
	movq	%r8, 1248(%rsp)
	movq	$0, 1296(%rsp)
	movb	$0, 1304(%rsp)
	movl	$32, 1272(%rsp)
	movl	$0, 12(%rax)
	movq	$0, 4(%rax)
	movq	$-1, 1288(%rsp)
	movq	176(%rsp), %rax
	movl	%eax, %ecx
	movdqa	%xmm0, 400(%rsp)
	movq	$0, 416(%rsp)
	movl	$24, %r15d
	cmpl	$100, %eax
	jb	374f
344:
	movl	%ecx, %eax
	imulq	$1374389535, %rax, %rax
	shrq	$37, %rax
	imull	$100, %eax, %edx
	movl	%ecx, %esi
	subl	%edx, %esi
	imull	$103, %esi, %edx
	movzwl	%dx, %edx
	shrl	$10, %edx
	leal	(%rdx,%rdx), %edi
	leal	(%rdi,%rdi,4), %edi
	subb	%dil, %sil
	orb	$48, %sil
	movb	%sil, 399(%rsp,%r15)
	orb	$48, %dl
	movb	%dl, 398(%rsp,%r15)
	addq	$-2, %r15
	cmpq	$9999, %rcx
	movq	%rax, %rcx
	ja	344b
	jmp	375f
345:
	movq	80(%rsp), %rbx
	movq	%rbx, (%rsp)
	movq	$0, 8(%rsp)
	leaq	48(%rsp), %rdi
	leaq	1248(%rsp), %rsi
	movq	%r13, %rdx
	movq	%r14, %rcx
	movl	$1, %r8d
	movq	96(%rsp), %r9
	callq	"mime_tool::explain::lines::push_rules"
	testb	%al, %al
	jne	346f
	movq	%rbx, 8(%rsp)
	movq	%r12, (%rsp)
	leaq	48(%rsp), %rdi
	leaq	1248(%rsp), %rsi
	movq	%r13, %rdx
	movq	%r14, %rcx
	xorl	%r8d, %r8d
	movq	152(%rsp), %r9
	callq	"mime_tool::explain::lines::push_rules"
	testb	%al, %al
	je	343b
346:
	movq	272(%rsp), %r13
	movq	168(%rsp), %rbx
347:
	cmpq	$0, 64(%rsp)
	je	348f
	movq	48(%rsp), %rdi
	callq	rattle_dealloc@PLT
348:
	testq	%r13, %r13
	jne	340b
	jmp	341b
349:
	cmpq	$0, 416(%rsp)
	jne	354f
	jmp	211b
350:
	movq	1256(%rsp), %r13
	movq	1264(%rsp), %rbx
	movq	1272(%rsp), %r8
	movq	232(%rsp), %r10
	jmp	301b
351:
	movq	136(%rsp), %r15
	cmpq	$32, %r15
	jae	361f
	xorl	%ecx, %ecx
	movq	248(%rsp), %r9
	jmp	363f
352:
	cmpq	$32, %r14
	jae	365f
	xorl	%ecx, %ecx
	jmp	367f
353:
	testq	%r15, %r15
	je	211b
354:
	movq	400(%rsp), %rdi
	jmp	210b
355:
	cmpq	$32, %r10
	jae	385f
	xorl	%eax, %eax
	jmp	387f
356:
	cmpq	$32, %rbx
	jae	389f
	xorl	%eax, %eax
	jmp	391f
357:
	movq	552(%rsp), %rcx
	testq	%rcx, %rcx
	je	405f
	cmpq	$128, %rcx
	movl	$128, %eax
	cmovbq	%rcx, %rax
	xorl	%ecx, %ecx
	movq	168(%rsp), %r8
	jmp	359f
358:
	incq	%rcx
	cmpq	%rcx, %rax
	je	384f
359:
	movzbl	(%r8,%rcx), %edx
	cmpl	$31, %edx
	ja	358b
	leaq	.L67248b46a1a0(%rip), %rsi
	movl	$24, %ebx
	cmpl	$13, %edx
	ja	406f
	movl	$9728, %edi
	btl	%edx, %edi
	jb	358b
	jmp	406f
360:
	cmpq	$32, %rbx
	jae	395f
	xorl	%eax, %eax
	jmp	397f
361:
	movq	%r15, %rcx
	andq	$-32, %rcx
	leaq	(%rax,%rbp), %rdx
	addq	$16, %rdx
	xorl	%esi, %esi
	movq	248(%rsp), %r9
362:
	movdqu	(%r9,%rsi), %xmm0
	movdqu	16(%r9,%rsi), %xmm1
	movdqu	%xmm0, -16(%rdx,%rsi)
	movdqu	%xmm1, (%rdx,%rsi)
	addq	$32, %rsi
	cmpq	%rsi, %rcx
	jne	362b
	movq	136(%rsp), %r15
	cmpq	%rcx, %r15
	je	292b
	testb	$28, %r15b
	je	287b
363:
	movq	%rcx, %rdx
	movq	%r15, %rcx
	andq	$-4, %rcx
364:
	movl	(%r9,%rdx), %esi
	movl	%esi, (%rdi,%rdx)
	addq	$4, %rdx
	cmpq	%rdx, %rcx
	jne	364b
	movq	136(%rsp), %r15
	cmpq	%rcx, %r15
	jne	287b
	jmp	292b
365:
	movq	%r14, %rcx
	andq	$-32, %rcx
	leaq	(%rax,%rbp), %rdx
	addq	$16, %rdx
	xorl	%esi, %esi
366:
	movdqu	(%rbx,%rsi), %xmm0
	movdqu	16(%rbx,%rsi), %xmm1
	movdqu	%xmm0, -16(%rdx,%rsi)
	movdqu	%xmm1, (%rdx,%rsi)
	addq	$32, %rsi
	cmpq	%rsi, %rcx
	jne	366b
	cmpq	%rcx, %r14
	je	300b
	testb	$28, %r14b
	je	295b
367:
	movq	%rcx, %rdx
	movq	%r14, %rcx
	andq	$-4, %rcx
368:
	movl	(%rbx,%rdx), %esi
	movl	%esi, (%rdi,%rdx)
	addq	$4, %rdx
	cmpq	%rdx, %rcx
	jne	368b
	cmpq	%rcx, %r14
	je	300b
	jmp	295b
369:
	leaq	592(%rsp), %rdi
	movq	136(%rsp), %rsi
	callq	"std_alloc::vec::Vec::grow_amortized::<#1d775b5957dec42c>"
	testb	%al, %al
	je	402f
	movq	592(%rsp), %rax
	movq	600(%rsp), %rbp
	movq	608(%rsp), %r13
	jmp	285b
370:
	movq	%r10, 232(%rsp)
	leaq	592(%rsp), %rdi
	movq	%r14, %rsi
	callq	"std_alloc::vec::Vec::grow_amortized::<#1d775b5957dec42c>"
	testb	%al, %al
	movq	272(%rsp), %r13
	je	404f
	movq	592(%rsp), %rax
	movq	600(%rsp), %rbp
	movq	608(%rsp), %r13
	movq	232(%rsp), %r10
	jmp	293b
371:
	movq	%r10, %r15
	jmp	482f
372:
	movq	%r12, %rcx
	decq	%rcx
	je	373f
	imulq	$56, %rcx, %rcx
	movq	48(%r14), %rdx
	movq	%rdx, 1296(%rsp)
	movups	(%r14), %xmm0
	movups	16(%r14), %xmm1
	movups	32(%r14), %xmm2
	movaps	%xmm2, 1280(%rsp)
	movaps	%xmm1, 1264(%rsp)
	movaps	%xmm0, 1248(%rsp)
	movq	48(%r14,%rcx), %rdx
	movups	(%r14,%rcx), %xmm0
	movups	16(%r14,%rcx), %xmm1
	movups	32(%r14,%rcx), %xmm2
	movups	%xmm0, (%r14)
	movq	%rdx, 48(%r14)
	movups	%xmm2, 32(%r14)
	movups	%xmm1, 16(%r14)
	movq	1296(%rsp), %rdx
	movq	%rdx, 48(%r14,%rcx)
	movdqa	1248(%rsp), %xmm0
	movdqa	1264(%rsp), %xmm1
	movdqa	1280(%rsp), %xmm2
	movdqu	%xmm2, 32(%r14,%rcx)
	movdqu	%xmm1, 16(%r14,%rcx)
	movdqu	%xmm0, (%r14,%rcx)
373:
	leaq	-2(%r12), %rsi
	movq	%rsi, %rdx
	shrq	%rdx
	movb	$1, %cl
	je	481f
	cmpq	$1, %rsi
	jbe	419f
	imulq	$56, %rsi, %rsi
	movq	104(%r14), %rdi
	movq	%rdi, 1296(%rsp)
	movups	56(%r14), %xmm0
	movups	72(%r14), %xmm1
	movups	88(%r14), %xmm2
	movaps	%xmm2, 1280(%rsp)
	movaps	%xmm1, 1264(%rsp)
	movaps	%xmm0, 1248(%rsp)
	movq	48(%r14,%rsi), %rdi
	movups	(%r14,%rsi), %xmm0
	movups	16(%r14,%rsi), %xmm1
	movups	32(%r14,%rsi), %xmm2
	movups	%xmm0, 56(%r14)
	movq	%rdi, 104(%r14)
	movups	%xmm2, 88(%r14)
	movups	%xmm1, 72(%r14)
	movq	1296(%rsp), %rdi
	movq	%rdi, 48(%r14,%rsi)
	movdqa	1248(%rsp), %xmm0
	movdqa	1264(%rsp), %xmm1
	movdqa	1280(%rsp), %xmm2
	movdqu	%xmm2, 32(%r14,%rsi)
	movdqu	%xmm1, 16(%r14,%rsi)
	movdqu	%xmm0, (%r14,%rsi)
	jmp	420f
374:
	movq	%rcx, %rax
375:
	cmpq	$10, %rax
	jb	376f
	movzbl	%al, %ecx
	imull	$205, %ecx, %ecx
	shrl	$11, %ecx
	leal	(%rcx,%rcx), %edx
	leal	(%rdx,%rdx,4), %edx
	subb	%dl, %al
	orb	$48, %al
	movb	%al, 399(%rsp,%r15)
	orb	$48, %cl
	movb	%cl, 398(%rsp,%r15)
	addq	$-2, %r15
	jmp	377f
376:
	orb	$48, %al
	movb	%al, 399(%rsp,%r15)
	decq	%r15
377:
	leaq	-24(%r15), %r12
	negq	%r12
	cmpq	$24, %r15
	jne	453f
	xorl	%ebx, %ebx
	movb	$1, 80(%rsp)
378:
	leaq	(%rsp,%r15), %rsi
	addq	$400, %rsi
	movq	%r8, 144(%rsp)
	leaq	(%r8,%rbx), %rdi
	movq	%r12, %rdx
	callq	memcpy@PLT
	leaq	592(%rsp), %rdi
	leaq	336(%rsp), %rsi
	movq	%r13, %rdx
	movq	%r14, %rcx
	movq	128(%rsp), %r14
	movq	%r14, %r8
	movq	192(%rsp), %r9
	callq	"mime_tool::explain::lines::alias_mark"
	cmpb	$0, 592(%rsp)
	je	380f
	cmpb	$0, 80(%rsp)
	movq	168(%rsp), %rbx
	movq	272(%rsp), %r13
	jne	347b
379:
	movq	144(%rsp), %rdi
	callq	rattle_dealloc@PLT
	jmp	347b
380:
	movq	600(%rsp), %r15
	movq	608(%rsp), %rax
	movq	%rax, 240(%rsp)
	movq	616(%rsp), %rax
	movq	%rax, 176(%rsp)
	pxor	%xmm0, %xmm0
	movdqa	%xmm0, 1264(%rsp)
	movdqa	%xmm0, 1248(%rsp)
	testb	$1, 46(%rsp)
	movq	272(%rsp), %r13
	je	412f
	leaq	1248(%rsp), %rdi
	movq	%r14, %rsi
	movq	192(%rsp), %rdx
	callq	"mime_tool::line::escape::escaped"
	cmpb	$0, 1248(%rsp)
	je	444f
	cmpq	$0, 176(%rsp)
	movzbl	80(%rsp), %ebx
	je	382f
381:
	movq	%r15, %rdi
	callq	rattle_dealloc@PLT
382:
	testb	%bl, %bl
	movq	168(%rsp), %rbx
	jne	347b
	jmp	379b
383:
	xorl	%r14d, %r14d
	movl	$0, 216(%rsp)
	movq	88(%rsp), %rbp
	jmp	277b
384:
	leaq	.Laafe98300121(%rip), %rsi
	movl	$10, %ebx
	jmp	406f
385:
	movq	%r10, %rax
	andq	$-32, %rax
	leaq	(%r11,%r14), %rcx
	addq	$16, %rcx
	xorl	%edx, %edx
386:
	movdqu	(%r15,%rdx), %xmm0
	movdqu	16(%r15,%rdx), %xmm1
	movdqu	%xmm0, -16(%rcx,%rdx)
	movdqu	%xmm1, (%rcx,%rdx)
	addq	$32, %rdx
	cmpq	%rdx, %rax
	jne	386b
	cmpq	%rax, %r10
	je	316b
	testb	$28, %r10b
	je	304b
387:
	movq	%rax, %rcx
	movq	%r10, %rax
	andq	$-4, %rax
388:
	movl	(%r15,%rcx), %edx
	movl	%edx, (%rdi,%rcx)
	addq	$4, %rcx
	cmpq	%rcx, %rax
	jne	388b
	cmpq	%rax, %r10
	je	316b
	jmp	304b
389:
	movq	%rbx, %rax
	andq	$-32, %rax
	leaq	(%r10,%r14), %rcx
	addq	$16, %rcx
	xorl	%edx, %edx
390:
	movdqu	(%r13,%rdx), %xmm0
	movdqu	16(%r13,%rdx), %xmm1
	movdqu	%xmm0, -16(%rcx,%rdx)
	movdqu	%xmm1, (%rcx,%rdx)
	addq	$32, %rdx
	cmpq	%rdx, %rax
	jne	390b
	cmpq	%rax, %rbx
	je	319b
	testb	$28, %bl
	je	311b
391:
	movq	%rax, %rcx
	movq	%rbx, %rax
	andq	$-4, %rax
392:
	movl	(%r13,%rcx), %edx
	movl	%edx, (%rdi,%rcx)
	addq	$4, %rcx
	cmpq	%rcx, %rax
	jne	392b
	cmpq	%rax, %rbx
	je	319b
	jmp	311b
393:
	movq	%rbx, 120(%rsp)
	leaq	48(%rsp), %rdi
	movq	%r10, %rbp
	movq	%r10, %rsi
	movq	%r8, %rbx
	callq	"std_alloc::vec::Vec::grow_amortized::<#1d775b5957dec42c>"
	movq	%rbx, %r8
	movb	$1, %bl
	testb	%al, %al
	je	335b
	movq	56(%rsp), %r14
	movq	64(%rsp), %r9
	movq	120(%rsp), %rbx
	movq	%rbp, %r10
	jmp	302b
394:
	leaq	48(%rsp), %rdi
	movq	%rbx, 120(%rsp)
	movq	%rbx, %rsi
	movq	%r8, %rbx
	callq	"std_alloc::vec::Vec::grow_amortized::<#1d775b5957dec42c>"
	movq	%rbx, %r8
	movb	$1, %bl
	testb	%al, %al
	je	321b
	movq	56(%rsp), %r14
	movq	64(%rsp), %r9
	movq	120(%rsp), %rbx
	jmp	309b
395:
	movq	%rbx, %rax
	andq	$-32, %rax
	leaq	(%r11,%r14), %rcx
	addq	$16, %rcx
	xorl	%edx, %edx
396:
	movdqu	(%r13,%rdx), %xmm0
	movdqu	16(%r13,%rdx), %xmm1
	movdqu	%xmm0, -16(%rcx,%rdx)
	movdqu	%xmm1, (%rcx,%rdx)
	addq	$32, %rdx
	cmpq	%rdx, %rax
	jne	396b
	cmpq	%rax, %rbx
	je	333b
	testb	$28, %bl
	je	328b
397:
	movq	%rax, %rcx
	movq	%rbx, %rax
	andq	$-4, %rax
398:
	movl	(%r13,%rcx), %edx
	movl	%edx, (%rdi,%rcx)
	addq	$4, %rcx
	cmpq	%rcx, %rax
	jne	398b
	cmpq	%rax, %rbx
	je	333b
	jmp	328b
399:
	movq	%rbx, 120(%rsp)
	leaq	48(%rsp), %rdi
	movq	%rcx, %rsi
	callq	"std_alloc::vec::Vec::grow_amortized::<#1d775b5957dec42c>"
	movb	$1, %bl
	testb	%al, %al
	movq	232(%rsp), %r8
	je	335b
	movq	48(%rsp), %r11
	movq	56(%rsp), %r14
	movq	64(%rsp), %r9
	movq	392(%rsp), %rcx
	movq	120(%rsp), %rbx
	jmp	317b
400:
	leaq	48(%rsp), %rdi
	movl	$1, %esi
	movq	%r8, %rbx
	callq	"std_alloc::vec::Vec::grow_amortized::<#1d775b5957dec42c>"
	movq	%rbx, %r8
	movb	$1, %bl
	testb	%al, %al
	je	321b
	movq	48(%rsp), %r10
	movq	56(%rsp), %r14
	movq	64(%rsp), %r9
	jmp	320b
401:
	leaq	48(%rsp), %rdi
	movq	%rbx, 120(%rsp)
	movq	%rbx, %rsi
	callq	"std_alloc::vec::Vec::grow_amortized::<#1d775b5957dec42c>"
	movb	$1, %bl
	testb	%al, %al
	movq	232(%rsp), %r8
	je	335b
	movq	48(%rsp), %r11
	movq	56(%rsp), %r14
	movq	64(%rsp), %r9
	movq	120(%rsp), %rbx
	jmp	326b
402:
	cmpq	$0, 608(%rsp)
	je	338b
	movq	592(%rsp), %rdi
	callq	rattle_dealloc@PLT
	jmp	338b
403:
	leaq	48(%rsp), %rdi
	movl	$1, %esi
	movq	%r8, %rbx
	callq	"std_alloc::vec::Vec::grow_amortized::<#1d775b5957dec42c>"
	movq	%rbx, %r8
	movb	$1, %bl
	testb	%al, %al
	je	335b
	movq	48(%rsp), %r11
	movq	56(%rsp), %r14
	movq	64(%rsp), %r9
	jmp	334b
404:
	cmpq	$0, 608(%rsp)
	movq	88(%rsp), %rbp
	je	283b
	movq	592(%rsp), %rdi
	callq	rattle_dealloc@PLT
	jmp	283b
405:
	leaq	.L74bbd0aeee0d(%rip), %rsi
	movl	$22, %ebx
406:
	movq	56(%rsp), %r14
	movq	64(%rsp), %r15
	movq	%r15, %rax
	subq	%r14, %rax
	cmpq	$12, %rax
	jbe	456f
407:
	movq	48(%rsp), %r12
	leaq	(%r12,%r14), %rax
	leaq	.L1aa50446f32c(%rip), %rcx
	movq	%rax, %rdx
	subq	%rcx, %rdx
	cmpq	$12, %rdx
	ja	408f
	movabsq	$2333824924645138464, %rcx
	movq	%rcx, (%rax)
	movl	$1701736302, 8(%rax)
	movb	$32, 12(%rax)
	jmp	409f
408:
	movabsq	$2334393406729511785, %rcx
	movq	%rcx, 5(%rax)
	movabsq	$2333824924645138464, %rcx
	movq	%rcx, (%rax)
409:
	addq	$13, %r14
	movq	%r12, 48(%rsp)
	movq	%r14, 56(%rsp)
	movq	%r15, 64(%rsp)
	movq	%r15, %rax
	subq	%r14, %rax
	cmpq	%rax, %rbx
	ja	457f
410:
	leaq	(%r12,%r14), %rdi
	movq	%rdi, %rax
	subq	%rsi, %rax
	cmpq	%rbx, %rax
	jae	411f
	cmpq	$8, %rax
	jae	421f
	xorl	%eax, %eax
	jmp	423f
411:
	movq	%rbx, %rdx
	callq	memcpy@PLT
	jmp	427f
412:
	leaq	40(%rsp), %rax
	movq	%rax, 400(%rsp)
	leaq	408(%rsp), %rcx
	movdqu	%xmm0, (%rcx)
	movq	192(%rsp), %rbp
	testq	%rbp, %rbp
	jne	475f
	xorl	%r14d, %r14d
	xorl	%r13d, %r13d
413:
	leaq	(%rax,%r13), %rdi
	movq	%rdi, %rcx
	movq	128(%rsp), %rsi
	subq	%rsi, %rcx
	cmpq	%rbp, %rcx
	jae	440f
	cmpq	$4, %rbp
	movq	144(%rsp), %rsi
	jb	414f
	cmpq	$32, %rcx
	jae	462f
414:
	xorl	%ecx, %ecx
	movq	128(%rsp), %r9
415:
	movq	%rbp, %r10
	movq	%rcx, %rdx
	andq	$3, %r10
	je	417f
	movq	%rcx, %rdx
416:
	movzbl	(%r9,%rdx), %r8d
	movb	%r8b, (%rdi,%rdx)
	incq	%rdx
	decq	%r10
	jne	416b
417:
	subq	%rbp, %rcx
	cmpq	$-4, %rcx
	ja	441f
	addq	%r13, %rax
	addq	$3, %rax
418:
	movzbl	(%r9,%rdx), %ecx
	movb	%cl, -3(%rax,%rdx)
	movzbl	1(%r9,%rdx), %ecx
	movb	%cl, -2(%rax,%rdx)
	movzbl	2(%r9,%rdx), %ecx
	movb	%cl, -1(%rax,%rdx)
	movzbl	3(%r9,%rdx), %ecx
	movb	%cl, (%rax,%rdx)
	addq	$4, %rdx
	cmpq	%rdx, %rbp
	jne	418b
	jmp	441f
419:
	testq	%rsi, %rsi
	jne	420f
	imulq	$56, %rsi, %rsi
	movq	48(%r14,%rsi), %rdi
	movq	%rdi, 1296(%rsp)
	movups	(%r14,%rsi), %xmm0
	movups	16(%r14,%rsi), %xmm1
	movups	32(%r14,%rsi), %xmm2
	movaps	%xmm2, 1280(%rsp)
	movaps	%xmm1, 1264(%rsp)
	movaps	%xmm0, 1248(%rsp)
	movq	104(%r14), %rdi
	movups	56(%r14), %xmm0
	movups	72(%r14), %xmm1
	movups	88(%r14), %xmm2
	movups	%xmm0, (%r14,%rsi)
	movq	%rdi, 48(%r14,%rsi)
	movups	%xmm2, 32(%r14,%rsi)
	movups	%xmm1, 16(%r14,%rsi)
	movq	1296(%rsp), %rsi
	movq	%rsi, 104(%r14)
	movdqa	1248(%rsp), %xmm0
	movdqa	1264(%rsp), %xmm1
	movdqa	1280(%rsp), %xmm2
	movdqu	%xmm2, 88(%r14)
	movdqu	%xmm1, 72(%r14)
	movdqu	%xmm0, 56(%r14)
420:
	cmpq	$1, %rdx
	je	481f
	leaq	-3(%r12), %rsi
	cmpq	$2, %rsi
	jbe	442f
	imulq	$56, %rsi, %rsi
	movq	160(%r14), %rdi
	movq	%rdi, 1296(%rsp)
	movups	112(%r14), %xmm0
	movups	128(%r14), %xmm1
	movups	144(%r14), %xmm2
	movaps	%xmm2, 1280(%rsp)
	movaps	%xmm1, 1264(%rsp)
	movaps	%xmm0, 1248(%rsp)
	movq	48(%r14,%rsi), %rdi
	movups	(%r14,%rsi), %xmm0
	movups	16(%r14,%rsi), %xmm1
	movups	32(%r14,%rsi), %xmm2
	movups	%xmm0, 112(%r14)
	movq	%rdi, 160(%r14)
	movups	%xmm2, 144(%r14)
	movups	%xmm1, 128(%r14)
	movq	1296(%rsp), %rdi
	movq	%rdi, 48(%r14,%rsi)
	movdqa	1248(%rsp), %xmm0
	movdqa	1264(%rsp), %xmm1
	movdqa	1280(%rsp), %xmm2
	movdqu	%xmm2, 32(%r14,%rsi)
	movdqu	%xmm1, 16(%r14,%rsi)
	movdqu	%xmm0, (%r14,%rsi)
	jmp	443f
421:
	movl	%ebx, %eax
	andl	$-8, %eax
	movq	(%rsi), %rcx
	movq	%rcx, (%rdi)
	cmpq	$8, %rax
	je	422f
	movq	8(%rsi), %rcx
	movq	%rcx, 8(%rdi)
	cmpl	$16, %eax
	je	422f
	movq	16(%rsi), %rcx
	movq	%rcx, 16(%rdi)
422:
	cmpl	%eax, %ebx
	je	427f
423:
	movq	%rbx, %rdx
	movq	%rax, %rcx
	andq	$3, %rdx
	je	425f
	movq	%rax, %rcx
424:
	movzbl	(%rsi,%rcx), %r8d
	movb	%r8b, (%rdi,%rcx)
	incq	%rcx
	decq	%rdx
	jne	424b
425:
	subl	%ebx, %eax
	cmpl	$-4, %eax
	ja	427f
	leaq	(%r12,%r14), %rax
	addq	$3, %rax
426:
	movl	(%rsi,%rcx), %edx
	movl	%edx, -3(%rax,%rcx)
	addq	$4, %rcx
	cmpq	%rcx, %rbx
	jne	426b
427:
	addq	%rbx, %r14
	movq	%r12, 48(%rsp)
	movq	%r14, 56(%rsp)
	movq	%r15, 64(%rsp)
	cmpq	%r14, %r15
	je	458f
428:
	movb	$10, (%r12,%r14)
	incq	%r14
	movq	%r12, 48(%rsp)
	movq	%r14, 56(%rsp)
	movq	%r15, 64(%rsp)
429:
	movq	272(%rsp), %r13
430:
	movzbl	216(%rsp), %eax
	shll	$3, %eax
	leaq	".Lswitch.table.mime_tool::explain::explain_lists::<#2e1b2a3647f851f7>"(%rip), %rcx
	movq	(%rax,%rcx), %rbx
	leaq	".Lswitch.table.mime_tool::explain::explain_lists::<#2e1b2a3647f851f7>.2673"(%rip), %rcx
	movq	(%rax,%rcx), %rsi
	movq	56(%rsp), %r15
	movq	64(%rsp), %r12
	movq	%r12, %rax
	subq	%r15, %rax
	cmpq	%rax, %rbx
	ja	439f
431:
	movq	48(%rsp), %r14
	leaq	(%r14,%r15), %rdi
	movq	%rdi, %rax
	subq	%rsi, %rax
	cmpq	%rbx, %rax
	jae	434f
	movl	%ebx, %eax
	andl	$3, %eax
	movq	%rbx, %rdx
	andq	$-4, %rdx
	leaq	(%r14,%r15), %r8
	addq	$3, %r8
	xorl	%ecx, %ecx
	.p2align	4
432:
	movzbl	(%rsi,%rcx), %r9d
	movb	%r9b, -3(%r8,%rcx)
	movzbl	1(%rsi,%rcx), %r9d
	movb	%r9b, -2(%r8,%rcx)
	movzbl	2(%rsi,%rcx), %r9d
	movb	%r9b, -1(%r8,%rcx)
	movzbl	3(%rsi,%rcx), %r9d
	movb	%r9b, (%r8,%rcx)
	addq	$4, %rcx
	cmpq	%rcx, %rdx
	jne	432b
	.p2align	4
433:
	movzbl	(%rsi,%rcx), %edx
	movb	%dl, (%rdi,%rcx)
	incq	%rcx
	decq	%rax
	jne	433b
	jmp	435f
434:
	movq	%rbx, %rdx
	callq	memcpy@PLT
435:
	addq	%rbx, %r15
	movq	%r14, 48(%rsp)
	movq	%r15, 56(%rsp)
	movq	%r12, 64(%rsp)
	testq	%r13, %r13
	je	436f
	movq	96(%rsp), %rdi
	callq	rattle_dealloc@PLT
436:
	cmpq	$0, 200(%rsp)
	je	437f
	movq	152(%rsp), %rdi
	callq	rattle_dealloc@PLT
437:
	movq	%r12, %xmm0
	movq	%r15, %xmm1
	punpcklqdq	%xmm0, %xmm1
	movb	$1, %r13b
	cmpb	$0, 45(%rsp)
	jne	438f
	movq	168(%rsp), %rdi
	movdqa	%xmm1, 96(%rsp)
	callq	rattle_dealloc@PLT
	movdqa	96(%rsp), %xmm1
438:
	xorl	%ebx, %ebx
	testb	$1, 47(%rsp)
	je	212b
	jmp	213b
439:
	movq	%rsi, %r14
	leaq	48(%rsp), %rdi
	movq	%rbx, %rsi
	callq	"std_alloc::vec::Vec::grow_amortized::<#1d775b5957dec42c>"
	testb	%al, %al
	je	450f
	movq	56(%rsp), %r15
	movq	64(%rsp), %r12
	movq	%r14, %rsi
	jmp	431b
440:
	movq	%rbp, %rdx
	callq	memmove@PLT
	movq	144(%rsp), %rsi
441:
	addq	%rbp, %r13
	movq	%r13, 408(%rsp)
	movq	%r14, 416(%rsp)
	leaq	1272(%rsp), %rcx
	movq	%r14, (%rcx)
	movq	400(%rsp), %rax
	movq	%rax, -16(%rcx)
	movq	408(%rsp), %rax
	movq	%rax, -8(%rcx)
	movq	1256(%rsp), %r13
	movq	1264(%rsp), %rdx
	movq	1272(%rsp), %rax
	movq	%rax, 128(%rsp)
	jmp	445f
442:
	je	443f
	imulq	$56, %rsi, %rsi
	movq	48(%r14,%rsi), %rdi
	movq	%rdi, 1296(%rsp)
	movups	(%r14,%rsi), %xmm0
	movups	16(%r14,%rsi), %xmm1
	movups	32(%r14,%rsi), %xmm2
	movaps	%xmm2, 1280(%rsp)
	movaps	%xmm1, 1264(%rsp)
	movaps	%xmm0, 1248(%rsp)
	movq	160(%r14), %rdi
	movups	112(%r14), %xmm0
	movups	128(%r14), %xmm1
	movups	144(%r14), %xmm2
	movups	%xmm0, (%r14,%rsi)
	movq	%rdi, 48(%r14,%rsi)
	movups	%xmm2, 32(%r14,%rsi)
	movups	%xmm1, 16(%r14,%rsi)
	movq	1296(%rsp), %rsi
	movq	%rsi, 160(%r14)
	movdqa	1248(%rsp), %xmm0
	movdqa	1264(%rsp), %xmm1
	movdqa	1280(%rsp), %xmm2
	movdqu	%xmm2, 144(%r14)
	movdqu	%xmm1, 128(%r14)
	movdqu	%xmm0, 112(%r14)
443:
	cmpq	$2, %rdx
	je	481f
	leaq	-4(%r12), %rsi
	cmpq	$3, %rsi
	jbe	454f
	imulq	$56, %rsi, %rsi
	movq	216(%r14), %rdi
	movq	%rdi, 1296(%rsp)
	movups	168(%r14), %xmm0
	movups	184(%r14), %xmm1
	movups	200(%r14), %xmm2
	movaps	%xmm2, 1280(%rsp)
	movaps	%xmm1, 1264(%rsp)
	movaps	%xmm0, 1248(%rsp)
	movq	48(%r14,%rsi), %rdi
	movups	(%r14,%rsi), %xmm0
	movups	16(%r14,%rsi), %xmm1
	movups	32(%r14,%rsi), %xmm2
	movups	%xmm0, 168(%r14)
	movq	%rdi, 216(%r14)
	movups	%xmm2, 200(%r14)
	movups	%xmm1, 184(%r14)
	movq	1296(%rsp), %rdi
	movq	%rdi, 48(%r14,%rsi)
	movdqa	1248(%rsp), %xmm0
	movdqa	1264(%rsp), %xmm1
	movdqa	1280(%rsp), %xmm2
	movdqu	%xmm2, 32(%r14,%rsi)
	movdqu	%xmm1, 16(%r14,%rsi)
	movdqu	%xmm0, (%r14,%rsi)
	jmp	455f
444:
	movq	1256(%rsp), %r13
	movq	1264(%rsp), %rdx
	movq	1272(%rsp), %rax
	movq	%rax, 128(%rsp)
	movq	144(%rsp), %rsi
445:
	movq	56(%rsp), %r14
	movq	64(%rsp), %rbp
	movq	%rbp, %rax
	subq	%r14, %rax
	cmpq	$7, %rax
	movq	%rdx, 192(%rsp)
	jbe	469f
446:
	addq	%r12, %rbx
	movq	48(%rsp), %r12
	movabsq	$2333824924645138464, %rax
	movq	%rax, (%r12,%r14)
	addq	$8, %r14
	movq	%r12, 48(%rsp)
	movq	%r14, 56(%rsp)
	movq	%rbp, 64(%rsp)
	movq	%rbp, %rax
	subq	%r14, %rax
	cmpq	%rax, %rbx
	ja	470f
447:
	pxor	%xmm0, %xmm0
	leaq	56(%rsp), %rax
	movdqu	%xmm0, (%rax)
	leaq	(%r12,%r14), %rdi
	movq	%rdi, %rax
	subq	%rsi, %rax
	cmpq	%rbx, %rax
	jae	449f
	cmpq	$4, %rbx
	jb	448f
	cmpq	$32, %rax
	jae	461f
448:
	xorl	%eax, %eax
	jmp	486f
449:
	movq	%rbx, %rdx
	callq	memmove@PLT
	movq	192(%rsp), %rdx
	jmp	488f
450:
	cmpq	$0, 64(%rsp)
	movq	168(%rsp), %rbx
	je	451f
	movq	48(%rsp), %rdi
	callq	rattle_dealloc@PLT
451:
	testq	%r13, %r13
	je	452f
	movq	96(%rsp), %rdi
	callq	rattle_dealloc@PLT
452:
	cmpq	$0, 200(%rsp)
	movq	152(%rsp), %rdi
	jne	207b
	jmp	208b
453:
	leaq	1248(%rsp), %rdi
	movq	%r12, %rsi
	callq	"std_alloc::vec::Vec::grow_amortized::<#1d775b5957dec42c>"
	testb	%al, %al
	je	459f
	movq	1248(%rsp), %r8
	movq	1256(%rsp), %rbx
	cmpq	$0, 1264(%rsp)
	sete	80(%rsp)
	jmp	378b
454:
	je	455f
	imulq	$56, %rsi, %rsi
	movq	48(%r14,%rsi), %rdi
	movq	%rdi, 1296(%rsp)
	movups	(%r14,%rsi), %xmm0
	movups	16(%r14,%rsi), %xmm1
	movups	32(%r14,%rsi), %xmm2
	movaps	%xmm2, 1280(%rsp)
	movaps	%xmm1, 1264(%rsp)
	movaps	%xmm0, 1248(%rsp)
	movq	216(%r14), %rdi
	movups	168(%r14), %xmm0
	movups	184(%r14), %xmm1
	movups	200(%r14), %xmm2
	movups	%xmm0, (%r14,%rsi)
	movq	%rdi, 48(%r14,%rsi)
	movups	%xmm2, 32(%r14,%rsi)
	movups	%xmm1, 16(%r14,%rsi)
	movq	1296(%rsp), %rsi
	movq	%rsi, 216(%r14)
	movdqa	1248(%rsp), %xmm0
	movdqa	1264(%rsp), %xmm1
	movdqa	1280(%rsp), %xmm2
	movdqu	%xmm2, 200(%r14)
	movdqu	%xmm1, 184(%r14)
	movdqu	%xmm0, 168(%r14)
455:
	cmpq	$3, %rdx
	je	481f
	leaq	-5(%r12), %rsi
	cmpq	$4, %rsi
	jbe	463f
	imulq	$56, %rsi, %rsi
	movq	272(%r14), %rdi
	movq	%rdi, 1296(%rsp)
	movups	224(%r14), %xmm0
	movups	240(%r14), %xmm1
	movups	256(%r14), %xmm2
	movaps	%xmm2, 1280(%rsp)
	movaps	%xmm1, 1264(%rsp)
	movaps	%xmm0, 1248(%rsp)
	movq	48(%r14,%rsi), %rdi
	movups	(%r14,%rsi), %xmm0
	movups	16(%r14,%rsi), %xmm1
	movups	32(%r14,%rsi), %xmm2
	movups	%xmm0, 224(%r14)
	movq	%rdi, 272(%r14)
	movups	%xmm2, 256(%r14)
	movups	%xmm1, 240(%r14)
	movq	1296(%rsp), %rdi
	movq	%rdi, 48(%r14,%rsi)
	movdqa	1248(%rsp), %xmm0
	movdqa	1264(%rsp), %xmm1
	movdqa	1280(%rsp), %xmm2
	movdqu	%xmm2, 32(%r14,%rsi)
	movdqu	%xmm1, 16(%r14,%rsi)
	movdqu	%xmm0, (%r14,%rsi)
	jmp	464f
456:
	movq	%rsi, %r12
	leaq	48(%rsp), %rdi
	movl	$13, %esi
	callq	"std_alloc::vec::Vec::grow_amortized::<#1d775b5957dec42c>"
	testb	%al, %al
	je	346b
	movq	56(%rsp), %r14
	movq	64(%rsp), %r15
	movq	%r12, %rsi
	jmp	407b
457:
	movq	%rsi, %r13
	leaq	48(%rsp), %rdi
	movq	%rbx, %rsi
	callq	"std_alloc::vec::Vec::grow_amortized::<#1d775b5957dec42c>"
	testb	%al, %al
	je	346b
	movq	48(%rsp), %r12
	movq	56(%rsp), %r14
	movq	64(%rsp), %r15
	movq	%r13, %rsi
	jmp	410b
458:
	leaq	48(%rsp), %rdi
	movl	$1, %esi
	callq	"std_alloc::vec::Vec::grow_amortized::<#1d775b5957dec42c>"
	testb	%al, %al
	je	346b
	movq	48(%rsp), %r12
	movq	56(%rsp), %r14
	movq	64(%rsp), %r15
	jmp	428b
459:
	cmpq	$0, 1264(%rsp)
	je	460f
	movq	1248(%rsp), %rdi
	callq	rattle_dealloc@PLT
460:
	movq	168(%rsp), %rbx
	movq	272(%rsp), %r13
	jmp	347b
461:
	cmpq	$32, %rbx
	jae	465f
	xorl	%eax, %eax
	jmp	467f
462:
	cmpq	$32, %rbp
	jae	471f
	xorl	%ecx, %ecx
	movq	128(%rsp), %r9
	jmp	473f
463:
	je	464f
	imulq	$56, %rsi, %rsi
	movq	48(%r14,%rsi), %rdi
	movq	%rdi, 1296(%rsp)
	movups	(%r14,%rsi), %xmm0
	movups	16(%r14,%rsi), %xmm1
	movups	32(%r14,%rsi), %xmm2
	movaps	%xmm2, 1280(%rsp)
	movaps	%xmm1, 1264(%rsp)
	movaps	%xmm0, 1248(%rsp)
	movq	272(%r14), %rdi
	movups	224(%r14), %xmm0
	movups	240(%r14), %xmm1
	movups	256(%r14), %xmm2
	movups	%xmm0, (%r14,%rsi)
	movq	%rdi, 48(%r14,%rsi)
	movups	%xmm2, 32(%r14,%rsi)
	movups	%xmm1, 16(%r14,%rsi)
	movq	1296(%rsp), %rsi
	movq	%rsi, 272(%r14)
	movdqa	1248(%rsp), %xmm0
	movdqa	1264(%rsp), %xmm1
	movdqa	1280(%rsp), %xmm2
	movdqu	%xmm2, 256(%r14)
	movdqu	%xmm1, 240(%r14)
	movdqu	%xmm0, 224(%r14)
464:
	cmpq	$4, %rdx
	je	481f
	leaq	-6(%r12), %rsi
	cmpq	$5, %rsi
	jbe	476f
	imulq	$56, %rsi, %rsi
	movq	328(%r14), %rdi
	movq	%rdi, 1296(%rsp)
	movups	280(%r14), %xmm0
	movups	296(%r14), %xmm1
	movups	312(%r14), %xmm2
	movaps	%xmm2, 1280(%rsp)
	movaps	%xmm1, 1264(%rsp)
	movaps	%xmm0, 1248(%rsp)
	movq	48(%r14,%rsi), %rdi
	movups	(%r14,%rsi), %xmm0
	movups	16(%r14,%rsi), %xmm1
	movups	32(%r14,%rsi), %xmm2
	movups	%xmm0, 280(%r14)
	movq	%rdi, 328(%r14)
	movups	%xmm2, 312(%r14)
	movups	%xmm1, 296(%r14)
	movq	1296(%rsp), %rdi
	movq	%rdi, 48(%r14,%rsi)
	movdqa	1248(%rsp), %xmm0
	movdqa	1264(%rsp), %xmm1
	movdqa	1280(%rsp), %xmm2
	movdqu	%xmm2, 32(%r14,%rsi)
	movdqu	%xmm1, 16(%r14,%rsi)
	movdqu	%xmm0, (%r14,%rsi)
	jmp	477f
465:
	movq	%rbx, %rax
	andq	$-32, %rax
	leaq	(%r12,%r14), %rcx
	addq	$16, %rcx
	xorl	%r8d, %r8d
466:
	movdqu	(%rsi,%r8), %xmm0
	movdqu	16(%rsi,%r8), %xmm1
	movdqu	%xmm0, -16(%rcx,%r8)
	movdqu	%xmm1, (%rcx,%r8)
	addq	$32, %r8
	cmpq	%r8, %rax
	jne	466b
	cmpq	%rax, %rbx
	je	488f
	testb	$28, %bl
	je	486f
467:
	movq	%rax, %rcx
	movq	%rbx, %rax
	andq	$-4, %rax
468:
	movl	(%rsi,%rcx), %r8d
	movl	%r8d, (%rdi,%rcx)
	addq	$4, %rcx
	cmpq	%rcx, %rax
	jne	468b
	jmp	487f
469:
	leaq	48(%rsp), %rdi
	movl	$8, %esi
	callq	"std_alloc::vec::Vec::grow_amortized::<#1d775b5957dec42c>"
	testb	%al, %al
	je	485f
	movq	56(%rsp), %r14
	movq	64(%rsp), %rbp
	movq	144(%rsp), %rsi
	movq	192(%rsp), %rdx
	jmp	446b
470:
	leaq	48(%rsp), %rdi
	movq	%rbx, %rsi
	callq	"std_alloc::vec::Vec::grow_amortized::<#1d775b5957dec42c>"
	testb	%al, %al
	je	485f
	movq	48(%rsp), %r12
	movq	56(%rsp), %r14
	movq	64(%rsp), %rbp
	movq	144(%rsp), %rsi
	movq	192(%rsp), %rdx
	jmp	447b
471:
	movq	%rbp, %rcx
	andq	$-32, %rcx
	leaq	(%rax,%r13), %rdx
	addq	$16, %rdx
	xorl	%r8d, %r8d
	movq	128(%rsp), %r9
472:
	movdqu	(%r9,%r8), %xmm0
	movdqu	16(%r9,%r8), %xmm1
	movdqu	%xmm0, -16(%rdx,%r8)
	movdqu	%xmm1, (%rdx,%r8)
	addq	$32, %r8
	cmpq	%r8, %rcx
	jne	472b
	cmpq	%rcx, %rbp
	je	441b
	testb	$28, %bpl
	je	415b
473:
	movq	%rcx, %rdx
	movq	%rbp, %rcx
	andq	$-4, %rcx
474:
	movl	(%r9,%rdx), %r8d
	movl	%r8d, (%rdi,%rdx)
	addq	$4, %rdx
	cmpq	%rdx, %rcx
	jne	474b
	cmpq	%rcx, %rbp
	jne	415b
	jmp	441b
475:
	leaq	400(%rsp), %rdi
	movq	%rbp, %rsi
	callq	"std_alloc::vec::Vec::grow_amortized::<#1d775b5957dec42c>"
	testb	%al, %al
	je	478f
	movq	400(%rsp), %rax
	movq	408(%rsp), %r13
	movq	416(%rsp), %r14
	movq	192(%rsp), %rbp
	jmp	413b
476:
	je	477f
	imulq	$56, %rsi, %rsi
	movq	48(%r14,%rsi), %rdi
	movq	%rdi, 1296(%rsp)
	movups	(%r14,%rsi), %xmm0
	movups	16(%r14,%rsi), %xmm1
	movups	32(%r14,%rsi), %xmm2
	movaps	%xmm2, 1280(%rsp)
	movaps	%xmm1, 1264(%rsp)
	movaps	%xmm0, 1248(%rsp)
	movq	328(%r14), %rdi
	movups	280(%r14), %xmm0
	movups	296(%r14), %xmm1
	movups	312(%r14), %xmm2
	movups	%xmm0, (%r14,%rsi)
	movq	%rdi, 48(%r14,%rsi)
	movups	%xmm2, 32(%r14,%rsi)
	movups	%xmm1, 16(%r14,%rsi)
	movq	1296(%rsp), %rsi
	movq	%rsi, 328(%r14)
	movdqa	1248(%rsp), %xmm0
	movdqa	1264(%rsp), %xmm1
	movdqa	1280(%rsp), %xmm2
	movdqu	%xmm2, 312(%r14)
	movdqu	%xmm1, 296(%r14)
	movdqu	%xmm0, 280(%r14)
477:
	cmpq	$5, %rdx
	je	481f
	leaq	-7(%r12), %rdx
	cmpq	$6, %rdx
	jbe	480f
	imulq	$56, %rdx, %rdx
	movq	384(%r14), %rsi
	movq	%rsi, 1296(%rsp)
	movups	336(%r14), %xmm0
	movups	352(%r14), %xmm1
	movups	368(%r14), %xmm2
	movaps	%xmm2, 1280(%rsp)
	movaps	%xmm1, 1264(%rsp)
	movaps	%xmm0, 1248(%rsp)
	movq	48(%r14,%rdx), %rsi
	movups	(%r14,%rdx), %xmm0
	movups	16(%r14,%rdx), %xmm1
	movups	32(%r14,%rdx), %xmm2
	movups	%xmm0, 336(%r14)
	movq	%rsi, 384(%r14)
	movups	%xmm2, 368(%r14)
	movups	%xmm1, 352(%r14)
	movq	1296(%rsp), %rsi
	movq	%rsi, 48(%r14,%rdx)
	movdqa	1248(%rsp), %xmm0
	movdqa	1264(%rsp), %xmm1
	movdqa	1280(%rsp), %xmm2
	movdqu	%xmm2, 32(%r14,%rdx)
	movdqu	%xmm1, 16(%r14,%rdx)
	movdqu	%xmm0, (%r14,%rdx)
	jmp	481f
478:
	cmpq	$0, 416(%rsp)
	je	479f
	movq	400(%rsp), %rdi
	callq	rattle_dealloc@PLT
479:
	movq	88(%rsp), %rbp
	movq	272(%rsp), %r13
	cmpq	$0, 176(%rsp)
	movzbl	80(%rsp), %ebx
	jne	381b
	jmp	382b
480:
	je	481f
	imulq	$56, %rdx, %rdx
	movq	48(%r14,%rdx), %rsi
	movq	%rsi, 1296(%rsp)
	movups	(%r14,%rdx), %xmm0
	movups	16(%r14,%rdx), %xmm1
	movups	32(%r14,%rdx), %xmm2
	movaps	%xmm2, 1280(%rsp)
	movaps	%xmm1, 1264(%rsp)
	movaps	%xmm0, 1248(%rsp)
	movq	384(%r14), %rsi
	movups	336(%r14), %xmm0
	movups	352(%r14), %xmm1
	movups	368(%r14), %xmm2
	movups	%xmm0, (%r14,%rdx)
	movq	%rsi, 48(%r14,%rdx)
	movups	%xmm2, 32(%r14,%rdx)
	movups	%xmm1, 16(%r14,%rdx)
	movq	1296(%rsp), %rdx
	movq	%rdx, 384(%r14)
	movdqa	1248(%rsp), %xmm0
	movdqa	1264(%rsp), %xmm1
	movdqa	1280(%rsp), %xmm2
	movdqu	%xmm2, 368(%r14)
	movdqu	%xmm1, 352(%r14)
	movdqu	%xmm0, 336(%r14)
481:
	movq	%r12, %r8
482:
	incq	%rax
	leaq	400(%rsp), %rdx
	movq	%rdx, 24(%rsp)
	movq	%rax, 16(%rsp)
	movq	%r9, 8(%rsp)
	movl	$0, (%rsp)
	movzbl	%cl, %r9d
	leaq	592(%rsp), %rdi
	movq	%r14, %rsi
	movq	%r13, %rdx
	xorl	%ecx, %ecx
	callq	"core::slice::sort::runs::climb::<#24df1801f4a811cc>"
	testb	$1, 600(%rsp)
	jne	484f
	movq	592(%rsp), %rdx
	movl	$127, %eax
	bsrq	%rdx, %rax
	xorl	$63, %eax
	addl	%eax, %eax
	movl	$126, %ecx
	subl	%eax, %ecx
	leaq	400(%rsp), %r8
	movq	%r14, %rdi
	movq	%rdx, %rsi
483:
	callq	"core::slice::sort::stable::quicksort::<#24df1801f4a811cc>"
484:
	movq	%r15, %rdi
	callq	rattle_dealloc@PLT
	leaq	40(%rsp), %rax
	movq	%rax, 592(%rsp)
	pxor	%xmm0, %xmm0
	leaq	600(%rsp), %rax
	movdqu	%xmm0, (%rax)
	movq	184(%rsp), %rsi
	jmp	195b
485:
	xorl	%ebx, %ebx
	jmp	507f
486:
	movzbl	(%rsi,%rax), %ecx
	movb	%cl, (%rdi,%rax)
	incq	%rax
487:
	cmpq	%rax, %rbx
	jne	486b
488:
	addq	%rbx, %r14
	movq	%r12, 48(%rsp)
	movq	%r14, 56(%rsp)
	movq	%rbp, 64(%rsp)
	cmpq	%r14, %rbp
	je	517f
489:
	movb	$32, (%r12,%r14)
	incq	%r14
	movq	%r12, 48(%rsp)
	movq	%r14, 56(%rsp)
	movq	%rbp, 64(%rsp)
	movq	%rbp, %rax
	subq	%r14, %rax
	cmpq	%rax, %rdx
	movq	240(%rsp), %rbx
	ja	522f
490:
	pxor	%xmm0, %xmm0
	leaq	56(%rsp), %rax
	movdqu	%xmm0, (%rax)
	leaq	(%r12,%r14), %rdi
	movq	%rdi, %rax
	subq	%r13, %rax
	cmpq	%rdx, %rax
	jae	496f
	cmpq	$4, %rdx
	jb	491f
	cmpq	$32, %rax
	jae	511f
491:
	xorl	%eax, %eax
492:
	movq	%rdx, %r8
	movq	%rax, %rcx
	andq	$3, %r8
	je	494f
	movq	%rax, %rcx
493:
	movzbl	(%r13,%rcx), %esi
	movb	%sil, (%rdi,%rcx)
	incq	%rcx
	decq	%r8
	jne	493b
494:
	subq	%rdx, %rax
	cmpq	$-4, %rax
	ja	497f
	leaq	(%r12,%r14), %rax
	addq	$3, %rax
495:
	movzbl	(%r13,%rcx), %esi
	movb	%sil, -3(%rax,%rcx)
	movzbl	1(%r13,%rcx), %esi
	movb	%sil, -2(%rax,%rcx)
	movzbl	2(%r13,%rcx), %esi
	movb	%sil, -1(%rax,%rcx)
	movzbl	3(%r13,%rcx), %esi
	movb	%sil, (%rax,%rcx)
	addq	$4, %rcx
	cmpq	%rcx, %rdx
	jne	495b
	jmp	497f
496:
	movq	%r13, %rsi
	callq	memmove@PLT
	movq	192(%rsp), %rdx
497:
	addq	%rdx, %r14
	movq	%r12, 48(%rsp)
	movq	%r14, 56(%rsp)
	movq	%rbp, 64(%rsp)
	movq	%rbp, %rax
	subq	%r14, %rax
	cmpq	%rax, %rbx
	ja	523f
498:
	pxor	%xmm0, %xmm0
	leaq	56(%rsp), %rax
	movdqu	%xmm0, (%rax)
	leaq	(%r12,%r14), %rdi
	movq	%rdi, %rax
	subq	%r15, %rax
	cmpq	%rbx, %rax
	jae	504f
	cmpq	$4, %rbx
	jb	499f
	cmpq	$32, %rax
	jae	512f
499:
	xorl	%eax, %eax
500:
	movq	%rbx, %rdx
	movq	%rax, %rcx
	andq	$3, %rdx
	je	502f
	movq	%rax, %rcx
501:
	movzbl	(%r15,%rcx), %esi
	movb	%sil, (%rdi,%rcx)
	incq	%rcx
	decq	%rdx
	jne	501b
502:
	subq	%rbx, %rax
	cmpq	$-4, %rax
	ja	505f
	leaq	(%r12,%r14), %rax
	addq	$3, %rax
503:
	movzbl	(%r15,%rcx), %edx
	movb	%dl, -3(%rax,%rcx)
	movzbl	1(%r15,%rcx), %edx
	movb	%dl, -2(%rax,%rcx)
	movzbl	2(%r15,%rcx), %edx
	movb	%dl, -1(%rax,%rcx)
	movzbl	3(%r15,%rcx), %edx
	movb	%dl, (%rax,%rcx)
	addq	$4, %rcx
	cmpq	%rcx, %rbx
	jne	503b
	jmp	505f
504:
	movq	%r15, %rsi
	movq	%rbx, %rdx
	callq	memmove@PLT
505:
	addq	%rbx, %r14
	movq	%r12, 48(%rsp)
	movq	%r14, 56(%rsp)
	movq	%rbp, 64(%rsp)
	cmpq	%r14, %rbp
	je	524f
506:
	movb	$10, (%r12,%r14)
	incq	%r14
	movq	%r12, 48(%rsp)
	movq	%r14, 56(%rsp)
	movq	%rbp, 64(%rsp)
	movb	$1, %bl
507:
	movq	88(%rsp), %rbp
	movzbl	80(%rsp), %r14d
	movq	176(%rsp), %r12
	movq	128(%rsp), %rax
	testq	%rax, %rax
	je	508f
	movq	%r13, %rdi
	callq	rattle_dealloc@PLT
508:
	testq	%r12, %r12
	je	509f
	movq	%r15, %rdi
	callq	rattle_dealloc@PLT
509:
	testb	%r14b, %r14b
	movq	272(%rsp), %r13
	jne	510f
	movq	144(%rsp), %rdi
	callq	rattle_dealloc@PLT
510:
	testb	%bl, %bl
	movq	168(%rsp), %rbx
	je	347b
	jmp	430b
511:
	cmpq	$32, %rdx
	jae	513f
	xorl	%eax, %eax
	jmp	515f
512:
	cmpq	$32, %rbx
	jae	518f
	xorl	%eax, %eax
	jmp	520f
513:
	movq	%rdx, %rax
	andq	$-32, %rax
	leaq	(%r12,%r14), %rcx
	addq	$16, %rcx
	xorl	%esi, %esi
514:
	movdqu	(%r13,%rsi), %xmm0
	movdqu	16(%r13,%rsi), %xmm1
	movdqu	%xmm0, -16(%rcx,%rsi)
	movdqu	%xmm1, (%rcx,%rsi)
	addq	$32, %rsi
	cmpq	%rsi, %rax
	jne	514b
	cmpq	%rax, %rdx
	je	497b
	testb	$28, %dl
	je	492b
515:
	movq	%rax, %rcx
	movq	%rdx, %rax
	andq	$-4, %rax
516:
	movl	(%r13,%rcx), %esi
	movl	%esi, (%rdi,%rcx)
	addq	$4, %rcx
	cmpq	%rcx, %rax
	jne	516b
	cmpq	%rax, %rdx
	je	497b
	jmp	492b
517:
	leaq	48(%rsp), %rdi
	movl	$1, %esi
	callq	"std_alloc::vec::Vec::grow_amortized::<#1d775b5957dec42c>"
	testb	%al, %al
	je	485b
	movq	48(%rsp), %r12
	movq	56(%rsp), %r14
	movq	64(%rsp), %rbp
	movq	192(%rsp), %rdx
	jmp	489b
518:
	movq	%rbx, %rax
	andq	$-32, %rax
	leaq	(%r12,%r14), %rcx
	addq	$16, %rcx
	xorl	%edx, %edx
519:
	movdqu	(%r15,%rdx), %xmm0
	movdqu	16(%r15,%rdx), %xmm1
	movdqu	%xmm0, -16(%rcx,%rdx)
	movdqu	%xmm1, (%rcx,%rdx)
	addq	$32, %rdx
	cmpq	%rdx, %rax
	jne	519b
	cmpq	%rax, %rbx
	je	505b
	testb	$28, %bl
	je	500b
520:
	movq	%rax, %rcx
	movq	%rbx, %rax
	andq	$-4, %rax
521:
	movl	(%r15,%rcx), %edx
	movl	%edx, (%rdi,%rcx)
	addq	$4, %rcx
	cmpq	%rcx, %rax
	jne	521b
	cmpq	%rax, %rbx
	je	505b
	jmp	500b
522:
	leaq	48(%rsp), %rdi
	movq	%rdx, %rsi
	callq	"std_alloc::vec::Vec::grow_amortized::<#1d775b5957dec42c>"
	testb	%al, %al
	je	485b
	movq	48(%rsp), %r12
	movq	56(%rsp), %r14
	movq	64(%rsp), %rbp
	movq	240(%rsp), %rbx
	movq	192(%rsp), %rdx
	jmp	490b
523:
	leaq	48(%rsp), %rdi
	movq	%rbx, %rsi
	callq	"std_alloc::vec::Vec::grow_amortized::<#1d775b5957dec42c>"
	testb	%al, %al
	je	485b
	movq	48(%rsp), %r12
	movq	56(%rsp), %r14
	movq	64(%rsp), %rbp
	movq	240(%rsp), %rbx
	jmp	498b
524:
	leaq	48(%rsp), %rdi
	movl	$1, %esi
	callq	"std_alloc::vec::Vec::grow_amortized::<#1d775b5957dec42c>"
	testb	%al, %al
	je	485b
	movq	48(%rsp), %r12
	movq	56(%rsp), %r14
	movq	64(%rsp), %rbp
	jmp	506b
525:
	pxor	%xmm1, %xmm1
	movl	$0, 296(%rsp)
	xorl	%ebx, %ebx
	xorl	%r14d, %r14d
	cmpq	$0, 1160(%rsp)
	jne	529f
	jmp	530f
526:
	pxor	%xmm1, %xmm1
	xorl	%edx, %edx
	xorl	%ebx, %ebx
	xorl	%r14d, %r14d
	cmpq	$0, 1160(%rsp)
	jne	529f
	jmp	530f
527:
	movq	1184(%rsp), %r14
	movdqu	1192(%rsp), %xmm1
	movl	260(%rsp), %ebx
528:
	movzbl	%bl, %ebx
	movb	$1, %dl
	movl	$0, 296(%rsp)
	cmpq	$0, 1160(%rsp)
	je	530f
529:
	movq	%rbp, %rdi
	movq	%rdx, %r15
	movdqa	%xmm1, 96(%rsp)
	callq	rattle_dealloc@PLT
	movdqa	96(%rsp), %xmm1
	movq	%r15, %rdx
530:
	movq	576(%rsp), %rax
	movb	%dl, (%rax)
	movl	296(%rsp), %ecx
	movb	%cl, 1(%rax)
	movq	%rbx, 8(%rax)
	movq	%r14, 16(%rax)
	movdqu	%xmm1, 24(%rax)
531:
	addq	$5352, %rsp
	popq	%rbx
	popq	%r12
	popq	%r13
	popq	%r14
	popq	%r15
	popq	%rbp
	retq
532:
	ud2
533:
	.size	"mime_tool::explain::explain_lists::<#2e1b2a3647f851f7>", 533b-"mime_tool::explain::explain_lists::<#2e1b2a3647f851f7>"
	.section	.rodata,"a",@progbits
	.p2align	2, 0x0
534:
	.long	142b-534b
	.long	99b-534b
	.long	99b-534b
	.long	116b-534b
	.long	99b-534b
535:
	.long	255b-535b
	.long	254b-535b
	.long	255b-535b
	.long	280b-535b
536:
	.long	214b-536b
	.long	217b-536b
	.long	215b-536b
	.long	216b-536b

	.text
	.p2align	4
	.type	"mime_tool::explain::lines::alias_mark",@function
"mime_tool::explain::lines::alias_mark":
	pushq	%rbp
	pushq	%r15
	pushq	%r14
	pushq	%r13
	pushq	%r12
	pushq	%rbx
	subq	$104, %rsp
	movq	%r9, %r12
	movq	%r8, %r13
	movq	%rdi, %rbx
	movzbl	2(%rsi), %ebp
	xorps	%xmm0, %xmm0
	movaps	%xmm0, 16(%rsp)
	movq	$0, 32(%rsp)
	testq	%rcx, %rcx
	je	10f
	movq	%rcx, %r15
	movq	%rdx, %r14
	cmpq	$4, %r12
	jae	2f
	testq	%r12, %r12
	jne	9f
	jmp	4f
	.p2align	4
1:
	addq	$32, %r14
	decq	%r15
	je	10f
2:
	cmpq	%r12, 8(%r14)
	jne	1b
	movq	(%r14), %rdi
	movl	(%rdi), %eax
	cmpl	(%r13), %eax
	jne	1b
	movq	%r12, %rsi
	movq	%r13, %rdx
	callq	"core::cmp::slices::groups_equal::<i8,31'core::cmp::numbers::U8PartialEq{}>"
	testb	%al, %al
	je	1b
	jmp	5f
	.p2align	4
3:
	addq	$32, %r14
	decq	%r15
	je	15f
4:
	cmpq	$0, 8(%r14)
	jne	3b
5:
	movq	16(%r14), %r15
	movq	24(%r14), %r14
	jmp	16f
	.p2align	4
6:
	xorl	%ecx, %ecx
7:
	cmpq	%r12, %rcx
	jae	5b
8:
	addq	$32, %r14
	decq	%r15
	je	10f
9:
	cmpq	%r12, 8(%r14)
	jne	8b
	movq	(%r14), %rax
	movzbl	(%rax), %ecx
	cmpb	(%r13), %cl
	jne	6b
	cmpq	$1, %r12
	je	5b
	movzbl	1(%rax), %edx
	movl	$1, %ecx
	cmpb	1(%r13), %dl
	jne	7b
	cmpq	$2, %r12
	je	5b
	movzbl	2(%rax), %eax
	movl	$2, %ecx
	cmpb	2(%r13), %al
	jne	7b
	jmp	5b
10:
	leaq	15(%rsp), %rax
	movq	%rax, 16(%rsp)
	leaq	24(%rsp), %r10
	xorps	%xmm0, %xmm0
	movups	%xmm0, 24(%rsp)
	movq	%r13, %r15
	movq	%r12, %r14
11:
	cmpq	$4, %r12
	jae	12f
	testq	%r12, %r12
	je	41f
	movzbl	(%r15), %eax
	cmpb	(%r13), %al
	jne	13f
	cmpq	$1, %r12
	je	41f
	movzbl	1(%r15), %ecx
	movl	$1, %eax
	cmpb	1(%r13), %cl
	jne	14f
	cmpq	$2, %r12
	je	41f
	movzbl	2(%r15), %ecx
	movl	$2, %eax
	cmpb	2(%r13), %cl
	jne	14f
	jmp	41f
12:
	movl	(%r15), %eax
	cmpl	(%r13), %eax
	jne	17f
	movq	%r15, %rdi
	movq	%r12, %rsi
	movq	%r13, %rdx
	movq	%r10, %r12
	callq	"core::cmp::slices::groups_equal::<i8,31'core::cmp::numbers::U8PartialEq{}>"
	movq	%r12, %r10
	testb	%al, %al
	je	17f
	jmp	41f
13:
	xorl	%eax, %eax
14:
	cmpq	%r12, %rax
	jb	17f
	jmp	41f
15:
	xorl	%r14d, %r14d
	movq	%r13, %r15
16:
	leaq	15(%rsp), %rax
	movq	%rax, 16(%rsp)
	leaq	24(%rsp), %r10
	xorps	%xmm0, %xmm0
	movups	%xmm0, 24(%rsp)
	cmpq	%r12, %r14
	je	11b
17:
	xorps	%xmm0, %xmm0
	movaps	%xmm0, 80(%rsp)
	movaps	%xmm0, 64(%rsp)
	testb	$1, %bpl
	je	21f
	movq	%r10, %r13
	leaq	64(%rsp), %rdi
	movq	%r15, %rsi
	movq	%r14, %rdx
	callq	"mime_tool::line::escape::escaped"
	cmpb	$0, 64(%rsp)
	je	30f
18:
	cmpq	$0, 32(%rsp)
	je	20f
	leaq	15(%rsp), %rdi
19:
	callq	rattle_dealloc@PLT
20:
	movb	$1, (%rbx)
	xorps	%xmm0, %xmm0
	movups	%xmm0, 8(%rbx)
	movq	$0, 24(%rbx)
	jmp	42f
21:
	leaq	15(%rsp), %rax
	movq	%rax, 40(%rsp)
	movups	%xmm0, 48(%rsp)
	testq	%r14, %r14
	jne	57f
	xorl	%r12d, %r12d
	xorl	%ecx, %ecx
22:
	leaq	(%rcx,%r14), %r13
	leaq	(%rax,%rcx), %rdi
	movq	%rdi, %rdx
	subq	%r15, %rdx
	cmpq	%r14, %rdx
	jae	28f
	cmpq	$4, %r14
	jb	23f
	cmpq	$32, %rdx
	jae	44f
23:
	xorl	%edx, %edx
24:
	movq	%r14, %r8
	movq	%rdx, %rsi
	andq	$3, %r8
	je	26f
	movq	%rdx, %rsi
	.p2align	4
25:
	movzbl	(%r15,%rsi), %r9d
	movb	%r9b, (%rdi,%rsi)
	incq	%rsi
	decq	%r8
	jne	25b
26:
	subq	%r14, %rdx
	cmpq	$-4, %rdx
	ja	29f
	addq	%rcx, %rax
	addq	$3, %rax
	.p2align	4
27:
	movzbl	(%r15,%rsi), %ecx
	movb	%cl, -3(%rax,%rsi)
	movzbl	1(%r15,%rsi), %ecx
	movb	%cl, -2(%rax,%rsi)
	movzbl	2(%r15,%rsi), %ecx
	movb	%cl, -1(%rax,%rsi)
	movzbl	3(%r15,%rsi), %ecx
	movb	%cl, (%rax,%rsi)
	addq	$4, %rsi
	cmpq	%rsi, %r14
	jne	27b
	jmp	29f
28:
	movq	%r15, %rsi
	movq	%r14, %rdx
	movq	%r10, %r14
	callq	memmove@PLT
	movq	%r14, %r10
29:
	movq	%r13, 48(%rsp)
	movq	40(%rsp), %rax
	movq	%rax, 72(%rsp)
	movq	48(%rsp), %rax
	movq	%rax, 80(%rsp)
	movq	72(%rsp), %r14
	movq	80(%rsp), %rdx
	jmp	31f
30:
	movq	72(%rsp), %r14
	movq	80(%rsp), %rdx
	movq	88(%rsp), %r12
	movq	%r13, %r10
31:
	movq	24(%rsp), %rax
	movq	32(%rsp), %r15
	movq	%r15, %rcx
	subq	%rax, %rcx
	cmpq	$3, %rcx
	jbe	49f
	leaq	15(%rsp), %rcx
32:
	movq	$0, 8(%r10)
	leaq	(%rcx,%rax), %rsi
	addq	$4, %rax
	leaq	.L39011da91f15(%rip), %rdi
	movq	%rsi, %r8
	subq	%rdi, %r8
	cmpq	$4, %r8
	movl	$540945696, (%rsi)
	movq	%rax, 24(%rsp)
	movq	%r15, 32(%rsp)
	movq	%r15, %rsi
	subq	%rax, %rsi
	cmpq	%rsi, %rdx
	ja	50f
33:
	leaq	(%rax,%rdx), %r13
	xorps	%xmm0, %xmm0
	movups	%xmm0, (%r10)
	leaq	(%rcx,%rax), %rdi
	movq	%rdi, %rsi
	subq	%r14, %rsi
	cmpq	%rdx, %rsi
	jae	39f
	cmpq	$4, %rdx
	jb	34f
	cmpq	$32, %rsi
	jae	43f
34:
	xorl	%esi, %esi
35:
	movq	%rdx, %r9
	movq	%rsi, %r8
	andq	$3, %r9
	je	37f
	movq	%rsi, %r8
	.p2align	4
36:
	movzbl	(%r14,%r8), %r10d
	movb	%r10b, (%rdi,%r8)
	incq	%r8
	decq	%r9
	jne	36b
37:
	subq	%rdx, %rsi
	cmpq	$-4, %rsi
	ja	40f
	addq	%rcx, %rax
	addq	$3, %rax
	.p2align	4
38:
	movzbl	(%r14,%r8), %ecx
	movb	%cl, -3(%rax,%r8)
	movzbl	1(%r14,%r8), %ecx
	movb	%cl, -2(%rax,%r8)
	movzbl	2(%r14,%r8), %ecx
	movb	%cl, -1(%rax,%r8)
	movzbl	3(%r14,%r8), %ecx
	movb	%cl, (%rax,%r8)
	addq	$4, %r8
	cmpq	%r8, %rdx
	jne	38b
	jmp	40f
39:
	movq	%r14, %rsi
	callq	memmove@PLT
40:
	movq	%r13, 24(%rsp)
	movq	%r15, 32(%rsp)
	testq	%r12, %r12
	je	41f
	movq	%r14, %rdi
	callq	rattle_dealloc@PLT
41:
	movb	$0, (%rbx)
	movq	16(%rsp), %rax
	movq	%rax, 8(%rbx)
	movq	24(%rsp), %rax
	movq	%rax, 16(%rbx)
	movq	32(%rsp), %rax
	movq	%rax, 24(%rbx)
42:
	addq	$104, %rsp
	popq	%rbx
	popq	%r12
	popq	%r13
	popq	%r14
	popq	%r15
	popq	%rbp
	retq
43:
	cmpq	$32, %rdx
	jae	45f
	xorl	%esi, %esi
	jmp	47f
44:
	cmpq	$32, %r14
	jae	53f
	xorl	%edx, %edx
	jmp	55f
45:
	movq	%rdx, %rsi
	andq	$-32, %rsi
	leaq	(%rax,%rcx), %r8
	addq	$16, %r8
	xorl	%r9d, %r9d
	.p2align	4
46:
	movups	(%r14,%r9), %xmm0
	movups	16(%r14,%r9), %xmm1
	movups	%xmm0, -16(%r8,%r9)
	movups	%xmm1, (%r8,%r9)
	addq	$32, %r9
	cmpq	%r9, %rsi
	jne	46b
	cmpq	%rsi, %rdx
	je	40b
	testb	$28, %dl
	je	35b
47:
	movq	%rsi, %r8
	movq	%rdx, %rsi
	andq	$-4, %rsi
	.p2align	4
48:
	movl	(%r14,%r8), %r9d
	movl	%r9d, (%rdi,%r8)
	addq	$4, %r8
	cmpq	%r8, %rsi
	jne	48b
	cmpq	%rsi, %rdx
	je	40b
	jmp	35b
49:
	movq	%r10, %rbp
	movq	%rdx, %r13
	leaq	16(%rsp), %rdi
	movl	$4, %esi
	callq	"std_alloc::vec::Vec::grow_amortized::<#1d775b5957dec42c>"
	testb	%al, %al
	je	51f
	movq	16(%rsp), %rcx
	movq	24(%rsp), %rax
	movq	32(%rsp), %r15
	movq	%r13, %rdx
	movq	%rbp, %r10
	jmp	32b
50:
	movq	%r10, %rbp
	leaq	16(%rsp), %rdi
	movq	%rdx, %r13
	movq	%rdx, %rsi
	callq	"std_alloc::vec::Vec::grow_amortized::<#1d775b5957dec42c>"
	testb	%al, %al
	je	51f
	movq	16(%rsp), %rcx
	movq	24(%rsp), %rax
	movq	32(%rsp), %r15
	movq	%r13, %rdx
	movq	%rbp, %r10
	jmp	33b
51:
	testq	%r12, %r12
	je	52f
	movq	%r14, %rdi
	callq	rattle_dealloc@PLT
52:
	cmpq	$0, 32(%rsp)
	je	20b
	movq	16(%rsp), %rdi
	jmp	19b
53:
	movq	%r14, %rdx
	andq	$-32, %rdx
	leaq	(%rcx,%rax), %rsi
	addq	$16, %rsi
	xorl	%r8d, %r8d
	.p2align	4
54:
	movups	(%r15,%r8), %xmm0
	movups	16(%r15,%r8), %xmm1
	movups	%xmm0, -16(%rsi,%r8)
	movups	%xmm1, (%rsi,%r8)
	addq	$32, %r8
	cmpq	%r8, %rdx
	jne	54b
	cmpq	%rdx, %r14
	je	29b
	testb	$28, %r14b
	je	24b
55:
	movq	%rdx, %rsi
	movq	%r14, %rdx
	andq	$-4, %rdx
	.p2align	4
56:
	movl	(%r15,%rsi), %r8d
	movl	%r8d, (%rdi,%rsi)
	addq	$4, %rsi
	cmpq	%rsi, %rdx
	jne	56b
	cmpq	%rdx, %r14
	je	29b
	jmp	24b
57:
	movq	%r10, %r13
	leaq	40(%rsp), %rdi
	movq	%r14, %rsi
	callq	"std_alloc::vec::Vec::grow_amortized::<#1d775b5957dec42c>"
	testb	%al, %al
	je	58f
	movq	40(%rsp), %rax
	movq	48(%rsp), %rcx
	movq	56(%rsp), %r12
	movq	%r13, %r10
	jmp	22b
58:
	cmpq	$0, 56(%rsp)
	je	18b
	movq	40(%rsp), %rdi
	callq	rattle_dealloc@PLT
	jmp	18b
59:
	.size	"mime_tool::explain::lines::alias_mark", 59b-"mime_tool::explain::lines::alias_mark"

	.text
	.p2align	4
	.type	"mime_tool::explain::lines::push_rules",@function
"mime_tool::explain::lines::push_rules":
	pushq	%rbp
	pushq	%r15
	pushq	%r14
	pushq	%r13
	pushq	%r12
	pushq	%rbx
	subq	$440, %rsp
	movq	%r9, 168(%rsp)
	movq	%rcx, 160(%rsp)
	movq	%rdx, 152(%rsp)
	movq	504(%rsp), %r15
	movzbl	2(%rsi), %eax
	movb	%al, 14(%rsp)
	movzwl	(%rsi), %eax
	movw	%ax, 12(%rsp)
	cmpq	496(%rsp), %r15
	jae	56f
	movzbl	%r8b, %eax
	leaq	(%rax,%rax,4), %rcx
	movq	%rcx, 144(%rsp)
	leaq	.L5cb27ebbff29(%rip), %rcx
	leaq	.L22d5119de29e(%rip), %rdx
	testb	%al, %al
	cmoveq	%rdx, %rcx
	movq	%rcx, 136(%rsp)
	movq	%rdi, 96(%rsp)
	leaq	8(%rdi), %rax
	movq	%rax, 200(%rsp)
	.p2align	4
1:
	movq	%r15, 192(%rsp)
	leaq	(%r15,%r15,2), %rax
	shlq	$4, %rax
	movq	168(%rsp), %rdx
	movzbl	(%rdx,%rax), %ecx
	movq	8(%rdx,%rax), %r13
	movq	16(%rdx,%rax), %r15
	movq	24(%rdx,%rax), %rbp
	movq	32(%rdx,%rax), %r14
	movzbl	40(%rdx,%rax), %ebx
	movzbl	14(%rsp), %r12d
	xorps	%xmm0, %xmm0
	movaps	%xmm0, 240(%rsp)
	movaps	%xmm0, 256(%rsp)
	movaps	%xmm0, 208(%rsp)
	movaps	%xmm0, 224(%rsp)
	movaps	%xmm0, 272(%rsp)
	movaps	%xmm0, 288(%rsp)
	movaps	%xmm0, 304(%rsp)
	movaps	%xmm0, 320(%rsp)
	movaps	%xmm0, 336(%rsp)
	movaps	%xmm0, 352(%rsp)
	movaps	%xmm0, 368(%rsp)
	movaps	%xmm0, 384(%rsp)
	movaps	%xmm0, 400(%rsp)
	movaps	%xmm0, 416(%rsp)
	movb	%cl, 10(%rsp)
	leaq	240(%rsp), %rdi
	leaq	10(%rsp), %rsi
	callq	"std_alloc::string::String::format::<#6af43b6eacf550cc>"
	cmpb	$0, 240(%rsp)
	jne	63f
	movq	248(%rsp), %rax
	movq	%rax, 40(%rsp)
	movq	256(%rsp), %rcx
	movq	264(%rsp), %rax
	xorps	%xmm0, %xmm0
	movaps	%xmm0, 64(%rsp)
	movaps	%xmm0, 48(%rsp)
	testb	$1, %r12b
	movq	%rax, 88(%rsp)
	movb	%bl, 104(%rsp)
	movq	%rcx, 184(%rsp)
	movb	%r12b, 80(%rsp)
	je	2f
	leaq	48(%rsp), %rdi
	movq	%rbp, %rsi
	movq	%r14, %rdx
	callq	"mime_tool::line::escape::escaped"
	cmpb	$0, 48(%rsp)
	je	11f
	jmp	62f
	.p2align	4
2:
	leaq	11(%rsp), %rax
	movq	%rax, 16(%rsp)
	leaq	24(%rsp), %rcx
	movups	%xmm0, (%rcx)
	testq	%r14, %r14
	jne	54f
	xorl	%r12d, %r12d
	xorl	%ebx, %ebx
3:
	leaq	(%rax,%rbx), %rdi
	movq	%rdi, %rcx
	subq	%rbp, %rcx
	cmpq	%r14, %rcx
	jae	9f
	cmpq	$4, %r14
	jb	4f
	cmpq	$32, %rcx
	jae	43f
4:
	xorl	%ecx, %ecx
5:
	movq	%r14, %rsi
	movq	%rcx, %rdx
	andq	$3, %rsi
	je	7f
	movq	%rcx, %rdx
	.p2align	4
6:
	movzbl	(%rbp,%rdx), %r8d
	movb	%r8b, (%rdi,%rdx)
	incq	%rdx
	decq	%rsi
	jne	6b
7:
	subq	%r14, %rcx
	cmpq	$-4, %rcx
	ja	10f
	addq	%rbx, %rax
	addq	$3, %rax
	.p2align	4
8:
	movzbl	(%rbp,%rdx), %ecx
	movb	%cl, -3(%rax,%rdx)
	movzbl	1(%rbp,%rdx), %ecx
	movb	%cl, -2(%rax,%rdx)
	movzbl	2(%rbp,%rdx), %ecx
	movb	%cl, -1(%rax,%rdx)
	movzbl	3(%rbp,%rdx), %ecx
	movb	%cl, (%rax,%rdx)
	addq	$4, %rdx
	cmpq	%rdx, %r14
	jne	8b
	jmp	10f
	.p2align	4
9:
	movq	%rbp, %rsi
	movq	%r14, %rdx
	callq	memmove@PLT
10:
	addq	%r14, %rbx
	movq	%rbx, 24(%rsp)
	movq	%r12, 32(%rsp)
	leaq	56(%rsp), %rcx
	movq	%r12, 16(%rcx)
	movq	16(%rsp), %rax
	movq	%rax, (%rcx)
	movq	24(%rsp), %rax
	movq	%rax, 8(%rcx)
11:
	movq	56(%rsp), %rbx
	movq	64(%rsp), %rbp
	movq	72(%rsp), %r14
	leaq	208(%rsp), %rdi
	leaq	12(%rsp), %rsi
	movq	152(%rsp), %rdx
	movq	160(%rsp), %rcx
	movq	%r13, %r8
	movq	%r15, %r9
	callq	"mime_tool::explain::lines::alias_mark"
	cmpb	$0, 208(%rsp)
	jne	60f
	movq	216(%rsp), %rax
	movq	%rax, 112(%rsp)
	movq	224(%rsp), %r12
	movq	232(%rsp), %rax
	movq	%rax, 120(%rsp)
	xorps	%xmm0, %xmm0
	movaps	%xmm0, 64(%rsp)
	movaps	%xmm0, 48(%rsp)
	testb	$1, 80(%rsp)
	movq	%rbx, 128(%rsp)
	movq	%r14, 176(%rsp)
	je	12f
	leaq	48(%rsp), %rdi
	movq	%r13, %rsi
	movq	%r15, %rdx
	callq	"mime_tool::line::escape::escaped"
	cmpb	$0, 48(%rsp)
	jne	59f
	movq	56(%rsp), %rdi
	movq	64(%rsp), %rax
	movq	72(%rsp), %rcx
	movq	%rcx, 80(%rsp)
	movq	96(%rsp), %r9
	jmp	21f
	.p2align	4
12:
	leaq	11(%rsp), %rax
	movq	%rax, 16(%rsp)
	leaq	24(%rsp), %rcx
	movups	%xmm0, (%rcx)
	testq	%r15, %r15
	jne	55f
	xorl	%ebx, %ebx
	xorl	%r14d, %r14d
13:
	leaq	(%rax,%r14), %rdi
	movq	%rdi, %rcx
	subq	%r13, %rcx
	cmpq	%r15, %rcx
	jae	19f
	cmpq	$4, %r15
	movq	96(%rsp), %r9
	jb	14f
	cmpq	$32, %rcx
	jae	44f
14:
	xorl	%ecx, %ecx
15:
	movq	%r15, %rsi
	movq	%rcx, %rdx
	andq	$3, %rsi
	je	17f
	movq	%rcx, %rdx
	.p2align	4
16:
	movzbl	(%r13,%rdx), %r8d
	movb	%r8b, (%rdi,%rdx)
	incq	%rdx
	decq	%rsi
	jne	16b
17:
	subq	%r15, %rcx
	cmpq	$-4, %rcx
	ja	20f
	addq	%r14, %rax
	addq	$3, %rax
	.p2align	4
18:
	movzbl	(%r13,%rdx), %ecx
	movb	%cl, -3(%rax,%rdx)
	movzbl	1(%r13,%rdx), %ecx
	movb	%cl, -2(%rax,%rdx)
	movzbl	2(%r13,%rdx), %ecx
	movb	%cl, -1(%rax,%rdx)
	movzbl	3(%r13,%rdx), %ecx
	movb	%cl, (%rax,%rdx)
	addq	$4, %rdx
	cmpq	%rdx, %r15
	jne	18b
	jmp	20f
	.p2align	4
19:
	movq	%r13, %rsi
	movq	%r15, %rdx
	callq	memmove@PLT
	movq	96(%rsp), %r9
20:
	addq	%r15, %r14
	movq	%r14, 24(%rsp)
	movq	%rbx, 32(%rsp)
	leaq	56(%rsp), %rcx
	movq	%rbx, 16(%rcx)
	movq	16(%rsp), %rax
	movq	%rax, (%rcx)
	movq	24(%rsp), %rax
	movq	%rax, 8(%rcx)
	movq	56(%rsp), %rdi
	movq	64(%rsp), %rax
	movq	72(%rsp), %rcx
	movq	%rcx, 80(%rsp)
	movq	128(%rsp), %rbx
21:
	movzbl	104(%rsp), %ecx
	movl	%ecx, %edx
	andl	$1, %edx
	leaq	(%rdx,%rdx,2), %rdx
	leaq	.Lcd262ffbb50e(%rip), %rsi
	testb	$1, %cl
	leaq	.L22d5119de29e(%rip), %rcx
	cmoveq	%rcx, %rsi
	leaq	.L741e9e856c49(%rip), %rcx
	movq	%rcx, 272(%rsp)
	movq	$7, 280(%rsp)
	movq	40(%rsp), %rcx
	movq	%rcx, 288(%rsp)
	movq	184(%rsp), %rcx
	movq	%rcx, 296(%rsp)
	leaq	.L9b770efd7ae0(%rip), %rcx
	movq	%rcx, 304(%rsp)
	movq	$1, 312(%rsp)
	movq	%rbx, 320(%rsp)
	movq	%rbp, 328(%rsp)
	movq	%rcx, 336(%rsp)
	movq	$1, 344(%rsp)
	movq	%rdi, 104(%rsp)
	movq	%rdi, 352(%rsp)
	movq	%rax, 360(%rsp)
	movq	%rsi, 368(%rsp)
	movq	%rdx, 376(%rsp)
	movq	136(%rsp), %rax
	movq	%rax, 384(%rsp)
	movq	144(%rsp), %rax
	movq	%rax, 392(%rsp)
	movq	112(%rsp), %rax
	movq	%rax, 400(%rsp)
	movq	%r12, 408(%rsp)
	leaq	.Lb9d66d2d8f9c(%rip), %rax
	movq	%rax, 416(%rsp)
	movq	$1, 424(%rsp)
	movq	8(%r9), %r15
	movq	16(%r9), %rbx
	xorl	%r14d, %r14d
	jmp	24f
	.p2align	4
22:
	movq	%rbp, %rsi
	movq	%r13, %rdx
	callq	memmove@PLT
	movq	96(%rsp), %r9
23:
	addq	%r13, %r15
	movq	%r12, (%r9)
	movq	%r15, 8(%r9)
	movq	%rbx, 16(%r9)
	incq	%r14
	cmpq	$10, %r14
	je	37f
24:
	movq	%r14, %rax
	shlq	$4, %rax
	movq	272(%rsp,%rax), %rbp
	movq	280(%rsp,%rax), %r13
	movq	%rbx, %rax
	subq	%r15, %rax
	cmpq	%rax, %r13
	ja	36f
25:
	movq	(%r9), %r12
	xorps	%xmm0, %xmm0
	movq	200(%rsp), %rax
	movups	%xmm0, (%rax)
	leaq	(%r12,%r15), %rdi
	movq	%rdi, %rax
	subq	%rbp, %rax
	cmpq	%r13, %rax
	jae	22b
	cmpq	$4, %r13
	jb	26f
	cmpq	$32, %rax
	jae	31f
26:
	xorl	%eax, %eax
27:
	movq	%r13, %rdx
	movq	%rax, %rcx
	andq	$3, %rdx
	je	29f
	movq	%rax, %rcx
	.p2align	4
28:
	movzbl	(%rbp,%rcx), %esi
	movb	%sil, (%rdi,%rcx)
	incq	%rcx
	decq	%rdx
	jne	28b
29:
	subq	%r13, %rax
	cmpq	$-4, %rax
	ja	23b
	leaq	(%r12,%r15), %rax
	addq	$3, %rax
	.p2align	4
30:
	movzbl	(%rbp,%rcx), %edx
	movb	%dl, -3(%rax,%rcx)
	movzbl	1(%rbp,%rcx), %edx
	movb	%dl, -2(%rax,%rcx)
	movzbl	2(%rbp,%rcx), %edx
	movb	%dl, -1(%rax,%rcx)
	movzbl	3(%rbp,%rcx), %edx
	movb	%dl, (%rax,%rcx)
	addq	$4, %rcx
	cmpq	%rcx, %r13
	jne	30b
	jmp	23b
31:
	cmpq	$32, %r13
	jae	32f
	xorl	%eax, %eax
	jmp	34f
32:
	movq	%r13, %rax
	andq	$-32, %rax
	leaq	(%r12,%r15), %rcx
	addq	$16, %rcx
	xorl	%edx, %edx
	.p2align	4
33:
	movups	(%rbp,%rdx), %xmm0
	movups	16(%rbp,%rdx), %xmm1
	movups	%xmm0, -16(%rcx,%rdx)
	movups	%xmm1, (%rcx,%rdx)
	addq	$32, %rdx
	cmpq	%rdx, %rax
	jne	33b
	cmpq	%rax, %r13
	je	23b
	testb	$28, %r13b
	je	27b
34:
	movq	%rax, %rcx
	movq	%r13, %rax
	andq	$-4, %rax
	.p2align	4
35:
	movl	(%rbp,%rcx), %edx
	movl	%edx, (%rdi,%rcx)
	addq	$4, %rcx
	cmpq	%rcx, %rax
	jne	35b
	cmpq	%rax, %r13
	je	23b
	jmp	27b
36:
	movq	%r9, %rdi
	movq	%r13, %rsi
	movq	%r9, %r12
	callq	"std_alloc::vec::Vec::grow_amortized::<#1d775b5957dec42c>"
	testb	%al, %al
	je	45f
	movq	8(%r12), %r15
	movq	16(%r12), %rbx
	movq	%r12, %r9
	jmp	25b
	.p2align	4
37:
	movb	$1, %bl
	cmpq	$0, 80(%rsp)
	movq	192(%rsp), %r15
	movq	176(%rsp), %r14
	je	39f
38:
	movq	104(%rsp), %rdi
	callq	rattle_dealloc@PLT
39:
	cmpq	$0, 120(%rsp)
	je	40f
	movq	112(%rsp), %rdi
	callq	rattle_dealloc@PLT
40:
	testq	%r14, %r14
	je	41f
	movq	128(%rsp), %rdi
	callq	rattle_dealloc@PLT
41:
	cmpq	$0, 88(%rsp)
	je	42f
	movq	40(%rsp), %rdi
	callq	rattle_dealloc@PLT
42:
	testb	%bl, %bl
	je	63f
	incq	%r15
	cmpq	496(%rsp), %r15
	jne	1b
	jmp	56f
43:
	cmpq	$32, %r14
	jae	46f
	xorl	%ecx, %ecx
	jmp	48f
44:
	cmpq	$32, %r15
	jae	50f
	xorl	%ecx, %ecx
	jmp	52f
45:
	xorl	%ebx, %ebx
	cmpq	$0, 80(%rsp)
	movq	192(%rsp), %r15
	movq	176(%rsp), %r14
	jne	38b
	jmp	39b
46:
	movq	%r14, %rcx
	andq	$-32, %rcx
	leaq	(%rax,%rbx), %rdx
	addq	$16, %rdx
	xorl	%esi, %esi
	.p2align	4
47:
	movups	(%rbp,%rsi), %xmm0
	movups	16(%rbp,%rsi), %xmm1
	movups	%xmm0, -16(%rdx,%rsi)
	movups	%xmm1, (%rdx,%rsi)
	addq	$32, %rsi
	cmpq	%rsi, %rcx
	jne	47b
	cmpq	%rcx, %r14
	je	10b
	testb	$28, %r14b
	je	5b
48:
	movq	%rcx, %rdx
	movq	%r14, %rcx
	andq	$-4, %rcx
	.p2align	4
49:
	movl	(%rbp,%rdx), %esi
	movl	%esi, (%rdi,%rdx)
	addq	$4, %rdx
	cmpq	%rdx, %rcx
	jne	49b
	cmpq	%rcx, %r14
	je	10b
	jmp	5b
50:
	movq	%r15, %rcx
	andq	$-32, %rcx
	leaq	(%rax,%r14), %rdx
	addq	$16, %rdx
	xorl	%esi, %esi
	.p2align	4
51:
	movups	(%r13,%rsi), %xmm0
	movups	16(%r13,%rsi), %xmm1
	movups	%xmm0, -16(%rdx,%rsi)
	movups	%xmm1, (%rdx,%rsi)
	addq	$32, %rsi
	cmpq	%rsi, %rcx
	jne	51b
	cmpq	%rcx, %r15
	je	20b
	testb	$28, %r15b
	je	15b
52:
	movq	%rcx, %rdx
	movq	%r15, %rcx
	andq	$-4, %rcx
	.p2align	4
53:
	movl	(%r13,%rdx), %esi
	movl	%esi, (%rdi,%rdx)
	addq	$4, %rdx
	cmpq	%rdx, %rcx
	jne	53b
	cmpq	%rcx, %r15
	je	20b
	jmp	15b
54:
	leaq	16(%rsp), %rdi
	movq	%r14, %rsi
	callq	"std_alloc::vec::Vec::grow_amortized::<#1d775b5957dec42c>"
	testb	%al, %al
	je	57f
	movq	16(%rsp), %rax
	movq	24(%rsp), %rbx
	movq	32(%rsp), %r12
	jmp	3b
55:
	leaq	16(%rsp), %rdi
	movq	%r15, %rsi
	callq	"std_alloc::vec::Vec::grow_amortized::<#1d775b5957dec42c>"
	testb	%al, %al
	je	58f
	movq	16(%rsp), %rax
	movq	24(%rsp), %r14
	movq	32(%rsp), %rbx
	jmp	13b
56:
	xorl	%eax, %eax
	jmp	64f
57:
	cmpq	$0, 32(%rsp)
	je	62f
	movq	16(%rsp), %rdi
	jmp	61f
58:
	cmpq	$0, 32(%rsp)
	je	59f
	movq	16(%rsp), %rdi
	callq	rattle_dealloc@PLT
59:
	cmpq	$0, 120(%rsp)
	je	60f
	movq	112(%rsp), %rdi
	callq	rattle_dealloc@PLT
60:
	testq	%r14, %r14
	je	62f
	movq	%rbx, %rdi
61:
	callq	rattle_dealloc@PLT
62:
	cmpq	$0, 88(%rsp)
	je	63f
	movq	40(%rsp), %rdi
	callq	rattle_dealloc@PLT
63:
	movb	$1, %al
64:
	addq	$440, %rsp
	popq	%rbx
	popq	%r12
	popq	%r13
	popq	%r14
	popq	%r15
	popq	%rbp
	retq
65:
	.size	"mime_tool::explain::lines::push_rules", 65b-"mime_tool::explain::lines::push_rules"

	.text
	.p2align	4
	.type	"mime_tool::line::escape::escaped",@function
"mime_tool::line::escape::escaped":
	pushq	%r15
	pushq	%r14
	pushq	%r13
	pushq	%r12
	pushq	%rbx
	subq	$32, %rsp
	movq	%rdi, %rbx
	leaq	7(%rsp), %rax
	movq	%rax, 8(%rsp)
	xorps	%xmm0, %xmm0
	movups	%xmm0, 16(%rsp)
	testq	%rdx, %rdx
	je	8f
	movq	%rdx, %r14
	movq	%rsi, %r15
	xorl	%r12d, %r12d
	jmp	4f
	.p2align	4
1:
	movq	16(%rsp), %rcx
	movq	24(%rsp), %rdx
	movq	%rdx, %rax
	subq	%rcx, %rax
	cmpq	$3, %rax
	jbe	6f
2:
	movl	%r13d, %eax
	andl	$-64, %eax
	movl	%r13d, %esi
	andl	$56, %esi
	shll	$13, %esi
	andl	$7, %r13d
	shll	$24, %r13d
	orl	%esi, %r13d
	leal	808464476(%r13,%rax,4), %esi
	movq	8(%rsp), %rax
	movl	%esi, (%rax,%rcx)
	addq	$4, %rcx
3:
	movq	%rcx, 16(%rsp)
	movq	%rdx, 24(%rsp)
	incq	%r12
	cmpq	%r12, %r14
	je	8f
4:
	movzbl	(%r15,%r12), %r13d
	cmpl	$32, %r13d
	jb	1b
	cmpl	$127, %r13d
	je	1b
	cmpl	$92, %r13d
	je	1b
	movq	16(%rsp), %rcx
	movq	24(%rsp), %rdx
	cmpq	%rcx, %rdx
	je	7f
5:
	movb	%r13b, (%rax,%rcx)
	incq	%rcx
	jmp	3b
6:
	leaq	8(%rsp), %rdi
	movl	$4, %esi
	callq	"std_alloc::vec::Vec::grow_amortized::<#1d775b5957dec42c>"
	testb	%al, %al
	je	10f
	movq	16(%rsp), %rcx
	movq	24(%rsp), %rdx
	jmp	2b
7:
	leaq	8(%rsp), %rdi
	movl	$1, %esi
	callq	"std_alloc::vec::Vec::grow_amortized::<#1d775b5957dec42c>"
	testb	%al, %al
	je	10f
	movq	8(%rsp), %rax
	movq	16(%rsp), %rcx
	movq	24(%rsp), %rdx
	jmp	5b
8:
	movb	$0, (%rbx)
	movq	8(%rsp), %rax
	movq	%rax, 8(%rbx)
	movq	16(%rsp), %rax
	movq	%rax, 16(%rbx)
	movq	24(%rsp), %rax
	movq	%rax, 24(%rbx)
9:
	addq	$32, %rsp
	popq	%rbx
	popq	%r12
	popq	%r13
	popq	%r14
	popq	%r15
	retq
10:
	cmpq	$0, 24(%rsp)
	je	11f
	movq	8(%rsp), %rdi
	callq	rattle_dealloc@PLT
11:
	movb	$1, (%rbx)
	xorps	%xmm0, %xmm0
	movups	%xmm0, 8(%rbx)
	movq	$0, 24(%rbx)
	jmp	9b
12:
	.size	"mime_tool::line::escape::escaped", 12b-"mime_tool::line::escape::escaped"

	.section	.rodata.cst16,"aM",@progbits,16
	.p2align	4, 0x0
1:
	.byte	0,1,2,3,4,5,6,7,8,9,10,11,12,13,14,15
2:
	.byte	16,17,18,19,20,21,22,23,24,25,26,27,28,29,30,31
3:
	.zero	16,47
4:
	.byte	3,2,1,0,7,6,5,4,11,10,9,8,15,14,13,12
	.text
	.p2align	4
	.type	"mime_tool::line::print_line::<#2e1b2a3647f851f7>",@function
"mime_tool::line::print_line::<#2e1b2a3647f851f7>":
	pushq	%rbp
	pushq	%r15
	pushq	%r14
	pushq	%r13
	pushq	%r12
	pushq	%rbx
	subq	$1352, %rsp
	movq	%r9, 240(%rsp)
	movq	%r8, %r12
	movq	%rcx, %r14
	movq	%rdx, %rbx
	movq	%rsi, 264(%rsp)
	movq	%rdi, %r15
	addq	$24, %rcx
	cmpb	$1, 24(%r14)
	movq	%rcx, 1344(%rsp)
	jne	5f
	movq	32(%r14), %rax
	cmpq	%rax, 40(%r14)
	ja	5f
	pxor	%xmm0, %xmm0
	movdqu	%xmm0, (%rcx)
	movq	$0, 16(%rcx)
	movb	$1, %al
	xorl	%ecx, %ecx
	jmp	8f
5:
	cmpb	$1, (%r14)
	jne	6f
	movq	8(%r14), %rax
	cmpq	%rax, 16(%r14)
	ja	6f
	pxor	%xmm0, %xmm0
	movdqu	%xmm0, (%r14)
	movq	$0, 16(%r14)
	xorl	%eax, %eax
	xorl	%ecx, %ecx
	jmp	8f
6:
	cmpb	$1, 48(%r14)
	jne	7f
	movq	56(%r14), %rax
	cmpq	%rax, 64(%r14)
	ja	7f
	leaq	48(%r14), %rax
	pxor	%xmm0, %xmm0
	movdqu	%xmm0, (%rax)
	movq	$0, 16(%rax)
	movb	$2, %al
	xorl	%ecx, %ecx
	jmp	8f
7:
	cmpb	$1, 72(%r14)
	jne	9f
	movq	80(%r14), %rax
	cmpq	%rax, 88(%r14)
	ja	9f
	leaq	72(%r14), %rax
	pxor	%xmm0, %xmm0
	movdqu	%xmm0, (%rax)
	movq	$0, 16(%rax)
	movb	$1, %cl
	movb	$2, %al
8:
	movzbl	%al, %esi
	movzbl	%cl, %edx
	movq	%rbx, %rdi
	callq	"mime_tool::preparing::Prepared::prepare"
9:
	movq	%r15, 984(%rsp)
	movq	%r14, 352(%rsp)
	movzbl	(%rbx), %ebp
	movq	8(%rbx), %rcx
	movq	16(%rbx), %r14
	movq	24(%rbx), %rdx
	movzbl	32(%rbx), %r13d
	movzwl	37(%rbx), %eax
	movzbl	39(%rbx), %edi
	shll	$16, %edi
	orl	%eax, %edi
	shlq	$32, %rdi
	movl	33(%rbx), %esi
	orq	%rdi, %rsi
	movzbl	40(%rbx), %eax
	movq	%rax, 96(%rsp)
	movzbl	49(%rbx), %eax
	movzbl	56(%rbx), %r9d
	leaq	64(%rbx), %r15
	xorl	%r10d, %r10d
	cmpb	$1, %r9b
	cmovneq	%r10, %r15
	movzbl	984(%rbx), %edi
	leaq	992(%rbx), %r8
	cmpb	$1, %dil
	cmovneq	%r10, %r8
	movzbl	%bpl, %r10d
	leaq	475f(%rip), %r11
	movslq	(%r11,%r10,4), %r10
	addq	%r11, %r10
	jmpq	*%r10
10:
	movq	%r14, 120(%rsp)
11:
	movq	%rcx, 40(%rsp)
	movq	%rdx, 24(%rsp)
	movq	%rsi, 64(%rsp)
12:
	movzbl	50(%rbx), %r14d
	movzbl	48(%rbx), %r15d
	movzwl	51(%rbx), %ecx
	movl	%ecx, 176(%rsp)
	movzbl	53(%rbx), %ecx
	movb	%cl, 392(%rsp)
	testb	%al, %al
	movq	240(%rsp), %rbx
	je	13f
	pxor	%xmm0, %xmm0
	movdqa	%xmm0, 544(%rsp)
	movq	$0, 560(%rsp)
	leaq	544(%rsp), %rdi
	movq	%r12, %rsi
	movq	%rbx, %rdx
	callq	"core::str::utf8::from_utf8"
	cmpb	$0, 544(%rsp)
	je	23f
13:
	movq	%r13, 48(%rsp)
	pxor	%xmm0, %xmm0
	movdqa	%xmm0, 1200(%rsp)
	movdqa	%xmm0, 1184(%rsp)
	movq	$0, 1216(%rsp)
	xorl	%edi, %edi
	movl	$0, %eax
	testb	%r15b, %r15b
	je	19f
14:
	movzbl	%al, %ecx
	movl	%edi, %edx
	xorl	%esi, %esi
	testb	%cl, %cl
	cmovneq	%rdx, %rsi
	movzbl	%r14b, %r10d
	movl	%ecx, 180(%rsp)
	leaq	184(%rsp), %r9
	movq	%rsi, 184(%rsp)
	movzbl	%bpl, %ecx
	leaq	476f(%rip), %rdx
	movslq	(%rdx,%rcx,4), %rcx
	addq	%rdx, %rcx
	jmpq	*%rcx
15:
	cmpb	$3, %r14b
	jne	74f
	movl	%r10d, 32(%rsp)
	movq	40(%rsp), %r13
	movq	%r13, 272(%rsp)
	movq	$0, 128(%rsp)
	pxor	%xmm0, %xmm0
	movdqa	%xmm0, 192(%rsp)
	leaq	.L22d5119de29e(%rip), %rbp
	xorl	%r14d, %r14d
16:
	leaq	168(%rsp), %rbx
	xorl	%esi, %esi
	movq	$0, 96(%rsp)
	movq	$0, 120(%rsp)
17:
	movq	%rbx, %rdi
	movq	%rsi, 24(%rsp)
	callq	"mime_lookup::checking::are_one_type"
	testb	%al, %al
	je	93f
	movq	(%rbx), %r10
	movq	8(%rbx), %rdx
18:
	cmpq	$0, 96(%rsp)
	jne	35f
	jmp	37f
19:
	leaq	1184(%rsp), %rdi
	movq	%r12, %rsi
	movq	%rbx, %rdx
	callq	"mime_tool::desk::StreamsDesk::open::<#6c31bac265adaac4>"
	movl	1192(%rsp), %edi
	cmpb	$0, 1184(%rsp)
	je	25f
	movq	1200(%rsp), %r10
	movq	1208(%rsp), %r13
	movzbl	1216(%rsp), %r9d
	movzbl	1223(%rsp), %eax
	shll	$16, %eax
	movzwl	1221(%rsp), %ecx
	orl	%eax, %ecx
	shlq	$32, %rcx
	movl	1217(%rsp), %r14d
	orq	%rcx, %r14
	jmp	270f
20:
	movq	%r15, 24(%rsp)
	movb	$3, %bpl
	cmpb	$1, %r9b
	movq	%r14, 120(%rsp)
	jne	11b
	movq	96(%rsp), %r13
	andb	$1, %r13b
	movb	$4, %bpl
	movq	$0, 64(%rsp)
	movq	%rcx, 40(%rsp)
	jmp	22f
21:
	movzbl	200(%rbx), %r9d
	leaq	208(%rbx), %r10
	xorl	%r11d, %r11d
	cmpb	$1, %r9b
	cmovneq	%r11, %r10
	movq	%r10, 40(%rsp)
	testb	$1, %r9b
	je	41f
	movq	$0, 64(%rsp)
	movb	$1, %bpl
	movq	$0, 120(%rsp)
	movq	$0, 24(%rsp)
	xorl	%r13d, %r13d
22:
	movq	$0, 96(%rsp)
	jmp	12b
23:
	movb	%r15b, 32(%rsp)
	movq	552(%rsp), %rbx
	movq	560(%rsp), %r15
	pxor	%xmm0, %xmm0
	movdqa	%xmm0, 704(%rsp)
	movdqa	%xmm0, 688(%rsp)
	movdqa	%xmm0, 672(%rsp)
	movdqa	%xmm0, 656(%rsp)
	movdqa	%xmm0, 640(%rsp)
	movdqa	%xmm0, 624(%rsp)
	movdqa	%xmm0, 608(%rsp)
	movdqa	%xmm0, 592(%rsp)
	movdqa	%xmm0, 576(%rsp)
	movdqa	%xmm0, 560(%rsp)
	movdqa	%xmm0, 544(%rsp)
	testq	%r15, %r15
	je	43f
	xorl	%eax, %eax
	.p2align	4
24:
	cmpb	$0, (%rbx,%rax)
	je	42f
	incq	%rax
	cmpq	%rax, %r15
	jne	24b
	jmp	43f
25:
	movzbl	1188(%rsp), %eax
	testl	%eax, %eax
	je	49f
	movb	$3, %dil
	cmpl	$1, %eax
	je	26f
	movb	$1, %dil
26:
	xorl	%r15d, %r15d
	movq	$0, 40(%rsp)
	xorl	%r8d, %r8d
	xorl	%r10d, %r10d
	xorl	%r13d, %r13d
	xorl	%r9d, %r9d
	movq	$0, 24(%rsp)
	jmp	279f
27:
	pxor	%xmm1, %xmm1
	movdqa	%xmm1, 960(%rsp)
	movdqa	%xmm1, 992(%rsp)
	movdqa	%xmm1, 1008(%rsp)
	cmpb	$3, %r14b
	jne	50f
	movq	$0, 1056(%rsp)
	movq	24(%rsp), %rsi
	leaq	24(%rsi), %rax
	movq	%rax, 32(%rsp)
	movq	24(%rsi), %rax
	movq	%rax, %rcx
	shrq	$2, %rcx
	movq	$1, 320(%rsp)
	movq	$0, 328(%rsp)
	movq	%rcx, 336(%rsp)
	movq	%rax, 344(%rsp)
	movb	$3, %r14b
	leaq	.L22d5119de29e(%rip), %r15
	xorl	%ebx, %ebx
28:
	xorl	%edi, %edi
	movq	$0, 96(%rsp)
29:
	movq	$0, 56(%rsp)
30:
	pxor	%xmm0, %xmm0
	movdqa	%xmm0, 560(%rsp)
	movdqa	%xmm0, 544(%rsp)
	movzbl	180(%rsp), %r13d
	movb	$1, %cl
	xorl	%r8d, %r8d
	movzbl	%r14b, %ebp
	movl	$0, %r10d
	movb	$1, %dl
	movl	$0, %r11d
	cmpb	$1, %r13b
	jne	158f
	movl	56(%rsi), %r8d
	movq	24(%rsi), %rax
	subq	%r8, %rax
	setb	%cl
	cmpq	$12, %rax
	setb	%al
	orb	%cl, %al
	movq	320(%rsp), %rcx
	incq	%rcx
	movq	$-1, %rdx
	cmovneq	%rcx, %rdx
	movq	%rdx, 320(%rsp)
	testb	%al, %al
	je	106f
	movw	$3, %r11w
	movl	$1, %r9d
	xorl	%ecx, %ecx
	xorl	%edx, %edx
	jmp	107f
31:
	cmpb	$3, %r14b
	jne	58f
	movl	%r10d, 32(%rsp)
	movq	$0, 128(%rsp)
	pxor	%xmm0, %xmm0
	movdqa	%xmm0, 192(%rsp)
	leaq	168(%rsp), %rbx
	leaq	.L22d5119de29e(%rip), %rbp
	xorl	%r13d, %r13d
32:
	movq	$0, 24(%rsp)
	xorl	%r14d, %r14d
	xorl	%esi, %esi
33:
	movq	%rbx, %rdi
	movq	%rsi, 96(%rsp)
	callq	"mime_lookup::checking::are_one_type"
	testb	%al, %al
	je	90f
	movq	(%rbx), %r10
	movq	8(%rbx), %rdx
34:
	testq	%r14, %r14
	je	37f
35:
	movq	%rdx, %r14
	movq	%rbx, %rdi
36:
	movq	%r10, %rbx
	callq	rattle_dealloc@PLT
	movq	%r14, %rdx
	movq	%rbx, %r10
37:
	movq	%rdx, %r15
	shrq	$48, %r15
	movq	%rdx, %rsi
	shrq	$32, %rsi
	movl	%edx, %r13d
	shrl	$16, %r13d
	movq	128(%rsp), %rbx
	movq	192(%rsp), %rax
	movq	%rax, 64(%rsp)
	movq	200(%rsp), %rax
38:
	movq	%rax, 24(%rsp)
	xorl	%r14d, %r14d
	xorl	%ebp, %ebp
	xorl	%edi, %edi
	xorl	%r9d, %r9d
	jmp	268f
39:
	pxor	%xmm0, %xmm0
	movdqa	%xmm0, 1296(%rsp)
	movdqa	%xmm0, 1152(%rsp)
	movdqa	%xmm0, 1168(%rsp)
	cmpb	$3, %r14b
	jne	66f
	movq	$0, 1224(%rsp)
	leaq	.L22d5119de29e(%rip), %rbp
	xorl	%r11d, %r11d
	movq	120(%rsp), %r14
	movq	48(%rsp), %r8
	jmp	117f
40:
	cmpb	$3, %r14b
	jne	82f
	movl	%r10d, 32(%rsp)
	movq	$0, 144(%rsp)
	movq	$0, 1024(%rsp)
	pxor	%xmm0, %xmm0
	movdqa	%xmm0, 272(%rsp)
	leaq	.L22d5119de29e(%rip), %rbp
	xorl	%r13d, %r13d
	jmp	131f
41:
	testb	$1, %dil
	cmovneq	%r11, %r14
	movq	%r14, 120(%rsp)
	cmovneq	%r11, %rdx
	movzbl	%r13b, %r13d
	cmovnel	%r11d, %r13d
	cmovneq	%r11, %rsi
	cmovneq	%r8, %rcx
	movq	96(%rsp), %r8
	movzbl	%r8b, %r8d
	cmovnel	%r11d, %r8d
	movq	%r8, 96(%rsp)
	leal	(%rdi,%rdi), %ebp
	jmp	11b
42:
	cmpq	%r15, %rax
	jae	43f
	leaq	.L399de51ae489(%rip), %rcx
	leaq	400(%rsp), %rdi
	movl	$42, %r8d
	movl	$42, %r9d
	movl	$2, %esi
	movl	$20, %edx
	callq	"std_io::io::error::Error::from_bytes"
	movzbl	401(%rsp), %eax
	jmp	44f
43:
	leaq	544(%rsp), %rdi
	movl	$-100, %esi
	movq	%rbx, %rdx
	movq	%r15, %rcx
	xorl	%r8d, %r8d
	callq	"std::fs::stat::stat_at"
	movzbl	553(%rsp), %eax
	cmpb	$0, 544(%rsp)
	je	47f
44:
	movdqa	1b(%rip), %xmm0
	movdqa	%xmm0, 544(%rsp)
	movdqa	2b(%rip), %xmm1
	movdqa	%xmm1, 560(%rsp)
	movabsq	$2820983053732684064, %rsi
	movq	%rsi, 576(%rsp)
	movb	$40, 584(%rsp)
	cmpb	$41, %al
	jae	45f
	movzbl	%al, %ecx
	movzbl	544(%rsp,%rcx), %ecx
	movabsq	$4398046248956, %rdx
	btq	%rcx, %rdx
	jae	181f
45:
	movdqa	%xmm0, 544(%rsp)
	movdqa	%xmm1, 560(%rsp)
	movq	%rsi, 576(%rsp)
	movb	$40, 584(%rsp)
	cmpb	$41, %al
	jae	46f
	movzbl	%al, %eax
	cmpb	$38, 544(%rsp,%rax)
	movq	240(%rsp), %rbx
	movzbl	32(%rsp), %r15d
	jne	13b
	movb	$2, %dil
	xorl	%r9d, %r9d
	xorl	%r13d, %r13d
	xorl	%r10d, %r10d
	xorl	%r14d, %r14d
	jmp	270f
46:
	movq	240(%rsp), %rbx
	movzbl	32(%rsp), %r15d
	jmp	13b
47:
	movzbl	%al, %eax
	movl	%eax, %edx
	shll	$8, %edx
	addl	$-4096, %edx
	movl	%edx, %ecx
	shrl	$12, %ecx
	cmpl	$24576, %edx
	setb	%dl
	movb	$43, %sil
	shrb	%cl, %sil
	testb	%sil, %dl
	je	94f
	shll	$3, %ecx
	leaq	".Lswitch.table.mime_tool::line::print_line::<#2e1b2a3647f851f7>"(%rip), %rax
	movq	(%rcx,%rax), %rdx
	leaq	".Lswitch.table.mime_tool::line::print_line::<#2e1b2a3647f851f7>.2672"(%rip), %rax
	movq	(%rcx,%rax), %r10
	movq	240(%rsp), %rbx
	cmpb	$3, %bpl
	jae	96f
48:
	xorl	%r9d, %r9d
	jmp	139f
49:
	movb	$1, %al
	jmp	14b
50:
	movq	%rbx, %rcx
	cmpq	$32, %rbx
	jb	56f
	movq	%rbx, %rdx
51:
	movdqu	-32(%r12,%rdx), %xmm1
	movdqu	-16(%r12,%rdx), %xmm2
	movdqa	3b(%rip), %xmm0
	pcmpeqb	%xmm0, %xmm1
	pmovmskb	%xmm1, %esi
	pcmpeqb	%xmm0, %xmm2
	pmovmskb	%xmm2, %ecx
	shll	$16, %ecx
	orl	%esi, %ecx
	je	53f
	leaq	-32(%rdx), %rsi
	movl	%ecx, %edi
	.p2align	4
52:
	bsrq	%rdi, %rcx
	leaq	(%rcx,%rsi), %r15
	cmpb	$47, (%r12,%r15)
	je	97f
	movq	$-2, %r8
	rolq	%cl, %r8
	andq	%r8, %rdi
	jne	52b
53:
	movq	%rdx, %rsi
	.p2align	4
54:
	movq	%rsi, %rcx
	leaq	-32(%rsi), %rdx
	cmpq	$128, %rdx
	jb	55f
	movdqu	-160(%r12,%rcx), %xmm1
	movdqu	-144(%r12,%rcx), %xmm2
	movdqu	-128(%r12,%rcx), %xmm3
	movdqu	-112(%r12,%rcx), %xmm4
	pcmpeqb	%xmm0, %xmm1
	pcmpeqb	%xmm0, %xmm2
	pcmpeqb	%xmm0, %xmm3
	por	%xmm1, %xmm3
	pcmpeqb	%xmm0, %xmm4
	por	%xmm2, %xmm4
	movdqu	-80(%r12,%rcx), %xmm1
	movdqu	-96(%r12,%rcx), %xmm2
	pcmpeqb	%xmm0, %xmm2
	pcmpeqb	%xmm0, %xmm1
	movdqu	-48(%r12,%rcx), %xmm5
	movdqu	-64(%r12,%rcx), %xmm6
	pcmpeqb	%xmm0, %xmm6
	por	%xmm2, %xmm6
	por	%xmm3, %xmm6
	pcmpeqb	%xmm0, %xmm5
	por	%xmm1, %xmm5
	por	%xmm4, %xmm5
	por	%xmm6, %xmm5
	pmovmskb	%xmm5, %edi
	leaq	-128(%rcx), %rsi
	testl	%edi, %edi
	je	54b
55:
	cmpq	$31, %rdx
	ja	51b
	addq	$-32, %rcx
56:
	incq	%rcx
	movq	24(%rsp), %rsi
	.p2align	4
57:
	cmpq	$1, %rcx
	je	108f
	leaq	-1(%rcx), %r15
	cmpb	$47, -2(%r12,%rcx)
	movq	%r15, %rcx
	jne	57b
	jmp	98f
58:
	movq	%rbx, %rcx
	cmpq	$32, %rbx
	jb	64f
	movq	%rbx, %rax
59:
	movdqu	-32(%r12,%rax), %xmm1
	movdqu	-16(%r12,%rax), %xmm2
	movdqa	3b(%rip), %xmm0
	pcmpeqb	%xmm0, %xmm1
	pmovmskb	%xmm1, %edx
	pcmpeqb	%xmm0, %xmm2
	pmovmskb	%xmm2, %ecx
	shll	$16, %ecx
	orl	%edx, %ecx
	je	61f
	leaq	-32(%rax), %rdx
	movl	%ecx, %esi
	.p2align	4
60:
	bsrq	%rsi, %rcx
	leaq	(%rcx,%rdx), %rbp
	cmpb	$47, (%r12,%rbp)
	je	99f
	movq	$-2, %rdi
	rolq	%cl, %rdi
	andq	%rdi, %rsi
	jne	60b
61:
	movq	%rax, %rdx
	.p2align	4
62:
	movq	%rdx, %rcx
	leaq	-32(%rdx), %rax
	cmpq	$128, %rax
	jb	63f
	movdqu	-160(%r12,%rcx), %xmm1
	movdqu	-144(%r12,%rcx), %xmm2
	movdqu	-128(%r12,%rcx), %xmm3
	movdqu	-112(%r12,%rcx), %xmm4
	pcmpeqb	%xmm0, %xmm1
	pcmpeqb	%xmm0, %xmm2
	pcmpeqb	%xmm0, %xmm3
	por	%xmm1, %xmm3
	pcmpeqb	%xmm0, %xmm4
	por	%xmm2, %xmm4
	movdqu	-80(%r12,%rcx), %xmm1
	movdqu	-96(%r12,%rcx), %xmm2
	pcmpeqb	%xmm0, %xmm2
	pcmpeqb	%xmm0, %xmm1
	movdqu	-48(%r12,%rcx), %xmm5
	movdqu	-64(%r12,%rcx), %xmm6
	pcmpeqb	%xmm0, %xmm6
	por	%xmm2, %xmm6
	por	%xmm3, %xmm6
	pcmpeqb	%xmm0, %xmm5
	por	%xmm1, %xmm5
	por	%xmm4, %xmm5
	por	%xmm6, %xmm5
	pmovmskb	%xmm5, %esi
	leaq	-128(%rcx), %rdx
	testl	%esi, %esi
	je	62b
63:
	cmpq	$31, %rax
	ja	59b
	addq	$-32, %rcx
64:
	incq	%rcx
	.p2align	4
65:
	cmpq	$1, %rcx
	je	110f
	leaq	-1(%rcx), %rbp
	cmpb	$47, -2(%r12,%rcx)
	movq	%rbp, %rcx
	jne	65b
	jmp	111f
66:
	movq	%rbx, %rcx
	cmpq	$32, %rbx
	movq	120(%rsp), %r14
	movq	48(%rsp), %r8
	jb	72f
	movq	%rbx, %rax
67:
	movdqu	-32(%r12,%rax), %xmm1
	movdqu	-16(%r12,%rax), %xmm2
	movdqa	3b(%rip), %xmm0
	pcmpeqb	%xmm0, %xmm1
	pmovmskb	%xmm1, %edx
	pcmpeqb	%xmm0, %xmm2
	pmovmskb	%xmm2, %ecx
	shll	$16, %ecx
	orl	%edx, %ecx
	je	69f
	leaq	-32(%rax), %rdx
	movl	%ecx, %esi
	.p2align	4
68:
	bsrq	%rsi, %rcx
	leaq	(%rcx,%rdx), %rbp
	cmpb	$47, (%r12,%rbp)
	je	100f
	movq	$-2, %rdi
	rolq	%cl, %rdi
	andq	%rdi, %rsi
	jne	68b
69:
	movq	%rax, %rdx
	.p2align	4
70:
	movq	%rdx, %rcx
	leaq	-32(%rdx), %rax
	cmpq	$128, %rax
	jb	71f
	movdqu	-160(%r12,%rcx), %xmm1
	movdqu	-144(%r12,%rcx), %xmm2
	movdqu	-128(%r12,%rcx), %xmm3
	movdqu	-112(%r12,%rcx), %xmm4
	pcmpeqb	%xmm0, %xmm1
	pcmpeqb	%xmm0, %xmm2
	pcmpeqb	%xmm0, %xmm3
	por	%xmm1, %xmm3
	pcmpeqb	%xmm0, %xmm4
	por	%xmm2, %xmm4
	movdqu	-80(%r12,%rcx), %xmm1
	movdqu	-96(%r12,%rcx), %xmm2
	pcmpeqb	%xmm0, %xmm2
	pcmpeqb	%xmm0, %xmm1
	movdqu	-48(%r12,%rcx), %xmm5
	movdqu	-64(%r12,%rcx), %xmm6
	pcmpeqb	%xmm0, %xmm6
	por	%xmm2, %xmm6
	por	%xmm3, %xmm6
	pcmpeqb	%xmm0, %xmm5
	por	%xmm1, %xmm5
	por	%xmm4, %xmm5
	por	%xmm6, %xmm5
	pmovmskb	%xmm5, %esi
	leaq	-128(%rcx), %rdx
	testl	%esi, %esi
	je	70b
71:
	cmpq	$31, %rax
	ja	67b
	addq	$-32, %rcx
72:
	incq	%rcx
	.p2align	4
73:
	cmpq	$1, %rcx
	je	113f
	leaq	-1(%rcx), %rbp
	cmpb	$47, -2(%r12,%rcx)
	movq	%rbp, %rcx
	jne	73b
	jmp	114f
74:
	movq	%rbx, %rcx
	cmpq	$32, %rbx
	jb	80f
	movq	%rbx, %rax
75:
	movdqu	-32(%r12,%rax), %xmm1
	movdqu	-16(%r12,%rax), %xmm2
	movdqa	3b(%rip), %xmm0
	pcmpeqb	%xmm0, %xmm1
	pmovmskb	%xmm1, %edx
	pcmpeqb	%xmm0, %xmm2
	pmovmskb	%xmm2, %ecx
	shll	$16, %ecx
	orl	%edx, %ecx
	je	77f
	leaq	-32(%rax), %rdx
	movl	%ecx, %esi
	.p2align	4
76:
	bsrq	%rsi, %rcx
	leaq	(%rcx,%rdx), %rbp
	cmpb	$47, (%r12,%rbp)
	je	101f
	movq	$-2, %rdi
	rolq	%cl, %rdi
	andq	%rdi, %rsi
	jne	76b
77:
	movq	%rax, %rdx
	.p2align	4
78:
	movq	%rdx, %rcx
	leaq	-32(%rdx), %rax
	cmpq	$128, %rax
	jb	79f
	movdqu	-160(%r12,%rcx), %xmm1
	movdqu	-144(%r12,%rcx), %xmm2
	movdqu	-128(%r12,%rcx), %xmm3
	movdqu	-112(%r12,%rcx), %xmm4
	pcmpeqb	%xmm0, %xmm1
	pcmpeqb	%xmm0, %xmm2
	pcmpeqb	%xmm0, %xmm3
	por	%xmm1, %xmm3
	pcmpeqb	%xmm0, %xmm4
	por	%xmm2, %xmm4
	movdqu	-80(%r12,%rcx), %xmm1
	movdqu	-96(%r12,%rcx), %xmm2
	pcmpeqb	%xmm0, %xmm2
	pcmpeqb	%xmm0, %xmm1
	movdqu	-48(%r12,%rcx), %xmm5
	movdqu	-64(%r12,%rcx), %xmm6
	pcmpeqb	%xmm0, %xmm6
	por	%xmm2, %xmm6
	por	%xmm3, %xmm6
	pcmpeqb	%xmm0, %xmm5
	por	%xmm1, %xmm5
	por	%xmm4, %xmm5
	por	%xmm6, %xmm5
	pmovmskb	%xmm5, %esi
	leaq	-128(%rcx), %rdx
	testl	%esi, %esi
	je	78b
79:
	cmpq	$31, %rax
	ja	75b
	addq	$-32, %rcx
80:
	incq	%rcx
	.p2align	4
81:
	cmpq	$1, %rcx
	je	123f
	leaq	-1(%rcx), %rbp
	cmpb	$47, -2(%r12,%rcx)
	movq	%rbp, %rcx
	jne	81b
	jmp	124f
82:
	movq	%rbx, %rcx
	cmpq	$32, %rbx
	jb	88f
	movq	%rbx, %rax
83:
	movdqu	-32(%r12,%rax), %xmm1
	movdqu	-16(%r12,%rax), %xmm2
	movdqa	3b(%rip), %xmm0
	pcmpeqb	%xmm0, %xmm1
	pmovmskb	%xmm1, %edx
	pcmpeqb	%xmm0, %xmm2
	pmovmskb	%xmm2, %ecx
	shll	$16, %ecx
	orl	%edx, %ecx
	je	85f
	leaq	-32(%rax), %rdx
	movl	%ecx, %esi
	.p2align	4
84:
	bsrq	%rsi, %rcx
	leaq	(%rcx,%rdx), %rbp
	cmpb	$47, (%r12,%rbp)
	je	102f
	movq	$-2, %rdi
	rolq	%cl, %rdi
	andq	%rdi, %rsi
	jne	84b
85:
	movq	%rax, %rdx
	.p2align	4
86:
	movq	%rdx, %rcx
	leaq	-32(%rdx), %rax
	cmpq	$128, %rax
	jb	87f
	movdqu	-160(%r12,%rcx), %xmm1
	movdqu	-144(%r12,%rcx), %xmm2
	movdqu	-128(%r12,%rcx), %xmm3
	movdqu	-112(%r12,%rcx), %xmm4
	pcmpeqb	%xmm0, %xmm1
	pcmpeqb	%xmm0, %xmm2
	pcmpeqb	%xmm0, %xmm3
	por	%xmm1, %xmm3
	pcmpeqb	%xmm0, %xmm4
	por	%xmm2, %xmm4
	movdqu	-80(%r12,%rcx), %xmm1
	movdqu	-96(%r12,%rcx), %xmm2
	pcmpeqb	%xmm0, %xmm2
	pcmpeqb	%xmm0, %xmm1
	movdqu	-48(%r12,%rcx), %xmm5
	movdqu	-64(%r12,%rcx), %xmm6
	pcmpeqb	%xmm0, %xmm6
	por	%xmm2, %xmm6
	por	%xmm3, %xmm6
	pcmpeqb	%xmm0, %xmm5
	por	%xmm1, %xmm5
	por	%xmm4, %xmm5
	por	%xmm6, %xmm5
	pmovmskb	%xmm5, %esi
	leaq	-128(%rcx), %rdx
	testl	%esi, %esi
	je	86b
87:
	cmpq	$31, %rax
	ja	83b
	addq	$-32, %rcx
88:
	incq	%rcx
	.p2align	4
89:
	cmpq	$1, %rcx
	je	126f
	leaq	-1(%rcx), %rbp
	cmpb	$47, -2(%r12,%rcx)
	movq	%rbp, %rcx
	jne	89b
	jmp	127f
90:
	pxor	%xmm0, %xmm0
	movdqa	%xmm0, 544(%rsp)
	movdqa	%xmm0, 560(%rsp)
	movdqa	%xmm0, 400(%rsp)
	movq	$0, 416(%rsp)
	testb	%r15b, %r15b
	je	103f
	leaq	.L67248b46a1a0(%rip), %r10
	movl	$24, %edx
	xorl	%esi, %esi
	xorl	%edi, %edi
91:
	movl	32(%rsp), %eax
	movl	%eax, %eax
	leaq	484f(%rip), %rcx
	movslq	(%rcx,%rax,4), %rax
	addq	%rcx, %rax
	jmpq	*%rax
92:
	movq	%rbx, %r15
	movq	%r14, %r13
	movq	40(%rsp), %rax
	movq	96(%rsp), %rcx
	jmp	178f
93:
	pxor	%xmm0, %xmm0
	movdqa	%xmm0, 560(%rsp)
	movdqa	%xmm0, 544(%rsp)
	testb	%r15b, %r15b
	je	104f
	movq	%r13, 40(%rsp)
	leaq	.L67248b46a1a0(%rip), %r10
	movl	$24, %edx
	xorl	%edi, %edi
	xorl	%r13d, %r13d
	movl	32(%rsp), %esi
	jmp	343f
94:
	andl	$-16, %eax
	movb	$1, %cl
	cmpl	$192, %eax
	movq	240(%rsp), %rbx
	movzbl	32(%rsp), %r15d
	jne	13b
95:
	movzbl	%cl, %eax
	movq	%rax, %rcx
	xorq	$13, %rcx
	movq	%rcx, %rdx
	leaq	.Lc8848e2626bc(%rip), %rcx
	leaq	.Ld42309c85a1b(%rip), %r10
	testb	%al, %al
	cmovneq	%rcx, %r10
	cmpb	$3, %bpl
	jb	48b
96:
	movzbl	%bpl, %eax
	cmpl	$4, %eax
	jne	138f
	andb	$1, %r13b
	movl	%r13d, %r9d
	jmp	139f
97:
	incq	%r15
	movq	24(%rsp), %rsi
98:
	subq	%r15, %rbx
	movq	$0, 1056(%rsp)
	cmpq	$4097, %rbx
	jb	109f
	jmp	115f
99:
	incq	%rbp
	jmp	111f
100:
	incq	%rbp
	jmp	114f
101:
	incq	%rbp
	jmp	124f
102:
	incq	%rbp
	jmp	127f
103:
	movq	40(%rsp), %r15
	movq	384(%r15), %rdx
	leaq	544(%rsp), %rdi
	leaq	128(%rsp), %rcx
	leaq	184(%rsp), %rsi
	callq	"mime_lookup::reading::read_front::<#2cfdb7cb3bb0800e>"
	movq	552(%rsp), %rax
	cmpb	$0, 544(%rsp)
	je	146f
	movq	%rax, %rbp
	testq	%r14, %r14
	je	187f
	movq	%rbx, %rdi
	callq	rattle_dealloc@PLT
	movzbl	%bpl, %r10d
	movb	$2, %dil
	xorl	%r14d, %r14d
	leaq	483f(%rip), %rax
	movslq	(%rax,%r10,4), %rcx
	addq	%rax, %rcx
	xorl	%edx, %edx
	xorl	%r13d, %r13d
	xorl	%esi, %esi
	xorl	%r15d, %r15d
	movl	%ebp, %r9d
	movq	%r10, 64(%rsp)
	movq	%r10, 24(%rsp)
	movq	%r10, %rbx
	jmpq	*%rcx
104:
	movq	%r14, 56(%rsp)
	movq	%rbx, 64(%rsp)
	movq	80(%r13), %r14
	testq	%r14, %r14
	je	147f
	movq	72(%r13), %r15
	addq	$64, %r15
	xorl	%eax, %eax
	.p2align	4
105:
	movq	%rax, %r13
	movq	-8(%r15), %rdi
	movq	(%r15), %rsi
	callq	"mime_base::magic::extent::lines_extent"
	cmpq	%rax, %r13
	cmovaq	%r13, %rax
	addq	$80, %r15
	decq	%r14
	jne	105b
	cmpq	$129, %rax
	movl	$128, %edx
	cmovaeq	%rax, %rdx
	movq	40(%rsp), %r13
	jmp	148f
106:
	movdqa	%xmm1, 64(%rsp)
	movq	%rdi, 80(%rsp)
	movq	%rbx, 88(%rsp)
	movq	16(%rsi), %rax
	movl	4(%rax,%r8), %eax
	bswapl	%eax
	cmpl	$129, %eax
	movl	$128, %edx
	cmovael	%eax, %edx
	leaq	544(%rsp), %rdi
	leaq	1056(%rsp), %rcx
	movq	%rsi, %rbx
	movq	%r9, %rsi
	callq	"mime_lookup::reading::read_front::<#2cfdb7cb3bb0800e>"
	movq	552(%rsp), %r9
	movzwl	560(%rsp), %r11d
	movq	568(%rsp), %r8
	cmpb	$0, 544(%rsp)
	je	157f
	movl	562(%rsp), %ecx
	movl	%ecx, %edx
	shrl	$16, %edx
	movq	80(%rsp), %rdi
	movdqa	64(%rsp), %xmm1
107:
	leal	-2(%rbp), %eax
	cmpl	$2, %eax
	movl	%ecx, 48(%rsp)
	movq	%rdx, 32(%rsp)
	jb	196f
	cmpl	$1, %ebp
	jne	145f
	cmpl	$1, 96(%rsp)
	jne	196f
	pextrq	$1, %xmm1, %rax
	testq	%rax, %rax
	je	196f
	movq	%r11, %r14
	movq	%r8, %rbx
	movq	%r9, %r15
	callq	rattle_dealloc@PLT
	movq	%r15, %r9
	movq	%r14, %r11
	movq	%rbx, %r8
	movzbl	%r9b, %r10d
	movb	$2, %dil
	xorl	%r14d, %r14d
	leaq	478f(%rip), %rax
	movslq	(%rax,%r10,4), %rcx
	addq	%rax, %rcx
	xorl	%edx, %edx
	xorl	%r13d, %r13d
	xorl	%esi, %esi
	xorl	%r15d, %r15d
	movq	%r10, 64(%rsp)
	movq	%r10, 24(%rsp)
	movq	%r10, %rbx
	movl	%r9d, %ebp
	jmpq	*%rcx
108:
	xorl	%r15d, %r15d
	subq	%r15, %rbx
	movq	$0, 1056(%rsp)
	cmpq	$4097, %rbx
	jae	115f
109:
	addq	%r12, %r15
	leaq	24(%rsi), %rbp
	movq	24(%rsi), %rcx
	movq	%rcx, %rdi
	shrq	$2, %rdi
	movq	$1, 320(%rsp)
	movq	$0, 328(%rsp)
	leaq	336(%rsp), %rdx
	movq	%rdi, 336(%rsp)
	movq	%rcx, 344(%rsp)
	cmpl	$2, %r10d
	je	140f
	cmpl	$1, %r10d
	jne	142f
	movq	%rbp, 32(%rsp)
	pxor	%xmm1, %xmm1
	movb	$2, %r14b
	jmp	28b
110:
	xorl	%ebp, %ebp
111:
	movq	%rbx, %r13
	subq	%rbp, %r13
	movq	$0, 128(%rsp)
	pxor	%xmm0, %xmm0
	movdqa	%xmm0, 192(%rsp)
	cmpq	$4097, %r13
	jae	128f
	addq	%r12, %rbp
	movq	40(%rsp), %rax
	movq	(%rax), %rax
	movl	%r10d, 32(%rsp)
	movl	%r10d, %ecx
	leaq	482f(%rip), %rdx
	movslq	(%rdx,%rcx,4), %rcx
	addq	%rdx, %rcx
	jmpq	*%rcx
112:
	leaq	168(%rsp), %rbx
	jmp	32b
113:
	xorl	%ebp, %ebp
114:
	movq	%rbx, %r11
	subq	%rbp, %r11
	movq	$0, 1224(%rsp)
	cmpq	$4097, %r11
	jb	116f
115:
	movb	$2, %dil
	jmp	456f
116:
	addq	%r12, %rbp
117:
	movq	64(%rsp), %rcx
	shlq	$8, %rcx
	movzbl	%r8b, %eax
	orq	%rcx, %rax
	cmpq	$40, %rax
	movq	40(%rsp), %rsi
	jae	118f
	xorl	%edx, %edx
	jmp	121f
118:
	movq	24(%rsp), %rcx
	movl	(%rcx), %ecx
	cmpl	$33554688, %ecx
	bswapl	%ecx
	jne	120f
	movl	$2, %edx
	cmpq	$268435456, %rax
	ja	121f
	movq	24(%rsp), %rdi
	movdqu	20(%rdi), %xmm0
	movdqa	4b(%rip), %xmm1
	pshufb	%xmm1, %xmm0
	movl	36(%rdi), %edx
	bswapl	%edx
	movdqu	4(%rdi), %xmm2
	pshufb	%xmm1, %xmm2
	movq	%rdi, 400(%rsp)
	movq	%rax, 408(%rsp)
	leaq	416(%rsp), %r13
	movq	%rdi, 416(%rsp)
	movq	%rax, 424(%rsp)
	movl	%ecx, 432(%rsp)
	movdqu	%xmm2, 436(%rsp)
	movdqu	%xmm0, 452(%rsp)
	movl	%edx, 468(%rsp)
	pxor	%xmm0, %xmm0
	movdqu	%xmm0, 472(%rsp)
	movdqu	%xmm0, 488(%rsp)
	movdqu	%xmm0, 504(%rsp)
	movdqu	%xmm0, 520(%rsp)
	movq	%rax, %rdx
	shrq	$2, %rdx
	movq	$1, 360(%rsp)
	movq	$0, 368(%rsp)
	leaq	376(%rsp), %rcx
	movq	%rdx, 376(%rsp)
	movq	%rax, 384(%rsp)
	movl	%r10d, %eax
	leaq	479f(%rip), %rdx
	movslq	(%rdx,%rax,4), %rax
	addq	%rdx, %rax
	jmpq	*%rax
119:
	movq	%rsi, %rbx
	movdqa	%xmm0, 208(%rsp)
	movdqa	%xmm0, 192(%rsp)
	movq	$0, 224(%rsp)
	movdqa	%xmm0, 576(%rsp)
	movdqa	%xmm0, 560(%rsp)
	movdqa	%xmm0, 544(%rsp)
	movq	%rcx, (%rsp)
	leaq	544(%rsp), %rdi
	leaq	360(%rsp), %r9
	movq	%r13, %rsi
	movq	%rbp, %rdx
	movq	%r11, %rcx
	xorl	%r8d, %r8d
	movq	%r11, %r14
	callq	"mime_view::cache::Cache::glob_hits"
	movzbl	552(%rsp), %edx
	movq	560(%rsp), %rcx
	cmpb	$0, 544(%rsp)
	jne	203f
	movq	%r14, 56(%rsp)
	movzbl	%dl, %eax
	movq	584(%rsp), %rdi
	movq	%rax, 272(%rsp)
	movq	%rcx, 280(%rsp)
	movdqu	568(%rsp), %xmm0
	movdqu	%xmm0, 288(%rsp)
	movq	%rax, 24(%rsp)
	testb	%al, %al
	movq	288(%rsp), %r8
	movl	$1, %eax
	cmovneq	%r8, %rax
	testq	%rax, %rax
	movq	%rdi, 88(%rsp)
	je	394f
	movb	%dl, 80(%rsp)
	testb	%dl, %dl
	je	417f
	movq	%r8, 48(%rsp)
	movb	%r15b, 32(%rsp)
	movq	%rcx, 64(%rsp)
	leaq	8(%rcx), %r14
	movq	%rax, 312(%rsp)
	movq	%rax, %r13
	jmp	180f
120:
	movl	%ecx, %eax
	andl	$-65536, %eax
	movzwl	%cx, %ecx
	shlq	$32, %rcx
	leaq	(%rcx,%rax), %rdx
	incq	%rdx
121:
	movq	%rdx, %rdi
	shrq	$32, %rdi
	movl	%edx, %r13d
	shrl	$16, %r13d
	xorl	%r8d, %r8d
122:
	movzbl	%dl, %eax
	movw	%ax, 1296(%rsp)
	movw	%r13w, 1298(%rsp)
	movw	%di, 1300(%rsp)
	movq	%r8, 1304(%rsp)
	leaq	1152(%rsp), %rdi
	leaq	1296(%rsp), %rcx
	movq	%r14, %rdx
	callq	"mime_tool::cache::faulty"
	movzbl	1152(%rsp), %edi
	movq	1160(%rsp), %r10
	movzwl	1168(%rsp), %edx
	movzwl	1170(%rsp), %r13d
	movzwl	1172(%rsp), %esi
	movzwl	1174(%rsp), %r15d
	movzbl	1176(%rsp), %r9d
	movzbl	1183(%rsp), %eax
	shll	$16, %eax
	movzwl	1181(%rsp), %ecx
	orl	%eax, %ecx
	shlq	$32, %rcx
	movl	1177(%rsp), %r14d
	jmp	266f
123:
	xorl	%ebp, %ebp
124:
	movq	%rbx, %r14
	subq	%rbp, %r14
	movq	40(%rsp), %r13
	movq	%r13, 272(%rsp)
	movq	$0, 128(%rsp)
	pxor	%xmm0, %xmm0
	movdqa	%xmm0, 192(%rsp)
	cmpq	$4097, %r14
	jae	128f
	addq	%r12, %rbp
	movdqa	%xmm0, 544(%rsp)
	movdqa	%xmm0, 560(%rsp)
	movq	$0, 576(%rsp)
	movdqa	%xmm0, 400(%rsp)
	movdqa	%xmm0, 416(%rsp)
	movl	%r10d, %eax
	leaq	487f(%rip), %rcx
	movslq	(%rcx,%rax,4), %rax
	addq	%rcx, %rax
	movl	%r10d, 32(%rsp)
	jmpq	*%rax
125:
	leaq	400(%rsp), %rdi
	leaq	272(%rsp), %rsi
	leaq	192(%rsp), %r8
	movq	%rbp, %rdx
	movq	%r14, %rcx
	callq	"mime_lookup::lists::ListsAsked::kept_kinds"
	cmpb	$0, 400(%rsp)
	jne	132f
	movq	408(%rsp), %rbx
	movq	416(%rsp), %rsi
	movq	424(%rsp), %rax
	movq	%rax, 96(%rsp)
	movq	%rsi, 120(%rsp)
	jmp	17b
126:
	xorl	%ebp, %ebp
127:
	movq	%rbx, %r13
	subq	%rbp, %r13
	movq	$0, 144(%rsp)
	movq	$0, 1024(%rsp)
	pxor	%xmm0, %xmm0
	movdqa	%xmm0, 272(%rsp)
	cmpq	$4097, %r13
	jb	130f
128:
	movb	$2, %dil
129:
	xorl	%r14d, %r14d
	xorl	%ebp, %ebp
	jmp	133f
130:
	movl	%r10d, 32(%rsp)
	addq	%r12, %rbp
131:
	movq	%rbp, 128(%rsp)
	movq	%r13, 136(%rsp)
	movb	%r14b, 145(%rsp)
	movdqa	%xmm0, 560(%rsp)
	movdqa	%xmm0, 544(%rsp)
	movq	$0, 576(%rsp)
	leaq	544(%rsp), %rdi
	leaq	128(%rsp), %rdx
	leaq	272(%rsp), %rcx
	movq	40(%rsp), %rbx
	movq	%rbx, %rsi
	callq	"mime_lookup::checking::named_kinds::<#fc24442ab780ff68>"
	cmpb	$0, 544(%rsp)
	je	134f
132:
	movb	$2, %dil
	movb	$1, %bpl
	xorl	%r14d, %r14d
133:
	xorl	%r10d, %r10d
	xorl	%edx, %edx
	xorl	%r13d, %r13d
	xorl	%esi, %esi
	xorl	%r15d, %r15d
	xorl	%r9d, %r9d
	jmp	267f
134:
	movq	%rbx, 40(%rsp)
	movq	552(%rsp), %rbx
	movq	560(%rsp), %rsi
	movq	568(%rsp), %r14
	movq	576(%rsp), %rax
	movq	%rax, 24(%rsp)
	movq	%rbx, %rdi
	movq	%rsi, 96(%rsp)
	callq	"mime_lookup::checking::are_one_type"
	testb	%al, %al
	je	137f
	movq	(%rbx), %r10
	movq	8(%rbx), %rdx
	testq	%r14, %r14
	je	136f
135:
	movq	%rdx, %r14
	movq	%rbx, %rdi
	movq	%r10, %rbx
	callq	rattle_dealloc@PLT
	movq	%r14, %rdx
	movq	%rbx, %r10
136:
	movq	%rdx, %r15
	shrq	$48, %r15
	movq	%rdx, %rsi
	shrq	$32, %rsi
	movl	%edx, %r13d
	shrl	$16, %r13d
	movq	1024(%rsp), %rbx
	movq	272(%rsp), %rax
	movq	%rax, 64(%rsp)
	movq	280(%rsp), %rax
	jmp	38b
137:
	movq	%r14, 120(%rsp)
	pxor	%xmm0, %xmm0
	movdqa	%xmm0, 400(%rsp)
	movdqa	%xmm0, 416(%rsp)
	movdqa	%xmm0, 192(%rsp)
	movq	$0, 208(%rsp)
	testb	%r15b, %r15b
	je	144f
	leaq	.L67248b46a1a0(%rip), %r10
	movl	$24, %edx
	xorl	%edi, %edi
	xorl	%r15d, %r15d
	movl	32(%rsp), %eax
	leaq	272(%rsp), %rsi
	movq	40(%rsp), %r11
	jmp	237f
138:
	movq	96(%rsp), %rax
	andb	$1, %al
	movl	%eax, %r9d
139:
	movq	352(%rsp), %rsi
	movzbl	%r9b, %r15d
	xorl	%eax, %eax
	movq	$0, 40(%rsp)
	movq	$0, 24(%rsp)
	xorl	%r8d, %r8d
	movq	%rdx, %r13
	cmpb	$1, (%rsi)
	je	273f
	jmp	274f
140:
	pxor	%xmm0, %xmm0
	movdqa	%xmm0, 576(%rsp)
	movdqa	%xmm0, 560(%rsp)
	movdqa	%xmm0, 544(%rsp)
	movq	$0, 592(%rsp)
	cmpb	$1, 72(%rsi)
	jne	183f
	movq	%rsi, %rdx
	addq	$16, %rsi
	movq	80(%rdx), %r8
	testb	%al, %al
	movq	48(%rsp), %r13
	je	141f
	cmpb	$1, 88(%rdx)
	jne	256f
141:
	movq	%r9, %r14
	movb	$1, %al
	cmpb	$1, 104(%rdx)
	jne	257f
	movabsq	$-6148914691236517205, %rdx
	movq	%rcx, %rax
	mulq	%rdx
	shrq	$2, %rdx
	shrq	$4, %rcx
	addq	%rdx, %rcx
	movq	24(%rsp), %rax
	movq	112(%rax), %rax
	xorl	%edx, %edx
	subq	336(%rax), %rdi
	cmovaeq	%rdi, %rdx
	cmpq	%rcx, %rdx
	movb	$2, %al
	sbbb	$0, %al
	jmp	257f
142:
	pxor	%xmm0, %xmm0
	movdqa	%xmm0, 576(%rsp)
	movdqa	%xmm0, 560(%rsp)
	movdqa	%xmm0, 544(%rsp)
	movq	$0, 592(%rsp)
	cmpb	$1, 72(%rsi)
	movq	48(%rsp), %r13
	jne	185f
	movq	%rsi, %r8
	addq	$16, %rsi
	movq	80(%r8), %rdx
	testb	%al, %al
	je	143f
	cmpb	$1, 88(%r8)
	jne	260f
143:
	movq	%r9, %r14
	movb	$1, %al
	cmpb	$1, 104(%r8)
	jne	261f
	movabsq	$-6148914691236517205, %r9
	movq	%rcx, %rax
	movq	%rdx, %r8
	mulq	%r9
	movq	%rdx, %rax
	movq	%r8, %rdx
	shrq	$2, %rax
	shrq	$4, %rcx
	addq	%rax, %rcx
	movq	24(%rsp), %rax
	movq	112(%rax), %rax
	xorl	%r8d, %r8d
	subq	336(%rax), %rdi
	cmovaeq	%rdi, %r8
	cmpq	%rcx, %r8
	movb	$2, %al
	sbbb	$0, %al
	jmp	261f
144:
	movq	40(%rsp), %rax
	cmpb	$1, 584(%rax)
	movq	%rbx, 56(%rsp)
	jne	189f
	movq	768(%rax), %rdx
	jmp	234f
145:
	cmpl	$1, 96(%rsp)
	jne	196f
	pextrq	$1, %xmm1, %rax
	testq	%rax, %rax
	je	196f
	movq	%r11, %r14
	movq	%r8, %rbx
	movq	%r9, %r15
	callq	rattle_dealloc@PLT
	movq	%r15, %r9
	movq	%r14, %r11
	movq	%rbx, %r8
	movzbl	%r9b, %r10d
	movb	$2, %dil
	xorl	%r14d, %r14d
	leaq	478f(%rip), %rax
	movslq	(%rax,%r10,4), %rcx
	addq	%rax, %rcx
	xorl	%edx, %edx
	xorl	%r13d, %r13d
	xorl	%esi, %esi
	xorl	%r15d, %r15d
	movq	%r10, 64(%rsp)
	movq	%r10, 24(%rsp)
	movq	%r10, %rbx
	movl	%r9d, %ebp
	jmpq	*%rcx
146:
	movq	560(%rsp), %rcx
	movq	568(%rsp), %rdx
	movq	%rdx, 120(%rsp)
	leaq	400(%rsp), %rdi
	leaq	192(%rsp), %r9
	movq	%r15, %rsi
	movq	%rax, %r15
	movq	%rax, %rdx
	xorl	%r8d, %r8d
	callq	"mime_lookup::sniff::sniff::<#ccf1bcb0588da832>"
	movq	400(%rsp), %r10
	movq	408(%rsp), %rdx
	movzbl	416(%rsp), %edi
	movzbl	417(%rsp), %esi
	cmpq	$0, 120(%rsp)
	je	91b
	movq	%rdx, 48(%rsp)
	movl	%edi, 120(%rsp)
	movq	%r15, %rdi
	movq	%r10, 64(%rsp)
	movl	%esi, %r15d
	callq	rattle_dealloc@PLT
	movl	120(%rsp), %edi
	movl	%r15d, %esi
	movq	48(%rsp), %rdx
	movq	64(%rsp), %r10
	jmp	91b
147:
	movl	$128, %edx
148:
	leaq	544(%rsp), %rdi
	leaq	128(%rsp), %rcx
	leaq	184(%rsp), %rsi
	callq	"mime_lookup::reading::read_front::<#2cfdb7cb3bb0800e>"
	movq	552(%rsp), %rbx
	cmpb	$0, 544(%rsp)
	je	149f
	cmpq	$0, 96(%rsp)
	je	188f
	movq	64(%rsp), %rdi
	callq	rattle_dealloc@PLT
	movq	%rbx, %rbp
	movzbl	%bpl, %r10d
	movb	$2, %dil
	xorl	%r14d, %r14d
	leaq	488f(%rip), %rax
	movslq	(%rax,%r10,4), %rcx
	addq	%rax, %rcx
	xorl	%edx, %edx
	xorl	%r13d, %r13d
	xorl	%esi, %esi
	xorl	%r15d, %r15d
	movl	%ebp, %r9d
	movq	%r10, 64(%rsp)
	movq	%r10, 24(%rsp)
	movq	%r10, %rbx
	jmpq	*%rcx
149:
	movq	568(%rsp), %rax
	movq	%rax, 48(%rsp)
	movq	560(%rsp), %r14
	movq	%r13, 40(%rsp)
	movq	80(%r13), %r15
	testq	%r15, %r15
	je	151f
	movq	40(%rsp), %rax
	movq	72(%rax), %r13
	addq	$48, %r13
150:
	movq	8(%r13), %rdi
	movq	16(%r13), %rsi
	leaq	192(%rsp), %r9
	movq	%rbx, %rdx
	movq	%r14, %rcx
	xorl	%r8d, %r8d
	callq	"mime_base::magic::holding::some_line_matches"
	testb	%al, %al
	jne	213f
	addq	$80, %r13
	decq	%r15
	jne	150b
151:
	testq	%r14, %r14
	je	215f
	cmpq	$128, %r14
	movl	$128, %eax
	cmovbq	%r14, %rax
	xorl	%ecx, %ecx
	movq	48(%rsp), %r15
	jmp	153f
152:
	incq	%rcx
	cmpq	%rcx, %rax
	je	212f
153:
	movzbl	(%rbx,%rcx), %edi
	cmpl	$31, %edi
	ja	152b
	leaq	.L67248b46a1a0(%rip), %r10
	movl	$24, %edx
	cmpl	$13, %edi
	ja	216f
	movl	$9728, %esi
	btl	%edi, %esi
	jb	152b
	jmp	216f
154:
	movdqa	%xmm0, 544(%rsp)
	movdqa	%xmm0, 560(%rsp)
	movq	%rax, 400(%rsp)
	leaq	544(%rsp), %rdi
	leaq	400(%rsp), %rsi
	leaq	192(%rsp), %r8
	movq	%rbp, %rdx
	movq	%r13, %rcx
	callq	"mime_lookup::lists::ListsAsked::kept_kinds"
	cmpb	$0, 544(%rsp)
	jne	132b
	movq	552(%rsp), %rbx
	movq	560(%rsp), %rsi
	movq	568(%rsp), %r14
	movq	%rsi, 24(%rsp)
	jmp	33b
155:
	movdqa	%xmm0, 544(%rsp)
	movdqa	%xmm0, 560(%rsp)
	movq	$0, 576(%rsp)
	movq	%rax, 400(%rsp)
	leaq	544(%rsp), %rdi
	leaq	400(%rsp), %rsi
	leaq	192(%rsp), %r8
	movq	%rbp, %rdx
	movq	%r13, %rcx
	callq	"mime_lookup::lists::ListsAsked::candidate_kinds"
	cmpb	$0, 544(%rsp)
	jne	132b
	movq	552(%rsp), %rbx
	movq	560(%rsp), %rsi
	movq	568(%rsp), %r14
	movq	576(%rsp), %rax
	movq	%rax, 24(%rsp)
	jmp	33b
156:
	leaq	544(%rsp), %rdi
	leaq	272(%rsp), %rsi
	leaq	192(%rsp), %r8
	movq	%rbp, %rdx
	movq	%r14, %rcx
	callq	"mime_lookup::lists::ListsAsked::candidate_kinds"
	movq	560(%rsp), %rsi
	movq	576(%rsp), %rax
	cmpq	%rax, %rsi
	cmovbq	%rsi, %rax
	cmpb	$0, 544(%rsp)
	jne	132b
	movq	%rax, 120(%rsp)
	movq	552(%rsp), %rbx
	movq	568(%rsp), %rax
	movq	%rax, 96(%rsp)
	jmp	17b
157:
	movzwl	%r11w, %eax
	movzwl	564(%rsp), %ecx
	movzwl	566(%rsp), %edx
	shlq	$48, %rdx
	shlq	$32, %rcx
	orq	%rax, %rcx
	movzwl	562(%rsp), %r10d
	shll	$16, %r10d
	orq	%rcx, %r10
	orq	%rdx, %r10
	testq	%r8, %r8
	sete	%dl
	movl	$1, %r8d
	movq	%r9, %r11
	movq	%rbx, %rsi
	movq	88(%rsp), %rbx
	movq	80(%rsp), %rdi
	movdqa	64(%rsp), %xmm1
	movb	$1, %cl
	pxor	%xmm0, %xmm0
158:
	movdqa	%xmm0, 192(%rsp)
	movdqa	%xmm0, 208(%rsp)
	movdqa	%xmm0, 128(%rsp)
	movdqa	%xmm0, 144(%rsp)
	movdqa	%xmm0, 1120(%rsp)
	movq	$0, 1136(%rsp)
	movdqa	%xmm0, 272(%rsp)
	movdqa	%xmm0, 288(%rsp)
	movdqa	%xmm0, 1088(%rsp)
	movq	$0, 1104(%rsp)
	movdqa	%xmm0, 1024(%rsp)
	movdqa	%xmm0, 1040(%rsp)
	movdqa	%xmm0, 928(%rsp)
	movq	$0, 944(%rsp)
	movdqa	%xmm0, 1248(%rsp)
	movdqa	%xmm0, 1232(%rsp)
	movdqa	%xmm0, 896(%rsp)
	movq	$0, 912(%rsp)
	movq	$0, 1288(%rsp)
	cmpb	$2, %r14b
	jae	159f
	cmpq	$0, 96(%rsp)
	je	160f
	movq	%xmm1, %rax
	testq	%rax, %rax
	je	162f
	jmp	160f
159:
	cmpl	$2, %ebp
	jne	162f
	testb	$1, 72(%rsi)
	jne	162f
160:
	cmpb	$1, 104(%rsi)
	jne	161f
	movq	24(%rsi), %rcx
	movq	24(%rsp), %rax
	movq	112(%rax), %rsi
	movl	%edx, %r9d
	movabsq	$-6148914691236517205, %rdx
	movq	%rcx, %rax
	mulq	%rdx
	shrq	$2, %rdx
	shrq	$4, %rcx
	addq	%rdx, %rcx
	movq	336(%rsp), %rax
	xorl	%edx, %edx
	subq	336(%rsi), %rax
	movq	24(%rsp), %rsi
	cmovaeq	%rax, %rdx
	cmpq	%rdx, %rcx
	movl	%r9d, %edx
	setbe	%cl
	jmp	162f
161:
	xorl	%ecx, %ecx
162:
	movdqa	%xmm0, 544(%rsp)
	movdqa	%xmm0, 560(%rsp)
	movq	$0, 576(%rsp)
	movdqa	%xmm0, 400(%rsp)
	movdqa	%xmm0, 416(%rsp)
	cmpb	$1, %r13b
	movq	%r11, 88(%rsp)
	movb	%dl, 80(%rsp)
	jne	164f
	movdqa	%xmm1, 64(%rsp)
	movq	%rdi, %r13
	cmpb	$1, 88(%rsi)
	jne	163f
	testb	%cl, %cl
	je	163f
	movq	32(%rsp), %rax
	movq	(%rax), %rax
	shrq	$4, %rax
	cmpq	336(%rsp), %rax
	jbe	211f
163:
	movq	%rbx, %r14
	movq	%rsi, %rbx
	addq	$16, %rsi
	movq	%r8, 1152(%rsp)
	movq	%r11, 1160(%rsp)
	movq	%r10, 1168(%rsp)
	leaq	544(%rsp), %rdi
	leaq	1152(%rsp), %rdx
	leaq	320(%rsp), %r8
	xorl	%ecx, %ecx
	callq	"mime_lookup::cached::sniff::sniff_front"
	cmpb	$0, 544(%rsp)
	movzbl	552(%rsp), %r11d
	movq	560(%rsp), %r8
	je	166f
	movzwl	554(%rsp), %edx
	movzwl	556(%rsp), %esi
	leal	-2(%rbp), %eax
	cmpl	$2, %eax
	jb	193f
	cmpl	$1, %ebp
	movdqa	64(%rsp), %xmm0
	cmpl	$1, 96(%rsp)
	jne	193f
	pextrq	$1, %xmm0, %rax
	testq	%rax, %rax
	je	193f
	movq	%r11, %r14
	movq	%r13, %rdi
	jmp	173f
164:
	xorl	%eax, %eax
	movb	$1, %cl
	leaq	.L67248b46a1a0(%rip), %r8
	movl	$24, %r10d
165:
	movzbl	%cl, %r11d
	leaq	477f(%rip), %rcx
	movslq	(%rcx,%rbp,4), %rdx
	addq	%rcx, %rdx
	jmpq	*%rdx
166:
	movl	576(%rsp), %eax
	movq	568(%rsp), %r10
	leaq	477f(%rip), %rcx
	movslq	(%rcx,%rbp,4), %rdx
	addq	%rcx, %rdx
	movq	%rbx, %rsi
	movq	%r14, %rbx
	movq	%r13, %rdi
	movdqa	64(%rsp), %xmm1
	jmpq	*%rdx
167:
	movdqa	%xmm1, 64(%rsp)
	movq	96(%rsp), %rbx
	movq	%rbx, 192(%rsp)
	leaq	200(%rsp), %rdx
	movq	%rdi, 200(%rsp)
	movdqa	%xmm1, 208(%rsp)
	testq	%rbx, %rbx
	movq	%rdi, %r15
	cmovneq	%rdi, %rdx
	movq	%xmm1, %rdi
	movl	$1, %ecx
	cmovneq	%rdi, %rcx
	movq	%r11, 272(%rsp)
	movq	%r8, 280(%rsp)
	movq	%r10, 288(%rsp)
	movl	%eax, 296(%rsp)
	leaq	1120(%rsp), %rdi
	leaq	272(%rsp), %r8
	leaq	320(%rsp), %r9
	callq	"mime_lookup::cached::by_content::choose"
	movzwl	1128(%rsp), %r14d
	movzwl	1130(%rsp), %edx
	movzwl	1132(%rsp), %esi
	movq	1136(%rsp), %r8
	cmpq	$1, %rbx
	setne	%cl
	movdqa	64(%rsp), %xmm0
	pextrq	$1, %xmm0, %rax
	testq	%rax, %rax
	sete	%al
	orb	%cl, %al
	cmpb	$0, 1120(%rsp)
	jne	172f
	movzwl	1134(%rsp), %ebx
	jmp	201f
168:
	testq	%r11, %r11
	jne	191f
	cmpl	$80, %eax
	jb	191f
	movq	%r11, 1232(%rsp)
	movq	%r8, 1240(%rsp)
	movq	%r10, 1248(%rsp)
	movl	%eax, 1256(%rsp)
	leaq	928(%rsp), %rdi
	leaq	1232(%rsp), %rdx
	leaq	320(%rsp), %rcx
	callq	"mime_lookup::cached::sniff::unalias"
	movzwl	936(%rsp), %r14d
	movzwl	938(%rsp), %edx
	movzwl	940(%rsp), %esi
	movq	944(%rsp), %r8
	cmpb	$0, 928(%rsp)
	jne	192f
	movzwl	942(%rsp), %ebx
	jmp	248f
169:
	testq	%r11, %r11
	jne	170f
	cmpb	$1, 72(%rsi)
	jne	250f
	movl	$192, %edi
	addq	80(%rsi), %rdi
	movq	%r8, %rsi
	movq	%r10, %rdx
	callq	"mime_lookup::read_back::targets::target_of"
	movq	%rax, %r8
	movq	%rdx, %r10
170:
	movq	88(%rsp), %rdi
	movl	%r8d, %edx
	shrl	$16, %edx
	movq	%r8, %rsi
	shrq	$32, %rsi
	movq	%r8, %rbx
	shrq	$48, %rbx
	movl	%r8d, %r14d
	movq	%r10, %r8
	movq	48(%rsp), %r13
	jmp	249f
171:
	movdqa	%xmm1, 64(%rsp)
	movq	96(%rsp), %rbx
	movq	%rbx, 128(%rsp)
	leaq	136(%rsp), %rdx
	movq	%rdi, 136(%rsp)
	testq	%rbx, %rbx
	movq	%rdi, %r15
	cmovneq	%rdi, %rdx
	movq	%xmm1, %rcx
	movl	$1, %edi
	cmovneq	%rcx, %rdi
	movdqa	%xmm1, 144(%rsp)
	testq	%r11, %r11
	movq	56(%rsp), %rcx
	cmoveq	%rdi, %rcx
	movq	%r11, 1024(%rsp)
	movq	%r8, 1032(%rsp)
	movq	%r10, 1040(%rsp)
	movl	%eax, 1048(%rsp)
	leaq	1088(%rsp), %rdi
	leaq	1024(%rsp), %r8
	leaq	320(%rsp), %r9
	callq	"mime_lookup::cached::by_content::choose"
	movzwl	1096(%rsp), %r14d
	movzwl	1098(%rsp), %edx
	movzwl	1100(%rsp), %esi
	movq	1104(%rsp), %r8
	cmpq	$1, %rbx
	setne	%cl
	movdqa	64(%rsp), %xmm0
	pextrq	$1, %xmm0, %rax
	testq	%rax, %rax
	sete	%al
	orb	%cl, %al
	cmpb	$0, 1088(%rsp)
	je	200f
172:
	movzbl	%r14b, %r11d
	testb	%al, %al
	jne	193f
	movq	%r11, %r14
	movq	%r15, %rdi
173:
	movq	%r8, %rbx
	movl	%edx, %ebp
	movq	%rsi, %r15
	callq	rattle_dealloc@PLT
	movq	%r15, %rsi
	movl	%ebp, %edx
	movq	%r14, %r11
	movq	%rbx, %r8
	cmpw	$7, %r11w
	je	194f
174:
	movl	$1, %r9d
	jmp	195f
175:
	testb	$1, %dil
	jne	34b
	movq	%rdx, 48(%rsp)
	movq	%r10, 64(%rsp)
	movq	40(%rsp), %rax
	movq	(%rax), %rax
	pxor	%xmm0, %xmm0
	movdqa	%xmm0, 544(%rsp)
	movdqa	%xmm0, 560(%rsp)
	movq	%rax, 400(%rsp)
	leaq	544(%rsp), %rdi
	leaq	400(%rsp), %rsi
	leaq	192(%rsp), %r8
	movq	%rbp, %rdx
	movq	%r13, %rcx
	callq	"mime_lookup::lists::ListsAsked::kept_kinds"
	movzbl	544(%rsp), %ebp
	movq	552(%rsp), %r15
	movq	560(%rsp), %rcx
	movq	568(%rsp), %r13
	testq	%r14, %r14
	je	176f
	movq	%rbx, %rdi
	movq	%rcx, %rbx
	callq	rattle_dealloc@PLT
	movq	%rbx, %rcx
176:
	testb	%bpl, %bpl
	movq	40(%rsp), %rax
	movq	64(%rsp), %r10
	movq	48(%rsp), %rdx
	jne	132b
	jmp	178f
177:
	movq	96(%rsp), %rcx
	movq	24(%rsp), %rax
	cmpq	%rax, %rcx
	cmovbq	%rcx, %rax
	testb	$1, %sil
	cmoveq	%rax, %rcx
	movq	%rbx, %r15
	movq	%r14, %r13
	movq	40(%rsp), %rax
178:
	testq	%rcx, %rcx
	je	199f
	movq	(%r15), %r8
	movq	8(%r15), %r9
	movq	(%rax), %rsi
	pxor	%xmm0, %xmm0
	movdqa	%xmm0, 544(%rsp)
	movq	$0, 560(%rsp)
	leaq	192(%rsp), %rax
	movq	%rax, 16(%rsp)
	movq	%rdx, 8(%rsp)
	movq	%r10, (%rsp)
	leaq	544(%rsp), %rdi
	movq	%r15, %rdx
	callq	"mime_lookup::lists::ListsAsked::first_of"
	cmpb	$0, 544(%rsp)
	je	198f
	testq	%r13, %r13
	je	132b
	movq	%r15, %rdi
	callq	rattle_dealloc@PLT
	jmp	132b
179:
	cmpq	$1, %rax
	cmoveq	%rsi, %rbx
	movq	%rbx, -8(%r14)
	movq	%r15, (%r14)
	addq	$16, %r14
	decq	%r13
	je	422f
180:
	movq	-8(%r14), %rbx
	movq	(%r14), %r15
	pxor	%xmm0, %xmm0
	movdqa	%xmm0, 144(%rsp)
	movdqa	%xmm0, 128(%rsp)
	movl	436(%rsp), %edx
	leaq	128(%rsp), %rdi
	leaq	360(%rsp), %r9
	leaq	416(%rsp), %rsi
	movq	%rbx, %rcx
	movq	%r15, %r8
	callq	"mime_view::pairs::look_up_pair"
	movzbl	136(%rsp), %eax
	movq	144(%rsp), %rsi
	cmpb	$0, 128(%rsp)
	jne	392f
	cmpl	$1, %eax
	jne	179b
	movq	152(%rsp), %r15
	jmp	179b
181:
	pxor	%xmm0, %xmm0
	movdqa	%xmm0, 704(%rsp)
	movdqa	%xmm0, 688(%rsp)
	movdqa	%xmm0, 672(%rsp)
	movdqa	%xmm0, 656(%rsp)
	movdqa	%xmm0, 640(%rsp)
	movdqa	%xmm0, 624(%rsp)
	movdqa	%xmm0, 608(%rsp)
	movdqa	%xmm0, 592(%rsp)
	movdqa	%xmm0, 576(%rsp)
	movdqa	%xmm0, 560(%rsp)
	movdqa	%xmm0, 544(%rsp)
	testq	%r15, %r15
	je	230f
	xorl	%eax, %eax
182:
	cmpb	$0, (%rbx,%rax)
	je	229f
	incq	%rax
	cmpq	%rax, %r15
	jne	182b
	jmp	230f
183:
	movq	%rbp, 32(%rsp)
	leaq	16(%rsi), %r14
	movdqa	%xmm0, 272(%rsp)
	movdqa	%xmm0, 432(%rsp)
	movdqa	%xmm0, 416(%rsp)
	movdqa	%xmm0, 400(%rsp)
	movq	%rdx, (%rsp)
	leaq	400(%rsp), %rdi
	leaq	320(%rsp), %r9
	movq	%r14, %rsi
	movq	%r15, %rdx
	movq	%rbx, %rcx
	movl	$1, %r8d
	callq	"mime_view::cache::Cache::glob_hits"
	movzbl	408(%rsp), %r11d
	movq	416(%rsp), %r10
	cmpb	$0, 400(%rsp)
	movq	48(%rsp), %r13
	je	217f
	movd	410(%rsp), %xmm1
	leaq	184(%rsp), %r9
	movq	32(%rsp), %rbp
184:
	movq	%r10, %r8
	movzbl	%r11b, %eax
	movq	$1, 544(%rsp)
	movw	%ax, 552(%rsp)
	movd	%xmm1, 554(%rsp)
	movd	%xmm1, %ecx
	movq	%r10, 560(%rsp)
	pxor	%xmm0, %xmm0
	movdqu	%xmm0, 568(%rsp)
	pextrw	$1, %xmm1, %edx
	movdqu	%xmm0, 584(%rsp)
	movb	$1, %al
	movq	$0, 56(%rsp)
	xorl	%edi, %edi
	jmp	258f
185:
	movq	%rbp, 32(%rsp)
	leaq	16(%rsi), %r14
	movdqa	%xmm0, 272(%rsp)
	movdqa	%xmm0, 432(%rsp)
	movdqa	%xmm0, 416(%rsp)
	movdqa	%xmm0, 400(%rsp)
	movq	%rdx, (%rsp)
	leaq	400(%rsp), %rdi
	leaq	320(%rsp), %r9
	movq	%r14, %rsi
	movq	%r15, %rdx
	movq	%rbx, %rcx
	xorl	%r8d, %r8d
	callq	"mime_view::cache::Cache::glob_hits"
	movzbl	408(%rsp), %r11d
	movq	416(%rsp), %r10
	cmpb	$0, 400(%rsp)
	je	222f
	movd	410(%rsp), %xmm1
	leaq	184(%rsp), %r9
	movq	32(%rsp), %rbp
186:
	movq	%r10, %r8
	movzbl	%r11b, %eax
	movq	$1, 544(%rsp)
	movw	%ax, 552(%rsp)
	movd	%xmm1, 554(%rsp)
	movd	%xmm1, %ecx
	movq	%r10, 560(%rsp)
	pxor	%xmm0, %xmm0
	movdqu	%xmm0, 568(%rsp)
	movdqu	%xmm0, 584(%rsp)
	pextrw	$1, %xmm1, %edx
	movb	$1, %al
	xorl	%edi, %edi
	jmp	262f
187:
	movzbl	%bpl, %r10d
	movb	$2, %dil
	xorl	%r14d, %r14d
	leaq	483f(%rip), %rax
	movslq	(%rax,%r10,4), %rcx
	addq	%rax, %rcx
	xorl	%edx, %edx
	xorl	%r13d, %r13d
	xorl	%esi, %esi
	xorl	%r15d, %r15d
	movl	%ebp, %r9d
	movq	%r10, 64(%rsp)
	movq	%r10, 24(%rsp)
	movq	%r10, %rbx
	jmpq	*%rcx
188:
	movq	%rbx, %rbp
	movzbl	%bpl, %r10d
	movb	$2, %dil
	xorl	%r14d, %r14d
	leaq	488f(%rip), %rax
	movslq	(%rax,%r10,4), %rcx
	addq	%rax, %rcx
	xorl	%edx, %edx
	xorl	%r13d, %r13d
	xorl	%esi, %esi
	xorl	%r15d, %r15d
	movl	%ebp, %r9d
	movq	%r10, 64(%rsp)
	movq	%r10, 24(%rsp)
	movq	%r10, %rbx
	jmpq	*%rcx
189:
	movq	(%rax), %rax
	movq	80(%rax), %r15
	testq	%r15, %r15
	je	233f
	movq	72(%rax), %r14
	addq	$64, %r14
	xorl	%eax, %eax
190:
	movq	%rax, %rbx
	movq	-8(%r14), %rdi
	movq	(%r14), %rsi
	callq	"mime_base::magic::extent::lines_extent"
	cmpq	%rax, %rbx
	cmovaq	%rbx, %rax
	addq	$80, %r14
	decq	%r15
	jne	190b
	cmpq	$129, %rax
	movl	$128, %edx
	cmovaeq	%rax, %rdx
	jmp	234f
191:
	movq	%r11, 1264(%rsp)
	movq	%r8, 1272(%rsp)
	movq	%r10, 1280(%rsp)
	movl	%eax, 1288(%rsp)
	leaq	896(%rsp), %rdi
	leaq	1264(%rsp), %r8
	leaq	320(%rsp), %r9
	movq	%r15, %rdx
	movq	%rbx, %rcx
	callq	"mime_lookup::cached::by_content::by_globs"
	movzwl	904(%rsp), %r14d
	movzwl	906(%rsp), %edx
	movzwl	908(%rsp), %esi
	movq	912(%rsp), %r8
	cmpb	$0, 896(%rsp)
	je	247f
192:
	movzbl	%r14b, %r11d
193:
	cmpw	$7, %r11w
	jne	174b
194:
	movl	$3, %r9d
	xorl	%r8d, %r8d
	xorl	%r11d, %r11d
	xorl	%edx, %edx
	xorl	%esi, %esi
195:
	movq	%rsi, 32(%rsp)
	movl	%edx, 48(%rsp)
	cmpb	$0, 80(%rsp)
	je	197f
196:
	movzbl	%r9b, %r10d
	movb	$2, %dil
	xorl	%r14d, %r14d
	leaq	478f(%rip), %rax
	movslq	(%rax,%r10,4), %rcx
	addq	%rax, %rcx
	xorl	%edx, %edx
	xorl	%r13d, %r13d
	xorl	%esi, %esi
	xorl	%r15d, %r15d
	movq	%r10, 64(%rsp)
	movq	%r10, 24(%rsp)
	movq	%r10, %rbx
	movl	%r9d, %ebp
	jmpq	*%rcx
197:
	movq	%r11, %r14
	movq	88(%rsp), %rdi
	movq	%r8, %rbx
	movq	%r9, %r15
	callq	rattle_dealloc@PLT
	movq	%r15, %r9
	movq	%r14, %r11
	movq	%rbx, %r8
	movzbl	%r9b, %r10d
	movb	$2, %dil
	xorl	%r14d, %r14d
	leaq	478f(%rip), %rax
	movslq	(%rax,%r10,4), %rcx
	addq	%rax, %rcx
	xorl	%edx, %edx
	xorl	%r13d, %r13d
	xorl	%esi, %esi
	xorl	%r15d, %r15d
	movq	%r10, 64(%rsp)
	movq	%r10, 24(%rsp)
	movq	%r10, %rbx
	movl	%r9d, %ebp
	jmpq	*%rcx
198:
	movq	552(%rsp), %r10
	movq	560(%rsp), %rdx
199:
	testq	%r13, %r13
	je	37b
	movq	%rdx, %r14
	movq	%r15, %rdi
	jmp	36b
200:
	movzwl	1102(%rsp), %ebx
201:
	testb	%al, %al
	jne	248f
	movq	%r15, %rdi
	movq	%r8, %r15
	movl	%edx, %ebp
	movq	%rsi, %r13
	callq	rattle_dealloc@PLT
	movq	%r13, %rsi
	movl	%ebp, %edx
	movq	%r15, %r8
	jmp	248f
202:
	movq	%rsi, %rbx
	movdqa	%xmm0, 208(%rsp)
	movdqa	%xmm0, 192(%rsp)
	movq	$0, 224(%rsp)
	movdqa	%xmm0, 576(%rsp)
	movdqa	%xmm0, 560(%rsp)
	movdqa	%xmm0, 544(%rsp)
	movq	%rcx, (%rsp)
	leaq	544(%rsp), %rdi
	leaq	360(%rsp), %r9
	movq	%r13, %rsi
	movq	%rbp, %rdx
	movq	%r11, %rcx
	movl	$1, %r8d
	movq	%r11, %r14
	callq	"mime_view::cache::Cache::glob_hits"
	movzbl	552(%rsp), %edx
	movq	560(%rsp), %rcx
	cmpb	$0, 544(%rsp)
	je	336f
203:
	movzwl	554(%rsp), %r13d
	movzwl	556(%rsp), %r15d
	movq	%rbx, %rsi
204:
	cmpb	$7, %dl
	jne	214f
	movl	$3, %r9d
	xorl	%r10d, %r10d
	xorl	%r13d, %r13d
	movq	$0, 56(%rsp)
	xorl	%r15d, %r15d
	movq	$0, 80(%rsp)
	movq	$0, 32(%rsp)
	jmp	444f
205:
	movb	$3, %r13b
	jmp	207f
206:
	movb	$2, %r13b
207:
	movq	$0, 48(%rsp)
	movq	$0, 80(%rsp)
	xorl	%edi, %edi
	movq	$0, 24(%rsp)
	xorl	%eax, %eax
208:
	movdqa	%xmm0, 560(%rsp)
	movdqa	%xmm0, 544(%rsp)
	movb	$1, %bl
	xorl	%r8d, %r8d
	movl	$0, %r10d
	movb	$1, %dl
	movl	$0, %ecx
	testb	%r15b, %r15b
	je	210f
209:
	movq	%rax, 32(%rsp)
	movb	%dl, 88(%rsp)
	pxor	%xmm0, %xmm0
	movdqa	%xmm0, 128(%rsp)
	movdqa	%xmm0, 144(%rsp)
	movdqa	%xmm0, 272(%rsp)
	movdqa	%xmm0, 288(%rsp)
	movdqa	%xmm0, 928(%rsp)
	movq	$0, 944(%rsp)
	movdqa	%xmm0, 1024(%rsp)
	movdqa	%xmm0, 1040(%rsp)
	movdqa	%xmm0, 896(%rsp)
	movq	$0, 912(%rsp)
	movdqa	%xmm0, 1248(%rsp)
	movdqa	%xmm0, 1232(%rsp)
	movdqa	%xmm0, 960(%rsp)
	movq	$0, 976(%rsp)
	movdqa	%xmm0, 1280(%rsp)
	movdqa	%xmm0, 1264(%rsp)
	movdqa	%xmm0, 1056(%rsp)
	movq	$0, 1072(%rsp)
	movq	$0, 344(%rsp)
	movq	$0, 1016(%rsp)
	movzbl	%r13b, %r14d
	cmpb	$2, %r13b
	movq	%rcx, 56(%rsp)
	jae	227f
	cmpq	$0, 24(%rsp)
	leaq	416(%rsp), %rsi
	je	228f
	cmpq	$0, 48(%rsp)
	je	369f
	jmp	228f
210:
	movl	456(%rsp), %esi
	movq	424(%rsp), %rdx
	subq	%rsi, %rdx
	setb	%cl
	cmpq	$12, %rdx
	setb	%r8b
	orb	%cl, %r8b
	movq	360(%rsp), %rcx
	incq	%rcx
	movq	$-1, %rdx
	cmovneq	%rcx, %rdx
	movq	%rdx, 360(%rsp)
	testb	%r8b, %r8b
	je	245f
	movq	%rsi, 32(%rsp)
	movw	$3, %r10w
	movl	$1, %r9d
	xorl	%edx, %edx
	xorl	%r8d, %r8d
	jmp	246f
211:
	movq	24(%rsp), %rax
	movq	96(%rax), %rsi
	movq	%r8, 360(%rsp)
	movq	%r11, 368(%rsp)
	movq	%r10, 376(%rsp)
	leaq	400(%rsp), %rdi
	leaq	360(%rsp), %rdx
	xorl	%ecx, %ecx
	callq	"mime_lookup::cached::sniff::sniff_indexed"
	movq	24(%rsp), %rsi
	movzbl	400(%rsp), %ecx
	movdqu	408(%rsp), %xmm0
	movdqa	%xmm0, 560(%rsp)
	movl	424(%rsp), %eax
	movq	560(%rsp), %r8
	movq	568(%rsp), %r10
	movq	%r13, %rdi
	movdqa	64(%rsp), %xmm1
	jmp	165b
212:
	leaq	.Laafe98300121(%rip), %r10
	movl	$10, %edx
	jmp	216f
213:
	cmpb	$0, -40(%r13)
	je	339f
	movq	-32(%r13), %rdx
	leaq	-24(%r13), %rax
	jmp	340f
214:
	movq	%rcx, 32(%rsp)
	movq	%r15, 56(%rsp)
	movzbl	%dl, %r10d
	movl	$1, %r9d
	jmp	402f
215:
	leaq	.L74bbd0aeee0d(%rip), %r10
	movl	$22, %edx
	movq	48(%rsp), %r15
216:
	xorl	%edi, %edi
	xorl	%r13d, %r13d
	jmp	341f
217:
	movzbl	%r11b, %r8d
	movq	440(%rsp), %rax
	movq	%rax, 312(%rsp)
	movq	%r8, 128(%rsp)
	movq	%r10, 136(%rsp)
	movdqu	424(%rsp), %xmm0
	movdqu	%xmm0, 144(%rsp)
	testb	%r8b, %r8b
	movq	144(%rsp), %r13
	movl	$1, %eax
	cmovneq	%r13, %rax
	testq	%rax, %rax
	je	352f
	movq	%rbx, 88(%rsp)
	movl	$8, %ebp
	movq	%r10, %rbx
	movq	24(%rsp), %rsi
	movq	%r11, 96(%rsp)
	movq	%r14, 80(%rsp)
	jmp	219f
218:
	movq	%rbx, 136(%rsp)
	movq	%r13, 144(%rsp)
	addq	$16, %rbp
	decq	%rax
	je	221f
219:
	movq	%rax, 64(%rsp)
	testb	%r11b, %r11b
	movq	%rbx, 56(%rsp)
	movq	%rbx, %rax
	leaq	136(%rsp), %rcx
	cmoveq	%rcx, %rax
	movq	-8(%rax,%rbp), %rbx
	movq	(%rax,%rbp), %r13
	pxor	%xmm0, %xmm0
	movdqa	%xmm0, 208(%rsp)
	movdqa	%xmm0, 192(%rsp)
	movl	36(%rsi), %edx
	leaq	192(%rsp), %rdi
	leaq	320(%rsp), %r9
	movq	%r14, %rsi
	movq	%rbx, %rcx
	movq	%r13, %r8
	callq	"mime_view::pairs::look_up_pair"
	movzbl	200(%rsp), %r14d
	movq	208(%rsp), %r10
	cmpb	$0, 192(%rsp)
	jne	381f
	cmpb	$1, %r14b
	jne	220f
	movq	216(%rsp), %r13
	movq	%r10, %rbx
220:
	movq	96(%rsp), %r11
	testb	%r11b, %r11b
	movq	24(%rsp), %rsi
	movq	80(%rsp), %r14
	movq	64(%rsp), %rax
	je	218b
	movq	56(%rsp), %rcx
	movq	%rbx, -8(%rcx,%rbp)
	movq	%rcx, %rbx
	movq	%r13, (%rcx,%rbp)
	addq	$16, %rbp
	decq	%rax
	jne	219b
221:
	movzbl	128(%rsp), %r11d
	movq	136(%rsp), %rdi
	movzbl	%r11b, %r8d
	movq	144(%rsp), %r13
	movq	%rdi, %r10
	movq	88(%rsp), %rbx
	jmp	353f
222:
	movzbl	%r11b, %r8d
	movq	440(%rsp), %rax
	movq	%rax, 312(%rsp)
	movq	%r8, 128(%rsp)
	movq	%r10, 136(%rsp)
	movdqu	424(%rsp), %xmm0
	movdqu	%xmm0, 144(%rsp)
	testb	%r8b, %r8b
	movq	144(%rsp), %r13
	movl	$1, %eax
	cmovneq	%r13, %rax
	testq	%rax, %rax
	je	360f
	movq	%r14, 80(%rsp)
	movq	%rbx, 88(%rsp)
	movl	$8, %r14d
	movq	%r10, %rbp
	movq	24(%rsp), %rsi
	movq	%r11, 96(%rsp)
	jmp	224f
223:
	movq	%rbp, 136(%rsp)
	movq	%r13, 144(%rsp)
	addq	$16, %r14
	decq	%rax
	je	226f
224:
	movq	%rax, 64(%rsp)
	testb	%r11b, %r11b
	movq	%rbp, 56(%rsp)
	movq	%rbp, %rax
	leaq	136(%rsp), %rcx
	cmoveq	%rcx, %rax
	movq	-8(%rax,%r14), %rbp
	movq	(%rax,%r14), %r13
	pxor	%xmm0, %xmm0
	movdqa	%xmm0, 208(%rsp)
	movdqa	%xmm0, 192(%rsp)
	movl	36(%rsi), %edx
	leaq	192(%rsp), %rdi
	leaq	320(%rsp), %r9
	movq	80(%rsp), %rsi
	movq	%rbp, %rcx
	movq	%r13, %r8
	callq	"mime_view::pairs::look_up_pair"
	movzbl	200(%rsp), %ebx
	movq	208(%rsp), %r10
	cmpb	$0, 192(%rsp)
	jne	382f
	cmpb	$1, %bl
	jne	225f
	movq	216(%rsp), %r13
	movq	%r10, %rbp
225:
	movq	96(%rsp), %r11
	testb	%r11b, %r11b
	movq	24(%rsp), %rsi
	movq	64(%rsp), %rax
	je	223b
	movq	56(%rsp), %rcx
	movq	%rbp, -8(%rcx,%r14)
	movq	%rcx, %rbp
	movq	%r13, (%rcx,%r14)
	addq	$16, %r14
	decq	%rax
	jne	224b
226:
	movzbl	128(%rsp), %r11d
	movq	136(%rsp), %rdi
	movzbl	%r11b, %r8d
	movq	144(%rsp), %r13
	movq	%rdi, %r10
	movq	88(%rsp), %rbx
	jmp	361f
227:
	cmpl	$2, %r14d
	leaq	416(%rsp), %rsi
	jne	369f
	testb	$1, 472(%rsp)
	jne	369f
228:
	cmpb	$1, 504(%rsp)
	jne	368f
	movq	424(%rsp), %rcx
	movq	512(%rsp), %r9
	movabsq	$-6148914691236517205, %rdx
	movq	%rcx, %rax
	mulq	%rdx
	shrq	$2, %rdx
	shrq	$4, %rcx
	addq	%rdx, %rcx
	movq	376(%rsp), %rax
	xorl	%edx, %edx
	subq	336(%r9), %rax
	cmovaeq	%rax, %rdx
	cmpq	%rdx, %rcx
	movq	56(%rsp), %rcx
	setbe	%bl
	jmp	369f
229:
	cmpq	%r15, %rax
	jae	230f
	leaq	.L399de51ae489(%rip), %rcx
	leaq	400(%rsp), %rdi
	movl	$42, %r8d
	movl	$42, %r9d
	movl	$2, %esi
	movl	$20, %edx
	callq	"std_io::io::error::Error::from_bytes"
	movl	400(%rsp), %eax
	jmp	231f
230:
	leaq	544(%rsp), %rdi
	movl	$-100, %esi
	movq	%rbx, %rdx
	movq	%r15, %rcx
	movl	$256, %r8d
	callq	"std::fs::stat::stat_at"
	movl	552(%rsp), %eax
	cmpb	$0, 544(%rsp)
	je	232f
231:
	shrl	$8, %eax
	movdqa	1b(%rip), %xmm0
	movdqa	2b(%rip), %xmm1
	movabsq	$2820983053732684064, %rsi
	jmp	45b
232:
	andl	$61440, %eax
	cmpl	$40960, %eax
	movq	240(%rsp), %rbx
	movzbl	32(%rsp), %r15d
	jne	13b
	xorl	%ecx, %ecx
	jmp	95b
233:
	movl	$128, %edx
234:
	leaq	400(%rsp), %rdi
	leaq	1024(%rsp), %rcx
	leaq	184(%rsp), %rsi
	callq	"mime_lookup::reading::read_front::<#2cfdb7cb3bb0800e>"
	movq	408(%rsp), %r14
	cmpb	$0, 400(%rsp)
	je	235f
	cmpq	$0, 120(%rsp)
	je	243f
	movq	56(%rsp), %rdi
	callq	rattle_dealloc@PLT
	movq	%r14, %rbp
	movzbl	%bpl, %r10d
	movb	$2, %dil
	xorl	%r14d, %r14d
	leaq	485f(%rip), %rax
	movslq	(%rax,%r10,4), %rcx
	addq	%rax, %rcx
	xorl	%edx, %edx
	xorl	%r13d, %r13d
	xorl	%esi, %esi
	xorl	%r15d, %r15d
	movl	%ebp, %r9d
	movq	%r10, 64(%rsp)
	movq	%r10, 24(%rsp)
	movq	%r10, %rbx
	jmpq	*%rcx
235:
	movq	416(%rsp), %rcx
	movq	424(%rsp), %rbx
	leaq	192(%rsp), %rdi
	leaq	272(%rsp), %r9
	movq	40(%rsp), %rsi
	movq	%r14, %rdx
	xorl	%r8d, %r8d
	callq	"mime_lookup::sniff::sniff::<#fc24442ab780ff68>"
	movq	192(%rsp), %r10
	movq	200(%rsp), %rdx
	movzbl	208(%rsp), %r15d
	movzbl	209(%rsp), %edi
	testq	%rbx, %rbx
	je	236f
	movq	%rdx, 48(%rsp)
	movl	%edi, 64(%rsp)
	movq	%r14, %rdi
	movq	%r10, %rbx
	callq	rattle_dealloc@PLT
	movl	64(%rsp), %edi
	movq	48(%rsp), %rdx
	movq	%rbx, %r10
236:
	movq	40(%rsp), %r11
	movl	32(%rsp), %eax
	movq	56(%rsp), %rbx
	leaq	272(%rsp), %rsi
237:
	movl	%eax, %eax
	leaq	486f(%rip), %rcx
	movslq	(%rcx,%rax,4), %rax
	addq	%rcx, %rax
	jmpq	*%rax
238:
	movq	120(%rsp), %r13
	movq	96(%rsp), %rcx
	testq	%rcx, %rcx
	jne	242f
	jmp	252f
239:
	testb	$1, %r15b
	je	253f
240:
	cmpq	$0, 120(%rsp)
	jne	135b
	jmp	136b
241:
	movq	96(%rsp), %rcx
	movq	24(%rsp), %rax
	cmpq	%rax, %rcx
	cmovbq	%rcx, %rax
	testb	$1, %dil
	cmoveq	%rax, %rcx
	movq	120(%rsp), %r13
	testq	%rcx, %rcx
	je	252f
242:
	movq	(%rbx), %r8
	movq	8(%rbx), %r9
	pxor	%xmm0, %xmm0
	movdqa	%xmm0, 400(%rsp)
	movq	$0, 416(%rsp)
	addq	$184, %r11
	movq	%rsi, 16(%rsp)
	movq	%rdx, 8(%rsp)
	movq	%r10, (%rsp)
	leaq	400(%rsp), %rdi
	movq	%r11, %rsi
	movq	%rbx, %rdx
	callq	"mime_lookup::ancestry::first_at"
	cmpb	$0, 400(%rsp)
	je	251f
	testq	%r13, %r13
	jne	350f
	jmp	132b
243:
	movq	%r14, %rbp
	movzbl	%bpl, %r10d
	movb	$2, %dil
	xorl	%r14d, %r14d
	leaq	485f(%rip), %rax
	movslq	(%rax,%r10,4), %rcx
	addq	%rax, %rcx
	xorl	%edx, %edx
	xorl	%r13d, %r13d
	xorl	%esi, %esi
	xorl	%r15d, %r15d
	movl	%ebp, %r9d
	movq	%r10, 64(%rsp)
	movq	%r10, 24(%rsp)
	movq	%r10, %rbx
	jmpq	*%rcx
244:
	movb	$3, %dil
	jmp	129b
245:
	movq	%rax, 32(%rsp)
	movq	%r11, 56(%rsp)
	movq	%rdi, %r14
	movq	416(%rsp), %rax
	movl	4(%rax,%rsi), %eax
	bswapl	%eax
	cmpl	$129, %eax
	movl	$128, %edx
	cmovael	%eax, %edx
	leaq	544(%rsp), %rdi
	leaq	1224(%rsp), %rcx
	movq	%r9, %rsi
	callq	"mime_lookup::reading::read_front::<#2cfdb7cb3bb0800e>"
	movq	552(%rsp), %r9
	movq	568(%rsp), %rsi
	movzwl	560(%rsp), %eax
	cmpb	$0, 544(%rsp)
	je	384f
	movq	%rsi, 32(%rsp)
	movl	562(%rsp), %ecx
	movzbl	%al, %r10d
	movq	%rcx, %rdx
	movl	%ecx, %r8d
	shrl	$16, %r8d
	movzbl	%r9b, %r9d
	movq	%r14, %rdi
246:
	movzbl	%r13b, %eax
	leal	-2(%rax), %ecx
	cmpl	$2, %ecx
	movq	40(%rsp), %rsi
	movq	%r8, 56(%rsp)
	jae	255f
	xorl	%r15d, %r15d
	movq	$0, 80(%rsp)
	movq	%rdx, %r13
	jmp	444f
247:
	movzwl	910(%rsp), %ebx
248:
	movq	48(%rsp), %r13
	movq	88(%rsp), %rdi
249:
	movl	%r14d, %ebp
	shrl	$8, %ebp
	cmpb	$0, 80(%rsp)
	jne	324f
	movq	%r8, %r15
	movl	%r14d, 40(%rsp)
	movl	%edx, %r13d
	movq	%rbx, %r14
	movq	%rsi, %rbx
	callq	rattle_dealloc@PLT
	movq	%rbx, %rsi
	movq	%r14, %rbx
	movl	%r13d, %edx
	movq	48(%rsp), %r13
	movl	40(%rsp), %r14d
	movq	%r15, %r8
	jmp	324f
250:
	pxor	%xmm0, %xmm0
	movdqa	%xmm0, 560(%rsp)
	movdqa	%xmm0, 544(%rsp)
	movl	36(%rsi), %edx
	addq	$16, %rsi
	leaq	544(%rsp), %rdi
	leaq	320(%rsp), %r9
	movq	%r8, %rcx
	movq	%r8, %rbx
	movq	%r10, %r8
	movq	%r10, %r14
	callq	"mime_view::pairs::look_up_pair"
	movzbl	552(%rsp), %r11d
	movq	560(%rsp), %rax
	cmpb	$0, 544(%rsp)
	je	385f
	movzwl	554(%rsp), %edx
	movzwl	556(%rsp), %esi
	movq	%rax, %r8
	cmpw	$7, %r11w
	je	194b
	jmp	174b
251:
	movq	408(%rsp), %r10
	movq	416(%rsp), %rdx
252:
	testq	%r13, %r13
	jne	135b
	jmp	136b
253:
	movq	%rbx, %r14
	movq	%rdx, 48(%rsp)
	movq	%r10, 64(%rsp)
	pxor	%xmm0, %xmm0
	movdqa	%xmm0, 416(%rsp)
	movdqa	%xmm0, 400(%rsp)
	leaq	400(%rsp), %rdi
	leaq	272(%rsp), %r8
	movq	%r11, %rbx
	movq	%r11, %rsi
	movq	%rbp, %rdx
	movq	%r13, %rcx
	callq	"mime_lookup::indexed::kept::kept_kinds"
	movzbl	400(%rsp), %ebp
	movq	408(%rsp), %r15
	movq	416(%rsp), %rcx
	movq	424(%rsp), %r13
	cmpq	$0, 120(%rsp)
	je	254f
	movq	%r14, %rdi
	movq	%rcx, %r14
	callq	rattle_dealloc@PLT
	movq	%r14, %rcx
254:
	testb	%bpl, %bpl
	leaq	272(%rsp), %rsi
	jne	132b
	movq	%rbx, %r11
	movq	%r15, %rbx
	movq	64(%rsp), %r10
	movq	48(%rsp), %rdx
	testq	%rcx, %rcx
	jne	242b
	jmp	252b
255:
	cmpl	$1, %eax
	movq	%rdx, %r13
	jne	373f
	cmpl	$1, 24(%rsp)
	setne	%al
	cmpq	$0, 80(%rsp)
	jmp	374f
256:
	movq	%r9, %r14
	xorl	%eax, %eax
257:
	leaq	320(%rsp), %rcx
	movq	%rcx, 8(%rsp)
	movl	$1, (%rsp)
	movzbl	%al, %ecx
	leaq	544(%rsp), %rdi
	movq	%r8, %rdx
	movq	%r15, %r8
	movq	%rbx, %r9
	callq	"mime_lookup::read_back::name_types::types_of"
	movzbl	544(%rsp), %eax
	movzbl	552(%rsp), %r11d
	movzwl	554(%rsp), %ecx
	movzwl	556(%rsp), %edx
	movq	560(%rsp), %r8
	movq	568(%rsp), %rdi
	movq	592(%rsp), %rsi
	movq	%rsi, 56(%rsp)
	movq	%r14, %r9
258:
	movq	24(%rsp), %rsi
259:
	testb	%al, %al
	jne	264f
	testb	%r11b, %r11b
	je	323f
	movq	%rbp, 32(%rsp)
	movdqa	576(%rsp), %xmm1
	movzbl	%r8b, %eax
	movq	%rax, 96(%rsp)
	movb	$1, %r14b
	jmp	30b
260:
	movq	%r9, %r14
	xorl	%eax, %eax
261:
	leaq	320(%rsp), %rcx
	movq	%rcx, 8(%rsp)
	movl	$0, (%rsp)
	movzbl	%al, %ecx
	leaq	544(%rsp), %rdi
	movq	%r15, %r8
	movq	%rbx, %r9
	callq	"mime_lookup::read_back::name_types::types_of"
	movzbl	544(%rsp), %eax
	movzbl	552(%rsp), %r11d
	movzwl	554(%rsp), %ecx
	movzwl	556(%rsp), %edx
	movq	560(%rsp), %r8
	movq	568(%rsp), %rdi
	movq	%r14, %r9
262:
	movq	24(%rsp), %rsi
263:
	testb	%al, %al
	je	322f
264:
	movq	%rdx, 32(%rsp)
	movl	%ecx, 48(%rsp)
	cmpb	$7, %r11b
	je	132b
265:
	movzbl	%r11b, %eax
	movw	%ax, 960(%rsp)
	movl	48(%rsp), %eax
	movw	%ax, 962(%rsp)
	movq	32(%rsp), %rax
	movw	%ax, 964(%rsp)
	movq	%r8, 968(%rsp)
	leaq	992(%rsp), %rdi
	leaq	960(%rsp), %rcx
	movq	40(%rsp), %rsi
	movq	120(%rsp), %rdx
	callq	"mime_tool::cache::faulty"
	movzbl	992(%rsp), %edi
	movq	1000(%rsp), %r10
	movzwl	1008(%rsp), %edx
	movzwl	1010(%rsp), %r13d
	movzwl	1012(%rsp), %esi
	movzwl	1014(%rsp), %r15d
	movzbl	1016(%rsp), %r9d
	movzbl	1023(%rsp), %eax
	shll	$16, %eax
	movzwl	1021(%rsp), %ecx
	orl	%eax, %ecx
	shlq	$32, %rcx
	movl	1017(%rsp), %r14d
266:
	orq	%rcx, %r14
	movb	$1, %bpl
267:
	movq	$0, 64(%rsp)
	movq	$0, 24(%rsp)
	xorl	%ebx, %ebx
268:
	movq	%rbx, 40(%rsp)
	movzwl	%r15w, %eax
	shlq	$48, %rax
	movzwl	%si, %ecx
	shlq	$32, %rcx
	orq	%rax, %rcx
	shll	$16, %r13d
	orq	%rcx, %r13
	movzwl	%dx, %ebx
	movzbl	180(%rsp), %r15d
	movzbl	188(%rsp), %ecx
	cmpb	$1, %r15b
	jne	269f
	movq	%rdi, 96(%rsp)
	movl	184(%rsp), %edi
	movq	%r14, 120(%rsp)
	movq	%r13, %r14
	movq	%r10, %r13
	movq	%rbp, 48(%rsp)
	movq	%r12, 32(%rsp)
	movq	%r9, %r12
	movl	%ecx, %ebp
	callq	close@PLT
	movl	%ebp, %ecx
	movq	96(%rsp), %rdi
	movq	%r12, %r9
	movq	32(%rsp), %r12
	movq	48(%rsp), %rbp
	movq	%r13, %r10
	movq	%r14, %r13
	movq	120(%rsp), %r14
269:
	orq	%rbx, %r13
	testb	%bpl, %bpl
	je	271f
270:
	movq	984(%rsp), %rdx
	shlq	$8, %r14
	movzbl	%r9b, %eax
	orq	%r14, %rax
	movzbl	%dil, %ecx
	movw	$1, (%rdx)
	movq	%rcx, 8(%rdx)
	movq	%r10, 16(%rdx)
	movq	%r13, 24(%rdx)
	movq	%rax, 32(%rdx)
	jmp	317f
271:
	cmpb	$1, %r15b
	sete	%al
	shlq	$8, %r14
	movzbl	%r9b, %r15d
	orq	%r14, %r15
	testb	%dil, %dil
	je	272f
	movq	240(%rsp), %rbx
	movzbl	392(%rsp), %eax
	movq	64(%rsp), %r8
	jmp	280f
272:
	andb	%cl, %al
	movq	240(%rsp), %rbx
	movq	352(%rsp), %rsi
	movq	64(%rsp), %r8
	cmpb	$1, (%rsi)
	jne	274f
273:
	movq	8(%rsi), %rcx
	addq	24(%rsp), %rcx
	movq	$-1, %rdx
	cmovaeq	%rcx, %rdx
	movq	%rdx, 8(%rsi)
274:
	cmpb	$1, 48(%rsi)
	jne	275f
	movq	56(%rsi), %rcx
	addq	%r8, %rcx
	movq	$-1, %rdx
	cmovaeq	%rcx, %rdx
	movq	%rdx, 56(%rsi)
	testb	%al, %al
	je	278f
	jmp	276f
275:
	testb	%al, %al
	je	278f
276:
	movq	1344(%rsp), %rax
	cmpb	$1, (%rax)
	jne	277f
	movq	32(%rsi), %rax
	incq	%rax
	movq	$-1, %rcx
	cmovneq	%rax, %rcx
	movq	%rcx, 32(%rsi)
277:
	cmpb	$1, 72(%rsi)
	jne	278f
	xorl	%edi, %edi
	movq	%r8, %rax
	subq	96(%rsi), %rax
	movl	$0, %ecx
	cmovaeq	%rax, %rcx
	cmpq	$256, %rcx
	movl	$256, %eax
	cmovbq	%rcx, %rax
	addq	%rcx, %rax
	movq	$-1, %rcx
	cmovbq	%rcx, %rax
	addq	80(%rsi), %rax
	cmovbq	%rcx, %rax
	movq	%rax, 80(%rsi)
	jmp	279f
278:
	xorl	%edi, %edi
279:
	movzbl	392(%rsp), %eax
280:
	pxor	%xmm0, %xmm0
	movdqa	%xmm0, 1200(%rsp)
	movdqa	%xmm0, 1184(%rsp)
	cmpb	$1, %al
	jne	281f
	movq	%rbx, %rdx
	movq	%r8, %rbx
	movq	%rdi, %rbp
	movq	%r9, 240(%rsp)
	movq	%r10, %r14
	leaq	1184(%rsp), %rdi
	movq	%r12, %rsi
	callq	"mime_tool::line::escape::escaped"
	cmpb	$0, 1184(%rsp)
	je	289f
	movl	$2, %eax
	movb	$1, %r14b
	xorl	%ebx, %ebx
	xorl	%r15d, %r15d
	pxor	%xmm0, %xmm0
	jmp	316f
281:
	testb	%dil, %dil
	jne	291f
	movq	%r15, 544(%rsp)
	movq	%r8, 552(%rsp)
	movq	24(%rsp), %rax
	movq	%rax, 560(%rsp)
	movq	40(%rsp), %rax
	movq	%rax, 568(%rsp)
	movdqa	%xmm0, 400(%rsp)
	movdqa	%xmm0, 416(%rsp)
	cmpb	$1, %r9b
	je	309f
	leaq	.L0791a6fb5224(%rip), %rax
	leaq	.Lb9d66d2d8f9c(%rip), %rbx
	movl	176(%rsp), %ecx
	testb	$1, %cl
	cmovneq	%rax, %rbx
	testl	$256, %ecx
	jne	283f
	movq	%r13, %rbp
	movq	%r10, %r14
	leaq	.L226a292f443d(%rip), %r13
	testb	$1, %cl
	cmovneq	%rax, %r13
	movq	264(%rsp), %rax
	movq	8(%rax), %r15
	movq	240(%rsp), %rdx
	testq	%rdx, %rdx
	je	282f
	movq	%r15, %rdi
	movq	%r12, %rsi
	callq	"mime_tool::system::StreamSink::put::<#87f05e477b504f42>"
	testb	%al, %al
	jne	286f
282:
	movzbl	176(%rsp), %eax
	andl	$1, %eax
	movl	$2, %edx
	subq	%rax, %rdx
	movq	%r15, %rdi
	movq	%r13, %rsi
	callq	"mime_tool::system::StreamSink::put::<#87f05e477b504f42>"
	testb	%al, %al
	jne	286f
	testq	%rbp, %rbp
	je	285f
	movq	%rbp, %rdx
	movq	%r15, %rdi
	movq	%r14, %rsi
	jmp	284f
283:
	movq	264(%rsp), %rax
	movq	8(%rax), %r15
	testq	%r13, %r13
	je	285f
	movq	%r15, %rdi
	movq	%r10, %rsi
	movq	%r13, %rdx
284:
	callq	"mime_tool::system::StreamSink::put::<#87f05e477b504f42>"
	testb	%al, %al
	jne	286f
285:
	movl	$1, %edx
	movq	%r15, %rdi
	movq	%rbx, %rsi
	callq	"mime_tool::system::StreamSink::put::<#87f05e477b504f42>"
	testb	%al, %al
	je	295f
286:
	incb	%dl
	movzbl	%dl, %ecx
	testb	$1, %al
	movl	$1, %ebp
	cmovnel	%ecx, %ebp
	pxor	%xmm0, %xmm0
287:
	movb	$1, %r14b
	xorl	%ebx, %ebx
288:
	xorl	%r15d, %r15d
	jmp	315f
289:
	movq	1192(%rsp), %rdx
	movq	1200(%rsp), %r12
	movq	1208(%rsp), %rax
	movq	%rax, 96(%rsp)
	testb	%bpl, %bpl
	movq	%rdx, 392(%rsp)
	jne	296f
	movq	%rdx, %rbp
	pxor	%xmm0, %xmm0
	movdqa	%xmm0, 208(%rsp)
	movdqa	%xmm0, 192(%rsp)
	leaq	192(%rsp), %rdi
	movq	%r14, %rsi
	movq	%r13, %rdx
	callq	"mime_tool::line::escape::escaped"
	cmpb	$0, 192(%rsp)
	je	292f
	movb	$2, %bpl
	movb	$1, %r14b
	xorl	%ebx, %ebx
	xorl	%r15d, %r15d
290:
	movq	96(%rsp), %r12
	pxor	%xmm0, %xmm0
	jmp	314f
291:
	movzbl	%dil, %eax
	cmpl	$1, %eax
	je	304f
	cmpl	$2, %eax
	jne	305f
	movdqa	%xmm0, 560(%rsp)
	movdqa	%xmm0, 544(%rsp)
	movq	$0, 576(%rsp)
	leaq	.L9dce95591b63(%rip), %r8
	leaq	544(%rsp), %rdi
	movl	$13, %r9d
	jmp	307f
292:
	movq	200(%rsp), %r13
	movq	208(%rsp), %rdx
	movq	216(%rsp), %r14
	movq	%r15, 544(%rsp)
	movq	%rbx, 552(%rsp)
	movq	24(%rsp), %rax
	movq	%rax, 560(%rsp)
	movq	40(%rsp), %rax
	movq	%rax, 568(%rsp)
	pxor	%xmm0, %xmm0
	movdqa	%xmm0, 400(%rsp)
	movdqa	%xmm0, 416(%rsp)
	cmpb	$1, 240(%rsp)
	movq	%r13, 352(%rsp)
	movq	%r14, 120(%rsp)
	je	335f
	leaq	.L0791a6fb5224(%rip), %rax
	leaq	.Lb9d66d2d8f9c(%rip), %r15
	movl	176(%rsp), %ecx
	testb	$1, %cl
	cmovneq	%rax, %r15
	testl	$256, %ecx
	jne	297f
	movq	%rdx, 240(%rsp)
	leaq	.L226a292f443d(%rip), %r14
	testb	$1, %cl
	cmovneq	%rax, %r14
	movq	264(%rsp), %rax
	movq	8(%rax), %rbx
	testq	%r12, %r12
	je	293f
	movq	%rbx, %rdi
	movq	%rbp, %rsi
	movq	%r12, %rdx
	callq	"mime_tool::system::StreamSink::put::<#87f05e477b504f42>"
	testb	%al, %al
	jne	294f
293:
	movzbl	176(%rsp), %eax
	andl	$1, %eax
	movl	$2, %edx
	subq	%rax, %rdx
	movq	%rbx, %rdi
	movq	%r14, %rsi
	callq	"mime_tool::system::StreamSink::put::<#87f05e477b504f42>"
	testb	%al, %al
	je	325f
294:
	movq	96(%rsp), %r12
	jmp	299f
295:
	pxor	%xmm0, %xmm0
	xorl	%ebx, %ebx
	xorl	%r14d, %r14d
	xorl	%r15d, %r15d
	xorl	%ebp, %ebp
	jmp	315f
296:
	movzbl	%bpl, %eax
	pxor	%xmm0, %xmm0
	cmpl	$1, %eax
	je	310f
	cmpl	$2, %eax
	jne	311f
	movdqa	%xmm0, 560(%rsp)
	movdqa	%xmm0, 544(%rsp)
	movq	$0, 576(%rsp)
	leaq	.L9dce95591b63(%rip), %r8
	leaq	544(%rsp), %rdi
	movl	$13, %r9d
	jmp	313f
297:
	movq	264(%rsp), %rax
	movq	8(%rax), %r14
	testq	%rdx, %rdx
	movq	96(%rsp), %r12
	je	298f
	movq	%r14, %rdi
	movq	%r13, %rsi
	callq	"mime_tool::system::StreamSink::put::<#87f05e477b504f42>"
	testb	%al, %al
	jne	299f
298:
	movl	$1, %edx
	movq	%r14, %rdi
	movq	%r15, %rsi
	callq	"mime_tool::system::StreamSink::put::<#87f05e477b504f42>"
	testb	%al, %al
	je	327f
299:
	movq	120(%rsp), %r14
300:
	incb	%dl
	movzbl	%dl, %ecx
	testb	$1, %al
	movl	$1, %r13d
	cmovnel	%ecx, %r13d
	movb	$1, %bl
301:
	testb	%bl, %bl
	sete	%r15b
	testq	%r14, %r14
	je	303f
302:
	movq	352(%rsp), %rdi
	callq	rattle_dealloc@PLT
303:
	movl	%r15d, %r14d
	xorb	$1, %r14b
	movzbl	%r13b, %ebp
	xorl	%ebx, %ebx
	testb	%r15b, %r15b
	cmovnel	%ebx, %ebp
	pxor	%xmm0, %xmm0
	xorl	%r15d, %r15d
	jmp	314f
304:
	movdqa	%xmm0, 560(%rsp)
	movdqa	%xmm0, 544(%rsp)
	movq	$0, 576(%rsp)
	leaq	.L3c133a697ae7(%rip), %r8
	jmp	306f
305:
	movdqa	%xmm0, 560(%rsp)
	movdqa	%xmm0, 544(%rsp)
	movq	$0, 576(%rsp)
	leaq	.Lccd068a4cc1e(%rip), %r8
306:
	leaq	544(%rsp), %rdi
	movl	$11, %r9d
307:
	movq	264(%rsp), %rsi
	movq	%r12, %rdx
	movq	%rbx, %rcx
	callq	"mime_tool::desk::report::<#2e1b2a3647f851f7>"
	cmpb	$0, 544(%rsp)
	je	308f
	movzbl	552(%rsp), %ebp
	movq	560(%rsp), %rbx
	movb	$1, %r14b
	movdqu	568(%rsp), %xmm0
	jmp	288b
308:
	movb	$1, %r15b
	xorl	%ebx, %ebx
	xorl	%r14d, %r14d
	xorl	%ebp, %ebp
	pxor	%xmm0, %xmm0
	jmp	315f
309:
	movq	%r10, %rbp
	leaq	400(%rsp), %rdi
	leaq	544(%rsp), %rsi
	callq	"mime_tool::line::told"
	cmpb	$0, 400(%rsp)
	je	319f
	pxor	%xmm0, %xmm0
	movb	$2, %bpl
	jmp	287b
310:
	movdqa	%xmm0, 560(%rsp)
	movdqa	%xmm0, 544(%rsp)
	movq	$0, 576(%rsp)
	leaq	.L3c133a697ae7(%rip), %r8
	jmp	312f
311:
	movdqa	%xmm0, 560(%rsp)
	movdqa	%xmm0, 544(%rsp)
	movq	$0, 576(%rsp)
	leaq	.Lccd068a4cc1e(%rip), %r8
312:
	leaq	544(%rsp), %rdi
	movl	$11, %r9d
313:
	movq	264(%rsp), %rsi
	movq	%r12, %rcx
	callq	"mime_tool::desk::report::<#2e1b2a3647f851f7>"
	cmpb	$0, 544(%rsp)
	je	318f
	movzbl	552(%rsp), %ebp
	movq	560(%rsp), %rbx
	movb	$1, %r14b
	movdqu	568(%rsp), %xmm0
	xorl	%r15d, %r15d
	movq	96(%rsp), %r12
314:
	testq	%r12, %r12
	je	315f
	movq	392(%rsp), %rdi
	movdqa	%xmm0, 240(%rsp)
	callq	rattle_dealloc@PLT
	movdqa	240(%rsp), %xmm0
315:
	movzbl	%bpl, %eax
316:
	movq	984(%rsp), %rcx
	movb	%r14b, (%rcx)
	movb	%r15b, 1(%rcx)
	movq	%rax, 8(%rcx)
	movq	%rbx, 16(%rcx)
	movdqu	%xmm0, 24(%rcx)
317:
	addq	$1352, %rsp
	popq	%rbx
	popq	%r12
	popq	%r13
	popq	%r14
	popq	%r15
	popq	%rbp
	retq
318:
	movb	$1, %r15b
	xorl	%ebx, %ebx
	xorl	%r14d, %r14d
	xorl	%ebp, %ebp
	jmp	290b
319:
	movq	408(%rsp), %r14
	movq	416(%rsp), %rdx
	movq	424(%rsp), %rax
	movq	%rax, 240(%rsp)
	leaq	.L0791a6fb5224(%rip), %rax
	leaq	.Lb9d66d2d8f9c(%rip), %r15
	movl	176(%rsp), %ecx
	testb	$1, %cl
	cmovneq	%rax, %r15
	testl	$256, %ecx
	jne	328f
	movq	%rdx, 96(%rsp)
	movq	%r13, 40(%rsp)
	leaq	.L226a292f443d(%rip), %r13
	testb	$1, %cl
	cmovneq	%rax, %r13
	movq	264(%rsp), %rax
	movq	%rbx, %rdx
	movq	8(%rax), %rbx
	testq	%rdx, %rdx
	je	320f
	movq	%rbx, %rdi
	movq	%r12, %rsi
	callq	"mime_tool::system::StreamSink::put::<#87f05e477b504f42>"
	testb	%al, %al
	jne	331f
320:
	movzbl	176(%rsp), %eax
	andl	$1, %eax
	movl	$2, %edx
	subq	%rax, %rdx
	movq	%rbx, %rdi
	movq	%r13, %rsi
	callq	"mime_tool::system::StreamSink::put::<#87f05e477b504f42>"
	testb	%al, %al
	jne	331f
	movq	40(%rsp), %rdx
	testq	%rdx, %rdx
	je	321f
	movq	%rbx, %rdi
	movq	%rbp, %rsi
	callq	"mime_tool::system::StreamSink::put::<#87f05e477b504f42>"
	testb	%al, %al
	jne	331f
321:
	movq	96(%rsp), %rdx
	jmp	329f
322:
	testb	%r11b, %r11b
	je	323f
	movq	%rbp, 32(%rsp)
	movdqa	576(%rsp), %xmm1
	movzbl	%r8b, %eax
	movq	%rax, 96(%rsp)
	xorl	%r14d, %r14d
	jmp	29b
323:
	movl	%r8d, %r14d
	movl	%r8d, %ebp
	shrl	$8, %ebp
	movl	%r8d, %edx
	shrl	$16, %edx
	movq	%r8, %rsi
	shrq	$32, %rsi
	shrq	$48, %r8
	movl	%r8d, %ebx
	movq	%rdi, %r8
324:
	movzwl	%bx, %eax
	shlq	$40, %rax
	movzwl	%si, %ecx
	shlq	$24, %rcx
	orq	%rax, %rcx
	movzwl	%dx, %eax
	shll	$8, %eax
	orq	%rcx, %rax
	movzbl	%bpl, %ecx
	orq	%rax, %rcx
	movl	%r8d, %eax
	shrl	$16, %eax
	movq	%r8, %rsi
	shrq	$32, %rsi
	movq	%r8, %r15
	shrq	$48, %r15
	movq	320(%rsp), %rdx
	movq	%rdx, 64(%rsp)
	movq	328(%rsp), %rdx
	movq	%rdx, 24(%rsp)
	movq	1056(%rsp), %rbx
	shlq	$8, %rcx
	movzbl	%r14b, %r10d
	orq	%rcx, %r10
	andb	$1, %r13b
	xorl	%r14d, %r14d
	movl	%r8d, %edx
	movl	%r13d, %r9d
	movq	%rax, %r13
	xorl	%ebp, %ebp
	xorl	%edi, %edi
	jmp	268b
325:
	movq	240(%rsp), %rdx
	testq	%rdx, %rdx
	movq	96(%rsp), %r12
	movq	120(%rsp), %r14
	je	326f
	movq	%rbx, %rdi
	movq	%r13, %rsi
	callq	"mime_tool::system::StreamSink::put::<#87f05e477b504f42>"
	testb	%al, %al
	jne	300b
326:
	movl	$1, %edx
	movq	%rbx, %rdi
	movq	%r15, %rsi
	callq	"mime_tool::system::StreamSink::put::<#87f05e477b504f42>"
	testb	%al, %al
	jne	300b
	xorl	%ebx, %ebx
	xorl	%r13d, %r13d
	jmp	301b
327:
	xorl	%ebx, %ebx
	xorl	%r13d, %r13d
	movq	120(%rsp), %r14
	jmp	301b
328:
	movq	264(%rsp), %rax
	movq	8(%rax), %rbx
	testq	%r13, %r13
	je	329f
	movq	%rbx, %rdi
	movq	%rbp, %rsi
	movq	%rdx, %rbp
	movq	%r13, %rdx
	callq	"mime_tool::system::StreamSink::put::<#87f05e477b504f42>"
	movl	%edx, %r12d
	movq	%rbp, %rdx
	testb	%al, %al
	jne	332f
329:
	testq	%rdx, %rdx
	je	330f
	movq	%rbx, %rdi
	movq	%r14, %rsi
	callq	"mime_tool::system::StreamSink::put::<#87f05e477b504f42>"
	testb	%al, %al
	jne	331f
330:
	movl	$1, %edx
	movq	%rbx, %rdi
	movq	%r15, %rsi
	callq	"mime_tool::system::StreamSink::put::<#87f05e477b504f42>"
	testb	%al, %al
	je	403f
331:
	movl	%edx, %r12d
332:
	movq	240(%rsp), %rax
	incb	%r12b
	xorl	%r15d, %r15d
	testq	%rax, %rax
	je	334f
333:
	movq	%r14, %rdi
	callq	rattle_dealloc@PLT
334:
	movl	%r15d, %r14d
	xorb	$1, %r14b
	movzbl	%r12b, %ebp
	xorl	%ebx, %ebx
	testb	%r15b, %r15b
	cmovnel	%ebx, %ebp
	pxor	%xmm0, %xmm0
	jmp	288b
335:
	movq	%rdx, %rbx
	leaq	400(%rsp), %rdi
	leaq	544(%rsp), %rsi
	callq	"mime_tool::line::told"
	cmpb	$0, 400(%rsp)
	je	386f
	movb	$2, %r13b
	xorl	%r15d, %r15d
	movq	96(%rsp), %r12
	testq	%r14, %r14
	jne	302b
	jmp	303b
336:
	movq	%r14, 56(%rsp)
	movzbl	%dl, %eax
	movq	584(%rsp), %rdi
	movq	%rax, 272(%rsp)
	movq	%rcx, 280(%rsp)
	movdqu	568(%rsp), %xmm0
	movdqu	%xmm0, 288(%rsp)
	movq	%rax, 24(%rsp)
	testb	%al, %al
	movq	288(%rsp), %r8
	movl	$1, %eax
	cmovneq	%r8, %rax
	testq	%rax, %rax
	movq	%rdi, 88(%rsp)
	je	393f
	movb	%dl, 80(%rsp)
	testb	%dl, %dl
	je	414f
	movq	%r8, 48(%rsp)
	movb	%r15b, 32(%rsp)
	movq	%rcx, 64(%rsp)
	leaq	8(%rcx), %r14
	movq	%rax, 312(%rsp)
	movq	%rax, %r13
	jmp	338f
337:
	cmpq	$1, %rax
	cmoveq	%rsi, %rbx
	movq	%rbx, -8(%r14)
	movq	%r15, (%r14)
	addq	$16, %r14
	decq	%r13
	je	420f
338:
	movq	-8(%r14), %rbx
	movq	(%r14), %r15
	pxor	%xmm0, %xmm0
	movdqa	%xmm0, 144(%rsp)
	movdqa	%xmm0, 128(%rsp)
	movl	436(%rsp), %edx
	leaq	128(%rsp), %rdi
	leaq	360(%rsp), %r9
	leaq	416(%rsp), %rsi
	movq	%rbx, %rcx
	movq	%r15, %r8
	callq	"mime_view::pairs::look_up_pair"
	movzbl	136(%rsp), %eax
	movq	144(%rsp), %rsi
	cmpb	$0, 128(%rsp)
	jne	392f
	cmpl	$1, %eax
	jne	337b
	movq	152(%rsp), %r15
	jmp	337b
339:
	leaq	-32(%r13), %rdx
	movq	%r13, %rax
340:
	movq	48(%rsp), %r15
	movq	(%rax), %rcx
	movl	-48(%r13), %r14d
	movq	40(%rsp), %rax
	movq	24(%rax), %rdi
	movq	32(%rax), %rsi
	callq	"mime_lookup::pairs::unalias"
	movq	%rax, %r10
	cmpl	$80, %r14d
	setae	%r13b
	movb	$1, %dil
341:
	testq	%r15, %r15
	je	342f
	movq	%rdx, 48(%rsp)
	movl	%edi, %r15d
	movq	%rbx, %rdi
	movq	%r10, %r14
	callq	rattle_dealloc@PLT
	movl	%r15d, %edi
	movq	48(%rsp), %rdx
	movq	%r14, %r10
342:
	movl	32(%rsp), %esi
	movq	64(%rsp), %rbx
	movq	56(%rsp), %r14
343:
	movl	%esi, %eax
	leaq	489f(%rip), %rcx
	movslq	(%rcx,%rax,4), %rax
	addq	%rcx, %rax
	jmpq	*%rax
344:
	pxor	%xmm0, %xmm0
	movdqa	%xmm0, 560(%rsp)
	movdqa	%xmm0, 544(%rsp)
	testl	%esi, %esi
	je	348f
	cmpl	$1, %esi
	movq	24(%rsp), %rcx
	je	346f
	testb	%dil, %dil
	cmoveq	120(%rsp), %rcx
	movq	40(%rsp), %rsi
	movq	96(%rsp), %r14
	jmp	349f
345:
	testb	%r13b, %r13b
	jne	18b
	pxor	%xmm0, %xmm0
	movdqa	%xmm0, 560(%rsp)
	movdqa	%xmm0, 544(%rsp)
346:
	movq	%rdx, %r13
	movq	%r14, %rcx
	movq	%r10, %r14
	leaq	544(%rsp), %rdi
	leaq	272(%rsp), %rsi
	leaq	192(%rsp), %r8
	movq	%rbp, %rdx
	callq	"mime_lookup::lists::ListsAsked::kept_kinds"
	movzbl	544(%rsp), %ebp
	cmpq	$0, 96(%rsp)
	je	347f
	movq	%rbx, %rdi
	callq	rattle_dealloc@PLT
347:
	testb	%bpl, %bpl
	movq	40(%rsp), %rsi
	jne	132b
	movq	%r14, %r10
	movq	%r13, %rdx
	movq	552(%rsp), %rbx
	movq	560(%rsp), %rcx
	movq	568(%rsp), %r14
	jmp	349f
348:
	movq	40(%rsp), %rsi
	movq	96(%rsp), %r14
	movq	24(%rsp), %rcx
349:
	pxor	%xmm0, %xmm0
	movdqa	%xmm0, 544(%rsp)
	movq	$0, 560(%rsp)
	testq	%rcx, %rcx
	je	34b
	movq	(%rbx), %r8
	movq	8(%rbx), %r9
	leaq	192(%rsp), %rax
	movq	%rax, 16(%rsp)
	movq	%rdx, 8(%rsp)
	movq	%r10, (%rsp)
	leaq	544(%rsp), %rdi
	movq	%rbx, %rdx
	callq	"mime_lookup::lists::ListsAsked::first_of"
	cmpb	$0, 544(%rsp)
	je	351f
	testq	%r14, %r14
	je	132b
350:
	movq	%rbx, %rdi
	callq	rattle_dealloc@PLT
	jmp	132b
351:
	movq	552(%rsp), %r10
	movq	560(%rsp), %rdx
	jmp	34b
352:
	movq	%r10, %rdi
	movq	24(%rsp), %rsi
353:
	movq	%r11, 96(%rsp)
	testb	%r11b, %r11b
	leaq	184(%rsp), %r9
	movq	32(%rsp), %rbp
	je	390f
	movq	152(%rsp), %rcx
	testq	%r13, %r13
	movq	%rcx, 64(%rsp)
	je	435f
	movq	%rbx, %r14
	movq	%r13, %rax
	decq	%rax
	je	428f
	movq	%r10, 80(%rsp)
	movq	%r8, 56(%rsp)
	movq	(%rdi), %rcx
	movq	8(%rdi), %rbx
	movq	328(%rsp), %rdx
	xorl	%esi, %esi
354:
	movq	%rsi, %r8
	shlq	$4, %r8
	movq	16(%rdi,%r8), %r10
	movq	24(%rdi,%r8), %r8
	cmpq	%rbx, %r8
	movq	%rbx, %r9
	cmovbq	%r8, %r9
	xorl	%r11d, %r11d
355:
	movq	%r9, %rbp
	subq	%r11, %rbp
	cmpq	$8, %rbp
	jb	356f
	pmovzxbw	(%rcx,%r11), %xmm0
	pmovzxbw	(%r10,%r11), %xmm1
	pcmpeqw	%xmm0, %xmm1
	packsswb	%xmm1, %xmm1
	pmovmskb	%xmm1, %ebp
	notl	%ebp
	orl	$256, %ebp
	rep		bsfl	%ebp, %ebp
	addq	%rbp, %r11
	cmpb	$7, %bpl
	ja	355b
356:
	cmpq	%r9, %r11
	jae	359f
357:
	movzbl	(%rcx,%r11), %ebp
	cmpb	(%r10,%r11), %bpl
	jne	358f
	incq	%r11
	cmpq	%r11, %r9
	jne	357b
	jmp	359f
358:
	movq	%r11, %r9
359:
	leaq	1(%r9), %r10
	movq	%rdx, %r11
	addq	%r10, %r11
	movq	$-1, %rdx
	cmovaeq	%r11, %rdx
	cmpq	%rbx, %r9
	jne	434f
	cmpq	%r8, %r9
	jne	434f
	incq	%rsi
	cmpq	%rax, %rsi
	jne	354b
	movq	%rdx, 328(%rsp)
	movq	%rcx, %r10
	leaq	184(%rsp), %r9
	movq	24(%rsp), %rsi
	movq	32(%rsp), %rbp
	movq	64(%rsp), %rcx
	jmp	429f
360:
	movq	%r10, %rdi
	movq	24(%rsp), %rsi
361:
	movq	%r11, 96(%rsp)
	testb	%r11b, %r11b
	leaq	184(%rsp), %r9
	movq	32(%rsp), %rbp
	je	391f
	movq	152(%rsp), %rcx
	testq	%r13, %r13
	movq	%rcx, 64(%rsp)
	je	437f
	movq	%rbx, %r14
	movq	%r13, %rax
	decq	%rax
	je	431f
	movq	%r10, 80(%rsp)
	movq	%r8, 56(%rsp)
	movq	(%rdi), %rcx
	movq	8(%rdi), %rbx
	movq	328(%rsp), %rdx
	xorl	%esi, %esi
362:
	movq	%rsi, %r8
	shlq	$4, %r8
	movq	16(%rdi,%r8), %r10
	movq	24(%rdi,%r8), %r8
	cmpq	%rbx, %r8
	movq	%rbx, %r9
	cmovbq	%r8, %r9
	xorl	%r11d, %r11d
363:
	movq	%r9, %rbp
	subq	%r11, %rbp
	cmpq	$8, %rbp
	jb	364f
	pmovzxbw	(%rcx,%r11), %xmm0
	pmovzxbw	(%r10,%r11), %xmm1
	pcmpeqw	%xmm0, %xmm1
	packsswb	%xmm1, %xmm1
	pmovmskb	%xmm1, %ebp
	notl	%ebp
	orl	$256, %ebp
	rep		bsfl	%ebp, %ebp
	addq	%rbp, %r11
	cmpb	$7, %bpl
	ja	363b
364:
	cmpq	%r9, %r11
	jae	367f
365:
	movzbl	(%rcx,%r11), %ebp
	cmpb	(%r10,%r11), %bpl
	jne	366f
	incq	%r11
	cmpq	%r11, %r9
	jne	365b
	jmp	367f
366:
	movq	%r11, %r9
367:
	leaq	1(%r9), %r10
	movq	%rdx, %r11
	addq	%r10, %r11
	movq	$-1, %rdx
	cmovaeq	%r11, %rdx
	cmpq	%rbx, %r9
	jne	436f
	cmpq	%r8, %r9
	jne	436f
	incq	%rsi
	cmpq	%rax, %rsi
	jne	362b
	movq	%rdx, 328(%rsp)
	movq	%rcx, %r10
	leaq	184(%rsp), %r9
	movq	24(%rsp), %rsi
	movq	32(%rsp), %rbp
	movq	64(%rsp), %rcx
	jmp	432f
368:
	xorl	%ebx, %ebx
369:
	movdqa	%xmm0, 544(%rsp)
	movdqa	%xmm0, 560(%rsp)
	movq	$0, 576(%rsp)
	movdqa	%xmm0, 192(%rsp)
	movdqa	%xmm0, 208(%rsp)
	testb	%r15b, %r15b
	je	371f
	movb	$1, %cl
	xorl	%eax, %eax
	leaq	.L67248b46a1a0(%rip), %r8
	movl	$24, %esi
370:
	movzbl	%cl, %r10d
	leaq	480f(%rip), %rcx
	movslq	(%rcx,%r14,4), %rdx
	addq	%rcx, %rdx
	jmpq	*%rdx
371:
	movq	%r11, %r15
	movq	%rdi, 64(%rsp)
	cmpb	$1, 488(%rsp)
	jne	372f
	testb	%bl, %bl
	je	372f
	movq	424(%rsp), %rax
	shrq	$4, %rax
	cmpq	376(%rsp), %rax
	jbe	419f
372:
	movq	%r8, 1088(%rsp)
	movq	%rcx, 1096(%rsp)
	movq	%r10, 1104(%rsp)
	leaq	544(%rsp), %rdi
	leaq	1088(%rsp), %rdx
	leaq	360(%rsp), %r8
	xorl	%ecx, %ecx
	callq	"mime_lookup::cached::sniff::sniff_front"
	cmpb	$0, 544(%rsp)
	movzbl	552(%rsp), %r10d
	movq	560(%rsp), %r8
	je	375f
	movzwl	554(%rsp), %r13d
	movzwl	556(%rsp), %r15d
	leal	-2(%r14), %eax
	cmpl	$2, %eax
	jae	389f
	movq	40(%rsp), %rsi
	jmp	398f
373:
	movq	80(%rsp), %rcx
	cmpl	$1, 24(%rsp)
	setne	%al
	testq	%rcx, %rcx
374:
	sete	%cl
	orb	%al, %cl
	je	401f
	jmp	402f
375:
	movl	576(%rsp), %eax
	movq	568(%rsp), %rsi
	leaq	480f(%rip), %rcx
	movslq	(%rcx,%r14,4), %rdx
	addq	%rcx, %rdx
	movq	64(%rsp), %rdi
	movq	%r15, %r11
	jmpq	*%rdx
376:
	movq	24(%rsp), %r14
	movq	%r14, 128(%rsp)
	leaq	136(%rsp), %rdx
	movq	%rdi, 136(%rsp)
	movq	48(%rsp), %r9
	movq	%r9, 144(%rsp)
	testq	%r14, %r14
	movq	%rdi, 64(%rsp)
	cmovneq	%rdi, %rdx
	movq	80(%rsp), %rbp
	movq	%rbp, 152(%rsp)
	movl	$1, %ecx
	cmovneq	%r9, %rcx
	movq	%r10, 1024(%rsp)
	movq	%r8, 1032(%rsp)
	movq	%rsi, 1040(%rsp)
	movl	%eax, 1048(%rsp)
	leaq	928(%rsp), %rdi
	leaq	400(%rsp), %rsi
	leaq	1024(%rsp), %r8
	leaq	360(%rsp), %r9
	callq	"mime_lookup::cached::by_content::choose"
	movzwl	936(%rsp), %ebx
	movzwl	938(%rsp), %r13d
	movzwl	940(%rsp), %r15d
	movq	944(%rsp), %rax
	movq	%rax, 32(%rsp)
	cmpq	$1, %r14
	setne	%cl
	testq	%rbp, %rbp
	sete	%al
	orb	%cl, %al
	cmpb	$0, 928(%rsp)
	jne	380f
	movzwl	942(%rsp), %r14d
	jmp	413f
377:
	testq	%r10, %r10
	jne	395f
	cmpl	$80, %eax
	jb	395f
	movq	%r10, 1264(%rsp)
	movq	%r8, 1272(%rsp)
	movq	%rsi, 1280(%rsp)
	movl	%eax, 1288(%rsp)
	leaq	960(%rsp), %rdi
	leaq	400(%rsp), %rsi
	leaq	1264(%rsp), %rdx
	leaq	360(%rsp), %rcx
	callq	"mime_lookup::cached::sniff::unalias"
	movzwl	968(%rsp), %ebx
	movzwl	970(%rsp), %r13d
	movzwl	972(%rsp), %r15d
	movq	976(%rsp), %rax
	movq	%rax, 32(%rsp)
	cmpb	$0, 960(%rsp)
	jne	396f
	movzwl	974(%rsp), %r14d
	jmp	442f
378:
	movq	%r10, 992(%rsp)
	movq	%r8, 1000(%rsp)
	movq	%rsi, 1008(%rsp)
	movl	%eax, 1016(%rsp)
	leaq	1320(%rsp), %rdi
	leaq	400(%rsp), %rsi
	leaq	992(%rsp), %rdx
	leaq	360(%rsp), %rcx
	callq	"mime_lookup::cached::sniff::unalias"
	movzwl	1328(%rsp), %ebx
	movzwl	1330(%rsp), %r13d
	movzwl	1332(%rsp), %r15d
	movq	1336(%rsp), %rax
	movq	%rax, 32(%rsp)
	cmpb	$0, 1320(%rsp)
	jne	396f
	movzwl	1334(%rsp), %r14d
	jmp	442f
379:
	movq	24(%rsp), %r14
	movq	%r14, 272(%rsp)
	leaq	280(%rsp), %rdx
	movq	%rdi, 280(%rsp)
	testq	%r14, %r14
	movq	%rdi, 64(%rsp)
	cmovneq	%rdi, %rdx
	movq	48(%rsp), %rdi
	movq	%rdi, 288(%rsp)
	movl	$1, %r9d
	cmovneq	%rdi, %r9
	movq	80(%rsp), %rbp
	movq	%rbp, 296(%rsp)
	testq	%r10, %r10
	movq	32(%rsp), %rcx
	cmoveq	%r9, %rcx
	movq	%r10, 1232(%rsp)
	movq	%r8, 1240(%rsp)
	movq	%rsi, 1248(%rsp)
	movl	%eax, 1256(%rsp)
	leaq	896(%rsp), %rdi
	leaq	400(%rsp), %rsi
	leaq	1232(%rsp), %r8
	leaq	360(%rsp), %r9
	callq	"mime_lookup::cached::by_content::choose"
	movzwl	904(%rsp), %ebx
	movzwl	906(%rsp), %r13d
	movzwl	908(%rsp), %r15d
	movq	912(%rsp), %rax
	movq	%rax, 32(%rsp)
	cmpq	$1, %r14
	setne	%cl
	testq	%rbp, %rbp
	sete	%al
	orb	%cl, %al
	cmpb	$0, 896(%rsp)
	je	412f
380:
	movzbl	%bl, %r10d
	testb	%al, %al
	jne	397f
	movq	%r10, %rbx
	movq	64(%rsp), %rdi
	callq	rattle_dealloc@PLT
	movq	%rbx, %r10
	jmp	397f
381:
	movd	202(%rsp), %xmm1
	cmpb	$1, 96(%rsp)
	leaq	184(%rsp), %r9
	movq	88(%rsp), %rbx
	movq	32(%rsp), %rbp
	jne	439f
	cmpq	$0, 152(%rsp)
	movq	48(%rsp), %r13
	je	438f
	movq	136(%rsp), %rdi
	movq	%r10, %rbp
	movdqa	%xmm1, 96(%rsp)
	callq	rattle_dealloc@PLT
	movdqa	96(%rsp), %xmm1
	movq	%rbp, %r10
	movq	32(%rsp), %rbp
	leaq	184(%rsp), %r9
	movl	%r14d, %r11d
	jmp	184b
382:
	movd	202(%rsp), %xmm1
	cmpb	$1, 96(%rsp)
	leaq	184(%rsp), %r9
	movq	32(%rsp), %rbp
	jne	440f
	cmpq	$0, 152(%rsp)
	movq	48(%rsp), %r13
	je	383f
	movq	136(%rsp), %rdi
	movq	%r10, %r14
	movdqa	%xmm1, 96(%rsp)
	callq	rattle_dealloc@PLT
	movdqa	96(%rsp), %xmm1
	movq	%r14, %r10
	movq	32(%rsp), %rbp
	leaq	184(%rsp), %r9
383:
	movl	%ebx, %r11d
	movq	88(%rsp), %rbx
	jmp	186b
384:
	movzwl	564(%rsp), %r10d
	movzwl	566(%rsp), %ecx
	shlq	$48, %rcx
	shlq	$32, %r10
	movzwl	562(%rsp), %edx
	shll	$16, %edx
	orq	%rax, %r10
	orq	%rdx, %r10
	orq	%rcx, %r10
	testq	%rsi, %rsi
	sete	%dl
	movl	$1, %r8d
	movq	%r14, %rdi
	movq	56(%rsp), %r11
	movq	%r9, %rcx
	movq	32(%rsp), %rax
	jmp	209b
385:
	cmpb	$1, %r11b
	movq	%rbx, %r8
	movq	%r14, %r10
	jne	170b
	movq	568(%rsp), %r10
	movq	%rax, %r8
	jmp	170b
386:
	movq	408(%rsp), %r15
	movq	416(%rsp), %r14
	movq	424(%rsp), %rax
	movq	%rax, 40(%rsp)
	leaq	.L0791a6fb5224(%rip), %rax
	leaq	.Lb9d66d2d8f9c(%rip), %rdx
	movl	176(%rsp), %ecx
	testb	$1, %cl
	cmovneq	%rax, %rdx
	movq	%rdx, 24(%rsp)
	testl	$256, %ecx
	jne	404f
	movq	%rbx, 240(%rsp)
	movq	%r15, 64(%rsp)
	leaq	.L226a292f443d(%rip), %r15
	testb	$1, %cl
	cmovneq	%rax, %r15
	movq	264(%rsp), %rax
	movq	8(%rax), %rbx
	testq	%r12, %r12
	je	387f
	movq	%rbx, %rdi
	movq	%rbp, %rsi
	movq	%r12, %rdx
	callq	"mime_tool::system::StreamSink::put::<#87f05e477b504f42>"
	testb	%al, %al
	jne	388f
387:
	movzbl	176(%rsp), %eax
	andl	$1, %eax
	movl	$2, %edx
	subq	%rax, %rdx
	movq	%rbx, %r12
	movq	%rbx, %rdi
	movq	%r15, %rsi
	callq	"mime_tool::system::StreamSink::put::<#87f05e477b504f42>"
	testb	%al, %al
	je	465f
388:
	movl	%edx, %r13d
	movq	96(%rsp), %r12
	movq	64(%rsp), %r15
	jmp	408f
389:
	cmpl	$1, %r14d
	movq	40(%rsp), %rsi
	jne	410f
	cmpl	$1, 24(%rsp)
	setne	%al
	cmpq	$0, 80(%rsp)
	jmp	411f
390:
	movq	%rbx, %r14
	movq	%r13, %rbx
	movq	48(%rsp), %r13
	jmp	430f
391:
	movq	%rbx, %r14
	movq	%r13, %rbx
	movq	48(%rsp), %r13
	jmp	433f
392:
	movzwl	140(%rsp), %ebx
	movzwl	138(%rsp), %ecx
	shll	$16, %ecx
	shlq	$32, %rbx
	orq	%rax, %rbx
	orq	%rcx, %rbx
	movq	64(%rsp), %rdi
	movzbl	80(%rsp), %edx
	jmp	463f
393:
	xorl	%esi, %esi
	jmp	421f
394:
	xorl	%esi, %esi
	jmp	423f
395:
	movq	%r10, 320(%rsp)
	movq	%r8, 328(%rsp)
	movq	%rsi, 336(%rsp)
	movl	%eax, 344(%rsp)
	leaq	1056(%rsp), %rdi
	leaq	400(%rsp), %rsi
	leaq	320(%rsp), %r8
	leaq	360(%rsp), %r9
	movq	%rbp, %rdx
	movq	%r11, %rcx
	callq	"mime_lookup::cached::by_content::by_globs"
	movzwl	1064(%rsp), %ebx
	movzwl	1066(%rsp), %r13d
	movzwl	1068(%rsp), %r15d
	movq	1072(%rsp), %rax
	movq	%rax, 32(%rsp)
	cmpb	$0, 1056(%rsp)
	je	441f
396:
	movzbl	%bl, %r10d
397:
	movq	40(%rsp), %rsi
	movq	32(%rsp), %r8
398:
	movq	56(%rsp), %rdi
	cmpw	$7, %r10w
	jne	399f
	movl	$3, %r9d
	xorl	%r8d, %r8d
	xorl	%r10d, %r10d
	xorl	%r13d, %r13d
	xorl	%r15d, %r15d
	jmp	400f
399:
	movl	$1, %r9d
400:
	movq	%r8, 32(%rsp)
	cmpb	$0, 88(%rsp)
	movq	%r15, 56(%rsp)
	jne	402f
401:
	movq	%r10, %r14
	movq	%rsi, %rbx
	movq	%r9, %r15
	callq	rattle_dealloc@PLT
	movq	%r15, %r9
	movq	%r14, %r10
	movq	%rbx, %rsi
402:
	xorl	%r15d, %r15d
	movq	$0, 80(%rsp)
	jmp	444f
403:
	movb	$1, %r15b
	xorl	%r12d, %r12d
	movq	240(%rsp), %rax
	testq	%rax, %rax
	jne	333b
	jmp	334b
404:
	movq	264(%rsp), %rax
	movq	8(%rax), %r12
	testq	%rbx, %rbx
	je	405f
	movq	%r12, %rdi
	movq	352(%rsp), %rsi
	movq	%rbx, %rdx
	callq	"mime_tool::system::StreamSink::put::<#87f05e477b504f42>"
	testb	%al, %al
	jne	407f
405:
	testq	%r14, %r14
	je	406f
	movq	%r12, %rdi
	movq	%r15, %rsi
	movq	%r14, %rdx
	callq	"mime_tool::system::StreamSink::put::<#87f05e477b504f42>"
	testb	%al, %al
	jne	407f
406:
	movl	$1, %edx
	movq	%r12, %rdi
	movq	24(%rsp), %rsi
	callq	"mime_tool::system::StreamSink::put::<#87f05e477b504f42>"
	testb	%al, %al
	je	470f
407:
	movl	%edx, %r13d
	movq	96(%rsp), %r12
408:
	movq	40(%rsp), %rax
	incb	%r13b
	movb	$1, %bl
	testq	%rax, %rax
	je	472f
409:
	movq	%r15, %rdi
	callq	rattle_dealloc@PLT
	movq	120(%rsp), %r14
	jmp	301b
410:
	movq	80(%rsp), %rcx
	cmpl	$1, 24(%rsp)
	setne	%al
	testq	%rcx, %rcx
411:
	sete	%cl
	orb	%al, %cl
	jne	398b
	movq	%r10, %r14
	movq	64(%rsp), %rdi
	movq	%r8, %rbp
	movq	%rsi, %rbx
	callq	rattle_dealloc@PLT
	movq	%r14, %r10
	movq	%rbx, %rsi
	movq	%rbp, %r8
	jmp	398b
412:
	movzwl	910(%rsp), %r14d
413:
	testb	%al, %al
	jne	442f
	movq	64(%rsp), %rdi
	callq	rattle_dealloc@PLT
	jmp	442f
414:
	movq	%rax, %r14
	movl	436(%rsp), %edx
	pxor	%xmm0, %xmm0
	movdqa	%xmm0, 144(%rsp)
	movdqa	%xmm0, 128(%rsp)
	leaq	128(%rsp), %rdi
	leaq	360(%rsp), %r9
	movq	%r13, %rsi
	movq	%rdx, 48(%rsp)
	movq	%rcx, %rbx
	movq	%r8, %r13
	callq	"mime_view::pairs::look_up_pair"
	movzbl	136(%rsp), %eax
	movq	144(%rsp), %rsi
	cmpb	$0, 128(%rsp)
	jne	418f
	movb	%r15b, 32(%rsp)
	leaq	304(%rsp), %rcx
415:
	cmpb	$1, %al
	movq	%r13, %r8
	jne	416f
	movq	152(%rsp), %r8
	movq	%rsi, %rbx
416:
	movq	%rbx, 64(%rsp)
	movq	%rbx, 280(%rsp)
	movq	%r8, 288(%rsp)
	decq	%r14
	je	468f
	leaq	16(%rcx), %r15
	movq	-8(%rcx), %rbx
	movq	(%rcx), %r8
	pxor	%xmm0, %xmm0
	movdqa	%xmm0, 144(%rsp)
	movdqa	%xmm0, 128(%rsp)
	leaq	128(%rsp), %rdi
	leaq	360(%rsp), %r9
	leaq	416(%rsp), %rsi
	movq	48(%rsp), %rdx
	movq	%rbx, %rcx
	movq	%r8, %r13
	callq	"mime_view::pairs::look_up_pair"
	movzbl	136(%rsp), %eax
	movq	144(%rsp), %rsi
	cmpb	$0, 128(%rsp)
	movq	%r15, %rcx
	je	415b
	jmp	461f
417:
	movq	%rax, %r14
	movl	436(%rsp), %edx
	pxor	%xmm0, %xmm0
	movdqa	%xmm0, 144(%rsp)
	movdqa	%xmm0, 128(%rsp)
	leaq	128(%rsp), %rdi
	leaq	360(%rsp), %r9
	movq	%r13, %rsi
	movq	%rdx, 48(%rsp)
	movq	%rcx, %rbx
	movq	%r8, %r13
	callq	"mime_view::pairs::look_up_pair"
	movzbl	136(%rsp), %eax
	movq	144(%rsp), %rsi
	cmpb	$0, 128(%rsp)
	je	458f
418:
	movq	%rbx, %rdi
	jmp	462f
419:
	movq	496(%rsp), %rsi
	movq	%r8, 1120(%rsp)
	movq	%rcx, 1128(%rsp)
	movq	%r10, 1136(%rsp)
	leaq	192(%rsp), %rdi
	leaq	1120(%rsp), %rdx
	xorl	%ecx, %ecx
	callq	"mime_lookup::cached::sniff::sniff_indexed"
	movzbl	192(%rsp), %ecx
	movdqu	200(%rsp), %xmm0
	movdqa	%xmm0, 560(%rsp)
	movl	216(%rsp), %eax
	movq	560(%rsp), %r8
	movq	568(%rsp), %rsi
	movq	64(%rsp), %rdi
	movq	%r15, %r11
	jmp	370b
420:
	movzbl	32(%rsp), %r15d
	movq	64(%rsp), %rcx
	movq	48(%rsp), %r8
	movzbl	80(%rsp), %edx
	movq	88(%rsp), %rdi
	movq	312(%rsp), %rsi
421:
	movq	%rsi, 312(%rsp)
	movq	%rcx, 64(%rsp)
	testb	%dl, %dl
	movq	296(%rsp), %r14
	movq	24(%rsp), %rax
	movq	%rax, 192(%rsp)
	leaq	200(%rsp), %rbx
	movq	%rcx, 200(%rsp)
	movq	%r8, 48(%rsp)
	movq	%r8, 208(%rsp)
	movq	%r14, 216(%rsp)
	movq	%rdi, 224(%rsp)
	cmovneq	%rcx, %rbx
	movl	%edx, %r13d
	leaq	360(%rsp), %rdx
	movq	%rbx, %rdi
	callq	"mime_lookup::cached::name_types::are_one_type"
	testb	%al, %al
	jne	424f
	movq	%r14, 80(%rsp)
	leaq	360(%rsp), %rcx
	movq	%rbx, %rdi
	movq	312(%rsp), %rsi
	movq	88(%rsp), %rdx
	callq	"mime_lookup::cached::name_types::count_asked"
	movb	$1, %r13b
	jmp	427f
422:
	movzbl	32(%rsp), %r15d
	movq	64(%rsp), %rcx
	movq	48(%rsp), %r8
	movzbl	80(%rsp), %edx
	movq	88(%rsp), %rdi
	movq	312(%rsp), %rsi
423:
	movq	%rsi, 312(%rsp)
	movq	%rcx, 64(%rsp)
	testb	%dl, %dl
	movq	296(%rsp), %r14
	movq	24(%rsp), %rax
	movq	%rax, 192(%rsp)
	leaq	200(%rsp), %rbx
	movq	%rcx, 200(%rsp)
	movq	%r8, 48(%rsp)
	movq	%r8, 208(%rsp)
	movq	%r14, 216(%rsp)
	movq	%rdi, 224(%rsp)
	cmovneq	%rcx, %rbx
	movl	%edx, %r13d
	leaq	360(%rsp), %rdx
	movq	%rbx, %rdi
	callq	"mime_lookup::cached::name_types::are_one_type"
	testb	%al, %al
	je	426f
424:
	leaq	208(%rsp), %rax
	movq	64(%rsp), %rdi
	leaq	8(%rdi), %rcx
	testb	%r13b, %r13b
	movq	(%rbx), %rbx
	cmoveq	%rax, %rcx
	movq	(%rcx), %rax
	movq	%rax, 32(%rsp)
	cmpb	$1, %r13b
	setne	%al
	testq	%r14, %r14
	sete	%cl
	orb	%al, %cl
	jne	425f
	callq	rattle_dealloc@PLT
425:
	movl	%ebx, %ebp
	shrl	$8, %ebp
	movl	%ebx, %r13d
	shrl	$16, %r13d
	movq	%rbx, %r15
	shrq	$32, %r15
	movq	%rbx, %r14
	shrq	$48, %r14
	jmp	443f
426:
	movq	%r14, 80(%rsp)
	leaq	360(%rsp), %rcx
	movq	%rbx, %rdi
	movq	312(%rsp), %rsi
	movq	88(%rsp), %rdx
	callq	"mime_lookup::cached::name_types::count_asked"
	xorl	%r13d, %r13d
	xorl	%eax, %eax
427:
	leaq	184(%rsp), %r9
	movq	64(%rsp), %rdi
	movq	56(%rsp), %r11
	pxor	%xmm0, %xmm0
	jmp	208b
428:
	movq	(%rdi), %r10
	movq	8(%rdi), %rbx
429:
	cmpb	$1, 96(%rsp)
	setne	%al
	testq	%rcx, %rcx
	sete	%cl
	orb	%al, %cl
	movq	48(%rsp), %r13
	jne	430f
	movq	%r10, %rbp
	callq	rattle_dealloc@PLT
	movq	%rbp, %r10
	movq	32(%rsp), %rbp
	movq	24(%rsp), %rsi
	leaq	184(%rsp), %r9
430:
	movq	%r10, %r8
	movq	$0, 550(%rsp)
	movq	$0, 544(%rsp)
	movq	%r10, 560(%rsp)
	movq	%rbx, 568(%rsp)
	movdqa	272(%rsp), %xmm0
	movdqa	%xmm0, 576(%rsp)
	movq	$0, 56(%rsp)
	movq	%rbx, %rdi
	xorl	%edx, %edx
	xorl	%ecx, %ecx
	xorl	%r11d, %r11d
	xorl	%eax, %eax
	movq	%r14, %rbx
	jmp	259b
431:
	movq	(%rdi), %r10
	movq	8(%rdi), %rbx
432:
	cmpb	$1, 96(%rsp)
	setne	%al
	testq	%rcx, %rcx
	sete	%cl
	orb	%al, %cl
	movq	48(%rsp), %r13
	jne	433f
	movq	%r10, %rbp
	callq	rattle_dealloc@PLT
	movq	%rbp, %r10
	movq	32(%rsp), %rbp
	movq	24(%rsp), %rsi
	leaq	184(%rsp), %r9
433:
	movq	%r10, %r8
	movq	$0, 550(%rsp)
	movq	$0, 544(%rsp)
	movq	%r10, 560(%rsp)
	movq	%rbx, 568(%rsp)
	movdqa	272(%rsp), %xmm0
	movdqa	%xmm0, 576(%rsp)
	xorl	%edx, %edx
	movq	%rbx, %rdi
	xorl	%ecx, %ecx
	xorl	%r11d, %r11d
	xorl	%eax, %eax
	movq	%r14, %rbx
	jmp	263b
434:
	movq	%rdx, 328(%rsp)
	movq	%r14, %rbx
	movq	56(%rsp), %r8
	movq	80(%rsp), %r10
435:
	leaq	320(%rsp), %rcx
	movq	%r13, %rsi
	movq	312(%rsp), %rdx
	movq	%r8, %r14
	movq	%r10, %rbp
	callq	"mime_lookup::cached::name_types::count_asked"
	movq	%rbp, %rdi
	movq	32(%rsp), %rbp
	movq	%r14, %r8
	movq	24(%rsp), %rsi
	leaq	184(%rsp), %r9
	movq	%rax, 56(%rsp)
	movq	$0, 544(%rsp)
	movl	$1, 552(%rsp)
	movw	$0, 556(%rsp)
	movq	%r14, 560(%rsp)
	movq	%rdi, 568(%rsp)
	movq	%r13, 576(%rsp)
	movq	64(%rsp), %rax
	movq	%rax, 584(%rsp)
	movb	$1, %r11b
	xorl	%edx, %edx
	xorl	%ecx, %ecx
	xorl	%eax, %eax
	movq	48(%rsp), %r13
	jmp	259b
436:
	movq	%rdx, 328(%rsp)
	movq	%r14, %rbx
	movq	56(%rsp), %r8
	movq	80(%rsp), %r10
437:
	leaq	320(%rsp), %rcx
	movq	%r13, %rsi
	movq	312(%rsp), %rdx
	movq	%r8, %r14
	movq	%r10, %rbp
	callq	"mime_lookup::cached::name_types::count_asked"
	movq	%rbp, %rdi
	movq	32(%rsp), %rbp
	movq	%r14, %r8
	movq	24(%rsp), %rsi
	leaq	184(%rsp), %r9
	movq	$0, 544(%rsp)
	movl	$1, 552(%rsp)
	movw	$0, 556(%rsp)
	movq	%r14, 560(%rsp)
	movq	%rdi, 568(%rsp)
	movq	%r13, 576(%rsp)
	movq	64(%rsp), %rax
	movq	%rax, 584(%rsp)
	movb	$1, %r11b
	xorl	%edx, %edx
	xorl	%ecx, %ecx
	xorl	%eax, %eax
	movq	48(%rsp), %r13
	jmp	263b
438:
	movl	%r14d, %r11d
	jmp	184b
439:
	movl	%r14d, %r11d
	movq	48(%rsp), %r13
	jmp	184b
440:
	movl	%ebx, %r11d
	movq	48(%rsp), %r13
	movq	88(%rsp), %rbx
	jmp	186b
441:
	movzwl	1070(%rsp), %r14d
442:
	movq	56(%rsp), %rdi
	movzbl	88(%rsp), %eax
	movl	%ebx, %ebp
	shrl	$8, %ebp
	testb	%al, %al
	jne	443f
	callq	rattle_dealloc@PLT
443:
	movzwl	%r14w, %eax
	shlq	$48, %rax
	movzwl	%r15w, %ecx
	shlq	$32, %rcx
	orq	%rax, %rcx
	shll	$16, %r13d
	orq	%rcx, %r13
	movzbl	%bpl, %eax
	shll	$8, %eax
	orq	%r13, %rax
	movzbl	%bl, %r9d
	orq	%rax, %r9
	movq	32(%rsp), %r10
	movl	%r10d, %r13d
	shrl	$16, %r13d
	movq	%r10, %rax
	shrq	$32, %rax
	movq	%rax, 56(%rsp)
	movq	%r10, %r15
	shrq	$48, %r15
	movb	$1, %al
	movq	%rax, 80(%rsp)
	movq	$0, 32(%rsp)
	movq	40(%rsp), %rsi
444:
	movq	%r10, 48(%rsp)
	movq	360(%rsp), %rax
	movq	%rax, 64(%rsp)
	movq	368(%rsp), %rax
	movq	%rax, 24(%rsp)
	cmpb	$1, 472(%rsp)
	movq	%rsi, %rbx
	movq	%r9, %rbp
	jne	449f
	movq	480(%rsp), %r14
	leaq	544(%rsp), %rdi
	movl	$352, %edx
	movq	%r14, %rsi
	callq	memcpy@PLT
	movq	%r14, %rdi
	callq	rattle_dealloc@PLT
	leaq	544(%rsp), %rdi
	callq	"mime_lookup::mime_lookup++read_back++names++IndexedNames+Destruct::drop"
	movq	%rbp, %r9
	movq	%rbx, %rsi
	cmpb	$1, 488(%rsp)
	je	450f
445:
	cmpb	$1, 504(%rsp)
	movq	120(%rsp), %r14
	jne	451f
446:
	movq	512(%rsp), %rdi
	callq	"std_alloc::boxed::Box::drop::<#2a53b42b743d619c>"
	movq	%rbp, %r9
	movq	%rbx, %rsi
	cmpb	$1, 520(%rsp)
	je	452f
447:
	cmpb	$0, 80(%rsp)
	movq	48(%rsp), %rdx
	je	453f
448:
	movq	1224(%rsp), %rbx
	movq	96(%rsp), %rax
	andb	$1, %al
	xorl	%r14d, %r14d
	movq	%r9, %r10
	movl	%eax, %r9d
	xorl	%ebp, %ebp
	xorl	%edi, %edi
	movq	56(%rsp), %rsi
	jmp	268b
449:
	cmpb	$1, 488(%rsp)
	jne	445b
450:
	movq	496(%rsp), %r14
	leaq	544(%rsp), %rdi
	movl	$200, %edx
	movq	%r14, %rsi
	callq	memcpy@PLT
	movq	%r14, %rdi
	callq	rattle_dealloc@PLT
	leaq	544(%rsp), %rdi
	callq	"mime_lookup::mime_lookup++indexed++magic_index++MagicIndex+Destruct::drop"
	movq	%rbp, %r9
	movq	%rbx, %rsi
	cmpb	$1, 504(%rsp)
	movq	120(%rsp), %r14
	je	446b
451:
	cmpb	$1, 520(%rsp)
	jne	447b
452:
	movq	528(%rsp), %rdi
	callq	"std_alloc::boxed::Box::drop::<#02fc8b7b85195ce8>"
	movq	%rbp, %r9
	movq	%rbx, %rsi
	cmpb	$0, 80(%rsp)
	movq	48(%rsp), %rdx
	jne	448b
453:
	movzbl	%r9b, %r10d
	leaq	481f(%rip), %rax
	movslq	(%rax,%r10,4), %rcx
	addq	%rax, %rcx
	movq	56(%rsp), %rdi
	movq	32(%rsp), %r8
	jmpq	*%rcx
454:
	xorl	%r14d, %r14d
	xorl	%edx, %edx
	xorl	%r13d, %r13d
	xorl	%esi, %esi
	xorl	%r15d, %r15d
	movq	%r10, 64(%rsp)
	movq	%r10, 24(%rsp)
	movq	%r10, %rbx
	movl	%r9d, %ebp
	movb	$2, %dil
	jmp	268b
455:
	movb	$3, %dil
456:
	xorl	%r14d, %r14d
	xorl	%r10d, %r10d
	xorl	%edx, %edx
	xorl	%r13d, %r13d
	xorl	%esi, %esi
	xorl	%r15d, %r15d
	xorl	%r9d, %r9d
	movq	$0, 64(%rsp)
	movq	$0, 24(%rsp)
	xorl	%ebx, %ebx
	xorl	%ebp, %ebp
	jmp	268b
457:
	movb	$1, %bpl
	xorl	%r14d, %r14d
	xorl	%r10d, %r10d
	xorl	%edx, %edx
	xorl	%r13d, %r13d
	xorl	%esi, %esi
	xorl	%r15d, %r15d
	xorl	%r9d, %r9d
	movq	$0, 64(%rsp)
	movq	$0, 24(%rsp)
	xorl	%ebx, %ebx
	movb	$2, %dil
	jmp	268b
458:
	movb	%r15b, 32(%rsp)
	leaq	304(%rsp), %rcx
459:
	cmpb	$1, %al
	movq	%r13, %r8
	jne	460f
	movq	152(%rsp), %r8
	movq	%rsi, %rbx
460:
	movq	%rbx, 64(%rsp)
	movq	%rbx, 280(%rsp)
	movq	%r8, 288(%rsp)
	decq	%r14
	je	469f
	leaq	16(%rcx), %r15
	movq	-8(%rcx), %rbx
	movq	(%rcx), %r8
	pxor	%xmm0, %xmm0
	movdqa	%xmm0, 144(%rsp)
	movdqa	%xmm0, 128(%rsp)
	leaq	128(%rsp), %rdi
	leaq	360(%rsp), %r9
	leaq	416(%rsp), %rsi
	movq	48(%rsp), %rdx
	movq	%rbx, %rcx
	movq	%r8, %r13
	callq	"mime_view::pairs::look_up_pair"
	movzbl	136(%rsp), %eax
	movq	144(%rsp), %rsi
	cmpb	$0, 128(%rsp)
	movq	%r15, %rcx
	je	459b
461:
	movq	64(%rsp), %rdi
462:
	movzbl	80(%rsp), %edx
	movzwl	140(%rsp), %ebx
	movzbl	%al, %eax
	movzwl	138(%rsp), %ecx
	shll	$16, %ecx
	shlq	$32, %rbx
	orq	%rax, %rbx
	orq	%rcx, %rbx
463:
	movl	%ebx, %r13d
	shrl	$16, %r13d
	movq	%rbx, %r15
	shrq	$32, %r15
	cmpb	$1, %dl
	jne	464f
	cmpq	$0, 296(%rsp)
	je	464f
	movq	%rsi, %rbp
	callq	rattle_dealloc@PLT
	movl	%ebx, %edx
	movq	%rbp, %rcx
	movq	40(%rsp), %rsi
	jmp	204b
464:
	movl	%ebx, %edx
	movq	%rsi, %rcx
	movq	40(%rsp), %rsi
	jmp	204b
465:
	cmpq	$0, 240(%rsp)
	je	466f
	movq	%r12, %rdi
	movq	352(%rsp), %rsi
	movq	240(%rsp), %rdx
	callq	"mime_tool::system::StreamSink::put::<#87f05e477b504f42>"
	testb	%al, %al
	jne	388b
466:
	testq	%r14, %r14
	je	467f
	movq	%r12, %rdi
	movq	64(%rsp), %rsi
	movq	%r14, %rdx
	callq	"mime_tool::system::StreamSink::put::<#87f05e477b504f42>"
	testb	%al, %al
	jne	388b
467:
	movl	$1, %edx
	movq	%r12, %rdi
	movq	24(%rsp), %rsi
	callq	"mime_tool::system::StreamSink::put::<#87f05e477b504f42>"
	testb	%al, %al
	jne	388b
	xorl	%ebx, %ebx
	xorl	%r13d, %r13d
	movq	96(%rsp), %r12
	movq	64(%rsp), %r15
	jmp	471f
468:
	movl	$1, %esi
	movzbl	32(%rsp), %r15d
	movq	64(%rsp), %rcx
	movzbl	80(%rsp), %edx
	movq	88(%rsp), %rdi
	jmp	421b
469:
	movl	$1, %esi
	movzbl	32(%rsp), %r15d
	movq	64(%rsp), %rcx
	movzbl	80(%rsp), %edx
	movq	88(%rsp), %rdi
	jmp	423b
470:
	xorl	%ebx, %ebx
	xorl	%r13d, %r13d
	movq	96(%rsp), %r12
471:
	movq	40(%rsp), %rax
	testq	%rax, %rax
	jne	409b
472:
	movq	120(%rsp), %r14
	jmp	301b
473:
	ud2
474:
	.size	"mime_tool::line::print_line::<#2e1b2a3647f851f7>", 474b-"mime_tool::line::print_line::<#2e1b2a3647f851f7>"
	.section	.rodata,"a",@progbits
	.p2align	2, 0x0
475:
	.long	21b-475b
	.long	10b-475b
	.long	10b-475b
	.long	20b-475b
	.long	10b-475b
476:
	.long	15b-476b
	.long	40b-476b
	.long	31b-476b
	.long	39b-476b
	.long	27b-476b
477:
	.long	167b-477b
	.long	171b-477b
	.long	168b-477b
	.long	169b-477b
478:
	.long	268b-478b
	.long	265b-478b
	.long	455b-478b
	.long	132b-478b
479:
	.long	119b-479b
	.long	206b-479b
	.long	202b-479b
	.long	205b-479b
480:
	.long	376b-480b
	.long	379b-480b
	.long	377b-480b
	.long	378b-480b
481:
	.long	454b-481b
	.long	122b-481b
	.long	455b-481b
	.long	457b-481b
482:
	.long	154b-482b
	.long	112b-482b
	.long	155b-482b
	.long	112b-482b
483:
	.long	268b-483b
	.long	473b-483b
	.long	244b-483b
	.long	132b-483b
484:
	.long	92b-484b
	.long	175b-484b
	.long	177b-484b
	.long	34b-484b
485:
	.long	268b-485b
	.long	473b-485b
	.long	244b-485b
	.long	132b-485b
486:
	.long	238b-486b
	.long	239b-486b
	.long	241b-486b
	.long	240b-486b
487:
	.long	125b-487b
	.long	16b-487b
	.long	156b-487b
	.long	16b-487b
488:
	.long	268b-488b
	.long	473b-488b
	.long	244b-488b
	.long	132b-488b
489:
	.long	344b-489b
	.long	345b-489b
	.long	344b-489b
	.long	18b-489b

	.section	.text.unlikely,"ax",@progbits
	.p2align	4
	.type	"mime_tool::line::told",@function
"mime_tool::line::told":
	pushq	%rbp
	pushq	%r15
	pushq	%r14
	pushq	%r12
	pushq	%rbx
	subq	$240, %rsp
	movq	%rdi, %rbx
	movq	8(%rsi), %rax
	movq	16(%rsi), %rcx
	movq	24(%rsi), %rdx
	xorps	%xmm0, %xmm0
	movups	%xmm0, 111(%rsp)
	movaps	%xmm0, 96(%rsp)
	movq	%rdx, 88(%rsp)
	movq	%rax, 80(%rsp)
	movq	%rcx, 72(%rsp)
	movups	%xmm0, 143(%rsp)
	movaps	%xmm0, 128(%rsp)
	movups	%xmm0, 16(%rsp)
	movl	$0, 65(%rsp)
	movl	$0, 68(%rsp)
	leaq	7(%rsp), %rax
	movq	%rax, 8(%rsp)
	movq	$0, 56(%rsp)
	movb	$0, 64(%rsp)
	leaq	.Le7fc7dfcc8a5(%rip), %r12
	movq	%r12, 168(%rsp)
	movq	$7, 176(%rsp)
	leaq	80(%rsp), %rax
	movq	%rax, 184(%rsp)
	leaq	.L623ff20ee80d(%rip), %r15
	movq	%r15, 192(%rsp)
	movq	$7, 200(%rsp)
	leaq	72(%rsp), %rax
	movq	%rax, 208(%rsp)
	leaq	.L7545b12a9df2(%rip), %r14
	movq	%r14, 216(%rsp)
	movq	$6, 224(%rsp)
	leaq	88(%rsp), %rax
	movq	%rax, 232(%rsp)
	movl	$32, 32(%rsp)
	movl	$0, 44(%rsp)
	movq	$0, 36(%rsp)
	movq	$-1, 48(%rsp)
	leaq	8(%rsp), %rdi
	movl	$7, %esi
	callq	"std_alloc::vec::Vec::grow_amortized::<#1d775b5957dec42c>"
	testb	%al, %al
	je	11f
	movq	16(%rsp), %rcx
	leaq	7(%rcx), %rax
	addq	8(%rsp), %rcx
	leaq	184(%rsp), %rsi
	movq	%rcx, %rdx
	subq	%r12, %rdx
	cmpq	$6, %rdx
	ja	1f
	movl	$1685024288, (%rcx)
	movw	$29541, 4(%rcx)
	movb	$61, 6(%rcx)
	jmp	2f
1:
	movl	$1030972772, 3(%rcx)
	movl	$1685024288, (%rcx)
2:
	movq	%rax, 16(%rsp)
	leaq	8(%rsp), %rdi
	callq	"core::fmt::formatter::Formatter::write_piece::<#0584b03bf03810b7>"
	testb	%al, %al
	jne	11f
	leaq	36(%rsp), %r12
	movl	$32, 32(%rsp)
	movl	$0, 8(%r12)
	movq	$0, (%r12)
	movq	$-1, 48(%rsp)
	cmpq	$0, 56(%rsp)
	jne	14f
	movq	16(%rsp), %rcx
	movq	24(%rsp), %rax
	movq	%rax, %rdx
	subq	%rcx, %rdx
	cmpq	$6, %rdx
	jbe	15f
3:
	leaq	7(%rcx), %rdx
	addq	8(%rsp), %rcx
	movq	%rcx, %rsi
	subq	%r15, %rsi
	cmpq	$6, %rsi
	ja	4f
	movl	$1954112032, (%rcx)
	movw	$29541, 4(%rcx)
	movb	$61, 6(%rcx)
	jmp	5f
4:
	movl	$1030972788, 3(%rcx)
	movl	$1954112032, (%rcx)
5:
	movq	%rdx, 16(%rsp)
	movq	%rax, 24(%rsp)
6:
	leaq	208(%rsp), %rsi
	leaq	8(%rsp), %rdi
	callq	"core::fmt::formatter::Formatter::write_piece::<#0584b03bf03810b7>"
	testb	%al, %al
	jne	11f
	movl	$32, 32(%rsp)
	movl	$0, 8(%r12)
	movq	$0, (%r12)
	movq	$-1, 48(%rsp)
	cmpq	$0, 56(%rsp)
	jne	16f
	movq	16(%rsp), %rcx
	movq	24(%rsp), %rax
	movq	%rax, %rdx
	subq	%rcx, %rdx
	cmpq	$5, %rdx
	jbe	17f
7:
	leaq	6(%rcx), %rdx
	addq	8(%rsp), %rcx
	movq	%rcx, %rsi
	subq	%r14, %rsi
	cmpq	$5, %rsi
	ja	8f
	movl	$1634038304, (%rcx)
	movw	$15716, 4(%rcx)
	jmp	9f
8:
	movw	$15716, 4(%rcx)
	movl	$1634038304, (%rcx)
9:
	movq	%rdx, 16(%rsp)
	movq	%rax, 24(%rsp)
10:
	leaq	232(%rsp), %rsi
	leaq	8(%rsp), %rdi
	callq	"core::fmt::formatter::Formatter::write_piece::<#0584b03bf03810b7>"
	testb	%al, %al
	je	13f
11:
	movb	$1, %bpl
	cmpq	$0, 24(%rsp)
	je	12f
	movq	8(%rsp), %rdi
	callq	rattle_dealloc@PLT
12:
	movq	151(%rsp), %rax
	movq	%rax, 119(%rsp)
	movups	135(%rsp), %xmm0
	movups	%xmm0, 103(%rsp)
	movb	%bpl, (%rbx)
	movups	103(%rsp), %xmm0
	movups	%xmm0, 8(%rbx)
	movq	119(%rsp), %rax
	movq	%rax, 24(%rbx)
	addq	$240, %rsp
	popq	%rbx
	popq	%r12
	popq	%r14
	popq	%r15
	popq	%rbp
	retq
13:
	movq	24(%rsp), %rax
	movq	%rax, 151(%rsp)
	movups	8(%rsp), %xmm0
	movups	%xmm0, 135(%rsp)
	xorl	%ebp, %ebp
	jmp	12b
14:
	leaq	.L623ff20ee80d(%rip), %rsi
	leaq	8(%rsp), %rdi
	movl	$7, %edx
	callq	"core::fmt::formatter::Formatter::write_indented::<#0a7ff941e43d6b30>"
	testb	%al, %al
	jne	11b
	jmp	6b
15:
	leaq	8(%rsp), %rdi
	movl	$7, %esi
	callq	"std_alloc::vec::Vec::grow_amortized::<#1d775b5957dec42c>"
	testb	%al, %al
	je	11b
	movq	16(%rsp), %rcx
	movq	24(%rsp), %rax
	jmp	3b
16:
	leaq	.L7545b12a9df2(%rip), %rsi
	leaq	8(%rsp), %rdi
	movl	$6, %edx
	callq	"core::fmt::formatter::Formatter::write_indented::<#0a7ff941e43d6b30>"
	testb	%al, %al
	jne	11b
	jmp	10b
17:
	leaq	8(%rsp), %rdi
	movl	$6, %esi
	callq	"std_alloc::vec::Vec::grow_amortized::<#1d775b5957dec42c>"
	testb	%al, %al
	je	11b
	movq	16(%rsp), %rcx
	movq	24(%rsp), %rax
	jmp	7b
18:
	.size	"mime_tool::line::told", 18b-"mime_tool::line::told"

	.text
	.p2align	4
	.type	"mime_tool::mime_text++lines++globs2++GlobsFile+Destruct::drop",@function
"mime_tool::mime_text++lines++globs2++GlobsFile+Destruct::drop":
	pushq	%rbp
	pushq	%r15
	pushq	%r14
	pushq	%r13
	pushq	%r12
	pushq	%rbx
	subq	$56, %rsp
	movq	(%rdi), %rax
	movq	%rax, 8(%rsp)
	movq	8(%rdi), %rbp
	movq	16(%rdi), %rax
	movq	%rax, 24(%rsp)
	movq	24(%rdi), %rax
	movq	%rax, 48(%rsp)
	movq	32(%rdi), %rbx
	movq	40(%rdi), %rax
	movq	%rax, 32(%rsp)
	movq	48(%rdi), %rax
	movq	%rax, 16(%rsp)
	movq	64(%rdi), %rax
	movq	%rax, 40(%rsp)
	testq	%rbp, %rbp
	je	4f
	movq	8(%rsp), %rax
	leaq	80(%rax), %r14
	jmp	2f
	.p2align	4
1:
	addq	$104, %r14
	decq	%rbp
	je	4f
2:
	movzbl	-24(%r14), %r15d
	movq	-16(%r14), %r12
	movq	(%r14), %r13
	cmpb	$0, -72(%r14)
	je	3f
	cmpq	$0, -48(%r14)
	je	3f
	movq	-64(%r14), %rdi
	callq	rattle_dealloc@PLT
3:
	testb	%r15b, %r15b
	je	1b
	testq	%r13, %r13
	je	1b
	movq	%r12, %rdi
	callq	rattle_dealloc@PLT
	jmp	1b
4:
	cmpq	$0, 24(%rsp)
	je	5f
	movq	8(%rsp), %rdi
	callq	rattle_dealloc@PLT
5:
	testq	%rbx, %rbx
	movq	48(%rsp), %r15
	je	8f
	movq	%r15, %r14
	jmp	7f
	.p2align	4
6:
	addq	$48, %r14
	decq	%rbx
	je	8f
7:
	cmpb	$0, (%r14)
	je	6b
	cmpq	$0, 24(%r14)
	je	6b
	movq	8(%r14), %rdi
	callq	rattle_dealloc@PLT
	jmp	6b
8:
	cmpq	$0, 32(%rsp)
	je	9f
	movq	%r15, %rdi
	callq	rattle_dealloc@PLT
9:
	cmpq	$0, 40(%rsp)
	je	10f
	movq	16(%rsp), %rdi
	addq	$56, %rsp
	popq	%rbx
	popq	%r12
	popq	%r13
	popq	%r14
	popq	%r15
	popq	%rbp
	jmp	rattle_dealloc@PLT
10:
	addq	$56, %rsp
	popq	%rbx
	popq	%r12
	popq	%r13
	popq	%r14
	popq	%r15
	popq	%rbp
	retq
11:
	.size	"mime_tool::mime_text++lines++globs2++GlobsFile+Destruct::drop", 11b-"mime_tool::mime_text++lines++globs2++GlobsFile+Destruct::drop"

	.text
	.p2align	4
	.type	"mime_tool::mime_text++merging++DirFiles+Destruct::drop",@function
"mime_tool::mime_text++merging++DirFiles+Destruct::drop":
	pushq	%rbp
	pushq	%r15
	pushq	%r14
	pushq	%r13
	pushq	%r12
	pushq	%rbx
	subq	$392, %rsp
	movq	72(%rdi), %r14
	movq	80(%rdi), %rbx
	movq	88(%rdi), %rax
	movq	%rax, 88(%rsp)
	movq	96(%rdi), %rax
	movq	%rax, 104(%rsp)
	movq	104(%rdi), %rbp
	movq	112(%rdi), %rax
	movq	%rax, 96(%rsp)
	movq	120(%rdi), %rax
	movq	%rax, 8(%rsp)
	movq	128(%rdi), %rax
	movq	%rax, 32(%rsp)
	movq	136(%rdi), %rax
	movq	%rax, 112(%rsp)
	movq	144(%rdi), %rax
	movq	%rax, 56(%rsp)
	movq	160(%rdi), %rax
	movq	%rax, 120(%rsp)
	movq	168(%rdi), %rax
	movq	%rax, 16(%rsp)
	movq	176(%rdi), %rax
	movq	%rax, 40(%rsp)
	movq	184(%rdi), %rax
	movq	%rax, 128(%rsp)
	movq	192(%rdi), %rax
	movq	%rax, 64(%rsp)
	movq	208(%rdi), %rax
	movq	%rax, 136(%rsp)
	movq	216(%rdi), %rax
	movq	%rax, 24(%rsp)
	movq	224(%rdi), %rax
	movq	%rax, 48(%rsp)
	movq	232(%rdi), %rax
	movq	%rax, 144(%rsp)
	movq	240(%rdi), %rax
	movq	%rax, 72(%rsp)
	movq	256(%rdi), %rax
	movq	%rax, 152(%rsp)
	movq	264(%rdi), %rax
	movq	%rax, 184(%rsp)
	movq	272(%rdi), %rax
	movq	%rax, 160(%rsp)
	movq	280(%rdi), %rax
	movq	%rax, 168(%rsp)
	movq	288(%rdi), %rax
	movq	%rax, 80(%rsp)
	movq	304(%rdi), %rax
	movq	%rax, 176(%rsp)
	movq	64(%rdi), %rax
	movq	%rax, 272(%rsp)
	movups	(%rdi), %xmm0
	movups	16(%rdi), %xmm1
	movups	32(%rdi), %xmm2
	movups	48(%rdi), %xmm3
	movaps	%xmm3, 256(%rsp)
	movaps	%xmm2, 240(%rsp)
	movaps	%xmm1, 224(%rsp)
	movaps	%xmm0, 208(%rsp)
	leaq	208(%rsp), %rdi
	callq	"mime_tool::mime_text++lines++globs2++GlobsFile+Destruct::drop"
	movq	%rbx, 192(%rsp)
	testq	%rbx, %rbx
	je	6f
	xorl	%r15d, %r15d
	jmp	2f
	.p2align	4
1:
	incq	%r15
	cmpq	192(%rsp), %r15
	je	6f
2:
	movq	%r15, %rax
	shlq	$4, %rax
	leaq	(%rax,%rax,4), %rax
	movq	56(%r14,%rax), %r13
	movq	64(%r14,%rax), %rbx
	movq	72(%r14,%rax), %rcx
	movq	%rcx, 200(%rsp)
	cmpb	$0, 8(%r14,%rax)
	je	3f
	cmpq	$0, 32(%r14,%rax)
	je	3f
	movq	16(%r14,%rax), %rdi
	callq	rattle_dealloc@PLT
3:
	testq	%rbx, %rbx
	je	5f
	movq	%r13, %r12
	.p2align	4
4:
	movups	80(%r12), %xmm0
	movaps	%xmm0, 368(%rsp)
	movups	64(%r12), %xmm0
	movaps	%xmm0, 352(%rsp)
	movups	(%r12), %xmm0
	movups	16(%r12), %xmm1
	movups	32(%r12), %xmm2
	movups	48(%r12), %xmm3
	movaps	%xmm3, 336(%rsp)
	movaps	%xmm2, 320(%rsp)
	movaps	%xmm1, 304(%rsp)
	movaps	%xmm0, 288(%rsp)
	leaq	288(%rsp), %rdi
	callq	"mime_text::mime_base++magic++matchlet++Matchlet+Destruct::drop"
	addq	$96, %r12
	decq	%rbx
	jne	4b
5:
	cmpq	$0, 200(%rsp)
	je	1b
	movq	%r13, %rdi
	callq	rattle_dealloc@PLT
	jmp	1b
6:
	cmpq	$0, 88(%rsp)
	je	7f
	movq	%r14, %rdi
	callq	rattle_dealloc@PLT
7:
	testq	%rbp, %rbp
	movq	184(%rsp), %r12
	movq	160(%rsp), %r13
	movq	104(%rsp), %r14
	je	10f
	movq	%r14, %rbx
	jmp	9f
	.p2align	4
8:
	addq	$48, %rbx
	decq	%rbp
	je	10f
9:
	cmpb	$0, (%rbx)
	je	8b
	cmpq	$0, 24(%rbx)
	je	8b
	movq	8(%rbx), %rdi
	callq	rattle_dealloc@PLT
	jmp	8b
10:
	cmpq	$0, 96(%rsp)
	je	11f
	movq	%r14, %rdi
	callq	rattle_dealloc@PLT
11:
	cmpq	$0, 32(%rsp)
	je	15f
	movq	8(%rsp), %rbx
	jmp	13f
	.p2align	4
12:
	addq	$96, %rbx
	decq	32(%rsp)
	je	15f
13:
	movzbl	48(%rbx), %ebp
	movq	56(%rbx), %r14
	movq	72(%rbx), %r15
	cmpb	$0, (%rbx)
	je	14f
	cmpq	$0, 24(%rbx)
	je	14f
	movq	8(%rbx), %rdi
	callq	rattle_dealloc@PLT
14:
	testb	%bpl, %bpl
	je	12b
	testq	%r15, %r15
	je	12b
	movq	%r14, %rdi
	callq	rattle_dealloc@PLT
	jmp	12b
15:
	cmpq	$0, 112(%rsp)
	je	16f
	movq	8(%rsp), %rdi
	callq	rattle_dealloc@PLT
16:
	cmpq	$0, 120(%rsp)
	je	17f
	movq	56(%rsp), %rdi
	callq	rattle_dealloc@PLT
17:
	cmpq	$0, 40(%rsp)
	je	21f
	movq	16(%rsp), %r14
	jmp	19f
	.p2align	4
18:
	addq	$96, %r14
	decq	40(%rsp)
	je	21f
19:
	movzbl	48(%r14), %ebp
	movq	56(%r14), %rbx
	movq	72(%r14), %r15
	cmpb	$0, (%r14)
	je	20f
	cmpq	$0, 24(%r14)
	je	20f
	movq	8(%r14), %rdi
	callq	rattle_dealloc@PLT
20:
	testb	%bpl, %bpl
	je	18b
	testq	%r15, %r15
	je	18b
	movq	%rbx, %rdi
	callq	rattle_dealloc@PLT
	jmp	18b
21:
	cmpq	$0, 128(%rsp)
	je	22f
	movq	16(%rsp), %rdi
	callq	rattle_dealloc@PLT
22:
	cmpq	$0, 136(%rsp)
	je	23f
	movq	64(%rsp), %rdi
	callq	rattle_dealloc@PLT
23:
	cmpq	$0, 48(%rsp)
	je	27f
	movq	24(%rsp), %r14
	jmp	25f
	.p2align	4
24:
	addq	$96, %r14
	decq	48(%rsp)
	je	27f
25:
	movzbl	48(%r14), %ebp
	movq	56(%r14), %rbx
	movq	72(%r14), %r15
	cmpb	$0, (%r14)
	je	26f
	cmpq	$0, 24(%r14)
	je	26f
	movq	8(%r14), %rdi
	callq	rattle_dealloc@PLT
26:
	testb	%bpl, %bpl
	je	24b
	testq	%r15, %r15
	je	24b
	movq	%rbx, %rdi
	callq	rattle_dealloc@PLT
	jmp	24b
27:
	cmpq	$0, 144(%rsp)
	je	28f
	movq	24(%rsp), %rdi
	callq	rattle_dealloc@PLT
28:
	cmpq	$0, 152(%rsp)
	je	29f
	movq	72(%rsp), %rdi
	callq	rattle_dealloc@PLT
29:
	testq	%r13, %r13
	je	33f
	movq	%r12, %r14
	jmp	31f
	.p2align	4
30:
	addq	$96, %r14
	decq	%r13
	je	33f
31:
	movzbl	48(%r14), %ebp
	movq	56(%r14), %rbx
	movq	72(%r14), %r15
	cmpb	$0, (%r14)
	je	32f
	cmpq	$0, 24(%r14)
	je	32f
	movq	8(%r14), %rdi
	callq	rattle_dealloc@PLT
32:
	testb	%bpl, %bpl
	je	30b
	testq	%r15, %r15
	je	30b
	movq	%rbx, %rdi
	callq	rattle_dealloc@PLT
	jmp	30b
33:
	cmpq	$0, 168(%rsp)
	je	34f
	movq	%r12, %rdi
	callq	rattle_dealloc@PLT
34:
	cmpq	$0, 176(%rsp)
	je	35f
	movq	80(%rsp), %rdi
	addq	$392, %rsp
	popq	%rbx
	popq	%r12
	popq	%r13
	popq	%r14
	popq	%r15
	popq	%rbp
	jmp	rattle_dealloc@PLT
35:
	addq	$392, %rsp
	popq	%rbx
	popq	%r12
	popq	%r13
	popq	%r14
	popq	%r15
	popq	%rbp
	retq
36:
	.size	"mime_tool::mime_text++merging++DirFiles+Destruct::drop", 36b-"mime_tool::mime_text++merging++DirFiles+Destruct::drop"

	.text
	.p2align	4
	.type	"mime_tool::preparing::Prepared::make_index",@function
"mime_tool::preparing::Prepared::make_index":
	cmpb	$1, 200(%rdi)
	je	1f
	cmpb	$0, (%rdi)
	je	2f
1:
	retq
2:
	pushq	%rbp
	pushq	%r15
	pushq	%r14
	pushq	%r13
	pushq	%r12
	pushq	%rbx
	subq	$2584, %rsp
	movq	%rdi, 560(%rsp)
	movq	8(%rdi), %r15
	xorps	%xmm0, %xmm0
	movaps	%xmm0, 2400(%rsp)
	movaps	%xmm0, 2416(%rsp)
	movaps	%xmm0, 2432(%rsp)
	movaps	%xmm0, 2448(%rsp)
	movaps	%xmm0, 2464(%rsp)
	movaps	%xmm0, 2480(%rsp)
	movaps	%xmm0, 2496(%rsp)
	movaps	%xmm0, 2512(%rsp)
	movaps	%xmm0, 2528(%rsp)
	movaps	%xmm0, 2544(%rsp)
	movaps	%xmm0, 2560(%rsp)
	movaps	%xmm0, 2176(%rsp)
	movaps	%xmm0, 2192(%rsp)
	movaps	%xmm0, 2208(%rsp)
	movaps	%xmm0, 2224(%rsp)
	movaps	%xmm0, 2240(%rsp)
	movaps	%xmm0, 2256(%rsp)
	movaps	%xmm0, 2272(%rsp)
	movaps	%xmm0, 2288(%rsp)
	movaps	%xmm0, 2304(%rsp)
	movaps	%xmm0, 2320(%rsp)
	movaps	%xmm0, 2336(%rsp)
	movaps	%xmm0, 2352(%rsp)
	movaps	%xmm0, 2368(%rsp)
	movq	$0, 2384(%rsp)
	movaps	%xmm0, 1728(%rsp)
	movaps	%xmm0, 1712(%rsp)
	movaps	%xmm0, 1696(%rsp)
	movaps	%xmm0, 1680(%rsp)
	movaps	%xmm0, 1664(%rsp)
	movaps	%xmm0, 1648(%rsp)
	movaps	%xmm0, 1632(%rsp)
	movaps	%xmm0, 1616(%rsp)
	movaps	%xmm0, 1600(%rsp)
	movaps	%xmm0, 1584(%rsp)
	movaps	%xmm0, 1568(%rsp)
	movq	$0, 1744(%rsp)
	movaps	%xmm0, 1360(%rsp)
	movaps	%xmm0, 1376(%rsp)
	movaps	%xmm0, 1392(%rsp)
	movaps	%xmm0, 1408(%rsp)
	movaps	%xmm0, 1424(%rsp)
	movaps	%xmm0, 1440(%rsp)
	movaps	%xmm0, 1456(%rsp)
	movaps	%xmm0, 1472(%rsp)
	movaps	%xmm0, 1488(%rsp)
	movaps	%xmm0, 1504(%rsp)
	movaps	%xmm0, 1520(%rsp)
	movaps	%xmm0, 1536(%rsp)
	movaps	%xmm0, 1552(%rsp)
	movaps	%xmm0, 816(%rsp)
	movaps	%xmm0, 832(%rsp)
	movaps	%xmm0, 848(%rsp)
	movaps	%xmm0, 864(%rsp)
	movaps	%xmm0, 880(%rsp)
	movaps	%xmm0, 896(%rsp)
	movaps	%xmm0, 912(%rsp)
	movaps	%xmm0, 928(%rsp)
	movaps	%xmm0, 944(%rsp)
	movaps	%xmm0, 960(%rsp)
	movaps	%xmm0, 976(%rsp)
	movaps	%xmm0, 992(%rsp)
	movaps	%xmm0, 1008(%rsp)
	movaps	%xmm0, 1328(%rsp)
	movaps	%xmm0, 1312(%rsp)
	movaps	%xmm0, 1296(%rsp)
	movaps	%xmm0, 1280(%rsp)
	movaps	%xmm0, 1264(%rsp)
	movaps	%xmm0, 1248(%rsp)
	movaps	%xmm0, 1232(%rsp)
	movaps	%xmm0, 1216(%rsp)
	movaps	%xmm0, 1200(%rsp)
	movaps	%xmm0, 1184(%rsp)
	movaps	%xmm0, 1168(%rsp)
	movq	$0, 1344(%rsp)
	movaps	%xmm0, 768(%rsp)
	movaps	%xmm0, 784(%rsp)
	movaps	%xmm0, 800(%rsp)
	movaps	%xmm0, 1760(%rsp)
	movaps	%xmm0, 1776(%rsp)
	movaps	%xmm0, 1792(%rsp)
	movaps	%xmm0, 1808(%rsp)
	movaps	%xmm0, 1824(%rsp)
	movaps	%xmm0, 1840(%rsp)
	movaps	%xmm0, 1856(%rsp)
	movaps	%xmm0, 1872(%rsp)
	movaps	%xmm0, 1888(%rsp)
	movaps	%xmm0, 1904(%rsp)
	movaps	%xmm0, 1920(%rsp)
	movaps	%xmm0, 1936(%rsp)
	movaps	%xmm0, 1952(%rsp)
	movq	$0, 1968(%rsp)
	movaps	%xmm0, 2144(%rsp)
	movaps	%xmm0, 2128(%rsp)
	movaps	%xmm0, 2112(%rsp)
	movaps	%xmm0, 2096(%rsp)
	movaps	%xmm0, 2080(%rsp)
	movaps	%xmm0, 2064(%rsp)
	movaps	%xmm0, 2048(%rsp)
	movaps	%xmm0, 2032(%rsp)
	movaps	%xmm0, 2016(%rsp)
	movaps	%xmm0, 2000(%rsp)
	movaps	%xmm0, 1984(%rsp)
	movq	$0, 2160(%rsp)
	movq	24(%r15), %rsi
	movq	32(%r15), %rdx
	leaq	1360(%rsp), %rdi
	callq	"mime_lookup::places::places_of"
	cmpb	$0, 1360(%rsp)
	jne	81f
	leaq	1368(%rsp), %rsi
	leaq	568(%rsp), %rdi
	movl	$200, %edx
	callq	memcpy@PLT
	movq	48(%r15), %rsi
	movq	56(%r15), %rdx
	leaq	816(%rsp), %rdi
	callq	"mime_lookup::places::places_of"
	cmpb	$0, 816(%rsp)
	jne	73f
	movq	840(%rsp), %rax
	movq	%rax, 176(%rsp)
	movq	856(%rsp), %rax
	movq	%rax, 120(%rsp)
	movaps	848(%rsp), %xmm0
	movaps	%xmm0, 1136(%rsp)
	movq	864(%rsp), %rax
	movq	%rax, 184(%rsp)
	movq	880(%rsp), %rax
	movq	%rax, 128(%rsp)
	movups	872(%rsp), %xmm0
	movaps	%xmm0, 1120(%rsp)
	movq	888(%rsp), %rax
	movq	%rax, 192(%rsp)
	movq	904(%rsp), %rax
	movq	%rax, 136(%rsp)
	movaps	896(%rsp), %xmm0
	movaps	%xmm0, 1104(%rsp)
	movq	912(%rsp), %rax
	movq	%rax, 200(%rsp)
	movq	928(%rsp), %rax
	movq	%rax, 144(%rsp)
	movups	920(%rsp), %xmm0
	movaps	%xmm0, 1088(%rsp)
	movq	936(%rsp), %rax
	movq	%rax, 208(%rsp)
	movq	952(%rsp), %rax
	movq	%rax, 152(%rsp)
	movaps	944(%rsp), %xmm0
	movaps	%xmm0, 1072(%rsp)
	movq	960(%rsp), %r12
	movq	976(%rsp), %rax
	movq	%rax, 160(%rsp)
	movups	968(%rsp), %xmm0
	movaps	%xmm0, 1056(%rsp)
	movups	984(%rsp), %xmm0
	movaps	%xmm0, 1040(%rsp)
	movq	1000(%rsp), %rbx
	movq	1016(%rsp), %rax
	movq	%rax, 168(%rsp)
	movaps	1008(%rsp), %xmm0
	movaps	%xmm0, 1024(%rsp)
	movups	824(%rsp), %xmm0
	movaps	%xmm0, 1152(%rsp)
	movq	8(%r15), %rcx
	leaq	8(%rsp), %r14
	testq	%rcx, %rcx
	je	28f
	movq	%rcx, %rax
	shrq	$57, %rax
	jne	65f
	movq	(%r15), %r13
	movq	%rcx, %rdi
	shlq	$6, %rdi
	movl	$8, %esi
	movq	%rcx, %r14
	callq	rattle_alloc@PLT
	testb	$1, %al
	je	65f
	movq	%r14, %r11
	movq	%rdx, %r14
	movq	%r12, 104(%rsp)
	movq	%r15, 256(%rsp)
	movq	%rbx, 112(%rsp)
	leaq	48(%r13), %r15
	xorl	%r12d, %r12d
	movq	%r11, %r9
	xorl	%r10d, %r10d
	movq	%r13, %r8
	movq	%r13, 80(%rsp)
	jmp	6f
3:
	xorl	%ebx, %ebx
4:
	cmpq	%r12, %r11
	je	13f
5:
	movq	%rcx, (%r14,%r13)
	movq	64(%rsp), %rax
	movq	%rax, 8(%r14,%r13)
	movq	%rsi, 16(%r14,%r13)
	movq	%rdi, 24(%r14,%r13)
	movq	$0, 32(%r14,%r13)
	movq	24(%rsp), %rax
	movq	%rax, 40(%r14,%r13)
	movq	%rbp, 48(%r14,%r13)
	movl	%edx, 56(%r14,%r13)
	movzbl	48(%rsp), %eax
	movb	%al, 60(%r14,%r13)
	movl	224(%rsp), %eax
	movb	%al, 61(%r14,%r13)
	movzbl	216(%rsp), %eax
	movb	%al, 62(%r14,%r13)
	movb	%bl, 63(%r14,%r13)
	incq	%r12
	movq	232(%rsp), %r14
	movq	248(%rsp), %r11
	incq	%r10
	addq	$104, %r15
	decq	%r9
	je	29f
6:
	imulq	$104, %r10, %rbx
	addq	%r8, %rbx
	leaq	-32(%r15), %rsi
	cmpb	$0, -40(%r15)
	je	8f
	movq	(%rsi), %rsi
	leaq	24(%rbx), %rax
	movq	(%rax), %rdi
	cmpq	$8, %rdi
	jb	9f
7:
	movq	%rdi, %rax
	shrq	%rax
	movq	-4(%rsi,%rax), %rax
	leaq	(%rax,%rax,2), %rcx
	addq	-8(%rsi,%rdi), %rcx
	movabsq	$-4658895280553007687, %rax
	imulq	%rcx, %rax
	shrq	$49, %rax
	andl	$-2, %eax
	jmp	10f
8:
	movq	%r15, %rax
	movq	(%rax), %rdi
	cmpq	$8, %rdi
	jae	7b
9:
	xorl	%eax, %eax
10:
	movzbl	-48(%r15), %ecx
	movb	%cl, 48(%rsp)
	movq	584(%rsp), %rcx
	movzwl	(%rcx,%rax), %r13d
	movq	%rsi, %rcx
	movq	%rdi, %rbp
	cmpq	%r13, 616(%rsp)
	jbe	20f
	movq	608(%rsp), %rdx
	shll	$5, %r13d
	cmpq	%rdi, 8(%rdx,%r13)
	movq	%rdi, %rbp
	jne	16f
	movq	(%rdx,%r13), %rdi
	cmpq	$4, %rbp
	jae	11f
	testq	%rbp, %rbp
	je	12f
	movzbl	(%rdi), %eax
	cmpb	(%rsi), %al
	jne	14f
	cmpq	$1, %rbp
	je	12f
	movzbl	1(%rdi), %ecx
	movl	$1, %eax
	cmpb	1(%rsi), %cl
	jne	15f
	cmpq	$2, %rbp
	je	12f
	movzbl	2(%rdi), %ecx
	movl	$2, %eax
	cmpb	2(%rsi), %cl
	je	12f
	jmp	15f
11:
	movl	(%rdi), %eax
	cmpl	(%rsi), %eax
	jne	16f
	movq	%rsi, 40(%rsp)
	movq	%rbp, %rsi
	movq	%rdx, 24(%rsp)
	movq	40(%rsp), %rdx
	movq	%r9, 72(%rsp)
	movq	%r10, 56(%rsp)
	movq	%r11, 96(%rsp)
	callq	"core::cmp::slices::groups_equal::<i8,31'core::cmp::numbers::U8PartialEq{}>"
	movq	24(%rsp), %rdx
	movq	40(%rsp), %rsi
	movq	96(%rsp), %r11
	movq	56(%rsp), %r10
	movq	72(%rsp), %r9
	movq	80(%rsp), %r8
	testb	%al, %al
	je	16f
12:
	movq	%rbp, 16(%rsp)
	movq	16(%rdx,%r13), %rdx
	jmp	17f
13:
	movl	%edx, 88(%rsp)
	movq	%rdi, 16(%rsp)
	movq	%rsi, 40(%rsp)
	movq	%r10, 56(%rsp)
	movq	%r9, 72(%rsp)
	leaq	232(%rsp), %rdi
	callq	"std_alloc::vec::Vec::grow_amortized::<#1a30988f8987f99f>"
	testb	%al, %al
	je	63f
	movq	232(%rsp), %r14
	movq	240(%rsp), %r12
	movq	%r12, %r13
	shlq	$6, %r13
	movq	80(%rsp), %r8
	movq	72(%rsp), %r9
	movq	56(%rsp), %r10
	movq	40(%rsp), %rsi
	movq	16(%rsp), %rdi
	movq	32(%rsp), %rcx
	movl	88(%rsp), %edx
	jmp	5b
14:
	xorl	%eax, %eax
15:
	cmpq	%rbp, %rax
	jae	12b
16:
	cmpb	$1, 24(%rdx,%r13)
	movq	%rsi, %rcx
	movq	%rbp, %rdi
	jne	20f
	movq	%rdi, 16(%rsp)
	leaq	584(%rsp), %rdi
	movq	%rsi, %r13
	movq	16(%rsp), %rdx
	movq	%r9, 72(%rsp)
	movq	%r10, 56(%rsp)
	movq	%r11, %rbp
	callq	"mime_lookup::name_map::other_value::<i64,23'core::clone::UsizeClone{}>"
	movq	16(%rsp), %rdi
	movq	%r13, %rsi
	movq	%rbp, %r11
	movq	56(%rsp), %r10
	movq	72(%rsp), %r9
	movq	80(%rsp), %r8
	movq	%r13, %rcx
	movq	%rdi, %rbp
	cmpb	$1, %al
	jne	20f
17:
	movq	568(%rsp), %rcx
	leaq	(%rdx,%rdx,2), %rdx
	shlq	$5, %rdx
	leaq	(%rcx,%rdx), %rax
	cmpb	$0, 48(%rcx,%rdx)
	je	18f
	movq	56(%rax), %rcx
	addq	$64, %rax
	jmp	19f
18:
	addq	%rdx, %rcx
	addq	$56, %rcx
	addq	$88, %rax
19:
	movq	16(%rsp), %rdi
	movq	(%rax), %rbp
20:
	movq	%rcx, 32(%rsp)
	leaq	16(%r15), %rax
	cmpb	$0, 8(%r15)
	movq	%rbp, 64(%rsp)
	je	21f
	movq	(%rax), %rax
	movq	%rax, 24(%rsp)
	addq	$72, %rbx
	jmp	22f
21:
	movq	%rax, 24(%rsp)
	leaq	32(%r15), %rbx
22:
	movzbl	48(%rsp), %eax
	movq	(%rbx), %rbp
	movzbl	48(%r15), %ebx
	movzbl	40(%r15), %ecx
	movq	%r14, 232(%rsp)
	movq	%r12, 240(%rsp)
	movq	%r11, 248(%rsp)
	movb	%cl, 216(%rsp)
	negb	%cl
	movzbl	%cl, %ecx
	shll	$25, %ecx
	shll	$17, %eax
	movzwl	%bp, %edx
	orl	%ebx, %eax
	leal	(%rax,%rdx,2), %eax
	leal	(%rcx,%rax), %edx
	addl	$67108864, %edx
	movq	%r12, %r13
	shlq	$6, %r13
	testq	%r12, %r12
	movl	%ebx, 224(%rsp)
	je	24f
	cmpl	%edx, -8(%r14,%r13)
	movq	32(%rsp), %rcx
	jne	3b
	cmpb	-3(%r14,%r13), %bl
	jne	3b
	movq	%rdi, 16(%rsp)
	movq	%rsi, 40(%rsp)
	movq	-24(%r14,%r13), %rax
	movq	-16(%r14,%r13), %rsi
	cmpb	$0, -32(%r14,%r13)
	leaq	8(%rsp,%rax), %rdi
	cmoveq	%rax, %rdi
	testq	%rsi, %rsi
	je	25f
	testq	%rbp, %rbp
	je	26f
	movzbl	-1(%rdi,%rsi), %eax
	movl	%edx, %ebx
	movq	24(%rsp), %rdx
	cmpb	-1(%rdx,%rbp), %al
	movl	%ebx, %edx
	jne	26f
23:
	movl	%edx, 88(%rsp)
	movq	24(%rsp), %rdx
	movq	%rbp, %rcx
	movq	%r9, %rbx
	movq	%r10, 56(%rsp)
	movq	%r11, 96(%rsp)
	callq	"mime_names::indexed_rules::is_equal"
	movl	88(%rsp), %edx
	movq	32(%rsp), %rcx
	movq	96(%rsp), %r11
	movq	56(%rsp), %r10
	movq	%rbx, %r9
	movq	80(%rsp), %r8
	movl	%eax, %ebx
	jmp	27f
24:
	xorl	%ebx, %ebx
	movq	32(%rsp), %rcx
	jmp	4b
25:
	testq	%rbp, %rbp
	je	23b
26:
	xorl	%ebx, %ebx
27:
	movq	40(%rsp), %rsi
	movq	16(%rsp), %rdi
	jmp	4b
28:
	movq	%r12, 104(%rsp)
	movq	%r15, 256(%rsp)
	movq	%rbx, 112(%rsp)
	xorl	%r12d, %r12d
	xorl	%r11d, %r11d
29:
	movq	%r14, 768(%rsp)
	movq	%r12, 776(%rsp)
	movq	%r11, 784(%rsp)
	leaq	8(%rsp), %rax
	movq	%rax, 792(%rsp)
	xorps	%xmm0, %xmm0
	movaps	%xmm0, 800(%rsp)
	leaq	1168(%rsp), %rdi
	leaq	768(%rsp), %rsi
	callq	"mime_names::index::NameIndex::new"
	cmpb	$0, 1168(%rsp)
	je	35f
	cmpq	$0, 120(%rsp)
	je	30f
	movq	176(%rsp), %rdi
	callq	rattle_dealloc@PLT
30:
	cmpq	$0, 128(%rsp)
	movq	104(%rsp), %r14
	je	31f
	movq	184(%rsp), %rdi
	callq	rattle_dealloc@PLT
31:
	cmpq	$0, 136(%rsp)
	movq	112(%rsp), %rbx
	je	32f
	movq	192(%rsp), %rdi
	callq	rattle_dealloc@PLT
32:
	cmpq	$0, 144(%rsp)
	je	33f
	movq	200(%rsp), %rdi
	callq	rattle_dealloc@PLT
33:
	cmpq	$0, 152(%rsp)
	je	34f
	movq	208(%rsp), %rdi
	callq	rattle_dealloc@PLT
34:
	cmpq	$0, 160(%rsp)
	je	72f
	movq	%r14, %rdi
	jmp	71f
35:
	leaq	1176(%rsp), %rbx
	leaq	1760(%rsp), %r14
	leaq	568(%rsp), %rsi
	movl	$200, %edx
	movq	%r14, %rdi
	callq	memcpy@PLT
	movaps	1152(%rsp), %xmm0
	movups	%xmm0, 1960(%rsp)
	leaq	2400(%rsp), %rbp
	movl	$176, %edx
	movq	%rbp, %rdi
	movq	%rbx, %rsi
	callq	memcpy@PLT
	leaq	2176(%rsp), %r15
	movl	$216, %edx
	movq	%r15, %rdi
	movq	%r14, %rsi
	callq	memcpy@PLT
	leaq	1568(%rsp), %rdi
	leaq	1984(%rsp), %rsi
	movl	$184, %edx
	callq	memcpy@PLT
	movq	560(%rsp), %r12
	movzbl	200(%r12), %r14d
	movq	216(%r12), %rax
	movq	%rax, 376(%rsp)
	movq	232(%r12), %rax
	movq	%rax, 544(%rsp)
	movq	240(%r12), %rax
	movq	%rax, 384(%rsp)
	movq	256(%r12), %rax
	movq	%rax, 552(%rsp)
	movq	264(%r12), %rax
	movq	%rax, 392(%rsp)
	movq	280(%r12), %rax
	movq	%rax, 96(%rsp)
	movq	288(%r12), %rax
	movq	%rax, 408(%rsp)
	movq	304(%r12), %rax
	movq	%rax, 128(%rsp)
	movq	312(%r12), %rax
	movq	%rax, 424(%rsp)
	movq	328(%r12), %rax
	movq	%rax, 144(%rsp)
	movq	336(%r12), %rax
	movq	%rax, 440(%rsp)
	movq	352(%r12), %rax
	movq	%rax, 160(%rsp)
	movq	360(%r12), %rax
	movq	%rax, 456(%rsp)
	movzbl	792(%r12), %eax
	movb	%al, 48(%rsp)
	movq	376(%r12), %rax
	movq	%rax, 88(%rsp)
	movq	408(%r12), %rax
	movq	%rax, 400(%rsp)
	movq	424(%r12), %rax
	movq	%rax, 120(%rsp)
	movq	432(%r12), %rax
	movq	%rax, 416(%rsp)
	movq	448(%r12), %rax
	movq	%rax, 136(%rsp)
	movq	456(%r12), %rax
	movq	%rax, 432(%rsp)
	movq	472(%r12), %rax
	movq	%rax, 152(%rsp)
	movq	480(%r12), %rax
	movq	%rax, 448(%rsp)
	movq	496(%r12), %rax
	movq	%rax, 168(%rsp)
	movq	504(%r12), %rax
	movq	%rax, 464(%rsp)
	movq	520(%r12), %rax
	movq	%rax, 80(%rsp)
	movq	528(%r12), %rax
	movq	%rax, 472(%rsp)
	movq	544(%r12), %rax
	movq	%rax, 72(%rsp)
	movq	568(%r12), %rax
	movq	%rax, 480(%rsp)
	movq	584(%r12), %rax
	movq	%rax, 40(%rsp)
	movq	608(%r12), %rax
	movq	%rax, 488(%rsp)
	movq	624(%r12), %rax
	movq	%rax, 56(%rsp)
	movq	632(%r12), %rax
	movq	%rax, 496(%rsp)
	movq	648(%r12), %rax
	movq	%rax, 16(%rsp)
	movq	656(%r12), %rax
	movq	%rax, 504(%rsp)
	movq	672(%r12), %rax
	movq	%rax, 216(%rsp)
	movq	680(%r12), %rax
	movq	%rax, 512(%rsp)
	movq	696(%r12), %rax
	movq	%rax, 224(%rsp)
	movq	704(%r12), %rax
	movq	%rax, 520(%rsp)
	movq	720(%r12), %rax
	movq	%rax, 64(%rsp)
	movq	728(%r12), %rax
	movq	%rax, 528(%rsp)
	movq	744(%r12), %rax
	movq	%rax, 32(%rsp)
	movq	768(%r12), %rax
	movq	%rax, 536(%rsp)
	movq	784(%r12), %rax
	movq	%rax, 24(%rsp)
	movq	800(%r12), %rax
	movq	%rax, 264(%rsp)
	movq	816(%r12), %rax
	movq	%rax, 320(%rsp)
	movq	824(%r12), %rax
	movq	%rax, 272(%rsp)
	movq	840(%r12), %rax
	movq	%rax, 328(%rsp)
	movq	848(%r12), %rax
	movq	%rax, 280(%rsp)
	movq	864(%r12), %rax
	movq	%rax, 336(%rsp)
	movq	872(%r12), %rax
	movq	%rax, 288(%rsp)
	movq	888(%r12), %rax
	movq	%rax, 344(%rsp)
	movq	896(%r12), %rax
	movq	%rax, 296(%rsp)
	movq	912(%r12), %rax
	movq	%rax, 352(%rsp)
	movq	920(%r12), %rax
	movq	%rax, 304(%rsp)
	movq	936(%r12), %rax
	movq	%rax, 360(%rsp)
	movq	944(%r12), %rax
	movq	%rax, 312(%rsp)
	movq	960(%r12), %rax
	movq	%rax, 368(%rsp)
	movq	$1, 200(%r12)
	movq	256(%rsp), %rax
	movq	%rax, 208(%r12)
	leaq	216(%r12), %rdi
	leaq	392(%r12), %r13
	leaq	800(%r12), %rbx
	movl	$176, %edx
	movq	%rbp, %rsi
	callq	memcpy@PLT
	movl	$216, %edx
	movq	%r13, %rdi
	movq	%r15, %rsi
	callq	memcpy@PLT
	movq	176(%rsp), %rax
	movq	%rax, 608(%r12)
	movaps	1136(%rsp), %xmm0
	movups	%xmm0, 616(%r12)
	movq	184(%rsp), %rax
	movq	%rax, 632(%r12)
	movaps	1120(%rsp), %xmm0
	movups	%xmm0, 640(%r12)
	movq	192(%rsp), %rax
	movq	%rax, 656(%r12)
	movaps	1104(%rsp), %xmm0
	movups	%xmm0, 664(%r12)
	movq	200(%rsp), %rax
	movq	%rax, 680(%r12)
	movaps	1088(%rsp), %xmm0
	movups	%xmm0, 688(%r12)
	movq	208(%rsp), %rax
	movq	%rax, 704(%r12)
	movaps	1072(%rsp), %xmm0
	movups	%xmm0, 712(%r12)
	movq	104(%rsp), %rax
	movq	%rax, 728(%r12)
	movaps	1056(%rsp), %xmm0
	movups	%xmm0, 736(%r12)
	movaps	1040(%rsp), %xmm0
	movups	%xmm0, 752(%r12)
	movq	112(%rsp), %rax
	movq	%rax, 768(%r12)
	movaps	1024(%rsp), %xmm0
	movups	%xmm0, 776(%r12)
	movq	$0, 792(%r12)
	movl	$184, %edx
	movq	%rbx, %rdi
	leaq	1568(%rsp), %rsi
	callq	memcpy@PLT
	cmpb	$1, %r14b
	jne	81f
	cmpq	$0, 544(%rsp)
	je	36f
	movq	376(%rsp), %rdi
	callq	rattle_dealloc@PLT
36:
	cmpq	$0, 552(%rsp)
	je	37f
	movq	384(%rsp), %rdi
	callq	rattle_dealloc@PLT
37:
	cmpq	$0, 96(%rsp)
	je	38f
	movq	392(%rsp), %rdi
	callq	rattle_dealloc@PLT
38:
	cmpq	$0, 128(%rsp)
	je	39f
	movq	408(%rsp), %rdi
	callq	rattle_dealloc@PLT
39:
	cmpq	$0, 144(%rsp)
	je	40f
	movq	424(%rsp), %rdi
	callq	rattle_dealloc@PLT
40:
	cmpq	$0, 160(%rsp)
	je	41f
	movq	440(%rsp), %rdi
	callq	rattle_dealloc@PLT
41:
	cmpq	$0, 88(%rsp)
	je	42f
	movq	456(%rsp), %rdi
	callq	rattle_dealloc@PLT
42:
	cmpq	$0, 120(%rsp)
	je	43f
	movq	400(%rsp), %rdi
	callq	rattle_dealloc@PLT
43:
	cmpq	$0, 136(%rsp)
	je	44f
	movq	416(%rsp), %rdi
	callq	rattle_dealloc@PLT
44:
	cmpq	$0, 152(%rsp)
	je	45f
	movq	432(%rsp), %rdi
	callq	rattle_dealloc@PLT
45:
	cmpq	$0, 168(%rsp)
	je	46f
	movq	448(%rsp), %rdi
	callq	rattle_dealloc@PLT
46:
	cmpq	$0, 80(%rsp)
	je	47f
	movq	464(%rsp), %rdi
	callq	rattle_dealloc@PLT
47:
	cmpq	$0, 72(%rsp)
	je	48f
	movq	472(%rsp), %rdi
	callq	rattle_dealloc@PLT
48:
	cmpq	$0, 40(%rsp)
	je	49f
	movq	480(%rsp), %rdi
	callq	rattle_dealloc@PLT
49:
	cmpq	$0, 56(%rsp)
	je	50f
	movq	488(%rsp), %rdi
	callq	rattle_dealloc@PLT
50:
	cmpq	$0, 16(%rsp)
	je	51f
	movq	496(%rsp), %rdi
	callq	rattle_dealloc@PLT
51:
	cmpq	$0, 216(%rsp)
	je	52f
	movq	504(%rsp), %rdi
	callq	rattle_dealloc@PLT
52:
	cmpq	$0, 224(%rsp)
	je	53f
	movq	512(%rsp), %rdi
	callq	rattle_dealloc@PLT
53:
	cmpq	$0, 64(%rsp)
	je	54f
	movq	520(%rsp), %rdi
	callq	rattle_dealloc@PLT
54:
	cmpq	$0, 32(%rsp)
	je	55f
	movq	528(%rsp), %rdi
	callq	rattle_dealloc@PLT
55:
	cmpq	$0, 24(%rsp)
	je	56f
	movq	536(%rsp), %rdi
	callq	rattle_dealloc@PLT
56:
	cmpb	$1, 48(%rsp)
	jne	81f
	cmpq	$0, 320(%rsp)
	je	57f
	movq	264(%rsp), %rdi
	callq	rattle_dealloc@PLT
57:
	cmpq	$0, 328(%rsp)
	je	58f
	movq	272(%rsp), %rdi
	callq	rattle_dealloc@PLT
58:
	cmpq	$0, 336(%rsp)
	je	59f
	movq	280(%rsp), %rdi
	callq	rattle_dealloc@PLT
59:
	cmpq	$0, 344(%rsp)
	je	60f
	movq	288(%rsp), %rdi
	callq	rattle_dealloc@PLT
60:
	cmpq	$0, 352(%rsp)
	je	61f
	movq	296(%rsp), %rdi
	callq	rattle_dealloc@PLT
61:
	cmpq	$0, 360(%rsp)
	je	62f
	movq	304(%rsp), %rdi
	callq	rattle_dealloc@PLT
62:
	cmpq	$0, 368(%rsp)
	je	81f
	movq	312(%rsp), %rdi
	jmp	80f
63:
	cmpq	$0, 248(%rsp)
	je	64f
	movq	232(%rsp), %rdi
	callq	rattle_dealloc@PLT
64:
	movq	112(%rsp), %rbx
	movq	104(%rsp), %r12
65:
	cmpq	$0, 120(%rsp)
	je	66f
	movq	176(%rsp), %rdi
	callq	rattle_dealloc@PLT
66:
	cmpq	$0, 128(%rsp)
	je	67f
	movq	184(%rsp), %rdi
	callq	rattle_dealloc@PLT
67:
	cmpq	$0, 136(%rsp)
	je	68f
	movq	192(%rsp), %rdi
	callq	rattle_dealloc@PLT
68:
	cmpq	$0, 144(%rsp)
	je	69f
	movq	200(%rsp), %rdi
	callq	rattle_dealloc@PLT
69:
	cmpq	$0, 152(%rsp)
	je	70f
	movq	208(%rsp), %rdi
	callq	rattle_dealloc@PLT
70:
	cmpq	$0, 160(%rsp)
	je	72f
	movq	%r12, %rdi
71:
	callq	rattle_dealloc@PLT
72:
	cmpq	$0, 168(%rsp)
	je	73f
	movq	%rbx, %rdi
	callq	rattle_dealloc@PLT
73:
	movq	608(%rsp), %r13
	movq	624(%rsp), %rbp
	movq	632(%rsp), %r12
	movq	648(%rsp), %r15
	movq	656(%rsp), %rax
	movq	%rax, 64(%rsp)
	movq	672(%rsp), %r14
	movq	680(%rsp), %rax
	movq	%rax, 32(%rsp)
	movq	696(%rsp), %rbx
	movq	704(%rsp), %rax
	movq	%rax, 24(%rsp)
	movq	720(%rsp), %rax
	movq	%rax, 48(%rsp)
	cmpq	$0, 600(%rsp)
	je	74f
	movq	584(%rsp), %rdi
	callq	rattle_dealloc@PLT
74:
	testq	%rbp, %rbp
	je	75f
	movq	%r13, %rdi
	callq	rattle_dealloc@PLT
75:
	testq	%r15, %r15
	je	76f
	movq	%r12, %rdi
	callq	rattle_dealloc@PLT
76:
	testq	%r14, %r14
	je	77f
	movq	64(%rsp), %rdi
	callq	rattle_dealloc@PLT
77:
	testq	%rbx, %rbx
	je	78f
	movq	32(%rsp), %rdi
	callq	rattle_dealloc@PLT
78:
	cmpq	$0, 48(%rsp)
	je	79f
	movq	24(%rsp), %rdi
	callq	rattle_dealloc@PLT
79:
	cmpq	$0, 760(%rsp)
	je	81f
	movq	744(%rsp), %rdi
80:
	callq	rattle_dealloc@PLT
81:
	addq	$2584, %rsp
	popq	%rbx
	popq	%r12
	popq	%r13
	popq	%r14
	popq	%r15
	popq	%rbp
	retq
82:
	.size	"mime_tool::preparing::Prepared::make_index", 82b-"mime_tool::preparing::Prepared::make_index"

	.section	.rodata.cst16,"aM",@progbits,16
	.p2align	4, 0x0
1:
	.byte	3,2,1,0,7,6,5,4,11,10,9,8,15,14,13,12
2:
	.byte	42,42,42,42,42,42,42,42
	.zero	1
	.zero	1
	.zero	1
	.zero	1
	.zero	1
	.zero	1
	.zero	1
	.zero	1
3:
	.byte	63,63,63,63,63,63,63,63
	.zero	1
	.zero	1
	.zero	1
	.zero	1
	.zero	1
	.zero	1
	.zero	1
	.zero	1
4:
	.byte	92,92,92,92,92,92,92,92
	.zero	1
	.zero	1
	.zero	1
	.zero	1
	.zero	1
	.zero	1
	.zero	1
	.zero	1
5:
	.byte	91,91,91,91,91,91,91,91
	.zero	1
	.zero	1
	.zero	1
	.zero	1
	.zero	1
	.zero	1
	.zero	1
	.zero	1
	.text
	.p2align	4
	.type	"mime_tool::preparing::Prepared::prepare",@function
"mime_tool::preparing::Prepared::prepare":
	pushq	%rbp
	pushq	%r15
	pushq	%r14
	pushq	%r13
	pushq	%r12
	pushq	%rbx
	subq	$2200, %rsp
	movl	$0, 275(%rsp)
	movl	$0, 272(%rsp)
	movl	$0, 264(%rsp)
	movl	$0, 267(%rsp)
	movl	$0, 256(%rsp)
	movl	$0, 259(%rsp)
	movl	$0, 248(%rsp)
	movl	$0, 251(%rsp)
	pxor	%xmm0, %xmm0
	movdqa	%xmm0, 2032(%rsp)
	movdqa	%xmm0, 2048(%rsp)
	movdqa	%xmm0, 2064(%rsp)
	movdqa	%xmm0, 2080(%rsp)
	movdqa	%xmm0, 2096(%rsp)
	movdqa	%xmm0, 2112(%rsp)
	movdqa	%xmm0, 2128(%rsp)
	movdqa	%xmm0, 2144(%rsp)
	movq	$0, 2160(%rsp)
	testb	%sil, %sil
	je	12f
	movzbl	%sil, %eax
	cmpl	$1, %eax
	jne	13f
	cmpb	$3, 50(%rdi)
	jne	15f
	cmpb	$0, (%rdi)
	jne	92f
	movq	%rdi, %r15
	movq	8(%rdi), %rbx
	movdqa	%xmm0, 464(%rsp)
	movdqa	%xmm0, 480(%rsp)
	movdqa	%xmm0, 496(%rsp)
	movdqa	%xmm0, 512(%rsp)
	movdqa	%xmm0, 528(%rsp)
	movdqa	%xmm0, 544(%rsp)
	movdqa	%xmm0, 560(%rsp)
	movdqa	%xmm0, 576(%rsp)
	movdqa	%xmm0, 592(%rsp)
	movdqa	%xmm0, 608(%rsp)
	movdqa	%xmm0, 624(%rsp)
	movdqa	%xmm0, 640(%rsp)
	movdqa	%xmm0, 656(%rsp)
	movdqa	%xmm0, 1424(%rsp)
	movdqa	%xmm0, 1440(%rsp)
	movdqa	%xmm0, 1456(%rsp)
	movdqa	%xmm0, 1472(%rsp)
	movdqa	%xmm0, 1488(%rsp)
	movdqa	%xmm0, 1504(%rsp)
	movdqa	%xmm0, 1520(%rsp)
	movdqa	%xmm0, 1536(%rsp)
	movdqa	%xmm0, 1552(%rsp)
	movdqa	%xmm0, 1568(%rsp)
	movdqa	%xmm0, 1584(%rsp)
	movdqa	%xmm0, 1600(%rsp)
	movq	24(%rbx), %rsi
	movq	32(%rbx), %rdx
	leaq	464(%rsp), %rdi
	callq	"mime_lookup::places::places_of"
	cmpb	$0, 464(%rsp)
	jne	92f
	movq	488(%rsp), %rax
	movq	%rax, 152(%rsp)
	movq	504(%rsp), %r14
	movaps	496(%rsp), %xmm0
	movaps	%xmm0, 112(%rsp)
	movq	512(%rsp), %r13
	movq	528(%rsp), %rax
	movq	%rax, 96(%rsp)
	movups	520(%rsp), %xmm0
	movaps	%xmm0, 160(%rsp)
	movq	536(%rsp), %rbp
	movq	552(%rsp), %rax
	movq	%rax, 48(%rsp)
	movaps	544(%rsp), %xmm0
	movaps	%xmm0, 192(%rsp)
	movq	560(%rsp), %r12
	movq	576(%rsp), %rax
	movq	%rax, 32(%rsp)
	movups	568(%rsp), %xmm0
	movaps	%xmm0, 128(%rsp)
	movq	584(%rsp), %rax
	movq	%rax, 144(%rsp)
	movq	600(%rsp), %rax
	movq	%rax, 40(%rsp)
	movaps	592(%rsp), %xmm0
	movaps	%xmm0, 352(%rsp)
	movq	608(%rsp), %rax
	movq	%rax, 16(%rsp)
	movq	624(%rsp), %rax
	movq	%rax, (%rsp)
	movups	616(%rsp), %xmm0
	movaps	%xmm0, 336(%rsp)
	movups	632(%rsp), %xmm0
	movaps	%xmm0, 224(%rsp)
	movq	648(%rsp), %rax
	movq	%rax, 8(%rsp)
	movq	664(%rsp), %rax
	movq	%rax, 56(%rsp)
	movdqa	656(%rsp), %xmm0
	movdqa	%xmm0, 176(%rsp)
	movq	72(%rbx), %rsi
	movq	80(%rbx), %rdx
	leaq	1424(%rsp), %rdi
	callq	"mime_lookup::indexed::prepared_magic::magic_of"
	cmpb	$0, 1424(%rsp)
	je	26f
	movq	152(%rsp), %rdi
	movq	%r12, 112(%rsp)
	movq	144(%rsp), %r12
	movq	16(%rsp), %r15
	movq	8(%rsp), %rbx
	testq	%r14, %r14
	je	6f
	callq	rattle_dealloc@PLT
6:
	cmpq	$0, 96(%rsp)
	movq	%r15, %r14
	je	7f
	movq	%r13, %rdi
	callq	rattle_dealloc@PLT
7:
	cmpq	$0, 48(%rsp)
	je	8f
	movq	%rbp, %rdi
	callq	rattle_dealloc@PLT
8:
	cmpq	$0, 32(%rsp)
	movq	112(%rsp), %rdi
	je	9f
	callq	rattle_dealloc@PLT
9:
	cmpq	$0, 40(%rsp)
	je	10f
	movq	%r12, %rdi
	callq	rattle_dealloc@PLT
10:
	cmpq	$0, (%rsp)
	je	11f
	movq	%r14, %rdi
	callq	rattle_dealloc@PLT
11:
	cmpq	$0, 56(%rsp)
	je	92f
	movq	%rbx, %rdi
	jmp	40f
12:
	addq	$2200, %rsp
	popq	%rbx
	popq	%r12
	popq	%r13
	popq	%r14
	popq	%r15
	popq	%rbp
	jmp	"mime_tool::preparing::Prepared::make_index"
13:
	movl	%edx, 56(%rsp)
	movzbl	56(%rdi), %r12d
	movzbl	64(%rdi), %eax
	movb	%al, 32(%rsp)
	movzbl	65(%rdi), %eax
	movl	%eax, (%rsp)
	movzwl	66(%rdi), %r14d
	movzwl	68(%rdi), %r10d
	movzwl	70(%rdi), %r9d
	movq	72(%rdi), %r13
	movq	80(%rdi), %xmm2
	movq	88(%rdi), %rax
	movq	%rax, 144(%rsp)
	movl	96(%rdi), %ebx
	movdqu	100(%rdi), %xmm0
	movdqu	116(%rdi), %xmm1
	movl	132(%rdi), %ecx
	movzbl	136(%rdi), %eax
	movq	%rax, 8(%rsp)
	movl	140(%rdi), %eax
	movl	%eax, 275(%rsp)
	movl	137(%rdi), %eax
	movl	%eax, 272(%rsp)
	movq	144(%rdi), %rax
	movq	%rax, 16(%rsp)
	movzbl	152(%rdi), %eax
	movq	%rax, 40(%rsp)
	movl	156(%rdi), %eax
	movl	%eax, 267(%rsp)
	movl	153(%rdi), %eax
	movl	%eax, 264(%rsp)
	movq	160(%rdi), %rax
	movq	%rax, 152(%rsp)
	movzbl	168(%rdi), %edx
	movl	172(%rdi), %eax
	movl	%eax, 259(%rsp)
	movl	169(%rdi), %eax
	movl	%eax, 256(%rsp)
	movq	176(%rdi), %r15
	movzbl	184(%rdi), %r11d
	movl	188(%rdi), %eax
	movl	%eax, 251(%rsp)
	movl	185(%rdi), %eax
	movl	%eax, 248(%rsp)
	xorps	%xmm3, %xmm3
	movq	192(%rdi), %r8
	movups	%xmm3, 56(%rdi)
	movups	%xmm3, 72(%rdi)
	movups	%xmm3, 88(%rdi)
	movups	%xmm3, 104(%rdi)
	movups	%xmm3, 120(%rdi)
	movups	%xmm3, 136(%rdi)
	movups	%xmm3, 152(%rdi)
	movups	%xmm3, 168(%rdi)
	movups	%xmm3, 184(%rdi)
	movzbl	(%rdi), %ebp
	movq	24(%rdi), %rsi
	movq	32(%rdi), %rax
	movaps	%xmm3, 1248(%rsp)
	movaps	%xmm3, 1264(%rsp)
	movaps	%xmm3, 1280(%rsp)
	movaps	%xmm3, 1296(%rsp)
	movaps	%xmm3, 1312(%rsp)
	movaps	%xmm3, 1328(%rsp)
	movaps	%xmm3, 1344(%rsp)
	movaps	%xmm3, 1360(%rsp)
	movq	$0, 1376(%rsp)
	cmpb	$1, %r12b
	jne	22f
	movl	272(%rsp), %eax
	movl	275(%rsp), %esi
	movl	%esi, 307(%rsp)
	movl	%eax, 304(%rsp)
	movl	264(%rsp), %eax
	movl	267(%rsp), %esi
	movl	%eax, 296(%rsp)
	movl	%esi, 299(%rsp)
	movl	256(%rsp), %eax
	movl	259(%rsp), %esi
	movl	%eax, 288(%rsp)
	movl	%esi, 291(%rsp)
	movl	248(%rsp), %eax
	movl	251(%rsp), %esi
	movl	%eax, 280(%rsp)
	movl	%esi, 283(%rsp)
	movl	$1, %r12d
	movl	%ecx, %ebp
	movl	(%rsp), %ecx
	movq	40(%rsp), %rsi
	movzbl	32(%rsp), %eax
14:
	movb	%al, 1248(%rsp)
	movb	%cl, 1249(%rsp)
	movw	%r14w, 1250(%rsp)
	movw	%r10w, 1252(%rsp)
	movw	%r9w, 1254(%rsp)
	movq	%r13, 1256(%rsp)
	movq	%xmm2, 1264(%rsp)
	movq	144(%rsp), %rax
	movq	%rax, 1272(%rsp)
	movl	%ebx, 1280(%rsp)
	movdqu	%xmm0, 1284(%rsp)
	movdqu	%xmm1, 1300(%rsp)
	movl	%ebp, 1316(%rsp)
	movq	8(%rsp), %rax
	movb	%al, 1320(%rsp)
	movl	304(%rsp), %eax
	movl	%eax, 1321(%rsp)
	movl	307(%rsp), %eax
	movl	%eax, 1324(%rsp)
	movq	16(%rsp), %rax
	movq	%rax, 1328(%rsp)
	movb	%sil, 1336(%rsp)
	movl	299(%rsp), %eax
	movl	%eax, 1340(%rsp)
	movl	296(%rsp), %eax
	movl	%eax, 1337(%rsp)
	movq	152(%rsp), %rax
	movq	%rax, 1344(%rsp)
	movb	%dl, 1352(%rsp)
	movl	288(%rsp), %eax
	movl	%eax, 1353(%rsp)
	movl	291(%rsp), %eax
	movl	%eax, 1356(%rsp)
	movq	%r15, 1360(%rsp)
	movb	%r11b, 1368(%rsp)
	movl	280(%rsp), %eax
	movl	%eax, 1369(%rsp)
	movl	283(%rsp), %eax
	movl	%eax, 1372(%rsp)
	movq	%rdi, 152(%rsp)
	leaq	64(%rdi), %rbx
	movq	%r8, 1376(%rsp)
	leaq	1248(%rsp), %rax
	cmpb	$0, 56(%rsp)
	movq	%rbx, 144(%rsp)
	je	24f
	pxor	%xmm0, %xmm0
	movdqa	%xmm0, 1184(%rsp)
	movq	$0, 1200(%rsp)
	movdqa	%xmm0, 864(%rsp)
	movq	$0, 880(%rsp)
	movq	%rax, 1664(%rsp)
	movq	$0, 1432(%rsp)
	movq	%r13, 1440(%rsp)
	movq	%r13, 1448(%rsp)
	movdqa	%xmm0, 496(%rsp)
	movdqa	%xmm0, 480(%rsp)
	movdqa	%xmm0, 464(%rsp)
	movq	$0, 512(%rsp)
	movq	%r12, 1424(%rsp)
	cmpq	$40, %r13
	jb	85f
	cmpq	$268435456, %r13
	ja	85f
	movq	1248(%rsp), %rax
	cmpl	$33554688, (%rax)
	jne	85f
	movl	24(%rax), %edx
	bswapl	%edx
	leaq	464(%rsp), %rdi
	leaq	1664(%rsp), %rsi
	leaq	1424(%rsp), %rcx
	callq	"mime_load::sections::magic_at"
	cmpb	$0, 464(%rsp)
	jne	85f
	movq	472(%rsp), %r12
	movq	480(%rsp), %rax
	movq	%rax, 8(%rsp)
	movq	488(%rsp), %r14
	movq	496(%rsp), %rax
	movq	%rax, (%rsp)
	movq	504(%rsp), %rbp
	movq	512(%rsp), %r15
	pxor	%xmm0, %xmm0
	movdqa	%xmm0, 1024(%rsp)
	movq	$0, 1040(%rsp)
	testq	%rbp, %rbp
	je	41f
	movabsq	$230584300921369396, %rax
	cmpq	%rax, %rbp
	jae	80f
	leaq	(,%rbp,8), %rax
	leaq	(%rax,%rax,4), %rdi
	movl	$8, %esi
	callq	rattle_alloc@PLT
	testb	$1, %al
	jne	42f
	jmp	80f
15:
	movq	%rdi, %rbx
	callq	"mime_tool::preparing::Prepared::make_index"
	cmpb	$1, 200(%rbx)
	jne	92f
	pxor	%xmm0, %xmm0
	movdqa	%xmm0, 640(%rsp)
	movdqa	%xmm0, 624(%rsp)
	movdqa	%xmm0, 608(%rsp)
	movdqa	%xmm0, 592(%rsp)
	movdqa	%xmm0, 576(%rsp)
	movdqa	%xmm0, 560(%rsp)
	movdqa	%xmm0, 544(%rsp)
	movdqa	%xmm0, 528(%rsp)
	movdqa	%xmm0, 512(%rsp)
	movdqa	%xmm0, 496(%rsp)
	movdqa	%xmm0, 480(%rsp)
	movdqa	%xmm0, 464(%rsp)
	movq	208(%rbx), %rax
	movq	72(%rax), %rsi
	movq	80(%rax), %rdx
	leaq	464(%rsp), %rdi
	callq	"mime_lookup::indexed::prepared_magic::magic_of"
	cmpb	$0, 464(%rsp)
	jne	92f
	movq	%rbx, %rax
	movzbl	792(%rbx), %ebp
	movq	800(%rbx), %rbx
	movq	816(%rax), %r14
	movq	824(%rax), %rcx
	movq	%rcx, 48(%rsp)
	movq	840(%rax), %r13
	movq	848(%rax), %rcx
	movq	%rcx, 32(%rsp)
	movq	864(%rax), %r15
	movq	872(%rax), %rcx
	movq	%rcx, 40(%rsp)
	movq	888(%rax), %r12
	movq	896(%rax), %rcx
	movq	%rcx, (%rsp)
	movq	912(%rax), %rcx
	movq	%rcx, 16(%rsp)
	movq	920(%rax), %rcx
	movq	%rcx, 56(%rsp)
	movq	936(%rax), %rcx
	movq	%rcx, 144(%rsp)
	movq	944(%rax), %rcx
	movq	%rcx, 8(%rsp)
	movq	960(%rax), %rcx
	movq	%rcx, 152(%rsp)
	movq	$1, 792(%rax)
	leaq	800(%rax), %rdi
	leaq	472(%rsp), %rsi
	movl	$184, %edx
	callq	memcpy@PLT
	cmpb	$1, %bpl
	jne	92f
	testq	%r14, %r14
	je	16f
	movq	%rbx, %rdi
	callq	rattle_dealloc@PLT
16:
	testq	%r13, %r13
	je	17f
	movq	48(%rsp), %rdi
	callq	rattle_dealloc@PLT
17:
	testq	%r15, %r15
	je	18f
	movq	32(%rsp), %rdi
	callq	rattle_dealloc@PLT
18:
	testq	%r12, %r12
	je	19f
	movq	40(%rsp), %rdi
	callq	rattle_dealloc@PLT
19:
	cmpq	$0, 16(%rsp)
	je	20f
	movq	(%rsp), %rdi
	callq	rattle_dealloc@PLT
20:
	cmpq	$0, 144(%rsp)
	je	21f
	movq	56(%rsp), %rdi
	callq	rattle_dealloc@PLT
21:
	cmpq	$0, 152(%rsp)
	je	92f
	movq	8(%rsp), %rdi
	jmp	40f
22:
	cmpb	$3, %bpl
	setne	%cl
	cmpq	$40, %rax
	setb	%r8b
	orb	%cl, %r8b
	jne	23f
	cmpl	$33554688, (%rsi)
	setne	%cl
	cmpq	$268435457, %rax
	setae	%r8b
	orb	%cl, %r8b
	je	25f
23:
	addq	$56, %rdi
	pxor	%xmm0, %xmm0
	movdqu	%xmm0, 128(%rdi)
	movdqu	%xmm0, 112(%rdi)
	movdqu	%xmm0, 96(%rdi)
	movdqu	%xmm0, 80(%rdi)
	movdqu	%xmm0, 64(%rdi)
	movdqu	%xmm0, 48(%rdi)
	movdqu	%xmm0, 32(%rdi)
	movdqu	%xmm0, 16(%rdi)
	movdqu	%xmm0, (%rdi)
	jmp	92f
24:
	movq	%rax, 1184(%rsp)
	movq	$0, 872(%rsp)
	movq	%r13, 880(%rsp)
	movq	%r13, 888(%rsp)
	pxor	%xmm0, %xmm0
	movdqa	%xmm0, 1664(%rsp)
	movdqa	%xmm0, 1680(%rsp)
	movdqa	%xmm0, 464(%rsp)
	movdqa	%xmm0, 480(%rsp)
	movdqa	%xmm0, 496(%rsp)
	movq	$0, 512(%rsp)
	movdqa	%xmm0, 1024(%rsp)
	movdqa	%xmm0, 1040(%rsp)
	movq	%r12, 864(%rsp)
	cmpq	$40, %r13
	jb	85f
	cmpq	$268435456, %r13
	ja	85f
	movq	1248(%rsp), %rax
	cmpl	$33554688, (%rax)
	jne	85f
	movl	16(%rax), %ebx
	movl	20(%rax), %ebp
	movl	12(%rax), %r15d
	movl	4(%rax), %edx
	movdqa	%xmm0, 1440(%rsp)
	movdqa	%xmm0, 1424(%rsp)
	bswapl	%edx
	leaq	1424(%rsp), %rdi
	leaq	1184(%rsp), %rsi
	leaq	864(%rsp), %rcx
	callq	"mime_load::pairs::pairs_at"
	cmpb	$0, 1424(%rsp)
	jne	85f
	shlq	$32, %r15
	orq	%rbx, %r15
	bswapq	%r15
	movq	1432(%rsp), %rbx
	movq	1440(%rsp), %r12
	movq	1448(%rsp), %r14
	leaq	1664(%rsp), %rdi
	leaq	1184(%rsp), %rsi
	leaq	864(%rsp), %rcx
	movl	%r15d, %edx
	callq	"mime_load::rules::literals_at"
	cmpb	$0, 1664(%rsp)
	jne	69f
	movq	%r12, 8(%rsp)
	shrq	$32, %r15
	movq	1672(%rsp), %rax
	movq	%rax, 16(%rsp)
	movq	1680(%rsp), %r13
	movq	1688(%rsp), %r12
	leaq	464(%rsp), %rdi
	leaq	1184(%rsp), %rsi
	leaq	864(%rsp), %rcx
	movl	%r15d, %edx
	callq	"mime_load::suffix_tree::leaves_at"
	cmpb	$0, 464(%rsp)
	je	64f
	testq	%r12, %r12
	jne	67f
	jmp	69f
25:
	movdqu	4(%rsi), %xmm0
	movdqu	20(%rsi), %xmm1
	movdqa	1b(%rip), %xmm2
	pshufb	%xmm2, %xmm0
	movl	36(%rsi), %ebp
	bswapl	%ebp
	pshufb	%xmm2, %xmm1
	movq	%rsi, %r9
	shrq	$48, %r9
	movq	%rsi, %r10
	shrq	$32, %r10
	movl	%esi, %r14d
	shrl	$16, %r14d
	movl	$0, 307(%rsp)
	movl	$0, 304(%rsp)
	movl	$0, 296(%rsp)
	movl	$0, 299(%rsp)
	movl	$0, 288(%rsp)
	movl	$0, 291(%rsp)
	movl	$0, 280(%rsp)
	movl	$0, 283(%rsp)
	movd	%esi, %xmm2
	movl	%esi, %ecx
	pinsrw	$1, %r14d, %xmm2
	pinsrw	$2, %r10d, %xmm2
	shrl	$8, %ecx
	pinsrw	$3, %r9d, %xmm2
	movl	$2, %r12d
	movl	$65538, %ebx
	xorl	%r8d, %r8d
	xorl	%r11d, %r11d
	xorl	%r15d, %r15d
	xorl	%edx, %edx
	movq	$0, 152(%rsp)
	movq	%rax, 144(%rsp)
	movq	%rax, %r13
	movl	%esi, %eax
	xorl	%esi, %esi
	movq	$0, 16(%rsp)
	movq	$0, 8(%rsp)
	jmp	14b
26:
	leaq	1432(%rsp), %rsi
	movups	472(%rsp), %xmm0
	movaps	%xmm0, 1024(%rsp)
	leaq	1664(%rsp), %rdi
	movl	$184, %edx
	callq	memcpy@PLT
	movq	%r15, %rax
	movzbl	984(%r15), %r14d
	movq	1016(%r15), %rcx
	movq	%rcx, 368(%rsp)
	movq	1032(%r15), %r15
	movq	1040(%rax), %rcx
	movq	%rcx, 376(%rsp)
	movq	1056(%rax), %rcx
	movq	%rcx, 328(%rsp)
	movq	1064(%rax), %rcx
	movq	%rcx, 384(%rsp)
	movq	1080(%rax), %rcx
	movq	%rcx, 216(%rsp)
	movq	1088(%rax), %rcx
	movq	%rcx, 392(%rsp)
	movq	1104(%rax), %rcx
	movq	%rcx, 848(%rsp)
	movq	1112(%rax), %rcx
	movq	%rcx, 400(%rsp)
	movq	1128(%rax), %rcx
	movq	%rcx, 88(%rsp)
	movq	1136(%rax), %rcx
	movq	%rcx, 408(%rsp)
	movq	1152(%rax), %rcx
	movq	%rcx, 80(%rsp)
	movq	1176(%rax), %rcx
	movq	%rcx, 416(%rsp)
	movq	1192(%rax), %rcx
	movq	%rcx, 72(%rsp)
	movq	1200(%rax), %rcx
	movq	%rcx, 432(%rsp)
	movq	1216(%rax), %rcx
	movq	%rcx, 64(%rsp)
	movq	1224(%rax), %rcx
	movq	%rcx, 440(%rsp)
	movq	1240(%rax), %rcx
	movq	%rcx, 96(%rsp)
	movq	1248(%rax), %rcx
	movq	%rcx, 448(%rsp)
	movq	1264(%rax), %rcx
	movq	%rcx, 48(%rsp)
	movq	1272(%rax), %rcx
	movq	%rcx, 456(%rsp)
	movq	1288(%rax), %rcx
	movq	%rcx, 32(%rsp)
	movq	1296(%rax), %rcx
	movq	%rcx, 312(%rsp)
	movq	1312(%rax), %rcx
	movq	%rcx, 40(%rsp)
	movq	1320(%rax), %rcx
	movq	%rcx, 320(%rsp)
	movq	1336(%rax), %rcx
	movq	%rcx, (%rsp)
	movq	1344(%rax), %rcx
	movq	%rcx, 424(%rsp)
	movq	1360(%rax), %rcx
	movq	%rcx, 56(%rsp)
	movq	$1, 984(%rax)
	movq	%rbx, 992(%rax)
	movaps	1024(%rsp), %xmm0
	movups	%xmm0, 1000(%rax)
	movq	152(%rsp), %rcx
	movq	%rcx, 1016(%rax)
	movaps	112(%rsp), %xmm0
	movups	%xmm0, 1024(%rax)
	movq	%r13, 1040(%rax)
	movaps	160(%rsp), %xmm0
	movups	%xmm0, 1048(%rax)
	movq	%rbp, 1064(%rax)
	movaps	192(%rsp), %xmm0
	movups	%xmm0, 1072(%rax)
	movq	%r12, 1088(%rax)
	movaps	128(%rsp), %xmm0
	movups	%xmm0, 1096(%rax)
	movq	144(%rsp), %rcx
	movq	%rcx, 1112(%rax)
	movaps	352(%rsp), %xmm0
	movups	%xmm0, 1120(%rax)
	movq	16(%rsp), %rcx
	movq	%rcx, 1136(%rax)
	movaps	336(%rsp), %xmm0
	movups	%xmm0, 1144(%rax)
	movaps	224(%rsp), %xmm0
	movups	%xmm0, 1160(%rax)
	movq	8(%rsp), %rcx
	movq	%rcx, 1176(%rax)
	movdqa	176(%rsp), %xmm0
	movdqu	%xmm0, 1184(%rax)
	leaq	1200(%rax), %rdi
	movl	$184, %edx
	leaq	1664(%rsp), %rsi
	callq	memcpy@PLT
	cmpb	$1, %r14b
	jne	92f
	testq	%r15, %r15
	je	27f
	movq	368(%rsp), %rdi
	callq	rattle_dealloc@PLT
27:
	cmpq	$0, 328(%rsp)
	je	28f
	movq	376(%rsp), %rdi
	callq	rattle_dealloc@PLT
28:
	cmpq	$0, 216(%rsp)
	je	29f
	movq	384(%rsp), %rdi
	callq	rattle_dealloc@PLT
29:
	cmpq	$0, 848(%rsp)
	je	30f
	movq	392(%rsp), %rdi
	callq	rattle_dealloc@PLT
30:
	cmpq	$0, 88(%rsp)
	je	31f
	movq	400(%rsp), %rdi
	callq	rattle_dealloc@PLT
31:
	cmpq	$0, 80(%rsp)
	je	32f
	movq	408(%rsp), %rdi
	callq	rattle_dealloc@PLT
32:
	cmpq	$0, 72(%rsp)
	je	33f
	movq	416(%rsp), %rdi
	callq	rattle_dealloc@PLT
33:
	cmpq	$0, 64(%rsp)
	je	34f
	movq	432(%rsp), %rdi
	callq	rattle_dealloc@PLT
34:
	cmpq	$0, 96(%rsp)
	je	35f
	movq	440(%rsp), %rdi
	callq	rattle_dealloc@PLT
35:
	cmpq	$0, 48(%rsp)
	je	36f
	movq	448(%rsp), %rdi
	callq	rattle_dealloc@PLT
36:
	cmpq	$0, 32(%rsp)
	je	37f
	movq	456(%rsp), %rdi
	callq	rattle_dealloc@PLT
37:
	cmpq	$0, 40(%rsp)
	je	38f
	movq	312(%rsp), %rdi
	callq	rattle_dealloc@PLT
38:
	cmpq	$0, (%rsp)
	je	39f
	movq	320(%rsp), %rdi
	callq	rattle_dealloc@PLT
39:
	cmpq	$0, 56(%rsp)
	je	92f
	movq	424(%rsp), %rdi
40:
	callq	rattle_dealloc@PLT
	jmp	92f
41:
	leaq	24(%rsp), %rdx
42:
	movq	%r15, 48(%rsp)
	movq	%r14, 32(%rsp)
	movq	%rdx, 1664(%rsp)
	movq	$0, 1672(%rsp)
	movq	%rbp, 1680(%rsp)
	cmpq	$0, 8(%rsp)
	movq	%rbp, 56(%rsp)
	je	49f
	xorl	%r13d, %r13d
	xorl	%r15d, %r15d
	xorl	%r14d, %r14d
	movq	%r12, 40(%rsp)
	jmp	44f
43:
	movq	16(%rsp), %r14
	incq	%r14
	movq	%rbp, %r15
	cmpq	8(%rsp), %r14
	movq	40(%rsp), %r12
	movq	56(%rsp), %rbp
	je	50f
44:
	movq	%r14, 16(%rsp)
	shlq	$5, %r14
	movq	24(%r12,%r14), %rax
	movq	%rbp, %rbx
	subq	%r15, %rbx
	cmpq	%rax, %rbx
	cmovaeq	%rax, %rbx
	leaq	(%rbx,%r15), %rbp
	testq	%rbx, %rbx
	je	43b
	addq	%r12, %r14
	shlq	$6, %r15
	addq	(%rsp), %r15
	leaq	8(%r14), %rsi
	jmp	47f
45:
	movq	1664(%rsp), %rdx
	movq	1672(%rsp), %r13
	leaq	8(%r14), %rsi
	.p2align	4
46:
	movq	%rbp, %rax
	subq	%rbx, %rax
	leaq	(,%r13,4), %rcx
	addq	%r13, %rcx
	movdqa	464(%rsp), %xmm0
	movdqu	%xmm0, (%rdx,%rcx,8)
	movl	%r12d, 16(%rdx,%rcx,8)
	movl	$0, 20(%rdx,%rcx,8)
	movq	%rax, 24(%rdx,%rcx,8)
	movq	%rbx, 32(%rdx,%rcx,8)
	incq	%r13
	movq	%r13, 1672(%rsp)
	leaq	-1(%rbx), %rax
	movq	56(%r15), %rcx
	cmpq	%rcx, %rax
	cmovbq	%rax, %rcx
	incq	%rcx
	movq	%rcx, %rax
	shlq	$6, %rax
	addq	%rax, %r15
	subq	%rcx, %rbx
	je	43b
47:
	movl	(%r14), %r12d
	movups	(%rsi), %xmm0
	movaps	%xmm0, 464(%rsp)
	cmpq	%r13, 1680(%rsp)
	jne	46b
	leaq	1664(%rsp), %rdi
	callq	"std_alloc::vec::Vec::grow_amortized::<#5cd6c36b4880780f>"
	testb	%al, %al
	jne	45b
	cmpq	$0, 1680(%rsp)
	je	48f
	movq	1664(%rsp), %rdi
	callq	rattle_dealloc@PLT
48:
	cmpq	$0, 48(%rsp)
	movq	40(%rsp), %rbx
	movq	32(%rsp), %r14
	je	69f
	movq	(%rsp), %rdi
	jmp	68f
49:
	movq	%rdx, 8(%rsp)
	movq	$0, 464(%rsp)
	pxor	%xmm0, %xmm0
	movdqa	%xmm0, 1424(%rsp)
	movdqa	%xmm0, 1440(%rsp)
	movq	%rbp, 96(%rsp)
	jmp	73f
50:
	movq	1664(%rsp), %rcx
	movq	1680(%rsp), %rbx
	pxor	%xmm0, %xmm0
	movdqa	%xmm0, 464(%rsp)
	movdqa	%xmm0, 480(%rsp)
	movdqa	%xmm0, 496(%rsp)
	movdqa	%xmm0, 512(%rsp)
	movdqa	%xmm0, 528(%rsp)
	movdqa	%xmm0, 544(%rsp)
	movq	$0, 560(%rsp)
	movdqa	%xmm0, 1424(%rsp)
	movdqa	%xmm0, 1440(%rsp)
	testq	%r13, %r13
	je	72f
	movq	%r13, %rax
	shrq	$59, %rax
	jne	70f
	movq	%r13, %rdi
	shlq	$4, %rdi
	movl	$4, %esi
	movq	%rcx, 8(%rsp)
	callq	rattle_alloc@PLT
	movq	8(%rsp), %rcx
	testb	$1, %al
	je	70f
	movq	%rbx, 96(%rsp)
	movq	%rdx, 80(%rsp)
	leaq	15(%rdx), %rbx
	leaq	32(%rcx), %r14
	movq	$-1, %r15
	movq	%r13, %r9
	jmp	55f
51:
	cmpq	$65535, %rbp
	movl	$65535, %eax
	cmovbq	%rbp, %rax
	addl	%r11d, %eax
	movl	$-1, %r11d
	cmovael	%eax, %r11d
52:
	xorl	%r10d, %r10d
	xorl	%ebp, %ebp
	xorl	%eax, %eax
	xorl	%esi, %esi
	xorl	%ecx, %ecx
	xorl	%edx, %edx
53:
	xorl	%edi, %edi
54:
	movl	%r11d, %r15d
	movzwl	%bp, %r8d
	addq	%r8, %r15
	movq	16(%rsp), %rbp
	cmpq	%rbp, %r15
	cmovaeq	%rbp, %r15
	movl	%r11d, -15(%rbx)
	movl	%r10d, -11(%rbx)
	movw	%r8w, -7(%rbx)
	movb	%al, -5(%rbx)
	movb	%sil, -4(%rbx)
	movb	%cl, -3(%rbx)
	movb	%dl, -2(%rbx)
	movb	%dil, -1(%rbx)
	movb	$0, (%rbx)
	addq	$16, %rbx
	addq	$40, %r14
	decq	%r9
	movq	56(%rsp), %rbp
	je	111f
55:
	movq	%r15, 16(%rsp)
	movq	-8(%r14), %rax
	movq	(%r14), %rcx
	cmpq	%rax, %rbp
	cmovbq	%rbp, %rax
	movq	%rbp, %rdx
	subq	%rax, %rdx
	cmpq	%rcx, %rdx
	cmovaeq	%rcx, %rdx
	testq	%rdx, %rdx
	je	57f
	shlq	$6, %rax
	movq	(%rsp), %rcx
	movl	(%rcx,%rax), %r11d
	movl	4(%rcx,%rax), %r10d
	movl	8(%rcx,%rax), %r15d
	movq	16(%rcx,%rax), %rdi
	movq	24(%rcx,%rax), %rbp
	movzbl	32(%rcx,%rax), %ecx
	cmpq	$4, %rbp
	setb	%dl
	orb	%cl, %dl
	testb	$1, %dl
	je	58f
	cmpb	$1, %cl
	jne	56f
	movq	(%rsp), %rcx
	cmpq	$2, 48(%rcx,%rax)
	jb	51b
	movq	(%rsp), %rcx
	movq	40(%rcx,%rax), %rax
	cmpb	$-1, (%rax)
	jne	51b
	cmpb	$-1, 1(%rax)
	jne	51b
56:
	xorl	%eax, %eax
	jmp	59f
57:
	xorl	%r11d, %r11d
	jmp	52b
58:
	movb	$2, %al
	cmpl	$1, %r10d
	je	59f
	movl	%r10d, 192(%rsp)
	movq	%rbp, %rsi
	movq	%r9, 112(%rsp)
	movl	%r11d, 160(%rsp)
	movq	%rdi, 128(%rsp)
	callq	"mime_lookup::indexed::line_head::rarest_pair"
	movq	128(%rsp), %rdi
	movl	192(%rsp), %r10d
	movl	160(%rsp), %r11d
	movq	112(%rsp), %r9
59:
	cmpl	$1, %r15d
	sete	%cl
	leaq	-65536(%rbp), %rdx
	cmpq	$-65535, %rdx
	setae	%dl
	testb	%dl, %cl
	je	51b
	cmpq	$2, %rbp
	jb	60f
	movzbl	1(%rdi), %ecx
	jmp	61f
60:
	xorl	%ecx, %ecx
61:
	movzbl	%al, %r8d
	cmpq	%r8, %rbp
	jbe	62f
	movzbl	(%rdi,%r8), %edx
	jmp	63f
62:
	xorl	%edx, %edx
63:
	movzbl	(%rdi), %esi
	incq	%r8
	cmpq	%rbp, %r8
	jae	53b
	movzbl	(%rdi,%r8), %edi
	jmp	54b
64:
	movq	%r13, 48(%rsp)
	movq	%r12, 56(%rsp)
	bswapl	%ebp
	movq	472(%rsp), %r12
	movq	480(%rsp), %r13
	movq	488(%rsp), %r15
	movq	496(%rsp), %rax
	movq	%rax, 40(%rsp)
	movq	512(%rsp), %rax
	movq	%rax, (%rsp)
	movdqu	504(%rsp), %xmm0
	movdqa	%xmm0, 96(%rsp)
	leaq	1024(%rsp), %rdi
	leaq	1184(%rsp), %rsi
	leaq	864(%rsp), %rcx
	movl	%ebp, %edx
	callq	"mime_load::rules::globs_at"
	cmpb	$0, 1024(%rsp)
	je	97f
	testq	%r15, %r15
	movq	56(%rsp), %r15
	je	65f
	movq	%r12, %rdi
	callq	rattle_dealloc@PLT
65:
	cmpq	$0, (%rsp)
	je	66f
	movq	40(%rsp), %rdi
	callq	rattle_dealloc@PLT
66:
	testq	%r15, %r15
	je	69f
67:
	movq	16(%rsp), %rdi
68:
	callq	rattle_dealloc@PLT
69:
	testq	%r14, %r14
	je	85f
	movq	%rbx, %rdi
	jmp	84f
70:
	testq	%rbx, %rbx
	je	71f
	movq	%rcx, %rdi
	callq	rattle_dealloc@PLT
71:
	cmpq	$0, 48(%rsp)
	movq	32(%rsp), %r14
	jne	81f
	jmp	82f
72:
	movq	%rbx, 96(%rsp)
	movq	%rcx, 8(%rsp)
73:
	movdqu	%xmm0, 552(%rsp)
	movb	$0, 464(%rsp)
	leaq	24(%rsp), %rbp
	movq	%rbp, 472(%rsp)
	movdqa	%xmm0, 480(%rsp)
	movq	%rbp, 496(%rsp)
	movdqu	%xmm0, 504(%rsp)
	movq	%rbp, 520(%rsp)
	movdqa	%xmm0, 528(%rsp)
	movq	%rbp, 544(%rsp)
	movq	$-1, %r15
	movb	$1, %al
	movl	%eax, 224(%rsp)
	movq	$0, 16(%rsp)
	xorl	%r14d, %r14d
	movq	$0, 112(%rsp)
	movq	$0, 176(%rsp)
	movq	%rbp, 128(%rsp)
	movq	$0, 160(%rsp)
	movq	$0, 64(%rsp)
	movq	%rbp, 352(%rsp)
	movq	$0, 192(%rsp)
	movq	$0, 72(%rsp)
	movq	%rbp, 336(%rsp)
	xorl	%r13d, %r13d
	movq	%rbp, %rsi
74:
	leaq	1424(%rsp), %rdi
	movq	%rsi, %rbx
	movq	%r13, %rdx
	movq	%rbp, %rcx
	movq	%r14, %r8
	callq	"mime_lookup::indexed::other_pairs::pairs_of"
	cmpb	$0, 1424(%rsp)
	je	93f
	cmpq	$0, 192(%rsp)
	je	75f
	movq	336(%rsp), %rdi
	callq	rattle_dealloc@PLT
75:
	cmpq	$0, 160(%rsp)
	movq	32(%rsp), %r14
	movq	48(%rsp), %r15
	je	76f
	movq	352(%rsp), %rdi
	callq	rattle_dealloc@PLT
76:
	cmpq	$0, 112(%rsp)
	je	77f
	movq	128(%rsp), %rdi
	callq	rattle_dealloc@PLT
77:
	cmpq	$0, 16(%rsp)
	je	78f
	movq	%rbp, %rdi
	callq	rattle_dealloc@PLT
78:
	cmpb	$0, 224(%rsp)
	jne	79f
	movq	%rbx, %rdi
	callq	rattle_dealloc@PLT
79:
	cmpq	$0, 96(%rsp)
	je	80f
	movq	8(%rsp), %rdi
	callq	rattle_dealloc@PLT
80:
	testq	%r15, %r15
	je	82f
81:
	movq	(%rsp), %rdi
	callq	rattle_dealloc@PLT
82:
	testq	%r14, %r14
	je	85f
83:
	movq	%r12, %rdi
84:
	callq	rattle_dealloc@PLT
85:
	leaq	2032(%rsp), %rbp
	leaq	1248(%rsp), %rsi
	movl	$136, %edx
	movq	%rbp, %rdi
	callq	memcpy@PLT
	movq	152(%rsp), %rax
	movzbl	56(%rax), %ebx
	movzbl	136(%rax), %r12d
	movq	144(%rax), %r13
	movzbl	152(%rax), %r15d
	movq	160(%rax), %rcx
	movq	%rcx, (%rsp)
	movzbl	168(%rax), %r14d
	movq	176(%rax), %rcx
	movq	%rcx, 56(%rsp)
	movzbl	184(%rax), %ecx
	movb	%cl, 16(%rsp)
	movq	192(%rax), %rcx
	movq	%rcx, 8(%rsp)
	movq	$1, 56(%rax)
	movl	$136, %edx
	movq	144(%rsp), %rdi
	movq	%rbp, %rsi
	callq	memcpy@PLT
	cmpb	$1, %bl
	jne	92f
	cmpb	$1, %r12b
	jne	88f
	movq	%r13, %rdi
	callq	"std_alloc::boxed::Box::drop::<#fbe121e601c74963>"
	cmpb	$1, %r15b
	je	89f
86:
	cmpb	$1, %r14b
	jne	90f
87:
	movq	56(%rsp), %rdi
	callq	"std_alloc::boxed::Box::drop::<#2a53b42b743d619c>"
	cmpb	$1, 16(%rsp)
	je	91f
	jmp	92f
88:
	cmpb	$1, %r15b
	jne	86b
89:
	movq	(%rsp), %rdi
	callq	"std_alloc::boxed::Box::drop::<#e973df45dd2be47d>"
	cmpb	$1, %r14b
	je	87b
90:
	cmpb	$1, 16(%rsp)
	jne	92f
91:
	movq	8(%rsp), %rdi
	callq	"std_alloc::boxed::Box::drop::<#02fc8b7b85195ce8>"
92:
	addq	$2200, %rsp
	popq	%rbx
	popq	%r12
	popq	%r13
	popq	%r14
	popq	%r15
	popq	%rbp
	retq
93:
	movq	1448(%rsp), %rax
	movq	%rax, 1040(%rsp)
	movups	1432(%rsp), %xmm0
	movaps	%xmm0, 1024(%rsp)
	cmpq	$0, 32(%rsp)
	je	94f
	movq	%r12, %rdi
	callq	rattle_dealloc@PLT
94:
	movq	1040(%rsp), %rax
	movaps	1024(%rsp), %xmm0
	movaps	%xmm0, 1184(%rsp)
	movq	%rax, 1200(%rsp)
	movl	$200, %edi
	movl	$8, %esi
	callq	rattle_alloc@PLT
	testb	$1, %al
	movq	96(%rsp), %rcx
	je	95f
	movq	%rbx, (%rdx)
	movq	%r13, 8(%rdx)
	movq	%r13, 16(%rdx)
	movq	(%rsp), %rax
	movq	%rax, 24(%rdx)
	movq	56(%rsp), %rax
	movq	%rax, 32(%rdx)
	movq	48(%rsp), %rax
	movq	%rax, 40(%rdx)
	movq	8(%rsp), %rax
	movq	%rax, 48(%rdx)
	movq	%r13, 56(%rdx)
	movq	%rcx, 64(%rdx)
	movq	336(%rsp), %rax
	movq	%rax, 72(%rdx)
	movq	72(%rsp), %rax
	movq	%rax, 80(%rdx)
	movq	192(%rsp), %rax
	movq	%rax, 88(%rdx)
	movq	352(%rsp), %rax
	movq	%rax, 96(%rdx)
	movq	64(%rsp), %rax
	movq	%rax, 104(%rdx)
	movq	160(%rsp), %rax
	movq	%rax, 112(%rdx)
	movq	128(%rsp), %rax
	movq	%rax, 120(%rdx)
	movq	176(%rsp), %rax
	movq	%rax, 128(%rdx)
	movq	112(%rsp), %rax
	movq	%rax, 136(%rdx)
	movq	%rbp, 144(%rdx)
	movq	%r14, 152(%rdx)
	movq	16(%rsp), %rax
	movq	%rax, 160(%rdx)
	movq	1200(%rsp), %rax
	movq	%rax, 184(%rdx)
	movdqa	1184(%rsp), %xmm0
	movdqu	%xmm0, 168(%rdx)
	movq	%r15, 192(%rdx)
	movzbl	1336(%rsp), %eax
	movq	1344(%rsp), %r14
	movq	$1, 1336(%rsp)
	movq	%rdx, 1344(%rsp)
	cmpb	$1, %al
	jne	85b
	leaq	464(%rsp), %r15
	movl	$200, %edx
	movq	%r15, %rdi
	movq	%r14, %rsi
	callq	memcpy@PLT
	movq	%r14, %rdi
	callq	rattle_dealloc@PLT
	movq	%r15, %rdi
	jmp	96f
95:
	movq	%rbx, 464(%rsp)
	movq	%r13, 472(%rsp)
	movq	%r13, 480(%rsp)
	movq	(%rsp), %rax
	movq	%rax, 488(%rsp)
	movq	56(%rsp), %rax
	movq	%rax, 496(%rsp)
	movq	48(%rsp), %rax
	movq	%rax, 504(%rsp)
	movq	8(%rsp), %rax
	movq	%rax, 512(%rsp)
	movq	%r13, 520(%rsp)
	movq	%rcx, 528(%rsp)
	movq	336(%rsp), %rax
	movq	%rax, 536(%rsp)
	movq	72(%rsp), %rax
	movq	%rax, 544(%rsp)
	movq	192(%rsp), %rax
	movq	%rax, 552(%rsp)
	movq	352(%rsp), %rax
	movq	%rax, 560(%rsp)
	movq	64(%rsp), %rax
	movq	%rax, 568(%rsp)
	movq	160(%rsp), %rax
	movq	%rax, 576(%rsp)
	movq	128(%rsp), %rax
	movq	%rax, 584(%rsp)
	movq	176(%rsp), %rax
	movq	%rax, 592(%rsp)
	movq	112(%rsp), %rax
	movq	%rax, 600(%rsp)
	movq	%rbp, 608(%rsp)
	movq	%r14, 616(%rsp)
	movq	16(%rsp), %rax
	movq	%rax, 624(%rsp)
	movq	1200(%rsp), %rax
	movq	%rax, 648(%rsp)
	movdqa	1184(%rsp), %xmm0
	movdqu	%xmm0, 632(%rsp)
	movq	%r15, 656(%rsp)
	leaq	464(%rsp), %rdi
96:
	callq	"mime_lookup::mime_lookup++indexed++magic_index++MagicIndex+Destruct::drop"
	jmp	85b
97:
	movq	%r13, 160(%rsp)
	movq	%r15, 112(%rsp)
	movq	%r12, 32(%rsp)
	movq	1032(%rsp), %r12
	movq	1040(%rsp), %rax
	movq	%rax, 192(%rsp)
	movq	1048(%rsp), %rbp
	movq	1248(%rsp), %rax
	movq	%rax, 336(%rsp)
	movq	1256(%rsp), %rax
	movq	%rax, 352(%rsp)
	pxor	%xmm0, %xmm0
	movdqa	%xmm0, 864(%rsp)
	movdqa	%xmm0, 880(%rsp)
	movdqa	%xmm0, 896(%rsp)
	movdqa	%xmm0, 912(%rsp)
	movdqa	%xmm0, 928(%rsp)
	movdqa	%xmm0, 944(%rsp)
	movdqa	%xmm0, 960(%rsp)
	movdqa	%xmm0, 976(%rsp)
	movdqa	%xmm0, 992(%rsp)
	movdqa	%xmm0, 1008(%rsp)
	movdqa	%xmm0, 1664(%rsp)
	movdqa	%xmm0, 1680(%rsp)
	movdqa	%xmm0, 1696(%rsp)
	movdqa	%xmm0, 1712(%rsp)
	movdqa	%xmm0, 1728(%rsp)
	movdqa	%xmm0, 1744(%rsp)
	movdqa	%xmm0, 1760(%rsp)
	movdqa	%xmm0, 1776(%rsp)
	movdqa	%xmm0, 1792(%rsp)
	movdqa	%xmm0, 1808(%rsp)
	movq	$0, 1823(%rsp)
	movdqa	%xmm0, 1216(%rsp)
	movdqa	%xmm0, 1200(%rsp)
	movdqa	%xmm0, 1184(%rsp)
	movq	$0, 1231(%rsp)
	movdqa	%xmm0, 464(%rsp)
	movdqa	%xmm0, 480(%rsp)
	movdqa	%xmm0, 496(%rsp)
	movdqa	%xmm0, 512(%rsp)
	movdqa	%xmm0, 528(%rsp)
	movdqa	%xmm0, 544(%rsp)
	movdqa	%xmm0, 560(%rsp)
	movdqa	%xmm0, 576(%rsp)
	movdqa	%xmm0, 592(%rsp)
	movdqa	%xmm0, 608(%rsp)
	movdqa	%xmm0, 624(%rsp)
	movq	$0, 640(%rsp)
	movdqa	%xmm0, 1904(%rsp)
	movdqa	%xmm0, 1920(%rsp)
	movdqa	%xmm0, 1936(%rsp)
	movdqa	%xmm0, 1568(%rsp)
	movdqa	%xmm0, 1552(%rsp)
	movdqa	%xmm0, 1536(%rsp)
	movdqa	%xmm0, 1520(%rsp)
	movdqa	%xmm0, 1504(%rsp)
	movdqa	%xmm0, 1488(%rsp)
	movdqa	%xmm0, 1472(%rsp)
	movdqa	%xmm0, 1456(%rsp)
	movdqa	%xmm0, 1440(%rsp)
	movdqa	%xmm0, 1424(%rsp)
	movq	$0, 1583(%rsp)
	movl	$32768, %edi
	movl	$2, %esi
	callq	rattle_alloc@PLT
	testb	$1, %al
	je	124f
	movq	%rdx, %r15
	movq	%rbx, 128(%rsp)
	movl	$32768, %edx
	movq	%r15, %rdi
	movl	$255, %esi
	callq	memset@PLT
	leaq	24(%rsp), %rbx
	movq	%rbx, %rdx
	movq	8(%rsp), %r13
	testq	%r13, %r13
	je	98f
	movabsq	$230584300921369396, %rax
	cmpq	%rax, %r13
	jae	114f
	leaq	(,%r13,8), %rax
	leaq	(%rax,%rax,4), %rdi
	movl	$8, %esi
	callq	rattle_alloc@PLT
	testb	$1, %al
	je	114f
98:
	movq	%rbp, 176(%rsp)
	movq	%r12, 72(%rsp)
	movq	%r14, 224(%rsp)
	movq	%r15, 1024(%rsp)
	movq	$16384, 1032(%rsp)
	movq	$16384, 1040(%rsp)
	movq	%rdx, 1048(%rsp)
	movq	$0, 1056(%rsp)
	movq	%r13, 1064(%rsp)
	movq	%rbx, 1072(%rsp)
	pxor	%xmm0, %xmm0
	movdqu	%xmm0, 1080(%rsp)
	movq	%rbx, 1096(%rsp)
	movdqu	%xmm0, 1104(%rsp)
	movq	%rbx, 1120(%rsp)
	movdqu	%xmm0, 1128(%rsp)
	movq	%rbx, 1144(%rsp)
	movdqu	%xmm0, 1152(%rsp)
	movq	$0, 1168(%rsp)
	movabsq	$2611923443488327891, %rax
	movq	%rax, 1176(%rsp)
	testq	%r13, %r13
	je	115f
	movq	%r13, %rax
	shlq	$5, %rax
	movq	128(%rsp), %rcx
	leaq	(%rax,%rcx), %rbx
	addq	$-8, %rbx
	jmp	101f
99:
	movb	$1, 32(%rbp,%r14)
	leaq	1616(%rsp), %rdi
	leaq	1072(%rsp), %rsi
	movq	%r15, %rcx
	callq	"mime_lookup::name_map::put_other::<#643ceef07a9c3c2a>"
	cmpb	$0, 1616(%rsp)
	jne	118f
100:
	decq	%r13
	addq	$-32, %rbx
	testq	%r13, %r13
	je	115f
101:
	movq	-24(%rbx), %rdx
	movq	-16(%rbx), %r15
	movq	-8(%rbx), %r8
	movq	(%rbx), %r9
	pxor	%xmm0, %xmm0
	movdqa	%xmm0, 1632(%rsp)
	movdqa	%xmm0, 1616(%rsp)
	cmpq	$8, %r15
	jb	102f
	movq	%r15, %rax
	shrq	%rax
	movq	-4(%rdx,%rax), %rax
	leaq	(%rax,%rax,2), %rax
	addq	-8(%rdx,%r15), %rax
	movabsq	$-4658895280553007687, %r14
	imulq	%rax, %r14
	shrq	$49, %r14
	andl	$-2, %r14d
	jmp	103f
102:
	xorl	%r14d, %r14d
103:
	movq	1024(%rsp), %rax
	movq	1048(%rsp), %rbp
	movzwl	(%rax,%r14), %ecx
	movq	1056(%rsp), %r12
	cmpq	%rcx, %r12
	jbe	104f
	shll	$3, %ecx
	leaq	(%rcx,%rcx,4), %r14
	cmpq	%r15, 8(%rbp,%r14)
	jne	99b
	movq	(%rbp,%r14), %rdi
	cmpq	$4, %r15
	jae	106f
	testq	%r15, %r15
	je	109f
	movzbl	(%rdi), %eax
	cmpb	(%rdx), %al
	jne	107f
	cmpq	$1, %r15
	je	109f
	movzbl	1(%rdi), %ecx
	movl	$1, %eax
	cmpb	1(%rdx), %cl
	jne	108f
	cmpq	$2, %r15
	je	109f
	movzbl	2(%rdi), %ecx
	movl	$2, %eax
	cmpb	2(%rdx), %cl
	jne	108f
	jmp	109f
104:
	cmpq	$65534, %r12
	ja	118f
	movq	%r12, %rcx
	cmpq	%r12, 1064(%rsp)
	je	110f
105:
	leaq	(%rcx,%rcx,4), %rsi
	movq	%rdx, (%rbp,%rsi,8)
	movq	%r15, 8(%rbp,%rsi,8)
	movq	%r8, 16(%rbp,%rsi,8)
	movq	%r9, 24(%rbp,%rsi,8)
	incq	%rcx
	movq	$0, 32(%rbp,%rsi,8)
	movq	%rcx, 1056(%rsp)
	movw	%r12w, (%rax,%r14)
	jmp	100b
106:
	movl	(%rdi), %eax
	cmpl	(%rdx), %eax
	jne	99b
	movq	%r15, %rsi
	movq	%r9, 8(%rsp)
	movq	%r8, %r12
	movq	%rdx, 64(%rsp)
	callq	"core::cmp::slices::groups_equal::<i8,31'core::cmp::numbers::U8PartialEq{}>"
	movq	64(%rsp), %rdx
	movq	%r12, %r8
	movq	8(%rsp), %r9
	testb	%al, %al
	je	99b
	jmp	109f
107:
	xorl	%eax, %eax
108:
	cmpq	%r15, %rax
	jb	99b
109:
	movq	%r8, 16(%rbp,%r14)
	movq	%r9, 24(%rbp,%r14)
	jmp	100b
110:
	leaq	1048(%rsp), %rdi
	movq	%r9, 8(%rsp)
	movq	%r8, %rbp
	movq	%rdx, 64(%rsp)
	callq	"std_alloc::vec::Vec::grow_amortized::<#0061ae0bdb08d16a>"
	movq	64(%rsp), %rdx
	movq	8(%rsp), %r9
	testb	%al, %al
	je	118f
	movq	%rbp, %r8
	movq	1056(%rsp), %rcx
	movq	1024(%rsp), %rax
	movq	1048(%rsp), %rbp
	jmp	105b
111:
	leaq	464(%rsp), %rdi
	movq	80(%rsp), %rbx
	movq	%rbx, %rsi
	movq	%r13, %rdx
	callq	"mime_lookup::indexed::tables::tables_of"
	cmpb	$0, 464(%rsp)
	je	113f
	movq	%rbx, %rdi
	callq	rattle_dealloc@PLT
	cmpq	$0, 96(%rsp)
	movq	32(%rsp), %r14
	je	112f
	movq	8(%rsp), %rdi
	callq	rattle_dealloc@PLT
112:
	cmpq	$0, 48(%rsp)
	jne	81b
	jmp	82b
113:
	movq	472(%rsp), %rax
	movq	%rax, 336(%rsp)
	movq	480(%rsp), %rax
	movq	%rax, 72(%rsp)
	movq	488(%rsp), %rax
	movq	%rax, 192(%rsp)
	movq	496(%rsp), %rax
	movq	%rax, 352(%rsp)
	movq	504(%rsp), %rax
	movq	%rax, 64(%rsp)
	movq	512(%rsp), %rax
	movq	%rax, 160(%rsp)
	movq	520(%rsp), %rax
	movq	%rax, 128(%rsp)
	movq	528(%rsp), %rax
	movq	%rax, 176(%rsp)
	movq	536(%rsp), %rax
	movq	%rax, 112(%rsp)
	movq	544(%rsp), %rbp
	movq	552(%rsp), %r14
	movq	560(%rsp), %rax
	movq	%rax, 16(%rsp)
	movl	$0, 224(%rsp)
	movq	%rbx, %rsi
	jmp	74b
114:
	movq	%r15, %rdi
	callq	rattle_dealloc@PLT
	testq	%r14, %r14
	movq	128(%rsp), %rbx
	jne	125f
	jmp	126f
115:
	leaq	1431(%rsp), %r15
	leaq	1024(%rsp), %rsi
	movl	$160, %edx
	movq	%r15, %rdi
	callq	memcpy@PLT
	leaq	1671(%rsp), %r12
	movl	$160, %edx
	movq	%r12, %rdi
	movq	%r15, %rsi
	callq	memcpy@PLT
	leaq	864(%rsp), %rdi
	movl	$160, %edx
	movq	%r12, %rsi
	callq	memcpy@PLT
	pxor	%xmm0, %xmm0
	movdqa	%xmm0, 1424(%rsp)
	movdqa	%xmm0, 1440(%rsp)
	movdqa	%xmm0, 1456(%rsp)
	movq	$0, 1472(%rsp)
	movdqa	%xmm0, 1024(%rsp)
	movdqa	%xmm0, 1040(%rsp)
	movdqa	%xmm0, 1056(%rsp)
	movq	$0, 1072(%rsp)
	movdqa	%xmm0, 1952(%rsp)
	movdqu	%xmm0, 1967(%rsp)
	movdqa	%xmm0, 1856(%rsp)
	movdqa	%xmm0, 1872(%rsp)
	movdqa	%xmm0, 1888(%rsp)
	movq	192(%rsp), %rbx
	addq	48(%rsp), %rbx
	movq	$-1, %rax
	cmovbq	%rax, %rbx
	addq	160(%rsp), %rbx
	cmovbq	%rax, %rbx
	testq	%rbx, %rbx
	je	130f
	movq	%rbx, %rax
	shrq	$57, %rax
	jne	116f
	movq	%rbx, %rdi
	shlq	$6, %rdi
	movl	$8, %esi
	callq	rattle_alloc@PLT
	testb	$1, %al
	jne	131f
116:
	cmpq	$0, (%rsp)
	je	132f
	movq	40(%rsp), %rdi
117:
	callq	rattle_dealloc@PLT
	jmp	132f
118:
	cmpq	$0, 1040(%rsp)
	je	119f
	movq	1024(%rsp), %rdi
	callq	rattle_dealloc@PLT
119:
	cmpq	$0, 1064(%rsp)
	je	120f
	movq	1048(%rsp), %rdi
	callq	rattle_dealloc@PLT
120:
	movq	1096(%rsp), %r13
	movq	1112(%rsp), %rbp
	movq	1120(%rsp), %r12
	movq	1136(%rsp), %r14
	movq	1144(%rsp), %r15
	movq	1160(%rsp), %rbx
	cmpq	$0, 1088(%rsp)
	je	121f
	movq	1072(%rsp), %rdi
	callq	rattle_dealloc@PLT
121:
	testq	%rbp, %rbp
	je	122f
	movq	%r13, %rdi
	callq	rattle_dealloc@PLT
122:
	testq	%r14, %r14
	je	123f
	movq	%r12, %rdi
	callq	rattle_dealloc@PLT
123:
	testq	%rbx, %rbx
	movq	128(%rsp), %rbx
	movq	224(%rsp), %r14
	movq	72(%rsp), %r12
	movq	176(%rsp), %rbp
	je	124f
	movq	%r15, %rdi
	callq	rattle_dealloc@PLT
124:
	testq	%r14, %r14
	je	126f
125:
	movq	%rbx, %rdi
	callq	rattle_dealloc@PLT
126:
	cmpq	$0, 56(%rsp)
	movq	112(%rsp), %rbx
	je	127f
	movq	16(%rsp), %rdi
	callq	rattle_dealloc@PLT
127:
	testq	%rbx, %rbx
	je	128f
	movq	32(%rsp), %rdi
	callq	rattle_dealloc@PLT
128:
	cmpq	$0, (%rsp)
	je	129f
	movq	40(%rsp), %rdi
	callq	rattle_dealloc@PLT
129:
	testq	%rbp, %rbp
	jne	83b
	jmp	85b
130:
	leaq	24(%rsp), %rdx
131:
	movq	%rdx, 1616(%rsp)
	movq	$0, 1624(%rsp)
	movq	%rbx, 1632(%rsp)
	movq	40(%rsp), %rax
	movq	%rax, 1640(%rsp)
	movdqa	96(%rsp), %xmm0
	movdqu	%xmm0, 1648(%rsp)
	leaq	1024(%rsp), %rdi
	leaq	1616(%rsp), %rsi
	leaq	864(%rsp), %r8
	movq	16(%rsp), %rdx
	movq	48(%rsp), %rcx
	callq	"mime_lookup::read_back::rules::with_rules"
	cmpb	$0, 1024(%rsp)
	je	142f
132:
	cmpq	$0, 112(%rsp)
	je	133f
	movq	32(%rsp), %rdi
	callq	rattle_dealloc@PLT
133:
	cmpq	$0, 176(%rsp)
	je	134f
	movq	72(%rsp), %rdi
	callq	rattle_dealloc@PLT
134:
	cmpq	$0, 56(%rsp)
	je	135f
	movq	16(%rsp), %rdi
	callq	rattle_dealloc@PLT
135:
	cmpq	$0, 224(%rsp)
	je	136f
	movq	128(%rsp), %rdi
	callq	rattle_dealloc@PLT
136:
	cmpq	$0, 880(%rsp)
	je	137f
	movq	864(%rsp), %rdi
	callq	rattle_dealloc@PLT
137:
	cmpq	$0, 904(%rsp)
	je	138f
	movq	888(%rsp), %rdi
	callq	rattle_dealloc@PLT
138:
	movq	936(%rsp), %r12
	movq	952(%rsp), %rbp
	movq	960(%rsp), %r15
	movq	976(%rsp), %r13
	movq	984(%rsp), %r14
	movq	1000(%rsp), %rbx
	cmpq	$0, 928(%rsp)
	je	139f
	movq	912(%rsp), %rdi
	callq	rattle_dealloc@PLT
139:
	testq	%rbp, %rbp
	je	140f
	movq	%r12, %rdi
	callq	rattle_dealloc@PLT
140:
	testq	%r13, %r13
	je	141f
	movq	%r15, %rdi
	callq	rattle_dealloc@PLT
141:
	testq	%rbx, %rbx
	je	85b
	movq	%r14, %rdi
	jmp	84b
142:
	movq	1056(%rsp), %rax
	movq	%rax, (%rsp)
	movq	1072(%rsp), %rax
	movq	%rax, 216(%rsp)
	movups	1064(%rsp), %xmm0
	movaps	%xmm0, 848(%rsp)
	movdqu	1032(%rsp), %xmm0
	movdqa	%xmm0, 1392(%rsp)
	movq	1048(%rsp), %rax
	movq	%rax, 1408(%rsp)
	pxor	%xmm0, %xmm0
	movdqa	%xmm0, 2000(%rsp)
	movdqu	%xmm0, 2015(%rsp)
	cmpq	$0, 160(%rsp)
	je	163f
	xorl	%r13d, %r13d
	jmp	146f
143:
	xorl	%eax, %eax
144:
	addq	32(%rsp), %r13
	movdqu	(%r13), %xmm0
	movdqa	%xmm0, 1984(%rsp)
	cmpq	%r12, 832(%rsp)
	je	153f
145:
	movq	%r8, (%r15,%rbx)
	movq	%r9, 8(%r15,%rbx)
	movdqa	1984(%rsp), %xmm0
	movdqu	%xmm0, 16(%r15,%rbx)
	movq	$1, 32(%r15,%rbx)
	movq	%rdi, 40(%r15,%rbx)
	movq	%rbp, 48(%r15,%rbx)
	movl	%ecx, 56(%r15,%rbx)
	movb	%r14b, 60(%r15,%rbx)
	movb	%r11b, 61(%r15,%rbx)
	movb	%r10b, 62(%r15,%rbx)
	movb	%al, 63(%r15,%rbx)
	incq	%r12
	movq	%r12, 824(%rsp)
	movq	832(%rsp), %rax
	leaq	2176(%rsp), %rcx
	movq	%rax, 16(%rcx)
	movq	816(%rsp), %rax
	movq	%rax, (%rcx)
	movq	824(%rsp), %rax
	movq	%rax, 8(%rcx)
	movq	16(%rcx), %rax
	leaq	2007(%rsp), %rdx
	movq	%rax, 16(%rdx)
	movq	(%rcx), %rax
	movq	%rax, (%rdx)
	movq	8(%rcx), %rax
	movq	%rax, 8(%rdx)
	movq	(%rdx), %rax
	movq	%rax, 1392(%rsp)
	movq	8(%rdx), %rax
	movq	%rax, 1400(%rsp)
	movq	16(%rdx), %rax
	movq	%rax, 1408(%rsp)
	movq	8(%rsp), %r13
	incq	%r13
	cmpq	160(%rsp), %r13
	je	163f
146:
	movq	%r13, 8(%rsp)
	shlq	$5, %r13
	movq	32(%rsp), %rbx
	movzbl	25(%rbx,%r13), %r15d
	movq	(%rbx,%r13), %rsi
	movq	8(%rbx,%r13), %rdx
	leaq	864(%rsp), %rdi
	callq	"mime_lookup::read_back::targets::target_of"
	movq	%rax, %r8
	movq	%rdx, %r9
	movq	16(%rbx,%r13), %rdi
	movzbl	24(%rbx,%r13), %ebp
	movq	(%rsp), %rax
	leaq	(%rax,%rdi), %rdx
	movabsq	$1688849862361089, %rax
	testq	%rbp, %rbp
	je	150f
	cmpb	$42, (%rdx)
	jne	149f
	cmpb	$9, %bpl
	jb	147f
	movq	1(%rdx), %xmm0
	movdqa	2b(%rip), %xmm1
	pcmpeqb	%xmm0, %xmm1
	movdqa	3b(%rip), %xmm2
	pcmpeqb	%xmm0, %xmm2
	por	%xmm1, %xmm2
	movdqa	4b(%rip), %xmm1
	pcmpeqb	%xmm0, %xmm1
	pcmpeqb	5b(%rip), %xmm0
	por	%xmm1, %xmm0
	por	%xmm2, %xmm0
	pmovmskb	%xmm0, %ecx
	movb	$2, %r10b
	testb	%cl, %cl
	jne	156f
147:
	movl	$1, %ecx
148:
	cmpq	%rcx, %rbp
	je	154f
	movzbl	(%rdx,%rcx), %esi
	incq	%rcx
	addl	$-42, %esi
	cmpl	$50, %esi
	ja	148b
	btq	%rsi, %rax
	jae	148b
	movb	$2, %r10b
	jmp	155f
149:
	cmpb	$8, %bpl
	jb	150f
	movq	(%rdx), %xmm0
	movdqa	2b(%rip), %xmm1
	pcmpeqb	%xmm0, %xmm1
	movdqa	3b(%rip), %xmm2
	pcmpeqb	%xmm0, %xmm2
	por	%xmm1, %xmm2
	movdqa	4b(%rip), %xmm1
	pcmpeqb	%xmm0, %xmm1
	pcmpeqb	5b(%rip), %xmm0
	por	%xmm1, %xmm0
	por	%xmm2, %xmm0
	pmovmskb	%xmm0, %ecx
	movb	$2, %r10b
	testb	%cl, %cl
	jne	156f
150:
	xorl	%ecx, %ecx
151:
	cmpq	%rcx, %rbp
	je	152f
	movzbl	(%rdx,%rcx), %esi
	incq	%rcx
	addl	$-42, %esi
	cmpl	$50, %esi
	ja	151b
	btq	%rsi, %rax
	jae	151b
	movb	$2, %r10b
	jmp	156f
152:
	xorl	%r10d, %r10d
	jmp	156f
153:
	movl	%eax, 88(%rsp)
	movl	%ecx, 40(%rsp)
	movb	%r11b, 80(%rsp)
	movl	%r10d, 64(%rsp)
	movq	%r9, 96(%rsp)
	movq	%r8, 48(%rsp)
	movq	%rdi, %r13
	leaq	816(%rsp), %rdi
	callq	"std_alloc::vec::Vec::grow_amortized::<#1a30988f8987f99f>"
	testb	%al, %al
	je	181f
	movq	816(%rsp), %r15
	movq	824(%rsp), %r12
	movq	%r12, %rbx
	shlq	$6, %rbx
	movq	%r13, %rdi
	movq	48(%rsp), %r8
	movq	96(%rsp), %r9
	movl	64(%rsp), %r10d
	movzbl	80(%rsp), %r11d
	movl	40(%rsp), %ecx
	movl	88(%rsp), %eax
	jmp	145b
154:
	movb	$1, %r10b
155:
	movq	32(%rsp), %rbx
156:
	movl	%r15d, %r14d
	movzbl	%r15b, %eax
	movzbl	26(%rbx,%r13), %r11d
	movzbl	%r11b, %ecx
	movaps	1392(%rsp), %xmm0
	movaps	%xmm0, 816(%rsp)
	movq	1408(%rsp), %rsi
	movq	%rsi, 832(%rsp)
	movq	816(%rsp), %r15
	movq	824(%rsp), %r12
	movl	%r10d, %esi
	negb	%sil
	movzbl	%sil, %esi
	shll	$25, %esi
	shll	$17, %eax
	leal	(%rax,%rbp,2), %eax
	orl	%ecx, %eax
	leal	(%rsi,%rax), %ecx
	addl	$67108864, %ecx
	movq	%r12, %rbx
	shlq	$6, %rbx
	testq	%r12, %r12
	je	143b
	cmpl	%ecx, -8(%r15,%rbx)
	jne	143b
	movl	%ecx, 40(%rsp)
	cmpb	-3(%r15,%rbx), %r11b
	jne	158f
	movb	%r11b, 80(%rsp)
	movl	%r10d, 64(%rsp)
	movq	%r9, 96(%rsp)
	movq	%r8, 48(%rsp)
	movq	%rdi, 88(%rsp)
	movq	-24(%r15,%rbx), %rax
	movq	-16(%r15,%rbx), %rsi
	cmpb	$0, -32(%r15,%rbx)
	movq	(%rsp), %rcx
	leaq	(%rcx,%rax), %rdi
	cmoveq	%rax, %rdi
	testq	%rsi, %rsi
	je	159f
	testl	%ebp, %ebp
	je	160f
	movzbl	-1(%rdi,%rsi), %eax
	cmpb	-1(%rdx,%rbp), %al
	jne	160f
157:
	movq	%rbp, %rcx
	callq	"mime_names::indexed_rules::is_equal"
	jmp	161f
158:
	xorl	%eax, %eax
	jmp	162f
159:
	testl	%ebp, %ebp
	je	157b
160:
	xorl	%eax, %eax
161:
	movq	88(%rsp), %rdi
	movq	48(%rsp), %r8
	movq	96(%rsp), %r9
	movl	64(%rsp), %r10d
	movzbl	80(%rsp), %r11d
162:
	movl	40(%rsp), %ecx
	jmp	144b
163:
	movq	1408(%rsp), %rax
	movq	%rax, 1975(%rsp)
	movaps	1392(%rsp), %xmm0
	movups	%xmm0, 1959(%rsp)
	movaps	%xmm0, 1856(%rsp)
	movq	%rax, 1872(%rsp)
	movq	(%rsp), %rax
	movq	%rax, 1880(%rsp)
	movaps	848(%rsp), %xmm0
	movaps	%xmm0, 1888(%rsp)
	leaq	1424(%rsp), %rdi
	leaq	1856(%rsp), %rsi
	leaq	864(%rsp), %r8
	movq	72(%rsp), %rdx
	movq	192(%rsp), %rcx
	callq	"mime_lookup::read_back::rules::with_rules"
	cmpq	$0, 112(%rsp)
	je	164f
	movq	32(%rsp), %rdi
	callq	rattle_dealloc@PLT
164:
	cmpq	$0, 176(%rsp)
	je	165f
	movq	72(%rsp), %rdi
	callq	rattle_dealloc@PLT
165:
	cmpq	$0, 56(%rsp)
	je	166f
	movq	16(%rsp), %rdi
	callq	rattle_dealloc@PLT
166:
	cmpq	$0, 224(%rsp)
	je	167f
	movq	128(%rsp), %rdi
	callq	rattle_dealloc@PLT
167:
	movdqu	1432(%rsp), %xmm0
	movdqu	1448(%rsp), %xmm1
	movdqu	1464(%rsp), %xmm2
	movdqu	%xmm0, 1191(%rsp)
	movdqu	%xmm1, 1207(%rsp)
	movdqu	%xmm2, 1223(%rsp)
	cmpb	$0, 1424(%rsp)
	jne	136b
	leaq	1191(%rsp), %rax
	movdqu	(%rax), %xmm0
	movdqu	16(%rax), %xmm1
	movdqu	32(%rax), %xmm2
	movdqa	%xmm2, 1936(%rsp)
	movdqa	%xmm1, 1920(%rsp)
	movdqa	%xmm0, 1904(%rsp)
	leaq	464(%rsp), %rdi
	leaq	1904(%rsp), %rsi
	callq	"mime_names::index::NameIndex::new"
	cmpb	$0, 464(%rsp)
	jne	136b
	movq	472(%rsp), %r12
	movq	480(%rsp), %r15
	movq	488(%rsp), %r13
	movq	496(%rsp), %rax
	movq	%rax, 312(%rsp)
	movq	512(%rsp), %rbx
	movq	520(%rsp), %rax
	movq	%rax, 320(%rsp)
	movq	536(%rsp), %rax
	movq	%rax, 192(%rsp)
	movq	544(%rsp), %rax
	movq	%rax, 328(%rsp)
	movq	560(%rsp), %rax
	movq	%rax, 160(%rsp)
	movq	568(%rsp), %rax
	movq	%rax, 216(%rsp)
	movq	584(%rsp), %rax
	movq	%rax, 112(%rsp)
	movq	592(%rsp), %rax
	movq	%rax, 848(%rsp)
	movq	608(%rsp), %rax
	movq	%rax, 48(%rsp)
	movq	616(%rsp), %rax
	movq	%rax, 80(%rsp)
	movq	%r15, %rax
	shrq	%rax
	movq	632(%rsp), %rcx
	movq	%rcx, 96(%rsp)
	movq	640(%rsp), %r14
	movq	864(%rsp), %rcx
	movq	%rcx, 88(%rsp)
	movq	880(%rsp), %rcx
	movq	%rcx, 32(%rsp)
	movq	888(%rsp), %rcx
	movq	%rcx, 72(%rsp)
	movq	904(%rsp), %rcx
	movq	%rcx, 40(%rsp)
	movq	912(%rsp), %rcx
	movq	%rcx, 64(%rsp)
	movq	928(%rsp), %rcx
	movq	%rcx, (%rsp)
	movq	936(%rsp), %rcx
	movq	%rcx, 176(%rsp)
	movq	952(%rsp), %rcx
	movq	%rcx, 56(%rsp)
	movq	960(%rsp), %rcx
	movq	%rcx, 224(%rsp)
	movq	976(%rsp), %rcx
	movq	%rcx, 8(%rsp)
	movq	984(%rsp), %rcx
	movq	%rcx, 128(%rsp)
	movq	1000(%rsp), %rcx
	movq	%rcx, 16(%rsp)
	cmpq	%r14, %rax
	jae	180f
	testq	%r13, %r13
	je	168f
	movq	%r12, %rdi
	callq	rattle_dealloc@PLT
168:
	testq	%rbx, %rbx
	je	169f
	movq	312(%rsp), %rdi
	callq	rattle_dealloc@PLT
169:
	cmpq	$0, 192(%rsp)
	je	170f
	movq	320(%rsp), %rdi
	callq	rattle_dealloc@PLT
170:
	cmpq	$0, 160(%rsp)
	je	171f
	movq	328(%rsp), %rdi
	callq	rattle_dealloc@PLT
171:
	cmpq	$0, 112(%rsp)
	je	172f
	movq	216(%rsp), %rdi
	callq	rattle_dealloc@PLT
172:
	cmpq	$0, 48(%rsp)
	je	173f
	movq	848(%rsp), %rdi
	callq	rattle_dealloc@PLT
173:
	cmpq	$0, 96(%rsp)
	je	174f
	movq	80(%rsp), %rdi
	callq	rattle_dealloc@PLT
174:
	cmpq	$0, 32(%rsp)
	je	175f
	movq	88(%rsp), %rdi
	callq	rattle_dealloc@PLT
175:
	cmpq	$0, 40(%rsp)
	je	176f
	movq	72(%rsp), %rdi
	callq	rattle_dealloc@PLT
176:
	cmpq	$0, (%rsp)
	je	177f
	movq	64(%rsp), %rdi
	callq	rattle_dealloc@PLT
177:
	cmpq	$0, 56(%rsp)
	je	178f
	movq	176(%rsp), %rdi
	callq	rattle_dealloc@PLT
178:
	cmpq	$0, 8(%rsp)
	je	179f
	movq	224(%rsp), %rdi
	callq	rattle_dealloc@PLT
179:
	cmpq	$0, 16(%rsp)
	je	85b
	movq	128(%rsp), %rdi
	jmp	84b
180:
	movq	504(%rsp), %rbp
	movq	528(%rsp), %rax
	movq	%rax, 1416(%rsp)
	movq	552(%rsp), %rax
	movq	%rax, 368(%rsp)
	movq	576(%rsp), %rax
	movq	%rax, 376(%rsp)
	movq	600(%rsp), %rax
	movq	%rax, 384(%rsp)
	movq	624(%rsp), %rax
	movq	%rax, 392(%rsp)
	movq	872(%rsp), %rax
	movq	%rax, 400(%rsp)
	movq	896(%rsp), %rax
	movq	%rax, 408(%rsp)
	movq	920(%rsp), %rax
	movq	%rax, 416(%rsp)
	movq	944(%rsp), %rax
	movq	%rax, 424(%rsp)
	movq	968(%rsp), %rax
	movq	%rax, 432(%rsp)
	movq	992(%rsp), %rax
	movq	%rax, 440(%rsp)
	movq	1008(%rsp), %rax
	movq	%rax, 448(%rsp)
	movq	1016(%rsp), %rax
	movq	%rax, 456(%rsp)
	movl	$352, %edi
	movl	$8, %esi
	callq	rattle_alloc@PLT
	testb	$1, %al
	je	183f
	movq	336(%rsp), %rax
	movq	%rax, (%rdx)
	movq	352(%rsp), %rax
	movq	%rax, 8(%rdx)
	movq	%r12, 16(%rdx)
	movq	%r15, 24(%rdx)
	movq	%r13, 32(%rdx)
	movq	312(%rsp), %rax
	movq	%rax, 40(%rdx)
	movq	%rbp, 48(%rdx)
	movq	%rbx, 56(%rdx)
	movq	320(%rsp), %rax
	movq	%rax, 64(%rdx)
	movq	1416(%rsp), %rax
	movq	%rax, 72(%rdx)
	movq	192(%rsp), %rax
	movq	%rax, 80(%rdx)
	movq	328(%rsp), %rax
	movq	%rax, 88(%rdx)
	movq	368(%rsp), %rax
	movq	%rax, 96(%rdx)
	movq	160(%rsp), %rax
	movq	%rax, 104(%rdx)
	movq	216(%rsp), %rax
	movq	%rax, 112(%rdx)
	movq	376(%rsp), %rax
	movq	%rax, 120(%rdx)
	movq	112(%rsp), %rax
	movq	%rax, 128(%rdx)
	movq	848(%rsp), %rax
	movq	%rax, 136(%rdx)
	movq	384(%rsp), %rax
	movq	%rax, 144(%rdx)
	movq	48(%rsp), %rax
	movq	%rax, 152(%rdx)
	movq	80(%rsp), %rax
	movq	%rax, 160(%rdx)
	movq	392(%rsp), %rax
	movq	%rax, 168(%rdx)
	movq	96(%rsp), %rax
	movq	%rax, 176(%rdx)
	movq	%r14, 184(%rdx)
	movq	88(%rsp), %rax
	movq	%rax, 192(%rdx)
	movq	400(%rsp), %rax
	movq	%rax, 200(%rdx)
	movq	32(%rsp), %rax
	movq	%rax, 208(%rdx)
	movq	72(%rsp), %rax
	movq	%rax, 216(%rdx)
	movq	408(%rsp), %rax
	movq	%rax, 224(%rdx)
	movq	40(%rsp), %rax
	movq	%rax, 232(%rdx)
	movq	64(%rsp), %rax
	movq	%rax, 240(%rdx)
	movq	416(%rsp), %rax
	movq	%rax, 248(%rdx)
	movq	(%rsp), %rax
	movq	%rax, 256(%rdx)
	movq	176(%rsp), %rax
	movq	%rax, 264(%rdx)
	movq	424(%rsp), %rax
	movq	%rax, 272(%rdx)
	movq	56(%rsp), %rax
	movq	%rax, 280(%rdx)
	movq	224(%rsp), %rax
	movq	%rax, 288(%rdx)
	movq	432(%rsp), %rax
	movq	%rax, 296(%rdx)
	movq	8(%rsp), %rax
	movq	%rax, 304(%rdx)
	movq	128(%rsp), %rax
	movq	%rax, 312(%rdx)
	movq	440(%rsp), %rax
	movq	%rax, 320(%rdx)
	movq	16(%rsp), %rax
	movq	%rax, 328(%rdx)
	movq	448(%rsp), %rax
	movq	%rax, 336(%rdx)
	movq	456(%rsp), %rax
	movq	%rax, 344(%rdx)
	movzbl	1320(%rsp), %eax
	movq	1328(%rsp), %rdi
	movq	$1, 1320(%rsp)
	movq	%rdx, 1328(%rsp)
	cmpb	$1, %al
	jne	85b
	callq	"std_alloc::boxed::Box::drop::<#11c05536263c65f8>"
	jmp	85b
181:
	cmpq	$0, 216(%rsp)
	je	182f
	movq	(%rsp), %rdi
	callq	rattle_dealloc@PLT
182:
	cmpq	$0, 832(%rsp)
	je	132b
	movq	816(%rsp), %rdi
	jmp	117b
183:
	movq	336(%rsp), %rax
	movq	%rax, 464(%rsp)
	movq	352(%rsp), %rax
	movq	%rax, 472(%rsp)
	movq	%r12, 480(%rsp)
	movq	%r15, 488(%rsp)
	movq	%r13, 496(%rsp)
	movq	312(%rsp), %rax
	movq	%rax, 504(%rsp)
	movq	%rbp, 512(%rsp)
	movq	%rbx, 520(%rsp)
	movq	320(%rsp), %rax
	movq	%rax, 528(%rsp)
	movq	1416(%rsp), %rax
	movq	%rax, 536(%rsp)
	movq	192(%rsp), %rax
	movq	%rax, 544(%rsp)
	movq	328(%rsp), %rax
	movq	%rax, 552(%rsp)
	movq	368(%rsp), %rax
	movq	%rax, 560(%rsp)
	movq	160(%rsp), %rax
	movq	%rax, 568(%rsp)
	movq	216(%rsp), %rax
	movq	%rax, 576(%rsp)
	movq	376(%rsp), %rax
	movq	%rax, 584(%rsp)
	movq	112(%rsp), %rax
	movq	%rax, 592(%rsp)
	movq	848(%rsp), %rax
	movq	%rax, 600(%rsp)
	movq	384(%rsp), %rax
	movq	%rax, 608(%rsp)
	movq	48(%rsp), %rax
	movq	%rax, 616(%rsp)
	movq	80(%rsp), %rax
	movq	%rax, 624(%rsp)
	movq	392(%rsp), %rax
	movq	%rax, 632(%rsp)
	movq	96(%rsp), %rax
	movq	%rax, 640(%rsp)
	movq	%r14, 648(%rsp)
	movq	88(%rsp), %rax
	movq	%rax, 656(%rsp)
	movq	400(%rsp), %rax
	movq	%rax, 664(%rsp)
	movq	32(%rsp), %rax
	movq	%rax, 672(%rsp)
	movq	72(%rsp), %rax
	movq	%rax, 680(%rsp)
	movq	408(%rsp), %rax
	movq	%rax, 688(%rsp)
	movq	40(%rsp), %rax
	movq	%rax, 696(%rsp)
	movq	64(%rsp), %rax
	movq	%rax, 704(%rsp)
	movq	416(%rsp), %rax
	movq	%rax, 712(%rsp)
	movq	(%rsp), %rax
	movq	%rax, 720(%rsp)
	movq	176(%rsp), %rax
	movq	%rax, 728(%rsp)
	movq	424(%rsp), %rax
	movq	%rax, 736(%rsp)
	movq	56(%rsp), %rax
	movq	%rax, 744(%rsp)
	movq	224(%rsp), %rax
	movq	%rax, 752(%rsp)
	movq	432(%rsp), %rax
	movq	%rax, 760(%rsp)
	movq	8(%rsp), %rax
	movq	%rax, 768(%rsp)
	movq	128(%rsp), %rax
	movq	%rax, 776(%rsp)
	movq	440(%rsp), %rax
	movq	%rax, 784(%rsp)
	movq	16(%rsp), %rax
	movq	%rax, 792(%rsp)
	movq	448(%rsp), %rax
	movq	%rax, 800(%rsp)
	movq	456(%rsp), %rax
	movq	%rax, 808(%rsp)
	leaq	464(%rsp), %rdi
	callq	"mime_lookup::mime_lookup++read_back++names++IndexedNames+Destruct::drop"
	jmp	85b
184:
	.size	"mime_tool::preparing::Prepared::prepare", 184b-"mime_tool::preparing::Prepared::prepare"

	.section	.rodata.cst16,"aM",@progbits,16
	.p2align	4, 0x0
1:
	.zero	16,47
2:
	.zero	16,45
3:
	.byte	3,2,1,0,7,6,5,4,11,10,9,8,15,14,13,12
4:
	.byte	0,1,2,3,4,5,6,7,8,9,10,11,12,13,14,15
5:
	.byte	16,17,18,19,20,21,22,23,24,25,26,27,28,29,30,31
6:
	.byte	16,15,14,13,12,11,10,9,8,7,6,5,4,3,2,1
	.text
	.p2align	4
	.type	"mime_tool::program::answer::<#2d382ade8d012bfb>",@function
"mime_tool::program::answer::<#2d382ade8d012bfb>":
	pushq	%rbp
	pushq	%r15
	pushq	%r14
	pushq	%r13
	pushq	%r12
	pushq	%rbx
	subq	$3072, %rsp
	movq	$0, (%rsp)
	subq	$3072, %rsp
	movq	$0, (%rsp)
	subq	$3072, %rsp
	movq	$0, (%rsp)
	subq	$3072, %rsp
	movq	$0, (%rsp)
	subq	$3072, %rsp
	movq	$0, (%rsp)
	subq	$3072, %rsp
	movq	$0, (%rsp)
	subq	$120, %rsp
	movq	%rcx, %r13
	movq	%rdi, %r15
	movzbl	(%rdx), %ebx
	leaq	8(%rdx), %rax
	movzbl	(%rcx), %ecx
	leaq	779f(%rip), %rdi
	movslq	(%rdi,%rcx,4), %rcx
	addq	%rdi, %rcx
	jmpq	*%rcx
7:
	leaq	8(%r13), %rcx
	movzbl	40(%r13), %ebp
	movq	48(%r13), %r10
	movq	56(%r13), %r14
	cmpq	$1, %r14
	jne	21f
	movzbl	(%r10), %r9d
	movl	%r9d, %edi
	shll	$16, %edi
	movl	%r9d, %r8d
	shll	$8, %r8d
	orl	%edi, %r8d
	orl	%r9d, %r8d
	cmpl	$2960685, %r8d
	jne	21f
	testb	$1, 80(%rdx)
	je	110f
	pxor	%xmm0, %xmm0
	movdqa	%xmm0, 2112(%rsp)
	movdqa	%xmm0, 2096(%rsp)
	leaq	.L7990ae6ec50f(%rip), %rsi
	leaq	2096(%rsp), %rdi
	movl	$44, %edx
	callq	"std_alloc::string::String::format::<#cba637970f1a6228>"
	xorl	%ebp, %ebp
	cmpb	$0, 2096(%rsp)
	setne	%bl
	jne	138f
	movq	2120(%rsp), %r13
	jmp	139f
8:
	movq	%r15, 40(%rsp)
	movq	%r8, 96(%rsp)
	movq	%r9, %r12
	leaq	8(%r13), %r14
	movq	64(%r13), %rbp
	movq	72(%r13), %r15
	movq	48(%r13), %rcx
	movq	%rcx, 1552(%rsp)
	movzbl	56(%r13), %ecx
	movb	%cl, 1560(%rsp)
	xorps	%xmm0, %xmm0
	movaps	%xmm0, 640(%rsp)
	movaps	%xmm0, 656(%rsp)
	movq	$0, 672(%rsp)
	movq	%rbx, 14432(%rsp)
	movdqu	(%rax), %xmm0
	movups	16(%rax), %xmm1
	movdqu	32(%rax), %xmm2
	movdqu	48(%rax), %xmm3
	movdqu	%xmm0, 14440(%rsp)
	movups	%xmm1, 14456(%rsp)
	movdqu	%xmm2, 14472(%rsp)
	movdqu	%xmm3, 14488(%rsp)
	movq	64(%rax), %rax
	movq	%rax, 14504(%rsp)
	leaq	640(%rsp), %rdi
	leaq	14432(%rsp), %rdx
	movq	%r14, %rcx
	movq	%rsi, %rbx
	callq	"mime_tool::sources::read_source::<#2e1b2a3647f851f7>"
	movq	648(%rsp), %rax
	cmpb	$0, 640(%rsp)
	movdqa	656(%rsp), %xmm1
	je	25f
	movq	672(%rsp), %r13
	movb	$1, %r14b
	xorl	%ebp, %ebp
	movl	%eax, %ebx
	movdqa	%xmm1, %xmm0
	jmp	136f
9:
	leaq	8(%r13), %r14
	xorps	%xmm0, %xmm0
	movaps	%xmm0, 14432(%rsp)
	movaps	%xmm0, 14448(%rsp)
	movq	$0, 14464(%rsp)
	movq	%rbx, 2096(%rsp)
	movups	(%rax), %xmm0
	movups	16(%rax), %xmm1
	movdqu	32(%rax), %xmm2
	movdqu	48(%rax), %xmm3
	movups	%xmm0, 2104(%rsp)
	movups	%xmm1, 2120(%rsp)
	movdqu	%xmm2, 2136(%rsp)
	movdqu	%xmm3, 2152(%rsp)
	movq	64(%rax), %rax
	movq	%rax, 2168(%rsp)
	leaq	14432(%rsp), %rdi
	leaq	2096(%rsp), %rdx
	movq	%r14, %rcx
	movq	%rsi, %rbx
	callq	"mime_tool::sources::read_source::<#2e1b2a3647f851f7>"
	movq	14440(%rsp), %r12
	cmpb	$0, 14432(%rsp)
	movdqa	14448(%rsp), %xmm1
	je	26f
	movq	14464(%rsp), %r13
	movb	$1, %r14b
	movl	%r12d, %ebx
	movdqa	%xmm1, %xmm0
10:
	xorl	%ebp, %ebp
	jmp	137f
11:
	leaq	8(%r13), %r14
	xorps	%xmm0, %xmm0
	movaps	%xmm0, 640(%rsp)
	movaps	%xmm0, 656(%rsp)
	movq	$0, 672(%rsp)
	movq	%rbx, 6240(%rsp)
	movdqu	(%rax), %xmm0
	movups	16(%rax), %xmm1
	movdqu	32(%rax), %xmm2
	movdqu	48(%rax), %xmm3
	movdqu	%xmm0, 6248(%rsp)
	movups	%xmm1, 6264(%rsp)
	movdqu	%xmm2, 6280(%rsp)
	movdqu	%xmm3, 6296(%rsp)
	movq	64(%rax), %rax
	movq	%rax, 6312(%rsp)
	leaq	640(%rsp), %rdi
	leaq	6240(%rsp), %rdx
	movq	%r14, %rcx
	movq	%rsi, %rbx
	callq	"mime_tool::sources::read_source::<#2e1b2a3647f851f7>"
	movq	648(%rsp), %r12
	cmpb	$0, 640(%rsp)
	movdqa	656(%rsp), %xmm1
	je	27f
	movq	672(%rsp), %r13
	movb	$1, %r14b
	xorl	%ebp, %ebp
	movl	%r12d, %ebx
	movdqa	%xmm1, %xmm0
	jmp	137f
12:
	movq	%r15, 40(%rsp)
	movq	%r8, 96(%rsp)
	movq	%r9, 48(%rsp)
	leaq	64(%r13), %r15
	movzbl	48(%r13), %ecx
	movb	%cl, 144(%rsp)
	movzbl	49(%r13), %ecx
	movb	%cl, 80(%rsp)
	movzbl	50(%r13), %ecx
	movb	%cl, 32(%rsp)
	movzbl	51(%r13), %ebp
	movzbl	52(%r13), %ecx
	movb	%cl, 72(%rsp)
	cmpb	$1, 8(%r13)
	movl	53(%r13), %r12d
	setne	%cl
	orb	%r12b, %cl
	testb	$1, %cl
	je	22f
	movq	%r15, 128(%rsp)
	leaq	8(%r13), %r14
	xorps	%xmm0, %xmm0
	movaps	%xmm0, 14432(%rsp)
	movaps	%xmm0, 14448(%rsp)
	movq	$0, 14464(%rsp)
	movaps	%xmm0, 10336(%rsp)
	movaps	%xmm0, 10352(%rsp)
	movq	$0, 10368(%rsp)
	movups	(%rax), %xmm0
	movdqu	16(%rax), %xmm1
	movdqu	32(%rax), %xmm2
	movdqu	48(%rax), %xmm3
	movups	%xmm0, 2104(%rsp)
	movdqu	%xmm1, 2120(%rsp)
	movdqu	%xmm2, 2136(%rsp)
	movdqu	%xmm3, 2152(%rsp)
	movq	64(%rax), %rax
	movq	%rax, 2168(%rsp)
	movq	%rbx, 2096(%rsp)
	leaq	10336(%rsp), %rdi
	leaq	2096(%rsp), %rdx
	movq	%r14, %rcx
	movq	%rsi, %r15
	callq	"mime_tool::sources::read_source::<#2e1b2a3647f851f7>"
	movq	10344(%rsp), %rbx
	cmpb	$0, 10336(%rsp)
	movdqa	10352(%rsp), %xmm0
	je	59f
	movq	10368(%rsp), %r13
	movb	$1, %r14b
	jmp	24f
13:
	movq	%r15, 40(%rsp)
	movq	%r8, 96(%rsp)
	movq	%r9, 48(%rsp)
	leaq	8(%r13), %rcx
	movzbl	40(%r13), %edx
	movb	%dl, 144(%rsp)
	movzbl	41(%r13), %edx
	movb	%dl, 80(%rsp)
	movzbl	42(%r13), %r14d
	movzbl	43(%r13), %r15d
	movzbl	44(%r13), %edx
	movb	%dl, 72(%rsp)
	movl	45(%r13), %ebp
	xorps	%xmm0, %xmm0
	movaps	%xmm0, 2096(%rsp)
	movaps	%xmm0, 2112(%rsp)
	movaps	%xmm0, 2128(%rsp)
	movaps	%xmm0, 2144(%rsp)
	movaps	%xmm0, 2160(%rsp)
	movaps	%xmm0, 2176(%rsp)
	movaps	%xmm0, 2192(%rsp)
	movaps	%xmm0, 2208(%rsp)
	movaps	%xmm0, 2224(%rsp)
	movq	$0, 2240(%rsp)
	movups	%xmm0, 648(%rsp)
	movups	(%rax), %xmm0
	movdqu	16(%rax), %xmm1
	movdqu	32(%rax), %xmm2
	movdqu	48(%rax), %xmm3
	movups	%xmm0, 10344(%rsp)
	movdqu	%xmm1, 10360(%rsp)
	movdqu	%xmm2, 10376(%rsp)
	movdqu	%xmm3, 10392(%rsp)
	movq	64(%rax), %rax
	movq	%rax, 10408(%rsp)
	movq	%rbx, 10336(%rsp)
	movq	$0, 640(%rsp)
	leaq	2096(%rsp), %rdi
	leaq	10336(%rsp), %rdx
	leaq	640(%rsp), %r8
	movq	%rsi, %r12
	callq	"mime_tool::directories::load::<#2e1b2a3647f851f7>"
	movq	2104(%rsp), %rbx
	cmpb	$0, 2096(%rsp)
	jne	23f
	leaq	2112(%rsp), %rax
	addq	$56, %r13
	movq	%rbx, 6240(%rsp)
	movups	(%rax), %xmm0
	movups	%xmm0, 6248(%rsp)
	movq	16(%rax), %rax
	movq	%rax, 6264(%rsp)
	movups	2136(%rsp), %xmm0
	movdqu	2152(%rsp), %xmm1
	movdqu	2168(%rsp), %xmm2
	movdqu	2184(%rsp), %xmm3
	movups	%xmm0, 6272(%rsp)
	movdqu	%xmm1, 6288(%rsp)
	movdqu	%xmm2, 6304(%rsp)
	movdqu	%xmm3, 6320(%rsp)
	movups	2200(%rsp), %xmm0
	movups	%xmm0, 6336(%rsp)
	movups	2216(%rsp), %xmm0
	movups	%xmm0, 6352(%rsp)
	movups	2232(%rsp), %xmm0
	movups	%xmm0, 6368(%rsp)
	xorps	%xmm0, %xmm0
	movaps	%xmm0, 864(%rsp)
	movaps	%xmm0, 880(%rsp)
	movq	$0, 896(%rsp)
	addb	%r15b, %r15b
	andb	$2, %r15b
	movzbl	%r15b, %eax
	testb	$1, %r14b
	movl	$1, %ecx
	cmovel	%eax, %ecx
	testb	$1, 80(%rsp)
	movl	$3, %eax
	cmovel	%ecx, %eax
	movl	%ebp, %ecx
	shrl	$8, %ecx
	movq	$0, 14432(%rsp)
	leaq	6240(%rsp), %rdx
	movq	%rdx, 14440(%rsp)
	movups	%xmm0, 14448(%rsp)
	movups	%xmm0, 14464(%rsp)
	movzbl	144(%rsp), %edx
	movb	%dl, 14480(%rsp)
	movzbl	72(%rsp), %edx
	movb	%dl, 14481(%rsp)
	movb	%al, 14482(%rsp)
	shrl	$24, %ebp
	movb	%bpl, 14485(%rsp)
	movw	%cx, 14483(%rsp)
	movw	$0, 14486(%rsp)
	leaq	864(%rsp), %rdi
	leaq	14432(%rsp), %rdx
	movq	%r12, %rsi
	movq	%r13, %rcx
	movq	96(%rsp), %r8
	movq	48(%rsp), %r9
	callq	"mime_tool::subjects::print_subjects::<#2d382ade8d012bfb>"
	movzbl	864(%rsp), %eax
	movq	%rax, 32(%rsp)
	movzbl	865(%rsp), %eax
	movq	%rax, 144(%rsp)
	movzbl	872(%rsp), %eax
	movq	%rax, 80(%rsp)
	movaps	880(%rsp), %xmm0
	movaps	%xmm0, 48(%rsp)
	movq	896(%rsp), %rax
	movq	%rax, 128(%rsp)
	movq	6240(%rsp), %r15
	movq	6248(%rsp), %rbx
	movq	6256(%rsp), %rax
	movq	%rax, 96(%rsp)
	testq	%rbx, %rbx
	je	28f
	leaq	80(%r15), %r13
	jmp	15f
	.p2align	4
14:
	addq	$104, %r13
	decq	%rbx
	je	28f
15:
	movzbl	-24(%r13), %r12d
	movq	-16(%r13), %r14
	movq	(%r13), %rbp
	cmpb	$0, -72(%r13)
	je	16f
	cmpq	$0, -48(%r13)
	je	16f
	movq	-64(%r13), %rdi
	callq	rattle_dealloc@PLT
16:
	testb	%r12b, %r12b
	je	14b
	testq	%rbp, %rbp
	je	14b
	movq	%r14, %rdi
	callq	rattle_dealloc@PLT
	jmp	14b
17:
	movq	%rsi, 96(%rsp)
	movq	%r15, 40(%rsp)
	movq	48(%r13), %r12
	movq	56(%r13), %rbp
	movq	64(%r13), %r14
	movq	72(%r13), %r15
	movdqu	(%rax), %xmm0
	movdqu	16(%rax), %xmm1
	movdqu	32(%rax), %xmm2
	movdqu	48(%rax), %xmm3
	movdqa	%xmm0, 1136(%rsp)
	movdqa	%xmm1, 1152(%rsp)
	movdqa	%xmm2, 1168(%rsp)
	movdqa	%xmm3, 1184(%rsp)
	movq	64(%rax), %rax
	movq	%rax, 1200(%rsp)
	pxor	%xmm0, %xmm0
	movdqa	%xmm0, 576(%rsp)
	movdqa	%xmm0, 592(%rsp)
	movq	$0, 608(%rsp)
	movdqa	%xmm0, 256(%rsp)
	movdqa	%xmm0, 272(%rsp)
	movdqa	%xmm0, 288(%rsp)
	movdqa	%xmm0, 352(%rsp)
	movdqa	%xmm0, 368(%rsp)
	movdqa	%xmm0, 384(%rsp)
	movdqa	%xmm0, 2128(%rsp)
	movdqa	%xmm0, 2112(%rsp)
	movdqa	%xmm0, 2096(%rsp)
	movq	$0, 2144(%rsp)
	leaq	2096(%rsp), %rdi
	movq	%r12, %rsi
	movq	%rbp, %rdx
	callq	"mime_base::names::TypeName::new"
	cmpb	$0, 2096(%rsp)
	je	55f
	cmpb	$2, 2097(%rsp)
	je	20f
	leaq	576(%rsp), %rdi
	movq	96(%rsp), %rsi
	movq	%r12, %rdx
	movq	%rbp, %rcx
	callq	"mime_tool::type_names::refuse::<#2e1b2a3647f851f7>"
18:
	movzbl	576(%rsp), %r14d
	movzbl	577(%rsp), %ebp
	movzbl	584(%rsp), %ebx
	movdqa	592(%rsp), %xmm0
	movq	608(%rsp), %r13
	jmp	136f
19:
	movq	%rsi, %rbp
	movq	%r15, 40(%rsp)
	movq	48(%r13), %r14
	movq	56(%r13), %r15
	movdqu	(%rax), %xmm0
	movdqu	16(%rax), %xmm1
	movdqu	32(%rax), %xmm2
	movdqu	48(%rax), %xmm3
	movdqa	%xmm0, 1136(%rsp)
	movdqa	%xmm1, 1152(%rsp)
	movdqa	%xmm2, 1168(%rsp)
	movdqa	%xmm3, 1184(%rsp)
	movq	64(%rax), %rax
	movq	%rax, 1200(%rsp)
	pxor	%xmm0, %xmm0
	movdqa	%xmm0, 1760(%rsp)
	movdqa	%xmm0, 1776(%rsp)
	movq	$0, 1792(%rsp)
	movdqa	%xmm0, 1024(%rsp)
	movdqa	%xmm0, 1040(%rsp)
	movdqa	%xmm0, 1056(%rsp)
	movdqa	%xmm0, 2128(%rsp)
	movdqa	%xmm0, 2112(%rsp)
	movdqa	%xmm0, 2096(%rsp)
	movq	$0, 2144(%rsp)
	leaq	2096(%rsp), %rdi
	movq	%r14, %rsi
	movq	%r15, %rdx
	callq	"mime_base::names::TypeName::new"
	cmpb	$0, 2096(%rsp)
	je	56f
	cmpb	$2, 2097(%rsp)
	jne	205f
20:
	xorl	%ebp, %ebp
	movb	$2, %bl
	movb	$1, %r14b
	xorl	%r13d, %r13d
	movq	40(%rsp), %r15
	pxor	%xmm0, %xmm0
	jmp	137f
21:
	xorps	%xmm0, %xmm0
	movaps	%xmm0, 864(%rsp)
	movaps	%xmm0, 880(%rsp)
	movaps	%xmm0, 896(%rsp)
	movaps	%xmm0, 912(%rsp)
	movaps	%xmm0, 928(%rsp)
	movaps	%xmm0, 944(%rsp)
	movaps	%xmm0, 960(%rsp)
	movaps	%xmm0, 976(%rsp)
	movaps	%xmm0, 992(%rsp)
	movq	$0, 1008(%rsp)
	movaps	%xmm0, 640(%rsp)
	movaps	%xmm0, 656(%rsp)
	movaps	%xmm0, 672(%rsp)
	movaps	%xmm0, 688(%rsp)
	movaps	%xmm0, 704(%rsp)
	movaps	%xmm0, 720(%rsp)
	movaps	%xmm0, 736(%rsp)
	movaps	%xmm0, 752(%rsp)
	movaps	%xmm0, 768(%rsp)
	movq	$0, 784(%rsp)
	movq	%rbx, 1136(%rsp)
	movups	(%rax), %xmm0
	movdqu	16(%rax), %xmm1
	movdqu	32(%rax), %xmm2
	movdqu	48(%rax), %xmm3
	movups	%xmm0, 1144(%rsp)
	movdqu	%xmm1, 1160(%rsp)
	movdqu	%xmm2, 1176(%rsp)
	movdqu	%xmm3, 1192(%rsp)
	movq	64(%rax), %rax
	movq	%rax, 1208(%rsp)
	movq	$1, 352(%rsp)
	movq	%r10, 360(%rsp)
	movq	%r14, 368(%rsp)
	leaq	864(%rsp), %rdi
	leaq	1136(%rsp), %rdx
	leaq	352(%rsp), %r8
	movq	%r10, %r12
	callq	"mime_tool::directories::load::<#2e1b2a3647f851f7>"
	movq	872(%rsp), %rbx
	cmpb	$0, 864(%rsp)
	je	57f
	movdqa	880(%rsp), %xmm0
	movq	896(%rsp), %r13
	movb	$1, %r14b
	xorl	%ebp, %ebp
	jmp	137f
22:
	addq	$16, %r13
	xorps	%xmm0, %xmm0
	movaps	%xmm0, 2096(%rsp)
	movaps	%xmm0, 2112(%rsp)
	movaps	%xmm0, 2128(%rsp)
	movaps	%xmm0, 2144(%rsp)
	movaps	%xmm0, 2160(%rsp)
	movaps	%xmm0, 2176(%rsp)
	movaps	%xmm0, 2192(%rsp)
	movaps	%xmm0, 2208(%rsp)
	movaps	%xmm0, 2224(%rsp)
	movq	$0, 2240(%rsp)
	movups	(%rax), %xmm0
	movdqu	16(%rax), %xmm1
	movdqu	32(%rax), %xmm2
	movdqu	48(%rax), %xmm3
	movups	%xmm0, 10344(%rsp)
	movdqu	%xmm1, 10360(%rsp)
	movdqu	%xmm2, 10376(%rsp)
	movdqu	%xmm3, 10392(%rsp)
	movq	64(%rax), %rax
	movq	%rax, 10408(%rsp)
	movq	%rbx, 10336(%rsp)
	leaq	2096(%rsp), %rdi
	leaq	10336(%rsp), %rdx
	movq	%r13, %rcx
	movq	%rsi, %r14
	callq	"mime_tool::sources::load_fitting::<#2e1b2a3647f851f7>"
	movq	2104(%rsp), %rbx
	cmpb	$0, 2096(%rsp)
	je	60f
23:
	movdqa	2112(%rsp), %xmm0
	movb	$1, %r14b
	movq	2128(%rsp), %r13
24:
	xorl	%ebp, %ebp
	jmp	136f
25:
	movq	%rbp, 48(%rsp)
	cmpb	$0, (%r14)
	je	93f
	leaq	.L22d5119de29e(%rip), %rsi
	xorl	%edx, %edx
	jmp	94f
26:
	cmpb	$0, (%r14)
	je	96f
	leaq	.L22d5119de29e(%rip), %rsi
	xorl	%edx, %edx
	jmp	97f
27:
	movq	%rbx, 96(%rsp)
	cmpb	$0, (%r14)
	je	101f
	leaq	.L22d5119de29e(%rip), %rsi
	xorl	%edx, %edx
	jmp	102f
28:
	cmpq	$0, 96(%rsp)
	je	29f
	movq	%r15, %rdi
	callq	rattle_dealloc@PLT
29:
	movq	6264(%rsp), %r15
	movq	6272(%rsp), %r12
	movq	6280(%rsp), %rax
	movq	%rax, 96(%rsp)
	testq	%r12, %r12
	je	33f
	movq	%r15, %r13
	jmp	31f
	.p2align	4
30:
	addq	$96, %r13
	decq	%r12
	je	33f
31:
	movzbl	48(%r13), %ebx
	movq	56(%r13), %r14
	movq	72(%r13), %rbp
	cmpb	$0, (%r13)
	je	32f
	cmpq	$0, 24(%r13)
	je	32f
	movq	8(%r13), %rdi
	callq	rattle_dealloc@PLT
32:
	testb	%bl, %bl
	je	30b
	testq	%rbp, %rbp
	je	30b
	movq	%r14, %rdi
	callq	rattle_dealloc@PLT
	jmp	30b
33:
	cmpq	$0, 96(%rsp)
	je	34f
	movq	%r15, %rdi
	callq	rattle_dealloc@PLT
34:
	movq	6288(%rsp), %r15
	movq	6296(%rsp), %r12
	movq	6304(%rsp), %rax
	movq	%rax, 96(%rsp)
	testq	%r12, %r12
	je	38f
	movq	%r15, %r13
	jmp	36f
	.p2align	4
35:
	addq	$96, %r13
	decq	%r12
	je	38f
36:
	movzbl	48(%r13), %ebx
	movq	56(%r13), %r14
	movq	72(%r13), %rbp
	cmpb	$0, (%r13)
	je	37f
	cmpq	$0, 24(%r13)
	je	37f
	movq	8(%r13), %rdi
	callq	rattle_dealloc@PLT
37:
	testb	%bl, %bl
	je	35b
	testq	%rbp, %rbp
	je	35b
	movq	%r14, %rdi
	callq	rattle_dealloc@PLT
	jmp	35b
38:
	cmpq	$0, 96(%rsp)
	je	39f
	movq	%r15, %rdi
	callq	rattle_dealloc@PLT
39:
	movq	6312(%rsp), %r15
	movq	6320(%rsp), %rcx
	movq	6328(%rsp), %rax
	movq	%rax, 72(%rsp)
	movq	%rcx, 96(%rsp)
	testq	%rcx, %rcx
	je	45f
	xorl	%ebp, %ebp
	jmp	41f
	.p2align	4
40:
	incq	%rbp
	cmpq	96(%rsp), %rbp
	je	45f
41:
	movq	%rbp, %rax
	shlq	$4, %rax
	leaq	(%rax,%rax,4), %rax
	movq	56(%r15,%rax), %r13
	movq	64(%r15,%rax), %r14
	movq	72(%r15,%rax), %rbx
	cmpb	$0, 8(%r15,%rax)
	je	42f
	cmpq	$0, 32(%r15,%rax)
	je	42f
	movq	16(%r15,%rax), %rdi
	callq	rattle_dealloc@PLT
42:
	testq	%r14, %r14
	je	44f
	movq	%r13, %r12
	.p2align	4
43:
	movups	80(%r12), %xmm0
	movaps	%xmm0, 14512(%rsp)
	movups	64(%r12), %xmm0
	movaps	%xmm0, 14496(%rsp)
	movups	(%r12), %xmm0
	movdqu	16(%r12), %xmm1
	movdqu	32(%r12), %xmm2
	movdqu	48(%r12), %xmm3
	movdqa	%xmm3, 14480(%rsp)
	movdqa	%xmm2, 14464(%rsp)
	movdqa	%xmm1, 14448(%rsp)
	movaps	%xmm0, 14432(%rsp)
	leaq	14432(%rsp), %rdi
	callq	"mime_text::mime_base++magic++matchlet++Matchlet+Destruct::drop"
	addq	$96, %r12
	decq	%r14
	jne	43b
44:
	testq	%rbx, %rbx
	je	40b
	movq	%r13, %rdi
	callq	rattle_dealloc@PLT
	jmp	40b
45:
	cmpq	$0, 72(%rsp)
	je	46f
	movq	%r15, %rdi
	callq	rattle_dealloc@PLT
46:
	movq	6336(%rsp), %r15
	movq	6344(%rsp), %r12
	movq	6352(%rsp), %rax
	movq	%rax, 96(%rsp)
	testq	%r12, %r12
	je	50f
	movq	%r15, %r13
	jmp	48f
	.p2align	4
47:
	addq	$96, %r13
	decq	%r12
	je	50f
48:
	movzbl	48(%r13), %ebx
	movq	56(%r13), %r14
	movq	72(%r13), %rbp
	cmpb	$0, (%r13)
	je	49f
	cmpq	$0, 24(%r13)
	je	49f
	movq	8(%r13), %rdi
	callq	rattle_dealloc@PLT
49:
	testb	%bl, %bl
	je	47b
	testq	%rbp, %rbp
	je	47b
	movq	%r14, %rdi
	callq	rattle_dealloc@PLT
	jmp	47b
50:
	cmpq	$0, 96(%rsp)
	je	51f
	movq	%r15, %rdi
	callq	rattle_dealloc@PLT
51:
	movq	6360(%rsp), %r15
	movq	6368(%rsp), %r12
	movq	6376(%rsp), %rax
	movq	%rax, 96(%rsp)
	testq	%r12, %r12
	je	91f
	movq	%r15, %r13
	jmp	53f
	.p2align	4
52:
	addq	$96, %r13
	decq	%r12
	je	91f
53:
	movzbl	48(%r13), %ebx
	movq	56(%r13), %r14
	movq	72(%r13), %rbp
	cmpb	$0, (%r13)
	je	54f
	cmpq	$0, 24(%r13)
	je	54f
	movq	8(%r13), %rdi
	callq	rattle_dealloc@PLT
54:
	testb	%bl, %bl
	je	52b
	testq	%rbp, %rbp
	je	52b
	movq	%r14, %rdi
	callq	rattle_dealloc@PLT
	jmp	52b
55:
	movzbl	2104(%rsp), %eax
	movdqa	2112(%rsp), %xmm0
	movdqa	2128(%rsp), %xmm1
	movdqa	%xmm0, 448(%rsp)
	movdqa	%xmm1, 464(%rsp)
	movq	2144(%rsp), %rcx
	movq	%rcx, 480(%rsp)
	movq	%rax, 256(%rsp)
	movdqu	%xmm0, 264(%rsp)
	movdqu	%xmm1, 280(%rsp)
	movq	%rcx, 296(%rsp)
	pxor	%xmm0, %xmm0
	movdqa	%xmm0, 2128(%rsp)
	movdqa	%xmm0, 2112(%rsp)
	movdqa	%xmm0, 2096(%rsp)
	movq	$0, 2144(%rsp)
	leaq	2096(%rsp), %rdi
	movq	%r14, %rsi
	movq	%r15, %rdx
	callq	"mime_base::names::TypeName::new"
	cmpb	$0, 2096(%rsp)
	je	104f
	cmpb	$2, 2097(%rsp)
	movq	96(%rsp), %rsi
	jne	246f
	xorl	%r13d, %r13d
	cmpb	$1, 256(%rsp)
	pxor	%xmm0, %xmm0
	movb	$2, %bl
	movb	$1, %r14b
	movl	$0, %ebp
	movq	40(%rsp), %r15
	jne	137f
	cmpq	$0, 280(%rsp)
	je	137f
	movq	264(%rsp), %rdi
	callq	rattle_dealloc@PLT
	pxor	%xmm0, %xmm0
	xorl	%ebp, %ebp
	xorl	%r13d, %r13d
	jmp	137f
56:
	addq	$8, %r13
	movzbl	2104(%rsp), %eax
	movaps	2112(%rsp), %xmm0
	movaps	2128(%rsp), %xmm1
	movaps	%xmm0, 6192(%rsp)
	movaps	%xmm1, 6208(%rsp)
	movq	2144(%rsp), %rcx
	movq	%rcx, 6224(%rsp)
	movq	%rax, 1024(%rsp)
	movups	%xmm0, 1032(%rsp)
	movups	%xmm1, 1048(%rsp)
	movq	%rcx, 1064(%rsp)
	movq	%rbx, 864(%rsp)
	movdqa	1136(%rsp), %xmm0
	movaps	1152(%rsp), %xmm1
	movdqa	1168(%rsp), %xmm2
	movdqa	1184(%rsp), %xmm3
	movdqu	%xmm0, 872(%rsp)
	movups	%xmm1, 888(%rsp)
	movdqu	%xmm2, 904(%rsp)
	movdqu	%xmm3, 920(%rsp)
	movq	1200(%rsp), %rax
	movq	%rax, 936(%rsp)
	leaq	6240(%rsp), %rdi
	leaq	864(%rsp), %rdx
	movq	%rbp, %rsi
	movq	%r13, %rcx
	callq	"mime_tool::sources::read_data::<#2e1b2a3647f851f7>"
	cmpb	$0, 6240(%rsp)
	movzbl	6248(%rsp), %ecx
	movq	6256(%rsp), %r15
	movb	$1, %r14b
	movdqu	6264(%rsp), %xmm1
	je	105f
	movq	%r15, %rax
	movl	%ecx, %ebx
	movdqa	%xmm1, %xmm5
	movq	40(%rsp), %r15
	jmp	300f
57:
	movq	%r12, 32(%rsp)
	movq	896(%rsp), %rax
	movq	%rbx, 1552(%rsp)
	movaps	880(%rsp), %xmm0
	movups	%xmm0, 1560(%rsp)
	movq	%rax, 1576(%rsp)
	movups	904(%rsp), %xmm0
	movups	%xmm0, 1584(%rsp)
	movups	920(%rsp), %xmm0
	movups	%xmm0, 1600(%rsp)
	movups	936(%rsp), %xmm0
	movups	%xmm0, 1616(%rsp)
	movups	952(%rsp), %xmm0
	movups	%xmm0, 1632(%rsp)
	movups	968(%rsp), %xmm0
	movups	%xmm0, 1648(%rsp)
	movups	984(%rsp), %xmm0
	movups	%xmm0, 1664(%rsp)
	movdqu	1000(%rsp), %xmm0
	movdqu	%xmm0, 1680(%rsp)
	movzbl	%bpl, %edx
	leaq	640(%rsp), %rdi
	leaq	1552(%rsp), %rsi
	callq	"mime_tool::build::written"
	cmpb	$0, 640(%rsp)
	je	111f
58:
	movb	$2, %bl
	movb	$1, %r14b
	xorl	%r13d, %r13d
	pxor	%xmm0, %xmm0
	xorl	%ebp, %ebp
	jmp	137f
59:
	movl	%r12d, %eax
	shrl	$8, %eax
	cmpb	$0, (%r14)
	movq	48(%rsp), %r9
	movq	96(%rsp), %r8
	je	133f
	leaq	.L22d5119de29e(%rip), %r11
	xorl	%edx, %edx
	jmp	134f
60:
	leaq	2112(%rsp), %rax
	movq	%rbx, 6240(%rsp)
	movups	(%rax), %xmm0
	movups	%xmm0, 6248(%rsp)
	movq	16(%rax), %rax
	movq	%rax, 6264(%rsp)
	movups	2136(%rsp), %xmm0
	movdqu	2152(%rsp), %xmm1
	movdqu	2168(%rsp), %xmm2
	movdqu	2184(%rsp), %xmm3
	movups	%xmm0, 6272(%rsp)
	movdqu	%xmm1, 6288(%rsp)
	movdqu	%xmm2, 6304(%rsp)
	movdqu	%xmm3, 6320(%rsp)
	movups	2200(%rsp), %xmm0
	movups	%xmm0, 6336(%rsp)
	movups	2216(%rsp), %xmm0
	movups	%xmm0, 6352(%rsp)
	movups	2232(%rsp), %xmm0
	movups	%xmm0, 6368(%rsp)
	xorps	%xmm0, %xmm0
	movaps	%xmm0, 864(%rsp)
	movaps	%xmm0, 880(%rsp)
	movq	$0, 896(%rsp)
	addb	%bpl, %bpl
	andb	$2, %bpl
	movzbl	%bpl, %eax
	testb	$1, 32(%rsp)
	movl	$1, %ecx
	cmovel	%eax, %ecx
	testb	$1, 80(%rsp)
	movl	$3, %eax
	cmovel	%ecx, %eax
	movl	%r12d, %ecx
	shrl	$8, %ecx
	movq	$0, 14432(%rsp)
	leaq	6240(%rsp), %rdx
	movq	%rdx, 14440(%rsp)
	movups	%xmm0, 14448(%rsp)
	movups	%xmm0, 14464(%rsp)
	movzbl	144(%rsp), %edx
	movb	%dl, 14480(%rsp)
	movzbl	72(%rsp), %edx
	movb	%dl, 14481(%rsp)
	movb	%al, 14482(%rsp)
	shrl	$24, %r12d
	movb	%r12b, 14485(%rsp)
	movw	%cx, 14483(%rsp)
	movw	$0, 14486(%rsp)
	leaq	864(%rsp), %rdi
	leaq	14432(%rsp), %rdx
	movq	%r14, %rsi
	movq	%r15, %rcx
	movq	96(%rsp), %r8
	movq	48(%rsp), %r9
	callq	"mime_tool::subjects::print_subjects::<#2d382ade8d012bfb>"
	movzbl	864(%rsp), %eax
	movq	%rax, 32(%rsp)
	movzbl	865(%rsp), %eax
	movq	%rax, 144(%rsp)
	movzbl	872(%rsp), %eax
	movq	%rax, 80(%rsp)
	movaps	880(%rsp), %xmm0
	movaps	%xmm0, 48(%rsp)
	movq	896(%rsp), %rax
	movq	%rax, 128(%rsp)
	movq	6240(%rsp), %r15
	movq	6248(%rsp), %r12
	movq	6256(%rsp), %rax
	movq	%rax, 96(%rsp)
	testq	%r12, %r12
	je	64f
	leaq	80(%r15), %r13
	jmp	62f
	.p2align	4
61:
	addq	$104, %r13
	decq	%r12
	je	64f
62:
	movzbl	-24(%r13), %ebx
	movq	-16(%r13), %r14
	movq	(%r13), %rbp
	cmpb	$0, -72(%r13)
	je	63f
	cmpq	$0, -48(%r13)
	je	63f
	movq	-64(%r13), %rdi
	callq	rattle_dealloc@PLT
63:
	testb	%bl, %bl
	je	61b
	testq	%rbp, %rbp
	je	61b
	movq	%r14, %rdi
	callq	rattle_dealloc@PLT
	jmp	61b
64:
	cmpq	$0, 96(%rsp)
	je	65f
	movq	%r15, %rdi
	callq	rattle_dealloc@PLT
65:
	movq	6264(%rsp), %r15
	movq	6272(%rsp), %r12
	movq	6280(%rsp), %rax
	movq	%rax, 96(%rsp)
	testq	%r12, %r12
	je	69f
	movq	%r15, %r13
	jmp	67f
	.p2align	4
66:
	addq	$96, %r13
	decq	%r12
	je	69f
67:
	movzbl	48(%r13), %ebx
	movq	56(%r13), %r14
	movq	72(%r13), %rbp
	cmpb	$0, (%r13)
	je	68f
	cmpq	$0, 24(%r13)
	je	68f
	movq	8(%r13), %rdi
	callq	rattle_dealloc@PLT
68:
	testb	%bl, %bl
	je	66b
	testq	%rbp, %rbp
	je	66b
	movq	%r14, %rdi
	callq	rattle_dealloc@PLT
	jmp	66b
69:
	cmpq	$0, 96(%rsp)
	je	70f
	movq	%r15, %rdi
	callq	rattle_dealloc@PLT
70:
	movq	6288(%rsp), %r15
	movq	6296(%rsp), %r12
	movq	6304(%rsp), %rax
	movq	%rax, 96(%rsp)
	testq	%r12, %r12
	je	74f
	movq	%r15, %r13
	jmp	72f
	.p2align	4
71:
	addq	$96, %r13
	decq	%r12
	je	74f
72:
	movzbl	48(%r13), %ebx
	movq	56(%r13), %r14
	movq	72(%r13), %rbp
	cmpb	$0, (%r13)
	je	73f
	cmpq	$0, 24(%r13)
	je	73f
	movq	8(%r13), %rdi
	callq	rattle_dealloc@PLT
73:
	testb	%bl, %bl
	je	71b
	testq	%rbp, %rbp
	je	71b
	movq	%r14, %rdi
	callq	rattle_dealloc@PLT
	jmp	71b
74:
	cmpq	$0, 96(%rsp)
	je	75f
	movq	%r15, %rdi
	callq	rattle_dealloc@PLT
75:
	movq	6312(%rsp), %r15
	movq	6320(%rsp), %rcx
	movq	6328(%rsp), %rax
	movq	%rax, 72(%rsp)
	movq	%rcx, 96(%rsp)
	testq	%rcx, %rcx
	je	81f
	xorl	%ebp, %ebp
	jmp	77f
	.p2align	4
76:
	incq	%rbp
	cmpq	96(%rsp), %rbp
	je	81f
77:
	movq	%rbp, %rax
	shlq	$4, %rax
	leaq	(%rax,%rax,4), %rax
	movq	56(%r15,%rax), %r13
	movq	64(%r15,%rax), %r14
	movq	72(%r15,%rax), %rbx
	cmpb	$0, 8(%r15,%rax)
	je	78f
	cmpq	$0, 32(%r15,%rax)
	je	78f
	movq	16(%r15,%rax), %rdi
	callq	rattle_dealloc@PLT
78:
	testq	%r14, %r14
	je	80f
	movq	%r13, %r12
	.p2align	4
79:
	movups	80(%r12), %xmm0
	movaps	%xmm0, 14512(%rsp)
	movups	64(%r12), %xmm0
	movaps	%xmm0, 14496(%rsp)
	movups	(%r12), %xmm0
	movdqu	16(%r12), %xmm1
	movdqu	32(%r12), %xmm2
	movdqu	48(%r12), %xmm3
	movdqa	%xmm3, 14480(%rsp)
	movdqa	%xmm2, 14464(%rsp)
	movdqa	%xmm1, 14448(%rsp)
	movaps	%xmm0, 14432(%rsp)
	leaq	14432(%rsp), %rdi
	callq	"mime_text::mime_base++magic++matchlet++Matchlet+Destruct::drop"
	addq	$96, %r12
	decq	%r14
	jne	79b
80:
	testq	%rbx, %rbx
	je	76b
	movq	%r13, %rdi
	callq	rattle_dealloc@PLT
	jmp	76b
81:
	cmpq	$0, 72(%rsp)
	je	82f
	movq	%r15, %rdi
	callq	rattle_dealloc@PLT
82:
	movq	6336(%rsp), %r15
	movq	6344(%rsp), %r12
	movq	6352(%rsp), %rax
	movq	%rax, 96(%rsp)
	testq	%r12, %r12
	je	86f
	movq	%r15, %r13
	jmp	84f
	.p2align	4
83:
	addq	$96, %r13
	decq	%r12
	je	86f
84:
	movzbl	48(%r13), %ebx
	movq	56(%r13), %r14
	movq	72(%r13), %rbp
	cmpb	$0, (%r13)
	je	85f
	cmpq	$0, 24(%r13)
	je	85f
	movq	8(%r13), %rdi
	callq	rattle_dealloc@PLT
85:
	testb	%bl, %bl
	je	83b
	testq	%rbp, %rbp
	je	83b
	movq	%r14, %rdi
	callq	rattle_dealloc@PLT
	jmp	83b
86:
	cmpq	$0, 96(%rsp)
	je	87f
	movq	%r15, %rdi
	callq	rattle_dealloc@PLT
87:
	movq	6360(%rsp), %r15
	movq	6368(%rsp), %r12
	movq	6376(%rsp), %rax
	movq	%rax, 96(%rsp)
	testq	%r12, %r12
	je	91f
	movq	%r15, %r13
	jmp	89f
	.p2align	4
88:
	addq	$96, %r13
	decq	%r12
	je	91f
89:
	movzbl	48(%r13), %ebx
	movq	56(%r13), %r14
	movq	72(%r13), %rbp
	cmpb	$0, (%r13)
	je	90f
	cmpq	$0, 24(%r13)
	je	90f
	movq	8(%r13), %rdi
	callq	rattle_dealloc@PLT
90:
	testb	%bl, %bl
	je	88b
	testq	%rbp, %rbp
	je	88b
	movq	%r14, %rdi
	callq	rattle_dealloc@PLT
	jmp	88b
91:
	cmpq	$0, 96(%rsp)
	je	92f
	movq	%r15, %rdi
	callq	rattle_dealloc@PLT
92:
	movq	80(%rsp), %rbx
	movdqa	48(%rsp), %xmm0
	movq	32(%rsp), %r14
	movq	128(%rsp), %r13
	movq	144(%rsp), %rbp
	jmp	136f
93:
	movq	16(%r13), %rsi
	movq	24(%r13), %rdx
94:
	movq	$0, 2096(%rsp)
	pxor	%xmm0, %xmm0
	movdqa	%xmm0, 6240(%rsp)
	movdqa	%xmm0, 6256(%rsp)
	movdqa	%xmm0, 6272(%rsp)
	movdqa	%xmm0, 6288(%rsp)
	movdqa	%xmm0, 6304(%rsp)
	movdqa	%xmm0, 6320(%rsp)
	movdqa	%xmm0, 6336(%rsp)
	movdqa	%xmm0, 6352(%rsp)
	movdqa	%xmm0, 6368(%rsp)
	movdqa	%xmm0, 6384(%rsp)
	movdqa	%xmm0, 6400(%rsp)
	movdqa	%xmm0, 6416(%rsp)
	movdqa	%xmm0, 6432(%rsp)
	movdqa	%xmm0, 6448(%rsp)
	movdqa	%xmm0, 6464(%rsp)
	movq	$0, 6480(%rsp)
	movq	$0, 864(%rsp)
	movdqa	%xmm0, 10336(%rsp)
	movdqa	%xmm0, 10352(%rsp)
	movq	%xmm1, %r14
	cmpq	$40, %r14
	movq	%rax, 72(%rsp)
	movdqa	%xmm1, 144(%rsp)
	jae	95f
	xorl	%eax, %eax
	jmp	113f
95:
	movl	(%rax), %eax
	cmpl	$33554688, %eax
	jne	112f
	movl	$2, %eax
	cmpq	$268435456, %r14
	ja	113f
	movq	%rdx, 32(%rsp)
	movq	%rsi, 128(%rsp)
	leaq	6240(%rsp), %rdi
	movq	72(%rsp), %rbp
	movq	%rbp, %rsi
	movq	%r14, %rdx
	callq	"mime_tool::check::lists_of"
	movzbl	6240(%rsp), %r13d
	movzbl	6241(%rsp), %eax
	movb	%r13b, 2096(%rsp)
	movb	%al, 80(%rsp)
	movb	%al, 2097(%rsp)
	movzbl	6242(%rsp), %eax
	movq	%rax, 160(%rsp)
	movb	%al, 2098(%rsp)
	leaq	2104(%rsp), %rdi
	leaq	6248(%rsp), %rsi
	movl	$240, %edx
	callq	memcpy@PLT
	pxor	%xmm0, %xmm0
	movdqa	%xmm0, 880(%rsp)
	movdqa	%xmm0, 864(%rsp)
	movq	$0, 896(%rsp)
	testb	%r13b, %r13b
	je	230f
	cmpb	$0, 80(%rsp)
	movdqa	144(%rsp), %xmm1
	je	424f
	movb	$1, %r14b
	movb	$2, %bl
	xorl	%r13d, %r13d
	xorl	%ebp, %ebp
	movq	40(%rsp), %r15
	jmp	116f
96:
	movq	16(%r13), %rsi
	movq	24(%r13), %rdx
97:
	movq	$0, 352(%rsp)
	xorps	%xmm0, %xmm0
	movaps	%xmm0, 864(%rsp)
	movaps	%xmm0, 880(%rsp)
	movq	%xmm1, %rax
	cmpq	$40, %rax
	movdqa	%xmm1, 96(%rsp)
	jae	98f
	xorl	%ebp, %ebp
	jmp	118f
98:
	movl	(%r12), %ecx
	cmpl	$33554688, %ecx
	bswapl	%ecx
	jne	117f
	movl	$2, %ebp
	cmpq	$268435456, %rax
	ja	118f
	movq	%r15, 40(%rsp)
	movq	%rdx, 144(%rsp)
	movq	%rsi, 72(%rsp)
	movdqu	20(%r12), %xmm2
	movdqa	3b(%rip), %xmm0
	pshufb	%xmm0, %xmm2
	movl	36(%r12), %edx
	bswapl	%edx
	movdqu	4(%r12), %xmm1
	pshufb	%xmm0, %xmm1
	movq	%r12, 6240(%rsp)
	movq	%rax, 6248(%rsp)
	movl	%ecx, 6256(%rsp)
	movdqu	%xmm1, 6260(%rsp)
	movdqa	%xmm2, 48(%rsp)
	movdqu	%xmm2, 6276(%rsp)
	movl	%edx, 6292(%rsp)
	movq	%rax, %rcx
	shrq	$2, %rcx
	pextrq	$1, %xmm1, %r14
	movl	%r14d, %edx
	leaq	6240(%rsp), %rsi
	movq	%rsi, 576(%rsp)
	movq	$1, 10336(%rsp)
	movq	$0, 10344(%rsp)
	movq	%rcx, 10352(%rsp)
	movq	%rax, 10360(%rsp)
	pxor	%xmm0, %xmm0
	movdqa	%xmm0, 256(%rsp)
	movq	$0, 272(%rsp)
	leaq	120(%rsp), %rbp
	movq	%rbp, 1136(%rsp)
	movdqu	%xmm0, 1144(%rsp)
	leaq	256(%rsp), %rdi
	leaq	576(%rsp), %rsi
	leaq	1136(%rsp), %rcx
	leaq	10336(%rsp), %r15
	movq	%r15, %r8
	callq	"mime_view::rules::entries::add_entries"
	cmpb	$0, 256(%rsp)
	je	240f
	movq	272(%rsp), %r14
	movd	266(%rsp), %xmm0
	movzbl	264(%rsp), %ebp
	movq	1136(%rsp), %r15
	movq	1144(%rsp), %r13
	movq	1152(%rsp), %rax
	movq	%rax, 80(%rsp)
	testq	%r13, %r13
	movdqa	%xmm0, 48(%rsp)
	je	416f
	leaq	40(%r15), %rbx
	jmp	100f
99:
	addq	$56, %rbx
	decq	%r13
	je	416f
100:
	cmpq	$0, (%rbx)
	je	99b
	movq	-16(%rbx), %rdi
	callq	rattle_dealloc@PLT
	movdqa	48(%rsp), %xmm0
	jmp	99b
101:
	movq	16(%r13), %rsi
	movq	24(%r13), %rdx
102:
	pxor	%xmm0, %xmm0
	movdqa	%xmm0, 2320(%rsp)
	movdqa	%xmm0, 2304(%rsp)
	movdqa	%xmm0, 2288(%rsp)
	movdqa	%xmm0, 2272(%rsp)
	movdqa	%xmm0, 2256(%rsp)
	movdqa	%xmm0, 2240(%rsp)
	movdqa	%xmm0, 2224(%rsp)
	movdqa	%xmm0, 2208(%rsp)
	movdqa	%xmm0, 2192(%rsp)
	movdqa	%xmm0, 2176(%rsp)
	movdqa	%xmm0, 2160(%rsp)
	movdqa	%xmm0, 2144(%rsp)
	movdqa	%xmm0, 2128(%rsp)
	movdqa	%xmm0, 2112(%rsp)
	movdqa	%xmm0, 2096(%rsp)
	movq	$0, 2336(%rsp)
	movq	$0, 10336(%rsp)
	movdqa	%xmm0, 14432(%rsp)
	movdqa	%xmm0, 14448(%rsp)
	movq	%xmm1, %rax
	cmpq	$40, %rax
	movdqa	%xmm1, 144(%rsp)
	jae	103f
	xorl	%ecx, %ecx
	jmp	123f
103:
	movl	(%r12), %ecx
	cmpl	$33554688, %ecx
	jne	122f
	movl	$2, %ecx
	cmpq	$268435456, %rax
	ja	123f
	movq	%r15, 40(%rsp)
	movq	%rdx, 240(%rsp)
	movq	%rsi, 232(%rsp)
	leaq	2096(%rsp), %rdi
	movq	%r12, %rsi
	movq	%rax, %rdx
	callq	"mime_tool::check::lists_of"
	movzbl	2097(%rsp), %eax
	movb	%al, 48(%rsp)
	movzbl	2098(%rsp), %eax
	movq	%rax, 248(%rsp)
	movq	2104(%rsp), %rax
	movq	%rax, 176(%rsp)
	movq	2112(%rsp), %rax
	movq	%rax, 200(%rsp)
	movq	2120(%rsp), %rax
	movq	%rax, 160(%rsp)
	movq	2128(%rsp), %rax
	movq	%rax, 520(%rsp)
	movq	2136(%rsp), %rax
	movq	%rax, 192(%rsp)
	movq	2144(%rsp), %rax
	movq	%rax, 32(%rsp)
	movq	2152(%rsp), %rax
	movq	%rax, 416(%rsp)
	movq	2160(%rsp), %rax
	movq	%rax, 224(%rsp)
	movq	2168(%rsp), %rax
	movq	%rax, 80(%rsp)
	movq	2176(%rsp), %rax
	movq	%rax, 344(%rsp)
	movq	2184(%rsp), %rax
	movq	%rax, 168(%rsp)
	movq	2192(%rsp), %rax
	movq	%rax, 72(%rsp)
	movq	2200(%rsp), %rax
	movq	%rax, 320(%rsp)
	cmpb	$0, 2096(%rsp)
	pxor	%xmm0, %xmm0
	movdqa	%xmm0, 864(%rsp)
	movdqa	%xmm0, 880(%rsp)
	movq	$0, 896(%rsp)
	movq	2216(%rsp), %rax
	movq	%rax, 128(%rsp)
	movq	2224(%rsp), %rbx
	movq	2232(%rsp), %rsi
	movq	2240(%rsp), %r10
	movq	2248(%rsp), %rdi
	movq	2256(%rsp), %rax
	movq	%rax, 328(%rsp)
	movq	2264(%rsp), %r14
	movq	2272(%rsp), %r9
	movq	2280(%rsp), %r13
	movq	2288(%rsp), %r8
	movq	2296(%rsp), %rcx
	movq	2304(%rsp), %rbp
	movq	2312(%rsp), %rdx
	movq	2320(%rsp), %rax
	movq	2328(%rsp), %r15
	movq	2336(%rsp), %r11
	je	395f
	cmpb	$0, 48(%rsp)
	movdqa	144(%rsp), %xmm1
	je	396f
	movb	$1, %r14b
	movb	$2, %bl
	xorl	%r13d, %r13d
	xorl	%ebp, %ebp
	movq	40(%rsp), %r15
	jmp	125f
104:
	addq	$8, %r13
	movzbl	2104(%rsp), %eax
	movaps	2112(%rsp), %xmm0
	movaps	2128(%rsp), %xmm1
	movaps	%xmm0, 800(%rsp)
	movaps	%xmm1, 816(%rsp)
	movq	2144(%rsp), %rcx
	movq	%rcx, 832(%rsp)
	movq	%rax, 352(%rsp)
	movups	%xmm0, 360(%rsp)
	movups	%xmm1, 376(%rsp)
	movq	%rcx, 392(%rsp)
	xorps	%xmm0, %xmm0
	movaps	%xmm0, 1024(%rsp)
	movq	$0, 1040(%rsp)
	movq	%rbx, 1552(%rsp)
	movdqa	1136(%rsp), %xmm0
	movdqa	1152(%rsp), %xmm1
	movdqa	1168(%rsp), %xmm2
	movdqa	1184(%rsp), %xmm3
	movdqu	%xmm0, 1560(%rsp)
	movdqu	%xmm1, 1576(%rsp)
	movdqu	%xmm2, 1592(%rsp)
	movdqu	%xmm3, 1608(%rsp)
	movq	1200(%rsp), %rax
	movq	%rax, 1624(%rsp)
	leaq	14432(%rsp), %rdi
	leaq	1552(%rsp), %rdx
	movq	96(%rsp), %rsi
	movq	%r13, %rcx
	callq	"mime_tool::sources::read_data::<#2e1b2a3647f851f7>"
	movzbl	14440(%rsp), %ebx
	leaq	14448(%rsp), %r15
	pxor	%xmm0, %xmm0
	movdqu	%xmm0, 2120(%rsp)
	movdqu	%xmm0, 2136(%rsp)
	movdqu	%xmm0, 2152(%rsp)
	movdqu	%xmm0, 2168(%rsp)
	movdqu	%xmm0, 2184(%rsp)
	movdqu	%xmm0, 2200(%rsp)
	movdqu	%xmm0, 2216(%rsp)
	movq	$0, 2232(%rsp)
	cmpb	$0, 14432(%rsp)
	je	141f
	movq	16(%r15), %rax
	movq	%rax, 2112(%rsp)
	movups	(%r15), %xmm0
	movaps	%xmm0, 2096(%rsp)
	leaq	864(%rsp), %rdi
	leaq	2096(%rsp), %rsi
	movl	$144, %edx
	callq	memcpy@PLT
	movups	864(%rsp), %xmm0
	movaps	%xmm0, 592(%rsp)
	movq	880(%rsp), %rax
	movq	%rax, 608(%rsp)
	movb	$1, %r14b
	xorl	%ebp, %ebp
	movq	40(%rsp), %r15
	jmp	586f
105:
	leaq	1032(%rsp), %rdx
	movq	6280(%rsp), %r13
	movq	6288(%rsp), %r12
	movq	6296(%rsp), %r11
	movq	6304(%rsp), %rax
	movq	%rax, 320(%rsp)
	movq	6312(%rsp), %rax
	movq	%rax, 416(%rsp)
	movq	6320(%rsp), %r10
	movq	6328(%rsp), %rax
	movq	%rax, 232(%rsp)
	movq	6336(%rsp), %rax
	movq	%rax, 144(%rsp)
	movq	6344(%rsp), %r9
	movq	6352(%rsp), %rax
	movq	%rax, 72(%rsp)
	movq	6360(%rsp), %rbx
	movq	6368(%rsp), %r8
	movq	6376(%rsp), %rax
	movq	%rax, 160(%rsp)
	movq	6384(%rsp), %rax
	movq	%rax, 192(%rsp)
	pxor	%xmm0, %xmm0
	movdqa	%xmm0, 14432(%rsp)
	movdqa	%xmm0, 14448(%rsp)
	movdqa	%xmm0, 14464(%rsp)
	movdqa	%xmm0, 14480(%rsp)
	movdqa	%xmm0, 14496(%rsp)
	movdqa	%xmm0, 14512(%rsp)
	movdqa	%xmm0, 14528(%rsp)
	movdqa	%xmm0, 14544(%rsp)
	movdqa	%xmm0, 14560(%rsp)
	movdqa	%xmm0, 1840(%rsp)
	movdqa	%xmm0, 1856(%rsp)
	movdqa	%xmm0, 1552(%rsp)
	movdqa	%xmm0, 1568(%rsp)
	movdqa	%xmm0, 1584(%rsp)
	movdqa	%xmm0, 1600(%rsp)
	movq	$0, 1616(%rsp)
	movdqa	%xmm0, 1520(%rsp)
	movdqa	%xmm0, 1536(%rsp)
	movdqa	%xmm0, 640(%rsp)
	movdqa	%xmm0, 656(%rsp)
	movdqa	%xmm0, 672(%rsp)
	movdqa	%xmm0, 688(%rsp)
	movq	$0, 704(%rsp)
	movq	6392(%rsp), %rsi
	testb	%cl, %cl
	movdqa	%xmm1, 48(%rsp)
	movq	%rsi, 328(%rsp)
	movq	%r8, 240(%rsp)
	movq	%rbx, 200(%rsp)
	movq	%r9, 248(%rsp)
	movq	%r10, 344(%rsp)
	movq	%r13, 224(%rsp)
	movq	%r11, 520(%rsp)
	movq	%r15, 168(%rsp)
	movb	%cl, 32(%rsp)
	je	201f
	movdqa	%xmm0, 1072(%rsp)
	movdqa	%xmm0, 1088(%rsp)
	movdqa	%xmm0, 576(%rsp)
	movdqa	%xmm0, 592(%rsp)
	movdqa	%xmm0, 608(%rsp)
	movq	$0, 624(%rsp)
	movdqa	%xmm0, 800(%rsp)
	movdqa	%xmm0, 816(%rsp)
	movdqa	%xmm0, 1216(%rsp)
	movdqa	%xmm0, 1232(%rsp)
	movdqa	%xmm0, 352(%rsp)
	movdqa	%xmm0, 368(%rsp)
	movdqa	%xmm0, 384(%rsp)
	movq	$0, 400(%rsp)
	cmpb	$0, 1024(%rsp)
	cmovneq	1032(%rsp), %rdx
	leaq	1064(%rsp), %rax
	leaq	1040(%rsp), %rcx
	cmoveq	%rax, %rcx
	movq	(%rcx), %rcx
	movq	%r13, %rdi
	movq	%r12, %rsi
	callq	"mime_lookup::pairs::unalias"
	movq	%rax, %r8
	movq	%rdx, %r13
	testq	%rbx, %rbx
	movq	%rax, 80(%rsp)
	je	212f
	cmpq	$4, %r13
	jae	206f
	movq	72(%rsp), %rbx
	movq	200(%rsp), %rax
	testq	%r13, %r13
	je	107f
	xorl	%eax, %eax
	movq	72(%rsp), %rbx
	movq	200(%rsp), %rcx
	jmp	130f
106:
	addq	$96, %rbx
	decq	%rax
	je	212f
107:
	cmpb	$0, (%rbx)
	je	108f
	leaq	16(%rbx), %rcx
	jmp	109f
108:
	leaq	40(%rbx), %rcx
109:
	cmpq	$0, (%rcx)
	jne	106b
	jmp	211f
110:
	xorps	%xmm0, %xmm0
	movaps	%xmm0, 2096(%rsp)
	movaps	%xmm0, 2112(%rsp)
	movaps	%xmm0, 2128(%rsp)
	movaps	%xmm0, 2144(%rsp)
	movaps	%xmm0, 2160(%rsp)
	movaps	%xmm0, 2176(%rsp)
	movaps	%xmm0, 2192(%rsp)
	movaps	%xmm0, 2208(%rsp)
	movaps	%xmm0, 2224(%rsp)
	movq	$0, 2240(%rsp)
	movups	%xmm0, 648(%rsp)
	movaps	%xmm0, 6240(%rsp)
	movaps	%xmm0, 6256(%rsp)
	movaps	%xmm0, 6272(%rsp)
	movaps	%xmm0, 6288(%rsp)
	movaps	%xmm0, 6304(%rsp)
	movaps	%xmm0, 6320(%rsp)
	movaps	%xmm0, 6336(%rsp)
	movaps	%xmm0, 6352(%rsp)
	movaps	%xmm0, 6368(%rsp)
	movq	$0, 6384(%rsp)
	movq	%rbx, 864(%rsp)
	movups	(%rax), %xmm0
	movdqu	16(%rax), %xmm1
	movdqu	32(%rax), %xmm2
	movdqu	48(%rax), %xmm3
	movups	%xmm0, 872(%rsp)
	movdqu	%xmm1, 888(%rsp)
	movdqu	%xmm2, 904(%rsp)
	movdqu	%xmm3, 920(%rsp)
	movq	64(%rax), %rax
	movq	%rax, 936(%rsp)
	movq	$0, 640(%rsp)
	leaq	2096(%rsp), %rdi
	leaq	864(%rsp), %rdx
	leaq	640(%rsp), %r8
	movq	%rsi, %r12
	callq	"mime_tool::directories::load::<#2e1b2a3647f851f7>"
	movq	2104(%rsp), %rbx
	cmpb	$0, 2096(%rsp)
	je	202f
	movdqa	2112(%rsp), %xmm0
	movq	2128(%rsp), %r13
	movb	$1, %r14b
	xorl	%ebp, %ebp
	jmp	137f
111:
	leaq	648(%rsp), %rsi
	movq	648(%rsp), %rax
	movq	%rax, 192(%rsp)
	movq	656(%rsp), %rbp
	movq	664(%rsp), %rax
	movq	%rax, 520(%rsp)
	movq	672(%rsp), %rax
	movq	%rax, 200(%rsp)
	movq	680(%rsp), %r13
	movq	688(%rsp), %rax
	movq	%rax, 416(%rsp)
	movq	696(%rsp), %rax
	movq	%rax, 248(%rsp)
	movq	704(%rsp), %rax
	movq	%rax, 344(%rsp)
	movq	712(%rsp), %rax
	movq	%rax, 320(%rsp)
	movq	720(%rsp), %rax
	movq	%rax, 144(%rsp)
	movq	728(%rsp), %rax
	movq	%rax, 72(%rsp)
	movq	736(%rsp), %rax
	movq	%rax, 232(%rsp)
	movq	744(%rsp), %rax
	movq	%rax, 160(%rsp)
	movq	752(%rsp), %rax
	movq	%rax, 96(%rsp)
	pxor	%xmm0, %xmm0
	movdqa	%xmm0, 272(%rsp)
	movdqa	%xmm0, 256(%rsp)
	movq	$0, 288(%rsp)
	movq	760(%rsp), %rax
	movq	%rax, 240(%rsp)
	movq	768(%rsp), %rax
	movq	%rax, 168(%rsp)
	movq	776(%rsp), %rax
	movq	%rax, 328(%rsp)
	movq	784(%rsp), %rax
	movq	%rax, 224(%rsp)
	leaq	256(%rsp), %rdi
	callq	"mime_tool::build::cache_of"
	movq	264(%rsp), %r12
	cmpb	$0, 256(%rsp)
	movdqa	272(%rsp), %xmm0
	movq	%r15, 40(%rsp)
	movq	%r12, 80(%rsp)
	je	203f
	movb	$1, %al
	movq	%rax, 32(%rsp)
	movq	288(%rsp), %rax
	movq	%rax, 128(%rsp)
	movdqa	%xmm0, 48(%rsp)
	testq	%rbp, %rbp
	jne	317f
	jmp	739f
112:
	bswapl	%eax
	movl	%eax, %ecx
	andl	$-65536, %ecx
	movzwl	%ax, %eax
	shlq	$32, %rax
	addq	%rcx, %rax
	incq	%rax
113:
	movzbl	%al, %ecx
	movw	%cx, 864(%rsp)
	shrq	$16, %rax
	movl	%eax, 866(%rsp)
	movq	$0, 872(%rsp)
	leaq	10336(%rsp), %rdi
	leaq	864(%rsp), %rcx
	callq	"mime_tool::cache::faulty"
	movzbl	10336(%rsp), %ebx
	movdqu	10344(%rsp), %xmm0
	movq	10360(%rsp), %r13
114:
	movb	$1, %r14b
	xorl	%ebp, %ebp
	movq	40(%rsp), %r15
115:
	movdqa	144(%rsp), %xmm1
116:
	pextrq	$1, %xmm1, %rax
	testq	%rax, %rax
	je	137f
	movq	72(%rsp), %rdi
	jmp	126f
117:
	movl	%ecx, %eax
	andl	$-65536, %eax
	movzwl	%cx, %ecx
	shlq	$32, %rcx
	leaq	(%rcx,%rax), %rbp
	incq	%rbp
118:
	movq	%rbp, %rax
	shrq	$32, %rax
	movd	%ebp, %xmm0
	psrld	$16, %xmm0
	pinsrw	$1, %eax, %xmm0
	xorl	%r14d, %r14d
119:
	movzbl	%bpl, %eax
	movw	%ax, 352(%rsp)
	movd	%xmm0, 354(%rsp)
	movq	%r14, 360(%rsp)
	leaq	864(%rsp), %rdi
	leaq	352(%rsp), %rcx
	callq	"mime_tool::cache::faulty"
	movzbl	864(%rsp), %ebx
	movdqu	872(%rsp), %xmm0
	movq	888(%rsp), %r13
120:
	movb	$1, %r14b
	movdqa	96(%rsp), %xmm1
	pextrq	$1, %xmm1, %rax
	testq	%rax, %rax
	je	10b
121:
	movq	%r12, %rdi
	jmp	301f
122:
	bswapl	%ecx
	movl	%ecx, %eax
	andl	$-65536, %eax
	movzwl	%cx, %ecx
	shlq	$32, %rcx
	addq	%rax, %rcx
	incq	%rcx
123:
	movzbl	%cl, %eax
	movw	%ax, 10336(%rsp)
	shrq	$16, %rcx
	movl	%ecx, 10338(%rsp)
	movq	$0, 10344(%rsp)
	leaq	14432(%rsp), %rdi
	leaq	10336(%rsp), %rcx
	callq	"mime_tool::cache::faulty"
	movzbl	14432(%rsp), %ebx
	movdqu	14440(%rsp), %xmm0
	movq	14456(%rsp), %r13
	movb	$1, %r14b
	xorl	%ebp, %ebp
124:
	movdqa	144(%rsp), %xmm1
125:
	pextrq	$1, %xmm1, %rax
	testq	%rax, %rax
	je	137f
	movq	%r12, %rdi
126:
	movdqa	%xmm0, 48(%rsp)
	callq	rattle_dealloc@PLT
	movdqa	48(%rsp), %xmm0
	jmp	137f
127:
	xorl	%esi, %esi
128:
	cmpq	%r13, %rsi
	jae	211f
129:
	incq	%rax
	addq	$96, %rbx
	decq	%rcx
	je	212f
130:
	leaq	8(%rbx), %rdx
	cmpb	$0, (%rbx)
	je	131f
	leaq	(%rax,%rax,2), %rsi
	shlq	$5, %rsi
	addq	72(%rsp), %rsi
	movq	(%rdx), %rdx
	addq	$16, %rsi
	jmp	132f
131:
	leaq	40(%rbx), %rsi
132:
	cmpq	%r13, (%rsi)
	jne	129b
	movzbl	(%rdx), %esi
	cmpb	(%r8), %sil
	jne	127b
	cmpq	$1, %r13
	je	211f
	movzbl	1(%rdx), %edi
	movl	$1, %esi
	cmpb	1(%r8), %dil
	jne	128b
	cmpq	$2, %r13
	je	211f
	movzbl	2(%rdx), %edx
	movl	$2, %esi
	cmpb	2(%r8), %dl
	jne	128b
	jmp	211f
133:
	movq	16(%r13), %r11
	movq	24(%r13), %rdx
134:
	movq	128(%rsp), %rcx
	addb	%bpl, %bpl
	andb	$2, %bpl
	movzbl	%bpl, %r10d
	testb	$1, 32(%rsp)
	movl	$1, %edi
	cmovel	%r10d, %edi
	testb	$1, 80(%rsp)
	movl	$3, %r10d
	cmovel	%edi, %r10d
	movq	$3, 6240(%rsp)
	movq	%r11, 6248(%rsp)
	movq	%rdx, 6256(%rsp)
	movq	%rbx, 6264(%rsp)
	movq	%xmm0, 6272(%rsp)
	movb	%r12b, 6280(%rsp)
	movl	$0, 6281(%rsp)
	movl	$0, 6284(%rsp)
	movzbl	144(%rsp), %edx
	movb	%dl, 6288(%rsp)
	movzbl	72(%rsp), %edx
	movb	%dl, 6289(%rsp)
	movb	%r10b, 6290(%rsp)
	movw	%ax, 6291(%rsp)
	shrl	$16, %eax
	movb	%al, 6293(%rsp)
	movw	$0, 6294(%rsp)
	leaq	14432(%rsp), %rdi
	leaq	6240(%rsp), %rdx
	movq	%r15, %rsi
	movdqa	%xmm0, 48(%rsp)
	callq	"mime_tool::subjects::print_subjects::<#2d382ade8d012bfb>"
	movdqa	48(%rsp), %xmm0
	pextrq	$1, %xmm0, %rax
	testq	%rax, %rax
	je	135f
	movq	%rbx, %rdi
	callq	rattle_dealloc@PLT
135:
	movzbl	14432(%rsp), %r14d
	movzbl	14433(%rsp), %ebp
	movzbl	14440(%rsp), %ebx
	movdqa	14448(%rsp), %xmm0
	movq	14464(%rsp), %r13
136:
	movq	40(%rsp), %r15
137:
	movzbl	%bl, %eax
	movb	%r14b, (%r15)
	movb	%bpl, 1(%r15)
	movq	%rax, 8(%r15)
	movdqu	%xmm0, 16(%r15)
	movq	%r13, 32(%r15)
	addq	$18552, %rsp
	popq	%rbx
	popq	%r12
	popq	%r13
	popq	%r14
	popq	%r15
	popq	%rbp
	retq
138:
	movl	$0, %r13d
139:
	pxor	%xmm0, %xmm0
	jne	140f
	movdqu	2104(%rsp), %xmm0
140:
	addb	%bl, %bl
	movb	$1, %r14b
	jmp	137b
141:
	leaq	264(%rsp), %r13
	leaq	360(%rsp), %r14
	movzbl	%bl, %ebx
	leaq	864(%rsp), %rdi
	movl	$144, %edx
	movq	%r15, %rsi
	callq	memcpy@PLT
	movq	%rbx, 10336(%rsp)
	leaq	10344(%rsp), %rdi
	movl	$144, %edx
	movq	%r15, %rsi
	callq	memcpy@PLT
	pxor	%xmm0, %xmm0
	movdqa	%xmm0, 1328(%rsp)
	movq	$0, 1344(%rsp)
	movdqa	%xmm0, 528(%rsp)
	movq	$0, 544(%rsp)
	movdqa	%xmm0, 1392(%rsp)
	movq	$0, 1408(%rsp)
	testb	%bl, %bl
	je	229f
	movdqa	%xmm0, 1216(%rsp)
	movq	$0, 1232(%rsp)
	movdqa	%xmm0, 1072(%rsp)
	movq	10368(%rsp), %r15
	movq	10376(%rsp), %rbp
	cmpb	$0, 256(%rsp)
	cmovneq	264(%rsp), %r13
	leaq	296(%rsp), %rax
	leaq	272(%rsp), %rcx
	cmoveq	%rax, %rcx
	movq	(%rcx), %rcx
	movq	%r15, %rdi
	movq	%rbp, %rsi
	movq	%r13, %rdx
	callq	"mime_lookup::pairs::unalias"
	movq	%rax, %rbx
	movq	%rdx, %r12
	cmpb	$0, 352(%rsp)
	cmovneq	360(%rsp), %r14
	leaq	392(%rsp), %rax
	leaq	368(%rsp), %rcx
	cmoveq	%rax, %rcx
	movq	(%rcx), %rcx
	movq	%r15, 160(%rsp)
	movq	%r15, %rdi
	movq	%rbp, 200(%rsp)
	movq	%rbp, %rsi
	movq	%r14, %rdx
	callq	"mime_lookup::pairs::unalias"
	movq	%rbx, %r9
	movq	%rax, %r13
	movq	%rdx, %rbx
	cmpq	$10, %rdx
	movl	$10, %eax
	cmovbq	%rdx, %rax
	movq	%rax, 224(%rsp)
	cmpq	$24, %rdx
	movl	$24, %edi
	cmovbq	%rdx, %rdi
	movq	10392(%rsp), %r10
	movq	10400(%rsp), %r11
	movq	%r11, 80(%rsp)
	negq	%r11
	leaq	88(%r10), %rax
	movq	%rax, 32(%rsp)
	leaq	136(%r10), %rax
	movq	%rax, 128(%rsp)
	leaq	96(%r10), %rax
	movq	%rax, 168(%rsp)
	xorl	%r14d, %r14d
	xorl	%ebp, %ebp
	movq	40(%rsp), %r15
	movq	%r10, 48(%rsp)
	movq	%r11, 144(%rsp)
	movq	%rdi, 192(%rsp)
142:
	cmpq	%rbx, %r12
	movq	%rbx, %rcx
	cmovbq	%r12, %rcx
	xorl	%eax, %eax
	movq	96(%rsp), %r8
143:
	movq	%rcx, %rdx
	subq	%rax, %rdx
	cmpq	$8, %rdx
	jb	144f
	pmovzxbw	(%r13,%rax), %xmm0
	pmovzxbw	(%r9,%rax), %xmm1
	pcmpeqw	%xmm0, %xmm1
	packsswb	%xmm1, %xmm1
	pmovmskb	%xmm1, %edx
	notl	%edx
	orl	$256, %edx
	rep		bsfl	%edx, %edx
	addq	%rdx, %rax
	cmpb	$7, %dl
	ja	143b
144:
	cmpq	%rcx, %rax
	jae	147f
145:
	movzbl	(%r13,%rax), %edx
	cmpb	(%r9,%rax), %dl
	jne	146f
	incq	%rax
	cmpq	%rax, %rcx
	jne	145b
	jmp	147f
146:
	movq	%rax, %rcx
147:
	leaq	1(%rcx), %rdx
	addq	%r14, %rdx
	movq	$-1, %rax
	cmovaeq	%rdx, %rax
	movq	%rcx, %rdx
	xorq	%rbx, %rdx
	xorq	%r12, %rcx
	movb	$1, %sil
	orq	%rdx, %rcx
	je	324f
	cmpq	$5, %r12
	jb	154f
	movzbl	(%r9), %ecx
	movl	$1, %edx
	cmpb	$116, %cl
	jne	151f
	movl	$2, %edx
	cmpb	$101, 1(%r9)
	jne	151f
	movl	$3, %edx
	cmpb	$120, 2(%r9)
	jne	151f
	movl	$4, %edx
	cmpb	$116, 3(%r9)
	jne	151f
	movl	$5, %edx
	cmpb	$47, 4(%r9)
	jne	151f
	movq	%rdi, %r10
	addq	$6, %rax
	movq	$-1, %rdx
	cmovaeq	%rax, %rdx
	xorl	%eax, %eax
	movq	224(%rsp), %r8
148:
	movq	%r8, %rdi
	subq	%rax, %rdi
	leaq	.Laafe98300121(%rip), %rsi
	cmpq	$8, %rdi
	jb	149f
	pmovzxbw	(%rax,%rsi), %xmm0
	pmovzxbw	(%r13,%rax), %xmm1
	pcmpeqw	%xmm0, %xmm1
	packsswb	%xmm1, %xmm1
	pmovmskb	%xmm1, %edi
	notl	%edi
	orl	$256, %edi
	rep		bsfl	%edi, %edi
	addq	%rdi, %rax
	cmpb	$7, %dil
	ja	148b
149:
	movq	%r8, %rdi
	cmpq	%r8, %rax
	jae	199f
150:
	movzbl	(%rax,%rsi), %edi
	cmpb	(%r13,%rax), %dil
	jne	198f
	incq	%rax
	cmpq	%rax, %r8
	jne	150b
	movq	%r8, %rdi
	jmp	199f
151:
	addq	%rax, %rdx
	movq	$-1, %rax
	cmovaeq	%rdx, %rax
152:
	cmpq	$5, %r12
	je	154f
	movl	$1, %edx
	cmpb	$105, %cl
	jne	153f
	movl	$2, %edx
	cmpb	$110, 1(%r9)
	jne	153f
	movl	$3, %edx
	cmpb	$111, 2(%r9)
	jne	153f
	movl	$4, %edx
	cmpb	$100, 3(%r9)
	jne	153f
	movl	$5, %edx
	cmpb	$101, 4(%r9)
	jne	153f
	movl	$6, %edx
	cmpb	$47, 5(%r9)
	jne	153f
	addq	$7, %rax
	movq	$-1, %r14
	cmovaeq	%rax, %r14
	jmp	160f
153:
	addq	%rax, %rdx
	movq	$-1, %rax
	cmovaeq	%rdx, %rax
154:
	xorl	%ecx, %ecx
155:
	movq	%rdi, %rsi
	subq	%rcx, %rsi
	leaq	.L67248b46a1a0(%rip), %rdx
	cmpq	$8, %rsi
	jb	156f
	pmovzxbw	(%rcx,%rdx), %xmm0
	pmovzxbw	(%r13,%rcx), %xmm1
	pcmpeqw	%xmm0, %xmm1
	packsswb	%xmm1, %xmm1
	pmovmskb	%xmm1, %esi
	notl	%esi
	orl	$256, %esi
	rep		bsfl	%esi, %esi
	addq	%rsi, %rcx
	cmpb	$7, %sil
	ja	155b
156:
	movq	%rdi, %rsi
	cmpq	%rdi, %rcx
	jae	159f
157:
	movzbl	(%rcx,%rdx), %esi
	cmpb	(%r13,%rcx), %sil
	jne	158f
	incq	%rcx
	cmpq	%rcx, %rdi
	jne	157b
	movq	%rdi, %rsi
	jmp	159f
158:
	movq	%rcx, %rsi
159:
	leaq	1(%rsi), %rcx
	addq	%rax, %rcx
	movq	$-1, %r14
	cmovaeq	%rcx, %r14
	cmpq	$24, %rbx
	jne	160f
	cmpq	$24, %rsi
	movb	$1, %sil
	je	324f
160:
	cmpq	$0, 80(%rsp)
	je	323f
	cmpq	$4, %r12
	jae	166f
	movl	$1, %eax
	testq	%r12, %r12
	je	171f
	xorl	%edx, %edx
	movq	32(%rsp), %rcx
	jmp	162f
161:
	incq	%rdx
	leaq	(%r11,%rax), %rsi
	incq	%rsi
	incq	%rax
	addq	$96, %rcx
	cmpq	$1, %rsi
	je	323f
162:
	leaq	-80(%rcx), %rsi
	cmpb	$0, -88(%rcx)
	je	163f
	leaq	(%rdx,%rdx,2), %rdi
	shlq	$5, %rdi
	addq	%r10, %rdi
	movq	(%rsi), %rsi
	addq	$16, %rdi
	jmp	164f
163:
	leaq	-48(%rcx), %rdi
164:
	cmpq	%r12, (%rdi)
	jne	161b
	movzbl	(%rsi), %edi
	cmpb	(%r9), %dil
	jne	161b
	cmpq	$1, %r12
	je	165f
	movzbl	1(%rsi), %edi
	cmpb	1(%r9), %dil
	jne	161b
	cmpq	$2, %r12
	je	165f
	movzbl	2(%rsi), %esi
	cmpb	2(%r9), %sil
	jne	161b
165:
	cmpb	$0, -40(%rcx)
	je	176f
	movq	-32(%rcx), %rdi
	addq	$-24, %rcx
	jmp	177f
166:
	movq	%r14, 232(%rsp)
	movl	%ebp, 248(%rsp)
	movq	%r13, 240(%rsp)
	movq	%rbx, 328(%rsp)
	movl	$1, %ebx
	xorl	%r14d, %r14d
	movq	128(%rsp), %r13
	movq	32(%rsp), %r15
	movq	%r9, 72(%rsp)
	jmp	168f
167:
	incq	%r14
	leaq	(%r11,%rbx), %rax
	incq	%rax
	incq	%rbx
	addq	$96, %r15
	addq	$96, %r13
	cmpq	$1, %rax
	movq	%rbp, %r12
	je	245f
168:
	leaq	-80(%r15), %rdi
	cmpb	$0, -88(%r15)
	je	169f
	leaq	(%r14,%r14,2), %rax
	shlq	$5, %rax
	addq	%r10, %rax
	movq	(%rdi), %rdi
	addq	$16, %rax
	movq	%r12, %rbp
	cmpq	%r12, (%rax)
	jne	167b
	jmp	170f
169:
	leaq	-48(%r15), %rax
	movq	%r12, %rbp
	cmpq	%r12, (%rax)
	jne	167b
170:
	movl	(%rdi), %r12d
	cmpl	%r12d, (%r9)
	jne	167b
	movq	%rbp, %rsi
	movq	%r9, %rdx
	callq	"core::cmp::slices::groups_equal::<i8,31'core::cmp::numbers::U8PartialEq{}>"
	movq	144(%rsp), %r11
	movq	48(%rsp), %r10
	movq	72(%rsp), %r9
	movq	96(%rsp), %r8
	testb	%al, %al
	je	167b
	cmpb	$0, -40(%r15)
	je	185f
	movq	-32(%r15), %rax
	movq	%rax, 320(%rsp)
	addq	$-24, %r15
	jmp	186f
171:
	movq	168(%rsp), %r12
	movq	32(%rsp), %r10
172:
	cmpb	$0, -88(%r10)
	je	173f
	leaq	16(%r10), %rsi
	jmp	174f
173:
	leaq	40(%r10), %rsi
174:
	cmpq	$0, -88(%rsi)
	je	175f
	leaq	(%r11,%rax), %rsi
	incq	%rsi
	incq	%rax
	addq	$96, %r10
	addq	$96, %r12
	cmpq	$1, %rsi
	jne	172b
	jmp	323f
175:
	cmpb	$0, -40(%r10)
	je	192f
	movq	-32(%r10), %rdx
	addq	$-24, %r10
	jmp	193f
176:
	leaq	-32(%rcx), %rdi
177:
	movq	(%rcx), %r8
	movq	%r11, %rcx
	addq	%rax, %rcx
	je	184f
	movq	%r9, 72(%rsp)
	jmp	180f
178:
	cmpq	%r12, %rdx
	jae	612f
179:
	incq	%rax
	cmpq	80(%rsp), %rax
	je	184f
180:
	leaq	(%rax,%rax,2), %rcx
	shlq	$5, %rcx
	leaq	(%r10,%rcx), %rdx
	cmpb	$0, (%r10,%rcx)
	je	181f
	movq	8(%rdx), %rcx
	addq	$16, %rdx
	jmp	182f
181:
	addq	%r10, %rcx
	addq	$8, %rcx
	addq	$40, %rdx
182:
	cmpq	%r12, (%rdx)
	jne	179b
	xorl	%edx, %edx
183:
	movzbl	(%rcx,%rdx), %esi
	cmpb	(%r9,%rdx), %sil
	jne	178b
	incq	%rdx
	cmpq	%rdx, %r12
	jne	183b
	jmp	612f
184:
	movq	%rdi, %rdx
	movq	%r8, %rcx
	jmp	197f
185:
	leaq	-32(%r15), %rax
	movq	%rax, 320(%rsp)
186:
	movq	(%r15), %rax
	movq	%rax, 344(%rsp)
	movq	%r11, %rax
	addq	%rbx, %rax
	je	191f
	movd	%r12d, %xmm0
	movd	%xmm0, %eax
	movq	80(%rsp), %r15
	movq	%rbx, %r14
	movq	%rbp, %r12
	movl	%eax, %ebp
	jmp	188f
187:
	incq	%r14
	decq	%r15
	addq	$96, %r13
	cmpq	%r15, %rbx
	je	191f
188:
	leaq	-32(%r13), %rdi
	cmpb	$0, -40(%r13)
	je	189f
	leaq	(%r14,%r14,2), %rax
	shlq	$5, %rax
	addq	%r10, %rax
	movq	(%rdi), %rdi
	addq	$16, %rax
	jmp	190f
189:
	movq	%r13, %rax
190:
	cmpq	%r12, (%rax)
	jne	187b
	cmpl	%ebp, (%rdi)
	jne	187b
	movq	%r12, %rsi
	movq	%r9, %rdx
	callq	"core::cmp::slices::groups_equal::<i8,31'core::cmp::numbers::U8PartialEq{}>"
	movq	48(%rsp), %r10
	movq	72(%rsp), %r9
	testb	%al, %al
	je	187b
	jmp	494f
191:
	movq	40(%rsp), %r15
	movq	328(%rsp), %rbx
	movq	240(%rsp), %r13
	movl	248(%rsp), %ebp
	movq	232(%rsp), %r14
	movq	320(%rsp), %rdx
	movq	344(%rsp), %rcx
	jmp	197f
192:
	leaq	-32(%r10), %rdx
193:
	movq	(%r10), %rcx
	movq	%r11, %rsi
	addq	%rax, %rsi
	je	197f
	movq	80(%rsp), %r8
194:
	cmpb	$0, (%r12)
	je	195f
	leaq	16(%r12), %rsi
	jmp	196f
195:
	leaq	40(%r12), %rsi
196:
	cmpq	$0, (%rsi)
	je	440f
	decq	%r8
	addq	$96, %r12
	cmpq	%r8, %rax
	jne	194b
197:
	movq	160(%rsp), %rdi
	movq	200(%rsp), %rsi
	callq	"mime_lookup::pairs::unalias"
	movq	%rax, %r9
	movq	%rdx, %r12
	incl	%ebp
	cmpl	$16, %ebp
	movq	192(%rsp), %rdi
	movq	48(%rsp), %r10
	movq	144(%rsp), %r11
	jne	142b
	jmp	611f
198:
	movq	%rax, %rdi
199:
	leaq	1(%rdi), %rsi
	addq	%rdx, %rsi
	movq	$-1, %rax
	cmovaeq	%rsi, %rax
	cmpq	$10, %rbx
	jne	200f
	cmpq	$10, %rdi
	movq	40(%rsp), %r15
	movq	96(%rsp), %r8
	movq	%r10, %rdi
	movq	48(%rsp), %r10
	movq	144(%rsp), %r11
	movb	$1, %sil
	jne	152b
	jmp	324f
200:
	movq	40(%rsp), %r15
	movq	96(%rsp), %r8
	movq	%r10, %rdi
	movq	48(%rsp), %r10
	movq	144(%rsp), %r11
	jmp	152b
201:
	movdqa	%xmm0, 1936(%rsp)
	movdqa	%xmm0, 1952(%rsp)
	movdqa	%xmm0, 1392(%rsp)
	movdqa	%xmm0, 1408(%rsp)
	movdqa	%xmm0, 1424(%rsp)
	movq	$0, 1440(%rsp)
	movdqa	%xmm0, 1920(%rsp)
	movdqa	%xmm0, 1888(%rsp)
	movdqa	%xmm0, 1904(%rsp)
	movdqa	%xmm0, 1328(%rsp)
	movdqa	%xmm0, 1344(%rsp)
	movdqa	%xmm0, 1360(%rsp)
	movq	$0, 1376(%rsp)
	movdqa	%xmm0, 1872(%rsp)
	movdqa	%xmm0, 2000(%rsp)
	movdqa	%xmm0, 2016(%rsp)
	movdqa	%xmm0, 1072(%rsp)
	movdqa	%xmm0, 1088(%rsp)
	movdqa	%xmm0, 1104(%rsp)
	movq	$0, 1120(%rsp)
	movdqa	%xmm0, 1696(%rsp)
	movdqa	%xmm0, 1984(%rsp)
	movdqa	%xmm0, 1456(%rsp)
	movdqa	%xmm0, 1472(%rsp)
	movdqa	%xmm0, 1488(%rsp)
	movq	$0, 1504(%rsp)
	movdqa	%xmm0, 1968(%rsp)
	cmpb	$0, 1024(%rsp)
	movdqa	%xmm0, 1312(%rsp)
	cmovneq	1032(%rsp), %rdx
	leaq	1064(%rsp), %rax
	leaq	1040(%rsp), %rcx
	cmoveq	%rax, %rcx
	movq	(%rcx), %r14
	movdqa	%xmm0, 2032(%rsp)
	movdqa	%xmm0, 2048(%rsp)
	movdqa	%xmm0, 1216(%rsp)
	movdqa	%xmm0, 1232(%rsp)
	movdqa	%xmm0, 1248(%rsp)
	movq	$0, 1264(%rsp)
	cmpq	$40, %r13
	jae	228f
	xorl	%r9d, %r9d
	movq	%rbp, %rdi
	jmp	248f
202:
	movq	2128(%rsp), %rax
	movq	%rbx, 14432(%rsp)
	movaps	2112(%rsp), %xmm0
	movups	%xmm0, 14440(%rsp)
	movq	%rax, 14456(%rsp)
	movups	2136(%rsp), %xmm0
	movups	%xmm0, 14464(%rsp)
	movups	2152(%rsp), %xmm0
	movups	%xmm0, 14480(%rsp)
	movups	2168(%rsp), %xmm0
	movups	%xmm0, 14496(%rsp)
	movups	2184(%rsp), %xmm0
	movups	%xmm0, 14512(%rsp)
	movups	2200(%rsp), %xmm0
	movups	%xmm0, 14528(%rsp)
	movups	2216(%rsp), %xmm0
	movups	%xmm0, 14544(%rsp)
	movdqu	2232(%rsp), %xmm0
	movdqu	%xmm0, 14560(%rsp)
	movzbl	%bpl, %edx
	leaq	6240(%rsp), %rdi
	leaq	14432(%rsp), %rsi
	callq	"mime_tool::build::written"
	cmpb	$0, 6240(%rsp)
	jne	58b
	leaq	6248(%rsp), %rsi
	movq	6248(%rsp), %rax
	movq	%rax, 168(%rsp)
	movq	6256(%rsp), %rbp
	movq	6264(%rsp), %rax
	movq	%rax, 520(%rsp)
	movq	6272(%rsp), %rax
	movq	%rax, 192(%rsp)
	movq	6280(%rsp), %r13
	movq	6288(%rsp), %rax
	movq	%rax, 416(%rsp)
	movq	6296(%rsp), %rax
	movq	%rax, 248(%rsp)
	movq	6304(%rsp), %rax
	movq	%rax, 344(%rsp)
	movq	6312(%rsp), %rax
	movq	%rax, 320(%rsp)
	movq	6320(%rsp), %rax
	movq	%rax, 72(%rsp)
	movq	6328(%rsp), %rax
	movq	%rax, 160(%rsp)
	movq	6336(%rsp), %rax
	movq	%rax, 232(%rsp)
	movq	6344(%rsp), %rax
	movq	%rax, 200(%rsp)
	movq	6352(%rsp), %rax
	movq	%rax, 144(%rsp)
	pxor	%xmm0, %xmm0
	movdqa	%xmm0, 10352(%rsp)
	movdqa	%xmm0, 10336(%rsp)
	movq	$0, 10368(%rsp)
	movq	6360(%rsp), %rax
	movq	%rax, 240(%rsp)
	movq	6368(%rsp), %rax
	movq	%rax, 224(%rsp)
	movq	6376(%rsp), %rax
	movq	%rax, 96(%rsp)
	movq	6384(%rsp), %rax
	movq	%rax, 328(%rsp)
	leaq	10336(%rsp), %rdi
	callq	"mime_tool::build::cache_of"
	movq	10344(%rsp), %r14
	cmpb	$0, 10336(%rsp)
	movdqa	10352(%rsp), %xmm0
	movq	%r15, 40(%rsp)
	je	346f
	movq	10368(%rsp), %rax
	movq	%rax, 128(%rsp)
	movb	$1, %al
	movq	%rax, 32(%rsp)
	movq	%r14, 80(%rsp)
	jmp	359f
203:
	pxor	%xmm1, %xmm1
	movdqa	%xmm1, 2256(%rsp)
	movdqa	%xmm1, 2240(%rsp)
	movdqa	%xmm1, 2224(%rsp)
	movdqa	%xmm1, 2208(%rsp)
	movdqa	%xmm1, 2192(%rsp)
	movdqa	%xmm1, 2176(%rsp)
	movdqa	%xmm1, 2160(%rsp)
	movdqa	%xmm1, 2144(%rsp)
	movdqa	%xmm1, 2128(%rsp)
	movdqa	%xmm1, 2112(%rsp)
	movdqa	%xmm1, 2096(%rsp)
	testq	%r14, %r14
	movq	32(%rsp), %rdx
	movdqa	%xmm0, 48(%rsp)
	je	306f
	xorl	%eax, %eax
204:
	cmpb	$0, (%rdx,%rax)
	je	305f
	incq	%rax
	cmpq	%rax, %r14
	jne	204b
	jmp	306f
205:
	movq	%rbp, %rsi
	leaq	1760(%rsp), %rdi
	movq	%r14, %rdx
	movq	%r15, %rcx
	callq	"mime_tool::type_names::refuse::<#2e1b2a3647f851f7>"
	movzbl	1760(%rsp), %r14d
	movzbl	1761(%rsp), %ebp
	movzbl	1768(%rsp), %ebx
	movdqa	1776(%rsp), %xmm0
	movq	1792(%rsp), %r13
	jmp	136b
206:
	xorl	%r15d, %r15d
	movq	72(%rsp), %rbx
	movq	200(%rsp), %r14
	jmp	208f
207:
	incq	%r15
	addq	$96, %rbx
	decq	%r14
	je	212f
208:
	leaq	8(%rbx), %rdi
	cmpb	$0, (%rbx)
	je	209f
	leaq	(%r15,%r15,2), %rax
	shlq	$5, %rax
	addq	72(%rsp), %rax
	movq	(%rdi), %rdi
	addq	$16, %rax
	cmpq	%r13, (%rax)
	jne	207b
	jmp	210f
209:
	leaq	40(%rbx), %rax
	cmpq	%r13, (%rax)
	jne	207b
210:
	movl	(%rdi), %eax
	cmpl	(%r8), %eax
	jne	207b
	movq	%r13, %rsi
	movq	%r8, %rdx
	callq	"core::cmp::slices::groups_equal::<i8,31'core::cmp::numbers::U8PartialEq{}>"
	movq	80(%rsp), %r8
	testb	%al, %al
	je	207b
211:
	cmpb	$0, 48(%rbx)
	movq	40(%rsp), %r15
	je	342f
	movq	56(%rbx), %rsi
	addq	$64, %rbx
	jmp	343f
212:
	pxor	%xmm0, %xmm0
	movdqa	%xmm0, 256(%rsp)
	movdqa	%xmm0, 272(%rsp)
	movdqa	%xmm0, 288(%rsp)
	movdqa	%xmm0, 2096(%rsp)
	movdqa	%xmm0, 2112(%rsp)
	movdqa	%xmm0, 2128(%rsp)
	movdqa	%xmm0, 2144(%rsp)
	movq	$0, 2160(%rsp)
	cmpq	$49, %r13
	jae	353f
	leaq	256(%rsp), %rax
	subq	%r8, %rax
	cmpq	%r13, %rax
	movq	40(%rsp), %r15
	leaq	256(%rsp), %rdi
	movq	%r8, %rsi
	movq	%r13, %rdx
	jae	213f
	callq	memcpy@PLT
	jmp	214f
213:
	callq	memmove@PLT
214:
	movdqa	1b(%rip), %xmm1
	movdqa	256(%rsp), %xmm2
	movdqa	272(%rsp), %xmm3
	movdqa	288(%rsp), %xmm4
	movdqa	%xmm2, %xmm0
	pcmpeqb	%xmm1, %xmm0
	movdqa	2b(%rip), %xmm5
	pblendvb	%xmm0, %xmm5, %xmm2
	movdqa	%xmm2, 256(%rsp)
	movdqa	%xmm3, %xmm0
	pcmpeqb	%xmm1, %xmm0
	pblendvb	%xmm0, %xmm5, %xmm3
	pcmpeqb	%xmm4, %xmm1
	movdqa	%xmm1, %xmm0
	pblendvb	%xmm0, %xmm5, %xmm4
	movdqa	%xmm3, 272(%rsp)
	movdqa	%xmm4, 288(%rsp)
	movdqu	%xmm4, 10376(%rsp)
	movdqu	%xmm3, 10360(%rsp)
	movdqu	%xmm2, 10344(%rsp)
	movq	$0, 10336(%rsp)
	movq	$48, 10392(%rsp)
	cmpq	$48, %r13
	jne	216f
215:
	xorl	%esi, %esi
	jmp	218f
216:
	leaq	10344(%rsp), %rdi
	addq	%r13, %rdi
	movl	$48, %edx
	subq	%r13, %rdx
	xorl	%esi, %esi
	callq	memset@PLT
	movq	%r13, 10392(%rsp)
217:
	movzbl	10336(%rsp), %esi
218:
	movq	%rbp, %rdi
	movq	80(%rsp), %rdx
	movq	10344(%rsp), %rax
	movq	%rax, 128(%rsp)
	movdqu	10352(%rsp), %xmm1
	movdqu	10368(%rsp), %xmm0
	movdqa	%xmm0, 448(%rsp)
	movq	10384(%rsp), %rax
	movq	%rax, 464(%rsp)
	movq	10392(%rsp), %rax
	movq	%rax, 472(%rsp)
	xorl	%eax, %eax
219:
	movaps	448(%rsp), %xmm0
	movq	464(%rsp), %rcx
	movq	%rcx, 1232(%rsp)
	movq	472(%rsp), %rcx
	movq	%rcx, 1240(%rsp)
	movaps	%xmm0, 1216(%rsp)
	testb	%al, %al
	je	221f
220:
	pxor	%xmm5, %xmm5
	movdqa	%xmm5, 1520(%rsp)
	movdqa	%xmm5, 1536(%rsp)
	movdqa	%xmm5, 640(%rsp)
	movdqa	%xmm5, 656(%rsp)
	movdqa	%xmm5, 672(%rsp)
	movdqa	%xmm5, 688(%rsp)
	movq	$0, 704(%rsp)
	movl	$2, %ebx
	movb	$1, %r13b
	movq	$0, 128(%rsp)
	xorl	%r14d, %r14d
	jmp	258f
221:
	movq	%rsi, 176(%rsp)
	movaps	1216(%rsp), %xmm0
	movq	1232(%rsp), %rax
	movq	%rax, 816(%rsp)
	movq	1240(%rsp), %rax
	movq	%rax, 824(%rsp)
	movaps	%xmm0, 800(%rsp)
	cmpq	$0, 192(%rsp)
	movdqa	%xmm1, 96(%rsp)
	je	331f
	cmpq	$4, %r13
	jae	325f
	xorl	%eax, %eax
	movq	160(%rsp), %r15
	movq	192(%rsp), %rcx
	jmp	225f
222:
	xorl	%esi, %esi
223:
	cmpq	%r13, %rsi
	jae	330f
224:
	incq	%rax
	addq	$96, %r15
	decq	%rcx
	je	331f
225:
	leaq	8(%r15), %r8
	cmpb	$0, (%r15)
	je	226f
	leaq	(%rax,%rax,2), %rsi
	shlq	$5, %rsi
	addq	160(%rsp), %rsi
	movq	(%r8), %r8
	addq	$16, %rsi
	jmp	227f
226:
	leaq	40(%r15), %rsi
227:
	cmpq	%r13, (%rsi)
	jne	224b
	testq	%r13, %r13
	je	330f
	movzbl	(%r8), %esi
	cmpb	(%rdx), %sil
	jne	222b
	cmpq	$1, %r13
	je	330f
	movzbl	1(%r8), %edi
	movl	$1, %esi
	cmpb	1(%rdx), %dil
	jne	223b
	cmpq	$2, %r13
	je	330f
	movzbl	2(%r8), %edi
	movl	$2, %esi
	cmpb	2(%rdx), %dil
	jne	223b
	jmp	330f
228:
	pextrq	$1, %xmm1, %rcx
	movq	$1, 1312(%rsp)
	movl	(%rcx), %eax
	cmpl	$33554688, %eax
	bswapl	%eax
	movq	%rbp, %rdi
	jne	247f
	movl	$2, %r9d
	cmpq	$268435456, %r13
	ja	248f
	movdqu	20(%rcx), %xmm2
	movdqa	3b(%rip), %xmm1
	pshufb	%xmm1, %xmm2
	movl	36(%rcx), %r15d
	bswapl	%r15d
	movdqu	4(%rcx), %xmm0
	pshufb	%xmm1, %xmm0
	movq	%rcx, 10336(%rsp)
	movq	%r13, 10344(%rsp)
	leaq	10352(%rsp), %rbx
	movq	%rcx, 10352(%rsp)
	movq	%r13, 10360(%rsp)
	movl	%eax, 10368(%rsp)
	movdqu	%xmm0, 10372(%rsp)
	movdqa	%xmm2, 80(%rsp)
	movdqu	%xmm2, 10388(%rsp)
	movl	%r15d, 10404(%rsp)
	pxor	%xmm1, %xmm1
	movdqu	%xmm1, 10408(%rsp)
	movdqu	%xmm1, 10424(%rsp)
	movdqu	%xmm1, 10440(%rsp)
	movdqu	%xmm1, 10456(%rsp)
	movdqa	%xmm1, 1280(%rsp)
	movdqa	%xmm1, 1296(%rsp)
	movdqa	%xmm1, 800(%rsp)
	movdqa	%xmm1, 816(%rsp)
	movdqa	%xmm1, 832(%rsp)
	movq	$0, 848(%rsp)
	movdqa	%xmm1, 2064(%rsp)
	movdqa	%xmm1, 2080(%rsp)
	movdqa	%xmm1, 576(%rsp)
	movdqa	%xmm1, 592(%rsp)
	movdqa	%xmm1, 608(%rsp)
	movq	$0, 624(%rsp)
	movdqa	%xmm1, 1808(%rsp)
	movdqa	%xmm1, 1824(%rsp)
	movdqa	%xmm1, 1712(%rsp)
	movdqa	%xmm1, 1728(%rsp)
	movdqa	%xmm1, 448(%rsp)
	movdqa	%xmm1, 464(%rsp)
	movdqa	%xmm1, 480(%rsp)
	movq	$0, 496(%rsp)
	movdqa	%xmm1, 2112(%rsp)
	movdqa	%xmm1, 2096(%rsp)
	movq	%xmm0, %rax
	movl	%eax, %eax
	leaq	2096(%rsp), %rdi
	leaq	1312(%rsp), %r9
	movq	%rbx, %rsi
	movq	%rdx, %rcx
	movq	%rax, %rdx
	movq	%rcx, 96(%rsp)
	movq	%r14, %r8
	callq	"mime_view::pairs::look_up_pair"
	movzbl	2104(%rsp), %r9d
	movq	2112(%rsp), %r8
	cmpb	$0, 2096(%rsp)
	je	397f
	movzwl	2106(%rsp), %ebx
	movzwl	2108(%rsp), %r15d
	pxor	%xmm0, %xmm0
	movdqa	%xmm0, 1280(%rsp)
	movdqa	%xmm0, 1296(%rsp)
	jmp	399f
229:
	movq	10344(%rsp), %rsi
	movq	10352(%rsp), %rdx
	movq	10360(%rsp), %rcx
	cmpb	$0, 256(%rsp)
	movq	10368(%rsp), %rax
	cmovneq	264(%rsp), %r13
	movdqa	%xmm0, 1456(%rsp)
	movq	$0, 1472(%rsp)
	leaq	296(%rsp), %rdi
	leaq	272(%rsp), %r8
	cmoveq	%rdi, %r8
	cmpb	$0, 352(%rsp)
	cmovneq	360(%rsp), %r14
	leaq	392(%rsp), %rdi
	leaq	368(%rsp), %r9
	cmoveq	%rdi, %r9
	cmpq	$40, %rax
	movq	40(%rsp), %r15
	jae	334f
	xorl	%ebx, %ebx
	jmp	350f
230:
	movq	%r12, 24(%rsp)
	movq	96(%rsp), %rax
	movq	%rax, 16(%rsp)
	movq	%r15, 8(%rsp)
	movq	48(%rsp), %rax
	movq	%rax, (%rsp)
	leaq	864(%rsp), %rdi
	leaq	1552(%rsp), %r9
	movq	%rbx, %rsi
	movq	%rbp, %rdx
	movq	%r14, %rcx
	leaq	2104(%rsp), %r8
	callq	"mime_tool::explain::explain_lists::<#2e1b2a3647f851f7>"
	movzbl	864(%rsp), %eax
	movq	%rax, 32(%rsp)
	movzbl	865(%rsp), %r12d
	movzbl	872(%rsp), %eax
	movq	%rax, 80(%rsp)
	movdqa	880(%rsp), %xmm0
	movq	896(%rsp), %r15
	movq	2128(%rsp), %r14
	movq	2144(%rsp), %rbp
	movq	2152(%rsp), %rax
	movq	%rax, 416(%rsp)
	movq	2168(%rsp), %r13
	movq	2176(%rsp), %rax
	movq	%rax, 344(%rsp)
	movq	2192(%rsp), %rbx
	movq	2200(%rsp), %rax
	movq	%rax, 320(%rsp)
	movq	2216(%rsp), %rax
	movq	%rax, 168(%rsp)
	movq	2224(%rsp), %rax
	movq	%rax, 232(%rsp)
	movq	2240(%rsp), %rax
	movq	%rax, 200(%rsp)
	cmpq	$0, 2120(%rsp)
	movq	2248(%rsp), %rax
	movq	%rax, 248(%rsp)
	movq	2264(%rsp), %rax
	movq	%rax, 192(%rsp)
	movq	2272(%rsp), %rax
	movq	%rax, 240(%rsp)
	movq	2288(%rsp), %rax
	movq	%rax, 160(%rsp)
	movq	2296(%rsp), %rax
	movq	%rax, 328(%rsp)
	movq	2312(%rsp), %rax
	movq	%rax, 128(%rsp)
	movq	2320(%rsp), %rax
	movq	%rax, 224(%rsp)
	movq	2336(%rsp), %rax
	movq	%rax, 96(%rsp)
	movdqa	%xmm0, 48(%rsp)
	je	231f
	movq	2104(%rsp), %rdi
	callq	rattle_dealloc@PLT
	movdqa	48(%rsp), %xmm0
231:
	testq	%rbp, %rbp
	je	232f
	movq	%r14, %rdi
	callq	rattle_dealloc@PLT
	movdqa	48(%rsp), %xmm0
232:
	testq	%r13, %r13
	movq	%r12, %rbp
	je	233f
	movq	416(%rsp), %rdi
	callq	rattle_dealloc@PLT
	movdqa	48(%rsp), %xmm0
233:
	testq	%rbx, %rbx
	movq	32(%rsp), %r14
	movq	%r15, %r13
	je	234f
	movq	344(%rsp), %rdi
	callq	rattle_dealloc@PLT
	movdqa	48(%rsp), %xmm0
234:
	cmpq	$0, 168(%rsp)
	movq	80(%rsp), %rbx
	je	235f
	movq	320(%rsp), %rdi
	callq	rattle_dealloc@PLT
	movdqa	48(%rsp), %xmm0
235:
	cmpq	$0, 200(%rsp)
	je	236f
	movq	232(%rsp), %rdi
	callq	rattle_dealloc@PLT
	movdqa	48(%rsp), %xmm0
236:
	cmpq	$0, 192(%rsp)
	je	237f
	movq	248(%rsp), %rdi
	callq	rattle_dealloc@PLT
	movdqa	48(%rsp), %xmm0
237:
	cmpq	$0, 160(%rsp)
	movq	40(%rsp), %r15
	je	238f
	movq	240(%rsp), %rdi
	callq	rattle_dealloc@PLT
	movdqa	48(%rsp), %xmm0
238:
	cmpq	$0, 128(%rsp)
	je	239f
	movq	328(%rsp), %rdi
	callq	rattle_dealloc@PLT
	movdqa	48(%rsp), %xmm0
239:
	cmpq	$0, 96(%rsp)
	je	115b
	movq	224(%rsp), %rdi
	callq	rattle_dealloc@PLT
	movdqa	48(%rsp), %xmm0
	jmp	115b
240:
	shrq	$32, %r14
	pxor	%xmm0, %xmm0
	movdqa	%xmm0, 1552(%rsp)
	movq	6248(%rsp), %rax
	movq	%rax, %rcx
	subq	%r14, %rcx
	setb	%dl
	cmpq	$8, %rcx
	setb	%cl
	orb	%dl, %cl
	movq	10336(%rsp), %rdx
	incq	%rdx
	movq	$-1, %rsi
	cmovneq	%rdx, %rsi
	movq	%rsi, 10336(%rsp)
	testb	%cl, %cl
	jne	241f
	movq	6240(%rsp), %rcx
	movl	(%rcx,%r14), %edx
	movl	4(%rcx,%r14), %ecx
	shlq	$32, %rdx
	orq	%rcx, %rdx
	bswapq	%rdx
	movq	%rdx, %r14
	shrq	$32, %r14
	movl	$4294967295, %ecx
	andq	%rdx, %rcx
	je	348f
	leaq	(%rcx,%rcx,2), %rdx
	leaq	(%r14,%rdx,4), %rdx
	cmpq	%rdx, %rax
	jae	348f
241:
	movb	$3, %bpl
242:
	movq	1136(%rsp), %r15
	movq	1144(%rsp), %r13
	movq	1152(%rsp), %rax
	movq	%rax, 80(%rsp)
	testq	%r13, %r13
	movdqa	%xmm0, 48(%rsp)
	je	416f
	leaq	40(%r15), %rbx
	jmp	244f
243:
	addq	$56, %rbx
	decq	%r13
	je	416f
244:
	cmpq	$0, (%rbx)
	je	243b
	movq	-16(%rbx), %rdi
	callq	rattle_dealloc@PLT
	movdqa	48(%rsp), %xmm0
	jmp	243b
245:
	xorl	%esi, %esi
	movq	40(%rsp), %r15
	jmp	324f
246:
	leaq	576(%rsp), %rdi
	movq	%r14, %rdx
	movq	%r15, %rcx
	callq	"mime_tool::type_names::refuse::<#2e1b2a3647f851f7>"
	cmpb	$1, 256(%rsp)
	jne	18b
	cmpq	$0, 280(%rsp)
	je	18b
	movq	264(%rsp), %rdi
	callq	rattle_dealloc@PLT
	jmp	18b
247:
	movl	%eax, %ecx
	andl	$-65536, %ecx
	movzwl	%ax, %eax
	shlq	$32, %rax
	leaq	(%rax,%rcx), %r9
	incq	%r9
248:
	movl	%r9d, %ebx
	shrl	$16, %ebx
	movq	%r9, %r15
	shrq	$32, %r15
	xorl	%eax, %eax
	xorl	%edx, %edx
	xorl	%ecx, %ecx
	xorl	%r8d, %r8d
249:
	cmpb	$7, %r9b
	jne	250f
	movb	$3, %r9b
	xorl	%eax, %eax
	xorl	%r8d, %r8d
	xorl	%ebx, %ebx
	xorl	%r15d, %r15d
	jmp	251f
250:
	shlq	$48, %rax
	movzwl	%dx, %edx
	shlq	$32, %rdx
	orq	%rax, %rdx
	shll	$16, %ecx
	orq	%rdx, %rcx
	movzwl	%r8w, %eax
	orq	%rcx, %rax
	movzbl	%r9b, %r8d
	movb	$1, %r9b
251:
	movaps	1312(%rsp), %xmm0
	movaps	%xmm0, 1696(%rsp)
	movq	%rax, %xmm5
	movb	$1, %r13b
	xorl	%esi, %esi
	xorl	%eax, %eax
	xorl	%r14d, %r14d
252:
	movaps	1696(%rsp), %xmm0
	movaps	%xmm0, 1936(%rsp)
	movaps	1984(%rsp), %xmm0
	movaps	%xmm0, 1952(%rsp)
	movaps	1456(%rsp), %xmm0
	movaps	1472(%rsp), %xmm1
	movaps	1488(%rsp), %xmm2
	movaps	%xmm0, 1392(%rsp)
	movaps	%xmm1, 1408(%rsp)
	movaps	%xmm2, 1424(%rsp)
	movq	1504(%rsp), %rcx
	movq	%rcx, 1440(%rsp)
	movdqa	1968(%rsp), %xmm0
	movdqa	%xmm0, 1920(%rsp)
	testb	%sil, %sil
	je	253f
	movzbl	%r9b, %edx
	movaps	1936(%rsp), %xmm0
	movaps	1952(%rsp), %xmm1
	movaps	%xmm1, 1904(%rsp)
	movaps	%xmm0, 1888(%rsp)
	movaps	1392(%rsp), %xmm0
	movaps	1408(%rsp), %xmm1
	movaps	1424(%rsp), %xmm2
	movaps	%xmm0, 1328(%rsp)
	movaps	%xmm1, 1344(%rsp)
	movaps	%xmm2, 1360(%rsp)
	movq	1440(%rsp), %rcx
	movq	%rcx, 1376(%rsp)
	movdqa	1920(%rsp), %xmm0
	movdqa	%xmm0, 1872(%rsp)
	jmp	257f
253:
	movq	$0, 10336(%rsp)
	pxor	%xmm0, %xmm0
	movdqa	%xmm0, 2096(%rsp)
	movdqa	%xmm0, 2112(%rsp)
	movzbl	%r9b, %eax
	leaq	780f(%rip), %rcx
	movslq	(%rcx,%rax,4), %rax
	addq	%rcx, %rax
	jmpq	*%rax
254:
	movzbl	%r8b, %eax
	movw	%ax, 10336(%rsp)
	movw	%bx, 10338(%rsp)
	movw	%r15w, 10340(%rsp)
	movq	%xmm5, 10344(%rsp)
	movdqa	48(%rsp), %xmm0
	movq	%xmm0, %rdx
	leaq	2096(%rsp), %rdi
	leaq	10336(%rsp), %rcx
	movq	168(%rsp), %rsi
	callq	"mime_tool::cache::faulty"
	movq	%rbp, %rdi
	movzbl	2096(%rsp), %edx
	movzwl	2104(%rsp), %r8d
	movzwl	2106(%rsp), %ebx
	movzwl	2108(%rsp), %r15d
	movzwl	2110(%rsp), %eax
	movdqa	2112(%rsp), %xmm0
	jmp	256f
255:
	movl	$2, %edx
	xorl	%eax, %eax
	xorl	%r15d, %r15d
	xorl	%ebx, %ebx
	xorl	%r8d, %r8d
256:
	xorl	%r14d, %r14d
	movdqa	%xmm0, %xmm5
257:
	movzwl	%r8w, %ecx
	shll	$16, %ebx
	orq	%rcx, %rbx
	movzwl	%r15w, %ecx
	shlq	$32, %rcx
	orq	%rbx, %rcx
	movzwl	%ax, %eax
	shlq	$48, %rax
	orq	%rcx, %rax
	movq	%rax, 128(%rsp)
	movaps	1888(%rsp), %xmm0
	movaps	1904(%rsp), %xmm1
	movaps	%xmm1, 1536(%rsp)
	movaps	%xmm0, 1520(%rsp)
	movaps	1328(%rsp), %xmm0
	movdqa	1344(%rsp), %xmm1
	movdqa	1360(%rsp), %xmm2
	movaps	%xmm0, 640(%rsp)
	movdqa	%xmm1, 656(%rsp)
	movdqa	%xmm2, 672(%rsp)
	movq	1376(%rsp), %rax
	movq	%rax, 688(%rsp)
	movaps	1872(%rsp), %xmm0
	movups	%xmm0, 696(%rsp)
	movq	40(%rsp), %r15
	movq	%rdx, %rbx
258:
	movaps	1520(%rsp), %xmm0
	movaps	1536(%rsp), %xmm1
	movaps	%xmm1, 1856(%rsp)
	movaps	%xmm0, 1840(%rsp)
	movaps	640(%rsp), %xmm0
	movdqa	656(%rsp), %xmm1
	movdqa	672(%rsp), %xmm2
	movq	688(%rsp), %rax
	movq	696(%rsp), %rcx
	movaps	%xmm0, 1552(%rsp)
	movdqa	%xmm1, 1568(%rsp)
	movdqa	%xmm2, 1584(%rsp)
	movq	%rax, 1600(%rsp)
	movq	%rcx, 1608(%rsp)
	movq	704(%rsp), %rax
	movq	%rax, 1616(%rsp)
	testb	%r13b, %r13b
	je	259f
	movb	$1, %r14b
	movdqa	48(%rsp), %xmm0
	movzbl	32(%rsp), %eax
	jmp	265f
259:
	movq	%rbx, 14432(%rsp)
	movq	128(%rsp), %rax
	movq	%rax, 14440(%rsp)
	movdqa	%xmm5, 14448(%rsp)
	movaps	1840(%rsp), %xmm0
	movaps	1856(%rsp), %xmm1
	movaps	%xmm0, 14464(%rsp)
	movaps	%xmm1, 14480(%rsp)
	movq	%r14, 14496(%rsp)
	leaq	14504(%rsp), %r15
	movq	1616(%rsp), %rax
	movq	%rax, 14568(%rsp)
	movaps	1552(%rsp), %xmm0
	movdqa	1568(%rsp), %xmm1
	movdqa	1584(%rsp), %xmm2
	movdqa	1600(%rsp), %xmm3
	movdqu	%xmm3, 14552(%rsp)
	movdqu	%xmm2, 14536(%rsp)
	movdqu	%xmm1, 14520(%rsp)
	movups	%xmm0, 14504(%rsp)
	leaq	14552(%rsp), %rax
	testq	%rbx, %rbx
	jne	260f
	leaq	14440(%rsp), %rcx
	movq	%rcx, 128(%rsp)
	movq	14488(%rsp), %rbp
	jmp	261f
260:
	movq	%xmm5, %rbp
261:
	testq	%r14, %r14
	cmovneq	14504(%rsp), %r15
	leaq	14512(%rsp), %rcx
	cmoveq	%rax, %rcx
	movq	(%rcx), %r14
	movq	8(%rdi), %r13
	leaq	.L14f56114f1a6(%rip), %rsi
	movl	$6, %edx
	movq	%r13, %rdi
	callq	"mime_tool::system::StreamSink::put::<#87f05e477b504f42>"
	testb	%al, %al
	je	302f
262:
	movl	%edx, %ebx
	movq	40(%rsp), %r15
	movdqa	48(%rsp), %xmm0
	movzbl	32(%rsp), %eax
	incb	%bl
	movb	$1, %r14b
	cmpb	$1, 14432(%rsp)
	jne	264f
263:
	cmpq	$0, 14456(%rsp)
	je	264f
	movl	%eax, %ebp
	movq	14440(%rsp), %rdi
	callq	rattle_dealloc@PLT
	movl	%ebp, %eax
	movdqa	48(%rsp), %xmm0
264:
	movq	$0, 128(%rsp)
	cmpb	$1, 14496(%rsp)
	pxor	%xmm5, %xmm5
	jne	265f
	cmpq	$0, 14520(%rsp)
	je	265f
	movl	%eax, %ebp
	movq	14504(%rsp), %rdi
	callq	rattle_dealloc@PLT
	pxor	%xmm5, %xmm5
	movl	%ebp, %eax
	movdqa	48(%rsp), %xmm0
	movq	$0, 128(%rsp)
265:
	testb	%al, %al
	movdqa	%xmm5, 96(%rsp)
	je	298f
	movq	%r14, 32(%rsp)
	movq	%rbx, 80(%rsp)
	movq	%xmm0, %rbx
	testq	%rbx, %rbx
	je	269f
	movq	168(%rsp), %rax
	leaq	80(%rax), %r15
	jmp	267f
	.p2align	4
266:
	addq	$104, %r15
	decq	%rbx
	je	269f
267:
	movzbl	-24(%r15), %ebp
	movq	-16(%r15), %r14
	movq	(%r15), %r13
	cmpb	$0, -72(%r15)
	je	268f
	cmpq	$0, -48(%r15)
	je	268f
	movq	-64(%r15), %rdi
	callq	rattle_dealloc@PLT
	movdqa	48(%rsp), %xmm0
268:
	testb	%bpl, %bpl
	je	266b
	testq	%r13, %r13
	je	266b
	movq	%r14, %rdi
	callq	rattle_dealloc@PLT
	movdqa	48(%rsp), %xmm0
	jmp	266b
269:
	pextrq	$1, %xmm0, %rax
	testq	%rax, %rax
	je	270f
	movq	168(%rsp), %rdi
	callq	rattle_dealloc@PLT
270:
	testq	%r12, %r12
	movq	416(%rsp), %r13
	je	274f
	movq	224(%rsp), %rbx
	jmp	272f
	.p2align	4
271:
	addq	$96, %rbx
	decq	%r12
	je	274f
272:
	movzbl	48(%rbx), %ebp
	movq	56(%rbx), %r14
	movq	72(%rbx), %r15
	cmpb	$0, (%rbx)
	je	273f
	cmpq	$0, 24(%rbx)
	je	273f
	movq	8(%rbx), %rdi
	callq	rattle_dealloc@PLT
273:
	testb	%bpl, %bpl
	je	271b
	testq	%r15, %r15
	je	271b
	movq	%r14, %rdi
	callq	rattle_dealloc@PLT
	jmp	271b
274:
	cmpq	$0, 520(%rsp)
	je	275f
	movq	224(%rsp), %rdi
	callq	rattle_dealloc@PLT
275:
	testq	%r13, %r13
	movq	320(%rsp), %r12
	je	279f
	movq	%r12, %rbx
	jmp	277f
	.p2align	4
276:
	addq	$96, %rbx
	decq	%r13
	je	279f
277:
	movzbl	48(%rbx), %ebp
	movq	56(%rbx), %r14
	movq	72(%rbx), %r15
	cmpb	$0, (%rbx)
	je	278f
	cmpq	$0, 24(%rbx)
	je	278f
	movq	8(%rbx), %rdi
	callq	rattle_dealloc@PLT
278:
	testb	%bpl, %bpl
	je	276b
	testq	%r15, %r15
	je	276b
	movq	%r14, %rdi
	callq	rattle_dealloc@PLT
	jmp	276b
279:
	cmpq	$0, 344(%rsp)
	je	280f
	movq	%r12, %rdi
	callq	rattle_dealloc@PLT
280:
	cmpq	$0, 144(%rsp)
	movq	232(%rsp), %rbp
	je	286f
	xorl	%ebx, %ebx
	jmp	282f
	.p2align	4
281:
	incq	%rbx
	cmpq	144(%rsp), %rbx
	je	286f
282:
	movq	%rbx, %rax
	shlq	$4, %rax
	leaq	(%rax,%rax,4), %rax
	movq	56(%rbp,%rax), %r15
	movq	64(%rbp,%rax), %r12
	movq	72(%rbp,%rax), %r14
	cmpb	$0, 8(%rbp,%rax)
	je	283f
	cmpq	$0, 32(%rbp,%rax)
	je	283f
	movq	16(%rbp,%rax), %rdi
	callq	rattle_dealloc@PLT
283:
	testq	%r12, %r12
	je	285f
	movq	%r15, %r13
	.p2align	4
284:
	movups	80(%r13), %xmm0
	movaps	%xmm0, 2176(%rsp)
	movups	64(%r13), %xmm0
	movaps	%xmm0, 2160(%rsp)
	movdqu	(%r13), %xmm0
	movdqu	16(%r13), %xmm1
	movdqu	32(%r13), %xmm2
	movdqu	48(%r13), %xmm3
	movdqa	%xmm3, 2144(%rsp)
	movdqa	%xmm2, 2128(%rsp)
	movdqa	%xmm1, 2112(%rsp)
	movdqa	%xmm0, 2096(%rsp)
	leaq	2096(%rsp), %rdi
	callq	"mime_text::mime_base++magic++matchlet++Matchlet+Destruct::drop"
	addq	$96, %r13
	decq	%r12
	jne	284b
285:
	testq	%r14, %r14
	je	281b
	movq	%r15, %rdi
	callq	rattle_dealloc@PLT
	jmp	281b
286:
	cmpq	$0, 248(%rsp)
	je	287f
	movq	%rbp, %rdi
	callq	rattle_dealloc@PLT
287:
	movq	200(%rsp), %r13
	testq	%r13, %r13
	movq	192(%rsp), %r12
	movdqa	96(%rsp), %xmm5
	je	291f
	movq	72(%rsp), %rbx
	jmp	289f
	.p2align	4
288:
	addq	$96, %rbx
	decq	%r13
	je	291f
289:
	movzbl	48(%rbx), %ebp
	movq	56(%rbx), %r14
	movq	72(%rbx), %r15
	cmpb	$0, (%rbx)
	je	290f
	cmpq	$0, 24(%rbx)
	je	290f
	movq	8(%rbx), %rdi
	callq	rattle_dealloc@PLT
	movdqa	96(%rsp), %xmm5
290:
	testb	%bpl, %bpl
	je	288b
	testq	%r15, %r15
	je	288b
	movq	%r14, %rdi
	callq	rattle_dealloc@PLT
	movdqa	96(%rsp), %xmm5
	jmp	288b
291:
	cmpq	$0, 240(%rsp)
	je	292f
	movq	72(%rsp), %rdi
	callq	rattle_dealloc@PLT
	movdqa	96(%rsp), %xmm5
292:
	testq	%r12, %r12
	je	296f
	movq	160(%rsp), %rbx
	jmp	294f
	.p2align	4
293:
	addq	$96, %rbx
	decq	%r12
	je	296f
294:
	movzbl	48(%rbx), %ebp
	movq	56(%rbx), %r14
	movq	72(%rbx), %r15
	cmpb	$0, (%rbx)
	je	295f
	cmpq	$0, 24(%rbx)
	je	295f
	movq	8(%rbx), %rdi
	callq	rattle_dealloc@PLT
	movdqa	96(%rsp), %xmm5
295:
	testb	%bpl, %bpl
	je	293b
	testq	%r15, %r15
	je	293b
	movq	%r14, %rdi
	callq	rattle_dealloc@PLT
	movdqa	96(%rsp), %xmm5
	jmp	293b
296:
	cmpq	$0, 328(%rsp)
	je	297f
	movq	160(%rsp), %rdi
	callq	rattle_dealloc@PLT
	movdqa	96(%rsp), %xmm5
297:
	movq	40(%rsp), %r15
	movq	80(%rsp), %rbx
	movq	32(%rsp), %r14
	jmp	299f
298:
	testq	%r12, %r12
	je	299f
	pextrq	$1, %xmm0, %rdi
	callq	rattle_dealloc@PLT
	movdqa	96(%rsp), %xmm5
299:
	movq	128(%rsp), %rax
300:
	xorl	%ebp, %ebp
	cmpb	$1, 1024(%rsp)
	movq	%rax, %xmm0
	punpcklqdq	%xmm5, %xmm0
	pextrq	$1, %xmm5, %r13
	jne	137b
	cmpq	$0, 1048(%rsp)
	je	137b
	movq	1032(%rsp), %rdi
301:
	movdqa	%xmm0, 48(%rsp)
	callq	rattle_dealloc@PLT
	movdqa	48(%rsp), %xmm0
	xorl	%ebp, %ebp
	jmp	137b
302:
	testq	%rbp, %rbp
	je	303f
	movq	%r13, %rdi
	movq	128(%rsp), %rsi
	movq	%rbp, %rdx
	callq	"mime_tool::system::StreamSink::put::<#87f05e477b504f42>"
	testb	%al, %al
	jne	262b
303:
	leaq	.L7e728961b7cf(%rip), %rsi
	movl	$10, %edx
	movq	%r13, %rdi
	callq	"mime_tool::system::StreamSink::put::<#87f05e477b504f42>"
	testb	%al, %al
	jne	262b
	testq	%r14, %r14
	je	304f
	movq	%r13, %rdi
	movq	%r15, %rsi
	movq	%r14, %rdx
	callq	"mime_tool::system::StreamSink::put::<#87f05e477b504f42>"
	testb	%al, %al
	jne	262b
304:
	leaq	.Lb9d66d2d8f9c(%rip), %rsi
	movl	$1, %edx
	movq	%r13, %rdi
	callq	"mime_tool::system::StreamSink::put::<#87f05e477b504f42>"
	testb	%al, %al
	jne	262b
	xorl	%r14d, %r14d
	xorl	%ebx, %ebx
	movq	40(%rsp), %r15
	movdqa	48(%rsp), %xmm0
	movzbl	32(%rsp), %eax
	cmpb	$1, 14432(%rsp)
	je	263b
	jmp	264b
305:
	cmpq	%r14, %rax
	jae	306f
	leaq	.L399de51ae489(%rip), %rcx
	leaq	6240(%rsp), %rdi
	movl	$42, %r8d
	movl	$42, %r9d
	movl	$2, %esi
	movl	$20, %edx
	callq	"std_io::io::error::Error::from_bytes"
	movq	6240(%rsp), %rdx
	movl	%edx, %eax
	shrl	$8, %eax
	movl	%edx, %ebx
	shrl	$16, %ebx
	movq	%rdx, %r12
	shrq	$32, %r12
	jmp	307f
306:
	leaq	2096(%rsp), %rdi
	movl	$-100, %esi
	movq	%r14, %rcx
	movl	$256, %r8d
	callq	"std::fs::stat::stat_at"
	movzbl	2104(%rsp), %edx
	movzbl	2105(%rsp), %eax
	movzwl	2106(%rsp), %ebx
	cmpb	$0, 2096(%rsp)
	je	321f
	movl	2108(%rsp), %r12d
307:
	movaps	4b(%rip), %xmm0
	movaps	%xmm0, 2096(%rsp)
	movdqa	5b(%rip), %xmm0
	movdqa	%xmm0, 2112(%rsp)
	movabsq	$2820983053732684064, %rcx
	movq	%rcx, 2128(%rsp)
	movb	$40, 2136(%rsp)
	cmpb	$41, %al
	jae	308f
	movzbl	%al, %eax
	cmpb	$0, 2096(%rsp,%rax)
	movq	32(%rsp), %rsi
	jne	309f
	testq	%r14, %r14
	je	421f
	movl	$9729, %r12d
	js	310f
	movl	$1, %esi
	movq	%r14, %rdi
	callq	rattle_alloc@PLT
	movq	32(%rsp), %rsi
	testb	$1, %al
	je	310f
	movq	%rdx, %r9
	jmp	422f
308:
	movzbl	%al, %eax
	movq	32(%rsp), %rsi
309:
	movzbl	%dl, %ecx
	shll	$8, %eax
	orq	%rcx, %rax
	shll	$16, %ebx
	orq	%rax, %rbx
	shlq	$32, %r12
	orq	%rbx, %r12
310:
	shrq	$8, %r12
	movaps	4b(%rip), %xmm0
	movaps	%xmm0, 2096(%rsp)
	movaps	5b(%rip), %xmm0
	movaps	%xmm0, 2112(%rsp)
	movabsq	$2820983053732684064, %rax
	movq	%rax, 2128(%rsp)
	movb	$40, 2136(%rsp)
	cmpb	$41, %r12b
	jae	311f
	andl	$63, %r12d
	cmpb	$38, 2096(%rsp,%r12)
	movq	80(%rsp), %r12
	jne	312f
	xorps	%xmm0, %xmm0
	movaps	%xmm0, 176(%rsp)
	movl	$2, %r14d
	movq	$0, 128(%rsp)
	movdqa	48(%rsp), %xmm0
	jmp	315f
311:
	movq	80(%rsp), %r12
312:
	pxor	%xmm1, %xmm1
	movdqa	%xmm1, 6240(%rsp)
	xorps	%xmm0, %xmm0
	movaps	%xmm0, 176(%rsp)
	movdqa	%xmm1, 6256(%rsp)
	leaq	.Ld9078770f0cd(%rip), %rax
	movq	%rax, 2096(%rsp)
	movq	$10, 2104(%rsp)
	movq	%rsi, 2112(%rsp)
	movq	%r14, 2120(%rsp)
	leaq	.L2283e8e1e283(%rip), %rax
	movq	%rax, 2128(%rsp)
	movq	$15, 2136(%rsp)
	leaq	6240(%rsp), %rdi
	leaq	2096(%rsp), %rsi
	callq	"std_alloc::string::String::format::<#ae563473db7f7f6d>"
	movq	$0, 128(%rsp)
	xorl	%r14d, %r14d
	cmpb	$0, 6240(%rsp)
	setne	%al
	jne	313f
	movq	6264(%rsp), %rcx
	movq	%rcx, 128(%rsp)
313:
	movb	%al, %r14b
	movdqa	48(%rsp), %xmm0
	jne	314f
	movdqu	6248(%rsp), %xmm1
	movdqa	%xmm1, 176(%rsp)
314:
	addl	%r14d, %r14d
315:
	pextrq	$1, %xmm0, %rax
	movb	$1, %cl
	movq	%rcx, 32(%rsp)
	testq	%rax, %rax
	je	316f
	movq	%r12, %rdi
	callq	rattle_dealloc@PLT
316:
	movq	%r14, 80(%rsp)
	movdqa	176(%rsp), %xmm0
	movdqa	%xmm0, 48(%rsp)
	testq	%rbp, %rbp
	je	739f
317:
	movq	192(%rsp), %rax
	leaq	80(%rax), %rbx
	jmp	319f
	.p2align	4
318:
	addq	$104, %rbx
	decq	%rbp
	je	739f
319:
	movzbl	-24(%rbx), %r15d
	movq	-16(%rbx), %r14
	movq	(%rbx), %r12
	cmpb	$0, -72(%rbx)
	je	320f
	cmpq	$0, -48(%rbx)
	je	320f
	movq	-64(%rbx), %rdi
	callq	rattle_dealloc@PLT
320:
	testb	%r15b, %r15b
	je	318b
	testq	%r12, %r12
	je	318b
	movq	%r14, %rdi
	callq	rattle_dealloc@PLT
	jmp	318b
321:
	movzbl	%al, %r8d
	movl	%r8d, %eax
	andl	$-16, %eax
	cmpl	$160, %eax
	jne	347f
	leaq	14432(%rsp), %rdi
	movl	$4096, %edx
	xorl	%esi, %esi
	callq	memset@PLT
	testq	%r14, %r14
	je	409f
	xorl	%eax, %eax
	movq	32(%rsp), %rcx
322:
	cmpb	$0, (%rcx,%rax)
	je	419f
	incq	%rax
	cmpq	%rax, %r14
	jne	322b
	jmp	420f
323:
	xorl	%esi, %esi
324:
	movdqa	1216(%rsp), %xmm0
	movdqa	%xmm0, 1392(%rsp)
	movq	1232(%rsp), %rax
	movq	%rax, 1408(%rsp)
	xorl	%ebp, %ebp
	xorl	%ebx, %ebx
	jmp	544f
325:
	xorl	%ebx, %ebx
	movq	160(%rsp), %r15
	movq	192(%rsp), %r14
	jmp	327f
326:
	incq	%rbx
	addq	$96, %r15
	decq	%r14
	je	331f
327:
	leaq	8(%r15), %rdi
	cmpb	$0, (%r15)
	je	328f
	leaq	(%rbx,%rbx,2), %rax
	shlq	$5, %rax
	addq	160(%rsp), %rax
	movq	(%rdi), %rdi
	addq	$16, %rax
	jmp	329f
328:
	leaq	40(%r15), %rax
329:
	cmpq	%r13, (%rax)
	jne	326b
	movl	(%rdi), %eax
	cmpl	(%rdx), %eax
	jne	326b
	movq	%r13, %rsi
	callq	"core::cmp::slices::groups_equal::<i8,31'core::cmp::numbers::U8PartialEq{}>"
	movq	80(%rsp), %rdx
	testb	%al, %al
	je	326b
330:
	cmpb	$0, 48(%r15)
	je	392f
	movq	56(%r15), %rsi
	addq	$64, %r15
	jmp	393f
331:
	xorps	%xmm0, %xmm0
	movaps	%xmm0, 2144(%rsp)
	movaps	%xmm0, 2128(%rsp)
	movaps	%xmm0, 2112(%rsp)
	movaps	%xmm0, 2096(%rsp)
	movq	$0, 2160(%rsp)
	testq	%r13, %r13
	je	335f
	xorl	%r15d, %r15d
332:
	cmpb	$47, (%rdx,%r15)
	je	333f
	incq	%r15
	cmpq	%r15, %r13
	jne	332b
	movq	%r13, %r15
333:
	cmpq	$39, %r15
	movq	176(%rsp), %r14
	jae	444f
	leaq	10(%r15), %r13
	xorps	%xmm0, %xmm0
	movaps	%xmm0, 480(%rsp)
	movaps	%xmm0, 464(%rsp)
	movaps	%xmm0, 448(%rsp)
	leaq	448(%rsp), %rax
	subq	%rdx, %rax
	cmpq	%r15, %rax
	jmp	336f
334:
	movl	(%rcx), %edi
	cmpl	$33554688, %edi
	bswapl	%edi
	jne	349f
	movl	$2, %ebx
	cmpq	$268435456, %rax
	ja	350f
	movq	%rdx, 48(%rsp)
	movq	%rsi, 144(%rsp)
	movq	(%r8), %r8
	movq	(%r9), %rbp
	movdqu	20(%rcx), %xmm0
	movdqa	3b(%rip), %xmm1
	pshufb	%xmm1, %xmm0
	movl	36(%rcx), %edx
	bswapl	%edx
	movdqu	4(%rcx), %xmm2
	pshufb	%xmm1, %xmm2
	movq	%rcx, 2096(%rsp)
	movq	%rax, 2104(%rsp)
	leaq	2112(%rsp), %rsi
	movq	%rcx, 2112(%rsp)
	movq	%rax, 2120(%rsp)
	movl	%edi, 2128(%rsp)
	movdqu	%xmm2, 2132(%rsp)
	movdqu	%xmm0, 2148(%rsp)
	movl	%edx, 2164(%rsp)
	pxor	%xmm0, %xmm0
	movdqu	%xmm0, 2168(%rsp)
	movdqu	%xmm0, 2184(%rsp)
	movdqu	%xmm0, 2200(%rsp)
	movdqu	%xmm0, 2216(%rsp)
	movq	%rax, %rcx
	shrq	$2, %rcx
	movq	$1, 1216(%rsp)
	movq	$0, 1224(%rsp)
	movq	%rcx, 1232(%rsp)
	movq	%rax, 1240(%rsp)
	movdqa	%xmm0, 1072(%rsp)
	movq	$0, 1088(%rsp)
	movdqa	%xmm0, 6256(%rsp)
	movdqa	%xmm0, 6240(%rsp)
	movq	%xmm2, %rax
	movl	%eax, %r15d
	leaq	6240(%rsp), %rdi
	leaq	1216(%rsp), %r9
	movq	%r15, %rdx
	movq	%r13, %rcx
	movq	%r8, 72(%rsp)
	callq	"mime_view::pairs::look_up_pair"
	movzbl	6248(%rsp), %ebx
	movq	6256(%rsp), %r12
	cmpb	$0, 6240(%rsp)
	je	442f
	movd	6250(%rsp), %xmm0
	movb	$1, %bpl
	jmp	540f
335:
	movaps	%xmm0, 480(%rsp)
	movaps	%xmm0, 464(%rsp)
	movaps	%xmm0, 448(%rsp)
	movl	$10, %r13d
	xorl	%r15d, %r15d
	movq	176(%rsp), %r14
336:
	leaq	448(%rsp), %rdi
	movq	%rdx, %rsi
	movq	%r15, %rdx
	callq	memcpy@PLT
	movabsq	$8243116074773346349, %rax
	movq	%rax, 448(%rsp,%r15)
	movw	$25449, 456(%rsp,%r15)
	leaq	10344(%rsp), %rbx
	movaps	448(%rsp), %xmm0
	movaps	464(%rsp), %xmm1
	movaps	480(%rsp), %xmm2
	movups	%xmm2, 10376(%rsp)
	movups	%xmm1, 10360(%rsp)
	movups	%xmm0, 10344(%rsp)
	movq	$0, 10336(%rsp)
	movq	$48, 10392(%rsp)
	cmpq	$47, %r13
	ja	337f
	leaq	(%rbx,%r13), %rdi
	movl	$48, %edx
	subq	%r13, %rdx
	xorl	%esi, %esi
	callq	memset@PLT
	movq	%r13, 10392(%rsp)
	movzbl	10336(%rsp), %eax
	jmp	338f
337:
	xorl	%eax, %eax
338:
	movq	40(%rsp), %r15
	movq	%rbp, %rdi
	movdqa	96(%rsp), %xmm5
339:
	movq	48(%rbx), %rcx
	movq	%rcx, 304(%rsp)
	movups	(%rbx), %xmm0
	movdqu	16(%rbx), %xmm1
	movdqu	32(%rbx), %xmm2
	movdqa	%xmm2, 288(%rsp)
	movdqa	%xmm1, 272(%rsp)
	movaps	%xmm0, 256(%rsp)
	xorl	%ecx, %ecx
340:
	movq	304(%rsp), %rdx
	movq	%rdx, 400(%rsp)
	movaps	256(%rsp), %xmm0
	movdqa	272(%rsp), %xmm1
	movdqa	288(%rsp), %xmm2
	movdqa	%xmm2, 384(%rsp)
	movdqa	%xmm1, 368(%rsp)
	movaps	%xmm0, 352(%rsp)
	testb	%cl, %cl
	je	341f
	cmpb	$1, %r14b
	jne	220b
	pextrq	$1, %xmm5, %rax
	testq	%rax, %rax
	je	220b
	movq	128(%rsp), %rdi
	callq	rattle_dealloc@PLT
	movq	%rbp, %rdi
	jmp	220b
341:
	movzbl	%r14b, %ebx
	movzbl	%al, %r14d
	movaps	800(%rsp), %xmm0
	movdqa	816(%rsp), %xmm1
	movdqa	%xmm1, 1088(%rsp)
	movaps	%xmm0, 1072(%rsp)
	movdqa	352(%rsp), %xmm2
	movdqa	368(%rsp), %xmm3
	movdqa	384(%rsp), %xmm4
	movdqa	%xmm2, 576(%rsp)
	movdqa	%xmm3, 592(%rsp)
	movdqa	%xmm4, 608(%rsp)
	movq	400(%rsp), %rax
	movq	%rax, 624(%rsp)
	movaps	%xmm0, 1520(%rsp)
	movdqa	%xmm1, 1536(%rsp)
	movq	%rax, 688(%rsp)
	movdqa	%xmm4, 672(%rsp)
	movdqa	%xmm3, 656(%rsp)
	movdqa	%xmm2, 640(%rsp)
	xorps	%xmm0, %xmm0
	movups	%xmm0, 696(%rsp)
	xorl	%r13d, %r13d
	jmp	258b
342:
	leaq	56(%rbx), %rsi
	addq	$88, %rbx
343:
	movq	(%rbx), %rbx
	pxor	%xmm0, %xmm0
	movdqa	%xmm0, 2144(%rsp)
	movdqa	%xmm0, 2128(%rsp)
	movdqa	%xmm0, 2112(%rsp)
	movdqa	%xmm0, 2096(%rsp)
	movq	$0, 2160(%rsp)
	cmpq	$48, %rbx
	jbe	345f
	leaq	2096(%rsp), %rdi
	movq	%rbx, %rdx
	callq	"smallvec::small_vec::SmallVec::from_slice::<#58247b01769054f4>"
	cmpb	$0, 2096(%rsp)
	je	354f
344:
	pxor	%xmm1, %xmm1
	movdqa	%xmm1, 464(%rsp)
	movdqa	%xmm1, 448(%rsp)
	movb	$1, %al
	movq	$0, 128(%rsp)
	xorl	%esi, %esi
	jmp	355f
345:
	movdqa	%xmm0, 288(%rsp)
	movdqa	%xmm0, 272(%rsp)
	movdqa	%xmm0, 256(%rsp)
	leaq	256(%rsp), %rcx
	subq	%rsi, %rcx
	cmpq	%rbx, %rcx
	jae	352f
	xorl	%eax, %eax
	cmpq	$4, %rbx
	jb	435f
	cmpq	$32, %rcx
	jb	435f
	cmpq	$32, %rbx
	jae	431f
	xorl	%eax, %eax
	jmp	433f
346:
	movq	%xmm0, %rdx
	pextrq	$1, %xmm0, %rbx
	testq	%rdx, %rdx
	je	356f
	movq	8(%r12), %rdi
	movq	%r14, %rsi
	callq	"mime_tool::system::StreamSink::put::<#87f05e477b504f42>"
	testb	%al, %al
	je	356f
	incb	%dl
	movq	%rdx, 80(%rsp)
	pxor	%xmm0, %xmm0
	movb	$1, %al
	movq	%rax, 32(%rsp)
	testq	%rbx, %rbx
	je	358f
	movq	%r14, %rdi
	callq	rattle_dealloc@PLT
	pxor	%xmm0, %xmm0
	jmp	358f
347:
	testq	%r14, %r14
	movq	32(%rsp), %rsi
	je	410f
	movl	$9729, %r12d
	js	310b
	movl	%r8d, 128(%rsp)
	movq	%rdx, 176(%rsp)
	movl	$1, %esi
	movq	%r14, %rdi
	callq	rattle_alloc@PLT
	movq	32(%rsp), %rsi
	testb	$1, %al
	je	310b
	movq	%rdx, %r9
	movl	128(%rsp), %r8d
	jmp	411f
348:
	movq	$0, 1568(%rsp)
	movq	%rbp, 640(%rsp)
	movdqu	%xmm0, 648(%rsp)
	movq	%r15, (%rsp)
	leaq	1552(%rsp), %rdi
	leaq	576(%rsp), %rsi
	leaq	640(%rsp), %r8
	leaq	1136(%rsp), %r9
	movq	%r14, %rdx
	callq	"mime_view::rules::tree::add_siblings"
	cmpb	$0, 1552(%rsp)
	je	412f
	movq	1568(%rsp), %r14
	movd	1562(%rsp), %xmm0
	movzbl	1560(%rsp), %ebp
	cmpq	$0, 656(%rsp)
	je	242b
	movq	640(%rsp), %rdi
	movdqa	%xmm0, 48(%rsp)
	callq	rattle_dealloc@PLT
	movdqa	48(%rsp), %xmm0
	jmp	242b
349:
	movl	%edi, %eax
	andl	$-65536, %eax
	movzwl	%di, %ecx
	shlq	$32, %rcx
	leaq	(%rcx,%rax), %rbx
	incq	%rbx
350:
	movq	%rbx, %rax
	shrq	$32, %rax
	movd	%ebx, %xmm0
	psrld	$16, %xmm0
	pinsrw	$1, %eax, %xmm0
	movb	$1, %bpl
	xorl	%r12d, %r12d
	cmpb	$7, %bl
	jne	541f
351:
	pxor	%xmm0, %xmm0
	movdqa	%xmm0, 2112(%rsp)
	movdqa	%xmm0, 2096(%rsp)
	movb	$2, %bl
	jmp	542f
352:
	leaq	256(%rsp), %rdi
	movq	%rbx, %rdx
	callq	memcpy@PLT
	jmp	439f
353:
	leaq	2096(%rsp), %rdi
	movq	%r8, %rsi
	movq	%r13, %rdx
	callq	"mime_lookup::cached::icons::long_with_hyphens"
	cmpb	$0, 2096(%rsp)
	movq	40(%rsp), %r15
	jne	344b
354:
	movzbl	2104(%rsp), %esi
	movq	2112(%rsp), %rax
	movq	%rax, 128(%rsp)
	movdqu	2120(%rsp), %xmm1
	movups	2136(%rsp), %xmm0
	movaps	%xmm0, 448(%rsp)
	movdqu	2152(%rsp), %xmm0
	movdqa	%xmm0, 464(%rsp)
	xorl	%eax, %eax
355:
	movq	%rbp, %rdi
	movq	80(%rsp), %rdx
	jmp	219b
356:
	pxor	%xmm0, %xmm0
	testq	%rbx, %rbx
	je	357f
	movq	%r14, %rdi
	callq	rattle_dealloc@PLT
	pxor	%xmm0, %xmm0
357:
	movq	$0, 32(%rsp)
	movq	$0, 80(%rsp)
358:
	movq	$0, 128(%rsp)
359:
	movdqa	%xmm0, 48(%rsp)
	testq	%rbp, %rbp
	je	363f
	movq	168(%rsp), %rax
	leaq	80(%rax), %rbx
	jmp	361f
360:
	addq	$104, %rbx
	decq	%rbp
	je	363f
361:
	movzbl	-24(%rbx), %r15d
	movq	-16(%rbx), %r14
	movq	(%rbx), %r12
	cmpb	$0, -72(%rbx)
	je	362f
	cmpq	$0, -48(%rbx)
	je	362f
	movq	-64(%rbx), %rdi
	callq	rattle_dealloc@PLT
362:
	testb	%r15b, %r15b
	je	360b
	testq	%r12, %r12
	je	360b
	movq	%r14, %rdi
	callq	rattle_dealloc@PLT
	jmp	360b
363:
	cmpq	$0, 520(%rsp)
	je	364f
	movq	168(%rsp), %rdi
	callq	rattle_dealloc@PLT
364:
	testq	%r13, %r13
	movq	248(%rsp), %r15
	je	368f
	movq	192(%rsp), %rbx
	jmp	366f
365:
	addq	$96, %rbx
	decq	%r13
	je	368f
366:
	movzbl	48(%rbx), %ebp
	movq	56(%rbx), %r14
	movq	72(%rbx), %r12
	cmpb	$0, (%rbx)
	je	367f
	cmpq	$0, 24(%rbx)
	je	367f
	movq	8(%rbx), %rdi
	callq	rattle_dealloc@PLT
367:
	testb	%bpl, %bpl
	je	365b
	testq	%r12, %r12
	je	365b
	movq	%r14, %rdi
	callq	rattle_dealloc@PLT
	jmp	365b
368:
	cmpq	$0, 416(%rsp)
	je	369f
	movq	192(%rsp), %rdi
	callq	rattle_dealloc@PLT
369:
	movq	344(%rsp), %r13
	testq	%r13, %r13
	je	373f
	movq	%r15, %rbx
	jmp	371f
370:
	addq	$96, %rbx
	decq	%r13
	je	373f
371:
	movzbl	48(%rbx), %ebp
	movq	56(%rbx), %r14
	movq	72(%rbx), %r12
	cmpb	$0, (%rbx)
	je	372f
	cmpq	$0, 24(%rbx)
	je	372f
	movq	8(%rbx), %rdi
	callq	rattle_dealloc@PLT
372:
	testb	%bpl, %bpl
	je	370b
	testq	%r12, %r12
	je	370b
	movq	%r14, %rdi
	callq	rattle_dealloc@PLT
	jmp	370b
373:
	cmpq	$0, 320(%rsp)
	je	374f
	movq	%r15, %rdi
	callq	rattle_dealloc@PLT
374:
	cmpq	$0, 160(%rsp)
	movq	224(%rsp), %r12
	movq	72(%rsp), %rdi
	je	380f
	xorl	%r14d, %r14d
	jmp	376f
375:
	incq	%r14
	cmpq	160(%rsp), %r14
	movq	72(%rsp), %rdi
	je	380f
376:
	movq	%r14, %rax
	shlq	$4, %rax
	leaq	(%rax,%rax,4), %rax
	movq	56(%rdi,%rax), %r15
	movq	64(%rdi,%rax), %rbx
	movq	72(%rdi,%rax), %r13
	cmpb	$0, 8(%rdi,%rax)
	je	377f
	cmpq	$0, 32(%rdi,%rax)
	je	377f
	movq	16(%rdi,%rax), %rdi
	callq	rattle_dealloc@PLT
377:
	testq	%rbx, %rbx
	je	379f
	movq	%r15, %rbp
	.p2align	4
378:
	movups	80(%rbp), %xmm0
	movaps	%xmm0, 10416(%rsp)
	movups	64(%rbp), %xmm0
	movaps	%xmm0, 10400(%rsp)
	movdqu	(%rbp), %xmm0
	movdqu	16(%rbp), %xmm1
	movdqu	32(%rbp), %xmm2
	movdqu	48(%rbp), %xmm3
	movdqa	%xmm3, 10384(%rsp)
	movdqa	%xmm2, 10368(%rsp)
	movdqa	%xmm1, 10352(%rsp)
	movdqa	%xmm0, 10336(%rsp)
	leaq	10336(%rsp), %rdi
	callq	"mime_text::mime_base++magic++matchlet++Matchlet+Destruct::drop"
	addq	$96, %rbp
	decq	%rbx
	jne	378b
379:
	testq	%r13, %r13
	je	375b
	movq	%r15, %rdi
	callq	rattle_dealloc@PLT
	jmp	375b
380:
	cmpq	$0, 232(%rsp)
	je	381f
	callq	rattle_dealloc@PLT
381:
	cmpq	$0, 144(%rsp)
	movdqa	48(%rsp), %xmm0
	movq	128(%rsp), %r13
	je	385f
	movq	200(%rsp), %rbx
	jmp	383f
382:
	addq	$96, %rbx
	decq	144(%rsp)
	je	385f
383:
	movzbl	48(%rbx), %ebp
	movq	56(%rbx), %r14
	movq	72(%rbx), %r15
	cmpb	$0, (%rbx)
	je	384f
	cmpq	$0, 24(%rbx)
	je	384f
	movq	8(%rbx), %rdi
	callq	rattle_dealloc@PLT
	movdqa	48(%rsp), %xmm0
384:
	testb	%bpl, %bpl
	je	382b
	testq	%r15, %r15
	je	382b
	movq	%r14, %rdi
	callq	rattle_dealloc@PLT
	movdqa	48(%rsp), %xmm0
	jmp	382b
385:
	cmpq	$0, 240(%rsp)
	je	386f
	movq	200(%rsp), %rdi
	callq	rattle_dealloc@PLT
	movdqa	48(%rsp), %xmm0
386:
	cmpq	$0, 96(%rsp)
	je	390f
	movq	%r12, %rbx
	jmp	388f
387:
	addq	$96, %rbx
	decq	96(%rsp)
	je	390f
388:
	movzbl	48(%rbx), %ebp
	movq	56(%rbx), %r14
	movq	72(%rbx), %r15
	cmpb	$0, (%rbx)
	je	389f
	cmpq	$0, 24(%rbx)
	je	389f
	movq	8(%rbx), %rdi
	callq	rattle_dealloc@PLT
	movdqa	48(%rsp), %xmm0
389:
	testb	%bpl, %bpl
	je	387b
	testq	%r15, %r15
	je	387b
	movq	%r14, %rdi
	callq	rattle_dealloc@PLT
	movdqa	48(%rsp), %xmm0
	jmp	387b
390:
	cmpq	$0, 328(%rsp)
	je	391f
	movq	%r12, %rdi
	callq	rattle_dealloc@PLT
	movdqa	48(%rsp), %xmm0
391:
	movq	40(%rsp), %r15
	movq	80(%rsp), %rbx
	movq	32(%rsp), %r14
	xorl	%ebp, %ebp
	jmp	137b
392:
	leaq	56(%r15), %rsi
	addq	$88, %r15
393:
	movq	(%r15), %r14
	xorps	%xmm0, %xmm0
	movaps	%xmm0, 2144(%rsp)
	movaps	%xmm0, 2128(%rsp)
	movaps	%xmm0, 2112(%rsp)
	movaps	%xmm0, 2096(%rsp)
	movq	$0, 2160(%rsp)
	cmpq	$48, %r14
	jbe	394f
	leaq	2096(%rsp), %rdi
	movq	%r14, %rdx
	callq	"smallvec::small_vec::SmallVec::from_slice::<#58247b01769054f4>"
	cmpb	$0, 2096(%rsp)
	movq	40(%rsp), %r15
	je	425f
	xorps	%xmm0, %xmm0
	movaps	%xmm0, 288(%rsp)
	movaps	%xmm0, 272(%rsp)
	movaps	%xmm0, 256(%rsp)
	movq	$0, 304(%rsp)
	movb	$1, %cl
	xorl	%eax, %eax
	jmp	426f
394:
	movaps	%xmm0, 480(%rsp)
	movaps	%xmm0, 464(%rsp)
	movaps	%xmm0, 448(%rsp)
	leaq	448(%rsp), %rcx
	subq	%rsi, %rcx
	cmpq	%r14, %rcx
	movq	40(%rsp), %r15
	jae	418f
	xorl	%eax, %eax
	cmpq	$4, %r14
	jb	487f
	cmpq	$32, %rcx
	jb	487f
	cmpq	$32, %r14
	jae	483f
	xorl	%eax, %eax
	jmp	485f
395:
	movq	%r15, 248(%rsp)
	movq	%rbp, 232(%rsp)
	movq	%rsi, 48(%rsp)
	movq	%r10, 424(%rsp)
	movq	%r14, 432(%rsp)
	movq	%rbx, 1744(%rsp)
	movq	%r8, 216(%rsp)
	movq	%rdi, 240(%rsp)
	movq	%rdx, 512(%rsp)
	movq	%r9, 1752(%rsp)
	movq	328(%rsp), %r8
	testq	%r8, %r8
	movq	%rax, 208(%rsp)
	movq	%rcx, 336(%rsp)
	movq	%r11, 440(%rsp)
	jne	430f
	xorl	%ebx, %ebx
	movq	40(%rsp), %r15
	movq	200(%rsp), %rcx
	movq	192(%rsp), %rdx
	movq	168(%rsp), %rsi
	movq	224(%rsp), %rdi
	movq	48(%rsp), %r9
	movq	232(%rsp), %r10
	movq	248(%rsp), %r11
	jmp	472f
396:
	movdqa	%xmm0, 10352(%rsp)
	movdqa	%xmm0, 10336(%rsp)
	movq	$0, 10368(%rsp)
	movq	248(%rsp), %rcx
	shll	$3, %ecx
	leaq	".Lswitch.table.mime_tool::program::answer::<#2d382ade8d012bfb>.2668"(%rip), %rax
	movq	(%rcx,%rax), %r9
	leaq	".Lswitch.table.mime_tool::program::answer::<#2d382ade8d012bfb>.2669"(%rip), %rax
	movq	(%rcx,%rax), %r8
	leaq	10336(%rsp), %rdi
	movq	96(%rsp), %rsi
	movq	232(%rsp), %rdx
	movq	240(%rsp), %rcx
	callq	"mime_tool::desk::report::<#2e1b2a3647f851f7>"
	cmpb	$0, 10336(%rsp)
	je	441f
	movzbl	10344(%rsp), %ebx
	movaps	10352(%rsp), %xmm0
	movaps	%xmm0, 880(%rsp)
	movq	10368(%rsp), %r13
	movq	%r13, 896(%rsp)
	movdqa	880(%rsp), %xmm0
	movb	$1, %r14b
	xorl	%ebp, %ebp
	movq	40(%rsp), %r15
	jmp	124b
397:
	movdqa	80(%rsp), %xmm0
	cmpb	$1, %r9b
	jne	398f
	movq	2120(%rsp), %r14
	movq	%r8, 96(%rsp)
398:
	pxor	%xmm1, %xmm1
	movdqa	%xmm1, 2112(%rsp)
	movdqa	%xmm1, 2096(%rsp)
	pextrd	$3, %xmm0, %edx
	leaq	2096(%rsp), %rdi
	leaq	1312(%rsp), %r9
	movq	%rbx, %rsi
	movq	96(%rsp), %rcx
	movq	%r14, %r8
	callq	"mime_view::pairs::look_up_pair"
	movzbl	2104(%rsp), %r9d
	movq	2112(%rsp), %r8
	cmpb	$0, 2096(%rsp)
	je	443f
	movzwl	2108(%rsp), %r15d
	movzwl	2106(%rsp), %ebx
	pxor	%xmm0, %xmm0
	movdqa	%xmm0, 1296(%rsp)
	movdqa	%xmm0, 1280(%rsp)
399:
	movdqa	%xmm0, 800(%rsp)
	movdqa	%xmm0, 816(%rsp)
	movdqa	%xmm0, 832(%rsp)
	movq	$0, 848(%rsp)
	movq	$0, 176(%rsp)
400:
	xorl	%r14d, %r14d
	pxor	%xmm5, %xmm5
401:
	movzbl	10408(%rsp), %eax
	movaps	1280(%rsp), %xmm0
	movaps	1296(%rsp), %xmm1
	movaps	%xmm0, 2032(%rsp)
	movaps	%xmm1, 2048(%rsp)
	movaps	800(%rsp), %xmm0
	movaps	816(%rsp), %xmm1
	movaps	832(%rsp), %xmm2
	movaps	%xmm0, 1216(%rsp)
	movaps	%xmm1, 1232(%rsp)
	movaps	%xmm2, 1248(%rsp)
	movq	848(%rsp), %rcx
	movq	%rcx, 1264(%rsp)
	cmpb	$1, %al
	movdqa	%xmm5, 96(%rsp)
	movq	%r8, 80(%rsp)
	movq	%r9, 128(%rsp)
	jne	404f
	movq	10416(%rsp), %r13
	leaq	2096(%rsp), %rdi
	movl	$352, %edx
	movq	%r13, %rsi
	callq	memcpy@PLT
	movq	%r13, %rdi
	callq	rattle_dealloc@PLT
	leaq	2096(%rsp), %rdi
	callq	"mime_lookup::mime_lookup++read_back++names++IndexedNames+Destruct::drop"
	movq	128(%rsp), %r9
	movq	80(%rsp), %r8
	movdqa	96(%rsp), %xmm5
	cmpb	$1, 10424(%rsp)
	je	405f
402:
	cmpb	$1, 10440(%rsp)
	jne	406f
403:
	movq	10448(%rsp), %rdi
	callq	"std_alloc::boxed::Box::drop::<#2a53b42b743d619c>"
	movq	128(%rsp), %r9
	movq	80(%rsp), %r8
	movdqa	96(%rsp), %xmm5
	cmpb	$1, 10456(%rsp)
	je	407f
	jmp	408f
404:
	cmpb	$1, 10424(%rsp)
	jne	402b
405:
	movq	10432(%rsp), %r13
	leaq	2096(%rsp), %rdi
	movl	$200, %edx
	movq	%r13, %rsi
	callq	memcpy@PLT
	movq	%r13, %rdi
	callq	rattle_dealloc@PLT
	leaq	2096(%rsp), %rdi
	callq	"mime_lookup::mime_lookup++indexed++magic_index++MagicIndex+Destruct::drop"
	movq	128(%rsp), %r9
	movq	80(%rsp), %r8
	movdqa	96(%rsp), %xmm5
	cmpb	$1, 10440(%rsp)
	je	403b
406:
	cmpb	$1, 10456(%rsp)
	jne	408f
407:
	movq	10464(%rsp), %rdi
	callq	"std_alloc::boxed::Box::drop::<#02fc8b7b85195ce8>"
	movq	128(%rsp), %r9
	movq	80(%rsp), %r8
	movdqa	96(%rsp), %xmm5
408:
	movq	%r8, %rcx
	shrq	$16, %rcx
	movq	%r8, %rdx
	shrq	$32, %rdx
	movq	%r8, %rax
	shrq	$48, %rax
	movaps	2032(%rsp), %xmm0
	movaps	2048(%rsp), %xmm1
	movaps	%xmm1, 2016(%rsp)
	movaps	%xmm0, 2000(%rsp)
	movdqa	1216(%rsp), %xmm0
	movdqa	1232(%rsp), %xmm1
	movdqa	1248(%rsp), %xmm2
	movdqa	%xmm0, 1072(%rsp)
	movdqa	%xmm1, 1088(%rsp)
	movdqa	%xmm2, 1104(%rsp)
	movq	1264(%rsp), %rsi
	movq	%rsi, 1120(%rsp)
	cmpb	$0, 176(%rsp)
	movq	%rbp, %rdi
	je	249b
	movaps	2000(%rsp), %xmm0
	movaps	2016(%rsp), %xmm1
	movaps	%xmm0, 1696(%rsp)
	movaps	%xmm1, 1984(%rsp)
	movaps	1072(%rsp), %xmm0
	movdqa	1088(%rsp), %xmm1
	movdqa	1104(%rsp), %xmm2
	movaps	%xmm0, 1456(%rsp)
	movdqa	%xmm1, 1472(%rsp)
	movdqa	%xmm2, 1488(%rsp)
	movq	1120(%rsp), %rsi
	movq	%rsi, 1504(%rsp)
	movaps	1312(%rsp), %xmm0
	movaps	%xmm0, 1968(%rsp)
	movb	$1, %sil
	xorl	%r13d, %r13d
	movl	%ecx, %ebx
	movl	%edx, %r15d
	jmp	252b
409:
	leaq	2096(%rsp), %rdi
	movl	$4095, %edx
	xorl	%esi, %esi
	callq	memset@PLT
	jmp	459f
410:
	movq	%rdx, 176(%rsp)
	leaq	120(%rsp), %r9
411:
	shll	$8, %r8d
	movq	%r9, %rcx
	subq	%rsi, %rcx
	cmpq	%r14, %rcx
	jae	423f
	xorl	%eax, %eax
	cmpq	$4, %r14
	jb	499f
	cmpq	$32, %rcx
	jb	499f
	cmpq	$32, %r14
	jae	495f
	xorl	%eax, %eax
	jmp	497f
412:
	movdqa	48(%rsp), %xmm0
	movd	%xmm0, %r14d
	cmpq	$0, 656(%rsp)
	je	413f
	movq	640(%rsp), %rdi
	callq	rattle_dealloc@PLT
413:
	movb	$0, 256(%rsp)
	movl	$0, 264(%rsp)
	movw	$0, 268(%rsp)
	movq	$0, 272(%rsp)
	leaq	256(%rsp), %rdi
	leaq	576(%rsp), %rsi
	leaq	1136(%rsp), %rcx
	leaq	10336(%rsp), %r8
	movq	%r14, %rdx
	callq	"mime_view::rules::entries::add_entries"
	cmpb	$0, 256(%rsp)
	je	445f
	movq	272(%rsp), %r14
	movd	266(%rsp), %xmm0
	movzbl	264(%rsp), %ebp
	movq	1136(%rsp), %r15
	movq	1144(%rsp), %r13
	movq	1152(%rsp), %rax
	movq	%rax, 80(%rsp)
	testq	%r13, %r13
	movdqa	%xmm0, 48(%rsp)
	je	416f
	leaq	40(%r15), %rbx
	jmp	415f
414:
	addq	$56, %rbx
	decq	%r13
	je	416f
415:
	cmpq	$0, (%rbx)
	je	414b
	movq	-16(%rbx), %rdi
	callq	rattle_dealloc@PLT
	movdqa	48(%rsp), %xmm0
	jmp	414b
416:
	cmpq	$0, 80(%rsp)
	je	417f
	movq	%r15, %rdi
	callq	rattle_dealloc@PLT
	movdqa	48(%rsp), %xmm0
417:
	movq	72(%rsp), %rsi
	movq	144(%rsp), %rdx
	movq	40(%rsp), %r15
	jmp	119b
418:
	leaq	448(%rsp), %rdi
	movq	%r14, %rdx
	callq	memcpy@PLT
	jmp	491f
419:
	cmpq	%r14, %rax
	jae	420f
	leaq	.L399de51ae489(%rip), %rcx
	leaq	6240(%rsp), %rdi
	movl	$42, %r8d
	movl	$42, %r9d
	movl	$2, %esi
	movl	$20, %edx
	callq	"std_io::io::error::Error::from_bytes"
	movq	6240(%rsp), %rax
	movl	%eax, %ecx
	shrl	$8, %ecx
	movq	%rax, %rdx
	shrq	$16, %rdx
	jmp	463f
420:
	cmpq	$4095, %r14
	jbe	427f
	movl	$36, %edi
	jmp	457f
421:
	leaq	120(%rsp), %r9
422:
	movq	%r9, %rcx
	subq	%rsi, %rcx
	cmpq	%r14, %rcx
	jae	429f
	xorl	%eax, %eax
	cmpq	$4, %r14
	jb	512f
	cmpq	$32, %rcx
	jb	512f
	cmpq	$32, %r14
	jae	508f
	xorl	%eax, %eax
	jmp	510f
423:
	movq	%r9, %rdi
	movq	%r14, %rdx
	movq	%r9, %r12
	movl	%r8d, 128(%rsp)
	callq	memmove@PLT
	movl	128(%rsp), %r8d
	movq	%r12, %r9
	movq	32(%rsp), %rsi
	jmp	503f
424:
	movdqa	%xmm0, 10352(%rsp)
	movdqa	%xmm0, 10336(%rsp)
	movq	$0, 10368(%rsp)
	movq	160(%rsp), %rcx
	shll	$3, %ecx
	leaq	".Lswitch.table.mime_tool::program::answer::<#2d382ade8d012bfb>.2668"(%rip), %rax
	movq	(%rcx,%rax), %r9
	leaq	".Lswitch.table.mime_tool::program::answer::<#2d382ade8d012bfb>.2669"(%rip), %rax
	movq	(%rcx,%rax), %r8
	leaq	10336(%rsp), %rdi
	movq	%rbx, %rsi
	movq	128(%rsp), %rdx
	movq	32(%rsp), %rcx
	callq	"mime_tool::desk::report::<#2e1b2a3647f851f7>"
	cmpb	$0, 10336(%rsp)
	je	482f
	movzbl	10344(%rsp), %ebx
	movaps	10352(%rsp), %xmm0
	movaps	%xmm0, 880(%rsp)
	movq	10368(%rsp), %r13
	movq	%r13, 896(%rsp)
	movdqa	880(%rsp), %xmm0
	jmp	114b
425:
	movzbl	2104(%rsp), %eax
	movaps	2112(%rsp), %xmm0
	movaps	%xmm0, 256(%rsp)
	movaps	2128(%rsp), %xmm0
	movaps	%xmm0, 272(%rsp)
	movaps	2144(%rsp), %xmm0
	movaps	%xmm0, 288(%rsp)
	movq	2160(%rsp), %rcx
	movq	%rcx, 304(%rsp)
	xorl	%ecx, %ecx
426:
	movq	%rbp, %rdi
	movdqa	96(%rsp), %xmm5
	movq	176(%rsp), %r14
	jmp	340b
427:
	xorl	%eax, %eax
428:
	cmpb	$0, (%rcx,%rax)
	je	456f
	incq	%rax
	cmpq	%rax, %r14
	jne	428b
	jmp	458f
429:
	movq	%r9, %rdi
	movq	%r14, %rdx
	movq	%r9, %rbx
	callq	memmove@PLT
	movq	%rbx, %r9
	jmp	516f
430:
	cmpq	$1, %r8
	jne	467f
	xorl	%ebx, %ebx
	xorl	%r14d, %r14d
	movq	40(%rsp), %r15
	movq	200(%rsp), %rcx
	movq	192(%rsp), %rdx
	movq	168(%rsp), %rsi
	movq	224(%rsp), %rdi
	movq	48(%rsp), %r9
	movq	232(%rsp), %r10
	movq	248(%rsp), %r11
	jmp	471f
431:
	movl	%ebx, %eax
	andl	$32, %eax
	xorl	%ecx, %ecx
432:
	movdqu	(%rsi,%rcx), %xmm0
	movdqu	16(%rsi,%rcx), %xmm1
	movdqu	%xmm0, 256(%rsp,%rcx)
	movdqu	%xmm1, 272(%rsp,%rcx)
	addq	$32, %rcx
	cmpq	%rcx, %rax
	jne	432b
	cmpq	%rax, %rbx
	je	439f
	testb	$28, %bl
	je	435f
433:
	movq	%rax, %rcx
	movl	%ebx, %eax
	andl	$60, %eax
434:
	movl	(%rsi,%rcx), %edx
	movl	%edx, 256(%rsp,%rcx)
	addq	$4, %rcx
	cmpq	%rcx, %rax
	jne	434b
	cmpq	%rax, %rbx
	je	439f
435:
	movq	%rbx, %rdx
	movq	%rax, %rcx
	andq	$3, %rdx
	je	437f
	movq	%rax, %rcx
436:
	movzbl	(%rsi,%rcx), %edi
	movb	%dil, 256(%rsp,%rcx)
	incq	%rcx
	decq	%rdx
	jne	436b
437:
	subq	%rbx, %rax
	cmpq	$-4, %rax
	ja	439f
438:
	movzbl	(%rsi,%rcx), %eax
	movb	%al, 256(%rsp,%rcx)
	movzbl	1(%rsi,%rcx), %eax
	movb	%al, 257(%rsp,%rcx)
	movzbl	2(%rsi,%rcx), %eax
	movb	%al, 258(%rsp,%rcx)
	movzbl	3(%rsi,%rcx), %eax
	movb	%al, 259(%rsp,%rcx)
	addq	$4, %rcx
	cmpq	%rcx, %rbx
	jne	438b
439:
	movdqa	256(%rsp), %xmm0
	movdqa	272(%rsp), %xmm1
	movdqa	288(%rsp), %xmm2
	movdqu	%xmm2, 10376(%rsp)
	movdqu	%xmm1, 10360(%rsp)
	movdqu	%xmm0, 10344(%rsp)
	movq	$0, 10336(%rsp)
	movq	$48, 10392(%rsp)
	cmpq	$48, %rbx
	je	215b
	leaq	10344(%rsp), %rdi
	addq	%rbx, %rdi
	movl	$48, %edx
	subq	%rbx, %rdx
	xorl	%esi, %esi
	callq	memset@PLT
	movq	%rbx, 10392(%rsp)
	jmp	217b
440:
	movq	%r9, 72(%rsp)
	movq	%r14, 1080(%rsp)
	xorl	%r12d, %r12d
	jmp	613f
441:
	movb	$1, %bpl
	xorl	%r13d, %r13d
	xorl	%r14d, %r14d
	xorl	%ebx, %ebx
	movq	40(%rsp), %r15
	pxor	%xmm0, %xmm0
	jmp	124b
442:
	movq	6264(%rsp), %rax
	movq	%rax, 80(%rsp)
	pxor	%xmm0, %xmm0
	movdqa	%xmm0, 6256(%rsp)
	movdqa	%xmm0, 6240(%rsp)
	leaq	6240(%rsp), %rdi
	leaq	1216(%rsp), %r9
	leaq	2112(%rsp), %rsi
	movq	%r15, %rdx
	movq	%r14, %rcx
	movq	%rbp, %r15
	movq	%rbp, %r8
	movq	%r9, %rbp
	callq	"mime_view::pairs::look_up_pair"
	movzbl	6248(%rsp), %ecx
	movq	6256(%rsp), %rax
	cmpb	$0, 6240(%rsp)
	je	537f
	movd	6250(%rsp), %xmm0
	movb	$1, %bpl
	movq	%rax, %r12
	movl	%ecx, %ebx
	jmp	540f
443:
	movq	%r9, %r13
	movq	%r8, 80(%rsp)
	movq	2120(%rsp), %rax
	movq	%rax, 128(%rsp)
	pxor	%xmm0, %xmm0
	movdqa	%xmm0, 2112(%rsp)
	movdqa	%xmm0, 2096(%rsp)
	movl	%r15d, %edx
	leaq	2096(%rsp), %rdi
	leaq	1312(%rsp), %r9
	movq	%rbx, %rsi
	movq	96(%rsp), %rcx
	movq	%r14, %r8
	callq	"mime_view::pairs::look_up_pair"
	movzbl	2104(%rsp), %eax
	movq	2112(%rsp), %r8
	cmpb	$0, 2096(%rsp)
	je	589f
	movzwl	2108(%rsp), %r15d
	movzwl	2106(%rsp), %ebx
	pxor	%xmm0, %xmm0
	movdqa	%xmm0, 1296(%rsp)
	movdqa	%xmm0, 1280(%rsp)
	movdqa	%xmm0, 800(%rsp)
	movdqa	%xmm0, 816(%rsp)
	movdqa	%xmm0, 832(%rsp)
	movq	$0, 848(%rsp)
	movq	$0, 176(%rsp)
	movl	%eax, %r9d
	jmp	400b
444:
	leaq	2096(%rsp), %rdi
	movq	%rdx, %rsi
	movq	%r15, %rdx
	callq	"mime_lookup::cached::icons::long_generic"
	cmpb	$0, 2096(%rsp)
	je	592f
	xorps	%xmm0, %xmm0
	movaps	%xmm0, 288(%rsp)
	movaps	%xmm0, 272(%rsp)
	movaps	%xmm0, 256(%rsp)
	movq	$0, 304(%rsp)
	movb	$1, %cl
	xorl	%eax, %eax
	jmp	593f
445:
	movq	1136(%rsp), %rax
	movq	%rax, 168(%rsp)
	movq	1144(%rsp), %r14
	movq	1152(%rsp), %r15
	testq	%r14, %r14
	je	666f
	movq	%r15, 224(%rsp)
	movq	168(%rsp), %r15
	movq	%r14, %r13
446:
	movq	%r13, 48(%rsp)
	movq	8(%r15), %rax
	movq	%rax, 128(%rsp)
	movq	16(%r15), %r13
	movq	24(%r15), %rax
	movq	%rax, 200(%rsp)
	movq	32(%r15), %rax
	movq	%rax, 160(%rsp)
	movzbl	(%r15), %eax
	movzbl	48(%r15), %ecx
	movb	%cl, 192(%rsp)
	pxor	%xmm0, %xmm0
	movdqa	%xmm0, 6256(%rsp)
	movdqa	%xmm0, 6240(%rsp)
	movb	%al, 10336(%rsp)
	leaq	6240(%rsp), %rdi
	leaq	10336(%rsp), %rsi
	callq	"std_alloc::string::String::format::<#6af43b6eacf550cc>"
	cmpb	$0, 6240(%rsp)
	jne	656f
	movq	6248(%rsp), %rcx
	movq	6256(%rsp), %rdx
	movq	6264(%rsp), %rax
	movq	%rax, 144(%rsp)
	movq	8(%rbx), %rbp
	testq	%rdx, %rdx
	je	447f
	movq	%rbp, %rdi
	movq	%r13, 72(%rsp)
	movq	%rbp, %r13
	movq	%rcx, %rbp
	movq	%rcx, %rsi
	callq	"mime_tool::system::StreamSink::put::<#87f05e477b504f42>"
	movq	%rbp, %rcx
	movq	%r13, %rbp
	movq	72(%rsp), %r13
	movq	%rdx, 80(%rsp)
	testb	%al, %al
	jne	449f
447:
	movq	%rcx, 32(%rsp)
	leaq	.Lf1c38b9a8d70(%rip), %rsi
	movl	$1, %edx
	movq	%rbp, %rdi
	callq	"mime_tool::system::StreamSink::put::<#87f05e477b504f42>"
	movq	%rdx, 80(%rsp)
	testb	%al, %al
	je	452f
448:
	movq	32(%rsp), %rcx
449:
	movq	144(%rsp), %rdx
	movq	80(%rsp), %rax
	incb	%al
	movq	%rax, 80(%rsp)
	xorl	%ebp, %ebp
	movq	48(%rsp), %r13
	testq	%rdx, %rdx
	je	451f
450:
	movq	%rcx, %rdi
	callq	rattle_dealloc@PLT
451:
	testb	%bpl, %bpl
	je	657f
	addq	$56, %r15
	decq	%r13
	jne	446b
	jmp	663f
452:
	testq	%r13, %r13
	je	453f
	movq	%rbp, %rdi
	movq	128(%rsp), %rsi
	movq	%r13, %rdx
	callq	"mime_tool::system::StreamSink::put::<#87f05e477b504f42>"
	movq	%rdx, 80(%rsp)
	testb	%al, %al
	jne	448b
453:
	leaq	.Lf1c38b9a8d70(%rip), %rsi
	movl	$1, %edx
	movq	%rbp, %r13
	movq	%rbp, %rdi
	callq	"mime_tool::system::StreamSink::put::<#87f05e477b504f42>"
	movq	%rdx, 80(%rsp)
	testb	%al, %al
	jne	448b
	cmpq	$0, 160(%rsp)
	je	454f
	movq	%r13, %rdi
	movq	200(%rsp), %rsi
	movq	160(%rsp), %rdx
	callq	"mime_tool::system::StreamSink::put::<#87f05e477b504f42>"
	movq	%rdx, 80(%rsp)
	testb	%al, %al
	jne	448b
454:
	cmpb	$0, 192(%rsp)
	je	455f
	leaq	.Lff74aa3ca5f0(%rip), %rsi
	movl	$3, %edx
	movq	%r13, %rdi
	callq	"mime_tool::system::StreamSink::put::<#87f05e477b504f42>"
	movq	%rdx, 80(%rsp)
	testb	%al, %al
	jne	448b
455:
	leaq	.Lb9d66d2d8f9c(%rip), %rsi
	movl	$1, %edx
	movq	%r13, %rdi
	callq	"mime_tool::system::StreamSink::put::<#87f05e477b504f42>"
	movq	%rdx, 80(%rsp)
	testb	%al, %al
	jne	448b
	movb	$1, %bpl
	movq	$0, 80(%rsp)
	movq	48(%rsp), %r13
	movq	32(%rsp), %rcx
	movq	144(%rsp), %rdx
	testq	%rdx, %rdx
	jne	450b
	jmp	451b
456:
	cmpq	%r14, %rax
	jae	458f
	movl	$22, %edi
457:
	callq	rattle_set_errno@PLT
	jmp	462f
458:
	leaq	2096(%rsp), %rdi
	movl	$4095, %edx
	xorl	%esi, %esi
	callq	memset@PLT
	leaq	2096(%rsp), %rdi
	movq	32(%rsp), %rsi
	movq	%r14, %rdx
	callq	memcpy@PLT
459:
	movb	$0, 6191(%rsp)
	leaq	6240(%rsp), %rbx
	leaq	2096(%rsp), %rsi
	movl	$4096, %edx
	movq	%rbx, %rdi
	callq	memcpy@PLT
	movb	$0, 18527(%rsp)
	leaq	14432(%rsp), %rsi
	movq	%rbx, %rdi
	callq	realpath@PLT
	testq	%rax, %rax
	je	462f
	movq	$-16, %rcx
460:
	movdqu	14448(%rsp,%rcx), %xmm0
	pxor	%xmm1, %xmm1
	pcmpeqb	%xmm0, %xmm1
	pmovmskb	%xmm1, %edx
	leaq	16(%rcx), %rax
	testl	%edx, %edx
	jne	461f
	cmpq	$4064, %rcx
	movq	%rax, %rcx
	jne	460b
461:
	testw	%dx, %dx
	je	464f
	pxor	%xmm1, %xmm1
	pcmpeqb	%xmm1, %xmm0
	pand	6b(%rip), %xmm0
	pextrb	$1, %xmm0, %ecx
	movd	%xmm0, %edx
	cmpb	%cl, %dl
	cmoval	%edx, %ecx
	pextrb	$2, %xmm0, %edx
	cmpb	%dl, %cl
	cmovbel	%edx, %ecx
	pextrb	$3, %xmm0, %edx
	cmpb	%dl, %cl
	cmovbel	%edx, %ecx
	pextrb	$4, %xmm0, %edx
	cmpb	%dl, %cl
	cmovbel	%edx, %ecx
	pextrb	$5, %xmm0, %edx
	cmpb	%dl, %cl
	cmovbel	%edx, %ecx
	pextrb	$6, %xmm0, %edx
	cmpb	%dl, %cl
	cmovbel	%edx, %ecx
	pextrb	$7, %xmm0, %edx
	cmpb	%dl, %cl
	cmovbel	%edx, %ecx
	pextrb	$8, %xmm0, %edx
	cmpb	%dl, %cl
	cmovbel	%edx, %ecx
	pextrb	$9, %xmm0, %edx
	cmpb	%dl, %cl
	cmovbel	%edx, %ecx
	pextrb	$10, %xmm0, %edx
	cmpb	%dl, %cl
	cmovbel	%edx, %ecx
	pextrb	$11, %xmm0, %edx
	cmpb	%dl, %cl
	cmovbel	%edx, %ecx
	pextrb	$12, %xmm0, %edx
	cmpb	%dl, %cl
	cmovbel	%edx, %ecx
	pextrb	$13, %xmm0, %edx
	cmpb	%dl, %cl
	cmovbel	%edx, %ecx
	pextrb	$14, %xmm0, %edx
	cmpb	%dl, %cl
	cmovbel	%edx, %ecx
	pextrb	$15, %xmm0, %edx
	cmpb	%dl, %cl
	cmovbel	%edx, %ecx
	movb	$16, %dl
	subb	%cl, %dl
	movzbl	%dl, %edx
	addq	%rax, %rdx
	jmp	465f
462:
	callq	rattle_errno@PLT
	leaq	6240(%rsp), %rdi
	movl	%eax, %esi
	callq	"std_io::io::error::Error::from_raw_os_error"
	movzbl	6240(%rsp), %eax
	movzbl	6241(%rsp), %ecx
	movl	6242(%rsp), %esi
	movzwl	6246(%rsp), %edx
	shlq	$32, %rdx
	orq	%rsi, %rdx
463:
	shlq	$16, %rdx
	movzbl	%cl, %ecx
	shll	$8, %ecx
	orq	%rdx, %rcx
	movzbl	%al, %r12d
	orq	%rcx, %r12
	movq	32(%rsp), %rsi
	jmp	310b
464:
	movl	$4096, %edx
465:
	pxor	%xmm0, %xmm0
	movdqa	%xmm0, 6240(%rsp)
	movq	$0, 6256(%rsp)
	leaq	6240(%rsp), %rdi
	leaq	14432(%rsp), %rsi
	callq	"core::str::utf8::from_utf8"
	cmpb	$0, 6240(%rsp)
	je	466f
	movl	$8449, %r12d
	movq	32(%rsp), %rsi
	jmp	310b
466:
	movq	6256(%rsp), %rax
	movq	%rax, %r12
	testq	%rax, %rax
	je	594f
	js	591f
	movq	6248(%rsp), %rbx
	movl	$1, %esi
	movq	%r12, %rdi
	callq	rattle_alloc@PLT
	movq	%rdx, 176(%rsp)
	testb	$1, %al
	je	591f
	movq	176(%rsp), %rax
	subq	%rbx, %rax
	cmpq	%r12, %rax
	jae	689f
	cmpq	$4, %r12
	setb	%al
	movq	176(%rsp), %rcx
	subq	%rbx, %rcx
	cmpq	$32, %rcx
	setb	%cl
	orb	%al, %cl
	je	693f
	xorl	%eax, %eax
	movq	176(%rsp), %rdi
	movq	%r12, %rsi
	jmp	708f
467:
	movq	%r8, %r15
	andq	$-2, %r15
	movq	240(%rsp), %rax
	leaq	56(%rax), %rbp
	xorl	%ebx, %ebx
	xorl	%r14d, %r14d
	jmp	469f
468:
	addq	%r11, %rbx
	addq	$2, %r14
	addq	$64, %rbp
	cmpq	%r14, %r15
	je	470f
469:
	movq	%r13, %r11
	subq	%rbx, %r11
	movq	-32(%rbp), %rcx
	movq	(%rbp), %rax
	cmpq	%rcx, %r11
	cmovaeq	%rcx, %r11
	addq	%rbx, %r11
	movq	%r13, %rbx
	subq	%r11, %rbx
	cmpq	%rax, %rbx
	jb	468b
	movq	%rax, %rbx
	jmp	468b
470:
	testb	$1, %r8b
	movq	40(%rsp), %r15
	movq	200(%rsp), %rcx
	movq	192(%rsp), %rdx
	movq	168(%rsp), %rsi
	movq	224(%rsp), %rdi
	movq	48(%rsp), %r9
	movq	232(%rsp), %r10
	movq	248(%rsp), %r11
	je	472f
471:
	shlq	$5, %r14
	movq	240(%rsp), %rax
	movq	24(%rax,%r14), %rax
	subq	%rbx, %r13
	cmpq	%rax, %r13
	cmovaeq	%rax, %r13
	addq	%r13, %rbx
472:
	addq	%rdi, %rsi
	movq	$-1, %rax
	cmovbq	%rax, %rsi
	addq	%rsi, %r9
	cmovbq	%rax, %r9
	movq	%r9, 14432(%rsp)
	movq	%rcx, 14440(%rsp)
	movq	%rdx, 14448(%rsp)
	movq	%r8, 14456(%rsp)
	movq	%rbx, 14464(%rsp)
	movq	%r10, 14472(%rsp)
	movq	%r11, 14480(%rsp)
	leaq	864(%rsp), %rdi
	leaq	14432(%rsp), %rdx
	movq	96(%rsp), %rsi
	callq	"mime_tool::check::print_counts::<#2e1b2a3647f851f7>"
	movzbl	864(%rsp), %r14d
	movzbl	865(%rsp), %ebp
	movzbl	872(%rsp), %ebx
	movdqa	880(%rsp), %xmm0
	movq	896(%rsp), %r13
	cmpq	$0, 160(%rsp)
	movdqa	%xmm0, 48(%rsp)
	je	473f
	movq	176(%rsp), %rdi
	callq	rattle_dealloc@PLT
	movdqa	48(%rsp), %xmm0
473:
	cmpq	$0, 32(%rsp)
	je	474f
	movq	520(%rsp), %rdi
	callq	rattle_dealloc@PLT
	movdqa	48(%rsp), %xmm0
474:
	cmpq	$0, 80(%rsp)
	je	475f
	movq	416(%rsp), %rdi
	callq	rattle_dealloc@PLT
	movdqa	48(%rsp), %xmm0
475:
	cmpq	$0, 72(%rsp)
	je	476f
	movq	344(%rsp), %rdi
	callq	rattle_dealloc@PLT
	movdqa	48(%rsp), %xmm0
476:
	cmpq	$0, 128(%rsp)
	je	477f
	movq	320(%rsp), %rdi
	callq	rattle_dealloc@PLT
	movdqa	48(%rsp), %xmm0
477:
	cmpq	$0, 424(%rsp)
	je	478f
	movq	1744(%rsp), %rdi
	callq	rattle_dealloc@PLT
	movdqa	48(%rsp), %xmm0
478:
	cmpq	$0, 432(%rsp)
	movq	240(%rsp), %rdi
	je	479f
	callq	rattle_dealloc@PLT
	movdqa	48(%rsp), %xmm0
479:
	cmpq	$0, 216(%rsp)
	je	480f
	movq	1752(%rsp), %rdi
	callq	rattle_dealloc@PLT
	movdqa	48(%rsp), %xmm0
480:
	cmpq	$0, 512(%rsp)
	movq	336(%rsp), %rdi
	je	481f
	callq	rattle_dealloc@PLT
	movdqa	48(%rsp), %xmm0
481:
	cmpq	$0, 440(%rsp)
	movq	208(%rsp), %rdi
	je	124b
	callq	rattle_dealloc@PLT
	movdqa	48(%rsp), %xmm0
	jmp	124b
482:
	movb	$1, %bpl
	xorl	%r13d, %r13d
	xorl	%r14d, %r14d
	xorl	%ebx, %ebx
	movq	40(%rsp), %r15
	pxor	%xmm0, %xmm0
	jmp	115b
483:
	movl	%r14d, %eax
	andl	$32, %eax
	xorl	%ecx, %ecx
484:
	movups	(%rsi,%rcx), %xmm0
	movdqu	16(%rsi,%rcx), %xmm1
	movups	%xmm0, 448(%rsp,%rcx)
	movdqu	%xmm1, 464(%rsp,%rcx)
	addq	$32, %rcx
	cmpq	%rcx, %rax
	jne	484b
	cmpq	%rax, %r14
	je	491f
	testb	$28, %r14b
	je	487f
485:
	movq	%rax, %rcx
	movl	%r14d, %eax
	andl	$60, %eax
486:
	movl	(%rsi,%rcx), %edx
	movl	%edx, 448(%rsp,%rcx)
	addq	$4, %rcx
	cmpq	%rcx, %rax
	jne	486b
	cmpq	%rax, %r14
	je	491f
487:
	movq	%r14, %rdx
	movq	%rax, %rcx
	andq	$3, %rdx
	je	489f
	movq	%rax, %rcx
488:
	movzbl	(%rsi,%rcx), %edi
	movb	%dil, 448(%rsp,%rcx)
	incq	%rcx
	decq	%rdx
	jne	488b
489:
	subq	%r14, %rax
	cmpq	$-4, %rax
	ja	491f
490:
	movzbl	(%rsi,%rcx), %eax
	movb	%al, 448(%rsp,%rcx)
	movzbl	1(%rsi,%rcx), %eax
	movb	%al, 449(%rsp,%rcx)
	movzbl	2(%rsi,%rcx), %eax
	movb	%al, 450(%rsp,%rcx)
	movzbl	3(%rsi,%rcx), %eax
	movb	%al, 451(%rsp,%rcx)
	addq	$4, %rcx
	cmpq	%rcx, %r14
	jne	490b
491:
	leaq	10344(%rsp), %rbx
	movaps	448(%rsp), %xmm0
	movaps	464(%rsp), %xmm1
	movaps	480(%rsp), %xmm2
	movups	%xmm2, 10376(%rsp)
	movups	%xmm1, 10360(%rsp)
	movups	%xmm0, 10344(%rsp)
	movq	$0, 10336(%rsp)
	movq	$48, 10392(%rsp)
	cmpq	$48, %r14
	jne	492f
	xorl	%eax, %eax
	jmp	493f
492:
	leaq	(%rbx,%r14), %rdi
	movl	$48, %edx
	subq	%r14, %rdx
	xorl	%esi, %esi
	callq	memset@PLT
	movq	%r14, 10392(%rsp)
	movzbl	10336(%rsp), %eax
493:
	movq	%rbp, %rdi
	movdqa	96(%rsp), %xmm5
	movq	176(%rsp), %r14
	jmp	339b
494:
	movq	232(%rsp), %rax
	movq	%rax, 1080(%rsp)
	movq	328(%rsp), %rbx
	movq	240(%rsp), %r13
	jmp	613f
495:
	movq	%r14, %rax
	andq	$-32, %rax
	xorl	%ecx, %ecx
496:
	movdqu	(%rsi,%rcx), %xmm0
	movdqu	16(%rsi,%rcx), %xmm1
	movdqu	%xmm0, (%r9,%rcx)
	movdqu	%xmm1, 16(%r9,%rcx)
	addq	$32, %rcx
	cmpq	%rcx, %rax
	jne	496b
	cmpq	%rax, %r14
	je	503f
	testb	$28, %r14b
	je	499f
497:
	movq	%rax, %rcx
	movq	%r14, %rax
	andq	$-4, %rax
498:
	movl	(%rsi,%rcx), %edx
	movl	%edx, (%r9,%rcx)
	addq	$4, %rcx
	cmpq	%rcx, %rax
	jne	498b
	cmpq	%rax, %r14
	je	503f
499:
	movq	%r14, %rdx
	movq	%rax, %rcx
	andq	$3, %rdx
	je	501f
	movq	%rax, %rcx
500:
	movzbl	(%rsi,%rcx), %edi
	movb	%dil, (%r9,%rcx)
	incq	%rcx
	decq	%rdx
	jne	500b
501:
	subq	%r14, %rax
	cmpq	$-4, %rax
	ja	503f
502:
	movzbl	(%rsi,%rcx), %eax
	movb	%al, (%r9,%rcx)
	movzbl	1(%rsi,%rcx), %eax
	movb	%al, 1(%r9,%rcx)
	movzbl	2(%rsi,%rcx), %eax
	movb	%al, 2(%r9,%rcx)
	movzbl	3(%rsi,%rcx), %eax
	movb	%al, 3(%r9,%rcx)
	addq	$4, %rcx
	cmpq	%rcx, %r14
	jne	502b
503:
	movl	%r8d, %eax
	andl	$61440, %eax
	cmpl	$16384, %eax
	je	504f
	cmpl	$32768, %eax
	jne	505f
	movzwl	%bx, %ecx
	movzbl	176(%rsp), %eax
	shll	$16, %ecx
	orl	%eax, %ecx
	orl	%r8d, %ecx
	movq	%rcx, 216(%rsp)
	movb	$1, %al
	movl	%eax, 432(%rsp)
	movq	%r14, %r12
	jmp	518f
504:
	movl	$3841, %r12d
	jmp	506f
505:
	movl	$9217, %r12d
506:
	testq	%r14, %r14
	je	310b
	movq	%r9, %rdi
507:
	callq	rattle_dealloc@PLT
	movq	32(%rsp), %rsi
	jmp	310b
508:
	movq	%r14, %rax
	andq	$-32, %rax
	xorl	%ecx, %ecx
509:
	movdqu	(%rsi,%rcx), %xmm0
	movdqu	16(%rsi,%rcx), %xmm1
	movdqu	%xmm0, (%r9,%rcx)
	movdqu	%xmm1, 16(%r9,%rcx)
	addq	$32, %rcx
	cmpq	%rcx, %rax
	jne	509b
	movl	$0, 432(%rsp)
	cmpq	%rax, %r14
	je	517f
	testb	$28, %r14b
	movq	32(%rsp), %rsi
	je	512f
510:
	movq	%rax, %rcx
	movq	%r14, %rax
	andq	$-4, %rax
511:
	movl	(%rsi,%rcx), %edx
	movl	%edx, (%r9,%rcx)
	addq	$4, %rcx
	cmpq	%rcx, %rax
	jne	511b
	movl	$0, 432(%rsp)
	cmpq	%rax, %r14
	je	517f
512:
	movq	%r14, %rdx
	movq	%rax, %rcx
	andq	$3, %rdx
	je	514f
	movq	%rax, %rcx
513:
	movzbl	(%rsi,%rcx), %edi
	movb	%dil, (%r9,%rcx)
	incq	%rcx
	decq	%rdx
	jne	513b
514:
	subq	%r14, %rax
	cmpq	$-4, %rax
	ja	516f
515:
	movzbl	(%rsi,%rcx), %eax
	movb	%al, (%r9,%rcx)
	movzbl	1(%rsi,%rcx), %eax
	movb	%al, 1(%r9,%rcx)
	movzbl	2(%rsi,%rcx), %eax
	movb	%al, 2(%r9,%rcx)
	movzbl	3(%rsi,%rcx), %eax
	movb	%al, 3(%r9,%rcx)
	addq	$4, %rcx
	cmpq	%rcx, %r14
	jne	515b
516:
	movl	$0, 432(%rsp)
517:
	movq	%r14, %r12
	movq	$0, 216(%rsp)
518:
	pxor	%xmm0, %xmm0
	movdqu	%xmm0, 2104(%rsp)
	movl	$0, 2153(%rsp)
	movl	$0, 2156(%rsp)
	leaq	120(%rsp), %rbx
	movq	%rbx, 2096(%rsp)
	movq	$0, 2144(%rsp)
	movb	$0, 2152(%rsp)
	movl	$32, 2120(%rsp)
	movq	$0, 2124(%rsp)
	movl	$0, 2132(%rsp)
	movq	$-1, 2136(%rsp)
	testq	%r12, %r12
	movq	%r9, 176(%rsp)
	movq	%r12, 208(%rsp)
	jne	599f
	movq	$0, 128(%rsp)
	xorl	%eax, %eax
519:
	leaq	(%rax,%r12), %r10
	leaq	(%rbx,%rax), %rdi
	movq	%rdi, %rcx
	subq	%r9, %rcx
	cmpq	%r12, %rcx
	jae	525f
	cmpq	$4, %r12
	jb	520f
	cmpq	$32, %rcx
	jae	534f
520:
	xorl	%ecx, %ecx
521:
	movq	%r12, %rsi
	movq	%rcx, %rdx
	andq	$3, %rsi
	je	523f
	movq	%rcx, %rdx
522:
	movzbl	(%r9,%rdx), %r8d
	movb	%r8b, (%rdi,%rdx)
	incq	%rdx
	decq	%rsi
	jne	522b
523:
	subq	%r12, %rcx
	cmpq	$-4, %rcx
	ja	526f
	addq	%rbx, %rax
	addq	$3, %rax
524:
	movzbl	(%r9,%rdx), %ecx
	movb	%cl, -3(%rax,%rdx)
	movzbl	1(%r9,%rdx), %ecx
	movb	%cl, -2(%rax,%rdx)
	movzbl	2(%r9,%rdx), %ecx
	movb	%cl, -1(%rax,%rdx)
	movzbl	3(%r9,%rdx), %ecx
	movb	%cl, (%rax,%rdx)
	addq	$4, %rdx
	cmpq	%rdx, %r12
	jne	524b
	jmp	526f
525:
	movq	%r9, %rsi
	movq	%r12, %rdx
	movq	%r10, %r12
	callq	memmove@PLT
	movq	%r12, %r10
	movq	208(%rsp), %r12
526:
	movq	%r10, 2104(%rsp)
	movq	128(%rsp), %rax
	movq	%rax, 2112(%rsp)
	movl	$32, 2120(%rsp)
	leaq	2124(%rsp), %rcx
	movl	$0, 8(%rcx)
	movq	$0, (%rcx)
	movq	$-1, 2136(%rsp)
	cmpq	$0, 2144(%rsp)
	jne	600f
	subq	%r10, %rax
	cmpq	$3, %rax
	jbe	652f
527:
	addq	%r10, %rbx
	addq	$4, %r10
	leaq	.L50e695259f83(%rip), %rax
	movq	%rbx, %rcx
	subq	%rax, %rcx
	cmpq	$3, %rcx
	movl	$2003136046, (%rbx)
	movq	2096(%rsp), %rbx
	testq	%r10, %r10
	movq	%r10, 336(%rsp)
	je	601f
528:
	xorl	%eax, %eax
529:
	cmpb	$0, (%rbx,%rax)
	je	530f
	incq	%rax
	cmpq	%rax, %r10
	jne	529b
	jmp	531f
530:
	cmpq	%r10, %rax
	jae	531f
	leaq	.L399de51ae489(%rip), %rcx
	leaq	6240(%rsp), %rdi
	movl	$42, %r8d
	movl	$42, %r9d
	movl	$2, %esi
	movl	$20, %edx
	callq	"std_io::io::error::Error::from_bytes"
	jmp	604f
531:
	cmpq	$4095, %r10
	jbe	532f
	movl	$36, %edi
	callq	rattle_set_errno@PLT
	jmp	603f
532:
	xorl	%eax, %eax
533:
	cmpb	$0, (%rbx,%rax)
	je	535f
	incq	%rax
	cmpq	%rax, %r10
	jne	533b
	jmp	536f
534:
	movq	%r10, %r11
	cmpq	$32, %r12
	jae	595f
	xorl	%ecx, %ecx
	jmp	597f
535:
	cmpq	%r10, %rax
	jae	536f
	movl	$22, %edi
	callq	rattle_set_errno@PLT
	movq	208(%rsp), %r12
	jmp	603f
536:
	leaq	2096(%rsp), %rdi
	movl	$4095, %edx
	xorl	%esi, %esi
	callq	memset@PLT
	leaq	2096(%rsp), %rdi
	movq	%rbx, %rsi
	movq	336(%rsp), %rdx
	callq	memcpy@PLT
	movq	208(%rsp), %r12
	jmp	602f
537:
	cmpb	$1, %cl
	jne	538f
	movq	6264(%rsp), %r15
	movq	%rax, %r14
538:
	cmpb	$1, %bl
	movq	72(%rsp), %r8
	cmoveq	80(%rsp), %r8
	cmoveq	%r12, %r13
	pxor	%xmm0, %xmm0
	movdqa	%xmm0, 640(%rsp)
	movdqa	%xmm0, 656(%rsp)
	movq	%rbp, 8(%rsp)
	movq	%r15, (%rsp)
	leaq	1072(%rsp), %rdi
	leaq	2096(%rsp), %rsi
	leaq	640(%rsp), %rdx
	movq	%r13, %rcx
	movq	%r14, %r9
	callq	"mime_lookup::cached::ancestry::leads_to"
	cmpb	$1, 648(%rsp)
	jne	539f
	movq	656(%rsp), %rdi
	callq	"std_collections::btree::node::Node::destroy::<#edcdc2349bef7e9b>"
539:
	movzbl	1072(%rsp), %ebp
	testb	%bpl, %bpl
	je	670f
	movzbl	1080(%rsp), %ebx
	movd	1082(%rsp), %xmm0
	movq	1088(%rsp), %r12
540:
	movq	144(%rsp), %rsi
	movq	48(%rsp), %rdx
	movq	40(%rsp), %r15
	cmpb	$7, %bl
	je	351b
541:
	movzbl	%bl, %eax
	movq	$0, 6240(%rsp)
	pxor	%xmm1, %xmm1
	movdqa	%xmm1, 2096(%rsp)
	movdqa	%xmm1, 2112(%rsp)
	movw	%ax, 6240(%rsp)
	movd	%xmm0, 6242(%rsp)
	movq	%r12, 6248(%rsp)
	leaq	2096(%rsp), %rdi
	leaq	6240(%rsp), %rcx
	callq	"mime_tool::cache::faulty"
	movzbl	2096(%rsp), %ebx
542:
	movq	96(%rsp), %r8
	movq	2120(%rsp), %rax
	movq	%rax, 1472(%rsp)
	movdqu	2104(%rsp), %xmm0
	movdqa	%xmm0, 1456(%rsp)
	xorl	%esi, %esi
543:
	movq	1472(%rsp), %rax
	movq	%rax, 1408(%rsp)
	movdqa	1456(%rsp), %xmm0
	movdqa	%xmm0, 1392(%rsp)
544:
	movq	1408(%rsp), %rax
	movq	%rax, 544(%rsp)
	movaps	1392(%rsp), %xmm0
	movaps	%xmm0, 528(%rsp)
	testb	%bpl, %bpl
	je	545f
	movq	544(%rsp), %rax
	movq	%rax, 1040(%rsp)
	movaps	528(%rsp), %xmm0
	movaps	%xmm0, 1024(%rsp)
	movb	$1, %r14b
	xorl	%ebp, %ebp
	jmp	551f
545:
	movq	8(%r8), %rdi
	testb	$1, %sil
	je	546f
	leaq	.Lf6312c8630b2(%rip), %rsi
	movl	$4, %edx
	callq	"mime_tool::system::StreamSink::put::<#87f05e477b504f42>"
	testb	%al, %al
	jne	547f
	xorl	%ebp, %ebp
	jmp	549f
546:
	leaq	.L3d0ec50b8ed2(%rip), %rsi
	movl	$3, %edx
	callq	"mime_tool::system::StreamSink::put::<#87f05e477b504f42>"
	testb	%al, %al
	je	548f
547:
	movl	%edx, %ebx
	incb	%bl
	xorps	%xmm0, %xmm0
	movaps	%xmm0, 1328(%rsp)
	movq	$0, 1344(%rsp)
	movb	$1, %r14b
	xorl	%ebp, %ebp
	jmp	550f
548:
	movb	$1, %bpl
549:
	xorps	%xmm0, %xmm0
	movaps	%xmm0, 1328(%rsp)
	movq	$0, 1344(%rsp)
	xorl	%r14d, %r14d
	xorl	%ebx, %ebx
550:
	movq	1344(%rsp), %rax
	movq	%rax, 1040(%rsp)
	movaps	1328(%rsp), %xmm0
	movaps	%xmm0, 1024(%rsp)
551:
	cmpb	$0, 10336(%rsp)
	je	583f
	movq	%rbp, 144(%rsp)
	movq	%r14, 32(%rsp)
	movq	%rbx, 80(%rsp)
	movq	10344(%rsp), %rax
	movq	%rax, 224(%rsp)
	movq	10352(%rsp), %rbx
	movq	10360(%rsp), %rax
	movq	%rax, 416(%rsp)
	movq	10368(%rsp), %rax
	movq	%rax, 168(%rsp)
	movq	10376(%rsp), %rbp
	movq	10384(%rsp), %rax
	movq	%rax, 344(%rsp)
	movq	10392(%rsp), %rax
	movq	%rax, 192(%rsp)
	movq	10400(%rsp), %r15
	movq	10408(%rsp), %rax
	movq	%rax, 320(%rsp)
	movq	10416(%rsp), %rax
	movq	%rax, 72(%rsp)
	movq	10424(%rsp), %rax
	movq	%rax, 128(%rsp)
	movq	10432(%rsp), %rax
	movq	%rax, 248(%rsp)
	movq	10440(%rsp), %rax
	movq	%rax, 200(%rsp)
	movq	10448(%rsp), %rax
	movq	%rax, 48(%rsp)
	movq	10456(%rsp), %rax
	movq	%rax, 232(%rsp)
	movq	10464(%rsp), %rax
	movq	%rax, 328(%rsp)
	movq	10472(%rsp), %rax
	movq	%rax, 96(%rsp)
	movq	10480(%rsp), %rax
	movq	%rax, 240(%rsp)
	testq	%rbx, %rbx
	je	555f
	movq	224(%rsp), %rax
	leaq	80(%rax), %r12
	movq	%r15, 160(%rsp)
	jmp	553f
552:
	addq	$104, %r12
	decq	%rbx
	je	555f
553:
	movzbl	-24(%r12), %r14d
	movq	-16(%r12), %rdi
	movq	(%r12), %r13
	cmpb	$0, -72(%r12)
	je	554f
	cmpq	$0, -48(%r12)
	je	554f
	movq	%rdi, %r15
	movq	-64(%r12), %rdi
	callq	rattle_dealloc@PLT
	movq	%r15, %rdi
	movq	160(%rsp), %r15
554:
	testb	%r14b, %r14b
	je	552b
	testq	%r13, %r13
	je	552b
	callq	rattle_dealloc@PLT
	jmp	552b
555:
	cmpq	$0, 416(%rsp)
	je	556f
	movq	224(%rsp), %rdi
	callq	rattle_dealloc@PLT
556:
	testq	%rbp, %rbp
	je	560f
	movq	168(%rsp), %rbx
	jmp	558f
557:
	addq	$96, %rbx
	decq	%rbp
	je	560f
558:
	movzbl	48(%rbx), %r13d
	movq	56(%rbx), %r14
	movq	72(%rbx), %r12
	cmpb	$0, (%rbx)
	je	559f
	cmpq	$0, 24(%rbx)
	je	559f
	movq	8(%rbx), %rdi
	callq	rattle_dealloc@PLT
559:
	testb	%r13b, %r13b
	je	557b
	testq	%r12, %r12
	je	557b
	movq	%r14, %rdi
	callq	rattle_dealloc@PLT
	jmp	557b
560:
	cmpq	$0, 344(%rsp)
	je	561f
	movq	168(%rsp), %rdi
	callq	rattle_dealloc@PLT
561:
	testq	%r15, %r15
	movq	328(%rsp), %r13
	je	565f
	movq	192(%rsp), %rbx
	jmp	563f
562:
	addq	$96, %rbx
	decq	%r15
	je	565f
563:
	movzbl	48(%rbx), %ebp
	movq	56(%rbx), %r14
	movq	72(%rbx), %r12
	cmpb	$0, (%rbx)
	je	564f
	cmpq	$0, 24(%rbx)
	je	564f
	movq	8(%rbx), %rdi
	callq	rattle_dealloc@PLT
564:
	testb	%bpl, %bpl
	je	562b
	testq	%r12, %r12
	je	562b
	movq	%r14, %rdi
	callq	rattle_dealloc@PLT
	jmp	562b
565:
	cmpq	$0, 320(%rsp)
	je	566f
	movq	192(%rsp), %rdi
	callq	rattle_dealloc@PLT
566:
	cmpq	$0, 128(%rsp)
	movq	72(%rsp), %rdi
	je	572f
	xorl	%r14d, %r14d
	jmp	568f
567:
	incq	%r14
	cmpq	128(%rsp), %r14
	movq	72(%rsp), %rdi
	je	572f
568:
	movq	%r14, %rax
	shlq	$4, %rax
	leaq	(%rax,%rax,4), %rax
	movq	56(%rdi,%rax), %r15
	movq	64(%rdi,%rax), %rbp
	movq	72(%rdi,%rax), %rbx
	cmpb	$0, 8(%rdi,%rax)
	je	569f
	cmpq	$0, 32(%rdi,%rax)
	je	569f
	movq	16(%rdi,%rax), %rdi
	callq	rattle_dealloc@PLT
569:
	testq	%rbp, %rbp
	je	571f
	movq	%r15, %r12
	.p2align	4
570:
	movups	80(%r12), %xmm0
	movaps	%xmm0, 2176(%rsp)
	movups	64(%r12), %xmm0
	movaps	%xmm0, 2160(%rsp)
	movups	(%r12), %xmm0
	movdqu	16(%r12), %xmm1
	movdqu	32(%r12), %xmm2
	movdqu	48(%r12), %xmm3
	movdqa	%xmm3, 2144(%rsp)
	movdqa	%xmm2, 2128(%rsp)
	movdqa	%xmm1, 2112(%rsp)
	movaps	%xmm0, 2096(%rsp)
	leaq	2096(%rsp), %rdi
	callq	"mime_text::mime_base++magic++matchlet++Matchlet+Destruct::drop"
	addq	$96, %r12
	decq	%rbp
	jne	570b
571:
	testq	%rbx, %rbx
	je	567b
	movq	%r15, %rdi
	callq	rattle_dealloc@PLT
	jmp	567b
572:
	cmpq	$0, 248(%rsp)
	je	573f
	callq	rattle_dealloc@PLT
573:
	cmpq	$0, 48(%rsp)
	je	577f
	movq	200(%rsp), %rbx
	jmp	575f
574:
	addq	$96, %rbx
	decq	48(%rsp)
	je	577f
575:
	movzbl	48(%rbx), %ebp
	movq	56(%rbx), %r14
	movq	72(%rbx), %r15
	cmpb	$0, (%rbx)
	je	576f
	cmpq	$0, 24(%rbx)
	je	576f
	movq	8(%rbx), %rdi
	callq	rattle_dealloc@PLT
576:
	testb	%bpl, %bpl
	je	574b
	testq	%r15, %r15
	je	574b
	movq	%r14, %rdi
	callq	rattle_dealloc@PLT
	jmp	574b
577:
	cmpq	$0, 232(%rsp)
	je	578f
	movq	200(%rsp), %rdi
	callq	rattle_dealloc@PLT
578:
	cmpq	$0, 96(%rsp)
	je	582f
	movq	%r13, %rbx
	jmp	580f
579:
	addq	$96, %rbx
	decq	96(%rsp)
	je	582f
580:
	movzbl	48(%rbx), %ebp
	movq	56(%rbx), %r14
	movq	72(%rbx), %r15
	cmpb	$0, (%rbx)
	je	581f
	cmpq	$0, 24(%rbx)
	je	581f
	movq	8(%rbx), %rdi
	callq	rattle_dealloc@PLT
581:
	testb	%bpl, %bpl
	je	579b
	testq	%r15, %r15
	je	579b
	movq	%r14, %rdi
	callq	rattle_dealloc@PLT
	jmp	579b
582:
	cmpq	$0, 240(%rsp)
	movq	40(%rsp), %r15
	movq	80(%rsp), %rbx
	movq	32(%rsp), %r14
	movq	144(%rsp), %rbp
	je	585f
	movq	%r13, %rdi
	jmp	584f
583:
	cmpq	$0, 10376(%rsp)
	je	585f
	movq	10360(%rsp), %rdi
584:
	callq	rattle_dealloc@PLT
585:
	movq	1040(%rsp), %rax
	movq	%rax, 608(%rsp)
	movaps	1024(%rsp), %xmm0
	movaps	%xmm0, 592(%rsp)
586:
	cmpb	$1, 352(%rsp)
	jne	587f
	cmpq	$0, 376(%rsp)
	je	587f
	movq	360(%rsp), %rdi
	callq	rattle_dealloc@PLT
587:
	cmpb	$1, 256(%rsp)
	jne	588f
	cmpq	$0, 280(%rsp)
	je	588f
	movq	264(%rsp), %rdi
	callq	rattle_dealloc@PLT
588:
	movdqa	592(%rsp), %xmm0
	movq	608(%rsp), %r13
	jmp	137b
589:
	movl	%eax, %ebx
	movq	%r8, 176(%rsp)
	movq	2120(%rsp), %r15
	pxor	%xmm0, %xmm0
	cmpb	$1, %r13b
	jne	662f
	movdqa	%xmm0, 2144(%rsp)
	movdqa	%xmm0, 2128(%rsp)
	movdqa	%xmm0, 2112(%rsp)
	movdqa	%xmm0, 2096(%rsp)
	movq	$0, 2160(%rsp)
	cmpq	$49, 128(%rsp)
	jb	672f
	leaq	2096(%rsp), %rdi
	movq	80(%rsp), %rsi
	movq	128(%rsp), %rdx
	callq	"smallvec::small_vec::SmallVec::from_slice::<#58247b01769054f4>"
	cmpb	$0, 2096(%rsp)
	je	729f
590:
	pxor	%xmm1, %xmm1
	movdqa	%xmm1, 544(%rsp)
	pxor	%xmm0, %xmm0
	movdqa	%xmm0, 128(%rsp)
	movdqa	%xmm1, 528(%rsp)
	movb	$1, %al
	movq	$0, 80(%rsp)
	xorl	%r13d, %r13d
	jmp	686f
591:
	movl	$9729, %r12d
	movq	32(%rsp), %rsi
	jmp	310b
592:
	movzbl	2104(%rsp), %eax
	movaps	2112(%rsp), %xmm0
	movaps	%xmm0, 256(%rsp)
	movaps	2128(%rsp), %xmm0
	movaps	%xmm0, 272(%rsp)
	movaps	2144(%rsp), %xmm0
	movaps	%xmm0, 288(%rsp)
	movq	2160(%rsp), %rcx
	movq	%rcx, 304(%rsp)
	xorl	%ecx, %ecx
593:
	movq	40(%rsp), %r15
	movq	%rbp, %rdi
	movdqa	96(%rsp), %xmm5
	jmp	340b
594:
	pxor	%xmm0, %xmm0
	movdqa	%xmm0, 2256(%rsp)
	movdqa	%xmm0, 2240(%rsp)
	movdqa	%xmm0, 2224(%rsp)
	movdqa	%xmm0, 2208(%rsp)
	movdqa	%xmm0, 2192(%rsp)
	movdqa	%xmm0, 2176(%rsp)
	movdqa	%xmm0, 2160(%rsp)
	movdqa	%xmm0, 2144(%rsp)
	movdqa	%xmm0, 2128(%rsp)
	movdqa	%xmm0, 2112(%rsp)
	movdqa	%xmm0, 2096(%rsp)
	leaq	120(%rsp), %rax
	movq	%rax, 176(%rsp)
	jmp	715f
595:
	movq	%r12, %rcx
	andq	$-32, %rcx
	leaq	(%rax,%rbx), %rdx
	addq	$16, %rdx
	xorl	%esi, %esi
596:
	movdqu	(%r9,%rsi), %xmm0
	movdqu	16(%r9,%rsi), %xmm1
	movdqu	%xmm0, -16(%rdx,%rsi)
	movdqu	%xmm1, (%rdx,%rsi)
	addq	$32, %rsi
	cmpq	%rsi, %rcx
	jne	596b
	movq	208(%rsp), %r12
	cmpq	%rcx, %r12
	movq	%r11, %r10
	je	526b
	testb	$28, %r12b
	je	521b
597:
	movq	%rcx, %rdx
	movq	%r12, %rcx
	andq	$-4, %rcx
598:
	movl	(%r9,%rdx), %esi
	movl	%esi, (%rdi,%rdx)
	addq	$4, %rdx
	cmpq	%rdx, %rcx
	jne	598b
	movq	208(%rsp), %r12
	cmpq	%rcx, %r12
	movq	%r11, %r10
	je	526b
	jmp	521b
599:
	leaq	2096(%rsp), %rdi
	movq	%r12, %rsi
	callq	"std_alloc::vec::Vec::grow_amortized::<#1d775b5957dec42c>"
	testb	%al, %al
	je	653f
	movq	2096(%rsp), %rbx
	movq	2104(%rsp), %rax
	movq	2112(%rsp), %rcx
	movq	%rcx, 128(%rsp)
	movq	176(%rsp), %r9
	jmp	519b
600:
	leaq	.L50e695259f83(%rip), %rsi
	leaq	2096(%rsp), %rdi
	movl	$4, %edx
	callq	"core::fmt::formatter::Formatter::write_indented::<#0a7ff941e43d6b30>"
	testb	%al, %al
	jne	653f
	movq	2104(%rsp), %r10
	movq	2112(%rsp), %rax
	movq	%rax, 128(%rsp)
	movq	2096(%rsp), %rbx
	testq	%r10, %r10
	movq	%r10, 336(%rsp)
	jne	528b
601:
	leaq	2096(%rsp), %rdi
	movl	$4095, %edx
	xorl	%esi, %esi
	callq	memset@PLT
602:
	movb	$0, 6191(%rsp)
	leaq	6240(%rsp), %rdi
	leaq	2096(%rsp), %rsi
	movl	$4096, %edx
	callq	memcpy@PLT
	leaq	6240(%rsp), %rdi
	callq	unlink@PLT
	testl	%eax, %eax
	js	603f
	movq	336(%rsp), %rcx
	jmp	605f
603:
	callq	rattle_errno@PLT
	leaq	6240(%rsp), %rdi
	movl	%eax, %esi
	callq	"std_io::io::error::Error::from_raw_os_error"
604:
	movq	6240(%rsp), %rdx
	movq	%rdx, %rax
	shrq	$8, %rax
	movaps	4b(%rip), %xmm0
	movaps	%xmm0, 2096(%rsp)
	movdqa	5b(%rip), %xmm0
	movdqa	%xmm0, 2112(%rsp)
	movabsq	$2820983053732684064, %rcx
	movq	%rcx, 2128(%rsp)
	movb	$40, 2136(%rsp)
	cmpb	$41, %al
	movq	336(%rsp), %rcx
	movq	%rdx, 440(%rsp)
	jae	676f
	andl	$63, %eax
	cmpb	$0, 2096(%rsp,%rax)
	jne	676f
605:
	pxor	%xmm0, %xmm0
	movdqa	%xmm0, 2096(%rsp)
	movdqa	%xmm0, 2112(%rsp)
	movdqa	%xmm0, 2128(%rsp)
	movdqa	%xmm0, 2144(%rsp)
	movdqa	%xmm0, 2160(%rsp)
	movdqa	%xmm0, 2176(%rsp)
	movabsq	$1099511628033, %rax
	movq	%rax, 6240(%rsp)
	movl	$438, 6248(%rsp)
	leaq	2096(%rsp), %rdi
	leaq	6240(%rsp), %rsi
	movq	%rbx, %rdx
	callq	"std::fs::options::OpenOptions::open::<#05cc10b2f530382b>"
	cmpb	$0, 2096(%rsp)
	je	606f
	movq	2104(%rsp), %rax
	movq	%rax, 440(%rsp)
	jmp	676f
606:
	movq	%rbx, 424(%rsp)
	movl	2100(%rsp), %eax
	movl	%eax, 512(%rsp)
	cmpb	$0, 432(%rsp)
	je	607f
	pxor	%xmm0, %xmm0
	movdqa	%xmm0, 2096(%rsp)
	movdqa	%xmm0, 2112(%rsp)
	movdqa	%xmm0, 2128(%rsp)
	movdqa	%xmm0, 2144(%rsp)
	movdqa	%xmm0, 2160(%rsp)
	movdqa	%xmm0, 2176(%rsp)
	movq	$0, 6248(%rsp)
	movl	$1, 6240(%rsp)
	movq	216(%rsp), %rax
	movl	%eax, 6244(%rsp)
	leaq	2096(%rsp), %rdi
	leaq	6240(%rsp), %rdx
	movl	512(%rsp), %esi
	callq	"std::fs::apply"
	cmpb	$0, 2096(%rsp)
	je	607f
	movq	2104(%rsp), %rax
	movq	%rax, 440(%rsp)
	jmp	675f
607:
	movdqa	48(%rsp), %xmm0
	movq	%xmm0, %r12
	movl	$1, %ebx
	movq	80(%rsp), %rsi
	jmp	609f
608:
	incq	%rbx
	je	671f
609:
	testq	%r12, %r12
	je	668f
	movl	512(%rsp), %edi
	movq	%rsi, %r15
	movq	%r12, %rdx
	callq	write@PLT
	testq	%rax, %rax
	js	610f
	je	673f
	cmpq	%r12, %rax
	cmovaeq	%r12, %rax
	movq	%r15, %rsi
	addq	%rax, %rsi
	subq	%rax, %r12
	jmp	608b
610:
	callq	rattle_errno@PLT
	leaq	2096(%rsp), %rdi
	movl	%eax, %esi
	callq	"std_io::io::error::Error::from_raw_os_error"
	movq	2096(%rsp), %rdx
	movq	%rdx, %rax
	shrq	$8, %rax
	movaps	4b(%rip), %xmm0
	movaps	%xmm0, 2096(%rsp)
	movdqa	5b(%rip), %xmm0
	movdqa	%xmm0, 2112(%rsp)
	movabsq	$2820983053732684064, %rcx
	movq	%rcx, 2128(%rsp)
	movb	$40, 2136(%rsp)
	cmpb	$41, %al
	jae	674f
	andl	$63, %eax
	cmpb	$35, 2096(%rsp,%rax)
	movq	%r15, %rsi
	je	608b
	jmp	674f
611:
	movq	%r9, 72(%rsp)
612:
	movq	%r14, 1080(%rsp)
613:
	leaq	6240(%rsp), %rdi
	movl	$400, %edx
	xorl	%esi, %esi
	callq	memset@PLT
	leaq	2096(%rsp), %r15
	movl	$408, %edx
	movq	%r15, %rdi
	xorl	%esi, %esi
	callq	memset@PLT
	movq	%r15, %rdi
	leaq	10344(%rsp), %rsi
	callq	"mime_lookup::places::placed_pairs"
	cmpb	$0, 2096(%rsp)
	je	615f
614:
	pxor	%xmm0, %xmm0
	movdqa	%xmm0, 1392(%rsp)
	movq	$0, 1408(%rsp)
	movb	$2, %bl
	movb	$1, %bpl
	xorl	%esi, %esi
	movq	40(%rsp), %r15
	movq	96(%rsp), %r8
	jmp	544b
615:
	leaq	2104(%rsp), %rsi
	leaq	6240(%rsp), %r15
	movl	$400, %edx
	movq	%r15, %rdi
	callq	memcpy@PLT
	leaq	120(%rsp), %rax
	movq	%rax, 640(%rsp)
	pxor	%xmm0, %xmm0
	movdqu	%xmm0, 648(%rsp)
	movq	%rax, 664(%rsp)
	movdqu	%xmm0, 672(%rsp)
	movq	%rax, 688(%rsp)
	movdqu	%xmm0, 696(%rsp)
	movq	%rax, 712(%rsp)
	movdqu	%xmm0, 720(%rsp)
	movq	$0, 736(%rsp)
	movabsq	$2611923443488327891, %rax
	movq	%rax, 744(%rsp)
	leaq	1072(%rsp), %rax
	movq	%rax, (%rsp)
	leaq	640(%rsp), %rsi
	movq	%r15, %rdi
	movq	72(%rsp), %rdx
	movq	%r12, %rcx
	movq	%r13, %r8
	movq	%rbx, %r9
	callq	"mime_lookup::ancestry::is_a"
	testb	%al, %al
	je	633f
	movq	664(%rsp), %r12
	movq	680(%rsp), %rbp
	movq	688(%rsp), %r15
	movq	704(%rsp), %r13
	movq	712(%rsp), %r14
	movq	728(%rsp), %rbx
	cmpq	$0, 656(%rsp)
	je	616f
	movq	640(%rsp), %rdi
	callq	rattle_dealloc@PLT
616:
	testq	%rbp, %rbp
	je	617f
	movq	%r12, %rdi
	callq	rattle_dealloc@PLT
617:
	testq	%r13, %r13
	je	618f
	movq	%r15, %rdi
	callq	rattle_dealloc@PLT
618:
	testq	%rbx, %rbx
	je	619f
	movq	%r14, %rdi
	callq	rattle_dealloc@PLT
619:
	movq	6280(%rsp), %r14
	movq	6296(%rsp), %r15
	movq	6304(%rsp), %rbp
	movq	6320(%rsp), %r13
	movq	6328(%rsp), %rax
	movq	%rax, 128(%rsp)
	movq	6344(%rsp), %rbx
	movq	6352(%rsp), %rax
	movq	%rax, 32(%rsp)
	movq	6368(%rsp), %r12
	movq	6376(%rsp), %rax
	movq	%rax, 80(%rsp)
	movq	6392(%rsp), %rax
	movq	%rax, 144(%rsp)
	movq	6416(%rsp), %rax
	movq	%rax, 72(%rsp)
	movq	6432(%rsp), %rax
	movq	%rax, 48(%rsp)
	cmpq	$0, 6272(%rsp)
	je	620f
	movq	6256(%rsp), %rdi
	callq	rattle_dealloc@PLT
620:
	testq	%r15, %r15
	je	621f
	movq	%r14, %rdi
	callq	rattle_dealloc@PLT
621:
	testq	%r13, %r13
	je	622f
	movq	%rbp, %rdi
	callq	rattle_dealloc@PLT
622:
	testq	%rbx, %rbx
	je	623f
	movq	128(%rsp), %rdi
	callq	rattle_dealloc@PLT
623:
	testq	%r12, %r12
	je	624f
	movq	32(%rsp), %rdi
	callq	rattle_dealloc@PLT
624:
	cmpq	$0, 144(%rsp)
	je	625f
	movq	80(%rsp), %rdi
	callq	rattle_dealloc@PLT
625:
	cmpq	$0, 48(%rsp)
	je	626f
	movq	72(%rsp), %rdi
	callq	rattle_dealloc@PLT
626:
	movq	6480(%rsp), %r14
	movq	6496(%rsp), %r15
	movq	6504(%rsp), %rbp
	movq	6520(%rsp), %r13
	movq	6528(%rsp), %rax
	movq	%rax, 128(%rsp)
	movq	6544(%rsp), %rbx
	movq	6552(%rsp), %rax
	movq	%rax, 32(%rsp)
	movq	6568(%rsp), %r12
	movq	6576(%rsp), %rax
	movq	%rax, 80(%rsp)
	movq	6592(%rsp), %rax
	movq	%rax, 144(%rsp)
	movq	6616(%rsp), %rax
	movq	%rax, 72(%rsp)
	movq	6632(%rsp), %rax
	movq	%rax, 48(%rsp)
	cmpq	$0, 6472(%rsp)
	je	627f
	movq	6456(%rsp), %rdi
	callq	rattle_dealloc@PLT
627:
	testq	%r15, %r15
	je	628f
	movq	%r14, %rdi
	callq	rattle_dealloc@PLT
628:
	testq	%r13, %r13
	je	629f
	movq	%rbp, %rdi
	callq	rattle_dealloc@PLT
629:
	testq	%rbx, %rbx
	je	630f
	movq	128(%rsp), %rdi
	callq	rattle_dealloc@PLT
630:
	testq	%r12, %r12
	je	631f
	movq	32(%rsp), %rdi
	callq	rattle_dealloc@PLT
631:
	cmpq	$0, 144(%rsp)
	je	632f
	movq	80(%rsp), %rdi
	callq	rattle_dealloc@PLT
632:
	cmpq	$0, 48(%rsp)
	je	614b
	movq	72(%rsp), %rdi
	callq	rattle_dealloc@PLT
	jmp	614b
633:
	movl	%edx, 48(%rsp)
	movq	664(%rsp), %r12
	movq	680(%rsp), %rbp
	movq	688(%rsp), %r15
	movq	704(%rsp), %r13
	movq	712(%rsp), %r14
	movq	728(%rsp), %rbx
	cmpq	$0, 656(%rsp)
	je	634f
	movq	640(%rsp), %rdi
	callq	rattle_dealloc@PLT
634:
	testq	%rbp, %rbp
	je	635f
	movq	%r12, %rdi
	callq	rattle_dealloc@PLT
635:
	testq	%r13, %r13
	je	636f
	movq	%r15, %rdi
	callq	rattle_dealloc@PLT
636:
	testq	%rbx, %rbx
	je	637f
	movq	%r14, %rdi
	callq	rattle_dealloc@PLT
637:
	movq	6280(%rsp), %r14
	movq	6296(%rsp), %r15
	movq	6304(%rsp), %rbp
	movq	6320(%rsp), %r13
	movq	6328(%rsp), %rax
	movq	%rax, 160(%rsp)
	movq	6344(%rsp), %rbx
	movq	6352(%rsp), %rax
	movq	%rax, 128(%rsp)
	movq	6368(%rsp), %r12
	movq	6376(%rsp), %rax
	movq	%rax, 32(%rsp)
	movq	6392(%rsp), %rax
	movq	%rax, 72(%rsp)
	movq	6416(%rsp), %rax
	movq	%rax, 80(%rsp)
	movq	6432(%rsp), %rax
	movq	%rax, 144(%rsp)
	cmpq	$0, 6272(%rsp)
	je	638f
	movq	6256(%rsp), %rdi
	callq	rattle_dealloc@PLT
638:
	testq	%r15, %r15
	je	639f
	movq	%r14, %rdi
	callq	rattle_dealloc@PLT
639:
	testq	%r13, %r13
	je	640f
	movq	%rbp, %rdi
	callq	rattle_dealloc@PLT
640:
	testq	%rbx, %rbx
	je	641f
	movq	160(%rsp), %rdi
	callq	rattle_dealloc@PLT
641:
	testq	%r12, %r12
	je	642f
	movq	128(%rsp), %rdi
	callq	rattle_dealloc@PLT
642:
	cmpq	$0, 72(%rsp)
	je	643f
	movq	32(%rsp), %rdi
	callq	rattle_dealloc@PLT
643:
	cmpq	$0, 144(%rsp)
	je	644f
	movq	80(%rsp), %rdi
	callq	rattle_dealloc@PLT
644:
	movq	6480(%rsp), %r14
	movq	6496(%rsp), %r15
	movq	6504(%rsp), %rbp
	movq	6520(%rsp), %r13
	movq	6528(%rsp), %rax
	movq	%rax, 160(%rsp)
	movq	6544(%rsp), %rbx
	movq	6552(%rsp), %rax
	movq	%rax, 128(%rsp)
	movq	6568(%rsp), %r12
	movq	6576(%rsp), %rax
	movq	%rax, 32(%rsp)
	movq	6592(%rsp), %rax
	movq	%rax, 72(%rsp)
	movq	6616(%rsp), %rax
	movq	%rax, 80(%rsp)
	movq	6632(%rsp), %rax
	movq	%rax, 144(%rsp)
	cmpq	$0, 6472(%rsp)
	je	645f
	movq	6456(%rsp), %rdi
	callq	rattle_dealloc@PLT
645:
	testq	%r15, %r15
	je	646f
	movq	%r14, %rdi
	callq	rattle_dealloc@PLT
646:
	testq	%r13, %r13
	je	647f
	movq	%rbp, %rdi
	callq	rattle_dealloc@PLT
647:
	testq	%rbx, %rbx
	je	648f
	movq	160(%rsp), %rdi
	callq	rattle_dealloc@PLT
648:
	testq	%r12, %r12
	je	649f
	movq	128(%rsp), %rdi
	callq	rattle_dealloc@PLT
649:
	cmpq	$0, 72(%rsp)
	je	650f
	movq	32(%rsp), %rdi
	callq	rattle_dealloc@PLT
650:
	cmpq	$0, 144(%rsp)
	je	651f
	movq	80(%rsp), %rdi
	callq	rattle_dealloc@PLT
651:
	movq	40(%rsp), %r15
	movq	96(%rsp), %r8
	movl	48(%rsp), %esi
	jmp	324b
652:
	leaq	2096(%rsp), %rdi
	movl	$4, %esi
	callq	"std_alloc::vec::Vec::grow_amortized::<#1d775b5957dec42c>"
	testb	%al, %al
	je	653f
	movq	2096(%rsp), %rbx
	movq	2104(%rsp), %r10
	movq	2112(%rsp), %rax
	movq	%rax, 128(%rsp)
	jmp	527b
653:
	cmpq	$0, 2112(%rsp)
	je	654f
	movq	2096(%rsp), %rdi
	callq	rattle_dealloc@PLT
654:
	cmpq	$0, 208(%rsp)
	je	655f
	movq	176(%rsp), %rdi
	callq	rattle_dealloc@PLT
655:
	movq	32(%rsp), %rsi
	movl	$9729, %r12d
	jmp	310b
656:
	movb	$2, %al
	movq	%rax, 80(%rsp)
657:
	movq	168(%rsp), %rax
	leaq	40(%rax), %rbx
	jmp	659f
658:
	addq	$56, %rbx
	decq	%r14
	je	660f
659:
	cmpq	$0, (%rbx)
	je	658b
	movq	-16(%rbx), %rdi
	callq	rattle_dealloc@PLT
	jmp	658b
660:
	cmpq	$0, 224(%rsp)
	je	661f
	movq	168(%rsp), %rdi
	callq	rattle_dealloc@PLT
661:
	xorl	%r13d, %r13d
	movq	40(%rsp), %r15
	movq	80(%rsp), %rbx
	pxor	%xmm0, %xmm0
	jmp	120b
662:
	movdqa	%xmm0, 352(%rsp)
	movdqa	%xmm0, 368(%rsp)
	movdqa	%xmm0, 384(%rsp)
	movdqa	%xmm0, 2096(%rsp)
	movdqa	%xmm0, 2112(%rsp)
	movdqa	%xmm0, 2128(%rsp)
	movdqa	%xmm0, 2144(%rsp)
	movq	$0, 2160(%rsp)
	cmpq	$49, %r14
	jae	728f
	leaq	352(%rsp), %rax
	subq	96(%rsp), %rax
	leaq	352(%rsp), %rdi
	cmpq	%r14, %rax
	jae	679f
	movq	96(%rsp), %rsi
	movq	%r14, %rdx
	callq	memcpy@PLT
	jmp	680f
663:
	movq	168(%rsp), %rax
	leaq	40(%rax), %rbx
	movq	224(%rsp), %r15
	jmp	665f
664:
	addq	$56, %rbx
	decq	%r14
	je	666f
665:
	cmpq	$0, (%rbx)
	je	664b
	movq	-16(%rbx), %rdi
	callq	rattle_dealloc@PLT
	jmp	664b
666:
	testq	%r15, %r15
	je	667f
	movq	168(%rsp), %rdi
	callq	rattle_dealloc@PLT
667:
	xorl	%r14d, %r14d
	xorl	%ebx, %ebx
	xorl	%r13d, %r13d
	movq	40(%rsp), %r15
	pxor	%xmm0, %xmm0
	movdqa	96(%rsp), %xmm1
	pextrq	$1, %xmm1, %rax
	testq	%rax, %rax
	jne	121b
	jmp	10b
668:
	pxor	%xmm0, %xmm0
	movdqa	%xmm0, 2096(%rsp)
	movdqa	%xmm0, 2112(%rsp)
	movdqa	%xmm0, 2128(%rsp)
	movdqa	%xmm0, 2144(%rsp)
	movdqa	%xmm0, 2160(%rsp)
	movdqa	%xmm0, 2176(%rsp)
	movdqa	%xmm0, 6240(%rsp)
	movl	$2, 6240(%rsp)
	leaq	2096(%rsp), %rdi
	leaq	6240(%rsp), %rdx
	movl	512(%rsp), %r15d
	movl	%r15d, %esi
	callq	"std::fs::apply"
	movq	2104(%rsp), %rax
	movq	%rax, 440(%rsp)
	movzbl	2096(%rsp), %ebx
	movl	%r15d, %edi
	callq	close@PLT
	testb	%bl, %bl
	movq	424(%rsp), %rbx
	movq	336(%rsp), %rax
	movq	208(%rsp), %r12
	jne	676f
	testq	%rax, %rax
	je	722f
	xorl	%eax, %eax
669:
	movq	424(%rsp), %rcx
	cmpb	$0, (%rcx,%rax)
	je	721f
	incq	%rax
	cmpq	%rax, 336(%rsp)
	jne	669b
	jmp	722f
670:
	movzbl	1073(%rsp), %esi
	xorl	%ebp, %ebp
	xorl	%ebx, %ebx
	movq	40(%rsp), %r15
	movq	96(%rsp), %r8
	jmp	543b
671:
	leaq	.L87b4d4e2734a(%rip), %rcx
	leaq	2096(%rsp), %rdi
	movl	$43, %r8d
	movl	$43, %r9d
	movl	$2, %esi
	movl	$22, %edx
	callq	"std_io::io::error::Error::from_bytes"
	movq	2096(%rsp), %rdx
	jmp	674f
672:
	movdqa	%xmm0, 384(%rsp)
	movdqa	%xmm0, 368(%rsp)
	movdqa	%xmm0, 352(%rsp)
	leaq	352(%rsp), %rdi
	movq	80(%rsp), %rsi
	movq	128(%rsp), %r13
	movq	%r13, %rdx
	callq	memcpy@PLT
	movdqa	352(%rsp), %xmm0
	movdqa	368(%rsp), %xmm1
	movdqa	384(%rsp), %xmm2
	movdqu	%xmm2, 296(%rsp)
	movdqu	%xmm1, 280(%rsp)
	movdqu	%xmm0, 264(%rsp)
	movq	$0, 256(%rsp)
	movq	$48, 312(%rsp)
	cmpq	$48, %r13
	je	681f
	leaq	264(%rsp), %rdi
	movq	128(%rsp), %r13
	addq	%r13, %rdi
	movl	$48, %edx
	subq	%r13, %rdx
	xorl	%esi, %esi
	callq	memset@PLT
	movq	%r13, 312(%rsp)
	jmp	683f
673:
	movl	$1840898, %edx
674:
	movq	%rdx, 440(%rsp)
675:
	movl	512(%rsp), %edi
	callq	close@PLT
	movq	424(%rsp), %rbx
	movq	208(%rsp), %r12
676:
	cmpq	$0, 128(%rsp)
	je	677f
	movq	%rbx, %rdi
	callq	rattle_dealloc@PLT
677:
	testq	%r12, %r12
	movq	176(%rsp), %rdi
	je	678f
	callq	rattle_dealloc@PLT
678:
	movq	440(%rsp), %r12
	movq	32(%rsp), %rsi
	jmp	310b
679:
	movq	96(%rsp), %rsi
	movq	%r14, %rdx
	callq	memmove@PLT
680:
	movdqa	1b(%rip), %xmm1
	movdqa	352(%rsp), %xmm2
	movdqa	368(%rsp), %xmm3
	movdqa	384(%rsp), %xmm4
	movdqa	%xmm2, %xmm0
	pcmpeqb	%xmm1, %xmm0
	movdqa	2b(%rip), %xmm5
	pblendvb	%xmm0, %xmm5, %xmm2
	movdqa	%xmm2, 352(%rsp)
	movdqa	%xmm3, %xmm0
	pcmpeqb	%xmm1, %xmm0
	pblendvb	%xmm0, %xmm5, %xmm3
	pcmpeqb	%xmm4, %xmm1
	movdqa	%xmm1, %xmm0
	pblendvb	%xmm0, %xmm5, %xmm4
	movdqa	%xmm3, 368(%rsp)
	movdqa	%xmm4, 384(%rsp)
	movdqu	%xmm4, 296(%rsp)
	movdqu	%xmm3, 280(%rsp)
	movdqu	%xmm2, 264(%rsp)
	movq	$0, 256(%rsp)
	movq	$48, 312(%rsp)
	cmpq	$48, %r14
	jne	682f
681:
	xorl	%r13d, %r13d
	jmp	684f
682:
	leaq	264(%rsp), %rdi
	addq	%r14, %rdi
	movl	$48, %edx
	subq	%r14, %rdx
	xorl	%esi, %esi
	callq	memset@PLT
	movq	%r14, 312(%rsp)
683:
	movzbl	256(%rsp), %r13d
684:
	movq	264(%rsp), %rax
	movq	%rax, 80(%rsp)
	movups	272(%rsp), %xmm0
	movaps	%xmm0, 128(%rsp)
	movdqu	288(%rsp), %xmm0
	movdqa	%xmm0, 528(%rsp)
	movq	304(%rsp), %rax
	movq	%rax, 544(%rsp)
	movq	312(%rsp), %rax
	movq	%rax, 552(%rsp)
685:
	xorl	%eax, %eax
686:
	movdqa	528(%rsp), %xmm0
	movq	544(%rsp), %rcx
	movq	%rcx, 1728(%rsp)
	movq	552(%rsp), %rcx
	movq	%rcx, 1736(%rsp)
	movdqa	%xmm0, 1712(%rsp)
	testb	%al, %al
	je	687f
	pxor	%xmm5, %xmm5
	movdqa	%xmm5, 1296(%rsp)
	movdqa	%xmm5, 1280(%rsp)
	movdqa	%xmm5, 800(%rsp)
	movdqa	%xmm5, 816(%rsp)
	movdqa	%xmm5, 832(%rsp)
	movq	$0, 848(%rsp)
	movb	$7, %r9b
	xorl	%r8d, %r8d
	movq	$0, 176(%rsp)
	xorl	%ebx, %ebx
	xorl	%r15d, %r15d
	xorl	%r14d, %r14d
	jmp	401b
687:
	movaps	1712(%rsp), %xmm0
	movq	1728(%rsp), %rax
	movq	%rax, 1824(%rsp)
	movq	1736(%rsp), %rax
	movq	%rax, 1832(%rsp)
	movaps	%xmm0, 1808(%rsp)
	xorps	%xmm0, %xmm0
	cmpb	$1, %bl
	jne	690f
	movaps	%xmm0, 2144(%rsp)
	movaps	%xmm0, 2128(%rsp)
	movaps	%xmm0, 2112(%rsp)
	movaps	%xmm0, 2096(%rsp)
	movq	$0, 2160(%rsp)
	cmpq	$49, %r15
	jb	694f
	leaq	2096(%rsp), %rdi
	movq	176(%rsp), %rsi
	movq	%r15, %rdx
	callq	"smallvec::small_vec::SmallVec::from_slice::<#58247b01769054f4>"
	cmpb	$0, 2096(%rsp)
	je	776f
688:
	xorps	%xmm0, %xmm0
	movaps	%xmm0, 384(%rsp)
	movaps	%xmm0, 368(%rsp)
	movaps	%xmm0, 352(%rsp)
	movq	$0, 400(%rsp)
	movb	$1, %cl
	xorl	%eax, %eax
	jmp	701f
689:
	movq	176(%rsp), %rdi
	movq	%rbx, %rsi
	movq	%r12, %rdx
	callq	memmove@PLT
	jmp	712f
690:
	movaps	%xmm0, 2144(%rsp)
	movaps	%xmm0, 2128(%rsp)
	movaps	%xmm0, 2112(%rsp)
	movaps	%xmm0, 2096(%rsp)
	movq	$0, 2160(%rsp)
	testq	%r14, %r14
	je	695f
	xorl	%ebx, %ebx
691:
	movq	96(%rsp), %rax
	cmpb	$47, (%rax,%rbx)
	je	692f
	incq	%rbx
	cmpq	%rbx, %r14
	jne	691b
	movq	%r14, %rbx
692:
	cmpq	$39, %rbx
	jae	775f
	leaq	10(%rbx), %r14
	xorps	%xmm0, %xmm0
	movaps	%xmm0, 560(%rsp)
	movaps	%xmm0, 544(%rsp)
	movaps	%xmm0, 528(%rsp)
	leaq	528(%rsp), %rax
	subq	96(%rsp), %rax
	cmpq	%rbx, %rax
	jmp	696f
693:
	movabsq	$9223372036854775776, %rcx
	cmpq	$32, %r12
	jae	704f
	xorl	%eax, %eax
	movq	176(%rsp), %rdi
	movq	%r12, %rsi
	jmp	706f
694:
	movaps	%xmm0, 560(%rsp)
	movaps	%xmm0, 544(%rsp)
	movaps	%xmm0, 528(%rsp)
	leaq	528(%rsp), %rdi
	movq	176(%rsp), %rsi
	movq	%r15, %rdx
	callq	memcpy@PLT
	leaq	264(%rsp), %rbx
	movaps	528(%rsp), %xmm0
	movaps	544(%rsp), %xmm1
	movaps	560(%rsp), %xmm2
	movups	%xmm2, 296(%rsp)
	movups	%xmm1, 280(%rsp)
	movups	%xmm0, 264(%rsp)
	movq	$0, 256(%rsp)
	movq	$48, 312(%rsp)
	cmpq	$48, %r15
	je	698f
	leaq	(%rbx,%r15), %rdi
	movl	$48, %edx
	subq	%r15, %rdx
	xorl	%esi, %esi
	callq	memset@PLT
	movq	%r15, 312(%rsp)
	jmp	697f
695:
	movaps	%xmm0, 560(%rsp)
	movaps	%xmm0, 544(%rsp)
	movaps	%xmm0, 528(%rsp)
	movl	$10, %r14d
	xorl	%ebx, %ebx
696:
	leaq	528(%rsp), %rdi
	movq	96(%rsp), %rsi
	movq	%rbx, %rdx
	callq	memcpy@PLT
	movabsq	$8243116074773346349, %rax
	movq	%rax, 528(%rsp,%rbx)
	movw	$25449, 536(%rsp,%rbx)
	leaq	264(%rsp), %rbx
	movaps	528(%rsp), %xmm0
	movaps	544(%rsp), %xmm1
	movaps	560(%rsp), %xmm2
	movups	%xmm2, 296(%rsp)
	movups	%xmm1, 280(%rsp)
	movups	%xmm0, 264(%rsp)
	movq	$0, 256(%rsp)
	movq	$48, 312(%rsp)
	cmpq	$47, %r14
	ja	698f
	leaq	(%rbx,%r14), %rdi
	movl	$48, %edx
	subq	%r14, %rdx
	xorl	%esi, %esi
	callq	memset@PLT
	movq	%r14, 312(%rsp)
697:
	movzbl	256(%rsp), %eax
	jmp	699f
698:
	xorl	%eax, %eax
699:
	movq	48(%rbx), %rcx
	movq	%rcx, 400(%rsp)
	movups	(%rbx), %xmm0
	movdqu	16(%rbx), %xmm1
	movdqu	32(%rbx), %xmm2
	movdqa	%xmm2, 384(%rsp)
	movdqa	%xmm1, 368(%rsp)
	movaps	%xmm0, 352(%rsp)
700:
	xorl	%ecx, %ecx
701:
	movq	400(%rsp), %rdx
	movq	%rdx, 496(%rsp)
	movdqa	352(%rsp), %xmm0
	movaps	368(%rsp), %xmm1
	movaps	384(%rsp), %xmm2
	movaps	%xmm2, 480(%rsp)
	movaps	%xmm1, 464(%rsp)
	movdqa	%xmm0, 448(%rsp)
	testb	%cl, %cl
	je	703f
	pxor	%xmm0, %xmm0
	movdqa	%xmm0, 2080(%rsp)
	movdqa	%xmm0, 2064(%rsp)
	movdqa	%xmm0, 576(%rsp)
	movdqa	%xmm0, 592(%rsp)
	movdqa	%xmm0, 608(%rsp)
	movq	$0, 624(%rsp)
	cmpb	$1, %r13b
	jne	702f
	movdqa	128(%rsp), %xmm0
	pextrq	$1, %xmm0, %rax
	testq	%rax, %rax
	je	702f
	movq	80(%rsp), %rdi
	callq	rattle_dealloc@PLT
702:
	movaps	2064(%rsp), %xmm0
	movaps	2080(%rsp), %xmm1
	movaps	%xmm1, 1296(%rsp)
	movaps	%xmm0, 1280(%rsp)
	movdqa	576(%rsp), %xmm0
	movdqa	592(%rsp), %xmm1
	movdqa	608(%rsp), %xmm2
	movdqa	%xmm0, 800(%rsp)
	movdqa	%xmm1, 816(%rsp)
	movdqa	%xmm2, 832(%rsp)
	movq	624(%rsp), %rax
	movq	%rax, 848(%rsp)
	movb	$7, %r9b
	xorl	%r8d, %r8d
	movq	$0, 176(%rsp)
	xorl	%ebx, %ebx
	xorl	%r15d, %r15d
	jmp	400b
703:
	movaps	1808(%rsp), %xmm0
	movaps	1824(%rsp), %xmm1
	movaps	%xmm1, 1296(%rsp)
	movaps	%xmm0, 1280(%rsp)
	movdqa	448(%rsp), %xmm0
	movdqa	464(%rsp), %xmm1
	movdqa	480(%rsp), %xmm2
	movdqa	%xmm0, 800(%rsp)
	movdqa	%xmm1, 816(%rsp)
	movdqa	%xmm2, 832(%rsp)
	movq	496(%rsp), %rcx
	movq	%rcx, 848(%rsp)
	movzbl	%al, %r14d
	movb	$1, %al
	movq	%rax, 176(%rsp)
	xorl	%ebx, %ebx
	xorl	%r15d, %r15d
	movdqa	128(%rsp), %xmm5
	movq	80(%rsp), %r8
	movq	%r13, %r9
	jmp	401b
704:
	movq	%r12, %rax
	andq	%rcx, %rax
	xorl	%edx, %edx
	movq	176(%rsp), %rdi
705:
	movdqu	(%rbx,%rdx), %xmm0
	movdqu	16(%rbx,%rdx), %xmm1
	movdqu	%xmm0, (%rdi,%rdx)
	movdqu	%xmm1, 16(%rdi,%rdx)
	addq	$32, %rdx
	cmpq	%rdx, %rax
	jne	705b
	cmpq	%rax, %r12
	je	712f
	movq	%r12, %rsi
	testb	$28, %sil
	je	708f
706:
	movq	%rax, %rdx
	addq	$28, %rcx
	movq	%rcx, %rax
	andq	%rsi, %rax
707:
	movl	(%rbx,%rdx), %ecx
	movl	%ecx, (%rdi,%rdx)
	addq	$4, %rdx
	cmpq	%rdx, %rax
	jne	707b
	movq	%r12, %rsi
	cmpq	%rax, %r12
	je	712f
708:
	movq	%rsi, %rdx
	movq	%rax, %rcx
	andq	$3, %rdx
	je	710f
	movq	%rax, %rcx
709:
	movzbl	(%rbx,%rcx), %esi
	movb	%sil, (%rdi,%rcx)
	incq	%rcx
	decq	%rdx
	jne	709b
710:
	movq	%r12, %rdx
	subq	%r12, %rax
	cmpq	$-4, %rax
	ja	712f
711:
	movzbl	(%rbx,%rcx), %eax
	movb	%al, (%rdi,%rcx)
	movzbl	1(%rbx,%rcx), %eax
	movb	%al, 1(%rdi,%rcx)
	movzbl	2(%rbx,%rcx), %eax
	movb	%al, 2(%rdi,%rcx)
	movzbl	3(%rbx,%rcx), %eax
	movb	%al, 3(%rdi,%rcx)
	addq	$4, %rcx
	cmpq	%rcx, %rdx
	jne	711b
712:
	pxor	%xmm0, %xmm0
	movdqa	%xmm0, 2256(%rsp)
	movdqa	%xmm0, 2240(%rsp)
	movdqa	%xmm0, 2224(%rsp)
	movdqa	%xmm0, 2208(%rsp)
	movdqa	%xmm0, 2192(%rsp)
	movdqa	%xmm0, 2176(%rsp)
	movdqa	%xmm0, 2160(%rsp)
	movdqa	%xmm0, 2144(%rsp)
	movdqa	%xmm0, 2128(%rsp)
	movdqa	%xmm0, 2112(%rsp)
	movdqa	%xmm0, 2096(%rsp)
	xorl	%eax, %eax
	movq	176(%rsp), %rcx
	movq	%r12, %rdx
713:
	cmpb	$0, (%rcx,%rax)
	je	714f
	incq	%rax
	cmpq	%rax, %rdx
	jne	713b
	jmp	715f
714:
	cmpq	%rdx, %rax
	jae	715f
	leaq	.L399de51ae489(%rip), %rcx
	leaq	6240(%rsp), %rdi
	movl	$42, %r8d
	movl	$42, %r9d
	movl	$2, %esi
	movl	$20, %edx
	callq	"std_io::io::error::Error::from_bytes"
	movq	6240(%rsp), %r12
	movq	176(%rsp), %rdi
	jmp	507b
715:
	leaq	2096(%rsp), %rdi
	movl	$-100, %esi
	movq	176(%rsp), %rdx
	movq	%r12, %rcx
	movl	$256, %r8d
	callq	"std::fs::stat::stat_at"
	movq	2104(%rsp), %rax
	movq	%rax, 216(%rsp)
	cmpb	$0, 2096(%rsp)
	je	716f
	testq	%r12, %r12
	movq	32(%rsp), %rsi
	movq	176(%rsp), %rdi
	movq	216(%rsp), %r12
	jne	507b
	jmp	310b
716:
	movq	216(%rsp), %rax
	andl	$61440, %eax
	cmpl	$16384, %eax
	je	717f
	movb	$1, %cl
	movl	%ecx, 432(%rsp)
	cmpl	$32768, %eax
	jne	718f
	movq	176(%rsp), %r9
	jmp	518b
717:
	movl	$3841, %eax
	jmp	719f
718:
	movl	$9217, %eax
719:
	movq	%rax, 216(%rsp)
	testq	%r12, %r12
	je	720f
	movq	176(%rsp), %rdi
	callq	rattle_dealloc@PLT
720:
	movq	32(%rsp), %rsi
	movq	216(%rsp), %r12
	jmp	310b
721:
	cmpq	336(%rsp), %rax
	jb	725f
722:
	cmpq	$0, 208(%rsp)
	je	726f
	xorl	%eax, %eax
723:
	movq	176(%rsp), %rcx
	cmpb	$0, (%rcx,%rax)
	je	724f
	incq	%rax
	cmpq	%rax, 208(%rsp)
	jne	723b
	jmp	726f
724:
	cmpq	208(%rsp), %rax
	jae	726f
725:
	leaq	.L399de51ae489(%rip), %rcx
	leaq	2096(%rsp), %rdi
	movl	$42, %r8d
	movl	$42, %r9d
	movl	$2, %esi
	movl	$20, %edx
	callq	"std_io::io::error::Error::from_bytes"
	movq	2096(%rsp), %rax
	movq	%rax, 216(%rsp)
	xorl	%ebx, %ebx
	cmpq	$0, 128(%rsp)
	jne	735f
	jmp	736f
726:
	cmpq	$4096, 336(%rsp)
	jae	732f
	cmpq	$0, 336(%rsp)
	je	731f
	xorl	%eax, %eax
727:
	movq	424(%rsp), %rcx
	cmpb	$0, (%rcx,%rax)
	je	730f
	incq	%rax
	cmpq	%rax, 336(%rsp)
	jne	727b
	jmp	731f
728:
	leaq	2096(%rsp), %rdi
	movq	96(%rsp), %rsi
	movq	%r14, %rdx
	callq	"mime_lookup::cached::icons::long_with_hyphens"
	cmpb	$0, 2096(%rsp)
	jne	590b
729:
	movzbl	2104(%rsp), %r13d
	movq	2112(%rsp), %rax
	movq	%rax, 80(%rsp)
	movups	2120(%rsp), %xmm0
	movaps	%xmm0, 128(%rsp)
	movups	2136(%rsp), %xmm0
	movaps	%xmm0, 528(%rsp)
	movdqu	2152(%rsp), %xmm0
	movdqa	%xmm0, 544(%rsp)
	jmp	685b
730:
	cmpq	336(%rsp), %rax
	jb	771f
731:
	cmpq	$4096, 208(%rsp)
	jb	768f
732:
	movl	$36, %edi
733:
	callq	rattle_set_errno@PLT
734:
	callq	rattle_errno@PLT
	leaq	2096(%rsp), %rdi
	movl	%eax, %esi
	callq	"std_io::io::error::Error::from_raw_os_error"
	xorl	%ebx, %ebx
	movq	2096(%rsp), %rax
	movq	%rax, 216(%rsp)
	cmpq	$0, 128(%rsp)
	je	736f
735:
	movq	424(%rsp), %rdi
	callq	rattle_dealloc@PLT
736:
	cmpq	$0, 208(%rsp)
	je	737f
	movq	176(%rsp), %rdi
	callq	rattle_dealloc@PLT
737:
	testb	%bl, %bl
	movq	32(%rsp), %rsi
	movq	216(%rsp), %r12
	je	310b
	movdqa	48(%rsp), %xmm0
	pextrq	$1, %xmm0, %rax
	testq	%rax, %rax
	je	738f
	movq	80(%rsp), %rdi
	callq	rattle_dealloc@PLT
738:
	movq	$0, 32(%rsp)
	movq	$0, 80(%rsp)
	movq	$0, 128(%rsp)
	pxor	%xmm0, %xmm0
	movdqa	%xmm0, 48(%rsp)
	testq	%rbp, %rbp
	jne	317b
739:
	cmpq	$0, 520(%rsp)
	je	740f
	movq	192(%rsp), %rdi
	callq	rattle_dealloc@PLT
740:
	testq	%r13, %r13
	movq	248(%rsp), %r15
	je	744f
	movq	200(%rsp), %rbx
	jmp	742f
	.p2align	4
741:
	addq	$96, %rbx
	decq	%r13
	je	744f
742:
	movzbl	48(%rbx), %ebp
	movq	56(%rbx), %r14
	movq	72(%rbx), %r12
	cmpb	$0, (%rbx)
	je	743f
	cmpq	$0, 24(%rbx)
	je	743f
	movq	8(%rbx), %rdi
	callq	rattle_dealloc@PLT
743:
	testb	%bpl, %bpl
	je	741b
	testq	%r12, %r12
	je	741b
	movq	%r14, %rdi
	callq	rattle_dealloc@PLT
	jmp	741b
744:
	cmpq	$0, 416(%rsp)
	je	745f
	movq	200(%rsp), %rdi
	callq	rattle_dealloc@PLT
745:
	movq	344(%rsp), %r13
	testq	%r13, %r13
	je	749f
	movq	%r15, %rbx
	jmp	747f
	.p2align	4
746:
	addq	$96, %rbx
	decq	%r13
	je	749f
747:
	movzbl	48(%rbx), %ebp
	movq	56(%rbx), %r14
	movq	72(%rbx), %r12
	cmpb	$0, (%rbx)
	je	748f
	cmpq	$0, 24(%rbx)
	je	748f
	movq	8(%rbx), %rdi
	callq	rattle_dealloc@PLT
748:
	testb	%bpl, %bpl
	je	746b
	testq	%r12, %r12
	je	746b
	movq	%r14, %rdi
	callq	rattle_dealloc@PLT
	jmp	746b
749:
	cmpq	$0, 320(%rsp)
	je	750f
	movq	%r15, %rdi
	callq	rattle_dealloc@PLT
750:
	cmpq	$0, 72(%rsp)
	movq	168(%rsp), %r12
	movq	144(%rsp), %rdi
	je	756f
	xorl	%r14d, %r14d
	jmp	752f
	.p2align	4
751:
	incq	%r14
	cmpq	72(%rsp), %r14
	movq	144(%rsp), %rdi
	je	756f
752:
	movq	%r14, %rax
	shlq	$4, %rax
	leaq	(%rax,%rax,4), %rax
	movq	56(%rdi,%rax), %r15
	movq	64(%rdi,%rax), %rbx
	movq	72(%rdi,%rax), %r13
	cmpb	$0, 8(%rdi,%rax)
	je	753f
	cmpq	$0, 32(%rdi,%rax)
	je	753f
	movq	16(%rdi,%rax), %rdi
	callq	rattle_dealloc@PLT
753:
	testq	%rbx, %rbx
	je	755f
	movq	%r15, %rbp
	.p2align	4
754:
	movups	80(%rbp), %xmm0
	movaps	%xmm0, 2176(%rsp)
	movups	64(%rbp), %xmm0
	movaps	%xmm0, 2160(%rsp)
	movdqu	(%rbp), %xmm0
	movdqu	16(%rbp), %xmm1
	movdqu	32(%rbp), %xmm2
	movdqu	48(%rbp), %xmm3
	movdqa	%xmm3, 2144(%rsp)
	movdqa	%xmm2, 2128(%rsp)
	movdqa	%xmm1, 2112(%rsp)
	movdqa	%xmm0, 2096(%rsp)
	leaq	2096(%rsp), %rdi
	callq	"mime_text::mime_base++magic++matchlet++Matchlet+Destruct::drop"
	addq	$96, %rbp
	decq	%rbx
	jne	754b
755:
	testq	%r13, %r13
	je	751b
	movq	%r15, %rdi
	callq	rattle_dealloc@PLT
	jmp	751b
756:
	cmpq	$0, 232(%rsp)
	je	757f
	callq	rattle_dealloc@PLT
757:
	cmpq	$0, 96(%rsp)
	movq	328(%rsp), %r13
	je	761f
	movq	160(%rsp), %rbx
	jmp	759f
	.p2align	4
758:
	addq	$96, %rbx
	decq	96(%rsp)
	je	761f
759:
	movzbl	48(%rbx), %ebp
	movq	56(%rbx), %r14
	movq	72(%rbx), %r15
	cmpb	$0, (%rbx)
	je	760f
	cmpq	$0, 24(%rbx)
	je	760f
	movq	8(%rbx), %rdi
	callq	rattle_dealloc@PLT
760:
	testb	%bpl, %bpl
	je	758b
	testq	%r15, %r15
	je	758b
	movq	%r14, %rdi
	callq	rattle_dealloc@PLT
	jmp	758b
761:
	cmpq	$0, 240(%rsp)
	je	762f
	movq	160(%rsp), %rdi
	callq	rattle_dealloc@PLT
762:
	testq	%r13, %r13
	movdqa	48(%rsp), %xmm0
	je	766f
	movq	%r12, %rbx
	jmp	764f
	.p2align	4
763:
	addq	$96, %rbx
	decq	%r13
	je	766f
764:
	movzbl	48(%rbx), %ebp
	movq	56(%rbx), %r14
	movq	72(%rbx), %r15
	cmpb	$0, (%rbx)
	je	765f
	cmpq	$0, 24(%rbx)
	je	765f
	movq	8(%rbx), %rdi
	callq	rattle_dealloc@PLT
	movdqa	48(%rsp), %xmm0
765:
	testb	%bpl, %bpl
	je	763b
	testq	%r15, %r15
	je	763b
	movq	%r14, %rdi
	callq	rattle_dealloc@PLT
	movdqa	48(%rsp), %xmm0
	jmp	763b
766:
	cmpq	$0, 224(%rsp)
	je	767f
	movq	%r12, %rdi
	callq	rattle_dealloc@PLT
	movdqa	48(%rsp), %xmm0
767:
	movq	40(%rsp), %r15
	movq	80(%rsp), %rbx
	movq	32(%rsp), %r14
	movq	128(%rsp), %r13
	xorl	%ebp, %ebp
	jmp	137b
768:
	cmpq	$0, 208(%rsp)
	je	772f
	xorl	%eax, %eax
769:
	movq	176(%rsp), %rcx
	cmpb	$0, (%rcx,%rax)
	je	770f
	incq	%rax
	cmpq	%rax, 208(%rsp)
	jne	769b
	jmp	772f
770:
	cmpq	208(%rsp), %rax
	jae	772f
771:
	movl	$22, %edi
	jmp	733b
772:
	leaq	6240(%rsp), %rdi
	movl	$4095, %edx
	xorl	%esi, %esi
	callq	memset@PLT
	cmpq	$0, 336(%rsp)
	je	773f
	leaq	6240(%rsp), %rdi
	movq	424(%rsp), %rsi
	movq	336(%rsp), %rdx
	callq	memcpy@PLT
773:
	movb	$0, 10335(%rsp)
	leaq	14432(%rsp), %rdi
	leaq	6240(%rsp), %rsi
	movl	$4096, %edx
	callq	memcpy@PLT
	leaq	2096(%rsp), %rdi
	movl	$4095, %edx
	xorl	%esi, %esi
	callq	memset@PLT
	cmpq	$0, 208(%rsp)
	je	774f
	leaq	2096(%rsp), %rdi
	movq	176(%rsp), %rsi
	movq	208(%rsp), %rdx
	callq	memcpy@PLT
774:
	movb	$0, 6191(%rsp)
	leaq	6240(%rsp), %rbx
	leaq	2096(%rsp), %rsi
	movl	$4096, %edx
	movq	%rbx, %rdi
	callq	memcpy@PLT
	leaq	10336(%rsp), %r15
	movl	$4096, %edx
	movq	%r15, %rdi
	movq	%rbx, %rsi
	callq	memcpy@PLT
	leaq	14432(%rsp), %rdi
	movq	%r15, %rsi
	callq	rename@PLT
	testl	%eax, %eax
	js	734b
	movb	$1, %bl
	movq	$0, 216(%rsp)
	cmpq	$0, 128(%rsp)
	jne	735b
	jmp	736b
775:
	leaq	2096(%rsp), %rdi
	movq	96(%rsp), %rsi
	movq	%rbx, %rdx
	callq	"mime_lookup::cached::icons::long_generic"
	cmpb	$0, 2096(%rsp)
	jne	688b
776:
	movzbl	2104(%rsp), %eax
	movaps	2112(%rsp), %xmm0
	movaps	%xmm0, 352(%rsp)
	movaps	2128(%rsp), %xmm0
	movaps	%xmm0, 368(%rsp)
	movaps	2144(%rsp), %xmm0
	movaps	%xmm0, 384(%rsp)
	movq	2160(%rsp), %rcx
	movq	%rcx, 400(%rsp)
	jmp	700b
777:
	ud2
778:
	.size	"mime_tool::program::answer::<#2d382ade8d012bfb>", 778b-"mime_tool::program::answer::<#2d382ade8d012bfb>"
	.section	.rodata,"a",@progbits
	.p2align	2, 0x0
779:
	.long	7b-779b
	.long	13b-779b
	.long	9b-779b
	.long	11b-779b
	.long	8b-779b
	.long	17b-779b
	.long	19b-779b
	.long	12b-779b
780:
	.long	777b-780b
	.long	254b-780b
	.long	777b-780b
	.long	255b-780b

	.text
	.p2align	4
	.type	"mime_tool::sources::load_fitting::<#2e1b2a3647f851f7>",@function
"mime_tool::sources::load_fitting::<#2e1b2a3647f851f7>":
	pushq	%rbp
	pushq	%r15
	pushq	%r14
	pushq	%r13
	pushq	%r12
	pushq	%rbx
	subq	$888, %rsp
	movq	%rdi, %r15
	movzbl	(%rdx), %eax
	xorps	%xmm0, %xmm0
	movaps	%xmm0, 192(%rsp)
	movaps	%xmm0, 176(%rsp)
	movaps	%xmm0, 160(%rsp)
	movaps	%xmm0, 144(%rsp)
	movaps	%xmm0, 128(%rsp)
	movaps	%xmm0, 112(%rsp)
	movaps	%xmm0, 96(%rsp)
	movaps	%xmm0, 80(%rsp)
	movaps	%xmm0, 64(%rsp)
	movaps	%xmm0, 608(%rsp)
	movaps	%xmm0, 624(%rsp)
	movaps	%xmm0, 640(%rsp)
	movaps	%xmm0, 656(%rsp)
	movaps	%xmm0, 672(%rsp)
	movaps	%xmm0, 688(%rsp)
	movaps	%xmm0, 704(%rsp)
	movaps	%xmm0, 720(%rsp)
	movaps	%xmm0, 736(%rsp)
	movq	$0, 752(%rsp)
	leaq	624(%rsp), %rbx
	movups	%xmm0, 768(%rsp)
	movaps	%xmm0, 32(%rsp)
	movq	$0, 48(%rsp)
	movq	%rax, 784(%rsp)
	movq	72(%rdx), %rax
	movq	%rax, 856(%rsp)
	movups	8(%rdx), %xmm0
	movups	24(%rdx), %xmm1
	movups	40(%rdx), %xmm2
	movups	56(%rdx), %xmm3
	movups	%xmm3, 840(%rsp)
	movups	%xmm2, 824(%rsp)
	movups	%xmm1, 808(%rsp)
	movups	%xmm0, 792(%rsp)
	movq	$0, 760(%rsp)
	leaq	608(%rsp), %rdi
	leaq	784(%rsp), %rdx
	leaq	760(%rsp), %r8
	callq	"mime_tool::directories::load::<#2e1b2a3647f851f7>"
	movq	616(%rsp), %rax
	cmpb	$0, 608(%rsp)
	je	2f
	movzbl	%al, %eax
	movq	$1, (%r15)
	movq	%rax, 8(%r15)
	movups	(%rbx), %xmm0
	movups	%xmm0, 16(%r15)
	movq	16(%rbx), %rax
	movq	%rax, 32(%r15)
	xorps	%xmm0, %xmm0
	movups	%xmm0, 40(%r15)
	movups	%xmm0, 56(%r15)
	movups	%xmm0, 72(%r15)
	movups	%xmm0, 88(%r15)
	movups	%xmm0, 104(%r15)
	movups	%xmm0, 120(%r15)
1:
	movups	%xmm0, 136(%r15)
	jmp	59f
2:
	movq	%rax, 8(%rsp)
	movq	%rax, 64(%rsp)
	movups	(%rbx), %xmm0
	movups	%xmm0, 72(%rsp)
	movq	16(%rbx), %rax
	movq	%rax, 88(%rsp)
	movups	648(%rsp), %xmm0
	movups	664(%rsp), %xmm1
	movups	680(%rsp), %xmm2
	movups	696(%rsp), %xmm3
	movaps	%xmm0, 96(%rsp)
	movaps	%xmm1, 112(%rsp)
	movaps	%xmm2, 128(%rsp)
	movaps	%xmm3, 144(%rsp)
	movups	712(%rsp), %xmm0
	movaps	%xmm0, 160(%rsp)
	movups	728(%rsp), %xmm0
	movaps	%xmm0, 176(%rsp)
	movups	744(%rsp), %xmm0
	movaps	%xmm0, 192(%rsp)
	xorps	%xmm0, %xmm0
	movaps	%xmm0, 864(%rsp)
	movq	$0, 880(%rsp)
	movaps	%xmm0, 432(%rsp)
	movaps	%xmm0, 448(%rsp)
	movaps	%xmm0, 464(%rsp)
	movaps	%xmm0, 480(%rsp)
	movaps	%xmm0, 496(%rsp)
	movaps	%xmm0, 512(%rsp)
	movaps	%xmm0, 528(%rsp)
	movaps	%xmm0, 544(%rsp)
	movaps	%xmm0, 560(%rsp)
	movaps	%xmm0, 576(%rsp)
	movaps	%xmm0, 592(%rsp)
	movaps	%xmm0, 400(%rsp)
	movaps	%xmm0, 416(%rsp)
	movq	88(%rsp), %r14
	movq	96(%rsp), %rbp
	movl	$268435368, %edx
	testq	%rbp, %rbp
	je	6f
	movq	%r14, %rax
	movq	%rbp, %rcx
	.p2align	4
3:
	leaq	16(%rax), %rdi
	leaq	40(%rax), %rsi
	cmpb	$0, (%rax)
	cmoveq	%rsi, %rdi
	leaq	64(%rax), %rsi
	cmpb	$0, 48(%rax)
	leaq	88(%rax), %r8
	cmoveq	%r8, %rsi
	subq	$8, %rdx
	jae	4f
	movl	$0, %edx
4:
	jb	24f
	movq	(%rdi), %rdi
	cmpq	%rdi, %rdx
	jbe	24f
	movq	%rdi, %r8
	orq	$-4, %r8
	subq	%r8, %rdi
	subq	%rdi, %rdx
	jae	5f
	movl	$0, %edx
5:
	jb	24f
	movq	(%rsi), %rsi
	cmpq	%rsi, %rdx
	jbe	24f
	movq	%rsi, %rdi
	orq	$-4, %rdi
	subq	%rdi, %rsi
	subq	%rsi, %rdx
	jb	24f
	addq	$96, %rax
	decq	%rcx
	jne	3b
6:
	movq	120(%rsp), %rax
	testq	%rax, %rax
	je	10f
	movq	112(%rsp), %rcx
	.p2align	4
7:
	leaq	16(%rcx), %rdi
	leaq	40(%rcx), %rsi
	cmpb	$0, (%rcx)
	cmoveq	%rsi, %rdi
	leaq	64(%rcx), %rsi
	cmpb	$0, 48(%rcx)
	leaq	88(%rcx), %r8
	cmoveq	%r8, %rsi
	subq	$16, %rdx
	jae	8f
	movl	$0, %edx
8:
	jb	24f
	movq	(%rdi), %rdi
	cmpq	%rdi, %rdx
	jbe	24f
	movq	%rdi, %r8
	orq	$-4, %r8
	subq	%r8, %rdi
	subq	%rdi, %rdx
	jae	9f
	movl	$0, %edx
9:
	jb	24f
	movq	(%rsi), %rsi
	cmpq	%rsi, %rdx
	jbe	24f
	movq	%rsi, %rdi
	orq	$-4, %rdi
	subq	%rdi, %rsi
	subq	%rsi, %rdx
	jb	24f
	addq	$96, %rcx
	decq	%rax
	jne	7b
10:
	movq	72(%rsp), %rax
	testq	%rax, %rax
	je	14f
	movq	8(%rsp), %rcx
	.p2align	4
11:
	xorl	%esi, %esi
	cmpb	$0, 56(%rcx)
	sete	%sil
	movq	72(%rcx,%rsi,8), %rdi
	leaq	(%rdi,%rdi,2), %rsi
	leaq	12(,%rsi,4), %r8
	leaq	24(%rcx), %rsi
	cmpb	$0, 8(%rcx)
	leaq	48(%rcx), %r9
	cmoveq	%r9, %rsi
	subq	%r8, %rdx
	jae	12f
	movl	$0, %edx
12:
	jb	24f
	cmpq	%rdi, %rdx
	jbe	24f
	movq	%rdi, %r8
	orq	$-4, %r8
	subq	%r8, %rdi
	subq	%rdi, %rdx
	jae	13f
	movl	$0, %edx
13:
	jb	24f
	movq	(%rsi), %rsi
	cmpq	%rsi, %rdx
	jbe	24f
	movq	%rsi, %rdi
	orq	$-4, %rdi
	subq	%rdi, %rsi
	subq	%rsi, %rdx
	jb	24f
	addq	$104, %rcx
	decq	%rax
	jne	11b
14:
	movq	144(%rsp), %r12
	testq	%r12, %r12
	je	16f
	movq	136(%rsp), %r13
	addq	$64, %r13
	.p2align	4
15:
	subq	$16, %rdx
	jb	24f
	leaq	24(%r13), %rax
	leaq	48(%r13), %rcx
	cmpb	$0, -56(%r13)
	cmoveq	%rcx, %rax
	movq	-64(%rax), %rax
	cmpq	%rax, %rdx
	jbe	24f
	movq	%rax, %rcx
	orq	$-4, %rcx
	subq	%rcx, %rax
	subq	%rax, %rdx
	jb	24f
	movq	-8(%r13), %rsi
	movq	(%r13), %rax
	movq	%rdx, %rdi
	movq	%rax, %rdx
	callq	"mime_store::room::take_lines"
	cmpb	$1, %al
	jne	24f
	addq	$80, %r13
	decq	%r12
	jne	15b
16:
	movq	168(%rsp), %rax
	testq	%rax, %rax
	je	20f
	movq	160(%rsp), %rcx
17:
	leaq	16(%rcx), %rdi
	leaq	40(%rcx), %rsi
	cmpb	$0, (%rcx)
	cmoveq	%rsi, %rdi
	leaq	64(%rcx), %rsi
	cmpb	$0, 48(%rcx)
	leaq	88(%rcx), %r8
	cmoveq	%r8, %rsi
	subq	$8, %rdx
	jae	18f
	movl	$0, %edx
18:
	jb	24f
	movq	(%rdi), %rdi
	cmpq	%rdi, %rdx
	jbe	24f
	movq	%rdi, %r8
	orq	$-4, %r8
	subq	%r8, %rdi
	subq	%rdi, %rdx
	jae	19f
	movl	$0, %edx
19:
	jb	24f
	movq	(%rsi), %rsi
	cmpq	%rsi, %rdx
	jbe	24f
	movq	%rsi, %rdi
	orq	$-4, %rdi
	subq	%rdi, %rsi
	subq	%rsi, %rdx
	jb	24f
	addq	$96, %rcx
	decq	%rax
	jne	17b
20:
	movq	192(%rsp), %rax
	testq	%rax, %rax
	je	94f
	movq	184(%rsp), %rcx
21:
	leaq	16(%rcx), %rdi
	leaq	40(%rcx), %rsi
	cmpb	$0, (%rcx)
	cmoveq	%rsi, %rdi
	leaq	64(%rcx), %rsi
	cmpb	$0, 48(%rcx)
	leaq	88(%rcx), %r8
	cmoveq	%r8, %rsi
	subq	$8, %rdx
	jae	22f
	movl	$0, %edx
22:
	jb	24f
	movq	(%rdi), %rdi
	cmpq	%rdi, %rdx
	jbe	24f
	movq	%rdi, %r8
	orq	$-4, %r8
	subq	%r8, %rdi
	subq	%rdi, %rdx
	jae	23f
	movl	$0, %edx
23:
	jb	24f
	movq	(%rsi), %rsi
	cmpq	%rsi, %rdx
	jbe	24f
	movq	%rsi, %rdi
	orq	$-4, %rdi
	subq	%rdi, %rsi
	subq	%rsi, %rdx
	jb	24f
	addq	$96, %rcx
	decq	%rax
	jne	21b
	jmp	94f
24:
	leaq	432(%rsp), %rdi
	leaq	64(%rsp), %rsi
	callq	"mime_store::parts::parts_of"
	cmpb	$0, 432(%rsp)
	movq	%r15, 392(%rsp)
	movq	%r14, 24(%rsp)
	je	60f
25:
	xorps	%xmm0, %xmm0
	movaps	%xmm0, 32(%rsp)
	movq	$0, 48(%rsp)
	movl	$2, %eax
	movq	%rax, 16(%rsp)
26:
	movq	72(%rsp), %r13
	movq	80(%rsp), %rax
	movq	%rax, 384(%rsp)
	testq	%r13, %r13
	je	30f
	movq	8(%rsp), %rax
	leaq	80(%rax), %rbx
	jmp	28f
	.p2align	4
27:
	addq	$104, %rbx
	decq	%r13
	je	30f
28:
	movzbl	-24(%rbx), %r14d
	movq	-16(%rbx), %r12
	movq	(%rbx), %r15
	cmpb	$0, -72(%rbx)
	je	29f
	cmpq	$0, -48(%rbx)
	je	29f
	movq	-64(%rbx), %rdi
	callq	rattle_dealloc@PLT
29:
	testb	%r14b, %r14b
	je	27b
	testq	%r15, %r15
	je	27b
	movq	%r12, %rdi
	callq	rattle_dealloc@PLT
	jmp	27b
30:
	cmpq	$0, 384(%rsp)
	je	31f
	movq	8(%rsp), %rdi
	callq	rattle_dealloc@PLT
31:
	movq	104(%rsp), %rbx
	testq	%rbp, %rbp
	je	35f
	movq	24(%rsp), %r14
	jmp	33f
	.p2align	4
32:
	addq	$96, %r14
	decq	%rbp
	je	35f
33:
	movzbl	48(%r14), %r13d
	movq	56(%r14), %r15
	movq	72(%r14), %r12
	cmpb	$0, (%r14)
	je	34f
	cmpq	$0, 24(%r14)
	je	34f
	movq	8(%r14), %rdi
	callq	rattle_dealloc@PLT
34:
	testb	%r13b, %r13b
	je	32b
	testq	%r12, %r12
	je	32b
	movq	%r15, %rdi
	callq	rattle_dealloc@PLT
	jmp	32b
35:
	testq	%rbx, %rbx
	je	36f
	movq	24(%rsp), %rdi
	callq	rattle_dealloc@PLT
36:
	movq	112(%rsp), %r14
	movq	120(%rsp), %r12
	movq	128(%rsp), %rax
	movq	%rax, 8(%rsp)
	testq	%r12, %r12
	je	40f
	movq	%r14, %r13
	jmp	38f
	.p2align	4
37:
	addq	$96, %r13
	decq	%r12
	je	40f
38:
	movzbl	48(%r13), %ebx
	movq	56(%r13), %r15
	movq	72(%r13), %rbp
	cmpb	$0, (%r13)
	je	39f
	cmpq	$0, 24(%r13)
	je	39f
	movq	8(%r13), %rdi
	callq	rattle_dealloc@PLT
39:
	testb	%bl, %bl
	je	37b
	testq	%rbp, %rbp
	je	37b
	movq	%r15, %rdi
	callq	rattle_dealloc@PLT
	jmp	37b
40:
	cmpq	$0, 8(%rsp)
	je	41f
	movq	%r14, %rdi
	callq	rattle_dealloc@PLT
41:
	movq	136(%rsp), %r14
	movq	144(%rsp), %rcx
	movq	152(%rsp), %rax
	movq	%rax, 24(%rsp)
	movq	%rcx, 8(%rsp)
	testq	%rcx, %rcx
	je	47f
	xorl	%r13d, %r13d
	jmp	43f
	.p2align	4
42:
	incq	%r13
	cmpq	8(%rsp), %r13
	je	47f
43:
	movq	%r13, %rax
	shlq	$4, %rax
	leaq	(%rax,%rax,4), %rax
	movq	56(%r14,%rax), %rbp
	movq	64(%r14,%rax), %rbx
	movq	72(%r14,%rax), %r12
	cmpb	$0, 8(%r14,%rax)
	je	44f
	cmpq	$0, 32(%r14,%rax)
	je	44f
	movq	16(%r14,%rax), %rdi
	callq	rattle_dealloc@PLT
44:
	testq	%rbx, %rbx
	je	46f
	movq	%rbp, %r15
	.p2align	4
45:
	movups	80(%r15), %xmm0
	movaps	%xmm0, 512(%rsp)
	movups	64(%r15), %xmm0
	movaps	%xmm0, 496(%rsp)
	movups	(%r15), %xmm0
	movups	16(%r15), %xmm1
	movups	32(%r15), %xmm2
	movups	48(%r15), %xmm3
	movaps	%xmm3, 480(%rsp)
	movaps	%xmm2, 464(%rsp)
	movaps	%xmm1, 448(%rsp)
	movaps	%xmm0, 432(%rsp)
	leaq	432(%rsp), %rdi
	callq	"mime_text::mime_base++magic++matchlet++Matchlet+Destruct::drop"
	addq	$96, %r15
	decq	%rbx
	jne	45b
46:
	testq	%r12, %r12
	je	42b
	movq	%rbp, %rdi
	callq	rattle_dealloc@PLT
	jmp	42b
47:
	cmpq	$0, 24(%rsp)
	je	48f
	movq	%r14, %rdi
	callq	rattle_dealloc@PLT
48:
	movq	160(%rsp), %r14
	movq	168(%rsp), %r12
	movq	176(%rsp), %rax
	movq	%rax, 8(%rsp)
	testq	%r12, %r12
	je	52f
	movq	%r14, %r13
	jmp	50f
	.p2align	4
49:
	addq	$96, %r13
	decq	%r12
	je	52f
50:
	movzbl	48(%r13), %ebx
	movq	56(%r13), %r15
	movq	72(%r13), %rbp
	cmpb	$0, (%r13)
	je	51f
	cmpq	$0, 24(%r13)
	je	51f
	movq	8(%r13), %rdi
	callq	rattle_dealloc@PLT
51:
	testb	%bl, %bl
	je	49b
	testq	%rbp, %rbp
	je	49b
	movq	%r15, %rdi
	callq	rattle_dealloc@PLT
	jmp	49b
52:
	cmpq	$0, 8(%rsp)
	je	53f
	movq	%r14, %rdi
	callq	rattle_dealloc@PLT
53:
	movq	184(%rsp), %r14
	movq	192(%rsp), %r12
	movq	200(%rsp), %rax
	movq	%rax, 8(%rsp)
	testq	%r12, %r12
	je	57f
	movq	%r14, %r13
	jmp	55f
	.p2align	4
54:
	addq	$96, %r13
	decq	%r12
	je	57f
55:
	movzbl	48(%r13), %ebx
	movq	56(%r13), %r15
	movq	72(%r13), %rbp
	cmpb	$0, (%r13)
	je	56f
	cmpq	$0, 24(%r13)
	je	56f
	movq	8(%r13), %rdi
	callq	rattle_dealloc@PLT
56:
	testb	%bl, %bl
	je	54b
	testq	%rbp, %rbp
	je	54b
	movq	%r15, %rdi
	callq	rattle_dealloc@PLT
	jmp	54b
57:
	cmpq	$0, 8(%rsp)
	je	58f
	movq	%r14, %rdi
	callq	rattle_dealloc@PLT
58:
	movq	392(%rsp), %rcx
	movq	$1, (%rcx)
	movq	16(%rsp), %rax
	movq	%rax, 8(%rcx)
	movaps	32(%rsp), %xmm0
	movups	%xmm0, 16(%rcx)
	movq	48(%rsp), %rax
	movq	%rax, 32(%rcx)
	xorps	%xmm0, %xmm0
	movups	%xmm0, 40(%rcx)
	movups	%xmm0, 56(%rcx)
	movups	%xmm0, 72(%rcx)
	movups	%xmm0, 88(%rcx)
	movups	%xmm0, 104(%rcx)
	movups	%xmm0, 120(%rcx)
	movups	%xmm0, 136(%rcx)
59:
	addq	$888, %rsp
	popq	%rbx
	popq	%r12
	popq	%r13
	popq	%r14
	popq	%r15
	popq	%rbp
	retq
60:
	leaq	440(%rsp), %rsi
	leaq	208(%rsp), %rdi
	movl	$168, %edx
	callq	memcpy@PLT
	movq	232(%rsp), %r12
	movq	240(%rsp), %rdx
	leaq	400(%rsp), %rdi
	movq	%r12, %rsi
	callq	"mime_store::parents::runs"
	cmpb	$0, 400(%rsp)
	je	76f
	cmpq	$0, 224(%rsp)
	je	61f
	movq	208(%rsp), %rdi
	callq	rattle_dealloc@PLT
61:
	cmpq	$0, 248(%rsp)
	je	62f
	movq	%r12, %rdi
	callq	rattle_dealloc@PLT
62:
	movq	256(%rsp), %r12
	movq	264(%rsp), %r14
	movq	272(%rsp), %rbx
	testq	%r14, %r14
	je	65f
	leaq	16(%r12), %r13
	jmp	64f
	.p2align	4
63:
	addq	$32, %r13
	decq	%r14
	je	65f
64:
	cmpq	$0, (%r13)
	je	63b
	movq	-16(%r13), %rdi
	callq	rattle_dealloc@PLT
	jmp	63b
65:
	testq	%rbx, %rbx
	je	66f
	movq	%r12, %rdi
	callq	rattle_dealloc@PLT
66:
	movq	280(%rsp), %r12
	movq	288(%rsp), %r14
	movq	296(%rsp), %rbx
	testq	%r14, %r14
	je	69f
	leaq	24(%r12), %r13
	jmp	68f
	.p2align	4
67:
	addq	$40, %r13
	decq	%r14
	je	69f
68:
	cmpq	$0, (%r13)
	je	67b
	movq	-16(%r13), %rdi
	callq	rattle_dealloc@PLT
	jmp	67b
69:
	testq	%rbx, %rbx
	je	70f
	movq	%r12, %rdi
	callq	rattle_dealloc@PLT
70:
	movq	304(%rsp), %r12
	movq	312(%rsp), %r14
	movq	320(%rsp), %rbx
	testq	%r14, %r14
	je	73f
	leaq	16(%r12), %r13
	jmp	72f
	.p2align	4
71:
	addq	$32, %r13
	decq	%r14
	je	73f
72:
	cmpq	$0, (%r13)
	je	71b
	movq	-16(%r13), %rdi
	callq	rattle_dealloc@PLT
	jmp	71b
73:
	testq	%rbx, %rbx
	je	74f
	movq	%r12, %rdi
	callq	rattle_dealloc@PLT
74:
	cmpq	$0, 344(%rsp)
	je	75f
	movq	328(%rsp), %rdi
	callq	rattle_dealloc@PLT
75:
	cmpq	$0, 368(%rsp)
	je	25b
	movq	352(%rsp), %rdi
	callq	rattle_dealloc@PLT
	jmp	25b
76:
	movq	408(%rsp), %r13
	movq	416(%rsp), %rcx
	movq	424(%rsp), %rbx
	leaq	64(%rsp), %rdi
	leaq	208(%rsp), %rsi
	movq	%r13, %rdx
	callq	"mime_store::cache::size_within"
	movb	%al, 16(%rsp)
	testq	%rbx, %rbx
	je	77f
	movq	%r13, %rdi
	callq	rattle_dealloc@PLT
77:
	cmpq	$0, 224(%rsp)
	je	78f
	movq	208(%rsp), %rdi
	callq	rattle_dealloc@PLT
78:
	cmpq	$0, 248(%rsp)
	je	79f
	movq	%r12, %rdi
	callq	rattle_dealloc@PLT
79:
	movq	256(%rsp), %r12
	movq	264(%rsp), %r13
	movq	272(%rsp), %rbx
	testq	%r13, %r13
	je	82f
	leaq	16(%r12), %r14
	jmp	81f
	.p2align	4
80:
	addq	$32, %r14
	decq	%r13
	je	82f
81:
	cmpq	$0, (%r14)
	je	80b
	movq	-16(%r14), %rdi
	callq	rattle_dealloc@PLT
	jmp	80b
82:
	testq	%rbx, %rbx
	je	83f
	movq	%r12, %rdi
	callq	rattle_dealloc@PLT
83:
	movq	280(%rsp), %r12
	movq	288(%rsp), %r13
	movq	296(%rsp), %rbx
	testq	%r13, %r13
	je	86f
	leaq	24(%r12), %r14
	jmp	85f
	.p2align	4
84:
	addq	$40, %r14
	decq	%r13
	je	86f
85:
	cmpq	$0, (%r14)
	je	84b
	movq	-16(%r14), %rdi
	callq	rattle_dealloc@PLT
	jmp	84b
86:
	testq	%rbx, %rbx
	je	87f
	movq	%r12, %rdi
	callq	rattle_dealloc@PLT
87:
	movq	304(%rsp), %r12
	movq	312(%rsp), %r13
	movq	320(%rsp), %rbx
	testq	%r13, %r13
	je	90f
	leaq	16(%r12), %r14
	jmp	89f
	.p2align	4
88:
	addq	$32, %r14
	decq	%r13
	je	90f
89:
	cmpq	$0, (%r14)
	je	88b
	movq	-16(%r14), %rdi
	callq	rattle_dealloc@PLT
	jmp	88b
90:
	testq	%rbx, %rbx
	je	91f
	movq	%r12, %rdi
	callq	rattle_dealloc@PLT
91:
	cmpq	$0, 344(%rsp)
	leaq	624(%rsp), %rbx
	je	92f
	movq	328(%rsp), %rdi
	callq	rattle_dealloc@PLT
92:
	cmpq	$0, 368(%rsp)
	je	93f
	movq	352(%rsp), %rdi
	callq	rattle_dealloc@PLT
93:
	testb	$1, 16(%rsp)
	je	95f
94:
	leaq	648(%rsp), %rax
	movq	$0, (%r15)
	movq	8(%rsp), %rcx
	movq	%rcx, 8(%r15)
	movups	(%rbx), %xmm0
	movups	%xmm0, 16(%r15)
	movq	16(%rbx), %rcx
	movq	%rcx, 32(%r15)
	movups	(%rax), %xmm0
	movups	16(%rax), %xmm1
	movups	32(%rax), %xmm2
	movups	48(%rax), %xmm3
	movups	%xmm0, 40(%r15)
	movups	%xmm1, 56(%r15)
	movups	%xmm2, 72(%r15)
	movups	%xmm3, 88(%r15)
	movups	64(%rax), %xmm0
	movups	%xmm0, 104(%r15)
	movups	80(%rax), %xmm0
	movups	%xmm0, 120(%r15)
	movups	96(%rax), %xmm0
	jmp	1b
95:
	xorps	%xmm0, %xmm0
	movaps	%xmm0, 432(%rsp)
	movaps	%xmm0, 448(%rsp)
	movaps	%xmm0, 208(%rsp)
	movq	$0, 224(%rsp)
	leaq	.L20b52a83b3e7(%rip), %rsi
	leaq	432(%rsp), %rdi
	movl	$29, %edx
	callq	"std_alloc::string::String::format::<#cba637970f1a6228>"
	movl	$2, %eax
	cmpb	$0, 432(%rsp)
	jne	96f
	movq	456(%rsp), %rax
	movq	%rax, 224(%rsp)
	movups	440(%rsp), %xmm0
	movaps	%xmm0, 208(%rsp)
	xorl	%eax, %eax
96:
	movq	%rax, 16(%rsp)
	movq	224(%rsp), %rax
	movaps	208(%rsp), %xmm0
	movaps	%xmm0, 32(%rsp)
	movq	%rax, 48(%rsp)
	jmp	26b
97:
	.size	"mime_tool::sources::load_fitting::<#2e1b2a3647f851f7>", 97b-"mime_tool::sources::load_fitting::<#2e1b2a3647f851f7>"

	.text
	.p2align	4
	.type	"mime_tool::sources::read_data::<#2e1b2a3647f851f7>",@function
"mime_tool::sources::read_data::<#2e1b2a3647f851f7>":
	pushq	%r15
	pushq	%r14
	pushq	%r13
	pushq	%r12
	pushq	%rbx
	subq	$480, %rsp
	movq	%rdi, %rbx
	movzbl	(%rdx), %eax
	xorps	%xmm0, %xmm0
	movaps	%xmm0, 320(%rsp)
	movaps	%xmm0, 304(%rsp)
	movaps	%xmm0, 288(%rsp)
	movaps	%xmm0, 272(%rsp)
	movaps	%xmm0, 256(%rsp)
	movaps	%xmm0, 240(%rsp)
	movaps	%xmm0, 224(%rsp)
	movaps	%xmm0, 208(%rsp)
	movaps	%xmm0, 192(%rsp)
	movq	$0, 336(%rsp)
	movzbl	(%rcx), %r12d
	testq	%r12, %r12
	je	1f
	addq	$8, %rcx
	movq	%rax, 400(%rsp)
	movups	8(%rdx), %xmm0
	movups	24(%rdx), %xmm1
	movups	40(%rdx), %xmm2
	movups	56(%rdx), %xmm3
	movups	%xmm0, 408(%rsp)
	movups	%xmm1, 424(%rsp)
	movups	%xmm2, 440(%rsp)
	movups	%xmm3, 456(%rsp)
	movq	72(%rdx), %rax
	movq	%rax, 472(%rsp)
	leaq	192(%rsp), %rdi
	leaq	400(%rsp), %rdx
	callq	"mime_tool::sources::load_fitting::<#2e1b2a3647f851f7>"
	movq	200(%rsp), %rax
	cmpb	$0, 192(%rsp)
	je	2f
	movq	208(%rsp), %rcx
	movzbl	%al, %eax
	movq	$1, (%rbx)
	movq	%rax, 8(%rbx)
	movq	%rcx, 16(%rbx)
	movups	216(%rsp), %xmm0
	jmp	9f
1:
	movq	8(%rcx), %r14
	movq	%rcx, %r13
	movq	16(%rcx), %r15
	movaps	%xmm0, 16(%rsp)
	movaps	%xmm0, (%rsp)
	movq	$0, 32(%rsp)
	movq	%rsp, %rdi
	movq	%r14, %rsi
	movq	%r15, %rdx
	callq	"mime_tool::system::SystemFilesFiles::whole::<#a1ba6ce099ef6b20>"
	cmpb	$0, (%rsp)
	je	3f
	cmpb	$2, 1(%rsp)
	jne	5f
	xorps	%xmm0, %xmm0
	movl	$2, %eax
	xorl	%ecx, %ecx
	jmp	8f
2:
	movq	208(%rsp), %rdx
	movups	216(%rsp), %xmm0
	movq	232(%rsp), %rcx
	movaps	240(%rsp), %xmm1
	movaps	%xmm1, 48(%rsp)
	movaps	256(%rsp), %xmm1
	movaps	%xmm1, 64(%rsp)
	movaps	272(%rsp), %xmm1
	movaps	%xmm1, 80(%rsp)
	movaps	288(%rsp), %xmm1
	movaps	%xmm1, 96(%rsp)
	movaps	304(%rsp), %xmm1
	movaps	%xmm1, 112(%rsp)
	movaps	320(%rsp), %xmm1
	movaps	%xmm1, 128(%rsp)
	movq	336(%rsp), %rsi
	movq	%rsi, 144(%rsp)
	jmp	4f
3:
	cmpb	$1, 8(%rsp)
	jne	5f
	movaps	16(%rsp), %xmm0
	movq	32(%rsp), %rcx
	movq	8(%r13), %rax
	movq	16(%r13), %rdx
	xorps	%xmm1, %xmm1
	movaps	%xmm1, 128(%rsp)
	movaps	%xmm1, 112(%rsp)
	movaps	%xmm1, 96(%rsp)
	movaps	%xmm1, 80(%rsp)
	movaps	%xmm1, 64(%rsp)
	movaps	%xmm1, 48(%rsp)
	movq	$0, 144(%rsp)
4:
	movq	$0, (%rbx)
	movq	%r12, 8(%rbx)
	movq	%rax, 16(%rbx)
	movq	%rdx, 24(%rbx)
	movups	%xmm0, 32(%rbx)
	movq	%rcx, 48(%rbx)
	movaps	48(%rsp), %xmm0
	movaps	64(%rsp), %xmm1
	movaps	80(%rsp), %xmm2
	movaps	96(%rsp), %xmm3
	movups	%xmm0, 56(%rbx)
	movups	%xmm1, 72(%rbx)
	movups	%xmm2, 88(%rbx)
	movups	%xmm3, 104(%rbx)
	movaps	112(%rsp), %xmm0
	movups	%xmm0, 120(%rbx)
	movaps	128(%rsp), %xmm0
	movups	%xmm0, 136(%rbx)
	movq	144(%rsp), %rax
	movq	%rax, 152(%rbx)
	jmp	10f
5:
	xorps	%xmm0, %xmm0
	movaps	%xmm0, 160(%rsp)
	movaps	%xmm0, 176(%rsp)
	leaq	.Ld9078770f0cd(%rip), %rax
	movq	%rax, 352(%rsp)
	movq	$10, 360(%rsp)
	movq	%r14, 368(%rsp)
	movq	%r15, 376(%rsp)
	leaq	.L38ad3f25f51f(%rip), %rax
	movq	%rax, 384(%rsp)
	movq	$14, 392(%rsp)
	leaq	160(%rsp), %rdi
	leaq	352(%rsp), %rsi
	callq	"std_alloc::string::String::format::<#ae563473db7f7f6d>"
	xorl	%ecx, %ecx
	xorl	%eax, %eax
	cmpb	$0, 160(%rsp)
	setne	%dl
	jne	6f
	movq	168(%rsp), %rcx
6:
	movb	%dl, %al
	xorps	%xmm0, %xmm0
	jne	7f
	movaps	176(%rsp), %xmm0
7:
	addl	%eax, %eax
8:
	movq	$1, (%rbx)
	movq	%rax, 8(%rbx)
	movq	%rcx, 16(%rbx)
9:
	movups	%xmm0, 24(%rbx)
	xorps	%xmm0, %xmm0
	movups	%xmm0, 40(%rbx)
	movups	%xmm0, 56(%rbx)
	movups	%xmm0, 72(%rbx)
	movups	%xmm0, 88(%rbx)
	movups	%xmm0, 104(%rbx)
	movups	%xmm0, 120(%rbx)
	movups	%xmm0, 136(%rbx)
	movq	$0, 152(%rbx)
10:
	addq	$480, %rsp
	popq	%rbx
	popq	%r12
	popq	%r13
	popq	%r14
	popq	%r15
	retq
11:
	.size	"mime_tool::sources::read_data::<#2e1b2a3647f851f7>", 11b-"mime_tool::sources::read_data::<#2e1b2a3647f851f7>"

	.text
	.p2align	4
	.type	"mime_tool::sources::read_source::<#2e1b2a3647f851f7>",@function
"mime_tool::sources::read_source::<#2e1b2a3647f851f7>":
	pushq	%rbp
	pushq	%r15
	pushq	%r14
	pushq	%r13
	pushq	%r12
	pushq	%rbx
	subq	$632, %rsp
	movq	%rdi, %r13
	movzbl	(%rdx), %eax
	xorps	%xmm0, %xmm0
	movaps	%xmm0, 32(%rsp)
	cmpb	$0, (%rcx)
	je	1f
	addq	$8, %rcx
	movaps	%xmm0, 368(%rsp)
	movaps	%xmm0, 384(%rsp)
	movaps	%xmm0, 400(%rsp)
	movaps	%xmm0, 416(%rsp)
	movaps	%xmm0, 432(%rsp)
	movaps	%xmm0, 448(%rsp)
	movaps	%xmm0, 464(%rsp)
	movaps	%xmm0, 480(%rsp)
	movaps	%xmm0, 496(%rsp)
	movq	$0, 512(%rsp)
	leaq	384(%rsp), %rbx
	movups	%xmm0, 536(%rsp)
	movaps	%xmm0, 224(%rsp)
	movaps	%xmm0, 240(%rsp)
	movq	$0, 256(%rsp)
	movq	%rax, 552(%rsp)
	movups	8(%rdx), %xmm0
	movups	24(%rdx), %xmm1
	movups	40(%rdx), %xmm2
	movups	56(%rdx), %xmm3
	movups	%xmm0, 560(%rsp)
	movups	%xmm1, 576(%rsp)
	movups	%xmm2, 592(%rsp)
	movups	%xmm3, 608(%rsp)
	movq	72(%rdx), %rax
	movq	%rax, 624(%rsp)
	movq	$0, 528(%rsp)
	leaq	368(%rsp), %rdi
	leaq	552(%rsp), %rdx
	leaq	528(%rsp), %r8
	callq	"mime_tool::directories::load::<#2e1b2a3647f851f7>"
	movq	376(%rsp), %r12
	cmpb	$0, 368(%rsp)
	je	2f
	movq	400(%rsp), %rcx
	movzbl	%r12b, %r14d
	movups	(%rbx), %xmm0
	movaps	%xmm0, 32(%rsp)
	movl	$1, %eax
	jmp	73f
1:
	movq	8(%rcx), %r14
	movq	16(%rcx), %r15
	movaps	%xmm0, 80(%rsp)
	movaps	%xmm0, 64(%rsp)
	movq	$0, 96(%rsp)
	leaq	64(%rsp), %rdi
	movq	%r14, %rsi
	movq	%r15, %rdx
	callq	"mime_tool::system::SystemFilesFiles::whole::<#a1ba6ce099ef6b20>"
	cmpb	$0, 64(%rsp)
	je	35f
	cmpb	$2, 65(%rsp)
	jne	36f
	xorps	%xmm0, %xmm0
	movaps	%xmm0, 208(%rsp)
	movl	$2, %r14d
	movl	$1, %eax
	xorl	%ecx, %ecx
	jmp	72f
2:
	movq	%r13, 56(%rsp)
	movq	400(%rsp), %rax
	movq	%r12, 64(%rsp)
	movups	(%rbx), %xmm0
	movups	%xmm0, 72(%rsp)
	movq	%rax, 8(%rsp)
	movq	%rax, 88(%rsp)
	movups	504(%rsp), %xmm0
	movups	%xmm0, 192(%rsp)
	movups	488(%rsp), %xmm0
	movups	%xmm0, 176(%rsp)
	movups	472(%rsp), %xmm0
	movups	%xmm0, 160(%rsp)
	movups	456(%rsp), %xmm0
	movups	%xmm0, 144(%rsp)
	movups	440(%rsp), %xmm0
	movups	%xmm0, 128(%rsp)
	movups	424(%rsp), %xmm0
	movups	%xmm0, 112(%rsp)
	movups	408(%rsp), %xmm0
	movups	%xmm0, 96(%rsp)
	leaq	224(%rsp), %rdi
	leaq	64(%rsp), %rsi
	callq	"mime_tool::build::cache_of"
	movq	232(%rsp), %rax
	movq	%rax, 48(%rsp)
	cmpb	$0, 224(%rsp)
	je	37f
	movq	256(%rsp), %rax
	movq	%rax, 16(%rsp)
	movq	72(%rsp), %rbx
	movq	80(%rsp), %rax
	movq	%rax, 24(%rsp)
	testq	%rbx, %rbx
	je	6f
	leaq	80(%r12), %r14
	jmp	4f
	.p2align	4
3:
	addq	$104, %r14
	decq	%rbx
	je	6f
4:
	movzbl	-24(%r14), %ebp
	movq	-16(%r14), %r13
	movq	(%r14), %r15
	cmpb	$0, -72(%r14)
	je	5f
	cmpq	$0, -48(%r14)
	je	5f
	movq	-64(%r14), %rdi
	callq	rattle_dealloc@PLT
5:
	testb	%bpl, %bpl
	je	3b
	testq	%r15, %r15
	je	3b
	movq	%r13, %rdi
	callq	rattle_dealloc@PLT
	jmp	3b
6:
	cmpq	$0, 24(%rsp)
	je	7f
	movq	%r12, %rdi
	callq	rattle_dealloc@PLT
7:
	movq	96(%rsp), %rbx
	movq	104(%rsp), %r13
	testq	%rbx, %rbx
	je	11f
	movq	8(%rsp), %r14
	jmp	9f
	.p2align	4
8:
	addq	$96, %r14
	decq	%rbx
	je	11f
9:
	movzbl	48(%r14), %ebp
	movq	56(%r14), %r12
	movq	72(%r14), %r15
	cmpb	$0, (%r14)
	je	10f
	cmpq	$0, 24(%r14)
	je	10f
	movq	8(%r14), %rdi
	callq	rattle_dealloc@PLT
10:
	testb	%bpl, %bpl
	je	8b
	testq	%r15, %r15
	je	8b
	movq	%r12, %rdi
	callq	rattle_dealloc@PLT
	jmp	8b
11:
	testq	%r13, %r13
	je	12f
	movq	8(%rsp), %rdi
	callq	rattle_dealloc@PLT
12:
	movq	112(%rsp), %r15
	movq	120(%rsp), %r14
	movq	128(%rsp), %rax
	movq	%rax, 8(%rsp)
	testq	%r14, %r14
	je	16f
	movq	%r15, %r13
	jmp	14f
	.p2align	4
13:
	addq	$96, %r13
	decq	%r14
	je	16f
14:
	movzbl	48(%r13), %ebx
	movq	56(%r13), %r12
	movq	72(%r13), %rbp
	cmpb	$0, (%r13)
	je	15f
	cmpq	$0, 24(%r13)
	je	15f
	movq	8(%r13), %rdi
	callq	rattle_dealloc@PLT
15:
	testb	%bl, %bl
	je	13b
	testq	%rbp, %rbp
	je	13b
	movq	%r12, %rdi
	callq	rattle_dealloc@PLT
	jmp	13b
16:
	cmpq	$0, 8(%rsp)
	je	17f
	movq	%r15, %rdi
	callq	rattle_dealloc@PLT
17:
	movq	136(%rsp), %r15
	movq	144(%rsp), %rcx
	movq	152(%rsp), %rax
	movq	%rax, 24(%rsp)
	movq	%rcx, 8(%rsp)
	testq	%rcx, %rcx
	je	23f
	xorl	%r13d, %r13d
	jmp	19f
	.p2align	4
18:
	incq	%r13
	cmpq	8(%rsp), %r13
	je	23f
19:
	movq	%r13, %rax
	shlq	$4, %rax
	leaq	(%rax,%rax,4), %rax
	movq	56(%r15,%rax), %rbp
	movq	64(%r15,%rax), %rbx
	movq	72(%r15,%rax), %r14
	cmpb	$0, 8(%r15,%rax)
	je	20f
	cmpq	$0, 32(%r15,%rax)
	je	20f
	movq	16(%r15,%rax), %rdi
	callq	rattle_dealloc@PLT
20:
	testq	%rbx, %rbx
	je	22f
	movq	%rbp, %r12
	.p2align	4
21:
	movups	80(%r12), %xmm0
	movaps	%xmm0, 352(%rsp)
	movups	64(%r12), %xmm0
	movaps	%xmm0, 336(%rsp)
	movups	(%r12), %xmm0
	movups	16(%r12), %xmm1
	movups	32(%r12), %xmm2
	movups	48(%r12), %xmm3
	movaps	%xmm3, 320(%rsp)
	movaps	%xmm2, 304(%rsp)
	movaps	%xmm1, 288(%rsp)
	movaps	%xmm0, 272(%rsp)
	leaq	272(%rsp), %rdi
	callq	"mime_text::mime_base++magic++matchlet++Matchlet+Destruct::drop"
	addq	$96, %r12
	decq	%rbx
	jne	21b
22:
	testq	%r14, %r14
	je	18b
	movq	%rbp, %rdi
	callq	rattle_dealloc@PLT
	jmp	18b
23:
	cmpq	$0, 24(%rsp)
	je	24f
	movq	%r15, %rdi
	callq	rattle_dealloc@PLT
24:
	movq	160(%rsp), %r15
	movq	168(%rsp), %r14
	movq	176(%rsp), %rax
	movq	%rax, 8(%rsp)
	testq	%r14, %r14
	je	28f
	movq	%r15, %r13
	jmp	26f
	.p2align	4
25:
	addq	$96, %r13
	decq	%r14
	je	28f
26:
	movzbl	48(%r13), %ebx
	movq	56(%r13), %r12
	movq	72(%r13), %rbp
	cmpb	$0, (%r13)
	je	27f
	cmpq	$0, 24(%r13)
	je	27f
	movq	8(%r13), %rdi
	callq	rattle_dealloc@PLT
27:
	testb	%bl, %bl
	je	25b
	testq	%rbp, %rbp
	je	25b
	movq	%r12, %rdi
	callq	rattle_dealloc@PLT
	jmp	25b
28:
	cmpq	$0, 8(%rsp)
	je	29f
	movq	%r15, %rdi
	callq	rattle_dealloc@PLT
29:
	movq	184(%rsp), %r15
	movq	192(%rsp), %rbx
	movq	200(%rsp), %rax
	movq	%rax, 8(%rsp)
	testq	%rbx, %rbx
	je	33f
	movq	%r15, %r13
	jmp	31f
	.p2align	4
30:
	addq	$96, %r13
	decq	%rbx
	je	33f
31:
	movzbl	48(%r13), %r14d
	movq	56(%r13), %r12
	movq	72(%r13), %rbp
	cmpb	$0, (%r13)
	je	32f
	cmpq	$0, 24(%r13)
	je	32f
	movq	8(%r13), %rdi
	callq	rattle_dealloc@PLT
32:
	testb	%r14b, %r14b
	je	30b
	testq	%rbp, %rbp
	je	30b
	movq	%r12, %rdi
	callq	rattle_dealloc@PLT
	jmp	30b
33:
	movq	48(%rsp), %r14
	movzbl	%r14b, %r14d
	cmpq	$0, 8(%rsp)
	je	34f
	movq	%r15, %rdi
	callq	rattle_dealloc@PLT
34:
	leaq	224(%rsp), %rax
	movups	16(%rax), %xmm0
	movaps	%xmm0, 32(%rsp)
	movl	$1, %eax
	movq	56(%rsp), %r13
	movq	16(%rsp), %rcx
	jmp	73f
35:
	cmpb	$1, 72(%rsp)
	jne	36f
	movq	80(%rsp), %r14
	movups	88(%rsp), %xmm0
	movaps	%xmm0, 208(%rsp)
	xorl	%ecx, %ecx
	xorl	%eax, %eax
	jmp	72f
36:
	xorps	%xmm0, %xmm0
	movaps	%xmm0, 272(%rsp)
	movaps	%xmm0, 288(%rsp)
	movaps	%xmm0, 208(%rsp)
	leaq	.Ld9078770f0cd(%rip), %rax
	movq	%rax, 368(%rsp)
	movq	$10, 376(%rsp)
	movq	%r14, 384(%rsp)
	movq	%r15, 392(%rsp)
	leaq	.L38ad3f25f51f(%rip), %rax
	movq	%rax, 400(%rsp)
	movq	$14, 408(%rsp)
	leaq	272(%rsp), %rdi
	leaq	368(%rsp), %rsi
	callq	"std_alloc::string::String::format::<#ae563473db7f7f6d>"
	cmpb	$0, 272(%rsp)
	je	70f
	movl	$2, %r14d
	xorl	%ecx, %ecx
	jmp	71f
37:
	movq	72(%rsp), %rbp
	movq	80(%rsp), %rax
	movq	%rax, 16(%rsp)
	testq	%rbp, %rbp
	je	41f
	leaq	80(%r12), %rbx
	jmp	39f
	.p2align	4
38:
	addq	$104, %rbx
	decq	%rbp
	je	41f
39:
	movzbl	-24(%rbx), %r15d
	movq	-16(%rbx), %r13
	movq	(%rbx), %r14
	cmpb	$0, -72(%rbx)
	je	40f
	cmpq	$0, -48(%rbx)
	je	40f
	movq	-64(%rbx), %rdi
	callq	rattle_dealloc@PLT
40:
	testb	%r15b, %r15b
	je	38b
	testq	%r14, %r14
	je	38b
	movq	%r13, %rdi
	callq	rattle_dealloc@PLT
	jmp	38b
41:
	cmpq	$0, 16(%rsp)
	je	42f
	movq	%r12, %rdi
	callq	rattle_dealloc@PLT
42:
	movq	96(%rsp), %r13
	movq	104(%rsp), %r14
	testq	%r13, %r13
	je	46f
	movq	8(%rsp), %rbx
	jmp	44f
	.p2align	4
43:
	addq	$96, %rbx
	decq	%r13
	je	46f
44:
	movzbl	48(%rbx), %r15d
	movq	56(%rbx), %r12
	movq	72(%rbx), %rbp
	cmpb	$0, (%rbx)
	je	45f
	cmpq	$0, 24(%rbx)
	je	45f
	movq	8(%rbx), %rdi
	callq	rattle_dealloc@PLT
45:
	testb	%r15b, %r15b
	je	43b
	testq	%rbp, %rbp
	je	43b
	movq	%r12, %rdi
	callq	rattle_dealloc@PLT
	jmp	43b
46:
	testq	%r14, %r14
	je	47f
	movq	8(%rsp), %rdi
	callq	rattle_dealloc@PLT
47:
	movq	112(%rsp), %r15
	movq	120(%rsp), %r14
	movq	128(%rsp), %rax
	movq	%rax, 8(%rsp)
	testq	%r14, %r14
	je	51f
	movq	%r15, %r13
	jmp	49f
	.p2align	4
48:
	addq	$96, %r13
	decq	%r14
	je	51f
49:
	movzbl	48(%r13), %ebx
	movq	56(%r13), %r12
	movq	72(%r13), %rbp
	cmpb	$0, (%r13)
	je	50f
	cmpq	$0, 24(%r13)
	je	50f
	movq	8(%r13), %rdi
	callq	rattle_dealloc@PLT
50:
	testb	%bl, %bl
	je	48b
	testq	%rbp, %rbp
	je	48b
	movq	%r12, %rdi
	callq	rattle_dealloc@PLT
	jmp	48b
51:
	cmpq	$0, 8(%rsp)
	je	52f
	movq	%r15, %rdi
	callq	rattle_dealloc@PLT
52:
	movq	136(%rsp), %r15
	movq	144(%rsp), %rcx
	movq	152(%rsp), %rax
	movq	%rax, 16(%rsp)
	movq	%rcx, 8(%rsp)
	testq	%rcx, %rcx
	je	58f
	xorl	%ebp, %ebp
	jmp	54f
	.p2align	4
53:
	incq	%rbp
	cmpq	8(%rsp), %rbp
	je	58f
54:
	movq	%rbp, %rax
	shlq	$4, %rax
	leaq	(%rax,%rax,4), %rax
	movq	56(%r15,%rax), %r13
	movq	64(%r15,%rax), %rbx
	movq	72(%r15,%rax), %r14
	cmpb	$0, 8(%r15,%rax)
	je	55f
	cmpq	$0, 32(%r15,%rax)
	je	55f
	movq	16(%r15,%rax), %rdi
	callq	rattle_dealloc@PLT
55:
	testq	%rbx, %rbx
	je	57f
	movq	%r13, %r12
	.p2align	4
56:
	movups	80(%r12), %xmm0
	movaps	%xmm0, 352(%rsp)
	movups	64(%r12), %xmm0
	movaps	%xmm0, 336(%rsp)
	movups	(%r12), %xmm0
	movups	16(%r12), %xmm1
	movups	32(%r12), %xmm2
	movups	48(%r12), %xmm3
	movaps	%xmm3, 320(%rsp)
	movaps	%xmm2, 304(%rsp)
	movaps	%xmm1, 288(%rsp)
	movaps	%xmm0, 272(%rsp)
	leaq	272(%rsp), %rdi
	callq	"mime_text::mime_base++magic++matchlet++Matchlet+Destruct::drop"
	addq	$96, %r12
	decq	%rbx
	jne	56b
57:
	testq	%r14, %r14
	je	53b
	movq	%r13, %rdi
	callq	rattle_dealloc@PLT
	jmp	53b
58:
	cmpq	$0, 16(%rsp)
	je	59f
	movq	%r15, %rdi
	callq	rattle_dealloc@PLT
59:
	movq	160(%rsp), %r15
	movq	168(%rsp), %r14
	movq	176(%rsp), %rax
	movq	%rax, 8(%rsp)
	testq	%r14, %r14
	je	63f
	movq	%r15, %r13
	jmp	61f
	.p2align	4
60:
	addq	$96, %r13
	decq	%r14
	je	63f
61:
	movzbl	48(%r13), %ebx
	movq	56(%r13), %r12
	movq	72(%r13), %rbp
	cmpb	$0, (%r13)
	je	62f
	cmpq	$0, 24(%r13)
	je	62f
	movq	8(%r13), %rdi
	callq	rattle_dealloc@PLT
62:
	testb	%bl, %bl
	je	60b
	testq	%rbp, %rbp
	je	60b
	movq	%r12, %rdi
	callq	rattle_dealloc@PLT
	jmp	60b
63:
	cmpq	$0, 8(%rsp)
	je	64f
	movq	%r15, %rdi
	callq	rattle_dealloc@PLT
64:
	movq	184(%rsp), %r15
	movq	192(%rsp), %r14
	movq	200(%rsp), %rax
	movq	%rax, 8(%rsp)
	testq	%r14, %r14
	je	68f
	movq	%r15, %r13
	jmp	66f
	.p2align	4
65:
	addq	$96, %r13
	decq	%r14
	je	68f
66:
	movzbl	48(%r13), %ebx
	movq	56(%r13), %r12
	movq	72(%r13), %rbp
	cmpb	$0, (%r13)
	je	67f
	cmpq	$0, 24(%r13)
	je	67f
	movq	8(%r13), %rdi
	callq	rattle_dealloc@PLT
67:
	testb	%bl, %bl
	je	65b
	testq	%rbp, %rbp
	je	65b
	movq	%r12, %rdi
	callq	rattle_dealloc@PLT
	jmp	65b
68:
	cmpq	$0, 8(%rsp)
	je	69f
	movq	%r15, %rdi
	callq	rattle_dealloc@PLT
69:
	leaq	224(%rsp), %rax
	movups	16(%rax), %xmm0
	movaps	%xmm0, 32(%rsp)
	xorl	%eax, %eax
	xorl	%ecx, %ecx
	movq	56(%rsp), %r13
	movq	48(%rsp), %r14
	jmp	73f
70:
	movups	280(%rsp), %xmm0
	movaps	%xmm0, 208(%rsp)
	movq	296(%rsp), %rcx
	xorl	%r14d, %r14d
71:
	movl	$1, %eax
72:
	movaps	208(%rsp), %xmm0
	movaps	%xmm0, 32(%rsp)
73:
	movq	%rax, (%r13)
	movq	%r14, 8(%r13)
	movaps	32(%rsp), %xmm0
	movups	%xmm0, 16(%r13)
	movq	%rcx, 32(%r13)
	addq	$632, %rsp
	popq	%rbx
	popq	%r12
	popq	%r13
	popq	%r14
	popq	%r15
	popq	%rbp
	retq
74:
	.size	"mime_tool::sources::read_source::<#2e1b2a3647f851f7>", 74b-"mime_tool::sources::read_source::<#2e1b2a3647f851f7>"

	.section	.rodata.cst16,"aM",@progbits,16
	.p2align	4, 0x0
1:
	.byte	0,1,2,3,4,5,6,7,8,9,10,11,12,13,14,15
2:
	.byte	16,17,18,19,20,21,22,23,24,25,26,27,28,29,30,31
	.text
	.p2align	4
	.type	"mime_tool::stop::complain::<#6dca9f1b7737a2bb>",@function
"mime_tool::stop::complain::<#6dca9f1b7737a2bb>":
	pushq	%r15
	pushq	%r14
	pushq	%rbx
	subq	$96, %rsp
	movq	%rsi, %rbx
	movq	%rdi, %r14
	movl	$1, %r15d
	jmp	4f
	.p2align	4
3:
	incq	%r15
	je	6f
4:
	testq	%rbx, %rbx
	je	9f
	movl	$2, %edi
	movq	%r14, %rsi
	movq	%rbx, %rdx
	callq	write@PLT
	testq	%rax, %rax
	js	5f
	je	7f
	cmpq	%rbx, %rax
	cmovaeq	%rbx, %rax
	addq	%rax, %r14
	subq	%rax, %rbx
	jmp	3b
	.p2align	4
5:
	callq	rattle_errno@PLT
	movq	%rsp, %rdi
	movl	%eax, %esi
	callq	"std_io::io::error::Error::from_raw_os_error"
	movq	(%rsp), %rax
	movq	%rax, %rcx
	shrq	$8, %rcx
	movaps	1b(%rip), %xmm0
	movaps	%xmm0, (%rsp)
	movaps	2b(%rip), %xmm0
	movaps	%xmm0, 16(%rsp)
	movabsq	$2820983053732684064, %rdx
	movq	%rdx, 32(%rsp)
	movb	$40, 40(%rsp)
	cmpb	$41, %cl
	jae	8f
	andl	$63, %ecx
	cmpb	$35, (%rsp,%rcx)
	je	3b
	jmp	8f
6:
	leaq	.L87b4d4e2734a(%rip), %rcx
	movq	%rsp, %rdi
	movl	$43, %r8d
	movl	$43, %r9d
	movl	$2, %esi
	movl	$22, %edx
	callq	"std_io::io::error::Error::from_bytes"
	movq	(%rsp), %rax
	jmp	8f
7:
	movl	$1840898, %eax
8:
	shrq	$8, %rax
	movaps	1b(%rip), %xmm0
	movaps	%xmm0, (%rsp)
	movaps	2b(%rip), %xmm0
	movaps	%xmm0, 16(%rsp)
	movabsq	$2820983053732684064, %rcx
	movq	%rcx, 32(%rsp)
	movb	$40, 40(%rsp)
	cmpb	$41, %al
	jae	9f
	andl	$63, %eax
	cmpb	$38, (%rsp,%rax)
	sete	%al
	jmp	10f
9:
	xorl	%eax, %eax
10:
	addq	$96, %rsp
	popq	%rbx
	popq	%r14
	popq	%r15
	retq
11:
	.size	"mime_tool::stop::complain::<#6dca9f1b7737a2bb>", 11b-"mime_tool::stop::complain::<#6dca9f1b7737a2bb>"

	.section	.rodata.cst16,"aM",@progbits,16
	.p2align	4, 0x0
1:
	.zero	16,47
2:
	.byte	3,2,1,0,7,6,5,4,11,10,9,8,15,14,13,12
	.text
	.p2align	4
	.type	"mime_tool::subjects::input_outcome::<#2ca5e9641c42b07d>",@function
"mime_tool::subjects::input_outcome::<#2ca5e9641c42b07d>":
	pushq	%rbp
	pushq	%r15
	pushq	%r14
	pushq	%r13
	pushq	%r12
	pushq	%rbx
	subq	$1288, %rsp
	movq	%rcx, %rbp
	movq	%rdx, %r13
	movq	%rdi, %rbx
	movzbl	(%rsi), %ecx
	movq	8(%rsi), %r10
	movq	16(%rsi), %r12
	movq	24(%rsi), %r15
	movq	32(%rsi), %r8
	movzbl	40(%rsi), %r14d
	movzbl	48(%rsi), %r9d
	movzbl	50(%rsi), %eax
	movzbl	%al, %r11d
	movl	$0, 443(%rsp)
	movl	$0, 440(%rsp)
	movl	$0, 203(%rsp)
	movl	$0, 200(%rsp)
	leaq	374f(%rip), %rdx
	movslq	(%rdx,%rcx,4), %rcx
	addq	%rdx, %rcx
	jmpq	*%rcx
3:
	movl	$0, 368(%rsp)
	movl	$0, 371(%rsp)
	movl	$0, 336(%rsp)
	movl	$0, 339(%rsp)
	movl	$0, 656(%rsp)
	movl	$0, 659(%rsp)
	cmpb	$3, %al
	jne	45f
	movl	%r11d, 80(%rsp)
	movl	%r9d, %r14d
	movq	%r10, %r15
	movq	%r10, 208(%rsp)
	movq	$0, 128(%rsp)
	pxor	%xmm0, %xmm0
	movdqa	%xmm0, 240(%rsp)
	leaq	.L22d5119de29e(%rip), %r13
	xorl	%ebp, %ebp
4:
	leaq	176(%rsp), %r12
	xorl	%esi, %esi
	movq	$0, 120(%rsp)
	movq	$0, 160(%rsp)
5:
	movq	%r12, %rdi
	movq	%rsi, 40(%rsp)
	callq	"mime_lookup::checking::are_one_type"
	testb	%al, %al
	je	62f
	movq	(%r12), %r10
	movq	8(%r12), %r11
6:
	cmpq	$0, 120(%rsp)
	je	8f
7:
	movq	%r12, %rdi
	movq	%r11, %r14
	movq	%r10, %r15
	callq	rattle_dealloc@PLT
	movq	%r15, %r10
	movq	%r14, %r11
8:
	movq	%r11, %r14
	shrq	$48, %r14
	movq	%r11, %rbp
	shrq	$32, %rbp
	movl	%r11d, %r13d
	shrl	$16, %r13d
	movq	128(%rsp), %rdx
	movq	240(%rsp), %r12
	movq	248(%rsp), %r15
	movl	$0, 368(%rsp)
	movl	$0, 371(%rsp)
	xorl	%ecx, %ecx
	xorl	%eax, %eax
	jmp	263f
9:
	pxor	%xmm1, %xmm1
	movdqa	%xmm1, 1040(%rsp)
	movl	$0, 1072(%rsp)
	movl	$0, 1075(%rsp)
	movl	$0, 320(%rsp)
	movl	$0, 323(%rsp)
	movl	$0, 432(%rsp)
	movl	$0, 435(%rsp)
	movl	$0, 280(%rsp)
	movl	$0, 283(%rsp)
	movdqa	%xmm1, 1120(%rsp)
	movdqa	%xmm1, 1136(%rsp)
	movl	$0, 184(%rsp)
	movl	$0, 187(%rsp)
	cmpb	$3, %al
	jne	21f
	movq	%r8, 40(%rsp)
	movq	%r10, 48(%rsp)
	movq	$0, 1152(%rsp)
	leaq	24(%r15), %rsi
	movq	24(%r15), %rax
	movq	%rax, %rcx
	shrq	$2, %rcx
	movq	$1, 288(%rsp)
	movq	$0, 296(%rsp)
	movq	%rcx, 304(%rsp)
	movq	%rax, 312(%rsp)
	movb	$3, %r14b
	leaq	.L22d5119de29e(%rip), %r13
	movq	$0, 64(%rsp)
10:
	xorl	%edi, %edi
	movq	$0, 80(%rsp)
	movq	$0, 112(%rsp)
11:
	pxor	%xmm0, %xmm0
	movdqa	%xmm0, 704(%rsp)
	movdqa	%xmm0, 688(%rsp)
	movb	$1, %bpl
	xorl	%r8d, %r8d
	movl	$0, %r10d
	movb	$1, %al
	movl	$0, %r11d
	testb	$1, %r9b
	movq	%r12, 120(%rsp)
	jne	134f
	movl	56(%r15), %r11d
	movq	24(%r15), %rax
	subq	%r11, %rax
	setb	%cl
	cmpq	$12, %rax
	setb	%al
	orb	%cl, %al
	movq	288(%rsp), %rcx
	incq	%rcx
	movq	$-1, %rdx
	cmovneq	%rcx, %rdx
	movq	%rdx, 288(%rsp)
	testb	%al, %al
	je	71f
	movw	$3, %r9w
	movl	$1, %r12d
	xorl	%ebp, %ebp
	xorl	%edx, %edx
	jmp	72f
12:
	movl	$0, 208(%rsp)
	movl	$0, 211(%rsp)
	movl	$0, 368(%rsp)
	movl	$0, 371(%rsp)
	movl	$0, 336(%rsp)
	movl	$0, 339(%rsp)
	cmpb	$3, %al
	jne	29f
	movl	%r11d, 80(%rsp)
	movl	%r9d, %r15d
	movq	%r10, 48(%rsp)
	movq	$0, 128(%rsp)
	pxor	%xmm0, %xmm0
	movdqa	%xmm0, 240(%rsp)
	leaq	176(%rsp), %r14
	leaq	.L22d5119de29e(%rip), %r13
	xorl	%ebp, %ebp
13:
	movq	$0, 40(%rsp)
	movq	$0, 120(%rsp)
	xorl	%r12d, %r12d
14:
	movq	%r14, %rdi
	movq	%r12, %rsi
	callq	"mime_lookup::checking::are_one_type"
	testb	%al, %al
	je	61f
	movq	(%r14), %r10
	movq	8(%r14), %r11
15:
	cmpq	$0, 120(%rsp)
	je	17f
	movq	%r14, %rdi
16:
	movq	%r11, %r14
	movq	%r10, %r15
	callq	rattle_dealloc@PLT
	movq	%r15, %r10
	movq	%r14, %r11
17:
	movq	%r11, %r14
	shrq	$48, %r14
	movq	%r11, %rbp
	shrq	$32, %rbp
	movl	%r11d, %r13d
	shrl	$16, %r13d
	movq	128(%rsp), %rdx
	movq	240(%rsp), %r12
	movq	248(%rsp), %r15
	movl	$0, 208(%rsp)
	movl	$0, 211(%rsp)
	xorl	%ecx, %ecx
	xorl	%eax, %eax
	jmp	167f
18:
	pxor	%xmm0, %xmm0
	movdqa	%xmm0, 320(%rsp)
	movl	$0, 280(%rsp)
	movl	$0, 283(%rsp)
	movl	$0, 184(%rsp)
	movl	$0, 187(%rsp)
	movl	$0, 1112(%rsp)
	movl	$0, 1115(%rsp)
	movl	$0, 1104(%rsp)
	movl	$0, 1107(%rsp)
	movdqa	%xmm0, 1248(%rsp)
	movdqa	%xmm0, 1264(%rsp)
	movl	$0, 1096(%rsp)
	movl	$0, 1099(%rsp)
	cmpb	$3, %al
	jne	37f
	movq	$0, 432(%rsp)
	leaq	.L22d5119de29e(%rip), %r13
	xorl	%ebp, %ebp
	cmpq	$40, %r8
	jae	85f
19:
	xorl	%r11d, %r11d
	jmp	88f
20:
	movl	$0, 336(%rsp)
	movl	$0, 339(%rsp)
	movl	$0, 656(%rsp)
	movl	$0, 659(%rsp)
	cmpb	$3, %al
	jne	53f
	movl	%r11d, 80(%rsp)
	movl	%r9d, %r15d
	movq	$0, 144(%rsp)
	movq	$0, 368(%rsp)
	pxor	%xmm0, %xmm0
	movdqa	%xmm0, 208(%rsp)
	leaq	.L22d5119de29e(%rip), %r13
	xorl	%ebp, %ebp
	jmp	103f
21:
	movq	%rbp, %rcx
	cmpq	$32, %rbp
	jb	27f
	movq	%rbp, %rax
22:
	movdqu	-32(%r13,%rax), %xmm1
	movdqu	-16(%r13,%rax), %xmm2
	movdqa	1b(%rip), %xmm0
	pcmpeqb	%xmm0, %xmm1
	pmovmskb	%xmm1, %edx
	pcmpeqb	%xmm0, %xmm2
	pmovmskb	%xmm2, %ecx
	shll	$16, %ecx
	orl	%edx, %ecx
	je	24f
	leaq	-32(%rax), %rsi
	movl	%ecx, %edi
	.p2align	4
23:
	bsrq	%rdi, %rcx
	leaq	(%rcx,%rsi), %rdx
	cmpb	$47, (%r13,%rdx)
	je	64f
	movq	$-2, %rdx
	rolq	%cl, %rdx
	andq	%rdx, %rdi
	jne	23b
24:
	movq	%rax, %rdx
	.p2align	4
25:
	movq	%rdx, %rcx
	leaq	-32(%rdx), %rax
	cmpq	$128, %rax
	jb	26f
	movdqu	-160(%r13,%rcx), %xmm1
	movdqu	-144(%r13,%rcx), %xmm2
	movdqu	-128(%r13,%rcx), %xmm3
	movdqu	-112(%r13,%rcx), %xmm4
	pcmpeqb	%xmm0, %xmm1
	pcmpeqb	%xmm0, %xmm2
	pcmpeqb	%xmm0, %xmm3
	por	%xmm1, %xmm3
	pcmpeqb	%xmm0, %xmm4
	por	%xmm2, %xmm4
	movdqu	-80(%r13,%rcx), %xmm1
	movdqu	-96(%r13,%rcx), %xmm2
	pcmpeqb	%xmm0, %xmm2
	pcmpeqb	%xmm0, %xmm1
	movdqu	-48(%r13,%rcx), %xmm5
	movdqu	-64(%r13,%rcx), %xmm6
	pcmpeqb	%xmm0, %xmm6
	por	%xmm2, %xmm6
	por	%xmm3, %xmm6
	pcmpeqb	%xmm0, %xmm5
	por	%xmm1, %xmm5
	por	%xmm4, %xmm5
	por	%xmm6, %xmm5
	pmovmskb	%xmm5, %esi
	leaq	-128(%rcx), %rdx
	testl	%esi, %esi
	je	25b
26:
	cmpq	$31, %rax
	ja	22b
	addq	$-32, %rcx
27:
	incq	%rcx
	.p2align	4
28:
	cmpq	$1, %rcx
	je	73f
	leaq	-1(%rcx), %rdx
	cmpb	$47, -2(%r13,%rcx)
	movq	%rdx, %rcx
	jne	28b
	subq	%rdx, %rbp
	movq	$0, 1152(%rsp)
	cmpq	$4097, %rbp
	jb	74f
	jmp	177f
29:
	movq	%rbp, %rcx
	cmpq	$32, %rbp
	jb	35f
	movq	%rbp, %rax
30:
	movdqu	-32(%r13,%rax), %xmm1
	movdqu	-16(%r13,%rax), %xmm2
	movdqa	1b(%rip), %xmm0
	pcmpeqb	%xmm0, %xmm1
	pmovmskb	%xmm1, %edx
	pcmpeqb	%xmm0, %xmm2
	pmovmskb	%xmm2, %ecx
	shll	$16, %ecx
	orl	%edx, %ecx
	je	32f
	leaq	-32(%rax), %rsi
	movl	%ecx, %edi
	.p2align	4
31:
	bsrq	%rdi, %rcx
	leaq	(%rcx,%rsi), %rdx
	cmpb	$47, (%r13,%rdx)
	je	65f
	movq	$-2, %rdx
	rolq	%cl, %rdx
	andq	%rdx, %rdi
	jne	31b
32:
	movq	%rax, %rdx
	.p2align	4
33:
	movq	%rdx, %rcx
	leaq	-32(%rdx), %rax
	cmpq	$128, %rax
	jb	34f
	movdqu	-160(%r13,%rcx), %xmm1
	movdqu	-144(%r13,%rcx), %xmm2
	movdqu	-128(%r13,%rcx), %xmm3
	movdqu	-112(%r13,%rcx), %xmm4
	pcmpeqb	%xmm0, %xmm1
	pcmpeqb	%xmm0, %xmm2
	pcmpeqb	%xmm0, %xmm3
	por	%xmm1, %xmm3
	pcmpeqb	%xmm0, %xmm4
	por	%xmm2, %xmm4
	movdqu	-80(%r13,%rcx), %xmm1
	movdqu	-96(%r13,%rcx), %xmm2
	pcmpeqb	%xmm0, %xmm2
	pcmpeqb	%xmm0, %xmm1
	movdqu	-48(%r13,%rcx), %xmm5
	movdqu	-64(%r13,%rcx), %xmm6
	pcmpeqb	%xmm0, %xmm6
	por	%xmm2, %xmm6
	por	%xmm3, %xmm6
	pcmpeqb	%xmm0, %xmm5
	por	%xmm1, %xmm5
	por	%xmm4, %xmm5
	por	%xmm6, %xmm5
	pmovmskb	%xmm5, %esi
	leaq	-128(%rcx), %rdx
	testl	%esi, %esi
	je	33b
34:
	cmpq	$31, %rax
	ja	30b
	addq	$-32, %rcx
35:
	incq	%rcx
	.p2align	4
36:
	cmpq	$1, %rcx
	je	75f
	leaq	-1(%rcx), %rdx
	cmpb	$47, -2(%r13,%rcx)
	movq	%rdx, %rcx
	jne	36b
	jmp	76f
37:
	movq	%rbp, %rcx
	cmpq	$32, %rbp
	jb	43f
	movq	%rbp, %rax
38:
	movdqu	-32(%r13,%rax), %xmm1
	movdqu	-16(%r13,%rax), %xmm2
	movdqa	1b(%rip), %xmm0
	pcmpeqb	%xmm0, %xmm1
	pmovmskb	%xmm1, %edx
	pcmpeqb	%xmm0, %xmm2
	pmovmskb	%xmm2, %ecx
	shll	$16, %ecx
	orl	%edx, %ecx
	je	40f
	leaq	-32(%rax), %rsi
	movl	%ecx, %edi
	.p2align	4
39:
	bsrq	%rdi, %rcx
	leaq	(%rcx,%rsi), %rdx
	cmpb	$47, (%r13,%rdx)
	je	66f
	movq	$-2, %rdx
	rolq	%cl, %rdx
	andq	%rdx, %rdi
	jne	39b
40:
	movq	%rax, %rdx
	.p2align	4
41:
	movq	%rdx, %rcx
	leaq	-32(%rdx), %rax
	cmpq	$128, %rax
	jb	42f
	movdqu	-160(%r13,%rcx), %xmm1
	movdqu	-144(%r13,%rcx), %xmm2
	movdqu	-128(%r13,%rcx), %xmm3
	movdqu	-112(%r13,%rcx), %xmm4
	pcmpeqb	%xmm0, %xmm1
	pcmpeqb	%xmm0, %xmm2
	pcmpeqb	%xmm0, %xmm3
	por	%xmm1, %xmm3
	pcmpeqb	%xmm0, %xmm4
	por	%xmm2, %xmm4
	movdqu	-80(%r13,%rcx), %xmm1
	movdqu	-96(%r13,%rcx), %xmm2
	pcmpeqb	%xmm0, %xmm2
	pcmpeqb	%xmm0, %xmm1
	movdqu	-48(%r13,%rcx), %xmm5
	movdqu	-64(%r13,%rcx), %xmm6
	pcmpeqb	%xmm0, %xmm6
	por	%xmm2, %xmm6
	por	%xmm3, %xmm6
	pcmpeqb	%xmm0, %xmm5
	por	%xmm1, %xmm5
	por	%xmm4, %xmm5
	por	%xmm6, %xmm5
	pmovmskb	%xmm5, %esi
	leaq	-128(%rcx), %rdx
	testl	%esi, %esi
	je	41b
42:
	cmpq	$31, %rax
	ja	38b
	addq	$-32, %rcx
43:
	incq	%rcx
	.p2align	4
44:
	cmpq	$1, %rcx
	je	81f
	leaq	-1(%rcx), %rdx
	cmpb	$47, -2(%r13,%rcx)
	movq	%rdx, %rcx
	jne	44b
	subq	%rdx, %rbp
	movq	$0, 432(%rsp)
	cmpq	$4097, %rbp
	jae	82f
	jmp	84f
45:
	movq	%rbp, %rcx
	cmpq	$32, %rbp
	jb	51f
	movq	%rbp, %rax
46:
	movdqu	-32(%r13,%rax), %xmm1
	movdqu	-16(%r13,%rax), %xmm2
	movdqa	1b(%rip), %xmm0
	pcmpeqb	%xmm0, %xmm1
	pmovmskb	%xmm1, %edx
	pcmpeqb	%xmm0, %xmm2
	pmovmskb	%xmm2, %ecx
	shll	$16, %ecx
	orl	%edx, %ecx
	je	48f
	leaq	-32(%rax), %rsi
	movl	%ecx, %edi
	.p2align	4
47:
	bsrq	%rdi, %rcx
	leaq	(%rcx,%rsi), %rdx
	cmpb	$47, (%r13,%rdx)
	je	67f
	movq	$-2, %rdx
	rolq	%cl, %rdx
	andq	%rdx, %rdi
	jne	47b
48:
	movq	%rax, %rdx
	.p2align	4
49:
	movq	%rdx, %rcx
	leaq	-32(%rdx), %rax
	cmpq	$128, %rax
	jb	50f
	movdqu	-160(%r13,%rcx), %xmm1
	movdqu	-144(%r13,%rcx), %xmm2
	movdqu	-128(%r13,%rcx), %xmm3
	movdqu	-112(%r13,%rcx), %xmm4
	pcmpeqb	%xmm0, %xmm1
	pcmpeqb	%xmm0, %xmm2
	pcmpeqb	%xmm0, %xmm3
	por	%xmm1, %xmm3
	pcmpeqb	%xmm0, %xmm4
	por	%xmm2, %xmm4
	movdqu	-80(%r13,%rcx), %xmm1
	movdqu	-96(%r13,%rcx), %xmm2
	pcmpeqb	%xmm0, %xmm2
	pcmpeqb	%xmm0, %xmm1
	movdqu	-48(%r13,%rcx), %xmm5
	movdqu	-64(%r13,%rcx), %xmm6
	pcmpeqb	%xmm0, %xmm6
	por	%xmm2, %xmm6
	por	%xmm3, %xmm6
	pcmpeqb	%xmm0, %xmm5
	por	%xmm1, %xmm5
	por	%xmm4, %xmm5
	por	%xmm6, %xmm5
	pmovmskb	%xmm5, %esi
	leaq	-128(%rcx), %rdx
	testl	%esi, %esi
	je	49b
50:
	cmpq	$31, %rax
	ja	46b
	addq	$-32, %rcx
51:
	incq	%rcx
	.p2align	4
52:
	cmpq	$1, %rcx
	je	92f
	leaq	-1(%rcx), %rdx
	cmpb	$47, -2(%r13,%rcx)
	movq	%rdx, %rcx
	jne	52b
	jmp	93f
53:
	movq	%rbp, %rcx
	cmpq	$32, %rbp
	jb	59f
	movq	%rbp, %rdx
54:
	movdqu	-32(%r13,%rdx), %xmm1
	movdqu	-16(%r13,%rdx), %xmm2
	movdqa	1b(%rip), %xmm0
	pcmpeqb	%xmm0, %xmm1
	pmovmskb	%xmm1, %esi
	pcmpeqb	%xmm0, %xmm2
	pmovmskb	%xmm2, %ecx
	shll	$16, %ecx
	orl	%esi, %ecx
	je	56f
	leaq	-32(%rdx), %rdi
	movl	%ecx, %r8d
	.p2align	4
55:
	bsrq	%r8, %rcx
	leaq	(%rcx,%rdi), %rsi
	cmpb	$47, (%r13,%rsi)
	je	68f
	movq	$-2, %rsi
	rolq	%cl, %rsi
	andq	%rsi, %r8
	jne	55b
56:
	movq	%rdx, %rsi
	.p2align	4
57:
	movq	%rsi, %rcx
	leaq	-32(%rsi), %rdx
	cmpq	$128, %rdx
	jb	58f
	movdqu	-160(%r13,%rcx), %xmm1
	movdqu	-144(%r13,%rcx), %xmm2
	movdqu	-128(%r13,%rcx), %xmm3
	movdqu	-112(%r13,%rcx), %xmm4
	pcmpeqb	%xmm0, %xmm1
	pcmpeqb	%xmm0, %xmm2
	pcmpeqb	%xmm0, %xmm3
	por	%xmm1, %xmm3
	pcmpeqb	%xmm0, %xmm4
	por	%xmm2, %xmm4
	movdqu	-80(%r13,%rcx), %xmm1
	movdqu	-96(%r13,%rcx), %xmm2
	pcmpeqb	%xmm0, %xmm2
	pcmpeqb	%xmm0, %xmm1
	movdqu	-48(%r13,%rcx), %xmm5
	movdqu	-64(%r13,%rcx), %xmm6
	pcmpeqb	%xmm0, %xmm6
	por	%xmm2, %xmm6
	por	%xmm3, %xmm6
	pcmpeqb	%xmm0, %xmm5
	por	%xmm1, %xmm5
	por	%xmm4, %xmm5
	por	%xmm6, %xmm5
	pmovmskb	%xmm5, %edi
	leaq	-128(%rcx), %rsi
	testl	%edi, %edi
	je	57b
58:
	cmpq	$31, %rdx
	ja	54b
	addq	$-32, %rcx
59:
	incq	%rcx
	.p2align	4
60:
	cmpq	$1, %rcx
	je	98f
	leaq	-1(%rcx), %rsi
	cmpb	$47, -2(%r13,%rcx)
	movq	%rsi, %rcx
	jne	60b
	jmp	99f
61:
	pxor	%xmm0, %xmm0
	movdqa	%xmm0, 688(%rsp)
	movdqa	%xmm0, 704(%rsp)
	movdqa	%xmm0, 448(%rsp)
	movq	$0, 464(%rsp)
	testb	$1, %r15b
	jne	69f
	movq	%rbp, 64(%rsp)
	movq	48(%rsp), %rbp
	movq	384(%rbp), %rsi
	leaq	688(%rsp), %rdi
	leaq	128(%rsp), %rdx
	callq	"mime_lookup::reading::read_front::<#a8511e052651c5eb>"
	movq	696(%rsp), %r15
	cmpb	$0, 688(%rsp)
	je	117f
	leaq	381f(%rip), %r12
	cmpq	$0, 120(%rsp)
	je	163f
	movq	%r14, %rdi
	callq	rattle_dealloc@PLT
	movzbl	%r15b, %eax
	movslq	(%r12,%rax,4), %rax
	addq	%r12, %rax
	jmpq	*%rax
62:
	pxor	%xmm0, %xmm0
	movdqa	%xmm0, 704(%rsp)
	movdqa	%xmm0, 688(%rsp)
	testb	$1, %r14b
	movq	%rbp, 64(%rsp)
	jne	70f
	movq	%r12, 56(%rsp)
	movq	80(%r15), %r14
	testq	%r14, %r14
	je	122f
	movq	%r15, %rbp
	movq	72(%r15), %r15
	addq	$64, %r15
	xorl	%eax, %eax
	.p2align	4
63:
	movq	%rax, %r12
	movq	-8(%r15), %rdi
	movq	(%r15), %rsi
	callq	"mime_base::magic::extent::lines_extent"
	cmpq	%rax, %r12
	cmovaq	%r12, %rax
	addq	$80, %r15
	decq	%r14
	jne	63b
	cmpq	$129, %rax
	movl	$128, %esi
	cmovaeq	%rax, %rsi
	movq	%rbp, %r14
	jmp	123f
64:
	incq	%rdx
	subq	%rdx, %rbp
	movq	$0, 1152(%rsp)
	cmpq	$4097, %rbp
	jb	74f
	jmp	177f
65:
	incq	%rdx
	jmp	76f
66:
	incq	%rdx
	subq	%rdx, %rbp
	movq	$0, 432(%rsp)
	cmpq	$4097, %rbp
	jae	82f
	jmp	84f
67:
	incq	%rdx
	jmp	93f
68:
	incq	%rsi
	jmp	99f
69:
	leaq	.L67248b46a1a0(%rip), %r10
	movl	$24, %r11d
	xorl	%edx, %edx
	xorl	%esi, %esi
	jmp	119f
70:
	movq	%r15, 48(%rsp)
	leaq	.L67248b46a1a0(%rip), %r10
	movl	$24, %r11d
	xorl	%r15d, %r15d
	xorl	%ebp, %ebp
	jmp	253f
71:
	movdqa	%xmm1, 160(%rsp)
	movq	%rdi, 72(%rsp)
	movq	%rsi, 56(%rsp)
	movb	%r9b, 39(%rsp)
	movq	16(%r15), %rax
	movl	4(%rax,%r11), %eax
	bswapl	%eax
	cmpl	$129, %eax
	movl	$128, %esi
	cmovael	%eax, %esi
	leaq	688(%rsp), %rdi
	leaq	1152(%rsp), %rdx
	callq	"mime_lookup::reading::read_front::<#a8511e052651c5eb>"
	movq	696(%rsp), %r12
	movzwl	704(%rsp), %r9d
	movq	712(%rsp), %r11
	cmpb	$0, 688(%rsp)
	je	133f
	movl	706(%rsp), %ebp
	movl	%ebp, %edx
	shrl	$16, %edx
	movq	72(%rsp), %rdi
	movdqa	160(%rsp), %xmm1
72:
	movzbl	%r14b, %eax
	leal	-2(%rax), %ecx
	cmpl	$2, %ecx
	movq	48(%rsp), %r15
	jb	152f
	cmpl	$1, %eax
	jne	116f
	cmpl	$1, 80(%rsp)
	jne	152f
	pextrq	$1, %xmm1, %rax
	testq	%rax, %rax
	je	152f
	movq	%r15, 48(%rsp)
	movq	%r11, %r15
	movq	%r9, %r13
	movq	%rdx, %r14
	callq	rattle_dealloc@PLT
	movq	%r14, %rdx
	movq	%r13, %r9
	movq	%r15, %r11
	movq	48(%rsp), %r15
	movzbl	%r12b, %eax
	leaq	376f(%rip), %rcx
	movslq	(%rcx,%rax,4), %rax
	addq	%rcx, %rax
	jmpq	*%rax
73:
	xorl	%edx, %edx
	subq	%rdx, %rbp
	movq	$0, 1152(%rsp)
	cmpq	$4097, %rbp
	jae	177f
74:
	addq	%rdx, %r13
	leaq	24(%r15), %rsi
	movq	24(%r15), %rcx
	movq	%rcx, %rdi
	shrq	$2, %rdi
	movq	$1, 288(%rsp)
	movq	$0, 296(%rsp)
	leaq	304(%rsp), %rax
	movq	%rdi, 304(%rsp)
	movq	%rcx, 312(%rsp)
	cmpl	$2, %r11d
	movq	%r8, 40(%rsp)
	je	111f
	cmpl	$1, %r11d
	jne	113f
	movq	%r10, 48(%rsp)
	movq	%rbp, 64(%rsp)
	pxor	%xmm1, %xmm1
	movb	$2, %r14b
	jmp	10b
75:
	xorl	%edx, %edx
76:
	subq	%rdx, %rbp
	movq	$0, 128(%rsp)
	pxor	%xmm0, %xmm0
	movdqa	%xmm0, 240(%rsp)
	cmpq	$4097, %rbp
	jb	79f
77:
	movl	$0, 371(%rsp)
	movl	$0, 368(%rsp)
	movb	$2, %al
78:
	xorl	%ecx, %ecx
	jmp	166f
79:
	movl	%r9d, %r15d
	addq	%rdx, %r13
	movq	(%r10), %rax
	movl	%r11d, 80(%rsp)
	movl	%r11d, %ecx
	leaq	380f(%rip), %rdx
	movslq	(%rdx,%rcx,4), %rcx
	addq	%rdx, %rcx
	jmpq	*%rcx
80:
	movq	%r10, 48(%rsp)
	leaq	176(%rsp), %r14
	jmp	13b
81:
	xorl	%edx, %edx
	subq	%rdx, %rbp
	movq	$0, 432(%rsp)
	cmpq	$4097, %rbp
	jb	84f
82:
	movl	1112(%rsp), %eax
	movl	1115(%rsp), %ecx
	movl	%ecx, 187(%rsp)
	movl	%eax, 184(%rsp)
	movb	$2, %al
83:
	xorl	%r10d, %r10d
	xorl	%r11d, %r11d
	xorl	%r13d, %r13d
	xorl	%ebp, %ebp
	xorl	%r14d, %r14d
	xorl	%r8d, %r8d
	xorl	%ecx, %ecx
	jmp	90f
84:
	addq	%rdx, %r13
	cmpq	$40, %r8
	jb	19b
85:
	movl	(%r15), %eax
	cmpl	$33554688, %eax
	bswapl	%eax
	jne	87f
	movl	%r11d, %edx
	movl	$2, %r11d
	cmpq	$268435456, %r8
	ja	88f
	movb	%r14b, 56(%rsp)
	movdqu	20(%r15), %xmm0
	movdqa	2b(%rip), %xmm1
	pshufb	%xmm1, %xmm0
	movl	36(%r15), %ecx
	bswapl	%ecx
	movdqu	4(%r15), %xmm2
	pshufb	%xmm1, %xmm2
	movq	%r15, 448(%rsp)
	movq	%r8, 456(%rsp)
	leaq	464(%rsp), %r14
	movq	%r15, 464(%rsp)
	movq	%r8, 472(%rsp)
	movl	%eax, 480(%rsp)
	movdqu	%xmm2, 484(%rsp)
	movdqu	%xmm0, 500(%rsp)
	movl	%ecx, 516(%rsp)
	pxor	%xmm0, %xmm0
	movdqu	%xmm0, 520(%rsp)
	movdqu	%xmm0, 536(%rsp)
	movdqu	%xmm0, 552(%rsp)
	movdqu	%xmm0, 568(%rsp)
	movq	%r8, %rcx
	shrq	$2, %rcx
	movq	$1, 400(%rsp)
	movq	$0, 408(%rsp)
	leaq	416(%rsp), %rax
	movq	%rcx, 416(%rsp)
	movq	%r8, 424(%rsp)
	movl	%edx, %ecx
	leaq	377f(%rip), %rdx
	movslq	(%rdx,%rcx,4), %rcx
	addq	%rdx, %rcx
	movq	%r10, 48(%rsp)
	movq	%r12, 120(%rsp)
	jmpq	*%rcx
86:
	movb	%r9b, 39(%rsp)
	movdqa	%xmm0, 256(%rsp)
	movdqa	%xmm0, 240(%rsp)
	movq	$0, 272(%rsp)
	movdqa	%xmm0, 720(%rsp)
	movdqa	%xmm0, 704(%rsp)
	movdqa	%xmm0, 688(%rsp)
	movq	%rax, (%rsp)
	leaq	688(%rsp), %rdi
	leaq	400(%rsp), %r9
	movq	%r14, %rsi
	movq	%r13, %rdx
	movq	%rbp, %rcx
	xorl	%r8d, %r8d
	callq	"mime_view::cache::Cache::glob_hits"
	movzbl	696(%rsp), %r15d
	movq	704(%rsp), %rcx
	cmpb	$0, 688(%rsp)
	jne	185f
	movzbl	%r15b, %eax
	movq	728(%rsp), %rdx
	movq	%rax, 208(%rsp)
	movq	%rcx, 216(%rsp)
	movdqu	712(%rsp), %xmm0
	movdqu	%xmm0, 224(%rsp)
	testb	%al, %al
	movq	224(%rsp), %r8
	movl	$1, %esi
	cmovneq	%r8, %rsi
	testq	%rsi, %rsi
	movq	%rax, 72(%rsp)
	movq	%rdx, 104(%rsp)
	je	306f
	movb	%r15b, 40(%rsp)
	testb	%r15b, %r15b
	je	334f
	movq	%r8, 160(%rsp)
	movq	%rbp, 64(%rsp)
	movq	%rcx, 80(%rsp)
	leaq	8(%rcx), %rbp
	movq	%rsi, 192(%rsp)
	movq	%rsi, %r15
	jmp	157f
87:
	movl	%eax, %ecx
	andl	$-65536, %ecx
	movzwl	%ax, %eax
	shlq	$32, %rax
	leaq	(%rax,%rcx), %r11
	incq	%r11
88:
	movq	%r11, %rbp
	shrq	$32, %rbp
	movl	%r11d, %r13d
	shrl	$16, %r13d
	xorl	%ecx, %ecx
89:
	movzbl	%r11b, %eax
	movw	%ax, 320(%rsp)
	movw	%r13w, 322(%rsp)
	movw	%bp, 324(%rsp)
	movq	%rcx, 328(%rsp)
	leaq	1248(%rsp), %rdi
	leaq	320(%rsp), %rcx
	movq	%r10, %rsi
	movq	%r12, %rdx
	callq	"mime_tool::cache::faulty"
	movzbl	1248(%rsp), %eax
	movq	1256(%rsp), %r10
	movzwl	1264(%rsp), %r11d
	movzwl	1266(%rsp), %r13d
	movzwl	1268(%rsp), %ebp
	movzwl	1270(%rsp), %r14d
	movzbl	1272(%rsp), %r8d
	movl	1273(%rsp), %ecx
	movl	%ecx, 184(%rsp)
	movl	1276(%rsp), %ecx
	movl	%ecx, 187(%rsp)
	movl	$1, %ecx
90:
	movl	184(%rsp), %edx
	movl	187(%rsp), %esi
	movl	%esi, 283(%rsp)
	movl	%edx, 280(%rsp)
	xorl	%r12d, %r12d
	xorl	%r15d, %r15d
	xorl	%edx, %edx
91:
	movl	280(%rsp), %esi
	movl	283(%rsp), %edi
	jmp	242f
92:
	xorl	%edx, %edx
93:
	subq	%rdx, %rbp
	movq	%r10, 208(%rsp)
	movq	$0, 128(%rsp)
	pxor	%xmm0, %xmm0
	movdqa	%xmm0, 240(%rsp)
	cmpq	$4097, %rbp
	jb	96f
94:
	movl	$0, 339(%rsp)
	movl	$0, 336(%rsp)
	movb	$2, %al
95:
	xorl	%ecx, %ecx
	jmp	262f
96:
	addq	%rdx, %r13
	movdqa	%xmm0, 688(%rsp)
	movdqa	%xmm0, 704(%rsp)
	movq	$0, 720(%rsp)
	movdqa	%xmm0, 448(%rsp)
	movdqa	%xmm0, 464(%rsp)
	movl	%r11d, %eax
	leaq	385f(%rip), %rcx
	movslq	(%rcx,%rax,4), %rax
	addq	%rcx, %rax
	movl	%r11d, 80(%rsp)
	jmpq	*%rax
97:
	movq	%r10, %r15
	movl	%r9d, %r14d
	jmp	4b
98:
	xorl	%esi, %esi
99:
	subq	%rsi, %rbp
	movq	$0, 144(%rsp)
	movq	$0, 368(%rsp)
	pxor	%xmm0, %xmm0
	movdqa	%xmm0, 208(%rsp)
	cmpq	$4097, %rbp
	jb	102f
100:
	movl	$0, 691(%rsp)
	movl	$0, 688(%rsp)
	movb	$2, %al
101:
	xorl	%ecx, %ecx
	jmp	105f
102:
	movl	%r11d, 80(%rsp)
	movl	%r9d, %r15d
	addq	%rsi, %r13
103:
	movq	%r13, 128(%rsp)
	movq	%rbp, 136(%rsp)
	movb	%al, 145(%rsp)
	movdqa	%xmm0, 704(%rsp)
	movdqa	%xmm0, 688(%rsp)
	movq	$0, 720(%rsp)
	leaq	688(%rsp), %rdi
	leaq	128(%rsp), %rdx
	leaq	208(%rsp), %rcx
	movq	%r10, %rsi
	movq	%r10, %r14
	callq	"mime_lookup::checking::named_kinds::<#fc24442ab780ff68>"
	cmpb	$0, 688(%rsp)
	je	106f
104:
	movl	656(%rsp), %eax
	movl	659(%rsp), %ecx
	movl	%ecx, 691(%rsp)
	movl	%eax, 688(%rsp)
	movb	$2, %al
	movl	$1, %ecx
105:
	movl	688(%rsp), %edx
	movl	691(%rsp), %esi
	movl	%esi, 339(%rsp)
	movl	%edx, 336(%rsp)
	xorl	%r10d, %r10d
	xorl	%r11d, %r11d
	xorl	%r13d, %r13d
	xorl	%ebp, %ebp
	xorl	%r14d, %r14d
	xorl	%r12d, %r12d
	xorl	%r15d, %r15d
	xorl	%edx, %edx
	jmp	109f
106:
	movq	%r14, 48(%rsp)
	movq	696(%rsp), %r14
	movq	704(%rsp), %rsi
	movq	712(%rsp), %r12
	movq	720(%rsp), %rax
	movq	%rax, 40(%rsp)
	movq	%r14, %rdi
	movq	%rsi, 120(%rsp)
	callq	"mime_lookup::checking::are_one_type"
	testb	%al, %al
	je	110f
	movq	(%r14), %r10
	movq	8(%r14), %r11
	testq	%r12, %r12
	je	108f
107:
	movq	%r14, %rdi
	movq	%r11, %r14
	movq	%r10, %r15
	callq	rattle_dealloc@PLT
	movq	%r15, %r10
	movq	%r14, %r11
108:
	movq	%r11, %r14
	shrq	$48, %r14
	movq	%r11, %rbp
	shrq	$32, %rbp
	movl	%r11d, %r13d
	shrl	$16, %r13d
	movq	368(%rsp), %rdx
	movq	208(%rsp), %r12
	movq	216(%rsp), %r15
	movl	$0, 336(%rsp)
	movl	$0, 339(%rsp)
	xorl	%ecx, %ecx
	xorl	%eax, %eax
109:
	movl	336(%rsp), %esi
	movl	339(%rsp), %edi
	jmp	264f
110:
	movq	%r12, 56(%rsp)
	pxor	%xmm0, %xmm0
	movdqa	%xmm0, 448(%rsp)
	movdqa	%xmm0, 464(%rsp)
	movdqa	%xmm0, 240(%rsp)
	movq	$0, 256(%rsp)
	testb	$1, %r15b
	jne	115f
	movq	%r14, 160(%rsp)
	movq	48(%rsp), %rax
	cmpb	$1, 584(%rax)
	jne	170f
	movq	768(%rax), %rsi
	jmp	208f
111:
	movq	%rsi, 56(%rsp)
	pxor	%xmm0, %xmm0
	movdqa	%xmm0, 720(%rsp)
	movdqa	%xmm0, 704(%rsp)
	movdqa	%xmm0, 688(%rsp)
	movq	$0, 736(%rsp)
	cmpb	$1, 72(%r15)
	movq	%r12, 120(%rsp)
	movb	%r9b, 39(%rsp)
	movq	%r15, 104(%rsp)
	jne	159f
	leaq	16(%r15), %rsi
	movq	80(%r15), %r8
	testb	$1, %r9b
	jne	112f
	cmpb	$1, 88(%r15)
	jne	231f
112:
	movq	%r10, %r14
	movb	$1, %al
	cmpb	$1, 104(%r15)
	jne	232f
	movabsq	$-6148914691236517205, %rdx
	movq	%rcx, %rax
	mulq	%rdx
	shrq	$2, %rdx
	shrq	$4, %rcx
	addq	%rdx, %rcx
	movq	112(%r15), %rax
	xorl	%edx, %edx
	subq	336(%rax), %rdi
	cmovaeq	%rdi, %rdx
	cmpq	%rcx, %rdx
	movb	$2, %al
	sbbb	$0, %al
	jmp	232f
113:
	movq	%rsi, 56(%rsp)
	pxor	%xmm0, %xmm0
	movdqa	%xmm0, 720(%rsp)
	movdqa	%xmm0, 704(%rsp)
	movdqa	%xmm0, 688(%rsp)
	movq	$0, 736(%rsp)
	cmpb	$1, 72(%r15)
	movq	%r12, 120(%rsp)
	movb	%r9b, 39(%rsp)
	movq	%r15, 104(%rsp)
	jne	161f
	leaq	16(%r15), %rsi
	movq	80(%r15), %r8
	testb	$1, %r9b
	jne	114f
	cmpb	$1, 88(%r15)
	jne	234f
114:
	movq	%r10, %r14
	movb	$1, %al
	cmpb	$1, 104(%r15)
	jne	235f
	movabsq	$-6148914691236517205, %rdx
	movq	%rcx, %rax
	mulq	%rdx
	shrq	$2, %rdx
	shrq	$4, %rcx
	addq	%rdx, %rcx
	movq	112(%r15), %rax
	xorl	%edx, %edx
	subq	336(%rax), %rdi
	cmovaeq	%rdi, %rdx
	cmpq	%rcx, %rdx
	movb	$2, %al
	sbbb	$0, %al
	jmp	235f
115:
	leaq	.L67248b46a1a0(%rip), %r10
	movl	$24, %r11d
	xorl	%edi, %edi
	xorl	%r8d, %r8d
	movq	48(%rsp), %rsi
	jmp	211f
116:
	cmpl	$1, 80(%rsp)
	jne	152f
	pextrq	$1, %xmm1, %rax
	testq	%rax, %rax
	je	152f
	movq	%r15, 48(%rsp)
	movq	%r11, %r15
	movq	%r9, %r13
	movq	%rdx, %r14
	callq	rattle_dealloc@PLT
	movq	%r14, %rdx
	movq	%r13, %r9
	movq	%r15, %r11
	movq	48(%rsp), %r15
	movzbl	%r12b, %eax
	leaq	376f(%rip), %rcx
	movslq	(%rcx,%rax,4), %rax
	addq	%rcx, %rax
	jmpq	*%rax
117:
	movq	704(%rsp), %rcx
	movq	712(%rsp), %rax
	movq	%rax, 160(%rsp)
	leaq	448(%rsp), %rdi
	leaq	240(%rsp), %r9
	movq	%rbp, %rsi
	movq	%r15, %rdx
	xorl	%r8d, %r8d
	callq	"mime_lookup::sniff::sniff::<#ccf1bcb0588da832>"
	movq	448(%rsp), %r10
	movq	456(%rsp), %r11
	movzbl	464(%rsp), %esi
	movzbl	465(%rsp), %edx
	cmpq	$0, 160(%rsp)
	je	118f
	movq	%r15, %rdi
	movq	%r11, 160(%rsp)
	movq	%r10, %rbp
	movl	%edx, 56(%rsp)
	movl	%esi, %r15d
	callq	rattle_dealloc@PLT
	movl	%r15d, %esi
	movl	56(%rsp), %edx
	movq	%rbp, %r10
	movq	160(%rsp), %r11
118:
	movq	64(%rsp), %rbp
119:
	movl	80(%rsp), %eax
	leaq	382f(%rip), %rcx
	movslq	(%rcx,%rax,4), %rax
	addq	%rcx, %rax
	jmpq	*%rax
120:
	testb	$1, %sil
	jne	15b
	movq	%r10, 80(%rsp)
	movq	%r11, %r15
	movq	48(%rsp), %rax
	movq	(%rax), %rax
	pxor	%xmm0, %xmm0
	movdqa	%xmm0, 688(%rsp)
	movdqa	%xmm0, 704(%rsp)
	movq	%rax, 448(%rsp)
	leaq	688(%rsp), %rdi
	leaq	448(%rsp), %rsi
	leaq	240(%rsp), %r8
	movq	%r13, %rdx
	movq	%rbp, %rcx
	callq	"mime_lookup::lists::ListsAsked::kept_kinds"
	movzbl	688(%rsp), %eax
	movq	696(%rsp), %r13
	movq	704(%rsp), %r12
	movq	712(%rsp), %rbp
	cmpq	$0, 120(%rsp)
	je	121f
	movq	%r14, %rdi
	movl	%eax, %r14d
	callq	rattle_dealloc@PLT
	movl	%r14d, %eax
121:
	testb	%al, %al
	movq	48(%rsp), %rax
	movq	%r15, %r11
	movq	80(%rsp), %r10
	jne	165f
	jmp	155f
122:
	movq	%r15, %r14
	movl	$128, %esi
123:
	leaq	688(%rsp), %rdi
	leaq	128(%rsp), %rdx
	callq	"mime_lookup::reading::read_front::<#a8511e052651c5eb>"
	movq	696(%rsp), %r12
	cmpb	$0, 688(%rsp)
	je	124f
	cmpq	$0, 120(%rsp)
	je	168f
	movq	56(%rsp), %rdi
	callq	rattle_dealloc@PLT
	movzbl	%r12b, %eax
	leaq	386f(%rip), %rcx
	movslq	(%rcx,%rax,4), %rax
	addq	%rcx, %rax
	jmpq	*%rax
124:
	movq	712(%rsp), %rax
	movq	%rax, 112(%rsp)
	movq	704(%rsp), %r15
	movq	%r14, 48(%rsp)
	movq	80(%r14), %r14
	testq	%r14, %r14
	je	126f
	movq	48(%rsp), %rax
	movq	72(%rax), %rbp
	addq	$48, %rbp
125:
	movq	8(%rbp), %rdi
	movq	16(%rbp), %rsi
	leaq	240(%rsp), %r9
	movq	%r12, %rdx
	movq	%r15, %rcx
	xorl	%r8d, %r8d
	callq	"mime_base::magic::holding::some_line_matches"
	testb	%al, %al
	jne	193f
	addq	$80, %rbp
	decq	%r14
	jne	125b
126:
	testq	%r15, %r15
	je	195f
	cmpq	$128, %r15
	movl	$128, %eax
	cmovbq	%r15, %rax
	xorl	%ecx, %ecx
	movq	112(%rsp), %rdi
	jmp	128f
127:
	incq	%rcx
	cmpq	%rcx, %rax
	je	192f
128:
	movzbl	(%r12,%rcx), %edx
	cmpl	$31, %edx
	ja	127b
	leaq	.L67248b46a1a0(%rip), %r10
	movl	$24, %r11d
	cmpl	$13, %edx
	ja	196f
	movl	$9728, %esi
	btl	%edx, %esi
	jb	127b
	jmp	196f
129:
	movq	%r10, %r14
	movdqa	%xmm0, 688(%rsp)
	movdqa	%xmm0, 704(%rsp)
	movq	%rax, 448(%rsp)
	leaq	688(%rsp), %rdi
	leaq	448(%rsp), %rsi
	leaq	240(%rsp), %r8
	movq	%r13, %rdx
	movq	%rbp, %rcx
	callq	"mime_lookup::lists::ListsAsked::kept_kinds"
	cmpb	$0, 688(%rsp)
	jne	165f
	movq	%r14, 48(%rsp)
	movq	696(%rsp), %r14
	movq	704(%rsp), %r12
	movq	712(%rsp), %rax
	movq	%rax, 120(%rsp)
	movq	%r12, 40(%rsp)
	jmp	14b
130:
	movq	%r10, %r14
	movdqa	%xmm0, 688(%rsp)
	movdqa	%xmm0, 704(%rsp)
	movq	$0, 720(%rsp)
	movq	%rax, 448(%rsp)
	leaq	688(%rsp), %rdi
	leaq	448(%rsp), %rsi
	leaq	240(%rsp), %r8
	movq	%r13, %rdx
	movq	%rbp, %rcx
	callq	"mime_lookup::lists::ListsAsked::candidate_kinds"
	cmpb	$0, 688(%rsp)
	jne	165f
	movq	%r14, 48(%rsp)
	movq	696(%rsp), %r14
	movq	704(%rsp), %r12
	movq	712(%rsp), %rax
	movq	%rax, 120(%rsp)
	movq	720(%rsp), %rax
	movq	%rax, 40(%rsp)
	jmp	14b
131:
	movq	%r10, %r15
	movl	%r9d, %r14d
	leaq	448(%rsp), %rdi
	leaq	208(%rsp), %rsi
	leaq	240(%rsp), %r8
	movq	%r13, %rdx
	movq	%rbp, %rcx
	callq	"mime_lookup::lists::ListsAsked::kept_kinds"
	cmpb	$0, 448(%rsp)
	jne	261f
	movq	456(%rsp), %r12
	movq	464(%rsp), %rsi
	movq	472(%rsp), %rax
	movq	%rax, 120(%rsp)
	movq	%rsi, 160(%rsp)
	jmp	5b
132:
	movq	%r10, %r15
	movl	%r9d, %r14d
	leaq	688(%rsp), %rdi
	leaq	208(%rsp), %rsi
	leaq	240(%rsp), %r8
	movq	%r13, %rdx
	movq	%rbp, %rcx
	callq	"mime_lookup::lists::ListsAsked::candidate_kinds"
	movq	704(%rsp), %rsi
	movq	720(%rsp), %rax
	cmpq	%rax, %rsi
	cmovbq	%rsi, %rax
	cmpb	$0, 688(%rsp)
	jne	261f
	movq	%rax, 160(%rsp)
	movq	696(%rsp), %r12
	movq	712(%rsp), %rax
	movq	%rax, 120(%rsp)
	jmp	5b
133:
	movzwl	%r9w, %eax
	movzwl	708(%rsp), %ecx
	movzwl	710(%rsp), %edx
	shlq	$48, %rdx
	shlq	$32, %rcx
	orq	%rax, %rcx
	movzwl	706(%rsp), %r10d
	shll	$16, %r10d
	orq	%rcx, %r10
	orq	%rdx, %r10
	testq	%r11, %r11
	sete	%al
	movl	$1, %r8d
	movq	%r12, %r11
	movzbl	39(%rsp), %r9d
	movq	56(%rsp), %rsi
	movq	72(%rsp), %rdi
	movdqa	160(%rsp), %xmm1
	pxor	%xmm0, %xmm0
134:
	movb	%al, 56(%rsp)
	movdqa	%xmm0, 240(%rsp)
	movdqa	%xmm0, 256(%rsp)
	movdqa	%xmm0, 128(%rsp)
	movdqa	%xmm0, 144(%rsp)
	movdqa	%xmm0, 1216(%rsp)
	movq	$0, 1232(%rsp)
	movdqa	%xmm0, 208(%rsp)
	movdqa	%xmm0, 224(%rsp)
	movdqa	%xmm0, 1184(%rsp)
	movq	$0, 1200(%rsp)
	movdqa	%xmm0, 368(%rsp)
	movdqa	%xmm0, 384(%rsp)
	movdqa	%xmm0, 624(%rsp)
	movq	$0, 640(%rsp)
	movdqa	%xmm0, 352(%rsp)
	movdqa	%xmm0, 336(%rsp)
	movdqa	%xmm0, 592(%rsp)
	movq	$0, 608(%rsp)
	movq	$0, 680(%rsp)
	movzbl	%r14b, %r12d
	cmpb	$2, %r12b
	movq	%r11, 72(%rsp)
	jae	135f
	cmpq	$0, 80(%rsp)
	je	136f
	movq	%xmm1, %rax
	testq	%rax, %rax
	je	138f
	jmp	136f
135:
	cmpl	$2, %r12d
	jne	138f
	testb	$1, 72(%r15)
	jne	138f
136:
	cmpb	$1, 104(%r15)
	jne	137f
	movq	24(%r15), %rcx
	movq	%rdi, %r11
	movq	%rsi, %rdi
	movq	112(%r15), %rsi
	movabsq	$-6148914691236517205, %rdx
	movq	%rcx, %rax
	mulq	%rdx
	shrq	$2, %rdx
	shrq	$4, %rcx
	addq	%rdx, %rcx
	movq	304(%rsp), %rax
	xorl	%edx, %edx
	subq	336(%rsi), %rax
	movq	%rdi, %rsi
	movq	%r11, %rdi
	movq	72(%rsp), %r11
	cmovaeq	%rax, %rdx
	cmpq	%rdx, %rcx
	setbe	%bpl
	jmp	138f
137:
	xorl	%ebp, %ebp
138:
	movdqa	%xmm0, 688(%rsp)
	movdqa	%xmm0, 704(%rsp)
	movq	$0, 720(%rsp)
	movdqa	%xmm0, 448(%rsp)
	movdqa	%xmm0, 464(%rsp)
	testb	$1, %r9b
	jne	140f
	movdqa	%xmm1, 160(%rsp)
	movq	%rdi, %r14
	cmpb	$1, 88(%r15)
	jne	139f
	testb	%bpl, %bpl
	je	139f
	movq	(%rsi), %rax
	shrq	$4, %rax
	cmpq	304(%rsp), %rax
	jbe	191f
139:
	leaq	16(%r15), %rsi
	movq	%r8, 1248(%rsp)
	movq	%r11, 1256(%rsp)
	movq	%r10, 1264(%rsp)
	leaq	688(%rsp), %rdi
	leaq	1248(%rsp), %rdx
	leaq	288(%rsp), %r8
	xorl	%ecx, %ecx
	callq	"mime_lookup::cached::sniff::sniff_front"
	cmpb	$0, 688(%rsp)
	movzbl	696(%rsp), %r9d
	movq	704(%rsp), %r11
	je	142f
	movzwl	698(%rsp), %ebp
	movzwl	700(%rsp), %edx
	leal	-2(%r12), %eax
	cmpl	$2, %eax
	jae	158f
	movq	48(%rsp), %r15
	movzbl	56(%rsp), %ecx
	cmpw	$7, %r9w
	je	175f
	jmp	151f
140:
	movb	$1, %cl
	xorl	%eax, %eax
	leaq	.L67248b46a1a0(%rip), %r11
	movl	$24, %ebp
141:
	movzbl	%cl, %r9d
	leaq	375f(%rip), %rcx
	movslq	(%rcx,%r12,4), %rdx
	addq	%rcx, %rdx
	movq	64(%rsp), %rcx
	jmpq	*%rdx
142:
	movl	720(%rsp), %eax
	movq	712(%rsp), %rbp
	leaq	375f(%rip), %rcx
	movslq	(%rcx,%r12,4), %rdx
	addq	%rcx, %rdx
	movq	64(%rsp), %rcx
	movq	%r14, %rdi
	movdqa	160(%rsp), %xmm1
	jmpq	*%rdx
143:
	movdqa	%xmm1, 160(%rsp)
	movq	80(%rsp), %r14
	movq	%r14, 240(%rsp)
	leaq	248(%rsp), %rdx
	movq	%rdi, 248(%rsp)
	movdqa	%xmm1, 256(%rsp)
	testq	%r14, %r14
	movq	%rdi, %r12
	cmovneq	%rdi, %rdx
	movq	%xmm1, %rsi
	movl	$1, %ecx
	cmovneq	%rsi, %rcx
	movq	%r9, 208(%rsp)
	movq	%r11, 216(%rsp)
	movq	%rbp, 224(%rsp)
	movl	%eax, 232(%rsp)
	leaq	1216(%rsp), %rdi
	leaq	208(%rsp), %r8
	leaq	288(%rsp), %r9
	movq	%r15, %rsi
	callq	"mime_lookup::cached::by_content::choose"
	movzwl	1224(%rsp), %esi
	movzwl	1226(%rsp), %ebp
	movzwl	1228(%rsp), %edx
	movq	1232(%rsp), %r11
	cmpq	$1, %r14
	setne	%cl
	movdqa	160(%rsp), %xmm0
	pextrq	$1, %xmm0, %rax
	testq	%rax, %rax
	sete	%al
	orb	%cl, %al
	cmpb	$0, 1216(%rsp)
	movq	48(%rsp), %r15
	jne	149f
	movl	%ebp, 48(%rsp)
	movzwl	1230(%rsp), %r15d
	jmp	183f
144:
	movq	%r15, %rsi
	testq	%r9, %r9
	movq	48(%rsp), %r15
	jne	172f
	cmpl	$80, %eax
	jb	172f
	movq	%r9, 336(%rsp)
	movq	%r11, 344(%rsp)
	movq	%rbp, 352(%rsp)
	movl	%eax, 360(%rsp)
	leaq	624(%rsp), %rdi
	leaq	336(%rsp), %rdx
	leaq	288(%rsp), %rcx
	callq	"mime_lookup::cached::sniff::unalias"
	movzwl	632(%rsp), %esi
	movzwl	634(%rsp), %ebp
	movzwl	636(%rsp), %edx
	movq	640(%rsp), %r11
	cmpb	$0, 624(%rsp)
	jne	173f
	movl	%ebp, 48(%rsp)
	movzwl	638(%rsp), %r15d
	jmp	222f
145:
	movq	%r15, %rsi
	testq	%r9, %r9
	movq	48(%rsp), %r15
	jne	146f
	cmpb	$1, 72(%rsi)
	jne	226f
	movl	$192, %edi
	addq	80(%rsi), %rdi
	movq	%r11, %rsi
	movq	%rbp, %rdx
	callq	"mime_lookup::read_back::targets::target_of"
	movq	%rax, %r11
	movq	%rdx, %rbp
146:
	movzbl	56(%rsp), %ecx
147:
	movl	%r11d, %eax
	shrl	$16, %eax
	movl	%eax, 48(%rsp)
	movq	%r11, %rdx
	shrq	$32, %rdx
	movq	%r11, %r15
	shrq	$48, %r15
	movl	%r11d, %esi
	movq	%rbp, %r11
	movl	%esi, %ebp
	shrl	$8, %ebp
	testb	%cl, %cl
	je	223f
	jmp	224f
148:
	movdqa	%xmm1, 160(%rsp)
	movq	80(%rsp), %r14
	movq	%r14, 128(%rsp)
	leaq	136(%rsp), %rdx
	movq	%rdi, 136(%rsp)
	testq	%r14, %r14
	movq	%rdi, %r12
	cmovneq	%rdi, %rdx
	movq	%xmm1, %rcx
	movl	$1, %esi
	cmovneq	%rcx, %rsi
	movdqa	%xmm1, 144(%rsp)
	testq	%r9, %r9
	movq	112(%rsp), %rcx
	cmoveq	%rsi, %rcx
	movq	%r9, 368(%rsp)
	movq	%r11, 376(%rsp)
	movq	%rbp, 384(%rsp)
	movl	%eax, 392(%rsp)
	leaq	1184(%rsp), %rdi
	leaq	368(%rsp), %r8
	leaq	288(%rsp), %r9
	movq	%r15, %rsi
	callq	"mime_lookup::cached::by_content::choose"
	movzwl	1192(%rsp), %esi
	movzwl	1194(%rsp), %ebp
	movzwl	1196(%rsp), %edx
	movq	1200(%rsp), %r11
	cmpq	$1, %r14
	setne	%cl
	movdqa	160(%rsp), %xmm0
	pextrq	$1, %xmm0, %rax
	testq	%rax, %rax
	sete	%al
	orb	%cl, %al
	cmpb	$0, 1184(%rsp)
	movq	48(%rsp), %r15
	je	182f
149:
	movzbl	%sil, %r9d
	testb	%al, %al
	jne	150f
	movq	%r12, %rdi
	movq	%r15, %r14
	movq	%r11, %r15
	movq	%r9, %r12
	movq	%rdx, %r13
	callq	rattle_dealloc@PLT
	movq	%r13, %rdx
	movq	%r12, %r9
	movq	%r15, %r11
	movq	%r14, %r15
150:
	movzbl	56(%rsp), %ecx
	cmpw	$7, %r9w
	je	175f
151:
	movl	$1, %r12d
	testb	%cl, %cl
	je	176f
152:
	movzbl	%r12b, %eax
	leaq	376f(%rip), %rcx
	movslq	(%rcx,%rax,4), %rax
	addq	%rcx, %rax
	jmpq	*%rax
153:
	movq	40(%rsp), %rax
	cmpq	%rax, %r12
	cmovbq	%r12, %rax
	testb	$1, %dl
	cmoveq	%rax, %r12
154:
	movq	%r14, %r13
	movq	120(%rsp), %rbp
	movq	48(%rsp), %rax
155:
	testq	%r12, %r12
	je	181f
	movq	(%r13), %r8
	movq	8(%r13), %r9
	movq	(%rax), %rsi
	pxor	%xmm0, %xmm0
	movdqa	%xmm0, 688(%rsp)
	movq	$0, 704(%rsp)
	leaq	240(%rsp), %rax
	movq	%rax, 16(%rsp)
	movq	%r11, 8(%rsp)
	movq	%r10, (%rsp)
	leaq	688(%rsp), %rdi
	movq	%r13, %rdx
	movq	%r12, %rcx
	callq	"mime_lookup::lists::ListsAsked::first_of"
	cmpb	$0, 688(%rsp)
	je	180f
	testq	%rbp, %rbp
	je	165f
	movq	%r13, %rdi
	callq	rattle_dealloc@PLT
	jmp	165f
156:
	cmpq	$1, %rax
	cmoveq	%r9, %r12
	movq	%r12, -8(%rbp)
	movq	%r14, (%rbp)
	addq	$16, %rbp
	decq	%r15
	je	340f
157:
	movq	-8(%rbp), %r12
	movq	(%rbp), %r14
	pxor	%xmm0, %xmm0
	movdqa	%xmm0, 144(%rsp)
	movdqa	%xmm0, 128(%rsp)
	movl	484(%rsp), %edx
	leaq	128(%rsp), %rdi
	leaq	400(%rsp), %r9
	leaq	464(%rsp), %rsi
	movq	%r12, %rcx
	movq	%r14, %r8
	callq	"mime_view::pairs::look_up_pair"
	movzbl	136(%rsp), %eax
	movq	144(%rsp), %r9
	cmpb	$0, 128(%rsp)
	jne	304f
	cmpl	$1, %eax
	jne	156b
	movq	152(%rsp), %r14
	jmp	156b
158:
	cmpl	$1, %r12d
	movq	48(%rsp), %r15
	movzbl	56(%rsp), %ecx
	movdqa	160(%rsp), %xmm0
	cmpl	$1, 80(%rsp)
	jne	174f
	pextrq	$1, %xmm0, %rax
	testq	%rax, %rax
	je	174f
	movq	%r14, %rdi
	movq	%r15, %r14
	movq	%r11, %r15
	movq	%r9, %r12
	movq	%rdx, %r13
	callq	rattle_dealloc@PLT
	movq	%r13, %rdx
	movzbl	56(%rsp), %ecx
	movq	%r12, %r9
	movq	%r15, %r11
	movq	%r14, %r15
	cmpw	$7, %r9w
	je	175f
	jmp	151b
159:
	movq	%r15, %rcx
	movq	%r10, %r15
	leaq	16(%rcx), %r14
	movdqa	%xmm0, 208(%rsp)
	movdqa	%xmm0, 480(%rsp)
	movdqa	%xmm0, 464(%rsp)
	movdqa	%xmm0, 448(%rsp)
	movq	%rax, (%rsp)
	leaq	448(%rsp), %rdi
	leaq	288(%rsp), %r9
	movq	%r14, %rsi
	movq	%r13, %rdx
	movq	%rbp, %rcx
	movl	$1, %r8d
	callq	"mime_view::cache::Cache::glob_hits"
	movzbl	456(%rsp), %r9d
	movq	464(%rsp), %r11
	cmpb	$0, 448(%rsp)
	je	197f
	movd	458(%rsp), %xmm1
	movq	40(%rsp), %r8
	movq	56(%rsp), %rsi
160:
	movzbl	%r9b, %eax
	movq	$1, 688(%rsp)
	movw	%ax, 696(%rsp)
	movd	%xmm1, 698(%rsp)
	movd	%xmm1, %ecx
	movq	%r11, 704(%rsp)
	pxor	%xmm0, %xmm0
	movdqu	%xmm0, 712(%rsp)
	pextrw	$1, %xmm1, %edx
	movdqu	%xmm0, 728(%rsp)
	movb	$1, %al
	movq	$0, 112(%rsp)
	xorl	%edi, %edi
	jmp	233f
161:
	movq	%r15, %rcx
	movq	%r10, %r15
	leaq	16(%rcx), %r14
	movdqa	%xmm0, 208(%rsp)
	movdqa	%xmm0, 480(%rsp)
	movdqa	%xmm0, 464(%rsp)
	movdqa	%xmm0, 448(%rsp)
	movq	%rax, (%rsp)
	leaq	448(%rsp), %rdi
	leaq	288(%rsp), %r9
	movq	%r14, %rsi
	movq	%r13, %rdx
	movq	%rbp, %rcx
	xorl	%r8d, %r8d
	callq	"mime_view::cache::Cache::glob_hits"
	movzbl	456(%rsp), %r9d
	movq	464(%rsp), %r11
	cmpb	$0, 448(%rsp)
	je	202f
	movd	458(%rsp), %xmm1
	movq	40(%rsp), %r8
	movq	56(%rsp), %rsi
162:
	movzbl	%r9b, %eax
	movq	$1, 688(%rsp)
	movw	%ax, 696(%rsp)
	movd	%xmm1, 698(%rsp)
	movd	%xmm1, %ecx
	movq	%r11, 704(%rsp)
	pxor	%xmm0, %xmm0
	movdqu	%xmm0, 712(%rsp)
	movdqu	%xmm0, 728(%rsp)
	pextrw	$1, %xmm1, %edx
	movb	$1, %al
	xorl	%edi, %edi
	jmp	236f
163:
	movzbl	%r15b, %eax
	movslq	(%r12,%rax,4), %rax
	addq	%r12, %rax
	jmpq	*%rax
164:
	movl	$0, 371(%rsp)
	movl	$0, 368(%rsp)
	movb	$3, %al
	jmp	78b
165:
	movl	336(%rsp), %eax
	movl	339(%rsp), %ecx
	movl	%ecx, 371(%rsp)
	movl	%eax, 368(%rsp)
	movb	$2, %al
	movl	$1, %ecx
166:
	movl	368(%rsp), %edx
	movl	371(%rsp), %esi
	movl	%esi, 211(%rsp)
	movl	%edx, 208(%rsp)
	xorl	%r10d, %r10d
	xorl	%r11d, %r11d
	xorl	%r13d, %r13d
	xorl	%ebp, %ebp
	xorl	%r14d, %r14d
	xorl	%r12d, %r12d
	xorl	%r15d, %r15d
	xorl	%edx, %edx
167:
	movl	208(%rsp), %esi
	movl	211(%rsp), %edi
	jmp	264f
168:
	movzbl	%r12b, %eax
	leaq	386f(%rip), %rcx
	movslq	(%rcx,%rax,4), %rax
	addq	%rcx, %rax
	jmpq	*%rax
169:
	movl	$0, 339(%rsp)
	movl	$0, 336(%rsp)
	movb	$3, %al
	jmp	95b
170:
	movq	(%rax), %rax
	movq	80(%rax), %r12
	testq	%r12, %r12
	je	207f
	movq	%rbp, 64(%rsp)
	movq	72(%rax), %rbp
	addq	$64, %rbp
	xorl	%eax, %eax
171:
	movq	%rax, %r15
	movq	-8(%rbp), %rdi
	movq	(%rbp), %rsi
	callq	"mime_base::magic::extent::lines_extent"
	cmpq	%rax, %r15
	cmovaq	%r15, %rax
	addq	$80, %rbp
	decq	%r12
	jne	171b
	cmpq	$129, %rax
	movl	$128, %esi
	cmovaeq	%rax, %rsi
	movq	64(%rsp), %rbp
	jmp	208f
172:
	movq	%r9, 656(%rsp)
	movq	%r11, 664(%rsp)
	movq	%rbp, 672(%rsp)
	movl	%eax, 680(%rsp)
	leaq	592(%rsp), %rdi
	leaq	656(%rsp), %r8
	leaq	288(%rsp), %r9
	movq	%r13, %rdx
	callq	"mime_lookup::cached::by_content::by_globs"
	movzwl	600(%rsp), %esi
	movzwl	602(%rsp), %ebp
	movzwl	604(%rsp), %edx
	movq	608(%rsp), %r11
	cmpb	$0, 592(%rsp)
	je	221f
173:
	movzbl	%sil, %r9d
	movzbl	56(%rsp), %ecx
174:
	cmpw	$7, %r9w
	jne	151b
175:
	movl	$3, %r12d
	xorl	%r11d, %r11d
	xorl	%r9d, %r9d
	xorl	%ebp, %ebp
	xorl	%edx, %edx
	testb	%cl, %cl
	jne	152b
176:
	movq	72(%rsp), %rdi
	movq	%r15, %r14
	movq	%r11, %r15
	movq	%r9, %r13
	movq	%r12, 80(%rsp)
	movl	%ebp, %r12d
	movq	%rdx, %rbp
	callq	rattle_dealloc@PLT
	movq	%rbp, %rdx
	movl	%r12d, %ebp
	movq	%r13, %r9
	movq	%r15, %r11
	movq	%r14, %r15
	movzbl	80(%rsp), %eax
	leaq	376f(%rip), %rcx
	movslq	(%rcx,%rax,4), %rax
	addq	%rcx, %rax
	jmpq	*%rax
177:
	movl	432(%rsp), %eax
	movl	435(%rsp), %ecx
	movl	%ecx, 323(%rsp)
	movl	%eax, 320(%rsp)
	movb	$2, %al
	jmp	179f
178:
	movl	280(%rsp), %eax
	movl	283(%rsp), %ecx
	movl	%ecx, 323(%rsp)
	movl	%eax, 320(%rsp)
	movb	$3, %al
179:
	xorl	%r10d, %r10d
	xorl	%r11d, %r11d
	xorl	%r13d, %r13d
	xorl	%ebp, %ebp
	xorl	%r14d, %r14d
	xorl	%r8d, %r8d
	xorl	%ecx, %ecx
	jmp	240f
180:
	movq	696(%rsp), %r10
	movq	704(%rsp), %r11
181:
	testq	%rbp, %rbp
	je	17b
	movq	%r13, %rdi
	jmp	16b
182:
	movl	%ebp, 48(%rsp)
	movzwl	1198(%rsp), %r15d
183:
	testb	%al, %al
	jne	222f
	movq	%r12, %rdi
	movq	%r11, %r14
	movq	%rdx, %r12
	movl	%esi, %ebp
	callq	rattle_dealloc@PLT
	movl	%ebp, %esi
	movq	%r12, %rdx
	movq	%r14, %r11
	jmp	222f
184:
	movb	%r9b, 39(%rsp)
	movdqa	%xmm0, 256(%rsp)
	movdqa	%xmm0, 240(%rsp)
	movq	$0, 272(%rsp)
	movdqa	%xmm0, 720(%rsp)
	movdqa	%xmm0, 704(%rsp)
	movdqa	%xmm0, 688(%rsp)
	movq	%rax, (%rsp)
	leaq	688(%rsp), %rdi
	leaq	400(%rsp), %r9
	movq	%r14, %rsi
	movq	%r13, %rdx
	movq	%rbp, %rcx
	movl	$1, %r8d
	callq	"mime_view::cache::Cache::glob_hits"
	movzbl	696(%rsp), %r15d
	movq	704(%rsp), %rcx
	cmpb	$0, 688(%rsp)
	je	246f
185:
	movzwl	698(%rsp), %r13d
	movzwl	700(%rsp), %ebp
186:
	cmpb	$7, %r15b
	jne	194f
	movl	$3, %r10d
	xorl	%r8d, %r8d
	xorl	%r13d, %r13d
	xorl	%ebp, %ebp
	xorl	%r14d, %r14d
	movq	$0, 64(%rsp)
	movq	$0, 40(%rsp)
	jmp	317f
187:
	movq	%rbp, 64(%rsp)
	movb	$3, %bpl
	jmp	189f
188:
	movq	%rbp, 64(%rsp)
	movb	$2, %bpl
189:
	movq	$0, 160(%rsp)
	movq	$0, 112(%rsp)
	xorl	%edi, %edi
	xorl	%r11d, %r11d
	movq	$0, 192(%rsp)
190:
	movdqa	%xmm0, 704(%rsp)
	movdqa	%xmm0, 688(%rsp)
	movb	$1, %r12b
	xorl	%r8d, %r8d
	movzbl	%bpl, %r14d
	movl	$0, %r10d
	movb	$1, %al
	movl	$0, %ecx
	testb	$1, %r9b
	jne	287f
	movl	504(%rsp), %esi
	movq	472(%rsp), %rax
	subq	%rsi, %rax
	setb	%cl
	cmpq	$12, %rax
	setb	%al
	orb	%cl, %al
	movq	400(%rsp), %rcx
	incq	%rcx
	movq	$-1, %rdx
	cmovneq	%rcx, %rdx
	movq	%rdx, 400(%rsp)
	testb	%al, %al
	je	219f
	movq	%rsi, 40(%rsp)
	movw	$3, %r8w
	movl	$1, %r10d
	xorl	%r13d, %r13d
	xorl	%ebp, %ebp
	jmp	220f
191:
	movq	96(%r15), %rsi
	movq	%r8, 400(%rsp)
	movq	%r11, 408(%rsp)
	movq	%r10, 416(%rsp)
	leaq	448(%rsp), %rdi
	leaq	400(%rsp), %rdx
	xorl	%ecx, %ecx
	callq	"mime_lookup::cached::sniff::sniff_indexed"
	movzbl	448(%rsp), %ecx
	movdqu	456(%rsp), %xmm0
	movdqa	%xmm0, 704(%rsp)
	movl	472(%rsp), %eax
	movq	704(%rsp), %r11
	movq	712(%rsp), %rbp
	movq	%r14, %rdi
	movdqa	160(%rsp), %xmm1
	jmp	141b
192:
	leaq	.Laafe98300121(%rip), %r10
	movl	$10, %r11d
	jmp	196f
193:
	cmpb	$0, -40(%rbp)
	je	249f
	movq	-32(%rbp), %rdx
	leaq	-24(%rbp), %rax
	jmp	250f
194:
	movq	%rcx, 40(%rsp)
	movzbl	%r15b, %r8d
	movl	$1, %r10d
	jmp	316f
195:
	leaq	.L74bbd0aeee0d(%rip), %r10
	movl	$22, %r11d
	movq	112(%rsp), %rdi
196:
	xorl	%r15d, %r15d
	xorl	%ebp, %ebp
	jmp	251f
197:
	movq	%r14, 72(%rsp)
	movzbl	%r9b, %r8d
	movq	488(%rsp), %rax
	movq	%r8, 128(%rsp)
	movq	%r11, 136(%rsp)
	movdqu	472(%rsp), %xmm0
	movdqu	%xmm0, 144(%rsp)
	testb	%r8b, %r8b
	movq	144(%rsp), %r14
	movl	$1, %ecx
	cmovneq	%r14, %rcx
	testq	%rcx, %rcx
	movq	%rax, 192(%rsp)
	je	268f
	movq	%rbp, 64(%rsp)
	movq	%r15, 48(%rsp)
	movl	$8, %r15d
	movq	%r11, %rax
	movq	%r9, 80(%rsp)
	jmp	199f
198:
	movq	%rbp, 136(%rsp)
	movq	%r14, 144(%rsp)
	movq	%rbp, %rax
	addq	$16, %r15
	decq	%rcx
	je	201f
199:
	movq	%rcx, 160(%rsp)
	testb	%r9b, %r9b
	movq	%rax, 112(%rsp)
	leaq	136(%rsp), %rcx
	cmoveq	%rcx, %rax
	movq	-8(%rax,%r15), %rbp
	movq	(%rax,%r15), %r14
	pxor	%xmm0, %xmm0
	movdqa	%xmm0, 256(%rsp)
	movdqa	%xmm0, 240(%rsp)
	movq	104(%rsp), %rax
	movl	36(%rax), %edx
	leaq	240(%rsp), %rdi
	leaq	288(%rsp), %r9
	movq	72(%rsp), %rsi
	movq	%rbp, %rcx
	movq	%r14, %r8
	callq	"mime_view::pairs::look_up_pair"
	movzbl	248(%rsp), %r12d
	movq	256(%rsp), %r11
	cmpb	$0, 240(%rsp)
	jne	284f
	cmpb	$1, %r12b
	jne	200f
	movq	264(%rsp), %r14
	movq	%r11, %rbp
200:
	movq	80(%rsp), %r9
	testb	%r9b, %r9b
	movq	160(%rsp), %rcx
	je	198b
	movq	112(%rsp), %rax
	movq	%rbp, -8(%rax,%r15)
	movq	%r14, (%rax,%r15)
	addq	$16, %r15
	decq	%rcx
	jne	199b
201:
	movzbl	128(%rsp), %r9d
	movq	136(%rsp), %rdi
	movzbl	%r9b, %r8d
	movq	144(%rsp), %r14
	movq	%rdi, %r11
	movq	48(%rsp), %r15
	movq	64(%rsp), %rbp
	jmp	269f
202:
	movq	%r14, 72(%rsp)
	movzbl	%r9b, %r8d
	movq	488(%rsp), %rax
	movq	%r8, 128(%rsp)
	movq	%r11, 136(%rsp)
	movdqu	472(%rsp), %xmm0
	movdqu	%xmm0, 144(%rsp)
	testb	%r8b, %r8b
	movq	144(%rsp), %r14
	movl	$1, %ecx
	cmovneq	%r14, %rcx
	testq	%rcx, %rcx
	movq	%rax, 192(%rsp)
	je	276f
	movq	%rbp, 64(%rsp)
	movq	%r15, 48(%rsp)
	movl	$8, %r15d
	movq	%r11, %rax
	movq	%r9, 80(%rsp)
	jmp	204f
203:
	movq	%rbp, 136(%rsp)
	movq	%r14, 144(%rsp)
	movq	%rbp, %rax
	addq	$16, %r15
	decq	%rcx
	je	206f
204:
	movq	%rcx, 160(%rsp)
	testb	%r9b, %r9b
	movq	%rax, 112(%rsp)
	leaq	136(%rsp), %rcx
	cmoveq	%rcx, %rax
	movq	-8(%rax,%r15), %rbp
	movq	(%rax,%r15), %r14
	pxor	%xmm0, %xmm0
	movdqa	%xmm0, 256(%rsp)
	movdqa	%xmm0, 240(%rsp)
	movq	104(%rsp), %rax
	movl	36(%rax), %edx
	leaq	240(%rsp), %rdi
	leaq	288(%rsp), %r9
	movq	72(%rsp), %rsi
	movq	%rbp, %rcx
	movq	%r14, %r8
	callq	"mime_view::pairs::look_up_pair"
	movzbl	248(%rsp), %r12d
	movq	256(%rsp), %r11
	cmpb	$0, 240(%rsp)
	jne	285f
	cmpb	$1, %r12b
	jne	205f
	movq	264(%rsp), %r14
	movq	%r11, %rbp
205:
	movq	80(%rsp), %r9
	testb	%r9b, %r9b
	movq	160(%rsp), %rcx
	je	203b
	movq	112(%rsp), %rax
	movq	%rbp, -8(%rax,%r15)
	movq	%r14, (%rax,%r15)
	addq	$16, %r15
	decq	%rcx
	jne	204b
206:
	movzbl	128(%rsp), %r9d
	movq	136(%rsp), %rdi
	movzbl	%r9b, %r8d
	movq	144(%rsp), %r14
	movq	%rdi, %r11
	movq	48(%rsp), %r15
	movq	64(%rsp), %rbp
	jmp	277f
207:
	movl	$128, %esi
208:
	leaq	448(%rsp), %rdi
	leaq	368(%rsp), %rdx
	callq	"mime_lookup::reading::read_front::<#a8511e052651c5eb>"
	movq	456(%rsp), %r12
	cmpb	$0, 448(%rsp)
	je	209f
	leaq	383f(%rip), %r13
	cmpq	$0, 56(%rsp)
	je	217f
	movq	160(%rsp), %rdi
	callq	rattle_dealloc@PLT
	movzbl	%r12b, %eax
	movslq	(%r13,%rax,4), %rax
	addq	%r13, %rax
	jmpq	*%rax
209:
	movq	%rbp, 64(%rsp)
	movq	464(%rsp), %rcx
	movq	472(%rsp), %r15
	leaq	240(%rsp), %rdi
	leaq	208(%rsp), %r9
	movq	48(%rsp), %rsi
	movq	%r12, %rdx
	xorl	%r8d, %r8d
	callq	"mime_lookup::sniff::sniff::<#fc24442ab780ff68>"
	movq	240(%rsp), %r10
	movq	248(%rsp), %r11
	movzbl	256(%rsp), %r8d
	movzbl	257(%rsp), %edi
	testq	%r15, %r15
	je	210f
	movl	%edi, %ebp
	movq	%r12, %rdi
	movq	%r11, %r14
	movq	%r10, %r15
	movl	%r8d, %r12d
	callq	rattle_dealloc@PLT
	movl	%r12d, %r8d
	movl	%ebp, %edi
	movq	%r15, %r10
	movq	%r14, %r11
210:
	movq	48(%rsp), %rsi
	movq	64(%rsp), %rbp
	movq	160(%rsp), %r14
211:
	leaq	208(%rsp), %rdx
	movl	80(%rsp), %eax
	leaq	384f(%rip), %rcx
	movslq	(%rcx,%rax,4), %rax
	addq	%rcx, %rax
	jmpq	*%rax
212:
	movq	56(%rsp), %r15
	movq	120(%rsp), %rcx
	testq	%rcx, %rcx
	jne	216f
	jmp	228f
213:
	testb	$1, %r8b
	je	229f
214:
	cmpq	$0, 56(%rsp)
	jne	107b
	jmp	108b
215:
	movq	120(%rsp), %rcx
	movq	40(%rsp), %rax
	cmpq	%rax, %rcx
	cmovbq	%rcx, %rax
	testb	$1, %dil
	cmoveq	%rax, %rcx
	movq	56(%rsp), %r15
	testq	%rcx, %rcx
	je	228f
216:
	movq	(%r14), %r8
	movq	8(%r14), %r9
	pxor	%xmm0, %xmm0
	movdqa	%xmm0, 448(%rsp)
	movq	$0, 464(%rsp)
	addq	$184, %rsi
	movq	%rdx, 16(%rsp)
	movq	%r11, 8(%rsp)
	movq	%r10, (%rsp)
	leaq	448(%rsp), %rdi
	movq	%r14, %rdx
	callq	"mime_lookup::ancestry::first_at"
	cmpb	$0, 448(%rsp)
	je	227f
	testq	%r15, %r15
	je	104b
	movq	%r14, %rdi
	callq	rattle_dealloc@PLT
	jmp	104b
217:
	movzbl	%r12b, %eax
	movslq	(%r13,%rax,4), %rax
	addq	%r13, %rax
	jmpq	*%rax
218:
	movl	$0, 691(%rsp)
	movl	$0, 688(%rsp)
	movb	$3, %al
	jmp	101b
219:
	movq	%r11, 72(%rsp)
	movq	%rdi, 80(%rsp)
	movb	%r9b, 39(%rsp)
	movq	464(%rsp), %rax
	movl	4(%rax,%rsi), %eax
	bswapl	%eax
	cmpl	$129, %eax
	movl	$128, %esi
	cmovael	%eax, %esi
	leaq	688(%rsp), %rdi
	leaq	432(%rsp), %rdx
	callq	"mime_lookup::reading::read_front::<#a8511e052651c5eb>"
	movq	696(%rsp), %rcx
	movq	712(%rsp), %rsi
	movzwl	704(%rsp), %eax
	cmpb	$0, 688(%rsp)
	je	286f
	movq	%rsi, 40(%rsp)
	movl	706(%rsp), %r13d
	movzbl	%al, %r8d
	movl	%r13d, %ebp
	shrl	$16, %ebp
	movzbl	%cl, %r10d
	movq	80(%rsp), %rdi
	movq	72(%rsp), %r11
220:
	leal	-2(%r14), %eax
	cmpl	$2, %eax
	jb	316f
	cmpl	$1, %r14d
	cmpl	$1, %r11d
	setne	%al
	cmpq	$0, 112(%rsp)
	sete	%cl
	orb	%al, %cl
	je	315f
	jmp	316f
221:
	movl	%ebp, 48(%rsp)
	movzwl	606(%rsp), %r15d
222:
	movzbl	56(%rsp), %ecx
	movl	%esi, %ebp
	shrl	$8, %ebp
	testb	%cl, %cl
	jne	224f
223:
	movq	72(%rsp), %rdi
	movq	%r11, %r14
	movq	%rdx, %r12
	movl	%esi, %r13d
	callq	rattle_dealloc@PLT
	movl	%r13d, %esi
	movq	%r12, %rdx
	movq	%r14, %r11
224:
	movq	40(%rsp), %r8
225:
	movzwl	%r15w, %eax
	shlq	$40, %rax
	movzwl	%dx, %ecx
	shlq	$24, %rcx
	orq	%rax, %rcx
	movzwl	48(%rsp), %eax
	shll	$8, %eax
	orq	%rcx, %rax
	movzbl	%bpl, %ecx
	orq	%rax, %rcx
	movl	%r11d, %r13d
	shrl	$16, %r13d
	movq	%r11, %rbp
	shrq	$32, %rbp
	movq	%r11, %r14
	shrq	$48, %r14
	movq	288(%rsp), %r12
	movq	296(%rsp), %r15
	movq	1152(%rsp), %rdx
	shlq	$8, %rcx
	movzbl	%sil, %r10d
	orq	%rcx, %r10
	andb	$1, %r8b
	movl	$0, 1072(%rsp)
	movl	$0, 1075(%rsp)
	xorl	%ecx, %ecx
	xorl	%eax, %eax
	jmp	241f
226:
	pxor	%xmm0, %xmm0
	movdqa	%xmm0, 704(%rsp)
	movdqa	%xmm0, 688(%rsp)
	movl	36(%rsi), %edx
	addq	$16, %rsi
	leaq	688(%rsp), %rdi
	leaq	288(%rsp), %r9
	movq	%r11, %rcx
	movq	%rbp, %r8
	movq	%r11, %r12
	callq	"mime_view::pairs::look_up_pair"
	movzbl	696(%rsp), %r9d
	movq	704(%rsp), %rax
	cmpb	$0, 688(%rsp)
	je	301f
	movzwl	698(%rsp), %ebp
	movzwl	700(%rsp), %edx
	movq	%rax, %r11
	movzbl	56(%rsp), %ecx
	cmpw	$7, %r9w
	je	175b
	jmp	151b
227:
	movq	456(%rsp), %r10
	movq	464(%rsp), %r11
228:
	testq	%r15, %r15
	jne	107b
	jmp	108b
229:
	movq	%r14, %r12
	movq	%r10, 80(%rsp)
	movq	%r11, 160(%rsp)
	pxor	%xmm0, %xmm0
	movdqa	%xmm0, 464(%rsp)
	movdqa	%xmm0, 448(%rsp)
	leaq	448(%rsp), %rdi
	leaq	208(%rsp), %r8
	movq	%rsi, %r14
	movq	%r13, %rdx
	movq	%rbp, %rcx
	callq	"mime_lookup::indexed::kept::kept_kinds"
	movzbl	448(%rsp), %ebp
	movq	456(%rsp), %r13
	movq	464(%rsp), %rcx
	movq	472(%rsp), %r15
	cmpq	$0, 56(%rsp)
	je	230f
	movq	%r12, %rdi
	movq	%rcx, %r12
	callq	rattle_dealloc@PLT
	movq	%r12, %rcx
230:
	testb	%bpl, %bpl
	leaq	208(%rsp), %rdx
	jne	104b
	movq	%r14, %rsi
	movq	%r13, %r14
	movq	160(%rsp), %r11
	movq	80(%rsp), %r10
	testq	%rcx, %rcx
	jne	216b
	jmp	228b
231:
	movq	%r10, %r14
	xorl	%eax, %eax
232:
	leaq	288(%rsp), %rcx
	movq	%rcx, 8(%rsp)
	movl	$1, (%rsp)
	movzbl	%al, %ecx
	leaq	688(%rsp), %rdi
	movq	%r8, %rdx
	movq	%r13, %r8
	movq	%rbp, %r9
	callq	"mime_lookup::read_back::name_types::types_of"
	movzbl	688(%rsp), %eax
	movzbl	696(%rsp), %r9d
	movzwl	698(%rsp), %ecx
	movzwl	700(%rsp), %edx
	movq	704(%rsp), %r11
	movq	712(%rsp), %rdi
	movq	736(%rsp), %rsi
	movq	%rsi, 112(%rsp)
	movq	%r14, %r15
	movq	40(%rsp), %r8
	movq	56(%rsp), %rsi
233:
	testb	%al, %al
	jne	237f
	testb	%r9b, %r9b
	je	245f
	movq	%r15, 48(%rsp)
	movq	%rbp, 64(%rsp)
	movdqa	720(%rsp), %xmm1
	movzbl	%r11b, %eax
	movq	%rax, 80(%rsp)
	movb	$1, %r14b
	jmp	244f
234:
	movq	%r10, %r14
	xorl	%eax, %eax
235:
	leaq	288(%rsp), %rcx
	movq	%rcx, 8(%rsp)
	movl	$0, (%rsp)
	movzbl	%al, %ecx
	leaq	688(%rsp), %rdi
	movq	%r8, %rdx
	movq	%r13, %r8
	movq	%rbp, %r9
	callq	"mime_lookup::read_back::name_types::types_of"
	movzbl	688(%rsp), %eax
	movzbl	696(%rsp), %r9d
	movzwl	698(%rsp), %ecx
	movzwl	700(%rsp), %edx
	movq	704(%rsp), %r11
	movq	712(%rsp), %rdi
	movq	%r14, %r15
	movq	40(%rsp), %r8
	movq	56(%rsp), %rsi
236:
	testb	%al, %al
	je	243f
237:
	cmpb	$7, %r9b
	movl	%ecx, %ebp
	jne	239f
238:
	movl	184(%rsp), %eax
	movl	187(%rsp), %ecx
	movl	%ecx, 323(%rsp)
	movl	%eax, 320(%rsp)
	movb	$2, %al
	movl	$1, %ecx
	xorl	%r10d, %r10d
	xorl	%r11d, %r11d
	xorl	%r13d, %r13d
	xorl	%ebp, %ebp
	xorl	%r14d, %r14d
	xorl	%r8d, %r8d
	jmp	240f
239:
	movzbl	%r9b, %eax
	movw	%ax, 1040(%rsp)
	movw	%bp, 1042(%rsp)
	movw	%dx, 1044(%rsp)
	movq	%r11, 1048(%rsp)
	leaq	1120(%rsp), %rdi
	leaq	1040(%rsp), %rcx
	movq	%r15, %rsi
	movq	120(%rsp), %rdx
	callq	"mime_tool::cache::faulty"
	movzbl	1120(%rsp), %eax
	movq	1128(%rsp), %r10
	movzwl	1136(%rsp), %r11d
	movzwl	1138(%rsp), %r13d
	movzwl	1140(%rsp), %ebp
	movzwl	1142(%rsp), %r14d
	movzbl	1144(%rsp), %r8d
	movl	1145(%rsp), %ecx
	movl	%ecx, 320(%rsp)
	movl	1148(%rsp), %ecx
	movl	%ecx, 323(%rsp)
	movl	$1, %ecx
240:
	movl	320(%rsp), %edx
	movl	323(%rsp), %esi
	movl	%esi, 1075(%rsp)
	movl	%edx, 1072(%rsp)
	xorl	%r12d, %r12d
	xorl	%r15d, %r15d
	xorl	%edx, %edx
241:
	movl	1072(%rsp), %esi
	movl	1075(%rsp), %edi
242:
	movl	%edi, 203(%rsp)
	movl	%esi, 200(%rsp)
	jmp	265f
243:
	testb	%r9b, %r9b
	je	245f
	movq	%r15, 48(%rsp)
	movq	%rbp, 64(%rsp)
	movdqa	720(%rsp), %xmm1
	movzbl	%r11b, %eax
	movq	%rax, 80(%rsp)
	xorl	%r14d, %r14d
	movq	$0, 112(%rsp)
244:
	movq	120(%rsp), %r12
	movzbl	39(%rsp), %r9d
	movq	104(%rsp), %r15
	jmp	11b
245:
	movl	%r11d, %esi
	movl	%r11d, %ebp
	shrl	$8, %ebp
	movl	%r11d, %eax
	shrl	$16, %eax
	movl	%eax, 48(%rsp)
	movq	%r11, %rdx
	shrq	$32, %rdx
	shrq	$48, %r11
	movl	%r11d, %r15d
	movq	%rdi, %r11
	jmp	225b
246:
	movzbl	%r15b, %eax
	movq	728(%rsp), %rdx
	movq	%rax, 208(%rsp)
	movq	%rcx, 216(%rsp)
	movdqu	712(%rsp), %xmm0
	movdqu	%xmm0, 224(%rsp)
	testb	%al, %al
	movq	224(%rsp), %r8
	movl	$1, %esi
	cmovneq	%r8, %rsi
	testq	%rsi, %rsi
	movq	%rax, 72(%rsp)
	movq	%rdx, 104(%rsp)
	je	305f
	movb	%r15b, 40(%rsp)
	testb	%r15b, %r15b
	je	331f
	movq	%r8, 160(%rsp)
	movq	%rbp, 64(%rsp)
	movq	%rcx, 80(%rsp)
	leaq	8(%rcx), %rbp
	movq	%rsi, 192(%rsp)
	movq	%rsi, %r15
	jmp	248f
247:
	cmpq	$1, %rax
	cmoveq	%r9, %r12
	movq	%r12, -8(%rbp)
	movq	%r14, (%rbp)
	addq	$16, %rbp
	decq	%r15
	je	337f
248:
	movq	-8(%rbp), %r12
	movq	(%rbp), %r14
	pxor	%xmm0, %xmm0
	movdqa	%xmm0, 144(%rsp)
	movdqa	%xmm0, 128(%rsp)
	movl	484(%rsp), %edx
	leaq	128(%rsp), %rdi
	leaq	400(%rsp), %r9
	leaq	464(%rsp), %rsi
	movq	%r12, %rcx
	movq	%r14, %r8
	callq	"mime_view::pairs::look_up_pair"
	movzbl	136(%rsp), %eax
	movq	144(%rsp), %r9
	cmpb	$0, 128(%rsp)
	jne	304f
	cmpl	$1, %eax
	jne	247b
	movq	152(%rsp), %r14
	jmp	247b
249:
	leaq	-32(%rbp), %rdx
	movq	%rbp, %rax
250:
	movq	48(%rsp), %rsi
	movq	(%rax), %rcx
	movl	-48(%rbp), %ebp
	movq	24(%rsi), %rdi
	movq	32(%rsi), %rsi
	callq	"mime_lookup::pairs::unalias"
	movq	%rax, %r10
	movq	%rdx, %r11
	cmpl	$80, %ebp
	setae	%bpl
	movb	$1, %r15b
	movq	112(%rsp), %rdi
251:
	testq	%rdi, %rdi
	je	252f
	movq	%r12, %rdi
	movq	%r11, %r14
	movq	%r10, %r12
	callq	rattle_dealloc@PLT
	movq	%r12, %r10
	movq	%r14, %r11
252:
	movq	56(%rsp), %r12
253:
	movl	80(%rsp), %edx
	movl	%edx, %eax
	leaq	387f(%rip), %rcx
	movslq	(%rcx,%rax,4), %rax
	addq	%rcx, %rax
	jmpq	*%rax
254:
	pxor	%xmm0, %xmm0
	movdqa	%xmm0, 704(%rsp)
	movdqa	%xmm0, 688(%rsp)
	testl	%edx, %edx
	je	258f
	cmpl	$1, %edx
	movq	40(%rsp), %rcx
	je	256f
	testb	%r15b, %r15b
	cmoveq	160(%rsp), %rcx
	movq	120(%rsp), %r15
	jmp	259f
255:
	testb	%bpl, %bpl
	jne	6b
	pxor	%xmm0, %xmm0
	movdqa	%xmm0, 704(%rsp)
	movdqa	%xmm0, 688(%rsp)
256:
	movq	%r12, 56(%rsp)
	movq	%r10, %r12
	movq	%r11, %r15
	leaq	688(%rsp), %rdi
	leaq	208(%rsp), %rsi
	leaq	240(%rsp), %r8
	movq	%r13, %rdx
	movq	64(%rsp), %rcx
	callq	"mime_lookup::lists::ListsAsked::kept_kinds"
	movzbl	688(%rsp), %ebp
	cmpq	$0, 120(%rsp)
	movq	48(%rsp), %r14
	je	257f
	movq	56(%rsp), %rdi
	callq	rattle_dealloc@PLT
257:
	testb	%bpl, %bpl
	jne	261f
	movq	%r15, %r11
	movq	%r12, %r10
	movq	696(%rsp), %r12
	movq	704(%rsp), %rcx
	movq	712(%rsp), %r15
	jmp	260f
258:
	movq	120(%rsp), %r15
	movq	40(%rsp), %rcx
259:
	movq	48(%rsp), %r14
260:
	pxor	%xmm0, %xmm0
	movdqa	%xmm0, 688(%rsp)
	movq	$0, 704(%rsp)
	testq	%rcx, %rcx
	je	267f
	movq	(%r12), %r8
	movq	8(%r12), %r9
	leaq	240(%rsp), %rax
	movq	%rax, 16(%rsp)
	movq	%r11, 8(%rsp)
	movq	%r10, (%rsp)
	leaq	688(%rsp), %rdi
	movq	%r14, %rsi
	movq	%r12, %rdx
	callq	"mime_lookup::lists::ListsAsked::first_of"
	cmpb	$0, 688(%rsp)
	je	266f
	testq	%r15, %r15
	je	261f
	movq	%r12, %rdi
	callq	rattle_dealloc@PLT
261:
	movl	656(%rsp), %eax
	movl	659(%rsp), %ecx
	movl	%ecx, 339(%rsp)
	movl	%eax, 336(%rsp)
	movb	$2, %al
	movl	$1, %ecx
262:
	movl	336(%rsp), %edx
	movl	339(%rsp), %esi
	movl	%esi, 371(%rsp)
	movl	%edx, 368(%rsp)
	xorl	%r10d, %r10d
	xorl	%r11d, %r11d
	xorl	%r13d, %r13d
	xorl	%ebp, %ebp
	xorl	%r14d, %r14d
	xorl	%r12d, %r12d
	xorl	%r15d, %r15d
	xorl	%edx, %edx
263:
	movl	368(%rsp), %esi
	movl	371(%rsp), %edi
264:
	movl	%edi, 203(%rsp)
	movl	%esi, 200(%rsp)
	xorl	%r8d, %r8d
265:
	movzbl	%al, %eax
	movl	200(%rsp), %esi
	movl	203(%rsp), %edi
	movl	%edi, 443(%rsp)
	movl	%esi, 440(%rsp)
	movq	%rcx, (%rbx)
	movq	%rax, 8(%rbx)
	movq	%r10, 16(%rbx)
	movw	%r11w, 24(%rbx)
	movw	%r13w, 26(%rbx)
	movw	%bp, 28(%rbx)
	movw	%r14w, 30(%rbx)
	movb	%r8b, 32(%rbx)
	movl	440(%rsp), %eax
	movl	443(%rsp), %ecx
	movl	%eax, 33(%rbx)
	movl	%ecx, 36(%rbx)
	movq	%r12, 40(%rbx)
	movq	%r15, 48(%rbx)
	movq	%rdx, 56(%rbx)
	addq	$1288, %rsp
	popq	%rbx
	popq	%r12
	popq	%r13
	popq	%r14
	popq	%r15
	popq	%rbp
	retq
266:
	movq	696(%rsp), %r10
	movq	704(%rsp), %r11
267:
	testq	%r15, %r15
	jne	7b
	jmp	8b
268:
	movq	%r11, %rdi
269:
	testb	%r9b, %r9b
	movq	56(%rsp), %rsi
	je	302f
	movq	152(%rsp), %rcx
	testq	%r14, %r14
	movq	%r11, 72(%rsp)
	movq	%rcx, 1280(%rsp)
	je	353f
	movq	%r14, %rax
	decq	%rax
	je	346f
	movq	%r9, 80(%rsp)
	movq	%r8, 160(%rsp)
	movq	%rbp, 64(%rsp)
	movq	(%rdi), %rcx
	movq	8(%rdi), %r12
	movq	296(%rsp), %rdx
	xorl	%esi, %esi
270:
	movq	%r15, %rbp
	movq	%rsi, %r8
	shlq	$4, %r8
	movq	16(%rdi,%r8), %r10
	movq	24(%rdi,%r8), %r8
	cmpq	%r12, %r8
	movq	%r12, %r9
	cmovbq	%r8, %r9
	xorl	%r11d, %r11d
271:
	movq	%r9, %r15
	subq	%r11, %r15
	cmpq	$8, %r15
	jb	272f
	pmovzxbw	(%rcx,%r11), %xmm0
	pmovzxbw	(%r10,%r11), %xmm1
	pcmpeqw	%xmm0, %xmm1
	packsswb	%xmm1, %xmm1
	pmovmskb	%xmm1, %r15d
	notl	%r15d
	orl	$256, %r15d
	rep		bsfl	%r15d, %r15d
	addq	%r15, %r11
	cmpb	$7, %r15b
	ja	271b
272:
	cmpq	%r9, %r11
	jae	275f
273:
	movzbl	(%rcx,%r11), %r15d
	cmpb	(%r10,%r11), %r15b
	jne	274f
	incq	%r11
	cmpq	%r11, %r9
	jne	273b
	jmp	275f
274:
	movq	%r11, %r9
275:
	leaq	1(%r9), %r10
	movq	%rdx, %r11
	addq	%r10, %r11
	movq	$-1, %rdx
	cmovaeq	%r11, %rdx
	cmpq	%r12, %r9
	movq	%rbp, %r15
	jne	352f
	cmpq	%r8, %r9
	jne	352f
	incq	%rsi
	cmpq	%rax, %rsi
	jne	270b
	movq	%rdx, 296(%rsp)
	movq	%rcx, %r11
	movq	64(%rsp), %rbp
	movq	56(%rsp), %rsi
	movq	80(%rsp), %r9
	movq	1280(%rsp), %rcx
	jmp	347f
276:
	movq	%r11, %rdi
277:
	testb	%r9b, %r9b
	movq	56(%rsp), %rsi
	je	303f
	movq	152(%rsp), %rcx
	testq	%r14, %r14
	movq	%r11, 72(%rsp)
	movq	%rcx, 112(%rsp)
	je	355f
	movq	%r14, %rax
	decq	%rax
	je	349f
	movq	%r9, 80(%rsp)
	movq	%r8, 160(%rsp)
	movq	%rbp, 64(%rsp)
	movq	(%rdi), %rcx
	movq	8(%rdi), %r12
	movq	296(%rsp), %rdx
	xorl	%esi, %esi
278:
	movq	%r15, %rbp
	movq	%rsi, %r8
	shlq	$4, %r8
	movq	16(%rdi,%r8), %r10
	movq	24(%rdi,%r8), %r8
	cmpq	%r12, %r8
	movq	%r12, %r9
	cmovbq	%r8, %r9
	xorl	%r11d, %r11d
279:
	movq	%r9, %r15
	subq	%r11, %r15
	cmpq	$8, %r15
	jb	280f
	pmovzxbw	(%rcx,%r11), %xmm0
	pmovzxbw	(%r10,%r11), %xmm1
	pcmpeqw	%xmm0, %xmm1
	packsswb	%xmm1, %xmm1
	pmovmskb	%xmm1, %r15d
	notl	%r15d
	orl	$256, %r15d
	rep		bsfl	%r15d, %r15d
	addq	%r15, %r11
	cmpb	$7, %r15b
	ja	279b
280:
	cmpq	%r9, %r11
	jae	283f
281:
	movzbl	(%rcx,%r11), %r15d
	cmpb	(%r10,%r11), %r15b
	jne	282f
	incq	%r11
	cmpq	%r11, %r9
	jne	281b
	jmp	283f
282:
	movq	%r11, %r9
283:
	leaq	1(%r9), %r10
	movq	%rdx, %r11
	addq	%r10, %r11
	movq	$-1, %rdx
	cmovaeq	%r11, %rdx
	cmpq	%r12, %r9
	movq	%rbp, %r15
	jne	354f
	cmpq	%r8, %r9
	jne	354f
	incq	%rsi
	cmpq	%rax, %rsi
	jne	278b
	movq	%rdx, 296(%rsp)
	movq	%rcx, %r11
	movq	64(%rsp), %rbp
	movq	56(%rsp), %rsi
	movq	80(%rsp), %r9
	movq	112(%rsp), %rcx
	jmp	350f
284:
	movd	250(%rsp), %xmm1
	cmpb	$1, 80(%rsp)
	movq	64(%rsp), %rbp
	movq	40(%rsp), %r8
	movq	56(%rsp), %rsi
	jne	357f
	cmpq	$0, 152(%rsp)
	movq	48(%rsp), %r15
	je	356f
	movq	136(%rsp), %rdi
	movq	%r15, %r14
	movq	%r11, %r15
	movdqa	%xmm1, 80(%rsp)
	callq	rattle_dealloc@PLT
	movdqa	80(%rsp), %xmm1
	movq	%r15, %r11
	movq	56(%rsp), %rsi
	movq	40(%rsp), %r8
	movq	%r14, %r15
	movl	%r12d, %r9d
	jmp	160b
285:
	movd	250(%rsp), %xmm1
	cmpb	$1, 80(%rsp)
	movq	64(%rsp), %rbp
	movq	40(%rsp), %r8
	movq	56(%rsp), %rsi
	jne	359f
	cmpq	$0, 152(%rsp)
	movq	48(%rsp), %r15
	je	358f
	movq	136(%rsp), %rdi
	movq	%r15, %r14
	movq	%r11, %r15
	movdqa	%xmm1, 80(%rsp)
	callq	rattle_dealloc@PLT
	movdqa	80(%rsp), %xmm1
	movq	%r15, %r11
	movq	56(%rsp), %rsi
	movq	40(%rsp), %r8
	movq	%r14, %r15
	movl	%r12d, %r9d
	jmp	162b
286:
	movzwl	708(%rsp), %r10d
	movq	%rcx, %rdi
	movzwl	710(%rsp), %ecx
	shlq	$48, %rcx
	shlq	$32, %r10
	movzwl	706(%rsp), %edx
	shll	$16, %edx
	orq	%rax, %r10
	orq	%rdx, %r10
	orq	%rcx, %r10
	movq	%rdi, %rcx
	testq	%rsi, %rsi
	sete	%al
	movl	$1, %r8d
	movzbl	39(%rsp), %r9d
	movq	80(%rsp), %rdi
	movq	72(%rsp), %r11
287:
	movb	%al, 104(%rsp)
	pxor	%xmm0, %xmm0
	movdqa	%xmm0, 128(%rsp)
	movdqa	%xmm0, 144(%rsp)
	movdqa	%xmm0, 208(%rsp)
	movdqa	%xmm0, 224(%rsp)
	movdqa	%xmm0, 624(%rsp)
	movq	$0, 640(%rsp)
	movdqa	%xmm0, 368(%rsp)
	movdqa	%xmm0, 384(%rsp)
	movdqa	%xmm0, 592(%rsp)
	movq	$0, 608(%rsp)
	movdqa	%xmm0, 352(%rsp)
	movdqa	%xmm0, 336(%rsp)
	movdqa	%xmm0, 1040(%rsp)
	movq	$0, 1056(%rsp)
	movdqa	%xmm0, 672(%rsp)
	movdqa	%xmm0, 656(%rsp)
	movdqa	%xmm0, 1152(%rsp)
	movq	$0, 1168(%rsp)
	movq	$0, 312(%rsp)
	movq	$0, 1144(%rsp)
	cmpb	$2, %bpl
	movq	%rcx, 72(%rsp)
	jae	288f
	testq	%r11, %r11
	movq	64(%rsp), %rbp
	je	289f
	cmpq	$0, 160(%rsp)
	je	291f
	jmp	289f
288:
	cmpl	$2, %r14d
	movq	64(%rsp), %rbp
	jne	291f
	testb	$1, 520(%rsp)
	jne	291f
289:
	cmpb	$1, 552(%rsp)
	jne	290f
	movq	472(%rsp), %rcx
	movq	560(%rsp), %rsi
	movabsq	$-6148914691236517205, %rdx
	movq	%rcx, %rax
	mulq	%rdx
	shrq	$2, %rdx
	shrq	$4, %rcx
	addq	%rdx, %rcx
	movq	416(%rsp), %rax
	xorl	%edx, %edx
	subq	336(%rsi), %rax
	cmovaeq	%rax, %rdx
	cmpq	%rdx, %rcx
	movq	72(%rsp), %rcx
	setbe	%r12b
	jmp	291f
290:
	xorl	%r12d, %r12d
291:
	movdqa	%xmm0, 688(%rsp)
	movdqa	%xmm0, 704(%rsp)
	movq	$0, 720(%rsp)
	movdqa	%xmm0, 240(%rsp)
	movdqa	%xmm0, 256(%rsp)
	testb	$1, %r9b
	jne	293f
	movq	%r11, %r15
	movq	%rdi, 80(%rsp)
	cmpb	$1, 536(%rsp)
	jne	292f
	testb	%r12b, %r12b
	je	292f
	movq	472(%rsp), %rax
	shrq	$4, %rax
	cmpq	416(%rsp), %rax
	jbe	336f
292:
	movq	%r8, 1184(%rsp)
	movq	%rcx, 1192(%rsp)
	movq	%r10, 1200(%rsp)
	leaq	688(%rsp), %rdi
	leaq	1184(%rsp), %rdx
	leaq	400(%rsp), %r8
	leaq	464(%rsp), %rsi
	xorl	%ecx, %ecx
	callq	"mime_lookup::cached::sniff::sniff_front"
	cmpb	$0, 688(%rsp)
	movzbl	696(%rsp), %r8d
	movq	704(%rsp), %rax
	movq	%rax, 40(%rsp)
	je	295f
	movzwl	698(%rsp), %r13d
	movzwl	700(%rsp), %ebp
	leal	-2(%r14), %eax
	cmpl	$2, %eax
	jb	312f
	cmpl	$1, %r14d
	movq	80(%rsp), %rdi
	jne	309f
	cmpl	$1, %r15d
	setne	%al
	cmpq	$0, 112(%rsp)
	jmp	310f
293:
	movb	$1, %cl
	xorl	%eax, %eax
	leaq	.L67248b46a1a0(%rip), %rdx
	movq	%rdx, 40(%rsp)
	movl	$24, %esi
294:
	movzbl	%cl, %r8d
	leaq	378f(%rip), %rcx
	movslq	(%rcx,%r14,4), %rdx
	addq	%rcx, %rdx
	jmpq	*%rdx
295:
	movl	720(%rsp), %eax
	movq	712(%rsp), %rsi
	leaq	378f(%rip), %rcx
	movslq	(%rcx,%r14,4), %rdx
	addq	%rcx, %rdx
	movq	80(%rsp), %rdi
	movq	%r15, %r11
	jmpq	*%rdx
296:
	movq	%r11, 128(%rsp)
	leaq	136(%rsp), %rdx
	movq	%rdi, 136(%rsp)
	movq	160(%rsp), %r9
	movq	%r9, 144(%rsp)
	testq	%r11, %r11
	movq	%rdi, 80(%rsp)
	cmovneq	%rdi, %rdx
	movq	112(%rsp), %r12
	movq	%r12, 152(%rsp)
	movl	$1, %ecx
	cmovneq	%r9, %rcx
	movq	%r8, 368(%rsp)
	movq	40(%rsp), %rdi
	movq	%rdi, 376(%rsp)
	movq	%rsi, 384(%rsp)
	movl	%eax, 392(%rsp)
	leaq	624(%rsp), %rdi
	leaq	448(%rsp), %rsi
	leaq	368(%rsp), %r8
	leaq	400(%rsp), %r9
	movq	%r11, %r15
	callq	"mime_lookup::cached::by_content::choose"
	movzwl	632(%rsp), %r14d
	movzwl	634(%rsp), %r13d
	movzwl	636(%rsp), %ebp
	movq	640(%rsp), %r8
	cmpq	$1, %r15
	setne	%cl
	testq	%r12, %r12
	sete	%al
	orb	%cl, %al
	cmpb	$0, 624(%rsp)
	jne	300f
	movzwl	638(%rsp), %r15d
	jmp	330f
297:
	testq	%r8, %r8
	jne	307f
	cmpl	$80, %eax
	jb	307f
	movq	%r8, 656(%rsp)
	movq	40(%rsp), %rcx
	movq	%rcx, 664(%rsp)
	movq	%rsi, 672(%rsp)
	movl	%eax, 680(%rsp)
	leaq	1040(%rsp), %rdi
	leaq	448(%rsp), %rsi
	leaq	656(%rsp), %rdx
	leaq	400(%rsp), %rcx
	callq	"mime_lookup::cached::sniff::unalias"
	movzwl	1048(%rsp), %r14d
	movzwl	1050(%rsp), %r13d
	movzwl	1052(%rsp), %ebp
	movq	1056(%rsp), %r8
	cmpb	$0, 1040(%rsp)
	jne	308f
	movzwl	1054(%rsp), %r15d
	jmp	361f
298:
	movq	%r8, 1120(%rsp)
	movq	40(%rsp), %rcx
	movq	%rcx, 1128(%rsp)
	movq	%rsi, 1136(%rsp)
	movl	%eax, 1144(%rsp)
	leaq	1072(%rsp), %rdi
	leaq	448(%rsp), %rsi
	leaq	1120(%rsp), %rdx
	leaq	400(%rsp), %rcx
	callq	"mime_lookup::cached::sniff::unalias"
	movzwl	1080(%rsp), %r14d
	movzwl	1082(%rsp), %r13d
	movzwl	1084(%rsp), %ebp
	movq	1088(%rsp), %r8
	cmpb	$0, 1072(%rsp)
	jne	308f
	movzwl	1086(%rsp), %r15d
	jmp	361f
299:
	movq	%r11, 208(%rsp)
	leaq	216(%rsp), %rdx
	movq	%rdi, 216(%rsp)
	testq	%r11, %r11
	movq	%rdi, 80(%rsp)
	cmovneq	%rdi, %rdx
	movq	160(%rsp), %rdi
	movq	%rdi, 224(%rsp)
	movl	$1, %ecx
	cmovneq	%rdi, %rcx
	movq	112(%rsp), %r12
	movq	%r12, 232(%rsp)
	testq	%r8, %r8
	movq	192(%rsp), %r10
	cmoveq	%rcx, %r10
	movq	%r8, 336(%rsp)
	movq	40(%rsp), %rcx
	movq	%rcx, 344(%rsp)
	movq	%rsi, 352(%rsp)
	movl	%eax, 360(%rsp)
	leaq	592(%rsp), %rdi
	leaq	448(%rsp), %rsi
	leaq	336(%rsp), %r8
	leaq	400(%rsp), %r9
	movq	%r10, %rcx
	movq	%r11, %r15
	callq	"mime_lookup::cached::by_content::choose"
	movzwl	600(%rsp), %r14d
	movzwl	602(%rsp), %r13d
	movzwl	604(%rsp), %ebp
	movq	608(%rsp), %r8
	cmpq	$1, %r15
	setne	%cl
	testq	%r12, %r12
	sete	%al
	orb	%cl, %al
	cmpb	$0, 592(%rsp)
	je	329f
300:
	movq	%r8, 40(%rsp)
	movzbl	%r14b, %r8d
	testb	%al, %al
	jne	312f
	movq	80(%rsp), %rdi
	jmp	311f
301:
	cmpb	$1, %r9b
	movq	%r12, %r11
	movzbl	56(%rsp), %ecx
	jne	147b
	movq	712(%rsp), %rbp
	movq	%rax, %r11
	jmp	147b
302:
	movq	%r14, %r12
	jmp	348f
303:
	movq	%r14, %r12
	jmp	351f
304:
	movzwl	140(%rsp), %r14d
	movzwl	138(%rsp), %ecx
	shll	$16, %ecx
	shlq	$32, %r14
	orq	%rax, %r14
	orq	%rcx, %r14
	movq	80(%rsp), %rdi
	jmp	368f
305:
	xorl	%esi, %esi
	jmp	338f
306:
	xorl	%esi, %esi
	jmp	341f
307:
	movq	%r8, 288(%rsp)
	movq	40(%rsp), %rcx
	movq	%rcx, 296(%rsp)
	movq	%rsi, 304(%rsp)
	movl	%eax, 312(%rsp)
	leaq	1152(%rsp), %rdi
	leaq	448(%rsp), %rsi
	leaq	288(%rsp), %r8
	leaq	400(%rsp), %r9
	movq	%r13, %rdx
	movq	%rbp, %rcx
	callq	"mime_lookup::cached::by_content::by_globs"
	movzwl	1160(%rsp), %r14d
	movzwl	1162(%rsp), %r13d
	movzwl	1164(%rsp), %ebp
	movq	1168(%rsp), %r8
	cmpb	$0, 1152(%rsp)
	je	360f
308:
	movq	%r8, 40(%rsp)
	movzbl	%r14b, %r8d
	jmp	312f
309:
	movq	112(%rsp), %rcx
	cmpl	$1, %r15d
	setne	%al
	testq	%rcx, %rcx
310:
	sete	%cl
	orb	%al, %cl
	jne	312f
311:
	movq	%r8, %r14
	callq	rattle_dealloc@PLT
	movq	%r14, %r8
312:
	movq	72(%rsp), %rdi
	movzbl	104(%rsp), %eax
	cmpw	$7, %r8w
	jne	313f
	movl	$3, %r10d
	movq	$0, 40(%rsp)
	xorl	%r8d, %r8d
	xorl	%r13d, %r13d
	xorl	%ebp, %ebp
	jmp	314f
313:
	movl	$1, %r10d
314:
	testb	%al, %al
	jne	316f
315:
	movq	%r8, %r14
	movq	%r10, %r15
	callq	rattle_dealloc@PLT
	movq	%r15, %r10
	movq	%r14, %r8
316:
	xorl	%r14d, %r14d
	movq	$0, 64(%rsp)
317:
	movq	%r8, 160(%rsp)
	movq	400(%rsp), %r12
	movq	408(%rsp), %r15
	cmpb	$1, 520(%rsp)
	movq	%r10, 80(%rsp)
	jne	322f
	movq	528(%rsp), %rsi
	movq	%rsi, 112(%rsp)
	leaq	688(%rsp), %rdi
	movl	$352, %edx
	callq	memcpy@PLT
	movq	112(%rsp), %rdi
	callq	rattle_dealloc@PLT
	leaq	688(%rsp), %rdi
	callq	"mime_lookup::mime_lookup++read_back++names++IndexedNames+Destruct::drop"
	movq	80(%rsp), %r10
	cmpb	$1, 536(%rsp)
	je	323f
318:
	cmpb	$1, 552(%rsp)
	jne	324f
319:
	movq	560(%rsp), %rdi
	callq	"std_alloc::boxed::Box::drop::<#2a53b42b743d619c>"
	movq	80(%rsp), %r10
	cmpb	$1, 568(%rsp)
	je	325f
320:
	cmpb	$0, 64(%rsp)
	movq	160(%rsp), %r11
	je	326f
321:
	movq	432(%rsp), %rdx
	movzbl	56(%rsp), %eax
	andb	$1, %al
	movl	$0, 280(%rsp)
	movl	$0, 283(%rsp)
	xorl	%ecx, %ecx
	movl	%eax, %r8d
	xorl	%eax, %eax
	jmp	91b
322:
	cmpb	$1, 536(%rsp)
	jne	318b
323:
	movq	544(%rsp), %rsi
	movq	%rsi, 112(%rsp)
	leaq	688(%rsp), %rdi
	movl	$200, %edx
	callq	memcpy@PLT
	movq	112(%rsp), %rdi
	callq	rattle_dealloc@PLT
	leaq	688(%rsp), %rdi
	callq	"mime_lookup::mime_lookup++indexed++magic_index++MagicIndex+Destruct::drop"
	movq	80(%rsp), %r10
	cmpb	$1, 552(%rsp)
	je	319b
324:
	cmpb	$1, 568(%rsp)
	jne	320b
325:
	movq	576(%rsp), %rdi
	callq	"std_alloc::boxed::Box::drop::<#02fc8b7b85195ce8>"
	movq	80(%rsp), %r10
	cmpb	$0, 64(%rsp)
	movq	160(%rsp), %r11
	jne	321b
326:
	movzbl	%r10b, %eax
	leaq	379f(%rip), %rcx
	movslq	(%rcx,%rax,4), %rax
	addq	%rcx, %rax
	movq	48(%rsp), %r10
	movq	120(%rsp), %r12
	movq	40(%rsp), %rcx
	jmpq	*%rax
327:
	movl	1104(%rsp), %eax
	movl	1107(%rsp), %ecx
	movl	%ecx, 187(%rsp)
	movl	%eax, 184(%rsp)
	movb	$3, %al
	jmp	83b
328:
	movl	1096(%rsp), %eax
	movl	1099(%rsp), %ecx
	movl	%ecx, 187(%rsp)
	movl	%eax, 184(%rsp)
	movb	$2, %al
	movl	$1, %ecx
	xorl	%r10d, %r10d
	xorl	%r11d, %r11d
	xorl	%r13d, %r13d
	xorl	%ebp, %ebp
	xorl	%r14d, %r14d
	xorl	%r8d, %r8d
	jmp	90b
329:
	movzwl	606(%rsp), %r15d
330:
	testb	%al, %al
	jne	361f
	movq	80(%rsp), %rdi
	movq	%r8, %r12
	callq	rattle_dealloc@PLT
	movq	%r12, %r8
	jmp	361f
331:
	movq	%rsi, %r12
	movl	484(%rsp), %edx
	pxor	%xmm0, %xmm0
	movdqa	%xmm0, 144(%rsp)
	movdqa	%xmm0, 128(%rsp)
	leaq	128(%rsp), %rdi
	leaq	400(%rsp), %r9
	movq	%r14, %rsi
	movq	%rdx, 160(%rsp)
	movq	%rcx, %r14
	movq	%r8, %r15
	callq	"mime_view::pairs::look_up_pair"
	movzbl	136(%rsp), %eax
	movq	144(%rsp), %r9
	cmpb	$0, 128(%rsp)
	jne	335f
	leaq	240(%rsp), %rsi
	movq	%rbp, 64(%rsp)
332:
	movq	%r14, %rcx
	cmpb	$1, %al
	movq	%r15, %r8
	jne	333f
	movq	152(%rsp), %r8
	movq	%r9, %rcx
333:
	movq	%rcx, 216(%rsp)
	movq	%r8, 224(%rsp)
	decq	%r12
	je	370f
	movq	%rcx, 80(%rsp)
	leaq	16(%rsi), %rbp
	movq	-8(%rsi), %r14
	movq	(%rsi), %r8
	pxor	%xmm0, %xmm0
	movdqa	%xmm0, 144(%rsp)
	movdqa	%xmm0, 128(%rsp)
	leaq	128(%rsp), %rdi
	leaq	400(%rsp), %r9
	leaq	464(%rsp), %rsi
	movq	160(%rsp), %rdx
	movq	%r14, %rcx
	movq	%r8, %r15
	callq	"mime_view::pairs::look_up_pair"
	movzbl	136(%rsp), %eax
	movq	144(%rsp), %r9
	cmpb	$0, 128(%rsp)
	movq	%rbp, %rsi
	movq	64(%rsp), %rbp
	je	332b
	jmp	366f
334:
	movq	%rsi, %r12
	movl	484(%rsp), %edx
	pxor	%xmm0, %xmm0
	movdqa	%xmm0, 144(%rsp)
	movdqa	%xmm0, 128(%rsp)
	leaq	128(%rsp), %rdi
	leaq	400(%rsp), %r9
	movq	%r14, %rsi
	movq	%rdx, 160(%rsp)
	movq	%rcx, %r14
	movq	%r8, %r15
	callq	"mime_view::pairs::look_up_pair"
	movzbl	136(%rsp), %eax
	movq	144(%rsp), %r9
	cmpb	$0, 128(%rsp)
	je	363f
335:
	movq	%r14, %rdi
	jmp	367f
336:
	movq	544(%rsp), %rsi
	movq	%r8, 1216(%rsp)
	movq	%rcx, 1224(%rsp)
	movq	%r10, 1232(%rsp)
	leaq	240(%rsp), %rdi
	leaq	1216(%rsp), %rdx
	xorl	%ecx, %ecx
	callq	"mime_lookup::cached::sniff::sniff_indexed"
	movzbl	240(%rsp), %ecx
	movdqu	248(%rsp), %xmm0
	movdqa	%xmm0, 704(%rsp)
	movl	264(%rsp), %eax
	movq	704(%rsp), %rdx
	movq	%rdx, 40(%rsp)
	movq	712(%rsp), %rsi
	movq	80(%rsp), %rdi
	movq	%r15, %r11
	jmp	294b
337:
	movq	64(%rsp), %rbp
	movq	80(%rsp), %rcx
	movq	72(%rsp), %rax
	movq	160(%rsp), %r8
	movzbl	40(%rsp), %r15d
	movq	104(%rsp), %rdx
	movq	192(%rsp), %rsi
338:
	movq	%rcx, 80(%rsp)
	testb	%r15b, %r15b
	movq	232(%rsp), %r12
	movq	%rax, 240(%rsp)
	leaq	248(%rsp), %r14
	movq	%rcx, 248(%rsp)
	movq	%r8, 160(%rsp)
	movq	%r8, 256(%rsp)
	movq	%r12, 264(%rsp)
	movq	%rdx, 272(%rsp)
	cmovneq	%rcx, %r14
	leaq	400(%rsp), %rdx
	movq	%r14, %rdi
	movq	%rsi, 192(%rsp)
	callq	"mime_lookup::cached::name_types::are_one_type"
	testb	%al, %al
	je	339f
	leaq	256(%rsp), %rax
	movq	80(%rsp), %rdi
	leaq	8(%rdi), %rcx
	testb	%r15b, %r15b
	movq	(%r14), %r14
	cmoveq	%rax, %rcx
	movq	(%rcx), %r8
	cmpb	$1, %r15b
	setne	%al
	testq	%r12, %r12
	jmp	342f
339:
	movq	%r12, 112(%rsp)
	movq	%rbp, 64(%rsp)
	leaq	400(%rsp), %rcx
	movq	%r14, %rdi
	movq	192(%rsp), %rsi
	movq	104(%rsp), %rdx
	callq	"mime_lookup::cached::name_types::count_asked"
	movq	%rax, 192(%rsp)
	movb	$1, %bpl
	jmp	345f
340:
	movq	64(%rsp), %rbp
	movq	80(%rsp), %rcx
	movq	72(%rsp), %rax
	movq	160(%rsp), %r8
	movzbl	40(%rsp), %r15d
	movq	104(%rsp), %rdx
	movq	192(%rsp), %rsi
341:
	movq	%rcx, 80(%rsp)
	testb	%r15b, %r15b
	movq	232(%rsp), %rdi
	movq	%rax, 240(%rsp)
	leaq	248(%rsp), %r14
	movq	%rcx, 248(%rsp)
	movq	%r8, 160(%rsp)
	movq	%r8, 256(%rsp)
	movq	%rdi, 112(%rsp)
	movq	%rdi, 264(%rsp)
	movq	%rdx, 272(%rsp)
	cmovneq	%rcx, %r14
	leaq	400(%rsp), %rdx
	movq	%r14, %rdi
	movq	%rsi, 192(%rsp)
	callq	"mime_lookup::cached::name_types::are_one_type"
	testb	%al, %al
	je	344f
	leaq	256(%rsp), %rax
	movq	80(%rsp), %rdi
	leaq	8(%rdi), %rcx
	testb	%r15b, %r15b
	movq	(%r14), %r14
	cmoveq	%rax, %rcx
	movq	(%rcx), %r8
	cmpb	$1, %r15b
	setne	%al
	cmpq	$0, 112(%rsp)
342:
	sete	%cl
	orb	%al, %cl
	jne	343f
	movq	%r8, %r12
	callq	rattle_dealloc@PLT
	movq	%r12, %r8
343:
	movl	%r14d, %r12d
	shrl	$8, %r12d
	movl	%r14d, %r13d
	shrl	$16, %r13d
	movq	%r14, %rbp
	shrq	$32, %rbp
	movq	%r14, %r15
	shrq	$48, %r15
	jmp	362f
344:
	movq	%rbp, 64(%rsp)
	leaq	400(%rsp), %rcx
	movq	%r14, %rdi
	movq	192(%rsp), %rsi
	movq	104(%rsp), %rdx
	callq	"mime_lookup::cached::name_types::count_asked"
	xorl	%ebp, %ebp
	movq	$0, 192(%rsp)
345:
	movzbl	39(%rsp), %r9d
	movq	80(%rsp), %rdi
	movq	72(%rsp), %r11
	pxor	%xmm0, %xmm0
	jmp	190b
346:
	movq	(%rdi), %r11
	movq	8(%rdi), %r12
347:
	cmpb	$1, %r9b
	setne	%al
	testq	%rcx, %rcx
	sete	%cl
	orb	%al, %cl
	jne	348f
	movq	%r15, %r14
	movq	%r11, %r15
	callq	rattle_dealloc@PLT
	movq	%r15, %r11
	movq	56(%rsp), %rsi
	movq	%r14, %r15
348:
	movq	40(%rsp), %r8
	movq	$0, 694(%rsp)
	movq	$0, 688(%rsp)
	movq	%r11, 704(%rsp)
	movq	%r12, 712(%rsp)
	movdqa	208(%rsp), %xmm0
	movdqa	%xmm0, 720(%rsp)
	movq	$0, 112(%rsp)
	movq	%r12, %rdi
	xorl	%edx, %edx
	xorl	%ecx, %ecx
	xorl	%r9d, %r9d
	xorl	%eax, %eax
	jmp	233b
349:
	movq	(%rdi), %r11
	movq	8(%rdi), %r12
350:
	cmpb	$1, %r9b
	setne	%al
	testq	%rcx, %rcx
	sete	%cl
	orb	%al, %cl
	jne	351f
	movq	%r15, %r14
	movq	%r11, %r15
	callq	rattle_dealloc@PLT
	movq	%r15, %r11
	movq	56(%rsp), %rsi
	movq	%r14, %r15
351:
	movq	40(%rsp), %r8
	movq	$0, 694(%rsp)
	movq	$0, 688(%rsp)
	movq	%r11, 704(%rsp)
	movq	%r12, 712(%rsp)
	movdqa	208(%rsp), %xmm0
	movdqa	%xmm0, 720(%rsp)
	xorl	%edx, %edx
	movq	%r12, %rdi
	xorl	%ecx, %ecx
	xorl	%r9d, %r9d
	xorl	%eax, %eax
	jmp	236b
352:
	movq	%rdx, 296(%rsp)
	movq	64(%rsp), %rbp
	movq	160(%rsp), %r8
353:
	movq	%r15, 48(%rsp)
	leaq	288(%rsp), %rcx
	movq	%r14, %rsi
	movq	192(%rsp), %rdx
	movq	%r8, %r15
	callq	"mime_lookup::cached::name_types::count_asked"
	movq	72(%rsp), %rdi
	movq	56(%rsp), %rsi
	movq	%r15, %r11
	movq	48(%rsp), %r15
	movq	%rax, 112(%rsp)
	movq	$0, 688(%rsp)
	movl	$1, 696(%rsp)
	movw	$0, 700(%rsp)
	movq	%r11, 704(%rsp)
	movq	%rdi, 712(%rsp)
	movq	%r14, 720(%rsp)
	movq	1280(%rsp), %rax
	movq	%rax, 728(%rsp)
	movb	$1, %r9b
	xorl	%edx, %edx
	xorl	%ecx, %ecx
	xorl	%eax, %eax
	movq	40(%rsp), %r8
	jmp	233b
354:
	movq	%rdx, 296(%rsp)
	movq	64(%rsp), %rbp
	movq	160(%rsp), %r8
355:
	movq	%r15, 48(%rsp)
	leaq	288(%rsp), %rcx
	movq	%r14, %rsi
	movq	192(%rsp), %rdx
	movq	%r8, %r15
	callq	"mime_lookup::cached::name_types::count_asked"
	movq	72(%rsp), %rdi
	movq	56(%rsp), %rsi
	movq	%r15, %r11
	movq	48(%rsp), %r15
	movq	$0, 688(%rsp)
	movl	$1, 696(%rsp)
	movw	$0, 700(%rsp)
	movq	%r11, 704(%rsp)
	movq	%rdi, 712(%rsp)
	movq	%r14, 720(%rsp)
	movq	112(%rsp), %rax
	movq	%rax, 728(%rsp)
	movb	$1, %r9b
	xorl	%edx, %edx
	xorl	%ecx, %ecx
	xorl	%eax, %eax
	movq	40(%rsp), %r8
	jmp	236b
356:
	movl	%r12d, %r9d
	jmp	160b
357:
	movl	%r12d, %r9d
	movq	48(%rsp), %r15
	jmp	160b
358:
	movl	%r12d, %r9d
	jmp	162b
359:
	movl	%r12d, %r9d
	movq	48(%rsp), %r15
	jmp	162b
360:
	movzwl	1166(%rsp), %r15d
361:
	movq	72(%rsp), %rdi
	movzbl	104(%rsp), %eax
	movl	%r14d, %r12d
	shrl	$8, %r12d
	testb	%al, %al
	jne	362f
	movq	%r14, 80(%rsp)
	movq	%r15, %r14
	movq	%r8, %r15
	callq	rattle_dealloc@PLT
	movq	%r15, %r8
	movq	%r14, %r15
	movq	80(%rsp), %r14
362:
	movzwl	%r15w, %eax
	shlq	$48, %rax
	movzwl	%bp, %ecx
	shlq	$32, %rcx
	orq	%rax, %rcx
	shll	$16, %r13d
	orq	%rcx, %r13
	movzbl	%r12b, %eax
	shll	$8, %eax
	orq	%r13, %rax
	movzbl	%r14b, %r10d
	orq	%rax, %r10
	movl	%r8d, %r13d
	shrl	$16, %r13d
	movq	%r8, %rbp
	shrq	$32, %rbp
	movq	%r8, %r14
	shrq	$48, %r14
	movb	$1, %al
	movq	%rax, 64(%rsp)
	movq	$0, 40(%rsp)
	jmp	317b
363:
	leaq	240(%rsp), %rsi
	movq	%rbp, 64(%rsp)
364:
	movq	%r14, %rcx
	cmpb	$1, %al
	movq	%r15, %r8
	jne	365f
	movq	152(%rsp), %r8
	movq	%r9, %rcx
365:
	movq	%rcx, 216(%rsp)
	movq	%r8, 224(%rsp)
	decq	%r12
	je	371f
	movq	%rcx, 80(%rsp)
	leaq	16(%rsi), %rbp
	movq	-8(%rsi), %r14
	movq	(%rsi), %r8
	pxor	%xmm0, %xmm0
	movdqa	%xmm0, 144(%rsp)
	movdqa	%xmm0, 128(%rsp)
	leaq	128(%rsp), %rdi
	leaq	400(%rsp), %r9
	leaq	464(%rsp), %rsi
	movq	160(%rsp), %rdx
	movq	%r14, %rcx
	movq	%r8, %r15
	callq	"mime_view::pairs::look_up_pair"
	movzbl	136(%rsp), %eax
	movq	144(%rsp), %r9
	cmpb	$0, 128(%rsp)
	movq	%rbp, %rsi
	movq	64(%rsp), %rbp
	je	364b
366:
	movq	80(%rsp), %rdi
367:
	movzwl	140(%rsp), %r14d
	movzbl	%al, %eax
	movzwl	138(%rsp), %ecx
	shll	$16, %ecx
	shlq	$32, %r14
	orq	%rax, %r14
	orq	%rcx, %r14
368:
	movzbl	40(%rsp), %eax
	movl	%r14d, %r13d
	shrl	$16, %r13d
	movq	%r14, %rbp
	shrq	$32, %rbp
	cmpb	$1, %al
	jne	369f
	cmpq	$0, 232(%rsp)
	je	369f
	movq	%r9, 80(%rsp)
	callq	rattle_dealloc@PLT
	movl	%r14d, %r15d
	movq	80(%rsp), %rcx
	jmp	186b
369:
	movl	%r14d, %r15d
	movq	%r9, %rcx
	jmp	186b
370:
	movl	$1, %esi
	movq	72(%rsp), %rax
	movzbl	40(%rsp), %r15d
	movq	104(%rsp), %rdx
	jmp	338b
371:
	movl	$1, %esi
	movq	72(%rsp), %rax
	movzbl	40(%rsp), %r15d
	movq	104(%rsp), %rdx
	jmp	341b
372:
	ud2
373:
	.size	"mime_tool::subjects::input_outcome::<#2ca5e9641c42b07d>", 373b-"mime_tool::subjects::input_outcome::<#2ca5e9641c42b07d>"
	.section	.rodata,"a",@progbits
	.p2align	2, 0x0
374:
	.long	3b-374b
	.long	20b-374b
	.long	12b-374b
	.long	18b-374b
	.long	9b-374b
375:
	.long	143b-375b
	.long	148b-375b
	.long	144b-375b
	.long	145b-375b
376:
	.long	177b-376b
	.long	239b-376b
	.long	178b-376b
	.long	238b-376b
377:
	.long	86b-377b
	.long	188b-377b
	.long	184b-377b
	.long	187b-377b
378:
	.long	296b-378b
	.long	299b-378b
	.long	297b-378b
	.long	298b-378b
379:
	.long	82b-379b
	.long	89b-379b
	.long	327b-379b
	.long	328b-379b
380:
	.long	129b-380b
	.long	80b-380b
	.long	130b-380b
	.long	80b-380b
381:
	.long	77b-381b
	.long	372b-381b
	.long	164b-381b
	.long	165b-381b
382:
	.long	154b-382b
	.long	120b-382b
	.long	153b-382b
	.long	15b-382b
383:
	.long	100b-383b
	.long	372b-383b
	.long	218b-383b
	.long	104b-383b
384:
	.long	212b-384b
	.long	213b-384b
	.long	215b-384b
	.long	214b-384b
385:
	.long	131b-385b
	.long	97b-385b
	.long	132b-385b
	.long	97b-385b
386:
	.long	94b-386b
	.long	372b-386b
	.long	169b-386b
	.long	261b-386b
387:
	.long	254b-387b
	.long	255b-387b
	.long	254b-387b
	.long	6b-387b

	.section	.rodata.cst16,"aM",@progbits,16
	.p2align	4, 0x0
1:
	.byte	0,1,2,3,4,5,6,7,8,9,10,11,12,13,14,15
2:
	.byte	16,17,18,19,20,21,22,23,24,25,26,27,28,29,30,31
	.text
	.p2align	4
	.type	"mime_tool::subjects::print_subjects::<#2d382ade8d012bfb>",@function
"mime_tool::subjects::print_subjects::<#2d382ade8d012bfb>":
	pushq	%rbp
	pushq	%r15
	pushq	%r14
	pushq	%r13
	pushq	%r12
	pushq	%rbx
	subq	$3072, %rsp
	movq	$0, (%rsp)
	subq	$3072, %rsp
	movq	$0, (%rsp)
	subq	$232, %rsp
	movq	%r8, 16(%rsp)
	movq	%rsi, 72(%rsp)
	movq	%rdi, 840(%rsp)
	movzbl	(%rdx), %edi
	movzbl	%dil, %r13d
	leaq	1(%rdx), %rsi
	movq	24(%rdx), %r10
	movq	32(%rdx), %rbp
	movzbl	40(%rdx), %ebx
	leaq	41(%rdx), %rax
	movzbl	48(%rdx), %r8d
	movzbl	49(%rdx), %r12d
	movzbl	50(%rdx), %r14d
	movzwl	51(%rdx), %r11d
	movl	%r11d, 32(%rsp)
	movzbl	53(%rdx), %r11d
	movzwl	54(%rdx), %r15d
	movzbl	(%rcx), %edx
	cmpl	$2, %edx
	je	3f
	cmpl	$1, %edx
	jne	5f
	movl	%r11d, %r13d
	movq	%rbp, %r9
	movq	8(%rcx), %rbp
	movl	%ebx, %edx
	movq	16(%rcx), %rbx
	xorps	%xmm0, %xmm0
	movaps	%xmm0, 2272(%rsp)
	movaps	%xmm0, 2288(%rsp)
	movaps	%xmm0, 2304(%rsp)
	movaps	%xmm0, 2320(%rsp)
	movb	%dil, 848(%rsp)
	movups	(%rsi), %xmm0
	movups	%xmm0, 849(%rsp)
	movq	15(%rsi), %rcx
	movq	%rcx, 864(%rsp)
	movq	%r10, 872(%rsp)
	movq	%r9, 880(%rsp)
	movb	%dl, 888(%rsp)
	movl	(%rax), %ecx
	movl	3(%rax), %eax
	movl	%ecx, 889(%rsp)
	movl	%eax, 892(%rsp)
	movb	%r8b, 896(%rsp)
	movb	%r12b, 897(%rsp)
	movb	%r14b, 898(%rsp)
	movl	32(%rsp), %eax
	movw	%ax, 899(%rsp)
	movb	%r11b, 901(%rsp)
	movw	%r15w, 902(%rsp)
	leaq	2272(%rsp), %rdi
	leaq	848(%rsp), %rsi
	movq	%rbp, %rdx
	movq	%rbx, %rcx
	callq	"mime_tool::subjects::input_outcome::<#2ca5e9641c42b07d>"
	movzbl	2280(%rsp), %eax
	cmpb	$0, 2272(%rsp)
	je	8f
	movq	2288(%rsp), %r14
	movb	$1, %r15b
	movups	2296(%rsp), %xmm0
	xorl	%r12d, %r12d
	movq	%rax, %rbp
	jmp	251f
3:
	movq	%rbp, 8(%rsp)
	movb	%r8b, 56(%rsp)
	movb	%r11b, 112(%rsp)
	movw	%r15w, 120(%rsp)
	movb	%r12b, 88(%rsp)
	movl	%r13d, 24(%rsp)
	movq	8(%rcx), %rbp
	movq	16(%rcx), %rcx
	movups	(%rsi), %xmm0
	movaps	%xmm0, 2240(%rsp)
	movq	15(%rsi), %rdx
	movq	%rdx, 2255(%rsp)
	movl	(%rax), %edi
	movl	3(%rax), %edx
	movl	%edi, 792(%rsp)
	movl	%edx, 795(%rsp)
	cmpq	$1, %rcx
	jne	7f
	movzbl	(%rbp), %r9d
	movl	%r9d, %edx
	shll	$16, %edx
	movl	%r9d, %edi
	shll	$8, %edi
	orl	%edx, %edi
	orl	%r9d, %edi
	xorps	%xmm0, %xmm0
	cmpl	$2960685, %edi
	jne	10f
	movups	%xmm0, 448(%rsp)
	movq	$0, 464(%rsp)
	leaq	7(%rsp), %rcx
	movq	%rcx, 304(%rsp)
	movups	%xmm0, 312(%rsp)
	movq	$0, 328(%rsp)
	movq	%rcx, 336(%rsp)
	movups	%xmm0, 344(%rsp)
	movups	(%rsi), %xmm0
	movups	%xmm0, 849(%rsp)
	movq	15(%rsi), %rcx
	movq	%rcx, 864(%rsp)
	movl	(%rax), %ecx
	movl	3(%rax), %eax
	movl	%ecx, 889(%rsp)
	movl	%eax, 892(%rsp)
	movl	32(%rsp), %eax
	movw	%ax, 899(%rsp)
	movzbl	112(%rsp), %eax
	movb	%al, 901(%rsp)
	movzwl	120(%rsp), %eax
	movw	%ax, 902(%rsp)
	movl	24(%rsp), %r15d
	movb	%r15b, 848(%rsp)
	movq	%r10, 872(%rsp)
	movq	8(%rsp), %rcx
	movq	%rcx, 880(%rsp)
	movb	%bl, 888(%rsp)
	movzbl	56(%rsp), %r13d
	movb	%r13b, 896(%rsp)
	movzbl	88(%rsp), %eax
	movb	%al, 897(%rsp)
	movb	%r14b, 898(%rsp)
	leaq	904(%rsp), %rdi
	movb	%r14b, 96(%rsp)
	movb	%bl, 64(%rsp)
	xorl	%ebx, %ebx
	movl	$1328, %edx
	xorl	%esi, %esi
	movq	%rcx, %r14
	movq	%r10, %r12
	callq	memset@PLT
	movl	%r15d, %eax
	leaq	411f(%rip), %rcx
	movslq	(%rcx,%rax,4), %rax
	addq	%rcx, %rax
	jmpq	*%rax
4:
	xorl	%esi, %esi
	jmp	95f
5:
	movl	%r13d, 24(%rsp)
	movq	%r9, 56(%rsp)
	movl	%ebx, %edx
	movq	%rbp, %rbx
	movl	%r14d, %r13d
	movq	8(%rcx), %r14
	movq	16(%rcx), %rbp
	movups	(%rsi), %xmm0
	movups	%xmm0, 2273(%rsp)
	movq	15(%rsi), %rcx
	movq	%rcx, 2288(%rsp)
	movl	(%rax), %ecx
	movl	3(%rax), %eax
	movl	%ecx, 2313(%rsp)
	movl	%eax, 2316(%rsp)
	movl	32(%rsp), %eax
	movw	%ax, 2323(%rsp)
	movb	%r11b, 2325(%rsp)
	movw	%r15w, 2326(%rsp)
	movb	%dil, 2272(%rsp)
	movq	%r10, 2296(%rsp)
	movq	%rbx, 8(%rsp)
	movq	%rbx, 2304(%rsp)
	movb	%dl, 64(%rsp)
	movb	%dl, 2312(%rsp)
	movb	%r8b, 2320(%rsp)
	movb	%r12b, 2321(%rsp)
	movl	%r13d, %r15d
	movb	%r13b, 2322(%rsp)
	leaq	2328(%rsp), %rdi
	xorl	%r12d, %r12d
	movl	$1328, %edx
	xorl	%esi, %esi
	movq	%r10, %r13
	movl	%r8d, %ebx
	callq	memset@PLT
	movl	24(%rsp), %eax
	leaq	412f(%rip), %rcx
	movslq	(%rcx,%rax,4), %rax
	addq	%rcx, %rax
	jmpq	*%rax
6:
	xorl	%esi, %esi
	jmp	24f
7:
	xorps	%xmm0, %xmm0
	movaps	%xmm0, 2432(%rsp)
	movaps	%xmm0, 2416(%rsp)
	movaps	%xmm0, 2400(%rsp)
	movaps	%xmm0, 2384(%rsp)
	movaps	%xmm0, 2368(%rsp)
	movaps	%xmm0, 2352(%rsp)
	movaps	%xmm0, 2336(%rsp)
	movaps	%xmm0, 2320(%rsp)
	movaps	%xmm0, 2304(%rsp)
	movaps	%xmm0, 2288(%rsp)
	movaps	%xmm0, 2272(%rsp)
	testq	%rcx, %rcx
	jne	11f
	jmp	14f
8:
	movzbl	%al, %r15d
	movq	2288(%rsp), %r8
	movq	2296(%rsp), %rdx
	movq	2304(%rsp), %r12
	leaq	2312(%rsp), %rax
	xorps	%xmm0, %xmm0
	movaps	%xmm0, 144(%rsp)
	movaps	%xmm0, 128(%rsp)
	cmpb	$1, %r13b
	jne	25f
	movq	%r8, %r14
	movq	%rdx, %r13
	leaq	128(%rsp), %rdi
	movq	%rbp, %rsi
	movq	%rbx, %rdx
	callq	"mime_tool::line::escape::escaped"
	cmpb	$0, 128(%rsp)
	movq	72(%rsp), %rbp
	je	89f
9:
	xorps	%xmm0, %xmm0
	movb	$2, %bpl
	jmp	88f
10:
	movaps	%xmm0, 2432(%rsp)
	movaps	%xmm0, 2416(%rsp)
	movaps	%xmm0, 2400(%rsp)
	movaps	%xmm0, 2384(%rsp)
	movaps	%xmm0, 2368(%rsp)
	movaps	%xmm0, 2352(%rsp)
	movaps	%xmm0, 2336(%rsp)
	movaps	%xmm0, 2320(%rsp)
	movaps	%xmm0, 2304(%rsp)
	movaps	%xmm0, 2288(%rsp)
	movaps	%xmm0, 2272(%rsp)
11:
	xorl	%eax, %eax
	.p2align	4
12:
	cmpb	$0, (%rbp,%rax)
	je	13f
	incq	%rax
	cmpq	%rax, %rcx
	jne	12b
	jmp	14f
13:
	cmpq	%rcx, %rax
	jae	14f
	movq	%rcx, 16(%rsp)
	leaq	.L399de51ae489(%rip), %rcx
	leaq	848(%rsp), %rdi
	movl	$42, %r8d
	movl	$42, %r9d
	movl	$2, %esi
	movl	$20, %edx
	callq	"std_io::io::error::Error::from_bytes"
	movl	848(%rsp), %r14d
	jmp	15f
14:
	movb	%r14b, 96(%rsp)
	movb	%bl, 64(%rsp)
	movl	32(%rsp), %ebx
	movq	%r10, 104(%rsp)
	leaq	2272(%rsp), %rdi
	movl	$-100, %esi
	movq	%rbp, %rdx
	movq	%rcx, 16(%rsp)
	xorl	%r8d, %r8d
	callq	"std::fs::stat::stat_at"
	movl	2280(%rsp), %r14d
	cmpb	$0, 2272(%rsp)
	je	20f
15:
	movabsq	$2820983053732684064, %rax
	shrl	$8, %r14d
	movaps	1b(%rip), %xmm0
	movaps	%xmm0, 2272(%rsp)
	movaps	2b(%rip), %xmm0
	movaps	%xmm0, 2288(%rsp)
	movq	%rax, 2304(%rsp)
	movb	$40, 2312(%rsp)
	cmpb	$41, %r14b
	jae	16f
	andl	$63, %r14d
	cmpb	$38, 2272(%rsp,%r14)
	jne	16f
	xorps	%xmm0, %xmm0
	movb	$2, %bpl
	movb	$1, %r15b
	xorl	%r12d, %r12d
	xorl	%r14d, %r14d
	jmp	251f
16:
	xorps	%xmm0, %xmm0
	movaps	%xmm0, 848(%rsp)
	movaps	%xmm0, 864(%rsp)
	leaq	.Ld9078770f0cd(%rip), %rax
	movq	%rax, 2272(%rsp)
	movq	$10, 2280(%rsp)
	movq	%rbp, 2288(%rsp)
	movq	16(%rsp), %rax
	movq	%rax, 2296(%rsp)
	leaq	.L38ad3f25f51f(%rip), %rax
	movq	%rax, 2304(%rsp)
	movq	$14, 2312(%rsp)
	leaq	848(%rsp), %rdi
	leaq	2272(%rsp), %rsi
	callq	"std_alloc::string::String::format::<#ae563473db7f7f6d>"
	xorl	%r12d, %r12d
	cmpb	$0, 848(%rsp)
	setne	%bpl
	jne	17f
	movq	856(%rsp), %r14
	xorps	%xmm0, %xmm0
	je	18f
	jmp	19f
17:
	movl	$0, %r14d
	xorps	%xmm0, %xmm0
	jne	19f
18:
	movaps	864(%rsp), %xmm0
19:
	addb	%bpl, %bpl
	movb	$1, %r15b
	jmp	251f
20:
	andl	$61440, %r14d
	cmpl	$4096, %r14d
	je	21f
	cmpl	$16384, %r14d
	je	97f
	cmpl	$32768, %r14d
	jne	98f
21:
	xorps	%xmm0, %xmm0
	movaps	%xmm0, 2272(%rsp)
	movaps	%xmm0, 2288(%rsp)
	movaps	%xmm0, 2304(%rsp)
	movaps	%xmm0, 2320(%rsp)
	movaps	%xmm0, 2336(%rsp)
	movaps	%xmm0, 2352(%rsp)
	movq	$1, 848(%rsp)
	movl	$438, 856(%rsp)
	leaq	2272(%rsp), %rdi
	leaq	848(%rsp), %rsi
	movq	%rbp, %rdx
	movq	16(%rsp), %rcx
	callq	"std::fs::options::OpenOptions::open::<#05cc10b2f530382b>"
	cmpb	$0, 2272(%rsp)
	je	90f
	movl	2280(%rsp), %r14d
	jmp	15b
22:
	movq	%r13, %r8
	movzbl	64(%rsp), %r13d
	movq	8(%rsp), %r10
	cmpb	$3, %r15b
	jne	28f
	testb	$1, %bl
	jne	29f
	testb	$1, %r13b
	jne	29f
	movq	%r10, %rcx
	movabsq	$-3689348814741910323, %rdx
	movq	%r10, %rax
	mulq	%rdx
	shrq	$3, %rcx
	shrq	$5, %rdx
	leaq	(%rcx,%rdx), %rax
	addq	$2, %rax
	movb	$1, %sil
	jmp	30f
23:
	xorl	%r12d, %r12d
	cmpb	$3, %r15b
	setne	%r12b
	movl	$1, %esi
24:
	xorl	%ecx, %ecx
	xorl	%edx, %edx
	xorl	%r8d, %r8d
	xorl	%eax, %eax
	xorl	%edi, %edi
	movq	56(%rsp), %rbx
	movq	16(%rsp), %r13
	jmp	32f
25:
	testl	%r15d, %r15d
	movq	72(%rsp), %rsi
	jne	99f
	movq	%r12, 368(%rsp)
	movups	(%rax), %xmm0
	movups	%xmm0, 376(%rsp)
	movq	16(%rax), %rax
	movq	%rax, 392(%rsp)
	xorps	%xmm0, %xmm0
	movaps	%xmm0, 704(%rsp)
	movaps	%xmm0, 720(%rsp)
	testb	$1, %r12b
	jne	124f
	leaq	.L0791a6fb5224(%rip), %rax
	leaq	.Lb9d66d2d8f9c(%rip), %r15
	movl	32(%rsp), %ecx
	testb	$1, %cl
	cmovneq	%rax, %r15
	testl	$256, %ecx
	jne	84f
	movq	%r8, 16(%rsp)
	movq	%rdx, %r12
	leaq	.L226a292f443d(%rip), %r14
	testb	$1, %cl
	cmovneq	%rax, %r14
	movq	72(%rsp), %rax
	movq	8(%rax), %r13
	testq	%rbx, %rbx
	je	26f
	movq	%r13, %rdi
	movq	%rbp, %rsi
	movq	%rbx, %rdx
	callq	"mime_tool::system::StreamSink::put::<#87f05e477b504f42>"
	movl	32(%rsp), %ecx
	testb	%al, %al
	jne	87f
26:
	movzbl	%cl, %eax
	andl	$1, %eax
	movl	$2, %edx
	subq	%rax, %rdx
	movq	%r13, %rdi
	movq	%r14, %rsi
	callq	"mime_tool::system::StreamSink::put::<#87f05e477b504f42>"
	testb	%al, %al
	jne	87f
	testq	%r12, %r12
	je	27f
	movq	%r12, %rdx
	movq	%r13, %rdi
	movq	16(%rsp), %rsi
	callq	"mime_tool::system::StreamSink::put::<#87f05e477b504f42>"
	testb	%al, %al
	jne	87f
27:
	movl	$1, %edx
	movq	%r13, %rdi
	jmp	86f
28:
	testb	$1, %r13b
	je	96f
29:
	xorl	%eax, %eax
	xorl	%esi, %esi
30:
	xorl	%ecx, %ecx
	xorl	%edx, %edx
	xorl	%edi, %edi
	movq	56(%rsp), %rbx
	movq	16(%rsp), %r13
31:
	movzbl	%sil, %r8d
	xorl	%r12d, %r12d
	xorl	%esi, %esi
32:
	movq	%r12, 848(%rsp)
	movq	$0, 856(%rsp)
	movq	%r12, 864(%rsp)
	movq	%rsi, 872(%rsp)
	movq	$0, 880(%rsp)
	movq	%rsi, 888(%rsp)
	movq	%rcx, 896(%rsp)
	movq	$0, 904(%rsp)
	movq	%rdx, 912(%rsp)
	movq	%r8, 920(%rsp)
	movq	$0, 928(%rsp)
	movq	%rax, 936(%rsp)
	movq	%rdi, 944(%rsp)
	xorps	%xmm0, %xmm0
	movaps	%xmm0, 384(%rsp)
	movaps	%xmm0, 368(%rsp)
	movq	$0, 400(%rsp)
	testq	%rbp, %rbp
	je	34f
	addq	$8, %r14
	xorl	%r12d, %r12d
	movq	72(%rsp), %r15
	.p2align	4
33:
	movq	-8(%r14), %rdx
	movq	(%r14), %rcx
	movq	%r13, %rdi
	movq	%rbx, %rsi
	callq	"mime_tool::words::name_of"
	movq	%rdx, %r9
	leaq	368(%rsp), %rdi
	leaq	2272(%rsp), %rdx
	leaq	848(%rsp), %rcx
	movq	%r15, %rsi
	movq	%rax, %r8
	callq	"mime_tool::line::print_line::<#2e1b2a3647f851f7>"
	cmpb	$0, 368(%rsp)
	jne	35f
	movzbl	369(%rsp), %eax
	movzbl	%r12b, %r12d
	cmpb	%r12b, %al
	cmoval	%eax, %r12d
	addq	$16, %r14
	decq	%rbp
	jne	33b
	xorl	%r14d, %r14d
	xorl	%r15d, %r15d
	xorl	%ebp, %ebp
	xorps	%xmm0, %xmm0
	jmp	36f
34:
	xorl	%r14d, %r14d
	xorl	%r15d, %r15d
	xorl	%r12d, %r12d
	xorl	%ebp, %ebp
	jmp	36f
35:
	movzbl	376(%rsp), %ebp
	movq	384(%rsp), %r14
	movb	$1, %r15b
	movups	392(%rsp), %xmm0
	xorl	%r12d, %r12d
36:
	cmpb	$1, 2328(%rsp)
	movaps	%xmm0, 32(%rsp)
	movq	%rbp, 24(%rsp)
	movq	%r14, 72(%rsp)
	movq	%r15, 16(%rsp)
	jne	40f
	movzbl	2424(%rsp), %ebx
	movq	2432(%rsp), %r15
	movzbl	2440(%rsp), %r13d
	movq	2448(%rsp), %r14
	movzbl	2456(%rsp), %ebp
	movq	2464(%rsp), %rax
	movq	%rax, 8(%rsp)
	cmpb	$1, 2408(%rsp)
	jne	82f
	movq	2416(%rsp), %rdi
	callq	"std_alloc::boxed::Box::drop::<#fbe121e601c74963>"
	cmpb	$1, %bl
	je	83f
37:
	cmpb	$1, %r13b
	jne	39f
38:
	movq	%r14, %rdi
	callq	"std_alloc::boxed::Box::drop::<#2a53b42b743d619c>"
39:
	cmpb	$1, %bpl
	movaps	32(%rsp), %xmm0
	movq	24(%rsp), %rbp
	movq	72(%rsp), %r14
	movq	16(%rsp), %r15
	jne	40f
	movq	8(%rsp), %rdi
	callq	"std_alloc::boxed::Box::drop::<#02fc8b7b85195ce8>"
	movaps	32(%rsp), %xmm0
40:
	cmpb	$1, 2472(%rsp)
	jne	68f
	movq	2512(%rsp), %rdi
	movq	2528(%rsp), %r15
	movq	2536(%rsp), %rax
	movq	%rax, 592(%rsp)
	movq	2552(%rsp), %rbp
	movq	2560(%rsp), %rax
	movq	%rax, 608(%rsp)
	movq	2576(%rsp), %r14
	movq	2584(%rsp), %rax
	movq	%rax, 624(%rsp)
	movq	2600(%rsp), %rax
	movq	%rax, 256(%rsp)
	movq	2608(%rsp), %rax
	movq	%rax, 640(%rsp)
	movq	2624(%rsp), %rax
	movq	%rax, 272(%rsp)
	movq	2632(%rsp), %rax
	movq	%rax, 656(%rsp)
	movq	2648(%rsp), %rax
	movq	%rax, 288(%rsp)
	movq	2680(%rsp), %rax
	movq	%rax, 672(%rsp)
	movq	2696(%rsp), %rax
	movq	%rax, 80(%rsp)
	movq	2704(%rsp), %rax
	movq	%rax, 688(%rsp)
	cmpq	$0, 2504(%rsp)
	movzbl	3064(%rsp), %eax
	movb	%al, 8(%rsp)
	movq	2720(%rsp), %rbx
	movq	2728(%rsp), %rax
	movq	%rax, 600(%rsp)
	movq	2744(%rsp), %r13
	movq	2752(%rsp), %rax
	movq	%rax, 616(%rsp)
	movq	2768(%rsp), %rax
	movq	%rax, 248(%rsp)
	movq	2776(%rsp), %rax
	movq	%rax, 632(%rsp)
	movq	2792(%rsp), %rax
	movq	%rax, 264(%rsp)
	movq	2800(%rsp), %rax
	movq	%rax, 648(%rsp)
	movq	2816(%rsp), %rax
	movq	%rax, 280(%rsp)
	movq	2840(%rsp), %rax
	movq	%rax, 664(%rsp)
	movq	2856(%rsp), %rax
	movq	%rax, 296(%rsp)
	movq	2880(%rsp), %rax
	movq	%rax, 680(%rsp)
	movq	2896(%rsp), %rax
	movq	%rax, 104(%rsp)
	movq	2904(%rsp), %rax
	movq	%rax, 696(%rsp)
	movq	2920(%rsp), %rax
	movq	%rax, 96(%rsp)
	movq	2928(%rsp), %rax
	movq	%rax, 208(%rsp)
	movq	2944(%rsp), %rax
	movq	%rax, 112(%rsp)
	movq	2952(%rsp), %rax
	movq	%rax, 216(%rsp)
	movq	2968(%rsp), %rax
	movq	%rax, 120(%rsp)
	movq	2976(%rsp), %rax
	movq	%rax, 224(%rsp)
	movq	2992(%rsp), %rax
	movq	%rax, 88(%rsp)
	movq	3000(%rsp), %rax
	movq	%rax, 232(%rsp)
	movq	3016(%rsp), %rax
	movq	%rax, 56(%rsp)
	movq	3040(%rsp), %rax
	movq	%rax, 240(%rsp)
	movq	3056(%rsp), %rax
	movq	%rax, 64(%rsp)
	movq	3072(%rsp), %rax
	movq	%rax, 480(%rsp)
	movq	3088(%rsp), %rax
	movq	%rax, 536(%rsp)
	movq	3096(%rsp), %rax
	movq	%rax, 488(%rsp)
	movq	3112(%rsp), %rax
	movq	%rax, 544(%rsp)
	movq	3120(%rsp), %rax
	movq	%rax, 496(%rsp)
	movq	3136(%rsp), %rax
	movq	%rax, 552(%rsp)
	movq	3144(%rsp), %rax
	movq	%rax, 504(%rsp)
	movq	3160(%rsp), %rax
	movq	%rax, 560(%rsp)
	movq	3168(%rsp), %rax
	movq	%rax, 512(%rsp)
	movq	3184(%rsp), %rax
	movq	%rax, 568(%rsp)
	movq	3192(%rsp), %rax
	movq	%rax, 520(%rsp)
	movq	3208(%rsp), %rax
	movq	%rax, 576(%rsp)
	movq	3216(%rsp), %rax
	movq	%rax, 528(%rsp)
	movq	3232(%rsp), %rax
	movq	%rax, 584(%rsp)
	je	41f
	movq	%rbp, 472(%rsp)
	movq	%rbx, %rbp
	movq	%r13, %rbx
	movq	%r14, %r13
	movq	%rdi, %r14
	movq	2488(%rsp), %rdi
	callq	rattle_dealloc@PLT
	movq	%r14, %rdi
	movq	%r13, %r14
	movq	%rbx, %r13
	movq	%rbp, %rbx
	movq	472(%rsp), %rbp
	movaps	32(%rsp), %xmm0
41:
	testq	%r15, %r15
	je	42f
	callq	rattle_dealloc@PLT
	movaps	32(%rsp), %xmm0
42:
	testq	%rbp, %rbp
	movq	16(%rsp), %r15
	je	43f
	movq	592(%rsp), %rdi
	callq	rattle_dealloc@PLT
	movaps	32(%rsp), %xmm0
43:
	testq	%r14, %r14
	movq	24(%rsp), %rbp
	je	44f
	movq	608(%rsp), %rdi
	callq	rattle_dealloc@PLT
	movaps	32(%rsp), %xmm0
44:
	cmpq	$0, 256(%rsp)
	movq	72(%rsp), %r14
	je	45f
	movq	624(%rsp), %rdi
	callq	rattle_dealloc@PLT
	movaps	32(%rsp), %xmm0
45:
	cmpq	$0, 272(%rsp)
	je	46f
	movq	640(%rsp), %rdi
	callq	rattle_dealloc@PLT
	movaps	32(%rsp), %xmm0
46:
	cmpq	$0, 288(%rsp)
	je	47f
	movq	656(%rsp), %rdi
	callq	rattle_dealloc@PLT
	movaps	32(%rsp), %xmm0
47:
	cmpq	$0, 80(%rsp)
	je	48f
	movq	672(%rsp), %rdi
	callq	rattle_dealloc@PLT
	movaps	32(%rsp), %xmm0
48:
	testq	%rbx, %rbx
	je	49f
	movq	688(%rsp), %rdi
	callq	rattle_dealloc@PLT
	movaps	32(%rsp), %xmm0
49:
	testq	%r13, %r13
	je	50f
	movq	600(%rsp), %rdi
	callq	rattle_dealloc@PLT
	movaps	32(%rsp), %xmm0
50:
	cmpq	$0, 248(%rsp)
	je	51f
	movq	616(%rsp), %rdi
	callq	rattle_dealloc@PLT
	movaps	32(%rsp), %xmm0
51:
	cmpq	$0, 264(%rsp)
	je	52f
	movq	632(%rsp), %rdi
	callq	rattle_dealloc@PLT
	movaps	32(%rsp), %xmm0
52:
	cmpq	$0, 280(%rsp)
	je	53f
	movq	648(%rsp), %rdi
	callq	rattle_dealloc@PLT
	movaps	32(%rsp), %xmm0
53:
	cmpq	$0, 296(%rsp)
	je	54f
	movq	664(%rsp), %rdi
	callq	rattle_dealloc@PLT
	movaps	32(%rsp), %xmm0
54:
	cmpq	$0, 104(%rsp)
	je	55f
	movq	680(%rsp), %rdi
	callq	rattle_dealloc@PLT
	movaps	32(%rsp), %xmm0
55:
	cmpq	$0, 96(%rsp)
	je	56f
	movq	696(%rsp), %rdi
	callq	rattle_dealloc@PLT
	movaps	32(%rsp), %xmm0
56:
	cmpq	$0, 112(%rsp)
	je	57f
	movq	208(%rsp), %rdi
	callq	rattle_dealloc@PLT
	movaps	32(%rsp), %xmm0
57:
	cmpq	$0, 120(%rsp)
	je	58f
	movq	216(%rsp), %rdi
	callq	rattle_dealloc@PLT
	movaps	32(%rsp), %xmm0
58:
	cmpq	$0, 88(%rsp)
	je	59f
	movq	224(%rsp), %rdi
	callq	rattle_dealloc@PLT
	movaps	32(%rsp), %xmm0
59:
	cmpq	$0, 56(%rsp)
	je	60f
	movq	232(%rsp), %rdi
	callq	rattle_dealloc@PLT
	movaps	32(%rsp), %xmm0
60:
	cmpq	$0, 64(%rsp)
	je	61f
	movq	240(%rsp), %rdi
	callq	rattle_dealloc@PLT
	movaps	32(%rsp), %xmm0
61:
	cmpb	$1, 8(%rsp)
	jne	68f
	cmpq	$0, 536(%rsp)
	je	62f
	movq	480(%rsp), %rdi
	callq	rattle_dealloc@PLT
62:
	cmpq	$0, 544(%rsp)
	je	63f
	movq	488(%rsp), %rdi
	callq	rattle_dealloc@PLT
63:
	cmpq	$0, 552(%rsp)
	je	64f
	movq	496(%rsp), %rdi
	callq	rattle_dealloc@PLT
64:
	cmpq	$0, 560(%rsp)
	je	65f
	movq	504(%rsp), %rdi
	callq	rattle_dealloc@PLT
65:
	cmpq	$0, 568(%rsp)
	je	66f
	movq	512(%rsp), %rdi
	callq	rattle_dealloc@PLT
66:
	cmpq	$0, 576(%rsp)
	je	67f
	movq	520(%rsp), %rdi
	callq	rattle_dealloc@PLT
67:
	cmpq	$0, 584(%rsp)
	movaps	32(%rsp), %xmm0
	je	68f
	movq	528(%rsp), %rdi
	callq	rattle_dealloc@PLT
	movaps	32(%rsp), %xmm0
68:
	cmpb	$1, 3256(%rsp)
	jne	251f
	movq	3312(%rsp), %rbx
	movq	3328(%rsp), %r13
	movq	3336(%rsp), %rax
	movq	%rax, 208(%rsp)
	movq	3352(%rsp), %rbp
	movq	3360(%rsp), %rax
	movq	%rax, 216(%rsp)
	movq	3376(%rsp), %r14
	movq	3384(%rsp), %rax
	movq	%rax, 224(%rsp)
	movq	3400(%rsp), %r15
	movq	3408(%rsp), %rax
	movq	%rax, 232(%rsp)
	movq	3424(%rsp), %rax
	movq	%rax, 80(%rsp)
	movq	3448(%rsp), %rax
	movq	%rax, 240(%rsp)
	movq	3464(%rsp), %rax
	movq	%rax, 104(%rsp)
	movq	3472(%rsp), %rax
	movq	%rax, 256(%rsp)
	movq	3488(%rsp), %rax
	movq	%rax, 112(%rsp)
	cmpq	$0, 3304(%rsp)
	movq	3496(%rsp), %rax
	movq	%rax, 248(%rsp)
	movq	3512(%rsp), %rax
	movq	%rax, 96(%rsp)
	movq	3520(%rsp), %rax
	movq	%rax, 264(%rsp)
	movq	3536(%rsp), %rax
	movq	%rax, 120(%rsp)
	movq	3544(%rsp), %rax
	movq	%rax, 272(%rsp)
	movq	3560(%rsp), %rax
	movq	%rax, 88(%rsp)
	movq	3568(%rsp), %rax
	movq	%rax, 280(%rsp)
	movq	3584(%rsp), %rax
	movq	%rax, 56(%rsp)
	movq	3592(%rsp), %rax
	movq	%rax, 288(%rsp)
	movq	3608(%rsp), %rax
	movq	%rax, 64(%rsp)
	movq	3616(%rsp), %rax
	movq	%rax, 296(%rsp)
	movq	3632(%rsp), %rax
	movq	%rax, 8(%rsp)
	je	69f
	movq	3288(%rsp), %rdi
	callq	rattle_dealloc@PLT
69:
	testq	%r13, %r13
	je	70f
	movq	%rbx, %rdi
	callq	rattle_dealloc@PLT
70:
	testq	%rbp, %rbp
	je	71f
	movq	208(%rsp), %rdi
	callq	rattle_dealloc@PLT
71:
	testq	%r14, %r14
	movq	24(%rsp), %rbp
	je	72f
	movq	216(%rsp), %rdi
	callq	rattle_dealloc@PLT
72:
	testq	%r15, %r15
	movq	72(%rsp), %r14
	je	73f
	movq	224(%rsp), %rdi
	callq	rattle_dealloc@PLT
73:
	cmpq	$0, 80(%rsp)
	movq	16(%rsp), %r15
	je	74f
	movq	232(%rsp), %rdi
	callq	rattle_dealloc@PLT
74:
	cmpq	$0, 104(%rsp)
	je	75f
	movq	240(%rsp), %rdi
	callq	rattle_dealloc@PLT
75:
	cmpq	$0, 112(%rsp)
	je	76f
	movq	256(%rsp), %rdi
	callq	rattle_dealloc@PLT
76:
	cmpq	$0, 96(%rsp)
	je	77f
	movq	248(%rsp), %rdi
	callq	rattle_dealloc@PLT
77:
	cmpq	$0, 120(%rsp)
	je	78f
	movq	264(%rsp), %rdi
	callq	rattle_dealloc@PLT
78:
	cmpq	$0, 88(%rsp)
	je	79f
	movq	272(%rsp), %rdi
	callq	rattle_dealloc@PLT
79:
	cmpq	$0, 56(%rsp)
	je	80f
	movq	280(%rsp), %rdi
	callq	rattle_dealloc@PLT
80:
	cmpq	$0, 64(%rsp)
	je	81f
	movq	288(%rsp), %rdi
	callq	rattle_dealloc@PLT
81:
	cmpq	$0, 8(%rsp)
	movaps	32(%rsp), %xmm0
	je	251f
	movq	296(%rsp), %rdi
	jmp	249f
82:
	cmpb	$1, %bl
	jne	37b
83:
	movq	%r15, %rdi
	callq	"std_alloc::boxed::Box::drop::<#e973df45dd2be47d>"
	cmpb	$1, %r13b
	je	38b
	jmp	39b
84:
	movq	72(%rsp), %rax
	movq	8(%rax), %r14
	testq	%rdx, %rdx
	je	85f
	movq	%r14, %rdi
	movq	%r8, %rsi
	callq	"mime_tool::system::StreamSink::put::<#87f05e477b504f42>"
	testb	%al, %al
	jne	87f
85:
	movl	$1, %edx
	movq	%r14, %rdi
86:
	movq	%r15, %rsi
	callq	"mime_tool::system::StreamSink::put::<#87f05e477b504f42>"
	testb	%al, %al
	je	109f
87:
	movl	%edx, %ebp
	incb	%bpl
	xorps	%xmm0, %xmm0
88:
	movb	$1, %r15b
	xorl	%r14d, %r14d
	xorl	%r12d, %r12d
	jmp	251f
89:
	movq	136(%rsp), %rbx
	movq	144(%rsp), %rcx
	movq	152(%rsp), %rax
	testl	%r15d, %r15d
	movq	%rax, 16(%rsp)
	jne	111f
	movq	%rcx, %r15
	xorps	%xmm0, %xmm0
	movaps	%xmm0, 320(%rsp)
	movaps	%xmm0, 304(%rsp)
	leaq	304(%rsp), %rdi
	movq	%r14, %rsi
	movq	%r13, %rdx
	callq	"mime_tool::line::escape::escaped"
	cmpb	$0, 304(%rsp)
	je	103f
	movb	$2, %bpl
	movb	$1, %r15b
	xorl	%r14d, %r14d
	xorl	%r12d, %r12d
	xorps	%xmm0, %xmm0
	movq	16(%rsp), %rax
	movq	%rbx, %r13
	jmp	248f
90:
	movl	2276(%rsp), %r15d
	xorps	%xmm0, %xmm0
	movaps	%xmm0, 2432(%rsp)
	movaps	%xmm0, 2416(%rsp)
	movaps	%xmm0, 2400(%rsp)
	movaps	%xmm0, 2384(%rsp)
	movaps	%xmm0, 2368(%rsp)
	movaps	%xmm0, 2352(%rsp)
	movaps	%xmm0, 2336(%rsp)
	movaps	%xmm0, 2320(%rsp)
	movaps	%xmm0, 2304(%rsp)
	movaps	%xmm0, 2288(%rsp)
	movaps	%xmm0, 2272(%rsp)
	leaq	.L22d5119de29e(%rip), %rdx
	leaq	2272(%rsp), %rdi
	movl	%r15d, %esi
	xorl	%ecx, %ecx
	movl	$4096, %r8d
	callq	"std::fs::stat::stat_at"
	movl	2280(%rsp), %r14d
	cmpb	$0, 2272(%rsp)
	je	106f
91:
	movl	%r15d, %edi
	callq	close@PLT
	jmp	15b
92:
	movzbl	64(%rsp), %ecx
	cmpb	$3, 96(%rsp)
	jne	100f
	testb	$1, %r13b
	jne	93f
	movq	%r14, %r10
	testb	$1, %cl
	je	129f
93:
	xorl	%eax, %eax
	xorl	%esi, %esi
	jmp	130f
94:
	xorl	%ebx, %ebx
	cmpb	$3, 96(%rsp)
	setne	%bl
	movl	$1, %esi
95:
	xorl	%ecx, %ecx
	xorl	%edx, %edx
	xorl	%r8d, %r8d
	xorl	%eax, %eax
	xorl	%edi, %edi
	leaq	7(%rsp), %r14
	jmp	132f
96:
	movq	%r10, %rcx
	shrq	$2, %rcx
	movq	%r10, %rdi
	shrq	$3, %rdi
	testb	$1, %bl
	movq	56(%rsp), %rbx
	movq	16(%rsp), %r13
	je	101f
	xorl	%eax, %eax
	xorl	%esi, %esi
	jmp	102f
97:
	movl	$3841, %r14d
	jmp	15b
98:
	movl	$9217, %r14d
	jmp	15b
99:
	cmpl	$1, %r15d
	je	119f
	cmpl	$2, %r15d
	jne	120f
	movaps	%xmm0, 384(%rsp)
	movaps	%xmm0, 368(%rsp)
	movq	$0, 400(%rsp)
	leaq	.L9dce95591b63(%rip), %r8
	leaq	368(%rsp), %rdi
	movl	$13, %r9d
	jmp	122f
100:
	testb	$1, %cl
	movq	%r14, %r10
	leaq	7(%rsp), %r14
	je	110f
	xorl	%eax, %eax
	xorl	%esi, %esi
	xorl	%ecx, %ecx
	xorl	%edx, %edx
	xorl	%edi, %edi
	jmp	131f
101:
	movabsq	$-3689348814741910323, %rdx
	movq	%r10, %rax
	mulq	%rdx
	shrq	$5, %rdx
	leaq	(%rdi,%rdx), %rax
	addq	$2, %rax
	movb	$1, %sil
102:
	movq	%r8, %r9
	leaq	(%rcx,%rdi), %rdx
	addq	$5, %rdx
	movl	$1, %ecx
	xorl	%edi, %edi
	cmpq	$40, %r10
	jb	31b
	cmpq	$268435456, %r10
	ja	31b
	cmpl	$33554688, (%r9)
	jne	31b
	movl	20(%r9), %r8d
	bswapl	%r8d
	leaq	4(%r8), %rdi
	cmpq	%rdi, %r10
	jae	241f
	xorl	%edi, %edi
	jmp	31b
103:
	movq	312(%rsp), %r14
	movq	320(%rsp), %rdx
	movq	328(%rsp), %rcx
	movq	%r12, 368(%rsp)
	leaq	2312(%rsp), %rax
	movups	(%rax), %xmm0
	movups	%xmm0, 376(%rsp)
	movq	16(%rax), %rax
	movq	%rax, 392(%rsp)
	xorps	%xmm0, %xmm0
	movaps	%xmm0, 704(%rsp)
	movaps	%xmm0, 720(%rsp)
	testb	$1, %r12b
	movq	%r14, 64(%rsp)
	movq	%rcx, 8(%rsp)
	movq	%rbx, 24(%rsp)
	jne	370f
	leaq	.L0791a6fb5224(%rip), %rax
	leaq	.Lb9d66d2d8f9c(%rip), %r13
	movl	32(%rsp), %ecx
	testb	$1, %cl
	cmovneq	%rax, %r13
	testl	$256, %ecx
	jne	112f
	movq	%rdx, 56(%rsp)
	leaq	.L226a292f443d(%rip), %r12
	testb	$1, %cl
	cmovneq	%rax, %r12
	movq	8(%rbp), %rbp
	testq	%r15, %r15
	je	104f
	movq	%rbp, %rdi
	movq	24(%rsp), %rsi
	movq	%r15, %rdx
	callq	"mime_tool::system::StreamSink::put::<#87f05e477b504f42>"
	movl	32(%rsp), %ecx
	testb	%al, %al
	jne	115f
104:
	movzbl	%cl, %eax
	andl	$1, %eax
	movl	$2, %edx
	subq	%rax, %rdx
	movq	%rbp, %rdi
	movq	%r12, %rsi
	callq	"mime_tool::system::StreamSink::put::<#87f05e477b504f42>"
	testb	%al, %al
	jne	115f
	movq	56(%rsp), %rdx
	testq	%rdx, %rdx
	je	105f
	movq	%rbp, %rdi
	movq	64(%rsp), %rsi
	callq	"mime_tool::system::StreamSink::put::<#87f05e477b504f42>"
	testb	%al, %al
	jne	115f
105:
	movl	$1, %edx
	movq	%rbp, %rdi
	jmp	114f
106:
	andl	$61440, %r14d
	cmpl	$4096, %r14d
	movq	8(%rsp), %rdx
	movq	104(%rsp), %rsi
	movzbl	56(%rsp), %edi
	je	107f
	cmpl	$16384, %r14d
	je	253f
	cmpl	$32768, %r14d
	jne	254f
107:
	xorps	%xmm0, %xmm0
	movaps	%xmm0, 448(%rsp)
	movaps	%xmm0, 432(%rsp)
	movaps	%xmm0, 416(%rsp)
	movaps	%xmm0, 400(%rsp)
	movaps	%xmm0, 384(%rsp)
	movaps	%xmm0, 368(%rsp)
	movq	$0, 464(%rsp)
	movl	%r15d, 304(%rsp)
	movl	$0, 308(%rsp)
	leaq	7(%rsp), %rax
	movq	%rax, 312(%rsp)
	movups	%xmm0, 320(%rsp)
	movq	$0, 336(%rsp)
	movq	%rax, 344(%rsp)
	movups	%xmm0, 352(%rsp)
	movaps	2240(%rsp), %xmm0
	movups	%xmm0, 849(%rsp)
	movq	2255(%rsp), %rax
	movq	%rax, 864(%rsp)
	movl	792(%rsp), %eax
	movl	795(%rsp), %ecx
	movl	%ecx, 892(%rsp)
	movl	%eax, 889(%rsp)
	movw	%bx, 899(%rsp)
	movzbl	112(%rsp), %eax
	movb	%al, 901(%rsp)
	movzwl	120(%rsp), %eax
	movw	%ax, 902(%rsp)
	movl	24(%rsp), %r15d
	movb	%r15b, 848(%rsp)
	movq	%rsi, 872(%rsp)
	movq	%rdx, 880(%rsp)
	movzbl	64(%rsp), %ebx
	movb	%bl, 888(%rsp)
	movb	%dil, 896(%rsp)
	movzbl	88(%rsp), %eax
	movb	%al, 897(%rsp)
	movzbl	96(%rsp), %r14d
	movb	%r14b, 898(%rsp)
	leaq	904(%rsp), %rdi
	xorl	%r12d, %r12d
	movl	$1328, %edx
	xorl	%esi, %esi
	callq	memset@PLT
	movl	%r15d, %eax
	leaq	410f(%rip), %rcx
	movslq	(%rcx,%rax,4), %rax
	addq	%rcx, %rax
	jmpq	*%rax
108:
	xorl	%esi, %esi
	jmp	258f
109:
	xorps	%xmm0, %xmm0
	xorl	%r14d, %r14d
	xorl	%r15d, %r15d
	xorl	%r12d, %r12d
	xorl	%ebp, %ebp
	jmp	251f
110:
	movq	%r12, %r8
	movq	%r10, %rcx
	shrq	$2, %rcx
	movq	%r10, %rdi
	shrq	$3, %rdi
	testb	$1, %r13b
	je	239f
	xorl	%eax, %eax
	xorl	%esi, %esi
	jmp	240f
111:
	xorps	%xmm0, %xmm0
	cmpl	$1, %r15d
	je	242f
	cmpl	$2, %r15d
	jne	243f
	movaps	%xmm0, 384(%rsp)
	movaps	%xmm0, 368(%rsp)
	movq	$0, 400(%rsp)
	leaq	.L9dce95591b63(%rip), %r8
	leaq	368(%rsp), %rdi
	movl	$13, %r9d
	jmp	245f
112:
	movq	8(%rbp), %r12
	testq	%rdx, %rdx
	je	113f
	movq	%r12, %rdi
	movq	%r14, %rsi
	callq	"mime_tool::system::StreamSink::put::<#87f05e477b504f42>"
	testb	%al, %al
	jne	115f
113:
	movl	$1, %edx
	movq	%r12, %rdi
114:
	movq	%r13, %rsi
	callq	"mime_tool::system::StreamSink::put::<#87f05e477b504f42>"
	testb	%al, %al
	je	255f
115:
	movl	%edx, %ebx
	movq	24(%rsp), %r13
	movq	8(%rsp), %r12
	incb	%bl
	movb	$1, %bpl
116:
	testb	%bpl, %bpl
	sete	%bpl
	testq	%r12, %r12
	je	118f
117:
	movq	64(%rsp), %rdi
	callq	rattle_dealloc@PLT
118:
	movl	%ebp, %r15d
	xorb	$1, %r15b
	movzbl	%bl, %eax
	xorl	%r14d, %r14d
	testb	%bpl, %bpl
	movq	%rax, %rbp
	cmovnel	%r14d, %ebp
	xorps	%xmm0, %xmm0
	jmp	246f
119:
	movaps	%xmm0, 384(%rsp)
	movaps	%xmm0, 368(%rsp)
	movq	$0, 400(%rsp)
	leaq	.L3c133a697ae7(%rip), %r8
	jmp	121f
120:
	movaps	%xmm0, 384(%rsp)
	movaps	%xmm0, 368(%rsp)
	movq	$0, 400(%rsp)
	leaq	.Lccd068a4cc1e(%rip), %r8
121:
	leaq	368(%rsp), %rdi
	movl	$11, %r9d
122:
	movq	%rbp, %rdx
	movq	%rbx, %rcx
	callq	"mime_tool::desk::report::<#2e1b2a3647f851f7>"
	cmpb	$0, 368(%rsp)
	je	123f
	movzbl	376(%rsp), %ebp
	movq	384(%rsp), %r14
	movb	$1, %r15b
	movups	392(%rsp), %xmm0
	xorl	%r12d, %r12d
	jmp	251f
123:
	movb	$1, %r12b
	xorl	%r14d, %r14d
	xorl	%r15d, %r15d
	xorl	%ebp, %ebp
	xorps	%xmm0, %xmm0
	jmp	251f
124:
	movq	%r8, %r13
	movq	%rdx, %r15
	leaq	704(%rsp), %rdi
	leaq	368(%rsp), %rsi
	callq	"mime_tool::line::told"
	cmpb	$0, 704(%rsp)
	jne	9b
	movq	712(%rsp), %r14
	movq	720(%rsp), %r8
	movq	728(%rsp), %rsi
	leaq	.L0791a6fb5224(%rip), %rax
	leaq	.Lb9d66d2d8f9c(%rip), %rdx
	movl	32(%rsp), %ecx
	testb	$1, %cl
	cmovneq	%rax, %rdx
	movq	%rdx, 16(%rsp)
	testl	$256, %ecx
	jne	259f
	movq	%r8, 64(%rsp)
	movq	%r14, 24(%rsp)
	movq	%rsi, 8(%rsp)
	leaq	.L226a292f443d(%rip), %r14
	testb	$1, %cl
	cmovneq	%rax, %r14
	movq	72(%rsp), %rax
	movq	8(%rax), %rdi
	testq	%rbx, %rbx
	je	125f
	movq	%rdi, %r12
	movq	%rbp, %rsi
	movq	%rbx, %rdx
	callq	"mime_tool::system::StreamSink::put::<#87f05e477b504f42>"
	movq	%r12, %rdi
	movl	32(%rsp), %ecx
	testb	%al, %al
	jne	126f
125:
	movzbl	%cl, %eax
	andl	$1, %eax
	movl	$2, %edx
	subq	%rax, %rdx
	movq	%rdi, %rbx
	movq	%r14, %rsi
	callq	"mime_tool::system::StreamSink::put::<#87f05e477b504f42>"
	testb	%al, %al
	je	381f
126:
	movl	%edx, %r12d
	movq	8(%rsp), %rbp
	incb	%r12b
	xorl	%ebx, %ebx
	movq	24(%rsp), %r14
	testq	%rbp, %rbp
	je	128f
127:
	movq	%r14, %rdi
	callq	rattle_dealloc@PLT
128:
	movl	%ebx, %r15d
	xorb	$1, %r15b
	movzbl	%r12b, %ebp
	xorl	%r14d, %r14d
	testb	%bl, %bl
	cmovnel	%r14d, %ebp
	xorps	%xmm0, %xmm0
	xorl	%r12d, %r12d
	jmp	251f
129:
	movq	%r10, %rcx
	movabsq	$-3689348814741910323, %rdx
	movq	%r10, %rax
	mulq	%rdx
	shrq	$3, %rcx
	shrq	$5, %rdx
	leaq	(%rcx,%rdx), %rax
	addq	$2, %rax
	movb	$1, %sil
130:
	xorl	%ecx, %ecx
	xorl	%edx, %edx
	xorl	%edi, %edi
	leaq	7(%rsp), %r14
131:
	movzbl	%sil, %r8d
	xorl	%ebx, %ebx
	xorl	%esi, %esi
132:
	leaq	344(%rsp), %r15
	movq	%rbx, 368(%rsp)
	movq	$0, 376(%rsp)
	movq	%rbx, 384(%rsp)
	movq	%rsi, 392(%rsp)
	movq	$0, 400(%rsp)
	movq	%rsi, 408(%rsp)
	movq	%rcx, 416(%rsp)
	movq	$0, 424(%rsp)
	movq	%rdx, 432(%rsp)
	movq	%r8, 440(%rsp)
	movq	$0, 448(%rsp)
	movq	%rax, 456(%rsp)
	movq	%rdi, 464(%rsp)
	movl	$1, %eax
	movq	%rax, 64(%rsp)
	xorl	%r12d, %r12d
	movq	%rbp, 80(%rsp)
133:
	movq	336(%rsp), %rax
	movq	352(%rsp), %r13
	movq	%r14, 336(%rsp)
	xorps	%xmm0, %xmm0
	movups	%xmm0, (%r15)
	movq	%rax, 32(%rsp)
	movq	%rax, 176(%rsp)
	movq	$0, 184(%rsp)
	movq	%r13, 192(%rsp)
	movq	304(%rsp), %r9
	movq	312(%rsp), %r15
	movq	328(%rsp), %rax
	xorl	%ebp, %ebp
	xorl	%ecx, %ecx
134:
	movq	%rcx, 16(%rsp)
	addq	%rax, %r9
	xorl	%ecx, %ecx
	subq	%rax, %r15
	cmovbq	%rcx, %r15
	leaq	.L22d5119de29e(%rip), %r14
	cmovaeq	%r9, %r14
	cmovbq	%rcx, %r15
	xorl	%edi, %edi
	movq	%r14, %rsi
	movq	%r15, %rdx
	callq	"memchr::bytes::memchr"
	movl	%eax, %r8d
	movq	%rdx, %rbx
	cmpb	$1, %al
	cmovneq	%r15, %rbx
	movq	%r13, %rax
	subq	%rbp, %rax
	cmpq	%rax, %rbx
	movq	72(%rsp), %r15
	movq	%rbp, %r9
	ja	160f
135:
	xorps	%xmm0, %xmm0
	leaq	184(%rsp), %rax
	movups	%xmm0, (%rax)
	movq	32(%rsp), %rax
	leaq	(%rax,%r9), %rdi
	movq	%rdi, %rax
	subq	%r14, %rax
	cmpq	%rbx, %rax
	jae	141f
	cmpq	$4, %rbx
	jb	136f
	cmpq	$32, %rax
	jae	155f
136:
	xorl	%eax, %eax
137:
	movq	%rbx, %rdx
	movq	%rax, %rcx
	andq	$3, %rdx
	je	139f
	movq	%rax, %rcx
	.p2align	4
138:
	movzbl	(%r14,%rcx), %esi
	movb	%sil, (%rdi,%rcx)
	incq	%rcx
	decq	%rdx
	jne	138b
139:
	subq	%rbx, %rax
	cmpq	$-4, %rax
	ja	142f
	movq	32(%rsp), %rax
	addq	%r9, %rax
	addq	$3, %rax
	.p2align	4
140:
	movzbl	(%r14,%rcx), %edx
	movb	%dl, -3(%rax,%rcx)
	movzbl	1(%r14,%rcx), %edx
	movb	%dl, -2(%rax,%rcx)
	movzbl	2(%r14,%rcx), %edx
	movb	%dl, -1(%rax,%rcx)
	movzbl	3(%r14,%rcx), %edx
	movb	%dl, (%rax,%rcx)
	addq	$4, %rcx
	cmpq	%rcx, %rbx
	jne	140b
	jmp	142f
141:
	movq	%r14, %rsi
	movq	%rbx, %rdx
	movq	%r9, %r14
	movl	%r8d, %ebp
	callq	memmove@PLT
	movl	%ebp, %r8d
	movq	%r14, %r9
142:
	movl	%r8d, %eax
	andb	$1, %al
	movzbl	%al, %eax
	addq	%rbx, %r9
	movq	%r9, 184(%rsp)
	movq	%r13, 192(%rsp)
	addq	%rbx, %rax
	addq	%rax, 328(%rsp)
	testb	$1, %r8b
	jne	167f
	movq	%r9, 24(%rsp)
	movq	8(%r15), %rdi
	callq	"mime_tool::system::StreamSink::flush::<#87f05e477b504f42>"
	testb	%al, %al
	jne	234f
	leaq	2272(%rsp), %rdi
	movl	$4096, %edx
	xorl	%esi, %esi
	callq	memset@PLT
	xorps	%xmm0, %xmm0
	movaps	%xmm0, 128(%rsp)
	movl	$1000, %r14d
	movabsq	$2820983053732684064, %r15
	.p2align	4
143:
	leaq	2272(%rsp), %rbx
	movl	$4096, %ebp
	movl	$4096, %edx
	xorl	%edi, %edi
	movq	%rbx, %rsi
	callq	read@PLT
	testq	%rax, %rax
	jns	144f
	callq	rattle_errno@PLT
	leaq	704(%rsp), %rdi
	movl	%eax, %esi
	callq	"std_io::io::error::Error::from_raw_os_error"
	movq	704(%rsp), %rax
	shrq	$8, %rax
	movaps	1b(%rip), %xmm0
	movaps	%xmm0, 704(%rsp)
	movaps	2b(%rip), %xmm0
	movaps	%xmm0, 720(%rsp)
	movq	%r15, 736(%rsp)
	movb	$40, 744(%rsp)
	cmpb	$41, %al
	jae	179f
	andl	$63, %eax
	cmpb	$35, 704(%rsp,%rax)
	jne	179f
	decl	%r14d
	jne	143b
	leaq	128(%rsp), %rdi
	leaq	2272(%rsp), %rsi
	movl	$4096, %edx
	callq	"mime_lookup::content::UntoldContent::read_piece::<#f1288b38c1c1b0eb>"
	cmpb	$0, 128(%rsp)
	jne	179f
	movq	136(%rsp), %rbp
	jmp	145f
144:
	cmpq	$4096, %rax
	cmovbq	%rax, %rbp
145:
	movq	$0, 312(%rsp)
	movq	320(%rsp), %r14
	cmpq	%r14, %rbp
	movq	%r13, 8(%rsp)
	ja	166f
	xorl	%eax, %eax
146:
	leaq	(%rax,%rbp), %r15
	movq	304(%rsp), %r9
	leaq	(%r9,%rax), %rdi
	movq	%rdi, %rcx
	subq	%rbx, %rcx
	cmpq	%rbp, %rcx
	jae	153f
	cmpq	$4, %rbp
	jb	147f
	movq	%rax, %rcx
	subq	%rbx, %rcx
	addq	%r9, %rcx
	cmpq	$32, %rcx
	jae	161f
147:
	xorl	%ecx, %ecx
148:
	movq	%rbp, %rsi
	movq	%rcx, %rdx
	andq	$3, %rsi
	je	150f
	movq	%rcx, %rdx
	.p2align	4
149:
	movzbl	2272(%rsp,%rdx), %r8d
	movb	%r8b, (%rdi,%rdx)
	incq	%rdx
	decq	%rsi
	jne	149b
150:
	subq	%rbp, %rcx
	cmpq	$-4, %rcx
	ja	152f
	addq	%r9, %rax
	addq	$3, %rax
	.p2align	4
151:
	movzbl	2272(%rsp,%rdx), %ecx
	movb	%cl, -3(%rax,%rdx)
	movzbl	2273(%rsp,%rdx), %ecx
	movb	%cl, -2(%rax,%rdx)
	movzbl	2274(%rsp,%rdx), %ecx
	movb	%cl, -1(%rax,%rdx)
	movzbl	2275(%rsp,%rdx), %ecx
	movb	%cl, (%rax,%rdx)
	addq	$4, %rdx
	cmpq	%rdx, %rbp
	jne	151b
152:
	movq	%r15, 312(%rsp)
	movq	%r14, 320(%rsp)
	movq	$0, 328(%rsp)
	movq	16(%rsp), %rcx
	jmp	154f
153:
	leaq	2272(%rsp), %rsi
	movq	%rbp, %rdx
	movq	%r9, %rbx
	callq	memmove@PLT
	movq	%rbx, %r9
	movq	%r15, 312(%rsp)
	movq	%r14, 320(%rsp)
	movq	$0, 328(%rsp)
	testq	%rbp, %rbp
	movq	16(%rsp), %rcx
	je	168f
154:
	incq	%rcx
	xorl	%eax, %eax
	cmpq	$-1, %rcx
	movq	8(%rsp), %r13
	movq	24(%rsp), %rbp
	jne	134b
	jmp	235f
155:
	cmpq	$32, %rbx
	jae	156f
	xorl	%eax, %eax
	jmp	158f
156:
	movq	%rbx, %rax
	andq	$-32, %rax
	movq	32(%rsp), %rcx
	addq	%r9, %rcx
	addq	$16, %rcx
	xorl	%edx, %edx
	.p2align	4
157:
	movups	(%r14,%rdx), %xmm0
	movups	16(%r14,%rdx), %xmm1
	movups	%xmm0, -16(%rcx,%rdx)
	movups	%xmm1, (%rcx,%rdx)
	addq	$32, %rdx
	cmpq	%rdx, %rax
	jne	157b
	cmpq	%rax, %rbx
	je	142b
	testb	$28, %bl
	je	137b
158:
	movq	%rax, %rcx
	movq	%rbx, %rax
	andq	$-4, %rax
	.p2align	4
159:
	movl	(%r14,%rcx), %edx
	movl	%edx, (%rdi,%rcx)
	addq	$4, %rcx
	cmpq	%rcx, %rax
	jne	159b
	cmpq	%rax, %rbx
	je	142b
	jmp	137b
160:
	movl	%r8d, %ebp
	leaq	176(%rsp), %rdi
	movq	%rbx, %rsi
	callq	"std_alloc::vec::Vec::grow_amortized::<#1d775b5957dec42c>"
	testb	%al, %al
	je	371f
	movq	176(%rsp), %rax
	movq	%rax, 32(%rsp)
	movq	184(%rsp), %r9
	movq	192(%rsp), %r13
	movl	%ebp, %r8d
	jmp	135b
161:
	cmpq	$32, %rbp
	jae	162f
	xorl	%ecx, %ecx
	jmp	164f
162:
	movq	%rbp, %rcx
	andq	$-32, %rcx
	leaq	(%r9,%rax), %rdx
	addq	$16, %rdx
	xorl	%esi, %esi
163:
	movups	2272(%rsp,%rsi), %xmm0
	movups	2288(%rsp,%rsi), %xmm1
	movups	%xmm0, -16(%rdx,%rsi)
	movups	%xmm1, (%rdx,%rsi)
	addq	$32, %rsi
	cmpq	%rsi, %rcx
	jne	163b
	cmpq	%rcx, %rbp
	je	152b
	testb	$28, %bpl
	je	148b
164:
	movq	%rcx, %rdx
	movq	%rbp, %rcx
	andq	$-4, %rcx
	.p2align	4
165:
	movl	2272(%rsp,%rdx), %esi
	movl	%esi, (%rdi,%rdx)
	addq	$4, %rdx
	cmpq	%rdx, %rcx
	jne	165b
	cmpq	%rcx, %rbp
	je	152b
	jmp	148b
166:
	leaq	304(%rsp), %rdi
	movq	%rbp, %rsi
	callq	"std_alloc::vec::Vec::grow_amortized::<#1d775b5957dec42c>"
	testb	%al, %al
	je	380f
	movq	312(%rsp), %rax
	movq	320(%rsp), %r14
	jmp	146b
167:
	movq	176(%rsp), %rbx
	xorps	%xmm0, %xmm0
	movaps	%xmm0, 144(%rsp)
	movaps	%xmm0, 128(%rsp)
	movq	$0, 160(%rsp)
	testq	%r9, %r9
	movq	%r13, 8(%rsp)
	jne	169f
	movq	%r9, %r14
	movaps	%xmm0, 176(%rsp)
	movaps	%xmm0, 192(%rsp)
	movq	64(%rsp), %rax
	movq	%rax, 832(%rsp)
	leaq	.L79d79dcad8f3(%rip), %rax
	movq	%rax, 704(%rsp)
	movq	$5, 712(%rsp)
	leaq	832(%rsp), %rax
	movq	%rax, 720(%rsp)
	leaq	.La6e8590c0799(%rip), %rax
	movq	%rax, 728(%rsp)
	movq	$9, 736(%rsp)
	leaq	176(%rsp), %rdi
	leaq	704(%rsp), %rsi
	callq	"std_alloc::string::String::format::<#f2176ccb71fc584c>"
	cmpb	$0, 176(%rsp)
	je	173f
	movw	$1, 128(%rsp)
	movq	$2, 136(%rsp)
	xorps	%xmm0, %xmm0
	leaq	144(%rsp), %rax
	movups	%xmm0, (%rax)
	movq	$0, 16(%rax)
	movb	$1, %r15b
	movb	$2, %r13b
	xorl	%ebp, %ebp
	testb	%r15b, %r15b
	je	170f
	jmp	177f
168:
	movq	24(%rsp), %r9
	testq	%r9, %r9
	je	395f
	movq	176(%rsp), %rbx
	xorps	%xmm0, %xmm0
	movaps	%xmm0, 144(%rsp)
	movaps	%xmm0, 128(%rsp)
	movq	$0, 160(%rsp)
	movq	72(%rsp), %r15
169:
	leaq	128(%rsp), %rdi
	leaq	848(%rsp), %rdx
	leaq	368(%rsp), %rcx
	movq	%r15, %rsi
	movq	%rbx, %r8
	movq	%r9, %r14
	callq	"mime_tool::line::print_line::<#2e1b2a3647f851f7>"
	movzbl	128(%rsp), %r15d
	movzbl	129(%rsp), %ebp
	movzbl	136(%rsp), %r13d
	testb	%r15b, %r15b
	jne	177f
170:
	movzbl	%bpl, %eax
	movzbl	%r12b, %r12d
	cmpb	%r12b, %al
	cmoval	%eax, %r12d
	movq	8(%rsp), %rax
	cmpq	$4096, %rax
	ja	171f
	movq	336(%rsp), %rdi
	movq	%rbx, 336(%rsp)
	movq	%r14, 344(%rsp)
	cmpq	$0, 352(%rsp)
	movq	%rax, 352(%rsp)
	leaq	7(%rsp), %r14
	leaq	344(%rsp), %r15
	je	172f
	callq	rattle_dealloc@PLT
	jmp	172f
171:
	movq	%rbx, %rdi
	callq	rattle_dealloc@PLT
	leaq	7(%rsp), %r14
	leaq	344(%rsp), %r15
172:
	movq	64(%rsp), %rax
	incq	%rax
	movq	%rax, 64(%rsp)
	cmpq	$-1, %rax
	jne	133b
	jmp	374f
173:
	movq	184(%rsp), %r8
	movq	200(%rsp), %rax
	movq	%rax, 32(%rsp)
	movq	192(%rsp), %r9
	xorps	%xmm0, %xmm0
	movaps	%xmm0, 2288(%rsp)
	movaps	%xmm0, 2272(%rsp)
	movq	$0, 2304(%rsp)
	leaq	2272(%rsp), %rdi
	movl	$1, %ecx
	movq	%r15, %rsi
	movq	80(%rsp), %rdx
	movq	%r8, 16(%rsp)
	callq	"mime_tool::desk::report::<#2e1b2a3647f851f7>"
	cmpb	$0, 2272(%rsp)
	je	174f
	movzbl	2280(%rsp), %r13d
	leaq	2288(%rsp), %rax
	movups	(%rax), %xmm0
	movaps	%xmm0, 800(%rsp)
	movq	16(%rax), %rax
	movq	%rax, 816(%rsp)
	movb	$1, %r15b
	xorl	%ebp, %ebp
	jmp	175f
174:
	xorps	%xmm0, %xmm0
	movaps	%xmm0, 800(%rsp)
	movq	$0, 816(%rsp)
	movb	$1, %bpl
	xorl	%r15d, %r15d
	xorl	%r13d, %r13d
175:
	cmpq	$0, 32(%rsp)
	je	176f
	movq	16(%rsp), %rdi
	callq	rattle_dealloc@PLT
176:
	movb	%r15b, 128(%rsp)
	movb	%bpl, 129(%rsp)
	movq	%r13, 136(%rsp)
	movq	816(%rsp), %rax
	leaq	144(%rsp), %rcx
	movq	%rax, 16(%rcx)
	movaps	800(%rsp), %xmm0
	movups	%xmm0, (%rcx)
	testb	%r15b, %r15b
	je	170b
177:
	movq	144(%rsp), %r14
	movups	152(%rsp), %xmm0
	movb	$1, %r15b
	cmpq	$0, 8(%rsp)
	je	178f
	movq	%rbx, %rdi
	movaps	%xmm0, 32(%rsp)
	callq	rattle_dealloc@PLT
	movaps	32(%rsp), %xmm0
178:
	xorl	%r12d, %r12d
	movq	%r13, %rbp
	jmp	184f
179:
	xorps	%xmm0, %xmm0
	movaps	%xmm0, 128(%rsp)
	movaps	%xmm0, 144(%rsp)
	leaq	.Ld9078770f0cd(%rip), %rax
	movq	%rax, 704(%rsp)
	movq	$10, 712(%rsp)
	movq	80(%rsp), %rax
	movq	%rax, 720(%rsp)
	movq	$1, 728(%rsp)
	leaq	.L38ad3f25f51f(%rip), %rax
	movq	%rax, 736(%rsp)
	movq	$14, 744(%rsp)
	leaq	128(%rsp), %rdi
	leaq	704(%rsp), %rsi
	callq	"std_alloc::string::String::format::<#ae563473db7f7f6d>"
	xorl	%r14d, %r14d
	cmpb	$0, 128(%rsp)
	setne	%bpl
	jne	180f
	movq	136(%rsp), %r14
180:
	xorps	%xmm0, %xmm0
	jne	181f
	movaps	144(%rsp), %xmm0
181:
	addb	%bpl, %bpl
	testq	%r13, %r13
	je	183f
182:
	movq	176(%rsp), %rdi
	movaps	%xmm0, 32(%rsp)
	callq	rattle_dealloc@PLT
	movaps	32(%rsp), %xmm0
183:
	movb	$1, %r15b
	xorl	%r12d, %r12d
184:
	movaps	%xmm0, 32(%rsp)
	cmpb	$1, 904(%rsp)
	movq	%r14, 72(%rsp)
	movq	%r15, 16(%rsp)
	jne	188f
	movq	%rbp, %r14
	movzbl	1000(%rsp), %ebx
	movq	1008(%rsp), %r15
	movzbl	1016(%rsp), %r13d
	movq	1024(%rsp), %rax
	movq	%rax, 64(%rsp)
	movzbl	1032(%rsp), %ebp
	movq	1040(%rsp), %rax
	movq	%rax, 8(%rsp)
	cmpb	$1, 984(%rsp)
	jne	232f
	movq	992(%rsp), %rdi
	callq	"std_alloc::boxed::Box::drop::<#fbe121e601c74963>"
	cmpb	$1, %bl
	je	233f
185:
	cmpb	$1, %r13b
	jne	187f
186:
	movq	64(%rsp), %rdi
	callq	"std_alloc::boxed::Box::drop::<#2a53b42b743d619c>"
187:
	cmpb	$1, %bpl
	movq	%r14, %rbp
	movq	72(%rsp), %r14
	movq	16(%rsp), %r15
	jne	188f
	movq	8(%rsp), %rdi
	callq	"std_alloc::boxed::Box::drop::<#02fc8b7b85195ce8>"
188:
	cmpb	$1, 1048(%rsp)
	movq	%rbp, 24(%rsp)
	jne	216f
	movq	1088(%rsp), %rdi
	movq	1104(%rsp), %r15
	movq	1112(%rsp), %rax
	movq	%rax, 584(%rsp)
	movq	1128(%rsp), %rbp
	movq	1136(%rsp), %rax
	movq	%rax, 600(%rsp)
	movq	1152(%rsp), %r13
	movq	1160(%rsp), %rax
	movq	%rax, 616(%rsp)
	movq	1176(%rsp), %rax
	movq	%rax, 256(%rsp)
	movq	1184(%rsp), %rax
	movq	%rax, 632(%rsp)
	movq	1200(%rsp), %rax
	movq	%rax, 272(%rsp)
	movq	1208(%rsp), %rax
	movq	%rax, 648(%rsp)
	movq	1224(%rsp), %rax
	movq	%rax, 288(%rsp)
	movq	1256(%rsp), %rax
	movq	%rax, 664(%rsp)
	movq	1272(%rsp), %rax
	movq	%rax, 80(%rsp)
	movq	1280(%rsp), %rax
	movq	%rax, 680(%rsp)
	cmpq	$0, 1080(%rsp)
	movzbl	1640(%rsp), %eax
	movb	%al, 8(%rsp)
	movq	1296(%rsp), %rbx
	movq	1304(%rsp), %rax
	movq	%rax, 592(%rsp)
	movq	1320(%rsp), %rax
	movq	%rax, 240(%rsp)
	movq	1328(%rsp), %rax
	movq	%rax, 608(%rsp)
	movq	1344(%rsp), %rax
	movq	%rax, 248(%rsp)
	movq	1352(%rsp), %rax
	movq	%rax, 624(%rsp)
	movq	1368(%rsp), %rax
	movq	%rax, 264(%rsp)
	movq	1376(%rsp), %rax
	movq	%rax, 640(%rsp)
	movq	1392(%rsp), %rax
	movq	%rax, 280(%rsp)
	movq	1416(%rsp), %rax
	movq	%rax, 656(%rsp)
	movq	1432(%rsp), %rax
	movq	%rax, 296(%rsp)
	movq	1456(%rsp), %rax
	movq	%rax, 672(%rsp)
	movq	1472(%rsp), %rax
	movq	%rax, 104(%rsp)
	movq	1480(%rsp), %rax
	movq	%rax, 688(%rsp)
	movq	1496(%rsp), %rax
	movq	%rax, 96(%rsp)
	movq	1504(%rsp), %rax
	movq	%rax, 696(%rsp)
	movq	1520(%rsp), %rax
	movq	%rax, 112(%rsp)
	movq	1528(%rsp), %rax
	movq	%rax, 208(%rsp)
	movq	1544(%rsp), %rax
	movq	%rax, 120(%rsp)
	movq	1552(%rsp), %rax
	movq	%rax, 216(%rsp)
	movq	1568(%rsp), %rax
	movq	%rax, 88(%rsp)
	movq	1576(%rsp), %rax
	movq	%rax, 224(%rsp)
	movq	1592(%rsp), %rax
	movq	%rax, 56(%rsp)
	movq	1616(%rsp), %rax
	movq	%rax, 232(%rsp)
	movq	1632(%rsp), %rax
	movq	%rax, 64(%rsp)
	movq	1648(%rsp), %rax
	movq	%rax, 472(%rsp)
	movq	1664(%rsp), %rax
	movq	%rax, 528(%rsp)
	movq	1672(%rsp), %rax
	movq	%rax, 480(%rsp)
	movq	1688(%rsp), %rax
	movq	%rax, 536(%rsp)
	movq	1696(%rsp), %rax
	movq	%rax, 488(%rsp)
	movq	1712(%rsp), %rax
	movq	%rax, 544(%rsp)
	movq	1720(%rsp), %rax
	movq	%rax, 496(%rsp)
	movq	1736(%rsp), %rax
	movq	%rax, 552(%rsp)
	movq	1744(%rsp), %rax
	movq	%rax, 504(%rsp)
	movq	1760(%rsp), %rax
	movq	%rax, 560(%rsp)
	movq	1768(%rsp), %rax
	movq	%rax, 512(%rsp)
	movq	1784(%rsp), %rax
	movq	%rax, 568(%rsp)
	movq	1792(%rsp), %rax
	movq	%rax, 520(%rsp)
	movq	1808(%rsp), %rax
	movq	%rax, 576(%rsp)
	je	189f
	movq	%rdi, %r14
	movq	1064(%rsp), %rdi
	callq	rattle_dealloc@PLT
	movq	%r14, %rdi
189:
	testq	%r15, %r15
	je	190f
	callq	rattle_dealloc@PLT
190:
	testq	%rbp, %rbp
	movq	16(%rsp), %r15
	je	191f
	movq	584(%rsp), %rdi
	callq	rattle_dealloc@PLT
191:
	testq	%r13, %r13
	movq	24(%rsp), %rbp
	je	192f
	movq	600(%rsp), %rdi
	callq	rattle_dealloc@PLT
192:
	cmpq	$0, 256(%rsp)
	movq	72(%rsp), %r14
	je	193f
	movq	616(%rsp), %rdi
	callq	rattle_dealloc@PLT
193:
	cmpq	$0, 272(%rsp)
	je	194f
	movq	632(%rsp), %rdi
	callq	rattle_dealloc@PLT
194:
	cmpq	$0, 288(%rsp)
	je	195f
	movq	648(%rsp), %rdi
	callq	rattle_dealloc@PLT
195:
	cmpq	$0, 80(%rsp)
	je	196f
	movq	664(%rsp), %rdi
	callq	rattle_dealloc@PLT
196:
	testq	%rbx, %rbx
	je	197f
	movq	680(%rsp), %rdi
	callq	rattle_dealloc@PLT
197:
	cmpq	$0, 240(%rsp)
	je	198f
	movq	592(%rsp), %rdi
	callq	rattle_dealloc@PLT
198:
	cmpq	$0, 248(%rsp)
	je	199f
	movq	608(%rsp), %rdi
	callq	rattle_dealloc@PLT
199:
	cmpq	$0, 264(%rsp)
	je	200f
	movq	624(%rsp), %rdi
	callq	rattle_dealloc@PLT
200:
	cmpq	$0, 280(%rsp)
	je	201f
	movq	640(%rsp), %rdi
	callq	rattle_dealloc@PLT
201:
	cmpq	$0, 296(%rsp)
	je	202f
	movq	656(%rsp), %rdi
	callq	rattle_dealloc@PLT
202:
	cmpq	$0, 104(%rsp)
	je	203f
	movq	672(%rsp), %rdi
	callq	rattle_dealloc@PLT
203:
	cmpq	$0, 96(%rsp)
	je	204f
	movq	688(%rsp), %rdi
	callq	rattle_dealloc@PLT
204:
	cmpq	$0, 112(%rsp)
	je	205f
	movq	696(%rsp), %rdi
	callq	rattle_dealloc@PLT
205:
	cmpq	$0, 120(%rsp)
	je	206f
	movq	208(%rsp), %rdi
	callq	rattle_dealloc@PLT
206:
	cmpq	$0, 88(%rsp)
	je	207f
	movq	216(%rsp), %rdi
	callq	rattle_dealloc@PLT
207:
	cmpq	$0, 56(%rsp)
	je	208f
	movq	224(%rsp), %rdi
	callq	rattle_dealloc@PLT
208:
	cmpq	$0, 64(%rsp)
	je	209f
	movq	232(%rsp), %rdi
	callq	rattle_dealloc@PLT
209:
	cmpb	$1, 8(%rsp)
	jne	216f
	cmpq	$0, 528(%rsp)
	je	210f
	movq	472(%rsp), %rdi
	callq	rattle_dealloc@PLT
210:
	cmpq	$0, 536(%rsp)
	je	211f
	movq	480(%rsp), %rdi
	callq	rattle_dealloc@PLT
211:
	cmpq	$0, 544(%rsp)
	je	212f
	movq	488(%rsp), %rdi
	callq	rattle_dealloc@PLT
212:
	cmpq	$0, 552(%rsp)
	je	213f
	movq	496(%rsp), %rdi
	callq	rattle_dealloc@PLT
213:
	cmpq	$0, 560(%rsp)
	je	214f
	movq	504(%rsp), %rdi
	callq	rattle_dealloc@PLT
214:
	cmpq	$0, 568(%rsp)
	je	215f
	movq	512(%rsp), %rdi
	callq	rattle_dealloc@PLT
215:
	cmpq	$0, 576(%rsp)
	je	216f
	movq	520(%rsp), %rdi
	callq	rattle_dealloc@PLT
216:
	cmpb	$1, 1832(%rsp)
	jne	230f
	movq	1888(%rsp), %rdi
	movq	1904(%rsp), %r13
	movq	1912(%rsp), %rax
	movq	%rax, 208(%rsp)
	movq	1928(%rsp), %rbp
	movq	1936(%rsp), %rax
	movq	%rax, 216(%rsp)
	movq	1952(%rsp), %r14
	movq	1960(%rsp), %rax
	movq	%rax, 224(%rsp)
	movq	1976(%rsp), %rbx
	movq	1984(%rsp), %rax
	movq	%rax, 232(%rsp)
	movq	2000(%rsp), %rax
	movq	%rax, 80(%rsp)
	movq	2024(%rsp), %rax
	movq	%rax, 240(%rsp)
	movq	2040(%rsp), %rax
	movq	%rax, 104(%rsp)
	movq	2048(%rsp), %rax
	movq	%rax, 256(%rsp)
	movq	2064(%rsp), %rax
	movq	%rax, 112(%rsp)
	cmpq	$0, 1880(%rsp)
	movq	2072(%rsp), %rax
	movq	%rax, 248(%rsp)
	movq	2088(%rsp), %rax
	movq	%rax, 96(%rsp)
	movq	2096(%rsp), %rax
	movq	%rax, 264(%rsp)
	movq	2112(%rsp), %rax
	movq	%rax, 120(%rsp)
	movq	2120(%rsp), %rax
	movq	%rax, 272(%rsp)
	movq	2136(%rsp), %rax
	movq	%rax, 88(%rsp)
	movq	2144(%rsp), %rax
	movq	%rax, 280(%rsp)
	movq	2160(%rsp), %rax
	movq	%rax, 56(%rsp)
	movq	2168(%rsp), %rax
	movq	%rax, 288(%rsp)
	movq	2184(%rsp), %rax
	movq	%rax, 64(%rsp)
	movq	2192(%rsp), %rax
	movq	%rax, 296(%rsp)
	movq	2208(%rsp), %rax
	movq	%rax, 8(%rsp)
	je	217f
	movq	%rdi, %r15
	movq	1864(%rsp), %rdi
	callq	rattle_dealloc@PLT
	movq	%r15, %rdi
217:
	testq	%r13, %r13
	je	218f
	callq	rattle_dealloc@PLT
218:
	testq	%rbp, %rbp
	je	219f
	movq	208(%rsp), %rdi
	callq	rattle_dealloc@PLT
219:
	testq	%r14, %r14
	movq	24(%rsp), %rbp
	je	220f
	movq	216(%rsp), %rdi
	callq	rattle_dealloc@PLT
220:
	testq	%rbx, %rbx
	movq	72(%rsp), %r14
	je	221f
	movq	224(%rsp), %rdi
	callq	rattle_dealloc@PLT
221:
	cmpq	$0, 80(%rsp)
	movq	16(%rsp), %r15
	je	222f
	movq	232(%rsp), %rdi
	callq	rattle_dealloc@PLT
222:
	cmpq	$0, 104(%rsp)
	je	223f
	movq	240(%rsp), %rdi
	callq	rattle_dealloc@PLT
223:
	cmpq	$0, 112(%rsp)
	je	224f
	movq	256(%rsp), %rdi
	callq	rattle_dealloc@PLT
224:
	cmpq	$0, 96(%rsp)
	je	225f
	movq	248(%rsp), %rdi
	callq	rattle_dealloc@PLT
225:
	cmpq	$0, 120(%rsp)
	je	226f
	movq	264(%rsp), %rdi
	callq	rattle_dealloc@PLT
226:
	cmpq	$0, 88(%rsp)
	je	227f
	movq	272(%rsp), %rdi
	callq	rattle_dealloc@PLT
227:
	cmpq	$0, 56(%rsp)
	je	228f
	movq	280(%rsp), %rdi
	callq	rattle_dealloc@PLT
228:
	cmpq	$0, 64(%rsp)
	je	229f
	movq	288(%rsp), %rdi
	callq	rattle_dealloc@PLT
229:
	cmpq	$0, 8(%rsp)
	je	230f
	movq	296(%rsp), %rdi
	callq	rattle_dealloc@PLT
230:
	cmpq	$0, 320(%rsp)
	je	231f
	movq	304(%rsp), %rdi
	callq	rattle_dealloc@PLT
231:
	cmpq	$0, 352(%rsp)
	je	250f
	movq	336(%rsp), %rdi
	jmp	249f
232:
	cmpb	$1, %bl
	jne	185b
233:
	movq	%r15, %rdi
	callq	"std_alloc::boxed::Box::drop::<#e973df45dd2be47d>"
	cmpb	$1, %r13b
	je	186b
	jmp	187b
234:
	movl	%edx, %ebp
	incb	%bpl
	xorps	%xmm0, %xmm0
	jmp	236f
235:
	xorps	%xmm0, %xmm0
	movb	$2, %bpl
236:
	testq	%r13, %r13
	je	238f
237:
	movq	176(%rsp), %rdi
	callq	rattle_dealloc@PLT
	xorps	%xmm0, %xmm0
238:
	xorl	%r14d, %r14d
	jmp	183b
239:
	movabsq	$-3689348814741910323, %rdx
	movq	%r10, %rax
	mulq	%rdx
	shrq	$5, %rdx
	leaq	(%rdi,%rdx), %rax
	addq	$2, %rax
	movb	$1, %sil
240:
	movq	%r8, %r9
	leaq	(%rcx,%rdi), %rdx
	addq	$5, %rdx
	movl	$1, %ecx
	xorl	%edi, %edi
	cmpq	$40, %r10
	jb	131b
	cmpq	$268435456, %r10
	ja	131b
	cmpl	$33554688, (%r9)
	jne	131b
	movl	20(%r9), %r8d
	bswapl	%r8d
	leaq	4(%r8), %rdi
	cmpq	%rdi, %r10
	jae	263f
	xorl	%edi, %edi
	jmp	131b
241:
	movl	(%r9,%r8), %r8d
	bswapl	%r8d
	leaq	(%r8,%r8,2), %r9
	leaq	(%rdi,%r9,4), %r9
	xorl	%edi, %edi
	cmpq	%r9, %r10
	cmovaeq	%r8, %rdi
	jmp	31b
242:
	movaps	%xmm0, 384(%rsp)
	movaps	%xmm0, 368(%rsp)
	movq	$0, 400(%rsp)
	leaq	.L3c133a697ae7(%rip), %r8
	jmp	244f
243:
	movaps	%xmm0, 384(%rsp)
	movaps	%xmm0, 368(%rsp)
	movq	$0, 400(%rsp)
	leaq	.Lccd068a4cc1e(%rip), %r8
244:
	leaq	368(%rsp), %rdi
	movl	$11, %r9d
245:
	movq	%rbp, %rsi
	movq	%rbx, %r13
	movq	%rbx, %rdx
	callq	"mime_tool::desk::report::<#2e1b2a3647f851f7>"
	cmpb	$0, 368(%rsp)
	je	252f
	movzbl	376(%rsp), %ebp
	movq	384(%rsp), %r14
	movb	$1, %r15b
	movups	392(%rsp), %xmm0
246:
	xorl	%r12d, %r12d
247:
	movq	16(%rsp), %rax
248:
	testq	%rax, %rax
	je	251f
	movq	%r13, %rdi
	movaps	%xmm0, 32(%rsp)
249:
	callq	rattle_dealloc@PLT
250:
	movaps	32(%rsp), %xmm0
251:
	movzbl	%bpl, %eax
	movq	840(%rsp), %rcx
	movb	%r15b, (%rcx)
	movb	%r12b, 1(%rcx)
	movq	%rax, 8(%rcx)
	movq	%r14, 16(%rcx)
	movups	%xmm0, 24(%rcx)
	addq	$6376, %rsp
	popq	%rbx
	popq	%r12
	popq	%r13
	popq	%r14
	popq	%r15
	popq	%rbp
	retq
252:
	movb	$1, %r12b
	xorl	%r14d, %r14d
	xorl	%r15d, %r15d
	xorl	%ebp, %ebp
	xorps	%xmm0, %xmm0
	jmp	247b
253:
	movl	$3841, %r14d
	jmp	91b
254:
	movl	$9217, %r14d
	jmp	91b
255:
	xorl	%ebp, %ebp
	xorl	%ebx, %ebx
	movq	24(%rsp), %r13
	movq	8(%rsp), %r12
	jmp	116b
256:
	cmpb	$3, %r14b
	leaq	.L22d5119de29e(%rip), %r13
	jne	264f
	testb	$1, 56(%rsp)
	jne	265f
	testb	$1, %bl
	jne	265f
	movq	8(%rsp), %rax
	movq	%rax, %rcx
	movabsq	$-3689348814741910323, %rdx
	mulq	%rdx
	shrq	$3, %rcx
	shrq	$5, %rdx
	leaq	(%rcx,%rdx), %rax
	addq	$2, %rax
	movb	$1, %sil
	jmp	266f
257:
	xorl	%r12d, %r12d
	cmpb	$3, %r14b
	setne	%r12b
	movl	$1, %esi
258:
	xorl	%ecx, %ecx
	xorl	%edx, %edx
	xorl	%r8d, %r8d
	xorl	%eax, %eax
	xorl	%edi, %edi
	leaq	.L22d5119de29e(%rip), %r13
	jmp	268f
259:
	movq	%rsi, %rbp
	movq	72(%rsp), %rax
	movq	8(%rax), %rbx
	testq	%r15, %r15
	je	260f
	movq	%rbx, %rdi
	movq	%r13, %rsi
	movq	%r15, %rdx
	movq	%r8, %r15
	callq	"mime_tool::system::StreamSink::put::<#87f05e477b504f42>"
	movq	%r15, %r8
	testb	%al, %al
	jne	262f
260:
	testq	%r8, %r8
	je	261f
	movq	%rbx, %rdi
	movq	%r14, %rsi
	movq	%r8, %rdx
	callq	"mime_tool::system::StreamSink::put::<#87f05e477b504f42>"
	testb	%al, %al
	jne	262f
261:
	movl	$1, %edx
	movq	%rbx, %rdi
	movq	16(%rsp), %rsi
	callq	"mime_tool::system::StreamSink::put::<#87f05e477b504f42>"
	testb	%al, %al
	je	394f
262:
	movl	%edx, %r12d
	incb	%r12b
	xorl	%ebx, %ebx
	testq	%rbp, %rbp
	jne	127b
	jmp	128b
263:
	movl	(%r9,%r8), %r8d
	bswapl	%r8d
	leaq	(%r8,%r8,2), %r9
	leaq	(%rdi,%r9,4), %r9
	xorl	%edi, %edi
	cmpq	%r9, %r10
	cmovaeq	%r8, %rdi
	jmp	131b
264:
	testb	$1, %bl
	movq	8(%rsp), %r8
	movzbl	56(%rsp), %eax
	je	373f
265:
	xorl	%eax, %eax
	xorl	%esi, %esi
266:
	xorl	%ecx, %ecx
	xorl	%edx, %edx
	xorl	%edi, %edi
267:
	movzbl	%sil, %r8d
	xorl	%r12d, %r12d
	xorl	%esi, %esi
268:
	movq	%rbp, 80(%rsp)
	leaq	352(%rsp), %r15
	movq	%r12, 368(%rsp)
	movq	$0, 376(%rsp)
	movq	%r12, 384(%rsp)
	movq	%rsi, 392(%rsp)
	movq	$0, 400(%rsp)
	movq	%rsi, 408(%rsp)
	movq	%rcx, 416(%rsp)
	movq	$0, 424(%rsp)
	movq	%rdx, 432(%rsp)
	movq	%r8, 440(%rsp)
	movq	$0, 448(%rsp)
	movq	%rax, 456(%rsp)
	movq	%rdi, 464(%rsp)
	movl	$1, %eax
	movq	%rax, 56(%rsp)
	xorl	%r12d, %r12d
269:
	movq	344(%rsp), %rcx
	movq	360(%rsp), %r14
	leaq	7(%rsp), %rax
	movq	%rax, 344(%rsp)
	xorps	%xmm0, %xmm0
	movups	%xmm0, (%r15)
	movq	%rcx, 32(%rsp)
	movq	%rcx, 176(%rsp)
	movq	$0, 184(%rsp)
	movq	%r14, 192(%rsp)
	movq	312(%rsp), %r15
	movq	320(%rsp), %r9
	movq	336(%rsp), %rax
	xorl	%ebp, %ebp
	xorl	%ecx, %ecx
270:
	movq	%rcx, 64(%rsp)
	addq	%rax, %r15
	xorl	%ecx, %ecx
	subq	%rax, %r9
	cmovbq	%rcx, %r9
	cmovbq	%r13, %r15
	cmovbq	%rcx, %r9
	xorl	%edi, %edi
	movq	%r15, %rsi
	movq	%r9, %rdx
	movq	%r9, %r13
	callq	"memchr::bytes::memchr"
	movl	%eax, %r8d
	movq	%rdx, %rbx
	cmpb	$1, %al
	cmovneq	%r13, %rbx
	movq	%r14, %rax
	subq	%rbp, %rax
	cmpq	%rax, %rbx
	movq	%rbp, %r9
	ja	296f
271:
	xorps	%xmm0, %xmm0
	leaq	184(%rsp), %rax
	movups	%xmm0, (%rax)
	movq	32(%rsp), %rax
	leaq	(%rax,%r9), %rdi
	movq	%rdi, %rax
	subq	%r15, %rax
	cmpq	%rbx, %rax
	jae	277f
	cmpq	$4, %rbx
	jb	272f
	cmpq	$32, %rax
	jae	291f
272:
	xorl	%eax, %eax
273:
	movq	%rbx, %rdx
	movq	%rax, %rcx
	andq	$3, %rdx
	je	275f
	movq	%rax, %rcx
274:
	movzbl	(%r15,%rcx), %esi
	movb	%sil, (%rdi,%rcx)
	incq	%rcx
	decq	%rdx
	jne	274b
275:
	subq	%rbx, %rax
	cmpq	$-4, %rax
	ja	278f
	movq	32(%rsp), %rax
	addq	%r9, %rax
	addq	$3, %rax
276:
	movzbl	(%r15,%rcx), %edx
	movb	%dl, -3(%rax,%rcx)
	movzbl	1(%r15,%rcx), %edx
	movb	%dl, -2(%rax,%rcx)
	movzbl	2(%r15,%rcx), %edx
	movb	%dl, -1(%rax,%rcx)
	movzbl	3(%r15,%rcx), %edx
	movb	%dl, (%rax,%rcx)
	addq	$4, %rcx
	cmpq	%rcx, %rbx
	jne	276b
	jmp	278f
277:
	movq	%r15, %rsi
	movq	%rbx, %rdx
	movq	%r9, %r15
	movl	%r8d, %ebp
	callq	memmove@PLT
	movl	%ebp, %r8d
	movq	%r15, %r9
278:
	movl	%r8d, %eax
	andb	$1, %al
	movzbl	%al, %eax
	addq	%rbx, %r9
	movq	%r9, 184(%rsp)
	movq	%r14, 192(%rsp)
	addq	%rbx, %rax
	addq	%rax, 336(%rsp)
	testb	$1, %r8b
	movq	%r14, 24(%rsp)
	movq	%r9, 8(%rsp)
	jne	303f
	movq	72(%rsp), %rax
	movq	8(%rax), %rdi
	callq	"mime_tool::system::StreamSink::flush::<#87f05e477b504f42>"
	testb	%al, %al
	jne	372f
	leaq	2272(%rsp), %rdi
	movl	$4096, %edx
	xorl	%esi, %esi
	callq	memset@PLT
	xorps	%xmm0, %xmm0
	movaps	%xmm0, 128(%rsp)
	movl	$1000, %r15d
	movl	304(%rsp), %r14d
279:
	leaq	2272(%rsp), %rbx
	movl	$4096, %ebp
	movl	$4096, %edx
	movl	%r14d, %edi
	movq	%rbx, %rsi
	callq	read@PLT
	testq	%rax, %rax
	jns	280f
	callq	rattle_errno@PLT
	leaq	704(%rsp), %rdi
	movl	%eax, %esi
	callq	"std_io::io::error::Error::from_raw_os_error"
	movq	704(%rsp), %rax
	shrq	$8, %rax
	movaps	1b(%rip), %xmm0
	movaps	%xmm0, 704(%rsp)
	movaps	2b(%rip), %xmm0
	movaps	%xmm0, 720(%rsp)
	movabsq	$2820983053732684064, %rcx
	movq	%rcx, 736(%rsp)
	movb	$40, 744(%rsp)
	cmpb	$41, %al
	jae	315f
	andl	$63, %eax
	cmpb	$35, 704(%rsp,%rax)
	jne	315f
	decl	%r15d
	jne	279b
	leaq	128(%rsp), %rdi
	leaq	2272(%rsp), %rdx
	movl	$4096, %ecx
	movl	%r14d, %esi
	callq	"mime_lookup::content::UntoldContent::read_piece::<13'std::fs::File,17'std::fs::FileRead{}>"
	cmpb	$0, 128(%rsp)
	jne	315f
	movq	136(%rsp), %rbp
	jmp	281f
280:
	cmpq	$4096, %rax
	cmovbq	%rax, %rbp
281:
	movq	$0, 320(%rsp)
	movq	328(%rsp), %r14
	cmpq	%r14, %rbp
	ja	302f
	xorl	%eax, %eax
282:
	leaq	(%rax,%rbp), %r9
	movq	312(%rsp), %r15
	leaq	(%r15,%rax), %rdi
	movq	%rdi, %rcx
	subq	%rbx, %rcx
	cmpq	%rbp, %rcx
	jae	289f
	cmpq	$4, %rbp
	jb	283f
	movq	%rax, %rcx
	subq	%rbx, %rcx
	addq	%r15, %rcx
	cmpq	$32, %rcx
	jae	297f
283:
	xorl	%ecx, %ecx
284:
	movq	%rbp, %rsi
	movq	%rcx, %rdx
	andq	$3, %rsi
	je	286f
	movq	%rcx, %rdx
285:
	movzbl	2272(%rsp,%rdx), %r8d
	movb	%r8b, (%rdi,%rdx)
	incq	%rdx
	decq	%rsi
	jne	285b
286:
	subq	%rbp, %rcx
	cmpq	$-4, %rcx
	ja	288f
	addq	%r15, %rax
	addq	$3, %rax
287:
	movzbl	2272(%rsp,%rdx), %ecx
	movb	%cl, -3(%rax,%rdx)
	movzbl	2273(%rsp,%rdx), %ecx
	movb	%cl, -2(%rax,%rdx)
	movzbl	2274(%rsp,%rdx), %ecx
	movb	%cl, -1(%rax,%rdx)
	movzbl	2275(%rsp,%rdx), %ecx
	movb	%cl, (%rax,%rdx)
	addq	$4, %rdx
	cmpq	%rdx, %rbp
	jne	287b
288:
	movq	%r9, 320(%rsp)
	movq	%r14, 328(%rsp)
	movq	$0, 336(%rsp)
	movq	64(%rsp), %rcx
	jmp	290f
289:
	leaq	2272(%rsp), %rsi
	movq	%rbp, %rdx
	movq	%r9, %rbx
	callq	memmove@PLT
	movq	%rbx, %r9
	movq	%rbx, 320(%rsp)
	movq	%r14, 328(%rsp)
	movq	$0, 336(%rsp)
	testq	%rbp, %rbp
	movq	64(%rsp), %rcx
	je	304f
290:
	incq	%rcx
	xorl	%eax, %eax
	cmpq	$-1, %rcx
	leaq	.L22d5119de29e(%rip), %r13
	movq	24(%rsp), %r14
	movq	8(%rsp), %rbp
	jne	270b
	jmp	384f
291:
	cmpq	$32, %rbx
	jae	292f
	xorl	%eax, %eax
	jmp	294f
292:
	movq	%rbx, %rax
	andq	$-32, %rax
	movq	32(%rsp), %rcx
	addq	%r9, %rcx
	addq	$16, %rcx
	xorl	%edx, %edx
293:
	movups	(%r15,%rdx), %xmm0
	movups	16(%r15,%rdx), %xmm1
	movups	%xmm0, -16(%rcx,%rdx)
	movups	%xmm1, (%rcx,%rdx)
	addq	$32, %rdx
	cmpq	%rdx, %rax
	jne	293b
	cmpq	%rax, %rbx
	je	278b
	testb	$28, %bl
	je	273b
294:
	movq	%rax, %rcx
	movq	%rbx, %rax
	andq	$-4, %rax
295:
	movl	(%r15,%rcx), %edx
	movl	%edx, (%rdi,%rcx)
	addq	$4, %rcx
	cmpq	%rcx, %rax
	jne	295b
	cmpq	%rax, %rbx
	je	278b
	jmp	273b
296:
	movl	%r8d, %ebp
	leaq	176(%rsp), %rdi
	movq	%rbx, %rsi
	callq	"std_alloc::vec::Vec::grow_amortized::<#1d775b5957dec42c>"
	testb	%al, %al
	je	402f
	movq	176(%rsp), %rax
	movq	%rax, 32(%rsp)
	movq	184(%rsp), %r9
	movq	192(%rsp), %r14
	movl	%ebp, %r8d
	jmp	271b
297:
	cmpq	$32, %rbp
	jae	298f
	xorl	%ecx, %ecx
	jmp	300f
298:
	movq	%rbp, %rcx
	andq	$-32, %rcx
	leaq	(%r15,%rax), %rdx
	addq	$16, %rdx
	xorl	%esi, %esi
299:
	movups	2272(%rsp,%rsi), %xmm0
	movups	2288(%rsp,%rsi), %xmm1
	movups	%xmm0, -16(%rdx,%rsi)
	movups	%xmm1, (%rdx,%rsi)
	addq	$32, %rsi
	cmpq	%rsi, %rcx
	jne	299b
	cmpq	%rcx, %rbp
	je	288b
	testb	$28, %bpl
	je	284b
300:
	movq	%rcx, %rdx
	movq	%rbp, %rcx
	andq	$-4, %rcx
301:
	movl	2272(%rsp,%rdx), %esi
	movl	%esi, (%rdi,%rdx)
	addq	$4, %rdx
	cmpq	%rdx, %rcx
	jne	301b
	cmpq	%rcx, %rbp
	je	288b
	jmp	284b
302:
	leaq	312(%rsp), %rdi
	movq	%rbp, %rsi
	callq	"std_alloc::vec::Vec::grow_amortized::<#1d775b5957dec42c>"
	testb	%al, %al
	je	406f
	movq	320(%rsp), %rax
	movq	328(%rsp), %r14
	jmp	282b
303:
	movq	176(%rsp), %rbx
	xorps	%xmm0, %xmm0
	movaps	%xmm0, 144(%rsp)
	movaps	%xmm0, 128(%rsp)
	movq	$0, 160(%rsp)
	testq	%r9, %r9
	movq	72(%rsp), %rsi
	jne	305f
	movaps	%xmm0, 176(%rsp)
	movaps	%xmm0, 192(%rsp)
	movq	56(%rsp), %rax
	movq	%rax, 832(%rsp)
	leaq	.L79d79dcad8f3(%rip), %rax
	movq	%rax, 704(%rsp)
	movq	$5, 712(%rsp)
	leaq	832(%rsp), %rax
	movq	%rax, 720(%rsp)
	leaq	.La6e8590c0799(%rip), %rax
	movq	%rax, 728(%rsp)
	movq	$9, 736(%rsp)
	leaq	176(%rsp), %rdi
	leaq	704(%rsp), %rsi
	callq	"std_alloc::string::String::format::<#f2176ccb71fc584c>"
	cmpb	$0, 176(%rsp)
	je	309f
	movw	$1, 128(%rsp)
	movq	$2, 136(%rsp)
	xorps	%xmm0, %xmm0
	leaq	144(%rsp), %rax
	movups	%xmm0, (%rax)
	movq	$0, 16(%rax)
	movb	$1, %r15b
	movb	$2, %r14b
	xorl	%ebp, %ebp
	testb	%r15b, %r15b
	je	306f
	jmp	313f
304:
	movq	8(%rsp), %r9
	testq	%r9, %r9
	je	407f
	movq	176(%rsp), %rbx
	xorps	%xmm0, %xmm0
	movaps	%xmm0, 144(%rsp)
	movaps	%xmm0, 128(%rsp)
	movq	$0, 160(%rsp)
	movq	72(%rsp), %rsi
305:
	leaq	128(%rsp), %rdi
	leaq	848(%rsp), %rdx
	leaq	368(%rsp), %rcx
	movq	%rbx, %r8
	callq	"mime_tool::line::print_line::<#2e1b2a3647f851f7>"
	movzbl	128(%rsp), %r15d
	movzbl	129(%rsp), %ebp
	movzbl	136(%rsp), %r14d
	testb	%r15b, %r15b
	jne	313f
306:
	movzbl	%bpl, %eax
	movzbl	%r12b, %r12d
	cmpb	%r12b, %al
	cmoval	%eax, %r12d
	movq	24(%rsp), %rax
	cmpq	$4096, %rax
	leaq	352(%rsp), %r15
	movq	8(%rsp), %rcx
	ja	307f
	movq	344(%rsp), %rdi
	movq	%rbx, 344(%rsp)
	movq	%rcx, 352(%rsp)
	cmpq	$0, 360(%rsp)
	movq	%rax, 360(%rsp)
	leaq	.L22d5119de29e(%rip), %r13
	je	308f
	callq	rattle_dealloc@PLT
	jmp	308f
307:
	movq	%rbx, %rdi
	callq	rattle_dealloc@PLT
	leaq	.L22d5119de29e(%rip), %r13
308:
	movq	56(%rsp), %rax
	incq	%rax
	movq	%rax, 56(%rsp)
	cmpq	$-1, %rax
	jne	269b
	jmp	405f
309:
	movq	184(%rsp), %r13
	movq	200(%rsp), %rax
	movq	%rax, 32(%rsp)
	movq	192(%rsp), %r9
	xorps	%xmm0, %xmm0
	movaps	%xmm0, 2288(%rsp)
	movaps	%xmm0, 2272(%rsp)
	movq	$0, 2304(%rsp)
	leaq	2272(%rsp), %rdi
	movq	72(%rsp), %rsi
	movq	80(%rsp), %rdx
	movq	16(%rsp), %rcx
	movq	%r13, %r8
	callq	"mime_tool::desk::report::<#2e1b2a3647f851f7>"
	cmpb	$0, 2272(%rsp)
	je	310f
	movzbl	2280(%rsp), %r14d
	leaq	2288(%rsp), %rax
	movups	(%rax), %xmm0
	movaps	%xmm0, 800(%rsp)
	movq	16(%rax), %rax
	movq	%rax, 816(%rsp)
	movb	$1, %r15b
	xorl	%ebp, %ebp
	jmp	311f
310:
	xorps	%xmm0, %xmm0
	movaps	%xmm0, 800(%rsp)
	movq	$0, 816(%rsp)
	movb	$1, %bpl
	xorl	%r15d, %r15d
	xorl	%r14d, %r14d
311:
	cmpq	$0, 32(%rsp)
	je	312f
	movq	%r13, %rdi
	callq	rattle_dealloc@PLT
312:
	movb	%r15b, 128(%rsp)
	movb	%bpl, 129(%rsp)
	movq	%r14, 136(%rsp)
	movq	816(%rsp), %rax
	leaq	144(%rsp), %rcx
	movq	%rax, 16(%rcx)
	movaps	800(%rsp), %xmm0
	movups	%xmm0, (%rcx)
	testb	%r15b, %r15b
	je	306b
313:
	movq	144(%rsp), %r15
	movups	152(%rsp), %xmm0
	movaps	%xmm0, 32(%rsp)
	cmpq	$0, 24(%rsp)
	je	314f
	movq	%rbx, %rdi
	callq	rattle_dealloc@PLT
314:
	xorl	%r12d, %r12d
	movq	%r14, %rbp
	movq	%r15, %r14
	movb	$1, %r15b
	jmp	320f
315:
	xorps	%xmm0, %xmm0
	movaps	%xmm0, 128(%rsp)
	movaps	%xmm0, 144(%rsp)
	leaq	.Ld9078770f0cd(%rip), %rax
	movq	%rax, 704(%rsp)
	movq	$10, 712(%rsp)
	movq	80(%rsp), %rax
	movq	%rax, 720(%rsp)
	movq	16(%rsp), %rax
	movq	%rax, 728(%rsp)
	leaq	.L38ad3f25f51f(%rip), %rax
	movq	%rax, 736(%rsp)
	movq	$14, 744(%rsp)
	leaq	128(%rsp), %rdi
	leaq	704(%rsp), %rsi
	callq	"std_alloc::string::String::format::<#ae563473db7f7f6d>"
	xorl	%r14d, %r14d
	cmpb	$0, 128(%rsp)
	setne	%bpl
	jne	316f
	movq	136(%rsp), %r14
316:
	xorps	%xmm0, %xmm0
	jne	317f
	movaps	144(%rsp), %xmm0
317:
	addb	%bpl, %bpl
	movaps	%xmm0, 32(%rsp)
	cmpq	$0, 24(%rsp)
	je	319f
318:
	movq	176(%rsp), %rdi
	callq	rattle_dealloc@PLT
319:
	movb	$1, %r15b
	xorl	%r12d, %r12d
320:
	cmpb	$1, 904(%rsp)
	movq	%rbp, 24(%rsp)
	movq	%r14, 72(%rsp)
	movq	%r15, 16(%rsp)
	jne	324f
	movzbl	1000(%rsp), %ebx
	movq	1008(%rsp), %r15
	movzbl	1016(%rsp), %r13d
	movq	1024(%rsp), %r14
	movzbl	1032(%rsp), %ebp
	movq	1040(%rsp), %rax
	movq	%rax, 8(%rsp)
	cmpb	$1, 984(%rsp)
	jne	368f
	movq	992(%rsp), %rdi
	callq	"std_alloc::boxed::Box::drop::<#fbe121e601c74963>"
	cmpb	$1, %bl
	je	369f
321:
	cmpb	$1, %r13b
	jne	323f
322:
	movq	%r14, %rdi
	callq	"std_alloc::boxed::Box::drop::<#2a53b42b743d619c>"
323:
	cmpb	$1, %bpl
	movq	24(%rsp), %rbp
	movq	72(%rsp), %r14
	movq	16(%rsp), %r15
	jne	324f
	movq	8(%rsp), %rdi
	callq	"std_alloc::boxed::Box::drop::<#02fc8b7b85195ce8>"
324:
	cmpb	$1, 1048(%rsp)
	jne	352f
	movq	1088(%rsp), %rdi
	movq	1104(%rsp), %r15
	movq	1112(%rsp), %rax
	movq	%rax, 592(%rsp)
	movq	1128(%rsp), %rbp
	movq	1136(%rsp), %rax
	movq	%rax, 608(%rsp)
	movq	1152(%rsp), %r14
	movq	1160(%rsp), %rax
	movq	%rax, 624(%rsp)
	movq	1176(%rsp), %rax
	movq	%rax, 256(%rsp)
	movq	1184(%rsp), %rax
	movq	%rax, 640(%rsp)
	movq	1200(%rsp), %rax
	movq	%rax, 272(%rsp)
	movq	1208(%rsp), %rax
	movq	%rax, 656(%rsp)
	movq	1224(%rsp), %rax
	movq	%rax, 288(%rsp)
	movq	1256(%rsp), %rax
	movq	%rax, 672(%rsp)
	movq	1272(%rsp), %rax
	movq	%rax, 80(%rsp)
	movq	1280(%rsp), %rax
	movq	%rax, 688(%rsp)
	cmpq	$0, 1080(%rsp)
	movzbl	1640(%rsp), %eax
	movb	%al, 8(%rsp)
	movq	1296(%rsp), %rbx
	movq	1304(%rsp), %rax
	movq	%rax, 600(%rsp)
	movq	1320(%rsp), %r13
	movq	1328(%rsp), %rax
	movq	%rax, 616(%rsp)
	movq	1344(%rsp), %rax
	movq	%rax, 248(%rsp)
	movq	1352(%rsp), %rax
	movq	%rax, 632(%rsp)
	movq	1368(%rsp), %rax
	movq	%rax, 264(%rsp)
	movq	1376(%rsp), %rax
	movq	%rax, 648(%rsp)
	movq	1392(%rsp), %rax
	movq	%rax, 280(%rsp)
	movq	1416(%rsp), %rax
	movq	%rax, 664(%rsp)
	movq	1432(%rsp), %rax
	movq	%rax, 296(%rsp)
	movq	1456(%rsp), %rax
	movq	%rax, 680(%rsp)
	movq	1472(%rsp), %rax
	movq	%rax, 104(%rsp)
	movq	1480(%rsp), %rax
	movq	%rax, 696(%rsp)
	movq	1496(%rsp), %rax
	movq	%rax, 96(%rsp)
	movq	1504(%rsp), %rax
	movq	%rax, 208(%rsp)
	movq	1520(%rsp), %rax
	movq	%rax, 112(%rsp)
	movq	1528(%rsp), %rax
	movq	%rax, 216(%rsp)
	movq	1544(%rsp), %rax
	movq	%rax, 120(%rsp)
	movq	1552(%rsp), %rax
	movq	%rax, 224(%rsp)
	movq	1568(%rsp), %rax
	movq	%rax, 88(%rsp)
	movq	1576(%rsp), %rax
	movq	%rax, 232(%rsp)
	movq	1592(%rsp), %rax
	movq	%rax, 56(%rsp)
	movq	1616(%rsp), %rax
	movq	%rax, 240(%rsp)
	movq	1632(%rsp), %rax
	movq	%rax, 64(%rsp)
	movq	1648(%rsp), %rax
	movq	%rax, 480(%rsp)
	movq	1664(%rsp), %rax
	movq	%rax, 536(%rsp)
	movq	1672(%rsp), %rax
	movq	%rax, 488(%rsp)
	movq	1688(%rsp), %rax
	movq	%rax, 544(%rsp)
	movq	1696(%rsp), %rax
	movq	%rax, 496(%rsp)
	movq	1712(%rsp), %rax
	movq	%rax, 552(%rsp)
	movq	1720(%rsp), %rax
	movq	%rax, 504(%rsp)
	movq	1736(%rsp), %rax
	movq	%rax, 560(%rsp)
	movq	1744(%rsp), %rax
	movq	%rax, 512(%rsp)
	movq	1760(%rsp), %rax
	movq	%rax, 568(%rsp)
	movq	1768(%rsp), %rax
	movq	%rax, 520(%rsp)
	movq	1784(%rsp), %rax
	movq	%rax, 576(%rsp)
	movq	1792(%rsp), %rax
	movq	%rax, 528(%rsp)
	movq	1808(%rsp), %rax
	movq	%rax, 584(%rsp)
	je	325f
	movq	%rbp, 472(%rsp)
	movq	%rbx, %rbp
	movq	%r13, %rbx
	movq	%r14, %r13
	movq	%rdi, %r14
	movq	1064(%rsp), %rdi
	callq	rattle_dealloc@PLT
	movq	%r14, %rdi
	movq	%r13, %r14
	movq	%rbx, %r13
	movq	%rbp, %rbx
	movq	472(%rsp), %rbp
325:
	testq	%r15, %r15
	je	326f
	callq	rattle_dealloc@PLT
326:
	testq	%rbp, %rbp
	movq	16(%rsp), %r15
	je	327f
	movq	592(%rsp), %rdi
	callq	rattle_dealloc@PLT
327:
	testq	%r14, %r14
	movq	24(%rsp), %rbp
	je	328f
	movq	608(%rsp), %rdi
	callq	rattle_dealloc@PLT
328:
	cmpq	$0, 256(%rsp)
	movq	72(%rsp), %r14
	je	329f
	movq	624(%rsp), %rdi
	callq	rattle_dealloc@PLT
329:
	cmpq	$0, 272(%rsp)
	je	330f
	movq	640(%rsp), %rdi
	callq	rattle_dealloc@PLT
330:
	cmpq	$0, 288(%rsp)
	je	331f
	movq	656(%rsp), %rdi
	callq	rattle_dealloc@PLT
331:
	cmpq	$0, 80(%rsp)
	je	332f
	movq	672(%rsp), %rdi
	callq	rattle_dealloc@PLT
332:
	testq	%rbx, %rbx
	je	333f
	movq	688(%rsp), %rdi
	callq	rattle_dealloc@PLT
333:
	testq	%r13, %r13
	je	334f
	movq	600(%rsp), %rdi
	callq	rattle_dealloc@PLT
334:
	cmpq	$0, 248(%rsp)
	je	335f
	movq	616(%rsp), %rdi
	callq	rattle_dealloc@PLT
335:
	cmpq	$0, 264(%rsp)
	je	336f
	movq	632(%rsp), %rdi
	callq	rattle_dealloc@PLT
336:
	cmpq	$0, 280(%rsp)
	je	337f
	movq	648(%rsp), %rdi
	callq	rattle_dealloc@PLT
337:
	cmpq	$0, 296(%rsp)
	je	338f
	movq	664(%rsp), %rdi
	callq	rattle_dealloc@PLT
338:
	cmpq	$0, 104(%rsp)
	je	339f
	movq	680(%rsp), %rdi
	callq	rattle_dealloc@PLT
339:
	cmpq	$0, 96(%rsp)
	je	340f
	movq	696(%rsp), %rdi
	callq	rattle_dealloc@PLT
340:
	cmpq	$0, 112(%rsp)
	je	341f
	movq	208(%rsp), %rdi
	callq	rattle_dealloc@PLT
341:
	cmpq	$0, 120(%rsp)
	je	342f
	movq	216(%rsp), %rdi
	callq	rattle_dealloc@PLT
342:
	cmpq	$0, 88(%rsp)
	je	343f
	movq	224(%rsp), %rdi
	callq	rattle_dealloc@PLT
343:
	cmpq	$0, 56(%rsp)
	je	344f
	movq	232(%rsp), %rdi
	callq	rattle_dealloc@PLT
344:
	cmpq	$0, 64(%rsp)
	je	345f
	movq	240(%rsp), %rdi
	callq	rattle_dealloc@PLT
345:
	cmpb	$1, 8(%rsp)
	jne	352f
	cmpq	$0, 536(%rsp)
	je	346f
	movq	480(%rsp), %rdi
	callq	rattle_dealloc@PLT
346:
	cmpq	$0, 544(%rsp)
	je	347f
	movq	488(%rsp), %rdi
	callq	rattle_dealloc@PLT
347:
	cmpq	$0, 552(%rsp)
	je	348f
	movq	496(%rsp), %rdi
	callq	rattle_dealloc@PLT
348:
	cmpq	$0, 560(%rsp)
	je	349f
	movq	504(%rsp), %rdi
	callq	rattle_dealloc@PLT
349:
	cmpq	$0, 568(%rsp)
	je	350f
	movq	512(%rsp), %rdi
	callq	rattle_dealloc@PLT
350:
	cmpq	$0, 576(%rsp)
	je	351f
	movq	520(%rsp), %rdi
	callq	rattle_dealloc@PLT
351:
	cmpq	$0, 584(%rsp)
	je	352f
	movq	528(%rsp), %rdi
	callq	rattle_dealloc@PLT
352:
	cmpb	$1, 1832(%rsp)
	jne	366f
	movq	1888(%rsp), %rbx
	movq	1904(%rsp), %r13
	movq	1912(%rsp), %rax
	movq	%rax, 208(%rsp)
	movq	1928(%rsp), %rbp
	movq	1936(%rsp), %rax
	movq	%rax, 216(%rsp)
	movq	1952(%rsp), %r14
	movq	1960(%rsp), %rax
	movq	%rax, 224(%rsp)
	movq	1976(%rsp), %r15
	movq	1984(%rsp), %rax
	movq	%rax, 232(%rsp)
	movq	2000(%rsp), %rax
	movq	%rax, 80(%rsp)
	movq	2024(%rsp), %rax
	movq	%rax, 240(%rsp)
	movq	2040(%rsp), %rax
	movq	%rax, 104(%rsp)
	movq	2048(%rsp), %rax
	movq	%rax, 256(%rsp)
	movq	2064(%rsp), %rax
	movq	%rax, 112(%rsp)
	cmpq	$0, 1880(%rsp)
	movq	2072(%rsp), %rax
	movq	%rax, 248(%rsp)
	movq	2088(%rsp), %rax
	movq	%rax, 96(%rsp)
	movq	2096(%rsp), %rax
	movq	%rax, 264(%rsp)
	movq	2112(%rsp), %rax
	movq	%rax, 120(%rsp)
	movq	2120(%rsp), %rax
	movq	%rax, 272(%rsp)
	movq	2136(%rsp), %rax
	movq	%rax, 88(%rsp)
	movq	2144(%rsp), %rax
	movq	%rax, 280(%rsp)
	movq	2160(%rsp), %rax
	movq	%rax, 56(%rsp)
	movq	2168(%rsp), %rax
	movq	%rax, 288(%rsp)
	movq	2184(%rsp), %rax
	movq	%rax, 64(%rsp)
	movq	2192(%rsp), %rax
	movq	%rax, 296(%rsp)
	movq	2208(%rsp), %rax
	movq	%rax, 8(%rsp)
	je	353f
	movq	1864(%rsp), %rdi
	callq	rattle_dealloc@PLT
353:
	testq	%r13, %r13
	je	354f
	movq	%rbx, %rdi
	callq	rattle_dealloc@PLT
354:
	testq	%rbp, %rbp
	je	355f
	movq	208(%rsp), %rdi
	callq	rattle_dealloc@PLT
355:
	testq	%r14, %r14
	movq	24(%rsp), %rbp
	je	356f
	movq	216(%rsp), %rdi
	callq	rattle_dealloc@PLT
356:
	testq	%r15, %r15
	movq	72(%rsp), %r14
	je	357f
	movq	224(%rsp), %rdi
	callq	rattle_dealloc@PLT
357:
	cmpq	$0, 80(%rsp)
	movq	16(%rsp), %r15
	je	358f
	movq	232(%rsp), %rdi
	callq	rattle_dealloc@PLT
358:
	cmpq	$0, 104(%rsp)
	je	359f
	movq	240(%rsp), %rdi
	callq	rattle_dealloc@PLT
359:
	cmpq	$0, 112(%rsp)
	je	360f
	movq	256(%rsp), %rdi
	callq	rattle_dealloc@PLT
360:
	cmpq	$0, 96(%rsp)
	je	361f
	movq	248(%rsp), %rdi
	callq	rattle_dealloc@PLT
361:
	cmpq	$0, 120(%rsp)
	je	362f
	movq	264(%rsp), %rdi
	callq	rattle_dealloc@PLT
362:
	cmpq	$0, 88(%rsp)
	je	363f
	movq	272(%rsp), %rdi
	callq	rattle_dealloc@PLT
363:
	cmpq	$0, 56(%rsp)
	je	364f
	movq	280(%rsp), %rdi
	callq	rattle_dealloc@PLT
364:
	cmpq	$0, 64(%rsp)
	je	365f
	movq	288(%rsp), %rdi
	callq	rattle_dealloc@PLT
365:
	cmpq	$0, 8(%rsp)
	je	366f
	movq	296(%rsp), %rdi
	callq	rattle_dealloc@PLT
366:
	movl	304(%rsp), %edi
	callq	close@PLT
	cmpq	$0, 328(%rsp)
	je	367f
	movq	312(%rsp), %rdi
	callq	rattle_dealloc@PLT
367:
	cmpq	$0, 360(%rsp)
	je	250b
	movq	344(%rsp), %rdi
	jmp	249b
368:
	cmpb	$1, %bl
	jne	321b
369:
	movq	%r15, %rdi
	callq	"std_alloc::boxed::Box::drop::<#e973df45dd2be47d>"
	cmpb	$1, %r13b
	je	322b
	jmp	323b
370:
	movq	%rbx, %r13
	movq	%rdx, %r12
	leaq	704(%rsp), %rdi
	leaq	368(%rsp), %rsi
	callq	"mime_tool::line::told"
	cmpb	$0, 704(%rsp)
	je	375f
	movb	$2, %bl
	xorl	%ebp, %ebp
	movq	8(%rsp), %r12
	testq	%r12, %r12
	jne	117b
	jmp	118b
371:
	xorps	%xmm0, %xmm0
	movb	$2, %bpl
	cmpq	$0, 192(%rsp)
	jne	237b
	jmp	238b
372:
	movl	%edx, %ebp
	incb	%bpl
	xorps	%xmm0, %xmm0
	movaps	%xmm0, 32(%rsp)
	jmp	385f
373:
	movq	%r8, %rcx
	shrq	$2, %rcx
	movq	%r8, %rdi
	shrq	$3, %rdi
	testb	$1, %al
	je	387f
	xorl	%eax, %eax
	xorl	%esi, %esi
	jmp	388f
374:
	xorps	%xmm0, %xmm0
	movb	$2, %bpl
	movb	$1, %r15b
	xorl	%r12d, %r12d
	xorl	%r14d, %r14d
	jmp	184b
375:
	movq	712(%rsp), %rax
	movq	%rax, 56(%rsp)
	movq	720(%rsp), %r14
	movq	728(%rsp), %rdx
	leaq	.L0791a6fb5224(%rip), %rax
	leaq	.Lb9d66d2d8f9c(%rip), %rbp
	movl	32(%rsp), %ecx
	testb	$1, %cl
	cmovneq	%rax, %rbp
	testl	$256, %ecx
	jne	389f
	movq	%rdx, 88(%rsp)
	leaq	.L226a292f443d(%rip), %r13
	testb	$1, %cl
	cmovneq	%rax, %r13
	movq	72(%rsp), %rax
	movq	8(%rax), %rdi
	testq	%r15, %r15
	je	376f
	movq	%rdi, %rbx
	movq	24(%rsp), %rsi
	movq	%r15, %rdx
	callq	"mime_tool::system::StreamSink::put::<#87f05e477b504f42>"
	movq	%rbx, %rdi
	testb	%al, %al
	jne	377f
376:
	movzbl	32(%rsp), %eax
	andl	$1, %eax
	movl	$2, %edx
	subq	%rax, %rdx
	movq	%rdi, %r15
	movq	%r13, %rsi
	callq	"mime_tool::system::StreamSink::put::<#87f05e477b504f42>"
	testb	%al, %al
	je	399f
377:
	movl	%edx, %ebx
	incb	%bl
	movb	$1, %bpl
378:
	movq	24(%rsp), %r13
	movq	88(%rsp), %r15
	testq	%r15, %r15
	je	393f
379:
	movq	56(%rsp), %rdi
	callq	rattle_dealloc@PLT
	movq	8(%rsp), %r12
	jmp	116b
380:
	xorps	%xmm0, %xmm0
	movb	$2, %bpl
	xorl	%r14d, %r14d
	testq	%r13, %r13
	jne	182b
	jmp	183b
381:
	testq	%r15, %r15
	je	382f
	movq	%rbx, %rdi
	movq	%r13, %rsi
	movq	%r15, %rdx
	callq	"mime_tool::system::StreamSink::put::<#87f05e477b504f42>"
	testb	%al, %al
	jne	126b
382:
	movq	64(%rsp), %rdx
	testq	%rdx, %rdx
	je	383f
	movq	%rbx, %rdi
	movq	24(%rsp), %rsi
	callq	"mime_tool::system::StreamSink::put::<#87f05e477b504f42>"
	testb	%al, %al
	jne	126b
383:
	movl	$1, %edx
	movq	%rbx, %rdi
	movq	16(%rsp), %rsi
	callq	"mime_tool::system::StreamSink::put::<#87f05e477b504f42>"
	testb	%al, %al
	jne	126b
	movb	$1, %bl
	xorl	%r12d, %r12d
	movq	8(%rsp), %rbp
	movq	24(%rsp), %r14
	testq	%rbp, %rbp
	jne	127b
	jmp	128b
384:
	xorps	%xmm0, %xmm0
	movaps	%xmm0, 32(%rsp)
	movb	$2, %bpl
385:
	testq	%r14, %r14
	je	386f
	movq	176(%rsp), %rdi
	callq	rattle_dealloc@PLT
386:
	xorl	%r14d, %r14d
	jmp	319b
387:
	movabsq	$-3689348814741910323, %rdx
	movq	%r8, %rax
	mulq	%rdx
	shrq	$5, %rdx
	leaq	(%rdi,%rdx), %rax
	addq	$2, %rax
	movb	$1, %sil
388:
	leaq	(%rcx,%rdi), %rdx
	addq	$5, %rdx
	movl	$1, %ecx
	xorl	%edi, %edi
	cmpq	$40, %r8
	jb	267b
	cmpq	$268435456, %r8
	ja	267b
	movq	104(%rsp), %r8
	cmpl	$33554688, (%r8)
	jne	398f
	movl	20(%r8), %r8d
	bswapl	%r8d
	leaq	4(%r8), %rdi
	cmpq	%rdi, 8(%rsp)
	jae	397f
	xorl	%edi, %edi
	jmp	398f
389:
	movq	%rdx, %r15
	movq	72(%rsp), %rax
	movq	8(%rax), %r13
	testq	%r12, %r12
	je	390f
	movq	%r13, %rdi
	movq	64(%rsp), %rsi
	movq	%r12, %rdx
	callq	"mime_tool::system::StreamSink::put::<#87f05e477b504f42>"
	testb	%al, %al
	jne	392f
390:
	testq	%r14, %r14
	je	391f
	movq	%r13, %rdi
	movq	56(%rsp), %rsi
	movq	%r14, %rdx
	callq	"mime_tool::system::StreamSink::put::<#87f05e477b504f42>"
	testb	%al, %al
	jne	392f
391:
	movl	$1, %edx
	movq	%r13, %rdi
	movq	%rbp, %rsi
	callq	"mime_tool::system::StreamSink::put::<#87f05e477b504f42>"
	testb	%al, %al
	je	404f
392:
	movl	%edx, %ebx
	incb	%bl
	movb	$1, %bpl
	movq	24(%rsp), %r13
	testq	%r15, %r15
	jne	379b
393:
	movq	8(%rsp), %r12
	jmp	116b
394:
	movb	$1, %bl
	xorl	%r12d, %r12d
	testq	%rbp, %rbp
	jne	127b
	jmp	128b
395:
	cmpq	$0, 8(%rsp)
	je	396f
	movq	176(%rsp), %rdi
	callq	rattle_dealloc@PLT
396:
	xorps	%xmm0, %xmm0
	xorl	%r15d, %r15d
	xorl	%ebp, %ebp
	xorl	%r14d, %r14d
	jmp	184b
397:
	movq	104(%rsp), %r9
	movl	(%r9,%r8), %r8d
	bswapl	%r8d
	leaq	(%r8,%r8,2), %r9
	leaq	(%rdi,%r9,4), %r9
	xorl	%edi, %edi
	cmpq	%r9, 8(%rsp)
	cmovaeq	%r8, %rdi
398:
	leaq	.L22d5119de29e(%rip), %r13
	jmp	267b
399:
	testq	%r12, %r12
	je	400f
	movq	%r15, %rdi
	movq	64(%rsp), %rsi
	movq	%r12, %rdx
	callq	"mime_tool::system::StreamSink::put::<#87f05e477b504f42>"
	testb	%al, %al
	jne	377b
400:
	testq	%r14, %r14
	je	401f
	movq	%r15, %rdi
	movq	56(%rsp), %rsi
	movq	%r14, %rdx
	callq	"mime_tool::system::StreamSink::put::<#87f05e477b504f42>"
	testb	%al, %al
	jne	377b
401:
	movl	$1, %edx
	movq	%r15, %rdi
	movq	%rbp, %rsi
	callq	"mime_tool::system::StreamSink::put::<#87f05e477b504f42>"
	testb	%al, %al
	jne	377b
	xorl	%ebp, %ebp
	xorl	%ebx, %ebx
	jmp	378b
402:
	xorps	%xmm0, %xmm0
	movaps	%xmm0, 32(%rsp)
	cmpq	$0, 192(%rsp)
	je	403f
	movq	176(%rsp), %rdi
	callq	rattle_dealloc@PLT
403:
	xorl	%r14d, %r14d
	movb	$2, %bpl
	jmp	319b
404:
	xorl	%ebp, %ebp
	xorl	%ebx, %ebx
	movq	24(%rsp), %r13
	testq	%r15, %r15
	jne	379b
	jmp	393b
405:
	xorps	%xmm0, %xmm0
	movaps	%xmm0, 32(%rsp)
	movb	$2, %bpl
	movb	$1, %r15b
	xorl	%r12d, %r12d
	xorl	%r14d, %r14d
	jmp	320b
406:
	xorps	%xmm0, %xmm0
	movb	$2, %bpl
	xorl	%r14d, %r14d
	movaps	%xmm0, 32(%rsp)
	cmpq	$0, 24(%rsp)
	jne	318b
	jmp	319b
407:
	cmpq	$0, 24(%rsp)
	je	408f
	movq	176(%rsp), %rdi
	callq	rattle_dealloc@PLT
408:
	xorps	%xmm0, %xmm0
	movaps	%xmm0, 32(%rsp)
	xorl	%r15d, %r15d
	xorl	%ebp, %ebp
	xorl	%r14d, %r14d
	jmp	320b
409:
	.size	"mime_tool::subjects::print_subjects::<#2d382ade8d012bfb>", 409b-"mime_tool::subjects::print_subjects::<#2d382ade8d012bfb>"
	.section	.rodata,"a",@progbits
	.p2align	2, 0x0
410:
	.long	257b-410b
	.long	108b-410b
	.long	108b-410b
	.long	256b-410b
	.long	108b-410b
411:
	.long	94b-411b
	.long	4b-411b
	.long	4b-411b
	.long	92b-411b
	.long	4b-411b
412:
	.long	23b-412b
	.long	6b-412b
	.long	6b-412b
	.long	22b-412b
	.long	6b-412b

	.section	.rodata.cst16,"aM",@progbits,16
	.p2align	4, 0x0
1:
	.byte	0,1,2,3,4,5,6,7,8,9,10,11,12,13,14,15
2:
	.byte	16,17,18,19,20,21,22,23,24,25,26,27,28,29,30,31
	.text
	.p2align	4
	.type	"mime_tool::system::StreamSink::flush::<#87f05e477b504f42>",@function
"mime_tool::system::StreamSink::flush::<#87f05e477b504f42>":
	subq	$104, %rsp
	movq	%rdi, %rsi
	xorps	%xmm0, %xmm0
	movaps	%xmm0, 80(%rsp)
	movaps	%xmm0, 64(%rsp)
	movaps	%xmm0, 48(%rsp)
	movaps	%xmm0, 32(%rsp)
	movaps	%xmm0, 16(%rsp)
	movaps	%xmm0, (%rsp)
	movq	%rsp, %rdi
	callq	"std::io::buffered::BufWriter::flush_buf::<#ae3f758803b9f9a3>"
	cmpb	$0, (%rsp)
	je	3f
	movzbl	9(%rsp), %eax
	movaps	1b(%rip), %xmm0
	movaps	%xmm0, (%rsp)
	movaps	2b(%rip), %xmm0
	movaps	%xmm0, 16(%rsp)
	movabsq	$2820983053732684064, %rcx
	movq	%rcx, 32(%rsp)
	movb	$40, 40(%rsp)
	cmpq	$41, %rax
	jae	4f
	cmpb	$38, (%rsp,%rax)
	sete	%dl
	movb	$1, %al
	addq	$104, %rsp
	retq
3:
	xorl	%eax, %eax
	xorl	%edx, %edx
	addq	$104, %rsp
	retq
4:
	movb	$1, %al
	xorl	%edx, %edx
	addq	$104, %rsp
	retq
5:
	.size	"mime_tool::system::StreamSink::flush::<#87f05e477b504f42>", 5b-"mime_tool::system::StreamSink::flush::<#87f05e477b504f42>"

	.section	.rodata.cst16,"aM",@progbits,16
	.p2align	4, 0x0
1:
	.byte	0,1,2,3,4,5,6,7,8,9,10,11,12,13,14,15
2:
	.byte	16,17,18,19,20,21,22,23,24,25,26,27,28,29,30,31
	.text
	.p2align	4
	.type	"mime_tool::system::StreamSink::put::<#87f05e477b504f42>",@function
"mime_tool::system::StreamSink::put::<#87f05e477b504f42>":
	pushq	%r15
	pushq	%r14
	pushq	%r12
	pushq	%rbx
	subq	$104, %rsp
	movq	%rdx, %rcx
	movq	%rsi, %rdx
	movq	%rdi, %rbx
	xorps	%xmm0, %xmm0
	movaps	%xmm0, 80(%rsp)
	movaps	%xmm0, 64(%rsp)
	movaps	%xmm0, 48(%rsp)
	movaps	%xmm0, 32(%rsp)
	movaps	%xmm0, 16(%rsp)
	movaps	%xmm0, (%rsp)
	movq	8(%rdi), %rax
	movq	16(%rdi), %r14
	movq	%r14, %rsi
	subq	%rax, %rsi
	cmpq	%rsi, %rcx
	jae	18f
	leaq	8(%rbx), %rsi
	leaq	(%rax,%rcx), %r15
	movq	(%rbx), %r12
	movups	%xmm0, (%rsi)
	leaq	(%r12,%rax), %rdi
	movq	%rdi, %rsi
	subq	%rdx, %rsi
	cmpq	%rcx, %rsi
	jae	8f
	cmpq	$4, %rcx
	jb	3f
	cmpq	$32, %rsi
	jae	13f
3:
	xorl	%esi, %esi
4:
	movq	%rcx, %r9
	movq	%rsi, %r8
	andq	$3, %r9
	je	6f
	movq	%rsi, %r8
	.p2align	4
5:
	movzbl	(%rdx,%r8), %r10d
	movb	%r10b, (%rdi,%r8)
	incq	%r8
	decq	%r9
	jne	5b
6:
	subq	%rcx, %rsi
	cmpq	$-4, %rsi
	ja	9f
	addq	%r12, %rax
	addq	$3, %rax
	.p2align	4
7:
	movzbl	(%rdx,%r8), %esi
	movb	%sil, -3(%rax,%r8)
	movzbl	1(%rdx,%r8), %esi
	movb	%sil, -2(%rax,%r8)
	movzbl	2(%rdx,%r8), %esi
	movb	%sil, -1(%rax,%r8)
	movzbl	3(%rdx,%r8), %esi
	movb	%sil, (%rax,%r8)
	addq	$4, %r8
	cmpq	%r8, %rcx
	jne	7b
	jmp	9f
8:
	movq	%rdx, %rsi
	movq	%rcx, %rdx
	callq	memmove@PLT
9:
	movq	%r12, (%rbx)
	movq	%r15, 8(%rbx)
	movq	%r14, 16(%rbx)
10:
	xorl	%eax, %eax
11:
	xorl	%edx, %edx
12:
	addq	$104, %rsp
	popq	%rbx
	popq	%r12
	popq	%r14
	popq	%r15
	retq
13:
	cmpq	$32, %rcx
	jae	14f
	xorl	%esi, %esi
	jmp	16f
14:
	movq	%rcx, %rsi
	andq	$-32, %rsi
	leaq	(%rax,%r12), %r8
	addq	$16, %r8
	xorl	%r9d, %r9d
	.p2align	4
15:
	movups	(%rdx,%r9), %xmm0
	movups	16(%rdx,%r9), %xmm1
	movups	%xmm0, -16(%r8,%r9)
	movups	%xmm1, (%r8,%r9)
	addq	$32, %r9
	cmpq	%r9, %rsi
	jne	15b
	cmpq	%rsi, %rcx
	je	9b
	testb	$28, %cl
	je	4b
16:
	movq	%rsi, %r8
	movq	%rcx, %rsi
	andq	$-4, %rsi
	.p2align	4
17:
	movl	(%rdx,%r8), %r9d
	movl	%r9d, (%rdi,%r8)
	addq	$4, %r8
	cmpq	%r8, %rsi
	jne	17b
	cmpq	%rsi, %rcx
	je	9b
	jmp	4b
18:
	movq	%rsp, %rdi
	movq	%rbx, %rsi
	callq	"std::io::buffered::BufWriter::write_all_cold::<#ae3f758803b9f9a3>"
	movzbl	(%rsp), %eax
	testb	%al, %al
	je	10b
	movzbl	9(%rsp), %ecx
	movaps	1b(%rip), %xmm0
	movaps	%xmm0, (%rsp)
	movaps	2b(%rip), %xmm0
	movaps	%xmm0, 16(%rsp)
	movabsq	$2820983053732684064, %rdx
	movq	%rdx, 32(%rsp)
	movb	$40, 40(%rsp)
	cmpb	$41, %cl
	jae	11b
	cmpb	$38, (%rsp,%rcx)
	sete	%dl
	jmp	12b
19:
	.size	"mime_tool::system::StreamSink::put::<#87f05e477b504f42>", 19b-"mime_tool::system::StreamSink::put::<#87f05e477b504f42>"

	.section	.rodata.cst16,"aM",@progbits,16
	.p2align	4, 0x0
1:
	.byte	0,1,2,3,4,5,6,7,8,9,10,11,12,13,14,15
2:
	.byte	16,17,18,19,20,21,22,23,24,25,26,27,28,29,30,31
	.text
	.p2align	4
	.type	"mime_tool::system::SystemFilesFiles::whole::<#a1ba6ce099ef6b20>",@function
"mime_tool::system::SystemFilesFiles::whole::<#a1ba6ce099ef6b20>":
	pushq	%rbp
	pushq	%r15
	pushq	%r14
	pushq	%r13
	pushq	%r12
	pushq	%rbx
	subq	$376, %rsp
	movq	%rdi, %rbx
	xorps	%xmm0, %xmm0
	movaps	%xmm0, 352(%rsp)
	movaps	%xmm0, 336(%rsp)
	movaps	%xmm0, 320(%rsp)
	movaps	%xmm0, 304(%rsp)
	movaps	%xmm0, 288(%rsp)
	movaps	%xmm0, 272(%rsp)
	movaps	%xmm0, 48(%rsp)
	movq	$0, 64(%rsp)
	movaps	%xmm0, 240(%rsp)
	movups	%xmm0, 254(%rsp)
	movaps	%xmm0, 112(%rsp)
	movq	$0, 128(%rsp)
	leaq	272(%rsp), %rdi
	callq	"mime_tool::system::open_file::<#a1ba6ce099ef6b20>"
	cmpb	$0, 272(%rsp)
	movabsq	$2820983053732684064, %rcx
	je	4f
	movzbl	281(%rsp), %eax
	movaps	1b(%rip), %xmm0
	movaps	%xmm0, 144(%rsp)
	movaps	2b(%rip), %xmm1
	movaps	%xmm1, 160(%rsp)
	movq	%rcx, 176(%rsp)
	movb	$40, 184(%rsp)
	cmpq	$41, %rax
	jae	3f
	cmpb	$0, 144(%rsp,%rax)
	je	14f
3:
	movaps	%xmm0, 144(%rsp)
	movaps	%xmm1, 160(%rsp)
	movq	%rcx, 176(%rsp)
	movb	$40, 184(%rsp)
	cmpb	$41, %al
	jae	13f
	movzbl	144(%rsp,%rax), %eax
	leaq	".Lswitch.table.mime_tool::system::SystemFilesFiles::whole::<#a1ba6ce099ef6b20>.2671"(%rip), %rcx
	movzbl	(%rax,%rcx), %eax
	movb	$1, %cl
	jmp	15f
4:
	movl	280(%rsp), %eax
	movl	%eax, 4(%rsp)
	movq	288(%rsp), %r14
	xorps	%xmm0, %xmm0
	movups	%xmm0, 94(%rsp)
	movaps	%xmm0, 80(%rsp)
	movb	$1, %bpl
	movabsq	$4294967296, %rax
	cmpq	%rax, %r14
	ja	21f
	incq	%r14
	movl	$1, %esi
	movq	%r14, %rdi
	callq	rattle_alloc@PLT
	movb	$2, %bpl
	testb	$1, %al
	je	21f
	movq	%rdx, %r12
	movq	%rdx, 16(%rsp)
	movq	$0, 24(%rsp)
	movq	%r14, 32(%rsp)
	movl	$1000, %r15d
	xorl	%edi, %edi
	xorl	%ebp, %ebp
	xorl	%eax, %eax
5:
	movq	%rax, 232(%rsp)
	cmpq	%rdi, %rbp
	jb	8f
	movq	%r14, %rax
	subq	%rbp, %rax
	cmpq	$262144, %rax
	movl	$262144, %ecx
	cmovaeq	%rcx, %rax
	cmpq	%rbp, %r14
	cmoveq	%rcx, %rax
	addq	%rbp, %rax
	movq	$-1, %rdx
	cmovaeq	%rax, %rdx
	subq	%rdi, %rdx
	jbe	8f
	movq	%r14, %rax
	subq	%rdi, %rax
	cmpq	%rax, %rdx
	ja	12f
	leaq	(%rdi,%rdx), %rax
	cmpq	%rax, %rdi
	jae	7f
6:
	addq	%r12, %rdi
	xorl	%esi, %esi
	movq	%rax, %r13
	callq	memset@PLT
	movq	%r13, %rax
7:
	movq	%rax, 24(%rsp)
	movq	%r14, 32(%rsp)
	jmp	9f
	.p2align	4
8:
	movq	%rdi, %rax
9:
	movq	%r12, 8(%rsp)
	leaq	(%r12,%rbp), %r13
	movq	%rax, 40(%rsp)
	movq	%rax, %r12
	subq	%rbp, %r12
10:
	movl	4(%rsp), %edi
	movq	%r13, %rsi
	movq	%r12, %rdx
	callq	read@PLT
	testq	%rax, %rax
	jns	11f
	callq	rattle_errno@PLT
	leaq	144(%rsp), %rdi
	movl	%eax, %esi
	callq	"std_io::io::error::Error::from_raw_os_error"
	movq	144(%rsp), %rax
	shrq	$8, %rax
	movaps	1b(%rip), %xmm0
	movaps	%xmm0, 144(%rsp)
	movaps	2b(%rip), %xmm1
	movaps	%xmm1, 160(%rsp)
	movabsq	$2820983053732684064, %rcx
	movq	%rcx, 176(%rsp)
	movb	$40, 184(%rsp)
	cmpb	$41, %al
	jae	17f
	movl	%eax, %ecx
	andl	$63, %ecx
	cmpb	$35, 144(%rsp,%rcx)
	jne	17f
	testl	%r15d, %r15d
	je	17f
	decl	%r15d
	jmp	10b
	.p2align	4
11:
	cmpq	%r12, %rax
	cmovbq	%rax, %r12
	testq	%r12, %r12
	movabsq	$4294967296, %rax
	je	23f
	subq	%rbp, %rax
	cmpq	%r12, %rax
	movq	232(%rsp), %rax
	jb	24f
	addq	%r12, %rbp
	incq	%rax
	movq	40(%rsp), %rdi
	cmpq	$-1, %rax
	movq	8(%rsp), %r12
	jne	5b
	jmp	25f
12:
	leaq	16(%rsp), %rdi
	movq	%rdx, %r12
	movq	%rdx, %rsi
	callq	"std_alloc::vec::Vec::grow_amortized::<#1d775b5957dec42c>"
	testb	%al, %al
	je	28f
	movq	16(%rsp), %rax
	movq	24(%rsp), %rdi
	movq	32(%rsp), %r14
	movq	%r12, %rdx
	movq	%rax, %r12
	leaq	(%rdi,%rdx), %rax
	cmpq	%rax, %rdi
	jb	6b
	jmp	7b
13:
	movb	$1, %cl
	movb	$1, %al
	jmp	15f
14:
	xorps	%xmm0, %xmm0
	movaps	%xmm0, 112(%rsp)
	movq	$0, 128(%rsp)
	xorl	%ecx, %ecx
	xorl	%eax, %eax
15:
	movq	128(%rsp), %rdx
	movq	%rdx, 64(%rsp)
	movaps	112(%rsp), %xmm0
	movaps	%xmm0, 48(%rsp)
	xorl	%edx, %edx
16:
	movb	%cl, (%rbx)
	movb	%al, 1(%rbx)
	movq	%rdx, 8(%rbx)
	movaps	48(%rsp), %xmm0
	movups	%xmm0, 16(%rbx)
	movq	64(%rsp), %rax
	movq	%rax, 32(%rbx)
	jmp	22f
17:
	movaps	%xmm0, 144(%rsp)
	movaps	%xmm1, 160(%rsp)
	movabsq	$2820983053732684064, %rcx
	movq	%rcx, 176(%rsp)
	movb	$40, 184(%rsp)
	cmpb	$41, %al
	jae	18f
	andl	$63, %eax
	movzbl	144(%rsp,%rax), %eax
	leaq	".Lswitch.table.mime_tool::system::SystemFilesFiles::whole::<#a1ba6ce099ef6b20>.2671"(%rip), %rcx
	movzbl	(%rax,%rcx), %ebp
	jmp	19f
18:
	movb	$1, %bpl
19:
	movq	8(%rsp), %rdi
	testq	%r14, %r14
	je	20f
	callq	rattle_dealloc@PLT
20:
	xorps	%xmm0, %xmm0
	movups	%xmm0, 86(%rsp)
	movq	$0, 102(%rsp)
21:
	movl	4(%rsp), %edi
	callq	close@PLT
	movb	$1, (%rbx)
	movb	%bpl, 1(%rbx)
	xorps	%xmm0, %xmm0
	movups	%xmm0, 8(%rbx)
	movups	%xmm0, 24(%rbx)
22:
	addq	$376, %rsp
	popq	%rbx
	popq	%r12
	popq	%r13
	popq	%r14
	popq	%r15
	popq	%rbp
	retq
23:
	movq	40(%rsp), %rax
	cmpq	%rbp, %rax
	cmovbq	%rax, %rbp
	movq	%rbp, 24(%rsp)
	movups	16(%rsp), %xmm0
	movq	32(%rsp), %rax
	movq	%rax, 262(%rsp)
	movups	%xmm0, 246(%rsp)
	movq	%rax, 64(%rsp)
	movaps	%xmm0, 48(%rsp)
	movl	4(%rsp), %edi
	callq	close@PLT
	movl	$1, %edx
	xorl	%eax, %eax
	xorl	%ecx, %ecx
	jmp	16b
24:
	testq	%r14, %r14
	je	27f
	movq	8(%rsp), %rdi
	jmp	26f
25:
	testq	%r14, %r14
	je	27f
	movq	%r12, %rdi
26:
	callq	rattle_dealloc@PLT
27:
	xorps	%xmm0, %xmm0
	movups	%xmm0, 86(%rsp)
	movq	$0, 102(%rsp)
	movb	$1, %bpl
	jmp	21b
28:
	cmpq	$0, 32(%rsp)
	je	29f
	movq	16(%rsp), %rdi
	callq	rattle_dealloc@PLT
29:
	xorps	%xmm0, %xmm0
	movups	%xmm0, 86(%rsp)
	movq	$0, 102(%rsp)
	movb	$2, %bpl
	jmp	21b
30:
	.size	"mime_tool::system::SystemFilesFiles::whole::<#a1ba6ce099ef6b20>", 30b-"mime_tool::system::SystemFilesFiles::whole::<#a1ba6ce099ef6b20>"

	.text
	.p2align	4
	.type	"mime_tool::system::open_file::<#a1ba6ce099ef6b20>",@function
"mime_tool::system::open_file::<#a1ba6ce099ef6b20>":
	pushq	%rbp
	pushq	%r15
	pushq	%r14
	pushq	%r12
	pushq	%rbx
	subq	$976, %rsp
	movq	%rdx, %r14
	movq	%rsi, %r15
	movq	%rdi, %rbx
	xorps	%xmm0, %xmm0
	movaps	%xmm0, 464(%rsp)
	movaps	%xmm0, 448(%rsp)
	movaps	%xmm0, 432(%rsp)
	movaps	%xmm0, 416(%rsp)
	movq	$0, 480(%rsp)
	movaps	%xmm0, 256(%rsp)
	movaps	%xmm0, 272(%rsp)
	movaps	%xmm0, 288(%rsp)
	movaps	%xmm0, 304(%rsp)
	movq	$0, 320(%rsp)
	movaps	%xmm0, 736(%rsp)
	movaps	%xmm0, 752(%rsp)
	movaps	%xmm0, 768(%rsp)
	movaps	%xmm0, 784(%rsp)
	movaps	%xmm0, 800(%rsp)
	movaps	%xmm0, 816(%rsp)
	movaps	%xmm0, 832(%rsp)
	movaps	%xmm0, 848(%rsp)
	movaps	%xmm0, 864(%rsp)
	movq	$0, 880(%rsp)
	movaps	%xmm0, 704(%rsp)
	movaps	%xmm0, 688(%rsp)
	movaps	%xmm0, 672(%rsp)
	movaps	%xmm0, 656(%rsp)
	movaps	%xmm0, 640(%rsp)
	movaps	%xmm0, 624(%rsp)
	movaps	%xmm0, 608(%rsp)
	movaps	%xmm0, 592(%rsp)
	movaps	%xmm0, 576(%rsp)
	movq	$0, 720(%rsp)
	movaps	%xmm0, 176(%rsp)
	movaps	%xmm0, 192(%rsp)
	movaps	%xmm0, 208(%rsp)
	movaps	%xmm0, 224(%rsp)
	movq	$0, 240(%rsp)
	movaps	%xmm0, 160(%rsp)
	movaps	%xmm0, 144(%rsp)
	movaps	%xmm0, 128(%rsp)
	movaps	%xmm0, 112(%rsp)
	movaps	%xmm0, 96(%rsp)
	movaps	%xmm0, 80(%rsp)
	movaps	%xmm0, 64(%rsp)
	movaps	%xmm0, 48(%rsp)
	movaps	%xmm0, 32(%rsp)
	movaps	%xmm0, 16(%rsp)
	movaps	%xmm0, (%rsp)
	testq	%rdx, %rdx
	je	3f
	xorl	%eax, %eax
	.p2align	4
1:
	cmpb	$0, (%r15,%rax)
	je	2f
	incq	%rax
	cmpq	%rax, %r14
	jne	1b
	jmp	3f
2:
	cmpq	%r14, %rax
	jae	3f
	leaq	.L399de51ae489(%rip), %rcx
	leaq	488(%rsp), %rdi
	movl	$42, %r8d
	movl	$42, %r9d
	movl	$2, %esi
	movl	$20, %edx
	callq	"std_io::io::error::Error::from_bytes"
	movq	488(%rsp), %rax
	movq	496(%rsp), %rcx
	movups	504(%rsp), %xmm0
	movups	%xmm0, 24(%rsp)
	movups	552(%rsp), %xmm1
	movq	568(%rsp), %rsi
	movups	536(%rsp), %xmm2
	movups	520(%rsp), %xmm3
	movq	%rax, %rdx
	shrq	$32, %rdx
	movaps	%xmm0, 896(%rsp)
	movaps	%xmm3, 912(%rsp)
	movaps	%xmm2, 928(%rsp)
	movq	%rsi, 960(%rsp)
	movq	%rsi, 400(%rsp)
	movaps	%xmm1, 384(%rsp)
	movaps	%xmm2, 368(%rsp)
	movaps	%xmm3, 352(%rsp)
	movaps	%xmm0, 336(%rsp)
	jmp	4f
3:
	movq	%rsp, %rdi
	movl	$-100, %esi
	movq	%r15, %rdx
	movq	%r14, %rcx
	xorl	%r8d, %r8d
	callq	"std::fs::stat::stat_at"
	movl	8(%rsp), %eax
	movl	12(%rsp), %edx
	movq	16(%rsp), %rcx
	movq	88(%rsp), %rsi
	movq	%rsi, 960(%rsp)
	movups	72(%rsp), %xmm0
	movaps	%xmm0, 944(%rsp)
	movups	56(%rsp), %xmm1
	movaps	%xmm1, 928(%rsp)
	movups	40(%rsp), %xmm2
	movups	24(%rsp), %xmm3
	cmpb	$0, (%rsp)
	movaps	%xmm3, 336(%rsp)
	movaps	%xmm2, 352(%rsp)
	movaps	%xmm1, 368(%rsp)
	movaps	%xmm0, 384(%rsp)
	movq	%rsi, 400(%rsp)
	je	5f
4:
	shlq	$32, %rdx
	movl	%eax, %eax
	orq	%rdx, %rax
	movq	$1, (%rbx)
	movq	%rax, 8(%rbx)
	movq	%rcx, 16(%rbx)
	movaps	336(%rsp), %xmm0
	movaps	352(%rsp), %xmm1
	movaps	368(%rsp), %xmm2
	movaps	384(%rsp), %xmm3
	movups	%xmm0, 24(%rbx)
	movups	%xmm1, 40(%rbx)
	movups	%xmm2, 56(%rbx)
	movups	%xmm3, 72(%rbx)
	movq	400(%rsp), %rax
	jmp	9f
5:
	andl	$61440, %eax
	movl	%eax, %ecx
	xorps	%xmm0, %xmm0
	negw	%cx
	jo	6f
	cmpl	$16384, %eax
	jne	7f
	movaps	%xmm0, 48(%rsp)
	movaps	%xmm0, 32(%rsp)
	movaps	%xmm0, 16(%rsp)
	movaps	%xmm0, (%rsp)
	movq	$0, 64(%rsp)
	movl	$3841, %eax
	jmp	8f
6:
	movaps	%xmm0, (%rsp)
	movaps	%xmm0, 16(%rsp)
	movaps	%xmm0, 32(%rsp)
	movaps	%xmm0, 48(%rsp)
	movaps	%xmm0, 64(%rsp)
	movaps	%xmm0, 80(%rsp)
	movq	$1, 488(%rsp)
	movl	$438, 496(%rsp)
	movq	%rsp, %rdi
	leaq	488(%rsp), %rsi
	movq	%r15, %rdx
	movq	%r14, %rcx
	callq	"std::fs::options::OpenOptions::open::<#05cc10b2f530382b>"
	movl	4(%rsp), %r14d
	movups	8(%rsp), %xmm0
	movups	24(%rsp), %xmm1
	movaps	%xmm1, 256(%rsp)
	movups	40(%rsp), %xmm1
	movaps	%xmm1, 272(%rsp)
	movups	56(%rsp), %xmm1
	movaps	%xmm1, 288(%rsp)
	movups	72(%rsp), %xmm1
	movaps	%xmm1, 304(%rsp)
	movq	88(%rsp), %rax
	movq	%rax, 320(%rsp)
	cmpb	$0, (%rsp)
	je	11f
	movq	$1, (%rbx)
	movups	%xmm0, 8(%rbx)
	movaps	256(%rsp), %xmm0
	movaps	272(%rsp), %xmm1
	movaps	288(%rsp), %xmm2
	movaps	304(%rsp), %xmm3
	movups	%xmm0, 24(%rbx)
	movups	%xmm1, 40(%rbx)
	movups	%xmm2, 56(%rbx)
	movups	%xmm3, 72(%rbx)
	movq	320(%rsp), %rax
	jmp	9f
7:
	movaps	%xmm0, 48(%rsp)
	movaps	%xmm0, 32(%rsp)
	movaps	%xmm0, 16(%rsp)
	movaps	%xmm0, (%rsp)
	movq	$0, 64(%rsp)
	movl	$9217, %eax
8:
	movq	64(%rsp), %rcx
	movq	%rcx, 480(%rsp)
	movaps	(%rsp), %xmm0
	movaps	16(%rsp), %xmm1
	movaps	32(%rsp), %xmm2
	movaps	48(%rsp), %xmm3
	movaps	%xmm3, 464(%rsp)
	movaps	%xmm2, 448(%rsp)
	movaps	%xmm1, 432(%rsp)
	movaps	%xmm0, 416(%rsp)
	movq	$1, (%rbx)
	movq	%rax, 8(%rbx)
	movq	$0, 16(%rbx)
	movaps	416(%rsp), %xmm0
	movaps	432(%rsp), %xmm1
	movaps	448(%rsp), %xmm2
	movaps	464(%rsp), %xmm3
	movups	%xmm0, 24(%rbx)
	movups	%xmm1, 40(%rbx)
	movups	%xmm2, 56(%rbx)
	movups	%xmm3, 72(%rbx)
	movq	480(%rsp), %rax
9:
	movq	%rax, 88(%rbx)
10:
	addq	$976, %rsp
	popq	%rbx
	popq	%r12
	popq	%r14
	popq	%r15
	popq	%rbp
	retq
11:
	xorps	%xmm0, %xmm0
	movaps	%xmm0, 160(%rsp)
	movaps	%xmm0, 144(%rsp)
	movaps	%xmm0, 128(%rsp)
	movaps	%xmm0, 112(%rsp)
	movaps	%xmm0, 96(%rsp)
	movaps	%xmm0, 80(%rsp)
	movaps	%xmm0, 64(%rsp)
	movaps	%xmm0, 48(%rsp)
	movaps	%xmm0, 32(%rsp)
	movaps	%xmm0, 16(%rsp)
	movaps	%xmm0, (%rsp)
	leaq	.L22d5119de29e(%rip), %rdx
	movq	%rsp, %rdi
	movl	%r14d, %esi
	xorl	%ecx, %ecx
	movl	$4096, %r8d
	callq	"std::fs::stat::stat_at"
	movq	8(%rsp), %r12
	movq	16(%rsp), %r15
	leaq	24(%rsp), %rsi
	movzbl	(%rsp), %ebp
	leaq	576(%rsp), %rdi
	movl	$152, %edx
	callq	memcpy@PLT
	xorps	%xmm0, %xmm0
	movups	%xmm0, 136(%rsp)
	movups	%xmm0, 120(%rsp)
	movups	%xmm0, 104(%rsp)
	movups	%xmm0, 88(%rsp)
	movups	%xmm0, 72(%rsp)
	testb	%bpl, %bpl
	je	12f
	movq	640(%rsp), %rax
	movq	%rax, 64(%rsp)
	movaps	576(%rsp), %xmm0
	movaps	592(%rsp), %xmm1
	movaps	608(%rsp), %xmm2
	movaps	624(%rsp), %xmm3
	movaps	%xmm3, 48(%rsp)
	movaps	%xmm2, 32(%rsp)
	movaps	%xmm1, 16(%rsp)
	movaps	%xmm0, (%rsp)
	leaq	736(%rsp), %rdi
	movq	%rsp, %rsi
	movl	$152, %edx
	callq	memcpy@PLT
	movl	%r14d, %edi
	callq	close@PLT
	movq	$1, (%rbx)
	movq	%r12, 8(%rbx)
	movq	%r15, 16(%rbx)
	movaps	736(%rsp), %xmm0
	movaps	752(%rsp), %xmm1
	movaps	768(%rsp), %xmm2
	movaps	784(%rsp), %xmm3
	movups	%xmm0, 24(%rbx)
	movups	%xmm1, 40(%rbx)
	movups	%xmm2, 56(%rbx)
	movups	%xmm3, 72(%rbx)
	movq	800(%rsp), %rax
	jmp	9b
12:
	andl	$61440, %r12d
	movl	%r12d, %eax
	negw	%ax
	jo	13f
	cmpl	$16384, %r12d
	jne	14f
	movaps	%xmm0, 48(%rsp)
	movaps	%xmm0, 32(%rsp)
	movaps	%xmm0, 16(%rsp)
	movaps	%xmm0, (%rsp)
	movq	$0, 64(%rsp)
	movl	$3841, %r15d
	jmp	15f
13:
	movq	$0, (%rbx)
	movq	%r14, 8(%rbx)
	movq	%r15, 16(%rbx)
	movups	%xmm0, 24(%rbx)
	movups	%xmm0, 40(%rbx)
	movups	%xmm0, 56(%rbx)
	movups	%xmm0, 72(%rbx)
	movq	$0, 88(%rbx)
	jmp	10b
14:
	movaps	%xmm0, 48(%rsp)
	movaps	%xmm0, 32(%rsp)
	movaps	%xmm0, 16(%rsp)
	movaps	%xmm0, (%rsp)
	movq	$0, 64(%rsp)
	movl	$9217, %r15d
15:
	movq	64(%rsp), %rax
	movq	%rax, 240(%rsp)
	movaps	(%rsp), %xmm0
	movaps	16(%rsp), %xmm1
	movaps	32(%rsp), %xmm2
	movaps	48(%rsp), %xmm3
	movaps	%xmm3, 224(%rsp)
	movaps	%xmm2, 208(%rsp)
	movaps	%xmm1, 192(%rsp)
	movaps	%xmm0, 176(%rsp)
	movl	%r14d, %edi
	callq	close@PLT
	movq	$1, (%rbx)
	movq	%r15, 8(%rbx)
	movq	$0, 16(%rbx)
	movaps	176(%rsp), %xmm0
	movaps	192(%rsp), %xmm1
	movaps	208(%rsp), %xmm2
	movaps	224(%rsp), %xmm3
	movups	%xmm0, 24(%rbx)
	movups	%xmm1, 40(%rbx)
	movups	%xmm2, 56(%rbx)
	movups	%xmm3, 72(%rbx)
	movq	240(%rsp), %rax
	jmp	9b
16:
	.size	"mime_tool::system::open_file::<#a1ba6ce099ef6b20>", 16b-"mime_tool::system::open_file::<#a1ba6ce099ef6b20>"

	.section	.text.unlikely,"ax",@progbits
	.p2align	4
	.type	"mime_tool::type_names::refuse::<#2e1b2a3647f851f7>",@function
"mime_tool::type_names::refuse::<#2e1b2a3647f851f7>":
	pushq	%rbx
	subq	$48, %rsp
	movq	%rcx, %r9
	movq	%rdx, %r8
	movq	%rdi, %rbx
	xorps	%xmm0, %xmm0
	movaps	%xmm0, 16(%rsp)
	movaps	%xmm0, (%rsp)
	movq	$0, 32(%rsp)
	leaq	.La1f949b3aadb(%rip), %rdx
	movq	%rsp, %rdi
	movl	$10, %ecx
	callq	"mime_tool::desk::report::<#2e1b2a3647f851f7>"
	cmpb	$0, (%rsp)
	je	1f
	movzbl	8(%rsp), %eax
	movq	32(%rsp), %rcx
	movq	%rcx, 32(%rbx)
	movaps	16(%rsp), %xmm0
	movups	%xmm0, 16(%rbx)
	movb	$1, %dl
	xorl	%ecx, %ecx
	jmp	2f
1:
	xorps	%xmm0, %xmm0
	movups	%xmm0, 16(%rbx)
	movq	$0, 32(%rbx)
	movb	$2, %cl
	xorl	%edx, %edx
	xorl	%eax, %eax
2:
	movb	%dl, (%rbx)
	movb	%cl, 1(%rbx)
	movq	%rax, 8(%rbx)
	addq	$48, %rsp
	popq	%rbx
	retq
3:
	.size	"mime_tool::type_names::refuse::<#2e1b2a3647f851f7>", 3b-"mime_tool::type_names::refuse::<#2e1b2a3647f851f7>"

	.text
	.p2align	4
	.type	"mime_tool::words::name_of",@function
"mime_tool::words::name_of":
	movq	%rdx, %rax
	testq	%rsi, %rsi
	je	18f
	pushq	%rbx
	leaq	-8(%rcx), %r11
	leaq	-16(%rcx), %rdx
	cmpq	$32, %rdx
	movl	$32, %r8d
	cmovbq	%rdx, %r8
	cmpq	$8, %r11
	movl	$8, %r9d
	cmovbq	%r11, %r9
	cmpq	$16, %r11
	movl	$16, %r10d
	cmovbq	%r11, %r10
	movq	%rcx, %r11
	subq	$8, %r11
	jae	7f
	cmpq	$4, %rcx
	jae	2f
	testq	%rcx, %rcx
	je	6f
	movq	%rcx, %rdx
	shrq	%rdx
	jmp	4f
	.p2align	4
1:
	addq	$40, %rdi
	decq	%rsi
	je	17f
2:
	cmpq	16(%rdi), %rcx
	jne	1b
	movq	8(%rdi), %rdx
	movl	(%rax), %r8d
	movl	-4(%rax,%rcx), %r9d
	shlq	$32, %r9
	orq	%r8, %r9
	movl	(%rdx), %r8d
	movl	-4(%rdx,%rcx), %edx
	shlq	$32, %rdx
	orq	%r8, %rdx
	cmpq	%rdx, %r9
	jne	1b
	jmp	15f
	.p2align	4
3:
	addq	$40, %rdi
	decq	%rsi
	je	17f
4:
	cmpq	16(%rdi), %rcx
	jne	3b
	movq	8(%rdi), %r8
	movzbl	(%rax), %r9d
	movzbl	(%rax,%rdx), %r10d
	shll	$16, %r9d
	shll	$8, %r10d
	orl	%r9d, %r10d
	movzbl	-1(%rax,%rcx), %r9d
	orl	%r10d, %r9d
	movzbl	(%r8), %r10d
	movzbl	(%r8,%rdx), %r11d
	shll	$16, %r10d
	shll	$8, %r11d
	orl	%r10d, %r11d
	movzbl	-1(%r8,%rcx), %r8d
	orl	%r11d, %r8d
	cmpl	%r8d, %r9d
	jne	3b
	jmp	15f
	.p2align	4
5:
	addq	$40, %rdi
	xorl	%ecx, %ecx
	decq	%rsi
	je	17f
6:
	cmpq	$0, 16(%rdi)
	jne	5b
	jmp	15f
7:
	cmpq	$32, %rcx
	jbe	9f
	cmpq	$65, %rcx
	jb	14f
	xorl	%edx, %edx
	jmp	11f
	.p2align	4
8:
	addq	$40, %rdi
	decq	%rsi
	je	17f
9:
	cmpq	16(%rdi), %rcx
	jne	8b
	movq	8(%rdi), %rdx
	movq	(%rax), %r8
	cmpq	(%rdx), %r8
	jne	8b
	movq	(%rdx,%r9), %r8
	cmpq	%r8, (%rax,%r9)
	jne	8b
	movq	(%rdx,%r10), %r8
	cmpq	%r8, (%rax,%r10)
	jne	8b
	movq	(%rdx,%r11), %rdx
	cmpq	%rdx, (%rax,%r11)
	jne	8b
	jmp	15f
	.p2align	4
10:
	incq	%rdx
	cmpq	%rsi, %rdx
	je	17f
11:
	leaq	(%rdx,%rdx,4), %r9
	cmpq	16(%rdi,%r9,8), %rcx
	jne	10b
	leaq	(%rdi,%r9,8), %r8
	movq	8(%rdi,%r9,8), %r9
	xorl	%r10d, %r10d
	movq	%rcx, %r11
	.p2align	4
12:
	movdqu	(%rax,%r10), %xmm0
	movdqu	16(%rax,%r10), %xmm1
	movdqu	32(%rax,%r10), %xmm2
	movdqu	48(%rax,%r10), %xmm3
	movdqu	(%r9,%r10), %xmm4
	pcmpeqb	%xmm0, %xmm4
	movdqu	16(%r9,%r10), %xmm0
	pcmpeqb	%xmm1, %xmm0
	pand	%xmm4, %xmm0
	movdqu	32(%r9,%r10), %xmm1
	pcmpeqb	%xmm2, %xmm1
	movdqu	48(%r9,%r10), %xmm2
	pcmpeqb	%xmm3, %xmm2
	pand	%xmm1, %xmm2
	pand	%xmm0, %xmm2
	pmovmskb	%xmm2, %ebx
	cmpl	$65535, %ebx
	jne	10b
	addq	$64, %r10
	addq	$-64, %r11
	cmpq	$65, %r11
	jae	12b
	movdqu	-64(%rax,%rcx), %xmm0
	movdqu	-48(%rax,%rcx), %xmm1
	movdqu	-32(%rax,%rcx), %xmm2
	movdqu	-16(%rax,%rcx), %xmm3
	movdqu	-64(%r9,%rcx), %xmm4
	pcmpeqb	%xmm0, %xmm4
	movdqu	-48(%r9,%rcx), %xmm0
	pcmpeqb	%xmm1, %xmm0
	pand	%xmm4, %xmm0
	movdqu	-32(%r9,%rcx), %xmm1
	pcmpeqb	%xmm2, %xmm1
	movdqu	-16(%r9,%rcx), %xmm2
	pcmpeqb	%xmm3, %xmm2
	pand	%xmm1, %xmm2
	pand	%xmm0, %xmm2
	pmovmskb	%xmm2, %r9d
	cmpl	$65535, %r9d
	jne	10b
	jmp	16f
	.p2align	4
13:
	addq	$40, %rdi
	decq	%rsi
	je	17f
14:
	cmpq	16(%rdi), %rcx
	jne	13b
	movq	8(%rdi), %r9
	movdqu	(%rax), %xmm0
	movdqu	16(%rax), %xmm1
	movdqu	(%r9), %xmm2
	pcmpeqb	%xmm0, %xmm2
	movdqu	16(%r9), %xmm0
	pcmpeqb	%xmm1, %xmm0
	pand	%xmm2, %xmm0
	movdqu	(%rax,%r8), %xmm1
	movdqu	(%r9,%r8), %xmm2
	pcmpeqb	%xmm1, %xmm2
	movdqu	(%rax,%rdx), %xmm1
	movdqu	(%r9,%rdx), %xmm3
	pcmpeqb	%xmm1, %xmm3
	pand	%xmm2, %xmm3
	pand	%xmm0, %xmm3
	pmovmskb	%xmm3, %r9d
	cmpl	$65535, %r9d
	jne	13b
15:
	movq	%rdi, %r8
16:
	movq	24(%r8), %rax
	movq	32(%r8), %rcx
17:
	popq	%rbx
18:
	movq	%rcx, %rdx
	retq
19:
	.size	"mime_tool::words::name_of", 19b-"mime_tool::words::name_of"

	.text
	.p2align	4
	.type	"mime_tool::words::refuse_word::<#2e1b2a3647f851f7>",@function
"mime_tool::words::refuse_word::<#2e1b2a3647f851f7>":
	pushq	%rbp
	pushq	%r15
	pushq	%r14
	pushq	%r13
	pushq	%r12
	pushq	%rbx
	subq	$136, %rsp
	movq	%rsi, %r15
	movq	%rdi, %rbx
	xorps	%xmm0, %xmm0
	movaps	%xmm0, 64(%rsp)
	movaps	%xmm0, 80(%rsp)
	movq	%rdx, 56(%rsp)
	leaq	.L52ad132b7e53(%rip), %rax
	movq	%rax, 96(%rsp)
	movq	$15, 104(%rsp)
	leaq	56(%rsp), %rax
	movq	%rax, 112(%rsp)
	leaq	.Lac7356f345ce(%rip), %rax
	movq	%rax, 120(%rsp)
	movq	$21, 128(%rsp)
	leaq	64(%rsp), %rdi
	leaq	96(%rsp), %rsi
	callq	"std_alloc::string::String::format::<#f2176ccb71fc584c>"
	cmpb	$0, 64(%rsp)
	je	1f
	xorps	%xmm0, %xmm0
	movaps	%xmm0, (%rsp)
	movq	$0, 16(%rsp)
	movb	$2, %bpl
	jmp	4f
1:
	movq	72(%rsp), %r14
	movq	80(%rsp), %r12
	movq	88(%rsp), %r13
	movq	8(%r15), %rdi
	callq	"mime_tool::system::StreamSink::flush::<#87f05e477b504f42>"
	testb	%al, %al
	je	6f
	movl	%edx, %ebp
	incb	%bpl
	xorps	%xmm0, %xmm0
	movaps	%xmm0, 32(%rsp)
	movq	$0, 48(%rsp)
	xorl	%r15d, %r15d
	testq	%r13, %r13
	je	3f
2:
	movq	%r14, %rdi
	callq	rattle_dealloc@PLT
3:
	movq	48(%rsp), %rax
	movq	%rax, 16(%rsp)
	movaps	32(%rsp), %xmm0
	movaps	%xmm0, (%rsp)
	testb	%r15b, %r15b
	je	4f
	movw	$512, (%rbx)
	xorps	%xmm0, %xmm0
	movups	%xmm0, 8(%rbx)
	movups	%xmm0, 24(%rbx)
	jmp	5f
4:
	movzbl	%bpl, %eax
	movw	$1, (%rbx)
	movq	%rax, 8(%rbx)
	movaps	(%rsp), %xmm0
	movups	%xmm0, 16(%rbx)
	movq	16(%rsp), %rax
	movq	%rax, 32(%rbx)
5:
	addq	$136, %rsp
	popq	%rbx
	popq	%r12
	popq	%r13
	popq	%r14
	popq	%r15
	popq	%rbp
	retq
6:
	movq	%r14, %rdi
	movq	%r12, %rsi
	callq	"mime_tool::stop::complain::<#6dca9f1b7737a2bb>"
	xorps	%xmm0, %xmm0
	movaps	%xmm0, 32(%rsp)
	movq	$0, 48(%rsp)
	leal	(%rax,%rax), %ebp
	testb	%al, %al
	sete	%r15b
	testq	%r13, %r13
	jne	2b
	jmp	3b
7:
	.size	"mime_tool::words::refuse_word::<#2e1b2a3647f851f7>", 7b-"mime_tool::words::refuse_word::<#2e1b2a3647f851f7>"
