# Made by dist/refresh of what is proved.

	.text
	.p2align	4
	.type	"std_alloc::boxed::Box::drop::<#11c05536263c65f8>",@function
"std_alloc::boxed::Box::drop::<#11c05536263c65f8>":
	pushq	%r14
	pushq	%rbx
	subq	$360, %rsp
	movq	%rdi, %rbx
	leaq	8(%rsp), %r14
	movl	$352, %edx
	movq	%r14, %rdi
	movq	%rbx, %rsi
	callq	memcpy@PLT
	movq	%rbx, %rdi
	callq	rattle_dealloc@PLT
	movq	%r14, %rdi
	callq	"mime_lookup::mime_lookup++read_back++names++IndexedNames+Destruct::drop"
	addq	$360, %rsp
	popq	%rbx
	popq	%r14
	retq
1:
	.size	"std_alloc::boxed::Box::drop::<#11c05536263c65f8>", 1b-"std_alloc::boxed::Box::drop::<#11c05536263c65f8>"

	.text
	.p2align	4
	.type	"std_alloc::boxed::Box::drop::<#2e361b27570a813f>",@function
"std_alloc::boxed::Box::drop::<#2e361b27570a813f>":
	pushq	%rbp
	pushq	%r15
	pushq	%r14
	pushq	%r13
	pushq	%r12
	pushq	%rbx
	subq	$168, %rsp
	movq	16(%rdi), %rbx
	movq	40(%rdi), %rbp
	movq	56(%rdi), %r14
	movq	64(%rdi), %rax
	movq	%rax, 8(%rsp)
	movq	80(%rdi), %r13
	movq	88(%rdi), %rax
	movq	%rax, 16(%rsp)
	movq	104(%rdi), %r15
	movq	112(%rdi), %rax
	movq	%rax, 24(%rsp)
	movq	128(%rdi), %rax
	movq	%rax, 96(%rsp)
	movq	136(%rdi), %rax
	movq	%rax, 32(%rsp)
	movq	152(%rdi), %rax
	movq	%rax, 104(%rsp)
	movq	160(%rdi), %rax
	movq	%rax, 40(%rsp)
	movq	176(%rdi), %rax
	movq	%rax, 112(%rsp)
	movq	192(%rdi), %rax
	movq	%rax, 48(%rsp)
	movq	208(%rdi), %rax
	movq	%rax, 120(%rsp)
	movq	216(%rdi), %rax
	movq	%rax, 56(%rsp)
	movq	232(%rdi), %rax
	movq	%rax, 128(%rsp)
	movq	240(%rdi), %rax
	movq	%rax, 64(%rsp)
	movq	256(%rdi), %rax
	movq	%rax, 136(%rsp)
	movq	264(%rdi), %rax
	movq	%rax, 72(%rsp)
	movq	280(%rdi), %rax
	movq	%rax, 144(%rsp)
	movq	288(%rdi), %rax
	movq	%rax, 80(%rsp)
	movq	304(%rdi), %rax
	movq	%rax, 152(%rsp)
	movq	312(%rdi), %rax
	movq	%rax, 88(%rsp)
	movq	328(%rdi), %rax
	movq	%rax, 160(%rsp)
	movq	32(%rdi), %r12
	callq	rattle_dealloc@PLT
	testq	%r12, %r12
	je	1f
	movq	%rbx, %rdi
	callq	rattle_dealloc@PLT
1:
	testq	%r14, %r14
	je	2f
	movq	%rbp, %rdi
	callq	rattle_dealloc@PLT
2:
	testq	%r13, %r13
	je	3f
	movq	8(%rsp), %rdi
	callq	rattle_dealloc@PLT
3:
	testq	%r15, %r15
	je	4f
	movq	16(%rsp), %rdi
	callq	rattle_dealloc@PLT
4:
	cmpq	$0, 96(%rsp)
	je	5f
	movq	24(%rsp), %rdi
	callq	rattle_dealloc@PLT
5:
	cmpq	$0, 104(%rsp)
	je	6f
	movq	32(%rsp), %rdi
	callq	rattle_dealloc@PLT
6:
	cmpq	$0, 112(%rsp)
	je	7f
	movq	40(%rsp), %rdi
	callq	rattle_dealloc@PLT
7:
	cmpq	$0, 120(%rsp)
	je	8f
	movq	48(%rsp), %rdi
	callq	rattle_dealloc@PLT
8:
	cmpq	$0, 128(%rsp)
	je	9f
	movq	56(%rsp), %rdi
	callq	rattle_dealloc@PLT
9:
	cmpq	$0, 136(%rsp)
	je	10f
	movq	64(%rsp), %rdi
	callq	rattle_dealloc@PLT
10:
	cmpq	$0, 144(%rsp)
	je	11f
	movq	72(%rsp), %rdi
	callq	rattle_dealloc@PLT
11:
	cmpq	$0, 152(%rsp)
	je	12f
	movq	80(%rsp), %rdi
	callq	rattle_dealloc@PLT
12:
	cmpq	$0, 160(%rsp)
	je	13f
	movq	88(%rsp), %rdi
	addq	$168, %rsp
	popq	%rbx
	popq	%r12
	popq	%r13
	popq	%r14
	popq	%r15
	popq	%rbp
	jmp	rattle_dealloc@PLT
13:
	addq	$168, %rsp
	popq	%rbx
	popq	%r12
	popq	%r13
	popq	%r14
	popq	%r15
	popq	%rbp
	retq
14:
	.size	"std_alloc::boxed::Box::drop::<#2e361b27570a813f>", 14b-"std_alloc::boxed::Box::drop::<#2e361b27570a813f>"

	.text
	.p2align	4
	.type	"std_alloc::boxed::Box::drop::<#3acad044879be0d3>",@function
"std_alloc::boxed::Box::drop::<#3acad044879be0d3>":
	pushq	%rbp
	pushq	%r15
	pushq	%r14
	pushq	%r13
	pushq	%r12
	pushq	%rbx
	subq	$152, %rsp
	movq	16(%rdi), %rbp
	movq	40(%rdi), %r13
	movq	56(%rdi), %rbx
	movq	64(%rdi), %rax
	movq	%rax, 8(%rsp)
	movq	80(%rdi), %r12
	movq	88(%rdi), %rax
	movq	%rax, 16(%rsp)
	movq	104(%rdi), %r14
	movq	112(%rdi), %rax
	movq	%rax, 24(%rsp)
	movq	128(%rdi), %rax
	movq	%rax, 88(%rsp)
	movq	136(%rdi), %rax
	movq	%rax, 32(%rsp)
	movq	152(%rdi), %rax
	movq	%rax, 96(%rsp)
	movq	176(%rdi), %rax
	movq	%rax, 40(%rsp)
	movq	192(%rdi), %rax
	movq	%rax, 104(%rsp)
	movq	200(%rdi), %rax
	movq	%rax, 48(%rsp)
	movq	216(%rdi), %rax
	movq	%rax, 112(%rsp)
	movq	224(%rdi), %rax
	movq	%rax, 56(%rsp)
	movq	240(%rdi), %rax
	movq	%rax, 120(%rsp)
	movq	248(%rdi), %rax
	movq	%rax, 64(%rsp)
	movq	264(%rdi), %rax
	movq	%rax, 128(%rsp)
	movq	272(%rdi), %rax
	movq	%rax, 72(%rsp)
	movq	288(%rdi), %rax
	movq	%rax, 136(%rsp)
	movq	296(%rdi), %rax
	movq	%rax, 80(%rsp)
	movq	312(%rdi), %rax
	movq	%rax, 144(%rsp)
	movq	32(%rdi), %r15
	callq	rattle_dealloc@PLT
	testq	%r15, %r15
	je	1f
	movq	%rbp, %rdi
	callq	rattle_dealloc@PLT
1:
	testq	%rbx, %rbx
	je	2f
	movq	%r13, %rdi
	callq	rattle_dealloc@PLT
2:
	testq	%r12, %r12
	je	3f
	movq	8(%rsp), %rdi
	callq	rattle_dealloc@PLT
3:
	testq	%r14, %r14
	je	4f
	movq	16(%rsp), %rdi
	callq	rattle_dealloc@PLT
4:
	cmpq	$0, 88(%rsp)
	je	5f
	movq	24(%rsp), %rdi
	callq	rattle_dealloc@PLT
5:
	cmpq	$0, 96(%rsp)
	je	6f
	movq	32(%rsp), %rdi
	callq	rattle_dealloc@PLT
6:
	cmpq	$0, 104(%rsp)
	je	7f
	movq	40(%rsp), %rdi
	callq	rattle_dealloc@PLT
7:
	cmpq	$0, 112(%rsp)
	je	8f
	movq	48(%rsp), %rdi
	callq	rattle_dealloc@PLT
8:
	cmpq	$0, 120(%rsp)
	je	9f
	movq	56(%rsp), %rdi
	callq	rattle_dealloc@PLT
9:
	cmpq	$0, 128(%rsp)
	je	10f
	movq	64(%rsp), %rdi
	callq	rattle_dealloc@PLT
10:
	cmpq	$0, 136(%rsp)
	je	11f
	movq	72(%rsp), %rdi
	callq	rattle_dealloc@PLT
11:
	cmpq	$0, 144(%rsp)
	je	12f
	movq	80(%rsp), %rdi
	addq	$152, %rsp
	popq	%rbx
	popq	%r12
	popq	%r13
	popq	%r14
	popq	%r15
	popq	%rbp
	jmp	rattle_dealloc@PLT
12:
	addq	$152, %rsp
	popq	%rbx
	popq	%r12
	popq	%r13
	popq	%r14
	popq	%r15
	popq	%rbp
	retq
13:
	.size	"std_alloc::boxed::Box::drop::<#3acad044879be0d3>", 13b-"std_alloc::boxed::Box::drop::<#3acad044879be0d3>"

	.text
	.p2align	4
	.type	"std_alloc::boxed::Box::drop::<#72acaa3b1c3226bf>",@function
"std_alloc::boxed::Box::drop::<#72acaa3b1c3226bf>":
	pushq	%rbp
	pushq	%r15
	pushq	%r14
	pushq	%r13
	pushq	%r12
	pushq	%rbx
	subq	$248, %rsp
	movq	16(%rdi), %rbp
	movq	40(%rdi), %rax
	movq	%rax, 8(%rsp)
	movq	56(%rdi), %rbx
	movq	64(%rdi), %rax
	movq	%rax, 16(%rsp)
	movq	80(%rdi), %r12
	movq	88(%rdi), %rax
	movq	%rax, 24(%rsp)
	movq	104(%rdi), %r14
	movq	112(%rdi), %rax
	movq	%rax, 32(%rsp)
	movq	128(%rdi), %r15
	movq	136(%rdi), %rax
	movq	%rax, 40(%rsp)
	movq	152(%rdi), %rax
	movq	%rax, 144(%rsp)
	movq	176(%rdi), %rax
	movq	%rax, 48(%rsp)
	movq	192(%rdi), %rax
	movq	%rax, 152(%rsp)
	movq	200(%rdi), %rax
	movq	%rax, 56(%rsp)
	movq	216(%rdi), %rax
	movq	%rax, 160(%rsp)
	movq	224(%rdi), %rax
	movq	%rax, 64(%rsp)
	movq	240(%rdi), %rax
	movq	%rax, 168(%rsp)
	movq	248(%rdi), %rax
	movq	%rax, 72(%rsp)
	movq	264(%rdi), %rax
	movq	%rax, 176(%rsp)
	movq	272(%rdi), %rax
	movq	%rax, 80(%rsp)
	movq	288(%rdi), %rax
	movq	%rax, 184(%rsp)
	movq	296(%rdi), %rax
	movq	%rax, 88(%rsp)
	movq	312(%rdi), %rax
	movq	%rax, 192(%rsp)
	movq	336(%rdi), %rax
	movq	%rax, 96(%rsp)
	movq	352(%rdi), %rax
	movq	%rax, 200(%rsp)
	movq	360(%rdi), %rax
	movq	%rax, 104(%rsp)
	movq	376(%rdi), %rax
	movq	%rax, 208(%rsp)
	movq	384(%rdi), %rax
	movq	%rax, 112(%rsp)
	movq	400(%rdi), %rax
	movq	%rax, 216(%rsp)
	movq	408(%rdi), %rax
	movq	%rax, 120(%rsp)
	movq	424(%rdi), %rax
	movq	%rax, 224(%rsp)
	movq	432(%rdi), %rax
	movq	%rax, 128(%rsp)
	movq	448(%rdi), %rax
	movq	%rax, 232(%rsp)
	movq	456(%rdi), %rax
	movq	%rax, 136(%rsp)
	movq	472(%rdi), %rax
	movq	%rax, 240(%rsp)
	movq	32(%rdi), %r13
	callq	rattle_dealloc@PLT
	testq	%r13, %r13
	je	1f
	movq	%rbp, %rdi
	callq	rattle_dealloc@PLT
1:
	testq	%rbx, %rbx
	je	2f
	movq	8(%rsp), %rdi
	callq	rattle_dealloc@PLT
2:
	testq	%r12, %r12
	je	3f
	movq	16(%rsp), %rdi
	callq	rattle_dealloc@PLT
3:
	testq	%r14, %r14
	je	4f
	movq	24(%rsp), %rdi
	callq	rattle_dealloc@PLT
4:
	testq	%r15, %r15
	je	5f
	movq	32(%rsp), %rdi
	callq	rattle_dealloc@PLT
5:
	cmpq	$0, 144(%rsp)
	je	6f
	movq	40(%rsp), %rdi
	callq	rattle_dealloc@PLT
6:
	cmpq	$0, 152(%rsp)
	je	7f
	movq	48(%rsp), %rdi
	callq	rattle_dealloc@PLT
7:
	cmpq	$0, 160(%rsp)
	je	8f
	movq	56(%rsp), %rdi
	callq	rattle_dealloc@PLT
8:
	cmpq	$0, 168(%rsp)
	je	9f
	movq	64(%rsp), %rdi
	callq	rattle_dealloc@PLT
9:
	cmpq	$0, 176(%rsp)
	je	10f
	movq	72(%rsp), %rdi
	callq	rattle_dealloc@PLT
10:
	cmpq	$0, 184(%rsp)
	je	11f
	movq	80(%rsp), %rdi
	callq	rattle_dealloc@PLT
11:
	cmpq	$0, 192(%rsp)
	je	12f
	movq	88(%rsp), %rdi
	callq	rattle_dealloc@PLT
12:
	cmpq	$0, 200(%rsp)
	je	13f
	movq	96(%rsp), %rdi
	callq	rattle_dealloc@PLT
13:
	cmpq	$0, 208(%rsp)
	je	14f
	movq	104(%rsp), %rdi
	callq	rattle_dealloc@PLT
14:
	cmpq	$0, 216(%rsp)
	je	15f
	movq	112(%rsp), %rdi
	callq	rattle_dealloc@PLT
15:
	cmpq	$0, 224(%rsp)
	je	16f
	movq	120(%rsp), %rdi
	callq	rattle_dealloc@PLT
16:
	cmpq	$0, 232(%rsp)
	je	17f
	movq	128(%rsp), %rdi
	callq	rattle_dealloc@PLT
17:
	cmpq	$0, 240(%rsp)
	je	18f
	movq	136(%rsp), %rdi
	addq	$248, %rsp
	popq	%rbx
	popq	%r12
	popq	%r13
	popq	%r14
	popq	%r15
	popq	%rbp
	jmp	rattle_dealloc@PLT
18:
	addq	$248, %rsp
	popq	%rbx
	popq	%r12
	popq	%r13
	popq	%r14
	popq	%r15
	popq	%rbp
	retq
19:
	.size	"std_alloc::boxed::Box::drop::<#72acaa3b1c3226bf>", 19b-"std_alloc::boxed::Box::drop::<#72acaa3b1c3226bf>"

	.text
	.p2align	4
	.type	"std_alloc::boxed::Box::drop::<#ca47198115f7bcf3>",@function
"std_alloc::boxed::Box::drop::<#ca47198115f7bcf3>":
	pushq	%rbp
	pushq	%r15
	pushq	%r14
	pushq	%r13
	pushq	%r12
	pushq	%rbx
	subq	$88, %rsp
	movq	(%rdi), %r14
	movq	24(%rdi), %rbx
	movq	40(%rdi), %rbp
	movq	48(%rdi), %rax
	movq	%rax, 8(%rsp)
	movq	64(%rdi), %r15
	movq	72(%rdi), %rax
	movq	%rax, 16(%rsp)
	movq	88(%rdi), %r12
	movq	96(%rdi), %rax
	movq	%rax, 24(%rsp)
	movq	112(%rdi), %rax
	movq	%rax, 56(%rsp)
	movq	120(%rdi), %rax
	movq	%rax, 32(%rsp)
	movq	136(%rdi), %rax
	movq	%rax, 64(%rsp)
	movq	144(%rdi), %rax
	movq	%rax, 40(%rsp)
	movq	160(%rdi), %rax
	movq	%rax, 72(%rsp)
	movq	168(%rdi), %rax
	movq	%rax, 48(%rsp)
	movq	184(%rdi), %rax
	movq	%rax, 80(%rsp)
	movq	16(%rdi), %r13
	callq	rattle_dealloc@PLT
	testq	%r13, %r13
	je	1f
	movq	%r14, %rdi
	callq	rattle_dealloc@PLT
1:
	testq	%rbp, %rbp
	je	2f
	movq	%rbx, %rdi
	callq	rattle_dealloc@PLT
2:
	testq	%r15, %r15
	je	3f
	movq	8(%rsp), %rdi
	callq	rattle_dealloc@PLT
3:
	testq	%r12, %r12
	je	4f
	movq	16(%rsp), %rdi
	callq	rattle_dealloc@PLT
4:
	cmpq	$0, 56(%rsp)
	je	5f
	movq	24(%rsp), %rdi
	callq	rattle_dealloc@PLT
5:
	cmpq	$0, 64(%rsp)
	je	6f
	movq	32(%rsp), %rdi
	callq	rattle_dealloc@PLT
6:
	cmpq	$0, 72(%rsp)
	je	7f
	movq	40(%rsp), %rdi
	callq	rattle_dealloc@PLT
7:
	cmpq	$0, 80(%rsp)
	je	8f
	movq	48(%rsp), %rdi
	addq	$88, %rsp
	popq	%rbx
	popq	%r12
	popq	%r13
	popq	%r14
	popq	%r15
	popq	%rbp
	jmp	rattle_dealloc@PLT
8:
	addq	$88, %rsp
	popq	%rbx
	popq	%r12
	popq	%r13
	popq	%r14
	popq	%r15
	popq	%rbp
	retq
9:
	.size	"std_alloc::boxed::Box::drop::<#ca47198115f7bcf3>", 9b-"std_alloc::boxed::Box::drop::<#ca47198115f7bcf3>"

	.text
	.p2align	4
	.type	"std_alloc::vec::Vec::drop::<#19687a60d315e203>",@function
"std_alloc::vec::Vec::drop::<#19687a60d315e203>":
	pushq	%rbp
	pushq	%r15
	pushq	%r14
	pushq	%r13
	pushq	%r12
	pushq	%rbx
	subq	$120, %rsp
	movq	(%rdi), %rbx
	movq	8(%rdi), %rcx
	movq	16(%rdi), %rax
	movq	%rax, (%rsp)
	movq	%rcx, 8(%rsp)
	testq	%rcx, %rcx
	je	6f
	xorl	%r13d, %r13d
	jmp	2f
	.p2align	4
1:
	incq	%r13
	cmpq	8(%rsp), %r13
	je	6f
2:
	movq	%r13, %rax
	shlq	$4, %rax
	leaq	(%rax,%rax,4), %rax
	movq	56(%rbx,%rax), %r12
	movq	64(%rbx,%rax), %r15
	movq	72(%rbx,%rax), %rbp
	cmpb	$0, 8(%rbx,%rax)
	je	3f
	cmpq	$0, 32(%rbx,%rax)
	je	3f
	movq	16(%rbx,%rax), %rdi
	callq	rattle_dealloc@PLT
3:
	testq	%r15, %r15
	je	5f
	movq	%r12, %r14
	.p2align	4
4:
	movups	80(%r14), %xmm0
	movaps	%xmm0, 96(%rsp)
	movups	64(%r14), %xmm0
	movaps	%xmm0, 80(%rsp)
	movups	(%r14), %xmm0
	movups	16(%r14), %xmm1
	movups	32(%r14), %xmm2
	movups	48(%r14), %xmm3
	movaps	%xmm3, 64(%rsp)
	movaps	%xmm2, 48(%rsp)
	movaps	%xmm1, 32(%rsp)
	movaps	%xmm0, 16(%rsp)
	leaq	16(%rsp), %rdi
	callq	"mime_text::mime_base++magic++matchlet++Matchlet+Destruct::drop"
	addq	$96, %r14
	decq	%r15
	jne	4b
5:
	testq	%rbp, %rbp
	je	1b
	movq	%r12, %rdi
	callq	rattle_dealloc@PLT
	jmp	1b
6:
	cmpq	$0, (%rsp)
	je	7f
	movq	%rbx, %rdi
	addq	$120, %rsp
	popq	%rbx
	popq	%r12
	popq	%r13
	popq	%r14
	popq	%r15
	popq	%rbp
	jmp	rattle_dealloc@PLT
7:
	addq	$120, %rsp
	popq	%rbx
	popq	%r12
	popq	%r13
	popq	%r14
	popq	%r15
	popq	%rbp
	retq
8:
	.size	"std_alloc::vec::Vec::drop::<#19687a60d315e203>", 8b-"std_alloc::vec::Vec::drop::<#19687a60d315e203>"

	.text
	.p2align	4
	.type	"std_alloc::vec::Vec::drop::<#1e50bf88f4980553>",@function
"std_alloc::vec::Vec::drop::<#1e50bf88f4980553>":
	pushq	%rbp
	pushq	%r15
	pushq	%r14
	pushq	%r13
	pushq	%r12
	pushq	%rbx
	pushq	%rax
	movq	(%rdi), %rbx
	movq	8(%rdi), %r12
	movq	16(%rdi), %rax
	movq	%rax, (%rsp)
	testq	%r12, %r12
	je	4f
	movq	%rbx, %r13
	jmp	2f
	.p2align	4
1:
	addq	$96, %r13
	decq	%r12
	je	4f
2:
	movzbl	48(%r13), %r15d
	movq	56(%r13), %r14
	movq	72(%r13), %rbp
	cmpb	$0, (%r13)
	je	3f
	cmpq	$0, 24(%r13)
	je	3f
	movq	8(%r13), %rdi
	callq	rattle_dealloc@PLT
3:
	testb	%r15b, %r15b
	je	1b
	testq	%rbp, %rbp
	je	1b
	movq	%r14, %rdi
	callq	rattle_dealloc@PLT
	jmp	1b
4:
	cmpq	$0, (%rsp)
	je	5f
	movq	%rbx, %rdi
	addq	$8, %rsp
	popq	%rbx
	popq	%r12
	popq	%r13
	popq	%r14
	popq	%r15
	popq	%rbp
	jmp	rattle_dealloc@PLT
5:
	addq	$8, %rsp
	popq	%rbx
	popq	%r12
	popq	%r13
	popq	%r14
	popq	%r15
	popq	%rbp
	retq
6:
	.size	"std_alloc::vec::Vec::drop::<#1e50bf88f4980553>", 6b-"std_alloc::vec::Vec::drop::<#1e50bf88f4980553>"

	.text
	.p2align	4
	.type	"std_alloc::vec::Vec::drop::<#a85d6931f7cfb01d>",@function
"std_alloc::vec::Vec::drop::<#a85d6931f7cfb01d>":
	pushq	%rbp
	pushq	%r15
	pushq	%r14
	pushq	%r13
	pushq	%r12
	pushq	%rbx
	pushq	%rax
	movq	(%rdi), %rbx
	movq	8(%rdi), %r12
	movq	16(%rdi), %rax
	movq	%rax, (%rsp)
	testq	%r12, %r12
	je	6f
	movq	%rbx, %r13
	jmp	3f
	.p2align	4
1:
	callq	rattle_dealloc@PLT
2:
	addq	$112, %r13
	decq	%r12
	je	6f
3:
	movq	16(%r13), %rdi
	cmpb	$0, (%r13)
	je	4f
	cmpb	$0, 8(%r13)
	je	2b
	cmpq	$0, 32(%r13)
	jne	1b
	jmp	2b
	.p2align	4
4:
	movzbl	64(%r13), %r15d
	movq	72(%r13), %r14
	movq	88(%r13), %rbp
	testb	%dil, %dil
	je	5f
	cmpq	$0, 40(%r13)
	je	5f
	movq	24(%r13), %rdi
	callq	rattle_dealloc@PLT
5:
	testb	%r15b, %r15b
	je	2b
	testq	%rbp, %rbp
	je	2b
	movq	%r14, %rdi
	jmp	1b
6:
	cmpq	$0, (%rsp)
	je	7f
	movq	%rbx, %rdi
	addq	$8, %rsp
	popq	%rbx
	popq	%r12
	popq	%r13
	popq	%r14
	popq	%r15
	popq	%rbp
	jmp	rattle_dealloc@PLT
7:
	addq	$8, %rsp
	popq	%rbx
	popq	%r12
	popq	%r13
	popq	%r14
	popq	%r15
	popq	%rbp
	retq
8:
	.size	"std_alloc::vec::Vec::drop::<#a85d6931f7cfb01d>", 8b-"std_alloc::vec::Vec::drop::<#a85d6931f7cfb01d>"

	.text
	.p2align	4
	.type	"std_alloc::vec::Vec::drop::<#a9a081909576c235>",@function
"std_alloc::vec::Vec::drop::<#a9a081909576c235>":
	pushq	%r15
	pushq	%r14
	pushq	%r12
	pushq	%rbx
	pushq	%rax
	movq	(%rdi), %rbx
	movq	8(%rdi), %r15
	movq	16(%rdi), %r14
	testq	%r15, %r15
	je	3f
	leaq	16(%rbx), %r12
	jmp	2f
	.p2align	4
1:
	addq	$32, %r12
	decq	%r15
	je	3f
2:
	cmpq	$0, (%r12)
	je	1b
	movq	-16(%r12), %rdi
	callq	rattle_dealloc@PLT
	jmp	1b
3:
	testq	%r14, %r14
	je	4f
	movq	%rbx, %rdi
	addq	$8, %rsp
	popq	%rbx
	popq	%r12
	popq	%r14
	popq	%r15
	jmp	rattle_dealloc@PLT
4:
	addq	$8, %rsp
	popq	%rbx
	popq	%r12
	popq	%r14
	popq	%r15
	retq
5:
	.size	"std_alloc::vec::Vec::drop::<#a9a081909576c235>", 5b-"std_alloc::vec::Vec::drop::<#a9a081909576c235>"

	.text
	.p2align	4
	.type	"std_alloc::vec::Vec::drop::<#b75285eeea4a2d4d>",@function
"std_alloc::vec::Vec::drop::<#b75285eeea4a2d4d>":
	pushq	%r15
	pushq	%r14
	pushq	%r12
	pushq	%rbx
	pushq	%rax
	movq	(%rdi), %rbx
	movq	8(%rdi), %r15
	movq	16(%rdi), %r14
	testq	%r15, %r15
	je	3f
	leaq	24(%rbx), %r12
	jmp	2f
	.p2align	4
1:
	addq	$40, %r12
	decq	%r15
	je	3f
2:
	cmpq	$0, (%r12)
	je	1b
	movq	-16(%r12), %rdi
	callq	rattle_dealloc@PLT
	jmp	1b
3:
	testq	%r14, %r14
	je	4f
	movq	%rbx, %rdi
	addq	$8, %rsp
	popq	%rbx
	popq	%r12
	popq	%r14
	popq	%r15
	jmp	rattle_dealloc@PLT
4:
	addq	$8, %rsp
	popq	%rbx
	popq	%r12
	popq	%r14
	popq	%r15
	retq
5:
	.size	"std_alloc::vec::Vec::drop::<#b75285eeea4a2d4d>", 5b-"std_alloc::vec::Vec::drop::<#b75285eeea4a2d4d>"

	.text
	.p2align	4
	.type	"std_alloc::vec::Vec::drop::<#c11c0a2adfc4198f>",@function
"std_alloc::vec::Vec::drop::<#c11c0a2adfc4198f>":
	pushq	%r15
	pushq	%r14
	pushq	%r12
	pushq	%rbx
	pushq	%rax
	movq	(%rdi), %rbx
	movq	8(%rdi), %r15
	movq	16(%rdi), %r14
	testq	%r15, %r15
	je	3f
	movq	%rbx, %r12
	jmp	2f
	.p2align	4
1:
	addq	$48, %r12
	decq	%r15
	je	3f
2:
	cmpb	$0, (%r12)
	je	1b
	cmpq	$0, 24(%r12)
	je	1b
	movq	8(%r12), %rdi
	callq	rattle_dealloc@PLT
	jmp	1b
3:
	testq	%r14, %r14
	je	4f
	movq	%rbx, %rdi
	addq	$8, %rsp
	popq	%rbx
	popq	%r12
	popq	%r14
	popq	%r15
	jmp	rattle_dealloc@PLT
4:
	addq	$8, %rsp
	popq	%rbx
	popq	%r12
	popq	%r14
	popq	%r15
	retq
5:
	.size	"std_alloc::vec::Vec::drop::<#c11c0a2adfc4198f>", 5b-"std_alloc::vec::Vec::drop::<#c11c0a2adfc4198f>"

	.text
	.p2align	4
	.type	"std_alloc::vec::Vec::drop::<#c9bf5f63ee5b37bf>",@function
"std_alloc::vec::Vec::drop::<#c9bf5f63ee5b37bf>":
	pushq	%rbp
	pushq	%r15
	pushq	%r14
	pushq	%r13
	pushq	%r12
	pushq	%rbx
	pushq	%rax
	movq	(%rdi), %rbx
	movq	8(%rdi), %r12
	movq	16(%rdi), %rax
	movq	%rax, (%rsp)
	testq	%r12, %r12
	je	4f
	movq	%rbx, %r13
	jmp	2f
	.p2align	4
1:
	addq	$96, %r13
	decq	%r12
	je	4f
2:
	movzbl	48(%r13), %r15d
	movq	56(%r13), %r14
	movq	72(%r13), %rbp
	cmpb	$0, (%r13)
	je	3f
	cmpq	$0, 24(%r13)
	je	3f
	movq	8(%r13), %rdi
	callq	rattle_dealloc@PLT
3:
	testb	%r15b, %r15b
	je	1b
	testq	%rbp, %rbp
	je	1b
	movq	%r14, %rdi
	callq	rattle_dealloc@PLT
	jmp	1b
4:
	cmpq	$0, (%rsp)
	je	5f
	movq	%rbx, %rdi
	addq	$8, %rsp
	popq	%rbx
	popq	%r12
	popq	%r13
	popq	%r14
	popq	%r15
	popq	%rbp
	jmp	rattle_dealloc@PLT
5:
	addq	$8, %rsp
	popq	%rbx
	popq	%r12
	popq	%r13
	popq	%r14
	popq	%r15
	popq	%rbp
	retq
6:
	.size	"std_alloc::vec::Vec::drop::<#c9bf5f63ee5b37bf>", 6b-"std_alloc::vec::Vec::drop::<#c9bf5f63ee5b37bf>"

	.text
	.p2align	4
	.type	"std_alloc::vec::Vec::drop::<#f76b5842e243a073>",@function
"std_alloc::vec::Vec::drop::<#f76b5842e243a073>":
	pushq	%rbp
	pushq	%r15
	pushq	%r14
	pushq	%r13
	pushq	%r12
	pushq	%rbx
	pushq	%rax
	movq	(%rdi), %rbx
	movq	8(%rdi), %r12
	movq	16(%rdi), %rax
	movq	%rax, (%rsp)
	testq	%r12, %r12
	je	4f
	leaq	80(%rbx), %r13
	jmp	2f
	.p2align	4
1:
	addq	$104, %r13
	decq	%r12
	je	4f
2:
	movzbl	-24(%r13), %r15d
	movq	-16(%r13), %r14
	movq	(%r13), %rbp
	cmpb	$0, -72(%r13)
	je	3f
	cmpq	$0, -48(%r13)
	je	3f
	movq	-64(%r13), %rdi
	callq	rattle_dealloc@PLT
3:
	testb	%r15b, %r15b
	je	1b
	testq	%rbp, %rbp
	je	1b
	movq	%r14, %rdi
	callq	rattle_dealloc@PLT
	jmp	1b
4:
	cmpq	$0, (%rsp)
	je	5f
	movq	%rbx, %rdi
	addq	$8, %rsp
	popq	%rbx
	popq	%r12
	popq	%r13
	popq	%r14
	popq	%r15
	popq	%rbp
	jmp	rattle_dealloc@PLT
5:
	addq	$8, %rsp
	popq	%rbx
	popq	%r12
	popq	%r13
	popq	%r14
	popq	%r15
	popq	%rbp
	retq
6:
	.size	"std_alloc::vec::Vec::drop::<#f76b5842e243a073>", 6b-"std_alloc::vec::Vec::drop::<#f76b5842e243a073>"

	.section	.text.unlikely,"ax",@progbits
	.p2align	4
	.type	"std_alloc::vec::Vec::grow_amortized::<#0061ae0bdb08d16a>",@function
"std_alloc::vec::Vec::grow_amortized::<#0061ae0bdb08d16a>":
	movq	8(%rdi), %rax
	cmpq	$-1, %rax
	je	2f
	pushq	%r14
	pushq	%rbx
	pushq	%rax
	movq	16(%rdi), %rcx
	cmpq	$4, %rax
	movl	$3, %ebx
	cmovaeq	%rax, %rbx
	incq	%rbx
	movq	%rcx, %rsi
	shrq	$62, %rsi
	leaq	(%rcx,%rcx), %rdx
	cmpq	%rdx, %rbx
	cmovaq	%rbx, %rdx
	testq	%rsi, %rsi
	cmoveq	%rdx, %rbx
	movabsq	$230584300921369395, %rsi
	cmpq	%rsi, %rbx
	ja	4f
	testq	%rcx, %rcx
	je	3f
	movq	%rdi, %r14
	movq	(%rdi), %rdi
	shlq	$3, %rax
	leaq	(%rax,%rax,4), %rsi
	leaq	(,%rbx,8), %rax
	leaq	(%rax,%rax,4), %rdx
	movl	$8, %ecx
	callq	rattle_realloc@PLT
	testb	$1, %al
	je	4f
1:
	movq	%rdx, (%r14)
	movq	%rbx, 16(%r14)
	movb	$1, %al
	addq	$8, %rsp
	popq	%rbx
	popq	%r14
	retq
2:
	xorl	%eax, %eax
	retq
3:
	movq	%rdi, %r14
	shlq	$3, %rdx
	leaq	(%rdx,%rdx,4), %rdi
	movl	$8, %esi
	callq	rattle_alloc@PLT
	testb	$1, %al
	jne	1b
4:
	xorl	%eax, %eax
	addq	$8, %rsp
	popq	%rbx
	popq	%r14
	retq
5:
	.size	"std_alloc::vec::Vec::grow_amortized::<#0061ae0bdb08d16a>", 5b-"std_alloc::vec::Vec::grow_amortized::<#0061ae0bdb08d16a>"

	.section	.text.unlikely,"ax",@progbits
	.p2align	4
	.type	"std_alloc::vec::Vec::grow_amortized::<#0135d645f841a886>",@function
"std_alloc::vec::Vec::grow_amortized::<#0135d645f841a886>":
	movq	8(%rdi), %rsi
	cmpq	$-1, %rsi
	je	2f
	pushq	%r14
	pushq	%rbx
	pushq	%rax
	movq	16(%rdi), %rcx
	cmpq	$8, %rsi
	movl	$7, %ebx
	cmovaeq	%rsi, %rbx
	incq	%rbx
	movq	%rcx, %rdx
	shrq	$62, %rdx
	leaq	(%rcx,%rcx), %rax
	cmpq	%rax, %rbx
	cmovaq	%rbx, %rax
	testq	%rdx, %rdx
	cmoveq	%rax, %rbx
	testq	%rbx, %rbx
	js	4f
	testq	%rcx, %rcx
	je	3f
	movq	%rdi, %r14
	movq	(%rdi), %rdi
	movl	$1, %ecx
	movq	%rbx, %rdx
	callq	rattle_realloc@PLT
	testb	$1, %al
	je	4f
1:
	movq	%rdx, (%r14)
	movq	%rbx, 16(%r14)
	movb	$1, %al
	addq	$8, %rsp
	popq	%rbx
	popq	%r14
	retq
2:
	xorl	%eax, %eax
	retq
3:
	movq	%rdi, %r14
	movl	$1, %esi
	movq	%rax, %rdi
	callq	rattle_alloc@PLT
	testb	$1, %al
	jne	1b
4:
	xorl	%eax, %eax
	addq	$8, %rsp
	popq	%rbx
	popq	%r14
	retq
5:
	.size	"std_alloc::vec::Vec::grow_amortized::<#0135d645f841a886>", 5b-"std_alloc::vec::Vec::grow_amortized::<#0135d645f841a886>"

	.section	.text.unlikely,"ax",@progbits
	.p2align	4
	.type	"std_alloc::vec::Vec::grow_amortized::<#06f9579a8fe94b13>",@function
"std_alloc::vec::Vec::grow_amortized::<#06f9579a8fe94b13>":
	movq	%rsi, %rax
	movq	8(%rdi), %rsi
	addq	%rsi, %rax
	jae	1f
	xorl	%eax, %eax
	retq
1:
	pushq	%r14
	pushq	%rbx
	pushq	%rax
	cmpq	$9, %rax
	movl	$8, %ebx
	cmovaeq	%rax, %rbx
	movq	16(%rdi), %rcx
	movq	%rcx, %rdx
	shrq	$62, %rdx
	leaq	(%rcx,%rcx), %rax
	cmpq	%rax, %rbx
	cmovaq	%rbx, %rax
	testq	%rdx, %rdx
	cmoveq	%rax, %rbx
	testq	%rbx, %rbx
	js	4f
	testq	%rcx, %rcx
	je	3f
	movq	%rdi, %r14
	movq	(%rdi), %rdi
	movl	$1, %ecx
	movq	%rbx, %rdx
	callq	rattle_realloc@PLT
	testb	$1, %al
	je	4f
2:
	movq	%rdx, (%r14)
	movq	%rbx, 16(%r14)
	movb	$1, %al
	addq	$8, %rsp
	popq	%rbx
	popq	%r14
	retq
3:
	movq	%rdi, %r14
	movl	$1, %esi
	movq	%rax, %rdi
	callq	rattle_alloc@PLT
	testb	$1, %al
	jne	2b
4:
	xorl	%eax, %eax
	addq	$8, %rsp
	popq	%rbx
	popq	%r14
	retq
5:
	.size	"std_alloc::vec::Vec::grow_amortized::<#06f9579a8fe94b13>", 5b-"std_alloc::vec::Vec::grow_amortized::<#06f9579a8fe94b13>"

	.section	.text.unlikely,"ax",@progbits
	.p2align	4
	.type	"std_alloc::vec::Vec::grow_amortized::<#098efa60f427b085>",@function
"std_alloc::vec::Vec::grow_amortized::<#098efa60f427b085>":
	movq	8(%rdi), %rax
	cmpq	$-1, %rax
	je	2f
	pushq	%r14
	pushq	%rbx
	pushq	%rax
	movq	16(%rdi), %rcx
	cmpq	$4, %rax
	movl	$3, %ebx
	cmovaeq	%rax, %rbx
	incq	%rbx
	movq	%rcx, %rsi
	shrq	$62, %rsi
	leaq	(%rcx,%rcx), %rdx
	cmpq	%rdx, %rbx
	cmovaq	%rbx, %rdx
	testq	%rsi, %rsi
	cmoveq	%rdx, %rbx
	movabsq	$115292150460684697, %rsi
	cmpq	%rsi, %rbx
	ja	4f
	testq	%rcx, %rcx
	je	3f
	movq	%rdi, %r14
	movq	(%rdi), %rdi
	shlq	$4, %rax
	leaq	(%rax,%rax,4), %rsi
	movq	%rbx, %rax
	shlq	$4, %rax
	leaq	(%rax,%rax,4), %rdx
	movl	$8, %ecx
	callq	rattle_realloc@PLT
	testb	$1, %al
	je	4f
1:
	movq	%rdx, (%r14)
	movq	%rbx, 16(%r14)
	movb	$1, %al
	addq	$8, %rsp
	popq	%rbx
	popq	%r14
	retq
2:
	xorl	%eax, %eax
	retq
3:
	movq	%rdi, %r14
	shlq	$4, %rdx
	leaq	(%rdx,%rdx,4), %rdi
	movl	$8, %esi
	callq	rattle_alloc@PLT
	testb	$1, %al
	jne	1b
4:
	xorl	%eax, %eax
	addq	$8, %rsp
	popq	%rbx
	popq	%r14
	retq
5:
	.size	"std_alloc::vec::Vec::grow_amortized::<#098efa60f427b085>", 5b-"std_alloc::vec::Vec::grow_amortized::<#098efa60f427b085>"

	.section	.text.unlikely,"ax",@progbits
	.p2align	4
	.type	"std_alloc::vec::Vec::grow_amortized::<#0cdf28b7eeb0a4d1>",@function
"std_alloc::vec::Vec::grow_amortized::<#0cdf28b7eeb0a4d1>":
	movq	8(%rdi), %rsi
	cmpq	$-1, %rsi
	je	2f
	pushq	%r14
	pushq	%rbx
	pushq	%rax
	movq	16(%rdi), %rcx
	cmpq	$8, %rsi
	movl	$7, %ebx
	cmovaeq	%rsi, %rbx
	incq	%rbx
	movq	%rcx, %rdx
	shrq	$62, %rdx
	leaq	(%rcx,%rcx), %rax
	cmpq	%rax, %rbx
	cmovaq	%rbx, %rax
	testq	%rdx, %rdx
	cmoveq	%rax, %rbx
	testq	%rbx, %rbx
	js	4f
	testq	%rcx, %rcx
	je	3f
	movq	%rdi, %r14
	movq	(%rdi), %rdi
	movl	$1, %ecx
	movq	%rbx, %rdx
	callq	rattle_realloc@PLT
	testb	$1, %al
	je	4f
1:
	movq	%rdx, (%r14)
	movq	%rbx, 16(%r14)
	movb	$1, %al
	addq	$8, %rsp
	popq	%rbx
	popq	%r14
	retq
2:
	xorl	%eax, %eax
	retq
3:
	movq	%rdi, %r14
	movl	$1, %esi
	movq	%rax, %rdi
	callq	rattle_alloc@PLT
	testb	$1, %al
	jne	1b
4:
	xorl	%eax, %eax
	addq	$8, %rsp
	popq	%rbx
	popq	%r14
	retq
5:
	.size	"std_alloc::vec::Vec::grow_amortized::<#0cdf28b7eeb0a4d1>", 5b-"std_alloc::vec::Vec::grow_amortized::<#0cdf28b7eeb0a4d1>"

	.section	.text.unlikely,"ax",@progbits
	.p2align	4
	.type	"std_alloc::vec::Vec::grow_amortized::<#1a30988f8987f99f>",@function
"std_alloc::vec::Vec::grow_amortized::<#1a30988f8987f99f>":
	movq	8(%rdi), %rsi
	cmpq	$-1, %rsi
	je	2f
	pushq	%r14
	pushq	%rbx
	pushq	%rax
	movq	16(%rdi), %rcx
	cmpq	$4, %rsi
	movl	$3, %ebx
	cmovaeq	%rsi, %rbx
	incq	%rbx
	movq	%rcx, %rdx
	shrq	$62, %rdx
	leaq	(%rcx,%rcx), %rax
	cmpq	%rax, %rbx
	cmovaq	%rbx, %rax
	testq	%rdx, %rdx
	cmoveq	%rax, %rbx
	movq	%rbx, %rdx
	shrq	$57, %rdx
	jne	4f
	testq	%rcx, %rcx
	je	3f
	movq	%rdi, %r14
	movq	(%rdi), %rdi
	shlq	$6, %rsi
	movq	%rbx, %rdx
	shlq	$6, %rdx
	movl	$8, %ecx
	callq	rattle_realloc@PLT
	testb	$1, %al
	je	4f
1:
	movq	%rdx, (%r14)
	movq	%rbx, 16(%r14)
	movb	$1, %al
	addq	$8, %rsp
	popq	%rbx
	popq	%r14
	retq
2:
	xorl	%eax, %eax
	retq
3:
	movq	%rdi, %r14
	shlq	$6, %rax
	movl	$8, %esi
	movq	%rax, %rdi
	callq	rattle_alloc@PLT
	testb	$1, %al
	jne	1b
4:
	xorl	%eax, %eax
	addq	$8, %rsp
	popq	%rbx
	popq	%r14
	retq
5:
	.size	"std_alloc::vec::Vec::grow_amortized::<#1a30988f8987f99f>", 5b-"std_alloc::vec::Vec::grow_amortized::<#1a30988f8987f99f>"

	.section	.text.unlikely,"ax",@progbits
	.p2align	4
	.type	"std_alloc::vec::Vec::grow_amortized::<#21175eaa316d23c7>",@function
"std_alloc::vec::Vec::grow_amortized::<#21175eaa316d23c7>":
	movq	8(%rdi), %rax
	cmpq	$-1, %rax
	je	2f
	pushq	%r14
	pushq	%rbx
	pushq	%rax
	movq	16(%rdi), %rcx
	cmpq	$4, %rax
	movl	$3, %ebx
	cmovaeq	%rax, %rbx
	incq	%rbx
	movq	%rcx, %rsi
	shrq	$62, %rsi
	leaq	(%rcx,%rcx), %rdx
	cmpq	%rdx, %rbx
	cmovaq	%rbx, %rdx
	testq	%rsi, %rsi
	cmoveq	%rdx, %rbx
	movabsq	$192153584101141162, %rsi
	cmpq	%rsi, %rbx
	ja	4f
	testq	%rcx, %rcx
	je	3f
	movq	%rdi, %r14
	movq	(%rdi), %rdi
	shlq	$4, %rax
	leaq	(%rax,%rax,2), %rsi
	movq	%rbx, %rax
	shlq	$4, %rax
	leaq	(%rax,%rax,2), %rdx
	movl	$8, %ecx
	callq	rattle_realloc@PLT
	testb	$1, %al
	je	4f
1:
	movq	%rdx, (%r14)
	movq	%rbx, 16(%r14)
	movb	$1, %al
	addq	$8, %rsp
	popq	%rbx
	popq	%r14
	retq
2:
	xorl	%eax, %eax
	retq
3:
	movq	%rdi, %r14
	shlq	$4, %rdx
	leaq	(%rdx,%rdx,2), %rdi
	movl	$8, %esi
	callq	rattle_alloc@PLT
	testb	$1, %al
	jne	1b
4:
	xorl	%eax, %eax
	addq	$8, %rsp
	popq	%rbx
	popq	%r14
	retq
5:
	.size	"std_alloc::vec::Vec::grow_amortized::<#21175eaa316d23c7>", 5b-"std_alloc::vec::Vec::grow_amortized::<#21175eaa316d23c7>"

	.section	.text.unlikely,"ax",@progbits
	.p2align	4
	.type	"std_alloc::vec::Vec::grow_amortized::<#225cbcfbbb5ee30d>",@function
"std_alloc::vec::Vec::grow_amortized::<#225cbcfbbb5ee30d>":
	movq	8(%rdi), %rsi
	cmpq	$-1, %rsi
	je	2f
	pushq	%r14
	pushq	%rbx
	pushq	%rax
	movq	16(%rdi), %rcx
	cmpq	$4, %rsi
	movl	$3, %ebx
	cmovaeq	%rsi, %rbx
	incq	%rbx
	movq	%rcx, %rdx
	shrq	$62, %rdx
	leaq	(%rcx,%rcx), %rax
	cmpq	%rax, %rbx
	cmovaq	%rbx, %rax
	testq	%rdx, %rdx
	cmoveq	%rax, %rbx
	movq	%rbx, %rdx
	shrq	$58, %rdx
	jne	4f
	testq	%rcx, %rcx
	je	3f
	movq	%rdi, %r14
	movq	(%rdi), %rdi
	shlq	$5, %rsi
	movq	%rbx, %rdx
	shlq	$5, %rdx
	movl	$8, %ecx
	callq	rattle_realloc@PLT
	testb	$1, %al
	je	4f
1:
	movq	%rdx, (%r14)
	movq	%rbx, 16(%r14)
	movb	$1, %al
	addq	$8, %rsp
	popq	%rbx
	popq	%r14
	retq
2:
	xorl	%eax, %eax
	retq
3:
	movq	%rdi, %r14
	shlq	$5, %rax
	movl	$8, %esi
	movq	%rax, %rdi
	callq	rattle_alloc@PLT
	testb	$1, %al
	jne	1b
4:
	xorl	%eax, %eax
	addq	$8, %rsp
	popq	%rbx
	popq	%r14
	retq
5:
	.size	"std_alloc::vec::Vec::grow_amortized::<#225cbcfbbb5ee30d>", 5b-"std_alloc::vec::Vec::grow_amortized::<#225cbcfbbb5ee30d>"

	.section	.text.unlikely,"ax",@progbits
	.p2align	4
	.type	"std_alloc::vec::Vec::grow_amortized::<#25095d740b27081c>",@function
"std_alloc::vec::Vec::grow_amortized::<#25095d740b27081c>":
	movq	8(%rdi), %rsi
	cmpq	$-1, %rsi
	je	2f
	pushq	%r14
	pushq	%rbx
	pushq	%rax
	movq	16(%rdi), %rcx
	cmpq	$4, %rsi
	movl	$3, %ebx
	cmovaeq	%rsi, %rbx
	incq	%rbx
	movq	%rcx, %rdx
	shrq	$62, %rdx
	leaq	(%rcx,%rcx), %rax
	cmpq	%rax, %rbx
	cmovaq	%rbx, %rax
	testq	%rdx, %rdx
	cmoveq	%rax, %rbx
	movq	%rbx, %rdx
	shrq	$59, %rdx
	jne	4f
	testq	%rcx, %rcx
	je	3f
	movq	%rdi, %r14
	movq	(%rdi), %rdi
	shlq	$4, %rsi
	movq	%rbx, %rdx
	shlq	$4, %rdx
	movl	$8, %ecx
	callq	rattle_realloc@PLT
	testb	$1, %al
	je	4f
1:
	movq	%rdx, (%r14)
	movq	%rbx, 16(%r14)
	movb	$1, %al
	addq	$8, %rsp
	popq	%rbx
	popq	%r14
	retq
2:
	xorl	%eax, %eax
	retq
3:
	movq	%rdi, %r14
	shlq	$4, %rax
	movl	$8, %esi
	movq	%rax, %rdi
	callq	rattle_alloc@PLT
	testb	$1, %al
	jne	1b
4:
	xorl	%eax, %eax
	addq	$8, %rsp
	popq	%rbx
	popq	%r14
	retq
5:
	.size	"std_alloc::vec::Vec::grow_amortized::<#25095d740b27081c>", 5b-"std_alloc::vec::Vec::grow_amortized::<#25095d740b27081c>"

	.section	.text.unlikely,"ax",@progbits
	.p2align	4
	.type	"std_alloc::vec::Vec::grow_amortized::<#383af2bc39eacab1>",@function
"std_alloc::vec::Vec::grow_amortized::<#383af2bc39eacab1>":
	movq	8(%rdi), %rsi
	cmpq	$-1, %rsi
	je	2f
	pushq	%r14
	pushq	%rbx
	pushq	%rax
	movq	16(%rdi), %rcx
	cmpq	$4, %rsi
	movl	$3, %ebx
	cmovaeq	%rsi, %rbx
	incq	%rbx
	movq	%rcx, %rdx
	shrq	$62, %rdx
	leaq	(%rcx,%rcx), %rax
	cmpq	%rax, %rbx
	cmovaq	%rbx, %rax
	testq	%rdx, %rdx
	cmoveq	%rax, %rbx
	movq	%rbx, %rdx
	shrq	$60, %rdx
	jne	4f
	testq	%rcx, %rcx
	je	3f
	movq	%rdi, %r14
	movq	(%rdi), %rdi
	shlq	$3, %rsi
	leaq	(,%rbx,8), %rdx
	movl	$8, %ecx
	callq	rattle_realloc@PLT
	testb	$1, %al
	je	4f
1:
	movq	%rdx, (%r14)
	movq	%rbx, 16(%r14)
	movb	$1, %al
	addq	$8, %rsp
	popq	%rbx
	popq	%r14
	retq
2:
	xorl	%eax, %eax
	retq
3:
	movq	%rdi, %r14
	shlq	$3, %rax
	movl	$8, %esi
	movq	%rax, %rdi
	callq	rattle_alloc@PLT
	testb	$1, %al
	jne	1b
4:
	xorl	%eax, %eax
	addq	$8, %rsp
	popq	%rbx
	popq	%r14
	retq
5:
	.size	"std_alloc::vec::Vec::grow_amortized::<#383af2bc39eacab1>", 5b-"std_alloc::vec::Vec::grow_amortized::<#383af2bc39eacab1>"

	.section	.text.unlikely,"ax",@progbits
	.p2align	4
	.type	"std_alloc::vec::Vec::grow_amortized::<#4e4eb83fc8bacb48>",@function
"std_alloc::vec::Vec::grow_amortized::<#4e4eb83fc8bacb48>":
	movq	8(%rdi), %rsi
	cmpq	$-1, %rsi
	je	2f
	pushq	%r14
	pushq	%rbx
	pushq	%rax
	movq	16(%rdi), %rcx
	cmpq	$4, %rsi
	movl	$3, %ebx
	cmovaeq	%rsi, %rbx
	incq	%rbx
	movq	%rcx, %rdx
	shrq	$62, %rdx
	leaq	(%rcx,%rcx), %rax
	cmpq	%rax, %rbx
	cmovaq	%rbx, %rax
	testq	%rdx, %rdx
	cmoveq	%rax, %rbx
	movq	%rbx, %rdx
	shrq	$60, %rdx
	jne	4f
	testq	%rcx, %rcx
	je	3f
	movq	%rdi, %r14
	movq	(%rdi), %rdi
	shlq	$3, %rsi
	leaq	(,%rbx,8), %rdx
	movl	$8, %ecx
	callq	rattle_realloc@PLT
	testb	$1, %al
	je	4f
1:
	movq	%rdx, (%r14)
	movq	%rbx, 16(%r14)
	movb	$1, %al
	addq	$8, %rsp
	popq	%rbx
	popq	%r14
	retq
2:
	xorl	%eax, %eax
	retq
3:
	movq	%rdi, %r14
	shlq	$3, %rax
	movl	$8, %esi
	movq	%rax, %rdi
	callq	rattle_alloc@PLT
	testb	$1, %al
	jne	1b
4:
	xorl	%eax, %eax
	addq	$8, %rsp
	popq	%rbx
	popq	%r14
	retq
5:
	.size	"std_alloc::vec::Vec::grow_amortized::<#4e4eb83fc8bacb48>", 5b-"std_alloc::vec::Vec::grow_amortized::<#4e4eb83fc8bacb48>"

	.section	.text.unlikely,"ax",@progbits
	.p2align	4
	.type	"std_alloc::vec::Vec::grow_amortized::<#52d1c8244e310953>",@function
"std_alloc::vec::Vec::grow_amortized::<#52d1c8244e310953>":
	movq	8(%rdi), %rsi
	cmpq	$-1, %rsi
	je	2f
	pushq	%r14
	pushq	%rbx
	pushq	%rax
	movq	16(%rdi), %rcx
	cmpq	$4, %rsi
	movl	$3, %ebx
	cmovaeq	%rsi, %rbx
	incq	%rbx
	movq	%rcx, %rdx
	shrq	$62, %rdx
	leaq	(%rcx,%rcx), %rax
	cmpq	%rax, %rbx
	cmovaq	%rbx, %rax
	testq	%rdx, %rdx
	cmoveq	%rax, %rbx
	movq	%rbx, %rdx
	shrq	$58, %rdx
	jne	4f
	testq	%rcx, %rcx
	je	3f
	movq	%rdi, %r14
	movq	(%rdi), %rdi
	shlq	$5, %rsi
	movq	%rbx, %rdx
	shlq	$5, %rdx
	movl	$8, %ecx
	callq	rattle_realloc@PLT
	testb	$1, %al
	je	4f
1:
	movq	%rdx, (%r14)
	movq	%rbx, 16(%r14)
	movb	$1, %al
	addq	$8, %rsp
	popq	%rbx
	popq	%r14
	retq
2:
	xorl	%eax, %eax
	retq
3:
	movq	%rdi, %r14
	shlq	$5, %rax
	movl	$8, %esi
	movq	%rax, %rdi
	callq	rattle_alloc@PLT
	testb	$1, %al
	jne	1b
4:
	xorl	%eax, %eax
	addq	$8, %rsp
	popq	%rbx
	popq	%r14
	retq
5:
	.size	"std_alloc::vec::Vec::grow_amortized::<#52d1c8244e310953>", 5b-"std_alloc::vec::Vec::grow_amortized::<#52d1c8244e310953>"

	.section	.text.unlikely,"ax",@progbits
	.p2align	4
	.type	"std_alloc::vec::Vec::grow_amortized::<#5c0d41a9695ab8a2>",@function
"std_alloc::vec::Vec::grow_amortized::<#5c0d41a9695ab8a2>":
	movq	%rsi, %rax
	movq	8(%rdi), %rsi
	addq	%rsi, %rax
	jae	1f
	xorl	%eax, %eax
	retq
1:
	pushq	%r14
	pushq	%rbx
	pushq	%rax
	cmpq	$9, %rax
	movl	$8, %ebx
	cmovaeq	%rax, %rbx
	movq	16(%rdi), %rcx
	movq	%rcx, %rdx
	shrq	$62, %rdx
	leaq	(%rcx,%rcx), %rax
	cmpq	%rax, %rbx
	cmovaq	%rbx, %rax
	testq	%rdx, %rdx
	cmoveq	%rax, %rbx
	testq	%rbx, %rbx
	js	4f
	testq	%rcx, %rcx
	je	3f
	movq	%rdi, %r14
	movq	(%rdi), %rdi
	movl	$1, %ecx
	movq	%rbx, %rdx
	callq	rattle_realloc@PLT
	testb	$1, %al
	je	4f
2:
	movq	%rdx, (%r14)
	movq	%rbx, 16(%r14)
	movb	$1, %al
	addq	$8, %rsp
	popq	%rbx
	popq	%r14
	retq
3:
	movq	%rdi, %r14
	movl	$1, %esi
	movq	%rax, %rdi
	callq	rattle_alloc@PLT
	testb	$1, %al
	jne	2b
4:
	xorl	%eax, %eax
	addq	$8, %rsp
	popq	%rbx
	popq	%r14
	retq
5:
	.size	"std_alloc::vec::Vec::grow_amortized::<#5c0d41a9695ab8a2>", 5b-"std_alloc::vec::Vec::grow_amortized::<#5c0d41a9695ab8a2>"

	.section	.text.unlikely,"ax",@progbits
	.p2align	4
	.type	"std_alloc::vec::Vec::grow_amortized::<#5cd6c36b4880780f>",@function
"std_alloc::vec::Vec::grow_amortized::<#5cd6c36b4880780f>":
	movq	8(%rdi), %rax
	cmpq	$-1, %rax
	je	2f
	pushq	%r14
	pushq	%rbx
	pushq	%rax
	movq	16(%rdi), %rcx
	cmpq	$4, %rax
	movl	$3, %ebx
	cmovaeq	%rax, %rbx
	incq	%rbx
	movq	%rcx, %rsi
	shrq	$62, %rsi
	leaq	(%rcx,%rcx), %rdx
	cmpq	%rdx, %rbx
	cmovaq	%rbx, %rdx
	testq	%rsi, %rsi
	cmoveq	%rdx, %rbx
	movabsq	$230584300921369395, %rsi
	cmpq	%rsi, %rbx
	ja	4f
	testq	%rcx, %rcx
	je	3f
	movq	%rdi, %r14
	movq	(%rdi), %rdi
	shlq	$3, %rax
	leaq	(%rax,%rax,4), %rsi
	leaq	(,%rbx,8), %rax
	leaq	(%rax,%rax,4), %rdx
	movl	$8, %ecx
	callq	rattle_realloc@PLT
	testb	$1, %al
	je	4f
1:
	movq	%rdx, (%r14)
	movq	%rbx, 16(%r14)
	movb	$1, %al
	addq	$8, %rsp
	popq	%rbx
	popq	%r14
	retq
2:
	xorl	%eax, %eax
	retq
3:
	movq	%rdi, %r14
	shlq	$3, %rdx
	leaq	(%rdx,%rdx,4), %rdi
	movl	$8, %esi
	callq	rattle_alloc@PLT
	testb	$1, %al
	jne	1b
4:
	xorl	%eax, %eax
	addq	$8, %rsp
	popq	%rbx
	popq	%r14
	retq
5:
	.size	"std_alloc::vec::Vec::grow_amortized::<#5cd6c36b4880780f>", 5b-"std_alloc::vec::Vec::grow_amortized::<#5cd6c36b4880780f>"

	.section	.text.unlikely,"ax",@progbits
	.p2align	4
	.type	"std_alloc::vec::Vec::grow_amortized::<#5eba103c2f25e3e5>",@function
"std_alloc::vec::Vec::grow_amortized::<#5eba103c2f25e3e5>":
	movq	8(%rdi), %rsi
	cmpq	$-1, %rsi
	je	2f
	pushq	%r14
	pushq	%rbx
	pushq	%rax
	movq	16(%rdi), %rcx
	cmpq	$4, %rsi
	movl	$3, %ebx
	cmovaeq	%rsi, %rbx
	incq	%rbx
	movq	%rcx, %rdx
	shrq	$62, %rdx
	leaq	(%rcx,%rcx), %rax
	cmpq	%rax, %rbx
	cmovaq	%rbx, %rax
	testq	%rdx, %rdx
	cmoveq	%rax, %rbx
	movq	%rbx, %rdx
	shrq	$60, %rdx
	jne	4f
	testq	%rcx, %rcx
	je	3f
	movq	%rdi, %r14
	movq	(%rdi), %rdi
	shlq	$3, %rsi
	leaq	(,%rbx,8), %rdx
	movl	$8, %ecx
	callq	rattle_realloc@PLT
	testb	$1, %al
	je	4f
1:
	movq	%rdx, (%r14)
	movq	%rbx, 16(%r14)
	movb	$1, %al
	addq	$8, %rsp
	popq	%rbx
	popq	%r14
	retq
2:
	xorl	%eax, %eax
	retq
3:
	movq	%rdi, %r14
	shlq	$3, %rax
	movl	$8, %esi
	movq	%rax, %rdi
	callq	rattle_alloc@PLT
	testb	$1, %al
	jne	1b
4:
	xorl	%eax, %eax
	addq	$8, %rsp
	popq	%rbx
	popq	%r14
	retq
5:
	.size	"std_alloc::vec::Vec::grow_amortized::<#5eba103c2f25e3e5>", 5b-"std_alloc::vec::Vec::grow_amortized::<#5eba103c2f25e3e5>"

	.section	.text.unlikely,"ax",@progbits
	.p2align	4
	.type	"std_alloc::vec::Vec::grow_amortized::<#621ce3d0792088ae>",@function
"std_alloc::vec::Vec::grow_amortized::<#621ce3d0792088ae>":
	movq	%rsi, %rax
	movq	8(%rdi), %rsi
	addq	%rsi, %rax
	jae	1f
	xorl	%eax, %eax
	retq
1:
	pushq	%r14
	pushq	%rbx
	pushq	%rax
	movq	16(%rdi), %rcx
	cmpq	$5, %rax
	movl	$4, %ebx
	cmovaeq	%rax, %rbx
	movq	%rcx, %rdx
	shrq	$62, %rdx
	leaq	(%rcx,%rcx), %rax
	cmpq	%rax, %rbx
	cmovaq	%rbx, %rax
	testq	%rdx, %rdx
	cmoveq	%rax, %rbx
	movq	%rbx, %rdx
	shrq	$57, %rdx
	jne	4f
	testq	%rcx, %rcx
	je	3f
	movq	%rdi, %r14
	movq	(%rdi), %rdi
	shlq	$6, %rsi
	movq	%rbx, %rdx
	shlq	$6, %rdx
	movl	$4, %ecx
	callq	rattle_realloc@PLT
	testb	$1, %al
	je	4f
2:
	movq	%rdx, (%r14)
	movq	%rbx, 16(%r14)
	movb	$1, %al
	addq	$8, %rsp
	popq	%rbx
	popq	%r14
	retq
3:
	movq	%rdi, %r14
	shlq	$6, %rax
	movl	$4, %esi
	movq	%rax, %rdi
	callq	rattle_alloc@PLT
	testb	$1, %al
	jne	2b
4:
	xorl	%eax, %eax
	addq	$8, %rsp
	popq	%rbx
	popq	%r14
	retq
5:
	.size	"std_alloc::vec::Vec::grow_amortized::<#621ce3d0792088ae>", 5b-"std_alloc::vec::Vec::grow_amortized::<#621ce3d0792088ae>"

	.section	.text.unlikely,"ax",@progbits
	.p2align	4
	.type	"std_alloc::vec::Vec::grow_amortized::<#679fd8114cd9e466>",@function
"std_alloc::vec::Vec::grow_amortized::<#679fd8114cd9e466>":
	movq	8(%rdi), %rsi
	cmpq	$-1, %rsi
	je	2f
	pushq	%r14
	pushq	%rbx
	pushq	%rax
	movq	16(%rdi), %rcx
	cmpq	$4, %rsi
	movl	$3, %ebx
	cmovaeq	%rsi, %rbx
	incq	%rbx
	movq	%rcx, %rdx
	shrq	$62, %rdx
	leaq	(%rcx,%rcx), %rax
	cmpq	%rax, %rbx
	cmovaq	%rbx, %rax
	testq	%rdx, %rdx
	cmoveq	%rax, %rbx
	movq	%rbx, %rdx
	shrq	$58, %rdx
	jne	4f
	testq	%rcx, %rcx
	je	3f
	movq	%rdi, %r14
	movq	(%rdi), %rdi
	shlq	$5, %rsi
	movq	%rbx, %rdx
	shlq	$5, %rdx
	movl	$8, %ecx
	callq	rattle_realloc@PLT
	testb	$1, %al
	je	4f
1:
	movq	%rdx, (%r14)
	movq	%rbx, 16(%r14)
	movb	$1, %al
	addq	$8, %rsp
	popq	%rbx
	popq	%r14
	retq
2:
	xorl	%eax, %eax
	retq
3:
	movq	%rdi, %r14
	shlq	$5, %rax
	movl	$8, %esi
	movq	%rax, %rdi
	callq	rattle_alloc@PLT
	testb	$1, %al
	jne	1b
4:
	xorl	%eax, %eax
	addq	$8, %rsp
	popq	%rbx
	popq	%r14
	retq
5:
	.size	"std_alloc::vec::Vec::grow_amortized::<#679fd8114cd9e466>", 5b-"std_alloc::vec::Vec::grow_amortized::<#679fd8114cd9e466>"

	.section	.text.unlikely,"ax",@progbits
	.p2align	4
	.type	"std_alloc::vec::Vec::grow_amortized::<#69b8fd684be40472>",@function
"std_alloc::vec::Vec::grow_amortized::<#69b8fd684be40472>":
	movq	8(%rdi), %rsi
	cmpq	$-1, %rsi
	je	2f
	pushq	%r14
	pushq	%rbx
	pushq	%rax
	movq	16(%rdi), %rcx
	cmpq	$4, %rsi
	movl	$3, %ebx
	cmovaeq	%rsi, %rbx
	incq	%rbx
	movq	%rcx, %rdx
	shrq	$62, %rdx
	leaq	(%rcx,%rcx), %rax
	cmpq	%rax, %rbx
	cmovaq	%rbx, %rax
	testq	%rdx, %rdx
	cmoveq	%rax, %rbx
	movq	%rbx, %rdx
	shrq	$61, %rdx
	jne	4f
	testq	%rcx, %rcx
	je	3f
	movq	%rdi, %r14
	movq	(%rdi), %rdi
	shlq	$2, %rsi
	leaq	(,%rbx,4), %rdx
	movl	$4, %ecx
	callq	rattle_realloc@PLT
	testb	$1, %al
	je	4f
1:
	movq	%rdx, (%r14)
	movq	%rbx, 16(%r14)
	movb	$1, %al
	addq	$8, %rsp
	popq	%rbx
	popq	%r14
	retq
2:
	xorl	%eax, %eax
	retq
3:
	movq	%rdi, %r14
	shlq	$2, %rax
	movl	$4, %esi
	movq	%rax, %rdi
	callq	rattle_alloc@PLT
	testb	$1, %al
	jne	1b
4:
	xorl	%eax, %eax
	addq	$8, %rsp
	popq	%rbx
	popq	%r14
	retq
5:
	.size	"std_alloc::vec::Vec::grow_amortized::<#69b8fd684be40472>", 5b-"std_alloc::vec::Vec::grow_amortized::<#69b8fd684be40472>"

	.section	.text.unlikely,"ax",@progbits
	.p2align	4
	.type	"std_alloc::vec::Vec::grow_amortized::<#6aa8efa60d943355>",@function
"std_alloc::vec::Vec::grow_amortized::<#6aa8efa60d943355>":
	movq	8(%rdi), %rsi
	cmpq	$-1, %rsi
	je	2f
	pushq	%r14
	pushq	%rbx
	pushq	%rax
	movq	16(%rdi), %rcx
	cmpq	$4, %rsi
	movl	$3, %ebx
	cmovaeq	%rsi, %rbx
	incq	%rbx
	movq	%rcx, %rdx
	shrq	$62, %rdx
	leaq	(%rcx,%rcx), %rax
	cmpq	%rax, %rbx
	cmovaq	%rbx, %rax
	testq	%rdx, %rdx
	cmoveq	%rax, %rbx
	movq	%rbx, %rdx
	shrq	$60, %rdx
	jne	4f
	testq	%rcx, %rcx
	je	3f
	movq	%rdi, %r14
	movq	(%rdi), %rdi
	shlq	$3, %rsi
	leaq	(,%rbx,8), %rdx
	movl	$8, %ecx
	callq	rattle_realloc@PLT
	testb	$1, %al
	je	4f
1:
	movq	%rdx, (%r14)
	movq	%rbx, 16(%r14)
	movb	$1, %al
	addq	$8, %rsp
	popq	%rbx
	popq	%r14
	retq
2:
	xorl	%eax, %eax
	retq
3:
	movq	%rdi, %r14
	shlq	$3, %rax
	movl	$8, %esi
	movq	%rax, %rdi
	callq	rattle_alloc@PLT
	testb	$1, %al
	jne	1b
4:
	xorl	%eax, %eax
	addq	$8, %rsp
	popq	%rbx
	popq	%r14
	retq
5:
	.size	"std_alloc::vec::Vec::grow_amortized::<#6aa8efa60d943355>", 5b-"std_alloc::vec::Vec::grow_amortized::<#6aa8efa60d943355>"

	.section	.text.unlikely,"ax",@progbits
	.p2align	4
	.type	"std_alloc::vec::Vec::grow_amortized::<#6f4ec3444080bcc6>",@function
"std_alloc::vec::Vec::grow_amortized::<#6f4ec3444080bcc6>":
	movq	%rsi, %rax
	movq	8(%rdi), %rsi
	addq	%rsi, %rax
	jae	1f
	xorl	%eax, %eax
	retq
1:
	pushq	%r14
	pushq	%rbx
	pushq	%rax
	movq	16(%rdi), %rcx
	cmpq	$5, %rax
	movl	$4, %ebx
	cmovaeq	%rax, %rbx
	movq	%rcx, %rdx
	shrq	$62, %rdx
	leaq	(%rcx,%rcx), %rax
	cmpq	%rax, %rbx
	cmovaq	%rbx, %rax
	testq	%rdx, %rdx
	cmoveq	%rax, %rbx
	movq	%rbx, %rdx
	shrq	$61, %rdx
	jne	4f
	testq	%rcx, %rcx
	je	3f
	movq	%rdi, %r14
	movq	(%rdi), %rdi
	shlq	$2, %rsi
	leaq	(,%rbx,4), %rdx
	movl	$4, %ecx
	callq	rattle_realloc@PLT
	testb	$1, %al
	je	4f
2:
	movq	%rdx, (%r14)
	movq	%rbx, 16(%r14)
	movb	$1, %al
	addq	$8, %rsp
	popq	%rbx
	popq	%r14
	retq
3:
	movq	%rdi, %r14
	shlq	$2, %rax
	movl	$4, %esi
	movq	%rax, %rdi
	callq	rattle_alloc@PLT
	testb	$1, %al
	jne	2b
4:
	xorl	%eax, %eax
	addq	$8, %rsp
	popq	%rbx
	popq	%r14
	retq
5:
	.size	"std_alloc::vec::Vec::grow_amortized::<#6f4ec3444080bcc6>", 5b-"std_alloc::vec::Vec::grow_amortized::<#6f4ec3444080bcc6>"

	.section	.text.unlikely,"ax",@progbits
	.p2align	4
	.type	"std_alloc::vec::Vec::grow_amortized::<#75574408efed45b1>",@function
"std_alloc::vec::Vec::grow_amortized::<#75574408efed45b1>":
	movq	8(%rdi), %rsi
	cmpq	$-1, %rsi
	je	2f
	pushq	%r14
	pushq	%rbx
	pushq	%rax
	movq	16(%rdi), %rcx
	cmpq	$4, %rsi
	movl	$3, %ebx
	cmovaeq	%rsi, %rbx
	incq	%rbx
	movq	%rcx, %rdx
	shrq	$62, %rdx
	leaq	(%rcx,%rcx), %rax
	cmpq	%rax, %rbx
	cmovaq	%rbx, %rax
	testq	%rdx, %rdx
	cmoveq	%rax, %rbx
	movq	%rbx, %rdx
	shrq	$57, %rdx
	jne	4f
	testq	%rcx, %rcx
	je	3f
	movq	%rdi, %r14
	movq	(%rdi), %rdi
	shlq	$6, %rsi
	movq	%rbx, %rdx
	shlq	$6, %rdx
	movl	$8, %ecx
	callq	rattle_realloc@PLT
	testb	$1, %al
	je	4f
1:
	movq	%rdx, (%r14)
	movq	%rbx, 16(%r14)
	movb	$1, %al
	addq	$8, %rsp
	popq	%rbx
	popq	%r14
	retq
2:
	xorl	%eax, %eax
	retq
3:
	movq	%rdi, %r14
	shlq	$6, %rax
	movl	$8, %esi
	movq	%rax, %rdi
	callq	rattle_alloc@PLT
	testb	$1, %al
	jne	1b
4:
	xorl	%eax, %eax
	addq	$8, %rsp
	popq	%rbx
	popq	%r14
	retq
5:
	.size	"std_alloc::vec::Vec::grow_amortized::<#75574408efed45b1>", 5b-"std_alloc::vec::Vec::grow_amortized::<#75574408efed45b1>"

	.section	.text.unlikely,"ax",@progbits
	.p2align	4
	.type	"std_alloc::vec::Vec::grow_amortized::<#84a938a65d12231e>",@function
"std_alloc::vec::Vec::grow_amortized::<#84a938a65d12231e>":
	movq	8(%rdi), %rax
	cmpq	$-1, %rax
	je	2f
	pushq	%r14
	pushq	%rbx
	pushq	%rax
	movq	16(%rdi), %rcx
	cmpq	$4, %rax
	movl	$3, %ebx
	cmovaeq	%rax, %rbx
	incq	%rbx
	movq	%rcx, %rsi
	shrq	$62, %rsi
	leaq	(%rcx,%rcx), %rdx
	cmpq	%rdx, %rbx
	cmovaq	%rbx, %rdx
	testq	%rsi, %rsi
	cmoveq	%rdx, %rbx
	movabsq	$192153584101141162, %rsi
	cmpq	%rsi, %rbx
	ja	4f
	testq	%rcx, %rcx
	je	3f
	movq	%rdi, %r14
	movq	(%rdi), %rdi
	shlq	$4, %rax
	leaq	(%rax,%rax,2), %rsi
	movq	%rbx, %rax
	shlq	$4, %rax
	leaq	(%rax,%rax,2), %rdx
	movl	$8, %ecx
	callq	rattle_realloc@PLT
	testb	$1, %al
	je	4f
1:
	movq	%rdx, (%r14)
	movq	%rbx, 16(%r14)
	movb	$1, %al
	addq	$8, %rsp
	popq	%rbx
	popq	%r14
	retq
2:
	xorl	%eax, %eax
	retq
3:
	movq	%rdi, %r14
	shlq	$4, %rdx
	leaq	(%rdx,%rdx,2), %rdi
	movl	$8, %esi
	callq	rattle_alloc@PLT
	testb	$1, %al
	jne	1b
4:
	xorl	%eax, %eax
	addq	$8, %rsp
	popq	%rbx
	popq	%r14
	retq
5:
	.size	"std_alloc::vec::Vec::grow_amortized::<#84a938a65d12231e>", 5b-"std_alloc::vec::Vec::grow_amortized::<#84a938a65d12231e>"

	.section	.text.unlikely,"ax",@progbits
	.p2align	4
	.type	"std_alloc::vec::Vec::grow_amortized::<#88a06660b488da62>",@function
"std_alloc::vec::Vec::grow_amortized::<#88a06660b488da62>":
	movq	8(%rdi), %rax
	cmpq	$-1, %rax
	je	2f
	pushq	%r14
	pushq	%rbx
	pushq	%rax
	movq	16(%rdi), %rcx
	cmpq	$4, %rax
	movl	$3, %ebx
	cmovaeq	%rax, %rbx
	incq	%rbx
	movq	%rcx, %rsi
	shrq	$62, %rsi
	leaq	(%rcx,%rcx), %rdx
	cmpq	%rdx, %rbx
	cmovaq	%rbx, %rdx
	testq	%rsi, %rsi
	cmoveq	%rdx, %rbx
	movabsq	$230584300921369395, %rsi
	cmpq	%rsi, %rbx
	ja	4f
	testq	%rcx, %rcx
	je	3f
	movq	%rdi, %r14
	movq	(%rdi), %rdi
	shlq	$3, %rax
	leaq	(%rax,%rax,4), %rsi
	leaq	(,%rbx,8), %rax
	leaq	(%rax,%rax,4), %rdx
	movl	$8, %ecx
	callq	rattle_realloc@PLT
	testb	$1, %al
	je	4f
1:
	movq	%rdx, (%r14)
	movq	%rbx, 16(%r14)
	movb	$1, %al
	addq	$8, %rsp
	popq	%rbx
	popq	%r14
	retq
2:
	xorl	%eax, %eax
	retq
3:
	movq	%rdi, %r14
	shlq	$3, %rdx
	leaq	(%rdx,%rdx,4), %rdi
	movl	$8, %esi
	callq	rattle_alloc@PLT
	testb	$1, %al
	jne	1b
4:
	xorl	%eax, %eax
	addq	$8, %rsp
	popq	%rbx
	popq	%r14
	retq
5:
	.size	"std_alloc::vec::Vec::grow_amortized::<#88a06660b488da62>", 5b-"std_alloc::vec::Vec::grow_amortized::<#88a06660b488da62>"

	.section	.text.unlikely,"ax",@progbits
	.p2align	4
	.type	"std_alloc::vec::Vec::grow_amortized::<#923caa80388ab1e5>",@function
"std_alloc::vec::Vec::grow_amortized::<#923caa80388ab1e5>":
	movq	8(%rdi), %rax
	cmpq	$-1, %rax
	je	2f
	pushq	%r14
	pushq	%rbx
	pushq	%rax
	movq	16(%rdi), %rcx
	cmpq	$4, %rax
	movl	$3, %ebx
	cmovaeq	%rax, %rbx
	incq	%rbx
	movq	%rcx, %rsi
	shrq	$62, %rsi
	leaq	(%rcx,%rcx), %rdx
	cmpq	%rdx, %rbx
	cmovaq	%rbx, %rdx
	testq	%rsi, %rsi
	cmoveq	%rdx, %rbx
	movabsq	$192153584101141162, %rsi
	cmpq	%rsi, %rbx
	ja	4f
	testq	%rcx, %rcx
	je	3f
	movq	%rdi, %r14
	movq	(%rdi), %rdi
	shlq	$4, %rax
	leaq	(%rax,%rax,2), %rsi
	movq	%rbx, %rax
	shlq	$4, %rax
	leaq	(%rax,%rax,2), %rdx
	movl	$8, %ecx
	callq	rattle_realloc@PLT
	testb	$1, %al
	je	4f
1:
	movq	%rdx, (%r14)
	movq	%rbx, 16(%r14)
	movb	$1, %al
	addq	$8, %rsp
	popq	%rbx
	popq	%r14
	retq
2:
	xorl	%eax, %eax
	retq
3:
	movq	%rdi, %r14
	shlq	$4, %rdx
	leaq	(%rdx,%rdx,2), %rdi
	movl	$8, %esi
	callq	rattle_alloc@PLT
	testb	$1, %al
	jne	1b
4:
	xorl	%eax, %eax
	addq	$8, %rsp
	popq	%rbx
	popq	%r14
	retq
5:
	.size	"std_alloc::vec::Vec::grow_amortized::<#923caa80388ab1e5>", 5b-"std_alloc::vec::Vec::grow_amortized::<#923caa80388ab1e5>"

	.section	.text.unlikely,"ax",@progbits
	.p2align	4
	.type	"std_alloc::vec::Vec::grow_amortized::<#9df5fbc9122c907f>",@function
"std_alloc::vec::Vec::grow_amortized::<#9df5fbc9122c907f>":
	movq	8(%rdi), %rax
	cmpq	$-1, %rax
	je	2f
	pushq	%r14
	pushq	%rbx
	pushq	%rax
	movq	16(%rdi), %rcx
	cmpq	$4, %rax
	movl	$3, %ebx
	cmovaeq	%rax, %rbx
	incq	%rbx
	movq	%rcx, %rsi
	shrq	$62, %rsi
	leaq	(%rcx,%rcx), %rdx
	cmpq	%rdx, %rbx
	cmovaq	%rbx, %rdx
	testq	%rsi, %rsi
	cmoveq	%rdx, %rbx
	movabsq	$104811045873349725, %rsi
	cmpq	%rsi, %rbx
	ja	4f
	testq	%rcx, %rcx
	je	3f
	movq	%rdi, %r14
	movq	(%rdi), %rdi
	imulq	$88, %rax, %rsi
	imulq	$88, %rbx, %rdx
	movl	$8, %ecx
	callq	rattle_realloc@PLT
	testb	$1, %al
	je	4f
1:
	movq	%rdx, (%r14)
	movq	%rbx, 16(%r14)
	movb	$1, %al
	addq	$8, %rsp
	popq	%rbx
	popq	%r14
	retq
2:
	xorl	%eax, %eax
	retq
3:
	movq	%rdi, %r14
	imulq	$88, %rdx, %rdi
	movl	$8, %esi
	callq	rattle_alloc@PLT
	testb	$1, %al
	jne	1b
4:
	xorl	%eax, %eax
	addq	$8, %rsp
	popq	%rbx
	popq	%r14
	retq
5:
	.size	"std_alloc::vec::Vec::grow_amortized::<#9df5fbc9122c907f>", 5b-"std_alloc::vec::Vec::grow_amortized::<#9df5fbc9122c907f>"

	.section	.text.unlikely,"ax",@progbits
	.p2align	4
	.type	"std_alloc::vec::Vec::grow_amortized::<#9e03e38e8c3bbb30>",@function
"std_alloc::vec::Vec::grow_amortized::<#9e03e38e8c3bbb30>":
	movq	8(%rdi), %rsi
	cmpq	$-64, %rsi
	jb	1f
	xorl	%eax, %eax
	retq
1:
	pushq	%r14
	pushq	%rbx
	pushq	%rax
	movq	16(%rdi), %rcx
	leaq	64(%rsi), %rbx
	movq	%rcx, %rdx
	shrq	$62, %rdx
	leaq	(%rcx,%rcx), %rax
	cmpq	%rax, %rbx
	cmovaq	%rbx, %rax
	testq	%rdx, %rdx
	cmoveq	%rax, %rbx
	movq	%rbx, %rdx
	shrq	$61, %rdx
	jne	4f
	testq	%rcx, %rcx
	je	3f
	movq	%rdi, %r14
	movq	(%rdi), %rdi
	shlq	$2, %rsi
	leaq	(,%rbx,4), %rdx
	movl	$4, %ecx
	callq	rattle_realloc@PLT
	testb	$1, %al
	je	4f
2:
	movq	%rdx, (%r14)
	movq	%rbx, 16(%r14)
	movb	$1, %al
	addq	$8, %rsp
	popq	%rbx
	popq	%r14
	retq
3:
	movq	%rdi, %r14
	shlq	$2, %rax
	movl	$4, %esi
	movq	%rax, %rdi
	callq	rattle_alloc@PLT
	testb	$1, %al
	jne	2b
4:
	xorl	%eax, %eax
	addq	$8, %rsp
	popq	%rbx
	popq	%r14
	retq
5:
	.size	"std_alloc::vec::Vec::grow_amortized::<#9e03e38e8c3bbb30>", 5b-"std_alloc::vec::Vec::grow_amortized::<#9e03e38e8c3bbb30>"

	.section	.text.unlikely,"ax",@progbits
	.p2align	4
	.type	"std_alloc::vec::Vec::grow_amortized::<#9f351709e7e1a03a>",@function
"std_alloc::vec::Vec::grow_amortized::<#9f351709e7e1a03a>":
	movq	8(%rdi), %rax
	cmpq	$-1, %rax
	je	2f
	pushq	%r14
	pushq	%rbx
	pushq	%rax
	movq	16(%rdi), %rcx
	cmpq	$4, %rax
	movl	$3, %ebx
	cmovaeq	%rax, %rbx
	incq	%rbx
	movq	%rcx, %rsi
	shrq	$62, %rsi
	leaq	(%rcx,%rcx), %rdx
	cmpq	%rdx, %rbx
	cmovaq	%rbx, %rdx
	testq	%rsi, %rsi
	cmoveq	%rdx, %rbx
	movabsq	$88686269585142075, %rsi
	cmpq	%rsi, %rbx
	ja	4f
	testq	%rcx, %rcx
	je	3f
	movq	%rdi, %r14
	movq	(%rdi), %rdi
	imulq	$104, %rax, %rsi
	imulq	$104, %rbx, %rdx
	movl	$8, %ecx
	callq	rattle_realloc@PLT
	testb	$1, %al
	je	4f
1:
	movq	%rdx, (%r14)
	movq	%rbx, 16(%r14)
	movb	$1, %al
	addq	$8, %rsp
	popq	%rbx
	popq	%r14
	retq
2:
	xorl	%eax, %eax
	retq
3:
	movq	%rdi, %r14
	imulq	$104, %rdx, %rdi
	movl	$8, %esi
	callq	rattle_alloc@PLT
	testb	$1, %al
	jne	1b
4:
	xorl	%eax, %eax
	addq	$8, %rsp
	popq	%rbx
	popq	%r14
	retq
5:
	.size	"std_alloc::vec::Vec::grow_amortized::<#9f351709e7e1a03a>", 5b-"std_alloc::vec::Vec::grow_amortized::<#9f351709e7e1a03a>"

	.section	.text.unlikely,"ax",@progbits
	.p2align	4
	.type	"std_alloc::vec::Vec::grow_amortized::<#a3975ff14a0d29f4>",@function
"std_alloc::vec::Vec::grow_amortized::<#a3975ff14a0d29f4>":
	movq	8(%rdi), %rax
	cmpq	$-1, %rax
	je	2f
	pushq	%r14
	pushq	%rbx
	pushq	%rax
	movq	16(%rdi), %rcx
	cmpq	$4, %rax
	movl	$3, %ebx
	cmovaeq	%rax, %rbx
	incq	%rbx
	movq	%rcx, %rsi
	shrq	$62, %rsi
	leaq	(%rcx,%rcx), %rdx
	cmpq	%rdx, %rbx
	cmovaq	%rbx, %rdx
	testq	%rsi, %rsi
	cmoveq	%rdx, %rbx
	movabsq	$29562089861714025, %rsi
	cmpq	%rsi, %rbx
	ja	4f
	testq	%rcx, %rcx
	je	3f
	movq	%rdi, %r14
	movq	(%rdi), %rdi
	imulq	$312, %rax, %rsi
	imulq	$312, %rbx, %rdx
	movl	$8, %ecx
	callq	rattle_realloc@PLT
	testb	$1, %al
	je	4f
1:
	movq	%rdx, (%r14)
	movq	%rbx, 16(%r14)
	movb	$1, %al
	addq	$8, %rsp
	popq	%rbx
	popq	%r14
	retq
2:
	xorl	%eax, %eax
	retq
3:
	movq	%rdi, %r14
	imulq	$312, %rdx, %rdi
	movl	$8, %esi
	callq	rattle_alloc@PLT
	testb	$1, %al
	jne	1b
4:
	xorl	%eax, %eax
	addq	$8, %rsp
	popq	%rbx
	popq	%r14
	retq
5:
	.size	"std_alloc::vec::Vec::grow_amortized::<#a3975ff14a0d29f4>", 5b-"std_alloc::vec::Vec::grow_amortized::<#a3975ff14a0d29f4>"

	.section	.text.unlikely,"ax",@progbits
	.p2align	4
	.type	"std_alloc::vec::Vec::grow_amortized::<#a3c068ff6e7a6e86>",@function
"std_alloc::vec::Vec::grow_amortized::<#a3c068ff6e7a6e86>":
	movq	8(%rdi), %rax
	cmpq	$-1, %rax
	je	2f
	pushq	%r14
	pushq	%rbx
	pushq	%rax
	movq	16(%rdi), %rcx
	cmpq	$4, %rax
	movl	$3, %ebx
	cmovaeq	%rax, %rbx
	incq	%rbx
	movq	%rcx, %rsi
	shrq	$62, %rsi
	leaq	(%rcx,%rcx), %rdx
	cmpq	%rdx, %rbx
	cmovaq	%rbx, %rdx
	testq	%rsi, %rsi
	cmoveq	%rdx, %rbx
	movabsq	$384307168202282325, %rsi
	cmpq	%rsi, %rbx
	ja	4f
	testq	%rcx, %rcx
	je	3f
	movq	%rdi, %r14
	movq	(%rdi), %rdi
	shlq	$3, %rax
	leaq	(%rax,%rax,2), %rsi
	leaq	(,%rbx,8), %rax
	leaq	(%rax,%rax,2), %rdx
	movl	$8, %ecx
	callq	rattle_realloc@PLT
	testb	$1, %al
	je	4f
1:
	movq	%rdx, (%r14)
	movq	%rbx, 16(%r14)
	movb	$1, %al
	addq	$8, %rsp
	popq	%rbx
	popq	%r14
	retq
2:
	xorl	%eax, %eax
	retq
3:
	movq	%rdi, %r14
	shlq	$3, %rdx
	leaq	(%rdx,%rdx,2), %rdi
	movl	$8, %esi
	callq	rattle_alloc@PLT
	testb	$1, %al
	jne	1b
4:
	xorl	%eax, %eax
	addq	$8, %rsp
	popq	%rbx
	popq	%r14
	retq
5:
	.size	"std_alloc::vec::Vec::grow_amortized::<#a3c068ff6e7a6e86>", 5b-"std_alloc::vec::Vec::grow_amortized::<#a3c068ff6e7a6e86>"

	.section	.text.unlikely,"ax",@progbits
	.p2align	4
	.type	"std_alloc::vec::Vec::grow_amortized::<#aac2e341597f1126>",@function
"std_alloc::vec::Vec::grow_amortized::<#aac2e341597f1126>":
	movq	8(%rdi), %rax
	cmpq	$-1, %rax
	je	2f
	pushq	%r14
	pushq	%rbx
	pushq	%rax
	movq	16(%rdi), %rcx
	cmpq	$4, %rax
	movl	$3, %ebx
	cmovaeq	%rax, %rbx
	incq	%rbx
	movq	%rcx, %rsi
	shrq	$62, %rsi
	leaq	(%rcx,%rcx), %rdx
	cmpq	%rdx, %rbx
	cmovaq	%rbx, %rdx
	testq	%rsi, %rsi
	cmoveq	%rdx, %rbx
	movabsq	$115292150460684697, %rsi
	cmpq	%rsi, %rbx
	ja	4f
	testq	%rcx, %rcx
	je	3f
	movq	%rdi, %r14
	movq	(%rdi), %rdi
	shlq	$4, %rax
	leaq	(%rax,%rax,4), %rsi
	movq	%rbx, %rax
	shlq	$4, %rax
	leaq	(%rax,%rax,4), %rdx
	movl	$8, %ecx
	callq	rattle_realloc@PLT
	testb	$1, %al
	je	4f
1:
	movq	%rdx, (%r14)
	movq	%rbx, 16(%r14)
	movb	$1, %al
	addq	$8, %rsp
	popq	%rbx
	popq	%r14
	retq
2:
	xorl	%eax, %eax
	retq
3:
	movq	%rdi, %r14
	shlq	$4, %rdx
	leaq	(%rdx,%rdx,4), %rdi
	movl	$8, %esi
	callq	rattle_alloc@PLT
	testb	$1, %al
	jne	1b
4:
	xorl	%eax, %eax
	addq	$8, %rsp
	popq	%rbx
	popq	%r14
	retq
5:
	.size	"std_alloc::vec::Vec::grow_amortized::<#aac2e341597f1126>", 5b-"std_alloc::vec::Vec::grow_amortized::<#aac2e341597f1126>"

	.section	.text.unlikely,"ax",@progbits
	.p2align	4
	.type	"std_alloc::vec::Vec::grow_amortized::<#af4d00d87a514b9c>",@function
"std_alloc::vec::Vec::grow_amortized::<#af4d00d87a514b9c>":
	movq	8(%rdi), %rax
	addq	%rax, %rsi
	jae	1f
	xorl	%eax, %eax
	retq
1:
	pushq	%r14
	pushq	%rbx
	pushq	%rax
	movq	16(%rdi), %rcx
	cmpq	$5, %rsi
	movl	$4, %ebx
	cmovaeq	%rsi, %rbx
	movq	%rcx, %rsi
	shrq	$62, %rsi
	leaq	(%rcx,%rcx), %rdx
	cmpq	%rdx, %rbx
	cmovaq	%rbx, %rdx
	testq	%rsi, %rsi
	cmoveq	%rdx, %rbx
	movabsq	$96076792050570581, %rsi
	cmpq	%rsi, %rbx
	ja	4f
	testq	%rcx, %rcx
	je	3f
	movq	%rdi, %r14
	movq	(%rdi), %rdi
	shlq	$5, %rax
	leaq	(%rax,%rax,2), %rsi
	movq	%rbx, %rax
	shlq	$5, %rax
	leaq	(%rax,%rax,2), %rdx
	movl	$8, %ecx
	callq	rattle_realloc@PLT
	testb	$1, %al
	je	4f
2:
	movq	%rdx, (%r14)
	movq	%rbx, 16(%r14)
	movb	$1, %al
	addq	$8, %rsp
	popq	%rbx
	popq	%r14
	retq
3:
	movq	%rdi, %r14
	shlq	$5, %rdx
	leaq	(%rdx,%rdx,2), %rdi
	movl	$8, %esi
	callq	rattle_alloc@PLT
	testb	$1, %al
	jne	2b
4:
	xorl	%eax, %eax
	addq	$8, %rsp
	popq	%rbx
	popq	%r14
	retq
5:
	.size	"std_alloc::vec::Vec::grow_amortized::<#af4d00d87a514b9c>", 5b-"std_alloc::vec::Vec::grow_amortized::<#af4d00d87a514b9c>"

	.section	.text.unlikely,"ax",@progbits
	.p2align	4
	.type	"std_alloc::vec::Vec::grow_amortized::<#af7b84f318b534fb>",@function
"std_alloc::vec::Vec::grow_amortized::<#af7b84f318b534fb>":
	movq	8(%rdi), %rsi
	cmpq	$-1, %rsi
	je	2f
	pushq	%r14
	pushq	%rbx
	pushq	%rax
	movq	16(%rdi), %rcx
	cmpq	$4, %rsi
	movl	$3, %ebx
	cmovaeq	%rsi, %rbx
	incq	%rbx
	movq	%rcx, %rdx
	shrq	$62, %rdx
	leaq	(%rcx,%rcx), %rax
	cmpq	%rax, %rbx
	cmovaq	%rbx, %rax
	testq	%rdx, %rdx
	cmoveq	%rax, %rbx
	movq	%rbx, %rdx
	shrq	$58, %rdx
	jne	4f
	testq	%rcx, %rcx
	je	3f
	movq	%rdi, %r14
	movq	(%rdi), %rdi
	shlq	$5, %rsi
	movq	%rbx, %rdx
	shlq	$5, %rdx
	movl	$8, %ecx
	callq	rattle_realloc@PLT
	testb	$1, %al
	je	4f
1:
	movq	%rdx, (%r14)
	movq	%rbx, 16(%r14)
	movb	$1, %al
	addq	$8, %rsp
	popq	%rbx
	popq	%r14
	retq
2:
	xorl	%eax, %eax
	retq
3:
	movq	%rdi, %r14
	shlq	$5, %rax
	movl	$8, %esi
	movq	%rax, %rdi
	callq	rattle_alloc@PLT
	testb	$1, %al
	jne	1b
4:
	xorl	%eax, %eax
	addq	$8, %rsp
	popq	%rbx
	popq	%r14
	retq
5:
	.size	"std_alloc::vec::Vec::grow_amortized::<#af7b84f318b534fb>", 5b-"std_alloc::vec::Vec::grow_amortized::<#af7b84f318b534fb>"

	.section	.text.unlikely,"ax",@progbits
	.p2align	4
	.type	"std_alloc::vec::Vec::grow_amortized::<#b0aa9f4bede84b75>",@function
"std_alloc::vec::Vec::grow_amortized::<#b0aa9f4bede84b75>":
	movq	8(%rdi), %rax
	cmpq	$-1, %rax
	je	2f
	pushq	%r14
	pushq	%rbx
	pushq	%rax
	movq	16(%rdi), %rcx
	cmpq	$4, %rax
	movl	$3, %ebx
	cmovaeq	%rax, %rbx
	incq	%rbx
	movq	%rcx, %rsi
	shrq	$62, %rsi
	leaq	(%rcx,%rcx), %rdx
	cmpq	%rdx, %rbx
	cmovaq	%rbx, %rdx
	testq	%rsi, %rsi
	cmoveq	%rdx, %rbx
	movabsq	$82351536043346212, %rsi
	cmpq	%rsi, %rbx
	ja	4f
	testq	%rcx, %rcx
	je	3f
	movq	%rdi, %r14
	movq	(%rdi), %rdi
	imulq	$112, %rax, %rsi
	imulq	$112, %rbx, %rdx
	movl	$8, %ecx
	callq	rattle_realloc@PLT
	testb	$1, %al
	je	4f
1:
	movq	%rdx, (%r14)
	movq	%rbx, 16(%r14)
	movb	$1, %al
	addq	$8, %rsp
	popq	%rbx
	popq	%r14
	retq
2:
	xorl	%eax, %eax
	retq
3:
	movq	%rdi, %r14
	imulq	$112, %rdx, %rdi
	movl	$8, %esi
	callq	rattle_alloc@PLT
	testb	$1, %al
	jne	1b
4:
	xorl	%eax, %eax
	addq	$8, %rsp
	popq	%rbx
	popq	%r14
	retq
5:
	.size	"std_alloc::vec::Vec::grow_amortized::<#b0aa9f4bede84b75>", 5b-"std_alloc::vec::Vec::grow_amortized::<#b0aa9f4bede84b75>"

	.section	.text.unlikely,"ax",@progbits
	.p2align	4
	.type	"std_alloc::vec::Vec::grow_amortized::<#b5570d1ab3d10a20>",@function
"std_alloc::vec::Vec::grow_amortized::<#b5570d1ab3d10a20>":
	movq	8(%rdi), %rax
	cmpq	$-1, %rax
	je	2f
	pushq	%r14
	pushq	%rbx
	pushq	%rax
	movq	16(%rdi), %rcx
	cmpq	$4, %rax
	movl	$3, %ebx
	cmovaeq	%rax, %rbx
	incq	%rbx
	movq	%rcx, %rsi
	shrq	$62, %rsi
	leaq	(%rcx,%rcx), %rdx
	cmpq	%rdx, %rbx
	cmovaq	%rbx, %rdx
	testq	%rsi, %rsi
	cmoveq	%rdx, %rbx
	movabsq	$82351536043346212, %rsi
	cmpq	%rsi, %rbx
	ja	4f
	testq	%rcx, %rcx
	je	3f
	movq	%rdi, %r14
	movq	(%rdi), %rdi
	imulq	$112, %rax, %rsi
	imulq	$112, %rbx, %rdx
	movl	$8, %ecx
	callq	rattle_realloc@PLT
	testb	$1, %al
	je	4f
1:
	movq	%rdx, (%r14)
	movq	%rbx, 16(%r14)
	movb	$1, %al
	addq	$8, %rsp
	popq	%rbx
	popq	%r14
	retq
2:
	xorl	%eax, %eax
	retq
3:
	movq	%rdi, %r14
	imulq	$112, %rdx, %rdi
	movl	$8, %esi
	callq	rattle_alloc@PLT
	testb	$1, %al
	jne	1b
4:
	xorl	%eax, %eax
	addq	$8, %rsp
	popq	%rbx
	popq	%r14
	retq
5:
	.size	"std_alloc::vec::Vec::grow_amortized::<#b5570d1ab3d10a20>", 5b-"std_alloc::vec::Vec::grow_amortized::<#b5570d1ab3d10a20>"

	.section	.text.unlikely,"ax",@progbits
	.p2align	4
	.type	"std_alloc::vec::Vec::grow_amortized::<#ba2bc337b3219e73>",@function
"std_alloc::vec::Vec::grow_amortized::<#ba2bc337b3219e73>":
	movq	%rsi, %rax
	movq	8(%rdi), %rsi
	addq	%rsi, %rax
	jae	1f
	xorl	%eax, %eax
	retq
1:
	pushq	%r14
	pushq	%rbx
	pushq	%rax
	cmpq	$9, %rax
	movl	$8, %ebx
	cmovaeq	%rax, %rbx
	movq	16(%rdi), %rcx
	movq	%rcx, %rdx
	shrq	$62, %rdx
	leaq	(%rcx,%rcx), %rax
	cmpq	%rax, %rbx
	cmovaq	%rbx, %rax
	testq	%rdx, %rdx
	cmoveq	%rax, %rbx
	testq	%rbx, %rbx
	js	4f
	testq	%rcx, %rcx
	je	3f
	movq	%rdi, %r14
	movq	(%rdi), %rdi
	movl	$1, %ecx
	movq	%rbx, %rdx
	callq	rattle_realloc@PLT
	testb	$1, %al
	je	4f
2:
	movq	%rdx, (%r14)
	movq	%rbx, 16(%r14)
	movb	$1, %al
	addq	$8, %rsp
	popq	%rbx
	popq	%r14
	retq
3:
	movq	%rdi, %r14
	movl	$1, %esi
	movq	%rax, %rdi
	callq	rattle_alloc@PLT
	testb	$1, %al
	jne	2b
4:
	xorl	%eax, %eax
	addq	$8, %rsp
	popq	%rbx
	popq	%r14
	retq
5:
	.size	"std_alloc::vec::Vec::grow_amortized::<#ba2bc337b3219e73>", 5b-"std_alloc::vec::Vec::grow_amortized::<#ba2bc337b3219e73>"

	.section	.text.unlikely,"ax",@progbits
	.p2align	4
	.type	"std_alloc::vec::Vec::grow_amortized::<#c924a0b5c89ac0c8>",@function
"std_alloc::vec::Vec::grow_amortized::<#c924a0b5c89ac0c8>":
	movq	%rsi, %rax
	movq	8(%rdi), %rsi
	addq	%rsi, %rax
	jae	1f
	xorl	%eax, %eax
	retq
1:
	pushq	%r14
	pushq	%rbx
	pushq	%rax
	cmpq	$9, %rax
	movl	$8, %ebx
	cmovaeq	%rax, %rbx
	movq	16(%rdi), %rcx
	movq	%rcx, %rdx
	shrq	$62, %rdx
	leaq	(%rcx,%rcx), %rax
	cmpq	%rax, %rbx
	cmovaq	%rbx, %rax
	testq	%rdx, %rdx
	cmoveq	%rax, %rbx
	testq	%rbx, %rbx
	js	4f
	testq	%rcx, %rcx
	je	3f
	movq	%rdi, %r14
	movq	(%rdi), %rdi
	movl	$1, %ecx
	movq	%rbx, %rdx
	callq	rattle_realloc@PLT
	testb	$1, %al
	je	4f
2:
	movq	%rdx, (%r14)
	movq	%rbx, 16(%r14)
	movb	$1, %al
	addq	$8, %rsp
	popq	%rbx
	popq	%r14
	retq
3:
	movq	%rdi, %r14
	movl	$1, %esi
	movq	%rax, %rdi
	callq	rattle_alloc@PLT
	testb	$1, %al
	jne	2b
4:
	xorl	%eax, %eax
	addq	$8, %rsp
	popq	%rbx
	popq	%r14
	retq
5:
	.size	"std_alloc::vec::Vec::grow_amortized::<#c924a0b5c89ac0c8>", 5b-"std_alloc::vec::Vec::grow_amortized::<#c924a0b5c89ac0c8>"

	.section	.text.unlikely,"ax",@progbits
	.p2align	4
	.type	"std_alloc::vec::Vec::grow_amortized::<#d1a3832c1f454e62>",@function
"std_alloc::vec::Vec::grow_amortized::<#d1a3832c1f454e62>":
	movq	8(%rdi), %rsi
	cmpq	$-1, %rsi
	je	2f
	pushq	%r14
	pushq	%rbx
	pushq	%rax
	movq	16(%rdi), %rcx
	cmpq	$4, %rsi
	movl	$3, %ebx
	cmovaeq	%rsi, %rbx
	incq	%rbx
	movq	%rcx, %rdx
	shrq	$62, %rdx
	leaq	(%rcx,%rcx), %rax
	cmpq	%rax, %rbx
	cmovaq	%rbx, %rax
	testq	%rdx, %rdx
	cmoveq	%rax, %rbx
	movq	%rbx, %rdx
	shrq	$58, %rdx
	jne	4f
	testq	%rcx, %rcx
	je	3f
	movq	%rdi, %r14
	movq	(%rdi), %rdi
	shlq	$5, %rsi
	movq	%rbx, %rdx
	shlq	$5, %rdx
	movl	$8, %ecx
	callq	rattle_realloc@PLT
	testb	$1, %al
	je	4f
1:
	movq	%rdx, (%r14)
	movq	%rbx, 16(%r14)
	movb	$1, %al
	addq	$8, %rsp
	popq	%rbx
	popq	%r14
	retq
2:
	xorl	%eax, %eax
	retq
3:
	movq	%rdi, %r14
	shlq	$5, %rax
	movl	$8, %esi
	movq	%rax, %rdi
	callq	rattle_alloc@PLT
	testb	$1, %al
	jne	1b
4:
	xorl	%eax, %eax
	addq	$8, %rsp
	popq	%rbx
	popq	%r14
	retq
5:
	.size	"std_alloc::vec::Vec::grow_amortized::<#d1a3832c1f454e62>", 5b-"std_alloc::vec::Vec::grow_amortized::<#d1a3832c1f454e62>"

	.section	.text.unlikely,"ax",@progbits
	.p2align	4
	.type	"std_alloc::vec::Vec::grow_amortized::<#dd15b8e9b635a37b>",@function
"std_alloc::vec::Vec::grow_amortized::<#dd15b8e9b635a37b>":
	movq	8(%rdi), %rsi
	cmpq	$-1, %rsi
	je	2f
	pushq	%r14
	pushq	%rbx
	pushq	%rax
	movq	16(%rdi), %rcx
	cmpq	$4, %rsi
	movl	$3, %ebx
	cmovaeq	%rsi, %rbx
	incq	%rbx
	movq	%rcx, %rdx
	shrq	$62, %rdx
	leaq	(%rcx,%rcx), %rax
	cmpq	%rax, %rbx
	cmovaq	%rbx, %rax
	testq	%rdx, %rdx
	cmoveq	%rax, %rbx
	movq	%rbx, %rdx
	shrq	$58, %rdx
	jne	4f
	testq	%rcx, %rcx
	je	3f
	movq	%rdi, %r14
	movq	(%rdi), %rdi
	shlq	$5, %rsi
	movq	%rbx, %rdx
	shlq	$5, %rdx
	movl	$8, %ecx
	callq	rattle_realloc@PLT
	testb	$1, %al
	je	4f
1:
	movq	%rdx, (%r14)
	movq	%rbx, 16(%r14)
	movb	$1, %al
	addq	$8, %rsp
	popq	%rbx
	popq	%r14
	retq
2:
	xorl	%eax, %eax
	retq
3:
	movq	%rdi, %r14
	shlq	$5, %rax
	movl	$8, %esi
	movq	%rax, %rdi
	callq	rattle_alloc@PLT
	testb	$1, %al
	jne	1b
4:
	xorl	%eax, %eax
	addq	$8, %rsp
	popq	%rbx
	popq	%r14
	retq
5:
	.size	"std_alloc::vec::Vec::grow_amortized::<#dd15b8e9b635a37b>", 5b-"std_alloc::vec::Vec::grow_amortized::<#dd15b8e9b635a37b>"

	.section	.text.unlikely,"ax",@progbits
	.p2align	4
	.type	"std_alloc::vec::Vec::grow_amortized::<#e4aeda12d7b82ffa>",@function
"std_alloc::vec::Vec::grow_amortized::<#e4aeda12d7b82ffa>":
	movq	8(%rdi), %rsi
	cmpq	$-1, %rsi
	je	2f
	pushq	%r14
	pushq	%rbx
	pushq	%rax
	movq	16(%rdi), %rcx
	cmpq	$4, %rsi
	movl	$3, %ebx
	cmovaeq	%rsi, %rbx
	incq	%rbx
	movq	%rcx, %rdx
	shrq	$62, %rdx
	leaq	(%rcx,%rcx), %rax
	cmpq	%rax, %rbx
	cmovaq	%rbx, %rax
	testq	%rdx, %rdx
	cmoveq	%rax, %rbx
	movq	%rbx, %rdx
	shrq	$59, %rdx
	jne	4f
	testq	%rcx, %rcx
	je	3f
	movq	%rdi, %r14
	movq	(%rdi), %rdi
	shlq	$4, %rsi
	movq	%rbx, %rdx
	shlq	$4, %rdx
	movl	$8, %ecx
	callq	rattle_realloc@PLT
	testb	$1, %al
	je	4f
1:
	movq	%rdx, (%r14)
	movq	%rbx, 16(%r14)
	movb	$1, %al
	addq	$8, %rsp
	popq	%rbx
	popq	%r14
	retq
2:
	xorl	%eax, %eax
	retq
3:
	movq	%rdi, %r14
	shlq	$4, %rax
	movl	$8, %esi
	movq	%rax, %rdi
	callq	rattle_alloc@PLT
	testb	$1, %al
	jne	1b
4:
	xorl	%eax, %eax
	addq	$8, %rsp
	popq	%rbx
	popq	%r14
	retq
5:
	.size	"std_alloc::vec::Vec::grow_amortized::<#e4aeda12d7b82ffa>", 5b-"std_alloc::vec::Vec::grow_amortized::<#e4aeda12d7b82ffa>"

	.section	.text.unlikely,"ax",@progbits
	.p2align	4
	.type	"std_alloc::vec::Vec::grow_amortized::<#e5d85e99c87df23c>",@function
"std_alloc::vec::Vec::grow_amortized::<#e5d85e99c87df23c>":
	movq	%rsi, %rax
	movq	8(%rdi), %rsi
	addq	%rsi, %rax
	jae	1f
	xorl	%eax, %eax
	retq
1:
	pushq	%r14
	pushq	%rbx
	pushq	%rax
	movq	16(%rdi), %rcx
	cmpq	$5, %rax
	movl	$4, %ebx
	cmovaeq	%rax, %rbx
	movq	%rcx, %rdx
	shrq	$62, %rdx
	leaq	(%rcx,%rcx), %rax
	cmpq	%rax, %rbx
	cmovaq	%rbx, %rax
	testq	%rdx, %rdx
	cmoveq	%rax, %rbx
	movq	%rbx, %rdx
	shrq	$62, %rdx
	jne	4f
	testq	%rcx, %rcx
	je	3f
	movq	%rdi, %r14
	movq	(%rdi), %rdi
	addq	%rsi, %rsi
	leaq	(%rbx,%rbx), %rdx
	movl	$2, %ecx
	callq	rattle_realloc@PLT
	testb	$1, %al
	je	4f
2:
	movq	%rdx, (%r14)
	movq	%rbx, 16(%r14)
	movb	$1, %al
	addq	$8, %rsp
	popq	%rbx
	popq	%r14
	retq
3:
	movq	%rdi, %r14
	addq	%rax, %rax
	movl	$2, %esi
	movq	%rax, %rdi
	callq	rattle_alloc@PLT
	testb	$1, %al
	jne	2b
4:
	xorl	%eax, %eax
	addq	$8, %rsp
	popq	%rbx
	popq	%r14
	retq
5:
	.size	"std_alloc::vec::Vec::grow_amortized::<#e5d85e99c87df23c>", 5b-"std_alloc::vec::Vec::grow_amortized::<#e5d85e99c87df23c>"

	.section	.text.unlikely,"ax",@progbits
	.p2align	4
	.type	"std_alloc::vec::Vec::grow_amortized::<#ea7493c5bc8f7b4c>",@function
"std_alloc::vec::Vec::grow_amortized::<#ea7493c5bc8f7b4c>":
	movq	8(%rdi), %rax
	addq	%rax, %rsi
	jae	1f
	xorl	%eax, %eax
	retq
1:
	pushq	%r14
	pushq	%rbx
	pushq	%rax
	movq	16(%rdi), %rcx
	cmpq	$5, %rsi
	movl	$4, %ebx
	cmovaeq	%rsi, %rbx
	movq	%rcx, %rsi
	shrq	$62, %rsi
	leaq	(%rcx,%rcx), %rdx
	cmpq	%rdx, %rbx
	cmovaq	%rbx, %rdx
	testq	%rsi, %rsi
	cmoveq	%rdx, %rbx
	movabsq	$96076792050570581, %rsi
	cmpq	%rsi, %rbx
	ja	4f
	testq	%rcx, %rcx
	je	3f
	movq	%rdi, %r14
	movq	(%rdi), %rdi
	shlq	$5, %rax
	leaq	(%rax,%rax,2), %rsi
	movq	%rbx, %rax
	shlq	$5, %rax
	leaq	(%rax,%rax,2), %rdx
	movl	$8, %ecx
	callq	rattle_realloc@PLT
	testb	$1, %al
	je	4f
2:
	movq	%rdx, (%r14)
	movq	%rbx, 16(%r14)
	movb	$1, %al
	addq	$8, %rsp
	popq	%rbx
	popq	%r14
	retq
3:
	movq	%rdi, %r14
	shlq	$5, %rdx
	leaq	(%rdx,%rdx,2), %rdi
	movl	$8, %esi
	callq	rattle_alloc@PLT
	testb	$1, %al
	jne	2b
4:
	xorl	%eax, %eax
	addq	$8, %rsp
	popq	%rbx
	popq	%r14
	retq
5:
	.size	"std_alloc::vec::Vec::grow_amortized::<#ea7493c5bc8f7b4c>", 5b-"std_alloc::vec::Vec::grow_amortized::<#ea7493c5bc8f7b4c>"

	.section	.text.unlikely,"ax",@progbits
	.p2align	4
	.type	"std_alloc::vec::Vec::grow_amortized::<#f7f783c9c62e5f91>",@function
"std_alloc::vec::Vec::grow_amortized::<#f7f783c9c62e5f91>":
	movq	%rsi, %rax
	movq	8(%rdi), %rsi
	addq	%rsi, %rax
	jae	1f
	xorl	%eax, %eax
	retq
1:
	pushq	%r14
	pushq	%rbx
	pushq	%rax
	cmpq	$9, %rax
	movl	$8, %ebx
	cmovaeq	%rax, %rbx
	movq	16(%rdi), %rcx
	movq	%rcx, %rdx
	shrq	$62, %rdx
	leaq	(%rcx,%rcx), %rax
	cmpq	%rax, %rbx
	cmovaq	%rbx, %rax
	testq	%rdx, %rdx
	cmoveq	%rax, %rbx
	testq	%rbx, %rbx
	js	4f
	testq	%rcx, %rcx
	je	3f
	movq	%rdi, %r14
	movq	(%rdi), %rdi
	movl	$1, %ecx
	movq	%rbx, %rdx
	callq	rattle_realloc@PLT
	testb	$1, %al
	je	4f
2:
	movq	%rdx, (%r14)
	movq	%rbx, 16(%r14)
	movb	$1, %al
	addq	$8, %rsp
	popq	%rbx
	popq	%r14
	retq
3:
	movq	%rdi, %r14
	movl	$1, %esi
	movq	%rax, %rdi
	callq	rattle_alloc@PLT
	testb	$1, %al
	jne	2b
4:
	xorl	%eax, %eax
	addq	$8, %rsp
	popq	%rbx
	popq	%r14
	retq
5:
	.size	"std_alloc::vec::Vec::grow_amortized::<#f7f783c9c62e5f91>", 5b-"std_alloc::vec::Vec::grow_amortized::<#f7f783c9c62e5f91>"

	.section	.text.unlikely,"ax",@progbits
	.p2align	4
	.type	"std_alloc::vec::Vec::grow_amortized::<#fae293e493dc3251>",@function
"std_alloc::vec::Vec::grow_amortized::<#fae293e493dc3251>":
	movq	8(%rdi), %rax
	cmpq	$-1, %rax
	je	2f
	pushq	%r14
	pushq	%rbx
	pushq	%rax
	movq	16(%rdi), %rcx
	cmpq	$4, %rax
	movl	$3, %ebx
	cmovaeq	%rax, %rbx
	incq	%rbx
	movq	%rcx, %rsi
	shrq	$62, %rsi
	leaq	(%rcx,%rcx), %rdx
	cmpq	%rdx, %rbx
	cmovaq	%rbx, %rdx
	testq	%rsi, %rsi
	cmoveq	%rdx, %rbx
	movabsq	$96076792050570581, %rsi
	cmpq	%rsi, %rbx
	ja	4f
	testq	%rcx, %rcx
	je	3f
	movq	%rdi, %r14
	movq	(%rdi), %rdi
	shlq	$5, %rax
	leaq	(%rax,%rax,2), %rsi
	movq	%rbx, %rax
	shlq	$5, %rax
	leaq	(%rax,%rax,2), %rdx
	movl	$8, %ecx
	callq	rattle_realloc@PLT
	testb	$1, %al
	je	4f
1:
	movq	%rdx, (%r14)
	movq	%rbx, 16(%r14)
	movb	$1, %al
	addq	$8, %rsp
	popq	%rbx
	popq	%r14
	retq
2:
	xorl	%eax, %eax
	retq
3:
	movq	%rdi, %r14
	shlq	$5, %rdx
	leaq	(%rdx,%rdx,2), %rdi
	movl	$8, %esi
	callq	rattle_alloc@PLT
	testb	$1, %al
	jne	1b
4:
	xorl	%eax, %eax
	addq	$8, %rsp
	popq	%rbx
	popq	%r14
	retq
5:
	.size	"std_alloc::vec::Vec::grow_amortized::<#fae293e493dc3251>", 5b-"std_alloc::vec::Vec::grow_amortized::<#fae293e493dc3251>"

	.text
	.p2align	4
	.type	"std_alloc::vec::Vec::remove::<#21647806b46d5bf1>",@function
"std_alloc::vec::Vec::remove::<#21647806b46d5bf1>":
	pushq	%r14
	pushq	%rbx
	movq	(%rsi), %rax
	movq	8(%rsi), %r11
	movq	16(%rsi), %rcx
	xorps	%xmm0, %xmm0
	movups	%xmm0, 8(%rsi)
	leaq	(,%rdx,8), %r8
	leaq	(%r8,%r8,4), %r9
	movq	32(%rax,%r9), %r8
	movq	%r8, -8(%rsp)
	movups	(%rax,%r9), %xmm0
	movups	16(%rax,%r9), %xmm1
	movaps	%xmm1, -24(%rsp)
	movaps	%xmm0, -40(%rsp)
	leaq	-1(%r11), %r8
	movq	%r8, %r10
	subq	%rdx, %r10
	cmpq	$52, %r10
	jb	4f
	xorl	%ebx, %ebx
	.p2align	4
1:
	movq	72(%rax,%r9), %r14
	movq	%r14, 32(%rax,%r9)
	movups	40(%rax,%r9), %xmm0
	movups	56(%rax,%r9), %xmm1
	movups	%xmm1, 16(%rax,%r9)
	movups	%xmm0, (%rax,%r9)
	movups	80(%rax,%r9), %xmm0
	movups	%xmm0, 40(%rax,%r9)
	movups	96(%rax,%r9), %xmm0
	movups	%xmm0, 56(%rax,%r9)
	movq	112(%rax,%r9), %r14
	movq	%r14, 72(%rax,%r9)
	movups	120(%rax,%r9), %xmm0
	movups	%xmm0, 80(%rax,%r9)
	movups	136(%rax,%r9), %xmm0
	movups	%xmm0, 96(%rax,%r9)
	movq	152(%rax,%r9), %r14
	movq	%r14, 112(%rax,%r9)
	movq	192(%rax,%r9), %r14
	movq	%r14, 152(%rax,%r9)
	movups	160(%rax,%r9), %xmm0
	movups	176(%rax,%r9), %xmm1
	movups	%xmm1, 136(%rax,%r9)
	movups	%xmm0, 120(%rax,%r9)
	movq	232(%rax,%r9), %r14
	movq	%r14, 192(%rax,%r9)
	movups	200(%rax,%r9), %xmm0
	movups	216(%rax,%r9), %xmm1
	movups	%xmm1, 176(%rax,%r9)
	movups	%xmm0, 160(%rax,%r9)
	movq	272(%rax,%r9), %r14
	movq	%r14, 232(%rax,%r9)
	movups	240(%rax,%r9), %xmm0
	movups	256(%rax,%r9), %xmm1
	movups	%xmm1, 216(%rax,%r9)
	movups	%xmm0, 200(%rax,%r9)
	movq	312(%rax,%r9), %r14
	movq	%r14, 272(%rax,%r9)
	movups	280(%rax,%r9), %xmm0
	movups	296(%rax,%r9), %xmm1
	movups	%xmm1, 256(%rax,%r9)
	movups	%xmm0, 240(%rax,%r9)
	movq	352(%rax,%r9), %r14
	movq	%r14, 312(%rax,%r9)
	movups	320(%rax,%r9), %xmm0
	movups	336(%rax,%r9), %xmm1
	movups	%xmm1, 296(%rax,%r9)
	movups	%xmm0, 280(%rax,%r9)
	movq	392(%rax,%r9), %r14
	movq	%r14, 352(%rax,%r9)
	movups	360(%rax,%r9), %xmm0
	movups	376(%rax,%r9), %xmm1
	movups	%xmm1, 336(%rax,%r9)
	movups	%xmm0, 320(%rax,%r9)
	movq	432(%rax,%r9), %r14
	movq	%r14, 392(%rax,%r9)
	movups	400(%rax,%r9), %xmm0
	movups	416(%rax,%r9), %xmm1
	movups	%xmm1, 376(%rax,%r9)
	movups	%xmm0, 360(%rax,%r9)
	movq	472(%rax,%r9), %r14
	movq	%r14, 432(%rax,%r9)
	movups	440(%rax,%r9), %xmm0
	movups	456(%rax,%r9), %xmm1
	movups	%xmm1, 416(%rax,%r9)
	movups	%xmm0, 400(%rax,%r9)
	movq	512(%rax,%r9), %r14
	movq	%r14, 472(%rax,%r9)
	movups	480(%rax,%r9), %xmm0
	movups	496(%rax,%r9), %xmm1
	movups	%xmm1, 456(%rax,%r9)
	movups	%xmm0, 440(%rax,%r9)
	movq	552(%rax,%r9), %r14
	movq	%r14, 512(%rax,%r9)
	movups	520(%rax,%r9), %xmm0
	movups	536(%rax,%r9), %xmm1
	movups	%xmm1, 496(%rax,%r9)
	movups	%xmm0, 480(%rax,%r9)
	movq	592(%rax,%r9), %r14
	movq	%r14, 552(%rax,%r9)
	movups	560(%rax,%r9), %xmm0
	movups	576(%rax,%r9), %xmm1
	movups	%xmm1, 536(%rax,%r9)
	movups	%xmm0, 520(%rax,%r9)
	movq	632(%rax,%r9), %r14
	movq	%r14, 592(%rax,%r9)
	movups	600(%rax,%r9), %xmm0
	movups	616(%rax,%r9), %xmm1
	movups	%xmm1, 576(%rax,%r9)
	movups	%xmm0, 560(%rax,%r9)
	movq	672(%rax,%r9), %r14
	movq	%r14, 632(%rax,%r9)
	movups	640(%rax,%r9), %xmm0
	movups	656(%rax,%r9), %xmm1
	movups	%xmm1, 616(%rax,%r9)
	movups	%xmm0, 600(%rax,%r9)
	movq	712(%rax,%r9), %r14
	movq	%r14, 672(%rax,%r9)
	movups	680(%rax,%r9), %xmm0
	movups	696(%rax,%r9), %xmm1
	movups	%xmm1, 656(%rax,%r9)
	movups	%xmm0, 640(%rax,%r9)
	movq	752(%rax,%r9), %r14
	movq	%r14, 712(%rax,%r9)
	movups	720(%rax,%r9), %xmm0
	movups	736(%rax,%r9), %xmm1
	movups	%xmm1, 696(%rax,%r9)
	movups	%xmm0, 680(%rax,%r9)
	movq	792(%rax,%r9), %r14
	movq	%r14, 752(%rax,%r9)
	movups	760(%rax,%r9), %xmm0
	movups	776(%rax,%r9), %xmm1
	movups	%xmm1, 736(%rax,%r9)
	movups	%xmm0, 720(%rax,%r9)
	movq	832(%rax,%r9), %r14
	movq	%r14, 792(%rax,%r9)
	movups	800(%rax,%r9), %xmm0
	movups	816(%rax,%r9), %xmm1
	movups	%xmm1, 776(%rax,%r9)
	movups	%xmm0, 760(%rax,%r9)
	movq	872(%rax,%r9), %r14
	movq	%r14, 832(%rax,%r9)
	movups	840(%rax,%r9), %xmm0
	movups	856(%rax,%r9), %xmm1
	movups	%xmm1, 816(%rax,%r9)
	movups	%xmm0, 800(%rax,%r9)
	movq	912(%rax,%r9), %r14
	movq	%r14, 872(%rax,%r9)
	movups	880(%rax,%r9), %xmm0
	movups	896(%rax,%r9), %xmm1
	movups	%xmm1, 856(%rax,%r9)
	movups	%xmm0, 840(%rax,%r9)
	movq	952(%rax,%r9), %r14
	movq	%r14, 912(%rax,%r9)
	movups	920(%rax,%r9), %xmm0
	movups	936(%rax,%r9), %xmm1
	movups	%xmm1, 896(%rax,%r9)
	movups	%xmm0, 880(%rax,%r9)
	movq	992(%rax,%r9), %r14
	movq	%r14, 952(%rax,%r9)
	movups	960(%rax,%r9), %xmm0
	movups	976(%rax,%r9), %xmm1
	movups	%xmm1, 936(%rax,%r9)
	movups	%xmm0, 920(%rax,%r9)
	movq	1032(%rax,%r9), %r14
	movq	%r14, 992(%rax,%r9)
	movups	1000(%rax,%r9), %xmm0
	movups	1016(%rax,%r9), %xmm1
	movups	%xmm1, 976(%rax,%r9)
	movups	%xmm0, 960(%rax,%r9)
	movq	1072(%rax,%r9), %r14
	movq	%r14, 1032(%rax,%r9)
	movups	1040(%rax,%r9), %xmm0
	movups	1056(%rax,%r9), %xmm1
	movups	%xmm1, 1016(%rax,%r9)
	movups	%xmm0, 1000(%rax,%r9)
	movq	1112(%rax,%r9), %r14
	movq	%r14, 1072(%rax,%r9)
	movups	1080(%rax,%r9), %xmm0
	movups	1096(%rax,%r9), %xmm1
	movups	%xmm1, 1056(%rax,%r9)
	movups	%xmm0, 1040(%rax,%r9)
	movq	1152(%rax,%r9), %r14
	movq	%r14, 1112(%rax,%r9)
	movups	1120(%rax,%r9), %xmm0
	movups	1136(%rax,%r9), %xmm1
	movups	%xmm1, 1096(%rax,%r9)
	movups	%xmm0, 1080(%rax,%r9)
	movq	1192(%rax,%r9), %r14
	movq	%r14, 1152(%rax,%r9)
	movups	1160(%rax,%r9), %xmm0
	movups	1176(%rax,%r9), %xmm1
	movups	%xmm1, 1136(%rax,%r9)
	movups	%xmm0, 1120(%rax,%r9)
	movq	1232(%rax,%r9), %r14
	movq	%r14, 1192(%rax,%r9)
	movups	1200(%rax,%r9), %xmm0
	movups	1216(%rax,%r9), %xmm1
	movups	%xmm1, 1176(%rax,%r9)
	movups	%xmm0, 1160(%rax,%r9)
	movq	1272(%rax,%r9), %r14
	movq	%r14, 1232(%rax,%r9)
	movups	1240(%rax,%r9), %xmm0
	movups	1256(%rax,%r9), %xmm1
	movups	%xmm1, 1216(%rax,%r9)
	movups	%xmm0, 1200(%rax,%r9)
	movq	1312(%rax,%r9), %r14
	movq	%r14, 1272(%rax,%r9)
	movups	1280(%rax,%r9), %xmm0
	movups	1296(%rax,%r9), %xmm1
	movups	%xmm1, 1256(%rax,%r9)
	movups	%xmm0, 1240(%rax,%r9)
	movq	1352(%rax,%r9), %r14
	movq	%r14, 1312(%rax,%r9)
	movups	1320(%rax,%r9), %xmm0
	movups	1336(%rax,%r9), %xmm1
	movups	%xmm1, 1296(%rax,%r9)
	movups	%xmm0, 1280(%rax,%r9)
	movq	1392(%rax,%r9), %r14
	movq	%r14, 1352(%rax,%r9)
	movups	1360(%rax,%r9), %xmm0
	movups	1376(%rax,%r9), %xmm1
	movups	%xmm1, 1336(%rax,%r9)
	movups	%xmm0, 1320(%rax,%r9)
	movq	1432(%rax,%r9), %r14
	movq	%r14, 1392(%rax,%r9)
	movups	1400(%rax,%r9), %xmm0
	movups	1416(%rax,%r9), %xmm1
	movups	%xmm1, 1376(%rax,%r9)
	movups	%xmm0, 1360(%rax,%r9)
	movq	1472(%rax,%r9), %r14
	movq	%r14, 1432(%rax,%r9)
	movups	1440(%rax,%r9), %xmm0
	movups	1456(%rax,%r9), %xmm1
	movups	%xmm1, 1416(%rax,%r9)
	movups	%xmm0, 1400(%rax,%r9)
	movq	1512(%rax,%r9), %r14
	movq	%r14, 1472(%rax,%r9)
	movups	1480(%rax,%r9), %xmm0
	movups	1496(%rax,%r9), %xmm1
	movups	%xmm1, 1456(%rax,%r9)
	movups	%xmm0, 1440(%rax,%r9)
	movq	1552(%rax,%r9), %r14
	movq	%r14, 1512(%rax,%r9)
	movups	1520(%rax,%r9), %xmm0
	movups	1536(%rax,%r9), %xmm1
	movups	%xmm1, 1496(%rax,%r9)
	movups	%xmm0, 1480(%rax,%r9)
	movq	1592(%rax,%r9), %r14
	movq	%r14, 1552(%rax,%r9)
	movups	1560(%rax,%r9), %xmm0
	movups	1576(%rax,%r9), %xmm1
	movups	%xmm1, 1536(%rax,%r9)
	movups	%xmm0, 1520(%rax,%r9)
	movq	1632(%rax,%r9), %r14
	movq	%r14, 1592(%rax,%r9)
	movups	1600(%rax,%r9), %xmm0
	movups	1616(%rax,%r9), %xmm1
	movups	%xmm1, 1576(%rax,%r9)
	movups	%xmm0, 1560(%rax,%r9)
	movq	1672(%rax,%r9), %r14
	movq	%r14, 1632(%rax,%r9)
	movups	1640(%rax,%r9), %xmm0
	movups	1656(%rax,%r9), %xmm1
	movups	%xmm1, 1616(%rax,%r9)
	movups	%xmm0, 1600(%rax,%r9)
	movq	1712(%rax,%r9), %r14
	movq	%r14, 1672(%rax,%r9)
	movups	1680(%rax,%r9), %xmm0
	movups	1696(%rax,%r9), %xmm1
	movups	%xmm1, 1656(%rax,%r9)
	movups	%xmm0, 1640(%rax,%r9)
	movq	1752(%rax,%r9), %r14
	movq	%r14, 1712(%rax,%r9)
	movups	1720(%rax,%r9), %xmm0
	movups	1736(%rax,%r9), %xmm1
	movups	%xmm1, 1696(%rax,%r9)
	movups	%xmm0, 1680(%rax,%r9)
	movq	1792(%rax,%r9), %r14
	movq	%r14, 1752(%rax,%r9)
	movups	1760(%rax,%r9), %xmm0
	movups	1776(%rax,%r9), %xmm1
	movups	%xmm1, 1736(%rax,%r9)
	movups	%xmm0, 1720(%rax,%r9)
	movq	1832(%rax,%r9), %r14
	movq	%r14, 1792(%rax,%r9)
	movups	1800(%rax,%r9), %xmm0
	movups	1816(%rax,%r9), %xmm1
	movups	%xmm1, 1776(%rax,%r9)
	movups	%xmm0, 1760(%rax,%r9)
	movq	1872(%rax,%r9), %r14
	movq	%r14, 1832(%rax,%r9)
	movups	1840(%rax,%r9), %xmm0
	movups	1856(%rax,%r9), %xmm1
	movups	%xmm1, 1816(%rax,%r9)
	movups	%xmm0, 1800(%rax,%r9)
	movq	1912(%rax,%r9), %r14
	movq	%r14, 1872(%rax,%r9)
	movups	1880(%rax,%r9), %xmm0
	movups	1896(%rax,%r9), %xmm1
	movups	%xmm1, 1856(%rax,%r9)
	movups	%xmm0, 1840(%rax,%r9)
	movq	1952(%rax,%r9), %r14
	movq	%r14, 1912(%rax,%r9)
	movups	1920(%rax,%r9), %xmm0
	movups	1936(%rax,%r9), %xmm1
	movups	%xmm1, 1896(%rax,%r9)
	movups	%xmm0, 1880(%rax,%r9)
	movq	1992(%rax,%r9), %r14
	movq	%r14, 1952(%rax,%r9)
	movups	1960(%rax,%r9), %xmm0
	movups	1976(%rax,%r9), %xmm1
	movups	%xmm1, 1936(%rax,%r9)
	movups	%xmm0, 1920(%rax,%r9)
	movq	2032(%rax,%r9), %r14
	movq	%r14, 1992(%rax,%r9)
	movups	2000(%rax,%r9), %xmm0
	movups	2016(%rax,%r9), %xmm1
	movups	%xmm1, 1976(%rax,%r9)
	movups	%xmm0, 1960(%rax,%r9)
	movq	2072(%rax,%r9), %r14
	movq	%r14, 2032(%rax,%r9)
	movups	2040(%rax,%r9), %xmm0
	movups	2056(%rax,%r9), %xmm1
	movups	%xmm1, 2016(%rax,%r9)
	movups	%xmm0, 2000(%rax,%r9)
	addq	$2040, %r9
	leaq	(%r10,%rbx), %r14
	addq	$-51, %r14
	addq	$-51, %rbx
	cmpq	$51, %r14
	ja	1b
	leaq	1(%rdx), %r14
	subq	%rbx, %rdx
	cmpq	%rbx, %r14
	jne	3f
	testq	%r11, %r11
	je	9f
	addq	$-51, %rdx
	leaq	(%r11,%r11,4), %r9
	addq	$-52, %r11
	leaq	(%rax,%r9,8), %r9
	addq	$-40, %r9
	.p2align	4
2:
	movq	32(%r9), %r10
	movq	%r10, -8(%r9)
	movups	(%r9), %xmm0
	movups	16(%r9), %xmm1
	movups	%xmm1, -24(%r9)
	movups	%xmm0, -40(%r9)
	addq	$-40, %r9
	decq	%r11
	cmpq	%r11, %rdx
	jne	2b
	jmp	9f
3:
	addq	%rbx, %r10
4:
	cmpq	%rdx, %r8
	je	9f
	leaq	-1(%r10), %r11
	movl	%r10d, %edx
	andl	$3, %edx
	cmpq	$3, %r11
	jae	5f
	xorl	%r11d, %r11d
	jmp	7f
5:
	andl	$60, %r10d
	leaq	(%rax,%r9), %rbx
	xorl	%r11d, %r11d
	.p2align	4
6:
	movq	72(%rbx), %r14
	movq	%r14, 32(%rbx)
	movups	40(%rbx), %xmm0
	movups	56(%rbx), %xmm1
	movups	%xmm1, 16(%rbx)
	movups	%xmm0, (%rbx)
	movups	80(%rbx), %xmm0
	movups	%xmm0, 40(%rbx)
	movups	96(%rbx), %xmm0
	movups	%xmm0, 56(%rbx)
	movq	112(%rbx), %r14
	movq	%r14, 72(%rbx)
	movups	120(%rbx), %xmm0
	movups	%xmm0, 80(%rbx)
	movups	136(%rbx), %xmm0
	movups	%xmm0, 96(%rbx)
	movq	152(%rbx), %r14
	movq	%r14, 112(%rbx)
	movq	192(%rbx), %r14
	movq	%r14, 152(%rbx)
	movups	160(%rbx), %xmm0
	movups	176(%rbx), %xmm1
	movups	%xmm1, 136(%rbx)
	movups	%xmm0, 120(%rbx)
	addq	$160, %rbx
	addq	$4, %r11
	cmpq	%r11, %r10
	jne	6b
	testq	%rdx, %rdx
	je	9f
7:
	leaq	(%r11,%r11,4), %r10
	leaq	(%r9,%r10,8), %r9
	addq	%rax, %r9
	shll	$3, %edx
	leaq	(%rdx,%rdx,4), %rdx
	xorl	%r10d, %r10d
	.p2align	4
8:
	movq	72(%r9,%r10), %r11
	movq	%r11, 32(%r9,%r10)
	movups	40(%r9,%r10), %xmm0
	movups	56(%r9,%r10), %xmm1
	movups	%xmm1, 16(%r9,%r10)
	movups	%xmm0, (%r9,%r10)
	addq	$40, %r10
	cmpq	%r10, %rdx
	jne	8b
9:
	movq	%rax, (%rsi)
	movq	%r8, 8(%rsi)
	movq	%rcx, 16(%rsi)
	movq	-8(%rsp), %rax
	movq	%rax, 32(%rdi)
	movaps	-40(%rsp), %xmm0
	movaps	-24(%rsp), %xmm1
	movups	%xmm1, 16(%rdi)
	movups	%xmm0, (%rdi)
	popq	%rbx
	popq	%r14
	retq
10:
	.size	"std_alloc::vec::Vec::remove::<#21647806b46d5bf1>", 10b-"std_alloc::vec::Vec::remove::<#21647806b46d5bf1>"

	.text
	.p2align	4
	.type	"std_alloc::vec::Vec::remove::<#c1573421a60ec32d>",@function
"std_alloc::vec::Vec::remove::<#c1573421a60ec32d>":
	pushq	%r14
	pushq	%rbx
	movq	(%rsi), %rax
	movq	8(%rsi), %r11
	movq	16(%rsi), %rcx
	xorps	%xmm0, %xmm0
	movups	%xmm0, 8(%rsi)
	leaq	(,%rdx,8), %r8
	leaq	(%r8,%r8,2), %r9
	movq	16(%rax,%r9), %r8
	movq	%r8, -8(%rsp)
	movups	(%rax,%r9), %xmm0
	movaps	%xmm0, -24(%rsp)
	leaq	-1(%r11), %r8
	movq	%r8, %r10
	subq	%rdx, %r10
	cmpq	$86, %r10
	jb	4f
	xorl	%ebx, %ebx
	.p2align	4
1:
	movq	40(%rax,%r9), %r14
	movq	%r14, 16(%rax,%r9)
	movups	24(%rax,%r9), %xmm0
	movups	%xmm0, (%rax,%r9)
	movups	48(%rax,%r9), %xmm0
	movups	%xmm0, 24(%rax,%r9)
	movq	64(%rax,%r9), %r14
	movq	%r14, 40(%rax,%r9)
	movups	72(%rax,%r9), %xmm0
	movups	%xmm0, 48(%rax,%r9)
	movq	88(%rax,%r9), %r14
	movq	%r14, 64(%rax,%r9)
	movups	96(%rax,%r9), %xmm0
	movups	%xmm0, 72(%rax,%r9)
	movq	112(%rax,%r9), %r14
	movq	%r14, 88(%rax,%r9)
	movq	136(%rax,%r9), %r14
	movq	%r14, 112(%rax,%r9)
	movups	120(%rax,%r9), %xmm0
	movups	%xmm0, 96(%rax,%r9)
	movq	160(%rax,%r9), %r14
	movq	%r14, 136(%rax,%r9)
	movups	144(%rax,%r9), %xmm0
	movups	%xmm0, 120(%rax,%r9)
	movq	184(%rax,%r9), %r14
	movq	%r14, 160(%rax,%r9)
	movups	168(%rax,%r9), %xmm0
	movups	%xmm0, 144(%rax,%r9)
	movq	208(%rax,%r9), %r14
	movq	%r14, 184(%rax,%r9)
	movups	192(%rax,%r9), %xmm0
	movups	%xmm0, 168(%rax,%r9)
	movq	232(%rax,%r9), %r14
	movq	%r14, 208(%rax,%r9)
	movups	216(%rax,%r9), %xmm0
	movups	%xmm0, 192(%rax,%r9)
	movq	256(%rax,%r9), %r14
	movq	%r14, 232(%rax,%r9)
	movups	240(%rax,%r9), %xmm0
	movups	%xmm0, 216(%rax,%r9)
	movq	280(%rax,%r9), %r14
	movq	%r14, 256(%rax,%r9)
	movups	264(%rax,%r9), %xmm0
	movups	%xmm0, 240(%rax,%r9)
	movq	304(%rax,%r9), %r14
	movq	%r14, 280(%rax,%r9)
	movups	288(%rax,%r9), %xmm0
	movups	%xmm0, 264(%rax,%r9)
	movq	328(%rax,%r9), %r14
	movq	%r14, 304(%rax,%r9)
	movups	312(%rax,%r9), %xmm0
	movups	%xmm0, 288(%rax,%r9)
	movq	352(%rax,%r9), %r14
	movq	%r14, 328(%rax,%r9)
	movups	336(%rax,%r9), %xmm0
	movups	%xmm0, 312(%rax,%r9)
	movq	376(%rax,%r9), %r14
	movq	%r14, 352(%rax,%r9)
	movups	360(%rax,%r9), %xmm0
	movups	%xmm0, 336(%rax,%r9)
	movq	400(%rax,%r9), %r14
	movq	%r14, 376(%rax,%r9)
	movups	384(%rax,%r9), %xmm0
	movups	%xmm0, 360(%rax,%r9)
	movq	424(%rax,%r9), %r14
	movq	%r14, 400(%rax,%r9)
	movups	408(%rax,%r9), %xmm0
	movups	%xmm0, 384(%rax,%r9)
	movq	448(%rax,%r9), %r14
	movq	%r14, 424(%rax,%r9)
	movups	432(%rax,%r9), %xmm0
	movups	%xmm0, 408(%rax,%r9)
	movq	472(%rax,%r9), %r14
	movq	%r14, 448(%rax,%r9)
	movups	456(%rax,%r9), %xmm0
	movups	%xmm0, 432(%rax,%r9)
	movq	496(%rax,%r9), %r14
	movq	%r14, 472(%rax,%r9)
	movups	480(%rax,%r9), %xmm0
	movups	%xmm0, 456(%rax,%r9)
	movq	520(%rax,%r9), %r14
	movq	%r14, 496(%rax,%r9)
	movups	504(%rax,%r9), %xmm0
	movups	%xmm0, 480(%rax,%r9)
	movq	544(%rax,%r9), %r14
	movq	%r14, 520(%rax,%r9)
	movups	528(%rax,%r9), %xmm0
	movups	%xmm0, 504(%rax,%r9)
	movq	568(%rax,%r9), %r14
	movq	%r14, 544(%rax,%r9)
	movups	552(%rax,%r9), %xmm0
	movups	%xmm0, 528(%rax,%r9)
	movq	592(%rax,%r9), %r14
	movq	%r14, 568(%rax,%r9)
	movups	576(%rax,%r9), %xmm0
	movups	%xmm0, 552(%rax,%r9)
	movq	616(%rax,%r9), %r14
	movq	%r14, 592(%rax,%r9)
	movups	600(%rax,%r9), %xmm0
	movups	%xmm0, 576(%rax,%r9)
	movq	640(%rax,%r9), %r14
	movq	%r14, 616(%rax,%r9)
	movups	624(%rax,%r9), %xmm0
	movups	%xmm0, 600(%rax,%r9)
	movq	664(%rax,%r9), %r14
	movq	%r14, 640(%rax,%r9)
	movups	648(%rax,%r9), %xmm0
	movups	%xmm0, 624(%rax,%r9)
	movq	688(%rax,%r9), %r14
	movq	%r14, 664(%rax,%r9)
	movups	672(%rax,%r9), %xmm0
	movups	%xmm0, 648(%rax,%r9)
	movq	712(%rax,%r9), %r14
	movq	%r14, 688(%rax,%r9)
	movups	696(%rax,%r9), %xmm0
	movups	%xmm0, 672(%rax,%r9)
	movq	736(%rax,%r9), %r14
	movq	%r14, 712(%rax,%r9)
	movups	720(%rax,%r9), %xmm0
	movups	%xmm0, 696(%rax,%r9)
	movq	760(%rax,%r9), %r14
	movq	%r14, 736(%rax,%r9)
	movups	744(%rax,%r9), %xmm0
	movups	%xmm0, 720(%rax,%r9)
	movq	784(%rax,%r9), %r14
	movq	%r14, 760(%rax,%r9)
	movups	768(%rax,%r9), %xmm0
	movups	%xmm0, 744(%rax,%r9)
	movq	808(%rax,%r9), %r14
	movq	%r14, 784(%rax,%r9)
	movups	792(%rax,%r9), %xmm0
	movups	%xmm0, 768(%rax,%r9)
	movq	832(%rax,%r9), %r14
	movq	%r14, 808(%rax,%r9)
	movups	816(%rax,%r9), %xmm0
	movups	%xmm0, 792(%rax,%r9)
	movq	856(%rax,%r9), %r14
	movq	%r14, 832(%rax,%r9)
	movups	840(%rax,%r9), %xmm0
	movups	%xmm0, 816(%rax,%r9)
	movq	880(%rax,%r9), %r14
	movq	%r14, 856(%rax,%r9)
	movups	864(%rax,%r9), %xmm0
	movups	%xmm0, 840(%rax,%r9)
	movq	904(%rax,%r9), %r14
	movq	%r14, 880(%rax,%r9)
	movups	888(%rax,%r9), %xmm0
	movups	%xmm0, 864(%rax,%r9)
	movq	928(%rax,%r9), %r14
	movq	%r14, 904(%rax,%r9)
	movups	912(%rax,%r9), %xmm0
	movups	%xmm0, 888(%rax,%r9)
	movq	952(%rax,%r9), %r14
	movq	%r14, 928(%rax,%r9)
	movups	936(%rax,%r9), %xmm0
	movups	%xmm0, 912(%rax,%r9)
	movq	976(%rax,%r9), %r14
	movq	%r14, 952(%rax,%r9)
	movups	960(%rax,%r9), %xmm0
	movups	%xmm0, 936(%rax,%r9)
	movq	1000(%rax,%r9), %r14
	movq	%r14, 976(%rax,%r9)
	movups	984(%rax,%r9), %xmm0
	movups	%xmm0, 960(%rax,%r9)
	movq	1024(%rax,%r9), %r14
	movq	%r14, 1000(%rax,%r9)
	movups	1008(%rax,%r9), %xmm0
	movups	%xmm0, 984(%rax,%r9)
	movq	1048(%rax,%r9), %r14
	movq	%r14, 1024(%rax,%r9)
	movups	1032(%rax,%r9), %xmm0
	movups	%xmm0, 1008(%rax,%r9)
	movq	1072(%rax,%r9), %r14
	movq	%r14, 1048(%rax,%r9)
	movups	1056(%rax,%r9), %xmm0
	movups	%xmm0, 1032(%rax,%r9)
	movq	1096(%rax,%r9), %r14
	movq	%r14, 1072(%rax,%r9)
	movups	1080(%rax,%r9), %xmm0
	movups	%xmm0, 1056(%rax,%r9)
	movq	1120(%rax,%r9), %r14
	movq	%r14, 1096(%rax,%r9)
	movups	1104(%rax,%r9), %xmm0
	movups	%xmm0, 1080(%rax,%r9)
	movq	1144(%rax,%r9), %r14
	movq	%r14, 1120(%rax,%r9)
	movups	1128(%rax,%r9), %xmm0
	movups	%xmm0, 1104(%rax,%r9)
	movq	1168(%rax,%r9), %r14
	movq	%r14, 1144(%rax,%r9)
	movups	1152(%rax,%r9), %xmm0
	movups	%xmm0, 1128(%rax,%r9)
	movq	1192(%rax,%r9), %r14
	movq	%r14, 1168(%rax,%r9)
	movups	1176(%rax,%r9), %xmm0
	movups	%xmm0, 1152(%rax,%r9)
	movq	1216(%rax,%r9), %r14
	movq	%r14, 1192(%rax,%r9)
	movups	1200(%rax,%r9), %xmm0
	movups	%xmm0, 1176(%rax,%r9)
	movq	1240(%rax,%r9), %r14
	movq	%r14, 1216(%rax,%r9)
	movups	1224(%rax,%r9), %xmm0
	movups	%xmm0, 1200(%rax,%r9)
	movq	1264(%rax,%r9), %r14
	movq	%r14, 1240(%rax,%r9)
	movups	1248(%rax,%r9), %xmm0
	movups	%xmm0, 1224(%rax,%r9)
	movq	1288(%rax,%r9), %r14
	movq	%r14, 1264(%rax,%r9)
	movups	1272(%rax,%r9), %xmm0
	movups	%xmm0, 1248(%rax,%r9)
	movq	1312(%rax,%r9), %r14
	movq	%r14, 1288(%rax,%r9)
	movups	1296(%rax,%r9), %xmm0
	movups	%xmm0, 1272(%rax,%r9)
	movq	1336(%rax,%r9), %r14
	movq	%r14, 1312(%rax,%r9)
	movups	1320(%rax,%r9), %xmm0
	movups	%xmm0, 1296(%rax,%r9)
	movq	1360(%rax,%r9), %r14
	movq	%r14, 1336(%rax,%r9)
	movups	1344(%rax,%r9), %xmm0
	movups	%xmm0, 1320(%rax,%r9)
	movq	1384(%rax,%r9), %r14
	movq	%r14, 1360(%rax,%r9)
	movups	1368(%rax,%r9), %xmm0
	movups	%xmm0, 1344(%rax,%r9)
	movq	1408(%rax,%r9), %r14
	movq	%r14, 1384(%rax,%r9)
	movups	1392(%rax,%r9), %xmm0
	movups	%xmm0, 1368(%rax,%r9)
	movq	1432(%rax,%r9), %r14
	movq	%r14, 1408(%rax,%r9)
	movups	1416(%rax,%r9), %xmm0
	movups	%xmm0, 1392(%rax,%r9)
	movq	1456(%rax,%r9), %r14
	movq	%r14, 1432(%rax,%r9)
	movups	1440(%rax,%r9), %xmm0
	movups	%xmm0, 1416(%rax,%r9)
	movq	1480(%rax,%r9), %r14
	movq	%r14, 1456(%rax,%r9)
	movups	1464(%rax,%r9), %xmm0
	movups	%xmm0, 1440(%rax,%r9)
	movq	1504(%rax,%r9), %r14
	movq	%r14, 1480(%rax,%r9)
	movups	1488(%rax,%r9), %xmm0
	movups	%xmm0, 1464(%rax,%r9)
	movq	1528(%rax,%r9), %r14
	movq	%r14, 1504(%rax,%r9)
	movups	1512(%rax,%r9), %xmm0
	movups	%xmm0, 1488(%rax,%r9)
	movq	1552(%rax,%r9), %r14
	movq	%r14, 1528(%rax,%r9)
	movups	1536(%rax,%r9), %xmm0
	movups	%xmm0, 1512(%rax,%r9)
	movq	1576(%rax,%r9), %r14
	movq	%r14, 1552(%rax,%r9)
	movups	1560(%rax,%r9), %xmm0
	movups	%xmm0, 1536(%rax,%r9)
	movq	1600(%rax,%r9), %r14
	movq	%r14, 1576(%rax,%r9)
	movups	1584(%rax,%r9), %xmm0
	movups	%xmm0, 1560(%rax,%r9)
	movq	1624(%rax,%r9), %r14
	movq	%r14, 1600(%rax,%r9)
	movups	1608(%rax,%r9), %xmm0
	movups	%xmm0, 1584(%rax,%r9)
	movq	1648(%rax,%r9), %r14
	movq	%r14, 1624(%rax,%r9)
	movups	1632(%rax,%r9), %xmm0
	movups	%xmm0, 1608(%rax,%r9)
	movq	1672(%rax,%r9), %r14
	movq	%r14, 1648(%rax,%r9)
	movups	1656(%rax,%r9), %xmm0
	movups	%xmm0, 1632(%rax,%r9)
	movq	1696(%rax,%r9), %r14
	movq	%r14, 1672(%rax,%r9)
	movups	1680(%rax,%r9), %xmm0
	movups	%xmm0, 1656(%rax,%r9)
	movq	1720(%rax,%r9), %r14
	movq	%r14, 1696(%rax,%r9)
	movups	1704(%rax,%r9), %xmm0
	movups	%xmm0, 1680(%rax,%r9)
	movq	1744(%rax,%r9), %r14
	movq	%r14, 1720(%rax,%r9)
	movups	1728(%rax,%r9), %xmm0
	movups	%xmm0, 1704(%rax,%r9)
	movq	1768(%rax,%r9), %r14
	movq	%r14, 1744(%rax,%r9)
	movups	1752(%rax,%r9), %xmm0
	movups	%xmm0, 1728(%rax,%r9)
	movq	1792(%rax,%r9), %r14
	movq	%r14, 1768(%rax,%r9)
	movups	1776(%rax,%r9), %xmm0
	movups	%xmm0, 1752(%rax,%r9)
	movq	1816(%rax,%r9), %r14
	movq	%r14, 1792(%rax,%r9)
	movups	1800(%rax,%r9), %xmm0
	movups	%xmm0, 1776(%rax,%r9)
	movq	1840(%rax,%r9), %r14
	movq	%r14, 1816(%rax,%r9)
	movups	1824(%rax,%r9), %xmm0
	movups	%xmm0, 1800(%rax,%r9)
	movq	1864(%rax,%r9), %r14
	movq	%r14, 1840(%rax,%r9)
	movups	1848(%rax,%r9), %xmm0
	movups	%xmm0, 1824(%rax,%r9)
	movq	1888(%rax,%r9), %r14
	movq	%r14, 1864(%rax,%r9)
	movups	1872(%rax,%r9), %xmm0
	movups	%xmm0, 1848(%rax,%r9)
	movq	1912(%rax,%r9), %r14
	movq	%r14, 1888(%rax,%r9)
	movups	1896(%rax,%r9), %xmm0
	movups	%xmm0, 1872(%rax,%r9)
	movq	1936(%rax,%r9), %r14
	movq	%r14, 1912(%rax,%r9)
	movups	1920(%rax,%r9), %xmm0
	movups	%xmm0, 1896(%rax,%r9)
	movq	1960(%rax,%r9), %r14
	movq	%r14, 1936(%rax,%r9)
	movups	1944(%rax,%r9), %xmm0
	movups	%xmm0, 1920(%rax,%r9)
	movq	1984(%rax,%r9), %r14
	movq	%r14, 1960(%rax,%r9)
	movups	1968(%rax,%r9), %xmm0
	movups	%xmm0, 1944(%rax,%r9)
	movq	2008(%rax,%r9), %r14
	movq	%r14, 1984(%rax,%r9)
	movups	1992(%rax,%r9), %xmm0
	movups	%xmm0, 1968(%rax,%r9)
	movq	2032(%rax,%r9), %r14
	movq	%r14, 2008(%rax,%r9)
	movups	2016(%rax,%r9), %xmm0
	movups	%xmm0, 1992(%rax,%r9)
	movq	2056(%rax,%r9), %r14
	movq	%r14, 2032(%rax,%r9)
	movups	2040(%rax,%r9), %xmm0
	movups	%xmm0, 2016(%rax,%r9)
	addq	$2040, %r9
	leaq	(%r10,%rbx), %r14
	addq	$-85, %r14
	addq	$-85, %rbx
	cmpq	$85, %r14
	ja	1b
	leaq	1(%rdx), %r14
	subq	%rbx, %rdx
	cmpq	%rbx, %r14
	jne	3f
	testq	%r11, %r11
	je	9f
	addq	$-85, %rdx
	leaq	(%r11,%r11,2), %r9
	addq	$-86, %r11
	leaq	(%rax,%r9,8), %r9
	addq	$-24, %r9
	.p2align	4
2:
	movq	16(%r9), %r10
	movq	%r10, -8(%r9)
	movups	(%r9), %xmm0
	movups	%xmm0, -24(%r9)
	addq	$-24, %r9
	decq	%r11
	cmpq	%r11, %rdx
	jne	2b
	jmp	9f
3:
	addq	%rbx, %r10
4:
	cmpq	%rdx, %r8
	je	9f
	leaq	-1(%r10), %r11
	movl	%r10d, %edx
	andl	$3, %edx
	cmpq	$3, %r11
	jae	5f
	xorl	%r11d, %r11d
	jmp	7f
5:
	andl	$124, %r10d
	leaq	(%rax,%r9), %rbx
	xorl	%r11d, %r11d
	.p2align	4
6:
	movq	40(%rbx), %r14
	movq	%r14, 16(%rbx)
	movups	24(%rbx), %xmm0
	movups	%xmm0, (%rbx)
	movups	48(%rbx), %xmm0
	movups	%xmm0, 24(%rbx)
	movq	64(%rbx), %r14
	movq	%r14, 40(%rbx)
	movups	72(%rbx), %xmm0
	movups	%xmm0, 48(%rbx)
	movq	88(%rbx), %r14
	movq	%r14, 64(%rbx)
	movups	96(%rbx), %xmm0
	movups	%xmm0, 72(%rbx)
	movq	112(%rbx), %r14
	movq	%r14, 88(%rbx)
	addq	$96, %rbx
	addq	$4, %r11
	cmpq	%r11, %r10
	jne	6b
	testq	%rdx, %rdx
	je	9f
7:
	leaq	(%r11,%r11,2), %r10
	leaq	(%r9,%r10,8), %r9
	addq	%rax, %r9
	shll	$3, %edx
	leaq	(%rdx,%rdx,2), %rdx
	xorl	%r10d, %r10d
	.p2align	4
8:
	movq	40(%r9,%r10), %r11
	movq	%r11, 16(%r9,%r10)
	movups	24(%r9,%r10), %xmm0
	movups	%xmm0, (%r9,%r10)
	addq	$24, %r10
	cmpq	%r10, %rdx
	jne	8b
9:
	movq	%rax, (%rsi)
	movq	%r8, 8(%rsi)
	movq	%rcx, 16(%rsi)
	movq	-8(%rsp), %rax
	movq	%rax, 16(%rdi)
	movaps	-24(%rsp), %xmm0
	movups	%xmm0, (%rdi)
	popq	%rbx
	popq	%r14
	retq
10:
	.size	"std_alloc::vec::Vec::remove::<#c1573421a60ec32d>", 10b-"std_alloc::vec::Vec::remove::<#c1573421a60ec32d>"

	.text
	.p2align	4
	.type	"std_alloc::vec::deque::VecDeque::drop::<#19687a60d315e203>",@function
"std_alloc::vec::deque::VecDeque::drop::<#19687a60d315e203>":
	pushq	%rbp
	pushq	%r15
	pushq	%r14
	pushq	%r13
	pushq	%r12
	pushq	%rbx
	subq	$136, %rsp
	movq	(%rdi), %rbx
	movq	8(%rdi), %rcx
	movq	16(%rdi), %rax
	movq	%rax, 16(%rsp)
	testq	%rcx, %rcx
	je	12f
	movq	32(%rdi), %rax
	movq	24(%rdi), %rbp
	movq	%rax, 8(%rsp)
	subq	%rax, %rcx
	addq	%rbp, %rcx
	cmpq	%rcx, %rbp
	jae	6f
	movq	%rcx, 24(%rsp)
	jmp	2f
	.p2align	4
1:
	incq	%rbp
	movq	24(%rsp), %rcx
	cmpq	%rcx, %rbp
	je	6f
2:
	movq	%rbp, %rax
	shlq	$4, %rax
	leaq	(%rax,%rax,4), %rax
	movq	56(%rbx,%rax), %r13
	movq	64(%rbx,%rax), %r12
	movq	72(%rbx,%rax), %r15
	cmpb	$0, 8(%rbx,%rax)
	je	3f
	cmpq	$0, 32(%rbx,%rax)
	je	3f
	movq	16(%rbx,%rax), %rdi
	callq	rattle_dealloc@PLT
3:
	testq	%r12, %r12
	je	5f
	movq	%r13, %r14
	.p2align	4
4:
	movups	80(%r14), %xmm0
	movaps	%xmm0, 112(%rsp)
	movups	64(%r14), %xmm0
	movaps	%xmm0, 96(%rsp)
	movups	(%r14), %xmm0
	movups	16(%r14), %xmm1
	movups	32(%r14), %xmm2
	movups	48(%r14), %xmm3
	movaps	%xmm3, 80(%rsp)
	movaps	%xmm2, 64(%rsp)
	movaps	%xmm1, 48(%rsp)
	movaps	%xmm0, 32(%rsp)
	leaq	32(%rsp), %rdi
	callq	"mime_text::mime_base++magic++matchlet++Matchlet+Destruct::drop"
	addq	$96, %r14
	decq	%r12
	jne	4b
5:
	testq	%r15, %r15
	je	1b
	movq	%r13, %rdi
	callq	rattle_dealloc@PLT
	jmp	1b
6:
	cmpq	$0, 8(%rsp)
	je	12f
	xorl	%r13d, %r13d
	jmp	8f
	.p2align	4
7:
	incq	%r13
	cmpq	8(%rsp), %r13
	je	12f
8:
	movq	%r13, %rax
	shlq	$4, %rax
	leaq	(%rax,%rax,4), %rax
	movq	56(%rbx,%rax), %r14
	movq	64(%rbx,%rax), %r12
	movq	72(%rbx,%rax), %r15
	cmpb	$0, 8(%rbx,%rax)
	je	9f
	cmpq	$0, 32(%rbx,%rax)
	je	9f
	movq	16(%rbx,%rax), %rdi
	callq	rattle_dealloc@PLT
9:
	testq	%r12, %r12
	je	11f
	movq	%r14, %rbp
	.p2align	4
10:
	movups	80(%rbp), %xmm0
	movaps	%xmm0, 112(%rsp)
	movups	64(%rbp), %xmm0
	movaps	%xmm0, 96(%rsp)
	movups	(%rbp), %xmm0
	movups	16(%rbp), %xmm1
	movups	32(%rbp), %xmm2
	movups	48(%rbp), %xmm3
	movaps	%xmm3, 80(%rsp)
	movaps	%xmm2, 64(%rsp)
	movaps	%xmm1, 48(%rsp)
	movaps	%xmm0, 32(%rsp)
	leaq	32(%rsp), %rdi
	callq	"mime_text::mime_base++magic++matchlet++Matchlet+Destruct::drop"
	addq	$96, %rbp
	decq	%r12
	jne	10b
11:
	testq	%r15, %r15
	je	7b
	movq	%r14, %rdi
	callq	rattle_dealloc@PLT
	jmp	7b
12:
	cmpq	$0, 16(%rsp)
	je	13f
	movq	%rbx, %rdi
	addq	$136, %rsp
	popq	%rbx
	popq	%r12
	popq	%r13
	popq	%r14
	popq	%r15
	popq	%rbp
	jmp	rattle_dealloc@PLT
13:
	addq	$136, %rsp
	popq	%rbx
	popq	%r12
	popq	%r13
	popq	%r14
	popq	%r15
	popq	%rbp
	retq
14:
	.size	"std_alloc::vec::deque::VecDeque::drop::<#19687a60d315e203>", 14b-"std_alloc::vec::deque::VecDeque::drop::<#19687a60d315e203>"

	.text
	.p2align	4
	.type	"std_alloc::vec::deque::VecDeque::drop::<#a85d6931f7cfb01d>",@function
"std_alloc::vec::deque::VecDeque::drop::<#a85d6931f7cfb01d>":
	pushq	%rbp
	pushq	%r15
	pushq	%r14
	pushq	%r13
	pushq	%r12
	pushq	%rbx
	subq	$24, %rsp
	movq	(%rdi), %rbp
	movq	8(%rdi), %r13
	movq	16(%rdi), %rax
	movq	%rax, 16(%rsp)
	testq	%r13, %r13
	je	13f
	movq	%rbp, 8(%rsp)
	movq	32(%rdi), %r12
	movq	24(%rdi), %rax
	subq	%r12, %r13
	leaq	(%rax,%r13), %rcx
	cmpq	%rcx, %rax
	jae	7f
	imulq	$112, %rax, %rbp
	addq	8(%rsp), %rbp
	jmp	4f
1:
	movq	%r14, %rdi
2:
	callq	rattle_dealloc@PLT
3:
	addq	$112, %rbp
	decq	%r13
	je	7f
4:
	movq	16(%rbp), %rdi
	cmpb	$0, (%rbp)
	je	5f
	cmpb	$0, 8(%rbp)
	je	3b
	cmpq	$0, 32(%rbp)
	jne	2b
	jmp	3b
	.p2align	4
5:
	movzbl	64(%rbp), %ebx
	movq	72(%rbp), %r14
	movq	88(%rbp), %r15
	testb	%dil, %dil
	je	6f
	cmpq	$0, 40(%rbp)
	je	6f
	movq	24(%rbp), %rdi
	callq	rattle_dealloc@PLT
6:
	testb	%bl, %bl
	je	3b
	testq	%r15, %r15
	jne	1b
	jmp	3b
7:
	testq	%r12, %r12
	movq	8(%rsp), %rbp
	je	13f
	movq	%rbp, %r13
	jmp	10f
	.p2align	4
8:
	callq	rattle_dealloc@PLT
9:
	addq	$112, %r13
	decq	%r12
	je	13f
10:
	movq	16(%r13), %rdi
	cmpb	$0, (%r13)
	je	11f
	cmpb	$0, 8(%r13)
	je	9b
	cmpq	$0, 32(%r13)
	jne	8b
	jmp	9b
	.p2align	4
11:
	movzbl	64(%r13), %ebx
	movq	72(%r13), %r14
	movq	88(%r13), %r15
	testb	%dil, %dil
	je	12f
	cmpq	$0, 40(%r13)
	je	12f
	movq	24(%r13), %rdi
	callq	rattle_dealloc@PLT
12:
	testb	%bl, %bl
	je	9b
	testq	%r15, %r15
	je	9b
	movq	%r14, %rdi
	jmp	8b
13:
	cmpq	$0, 16(%rsp)
	je	14f
	movq	%rbp, %rdi
	addq	$24, %rsp
	popq	%rbx
	popq	%r12
	popq	%r13
	popq	%r14
	popq	%r15
	popq	%rbp
	jmp	rattle_dealloc@PLT
14:
	addq	$24, %rsp
	popq	%rbx
	popq	%r12
	popq	%r13
	popq	%r14
	popq	%r15
	popq	%rbp
	retq
15:
	.size	"std_alloc::vec::deque::VecDeque::drop::<#a85d6931f7cfb01d>", 15b-"std_alloc::vec::deque::VecDeque::drop::<#a85d6931f7cfb01d>"

	.text
	.p2align	4
	.type	"std_alloc::vec::deque::VecDeque::drop::<#f76b5842e243a073>",@function
"std_alloc::vec::deque::VecDeque::drop::<#f76b5842e243a073>":
	pushq	%rbp
	pushq	%r15
	pushq	%r14
	pushq	%r13
	pushq	%r12
	pushq	%rbx
	subq	$24, %rsp
	movq	(%rdi), %rbp
	movq	8(%rdi), %r13
	movq	16(%rdi), %rax
	movq	%rax, 16(%rsp)
	testq	%r13, %r13
	je	8f
	movq	%rbp, 8(%rsp)
	movq	32(%rdi), %r12
	movq	24(%rdi), %rax
	subq	%r12, %r13
	leaq	(%rax,%r13), %rcx
	cmpq	%rcx, %rax
	jae	4f
	imulq	$104, %rax, %rax
	movq	8(%rsp), %rcx
	leaq	(%rax,%rcx), %rbp
	addq	$80, %rbp
	jmp	2f
	.p2align	4
1:
	addq	$104, %rbp
	decq	%r13
	je	4f
2:
	movzbl	-24(%rbp), %ebx
	movq	-16(%rbp), %r14
	movq	(%rbp), %r15
	cmpb	$0, -72(%rbp)
	je	3f
	cmpq	$0, -48(%rbp)
	je	3f
	movq	-64(%rbp), %rdi
	callq	rattle_dealloc@PLT
3:
	testb	%bl, %bl
	je	1b
	testq	%r15, %r15
	je	1b
	movq	%r14, %rdi
	callq	rattle_dealloc@PLT
	jmp	1b
4:
	testq	%r12, %r12
	movq	8(%rsp), %rbp
	je	8f
	leaq	80(%rbp), %r13
	jmp	6f
	.p2align	4
5:
	addq	$104, %r13
	decq	%r12
	je	8f
6:
	movzbl	-24(%r13), %ebx
	movq	-16(%r13), %r14
	movq	(%r13), %r15
	cmpb	$0, -72(%r13)
	je	7f
	cmpq	$0, -48(%r13)
	je	7f
	movq	-64(%r13), %rdi
	callq	rattle_dealloc@PLT
7:
	testb	%bl, %bl
	je	5b
	testq	%r15, %r15
	je	5b
	movq	%r14, %rdi
	callq	rattle_dealloc@PLT
	jmp	5b
8:
	cmpq	$0, 16(%rsp)
	je	9f
	movq	%rbp, %rdi
	addq	$24, %rsp
	popq	%rbx
	popq	%r12
	popq	%r13
	popq	%r14
	popq	%r15
	popq	%rbp
	jmp	rattle_dealloc@PLT
9:
	addq	$24, %rsp
	popq	%rbx
	popq	%r12
	popq	%r13
	popq	%r14
	popq	%r15
	popq	%rbp
	retq
10:
	.size	"std_alloc::vec::deque::VecDeque::drop::<#f76b5842e243a073>", 10b-"std_alloc::vec::deque::VecDeque::drop::<#f76b5842e243a073>"

	.section	.text.unlikely,"ax",@progbits
	.p2align	4
	.type	"std_alloc::vec::deque::VecDeque::grow::<#25095d740b27081c>",@function
"std_alloc::vec::deque::VecDeque::grow::<#25095d740b27081c>":
	movq	8(%rdi), %rsi
	movb	$1, %al
	cmpq	%rsi, 16(%rdi)
	jne	7f
	pushq	%rbp
	pushq	%r15
	pushq	%r14
	pushq	%r13
	pushq	%r12
	pushq	%rbx
	subq	$40, %rsp
	leaq	24(%rdi), %r12
	cmpq	$0, 24(%rdi)
	je	3f
	cmpq	$-1, %rsi
	je	5f
	cmpq	$4, %rsi
	movl	$3, %eax
	cmovaeq	%rsi, %rax
	incq	%rax
	movq	%rsi, %rcx
	shrq	$62, %rcx
	leaq	(%rsi,%rsi), %r15
	cmpq	%r15, %rax
	cmovaq	%rax, %r15
	testq	%rcx, %rcx
	cmovneq	%rax, %r15
	movq	%r15, %rax
	subq	%rsi, %rax
	cmpq	%rax, 32(%rdi)
	jbe	1f
	movq	%r15, %rax
	shrq	$59, %rax
	jne	5f
	movq	%rdi, 8(%rsp)
	movq	%r15, %rdi
	shlq	$4, %rdi
	movl	$8, %esi
	callq	rattle_alloc@PLT
	testb	$1, %al
	je	5f
	movq	%rdx, %rbx
	movq	8(%rsp), %rax
	movq	(%rax), %rcx
	movq	8(%rax), %rbp
	movq	32(%rax), %r11
	movq	%rbp, %r9
	subq	%r11, %r9
	movq	24(%rax), %rdi
	shlq	$4, %rdi
	leaq	(%rcx,%rdi), %rsi
	movq	%r9, %r14
	shlq	$4, %r14
	subq	%rsi, %rdx
	cmpq	%r14, %rdx
	jae	8f
	cmpq	%r11, %rbp
	je	19f
	movl	%r9d, %edx
	andl	$7, %edx
	movq	%r11, %r8
	subq	%rbp, %r8
	cmpq	$-8, %r8
	jbe	15f
	xorl	%r8d, %r8d
	jmp	17f
1:
	movq	%r15, %rax
	shrq	$59, %rax
	jne	5f
	testq	%rsi, %rsi
	je	4f
	movq	%rdi, %rbx
	movq	(%rdi), %rdi
	shlq	$4, %rsi
	movq	%r15, %rdx
	shlq	$4, %rdx
	movl	$8, %ecx
	callq	rattle_realloc@PLT
	testb	$1, %al
	je	5f
2:
	movq	%rbx, %rcx
	movq	8(%rbx), %rsi
	movq	32(%rbx), %r8
	shlq	$4, %rsi
	movq	%r8, %rax
	shlq	$4, %rax
	cmpq	%rax, %rsi
	jae	9f
	testq	%r8, %r8
	movb	$1, %al
	je	14f
	movl	%r8d, %edi
	andl	$7, %edi
	cmpq	$8, %r8
	jae	10f
	xorl	%r9d, %r9d
	jmp	12f
3:
	movq	(%rdi), %rax
	movq	%rax, 16(%rsp)
	movq	%rsi, 24(%rsp)
	movq	%rsi, 32(%rsp)
	leaq	16(%rsp), %rax
	movq	%rdi, %rbx
	movq	%rax, %rdi
	callq	"std_alloc::vec::Vec::grow_amortized::<#25095d740b27081c>"
	movq	16(%rsp), %rcx
	movups	24(%rsp), %xmm0
	movq	%rcx, (%rbx)
	movups	%xmm0, 8(%rbx)
	xorps	%xmm0, %xmm0
	movups	%xmm0, (%r12)
	jmp	6f
4:
	movq	%rdi, %rbx
	movl	$64, %edi
	movl	$8, %esi
	callq	rattle_alloc@PLT
	testb	$1, %al
	jne	2b
5:
	xorl	%eax, %eax
6:
	addq	$40, %rsp
	popq	%rbx
	popq	%r12
	popq	%r13
	popq	%r14
	popq	%r15
	popq	%rbp
7:
	retq
8:
	movq	%rbx, %rdi
	movq	%r14, %rdx
	movq	%r11, %r13
	callq	memmove@PLT
	movq	%r13, %r11
	movq	8(%rsp), %rax
	jmp	19f
9:
	movq	%rdx, %rdi
	addq	%rsi, %rdi
	movq	%rcx, %rbx
	movq	%rdx, %rsi
	movq	%rdx, %r14
	movq	%rax, %rdx
	callq	memmove@PLT
	movq	%r14, %rdx
	movq	%rbx, %rcx
	movb	$1, %al
	jmp	14f
10:
	andq	$-8, %r8
	leaq	112(%rdx), %r10
	xorl	%r9d, %r9d
11:
	movups	-112(%r10), %xmm0
	movups	%xmm0, -112(%r10,%rsi)
	movups	-96(%r10), %xmm0
	movups	%xmm0, -96(%r10,%rsi)
	movups	-80(%r10), %xmm0
	movups	%xmm0, -80(%r10,%rsi)
	movups	-64(%r10), %xmm0
	movups	%xmm0, -64(%r10,%rsi)
	movups	-48(%r10), %xmm0
	movups	%xmm0, -48(%r10,%rsi)
	movups	-32(%r10), %xmm0
	movups	%xmm0, -32(%r10,%rsi)
	movups	-16(%r10), %xmm0
	movups	%xmm0, -16(%r10,%rsi)
	movups	(%r10), %xmm0
	movups	%xmm0, (%r10,%rsi)
	addq	$8, %r9
	subq	$-128, %r10
	cmpq	%r9, %r8
	jne	11b
	testq	%rdi, %rdi
	je	14f
12:
	shlq	$4, %r9
	movq	%rdx, %r8
	addq	%r9, %r8
	.p2align	4
13:
	movups	(%r8), %xmm0
	movups	%xmm0, (%r8,%rsi)
	addq	$16, %r8
	decq	%rdi
	jne	13b
14:
	movq	%rdx, (%rcx)
	movq	%r15, 16(%rcx)
	movq	$0, 32(%rcx)
	jmp	6b
15:
	andq	$-8, %r9
	movl	$112, %r10d
	xorl	%r8d, %r8d
16:
	movups	-112(%rsi,%r10), %xmm0
	movups	%xmm0, -112(%rbx,%r10)
	movups	-96(%rsi,%r10), %xmm0
	movups	%xmm0, -96(%rbx,%r10)
	movups	-80(%rsi,%r10), %xmm0
	movups	%xmm0, -80(%rbx,%r10)
	movups	-64(%rsi,%r10), %xmm0
	movups	%xmm0, -64(%rbx,%r10)
	movups	-48(%rsi,%r10), %xmm0
	movups	%xmm0, -48(%rbx,%r10)
	movups	-32(%rsi,%r10), %xmm0
	movups	%xmm0, -32(%rbx,%r10)
	movups	-16(%rsi,%r10), %xmm0
	movups	%xmm0, -16(%rbx,%r10)
	movups	(%rsi,%r10), %xmm0
	movups	%xmm0, (%rbx,%r10)
	addq	$8, %r8
	subq	$-128, %r10
	cmpq	%r8, %r9
	jne	16b
	testq	%rdx, %rdx
	je	19f
17:
	shlq	$4, %r8
	addq	%r8, %rdi
	addq	%rdi, %rcx
	addq	%rbx, %r8
	shll	$4, %edx
	xorl	%esi, %esi
	.p2align	4
18:
	movups	(%rcx,%rsi), %xmm0
	movups	%xmm0, (%r8,%rsi)
	addq	$16, %rsi
	cmpq	%rsi, %rdx
	jne	18b
19:
	addq	%rbx, %r14
	movq	(%rax), %rsi
	movq	32(%rax), %rdi
	movq	%rdi, %rdx
	shlq	$4, %rdx
	movq	%r14, %rcx
	subq	%rsi, %rcx
	cmpq	%rdx, %rcx
	jae	20f
	testq	%rdi, %rdi
	je	25f
	movl	%edi, %ecx
	andl	$7, %ecx
	cmpq	$8, %rdi
	jae	21f
	xorl	%edx, %edx
	jmp	23f
20:
	movq	%r14, %rdi
	callq	memmove@PLT
	movq	8(%rsp), %rax
	jmp	25f
21:
	andq	$-8, %rdi
	movl	$112, %r8d
	xorl	%edx, %edx
22:
	movups	-112(%rsi,%r8), %xmm0
	movups	%xmm0, -112(%r14,%r8)
	movups	-96(%rsi,%r8), %xmm0
	movups	%xmm0, -96(%r14,%r8)
	movups	-80(%rsi,%r8), %xmm0
	movups	%xmm0, -80(%r14,%r8)
	movups	-64(%rsi,%r8), %xmm0
	movups	%xmm0, -64(%r14,%r8)
	movups	-48(%rsi,%r8), %xmm0
	movups	%xmm0, -48(%r14,%r8)
	movups	-32(%rsi,%r8), %xmm0
	movups	%xmm0, -32(%r14,%r8)
	movups	-16(%rsi,%r8), %xmm0
	movups	%xmm0, -16(%r14,%r8)
	movups	(%rsi,%r8), %xmm0
	movups	%xmm0, (%r14,%r8)
	addq	$8, %rdx
	subq	$-128, %r8
	cmpq	%rdx, %rdi
	jne	22b
	testq	%rcx, %rcx
	je	25f
23:
	shlq	$4, %rdx
	addq	%rdx, %rsi
	shlq	$4, %rbp
	addq	%rdx, %rbp
	shlq	$4, %r11
	subq	%r11, %rbp
	movq	%rbx, %rdx
	addq	%rbp, %rdx
	shll	$4, %ecx
	xorl	%edi, %edi
	.p2align	4
24:
	movups	(%rsi,%rdi), %xmm0
	movups	%xmm0, (%rdx,%rdi)
	addq	$16, %rdi
	cmpq	%rdi, %rcx
	jne	24b
25:
	movq	(%rax), %rdi
	movq	%rax, %r14
	callq	rattle_dealloc@PLT
	movq	%rbx, (%r14)
	movq	%r15, 16(%r14)
	xorps	%xmm0, %xmm0
	movups	%xmm0, (%r12)
	movb	$1, %al
	jmp	6b
26:
	.size	"std_alloc::vec::deque::VecDeque::grow::<#25095d740b27081c>", 26b-"std_alloc::vec::deque::VecDeque::grow::<#25095d740b27081c>"

	.section	.rodata.cst16,"aM",@progbits,16
	.p2align	4, 0x0
1:
	.long	1,0,0,0
	.text
	.p2align	4
	.type	"std_alloc::vec::lodged::Vec+T+Lodged::insert_reserved::<#2262cf5b90b10fda>",@function
"std_alloc::vec::lodged::Vec+T+Lodged::insert_reserved::<#2262cf5b90b10fda>":
	pushq	%r14
	pushq	%rbx
	movq	16(%rdx), %rax
	movq	%rax, -8(%rsp)
	movups	(%rdx), %xmm0
	movaps	%xmm0, -24(%rsp)
	movq	(%rdi), %rax
	movq	8(%rdi), %rcx
	movdqu	8(%rdi), %xmm0
	xorps	%xmm1, %xmm1
	movups	%xmm1, 8(%rdi)
	movq	%rsi, %r10
	incq	%r10
	je	2f
	cmpq	%rsi, %rcx
	je	17f
	movq	%rcx, %rdx
	subq	%rsi, %rdx
	leaq	(%rsi,%rsi,2), %r8
	leaq	(%rax,%r8,8), %r8
	leaq	(%r10,%r10,2), %r9
	leaq	(%rax,%r9,8), %r9
	cmpq	%r10, %rcx
	jne	10f
	xorl	%ecx, %ecx
	jmp	12f
2:
	leaq	1(%rcx), %rdx
	cmpq	$86, %rdx
	jb	7f
	xorl	%r10d, %r10d
	movq	%rax, %r9
	jmp	5f
	.p2align	4
3:
	leaq	(%r8,%r8,2), %r10
	leaq	(%rax,%r10,8), %r10
	movq	-8(%r10), %r11
	movq	%r11, 16(%r10)
	movups	-24(%r10), %xmm1
	movups	%xmm1, (%r10)
	movq	-8(%r10), %r11
	movq	%r11, 40(%r10)
	movups	-24(%r10), %xmm1
	movups	%xmm1, 24(%r10)
	movq	-8(%r10), %r11
	movq	%r11, 64(%r10)
	movups	-24(%r10), %xmm1
	movups	%xmm1, 48(%r10)
	movq	-8(%r10), %r11
	movq	%r11, 88(%r10)
	movups	-24(%r10), %xmm1
	movups	%xmm1, 72(%r10)
	movq	-8(%r10), %r11
	movq	%r11, 112(%r10)
	movups	-24(%r10), %xmm1
	movups	%xmm1, 96(%r10)
	movups	-24(%r10), %xmm1
	movups	%xmm1, 120(%r10)
	movq	-8(%r10), %r11
	movq	%r11, 136(%r10)
	movups	-24(%r10), %xmm1
	movups	%xmm1, 144(%r10)
	movq	-8(%r10), %r11
	movq	%r11, 160(%r10)
	movq	-8(%r10), %r11
	movq	%r11, 184(%r10)
	movups	-24(%r10), %xmm1
	movups	%xmm1, 168(%r10)
	movups	-24(%r10), %xmm1
	movups	%xmm1, 192(%r10)
	movq	-8(%r10), %r11
	movq	%r11, 208(%r10)
	movups	-24(%r10), %xmm1
	movups	%xmm1, 216(%r10)
	movq	-8(%r10), %r11
	movq	%r11, 232(%r10)
	movq	-8(%r10), %r11
	movq	%r11, 256(%r10)
	movups	-24(%r10), %xmm1
	movups	%xmm1, 240(%r10)
	movq	-8(%r10), %r11
	movq	%r11, 280(%r10)
	movups	-24(%r10), %xmm1
	movups	%xmm1, 264(%r10)
	movups	-24(%r10), %xmm1
	movups	%xmm1, 288(%r10)
	movq	-8(%r10), %r11
	movq	%r11, 304(%r10)
	movups	-24(%r10), %xmm1
	movups	%xmm1, 312(%r10)
	movq	-8(%r10), %r11
	movq	%r11, 328(%r10)
	movups	-24(%r10), %xmm1
	movups	%xmm1, 336(%r10)
	movq	-8(%r10), %r11
	movq	%r11, 352(%r10)
	movq	-8(%r10), %r11
	movq	%r11, 376(%r10)
	movups	-24(%r10), %xmm1
	movups	%xmm1, 360(%r10)
	movups	-24(%r10), %xmm1
	movups	%xmm1, 384(%r10)
	movq	-8(%r10), %r11
	movq	%r11, 400(%r10)
	movups	-24(%r10), %xmm1
	movups	%xmm1, 408(%r10)
	movq	-8(%r10), %r11
	movq	%r11, 424(%r10)
	movups	-24(%r10), %xmm1
	movups	%xmm1, 432(%r10)
	movq	-8(%r10), %r11
	movq	%r11, 448(%r10)
	movq	-8(%r10), %r11
	movq	%r11, 472(%r10)
	movups	-24(%r10), %xmm1
	movups	%xmm1, 456(%r10)
	movups	-24(%r10), %xmm1
	movups	%xmm1, 480(%r10)
	movq	-8(%r10), %r11
	movq	%r11, 496(%r10)
	movups	-24(%r10), %xmm1
	movups	%xmm1, 504(%r10)
	movq	-8(%r10), %r11
	movq	%r11, 520(%r10)
	movups	-24(%r10), %xmm1
	movups	%xmm1, 528(%r10)
	movq	-8(%r10), %r11
	movq	%r11, 544(%r10)
	movq	-8(%r10), %r11
	movq	%r11, 568(%r10)
	movups	-24(%r10), %xmm1
	movups	%xmm1, 552(%r10)
	movups	-24(%r10), %xmm1
	movups	%xmm1, 576(%r10)
	movq	-8(%r10), %r11
	movq	%r11, 592(%r10)
	movups	-24(%r10), %xmm1
	movups	%xmm1, 600(%r10)
	movq	-8(%r10), %r11
	movq	%r11, 616(%r10)
	movups	-24(%r10), %xmm1
	movups	%xmm1, 624(%r10)
	movq	-8(%r10), %r11
	movq	%r11, 640(%r10)
	movq	-8(%r10), %r11
	movq	%r11, 664(%r10)
	movups	-24(%r10), %xmm1
	movups	%xmm1, 648(%r10)
	movups	-24(%r10), %xmm1
	movups	%xmm1, 672(%r10)
	movq	-8(%r10), %r11
	movq	%r11, 688(%r10)
	movups	-24(%r10), %xmm1
	movups	%xmm1, 696(%r10)
	movq	-8(%r10), %r11
	movq	%r11, 712(%r10)
	movups	-24(%r10), %xmm1
	movups	%xmm1, 720(%r10)
	movq	-8(%r10), %r11
	movq	%r11, 736(%r10)
	movq	-8(%r10), %r11
	movq	%r11, 760(%r10)
	movups	-24(%r10), %xmm1
	movups	%xmm1, 744(%r10)
	movups	-24(%r10), %xmm1
	movups	%xmm1, 768(%r10)
	movq	-8(%r10), %r11
	movq	%r11, 784(%r10)
	movups	-24(%r10), %xmm1
	movups	%xmm1, 792(%r10)
	movq	-8(%r10), %r11
	movq	%r11, 808(%r10)
	movups	-24(%r10), %xmm1
	movups	%xmm1, 816(%r10)
	movq	-8(%r10), %r11
	movq	%r11, 832(%r10)
	movq	-8(%r10), %r11
	movq	%r11, 856(%r10)
	movups	-24(%r10), %xmm1
	movups	%xmm1, 840(%r10)
	movups	-24(%r10), %xmm1
	movups	%xmm1, 864(%r10)
	movq	-8(%r10), %r11
	movq	%r11, 880(%r10)
	movups	-24(%r10), %xmm1
	movups	%xmm1, 888(%r10)
	movq	-8(%r10), %r11
	movq	%r11, 904(%r10)
	movups	-24(%r10), %xmm1
	movups	%xmm1, 912(%r10)
	movq	-8(%r10), %r11
	movq	%r11, 928(%r10)
	movq	-8(%r10), %r11
	movq	%r11, 952(%r10)
	movups	-24(%r10), %xmm1
	movups	%xmm1, 936(%r10)
	movups	-24(%r10), %xmm1
	movups	%xmm1, 960(%r10)
	movq	-8(%r10), %r11
	movq	%r11, 976(%r10)
	movups	-24(%r10), %xmm1
	movups	%xmm1, 984(%r10)
	movq	-8(%r10), %r11
	movq	%r11, 1000(%r10)
	movups	-24(%r10), %xmm1
	movups	%xmm1, 1008(%r10)
	movq	-8(%r10), %r11
	movq	%r11, 1024(%r10)
	movq	-8(%r10), %r11
	movq	%r11, 1048(%r10)
	movups	-24(%r10), %xmm1
	movups	%xmm1, 1032(%r10)
	movups	-24(%r10), %xmm1
	movups	%xmm1, 1056(%r10)
	movq	-8(%r10), %r11
	movq	%r11, 1072(%r10)
	movups	-24(%r10), %xmm1
	movups	%xmm1, 1080(%r10)
	movq	-8(%r10), %r11
	movq	%r11, 1096(%r10)
	movups	-24(%r10), %xmm1
	movups	%xmm1, 1104(%r10)
	movq	-8(%r10), %r11
	movq	%r11, 1120(%r10)
	movq	-8(%r10), %r11
	movq	%r11, 1144(%r10)
	movups	-24(%r10), %xmm1
	movups	%xmm1, 1128(%r10)
	movups	-24(%r10), %xmm1
	movups	%xmm1, 1152(%r10)
	movq	-8(%r10), %r11
	movq	%r11, 1168(%r10)
	movups	-24(%r10), %xmm1
	movups	%xmm1, 1176(%r10)
	movq	-8(%r10), %r11
	movq	%r11, 1192(%r10)
	movups	-24(%r10), %xmm1
	movups	%xmm1, 1200(%r10)
	movq	-8(%r10), %r11
	movq	%r11, 1216(%r10)
	movq	-8(%r10), %r11
	movq	%r11, 1240(%r10)
	movups	-24(%r10), %xmm1
	movups	%xmm1, 1224(%r10)
	movups	-24(%r10), %xmm1
	movups	%xmm1, 1248(%r10)
	movq	-8(%r10), %r11
	movq	%r11, 1264(%r10)
	movups	-24(%r10), %xmm1
	movups	%xmm1, 1272(%r10)
	movq	-8(%r10), %r11
	movq	%r11, 1288(%r10)
	movups	-24(%r10), %xmm1
	movups	%xmm1, 1296(%r10)
	movq	-8(%r10), %r11
	movq	%r11, 1312(%r10)
	movq	-8(%r10), %r11
	movq	%r11, 1336(%r10)
	movups	-24(%r10), %xmm1
	movups	%xmm1, 1320(%r10)
	movups	-24(%r10), %xmm1
	movups	%xmm1, 1344(%r10)
	movq	-8(%r10), %r11
	movq	%r11, 1360(%r10)
	movups	-24(%r10), %xmm1
	movups	%xmm1, 1368(%r10)
	movq	-8(%r10), %r11
	movq	%r11, 1384(%r10)
	movups	-24(%r10), %xmm1
	movups	%xmm1, 1392(%r10)
	movq	-8(%r10), %r11
	movq	%r11, 1408(%r10)
	movq	-8(%r10), %r11
	movq	%r11, 1432(%r10)
	movups	-24(%r10), %xmm1
	movups	%xmm1, 1416(%r10)
	movups	-24(%r10), %xmm1
	movups	%xmm1, 1440(%r10)
	movq	-8(%r10), %r11
	movq	%r11, 1456(%r10)
	movups	-24(%r10), %xmm1
	movups	%xmm1, 1464(%r10)
	movq	-8(%r10), %r11
	movq	%r11, 1480(%r10)
	movups	-24(%r10), %xmm1
	movups	%xmm1, 1488(%r10)
	movq	-8(%r10), %r11
	movq	%r11, 1504(%r10)
	movq	-8(%r10), %r11
	movq	%r11, 1528(%r10)
	movups	-24(%r10), %xmm1
	movups	%xmm1, 1512(%r10)
	movups	-24(%r10), %xmm1
	movups	%xmm1, 1536(%r10)
	movq	-8(%r10), %r11
	movq	%r11, 1552(%r10)
	movups	-24(%r10), %xmm1
	movups	%xmm1, 1560(%r10)
	movq	-8(%r10), %r11
	movq	%r11, 1576(%r10)
	movups	-24(%r10), %xmm1
	movups	%xmm1, 1584(%r10)
	movq	-8(%r10), %r11
	movq	%r11, 1600(%r10)
	movq	-8(%r10), %r11
	movq	%r11, 1624(%r10)
	movups	-24(%r10), %xmm1
	movups	%xmm1, 1608(%r10)
	movups	-24(%r10), %xmm1
	movups	%xmm1, 1632(%r10)
	movq	-8(%r10), %r11
	movq	%r11, 1648(%r10)
	movups	-24(%r10), %xmm1
	movups	%xmm1, 1656(%r10)
	movq	-8(%r10), %r11
	movq	%r11, 1672(%r10)
	movups	-24(%r10), %xmm1
	movups	%xmm1, 1680(%r10)
	movq	-8(%r10), %r11
	movq	%r11, 1696(%r10)
	movq	-8(%r10), %r11
	movq	%r11, 1720(%r10)
	movups	-24(%r10), %xmm1
	movups	%xmm1, 1704(%r10)
	movups	-24(%r10), %xmm1
	movups	%xmm1, 1728(%r10)
	movq	-8(%r10), %r11
	movq	%r11, 1744(%r10)
	movups	-24(%r10), %xmm1
	movups	%xmm1, 1752(%r10)
	movq	-8(%r10), %r11
	movq	%r11, 1768(%r10)
	movups	-24(%r10), %xmm1
	movups	%xmm1, 1776(%r10)
	movq	-8(%r10), %r11
	movq	%r11, 1792(%r10)
	movq	-8(%r10), %r11
	movq	%r11, 1816(%r10)
	movups	-24(%r10), %xmm1
	movups	%xmm1, 1800(%r10)
	movups	-24(%r10), %xmm1
	movups	%xmm1, 1824(%r10)
	movq	-8(%r10), %r11
	movq	%r11, 1840(%r10)
	movups	-24(%r10), %xmm1
	movups	%xmm1, 1848(%r10)
	movq	-8(%r10), %r11
	movq	%r11, 1864(%r10)
	movups	-24(%r10), %xmm1
	movups	%xmm1, 1872(%r10)
	movq	-8(%r10), %r11
	movq	%r11, 1888(%r10)
	movq	-8(%r10), %r11
	movq	%r11, 1912(%r10)
	movups	-24(%r10), %xmm1
	movups	%xmm1, 1896(%r10)
	movups	-24(%r10), %xmm1
	movups	%xmm1, 1920(%r10)
	movq	-8(%r10), %r11
	movq	%r11, 1936(%r10)
	movups	-24(%r10), %xmm1
	movups	%xmm1, 1944(%r10)
	movq	-8(%r10), %r11
	movq	%r11, 1960(%r10)
	movups	-24(%r10), %xmm1
	movups	%xmm1, 1968(%r10)
	movq	-8(%r10), %r11
	movq	%r11, 1984(%r10)
	movq	-8(%r10), %r11
	movq	%r11, 2008(%r10)
	movups	-24(%r10), %xmm1
	movups	%xmm1, 1992(%r10)
	movups	-24(%r10), %xmm1
	movups	%xmm1, 2016(%r10)
	movq	-8(%r10), %r11
	movq	%r11, 2032(%r10)
4:
	leaq	85(%r8), %r10
	movq	%rdx, %r11
	subq	%r10, %r11
	addq	$2040, %r9
	cmpq	$85, %r11
	jbe	8f
5:
	movq	%r10, %r8
	testq	%r10, %r10
	je	3b
	movl	$2016, %r10d
	.p2align	4
6:
	movq	-8(%r9,%r10), %r11
	movq	%r11, 16(%r9,%r10)
	movups	-24(%r9,%r10), %xmm1
	movups	%xmm1, (%r9,%r10)
	testq	%r10, %r10
	je	4b
	movq	-32(%r9,%r10), %r11
	movq	%r11, -8(%r9,%r10)
	movups	-48(%r9,%r10), %xmm1
	movups	%xmm1, -24(%r9,%r10)
	addq	$-48, %r10
	jmp	6b
7:
	testq	%rdx, %rdx
	je	17f
	movl	%edx, %r8d
	andl	$3, %r8d
	cmpq	$3, %rcx
	jae	13f
	xorl	%ecx, %ecx
	jmp	15f
8:
	cmpq	%r10, %rdx
	je	17f
	leaq	(%rcx,%rcx,2), %rdx
	subq	%r8, %rcx
	addq	$-84, %rcx
	leaq	(%rax,%rdx,8), %rdx
	.p2align	4
9:
	movq	-8(%rdx), %r8
	movq	%r8, 16(%rdx)
	movups	-24(%rdx), %xmm1
	movups	%xmm1, (%rdx)
	addq	$-24, %rdx
	decq	%rcx
	jne	9b
	jmp	17f
10:
	movq	%rdx, %r10
	andq	$-2, %r10
	leaq	(%rcx,%rcx,2), %rcx
	leaq	(%rax,%rcx,8), %r11
	xorl	%ecx, %ecx
	.p2align	4
11:
	movq	-8(%r11), %rbx
	movq	%rbx, 16(%r11)
	movups	-24(%r11), %xmm1
	movups	%xmm1, (%r11)
	movabsq	$2305843009213693950, %rbx
	xorq	%rcx, %rbx
	addq	%rdx, %rbx
	shlq	$3, %rbx
	leaq	(%rbx,%rbx,2), %rbx
	movq	16(%r8,%rbx), %r14
	movq	%r14, 16(%r9,%rbx)
	movups	(%r8,%rbx), %xmm1
	movups	%xmm1, (%r9,%rbx)
	addq	$2, %rcx
	addq	$-48, %r11
	cmpq	%rcx, %r10
	jne	11b
	testb	$1, %dl
	je	17f
12:
	notq	%rcx
	addq	%rcx, %rdx
	shlq	$3, %rdx
	leaq	(%rdx,%rdx,2), %rcx
	movq	16(%r8,%rcx), %rdx
	movq	%rdx, 16(%r9,%rcx)
	movups	(%r8,%rcx), %xmm1
	movups	%xmm1, (%r9,%rcx)
	jmp	17f
13:
	andl	$124, %edx
	leaq	(,%rsi,8), %rcx
	leaq	(%rcx,%rcx,2), %r9
	xorl	%ecx, %ecx
	movq	%rax, %r10
	.p2align	4
14:
	movq	16(%r10,%r9), %r11
	movq	%r11, 16(%r10)
	movups	(%r10,%r9), %xmm1
	movups	%xmm1, (%r10)
	movq	40(%r10,%r9), %r11
	movq	%r11, 40(%r10)
	movups	24(%r10,%r9), %xmm1
	movups	%xmm1, 24(%r10)
	movq	64(%r10,%r9), %r11
	movq	%r11, 64(%r10)
	movups	48(%r10,%r9), %xmm1
	movups	%xmm1, 48(%r10)
	movups	72(%r10,%r9), %xmm1
	movups	%xmm1, 72(%r10)
	movq	88(%r10,%r9), %r11
	movq	%r11, 88(%r10)
	addq	$4, %rcx
	addq	$96, %r10
	cmpq	%rcx, %rdx
	jne	14b
	testq	%r8, %r8
	je	17f
15:
	shlq	$3, %rcx
	leaq	(%rcx,%rcx,2), %rcx
	leaq	(%rsi,%rsi,2), %rdx
	leaq	(%rcx,%rdx,8), %rdx
	addq	%rax, %rdx
	addq	%rax, %rcx
	shll	$3, %r8d
	leaq	(%r8,%r8,2), %r8
	xorl	%r9d, %r9d
	.p2align	4
16:
	movq	16(%rdx,%r9), %r10
	movq	%r10, 16(%rcx,%r9)
	movups	(%rdx,%r9), %xmm1
	movups	%xmm1, (%rcx,%r9)
	addq	$24, %r9
	cmpq	%r9, %r8
	jne	16b
17:
	leaq	(%rsi,%rsi,2), %rcx
	movq	-8(%rsp), %rdx
	movq	%rdx, 16(%rax,%rcx,8)
	movaps	-24(%rsp), %xmm1
	movups	%xmm1, (%rax,%rcx,8)
	movq	%rax, (%rdi)
	paddq	1b(%rip), %xmm0
	movdqu	%xmm0, 8(%rdi)
	popq	%rbx
	popq	%r14
	retq
18:
	.size	"std_alloc::vec::lodged::Vec+T+Lodged::insert_reserved::<#2262cf5b90b10fda>", 18b-"std_alloc::vec::lodged::Vec+T+Lodged::insert_reserved::<#2262cf5b90b10fda>"

	.section	.rodata.cst16,"aM",@progbits,16
	.p2align	4, 0x0
1:
	.long	1,0,0,0
	.text
	.p2align	4
	.type	"std_alloc::vec::lodged::Vec+T+Lodged::insert_reserved::<39'(,,)::<i64,3'&[](*,i64,),3'&[](*,i64,)>>",@function
"std_alloc::vec::lodged::Vec+T+Lodged::insert_reserved::<39'(,,)::<i64,3'&[](*,i64,),3'&[](*,i64,)>>":
	pushq	%r14
	pushq	%rbx
	movq	32(%rdx), %rax
	movq	%rax, -8(%rsp)
	movups	(%rdx), %xmm0
	movups	16(%rdx), %xmm1
	movaps	%xmm1, -24(%rsp)
	movaps	%xmm0, -40(%rsp)
	movq	(%rdi), %rax
	movq	8(%rdi), %rcx
	movdqu	8(%rdi), %xmm0
	xorps	%xmm1, %xmm1
	movups	%xmm1, 8(%rdi)
	movq	%rsi, %r10
	incq	%r10
	je	2f
	cmpq	%rsi, %rcx
	je	16f
	movq	%rcx, %r9
	subq	%rsi, %r9
	leaq	(%rsi,%rsi,4), %rdx
	leaq	(%rax,%rdx,8), %rdx
	leaq	(%r10,%r10,4), %r8
	leaq	(%rax,%r8,8), %r8
	cmpq	%r10, %rcx
	jne	9f
	xorl	%ecx, %ecx
	jmp	11f
2:
	leaq	1(%rcx), %rdx
	cmpq	$52, %rdx
	jb	6f
	xorl	%r9d, %r9d
	jmp	5f
	.p2align	4
3:
	movq	-8(%r9), %r10
	movq	%r10, 32(%r9)
	movups	-40(%r9), %xmm1
	movups	-24(%r9), %xmm2
	movups	%xmm2, 16(%r9)
	movups	%xmm1, (%r9)
	movq	-8(%r9), %r10
	movq	%r10, 72(%r9)
	movups	-40(%r9), %xmm1
	movups	-24(%r9), %xmm2
	movups	%xmm2, 56(%r9)
	movups	%xmm1, 40(%r9)
	movq	-8(%r9), %r10
	movq	%r10, 112(%r9)
	movups	-40(%r9), %xmm1
	movups	-24(%r9), %xmm2
	movups	%xmm2, 96(%r9)
	movups	%xmm1, 80(%r9)
	movups	-40(%r9), %xmm1
	movups	-24(%r9), %xmm2
	movups	%xmm1, 120(%r9)
	movups	%xmm2, 136(%r9)
	movq	-8(%r9), %r10
	movq	%r10, 152(%r9)
	movups	-40(%r9), %xmm1
	movups	-24(%r9), %xmm2
	movups	%xmm2, 176(%r9)
	movq	-8(%r9), %r10
	movq	%r10, 192(%r9)
	movups	%xmm1, 160(%r9)
	movups	-40(%r9), %xmm1
	movups	-24(%r9), %xmm2
	movups	%xmm1, 200(%r9)
	movups	%xmm2, 216(%r9)
	movq	-8(%r9), %r10
	movq	%r10, 232(%r9)
	movups	-40(%r9), %xmm1
	movups	-24(%r9), %xmm2
	movups	%xmm1, 240(%r9)
	movups	%xmm2, 256(%r9)
	movq	-8(%r9), %r10
	movq	%r10, 272(%r9)
	movups	-40(%r9), %xmm1
	movups	-24(%r9), %xmm2
	movups	%xmm1, 280(%r9)
	movq	-8(%r9), %r10
	movq	%r10, 312(%r9)
	movups	%xmm2, 296(%r9)
	movq	-8(%r9), %r10
	movq	%r10, 352(%r9)
	movups	-40(%r9), %xmm1
	movups	-24(%r9), %xmm2
	movups	%xmm2, 336(%r9)
	movups	%xmm1, 320(%r9)
	movups	-40(%r9), %xmm1
	movups	-24(%r9), %xmm2
	movups	%xmm1, 360(%r9)
	movups	%xmm2, 376(%r9)
	movq	-8(%r9), %r10
	movq	%r10, 392(%r9)
	movups	-40(%r9), %xmm1
	movups	-24(%r9), %xmm2
	movups	%xmm1, 400(%r9)
	movups	%xmm2, 416(%r9)
	movq	-8(%r9), %r10
	movq	%r10, 432(%r9)
	movups	-40(%r9), %xmm1
	movups	-24(%r9), %xmm2
	movups	%xmm1, 440(%r9)
	movups	%xmm2, 456(%r9)
	movq	-8(%r9), %r10
	movq	%r10, 472(%r9)
	movups	-40(%r9), %xmm1
	movups	-24(%r9), %xmm2
	movups	%xmm1, 480(%r9)
	movups	%xmm2, 496(%r9)
	movq	-8(%r9), %r10
	movq	%r10, 512(%r9)
	movups	-40(%r9), %xmm1
	movups	-24(%r9), %xmm2
	movups	%xmm1, 520(%r9)
	movq	-8(%r9), %r10
	movq	%r10, 552(%r9)
	movups	%xmm2, 536(%r9)
	movq	-8(%r9), %r10
	movq	%r10, 592(%r9)
	movups	-40(%r9), %xmm1
	movups	-24(%r9), %xmm2
	movups	%xmm2, 576(%r9)
	movups	%xmm1, 560(%r9)
	movups	-40(%r9), %xmm1
	movups	-24(%r9), %xmm2
	movups	%xmm1, 600(%r9)
	movups	%xmm2, 616(%r9)
	movq	-8(%r9), %r10
	movq	%r10, 632(%r9)
	movups	-40(%r9), %xmm1
	movups	-24(%r9), %xmm2
	movups	%xmm1, 640(%r9)
	movups	%xmm2, 656(%r9)
	movq	-8(%r9), %r10
	movq	%r10, 672(%r9)
	movups	-40(%r9), %xmm1
	movups	-24(%r9), %xmm2
	movups	%xmm1, 680(%r9)
	movups	%xmm2, 696(%r9)
	movq	-8(%r9), %r10
	movq	%r10, 712(%r9)
	movups	-40(%r9), %xmm1
	movups	-24(%r9), %xmm2
	movups	%xmm1, 720(%r9)
	movups	%xmm2, 736(%r9)
	movq	-8(%r9), %r10
	movq	%r10, 752(%r9)
	movups	-40(%r9), %xmm1
	movups	-24(%r9), %xmm2
	movups	%xmm1, 760(%r9)
	movq	-8(%r9), %r10
	movq	%r10, 792(%r9)
	movups	%xmm2, 776(%r9)
	movq	-8(%r9), %r10
	movq	%r10, 832(%r9)
	movups	-40(%r9), %xmm1
	movups	-24(%r9), %xmm2
	movups	%xmm2, 816(%r9)
	movups	%xmm1, 800(%r9)
	movups	-40(%r9), %xmm1
	movups	-24(%r9), %xmm2
	movups	%xmm1, 840(%r9)
	movups	%xmm2, 856(%r9)
	movq	-8(%r9), %r10
	movq	%r10, 872(%r9)
	movups	-40(%r9), %xmm1
	movups	-24(%r9), %xmm2
	movups	%xmm1, 880(%r9)
	movups	%xmm2, 896(%r9)
	movq	-8(%r9), %r10
	movq	%r10, 912(%r9)
	movups	-40(%r9), %xmm1
	movups	-24(%r9), %xmm2
	movups	%xmm1, 920(%r9)
	movups	%xmm2, 936(%r9)
	movq	-8(%r9), %r10
	movq	%r10, 952(%r9)
	movups	-40(%r9), %xmm1
	movups	-24(%r9), %xmm2
	movups	%xmm1, 960(%r9)
	movups	%xmm2, 976(%r9)
	movq	-8(%r9), %r10
	movq	%r10, 992(%r9)
	movups	-40(%r9), %xmm1
	movups	-24(%r9), %xmm2
	movups	%xmm1, 1000(%r9)
	movq	-8(%r9), %r10
	movq	%r10, 1032(%r9)
	movups	%xmm2, 1016(%r9)
	movq	-8(%r9), %r10
	movq	%r10, 1072(%r9)
	movups	-40(%r9), %xmm1
	movups	-24(%r9), %xmm2
	movups	%xmm2, 1056(%r9)
	movups	%xmm1, 1040(%r9)
	movups	-40(%r9), %xmm1
	movups	-24(%r9), %xmm2
	movups	%xmm1, 1080(%r9)
	movups	%xmm2, 1096(%r9)
	movq	-8(%r9), %r10
	movq	%r10, 1112(%r9)
	movups	-40(%r9), %xmm1
	movups	-24(%r9), %xmm2
	movups	%xmm1, 1120(%r9)
	movups	%xmm2, 1136(%r9)
	movq	-8(%r9), %r10
	movq	%r10, 1152(%r9)
	movups	-40(%r9), %xmm1
	movups	-24(%r9), %xmm2
	movups	%xmm1, 1160(%r9)
	movups	%xmm2, 1176(%r9)
	movq	-8(%r9), %r10
	movq	%r10, 1192(%r9)
	movups	-40(%r9), %xmm1
	movups	-24(%r9), %xmm2
	movups	%xmm1, 1200(%r9)
	movups	%xmm2, 1216(%r9)
	movq	-8(%r9), %r10
	movq	%r10, 1232(%r9)
	movups	-40(%r9), %xmm1
	movups	-24(%r9), %xmm2
	movups	%xmm1, 1240(%r9)
	movq	-8(%r9), %r10
	movq	%r10, 1272(%r9)
	movups	%xmm2, 1256(%r9)
	movq	-8(%r9), %r10
	movq	%r10, 1312(%r9)
	movups	-40(%r9), %xmm1
	movups	-24(%r9), %xmm2
	movups	%xmm2, 1296(%r9)
	movups	%xmm1, 1280(%r9)
	movups	-40(%r9), %xmm1
	movups	-24(%r9), %xmm2
	movups	%xmm1, 1320(%r9)
	movups	%xmm2, 1336(%r9)
	movq	-8(%r9), %r10
	movq	%r10, 1352(%r9)
	movups	-40(%r9), %xmm1
	movups	-24(%r9), %xmm2
	movups	%xmm1, 1360(%r9)
	movups	%xmm2, 1376(%r9)
	movq	-8(%r9), %r10
	movq	%r10, 1392(%r9)
	movups	-40(%r9), %xmm1
	movups	-24(%r9), %xmm2
	movups	%xmm1, 1400(%r9)
	movups	%xmm2, 1416(%r9)
	movq	-8(%r9), %r10
	movq	%r10, 1432(%r9)
	movups	-40(%r9), %xmm1
	movups	-24(%r9), %xmm2
	movups	%xmm1, 1440(%r9)
	movups	%xmm2, 1456(%r9)
	movq	-8(%r9), %r10
	movq	%r10, 1472(%r9)
	movups	-40(%r9), %xmm1
	movups	-24(%r9), %xmm2
	movups	%xmm1, 1480(%r9)
	movq	-8(%r9), %r10
	movq	%r10, 1512(%r9)
	movups	%xmm2, 1496(%r9)
	movq	-8(%r9), %r10
	movq	%r10, 1552(%r9)
	movups	-40(%r9), %xmm1
	movups	-24(%r9), %xmm2
	movups	%xmm2, 1536(%r9)
	movups	%xmm1, 1520(%r9)
	movups	-40(%r9), %xmm1
	movups	-24(%r9), %xmm2
	movups	%xmm1, 1560(%r9)
	movups	%xmm2, 1576(%r9)
	movq	-8(%r9), %r10
	movq	%r10, 1592(%r9)
	movups	-40(%r9), %xmm1
	movups	-24(%r9), %xmm2
	movups	%xmm1, 1600(%r9)
	movups	%xmm2, 1616(%r9)
	movq	-8(%r9), %r10
	movq	%r10, 1632(%r9)
	movups	-40(%r9), %xmm1
	movups	-24(%r9), %xmm2
	movups	%xmm1, 1640(%r9)
	movups	%xmm2, 1656(%r9)
	movq	-8(%r9), %r10
	movq	%r10, 1672(%r9)
	movups	-40(%r9), %xmm1
	movups	-24(%r9), %xmm2
	movups	%xmm1, 1680(%r9)
	movups	%xmm2, 1696(%r9)
	movq	-8(%r9), %r10
	movq	%r10, 1712(%r9)
	movups	-40(%r9), %xmm1
	movups	-24(%r9), %xmm2
	movups	%xmm1, 1720(%r9)
	movq	-8(%r9), %r10
	movq	%r10, 1752(%r9)
	movups	%xmm2, 1736(%r9)
	movq	-8(%r9), %r10
	movq	%r10, 1792(%r9)
	movups	-40(%r9), %xmm1
	movups	-24(%r9), %xmm2
	movups	%xmm2, 1776(%r9)
	movups	%xmm1, 1760(%r9)
	movups	-40(%r9), %xmm1
	movups	-24(%r9), %xmm2
	movups	%xmm1, 1800(%r9)
	movups	%xmm2, 1816(%r9)
	movq	-8(%r9), %r10
	movq	%r10, 1832(%r9)
	movups	-40(%r9), %xmm1
	movups	-24(%r9), %xmm2
	movups	%xmm1, 1840(%r9)
	movups	%xmm2, 1856(%r9)
	movq	-8(%r9), %r10
	movq	%r10, 1872(%r9)
	movups	-40(%r9), %xmm1
	movups	-24(%r9), %xmm2
	movups	%xmm1, 1880(%r9)
	movups	%xmm2, 1896(%r9)
	movq	-8(%r9), %r10
	movq	%r10, 1912(%r9)
	movups	-40(%r9), %xmm1
	movups	-24(%r9), %xmm2
	movups	%xmm1, 1920(%r9)
	movups	%xmm2, 1936(%r9)
	movq	-8(%r9), %r10
	movq	%r10, 1952(%r9)
	movups	-40(%r9), %xmm1
	movups	-24(%r9), %xmm2
	movups	%xmm1, 1960(%r9)
	movq	-8(%r9), %r10
	movq	%r10, 1992(%r9)
	movups	%xmm2, 1976(%r9)
	movq	-8(%r9), %r10
	movq	%r10, 2032(%r9)
	movups	-40(%r9), %xmm1
	movups	-24(%r9), %xmm2
	movups	%xmm1, 2000(%r9)
	movups	%xmm2, 2016(%r9)
4:
	leaq	51(%r8), %r9
	movq	%rdx, %r10
	subq	%r9, %r10
	cmpq	$51, %r10
	jbe	7f
5:
	movq	%r9, %r8
	leaq	(%r9,%r9,4), %r9
	leaq	(%rax,%r9,8), %r9
	testq	%r8, %r8
	je	3b
	movq	1992(%r9), %r10
	movq	%r10, 2032(%r9)
	movups	1976(%r9), %xmm1
	movups	%xmm1, 2016(%r9)
	movups	1960(%r9), %xmm1
	movups	%xmm1, 2000(%r9)
	movups	1920(%r9), %xmm1
	movups	%xmm1, 1960(%r9)
	movups	1936(%r9), %xmm1
	movups	%xmm1, 1976(%r9)
	movq	1952(%r9), %r10
	movq	%r10, 1992(%r9)
	movups	1880(%r9), %xmm1
	movups	1896(%r9), %xmm2
	movups	%xmm1, 1920(%r9)
	movups	%xmm2, 1936(%r9)
	movq	1912(%r9), %r10
	movq	%r10, 1952(%r9)
	movq	1872(%r9), %r10
	movq	%r10, 1912(%r9)
	movups	1840(%r9), %xmm1
	movups	1856(%r9), %xmm2
	movups	%xmm2, 1896(%r9)
	movups	%xmm1, 1880(%r9)
	movq	1832(%r9), %r10
	movq	%r10, 1872(%r9)
	movups	1800(%r9), %xmm1
	movups	1816(%r9), %xmm2
	movups	%xmm2, 1856(%r9)
	movups	%xmm1, 1840(%r9)
	movq	1792(%r9), %r10
	movq	%r10, 1832(%r9)
	movups	1760(%r9), %xmm1
	movups	1776(%r9), %xmm2
	movups	%xmm2, 1816(%r9)
	movups	%xmm1, 1800(%r9)
	movq	1752(%r9), %r10
	movq	%r10, 1792(%r9)
	movups	1720(%r9), %xmm1
	movups	1736(%r9), %xmm2
	movups	%xmm2, 1776(%r9)
	movups	%xmm1, 1760(%r9)
	movq	1712(%r9), %r10
	movq	%r10, 1752(%r9)
	movups	1680(%r9), %xmm1
	movups	1696(%r9), %xmm2
	movups	%xmm2, 1736(%r9)
	movups	%xmm1, 1720(%r9)
	movq	1672(%r9), %r10
	movq	%r10, 1712(%r9)
	movups	1640(%r9), %xmm1
	movups	1656(%r9), %xmm2
	movups	%xmm2, 1696(%r9)
	movups	%xmm1, 1680(%r9)
	movq	1632(%r9), %r10
	movq	%r10, 1672(%r9)
	movups	1600(%r9), %xmm1
	movups	1616(%r9), %xmm2
	movups	%xmm2, 1656(%r9)
	movups	%xmm1, 1640(%r9)
	movq	1592(%r9), %r10
	movq	%r10, 1632(%r9)
	movups	1560(%r9), %xmm1
	movups	1576(%r9), %xmm2
	movups	%xmm2, 1616(%r9)
	movups	%xmm1, 1600(%r9)
	movq	1552(%r9), %r10
	movq	%r10, 1592(%r9)
	movups	1520(%r9), %xmm1
	movups	1536(%r9), %xmm2
	movups	%xmm2, 1576(%r9)
	movups	%xmm1, 1560(%r9)
	movq	1512(%r9), %r10
	movq	%r10, 1552(%r9)
	movups	1480(%r9), %xmm1
	movups	1496(%r9), %xmm2
	movups	%xmm2, 1536(%r9)
	movups	%xmm1, 1520(%r9)
	movq	1472(%r9), %r10
	movq	%r10, 1512(%r9)
	movups	1440(%r9), %xmm1
	movups	1456(%r9), %xmm2
	movups	%xmm2, 1496(%r9)
	movups	%xmm1, 1480(%r9)
	movq	1432(%r9), %r10
	movq	%r10, 1472(%r9)
	movups	1400(%r9), %xmm1
	movups	1416(%r9), %xmm2
	movups	%xmm2, 1456(%r9)
	movups	%xmm1, 1440(%r9)
	movq	1392(%r9), %r10
	movq	%r10, 1432(%r9)
	movups	1360(%r9), %xmm1
	movups	1376(%r9), %xmm2
	movups	%xmm2, 1416(%r9)
	movups	%xmm1, 1400(%r9)
	movq	1352(%r9), %r10
	movq	%r10, 1392(%r9)
	movups	1320(%r9), %xmm1
	movups	1336(%r9), %xmm2
	movups	%xmm2, 1376(%r9)
	movups	%xmm1, 1360(%r9)
	movq	1312(%r9), %r10
	movq	%r10, 1352(%r9)
	movups	1280(%r9), %xmm1
	movups	1296(%r9), %xmm2
	movups	%xmm2, 1336(%r9)
	movups	%xmm1, 1320(%r9)
	movq	1272(%r9), %r10
	movq	%r10, 1312(%r9)
	movups	1240(%r9), %xmm1
	movups	1256(%r9), %xmm2
	movups	%xmm2, 1296(%r9)
	movups	%xmm1, 1280(%r9)
	movq	1232(%r9), %r10
	movq	%r10, 1272(%r9)
	movups	1200(%r9), %xmm1
	movups	1216(%r9), %xmm2
	movups	%xmm2, 1256(%r9)
	movups	%xmm1, 1240(%r9)
	movq	1192(%r9), %r10
	movq	%r10, 1232(%r9)
	movups	1160(%r9), %xmm1
	movups	1176(%r9), %xmm2
	movups	%xmm2, 1216(%r9)
	movups	%xmm1, 1200(%r9)
	movq	1152(%r9), %r10
	movq	%r10, 1192(%r9)
	movups	1120(%r9), %xmm1
	movups	1136(%r9), %xmm2
	movups	%xmm2, 1176(%r9)
	movups	%xmm1, 1160(%r9)
	movq	1112(%r9), %r10
	movq	%r10, 1152(%r9)
	movups	1080(%r9), %xmm1
	movups	1096(%r9), %xmm2
	movups	%xmm2, 1136(%r9)
	movups	%xmm1, 1120(%r9)
	movq	1072(%r9), %r10
	movq	%r10, 1112(%r9)
	movups	1040(%r9), %xmm1
	movups	1056(%r9), %xmm2
	movups	%xmm2, 1096(%r9)
	movups	%xmm1, 1080(%r9)
	movq	1032(%r9), %r10
	movq	%r10, 1072(%r9)
	movups	1000(%r9), %xmm1
	movups	1016(%r9), %xmm2
	movups	%xmm2, 1056(%r9)
	movups	%xmm1, 1040(%r9)
	movq	992(%r9), %r10
	movq	%r10, 1032(%r9)
	movups	960(%r9), %xmm1
	movups	976(%r9), %xmm2
	movups	%xmm2, 1016(%r9)
	movups	%xmm1, 1000(%r9)
	movq	952(%r9), %r10
	movq	%r10, 992(%r9)
	movups	920(%r9), %xmm1
	movups	936(%r9), %xmm2
	movups	%xmm2, 976(%r9)
	movups	%xmm1, 960(%r9)
	movq	912(%r9), %r10
	movq	%r10, 952(%r9)
	movups	880(%r9), %xmm1
	movups	896(%r9), %xmm2
	movups	%xmm2, 936(%r9)
	movups	%xmm1, 920(%r9)
	movq	872(%r9), %r10
	movq	%r10, 912(%r9)
	movups	840(%r9), %xmm1
	movups	856(%r9), %xmm2
	movups	%xmm2, 896(%r9)
	movups	%xmm1, 880(%r9)
	movq	832(%r9), %r10
	movq	%r10, 872(%r9)
	movups	800(%r9), %xmm1
	movups	816(%r9), %xmm2
	movups	%xmm2, 856(%r9)
	movups	%xmm1, 840(%r9)
	movq	792(%r9), %r10
	movq	%r10, 832(%r9)
	movups	760(%r9), %xmm1
	movups	776(%r9), %xmm2
	movups	%xmm2, 816(%r9)
	movups	%xmm1, 800(%r9)
	movq	752(%r9), %r10
	movq	%r10, 792(%r9)
	movups	720(%r9), %xmm1
	movups	736(%r9), %xmm2
	movups	%xmm2, 776(%r9)
	movups	%xmm1, 760(%r9)
	movq	712(%r9), %r10
	movq	%r10, 752(%r9)
	movups	680(%r9), %xmm1
	movups	696(%r9), %xmm2
	movups	%xmm2, 736(%r9)
	movups	%xmm1, 720(%r9)
	movq	672(%r9), %r10
	movq	%r10, 712(%r9)
	movups	640(%r9), %xmm1
	movups	656(%r9), %xmm2
	movups	%xmm2, 696(%r9)
	movups	%xmm1, 680(%r9)
	movq	632(%r9), %r10
	movq	%r10, 672(%r9)
	movups	600(%r9), %xmm1
	movups	616(%r9), %xmm2
	movups	%xmm2, 656(%r9)
	movups	%xmm1, 640(%r9)
	movq	592(%r9), %r10
	movq	%r10, 632(%r9)
	movups	560(%r9), %xmm1
	movups	576(%r9), %xmm2
	movups	%xmm2, 616(%r9)
	movups	%xmm1, 600(%r9)
	movq	552(%r9), %r10
	movq	%r10, 592(%r9)
	movups	520(%r9), %xmm1
	movups	536(%r9), %xmm2
	movups	%xmm2, 576(%r9)
	movups	%xmm1, 560(%r9)
	movq	512(%r9), %r10
	movq	%r10, 552(%r9)
	movups	480(%r9), %xmm1
	movups	496(%r9), %xmm2
	movups	%xmm2, 536(%r9)
	movups	%xmm1, 520(%r9)
	movq	472(%r9), %r10
	movq	%r10, 512(%r9)
	movups	440(%r9), %xmm1
	movups	456(%r9), %xmm2
	movups	%xmm2, 496(%r9)
	movups	%xmm1, 480(%r9)
	movq	432(%r9), %r10
	movq	%r10, 472(%r9)
	movups	400(%r9), %xmm1
	movups	416(%r9), %xmm2
	movups	%xmm2, 456(%r9)
	movups	%xmm1, 440(%r9)
	movq	392(%r9), %r10
	movq	%r10, 432(%r9)
	movups	360(%r9), %xmm1
	movups	376(%r9), %xmm2
	movups	%xmm2, 416(%r9)
	movups	%xmm1, 400(%r9)
	movq	352(%r9), %r10
	movq	%r10, 392(%r9)
	movups	320(%r9), %xmm1
	movups	336(%r9), %xmm2
	movups	%xmm2, 376(%r9)
	movups	%xmm1, 360(%r9)
	movq	312(%r9), %r10
	movq	%r10, 352(%r9)
	movups	280(%r9), %xmm1
	movups	296(%r9), %xmm2
	movups	%xmm2, 336(%r9)
	movups	%xmm1, 320(%r9)
	movq	272(%r9), %r10
	movq	%r10, 312(%r9)
	movups	240(%r9), %xmm1
	movups	256(%r9), %xmm2
	movups	%xmm2, 296(%r9)
	movups	%xmm1, 280(%r9)
	movq	232(%r9), %r10
	movq	%r10, 272(%r9)
	movups	200(%r9), %xmm1
	movups	216(%r9), %xmm2
	movups	%xmm2, 256(%r9)
	movups	%xmm1, 240(%r9)
	movq	192(%r9), %r10
	movq	%r10, 232(%r9)
	movups	160(%r9), %xmm1
	movups	176(%r9), %xmm2
	movups	%xmm2, 216(%r9)
	movups	%xmm1, 200(%r9)
	movq	152(%r9), %r10
	movq	%r10, 192(%r9)
	movups	120(%r9), %xmm1
	movups	136(%r9), %xmm2
	movups	%xmm2, 176(%r9)
	movups	%xmm1, 160(%r9)
	movq	112(%r9), %r10
	movq	%r10, 152(%r9)
	movups	80(%r9), %xmm1
	movups	96(%r9), %xmm2
	movups	%xmm2, 136(%r9)
	movups	%xmm1, 120(%r9)
	movq	72(%r9), %r10
	movq	%r10, 112(%r9)
	movups	40(%r9), %xmm1
	movups	56(%r9), %xmm2
	movups	%xmm2, 96(%r9)
	movups	%xmm1, 80(%r9)
	movq	32(%r9), %r10
	movq	%r10, 72(%r9)
	movups	(%r9), %xmm1
	movups	16(%r9), %xmm2
	movups	%xmm2, 56(%r9)
	movups	%xmm1, 40(%r9)
	movq	-8(%r9), %r10
	movq	%r10, 32(%r9)
	movups	-40(%r9), %xmm1
	movups	-24(%r9), %xmm2
	movups	%xmm2, 16(%r9)
	movups	%xmm1, (%r9)
	jmp	4b
6:
	testq	%rdx, %rdx
	je	16f
	movl	%edx, %r8d
	andl	$3, %r8d
	cmpq	$3, %rcx
	jae	12f
	xorl	%ecx, %ecx
	jmp	14f
7:
	cmpq	%r9, %rdx
	je	16f
	leaq	(%rcx,%rcx,4), %rdx
	subq	%r8, %rcx
	addq	$-50, %rcx
	leaq	(%rax,%rdx,8), %rdx
	.p2align	4
8:
	movq	-8(%rdx), %r8
	movq	%r8, 32(%rdx)
	movups	-40(%rdx), %xmm1
	movups	-24(%rdx), %xmm2
	movups	%xmm2, 16(%rdx)
	movups	%xmm1, (%rdx)
	addq	$-40, %rdx
	decq	%rcx
	jne	8b
	jmp	16f
9:
	movq	%r9, %r10
	andq	$-2, %r10
	leaq	(%rcx,%rcx,4), %rcx
	leaq	(%rax,%rcx,8), %r11
	xorl	%ecx, %ecx
	.p2align	4
10:
	movq	-8(%r11), %rbx
	movq	%rbx, 32(%r11)
	movups	-40(%r11), %xmm1
	movups	-24(%r11), %xmm2
	movups	%xmm2, 16(%r11)
	movups	%xmm1, (%r11)
	movabsq	$2305843009213693950, %rbx
	xorq	%rcx, %rbx
	addq	%r9, %rbx
	shlq	$3, %rbx
	leaq	(%rbx,%rbx,4), %rbx
	movq	32(%rdx,%rbx), %r14
	movq	%r14, 32(%r8,%rbx)
	movups	(%rdx,%rbx), %xmm1
	movups	16(%rdx,%rbx), %xmm2
	movups	%xmm2, 16(%r8,%rbx)
	movups	%xmm1, (%r8,%rbx)
	addq	$2, %rcx
	addq	$-80, %r11
	cmpq	%rcx, %r10
	jne	10b
	testb	$1, %r9b
	je	16f
11:
	notq	%rcx
	addq	%rcx, %r9
	shlq	$3, %r9
	leaq	(%r9,%r9,4), %rcx
	movq	32(%rdx,%rcx), %r9
	movq	%r9, 32(%r8,%rcx)
	movups	(%rdx,%rcx), %xmm1
	movups	16(%rdx,%rcx), %xmm2
	movups	%xmm2, 16(%r8,%rcx)
	movups	%xmm1, (%r8,%rcx)
	jmp	16f
12:
	andl	$60, %edx
	leaq	(,%rsi,8), %rcx
	leaq	(%rcx,%rcx,4), %r9
	xorl	%ecx, %ecx
	movq	%rax, %r10
	.p2align	4
13:
	movq	32(%r10,%r9), %r11
	movq	%r11, 32(%r10)
	movups	(%r10,%r9), %xmm1
	movups	16(%r10,%r9), %xmm2
	movups	%xmm2, 16(%r10)
	movups	%xmm1, (%r10)
	movq	72(%r10,%r9), %r11
	movq	%r11, 72(%r10)
	movups	40(%r10,%r9), %xmm1
	movups	56(%r10,%r9), %xmm2
	movups	%xmm2, 56(%r10)
	movups	%xmm1, 40(%r10)
	movq	112(%r10,%r9), %r11
	movq	%r11, 112(%r10)
	movups	80(%r10,%r9), %xmm1
	movups	96(%r10,%r9), %xmm2
	movups	%xmm2, 96(%r10)
	movups	%xmm1, 80(%r10)
	movups	120(%r10,%r9), %xmm1
	movups	136(%r10,%r9), %xmm2
	movups	%xmm1, 120(%r10)
	movups	%xmm2, 136(%r10)
	movq	152(%r10,%r9), %r11
	movq	%r11, 152(%r10)
	addq	$4, %rcx
	addq	$160, %r10
	cmpq	%rcx, %rdx
	jne	13b
	testq	%r8, %r8
	je	16f
14:
	shlq	$3, %rcx
	leaq	(%rcx,%rcx,4), %rcx
	leaq	(%rsi,%rsi,4), %rdx
	leaq	(%rcx,%rdx,8), %rdx
	addq	%rax, %rdx
	addq	%rax, %rcx
	shll	$3, %r8d
	leaq	(%r8,%r8,4), %r8
	xorl	%r9d, %r9d
	.p2align	4
15:
	movq	32(%rdx,%r9), %r10
	movq	%r10, 32(%rcx,%r9)
	movups	(%rdx,%r9), %xmm1
	movups	16(%rdx,%r9), %xmm2
	movups	%xmm2, 16(%rcx,%r9)
	movups	%xmm1, (%rcx,%r9)
	addq	$40, %r9
	cmpq	%r9, %r8
	jne	15b
16:
	leaq	(%rsi,%rsi,4), %rcx
	movq	-8(%rsp), %rdx
	movq	%rdx, 32(%rax,%rcx,8)
	movaps	-40(%rsp), %xmm1
	movaps	-24(%rsp), %xmm2
	movups	%xmm2, 16(%rax,%rcx,8)
	movups	%xmm1, (%rax,%rcx,8)
	movq	%rax, (%rdi)
	paddq	1b(%rip), %xmm0
	movdqu	%xmm0, 8(%rdi)
	popq	%rbx
	popq	%r14
	retq
17:
	.size	"std_alloc::vec::lodged::Vec+T+Lodged::insert_reserved::<39'(,,)::<i64,3'&[](*,i64,),3'&[](*,i64,)>>", 17b-"std_alloc::vec::lodged::Vec+T+Lodged::insert_reserved::<39'(,,)::<i64,3'&[](*,i64,),3'&[](*,i64,)>>"

	.text
	.p2align	4
	.type	"std_alloc::vec::opened::drop_run::<#2dfd7e2cc785f18c>",@function
"std_alloc::vec::opened::drop_run::<#2dfd7e2cc785f18c>":
	pushq	%rbp
	pushq	%r15
	pushq	%r14
	pushq	%r13
	pushq	%r12
	pushq	%rbx
	subq	$40, %rsp
	movq	%rdx, 24(%rsp)
	cmpq	%rdx, %rsi
	jae	8f
	movq	%rsi, %r14
	movq	%rdi, %r15
	movq	%rdi, 16(%rsp)
	jmp	2f
	.p2align	4
1:
	incq	%r14
	cmpq	24(%rsp), %r14
	movq	16(%rsp), %r15
	je	8f
2:
	movq	%r14, %rax
	shlq	$4, %rax
	leaq	(%rax,%rax,4), %rax
	movq	56(%r15,%rax), %rcx
	movq	%rcx, 8(%rsp)
	movq	64(%r15,%rax), %rbx
	movq	72(%r15,%rax), %rcx
	movq	%rcx, 32(%rsp)
	cmpb	$0, 8(%r15,%rax)
	je	3f
	cmpq	$0, 32(%r15,%rax)
	je	3f
	movq	16(%r15,%rax), %rdi
	callq	rattle_dealloc@PLT
3:
	testq	%rbx, %rbx
	je	7f
	movq	8(%rsp), %rax
	leaq	80(%rax), %rbp
	jmp	5f
	.p2align	4
4:
	addq	$88, %rbp
	decq	%rbx
	je	7f
5:
	cmpb	$0, -72(%rbp)
	jne	4b
	movzbl	-24(%rbp), %r15d
	movq	-16(%rbp), %r13
	movq	(%rbp), %r12
	cmpq	$0, -32(%rbp)
	je	6f
	movq	-48(%rbp), %rdi
	callq	rattle_dealloc@PLT
6:
	testb	%r15b, %r15b
	je	4b
	testq	%r12, %r12
	je	4b
	movq	%r13, %rdi
	callq	rattle_dealloc@PLT
	jmp	4b
	.p2align	4
7:
	cmpq	$0, 32(%rsp)
	je	1b
	movq	8(%rsp), %rdi
	callq	rattle_dealloc@PLT
	jmp	1b
8:
	addq	$40, %rsp
	popq	%rbx
	popq	%r12
	popq	%r13
	popq	%r14
	popq	%r15
	popq	%rbp
	retq
9:
	.size	"std_alloc::vec::opened::drop_run::<#2dfd7e2cc785f18c>", 9b-"std_alloc::vec::opened::drop_run::<#2dfd7e2cc785f18c>"
