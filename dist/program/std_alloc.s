# Made by dist/refresh of what is proved.

	.text
	.p2align	4
	.type	"std_alloc::boxed::Box::drop::<#02fc8b7b85195ce8>",@function
"std_alloc::boxed::Box::drop::<#02fc8b7b85195ce8>":
	pushq	%rbp
	pushq	%r15
	pushq	%r14
	pushq	%r13
	pushq	%r12
	pushq	%rbx
	subq	$248, %rsp
	movq	16(%rdi), %rbp
	movq	40(%rdi), %rax
	movq	%rax, 8(%rsp)
	movq	56(%rdi), %rbx
	movq	64(%rdi), %rax
	movq	%rax, 16(%rsp)
	movq	80(%rdi), %r12
	movq	88(%rdi), %rax
	movq	%rax, 24(%rsp)
	movq	104(%rdi), %r14
	movq	112(%rdi), %rax
	movq	%rax, 32(%rsp)
	movq	128(%rdi), %r15
	movq	136(%rdi), %rax
	movq	%rax, 40(%rsp)
	movq	152(%rdi), %rax
	movq	%rax, 144(%rsp)
	movq	176(%rdi), %rax
	movq	%rax, 48(%rsp)
	movq	192(%rdi), %rax
	movq	%rax, 152(%rsp)
	movq	200(%rdi), %rax
	movq	%rax, 56(%rsp)
	movq	216(%rdi), %rax
	movq	%rax, 160(%rsp)
	movq	224(%rdi), %rax
	movq	%rax, 64(%rsp)
	movq	240(%rdi), %rax
	movq	%rax, 168(%rsp)
	movq	248(%rdi), %rax
	movq	%rax, 72(%rsp)
	movq	264(%rdi), %rax
	movq	%rax, 176(%rsp)
	movq	272(%rdi), %rax
	movq	%rax, 80(%rsp)
	movq	288(%rdi), %rax
	movq	%rax, 184(%rsp)
	movq	296(%rdi), %rax
	movq	%rax, 88(%rsp)
	movq	312(%rdi), %rax
	movq	%rax, 192(%rsp)
	movq	336(%rdi), %rax
	movq	%rax, 96(%rsp)
	movq	352(%rdi), %rax
	movq	%rax, 200(%rsp)
	movq	360(%rdi), %rax
	movq	%rax, 104(%rsp)
	movq	376(%rdi), %rax
	movq	%rax, 208(%rsp)
	movq	384(%rdi), %rax
	movq	%rax, 112(%rsp)
	movq	400(%rdi), %rax
	movq	%rax, 216(%rsp)
	movq	408(%rdi), %rax
	movq	%rax, 120(%rsp)
	movq	424(%rdi), %rax
	movq	%rax, 224(%rsp)
	movq	432(%rdi), %rax
	movq	%rax, 128(%rsp)
	movq	448(%rdi), %rax
	movq	%rax, 232(%rsp)
	movq	456(%rdi), %rax
	movq	%rax, 136(%rsp)
	movq	472(%rdi), %rax
	movq	%rax, 240(%rsp)
	movq	32(%rdi), %r13
	callq	rattle_dealloc@PLT
	testq	%r13, %r13
	je	1f
	movq	%rbp, %rdi
	callq	rattle_dealloc@PLT
1:
	testq	%rbx, %rbx
	je	2f
	movq	8(%rsp), %rdi
	callq	rattle_dealloc@PLT
2:
	testq	%r12, %r12
	je	3f
	movq	16(%rsp), %rdi
	callq	rattle_dealloc@PLT
3:
	testq	%r14, %r14
	je	4f
	movq	24(%rsp), %rdi
	callq	rattle_dealloc@PLT
4:
	testq	%r15, %r15
	je	5f
	movq	32(%rsp), %rdi
	callq	rattle_dealloc@PLT
5:
	cmpq	$0, 144(%rsp)
	je	6f
	movq	40(%rsp), %rdi
	callq	rattle_dealloc@PLT
6:
	cmpq	$0, 152(%rsp)
	je	7f
	movq	48(%rsp), %rdi
	callq	rattle_dealloc@PLT
7:
	cmpq	$0, 160(%rsp)
	je	8f
	movq	56(%rsp), %rdi
	callq	rattle_dealloc@PLT
8:
	cmpq	$0, 168(%rsp)
	je	9f
	movq	64(%rsp), %rdi
	callq	rattle_dealloc@PLT
9:
	cmpq	$0, 176(%rsp)
	je	10f
	movq	72(%rsp), %rdi
	callq	rattle_dealloc@PLT
10:
	cmpq	$0, 184(%rsp)
	je	11f
	movq	80(%rsp), %rdi
	callq	rattle_dealloc@PLT
11:
	cmpq	$0, 192(%rsp)
	je	12f
	movq	88(%rsp), %rdi
	callq	rattle_dealloc@PLT
12:
	cmpq	$0, 200(%rsp)
	je	13f
	movq	96(%rsp), %rdi
	callq	rattle_dealloc@PLT
13:
	cmpq	$0, 208(%rsp)
	je	14f
	movq	104(%rsp), %rdi
	callq	rattle_dealloc@PLT
14:
	cmpq	$0, 216(%rsp)
	je	15f
	movq	112(%rsp), %rdi
	callq	rattle_dealloc@PLT
15:
	cmpq	$0, 224(%rsp)
	je	16f
	movq	120(%rsp), %rdi
	callq	rattle_dealloc@PLT
16:
	cmpq	$0, 232(%rsp)
	je	17f
	movq	128(%rsp), %rdi
	callq	rattle_dealloc@PLT
17:
	cmpq	$0, 240(%rsp)
	je	18f
	movq	136(%rsp), %rdi
	addq	$248, %rsp
	popq	%rbx
	popq	%r12
	popq	%r13
	popq	%r14
	popq	%r15
	popq	%rbp
	jmp	rattle_dealloc@PLT
18:
	addq	$248, %rsp
	popq	%rbx
	popq	%r12
	popq	%r13
	popq	%r14
	popq	%r15
	popq	%rbp
	retq
19:
	.size	"std_alloc::boxed::Box::drop::<#02fc8b7b85195ce8>", 19b-"std_alloc::boxed::Box::drop::<#02fc8b7b85195ce8>"

	.text
	.p2align	4
	.type	"std_alloc::boxed::Box::drop::<#11c05536263c65f8>",@function
"std_alloc::boxed::Box::drop::<#11c05536263c65f8>":
	pushq	%r14
	pushq	%rbx
	subq	$360, %rsp
	movq	%rdi, %rbx
	leaq	8(%rsp), %r14
	movl	$352, %edx
	movq	%r14, %rdi
	movq	%rbx, %rsi
	callq	memcpy@PLT
	movq	%rbx, %rdi
	callq	rattle_dealloc@PLT
	movq	%r14, %rdi
	callq	"mime_lookup::mime_lookup++read_back++names++IndexedNames+Destruct::drop"
	addq	$360, %rsp
	popq	%rbx
	popq	%r14
	retq
1:
	.size	"std_alloc::boxed::Box::drop::<#11c05536263c65f8>", 1b-"std_alloc::boxed::Box::drop::<#11c05536263c65f8>"

	.text
	.p2align	4
	.type	"std_alloc::boxed::Box::drop::<#2a53b42b743d619c>",@function
"std_alloc::boxed::Box::drop::<#2a53b42b743d619c>":
	pushq	%rbp
	pushq	%r15
	pushq	%r14
	pushq	%r13
	pushq	%r12
	pushq	%rbx
	subq	$152, %rsp
	movq	16(%rdi), %rbp
	movq	40(%rdi), %r13
	movq	56(%rdi), %rbx
	movq	64(%rdi), %rax
	movq	%rax, 8(%rsp)
	movq	80(%rdi), %r12
	movq	88(%rdi), %rax
	movq	%rax, 16(%rsp)
	movq	104(%rdi), %r14
	movq	112(%rdi), %rax
	movq	%rax, 24(%rsp)
	movq	128(%rdi), %rax
	movq	%rax, 88(%rsp)
	movq	136(%rdi), %rax
	movq	%rax, 32(%rsp)
	movq	152(%rdi), %rax
	movq	%rax, 96(%rsp)
	movq	176(%rdi), %rax
	movq	%rax, 40(%rsp)
	movq	192(%rdi), %rax
	movq	%rax, 104(%rsp)
	movq	200(%rdi), %rax
	movq	%rax, 48(%rsp)
	movq	216(%rdi), %rax
	movq	%rax, 112(%rsp)
	movq	224(%rdi), %rax
	movq	%rax, 56(%rsp)
	movq	240(%rdi), %rax
	movq	%rax, 120(%rsp)
	movq	248(%rdi), %rax
	movq	%rax, 64(%rsp)
	movq	264(%rdi), %rax
	movq	%rax, 128(%rsp)
	movq	272(%rdi), %rax
	movq	%rax, 72(%rsp)
	movq	288(%rdi), %rax
	movq	%rax, 136(%rsp)
	movq	296(%rdi), %rax
	movq	%rax, 80(%rsp)
	movq	312(%rdi), %rax
	movq	%rax, 144(%rsp)
	movq	32(%rdi), %r15
	callq	rattle_dealloc@PLT
	testq	%r15, %r15
	je	1f
	movq	%rbp, %rdi
	callq	rattle_dealloc@PLT
1:
	testq	%rbx, %rbx
	je	2f
	movq	%r13, %rdi
	callq	rattle_dealloc@PLT
2:
	testq	%r12, %r12
	je	3f
	movq	8(%rsp), %rdi
	callq	rattle_dealloc@PLT
3:
	testq	%r14, %r14
	je	4f
	movq	16(%rsp), %rdi
	callq	rattle_dealloc@PLT
4:
	cmpq	$0, 88(%rsp)
	je	5f
	movq	24(%rsp), %rdi
	callq	rattle_dealloc@PLT
5:
	cmpq	$0, 96(%rsp)
	je	6f
	movq	32(%rsp), %rdi
	callq	rattle_dealloc@PLT
6:
	cmpq	$0, 104(%rsp)
	je	7f
	movq	40(%rsp), %rdi
	callq	rattle_dealloc@PLT
7:
	cmpq	$0, 112(%rsp)
	je	8f
	movq	48(%rsp), %rdi
	callq	rattle_dealloc@PLT
8:
	cmpq	$0, 120(%rsp)
	je	9f
	movq	56(%rsp), %rdi
	callq	rattle_dealloc@PLT
9:
	cmpq	$0, 128(%rsp)
	je	10f
	movq	64(%rsp), %rdi
	callq	rattle_dealloc@PLT
10:
	cmpq	$0, 136(%rsp)
	je	11f
	movq	72(%rsp), %rdi
	callq	rattle_dealloc@PLT
11:
	cmpq	$0, 144(%rsp)
	je	12f
	movq	80(%rsp), %rdi
	addq	$152, %rsp
	popq	%rbx
	popq	%r12
	popq	%r13
	popq	%r14
	popq	%r15
	popq	%rbp
	jmp	rattle_dealloc@PLT
12:
	addq	$152, %rsp
	popq	%rbx
	popq	%r12
	popq	%r13
	popq	%r14
	popq	%r15
	popq	%rbp
	retq
13:
	.size	"std_alloc::boxed::Box::drop::<#2a53b42b743d619c>", 13b-"std_alloc::boxed::Box::drop::<#2a53b42b743d619c>"

	.text
	.p2align	4
	.type	"std_alloc::boxed::Box::drop::<#d2a52521aa2f4aea>",@function
"std_alloc::boxed::Box::drop::<#d2a52521aa2f4aea>":
	pushq	%rbp
	pushq	%r15
	pushq	%r14
	pushq	%r13
	pushq	%r12
	pushq	%rbx
	subq	$40, %rsp
	movzbl	40(%rdi), %eax
	movb	%al, 15(%rsp)
	movq	48(%rdi), %rax
	movq	%rax, 32(%rsp)
	movq	16(%rdi), %rax
	movq	%rax, 16(%rsp)
	movq	24(%rdi), %rbx
	movq	32(%rdi), %rax
	movq	%rax, 24(%rsp)
	callq	rattle_dealloc@PLT
	testq	%rbx, %rbx
	je	5f
	movq	16(%rsp), %rax
	leaq	88(%rax), %rbp
	jmp	2f
	.p2align	4
1:
	addq	$104, %rbp
	decq	%rbx
	je	5f
2:
	movq	-40(%rbp), %r12
	movq	-24(%rbp), %r14
	movq	-16(%rbp), %r15
	movq	(%rbp), %r13
	cmpq	$0, -48(%rbp)
	je	3f
	movq	-64(%rbp), %rdi
	callq	rattle_dealloc@PLT
3:
	testq	%r14, %r14
	je	4f
	movq	%r12, %rdi
	callq	rattle_dealloc@PLT
4:
	testq	%r13, %r13
	je	1b
	movq	%r15, %rdi
	callq	rattle_dealloc@PLT
	jmp	1b
5:
	cmpq	$0, 24(%rsp)
	je	6f
	movq	16(%rsp), %rdi
	callq	rattle_dealloc@PLT
6:
	movzbl	15(%rsp), %edi
	movq	32(%rsp), %rsi
	addq	$40, %rsp
	popq	%rbx
	popq	%r12
	popq	%r13
	popq	%r14
	popq	%r15
	popq	%rbp
	jmp	"clap::core++option++Option+Destruct::drop::<#6d0680e8511e5366>"
7:
	.size	"std_alloc::boxed::Box::drop::<#d2a52521aa2f4aea>", 7b-"std_alloc::boxed::Box::drop::<#d2a52521aa2f4aea>"

	.text
	.p2align	4
	.type	"std_alloc::boxed::Box::drop::<#e973df45dd2be47d>",@function
"std_alloc::boxed::Box::drop::<#e973df45dd2be47d>":
	pushq	%rbp
	pushq	%r15
	pushq	%r14
	pushq	%r13
	pushq	%r12
	pushq	%rbx
	subq	$88, %rsp
	movq	(%rdi), %r14
	movq	24(%rdi), %rbx
	movq	40(%rdi), %rbp
	movq	48(%rdi), %rax
	movq	%rax, 8(%rsp)
	movq	64(%rdi), %r15
	movq	72(%rdi), %rax
	movq	%rax, 16(%rsp)
	movq	88(%rdi), %r12
	movq	96(%rdi), %rax
	movq	%rax, 24(%rsp)
	movq	112(%rdi), %rax
	movq	%rax, 56(%rsp)
	movq	120(%rdi), %rax
	movq	%rax, 32(%rsp)
	movq	136(%rdi), %rax
	movq	%rax, 64(%rsp)
	movq	144(%rdi), %rax
	movq	%rax, 40(%rsp)
	movq	160(%rdi), %rax
	movq	%rax, 72(%rsp)
	movq	168(%rdi), %rax
	movq	%rax, 48(%rsp)
	movq	184(%rdi), %rax
	movq	%rax, 80(%rsp)
	movq	16(%rdi), %r13
	callq	rattle_dealloc@PLT
	testq	%r13, %r13
	je	1f
	movq	%r14, %rdi
	callq	rattle_dealloc@PLT
1:
	testq	%rbp, %rbp
	je	2f
	movq	%rbx, %rdi
	callq	rattle_dealloc@PLT
2:
	testq	%r15, %r15
	je	3f
	movq	8(%rsp), %rdi
	callq	rattle_dealloc@PLT
3:
	testq	%r12, %r12
	je	4f
	movq	16(%rsp), %rdi
	callq	rattle_dealloc@PLT
4:
	cmpq	$0, 56(%rsp)
	je	5f
	movq	24(%rsp), %rdi
	callq	rattle_dealloc@PLT
5:
	cmpq	$0, 64(%rsp)
	je	6f
	movq	32(%rsp), %rdi
	callq	rattle_dealloc@PLT
6:
	cmpq	$0, 72(%rsp)
	je	7f
	movq	40(%rsp), %rdi
	callq	rattle_dealloc@PLT
7:
	cmpq	$0, 80(%rsp)
	je	8f
	movq	48(%rsp), %rdi
	addq	$88, %rsp
	popq	%rbx
	popq	%r12
	popq	%r13
	popq	%r14
	popq	%r15
	popq	%rbp
	jmp	rattle_dealloc@PLT
8:
	addq	$88, %rsp
	popq	%rbx
	popq	%r12
	popq	%r13
	popq	%r14
	popq	%r15
	popq	%rbp
	retq
9:
	.size	"std_alloc::boxed::Box::drop::<#e973df45dd2be47d>", 9b-"std_alloc::boxed::Box::drop::<#e973df45dd2be47d>"

	.text
	.p2align	4
	.type	"std_alloc::boxed::Box::drop::<#fbe121e601c74963>",@function
"std_alloc::boxed::Box::drop::<#fbe121e601c74963>":
	pushq	%rbp
	pushq	%r15
	pushq	%r14
	pushq	%r13
	pushq	%r12
	pushq	%rbx
	subq	$168, %rsp
	movq	16(%rdi), %rbx
	movq	40(%rdi), %rbp
	movq	56(%rdi), %r14
	movq	64(%rdi), %rax
	movq	%rax, 8(%rsp)
	movq	80(%rdi), %r13
	movq	88(%rdi), %rax
	movq	%rax, 16(%rsp)
	movq	104(%rdi), %r15
	movq	112(%rdi), %rax
	movq	%rax, 24(%rsp)
	movq	128(%rdi), %rax
	movq	%rax, 96(%rsp)
	movq	136(%rdi), %rax
	movq	%rax, 32(%rsp)
	movq	152(%rdi), %rax
	movq	%rax, 104(%rsp)
	movq	160(%rdi), %rax
	movq	%rax, 40(%rsp)
	movq	176(%rdi), %rax
	movq	%rax, 112(%rsp)
	movq	192(%rdi), %rax
	movq	%rax, 48(%rsp)
	movq	208(%rdi), %rax
	movq	%rax, 120(%rsp)
	movq	216(%rdi), %rax
	movq	%rax, 56(%rsp)
	movq	232(%rdi), %rax
	movq	%rax, 128(%rsp)
	movq	240(%rdi), %rax
	movq	%rax, 64(%rsp)
	movq	256(%rdi), %rax
	movq	%rax, 136(%rsp)
	movq	264(%rdi), %rax
	movq	%rax, 72(%rsp)
	movq	280(%rdi), %rax
	movq	%rax, 144(%rsp)
	movq	288(%rdi), %rax
	movq	%rax, 80(%rsp)
	movq	304(%rdi), %rax
	movq	%rax, 152(%rsp)
	movq	312(%rdi), %rax
	movq	%rax, 88(%rsp)
	movq	328(%rdi), %rax
	movq	%rax, 160(%rsp)
	movq	32(%rdi), %r12
	callq	rattle_dealloc@PLT
	testq	%r12, %r12
	je	1f
	movq	%rbx, %rdi
	callq	rattle_dealloc@PLT
1:
	testq	%r14, %r14
	je	2f
	movq	%rbp, %rdi
	callq	rattle_dealloc@PLT
2:
	testq	%r13, %r13
	je	3f
	movq	8(%rsp), %rdi
	callq	rattle_dealloc@PLT
3:
	testq	%r15, %r15
	je	4f
	movq	16(%rsp), %rdi
	callq	rattle_dealloc@PLT
4:
	cmpq	$0, 96(%rsp)
	je	5f
	movq	24(%rsp), %rdi
	callq	rattle_dealloc@PLT
5:
	cmpq	$0, 104(%rsp)
	je	6f
	movq	32(%rsp), %rdi
	callq	rattle_dealloc@PLT
6:
	cmpq	$0, 112(%rsp)
	je	7f
	movq	40(%rsp), %rdi
	callq	rattle_dealloc@PLT
7:
	cmpq	$0, 120(%rsp)
	je	8f
	movq	48(%rsp), %rdi
	callq	rattle_dealloc@PLT
8:
	cmpq	$0, 128(%rsp)
	je	9f
	movq	56(%rsp), %rdi
	callq	rattle_dealloc@PLT
9:
	cmpq	$0, 136(%rsp)
	je	10f
	movq	64(%rsp), %rdi
	callq	rattle_dealloc@PLT
10:
	cmpq	$0, 144(%rsp)
	je	11f
	movq	72(%rsp), %rdi
	callq	rattle_dealloc@PLT
11:
	cmpq	$0, 152(%rsp)
	je	12f
	movq	80(%rsp), %rdi
	callq	rattle_dealloc@PLT
12:
	cmpq	$0, 160(%rsp)
	je	13f
	movq	88(%rsp), %rdi
	addq	$168, %rsp
	popq	%rbx
	popq	%r12
	popq	%r13
	popq	%r14
	popq	%r15
	popq	%rbp
	jmp	rattle_dealloc@PLT
13:
	addq	$168, %rsp
	popq	%rbx
	popq	%r12
	popq	%r13
	popq	%r14
	popq	%r15
	popq	%rbp
	retq
14:
	.size	"std_alloc::boxed::Box::drop::<#fbe121e601c74963>", 14b-"std_alloc::boxed::Box::drop::<#fbe121e601c74963>"

	.text
	.p2align	4
	.type	"std_alloc::boxed::Box::new::<#d806f75603876adb>",@function
"std_alloc::boxed::Box::new::<#d806f75603876adb>":
	pushq	%r15
	pushq	%r14
	pushq	%r13
	pushq	%r12
	pushq	%rbx
	subq	$32, %rsp
	movq	%rdi, %rbx
	movq	(%rsi), %r14
	movq	8(%rsi), %r15
	movq	32(%rsi), %rax
	movq	%rax, 16(%rsp)
	movups	16(%rsi), %xmm0
	movaps	%xmm0, (%rsp)
	movzbl	40(%rsi), %r12d
	movq	48(%rsi), %r13
	movl	$56, %edi
	movl	$8, %esi
	callq	rattle_alloc@PLT
	testb	$1, %al
	je	1f
	movq	%r14, (%rdx)
	movq	%r15, 8(%rdx)
	movaps	(%rsp), %xmm0
	movups	%xmm0, 16(%rdx)
	movq	16(%rsp), %rax
	movq	%rax, 32(%rdx)
	movq	%r12, 40(%rdx)
	movq	%r13, 48(%rdx)
	xorps	%xmm0, %xmm0
	movups	%xmm0, 24(%rbx)
	movq	$0, 40(%rbx)
	xorl	%eax, %eax
	movq	%rdx, %r14
	xorl	%r15d, %r15d
	xorl	%r12d, %r12d
	xorl	%r13d, %r13d
	jmp	2f
1:
	movq	16(%rsp), %rax
	movq	%rax, 40(%rbx)
	movaps	(%rsp), %xmm0
	movups	%xmm0, 24(%rbx)
	movl	$1, %eax
2:
	movq	%rax, (%rbx)
	movq	%r14, 8(%rbx)
	movq	%r15, 16(%rbx)
	movq	%r12, 48(%rbx)
	movq	%r13, 56(%rbx)
	addq	$32, %rsp
	popq	%rbx
	popq	%r12
	popq	%r13
	popq	%r14
	popq	%r15
	retq
3:
	.size	"std_alloc::boxed::Box::new::<#d806f75603876adb>", 3b-"std_alloc::boxed::Box::new::<#d806f75603876adb>"

	.text
	.p2align	4
	.type	"std_alloc::string::String::format::<#004689434896fd94>",@function
"std_alloc::string::String::format::<#004689434896fd94>":
	pushq	%rbp
	pushq	%r15
	pushq	%r14
	pushq	%r13
	pushq	%r12
	pushq	%rbx
	subq	$152, %rsp
	movq	%rsi, %rax
	movq	%rdi, %rbx
	movq	(%rsi), %rsi
	movq	8(%rax), %rdx
	movq	16(%rax), %r15
	movq	24(%rax), %r14
	xorps	%xmm0, %xmm0
	movups	%xmm0, 127(%rsp)
	movaps	%xmm0, 112(%rsp)
	movups	%xmm0, 24(%rsp)
	movl	$0, 73(%rsp)
	movl	$0, 76(%rsp)
	leaq	15(%rsp), %r13
	movq	%r13, 16(%rsp)
	movl	$32, 40(%rsp)
	movq	$0, 44(%rsp)
	movl	$0, 52(%rsp)
	movq	$-1, 56(%rsp)
	movq	$0, 64(%rsp)
	movb	$0, 72(%rsp)
	movl	40(%rsp), %eax
	movl	%eax, 80(%rsp)
	movq	44(%rsp), %rax
	movq	%rax, 84(%rsp)
	movl	52(%rsp), %eax
	movl	%eax, 92(%rsp)
	movq	$-1, 96(%rsp)
	movl	$32, 40(%rsp)
	movq	$0, 44(%rsp)
	movl	$0, 52(%rsp)
	movq	24(%rsp), %rax
	movq	32(%rsp), %r12
	movq	%r12, %rcx
	subq	%rax, %rcx
	cmpq	%rcx, %rdx
	ja	18f
1:
	leaq	44(%rsp), %r11
	leaq	(%rax,%rdx), %rbp
	leaq	(%rax,%r13), %rdi
	movq	%rdi, %rcx
	subq	%rsi, %rcx
	cmpq	%rdx, %rcx
	jae	7f
	cmpq	$4, %rdx
	jb	2f
	cmpq	$32, %rcx
	jae	12f
2:
	xorl	%ecx, %ecx
3:
	movq	%rdx, %r9
	movq	%rcx, %r8
	andq	$3, %r9
	je	5f
	movq	%rcx, %r8
	.p2align	4
4:
	movzbl	(%rsi,%r8), %r10d
	movb	%r10b, (%rdi,%r8)
	incq	%r8
	decq	%r9
	jne	4b
5:
	subq	%rdx, %rcx
	cmpq	$-4, %rcx
	ja	8f
	addq	%r13, %rax
	addq	$3, %rax
	.p2align	4
6:
	movzbl	(%rsi,%r8), %ecx
	movb	%cl, -3(%rax,%r8)
	movzbl	1(%rsi,%r8), %ecx
	movb	%cl, -2(%rax,%r8)
	movzbl	2(%rsi,%r8), %ecx
	movb	%cl, -1(%rax,%r8)
	movzbl	3(%rsi,%r8), %ecx
	movb	%cl, (%rax,%r8)
	addq	$4, %r8
	cmpq	%r8, %rdx
	jne	6b
	jmp	8f
7:
	callq	memmove@PLT
	leaq	44(%rsp), %r11
8:
	movq	%rbp, 24(%rsp)
	movq	%r12, 32(%rsp)
	movl	$32, 40(%rsp)
	movl	$0, 8(%r11)
	movq	$0, (%r11)
	movq	$-1, 56(%rsp)
	cmpq	$0, 64(%rsp)
	jne	19f
	movq	%r12, %rax
	subq	%rbp, %rax
	cmpq	%rax, %r14
	ja	31f
9:
	leaq	(%r14,%rbp), %r9
	movq	%r13, %rdi
	addq	%rbp, %rdi
	movq	%rdi, %rax
	subq	%r15, %rax
	cmpq	%r14, %rax
	jae	10f
	cmpq	$4, %r14
	jae	11f
	xorl	%eax, %eax
	leaq	40(%rsp), %r8
	jmp	24f
10:
	movq	%r15, %rsi
	movq	%r14, %rdx
	movq	%r9, %r14
	callq	memmove@PLT
	movq	%r14, %r9
	leaq	40(%rsp), %r8
	jmp	28f
11:
	cmpq	$32, %rax
	leaq	40(%rsp), %r8
	jae	13f
	xorl	%eax, %eax
	jmp	24f
12:
	cmpq	$32, %rdx
	jae	14f
	xorl	%ecx, %ecx
	jmp	16f
13:
	cmpq	$32, %r14
	jae	20f
	xorl	%eax, %eax
	jmp	22f
14:
	movq	%rdx, %rcx
	andq	$-32, %rcx
	leaq	(%rax,%r13), %r8
	addq	$16, %r8
	xorl	%r9d, %r9d
	.p2align	4
15:
	movups	(%rsi,%r9), %xmm0
	movups	16(%rsi,%r9), %xmm1
	movups	%xmm0, -16(%r8,%r9)
	movups	%xmm1, (%r8,%r9)
	addq	$32, %r9
	cmpq	%r9, %rcx
	jne	15b
	cmpq	%rcx, %rdx
	je	8b
	testb	$28, %dl
	je	3b
16:
	movq	%rcx, %r8
	movq	%rdx, %rcx
	andq	$-4, %rcx
	.p2align	4
17:
	movl	(%rsi,%r8), %r9d
	movl	%r9d, (%rdi,%r8)
	addq	$4, %r8
	cmpq	%r8, %rcx
	jne	17b
	cmpq	%rcx, %rdx
	je	8b
	jmp	3b
18:
	movq	%rsi, 144(%rsp)
	leaq	16(%rsp), %rdi
	movq	%rdx, %rbp
	movq	%rdx, %rsi
	callq	"std_alloc::vec::Vec::grow_amortized::<#1d775b5957dec42c>"
	testb	%al, %al
	je	32f
	movq	16(%rsp), %r13
	movq	24(%rsp), %rax
	movq	32(%rsp), %r12
	movq	144(%rsp), %rsi
	movq	%rbp, %rdx
	jmp	1b
19:
	leaq	16(%rsp), %rdi
	movq	%r15, %rsi
	movq	%r14, %rdx
	callq	"core::fmt::formatter::Formatter::write_indented::<#0a7ff941e43d6b30>"
	movaps	80(%rsp), %xmm0
	leaq	40(%rsp), %rdx
	movups	%xmm0, (%rdx)
	movq	96(%rsp), %rcx
	movq	%rcx, 16(%rdx)
	testb	%al, %al
	jne	32f
	jmp	29f
20:
	movq	%r14, %rax
	andq	$-32, %rax
	leaq	16(,%r13), %rcx
	addq	%rbp, %rcx
	xorl	%edx, %edx
	.p2align	4
21:
	movups	(%r15,%rdx), %xmm0
	movups	16(%r15,%rdx), %xmm1
	movups	%xmm0, -16(%rcx,%rdx)
	movups	%xmm1, (%rcx,%rdx)
	addq	$32, %rdx
	cmpq	%rdx, %rax
	jne	21b
	cmpq	%rax, %r14
	je	28f
	testb	$28, %r14b
	je	24f
22:
	movq	%rax, %rcx
	movq	%r14, %rax
	andq	$-4, %rax
	.p2align	4
23:
	movl	(%r15,%rcx), %edx
	movl	%edx, (%rdi,%rcx)
	addq	$4, %rcx
	cmpq	%rcx, %rax
	jne	23b
	cmpq	%rax, %r14
	je	28f
24:
	movq	%r14, %rdx
	movq	%rax, %rcx
	andq	$3, %rdx
	je	26f
	movq	%rax, %rcx
	.p2align	4
25:
	movzbl	(%r15,%rcx), %esi
	movb	%sil, (%rdi,%rcx)
	incq	%rcx
	decq	%rdx
	jne	25b
26:
	subq	%r14, %rax
	cmpq	$-4, %rax
	ja	28f
	leaq	3(,%r13), %rax
	addq	%rbp, %rax
	.p2align	4
27:
	movzbl	(%r15,%rcx), %edx
	movb	%dl, -3(%rax,%rcx)
	movzbl	1(%r15,%rcx), %edx
	movb	%dl, -2(%rax,%rcx)
	movzbl	2(%r15,%rcx), %edx
	movb	%dl, -1(%rax,%rcx)
	movzbl	3(%r15,%rcx), %edx
	movb	%dl, (%rax,%rcx)
	addq	$4, %rcx
	cmpq	%rcx, %r14
	jne	27b
28:
	movq	%r9, 24(%rsp)
	movq	%r12, 32(%rsp)
	movq	96(%rsp), %rax
	movq	%rax, 16(%r8)
	movaps	80(%rsp), %xmm0
	movups	%xmm0, (%r8)
29:
	movq	32(%rsp), %rax
	movq	%rax, 135(%rsp)
	movq	16(%rsp), %rax
	movq	%rax, 119(%rsp)
	movq	24(%rsp), %rax
	movq	%rax, 127(%rsp)
	xorl	%ebp, %ebp
30:
	movb	%bpl, (%rbx)
	movq	119(%rsp), %rax
	movq	%rax, 8(%rbx)
	movq	127(%rsp), %rax
	movq	%rax, 16(%rbx)
	movq	135(%rsp), %rax
	movq	%rax, 24(%rbx)
	addq	$152, %rsp
	popq	%rbx
	popq	%r12
	popq	%r13
	popq	%r14
	popq	%r15
	popq	%rbp
	retq
31:
	leaq	16(%rsp), %rdi
	movq	%r14, %rsi
	callq	"std_alloc::vec::Vec::grow_amortized::<#1d775b5957dec42c>"
	testb	%al, %al
	je	32f
	movq	16(%rsp), %r13
	movq	24(%rsp), %rbp
	movq	32(%rsp), %r12
	jmp	9b
32:
	movb	$1, %bpl
	cmpq	$0, 32(%rsp)
	je	30b
	movq	16(%rsp), %rdi
	callq	rattle_dealloc@PLT
	jmp	30b
33:
	.size	"std_alloc::string::String::format::<#004689434896fd94>", 33b-"std_alloc::string::String::format::<#004689434896fd94>"

	.text
	.p2align	4
	.type	"std_alloc::string::String::format::<#404683268f87e58f>",@function
"std_alloc::string::String::format::<#404683268f87e58f>":
	pushq	%rbp
	pushq	%r15
	pushq	%r14
	pushq	%r13
	pushq	%r12
	pushq	%rbx
	subq	$184, %rsp
	movq	%rdi, %rbx
	xorps	%xmm0, %xmm0
	movups	%xmm0, 159(%rsp)
	movaps	%xmm0, 144(%rsp)
	movups	%xmm0, 24(%rsp)
	movl	$0, 73(%rsp)
	movl	$0, 76(%rsp)
	leaq	15(%rsp), %rax
	movq	%rax, 16(%rsp)
	movl	$32, 40(%rsp)
	movq	$0, 44(%rsp)
	movl	$0, 52(%rsp)
	movq	$-1, 56(%rsp)
	movq	$0, 64(%rsp)
	movb	$0, 72(%rsp)
	movq	16(%rsi), %rcx
	movq	%rcx, 128(%rsp)
	movups	(%rsi), %xmm0
	movaps	%xmm0, 112(%rsp)
	movl	40(%rsp), %ecx
	movl	%ecx, 80(%rsp)
	movq	44(%rsp), %rcx
	movq	%rcx, 84(%rsp)
	movl	52(%rsp), %ecx
	movl	%ecx, 92(%rsp)
	movq	$-1, 96(%rsp)
	movl	$32, 40(%rsp)
	movl	$0, 52(%rsp)
	movq	$0, 44(%rsp)
	movq	$-1, 56(%rsp)
	movl	$0, 52(%rsp)
	movq	$0, 44(%rsp)
	movq	112(%rsp), %rsi
	movq	120(%rsp), %rdx
	movq	24(%rsp), %rcx
	movq	32(%rsp), %r15
	movq	%r15, %rdi
	subq	%rcx, %rdi
	cmpq	%rdi, %rdx
	ja	17f
1:
	leaq	40(%rsp), %r12
	leaq	128(%rsp), %r14
	leaq	(%rcx,%rdx), %r13
	leaq	(%rax,%rcx), %rdi
	movq	%rdi, %r8
	subq	%rsi, %r8
	cmpq	%rdx, %r8
	jae	7f
	cmpq	$4, %rdx
	jb	2f
	cmpq	$32, %r8
	jae	12f
2:
	xorl	%r8d, %r8d
3:
	movq	%rdx, %r10
	movq	%r8, %r9
	andq	$3, %r10
	je	5f
	movq	%r8, %r9
	.p2align	4
4:
	movzbl	(%rsi,%r9), %r11d
	movb	%r11b, (%rdi,%r9)
	incq	%r9
	decq	%r10
	jne	4b
5:
	subq	%rdx, %r8
	cmpq	$-4, %r8
	ja	8f
	addq	%rcx, %rax
	addq	$3, %rax
	.p2align	4
6:
	movzbl	(%rsi,%r9), %ecx
	movb	%cl, -3(%rax,%r9)
	movzbl	1(%rsi,%r9), %ecx
	movb	%cl, -2(%rax,%r9)
	movzbl	2(%rsi,%r9), %ecx
	movb	%cl, -1(%rax,%r9)
	movzbl	3(%rsi,%r9), %ecx
	movb	%cl, (%rax,%r9)
	addq	$4, %r9
	cmpq	%r9, %rdx
	jne	6b
	jmp	8f
7:
	callq	memmove@PLT
8:
	movq	%r13, 24(%rsp)
	movq	%r15, 32(%rsp)
	leaq	16(%rsp), %rdi
	movq	%r14, %rsi
	callq	"core::fmt::formatter::Formatter::write_piece::<#0584b03bf03810b7>"
	movaps	80(%rsp), %xmm0
	movups	%xmm0, (%r12)
	movq	96(%rsp), %rcx
	movq	%rcx, 16(%r12)
	testb	%al, %al
	je	10f
9:
	movb	$1, %bpl
	cmpq	$0, 32(%rsp)
	je	11f
	movq	16(%rsp), %rdi
	callq	rattle_dealloc@PLT
	jmp	11f
10:
	movq	32(%rsp), %rax
	movq	%rax, 167(%rsp)
	movups	16(%rsp), %xmm0
	movups	%xmm0, 151(%rsp)
	xorl	%ebp, %ebp
11:
	movb	%bpl, (%rbx)
	movups	151(%rsp), %xmm0
	movups	%xmm0, 8(%rbx)
	movq	167(%rsp), %rax
	movq	%rax, 24(%rbx)
	addq	$184, %rsp
	popq	%rbx
	popq	%r12
	popq	%r13
	popq	%r14
	popq	%r15
	popq	%rbp
	retq
12:
	cmpq	$32, %rdx
	jae	13f
	xorl	%r8d, %r8d
	jmp	15f
13:
	movq	%rdx, %r8
	andq	$-32, %r8
	leaq	(%rcx,%rax), %r9
	addq	$16, %r9
	xorl	%r10d, %r10d
	.p2align	4
14:
	movups	(%rsi,%r10), %xmm0
	movups	16(%rsi,%r10), %xmm1
	movups	%xmm0, -16(%r9,%r10)
	movups	%xmm1, (%r9,%r10)
	addq	$32, %r10
	cmpq	%r10, %r8
	jne	14b
	cmpq	%r8, %rdx
	je	8b
	testb	$28, %dl
	je	3b
15:
	movq	%r8, %r9
	movq	%rdx, %r8
	andq	$-4, %r8
	.p2align	4
16:
	movl	(%rsi,%r9), %r10d
	movl	%r10d, (%rdi,%r9)
	addq	$4, %r9
	cmpq	%r9, %r8
	jne	16b
	cmpq	%r8, %rdx
	je	8b
	jmp	3b
17:
	movq	%rsi, %r14
	leaq	16(%rsp), %rdi
	movq	%rdx, %r12
	movq	%rdx, %rsi
	callq	"std_alloc::vec::Vec::grow_amortized::<#1d775b5957dec42c>"
	testb	%al, %al
	je	9b
	movq	16(%rsp), %rax
	movq	24(%rsp), %rcx
	movq	32(%rsp), %r15
	movq	%r14, %rsi
	movq	%r12, %rdx
	jmp	1b
18:
	.size	"std_alloc::string::String::format::<#404683268f87e58f>", 18b-"std_alloc::string::String::format::<#404683268f87e58f>"

	.text
	.p2align	4
	.type	"std_alloc::string::String::format::<#605efbca80f73881>",@function
"std_alloc::string::String::format::<#605efbca80f73881>":
	pushq	%rbp
	pushq	%r15
	pushq	%r14
	pushq	%r13
	pushq	%r12
	pushq	%rbx
	subq	$152, %rsp
	movq	%rsi, %rax
	movq	%rdi, 144(%rsp)
	movq	(%rsi), %rsi
	movq	8(%rax), %rdx
	movq	16(%rax), %rbx
	movq	24(%rax), %r15
	movq	32(%rax), %r14
	xorps	%xmm0, %xmm0
	movups	%xmm0, 127(%rsp)
	movaps	%xmm0, 112(%rsp)
	movups	%xmm0, 16(%rsp)
	movl	$0, 65(%rsp)
	movl	$0, 68(%rsp)
	leaq	7(%rsp), %rbp
	movq	%rbp, 8(%rsp)
	movl	$32, 32(%rsp)
	movq	$0, 36(%rsp)
	movl	$0, 44(%rsp)
	movq	$-1, 48(%rsp)
	movq	$0, 56(%rsp)
	movb	$0, 64(%rsp)
	movl	32(%rsp), %eax
	movl	%eax, 80(%rsp)
	movq	36(%rsp), %rax
	movq	%rax, 84(%rsp)
	movl	44(%rsp), %eax
	movl	%eax, 92(%rsp)
	movq	$-1, 96(%rsp)
	movl	$32, 32(%rsp)
	movq	$0, 36(%rsp)
	movl	$0, 44(%rsp)
	movq	16(%rsp), %rax
	movq	24(%rsp), %r13
	movq	%r13, %rcx
	subq	%rax, %rcx
	cmpq	%rcx, %rdx
	ja	35f
1:
	leaq	36(%rsp), %r11
	leaq	(%rax,%rdx), %r12
	leaq	(%rax,%rbp), %rdi
	movq	%rdi, %rcx
	subq	%rsi, %rcx
	cmpq	%rdx, %rcx
	jae	7f
	cmpq	$4, %rdx
	jb	2f
	cmpq	$32, %rcx
	jae	28f
2:
	xorl	%ecx, %ecx
3:
	movq	%rdx, %r9
	movq	%rcx, %r8
	andq	$3, %r9
	je	5f
	movq	%rcx, %r8
	.p2align	4
4:
	movzbl	(%rsi,%r8), %r10d
	movb	%r10b, (%rdi,%r8)
	incq	%r8
	decq	%r9
	jne	4b
5:
	subq	%rdx, %rcx
	cmpq	$-4, %rcx
	ja	8f
	addq	%rbp, %rax
	addq	$3, %rax
	.p2align	4
6:
	movzbl	(%rsi,%r8), %ecx
	movb	%cl, -3(%rax,%r8)
	movzbl	1(%rsi,%r8), %ecx
	movb	%cl, -2(%rax,%r8)
	movzbl	2(%rsi,%r8), %ecx
	movb	%cl, -1(%rax,%r8)
	movzbl	3(%rsi,%r8), %ecx
	movb	%cl, (%rax,%r8)
	addq	$4, %r8
	cmpq	%r8, %rdx
	jne	6b
	jmp	8f
7:
	callq	memmove@PLT
	leaq	36(%rsp), %r11
8:
	movq	%rbp, 8(%rsp)
	movq	%r12, 16(%rsp)
	movq	%r13, 24(%rsp)
	movl	$32, 32(%rsp)
	movl	$0, 8(%r11)
	movq	$0, (%r11)
	movq	$-1, 48(%rsp)
	movq	(%rbx), %rsi
	movq	8(%rbx), %rdx
	cmpq	$0, 56(%rsp)
	jne	36f
	movq	%r13, %rax
	subq	%r12, %rax
	cmpq	%rax, %rdx
	ja	41f
9:
	leaq	(%r12,%rdx), %rbx
	leaq	(%r12,%rbp), %rdi
	movq	%rdi, %rax
	subq	%rsi, %rax
	cmpq	%rdx, %rax
	jae	15f
	cmpq	$4, %rdx
	jb	10f
	cmpq	$32, %rax
	jae	29f
10:
	xorl	%eax, %eax
11:
	movq	%rdx, %r8
	movq	%rax, %rcx
	andq	$3, %r8
	je	13f
	movq	%rax, %rcx
	.p2align	4
12:
	movzbl	(%rsi,%rcx), %r9d
	movb	%r9b, (%rdi,%rcx)
	incq	%rcx
	decq	%r8
	jne	12b
13:
	subq	%rdx, %rax
	cmpq	$-4, %rax
	ja	16f
	leaq	(%r12,%rbp), %rax
	addq	$3, %rax
	.p2align	4
14:
	movzbl	(%rsi,%rcx), %edi
	movb	%dil, -3(%rax,%rcx)
	movzbl	1(%rsi,%rcx), %edi
	movb	%dil, -2(%rax,%rcx)
	movzbl	2(%rsi,%rcx), %edi
	movb	%dil, -1(%rax,%rcx)
	movzbl	3(%rsi,%rcx), %edi
	movb	%dil, (%rax,%rcx)
	addq	$4, %rcx
	cmpq	%rcx, %rdx
	jne	14b
	jmp	16f
15:
	callq	memmove@PLT
	leaq	36(%rsp), %r11
16:
	movq	%rbx, 16(%rsp)
	movq	%r13, 24(%rsp)
17:
	leaq	32(%rsp), %rbx
	movl	$32, 32(%rsp)
	movl	$0, 8(%r11)
	movq	$0, (%r11)
	movq	$-1, 48(%rsp)
	cmpq	$0, 56(%rsp)
	jne	42f
	movq	16(%rsp), %rax
	movq	24(%rsp), %r12
	movq	%r12, %rcx
	subq	%rax, %rcx
	cmpq	%rcx, %r14
	ja	47f
18:
	leaq	(%rax,%r14), %r13
	movq	8(%rsp), %rcx
	leaq	(%rcx,%rax), %rdi
	movq	%rdi, %rdx
	subq	%r15, %rdx
	cmpq	%r14, %rdx
	jae	24f
	cmpq	$4, %r14
	jb	19f
	cmpq	$32, %rdx
	jae	30f
19:
	xorl	%edx, %edx
20:
	movq	%r14, %r8
	movq	%rdx, %rsi
	andq	$3, %r8
	je	22f
	movq	%rdx, %rsi
	.p2align	4
21:
	movzbl	(%r15,%rsi), %r9d
	movb	%r9b, (%rdi,%rsi)
	incq	%rsi
	decq	%r8
	jne	21b
22:
	subq	%r14, %rdx
	cmpq	$-4, %rdx
	ja	25f
	addq	%rcx, %rax
	addq	$3, %rax
	.p2align	4
23:
	movzbl	(%r15,%rsi), %ecx
	movb	%cl, -3(%rax,%rsi)
	movzbl	1(%r15,%rsi), %ecx
	movb	%cl, -2(%rax,%rsi)
	movzbl	2(%r15,%rsi), %ecx
	movb	%cl, -1(%rax,%rsi)
	movzbl	3(%r15,%rsi), %ecx
	movb	%cl, (%rax,%rsi)
	addq	$4, %rsi
	cmpq	%rsi, %r14
	jne	23b
	jmp	25f
24:
	movq	%r15, %rsi
	movq	%r14, %rdx
	callq	memmove@PLT
25:
	movq	%r13, 16(%rsp)
	movq	%r12, 24(%rsp)
	movq	96(%rsp), %rax
	movq	%rax, 16(%rbx)
	movaps	80(%rsp), %xmm0
	movups	%xmm0, (%rbx)
26:
	movq	24(%rsp), %rax
	movq	%rax, 135(%rsp)
	movq	8(%rsp), %rax
	movq	%rax, 119(%rsp)
	movq	16(%rsp), %rax
	movq	%rax, 127(%rsp)
	xorl	%ebx, %ebx
27:
	movq	144(%rsp), %rcx
	movb	%bl, (%rcx)
	movq	119(%rsp), %rax
	movq	%rax, 8(%rcx)
	movq	127(%rsp), %rax
	movq	%rax, 16(%rcx)
	movq	135(%rsp), %rax
	movq	%rax, 24(%rcx)
	addq	$152, %rsp
	popq	%rbx
	popq	%r12
	popq	%r13
	popq	%r14
	popq	%r15
	popq	%rbp
	retq
28:
	cmpq	$32, %rdx
	jae	31f
	xorl	%ecx, %ecx
	jmp	33f
29:
	cmpq	$32, %rdx
	jae	37f
	xorl	%eax, %eax
	jmp	39f
30:
	cmpq	$32, %r14
	jae	43f
	xorl	%edx, %edx
	jmp	45f
31:
	movq	%rdx, %rcx
	andq	$-32, %rcx
	leaq	(%rax,%rbp), %r8
	addq	$16, %r8
	xorl	%r9d, %r9d
	.p2align	4
32:
	movups	(%rsi,%r9), %xmm0
	movups	16(%rsi,%r9), %xmm1
	movups	%xmm0, -16(%r8,%r9)
	movups	%xmm1, (%r8,%r9)
	addq	$32, %r9
	cmpq	%r9, %rcx
	jne	32b
	cmpq	%rcx, %rdx
	je	8b
	testb	$28, %dl
	je	3b
33:
	movq	%rcx, %r8
	movq	%rdx, %rcx
	andq	$-4, %rcx
	.p2align	4
34:
	movl	(%rsi,%r8), %r9d
	movl	%r9d, (%rdi,%r8)
	addq	$4, %r8
	cmpq	%r8, %rcx
	jne	34b
	cmpq	%rcx, %rdx
	je	8b
	jmp	3b
35:
	movq	%rsi, 72(%rsp)
	leaq	8(%rsp), %rdi
	movq	%rdx, %r12
	movq	%rdx, %rsi
	callq	"std_alloc::vec::Vec::grow_amortized::<#1d775b5957dec42c>"
	testb	%al, %al
	je	48f
	movq	8(%rsp), %rbp
	movq	16(%rsp), %rax
	movq	24(%rsp), %r13
	movq	72(%rsp), %rsi
	movq	%r12, %rdx
	jmp	1b
36:
	leaq	8(%rsp), %rdi
	callq	"core::fmt::formatter::Formatter::write_indented::<#0a7ff941e43d6b30>"
	leaq	36(%rsp), %r11
	testb	%al, %al
	jne	48f
	jmp	17b
37:
	movq	%rdx, %rax
	andq	$-32, %rax
	leaq	(%r12,%rbp), %rcx
	addq	$16, %rcx
	xorl	%r8d, %r8d
	.p2align	4
38:
	movups	(%rsi,%r8), %xmm0
	movups	16(%rsi,%r8), %xmm1
	movups	%xmm0, -16(%rcx,%r8)
	movups	%xmm1, (%rcx,%r8)
	addq	$32, %r8
	cmpq	%r8, %rax
	jne	38b
	cmpq	%rax, %rdx
	je	16b
	testb	$28, %dl
	je	11b
39:
	movq	%rax, %rcx
	movq	%rdx, %rax
	andq	$-4, %rax
	.p2align	4
40:
	movl	(%rsi,%rcx), %r8d
	movl	%r8d, (%rdi,%rcx)
	addq	$4, %rcx
	cmpq	%rcx, %rax
	jne	40b
	cmpq	%rax, %rdx
	je	16b
	jmp	11b
41:
	movq	%rsi, 72(%rsp)
	leaq	8(%rsp), %rdi
	movq	%rdx, %rbx
	movq	%rdx, %rsi
	callq	"std_alloc::vec::Vec::grow_amortized::<#1d775b5957dec42c>"
	leaq	36(%rsp), %r11
	testb	%al, %al
	je	48f
	movq	8(%rsp), %rbp
	movq	16(%rsp), %r12
	movq	24(%rsp), %r13
	movq	%rbx, %rdx
	movq	72(%rsp), %rsi
	jmp	9b
42:
	leaq	8(%rsp), %rdi
	movq	%r15, %rsi
	movq	%r14, %rdx
	callq	"core::fmt::formatter::Formatter::write_indented::<#0a7ff941e43d6b30>"
	movaps	80(%rsp), %xmm0
	movups	%xmm0, (%rbx)
	movq	96(%rsp), %rcx
	movq	%rcx, 16(%rbx)
	testb	%al, %al
	jne	48f
	jmp	26b
43:
	movq	%r14, %rdx
	andq	$-32, %rdx
	leaq	(%rax,%rcx), %rsi
	addq	$16, %rsi
	xorl	%r8d, %r8d
	.p2align	4
44:
	movups	(%r15,%r8), %xmm0
	movups	16(%r15,%r8), %xmm1
	movups	%xmm0, -16(%rsi,%r8)
	movups	%xmm1, (%rsi,%r8)
	addq	$32, %r8
	cmpq	%r8, %rdx
	jne	44b
	cmpq	%rdx, %r14
	je	25b
	testb	$28, %r14b
	je	20b
45:
	movq	%rdx, %rsi
	movq	%r14, %rdx
	andq	$-4, %rdx
	.p2align	4
46:
	movl	(%r15,%rsi), %r8d
	movl	%r8d, (%rdi,%rsi)
	addq	$4, %rsi
	cmpq	%rsi, %rdx
	jne	46b
	cmpq	%rdx, %r14
	je	25b
	jmp	20b
47:
	leaq	8(%rsp), %rdi
	movq	%r14, %rsi
	callq	"std_alloc::vec::Vec::grow_amortized::<#1d775b5957dec42c>"
	testb	%al, %al
	je	48f
	movq	16(%rsp), %rax
	movq	24(%rsp), %r12
	jmp	18b
48:
	movb	$1, %bl
	cmpq	$0, 24(%rsp)
	je	27b
	movq	8(%rsp), %rdi
	callq	rattle_dealloc@PLT
	jmp	27b
49:
	.size	"std_alloc::string::String::format::<#605efbca80f73881>", 49b-"std_alloc::string::String::format::<#605efbca80f73881>"

	.text
	.p2align	4
	.type	"std_alloc::string::String::format::<#6839e7594aae3ba1>",@function
"std_alloc::string::String::format::<#6839e7594aae3ba1>":
	pushq	%rbp
	pushq	%r15
	pushq	%r14
	pushq	%r13
	pushq	%r12
	pushq	%rbx
	subq	$152, %rsp
	movq	%rsi, %rax
	movq	%rdi, %rbx
	movq	(%rsi), %rsi
	movq	8(%rax), %rdx
	movq	16(%rax), %r13
	xorps	%xmm0, %xmm0
	movups	%xmm0, 127(%rsp)
	movaps	%xmm0, 112(%rsp)
	movups	%xmm0, 24(%rsp)
	movl	$0, 73(%rsp)
	movl	$0, 76(%rsp)
	leaq	15(%rsp), %r15
	movq	%r15, 16(%rsp)
	movl	$32, 40(%rsp)
	movq	$0, 44(%rsp)
	movl	$0, 52(%rsp)
	movq	$-1, 56(%rsp)
	movq	$0, 64(%rsp)
	movb	$0, 72(%rsp)
	movl	40(%rsp), %eax
	movl	%eax, 80(%rsp)
	movq	44(%rsp), %rax
	movq	%rax, 84(%rsp)
	movl	52(%rsp), %eax
	movl	%eax, 92(%rsp)
	movq	$-1, 96(%rsp)
	movl	$32, 40(%rsp)
	movq	$0, 44(%rsp)
	movl	$0, 52(%rsp)
	movq	24(%rsp), %rax
	movq	32(%rsp), %r14
	movq	%r14, %rcx
	subq	%rax, %rcx
	cmpq	%rcx, %rdx
	ja	25f
1:
	leaq	44(%rsp), %r11
	leaq	(%rax,%rdx), %r12
	leaq	(%r15,%rax), %rdi
	movq	%rdi, %rcx
	subq	%rsi, %rcx
	cmpq	%rdx, %rcx
	jae	7f
	cmpq	$4, %rdx
	jb	2f
	cmpq	$32, %rcx
	jae	19f
2:
	xorl	%ecx, %ecx
3:
	movq	%rdx, %r9
	movq	%rcx, %r8
	andq	$3, %r9
	je	5f
	movq	%rcx, %r8
	.p2align	4
4:
	movzbl	(%rsi,%r8), %r10d
	movb	%r10b, (%rdi,%r8)
	incq	%r8
	decq	%r9
	jne	4b
5:
	subq	%rdx, %rcx
	cmpq	$-4, %rcx
	ja	8f
	addq	%r15, %rax
	addq	$3, %rax
	.p2align	4
6:
	movzbl	(%rsi,%r8), %ecx
	movb	%cl, -3(%rax,%r8)
	movzbl	1(%rsi,%r8), %ecx
	movb	%cl, -2(%rax,%r8)
	movzbl	2(%rsi,%r8), %ecx
	movb	%cl, -1(%rax,%r8)
	movzbl	3(%rsi,%r8), %ecx
	movb	%cl, (%rax,%r8)
	addq	$4, %r8
	cmpq	%r8, %rdx
	jne	6b
	jmp	8f
7:
	movq	%r11, %rbp
	callq	memmove@PLT
	movq	%rbp, %r11
8:
	leaq	40(%rsp), %rbp
	movq	%r12, 24(%rsp)
	movq	%r14, 32(%rsp)
	movl	$32, 40(%rsp)
	movl	$0, 8(%r11)
	movq	$0, (%r11)
	movq	$-1, 56(%rsp)
	movq	(%r13), %rsi
	movq	8(%r13), %rdx
	cmpq	$0, 64(%rsp)
	jne	26f
	movq	%r14, %rax
	subq	%r12, %rax
	cmpq	%rax, %rdx
	ja	31f
9:
	leaq	(%r12,%rdx), %r13
	leaq	(%r15,%r12), %rdi
	movq	%rdi, %rax
	subq	%rsi, %rax
	cmpq	%rdx, %rax
	jae	15f
	cmpq	$4, %rdx
	jb	10f
	cmpq	$32, %rax
	jae	20f
10:
	xorl	%eax, %eax
11:
	movq	%rdx, %r8
	movq	%rax, %rcx
	andq	$3, %r8
	je	13f
	movq	%rax, %rcx
	.p2align	4
12:
	movzbl	(%rsi,%rcx), %r9d
	movb	%r9b, (%rdi,%rcx)
	incq	%rcx
	decq	%r8
	jne	12b
13:
	subq	%rdx, %rax
	cmpq	$-4, %rax
	ja	16f
	leaq	(%r12,%r15), %rax
	addq	$3, %rax
	.p2align	4
14:
	movzbl	(%rsi,%rcx), %edi
	movb	%dil, -3(%rax,%rcx)
	movzbl	1(%rsi,%rcx), %edi
	movb	%dil, -2(%rax,%rcx)
	movzbl	2(%rsi,%rcx), %edi
	movb	%dil, -1(%rax,%rcx)
	movzbl	3(%rsi,%rcx), %edi
	movb	%dil, (%rax,%rcx)
	addq	$4, %rcx
	cmpq	%rcx, %rdx
	jne	14b
	jmp	16f
15:
	callq	memmove@PLT
16:
	movq	%r13, 24(%rsp)
	movq	%r14, 32(%rsp)
	movq	96(%rsp), %rax
	movq	%rax, 16(%rbp)
	movaps	80(%rsp), %xmm0
	movups	%xmm0, (%rbp)
17:
	movq	32(%rsp), %rax
	movq	%rax, 135(%rsp)
	movq	16(%rsp), %rax
	movq	%rax, 119(%rsp)
	movq	24(%rsp), %rax
	movq	%rax, 127(%rsp)
	xorl	%ebp, %ebp
18:
	movb	%bpl, (%rbx)
	movq	119(%rsp), %rax
	movq	%rax, 8(%rbx)
	movq	127(%rsp), %rax
	movq	%rax, 16(%rbx)
	movq	135(%rsp), %rax
	movq	%rax, 24(%rbx)
	addq	$152, %rsp
	popq	%rbx
	popq	%r12
	popq	%r13
	popq	%r14
	popq	%r15
	popq	%rbp
	retq
19:
	cmpq	$32, %rdx
	jae	21f
	xorl	%ecx, %ecx
	jmp	23f
20:
	cmpq	$32, %rdx
	jae	27f
	xorl	%eax, %eax
	jmp	29f
21:
	movq	%rdx, %rcx
	andq	$-32, %rcx
	leaq	(%rax,%r15), %r8
	addq	$16, %r8
	xorl	%r9d, %r9d
	.p2align	4
22:
	movups	(%rsi,%r9), %xmm0
	movups	16(%rsi,%r9), %xmm1
	movups	%xmm0, -16(%r8,%r9)
	movups	%xmm1, (%r8,%r9)
	addq	$32, %r9
	cmpq	%r9, %rcx
	jne	22b
	cmpq	%rcx, %rdx
	je	8b
	testb	$28, %dl
	je	3b
23:
	movq	%rcx, %r8
	movq	%rdx, %rcx
	andq	$-4, %rcx
	.p2align	4
24:
	movl	(%rsi,%r8), %r9d
	movl	%r9d, (%rdi,%r8)
	addq	$4, %r8
	cmpq	%r8, %rcx
	jne	24b
	cmpq	%rcx, %rdx
	je	8b
	jmp	3b
25:
	movq	%rsi, %r12
	leaq	16(%rsp), %rdi
	movq	%rdx, %rbp
	movq	%rdx, %rsi
	callq	"std_alloc::vec::Vec::grow_amortized::<#1d775b5957dec42c>"
	testb	%al, %al
	je	32f
	movq	16(%rsp), %r15
	movq	24(%rsp), %rax
	movq	32(%rsp), %r14
	movq	%r12, %rsi
	movq	%rbp, %rdx
	jmp	1b
26:
	leaq	16(%rsp), %rdi
	callq	"core::fmt::formatter::Formatter::write_indented::<#0a7ff941e43d6b30>"
	movaps	80(%rsp), %xmm0
	movups	%xmm0, (%rbp)
	movq	96(%rsp), %rcx
	movq	%rcx, 16(%rbp)
	testb	%al, %al
	jne	32f
	jmp	17b
27:
	movq	%rdx, %rax
	andq	$-32, %rax
	leaq	(%r12,%r15), %rcx
	addq	$16, %rcx
	xorl	%r8d, %r8d
	.p2align	4
28:
	movups	(%rsi,%r8), %xmm0
	movups	16(%rsi,%r8), %xmm1
	movups	%xmm0, -16(%rcx,%r8)
	movups	%xmm1, (%rcx,%r8)
	addq	$32, %r8
	cmpq	%r8, %rax
	jne	28b
	cmpq	%rax, %rdx
	je	16b
	testb	$28, %dl
	je	11b
29:
	movq	%rax, %rcx
	movq	%rdx, %rax
	andq	$-4, %rax
	.p2align	4
30:
	movl	(%rsi,%rcx), %r8d
	movl	%r8d, (%rdi,%rcx)
	addq	$4, %rcx
	cmpq	%rcx, %rax
	jne	30b
	cmpq	%rax, %rdx
	je	16b
	jmp	11b
31:
	movq	%rsi, 144(%rsp)
	leaq	16(%rsp), %rdi
	movq	%rdx, %r13
	movq	%rdx, %rsi
	callq	"std_alloc::vec::Vec::grow_amortized::<#1d775b5957dec42c>"
	testb	%al, %al
	je	32f
	movq	16(%rsp), %r15
	movq	24(%rsp), %r12
	movq	32(%rsp), %r14
	movq	%r13, %rdx
	movq	144(%rsp), %rsi
	jmp	9b
32:
	movb	$1, %bpl
	cmpq	$0, 32(%rsp)
	je	18b
	movq	16(%rsp), %rdi
	callq	rattle_dealloc@PLT
	jmp	18b
33:
	.size	"std_alloc::string::String::format::<#6839e7594aae3ba1>", 33b-"std_alloc::string::String::format::<#6839e7594aae3ba1>"

	.text
	.p2align	4
	.type	"std_alloc::string::String::format::<#6af43b6eacf550cc>",@function
"std_alloc::string::String::format::<#6af43b6eacf550cc>":
	pushq	%rbp
	pushq	%r15
	pushq	%r14
	pushq	%r13
	pushq	%r12
	pushq	%rbx
	subq	$152, %rsp
	movq	%rdi, %rbx
	xorps	%xmm0, %xmm0
	movups	%xmm0, 127(%rsp)
	movaps	%xmm0, 112(%rsp)
	movups	%xmm0, 24(%rsp)
	movl	$0, 73(%rsp)
	movl	$0, 76(%rsp)
	leaq	15(%rsp), %rdi
	movq	%rdi, 16(%rsp)
	movl	$32, 40(%rsp)
	movq	$0, 44(%rsp)
	movl	$0, 52(%rsp)
	movq	$-1, 56(%rsp)
	movq	$0, 64(%rsp)
	movb	$0, 72(%rsp)
	movzbl	(%rsi), %eax
	movaps	%xmm0, 80(%rsp)
	movq	$0, 96(%rsp)
	cmpb	$100, %al
	jb	1f
	movzbl	%al, %ecx
	leal	(%rcx,%rcx,4), %edx
	leal	(%rcx,%rdx,8), %ecx
	shrl	$12, %ecx
	imull	$100, %ecx, %edx
	subb	%dl, %al
	movzbl	%al, %eax
	imull	$205, %eax, %edx
	shrl	$11, %edx
	leal	(%rdx,%rdx), %esi
	leal	(%rsi,%rsi,4), %esi
	subb	%sil, %al
	orb	$48, %al
	movb	%al, 103(%rsp)
	orb	$48, %dl
	movb	%dl, 102(%rsp)
	movl	$21, %r14d
	movl	%ecx, %eax
	jmp	2f
1:
	movl	$23, %r14d
	cmpb	$10, %al
	jb	2f
	movzbl	%al, %ecx
	imull	$205, %ecx, %ecx
	shrl	$11, %ecx
	leal	(%rcx,%rcx), %edx
	leal	(%rdx,%rdx,4), %edx
	subb	%dl, %al
	orb	$48, %al
	movb	%al, 103(%rsp)
	orb	$48, %cl
	movb	%cl, 102(%rsp)
	movl	$22, %r14d
	jmp	3f
2:
	orb	$48, %al
	movb	%al, 80(%rsp,%r14)
3:
	movl	$24, %edx
	subq	%r14, %rdx
	movq	24(%rsp), %r12
	movq	32(%rsp), %r15
	movq	%r15, %rax
	subq	%r12, %rax
	cmpq	%rax, %rdx
	ja	6f
4:
	leaq	(%rsp,%r14), %rsi
	addq	$80, %rsi
	addq	%r12, %rdi
	addq	%rdx, %r12
	callq	memcpy@PLT
	movq	%r12, 24(%rsp)
	movq	%r15, 32(%rsp)
	movq	%r15, 135(%rsp)
	movq	16(%rsp), %rax
	movq	%rax, 119(%rsp)
	movq	24(%rsp), %rax
	movq	%rax, 127(%rsp)
	xorl	%ebp, %ebp
5:
	movb	%bpl, (%rbx)
	movq	119(%rsp), %rax
	movq	%rax, 8(%rbx)
	movq	127(%rsp), %rax
	movq	%rax, 16(%rbx)
	movq	135(%rsp), %rax
	movq	%rax, 24(%rbx)
	addq	$152, %rsp
	popq	%rbx
	popq	%r12
	popq	%r13
	popq	%r14
	popq	%r15
	popq	%rbp
	retq
6:
	leaq	16(%rsp), %rdi
	movq	%rdx, %r13
	movq	%rdx, %rsi
	callq	"std_alloc::vec::Vec::grow_amortized::<#1d775b5957dec42c>"
	testb	%al, %al
	je	7f
	movq	16(%rsp), %rdi
	movq	24(%rsp), %r12
	movq	32(%rsp), %r15
	movq	%r13, %rdx
	jmp	4b
7:
	movb	$1, %bpl
	cmpq	$0, 32(%rsp)
	je	5b
	movq	16(%rsp), %rdi
	callq	rattle_dealloc@PLT
	jmp	5b
8:
	.size	"std_alloc::string::String::format::<#6af43b6eacf550cc>", 8b-"std_alloc::string::String::format::<#6af43b6eacf550cc>"

	.text
	.p2align	4
	.type	"std_alloc::string::String::format::<#ae563473db7f7f6d>",@function
"std_alloc::string::String::format::<#ae563473db7f7f6d>":
	pushq	%rbp
	pushq	%r15
	pushq	%r14
	pushq	%r13
	pushq	%r12
	pushq	%rbx
	subq	$152, %rsp
	movq	%rsi, %rax
	movq	%rdi, 144(%rsp)
	movq	(%rsi), %rsi
	movq	8(%rax), %rdx
	movq	16(%rax), %r13
	movq	24(%rax), %r12
	movq	32(%rax), %r15
	movq	40(%rax), %r14
	xorps	%xmm0, %xmm0
	movups	%xmm0, 127(%rsp)
	movaps	%xmm0, 112(%rsp)
	movups	%xmm0, 16(%rsp)
	movl	$0, 65(%rsp)
	movl	$0, 68(%rsp)
	leaq	7(%rsp), %rbx
	movq	%rbx, 8(%rsp)
	movl	$32, 32(%rsp)
	movq	$0, 36(%rsp)
	movl	$0, 44(%rsp)
	movq	$-1, 48(%rsp)
	movq	$0, 56(%rsp)
	movb	$0, 64(%rsp)
	movl	32(%rsp), %eax
	movl	%eax, 80(%rsp)
	movq	36(%rsp), %rax
	movq	%rax, 84(%rsp)
	movl	44(%rsp), %eax
	movl	%eax, 92(%rsp)
	movq	$-1, 96(%rsp)
	movl	$32, 32(%rsp)
	movq	$0, 36(%rsp)
	movl	$0, 44(%rsp)
	movq	16(%rsp), %rax
	movq	24(%rsp), %r10
	movq	%r10, %rcx
	subq	%rax, %rcx
	cmpq	%rcx, %rdx
	ja	35f
1:
	leaq	36(%rsp), %r11
	leaq	(%rax,%rdx), %rbp
	leaq	(%rbx,%rax), %rdi
	movq	%rdi, %rcx
	subq	%rsi, %rcx
	cmpq	%rdx, %rcx
	jae	7f
	cmpq	$4, %rdx
	jb	2f
	cmpq	$32, %rcx
	jae	28f
2:
	xorl	%ecx, %ecx
3:
	movq	%r10, 72(%rsp)
	movq	%rdx, %r9
	movq	%rcx, %r8
	andq	$3, %r9
	je	5f
	movq	%rcx, %r8
	.p2align	4
4:
	movzbl	(%rsi,%r8), %r10d
	movb	%r10b, (%rdi,%r8)
	incq	%r8
	decq	%r9
	jne	4b
5:
	subq	%rdx, %rcx
	cmpq	$-4, %rcx
	movq	72(%rsp), %r10
	ja	8f
	addq	%rbx, %rax
	addq	$3, %rax
	.p2align	4
6:
	movzbl	(%rsi,%r8), %ecx
	movb	%cl, -3(%rax,%r8)
	movzbl	1(%rsi,%r8), %ecx
	movb	%cl, -2(%rax,%r8)
	movzbl	2(%rsi,%r8), %ecx
	movb	%cl, -1(%rax,%r8)
	movzbl	3(%rsi,%r8), %ecx
	movb	%cl, (%rax,%r8)
	addq	$4, %r8
	cmpq	%r8, %rdx
	jne	6b
	jmp	8f
7:
	movq	%r12, 72(%rsp)
	movq	%r14, %r12
	movq	%rbp, %r14
	movq	%rbx, %rbp
	movq	%r10, %rbx
	callq	memmove@PLT
	movq	%rbx, %r10
	movq	%rbp, %rbx
	movq	%r14, %rbp
	movq	%r12, %r14
	movq	72(%rsp), %r12
	leaq	36(%rsp), %r11
8:
	movq	%rbx, 8(%rsp)
	movq	%rbp, 16(%rsp)
	movq	%r10, 24(%rsp)
	movl	$32, 32(%rsp)
	movl	$0, 8(%r11)
	movq	$0, (%r11)
	movq	$-1, 48(%rsp)
	cmpq	$0, 56(%rsp)
	jne	36f
	movq	%r10, %rax
	subq	%rbp, %rax
	cmpq	%rax, %r12
	ja	41f
9:
	leaq	(%r12,%rbp), %r8
	leaq	(%rbx,%rbp), %rdi
	movq	%rdi, %rax
	subq	%r13, %rax
	cmpq	%r12, %rax
	jae	15f
	cmpq	$4, %r12
	jb	10f
	cmpq	$32, %rax
	jae	29f
10:
	xorl	%eax, %eax
11:
	movq	%r12, %rdx
	movq	%rax, %rcx
	andq	$3, %rdx
	je	13f
	movq	%rax, %rcx
	.p2align	4
12:
	movzbl	(%r13,%rcx), %esi
	movb	%sil, (%rdi,%rcx)
	incq	%rcx
	decq	%rdx
	jne	12b
13:
	subq	%r12, %rax
	cmpq	$-4, %rax
	ja	16f
	leaq	(%rbx,%rbp), %rax
	addq	$3, %rax
	.p2align	4
14:
	movzbl	(%r13,%rcx), %edx
	movb	%dl, -3(%rax,%rcx)
	movzbl	1(%r13,%rcx), %edx
	movb	%dl, -2(%rax,%rcx)
	movzbl	2(%r13,%rcx), %edx
	movb	%dl, -1(%rax,%rcx)
	movzbl	3(%r13,%rcx), %edx
	movb	%dl, (%rax,%rcx)
	addq	$4, %rcx
	cmpq	%rcx, %r12
	jne	14b
	jmp	16f
15:
	movq	%r13, %rsi
	movq	%r12, %rdx
	movq	%r10, %rbx
	movq	%r8, %r12
	callq	memmove@PLT
	movq	%r12, %r8
	movq	%rbx, %r10
	leaq	36(%rsp), %r11
16:
	movq	%r8, 16(%rsp)
	movq	%r10, 24(%rsp)
17:
	leaq	32(%rsp), %rbx
	movl	$32, 32(%rsp)
	movl	$0, 8(%r11)
	movq	$0, (%r11)
	movq	$-1, 48(%rsp)
	cmpq	$0, 56(%rsp)
	jne	42f
	movq	16(%rsp), %rax
	movq	24(%rsp), %r12
	movq	%r12, %rcx
	subq	%rax, %rcx
	cmpq	%rcx, %r14
	ja	47f
18:
	leaq	(%rax,%r14), %r13
	movq	8(%rsp), %rcx
	leaq	(%rcx,%rax), %rdi
	movq	%rdi, %rdx
	subq	%r15, %rdx
	cmpq	%r14, %rdx
	jae	24f
	cmpq	$4, %r14
	jb	19f
	cmpq	$32, %rdx
	jae	30f
19:
	xorl	%edx, %edx
20:
	movq	%r14, %r8
	movq	%rdx, %rsi
	andq	$3, %r8
	je	22f
	movq	%rdx, %rsi
	.p2align	4
21:
	movzbl	(%r15,%rsi), %r9d
	movb	%r9b, (%rdi,%rsi)
	incq	%rsi
	decq	%r8
	jne	21b
22:
	subq	%r14, %rdx
	cmpq	$-4, %rdx
	ja	25f
	addq	%rcx, %rax
	addq	$3, %rax
	.p2align	4
23:
	movzbl	(%r15,%rsi), %ecx
	movb	%cl, -3(%rax,%rsi)
	movzbl	1(%r15,%rsi), %ecx
	movb	%cl, -2(%rax,%rsi)
	movzbl	2(%r15,%rsi), %ecx
	movb	%cl, -1(%rax,%rsi)
	movzbl	3(%r15,%rsi), %ecx
	movb	%cl, (%rax,%rsi)
	addq	$4, %rsi
	cmpq	%rsi, %r14
	jne	23b
	jmp	25f
24:
	movq	%r15, %rsi
	movq	%r14, %rdx
	callq	memmove@PLT
25:
	movq	%r13, 16(%rsp)
	movq	%r12, 24(%rsp)
	movq	96(%rsp), %rax
	movq	%rax, 16(%rbx)
	movaps	80(%rsp), %xmm0
	movups	%xmm0, (%rbx)
26:
	movq	24(%rsp), %rax
	movq	%rax, 135(%rsp)
	movq	8(%rsp), %rax
	movq	%rax, 119(%rsp)
	movq	16(%rsp), %rax
	movq	%rax, 127(%rsp)
	xorl	%ebx, %ebx
27:
	movq	144(%rsp), %rcx
	movb	%bl, (%rcx)
	movq	119(%rsp), %rax
	movq	%rax, 8(%rcx)
	movq	127(%rsp), %rax
	movq	%rax, 16(%rcx)
	movq	135(%rsp), %rax
	movq	%rax, 24(%rcx)
	addq	$152, %rsp
	popq	%rbx
	popq	%r12
	popq	%r13
	popq	%r14
	popq	%r15
	popq	%rbp
	retq
28:
	cmpq	$32, %rdx
	jae	31f
	xorl	%ecx, %ecx
	jmp	33f
29:
	cmpq	$32, %r12
	jae	37f
	xorl	%eax, %eax
	jmp	39f
30:
	cmpq	$32, %r14
	jae	43f
	xorl	%edx, %edx
	jmp	45f
31:
	movq	%rdx, %rcx
	andq	$-32, %rcx
	leaq	(%rax,%rbx), %r8
	addq	$16, %r8
	xorl	%r9d, %r9d
	.p2align	4
32:
	movups	(%rsi,%r9), %xmm0
	movups	16(%rsi,%r9), %xmm1
	movups	%xmm0, -16(%r8,%r9)
	movups	%xmm1, (%r8,%r9)
	addq	$32, %r9
	cmpq	%r9, %rcx
	jne	32b
	cmpq	%rcx, %rdx
	je	8b
	testb	$28, %dl
	je	3b
33:
	movq	%rcx, %r8
	movq	%rdx, %rcx
	andq	$-4, %rcx
	.p2align	4
34:
	movl	(%rsi,%r8), %r9d
	movl	%r9d, (%rdi,%r8)
	addq	$4, %r8
	cmpq	%r8, %rcx
	jne	34b
	cmpq	%rcx, %rdx
	je	8b
	jmp	3b
35:
	movq	%rsi, 72(%rsp)
	leaq	8(%rsp), %rdi
	movq	%rdx, %rbp
	movq	%rdx, %rsi
	callq	"std_alloc::vec::Vec::grow_amortized::<#1d775b5957dec42c>"
	testb	%al, %al
	je	48f
	movq	8(%rsp), %rbx
	movq	16(%rsp), %rax
	movq	24(%rsp), %r10
	movq	72(%rsp), %rsi
	movq	%rbp, %rdx
	jmp	1b
36:
	leaq	8(%rsp), %rdi
	movq	%r13, %rsi
	movq	%r12, %rdx
	callq	"core::fmt::formatter::Formatter::write_indented::<#0a7ff941e43d6b30>"
	leaq	36(%rsp), %r11
	testb	%al, %al
	jne	48f
	jmp	17b
37:
	movq	%r12, %rax
	andq	$-32, %rax
	leaq	(%rbx,%rbp), %rcx
	addq	$16, %rcx
	xorl	%edx, %edx
	.p2align	4
38:
	movups	(%r13,%rdx), %xmm0
	movups	16(%r13,%rdx), %xmm1
	movups	%xmm0, -16(%rcx,%rdx)
	movups	%xmm1, (%rcx,%rdx)
	addq	$32, %rdx
	cmpq	%rdx, %rax
	jne	38b
	cmpq	%rax, %r12
	je	16b
	testb	$28, %r12b
	je	11b
39:
	movq	%rax, %rcx
	movq	%r12, %rax
	andq	$-4, %rax
	.p2align	4
40:
	movl	(%r13,%rcx), %edx
	movl	%edx, (%rdi,%rcx)
	addq	$4, %rcx
	cmpq	%rcx, %rax
	jne	40b
	cmpq	%rax, %r12
	je	16b
	jmp	11b
41:
	leaq	8(%rsp), %rdi
	movq	%r12, %rsi
	callq	"std_alloc::vec::Vec::grow_amortized::<#1d775b5957dec42c>"
	leaq	36(%rsp), %r11
	testb	%al, %al
	je	48f
	movq	8(%rsp), %rbx
	movq	16(%rsp), %rbp
	movq	24(%rsp), %r10
	jmp	9b
42:
	leaq	8(%rsp), %rdi
	movq	%r15, %rsi
	movq	%r14, %rdx
	callq	"core::fmt::formatter::Formatter::write_indented::<#0a7ff941e43d6b30>"
	movaps	80(%rsp), %xmm0
	movups	%xmm0, (%rbx)
	movq	96(%rsp), %rcx
	movq	%rcx, 16(%rbx)
	testb	%al, %al
	jne	48f
	jmp	26b
43:
	movq	%r14, %rdx
	andq	$-32, %rdx
	leaq	(%rax,%rcx), %rsi
	addq	$16, %rsi
	xorl	%r8d, %r8d
	.p2align	4
44:
	movups	(%r15,%r8), %xmm0
	movups	16(%r15,%r8), %xmm1
	movups	%xmm0, -16(%rsi,%r8)
	movups	%xmm1, (%rsi,%r8)
	addq	$32, %r8
	cmpq	%r8, %rdx
	jne	44b
	cmpq	%rdx, %r14
	je	25b
	testb	$28, %r14b
	je	20b
45:
	movq	%rdx, %rsi
	movq	%r14, %rdx
	andq	$-4, %rdx
	.p2align	4
46:
	movl	(%r15,%rsi), %r8d
	movl	%r8d, (%rdi,%rsi)
	addq	$4, %rsi
	cmpq	%rsi, %rdx
	jne	46b
	cmpq	%rdx, %r14
	je	25b
	jmp	20b
47:
	leaq	8(%rsp), %rdi
	movq	%r14, %rsi
	callq	"std_alloc::vec::Vec::grow_amortized::<#1d775b5957dec42c>"
	testb	%al, %al
	je	48f
	movq	16(%rsp), %rax
	movq	24(%rsp), %r12
	jmp	18b
48:
	movb	$1, %bl
	cmpq	$0, 24(%rsp)
	je	27b
	movq	8(%rsp), %rdi
	callq	rattle_dealloc@PLT
	jmp	27b
49:
	.size	"std_alloc::string::String::format::<#ae563473db7f7f6d>", 49b-"std_alloc::string::String::format::<#ae563473db7f7f6d>"

	.text
	.p2align	4
	.type	"std_alloc::string::String::format::<#cba637970f1a6228>",@function
"std_alloc::string::String::format::<#cba637970f1a6228>":
	pushq	%rbp
	pushq	%r15
	pushq	%r14
	pushq	%r12
	pushq	%rbx
	subq	$112, %rsp
	movq	%rdi, %rbx
	xorps	%xmm0, %xmm0
	movups	%xmm0, 95(%rsp)
	movaps	%xmm0, 80(%rsp)
	movups	%xmm0, 24(%rsp)
	movl	$0, 73(%rsp)
	movl	$0, 76(%rsp)
	leaq	15(%rsp), %rax
	movq	%rax, 16(%rsp)
	movl	$32, 40(%rsp)
	movq	$0, 44(%rsp)
	movl	$0, 52(%rsp)
	movq	$-1, 56(%rsp)
	movq	$0, 64(%rsp)
	movb	$0, 72(%rsp)
	movq	24(%rsp), %rcx
	movq	32(%rsp), %r14
	movq	%r14, %rdi
	subq	%rcx, %rdi
	cmpq	%rdi, %rdx
	ja	15f
1:
	leaq	(%rcx,%rdx), %r15
	leaq	(%rax,%rcx), %rdi
	movq	%rdi, %r8
	subq	%rsi, %r8
	cmpq	%rdx, %r8
	jae	7f
	cmpq	$4, %rdx
	jb	2f
	cmpq	$32, %r8
	jae	10f
2:
	xorl	%r8d, %r8d
3:
	movq	%rdx, %r10
	movq	%r8, %r9
	andq	$3, %r10
	je	5f
	movq	%r8, %r9
	.p2align	4
4:
	movzbl	(%rsi,%r9), %r11d
	movb	%r11b, (%rdi,%r9)
	incq	%r9
	decq	%r10
	jne	4b
5:
	subq	%rdx, %r8
	cmpq	$-4, %r8
	ja	8f
	addq	%rcx, %rax
	addq	$3, %rax
	.p2align	4
6:
	movzbl	(%rsi,%r9), %ecx
	movb	%cl, -3(%rax,%r9)
	movzbl	1(%rsi,%r9), %ecx
	movb	%cl, -2(%rax,%r9)
	movzbl	2(%rsi,%r9), %ecx
	movb	%cl, -1(%rax,%r9)
	movzbl	3(%rsi,%r9), %ecx
	movb	%cl, (%rax,%r9)
	addq	$4, %r9
	cmpq	%r9, %rdx
	jne	6b
	jmp	8f
7:
	callq	memmove@PLT
8:
	movq	%r15, 24(%rsp)
	movq	%r14, 32(%rsp)
	movq	%r14, 103(%rsp)
	movq	16(%rsp), %rax
	movq	%rax, 87(%rsp)
	movq	24(%rsp), %rax
	movq	%rax, 95(%rsp)
	xorl	%ebp, %ebp
9:
	movb	%bpl, (%rbx)
	movq	87(%rsp), %rax
	movq	%rax, 8(%rbx)
	movq	95(%rsp), %rax
	movq	%rax, 16(%rbx)
	movq	103(%rsp), %rax
	movq	%rax, 24(%rbx)
	addq	$112, %rsp
	popq	%rbx
	popq	%r12
	popq	%r14
	popq	%r15
	popq	%rbp
	retq
10:
	cmpq	$32, %rdx
	jae	11f
	xorl	%r8d, %r8d
	jmp	13f
11:
	movq	%rdx, %r8
	andq	$-32, %r8
	leaq	(%rcx,%rax), %r9
	addq	$16, %r9
	xorl	%r10d, %r10d
	.p2align	4
12:
	movups	(%rsi,%r10), %xmm0
	movups	16(%rsi,%r10), %xmm1
	movups	%xmm0, -16(%r9,%r10)
	movups	%xmm1, (%r9,%r10)
	addq	$32, %r10
	cmpq	%r10, %r8
	jne	12b
	cmpq	%r8, %rdx
	je	8b
	testb	$28, %dl
	je	3b
13:
	movq	%r8, %r9
	movq	%rdx, %r8
	andq	$-4, %r8
	.p2align	4
14:
	movl	(%rsi,%r9), %r10d
	movl	%r10d, (%rdi,%r9)
	addq	$4, %r9
	cmpq	%r9, %r8
	jne	14b
	cmpq	%r8, %rdx
	je	8b
	jmp	3b
15:
	movq	%rsi, %r15
	leaq	16(%rsp), %rdi
	movq	%rdx, %r12
	movq	%rdx, %rsi
	callq	"std_alloc::vec::Vec::grow_amortized::<#1d775b5957dec42c>"
	testb	%al, %al
	je	16f
	movq	16(%rsp), %rax
	movq	24(%rsp), %rcx
	movq	32(%rsp), %r14
	movq	%r12, %rdx
	movq	%r15, %rsi
	jmp	1b
16:
	movb	$1, %bpl
	cmpq	$0, 32(%rsp)
	je	9b
	movq	16(%rsp), %rdi
	callq	rattle_dealloc@PLT
	jmp	9b
17:
	.size	"std_alloc::string::String::format::<#cba637970f1a6228>", 17b-"std_alloc::string::String::format::<#cba637970f1a6228>"

	.text
	.p2align	4
	.type	"std_alloc::string::String::format::<#f2176ccb71fc584c>",@function
"std_alloc::string::String::format::<#f2176ccb71fc584c>":
	pushq	%rbp
	pushq	%r15
	pushq	%r14
	pushq	%r13
	pushq	%r12
	pushq	%rbx
	subq	$184, %rsp
	movq	%rdi, %rbx
	xorps	%xmm0, %xmm0
	movups	%xmm0, 127(%rsp)
	movaps	%xmm0, 112(%rsp)
	movups	%xmm0, 24(%rsp)
	movl	$0, 73(%rsp)
	movl	$0, 76(%rsp)
	leaq	15(%rsp), %rax
	movq	%rax, 16(%rsp)
	movl	$32, 40(%rsp)
	movq	$0, 44(%rsp)
	movl	$0, 52(%rsp)
	movq	$-1, 56(%rsp)
	movq	$0, 64(%rsp)
	movb	$0, 72(%rsp)
	movq	32(%rsi), %rcx
	movq	%rcx, 176(%rsp)
	movups	(%rsi), %xmm0
	movups	16(%rsi), %xmm1
	movaps	%xmm1, 160(%rsp)
	movaps	%xmm0, 144(%rsp)
	movl	40(%rsp), %ecx
	movl	%ecx, 80(%rsp)
	movq	44(%rsp), %rcx
	movq	%rcx, 84(%rsp)
	movl	52(%rsp), %ecx
	movl	%ecx, 92(%rsp)
	movq	$-1, 96(%rsp)
	movl	$32, 40(%rsp)
	movl	$0, 52(%rsp)
	movq	$0, 44(%rsp)
	movq	$-1, 56(%rsp)
	movl	$0, 52(%rsp)
	movq	$0, 44(%rsp)
	movq	144(%rsp), %rsi
	movq	152(%rsp), %rdx
	movq	24(%rsp), %rcx
	movq	32(%rsp), %r15
	movq	%r15, %rdi
	subq	%rcx, %rdi
	cmpq	%rdi, %rdx
	ja	26f
1:
	leaq	160(%rsp), %r14
	leaq	(%rcx,%rdx), %r12
	leaq	(%rax,%rcx), %rdi
	movq	%rdi, %r8
	subq	%rsi, %r8
	cmpq	%rdx, %r8
	jae	7f
	cmpq	$4, %rdx
	jb	2f
	cmpq	$32, %r8
	jae	21f
2:
	xorl	%r8d, %r8d
3:
	movq	%rdx, %r10
	movq	%r8, %r9
	andq	$3, %r10
	je	5f
	movq	%r8, %r9
	.p2align	4
4:
	movzbl	(%rsi,%r9), %r11d
	movb	%r11b, (%rdi,%r9)
	incq	%r9
	decq	%r10
	jne	4b
5:
	subq	%rdx, %r8
	cmpq	$-4, %r8
	ja	8f
	addq	%rcx, %rax
	addq	$3, %rax
	.p2align	4
6:
	movzbl	(%rsi,%r9), %ecx
	movb	%cl, -3(%rax,%r9)
	movzbl	1(%rsi,%r9), %ecx
	movb	%cl, -2(%rax,%r9)
	movzbl	2(%rsi,%r9), %ecx
	movb	%cl, -1(%rax,%r9)
	movzbl	3(%rsi,%r9), %ecx
	movb	%cl, (%rax,%r9)
	addq	$4, %r9
	cmpq	%r9, %rdx
	jne	6b
	jmp	8f
7:
	callq	memmove@PLT
8:
	movq	%r12, 24(%rsp)
	movq	%r15, 32(%rsp)
	leaq	16(%rsp), %rdi
	movq	%r14, %rsi
	callq	"core::fmt::formatter::Formatter::write_piece::<#0584b03bf03810b7>"
	testb	%al, %al
	je	10f
9:
	movb	$1, %bpl
	cmpq	$0, 32(%rsp)
	je	20f
	movq	16(%rsp), %rdi
	callq	rattle_dealloc@PLT
	jmp	20f
10:
	leaq	40(%rsp), %r14
	movl	$32, 40(%rsp)
	movl	$0, 12(%r14)
	movq	$0, 4(%r14)
	movq	$-1, 56(%rsp)
	movq	168(%rsp), %rsi
	movq	176(%rsp), %rdx
	cmpq	$0, 64(%rsp)
	jne	28f
	movq	24(%rsp), %rax
	movq	32(%rsp), %r15
	movq	%r15, %rcx
	subq	%rax, %rcx
	cmpq	%rcx, %rdx
	ja	33f
11:
	leaq	(%rax,%rdx), %r12
	movq	16(%rsp), %rcx
	leaq	(%rcx,%rax), %rdi
	movq	%rdi, %r8
	subq	%rsi, %r8
	cmpq	%rdx, %r8
	jae	17f
	cmpq	$4, %rdx
	jb	12f
	cmpq	$32, %r8
	jae	27f
12:
	xorl	%r8d, %r8d
13:
	movq	%rdx, %r10
	movq	%r8, %r9
	andq	$3, %r10
	je	15f
	movq	%r8, %r9
	.p2align	4
14:
	movzbl	(%rsi,%r9), %r11d
	movb	%r11b, (%rdi,%r9)
	incq	%r9
	decq	%r10
	jne	14b
15:
	subq	%rdx, %r8
	cmpq	$-4, %r8
	ja	18f
	addq	%rcx, %rax
	addq	$3, %rax
	.p2align	4
16:
	movzbl	(%rsi,%r9), %ecx
	movb	%cl, -3(%rax,%r9)
	movzbl	1(%rsi,%r9), %ecx
	movb	%cl, -2(%rax,%r9)
	movzbl	2(%rsi,%r9), %ecx
	movb	%cl, -1(%rax,%r9)
	movzbl	3(%rsi,%r9), %ecx
	movb	%cl, (%rax,%r9)
	addq	$4, %r9
	cmpq	%r9, %rdx
	jne	16b
	jmp	18f
17:
	callq	memmove@PLT
18:
	movq	%r12, 24(%rsp)
	movq	%r15, 32(%rsp)
	movq	96(%rsp), %rax
	movq	%rax, 16(%r14)
	movaps	80(%rsp), %xmm0
	movups	%xmm0, (%r14)
19:
	movq	32(%rsp), %rax
	movq	%rax, 135(%rsp)
	movq	16(%rsp), %rax
	movq	%rax, 119(%rsp)
	movq	24(%rsp), %rax
	movq	%rax, 127(%rsp)
	xorl	%ebp, %ebp
20:
	movb	%bpl, (%rbx)
	movq	119(%rsp), %rax
	movq	%rax, 8(%rbx)
	movq	127(%rsp), %rax
	movq	%rax, 16(%rbx)
	movq	135(%rsp), %rax
	movq	%rax, 24(%rbx)
	addq	$184, %rsp
	popq	%rbx
	popq	%r12
	popq	%r13
	popq	%r14
	popq	%r15
	popq	%rbp
	retq
21:
	cmpq	$32, %rdx
	jae	22f
	xorl	%r8d, %r8d
	jmp	24f
22:
	movq	%rdx, %r8
	andq	$-32, %r8
	leaq	(%rcx,%rax), %r9
	addq	$16, %r9
	xorl	%r10d, %r10d
	.p2align	4
23:
	movups	(%rsi,%r10), %xmm0
	movups	16(%rsi,%r10), %xmm1
	movups	%xmm0, -16(%r9,%r10)
	movups	%xmm1, (%r9,%r10)
	addq	$32, %r10
	cmpq	%r10, %r8
	jne	23b
	cmpq	%r8, %rdx
	je	8b
	testb	$28, %dl
	je	3b
24:
	movq	%r8, %r9
	movq	%rdx, %r8
	andq	$-4, %r8
	.p2align	4
25:
	movl	(%rsi,%r9), %r10d
	movl	%r10d, (%rdi,%r9)
	addq	$4, %r9
	cmpq	%r9, %r8
	jne	25b
	cmpq	%r8, %rdx
	je	8b
	jmp	3b
26:
	movq	%rsi, %r14
	leaq	16(%rsp), %rdi
	movq	%rdx, %r12
	movq	%rdx, %rsi
	callq	"std_alloc::vec::Vec::grow_amortized::<#1d775b5957dec42c>"
	testb	%al, %al
	je	9b
	movq	16(%rsp), %rax
	movq	24(%rsp), %rcx
	movq	32(%rsp), %r15
	movq	%r14, %rsi
	movq	%r12, %rdx
	jmp	1b
27:
	cmpq	$32, %rdx
	jae	29f
	xorl	%r8d, %r8d
	jmp	31f
28:
	leaq	16(%rsp), %rdi
	callq	"core::fmt::formatter::Formatter::write_indented::<#0a7ff941e43d6b30>"
	movaps	80(%rsp), %xmm0
	movups	%xmm0, (%r14)
	movq	96(%rsp), %rcx
	movq	%rcx, 16(%r14)
	testb	%al, %al
	jne	9b
	jmp	19b
29:
	movq	%rdx, %r8
	andq	$-32, %r8
	leaq	(%rax,%rcx), %r9
	addq	$16, %r9
	xorl	%r10d, %r10d
	.p2align	4
30:
	movups	(%rsi,%r10), %xmm0
	movups	16(%rsi,%r10), %xmm1
	movups	%xmm0, -16(%r9,%r10)
	movups	%xmm1, (%r9,%r10)
	addq	$32, %r10
	cmpq	%r10, %r8
	jne	30b
	cmpq	%r8, %rdx
	je	18b
	testb	$28, %dl
	je	13b
31:
	movq	%r8, %r9
	movq	%rdx, %r8
	andq	$-4, %r8
	.p2align	4
32:
	movl	(%rsi,%r9), %r10d
	movl	%r10d, (%rdi,%r9)
	addq	$4, %r9
	cmpq	%r9, %r8
	jne	32b
	cmpq	%r8, %rdx
	je	18b
	jmp	13b
33:
	movq	%rsi, %r12
	leaq	16(%rsp), %rdi
	movq	%rdx, %r13
	movq	%rdx, %rsi
	callq	"std_alloc::vec::Vec::grow_amortized::<#1d775b5957dec42c>"
	testb	%al, %al
	je	9b
	movq	24(%rsp), %rax
	movq	32(%rsp), %r15
	movq	%r13, %rdx
	movq	%r12, %rsi
	jmp	11b
34:
	.size	"std_alloc::string::String::format::<#f2176ccb71fc584c>", 34b-"std_alloc::string::String::format::<#f2176ccb71fc584c>"

	.text
	.p2align	4
	.type	"std_alloc::string::String::push_str::<#2cbb67ac55bf10f9>",@function
"std_alloc::string::String::push_str::<#2cbb67ac55bf10f9>":
	pushq	%r15
	pushq	%r14
	pushq	%r12
	pushq	%rbx
	pushq	%rax
	movq	%rdi, %rbx
	movq	8(%rdi), %rax
	movq	16(%rdi), %r14
	movq	%r14, %rcx
	subq	%rax, %rcx
	cmpq	%rcx, %rdx
	ja	15f
1:
	leaq	8(%rbx), %rcx
	leaq	(%rax,%rdx), %r15
	movq	(%rbx), %r12
	xorps	%xmm0, %xmm0
	movups	%xmm0, (%rcx)
	leaq	(%r12,%rax), %rdi
	movq	%rdi, %rcx
	subq	%rsi, %rcx
	cmpq	%rdx, %rcx
	jae	7f
	cmpq	$4, %rdx
	jb	2f
	cmpq	$32, %rcx
	jae	10f
2:
	xorl	%ecx, %ecx
3:
	movq	%rdx, %r9
	movq	%rcx, %r8
	andq	$3, %r9
	je	5f
	movq	%rcx, %r8
	.p2align	4
4:
	movzbl	(%rsi,%r8), %r10d
	movb	%r10b, (%rdi,%r8)
	incq	%r8
	decq	%r9
	jne	4b
5:
	subq	%rdx, %rcx
	cmpq	$-4, %rcx
	ja	8f
	addq	%r12, %rax
	addq	$3, %rax
	.p2align	4
6:
	movzbl	(%rsi,%r8), %ecx
	movb	%cl, -3(%rax,%r8)
	movzbl	1(%rsi,%r8), %ecx
	movb	%cl, -2(%rax,%r8)
	movzbl	2(%rsi,%r8), %ecx
	movb	%cl, -1(%rax,%r8)
	movzbl	3(%rsi,%r8), %ecx
	movb	%cl, (%rax,%r8)
	addq	$4, %r8
	cmpq	%r8, %rdx
	jne	6b
	jmp	8f
7:
	callq	memmove@PLT
8:
	movq	%r12, (%rbx)
	movq	%r15, 8(%rbx)
	movq	%r14, 16(%rbx)
	xorl	%eax, %eax
9:
	addq	$8, %rsp
	popq	%rbx
	popq	%r12
	popq	%r14
	popq	%r15
	retq
10:
	cmpq	$32, %rdx
	jae	11f
	xorl	%ecx, %ecx
	jmp	13f
11:
	movq	%rdx, %rcx
	andq	$-32, %rcx
	leaq	(%rax,%r12), %r8
	addq	$16, %r8
	xorl	%r9d, %r9d
	.p2align	4
12:
	movups	(%rsi,%r9), %xmm0
	movups	16(%rsi,%r9), %xmm1
	movups	%xmm0, -16(%r8,%r9)
	movups	%xmm1, (%r8,%r9)
	addq	$32, %r9
	cmpq	%r9, %rcx
	jne	12b
	cmpq	%rcx, %rdx
	je	8b
	testb	$28, %dl
	je	3b
13:
	movq	%rcx, %r8
	movq	%rdx, %rcx
	andq	$-4, %rcx
	.p2align	4
14:
	movl	(%rsi,%r8), %r9d
	movl	%r9d, (%rdi,%r8)
	addq	$4, %r8
	cmpq	%r8, %rcx
	jne	14b
	cmpq	%rcx, %rdx
	je	8b
	jmp	3b
15:
	movq	%rsi, %r15
	movq	%rbx, %rdi
	movq	%rdx, %r12
	movq	%rdx, %rsi
	callq	"std_alloc::vec::Vec::grow_amortized::<#1d775b5957dec42c>"
	movl	%eax, %ecx
	movb	$1, %al
	testb	%cl, %cl
	je	9b
	movq	8(%rbx), %rax
	movq	16(%rbx), %r14
	movq	%r12, %rdx
	movq	%r15, %rsi
	jmp	1b
16:
	.size	"std_alloc::string::String::push_str::<#2cbb67ac55bf10f9>", 16b-"std_alloc::string::String::push_str::<#2cbb67ac55bf10f9>"

	.text
	.p2align	4
	.type	"std_alloc::string::String::write_fmt::<#004689434896fd94>",@function
"std_alloc::string::String::write_fmt::<#004689434896fd94>":
	pushq	%rbp
	pushq	%r15
	pushq	%r14
	pushq	%r13
	pushq	%r12
	pushq	%rbx
	subq	$104, %rsp
	movq	%rsi, %rax
	movq	%rdi, %rbx
	movq	(%rsi), %rsi
	movq	8(%rax), %rdx
	movq	16(%rax), %r15
	movq	24(%rax), %r14
	movq	8(%rdi), %rax
	movq	%rax, 96(%rsp)
	movups	(%rdi), %xmm0
	movaps	%xmm0, (%rsp)
	movq	16(%rdi), %r12
	movq	%r12, 16(%rsp)
	xorps	%xmm0, %xmm0
	movaps	%xmm0, 48(%rsp)
	movl	$32, 24(%rsp)
	movq	$0, 28(%rsp)
	movl	$0, 36(%rsp)
	movq	$-1, 40(%rsp)
	movq	8(%rsp), %rax
	movq	%r12, %rcx
	subq	%rax, %rcx
	cmpq	%rcx, %rdx
	ja	25f
1:
	leaq	28(%rsp), %r11
	leaq	(%rax,%rdx), %rbp
	movq	(%rsp), %r13
	leaq	(%rax,%r13), %rdi
	movq	%rdi, %rcx
	subq	%rsi, %rcx
	cmpq	%rdx, %rcx
	jae	7f
	cmpq	$4, %rdx
	jb	2f
	cmpq	$32, %rcx
	jae	19f
2:
	xorl	%ecx, %ecx
3:
	movq	%rdx, %r9
	movq	%rcx, %r8
	andq	$3, %r9
	je	5f
	movq	%rcx, %r8
	.p2align	4
4:
	movzbl	(%rsi,%r8), %r10d
	movb	%r10b, (%rdi,%r8)
	incq	%r8
	decq	%r9
	jne	4b
5:
	subq	%rdx, %rcx
	cmpq	$-4, %rcx
	ja	8f
	addq	%r13, %rax
	addq	$3, %rax
	.p2align	4
6:
	movzbl	(%rsi,%r8), %ecx
	movb	%cl, -3(%rax,%r8)
	movzbl	1(%rsi,%r8), %ecx
	movb	%cl, -2(%rax,%r8)
	movzbl	2(%rsi,%r8), %ecx
	movb	%cl, -1(%rax,%r8)
	movzbl	3(%rsi,%r8), %ecx
	movb	%cl, (%rax,%r8)
	addq	$4, %r8
	cmpq	%r8, %rdx
	jne	6b
	jmp	8f
7:
	callq	memmove@PLT
	leaq	28(%rsp), %r11
8:
	movq	%rbp, 8(%rsp)
	movq	%r12, 16(%rsp)
	movl	$32, 24(%rsp)
	movl	$0, 8(%r11)
	movq	$0, (%r11)
	movq	$-1, 40(%rsp)
	cmpq	$0, 48(%rsp)
	jne	26f
	movq	%r12, %rax
	subq	%rbp, %rax
	cmpq	%rax, %r14
	ja	31f
9:
	leaq	(%r14,%rbp), %r8
	movq	%r13, %rdi
	addq	%rbp, %rdi
	movq	%rdi, %rax
	subq	%r15, %rax
	cmpq	%r14, %rax
	jae	15f
	cmpq	$4, %r14
	jb	10f
	cmpq	$32, %rax
	jae	20f
10:
	xorl	%eax, %eax
11:
	movq	%r14, %rdx
	movq	%rax, %rcx
	andq	$3, %rdx
	je	13f
	movq	%rax, %rcx
	.p2align	4
12:
	movzbl	(%r15,%rcx), %esi
	movb	%sil, (%rdi,%rcx)
	incq	%rcx
	decq	%rdx
	jne	12b
13:
	subq	%r14, %rax
	cmpq	$-4, %rax
	ja	16f
	leaq	3(,%r13), %rax
	addq	%rbp, %rax
	.p2align	4
14:
	movzbl	(%r15,%rcx), %edx
	movb	%dl, -3(%rax,%rcx)
	movzbl	1(%r15,%rcx), %edx
	movb	%dl, -2(%rax,%rcx)
	movzbl	2(%r15,%rcx), %edx
	movb	%dl, -1(%rax,%rcx)
	movzbl	3(%r15,%rcx), %edx
	movb	%dl, (%rax,%rcx)
	addq	$4, %rcx
	cmpq	%rcx, %r14
	jne	14b
	jmp	16f
15:
	movq	%r15, %rsi
	movq	%r14, %rdx
	movq	%r8, %r14
	callq	memmove@PLT
	movq	%r14, %r8
16:
	movq	%r8, 8(%rsp)
	movq	%r12, 80(%rsp)
	movaps	(%rsp), %xmm0
	movaps	%xmm0, 64(%rsp)
	movq	%r12, 16(%rbx)
	movups	%xmm0, (%rbx)
17:
	xorl	%eax, %eax
18:
	addq	$104, %rsp
	popq	%rbx
	popq	%r12
	popq	%r13
	popq	%r14
	popq	%r15
	popq	%rbp
	retq
19:
	cmpq	$32, %rdx
	jae	21f
	xorl	%ecx, %ecx
	jmp	23f
20:
	cmpq	$32, %r14
	jae	27f
	xorl	%eax, %eax
	jmp	29f
21:
	movq	%rdx, %rcx
	andq	$-32, %rcx
	leaq	(%rax,%r13), %r8
	addq	$16, %r8
	xorl	%r9d, %r9d
	.p2align	4
22:
	movups	(%rsi,%r9), %xmm0
	movups	16(%rsi,%r9), %xmm1
	movups	%xmm0, -16(%r8,%r9)
	movups	%xmm1, (%r8,%r9)
	addq	$32, %r9
	cmpq	%r9, %rcx
	jne	22b
	cmpq	%rcx, %rdx
	je	8b
	testb	$28, %dl
	je	3b
23:
	movq	%rcx, %r8
	movq	%rdx, %rcx
	andq	$-4, %rcx
	.p2align	4
24:
	movl	(%rsi,%r8), %r9d
	movl	%r9d, (%rdi,%r8)
	addq	$4, %r8
	cmpq	%r8, %rcx
	jne	24b
	cmpq	%rcx, %rdx
	je	8b
	jmp	3b
25:
	movq	%rsi, %r13
	movq	%rsp, %rdi
	movq	%rdx, %rbp
	movq	%rdx, %rsi
	callq	"std_alloc::vec::Vec::grow_amortized::<#1d775b5957dec42c>"
	testb	%al, %al
	je	32f
	movq	8(%rsp), %rax
	movq	16(%rsp), %r12
	movq	%r13, %rsi
	movq	%rbp, %rdx
	jmp	1b
26:
	movq	%rsp, %rdi
	movq	%r15, %rsi
	movq	%r14, %rdx
	callq	"core::fmt::formatter::Formatter::write_indented::<#0a7ff941e43d6b30>"
	movq	16(%rsp), %rcx
	movq	%rcx, 80(%rsp)
	movaps	(%rsp), %xmm0
	movaps	%xmm0, 64(%rsp)
	movq	%rcx, 16(%rbx)
	movups	%xmm0, (%rbx)
	testb	%al, %al
	jne	33f
	jmp	17b
27:
	movq	%r14, %rax
	andq	$-32, %rax
	leaq	16(,%r13), %rcx
	addq	%rbp, %rcx
	xorl	%edx, %edx
	.p2align	4
28:
	movups	(%r15,%rdx), %xmm0
	movups	16(%r15,%rdx), %xmm1
	movups	%xmm0, -16(%rcx,%rdx)
	movups	%xmm1, (%rcx,%rdx)
	addq	$32, %rdx
	cmpq	%rdx, %rax
	jne	28b
	cmpq	%rax, %r14
	je	16b
	testb	$28, %r14b
	je	11b
29:
	movq	%rax, %rcx
	movq	%r14, %rax
	andq	$-4, %rax
	.p2align	4
30:
	movl	(%r15,%rcx), %edx
	movl	%edx, (%rdi,%rcx)
	addq	$4, %rcx
	cmpq	%rcx, %rax
	jne	30b
	cmpq	%rax, %r14
	je	16b
	jmp	11b
31:
	movq	%rsp, %rdi
	movq	%r14, %rsi
	callq	"std_alloc::vec::Vec::grow_amortized::<#1d775b5957dec42c>"
	testb	%al, %al
	je	32f
	movq	(%rsp), %r13
	movq	8(%rsp), %rbp
	movq	16(%rsp), %r12
	jmp	9b
32:
	movq	16(%rsp), %rax
	movq	%rax, 80(%rsp)
	movaps	(%rsp), %xmm0
	movaps	%xmm0, 64(%rsp)
	movq	%rax, 16(%rbx)
	movups	%xmm0, (%rbx)
33:
	movq	8(%rbx), %rcx
	movq	96(%rsp), %rdx
	testq	%rdx, %rdx
	je	34f
	cmpq	%rcx, %rdx
	je	34f
	movb	$1, %al
	cmpq	%rdx, %rcx
	jb	18b
	jbe	18b
	movq	(%rbx), %rcx
	cmpb	$-65, (%rcx,%rdx)
	jg	35f
	jmp	18b
34:
	movb	$1, %al
	cmpq	%rdx, %rcx
	jbe	18b
35:
	movq	%rdx, 8(%rbx)
	movb	$1, %al
	jmp	18b
36:
	.size	"std_alloc::string::String::write_fmt::<#004689434896fd94>", 36b-"std_alloc::string::String::write_fmt::<#004689434896fd94>"

	.text
	.p2align	4
	.type	"std_alloc::string::String::write_fmt::<#2099f3822be05dd7>",@function
"std_alloc::string::String::write_fmt::<#2099f3822be05dd7>":
	pushq	%rbp
	pushq	%r15
	pushq	%r14
	pushq	%r13
	pushq	%r12
	pushq	%rbx
	subq	$104, %rsp
	movq	%rdi, %rbx
	movq	(%rsi), %rax
	movq	8(%rsi), %r15
	movq	16(%rsi), %r14
	movq	8(%rdi), %rcx
	movq	%rcx, 96(%rsp)
	movq	16(%rdi), %r12
	movq	%r12, 16(%rsp)
	movups	(%rdi), %xmm0
	movaps	%xmm0, (%rsp)
	xorps	%xmm0, %xmm0
	movaps	%xmm0, 48(%rsp)
	movl	$32, 24(%rsp)
	movq	$0, 28(%rsp)
	movl	$0, 36(%rsp)
	movq	$-1, 40(%rsp)
	movq	(%rax), %rsi
	movq	8(%rax), %rdx
	movq	8(%rsp), %rax
	movq	%r12, %rcx
	subq	%rax, %rcx
	cmpq	%rcx, %rdx
	ja	25f
1:
	leaq	28(%rsp), %r11
	leaq	(%rax,%rdx), %rbp
	movq	(%rsp), %r13
	leaq	(%rax,%r13), %rdi
	movq	%rdi, %rcx
	subq	%rsi, %rcx
	cmpq	%rdx, %rcx
	jae	7f
	cmpq	$4, %rdx
	jb	2f
	cmpq	$32, %rcx
	jae	19f
2:
	xorl	%ecx, %ecx
3:
	movq	%rdx, %r9
	movq	%rcx, %r8
	andq	$3, %r9
	je	5f
	movq	%rcx, %r8
	.p2align	4
4:
	movzbl	(%rsi,%r8), %r10d
	movb	%r10b, (%rdi,%r8)
	incq	%r8
	decq	%r9
	jne	4b
5:
	subq	%rdx, %rcx
	cmpq	$-4, %rcx
	ja	8f
	addq	%r13, %rax
	addq	$3, %rax
	.p2align	4
6:
	movzbl	(%rsi,%r8), %ecx
	movb	%cl, -3(%rax,%r8)
	movzbl	1(%rsi,%r8), %ecx
	movb	%cl, -2(%rax,%r8)
	movzbl	2(%rsi,%r8), %ecx
	movb	%cl, -1(%rax,%r8)
	movzbl	3(%rsi,%r8), %ecx
	movb	%cl, (%rax,%r8)
	addq	$4, %r8
	cmpq	%r8, %rdx
	jne	6b
	jmp	8f
7:
	callq	memmove@PLT
	leaq	28(%rsp), %r11
8:
	movq	%rbp, 8(%rsp)
	movq	%r12, 16(%rsp)
	movl	$32, 24(%rsp)
	movl	$0, 8(%r11)
	movq	$0, (%r11)
	movq	$-1, 40(%rsp)
	cmpq	$0, 48(%rsp)
	jne	26f
	movq	%r12, %rax
	subq	%rbp, %rax
	cmpq	%rax, %r14
	ja	31f
9:
	leaq	(%r14,%rbp), %r8
	movq	%r13, %rdi
	addq	%rbp, %rdi
	movq	%rdi, %rax
	subq	%r15, %rax
	cmpq	%r14, %rax
	jae	15f
	cmpq	$4, %r14
	jb	10f
	cmpq	$32, %rax
	jae	20f
10:
	xorl	%eax, %eax
11:
	movq	%r14, %rdx
	movq	%rax, %rcx
	andq	$3, %rdx
	je	13f
	movq	%rax, %rcx
	.p2align	4
12:
	movzbl	(%r15,%rcx), %esi
	movb	%sil, (%rdi,%rcx)
	incq	%rcx
	decq	%rdx
	jne	12b
13:
	subq	%r14, %rax
	cmpq	$-4, %rax
	ja	16f
	leaq	3(,%r13), %rax
	addq	%rbp, %rax
	.p2align	4
14:
	movzbl	(%r15,%rcx), %edx
	movb	%dl, -3(%rax,%rcx)
	movzbl	1(%r15,%rcx), %edx
	movb	%dl, -2(%rax,%rcx)
	movzbl	2(%r15,%rcx), %edx
	movb	%dl, -1(%rax,%rcx)
	movzbl	3(%r15,%rcx), %edx
	movb	%dl, (%rax,%rcx)
	addq	$4, %rcx
	cmpq	%rcx, %r14
	jne	14b
	jmp	16f
15:
	movq	%r15, %rsi
	movq	%r14, %rdx
	movq	%r8, %r14
	callq	memmove@PLT
	movq	%r14, %r8
16:
	movq	%r8, 8(%rsp)
	movq	%r12, 80(%rsp)
	movaps	(%rsp), %xmm0
	movaps	%xmm0, 64(%rsp)
	movq	%r12, 16(%rbx)
	movups	%xmm0, (%rbx)
17:
	xorl	%eax, %eax
18:
	addq	$104, %rsp
	popq	%rbx
	popq	%r12
	popq	%r13
	popq	%r14
	popq	%r15
	popq	%rbp
	retq
19:
	cmpq	$32, %rdx
	jae	21f
	xorl	%ecx, %ecx
	jmp	23f
20:
	cmpq	$32, %r14
	jae	27f
	xorl	%eax, %eax
	jmp	29f
21:
	movq	%rdx, %rcx
	andq	$-32, %rcx
	leaq	(%rax,%r13), %r8
	addq	$16, %r8
	xorl	%r9d, %r9d
	.p2align	4
22:
	movups	(%rsi,%r9), %xmm0
	movups	16(%rsi,%r9), %xmm1
	movups	%xmm0, -16(%r8,%r9)
	movups	%xmm1, (%r8,%r9)
	addq	$32, %r9
	cmpq	%r9, %rcx
	jne	22b
	cmpq	%rcx, %rdx
	je	8b
	testb	$28, %dl
	je	3b
23:
	movq	%rcx, %r8
	movq	%rdx, %rcx
	andq	$-4, %rcx
	.p2align	4
24:
	movl	(%rsi,%r8), %r9d
	movl	%r9d, (%rdi,%r8)
	addq	$4, %r8
	cmpq	%r8, %rcx
	jne	24b
	cmpq	%rcx, %rdx
	je	8b
	jmp	3b
25:
	movq	%rsi, %r13
	movq	%rsp, %rdi
	movq	%rdx, %rbp
	movq	%rdx, %rsi
	callq	"std_alloc::vec::Vec::grow_amortized::<#1d775b5957dec42c>"
	testb	%al, %al
	je	32f
	movq	8(%rsp), %rax
	movq	16(%rsp), %r12
	movq	%r13, %rsi
	movq	%rbp, %rdx
	jmp	1b
26:
	movq	%rsp, %rdi
	movq	%r15, %rsi
	movq	%r14, %rdx
	callq	"core::fmt::formatter::Formatter::write_indented::<#0a7ff941e43d6b30>"
	movq	16(%rsp), %rcx
	movq	%rcx, 80(%rsp)
	movaps	(%rsp), %xmm0
	movaps	%xmm0, 64(%rsp)
	movq	%rcx, 16(%rbx)
	movups	%xmm0, (%rbx)
	testb	%al, %al
	jne	33f
	jmp	17b
27:
	movq	%r14, %rax
	andq	$-32, %rax
	leaq	16(,%r13), %rcx
	addq	%rbp, %rcx
	xorl	%edx, %edx
	.p2align	4
28:
	movups	(%r15,%rdx), %xmm0
	movups	16(%r15,%rdx), %xmm1
	movups	%xmm0, -16(%rcx,%rdx)
	movups	%xmm1, (%rcx,%rdx)
	addq	$32, %rdx
	cmpq	%rdx, %rax
	jne	28b
	cmpq	%rax, %r14
	je	16b
	testb	$28, %r14b
	je	11b
29:
	movq	%rax, %rcx
	movq	%r14, %rax
	andq	$-4, %rax
	.p2align	4
30:
	movl	(%r15,%rcx), %edx
	movl	%edx, (%rdi,%rcx)
	addq	$4, %rcx
	cmpq	%rcx, %rax
	jne	30b
	cmpq	%rax, %r14
	je	16b
	jmp	11b
31:
	movq	%rsp, %rdi
	movq	%r14, %rsi
	callq	"std_alloc::vec::Vec::grow_amortized::<#1d775b5957dec42c>"
	testb	%al, %al
	je	32f
	movq	(%rsp), %r13
	movq	8(%rsp), %rbp
	movq	16(%rsp), %r12
	jmp	9b
32:
	movq	16(%rsp), %rax
	movq	%rax, 80(%rsp)
	movaps	(%rsp), %xmm0
	movaps	%xmm0, 64(%rsp)
	movq	%rax, 16(%rbx)
	movups	%xmm0, (%rbx)
33:
	movq	8(%rbx), %rcx
	movq	96(%rsp), %rdx
	testq	%rdx, %rdx
	je	34f
	cmpq	%rcx, %rdx
	je	34f
	movb	$1, %al
	cmpq	%rdx, %rcx
	jb	18b
	jbe	18b
	movq	(%rbx), %rcx
	cmpb	$-65, (%rcx,%rdx)
	jg	35f
	jmp	18b
34:
	movb	$1, %al
	cmpq	%rdx, %rcx
	jbe	18b
35:
	movq	%rdx, 8(%rbx)
	movb	$1, %al
	jmp	18b
36:
	.size	"std_alloc::string::String::write_fmt::<#2099f3822be05dd7>", 36b-"std_alloc::string::String::write_fmt::<#2099f3822be05dd7>"

	.text
	.p2align	4
	.type	"std_alloc::string::String::write_fmt::<#2f338da004e7b1a4>",@function
"std_alloc::string::String::write_fmt::<#2f338da004e7b1a4>":
	pushq	%rbp
	pushq	%r15
	pushq	%r14
	pushq	%r13
	pushq	%r12
	pushq	%rbx
	subq	$104, %rsp
	movq	%rsi, %rax
	movq	%rdi, %rbx
	movq	(%rsi), %rsi
	movq	8(%rax), %rdx
	movq	16(%rax), %rbp
	movq	8(%rdi), %rax
	movq	%rax, 96(%rsp)
	movups	(%rdi), %xmm0
	movaps	%xmm0, (%rsp)
	movq	16(%rdi), %r14
	movq	%r14, 16(%rsp)
	xorps	%xmm0, %xmm0
	movaps	%xmm0, 48(%rsp)
	movl	$32, 24(%rsp)
	movq	$0, 28(%rsp)
	movl	$0, 36(%rsp)
	movq	$-1, 40(%rsp)
	movq	8(%rsp), %rax
	movq	%r14, %rcx
	subq	%rax, %rcx
	cmpq	%rcx, %rdx
	ja	25f
1:
	leaq	28(%rsp), %r13
	leaq	(%rax,%rdx), %r12
	movq	(%rsp), %r15
	leaq	(%r15,%rax), %rdi
	movq	%rdi, %rcx
	subq	%rsi, %rcx
	cmpq	%rdx, %rcx
	jae	7f
	cmpq	$4, %rdx
	jb	2f
	cmpq	$32, %rcx
	jae	19f
2:
	xorl	%ecx, %ecx
3:
	movq	%rdx, %r9
	movq	%rcx, %r8
	andq	$3, %r9
	je	5f
	movq	%rcx, %r8
	.p2align	4
4:
	movzbl	(%rsi,%r8), %r10d
	movb	%r10b, (%rdi,%r8)
	incq	%r8
	decq	%r9
	jne	4b
5:
	subq	%rdx, %rcx
	cmpq	$-4, %rcx
	ja	8f
	addq	%r15, %rax
	addq	$3, %rax
	.p2align	4
6:
	movzbl	(%rsi,%r8), %ecx
	movb	%cl, -3(%rax,%r8)
	movzbl	1(%rsi,%r8), %ecx
	movb	%cl, -2(%rax,%r8)
	movzbl	2(%rsi,%r8), %ecx
	movb	%cl, -1(%rax,%r8)
	movzbl	3(%rsi,%r8), %ecx
	movb	%cl, (%rax,%r8)
	addq	$4, %r8
	cmpq	%r8, %rdx
	jne	6b
	jmp	8f
7:
	callq	memmove@PLT
8:
	movq	%r12, 8(%rsp)
	movq	%r14, 16(%rsp)
	movl	$32, 24(%rsp)
	movl	$0, 8(%r13)
	movq	$0, (%r13)
	movq	$-1, 40(%rsp)
	movq	(%rbp), %rsi
	movq	8(%rbp), %rdx
	cmpq	$0, 48(%rsp)
	jne	26f
	movq	%r14, %rax
	subq	%r12, %rax
	cmpq	%rax, %rdx
	ja	31f
9:
	leaq	(%r12,%rdx), %r13
	leaq	(%r15,%r12), %rdi
	movq	%rdi, %rax
	subq	%rsi, %rax
	cmpq	%rdx, %rax
	jae	15f
	cmpq	$4, %rdx
	jb	10f
	cmpq	$32, %rax
	jae	20f
10:
	xorl	%eax, %eax
11:
	movq	%rdx, %r8
	movq	%rax, %rcx
	andq	$3, %r8
	je	13f
	movq	%rax, %rcx
	.p2align	4
12:
	movzbl	(%rsi,%rcx), %r9d
	movb	%r9b, (%rdi,%rcx)
	incq	%rcx
	decq	%r8
	jne	12b
13:
	subq	%rdx, %rax
	cmpq	$-4, %rax
	ja	16f
	leaq	(%r12,%r15), %rax
	addq	$3, %rax
	.p2align	4
14:
	movzbl	(%rsi,%rcx), %edi
	movb	%dil, -3(%rax,%rcx)
	movzbl	1(%rsi,%rcx), %edi
	movb	%dil, -2(%rax,%rcx)
	movzbl	2(%rsi,%rcx), %edi
	movb	%dil, -1(%rax,%rcx)
	movzbl	3(%rsi,%rcx), %edi
	movb	%dil, (%rax,%rcx)
	addq	$4, %rcx
	cmpq	%rcx, %rdx
	jne	14b
	jmp	16f
15:
	callq	memmove@PLT
16:
	movq	%r13, 8(%rsp)
	movq	%r14, 80(%rsp)
	movaps	(%rsp), %xmm0
	movaps	%xmm0, 64(%rsp)
	movq	%r14, 16(%rbx)
	movups	%xmm0, (%rbx)
17:
	xorl	%eax, %eax
18:
	addq	$104, %rsp
	popq	%rbx
	popq	%r12
	popq	%r13
	popq	%r14
	popq	%r15
	popq	%rbp
	retq
19:
	cmpq	$32, %rdx
	jae	21f
	xorl	%ecx, %ecx
	jmp	23f
20:
	cmpq	$32, %rdx
	jae	27f
	xorl	%eax, %eax
	jmp	29f
21:
	movq	%rdx, %rcx
	andq	$-32, %rcx
	leaq	(%rax,%r15), %r8
	addq	$16, %r8
	xorl	%r9d, %r9d
	.p2align	4
22:
	movups	(%rsi,%r9), %xmm0
	movups	16(%rsi,%r9), %xmm1
	movups	%xmm0, -16(%r8,%r9)
	movups	%xmm1, (%r8,%r9)
	addq	$32, %r9
	cmpq	%r9, %rcx
	jne	22b
	cmpq	%rcx, %rdx
	je	8b
	testb	$28, %dl
	je	3b
23:
	movq	%rcx, %r8
	movq	%rdx, %rcx
	andq	$-4, %rcx
	.p2align	4
24:
	movl	(%rsi,%r8), %r9d
	movl	%r9d, (%rdi,%r8)
	addq	$4, %r8
	cmpq	%r8, %rcx
	jne	24b
	cmpq	%rcx, %rdx
	je	8b
	jmp	3b
25:
	movq	%rsi, %r15
	movq	%rsp, %rdi
	movq	%rdx, %r12
	movq	%rdx, %rsi
	callq	"std_alloc::vec::Vec::grow_amortized::<#1d775b5957dec42c>"
	testb	%al, %al
	je	32f
	movq	8(%rsp), %rax
	movq	16(%rsp), %r14
	movq	%r15, %rsi
	movq	%r12, %rdx
	jmp	1b
26:
	movq	%rsp, %rdi
	callq	"core::fmt::formatter::Formatter::write_indented::<#0a7ff941e43d6b30>"
	movq	16(%rsp), %rcx
	movq	%rcx, 80(%rsp)
	movaps	(%rsp), %xmm0
	movaps	%xmm0, 64(%rsp)
	movq	%rcx, 16(%rbx)
	movups	%xmm0, (%rbx)
	testb	%al, %al
	jne	33f
	jmp	17b
27:
	movq	%rdx, %rax
	andq	$-32, %rax
	leaq	(%r12,%r15), %rcx
	addq	$16, %rcx
	xorl	%r8d, %r8d
	.p2align	4
28:
	movups	(%rsi,%r8), %xmm0
	movups	16(%rsi,%r8), %xmm1
	movups	%xmm0, -16(%rcx,%r8)
	movups	%xmm1, (%rcx,%r8)
	addq	$32, %r8
	cmpq	%r8, %rax
	jne	28b
	cmpq	%rax, %rdx
	je	16b
	testb	$28, %dl
	je	11b
29:
	movq	%rax, %rcx
	movq	%rdx, %rax
	andq	$-4, %rax
	.p2align	4
30:
	movl	(%rsi,%rcx), %r8d
	movl	%r8d, (%rdi,%rcx)
	addq	$4, %rcx
	cmpq	%rcx, %rax
	jne	30b
	cmpq	%rax, %rdx
	je	16b
	jmp	11b
31:
	movq	%rsi, %r13
	movq	%rsp, %rdi
	movq	%rdx, %rbp
	movq	%rdx, %rsi
	callq	"std_alloc::vec::Vec::grow_amortized::<#1d775b5957dec42c>"
	testb	%al, %al
	je	32f
	movq	(%rsp), %r15
	movq	8(%rsp), %r12
	movq	16(%rsp), %r14
	movq	%rbp, %rdx
	movq	%r13, %rsi
	jmp	9b
32:
	movq	16(%rsp), %rax
	movq	%rax, 80(%rsp)
	movaps	(%rsp), %xmm0
	movaps	%xmm0, 64(%rsp)
	movq	%rax, 16(%rbx)
	movups	%xmm0, (%rbx)
33:
	movq	8(%rbx), %rcx
	movq	96(%rsp), %rdx
	testq	%rdx, %rdx
	je	34f
	cmpq	%rcx, %rdx
	je	34f
	movb	$1, %al
	cmpq	%rdx, %rcx
	jb	18b
	jbe	18b
	movq	(%rbx), %rcx
	cmpb	$-65, (%rcx,%rdx)
	jg	35f
	jmp	18b
34:
	movb	$1, %al
	cmpq	%rdx, %rcx
	jbe	18b
35:
	movq	%rdx, 8(%rbx)
	movb	$1, %al
	jmp	18b
36:
	.size	"std_alloc::string::String::write_fmt::<#2f338da004e7b1a4>", 36b-"std_alloc::string::String::write_fmt::<#2f338da004e7b1a4>"

	.text
	.p2align	4
	.type	"std_alloc::string::String::write_fmt::<#30f651fa9ab76bd9>",@function
"std_alloc::string::String::write_fmt::<#30f651fa9ab76bd9>":
	pushq	%rbp
	pushq	%r15
	pushq	%r14
	pushq	%r13
	pushq	%r12
	pushq	%rbx
	subq	$104, %rsp
	movq	%rsi, %rax
	movq	%rdi, %rbx
	movq	(%rsi), %rsi
	movq	8(%rax), %rdx
	movq	16(%rax), %r12
	movq	24(%rax), %r15
	movq	8(%rdi), %rax
	movq	%rax, 96(%rsp)
	movups	(%rdi), %xmm0
	movaps	%xmm0, (%rsp)
	movq	16(%rdi), %r13
	movq	%r13, 16(%rsp)
	xorps	%xmm0, %xmm0
	movaps	%xmm0, 48(%rsp)
	movl	$32, 24(%rsp)
	movq	$0, 28(%rsp)
	movl	$0, 36(%rsp)
	movq	$-1, 40(%rsp)
	movq	8(%rsp), %rax
	movq	%r13, %rcx
	subq	%rax, %rcx
	cmpq	%rcx, %rdx
	ja	35f
1:
	leaq	28(%rsp), %r11
	leaq	(%rax,%rdx), %r14
	movq	(%rsp), %rbp
	leaq	(%rax,%rbp), %rdi
	movq	%rdi, %rcx
	subq	%rsi, %rcx
	cmpq	%rdx, %rcx
	jae	7f
	cmpq	$4, %rdx
	jb	2f
	cmpq	$32, %rcx
	jae	28f
2:
	xorl	%ecx, %ecx
3:
	movq	%rdx, %r9
	movq	%rcx, %r8
	andq	$3, %r9
	je	5f
	movq	%rcx, %r8
	.p2align	4
4:
	movzbl	(%rsi,%r8), %r10d
	movb	%r10b, (%rdi,%r8)
	incq	%r8
	decq	%r9
	jne	4b
5:
	subq	%rdx, %rcx
	cmpq	$-4, %rcx
	ja	8f
	addq	%rbp, %rax
	addq	$3, %rax
	.p2align	4
6:
	movzbl	(%rsi,%r8), %ecx
	movb	%cl, -3(%rax,%r8)
	movzbl	1(%rsi,%r8), %ecx
	movb	%cl, -2(%rax,%r8)
	movzbl	2(%rsi,%r8), %ecx
	movb	%cl, -1(%rax,%r8)
	movzbl	3(%rsi,%r8), %ecx
	movb	%cl, (%rax,%r8)
	addq	$4, %r8
	cmpq	%r8, %rdx
	jne	6b
	jmp	8f
7:
	callq	memmove@PLT
	leaq	28(%rsp), %r11
8:
	movq	%r14, 8(%rsp)
	movq	%r13, 16(%rsp)
	movl	$32, 24(%rsp)
	movl	$0, 8(%r11)
	movq	$0, (%r11)
	movq	$-1, 40(%rsp)
	movq	(%r12), %rsi
	movq	8(%r12), %rdx
	cmpq	$0, 48(%rsp)
	jne	36f
	movq	%r13, %rax
	subq	%r14, %rax
	cmpq	%rax, %rdx
	ja	41f
9:
	leaq	(%r14,%rdx), %r12
	leaq	(%r14,%rbp), %rdi
	movq	%rdi, %rax
	subq	%rsi, %rax
	cmpq	%rdx, %rax
	jae	15f
	cmpq	$4, %rdx
	jb	10f
	cmpq	$32, %rax
	jae	29f
10:
	xorl	%eax, %eax
11:
	movq	%rdx, %r8
	movq	%rax, %rcx
	andq	$3, %r8
	je	13f
	movq	%rax, %rcx
	.p2align	4
12:
	movzbl	(%rsi,%rcx), %r9d
	movb	%r9b, (%rdi,%rcx)
	incq	%rcx
	decq	%r8
	jne	12b
13:
	subq	%rdx, %rax
	cmpq	$-4, %rax
	ja	16f
	leaq	(%r14,%rbp), %rax
	addq	$3, %rax
	.p2align	4
14:
	movzbl	(%rsi,%rcx), %edi
	movb	%dil, -3(%rax,%rcx)
	movzbl	1(%rsi,%rcx), %edi
	movb	%dil, -2(%rax,%rcx)
	movzbl	2(%rsi,%rcx), %edi
	movb	%dil, -1(%rax,%rcx)
	movzbl	3(%rsi,%rcx), %edi
	movb	%dil, (%rax,%rcx)
	addq	$4, %rcx
	cmpq	%rcx, %rdx
	jne	14b
	jmp	16f
15:
	callq	memmove@PLT
	leaq	28(%rsp), %r11
16:
	movq	%r12, 8(%rsp)
	movq	%r13, 16(%rsp)
17:
	movl	$32, 24(%rsp)
	movl	$0, 8(%r11)
	movq	$0, (%r11)
	movq	$-1, 40(%rsp)
	movq	(%r15), %rsi
	movq	8(%r15), %rdx
	cmpq	$0, 48(%rsp)
	jne	42f
	movq	8(%rsp), %rax
	movq	16(%rsp), %r14
	movq	%r14, %rcx
	subq	%rax, %rcx
	cmpq	%rcx, %rdx
	ja	47f
18:
	leaq	(%rax,%rdx), %r15
	movq	(%rsp), %rcx
	leaq	(%rcx,%rax), %rdi
	movq	%rdi, %r8
	subq	%rsi, %r8
	cmpq	%rdx, %r8
	jae	24f
	cmpq	$4, %rdx
	jb	19f
	cmpq	$32, %r8
	jae	30f
19:
	xorl	%r8d, %r8d
20:
	movq	%rdx, %r10
	movq	%r8, %r9
	andq	$3, %r10
	je	22f
	movq	%r8, %r9
	.p2align	4
21:
	movzbl	(%rsi,%r9), %r11d
	movb	%r11b, (%rdi,%r9)
	incq	%r9
	decq	%r10
	jne	21b
22:
	subq	%rdx, %r8
	cmpq	$-4, %r8
	ja	25f
	addq	%rcx, %rax
	addq	$3, %rax
	.p2align	4
23:
	movzbl	(%rsi,%r9), %ecx
	movb	%cl, -3(%rax,%r9)
	movzbl	1(%rsi,%r9), %ecx
	movb	%cl, -2(%rax,%r9)
	movzbl	2(%rsi,%r9), %ecx
	movb	%cl, -1(%rax,%r9)
	movzbl	3(%rsi,%r9), %ecx
	movb	%cl, (%rax,%r9)
	addq	$4, %r9
	cmpq	%r9, %rdx
	jne	23b
	jmp	25f
24:
	callq	memmove@PLT
25:
	movq	%r15, 8(%rsp)
	movq	%r14, 80(%rsp)
	movaps	(%rsp), %xmm0
	movaps	%xmm0, 64(%rsp)
	movq	%r14, 16(%rbx)
	movups	%xmm0, (%rbx)
26:
	xorl	%eax, %eax
27:
	addq	$104, %rsp
	popq	%rbx
	popq	%r12
	popq	%r13
	popq	%r14
	popq	%r15
	popq	%rbp
	retq
28:
	cmpq	$32, %rdx
	jae	31f
	xorl	%ecx, %ecx
	jmp	33f
29:
	cmpq	$32, %rdx
	jae	37f
	xorl	%eax, %eax
	jmp	39f
30:
	cmpq	$32, %rdx
	jae	43f
	xorl	%r8d, %r8d
	jmp	45f
31:
	movq	%rdx, %rcx
	andq	$-32, %rcx
	leaq	(%rax,%rbp), %r8
	addq	$16, %r8
	xorl	%r9d, %r9d
	.p2align	4
32:
	movups	(%rsi,%r9), %xmm0
	movups	16(%rsi,%r9), %xmm1
	movups	%xmm0, -16(%r8,%r9)
	movups	%xmm1, (%r8,%r9)
	addq	$32, %r9
	cmpq	%r9, %rcx
	jne	32b
	cmpq	%rcx, %rdx
	je	8b
	testb	$28, %dl
	je	3b
33:
	movq	%rcx, %r8
	movq	%rdx, %rcx
	andq	$-4, %rcx
	.p2align	4
34:
	movl	(%rsi,%r8), %r9d
	movl	%r9d, (%rdi,%r8)
	addq	$4, %r8
	cmpq	%r8, %rcx
	jne	34b
	cmpq	%rcx, %rdx
	je	8b
	jmp	3b
35:
	movq	%rsi, %r14
	movq	%rsp, %rdi
	movq	%rdx, %rbp
	movq	%rdx, %rsi
	callq	"std_alloc::vec::Vec::grow_amortized::<#1d775b5957dec42c>"
	testb	%al, %al
	je	48f
	movq	8(%rsp), %rax
	movq	16(%rsp), %r13
	movq	%r14, %rsi
	movq	%rbp, %rdx
	jmp	1b
36:
	movq	%rsp, %rdi
	callq	"core::fmt::formatter::Formatter::write_indented::<#0a7ff941e43d6b30>"
	leaq	28(%rsp), %r11
	testb	%al, %al
	jne	48f
	jmp	17b
37:
	movq	%rdx, %rax
	andq	$-32, %rax
	leaq	(%r14,%rbp), %rcx
	addq	$16, %rcx
	xorl	%r8d, %r8d
	.p2align	4
38:
	movups	(%rsi,%r8), %xmm0
	movups	16(%rsi,%r8), %xmm1
	movups	%xmm0, -16(%rcx,%r8)
	movups	%xmm1, (%rcx,%r8)
	addq	$32, %r8
	cmpq	%r8, %rax
	jne	38b
	cmpq	%rax, %rdx
	je	16b
	testb	$28, %dl
	je	11b
39:
	movq	%rax, %rcx
	movq	%rdx, %rax
	andq	$-4, %rax
	.p2align	4
40:
	movl	(%rsi,%rcx), %r8d
	movl	%r8d, (%rdi,%rcx)
	addq	$4, %rcx
	cmpq	%rcx, %rax
	jne	40b
	cmpq	%rax, %rdx
	je	16b
	jmp	11b
41:
	movq	%rsi, 88(%rsp)
	movq	%rsp, %rdi
	movq	%rdx, %r12
	movq	%rdx, %rsi
	callq	"std_alloc::vec::Vec::grow_amortized::<#1d775b5957dec42c>"
	leaq	28(%rsp), %r11
	testb	%al, %al
	je	48f
	movq	(%rsp), %rbp
	movq	8(%rsp), %r14
	movq	16(%rsp), %r13
	movq	%r12, %rdx
	movq	88(%rsp), %rsi
	jmp	9b
42:
	movq	%rsp, %rdi
	callq	"core::fmt::formatter::Formatter::write_indented::<#0a7ff941e43d6b30>"
	movq	16(%rsp), %rcx
	movq	%rcx, 80(%rsp)
	movaps	(%rsp), %xmm0
	movaps	%xmm0, 64(%rsp)
	movq	%rcx, 16(%rbx)
	movups	%xmm0, (%rbx)
	testb	%al, %al
	jne	49f
	jmp	26b
43:
	movq	%rdx, %r8
	andq	$-32, %r8
	leaq	(%rax,%rcx), %r9
	addq	$16, %r9
	xorl	%r10d, %r10d
	.p2align	4
44:
	movups	(%rsi,%r10), %xmm0
	movups	16(%rsi,%r10), %xmm1
	movups	%xmm0, -16(%r9,%r10)
	movups	%xmm1, (%r9,%r10)
	addq	$32, %r10
	cmpq	%r10, %r8
	jne	44b
	cmpq	%r8, %rdx
	je	25b
	testb	$28, %dl
	je	20b
45:
	movq	%r8, %r9
	movq	%rdx, %r8
	andq	$-4, %r8
	.p2align	4
46:
	movl	(%rsi,%r9), %r10d
	movl	%r10d, (%rdi,%r9)
	addq	$4, %r9
	cmpq	%r9, %r8
	jne	46b
	cmpq	%r8, %rdx
	je	25b
	jmp	20b
47:
	movq	%rsi, %r15
	movq	%rsp, %rdi
	movq	%rdx, %r12
	movq	%rdx, %rsi
	callq	"std_alloc::vec::Vec::grow_amortized::<#1d775b5957dec42c>"
	testb	%al, %al
	je	48f
	movq	8(%rsp), %rax
	movq	16(%rsp), %r14
	movq	%r12, %rdx
	movq	%r15, %rsi
	jmp	18b
48:
	movq	16(%rsp), %rax
	movq	%rax, 80(%rsp)
	movaps	(%rsp), %xmm0
	movaps	%xmm0, 64(%rsp)
	movq	%rax, 16(%rbx)
	movups	%xmm0, (%rbx)
49:
	movq	8(%rbx), %rcx
	movq	96(%rsp), %rdx
	testq	%rdx, %rdx
	je	50f
	cmpq	%rcx, %rdx
	je	50f
	movb	$1, %al
	cmpq	%rdx, %rcx
	jb	27b
	jbe	27b
	movq	(%rbx), %rcx
	cmpb	$-65, (%rcx,%rdx)
	jg	51f
	jmp	27b
50:
	movb	$1, %al
	cmpq	%rdx, %rcx
	jbe	27b
51:
	movq	%rdx, 8(%rbx)
	movb	$1, %al
	jmp	27b
52:
	.size	"std_alloc::string::String::write_fmt::<#30f651fa9ab76bd9>", 52b-"std_alloc::string::String::write_fmt::<#30f651fa9ab76bd9>"

	.text
	.p2align	4
	.type	"std_alloc::string::String::write_fmt::<#5a254c874babc368>",@function
"std_alloc::string::String::write_fmt::<#5a254c874babc368>":
	pushq	%rbp
	pushq	%r15
	pushq	%r14
	pushq	%r13
	pushq	%r12
	pushq	%rbx
	subq	$136, %rsp
	movq	%rdi, %rbx
	movq	(%rsi), %rax
	movq	8(%rsi), %r13
	movq	16(%rsi), %r15
	movq	24(%rsi), %r14
	movq	32(%rsi), %r12
	movq	40(%rsi), %rbp
	movq	48(%rsi), %rcx
	movq	%rcx, 88(%rsp)
	movq	56(%rsi), %rcx
	movq	%rcx, 120(%rsp)
	movq	64(%rsi), %rcx
	movq	%rcx, 72(%rsp)
	movq	72(%rsi), %rcx
	movq	%rcx, 80(%rsp)
	movq	8(%rdi), %rcx
	movq	%rcx, 128(%rsp)
	movq	16(%rdi), %rcx
	movq	%rcx, 16(%rsp)
	movups	(%rdi), %xmm0
	movaps	%xmm0, (%rsp)
	xorps	%xmm0, %xmm0
	movaps	%xmm0, 48(%rsp)
	movl	$32, 24(%rsp)
	movq	$0, 28(%rsp)
	movl	$0, 36(%rsp)
	movq	$-1, 40(%rsp)
	movq	%rsp, %rdi
	movq	%rax, %rsi
	callq	"core::fmt::formatter::Formatter::write_piece::<#499173829830abb3>"
	testb	%al, %al
	jne	28f
	leaq	28(%rsp), %rax
	movl	$32, 24(%rsp)
	movl	$0, 8(%rax)
	movq	$0, (%rax)
	movq	$-1, 40(%rsp)
	cmpq	$0, 48(%rsp)
	jne	46f
	movq	8(%rsp), %rax
	movq	16(%rsp), %r10
	movq	%r10, %rcx
	subq	%rax, %rcx
	cmpq	%rcx, %r15
	ja	51f
1:
	leaq	(%rax,%r15), %r11
	movq	(%rsp), %rcx
	leaq	(%rcx,%rax), %rdi
	movq	%rdi, %rdx
	subq	%r13, %rdx
	cmpq	%r15, %rdx
	jae	7f
	cmpq	$4, %r15
	jb	2f
	cmpq	$32, %rdx
	jae	43f
2:
	xorl	%edx, %edx
3:
	movq	%r15, %r8
	movq	%rdx, %rsi
	andq	$3, %r8
	je	5f
	movq	%rdx, %rsi
	.p2align	4
4:
	movzbl	(%r13,%rsi), %r9d
	movb	%r9b, (%rdi,%rsi)
	incq	%rsi
	decq	%r8
	jne	4b
5:
	subq	%r15, %rdx
	cmpq	$-4, %rdx
	ja	8f
	addq	%rcx, %rax
	addq	$3, %rax
	.p2align	4
6:
	movzbl	(%r13,%rsi), %ecx
	movb	%cl, -3(%rax,%rsi)
	movzbl	1(%r13,%rsi), %ecx
	movb	%cl, -2(%rax,%rsi)
	movzbl	2(%r13,%rsi), %ecx
	movb	%cl, -1(%rax,%rsi)
	movzbl	3(%r13,%rsi), %ecx
	movb	%cl, (%rax,%rsi)
	addq	$4, %rsi
	cmpq	%rsi, %r15
	jne	6b
	jmp	8f
7:
	movq	%r13, %rsi
	movq	%r15, %rdx
	movq	%r10, %r15
	movq	%r11, %r13
	callq	memmove@PLT
	movq	%r13, %r11
	movq	%r15, %r10
8:
	movq	%r11, 8(%rsp)
	movq	%r10, 16(%rsp)
9:
	movl	$32, 24(%rsp)
	leaq	28(%rsp), %rax
	movl	$0, 8(%rax)
	movq	$0, (%rax)
	movq	$-1, 40(%rsp)
	cmpq	$0, 48(%rsp)
	jne	52f
	movq	8(%rsp), %rax
	movq	16(%rsp), %r15
	movq	%r15, %rcx
	subq	%rax, %rcx
	cmpq	%rcx, %r12
	ja	57f
10:
	leaq	(%rax,%r12), %r13
	movq	(%rsp), %rcx
	leaq	(%rcx,%rax), %rdi
	movq	%rdi, %rdx
	subq	%r14, %rdx
	cmpq	%r12, %rdx
	jae	16f
	cmpq	$4, %r12
	jb	11f
	cmpq	$32, %rdx
	jae	44f
11:
	xorl	%edx, %edx
12:
	movq	%r12, %r8
	movq	%rdx, %rsi
	andq	$3, %r8
	je	14f
	movq	%rdx, %rsi
	.p2align	4
13:
	movzbl	(%r14,%rsi), %r9d
	movb	%r9b, (%rdi,%rsi)
	incq	%rsi
	decq	%r8
	jne	13b
14:
	subq	%r12, %rdx
	cmpq	$-4, %rdx
	ja	17f
	addq	%rcx, %rax
	addq	$3, %rax
	.p2align	4
15:
	movzbl	(%r14,%rsi), %ecx
	movb	%cl, -3(%rax,%rsi)
	movzbl	1(%r14,%rsi), %ecx
	movb	%cl, -2(%rax,%rsi)
	movzbl	2(%r14,%rsi), %ecx
	movb	%cl, -1(%rax,%rsi)
	movzbl	3(%r14,%rsi), %ecx
	movb	%cl, (%rax,%rsi)
	addq	$4, %rsi
	cmpq	%rsi, %r12
	jne	15b
	jmp	17f
16:
	movq	%r14, %rsi
	movq	%r12, %rdx
	callq	memmove@PLT
17:
	movq	%r13, 8(%rsp)
	movq	%r15, 16(%rsp)
18:
	movl	$32, 24(%rsp)
	leaq	28(%rsp), %rax
	movl	$0, 8(%rax)
	movq	$0, (%rax)
	movq	$-1, 40(%rsp)
	cmpq	$0, 48(%rsp)
	jne	58f
	movq	8(%rsp), %rax
	movq	16(%rsp), %r14
	movq	%r14, %rcx
	subq	%rax, %rcx
	movq	88(%rsp), %rdx
	cmpq	%rcx, %rdx
	ja	63f
19:
	leaq	(%rax,%rdx), %r15
	movq	(%rsp), %rcx
	leaq	(%rcx,%rax), %rdi
	movq	%rdi, %rsi
	subq	%rbp, %rsi
	cmpq	%rdx, %rsi
	jae	25f
	cmpq	$4, %rdx
	jb	20f
	cmpq	$32, %rsi
	jae	45f
20:
	xorl	%r10d, %r10d
21:
	movq	%rdx, %r8
	movq	%r10, %rsi
	andq	$3, %r8
	je	23f
	movq	%r10, %rsi
	.p2align	4
22:
	movzbl	(%rbp,%rsi), %r9d
	movb	%r9b, (%rdi,%rsi)
	incq	%rsi
	decq	%r8
	jne	22b
23:
	subq	%rdx, %r10
	cmpq	$-4, %r10
	ja	26f
	addq	%rcx, %rax
	addq	$3, %rax
	.p2align	4
24:
	movzbl	(%rbp,%rsi), %ecx
	movb	%cl, -3(%rax,%rsi)
	movzbl	1(%rbp,%rsi), %ecx
	movb	%cl, -2(%rax,%rsi)
	movzbl	2(%rbp,%rsi), %ecx
	movb	%cl, -1(%rax,%rsi)
	movzbl	3(%rbp,%rsi), %ecx
	movb	%cl, (%rax,%rsi)
	addq	$4, %rsi
	cmpq	%rsi, %rdx
	jne	24b
	jmp	26f
25:
	movq	%rbp, %rsi
	callq	memmove@PLT
26:
	movq	%r15, 8(%rsp)
	movq	%r14, 16(%rsp)
27:
	movq	%rsp, %rdi
	movq	120(%rsp), %rsi
	callq	"core::fmt::formatter::Formatter::write_piece::<#499173829830abb3>"
	testb	%al, %al
	je	32f
28:
	movq	16(%rsp), %rax
	movq	%rax, 112(%rsp)
	movaps	(%rsp), %xmm0
	movaps	%xmm0, 96(%rsp)
	movq	%rax, 16(%rbx)
	movups	%xmm0, (%rbx)
29:
	movq	8(%rbx), %rcx
	movq	128(%rsp), %rdx
	testq	%rdx, %rdx
	je	30f
	cmpq	%rcx, %rdx
	je	30f
	movb	$1, %al
	cmpq	%rdx, %rcx
	jb	42f
	jbe	42f
	movq	(%rbx), %rcx
	cmpb	$-65, (%rcx,%rdx)
	jg	31f
	jmp	42f
30:
	movb	$1, %al
	cmpq	%rdx, %rcx
	jbe	42f
31:
	movq	%rdx, 8(%rbx)
	movb	$1, %al
	jmp	42f
32:
	movl	$32, 24(%rsp)
	leaq	28(%rsp), %rax
	movl	$0, 8(%rax)
	movq	$0, (%rax)
	movq	$-1, 40(%rsp)
	cmpq	$0, 48(%rsp)
	jne	65f
	movq	8(%rsp), %rax
	movq	16(%rsp), %r14
	movq	%r14, %rcx
	subq	%rax, %rcx
	movq	80(%rsp), %rdx
	cmpq	%rcx, %rdx
	movq	72(%rsp), %rsi
	ja	70f
33:
	leaq	(%rax,%rdx), %r15
	movq	(%rsp), %rcx
	leaq	(%rcx,%rax), %rdi
	movq	%rdi, %r8
	subq	%rsi, %r8
	cmpq	%rdx, %r8
	jae	39f
	cmpq	$4, %rdx
	jb	34f
	cmpq	$32, %r8
	jae	64f
34:
	xorl	%r10d, %r10d
35:
	movq	%rdx, %r8
	movq	%r10, %r11
	andq	$3, %r8
	je	37f
	movq	%r10, %r11
	.p2align	4
36:
	movzbl	(%rsi,%r11), %r9d
	movb	%r9b, (%rdi,%r11)
	incq	%r11
	decq	%r8
	jne	36b
37:
	subq	%rdx, %r10
	cmpq	$-4, %r10
	ja	40f
	addq	%rcx, %rax
	addq	$3, %rax
	.p2align	4
38:
	movzbl	(%rsi,%r11), %ecx
	movb	%cl, -3(%rax,%r11)
	movzbl	1(%rsi,%r11), %ecx
	movb	%cl, -2(%rax,%r11)
	movzbl	2(%rsi,%r11), %ecx
	movb	%cl, -1(%rax,%r11)
	movzbl	3(%rsi,%r11), %ecx
	movb	%cl, (%rax,%r11)
	addq	$4, %r11
	cmpq	%r11, %rdx
	jne	38b
	jmp	40f
39:
	callq	memmove@PLT
40:
	movq	%r15, 8(%rsp)
	movq	%r14, 112(%rsp)
	movaps	(%rsp), %xmm0
	movaps	%xmm0, 96(%rsp)
	movq	%r14, 16(%rbx)
	movups	%xmm0, (%rbx)
41:
	xorl	%eax, %eax
42:
	addq	$136, %rsp
	popq	%rbx
	popq	%r12
	popq	%r13
	popq	%r14
	popq	%r15
	popq	%rbp
	retq
43:
	cmpq	$32, %r15
	jae	47f
	xorl	%edx, %edx
	jmp	49f
44:
	cmpq	$32, %r12
	jae	53f
	xorl	%edx, %edx
	jmp	55f
45:
	cmpq	$32, %rdx
	jae	59f
	xorl	%r10d, %r10d
	jmp	61f
46:
	movq	%rsp, %rdi
	movq	%r13, %rsi
	movq	%r15, %rdx
	callq	"core::fmt::formatter::Formatter::write_indented::<#0a7ff941e43d6b30>"
	testb	%al, %al
	jne	28b
	jmp	9b
47:
	movq	%r15, %rdx
	andq	$-32, %rdx
	leaq	(%rax,%rcx), %rsi
	addq	$16, %rsi
	xorl	%r8d, %r8d
	.p2align	4
48:
	movups	(%r13,%r8), %xmm0
	movups	16(%r13,%r8), %xmm1
	movups	%xmm0, -16(%rsi,%r8)
	movups	%xmm1, (%rsi,%r8)
	addq	$32, %r8
	cmpq	%r8, %rdx
	jne	48b
	cmpq	%rdx, %r15
	je	8b
	testb	$28, %r15b
	je	3b
49:
	movq	%rdx, %rsi
	movq	%r15, %rdx
	andq	$-4, %rdx
	.p2align	4
50:
	movl	(%r13,%rsi), %r8d
	movl	%r8d, (%rdi,%rsi)
	addq	$4, %rsi
	cmpq	%rsi, %rdx
	jne	50b
	cmpq	%rdx, %r15
	je	8b
	jmp	3b
51:
	movq	%rsp, %rdi
	movq	%r15, %rsi
	callq	"std_alloc::vec::Vec::grow_amortized::<#1d775b5957dec42c>"
	testb	%al, %al
	je	28b
	movq	8(%rsp), %rax
	movq	16(%rsp), %r10
	jmp	1b
52:
	movq	%rsp, %rdi
	movq	%r14, %rsi
	movq	%r12, %rdx
	callq	"core::fmt::formatter::Formatter::write_indented::<#0a7ff941e43d6b30>"
	testb	%al, %al
	jne	28b
	jmp	18b
53:
	movq	%r12, %rdx
	andq	$-32, %rdx
	leaq	(%rax,%rcx), %rsi
	addq	$16, %rsi
	xorl	%r8d, %r8d
	.p2align	4
54:
	movups	(%r14,%r8), %xmm0
	movups	16(%r14,%r8), %xmm1
	movups	%xmm0, -16(%rsi,%r8)
	movups	%xmm1, (%rsi,%r8)
	addq	$32, %r8
	cmpq	%r8, %rdx
	jne	54b
	cmpq	%rdx, %r12
	je	17b
	testb	$28, %r12b
	je	12b
55:
	movq	%rdx, %rsi
	movq	%r12, %rdx
	andq	$-4, %rdx
	.p2align	4
56:
	movl	(%r14,%rsi), %r8d
	movl	%r8d, (%rdi,%rsi)
	addq	$4, %rsi
	cmpq	%rsi, %rdx
	jne	56b
	cmpq	%rdx, %r12
	je	17b
	jmp	12b
57:
	movq	%rsp, %rdi
	movq	%r12, %rsi
	callq	"std_alloc::vec::Vec::grow_amortized::<#1d775b5957dec42c>"
	testb	%al, %al
	je	28b
	movq	8(%rsp), %rax
	movq	16(%rsp), %r15
	jmp	10b
58:
	movq	%rsp, %rdi
	movq	%rbp, %rsi
	movq	88(%rsp), %rdx
	callq	"core::fmt::formatter::Formatter::write_indented::<#0a7ff941e43d6b30>"
	testb	%al, %al
	jne	28b
	jmp	27b
59:
	movq	%rdx, %r10
	andq	$-32, %r10
	leaq	(%rax,%rcx), %rsi
	addq	$16, %rsi
	xorl	%r8d, %r8d
	.p2align	4
60:
	movups	(%rbp,%r8), %xmm0
	movups	16(%rbp,%r8), %xmm1
	movups	%xmm0, -16(%rsi,%r8)
	movups	%xmm1, (%rsi,%r8)
	addq	$32, %r8
	cmpq	%r8, %r10
	jne	60b
	cmpq	%r10, %rdx
	je	26b
	testb	$28, %dl
	je	21b
61:
	movq	%r10, %rsi
	movq	%rdx, %r10
	andq	$-4, %r10
	.p2align	4
62:
	movl	(%rbp,%rsi), %r8d
	movl	%r8d, (%rdi,%rsi)
	addq	$4, %rsi
	cmpq	%rsi, %r10
	jne	62b
	cmpq	%r10, %rdx
	je	26b
	jmp	21b
63:
	movq	%rsp, %rdi
	movq	%rdx, %rsi
	callq	"std_alloc::vec::Vec::grow_amortized::<#1d775b5957dec42c>"
	testb	%al, %al
	je	28b
	movq	8(%rsp), %rax
	movq	16(%rsp), %r14
	movq	88(%rsp), %rdx
	jmp	19b
64:
	cmpq	$32, %rdx
	jae	66f
	xorl	%r10d, %r10d
	jmp	68f
65:
	movq	%rsp, %rdi
	movq	72(%rsp), %rsi
	movq	80(%rsp), %rdx
	callq	"core::fmt::formatter::Formatter::write_indented::<#0a7ff941e43d6b30>"
	movq	16(%rsp), %rcx
	movq	%rcx, 112(%rsp)
	movaps	(%rsp), %xmm0
	movaps	%xmm0, 96(%rsp)
	movq	%rcx, 16(%rbx)
	movups	%xmm0, (%rbx)
	testb	%al, %al
	jne	29b
	jmp	41b
66:
	movq	%rdx, %r10
	andq	$-32, %r10
	leaq	(%rax,%rcx), %r9
	addq	$16, %r9
	xorl	%r8d, %r8d
	.p2align	4
67:
	movups	(%rsi,%r8), %xmm0
	movups	16(%rsi,%r8), %xmm1
	movups	%xmm0, -16(%r9,%r8)
	movups	%xmm1, (%r9,%r8)
	addq	$32, %r8
	cmpq	%r8, %r10
	jne	67b
	cmpq	%r10, %rdx
	je	40b
	testb	$28, %dl
	je	35b
68:
	movq	%r10, %r9
	movq	%rdx, %r10
	andq	$-4, %r10
	.p2align	4
69:
	movl	(%rsi,%r9), %r8d
	movl	%r8d, (%rdi,%r9)
	addq	$4, %r9
	cmpq	%r9, %r10
	jne	69b
	cmpq	%r10, %rdx
	je	40b
	jmp	35b
70:
	movq	%rsp, %rdi
	movq	%rdx, %rsi
	callq	"std_alloc::vec::Vec::grow_amortized::<#1d775b5957dec42c>"
	testb	%al, %al
	je	28b
	movq	8(%rsp), %rax
	movq	16(%rsp), %r14
	movq	80(%rsp), %rdx
	movq	72(%rsp), %rsi
	jmp	33b
71:
	.size	"std_alloc::string::String::write_fmt::<#5a254c874babc368>", 71b-"std_alloc::string::String::write_fmt::<#5a254c874babc368>"

	.text
	.p2align	4
	.type	"std_alloc::string::String::write_fmt::<#605efbca80f73881>",@function
"std_alloc::string::String::write_fmt::<#605efbca80f73881>":
	pushq	%rbp
	pushq	%r15
	pushq	%r14
	pushq	%r13
	pushq	%r12
	pushq	%rbx
	subq	$120, %rsp
	movq	%rsi, %rax
	movq	(%rsi), %rsi
	movq	8(%rax), %rdx
	movq	16(%rax), %rbx
	movq	24(%rax), %r15
	movq	32(%rax), %r14
	movq	8(%rdi), %rax
	movq	%rax, 112(%rsp)
	movups	(%rdi), %xmm0
	movaps	%xmm0, (%rsp)
	movq	%rdi, 72(%rsp)
	movq	16(%rdi), %rbp
	movq	%rbp, 16(%rsp)
	xorps	%xmm0, %xmm0
	movaps	%xmm0, 48(%rsp)
	movl	$32, 24(%rsp)
	movq	$0, 28(%rsp)
	movl	$0, 36(%rsp)
	movq	$-1, 40(%rsp)
	movq	8(%rsp), %rax
	movq	%rbp, %rcx
	subq	%rax, %rcx
	cmpq	%rcx, %rdx
	ja	35f
1:
	leaq	28(%rsp), %r11
	leaq	(%rax,%rdx), %r13
	movq	(%rsp), %r12
	leaq	(%r12,%rax), %rdi
	movq	%rdi, %rcx
	subq	%rsi, %rcx
	cmpq	%rdx, %rcx
	jae	7f
	cmpq	$4, %rdx
	jb	2f
	cmpq	$32, %rcx
	jae	28f
2:
	xorl	%ecx, %ecx
3:
	movq	%rdx, %r9
	movq	%rcx, %r8
	andq	$3, %r9
	je	5f
	movq	%rcx, %r8
	.p2align	4
4:
	movzbl	(%rsi,%r8), %r10d
	movb	%r10b, (%rdi,%r8)
	incq	%r8
	decq	%r9
	jne	4b
5:
	subq	%rdx, %rcx
	cmpq	$-4, %rcx
	ja	8f
	addq	%r12, %rax
	addq	$3, %rax
	.p2align	4
6:
	movzbl	(%rsi,%r8), %ecx
	movb	%cl, -3(%rax,%r8)
	movzbl	1(%rsi,%r8), %ecx
	movb	%cl, -2(%rax,%r8)
	movzbl	2(%rsi,%r8), %ecx
	movb	%cl, -1(%rax,%r8)
	movzbl	3(%rsi,%r8), %ecx
	movb	%cl, (%rax,%r8)
	addq	$4, %r8
	cmpq	%r8, %rdx
	jne	6b
	jmp	8f
7:
	callq	memmove@PLT
	leaq	28(%rsp), %r11
8:
	movq	%r13, 8(%rsp)
	movq	%rbp, 16(%rsp)
	movl	$32, 24(%rsp)
	movl	$0, 8(%r11)
	movq	$0, (%r11)
	movq	$-1, 40(%rsp)
	movq	(%rbx), %rsi
	movq	8(%rbx), %rdx
	cmpq	$0, 48(%rsp)
	jne	36f
	movq	%rbp, %rax
	subq	%r13, %rax
	cmpq	%rax, %rdx
	ja	41f
9:
	leaq	(%rdx,%r13), %rbx
	leaq	(%r12,%r13), %rdi
	movq	%rdi, %rax
	subq	%rsi, %rax
	cmpq	%rdx, %rax
	jae	15f
	cmpq	$4, %rdx
	jb	10f
	cmpq	$32, %rax
	jae	29f
10:
	xorl	%eax, %eax
11:
	movq	%rdx, %r8
	movq	%rax, %rcx
	andq	$3, %r8
	je	13f
	movq	%rax, %rcx
	.p2align	4
12:
	movzbl	(%rsi,%rcx), %r9d
	movb	%r9b, (%rdi,%rcx)
	incq	%rcx
	decq	%r8
	jne	12b
13:
	subq	%rdx, %rax
	cmpq	$-4, %rax
	ja	16f
	leaq	(%r12,%r13), %rax
	addq	$3, %rax
	.p2align	4
14:
	movzbl	(%rsi,%rcx), %edi
	movb	%dil, -3(%rax,%rcx)
	movzbl	1(%rsi,%rcx), %edi
	movb	%dil, -2(%rax,%rcx)
	movzbl	2(%rsi,%rcx), %edi
	movb	%dil, -1(%rax,%rcx)
	movzbl	3(%rsi,%rcx), %edi
	movb	%dil, (%rax,%rcx)
	addq	$4, %rcx
	cmpq	%rcx, %rdx
	jne	14b
	jmp	16f
15:
	callq	memmove@PLT
	leaq	28(%rsp), %r11
16:
	movq	%rbx, 8(%rsp)
	movq	%rbp, 16(%rsp)
17:
	movl	$32, 24(%rsp)
	movl	$0, 8(%r11)
	movq	$0, (%r11)
	movq	$-1, 40(%rsp)
	cmpq	$0, 48(%rsp)
	jne	42f
	movq	8(%rsp), %rax
	movq	16(%rsp), %rbx
	movq	%rbx, %rcx
	subq	%rax, %rcx
	cmpq	%rcx, %r14
	ja	47f
18:
	leaq	(%rax,%r14), %r12
	movq	(%rsp), %rcx
	leaq	(%rcx,%rax), %rdi
	movq	%rdi, %rdx
	subq	%r15, %rdx
	cmpq	%r14, %rdx
	jae	24f
	cmpq	$4, %r14
	jb	19f
	cmpq	$32, %rdx
	jae	30f
19:
	xorl	%edx, %edx
20:
	movq	%r14, %r8
	movq	%rdx, %rsi
	andq	$3, %r8
	je	22f
	movq	%rdx, %rsi
	.p2align	4
21:
	movzbl	(%r15,%rsi), %r9d
	movb	%r9b, (%rdi,%rsi)
	incq	%rsi
	decq	%r8
	jne	21b
22:
	subq	%r14, %rdx
	cmpq	$-4, %rdx
	ja	25f
	addq	%rcx, %rax
	addq	$3, %rax
	.p2align	4
23:
	movzbl	(%r15,%rsi), %ecx
	movb	%cl, -3(%rax,%rsi)
	movzbl	1(%r15,%rsi), %ecx
	movb	%cl, -2(%rax,%rsi)
	movzbl	2(%r15,%rsi), %ecx
	movb	%cl, -1(%rax,%rsi)
	movzbl	3(%r15,%rsi), %ecx
	movb	%cl, (%rax,%rsi)
	addq	$4, %rsi
	cmpq	%rsi, %r14
	jne	23b
	jmp	25f
24:
	movq	%r15, %rsi
	movq	%r14, %rdx
	callq	memmove@PLT
25:
	movq	%r12, 8(%rsp)
	movq	%rbx, 96(%rsp)
	movaps	(%rsp), %xmm0
	movaps	%xmm0, 80(%rsp)
	movq	72(%rsp), %rax
	movq	%rbx, 16(%rax)
	movups	%xmm0, (%rax)
26:
	xorl	%eax, %eax
27:
	addq	$120, %rsp
	popq	%rbx
	popq	%r12
	popq	%r13
	popq	%r14
	popq	%r15
	popq	%rbp
	retq
28:
	cmpq	$32, %rdx
	jae	31f
	xorl	%ecx, %ecx
	jmp	33f
29:
	cmpq	$32, %rdx
	jae	37f
	xorl	%eax, %eax
	jmp	39f
30:
	cmpq	$32, %r14
	jae	43f
	xorl	%edx, %edx
	jmp	45f
31:
	movq	%rdx, %rcx
	andq	$-32, %rcx
	leaq	(%rax,%r12), %r8
	addq	$16, %r8
	xorl	%r9d, %r9d
	.p2align	4
32:
	movups	(%rsi,%r9), %xmm0
	movups	16(%rsi,%r9), %xmm1
	movups	%xmm0, -16(%r8,%r9)
	movups	%xmm1, (%r8,%r9)
	addq	$32, %r9
	cmpq	%r9, %rcx
	jne	32b
	cmpq	%rcx, %rdx
	je	8b
	testb	$28, %dl
	je	3b
33:
	movq	%rcx, %r8
	movq	%rdx, %rcx
	andq	$-4, %rcx
	.p2align	4
34:
	movl	(%rsi,%r8), %r9d
	movl	%r9d, (%rdi,%r8)
	addq	$4, %r8
	cmpq	%r8, %rcx
	jne	34b
	cmpq	%rcx, %rdx
	je	8b
	jmp	3b
35:
	movq	%rsi, %r12
	movq	%rsp, %rdi
	movq	%rdx, %r13
	movq	%rdx, %rsi
	callq	"std_alloc::vec::Vec::grow_amortized::<#1d775b5957dec42c>"
	testb	%al, %al
	je	48f
	movq	8(%rsp), %rax
	movq	16(%rsp), %rbp
	movq	%r12, %rsi
	movq	%r13, %rdx
	jmp	1b
36:
	movq	%rsp, %rdi
	callq	"core::fmt::formatter::Formatter::write_indented::<#0a7ff941e43d6b30>"
	leaq	28(%rsp), %r11
	testb	%al, %al
	jne	48f
	jmp	17b
37:
	movq	%rdx, %rax
	andq	$-32, %rax
	leaq	(%r12,%r13), %rcx
	addq	$16, %rcx
	xorl	%r8d, %r8d
	.p2align	4
38:
	movups	(%rsi,%r8), %xmm0
	movups	16(%rsi,%r8), %xmm1
	movups	%xmm0, -16(%rcx,%r8)
	movups	%xmm1, (%rcx,%r8)
	addq	$32, %r8
	cmpq	%r8, %rax
	jne	38b
	cmpq	%rax, %rdx
	je	16b
	testb	$28, %dl
	je	11b
39:
	movq	%rax, %rcx
	movq	%rdx, %rax
	andq	$-4, %rax
	.p2align	4
40:
	movl	(%rsi,%rcx), %r8d
	movl	%r8d, (%rdi,%rcx)
	addq	$4, %rcx
	cmpq	%rcx, %rax
	jne	40b
	cmpq	%rax, %rdx
	je	16b
	jmp	11b
41:
	movq	%rsi, 104(%rsp)
	movq	%rsp, %rdi
	movq	%rdx, %rbx
	movq	%rdx, %rsi
	callq	"std_alloc::vec::Vec::grow_amortized::<#1d775b5957dec42c>"
	leaq	28(%rsp), %r11
	testb	%al, %al
	je	48f
	movq	(%rsp), %r12
	movq	8(%rsp), %r13
	movq	16(%rsp), %rbp
	movq	%rbx, %rdx
	movq	104(%rsp), %rsi
	jmp	9b
42:
	movq	%rsp, %rdi
	movq	%r15, %rsi
	movq	%r14, %rdx
	callq	"core::fmt::formatter::Formatter::write_indented::<#0a7ff941e43d6b30>"
	movq	16(%rsp), %rcx
	movq	%rcx, 96(%rsp)
	movaps	(%rsp), %xmm0
	movaps	%xmm0, 80(%rsp)
	movq	72(%rsp), %rdx
	movq	%rcx, 16(%rdx)
	movups	%xmm0, (%rdx)
	testb	%al, %al
	jne	49f
	jmp	26b
43:
	movq	%r14, %rdx
	andq	$-32, %rdx
	leaq	(%rax,%rcx), %rsi
	addq	$16, %rsi
	xorl	%r8d, %r8d
	.p2align	4
44:
	movups	(%r15,%r8), %xmm0
	movups	16(%r15,%r8), %xmm1
	movups	%xmm0, -16(%rsi,%r8)
	movups	%xmm1, (%rsi,%r8)
	addq	$32, %r8
	cmpq	%r8, %rdx
	jne	44b
	cmpq	%rdx, %r14
	je	25b
	testb	$28, %r14b
	je	20b
45:
	movq	%rdx, %rsi
	movq	%r14, %rdx
	andq	$-4, %rdx
	.p2align	4
46:
	movl	(%r15,%rsi), %r8d
	movl	%r8d, (%rdi,%rsi)
	addq	$4, %rsi
	cmpq	%rsi, %rdx
	jne	46b
	cmpq	%rdx, %r14
	je	25b
	jmp	20b
47:
	movq	%rsp, %rdi
	movq	%r14, %rsi
	callq	"std_alloc::vec::Vec::grow_amortized::<#1d775b5957dec42c>"
	testb	%al, %al
	je	48f
	movq	8(%rsp), %rax
	movq	16(%rsp), %rbx
	jmp	18b
48:
	movq	16(%rsp), %rax
	movq	%rax, 96(%rsp)
	movaps	(%rsp), %xmm0
	movaps	%xmm0, 80(%rsp)
	movq	72(%rsp), %rdx
	movq	%rax, 16(%rdx)
	movups	%xmm0, (%rdx)
49:
	movq	8(%rdx), %rcx
	movq	112(%rsp), %rsi
	testq	%rsi, %rsi
	je	50f
	cmpq	%rcx, %rsi
	je	50f
	movb	$1, %al
	cmpq	%rsi, %rcx
	jb	27b
	jbe	27b
	movq	(%rdx), %rcx
	cmpb	$-65, (%rcx,%rsi)
	jg	51f
	jmp	27b
50:
	movb	$1, %al
	cmpq	%rsi, %rcx
	jbe	27b
51:
	movq	%rsi, 8(%rdx)
	movb	$1, %al
	jmp	27b
52:
	.size	"std_alloc::string::String::write_fmt::<#605efbca80f73881>", 52b-"std_alloc::string::String::write_fmt::<#605efbca80f73881>"

	.text
	.p2align	4
	.type	"std_alloc::string::String::write_fmt::<#7674f49477c5ed19>",@function
"std_alloc::string::String::write_fmt::<#7674f49477c5ed19>":
	pushq	%rbp
	pushq	%r15
	pushq	%r14
	pushq	%r13
	pushq	%r12
	pushq	%rbx
	subq	$152, %rsp
	movq	(%rsi), %rbp
	movq	8(%rsi), %r14
	movq	16(%rsi), %r12
	movq	24(%rsi), %r9
	movq	32(%rsi), %rbx
	movq	40(%rsi), %rax
	movq	%rax, 64(%rsp)
	movq	48(%rsi), %r13
	movq	56(%rsi), %rax
	movq	%rax, 96(%rsp)
	movq	64(%rsi), %rax
	movq	%rax, 80(%rsp)
	movq	72(%rsi), %rax
	movq	%rax, 88(%rsp)
	movq	8(%rdi), %rax
	movq	%rax, 144(%rsp)
	movups	(%rdi), %xmm0
	movaps	%xmm0, (%rsp)
	movq	%rdi, 104(%rsp)
	movq	16(%rdi), %r10
	movq	%r10, 16(%rsp)
	xorps	%xmm0, %xmm0
	movaps	%xmm0, 48(%rsp)
	movl	$32, 24(%rsp)
	movq	$0, 28(%rsp)
	movl	$0, 36(%rsp)
	movq	$-1, 40(%rsp)
	movq	8(%rsp), %rax
	movq	%r10, %rcx
	subq	%rax, %rcx
	cmpq	%rcx, %r14
	ja	55f
1:
	leaq	(%rax,%r14), %r15
	movq	(%rsp), %r11
	leaq	(%r11,%rax), %rdi
	movq	%rdi, %rcx
	subq	%rbp, %rcx
	cmpq	%r14, %rcx
	jae	7f
	cmpq	$4, %r14
	jb	2f
	cmpq	$32, %rcx
	jae	46f
2:
	xorl	%ecx, %ecx
3:
	movq	%r14, %rsi
	movq	%rcx, %rdx
	andq	$3, %rsi
	je	5f
	movq	%rcx, %rdx
	.p2align	4
4:
	movzbl	(%rbp,%rdx), %r8d
	movb	%r8b, (%rdi,%rdx)
	incq	%rdx
	decq	%rsi
	jne	4b
5:
	subq	%r14, %rcx
	cmpq	$-4, %rcx
	ja	8f
	addq	%r11, %rax
	addq	$3, %rax
	.p2align	4
6:
	movzbl	(%rbp,%rdx), %ecx
	movb	%cl, -3(%rax,%rdx)
	movzbl	1(%rbp,%rdx), %ecx
	movb	%cl, -2(%rax,%rdx)
	movzbl	2(%rbp,%rdx), %ecx
	movb	%cl, -1(%rax,%rdx)
	movzbl	3(%rbp,%rdx), %ecx
	movb	%cl, (%rax,%rdx)
	addq	$4, %rdx
	cmpq	%rdx, %r14
	jne	6b
	jmp	8f
7:
	movq	%rbp, %rsi
	movq	%r14, %rdx
	movq	%r9, %r14
	movq	%r10, %rbp
	movq	%r15, 72(%rsp)
	movq	%r11, %r15
	callq	memmove@PLT
	movq	%r15, %r11
	movq	72(%rsp), %r15
	movq	%rbp, %r10
	movq	%r14, %r9
8:
	movq	%r15, 8(%rsp)
	movq	%r10, 16(%rsp)
	movl	$32, 24(%rsp)
	leaq	28(%rsp), %rbp
	movl	$0, 8(%rbp)
	movq	$0, (%rbp)
	movq	$-1, 40(%rsp)
	cmpq	$0, 48(%rsp)
	jne	56f
	movq	%r10, %rax
	subq	%r15, %rax
	cmpq	%rax, %r9
	ja	61f
9:
	leaq	(%r15,%r9), %r14
	leaq	(%r11,%r15), %rdi
	movq	%rdi, %rax
	subq	%r12, %rax
	cmpq	%r9, %rax
	jae	15f
	cmpq	$4, %r9
	movq	64(%rsp), %rdx
	jb	10f
	cmpq	$32, %rax
	jae	47f
10:
	xorl	%eax, %eax
11:
	movq	%r9, %r8
	movq	%rax, %rcx
	andq	$3, %r8
	je	13f
	movq	%rax, %rcx
	.p2align	4
12:
	movzbl	(%r12,%rcx), %esi
	movb	%sil, (%rdi,%rcx)
	incq	%rcx
	decq	%r8
	jne	12b
13:
	subq	%r9, %rax
	cmpq	$-4, %rax
	ja	16f
	leaq	(%r15,%r11), %rax
	addq	$3, %rax
	.p2align	4
14:
	movzbl	(%r12,%rcx), %esi
	movb	%sil, -3(%rax,%rcx)
	movzbl	1(%r12,%rcx), %esi
	movb	%sil, -2(%rax,%rcx)
	movzbl	2(%r12,%rcx), %esi
	movb	%sil, -1(%rax,%rcx)
	movzbl	3(%r12,%rcx), %esi
	movb	%sil, (%rax,%rcx)
	addq	$4, %rcx
	cmpq	%rcx, %r9
	jne	14b
	jmp	16f
15:
	movq	%r12, %rsi
	movq	%r9, %rdx
	movq	%r10, %r12
	movq	%r11, %r15
	callq	memmove@PLT
	movq	%r15, %r11
	movq	%r12, %r10
	movq	64(%rsp), %rdx
16:
	movq	%r11, (%rsp)
	movq	%r14, 8(%rsp)
	movq	%r10, 16(%rsp)
17:
	movl	$32, 24(%rsp)
	movl	$0, 8(%rbp)
	movq	$0, (%rbp)
	movq	$-1, 40(%rsp)
	cmpq	$0, 48(%rsp)
	jne	62f
	movq	8(%rsp), %rax
	movq	16(%rsp), %r14
	movq	%r14, %rcx
	subq	%rax, %rcx
	cmpq	%rcx, %rdx
	ja	67f
18:
	leaq	(%rax,%rdx), %r12
	movq	(%rsp), %rcx
	leaq	(%rcx,%rax), %rdi
	movq	%rdi, %rsi
	subq	%rbx, %rsi
	cmpq	%rdx, %rsi
	jae	24f
	cmpq	$4, %rdx
	jb	19f
	cmpq	$32, %rsi
	jae	48f
19:
	xorl	%r10d, %r10d
20:
	movq	%rdx, %r8
	movq	%r10, %rsi
	andq	$3, %r8
	je	22f
	movq	%r10, %rsi
	.p2align	4
21:
	movzbl	(%rbx,%rsi), %r9d
	movb	%r9b, (%rdi,%rsi)
	incq	%rsi
	decq	%r8
	jne	21b
22:
	subq	%rdx, %r10
	cmpq	$-4, %r10
	ja	25f
	addq	%rcx, %rax
	addq	$3, %rax
	.p2align	4
23:
	movzbl	(%rbx,%rsi), %ecx
	movb	%cl, -3(%rax,%rsi)
	movzbl	1(%rbx,%rsi), %ecx
	movb	%cl, -2(%rax,%rsi)
	movzbl	2(%rbx,%rsi), %ecx
	movb	%cl, -1(%rax,%rsi)
	movzbl	3(%rbx,%rsi), %ecx
	movb	%cl, (%rax,%rsi)
	addq	$4, %rsi
	cmpq	%rsi, %rdx
	jne	23b
	jmp	25f
24:
	movq	%rbx, %rsi
	callq	memmove@PLT
25:
	movq	%r12, 8(%rsp)
	movq	%r14, 16(%rsp)
26:
	movl	$32, 24(%rsp)
	movl	$0, 8(%rbp)
	movq	$0, (%rbp)
	movq	$-1, 40(%rsp)
	cmpq	$0, 48(%rsp)
	jne	68f
	movq	8(%rsp), %rax
	movq	16(%rsp), %rbx
	movq	%rbx, %rcx
	subq	%rax, %rcx
	movq	96(%rsp), %rdx
	cmpq	%rcx, %rdx
	ja	73f
27:
	leaq	(%rax,%rdx), %r14
	movq	(%rsp), %rcx
	leaq	(%rcx,%rax), %rdi
	movq	%rdi, %rsi
	subq	%r13, %rsi
	cmpq	%rdx, %rsi
	jae	33f
	cmpq	$4, %rdx
	jb	28f
	cmpq	$32, %rsi
	jae	49f
28:
	xorl	%r10d, %r10d
29:
	movq	%rdx, %r8
	movq	%r10, %rsi
	andq	$3, %r8
	je	31f
	movq	%r10, %rsi
	.p2align	4
30:
	movzbl	(%r13,%rsi), %r9d
	movb	%r9b, (%rdi,%rsi)
	incq	%rsi
	decq	%r8
	jne	30b
31:
	subq	%rdx, %r10
	cmpq	$-4, %r10
	ja	34f
	addq	%rcx, %rax
	addq	$3, %rax
	.p2align	4
32:
	movzbl	(%r13,%rsi), %ecx
	movb	%cl, -3(%rax,%rsi)
	movzbl	1(%r13,%rsi), %ecx
	movb	%cl, -2(%rax,%rsi)
	movzbl	2(%r13,%rsi), %ecx
	movb	%cl, -1(%rax,%rsi)
	movzbl	3(%r13,%rsi), %ecx
	movb	%cl, (%rax,%rsi)
	addq	$4, %rsi
	cmpq	%rsi, %rdx
	jne	32b
	jmp	34f
33:
	movq	%r13, %rsi
	callq	memmove@PLT
34:
	movq	%r14, 8(%rsp)
	movq	%rbx, 16(%rsp)
35:
	movl	$32, 24(%rsp)
	movl	$0, 8(%rbp)
	movq	$0, (%rbp)
	movq	$-1, 40(%rsp)
	cmpq	$0, 48(%rsp)
	jne	74f
	movq	8(%rsp), %rax
	movq	16(%rsp), %rbx
	movq	%rbx, %rcx
	subq	%rax, %rcx
	movq	88(%rsp), %rdx
	cmpq	%rcx, %rdx
	movq	80(%rsp), %rsi
	ja	79f
36:
	leaq	(%rax,%rdx), %r14
	movq	(%rsp), %rcx
	leaq	(%rcx,%rax), %rdi
	movq	%rdi, %r8
	subq	%rsi, %r8
	cmpq	%rdx, %r8
	jae	42f
	cmpq	$4, %rdx
	jb	37f
	cmpq	$32, %r8
	jae	50f
37:
	xorl	%r10d, %r10d
38:
	movq	%rdx, %r8
	movq	%r10, %r11
	andq	$3, %r8
	je	40f
	movq	%r10, %r11
	.p2align	4
39:
	movzbl	(%rsi,%r11), %r9d
	movb	%r9b, (%rdi,%r11)
	incq	%r11
	decq	%r8
	jne	39b
40:
	subq	%rdx, %r10
	cmpq	$-4, %r10
	ja	43f
	addq	%rcx, %rax
	addq	$3, %rax
	.p2align	4
41:
	movzbl	(%rsi,%r11), %ecx
	movb	%cl, -3(%rax,%r11)
	movzbl	1(%rsi,%r11), %ecx
	movb	%cl, -2(%rax,%r11)
	movzbl	2(%rsi,%r11), %ecx
	movb	%cl, -1(%rax,%r11)
	movzbl	3(%rsi,%r11), %ecx
	movb	%cl, (%rax,%r11)
	addq	$4, %r11
	cmpq	%r11, %rdx
	jne	41b
	jmp	43f
42:
	callq	memmove@PLT
43:
	movq	%r14, 8(%rsp)
	movq	%rbx, 128(%rsp)
	movaps	(%rsp), %xmm0
	movaps	%xmm0, 112(%rsp)
	movq	104(%rsp), %rax
	movq	%rbx, 16(%rax)
	movups	%xmm0, (%rax)
44:
	xorl	%eax, %eax
45:
	addq	$152, %rsp
	popq	%rbx
	popq	%r12
	popq	%r13
	popq	%r14
	popq	%r15
	popq	%rbp
	retq
46:
	cmpq	$32, %r14
	jae	51f
	xorl	%ecx, %ecx
	jmp	53f
47:
	cmpq	$32, %r9
	jae	57f
	xorl	%eax, %eax
	jmp	59f
48:
	cmpq	$32, %rdx
	jae	63f
	xorl	%r10d, %r10d
	jmp	65f
49:
	cmpq	$32, %rdx
	jae	69f
	xorl	%r10d, %r10d
	jmp	71f
50:
	cmpq	$32, %rdx
	jae	75f
	xorl	%r10d, %r10d
	jmp	77f
51:
	movq	%r14, %rcx
	andq	$-32, %rcx
	leaq	(%rax,%r11), %rdx
	addq	$16, %rdx
	xorl	%esi, %esi
	.p2align	4
52:
	movups	(%rbp,%rsi), %xmm0
	movups	16(%rbp,%rsi), %xmm1
	movups	%xmm0, -16(%rdx,%rsi)
	movups	%xmm1, (%rdx,%rsi)
	addq	$32, %rsi
	cmpq	%rsi, %rcx
	jne	52b
	cmpq	%rcx, %r14
	je	8b
	testb	$28, %r14b
	je	3b
53:
	movq	%rcx, %rdx
	movq	%r14, %rcx
	andq	$-4, %rcx
	.p2align	4
54:
	movl	(%rbp,%rdx), %esi
	movl	%esi, (%rdi,%rdx)
	addq	$4, %rdx
	cmpq	%rdx, %rcx
	jne	54b
	cmpq	%rcx, %r14
	je	8b
	jmp	3b
55:
	movq	%r9, 72(%rsp)
	movq	%rsp, %rdi
	movq	%r14, %rsi
	callq	"std_alloc::vec::Vec::grow_amortized::<#1d775b5957dec42c>"
	testb	%al, %al
	je	80f
	movq	8(%rsp), %rax
	movq	16(%rsp), %r10
	movq	72(%rsp), %r9
	jmp	1b
56:
	movq	%rsp, %rdi
	movq	%r12, %rsi
	movq	%r9, %rdx
	callq	"core::fmt::formatter::Formatter::write_indented::<#0a7ff941e43d6b30>"
	testb	%al, %al
	movq	64(%rsp), %rdx
	jne	80f
	jmp	17b
57:
	movq	%r9, %rax
	andq	$-32, %rax
	leaq	(%r15,%r11), %rcx
	addq	$16, %rcx
	xorl	%esi, %esi
	.p2align	4
58:
	movups	(%r12,%rsi), %xmm0
	movups	16(%r12,%rsi), %xmm1
	movups	%xmm0, -16(%rcx,%rsi)
	movups	%xmm1, (%rcx,%rsi)
	addq	$32, %rsi
	cmpq	%rsi, %rax
	jne	58b
	cmpq	%rax, %r9
	je	16b
	testb	$28, %r9b
	je	11b
59:
	movq	%rax, %rcx
	movq	%r9, %rax
	andq	$-4, %rax
	.p2align	4
60:
	movl	(%r12,%rcx), %esi
	movl	%esi, (%rdi,%rcx)
	addq	$4, %rcx
	cmpq	%rcx, %rax
	jne	60b
	cmpq	%rax, %r9
	je	16b
	jmp	11b
61:
	movq	%rsp, %rdi
	movq	%r9, %r14
	movq	%r9, %rsi
	callq	"std_alloc::vec::Vec::grow_amortized::<#1d775b5957dec42c>"
	testb	%al, %al
	je	80f
	movq	(%rsp), %r11
	movq	8(%rsp), %r15
	movq	16(%rsp), %r10
	movq	%r14, %r9
	jmp	9b
62:
	movq	%rsp, %rdi
	movq	%rbx, %rsi
	callq	"core::fmt::formatter::Formatter::write_indented::<#0a7ff941e43d6b30>"
	testb	%al, %al
	jne	80f
	jmp	26b
63:
	movq	%rdx, %r10
	andq	$-32, %r10
	leaq	(%rax,%rcx), %rsi
	addq	$16, %rsi
	xorl	%r8d, %r8d
	.p2align	4
64:
	movups	(%rbx,%r8), %xmm0
	movups	16(%rbx,%r8), %xmm1
	movups	%xmm0, -16(%rsi,%r8)
	movups	%xmm1, (%rsi,%r8)
	addq	$32, %r8
	cmpq	%r8, %r10
	jne	64b
	cmpq	%r10, %rdx
	je	25b
	testb	$28, %dl
	je	20b
65:
	movq	%r10, %rsi
	movq	%rdx, %r10
	andq	$-4, %r10
	.p2align	4
66:
	movl	(%rbx,%rsi), %r8d
	movl	%r8d, (%rdi,%rsi)
	addq	$4, %rsi
	cmpq	%rsi, %r10
	jne	66b
	cmpq	%r10, %rdx
	je	25b
	jmp	20b
67:
	movq	%rsp, %rdi
	movq	%rdx, %rsi
	callq	"std_alloc::vec::Vec::grow_amortized::<#1d775b5957dec42c>"
	movq	64(%rsp), %rdx
	testb	%al, %al
	je	80f
	movq	8(%rsp), %rax
	movq	16(%rsp), %r14
	jmp	18b
68:
	movq	%rsp, %rdi
	movq	%r13, %rsi
	movq	96(%rsp), %rdx
	callq	"core::fmt::formatter::Formatter::write_indented::<#0a7ff941e43d6b30>"
	testb	%al, %al
	jne	80f
	jmp	35b
69:
	movq	%rdx, %r10
	andq	$-32, %r10
	leaq	(%rax,%rcx), %rsi
	addq	$16, %rsi
	xorl	%r8d, %r8d
	.p2align	4
70:
	movups	(%r13,%r8), %xmm0
	movups	16(%r13,%r8), %xmm1
	movups	%xmm0, -16(%rsi,%r8)
	movups	%xmm1, (%rsi,%r8)
	addq	$32, %r8
	cmpq	%r8, %r10
	jne	70b
	cmpq	%r10, %rdx
	je	34b
	testb	$28, %dl
	je	29b
71:
	movq	%r10, %rsi
	movq	%rdx, %r10
	andq	$-4, %r10
	.p2align	4
72:
	movl	(%r13,%rsi), %r8d
	movl	%r8d, (%rdi,%rsi)
	addq	$4, %rsi
	cmpq	%rsi, %r10
	jne	72b
	cmpq	%r10, %rdx
	je	34b
	jmp	29b
73:
	movq	%rsp, %rdi
	movq	%rdx, %rsi
	callq	"std_alloc::vec::Vec::grow_amortized::<#1d775b5957dec42c>"
	testb	%al, %al
	je	80f
	movq	8(%rsp), %rax
	movq	16(%rsp), %rbx
	movq	96(%rsp), %rdx
	jmp	27b
74:
	movq	%rsp, %rdi
	movq	80(%rsp), %rsi
	movq	88(%rsp), %rdx
	callq	"core::fmt::formatter::Formatter::write_indented::<#0a7ff941e43d6b30>"
	movq	16(%rsp), %rcx
	movq	%rcx, 128(%rsp)
	movaps	(%rsp), %xmm0
	movaps	%xmm0, 112(%rsp)
	movq	104(%rsp), %rdx
	movq	%rcx, 16(%rdx)
	movups	%xmm0, (%rdx)
	testb	%al, %al
	jne	81f
	jmp	44b
75:
	movq	%rdx, %r10
	andq	$-32, %r10
	leaq	(%rax,%rcx), %r9
	addq	$16, %r9
	xorl	%r8d, %r8d
	.p2align	4
76:
	movups	(%rsi,%r8), %xmm0
	movups	16(%rsi,%r8), %xmm1
	movups	%xmm0, -16(%r9,%r8)
	movups	%xmm1, (%r9,%r8)
	addq	$32, %r8
	cmpq	%r8, %r10
	jne	76b
	cmpq	%r10, %rdx
	je	43b
	testb	$28, %dl
	je	38b
77:
	movq	%r10, %r9
	movq	%rdx, %r10
	andq	$-4, %r10
	.p2align	4
78:
	movl	(%rsi,%r9), %r8d
	movl	%r8d, (%rdi,%r9)
	addq	$4, %r9
	cmpq	%r9, %r10
	jne	78b
	cmpq	%r10, %rdx
	je	43b
	jmp	38b
79:
	movq	%rsp, %rdi
	movq	%rdx, %rsi
	callq	"std_alloc::vec::Vec::grow_amortized::<#1d775b5957dec42c>"
	testb	%al, %al
	je	80f
	movq	8(%rsp), %rax
	movq	16(%rsp), %rbx
	movq	88(%rsp), %rdx
	movq	80(%rsp), %rsi
	jmp	36b
80:
	movq	16(%rsp), %rax
	movq	%rax, 128(%rsp)
	movaps	(%rsp), %xmm0
	movaps	%xmm0, 112(%rsp)
	movq	104(%rsp), %rdx
	movq	%rax, 16(%rdx)
	movups	%xmm0, (%rdx)
81:
	movq	8(%rdx), %rcx
	movq	144(%rsp), %rsi
	testq	%rsi, %rsi
	je	82f
	cmpq	%rcx, %rsi
	je	82f
	movb	$1, %al
	cmpq	%rsi, %rcx
	jb	45b
	jbe	45b
	movq	(%rdx), %rcx
	cmpb	$-65, (%rcx,%rsi)
	jg	83f
	jmp	45b
82:
	movb	$1, %al
	cmpq	%rsi, %rcx
	jbe	45b
83:
	movq	%rsi, 8(%rdx)
	movb	$1, %al
	jmp	45b
84:
	.size	"std_alloc::string::String::write_fmt::<#7674f49477c5ed19>", 84b-"std_alloc::string::String::write_fmt::<#7674f49477c5ed19>"

	.text
	.p2align	4
	.type	"std_alloc::string::String::write_fmt::<#a2e9c51888eedbd3>",@function
"std_alloc::string::String::write_fmt::<#a2e9c51888eedbd3>":
	pushq	%rbp
	pushq	%r15
	pushq	%r14
	pushq	%r13
	pushq	%r12
	pushq	%rbx
	subq	$136, %rsp
	movq	%rsi, %rax
	movq	(%rsi), %rsi
	movq	8(%rax), %rdx
	movq	16(%rax), %r13
	movq	24(%rax), %r12
	movq	32(%rax), %r15
	movq	40(%rax), %r14
	movq	8(%rdi), %rax
	movq	%rax, 128(%rsp)
	movups	(%rdi), %xmm0
	movaps	%xmm0, 16(%rsp)
	movq	%rdi, 88(%rsp)
	movq	16(%rdi), %rbp
	movq	%rbp, 32(%rsp)
	xorps	%xmm0, %xmm0
	movaps	%xmm0, 64(%rsp)
	movl	$32, 40(%rsp)
	movq	$0, 44(%rsp)
	movl	$0, 52(%rsp)
	movq	$-1, 56(%rsp)
	movq	24(%rsp), %rax
	movq	%rbp, %rcx
	subq	%rax, %rcx
	cmpq	%rcx, %rdx
	ja	35f
1:
	leaq	44(%rsp), %r11
	leaq	(%rax,%rdx), %rbx
	movq	16(%rsp), %r10
	leaq	(%r10,%rax), %rdi
	movq	%rdi, %rcx
	subq	%rsi, %rcx
	cmpq	%rdx, %rcx
	jae	7f
	cmpq	$4, %rdx
	jb	2f
	cmpq	$32, %rcx
	jae	28f
2:
	xorl	%ecx, %ecx
3:
	movq	%r10, 8(%rsp)
	movq	%rdx, %r9
	movq	%rcx, %r8
	andq	$3, %r9
	je	5f
	movq	%rcx, %r8
	.p2align	4
4:
	movzbl	(%rsi,%r8), %r10d
	movb	%r10b, (%rdi,%r8)
	incq	%r8
	decq	%r9
	jne	4b
5:
	subq	%rdx, %rcx
	cmpq	$-4, %rcx
	movq	8(%rsp), %r10
	ja	8f
	addq	%r10, %rax
	addq	$3, %rax
	.p2align	4
6:
	movzbl	(%rsi,%r8), %ecx
	movb	%cl, -3(%rax,%r8)
	movzbl	1(%rsi,%r8), %ecx
	movb	%cl, -2(%rax,%r8)
	movzbl	2(%rsi,%r8), %ecx
	movb	%cl, -1(%rax,%r8)
	movzbl	3(%rsi,%r8), %ecx
	movb	%cl, (%rax,%r8)
	addq	$4, %r8
	cmpq	%r8, %rdx
	jne	6b
	jmp	8f
7:
	movq	%r12, 8(%rsp)
	movq	%r14, %r12
	movq	%rbp, %r14
	movq	%rbx, %rbp
	movq	%r10, %rbx
	callq	memmove@PLT
	movq	%rbx, %r10
	movq	%rbp, %rbx
	movq	%r14, %rbp
	movq	%r12, %r14
	movq	8(%rsp), %r12
	leaq	44(%rsp), %r11
8:
	movq	%rbx, 24(%rsp)
	movq	%rbp, 32(%rsp)
	movl	$32, 40(%rsp)
	movl	$0, 8(%r11)
	movq	$0, (%r11)
	movq	$-1, 56(%rsp)
	cmpq	$0, 64(%rsp)
	jne	36f
	movq	%rbp, %rax
	subq	%rbx, %rax
	cmpq	%rax, %r12
	ja	41f
9:
	leaq	(%rbx,%r12), %r8
	leaq	(%r10,%rbx), %rdi
	movq	%rdi, %rax
	subq	%r13, %rax
	cmpq	%r12, %rax
	jae	15f
	cmpq	$4, %r12
	jb	10f
	cmpq	$32, %rax
	jae	29f
10:
	xorl	%eax, %eax
11:
	movq	%r12, %rdx
	movq	%rax, %rcx
	andq	$3, %rdx
	je	13f
	movq	%rax, %rcx
	.p2align	4
12:
	movzbl	(%r13,%rcx), %esi
	movb	%sil, (%rdi,%rcx)
	incq	%rcx
	decq	%rdx
	jne	12b
13:
	subq	%r12, %rax
	cmpq	$-4, %rax
	ja	16f
	leaq	(%rbx,%r10), %rax
	addq	$3, %rax
	.p2align	4
14:
	movzbl	(%r13,%rcx), %edx
	movb	%dl, -3(%rax,%rcx)
	movzbl	1(%r13,%rcx), %edx
	movb	%dl, -2(%rax,%rcx)
	movzbl	2(%r13,%rcx), %edx
	movb	%dl, -1(%rax,%rcx)
	movzbl	3(%r13,%rcx), %edx
	movb	%dl, (%rax,%rcx)
	addq	$4, %rcx
	cmpq	%rcx, %r12
	jne	14b
	jmp	16f
15:
	movq	%r13, %rsi
	movq	%r12, %rdx
	movq	%r8, %rbx
	callq	memmove@PLT
	movq	%rbx, %r8
	leaq	44(%rsp), %r11
16:
	movq	%r8, 24(%rsp)
	movq	%rbp, 32(%rsp)
17:
	movl	$32, 40(%rsp)
	movl	$0, 8(%r11)
	movq	$0, (%r11)
	movq	$-1, 56(%rsp)
	cmpq	$0, 64(%rsp)
	jne	42f
	movq	24(%rsp), %rax
	movq	32(%rsp), %rbx
	movq	%rbx, %rcx
	subq	%rax, %rcx
	cmpq	%rcx, %r14
	ja	47f
18:
	leaq	(%rax,%r14), %r12
	movq	16(%rsp), %rcx
	leaq	(%rcx,%rax), %rdi
	movq	%rdi, %rdx
	subq	%r15, %rdx
	cmpq	%r14, %rdx
	jae	24f
	cmpq	$4, %r14
	jb	19f
	cmpq	$32, %rdx
	jae	30f
19:
	xorl	%edx, %edx
20:
	movq	%r14, %r8
	movq	%rdx, %rsi
	andq	$3, %r8
	je	22f
	movq	%rdx, %rsi
	.p2align	4
21:
	movzbl	(%r15,%rsi), %r9d
	movb	%r9b, (%rdi,%rsi)
	incq	%rsi
	decq	%r8
	jne	21b
22:
	subq	%r14, %rdx
	cmpq	$-4, %rdx
	ja	25f
	addq	%rcx, %rax
	addq	$3, %rax
	.p2align	4
23:
	movzbl	(%r15,%rsi), %ecx
	movb	%cl, -3(%rax,%rsi)
	movzbl	1(%r15,%rsi), %ecx
	movb	%cl, -2(%rax,%rsi)
	movzbl	2(%r15,%rsi), %ecx
	movb	%cl, -1(%rax,%rsi)
	movzbl	3(%r15,%rsi), %ecx
	movb	%cl, (%rax,%rsi)
	addq	$4, %rsi
	cmpq	%rsi, %r14
	jne	23b
	jmp	25f
24:
	movq	%r15, %rsi
	movq	%r14, %rdx
	callq	memmove@PLT
25:
	movq	%r12, 24(%rsp)
	movq	%rbx, 112(%rsp)
	movaps	16(%rsp), %xmm0
	movaps	%xmm0, 96(%rsp)
	movq	88(%rsp), %rax
	movq	%rbx, 16(%rax)
	movups	%xmm0, (%rax)
26:
	xorl	%eax, %eax
27:
	addq	$136, %rsp
	popq	%rbx
	popq	%r12
	popq	%r13
	popq	%r14
	popq	%r15
	popq	%rbp
	retq
28:
	cmpq	$32, %rdx
	jae	31f
	xorl	%ecx, %ecx
	jmp	33f
29:
	cmpq	$32, %r12
	jae	37f
	xorl	%eax, %eax
	jmp	39f
30:
	cmpq	$32, %r14
	jae	43f
	xorl	%edx, %edx
	jmp	45f
31:
	movq	%rdx, %rcx
	andq	$-32, %rcx
	leaq	(%rax,%r10), %r8
	addq	$16, %r8
	xorl	%r9d, %r9d
	.p2align	4
32:
	movups	(%rsi,%r9), %xmm0
	movups	16(%rsi,%r9), %xmm1
	movups	%xmm0, -16(%r8,%r9)
	movups	%xmm1, (%r8,%r9)
	addq	$32, %r9
	cmpq	%r9, %rcx
	jne	32b
	cmpq	%rcx, %rdx
	je	8b
	testb	$28, %dl
	je	3b
33:
	movq	%rcx, %r8
	movq	%rdx, %rcx
	andq	$-4, %rcx
	.p2align	4
34:
	movl	(%rsi,%r8), %r9d
	movl	%r9d, (%rdi,%r8)
	addq	$4, %r8
	cmpq	%r8, %rcx
	jne	34b
	cmpq	%rcx, %rdx
	je	8b
	jmp	3b
35:
	movq	%rsi, 8(%rsp)
	leaq	16(%rsp), %rdi
	movq	%rdx, %rbx
	movq	%rdx, %rsi
	callq	"std_alloc::vec::Vec::grow_amortized::<#1d775b5957dec42c>"
	testb	%al, %al
	je	48f
	movq	24(%rsp), %rax
	movq	32(%rsp), %rbp
	movq	8(%rsp), %rsi
	movq	%rbx, %rdx
	jmp	1b
36:
	leaq	16(%rsp), %rdi
	movq	%r13, %rsi
	movq	%r12, %rdx
	callq	"core::fmt::formatter::Formatter::write_indented::<#0a7ff941e43d6b30>"
	leaq	44(%rsp), %r11
	testb	%al, %al
	jne	48f
	jmp	17b
37:
	movq	%r12, %rax
	andq	$-32, %rax
	leaq	(%rbx,%r10), %rcx
	addq	$16, %rcx
	xorl	%edx, %edx
	.p2align	4
38:
	movups	(%r13,%rdx), %xmm0
	movups	16(%r13,%rdx), %xmm1
	movups	%xmm0, -16(%rcx,%rdx)
	movups	%xmm1, (%rcx,%rdx)
	addq	$32, %rdx
	cmpq	%rdx, %rax
	jne	38b
	cmpq	%rax, %r12
	je	16b
	testb	$28, %r12b
	je	11b
39:
	movq	%rax, %rcx
	movq	%r12, %rax
	andq	$-4, %rax
	.p2align	4
40:
	movl	(%r13,%rcx), %edx
	movl	%edx, (%rdi,%rcx)
	addq	$4, %rcx
	cmpq	%rcx, %rax
	jne	40b
	cmpq	%rax, %r12
	je	16b
	jmp	11b
41:
	leaq	16(%rsp), %rdi
	movq	%r12, %rsi
	callq	"std_alloc::vec::Vec::grow_amortized::<#1d775b5957dec42c>"
	leaq	44(%rsp), %r11
	testb	%al, %al
	je	48f
	movq	16(%rsp), %r10
	movq	24(%rsp), %rbx
	movq	32(%rsp), %rbp
	jmp	9b
42:
	leaq	16(%rsp), %rdi
	movq	%r15, %rsi
	movq	%r14, %rdx
	callq	"core::fmt::formatter::Formatter::write_indented::<#0a7ff941e43d6b30>"
	movq	32(%rsp), %rcx
	movq	%rcx, 112(%rsp)
	movaps	16(%rsp), %xmm0
	movaps	%xmm0, 96(%rsp)
	movq	88(%rsp), %rdx
	movq	%rcx, 16(%rdx)
	movups	%xmm0, (%rdx)
	testb	%al, %al
	jne	49f
	jmp	26b
43:
	movq	%r14, %rdx
	andq	$-32, %rdx
	leaq	(%rax,%rcx), %rsi
	addq	$16, %rsi
	xorl	%r8d, %r8d
	.p2align	4
44:
	movups	(%r15,%r8), %xmm0
	movups	16(%r15,%r8), %xmm1
	movups	%xmm0, -16(%rsi,%r8)
	movups	%xmm1, (%rsi,%r8)
	addq	$32, %r8
	cmpq	%r8, %rdx
	jne	44b
	cmpq	%rdx, %r14
	je	25b
	testb	$28, %r14b
	je	20b
45:
	movq	%rdx, %rsi
	movq	%r14, %rdx
	andq	$-4, %rdx
	.p2align	4
46:
	movl	(%r15,%rsi), %r8d
	movl	%r8d, (%rdi,%rsi)
	addq	$4, %rsi
	cmpq	%rsi, %rdx
	jne	46b
	cmpq	%rdx, %r14
	je	25b
	jmp	20b
47:
	leaq	16(%rsp), %rdi
	movq	%r14, %rsi
	callq	"std_alloc::vec::Vec::grow_amortized::<#1d775b5957dec42c>"
	testb	%al, %al
	je	48f
	movq	24(%rsp), %rax
	movq	32(%rsp), %rbx
	jmp	18b
48:
	movq	32(%rsp), %rax
	movq	%rax, 112(%rsp)
	movaps	16(%rsp), %xmm0
	movaps	%xmm0, 96(%rsp)
	movq	88(%rsp), %rdx
	movq	%rax, 16(%rdx)
	movups	%xmm0, (%rdx)
49:
	movq	8(%rdx), %rcx
	movq	128(%rsp), %rsi
	testq	%rsi, %rsi
	je	50f
	cmpq	%rcx, %rsi
	je	50f
	movb	$1, %al
	cmpq	%rsi, %rcx
	jb	27b
	jbe	27b
	movq	(%rdx), %rcx
	cmpb	$-65, (%rcx,%rsi)
	jg	51f
	jmp	27b
50:
	movb	$1, %al
	cmpq	%rsi, %rcx
	jbe	27b
51:
	movq	%rsi, 8(%rdx)
	movb	$1, %al
	jmp	27b
52:
	.size	"std_alloc::string::String::write_fmt::<#a2e9c51888eedbd3>", 52b-"std_alloc::string::String::write_fmt::<#a2e9c51888eedbd3>"

	.text
	.p2align	4
	.type	"std_alloc::string::String::write_fmt::<#a7de7e6af3ee7c9d>",@function
"std_alloc::string::String::write_fmt::<#a7de7e6af3ee7c9d>":
	pushq	%rbp
	pushq	%r15
	pushq	%r14
	pushq	%r13
	pushq	%r12
	pushq	%rbx
	subq	$136, %rsp
	movq	(%rsi), %r14
	movq	8(%rsi), %r12
	movq	16(%rsi), %rbx
	movq	24(%rsi), %r15
	movq	32(%rsi), %r13
	movq	40(%rsi), %rax
	movq	%rax, 80(%rsp)
	movq	48(%rsi), %rax
	movq	%rax, 128(%rsp)
	movq	56(%rsi), %rax
	movq	%rax, 64(%rsp)
	movq	64(%rsi), %rax
	movq	%rax, 72(%rsp)
	movq	8(%rdi), %rax
	movq	%rax, 120(%rsp)
	movups	(%rdi), %xmm0
	movaps	%xmm0, (%rsp)
	movq	%rdi, 88(%rsp)
	movq	16(%rdi), %r9
	movq	%r9, 16(%rsp)
	xorps	%xmm0, %xmm0
	movaps	%xmm0, 48(%rsp)
	movl	$32, 24(%rsp)
	movq	$0, 28(%rsp)
	movl	$0, 36(%rsp)
	movq	$-1, 40(%rsp)
	movq	8(%rsp), %rax
	movq	%r9, %rcx
	subq	%rax, %rcx
	cmpq	%rcx, %r12
	ja	55f
1:
	leaq	(%rax,%r12), %r11
	movq	(%rsp), %r10
	leaq	(%r10,%rax), %rdi
	movq	%rdi, %rcx
	subq	%r14, %rcx
	cmpq	%r12, %rcx
	jae	7f
	cmpq	$4, %r12
	jb	2f
	cmpq	$32, %rcx
	jae	46f
2:
	xorl	%ecx, %ecx
3:
	movq	%r12, %rsi
	movq	%rcx, %rdx
	andq	$3, %rsi
	je	5f
	movq	%rcx, %rdx
	.p2align	4
4:
	movzbl	(%r14,%rdx), %r8d
	movb	%r8b, (%rdi,%rdx)
	incq	%rdx
	decq	%rsi
	jne	4b
5:
	subq	%r12, %rcx
	cmpq	$-4, %rcx
	ja	8f
	addq	%r10, %rax
	addq	$3, %rax
	.p2align	4
6:
	movzbl	(%r14,%rdx), %ecx
	movb	%cl, -3(%rax,%rdx)
	movzbl	1(%r14,%rdx), %ecx
	movb	%cl, -2(%rax,%rdx)
	movzbl	2(%r14,%rdx), %ecx
	movb	%cl, -1(%rax,%rdx)
	movzbl	3(%r14,%rdx), %ecx
	movb	%cl, (%rax,%rdx)
	addq	$4, %rdx
	cmpq	%rdx, %r12
	jne	6b
	jmp	8f
7:
	movq	%r14, %rsi
	movq	%r12, %rdx
	movq	%r9, %r14
	movq	%r10, %r12
	movq	%r11, %rbp
	callq	memmove@PLT
	movq	%rbp, %r11
	movq	%r12, %r10
	movq	%r14, %r9
8:
	movq	%r11, 8(%rsp)
	movq	%r9, 16(%rsp)
	movl	$32, 24(%rsp)
	leaq	28(%rsp), %rax
	movl	$0, 8(%rax)
	movq	$0, (%rax)
	movq	$-1, 40(%rsp)
	cmpq	$0, 48(%rsp)
	jne	56f
	movq	%r9, %rax
	subq	%r11, %rax
	cmpq	%rax, %r15
	ja	61f
9:
	leaq	(%r11,%r15), %r14
	leaq	(%r10,%r11), %rdi
	movq	%rdi, %rax
	subq	%rbx, %rax
	cmpq	%r15, %rax
	jae	15f
	cmpq	$4, %r15
	jb	10f
	cmpq	$32, %rax
	jae	47f
10:
	xorl	%eax, %eax
11:
	movq	%r15, %rdx
	movq	%rax, %rcx
	andq	$3, %rdx
	je	13f
	movq	%rax, %rcx
	.p2align	4
12:
	movzbl	(%rbx,%rcx), %esi
	movb	%sil, (%rdi,%rcx)
	incq	%rcx
	decq	%rdx
	jne	12b
13:
	subq	%r15, %rax
	cmpq	$-4, %rax
	ja	16f
	leaq	(%r11,%r10), %rax
	addq	$3, %rax
	.p2align	4
14:
	movzbl	(%rbx,%rcx), %edx
	movb	%dl, -3(%rax,%rcx)
	movzbl	1(%rbx,%rcx), %edx
	movb	%dl, -2(%rax,%rcx)
	movzbl	2(%rbx,%rcx), %edx
	movb	%dl, -1(%rax,%rcx)
	movzbl	3(%rbx,%rcx), %edx
	movb	%dl, (%rax,%rcx)
	addq	$4, %rcx
	cmpq	%rcx, %r15
	jne	14b
	jmp	16f
15:
	movq	%rbx, %rsi
	movq	%r15, %rdx
	movq	%r9, %rbx
	movq	%r10, %r12
	callq	memmove@PLT
	movq	%r12, %r10
	movq	%rbx, %r9
16:
	movq	%r10, (%rsp)
	movq	%r14, 8(%rsp)
	movq	%r9, 16(%rsp)
17:
	movl	$32, 24(%rsp)
	leaq	28(%rsp), %rax
	movl	$0, 8(%rax)
	movq	$0, (%rax)
	movq	$-1, 40(%rsp)
	cmpq	$0, 48(%rsp)
	jne	62f
	movq	8(%rsp), %rax
	movq	16(%rsp), %rbx
	movq	%rbx, %rcx
	subq	%rax, %rcx
	movq	80(%rsp), %rdx
	cmpq	%rcx, %rdx
	ja	67f
18:
	leaq	(%rax,%rdx), %r14
	movq	(%rsp), %rcx
	leaq	(%rcx,%rax), %rdi
	movq	%rdi, %rsi
	subq	%r13, %rsi
	cmpq	%rdx, %rsi
	jae	24f
	cmpq	$4, %rdx
	jb	19f
	cmpq	$32, %rsi
	jae	48f
19:
	xorl	%r10d, %r10d
20:
	movq	%rdx, %r8
	movq	%r10, %rsi
	andq	$3, %r8
	je	22f
	movq	%r10, %rsi
	.p2align	4
21:
	movzbl	(%r13,%rsi), %r9d
	movb	%r9b, (%rdi,%rsi)
	incq	%rsi
	decq	%r8
	jne	21b
22:
	subq	%rdx, %r10
	cmpq	$-4, %r10
	ja	25f
	addq	%rcx, %rax
	addq	$3, %rax
	.p2align	4
23:
	movzbl	(%r13,%rsi), %ecx
	movb	%cl, -3(%rax,%rsi)
	movzbl	1(%r13,%rsi), %ecx
	movb	%cl, -2(%rax,%rsi)
	movzbl	2(%r13,%rsi), %ecx
	movb	%cl, -1(%rax,%rsi)
	movzbl	3(%r13,%rsi), %ecx
	movb	%cl, (%rax,%rsi)
	addq	$4, %rsi
	cmpq	%rsi, %rdx
	jne	23b
	jmp	25f
24:
	movq	%r13, %rsi
	callq	memmove@PLT
25:
	movq	%r14, 8(%rsp)
	movq	%rbx, 16(%rsp)
26:
	movl	$32, 24(%rsp)
	leaq	28(%rsp), %rax
	movl	$0, 8(%rax)
	movq	$0, (%rax)
	movq	$-1, 40(%rsp)
	movq	128(%rsp), %rax
	movq	(%rax), %rsi
	movq	8(%rax), %rdx
	cmpq	$0, 48(%rsp)
	jne	68f
	movq	8(%rsp), %rax
	movq	16(%rsp), %rbx
	movq	%rbx, %rcx
	subq	%rax, %rcx
	cmpq	%rcx, %rdx
	ja	73f
27:
	leaq	(%rax,%rdx), %r14
	movq	(%rsp), %rcx
	leaq	(%rcx,%rax), %rdi
	movq	%rdi, %r8
	subq	%rsi, %r8
	cmpq	%rdx, %r8
	jae	33f
	cmpq	$4, %rdx
	jb	28f
	cmpq	$32, %r8
	jae	49f
28:
	xorl	%r8d, %r8d
29:
	movq	%rdx, %r10
	movq	%r8, %r9
	andq	$3, %r10
	je	31f
	movq	%r8, %r9
	.p2align	4
30:
	movzbl	(%rsi,%r9), %r11d
	movb	%r11b, (%rdi,%r9)
	incq	%r9
	decq	%r10
	jne	30b
31:
	subq	%rdx, %r8
	cmpq	$-4, %r8
	ja	34f
	addq	%rcx, %rax
	addq	$3, %rax
	.p2align	4
32:
	movzbl	(%rsi,%r9), %ecx
	movb	%cl, -3(%rax,%r9)
	movzbl	1(%rsi,%r9), %ecx
	movb	%cl, -2(%rax,%r9)
	movzbl	2(%rsi,%r9), %ecx
	movb	%cl, -1(%rax,%r9)
	movzbl	3(%rsi,%r9), %ecx
	movb	%cl, (%rax,%r9)
	addq	$4, %r9
	cmpq	%r9, %rdx
	jne	32b
	jmp	34f
33:
	callq	memmove@PLT
34:
	movq	%r14, 8(%rsp)
	movq	%rbx, 16(%rsp)
35:
	movl	$32, 24(%rsp)
	leaq	28(%rsp), %rax
	movl	$0, 8(%rax)
	movq	$0, (%rax)
	movq	$-1, 40(%rsp)
	cmpq	$0, 48(%rsp)
	jne	74f
	movq	8(%rsp), %rax
	movq	16(%rsp), %rbx
	movq	%rbx, %rcx
	subq	%rax, %rcx
	movq	72(%rsp), %rdx
	cmpq	%rcx, %rdx
	movq	64(%rsp), %rsi
	ja	79f
36:
	leaq	(%rax,%rdx), %r14
	movq	(%rsp), %rcx
	leaq	(%rcx,%rax), %rdi
	movq	%rdi, %r8
	subq	%rsi, %r8
	cmpq	%rdx, %r8
	jae	42f
	cmpq	$4, %rdx
	jb	37f
	cmpq	$32, %r8
	jae	50f
37:
	xorl	%r10d, %r10d
38:
	movq	%rdx, %r8
	movq	%r10, %r11
	andq	$3, %r8
	je	40f
	movq	%r10, %r11
	.p2align	4
39:
	movzbl	(%rsi,%r11), %r9d
	movb	%r9b, (%rdi,%r11)
	incq	%r11
	decq	%r8
	jne	39b
40:
	subq	%rdx, %r10
	cmpq	$-4, %r10
	ja	43f
	addq	%rcx, %rax
	addq	$3, %rax
	.p2align	4
41:
	movzbl	(%rsi,%r11), %ecx
	movb	%cl, -3(%rax,%r11)
	movzbl	1(%rsi,%r11), %ecx
	movb	%cl, -2(%rax,%r11)
	movzbl	2(%rsi,%r11), %ecx
	movb	%cl, -1(%rax,%r11)
	movzbl	3(%rsi,%r11), %ecx
	movb	%cl, (%rax,%r11)
	addq	$4, %r11
	cmpq	%r11, %rdx
	jne	41b
	jmp	43f
42:
	callq	memmove@PLT
43:
	movq	%r14, 8(%rsp)
	movq	%rbx, 112(%rsp)
	movaps	(%rsp), %xmm0
	movaps	%xmm0, 96(%rsp)
	movq	88(%rsp), %rax
	movq	%rbx, 16(%rax)
	movups	%xmm0, (%rax)
44:
	xorl	%eax, %eax
45:
	addq	$136, %rsp
	popq	%rbx
	popq	%r12
	popq	%r13
	popq	%r14
	popq	%r15
	popq	%rbp
	retq
46:
	cmpq	$32, %r12
	jae	51f
	xorl	%ecx, %ecx
	jmp	53f
47:
	cmpq	$32, %r15
	jae	57f
	xorl	%eax, %eax
	jmp	59f
48:
	cmpq	$32, %rdx
	jae	63f
	xorl	%r10d, %r10d
	jmp	65f
49:
	cmpq	$32, %rdx
	jae	69f
	xorl	%r8d, %r8d
	jmp	71f
50:
	cmpq	$32, %rdx
	jae	75f
	xorl	%r10d, %r10d
	jmp	77f
51:
	movq	%r12, %rcx
	andq	$-32, %rcx
	leaq	(%rax,%r10), %rdx
	addq	$16, %rdx
	xorl	%esi, %esi
	.p2align	4
52:
	movups	(%r14,%rsi), %xmm0
	movups	16(%r14,%rsi), %xmm1
	movups	%xmm0, -16(%rdx,%rsi)
	movups	%xmm1, (%rdx,%rsi)
	addq	$32, %rsi
	cmpq	%rsi, %rcx
	jne	52b
	cmpq	%rcx, %r12
	je	8b
	testb	$28, %r12b
	je	3b
53:
	movq	%rcx, %rdx
	movq	%r12, %rcx
	andq	$-4, %rcx
	.p2align	4
54:
	movl	(%r14,%rdx), %esi
	movl	%esi, (%rdi,%rdx)
	addq	$4, %rdx
	cmpq	%rdx, %rcx
	jne	54b
	cmpq	%rcx, %r12
	je	8b
	jmp	3b
55:
	movq	%rsp, %rdi
	movq	%r12, %rsi
	callq	"std_alloc::vec::Vec::grow_amortized::<#1d775b5957dec42c>"
	testb	%al, %al
	je	80f
	movq	8(%rsp), %rax
	movq	16(%rsp), %r9
	jmp	1b
56:
	movq	%rsp, %rdi
	movq	%rbx, %rsi
	movq	%r15, %rdx
	callq	"core::fmt::formatter::Formatter::write_indented::<#0a7ff941e43d6b30>"
	testb	%al, %al
	jne	80f
	jmp	17b
57:
	movq	%r15, %rax
	andq	$-32, %rax
	leaq	(%r11,%r10), %rcx
	addq	$16, %rcx
	xorl	%edx, %edx
	.p2align	4
58:
	movups	(%rbx,%rdx), %xmm0
	movups	16(%rbx,%rdx), %xmm1
	movups	%xmm0, -16(%rcx,%rdx)
	movups	%xmm1, (%rcx,%rdx)
	addq	$32, %rdx
	cmpq	%rdx, %rax
	jne	58b
	cmpq	%rax, %r15
	je	16b
	testb	$28, %r15b
	je	11b
59:
	movq	%rax, %rcx
	movq	%r15, %rax
	andq	$-4, %rax
	.p2align	4
60:
	movl	(%rbx,%rcx), %edx
	movl	%edx, (%rdi,%rcx)
	addq	$4, %rcx
	cmpq	%rcx, %rax
	jne	60b
	cmpq	%rax, %r15
	je	16b
	jmp	11b
61:
	movq	%rsp, %rdi
	movq	%r15, %rsi
	callq	"std_alloc::vec::Vec::grow_amortized::<#1d775b5957dec42c>"
	testb	%al, %al
	je	80f
	movq	(%rsp), %r10
	movq	8(%rsp), %r11
	movq	16(%rsp), %r9
	jmp	9b
62:
	movq	%rsp, %rdi
	movq	%r13, %rsi
	movq	80(%rsp), %rdx
	callq	"core::fmt::formatter::Formatter::write_indented::<#0a7ff941e43d6b30>"
	testb	%al, %al
	jne	80f
	jmp	26b
63:
	movq	%rdx, %r10
	andq	$-32, %r10
	leaq	(%rax,%rcx), %rsi
	addq	$16, %rsi
	xorl	%r8d, %r8d
	.p2align	4
64:
	movups	(%r13,%r8), %xmm0
	movups	16(%r13,%r8), %xmm1
	movups	%xmm0, -16(%rsi,%r8)
	movups	%xmm1, (%rsi,%r8)
	addq	$32, %r8
	cmpq	%r8, %r10
	jne	64b
	cmpq	%r10, %rdx
	je	25b
	testb	$28, %dl
	je	20b
65:
	movq	%r10, %rsi
	movq	%rdx, %r10
	andq	$-4, %r10
	.p2align	4
66:
	movl	(%r13,%rsi), %r8d
	movl	%r8d, (%rdi,%rsi)
	addq	$4, %rsi
	cmpq	%rsi, %r10
	jne	66b
	cmpq	%r10, %rdx
	je	25b
	jmp	20b
67:
	movq	%rsp, %rdi
	movq	%rdx, %rsi
	callq	"std_alloc::vec::Vec::grow_amortized::<#1d775b5957dec42c>"
	testb	%al, %al
	je	80f
	movq	8(%rsp), %rax
	movq	16(%rsp), %rbx
	movq	80(%rsp), %rdx
	jmp	18b
68:
	movq	%rsp, %rdi
	callq	"core::fmt::formatter::Formatter::write_indented::<#0a7ff941e43d6b30>"
	testb	%al, %al
	jne	80f
	jmp	35b
69:
	movq	%rdx, %r8
	andq	$-32, %r8
	leaq	(%rax,%rcx), %r9
	addq	$16, %r9
	xorl	%r10d, %r10d
	.p2align	4
70:
	movups	(%rsi,%r10), %xmm0
	movups	16(%rsi,%r10), %xmm1
	movups	%xmm0, -16(%r9,%r10)
	movups	%xmm1, (%r9,%r10)
	addq	$32, %r10
	cmpq	%r10, %r8
	jne	70b
	cmpq	%r8, %rdx
	je	34b
	testb	$28, %dl
	je	29b
71:
	movq	%r8, %r9
	movq	%rdx, %r8
	andq	$-4, %r8
	.p2align	4
72:
	movl	(%rsi,%r9), %r10d
	movl	%r10d, (%rdi,%r9)
	addq	$4, %r9
	cmpq	%r9, %r8
	jne	72b
	cmpq	%r8, %rdx
	je	34b
	jmp	29b
73:
	movq	%rsi, %r14
	movq	%rsp, %rdi
	movq	%rdx, %r12
	movq	%rdx, %rsi
	callq	"std_alloc::vec::Vec::grow_amortized::<#1d775b5957dec42c>"
	testb	%al, %al
	je	80f
	movq	8(%rsp), %rax
	movq	16(%rsp), %rbx
	movq	%r12, %rdx
	movq	%r14, %rsi
	jmp	27b
74:
	movq	%rsp, %rdi
	movq	64(%rsp), %rsi
	movq	72(%rsp), %rdx
	callq	"core::fmt::formatter::Formatter::write_indented::<#0a7ff941e43d6b30>"
	movq	16(%rsp), %rcx
	movq	%rcx, 112(%rsp)
	movaps	(%rsp), %xmm0
	movaps	%xmm0, 96(%rsp)
	movq	88(%rsp), %rdx
	movq	%rcx, 16(%rdx)
	movups	%xmm0, (%rdx)
	testb	%al, %al
	jne	81f
	jmp	44b
75:
	movq	%rdx, %r10
	andq	$-32, %r10
	leaq	(%rax,%rcx), %r9
	addq	$16, %r9
	xorl	%r8d, %r8d
	.p2align	4
76:
	movups	(%rsi,%r8), %xmm0
	movups	16(%rsi,%r8), %xmm1
	movups	%xmm0, -16(%r9,%r8)
	movups	%xmm1, (%r9,%r8)
	addq	$32, %r8
	cmpq	%r8, %r10
	jne	76b
	cmpq	%r10, %rdx
	je	43b
	testb	$28, %dl
	je	38b
77:
	movq	%r10, %r9
	movq	%rdx, %r10
	andq	$-4, %r10
	.p2align	4
78:
	movl	(%rsi,%r9), %r8d
	movl	%r8d, (%rdi,%r9)
	addq	$4, %r9
	cmpq	%r9, %r10
	jne	78b
	cmpq	%r10, %rdx
	je	43b
	jmp	38b
79:
	movq	%rsp, %rdi
	movq	%rdx, %rsi
	callq	"std_alloc::vec::Vec::grow_amortized::<#1d775b5957dec42c>"
	testb	%al, %al
	je	80f
	movq	8(%rsp), %rax
	movq	16(%rsp), %rbx
	movq	72(%rsp), %rdx
	movq	64(%rsp), %rsi
	jmp	36b
80:
	movq	16(%rsp), %rax
	movq	%rax, 112(%rsp)
	movaps	(%rsp), %xmm0
	movaps	%xmm0, 96(%rsp)
	movq	88(%rsp), %rdx
	movq	%rax, 16(%rdx)
	movups	%xmm0, (%rdx)
81:
	movq	8(%rdx), %rcx
	movq	120(%rsp), %rsi
	testq	%rsi, %rsi
	je	82f
	cmpq	%rcx, %rsi
	je	82f
	movb	$1, %al
	cmpq	%rsi, %rcx
	jb	45b
	jbe	45b
	movq	(%rdx), %rcx
	cmpb	$-65, (%rcx,%rsi)
	jg	83f
	jmp	45b
82:
	movb	$1, %al
	cmpq	%rsi, %rcx
	jbe	45b
83:
	movq	%rsi, 8(%rdx)
	movb	$1, %al
	jmp	45b
84:
	.size	"std_alloc::string::String::write_fmt::<#a7de7e6af3ee7c9d>", 84b-"std_alloc::string::String::write_fmt::<#a7de7e6af3ee7c9d>"

	.text
	.p2align	4
	.type	"std_alloc::string::String::write_fmt::<#b77c81cbf5ad7277>",@function
"std_alloc::string::String::write_fmt::<#b77c81cbf5ad7277>":
	pushq	%rbp
	pushq	%r15
	pushq	%r14
	pushq	%r13
	pushq	%r12
	pushq	%rbx
	subq	$88, %rsp
	movq	%rsi, %rax
	movq	%rdi, %rbx
	movq	(%rsi), %rsi
	movq	8(%rax), %rdx
	movq	16(%rax), %r14
	movq	8(%rdi), %r15
	movups	(%rdi), %xmm0
	movaps	%xmm0, (%rsp)
	movq	16(%rdi), %r12
	movq	%r12, 16(%rsp)
	xorps	%xmm0, %xmm0
	movaps	%xmm0, 48(%rsp)
	movl	$32, 24(%rsp)
	movq	$0, 28(%rsp)
	movl	$0, 36(%rsp)
	movq	$-1, 40(%rsp)
	movq	8(%rsp), %rax
	movq	%r12, %rcx
	subq	%rax, %rcx
	cmpq	%rcx, %rdx
	ja	16f
1:
	leaq	(%rax,%rdx), %r13
	movq	(%rsp), %rcx
	leaq	(%rcx,%rax), %rdi
	movq	%rdi, %r8
	subq	%rsi, %r8
	cmpq	%rdx, %r8
	jae	7f
	cmpq	$4, %rdx
	jb	2f
	cmpq	$32, %r8
	jae	11f
2:
	xorl	%r8d, %r8d
3:
	movq	%rdx, %r10
	movq	%r8, %r9
	andq	$3, %r10
	je	5f
	movq	%r8, %r9
	.p2align	4
4:
	movzbl	(%rsi,%r9), %r11d
	movb	%r11b, (%rdi,%r9)
	incq	%r9
	decq	%r10
	jne	4b
5:
	subq	%rdx, %r8
	cmpq	$-4, %r8
	ja	8f
	addq	%rcx, %rax
	addq	$3, %rax
	.p2align	4
6:
	movzbl	(%rsi,%r9), %ecx
	movb	%cl, -3(%rax,%r9)
	movzbl	1(%rsi,%r9), %ecx
	movb	%cl, -2(%rax,%r9)
	movzbl	2(%rsi,%r9), %ecx
	movb	%cl, -1(%rax,%r9)
	movzbl	3(%rsi,%r9), %ecx
	movb	%cl, (%rax,%r9)
	addq	$4, %r9
	cmpq	%r9, %rdx
	jne	6b
	jmp	8f
7:
	callq	memmove@PLT
8:
	movq	%r13, 8(%rsp)
	movq	%r12, 16(%rsp)
	movq	%rsp, %rdi
	movq	%r14, %rsi
	callq	"core::fmt::formatter::Formatter::write_piece::<#8b9b65c5604fc23d>"
	movq	16(%rsp), %rcx
	movq	%rcx, 80(%rsp)
	movaps	(%rsp), %xmm0
	movaps	%xmm0, 64(%rsp)
	movq	%rcx, 16(%rbx)
	movups	%xmm0, (%rbx)
	testb	%al, %al
	je	10f
	movq	8(%rbx), %rcx
	testq	%r15, %r15
	je	18f
9:
	cmpq	%rcx, %r15
	je	18f
	movb	$1, %al
	cmpq	%r15, %rcx
	jb	20f
	jbe	20f
	movq	(%rbx), %rcx
	cmpb	$-65, (%rcx,%r15)
	jg	19f
	jmp	20f
10:
	xorl	%eax, %eax
	jmp	20f
11:
	cmpq	$32, %rdx
	jae	12f
	xorl	%r8d, %r8d
	jmp	14f
12:
	movq	%rdx, %r8
	andq	$-32, %r8
	leaq	(%rax,%rcx), %r9
	addq	$16, %r9
	xorl	%r10d, %r10d
	.p2align	4
13:
	movups	(%rsi,%r10), %xmm0
	movups	16(%rsi,%r10), %xmm1
	movups	%xmm0, -16(%r9,%r10)
	movups	%xmm1, (%r9,%r10)
	addq	$32, %r10
	cmpq	%r10, %r8
	jne	13b
	cmpq	%r8, %rdx
	je	8b
	testb	$28, %dl
	je	3b
14:
	movq	%r8, %r9
	movq	%rdx, %r8
	andq	$-4, %r8
	.p2align	4
15:
	movl	(%rsi,%r9), %r10d
	movl	%r10d, (%rdi,%r9)
	addq	$4, %r9
	cmpq	%r9, %r8
	jne	15b
	cmpq	%r8, %rdx
	je	8b
	jmp	3b
16:
	movq	%rsi, %r13
	movq	%rsp, %rdi
	movq	%rdx, %rbp
	movq	%rdx, %rsi
	callq	"std_alloc::vec::Vec::grow_amortized::<#1d775b5957dec42c>"
	testb	%al, %al
	je	17f
	movq	8(%rsp), %rax
	movq	16(%rsp), %r12
	movq	%r13, %rsi
	movq	%rbp, %rdx
	jmp	1b
17:
	movq	16(%rsp), %rax
	movq	%rax, 80(%rsp)
	movaps	(%rsp), %xmm0
	movaps	%xmm0, 64(%rsp)
	movq	%rax, 16(%rbx)
	movups	%xmm0, (%rbx)
	movq	8(%rbx), %rcx
	testq	%r15, %r15
	jne	9b
18:
	movb	$1, %al
	cmpq	%r15, %rcx
	jbe	20f
19:
	movq	%r15, 8(%rbx)
	movb	$1, %al
20:
	addq	$88, %rsp
	popq	%rbx
	popq	%r12
	popq	%r13
	popq	%r14
	popq	%r15
	popq	%rbp
	retq
21:
	.size	"std_alloc::string::String::write_fmt::<#b77c81cbf5ad7277>", 21b-"std_alloc::string::String::write_fmt::<#b77c81cbf5ad7277>"

	.text
	.p2align	4
	.type	"std_alloc::string::String::write_fmt::<#d2f68f8fdebec0d1>",@function
"std_alloc::string::String::write_fmt::<#d2f68f8fdebec0d1>":
	pushq	%rbp
	pushq	%r15
	pushq	%r14
	pushq	%r13
	pushq	%r12
	pushq	%rbx
	subq	$200, %rsp
	movq	(%rsi), %r13
	movq	8(%rsi), %rbp
	movq	16(%rsi), %r15
	movq	24(%rsi), %r11
	movq	32(%rsi), %r14
	movq	40(%rsi), %rax
	movq	%rax, 72(%rsp)
	movq	48(%rsi), %r12
	movq	56(%rsi), %rax
	movq	%rax, 64(%rsp)
	movq	64(%rsi), %rax
	movq	%rax, 128(%rsp)
	movq	72(%rsi), %rax
	movq	%rax, 136(%rsp)
	movq	80(%rsi), %rax
	movq	%rax, 112(%rsp)
	movq	88(%rsi), %rax
	movq	%rax, 120(%rsp)
	movq	96(%rsi), %rax
	movq	%rax, 96(%rsp)
	movq	104(%rsi), %rax
	movq	%rax, 104(%rsp)
	xorps	%xmm1, %xmm1
	movq	8(%rdi), %rax
	movq	%rax, 168(%rsp)
	movaps	%xmm1, 144(%rsp)
	movq	$0, 160(%rsp)
	movq	16(%rdi), %r8
	movq	%r8, 16(%rsp)
	movq	%rdi, 80(%rsp)
	movups	(%rdi), %xmm0
	movaps	%xmm0, (%rsp)
	movaps	%xmm1, 176(%rsp)
	movq	$0, 192(%rsp)
	movaps	%xmm1, 48(%rsp)
	movl	$32, 24(%rsp)
	movq	$0, 28(%rsp)
	movl	$0, 36(%rsp)
	movq	$-1, 40(%rsp)
	movq	8(%rsp), %rax
	movq	%r8, %rcx
	subq	%rax, %rcx
	cmpq	%rcx, %rbp
	ja	75f
1:
	leaq	28(%rsp), %rcx
	leaq	(%rax,%rbp), %rbx
	movq	(%rsp), %r10
	movups	%xmm1, -20(%rcx)
	leaq	(%r10,%rax), %rdi
	movq	%rdi, %rcx
	subq	%r13, %rcx
	cmpq	%rbp, %rcx
	jae	7f
	cmpq	$4, %rbp
	jb	2f
	cmpq	$32, %rcx
	jae	64f
2:
	xorl	%ecx, %ecx
3:
	movq	%r8, %r9
	movq	%rbp, %rsi
	movq	%rcx, %rdx
	andq	$3, %rsi
	je	5f
	movq	%rcx, %rdx
	.p2align	4
4:
	movzbl	(%r13,%rdx), %r8d
	movb	%r8b, (%rdi,%rdx)
	incq	%rdx
	decq	%rsi
	jne	4b
5:
	subq	%rbp, %rcx
	cmpq	$-4, %rcx
	movq	%r9, %r8
	ja	8f
	addq	%r10, %rax
	addq	$3, %rax
	.p2align	4
6:
	movzbl	(%r13,%rdx), %ecx
	movb	%cl, -3(%rax,%rdx)
	movzbl	1(%r13,%rdx), %ecx
	movb	%cl, -2(%rax,%rdx)
	movzbl	2(%r13,%rdx), %ecx
	movb	%cl, -1(%rax,%rdx)
	movzbl	3(%r13,%rdx), %ecx
	movb	%cl, (%rax,%rdx)
	addq	$4, %rdx
	cmpq	%rdx, %rbp
	jne	6b
	jmp	8f
7:
	movq	%r13, %rsi
	movq	%rbp, %rdx
	movq	%r11, %r13
	movq	%r8, %rbp
	movq	%rbx, 88(%rsp)
	movq	%r10, %rbx
	callq	memmove@PLT
	movq	%rbx, %r10
	movq	88(%rsp), %rbx
	movq	%rbp, %r8
	movq	%r13, %r11
8:
	movq	%r10, (%rsp)
	movq	%rbx, 8(%rsp)
	movq	%r8, 16(%rsp)
	movl	$32, 24(%rsp)
	leaq	28(%rsp), %rbp
	movl	$0, 8(%rbp)
	movq	$0, (%rbp)
	movq	$-1, 40(%rsp)
	cmpq	$0, 48(%rsp)
	jne	76f
	movq	%r8, %rax
	subq	%rbx, %rax
	cmpq	%rax, %r11
	ja	81f
9:
	leaq	(%rbx,%r11), %rsi
	xorps	%xmm0, %xmm0
	movups	%xmm0, -20(%rbp)
	movq	%r10, %r13
	leaq	(%r10,%rbx), %rdi
	movq	%rdi, %rax
	subq	%r15, %rax
	cmpq	%r11, %rax
	jae	15f
	cmpq	$4, %r11
	movq	64(%rsp), %r9
	movq	72(%rsp), %r10
	jb	10f
	cmpq	$32, %rax
	jae	65f
10:
	xorl	%eax, %eax
11:
	movq	%r11, %rdx
	movq	%rax, %rcx
	andq	$3, %rdx
	je	13f
	movq	%rax, %rcx
	.p2align	4
12:
	movzbl	(%r15,%rcx), %esi
	movb	%sil, (%rdi,%rcx)
	incq	%rcx
	decq	%rdx
	jne	12b
13:
	subq	%r11, %rax
	cmpq	$-4, %rax
	leaq	(%rbx,%r11), %rsi
	ja	16f
	leaq	(%rbx,%r13), %rax
	addq	$3, %rax
	.p2align	4
14:
	movzbl	(%r15,%rcx), %edx
	movb	%dl, -3(%rax,%rcx)
	movzbl	1(%r15,%rcx), %edx
	movb	%dl, -2(%rax,%rcx)
	movzbl	2(%r15,%rcx), %edx
	movb	%dl, -1(%rax,%rcx)
	movzbl	3(%r15,%rcx), %edx
	movb	%dl, (%rax,%rcx)
	addq	$4, %rcx
	cmpq	%rcx, %r11
	jne	14b
	jmp	16f
15:
	movq	%rsi, %rbx
	movq	%r15, %rsi
	movq	%r11, %rdx
	movq	%r8, %r15
	callq	memmove@PLT
	movq	%rbx, %rsi
	movq	%r15, %r8
	movq	64(%rsp), %r9
	movq	72(%rsp), %r10
16:
	movq	%r13, (%rsp)
	movq	%rsi, 8(%rsp)
	movq	%r8, 16(%rsp)
17:
	movl	$32, 24(%rsp)
	movl	$0, 8(%rbp)
	movq	$0, (%rbp)
	movq	$-1, 40(%rsp)
	cmpq	$0, 48(%rsp)
	jne	82f
	movq	8(%rsp), %rax
	movq	16(%rsp), %r15
	movq	%r15, %rcx
	subq	%rax, %rcx
	cmpq	%rcx, %r10
	ja	87f
18:
	leaq	(%rax,%r10), %r13
	movq	%rbp, %rcx
	movq	(%rsp), %rbp
	xorps	%xmm0, %xmm0
	movups	%xmm0, -20(%rcx)
	leaq	(%rax,%rbp), %rdi
	movq	%rdi, %rcx
	subq	%r14, %rcx
	cmpq	%r10, %rcx
	jae	24f
	cmpq	$4, %r10
	jb	19f
	cmpq	$32, %rcx
	jae	66f
19:
	xorl	%ecx, %ecx
20:
	movq	%r10, %rsi
	movq	%rcx, %rdx
	andq	$3, %rsi
	je	22f
	movq	%rcx, %rdx
	.p2align	4
21:
	movzbl	(%r14,%rdx), %r8d
	movb	%r8b, (%rdi,%rdx)
	incq	%rdx
	decq	%rsi
	jne	21b
22:
	subq	%r10, %rcx
	cmpq	$-4, %rcx
	ja	25f
	addq	%rbp, %rax
	addq	$3, %rax
	.p2align	4
23:
	movzbl	(%r14,%rdx), %ecx
	movb	%cl, -3(%rax,%rdx)
	movzbl	1(%r14,%rdx), %ecx
	movb	%cl, -2(%rax,%rdx)
	movzbl	2(%r14,%rdx), %ecx
	movb	%cl, -1(%rax,%rdx)
	movzbl	3(%r14,%rdx), %ecx
	movb	%cl, (%rax,%rdx)
	addq	$4, %rdx
	cmpq	%rdx, %r10
	jne	23b
	jmp	25f
24:
	movq	%r14, %rsi
	movq	%r10, %rdx
	callq	memmove@PLT
	movq	64(%rsp), %r9
25:
	movq	%rbp, (%rsp)
	movq	%r13, 8(%rsp)
	movq	%r15, 16(%rsp)
	leaq	28(%rsp), %rbp
26:
	movl	$32, 24(%rsp)
	movl	$0, 8(%rbp)
	movq	$0, (%rbp)
	movq	$-1, 40(%rsp)
	cmpq	$0, 48(%rsp)
	jne	88f
	movq	8(%rsp), %rax
	movq	16(%rsp), %r14
	movq	%r14, %rcx
	subq	%rax, %rcx
	cmpq	%rcx, %r9
	ja	93f
27:
	leaq	(%rax,%r9), %r15
	movq	(%rsp), %r13
	xorps	%xmm0, %xmm0
	movups	%xmm0, -20(%rbp)
	leaq	(%rax,%r13), %rdi
	movq	%rdi, %rcx
	subq	%r12, %rcx
	cmpq	%r9, %rcx
	jae	33f
	cmpq	$4, %r9
	jb	28f
	cmpq	$32, %rcx
	jae	67f
28:
	xorl	%ecx, %ecx
29:
	movq	%r9, %rsi
	movq	%rcx, %rdx
	andq	$3, %rsi
	je	31f
	movq	%rcx, %rdx
	.p2align	4
30:
	movzbl	(%r12,%rdx), %r8d
	movb	%r8b, (%rdi,%rdx)
	incq	%rdx
	decq	%rsi
	jne	30b
31:
	subq	%r9, %rcx
	cmpq	$-4, %rcx
	ja	34f
	addq	%r13, %rax
	addq	$3, %rax
	.p2align	4
32:
	movzbl	(%r12,%rdx), %ecx
	movb	%cl, -3(%rax,%rdx)
	movzbl	1(%r12,%rdx), %ecx
	movb	%cl, -2(%rax,%rdx)
	movzbl	2(%r12,%rdx), %ecx
	movb	%cl, -1(%rax,%rdx)
	movzbl	3(%r12,%rdx), %ecx
	movb	%cl, (%rax,%rdx)
	addq	$4, %rdx
	cmpq	%rdx, %r9
	jne	32b
	jmp	34f
33:
	movq	%r12, %rsi
	movq	%r9, %rdx
	callq	memmove@PLT
34:
	movq	%r13, (%rsp)
	movq	%r15, 8(%rsp)
	movq	%r14, 16(%rsp)
35:
	movl	$32, 24(%rsp)
	movl	$0, 8(%rbp)
	movq	$0, (%rbp)
	movq	$-1, 40(%rsp)
	cmpq	$0, 48(%rsp)
	jne	94f
	movq	8(%rsp), %rax
	movq	16(%rsp), %r14
	movq	%r14, %rcx
	subq	%rax, %rcx
	movq	136(%rsp), %rdx
	cmpq	%rcx, %rdx
	movq	128(%rsp), %rsi
	ja	99f
36:
	leaq	(%rax,%rdx), %r15
	movq	(%rsp), %r12
	xorps	%xmm0, %xmm0
	movups	%xmm0, -20(%rbp)
	leaq	(%r12,%rax), %rdi
	movq	%rdi, %rcx
	subq	%rsi, %rcx
	cmpq	%rdx, %rcx
	jae	42f
	cmpq	$4, %rdx
	jb	37f
	cmpq	$32, %rcx
	jae	68f
37:
	xorl	%ecx, %ecx
38:
	movq	%rdx, %r10
	movq	%rcx, %r9
	andq	$3, %r10
	je	40f
	movq	%rcx, %r9
	.p2align	4
39:
	movzbl	(%rsi,%r9), %r8d
	movb	%r8b, (%rdi,%r9)
	incq	%r9
	decq	%r10
	jne	39b
40:
	subq	%rdx, %rcx
	cmpq	$-4, %rcx
	ja	43f
	addq	%r12, %rax
	addq	$3, %rax
	.p2align	4
41:
	movzbl	(%rsi,%r9), %ecx
	movb	%cl, -3(%rax,%r9)
	movzbl	1(%rsi,%r9), %ecx
	movb	%cl, -2(%rax,%r9)
	movzbl	2(%rsi,%r9), %ecx
	movb	%cl, -1(%rax,%r9)
	movzbl	3(%rsi,%r9), %ecx
	movb	%cl, (%rax,%r9)
	addq	$4, %r9
	cmpq	%r9, %rdx
	jne	41b
	jmp	43f
42:
	callq	memmove@PLT
43:
	movq	%r12, (%rsp)
	movq	%r15, 8(%rsp)
	movq	%r14, 16(%rsp)
44:
	movl	$32, 24(%rsp)
	movl	$0, 8(%rbp)
	movq	$0, (%rbp)
	movq	$-1, 40(%rsp)
	cmpq	$0, 48(%rsp)
	jne	100f
	movq	8(%rsp), %rax
	movq	16(%rsp), %rbx
	movq	%rbx, %rcx
	subq	%rax, %rcx
	movq	120(%rsp), %rdx
	cmpq	%rcx, %rdx
	movq	112(%rsp), %rsi
	ja	105f
45:
	leaq	(%rax,%rdx), %r14
	movq	(%rsp), %r15
	xorps	%xmm0, %xmm0
	movups	%xmm0, -20(%rbp)
	leaq	(%r15,%rax), %rdi
	movq	%rdi, %rcx
	subq	%rsi, %rcx
	cmpq	%rdx, %rcx
	jae	51f
	cmpq	$4, %rdx
	jb	46f
	cmpq	$32, %rcx
	jae	69f
46:
	xorl	%ecx, %ecx
47:
	movq	%rdx, %r10
	movq	%rcx, %r9
	andq	$3, %r10
	je	49f
	movq	%rcx, %r9
	.p2align	4
48:
	movzbl	(%rsi,%r9), %r8d
	movb	%r8b, (%rdi,%r9)
	incq	%r9
	decq	%r10
	jne	48b
49:
	subq	%rdx, %rcx
	cmpq	$-4, %rcx
	ja	52f
	addq	%r15, %rax
	addq	$3, %rax
	.p2align	4
50:
	movzbl	(%rsi,%r9), %ecx
	movb	%cl, -3(%rax,%r9)
	movzbl	1(%rsi,%r9), %ecx
	movb	%cl, -2(%rax,%r9)
	movzbl	2(%rsi,%r9), %ecx
	movb	%cl, -1(%rax,%r9)
	movzbl	3(%rsi,%r9), %ecx
	movb	%cl, (%rax,%r9)
	addq	$4, %r9
	cmpq	%r9, %rdx
	jne	50b
	jmp	52f
51:
	callq	memmove@PLT
52:
	movq	%r15, (%rsp)
	movq	%r14, 8(%rsp)
	movq	%rbx, 16(%rsp)
53:
	movl	$32, 24(%rsp)
	movl	$0, 8(%rbp)
	movq	$0, (%rbp)
	movq	$-1, 40(%rsp)
	cmpq	$0, 48(%rsp)
	jne	106f
	movq	8(%rsp), %rax
	movq	16(%rsp), %rbx
	movq	%rbx, %rcx
	subq	%rax, %rcx
	movq	104(%rsp), %rdx
	cmpq	%rcx, %rdx
	movq	96(%rsp), %rsi
	ja	111f
54:
	leaq	(%rax,%rdx), %r14
	movq	(%rsp), %r15
	xorps	%xmm0, %xmm0
	movups	%xmm0, -20(%rbp)
	leaq	(%r15,%rax), %rdi
	movq	%rdi, %rcx
	subq	%rsi, %rcx
	cmpq	%rdx, %rcx
	jae	60f
	cmpq	$4, %rdx
	movq	80(%rsp), %r9
	jb	55f
	cmpq	$32, %rcx
	jae	70f
55:
	xorl	%ecx, %ecx
56:
	movq	%rdx, %r11
	movq	%rcx, %r10
	andq	$3, %r11
	je	58f
	movq	%rcx, %r10
	.p2align	4
57:
	movzbl	(%rsi,%r10), %r8d
	movb	%r8b, (%rdi,%r10)
	incq	%r10
	decq	%r11
	jne	57b
58:
	subq	%rdx, %rcx
	cmpq	$-4, %rcx
	ja	61f
	addq	%r15, %rax
	addq	$3, %rax
	.p2align	4
59:
	movzbl	(%rsi,%r10), %ecx
	movb	%cl, -3(%rax,%r10)
	movzbl	1(%rsi,%r10), %ecx
	movb	%cl, -2(%rax,%r10)
	movzbl	2(%rsi,%r10), %ecx
	movb	%cl, -1(%rax,%r10)
	movzbl	3(%rsi,%r10), %ecx
	movb	%cl, (%rax,%r10)
	addq	$4, %r10
	cmpq	%r10, %rdx
	jne	59b
	jmp	61f
60:
	callq	memmove@PLT
	movq	80(%rsp), %r9
61:
	movq	%r15, (%rsp)
	movq	%r14, 8(%rsp)
	movaps	(%rsp), %xmm0
	movq	%rbx, 160(%rsp)
	movaps	%xmm0, 144(%rsp)
	movq	%rbx, 16(%r9)
	movups	%xmm0, (%r9)
62:
	xorl	%eax, %eax
63:
	addq	$200, %rsp
	popq	%rbx
	popq	%r12
	popq	%r13
	popq	%r14
	popq	%r15
	popq	%rbp
	retq
64:
	cmpq	$32, %rbp
	jae	71f
	xorl	%ecx, %ecx
	jmp	73f
65:
	cmpq	$32, %r11
	jae	77f
	xorl	%eax, %eax
	jmp	79f
66:
	cmpq	$32, %r10
	jae	83f
	xorl	%ecx, %ecx
	jmp	85f
67:
	cmpq	$32, %r9
	jae	89f
	xorl	%ecx, %ecx
	jmp	91f
68:
	cmpq	$32, %rdx
	jae	95f
	xorl	%ecx, %ecx
	jmp	97f
69:
	cmpq	$32, %rdx
	jae	101f
	xorl	%ecx, %ecx
	jmp	103f
70:
	cmpq	$32, %rdx
	jae	107f
	xorl	%ecx, %ecx
	jmp	109f
71:
	movq	%rbp, %rcx
	andq	$-32, %rcx
	leaq	(%rax,%r10), %rdx
	addq	$16, %rdx
	xorl	%esi, %esi
	.p2align	4
72:
	movups	(%r13,%rsi), %xmm0
	movups	16(%r13,%rsi), %xmm1
	movups	%xmm0, -16(%rdx,%rsi)
	movups	%xmm1, (%rdx,%rsi)
	addq	$32, %rsi
	cmpq	%rsi, %rcx
	jne	72b
	cmpq	%rcx, %rbp
	je	8b
	testb	$28, %bpl
	je	3b
73:
	movq	%rcx, %rdx
	movq	%rbp, %rcx
	andq	$-4, %rcx
	.p2align	4
74:
	movl	(%r13,%rdx), %esi
	movl	%esi, (%rdi,%rdx)
	addq	$4, %rdx
	cmpq	%rdx, %rcx
	jne	74b
	cmpq	%rcx, %rbp
	je	8b
	jmp	3b
75:
	movq	%r11, 88(%rsp)
	movq	%rsp, %rdi
	movq	%rbp, %rsi
	callq	"std_alloc::vec::Vec::grow_amortized::<#1d775b5957dec42c>"
	testb	%al, %al
	je	112f
	movq	8(%rsp), %rax
	movq	16(%rsp), %r8
	movq	88(%rsp), %r11
	xorps	%xmm1, %xmm1
	jmp	1b
76:
	movq	%rsp, %rdi
	movq	%r15, %rsi
	movq	%r11, %rdx
	callq	"core::fmt::formatter::Formatter::write_indented::<#0a7ff941e43d6b30>"
	testb	%al, %al
	movq	64(%rsp), %r9
	movq	72(%rsp), %r10
	jne	112f
	jmp	17b
77:
	movq	%r11, %rax
	andq	$-32, %rax
	leaq	(%rbx,%r13), %rcx
	addq	$16, %rcx
	xorl	%edx, %edx
	.p2align	4
78:
	movups	(%r15,%rdx), %xmm0
	movups	16(%r15,%rdx), %xmm1
	movups	%xmm0, -16(%rcx,%rdx)
	movups	%xmm1, (%rcx,%rdx)
	addq	$32, %rdx
	cmpq	%rdx, %rax
	jne	78b
	cmpq	%rax, %r11
	je	16b
	testb	$28, %r11b
	je	11b
79:
	movq	%rax, %rcx
	movq	%r11, %rax
	andq	$-4, %rax
	.p2align	4
80:
	movl	(%r15,%rcx), %edx
	movl	%edx, (%rdi,%rcx)
	addq	$4, %rcx
	cmpq	%rcx, %rax
	jne	80b
	cmpq	%rax, %r11
	je	16b
	jmp	11b
81:
	movq	%rsp, %rdi
	movq	%r11, %r13
	movq	%r11, %rsi
	callq	"std_alloc::vec::Vec::grow_amortized::<#1d775b5957dec42c>"
	testb	%al, %al
	je	112f
	movq	(%rsp), %r10
	movq	8(%rsp), %rbx
	movq	16(%rsp), %r8
	movq	%r13, %r11
	jmp	9b
82:
	movq	%rsp, %rdi
	movq	%r14, %rsi
	movq	%r10, %rdx
	callq	"core::fmt::formatter::Formatter::write_indented::<#0a7ff941e43d6b30>"
	movq	64(%rsp), %r9
	testb	%al, %al
	jne	112f
	jmp	26b
83:
	movq	%r10, %rcx
	andq	$-32, %rcx
	leaq	(%rax,%rbp), %rdx
	addq	$16, %rdx
	xorl	%esi, %esi
	.p2align	4
84:
	movups	(%r14,%rsi), %xmm0
	movups	16(%r14,%rsi), %xmm1
	movups	%xmm0, -16(%rdx,%rsi)
	movups	%xmm1, (%rdx,%rsi)
	addq	$32, %rsi
	cmpq	%rsi, %rcx
	jne	84b
	cmpq	%rcx, %r10
	je	25b
	testb	$28, %r10b
	je	20b
85:
	movq	%rcx, %rdx
	movq	%r10, %rcx
	andq	$-4, %rcx
	.p2align	4
86:
	movl	(%r14,%rdx), %esi
	movl	%esi, (%rdi,%rdx)
	addq	$4, %rdx
	cmpq	%rdx, %rcx
	jne	86b
	cmpq	%rcx, %r10
	je	25b
	jmp	20b
87:
	movq	%rsp, %rdi
	movq	%r10, %rsi
	callq	"std_alloc::vec::Vec::grow_amortized::<#1d775b5957dec42c>"
	movq	72(%rsp), %r10
	movq	64(%rsp), %r9
	testb	%al, %al
	je	112f
	movq	8(%rsp), %rax
	movq	16(%rsp), %r15
	jmp	18b
88:
	movq	%rsp, %rdi
	movq	%r12, %rsi
	movq	%r9, %rdx
	callq	"core::fmt::formatter::Formatter::write_indented::<#0a7ff941e43d6b30>"
	testb	%al, %al
	jne	112f
	jmp	35b
89:
	movq	%r9, %rcx
	andq	$-32, %rcx
	leaq	(%rax,%r13), %rdx
	addq	$16, %rdx
	xorl	%esi, %esi
	.p2align	4
90:
	movups	(%r12,%rsi), %xmm0
	movups	16(%r12,%rsi), %xmm1
	movups	%xmm0, -16(%rdx,%rsi)
	movups	%xmm1, (%rdx,%rsi)
	addq	$32, %rsi
	cmpq	%rsi, %rcx
	jne	90b
	cmpq	%rcx, %r9
	je	34b
	testb	$28, %r9b
	je	29b
91:
	movq	%rcx, %rdx
	movq	%r9, %rcx
	andq	$-4, %rcx
	.p2align	4
92:
	movl	(%r12,%rdx), %esi
	movl	%esi, (%rdi,%rdx)
	addq	$4, %rdx
	cmpq	%rdx, %rcx
	jne	92b
	cmpq	%rcx, %r9
	je	34b
	jmp	29b
93:
	movq	%rsp, %rdi
	movq	%r9, %rsi
	callq	"std_alloc::vec::Vec::grow_amortized::<#1d775b5957dec42c>"
	movq	64(%rsp), %r9
	testb	%al, %al
	je	112f
	movq	8(%rsp), %rax
	movq	16(%rsp), %r14
	jmp	27b
94:
	movq	%rsp, %rdi
	movq	128(%rsp), %rsi
	movq	136(%rsp), %rdx
	callq	"core::fmt::formatter::Formatter::write_indented::<#0a7ff941e43d6b30>"
	testb	%al, %al
	jne	112f
	jmp	44b
95:
	movq	%rdx, %rcx
	andq	$-32, %rcx
	leaq	(%rax,%r12), %r8
	addq	$16, %r8
	xorl	%r9d, %r9d
	.p2align	4
96:
	movups	(%rsi,%r9), %xmm0
	movups	16(%rsi,%r9), %xmm1
	movups	%xmm0, -16(%r8,%r9)
	movups	%xmm1, (%r8,%r9)
	addq	$32, %r9
	cmpq	%r9, %rcx
	jne	96b
	cmpq	%rcx, %rdx
	je	43b
	testb	$28, %dl
	je	38b
97:
	movq	%rcx, %r8
	movq	%rdx, %rcx
	andq	$-4, %rcx
	.p2align	4
98:
	movl	(%rsi,%r8), %r9d
	movl	%r9d, (%rdi,%r8)
	addq	$4, %r8
	cmpq	%r8, %rcx
	jne	98b
	cmpq	%rcx, %rdx
	je	43b
	jmp	38b
99:
	movq	%rsp, %rdi
	movq	%rdx, %rsi
	callq	"std_alloc::vec::Vec::grow_amortized::<#1d775b5957dec42c>"
	testb	%al, %al
	je	112f
	movq	8(%rsp), %rax
	movq	16(%rsp), %r14
	movq	136(%rsp), %rdx
	movq	128(%rsp), %rsi
	jmp	36b
100:
	movq	%rsp, %rdi
	movq	112(%rsp), %rsi
	movq	120(%rsp), %rdx
	callq	"core::fmt::formatter::Formatter::write_indented::<#0a7ff941e43d6b30>"
	testb	%al, %al
	jne	112f
	jmp	53b
101:
	movq	%rdx, %rcx
	andq	$-32, %rcx
	leaq	(%rax,%r15), %r8
	addq	$16, %r8
	xorl	%r9d, %r9d
	.p2align	4
102:
	movups	(%rsi,%r9), %xmm0
	movups	16(%rsi,%r9), %xmm1
	movups	%xmm0, -16(%r8,%r9)
	movups	%xmm1, (%r8,%r9)
	addq	$32, %r9
	cmpq	%r9, %rcx
	jne	102b
	cmpq	%rcx, %rdx
	je	52b
	testb	$28, %dl
	je	47b
103:
	movq	%rcx, %r8
	movq	%rdx, %rcx
	andq	$-4, %rcx
	.p2align	4
104:
	movl	(%rsi,%r8), %r9d
	movl	%r9d, (%rdi,%r8)
	addq	$4, %r8
	cmpq	%r8, %rcx
	jne	104b
	cmpq	%rcx, %rdx
	je	52b
	jmp	47b
105:
	movq	%rsp, %rdi
	movq	%rdx, %rsi
	callq	"std_alloc::vec::Vec::grow_amortized::<#1d775b5957dec42c>"
	testb	%al, %al
	je	112f
	movq	8(%rsp), %rax
	movq	16(%rsp), %rbx
	movq	120(%rsp), %rdx
	movq	112(%rsp), %rsi
	jmp	45b
106:
	movq	%rsp, %rdi
	movq	96(%rsp), %rsi
	movq	104(%rsp), %rdx
	callq	"core::fmt::formatter::Formatter::write_indented::<#0a7ff941e43d6b30>"
	movaps	(%rsp), %xmm0
	movq	16(%rsp), %rcx
	movq	%rcx, 160(%rsp)
	movaps	%xmm0, 144(%rsp)
	movq	80(%rsp), %rdx
	movq	%rcx, 16(%rdx)
	movups	%xmm0, (%rdx)
	testb	%al, %al
	jne	113f
	jmp	62b
107:
	movq	%rdx, %rcx
	andq	$-32, %rcx
	leaq	(%rax,%r15), %r8
	addq	$16, %r8
	xorl	%r10d, %r10d
	.p2align	4
108:
	movups	(%rsi,%r10), %xmm0
	movups	16(%rsi,%r10), %xmm1
	movups	%xmm0, -16(%r8,%r10)
	movups	%xmm1, (%r8,%r10)
	addq	$32, %r10
	cmpq	%r10, %rcx
	jne	108b
	cmpq	%rcx, %rdx
	je	61b
	testb	$28, %dl
	je	56b
109:
	movq	%rcx, %r8
	movq	%rdx, %rcx
	andq	$-4, %rcx
	.p2align	4
110:
	movl	(%rsi,%r8), %r10d
	movl	%r10d, (%rdi,%r8)
	addq	$4, %r8
	cmpq	%r8, %rcx
	jne	110b
	cmpq	%rcx, %rdx
	je	61b
	jmp	56b
111:
	movq	%rsp, %rdi
	movq	%rdx, %rsi
	callq	"std_alloc::vec::Vec::grow_amortized::<#1d775b5957dec42c>"
	testb	%al, %al
	je	112f
	movq	8(%rsp), %rax
	movq	16(%rsp), %rbx
	movq	104(%rsp), %rdx
	movq	96(%rsp), %rsi
	jmp	54b
112:
	movq	16(%rsp), %rax
	movaps	(%rsp), %xmm0
	movaps	%xmm0, 144(%rsp)
	movq	%rax, 160(%rsp)
	movq	80(%rsp), %rdx
	movq	%rax, 16(%rdx)
	movups	%xmm0, (%rdx)
113:
	movq	8(%rdx), %rcx
	movq	168(%rsp), %rsi
	testq	%rsi, %rsi
	je	114f
	cmpq	%rcx, %rsi
	je	114f
	movb	$1, %al
	cmpq	%rsi, %rcx
	jb	63b
	jbe	63b
	movq	(%rdx), %rcx
	cmpb	$-65, (%rcx,%rsi)
	jg	115f
	jmp	63b
114:
	movb	$1, %al
	cmpq	%rsi, %rcx
	jbe	63b
115:
	movq	%rsi, 8(%rdx)
	movb	$1, %al
	jmp	63b
116:
	.size	"std_alloc::string::String::write_fmt::<#d2f68f8fdebec0d1>", 116b-"std_alloc::string::String::write_fmt::<#d2f68f8fdebec0d1>"

	.section	.rodata.cst16,"aM",@progbits,16
	.p2align	4, 0x0
1:
	.byte	255,63,63,63
	.zero	1
	.zero	1
	.zero	1
	.zero	1
	.zero	1
	.zero	1
	.zero	1
	.zero	1
	.zero	1
	.zero	1
	.zero	1
	.zero	1
2:
	.byte	240,128,128,128
	.zero	1
	.zero	1
	.zero	1
	.zero	1
	.zero	1
	.zero	1
	.zero	1
	.zero	1
	.zero	1
	.zero	1
	.zero	1
	.zero	1
	.text
	.p2align	4
	.type	"std_alloc::string::add_wide::<#2cbb67ac55bf10f9>",@function
"std_alloc::string::add_wide::<#2cbb67ac55bf10f9>":
	pushq	%r14
	pushq	%rbx
	pushq	%rax
	cmpl	$2047, %esi
	ja	4f
	movq	8(%rdi), %rax
	movq	16(%rdi), %rcx
	movq	%rcx, %rdx
	subq	%rax, %rdx
	cmpq	$1, %rdx
	jbe	11f
3:
	movq	(%rdi), %rdx
	movl	%esi, %r8d
	shrl	$6, %r8d
	andl	$63, %esi
	shll	$8, %esi
	orl	%esi, %r8d
	orl	$32960, %r8d
	movw	%r8w, (%rdx,%rax)
	addq	$2, %rax
	jmp	8f
4:
	cmpl	$65535, %esi
	ja	6f
	movq	8(%rdi), %rcx
	movq	16(%rdi), %rax
	movq	%rax, %rdx
	subq	%rcx, %rdx
	cmpq	$2, %rdx
	jbe	12f
5:
	movl	%esi, %edx
	shrl	$12, %edx
	orb	$-32, %dl
	movl	%esi, %r8d
	shrl	$6, %r8d
	andb	$63, %r8b
	orb	$-128, %r8b
	andb	$63, %sil
	orb	$-128, %sil
	leaq	3(%rcx), %r9
	movq	(%rdi), %r10
	movb	%dl, (%r10,%rcx)
	movb	%r8b, 1(%r10,%rcx)
	movb	%sil, 2(%r10,%rcx)
	movq	%r10, (%rdi)
	movq	%r9, 8(%rdi)
	movq	%rax, 16(%rdi)
	jmp	9f
6:
	movq	8(%rdi), %rax
	movq	16(%rdi), %rcx
	movq	%rcx, %rdx
	subq	%rax, %rdx
	cmpq	$3, %rdx
	jbe	13f
7:
	movl	%esi, %edx
	shrl	$6, %edx
	movl	%esi, %r8d
	shrl	$12, %r8d
	movd	%esi, %xmm0
	psrld	$18, %xmm0
	pinsrb	$1, %r8d, %xmm0
	pinsrb	$2, %edx, %xmm0
	pinsrb	$3, %esi, %xmm0
	pand	1b(%rip), %xmm0
	paddb	2b(%rip), %xmm0
	movq	(%rdi), %rdx
	movd	%xmm0, (%rdx,%rax)
	addq	$4, %rax
8:
	movq	%rdx, (%rdi)
	movq	%rax, 8(%rdi)
	movq	%rcx, 16(%rdi)
9:
	xorl	%eax, %eax
10:
	addq	$8, %rsp
	popq	%rbx
	popq	%r14
	retq
11:
	movl	%esi, %ebx
	movl	$2, %esi
	movq	%rdi, %r14
	callq	"std_alloc::vec::Vec::grow_amortized::<#1d775b5957dec42c>"
	movl	%eax, %ecx
	movb	$1, %al
	testb	%cl, %cl
	je	10b
	movq	%r14, %rdi
	movq	8(%r14), %rax
	movq	16(%r14), %rcx
	movl	%ebx, %esi
	jmp	3b
12:
	movl	%esi, %ebx
	movl	$3, %esi
	movq	%rdi, %r14
	callq	"std_alloc::vec::Vec::grow_amortized::<#1d775b5957dec42c>"
	movl	%eax, %ecx
	movb	$1, %al
	testb	%cl, %cl
	je	10b
	movq	%r14, %rdi
	movq	8(%r14), %rcx
	movq	16(%r14), %rax
	movl	%ebx, %esi
	jmp	5b
13:
	movl	%esi, %ebx
	movl	$4, %esi
	movq	%rdi, %r14
	callq	"std_alloc::vec::Vec::grow_amortized::<#1d775b5957dec42c>"
	movl	%eax, %ecx
	movb	$1, %al
	testb	%cl, %cl
	je	10b
	movq	%r14, %rdi
	movq	8(%r14), %rax
	movq	16(%r14), %rcx
	movl	%ebx, %esi
	jmp	7b
14:
	.size	"std_alloc::string::add_wide::<#2cbb67ac55bf10f9>", 14b-"std_alloc::string::add_wide::<#2cbb67ac55bf10f9>"

	.text
	.p2align	4
	.type	"std_alloc::vec::Vec::drop::<#00910116450e14d9>",@function
"std_alloc::vec::Vec::drop::<#00910116450e14d9>":
	pushq	%rbp
	pushq	%r15
	pushq	%r14
	pushq	%r13
	pushq	%r12
	pushq	%rbx
	pushq	%rax
	movq	(%rdi), %rbx
	movq	8(%rdi), %r12
	movq	16(%rdi), %rax
	movq	%rax, (%rsp)
	testq	%r12, %r12
	je	4f
	movq	%rbx, %r13
	jmp	2f
	.p2align	4
1:
	addq	$96, %r13
	decq	%r12
	je	4f
2:
	movzbl	48(%r13), %r15d
	movq	56(%r13), %r14
	movq	72(%r13), %rbp
	cmpb	$0, (%r13)
	je	3f
	cmpq	$0, 24(%r13)
	je	3f
	movq	8(%r13), %rdi
	callq	rattle_dealloc@PLT
3:
	testb	%r15b, %r15b
	je	1b
	testq	%rbp, %rbp
	je	1b
	movq	%r14, %rdi
	callq	rattle_dealloc@PLT
	jmp	1b
4:
	cmpq	$0, (%rsp)
	je	5f
	movq	%rbx, %rdi
	addq	$8, %rsp
	popq	%rbx
	popq	%r12
	popq	%r13
	popq	%r14
	popq	%r15
	popq	%rbp
	jmp	rattle_dealloc@PLT
5:
	addq	$8, %rsp
	popq	%rbx
	popq	%r12
	popq	%r13
	popq	%r14
	popq	%r15
	popq	%rbp
	retq
6:
	.size	"std_alloc::vec::Vec::drop::<#00910116450e14d9>", 6b-"std_alloc::vec::Vec::drop::<#00910116450e14d9>"

	.text
	.p2align	4
	.type	"std_alloc::vec::Vec::drop::<#0f47a7c1cd4b426f>",@function
"std_alloc::vec::Vec::drop::<#0f47a7c1cd4b426f>":
	pushq	%r15
	pushq	%r14
	pushq	%r12
	pushq	%rbx
	pushq	%rax
	movq	(%rdi), %rbx
	movq	8(%rdi), %r15
	movq	16(%rdi), %r14
	testq	%r15, %r15
	je	3f
	movq	%rbx, %r12
	jmp	2f
	.p2align	4
1:
	addq	$48, %r12
	decq	%r15
	je	3f
2:
	cmpb	$0, (%r12)
	je	1b
	cmpq	$0, 24(%r12)
	je	1b
	movq	8(%r12), %rdi
	callq	rattle_dealloc@PLT
	jmp	1b
3:
	testq	%r14, %r14
	je	4f
	movq	%rbx, %rdi
	addq	$8, %rsp
	popq	%rbx
	popq	%r12
	popq	%r14
	popq	%r15
	jmp	rattle_dealloc@PLT
4:
	addq	$8, %rsp
	popq	%rbx
	popq	%r12
	popq	%r14
	popq	%r15
	retq
5:
	.size	"std_alloc::vec::Vec::drop::<#0f47a7c1cd4b426f>", 5b-"std_alloc::vec::Vec::drop::<#0f47a7c1cd4b426f>"

	.text
	.p2align	4
	.type	"std_alloc::vec::Vec::drop::<#19687a60d315e203>",@function
"std_alloc::vec::Vec::drop::<#19687a60d315e203>":
	pushq	%rbp
	pushq	%r15
	pushq	%r14
	pushq	%r13
	pushq	%r12
	pushq	%rbx
	subq	$120, %rsp
	movq	(%rdi), %rbx
	movq	8(%rdi), %rcx
	movq	16(%rdi), %rax
	movq	%rax, (%rsp)
	movq	%rcx, 8(%rsp)
	testq	%rcx, %rcx
	je	6f
	xorl	%r13d, %r13d
	jmp	2f
	.p2align	4
1:
	incq	%r13
	cmpq	8(%rsp), %r13
	je	6f
2:
	movq	%r13, %rax
	shlq	$4, %rax
	leaq	(%rax,%rax,4), %rax
	movq	56(%rbx,%rax), %r12
	movq	64(%rbx,%rax), %r15
	movq	72(%rbx,%rax), %rbp
	cmpb	$0, 8(%rbx,%rax)
	je	3f
	cmpq	$0, 32(%rbx,%rax)
	je	3f
	movq	16(%rbx,%rax), %rdi
	callq	rattle_dealloc@PLT
3:
	testq	%r15, %r15
	je	5f
	movq	%r12, %r14
	.p2align	4
4:
	movups	80(%r14), %xmm0
	movaps	%xmm0, 96(%rsp)
	movups	64(%r14), %xmm0
	movaps	%xmm0, 80(%rsp)
	movups	(%r14), %xmm0
	movups	16(%r14), %xmm1
	movups	32(%r14), %xmm2
	movups	48(%r14), %xmm3
	movaps	%xmm3, 64(%rsp)
	movaps	%xmm2, 48(%rsp)
	movaps	%xmm1, 32(%rsp)
	movaps	%xmm0, 16(%rsp)
	leaq	16(%rsp), %rdi
	callq	"mime_text::mime_base++magic++matchlet++Matchlet+Destruct::drop"
	addq	$96, %r14
	decq	%r15
	jne	4b
5:
	testq	%rbp, %rbp
	je	1b
	movq	%r12, %rdi
	callq	rattle_dealloc@PLT
	jmp	1b
6:
	cmpq	$0, (%rsp)
	je	7f
	movq	%rbx, %rdi
	addq	$120, %rsp
	popq	%rbx
	popq	%r12
	popq	%r13
	popq	%r14
	popq	%r15
	popq	%rbp
	jmp	rattle_dealloc@PLT
7:
	addq	$120, %rsp
	popq	%rbx
	popq	%r12
	popq	%r13
	popq	%r14
	popq	%r15
	popq	%rbp
	retq
8:
	.size	"std_alloc::vec::Vec::drop::<#19687a60d315e203>", 8b-"std_alloc::vec::Vec::drop::<#19687a60d315e203>"

	.text
	.p2align	4
	.type	"std_alloc::vec::Vec::drop::<#1a1580c2cfb41205>",@function
"std_alloc::vec::Vec::drop::<#1a1580c2cfb41205>":
	pushq	%r15
	pushq	%r14
	pushq	%r12
	pushq	%rbx
	pushq	%rax
	movq	(%rdi), %rbx
	movq	8(%rdi), %r15
	movq	16(%rdi), %r14
	testq	%r15, %r15
	je	3f
	movq	%rbx, %r12
	jmp	2f
	.p2align	4
1:
	addq	$32, %r12
	decq	%r15
	je	3f
2:
	cmpb	$0, (%r12)
	je	1b
	cmpq	$0, 24(%r12)
	je	1b
	movq	8(%r12), %rdi
	callq	rattle_dealloc@PLT
	jmp	1b
3:
	testq	%r14, %r14
	je	4f
	movq	%rbx, %rdi
	addq	$8, %rsp
	popq	%rbx
	popq	%r12
	popq	%r14
	popq	%r15
	jmp	rattle_dealloc@PLT
4:
	addq	$8, %rsp
	popq	%rbx
	popq	%r12
	popq	%r14
	popq	%r15
	retq
5:
	.size	"std_alloc::vec::Vec::drop::<#1a1580c2cfb41205>", 5b-"std_alloc::vec::Vec::drop::<#1a1580c2cfb41205>"

	.text
	.p2align	4
	.type	"std_alloc::vec::Vec::drop::<#2d89a01c2ecea42b>",@function
"std_alloc::vec::Vec::drop::<#2d89a01c2ecea42b>":
	pushq	%r15
	pushq	%r14
	pushq	%r12
	pushq	%rbx
	pushq	%rax
	movq	(%rdi), %rbx
	movq	8(%rdi), %r15
	movq	16(%rdi), %r14
	testq	%r15, %r15
	je	3f
	leaq	16(%rbx), %r12
	jmp	2f
	.p2align	4
1:
	addq	$24, %r12
	decq	%r15
	je	3f
2:
	cmpq	$0, (%r12)
	je	1b
	movq	-16(%r12), %rdi
	callq	rattle_dealloc@PLT
	jmp	1b
3:
	testq	%r14, %r14
	je	4f
	movq	%rbx, %rdi
	addq	$8, %rsp
	popq	%rbx
	popq	%r12
	popq	%r14
	popq	%r15
	jmp	rattle_dealloc@PLT
4:
	addq	$8, %rsp
	popq	%rbx
	popq	%r12
	popq	%r14
	popq	%r15
	retq
5:
	.size	"std_alloc::vec::Vec::drop::<#2d89a01c2ecea42b>", 5b-"std_alloc::vec::Vec::drop::<#2d89a01c2ecea42b>"

	.text
	.p2align	4
	.type	"std_alloc::vec::Vec::drop::<#6d65fad926a67069>",@function
"std_alloc::vec::Vec::drop::<#6d65fad926a67069>":
	pushq	%rbp
	pushq	%r15
	pushq	%r14
	pushq	%r13
	pushq	%r12
	pushq	%rbx
	pushq	%rax
	movq	(%rdi), %rbx
	movq	8(%rdi), %r12
	movq	16(%rdi), %rax
	movq	%rax, (%rsp)
	testq	%r12, %r12
	je	4f
	leaq	80(%rbx), %r13
	jmp	2f
	.p2align	4
1:
	addq	$104, %r13
	decq	%r12
	je	4f
2:
	movzbl	-24(%r13), %r15d
	movq	-16(%r13), %r14
	movq	(%r13), %rbp
	cmpb	$0, -72(%r13)
	je	3f
	cmpq	$0, -48(%r13)
	je	3f
	movq	-64(%r13), %rdi
	callq	rattle_dealloc@PLT
3:
	testb	%r15b, %r15b
	je	1b
	testq	%rbp, %rbp
	je	1b
	movq	%r14, %rdi
	callq	rattle_dealloc@PLT
	jmp	1b
4:
	cmpq	$0, (%rsp)
	je	5f
	movq	%rbx, %rdi
	addq	$8, %rsp
	popq	%rbx
	popq	%r12
	popq	%r13
	popq	%r14
	popq	%r15
	popq	%rbp
	jmp	rattle_dealloc@PLT
5:
	addq	$8, %rsp
	popq	%rbx
	popq	%r12
	popq	%r13
	popq	%r14
	popq	%r15
	popq	%rbp
	retq
6:
	.size	"std_alloc::vec::Vec::drop::<#6d65fad926a67069>", 6b-"std_alloc::vec::Vec::drop::<#6d65fad926a67069>"

	.text
	.p2align	4
	.type	"std_alloc::vec::Vec::drop::<#a85d6931f7cfb01d>",@function
"std_alloc::vec::Vec::drop::<#a85d6931f7cfb01d>":
	pushq	%rbp
	pushq	%r15
	pushq	%r14
	pushq	%r13
	pushq	%r12
	pushq	%rbx
	pushq	%rax
	movq	(%rdi), %rbx
	movq	8(%rdi), %r12
	movq	16(%rdi), %rax
	movq	%rax, (%rsp)
	testq	%r12, %r12
	je	6f
	movq	%rbx, %r13
	jmp	3f
	.p2align	4
1:
	callq	rattle_dealloc@PLT
2:
	addq	$112, %r13
	decq	%r12
	je	6f
3:
	movq	16(%r13), %rdi
	cmpb	$0, (%r13)
	je	4f
	cmpb	$0, 8(%r13)
	je	2b
	cmpq	$0, 32(%r13)
	jne	1b
	jmp	2b
	.p2align	4
4:
	movzbl	64(%r13), %r15d
	movq	72(%r13), %r14
	movq	88(%r13), %rbp
	testb	%dil, %dil
	je	5f
	cmpq	$0, 40(%r13)
	je	5f
	movq	24(%r13), %rdi
	callq	rattle_dealloc@PLT
5:
	testb	%r15b, %r15b
	je	2b
	testq	%rbp, %rbp
	je	2b
	movq	%r14, %rdi
	jmp	1b
6:
	cmpq	$0, (%rsp)
	je	7f
	movq	%rbx, %rdi
	addq	$8, %rsp
	popq	%rbx
	popq	%r12
	popq	%r13
	popq	%r14
	popq	%r15
	popq	%rbp
	jmp	rattle_dealloc@PLT
7:
	addq	$8, %rsp
	popq	%rbx
	popq	%r12
	popq	%r13
	popq	%r14
	popq	%r15
	popq	%rbp
	retq
8:
	.size	"std_alloc::vec::Vec::drop::<#a85d6931f7cfb01d>", 8b-"std_alloc::vec::Vec::drop::<#a85d6931f7cfb01d>"

	.text
	.p2align	4
	.type	"std_alloc::vec::Vec::drop::<#a9a081909576c235>",@function
"std_alloc::vec::Vec::drop::<#a9a081909576c235>":
	pushq	%r15
	pushq	%r14
	pushq	%r12
	pushq	%rbx
	pushq	%rax
	movq	(%rdi), %rbx
	movq	8(%rdi), %r15
	movq	16(%rdi), %r14
	testq	%r15, %r15
	je	3f
	leaq	16(%rbx), %r12
	jmp	2f
	.p2align	4
1:
	addq	$32, %r12
	decq	%r15
	je	3f
2:
	cmpq	$0, (%r12)
	je	1b
	movq	-16(%r12), %rdi
	callq	rattle_dealloc@PLT
	jmp	1b
3:
	testq	%r14, %r14
	je	4f
	movq	%rbx, %rdi
	addq	$8, %rsp
	popq	%rbx
	popq	%r12
	popq	%r14
	popq	%r15
	jmp	rattle_dealloc@PLT
4:
	addq	$8, %rsp
	popq	%rbx
	popq	%r12
	popq	%r14
	popq	%r15
	retq
5:
	.size	"std_alloc::vec::Vec::drop::<#a9a081909576c235>", 5b-"std_alloc::vec::Vec::drop::<#a9a081909576c235>"

	.text
	.p2align	4
	.type	"std_alloc::vec::Vec::drop::<#b75285eeea4a2d4d>",@function
"std_alloc::vec::Vec::drop::<#b75285eeea4a2d4d>":
	pushq	%r15
	pushq	%r14
	pushq	%r12
	pushq	%rbx
	pushq	%rax
	movq	(%rdi), %rbx
	movq	8(%rdi), %r15
	movq	16(%rdi), %r14
	testq	%r15, %r15
	je	3f
	leaq	24(%rbx), %r12
	jmp	2f
	.p2align	4
1:
	addq	$40, %r12
	decq	%r15
	je	3f
2:
	cmpq	$0, (%r12)
	je	1b
	movq	-16(%r12), %rdi
	callq	rattle_dealloc@PLT
	jmp	1b
3:
	testq	%r14, %r14
	je	4f
	movq	%rbx, %rdi
	addq	$8, %rsp
	popq	%rbx
	popq	%r12
	popq	%r14
	popq	%r15
	jmp	rattle_dealloc@PLT
4:
	addq	$8, %rsp
	popq	%rbx
	popq	%r12
	popq	%r14
	popq	%r15
	retq
5:
	.size	"std_alloc::vec::Vec::drop::<#b75285eeea4a2d4d>", 5b-"std_alloc::vec::Vec::drop::<#b75285eeea4a2d4d>"

	.text
	.p2align	4
	.type	"std_alloc::vec::Vec::drop::<#ccb62962bdca9bb0>",@function
"std_alloc::vec::Vec::drop::<#ccb62962bdca9bb0>":
	pushq	%rbp
	pushq	%r15
	pushq	%r14
	pushq	%r13
	pushq	%r12
	pushq	%rbx
	subq	$24, %rsp
	movq	(%rdi), %rax
	movq	%rax, 8(%rsp)
	movq	8(%rdi), %r13
	movq	16(%rdi), %rax
	movq	%rax, 16(%rsp)
	testq	%r13, %r13
	je	5f
	movq	8(%rsp), %rax
	leaq	88(%rax), %rbp
	jmp	2f
	.p2align	4
1:
	addq	$104, %rbp
	decq	%r13
	je	5f
2:
	movq	-40(%rbp), %r15
	movq	-24(%rbp), %rbx
	movq	-16(%rbp), %r14
	movq	(%rbp), %r12
	cmpq	$0, -56(%rbp)
	je	3f
	movq	-72(%rbp), %rdi
	callq	rattle_dealloc@PLT
3:
	testq	%rbx, %rbx
	je	4f
	movq	%r15, %rdi
	callq	rattle_dealloc@PLT
4:
	testq	%r12, %r12
	je	1b
	movq	%r14, %rdi
	callq	rattle_dealloc@PLT
	jmp	1b
5:
	cmpq	$0, 16(%rsp)
	je	6f
	movq	8(%rsp), %rdi
	addq	$24, %rsp
	popq	%rbx
	popq	%r12
	popq	%r13
	popq	%r14
	popq	%r15
	popq	%rbp
	jmp	rattle_dealloc@PLT
6:
	addq	$24, %rsp
	popq	%rbx
	popq	%r12
	popq	%r13
	popq	%r14
	popq	%r15
	popq	%rbp
	retq
7:
	.size	"std_alloc::vec::Vec::drop::<#ccb62962bdca9bb0>", 7b-"std_alloc::vec::Vec::drop::<#ccb62962bdca9bb0>"

	.text
	.p2align	4
	.type	"std_alloc::vec::Vec::drop::<#e186a966dcbbe5fe>",@function
"std_alloc::vec::Vec::drop::<#e186a966dcbbe5fe>":
	pushq	%r15
	pushq	%r14
	pushq	%r13
	pushq	%r12
	pushq	%rbx
	subq	$672, %rsp
	movq	(%rdi), %rbx
	movq	8(%rdi), %r13
	movq	16(%rdi), %r12
	testq	%r13, %r13
	je	2f
	movq	%rbx, %r14
	.p2align	4
1:
	movq	%rsp, %r15
	movl	$672, %edx
	movq	%r15, %rdi
	movq	%r14, %rsi
	callq	memcpy@PLT
	movq	%r15, %rdi
	callq	"mime_request::clap++builder++command++Command+Destruct::drop"
	addq	$672, %r14
	decq	%r13
	jne	1b
2:
	testq	%r12, %r12
	je	3f
	movq	%rbx, %rdi
	addq	$672, %rsp
	popq	%rbx
	popq	%r12
	popq	%r13
	popq	%r14
	popq	%r15
	jmp	rattle_dealloc@PLT
3:
	addq	$672, %rsp
	popq	%rbx
	popq	%r12
	popq	%r13
	popq	%r14
	popq	%r15
	retq
4:
	.size	"std_alloc::vec::Vec::drop::<#e186a966dcbbe5fe>", 4b-"std_alloc::vec::Vec::drop::<#e186a966dcbbe5fe>"

	.text
	.p2align	4
	.type	"std_alloc::vec::Vec::drop::<#f47e8c83c2357772>",@function
"std_alloc::vec::Vec::drop::<#f47e8c83c2357772>":
	pushq	%rbp
	pushq	%r15
	pushq	%r14
	pushq	%r13
	pushq	%r12
	pushq	%rbx
	subq	$152, %rsp
	movq	(%rdi), %rax
	movq	%rax, 8(%rsp)
	movq	8(%rdi), %rbp
	movq	16(%rdi), %rax
	movq	%rax, 16(%rsp)
	testq	%rbp, %rbp
	je	13f
	movq	8(%rsp), %rax
	leaq	96(%rax), %rbx
	jmp	2f
	.p2align	4
1:
	addq	$608, %rbx
	decq	%rbp
	je	13f
2:
	movq	24(%rbx), %r13
	movq	40(%rbx), %r14
	movq	48(%rbx), %rax
	movq	%rax, 24(%rsp)
	movq	64(%rbx), %r15
	movq	72(%rbx), %rax
	movq	%rax, 32(%rsp)
	movq	88(%rbx), %r12
	movq	96(%rbx), %rax
	movq	%rax, 40(%rsp)
	movq	112(%rbx), %rax
	movq	%rax, 96(%rsp)
	movq	120(%rbx), %rax
	movq	%rax, 48(%rsp)
	movq	136(%rbx), %rax
	movq	%rax, 104(%rsp)
	movq	144(%rbx), %rax
	movq	%rax, 56(%rsp)
	movq	160(%rbx), %rax
	movq	%rax, 112(%rsp)
	movq	168(%rbx), %rax
	movq	%rax, 64(%rsp)
	movq	184(%rbx), %rax
	movq	%rax, 120(%rsp)
	movq	192(%rbx), %rax
	movq	%rax, 72(%rsp)
	cmpq	$0, 16(%rbx)
	movq	208(%rbx), %rax
	movq	%rax, 128(%rsp)
	movq	216(%rbx), %rax
	movq	%rax, 80(%rsp)
	movq	232(%rbx), %rax
	movq	%rax, 136(%rsp)
	movq	288(%rbx), %rax
	movq	%rax, 88(%rsp)
	movq	304(%rbx), %rax
	movq	%rax, 144(%rsp)
	je	3f
	movq	(%rbx), %rdi
	callq	rattle_dealloc@PLT
3:
	testq	%r14, %r14
	je	4f
	movq	%r13, %rdi
	callq	rattle_dealloc@PLT
4:
	testq	%r15, %r15
	je	5f
	movq	24(%rsp), %rdi
	callq	rattle_dealloc@PLT
5:
	testq	%r12, %r12
	je	6f
	movq	32(%rsp), %rdi
	callq	rattle_dealloc@PLT
6:
	cmpq	$0, 96(%rsp)
	je	7f
	movq	40(%rsp), %rdi
	callq	rattle_dealloc@PLT
7:
	cmpq	$0, 104(%rsp)
	je	8f
	movq	48(%rsp), %rdi
	callq	rattle_dealloc@PLT
8:
	cmpq	$0, 112(%rsp)
	je	9f
	movq	56(%rsp), %rdi
	callq	rattle_dealloc@PLT
9:
	cmpq	$0, 120(%rsp)
	je	10f
	movq	64(%rsp), %rdi
	callq	rattle_dealloc@PLT
10:
	cmpq	$0, 128(%rsp)
	je	11f
	movq	72(%rsp), %rdi
	callq	rattle_dealloc@PLT
11:
	cmpq	$0, 136(%rsp)
	je	12f
	movq	80(%rsp), %rdi
	callq	rattle_dealloc@PLT
12:
	cmpq	$0, 144(%rsp)
	je	1b
	movq	88(%rsp), %rdi
	callq	rattle_dealloc@PLT
	jmp	1b
13:
	cmpq	$0, 16(%rsp)
	je	14f
	movq	8(%rsp), %rdi
	addq	$152, %rsp
	popq	%rbx
	popq	%r12
	popq	%r13
	popq	%r14
	popq	%r15
	popq	%rbp
	jmp	rattle_dealloc@PLT
14:
	addq	$152, %rsp
	popq	%rbx
	popq	%r12
	popq	%r13
	popq	%r14
	popq	%r15
	popq	%rbp
	retq
15:
	.size	"std_alloc::vec::Vec::drop::<#f47e8c83c2357772>", 15b-"std_alloc::vec::Vec::drop::<#f47e8c83c2357772>"

	.text
	.p2align	4
	.type	"std_alloc::vec::Vec::drop::<#f750efd44e124a3d>",@function
"std_alloc::vec::Vec::drop::<#f750efd44e124a3d>":
	pushq	%rbp
	pushq	%r15
	pushq	%r14
	pushq	%r13
	pushq	%r12
	pushq	%rbx
	subq	$24, %rsp
	movq	(%rdi), %rax
	movq	%rax, 8(%rsp)
	movq	8(%rdi), %r13
	movq	16(%rdi), %rax
	movq	%rax, 16(%rsp)
	testq	%r13, %r13
	je	5f
	movq	8(%rsp), %rax
	leaq	88(%rax), %rbp
	jmp	2f
	.p2align	4
1:
	addq	$104, %rbp
	decq	%r13
	je	5f
2:
	movq	-40(%rbp), %r15
	movq	-24(%rbp), %rbx
	movq	-16(%rbp), %r14
	movq	(%rbp), %r12
	cmpq	$0, -48(%rbp)
	je	3f
	movq	-64(%rbp), %rdi
	callq	rattle_dealloc@PLT
3:
	testq	%rbx, %rbx
	je	4f
	movq	%r15, %rdi
	callq	rattle_dealloc@PLT
4:
	testq	%r12, %r12
	je	1b
	movq	%r14, %rdi
	callq	rattle_dealloc@PLT
	jmp	1b
5:
	cmpq	$0, 16(%rsp)
	je	6f
	movq	8(%rsp), %rdi
	addq	$24, %rsp
	popq	%rbx
	popq	%r12
	popq	%r13
	popq	%r14
	popq	%r15
	popq	%rbp
	jmp	rattle_dealloc@PLT
6:
	addq	$24, %rsp
	popq	%rbx
	popq	%r12
	popq	%r13
	popq	%r14
	popq	%r15
	popq	%rbp
	retq
7:
	.size	"std_alloc::vec::Vec::drop::<#f750efd44e124a3d>", 7b-"std_alloc::vec::Vec::drop::<#f750efd44e124a3d>"

	.section	.text.unlikely,"ax",@progbits
	.p2align	4
	.type	"std_alloc::vec::Vec::grow_amortized::<#0061ae0bdb08d16a>",@function
"std_alloc::vec::Vec::grow_amortized::<#0061ae0bdb08d16a>":
	movq	8(%rdi), %rax
	cmpq	$-1, %rax
	je	2f
	pushq	%r14
	pushq	%rbx
	pushq	%rax
	movq	16(%rdi), %rcx
	cmpq	$4, %rax
	movl	$3, %ebx
	cmovaeq	%rax, %rbx
	incq	%rbx
	movq	%rcx, %rsi
	shrq	$62, %rsi
	leaq	(%rcx,%rcx), %rdx
	cmpq	%rdx, %rbx
	cmovaq	%rbx, %rdx
	testq	%rsi, %rsi
	cmoveq	%rdx, %rbx
	movabsq	$230584300921369395, %rsi
	cmpq	%rsi, %rbx
	ja	4f
	testq	%rcx, %rcx
	je	3f
	movq	%rdi, %r14
	movq	(%rdi), %rdi
	shlq	$3, %rax
	leaq	(%rax,%rax,4), %rsi
	leaq	(,%rbx,8), %rax
	leaq	(%rax,%rax,4), %rdx
	movl	$8, %ecx
	callq	rattle_realloc@PLT
	testb	$1, %al
	je	4f
1:
	movq	%rdx, (%r14)
	movq	%rbx, 16(%r14)
	movb	$1, %al
	addq	$8, %rsp
	popq	%rbx
	popq	%r14
	retq
2:
	xorl	%eax, %eax
	retq
3:
	movq	%rdi, %r14
	shlq	$3, %rdx
	leaq	(%rdx,%rdx,4), %rdi
	movl	$8, %esi
	callq	rattle_alloc@PLT
	testb	$1, %al
	jne	1b
4:
	xorl	%eax, %eax
	addq	$8, %rsp
	popq	%rbx
	popq	%r14
	retq
5:
	.size	"std_alloc::vec::Vec::grow_amortized::<#0061ae0bdb08d16a>", 5b-"std_alloc::vec::Vec::grow_amortized::<#0061ae0bdb08d16a>"

	.section	.text.unlikely,"ax",@progbits
	.p2align	4
	.type	"std_alloc::vec::Vec::grow_amortized::<#0135d645f841a886>",@function
"std_alloc::vec::Vec::grow_amortized::<#0135d645f841a886>":
	movq	8(%rdi), %rsi
	cmpq	$-1, %rsi
	je	2f
	pushq	%r14
	pushq	%rbx
	pushq	%rax
	movq	16(%rdi), %rcx
	cmpq	$8, %rsi
	movl	$7, %ebx
	cmovaeq	%rsi, %rbx
	incq	%rbx
	movq	%rcx, %rdx
	shrq	$62, %rdx
	leaq	(%rcx,%rcx), %rax
	cmpq	%rax, %rbx
	cmovaq	%rbx, %rax
	testq	%rdx, %rdx
	cmoveq	%rax, %rbx
	testq	%rbx, %rbx
	js	4f
	testq	%rcx, %rcx
	je	3f
	movq	%rdi, %r14
	movq	(%rdi), %rdi
	movl	$1, %ecx
	movq	%rbx, %rdx
	callq	rattle_realloc@PLT
	testb	$1, %al
	je	4f
1:
	movq	%rdx, (%r14)
	movq	%rbx, 16(%r14)
	movb	$1, %al
	addq	$8, %rsp
	popq	%rbx
	popq	%r14
	retq
2:
	xorl	%eax, %eax
	retq
3:
	movq	%rdi, %r14
	movl	$1, %esi
	movq	%rax, %rdi
	callq	rattle_alloc@PLT
	testb	$1, %al
	jne	1b
4:
	xorl	%eax, %eax
	addq	$8, %rsp
	popq	%rbx
	popq	%r14
	retq
5:
	.size	"std_alloc::vec::Vec::grow_amortized::<#0135d645f841a886>", 5b-"std_alloc::vec::Vec::grow_amortized::<#0135d645f841a886>"

	.section	.text.unlikely,"ax",@progbits
	.p2align	4
	.type	"std_alloc::vec::Vec::grow_amortized::<#06f9579a8fe94b13>",@function
"std_alloc::vec::Vec::grow_amortized::<#06f9579a8fe94b13>":
	movq	%rsi, %rax
	movq	8(%rdi), %rsi
	addq	%rsi, %rax
	jae	1f
	xorl	%eax, %eax
	retq
1:
	pushq	%r14
	pushq	%rbx
	pushq	%rax
	cmpq	$9, %rax
	movl	$8, %ebx
	cmovaeq	%rax, %rbx
	movq	16(%rdi), %rcx
	movq	%rcx, %rdx
	shrq	$62, %rdx
	leaq	(%rcx,%rcx), %rax
	cmpq	%rax, %rbx
	cmovaq	%rbx, %rax
	testq	%rdx, %rdx
	cmoveq	%rax, %rbx
	testq	%rbx, %rbx
	js	4f
	testq	%rcx, %rcx
	je	3f
	movq	%rdi, %r14
	movq	(%rdi), %rdi
	movl	$1, %ecx
	movq	%rbx, %rdx
	callq	rattle_realloc@PLT
	testb	$1, %al
	je	4f
2:
	movq	%rdx, (%r14)
	movq	%rbx, 16(%r14)
	movb	$1, %al
	addq	$8, %rsp
	popq	%rbx
	popq	%r14
	retq
3:
	movq	%rdi, %r14
	movl	$1, %esi
	movq	%rax, %rdi
	callq	rattle_alloc@PLT
	testb	$1, %al
	jne	2b
4:
	xorl	%eax, %eax
	addq	$8, %rsp
	popq	%rbx
	popq	%r14
	retq
5:
	.size	"std_alloc::vec::Vec::grow_amortized::<#06f9579a8fe94b13>", 5b-"std_alloc::vec::Vec::grow_amortized::<#06f9579a8fe94b13>"

	.section	.text.unlikely,"ax",@progbits
	.p2align	4
	.type	"std_alloc::vec::Vec::grow_amortized::<#098efa60f427b085>",@function
"std_alloc::vec::Vec::grow_amortized::<#098efa60f427b085>":
	movq	8(%rdi), %rax
	cmpq	$-1, %rax
	je	2f
	pushq	%r14
	pushq	%rbx
	pushq	%rax
	movq	16(%rdi), %rcx
	cmpq	$4, %rax
	movl	$3, %ebx
	cmovaeq	%rax, %rbx
	incq	%rbx
	movq	%rcx, %rsi
	shrq	$62, %rsi
	leaq	(%rcx,%rcx), %rdx
	cmpq	%rdx, %rbx
	cmovaq	%rbx, %rdx
	testq	%rsi, %rsi
	cmoveq	%rdx, %rbx
	movabsq	$115292150460684697, %rsi
	cmpq	%rsi, %rbx
	ja	4f
	testq	%rcx, %rcx
	je	3f
	movq	%rdi, %r14
	movq	(%rdi), %rdi
	shlq	$4, %rax
	leaq	(%rax,%rax,4), %rsi
	movq	%rbx, %rax
	shlq	$4, %rax
	leaq	(%rax,%rax,4), %rdx
	movl	$8, %ecx
	callq	rattle_realloc@PLT
	testb	$1, %al
	je	4f
1:
	movq	%rdx, (%r14)
	movq	%rbx, 16(%r14)
	movb	$1, %al
	addq	$8, %rsp
	popq	%rbx
	popq	%r14
	retq
2:
	xorl	%eax, %eax
	retq
3:
	movq	%rdi, %r14
	shlq	$4, %rdx
	leaq	(%rdx,%rdx,4), %rdi
	movl	$8, %esi
	callq	rattle_alloc@PLT
	testb	$1, %al
	jne	1b
4:
	xorl	%eax, %eax
	addq	$8, %rsp
	popq	%rbx
	popq	%r14
	retq
5:
	.size	"std_alloc::vec::Vec::grow_amortized::<#098efa60f427b085>", 5b-"std_alloc::vec::Vec::grow_amortized::<#098efa60f427b085>"

	.section	.text.unlikely,"ax",@progbits
	.p2align	4
	.type	"std_alloc::vec::Vec::grow_amortized::<#1a30988f8987f99f>",@function
"std_alloc::vec::Vec::grow_amortized::<#1a30988f8987f99f>":
	movq	8(%rdi), %rsi
	cmpq	$-1, %rsi
	je	2f
	pushq	%r14
	pushq	%rbx
	pushq	%rax
	movq	16(%rdi), %rcx
	cmpq	$4, %rsi
	movl	$3, %ebx
	cmovaeq	%rsi, %rbx
	incq	%rbx
	movq	%rcx, %rdx
	shrq	$62, %rdx
	leaq	(%rcx,%rcx), %rax
	cmpq	%rax, %rbx
	cmovaq	%rbx, %rax
	testq	%rdx, %rdx
	cmoveq	%rax, %rbx
	movq	%rbx, %rdx
	shrq	$57, %rdx
	jne	4f
	testq	%rcx, %rcx
	je	3f
	movq	%rdi, %r14
	movq	(%rdi), %rdi
	shlq	$6, %rsi
	movq	%rbx, %rdx
	shlq	$6, %rdx
	movl	$8, %ecx
	callq	rattle_realloc@PLT
	testb	$1, %al
	je	4f
1:
	movq	%rdx, (%r14)
	movq	%rbx, 16(%r14)
	movb	$1, %al
	addq	$8, %rsp
	popq	%rbx
	popq	%r14
	retq
2:
	xorl	%eax, %eax
	retq
3:
	movq	%rdi, %r14
	shlq	$6, %rax
	movl	$8, %esi
	movq	%rax, %rdi
	callq	rattle_alloc@PLT
	testb	$1, %al
	jne	1b
4:
	xorl	%eax, %eax
	addq	$8, %rsp
	popq	%rbx
	popq	%r14
	retq
5:
	.size	"std_alloc::vec::Vec::grow_amortized::<#1a30988f8987f99f>", 5b-"std_alloc::vec::Vec::grow_amortized::<#1a30988f8987f99f>"

	.section	.text.unlikely,"ax",@progbits
	.p2align	4
	.type	"std_alloc::vec::Vec::grow_amortized::<#1d775b5957dec42c>",@function
"std_alloc::vec::Vec::grow_amortized::<#1d775b5957dec42c>":
	movq	%rsi, %rax
	movq	8(%rdi), %rsi
	addq	%rsi, %rax
	jae	1f
	xorl	%eax, %eax
	retq
1:
	pushq	%r14
	pushq	%rbx
	pushq	%rax
	cmpq	$9, %rax
	movl	$8, %ebx
	cmovaeq	%rax, %rbx
	movq	16(%rdi), %rcx
	movq	%rcx, %rdx
	shrq	$62, %rdx
	leaq	(%rcx,%rcx), %rax
	cmpq	%rax, %rbx
	cmovaq	%rbx, %rax
	testq	%rdx, %rdx
	cmoveq	%rax, %rbx
	testq	%rbx, %rbx
	js	4f
	testq	%rcx, %rcx
	je	3f
	movq	%rdi, %r14
	movq	(%rdi), %rdi
	movl	$1, %ecx
	movq	%rbx, %rdx
	callq	rattle_realloc@PLT
	testb	$1, %al
	je	4f
2:
	movq	%rdx, (%r14)
	movq	%rbx, 16(%r14)
	movb	$1, %al
	addq	$8, %rsp
	popq	%rbx
	popq	%r14
	retq
3:
	movq	%rdi, %r14
	movl	$1, %esi
	movq	%rax, %rdi
	callq	rattle_alloc@PLT
	testb	$1, %al
	jne	2b
4:
	xorl	%eax, %eax
	addq	$8, %rsp
	popq	%rbx
	popq	%r14
	retq
5:
	.size	"std_alloc::vec::Vec::grow_amortized::<#1d775b5957dec42c>", 5b-"std_alloc::vec::Vec::grow_amortized::<#1d775b5957dec42c>"

	.section	.text.unlikely,"ax",@progbits
	.p2align	4
	.type	"std_alloc::vec::Vec::grow_amortized::<#225cbcfbbb5ee30d>",@function
"std_alloc::vec::Vec::grow_amortized::<#225cbcfbbb5ee30d>":
	movq	8(%rdi), %rsi
	cmpq	$-1, %rsi
	je	2f
	pushq	%r14
	pushq	%rbx
	pushq	%rax
	movq	16(%rdi), %rcx
	cmpq	$4, %rsi
	movl	$3, %ebx
	cmovaeq	%rsi, %rbx
	incq	%rbx
	movq	%rcx, %rdx
	shrq	$62, %rdx
	leaq	(%rcx,%rcx), %rax
	cmpq	%rax, %rbx
	cmovaq	%rbx, %rax
	testq	%rdx, %rdx
	cmoveq	%rax, %rbx
	movq	%rbx, %rdx
	shrq	$58, %rdx
	jne	4f
	testq	%rcx, %rcx
	je	3f
	movq	%rdi, %r14
	movq	(%rdi), %rdi
	shlq	$5, %rsi
	movq	%rbx, %rdx
	shlq	$5, %rdx
	movl	$8, %ecx
	callq	rattle_realloc@PLT
	testb	$1, %al
	je	4f
1:
	movq	%rdx, (%r14)
	movq	%rbx, 16(%r14)
	movb	$1, %al
	addq	$8, %rsp
	popq	%rbx
	popq	%r14
	retq
2:
	xorl	%eax, %eax
	retq
3:
	movq	%rdi, %r14
	shlq	$5, %rax
	movl	$8, %esi
	movq	%rax, %rdi
	callq	rattle_alloc@PLT
	testb	$1, %al
	jne	1b
4:
	xorl	%eax, %eax
	addq	$8, %rsp
	popq	%rbx
	popq	%r14
	retq
5:
	.size	"std_alloc::vec::Vec::grow_amortized::<#225cbcfbbb5ee30d>", 5b-"std_alloc::vec::Vec::grow_amortized::<#225cbcfbbb5ee30d>"

	.section	.text.unlikely,"ax",@progbits
	.p2align	4
	.type	"std_alloc::vec::Vec::grow_amortized::<#25095d740b27081c>",@function
"std_alloc::vec::Vec::grow_amortized::<#25095d740b27081c>":
	movq	8(%rdi), %rsi
	cmpq	$-1, %rsi
	je	2f
	pushq	%r14
	pushq	%rbx
	pushq	%rax
	movq	16(%rdi), %rcx
	cmpq	$4, %rsi
	movl	$3, %ebx
	cmovaeq	%rsi, %rbx
	incq	%rbx
	movq	%rcx, %rdx
	shrq	$62, %rdx
	leaq	(%rcx,%rcx), %rax
	cmpq	%rax, %rbx
	cmovaq	%rbx, %rax
	testq	%rdx, %rdx
	cmoveq	%rax, %rbx
	movq	%rbx, %rdx
	shrq	$59, %rdx
	jne	4f
	testq	%rcx, %rcx
	je	3f
	movq	%rdi, %r14
	movq	(%rdi), %rdi
	shlq	$4, %rsi
	movq	%rbx, %rdx
	shlq	$4, %rdx
	movl	$8, %ecx
	callq	rattle_realloc@PLT
	testb	$1, %al
	je	4f
1:
	movq	%rdx, (%r14)
	movq	%rbx, 16(%r14)
	movb	$1, %al
	addq	$8, %rsp
	popq	%rbx
	popq	%r14
	retq
2:
	xorl	%eax, %eax
	retq
3:
	movq	%rdi, %r14
	shlq	$4, %rax
	movl	$8, %esi
	movq	%rax, %rdi
	callq	rattle_alloc@PLT
	testb	$1, %al
	jne	1b
4:
	xorl	%eax, %eax
	addq	$8, %rsp
	popq	%rbx
	popq	%r14
	retq
5:
	.size	"std_alloc::vec::Vec::grow_amortized::<#25095d740b27081c>", 5b-"std_alloc::vec::Vec::grow_amortized::<#25095d740b27081c>"

	.section	.text.unlikely,"ax",@progbits
	.p2align	4
	.type	"std_alloc::vec::Vec::grow_amortized::<#33f378437a29c276>",@function
"std_alloc::vec::Vec::grow_amortized::<#33f378437a29c276>":
	movq	8(%rdi), %rsi
	cmpq	$-1, %rsi
	je	2f
	pushq	%r14
	pushq	%rbx
	pushq	%rax
	movq	16(%rdi), %rcx
	cmpq	$4, %rsi
	movl	$3, %ebx
	cmovaeq	%rsi, %rbx
	incq	%rbx
	movq	%rcx, %rdx
	shrq	$62, %rdx
	leaq	(%rcx,%rcx), %rax
	cmpq	%rax, %rbx
	cmovaq	%rbx, %rax
	testq	%rdx, %rdx
	cmoveq	%rax, %rbx
	movq	%rbx, %rdx
	shrq	$60, %rdx
	jne	4f
	testq	%rcx, %rcx
	je	3f
	movq	%rdi, %r14
	movq	(%rdi), %rdi
	shlq	$3, %rsi
	leaq	(,%rbx,8), %rdx
	movl	$8, %ecx
	callq	rattle_realloc@PLT
	testb	$1, %al
	je	4f
1:
	movq	%rdx, (%r14)
	movq	%rbx, 16(%r14)
	movb	$1, %al
	addq	$8, %rsp
	popq	%rbx
	popq	%r14
	retq
2:
	xorl	%eax, %eax
	retq
3:
	movq	%rdi, %r14
	shlq	$3, %rax
	movl	$8, %esi
	movq	%rax, %rdi
	callq	rattle_alloc@PLT
	testb	$1, %al
	jne	1b
4:
	xorl	%eax, %eax
	addq	$8, %rsp
	popq	%rbx
	popq	%r14
	retq
5:
	.size	"std_alloc::vec::Vec::grow_amortized::<#33f378437a29c276>", 5b-"std_alloc::vec::Vec::grow_amortized::<#33f378437a29c276>"

	.section	.text.unlikely,"ax",@progbits
	.p2align	4
	.type	"std_alloc::vec::Vec::grow_amortized::<#3a45404b3fcd1c9c>",@function
"std_alloc::vec::Vec::grow_amortized::<#3a45404b3fcd1c9c>":
	movq	8(%rdi), %rax
	cmpq	$-1, %rax
	je	2f
	pushq	%r14
	pushq	%rbx
	pushq	%rax
	movq	16(%rdi), %rcx
	cmpq	$4, %rax
	movl	$3, %ebx
	cmovaeq	%rax, %rbx
	incq	%rbx
	movq	%rcx, %rsi
	shrq	$62, %rsi
	leaq	(%rcx,%rcx), %rdx
	cmpq	%rdx, %rbx
	cmovaq	%rbx, %rdx
	testq	%rsi, %rsi
	cmoveq	%rdx, %rbx
	movabsq	$192153584101141162, %rsi
	cmpq	%rsi, %rbx
	ja	4f
	testq	%rcx, %rcx
	je	3f
	movq	%rdi, %r14
	movq	(%rdi), %rdi
	shlq	$4, %rax
	leaq	(%rax,%rax,2), %rsi
	movq	%rbx, %rax
	shlq	$4, %rax
	leaq	(%rax,%rax,2), %rdx
	movl	$8, %ecx
	callq	rattle_realloc@PLT
	testb	$1, %al
	je	4f
1:
	movq	%rdx, (%r14)
	movq	%rbx, 16(%r14)
	movb	$1, %al
	addq	$8, %rsp
	popq	%rbx
	popq	%r14
	retq
2:
	xorl	%eax, %eax
	retq
3:
	movq	%rdi, %r14
	shlq	$4, %rdx
	leaq	(%rdx,%rdx,2), %rdi
	movl	$8, %esi
	callq	rattle_alloc@PLT
	testb	$1, %al
	jne	1b
4:
	xorl	%eax, %eax
	addq	$8, %rsp
	popq	%rbx
	popq	%r14
	retq
5:
	.size	"std_alloc::vec::Vec::grow_amortized::<#3a45404b3fcd1c9c>", 5b-"std_alloc::vec::Vec::grow_amortized::<#3a45404b3fcd1c9c>"

	.section	.text.unlikely,"ax",@progbits
	.p2align	4
	.type	"std_alloc::vec::Vec::grow_amortized::<#3af3ba23e56e6a09>",@function
"std_alloc::vec::Vec::grow_amortized::<#3af3ba23e56e6a09>":
	movq	%rsi, %rax
	movq	8(%rdi), %rsi
	addq	%rsi, %rax
	jae	1f
	xorl	%eax, %eax
	retq
1:
	pushq	%r14
	pushq	%rbx
	pushq	%rax
	movq	16(%rdi), %rcx
	cmpq	$5, %rax
	movl	$4, %ebx
	cmovaeq	%rax, %rbx
	movq	%rcx, %rdx
	shrq	$62, %rdx
	leaq	(%rcx,%rcx), %rax
	cmpq	%rax, %rbx
	cmovaq	%rbx, %rax
	testq	%rdx, %rdx
	cmoveq	%rax, %rbx
	movq	%rbx, %rdx
	shrq	$59, %rdx
	jne	4f
	testq	%rcx, %rcx
	je	3f
	movq	%rdi, %r14
	movq	(%rdi), %rdi
	shlq	$4, %rsi
	movq	%rbx, %rdx
	shlq	$4, %rdx
	movl	$8, %ecx
	callq	rattle_realloc@PLT
	testb	$1, %al
	je	4f
2:
	movq	%rdx, (%r14)
	movq	%rbx, 16(%r14)
	movb	$1, %al
	addq	$8, %rsp
	popq	%rbx
	popq	%r14
	retq
3:
	movq	%rdi, %r14
	shlq	$4, %rax
	movl	$8, %esi
	movq	%rax, %rdi
	callq	rattle_alloc@PLT
	testb	$1, %al
	jne	2b
4:
	xorl	%eax, %eax
	addq	$8, %rsp
	popq	%rbx
	popq	%r14
	retq
5:
	.size	"std_alloc::vec::Vec::grow_amortized::<#3af3ba23e56e6a09>", 5b-"std_alloc::vec::Vec::grow_amortized::<#3af3ba23e56e6a09>"

	.section	.text.unlikely,"ax",@progbits
	.p2align	4
	.type	"std_alloc::vec::Vec::grow_amortized::<#3b6d026ce996fc29>",@function
"std_alloc::vec::Vec::grow_amortized::<#3b6d026ce996fc29>":
	movq	8(%rdi), %rax
	cmpq	$-1, %rax
	je	2f
	pushq	%r14
	pushq	%rbx
	pushq	%rax
	movq	16(%rdi), %rcx
	cmpq	$4, %rax
	movl	$3, %ebx
	cmovaeq	%rax, %rbx
	incq	%rbx
	movq	%rcx, %rsi
	shrq	$62, %rsi
	leaq	(%rcx,%rcx), %rdx
	cmpq	%rdx, %rbx
	cmovaq	%rbx, %rdx
	testq	%rsi, %rsi
	cmoveq	%rdx, %rbx
	movabsq	$88686269585142075, %rsi
	cmpq	%rsi, %rbx
	ja	4f
	testq	%rcx, %rcx
	je	3f
	movq	%rdi, %r14
	movq	(%rdi), %rdi
	imulq	$104, %rax, %rsi
	imulq	$104, %rbx, %rdx
	movl	$8, %ecx
	callq	rattle_realloc@PLT
	testb	$1, %al
	je	4f
1:
	movq	%rdx, (%r14)
	movq	%rbx, 16(%r14)
	movb	$1, %al
	addq	$8, %rsp
	popq	%rbx
	popq	%r14
	retq
2:
	xorl	%eax, %eax
	retq
3:
	movq	%rdi, %r14
	imulq	$104, %rdx, %rdi
	movl	$8, %esi
	callq	rattle_alloc@PLT
	testb	$1, %al
	jne	1b
4:
	xorl	%eax, %eax
	addq	$8, %rsp
	popq	%rbx
	popq	%r14
	retq
5:
	.size	"std_alloc::vec::Vec::grow_amortized::<#3b6d026ce996fc29>", 5b-"std_alloc::vec::Vec::grow_amortized::<#3b6d026ce996fc29>"

	.section	.text.unlikely,"ax",@progbits
	.p2align	4
	.type	"std_alloc::vec::Vec::grow_amortized::<#3e74848cb5369e83>",@function
"std_alloc::vec::Vec::grow_amortized::<#3e74848cb5369e83>":
	movq	8(%rdi), %rsi
	cmpq	$-1, %rsi
	je	2f
	pushq	%r14
	pushq	%rbx
	pushq	%rax
	movq	16(%rdi), %rcx
	cmpq	$4, %rsi
	movl	$3, %ebx
	cmovaeq	%rsi, %rbx
	incq	%rbx
	movq	%rcx, %rdx
	shrq	$62, %rdx
	leaq	(%rcx,%rcx), %rax
	cmpq	%rax, %rbx
	cmovaq	%rbx, %rax
	testq	%rdx, %rdx
	cmoveq	%rax, %rbx
	movq	%rbx, %rdx
	shrq	$60, %rdx
	jne	4f
	testq	%rcx, %rcx
	je	3f
	movq	%rdi, %r14
	movq	(%rdi), %rdi
	shlq	$3, %rsi
	leaq	(,%rbx,8), %rdx
	movl	$8, %ecx
	callq	rattle_realloc@PLT
	testb	$1, %al
	je	4f
1:
	movq	%rdx, (%r14)
	movq	%rbx, 16(%r14)
	movb	$1, %al
	addq	$8, %rsp
	popq	%rbx
	popq	%r14
	retq
2:
	xorl	%eax, %eax
	retq
3:
	movq	%rdi, %r14
	shlq	$3, %rax
	movl	$8, %esi
	movq	%rax, %rdi
	callq	rattle_alloc@PLT
	testb	$1, %al
	jne	1b
4:
	xorl	%eax, %eax
	addq	$8, %rsp
	popq	%rbx
	popq	%r14
	retq
5:
	.size	"std_alloc::vec::Vec::grow_amortized::<#3e74848cb5369e83>", 5b-"std_alloc::vec::Vec::grow_amortized::<#3e74848cb5369e83>"

	.section	.text.unlikely,"ax",@progbits
	.p2align	4
	.type	"std_alloc::vec::Vec::grow_amortized::<#4355f86bd2b6ceb4>",@function
"std_alloc::vec::Vec::grow_amortized::<#4355f86bd2b6ceb4>":
	movq	8(%rdi), %rax
	cmpq	$-1, %rax
	je	2f
	pushq	%r14
	pushq	%rbx
	pushq	%rax
	movq	16(%rdi), %rcx
	cmpq	$4, %rax
	movl	$3, %ebx
	cmovaeq	%rax, %rbx
	incq	%rbx
	movq	%rcx, %rsi
	shrq	$62, %rsi
	leaq	(%rcx,%rcx), %rdx
	cmpq	%rdx, %rbx
	cmovaq	%rbx, %rdx
	testq	%rsi, %rsi
	cmoveq	%rdx, %rbx
	movabsq	$164703072086692425, %rsi
	cmpq	%rsi, %rbx
	ja	4f
	testq	%rcx, %rcx
	je	3f
	movq	%rdi, %r14
	movq	(%rdi), %rdi
	imulq	$56, %rax, %rsi
	imulq	$56, %rbx, %rdx
	movl	$8, %ecx
	callq	rattle_realloc@PLT
	testb	$1, %al
	je	4f
1:
	movq	%rdx, (%r14)
	movq	%rbx, 16(%r14)
	movb	$1, %al
	addq	$8, %rsp
	popq	%rbx
	popq	%r14
	retq
2:
	xorl	%eax, %eax
	retq
3:
	movq	%rdi, %r14
	imulq	$56, %rdx, %rdi
	movl	$8, %esi
	callq	rattle_alloc@PLT
	testb	$1, %al
	jne	1b
4:
	xorl	%eax, %eax
	addq	$8, %rsp
	popq	%rbx
	popq	%r14
	retq
5:
	.size	"std_alloc::vec::Vec::grow_amortized::<#4355f86bd2b6ceb4>", 5b-"std_alloc::vec::Vec::grow_amortized::<#4355f86bd2b6ceb4>"

	.section	.text.unlikely,"ax",@progbits
	.p2align	4
	.type	"std_alloc::vec::Vec::grow_amortized::<#4a1b0eae23e6b5cb>",@function
"std_alloc::vec::Vec::grow_amortized::<#4a1b0eae23e6b5cb>":
	movq	%rsi, %rax
	movq	8(%rdi), %rsi
	addq	%rsi, %rax
	jae	1f
	xorl	%eax, %eax
	retq
1:
	pushq	%r14
	pushq	%rbx
	pushq	%rax
	movq	16(%rdi), %rcx
	cmpq	$5, %rax
	movl	$4, %ebx
	cmovaeq	%rax, %rbx
	movq	%rcx, %rdx
	shrq	$62, %rdx
	leaq	(%rcx,%rcx), %rax
	cmpq	%rax, %rbx
	cmovaq	%rbx, %rax
	testq	%rdx, %rdx
	cmoveq	%rax, %rbx
	movq	%rbx, %rdx
	shrq	$61, %rdx
	jne	4f
	testq	%rcx, %rcx
	je	3f
	movq	%rdi, %r14
	movq	(%rdi), %rdi
	shlq	$2, %rsi
	leaq	(,%rbx,4), %rdx
	movl	$4, %ecx
	callq	rattle_realloc@PLT
	testb	$1, %al
	je	4f
2:
	movq	%rdx, (%r14)
	movq	%rbx, 16(%r14)
	movb	$1, %al
	addq	$8, %rsp
	popq	%rbx
	popq	%r14
	retq
3:
	movq	%rdi, %r14
	shlq	$2, %rax
	movl	$4, %esi
	movq	%rax, %rdi
	callq	rattle_alloc@PLT
	testb	$1, %al
	jne	2b
4:
	xorl	%eax, %eax
	addq	$8, %rsp
	popq	%rbx
	popq	%r14
	retq
5:
	.size	"std_alloc::vec::Vec::grow_amortized::<#4a1b0eae23e6b5cb>", 5b-"std_alloc::vec::Vec::grow_amortized::<#4a1b0eae23e6b5cb>"

	.section	.text.unlikely,"ax",@progbits
	.p2align	4
	.type	"std_alloc::vec::Vec::grow_amortized::<#52d1c8244e310953>",@function
"std_alloc::vec::Vec::grow_amortized::<#52d1c8244e310953>":
	movq	8(%rdi), %rsi
	cmpq	$-1, %rsi
	je	2f
	pushq	%r14
	pushq	%rbx
	pushq	%rax
	movq	16(%rdi), %rcx
	cmpq	$4, %rsi
	movl	$3, %ebx
	cmovaeq	%rsi, %rbx
	incq	%rbx
	movq	%rcx, %rdx
	shrq	$62, %rdx
	leaq	(%rcx,%rcx), %rax
	cmpq	%rax, %rbx
	cmovaq	%rbx, %rax
	testq	%rdx, %rdx
	cmoveq	%rax, %rbx
	movq	%rbx, %rdx
	shrq	$58, %rdx
	jne	4f
	testq	%rcx, %rcx
	je	3f
	movq	%rdi, %r14
	movq	(%rdi), %rdi
	shlq	$5, %rsi
	movq	%rbx, %rdx
	shlq	$5, %rdx
	movl	$8, %ecx
	callq	rattle_realloc@PLT
	testb	$1, %al
	je	4f
1:
	movq	%rdx, (%r14)
	movq	%rbx, 16(%r14)
	movb	$1, %al
	addq	$8, %rsp
	popq	%rbx
	popq	%r14
	retq
2:
	xorl	%eax, %eax
	retq
3:
	movq	%rdi, %r14
	shlq	$5, %rax
	movl	$8, %esi
	movq	%rax, %rdi
	callq	rattle_alloc@PLT
	testb	$1, %al
	jne	1b
4:
	xorl	%eax, %eax
	addq	$8, %rsp
	popq	%rbx
	popq	%r14
	retq
5:
	.size	"std_alloc::vec::Vec::grow_amortized::<#52d1c8244e310953>", 5b-"std_alloc::vec::Vec::grow_amortized::<#52d1c8244e310953>"

	.section	.text.unlikely,"ax",@progbits
	.p2align	4
	.type	"std_alloc::vec::Vec::grow_amortized::<#56d67e81838936ab>",@function
"std_alloc::vec::Vec::grow_amortized::<#56d67e81838936ab>":
	movq	8(%rdi), %rax
	cmpq	$-1, %rax
	je	2f
	pushq	%r14
	pushq	%rbx
	pushq	%rax
	movq	16(%rdi), %rcx
	cmpq	$4, %rax
	movl	$3, %ebx
	cmovaeq	%rax, %rbx
	incq	%rbx
	movq	%rcx, %rsi
	shrq	$62, %rsi
	leaq	(%rcx,%rcx), %rdx
	cmpq	%rdx, %rbx
	cmovaq	%rbx, %rdx
	testq	%rsi, %rsi
	cmoveq	%rdx, %rbx
	movabsq	$192153584101141162, %rsi
	cmpq	%rsi, %rbx
	ja	4f
	testq	%rcx, %rcx
	je	3f
	movq	%rdi, %r14
	movq	(%rdi), %rdi
	shlq	$4, %rax
	leaq	(%rax,%rax,2), %rsi
	movq	%rbx, %rax
	shlq	$4, %rax
	leaq	(%rax,%rax,2), %rdx
	movl	$8, %ecx
	callq	rattle_realloc@PLT
	testb	$1, %al
	je	4f
1:
	movq	%rdx, (%r14)
	movq	%rbx, 16(%r14)
	movb	$1, %al
	addq	$8, %rsp
	popq	%rbx
	popq	%r14
	retq
2:
	xorl	%eax, %eax
	retq
3:
	movq	%rdi, %r14
	shlq	$4, %rdx
	leaq	(%rdx,%rdx,2), %rdi
	movl	$8, %esi
	callq	rattle_alloc@PLT
	testb	$1, %al
	jne	1b
4:
	xorl	%eax, %eax
	addq	$8, %rsp
	popq	%rbx
	popq	%r14
	retq
5:
	.size	"std_alloc::vec::Vec::grow_amortized::<#56d67e81838936ab>", 5b-"std_alloc::vec::Vec::grow_amortized::<#56d67e81838936ab>"

	.section	.text.unlikely,"ax",@progbits
	.p2align	4
	.type	"std_alloc::vec::Vec::grow_amortized::<#5cd6c36b4880780f>",@function
"std_alloc::vec::Vec::grow_amortized::<#5cd6c36b4880780f>":
	movq	8(%rdi), %rax
	cmpq	$-1, %rax
	je	2f
	pushq	%r14
	pushq	%rbx
	pushq	%rax
	movq	16(%rdi), %rcx
	cmpq	$4, %rax
	movl	$3, %ebx
	cmovaeq	%rax, %rbx
	incq	%rbx
	movq	%rcx, %rsi
	shrq	$62, %rsi
	leaq	(%rcx,%rcx), %rdx
	cmpq	%rdx, %rbx
	cmovaq	%rbx, %rdx
	testq	%rsi, %rsi
	cmoveq	%rdx, %rbx
	movabsq	$230584300921369395, %rsi
	cmpq	%rsi, %rbx
	ja	4f
	testq	%rcx, %rcx
	je	3f
	movq	%rdi, %r14
	movq	(%rdi), %rdi
	shlq	$3, %rax
	leaq	(%rax,%rax,4), %rsi
	leaq	(,%rbx,8), %rax
	leaq	(%rax,%rax,4), %rdx
	movl	$8, %ecx
	callq	rattle_realloc@PLT
	testb	$1, %al
	je	4f
1:
	movq	%rdx, (%r14)
	movq	%rbx, 16(%r14)
	movb	$1, %al
	addq	$8, %rsp
	popq	%rbx
	popq	%r14
	retq
2:
	xorl	%eax, %eax
	retq
3:
	movq	%rdi, %r14
	shlq	$3, %rdx
	leaq	(%rdx,%rdx,4), %rdi
	movl	$8, %esi
	callq	rattle_alloc@PLT
	testb	$1, %al
	jne	1b
4:
	xorl	%eax, %eax
	addq	$8, %rsp
	popq	%rbx
	popq	%r14
	retq
5:
	.size	"std_alloc::vec::Vec::grow_amortized::<#5cd6c36b4880780f>", 5b-"std_alloc::vec::Vec::grow_amortized::<#5cd6c36b4880780f>"

	.section	.text.unlikely,"ax",@progbits
	.p2align	4
	.type	"std_alloc::vec::Vec::grow_amortized::<#621ce3d0792088ae>",@function
"std_alloc::vec::Vec::grow_amortized::<#621ce3d0792088ae>":
	movq	%rsi, %rax
	movq	8(%rdi), %rsi
	addq	%rsi, %rax
	jae	1f
	xorl	%eax, %eax
	retq
1:
	pushq	%r14
	pushq	%rbx
	pushq	%rax
	movq	16(%rdi), %rcx
	cmpq	$5, %rax
	movl	$4, %ebx
	cmovaeq	%rax, %rbx
	movq	%rcx, %rdx
	shrq	$62, %rdx
	leaq	(%rcx,%rcx), %rax
	cmpq	%rax, %rbx
	cmovaq	%rbx, %rax
	testq	%rdx, %rdx
	cmoveq	%rax, %rbx
	movq	%rbx, %rdx
	shrq	$57, %rdx
	jne	4f
	testq	%rcx, %rcx
	je	3f
	movq	%rdi, %r14
	movq	(%rdi), %rdi
	shlq	$6, %rsi
	movq	%rbx, %rdx
	shlq	$6, %rdx
	movl	$4, %ecx
	callq	rattle_realloc@PLT
	testb	$1, %al
	je	4f
2:
	movq	%rdx, (%r14)
	movq	%rbx, 16(%r14)
	movb	$1, %al
	addq	$8, %rsp
	popq	%rbx
	popq	%r14
	retq
3:
	movq	%rdi, %r14
	shlq	$6, %rax
	movl	$4, %esi
	movq	%rax, %rdi
	callq	rattle_alloc@PLT
	testb	$1, %al
	jne	2b
4:
	xorl	%eax, %eax
	addq	$8, %rsp
	popq	%rbx
	popq	%r14
	retq
5:
	.size	"std_alloc::vec::Vec::grow_amortized::<#621ce3d0792088ae>", 5b-"std_alloc::vec::Vec::grow_amortized::<#621ce3d0792088ae>"

	.section	.text.unlikely,"ax",@progbits
	.p2align	4
	.type	"std_alloc::vec::Vec::grow_amortized::<#69b8fd684be40472>",@function
"std_alloc::vec::Vec::grow_amortized::<#69b8fd684be40472>":
	movq	8(%rdi), %rsi
	cmpq	$-1, %rsi
	je	2f
	pushq	%r14
	pushq	%rbx
	pushq	%rax
	movq	16(%rdi), %rcx
	cmpq	$4, %rsi
	movl	$3, %ebx
	cmovaeq	%rsi, %rbx
	incq	%rbx
	movq	%rcx, %rdx
	shrq	$62, %rdx
	leaq	(%rcx,%rcx), %rax
	cmpq	%rax, %rbx
	cmovaq	%rbx, %rax
	testq	%rdx, %rdx
	cmoveq	%rax, %rbx
	movq	%rbx, %rdx
	shrq	$61, %rdx
	jne	4f
	testq	%rcx, %rcx
	je	3f
	movq	%rdi, %r14
	movq	(%rdi), %rdi
	shlq	$2, %rsi
	leaq	(,%rbx,4), %rdx
	movl	$4, %ecx
	callq	rattle_realloc@PLT
	testb	$1, %al
	je	4f
1:
	movq	%rdx, (%r14)
	movq	%rbx, 16(%r14)
	movb	$1, %al
	addq	$8, %rsp
	popq	%rbx
	popq	%r14
	retq
2:
	xorl	%eax, %eax
	retq
3:
	movq	%rdi, %r14
	shlq	$2, %rax
	movl	$4, %esi
	movq	%rax, %rdi
	callq	rattle_alloc@PLT
	testb	$1, %al
	jne	1b
4:
	xorl	%eax, %eax
	addq	$8, %rsp
	popq	%rbx
	popq	%r14
	retq
5:
	.size	"std_alloc::vec::Vec::grow_amortized::<#69b8fd684be40472>", 5b-"std_alloc::vec::Vec::grow_amortized::<#69b8fd684be40472>"

	.section	.text.unlikely,"ax",@progbits
	.p2align	4
	.type	"std_alloc::vec::Vec::grow_amortized::<#6f4ec3444080bcc6>",@function
"std_alloc::vec::Vec::grow_amortized::<#6f4ec3444080bcc6>":
	movq	%rsi, %rax
	movq	8(%rdi), %rsi
	addq	%rsi, %rax
	jae	1f
	xorl	%eax, %eax
	retq
1:
	pushq	%r14
	pushq	%rbx
	pushq	%rax
	movq	16(%rdi), %rcx
	cmpq	$5, %rax
	movl	$4, %ebx
	cmovaeq	%rax, %rbx
	movq	%rcx, %rdx
	shrq	$62, %rdx
	leaq	(%rcx,%rcx), %rax
	cmpq	%rax, %rbx
	cmovaq	%rbx, %rax
	testq	%rdx, %rdx
	cmoveq	%rax, %rbx
	movq	%rbx, %rdx
	shrq	$61, %rdx
	jne	4f
	testq	%rcx, %rcx
	je	3f
	movq	%rdi, %r14
	movq	(%rdi), %rdi
	shlq	$2, %rsi
	leaq	(,%rbx,4), %rdx
	movl	$4, %ecx
	callq	rattle_realloc@PLT
	testb	$1, %al
	je	4f
2:
	movq	%rdx, (%r14)
	movq	%rbx, 16(%r14)
	movb	$1, %al
	addq	$8, %rsp
	popq	%rbx
	popq	%r14
	retq
3:
	movq	%rdi, %r14
	shlq	$2, %rax
	movl	$4, %esi
	movq	%rax, %rdi
	callq	rattle_alloc@PLT
	testb	$1, %al
	jne	2b
4:
	xorl	%eax, %eax
	addq	$8, %rsp
	popq	%rbx
	popq	%r14
	retq
5:
	.size	"std_alloc::vec::Vec::grow_amortized::<#6f4ec3444080bcc6>", 5b-"std_alloc::vec::Vec::grow_amortized::<#6f4ec3444080bcc6>"

	.section	.text.unlikely,"ax",@progbits
	.p2align	4
	.type	"std_alloc::vec::Vec::grow_amortized::<#96976065f969f57f>",@function
"std_alloc::vec::Vec::grow_amortized::<#96976065f969f57f>":
	movq	8(%rdi), %rax
	cmpq	$-1, %rax
	je	2f
	pushq	%r14
	pushq	%rbx
	pushq	%rax
	movq	16(%rdi), %rcx
	cmpq	$4, %rax
	movl	$3, %ebx
	cmovaeq	%rax, %rbx
	incq	%rbx
	movq	%rcx, %rsi
	shrq	$62, %rsi
	leaq	(%rcx,%rcx), %rdx
	cmpq	%rdx, %rbx
	cmovaq	%rbx, %rdx
	testq	%rsi, %rsi
	cmoveq	%rdx, %rbx
	movabsq	$13725256007224368, %rsi
	cmpq	%rsi, %rbx
	ja	4f
	testq	%rcx, %rcx
	je	3f
	movq	%rdi, %r14
	movq	(%rdi), %rdi
	imulq	$672, %rax, %rsi
	imulq	$672, %rbx, %rdx
	movl	$8, %ecx
	callq	rattle_realloc@PLT
	testb	$1, %al
	je	4f
1:
	movq	%rdx, (%r14)
	movq	%rbx, 16(%r14)
	movb	$1, %al
	addq	$8, %rsp
	popq	%rbx
	popq	%r14
	retq
2:
	xorl	%eax, %eax
	retq
3:
	movq	%rdi, %r14
	imulq	$672, %rdx, %rdi
	movl	$8, %esi
	callq	rattle_alloc@PLT
	testb	$1, %al
	jne	1b
4:
	xorl	%eax, %eax
	addq	$8, %rsp
	popq	%rbx
	popq	%r14
	retq
5:
	.size	"std_alloc::vec::Vec::grow_amortized::<#96976065f969f57f>", 5b-"std_alloc::vec::Vec::grow_amortized::<#96976065f969f57f>"

	.section	.text.unlikely,"ax",@progbits
	.p2align	4
	.type	"std_alloc::vec::Vec::grow_amortized::<#973b4a116d082bbd>",@function
"std_alloc::vec::Vec::grow_amortized::<#973b4a116d082bbd>":
	movq	8(%rdi), %rax
	cmpq	$-1, %rax
	je	2f
	pushq	%r14
	pushq	%rbx
	pushq	%rax
	movq	16(%rdi), %rcx
	cmpq	$4, %rax
	movl	$3, %ebx
	cmovaeq	%rax, %rbx
	incq	%rbx
	movq	%rcx, %rsi
	shrq	$62, %rsi
	leaq	(%rcx,%rcx), %rdx
	cmpq	%rdx, %rbx
	cmovaq	%rbx, %rdx
	testq	%rsi, %rsi
	cmoveq	%rdx, %rbx
	movabsq	$384307168202282325, %rsi
	cmpq	%rsi, %rbx
	ja	4f
	testq	%rcx, %rcx
	je	3f
	movq	%rdi, %r14
	movq	(%rdi), %rdi
	shlq	$3, %rax
	leaq	(%rax,%rax,2), %rsi
	leaq	(,%rbx,8), %rax
	leaq	(%rax,%rax,2), %rdx
	movl	$8, %ecx
	callq	rattle_realloc@PLT
	testb	$1, %al
	je	4f
1:
	movq	%rdx, (%r14)
	movq	%rbx, 16(%r14)
	movb	$1, %al
	addq	$8, %rsp
	popq	%rbx
	popq	%r14
	retq
2:
	xorl	%eax, %eax
	retq
3:
	movq	%rdi, %r14
	shlq	$3, %rdx
	leaq	(%rdx,%rdx,2), %rdi
	movl	$8, %esi
	callq	rattle_alloc@PLT
	testb	$1, %al
	jne	1b
4:
	xorl	%eax, %eax
	addq	$8, %rsp
	popq	%rbx
	popq	%r14
	retq
5:
	.size	"std_alloc::vec::Vec::grow_amortized::<#973b4a116d082bbd>", 5b-"std_alloc::vec::Vec::grow_amortized::<#973b4a116d082bbd>"

	.section	.text.unlikely,"ax",@progbits
	.p2align	4
	.type	"std_alloc::vec::Vec::grow_amortized::<#97494d03d8baf6d3>",@function
"std_alloc::vec::Vec::grow_amortized::<#97494d03d8baf6d3>":
	movq	8(%rdi), %rax
	cmpq	$-1, %rax
	je	2f
	pushq	%r14
	pushq	%rbx
	pushq	%rax
	movq	16(%rdi), %rcx
	cmpq	$4, %rax
	movl	$3, %ebx
	cmovaeq	%rax, %rbx
	incq	%rbx
	movq	%rcx, %rsi
	shrq	$62, %rsi
	leaq	(%rcx,%rcx), %rdx
	cmpq	%rdx, %rbx
	cmovaq	%rbx, %rdx
	testq	%rsi, %rsi
	cmoveq	%rdx, %rbx
	movabsq	$164703072086692425, %rsi
	cmpq	%rsi, %rbx
	ja	4f
	testq	%rcx, %rcx
	je	3f
	movq	%rdi, %r14
	movq	(%rdi), %rdi
	imulq	$56, %rax, %rsi
	imulq	$56, %rbx, %rdx
	movl	$8, %ecx
	callq	rattle_realloc@PLT
	testb	$1, %al
	je	4f
1:
	movq	%rdx, (%r14)
	movq	%rbx, 16(%r14)
	movb	$1, %al
	addq	$8, %rsp
	popq	%rbx
	popq	%r14
	retq
2:
	xorl	%eax, %eax
	retq
3:
	movq	%rdi, %r14
	imulq	$56, %rdx, %rdi
	movl	$8, %esi
	callq	rattle_alloc@PLT
	testb	$1, %al
	jne	1b
4:
	xorl	%eax, %eax
	addq	$8, %rsp
	popq	%rbx
	popq	%r14
	retq
5:
	.size	"std_alloc::vec::Vec::grow_amortized::<#97494d03d8baf6d3>", 5b-"std_alloc::vec::Vec::grow_amortized::<#97494d03d8baf6d3>"

	.section	.text.unlikely,"ax",@progbits
	.p2align	4
	.type	"std_alloc::vec::Vec::grow_amortized::<#9df5fbc9122c907f>",@function
"std_alloc::vec::Vec::grow_amortized::<#9df5fbc9122c907f>":
	movq	8(%rdi), %rax
	cmpq	$-1, %rax
	je	2f
	pushq	%r14
	pushq	%rbx
	pushq	%rax
	movq	16(%rdi), %rcx
	cmpq	$4, %rax
	movl	$3, %ebx
	cmovaeq	%rax, %rbx
	incq	%rbx
	movq	%rcx, %rsi
	shrq	$62, %rsi
	leaq	(%rcx,%rcx), %rdx
	cmpq	%rdx, %rbx
	cmovaq	%rbx, %rdx
	testq	%rsi, %rsi
	cmoveq	%rdx, %rbx
	movabsq	$104811045873349725, %rsi
	cmpq	%rsi, %rbx
	ja	4f
	testq	%rcx, %rcx
	je	3f
	movq	%rdi, %r14
	movq	(%rdi), %rdi
	imulq	$88, %rax, %rsi
	imulq	$88, %rbx, %rdx
	movl	$8, %ecx
	callq	rattle_realloc@PLT
	testb	$1, %al
	je	4f
1:
	movq	%rdx, (%r14)
	movq	%rbx, 16(%r14)
	movb	$1, %al
	addq	$8, %rsp
	popq	%rbx
	popq	%r14
	retq
2:
	xorl	%eax, %eax
	retq
3:
	movq	%rdi, %r14
	imulq	$88, %rdx, %rdi
	movl	$8, %esi
	callq	rattle_alloc@PLT
	testb	$1, %al
	jne	1b
4:
	xorl	%eax, %eax
	addq	$8, %rsp
	popq	%rbx
	popq	%r14
	retq
5:
	.size	"std_alloc::vec::Vec::grow_amortized::<#9df5fbc9122c907f>", 5b-"std_alloc::vec::Vec::grow_amortized::<#9df5fbc9122c907f>"

	.section	.text.unlikely,"ax",@progbits
	.p2align	4
	.type	"std_alloc::vec::Vec::grow_amortized::<#9e03e38e8c3bbb30>",@function
"std_alloc::vec::Vec::grow_amortized::<#9e03e38e8c3bbb30>":
	movq	8(%rdi), %rsi
	cmpq	$-64, %rsi
	jb	1f
	xorl	%eax, %eax
	retq
1:
	pushq	%r14
	pushq	%rbx
	pushq	%rax
	movq	16(%rdi), %rcx
	leaq	64(%rsi), %rbx
	movq	%rcx, %rdx
	shrq	$62, %rdx
	leaq	(%rcx,%rcx), %rax
	cmpq	%rax, %rbx
	cmovaq	%rbx, %rax
	testq	%rdx, %rdx
	cmoveq	%rax, %rbx
	movq	%rbx, %rdx
	shrq	$61, %rdx
	jne	4f
	testq	%rcx, %rcx
	je	3f
	movq	%rdi, %r14
	movq	(%rdi), %rdi
	shlq	$2, %rsi
	leaq	(,%rbx,4), %rdx
	movl	$4, %ecx
	callq	rattle_realloc@PLT
	testb	$1, %al
	je	4f
2:
	movq	%rdx, (%r14)
	movq	%rbx, 16(%r14)
	movb	$1, %al
	addq	$8, %rsp
	popq	%rbx
	popq	%r14
	retq
3:
	movq	%rdi, %r14
	shlq	$2, %rax
	movl	$4, %esi
	movq	%rax, %rdi
	callq	rattle_alloc@PLT
	testb	$1, %al
	jne	2b
4:
	xorl	%eax, %eax
	addq	$8, %rsp
	popq	%rbx
	popq	%r14
	retq
5:
	.size	"std_alloc::vec::Vec::grow_amortized::<#9e03e38e8c3bbb30>", 5b-"std_alloc::vec::Vec::grow_amortized::<#9e03e38e8c3bbb30>"

	.section	.text.unlikely,"ax",@progbits
	.p2align	4
	.type	"std_alloc::vec::Vec::grow_amortized::<#9f351709e7e1a03a>",@function
"std_alloc::vec::Vec::grow_amortized::<#9f351709e7e1a03a>":
	movq	8(%rdi), %rax
	cmpq	$-1, %rax
	je	2f
	pushq	%r14
	pushq	%rbx
	pushq	%rax
	movq	16(%rdi), %rcx
	cmpq	$4, %rax
	movl	$3, %ebx
	cmovaeq	%rax, %rbx
	incq	%rbx
	movq	%rcx, %rsi
	shrq	$62, %rsi
	leaq	(%rcx,%rcx), %rdx
	cmpq	%rdx, %rbx
	cmovaq	%rbx, %rdx
	testq	%rsi, %rsi
	cmoveq	%rdx, %rbx
	movabsq	$88686269585142075, %rsi
	cmpq	%rsi, %rbx
	ja	4f
	testq	%rcx, %rcx
	je	3f
	movq	%rdi, %r14
	movq	(%rdi), %rdi
	imulq	$104, %rax, %rsi
	imulq	$104, %rbx, %rdx
	movl	$8, %ecx
	callq	rattle_realloc@PLT
	testb	$1, %al
	je	4f
1:
	movq	%rdx, (%r14)
	movq	%rbx, 16(%r14)
	movb	$1, %al
	addq	$8, %rsp
	popq	%rbx
	popq	%r14
	retq
2:
	xorl	%eax, %eax
	retq
3:
	movq	%rdi, %r14
	imulq	$104, %rdx, %rdi
	movl	$8, %esi
	callq	rattle_alloc@PLT
	testb	$1, %al
	jne	1b
4:
	xorl	%eax, %eax
	addq	$8, %rsp
	popq	%rbx
	popq	%r14
	retq
5:
	.size	"std_alloc::vec::Vec::grow_amortized::<#9f351709e7e1a03a>", 5b-"std_alloc::vec::Vec::grow_amortized::<#9f351709e7e1a03a>"

	.section	.text.unlikely,"ax",@progbits
	.p2align	4
	.type	"std_alloc::vec::Vec::grow_amortized::<#a658b02dc117231d>",@function
"std_alloc::vec::Vec::grow_amortized::<#a658b02dc117231d>":
	movq	%rsi, %rax
	movq	8(%rdi), %rsi
	addq	%rsi, %rax
	jae	1f
	xorl	%eax, %eax
	retq
1:
	pushq	%r14
	pushq	%rbx
	pushq	%rax
	movq	16(%rdi), %rcx
	cmpq	$5, %rax
	movl	$4, %ebx
	cmovaeq	%rax, %rbx
	movq	%rcx, %rdx
	shrq	$62, %rdx
	leaq	(%rcx,%rcx), %rax
	cmpq	%rax, %rbx
	cmovaq	%rbx, %rax
	testq	%rdx, %rdx
	cmoveq	%rax, %rbx
	movq	%rbx, %rdx
	shrq	$59, %rdx
	jne	4f
	testq	%rcx, %rcx
	je	3f
	movq	%rdi, %r14
	movq	(%rdi), %rdi
	shlq	$4, %rsi
	movq	%rbx, %rdx
	shlq	$4, %rdx
	movl	$8, %ecx
	callq	rattle_realloc@PLT
	testb	$1, %al
	je	4f
2:
	movq	%rdx, (%r14)
	movq	%rbx, 16(%r14)
	movb	$1, %al
	addq	$8, %rsp
	popq	%rbx
	popq	%r14
	retq
3:
	movq	%rdi, %r14
	shlq	$4, %rax
	movl	$8, %esi
	movq	%rax, %rdi
	callq	rattle_alloc@PLT
	testb	$1, %al
	jne	2b
4:
	xorl	%eax, %eax
	addq	$8, %rsp
	popq	%rbx
	popq	%r14
	retq
5:
	.size	"std_alloc::vec::Vec::grow_amortized::<#a658b02dc117231d>", 5b-"std_alloc::vec::Vec::grow_amortized::<#a658b02dc117231d>"

	.section	.text.unlikely,"ax",@progbits
	.p2align	4
	.type	"std_alloc::vec::Vec::grow_amortized::<#aac2e341597f1126>",@function
"std_alloc::vec::Vec::grow_amortized::<#aac2e341597f1126>":
	movq	8(%rdi), %rax
	cmpq	$-1, %rax
	je	2f
	pushq	%r14
	pushq	%rbx
	pushq	%rax
	movq	16(%rdi), %rcx
	cmpq	$4, %rax
	movl	$3, %ebx
	cmovaeq	%rax, %rbx
	incq	%rbx
	movq	%rcx, %rsi
	shrq	$62, %rsi
	leaq	(%rcx,%rcx), %rdx
	cmpq	%rdx, %rbx
	cmovaq	%rbx, %rdx
	testq	%rsi, %rsi
	cmoveq	%rdx, %rbx
	movabsq	$115292150460684697, %rsi
	cmpq	%rsi, %rbx
	ja	4f
	testq	%rcx, %rcx
	je	3f
	movq	%rdi, %r14
	movq	(%rdi), %rdi
	shlq	$4, %rax
	leaq	(%rax,%rax,4), %rsi
	movq	%rbx, %rax
	shlq	$4, %rax
	leaq	(%rax,%rax,4), %rdx
	movl	$8, %ecx
	callq	rattle_realloc@PLT
	testb	$1, %al
	je	4f
1:
	movq	%rdx, (%r14)
	movq	%rbx, 16(%r14)
	movb	$1, %al
	addq	$8, %rsp
	popq	%rbx
	popq	%r14
	retq
2:
	xorl	%eax, %eax
	retq
3:
	movq	%rdi, %r14
	shlq	$4, %rdx
	leaq	(%rdx,%rdx,4), %rdi
	movl	$8, %esi
	callq	rattle_alloc@PLT
	testb	$1, %al
	jne	1b
4:
	xorl	%eax, %eax
	addq	$8, %rsp
	popq	%rbx
	popq	%r14
	retq
5:
	.size	"std_alloc::vec::Vec::grow_amortized::<#aac2e341597f1126>", 5b-"std_alloc::vec::Vec::grow_amortized::<#aac2e341597f1126>"

	.section	.text.unlikely,"ax",@progbits
	.p2align	4
	.type	"std_alloc::vec::Vec::grow_amortized::<#af4d00d87a514b9c>",@function
"std_alloc::vec::Vec::grow_amortized::<#af4d00d87a514b9c>":
	movq	8(%rdi), %rax
	addq	%rax, %rsi
	jae	1f
	xorl	%eax, %eax
	retq
1:
	pushq	%r14
	pushq	%rbx
	pushq	%rax
	movq	16(%rdi), %rcx
	cmpq	$5, %rsi
	movl	$4, %ebx
	cmovaeq	%rsi, %rbx
	movq	%rcx, %rsi
	shrq	$62, %rsi
	leaq	(%rcx,%rcx), %rdx
	cmpq	%rdx, %rbx
	cmovaq	%rbx, %rdx
	testq	%rsi, %rsi
	cmoveq	%rdx, %rbx
	movabsq	$96076792050570581, %rsi
	cmpq	%rsi, %rbx
	ja	4f
	testq	%rcx, %rcx
	je	3f
	movq	%rdi, %r14
	movq	(%rdi), %rdi
	shlq	$5, %rax
	leaq	(%rax,%rax,2), %rsi
	movq	%rbx, %rax
	shlq	$5, %rax
	leaq	(%rax,%rax,2), %rdx
	movl	$8, %ecx
	callq	rattle_realloc@PLT
	testb	$1, %al
	je	4f
2:
	movq	%rdx, (%r14)
	movq	%rbx, 16(%r14)
	movb	$1, %al
	addq	$8, %rsp
	popq	%rbx
	popq	%r14
	retq
3:
	movq	%rdi, %r14
	shlq	$5, %rdx
	leaq	(%rdx,%rdx,2), %rdi
	movl	$8, %esi
	callq	rattle_alloc@PLT
	testb	$1, %al
	jne	2b
4:
	xorl	%eax, %eax
	addq	$8, %rsp
	popq	%rbx
	popq	%r14
	retq
5:
	.size	"std_alloc::vec::Vec::grow_amortized::<#af4d00d87a514b9c>", 5b-"std_alloc::vec::Vec::grow_amortized::<#af4d00d87a514b9c>"

	.section	.text.unlikely,"ax",@progbits
	.p2align	4
	.type	"std_alloc::vec::Vec::grow_amortized::<#b0aa9f4bede84b75>",@function
"std_alloc::vec::Vec::grow_amortized::<#b0aa9f4bede84b75>":
	movq	8(%rdi), %rax
	cmpq	$-1, %rax
	je	2f
	pushq	%r14
	pushq	%rbx
	pushq	%rax
	movq	16(%rdi), %rcx
	cmpq	$4, %rax
	movl	$3, %ebx
	cmovaeq	%rax, %rbx
	incq	%rbx
	movq	%rcx, %rsi
	shrq	$62, %rsi
	leaq	(%rcx,%rcx), %rdx
	cmpq	%rdx, %rbx
	cmovaq	%rbx, %rdx
	testq	%rsi, %rsi
	cmoveq	%rdx, %rbx
	movabsq	$82351536043346212, %rsi
	cmpq	%rsi, %rbx
	ja	4f
	testq	%rcx, %rcx
	je	3f
	movq	%rdi, %r14
	movq	(%rdi), %rdi
	imulq	$112, %rax, %rsi
	imulq	$112, %rbx, %rdx
	movl	$8, %ecx
	callq	rattle_realloc@PLT
	testb	$1, %al
	je	4f
1:
	movq	%rdx, (%r14)
	movq	%rbx, 16(%r14)
	movb	$1, %al
	addq	$8, %rsp
	popq	%rbx
	popq	%r14
	retq
2:
	xorl	%eax, %eax
	retq
3:
	movq	%rdi, %r14
	imulq	$112, %rdx, %rdi
	movl	$8, %esi
	callq	rattle_alloc@PLT
	testb	$1, %al
	jne	1b
4:
	xorl	%eax, %eax
	addq	$8, %rsp
	popq	%rbx
	popq	%r14
	retq
5:
	.size	"std_alloc::vec::Vec::grow_amortized::<#b0aa9f4bede84b75>", 5b-"std_alloc::vec::Vec::grow_amortized::<#b0aa9f4bede84b75>"

	.section	.text.unlikely,"ax",@progbits
	.p2align	4
	.type	"std_alloc::vec::Vec::grow_amortized::<#cb15977fd34c773c>",@function
"std_alloc::vec::Vec::grow_amortized::<#cb15977fd34c773c>":
	movq	8(%rdi), %rax
	cmpq	$-1, %rax
	je	2f
	pushq	%r14
	pushq	%rbx
	pushq	%rax
	movq	16(%rdi), %rcx
	cmpq	$4, %rax
	movl	$3, %ebx
	cmovaeq	%rax, %rbx
	incq	%rbx
	movq	%rcx, %rsi
	shrq	$62, %rsi
	leaq	(%rcx,%rcx), %rdx
	cmpq	%rdx, %rbx
	cmovaq	%rbx, %rdx
	testq	%rsi, %rsi
	cmoveq	%rdx, %rbx
	movabsq	$15170019797458512, %rsi
	cmpq	%rsi, %rbx
	ja	4f
	testq	%rcx, %rcx
	je	3f
	movq	%rdi, %r14
	movq	(%rdi), %rdi
	imulq	$608, %rax, %rsi
	imulq	$608, %rbx, %rdx
	movl	$8, %ecx
	callq	rattle_realloc@PLT
	testb	$1, %al
	je	4f
1:
	movq	%rdx, (%r14)
	movq	%rbx, 16(%r14)
	movb	$1, %al
	addq	$8, %rsp
	popq	%rbx
	popq	%r14
	retq
2:
	xorl	%eax, %eax
	retq
3:
	movq	%rdi, %r14
	imulq	$608, %rdx, %rdi
	movl	$8, %esi
	callq	rattle_alloc@PLT
	testb	$1, %al
	jne	1b
4:
	xorl	%eax, %eax
	addq	$8, %rsp
	popq	%rbx
	popq	%r14
	retq
5:
	.size	"std_alloc::vec::Vec::grow_amortized::<#cb15977fd34c773c>", 5b-"std_alloc::vec::Vec::grow_amortized::<#cb15977fd34c773c>"

	.section	.text.unlikely,"ax",@progbits
	.p2align	4
	.type	"std_alloc::vec::Vec::grow_amortized::<#db6731f0a815ca15>",@function
"std_alloc::vec::Vec::grow_amortized::<#db6731f0a815ca15>":
	movq	8(%rdi), %rax
	cmpq	$-1, %rax
	je	2f
	pushq	%r14
	pushq	%rbx
	pushq	%rax
	movq	16(%rdi), %rcx
	cmpq	$4, %rax
	movl	$3, %ebx
	cmovaeq	%rax, %rbx
	incq	%rbx
	movq	%rcx, %rsi
	shrq	$62, %rsi
	leaq	(%rcx,%rcx), %rdx
	cmpq	%rdx, %rbx
	cmovaq	%rbx, %rdx
	testq	%rsi, %rsi
	cmoveq	%rdx, %rbx
	movabsq	$29562089861714025, %rsi
	cmpq	%rsi, %rbx
	ja	4f
	testq	%rcx, %rcx
	je	3f
	movq	%rdi, %r14
	movq	(%rdi), %rdi
	imulq	$312, %rax, %rsi
	imulq	$312, %rbx, %rdx
	movl	$8, %ecx
	callq	rattle_realloc@PLT
	testb	$1, %al
	je	4f
1:
	movq	%rdx, (%r14)
	movq	%rbx, 16(%r14)
	movb	$1, %al
	addq	$8, %rsp
	popq	%rbx
	popq	%r14
	retq
2:
	xorl	%eax, %eax
	retq
3:
	movq	%rdi, %r14
	imulq	$312, %rdx, %rdi
	movl	$8, %esi
	callq	rattle_alloc@PLT
	testb	$1, %al
	jne	1b
4:
	xorl	%eax, %eax
	addq	$8, %rsp
	popq	%rbx
	popq	%r14
	retq
5:
	.size	"std_alloc::vec::Vec::grow_amortized::<#db6731f0a815ca15>", 5b-"std_alloc::vec::Vec::grow_amortized::<#db6731f0a815ca15>"

	.section	.text.unlikely,"ax",@progbits
	.p2align	4
	.type	"std_alloc::vec::Vec::grow_amortized::<#e5d85e99c87df23c>",@function
"std_alloc::vec::Vec::grow_amortized::<#e5d85e99c87df23c>":
	movq	%rsi, %rax
	movq	8(%rdi), %rsi
	addq	%rsi, %rax
	jae	1f
	xorl	%eax, %eax
	retq
1:
	pushq	%r14
	pushq	%rbx
	pushq	%rax
	movq	16(%rdi), %rcx
	cmpq	$5, %rax
	movl	$4, %ebx
	cmovaeq	%rax, %rbx
	movq	%rcx, %rdx
	shrq	$62, %rdx
	leaq	(%rcx,%rcx), %rax
	cmpq	%rax, %rbx
	cmovaq	%rbx, %rax
	testq	%rdx, %rdx
	cmoveq	%rax, %rbx
	movq	%rbx, %rdx
	shrq	$62, %rdx
	jne	4f
	testq	%rcx, %rcx
	je	3f
	movq	%rdi, %r14
	movq	(%rdi), %rdi
	addq	%rsi, %rsi
	leaq	(%rbx,%rbx), %rdx
	movl	$2, %ecx
	callq	rattle_realloc@PLT
	testb	$1, %al
	je	4f
2:
	movq	%rdx, (%r14)
	movq	%rbx, 16(%r14)
	movb	$1, %al
	addq	$8, %rsp
	popq	%rbx
	popq	%r14
	retq
3:
	movq	%rdi, %r14
	addq	%rax, %rax
	movl	$2, %esi
	movq	%rax, %rdi
	callq	rattle_alloc@PLT
	testb	$1, %al
	jne	2b
4:
	xorl	%eax, %eax
	addq	$8, %rsp
	popq	%rbx
	popq	%r14
	retq
5:
	.size	"std_alloc::vec::Vec::grow_amortized::<#e5d85e99c87df23c>", 5b-"std_alloc::vec::Vec::grow_amortized::<#e5d85e99c87df23c>"

	.section	.text.unlikely,"ax",@progbits
	.p2align	4
	.type	"std_alloc::vec::Vec::grow_amortized::<#f7f783c9c62e5f91>",@function
"std_alloc::vec::Vec::grow_amortized::<#f7f783c9c62e5f91>":
	movq	%rsi, %rax
	movq	8(%rdi), %rsi
	addq	%rsi, %rax
	jae	1f
	xorl	%eax, %eax
	retq
1:
	pushq	%r14
	pushq	%rbx
	pushq	%rax
	cmpq	$9, %rax
	movl	$8, %ebx
	cmovaeq	%rax, %rbx
	movq	16(%rdi), %rcx
	movq	%rcx, %rdx
	shrq	$62, %rdx
	leaq	(%rcx,%rcx), %rax
	cmpq	%rax, %rbx
	cmovaq	%rbx, %rax
	testq	%rdx, %rdx
	cmoveq	%rax, %rbx
	testq	%rbx, %rbx
	js	4f
	testq	%rcx, %rcx
	je	3f
	movq	%rdi, %r14
	movq	(%rdi), %rdi
	movl	$1, %ecx
	movq	%rbx, %rdx
	callq	rattle_realloc@PLT
	testb	$1, %al
	je	4f
2:
	movq	%rdx, (%r14)
	movq	%rbx, 16(%r14)
	movb	$1, %al
	addq	$8, %rsp
	popq	%rbx
	popq	%r14
	retq
3:
	movq	%rdi, %r14
	movl	$1, %esi
	movq	%rax, %rdi
	callq	rattle_alloc@PLT
	testb	$1, %al
	jne	2b
4:
	xorl	%eax, %eax
	addq	$8, %rsp
	popq	%rbx
	popq	%r14
	retq
5:
	.size	"std_alloc::vec::Vec::grow_amortized::<#f7f783c9c62e5f91>", 5b-"std_alloc::vec::Vec::grow_amortized::<#f7f783c9c62e5f91>"

	.section	.text.unlikely,"ax",@progbits
	.p2align	4
	.type	"std_alloc::vec::Vec::grow_amortized::<#fae293e493dc3251>",@function
"std_alloc::vec::Vec::grow_amortized::<#fae293e493dc3251>":
	movq	8(%rdi), %rax
	cmpq	$-1, %rax
	je	2f
	pushq	%r14
	pushq	%rbx
	pushq	%rax
	movq	16(%rdi), %rcx
	cmpq	$4, %rax
	movl	$3, %ebx
	cmovaeq	%rax, %rbx
	incq	%rbx
	movq	%rcx, %rsi
	shrq	$62, %rsi
	leaq	(%rcx,%rcx), %rdx
	cmpq	%rdx, %rbx
	cmovaq	%rbx, %rdx
	testq	%rsi, %rsi
	cmoveq	%rdx, %rbx
	movabsq	$96076792050570581, %rsi
	cmpq	%rsi, %rbx
	ja	4f
	testq	%rcx, %rcx
	je	3f
	movq	%rdi, %r14
	movq	(%rdi), %rdi
	shlq	$5, %rax
	leaq	(%rax,%rax,2), %rsi
	movq	%rbx, %rax
	shlq	$5, %rax
	leaq	(%rax,%rax,2), %rdx
	movl	$8, %ecx
	callq	rattle_realloc@PLT
	testb	$1, %al
	je	4f
1:
	movq	%rdx, (%r14)
	movq	%rbx, 16(%r14)
	movb	$1, %al
	addq	$8, %rsp
	popq	%rbx
	popq	%r14
	retq
2:
	xorl	%eax, %eax
	retq
3:
	movq	%rdi, %r14
	shlq	$5, %rdx
	leaq	(%rdx,%rdx,2), %rdi
	movl	$8, %esi
	callq	rattle_alloc@PLT
	testb	$1, %al
	jne	1b
4:
	xorl	%eax, %eax
	addq	$8, %rsp
	popq	%rbx
	popq	%r14
	retq
5:
	.size	"std_alloc::vec::Vec::grow_amortized::<#fae293e493dc3251>", 5b-"std_alloc::vec::Vec::grow_amortized::<#fae293e493dc3251>"

	.section	.rodata.cst16,"aM",@progbits,16
	.p2align	4, 0x0
1:
	.long	1,0,0,0
	.text
	.p2align	4
	.type	"std_alloc::vec::Vec::put_at::<#973b4a116d082bbd>",@function
"std_alloc::vec::Vec::put_at::<#973b4a116d082bbd>":
	pushq	%r14
	pushq	%rbx
	movq	16(%rdx), %rax
	movq	%rax, -8(%rsp)
	movups	(%rdx), %xmm0
	movaps	%xmm0, -24(%rsp)
	movq	(%rdi), %rax
	movq	8(%rdi), %rcx
	movdqu	8(%rdi), %xmm0
	xorps	%xmm1, %xmm1
	movups	%xmm1, 8(%rdi)
	movq	%rsi, %r10
	incq	%r10
	je	2f
	cmpq	%rsi, %rcx
	je	19f
	movq	%rcx, %rdx
	subq	%rsi, %rdx
	leaq	(%rsi,%rsi,2), %r8
	leaq	(%rax,%r8,8), %r8
	leaq	(%r10,%r10,2), %r9
	leaq	(%rax,%r9,8), %r9
	cmpq	%r10, %rcx
	jne	10f
	xorl	%ecx, %ecx
	jmp	12f
2:
	leaq	1(%rcx), %rdx
	cmpq	$86, %rdx
	jb	7f
	xorl	%r11d, %r11d
	movq	%rax, %r9
	jmp	5f
	.p2align	4
3:
	leaq	(%r8,%r8,2), %r10
	leaq	(%rax,%r10,8), %r10
	movq	-8(%r10), %r11
	movq	%r11, 16(%r10)
	movups	-24(%r10), %xmm1
	movups	%xmm1, (%r10)
	movq	-8(%r10), %r11
	movq	%r11, 40(%r10)
	movups	-24(%r10), %xmm1
	movups	%xmm1, 24(%r10)
	movq	-8(%r10), %r11
	movq	%r11, 64(%r10)
	movups	-24(%r10), %xmm1
	movups	%xmm1, 48(%r10)
	movq	-8(%r10), %r11
	movq	%r11, 88(%r10)
	movups	-24(%r10), %xmm1
	movups	%xmm1, 72(%r10)
	movq	-8(%r10), %r11
	movq	%r11, 112(%r10)
	movups	-24(%r10), %xmm1
	movups	%xmm1, 96(%r10)
	movups	-24(%r10), %xmm1
	movups	%xmm1, 120(%r10)
	movq	-8(%r10), %r11
	movq	%r11, 136(%r10)
	movups	-24(%r10), %xmm1
	movups	%xmm1, 144(%r10)
	movq	-8(%r10), %r11
	movq	%r11, 160(%r10)
	movq	-8(%r10), %r11
	movq	%r11, 184(%r10)
	movups	-24(%r10), %xmm1
	movups	%xmm1, 168(%r10)
	movups	-24(%r10), %xmm1
	movups	%xmm1, 192(%r10)
	movq	-8(%r10), %r11
	movq	%r11, 208(%r10)
	movups	-24(%r10), %xmm1
	movups	%xmm1, 216(%r10)
	movq	-8(%r10), %r11
	movq	%r11, 232(%r10)
	movq	-8(%r10), %r11
	movq	%r11, 256(%r10)
	movups	-24(%r10), %xmm1
	movups	%xmm1, 240(%r10)
	movq	-8(%r10), %r11
	movq	%r11, 280(%r10)
	movups	-24(%r10), %xmm1
	movups	%xmm1, 264(%r10)
	movups	-24(%r10), %xmm1
	movups	%xmm1, 288(%r10)
	movq	-8(%r10), %r11
	movq	%r11, 304(%r10)
	movups	-24(%r10), %xmm1
	movups	%xmm1, 312(%r10)
	movq	-8(%r10), %r11
	movq	%r11, 328(%r10)
	movups	-24(%r10), %xmm1
	movups	%xmm1, 336(%r10)
	movq	-8(%r10), %r11
	movq	%r11, 352(%r10)
	movq	-8(%r10), %r11
	movq	%r11, 376(%r10)
	movups	-24(%r10), %xmm1
	movups	%xmm1, 360(%r10)
	movups	-24(%r10), %xmm1
	movups	%xmm1, 384(%r10)
	movq	-8(%r10), %r11
	movq	%r11, 400(%r10)
	movups	-24(%r10), %xmm1
	movups	%xmm1, 408(%r10)
	movq	-8(%r10), %r11
	movq	%r11, 424(%r10)
	movups	-24(%r10), %xmm1
	movups	%xmm1, 432(%r10)
	movq	-8(%r10), %r11
	movq	%r11, 448(%r10)
	movq	-8(%r10), %r11
	movq	%r11, 472(%r10)
	movups	-24(%r10), %xmm1
	movups	%xmm1, 456(%r10)
	movups	-24(%r10), %xmm1
	movups	%xmm1, 480(%r10)
	movq	-8(%r10), %r11
	movq	%r11, 496(%r10)
	movups	-24(%r10), %xmm1
	movups	%xmm1, 504(%r10)
	movq	-8(%r10), %r11
	movq	%r11, 520(%r10)
	movups	-24(%r10), %xmm1
	movups	%xmm1, 528(%r10)
	movq	-8(%r10), %r11
	movq	%r11, 544(%r10)
	movq	-8(%r10), %r11
	movq	%r11, 568(%r10)
	movups	-24(%r10), %xmm1
	movups	%xmm1, 552(%r10)
	movups	-24(%r10), %xmm1
	movups	%xmm1, 576(%r10)
	movq	-8(%r10), %r11
	movq	%r11, 592(%r10)
	movups	-24(%r10), %xmm1
	movups	%xmm1, 600(%r10)
	movq	-8(%r10), %r11
	movq	%r11, 616(%r10)
	movups	-24(%r10), %xmm1
	movups	%xmm1, 624(%r10)
	movq	-8(%r10), %r11
	movq	%r11, 640(%r10)
	movq	-8(%r10), %r11
	movq	%r11, 664(%r10)
	movups	-24(%r10), %xmm1
	movups	%xmm1, 648(%r10)
	movups	-24(%r10), %xmm1
	movups	%xmm1, 672(%r10)
	movq	-8(%r10), %r11
	movq	%r11, 688(%r10)
	movups	-24(%r10), %xmm1
	movups	%xmm1, 696(%r10)
	movq	-8(%r10), %r11
	movq	%r11, 712(%r10)
	movups	-24(%r10), %xmm1
	movups	%xmm1, 720(%r10)
	movq	-8(%r10), %r11
	movq	%r11, 736(%r10)
	movq	-8(%r10), %r11
	movq	%r11, 760(%r10)
	movups	-24(%r10), %xmm1
	movups	%xmm1, 744(%r10)
	movups	-24(%r10), %xmm1
	movups	%xmm1, 768(%r10)
	movq	-8(%r10), %r11
	movq	%r11, 784(%r10)
	movups	-24(%r10), %xmm1
	movups	%xmm1, 792(%r10)
	movq	-8(%r10), %r11
	movq	%r11, 808(%r10)
	movups	-24(%r10), %xmm1
	movups	%xmm1, 816(%r10)
	movq	-8(%r10), %r11
	movq	%r11, 832(%r10)
	movq	-8(%r10), %r11
	movq	%r11, 856(%r10)
	movups	-24(%r10), %xmm1
	movups	%xmm1, 840(%r10)
	movups	-24(%r10), %xmm1
	movups	%xmm1, 864(%r10)
	movq	-8(%r10), %r11
	movq	%r11, 880(%r10)
	movups	-24(%r10), %xmm1
	movups	%xmm1, 888(%r10)
	movq	-8(%r10), %r11
	movq	%r11, 904(%r10)
	movups	-24(%r10), %xmm1
	movups	%xmm1, 912(%r10)
	movq	-8(%r10), %r11
	movq	%r11, 928(%r10)
	movq	-8(%r10), %r11
	movq	%r11, 952(%r10)
	movups	-24(%r10), %xmm1
	movups	%xmm1, 936(%r10)
	movups	-24(%r10), %xmm1
	movups	%xmm1, 960(%r10)
	movq	-8(%r10), %r11
	movq	%r11, 976(%r10)
	movups	-24(%r10), %xmm1
	movups	%xmm1, 984(%r10)
	movq	-8(%r10), %r11
	movq	%r11, 1000(%r10)
	movups	-24(%r10), %xmm1
	movups	%xmm1, 1008(%r10)
	movq	-8(%r10), %r11
	movq	%r11, 1024(%r10)
	movq	-8(%r10), %r11
	movq	%r11, 1048(%r10)
	movups	-24(%r10), %xmm1
	movups	%xmm1, 1032(%r10)
	movups	-24(%r10), %xmm1
	movups	%xmm1, 1056(%r10)
	movq	-8(%r10), %r11
	movq	%r11, 1072(%r10)
	movups	-24(%r10), %xmm1
	movups	%xmm1, 1080(%r10)
	movq	-8(%r10), %r11
	movq	%r11, 1096(%r10)
	movups	-24(%r10), %xmm1
	movups	%xmm1, 1104(%r10)
	movq	-8(%r10), %r11
	movq	%r11, 1120(%r10)
	movq	-8(%r10), %r11
	movq	%r11, 1144(%r10)
	movups	-24(%r10), %xmm1
	movups	%xmm1, 1128(%r10)
	movups	-24(%r10), %xmm1
	movups	%xmm1, 1152(%r10)
	movq	-8(%r10), %r11
	movq	%r11, 1168(%r10)
	movups	-24(%r10), %xmm1
	movups	%xmm1, 1176(%r10)
	movq	-8(%r10), %r11
	movq	%r11, 1192(%r10)
	movups	-24(%r10), %xmm1
	movups	%xmm1, 1200(%r10)
	movq	-8(%r10), %r11
	movq	%r11, 1216(%r10)
	movq	-8(%r10), %r11
	movq	%r11, 1240(%r10)
	movups	-24(%r10), %xmm1
	movups	%xmm1, 1224(%r10)
	movups	-24(%r10), %xmm1
	movups	%xmm1, 1248(%r10)
	movq	-8(%r10), %r11
	movq	%r11, 1264(%r10)
	movups	-24(%r10), %xmm1
	movups	%xmm1, 1272(%r10)
	movq	-8(%r10), %r11
	movq	%r11, 1288(%r10)
	movups	-24(%r10), %xmm1
	movups	%xmm1, 1296(%r10)
	movq	-8(%r10), %r11
	movq	%r11, 1312(%r10)
	movq	-8(%r10), %r11
	movq	%r11, 1336(%r10)
	movups	-24(%r10), %xmm1
	movups	%xmm1, 1320(%r10)
	movups	-24(%r10), %xmm1
	movups	%xmm1, 1344(%r10)
	movq	-8(%r10), %r11
	movq	%r11, 1360(%r10)
	movups	-24(%r10), %xmm1
	movups	%xmm1, 1368(%r10)
	movq	-8(%r10), %r11
	movq	%r11, 1384(%r10)
	movups	-24(%r10), %xmm1
	movups	%xmm1, 1392(%r10)
	movq	-8(%r10), %r11
	movq	%r11, 1408(%r10)
	movq	-8(%r10), %r11
	movq	%r11, 1432(%r10)
	movups	-24(%r10), %xmm1
	movups	%xmm1, 1416(%r10)
	movups	-24(%r10), %xmm1
	movups	%xmm1, 1440(%r10)
	movq	-8(%r10), %r11
	movq	%r11, 1456(%r10)
	movups	-24(%r10), %xmm1
	movups	%xmm1, 1464(%r10)
	movq	-8(%r10), %r11
	movq	%r11, 1480(%r10)
	movups	-24(%r10), %xmm1
	movups	%xmm1, 1488(%r10)
	movq	-8(%r10), %r11
	movq	%r11, 1504(%r10)
	movq	-8(%r10), %r11
	movq	%r11, 1528(%r10)
	movups	-24(%r10), %xmm1
	movups	%xmm1, 1512(%r10)
	movups	-24(%r10), %xmm1
	movups	%xmm1, 1536(%r10)
	movq	-8(%r10), %r11
	movq	%r11, 1552(%r10)
	movups	-24(%r10), %xmm1
	movups	%xmm1, 1560(%r10)
	movq	-8(%r10), %r11
	movq	%r11, 1576(%r10)
	movups	-24(%r10), %xmm1
	movups	%xmm1, 1584(%r10)
	movq	-8(%r10), %r11
	movq	%r11, 1600(%r10)
	movq	-8(%r10), %r11
	movq	%r11, 1624(%r10)
	movups	-24(%r10), %xmm1
	movups	%xmm1, 1608(%r10)
	movups	-24(%r10), %xmm1
	movups	%xmm1, 1632(%r10)
	movq	-8(%r10), %r11
	movq	%r11, 1648(%r10)
	movups	-24(%r10), %xmm1
	movups	%xmm1, 1656(%r10)
	movq	-8(%r10), %r11
	movq	%r11, 1672(%r10)
	movups	-24(%r10), %xmm1
	movups	%xmm1, 1680(%r10)
	movq	-8(%r10), %r11
	movq	%r11, 1696(%r10)
	movq	-8(%r10), %r11
	movq	%r11, 1720(%r10)
	movups	-24(%r10), %xmm1
	movups	%xmm1, 1704(%r10)
	movups	-24(%r10), %xmm1
	movups	%xmm1, 1728(%r10)
	movq	-8(%r10), %r11
	movq	%r11, 1744(%r10)
	movups	-24(%r10), %xmm1
	movups	%xmm1, 1752(%r10)
	movq	-8(%r10), %r11
	movq	%r11, 1768(%r10)
	movups	-24(%r10), %xmm1
	movups	%xmm1, 1776(%r10)
	movq	-8(%r10), %r11
	movq	%r11, 1792(%r10)
	movq	-8(%r10), %r11
	movq	%r11, 1816(%r10)
	movups	-24(%r10), %xmm1
	movups	%xmm1, 1800(%r10)
	movups	-24(%r10), %xmm1
	movups	%xmm1, 1824(%r10)
	movq	-8(%r10), %r11
	movq	%r11, 1840(%r10)
	movups	-24(%r10), %xmm1
	movups	%xmm1, 1848(%r10)
	movq	-8(%r10), %r11
	movq	%r11, 1864(%r10)
	movups	-24(%r10), %xmm1
	movups	%xmm1, 1872(%r10)
	movq	-8(%r10), %r11
	movq	%r11, 1888(%r10)
	movq	-8(%r10), %r11
	movq	%r11, 1912(%r10)
	movups	-24(%r10), %xmm1
	movups	%xmm1, 1896(%r10)
	movups	-24(%r10), %xmm1
	movups	%xmm1, 1920(%r10)
	movq	-8(%r10), %r11
	movq	%r11, 1936(%r10)
	movups	-24(%r10), %xmm1
	movups	%xmm1, 1944(%r10)
	movq	-8(%r10), %r11
	movq	%r11, 1960(%r10)
	movups	-24(%r10), %xmm1
	movups	%xmm1, 1968(%r10)
	movq	-8(%r10), %r11
	movq	%r11, 1984(%r10)
	movq	-8(%r10), %r11
	movq	%r11, 2008(%r10)
	movups	-24(%r10), %xmm1
	movups	%xmm1, 1992(%r10)
	movups	-24(%r10), %xmm1
	movups	%xmm1, 2016(%r10)
	movq	-8(%r10), %r11
	movq	%r11, 2032(%r10)
4:
	leaq	85(%r8), %r11
	movq	%rdx, %r10
	subq	%r11, %r10
	addq	$2040, %r9
	cmpq	$85, %r10
	jbe	8f
5:
	movq	%r11, %r8
	testq	%r11, %r11
	je	3b
	movl	$2016, %r10d
	.p2align	4
6:
	movq	-8(%r9,%r10), %r11
	movq	%r11, 16(%r9,%r10)
	movups	-24(%r9,%r10), %xmm1
	movups	%xmm1, (%r9,%r10)
	testq	%r10, %r10
	je	4b
	movq	-32(%r9,%r10), %r11
	movq	%r11, -8(%r9,%r10)
	movups	-48(%r9,%r10), %xmm1
	movups	%xmm1, -24(%r9,%r10)
	addq	$-48, %r10
	jmp	6b
7:
	shlq	$3, %r10
	leaq	(%r10,%r10,2), %rcx
	movq	%rdx, %r10
	testq	%rdx, %rdx
	jne	14f
	jmp	19f
8:
	testq	%r11, %r11
	je	13f
	cmpq	%r11, %rdx
	je	19f
	leaq	(%rcx,%rcx,2), %rdx
	subq	%r8, %rcx
	addq	$-84, %rcx
	leaq	(%rax,%rdx,8), %rdx
	.p2align	4
9:
	movq	-8(%rdx), %r8
	movq	%r8, 16(%rdx)
	movups	-24(%rdx), %xmm1
	movups	%xmm1, (%rdx)
	addq	$-24, %rdx
	decq	%rcx
	jne	9b
	jmp	19f
10:
	movq	%rdx, %r10
	andq	$-2, %r10
	leaq	(%rcx,%rcx,2), %rcx
	leaq	(%rax,%rcx,8), %r11
	xorl	%ecx, %ecx
	.p2align	4
11:
	movq	-8(%r11), %rbx
	movq	%rbx, 16(%r11)
	movups	-24(%r11), %xmm1
	movups	%xmm1, (%r11)
	movabsq	$2305843009213693950, %rbx
	xorq	%rcx, %rbx
	addq	%rdx, %rbx
	shlq	$3, %rbx
	leaq	(%rbx,%rbx,2), %rbx
	movq	16(%r8,%rbx), %r14
	movq	%r14, 16(%r9,%rbx)
	movups	(%r8,%rbx), %xmm1
	movups	%xmm1, (%r9,%rbx)
	addq	$2, %rcx
	addq	$-48, %r11
	cmpq	%rcx, %r10
	jne	11b
	testb	$1, %dl
	je	19f
12:
	notq	%rcx
	addq	%rcx, %rdx
	shlq	$3, %rdx
	leaq	(%rdx,%rdx,2), %rcx
	movq	16(%r8,%rcx), %rdx
	movq	%rdx, 16(%r9,%rcx)
	movups	(%r8,%rcx), %xmm1
	movups	%xmm1, (%r9,%rcx)
	jmp	19f
13:
	shlq	$3, %r11
	leaq	(%r11,%r11,2), %rcx
	testq	%rdx, %rdx
	je	19f
14:
	leaq	-1(%r10), %r8
	movl	%r10d, %edx
	andl	$3, %edx
	cmpq	$3, %r8
	jae	15f
	xorl	%r8d, %r8d
	jmp	17f
15:
	andl	$124, %r10d
	leaq	(%rax,%rcx), %r9
	xorl	%r8d, %r8d
	.p2align	4
16:
	movq	-8(%r9), %r11
	movq	%r11, 16(%r9)
	movups	-24(%r9), %xmm1
	movups	%xmm1, (%r9)
	movups	%xmm1, 24(%r9)
	movq	%r11, 40(%r9)
	movups	%xmm1, 48(%r9)
	movq	%r11, 64(%r9)
	movups	%xmm1, 72(%r9)
	movq	%r11, 88(%r9)
	addq	$4, %r8
	addq	$96, %r9
	cmpq	%r8, %r10
	jne	16b
	testq	%rdx, %rdx
	je	19f
17:
	leaq	(%r8,%r8,2), %r8
	leaq	(%rcx,%r8,8), %rcx
	addq	%rax, %rcx
	shll	$3, %edx
	leaq	(%rdx,%rdx,2), %rdx
	xorl	%r8d, %r8d
	.p2align	4
18:
	movq	-8(%rcx,%r8), %r9
	movq	%r9, 16(%rcx,%r8)
	movups	-24(%rcx,%r8), %xmm1
	movups	%xmm1, (%rcx,%r8)
	addq	$24, %r8
	cmpq	%r8, %rdx
	jne	18b
19:
	leaq	(%rsi,%rsi,2), %rcx
	movq	-8(%rsp), %rdx
	movq	%rdx, 16(%rax,%rcx,8)
	movaps	-24(%rsp), %xmm1
	movups	%xmm1, (%rax,%rcx,8)
	movq	%rax, (%rdi)
	paddq	1b(%rip), %xmm0
	movdqu	%xmm0, 8(%rdi)
	popq	%rbx
	popq	%r14
	retq
20:
	.size	"std_alloc::vec::Vec::put_at::<#973b4a116d082bbd>", 20b-"std_alloc::vec::Vec::put_at::<#973b4a116d082bbd>"

	.text
	.p2align	4
	.type	"std_alloc::vec::Vec::remove::<#209ef5882a9a6cb3>",@function
"std_alloc::vec::Vec::remove::<#209ef5882a9a6cb3>":
	pushq	%r15
	pushq	%r14
	pushq	%rbx
	movq	(%rsi), %rax
	movq	8(%rsi), %r11
	movq	16(%rsi), %rcx
	xorps	%xmm0, %xmm0
	movups	%xmm0, 8(%rsi)
	movq	%rdx, %r9
	shlq	$5, %r9
	movups	(%rax,%r9), %xmm0
	movups	16(%rax,%r9), %xmm1
	movaps	%xmm1, -16(%rsp)
	movaps	%xmm0, -32(%rsp)
	leaq	-1(%r11), %r8
	movq	%r8, %r10
	subq	%rdx, %r10
	cmpq	$65, %r10
	jb	4f
	leaq	2048(%rax), %r14
	xorl	%ebx, %ebx
	.p2align	4
1:
	movups	-2016(%r14,%r9), %xmm0
	movups	-2000(%r14,%r9), %xmm1
	movups	-1984(%r14,%r9), %xmm2
	movups	-1968(%r14,%r9), %xmm3
	movups	%xmm1, -2032(%r14,%r9)
	movups	%xmm0, -2048(%r14,%r9)
	movups	%xmm2, -2016(%r14,%r9)
	movups	%xmm3, -2000(%r14,%r9)
	movups	-1952(%r14,%r9), %xmm0
	movups	%xmm0, -1984(%r14,%r9)
	movups	-1936(%r14,%r9), %xmm0
	movups	%xmm0, -1968(%r14,%r9)
	movups	-1920(%r14,%r9), %xmm0
	movups	%xmm0, -1952(%r14,%r9)
	movups	-1904(%r14,%r9), %xmm0
	movups	%xmm0, -1936(%r14,%r9)
	movups	-1872(%r14,%r9), %xmm0
	movups	%xmm0, -1904(%r14,%r9)
	movups	-1888(%r14,%r9), %xmm0
	movups	%xmm0, -1920(%r14,%r9)
	movups	-1856(%r14,%r9), %xmm0
	movups	-1840(%r14,%r9), %xmm1
	movups	%xmm1, -1872(%r14,%r9)
	movups	%xmm0, -1888(%r14,%r9)
	movups	-1824(%r14,%r9), %xmm0
	movups	-1808(%r14,%r9), %xmm1
	movups	%xmm1, -1840(%r14,%r9)
	movups	%xmm0, -1856(%r14,%r9)
	movups	-1792(%r14,%r9), %xmm0
	movups	-1776(%r14,%r9), %xmm1
	movups	%xmm1, -1808(%r14,%r9)
	movups	%xmm0, -1824(%r14,%r9)
	movups	-1760(%r14,%r9), %xmm0
	movups	-1744(%r14,%r9), %xmm1
	movups	%xmm1, -1776(%r14,%r9)
	movups	%xmm0, -1792(%r14,%r9)
	movups	-1728(%r14,%r9), %xmm0
	movups	-1712(%r14,%r9), %xmm1
	movups	%xmm1, -1744(%r14,%r9)
	movups	%xmm0, -1760(%r14,%r9)
	movups	-1696(%r14,%r9), %xmm0
	movups	-1680(%r14,%r9), %xmm1
	movups	%xmm1, -1712(%r14,%r9)
	movups	%xmm0, -1728(%r14,%r9)
	movups	-1664(%r14,%r9), %xmm0
	movups	-1648(%r14,%r9), %xmm1
	movups	%xmm1, -1680(%r14,%r9)
	movups	%xmm0, -1696(%r14,%r9)
	movups	-1632(%r14,%r9), %xmm0
	movups	-1616(%r14,%r9), %xmm1
	movups	%xmm1, -1648(%r14,%r9)
	movups	%xmm0, -1664(%r14,%r9)
	movups	-1600(%r14,%r9), %xmm0
	movups	-1584(%r14,%r9), %xmm1
	movups	%xmm1, -1616(%r14,%r9)
	movups	%xmm0, -1632(%r14,%r9)
	movups	-1568(%r14,%r9), %xmm0
	movups	-1552(%r14,%r9), %xmm1
	movups	%xmm1, -1584(%r14,%r9)
	movups	%xmm0, -1600(%r14,%r9)
	movups	-1536(%r14,%r9), %xmm0
	movups	-1520(%r14,%r9), %xmm1
	movups	%xmm1, -1552(%r14,%r9)
	movups	%xmm0, -1568(%r14,%r9)
	movups	-1504(%r14,%r9), %xmm0
	movups	-1488(%r14,%r9), %xmm1
	movups	%xmm1, -1520(%r14,%r9)
	movups	%xmm0, -1536(%r14,%r9)
	movups	-1472(%r14,%r9), %xmm0
	movups	-1456(%r14,%r9), %xmm1
	movups	%xmm1, -1488(%r14,%r9)
	movups	%xmm0, -1504(%r14,%r9)
	movups	-1440(%r14,%r9), %xmm0
	movups	-1424(%r14,%r9), %xmm1
	movups	%xmm1, -1456(%r14,%r9)
	movups	%xmm0, -1472(%r14,%r9)
	movups	-1408(%r14,%r9), %xmm0
	movups	-1392(%r14,%r9), %xmm1
	movups	%xmm1, -1424(%r14,%r9)
	movups	%xmm0, -1440(%r14,%r9)
	movups	-1376(%r14,%r9), %xmm0
	movups	-1360(%r14,%r9), %xmm1
	movups	%xmm1, -1392(%r14,%r9)
	movups	%xmm0, -1408(%r14,%r9)
	movups	-1344(%r14,%r9), %xmm0
	movups	-1328(%r14,%r9), %xmm1
	movups	%xmm1, -1360(%r14,%r9)
	movups	%xmm0, -1376(%r14,%r9)
	movups	-1312(%r14,%r9), %xmm0
	movups	-1296(%r14,%r9), %xmm1
	movups	%xmm1, -1328(%r14,%r9)
	movups	%xmm0, -1344(%r14,%r9)
	movups	-1280(%r14,%r9), %xmm0
	movups	-1264(%r14,%r9), %xmm1
	movups	%xmm1, -1296(%r14,%r9)
	movups	%xmm0, -1312(%r14,%r9)
	movups	-1248(%r14,%r9), %xmm0
	movups	-1232(%r14,%r9), %xmm1
	movups	%xmm1, -1264(%r14,%r9)
	movups	%xmm0, -1280(%r14,%r9)
	movups	-1216(%r14,%r9), %xmm0
	movups	-1200(%r14,%r9), %xmm1
	movups	%xmm1, -1232(%r14,%r9)
	movups	%xmm0, -1248(%r14,%r9)
	movups	-1184(%r14,%r9), %xmm0
	movups	-1168(%r14,%r9), %xmm1
	movups	%xmm1, -1200(%r14,%r9)
	movups	%xmm0, -1216(%r14,%r9)
	movups	-1152(%r14,%r9), %xmm0
	movups	-1136(%r14,%r9), %xmm1
	movups	%xmm1, -1168(%r14,%r9)
	movups	%xmm0, -1184(%r14,%r9)
	movups	-1120(%r14,%r9), %xmm0
	movups	-1104(%r14,%r9), %xmm1
	movups	%xmm1, -1136(%r14,%r9)
	movups	%xmm0, -1152(%r14,%r9)
	movups	-1088(%r14,%r9), %xmm0
	movups	-1072(%r14,%r9), %xmm1
	movups	%xmm1, -1104(%r14,%r9)
	movups	%xmm0, -1120(%r14,%r9)
	movups	-1056(%r14,%r9), %xmm0
	movups	-1040(%r14,%r9), %xmm1
	movups	%xmm1, -1072(%r14,%r9)
	movups	%xmm0, -1088(%r14,%r9)
	movups	-1024(%r14,%r9), %xmm0
	movups	-1008(%r14,%r9), %xmm1
	movups	%xmm1, -1040(%r14,%r9)
	movups	%xmm0, -1056(%r14,%r9)
	movups	-992(%r14,%r9), %xmm0
	movups	-976(%r14,%r9), %xmm1
	movups	%xmm1, -1008(%r14,%r9)
	movups	%xmm0, -1024(%r14,%r9)
	movups	-960(%r14,%r9), %xmm0
	movups	-944(%r14,%r9), %xmm1
	movups	%xmm1, -976(%r14,%r9)
	movups	%xmm0, -992(%r14,%r9)
	movups	-928(%r14,%r9), %xmm0
	movups	-912(%r14,%r9), %xmm1
	movups	%xmm1, -944(%r14,%r9)
	movups	%xmm0, -960(%r14,%r9)
	movups	-896(%r14,%r9), %xmm0
	movups	-880(%r14,%r9), %xmm1
	movups	%xmm1, -912(%r14,%r9)
	movups	%xmm0, -928(%r14,%r9)
	movups	-864(%r14,%r9), %xmm0
	movups	-848(%r14,%r9), %xmm1
	movups	%xmm1, -880(%r14,%r9)
	movups	%xmm0, -896(%r14,%r9)
	movups	-832(%r14,%r9), %xmm0
	movups	-816(%r14,%r9), %xmm1
	movups	%xmm1, -848(%r14,%r9)
	movups	%xmm0, -864(%r14,%r9)
	movups	-800(%r14,%r9), %xmm0
	movups	-784(%r14,%r9), %xmm1
	movups	%xmm1, -816(%r14,%r9)
	movups	%xmm0, -832(%r14,%r9)
	movups	-768(%r14,%r9), %xmm0
	movups	-752(%r14,%r9), %xmm1
	movups	%xmm1, -784(%r14,%r9)
	movups	%xmm0, -800(%r14,%r9)
	movups	-736(%r14,%r9), %xmm0
	movups	-720(%r14,%r9), %xmm1
	movups	%xmm1, -752(%r14,%r9)
	movups	%xmm0, -768(%r14,%r9)
	movups	-704(%r14,%r9), %xmm0
	movups	-688(%r14,%r9), %xmm1
	movups	%xmm1, -720(%r14,%r9)
	movups	%xmm0, -736(%r14,%r9)
	movups	-672(%r14,%r9), %xmm0
	movups	-656(%r14,%r9), %xmm1
	movups	%xmm1, -688(%r14,%r9)
	movups	%xmm0, -704(%r14,%r9)
	movups	-640(%r14,%r9), %xmm0
	movups	-624(%r14,%r9), %xmm1
	movups	%xmm1, -656(%r14,%r9)
	movups	%xmm0, -672(%r14,%r9)
	movups	-608(%r14,%r9), %xmm0
	movups	-592(%r14,%r9), %xmm1
	movups	%xmm1, -624(%r14,%r9)
	movups	%xmm0, -640(%r14,%r9)
	movups	-576(%r14,%r9), %xmm0
	movups	-560(%r14,%r9), %xmm1
	movups	%xmm1, -592(%r14,%r9)
	movups	%xmm0, -608(%r14,%r9)
	movups	-544(%r14,%r9), %xmm0
	movups	-528(%r14,%r9), %xmm1
	movups	%xmm1, -560(%r14,%r9)
	movups	%xmm0, -576(%r14,%r9)
	movups	-512(%r14,%r9), %xmm0
	movups	-496(%r14,%r9), %xmm1
	movups	%xmm1, -528(%r14,%r9)
	movups	%xmm0, -544(%r14,%r9)
	movups	-480(%r14,%r9), %xmm0
	movups	-464(%r14,%r9), %xmm1
	movups	%xmm1, -496(%r14,%r9)
	movups	%xmm0, -512(%r14,%r9)
	movups	-448(%r14,%r9), %xmm0
	movups	-432(%r14,%r9), %xmm1
	movups	%xmm1, -464(%r14,%r9)
	movups	%xmm0, -480(%r14,%r9)
	movups	-416(%r14,%r9), %xmm0
	movups	-400(%r14,%r9), %xmm1
	movups	%xmm1, -432(%r14,%r9)
	movups	%xmm0, -448(%r14,%r9)
	movups	-384(%r14,%r9), %xmm0
	movups	-368(%r14,%r9), %xmm1
	movups	%xmm1, -400(%r14,%r9)
	movups	%xmm0, -416(%r14,%r9)
	movups	-352(%r14,%r9), %xmm0
	movups	-336(%r14,%r9), %xmm1
	movups	%xmm1, -368(%r14,%r9)
	movups	%xmm0, -384(%r14,%r9)
	movups	-320(%r14,%r9), %xmm0
	movups	-304(%r14,%r9), %xmm1
	movups	%xmm1, -336(%r14,%r9)
	movups	%xmm0, -352(%r14,%r9)
	movups	-288(%r14,%r9), %xmm0
	movups	-272(%r14,%r9), %xmm1
	movups	%xmm1, -304(%r14,%r9)
	movups	%xmm0, -320(%r14,%r9)
	movups	-256(%r14,%r9), %xmm0
	movups	-240(%r14,%r9), %xmm1
	movups	%xmm1, -272(%r14,%r9)
	movups	%xmm0, -288(%r14,%r9)
	movups	-224(%r14,%r9), %xmm0
	movups	-208(%r14,%r9), %xmm1
	movups	%xmm1, -240(%r14,%r9)
	movups	%xmm0, -256(%r14,%r9)
	movups	-192(%r14,%r9), %xmm0
	movups	-176(%r14,%r9), %xmm1
	movups	%xmm1, -208(%r14,%r9)
	movups	%xmm0, -224(%r14,%r9)
	movups	-160(%r14,%r9), %xmm0
	movups	-144(%r14,%r9), %xmm1
	movups	%xmm1, -176(%r14,%r9)
	movups	%xmm0, -192(%r14,%r9)
	movups	-128(%r14,%r9), %xmm0
	movups	-112(%r14,%r9), %xmm1
	movups	%xmm1, -144(%r14,%r9)
	movups	%xmm0, -160(%r14,%r9)
	movups	-96(%r14,%r9), %xmm0
	movups	-80(%r14,%r9), %xmm1
	movups	%xmm1, -112(%r14,%r9)
	movups	%xmm0, -128(%r14,%r9)
	movups	-64(%r14,%r9), %xmm0
	movups	-48(%r14,%r9), %xmm1
	movups	%xmm1, -80(%r14,%r9)
	movups	%xmm0, -96(%r14,%r9)
	movups	-32(%r14,%r9), %xmm0
	movups	-16(%r14,%r9), %xmm1
	movups	%xmm1, -48(%r14,%r9)
	movups	%xmm0, -64(%r14,%r9)
	movups	(%r14,%r9), %xmm0
	movups	16(%r14,%r9), %xmm1
	movups	%xmm1, -16(%r14,%r9)
	movups	%xmm0, -32(%r14,%r9)
	addq	$2048, %r9
	leaq	(%r10,%rbx), %r15
	addq	$-64, %r15
	addq	$-64, %rbx
	cmpq	$64, %r15
	ja	1b
	leaq	1(%rdx), %r14
	subq	%rbx, %rdx
	cmpq	%rbx, %r14
	jne	3f
	testq	%r11, %r11
	je	9f
	addq	$-64, %rdx
	leaq	-65(%r11), %r9
	shlq	$5, %r11
	leaq	(%r11,%rax), %r10
	addq	$-32, %r10
	.p2align	4
2:
	movups	(%r10), %xmm0
	movups	16(%r10), %xmm1
	movups	%xmm1, -16(%r10)
	movups	%xmm0, -32(%r10)
	addq	$-32, %r10
	decq	%r9
	cmpq	%r9, %rdx
	jne	2b
	jmp	9f
3:
	addq	%rbx, %r10
4:
	cmpq	%rdx, %r8
	je	9f
	leaq	-1(%r10), %r11
	movl	%r10d, %edx
	andl	$3, %edx
	cmpq	$3, %r11
	jae	5f
	xorl	%r11d, %r11d
	jmp	7f
5:
	andl	$124, %r10d
	leaq	(%r9,%rax), %rbx
	addq	$128, %rbx
	xorl	%r11d, %r11d
	.p2align	4
6:
	movups	-96(%rbx), %xmm0
	movups	-80(%rbx), %xmm1
	movups	-64(%rbx), %xmm2
	movups	-48(%rbx), %xmm3
	movups	%xmm1, -112(%rbx)
	movups	%xmm0, -128(%rbx)
	movups	%xmm2, -96(%rbx)
	movups	%xmm3, -80(%rbx)
	movups	-32(%rbx), %xmm0
	movups	%xmm0, -64(%rbx)
	movups	-16(%rbx), %xmm0
	movups	%xmm0, -48(%rbx)
	movups	(%rbx), %xmm0
	movups	%xmm0, -32(%rbx)
	movups	16(%rbx), %xmm0
	movups	%xmm0, -16(%rbx)
	addq	$4, %r11
	subq	$-128, %rbx
	cmpq	%r11, %r10
	jne	6b
	testq	%rdx, %rdx
	je	9f
7:
	shlq	$5, %r11
	addq	%r11, %r9
	addq	%rax, %r9
	addq	$32, %r9
	shll	$5, %edx
	xorl	%r10d, %r10d
	.p2align	4
8:
	movups	(%r9,%r10), %xmm0
	movups	16(%r9,%r10), %xmm1
	movups	%xmm1, -16(%r9,%r10)
	movups	%xmm0, -32(%r9,%r10)
	addq	$32, %r10
	cmpq	%r10, %rdx
	jne	8b
9:
	movq	%rax, (%rsi)
	movq	%r8, 8(%rsi)
	movq	%rcx, 16(%rsi)
	movaps	-32(%rsp), %xmm0
	movaps	-16(%rsp), %xmm1
	movups	%xmm1, 16(%rdi)
	movups	%xmm0, (%rdi)
	popq	%rbx
	popq	%r14
	popq	%r15
	retq
10:
	.size	"std_alloc::vec::Vec::remove::<#209ef5882a9a6cb3>", 10b-"std_alloc::vec::Vec::remove::<#209ef5882a9a6cb3>"

	.text
	.p2align	4
	.type	"std_alloc::vec::Vec::remove::<#21647806b46d5bf1>",@function
"std_alloc::vec::Vec::remove::<#21647806b46d5bf1>":
	pushq	%r14
	pushq	%rbx
	movq	(%rsi), %rax
	movq	8(%rsi), %r11
	movq	16(%rsi), %rcx
	xorps	%xmm0, %xmm0
	movups	%xmm0, 8(%rsi)
	leaq	(,%rdx,8), %r8
	leaq	(%r8,%r8,4), %r9
	movq	32(%rax,%r9), %r8
	movq	%r8, -8(%rsp)
	movups	(%rax,%r9), %xmm0
	movups	16(%rax,%r9), %xmm1
	movaps	%xmm1, -24(%rsp)
	movaps	%xmm0, -40(%rsp)
	leaq	-1(%r11), %r8
	movq	%r8, %r10
	subq	%rdx, %r10
	cmpq	$52, %r10
	jb	4f
	xorl	%ebx, %ebx
	.p2align	4
1:
	movq	72(%rax,%r9), %r14
	movq	%r14, 32(%rax,%r9)
	movups	40(%rax,%r9), %xmm0
	movups	56(%rax,%r9), %xmm1
	movups	%xmm1, 16(%rax,%r9)
	movups	%xmm0, (%rax,%r9)
	movups	80(%rax,%r9), %xmm0
	movups	%xmm0, 40(%rax,%r9)
	movups	96(%rax,%r9), %xmm0
	movups	%xmm0, 56(%rax,%r9)
	movq	112(%rax,%r9), %r14
	movq	%r14, 72(%rax,%r9)
	movups	120(%rax,%r9), %xmm0
	movups	%xmm0, 80(%rax,%r9)
	movups	136(%rax,%r9), %xmm0
	movups	%xmm0, 96(%rax,%r9)
	movq	152(%rax,%r9), %r14
	movq	%r14, 112(%rax,%r9)
	movq	192(%rax,%r9), %r14
	movq	%r14, 152(%rax,%r9)
	movups	160(%rax,%r9), %xmm0
	movups	176(%rax,%r9), %xmm1
	movups	%xmm1, 136(%rax,%r9)
	movups	%xmm0, 120(%rax,%r9)
	movq	232(%rax,%r9), %r14
	movq	%r14, 192(%rax,%r9)
	movups	200(%rax,%r9), %xmm0
	movups	216(%rax,%r9), %xmm1
	movups	%xmm1, 176(%rax,%r9)
	movups	%xmm0, 160(%rax,%r9)
	movq	272(%rax,%r9), %r14
	movq	%r14, 232(%rax,%r9)
	movups	240(%rax,%r9), %xmm0
	movups	256(%rax,%r9), %xmm1
	movups	%xmm1, 216(%rax,%r9)
	movups	%xmm0, 200(%rax,%r9)
	movq	312(%rax,%r9), %r14
	movq	%r14, 272(%rax,%r9)
	movups	280(%rax,%r9), %xmm0
	movups	296(%rax,%r9), %xmm1
	movups	%xmm1, 256(%rax,%r9)
	movups	%xmm0, 240(%rax,%r9)
	movq	352(%rax,%r9), %r14
	movq	%r14, 312(%rax,%r9)
	movups	320(%rax,%r9), %xmm0
	movups	336(%rax,%r9), %xmm1
	movups	%xmm1, 296(%rax,%r9)
	movups	%xmm0, 280(%rax,%r9)
	movq	392(%rax,%r9), %r14
	movq	%r14, 352(%rax,%r9)
	movups	360(%rax,%r9), %xmm0
	movups	376(%rax,%r9), %xmm1
	movups	%xmm1, 336(%rax,%r9)
	movups	%xmm0, 320(%rax,%r9)
	movq	432(%rax,%r9), %r14
	movq	%r14, 392(%rax,%r9)
	movups	400(%rax,%r9), %xmm0
	movups	416(%rax,%r9), %xmm1
	movups	%xmm1, 376(%rax,%r9)
	movups	%xmm0, 360(%rax,%r9)
	movq	472(%rax,%r9), %r14
	movq	%r14, 432(%rax,%r9)
	movups	440(%rax,%r9), %xmm0
	movups	456(%rax,%r9), %xmm1
	movups	%xmm1, 416(%rax,%r9)
	movups	%xmm0, 400(%rax,%r9)
	movq	512(%rax,%r9), %r14
	movq	%r14, 472(%rax,%r9)
	movups	480(%rax,%r9), %xmm0
	movups	496(%rax,%r9), %xmm1
	movups	%xmm1, 456(%rax,%r9)
	movups	%xmm0, 440(%rax,%r9)
	movq	552(%rax,%r9), %r14
	movq	%r14, 512(%rax,%r9)
	movups	520(%rax,%r9), %xmm0
	movups	536(%rax,%r9), %xmm1
	movups	%xmm1, 496(%rax,%r9)
	movups	%xmm0, 480(%rax,%r9)
	movq	592(%rax,%r9), %r14
	movq	%r14, 552(%rax,%r9)
	movups	560(%rax,%r9), %xmm0
	movups	576(%rax,%r9), %xmm1
	movups	%xmm1, 536(%rax,%r9)
	movups	%xmm0, 520(%rax,%r9)
	movq	632(%rax,%r9), %r14
	movq	%r14, 592(%rax,%r9)
	movups	600(%rax,%r9), %xmm0
	movups	616(%rax,%r9), %xmm1
	movups	%xmm1, 576(%rax,%r9)
	movups	%xmm0, 560(%rax,%r9)
	movq	672(%rax,%r9), %r14
	movq	%r14, 632(%rax,%r9)
	movups	640(%rax,%r9), %xmm0
	movups	656(%rax,%r9), %xmm1
	movups	%xmm1, 616(%rax,%r9)
	movups	%xmm0, 600(%rax,%r9)
	movq	712(%rax,%r9), %r14
	movq	%r14, 672(%rax,%r9)
	movups	680(%rax,%r9), %xmm0
	movups	696(%rax,%r9), %xmm1
	movups	%xmm1, 656(%rax,%r9)
	movups	%xmm0, 640(%rax,%r9)
	movq	752(%rax,%r9), %r14
	movq	%r14, 712(%rax,%r9)
	movups	720(%rax,%r9), %xmm0
	movups	736(%rax,%r9), %xmm1
	movups	%xmm1, 696(%rax,%r9)
	movups	%xmm0, 680(%rax,%r9)
	movq	792(%rax,%r9), %r14
	movq	%r14, 752(%rax,%r9)
	movups	760(%rax,%r9), %xmm0
	movups	776(%rax,%r9), %xmm1
	movups	%xmm1, 736(%rax,%r9)
	movups	%xmm0, 720(%rax,%r9)
	movq	832(%rax,%r9), %r14
	movq	%r14, 792(%rax,%r9)
	movups	800(%rax,%r9), %xmm0
	movups	816(%rax,%r9), %xmm1
	movups	%xmm1, 776(%rax,%r9)
	movups	%xmm0, 760(%rax,%r9)
	movq	872(%rax,%r9), %r14
	movq	%r14, 832(%rax,%r9)
	movups	840(%rax,%r9), %xmm0
	movups	856(%rax,%r9), %xmm1
	movups	%xmm1, 816(%rax,%r9)
	movups	%xmm0, 800(%rax,%r9)
	movq	912(%rax,%r9), %r14
	movq	%r14, 872(%rax,%r9)
	movups	880(%rax,%r9), %xmm0
	movups	896(%rax,%r9), %xmm1
	movups	%xmm1, 856(%rax,%r9)
	movups	%xmm0, 840(%rax,%r9)
	movq	952(%rax,%r9), %r14
	movq	%r14, 912(%rax,%r9)
	movups	920(%rax,%r9), %xmm0
	movups	936(%rax,%r9), %xmm1
	movups	%xmm1, 896(%rax,%r9)
	movups	%xmm0, 880(%rax,%r9)
	movq	992(%rax,%r9), %r14
	movq	%r14, 952(%rax,%r9)
	movups	960(%rax,%r9), %xmm0
	movups	976(%rax,%r9), %xmm1
	movups	%xmm1, 936(%rax,%r9)
	movups	%xmm0, 920(%rax,%r9)
	movq	1032(%rax,%r9), %r14
	movq	%r14, 992(%rax,%r9)
	movups	1000(%rax,%r9), %xmm0
	movups	1016(%rax,%r9), %xmm1
	movups	%xmm1, 976(%rax,%r9)
	movups	%xmm0, 960(%rax,%r9)
	movq	1072(%rax,%r9), %r14
	movq	%r14, 1032(%rax,%r9)
	movups	1040(%rax,%r9), %xmm0
	movups	1056(%rax,%r9), %xmm1
	movups	%xmm1, 1016(%rax,%r9)
	movups	%xmm0, 1000(%rax,%r9)
	movq	1112(%rax,%r9), %r14
	movq	%r14, 1072(%rax,%r9)
	movups	1080(%rax,%r9), %xmm0
	movups	1096(%rax,%r9), %xmm1
	movups	%xmm1, 1056(%rax,%r9)
	movups	%xmm0, 1040(%rax,%r9)
	movq	1152(%rax,%r9), %r14
	movq	%r14, 1112(%rax,%r9)
	movups	1120(%rax,%r9), %xmm0
	movups	1136(%rax,%r9), %xmm1
	movups	%xmm1, 1096(%rax,%r9)
	movups	%xmm0, 1080(%rax,%r9)
	movq	1192(%rax,%r9), %r14
	movq	%r14, 1152(%rax,%r9)
	movups	1160(%rax,%r9), %xmm0
	movups	1176(%rax,%r9), %xmm1
	movups	%xmm1, 1136(%rax,%r9)
	movups	%xmm0, 1120(%rax,%r9)
	movq	1232(%rax,%r9), %r14
	movq	%r14, 1192(%rax,%r9)
	movups	1200(%rax,%r9), %xmm0
	movups	1216(%rax,%r9), %xmm1
	movups	%xmm1, 1176(%rax,%r9)
	movups	%xmm0, 1160(%rax,%r9)
	movq	1272(%rax,%r9), %r14
	movq	%r14, 1232(%rax,%r9)
	movups	1240(%rax,%r9), %xmm0
	movups	1256(%rax,%r9), %xmm1
	movups	%xmm1, 1216(%rax,%r9)
	movups	%xmm0, 1200(%rax,%r9)
	movq	1312(%rax,%r9), %r14
	movq	%r14, 1272(%rax,%r9)
	movups	1280(%rax,%r9), %xmm0
	movups	1296(%rax,%r9), %xmm1
	movups	%xmm1, 1256(%rax,%r9)
	movups	%xmm0, 1240(%rax,%r9)
	movq	1352(%rax,%r9), %r14
	movq	%r14, 1312(%rax,%r9)
	movups	1320(%rax,%r9), %xmm0
	movups	1336(%rax,%r9), %xmm1
	movups	%xmm1, 1296(%rax,%r9)
	movups	%xmm0, 1280(%rax,%r9)
	movq	1392(%rax,%r9), %r14
	movq	%r14, 1352(%rax,%r9)
	movups	1360(%rax,%r9), %xmm0
	movups	1376(%rax,%r9), %xmm1
	movups	%xmm1, 1336(%rax,%r9)
	movups	%xmm0, 1320(%rax,%r9)
	movq	1432(%rax,%r9), %r14
	movq	%r14, 1392(%rax,%r9)
	movups	1400(%rax,%r9), %xmm0
	movups	1416(%rax,%r9), %xmm1
	movups	%xmm1, 1376(%rax,%r9)
	movups	%xmm0, 1360(%rax,%r9)
	movq	1472(%rax,%r9), %r14
	movq	%r14, 1432(%rax,%r9)
	movups	1440(%rax,%r9), %xmm0
	movups	1456(%rax,%r9), %xmm1
	movups	%xmm1, 1416(%rax,%r9)
	movups	%xmm0, 1400(%rax,%r9)
	movq	1512(%rax,%r9), %r14
	movq	%r14, 1472(%rax,%r9)
	movups	1480(%rax,%r9), %xmm0
	movups	1496(%rax,%r9), %xmm1
	movups	%xmm1, 1456(%rax,%r9)
	movups	%xmm0, 1440(%rax,%r9)
	movq	1552(%rax,%r9), %r14
	movq	%r14, 1512(%rax,%r9)
	movups	1520(%rax,%r9), %xmm0
	movups	1536(%rax,%r9), %xmm1
	movups	%xmm1, 1496(%rax,%r9)
	movups	%xmm0, 1480(%rax,%r9)
	movq	1592(%rax,%r9), %r14
	movq	%r14, 1552(%rax,%r9)
	movups	1560(%rax,%r9), %xmm0
	movups	1576(%rax,%r9), %xmm1
	movups	%xmm1, 1536(%rax,%r9)
	movups	%xmm0, 1520(%rax,%r9)
	movq	1632(%rax,%r9), %r14
	movq	%r14, 1592(%rax,%r9)
	movups	1600(%rax,%r9), %xmm0
	movups	1616(%rax,%r9), %xmm1
	movups	%xmm1, 1576(%rax,%r9)
	movups	%xmm0, 1560(%rax,%r9)
	movq	1672(%rax,%r9), %r14
	movq	%r14, 1632(%rax,%r9)
	movups	1640(%rax,%r9), %xmm0
	movups	1656(%rax,%r9), %xmm1
	movups	%xmm1, 1616(%rax,%r9)
	movups	%xmm0, 1600(%rax,%r9)
	movq	1712(%rax,%r9), %r14
	movq	%r14, 1672(%rax,%r9)
	movups	1680(%rax,%r9), %xmm0
	movups	1696(%rax,%r9), %xmm1
	movups	%xmm1, 1656(%rax,%r9)
	movups	%xmm0, 1640(%rax,%r9)
	movq	1752(%rax,%r9), %r14
	movq	%r14, 1712(%rax,%r9)
	movups	1720(%rax,%r9), %xmm0
	movups	1736(%rax,%r9), %xmm1
	movups	%xmm1, 1696(%rax,%r9)
	movups	%xmm0, 1680(%rax,%r9)
	movq	1792(%rax,%r9), %r14
	movq	%r14, 1752(%rax,%r9)
	movups	1760(%rax,%r9), %xmm0
	movups	1776(%rax,%r9), %xmm1
	movups	%xmm1, 1736(%rax,%r9)
	movups	%xmm0, 1720(%rax,%r9)
	movq	1832(%rax,%r9), %r14
	movq	%r14, 1792(%rax,%r9)
	movups	1800(%rax,%r9), %xmm0
	movups	1816(%rax,%r9), %xmm1
	movups	%xmm1, 1776(%rax,%r9)
	movups	%xmm0, 1760(%rax,%r9)
	movq	1872(%rax,%r9), %r14
	movq	%r14, 1832(%rax,%r9)
	movups	1840(%rax,%r9), %xmm0
	movups	1856(%rax,%r9), %xmm1
	movups	%xmm1, 1816(%rax,%r9)
	movups	%xmm0, 1800(%rax,%r9)
	movq	1912(%rax,%r9), %r14
	movq	%r14, 1872(%rax,%r9)
	movups	1880(%rax,%r9), %xmm0
	movups	1896(%rax,%r9), %xmm1
	movups	%xmm1, 1856(%rax,%r9)
	movups	%xmm0, 1840(%rax,%r9)
	movq	1952(%rax,%r9), %r14
	movq	%r14, 1912(%rax,%r9)
	movups	1920(%rax,%r9), %xmm0
	movups	1936(%rax,%r9), %xmm1
	movups	%xmm1, 1896(%rax,%r9)
	movups	%xmm0, 1880(%rax,%r9)
	movq	1992(%rax,%r9), %r14
	movq	%r14, 1952(%rax,%r9)
	movups	1960(%rax,%r9), %xmm0
	movups	1976(%rax,%r9), %xmm1
	movups	%xmm1, 1936(%rax,%r9)
	movups	%xmm0, 1920(%rax,%r9)
	movq	2032(%rax,%r9), %r14
	movq	%r14, 1992(%rax,%r9)
	movups	2000(%rax,%r9), %xmm0
	movups	2016(%rax,%r9), %xmm1
	movups	%xmm1, 1976(%rax,%r9)
	movups	%xmm0, 1960(%rax,%r9)
	movq	2072(%rax,%r9), %r14
	movq	%r14, 2032(%rax,%r9)
	movups	2040(%rax,%r9), %xmm0
	movups	2056(%rax,%r9), %xmm1
	movups	%xmm1, 2016(%rax,%r9)
	movups	%xmm0, 2000(%rax,%r9)
	addq	$2040, %r9
	leaq	(%r10,%rbx), %r14
	addq	$-51, %r14
	addq	$-51, %rbx
	cmpq	$51, %r14
	ja	1b
	leaq	1(%rdx), %r14
	subq	%rbx, %rdx
	cmpq	%rbx, %r14
	jne	3f
	testq	%r11, %r11
	je	9f
	addq	$-51, %rdx
	leaq	(%r11,%r11,4), %r9
	addq	$-52, %r11
	leaq	(%rax,%r9,8), %r9
	addq	$-40, %r9
	.p2align	4
2:
	movq	32(%r9), %r10
	movq	%r10, -8(%r9)
	movups	(%r9), %xmm0
	movups	16(%r9), %xmm1
	movups	%xmm1, -24(%r9)
	movups	%xmm0, -40(%r9)
	addq	$-40, %r9
	decq	%r11
	cmpq	%r11, %rdx
	jne	2b
	jmp	9f
3:
	addq	%rbx, %r10
4:
	cmpq	%rdx, %r8
	je	9f
	leaq	-1(%r10), %r11
	movl	%r10d, %edx
	andl	$3, %edx
	cmpq	$3, %r11
	jae	5f
	xorl	%r11d, %r11d
	jmp	7f
5:
	andl	$60, %r10d
	leaq	(%rax,%r9), %rbx
	xorl	%r11d, %r11d
	.p2align	4
6:
	movq	72(%rbx), %r14
	movq	%r14, 32(%rbx)
	movups	40(%rbx), %xmm0
	movups	56(%rbx), %xmm1
	movups	%xmm1, 16(%rbx)
	movups	%xmm0, (%rbx)
	movups	80(%rbx), %xmm0
	movups	%xmm0, 40(%rbx)
	movups	96(%rbx), %xmm0
	movups	%xmm0, 56(%rbx)
	movq	112(%rbx), %r14
	movq	%r14, 72(%rbx)
	movups	120(%rbx), %xmm0
	movups	%xmm0, 80(%rbx)
	movups	136(%rbx), %xmm0
	movups	%xmm0, 96(%rbx)
	movq	152(%rbx), %r14
	movq	%r14, 112(%rbx)
	movq	192(%rbx), %r14
	movq	%r14, 152(%rbx)
	movups	160(%rbx), %xmm0
	movups	176(%rbx), %xmm1
	movups	%xmm1, 136(%rbx)
	movups	%xmm0, 120(%rbx)
	addq	$160, %rbx
	addq	$4, %r11
	cmpq	%r11, %r10
	jne	6b
	testq	%rdx, %rdx
	je	9f
7:
	leaq	(%r11,%r11,4), %r10
	leaq	(%r9,%r10,8), %r9
	addq	%rax, %r9
	shll	$3, %edx
	leaq	(%rdx,%rdx,4), %rdx
	xorl	%r10d, %r10d
	.p2align	4
8:
	movq	72(%r9,%r10), %r11
	movq	%r11, 32(%r9,%r10)
	movups	40(%r9,%r10), %xmm0
	movups	56(%r9,%r10), %xmm1
	movups	%xmm1, 16(%r9,%r10)
	movups	%xmm0, (%r9,%r10)
	addq	$40, %r10
	cmpq	%r10, %rdx
	jne	8b
9:
	movq	%rax, (%rsi)
	movq	%r8, 8(%rsi)
	movq	%rcx, 16(%rsi)
	movq	-8(%rsp), %rax
	movq	%rax, 32(%rdi)
	movaps	-40(%rsp), %xmm0
	movaps	-24(%rsp), %xmm1
	movups	%xmm1, 16(%rdi)
	movups	%xmm0, (%rdi)
	popq	%rbx
	popq	%r14
	retq
10:
	.size	"std_alloc::vec::Vec::remove::<#21647806b46d5bf1>", 10b-"std_alloc::vec::Vec::remove::<#21647806b46d5bf1>"

	.text
	.p2align	4
	.type	"std_alloc::vec::Vec::remove::<#c1573421a60ec32d>",@function
"std_alloc::vec::Vec::remove::<#c1573421a60ec32d>":
	pushq	%r14
	pushq	%rbx
	movq	(%rsi), %rax
	movq	8(%rsi), %r11
	movq	16(%rsi), %rcx
	xorps	%xmm0, %xmm0
	movups	%xmm0, 8(%rsi)
	leaq	(,%rdx,8), %r8
	leaq	(%r8,%r8,2), %r9
	movq	16(%rax,%r9), %r8
	movq	%r8, -8(%rsp)
	movups	(%rax,%r9), %xmm0
	movaps	%xmm0, -24(%rsp)
	leaq	-1(%r11), %r8
	movq	%r8, %r10
	subq	%rdx, %r10
	cmpq	$86, %r10
	jb	4f
	xorl	%ebx, %ebx
	.p2align	4
1:
	movq	40(%rax,%r9), %r14
	movq	%r14, 16(%rax,%r9)
	movups	24(%rax,%r9), %xmm0
	movups	%xmm0, (%rax,%r9)
	movups	48(%rax,%r9), %xmm0
	movups	%xmm0, 24(%rax,%r9)
	movq	64(%rax,%r9), %r14
	movq	%r14, 40(%rax,%r9)
	movups	72(%rax,%r9), %xmm0
	movups	%xmm0, 48(%rax,%r9)
	movq	88(%rax,%r9), %r14
	movq	%r14, 64(%rax,%r9)
	movups	96(%rax,%r9), %xmm0
	movups	%xmm0, 72(%rax,%r9)
	movq	112(%rax,%r9), %r14
	movq	%r14, 88(%rax,%r9)
	movq	136(%rax,%r9), %r14
	movq	%r14, 112(%rax,%r9)
	movups	120(%rax,%r9), %xmm0
	movups	%xmm0, 96(%rax,%r9)
	movq	160(%rax,%r9), %r14
	movq	%r14, 136(%rax,%r9)
	movups	144(%rax,%r9), %xmm0
	movups	%xmm0, 120(%rax,%r9)
	movq	184(%rax,%r9), %r14
	movq	%r14, 160(%rax,%r9)
	movups	168(%rax,%r9), %xmm0
	movups	%xmm0, 144(%rax,%r9)
	movq	208(%rax,%r9), %r14
	movq	%r14, 184(%rax,%r9)
	movups	192(%rax,%r9), %xmm0
	movups	%xmm0, 168(%rax,%r9)
	movq	232(%rax,%r9), %r14
	movq	%r14, 208(%rax,%r9)
	movups	216(%rax,%r9), %xmm0
	movups	%xmm0, 192(%rax,%r9)
	movq	256(%rax,%r9), %r14
	movq	%r14, 232(%rax,%r9)
	movups	240(%rax,%r9), %xmm0
	movups	%xmm0, 216(%rax,%r9)
	movq	280(%rax,%r9), %r14
	movq	%r14, 256(%rax,%r9)
	movups	264(%rax,%r9), %xmm0
	movups	%xmm0, 240(%rax,%r9)
	movq	304(%rax,%r9), %r14
	movq	%r14, 280(%rax,%r9)
	movups	288(%rax,%r9), %xmm0
	movups	%xmm0, 264(%rax,%r9)
	movq	328(%rax,%r9), %r14
	movq	%r14, 304(%rax,%r9)
	movups	312(%rax,%r9), %xmm0
	movups	%xmm0, 288(%rax,%r9)
	movq	352(%rax,%r9), %r14
	movq	%r14, 328(%rax,%r9)
	movups	336(%rax,%r9), %xmm0
	movups	%xmm0, 312(%rax,%r9)
	movq	376(%rax,%r9), %r14
	movq	%r14, 352(%rax,%r9)
	movups	360(%rax,%r9), %xmm0
	movups	%xmm0, 336(%rax,%r9)
	movq	400(%rax,%r9), %r14
	movq	%r14, 376(%rax,%r9)
	movups	384(%rax,%r9), %xmm0
	movups	%xmm0, 360(%rax,%r9)
	movq	424(%rax,%r9), %r14
	movq	%r14, 400(%rax,%r9)
	movups	408(%rax,%r9), %xmm0
	movups	%xmm0, 384(%rax,%r9)
	movq	448(%rax,%r9), %r14
	movq	%r14, 424(%rax,%r9)
	movups	432(%rax,%r9), %xmm0
	movups	%xmm0, 408(%rax,%r9)
	movq	472(%rax,%r9), %r14
	movq	%r14, 448(%rax,%r9)
	movups	456(%rax,%r9), %xmm0
	movups	%xmm0, 432(%rax,%r9)
	movq	496(%rax,%r9), %r14
	movq	%r14, 472(%rax,%r9)
	movups	480(%rax,%r9), %xmm0
	movups	%xmm0, 456(%rax,%r9)
	movq	520(%rax,%r9), %r14
	movq	%r14, 496(%rax,%r9)
	movups	504(%rax,%r9), %xmm0
	movups	%xmm0, 480(%rax,%r9)
	movq	544(%rax,%r9), %r14
	movq	%r14, 520(%rax,%r9)
	movups	528(%rax,%r9), %xmm0
	movups	%xmm0, 504(%rax,%r9)
	movq	568(%rax,%r9), %r14
	movq	%r14, 544(%rax,%r9)
	movups	552(%rax,%r9), %xmm0
	movups	%xmm0, 528(%rax,%r9)
	movq	592(%rax,%r9), %r14
	movq	%r14, 568(%rax,%r9)
	movups	576(%rax,%r9), %xmm0
	movups	%xmm0, 552(%rax,%r9)
	movq	616(%rax,%r9), %r14
	movq	%r14, 592(%rax,%r9)
	movups	600(%rax,%r9), %xmm0
	movups	%xmm0, 576(%rax,%r9)
	movq	640(%rax,%r9), %r14
	movq	%r14, 616(%rax,%r9)
	movups	624(%rax,%r9), %xmm0
	movups	%xmm0, 600(%rax,%r9)
	movq	664(%rax,%r9), %r14
	movq	%r14, 640(%rax,%r9)
	movups	648(%rax,%r9), %xmm0
	movups	%xmm0, 624(%rax,%r9)
	movq	688(%rax,%r9), %r14
	movq	%r14, 664(%rax,%r9)
	movups	672(%rax,%r9), %xmm0
	movups	%xmm0, 648(%rax,%r9)
	movq	712(%rax,%r9), %r14
	movq	%r14, 688(%rax,%r9)
	movups	696(%rax,%r9), %xmm0
	movups	%xmm0, 672(%rax,%r9)
	movq	736(%rax,%r9), %r14
	movq	%r14, 712(%rax,%r9)
	movups	720(%rax,%r9), %xmm0
	movups	%xmm0, 696(%rax,%r9)
	movq	760(%rax,%r9), %r14
	movq	%r14, 736(%rax,%r9)
	movups	744(%rax,%r9), %xmm0
	movups	%xmm0, 720(%rax,%r9)
	movq	784(%rax,%r9), %r14
	movq	%r14, 760(%rax,%r9)
	movups	768(%rax,%r9), %xmm0
	movups	%xmm0, 744(%rax,%r9)
	movq	808(%rax,%r9), %r14
	movq	%r14, 784(%rax,%r9)
	movups	792(%rax,%r9), %xmm0
	movups	%xmm0, 768(%rax,%r9)
	movq	832(%rax,%r9), %r14
	movq	%r14, 808(%rax,%r9)
	movups	816(%rax,%r9), %xmm0
	movups	%xmm0, 792(%rax,%r9)
	movq	856(%rax,%r9), %r14
	movq	%r14, 832(%rax,%r9)
	movups	840(%rax,%r9), %xmm0
	movups	%xmm0, 816(%rax,%r9)
	movq	880(%rax,%r9), %r14
	movq	%r14, 856(%rax,%r9)
	movups	864(%rax,%r9), %xmm0
	movups	%xmm0, 840(%rax,%r9)
	movq	904(%rax,%r9), %r14
	movq	%r14, 880(%rax,%r9)
	movups	888(%rax,%r9), %xmm0
	movups	%xmm0, 864(%rax,%r9)
	movq	928(%rax,%r9), %r14
	movq	%r14, 904(%rax,%r9)
	movups	912(%rax,%r9), %xmm0
	movups	%xmm0, 888(%rax,%r9)
	movq	952(%rax,%r9), %r14
	movq	%r14, 928(%rax,%r9)
	movups	936(%rax,%r9), %xmm0
	movups	%xmm0, 912(%rax,%r9)
	movq	976(%rax,%r9), %r14
	movq	%r14, 952(%rax,%r9)
	movups	960(%rax,%r9), %xmm0
	movups	%xmm0, 936(%rax,%r9)
	movq	1000(%rax,%r9), %r14
	movq	%r14, 976(%rax,%r9)
	movups	984(%rax,%r9), %xmm0
	movups	%xmm0, 960(%rax,%r9)
	movq	1024(%rax,%r9), %r14
	movq	%r14, 1000(%rax,%r9)
	movups	1008(%rax,%r9), %xmm0
	movups	%xmm0, 984(%rax,%r9)
	movq	1048(%rax,%r9), %r14
	movq	%r14, 1024(%rax,%r9)
	movups	1032(%rax,%r9), %xmm0
	movups	%xmm0, 1008(%rax,%r9)
	movq	1072(%rax,%r9), %r14
	movq	%r14, 1048(%rax,%r9)
	movups	1056(%rax,%r9), %xmm0
	movups	%xmm0, 1032(%rax,%r9)
	movq	1096(%rax,%r9), %r14
	movq	%r14, 1072(%rax,%r9)
	movups	1080(%rax,%r9), %xmm0
	movups	%xmm0, 1056(%rax,%r9)
	movq	1120(%rax,%r9), %r14
	movq	%r14, 1096(%rax,%r9)
	movups	1104(%rax,%r9), %xmm0
	movups	%xmm0, 1080(%rax,%r9)
	movq	1144(%rax,%r9), %r14
	movq	%r14, 1120(%rax,%r9)
	movups	1128(%rax,%r9), %xmm0
	movups	%xmm0, 1104(%rax,%r9)
	movq	1168(%rax,%r9), %r14
	movq	%r14, 1144(%rax,%r9)
	movups	1152(%rax,%r9), %xmm0
	movups	%xmm0, 1128(%rax,%r9)
	movq	1192(%rax,%r9), %r14
	movq	%r14, 1168(%rax,%r9)
	movups	1176(%rax,%r9), %xmm0
	movups	%xmm0, 1152(%rax,%r9)
	movq	1216(%rax,%r9), %r14
	movq	%r14, 1192(%rax,%r9)
	movups	1200(%rax,%r9), %xmm0
	movups	%xmm0, 1176(%rax,%r9)
	movq	1240(%rax,%r9), %r14
	movq	%r14, 1216(%rax,%r9)
	movups	1224(%rax,%r9), %xmm0
	movups	%xmm0, 1200(%rax,%r9)
	movq	1264(%rax,%r9), %r14
	movq	%r14, 1240(%rax,%r9)
	movups	1248(%rax,%r9), %xmm0
	movups	%xmm0, 1224(%rax,%r9)
	movq	1288(%rax,%r9), %r14
	movq	%r14, 1264(%rax,%r9)
	movups	1272(%rax,%r9), %xmm0
	movups	%xmm0, 1248(%rax,%r9)
	movq	1312(%rax,%r9), %r14
	movq	%r14, 1288(%rax,%r9)
	movups	1296(%rax,%r9), %xmm0
	movups	%xmm0, 1272(%rax,%r9)
	movq	1336(%rax,%r9), %r14
	movq	%r14, 1312(%rax,%r9)
	movups	1320(%rax,%r9), %xmm0
	movups	%xmm0, 1296(%rax,%r9)
	movq	1360(%rax,%r9), %r14
	movq	%r14, 1336(%rax,%r9)
	movups	1344(%rax,%r9), %xmm0
	movups	%xmm0, 1320(%rax,%r9)
	movq	1384(%rax,%r9), %r14
	movq	%r14, 1360(%rax,%r9)
	movups	1368(%rax,%r9), %xmm0
	movups	%xmm0, 1344(%rax,%r9)
	movq	1408(%rax,%r9), %r14
	movq	%r14, 1384(%rax,%r9)
	movups	1392(%rax,%r9), %xmm0
	movups	%xmm0, 1368(%rax,%r9)
	movq	1432(%rax,%r9), %r14
	movq	%r14, 1408(%rax,%r9)
	movups	1416(%rax,%r9), %xmm0
	movups	%xmm0, 1392(%rax,%r9)
	movq	1456(%rax,%r9), %r14
	movq	%r14, 1432(%rax,%r9)
	movups	1440(%rax,%r9), %xmm0
	movups	%xmm0, 1416(%rax,%r9)
	movq	1480(%rax,%r9), %r14
	movq	%r14, 1456(%rax,%r9)
	movups	1464(%rax,%r9), %xmm0
	movups	%xmm0, 1440(%rax,%r9)
	movq	1504(%rax,%r9), %r14
	movq	%r14, 1480(%rax,%r9)
	movups	1488(%rax,%r9), %xmm0
	movups	%xmm0, 1464(%rax,%r9)
	movq	1528(%rax,%r9), %r14
	movq	%r14, 1504(%rax,%r9)
	movups	1512(%rax,%r9), %xmm0
	movups	%xmm0, 1488(%rax,%r9)
	movq	1552(%rax,%r9), %r14
	movq	%r14, 1528(%rax,%r9)
	movups	1536(%rax,%r9), %xmm0
	movups	%xmm0, 1512(%rax,%r9)
	movq	1576(%rax,%r9), %r14
	movq	%r14, 1552(%rax,%r9)
	movups	1560(%rax,%r9), %xmm0
	movups	%xmm0, 1536(%rax,%r9)
	movq	1600(%rax,%r9), %r14
	movq	%r14, 1576(%rax,%r9)
	movups	1584(%rax,%r9), %xmm0
	movups	%xmm0, 1560(%rax,%r9)
	movq	1624(%rax,%r9), %r14
	movq	%r14, 1600(%rax,%r9)
	movups	1608(%rax,%r9), %xmm0
	movups	%xmm0, 1584(%rax,%r9)
	movq	1648(%rax,%r9), %r14
	movq	%r14, 1624(%rax,%r9)
	movups	1632(%rax,%r9), %xmm0
	movups	%xmm0, 1608(%rax,%r9)
	movq	1672(%rax,%r9), %r14
	movq	%r14, 1648(%rax,%r9)
	movups	1656(%rax,%r9), %xmm0
	movups	%xmm0, 1632(%rax,%r9)
	movq	1696(%rax,%r9), %r14
	movq	%r14, 1672(%rax,%r9)
	movups	1680(%rax,%r9), %xmm0
	movups	%xmm0, 1656(%rax,%r9)
	movq	1720(%rax,%r9), %r14
	movq	%r14, 1696(%rax,%r9)
	movups	1704(%rax,%r9), %xmm0
	movups	%xmm0, 1680(%rax,%r9)
	movq	1744(%rax,%r9), %r14
	movq	%r14, 1720(%rax,%r9)
	movups	1728(%rax,%r9), %xmm0
	movups	%xmm0, 1704(%rax,%r9)
	movq	1768(%rax,%r9), %r14
	movq	%r14, 1744(%rax,%r9)
	movups	1752(%rax,%r9), %xmm0
	movups	%xmm0, 1728(%rax,%r9)
	movq	1792(%rax,%r9), %r14
	movq	%r14, 1768(%rax,%r9)
	movups	1776(%rax,%r9), %xmm0
	movups	%xmm0, 1752(%rax,%r9)
	movq	1816(%rax,%r9), %r14
	movq	%r14, 1792(%rax,%r9)
	movups	1800(%rax,%r9), %xmm0
	movups	%xmm0, 1776(%rax,%r9)
	movq	1840(%rax,%r9), %r14
	movq	%r14, 1816(%rax,%r9)
	movups	1824(%rax,%r9), %xmm0
	movups	%xmm0, 1800(%rax,%r9)
	movq	1864(%rax,%r9), %r14
	movq	%r14, 1840(%rax,%r9)
	movups	1848(%rax,%r9), %xmm0
	movups	%xmm0, 1824(%rax,%r9)
	movq	1888(%rax,%r9), %r14
	movq	%r14, 1864(%rax,%r9)
	movups	1872(%rax,%r9), %xmm0
	movups	%xmm0, 1848(%rax,%r9)
	movq	1912(%rax,%r9), %r14
	movq	%r14, 1888(%rax,%r9)
	movups	1896(%rax,%r9), %xmm0
	movups	%xmm0, 1872(%rax,%r9)
	movq	1936(%rax,%r9), %r14
	movq	%r14, 1912(%rax,%r9)
	movups	1920(%rax,%r9), %xmm0
	movups	%xmm0, 1896(%rax,%r9)
	movq	1960(%rax,%r9), %r14
	movq	%r14, 1936(%rax,%r9)
	movups	1944(%rax,%r9), %xmm0
	movups	%xmm0, 1920(%rax,%r9)
	movq	1984(%rax,%r9), %r14
	movq	%r14, 1960(%rax,%r9)
	movups	1968(%rax,%r9), %xmm0
	movups	%xmm0, 1944(%rax,%r9)
	movq	2008(%rax,%r9), %r14
	movq	%r14, 1984(%rax,%r9)
	movups	1992(%rax,%r9), %xmm0
	movups	%xmm0, 1968(%rax,%r9)
	movq	2032(%rax,%r9), %r14
	movq	%r14, 2008(%rax,%r9)
	movups	2016(%rax,%r9), %xmm0
	movups	%xmm0, 1992(%rax,%r9)
	movq	2056(%rax,%r9), %r14
	movq	%r14, 2032(%rax,%r9)
	movups	2040(%rax,%r9), %xmm0
	movups	%xmm0, 2016(%rax,%r9)
	addq	$2040, %r9
	leaq	(%r10,%rbx), %r14
	addq	$-85, %r14
	addq	$-85, %rbx
	cmpq	$85, %r14
	ja	1b
	leaq	1(%rdx), %r14
	subq	%rbx, %rdx
	cmpq	%rbx, %r14
	jne	3f
	testq	%r11, %r11
	je	9f
	addq	$-85, %rdx
	leaq	(%r11,%r11,2), %r9
	addq	$-86, %r11
	leaq	(%rax,%r9,8), %r9
	addq	$-24, %r9
	.p2align	4
2:
	movq	16(%r9), %r10
	movq	%r10, -8(%r9)
	movups	(%r9), %xmm0
	movups	%xmm0, -24(%r9)
	addq	$-24, %r9
	decq	%r11
	cmpq	%r11, %rdx
	jne	2b
	jmp	9f
3:
	addq	%rbx, %r10
4:
	cmpq	%rdx, %r8
	je	9f
	leaq	-1(%r10), %r11
	movl	%r10d, %edx
	andl	$3, %edx
	cmpq	$3, %r11
	jae	5f
	xorl	%r11d, %r11d
	jmp	7f
5:
	andl	$124, %r10d
	leaq	(%rax,%r9), %rbx
	xorl	%r11d, %r11d
	.p2align	4
6:
	movq	40(%rbx), %r14
	movq	%r14, 16(%rbx)
	movups	24(%rbx), %xmm0
	movups	%xmm0, (%rbx)
	movups	48(%rbx), %xmm0
	movups	%xmm0, 24(%rbx)
	movq	64(%rbx), %r14
	movq	%r14, 40(%rbx)
	movups	72(%rbx), %xmm0
	movups	%xmm0, 48(%rbx)
	movq	88(%rbx), %r14
	movq	%r14, 64(%rbx)
	movups	96(%rbx), %xmm0
	movups	%xmm0, 72(%rbx)
	movq	112(%rbx), %r14
	movq	%r14, 88(%rbx)
	addq	$96, %rbx
	addq	$4, %r11
	cmpq	%r11, %r10
	jne	6b
	testq	%rdx, %rdx
	je	9f
7:
	leaq	(%r11,%r11,2), %r10
	leaq	(%r9,%r10,8), %r9
	addq	%rax, %r9
	shll	$3, %edx
	leaq	(%rdx,%rdx,2), %rdx
	xorl	%r10d, %r10d
	.p2align	4
8:
	movq	40(%r9,%r10), %r11
	movq	%r11, 16(%r9,%r10)
	movups	24(%r9,%r10), %xmm0
	movups	%xmm0, (%r9,%r10)
	addq	$24, %r10
	cmpq	%r10, %rdx
	jne	8b
9:
	movq	%rax, (%rsi)
	movq	%r8, 8(%rsi)
	movq	%rcx, 16(%rsi)
	movq	-8(%rsp), %rax
	movq	%rax, 16(%rdi)
	movaps	-24(%rsp), %xmm0
	movups	%xmm0, (%rdi)
	popq	%rbx
	popq	%r14
	retq
10:
	.size	"std_alloc::vec::Vec::remove::<#c1573421a60ec32d>", 10b-"std_alloc::vec::Vec::remove::<#c1573421a60ec32d>"

	.text
	.p2align	4
	.type	"std_alloc::vec::deque::VecDeque::drop::<#19687a60d315e203>",@function
"std_alloc::vec::deque::VecDeque::drop::<#19687a60d315e203>":
	pushq	%rbp
	pushq	%r15
	pushq	%r14
	pushq	%r13
	pushq	%r12
	pushq	%rbx
	subq	$136, %rsp
	movq	(%rdi), %rbx
	movq	8(%rdi), %rcx
	movq	16(%rdi), %rax
	movq	%rax, 16(%rsp)
	testq	%rcx, %rcx
	je	12f
	movq	32(%rdi), %rax
	movq	24(%rdi), %rbp
	movq	%rax, 8(%rsp)
	subq	%rax, %rcx
	addq	%rbp, %rcx
	cmpq	%rcx, %rbp
	jae	6f
	movq	%rcx, 24(%rsp)
	jmp	2f
	.p2align	4
1:
	incq	%rbp
	movq	24(%rsp), %rcx
	cmpq	%rcx, %rbp
	je	6f
2:
	movq	%rbp, %rax
	shlq	$4, %rax
	leaq	(%rax,%rax,4), %rax
	movq	56(%rbx,%rax), %r13
	movq	64(%rbx,%rax), %r12
	movq	72(%rbx,%rax), %r15
	cmpb	$0, 8(%rbx,%rax)
	je	3f
	cmpq	$0, 32(%rbx,%rax)
	je	3f
	movq	16(%rbx,%rax), %rdi
	callq	rattle_dealloc@PLT
3:
	testq	%r12, %r12
	je	5f
	movq	%r13, %r14
	.p2align	4
4:
	movups	80(%r14), %xmm0
	movaps	%xmm0, 112(%rsp)
	movups	64(%r14), %xmm0
	movaps	%xmm0, 96(%rsp)
	movups	(%r14), %xmm0
	movups	16(%r14), %xmm1
	movups	32(%r14), %xmm2
	movups	48(%r14), %xmm3
	movaps	%xmm3, 80(%rsp)
	movaps	%xmm2, 64(%rsp)
	movaps	%xmm1, 48(%rsp)
	movaps	%xmm0, 32(%rsp)
	leaq	32(%rsp), %rdi
	callq	"mime_text::mime_base++magic++matchlet++Matchlet+Destruct::drop"
	addq	$96, %r14
	decq	%r12
	jne	4b
5:
	testq	%r15, %r15
	je	1b
	movq	%r13, %rdi
	callq	rattle_dealloc@PLT
	jmp	1b
6:
	cmpq	$0, 8(%rsp)
	je	12f
	xorl	%r13d, %r13d
	jmp	8f
	.p2align	4
7:
	incq	%r13
	cmpq	8(%rsp), %r13
	je	12f
8:
	movq	%r13, %rax
	shlq	$4, %rax
	leaq	(%rax,%rax,4), %rax
	movq	56(%rbx,%rax), %r14
	movq	64(%rbx,%rax), %r12
	movq	72(%rbx,%rax), %r15
	cmpb	$0, 8(%rbx,%rax)
	je	9f
	cmpq	$0, 32(%rbx,%rax)
	je	9f
	movq	16(%rbx,%rax), %rdi
	callq	rattle_dealloc@PLT
9:
	testq	%r12, %r12
	je	11f
	movq	%r14, %rbp
	.p2align	4
10:
	movups	80(%rbp), %xmm0
	movaps	%xmm0, 112(%rsp)
	movups	64(%rbp), %xmm0
	movaps	%xmm0, 96(%rsp)
	movups	(%rbp), %xmm0
	movups	16(%rbp), %xmm1
	movups	32(%rbp), %xmm2
	movups	48(%rbp), %xmm3
	movaps	%xmm3, 80(%rsp)
	movaps	%xmm2, 64(%rsp)
	movaps	%xmm1, 48(%rsp)
	movaps	%xmm0, 32(%rsp)
	leaq	32(%rsp), %rdi
	callq	"mime_text::mime_base++magic++matchlet++Matchlet+Destruct::drop"
	addq	$96, %rbp
	decq	%r12
	jne	10b
11:
	testq	%r15, %r15
	je	7b
	movq	%r14, %rdi
	callq	rattle_dealloc@PLT
	jmp	7b
12:
	cmpq	$0, 16(%rsp)
	je	13f
	movq	%rbx, %rdi
	addq	$136, %rsp
	popq	%rbx
	popq	%r12
	popq	%r13
	popq	%r14
	popq	%r15
	popq	%rbp
	jmp	rattle_dealloc@PLT
13:
	addq	$136, %rsp
	popq	%rbx
	popq	%r12
	popq	%r13
	popq	%r14
	popq	%r15
	popq	%rbp
	retq
14:
	.size	"std_alloc::vec::deque::VecDeque::drop::<#19687a60d315e203>", 14b-"std_alloc::vec::deque::VecDeque::drop::<#19687a60d315e203>"

	.text
	.p2align	4
	.type	"std_alloc::vec::deque::VecDeque::drop::<#1a1580c2cfb41205>",@function
"std_alloc::vec::deque::VecDeque::drop::<#1a1580c2cfb41205>":
	pushq	%r15
	pushq	%r14
	pushq	%r13
	pushq	%r12
	pushq	%rbx
	movq	(%rdi), %rbx
	movq	8(%rdi), %r12
	movq	16(%rdi), %r14
	testq	%r12, %r12
	je	6f
	movq	32(%rdi), %r15
	movq	24(%rdi), %r13
	subq	%r15, %r12
	leaq	(%r12,%r13), %rax
	cmpq	%rax, %r13
	jae	3f
	shlq	$5, %r13
	addq	%rbx, %r13
	jmp	2f
	.p2align	4
1:
	addq	$32, %r13
	decq	%r12
	je	3f
2:
	cmpb	$0, (%r13)
	je	1b
	cmpq	$0, 24(%r13)
	je	1b
	movq	8(%r13), %rdi
	callq	rattle_dealloc@PLT
	jmp	1b
3:
	testq	%r15, %r15
	je	6f
	movq	%rbx, %r12
	jmp	5f
	.p2align	4
4:
	addq	$32, %r12
	decq	%r15
	je	6f
5:
	cmpb	$0, (%r12)
	je	4b
	cmpq	$0, 24(%r12)
	je	4b
	movq	8(%r12), %rdi
	callq	rattle_dealloc@PLT
	jmp	4b
6:
	testq	%r14, %r14
	je	7f
	movq	%rbx, %rdi
	popq	%rbx
	popq	%r12
	popq	%r13
	popq	%r14
	popq	%r15
	jmp	rattle_dealloc@PLT
7:
	popq	%rbx
	popq	%r12
	popq	%r13
	popq	%r14
	popq	%r15
	retq
8:
	.size	"std_alloc::vec::deque::VecDeque::drop::<#1a1580c2cfb41205>", 8b-"std_alloc::vec::deque::VecDeque::drop::<#1a1580c2cfb41205>"

	.text
	.p2align	4
	.type	"std_alloc::vec::deque::VecDeque::drop::<#2d89a01c2ecea42b>",@function
"std_alloc::vec::deque::VecDeque::drop::<#2d89a01c2ecea42b>":
	pushq	%r15
	pushq	%r14
	pushq	%r13
	pushq	%r12
	pushq	%rbx
	movq	(%rdi), %rbx
	movq	8(%rdi), %r12
	movq	16(%rdi), %r14
	testq	%r12, %r12
	je	6f
	movq	32(%rdi), %r15
	movq	24(%rdi), %rax
	subq	%r15, %r12
	leaq	(%rax,%r12), %rcx
	cmpq	%rcx, %rax
	jae	3f
	leaq	(%rax,%rax,2), %rax
	leaq	(%rbx,%rax,8), %r13
	addq	$16, %r13
	jmp	2f
	.p2align	4
1:
	addq	$24, %r13
	decq	%r12
	je	3f
2:
	cmpq	$0, (%r13)
	je	1b
	movq	-16(%r13), %rdi
	callq	rattle_dealloc@PLT
	jmp	1b
3:
	testq	%r15, %r15
	je	6f
	leaq	16(%rbx), %r12
	jmp	5f
	.p2align	4
4:
	addq	$24, %r12
	decq	%r15
	je	6f
5:
	cmpq	$0, (%r12)
	je	4b
	movq	-16(%r12), %rdi
	callq	rattle_dealloc@PLT
	jmp	4b
6:
	testq	%r14, %r14
	je	7f
	movq	%rbx, %rdi
	popq	%rbx
	popq	%r12
	popq	%r13
	popq	%r14
	popq	%r15
	jmp	rattle_dealloc@PLT
7:
	popq	%rbx
	popq	%r12
	popq	%r13
	popq	%r14
	popq	%r15
	retq
8:
	.size	"std_alloc::vec::deque::VecDeque::drop::<#2d89a01c2ecea42b>", 8b-"std_alloc::vec::deque::VecDeque::drop::<#2d89a01c2ecea42b>"

	.text
	.p2align	4
	.type	"std_alloc::vec::deque::VecDeque::drop::<#a85d6931f7cfb01d>",@function
"std_alloc::vec::deque::VecDeque::drop::<#a85d6931f7cfb01d>":
	pushq	%rbp
	pushq	%r15
	pushq	%r14
	pushq	%r13
	pushq	%r12
	pushq	%rbx
	subq	$24, %rsp
	movq	(%rdi), %rbp
	movq	8(%rdi), %r13
	movq	16(%rdi), %rax
	movq	%rax, 16(%rsp)
	testq	%r13, %r13
	je	13f
	movq	%rbp, 8(%rsp)
	movq	32(%rdi), %r12
	movq	24(%rdi), %rax
	subq	%r12, %r13
	leaq	(%rax,%r13), %rcx
	cmpq	%rcx, %rax
	jae	7f
	imulq	$112, %rax, %rbp
	addq	8(%rsp), %rbp
	jmp	4f
1:
	movq	%r14, %rdi
2:
	callq	rattle_dealloc@PLT
3:
	addq	$112, %rbp
	decq	%r13
	je	7f
4:
	movq	16(%rbp), %rdi
	cmpb	$0, (%rbp)
	je	5f
	cmpb	$0, 8(%rbp)
	je	3b
	cmpq	$0, 32(%rbp)
	jne	2b
	jmp	3b
	.p2align	4
5:
	movzbl	64(%rbp), %ebx
	movq	72(%rbp), %r14
	movq	88(%rbp), %r15
	testb	%dil, %dil
	je	6f
	cmpq	$0, 40(%rbp)
	je	6f
	movq	24(%rbp), %rdi
	callq	rattle_dealloc@PLT
6:
	testb	%bl, %bl
	je	3b
	testq	%r15, %r15
	jne	1b
	jmp	3b
7:
	testq	%r12, %r12
	movq	8(%rsp), %rbp
	je	13f
	movq	%rbp, %r13
	jmp	10f
	.p2align	4
8:
	callq	rattle_dealloc@PLT
9:
	addq	$112, %r13
	decq	%r12
	je	13f
10:
	movq	16(%r13), %rdi
	cmpb	$0, (%r13)
	je	11f
	cmpb	$0, 8(%r13)
	je	9b
	cmpq	$0, 32(%r13)
	jne	8b
	jmp	9b
	.p2align	4
11:
	movzbl	64(%r13), %ebx
	movq	72(%r13), %r14
	movq	88(%r13), %r15
	testb	%dil, %dil
	je	12f
	cmpq	$0, 40(%r13)
	je	12f
	movq	24(%r13), %rdi
	callq	rattle_dealloc@PLT
12:
	testb	%bl, %bl
	je	9b
	testq	%r15, %r15
	je	9b
	movq	%r14, %rdi
	jmp	8b
13:
	cmpq	$0, 16(%rsp)
	je	14f
	movq	%rbp, %rdi
	addq	$24, %rsp
	popq	%rbx
	popq	%r12
	popq	%r13
	popq	%r14
	popq	%r15
	popq	%rbp
	jmp	rattle_dealloc@PLT
14:
	addq	$24, %rsp
	popq	%rbx
	popq	%r12
	popq	%r13
	popq	%r14
	popq	%r15
	popq	%rbp
	retq
15:
	.size	"std_alloc::vec::deque::VecDeque::drop::<#a85d6931f7cfb01d>", 15b-"std_alloc::vec::deque::VecDeque::drop::<#a85d6931f7cfb01d>"

	.text
	.p2align	4
	.type	"std_alloc::vec::deque::VecDeque::drop::<#f76b5842e243a073>",@function
"std_alloc::vec::deque::VecDeque::drop::<#f76b5842e243a073>":
	pushq	%rbp
	pushq	%r15
	pushq	%r14
	pushq	%r13
	pushq	%r12
	pushq	%rbx
	subq	$24, %rsp
	movq	(%rdi), %rbp
	movq	8(%rdi), %r13
	movq	16(%rdi), %rax
	movq	%rax, 16(%rsp)
	testq	%r13, %r13
	je	8f
	movq	%rbp, 8(%rsp)
	movq	32(%rdi), %r12
	movq	24(%rdi), %rax
	subq	%r12, %r13
	leaq	(%rax,%r13), %rcx
	cmpq	%rcx, %rax
	jae	4f
	imulq	$104, %rax, %rax
	movq	8(%rsp), %rcx
	leaq	(%rax,%rcx), %rbp
	addq	$80, %rbp
	jmp	2f
	.p2align	4
1:
	addq	$104, %rbp
	decq	%r13
	je	4f
2:
	movzbl	-24(%rbp), %ebx
	movq	-16(%rbp), %r14
	movq	(%rbp), %r15
	cmpb	$0, -72(%rbp)
	je	3f
	cmpq	$0, -48(%rbp)
	je	3f
	movq	-64(%rbp), %rdi
	callq	rattle_dealloc@PLT
3:
	testb	%bl, %bl
	je	1b
	testq	%r15, %r15
	je	1b
	movq	%r14, %rdi
	callq	rattle_dealloc@PLT
	jmp	1b
4:
	testq	%r12, %r12
	movq	8(%rsp), %rbp
	je	8f
	leaq	80(%rbp), %r13
	jmp	6f
	.p2align	4
5:
	addq	$104, %r13
	decq	%r12
	je	8f
6:
	movzbl	-24(%r13), %ebx
	movq	-16(%r13), %r14
	movq	(%r13), %r15
	cmpb	$0, -72(%r13)
	je	7f
	cmpq	$0, -48(%r13)
	je	7f
	movq	-64(%r13), %rdi
	callq	rattle_dealloc@PLT
7:
	testb	%bl, %bl
	je	5b
	testq	%r15, %r15
	je	5b
	movq	%r14, %rdi
	callq	rattle_dealloc@PLT
	jmp	5b
8:
	cmpq	$0, 16(%rsp)
	je	9f
	movq	%rbp, %rdi
	addq	$24, %rsp
	popq	%rbx
	popq	%r12
	popq	%r13
	popq	%r14
	popq	%r15
	popq	%rbp
	jmp	rattle_dealloc@PLT
9:
	addq	$24, %rsp
	popq	%rbx
	popq	%r12
	popq	%r13
	popq	%r14
	popq	%r15
	popq	%rbp
	retq
10:
	.size	"std_alloc::vec::deque::VecDeque::drop::<#f76b5842e243a073>", 10b-"std_alloc::vec::deque::VecDeque::drop::<#f76b5842e243a073>"

	.section	.text.unlikely,"ax",@progbits
	.p2align	4
	.type	"std_alloc::vec::deque::VecDeque::grow::<#25095d740b27081c>",@function
"std_alloc::vec::deque::VecDeque::grow::<#25095d740b27081c>":
	movq	8(%rdi), %rsi
	movb	$1, %al
	cmpq	%rsi, 16(%rdi)
	jne	7f
	pushq	%rbp
	pushq	%r15
	pushq	%r14
	pushq	%r13
	pushq	%r12
	pushq	%rbx
	subq	$40, %rsp
	leaq	24(%rdi), %r12
	cmpq	$0, 24(%rdi)
	je	3f
	cmpq	$-1, %rsi
	je	5f
	cmpq	$4, %rsi
	movl	$3, %eax
	cmovaeq	%rsi, %rax
	incq	%rax
	movq	%rsi, %rcx
	shrq	$62, %rcx
	leaq	(%rsi,%rsi), %r15
	cmpq	%r15, %rax
	cmovaq	%rax, %r15
	testq	%rcx, %rcx
	cmovneq	%rax, %r15
	movq	%r15, %rax
	subq	%rsi, %rax
	cmpq	%rax, 32(%rdi)
	jbe	1f
	movq	%r15, %rax
	shrq	$59, %rax
	jne	5f
	movq	%rdi, 8(%rsp)
	movq	%r15, %rdi
	shlq	$4, %rdi
	movl	$8, %esi
	callq	rattle_alloc@PLT
	testb	$1, %al
	je	5f
	movq	%rdx, %rbx
	movq	8(%rsp), %rax
	movq	(%rax), %rcx
	movq	8(%rax), %rbp
	movq	32(%rax), %r11
	movq	%rbp, %r9
	subq	%r11, %r9
	movq	24(%rax), %rdi
	shlq	$4, %rdi
	leaq	(%rcx,%rdi), %rsi
	movq	%r9, %r14
	shlq	$4, %r14
	subq	%rsi, %rdx
	cmpq	%r14, %rdx
	jae	8f
	cmpq	%r11, %rbp
	je	19f
	movl	%r9d, %edx
	andl	$7, %edx
	movq	%r11, %r8
	subq	%rbp, %r8
	cmpq	$-8, %r8
	jbe	15f
	xorl	%r8d, %r8d
	jmp	17f
1:
	movq	%r15, %rax
	shrq	$59, %rax
	jne	5f
	testq	%rsi, %rsi
	je	4f
	movq	%rdi, %rbx
	movq	(%rdi), %rdi
	shlq	$4, %rsi
	movq	%r15, %rdx
	shlq	$4, %rdx
	movl	$8, %ecx
	callq	rattle_realloc@PLT
	testb	$1, %al
	je	5f
2:
	movq	%rbx, %rcx
	movq	8(%rbx), %rsi
	movq	32(%rbx), %r8
	shlq	$4, %rsi
	movq	%r8, %rax
	shlq	$4, %rax
	cmpq	%rax, %rsi
	jae	9f
	testq	%r8, %r8
	movb	$1, %al
	je	14f
	movl	%r8d, %edi
	andl	$7, %edi
	cmpq	$8, %r8
	jae	10f
	xorl	%r9d, %r9d
	jmp	12f
3:
	movq	(%rdi), %rax
	movq	%rax, 16(%rsp)
	movq	%rsi, 24(%rsp)
	movq	%rsi, 32(%rsp)
	leaq	16(%rsp), %rax
	movq	%rdi, %rbx
	movq	%rax, %rdi
	callq	"std_alloc::vec::Vec::grow_amortized::<#25095d740b27081c>"
	movq	16(%rsp), %rcx
	movups	24(%rsp), %xmm0
	movq	%rcx, (%rbx)
	movups	%xmm0, 8(%rbx)
	xorps	%xmm0, %xmm0
	movups	%xmm0, (%r12)
	jmp	6f
4:
	movq	%rdi, %rbx
	movl	$64, %edi
	movl	$8, %esi
	callq	rattle_alloc@PLT
	testb	$1, %al
	jne	2b
5:
	xorl	%eax, %eax
6:
	addq	$40, %rsp
	popq	%rbx
	popq	%r12
	popq	%r13
	popq	%r14
	popq	%r15
	popq	%rbp
7:
	retq
8:
	movq	%rbx, %rdi
	movq	%r14, %rdx
	movq	%r11, %r13
	callq	memmove@PLT
	movq	%r13, %r11
	movq	8(%rsp), %rax
	jmp	19f
9:
	movq	%rdx, %rdi
	addq	%rsi, %rdi
	movq	%rcx, %rbx
	movq	%rdx, %rsi
	movq	%rdx, %r14
	movq	%rax, %rdx
	callq	memmove@PLT
	movq	%r14, %rdx
	movq	%rbx, %rcx
	movb	$1, %al
	jmp	14f
10:
	andq	$-8, %r8
	leaq	112(%rdx), %r10
	xorl	%r9d, %r9d
11:
	movups	-112(%r10), %xmm0
	movups	%xmm0, -112(%r10,%rsi)
	movups	-96(%r10), %xmm0
	movups	%xmm0, -96(%r10,%rsi)
	movups	-80(%r10), %xmm0
	movups	%xmm0, -80(%r10,%rsi)
	movups	-64(%r10), %xmm0
	movups	%xmm0, -64(%r10,%rsi)
	movups	-48(%r10), %xmm0
	movups	%xmm0, -48(%r10,%rsi)
	movups	-32(%r10), %xmm0
	movups	%xmm0, -32(%r10,%rsi)
	movups	-16(%r10), %xmm0
	movups	%xmm0, -16(%r10,%rsi)
	movups	(%r10), %xmm0
	movups	%xmm0, (%r10,%rsi)
	addq	$8, %r9
	subq	$-128, %r10
	cmpq	%r9, %r8
	jne	11b
	testq	%rdi, %rdi
	je	14f
12:
	shlq	$4, %r9
	movq	%rdx, %r8
	addq	%r9, %r8
	.p2align	4
13:
	movups	(%r8), %xmm0
	movups	%xmm0, (%r8,%rsi)
	addq	$16, %r8
	decq	%rdi
	jne	13b
14:
	movq	%rdx, (%rcx)
	movq	%r15, 16(%rcx)
	movq	$0, 32(%rcx)
	jmp	6b
15:
	andq	$-8, %r9
	movl	$112, %r10d
	xorl	%r8d, %r8d
16:
	movups	-112(%rsi,%r10), %xmm0
	movups	%xmm0, -112(%rbx,%r10)
	movups	-96(%rsi,%r10), %xmm0
	movups	%xmm0, -96(%rbx,%r10)
	movups	-80(%rsi,%r10), %xmm0
	movups	%xmm0, -80(%rbx,%r10)
	movups	-64(%rsi,%r10), %xmm0
	movups	%xmm0, -64(%rbx,%r10)
	movups	-48(%rsi,%r10), %xmm0
	movups	%xmm0, -48(%rbx,%r10)
	movups	-32(%rsi,%r10), %xmm0
	movups	%xmm0, -32(%rbx,%r10)
	movups	-16(%rsi,%r10), %xmm0
	movups	%xmm0, -16(%rbx,%r10)
	movups	(%rsi,%r10), %xmm0
	movups	%xmm0, (%rbx,%r10)
	addq	$8, %r8
	subq	$-128, %r10
	cmpq	%r8, %r9
	jne	16b
	testq	%rdx, %rdx
	je	19f
17:
	shlq	$4, %r8
	addq	%r8, %rdi
	addq	%rdi, %rcx
	addq	%rbx, %r8
	shll	$4, %edx
	xorl	%esi, %esi
	.p2align	4
18:
	movups	(%rcx,%rsi), %xmm0
	movups	%xmm0, (%r8,%rsi)
	addq	$16, %rsi
	cmpq	%rsi, %rdx
	jne	18b
19:
	addq	%rbx, %r14
	movq	(%rax), %rsi
	movq	32(%rax), %rdi
	movq	%rdi, %rdx
	shlq	$4, %rdx
	movq	%r14, %rcx
	subq	%rsi, %rcx
	cmpq	%rdx, %rcx
	jae	20f
	testq	%rdi, %rdi
	je	25f
	movl	%edi, %ecx
	andl	$7, %ecx
	cmpq	$8, %rdi
	jae	21f
	xorl	%edx, %edx
	jmp	23f
20:
	movq	%r14, %rdi
	callq	memmove@PLT
	movq	8(%rsp), %rax
	jmp	25f
21:
	andq	$-8, %rdi
	movl	$112, %r8d
	xorl	%edx, %edx
22:
	movups	-112(%rsi,%r8), %xmm0
	movups	%xmm0, -112(%r14,%r8)
	movups	-96(%rsi,%r8), %xmm0
	movups	%xmm0, -96(%r14,%r8)
	movups	-80(%rsi,%r8), %xmm0
	movups	%xmm0, -80(%r14,%r8)
	movups	-64(%rsi,%r8), %xmm0
	movups	%xmm0, -64(%r14,%r8)
	movups	-48(%rsi,%r8), %xmm0
	movups	%xmm0, -48(%r14,%r8)
	movups	-32(%rsi,%r8), %xmm0
	movups	%xmm0, -32(%r14,%r8)
	movups	-16(%rsi,%r8), %xmm0
	movups	%xmm0, -16(%r14,%r8)
	movups	(%rsi,%r8), %xmm0
	movups	%xmm0, (%r14,%r8)
	addq	$8, %rdx
	subq	$-128, %r8
	cmpq	%rdx, %rdi
	jne	22b
	testq	%rcx, %rcx
	je	25f
23:
	shlq	$4, %rdx
	addq	%rdx, %rsi
	shlq	$4, %rbp
	addq	%rdx, %rbp
	shlq	$4, %r11
	subq	%r11, %rbp
	movq	%rbx, %rdx
	addq	%rbp, %rdx
	shll	$4, %ecx
	xorl	%edi, %edi
	.p2align	4
24:
	movups	(%rsi,%rdi), %xmm0
	movups	%xmm0, (%rdx,%rdi)
	addq	$16, %rdi
	cmpq	%rdi, %rcx
	jne	24b
25:
	movq	(%rax), %rdi
	movq	%rax, %r14
	callq	rattle_dealloc@PLT
	movq	%rbx, (%r14)
	movq	%r15, 16(%r14)
	xorps	%xmm0, %xmm0
	movups	%xmm0, (%r12)
	movb	$1, %al
	jmp	6b
26:
	.size	"std_alloc::vec::deque::VecDeque::grow::<#25095d740b27081c>", 26b-"std_alloc::vec::deque::VecDeque::grow::<#25095d740b27081c>"

	.section	.rodata.cst16,"aM",@progbits,16
	.p2align	4, 0x0
1:
	.long	1,0,0,0
	.text
	.p2align	4
	.type	"std_alloc::vec::lodged::Vec+T+Lodged::insert_reserved::<#2262cf5b90b10fda>",@function
"std_alloc::vec::lodged::Vec+T+Lodged::insert_reserved::<#2262cf5b90b10fda>":
	pushq	%r14
	pushq	%rbx
	movq	16(%rdx), %rax
	movq	%rax, -8(%rsp)
	movups	(%rdx), %xmm0
	movaps	%xmm0, -24(%rsp)
	movq	(%rdi), %rax
	movq	8(%rdi), %rcx
	movdqu	8(%rdi), %xmm0
	xorps	%xmm1, %xmm1
	movups	%xmm1, 8(%rdi)
	movq	%rsi, %r10
	incq	%r10
	je	2f
	cmpq	%rsi, %rcx
	je	17f
	movq	%rcx, %rdx
	subq	%rsi, %rdx
	leaq	(%rsi,%rsi,2), %r8
	leaq	(%rax,%r8,8), %r8
	leaq	(%r10,%r10,2), %r9
	leaq	(%rax,%r9,8), %r9
	cmpq	%r10, %rcx
	jne	10f
	xorl	%ecx, %ecx
	jmp	12f
2:
	leaq	1(%rcx), %rdx
	cmpq	$86, %rdx
	jb	7f
	xorl	%r10d, %r10d
	movq	%rax, %r9
	jmp	5f
	.p2align	4
3:
	leaq	(%r8,%r8,2), %r10
	leaq	(%rax,%r10,8), %r10
	movq	-8(%r10), %r11
	movq	%r11, 16(%r10)
	movups	-24(%r10), %xmm1
	movups	%xmm1, (%r10)
	movq	-8(%r10), %r11
	movq	%r11, 40(%r10)
	movups	-24(%r10), %xmm1
	movups	%xmm1, 24(%r10)
	movq	-8(%r10), %r11
	movq	%r11, 64(%r10)
	movups	-24(%r10), %xmm1
	movups	%xmm1, 48(%r10)
	movq	-8(%r10), %r11
	movq	%r11, 88(%r10)
	movups	-24(%r10), %xmm1
	movups	%xmm1, 72(%r10)
	movq	-8(%r10), %r11
	movq	%r11, 112(%r10)
	movups	-24(%r10), %xmm1
	movups	%xmm1, 96(%r10)
	movups	-24(%r10), %xmm1
	movups	%xmm1, 120(%r10)
	movq	-8(%r10), %r11
	movq	%r11, 136(%r10)
	movups	-24(%r10), %xmm1
	movups	%xmm1, 144(%r10)
	movq	-8(%r10), %r11
	movq	%r11, 160(%r10)
	movq	-8(%r10), %r11
	movq	%r11, 184(%r10)
	movups	-24(%r10), %xmm1
	movups	%xmm1, 168(%r10)
	movups	-24(%r10), %xmm1
	movups	%xmm1, 192(%r10)
	movq	-8(%r10), %r11
	movq	%r11, 208(%r10)
	movups	-24(%r10), %xmm1
	movups	%xmm1, 216(%r10)
	movq	-8(%r10), %r11
	movq	%r11, 232(%r10)
	movq	-8(%r10), %r11
	movq	%r11, 256(%r10)
	movups	-24(%r10), %xmm1
	movups	%xmm1, 240(%r10)
	movq	-8(%r10), %r11
	movq	%r11, 280(%r10)
	movups	-24(%r10), %xmm1
	movups	%xmm1, 264(%r10)
	movups	-24(%r10), %xmm1
	movups	%xmm1, 288(%r10)
	movq	-8(%r10), %r11
	movq	%r11, 304(%r10)
	movups	-24(%r10), %xmm1
	movups	%xmm1, 312(%r10)
	movq	-8(%r10), %r11
	movq	%r11, 328(%r10)
	movups	-24(%r10), %xmm1
	movups	%xmm1, 336(%r10)
	movq	-8(%r10), %r11
	movq	%r11, 352(%r10)
	movq	-8(%r10), %r11
	movq	%r11, 376(%r10)
	movups	-24(%r10), %xmm1
	movups	%xmm1, 360(%r10)
	movups	-24(%r10), %xmm1
	movups	%xmm1, 384(%r10)
	movq	-8(%r10), %r11
	movq	%r11, 400(%r10)
	movups	-24(%r10), %xmm1
	movups	%xmm1, 408(%r10)
	movq	-8(%r10), %r11
	movq	%r11, 424(%r10)
	movups	-24(%r10), %xmm1
	movups	%xmm1, 432(%r10)
	movq	-8(%r10), %r11
	movq	%r11, 448(%r10)
	movq	-8(%r10), %r11
	movq	%r11, 472(%r10)
	movups	-24(%r10), %xmm1
	movups	%xmm1, 456(%r10)
	movups	-24(%r10), %xmm1
	movups	%xmm1, 480(%r10)
	movq	-8(%r10), %r11
	movq	%r11, 496(%r10)
	movups	-24(%r10), %xmm1
	movups	%xmm1, 504(%r10)
	movq	-8(%r10), %r11
	movq	%r11, 520(%r10)
	movups	-24(%r10), %xmm1
	movups	%xmm1, 528(%r10)
	movq	-8(%r10), %r11
	movq	%r11, 544(%r10)
	movq	-8(%r10), %r11
	movq	%r11, 568(%r10)
	movups	-24(%r10), %xmm1
	movups	%xmm1, 552(%r10)
	movups	-24(%r10), %xmm1
	movups	%xmm1, 576(%r10)
	movq	-8(%r10), %r11
	movq	%r11, 592(%r10)
	movups	-24(%r10), %xmm1
	movups	%xmm1, 600(%r10)
	movq	-8(%r10), %r11
	movq	%r11, 616(%r10)
	movups	-24(%r10), %xmm1
	movups	%xmm1, 624(%r10)
	movq	-8(%r10), %r11
	movq	%r11, 640(%r10)
	movq	-8(%r10), %r11
	movq	%r11, 664(%r10)
	movups	-24(%r10), %xmm1
	movups	%xmm1, 648(%r10)
	movups	-24(%r10), %xmm1
	movups	%xmm1, 672(%r10)
	movq	-8(%r10), %r11
	movq	%r11, 688(%r10)
	movups	-24(%r10), %xmm1
	movups	%xmm1, 696(%r10)
	movq	-8(%r10), %r11
	movq	%r11, 712(%r10)
	movups	-24(%r10), %xmm1
	movups	%xmm1, 720(%r10)
	movq	-8(%r10), %r11
	movq	%r11, 736(%r10)
	movq	-8(%r10), %r11
	movq	%r11, 760(%r10)
	movups	-24(%r10), %xmm1
	movups	%xmm1, 744(%r10)
	movups	-24(%r10), %xmm1
	movups	%xmm1, 768(%r10)
	movq	-8(%r10), %r11
	movq	%r11, 784(%r10)
	movups	-24(%r10), %xmm1
	movups	%xmm1, 792(%r10)
	movq	-8(%r10), %r11
	movq	%r11, 808(%r10)
	movups	-24(%r10), %xmm1
	movups	%xmm1, 816(%r10)
	movq	-8(%r10), %r11
	movq	%r11, 832(%r10)
	movq	-8(%r10), %r11
	movq	%r11, 856(%r10)
	movups	-24(%r10), %xmm1
	movups	%xmm1, 840(%r10)
	movups	-24(%r10), %xmm1
	movups	%xmm1, 864(%r10)
	movq	-8(%r10), %r11
	movq	%r11, 880(%r10)
	movups	-24(%r10), %xmm1
	movups	%xmm1, 888(%r10)
	movq	-8(%r10), %r11
	movq	%r11, 904(%r10)
	movups	-24(%r10), %xmm1
	movups	%xmm1, 912(%r10)
	movq	-8(%r10), %r11
	movq	%r11, 928(%r10)
	movq	-8(%r10), %r11
	movq	%r11, 952(%r10)
	movups	-24(%r10), %xmm1
	movups	%xmm1, 936(%r10)
	movups	-24(%r10), %xmm1
	movups	%xmm1, 960(%r10)
	movq	-8(%r10), %r11
	movq	%r11, 976(%r10)
	movups	-24(%r10), %xmm1
	movups	%xmm1, 984(%r10)
	movq	-8(%r10), %r11
	movq	%r11, 1000(%r10)
	movups	-24(%r10), %xmm1
	movups	%xmm1, 1008(%r10)
	movq	-8(%r10), %r11
	movq	%r11, 1024(%r10)
	movq	-8(%r10), %r11
	movq	%r11, 1048(%r10)
	movups	-24(%r10), %xmm1
	movups	%xmm1, 1032(%r10)
	movups	-24(%r10), %xmm1
	movups	%xmm1, 1056(%r10)
	movq	-8(%r10), %r11
	movq	%r11, 1072(%r10)
	movups	-24(%r10), %xmm1
	movups	%xmm1, 1080(%r10)
	movq	-8(%r10), %r11
	movq	%r11, 1096(%r10)
	movups	-24(%r10), %xmm1
	movups	%xmm1, 1104(%r10)
	movq	-8(%r10), %r11
	movq	%r11, 1120(%r10)
	movq	-8(%r10), %r11
	movq	%r11, 1144(%r10)
	movups	-24(%r10), %xmm1
	movups	%xmm1, 1128(%r10)
	movups	-24(%r10), %xmm1
	movups	%xmm1, 1152(%r10)
	movq	-8(%r10), %r11
	movq	%r11, 1168(%r10)
	movups	-24(%r10), %xmm1
	movups	%xmm1, 1176(%r10)
	movq	-8(%r10), %r11
	movq	%r11, 1192(%r10)
	movups	-24(%r10), %xmm1
	movups	%xmm1, 1200(%r10)
	movq	-8(%r10), %r11
	movq	%r11, 1216(%r10)
	movq	-8(%r10), %r11
	movq	%r11, 1240(%r10)
	movups	-24(%r10), %xmm1
	movups	%xmm1, 1224(%r10)
	movups	-24(%r10), %xmm1
	movups	%xmm1, 1248(%r10)
	movq	-8(%r10), %r11
	movq	%r11, 1264(%r10)
	movups	-24(%r10), %xmm1
	movups	%xmm1, 1272(%r10)
	movq	-8(%r10), %r11
	movq	%r11, 1288(%r10)
	movups	-24(%r10), %xmm1
	movups	%xmm1, 1296(%r10)
	movq	-8(%r10), %r11
	movq	%r11, 1312(%r10)
	movq	-8(%r10), %r11
	movq	%r11, 1336(%r10)
	movups	-24(%r10), %xmm1
	movups	%xmm1, 1320(%r10)
	movups	-24(%r10), %xmm1
	movups	%xmm1, 1344(%r10)
	movq	-8(%r10), %r11
	movq	%r11, 1360(%r10)
	movups	-24(%r10), %xmm1
	movups	%xmm1, 1368(%r10)
	movq	-8(%r10), %r11
	movq	%r11, 1384(%r10)
	movups	-24(%r10), %xmm1
	movups	%xmm1, 1392(%r10)
	movq	-8(%r10), %r11
	movq	%r11, 1408(%r10)
	movq	-8(%r10), %r11
	movq	%r11, 1432(%r10)
	movups	-24(%r10), %xmm1
	movups	%xmm1, 1416(%r10)
	movups	-24(%r10), %xmm1
	movups	%xmm1, 1440(%r10)
	movq	-8(%r10), %r11
	movq	%r11, 1456(%r10)
	movups	-24(%r10), %xmm1
	movups	%xmm1, 1464(%r10)
	movq	-8(%r10), %r11
	movq	%r11, 1480(%r10)
	movups	-24(%r10), %xmm1
	movups	%xmm1, 1488(%r10)
	movq	-8(%r10), %r11
	movq	%r11, 1504(%r10)
	movq	-8(%r10), %r11
	movq	%r11, 1528(%r10)
	movups	-24(%r10), %xmm1
	movups	%xmm1, 1512(%r10)
	movups	-24(%r10), %xmm1
	movups	%xmm1, 1536(%r10)
	movq	-8(%r10), %r11
	movq	%r11, 1552(%r10)
	movups	-24(%r10), %xmm1
	movups	%xmm1, 1560(%r10)
	movq	-8(%r10), %r11
	movq	%r11, 1576(%r10)
	movups	-24(%r10), %xmm1
	movups	%xmm1, 1584(%r10)
	movq	-8(%r10), %r11
	movq	%r11, 1600(%r10)
	movq	-8(%r10), %r11
	movq	%r11, 1624(%r10)
	movups	-24(%r10), %xmm1
	movups	%xmm1, 1608(%r10)
	movups	-24(%r10), %xmm1
	movups	%xmm1, 1632(%r10)
	movq	-8(%r10), %r11
	movq	%r11, 1648(%r10)
	movups	-24(%r10), %xmm1
	movups	%xmm1, 1656(%r10)
	movq	-8(%r10), %r11
	movq	%r11, 1672(%r10)
	movups	-24(%r10), %xmm1
	movups	%xmm1, 1680(%r10)
	movq	-8(%r10), %r11
	movq	%r11, 1696(%r10)
	movq	-8(%r10), %r11
	movq	%r11, 1720(%r10)
	movups	-24(%r10), %xmm1
	movups	%xmm1, 1704(%r10)
	movups	-24(%r10), %xmm1
	movups	%xmm1, 1728(%r10)
	movq	-8(%r10), %r11
	movq	%r11, 1744(%r10)
	movups	-24(%r10), %xmm1
	movups	%xmm1, 1752(%r10)
	movq	-8(%r10), %r11
	movq	%r11, 1768(%r10)
	movups	-24(%r10), %xmm1
	movups	%xmm1, 1776(%r10)
	movq	-8(%r10), %r11
	movq	%r11, 1792(%r10)
	movq	-8(%r10), %r11
	movq	%r11, 1816(%r10)
	movups	-24(%r10), %xmm1
	movups	%xmm1, 1800(%r10)
	movups	-24(%r10), %xmm1
	movups	%xmm1, 1824(%r10)
	movq	-8(%r10), %r11
	movq	%r11, 1840(%r10)
	movups	-24(%r10), %xmm1
	movups	%xmm1, 1848(%r10)
	movq	-8(%r10), %r11
	movq	%r11, 1864(%r10)
	movups	-24(%r10), %xmm1
	movups	%xmm1, 1872(%r10)
	movq	-8(%r10), %r11
	movq	%r11, 1888(%r10)
	movq	-8(%r10), %r11
	movq	%r11, 1912(%r10)
	movups	-24(%r10), %xmm1
	movups	%xmm1, 1896(%r10)
	movups	-24(%r10), %xmm1
	movups	%xmm1, 1920(%r10)
	movq	-8(%r10), %r11
	movq	%r11, 1936(%r10)
	movups	-24(%r10), %xmm1
	movups	%xmm1, 1944(%r10)
	movq	-8(%r10), %r11
	movq	%r11, 1960(%r10)
	movups	-24(%r10), %xmm1
	movups	%xmm1, 1968(%r10)
	movq	-8(%r10), %r11
	movq	%r11, 1984(%r10)
	movq	-8(%r10), %r11
	movq	%r11, 2008(%r10)
	movups	-24(%r10), %xmm1
	movups	%xmm1, 1992(%r10)
	movups	-24(%r10), %xmm1
	movups	%xmm1, 2016(%r10)
	movq	-8(%r10), %r11
	movq	%r11, 2032(%r10)
4:
	leaq	85(%r8), %r10
	movq	%rdx, %r11
	subq	%r10, %r11
	addq	$2040, %r9
	cmpq	$85, %r11
	jbe	8f
5:
	movq	%r10, %r8
	testq	%r10, %r10
	je	3b
	movl	$2016, %r10d
	.p2align	4
6:
	movq	-8(%r9,%r10), %r11
	movq	%r11, 16(%r9,%r10)
	movups	-24(%r9,%r10), %xmm1
	movups	%xmm1, (%r9,%r10)
	testq	%r10, %r10
	je	4b
	movq	-32(%r9,%r10), %r11
	movq	%r11, -8(%r9,%r10)
	movups	-48(%r9,%r10), %xmm1
	movups	%xmm1, -24(%r9,%r10)
	addq	$-48, %r10
	jmp	6b
7:
	testq	%rdx, %rdx
	je	17f
	movl	%edx, %r8d
	andl	$3, %r8d
	cmpq	$3, %rcx
	jae	13f
	xorl	%ecx, %ecx
	jmp	15f
8:
	cmpq	%r10, %rdx
	je	17f
	leaq	(%rcx,%rcx,2), %rdx
	subq	%r8, %rcx
	addq	$-84, %rcx
	leaq	(%rax,%rdx,8), %rdx
	.p2align	4
9:
	movq	-8(%rdx), %r8
	movq	%r8, 16(%rdx)
	movups	-24(%rdx), %xmm1
	movups	%xmm1, (%rdx)
	addq	$-24, %rdx
	decq	%rcx
	jne	9b
	jmp	17f
10:
	movq	%rdx, %r10
	andq	$-2, %r10
	leaq	(%rcx,%rcx,2), %rcx
	leaq	(%rax,%rcx,8), %r11
	xorl	%ecx, %ecx
	.p2align	4
11:
	movq	-8(%r11), %rbx
	movq	%rbx, 16(%r11)
	movups	-24(%r11), %xmm1
	movups	%xmm1, (%r11)
	movabsq	$2305843009213693950, %rbx
	xorq	%rcx, %rbx
	addq	%rdx, %rbx
	shlq	$3, %rbx
	leaq	(%rbx,%rbx,2), %rbx
	movq	16(%r8,%rbx), %r14
	movq	%r14, 16(%r9,%rbx)
	movups	(%r8,%rbx), %xmm1
	movups	%xmm1, (%r9,%rbx)
	addq	$2, %rcx
	addq	$-48, %r11
	cmpq	%rcx, %r10
	jne	11b
	testb	$1, %dl
	je	17f
12:
	notq	%rcx
	addq	%rcx, %rdx
	shlq	$3, %rdx
	leaq	(%rdx,%rdx,2), %rcx
	movq	16(%r8,%rcx), %rdx
	movq	%rdx, 16(%r9,%rcx)
	movups	(%r8,%rcx), %xmm1
	movups	%xmm1, (%r9,%rcx)
	jmp	17f
13:
	andl	$124, %edx
	leaq	(,%rsi,8), %rcx
	leaq	(%rcx,%rcx,2), %r9
	xorl	%ecx, %ecx
	movq	%rax, %r10
	.p2align	4
14:
	movq	16(%r10,%r9), %r11
	movq	%r11, 16(%r10)
	movups	(%r10,%r9), %xmm1
	movups	%xmm1, (%r10)
	movq	40(%r10,%r9), %r11
	movq	%r11, 40(%r10)
	movups	24(%r10,%r9), %xmm1
	movups	%xmm1, 24(%r10)
	movq	64(%r10,%r9), %r11
	movq	%r11, 64(%r10)
	movups	48(%r10,%r9), %xmm1
	movups	%xmm1, 48(%r10)
	movups	72(%r10,%r9), %xmm1
	movups	%xmm1, 72(%r10)
	movq	88(%r10,%r9), %r11
	movq	%r11, 88(%r10)
	addq	$4, %rcx
	addq	$96, %r10
	cmpq	%rcx, %rdx
	jne	14b
	testq	%r8, %r8
	je	17f
15:
	shlq	$3, %rcx
	leaq	(%rcx,%rcx,2), %rcx
	leaq	(%rsi,%rsi,2), %rdx
	leaq	(%rcx,%rdx,8), %rdx
	addq	%rax, %rdx
	addq	%rax, %rcx
	shll	$3, %r8d
	leaq	(%r8,%r8,2), %r8
	xorl	%r9d, %r9d
	.p2align	4
16:
	movq	16(%rdx,%r9), %r10
	movq	%r10, 16(%rcx,%r9)
	movups	(%rdx,%r9), %xmm1
	movups	%xmm1, (%rcx,%r9)
	addq	$24, %r9
	cmpq	%r9, %r8
	jne	16b
17:
	leaq	(%rsi,%rsi,2), %rcx
	movq	-8(%rsp), %rdx
	movq	%rdx, 16(%rax,%rcx,8)
	movaps	-24(%rsp), %xmm1
	movups	%xmm1, (%rax,%rcx,8)
	movq	%rax, (%rdi)
	paddq	1b(%rip), %xmm0
	movdqu	%xmm0, 8(%rdi)
	popq	%rbx
	popq	%r14
	retq
18:
	.size	"std_alloc::vec::lodged::Vec+T+Lodged::insert_reserved::<#2262cf5b90b10fda>", 18b-"std_alloc::vec::lodged::Vec+T+Lodged::insert_reserved::<#2262cf5b90b10fda>"

	.section	.rodata.cst16,"aM",@progbits,16
	.p2align	4, 0x0
1:
	.long	1,0,0,0
	.text
	.p2align	4
	.type	"std_alloc::vec::lodged::Vec+T+Lodged::insert_reserved::<24'(,)::<#ee13f2425f1aee9b>>",@function
"std_alloc::vec::lodged::Vec+T+Lodged::insert_reserved::<24'(,)::<#ee13f2425f1aee9b>>":
	pushq	%r15
	pushq	%r14
	pushq	%rbx
	subq	$48, %rsp
	movups	(%rdx), %xmm0
	movups	16(%rdx), %xmm1
	movaps	%xmm1, 32(%rsp)
	movaps	%xmm0, 16(%rsp)
	movq	(%rdi), %rbx
	movq	8(%rdi), %rdx
	movdqu	8(%rdi), %xmm4
	xorps	%xmm0, %xmm0
	movups	%xmm0, 8(%rdi)
	cmpq	$-1, %rsi
	je	2f
	subq	%rsi, %rdx
	je	14f
	movq	%rsi, %rcx
	shlq	$5, %rcx
	leaq	(%rbx,%rcx), %rax
	addq	%rbx, %rcx
	addq	$32, %rcx
	shlq	$5, %rdx
	movq	%rdi, %r14
	movq	%rcx, %rdi
	movq	%rsi, %r15
	movq	%rax, %rsi
	movdqa	%xmm4, (%rsp)
	callq	memmove@PLT
	movdqa	(%rsp), %xmm4
	movq	%r15, %rsi
	movq	%r14, %rdi
	jmp	14f
2:
	leaq	1(%rdx), %rax
	movq	%rbx, %r8
	movq	%rax, %r9
	cmpq	$65, %rax
	jb	9f
	xorl	%r8d, %r8d
	jmp	5f
	.p2align	4
3:
	movups	(%r9), %xmm0
	movups	16(%r9), %xmm1
	movups	%xmm1, 16(%r8)
	movups	%xmm0, (%r8)
	movups	(%r9), %xmm0
	movups	16(%r9), %xmm1
	movups	%xmm1, 48(%r8)
	movups	%xmm0, 32(%r8)
	movups	(%r9), %xmm0
	movups	16(%r9), %xmm1
	movups	%xmm1, 80(%r8)
	movups	%xmm0, 64(%r8)
	movups	(%r9), %xmm0
	movups	16(%r9), %xmm1
	movups	%xmm1, 112(%r8)
	movups	%xmm0, 96(%r8)
	movups	(%r9), %xmm0
	movups	16(%r9), %xmm1
	movups	%xmm1, 144(%r8)
	movups	%xmm0, 128(%r8)
	movups	(%r9), %xmm0
	movups	16(%r9), %xmm1
	movups	%xmm0, 160(%r8)
	movups	%xmm1, 176(%r8)
	movups	(%r9), %xmm0
	movups	16(%r9), %xmm1
	movups	%xmm0, 192(%r8)
	movups	%xmm1, 208(%r8)
	movups	(%r9), %xmm0
	movups	16(%r9), %xmm1
	movups	%xmm1, 240(%r8)
	movups	%xmm0, 224(%r8)
	movups	(%r9), %xmm0
	movups	16(%r9), %xmm1
	movups	%xmm0, 256(%r8)
	movups	%xmm1, 272(%r8)
	movups	(%r9), %xmm0
	movups	16(%r9), %xmm1
	movups	%xmm0, 288(%r8)
	movups	%xmm1, 304(%r8)
	movups	(%r9), %xmm0
	movups	16(%r9), %xmm1
	movups	%xmm1, 336(%r8)
	movups	%xmm0, 320(%r8)
	movups	(%r9), %xmm0
	movups	16(%r9), %xmm1
	movups	%xmm1, 368(%r8)
	movups	%xmm0, 352(%r8)
	movups	(%r9), %xmm0
	movups	16(%r9), %xmm1
	movups	%xmm0, 384(%r8)
	movups	%xmm1, 400(%r8)
	movups	(%r9), %xmm0
	movups	16(%r9), %xmm1
	movups	%xmm0, 416(%r8)
	movups	%xmm1, 432(%r8)
	movups	(%r9), %xmm0
	movups	16(%r9), %xmm1
	movups	%xmm0, 448(%r8)
	movups	%xmm1, 464(%r8)
	movups	(%r9), %xmm0
	movups	16(%r9), %xmm1
	movups	%xmm1, 496(%r8)
	movups	%xmm0, 480(%r8)
	movups	(%r9), %xmm0
	movups	16(%r9), %xmm1
	movups	%xmm0, 512(%r8)
	movups	%xmm1, 528(%r8)
	movups	(%r9), %xmm0
	movups	16(%r9), %xmm1
	movups	%xmm0, 544(%r8)
	movups	%xmm1, 560(%r8)
	movups	(%r9), %xmm0
	movups	16(%r9), %xmm1
	movups	%xmm0, 576(%r8)
	movups	%xmm1, 592(%r8)
	movups	(%r9), %xmm0
	movups	16(%r9), %xmm1
	movups	%xmm1, 624(%r8)
	movups	%xmm0, 608(%r8)
	movups	(%r9), %xmm0
	movups	16(%r9), %xmm1
	movups	%xmm0, 640(%r8)
	movups	%xmm1, 656(%r8)
	movups	(%r9), %xmm0
	movups	16(%r9), %xmm1
	movups	%xmm0, 672(%r8)
	movups	%xmm1, 688(%r8)
	movups	(%r9), %xmm0
	movups	16(%r9), %xmm1
	movups	%xmm0, 704(%r8)
	movups	%xmm1, 720(%r8)
	movups	(%r9), %xmm0
	movups	16(%r9), %xmm1
	movups	%xmm1, 752(%r8)
	movups	%xmm0, 736(%r8)
	movups	(%r9), %xmm0
	movups	16(%r9), %xmm1
	movups	%xmm0, 768(%r8)
	movups	%xmm1, 784(%r8)
	movups	(%r9), %xmm0
	movups	16(%r9), %xmm1
	movups	%xmm0, 800(%r8)
	movups	%xmm1, 816(%r8)
	movups	(%r9), %xmm0
	movups	16(%r9), %xmm1
	movups	%xmm0, 832(%r8)
	movups	%xmm1, 848(%r8)
	movups	(%r9), %xmm0
	movups	16(%r9), %xmm1
	movups	%xmm1, 880(%r8)
	movups	%xmm0, 864(%r8)
	movups	(%r9), %xmm0
	movups	16(%r9), %xmm1
	movups	%xmm0, 896(%r8)
	movups	%xmm1, 912(%r8)
	movups	(%r9), %xmm0
	movups	16(%r9), %xmm1
	movups	%xmm0, 928(%r8)
	movups	%xmm1, 944(%r8)
	movups	(%r9), %xmm0
	movups	16(%r9), %xmm1
	movups	%xmm0, 960(%r8)
	movups	%xmm1, 976(%r8)
	movups	(%r9), %xmm0
	movups	16(%r9), %xmm1
	movups	%xmm1, 1008(%r8)
	movups	%xmm0, 992(%r8)
	movups	(%r9), %xmm0
	movups	16(%r9), %xmm1
	movups	%xmm0, 1024(%r8)
	movups	%xmm1, 1040(%r8)
	movups	(%r9), %xmm0
	movups	16(%r9), %xmm1
	movups	%xmm0, 1056(%r8)
	movups	%xmm1, 1072(%r8)
	movups	(%r9), %xmm0
	movups	16(%r9), %xmm1
	movups	%xmm0, 1088(%r8)
	movups	%xmm1, 1104(%r8)
	movups	(%r9), %xmm0
	movups	16(%r9), %xmm1
	movups	%xmm1, 1136(%r8)
	movups	%xmm0, 1120(%r8)
	movups	(%r9), %xmm0
	movups	16(%r9), %xmm1
	movups	%xmm0, 1152(%r8)
	movups	%xmm1, 1168(%r8)
	movups	(%r9), %xmm0
	movups	16(%r9), %xmm1
	movups	%xmm0, 1184(%r8)
	movups	%xmm1, 1200(%r8)
	movups	(%r9), %xmm0
	movups	16(%r9), %xmm1
	movups	%xmm0, 1216(%r8)
	movups	%xmm1, 1232(%r8)
	movups	(%r9), %xmm0
	movups	16(%r9), %xmm1
	movups	%xmm1, 1264(%r8)
	movups	%xmm0, 1248(%r8)
	movups	(%r9), %xmm0
	movups	16(%r9), %xmm1
	movups	%xmm0, 1280(%r8)
	movups	%xmm1, 1296(%r8)
	movups	(%r9), %xmm0
	movups	16(%r9), %xmm1
	movups	%xmm0, 1312(%r8)
	movups	%xmm1, 1328(%r8)
	movups	(%r9), %xmm0
	movups	16(%r9), %xmm1
	movups	%xmm0, 1344(%r8)
	movups	%xmm1, 1360(%r8)
	movups	(%r9), %xmm0
	movups	16(%r9), %xmm1
	movups	%xmm1, 1392(%r8)
	movups	%xmm0, 1376(%r8)
	movups	(%r9), %xmm0
	movups	16(%r9), %xmm1
	movups	%xmm0, 1408(%r8)
	movups	%xmm1, 1424(%r8)
	movups	(%r9), %xmm0
	movups	16(%r9), %xmm1
	movups	%xmm0, 1440(%r8)
	movups	%xmm1, 1456(%r8)
	movups	(%r9), %xmm0
	movups	16(%r9), %xmm1
	movups	%xmm0, 1472(%r8)
	movups	%xmm1, 1488(%r8)
	movups	(%r9), %xmm0
	movups	16(%r9), %xmm1
	movups	%xmm1, 1520(%r8)
	movups	%xmm0, 1504(%r8)
	movups	(%r9), %xmm0
	movups	16(%r9), %xmm1
	movups	%xmm0, 1536(%r8)
	movups	%xmm1, 1552(%r8)
	movups	(%r9), %xmm0
	movups	16(%r9), %xmm1
	movups	%xmm0, 1568(%r8)
	movups	%xmm1, 1584(%r8)
	movups	(%r9), %xmm0
	movups	16(%r9), %xmm1
	movups	%xmm0, 1600(%r8)
	movups	%xmm1, 1616(%r8)
	movups	(%r9), %xmm0
	movups	16(%r9), %xmm1
	movups	%xmm1, 1648(%r8)
	movups	%xmm0, 1632(%r8)
	movups	(%r9), %xmm0
	movups	16(%r9), %xmm1
	movups	%xmm0, 1664(%r8)
	movups	%xmm1, 1680(%r8)
	movups	(%r9), %xmm0
	movups	16(%r9), %xmm1
	movups	%xmm0, 1696(%r8)
	movups	%xmm1, 1712(%r8)
	movups	(%r9), %xmm0
	movups	16(%r9), %xmm1
	movups	%xmm0, 1728(%r8)
	movups	%xmm1, 1744(%r8)
	movups	(%r9), %xmm0
	movups	16(%r9), %xmm1
	movups	%xmm1, 1776(%r8)
	movups	%xmm0, 1760(%r8)
	movups	(%r9), %xmm0
	movups	16(%r9), %xmm1
	movups	%xmm0, 1792(%r8)
	movups	%xmm1, 1808(%r8)
	movups	(%r9), %xmm0
	movups	16(%r9), %xmm1
	movups	%xmm0, 1824(%r8)
	movups	%xmm1, 1840(%r8)
	movups	(%r9), %xmm0
	movups	16(%r9), %xmm1
	movups	%xmm0, 1856(%r8)
	movups	%xmm1, 1872(%r8)
	movups	(%r9), %xmm0
	movups	16(%r9), %xmm1
	movups	%xmm1, 1904(%r8)
	movups	%xmm0, 1888(%r8)
	movups	(%r9), %xmm0
	movups	16(%r9), %xmm1
	movups	%xmm0, 1920(%r8)
	movups	%xmm1, 1936(%r8)
	movups	(%r9), %xmm0
	movups	16(%r9), %xmm1
	movups	%xmm0, 1952(%r8)
	movups	%xmm1, 1968(%r8)
	movups	(%r9), %xmm0
	movups	16(%r9), %xmm1
	movups	%xmm0, 1984(%r8)
	movups	%xmm1, 2000(%r8)
	movups	(%r9), %xmm0
	movups	16(%r9), %xmm1
	movups	%xmm1, 2032(%r8)
	movups	%xmm0, 2016(%r8)
4:
	leaq	64(%rcx), %r8
	movq	%rax, %r9
	subq	%r8, %r9
	cmpq	$64, %r9
	jbe	6f
5:
	movq	%r8, %rcx
	movq	%r8, %r9
	shlq	$5, %r9
	leaq	(%rbx,%r9), %r8
	addq	%rbx, %r9
	addq	$-32, %r9
	testq	%rcx, %rcx
	je	3b
	movups	2000(%r8), %xmm0
	movups	%xmm0, 2032(%r8)
	movups	1984(%r8), %xmm0
	movups	%xmm0, 2016(%r8)
	movups	1952(%r8), %xmm0
	movups	%xmm0, 1984(%r8)
	movups	1968(%r8), %xmm0
	movups	%xmm0, 2000(%r8)
	movups	1920(%r8), %xmm0
	movups	%xmm0, 1952(%r8)
	movups	1936(%r8), %xmm0
	movups	%xmm0, 1968(%r8)
	movups	1856(%r8), %xmm0
	movups	1872(%r8), %xmm1
	movups	1888(%r8), %xmm2
	movups	1904(%r8), %xmm3
	movups	%xmm2, 1920(%r8)
	movups	%xmm3, 1936(%r8)
	movups	%xmm1, 1904(%r8)
	movups	%xmm0, 1888(%r8)
	movups	1824(%r8), %xmm0
	movups	1840(%r8), %xmm1
	movups	%xmm1, 1872(%r8)
	movups	%xmm0, 1856(%r8)
	movups	1792(%r8), %xmm0
	movups	1808(%r8), %xmm1
	movups	%xmm1, 1840(%r8)
	movups	%xmm0, 1824(%r8)
	movups	1760(%r8), %xmm0
	movups	1776(%r8), %xmm1
	movups	%xmm1, 1808(%r8)
	movups	%xmm0, 1792(%r8)
	movups	1728(%r8), %xmm0
	movups	1744(%r8), %xmm1
	movups	%xmm1, 1776(%r8)
	movups	%xmm0, 1760(%r8)
	movups	1696(%r8), %xmm0
	movups	1712(%r8), %xmm1
	movups	%xmm1, 1744(%r8)
	movups	%xmm0, 1728(%r8)
	movups	1664(%r8), %xmm0
	movups	1680(%r8), %xmm1
	movups	%xmm1, 1712(%r8)
	movups	%xmm0, 1696(%r8)
	movups	1632(%r8), %xmm0
	movups	1648(%r8), %xmm1
	movups	%xmm1, 1680(%r8)
	movups	%xmm0, 1664(%r8)
	movups	1600(%r8), %xmm0
	movups	1616(%r8), %xmm1
	movups	%xmm1, 1648(%r8)
	movups	%xmm0, 1632(%r8)
	movups	1568(%r8), %xmm0
	movups	1584(%r8), %xmm1
	movups	%xmm1, 1616(%r8)
	movups	%xmm0, 1600(%r8)
	movups	1536(%r8), %xmm0
	movups	1552(%r8), %xmm1
	movups	%xmm1, 1584(%r8)
	movups	%xmm0, 1568(%r8)
	movups	1504(%r8), %xmm0
	movups	1520(%r8), %xmm1
	movups	%xmm1, 1552(%r8)
	movups	%xmm0, 1536(%r8)
	movups	1472(%r8), %xmm0
	movups	1488(%r8), %xmm1
	movups	%xmm1, 1520(%r8)
	movups	%xmm0, 1504(%r8)
	movups	1440(%r8), %xmm0
	movups	1456(%r8), %xmm1
	movups	%xmm1, 1488(%r8)
	movups	%xmm0, 1472(%r8)
	movups	1408(%r8), %xmm0
	movups	1424(%r8), %xmm1
	movups	%xmm1, 1456(%r8)
	movups	%xmm0, 1440(%r8)
	movups	1376(%r8), %xmm0
	movups	1392(%r8), %xmm1
	movups	%xmm1, 1424(%r8)
	movups	%xmm0, 1408(%r8)
	movups	1344(%r8), %xmm0
	movups	1360(%r8), %xmm1
	movups	%xmm1, 1392(%r8)
	movups	%xmm0, 1376(%r8)
	movups	1312(%r8), %xmm0
	movups	1328(%r8), %xmm1
	movups	%xmm1, 1360(%r8)
	movups	%xmm0, 1344(%r8)
	movups	1280(%r8), %xmm0
	movups	1296(%r8), %xmm1
	movups	%xmm1, 1328(%r8)
	movups	%xmm0, 1312(%r8)
	movups	1248(%r8), %xmm0
	movups	1264(%r8), %xmm1
	movups	%xmm1, 1296(%r8)
	movups	%xmm0, 1280(%r8)
	movups	1216(%r8), %xmm0
	movups	1232(%r8), %xmm1
	movups	%xmm1, 1264(%r8)
	movups	%xmm0, 1248(%r8)
	movups	1184(%r8), %xmm0
	movups	1200(%r8), %xmm1
	movups	%xmm1, 1232(%r8)
	movups	%xmm0, 1216(%r8)
	movups	1152(%r8), %xmm0
	movups	1168(%r8), %xmm1
	movups	%xmm1, 1200(%r8)
	movups	%xmm0, 1184(%r8)
	movups	1120(%r8), %xmm0
	movups	1136(%r8), %xmm1
	movups	%xmm1, 1168(%r8)
	movups	%xmm0, 1152(%r8)
	movups	1088(%r8), %xmm0
	movups	1104(%r8), %xmm1
	movups	%xmm1, 1136(%r8)
	movups	%xmm0, 1120(%r8)
	movups	1056(%r8), %xmm0
	movups	1072(%r8), %xmm1
	movups	%xmm1, 1104(%r8)
	movups	%xmm0, 1088(%r8)
	movups	1024(%r8), %xmm0
	movups	1040(%r8), %xmm1
	movups	%xmm1, 1072(%r8)
	movups	%xmm0, 1056(%r8)
	movups	992(%r8), %xmm0
	movups	1008(%r8), %xmm1
	movups	%xmm1, 1040(%r8)
	movups	%xmm0, 1024(%r8)
	movups	960(%r8), %xmm0
	movups	976(%r8), %xmm1
	movups	%xmm1, 1008(%r8)
	movups	%xmm0, 992(%r8)
	movups	928(%r8), %xmm0
	movups	944(%r8), %xmm1
	movups	%xmm1, 976(%r8)
	movups	%xmm0, 960(%r8)
	movups	896(%r8), %xmm0
	movups	912(%r8), %xmm1
	movups	%xmm1, 944(%r8)
	movups	%xmm0, 928(%r8)
	movups	864(%r8), %xmm0
	movups	880(%r8), %xmm1
	movups	%xmm1, 912(%r8)
	movups	%xmm0, 896(%r8)
	movups	832(%r8), %xmm0
	movups	848(%r8), %xmm1
	movups	%xmm1, 880(%r8)
	movups	%xmm0, 864(%r8)
	movups	800(%r8), %xmm0
	movups	816(%r8), %xmm1
	movups	%xmm1, 848(%r8)
	movups	%xmm0, 832(%r8)
	movups	768(%r8), %xmm0
	movups	784(%r8), %xmm1
	movups	%xmm1, 816(%r8)
	movups	%xmm0, 800(%r8)
	movups	736(%r8), %xmm0
	movups	752(%r8), %xmm1
	movups	%xmm1, 784(%r8)
	movups	%xmm0, 768(%r8)
	movups	704(%r8), %xmm0
	movups	720(%r8), %xmm1
	movups	%xmm1, 752(%r8)
	movups	%xmm0, 736(%r8)
	movups	672(%r8), %xmm0
	movups	688(%r8), %xmm1
	movups	%xmm1, 720(%r8)
	movups	%xmm0, 704(%r8)
	movups	640(%r8), %xmm0
	movups	656(%r8), %xmm1
	movups	%xmm1, 688(%r8)
	movups	%xmm0, 672(%r8)
	movups	608(%r8), %xmm0
	movups	624(%r8), %xmm1
	movups	%xmm1, 656(%r8)
	movups	%xmm0, 640(%r8)
	movups	576(%r8), %xmm0
	movups	592(%r8), %xmm1
	movups	%xmm1, 624(%r8)
	movups	%xmm0, 608(%r8)
	movups	544(%r8), %xmm0
	movups	560(%r8), %xmm1
	movups	%xmm1, 592(%r8)
	movups	%xmm0, 576(%r8)
	movups	512(%r8), %xmm0
	movups	528(%r8), %xmm1
	movups	%xmm1, 560(%r8)
	movups	%xmm0, 544(%r8)
	movups	480(%r8), %xmm0
	movups	496(%r8), %xmm1
	movups	%xmm1, 528(%r8)
	movups	%xmm0, 512(%r8)
	movups	448(%r8), %xmm0
	movups	464(%r8), %xmm1
	movups	%xmm1, 496(%r8)
	movups	%xmm0, 480(%r8)
	movups	416(%r8), %xmm0
	movups	432(%r8), %xmm1
	movups	%xmm1, 464(%r8)
	movups	%xmm0, 448(%r8)
	movups	384(%r8), %xmm0
	movups	400(%r8), %xmm1
	movups	%xmm1, 432(%r8)
	movups	%xmm0, 416(%r8)
	movups	352(%r8), %xmm0
	movups	368(%r8), %xmm1
	movups	%xmm1, 400(%r8)
	movups	%xmm0, 384(%r8)
	movups	320(%r8), %xmm0
	movups	336(%r8), %xmm1
	movups	%xmm1, 368(%r8)
	movups	%xmm0, 352(%r8)
	movups	288(%r8), %xmm0
	movups	304(%r8), %xmm1
	movups	%xmm1, 336(%r8)
	movups	%xmm0, 320(%r8)
	movups	256(%r8), %xmm0
	movups	272(%r8), %xmm1
	movups	%xmm1, 304(%r8)
	movups	%xmm0, 288(%r8)
	movups	224(%r8), %xmm0
	movups	240(%r8), %xmm1
	movups	%xmm1, 272(%r8)
	movups	%xmm0, 256(%r8)
	movups	192(%r8), %xmm0
	movups	208(%r8), %xmm1
	movups	%xmm1, 240(%r8)
	movups	%xmm0, 224(%r8)
	movups	160(%r8), %xmm0
	movups	176(%r8), %xmm1
	movups	%xmm1, 208(%r8)
	movups	%xmm0, 192(%r8)
	movups	128(%r8), %xmm0
	movups	144(%r8), %xmm1
	movups	%xmm1, 176(%r8)
	movups	%xmm0, 160(%r8)
	movups	96(%r8), %xmm0
	movups	112(%r8), %xmm1
	movups	%xmm1, 144(%r8)
	movups	%xmm0, 128(%r8)
	movups	64(%r8), %xmm0
	movups	80(%r8), %xmm1
	movups	%xmm1, 112(%r8)
	movups	%xmm0, 96(%r8)
	movups	32(%r8), %xmm0
	movups	48(%r8), %xmm1
	movups	%xmm1, 80(%r8)
	movups	%xmm0, 64(%r8)
	movups	(%r8), %xmm0
	movups	16(%r8), %xmm1
	movups	%xmm1, 48(%r8)
	movups	%xmm0, 32(%r8)
	movups	(%r9), %xmm0
	movups	16(%r9), %xmm1
	movups	%xmm1, 16(%r8)
	movups	%xmm0, (%r8)
	jmp	4b
6:
	testq	%r8, %r8
	je	8f
	cmpq	%r8, %rax
	je	14f
	movq	%rdx, %rax
	subq	%rcx, %rax
	addq	$-63, %rax
	shlq	$5, %rdx
	addq	%rbx, %rdx
	.p2align	4
7:
	movups	-32(%rdx), %xmm0
	movups	-16(%rdx), %xmm1
	movups	%xmm1, 16(%rdx)
	movups	%xmm0, (%rdx)
	addq	$-32, %rdx
	decq	%rax
	jne	7b
	jmp	14f
8:
	shlq	$5, %r8
	addq	%rbx, %r8
9:
	testq	%rax, %rax
	je	14f
	leaq	-1(%r9), %rcx
	movl	%r9d, %eax
	andl	$3, %eax
	cmpq	$3, %rcx
	jae	10f
	xorl	%ecx, %ecx
	jmp	12f
10:
	andl	$124, %r9d
	xorl	%ecx, %ecx
	movq	%r8, %rdx
	.p2align	4
11:
	movups	-32(%rdx), %xmm0
	movups	-16(%rdx), %xmm1
	movups	%xmm1, 16(%rdx)
	movups	%xmm0, (%rdx)
	movups	%xmm0, 32(%rdx)
	movups	%xmm1, 48(%rdx)
	movups	%xmm0, 64(%rdx)
	movups	%xmm1, 80(%rdx)
	movups	%xmm0, 96(%rdx)
	movups	%xmm1, 112(%rdx)
	addq	$4, %rcx
	subq	$-128, %rdx
	cmpq	%rcx, %r9
	jne	11b
	testq	%rax, %rax
	je	14f
12:
	shlq	$5, %rcx
	addq	%rcx, %r8
	shll	$5, %eax
	xorl	%ecx, %ecx
	.p2align	4
13:
	movups	-32(%r8,%rcx), %xmm0
	movups	-16(%r8,%rcx), %xmm1
	movups	%xmm1, 16(%r8,%rcx)
	movups	%xmm0, (%r8,%rcx)
	addq	$32, %rcx
	cmpq	%rcx, %rax
	jne	13b
14:
	shlq	$5, %rsi
	movaps	16(%rsp), %xmm0
	movaps	32(%rsp), %xmm1
	movups	%xmm1, 16(%rbx,%rsi)
	movups	%xmm0, (%rbx,%rsi)
	movq	%rbx, (%rdi)
	paddq	1b(%rip), %xmm4
	movdqu	%xmm4, 8(%rdi)
	addq	$48, %rsp
	popq	%rbx
	popq	%r14
	popq	%r15
	retq
15:
	.size	"std_alloc::vec::lodged::Vec+T+Lodged::insert_reserved::<24'(,)::<#ee13f2425f1aee9b>>", 15b-"std_alloc::vec::lodged::Vec+T+Lodged::insert_reserved::<24'(,)::<#ee13f2425f1aee9b>>"

	.section	.rodata.cst16,"aM",@progbits,16
	.p2align	4, 0x0
1:
	.long	1,0,0,0
	.text
	.p2align	4
	.type	"std_alloc::vec::lodged::Vec+T+Lodged::insert_reserved::<38'(,,)::<i8,3'&[](*,i64,),3'&[](*,i64,)>>",@function
"std_alloc::vec::lodged::Vec+T+Lodged::insert_reserved::<38'(,,)::<i8,3'&[](*,i64,),3'&[](*,i64,)>>":
	pushq	%r14
	pushq	%rbx
	movq	32(%rdx), %rax
	movq	%rax, -8(%rsp)
	movups	(%rdx), %xmm0
	movups	16(%rdx), %xmm1
	movaps	%xmm1, -24(%rsp)
	movaps	%xmm0, -40(%rsp)
	movq	(%rdi), %rax
	movq	8(%rdi), %rcx
	movdqu	8(%rdi), %xmm0
	xorps	%xmm1, %xmm1
	movups	%xmm1, 8(%rdi)
	movq	%rsi, %r10
	incq	%r10
	je	2f
	cmpq	%rsi, %rcx
	je	16f
	movq	%rcx, %r9
	subq	%rsi, %r9
	leaq	(%rsi,%rsi,4), %rdx
	leaq	(%rax,%rdx,8), %rdx
	leaq	(%r10,%r10,4), %r8
	leaq	(%rax,%r8,8), %r8
	cmpq	%r10, %rcx
	jne	9f
	xorl	%ecx, %ecx
	jmp	11f
2:
	leaq	1(%rcx), %rdx
	cmpq	$52, %rdx
	jb	6f
	xorl	%r9d, %r9d
	jmp	5f
	.p2align	4
3:
	movq	-8(%r9), %r10
	movq	%r10, 32(%r9)
	movups	-40(%r9), %xmm1
	movups	-24(%r9), %xmm2
	movups	%xmm2, 16(%r9)
	movups	%xmm1, (%r9)
	movq	-8(%r9), %r10
	movq	%r10, 72(%r9)
	movups	-40(%r9), %xmm1
	movups	-24(%r9), %xmm2
	movups	%xmm2, 56(%r9)
	movups	%xmm1, 40(%r9)
	movq	-8(%r9), %r10
	movq	%r10, 112(%r9)
	movups	-40(%r9), %xmm1
	movups	-24(%r9), %xmm2
	movups	%xmm2, 96(%r9)
	movups	%xmm1, 80(%r9)
	movups	-40(%r9), %xmm1
	movups	-24(%r9), %xmm2
	movups	%xmm1, 120(%r9)
	movups	%xmm2, 136(%r9)
	movq	-8(%r9), %r10
	movq	%r10, 152(%r9)
	movups	-40(%r9), %xmm1
	movups	-24(%r9), %xmm2
	movups	%xmm2, 176(%r9)
	movq	-8(%r9), %r10
	movq	%r10, 192(%r9)
	movups	%xmm1, 160(%r9)
	movups	-40(%r9), %xmm1
	movups	-24(%r9), %xmm2
	movups	%xmm1, 200(%r9)
	movups	%xmm2, 216(%r9)
	movq	-8(%r9), %r10
	movq	%r10, 232(%r9)
	movups	-40(%r9), %xmm1
	movups	-24(%r9), %xmm2
	movups	%xmm1, 240(%r9)
	movups	%xmm2, 256(%r9)
	movq	-8(%r9), %r10
	movq	%r10, 272(%r9)
	movups	-40(%r9), %xmm1
	movups	-24(%r9), %xmm2
	movups	%xmm1, 280(%r9)
	movq	-8(%r9), %r10
	movq	%r10, 312(%r9)
	movups	%xmm2, 296(%r9)
	movq	-8(%r9), %r10
	movq	%r10, 352(%r9)
	movups	-40(%r9), %xmm1
	movups	-24(%r9), %xmm2
	movups	%xmm2, 336(%r9)
	movups	%xmm1, 320(%r9)
	movups	-40(%r9), %xmm1
	movups	-24(%r9), %xmm2
	movups	%xmm1, 360(%r9)
	movups	%xmm2, 376(%r9)
	movq	-8(%r9), %r10
	movq	%r10, 392(%r9)
	movups	-40(%r9), %xmm1
	movups	-24(%r9), %xmm2
	movups	%xmm1, 400(%r9)
	movups	%xmm2, 416(%r9)
	movq	-8(%r9), %r10
	movq	%r10, 432(%r9)
	movups	-40(%r9), %xmm1
	movups	-24(%r9), %xmm2
	movups	%xmm1, 440(%r9)
	movups	%xmm2, 456(%r9)
	movq	-8(%r9), %r10
	movq	%r10, 472(%r9)
	movups	-40(%r9), %xmm1
	movups	-24(%r9), %xmm2
	movups	%xmm1, 480(%r9)
	movups	%xmm2, 496(%r9)
	movq	-8(%r9), %r10
	movq	%r10, 512(%r9)
	movups	-40(%r9), %xmm1
	movups	-24(%r9), %xmm2
	movups	%xmm1, 520(%r9)
	movq	-8(%r9), %r10
	movq	%r10, 552(%r9)
	movups	%xmm2, 536(%r9)
	movq	-8(%r9), %r10
	movq	%r10, 592(%r9)
	movups	-40(%r9), %xmm1
	movups	-24(%r9), %xmm2
	movups	%xmm2, 576(%r9)
	movups	%xmm1, 560(%r9)
	movups	-40(%r9), %xmm1
	movups	-24(%r9), %xmm2
	movups	%xmm1, 600(%r9)
	movups	%xmm2, 616(%r9)
	movq	-8(%r9), %r10
	movq	%r10, 632(%r9)
	movups	-40(%r9), %xmm1
	movups	-24(%r9), %xmm2
	movups	%xmm1, 640(%r9)
	movups	%xmm2, 656(%r9)
	movq	-8(%r9), %r10
	movq	%r10, 672(%r9)
	movups	-40(%r9), %xmm1
	movups	-24(%r9), %xmm2
	movups	%xmm1, 680(%r9)
	movups	%xmm2, 696(%r9)
	movq	-8(%r9), %r10
	movq	%r10, 712(%r9)
	movups	-40(%r9), %xmm1
	movups	-24(%r9), %xmm2
	movups	%xmm1, 720(%r9)
	movups	%xmm2, 736(%r9)
	movq	-8(%r9), %r10
	movq	%r10, 752(%r9)
	movups	-40(%r9), %xmm1
	movups	-24(%r9), %xmm2
	movups	%xmm1, 760(%r9)
	movq	-8(%r9), %r10
	movq	%r10, 792(%r9)
	movups	%xmm2, 776(%r9)
	movq	-8(%r9), %r10
	movq	%r10, 832(%r9)
	movups	-40(%r9), %xmm1
	movups	-24(%r9), %xmm2
	movups	%xmm2, 816(%r9)
	movups	%xmm1, 800(%r9)
	movups	-40(%r9), %xmm1
	movups	-24(%r9), %xmm2
	movups	%xmm1, 840(%r9)
	movups	%xmm2, 856(%r9)
	movq	-8(%r9), %r10
	movq	%r10, 872(%r9)
	movups	-40(%r9), %xmm1
	movups	-24(%r9), %xmm2
	movups	%xmm1, 880(%r9)
	movups	%xmm2, 896(%r9)
	movq	-8(%r9), %r10
	movq	%r10, 912(%r9)
	movups	-40(%r9), %xmm1
	movups	-24(%r9), %xmm2
	movups	%xmm1, 920(%r9)
	movups	%xmm2, 936(%r9)
	movq	-8(%r9), %r10
	movq	%r10, 952(%r9)
	movups	-40(%r9), %xmm1
	movups	-24(%r9), %xmm2
	movups	%xmm1, 960(%r9)
	movups	%xmm2, 976(%r9)
	movq	-8(%r9), %r10
	movq	%r10, 992(%r9)
	movups	-40(%r9), %xmm1
	movups	-24(%r9), %xmm2
	movups	%xmm1, 1000(%r9)
	movq	-8(%r9), %r10
	movq	%r10, 1032(%r9)
	movups	%xmm2, 1016(%r9)
	movq	-8(%r9), %r10
	movq	%r10, 1072(%r9)
	movups	-40(%r9), %xmm1
	movups	-24(%r9), %xmm2
	movups	%xmm2, 1056(%r9)
	movups	%xmm1, 1040(%r9)
	movups	-40(%r9), %xmm1
	movups	-24(%r9), %xmm2
	movups	%xmm1, 1080(%r9)
	movups	%xmm2, 1096(%r9)
	movq	-8(%r9), %r10
	movq	%r10, 1112(%r9)
	movups	-40(%r9), %xmm1
	movups	-24(%r9), %xmm2
	movups	%xmm1, 1120(%r9)
	movups	%xmm2, 1136(%r9)
	movq	-8(%r9), %r10
	movq	%r10, 1152(%r9)
	movups	-40(%r9), %xmm1
	movups	-24(%r9), %xmm2
	movups	%xmm1, 1160(%r9)
	movups	%xmm2, 1176(%r9)
	movq	-8(%r9), %r10
	movq	%r10, 1192(%r9)
	movups	-40(%r9), %xmm1
	movups	-24(%r9), %xmm2
	movups	%xmm1, 1200(%r9)
	movups	%xmm2, 1216(%r9)
	movq	-8(%r9), %r10
	movq	%r10, 1232(%r9)
	movups	-40(%r9), %xmm1
	movups	-24(%r9), %xmm2
	movups	%xmm1, 1240(%r9)
	movq	-8(%r9), %r10
	movq	%r10, 1272(%r9)
	movups	%xmm2, 1256(%r9)
	movq	-8(%r9), %r10
	movq	%r10, 1312(%r9)
	movups	-40(%r9), %xmm1
	movups	-24(%r9), %xmm2
	movups	%xmm2, 1296(%r9)
	movups	%xmm1, 1280(%r9)
	movups	-40(%r9), %xmm1
	movups	-24(%r9), %xmm2
	movups	%xmm1, 1320(%r9)
	movups	%xmm2, 1336(%r9)
	movq	-8(%r9), %r10
	movq	%r10, 1352(%r9)
	movups	-40(%r9), %xmm1
	movups	-24(%r9), %xmm2
	movups	%xmm1, 1360(%r9)
	movups	%xmm2, 1376(%r9)
	movq	-8(%r9), %r10
	movq	%r10, 1392(%r9)
	movups	-40(%r9), %xmm1
	movups	-24(%r9), %xmm2
	movups	%xmm1, 1400(%r9)
	movups	%xmm2, 1416(%r9)
	movq	-8(%r9), %r10
	movq	%r10, 1432(%r9)
	movups	-40(%r9), %xmm1
	movups	-24(%r9), %xmm2
	movups	%xmm1, 1440(%r9)
	movups	%xmm2, 1456(%r9)
	movq	-8(%r9), %r10
	movq	%r10, 1472(%r9)
	movups	-40(%r9), %xmm1
	movups	-24(%r9), %xmm2
	movups	%xmm1, 1480(%r9)
	movq	-8(%r9), %r10
	movq	%r10, 1512(%r9)
	movups	%xmm2, 1496(%r9)
	movq	-8(%r9), %r10
	movq	%r10, 1552(%r9)
	movups	-40(%r9), %xmm1
	movups	-24(%r9), %xmm2
	movups	%xmm2, 1536(%r9)
	movups	%xmm1, 1520(%r9)
	movups	-40(%r9), %xmm1
	movups	-24(%r9), %xmm2
	movups	%xmm1, 1560(%r9)
	movups	%xmm2, 1576(%r9)
	movq	-8(%r9), %r10
	movq	%r10, 1592(%r9)
	movups	-40(%r9), %xmm1
	movups	-24(%r9), %xmm2
	movups	%xmm1, 1600(%r9)
	movups	%xmm2, 1616(%r9)
	movq	-8(%r9), %r10
	movq	%r10, 1632(%r9)
	movups	-40(%r9), %xmm1
	movups	-24(%r9), %xmm2
	movups	%xmm1, 1640(%r9)
	movups	%xmm2, 1656(%r9)
	movq	-8(%r9), %r10
	movq	%r10, 1672(%r9)
	movups	-40(%r9), %xmm1
	movups	-24(%r9), %xmm2
	movups	%xmm1, 1680(%r9)
	movups	%xmm2, 1696(%r9)
	movq	-8(%r9), %r10
	movq	%r10, 1712(%r9)
	movups	-40(%r9), %xmm1
	movups	-24(%r9), %xmm2
	movups	%xmm1, 1720(%r9)
	movq	-8(%r9), %r10
	movq	%r10, 1752(%r9)
	movups	%xmm2, 1736(%r9)
	movq	-8(%r9), %r10
	movq	%r10, 1792(%r9)
	movups	-40(%r9), %xmm1
	movups	-24(%r9), %xmm2
	movups	%xmm2, 1776(%r9)
	movups	%xmm1, 1760(%r9)
	movups	-40(%r9), %xmm1
	movups	-24(%r9), %xmm2
	movups	%xmm1, 1800(%r9)
	movups	%xmm2, 1816(%r9)
	movq	-8(%r9), %r10
	movq	%r10, 1832(%r9)
	movups	-40(%r9), %xmm1
	movups	-24(%r9), %xmm2
	movups	%xmm1, 1840(%r9)
	movups	%xmm2, 1856(%r9)
	movq	-8(%r9), %r10
	movq	%r10, 1872(%r9)
	movups	-40(%r9), %xmm1
	movups	-24(%r9), %xmm2
	movups	%xmm1, 1880(%r9)
	movups	%xmm2, 1896(%r9)
	movq	-8(%r9), %r10
	movq	%r10, 1912(%r9)
	movups	-40(%r9), %xmm1
	movups	-24(%r9), %xmm2
	movups	%xmm1, 1920(%r9)
	movups	%xmm2, 1936(%r9)
	movq	-8(%r9), %r10
	movq	%r10, 1952(%r9)
	movups	-40(%r9), %xmm1
	movups	-24(%r9), %xmm2
	movups	%xmm1, 1960(%r9)
	movq	-8(%r9), %r10
	movq	%r10, 1992(%r9)
	movups	%xmm2, 1976(%r9)
	movq	-8(%r9), %r10
	movq	%r10, 2032(%r9)
	movups	-40(%r9), %xmm1
	movups	-24(%r9), %xmm2
	movups	%xmm1, 2000(%r9)
	movups	%xmm2, 2016(%r9)
4:
	leaq	51(%r8), %r9
	movq	%rdx, %r10
	subq	%r9, %r10
	cmpq	$51, %r10
	jbe	7f
5:
	movq	%r9, %r8
	leaq	(%r9,%r9,4), %r9
	leaq	(%rax,%r9,8), %r9
	testq	%r8, %r8
	je	3b
	movq	1992(%r9), %r10
	movq	%r10, 2032(%r9)
	movups	1976(%r9), %xmm1
	movups	%xmm1, 2016(%r9)
	movups	1960(%r9), %xmm1
	movups	%xmm1, 2000(%r9)
	movups	1920(%r9), %xmm1
	movups	%xmm1, 1960(%r9)
	movups	1936(%r9), %xmm1
	movups	%xmm1, 1976(%r9)
	movq	1952(%r9), %r10
	movq	%r10, 1992(%r9)
	movups	1880(%r9), %xmm1
	movups	1896(%r9), %xmm2
	movups	%xmm1, 1920(%r9)
	movups	%xmm2, 1936(%r9)
	movq	1912(%r9), %r10
	movq	%r10, 1952(%r9)
	movq	1872(%r9), %r10
	movq	%r10, 1912(%r9)
	movups	1840(%r9), %xmm1
	movups	1856(%r9), %xmm2
	movups	%xmm2, 1896(%r9)
	movups	%xmm1, 1880(%r9)
	movq	1832(%r9), %r10
	movq	%r10, 1872(%r9)
	movups	1800(%r9), %xmm1
	movups	1816(%r9), %xmm2
	movups	%xmm2, 1856(%r9)
	movups	%xmm1, 1840(%r9)
	movq	1792(%r9), %r10
	movq	%r10, 1832(%r9)
	movups	1760(%r9), %xmm1
	movups	1776(%r9), %xmm2
	movups	%xmm2, 1816(%r9)
	movups	%xmm1, 1800(%r9)
	movq	1752(%r9), %r10
	movq	%r10, 1792(%r9)
	movups	1720(%r9), %xmm1
	movups	1736(%r9), %xmm2
	movups	%xmm2, 1776(%r9)
	movups	%xmm1, 1760(%r9)
	movq	1712(%r9), %r10
	movq	%r10, 1752(%r9)
	movups	1680(%r9), %xmm1
	movups	1696(%r9), %xmm2
	movups	%xmm2, 1736(%r9)
	movups	%xmm1, 1720(%r9)
	movq	1672(%r9), %r10
	movq	%r10, 1712(%r9)
	movups	1640(%r9), %xmm1
	movups	1656(%r9), %xmm2
	movups	%xmm2, 1696(%r9)
	movups	%xmm1, 1680(%r9)
	movq	1632(%r9), %r10
	movq	%r10, 1672(%r9)
	movups	1600(%r9), %xmm1
	movups	1616(%r9), %xmm2
	movups	%xmm2, 1656(%r9)
	movups	%xmm1, 1640(%r9)
	movq	1592(%r9), %r10
	movq	%r10, 1632(%r9)
	movups	1560(%r9), %xmm1
	movups	1576(%r9), %xmm2
	movups	%xmm2, 1616(%r9)
	movups	%xmm1, 1600(%r9)
	movq	1552(%r9), %r10
	movq	%r10, 1592(%r9)
	movups	1520(%r9), %xmm1
	movups	1536(%r9), %xmm2
	movups	%xmm2, 1576(%r9)
	movups	%xmm1, 1560(%r9)
	movq	1512(%r9), %r10
	movq	%r10, 1552(%r9)
	movups	1480(%r9), %xmm1
	movups	1496(%r9), %xmm2
	movups	%xmm2, 1536(%r9)
	movups	%xmm1, 1520(%r9)
	movq	1472(%r9), %r10
	movq	%r10, 1512(%r9)
	movups	1440(%r9), %xmm1
	movups	1456(%r9), %xmm2
	movups	%xmm2, 1496(%r9)
	movups	%xmm1, 1480(%r9)
	movq	1432(%r9), %r10
	movq	%r10, 1472(%r9)
	movups	1400(%r9), %xmm1
	movups	1416(%r9), %xmm2
	movups	%xmm2, 1456(%r9)
	movups	%xmm1, 1440(%r9)
	movq	1392(%r9), %r10
	movq	%r10, 1432(%r9)
	movups	1360(%r9), %xmm1
	movups	1376(%r9), %xmm2
	movups	%xmm2, 1416(%r9)
	movups	%xmm1, 1400(%r9)
	movq	1352(%r9), %r10
	movq	%r10, 1392(%r9)
	movups	1320(%r9), %xmm1
	movups	1336(%r9), %xmm2
	movups	%xmm2, 1376(%r9)
	movups	%xmm1, 1360(%r9)
	movq	1312(%r9), %r10
	movq	%r10, 1352(%r9)
	movups	1280(%r9), %xmm1
	movups	1296(%r9), %xmm2
	movups	%xmm2, 1336(%r9)
	movups	%xmm1, 1320(%r9)
	movq	1272(%r9), %r10
	movq	%r10, 1312(%r9)
	movups	1240(%r9), %xmm1
	movups	1256(%r9), %xmm2
	movups	%xmm2, 1296(%r9)
	movups	%xmm1, 1280(%r9)
	movq	1232(%r9), %r10
	movq	%r10, 1272(%r9)
	movups	1200(%r9), %xmm1
	movups	1216(%r9), %xmm2
	movups	%xmm2, 1256(%r9)
	movups	%xmm1, 1240(%r9)
	movq	1192(%r9), %r10
	movq	%r10, 1232(%r9)
	movups	1160(%r9), %xmm1
	movups	1176(%r9), %xmm2
	movups	%xmm2, 1216(%r9)
	movups	%xmm1, 1200(%r9)
	movq	1152(%r9), %r10
	movq	%r10, 1192(%r9)
	movups	1120(%r9), %xmm1
	movups	1136(%r9), %xmm2
	movups	%xmm2, 1176(%r9)
	movups	%xmm1, 1160(%r9)
	movq	1112(%r9), %r10
	movq	%r10, 1152(%r9)
	movups	1080(%r9), %xmm1
	movups	1096(%r9), %xmm2
	movups	%xmm2, 1136(%r9)
	movups	%xmm1, 1120(%r9)
	movq	1072(%r9), %r10
	movq	%r10, 1112(%r9)
	movups	1040(%r9), %xmm1
	movups	1056(%r9), %xmm2
	movups	%xmm2, 1096(%r9)
	movups	%xmm1, 1080(%r9)
	movq	1032(%r9), %r10
	movq	%r10, 1072(%r9)
	movups	1000(%r9), %xmm1
	movups	1016(%r9), %xmm2
	movups	%xmm2, 1056(%r9)
	movups	%xmm1, 1040(%r9)
	movq	992(%r9), %r10
	movq	%r10, 1032(%r9)
	movups	960(%r9), %xmm1
	movups	976(%r9), %xmm2
	movups	%xmm2, 1016(%r9)
	movups	%xmm1, 1000(%r9)
	movq	952(%r9), %r10
	movq	%r10, 992(%r9)
	movups	920(%r9), %xmm1
	movups	936(%r9), %xmm2
	movups	%xmm2, 976(%r9)
	movups	%xmm1, 960(%r9)
	movq	912(%r9), %r10
	movq	%r10, 952(%r9)
	movups	880(%r9), %xmm1
	movups	896(%r9), %xmm2
	movups	%xmm2, 936(%r9)
	movups	%xmm1, 920(%r9)
	movq	872(%r9), %r10
	movq	%r10, 912(%r9)
	movups	840(%r9), %xmm1
	movups	856(%r9), %xmm2
	movups	%xmm2, 896(%r9)
	movups	%xmm1, 880(%r9)
	movq	832(%r9), %r10
	movq	%r10, 872(%r9)
	movups	800(%r9), %xmm1
	movups	816(%r9), %xmm2
	movups	%xmm2, 856(%r9)
	movups	%xmm1, 840(%r9)
	movq	792(%r9), %r10
	movq	%r10, 832(%r9)
	movups	760(%r9), %xmm1
	movups	776(%r9), %xmm2
	movups	%xmm2, 816(%r9)
	movups	%xmm1, 800(%r9)
	movq	752(%r9), %r10
	movq	%r10, 792(%r9)
	movups	720(%r9), %xmm1
	movups	736(%r9), %xmm2
	movups	%xmm2, 776(%r9)
	movups	%xmm1, 760(%r9)
	movq	712(%r9), %r10
	movq	%r10, 752(%r9)
	movups	680(%r9), %xmm1
	movups	696(%r9), %xmm2
	movups	%xmm2, 736(%r9)
	movups	%xmm1, 720(%r9)
	movq	672(%r9), %r10
	movq	%r10, 712(%r9)
	movups	640(%r9), %xmm1
	movups	656(%r9), %xmm2
	movups	%xmm2, 696(%r9)
	movups	%xmm1, 680(%r9)
	movq	632(%r9), %r10
	movq	%r10, 672(%r9)
	movups	600(%r9), %xmm1
	movups	616(%r9), %xmm2
	movups	%xmm2, 656(%r9)
	movups	%xmm1, 640(%r9)
	movq	592(%r9), %r10
	movq	%r10, 632(%r9)
	movups	560(%r9), %xmm1
	movups	576(%r9), %xmm2
	movups	%xmm2, 616(%r9)
	movups	%xmm1, 600(%r9)
	movq	552(%r9), %r10
	movq	%r10, 592(%r9)
	movups	520(%r9), %xmm1
	movups	536(%r9), %xmm2
	movups	%xmm2, 576(%r9)
	movups	%xmm1, 560(%r9)
	movq	512(%r9), %r10
	movq	%r10, 552(%r9)
	movups	480(%r9), %xmm1
	movups	496(%r9), %xmm2
	movups	%xmm2, 536(%r9)
	movups	%xmm1, 520(%r9)
	movq	472(%r9), %r10
	movq	%r10, 512(%r9)
	movups	440(%r9), %xmm1
	movups	456(%r9), %xmm2
	movups	%xmm2, 496(%r9)
	movups	%xmm1, 480(%r9)
	movq	432(%r9), %r10
	movq	%r10, 472(%r9)
	movups	400(%r9), %xmm1
	movups	416(%r9), %xmm2
	movups	%xmm2, 456(%r9)
	movups	%xmm1, 440(%r9)
	movq	392(%r9), %r10
	movq	%r10, 432(%r9)
	movups	360(%r9), %xmm1
	movups	376(%r9), %xmm2
	movups	%xmm2, 416(%r9)
	movups	%xmm1, 400(%r9)
	movq	352(%r9), %r10
	movq	%r10, 392(%r9)
	movups	320(%r9), %xmm1
	movups	336(%r9), %xmm2
	movups	%xmm2, 376(%r9)
	movups	%xmm1, 360(%r9)
	movq	312(%r9), %r10
	movq	%r10, 352(%r9)
	movups	280(%r9), %xmm1
	movups	296(%r9), %xmm2
	movups	%xmm2, 336(%r9)
	movups	%xmm1, 320(%r9)
	movq	272(%r9), %r10
	movq	%r10, 312(%r9)
	movups	240(%r9), %xmm1
	movups	256(%r9), %xmm2
	movups	%xmm2, 296(%r9)
	movups	%xmm1, 280(%r9)
	movq	232(%r9), %r10
	movq	%r10, 272(%r9)
	movups	200(%r9), %xmm1
	movups	216(%r9), %xmm2
	movups	%xmm2, 256(%r9)
	movups	%xmm1, 240(%r9)
	movq	192(%r9), %r10
	movq	%r10, 232(%r9)
	movups	160(%r9), %xmm1
	movups	176(%r9), %xmm2
	movups	%xmm2, 216(%r9)
	movups	%xmm1, 200(%r9)
	movq	152(%r9), %r10
	movq	%r10, 192(%r9)
	movups	120(%r9), %xmm1
	movups	136(%r9), %xmm2
	movups	%xmm2, 176(%r9)
	movups	%xmm1, 160(%r9)
	movq	112(%r9), %r10
	movq	%r10, 152(%r9)
	movups	80(%r9), %xmm1
	movups	96(%r9), %xmm2
	movups	%xmm2, 136(%r9)
	movups	%xmm1, 120(%r9)
	movq	72(%r9), %r10
	movq	%r10, 112(%r9)
	movups	40(%r9), %xmm1
	movups	56(%r9), %xmm2
	movups	%xmm2, 96(%r9)
	movups	%xmm1, 80(%r9)
	movq	32(%r9), %r10
	movq	%r10, 72(%r9)
	movups	(%r9), %xmm1
	movups	16(%r9), %xmm2
	movups	%xmm2, 56(%r9)
	movups	%xmm1, 40(%r9)
	movq	-8(%r9), %r10
	movq	%r10, 32(%r9)
	movups	-40(%r9), %xmm1
	movups	-24(%r9), %xmm2
	movups	%xmm2, 16(%r9)
	movups	%xmm1, (%r9)
	jmp	4b
6:
	testq	%rdx, %rdx
	je	16f
	movl	%edx, %r8d
	andl	$3, %r8d
	cmpq	$3, %rcx
	jae	12f
	xorl	%ecx, %ecx
	jmp	14f
7:
	cmpq	%r9, %rdx
	je	16f
	leaq	(%rcx,%rcx,4), %rdx
	subq	%r8, %rcx
	addq	$-50, %rcx
	leaq	(%rax,%rdx,8), %rdx
	.p2align	4
8:
	movq	-8(%rdx), %r8
	movq	%r8, 32(%rdx)
	movups	-40(%rdx), %xmm1
	movups	-24(%rdx), %xmm2
	movups	%xmm2, 16(%rdx)
	movups	%xmm1, (%rdx)
	addq	$-40, %rdx
	decq	%rcx
	jne	8b
	jmp	16f
9:
	movq	%r9, %r10
	andq	$-2, %r10
	leaq	(%rcx,%rcx,4), %rcx
	leaq	(%rax,%rcx,8), %r11
	xorl	%ecx, %ecx
	.p2align	4
10:
	movq	-8(%r11), %rbx
	movq	%rbx, 32(%r11)
	movups	-40(%r11), %xmm1
	movups	-24(%r11), %xmm2
	movups	%xmm2, 16(%r11)
	movups	%xmm1, (%r11)
	movabsq	$2305843009213693950, %rbx
	xorq	%rcx, %rbx
	addq	%r9, %rbx
	shlq	$3, %rbx
	leaq	(%rbx,%rbx,4), %rbx
	movq	32(%rdx,%rbx), %r14
	movq	%r14, 32(%r8,%rbx)
	movups	(%rdx,%rbx), %xmm1
	movups	16(%rdx,%rbx), %xmm2
	movups	%xmm2, 16(%r8,%rbx)
	movups	%xmm1, (%r8,%rbx)
	addq	$2, %rcx
	addq	$-80, %r11
	cmpq	%rcx, %r10
	jne	10b
	testb	$1, %r9b
	je	16f
11:
	notq	%rcx
	addq	%rcx, %r9
	shlq	$3, %r9
	leaq	(%r9,%r9,4), %rcx
	movq	32(%rdx,%rcx), %r9
	movq	%r9, 32(%r8,%rcx)
	movups	(%rdx,%rcx), %xmm1
	movups	16(%rdx,%rcx), %xmm2
	movups	%xmm2, 16(%r8,%rcx)
	movups	%xmm1, (%r8,%rcx)
	jmp	16f
12:
	andl	$60, %edx
	leaq	(,%rsi,8), %rcx
	leaq	(%rcx,%rcx,4), %r9
	xorl	%ecx, %ecx
	movq	%rax, %r10
	.p2align	4
13:
	movq	32(%r10,%r9), %r11
	movq	%r11, 32(%r10)
	movups	(%r10,%r9), %xmm1
	movups	16(%r10,%r9), %xmm2
	movups	%xmm2, 16(%r10)
	movups	%xmm1, (%r10)
	movq	72(%r10,%r9), %r11
	movq	%r11, 72(%r10)
	movups	40(%r10,%r9), %xmm1
	movups	56(%r10,%r9), %xmm2
	movups	%xmm2, 56(%r10)
	movups	%xmm1, 40(%r10)
	movq	112(%r10,%r9), %r11
	movq	%r11, 112(%r10)
	movups	80(%r10,%r9), %xmm1
	movups	96(%r10,%r9), %xmm2
	movups	%xmm2, 96(%r10)
	movups	%xmm1, 80(%r10)
	movups	120(%r10,%r9), %xmm1
	movups	136(%r10,%r9), %xmm2
	movups	%xmm1, 120(%r10)
	movups	%xmm2, 136(%r10)
	movq	152(%r10,%r9), %r11
	movq	%r11, 152(%r10)
	addq	$4, %rcx
	addq	$160, %r10
	cmpq	%rcx, %rdx
	jne	13b
	testq	%r8, %r8
	je	16f
14:
	shlq	$3, %rcx
	leaq	(%rcx,%rcx,4), %rcx
	leaq	(%rsi,%rsi,4), %rdx
	leaq	(%rcx,%rdx,8), %rdx
	addq	%rax, %rdx
	addq	%rax, %rcx
	shll	$3, %r8d
	leaq	(%r8,%r8,4), %r8
	xorl	%r9d, %r9d
	.p2align	4
15:
	movq	32(%rdx,%r9), %r10
	movq	%r10, 32(%rcx,%r9)
	movups	(%rdx,%r9), %xmm1
	movups	16(%rdx,%r9), %xmm2
	movups	%xmm2, 16(%rcx,%r9)
	movups	%xmm1, (%rcx,%r9)
	addq	$40, %r9
	cmpq	%r9, %r8
	jne	15b
16:
	leaq	(%rsi,%rsi,4), %rcx
	movq	-8(%rsp), %rdx
	movq	%rdx, 32(%rax,%rcx,8)
	movaps	-40(%rsp), %xmm1
	movaps	-24(%rsp), %xmm2
	movups	%xmm2, 16(%rax,%rcx,8)
	movups	%xmm1, (%rax,%rcx,8)
	movq	%rax, (%rdi)
	paddq	1b(%rip), %xmm0
	movdqu	%xmm0, 8(%rdi)
	popq	%rbx
	popq	%r14
	retq
17:
	.size	"std_alloc::vec::lodged::Vec+T+Lodged::insert_reserved::<38'(,,)::<i8,3'&[](*,i64,),3'&[](*,i64,)>>", 17b-"std_alloc::vec::lodged::Vec+T+Lodged::insert_reserved::<38'(,,)::<i8,3'&[](*,i64,),3'&[](*,i64,)>>"

	.text
	.p2align	4
	.type	"std_alloc::vec::makes::VecClone::clone::<#451bfd629f355fb6>",@function
"std_alloc::vec::makes::VecClone::clone::<#451bfd629f355fb6>":
	pushq	%r15
	pushq	%r14
	pushq	%r12
	pushq	%rbx
	subq	$72, %rsp
	testq	%rdx, %rdx
	je	4f
	xorl	%ecx, %ecx
	movq	%rdx, %rax
	shrq	$57, %rax
	movb	$1, %bl
	jne	5f
	movq	%rsi, %r14
	movq	%rdx, %r15
	movq	%rdx, %rax
	shlq	$6, %rax
	movl	$8, %esi
	movq	%rdi, %r12
	movq	%rax, %rdi
	callq	rattle_alloc@PLT
	movq	%r12, %rdi
	xorl	%ecx, %ecx
	movl	$0, %esi
	testb	$1, %al
	je	6f
	movl	$48, %ecx
	movq	%r15, %rax
	movq	%r15, %rsi
	movq	%r14, %r8
	jmp	3f
	.p2align	4
1:
	movups	(%r8,%rcx), %xmm0
2:
	movaps	%xmm0, 16(%rsp)
	movq	-48(%r8,%rcx), %r10
	movq	-40(%r8,%rcx), %r11
	movzbl	-32(%r8,%rcx), %ebx
	movaps	16(%rsp), %xmm0
	movaps	%xmm0, 48(%rsp)
	movups	-24(%r8,%rcx), %xmm0
	movaps	%xmm0, 32(%rsp)
	movq	%r10, -48(%rdx,%rcx)
	movq	%r11, -40(%rdx,%rcx)
	movq	%rbx, -32(%rdx,%rcx)
	movaps	32(%rsp), %xmm0
	movups	%xmm0, -24(%rdx,%rcx)
	movq	%r9, -8(%rdx,%rcx)
	movaps	48(%rsp), %xmm0
	movups	%xmm0, (%rdx,%rcx)
	addq	$64, %rcx
	decq	%rsi
	je	7f
3:
	movzbl	-8(%r8,%rcx), %r9d
	testq	%r9, %r9
	jne	1b
	xorps	%xmm0, %xmm0
	jmp	2b
4:
	leaq	8(%rsp), %rcx
	xorl	%ebx, %ebx
5:
	xorl	%esi, %esi
6:
	movb	%bl, (%rdi)
	movq	%rcx, 8(%rdi)
	movq	%rsi, 16(%rdi)
	movq	%rsi, 24(%rdi)
	addq	$72, %rsp
	popq	%rbx
	popq	%r12
	popq	%r14
	popq	%r15
	retq
7:
	xorl	%ebx, %ebx
	movq	%rdx, %rcx
	movq	%rax, %rsi
	jmp	6b
8:
	.size	"std_alloc::vec::makes::VecClone::clone::<#451bfd629f355fb6>", 8b-"std_alloc::vec::makes::VecClone::clone::<#451bfd629f355fb6>"

	.text
	.p2align	4
	.type	"std_alloc::vec::opened::drop_run::<#2dfd7e2cc785f18c>",@function
"std_alloc::vec::opened::drop_run::<#2dfd7e2cc785f18c>":
	pushq	%rbp
	pushq	%r15
	pushq	%r14
	pushq	%r13
	pushq	%r12
	pushq	%rbx
	subq	$40, %rsp
	movq	%rdx, 24(%rsp)
	cmpq	%rdx, %rsi
	jae	8f
	movq	%rsi, %r14
	movq	%rdi, %r15
	movq	%rdi, 16(%rsp)
	jmp	2f
	.p2align	4
1:
	incq	%r14
	cmpq	24(%rsp), %r14
	movq	16(%rsp), %r15
	je	8f
2:
	movq	%r14, %rax
	shlq	$4, %rax
	leaq	(%rax,%rax,4), %rax
	movq	56(%r15,%rax), %rcx
	movq	%rcx, 8(%rsp)
	movq	64(%r15,%rax), %rbx
	movq	72(%r15,%rax), %rcx
	movq	%rcx, 32(%rsp)
	cmpb	$0, 8(%r15,%rax)
	je	3f
	cmpq	$0, 32(%r15,%rax)
	je	3f
	movq	16(%r15,%rax), %rdi
	callq	rattle_dealloc@PLT
3:
	testq	%rbx, %rbx
	je	7f
	movq	8(%rsp), %rax
	leaq	80(%rax), %rbp
	jmp	5f
	.p2align	4
4:
	addq	$88, %rbp
	decq	%rbx
	je	7f
5:
	cmpb	$0, -72(%rbp)
	jne	4b
	movzbl	-24(%rbp), %r15d
	movq	-16(%rbp), %r13
	movq	(%rbp), %r12
	cmpq	$0, -32(%rbp)
	je	6f
	movq	-48(%rbp), %rdi
	callq	rattle_dealloc@PLT
6:
	testb	%r15b, %r15b
	je	4b
	testq	%r12, %r12
	je	4b
	movq	%r13, %rdi
	callq	rattle_dealloc@PLT
	jmp	4b
	.p2align	4
7:
	cmpq	$0, 32(%rsp)
	je	1b
	movq	8(%rsp), %rdi
	callq	rattle_dealloc@PLT
	jmp	1b
8:
	addq	$40, %rsp
	popq	%rbx
	popq	%r12
	popq	%r13
	popq	%r14
	popq	%r15
	popq	%rbp
	retq
9:
	.size	"std_alloc::vec::opened::drop_run::<#2dfd7e2cc785f18c>", 9b-"std_alloc::vec::opened::drop_run::<#2dfd7e2cc785f18c>"
