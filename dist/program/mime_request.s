# Made by dist/refresh of what is proved.

	.text
	.p2align	4
	.type	"mime_request::clap++builder++command++Command+Destruct::drop",@function
"mime_request::clap++builder++command++Command+Destruct::drop":
	pushq	%rbp
	pushq	%r15
	pushq	%r14
	pushq	%r13
	pushq	%r12
	pushq	%rbx
	subq	$968, %rsp
	movq	%rdi, %r12
	movq	56(%rdi), %rax
	movq	%rax, 16(%rsp)
	movq	72(%rdi), %rax
	movq	%rax, 64(%rsp)
	movzbl	80(%rdi), %ebx
	movq	88(%rdi), %rax
	movq	%rax, 24(%rsp)
	movq	104(%rdi), %rax
	movq	%rax, 72(%rsp)
	movzbl	112(%rdi), %eax
	movb	%al, 7(%rsp)
	movq	120(%rdi), %rax
	movq	%rax, 32(%rsp)
	movq	136(%rdi), %rax
	movq	%rax, 80(%rsp)
	movq	360(%rdi), %rax
	movq	%rax, 40(%rsp)
	movq	376(%rdi), %rax
	movq	%rax, 88(%rsp)
	movq	384(%rdi), %rax
	movq	%rax, 48(%rsp)
	movq	400(%rdi), %rax
	movq	%rax, 96(%rsp)
	movq	408(%rdi), %rax
	movq	%rax, 56(%rsp)
	movq	424(%rdi), %rax
	movq	%rax, 104(%rsp)
	leaq	432(%rdi), %rsi
	movzbl	48(%rdi), %r13d
	leaq	128(%rsp), %rdi
	movl	$168, %edx
	callq	memcpy@PLT
	movq	600(%r12), %r15
	movq	608(%r12), %r14
	movq	616(%r12), %rax
	movq	%rax, 112(%rsp)
	movq	624(%r12), %rax
	movq	%rax, 8(%rsp)
	movq	632(%r12), %rbp
	movq	640(%r12), %rax
	movq	%rax, 120(%rsp)
	testb	%r13b, %r13b
	je	1f
	cmpq	$0, 64(%rsp)
	je	1f
	movq	16(%rsp), %rdi
	callq	rattle_dealloc@PLT
1:
	testb	%bl, %bl
	je	2f
	cmpq	$0, 72(%rsp)
	je	2f
	movq	24(%rsp), %rdi
	callq	rattle_dealloc@PLT
2:
	cmpb	$0, 7(%rsp)
	movq	%r15, %r12
	je	3f
	cmpq	$0, 80(%rsp)
	je	3f
	movq	32(%rsp), %rdi
	callq	rattle_dealloc@PLT
3:
	cmpq	$0, 88(%rsp)
	je	4f
	movq	40(%rsp), %rdi
	callq	rattle_dealloc@PLT
4:
	cmpq	$0, 96(%rsp)
	je	5f
	movq	48(%rsp), %rdi
	callq	rattle_dealloc@PLT
5:
	cmpq	$0, 104(%rsp)
	je	6f
	movq	56(%rsp), %rdi
	callq	rattle_dealloc@PLT
6:
	leaq	272(%rsp), %rdi
	callq	"std_alloc::vec::Vec::drop::<#f47e8c83c2357772>"
	testq	%r14, %r14
	je	8f
	movq	%r12, %rbx
	.p2align	4
7:
	leaq	296(%rsp), %r15
	movl	$672, %edx
	movq	%r15, %rdi
	movq	%rbx, %rsi
	callq	memcpy@PLT
	movq	%r15, %rdi
	callq	"mime_request::clap++builder++command++Command+Destruct::drop"
	addq	$672, %rbx
	decq	%r14
	jne	7b
8:
	cmpq	$0, 112(%rsp)
	je	9f
	movq	%r12, %rdi
	callq	rattle_dealloc@PLT
9:
	testq	%rbp, %rbp
	je	14f
	movq	8(%rsp), %rax
	leaq	88(%rax), %r15
	jmp	11f
	.p2align	4
10:
	addq	$104, %r15
	decq	%rbp
	je	14f
11:
	movq	-40(%r15), %r14
	movq	-24(%r15), %r12
	movq	-16(%r15), %rbx
	movq	(%r15), %r13
	cmpq	$0, -56(%r15)
	je	12f
	movq	-72(%r15), %rdi
	callq	rattle_dealloc@PLT
12:
	testq	%r12, %r12
	je	13f
	movq	%r14, %rdi
	callq	rattle_dealloc@PLT
13:
	testq	%r13, %r13
	je	10b
	movq	%rbx, %rdi
	callq	rattle_dealloc@PLT
	jmp	10b
14:
	cmpq	$0, 120(%rsp)
	je	15f
	movq	8(%rsp), %rdi
	addq	$968, %rsp
	popq	%rbx
	popq	%r12
	popq	%r13
	popq	%r14
	popq	%r15
	popq	%rbp
	jmp	rattle_dealloc@PLT
15:
	addq	$968, %rsp
	popq	%rbx
	popq	%r12
	popq	%r13
	popq	%r14
	popq	%r15
	popq	%rbp
	retq
16:
	.size	"mime_request::clap++builder++command++Command+Destruct::drop", 16b-"mime_request::clap++builder++command++Command+Destruct::drop"

	.text
	.p2align	4
	.type	"mime_request::clap++parser++matches++SubCommand+Destruct::drop",@function
"mime_request::clap++parser++matches++SubCommand+Destruct::drop":
	pushq	%rbp
	pushq	%r15
	pushq	%r14
	pushq	%r13
	pushq	%r12
	pushq	%rbx
	subq	$136, %rsp
	movq	16(%rdi), %rax
	movq	%rax, 8(%rsp)
	movq	24(%rdi), %rbp
	movq	32(%rdi), %rax
	movq	%rax, 24(%rsp)
	movzbl	40(%rdi), %eax
	movb	%al, 7(%rsp)
	movq	48(%rdi), %rax
	movq	%rax, 16(%rsp)
	testq	%rbp, %rbp
	je	5f
	movq	8(%rsp), %rax
	leaq	88(%rax), %r13
	jmp	2f
	.p2align	4
1:
	addq	$104, %r13
	decq	%rbp
	je	5f
2:
	movq	-40(%r13), %r12
	movq	-24(%r13), %rbx
	movq	-16(%r13), %r15
	movq	(%r13), %r14
	cmpq	$0, -48(%r13)
	je	3f
	movq	-64(%r13), %rdi
	callq	rattle_dealloc@PLT
3:
	testq	%rbx, %rbx
	je	4f
	movq	%r12, %rdi
	callq	rattle_dealloc@PLT
4:
	testq	%r14, %r14
	je	1b
	movq	%r15, %rdi
	callq	rattle_dealloc@PLT
	jmp	1b
5:
	cmpq	$0, 24(%rsp)
	je	6f
	movq	8(%rsp), %rdi
	callq	rattle_dealloc@PLT
6:
	cmpb	$0, 7(%rsp)
	je	7f
	movq	16(%rsp), %rdi
	movzbl	40(%rdi), %ebx
	movq	48(%rdi), %r14
	movups	(%rdi), %xmm0
	movaps	%xmm0, 32(%rsp)
	movq	32(%rdi), %rax
	movq	%rax, 64(%rsp)
	movups	16(%rdi), %xmm0
	movaps	%xmm0, 48(%rsp)
	callq	rattle_dealloc@PLT
	movaps	32(%rsp), %xmm0
	movaps	48(%rsp), %xmm1
	movaps	%xmm0, 80(%rsp)
	movaps	%xmm1, 96(%rsp)
	movq	64(%rsp), %rax
	movq	%rax, 112(%rsp)
	movq	%rbx, 120(%rsp)
	movq	%r14, 128(%rsp)
	leaq	80(%rsp), %rdi
	callq	"mime_request::clap++parser++matches++SubCommand+Destruct::drop"
7:
	addq	$136, %rsp
	popq	%rbx
	popq	%r12
	popq	%r13
	popq	%r14
	popq	%r15
	popq	%rbp
	retq
8:
	.size	"mime_request::clap++parser++matches++SubCommand+Destruct::drop", 8b-"mime_request::clap++parser++matches++SubCommand+Destruct::drop"

	.text
	.p2align	4
	.type	"mime_request::command::command_of_source",@function
"mime_request::command::command_of_source":
	pushq	%r15
	pushq	%r14
	pushq	%r13
	pushq	%r12
	pushq	%rbx
	subq	$3072, %rsp
	movq	$0, (%rsp)
	subq	$928, %rsp
	movq	%rcx, %r15
	movq	%rdx, %r12
	movq	%rsi, %r13
	movq	%rdi, %rbx
	leaq	3320(%rsp), %r14
	movl	$680, %edx
	movq	%r14, %rdi
	xorl	%esi, %esi
	callq	memset@PLT
	leaq	2640(%rsp), %rdi
	movl	$680, %edx
	xorl	%esi, %esi
	callq	memset@PLT
	leaq	624(%rsp), %rdi
	movl	$608, %edx
	xorl	%esi, %esi
	callq	memset@PLT
	leaq	1960(%rsp), %rdi
	movl	$680, %edx
	xorl	%esi, %esi
	callq	memset@PLT
	leaq	16(%rsp), %rdi
	movl	$608, %edx
	xorl	%esi, %esi
	callq	memset@PLT
	movq	%r13, 1288(%rsp)
	movq	%r12, 1296(%rsp)
	leaq	1304(%rsp), %rdi
	movl	$344, %edx
	xorl	%esi, %esi
	callq	memset@PLT
	leaq	8(%rsp), %r12
	movq	%r12, 1648(%rsp)
	xorps	%xmm0, %xmm0
	movups	%xmm0, 1656(%rsp)
	movq	%r12, 1672(%rsp)
	movups	%xmm0, 1680(%rsp)
	movq	%r12, 1696(%rsp)
	movups	%xmm0, 1704(%rsp)
	movups	%xmm0, 1720(%rsp)
	movups	%xmm0, 1736(%rsp)
	movups	%xmm0, 1752(%rsp)
	movups	%xmm0, 1768(%rsp)
	movups	%xmm0, 1784(%rsp)
	movups	%xmm0, 1800(%rsp)
	movups	%xmm0, 1816(%rsp)
	movups	%xmm0, 1832(%rsp)
	movups	%xmm0, 1848(%rsp)
	movq	%r12, 1864(%rsp)
	movups	%xmm0, 1872(%rsp)
	movq	%r12, 1888(%rsp)
	movups	%xmm0, 1896(%rsp)
	movq	%r12, 1912(%rsp)
	movups	%xmm0, 1936(%rsp)
	movups	%xmm0, 1920(%rsp)
	movq	$0, 1952(%rsp)
	movups	(%r15), %xmm0
	movups	16(%r15), %xmm1
	movups	32(%r15), %xmm2
	movaps	%xmm0, 1232(%rsp)
	movaps	%xmm1, 1248(%rsp)
	movaps	%xmm2, 1264(%rsp)
	leaq	1288(%rsp), %rsi
	leaq	1232(%rsp), %rdx
	movq	%r14, %rdi
	callq	"mime_request::command::with_help"
	cmpb	$0, 3320(%rsp)
	jne	1f
	leaq	3328(%rsp), %rsi
	leaq	.L28ef7528cbc3(%rip), %rax
	movq	%rax, 624(%rsp)
	movq	$5, 632(%rsp)
	movq	$1, 640(%rsp)
	leaq	.L81e54fa2e54f(%rip), %rcx
	movq	%rcx, 648(%rsp)
	movq	$53, 656(%rsp)
	xorps	%xmm0, %xmm0
	movups	%xmm0, 664(%rsp)
	movq	$0, 680(%rsp)
	movabsq	$425201762305, %rcx
	movq	%rcx, 688(%rsp)
	movq	$1, 696(%rsp)
	movq	%rax, 704(%rsp)
	movq	$5, 712(%rsp)
	movq	%r12, 720(%rsp)
	movups	%xmm0, 728(%rsp)
	movq	%r12, 744(%rsp)
	movups	%xmm0, 752(%rsp)
	movq	%r12, 768(%rsp)
	movups	%xmm0, 776(%rsp)
	movq	%r12, 792(%rsp)
	movups	%xmm0, 800(%rsp)
	movq	%r12, 816(%rsp)
	movups	%xmm0, 824(%rsp)
	movq	%r12, 840(%rsp)
	movups	%xmm0, 848(%rsp)
	movq	%r12, 864(%rsp)
	movups	%xmm0, 872(%rsp)
	movq	%r12, 888(%rsp)
	movups	%xmm0, 896(%rsp)
	movq	%r12, 912(%rsp)
	movups	%xmm0, 920(%rsp)
	movq	%r12, 936(%rsp)
	movups	%xmm0, 944(%rsp)
	movq	$1, 960(%rsp)
	movq	%r12, 968(%rsp)
	movq	$0, 976(%rsp)
	movq	$1, 984(%rsp)
	movq	%r12, 992(%rsp)
	movq	$0, 1000(%rsp)
	movq	%r12, 1008(%rsp)
	movups	%xmm0, 1016(%rsp)
	movq	$0, 1032(%rsp)
	leaq	.La75402a5534b(%rip), %rax
	movq	%rax, 1040(%rsp)
	movq	$5, 1048(%rsp)
	movups	%xmm0, 1056(%rsp)
	movups	%xmm0, 1072(%rsp)
	movups	%xmm0, 1088(%rsp)
	movups	%xmm0, 1104(%rsp)
	movups	%xmm0, 1120(%rsp)
	movups	%xmm0, 1136(%rsp)
	movups	%xmm0, 1152(%rsp)
	movups	%xmm0, 1168(%rsp)
	movups	%xmm0, 1184(%rsp)
	movups	%xmm0, 1200(%rsp)
	movups	%xmm0, 1216(%rsp)
	leaq	2640(%rsp), %rdi
	leaq	624(%rsp), %rdx
	callq	"clap::builder::command::Command::arg"
	cmpb	$0, 2640(%rsp)
	je	4f
1:
	movb	$1, (%rbx)
	addq	$8, %rbx
	movl	$672, %edx
	movq	%rbx, %rdi
2:
	xorl	%esi, %esi
	callq	memset@PLT
3:
	addq	$4000, %rsp
	popq	%rbx
	popq	%r12
	popq	%r13
	popq	%r14
	popq	%r15
	retq
4:
	leaq	2648(%rsp), %rsi
	leaq	.L558c2c36d03f(%rip), %rax
	movq	%rax, 16(%rsp)
	movq	$4, 24(%rsp)
	movq	$1, 32(%rsp)
	leaq	.L797f014df943(%rip), %rax
	movq	%rax, 40(%rsp)
	movq	$127, 48(%rsp)
	xorps	%xmm0, %xmm0
	movups	%xmm0, 56(%rsp)
	movq	$0, 72(%rsp)
	movabsq	$429496729601, %rax
	movq	%rax, 80(%rsp)
	movq	$1, 88(%rsp)
	leaq	.L08eec631916e(%rip), %rax
	movq	%rax, 96(%rsp)
	movq	$9, 104(%rsp)
	movq	%r12, 112(%rsp)
	movups	%xmm0, 120(%rsp)
	movq	%r12, 136(%rsp)
	movups	%xmm0, 144(%rsp)
	movq	%r12, 160(%rsp)
	movups	%xmm0, 168(%rsp)
	movq	%r12, 184(%rsp)
	movups	%xmm0, 192(%rsp)
	movq	%r12, 208(%rsp)
	movups	%xmm0, 216(%rsp)
	movq	%r12, 232(%rsp)
	movups	%xmm0, 240(%rsp)
	movq	%r12, 256(%rsp)
	movups	%xmm0, 264(%rsp)
	movq	%r12, 280(%rsp)
	movups	%xmm0, 288(%rsp)
	movq	%r12, 304(%rsp)
	movups	%xmm0, 312(%rsp)
	movq	%r12, 328(%rsp)
	movups	%xmm0, 336(%rsp)
	movq	$1, 352(%rsp)
	movq	%r12, 360(%rsp)
	movq	$0, 368(%rsp)
	movq	$1, 376(%rsp)
	movq	%r12, 384(%rsp)
	movq	$0, 392(%rsp)
	movq	%r12, 400(%rsp)
	movups	%xmm0, 408(%rsp)
	movq	$0, 424(%rsp)
	leaq	.L7e7e9dc2ef5a(%rip), %rax
	movq	%rax, 432(%rsp)
	movq	$4, 440(%rsp)
	movups	%xmm0, 448(%rsp)
	movups	%xmm0, 464(%rsp)
	movups	%xmm0, 480(%rsp)
	movups	%xmm0, 496(%rsp)
	movups	%xmm0, 512(%rsp)
	movups	%xmm0, 528(%rsp)
	movups	%xmm0, 544(%rsp)
	movups	%xmm0, 560(%rsp)
	movups	%xmm0, 576(%rsp)
	movups	%xmm0, 592(%rsp)
	movups	%xmm0, 608(%rsp)
	leaq	1960(%rsp), %rdi
	leaq	16(%rsp), %rdx
	callq	"clap::builder::command::Command::arg"
	leaq	8(%rbx), %rdi
	cmpb	$0, 1960(%rsp)
	je	5f
	movb	$1, (%rbx)
	movl	$672, %edx
	jmp	2b
5:
	leaq	1968(%rsp), %rsi
	movb	$0, (%rbx)
	movl	$672, %edx
	callq	memcpy@PLT
	jmp	3b
6:
	.size	"mime_request::command::command_of_source", 6b-"mime_request::command::command_of_source"

	.text
	.p2align	4
	.type	"mime_request::command::explain_command",@function
"mime_request::command::explain_command":
	pushq	%r14
	pushq	%rbx
	subq	$3072, %rsp
	movq	$0, (%rsp)
	subq	$920, %rsp
	movq	%rdi, %rbx
	leaq	3312(%rsp), %r14
	movl	$680, %edx
	movq	%r14, %rdi
	xorl	%esi, %esi
	callq	memset@PLT
	leaq	2632(%rsp), %rdi
	movl	$680, %edx
	xorl	%esi, %esi
	callq	memset@PLT
	leaq	1952(%rsp), %rdi
	movl	$680, %edx
	xorl	%esi, %esi
	callq	memset@PLT
	leaq	664(%rsp), %rdi
	movl	$608, %edx
	xorl	%esi, %esi
	callq	memset@PLT
	leaq	1272(%rsp), %rdi
	movl	$680, %edx
	xorl	%esi, %esi
	callq	memset@PLT
	leaq	56(%rsp), %rdi
	movl	$608, %edx
	xorl	%esi, %esi
	callq	memset@PLT
	leaq	.L7b0baf189013(%rip), %rax
	movq	%rax, 8(%rsp)
	movq	$49, 16(%rsp)
	leaq	.Lca59f735d667(%rip), %rax
	movq	%rax, 24(%rsp)
	movq	$141, 32(%rsp)
	leaq	.L098174e864e3(%rip), %rax
	movq	%rax, 40(%rsp)
	movq	$1540, 48(%rsp)
	leaq	.L374fab0a52ad(%rip), %rsi
	leaq	8(%rsp), %rcx
	movl	$7, %edx
	movq	%r14, %rdi
	callq	"mime_request::command::command_of_source"
	cmpb	$0, 3312(%rsp)
	jne	1f
	leaq	3320(%rsp), %rsi
	leaq	2632(%rsp), %rdi
	callq	"mime_request::command::with_orders"
	cmpb	$0, 2632(%rsp)
	je	2f
1:
	movb	$1, (%rbx)
	addq	$8, %rbx
	movl	$672, %edx
	movq	%rbx, %rdi
	xorl	%esi, %esi
	addq	$3992, %rsp
	popq	%rbx
	popq	%r14
	jmp	memset@PLT
2:
	leaq	2640(%rsp), %rsi
	leaq	.L39f4ebcc1166(%rip), %rax
	movq	%rax, 664(%rsp)
	movq	$6, 672(%rsp)
	movq	$1, 680(%rsp)
	leaq	.Lfbf471e2654e(%rip), %rcx
	movq	%rcx, 688(%rsp)
	movq	$81, 696(%rsp)
	xorps	%xmm0, %xmm0
	movups	%xmm0, 704(%rsp)
	movups	%xmm0, 720(%rsp)
	movq	$1, 736(%rsp)
	movq	%rax, 744(%rsp)
	movq	$6, 752(%rsp)
	movq	%rsp, %r14
	movq	%r14, 760(%rsp)
	movups	%xmm0, 768(%rsp)
	movq	%r14, 784(%rsp)
	movups	%xmm0, 792(%rsp)
	movq	%r14, 808(%rsp)
	movups	%xmm0, 816(%rsp)
	movq	%r14, 832(%rsp)
	movups	%xmm0, 840(%rsp)
	movq	%r14, 856(%rsp)
	movups	%xmm0, 864(%rsp)
	movq	%r14, 880(%rsp)
	movups	%xmm0, 888(%rsp)
	movq	%r14, 904(%rsp)
	movups	%xmm0, 912(%rsp)
	movq	%r14, 928(%rsp)
	movups	%xmm0, 936(%rsp)
	movq	%r14, 952(%rsp)
	movups	%xmm0, 960(%rsp)
	movq	%r14, 976(%rsp)
	movups	%xmm0, 984(%rsp)
	movq	$1, 1000(%rsp)
	movq	%r14, 1008(%rsp)
	movq	$0, 1016(%rsp)
	movq	$1, 1024(%rsp)
	movq	%r14, 1032(%rsp)
	movq	$0, 1040(%rsp)
	movq	%r14, 1048(%rsp)
	movups	%xmm0, 1056(%rsp)
	movq	$1, 1072(%rsp)
	movq	%r14, 1080(%rsp)
	movups	%xmm0, 1152(%rsp)
	movups	%xmm0, 1136(%rsp)
	movups	%xmm0, 1120(%rsp)
	movups	%xmm0, 1104(%rsp)
	movups	%xmm0, 1088(%rsp)
	movw	$513, 1168(%rsp)
	movups	%xmm0, 1170(%rsp)
	movups	%xmm0, 1186(%rsp)
	movups	%xmm0, 1202(%rsp)
	movups	%xmm0, 1218(%rsp)
	movups	%xmm0, 1234(%rsp)
	movups	%xmm0, 1250(%rsp)
	movq	$0, 1264(%rsp)
	leaq	1952(%rsp), %rdi
	leaq	664(%rsp), %rdx
	callq	"clap::builder::command::Command::arg"
	cmpb	$0, 1952(%rsp)
	je	3f
	movb	$1, (%rbx)
	addq	$8, %rbx
	movl	$672, %edx
	movq	%rbx, %rdi
	jmp	4f
3:
	leaq	1960(%rsp), %rsi
	leaq	.Lfcdf8571ef04(%rip), %rax
	movq	%rax, 56(%rsp)
	movq	$4, 64(%rsp)
	movq	$1, 72(%rsp)
	leaq	.L78f7cac7802d(%rip), %rax
	movq	%rax, 80(%rsp)
	movq	$71, 88(%rsp)
	xorps	%xmm0, %xmm0
	movups	%xmm0, 96(%rsp)
	movups	%xmm0, 112(%rsp)
	movups	%xmm0, 128(%rsp)
	movq	$0, 144(%rsp)
	movq	%r14, 152(%rsp)
	movups	%xmm0, 160(%rsp)
	movq	%r14, 176(%rsp)
	movups	%xmm0, 184(%rsp)
	movq	%r14, 200(%rsp)
	movups	%xmm0, 208(%rsp)
	movq	%r14, 224(%rsp)
	movups	%xmm0, 232(%rsp)
	movq	%r14, 248(%rsp)
	movups	%xmm0, 256(%rsp)
	movq	%r14, 272(%rsp)
	movups	%xmm0, 280(%rsp)
	movq	%r14, 296(%rsp)
	movups	%xmm0, 304(%rsp)
	movq	%r14, 320(%rsp)
	movups	%xmm0, 328(%rsp)
	movq	%r14, 344(%rsp)
	movups	%xmm0, 352(%rsp)
	movq	%r14, 368(%rsp)
	movups	%xmm0, 376(%rsp)
	movq	$1, 392(%rsp)
	movq	%r14, 400(%rsp)
	movq	$0, 408(%rsp)
	movq	$1, 416(%rsp)
	movq	%r14, 424(%rsp)
	movq	$0, 432(%rsp)
	movq	%r14, 440(%rsp)
	movups	%xmm0, 448(%rsp)
	movq	$0, 464(%rsp)
	leaq	.Le2d0fcf04739(%rip), %rax
	movq	%rax, 472(%rsp)
	movq	$4, 480(%rsp)
	movq	$1, 488(%rsp)
	movq	$1, 496(%rsp)
	movq	$-1, 504(%rsp)
	movups	%xmm0, 512(%rsp)
	movups	%xmm0, 528(%rsp)
	movups	%xmm0, 544(%rsp)
	movups	%xmm0, 560(%rsp)
	movups	%xmm0, 576(%rsp)
	movups	%xmm0, 592(%rsp)
	movups	%xmm0, 608(%rsp)
	movups	%xmm0, 624(%rsp)
	movq	$0, 640(%rsp)
	movb	$1, 648(%rsp)
	movq	$0, 649(%rsp)
	movq	$0, 656(%rsp)
	leaq	1272(%rsp), %rdi
	leaq	56(%rsp), %rdx
	callq	"clap::builder::command::Command::arg"
	leaq	8(%rbx), %rdi
	cmpb	$0, 1272(%rsp)
	je	5f
	movb	$1, (%rbx)
	movl	$672, %edx
4:
	xorl	%esi, %esi
	callq	memset@PLT
	addq	$3992, %rsp
	popq	%rbx
	popq	%r14
	retq
5:
	leaq	1280(%rsp), %rsi
	movb	$0, (%rbx)
	movl	$672, %edx
	callq	memcpy@PLT
	addq	$3992, %rsp
	popq	%rbx
	popq	%r14
	retq
6:
	.size	"mime_request::command::explain_command", 6b-"mime_request::command::explain_command"

	.text
	.p2align	4
	.type	"mime_request::command::mimelook_command",@function
"mime_request::command::mimelook_command":
	pushq	%rbp
	pushq	%r15
	pushq	%r14
	pushq	%r13
	pushq	%r12
	pushq	%rbx
	movq	%rsp, %r11
	subq	$24576, %r11
1:
	subq	$3072, %rsp
	movq	$0, (%rsp)
	cmpq	%r11, %rsp
	jne	1b
	subq	$1192, %rsp
	movq	%rdi, 160(%rsp)
	leaq	23052(%rsp), %rdi
	xorl	%r15d, %r15d
	movl	$679, %edx
	xorl	%esi, %esi
	callq	memset@PLT
	leaq	15608(%rsp), %rdi
	movl	$680, %edx
	xorl	%esi, %esi
	callq	memset@PLT
	leaq	9512(%rsp), %rdi
	movl	$672, %edx
	xorl	%esi, %esi
	callq	memset@PLT
	leaq	19000(%rsp), %rdi
	movl	$672, %edx
	xorl	%esi, %esi
	callq	memset@PLT
	leaq	22373(%rsp), %rdi
	movl	$679, %edx
	xorl	%esi, %esi
	callq	memset@PLT
	leaq	11528(%rsp), %rdi
	movl	$680, %edx
	xorl	%esi, %esi
	callq	memset@PLT
	leaq	10184(%rsp), %rdi
	movl	$672, %edx
	xorl	%esi, %esi
	callq	memset@PLT
	leaq	18328(%rsp), %rdi
	movl	$672, %edx
	xorl	%esi, %esi
	callq	memset@PLT
	leaq	21694(%rsp), %rdi
	movl	$679, %edx
	xorl	%esi, %esi
	callq	memset@PLT
	leaq	14928(%rsp), %rdi
	movl	$680, %edx
	xorl	%esi, %esi
	callq	memset@PLT
	leaq	14248(%rsp), %rdi
	movl	$680, %edx
	xorl	%esi, %esi
	callq	memset@PLT
	leaq	13569(%rsp), %rdi
	movl	$679, %edx
	xorl	%esi, %esi
	callq	memset@PLT
	leaq	8832(%rsp), %rdi
	movl	$680, %edx
	xorl	%esi, %esi
	callq	memset@PLT
	leaq	10856(%rsp), %rdi
	movl	$672, %edx
	xorl	%esi, %esi
	callq	memset@PLT
	leaq	20344(%rsp), %rdi
	movl	$672, %edx
	xorl	%esi, %esi
	callq	memset@PLT
	leaq	24410(%rsp), %rdi
	movl	$679, %edx
	xorl	%esi, %esi
	callq	memset@PLT
	leaq	12208(%rsp), %rdi
	movl	$680, %edx
	xorl	%esi, %esi
	callq	memset@PLT
	leaq	19672(%rsp), %rdi
	movl	$672, %edx
	xorl	%esi, %esi
	callq	memset@PLT
	leaq	23731(%rsp), %rdi
	movl	$679, %edx
	xorl	%esi, %esi
	callq	memset@PLT
	leaq	16968(%rsp), %rdi
	movl	$680, %edx
	xorl	%esi, %esi
	callq	memset@PLT
	leaq	16288(%rsp), %rdi
	movl	$680, %edx
	xorl	%esi, %esi
	callq	memset@PLT
	xorps	%xmm0, %xmm0
	movaps	%xmm0, 992(%rsp)
	movq	$0, 1008(%rsp)
	movaps	%xmm0, 2288(%rsp)
	movaps	%xmm0, 2272(%rsp)
	movaps	%xmm0, 2256(%rsp)
	movq	$0, 2303(%rsp)
	movl	$0, 307(%rsp)
	movl	$0, 304(%rsp)
	movl	$0, 299(%rsp)
	movl	$0, 296(%rsp)
	movaps	%xmm0, 800(%rsp)
	movq	$0, 816(%rsp)
	movaps	%xmm0, 7840(%rsp)
	movaps	%xmm0, 7824(%rsp)
	movaps	%xmm0, 7808(%rsp)
	movaps	%xmm0, 7792(%rsp)
	movaps	%xmm0, 7776(%rsp)
	movaps	%xmm0, 7760(%rsp)
	movaps	%xmm0, 7744(%rsp)
	movaps	%xmm0, 7728(%rsp)
	movaps	%xmm0, 7712(%rsp)
	movaps	%xmm0, 7696(%rsp)
	movq	$0, 7856(%rsp)
	movaps	%xmm0, 8000(%rsp)
	movaps	%xmm0, 7984(%rsp)
	movaps	%xmm0, 7968(%rsp)
	movaps	%xmm0, 7952(%rsp)
	movaps	%xmm0, 7936(%rsp)
	movaps	%xmm0, 7920(%rsp)
	movaps	%xmm0, 7904(%rsp)
	movaps	%xmm0, 7888(%rsp)
	movaps	%xmm0, 7872(%rsp)
	movb	$0, 440(%rsp)
	movq	$0, 432(%rsp)
	movb	$0, 424(%rsp)
	movq	$0, 416(%rsp)
	movaps	%xmm0, 768(%rsp)
	movaps	%xmm0, 752(%rsp)
	movaps	%xmm0, 736(%rsp)
	movq	$0, 783(%rsp)
	movl	$0, 123(%rsp)
	movl	$0, 120(%rsp)
	movl	$0, 115(%rsp)
	movl	$0, 112(%rsp)
	movaps	%xmm0, 576(%rsp)
	movq	$0, 592(%rsp)
	movaps	%xmm0, 1200(%rsp)
	movaps	%xmm0, 1184(%rsp)
	movaps	%xmm0, 1168(%rsp)
	movaps	%xmm0, 1152(%rsp)
	movaps	%xmm0, 1136(%rsp)
	movaps	%xmm0, 1120(%rsp)
	movaps	%xmm0, 1104(%rsp)
	movaps	%xmm0, 1088(%rsp)
	movaps	%xmm0, 1072(%rsp)
	movaps	%xmm0, 1056(%rsp)
	movq	$0, 1216(%rsp)
	movaps	%xmm0, 1360(%rsp)
	movaps	%xmm0, 1344(%rsp)
	movaps	%xmm0, 1328(%rsp)
	movaps	%xmm0, 1312(%rsp)
	movaps	%xmm0, 1296(%rsp)
	movaps	%xmm0, 1280(%rsp)
	movaps	%xmm0, 1264(%rsp)
	movaps	%xmm0, 1248(%rsp)
	movaps	%xmm0, 1232(%rsp)
	movb	$0, 216(%rsp)
	movq	$0, 208(%rsp)
	movb	$0, 200(%rsp)
	movq	$0, 192(%rsp)
	leaq	4968(%rsp), %rdi
	movl	$680, %edx
	xorl	%esi, %esi
	callq	memset@PLT
	leaq	6336(%rsp), %rdi
	movl	$672, %edx
	xorl	%esi, %esi
	callq	memset@PLT
	leaq	21016(%rsp), %rdi
	movl	$672, %edx
	xorl	%esi, %esi
	callq	memset@PLT
	leaq	25089(%rsp), %rdi
	movl	$679, %edx
	xorl	%esi, %esi
	callq	memset@PLT
	leaq	12888(%rsp), %rdi
	movl	$680, %edx
	xorl	%esi, %esi
	callq	memset@PLT
	leaq	17648(%rsp), %rdi
	movl	$680, %edx
	xorl	%esi, %esi
	callq	memset@PLT
	xorps	%xmm0, %xmm0
	movaps	%xmm0, 1024(%rsp)
	movq	$0, 1040(%rsp)
	movaps	%xmm0, 2416(%rsp)
	movaps	%xmm0, 2400(%rsp)
	movaps	%xmm0, 2384(%rsp)
	movq	$0, 2431(%rsp)
	movl	$0, 339(%rsp)
	movl	$0, 336(%rsp)
	movl	$0, 331(%rsp)
	movl	$0, 328(%rsp)
	movaps	%xmm0, 896(%rsp)
	movq	$0, 912(%rsp)
	movaps	%xmm0, 3840(%rsp)
	movaps	%xmm0, 3824(%rsp)
	movaps	%xmm0, 3808(%rsp)
	movaps	%xmm0, 3792(%rsp)
	movaps	%xmm0, 3776(%rsp)
	movaps	%xmm0, 3760(%rsp)
	movaps	%xmm0, 3744(%rsp)
	movaps	%xmm0, 3728(%rsp)
	movaps	%xmm0, 3712(%rsp)
	movaps	%xmm0, 3696(%rsp)
	movaps	%xmm0, 3680(%rsp)
	movaps	%xmm0, 3664(%rsp)
	movaps	%xmm0, 8144(%rsp)
	movaps	%xmm0, 8128(%rsp)
	movaps	%xmm0, 8112(%rsp)
	movaps	%xmm0, 8096(%rsp)
	movaps	%xmm0, 8080(%rsp)
	movaps	%xmm0, 8064(%rsp)
	movaps	%xmm0, 8048(%rsp)
	movaps	%xmm0, 8032(%rsp)
	movaps	%xmm0, 8016(%rsp)
	movaps	%xmm0, 864(%rsp)
	movl	$0, 880(%rsp)
	leaq	5648(%rsp), %rbx
	movl	$680, %edx
	movq	%rbx, %rdi
	xorl	%esi, %esi
	callq	memset@PLT
	xorps	%xmm0, %xmm0
	movaps	%xmm0, 2320(%rsp)
	movaps	%xmm0, 2336(%rsp)
	movaps	%xmm0, 2352(%rsp)
	movq	$0, 2367(%rsp)
	movl	$0, 320(%rsp)
	movl	$0, 323(%rsp)
	movl	$0, 312(%rsp)
	movl	$0, 315(%rsp)
	movaps	%xmm0, 832(%rsp)
	movq	$0, 848(%rsp)
	movaps	%xmm0, 8160(%rsp)
	movaps	%xmm0, 8176(%rsp)
	movaps	%xmm0, 8192(%rsp)
	movaps	%xmm0, 8208(%rsp)
	movaps	%xmm0, 8224(%rsp)
	movaps	%xmm0, 8240(%rsp)
	movaps	%xmm0, 8256(%rsp)
	movaps	%xmm0, 8272(%rsp)
	movaps	%xmm0, 8288(%rsp)
	movaps	%xmm0, 8304(%rsp)
	movq	$0, 8320(%rsp)
	movaps	%xmm0, 4480(%rsp)
	movaps	%xmm0, 4464(%rsp)
	movaps	%xmm0, 4448(%rsp)
	movaps	%xmm0, 4432(%rsp)
	movaps	%xmm0, 4416(%rsp)
	movaps	%xmm0, 4400(%rsp)
	movaps	%xmm0, 4384(%rsp)
	movaps	%xmm0, 4368(%rsp)
	movaps	%xmm0, 4352(%rsp)
	movq	$0, 464(%rsp)
	movb	$0, 472(%rsp)
	movq	$0, 448(%rsp)
	movb	$0, 456(%rsp)
	movaps	%xmm0, 928(%rsp)
	movaps	%xmm0, 944(%rsp)
	movaps	%xmm0, 960(%rsp)
	movq	$0, 975(%rsp)
	movl	$0, 187(%rsp)
	movl	$0, 184(%rsp)
	movl	$0, 179(%rsp)
	movl	$0, 176(%rsp)
	movaps	%xmm0, 704(%rsp)
	movq	$0, 720(%rsp)
	movaps	%xmm0, 2592(%rsp)
	movaps	%xmm0, 2576(%rsp)
	movaps	%xmm0, 2560(%rsp)
	movaps	%xmm0, 2544(%rsp)
	movaps	%xmm0, 2528(%rsp)
	movaps	%xmm0, 2512(%rsp)
	movaps	%xmm0, 2496(%rsp)
	movaps	%xmm0, 2480(%rsp)
	movaps	%xmm0, 2464(%rsp)
	movaps	%xmm0, 2448(%rsp)
	movq	$0, 2608(%rsp)
	movaps	%xmm0, 1504(%rsp)
	movaps	%xmm0, 1488(%rsp)
	movaps	%xmm0, 1472(%rsp)
	movaps	%xmm0, 1456(%rsp)
	movaps	%xmm0, 1440(%rsp)
	movaps	%xmm0, 1424(%rsp)
	movaps	%xmm0, 1408(%rsp)
	movaps	%xmm0, 1392(%rsp)
	movaps	%xmm0, 1376(%rsp)
	movb	$0, 280(%rsp)
	movq	$0, 272(%rsp)
	movb	$0, 264(%rsp)
	movq	$0, 256(%rsp)
	leaq	.Ld27fc74a6e00(%rip), %rax
	movq	%rax, 1568(%rsp)
	movq	$8, 1576(%rsp)
	leaq	1584(%rsp), %rdi
	movl	$344, %edx
	xorl	%esi, %esi
	callq	memset@PLT
	leaq	8(%rsp), %rax
	movq	%rax, 1928(%rsp)
	xorps	%xmm0, %xmm0
	movups	%xmm0, 1936(%rsp)
	movq	%rax, 1952(%rsp)
	movups	%xmm0, 1960(%rsp)
	movq	%rax, 1976(%rsp)
	movups	%xmm0, 1984(%rsp)
	movups	%xmm0, 2000(%rsp)
	movups	%xmm0, 2016(%rsp)
	movups	%xmm0, 2032(%rsp)
	movups	%xmm0, 2048(%rsp)
	movups	%xmm0, 2064(%rsp)
	movups	%xmm0, 2080(%rsp)
	movups	%xmm0, 2096(%rsp)
	movups	%xmm0, 2112(%rsp)
	movups	%xmm0, 2128(%rsp)
	movq	%rax, 2144(%rsp)
	movups	%xmm0, 2152(%rsp)
	movq	%rax, 2168(%rsp)
	movups	%xmm0, 2176(%rsp)
	movq	%rax, 2192(%rsp)
	movups	%xmm0, 2216(%rsp)
	movups	%xmm0, 2200(%rsp)
	movq	$0, 2232(%rsp)
	leaq	.Lbfbdcc43a9ef(%rip), %rax
	movq	%rax, 1520(%rsp)
	movq	$29, 1528(%rsp)
	leaq	.L534e072772c2(%rip), %rax
	movq	%rax, 1536(%rsp)
	movq	$18, 1544(%rsp)
	leaq	.L69d9f1dd2e31(%rip), %rax
	movq	%rax, 1552(%rsp)
	movq	$778, 1560(%rsp)
	leaq	1568(%rsp), %rsi
	leaq	1520(%rsp), %rdx
	movq	%rbx, %rdi
	callq	"mime_request::command::with_help"
	movzbl	5648(%rsp), %ebp
	xorps	%xmm1, %xmm1
	movaps	%xmm1, 640(%rsp)
	movaps	%xmm1, 656(%rsp)
	movaps	%xmm1, 672(%rsp)
	movq	$0, 687(%rsp)
	movl	$0, 144(%rsp)
	movl	$0, 147(%rsp)
	movl	$0, 80(%rsp)
	movl	$0, 83(%rsp)
	movaps	%xmm1, 544(%rsp)
	movq	$0, 560(%rsp)
	movaps	%xmm1, 7008(%rsp)
	movaps	%xmm1, 7024(%rsp)
	movaps	%xmm1, 7040(%rsp)
	movaps	%xmm1, 7056(%rsp)
	movaps	%xmm1, 7072(%rsp)
	movaps	%xmm1, 7088(%rsp)
	movaps	%xmm1, 7104(%rsp)
	movaps	%xmm1, 7120(%rsp)
	movaps	%xmm1, 7136(%rsp)
	movaps	%xmm1, 7152(%rsp)
	movaps	%xmm1, 7168(%rsp)
	movaps	%xmm1, 7184(%rsp)
	movaps	%xmm1, 3184(%rsp)
	movaps	%xmm1, 3168(%rsp)
	movaps	%xmm1, 3152(%rsp)
	movaps	%xmm1, 3136(%rsp)
	movaps	%xmm1, 3120(%rsp)
	movaps	%xmm1, 3104(%rsp)
	movaps	%xmm1, 3088(%rsp)
	movaps	%xmm1, 3072(%rsp)
	movaps	%xmm1, 3056(%rsp)
	xorps	%xmm0, %xmm0
	movaps	%xmm0, 480(%rsp)
	movaps	%xmm1, 512(%rsp)
	movl	$0, 528(%rsp)
	testb	%bpl, %bpl
	je	2f
	movb	$1, %r14b
	movq	$0, 88(%rsp)
	movq	$0, 96(%rsp)
	movq	$0, 104(%rsp)
	movq	$0, 24(%rsp)
	xorl	%ebx, %ebx
	movq	$0, 48(%rsp)
	movq	$0, 64(%rsp)
	xorl	%r13d, %r13d
	movq	$0, 40(%rsp)
	movq	$0, 16(%rsp)
	xorl	%r12d, %r12d
	movq	$0, 72(%rsp)
	movq	$0, 56(%rsp)
	movq	$0, 136(%rsp)
	movaps	%xmm0, 352(%rsp)
	movaps	%xmm0, 368(%rsp)
	movaps	%xmm0, 384(%rsp)
	movaps	%xmm0, 224(%rsp)
	movq	$0, 168(%rsp)
	movq	$0, 32(%rsp)
	movq	$0, 128(%rsp)
	jmp	3f
2:
	movups	5656(%rsp), %xmm0
	movups	5672(%rsp), %xmm1
	movups	5688(%rsp), %xmm2
	movups	%xmm2, 679(%rsp)
	movups	%xmm1, 663(%rsp)
	movups	%xmm0, 647(%rsp)
	movzbl	5704(%rsp), %eax
	movq	%rax, 56(%rsp)
	movl	5705(%rsp), %eax
	movl	%eax, 144(%rsp)
	movl	5708(%rsp), %eax
	movl	%eax, 147(%rsp)
	movq	5712(%rsp), %rax
	movq	%rax, 136(%rsp)
	movups	5720(%rsp), %xmm0
	movaps	%xmm0, 480(%rsp)
	movzbl	5736(%rsp), %r14d
	movq	5744(%rsp), %rax
	movq	%rax, 168(%rsp)
	movq	5760(%rsp), %r15
	movzbl	5768(%rsp), %eax
	movq	%rax, 32(%rsp)
	movl	5769(%rsp), %eax
	movl	5772(%rsp), %ecx
	movl	%ecx, 83(%rsp)
	movl	%eax, 80(%rsp)
	movq	5776(%rsp), %rax
	movq	%rax, 128(%rsp)
	movups	5784(%rsp), %xmm0
	movaps	%xmm0, 352(%rsp)
	movups	5800(%rsp), %xmm0
	movaps	%xmm0, 544(%rsp)
	movq	5816(%rsp), %rax
	movq	%rax, 560(%rsp)
	leaq	5824(%rsp), %rsi
	leaq	7008(%rsp), %rdi
	movl	$192, %edx
	callq	memcpy@PLT
	movq	6016(%rsp), %rax
	movq	%rax, 88(%rsp)
	movups	6024(%rsp), %xmm0
	movaps	%xmm0, 368(%rsp)
	movq	6040(%rsp), %rax
	movq	%rax, 96(%rsp)
	movups	6048(%rsp), %xmm0
	movaps	%xmm0, 384(%rsp)
	movq	6064(%rsp), %rax
	movq	%rax, 104(%rsp)
	movups	6072(%rsp), %xmm0
	movaps	%xmm0, 224(%rsp)
	leaq	6088(%rsp), %rsi
	leaq	3056(%rsp), %rdi
	movl	$144, %edx
	callq	memcpy@PLT
	movq	6232(%rsp), %rax
	movq	%rax, 24(%rsp)
	movq	6240(%rsp), %rbx
	movq	6248(%rsp), %rax
	movq	%rax, 48(%rsp)
	movq	6256(%rsp), %rax
	movq	%rax, 64(%rsp)
	movq	6264(%rsp), %r13
	movq	6272(%rsp), %rax
	movq	%rax, 40(%rsp)
	movq	6280(%rsp), %rax
	movq	%rax, 16(%rsp)
	movq	6288(%rsp), %r12
	movq	6296(%rsp), %rax
	movq	%rax, 72(%rsp)
	movl	6304(%rsp), %ecx
	movups	6308(%rsp), %xmm0
	movaps	%xmm0, 512(%rsp)
	movl	6324(%rsp), %eax
	movl	%eax, 528(%rsp)
	shrl	$8, %ecx
	cmpb	$1, %r14b
	setne	%al
	testq	%r15, %r15
	movq	%rcx, %r15
	sete	%r14b
	orb	%al, %r14b
3:
	movups	647(%rsp), %xmm0
	movups	663(%rsp), %xmm1
	movups	679(%rsp), %xmm2
	movups	%xmm2, 2423(%rsp)
	movups	%xmm1, 2407(%rsp)
	movups	%xmm0, 2391(%rsp)
	movl	144(%rsp), %eax
	movl	147(%rsp), %ecx
	movl	%eax, 336(%rsp)
	movl	%ecx, 339(%rsp)
	movl	80(%rsp), %eax
	movl	83(%rsp), %ecx
	movl	%eax, 328(%rsp)
	movl	%ecx, 331(%rsp)
	movaps	544(%rsp), %xmm0
	movaps	%xmm0, 896(%rsp)
	movq	560(%rsp), %rax
	movq	%rax, 912(%rsp)
	leaq	3664(%rsp), %rdi
	leaq	7008(%rsp), %rsi
	movl	$192, %edx
	callq	memcpy@PLT
	leaq	8016(%rsp), %rdi
	leaq	3056(%rsp), %rsi
	movl	$144, %edx
	callq	memcpy@PLT
	movaps	512(%rsp), %xmm0
	movaps	%xmm0, 864(%rsp)
	movl	528(%rsp), %eax
	movl	%eax, 880(%rsp)
	testb	%bpl, %bpl
	jne	27f
	movl	$8, %edi
	movl	$1, %esi
	callq	rattle_alloc@PLT
	movq	%rax, 248(%rsp)
	testb	$1, %al
	je	5f
	movq	%r15, 288(%rsp)
	leaq	2391(%rsp), %r15
	leaq	3688(%rsp), %rsi
	leaq	865(%rsp), %rbp
	movabsq	$7741528795821992301, %rax
	movq	%rdx, 504(%rsp)
	movq	%rax, (%rdx)
	testb	%r14b, %r14b
	jne	4f
	movq	168(%rsp), %rdi
	movq	%rsi, %r14
	callq	rattle_dealloc@PLT
	movq	%r14, %rsi
4:
	movups	(%r15), %xmm0
	movups	16(%r15), %xmm1
	movups	32(%r15), %xmm2
	movups	%xmm2, 967(%rsp)
	movups	%xmm1, 951(%rsp)
	movups	%xmm0, 935(%rsp)
	movl	336(%rsp), %eax
	movl	339(%rsp), %ecx
	movl	%eax, 184(%rsp)
	movl	%ecx, 187(%rsp)
	movl	328(%rsp), %eax
	movl	331(%rsp), %ecx
	movl	%eax, 176(%rsp)
	movl	%ecx, 179(%rsp)
	movdqa	896(%rsp), %xmm0
	movdqa	%xmm0, 704(%rsp)
	movq	912(%rsp), %rax
	movq	%rax, 720(%rsp)
	leaq	2448(%rsp), %rdi
	movl	$168, %edx
	callq	memcpy@PLT
	leaq	1376(%rsp), %rdi
	leaq	8016(%rsp), %rsi
	movl	$144, %edx
	callq	memcpy@PLT
	movq	(%rbp), %rax
	movq	%rax, 272(%rsp)
	movzbl	8(%rbp), %eax
	movb	%al, 280(%rsp)
	movq	10(%rbp), %rax
	movq	%rax, 256(%rsp)
	movzbl	18(%rbp), %eax
	movb	%al, 264(%rsp)
	movl	$8, %edx
	movb	$1, %sil
	movl	$5, %ecx
	leaq	.L6ff22be34a97(%rip), %rbp
	movl	$1, %r15d
	movq	288(%rsp), %r14
	movq	504(%rsp), %rax
	jmp	24f
5:
	cmpb	$1, 56(%rsp)
	movdqa	480(%rsp), %xmm0
	pextrq	$1, %xmm0, %rax
	setne	%cl
	testq	%rax, %rax
	sete	%al
	orb	%cl, %al
	jne	6f
	movq	136(%rsp), %rdi
	callq	rattle_dealloc@PLT
6:
	testb	%r14b, %r14b
	movq	24(%rsp), %rbp
	jne	7f
	movq	168(%rsp), %rdi
	callq	rattle_dealloc@PLT
7:
	cmpb	$1, 32(%rsp)
	movdqa	352(%rsp), %xmm0
	pextrq	$1, %xmm0, %rax
	setne	%cl
	testq	%rax, %rax
	sete	%al
	orb	%cl, %al
	jne	8f
	movq	128(%rsp), %rdi
	callq	rattle_dealloc@PLT
8:
	movdqa	368(%rsp), %xmm0
	pextrq	$1, %xmm0, %rax
	testq	%rax, %rax
	je	9f
	movq	88(%rsp), %rdi
	callq	rattle_dealloc@PLT
9:
	movdqa	384(%rsp), %xmm0
	pextrq	$1, %xmm0, %rax
	testq	%rax, %rax
	je	10f
	movq	96(%rsp), %rdi
	callq	rattle_dealloc@PLT
10:
	movdqa	224(%rsp), %xmm0
	pextrq	$1, %xmm0, %rax
	testq	%rax, %rax
	je	11f
	movq	104(%rsp), %rdi
	callq	rattle_dealloc@PLT
11:
	testq	%rbx, %rbx
	je	13f
	movq	%rbp, %r14
	.p2align	4
12:
	leaq	7008(%rsp), %r15
	movl	$608, %edx
	movq	%r15, %rdi
	movq	%r14, %rsi
	callq	memcpy@PLT
	movq	%r15, %rdi
	callq	"clap::clap++builder++arg++Arg+Destruct::drop"
	addq	$608, %r14
	decq	%rbx
	jne	12b
13:
	cmpq	$0, 48(%rsp)
	je	14f
	movq	%rbp, %rdi
	callq	rattle_dealloc@PLT
14:
	testq	%r13, %r13
	movq	64(%rsp), %rbx
	je	16f
	movq	%rbx, %r14
	.p2align	4
15:
	leaq	7008(%rsp), %r15
	movl	$672, %edx
	movq	%r15, %rdi
	movq	%r14, %rsi
	callq	memcpy@PLT
	movq	%r15, %rdi
	callq	"clap::clap++builder++command++Command+Destruct::drop"
	addq	$672, %r14
	decq	%r13
	jne	15b
16:
	cmpq	$0, 40(%rsp)
	je	17f
	movq	%rbx, %rdi
	callq	rattle_dealloc@PLT
17:
	testq	%r12, %r12
	je	22f
	movq	16(%rsp), %rax
	leaq	88(%rax), %r15
	jmp	19f
	.p2align	4
18:
	addq	$104, %r15
	decq	%r12
	je	22f
19:
	movq	-40(%r15), %r14
	movq	-24(%r15), %rbp
	movq	-16(%r15), %rbx
	movq	(%r15), %r13
	cmpq	$0, -56(%r15)
	je	20f
	movq	-72(%r15), %rdi
	callq	rattle_dealloc@PLT
20:
	testq	%rbp, %rbp
	je	21f
	movq	%r14, %rdi
	callq	rattle_dealloc@PLT
21:
	testq	%r13, %r13
	je	18b
	movq	%rbx, %rdi
	callq	rattle_dealloc@PLT
	jmp	18b
22:
	cmpq	$0, 72(%rsp)
	je	23f
	movq	16(%rsp), %rdi
	callq	rattle_dealloc@PLT
23:
	xorps	%xmm1, %xmm1
	movups	%xmm1, 967(%rsp)
	movups	%xmm1, 951(%rsp)
	movups	%xmm1, 935(%rsp)
	movl	$0, 184(%rsp)
	movl	$0, 187(%rsp)
	movl	$0, 176(%rsp)
	movl	$0, 179(%rsp)
	movaps	%xmm1, 704(%rsp)
	movq	$0, 720(%rsp)
	movaps	%xmm1, 2448(%rsp)
	movaps	%xmm1, 2464(%rsp)
	movaps	%xmm1, 2480(%rsp)
	movaps	%xmm1, 2496(%rsp)
	movaps	%xmm1, 2512(%rsp)
	movaps	%xmm1, 2528(%rsp)
	movaps	%xmm1, 2544(%rsp)
	movaps	%xmm1, 2560(%rsp)
	movaps	%xmm1, 2576(%rsp)
	movaps	%xmm1, 2592(%rsp)
	movq	$0, 2608(%rsp)
	movaps	%xmm1, 1504(%rsp)
	movaps	%xmm1, 1488(%rsp)
	movaps	%xmm1, 1472(%rsp)
	movaps	%xmm1, 1456(%rsp)
	movaps	%xmm1, 1440(%rsp)
	movaps	%xmm1, 1424(%rsp)
	movaps	%xmm1, 1408(%rsp)
	movaps	%xmm1, 1392(%rsp)
	pxor	%xmm0, %xmm0
	movdqa	%xmm0, 480(%rsp)
	movaps	%xmm1, 1376(%rsp)
	movb	$0, 280(%rsp)
	movq	$0, 272(%rsp)
	movb	$0, 264(%rsp)
	movq	$0, 256(%rsp)
	xorl	%r15d, %r15d
	xorl	%ebp, %ebp
	xorl	%ecx, %ecx
	xorl	%esi, %esi
	xorl	%r14d, %r14d
	movq	$0, 56(%rsp)
	movq	$0, 136(%rsp)
	xorl	%eax, %eax
	xorl	%edx, %edx
	movq	$0, 32(%rsp)
	movq	$0, 128(%rsp)
	movq	$0, 88(%rsp)
	movq	$0, 96(%rsp)
	movq	$0, 104(%rsp)
	movq	$0, 24(%rsp)
	movdqa	%xmm0, 352(%rsp)
	movdqa	%xmm0, 368(%rsp)
	movdqa	%xmm0, 384(%rsp)
	movdqa	%xmm0, 224(%rsp)
	xorl	%ebx, %ebx
	movq	$0, 48(%rsp)
	movq	$0, 64(%rsp)
	xorl	%r13d, %r13d
	movq	$0, 40(%rsp)
	movq	$0, 16(%rsp)
	xorl	%r12d, %r12d
	movq	$0, 72(%rsp)
24:
	pxor	%xmm0, %xmm0
	movdqa	%xmm0, 640(%rsp)
	movdqa	%xmm0, 656(%rsp)
	movdqa	%xmm0, 672(%rsp)
	movq	$0, 687(%rsp)
	movl	$0, 80(%rsp)
	movl	$0, 83(%rsp)
	movl	$0, 344(%rsp)
	movl	$0, 347(%rsp)
	movdqa	%xmm0, 544(%rsp)
	movq	$0, 560(%rsp)
	movdqa	%xmm0, 7008(%rsp)
	movdqa	%xmm0, 7024(%rsp)
	movdqa	%xmm0, 7040(%rsp)
	movdqa	%xmm0, 7056(%rsp)
	movdqa	%xmm0, 7072(%rsp)
	movdqa	%xmm0, 7088(%rsp)
	movdqa	%xmm0, 7104(%rsp)
	movdqa	%xmm0, 7120(%rsp)
	movdqa	%xmm0, 7136(%rsp)
	movdqa	%xmm0, 7152(%rsp)
	movq	$0, 7168(%rsp)
	movdqa	%xmm0, 3184(%rsp)
	movdqa	%xmm0, 3168(%rsp)
	movdqa	%xmm0, 3152(%rsp)
	movdqa	%xmm0, 3136(%rsp)
	movdqa	%xmm0, 3120(%rsp)
	movdqa	%xmm0, 3104(%rsp)
	movdqa	%xmm0, 3088(%rsp)
	movdqa	%xmm0, 3072(%rsp)
	movdqa	%xmm0, 3056(%rsp)
	movq	$0, 512(%rsp)
	movb	$0, 520(%rsp)
	movq	$0, 144(%rsp)
	movb	$0, 152(%rsp)
	testb	$1, 248(%rsp)
	je	25f
	movq	%rsi, 408(%rsp)
	movq	%rdx, 168(%rsp)
	movq	%rcx, 632(%rsp)
	movq	%rax, 504(%rsp)
	movups	935(%rsp), %xmm0
	movups	951(%rsp), %xmm1
	movups	967(%rsp), %xmm2
	movups	%xmm2, 679(%rsp)
	movups	%xmm1, 663(%rsp)
	movups	%xmm0, 647(%rsp)
	movl	184(%rsp), %eax
	movl	187(%rsp), %ecx
	movl	%eax, 80(%rsp)
	movl	%ecx, 83(%rsp)
	movl	176(%rsp), %eax
	movl	179(%rsp), %ecx
	movl	%eax, 344(%rsp)
	movl	%ecx, 347(%rsp)
	movaps	704(%rsp), %xmm0
	movaps	%xmm0, 544(%rsp)
	movq	720(%rsp), %rax
	movq	%rax, 560(%rsp)
	leaq	7008(%rsp), %rdi
	leaq	2448(%rsp), %rsi
	movl	$168, %edx
	callq	memcpy@PLT
	leaq	3056(%rsp), %rdi
	leaq	1376(%rsp), %rsi
	movl	$144, %edx
	callq	memcpy@PLT
	movq	272(%rsp), %rax
	movq	%rax, 512(%rsp)
	movzbl	280(%rsp), %eax
	movb	%al, 520(%rsp)
	movq	256(%rsp), %rax
	movq	%rax, 144(%rsp)
	movzbl	264(%rsp), %eax
	movb	%al, 152(%rsp)
	movdqa	480(%rsp), %xmm0
	movdqa	%xmm0, 608(%rsp)
	jmp	26f
25:
	movdqa	%xmm0, 608(%rsp)
	movq	$0, 56(%rsp)
	movq	$0, 136(%rsp)
	xorl	%r15d, %r15d
	movq	$0, 504(%rsp)
	movq	$0, 168(%rsp)
	movq	$0, 32(%rsp)
	movq	$0, 128(%rsp)
	xorl	%ebp, %ebp
	movq	$0, 632(%rsp)
	movq	$0, 88(%rsp)
	movq	$0, 96(%rsp)
	movq	$0, 104(%rsp)
	movq	$0, 24(%rsp)
	xorl	%ebx, %ebx
	movq	$0, 48(%rsp)
	movdqa	%xmm0, 352(%rsp)
	movdqa	%xmm0, 368(%rsp)
	movdqa	%xmm0, 384(%rsp)
	movdqa	%xmm0, 224(%rsp)
	movq	$0, 64(%rsp)
	xorl	%r13d, %r13d
	movq	$0, 40(%rsp)
	movq	$0, 16(%rsp)
	xorl	%r12d, %r12d
	movq	$0, 72(%rsp)
	movq	$0, 408(%rsp)
	xorl	%r14d, %r14d
26:
	movups	647(%rsp), %xmm0
	movups	663(%rsp), %xmm1
	movups	679(%rsp), %xmm2
	movups	%xmm2, 2359(%rsp)
	movups	%xmm1, 2343(%rsp)
	movups	%xmm0, 2327(%rsp)
	movl	80(%rsp), %eax
	movl	83(%rsp), %ecx
	movl	%eax, 320(%rsp)
	movl	%ecx, 323(%rsp)
	movl	344(%rsp), %eax
	movl	347(%rsp), %ecx
	movl	%eax, 312(%rsp)
	movl	%ecx, 315(%rsp)
	movaps	544(%rsp), %xmm0
	movaps	%xmm0, 832(%rsp)
	movq	560(%rsp), %rax
	movq	%rax, 848(%rsp)
	leaq	8160(%rsp), %rdi
	leaq	7008(%rsp), %rsi
	movl	$168, %edx
	callq	memcpy@PLT
	leaq	4352(%rsp), %rdi
	leaq	3056(%rsp), %rsi
	movl	$144, %edx
	callq	memcpy@PLT
	movq	512(%rsp), %rax
	movq	%rax, 464(%rsp)
	movzbl	520(%rsp), %eax
	movb	%al, 472(%rsp)
	movq	144(%rsp), %rax
	movq	%rax, 448(%rsp)
	movzbl	152(%rsp), %eax
	movb	%al, 456(%rsp)
	testb	$1, 248(%rsp)
	je	27f
	movq	%rbp, 248(%rsp)
	movq	%r15, 480(%rsp)
	movq	%r14, 288(%rsp)
	leaq	2327(%rsp), %rax
	movups	(%rax), %xmm0
	movups	16(%rax), %xmm1
	movups	32(%rax), %xmm2
	movups	%xmm2, 775(%rsp)
	movups	%xmm1, 759(%rsp)
	movups	%xmm0, 743(%rsp)
	movl	320(%rsp), %eax
	movl	323(%rsp), %ecx
	movl	%eax, 120(%rsp)
	movl	%ecx, 123(%rsp)
	movl	312(%rsp), %eax
	movl	315(%rsp), %ecx
	movl	%eax, 112(%rsp)
	movl	%ecx, 115(%rsp)
	movaps	832(%rsp), %xmm0
	movaps	%xmm0, 576(%rsp)
	movq	848(%rsp), %rax
	movq	%rax, 592(%rsp)
	leaq	1056(%rsp), %rdi
	leaq	8160(%rsp), %rsi
	movl	$168, %edx
	callq	memcpy@PLT
	leaq	1232(%rsp), %rdi
	leaq	4352(%rsp), %rsi
	movl	$144, %edx
	callq	memcpy@PLT
	movq	464(%rsp), %rax
	movq	%rax, 208(%rsp)
	movzbl	472(%rsp), %eax
	movb	%al, 216(%rsp)
	movq	448(%rsp), %rax
	movq	%rax, 192(%rsp)
	movzbl	456(%rsp), %eax
	movb	%al, 200(%rsp)
	movb	$1, %r15b
	movq	504(%rsp), %rbp
	movq	632(%rsp), %r14
	movq	168(%rsp), %rax
	movq	408(%rsp), %rcx
	movaps	608(%rsp), %xmm1
	jmp	28f
27:
	xorps	%xmm1, %xmm1
	movups	%xmm1, 775(%rsp)
	movups	%xmm1, 759(%rsp)
	movups	%xmm1, 743(%rsp)
	movl	$0, 120(%rsp)
	movl	$0, 123(%rsp)
	movl	$0, 112(%rsp)
	movl	$0, 115(%rsp)
	movaps	%xmm1, 576(%rsp)
	movq	$0, 592(%rsp)
	movaps	%xmm1, 1056(%rsp)
	movaps	%xmm1, 1072(%rsp)
	movaps	%xmm1, 1088(%rsp)
	movaps	%xmm1, 1104(%rsp)
	movaps	%xmm1, 1120(%rsp)
	movaps	%xmm1, 1136(%rsp)
	movaps	%xmm1, 1152(%rsp)
	movaps	%xmm1, 1168(%rsp)
	movaps	%xmm1, 1184(%rsp)
	movaps	%xmm1, 1200(%rsp)
	movq	$0, 1216(%rsp)
	movaps	%xmm1, 1360(%rsp)
	movaps	%xmm1, 1344(%rsp)
	movaps	%xmm1, 1328(%rsp)
	movaps	%xmm1, 1312(%rsp)
	movaps	%xmm1, 1296(%rsp)
	movaps	%xmm1, 1280(%rsp)
	movaps	%xmm1, 1264(%rsp)
	movaps	%xmm1, 1248(%rsp)
	movaps	%xmm1, 1232(%rsp)
	movb	$0, 216(%rsp)
	movq	$0, 208(%rsp)
	movb	$0, 200(%rsp)
	movq	$0, 192(%rsp)
	xorl	%r15d, %r15d
	movq	$0, 56(%rsp)
	movq	$0, 136(%rsp)
	movq	$0, 480(%rsp)
	xorl	%ebp, %ebp
	xorl	%eax, %eax
	movq	$0, 32(%rsp)
	movq	$0, 128(%rsp)
	movq	$0, 248(%rsp)
	xorl	%r14d, %r14d
	movq	$0, 88(%rsp)
	movq	$0, 96(%rsp)
	movq	$0, 104(%rsp)
	movq	$0, 24(%rsp)
	xorl	%ebx, %ebx
	xorps	%xmm0, %xmm0
	movaps	%xmm0, 352(%rsp)
	movaps	%xmm0, 368(%rsp)
	movaps	%xmm0, 384(%rsp)
	movaps	%xmm0, 224(%rsp)
	movq	$0, 48(%rsp)
	movq	$0, 64(%rsp)
	xorl	%r13d, %r13d
	movq	$0, 40(%rsp)
	movq	$0, 16(%rsp)
	xorl	%r12d, %r12d
	movq	$0, 72(%rsp)
	xorl	%ecx, %ecx
	movq	$0, 288(%rsp)
28:
	xorps	%xmm0, %xmm0
	movaps	%xmm0, 1568(%rsp)
	movaps	%xmm0, 1584(%rsp)
	movaps	%xmm0, 1600(%rsp)
	movq	$0, 1615(%rsp)
	movl	$0, 3056(%rsp)
	movl	$0, 3059(%rsp)
	movl	$0, 4352(%rsp)
	movl	$0, 4355(%rsp)
	movaps	%xmm0, 3664(%rsp)
	movq	$0, 3680(%rsp)
	movaps	%xmm0, 5648(%rsp)
	movaps	%xmm0, 5664(%rsp)
	movaps	%xmm0, 5680(%rsp)
	movaps	%xmm0, 5696(%rsp)
	movaps	%xmm0, 5712(%rsp)
	movaps	%xmm0, 5728(%rsp)
	movaps	%xmm0, 5744(%rsp)
	movaps	%xmm0, 5760(%rsp)
	movaps	%xmm0, 5776(%rsp)
	movaps	%xmm0, 5792(%rsp)
	movq	$0, 5808(%rsp)
	movaps	%xmm0, 7136(%rsp)
	movaps	%xmm0, 7120(%rsp)
	movaps	%xmm0, 7104(%rsp)
	movaps	%xmm0, 7088(%rsp)
	movaps	%xmm0, 7072(%rsp)
	movaps	%xmm0, 7056(%rsp)
	movaps	%xmm0, 7040(%rsp)
	movaps	%xmm0, 7024(%rsp)
	movaps	%xmm0, 7008(%rsp)
	movq	$0, 8160(%rsp)
	movb	$0, 8168(%rsp)
	movq	$0, 2448(%rsp)
	movb	$0, 2456(%rsp)
	testb	%r15b, %r15b
	je	29f
	movq	%rcx, 408(%rsp)
	movq	%rax, 168(%rsp)
	movups	743(%rsp), %xmm0
	movaps	%xmm1, 608(%rsp)
	movups	759(%rsp), %xmm1
	movups	775(%rsp), %xmm2
	movups	%xmm2, 1607(%rsp)
	movups	%xmm1, 1591(%rsp)
	movups	%xmm0, 1575(%rsp)
	movl	120(%rsp), %eax
	movl	123(%rsp), %ecx
	movl	%eax, 3056(%rsp)
	movl	%ecx, 3059(%rsp)
	movl	112(%rsp), %eax
	movl	115(%rsp), %ecx
	movl	%eax, 4352(%rsp)
	movl	%ecx, 4355(%rsp)
	movaps	576(%rsp), %xmm0
	movaps	%xmm0, 3664(%rsp)
	movq	592(%rsp), %rax
	movq	%rax, 3680(%rsp)
	leaq	5648(%rsp), %rdi
	leaq	1056(%rsp), %rsi
	movl	$168, %edx
	callq	memcpy@PLT
	leaq	7008(%rsp), %rdi
	leaq	1232(%rsp), %rsi
	movl	$144, %edx
	callq	memcpy@PLT
	movq	208(%rsp), %rax
	movq	%rax, 8160(%rsp)
	movzbl	216(%rsp), %eax
	movb	%al, 8168(%rsp)
	movq	192(%rsp), %rax
	movq	%rax, 2448(%rsp)
	movzbl	200(%rsp), %eax
	movb	%al, 2456(%rsp)
	jmp	30f
29:
	movaps	%xmm0, 608(%rsp)
	movq	$0, 56(%rsp)
	movq	$0, 136(%rsp)
	movq	$0, 480(%rsp)
	xorl	%ebp, %ebp
	movq	$0, 168(%rsp)
	movq	$0, 32(%rsp)
	movq	$0, 128(%rsp)
	movq	$0, 248(%rsp)
	xorl	%r14d, %r14d
	movq	$0, 88(%rsp)
	movq	$0, 96(%rsp)
	movq	$0, 104(%rsp)
	movq	$0, 24(%rsp)
	xorl	%ebx, %ebx
	movq	$0, 48(%rsp)
	movaps	%xmm0, 352(%rsp)
	movaps	%xmm0, 368(%rsp)
	movaps	%xmm0, 384(%rsp)
	movaps	%xmm0, 224(%rsp)
	movq	$0, 64(%rsp)
	xorl	%r13d, %r13d
	movq	$0, 40(%rsp)
	movq	$0, 16(%rsp)
	xorl	%r12d, %r12d
	movq	$0, 72(%rsp)
	movq	$0, 408(%rsp)
	movq	$0, 288(%rsp)
30:
	movups	1575(%rsp), %xmm0
	movups	1591(%rsp), %xmm1
	movups	1607(%rsp), %xmm2
	movups	%xmm2, 2295(%rsp)
	movups	%xmm1, 2279(%rsp)
	movups	%xmm0, 2263(%rsp)
	movl	3056(%rsp), %eax
	movl	3059(%rsp), %ecx
	movl	%eax, 304(%rsp)
	movl	%ecx, 307(%rsp)
	movl	4352(%rsp), %eax
	movl	4355(%rsp), %ecx
	movl	%eax, 296(%rsp)
	movl	%ecx, 299(%rsp)
	movaps	3664(%rsp), %xmm0
	movaps	%xmm0, 800(%rsp)
	movq	3680(%rsp), %rax
	movq	%rax, 816(%rsp)
	leaq	7696(%rsp), %rdi
	leaq	5648(%rsp), %rsi
	movl	$168, %edx
	callq	memcpy@PLT
	leaq	7872(%rsp), %rdi
	leaq	7008(%rsp), %rsi
	movl	$144, %edx
	callq	memcpy@PLT
	movq	8160(%rsp), %rax
	movq	%rax, 432(%rsp)
	movzbl	8168(%rsp), %eax
	movb	%al, 440(%rsp)
	movq	2448(%rsp), %rax
	movq	%rax, 416(%rsp)
	movzbl	2456(%rsp), %eax
	movb	%al, 424(%rsp)
	testb	%r15b, %r15b
	je	128f
	leaq	2263(%rsp), %rax
	movups	(%rax), %xmm0
	movups	16(%rax), %xmm1
	movups	32(%rax), %xmm2
	movaps	%xmm2, 6368(%rsp)
	movaps	%xmm1, 6352(%rsp)
	movaps	%xmm0, 6336(%rsp)
	movq	56(%rsp), %rax
	movb	%al, 6384(%rsp)
	movl	304(%rsp), %eax
	movl	307(%rsp), %ecx
	movl	%eax, 6385(%rsp)
	movl	%ecx, 6388(%rsp)
	movq	136(%rsp), %rax
	movq	%rax, 6392(%rsp)
	movaps	608(%rsp), %xmm0
	movaps	%xmm0, 6400(%rsp)
	movq	480(%rsp), %rdx
	movq	%rdx, 6416(%rsp)
	movq	%rbp, 6424(%rsp)
	movq	168(%rsp), %rax
	movq	%rax, 6432(%rsp)
	movq	%rax, 6440(%rsp)
	movq	32(%rsp), %rax
	movb	%al, 6448(%rsp)
	movl	296(%rsp), %eax
	movl	299(%rsp), %ecx
	movl	%eax, 6449(%rsp)
	movl	%ecx, 6452(%rsp)
	movq	128(%rsp), %rax
	movq	%rax, 6456(%rsp)
	movaps	352(%rsp), %xmm0
	movaps	%xmm0, 6464(%rsp)
	movq	816(%rsp), %rax
	movq	%rax, 6496(%rsp)
	movaps	800(%rsp), %xmm0
	movaps	%xmm0, 6480(%rsp)
	movq	%rdx, 6504(%rsp)
	movq	248(%rsp), %rax
	movq	%rax, 6512(%rsp)
	movq	%r14, 6520(%rsp)
	leaq	6528(%rsp), %rdi
	leaq	7696(%rsp), %rsi
	movl	$168, %edx
	callq	memcpy@PLT
	movq	88(%rsp), %rax
	movq	%rax, 6696(%rsp)
	movaps	368(%rsp), %xmm0
	movaps	%xmm0, 6704(%rsp)
	movq	96(%rsp), %rax
	movq	%rax, 6720(%rsp)
	movaps	384(%rsp), %xmm0
	movups	%xmm0, 6728(%rsp)
	movq	104(%rsp), %rax
	movq	%rax, 6744(%rsp)
	movaps	224(%rsp), %xmm0
	movaps	%xmm0, 6752(%rsp)
	leaq	6768(%rsp), %rdi
	leaq	7872(%rsp), %rsi
	movl	$144, %edx
	callq	memcpy@PLT
	movq	24(%rsp), %rax
	movq	%rax, 6912(%rsp)
	movq	%rbx, 6920(%rsp)
	movq	48(%rsp), %rax
	movq	%rax, 6928(%rsp)
	movq	64(%rsp), %rax
	movq	%rax, 6936(%rsp)
	movq	%r13, 6944(%rsp)
	movq	40(%rsp), %rax
	movq	%rax, 6952(%rsp)
	movq	16(%rsp), %rax
	movq	%rax, 6960(%rsp)
	movq	%r12, 6968(%rsp)
	movq	72(%rsp), %rax
	movq	%rax, 6976(%rsp)
	movq	408(%rsp), %rcx
	movb	%cl, 6984(%rsp)
	movq	288(%rsp), %r14
	movl	%r14d, %eax
	shrl	$16, %eax
	movb	%al, 6987(%rsp)
	movw	%r14w, 6985(%rsp)
	movb	%cl, 6988(%rsp)
	movq	432(%rsp), %rax
	movq	%rax, 6989(%rsp)
	movzbl	440(%rsp), %eax
	movb	%al, 6997(%rsp)
	movb	%cl, 6998(%rsp)
	movq	416(%rsp), %rax
	movq	%rax, 6999(%rsp)
	movzbl	424(%rsp), %eax
	movb	%al, 7007(%rsp)
	leaq	5648(%rsp), %rbx
	movl	$680, %edx
	movq	%rbx, %rdi
	xorl	%esi, %esi
	callq	memset@PLT
	leaq	7008(%rsp), %rdi
	movl	$680, %edx
	xorl	%esi, %esi
	callq	memset@PLT
	leaq	2448(%rsp), %rdi
	movl	$608, %edx
	xorl	%esi, %esi
	callq	memset@PLT
	leaq	1568(%rsp), %rdi
	movl	$680, %edx
	xorl	%esi, %esi
	callq	memset@PLT
	leaq	3056(%rsp), %rdi
	movl	$608, %edx
	xorl	%esi, %esi
	callq	memset@PLT
	leaq	3664(%rsp), %rdi
	movl	$680, %edx
	xorl	%esi, %esi
	callq	memset@PLT
	leaq	4352(%rsp), %rdi
	movl	$608, %edx
	xorl	%esi, %esi
	callq	memset@PLT
	leaq	.La548cbe73342(%rip), %rax
	movq	%rax, 8160(%rsp)
	movq	$5, 8168(%rsp)
	leaq	8176(%rsp), %rdi
	movl	$344, %edx
	xorl	%esi, %esi
	callq	memset@PLT
	leaq	8(%rsp), %r14
	movq	%r14, 8520(%rsp)
	xorps	%xmm0, %xmm0
	movups	%xmm0, 8528(%rsp)
	movq	%r14, 8544(%rsp)
	movups	%xmm0, 8552(%rsp)
	movq	%r14, 8568(%rsp)
	movups	%xmm0, 8576(%rsp)
	movups	%xmm0, 8592(%rsp)
	movups	%xmm0, 8608(%rsp)
	movups	%xmm0, 8624(%rsp)
	movups	%xmm0, 8640(%rsp)
	movups	%xmm0, 8656(%rsp)
	movups	%xmm0, 8672(%rsp)
	movups	%xmm0, 8688(%rsp)
	movups	%xmm0, 8704(%rsp)
	movups	%xmm0, 8720(%rsp)
	movq	%r14, 8736(%rsp)
	movups	%xmm0, 8744(%rsp)
	movq	%r14, 8760(%rsp)
	movups	%xmm0, 8768(%rsp)
	movq	%r14, 8784(%rsp)
	movups	%xmm0, 8808(%rsp)
	movups	%xmm0, 8792(%rsp)
	movq	$0, 8824(%rsp)
	leaq	.Ldd8fd1fef8b0(%rip), %rax
	movq	%rax, 1376(%rsp)
	movq	$59, 1384(%rsp)
	leaq	.L49b706c40dc1(%rip), %rax
	movq	%rax, 1392(%rsp)
	movq	$47, 1400(%rsp)
	leaq	.La0a61d465b98(%rip), %rax
	movq	%rax, 1408(%rsp)
	movq	$761, 1416(%rsp)
	leaq	8160(%rsp), %rsi
	leaq	1376(%rsp), %rdx
	movq	%rbx, %rdi
	callq	"mime_request::command::with_help"
	cmpb	$0, 5648(%rsp)
	jne	31f
	leaq	5656(%rsp), %rsi
	leaq	.L558c2c36d03f(%rip), %rax
	movq	%rax, 2448(%rsp)
	movq	$4, 2456(%rsp)
	movq	$1, 2464(%rsp)
	leaq	.L797f014df943(%rip), %rax
	movq	%rax, 2472(%rsp)
	movq	$127, 2480(%rsp)
	xorps	%xmm0, %xmm0
	movups	%xmm0, 2488(%rsp)
	movq	$0, 2504(%rsp)
	movabsq	$429496729601, %rax
	movq	%rax, 2512(%rsp)
	movq	$1, 2520(%rsp)
	leaq	.L08eec631916e(%rip), %rax
	movq	%rax, 2528(%rsp)
	movq	$9, 2536(%rsp)
	movq	%r14, 2544(%rsp)
	movups	%xmm0, 2552(%rsp)
	movq	%r14, 2568(%rsp)
	movups	%xmm0, 2576(%rsp)
	movq	%r14, 2592(%rsp)
	movups	%xmm0, 2600(%rsp)
	movq	%r14, 2616(%rsp)
	movups	%xmm0, 2624(%rsp)
	movq	%r14, 2640(%rsp)
	movups	%xmm0, 2648(%rsp)
	movq	%r14, 2664(%rsp)
	movups	%xmm0, 2672(%rsp)
	movq	%r14, 2688(%rsp)
	movups	%xmm0, 2696(%rsp)
	movq	%r14, 2712(%rsp)
	movups	%xmm0, 2720(%rsp)
	movq	%r14, 2736(%rsp)
	movups	%xmm0, 2744(%rsp)
	movq	%r14, 2760(%rsp)
	movups	%xmm0, 2768(%rsp)
	movq	$1, 2784(%rsp)
	movq	%r14, 2792(%rsp)
	movq	$0, 2800(%rsp)
	movq	$1, 2808(%rsp)
	movq	%r14, 2816(%rsp)
	movq	$0, 2824(%rsp)
	movq	%r14, 2832(%rsp)
	movups	%xmm0, 2840(%rsp)
	movq	$0, 2856(%rsp)
	leaq	.L7e7e9dc2ef5a(%rip), %rax
	movq	%rax, 2864(%rsp)
	movq	$4, 2872(%rsp)
	movups	%xmm0, 2880(%rsp)
	movups	%xmm0, 2896(%rsp)
	movups	%xmm0, 2912(%rsp)
	movups	%xmm0, 2928(%rsp)
	movups	%xmm0, 2944(%rsp)
	movups	%xmm0, 2960(%rsp)
	movups	%xmm0, 2976(%rsp)
	movups	%xmm0, 2992(%rsp)
	movups	%xmm0, 3008(%rsp)
	movups	%xmm0, 3024(%rsp)
	movups	%xmm0, 3040(%rsp)
	leaq	7008(%rsp), %rdi
	leaq	2448(%rsp), %rdx
	callq	"clap::builder::command::Command::arg"
	cmpb	$0, 7008(%rsp)
	jne	31f
	leaq	7016(%rsp), %rsi
	leaq	.Leb8ff08a20bd(%rip), %rax
	movq	%rax, 3056(%rsp)
	movq	$10, 3064(%rsp)
	movq	$1, 3072(%rsp)
	leaq	.Lfde4e117bca6(%rip), %rcx
	movq	%rcx, 3080(%rsp)
	movq	$86, 3088(%rsp)
	xorps	%xmm0, %xmm0
	movups	%xmm0, 3096(%rsp)
	movups	%xmm0, 3112(%rsp)
	movq	$1, 3128(%rsp)
	movq	%rax, 3136(%rsp)
	movq	$10, 3144(%rsp)
	movq	%r14, 3152(%rsp)
	movups	%xmm0, 3160(%rsp)
	movq	%r14, 3176(%rsp)
	movups	%xmm0, 3184(%rsp)
	movq	%r14, 3200(%rsp)
	movups	%xmm0, 3208(%rsp)
	movq	%r14, 3224(%rsp)
	movups	%xmm0, 3232(%rsp)
	movq	%r14, 3248(%rsp)
	movups	%xmm0, 3256(%rsp)
	movq	%r14, 3272(%rsp)
	movups	%xmm0, 3280(%rsp)
	movq	%r14, 3296(%rsp)
	movups	%xmm0, 3304(%rsp)
	movq	%r14, 3320(%rsp)
	movups	%xmm0, 3328(%rsp)
	movq	%r14, 3344(%rsp)
	movups	%xmm0, 3352(%rsp)
	movq	%r14, 3368(%rsp)
	movups	%xmm0, 3376(%rsp)
	movq	$1, 3392(%rsp)
	movq	%r14, 3400(%rsp)
	movq	$0, 3408(%rsp)
	movq	$1, 3416(%rsp)
	movq	%r14, 3424(%rsp)
	movq	$0, 3432(%rsp)
	movq	%r14, 3440(%rsp)
	movups	%xmm0, 3448(%rsp)
	movq	$1, 3464(%rsp)
	movq	%r14, 3472(%rsp)
	movups	%xmm0, 3544(%rsp)
	movups	%xmm0, 3528(%rsp)
	movups	%xmm0, 3512(%rsp)
	movups	%xmm0, 3496(%rsp)
	movups	%xmm0, 3480(%rsp)
	movw	$513, 3560(%rsp)
	movups	%xmm0, 3562(%rsp)
	movups	%xmm0, 3578(%rsp)
	movups	%xmm0, 3594(%rsp)
	movups	%xmm0, 3610(%rsp)
	movups	%xmm0, 3626(%rsp)
	movups	%xmm0, 3642(%rsp)
	movq	$0, 3656(%rsp)
	leaq	1568(%rsp), %rdi
	leaq	3056(%rsp), %rdx
	callq	"clap::builder::command::Command::arg"
	cmpb	$0, 1568(%rsp)
	jne	31f
	leaq	1576(%rsp), %rsi
	xorps	%xmm0, %xmm0
	movups	%xmm0, 4672(%rsp)
	movups	%xmm0, 4744(%rsp)
	leaq	.Lf36a7e586395(%rip), %rax
	movq	%rax, 4352(%rsp)
	movq	$6, 4360(%rsp)
	movq	$1, 4368(%rsp)
	leaq	.L4c6ba88da681(%rip), %rcx
	movq	%rcx, 4376(%rsp)
	movq	$108, 4384(%rsp)
	movups	%xmm0, 4392(%rsp)
	movq	$0, 4408(%rsp)
	movabsq	$476741369857, %rcx
	movq	%rcx, 4416(%rsp)
	movq	$1, 4424(%rsp)
	movq	%rax, 4432(%rsp)
	movq	$6, 4440(%rsp)
	movq	%r14, 4448(%rsp)
	movups	%xmm0, 4456(%rsp)
	movq	%r14, 4472(%rsp)
	movups	%xmm0, 4480(%rsp)
	movq	%r14, 4496(%rsp)
	movups	%xmm0, 4504(%rsp)
	movq	%r14, 4520(%rsp)
	movups	%xmm0, 4528(%rsp)
	movq	%r14, 4544(%rsp)
	movups	%xmm0, 4552(%rsp)
	movq	%r14, 4568(%rsp)
	movups	%xmm0, 4576(%rsp)
	movq	%r14, 4592(%rsp)
	movups	%xmm0, 4600(%rsp)
	movq	%r14, 4616(%rsp)
	movups	%xmm0, 4624(%rsp)
	movq	%r14, 4640(%rsp)
	movups	%xmm0, 4648(%rsp)
	movq	%r14, 4664(%rsp)
	movq	$1, 4688(%rsp)
	movq	%r14, 4696(%rsp)
	movq	$0, 4704(%rsp)
	movq	$1, 4712(%rsp)
	movq	%r14, 4720(%rsp)
	movq	$0, 4728(%rsp)
	movq	%r14, 4736(%rsp)
	movq	$0, 4760(%rsp)
	leaq	.Le2d0fcf04739(%rip), %rax
	movq	%rax, 4768(%rsp)
	movq	$4, 4776(%rsp)
	movups	%xmm0, 4928(%rsp)
	movups	%xmm0, 4912(%rsp)
	movups	%xmm0, 4896(%rsp)
	movups	%xmm0, 4880(%rsp)
	movups	%xmm0, 4864(%rsp)
	movups	%xmm0, 4848(%rsp)
	movups	%xmm0, 4832(%rsp)
	movups	%xmm0, 4816(%rsp)
	movups	%xmm0, 4800(%rsp)
	movups	%xmm0, 4784(%rsp)
	movb	$1, 4944(%rsp)
	movq	$0, 4945(%rsp)
	movq	$0, 4952(%rsp)
	leaq	3664(%rsp), %rdi
	leaq	4352(%rsp), %rdx
	callq	"clap::builder::command::Command::arg"
	cmpb	$0, 3664(%rsp)
	je	45f
31:
	cmpb	$1, 6384(%rsp)
	jne	32f
	cmpq	$0, 6408(%rsp)
	je	32f
	movq	6392(%rsp), %rdi
	callq	rattle_dealloc@PLT
32:
	cmpb	$1, 6416(%rsp)
	jne	33f
	cmpq	$0, 6440(%rsp)
	je	33f
	movq	6424(%rsp), %rdi
	callq	rattle_dealloc@PLT
33:
	cmpb	$1, 6448(%rsp)
	jne	34f
	cmpq	$0, 6472(%rsp)
	je	34f
	movq	6456(%rsp), %rdi
	callq	rattle_dealloc@PLT
34:
	cmpq	$0, 6712(%rsp)
	je	35f
	movq	6696(%rsp), %rdi
	callq	rattle_dealloc@PLT
35:
	cmpq	$0, 6736(%rsp)
	je	36f
	movq	6720(%rsp), %rdi
	callq	rattle_dealloc@PLT
36:
	leaq	6912(%rsp), %rbx
	cmpq	$0, 6760(%rsp)
	je	37f
	movq	6744(%rsp), %rdi
	callq	rattle_dealloc@PLT
37:
	movq	16(%rbx), %rax
	movq	%rax, 1040(%rsp)
	movups	(%rbx), %xmm0
	movaps	%xmm0, 1024(%rsp)
	leaq	1024(%rsp), %rdi
	callq	"std_alloc::vec::Vec::drop::<#f47e8c83c2357772>"
	movq	6936(%rsp), %rbx
	movq	6944(%rsp), %r13
	movq	6952(%rsp), %r12
	testq	%r13, %r13
	je	39f
	movq	%rbx, %r14
	.p2align	4
38:
	leaq	5648(%rsp), %r15
	movl	$672, %edx
	movq	%r15, %rdi
	movq	%r14, %rsi
	callq	memcpy@PLT
	movq	%r15, %rdi
	callq	"mime_request::clap++builder++command++Command+Destruct::drop"
	addq	$672, %r14
	decq	%r13
	jne	38b
39:
	testq	%r12, %r12
	je	40f
	movq	%rbx, %rdi
	callq	rattle_dealloc@PLT
40:
	movq	6960(%rsp), %rax
	movq	%rax, 16(%rsp)
	movq	6968(%rsp), %r13
	movq	6976(%rsp), %rax
	movq	%rax, 24(%rsp)
	testq	%r13, %r13
	je	126f
	movq	16(%rsp), %rax
	leaq	88(%rax), %rbp
	jmp	42f
	.p2align	4
41:
	addq	$104, %rbp
	decq	%r13
	je	126f
42:
	movq	-40(%rbp), %r15
	movq	-24(%rbp), %rbx
	movq	-16(%rbp), %r14
	movq	(%rbp), %r12
	cmpq	$0, -56(%rbp)
	je	43f
	movq	-72(%rbp), %rdi
	callq	rattle_dealloc@PLT
43:
	testq	%rbx, %rbx
	je	44f
	movq	%r15, %rdi
	callq	rattle_dealloc@PLT
44:
	testq	%r12, %r12
	je	41b
	movq	%r14, %rdi
	callq	rattle_dealloc@PLT
	jmp	41b
45:
	leaq	3672(%rsp), %rsi
	leaq	25096(%rsp), %rbx
	movl	$672, %edx
	movq	%rbx, %rdi
	callq	memcpy@PLT
	leaq	21016(%rsp), %r14
	movl	$672, %edx
	movq	%r14, %rdi
	movq	%rbx, %rsi
	callq	memcpy@PLT
	leaq	4968(%rsp), %rdi
	leaq	6336(%rsp), %rsi
	movq	%r14, %rdx
	callq	"clap::builder::command::Command::subcommand"
	cmpb	$0, 4968(%rsp)
	jne	128f
	movzbl	5024(%rsp), %ebx
	movq	5032(%rsp), %rax
	movq	%rax, 88(%rsp)
	movq	5048(%rsp), %r14
	movzbl	5056(%rsp), %r13d
	movq	5064(%rsp), %rax
	movq	%rax, 96(%rsp)
	movq	5080(%rsp), %rax
	movq	%rax, 224(%rsp)
	movzbl	5088(%rsp), %eax
	movb	%al, 40(%rsp)
	movq	5096(%rsp), %rax
	movq	%rax, 104(%rsp)
	movq	5112(%rsp), %rax
	movq	%rax, 32(%rsp)
	movq	5336(%rsp), %rax
	movq	%rax, 352(%rsp)
	movq	5352(%rsp), %rax
	movq	%rax, 48(%rsp)
	movq	5360(%rsp), %rax
	movq	%rax, 368(%rsp)
	movq	5376(%rsp), %rax
	movq	%rax, 56(%rsp)
	movq	5384(%rsp), %rax
	movq	%rax, 384(%rsp)
	movq	5400(%rsp), %rax
	movq	%rax, 64(%rsp)
	movq	5576(%rsp), %rbp
	movq	5584(%rsp), %r12
	movq	5592(%rsp), %rax
	movq	%rax, 72(%rsp)
	movq	5600(%rsp), %rax
	movq	%rax, 16(%rsp)
	movq	5608(%rsp), %r15
	movq	5616(%rsp), %rax
	movq	%rax, 24(%rsp)
	leaq	17648(%rsp), %rdi
	callq	"mime_request::command::plain_command"
	cmpb	$0, 17648(%rsp)
	je	59f
	cmpb	$1, %bl
	jne	46f
	testq	%r14, %r14
	je	46f
	movq	88(%rsp), %rdi
	callq	rattle_dealloc@PLT
46:
	cmpb	$1, %r13b
	jne	47f
	cmpq	$0, 224(%rsp)
	je	47f
	movq	96(%rsp), %rdi
	callq	rattle_dealloc@PLT
47:
	cmpb	$1, 40(%rsp)
	jne	48f
	cmpq	$0, 32(%rsp)
	je	48f
	movq	104(%rsp), %rdi
	callq	rattle_dealloc@PLT
48:
	cmpq	$0, 48(%rsp)
	je	49f
	movq	352(%rsp), %rdi
	callq	rattle_dealloc@PLT
49:
	cmpq	$0, 56(%rsp)
	je	50f
	movq	368(%rsp), %rdi
	callq	rattle_dealloc@PLT
50:
	cmpq	$0, 64(%rsp)
	je	51f
	movq	384(%rsp), %rdi
	callq	rattle_dealloc@PLT
51:
	leaq	5552(%rsp), %rdi
	callq	"std_alloc::vec::Vec::drop::<#f47e8c83c2357772>"
	testq	%r12, %r12
	je	53f
	movq	%rbp, %rbx
52:
	leaq	5648(%rsp), %r14
	movl	$672, %edx
	movq	%r14, %rdi
	movq	%rbx, %rsi
	callq	memcpy@PLT
	movq	%r14, %rdi
	callq	"mime_request::clap++builder++command++Command+Destruct::drop"
	addq	$672, %rbx
	decq	%r12
	jne	52b
53:
	cmpq	$0, 72(%rsp)
	je	54f
	movq	%rbp, %rdi
	callq	rattle_dealloc@PLT
54:
	testq	%r15, %r15
	je	126f
	movq	16(%rsp), %rax
	leaq	88(%rax), %r12
	jmp	56f
55:
	addq	$104, %r12
	decq	%r15
	je	126f
56:
	movq	-40(%r12), %r14
	movq	-24(%r12), %rbp
	movq	-16(%r12), %rbx
	movq	(%r12), %r13
	cmpq	$0, -56(%r12)
	je	57f
	movq	-72(%r12), %rdi
	callq	rattle_dealloc@PLT
57:
	testq	%rbp, %rbp
	je	58f
	movq	%r14, %rdi
	callq	rattle_dealloc@PLT
58:
	testq	%r13, %r13
	je	55b
	movq	%rbx, %rdi
	callq	rattle_dealloc@PLT
	jmp	55b
59:
	leaq	4976(%rsp), %rsi
	leaq	17656(%rsp), %rdx
	leaq	12888(%rsp), %rdi
	callq	"clap::builder::command::Command::subcommand"
	cmpb	$0, 12888(%rsp)
	jne	128f
	leaq	12896(%rsp), %rsi
	leaq	13576(%rsp), %rbx
	movl	$672, %edx
	movq	%rbx, %rdi
	callq	memcpy@PLT
	leaq	10856(%rsp), %rdi
	movl	$672, %edx
	movq	%rbx, %rsi
	callq	memcpy@PLT
	leaq	5648(%rsp), %rbx
	movl	$680, %edx
	movq	%rbx, %rdi
	xorl	%esi, %esi
	callq	memset@PLT
	leaq	.L8ea678d01413(%rip), %rax
	movq	%rax, 7008(%rsp)
	movq	$63, 7016(%rsp)
	leaq	.Lca64d732d5f8(%rip), %rax
	movq	%rax, 7024(%rsp)
	movq	$34, 7032(%rsp)
	leaq	.L70c461461cd4(%rip), %rax
	movq	%rax, 7040(%rsp)
	movq	$522, 7048(%rsp)
	leaq	.L43a52e568a8d(%rip), %rsi
	leaq	7008(%rsp), %rcx
	movl	$4, %edx
	movq	%rbx, %rdi
	callq	"mime_request::command::command_of_source"
	leaq	5656(%rsp), %rsi
	leaq	24417(%rsp), %rbx
	movzbl	5648(%rsp), %ebp
	movl	$672, %edx
	movq	%rbx, %rdi
	callq	memcpy@PLT
	testb	%bpl, %bpl
	je	73f
	cmpb	$1, 10904(%rsp)
	jne	60f
	cmpq	$0, 10928(%rsp)
	je	60f
	movq	10912(%rsp), %rdi
	callq	rattle_dealloc@PLT
60:
	cmpb	$1, 10936(%rsp)
	jne	61f
	cmpq	$0, 10960(%rsp)
	je	61f
	movq	10944(%rsp), %rdi
	callq	rattle_dealloc@PLT
61:
	cmpb	$1, 10968(%rsp)
	jne	62f
	cmpq	$0, 10992(%rsp)
	je	62f
	movq	10976(%rsp), %rdi
	callq	rattle_dealloc@PLT
62:
	cmpq	$0, 11232(%rsp)
	je	63f
	movq	11216(%rsp), %rdi
	callq	rattle_dealloc@PLT
63:
	cmpq	$0, 11256(%rsp)
	je	64f
	movq	11240(%rsp), %rdi
	callq	rattle_dealloc@PLT
64:
	cmpq	$0, 11280(%rsp)
	je	65f
	movq	11264(%rsp), %rdi
	callq	rattle_dealloc@PLT
65:
	movq	14168(%rsp), %rax
	movq	%rax, 1008(%rsp)
	movups	14152(%rsp), %xmm0
	movaps	%xmm0, 992(%rsp)
	leaq	992(%rsp), %rdi
	callq	"std_alloc::vec::Vec::drop::<#f47e8c83c2357772>"
	movq	11456(%rsp), %rbx
	movq	11464(%rsp), %r13
	movq	11472(%rsp), %r12
	testq	%r13, %r13
	je	67f
	movq	%rbx, %r14
66:
	leaq	5648(%rsp), %r15
	movl	$672, %edx
	movq	%r15, %rdi
	movq	%r14, %rsi
	callq	memcpy@PLT
	movq	%r15, %rdi
	callq	"mime_request::clap++builder++command++Command+Destruct::drop"
	addq	$672, %r14
	decq	%r13
	jne	66b
67:
	testq	%r12, %r12
	je	68f
	movq	%rbx, %rdi
	callq	rattle_dealloc@PLT
68:
	movq	11480(%rsp), %rax
	movq	%rax, 16(%rsp)
	movq	11488(%rsp), %r13
	movq	11496(%rsp), %rax
	movq	%rax, 24(%rsp)
	testq	%r13, %r13
	je	126f
	movq	16(%rsp), %rax
	leaq	88(%rax), %rbp
	jmp	70f
69:
	addq	$104, %rbp
	decq	%r13
	je	126f
70:
	movq	-40(%rbp), %r15
	movq	-24(%rbp), %rbx
	movq	-16(%rbp), %r14
	movq	(%rbp), %r12
	cmpq	$0, -56(%rbp)
	je	71f
	movq	-72(%rbp), %rdi
	callq	rattle_dealloc@PLT
71:
	testq	%rbx, %rbx
	je	72f
	movq	%r15, %rdi
	callq	rattle_dealloc@PLT
72:
	testq	%r12, %r12
	je	69b
	movq	%r14, %rdi
	callq	rattle_dealloc@PLT
	jmp	69b
73:
	leaq	20344(%rsp), %r14
	movl	$672, %edx
	movq	%r14, %rdi
	movq	%rbx, %rsi
	callq	memcpy@PLT
	leaq	8832(%rsp), %rdi
	leaq	10856(%rsp), %rsi
	movq	%r14, %rdx
	callq	"clap::builder::command::Command::subcommand"
	cmpb	$0, 8832(%rsp)
	jne	128f
	movzbl	8888(%rsp), %r13d
	movq	8896(%rsp), %rax
	movq	%rax, 128(%rsp)
	movq	8912(%rsp), %rax
	movq	%rax, 368(%rsp)
	movzbl	8920(%rsp), %ebx
	movq	8928(%rsp), %rax
	movq	%rax, 136(%rsp)
	movq	8944(%rsp), %rax
	movq	%rax, 384(%rsp)
	movzbl	8952(%rsp), %eax
	movb	%al, 32(%rsp)
	movq	8960(%rsp), %rax
	movq	%rax, 88(%rsp)
	movq	8976(%rsp), %rax
	movq	%rax, 224(%rsp)
	movq	9200(%rsp), %rax
	movq	%rax, 96(%rsp)
	movq	9216(%rsp), %rax
	movq	%rax, 40(%rsp)
	movq	9224(%rsp), %rax
	movq	%rax, 104(%rsp)
	movq	9240(%rsp), %rax
	movq	%rax, 48(%rsp)
	movq	9248(%rsp), %rax
	movq	%rax, 352(%rsp)
	movq	9264(%rsp), %rax
	movq	%rax, 56(%rsp)
	movq	9440(%rsp), %rax
	movq	%rax, 24(%rsp)
	movq	9448(%rsp), %rbp
	movq	9456(%rsp), %rax
	movq	%rax, 64(%rsp)
	movq	9464(%rsp), %rax
	movq	%rax, 16(%rsp)
	movq	9472(%rsp), %r12
	movq	9480(%rsp), %rax
	movq	%rax, 72(%rsp)
	leaq	5648(%rsp), %r15
	movl	$680, %edx
	movq	%r15, %rdi
	xorl	%esi, %esi
	callq	memset@PLT
	leaq	.Ledb79723a52c(%rip), %rax
	movq	%rax, 7008(%rsp)
	movq	$56, 7016(%rsp)
	leaq	.Ld93099d7ee70(%rip), %rax
	movq	%rax, 7024(%rsp)
	movq	$35, 7032(%rsp)
	leaq	.L28ccb1e04a55(%rip), %rax
	movq	%rax, 7040(%rsp)
	movq	$825, 7048(%rsp)
	leaq	.L043ca65c74e6(%rip), %rsi
	leaq	7008(%rsp), %rcx
	movl	$5, %edx
	movq	%r15, %rdi
	callq	"mime_request::command::command_of_source"
	leaq	5656(%rsp), %rsi
	leaq	23738(%rsp), %r15
	movzbl	5648(%rsp), %r14d
	movl	$672, %edx
	movq	%r15, %rdi
	callq	memcpy@PLT
	testb	%r14b, %r14b
	je	88f
	cmpb	$1, %r13b
	jne	74f
	cmpq	$0, 368(%rsp)
	je	74f
	movq	128(%rsp), %rdi
	callq	rattle_dealloc@PLT
74:
	cmpb	$1, %bl
	jne	75f
	cmpq	$0, 384(%rsp)
	je	75f
	movq	136(%rsp), %rdi
	callq	rattle_dealloc@PLT
75:
	cmpb	$1, 32(%rsp)
	jne	76f
	cmpq	$0, 224(%rsp)
	je	76f
	movq	88(%rsp), %rdi
	callq	rattle_dealloc@PLT
76:
	cmpq	$0, 40(%rsp)
	je	77f
	movq	96(%rsp), %rdi
	callq	rattle_dealloc@PLT
77:
	cmpq	$0, 48(%rsp)
	je	78f
	movq	104(%rsp), %rdi
	callq	rattle_dealloc@PLT
78:
	cmpq	$0, 56(%rsp)
	je	79f
	movq	352(%rsp), %rdi
	callq	rattle_dealloc@PLT
79:
	leaq	9416(%rsp), %rdi
	callq	"std_alloc::vec::Vec::drop::<#f47e8c83c2357772>"
	testq	%rbp, %rbp
	je	81f
	movq	24(%rsp), %rbx
80:
	leaq	5648(%rsp), %r14
	movl	$672, %edx
	movq	%r14, %rdi
	movq	%rbx, %rsi
	callq	memcpy@PLT
	movq	%r14, %rdi
	callq	"mime_request::clap++builder++command++Command+Destruct::drop"
	addq	$672, %rbx
	decq	%rbp
	jne	80b
81:
	cmpq	$0, 64(%rsp)
	je	82f
	movq	24(%rsp), %rdi
	callq	rattle_dealloc@PLT
82:
	testq	%r12, %r12
	je	87f
	movq	16(%rsp), %rax
	leaq	88(%rax), %r15
	jmp	84f
83:
	addq	$104, %r15
	decq	%r12
	je	87f
84:
	movq	-40(%r15), %r14
	movq	-24(%r15), %rbp
	movq	-16(%r15), %rbx
	movq	(%r15), %r13
	cmpq	$0, -56(%r15)
	je	85f
	movq	-72(%r15), %rdi
	callq	rattle_dealloc@PLT
85:
	testq	%rbp, %rbp
	je	86f
	movq	%r14, %rdi
	callq	rattle_dealloc@PLT
86:
	testq	%r13, %r13
	je	83b
	movq	%rbx, %rdi
	callq	rattle_dealloc@PLT
	jmp	83b
87:
	cmpq	$0, 72(%rsp)
	jne	127f
	jmp	128f
88:
	leaq	8840(%rsp), %rbx
	leaq	19672(%rsp), %r14
	movl	$672, %edx
	movq	%r14, %rdi
	movq	%r15, %rsi
	callq	memcpy@PLT
	leaq	12208(%rsp), %rdi
	movq	%rbx, %rsi
	movq	%r14, %rdx
	callq	"clap::builder::command::Command::subcommand"
	cmpb	$0, 12208(%rsp)
	jne	128f
	movzbl	12264(%rsp), %r15d
	movq	12272(%rsp), %rbp
	movq	12288(%rsp), %r12
	movzbl	12296(%rsp), %r13d
	movq	12304(%rsp), %rax
	movq	%rax, 224(%rsp)
	movq	12320(%rsp), %r14
	movzbl	12328(%rsp), %ebx
	movq	12336(%rsp), %rax
	movq	%rax, 32(%rsp)
	movq	12352(%rsp), %rax
	movq	%rax, 64(%rsp)
	movq	12576(%rsp), %rax
	movq	%rax, 40(%rsp)
	movq	12592(%rsp), %rax
	movq	%rax, 72(%rsp)
	movq	12600(%rsp), %rax
	movq	%rax, 48(%rsp)
	movq	12616(%rsp), %rax
	movq	%rax, 24(%rsp)
	movq	12624(%rsp), %rax
	movq	%rax, 56(%rsp)
	movq	12640(%rsp), %rax
	movq	%rax, 16(%rsp)
	leaq	16288(%rsp), %rdi
	callq	"mime_request::command::explain_command"
	cmpb	$0, 16288(%rsp)
	je	96f
	cmpb	$1, %r15b
	jne	89f
	testq	%r12, %r12
	je	89f
	movq	%rbp, %rdi
	callq	rattle_dealloc@PLT
89:
	cmpb	$1, %r13b
	jne	90f
	testq	%r14, %r14
	je	90f
	movq	224(%rsp), %rdi
	callq	rattle_dealloc@PLT
90:
	cmpb	$1, %bl
	jne	91f
	cmpq	$0, 64(%rsp)
	je	91f
	movq	32(%rsp), %rdi
	callq	rattle_dealloc@PLT
91:
	cmpq	$0, 72(%rsp)
	je	92f
	movq	40(%rsp), %rdi
	callq	rattle_dealloc@PLT
92:
	cmpq	$0, 24(%rsp)
	je	93f
	movq	48(%rsp), %rdi
	callq	rattle_dealloc@PLT
93:
	cmpq	$0, 16(%rsp)
	je	94f
	movq	56(%rsp), %rdi
	callq	rattle_dealloc@PLT
94:
	leaq	12792(%rsp), %rdi
	callq	"std_alloc::vec::Vec::drop::<#f47e8c83c2357772>"
	leaq	12816(%rsp), %rdi
	callq	"std_alloc::vec::Vec::drop::<#e186a966dcbbe5fe>"
	leaq	12840(%rsp), %rdi
95:
	callq	"std_alloc::vec::Vec::drop::<#ccb62962bdca9bb0>"
	jmp	128f
96:
	leaq	12216(%rsp), %rsi
	leaq	16296(%rsp), %rdx
	leaq	16968(%rsp), %rdi
	callq	"clap::builder::command::Command::subcommand"
	cmpb	$0, 16968(%rsp)
	jne	128f
	leaq	16976(%rsp), %rsi
	leaq	23059(%rsp), %rbx
	movl	$672, %edx
	movq	%rbx, %rdi
	callq	memcpy@PLT
	leaq	9512(%rsp), %rdi
	movl	$672, %edx
	movq	%rbx, %rsi
	callq	memcpy@PLT
	leaq	5648(%rsp), %rbx
	movl	$680, %edx
	movq	%rbx, %rdi
	xorl	%esi, %esi
	callq	memset@PLT
	leaq	7008(%rsp), %rdi
	movl	$680, %edx
	xorl	%esi, %esi
	callq	memset@PLT
	leaq	1568(%rsp), %rdi
	movl	$680, %edx
	xorl	%esi, %esi
	callq	memset@PLT
	leaq	4968(%rsp), %rdi
	movl	$608, %edx
	xorl	%esi, %esi
	callq	memset@PLT
	leaq	.Lc001665c5e53(%rip), %rax
	movq	%rax, 12888(%rsp)
	movq	$64, 12896(%rsp)
	leaq	.L87a13c65db5a(%rip), %rax
	movq	%rax, 12904(%rsp)
	movq	$43, 12912(%rsp)
	leaq	.L0c04eb6798c6(%rip), %rax
	movq	%rax, 12920(%rsp)
	movq	$678, 12928(%rsp)
	leaq	.L2423db314c3e(%rip), %rsi
	leaq	12888(%rsp), %rcx
	movl	$3, %edx
	movq	%rbx, %rdi
	callq	"mime_request::command::command_of_source"
	cmpb	$0, 5648(%rsp)
	jne	97f
	leaq	5656(%rsp), %rsi
	leaq	.Lf104d05df27b(%rip), %r15
	movq	%r15, 3664(%rsp)
	movq	$4, 3672(%rsp)
	movq	$1, 3680(%rsp)
	leaq	.Lf75583cc875e(%rip), %r12
	movq	%r12, 3688(%rsp)
	movq	$47, 3696(%rsp)
	xorps	%xmm0, %xmm0
	movups	%xmm0, 3704(%rsp)
	movups	%xmm0, 3720(%rsp)
	movups	%xmm0, 3736(%rsp)
	movq	$0, 3752(%rsp)
	leaq	8(%rsp), %rax
	movq	%rax, 3760(%rsp)
	movups	%xmm0, 3768(%rsp)
	movq	%rax, 3784(%rsp)
	movups	%xmm0, 3792(%rsp)
	movq	%rax, 3808(%rsp)
	movups	%xmm0, 3816(%rsp)
	movq	%rax, 3832(%rsp)
	movups	%xmm0, 3840(%rsp)
	movq	%rax, 3856(%rsp)
	movups	%xmm0, 3864(%rsp)
	movq	%rax, 3880(%rsp)
	movups	%xmm0, 3888(%rsp)
	movq	%rax, 3904(%rsp)
	movups	%xmm0, 3912(%rsp)
	movq	%rax, 3928(%rsp)
	movups	%xmm0, 3936(%rsp)
	movq	%rax, 3952(%rsp)
	movups	%xmm0, 3960(%rsp)
	movq	%rax, 3976(%rsp)
	movups	%xmm0, 3984(%rsp)
	movq	$1, 4000(%rsp)
	movq	%rax, 4008(%rsp)
	movq	$0, 4016(%rsp)
	movq	$1, 4024(%rsp)
	movq	%rax, 4032(%rsp)
	movq	$0, 4040(%rsp)
	movq	%rax, 4048(%rsp)
	movups	%xmm0, 4056(%rsp)
	movq	$0, 4072(%rsp)
	leaq	.L6a32fb5c392b(%rip), %r13
	movq	%r13, 4080(%rsp)
	movq	$4, 4088(%rsp)
	movups	%xmm0, 4096(%rsp)
	movups	%xmm0, 4112(%rsp)
	movups	%xmm0, 4128(%rsp)
	movups	%xmm0, 4144(%rsp)
	movups	%xmm0, 4160(%rsp)
	movups	%xmm0, 4176(%rsp)
	movups	%xmm0, 4192(%rsp)
	movups	%xmm0, 4208(%rsp)
	movups	%xmm0, 4224(%rsp)
	movups	%xmm0, 4240(%rsp)
	movb	$1, 4256(%rsp)
	movq	$0, 4257(%rsp)
	movq	$0, 4264(%rsp)
	leaq	7008(%rsp), %rdi
	leaq	3664(%rsp), %rdx
	callq	"clap::builder::command::Command::arg"
	cmpb	$0, 7008(%rsp)
	jne	97f
	leaq	7016(%rsp), %rsi
	leaq	.Lde0243567b8f(%rip), %rax
	movq	%rax, 4968(%rsp)
	movq	$4, 4976(%rsp)
	movq	$1, 4984(%rsp)
	leaq	.L3fd39479eab8(%rip), %rax
	movq	%rax, 4992(%rsp)
	movq	$43, 5000(%rsp)
	xorps	%xmm0, %xmm0
	movups	%xmm0, 5008(%rsp)
	movups	%xmm0, 5024(%rsp)
	movups	%xmm0, 5040(%rsp)
	movq	$0, 5056(%rsp)
	leaq	8(%rsp), %rax
	movq	%rax, 5064(%rsp)
	movups	%xmm0, 5072(%rsp)
	movq	%rax, 5088(%rsp)
	movups	%xmm0, 5096(%rsp)
	movq	%rax, 5112(%rsp)
	movups	%xmm0, 5120(%rsp)
	movq	%rax, 5136(%rsp)
	movups	%xmm0, 5144(%rsp)
	movq	%rax, 5160(%rsp)
	movups	%xmm0, 5168(%rsp)
	movq	%rax, 5184(%rsp)
	movups	%xmm0, 5192(%rsp)
	movq	%rax, 5208(%rsp)
	movups	%xmm0, 5216(%rsp)
	movq	%rax, 5232(%rsp)
	movups	%xmm0, 5240(%rsp)
	movq	%rax, 5256(%rsp)
	movups	%xmm0, 5264(%rsp)
	movq	%rax, 5280(%rsp)
	movups	%xmm0, 5288(%rsp)
	movq	$1, 5304(%rsp)
	movq	%rax, 5312(%rsp)
	movq	$0, 5320(%rsp)
	movq	$1, 5328(%rsp)
	movq	%rax, 5336(%rsp)
	movq	$0, 5344(%rsp)
	movq	%rax, 5352(%rsp)
	movups	%xmm0, 5360(%rsp)
	movq	$0, 5376(%rsp)
	leaq	.L85097403f6a7(%rip), %rax
	movq	%rax, 5384(%rsp)
	movq	$4, 5392(%rsp)
	movups	%xmm0, 5400(%rsp)
	movups	%xmm0, 5416(%rsp)
	movups	%xmm0, 5432(%rsp)
	movups	%xmm0, 5448(%rsp)
	movups	%xmm0, 5464(%rsp)
	movups	%xmm0, 5480(%rsp)
	movups	%xmm0, 5496(%rsp)
	movups	%xmm0, 5512(%rsp)
	movups	%xmm0, 5528(%rsp)
	movups	%xmm0, 5544(%rsp)
	movb	$1, 5560(%rsp)
	movq	$0, 5561(%rsp)
	movq	$0, 5568(%rsp)
	leaq	1568(%rsp), %rdi
	leaq	4968(%rsp), %rdx
	callq	"clap::builder::command::Command::arg"
	cmpb	$0, 1568(%rsp)
	je	111f
97:
	cmpb	$1, 9560(%rsp)
	jne	98f
	cmpq	$0, 9584(%rsp)
	je	98f
	movq	9568(%rsp), %rdi
	callq	rattle_dealloc@PLT
98:
	cmpb	$1, 9592(%rsp)
	jne	99f
	cmpq	$0, 9616(%rsp)
	je	99f
	movq	9600(%rsp), %rdi
	callq	rattle_dealloc@PLT
99:
	cmpb	$1, 9624(%rsp)
	jne	100f
	cmpq	$0, 9648(%rsp)
	je	100f
	movq	9632(%rsp), %rdi
	callq	rattle_dealloc@PLT
100:
	cmpq	$0, 9888(%rsp)
	je	101f
	movq	9872(%rsp), %rdi
	callq	rattle_dealloc@PLT
101:
	cmpq	$0, 9912(%rsp)
	je	102f
	movq	9896(%rsp), %rdi
	callq	rattle_dealloc@PLT
102:
	cmpq	$0, 9936(%rsp)
	je	103f
	movq	9920(%rsp), %rdi
	callq	rattle_dealloc@PLT
103:
	leaq	10088(%rsp), %rdi
	callq	"std_alloc::vec::Vec::drop::<#f47e8c83c2357772>"
	movq	10112(%rsp), %rbx
	movq	10120(%rsp), %r13
	movq	10128(%rsp), %r12
	testq	%r13, %r13
	je	105f
	movq	%rbx, %r14
104:
	leaq	5648(%rsp), %r15
	movl	$672, %edx
	movq	%r15, %rdi
	movq	%r14, %rsi
	callq	memcpy@PLT
	movq	%r15, %rdi
	callq	"mime_request::clap++builder++command++Command+Destruct::drop"
	addq	$672, %r14
	decq	%r13
	jne	104b
105:
	testq	%r12, %r12
	je	106f
	movq	%rbx, %rdi
	callq	rattle_dealloc@PLT
106:
	movq	10136(%rsp), %rax
	movq	%rax, 16(%rsp)
	movq	10144(%rsp), %r13
	movq	10152(%rsp), %rax
	movq	%rax, 24(%rsp)
	testq	%r13, %r13
	je	126f
	movq	16(%rsp), %rax
	leaq	88(%rax), %rbp
	jmp	108f
107:
	addq	$104, %rbp
	decq	%r13
	je	126f
108:
	movq	-40(%rbp), %r15
	movq	-24(%rbp), %rbx
	movq	-16(%rbp), %r14
	movq	(%rbp), %r12
	cmpq	$0, -56(%rbp)
	je	109f
	movq	-72(%rbp), %rdi
	callq	rattle_dealloc@PLT
109:
	testq	%rbx, %rbx
	je	110f
	movq	%r15, %rdi
	callq	rattle_dealloc@PLT
110:
	testq	%r12, %r12
	je	107b
	movq	%r14, %rdi
	callq	rattle_dealloc@PLT
	jmp	107b
111:
	leaq	1576(%rsp), %rsi
	leaq	22380(%rsp), %rbx
	movl	$672, %edx
	movq	%rbx, %rdi
	callq	memcpy@PLT
	leaq	19000(%rsp), %r14
	movl	$672, %edx
	movq	%r14, %rdi
	movq	%rbx, %rsi
	callq	memcpy@PLT
	leaq	15608(%rsp), %rdi
	leaq	9512(%rsp), %rsi
	movq	%r14, %rdx
	callq	"clap::builder::command::Command::subcommand"
	cmpb	$0, 15608(%rsp)
	jne	128f
	leaq	15616(%rsp), %rbx
	leaq	10184(%rsp), %rdi
	movl	$672, %edx
	movq	%rbx, %rsi
	callq	memcpy@PLT
	leaq	5648(%rsp), %r14
	movl	$680, %edx
	movq	%r14, %rdi
	xorl	%esi, %esi
	callq	memset@PLT
	leaq	7008(%rsp), %rdi
	movl	$680, %edx
	xorl	%esi, %esi
	callq	memset@PLT
	leaq	.Lc8bb6ad023bf(%rip), %rax
	movq	%rax, 3664(%rsp)
	movq	$46, 3672(%rsp)
	leaq	.L70fd1cee362c(%rip), %rax
	movq	%rax, 3680(%rsp)
	movq	$39, 3688(%rsp)
	leaq	.L79e8aea61817(%rip), %rax
	movq	%rax, 3696(%rsp)
	movq	$631, 3704(%rsp)
	leaq	.L920aa9c63673(%rip), %rsi
	leaq	3664(%rsp), %rcx
	movl	$4, %edx
	movq	%r14, %rdi
	callq	"mime_request::command::command_of_source"
	cmpb	$0, 5648(%rsp)
	jne	112f
	leaq	5656(%rsp), %rsi
	movq	%r15, 1568(%rsp)
	movq	$4, 1576(%rsp)
	movq	$1, 1584(%rsp)
	movq	%r12, 1592(%rsp)
	movq	$47, 1600(%rsp)
	xorps	%xmm0, %xmm0
	movups	%xmm0, 1608(%rsp)
	movups	%xmm0, 1624(%rsp)
	movups	%xmm0, 1640(%rsp)
	movq	$0, 1656(%rsp)
	leaq	8(%rsp), %rax
	movq	%rax, 1664(%rsp)
	movups	%xmm0, 1672(%rsp)
	movq	%rax, 1688(%rsp)
	movups	%xmm0, 1696(%rsp)
	movq	%rax, 1712(%rsp)
	movups	%xmm0, 1720(%rsp)
	movq	%rax, 1736(%rsp)
	movups	%xmm0, 1744(%rsp)
	movq	%rax, 1760(%rsp)
	movups	%xmm0, 1768(%rsp)
	movq	%rax, 1784(%rsp)
	movups	%xmm0, 1792(%rsp)
	movq	%rax, 1808(%rsp)
	movups	%xmm0, 1816(%rsp)
	movq	%rax, 1832(%rsp)
	movups	%xmm0, 1840(%rsp)
	movq	%rax, 1856(%rsp)
	movups	%xmm0, 1864(%rsp)
	movq	%rax, 1880(%rsp)
	movups	%xmm0, 1888(%rsp)
	movq	$1, 1904(%rsp)
	movq	%rax, 1912(%rsp)
	movq	$0, 1920(%rsp)
	movq	$1, 1928(%rsp)
	movq	%rax, 1936(%rsp)
	movq	$0, 1944(%rsp)
	movq	%rax, 1952(%rsp)
	movups	%xmm0, 1960(%rsp)
	movq	$0, 1976(%rsp)
	movq	%r13, 1984(%rsp)
	movq	$4, 1992(%rsp)
	movups	%xmm0, 2000(%rsp)
	movups	%xmm0, 2016(%rsp)
	movups	%xmm0, 2032(%rsp)
	movups	%xmm0, 2048(%rsp)
	movups	%xmm0, 2064(%rsp)
	movups	%xmm0, 2080(%rsp)
	movups	%xmm0, 2096(%rsp)
	movups	%xmm0, 2112(%rsp)
	movups	%xmm0, 2128(%rsp)
	movups	%xmm0, 2144(%rsp)
	movb	$1, 2160(%rsp)
	movq	$0, 2161(%rsp)
	movq	$0, 2168(%rsp)
	leaq	7008(%rsp), %rdi
	leaq	1568(%rsp), %rdx
	callq	"clap::builder::command::Command::arg"
	cmpb	$0, 7008(%rsp)
	je	131f
112:
	cmpb	$1, 10232(%rsp)
	jne	113f
	cmpq	$0, 10256(%rsp)
	je	113f
	movq	10240(%rsp), %rdi
	callq	rattle_dealloc@PLT
113:
	cmpb	$1, 10264(%rsp)
	jne	114f
	cmpq	$0, 10288(%rsp)
	je	114f
	movq	10272(%rsp), %rdi
	callq	rattle_dealloc@PLT
114:
	cmpb	$1, 10296(%rsp)
	jne	115f
	cmpq	$0, 10320(%rsp)
	je	115f
	movq	10304(%rsp), %rdi
	callq	rattle_dealloc@PLT
115:
	cmpq	$0, 10560(%rsp)
	je	116f
	movq	10544(%rsp), %rdi
	callq	rattle_dealloc@PLT
116:
	cmpq	$0, 10584(%rsp)
	je	117f
	movq	10568(%rsp), %rdi
	callq	rattle_dealloc@PLT
117:
	cmpq	$0, 10608(%rsp)
	je	118f
	movq	10592(%rsp), %rdi
	callq	rattle_dealloc@PLT
118:
	leaq	10760(%rsp), %rdi
	callq	"std_alloc::vec::Vec::drop::<#f47e8c83c2357772>"
	movq	10784(%rsp), %rbx
	movq	10792(%rsp), %r13
	movq	10800(%rsp), %r12
	testq	%r13, %r13
	je	120f
	movq	%rbx, %r14
119:
	leaq	5648(%rsp), %r15
	movl	$672, %edx
	movq	%r15, %rdi
	movq	%r14, %rsi
	callq	memcpy@PLT
	movq	%r15, %rdi
	callq	"mime_request::clap++builder++command++Command+Destruct::drop"
	addq	$672, %r14
	decq	%r13
	jne	119b
120:
	testq	%r12, %r12
	je	121f
	movq	%rbx, %rdi
	callq	rattle_dealloc@PLT
121:
	movq	10808(%rsp), %rax
	movq	%rax, 16(%rsp)
	movq	10816(%rsp), %r13
	movq	10824(%rsp), %rax
	movq	%rax, 24(%rsp)
	testq	%r13, %r13
	je	126f
	movq	16(%rsp), %rax
	leaq	88(%rax), %rbp
	jmp	123f
122:
	addq	$104, %rbp
	decq	%r13
	je	126f
123:
	movq	-40(%rbp), %r15
	movq	-24(%rbp), %rbx
	movq	-16(%rbp), %r14
	movq	(%rbp), %r12
	cmpq	$0, -56(%rbp)
	je	124f
	movq	-72(%rbp), %rdi
	callq	rattle_dealloc@PLT
124:
	testq	%rbx, %rbx
	je	125f
	movq	%r15, %rdi
	callq	rattle_dealloc@PLT
125:
	testq	%r12, %r12
	je	122b
	movq	%r14, %rdi
	callq	rattle_dealloc@PLT
	jmp	122b
126:
	cmpq	$0, 24(%rsp)
	je	128f
127:
	movq	16(%rsp), %rdi
	callq	rattle_dealloc@PLT
128:
	movq	160(%rsp), %rdi
	movb	$1, (%rdi)
	addq	$8, %rdi
129:
	movl	$672, %edx
	xorl	%esi, %esi
	callq	memset@PLT
130:
	addq	$25768, %rsp
	popq	%rbx
	popq	%r12
	popq	%r13
	popq	%r14
	popq	%r15
	popq	%rbp
	retq
131:
	leaq	7016(%rsp), %rsi
	leaq	21701(%rsp), %r14
	movl	$672, %edx
	movq	%r14, %rdi
	callq	memcpy@PLT
	leaq	18328(%rsp), %r15
	movl	$672, %edx
	movq	%r15, %rdi
	movq	%r14, %rsi
	callq	memcpy@PLT
	leaq	11528(%rsp), %rdi
	movq	%rbx, %rsi
	movq	%r15, %rdx
	callq	"clap::builder::command::Command::subcommand"
	cmpb	$0, 11528(%rsp)
	jne	128b
	movzbl	11584(%rsp), %r15d
	movq	11592(%rsp), %rbp
	movq	11608(%rsp), %r12
	movzbl	11616(%rsp), %r13d
	movq	11624(%rsp), %rax
	movq	%rax, 224(%rsp)
	movq	11640(%rsp), %r14
	movzbl	11648(%rsp), %ebx
	movq	11656(%rsp), %rax
	movq	%rax, 32(%rsp)
	movq	11672(%rsp), %rax
	movq	%rax, 64(%rsp)
	movq	11896(%rsp), %rax
	movq	%rax, 40(%rsp)
	movq	11912(%rsp), %rax
	movq	%rax, 72(%rsp)
	movq	11920(%rsp), %rax
	movq	%rax, 48(%rsp)
	movq	11936(%rsp), %rax
	movq	%rax, 24(%rsp)
	movq	11944(%rsp), %rax
	movq	%rax, 56(%rsp)
	movq	11960(%rsp), %rax
	movq	%rax, 16(%rsp)
	leaq	14248(%rsp), %rdi
	callq	"mime_request::command::type_command"
	cmpb	$0, 14248(%rsp)
	je	138f
	cmpb	$1, %r15b
	jne	132f
	testq	%r12, %r12
	je	132f
	movq	%rbp, %rdi
	callq	rattle_dealloc@PLT
132:
	cmpb	$1, %r13b
	jne	133f
	testq	%r14, %r14
	je	133f
	movq	224(%rsp), %rdi
	callq	rattle_dealloc@PLT
133:
	cmpb	$1, %bl
	jne	134f
	cmpq	$0, 64(%rsp)
	je	134f
	movq	32(%rsp), %rdi
	callq	rattle_dealloc@PLT
134:
	cmpq	$0, 72(%rsp)
	je	135f
	movq	40(%rsp), %rdi
	callq	rattle_dealloc@PLT
135:
	cmpq	$0, 24(%rsp)
	je	136f
	movq	48(%rsp), %rdi
	callq	rattle_dealloc@PLT
136:
	cmpq	$0, 16(%rsp)
	je	137f
	movq	56(%rsp), %rdi
	callq	rattle_dealloc@PLT
137:
	leaq	12112(%rsp), %rdi
	callq	"std_alloc::vec::Vec::drop::<#f47e8c83c2357772>"
	leaq	12136(%rsp), %rdi
	callq	"std_alloc::vec::Vec::drop::<#e186a966dcbbe5fe>"
	leaq	12160(%rsp), %rdi
	jmp	95b
138:
	leaq	11536(%rsp), %rsi
	leaq	14256(%rsp), %rdx
	leaq	14928(%rsp), %rdi
	callq	"clap::builder::command::Command::subcommand"
	movq	160(%rsp), %rax
	leaq	8(%rax), %rdi
	cmpb	$0, 14928(%rsp)
	je	139f
	movq	160(%rsp), %rax
	movb	$1, (%rax)
	jmp	129b
139:
	leaq	14936(%rsp), %rsi
	movq	160(%rsp), %rax
	movb	$0, (%rax)
	movl	$672, %edx
	callq	memcpy@PLT
	jmp	130b
140:
	.size	"mime_request::command::mimelook_command", 140b-"mime_request::command::mimelook_command"

	.text
	.p2align	4
	.type	"mime_request::command::plain_command",@function
"mime_request::command::plain_command":
	pushq	%r15
	pushq	%r14
	pushq	%rbx
	subq	$3072, %rsp
	movq	$0, (%rsp)
	subq	$1664, %rsp
	movq	%rdi, %rbx
	leaq	4056(%rsp), %r14
	movl	$680, %edx
	movq	%r14, %rdi
	xorl	%esi, %esi
	callq	memset@PLT
	leaq	3376(%rsp), %rdi
	movl	$680, %edx
	xorl	%esi, %esi
	callq	memset@PLT
	leaq	56(%rsp), %rdi
	movl	$608, %edx
	xorl	%esi, %esi
	callq	memset@PLT
	leaq	2696(%rsp), %rdi
	movl	$680, %edx
	xorl	%esi, %esi
	callq	memset@PLT
	leaq	2016(%rsp), %rdi
	movl	$680, %edx
	xorl	%esi, %esi
	callq	memset@PLT
	leaq	1336(%rsp), %rdi
	movl	$680, %edx
	xorl	%esi, %esi
	callq	memset@PLT
	leaq	.L46d14cdbc0b0(%rip), %rax
	movq	%rax, 664(%rsp)
	movq	$5, 672(%rsp)
	leaq	680(%rsp), %rdi
	movl	$344, %edx
	xorl	%esi, %esi
	callq	memset@PLT
	movq	%rsp, %r15
	movq	%r15, 1024(%rsp)
	xorps	%xmm0, %xmm0
	movups	%xmm0, 1032(%rsp)
	movq	%r15, 1048(%rsp)
	movups	%xmm0, 1056(%rsp)
	movq	%r15, 1072(%rsp)
	movups	%xmm0, 1080(%rsp)
	movups	%xmm0, 1096(%rsp)
	movups	%xmm0, 1112(%rsp)
	movups	%xmm0, 1128(%rsp)
	movups	%xmm0, 1144(%rsp)
	movups	%xmm0, 1160(%rsp)
	movups	%xmm0, 1176(%rsp)
	movups	%xmm0, 1192(%rsp)
	movups	%xmm0, 1208(%rsp)
	movups	%xmm0, 1224(%rsp)
	movq	%r15, 1240(%rsp)
	movups	%xmm0, 1248(%rsp)
	movq	%r15, 1264(%rsp)
	movups	%xmm0, 1272(%rsp)
	movq	%r15, 1288(%rsp)
	movups	%xmm0, 1312(%rsp)
	movups	%xmm0, 1296(%rsp)
	movq	$0, 1328(%rsp)
	leaq	.L337bb3f0084d(%rip), %rax
	movq	%rax, 8(%rsp)
	movq	$54, 16(%rsp)
	leaq	.Lee247ddd7fed(%rip), %rax
	movq	%rax, 24(%rsp)
	movq	$206, 32(%rsp)
	leaq	.Ladfe6cd27f2c(%rip), %rax
	movq	%rax, 40(%rsp)
	movq	$891, 48(%rsp)
	leaq	664(%rsp), %rsi
	leaq	8(%rsp), %rdx
	movq	%r14, %rdi
	callq	"mime_request::command::with_help"
	cmpb	$0, 4056(%rsp)
	jne	1f
	leaq	4064(%rsp), %rsi
	leaq	.L558c2c36d03f(%rip), %rax
	movq	%rax, 56(%rsp)
	movq	$4, 64(%rsp)
	movq	$1, 72(%rsp)
	leaq	.L797f014df943(%rip), %rax
	movq	%rax, 80(%rsp)
	movq	$127, 88(%rsp)
	xorps	%xmm0, %xmm0
	movups	%xmm0, 96(%rsp)
	movq	$0, 112(%rsp)
	movabsq	$429496729601, %rax
	movq	%rax, 120(%rsp)
	movq	$1, 128(%rsp)
	leaq	.L08eec631916e(%rip), %rax
	movq	%rax, 136(%rsp)
	movq	$9, 144(%rsp)
	movq	%r15, 152(%rsp)
	movups	%xmm0, 160(%rsp)
	movq	%r15, 176(%rsp)
	movups	%xmm0, 184(%rsp)
	movq	%r15, 200(%rsp)
	movups	%xmm0, 208(%rsp)
	movq	%r15, 224(%rsp)
	movups	%xmm0, 232(%rsp)
	movq	%r15, 248(%rsp)
	movups	%xmm0, 256(%rsp)
	movq	%r15, 272(%rsp)
	movups	%xmm0, 280(%rsp)
	movq	%r15, 296(%rsp)
	movups	%xmm0, 304(%rsp)
	movq	%r15, 320(%rsp)
	movups	%xmm0, 328(%rsp)
	movq	%r15, 344(%rsp)
	movups	%xmm0, 352(%rsp)
	movq	%r15, 368(%rsp)
	movups	%xmm0, 376(%rsp)
	movq	$1, 392(%rsp)
	movq	%r15, 400(%rsp)
	movq	$0, 408(%rsp)
	movq	$1, 416(%rsp)
	movq	%r15, 424(%rsp)
	movq	$0, 432(%rsp)
	movq	%r15, 440(%rsp)
	movups	%xmm0, 448(%rsp)
	movq	$0, 464(%rsp)
	leaq	.L7e7e9dc2ef5a(%rip), %rax
	movq	%rax, 472(%rsp)
	movq	$4, 480(%rsp)
	movups	%xmm0, 488(%rsp)
	movups	%xmm0, 504(%rsp)
	movups	%xmm0, 520(%rsp)
	movups	%xmm0, 536(%rsp)
	movups	%xmm0, 552(%rsp)
	movups	%xmm0, 568(%rsp)
	movups	%xmm0, 584(%rsp)
	movups	%xmm0, 600(%rsp)
	movups	%xmm0, 616(%rsp)
	movups	%xmm0, 632(%rsp)
	movups	%xmm0, 648(%rsp)
	leaq	3376(%rsp), %rdi
	leaq	56(%rsp), %rdx
	callq	"clap::builder::command::Command::arg"
	cmpb	$0, 3376(%rsp)
	jne	1f
	leaq	3384(%rsp), %rsi
	leaq	2696(%rsp), %rdi
	callq	"mime_request::command::with_looks"
	cmpb	$0, 2696(%rsp)
	jne	1f
	leaq	2704(%rsp), %rsi
	leaq	2016(%rsp), %rdi
	callq	"mime_request::command::with_output"
	cmpb	$0, 2016(%rsp)
	je	4f
1:
	movb	$1, (%rbx)
	addq	$8, %rbx
	movl	$672, %edx
	movq	%rbx, %rdi
2:
	xorl	%esi, %esi
	callq	memset@PLT
3:
	addq	$4736, %rsp
	popq	%rbx
	popq	%r14
	popq	%r15
	retq
4:
	leaq	2024(%rsp), %rsi
	leaq	1336(%rsp), %rdi
	callq	"mime_request::command::with_subjects"
	leaq	8(%rbx), %rdi
	cmpb	$0, 1336(%rsp)
	je	5f
	movb	$1, (%rbx)
	movl	$672, %edx
	jmp	2b
5:
	leaq	1344(%rsp), %rsi
	movb	$0, (%rbx)
	movl	$672, %edx
	callq	memcpy@PLT
	jmp	3b
6:
	.size	"mime_request::command::plain_command", 6b-"mime_request::command::plain_command"

	.text
	.p2align	4
	.type	"mime_request::command::type_command",@function
"mime_request::command::type_command":
	pushq	%r14
	pushq	%rbx
	subq	$3072, %rsp
	movq	$0, (%rsp)
	subq	$1000, %rsp
	movq	%rdi, %rbx
	leaq	3392(%rsp), %r14
	movl	$680, %edx
	movq	%r14, %rdi
	xorl	%esi, %esi
	callq	memset@PLT
	leaq	2712(%rsp), %rdi
	movl	$680, %edx
	xorl	%esi, %esi
	callq	memset@PLT
	leaq	2032(%rsp), %rdi
	movl	$680, %edx
	xorl	%esi, %esi
	callq	memset@PLT
	leaq	64(%rsp), %rdi
	movl	$608, %edx
	xorl	%esi, %esi
	callq	memset@PLT
	leaq	1352(%rsp), %rdi
	movl	$680, %edx
	xorl	%esi, %esi
	callq	memset@PLT
	leaq	672(%rsp), %rdi
	movl	$680, %edx
	xorl	%esi, %esi
	callq	memset@PLT
	leaq	.L0b4a2d47cb3a(%rip), %rax
	movq	%rax, 16(%rsp)
	movq	$43, 24(%rsp)
	leaq	.Ld40b30192e9d(%rip), %rax
	movq	%rax, 32(%rsp)
	movq	$223, 40(%rsp)
	leaq	.L454e4f5a64d7(%rip), %rax
	movq	%rax, 48(%rsp)
	movq	$841, 56(%rsp)
	leaq	.Lf104d05df27b(%rip), %rsi
	leaq	16(%rsp), %rcx
	movl	$4, %edx
	movq	%r14, %rdi
	callq	"mime_request::command::command_of_source"
	cmpb	$0, 3392(%rsp)
	jne	1f
	leaq	3400(%rsp), %rsi
	leaq	2712(%rsp), %rdi
	callq	"mime_request::command::with_looks"
	cmpb	$0, 2712(%rsp)
	je	2f
1:
	movb	$1, (%rbx)
	addq	$8, %rbx
	movl	$672, %edx
	movq	%rbx, %rdi
	xorl	%esi, %esi
	addq	$4072, %rsp
	popq	%rbx
	popq	%r14
	jmp	memset@PLT
2:
	leaq	2720(%rsp), %rsi
	leaq	.L8861b7b71362(%rip), %rax
	movq	%rax, 64(%rsp)
	movq	$4, 72(%rsp)
	movq	$1, 80(%rsp)
	leaq	.Lcc00331ed980(%rip), %rcx
	movq	%rcx, 88(%rsp)
	movq	$173, 96(%rsp)
	xorps	%xmm0, %xmm0
	movups	%xmm0, 104(%rsp)
	movups	%xmm0, 120(%rsp)
	movq	$1, 136(%rsp)
	movq	%rax, 144(%rsp)
	movq	$4, 152(%rsp)
	leaq	8(%rsp), %rax
	movq	%rax, 160(%rsp)
	movups	%xmm0, 168(%rsp)
	movq	%rax, 184(%rsp)
	movups	%xmm0, 192(%rsp)
	movq	%rax, 208(%rsp)
	movups	%xmm0, 216(%rsp)
	movq	%rax, 232(%rsp)
	movups	%xmm0, 240(%rsp)
	movq	%rax, 256(%rsp)
	movups	%xmm0, 264(%rsp)
	movq	%rax, 280(%rsp)
	movups	%xmm0, 288(%rsp)
	movq	%rax, 304(%rsp)
	movups	%xmm0, 312(%rsp)
	movq	%rax, 328(%rsp)
	movups	%xmm0, 336(%rsp)
	movq	%rax, 352(%rsp)
	movups	%xmm0, 360(%rsp)
	movq	%rax, 376(%rsp)
	movups	%xmm0, 384(%rsp)
	movq	$1, 400(%rsp)
	movq	%rax, 408(%rsp)
	movq	$0, 416(%rsp)
	movq	$1, 424(%rsp)
	movq	%rax, 432(%rsp)
	movq	$0, 440(%rsp)
	movq	%rax, 448(%rsp)
	movups	%xmm0, 456(%rsp)
	movq	$1, 472(%rsp)
	movq	%rax, 480(%rsp)
	movups	%xmm0, 552(%rsp)
	movups	%xmm0, 536(%rsp)
	movups	%xmm0, 520(%rsp)
	movups	%xmm0, 504(%rsp)
	movups	%xmm0, 488(%rsp)
	movw	$513, 568(%rsp)
	movups	%xmm0, 570(%rsp)
	movups	%xmm0, 586(%rsp)
	movups	%xmm0, 602(%rsp)
	movups	%xmm0, 618(%rsp)
	movups	%xmm0, 634(%rsp)
	movups	%xmm0, 650(%rsp)
	movq	$0, 664(%rsp)
	leaq	2032(%rsp), %rdi
	leaq	64(%rsp), %rdx
	callq	"clap::builder::command::Command::arg"
	cmpb	$0, 2032(%rsp)
	jne	3f
	leaq	2040(%rsp), %rsi
	leaq	1352(%rsp), %rdi
	callq	"mime_request::command::with_output"
	cmpb	$0, 1352(%rsp)
	je	5f
3:
	movb	$1, (%rbx)
	addq	$8, %rbx
	movl	$672, %edx
	movq	%rbx, %rdi
4:
	xorl	%esi, %esi
	callq	memset@PLT
	addq	$4072, %rsp
	popq	%rbx
	popq	%r14
	retq
5:
	leaq	1360(%rsp), %rsi
	leaq	672(%rsp), %rdi
	callq	"mime_request::command::with_subjects"
	leaq	8(%rbx), %rdi
	cmpb	$0, 672(%rsp)
	je	6f
	movb	$1, (%rbx)
	movl	$672, %edx
	jmp	4b
6:
	leaq	680(%rsp), %rsi
	movb	$0, (%rbx)
	movl	$672, %edx
	callq	memcpy@PLT
	addq	$4072, %rsp
	popq	%rbx
	popq	%r14
	retq
7:
	.size	"mime_request::command::type_command", 7b-"mime_request::command::type_command"

	.text
	.p2align	4
	.type	"mime_request::command::with_help",@function
"mime_request::command::with_help":
	pushq	%rbp
	pushq	%r15
	pushq	%r14
	pushq	%r13
	pushq	%r12
	pushq	%rbx
	subq	$2248, %rsp
	movq	%rdi, 280(%rsp)
	movzbl	48(%rsi), %r15d
	movq	56(%rsi), %rax
	movq	%rax, 240(%rsp)
	movq	72(%rsi), %r14
	movzbl	80(%rsi), %eax
	movq	%rax, 96(%rsp)
	movq	88(%rsi), %rax
	movq	%rax, 64(%rsp)
	movq	104(%rsi), %rax
	movq	%rax, 1048(%rsp)
	movups	96(%rsi), %xmm0
	movaps	%xmm0, 1488(%rsp)
	movzbl	112(%rsi), %eax
	movq	%rax, 104(%rsp)
	movups	128(%rsi), %xmm0
	movaps	%xmm0, 1504(%rsp)
	movups	368(%rsi), %xmm0
	movaps	%xmm0, 1552(%rsp)
	movups	392(%rsi), %xmm0
	movaps	%xmm0, 1536(%rsp)
	movups	416(%rsi), %xmm0
	movaps	%xmm0, 1520(%rsp)
	movq	(%rdx), %rax
	movq	%rax, 144(%rsp)
	movq	8(%rdx), %rax
	movq	%rax, 136(%rsp)
	movq	16(%rdx), %rax
	movq	%rax, 168(%rsp)
	movq	24(%rdx), %rax
	movq	%rax, 128(%rsp)
	movq	32(%rdx), %rax
	movq	%rax, 160(%rsp)
	movq	40(%rdx), %rax
	movq	%rax, 152(%rsp)
	xorps	%xmm0, %xmm0
	movq	120(%rsi), %rax
	movq	%rax, 56(%rsp)
	movq	136(%rsi), %rax
	movq	%rax, 1040(%rsp)
	movq	360(%rsi), %rax
	movq	%rax, 80(%rsp)
	movq	376(%rsi), %rax
	movq	%rax, 1056(%rsp)
	movq	384(%rsi), %rax
	movq	%rax, 88(%rsp)
	movq	400(%rsi), %rax
	movq	%rax, 1064(%rsp)
	movq	408(%rsi), %rax
	movq	%rax, 72(%rsp)
	movq	424(%rsi), %rax
	movq	%rax, 48(%rsp)
	movq	576(%rsi), %rax
	movq	%rax, 24(%rsp)
	movq	584(%rsi), %r13
	movq	592(%rsi), %rax
	movq	%rax, 256(%rsp)
	movq	600(%rsi), %rbx
	movq	608(%rsi), %r12
	movq	616(%rsi), %rax
	movq	%rax, 264(%rsp)
	movq	624(%rsi), %rax
	movq	%rax, 120(%rsp)
	movq	632(%rsi), %rbp
	movq	640(%rsi), %rax
	movq	%rax, 272(%rsp)
	movaps	%xmm0, 1456(%rsp)
	movaps	%xmm0, 1440(%rsp)
	movaps	%xmm0, 1424(%rsp)
	movq	$0, 1471(%rsp)
	movl	$0, 40(%rsp)
	movl	$0, 43(%rsp)
	movl	$0, 32(%rsp)
	movl	$0, 35(%rsp)
	movaps	%xmm0, 1216(%rsp)
	movaps	%xmm0, 1232(%rsp)
	movaps	%xmm0, 1248(%rsp)
	movaps	%xmm0, 1264(%rsp)
	movq	$0, 1280(%rsp)
	movaps	%xmm0, 1136(%rsp)
	movaps	%xmm0, 1152(%rsp)
	movaps	%xmm0, 1168(%rsp)
	movaps	%xmm0, 1184(%rsp)
	movq	$0, 1200(%rsp)
	movaps	%xmm0, 960(%rsp)
	movq	$0, 976(%rsp)
	movaps	%xmm0, 1296(%rsp)
	movaps	%xmm0, 1312(%rsp)
	movaps	%xmm0, 1328(%rsp)
	movaps	%xmm0, 1344(%rsp)
	movaps	%xmm0, 1360(%rsp)
	movaps	%xmm0, 1376(%rsp)
	movaps	%xmm0, 1392(%rsp)
	movq	$0, 1408(%rsp)
	movaps	%xmm0, 928(%rsp)
	movq	$0, 944(%rsp)
	movaps	%xmm0, 1072(%rsp)
	movaps	%xmm0, 1088(%rsp)
	movaps	%xmm0, 1104(%rsp)
	movq	$0, 1119(%rsp)
	movl	$0, 19(%rsp)
	movl	$0, 16(%rsp)
	movl	$0, 11(%rsp)
	movl	$0, 8(%rsp)
	movaps	%xmm0, 560(%rsp)
	movaps	%xmm0, 544(%rsp)
	movaps	%xmm0, 528(%rsp)
	movaps	%xmm0, 512(%rsp)
	movq	$0, 576(%rsp)
	movaps	%xmm0, 480(%rsp)
	movaps	%xmm0, 464(%rsp)
	movaps	%xmm0, 448(%rsp)
	movaps	%xmm0, 432(%rsp)
	movq	$0, 496(%rsp)
	movaps	%xmm0, 400(%rsp)
	movq	$0, 416(%rsp)
	movaps	%xmm0, 768(%rsp)
	movaps	%xmm0, 752(%rsp)
	movaps	%xmm0, 736(%rsp)
	movaps	%xmm0, 720(%rsp)
	movaps	%xmm0, 704(%rsp)
	movaps	%xmm0, 688(%rsp)
	movaps	%xmm0, 672(%rsp)
	movq	$0, 784(%rsp)
	movaps	%xmm0, 368(%rsp)
	movq	$0, 384(%rsp)
	movups	(%rsi), %xmm0
	movups	16(%rsi), %xmm1
	movups	32(%rsi), %xmm2
	movaps	%xmm2, 1024(%rsp)
	movaps	%xmm1, 1008(%rsp)
	movaps	%xmm0, 992(%rsp)
	movl	81(%rsi), %eax
	movl	84(%rsi), %ecx
	movl	%ecx, 3(%rsp)
	movl	%eax, (%rsp)
	movl	113(%rsi), %eax
	movl	116(%rsi), %ecx
	movl	%ecx, 115(%rsp)
	movl	%eax, 112(%rsp)
	movq	208(%rsi), %rax
	movq	%rax, 352(%rsp)
	movups	144(%rsi), %xmm0
	movups	160(%rsi), %xmm1
	movups	176(%rsi), %xmm2
	movups	192(%rsi), %xmm3
	movaps	%xmm3, 336(%rsp)
	movaps	%xmm2, 320(%rsp)
	movaps	%xmm1, 304(%rsp)
	movaps	%xmm0, 288(%rsp)
	movq	664(%rsi), %rax
	movq	%rax, 192(%rsp)
	movups	648(%rsi), %xmm0
	movaps	%xmm0, 176(%rsp)
	movq	568(%rsi), %rax
	movq	%rax, 912(%rsp)
	movups	552(%rsi), %xmm0
	movaps	%xmm0, 896(%rsp)
	movups	536(%rsi), %xmm0
	movaps	%xmm0, 880(%rsp)
	movups	520(%rsi), %xmm0
	movaps	%xmm0, 864(%rsp)
	movups	456(%rsi), %xmm0
	movups	472(%rsi), %xmm1
	movups	488(%rsi), %xmm2
	movups	504(%rsi), %xmm3
	movaps	%xmm3, 848(%rsp)
	movaps	%xmm2, 832(%rsp)
	movaps	%xmm1, 816(%rsp)
	movaps	%xmm0, 800(%rsp)
	movq	352(%rsi), %rax
	movq	%rax, 224(%rsp)
	movups	336(%rsi), %xmm0
	movaps	%xmm0, 208(%rsp)
	movq	304(%rsi), %rax
	movq	%rax, 656(%rsp)
	movups	240(%rsi), %xmm0
	movups	256(%rsi), %xmm1
	movups	272(%rsi), %xmm2
	movups	288(%rsi), %xmm3
	movaps	%xmm3, 640(%rsp)
	movaps	%xmm2, 624(%rsp)
	movaps	%xmm1, 608(%rsp)
	movaps	%xmm0, 592(%rsp)
	movl	$8, %edi
	movl	$1, %esi
	callq	rattle_alloc@PLT
	movq	%rax, 248(%rsp)
	testb	$1, %al
	je	2f
	movq	%rbx, 48(%rsp)
	movabsq	$7741528795821992301, %rax
	movq	%rax, (%rdx)
	cmpb	$1, %r15b
	setne	%al
	testq	%r14, %r14
	sete	%cl
	orb	%al, %cl
	jne	1f
	movq	240(%rsp), %rdi
	movq	%rdx, %rbx
	callq	rattle_dealloc@PLT
	movq	%rbx, %rdx
1:
	movaps	992(%rsp), %xmm0
	movaps	1008(%rsp), %xmm1
	movaps	1024(%rsp), %xmm2
	movups	%xmm2, 1111(%rsp)
	movups	%xmm1, 1095(%rsp)
	movups	%xmm0, 1079(%rsp)
	movl	(%rsp), %eax
	movl	3(%rsp), %ecx
	movl	%eax, 16(%rsp)
	movl	%ecx, 19(%rsp)
	movl	112(%rsp), %eax
	movl	115(%rsp), %ecx
	movl	%eax, 8(%rsp)
	movl	%ecx, 11(%rsp)
	movaps	288(%rsp), %xmm0
	movaps	304(%rsp), %xmm1
	movaps	320(%rsp), %xmm2
	movaps	336(%rsp), %xmm3
	movaps	%xmm0, 512(%rsp)
	movaps	%xmm1, 528(%rsp)
	movaps	%xmm2, 544(%rsp)
	movaps	%xmm3, 560(%rsp)
	movq	352(%rsp), %rax
	movq	%rax, 576(%rsp)
	movq	656(%rsp), %rax
	movq	%rax, 496(%rsp)
	movaps	592(%rsp), %xmm0
	movaps	608(%rsp), %xmm1
	movaps	624(%rsp), %xmm2
	movaps	640(%rsp), %xmm3
	movaps	%xmm3, 480(%rsp)
	movaps	%xmm2, 464(%rsp)
	movaps	%xmm1, 448(%rsp)
	movaps	%xmm0, 432(%rsp)
	movq	224(%rsp), %rax
	movq	%rax, 416(%rsp)
	movaps	208(%rsp), %xmm0
	movaps	%xmm0, 400(%rsp)
	movq	912(%rsp), %rax
	movq	%rax, 784(%rsp)
	movaps	896(%rsp), %xmm0
	movaps	%xmm0, 768(%rsp)
	movaps	880(%rsp), %xmm0
	movaps	%xmm0, 752(%rsp)
	movaps	864(%rsp), %xmm0
	movaps	%xmm0, 736(%rsp)
	movaps	800(%rsp), %xmm0
	movaps	816(%rsp), %xmm1
	movaps	832(%rsp), %xmm2
	movaps	848(%rsp), %xmm3
	movaps	%xmm3, 720(%rsp)
	movaps	%xmm2, 704(%rsp)
	movaps	%xmm1, 688(%rsp)
	movaps	%xmm0, 672(%rsp)
	movq	192(%rsp), %rax
	movq	%rax, 384(%rsp)
	movaps	176(%rsp), %xmm0
	movaps	%xmm0, 368(%rsp)
	movl	$8, %ecx
	movl	$1, %eax
	movq	280(%rsp), %rbx
	movq	272(%rsp), %r8
	movq	120(%rsp), %r9
	movq	264(%rsp), %r10
	movq	24(%rsp), %rsi
	movq	256(%rsp), %r14
	movq	248(%rsp), %r15
	movaps	1552(%rsp), %xmm5
	movaps	1536(%rsp), %xmm6
	movaps	1520(%rsp), %xmm7
	movaps	1504(%rsp), %xmm8
	movaps	1488(%rsp), %xmm4
	jmp	21f
2:
	cmpb	$1, %r15b
	setne	%al
	testq	%r14, %r14
	sete	%cl
	orb	%al, %cl
	jne	3f
	movq	240(%rsp), %rdi
	callq	rattle_dealloc@PLT
3:
	cmpb	$1, 96(%rsp)
	jne	4f
	cmpq	$0, 1048(%rsp)
	je	4f
	movq	64(%rsp), %rdi
	callq	rattle_dealloc@PLT
4:
	cmpb	$1, 104(%rsp)
	jne	5f
	cmpq	$0, 1040(%rsp)
	je	5f
	movq	56(%rsp), %rdi
	callq	rattle_dealloc@PLT
5:
	cmpq	$0, 1056(%rsp)
	je	6f
	movq	80(%rsp), %rdi
	callq	rattle_dealloc@PLT
6:
	cmpq	$0, 1064(%rsp)
	je	7f
	movq	88(%rsp), %rdi
	callq	rattle_dealloc@PLT
7:
	cmpq	$0, 48(%rsp)
	je	8f
	movq	72(%rsp), %rdi
	callq	rattle_dealloc@PLT
8:
	testq	%r13, %r13
	je	10f
	movq	24(%rsp), %r14
	.p2align	4
9:
	leaq	1568(%rsp), %r15
	movl	$608, %edx
	movq	%r15, %rdi
	movq	%r14, %rsi
	callq	memcpy@PLT
	movq	%r15, %rdi
	callq	"clap::clap++builder++arg++Arg+Destruct::drop"
	addq	$608, %r14
	decq	%r13
	jne	9b
10:
	cmpq	$0, 256(%rsp)
	je	11f
	movq	24(%rsp), %rdi
	callq	rattle_dealloc@PLT
11:
	testq	%r12, %r12
	je	13f
	movq	%rbx, %r14
	.p2align	4
12:
	leaq	1568(%rsp), %r15
	movl	$672, %edx
	movq	%r15, %rdi
	movq	%r14, %rsi
	callq	memcpy@PLT
	movq	%r15, %rdi
	callq	"clap::clap++builder++command++Command+Destruct::drop"
	addq	$672, %r14
	decq	%r12
	jne	12b
13:
	cmpq	$0, 264(%rsp)
	je	14f
	movq	%rbx, %rdi
	callq	rattle_dealloc@PLT
14:
	testq	%rbp, %rbp
	je	19f
	movq	120(%rsp), %rax
	leaq	88(%rax), %r12
	jmp	16f
	.p2align	4
15:
	addq	$104, %r12
	decq	%rbp
	je	19f
16:
	movq	-40(%r12), %r15
	movq	-24(%r12), %rbx
	movq	-16(%r12), %r14
	movq	(%r12), %r13
	cmpq	$0, -56(%r12)
	je	17f
	movq	-72(%r12), %rdi
	callq	rattle_dealloc@PLT
17:
	testq	%rbx, %rbx
	je	18f
	movq	%r15, %rdi
	callq	rattle_dealloc@PLT
18:
	testq	%r13, %r13
	je	15b
	movq	%r14, %rdi
	callq	rattle_dealloc@PLT
	jmp	15b
19:
	cmpq	$0, 272(%rsp)
	je	20f
	movq	120(%rsp), %rdi
	callq	rattle_dealloc@PLT
20:
	xorps	%xmm4, %xmm4
	movups	%xmm4, 1111(%rsp)
	movups	%xmm4, 1095(%rsp)
	movups	%xmm4, 1079(%rsp)
	movl	$0, 16(%rsp)
	movl	$0, 19(%rsp)
	movl	$0, 8(%rsp)
	movl	$0, 11(%rsp)
	movaps	%xmm4, 512(%rsp)
	movaps	%xmm4, 528(%rsp)
	movaps	%xmm4, 544(%rsp)
	movaps	%xmm4, 560(%rsp)
	movq	$0, 576(%rsp)
	movaps	%xmm4, 432(%rsp)
	movaps	%xmm4, 448(%rsp)
	movaps	%xmm4, 464(%rsp)
	movaps	%xmm4, 480(%rsp)
	movq	$0, 496(%rsp)
	movaps	%xmm4, 400(%rsp)
	movq	$0, 416(%rsp)
	movaps	%xmm4, 768(%rsp)
	movaps	%xmm4, 752(%rsp)
	movaps	%xmm4, 736(%rsp)
	movaps	%xmm4, 720(%rsp)
	movaps	%xmm4, 704(%rsp)
	movaps	%xmm4, 688(%rsp)
	movaps	%xmm4, 672(%rsp)
	movq	$0, 784(%rsp)
	movaps	%xmm4, 368(%rsp)
	movq	$0, 384(%rsp)
	xorl	%eax, %eax
	movq	$0, 144(%rsp)
	movq	$0, 136(%rsp)
	movq	$0, 160(%rsp)
	movq	$0, 152(%rsp)
	movq	$0, 168(%rsp)
	movq	$0, 128(%rsp)
	xorl	%edx, %edx
	xorl	%ecx, %ecx
	movq	$0, 96(%rsp)
	movq	$0, 64(%rsp)
	movq	$0, 104(%rsp)
	movq	$0, 56(%rsp)
	movq	$0, 80(%rsp)
	movq	$0, 88(%rsp)
	xorps	%xmm8, %xmm8
	xorps	%xmm5, %xmm5
	xorps	%xmm6, %xmm6
	xorps	%xmm7, %xmm7
	movq	$0, 72(%rsp)
	xorl	%esi, %esi
	xorl	%r13d, %r13d
	xorl	%r14d, %r14d
	movq	$0, 48(%rsp)
	xorl	%r12d, %r12d
	xorl	%r10d, %r10d
	xorl	%r9d, %r9d
	xorl	%ebp, %ebp
	xorl	%r8d, %r8d
	movq	280(%rsp), %rbx
	movq	248(%rsp), %r15
21:
	xorps	%xmm0, %xmm0
	movaps	%xmm0, 592(%rsp)
	movaps	%xmm0, 608(%rsp)
	movaps	%xmm0, 624(%rsp)
	movq	$0, 639(%rsp)
	movl	$0, 176(%rsp)
	movl	$0, 179(%rsp)
	movl	$0, (%rsp)
	movl	$0, 3(%rsp)
	movaps	%xmm0, 800(%rsp)
	movaps	%xmm0, 816(%rsp)
	movaps	%xmm0, 832(%rsp)
	movaps	%xmm0, 848(%rsp)
	movq	$0, 864(%rsp)
	movaps	%xmm0, 336(%rsp)
	movaps	%xmm0, 320(%rsp)
	movaps	%xmm0, 304(%rsp)
	movaps	%xmm0, 288(%rsp)
	movq	$0, 352(%rsp)
	movaps	%xmm0, 992(%rsp)
	movq	$0, 1008(%rsp)
	movaps	%xmm0, 1664(%rsp)
	movaps	%xmm0, 1648(%rsp)
	movaps	%xmm0, 1632(%rsp)
	movaps	%xmm0, 1616(%rsp)
	movaps	%xmm0, 1600(%rsp)
	movaps	%xmm0, 1584(%rsp)
	movaps	%xmm0, 1568(%rsp)
	movq	$0, 1680(%rsp)
	movaps	%xmm0, 208(%rsp)
	movq	$0, 224(%rsp)
	testb	$1, %r15b
	je	22f
	movq	%rsi, 24(%rsp)
	movq	%rdx, %r11
	movups	1079(%rsp), %xmm0
	movups	1095(%rsp), %xmm1
	movups	1111(%rsp), %xmm2
	movups	%xmm2, 631(%rsp)
	movups	%xmm1, 615(%rsp)
	movups	%xmm0, 599(%rsp)
	movl	16(%rsp), %edx
	movl	19(%rsp), %esi
	movl	%edx, 176(%rsp)
	movl	%esi, 179(%rsp)
	movl	8(%rsp), %edx
	movl	11(%rsp), %esi
	movl	%edx, (%rsp)
	movl	%esi, 3(%rsp)
	movaps	512(%rsp), %xmm0
	movaps	528(%rsp), %xmm1
	movaps	544(%rsp), %xmm2
	movaps	560(%rsp), %xmm3
	movaps	%xmm0, 800(%rsp)
	movaps	%xmm1, 816(%rsp)
	movaps	%xmm2, 832(%rsp)
	movaps	%xmm3, 848(%rsp)
	movq	576(%rsp), %rdx
	movq	%rdx, 864(%rsp)
	movq	496(%rsp), %rdx
	movq	%rdx, 352(%rsp)
	movaps	432(%rsp), %xmm0
	movaps	448(%rsp), %xmm1
	movaps	464(%rsp), %xmm2
	movaps	480(%rsp), %xmm3
	movaps	%xmm3, 336(%rsp)
	movaps	%xmm2, 320(%rsp)
	movaps	%xmm1, 304(%rsp)
	movaps	%xmm0, 288(%rsp)
	movq	416(%rsp), %rdx
	movq	%rdx, 1008(%rsp)
	movaps	400(%rsp), %xmm0
	movaps	%xmm0, 992(%rsp)
	movq	784(%rsp), %rdx
	movq	%rdx, 1680(%rsp)
	movaps	768(%rsp), %xmm0
	movaps	%xmm0, 1664(%rsp)
	movaps	752(%rsp), %xmm0
	movaps	%xmm0, 1648(%rsp)
	movaps	736(%rsp), %xmm0
	movaps	%xmm0, 1632(%rsp)
	movaps	672(%rsp), %xmm0
	movaps	688(%rsp), %xmm1
	movaps	704(%rsp), %xmm2
	movaps	720(%rsp), %xmm3
	movaps	%xmm3, 1616(%rsp)
	movaps	%xmm2, 1600(%rsp)
	movaps	%xmm1, 1584(%rsp)
	movaps	%xmm0, 1568(%rsp)
	movq	384(%rsp), %rdx
	movq	%rdx, 224(%rsp)
	movaps	368(%rsp), %xmm0
	movaps	%xmm0, 208(%rsp)
	movaps	%xmm4, %xmm0
	jmp	23f
22:
	xorl	%eax, %eax
	xorl	%r11d, %r11d
	xorl	%ecx, %ecx
	movq	$0, 96(%rsp)
	movq	$0, 64(%rsp)
	movq	$0, 104(%rsp)
	movq	$0, 56(%rsp)
	movq	$0, 144(%rsp)
	movq	$0, 136(%rsp)
	movq	$0, 160(%rsp)
	movq	$0, 152(%rsp)
	movq	$0, 80(%rsp)
	movq	$0, 88(%rsp)
	movq	$0, 72(%rsp)
	movq	$0, 168(%rsp)
	xorps	%xmm8, %xmm8
	xorps	%xmm5, %xmm5
	xorps	%xmm6, %xmm6
	xorps	%xmm7, %xmm7
	movq	$0, 128(%rsp)
	movq	$0, 24(%rsp)
	xorl	%r13d, %r13d
	xorl	%r14d, %r14d
	movq	$0, 48(%rsp)
	xorl	%r12d, %r12d
	xorl	%r10d, %r10d
	xorl	%r9d, %r9d
	xorl	%ebp, %ebp
	xorl	%r8d, %r8d
23:
	movups	599(%rsp), %xmm1
	movups	615(%rsp), %xmm2
	movups	631(%rsp), %xmm3
	movups	%xmm3, 1463(%rsp)
	movups	%xmm2, 1447(%rsp)
	movups	%xmm1, 1431(%rsp)
	movl	176(%rsp), %edx
	movl	179(%rsp), %esi
	movl	%edx, 40(%rsp)
	movl	%esi, 43(%rsp)
	movl	(%rsp), %edx
	movl	3(%rsp), %esi
	movl	%edx, 32(%rsp)
	movl	%esi, 35(%rsp)
	movaps	800(%rsp), %xmm1
	movaps	816(%rsp), %xmm2
	movaps	832(%rsp), %xmm3
	movaps	848(%rsp), %xmm4
	movaps	%xmm1, 1216(%rsp)
	movaps	%xmm2, 1232(%rsp)
	movaps	%xmm3, 1248(%rsp)
	movaps	%xmm4, 1264(%rsp)
	movq	864(%rsp), %rdx
	movq	%rdx, 1280(%rsp)
	movq	352(%rsp), %rdx
	movq	%rdx, 1200(%rsp)
	movaps	288(%rsp), %xmm1
	movaps	304(%rsp), %xmm2
	movaps	320(%rsp), %xmm3
	movaps	336(%rsp), %xmm4
	movaps	%xmm4, 1184(%rsp)
	movaps	%xmm3, 1168(%rsp)
	movaps	%xmm2, 1152(%rsp)
	movaps	%xmm1, 1136(%rsp)
	movaps	992(%rsp), %xmm1
	movaps	%xmm1, 960(%rsp)
	movq	1008(%rsp), %rdx
	movq	%rdx, 976(%rsp)
	movaps	1568(%rsp), %xmm1
	movaps	1584(%rsp), %xmm2
	movaps	1600(%rsp), %xmm3
	movaps	1616(%rsp), %xmm4
	movaps	%xmm1, 1296(%rsp)
	movaps	%xmm2, 1312(%rsp)
	movaps	%xmm3, 1328(%rsp)
	movaps	%xmm4, 1344(%rsp)
	movaps	1632(%rsp), %xmm1
	movaps	%xmm1, 1360(%rsp)
	movaps	1648(%rsp), %xmm1
	movaps	%xmm1, 1376(%rsp)
	movaps	1664(%rsp), %xmm1
	movaps	%xmm1, 1392(%rsp)
	movq	1680(%rsp), %rdx
	movq	%rdx, 1408(%rsp)
	movq	224(%rsp), %rdx
	movq	%rdx, 944(%rsp)
	movaps	208(%rsp), %xmm1
	movaps	%xmm1, 928(%rsp)
	leaq	8(%rbx), %rdi
	testb	$1, %r15b
	je	24f
	movb	$0, (%rbx)
	leaq	1431(%rsp), %rdx
	movups	(%rdx), %xmm1
	movups	16(%rdx), %xmm2
	movups	32(%rdx), %xmm3
	movups	%xmm3, 32(%rdi)
	movups	%xmm2, 16(%rdi)
	movups	%xmm1, (%rdi)
	movq	%rax, 56(%rbx)
	movq	%r11, 64(%rbx)
	movq	%rcx, 72(%rbx)
	movq	%rcx, 80(%rbx)
	movq	96(%rsp), %rcx
	movb	%cl, 88(%rbx)
	movl	40(%rsp), %ecx
	movl	43(%rsp), %edx
	movl	%ecx, 89(%rbx)
	movl	%edx, 92(%rbx)
	movq	64(%rsp), %rcx
	movq	%rcx, 96(%rbx)
	movups	%xmm0, 104(%rbx)
	movq	104(%rsp), %rcx
	movb	%cl, 120(%rbx)
	movl	32(%rsp), %ecx
	movl	35(%rsp), %edx
	movl	%ecx, 121(%rbx)
	movl	%edx, 124(%rbx)
	movq	56(%rsp), %rcx
	movq	%rcx, 128(%rbx)
	movups	%xmm8, 136(%rbx)
	movaps	1216(%rsp), %xmm0
	movaps	1232(%rsp), %xmm1
	movaps	1248(%rsp), %xmm2
	movaps	1264(%rsp), %xmm3
	movups	%xmm0, 152(%rbx)
	movups	%xmm1, 168(%rbx)
	movups	%xmm2, 184(%rbx)
	movups	%xmm3, 200(%rbx)
	movq	1280(%rsp), %rcx
	movq	%rcx, 216(%rbx)
	movq	%rax, 224(%rbx)
	movq	144(%rsp), %rcx
	movq	%rcx, 232(%rbx)
	movq	136(%rsp), %rcx
	movq	%rcx, 240(%rbx)
	movq	1200(%rsp), %rcx
	movq	%rcx, 312(%rbx)
	movaps	1136(%rsp), %xmm0
	movaps	1152(%rsp), %xmm1
	movaps	1168(%rsp), %xmm2
	movaps	1184(%rsp), %xmm3
	movups	%xmm3, 296(%rbx)
	movups	%xmm2, 280(%rbx)
	movups	%xmm1, 264(%rbx)
	movups	%xmm0, 248(%rbx)
	movq	%rax, 320(%rbx)
	movq	160(%rsp), %rcx
	movq	%rcx, 328(%rbx)
	movq	152(%rsp), %rcx
	movq	%rcx, 336(%rbx)
	movq	976(%rsp), %rcx
	movq	%rcx, 360(%rbx)
	movaps	960(%rsp), %xmm0
	movups	%xmm0, 344(%rbx)
	movq	80(%rsp), %rcx
	movq	%rcx, 368(%rbx)
	movups	%xmm5, 376(%rbx)
	movq	88(%rsp), %rcx
	movq	%rcx, 392(%rbx)
	movups	%xmm6, 400(%rbx)
	movq	72(%rsp), %rcx
	movq	%rcx, 416(%rbx)
	movups	%xmm7, 424(%rbx)
	movq	%rax, 440(%rbx)
	movq	168(%rsp), %rax
	movq	%rax, 448(%rbx)
	movq	128(%rsp), %rax
	movq	%rax, 456(%rbx)
	movaps	1296(%rsp), %xmm0
	movaps	1312(%rsp), %xmm1
	movaps	1328(%rsp), %xmm2
	movaps	1344(%rsp), %xmm3
	movups	%xmm0, 464(%rbx)
	movups	%xmm1, 480(%rbx)
	movups	%xmm2, 496(%rbx)
	movups	%xmm3, 512(%rbx)
	movaps	1360(%rsp), %xmm0
	movups	%xmm0, 528(%rbx)
	movaps	1376(%rsp), %xmm0
	movups	%xmm0, 544(%rbx)
	movaps	1392(%rsp), %xmm0
	movups	%xmm0, 560(%rbx)
	movq	1408(%rsp), %rax
	movq	%rax, 576(%rbx)
	movq	24(%rsp), %rax
	movq	%rax, 584(%rbx)
	movq	%r13, 592(%rbx)
	movq	%r14, 600(%rbx)
	movq	48(%rsp), %rax
	movq	%rax, 608(%rbx)
	movq	%r12, 616(%rbx)
	movq	%r10, 624(%rbx)
	movq	%r9, 632(%rbx)
	movq	944(%rsp), %rax
	movq	%rax, 672(%rbx)
	movaps	928(%rsp), %xmm0
	movups	%xmm0, 656(%rbx)
	jmp	25f
24:
	movb	$1, (%rbx)
	xorps	%xmm0, %xmm0
	movups	%xmm0, 656(%rbx)
	movq	$0, 672(%rbx)
	xorl	%ebp, %ebp
	movl	$632, %edx
	xorl	%esi, %esi
	callq	memset@PLT
	xorl	%r8d, %r8d
25:
	movq	%rbp, 640(%rbx)
	movq	%r8, 648(%rbx)
	addq	$2248, %rsp
	popq	%rbx
	popq	%r12
	popq	%r13
	popq	%r14
	popq	%r15
	popq	%rbp
	retq
26:
	.size	"mime_request::command::with_help", 26b-"mime_request::command::with_help"

	.text
	.p2align	4
	.type	"mime_request::command::with_looks",@function
"mime_request::command::with_looks":
	pushq	%r15
	pushq	%r14
	pushq	%r12
	pushq	%rbx
	subq	$2648, %rsp
	movq	%rsi, %r14
	movq	%rdi, %rbx
	leaq	1296(%rsp), %r15
	movl	$680, %edx
	movq	%r15, %rdi
	xorl	%esi, %esi
	callq	memset@PLT
	leaq	616(%rsp), %rdi
	movl	$680, %edx
	xorl	%esi, %esi
	callq	memset@PLT
	leaq	1976(%rsp), %r12
	movl	$672, %edx
	movq	%r12, %rdi
	movq	%r14, %rsi
	callq	memcpy@PLT
	movq	%r15, %rdi
	movq	%r12, %rsi
	callq	"mime_request::command::with_orders"
	cmpb	$0, 1296(%rsp)
	je	1f
	movb	$1, (%rbx)
	addq	$8, %rbx
	movl	$672, %edx
	movq	%rbx, %rdi
	xorl	%esi, %esi
	addq	$2648, %rsp
	popq	%rbx
	popq	%r12
	popq	%r14
	popq	%r15
	jmp	memset@PLT
1:
	leaq	1304(%rsp), %rsi
	leaq	.L17c8f2afbe26(%rip), %rax
	movq	%rax, 8(%rsp)
	movq	$5, 16(%rsp)
	movq	$1, 24(%rsp)
	leaq	.Ld225cf273187(%rip), %rcx
	movq	%rcx, 32(%rsp)
	movq	$163, 40(%rsp)
	xorps	%xmm0, %xmm0
	movups	%xmm0, 48(%rsp)
	movups	%xmm0, 64(%rsp)
	movq	$1, 80(%rsp)
	movq	%rax, 88(%rsp)
	movq	$5, 96(%rsp)
	movq	%rsp, %rax
	movq	%rax, 104(%rsp)
	movups	%xmm0, 112(%rsp)
	movq	%rax, 128(%rsp)
	movups	%xmm0, 136(%rsp)
	movq	%rax, 152(%rsp)
	movups	%xmm0, 160(%rsp)
	movq	%rax, 176(%rsp)
	movups	%xmm0, 184(%rsp)
	movq	%rax, 200(%rsp)
	movups	%xmm0, 208(%rsp)
	movq	%rax, 224(%rsp)
	movups	%xmm0, 232(%rsp)
	movq	%rax, 248(%rsp)
	movups	%xmm0, 256(%rsp)
	movq	%rax, 272(%rsp)
	movups	%xmm0, 280(%rsp)
	movq	%rax, 296(%rsp)
	movups	%xmm0, 304(%rsp)
	movq	%rax, 320(%rsp)
	movups	%xmm0, 328(%rsp)
	movq	$1, 344(%rsp)
	movq	%rax, 352(%rsp)
	movq	$0, 360(%rsp)
	movq	$1, 368(%rsp)
	movq	%rax, 376(%rsp)
	movq	$0, 384(%rsp)
	movq	%rax, 392(%rsp)
	movups	%xmm0, 400(%rsp)
	movq	$1, 416(%rsp)
	movq	%rax, 424(%rsp)
	movups	%xmm0, 496(%rsp)
	movups	%xmm0, 480(%rsp)
	movups	%xmm0, 464(%rsp)
	movups	%xmm0, 448(%rsp)
	movups	%xmm0, 432(%rsp)
	movw	$513, 512(%rsp)
	movups	%xmm0, 514(%rsp)
	movups	%xmm0, 530(%rsp)
	movups	%xmm0, 546(%rsp)
	movups	%xmm0, 562(%rsp)
	movups	%xmm0, 578(%rsp)
	movups	%xmm0, 594(%rsp)
	movq	$0, 608(%rsp)
	leaq	616(%rsp), %rdi
	leaq	8(%rsp), %rdx
	callq	"clap::builder::command::Command::arg"
	leaq	8(%rbx), %rdi
	cmpb	$0, 616(%rsp)
	je	2f
	movb	$1, (%rbx)
	movl	$672, %edx
	xorl	%esi, %esi
	callq	memset@PLT
	jmp	3f
2:
	leaq	624(%rsp), %rsi
	movb	$0, (%rbx)
	movl	$672, %edx
	callq	memcpy@PLT
3:
	addq	$2648, %rsp
	popq	%rbx
	popq	%r12
	popq	%r14
	popq	%r15
	retq
4:
	.size	"mime_request::command::with_looks", 4b-"mime_request::command::with_looks"

	.text
	.p2align	4
	.type	"mime_request::command::with_orders",@function
"mime_request::command::with_orders":
	pushq	%r15
	pushq	%r14
	pushq	%r12
	pushq	%rbx
	subq	$3072, %rsp
	movq	$0, (%rsp)
	subq	$2760, %rsp
	movq	%rsi, %r15
	movq	%rdi, %rbx
	leaq	4480(%rsp), %r14
	movl	$680, %edx
	movq	%r14, %rdi
	xorl	%esi, %esi
	callq	memset@PLT
	leaq	3800(%rsp), %rdi
	movl	$680, %edx
	xorl	%esi, %esi
	callq	memset@PLT
	leaq	1224(%rsp), %rdi
	movl	$608, %edx
	xorl	%esi, %esi
	callq	memset@PLT
	leaq	3120(%rsp), %rdi
	movl	$680, %edx
	xorl	%esi, %esi
	callq	memset@PLT
	leaq	616(%rsp), %rdi
	movl	$608, %edx
	xorl	%esi, %esi
	callq	memset@PLT
	leaq	2440(%rsp), %rdi
	movl	$680, %edx
	xorl	%esi, %esi
	callq	memset@PLT
	leaq	8(%rsp), %rdi
	movl	$608, %edx
	xorl	%esi, %esi
	callq	memset@PLT
	leaq	5160(%rsp), %r12
	movl	$672, %edx
	movq	%r12, %rdi
	movq	%r15, %rsi
	callq	memcpy@PLT
	leaq	.L35e6fa06256e(%rip), %rax
	movq	%rax, 1832(%rsp)
	movq	$9, 1840(%rsp)
	movq	$1, 1848(%rsp)
	leaq	.Lacc9607a0d71(%rip), %rcx
	movq	%rcx, 1856(%rsp)
	movq	$40, 1864(%rsp)
	xorps	%xmm0, %xmm0
	movups	%xmm0, 1872(%rsp)
	movups	%xmm0, 1888(%rsp)
	movq	$1, 1904(%rsp)
	movq	%rax, 1912(%rsp)
	movq	$9, 1920(%rsp)
	movq	%rsp, %r15
	movq	%r15, 1928(%rsp)
	movups	%xmm0, 1936(%rsp)
	movq	%r15, 1952(%rsp)
	movups	%xmm0, 1960(%rsp)
	movq	%r15, 1976(%rsp)
	movups	%xmm0, 1984(%rsp)
	movq	%r15, 2000(%rsp)
	movups	%xmm0, 2008(%rsp)
	movq	%r15, 2024(%rsp)
	movups	%xmm0, 2032(%rsp)
	movq	%r15, 2048(%rsp)
	movups	%xmm0, 2056(%rsp)
	movq	%r15, 2072(%rsp)
	movups	%xmm0, 2080(%rsp)
	movq	%r15, 2096(%rsp)
	movups	%xmm0, 2104(%rsp)
	movq	%r15, 2120(%rsp)
	movups	%xmm0, 2128(%rsp)
	movq	%r15, 2144(%rsp)
	movups	%xmm0, 2152(%rsp)
	movq	$1, 2168(%rsp)
	movq	%r15, 2176(%rsp)
	movq	$0, 2184(%rsp)
	movq	$1, 2192(%rsp)
	movq	%r15, 2200(%rsp)
	movq	$0, 2208(%rsp)
	movq	%r15, 2216(%rsp)
	movups	%xmm0, 2224(%rsp)
	movq	$1, 2240(%rsp)
	movq	%r15, 2248(%rsp)
	movups	%xmm0, 2320(%rsp)
	movups	%xmm0, 2304(%rsp)
	movups	%xmm0, 2288(%rsp)
	movups	%xmm0, 2272(%rsp)
	movups	%xmm0, 2256(%rsp)
	movw	$513, 2336(%rsp)
	movups	%xmm0, 2338(%rsp)
	movups	%xmm0, 2354(%rsp)
	movups	%xmm0, 2370(%rsp)
	movups	%xmm0, 2386(%rsp)
	movups	%xmm0, 2402(%rsp)
	movups	%xmm0, 2418(%rsp)
	movq	$0, 2432(%rsp)
	leaq	1832(%rsp), %rdx
	movq	%r14, %rdi
	movq	%r12, %rsi
	callq	"clap::builder::command::Command::arg"
	cmpb	$0, 4480(%rsp)
	jne	1f
	leaq	4488(%rsp), %rsi
	leaq	.L726dde07b5f3(%rip), %rax
	movq	%rax, 1224(%rsp)
	movq	$12, 1232(%rsp)
	movq	$1, 1240(%rsp)
	leaq	.Lf21f90705abb(%rip), %rcx
	movq	%rcx, 1248(%rsp)
	movq	$85, 1256(%rsp)
	xorps	%xmm0, %xmm0
	movups	%xmm0, 1264(%rsp)
	movups	%xmm0, 1280(%rsp)
	movq	$1, 1296(%rsp)
	movq	%rax, 1304(%rsp)
	movq	$12, 1312(%rsp)
	movq	%r15, 1320(%rsp)
	movups	%xmm0, 1328(%rsp)
	movq	%r15, 1344(%rsp)
	movups	%xmm0, 1352(%rsp)
	movq	%r15, 1368(%rsp)
	movups	%xmm0, 1376(%rsp)
	movq	%r15, 1392(%rsp)
	movups	%xmm0, 1400(%rsp)
	movq	%r15, 1416(%rsp)
	movups	%xmm0, 1424(%rsp)
	movq	%r15, 1440(%rsp)
	movups	%xmm0, 1448(%rsp)
	movq	%r15, 1464(%rsp)
	movups	%xmm0, 1472(%rsp)
	movq	%r15, 1488(%rsp)
	movups	%xmm0, 1496(%rsp)
	movq	%r15, 1512(%rsp)
	movups	%xmm0, 1520(%rsp)
	movq	%r15, 1536(%rsp)
	movups	%xmm0, 1544(%rsp)
	movq	$1, 1560(%rsp)
	movq	%r15, 1568(%rsp)
	movq	$0, 1576(%rsp)
	movq	$1, 1584(%rsp)
	movq	%r15, 1592(%rsp)
	movq	$0, 1600(%rsp)
	movq	%r15, 1608(%rsp)
	movups	%xmm0, 1616(%rsp)
	movq	$1, 1632(%rsp)
	movq	%r15, 1640(%rsp)
	movups	%xmm0, 1712(%rsp)
	movups	%xmm0, 1696(%rsp)
	movups	%xmm0, 1680(%rsp)
	movups	%xmm0, 1664(%rsp)
	movups	%xmm0, 1648(%rsp)
	movw	$513, 1728(%rsp)
	movups	%xmm0, 1730(%rsp)
	movups	%xmm0, 1746(%rsp)
	movups	%xmm0, 1762(%rsp)
	movups	%xmm0, 1778(%rsp)
	movups	%xmm0, 1794(%rsp)
	movups	%xmm0, 1810(%rsp)
	movq	$0, 1824(%rsp)
	leaq	3800(%rsp), %rdi
	leaq	1224(%rsp), %rdx
	callq	"clap::builder::command::Command::arg"
	cmpb	$0, 3800(%rsp)
	jne	1f
	leaq	3808(%rsp), %rsi
	leaq	.L533c39e6460b(%rip), %rax
	movq	%rax, 616(%rsp)
	movq	$11, 624(%rsp)
	movq	$1, 632(%rsp)
	leaq	.L1b44da35fd51(%rip), %rcx
	movq	%rcx, 640(%rsp)
	movq	$61, 648(%rsp)
	xorps	%xmm0, %xmm0
	movups	%xmm0, 656(%rsp)
	movups	%xmm0, 672(%rsp)
	movq	$1, 688(%rsp)
	movq	%rax, 696(%rsp)
	movq	$11, 704(%rsp)
	movq	%r15, 712(%rsp)
	movups	%xmm0, 720(%rsp)
	movq	%r15, 736(%rsp)
	movups	%xmm0, 744(%rsp)
	movq	%r15, 760(%rsp)
	movups	%xmm0, 768(%rsp)
	movq	%r15, 784(%rsp)
	movups	%xmm0, 792(%rsp)
	movq	%r15, 808(%rsp)
	movups	%xmm0, 816(%rsp)
	movq	%r15, 832(%rsp)
	movups	%xmm0, 840(%rsp)
	movq	%r15, 856(%rsp)
	movups	%xmm0, 864(%rsp)
	movq	%r15, 880(%rsp)
	movups	%xmm0, 888(%rsp)
	movq	%r15, 904(%rsp)
	movups	%xmm0, 912(%rsp)
	movq	%r15, 928(%rsp)
	movups	%xmm0, 936(%rsp)
	movq	$1, 952(%rsp)
	movq	%r15, 960(%rsp)
	movq	$0, 968(%rsp)
	movq	$1, 976(%rsp)
	movq	%r15, 984(%rsp)
	movq	$0, 992(%rsp)
	movq	%r15, 1000(%rsp)
	movups	%xmm0, 1008(%rsp)
	movq	$1, 1024(%rsp)
	movq	%r15, 1032(%rsp)
	movups	%xmm0, 1104(%rsp)
	movups	%xmm0, 1088(%rsp)
	movups	%xmm0, 1072(%rsp)
	movups	%xmm0, 1056(%rsp)
	movups	%xmm0, 1040(%rsp)
	movw	$513, 1120(%rsp)
	movups	%xmm0, 1122(%rsp)
	movups	%xmm0, 1138(%rsp)
	movups	%xmm0, 1154(%rsp)
	movups	%xmm0, 1170(%rsp)
	movups	%xmm0, 1186(%rsp)
	movups	%xmm0, 1202(%rsp)
	movq	$0, 1216(%rsp)
	leaq	3120(%rsp), %rdi
	leaq	616(%rsp), %rdx
	callq	"clap::builder::command::Command::arg"
	cmpb	$0, 3120(%rsp)
	je	4f
1:
	movb	$1, (%rbx)
	addq	$8, %rbx
	movl	$672, %edx
	movq	%rbx, %rdi
2:
	xorl	%esi, %esi
	callq	memset@PLT
3:
	addq	$5832, %rsp
	popq	%rbx
	popq	%r12
	popq	%r14
	popq	%r15
	retq
4:
	leaq	3128(%rsp), %rsi
	leaq	.L010e1dde2212(%rip), %rax
	movq	%rax, 8(%rsp)
	movq	$9, 16(%rsp)
	movq	$1, 24(%rsp)
	leaq	.Lbd5f4b5772e7(%rip), %rcx
	movq	%rcx, 32(%rsp)
	movq	$108, 40(%rsp)
	xorps	%xmm0, %xmm0
	movups	%xmm0, 48(%rsp)
	movups	%xmm0, 64(%rsp)
	movq	$1, 80(%rsp)
	movq	%rax, 88(%rsp)
	movq	$9, 96(%rsp)
	movq	%r15, 104(%rsp)
	movups	%xmm0, 112(%rsp)
	movq	%r15, 128(%rsp)
	movups	%xmm0, 136(%rsp)
	movq	%r15, 152(%rsp)
	movups	%xmm0, 160(%rsp)
	movq	%r15, 176(%rsp)
	movups	%xmm0, 184(%rsp)
	movq	%r15, 200(%rsp)
	movups	%xmm0, 208(%rsp)
	movq	%r15, 224(%rsp)
	movups	%xmm0, 232(%rsp)
	movq	%r15, 248(%rsp)
	movups	%xmm0, 256(%rsp)
	movq	%r15, 272(%rsp)
	movups	%xmm0, 280(%rsp)
	movq	%r15, 296(%rsp)
	movups	%xmm0, 304(%rsp)
	movq	%r15, 320(%rsp)
	movups	%xmm0, 328(%rsp)
	movq	$1, 344(%rsp)
	movq	%r15, 352(%rsp)
	movq	$0, 360(%rsp)
	movq	$1, 368(%rsp)
	movq	%r15, 376(%rsp)
	movq	$0, 384(%rsp)
	movq	%r15, 392(%rsp)
	movups	%xmm0, 400(%rsp)
	movq	$1, 416(%rsp)
	movq	%r15, 424(%rsp)
	movups	%xmm0, 496(%rsp)
	movups	%xmm0, 480(%rsp)
	movups	%xmm0, 464(%rsp)
	movups	%xmm0, 448(%rsp)
	movups	%xmm0, 432(%rsp)
	movw	$513, 512(%rsp)
	movups	%xmm0, 514(%rsp)
	movups	%xmm0, 530(%rsp)
	movups	%xmm0, 546(%rsp)
	movups	%xmm0, 562(%rsp)
	movups	%xmm0, 578(%rsp)
	movups	%xmm0, 594(%rsp)
	movq	$0, 608(%rsp)
	leaq	2440(%rsp), %rdi
	leaq	8(%rsp), %rdx
	callq	"clap::builder::command::Command::arg"
	leaq	8(%rbx), %rdi
	cmpb	$0, 2440(%rsp)
	je	5f
	movb	$1, (%rbx)
	movl	$672, %edx
	jmp	2b
5:
	leaq	2448(%rsp), %rsi
	movb	$0, (%rbx)
	movl	$672, %edx
	callq	memcpy@PLT
	jmp	3b
6:
	.size	"mime_request::command::with_orders", 6b-"mime_request::command::with_orders"

	.text
	.p2align	4
	.type	"mime_request::command::with_output",@function
"mime_request::command::with_output":
	pushq	%r15
	pushq	%r14
	pushq	%r12
	pushq	%rbx
	subq	$3072, %rsp
	movq	$0, (%rsp)
	subq	$1480, %rsp
	movq	%rsi, %r12
	movq	%rdi, %rbx
	leaq	3200(%rsp), %r14
	movl	$680, %edx
	movq	%r14, %rdi
	xorl	%esi, %esi
	callq	memset@PLT
	leaq	2520(%rsp), %rdi
	movl	$680, %edx
	xorl	%esi, %esi
	callq	memset@PLT
	leaq	16(%rsp), %rdi
	movl	$608, %edx
	xorl	%esi, %esi
	callq	memset@PLT
	leaq	1840(%rsp), %rdi
	movl	$680, %edx
	xorl	%esi, %esi
	callq	memset@PLT
	leaq	624(%rsp), %rdi
	movl	$608, %edx
	xorl	%esi, %esi
	callq	memset@PLT
	leaq	3880(%rsp), %r15
	movl	$672, %edx
	movq	%r15, %rdi
	movq	%r12, %rsi
	callq	memcpy@PLT
	leaq	.L1bc533bd799b(%rip), %rax
	movq	%rax, 1232(%rsp)
	movq	$4, 1240(%rsp)
	movq	$1, 1248(%rsp)
	leaq	.L16bb5452660d(%rip), %rcx
	movq	%rcx, 1256(%rsp)
	movq	$82, 1264(%rsp)
	xorps	%xmm0, %xmm0
	movups	%xmm0, 1272(%rsp)
	movq	$0, 1288(%rsp)
	movabsq	$206158430209, %rcx
	movq	%rcx, 1296(%rsp)
	movq	$1, 1304(%rsp)
	movq	%rax, 1312(%rsp)
	movq	$4, 1320(%rsp)
	leaq	8(%rsp), %r12
	movq	%r12, 1328(%rsp)
	movups	%xmm0, 1336(%rsp)
	movq	%r12, 1352(%rsp)
	movups	%xmm0, 1360(%rsp)
	movq	%r12, 1376(%rsp)
	movups	%xmm0, 1384(%rsp)
	movq	%r12, 1400(%rsp)
	movups	%xmm0, 1408(%rsp)
	movq	%r12, 1424(%rsp)
	movups	%xmm0, 1432(%rsp)
	movq	%r12, 1448(%rsp)
	movups	%xmm0, 1456(%rsp)
	movq	%r12, 1472(%rsp)
	movups	%xmm0, 1480(%rsp)
	movq	%r12, 1496(%rsp)
	movups	%xmm0, 1504(%rsp)
	movq	%r12, 1520(%rsp)
	movups	%xmm0, 1528(%rsp)
	movq	%r12, 1544(%rsp)
	movups	%xmm0, 1552(%rsp)
	movq	$1, 1568(%rsp)
	movq	%r12, 1576(%rsp)
	movq	$0, 1584(%rsp)
	movq	$1, 1592(%rsp)
	movq	%r12, 1600(%rsp)
	movq	$0, 1608(%rsp)
	movq	%r12, 1616(%rsp)
	movups	%xmm0, 1624(%rsp)
	movq	$1, 1640(%rsp)
	movq	%r12, 1648(%rsp)
	movups	%xmm0, 1720(%rsp)
	movups	%xmm0, 1704(%rsp)
	movups	%xmm0, 1688(%rsp)
	movups	%xmm0, 1672(%rsp)
	movups	%xmm0, 1656(%rsp)
	movw	$513, 1736(%rsp)
	movups	%xmm0, 1738(%rsp)
	movups	%xmm0, 1754(%rsp)
	movups	%xmm0, 1770(%rsp)
	movups	%xmm0, 1786(%rsp)
	movups	%xmm0, 1802(%rsp)
	movups	%xmm0, 1818(%rsp)
	movq	$0, 1832(%rsp)
	leaq	1232(%rsp), %rdx
	movq	%r14, %rdi
	movq	%r15, %rsi
	callq	"clap::builder::command::Command::arg"
	cmpb	$0, 3200(%rsp)
	jne	1f
	leaq	3208(%rsp), %rsi
	leaq	.Ld4ff8cedf1ce(%rip), %rax
	movq	%rax, 16(%rsp)
	movq	$5, 24(%rsp)
	movq	$1, 32(%rsp)
	leaq	.L3f2f752be469(%rip), %rcx
	movq	%rcx, 40(%rsp)
	movq	$16, 48(%rsp)
	xorps	%xmm0, %xmm0
	movups	%xmm0, 56(%rsp)
	movq	$0, 72(%rsp)
	movabsq	$420906795009, %rcx
	movq	%rcx, 80(%rsp)
	movq	$1, 88(%rsp)
	movq	%rax, 96(%rsp)
	movq	$5, 104(%rsp)
	movq	%r12, 112(%rsp)
	movups	%xmm0, 120(%rsp)
	movq	%r12, 136(%rsp)
	movups	%xmm0, 144(%rsp)
	movq	%r12, 160(%rsp)
	movups	%xmm0, 168(%rsp)
	movq	%r12, 184(%rsp)
	movups	%xmm0, 192(%rsp)
	movq	%r12, 208(%rsp)
	movups	%xmm0, 216(%rsp)
	movq	%r12, 232(%rsp)
	movups	%xmm0, 240(%rsp)
	movq	%r12, 256(%rsp)
	movups	%xmm0, 264(%rsp)
	movq	%r12, 280(%rsp)
	movups	%xmm0, 288(%rsp)
	movq	%r12, 304(%rsp)
	movups	%xmm0, 312(%rsp)
	movq	%r12, 328(%rsp)
	movups	%xmm0, 336(%rsp)
	movq	$1, 352(%rsp)
	movq	%r12, 360(%rsp)
	movq	$0, 368(%rsp)
	movq	$1, 376(%rsp)
	movq	%r12, 384(%rsp)
	movq	$0, 392(%rsp)
	movq	%r12, 400(%rsp)
	movups	%xmm0, 408(%rsp)
	movq	$1, 424(%rsp)
	movq	%r12, 432(%rsp)
	movups	%xmm0, 504(%rsp)
	movups	%xmm0, 488(%rsp)
	movups	%xmm0, 472(%rsp)
	movups	%xmm0, 456(%rsp)
	movups	%xmm0, 440(%rsp)
	movw	$513, 520(%rsp)
	movups	%xmm0, 522(%rsp)
	movups	%xmm0, 538(%rsp)
	movups	%xmm0, 554(%rsp)
	movups	%xmm0, 570(%rsp)
	movups	%xmm0, 586(%rsp)
	movups	%xmm0, 602(%rsp)
	movq	$0, 616(%rsp)
	leaq	2520(%rsp), %rdi
	leaq	16(%rsp), %rdx
	callq	"clap::builder::command::Command::arg"
	cmpb	$0, 2520(%rsp)
	je	4f
1:
	movb	$1, (%rbx)
	addq	$8, %rbx
	movl	$672, %edx
	movq	%rbx, %rdi
2:
	xorl	%esi, %esi
	callq	memset@PLT
3:
	addq	$4552, %rsp
	popq	%rbx
	popq	%r12
	popq	%r14
	popq	%r15
	retq
4:
	leaq	2528(%rsp), %rsi
	leaq	.L39f4ebcc1166(%rip), %rax
	movq	%rax, 624(%rsp)
	movq	$6, 632(%rsp)
	movq	$1, 640(%rsp)
	leaq	.Lfbf471e2654e(%rip), %rcx
	movq	%rcx, 648(%rsp)
	movq	$81, 656(%rsp)
	xorps	%xmm0, %xmm0
	movups	%xmm0, 664(%rsp)
	movups	%xmm0, 680(%rsp)
	movq	$1, 696(%rsp)
	movq	%rax, 704(%rsp)
	movq	$6, 712(%rsp)
	movq	%r12, 720(%rsp)
	movups	%xmm0, 728(%rsp)
	movq	%r12, 744(%rsp)
	movups	%xmm0, 752(%rsp)
	movq	%r12, 768(%rsp)
	movups	%xmm0, 776(%rsp)
	movq	%r12, 792(%rsp)
	movups	%xmm0, 800(%rsp)
	movq	%r12, 816(%rsp)
	movups	%xmm0, 824(%rsp)
	movq	%r12, 840(%rsp)
	movups	%xmm0, 848(%rsp)
	movq	%r12, 864(%rsp)
	movups	%xmm0, 872(%rsp)
	movq	%r12, 888(%rsp)
	movups	%xmm0, 896(%rsp)
	movq	%r12, 912(%rsp)
	movups	%xmm0, 920(%rsp)
	movq	%r12, 936(%rsp)
	movups	%xmm0, 944(%rsp)
	movq	$1, 960(%rsp)
	movq	%r12, 968(%rsp)
	movq	$0, 976(%rsp)
	movq	$1, 984(%rsp)
	movq	%r12, 992(%rsp)
	movq	$0, 1000(%rsp)
	movq	%r12, 1008(%rsp)
	movups	%xmm0, 1016(%rsp)
	movq	$1, 1032(%rsp)
	movq	%r12, 1040(%rsp)
	movups	%xmm0, 1112(%rsp)
	movups	%xmm0, 1096(%rsp)
	movups	%xmm0, 1080(%rsp)
	movups	%xmm0, 1064(%rsp)
	movups	%xmm0, 1048(%rsp)
	movw	$513, 1128(%rsp)
	movups	%xmm0, 1130(%rsp)
	movups	%xmm0, 1146(%rsp)
	movups	%xmm0, 1162(%rsp)
	movups	%xmm0, 1178(%rsp)
	movups	%xmm0, 1194(%rsp)
	movups	%xmm0, 1210(%rsp)
	movq	$0, 1224(%rsp)
	leaq	1840(%rsp), %rdi
	leaq	624(%rsp), %rdx
	callq	"clap::builder::command::Command::arg"
	leaq	8(%rbx), %rdi
	cmpb	$0, 1840(%rsp)
	je	5f
	movb	$1, (%rbx)
	movl	$672, %edx
	jmp	2b
5:
	leaq	1848(%rsp), %rsi
	movb	$0, (%rbx)
	movl	$672, %edx
	callq	memcpy@PLT
	jmp	3b
6:
	.size	"mime_request::command::with_output", 6b-"mime_request::command::with_output"

	.text
	.p2align	4
	.type	"mime_request::command::with_subjects",@function
"mime_request::command::with_subjects":
	pushq	%r15
	pushq	%r14
	pushq	%r12
	pushq	%rbx
	subq	$3072, %rsp
	movq	$0, (%rsp)
	subq	$1480, %rsp
	movq	%rsi, %r12
	movq	%rdi, %rbx
	leaq	3200(%rsp), %r14
	movl	$680, %edx
	movq	%r14, %rdi
	xorl	%esi, %esi
	callq	memset@PLT
	leaq	2520(%rsp), %rdi
	movl	$680, %edx
	xorl	%esi, %esi
	callq	memset@PLT
	leaq	624(%rsp), %rdi
	movl	$608, %edx
	xorl	%esi, %esi
	callq	memset@PLT
	leaq	1840(%rsp), %rdi
	movl	$680, %edx
	xorl	%esi, %esi
	callq	memset@PLT
	leaq	16(%rsp), %rdi
	movl	$608, %edx
	xorl	%esi, %esi
	callq	memset@PLT
	leaq	3880(%rsp), %r15
	movl	$672, %edx
	movq	%r15, %rdi
	movq	%r12, %rsi
	callq	memcpy@PLT
	leaq	.L92a1455e1d13(%rip), %rax
	movq	%rax, 1232(%rsp)
	movq	$11, 1240(%rsp)
	movq	$1, 1248(%rsp)
	leaq	.L3e85f977af39(%rip), %rcx
	movq	%rcx, 1256(%rsp)
	movq	$101, 1264(%rsp)
	xorps	%xmm0, %xmm0
	movups	%xmm0, 1272(%rsp)
	movups	%xmm0, 1288(%rsp)
	movq	$1, 1304(%rsp)
	movq	%rax, 1312(%rsp)
	movq	$11, 1320(%rsp)
	leaq	8(%rsp), %r12
	movq	%r12, 1328(%rsp)
	movups	%xmm0, 1336(%rsp)
	movq	%r12, 1352(%rsp)
	movups	%xmm0, 1360(%rsp)
	movq	%r12, 1376(%rsp)
	movups	%xmm0, 1384(%rsp)
	movq	%r12, 1400(%rsp)
	movups	%xmm0, 1408(%rsp)
	movq	%r12, 1424(%rsp)
	movups	%xmm0, 1432(%rsp)
	movq	%r12, 1448(%rsp)
	movups	%xmm0, 1456(%rsp)
	movq	%r12, 1472(%rsp)
	movups	%xmm0, 1480(%rsp)
	movq	%r12, 1496(%rsp)
	movups	%xmm0, 1504(%rsp)
	movq	%r12, 1520(%rsp)
	movups	%xmm0, 1528(%rsp)
	movq	%r12, 1544(%rsp)
	movups	%xmm0, 1552(%rsp)
	movq	$1, 1568(%rsp)
	movq	%r12, 1576(%rsp)
	movq	$0, 1584(%rsp)
	movq	$1, 1592(%rsp)
	movq	%r12, 1600(%rsp)
	movq	$0, 1608(%rsp)
	movq	%r12, 1616(%rsp)
	movups	%xmm0, 1624(%rsp)
	movq	$0, 1640(%rsp)
	leaq	.L01d6a3bc2498(%rip), %rax
	movq	%rax, 1648(%rsp)
	movq	$4, 1656(%rsp)
	movups	%xmm0, 1664(%rsp)
	movups	%xmm0, 1680(%rsp)
	movups	%xmm0, 1696(%rsp)
	movups	%xmm0, 1712(%rsp)
	movups	%xmm0, 1728(%rsp)
	movups	%xmm0, 1744(%rsp)
	movups	%xmm0, 1760(%rsp)
	movups	%xmm0, 1776(%rsp)
	movups	%xmm0, 1792(%rsp)
	movups	%xmm0, 1808(%rsp)
	movups	%xmm0, 1824(%rsp)
	leaq	1232(%rsp), %rdx
	movq	%r14, %rdi
	movq	%r15, %rsi
	callq	"clap::builder::command::Command::arg"
	cmpb	$0, 3200(%rsp)
	jne	1f
	leaq	3208(%rsp), %rsi
	leaq	.L10dd95ff2c9c(%rip), %rax
	movq	%rax, 624(%rsp)
	movq	$5, 632(%rsp)
	movq	$1, 640(%rsp)
	leaq	.L6f732a247f6f(%rip), %rcx
	movq	%rcx, 648(%rsp)
	movq	$97, 656(%rsp)
	xorps	%xmm0, %xmm0
	movups	%xmm0, 664(%rsp)
	movups	%xmm0, 680(%rsp)
	movq	$1, 696(%rsp)
	movq	%rax, 704(%rsp)
	movq	$5, 712(%rsp)
	movq	%r12, 720(%rsp)
	movups	%xmm0, 728(%rsp)
	movq	%r12, 744(%rsp)
	movups	%xmm0, 752(%rsp)
	movq	%r12, 768(%rsp)
	movups	%xmm0, 776(%rsp)
	movq	%r12, 792(%rsp)
	movups	%xmm0, 800(%rsp)
	movq	%r12, 816(%rsp)
	movups	%xmm0, 824(%rsp)
	movq	%r12, 840(%rsp)
	movups	%xmm0, 848(%rsp)
	movq	%r12, 864(%rsp)
	movups	%xmm0, 872(%rsp)
	movq	%r12, 888(%rsp)
	movups	%xmm0, 896(%rsp)
	movq	%r12, 912(%rsp)
	movups	%xmm0, 920(%rsp)
	movq	%r12, 936(%rsp)
	movups	%xmm0, 944(%rsp)
	movq	$1, 960(%rsp)
	movq	%r12, 968(%rsp)
	movq	$0, 976(%rsp)
	movq	$1, 984(%rsp)
	movq	%r12, 992(%rsp)
	movq	$0, 1000(%rsp)
	movq	%r12, 1008(%rsp)
	movups	%xmm0, 1016(%rsp)
	movq	$0, 1032(%rsp)
	leaq	.Le8771719ab66(%rip), %rax
	movq	%rax, 1040(%rsp)
	movq	$4, 1048(%rsp)
	movups	%xmm0, 1056(%rsp)
	movups	%xmm0, 1072(%rsp)
	movups	%xmm0, 1088(%rsp)
	movups	%xmm0, 1104(%rsp)
	movups	%xmm0, 1120(%rsp)
	movups	%xmm0, 1136(%rsp)
	movups	%xmm0, 1152(%rsp)
	movups	%xmm0, 1168(%rsp)
	movups	%xmm0, 1184(%rsp)
	movups	%xmm0, 1200(%rsp)
	movups	%xmm0, 1216(%rsp)
	leaq	2520(%rsp), %rdi
	leaq	624(%rsp), %rdx
	callq	"clap::builder::command::Command::arg"
	cmpb	$0, 2520(%rsp)
	je	4f
1:
	movb	$1, (%rbx)
	addq	$8, %rbx
	movl	$672, %edx
	movq	%rbx, %rdi
2:
	xorl	%esi, %esi
	callq	memset@PLT
3:
	addq	$4552, %rsp
	popq	%rbx
	popq	%r12
	popq	%r14
	popq	%r15
	retq
4:
	leaq	2528(%rsp), %rsi
	leaq	.Lfcdf8571ef04(%rip), %rax
	movq	%rax, 16(%rsp)
	movq	$4, 24(%rsp)
	movq	$1, 32(%rsp)
	leaq	.L579358eabf37(%rip), %rax
	movq	%rax, 40(%rsp)
	movq	$68, 48(%rsp)
	xorps	%xmm0, %xmm0
	movups	%xmm0, 56(%rsp)
	movups	%xmm0, 72(%rsp)
	movups	%xmm0, 88(%rsp)
	movq	$0, 104(%rsp)
	movq	%r12, 112(%rsp)
	movups	%xmm0, 120(%rsp)
	movq	%r12, 136(%rsp)
	movups	%xmm0, 144(%rsp)
	movq	%r12, 160(%rsp)
	movups	%xmm0, 168(%rsp)
	movq	%r12, 184(%rsp)
	movups	%xmm0, 192(%rsp)
	movq	%r12, 208(%rsp)
	movups	%xmm0, 216(%rsp)
	movq	%r12, 232(%rsp)
	movups	%xmm0, 240(%rsp)
	movq	%r12, 256(%rsp)
	movups	%xmm0, 264(%rsp)
	movq	%r12, 280(%rsp)
	movups	%xmm0, 288(%rsp)
	movq	%r12, 304(%rsp)
	movups	%xmm0, 312(%rsp)
	movq	%r12, 328(%rsp)
	movups	%xmm0, 336(%rsp)
	movq	$1, 352(%rsp)
	movq	%r12, 360(%rsp)
	movq	$0, 368(%rsp)
	movq	$1, 376(%rsp)
	movq	%r12, 384(%rsp)
	movq	$0, 392(%rsp)
	movq	%r12, 400(%rsp)
	movups	%xmm0, 408(%rsp)
	movq	$0, 424(%rsp)
	leaq	.Le2d0fcf04739(%rip), %rax
	movq	%rax, 432(%rsp)
	movq	$4, 440(%rsp)
	movq	$1, 448(%rsp)
	movq	$1, 456(%rsp)
	movq	$-1, 464(%rsp)
	movups	%xmm0, 472(%rsp)
	movups	%xmm0, 488(%rsp)
	movups	%xmm0, 504(%rsp)
	movups	%xmm0, 520(%rsp)
	movups	%xmm0, 536(%rsp)
	movups	%xmm0, 552(%rsp)
	movups	%xmm0, 568(%rsp)
	movups	%xmm0, 584(%rsp)
	movups	%xmm0, 600(%rsp)
	movq	$0, 616(%rsp)
	leaq	1840(%rsp), %rdi
	leaq	16(%rsp), %rdx
	callq	"clap::builder::command::Command::arg"
	leaq	8(%rbx), %rdi
	cmpb	$0, 1840(%rsp)
	je	5f
	movb	$1, (%rbx)
	movl	$672, %edx
	jmp	2b
5:
	leaq	1848(%rsp), %rsi
	movb	$0, (%rbx)
	movl	$672, %edx
	callq	memcpy@PLT
	jmp	3b
6:
	.size	"mime_request::command::with_subjects", 6b-"mime_request::command::with_subjects"

	.text
	.p2align	4
	.type	"mime_request::request::cache::request_of_type",@function
"mime_request::request::cache::request_of_type":
	pushq	%rbp
	pushq	%r15
	pushq	%r14
	pushq	%r13
	pushq	%r12
	pushq	%rbx
	subq	$184, %rsp
	movq	%rsi, %r15
	movq	%rdi, %rbx
	xorps	%xmm0, %xmm0
	movaps	%xmm0, 160(%rsp)
	movaps	%xmm0, 144(%rsp)
	movaps	%xmm0, 128(%rsp)
	movaps	%xmm0, 32(%rsp)
	movaps	%xmm0, 48(%rsp)
	movaps	%xmm0, 64(%rsp)
	movaps	%xmm0, 80(%rsp)
	movaps	%xmm0, 96(%rsp)
	movaps	%xmm0, 112(%rsp)
	leaq	128(%rsp), %rdi
	callq	"mime_request::request::data::source_of"
	movzbl	136(%rsp), %ebp
	cmpb	$0, 128(%rsp)
	movq	144(%rsp), %r13
	movq	152(%rsp), %rcx
	movq	160(%rsp), %r14
	movq	168(%rsp), %r12
	je	1f
	movzbl	%r13b, %eax
	movq	$1, (%rbx)
	movb	%bpl, 8(%rbx)
	movq	%rax, 16(%rbx)
	movq	%rcx, 24(%rbx)
	movq	%r14, 32(%rbx)
	movq	%r12, 40(%rbx)
	jmp	5f
1:
	movq	%rcx, 24(%rsp)
	movq	(%r15), %rsi
	movq	8(%r15), %rdx
	leaq	32(%rsp), %rdi
	callq	"mime_request::request::flags::options_of"
	movzbl	40(%rsp), %edx
	cmpb	$0, 32(%rsp)
	je	3f
	movzbl	48(%rsp), %esi
	movzbl	56(%rsp), %edi
	movzbl	63(%rsp), %eax
	shll	$16, %eax
	movzwl	61(%rsp), %ecx
	orl	%eax, %ecx
	shlq	$32, %rcx
	movl	57(%rsp), %r14d
	orq	%rcx, %r14
	movq	64(%rsp), %r9
	movq	72(%rsp), %r15
	xorb	$1, %bpl
	orb	%r13b, %bpl
	setne	%al
	testq	%r12, %r12
	sete	%cl
	orb	%al, %cl
	jne	2f
	movb	%dil, 16(%rsp)
	movq	24(%rsp), %rdi
	movl	%edx, %ebp
	movq	%rsi, %r12
	movq	%r9, %r13
	callq	rattle_dealloc@PLT
	movq	%r13, %r9
	movzbl	16(%rsp), %edi
	movq	%r12, %rsi
	movl	%ebp, %edx
2:
	movq	$1, (%rbx)
	movb	%dl, 8(%rbx)
	movq	%rsi, 16(%rbx)
	movb	%dil, 24(%rbx)
	movl	%r14d, 25(%rbx)
	movq	%r14, %rax
	shrq	$48, %rax
	movb	%al, 31(%rbx)
	shrq	$32, %r14
	movw	%r14w, 29(%rbx)
	movq	%r9, 32(%rbx)
	movq	%r15, 40(%rbx)
	jmp	5f
3:
	movb	%dl, 16(%rsp)
	movzbl	41(%rsp), %eax
	movb	%al, 15(%rsp)
	movq	(%r15), %rdx
	movq	8(%r15), %rcx
	leaq	80(%rsp), %rdi
	movl	$1, %esi
	callq	"mime_request::request::found::subjects_of"
	movzbl	88(%rsp), %esi
	movq	96(%rsp), %rax
	movzbl	111(%rsp), %ecx
	shll	$16, %ecx
	movzwl	109(%rsp), %edx
	orl	%ecx, %edx
	shlq	$32, %rdx
	movl	105(%rsp), %r15d
	orq	%rdx, %r15
	cmpb	$0, 80(%rsp)
	movzbl	104(%rsp), %r8d
	movq	112(%rsp), %rdi
	je	7f
	movq	120(%rsp), %rdx
	movzbl	%al, %r14d
	xorb	$1, %bpl
	orb	%r13b, %bpl
	setne	%al
	testq	%r12, %r12
	sete	%cl
	orb	%al, %cl
	jne	4f
	movq	%rdi, 16(%rsp)
	movq	24(%rsp), %rdi
	movl	%r8d, %ebp
	movl	%esi, %r13d
	movq	%rdx, %r12
	callq	rattle_dealloc@PLT
	movq	%r12, %rdx
	movl	%r13d, %esi
	movl	%ebp, %r8d
	movq	16(%rsp), %rdi
4:
	movq	$1, (%rbx)
	movb	%sil, 8(%rbx)
	movq	%r14, 16(%rbx)
	movb	%r8b, 24(%rbx)
	movl	%r15d, 25(%rbx)
	movq	%r15, %rax
	shrq	$48, %rax
	movb	%al, 31(%rbx)
	shrq	$32, %r15
	movw	%r15w, 29(%rbx)
	movq	%rdi, 32(%rbx)
	movq	%rdx, 40(%rbx)
5:
	xorps	%xmm0, %xmm0
	movups	%xmm0, 48(%rbx)
	movups	%xmm0, 64(%rbx)
	movups	%xmm0, 80(%rbx)
	movq	$0, 96(%rbx)
6:
	addq	$184, %rsp
	popq	%rbx
	popq	%r12
	popq	%r13
	popq	%r14
	popq	%r15
	popq	%rbp
	retq
7:
	movzbl	%bpl, %ecx
	movzbl	%sil, %edx
	movq	$0, (%rbx)
	movb	$7, 8(%rbx)
	movq	%rcx, 16(%rbx)
	movq	%r13, 24(%rbx)
	movq	24(%rsp), %rcx
	movq	%rcx, 32(%rbx)
	movq	%r14, 40(%rbx)
	movq	%r12, 48(%rbx)
	movl	33(%rsp), %ecx
	movl	36(%rsp), %esi
	movl	%ecx, 56(%rbx)
	movl	%esi, 59(%rbx)
	movzbl	16(%rsp), %ecx
	movb	%cl, 63(%rbx)
	movzbl	15(%rsp), %ecx
	movb	%cl, 64(%rbx)
	movl	$0, 65(%rbx)
	movl	$0, 68(%rbx)
	movq	%rdx, 72(%rbx)
	movq	%rax, 80(%rbx)
	movb	%r8b, 88(%rbx)
	movq	%r15, %rax
	shrq	$48, %rax
	movb	%al, 95(%rbx)
	movq	%r15, %rax
	shrq	$32, %rax
	movw	%ax, 93(%rbx)
	movl	%r15d, 89(%rbx)
	movq	%rdi, 96(%rbx)
	jmp	6b
8:
	.size	"mime_request::request::cache::request_of_type", 8b-"mime_request::request::cache::request_of_type"

	.text
	.p2align	4
	.type	"mime_request::request::data::directories_of",@function
"mime_request::request::data::directories_of":
	pushq	%rbp
	pushq	%r15
	pushq	%r14
	pushq	%r13
	pushq	%r12
	pushq	%rbx
	subq	$264, %rsp
	xorps	%xmm0, %xmm0
	movaps	%xmm0, 128(%rsp)
	movq	$0, 144(%rsp)
	movaps	%xmm0, 160(%rsp)
	movups	%xmm0, 175(%rsp)
	movl	$1, %eax
	testq	%rdx, %rdx
	je	19f
	addq	$56, %rsi
	jmp	2f
	.p2align	4
1:
	decq	%rdx
	addq	$104, %rsi
	testq	%rdx, %rdx
	je	19f
2:
	cmpq	$4, -48(%rsi)
	jne	1b
	movq	-56(%rsi), %rcx
	movl	(%rcx), %ecx
	movq	%rcx, %r8
	shlq	$32, %r8
	orq	%rcx, %r8
	movabsq	$8318827341861251428, %rcx
	cmpq	%rcx, %r8
	jne	1b
	cmpq	$0, (%rsi)
	je	19f
	movq	%rdi, 152(%rsp)
	movq	-8(%rsi), %rax
	movq	(%rax), %r13
	movq	8(%rax), %rbp
	xorps	%xmm0, %xmm0
	movups	%xmm0, 207(%rsp)
	movaps	%xmm0, 192(%rsp)
	movups	%xmm0, 239(%rsp)
	movaps	%xmm0, 224(%rsp)
	movups	%xmm0, 111(%rsp)
	movaps	%xmm0, 96(%rsp)
	movq	%rsp, %rax
	movq	%rax, 32(%rsp)
	movq	%rax, 8(%rsp)
	movups	%xmm0, 16(%rsp)
	movq	$0, 88(%rsp)
	movq	$0, 80(%rsp)
	xorl	%r12d, %r12d
	movq	$0, 40(%rsp)
3:
	movq	%rbp, %r15
	movq	%r13, %r14
4:
	xorps	%xmm0, %xmm0
	movaps	%xmm0, 48(%rsp)
	movq	$0, 64(%rsp)
	leaq	48(%rsp), %rdi
	movl	$58, %esi
	movq	%r14, %rdx
	movq	%r15, %rcx
	callq	"core::iter::pattern::CharPattern::first_in"
	cmpb	$1, 48(%rsp)
	jne	5f
	movq	64(%rsp), %rcx
	testq	%rcx, %rcx
	sete	%al
	andb	%al, %r12b
	cmpb	$1, %r12b
	jne	6f
	testq	%r15, %r15
	je	5f
	movzbl	(%r14), %edx
	movl	$1, %eax
	movl	$1, %ecx
	testb	%dl, %dl
	jns	7f
	movl	$2, %eax
	movl	$2, %ecx
	cmpb	$-32, %dl
	jb	7f
	cmpb	$-16, %dl
	movl	$4, %eax
	sbbq	$0, %rax
	movq	%rax, %rcx
	jmp	7f
	.p2align	4
5:
	xorl	%ebx, %ebx
	xorl	%r13d, %r13d
	xorl	%r12d, %r12d
	testq	%r15, %r15
	jne	8f
	jmp	11f
6:
	movq	56(%rsp), %rax
7:
	leaq	(%r14,%rcx), %r13
	subq	%rcx, %r15
	movb	$1, %bl
	movq	%r15, %r12
	movq	%rax, %r15
	testq	%r15, %r15
	je	11f
8:
	movq	%r12, %rbp
9:
	movq	88(%rsp), %rsi
	movq	40(%rsp), %rdx
	cmpq	%rsi, %rdx
	je	14f
	movq	%rdx, %rax
	shlq	$4, %rax
	movq	32(%rsp), %rcx
	movq	%r14, (%rcx,%rax)
	movq	%r15, 8(%rcx,%rax)
	incq	%rdx
	movq	%rdx, 40(%rsp)
	movb	$1, %r12b
	movq	%rbp, %r15
	movq	%r13, %r14
	testb	%bl, %bl
	jne	4b
	jmp	17f
	.p2align	4
10:
	xorl	%ebx, %ebx
	xorl	%r13d, %r13d
	xorl	%ebp, %ebp
	movq	%r12, %r15
	movq	%rbp, %r12
	testq	%r15, %r15
	jne	9b
11:
	cmpb	$1, %bl
	jne	17f
	movq	%r13, %r14
	xorps	%xmm0, %xmm0
	movaps	%xmm0, 48(%rsp)
	movq	$0, 64(%rsp)
	leaq	48(%rsp), %rdi
	movl	$58, %esi
	movq	%r13, %rdx
	movq	%r12, %rcx
	callq	"core::iter::pattern::CharPattern::first_in"
	cmpb	$1, 48(%rsp)
	jne	10b
	movq	64(%rsp), %rcx
	testq	%rcx, %rcx
	je	13f
	movq	56(%rsp), %rax
12:
	leaq	(%r14,%rcx), %r13
	subq	%rcx, %r12
	movb	$1, %bl
	movq	%r12, %rbp
	movq	%rax, %r12
	movq	%r12, %r15
	movq	%rbp, %r12
	testq	%r15, %r15
	je	11b
	jmp	9b
13:
	testq	%r12, %r12
	je	10b
	movzbl	(%r14), %edx
	movl	$1, %eax
	movl	$1, %ecx
	testb	%dl, %dl
	jns	12b
	movl	$2, %eax
	movl	$2, %ecx
	cmpb	$-32, %dl
	jb	12b
	cmpb	$-16, %dl
	movl	$4, %eax
	sbbq	$0, %rax
	movq	%rax, %rcx
	jmp	12b
14:
	movq	32(%rsp), %rax
	movq	%rax, 8(%rsp)
	movq	%rsi, 16(%rsp)
	movq	80(%rsp), %rdx
	movq	%rdx, 24(%rsp)
	cmpq	%rsi, %rdx
	je	16f
15:
	movq	8(%rsp), %rcx
	movq	%rsi, %rdi
	movq	%rsi, %rax
	shlq	$4, %rax
	movq	%r14, (%rcx,%rax)
	movq	%rcx, 32(%rsp)
	movq	%r15, 8(%rcx,%rax)
	xorl	%eax, %eax
	incq	%rdi
	movq	%rdi, 40(%rsp)
	movq	%rdx, 80(%rsp)
	cmovneq	%rdx, %rax
	xorps	%xmm0, %xmm0
	leaq	16(%rsp), %rcx
	movups	%xmm0, (%rcx)
	movb	$1, %r12b
	movq	%rax, 88(%rsp)
	testb	%bl, %bl
	jne	3b
	jmp	17f
16:
	leaq	8(%rsp), %rdi
	movl	$1, %esi
	callq	"std_alloc::vec::Vec::grow_amortized::<#a658b02dc117231d>"
	movq	16(%rsp), %rsi
	movq	24(%rsp), %rdx
	cmpq	%rsi, %rdx
	setne	%cl
	orb	%al, %cl
	jne	15b
	leaq	8(%rsp), %rdi
	movl	$1, %esi
	callq	"std_alloc::vec::Vec::grow_amortized::<#a658b02dc117231d>"
	testb	%al, %al
	je	22f
	movq	16(%rsp), %rsi
	movq	24(%rsp), %rdx
	jmp	15b
17:
	movq	32(%rsp), %rax
	movq	%rax, 8(%rsp)
	movq	40(%rsp), %rax
	movq	%rax, 16(%rsp)
	movq	80(%rsp), %rax
	movq	%rax, 24(%rsp)
	movq	%rax, 119(%rsp)
	movq	8(%rsp), %rax
	movq	%rax, 103(%rsp)
	movq	16(%rsp), %rax
	movq	%rax, 111(%rsp)
	movb	$1, %al
18:
	movq	119(%rsp), %rcx
	movq	103(%rsp), %rdx
	movq	%rdx, 167(%rsp)
	movq	111(%rsp), %rdx
	movq	%rdx, 175(%rsp)
	movq	%rcx, 183(%rsp)
	testb	%al, %al
	movq	152(%rsp), %rdi
	je	21f
	leaq	167(%rsp), %rax
	movq	16(%rax), %rcx
	movq	%rcx, 144(%rsp)
	movups	(%rax), %xmm0
	movaps	%xmm0, 128(%rsp)
	xorl	%eax, %eax
19:
	movb	$0, (%rdi)
	movq	%rax, 8(%rdi)
	movaps	128(%rsp), %xmm0
	movups	%xmm0, 16(%rdi)
	movq	144(%rsp), %rax
	movq	%rax, 32(%rdi)
20:
	addq	$264, %rsp
	popq	%rbx
	popq	%r12
	popq	%r13
	popq	%r14
	popq	%r15
	popq	%rbp
	retq
21:
	movb	$1, (%rdi)
	xorps	%xmm0, %xmm0
	movups	%xmm0, 8(%rdi)
	movups	%xmm0, 24(%rdi)
	jmp	20b
22:
	cmpq	$0, 24(%rsp)
	je	23f
	movq	8(%rsp), %rdi
	callq	rattle_dealloc@PLT
23:
	xorl	%eax, %eax
	jmp	18b
24:
	.size	"mime_request::request::data::directories_of", 24b-"mime_request::request::data::directories_of"

	.text
	.p2align	4
	.type	"mime_request::request::data::source_of",@function
"mime_request::request::data::source_of":
	pushq	%rbp
	pushq	%r15
	pushq	%r14
	pushq	%r13
	pushq	%r12
	pushq	%rbx
	subq	$792, %rsp
	movq	%rsi, %r15
	movq	%rdi, %rbx
	xorps	%xmm0, %xmm0
	movaps	%xmm0, 16(%rsp)
	movaps	%xmm0, (%rsp)
	movq	$0, 32(%rsp)
	movq	(%rsi), %rsi
	movq	8(%r15), %rdx
	movq	%rsp, %rdi
	callq	"mime_request::request::data::directories_of"
	cmpb	$0, (%rsp)
	je	1f
	movq	$1, (%rbx)
	movb	$16, 8(%rbx)
	xorps	%xmm0, %xmm0
	movups	%xmm0, 16(%rbx)
	movups	%xmm0, 32(%rbx)
	jmp	5f
1:
	movzbl	8(%rsp), %eax
	movaps	16(%rsp), %xmm0
	movq	32(%rsp), %r12
	movq	8(%r15), %rdx
	testq	%rdx, %rdx
	je	4f
	movq	16(%rsp), %r14
	movq	(%r15), %rcx
	addq	$56, %rcx
	jmp	3f
	.p2align	4
2:
	decq	%rdx
	addq	$104, %rcx
	testq	%rdx, %rdx
	je	4f
3:
	cmpq	$5, -48(%rcx)
	jne	2b
	movq	-56(%rcx), %rsi
	movl	(%rsi), %edi
	movl	1(%rsi), %esi
	shlq	$32, %rsi
	orq	%rdi, %rsi
	movabsq	$7307199665422950755, %rdi
	cmpq	%rdi, %rsi
	jne	2b
	cmpq	$0, (%rcx)
	je	4f
	cmpl	$1, %eax
	jne	6f
	movq	-8(%rcx), %rax
	movups	(%rax), %xmm0
	movq	$0, (%rbx)
	movb	$0, 8(%rbx)
	movups	%xmm0, 16(%rbx)
	xorps	%xmm0, %xmm0
	movups	%xmm0, 32(%rbx)
	jmp	5f
4:
	movq	$0, (%rbx)
	movb	$1, 8(%rbx)
	movq	%rax, 16(%rbx)
	movups	%xmm0, 24(%rbx)
	movq	%r12, 40(%rbx)
5:
	addq	$792, %rsp
	popq	%rbx
	popq	%r12
	popq	%r13
	popq	%r14
	popq	%r15
	popq	%rbp
	retq
6:
	xorps	%xmm0, %xmm0
	movaps	%xmm0, 48(%rsp)
	movaps	%xmm0, 64(%rsp)
	movq	$0, 80(%rsp)
	leaq	112(%rsp), %r15
	movl	$680, %edx
	movq	%r15, %rdi
	xorl	%esi, %esi
	callq	memset@PLT
	movq	%r15, %rdi
	callq	"mime_request::command::mimelook_command"
	leaq	.Lbca628426a44(%rip), %rcx
	leaq	48(%rsp), %rdi
	movl	$34, %r8d
	movq	%r15, %rsi
	movl	$8, %edx
	callq	"mime_request::request::found::refusal_by"
	movzbl	48(%rsp), %ebp
	movzbl	56(%rsp), %r15d
	movaps	64(%rsp), %xmm0
	movq	80(%rsp), %r13
	testq	%r12, %r12
	je	7f
	movq	%r14, %rdi
	movaps	%xmm0, 96(%rsp)
	callq	rattle_dealloc@PLT
	movaps	96(%rsp), %xmm0
7:
	movq	$1, (%rbx)
	movb	%bpl, 8(%rbx)
	movq	%r15, 16(%rbx)
	movups	%xmm0, 24(%rbx)
	movq	%r13, 40(%rbx)
	jmp	5b
8:
	.size	"mime_request::request::data::source_of", 8b-"mime_request::request::data::source_of"

	.section	.rodata.cst16,"aM",@progbits,16
	.p2align	4, 0x0
1:
	.byte	0,0,1,0
	.zero	1
	.zero	1
	.zero	1
	.zero	1
	.zero	1
	.zero	1
	.zero	1
	.zero	1
	.zero	1
	.zero	1
	.zero	1
	.zero	1
2:
	.long	1,0,0,0
3:
	.byte	0,0,1,0,0,0,0,0,0,0,0,0,0,0,0,0
	.section	.rodata.cst4,"aM",@progbits,4
	.p2align	2, 0x0
4:
	.long	1
	.text
	.p2align	4
	.type	"mime_request::request::flags::options_of",@function
"mime_request::request::flags::options_of":
	pushq	%rbp
	pushq	%r15
	pushq	%r14
	pushq	%r13
	pushq	%r12
	pushq	%rbx
	subq	$792, %rsp
	movq	%rdi, %rbx
	pxor	%xmm0, %xmm0
	movdqa	%xmm0, (%rsp)
	movq	$0, 16(%rsp)
	testq	%rdx, %rdx
	je	39f
	movabsq	$8749489599856078177, %rcx
	leaq	56(%rsi), %rax
	movq	%rdx, %rdi
	jmp	6f
	.p2align	4
5:
	decq	%rdi
	addq	$104, %rax
	testq	%rdi, %rdi
	je	7f
6:
	cmpq	$9, -48(%rax)
	jne	5b
	movq	-56(%rax), %r8
	movabsq	$7813304644300267886, %r9
	cmpq	%r9, (%r8)
	jne	5b
	cmpq	%rcx, 1(%r8)
	jne	5b
	cmpq	$0, (%rax)
	je	7f
	movq	-8(%rax), %rax
	cmpq	$4, 8(%rax)
	jne	7f
	movq	(%rax), %rax
	movl	(%rax), %eax
	movq	%rax, %rdi
	shlq	$32, %rdi
	orq	%rax, %rdi
	movabsq	$7310875414349836916, %rax
	cmpq	%rax, %rdi
	sete	%al
	jmp	8f
7:
	xorl	%eax, %eax
8:
	leaq	56(%rsi), %rdi
	movq	%rdx, %r8
	jmp	10f
	.p2align	4
9:
	decq	%r8
	addq	$104, %rdi
	testq	%r8, %r8
	je	11f
10:
	cmpq	$12, -48(%rdi)
	jne	9b
	movq	-56(%rdi), %r9
	movabsq	$3275364211029340003, %r10
	cmpq	%r10, (%r9)
	jne	9b
	leaq	983300(%rcx), %r10
	cmpq	%r10, 4(%r9)
	jne	9b
	cmpq	$0, (%rdi)
	je	11f
	movq	-8(%rdi), %rcx
	cmpq	$4, 8(%rcx)
	jne	11f
	movq	(%rcx), %rcx
	movl	(%rcx), %ecx
	movq	%rcx, %rdi
	shlq	$32, %rdi
	orq	%rcx, %rdi
	movabsq	$7310875414349836916, %rcx
	cmpq	%rcx, %rdi
	sete	%cl
	jmp	12f
11:
	xorl	%ecx, %ecx
12:
	leaq	56(%rsi), %rdi
	movq	%rdx, %r8
	jmp	14f
	.p2align	4
13:
	decq	%r8
	addq	$104, %rdi
	testq	%r8, %r8
	je	15f
14:
	cmpq	$11, -48(%rdi)
	jne	13b
	movq	-56(%rdi), %r9
	movabsq	$7594807726600315245, %r10
	cmpq	%r10, (%r9)
	jne	13b
	movabsq	$8391176327732749161, %r10
	cmpq	%r10, 3(%r9)
	jne	13b
	cmpq	$0, (%rdi)
	je	15f
	movq	-8(%rdi), %rdi
	cmpq	$4, 8(%rdi)
	jne	15f
	movq	(%rdi), %rdi
	movl	(%rdi), %edi
	movq	%rdi, %r8
	shlq	$32, %r8
	orq	%rdi, %r8
	movabsq	$7310875414349836916, %rdi
	cmpq	%rdi, %r8
	sete	%dil
	jmp	16f
15:
	xorl	%edi, %edi
16:
	leaq	56(%rsi), %r8
	movq	%rdx, %r9
	jmp	18f
	.p2align	4
17:
	decq	%r9
	addq	$104, %r8
	testq	%r9, %r9
	je	19f
18:
	cmpq	$9, -48(%r8)
	jne	17b
	movq	-56(%r8), %r10
	movabsq	$7093007128531332193, %r11
	cmpq	%r11, (%r10)
	jne	17b
	movabsq	$8314330373457538156, %r11
	cmpq	%r11, 1(%r10)
	jne	17b
	cmpq	$0, (%r8)
	je	19f
	movq	-8(%r8), %r8
	cmpq	$4, 8(%r8)
	jne	19f
	movq	(%r8), %r8
	movl	(%r8), %r8d
	movq	%r8, %r9
	shlq	$32, %r9
	orq	%r8, %r9
	movabsq	$7310875414349836916, %r8
	cmpq	%r8, %r9
	sete	%r13b
	jmp	20f
19:
	xorl	%r13d, %r13d
20:
	leaq	56(%rsi), %r8
	movq	%rdx, %r9
	jmp	22f
	.p2align	4
21:
	decq	%r9
	addq	$104, %r8
	testq	%r9, %r9
	je	23f
22:
	cmpq	$5, -48(%r8)
	jne	21b
	movq	-56(%r8), %r10
	movl	(%r10), %r11d
	movl	1(%r10), %r10d
	shlq	$32, %r10
	orq	%r11, %r10
	movabsq	$7306087015423897193, %r11
	cmpq	%r11, %r10
	jne	21b
	cmpq	$0, (%r8)
	je	23f
	movq	-8(%r8), %r8
	cmpq	$4, 8(%r8)
	jne	23f
	movq	(%r8), %r8
	movl	(%r8), %r8d
	movq	%r8, %r9
	shlq	$32, %r9
	orq	%r8, %r9
	movabsq	$7310875414349836916, %r8
	cmpq	%r8, %r9
	sete	%r8b
	jmp	24f
23:
	xorl	%r8d, %r8d
24:
	leaq	56(%rsi), %r9
	movq	%rdx, %r10
	jmp	26f
	.p2align	4
25:
	decq	%r10
	addq	$104, %r9
	testq	%r10, %r10
	je	27f
26:
	cmpq	$4, -48(%r9)
	jne	25b
	movq	-56(%r9), %r11
	movl	(%r11), %r11d
	movq	%r11, %r14
	shlq	$32, %r14
	orq	%r11, %r14
	movabsq	$8391173003667533667, %r11
	cmpq	%r11, %r14
	jne	25b
	cmpq	$0, (%r9)
	je	27f
	movq	-8(%r9), %r9
	cmpq	$4, 8(%r9)
	jne	27f
	movq	(%r9), %r9
	movl	(%r9), %r9d
	movq	%r9, %r10
	shlq	$32, %r10
	orq	%r9, %r10
	movabsq	$7310875414349836916, %r9
	cmpq	%r9, %r10
	sete	%r9b
	jmp	28f
27:
	xorl	%r9d, %r9d
28:
	leaq	56(%rsi), %r10
	movq	%rdx, %r11
	jmp	30f
	.p2align	4
29:
	decq	%r11
	addq	$104, %r10
	testq	%r11, %r11
	je	31f
30:
	cmpq	$4, -48(%r10)
	jne	29b
	movq	-56(%r10), %r14
	movl	(%r14), %r14d
	movq	%r14, %r15
	shlq	$32, %r15
	orq	%r14, %r15
	movabsq	$7812748570706867566, %r14
	cmpq	%r14, %r15
	jne	29b
	cmpq	$0, (%r10)
	je	31f
	movq	-8(%r10), %r10
	cmpq	$4, 8(%r10)
	jne	31f
	movq	(%r10), %r10
	movl	(%r10), %r10d
	movq	%r10, %r11
	shlq	$32, %r11
	orq	%r10, %r11
	movabsq	$7310875414349836916, %r10
	cmpq	%r10, %r11
	sete	%r10b
	jmp	32f
31:
	xorl	%r10d, %r10d
32:
	leaq	56(%rsi), %r11
	movq	%rdx, %r14
	jmp	34f
	.p2align	4
33:
	decq	%r14
	addq	$104, %r11
	testq	%r14, %r14
	je	35f
34:
	cmpq	$5, -48(%r11)
	jne	33b
	movq	-56(%r11), %r15
	movl	(%r15), %r12d
	movl	1(%r15), %r15d
	shlq	$32, %r15
	orq	%r12, %r15
	movabsq	$7378419504565023330, %r12
	cmpq	%r12, %r15
	jne	33b
	cmpq	$0, (%r11)
	je	35f
	movq	-8(%r11), %r11
	cmpq	$4, 8(%r11)
	jne	35f
	movq	(%r11), %r11
	movl	(%r11), %r11d
	movq	%r11, %r14
	shlq	$32, %r14
	orq	%r11, %r14
	movabsq	$7310875414349836916, %r11
	cmpq	%r11, %r14
	sete	%r11b
	jmp	36f
35:
	xorl	%r11d, %r11d
36:
	addq	$56, %rsi
	jmp	38f
	.p2align	4
37:
	decq	%rdx
	addq	$104, %rsi
	testq	%rdx, %rdx
	je	40f
38:
	cmpq	$6, -48(%rsi)
	jne	37b
	movq	-56(%rsi), %r14
	movl	(%r14), %r15d
	movl	2(%r14), %r14d
	shlq	$32, %r14
	orq	%r15, %r14
	movabsq	$7309449274685879141, %r15
	cmpq	%r15, %r14
	jne	37b
	cmpq	$0, (%rsi)
	je	40f
	movq	-8(%rsi), %rdx
	cmpq	$4, 8(%rdx)
	jne	40f
	movq	(%rdx), %rdx
	movl	(%rdx), %edx
	movq	%rdx, %rsi
	shlq	$32, %rsi
	orq	%rdx, %rsi
	movabsq	$7310875414349836916, %rdx
	cmpq	%rdx, %rsi
	sete	%dl
	jne	41f
	testb	%r10b, %r10b
	je	41f
	movl	$29, %r14d
	leaq	.L599d078cb9c2(%rip), %r15
	jmp	43f
39:
	xorl	%r9d, %r9d
	xorl	%r13d, %r13d
	xorl	%ecx, %ecx
	xorl	%eax, %eax
	xorl	%edi, %edi
	xorl	%r8d, %r8d
	xorl	%r11d, %r11d
	xorl	%r10d, %r10d
40:
	xorl	%edx, %edx
41:
	movzbl	%r10b, %ebp
	movzbl	%r11b, %esi
	testb	%r10b, %r10b
	cmovnel	%ebp, %esi
	testb	%r9b, %r9b
	je	42f
	testb	%sil, %sil
	je	42f
	movl	$29, %r14d
	leaq	.Lec2ba9672c9d(%rip), %r15
	jmp	43f
42:
	testb	%dil, %dil
	je	45f
	testb	%r13b, %r13b
	je	45f
	movl	$43, %r14d
	leaq	.Lb4e2c38a2c91(%rip), %r15
43:
	pxor	%xmm0, %xmm0
	movdqa	%xmm0, 32(%rsp)
	movdqa	%xmm0, 48(%rsp)
	movq	$0, 64(%rsp)
	leaq	112(%rsp), %r12
	xorl	%r13d, %r13d
	movl	$680, %edx
	movq	%r12, %rdi
	xorl	%esi, %esi
	callq	memset@PLT
	movq	%r12, %rdi
	callq	"mime_request::command::mimelook_command"
	leaq	32(%rsp), %rdi
	movq	%r12, %rsi
	movl	$8, %edx
	movq	%r15, %rcx
	movq	%r14, %r8
	callq	"mime_request::request::found::refusal_by"
	movzbl	32(%rsp), %r11d
	movzbl	40(%rsp), %eax
	movq	64(%rsp), %rcx
	movq	%rcx, 96(%rsp)
	movaps	48(%rsp), %xmm0
	movaps	%xmm0, 80(%rsp)
	movaps	%xmm0, (%rsp)
	movq	%rcx, 16(%rsp)
	movd	4b(%rip), %xmm0
	xorl	%r8d, %r8d
	xorl	%r9d, %r9d
	xorl	%r10d, %r10d
	xorl	%edx, %edx
44:
	movd	%xmm0, (%rbx)
	movb	%r13b, 4(%rbx)
	movb	%r8b, 5(%rbx)
	movb	%r9b, 6(%rbx)
	movb	%r10b, 7(%rbx)
	movb	%r11b, 8(%rbx)
	movb	%dl, 9(%rbx)
	movq	%rax, 16(%rbx)
	movaps	(%rsp), %xmm0
	movups	%xmm0, 24(%rbx)
	movq	16(%rsp), %rax
	movq	%rax, 40(%rbx)
	addq	$792, %rsp
	popq	%rbx
	popq	%r12
	popq	%r13
	popq	%r14
	popq	%r15
	popq	%rbp
	retq
45:
	testb	%cl, %cl
	je	46f
	movl	$70, %r14d
	leaq	.L36c229d505b2(%rip), %r15
	testb	%al, %al
	jne	43b
	testb	%dil, %dil
	jne	43b
	testb	%r13b, %r13b
	jne	43b
	movd	3b(%rip), %xmm0
	xorl	%r13d, %r13d
	jmp	47f
46:
	movzbl	%al, %eax
	pxor	%xmm0, %xmm0
	pinsrb	$1, %eax, %xmm0
	movzbl	%dil, %eax
	pinsrb	$3, %eax, %xmm0
47:
	xorl	%eax, %eax
	jmp	44b
48:
	.size	"mime_request::request::flags::options_of", 48b-"mime_request::request::flags::options_of"

	.text
	.p2align	4
	.type	"mime_request::request::found::refusal_by",@function
"mime_request::request::found::refusal_by":
	pushq	%rbp
	pushq	%r15
	pushq	%r14
	pushq	%r13
	pushq	%r12
	pushq	%rbx
	subq	$1608, %rsp
	movq	%rdi, %rbx
	xorps	%xmm0, %xmm0
	cmpb	$0, (%rsi)
	movaps	%xmm0, 96(%rsp)
	movq	$0, 112(%rsp)
	jne	30f
	movl	%edx, %r14d
	movq	%rcx, %rbp
	movq	%r8, %r13
	addq	$8, %rsi
	leaq	256(%rsp), %rdi
	movl	$672, %edx
	callq	memcpy@PLT
	xorps	%xmm0, %xmm0
	movaps	%xmm0, 128(%rsp)
	movq	$0, 144(%rsp)
	movaps	%xmm0, 928(%rsp)
	movaps	%xmm0, 944(%rsp)
	movups	%xmm0, 240(%rsp)
	movaps	%xmm0, 160(%rsp)
	movq	$0, 176(%rsp)
	cmpb	$0, 925(%rsp)
	jne	13f
	leaq	256(%rsp), %r15
	movq	%r15, %rdi
	callq	"clap::builder::command::Command::depth"
	addq	$2, %rax
	movq	$-1, %rdi
	cmovaeq	%rax, %rdi
	movq	%r15, %rsi
	callq	"clap::builder::command::building::build_levels"
	movb	%al, 925(%rsp)
	testb	%al, %al
	jne	13f
	movq	$0, 232(%rsp)
	leaq	928(%rsp), %rdi
	leaq	256(%rsp), %rsi
	leaq	8(%rsp), %rdx
	leaq	232(%rsp), %r8
	xorl	%ecx, %ecx
	callq	"clap::output::usage::with_title"
	cmpb	$0, 928(%rsp)
	jne	13f
	movq	936(%rsp), %r15
	movq	944(%rsp), %rax
	movq	%rax, 56(%rsp)
	movq	952(%rsp), %r12
	movl	$7, %edi
	movl	$1, %esi
	callq	rattle_alloc@PLT
	testb	$1, %al
	je	12f
	movq	%rdx, %rcx
	leaq	.Lc9c10f50e645(%rip), %rax
	subq	%rax, %rdx
	cmpq	$6, %rdx
	ja	1f
	movl	$1869771365, (%rcx)
	movw	$14962, 4(%rcx)
	movb	$32, 6(%rcx)
	jmp	2f
1:
	movl	$540701295, 3(%rcx)
	movl	$1869771365, (%rcx)
2:
	movq	%r13, %rdx
	movq	%rbp, %rsi
	movq	%rcx, 32(%rsp)
	movq	$7, 40(%rsp)
	movq	$7, 48(%rsp)
	testq	%r13, %r13
	jne	39f
	movl	$7, %r13d
	movl	$7, %eax
3:
	leaq	(%rax,%rdx), %rbp
	leaq	(%rcx,%rax), %rdi
	movq	%rdi, %r8
	subq	%rsi, %r8
	cmpq	%rdx, %r8
	jae	9f
	cmpq	$4, %rdx
	jb	4f
	cmpq	$32, %r8
	jae	34f
4:
	xorl	%r8d, %r8d
5:
	movq	%rdx, %r10
	movq	%r8, %r9
	andq	$3, %r10
	je	7f
	movq	%r8, %r9
6:
	movzbl	(%rsi,%r9), %r11d
	movb	%r11b, (%rdi,%r9)
	incq	%r9
	decq	%r10
	jne	6b
7:
	subq	%rdx, %r8
	cmpq	$-4, %r8
	ja	10f
	addq	%rcx, %rax
	addq	$3, %rax
8:
	movzbl	(%rsi,%r9), %ecx
	movb	%cl, -3(%rax,%r9)
	movzbl	1(%rsi,%r9), %ecx
	movb	%cl, -2(%rax,%r9)
	movzbl	2(%rsi,%r9), %ecx
	movb	%cl, -1(%rax,%r9)
	movzbl	3(%rsi,%r9), %ecx
	movb	%cl, (%rax,%r9)
	addq	$4, %r9
	cmpq	%r9, %rdx
	jne	8b
	jmp	10f
9:
	callq	memmove@PLT
10:
	movq	%rbp, 40(%rsp)
	movq	%r13, 48(%rsp)
	movq	$1, 160(%rsp)
	movq	%r15, 168(%rsp)
	movq	56(%rsp), %rax
	movq	%rax, 176(%rsp)
	leaq	32(%rsp), %rdi
	leaq	256(%rsp), %rsi
	leaq	160(%rsp), %rdx
	callq	"clap::error::text::usage_and_help"
	testb	%al, %al
	je	32f
11:
	cmpq	$0, 48(%rsp)
	je	12f
	movq	32(%rsp), %rdi
	callq	rattle_dealloc@PLT
12:
	testq	%r12, %r12
	je	13f
	movq	%r15, %rdi
	callq	rattle_dealloc@PLT
13:
	xorps	%xmm0, %xmm0
	movaps	%xmm0, 64(%rsp)
	movq	$0, 80(%rsp)
	movq	$0, 24(%rsp)
	xorl	%r14d, %r14d
	movq	$0, 16(%rsp)
14:
	movaps	64(%rsp), %xmm0
	movaps	%xmm0, 128(%rsp)
	movq	80(%rsp), %rax
	movq	%rax, 144(%rsp)
	cmpb	$1, 304(%rsp)
	jne	15f
	cmpq	$0, 328(%rsp)
	je	15f
	movq	312(%rsp), %rdi
	callq	rattle_dealloc@PLT
15:
	cmpb	$1, 336(%rsp)
	jne	16f
	cmpq	$0, 360(%rsp)
	je	16f
	movq	344(%rsp), %rdi
	callq	rattle_dealloc@PLT
16:
	cmpb	$1, 368(%rsp)
	jne	17f
	cmpq	$0, 392(%rsp)
	je	17f
	movq	376(%rsp), %rdi
	callq	rattle_dealloc@PLT
17:
	cmpq	$0, 632(%rsp)
	je	18f
	movq	616(%rsp), %rdi
	callq	rattle_dealloc@PLT
18:
	cmpq	$0, 656(%rsp)
	je	19f
	movq	640(%rsp), %rdi
	callq	rattle_dealloc@PLT
19:
	movq	%r14, 192(%rsp)
	movq	%rbx, 200(%rsp)
	cmpq	$0, 680(%rsp)
	je	20f
	movq	664(%rsp), %rdi
	callq	rattle_dealloc@PLT
20:
	movq	848(%rsp), %rax
	movq	%rax, 224(%rsp)
	movups	832(%rsp), %xmm0
	movaps	%xmm0, 208(%rsp)
	leaq	208(%rsp), %rdi
	callq	"std_alloc::vec::Vec::drop::<#f47e8c83c2357772>"
	movq	856(%rsp), %r15
	movq	864(%rsp), %r14
	movq	872(%rsp), %rbx
	testq	%r14, %r14
	je	22f
	movq	%r15, %r12
	.p2align	4
21:
	leaq	928(%rsp), %r13
	movl	$672, %edx
	movq	%r13, %rdi
	movq	%r12, %rsi
	callq	memcpy@PLT
	movq	%r13, %rdi
	callq	"mime_request::clap++builder++command++Command+Destruct::drop"
	addq	$672, %r12
	decq	%r14
	jne	21b
22:
	testq	%rbx, %rbx
	je	23f
	movq	%r15, %rdi
	callq	rattle_dealloc@PLT
23:
	movq	880(%rsp), %rax
	movq	%rax, 56(%rsp)
	movq	888(%rsp), %rbx
	movq	896(%rsp), %rax
	movq	%rax, 184(%rsp)
	testq	%rbx, %rbx
	je	28f
	movq	56(%rsp), %rax
	leaq	88(%rax), %rbp
	jmp	25f
	.p2align	4
24:
	addq	$104, %rbp
	decq	%rbx
	je	28f
25:
	movq	-40(%rbp), %r13
	movq	-24(%rbp), %r15
	movq	-16(%rbp), %r12
	movq	(%rbp), %r14
	cmpq	$0, -56(%rbp)
	je	26f
	movq	-72(%rbp), %rdi
	callq	rattle_dealloc@PLT
26:
	testq	%r15, %r15
	je	27f
	movq	%r13, %rdi
	callq	rattle_dealloc@PLT
27:
	testq	%r14, %r14
	je	24b
	movq	%r12, %rdi
	callq	rattle_dealloc@PLT
	jmp	24b
28:
	cmpq	$0, 184(%rsp)
	je	29f
	movq	56(%rsp), %rdi
	callq	rattle_dealloc@PLT
29:
	cmpb	$0, 24(%rsp)
	movq	200(%rsp), %rbx
	movq	192(%rsp), %rcx
	je	30f
	movq	144(%rsp), %rax
	movq	%rax, 112(%rsp)
	movaps	128(%rsp), %xmm0
	movaps	%xmm0, 96(%rsp)
	movq	16(%rsp), %rax
	jmp	31f
30:
	xorps	%xmm0, %xmm0
	movaps	%xmm0, 96(%rsp)
	movq	$0, 112(%rsp)
	movb	$16, %cl
	xorl	%eax, %eax
31:
	movb	%cl, (%rbx)
	movq	%rax, 8(%rbx)
	movaps	96(%rsp), %xmm0
	movups	%xmm0, 16(%rbx)
	movq	112(%rsp), %rax
	movq	%rax, 32(%rbx)
	addq	$1608, %rsp
	popq	%rbx
	popq	%r12
	popq	%r13
	popq	%r14
	popq	%r15
	popq	%rbp
	retq
32:
	testq	%r12, %r12
	je	33f
	movq	%r15, %rdi
	callq	rattle_dealloc@PLT
33:
	movq	48(%rsp), %rax
	movq	%rax, 80(%rsp)
	movups	32(%rsp), %xmm0
	movaps	%xmm0, 64(%rsp)
	movl	$1, %eax
	movq	%rax, 16(%rsp)
	movb	$1, %al
	movq	%rax, 24(%rsp)
	jmp	14b
34:
	cmpq	$32, %rdx
	jae	35f
	xorl	%r8d, %r8d
	jmp	37f
35:
	movq	%rdx, %r8
	andq	$-32, %r8
	leaq	(%rax,%rcx), %r9
	addq	$16, %r9
	xorl	%r10d, %r10d
36:
	movups	(%rsi,%r10), %xmm0
	movups	16(%rsi,%r10), %xmm1
	movups	%xmm0, -16(%r9,%r10)
	movups	%xmm1, (%r9,%r10)
	addq	$32, %r10
	cmpq	%r10, %r8
	jne	36b
	cmpq	%r8, %rdx
	je	10b
	testb	$28, %dl
	je	5b
37:
	movq	%r8, %r9
	movq	%rdx, %r8
	andq	$-4, %r8
38:
	movl	(%rsi,%r9), %r10d
	movl	%r10d, (%rdi,%r9)
	addq	$4, %r9
	cmpq	%r9, %r8
	jne	38b
	cmpq	%r8, %rdx
	je	10b
	jmp	5b
39:
	leaq	32(%rsp), %rdi
	movq	%rdx, %rsi
	callq	"std_alloc::vec::Vec::grow_amortized::<#1d775b5957dec42c>"
	testb	%al, %al
	je	11b
	movq	32(%rsp), %rcx
	movq	40(%rsp), %rax
	movq	48(%rsp), %rsi
	movq	%r13, %rdx
	movq	%rsi, %r13
	movq	%rbp, %rsi
	jmp	3b
40:
	.size	"mime_request::request::found::refusal_by", 40b-"mime_request::request::found::refusal_by"

	.text
	.p2align	4
	.type	"mime_request::request::found::subjects_of",@function
"mime_request::request::found::subjects_of":
	pushq	%rbp
	pushq	%r15
	pushq	%r14
	pushq	%r12
	pushq	%rbx
	subq	$2144, %rsp
	movl	%esi, %ebp
	movq	%rdi, %rbx
	pxor	%xmm0, %xmm0
	movdqa	%xmm0, 32(%rsp)
	movdqa	%xmm0, 16(%rsp)
	movq	$0, 48(%rsp)
	movq	$0, 792(%rsp)
	testq	%rcx, %rcx
	je	12f
	leaq	56(%rdx), %rax
	movq	%rcx, %rsi
	jmp	2f
	.p2align	4
1:
	decq	%rsi
	addq	$104, %rax
	testq	%rsi, %rsi
	je	3f
2:
	cmpq	$5, -48(%rax)
	jne	1b
	movq	-56(%rax), %rdi
	movl	(%rdi), %r8d
	movl	1(%rdi), %edi
	shlq	$32, %rdi
	orq	%r8, %rdi
	movabsq	$7956000667873866867, %r8
	cmpq	%r8, %rdi
	jne	1b
	cmpq	$0, (%rax)
	je	3f
	movq	-8(%rax), %rsi
	movq	(%rsi), %rax
	movq	8(%rsi), %rdi
	xorl	%r8d, %r8d
	jmp	4f
3:
	movb	$1, %r8b
	xorl	%eax, %eax
	xorl	%edi, %edi
4:
	leaq	56(%rdx), %rsi
	movq	%rcx, %r9
	jmp	6f
	.p2align	4
5:
	decq	%r9
	addq	$104, %rsi
	testq	%r9, %r9
	je	7f
6:
	cmpq	$11, -48(%rsi)
	jne	5b
	movq	-56(%rsi), %r10
	movabsq	$7362594238001604966, %r11
	cmpq	%r11, (%r10)
	jne	5b
	movabsq	$7885647255719408485, %r11
	cmpq	%r11, 3(%r10)
	jne	5b
	cmpq	$0, (%rsi)
	je	7f
	movq	-8(%rsi), %r9
	movq	(%r9), %rsi
	movq	8(%r9), %r14
	xorl	%r9d, %r9d
	jmp	8f
7:
	movb	$1, %r9b
	xorl	%esi, %esi
	xorl	%r14d, %r14d
8:
	addq	$56, %rdx
	jmp	10f
	.p2align	4
9:
	decq	%rcx
	addq	$104, %rdx
	testq	%rcx, %rcx
	je	11f
10:
	cmpq	$4, -48(%rdx)
	jne	9b
	movq	-56(%rdx), %r10
	movl	(%r10), %r10d
	movq	%r10, %r11
	shlq	$32, %r11
	orq	%r10, %r11
	movabsq	$7308332183824656742, %r10
	cmpq	%r10, %r11
	jne	9b
	testb	%r9b, %r8b
	je	16f
	movq	(%rdx), %r14
	testq	%r14, %r14
	je	19f
	movabsq	$576460752303423486, %r12
	leaq	2(%r12), %rax
	cmpq	%rax, %r14
	jae	18f
	movq	-8(%rdx), %r15
	movq	%r14, %rdi
	shlq	$4, %rdi
	movl	$8, %esi
	callq	rattle_alloc@PLT
	testb	$1, %al
	je	18f
	movq	%rdx, %rsi
	cmpq	$1, %r14
	jne	20f
	xorl	%eax, %eax
	jmp	22f
11:
	testb	%r8b, %r8b
	je	15f
	testb	%r9b, %r9b
	je	17f
12:
	leaq	112(%rsp), %rdi
	movl	$680, %edx
	xorl	%esi, %esi
	callq	memset@PLT
	leaq	112(%rsp), %rdi
	testb	$1, %bpl
	je	13f
	callq	"mime_request::command::type_command"
	jmp	14f
13:
	callq	"mime_request::command::plain_command"
14:
	movzbl	112(%rsp), %ebp
	leaq	120(%rsp), %rsi
	leaq	1472(%rsp), %r14
	movl	$672, %edx
	movq	%r14, %rdi
	callq	memcpy@PLT
	movb	%bpl, 792(%rsp)
	leaq	800(%rsp), %rdi
	movl	$672, %edx
	movq	%r14, %rsi
	callq	memcpy@PLT
	leaq	.Lab5c34a0a1e7(%rip), %rcx
	leaq	16(%rsp), %rdi
	leaq	792(%rsp), %rsi
	movl	$47, %r8d
	movl	$9, %edx
	callq	"mime_request::request::found::refusal_by"
	movzbl	16(%rsp), %ecx
	movzbl	24(%rsp), %esi
	movq	32(%rsp), %r14
	movl	$1, %edx
	movdqu	40(%rsp), %xmm0
	jmp	24f
15:
	testb	%r9b, %r9b
	je	16f
	pxor	%xmm0, %xmm0
	movb	$1, %cl
	xorl	%edx, %edx
	movq	%rdi, %r14
	movq	%rax, %rsi
	jmp	24f
16:
	pxor	%xmm0, %xmm0
	movdqa	%xmm0, 64(%rsp)
	movdqa	%xmm0, 80(%rsp)
	movq	$0, 96(%rsp)
	leaq	112(%rsp), %r14
	movl	$680, %edx
	movq	%r14, %rdi
	xorl	%esi, %esi
	callq	memset@PLT
	movq	%r14, %rdi
	callq	"mime_request::command::mimelook_command"
	leaq	.L555bd5c6dcac(%rip), %rcx
	leaq	64(%rsp), %rdi
	movl	$54, %r8d
	movq	%r14, %rsi
	movl	$8, %edx
	callq	"mime_request::request::found::refusal_by"
	movzbl	64(%rsp), %ecx
	movzbl	72(%rsp), %esi
	movq	80(%rsp), %r14
	movdqu	88(%rsp), %xmm0
	movl	$1, %edx
	jmp	24f
17:
	pxor	%xmm0, %xmm0
	movb	$2, %cl
	xorl	%edx, %edx
	jmp	24f
18:
	movq	$1, (%rbx)
	movb	$16, 8(%rbx)
	pxor	%xmm0, %xmm0
	movdqu	%xmm0, 16(%rbx)
	jmp	25f
19:
	leaq	8(%rsp), %rsi
	jmp	23f
20:
	andq	%r14, %r12
	movl	$24, %ecx
	xorl	%eax, %eax
	.p2align	4
21:
	movups	-24(%r15,%rcx), %xmm0
	movups	%xmm0, -24(%rsi,%rcx)
	movdqu	-8(%r15,%rcx), %xmm0
	movdqu	%xmm0, -8(%rsi,%rcx)
	addq	$2, %rax
	addq	$32, %rcx
	cmpq	%rax, %r12
	jne	21b
	testb	$1, %r14b
	je	23f
22:
	shlq	$4, %rax
	movdqu	(%r15,%rax), %xmm0
	movdqu	%xmm0, (%rsi,%rax)
23:
	movq	%r14, %xmm0
	xorl	%edx, %edx
	xorl	%ecx, %ecx
24:
	movq	%rdx, (%rbx)
	movb	%cl, 8(%rbx)
	movq	%rsi, 16(%rbx)
	movq	%r14, 24(%rbx)
25:
	movdqu	%xmm0, 32(%rbx)
	addq	$2144, %rsp
	popq	%rbx
	popq	%r12
	popq	%r14
	popq	%r15
	popq	%rbp
	retq
26:
	.size	"mime_request::request::found::subjects_of", 26b-"mime_request::request::found::subjects_of"
