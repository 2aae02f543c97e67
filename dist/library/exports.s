# Made by dist/refresh of what is proved.

	.text
	.globl	close_database
	.p2align	4
	.type	close_database,@function
close_database:
	pushq	%rbp
	pushq	%r15
	pushq	%r14
	pushq	%r13
	pushq	%r12
	pushq	%rbx
	subq	$40, %rsp
	movq	%rsi, %rbx
	testq	%rdi, %rdi
	je	5f
	movq	208(%rdi), %rax
	movq	%rax, 8(%rsp)
	movq	216(%rdi), %r14
	movq	80(%rdi), %r13
	movzbl	88(%rdi), %r15d
	movq	96(%rdi), %rax
	movq	%rax, 16(%rsp)
	movzbl	104(%rdi), %r12d
	movq	112(%rdi), %rax
	movq	%rax, 24(%rsp)
	movzbl	120(%rdi), %eax
	movb	%al, 7(%rsp)
	movq	128(%rdi), %rax
	movq	%rax, 32(%rsp)
	movzbl	72(%rdi), %ebp
	callq	rattle_dealloc@PLT
	testb	%bpl, %bpl
	je	1f
	movq	%r13, %rdi
	callq	"std_alloc::boxed::Box::drop::<#2e361b27570a813f>"
1:
	testb	%r15b, %r15b
	je	2f
	movq	16(%rsp), %rdi
	callq	"std_alloc::boxed::Box::drop::<#ca47198115f7bcf3>"
2:
	testb	%r12b, %r12b
	je	3f
	movq	24(%rsp), %rdi
	callq	"std_alloc::boxed::Box::drop::<#3acad044879be0d3>"
3:
	cmpb	$0, 7(%rsp)
	je	4f
	movq	32(%rsp), %rdi
	callq	"std_alloc::boxed::Box::drop::<#72acaa3b1c3226bf>"
4:
	movq	8(%rsp), %rax
	jmp	6f
5:
	leaq	.L22d5119de29e(%rip), %rax
	xorl	%r14d, %r14d
6:
	movq	%rax, (%rbx)
	movq	%r14, 8(%rbx)
	addq	$40, %rsp
	popq	%rbx
	popq	%r12
	popq	%r13
	popq	%r14
	popq	%r15
	popq	%rbp
	retq
7:
	.size	close_database, 7b-close_database

	.text
	.globl	database_look_up_with
	.p2align	4
	.type	database_look_up_with,@function
database_look_up_with:
	pushq	%rbp
	pushq	%r15
	pushq	%r14
	pushq	%r13
	pushq	%r12
	pushq	%rbx
	subq	$808, %rsp
	movq	%rcx, %r13
	movq	%rsi, %r15
	movq	%rdi, %rbx
	xorl	%esi, %esi
	testq	%rdx, %rdx
	sete	%dil
	xorl	%eax, %eax
	testq	%r8, %r8
	sete	%cl
	pxor	%xmm0, %xmm0
	movdqa	%xmm0, 640(%rsp)
	movq	$0, 656(%rsp)
	movdqa	%xmm0, 704(%rsp)
	movq	$0, 720(%rsp)
	testq	%r15, %r15
	je	2f
	movl	872(%rsp), %ebp
	movdqa	%xmm0, 672(%rsp)
	movq	$0, 688(%rsp)
	cmpl	$2, %ebp
	ja	3f
	movb	%dil, %sil
	shll	$12, %esi
	addq	%rsi, %rdx
	movq	%rdx, 208(%rsp)
	testb	$1, 864(%rsp)
	je	4f
	movb	%cl, %al
	shll	$12, %eax
	addq	%rax, %r8
	movq	%r15, %rdi
	movq	%r9, %r14
	movq	%r15, %r12
	movq	%r8, %r15
	callq	"mime_c::database::open_database::OpenDatabase::read_paid"
	movq	$1, 736(%rsp)
	movq	%r15, 744(%rsp)
	movq	%r14, 752(%rsp)
	movq	$0, 264(%rsp)
	cmpq	$4097, %r13
	jb	5f
	pxor	%xmm0, %xmm0
	xorl	%eax, %eax
1:
	pxor	%xmm1, %xmm1
	movdqa	%xmm1, 64(%rsp)
	movq	$0, 80(%rsp)
	movl	$1, %ecx
	jmp	188f
2:
	movl	$14, %ecx
	xorl	%edx, %edx
	xorl	%esi, %esi
	xorl	%r12d, %r12d
	xorl	%eax, %eax
	jmp	192f
3:
	movdqa	%xmm0, 640(%rsp)
	movq	$0, 656(%rsp)
	movl	$12, %ecx
	xorl	%edx, %edx
	xorl	%esi, %esi
	xorl	%r12d, %r12d
	xorl	%eax, %eax
	jmp	191f
4:
	movq	%r15, %rdi
	callq	"mime_c::database::open_database::OpenDatabase::read_paid"
	cmpq	$4096, %r13
	jbe	8f
	pxor	%xmm0, %xmm0
	movdqa	%xmm0, 64(%rsp)
	movq	$0, 80(%rsp)
	movl	$1, %ecx
	jmp	93f
5:
	movq	24(%r12), %rcx
	movq	%rcx, %rdi
	shrq	$2, %rdi
	movq	$1, 272(%rsp)
	movq	$0, 280(%rsp)
	leaq	288(%rsp), %rax
	movq	%rdi, 288(%rsp)
	movq	%rcx, 296(%rsp)
	pxor	%xmm0, %xmm0
	movdqa	%xmm0, 368(%rsp)
	movdqa	%xmm0, 352(%rsp)
	movq	$0, 384(%rsp)
	cmpb	$2, %bpl
	movq	%r12, %r15
	movq	%r13, 128(%rsp)
	je	9f
	movzbl	%bpl, %edx
	cmpl	$1, %edx
	movq	208(%rsp), %rdx
	jne	12f
	movdqa	%xmm0, 48(%rsp)
	movb	$2, %r12b
	movb	$1, %r13b
	movq	$0, 40(%rsp)
	xorl	%ebp, %ebp
6:
	movq	$0, 32(%rsp)
7:
	leaq	352(%rsp), %rdi
	leaq	736(%rsp), %rdx
	leaq	264(%rsp), %rcx
	leaq	272(%rsp), %r8
	movq	%r15, %rsi
	callq	"mime_lookup::cached::read_content::<#73f701dc143d73f5>"
	movzbl	360(%rsp), %r10d
	movzwl	372(%rsp), %ecx
	movq	376(%rsp), %r9
	cmpb	$0, 352(%rsp)
	movq	%r15, %r14
	movzbl	%r10b, %r15d
	je	15f
	movzwl	370(%rsp), %r13d
	movzwl	368(%rsp), %esi
	cmpb	$2, %r12b
	je	35f
	movzbl	%r12b, %eax
	cmpl	$1, %eax
	jne	34f
	cmpl	$1, %ebp
	movdqa	48(%rsp), %xmm0
	jne	35f
	movq	%rcx, %rbp
	movq	%r9, %r14
	pextrq	$1, %xmm0, %rax
	testq	%rax, %rax
	je	147f
	movq	40(%rsp), %rdi
	movl	%esi, %r12d
	callq	rattle_dealloc@PLT
	movl	%r12d, %esi
	movdqa	272(%rsp), %xmm0
	movq	264(%rsp), %rax
	leaq	215f(%rip), %rcx
	movslq	(%rcx,%r15,4), %rdx
	addq	%rcx, %rdx
	jmpq	*%rdx
8:
	movq	24(%r15), %rcx
	movq	%rcx, %rdi
	shrq	$2, %rdi
	movq	$1, 224(%rsp)
	movq	$0, 232(%rsp)
	leaq	240(%rsp), %rax
	movq	%rdi, 240(%rsp)
	movq	%rcx, 248(%rsp)
	cmpb	$2, %bpl
	je	10f
	movzbl	%bpl, %edx
	cmpl	$1, %edx
	movq	208(%rsp), %rdx
	jne	13f
	movq	%r13, %r10
	pxor	%xmm1, %xmm1
	movb	$2, %al
	xorl	%edi, %edi
	xorl	%r13d, %r13d
	xorl	%ecx, %ecx
	jmp	30f
9:
	movdqa	%xmm0, 96(%rsp)
	movdqa	%xmm0, 80(%rsp)
	movdqa	%xmm0, 64(%rsp)
	movq	$0, 112(%rsp)
	cmpb	$1, 72(%r15)
	movq	208(%rsp), %rdx
	leaq	16(%r15), %rsi
	jne	16f
	movq	80(%r15), %rdx
	cmpb	$1, 88(%r15)
	jne	39f
	movb	$1, %al
	cmpb	$1, 104(%r15)
	jne	40f
	movabsq	$-6148914691236517205, %r9
	movq	%rcx, %rax
	movq	%rdx, %r8
	mulq	%r9
	movq	%rdx, %rax
	movq	%r8, %rdx
	shrq	$2, %rax
	shrq	$4, %rcx
	addq	%rax, %rcx
	movq	112(%r15), %rax
	xorl	%r8d, %r8d
	subq	336(%rax), %rdi
	cmovaeq	%rdi, %r8
	cmpq	%rcx, %r8
	movb	$2, %al
	sbbb	$0, %al
	jmp	40f
10:
	pxor	%xmm0, %xmm0
	movdqa	%xmm0, 96(%rsp)
	movdqa	%xmm0, 80(%rsp)
	movdqa	%xmm0, 64(%rsp)
	movq	$0, 112(%rsp)
	cmpb	$1, 72(%r15)
	movq	208(%rsp), %rdx
	leaq	16(%r15), %rsi
	jne	18f
	movq	80(%r15), %r8
	movb	$1, %al
	cmpb	$1, 104(%r15)
	jne	11f
	movabsq	$-6148914691236517205, %rdx
	movq	%rcx, %rax
	mulq	%rdx
	shrq	$2, %rdx
	shrq	$4, %rcx
	addq	%rdx, %rcx
	movq	112(%r15), %rax
	xorl	%edx, %edx
	subq	336(%rax), %rdi
	cmovaeq	%rdi, %rdx
	cmpq	%rcx, %rdx
	movb	$2, %al
	sbbb	$0, %al
11:
	leaq	224(%rsp), %rcx
	movq	%rcx, 8(%rsp)
	movl	$1, (%rsp)
	movzbl	%al, %ecx
	leaq	64(%rsp), %rdi
	movq	%r8, %rdx
	movq	208(%rsp), %r8
	movq	%r13, %r9
	callq	"mime_lookup::read_back::name_types::types_of"
	movzbl	64(%rsp), %eax
	movzbl	72(%rsp), %r9d
	movd	74(%rsp), %xmm1
	movq	80(%rsp), %r8
	movq	88(%rsp), %rdi
	movq	112(%rsp), %rcx
	jmp	20f
12:
	movdqa	%xmm0, 96(%rsp)
	movdqa	%xmm0, 80(%rsp)
	movdqa	%xmm0, 64(%rsp)
	movq	$0, 112(%rsp)
	cmpb	$1, 72(%r15)
	jne	21f
	leaq	16(%r15), %rsi
	movq	80(%r15), %rdx
	cmpb	$1, 88(%r15)
	jne	41f
	movb	$1, %al
	cmpb	$1, 104(%r15)
	jne	42f
	movabsq	$-6148914691236517205, %r9
	movq	%rcx, %rax
	movq	%rdx, %r8
	mulq	%r9
	movq	%rdx, %rax
	movq	%r8, %rdx
	shrq	$2, %rax
	shrq	$4, %rcx
	addq	%rax, %rcx
	movq	112(%r15), %rax
	xorl	%r8d, %r8d
	subq	336(%rax), %rdi
	cmovaeq	%rdi, %r8
	cmpq	%rcx, %r8
	movb	$2, %al
	sbbb	$0, %al
	jmp	42f
13:
	pxor	%xmm0, %xmm0
	movdqa	%xmm0, 96(%rsp)
	movdqa	%xmm0, 80(%rsp)
	movdqa	%xmm0, 64(%rsp)
	movq	$0, 112(%rsp)
	cmpb	$1, 72(%r15)
	jne	23f
	leaq	16(%r15), %rsi
	movq	80(%r15), %r8
	movb	$1, %al
	cmpb	$1, 104(%r15)
	jne	14f
	movabsq	$-6148914691236517205, %rdx
	movq	%rcx, %rax
	mulq	%rdx
	shrq	$2, %rdx
	shrq	$4, %rcx
	addq	%rdx, %rcx
	movq	112(%r15), %rax
	xorl	%edx, %edx
	subq	336(%rax), %rdi
	cmovaeq	%rdi, %rdx
	cmpq	%rcx, %rdx
	movb	$2, %al
	sbbb	$0, %al
14:
	leaq	224(%rsp), %rcx
	movq	%rcx, 8(%rsp)
	movl	$0, (%rsp)
	movzbl	%al, %ecx
	leaq	64(%rsp), %rdi
	movq	%r8, %rdx
	movq	208(%rsp), %r8
	movq	%r13, %r9
	callq	"mime_lookup::read_back::name_types::types_of"
	movzbl	64(%rsp), %eax
	movzbl	72(%rsp), %r9d
	movd	74(%rsp), %xmm1
	movq	80(%rsp), %r8
	movq	88(%rsp), %rdi
	jmp	25f
15:
	movq	%r14, 24(%rsp)
	movzwl	%cx, %eax
	movq	384(%rsp), %r11
	movl	368(%rsp), %ecx
	shlq	$32, %rax
	orq	%rcx, %rax
	movzwl	374(%rsp), %r14d
	shlq	$48, %r14
	orq	%rax, %r14
	xorl	%eax, %eax
	cmpb	$1, %r10b
	movq	%r14, %rdi
	cmovneq	%rax, %rdi
	cmovneq	%rax, %r9
	pxor	%xmm0, %xmm0
	movdqa	%xmm0, 144(%rsp)
	movdqa	%xmm0, 160(%rsp)
	movdqa	%xmm0, 176(%rsp)
	movdqa	%xmm0, 192(%rsp)
	movdqa	%xmm0, 592(%rsp)
	movq	$0, 608(%rsp)
	movdqa	%xmm0, 224(%rsp)
	movdqa	%xmm0, 240(%rsp)
	movdqa	%xmm0, 560(%rsp)
	movq	$0, 576(%rsp)
	movdqa	%xmm0, 464(%rsp)
	movdqa	%xmm0, 480(%rsp)
	movdqa	%xmm0, 528(%rsp)
	movq	$0, 544(%rsp)
	movdqa	%xmm0, 448(%rsp)
	movdqa	%xmm0, 432(%rsp)
	movdqa	%xmm0, 496(%rsp)
	movq	$0, 512(%rsp)
	movdqa	%xmm0, 416(%rsp)
	movdqa	%xmm0, 400(%rsp)
	testb	%r13b, %r13b
	je	37f
	movb	$1, %al
	movq	24(%rsp), %rcx
	testb	$1, 72(%rcx)
	movq	208(%rsp), %rdx
	movq	128(%rsp), %rcx
	movdqa	48(%rsp), %xmm1
	je	38f
	jmp	70f
16:
	movdqa	%xmm0, 224(%rsp)
	movdqa	%xmm0, 336(%rsp)
	movdqa	%xmm0, 320(%rsp)
	movdqa	%xmm0, 304(%rsp)
	movq	%rax, (%rsp)
	leaq	304(%rsp), %rdi
	leaq	272(%rsp), %r9
	movq	%rsi, %r14
	movq	%r13, %rcx
	movl	$1, %r8d
	callq	"mime_view::cache::Cache::glob_hits"
	movzbl	312(%rsp), %ecx
	movq	320(%rsp), %r9
	cmpb	$0, 304(%rsp)
	je	49f
	movd	314(%rsp), %xmm1
17:
	movq	%r9, %r14
	movzbl	%cl, %eax
	movq	$1, 64(%rsp)
	movw	%ax, 72(%rsp)
	movd	%xmm1, 74(%rsp)
	movd	%xmm1, %r13d
	movq	%r9, 80(%rsp)
	pxor	%xmm0, %xmm0
	movdqu	%xmm0, 88(%rsp)
	pextrw	$1, %xmm1, %ebp
	movdqu	%xmm0, 104(%rsp)
	movb	$1, %dl
	xorl	%eax, %eax
	xorl	%r10d, %r10d
	jmp	170f
18:
	movdqa	%xmm0, 176(%rsp)
	movdqa	%xmm0, 336(%rsp)
	movdqa	%xmm0, 320(%rsp)
	movdqa	%xmm0, 304(%rsp)
	movq	%rax, (%rsp)
	leaq	304(%rsp), %rdi
	leaq	224(%rsp), %r9
	movq	%rsi, %r14
	movq	%r13, %rcx
	movl	$1, %r8d
	callq	"mime_view::cache::Cache::glob_hits"
	movzbl	312(%rsp), %r9d
	movq	320(%rsp), %r8
	cmpb	$0, 304(%rsp)
	je	54f
	movd	314(%rsp), %xmm1
19:
	pxor	%xmm0, %xmm0
	movdqu	%xmm0, 88(%rsp)
	movdqu	%xmm0, 104(%rsp)
	movb	$1, %al
	xorl	%ecx, %ecx
	xorl	%edi, %edi
20:
	testb	%al, %al
	jne	26f
	testb	%r9b, %r9b
	je	36f
	movq	%r13, %r10
	movdqa	96(%rsp), %xmm1
	movzbl	%r8b, %r13d
	movb	$1, %al
	jmp	29f
21:
	leaq	16(%r15), %rsi
	movdqa	%xmm0, 224(%rsp)
	movdqa	%xmm0, 336(%rsp)
	movdqa	%xmm0, 320(%rsp)
	movdqa	%xmm0, 304(%rsp)
	movq	%rax, (%rsp)
	leaq	304(%rsp), %rdi
	leaq	272(%rsp), %r9
	movq	%rsi, %r14
	movq	%r13, %rcx
	xorl	%r8d, %r8d
	callq	"mime_view::cache::Cache::glob_hits"
	movzbl	312(%rsp), %ecx
	movq	320(%rsp), %r9
	cmpb	$0, 304(%rsp)
	je	59f
	movd	314(%rsp), %xmm1
22:
	movq	%r9, %r14
	movzbl	%cl, %eax
	movq	$1, 64(%rsp)
	movw	%ax, 72(%rsp)
	movd	%xmm1, 74(%rsp)
	movd	%xmm1, %r13d
	movq	%r9, 80(%rsp)
	pxor	%xmm0, %xmm0
	movdqu	%xmm0, 88(%rsp)
	movdqu	%xmm0, 104(%rsp)
	pextrw	$1, %xmm1, %ebp
	movb	$1, %al
	xorl	%r10d, %r10d
	jmp	176f
23:
	leaq	16(%r15), %rsi
	movdqa	%xmm0, 176(%rsp)
	movdqa	%xmm0, 336(%rsp)
	movdqa	%xmm0, 320(%rsp)
	movdqa	%xmm0, 304(%rsp)
	movq	%rax, (%rsp)
	leaq	304(%rsp), %rdi
	leaq	224(%rsp), %r9
	movq	%rsi, %r14
	movq	%r13, %rcx
	xorl	%r8d, %r8d
	callq	"mime_view::cache::Cache::glob_hits"
	movzbl	312(%rsp), %r9d
	movq	320(%rsp), %r8
	cmpb	$0, 304(%rsp)
	je	64f
	movd	314(%rsp), %xmm1
24:
	pxor	%xmm0, %xmm0
	movdqu	%xmm0, 88(%rsp)
	movdqu	%xmm0, 104(%rsp)
	movb	$1, %al
	xorl	%edi, %edi
25:
	testb	%al, %al
	je	28f
26:
	pmovzxwq	%xmm1, %xmm0
	pxor	%xmm1, %xmm1
	punpckhdq	%xmm0, %xmm1
	psllq	$16, %xmm0
	por	%xmm1, %xmm0
	movq	%xmm0, %rax
	movzbl	%r9b, %edx
	orq	%rax, %rdx
	movq	%r8, %r9
	movdqa	224(%rsp), %xmm0
	cmpb	$7, %dl
	jne	47f
27:
	pxor	%xmm1, %xmm1
	movdqa	%xmm1, 64(%rsp)
	movq	$0, 80(%rsp)
	movl	$2, %ecx
	jmp	93f
28:
	testb	%r9b, %r9b
	je	36f
	movq	%r13, %r10
	movdqa	96(%rsp), %xmm1
	movzbl	%r8b, %r13d
	xorl	%eax, %eax
	xorl	%ecx, %ecx
29:
	movq	208(%rsp), %rdx
30:
	movq	224(%rsp), %rsi
	movl	56(%r15), %r12d
	movq	24(%r15), %r9
	subq	%r12, %r9
	setae	%r8b
	cmpq	$12, %r9
	setae	%r9b
	andb	%r8b, %r9b
	incq	%rsi
	movq	$-1, %r14
	cmovneq	%rsi, %r14
	movq	%r14, 224(%rsp)
	movzbl	%al, %esi
	cmpb	$1, %r9b
	jne	31f
	movq	16(%r15), %r8
	movl	4(%r8,%r12), %r8d
	bswapl	%r8d
	cmpl	$129, %r8d
	movl	$128, %r14d
	cmovael	%r8d, %r14d
	pxor	%xmm0, %xmm0
	movdqa	%xmm0, 464(%rsp)
	movq	$0, 480(%rsp)
	movq	$0, 376(%rsp)
	movdqa	%xmm0, 432(%rsp)
	movq	$0, 448(%rsp)
	movq	$0, 168(%rsp)
	movdqa	%xmm0, 400(%rsp)
	movq	$0, 416(%rsp)
	movq	$0, 200(%rsp)
	cmpb	$2, %al
	je	43f
	cmpl	$1, %esi
	movq	%r14, 24(%rsp)
	jne	44f
	movq	%r13, 304(%rsp)
	leaq	312(%rsp), %rdx
	movq	%rdi, 312(%rsp)
	pextrq	$1, %xmm1, %r14
	movdqu	%xmm1, 320(%rsp)
	testq	%r13, %r13
	movq	%rdi, 40(%rsp)
	cmovneq	%rdi, %rdx
	movq	$1, 144(%rsp)
	leaq	.L67248b46a1a0(%rip), %rax
	movq	%rax, 152(%rsp)
	movq	$24, 160(%rsp)
	leaq	432(%rsp), %rdi
	leaq	144(%rsp), %r8
	leaq	224(%rsp), %r9
	movq	%r15, %rsi
	callq	"mime_lookup::cached::by_content::choose"
	movzwl	440(%rsp), %r8d
	movzwl	442(%rsp), %r12d
	movzwl	444(%rsp), %ebp
	movq	448(%rsp), %r9
	cmpq	$1, %r13
	setne	%cl
	testq	%r14, %r14
	sete	%al
	orb	%cl, %al
	cmpb	$0, 432(%rsp)
	je	85f
	testb	%al, %al
	jne	46f
	movq	40(%rsp), %rdi
	jmp	45f
31:
	cmpb	$2, %al
	je	32f
	cmpl	$1, %esi
	cmpl	$1, %r13d
	jne	32f
	pextrq	$1, %xmm1, %rax
	testq	%rax, %rax
	je	32f
	callq	rattle_dealloc@PLT
32:
	movq	232(%rsp), %xmm1
	movq	%r14, %xmm0
	punpcklqdq	%xmm1, %xmm0
	movl	$8, %ecx
33:
	xorl	%edx, %edx
	xorl	%esi, %esi
	jmp	84f
34:
	movdqa	48(%rsp), %xmm0
	cmpl	$1, %ebp
	jne	35f
	movq	%rcx, %rbp
	movq	%r9, %r14
	pextrq	$1, %xmm0, %rax
	testq	%rax, %rax
	je	147f
	movq	40(%rsp), %rdi
	movl	%esi, %r12d
	callq	rattle_dealloc@PLT
	movl	%r12d, %esi
	movdqa	272(%rsp), %xmm0
	movq	264(%rsp), %rax
	leaq	215f(%rip), %rcx
	movslq	(%rcx,%r15,4), %rdx
	addq	%rcx, %rdx
	jmpq	*%rdx
35:
	movq	%rcx, %rbp
	movq	%r9, %r14
	jmp	147f
36:
	movl	%r8d, %eax
	shrl	$8, %eax
	movl	%r8d, %r12d
	shrl	$16, %r12d
	movq	%r8, %rbp
	shrq	$32, %rbp
	movq	%r8, %r13
	shrq	$48, %r13
	xorl	%r14d, %r14d
	movq	%rdi, %r9
	jmp	90f
37:
	testq	%rbp, %rbp
	movq	208(%rsp), %rdx
	movq	128(%rsp), %rcx
	movdqa	48(%rsp), %xmm1
	je	38f
	movq	%xmm1, %rsi
	movb	$1, %al
	testq	%rsi, %rsi
	je	70f
38:
	movq	24(%rsp), %rax
	cmpb	$1, 104(%rax)
	jne	69f
	movq	24(%rax), %r13
	movq	112(%rax), %rsi
	movabsq	$-6148914691236517205, %rdx
	movq	%r13, %rax
	mulq	%rdx
	movq	%rdx, %rax
	movq	208(%rsp), %rdx
	shrq	$2, %rax
	shrq	$4, %r13
	addq	%rax, %r13
	movq	288(%rsp), %rax
	xorl	%r8d, %r8d
	subq	336(%rsi), %rax
	cmovaeq	%rax, %r8
	cmpq	%r8, %r13
	setbe	%al
	jmp	70f
39:
	xorl	%eax, %eax
40:
	leaq	272(%rsp), %rcx
	movq	%rcx, 8(%rsp)
	movl	$1, (%rsp)
	movzbl	%al, %ecx
	leaq	64(%rsp), %rdi
	movq	208(%rsp), %r8
	movq	%r13, %r9
	callq	"mime_lookup::read_back::name_types::types_of"
	movzbl	64(%rsp), %edx
	movzbl	72(%rsp), %ecx
	movzwl	74(%rsp), %r13d
	movzwl	76(%rsp), %ebp
	movq	80(%rsp), %r14
	movq	88(%rsp), %r10
	movq	112(%rsp), %rax
	jmp	170f
41:
	xorl	%eax, %eax
42:
	leaq	272(%rsp), %rcx
	movq	%rcx, 8(%rsp)
	movl	$0, (%rsp)
	movzbl	%al, %ecx
	leaq	64(%rsp), %rdi
	movq	208(%rsp), %r8
	movq	%r13, %r9
	callq	"mime_lookup::read_back::name_types::types_of"
	movzbl	64(%rsp), %eax
	movzbl	72(%rsp), %ecx
	movzwl	74(%rsp), %r13d
	movzwl	76(%rsp), %ebp
	movq	80(%rsp), %r14
	movq	88(%rsp), %r10
	jmp	176f
43:
	movq	$1, 176(%rsp)
	leaq	.L67248b46a1a0(%rip), %rax
	movq	%rax, 184(%rsp)
	movq	$24, 192(%rsp)
	leaq	400(%rsp), %rdi
	leaq	176(%rsp), %r8
	leaq	224(%rsp), %r9
	movq	%r15, %rsi
	movq	%r10, %rcx
	callq	"mime_lookup::cached::by_content::by_globs"
	movzwl	408(%rsp), %r8d
	movzwl	410(%rsp), %r12d
	movzwl	412(%rsp), %ebp
	movq	416(%rsp), %r9
	cmpb	$0, 400(%rsp)
	jne	46f
	movzwl	414(%rsp), %r13d
	jmp	89f
44:
	movq	%r13, 64(%rsp)
	leaq	72(%rsp), %rdx
	movq	%rdi, 72(%rsp)
	movdqu	%xmm1, 80(%rsp)
	testq	%r13, %r13
	movq	%rdi, %r14
	cmovneq	%rdi, %rdx
	movq	%xmm1, %rax
	movl	$1, %ecx
	cmovneq	%rax, %rcx
	movq	$1, 352(%rsp)
	leaq	.L67248b46a1a0(%rip), %rax
	movq	%rax, 360(%rsp)
	movq	$24, 368(%rsp)
	leaq	464(%rsp), %rdi
	leaq	352(%rsp), %r8
	leaq	224(%rsp), %r9
	movq	%r15, %rsi
	movdqa	%xmm1, 208(%rsp)
	callq	"mime_lookup::cached::by_content::choose"
	movzwl	472(%rsp), %r8d
	movzwl	474(%rsp), %r12d
	movzwl	476(%rsp), %ebp
	movq	480(%rsp), %r9
	cmpq	$1, %r13
	setne	%cl
	movdqa	208(%rsp), %xmm0
	pextrq	$1, %xmm0, %rax
	testq	%rax, %rax
	sete	%al
	orb	%cl, %al
	cmpb	$0, 464(%rsp)
	je	86f
	testb	%al, %al
	jne	46f
	movq	%r14, %rdi
45:
	movq	%r8, %r14
	movq	%r9, %r15
	callq	rattle_dealloc@PLT
	movq	%r15, %r9
	movq	%r14, %r8
46:
	movzwl	%bp, %eax
	shlq	$32, %rax
	shll	$16, %r12d
	orq	%rax, %r12
	movzwl	%r8w, %edx
	orq	%r12, %rdx
	movdqa	224(%rsp), %xmm0
	cmpb	$7, %dl
	je	27b
47:
	movzbl	%dl, %r12d
	leaq	214f(%rip), %rax
	movslq	(%rax,%r12,4), %rcx
	addq	%rax, %rcx
	jmpq	*%rcx
48:
	movl	$5, %ecx
	jmp	33b
49:
	movzbl	%cl, %r8d
	movq	344(%rsp), %rdx
	movq	%r8, 176(%rsp)
	movq	%r9, 184(%rsp)
	movdqu	328(%rsp), %xmm0
	movdqu	%xmm0, 192(%rsp)
	testb	%r8b, %r8b
	movq	192(%rsp), %r12
	movl	$1, %r13d
	cmovneq	%r12, %r13
	testq	%r13, %r13
	je	95f
	movq	%rdx, 136(%rsp)
	movq	%rbx, 32(%rsp)
	movq	%r15, 24(%rsp)
	movl	$8, %r15d
	movq	%r9, %rax
	movq	%r14, %rsi
	movq	%rcx, 48(%rsp)
	jmp	51f
50:
	movq	%rbp, 184(%rsp)
	movq	%r12, 192(%rsp)
	movq	%rbp, %rax
	addq	$16, %r15
	decq	%r13
	je	53f
51:
	testb	%cl, %cl
	movq	%rax, 40(%rsp)
	leaq	184(%rsp), %rcx
	cmoveq	%rcx, %rax
	movq	-8(%rax,%r15), %rbp
	movq	(%rax,%r15), %r12
	pxor	%xmm0, %xmm0
	movdqa	%xmm0, 160(%rsp)
	movdqa	%xmm0, 144(%rsp)
	movq	24(%rsp), %rax
	movl	36(%rax), %edx
	leaq	144(%rsp), %rdi
	leaq	272(%rsp), %r9
	movq	%rsi, %rbx
	movq	%rbp, %rcx
	movq	%r12, %r8
	callq	"mime_view::pairs::look_up_pair"
	movzbl	152(%rsp), %r14d
	movq	160(%rsp), %r9
	cmpb	$0, 144(%rsp)
	jne	129f
	cmpb	$1, %r14b
	jne	52f
	movq	168(%rsp), %r12
	movq	%r9, %rbp
52:
	movq	48(%rsp), %rcx
	testb	%cl, %cl
	movq	%rbx, %rsi
	je	50b
	movq	40(%rsp), %rax
	movq	%rbp, -8(%rax,%r15)
	movq	%r12, (%rax,%r15)
	addq	$16, %r15
	decq	%r13
	jne	51b
53:
	movzbl	176(%rsp), %ecx
	movq	184(%rsp), %rdi
	movzbl	%cl, %r8d
	movq	192(%rsp), %r12
	movq	%rdi, %r9
	movq	24(%rsp), %r15
	movq	32(%rsp), %rbx
	movq	136(%rsp), %rdx
	jmp	96f
54:
	movq	%r13, 128(%rsp)
	movzbl	%r9b, %edx
	movq	344(%rsp), %rax
	movq	%rax, 136(%rsp)
	movq	%rdx, 144(%rsp)
	movq	%r8, 152(%rsp)
	movdqu	328(%rsp), %xmm0
	movdqu	%xmm0, 160(%rsp)
	testb	%dl, %dl
	movq	160(%rsp), %rsi
	movl	$1, %r13d
	cmovneq	%rsi, %r13
	testq	%r13, %r13
	je	103f
	movq	%rbx, 32(%rsp)
	movq	%r15, 24(%rsp)
	movl	$8, %r15d
	movq	%r8, %rax
	movq	%r14, %rsi
	movq	%r9, 48(%rsp)
	jmp	56f
55:
	movq	%rbp, 152(%rsp)
	movq	%r12, 160(%rsp)
	movq	%rbp, %rax
	addq	$16, %r15
	decq	%r13
	je	58f
56:
	testb	%r9b, %r9b
	movq	%rax, 40(%rsp)
	leaq	152(%rsp), %rcx
	cmoveq	%rcx, %rax
	movq	-8(%rax,%r15), %rbp
	movq	(%rax,%r15), %r12
	pxor	%xmm0, %xmm0
	movdqa	%xmm0, 368(%rsp)
	movdqa	%xmm0, 352(%rsp)
	movq	24(%rsp), %rax
	movl	36(%rax), %edx
	leaq	352(%rsp), %rdi
	leaq	224(%rsp), %r9
	movq	%rsi, %rbx
	movq	%rbp, %rcx
	movq	%r12, %r8
	callq	"mime_view::pairs::look_up_pair"
	movzbl	360(%rsp), %r14d
	movq	368(%rsp), %r8
	cmpb	$0, 352(%rsp)
	jne	130f
	cmpb	$1, %r14b
	jne	57f
	movq	376(%rsp), %r12
	movq	%r8, %rbp
57:
	movq	48(%rsp), %r9
	testb	%r9b, %r9b
	movq	%rbx, %rsi
	je	55b
	movq	40(%rsp), %rax
	movq	%rbp, -8(%rax,%r15)
	movq	%r12, (%rax,%r15)
	addq	$16, %r15
	decq	%r13
	jne	56b
58:
	movzbl	144(%rsp), %r9d
	movq	152(%rsp), %rdi
	movzbl	%r9b, %edx
	movq	160(%rsp), %rsi
	movq	%rdi, %r8
	movq	24(%rsp), %r15
	movq	32(%rsp), %rbx
	jmp	104f
59:
	movzbl	%cl, %r8d
	movq	344(%rsp), %rdx
	movq	%r8, 176(%rsp)
	movq	%r9, 184(%rsp)
	movdqu	328(%rsp), %xmm0
	movdqu	%xmm0, 192(%rsp)
	testb	%r8b, %r8b
	movq	192(%rsp), %r12
	movl	$1, %ebp
	cmovneq	%r12, %rbp
	testq	%rbp, %rbp
	je	111f
	movq	%rdx, 136(%rsp)
	movq	%rbx, 32(%rsp)
	movq	%r15, 24(%rsp)
	movl	$8, %r15d
	movq	%r9, %rax
	movq	%r14, %rsi
	movq	%rcx, 48(%rsp)
	jmp	61f
60:
	movq	%r13, 184(%rsp)
	movq	%r12, 192(%rsp)
	movq	%r13, %rax
	addq	$16, %r15
	decq	%rbp
	je	63f
61:
	testb	%cl, %cl
	movq	%rax, 40(%rsp)
	leaq	184(%rsp), %rcx
	cmoveq	%rcx, %rax
	movq	-8(%rax,%r15), %r13
	movq	(%rax,%r15), %r12
	pxor	%xmm0, %xmm0
	movdqa	%xmm0, 160(%rsp)
	movdqa	%xmm0, 144(%rsp)
	movq	24(%rsp), %rax
	movl	36(%rax), %edx
	leaq	144(%rsp), %rdi
	leaq	272(%rsp), %r9
	movq	%rsi, %rbx
	movq	%r13, %rcx
	movq	%r12, %r8
	callq	"mime_view::pairs::look_up_pair"
	movzbl	152(%rsp), %r14d
	movq	160(%rsp), %r9
	cmpb	$0, 144(%rsp)
	jne	131f
	cmpb	$1, %r14b
	jne	62f
	movq	168(%rsp), %r12
	movq	%r9, %r13
62:
	movq	48(%rsp), %rcx
	testb	%cl, %cl
	movq	%rbx, %rsi
	je	60b
	movq	40(%rsp), %rax
	movq	%r13, -8(%rax,%r15)
	movq	%r12, (%rax,%r15)
	addq	$16, %r15
	decq	%rbp
	jne	61b
63:
	movzbl	176(%rsp), %ecx
	movq	184(%rsp), %rdi
	movzbl	%cl, %r8d
	movq	192(%rsp), %r12
	movq	%rdi, %r9
	movq	24(%rsp), %r15
	movq	32(%rsp), %rbx
	movq	136(%rsp), %rdx
	jmp	112f
64:
	movzbl	%r9b, %edx
	movq	344(%rsp), %rax
	movq	%rax, 136(%rsp)
	movq	%rdx, 144(%rsp)
	movq	%r8, 152(%rsp)
	movdqu	328(%rsp), %xmm0
	movdqu	%xmm0, 160(%rsp)
	testb	%dl, %dl
	movq	160(%rsp), %rsi
	movl	$1, %ebp
	cmovneq	%rsi, %rbp
	testq	%rbp, %rbp
	movq	%r13, 128(%rsp)
	je	119f
	movq	%rbx, 32(%rsp)
	movq	%r15, 24(%rsp)
	movl	$8, %r15d
	movq	%r8, %rax
	movq	%r14, %rsi
	movq	%r9, 48(%rsp)
	jmp	66f
65:
	movq	%r13, 152(%rsp)
	movq	%r12, 160(%rsp)
	movq	%r13, %rax
	addq	$16, %r15
	decq	%rbp
	je	68f
66:
	testb	%r9b, %r9b
	movq	%rax, 40(%rsp)
	leaq	152(%rsp), %rcx
	cmoveq	%rcx, %rax
	movq	-8(%rax,%r15), %r13
	movq	(%rax,%r15), %r12
	pxor	%xmm0, %xmm0
	movdqa	%xmm0, 368(%rsp)
	movdqa	%xmm0, 352(%rsp)
	movq	24(%rsp), %rax
	movl	36(%rax), %edx
	leaq	352(%rsp), %rdi
	leaq	224(%rsp), %r9
	movq	%rsi, %rbx
	movq	%r13, %rcx
	movq	%r12, %r8
	callq	"mime_view::pairs::look_up_pair"
	movzbl	360(%rsp), %r14d
	movq	368(%rsp), %r8
	cmpb	$0, 352(%rsp)
	jne	132f
	cmpb	$1, %r14b
	jne	67f
	movq	376(%rsp), %r12
	movq	%r8, %r13
67:
	movq	48(%rsp), %r9
	testb	%r9b, %r9b
	movq	%rbx, %rsi
	je	65b
	movq	40(%rsp), %rax
	movq	%r13, -8(%rax,%r15)
	movq	%r12, (%rax,%r15)
	addq	$16, %r15
	decq	%rbp
	jne	66b
68:
	movzbl	144(%rsp), %r9d
	movq	152(%rsp), %rdi
	movzbl	%r9b, %edx
	movq	160(%rsp), %rsi
	movq	%rdi, %r8
	movq	24(%rsp), %r15
	movq	128(%rsp), %r13
	movq	32(%rsp), %rbx
	jmp	120f
69:
	xorl	%eax, %eax
70:
	movdqa	%xmm0, 64(%rsp)
	movdqa	%xmm0, 80(%rsp)
	movq	$0, 96(%rsp)
	movdqa	%xmm0, 304(%rsp)
	movdqa	%xmm0, 320(%rsp)
	testb	%r10b, %r10b
	movb	%r10b, 136(%rsp)
	movq	%r14, 624(%rsp)
	movq	%r11, 632(%rsp)
	je	72f
	movq	24(%rsp), %rcx
	cmpb	$1, 88(%rcx)
	jne	71f
	testb	%al, %al
	je	71f
	movq	24(%rcx), %rax
	shrq	$4, %rax
	cmpq	288(%rsp), %rax
	jbe	135f
71:
	leaq	16(%rcx), %rsi
	movq	%r15, 760(%rsp)
	movq	%rdi, 768(%rsp)
	movq	%r9, 776(%rsp)
	leaq	64(%rsp), %rdi
	leaq	760(%rsp), %rdx
	leaq	272(%rsp), %r8
	xorl	%ecx, %ecx
	callq	"mime_lookup::cached::sniff::sniff_front"
	movzbl	72(%rsp), %esi
	cmpb	$0, 64(%rsp)
	movq	80(%rsp), %r10
	je	73f
	movzwl	74(%rsp), %r13d
	movzwl	76(%rsp), %edx
	movzbl	%sil, %esi
	cmpb	$2, %r12b
	movdqa	48(%rsp), %xmm0
	je	144f
	movzbl	%r12b, %eax
	cmpl	$1, %eax
	jne	127f
	cmpl	$1, %ebp
	movq	40(%rsp), %rdi
	je	128f
	jmp	144f
72:
	movb	$1, %sil
	xorl	%eax, %eax
	leaq	.L67248b46a1a0(%rip), %r10
	movl	$24, %r9d
	jmp	137f
73:
	movl	96(%rsp), %eax
	jmp	136f
74:
	movl	$9, %ecx
	jmp	77f
75:
	movl	$7, %ecx
	jmp	82f
76:
	movl	$8, %ecx
77:
	xorl	%edx, %edx
	xorl	%esi, %esi
	movq	%r9, %r12
	jmp	84f
78:
	movl	$2, %ecx
	jmp	82f
79:
	movq	%rdx, %rsi
	shrq	$32, %rsi
	shrl	$16, %edx
	movl	$6, %ecx
	jmp	83f
80:
	movl	$10, %ecx
	jmp	82f
81:
	movl	$11, %ecx
82:
	xorl	%edx, %edx
	xorl	%esi, %esi
83:
	xorl	%r12d, %r12d
84:
	pxor	%xmm1, %xmm1
	movdqa	%xmm1, 64(%rsp)
	movq	$0, 80(%rsp)
	jmp	94f
85:
	movzwl	446(%rsp), %r13d
	testb	%al, %al
	jne	88f
	movq	40(%rsp), %rdi
	jmp	87f
86:
	movzwl	478(%rsp), %r13d
	testb	%al, %al
	jne	88f
	movq	%r14, %rdi
87:
	movq	%r8, 32(%rsp)
	movq	%r9, %r14
	callq	rattle_dealloc@PLT
	movq	%r14, %r9
	movq	32(%rsp), %r8
88:
	movq	24(%rsp), %r14
89:
	movzwl	%r8w, %eax
	shrl	$8, %eax
90:
	shll	$8, %eax
	movzbl	%r8b, %ecx
	orl	%eax, %ecx
	movzwl	%r13w, %eax
	shlq	$48, %rax
	movzwl	%bp, %edx
	shlq	$32, %rdx
	orq	%rax, %rdx
	shll	$16, %r12d
	orq	%rdx, %r12
	movzwl	%cx, %eax
	orq	%r12, %rax
	movzbl	136(%r15), %edx
	xorl	%ecx, %ecx
	cmpq	$1, %rdx
	jne	91f
	movq	144(%r15), %rdi
	xorl	%esi, %esi
	subq	224(%rsp), %rdi
	cmovaeq	%rdi, %rsi
	jmp	92f
91:
	xorl	%esi, %esi
92:
	movq	880(%rsp), %rdi
	movdqa	224(%rsp), %xmm0
	movq	%rdx, 136(%r15)
	movq	%rsi, 144(%r15)
	movq	%rax, (%rdi)
	movq	%r9, 8(%rdi)
	movq	%r14, 16(%rdi)
	pxor	%xmm1, %xmm1
	movdqu	%xmm1, 24(%rdi)
	movq	$0, 40(%rdi)
	movdqa	%xmm1, 64(%rsp)
	movq	$0, 80(%rsp)
93:
	xorl	%edx, %edx
	xorl	%esi, %esi
	xorl	%r12d, %r12d
94:
	movq	80(%rsp), %rax
	movq	%rax, 688(%rsp)
	movaps	64(%rsp), %xmm1
	movaps	%xmm1, 672(%rsp)
	xorl	%eax, %eax
	jmp	190f
95:
	movq	%r9, %rdi
96:
	testb	%cl, %cl
	je	156f
	movq	200(%rsp), %r13
	testq	%r12, %r12
	je	168f
	movq	%r12, %rax
	decq	%rax
	je	154f
	movq	%r12, 32(%rsp)
	movq	%rdx, 136(%rsp)
	movq	%rcx, 48(%rsp)
	movq	%r9, 40(%rsp)
	movq	%r8, 24(%rsp)
	movq	(%rdi), %rcx
	movq	8(%rdi), %r12
	movq	280(%rsp), %rdx
	xorl	%esi, %esi
97:
	movq	%rsi, %r8
	shlq	$4, %r8
	movq	16(%rdi,%r8), %r10
	movq	24(%rdi,%r8), %r8
	cmpq	%r12, %r8
	movq	%r12, %r9
	cmovbq	%r8, %r9
	xorl	%r11d, %r11d
	.p2align	4
98:
	movq	%r9, %r14
	subq	%r11, %r14
	cmpq	$8, %r14
	jb	99f
	pmovzxbw	(%rcx,%r11), %xmm0
	pmovzxbw	(%r10,%r11), %xmm1
	pcmpeqw	%xmm0, %xmm1
	packsswb	%xmm1, %xmm1
	pmovmskb	%xmm1, %ebp
	notl	%ebp
	orl	$256, %ebp
	rep		bsfl	%ebp, %r14d
	addq	%r14, %r11
	cmpb	$7, %r14b
	ja	98b
99:
	cmpq	%r9, %r11
	jae	102f
100:
	movzbl	(%rcx,%r11), %ebp
	cmpb	(%r10,%r11), %bpl
	jne	101f
	incq	%r11
	cmpq	%r11, %r9
	jne	100b
	jmp	102f
101:
	movq	%r11, %r9
102:
	leaq	1(%r9), %r10
	movq	%rdx, %r11
	addq	%r10, %r11
	movq	$-1, %rdx
	cmovaeq	%r11, %rdx
	cmpq	%r12, %r9
	jne	167f
	cmpq	%r8, %r9
	jne	167f
	incq	%rsi
	cmpq	%rax, %rsi
	jne	97b
	movq	%rdx, 280(%rsp)
	movq	%rcx, %r9
	movq	48(%rsp), %rcx
	jmp	155f
103:
	movq	%r8, %rdi
104:
	testb	%r9b, %r9b
	je	133f
	movq	168(%rsp), %r13
	testq	%rsi, %rsi
	je	172f
	movq	%rsi, %rax
	decq	%rax
	je	157f
	movq	%rsi, 24(%rsp)
	movq	%r9, 48(%rsp)
	movq	%rdx, 32(%rsp)
	movq	%r8, 40(%rsp)
	movq	(%rdi), %rcx
	movq	8(%rdi), %r12
	movq	232(%rsp), %rdx
	xorl	%esi, %esi
105:
	movq	%rsi, %r8
	shlq	$4, %r8
	movq	16(%rdi,%r8), %r10
	movq	24(%rdi,%r8), %r8
	cmpq	%r12, %r8
	movq	%r12, %r9
	cmovbq	%r8, %r9
	xorl	%r11d, %r11d
	.p2align	4
106:
	movq	%r9, %r14
	subq	%r11, %r14
	cmpq	$8, %r14
	jb	107f
	pmovzxbw	(%rcx,%r11), %xmm0
	pmovzxbw	(%r10,%r11), %xmm1
	pcmpeqw	%xmm0, %xmm1
	packsswb	%xmm1, %xmm1
	pmovmskb	%xmm1, %ebp
	notl	%ebp
	orl	$256, %ebp
	rep		bsfl	%ebp, %r14d
	addq	%r14, %r11
	cmpb	$7, %r14b
	ja	106b
107:
	cmpq	%r9, %r11
	jae	110f
108:
	movzbl	(%rcx,%r11), %ebp
	cmpb	(%r10,%r11), %bpl
	jne	109f
	incq	%r11
	cmpq	%r11, %r9
	jne	108b
	jmp	110f
109:
	movq	%r11, %r9
110:
	leaq	1(%r9), %r10
	movq	%rdx, %r11
	addq	%r10, %r11
	movq	$-1, %rdx
	cmovaeq	%r11, %rdx
	cmpq	%r12, %r9
	jne	171f
	cmpq	%r8, %r9
	jne	171f
	incq	%rsi
	cmpq	%rax, %rsi
	jne	105b
	movq	%rdx, 232(%rsp)
	movq	%rcx, %r8
	movq	48(%rsp), %r9
	jmp	158f
111:
	movq	%r9, %rdi
112:
	testb	%cl, %cl
	je	162f
	movq	200(%rsp), %r13
	testq	%r12, %r12
	je	174f
	movq	%r12, %rax
	decq	%rax
	je	160f
	movq	%r12, 32(%rsp)
	movq	%rdx, 136(%rsp)
	movq	%rcx, 48(%rsp)
	movq	%r9, 40(%rsp)
	movq	%r8, 24(%rsp)
	movq	(%rdi), %rcx
	movq	8(%rdi), %r12
	movq	280(%rsp), %rdx
	xorl	%esi, %esi
113:
	movq	%rsi, %r8
	shlq	$4, %r8
	movq	16(%rdi,%r8), %r10
	movq	24(%rdi,%r8), %r8
	cmpq	%r12, %r8
	movq	%r12, %r9
	cmovbq	%r8, %r9
	xorl	%r11d, %r11d
	.p2align	4
114:
	movq	%r9, %r14
	subq	%r11, %r14
	cmpq	$8, %r14
	jb	115f
	pmovzxbw	(%rcx,%r11), %xmm0
	pmovzxbw	(%r10,%r11), %xmm1
	pcmpeqw	%xmm0, %xmm1
	packsswb	%xmm1, %xmm1
	pmovmskb	%xmm1, %ebp
	notl	%ebp
	orl	$256, %ebp
	rep		bsfl	%ebp, %r14d
	addq	%r14, %r11
	cmpb	$7, %r14b
	ja	114b
115:
	cmpq	%r9, %r11
	jae	118f
116:
	movzbl	(%rcx,%r11), %ebp
	cmpb	(%r10,%r11), %bpl
	jne	117f
	incq	%r11
	cmpq	%r11, %r9
	jne	116b
	jmp	118f
117:
	movq	%r11, %r9
118:
	leaq	1(%r9), %r10
	movq	%rdx, %r11
	addq	%r10, %r11
	movq	$-1, %rdx
	cmovaeq	%r11, %rdx
	cmpq	%r12, %r9
	jne	173f
	cmpq	%r8, %r9
	jne	173f
	incq	%rsi
	cmpq	%rax, %rsi
	jne	113b
	movq	%rdx, 280(%rsp)
	movq	%rcx, %r9
	movq	48(%rsp), %rcx
	jmp	161f
119:
	movq	%r8, %rdi
120:
	testb	%r9b, %r9b
	je	134f
	movq	168(%rsp), %r13
	testq	%rsi, %rsi
	je	203f
	movq	%rsi, %rax
	decq	%rax
	je	163f
	movq	%rsi, 24(%rsp)
	movq	%r9, 48(%rsp)
	movq	%rdx, 32(%rsp)
	movq	%r8, 40(%rsp)
	movq	(%rdi), %rcx
	movq	8(%rdi), %r12
	movq	232(%rsp), %rdx
	xorl	%esi, %esi
121:
	movq	%rsi, %r8
	shlq	$4, %r8
	movq	16(%rdi,%r8), %r10
	movq	24(%rdi,%r8), %r8
	cmpq	%r12, %r8
	movq	%r12, %r9
	cmovbq	%r8, %r9
	xorl	%r11d, %r11d
	.p2align	4
122:
	movq	%r9, %r14
	subq	%r11, %r14
	cmpq	$8, %r14
	jb	123f
	pmovzxbw	(%rcx,%r11), %xmm0
	pmovzxbw	(%r10,%r11), %xmm1
	pcmpeqw	%xmm0, %xmm1
	packsswb	%xmm1, %xmm1
	pmovmskb	%xmm1, %ebp
	notl	%ebp
	orl	$256, %ebp
	rep		bsfl	%ebp, %r14d
	addq	%r14, %r11
	cmpb	$7, %r14b
	ja	122b
123:
	cmpq	%r9, %r11
	jae	126f
124:
	movzbl	(%rcx,%r11), %ebp
	cmpb	(%r10,%r11), %bpl
	jne	125f
	incq	%r11
	cmpq	%r11, %r9
	jne	124b
	jmp	126f
125:
	movq	%r11, %r9
126:
	leaq	1(%r9), %r10
	movq	%rdx, %r11
	addq	%r10, %r11
	movq	$-1, %rdx
	cmovaeq	%r11, %rdx
	cmpq	%r12, %r9
	jne	202f
	cmpq	%r8, %r9
	jne	202f
	incq	%rsi
	cmpq	%rax, %rsi
	jne	121b
	movq	%rdx, 232(%rsp)
	movq	%rcx, %r8
	movq	48(%rsp), %r9
	jmp	164f
127:
	movq	40(%rsp), %rdi
	cmpl	$1, %ebp
	jne	144f
128:
	pextrq	$1, %xmm0, %rax
	testq	%rax, %rax
	jne	140f
	jmp	144f
129:
	movd	154(%rsp), %xmm1
	cmpb	$1, 48(%rsp)
	jne	206f
	cmpq	$0, 200(%rsp)
	movq	24(%rsp), %r15
	movq	32(%rsp), %rbx
	je	204f
	movq	184(%rsp), %rdi
	movq	%r9, %r12
	movdqa	%xmm1, 48(%rsp)
	callq	rattle_dealloc@PLT
	movdqa	48(%rsp), %xmm1
	movq	%r12, %r9
	movl	%r14d, %ecx
	jmp	17b
130:
	movd	362(%rsp), %xmm1
	cmpb	$1, 48(%rsp)
	jne	207f
	cmpq	$0, 168(%rsp)
	movq	24(%rsp), %r15
	movq	128(%rsp), %r13
	movq	32(%rsp), %rbx
	je	205f
	movq	152(%rsp), %rdi
	movq	%r8, %r12
	movdqa	%xmm1, 48(%rsp)
	callq	rattle_dealloc@PLT
	movdqa	48(%rsp), %xmm1
	movq	%r12, %r8
	movl	%r14d, %r9d
	jmp	19b
131:
	movd	154(%rsp), %xmm1
	cmpb	$1, 48(%rsp)
	jne	210f
	cmpq	$0, 200(%rsp)
	movq	24(%rsp), %r15
	movq	32(%rsp), %rbx
	je	208f
	movq	184(%rsp), %rdi
	movq	%r9, %r12
	movdqa	%xmm1, 48(%rsp)
	callq	rattle_dealloc@PLT
	movdqa	48(%rsp), %xmm1
	movq	%r12, %r9
	movl	%r14d, %ecx
	jmp	22b
132:
	movd	362(%rsp), %xmm1
	cmpb	$1, 48(%rsp)
	movq	128(%rsp), %r13
	jne	211f
	cmpq	$0, 168(%rsp)
	movq	24(%rsp), %r15
	movq	32(%rsp), %rbx
	je	209f
	movq	152(%rsp), %rdi
	movq	%r8, %r12
	movdqa	%xmm1, 48(%rsp)
	callq	rattle_dealloc@PLT
	movdqa	48(%rsp), %xmm1
	movq	%r12, %r8
	movl	%r14d, %r9d
	jmp	24b
133:
	movq	%rsi, %r12
	jmp	159f
134:
	movq	%rsi, %r12
	jmp	166f
135:
	movq	96(%rcx), %rsi
	movq	%r15, 784(%rsp)
	movq	%rdi, 792(%rsp)
	movq	%r9, 800(%rsp)
	leaq	304(%rsp), %rdi
	leaq	784(%rsp), %rdx
	xorl	%ecx, %ecx
	callq	"mime_lookup::cached::sniff::sniff_indexed"
	movzbl	304(%rsp), %esi
	movdqu	312(%rsp), %xmm0
	movdqa	%xmm0, 80(%rsp)
	movl	328(%rsp), %eax
	movq	80(%rsp), %r10
136:
	movq	88(%rsp), %r9
	movq	208(%rsp), %rdx
	movdqa	48(%rsp), %xmm1
	movq	128(%rsp), %rcx
137:
	movzbl	%sil, %edi
	testb	%r12b, %r12b
	movq	24(%rsp), %rsi
	je	138f
	movzbl	%r12b, %r8d
	cmpl	$1, %r8d
	jne	141f
	movq	%rbp, 176(%rsp)
	leaq	184(%rsp), %rdx
	movq	40(%rsp), %rcx
	movq	%rcx, 184(%rsp)
	testq	%rbp, %rbp
	cmovneq	%rcx, %rdx
	movq	%xmm1, %rcx
	movl	$1, %r8d
	cmovneq	%rcx, %r8
	movdqa	%xmm1, 192(%rsp)
	testq	%rdi, %rdi
	movq	32(%rsp), %rcx
	cmoveq	%r8, %rcx
	movq	%rdi, 464(%rsp)
	movq	%r10, 472(%rsp)
	movq	%r9, 480(%rsp)
	movl	%eax, 488(%rsp)
	leaq	560(%rsp), %rdi
	leaq	464(%rsp), %r8
	leaq	272(%rsp), %r9
	movdqa	%xmm1, 48(%rsp)
	callq	"mime_lookup::cached::by_content::choose"
	movzwl	568(%rsp), %esi
	movzwl	570(%rsp), %r13d
	movzwl	572(%rsp), %edx
	movq	576(%rsp), %r10
	cmpq	$1, %rbp
	setne	%cl
	movdqa	48(%rsp), %xmm0
	pextrq	$1, %xmm0, %rax
	testq	%rax, %rax
	sete	%al
	orb	%cl, %al
	cmpb	$0, 560(%rsp)
	jne	139f
	movzwl	574(%rsp), %r15d
	jmp	151f
138:
	movq	%rbp, 144(%rsp)
	leaq	152(%rsp), %rdx
	movq	40(%rsp), %rcx
	movq	%rcx, 152(%rsp)
	movdqa	%xmm1, 160(%rsp)
	testq	%rbp, %rbp
	cmovneq	%rcx, %rdx
	movq	%xmm1, %r8
	movl	$1, %ecx
	cmovneq	%r8, %rcx
	movq	%rdi, 224(%rsp)
	movq	%r10, 232(%rsp)
	movq	%r9, 240(%rsp)
	movl	%eax, 248(%rsp)
	leaq	592(%rsp), %rdi
	leaq	224(%rsp), %r8
	leaq	272(%rsp), %r9
	movdqa	%xmm1, 48(%rsp)
	callq	"mime_lookup::cached::by_content::choose"
	movzwl	600(%rsp), %esi
	movzwl	602(%rsp), %r13d
	movzwl	604(%rsp), %edx
	movq	608(%rsp), %r10
	cmpq	$1, %rbp
	setne	%cl
	movdqa	48(%rsp), %xmm0
	pextrq	$1, %xmm0, %rax
	testq	%rax, %rax
	sete	%al
	orb	%cl, %al
	cmpb	$0, 592(%rsp)
	je	150f
139:
	movzbl	%sil, %esi
	testb	%al, %al
	jne	144f
	movq	40(%rsp), %rdi
140:
	movq	%r10, %r14
	movq	%rdx, %r15
	movl	%esi, %ebp
	callq	rattle_dealloc@PLT
	movl	%ebp, %esi
	movq	%r15, %rdx
	movq	%r14, %r10
	jmp	144f
141:
	testq	%rdi, %rdi
	jne	142f
	cmpl	$80, %eax
	jb	142f
	movq	%rdi, 432(%rsp)
	movq	%r10, 440(%rsp)
	movq	%r9, 448(%rsp)
	movl	%eax, 456(%rsp)
	leaq	528(%rsp), %rdi
	leaq	432(%rsp), %rdx
	leaq	272(%rsp), %rcx
	callq	"mime_lookup::cached::sniff::unalias"
	movzwl	536(%rsp), %esi
	movzwl	538(%rsp), %r13d
	movzwl	540(%rsp), %edx
	movq	544(%rsp), %r10
	cmpb	$0, 528(%rsp)
	jne	143f
	movzwl	542(%rsp), %r15d
	jmp	153f
142:
	movq	%rdi, 400(%rsp)
	movq	%r10, 408(%rsp)
	movq	%r9, 416(%rsp)
	movl	%eax, 424(%rsp)
	leaq	496(%rsp), %rdi
	leaq	400(%rsp), %r8
	leaq	272(%rsp), %r9
	callq	"mime_lookup::cached::by_content::by_globs"
	movzwl	504(%rsp), %esi
	movzwl	506(%rsp), %r13d
	movzwl	508(%rsp), %edx
	movq	512(%rsp), %r10
	cmpb	$0, 496(%rsp)
	je	152f
143:
	movzbl	%sil, %esi
144:
	cmpw	$7, %si
	jne	145f
	movb	$3, %r15b
	xorl	%r10d, %r10d
	xorl	%esi, %esi
	xorl	%r13d, %r13d
	xorl	%edx, %edx
	jmp	146f
145:
	movb	$1, %r15b
146:
	movq	%rdx, %rbp
	movq	%r10, %r14
	cmpb	$1, 136(%rsp)
	setne	%al
	cmpq	$0, 632(%rsp)
	sete	%cl
	orb	%al, %cl
	je	148f
	movl	%r15d, %r10d
147:
	movdqa	272(%rsp), %xmm0
	movq	264(%rsp), %rax
	movzbl	%r10b, %ecx
	leaq	215f(%rip), %rdx
	movslq	(%rdx,%rcx,4), %rcx
	addq	%rdx, %rcx
	jmpq	*%rcx
148:
	movq	624(%rsp), %rdi
	movl	%esi, %r12d
	callq	rattle_dealloc@PLT
	movl	%r12d, %esi
	movdqa	272(%rsp), %xmm0
	movq	264(%rsp), %rax
	movzbl	%r15b, %ecx
	leaq	215f(%rip), %rdx
	movslq	(%rdx,%rcx,4), %rcx
	addq	%rdx, %rcx
	jmpq	*%rcx
149:
	movzwl	%si, %ecx
	movzbl	%cl, %r12d
	movl	$5, %ecx
	xorl	%edx, %edx
	leaq	216f(%rip), %rsi
	movslq	(%rsi,%r12,4), %rdi
	addq	%rsi, %rdi
	xorl	%esi, %esi
	jmpq	*%rdi
150:
	movzwl	606(%rsp), %r15d
151:
	testb	%al, %al
	jne	153f
	movq	40(%rsp), %rdi
	movq	%r10, %r12
	movq	%rdx, %r14
	movl	%esi, %ebp
	callq	rattle_dealloc@PLT
	movl	%ebp, %esi
	movq	%r14, %rdx
	movq	%r12, %r10
	jmp	153f
152:
	movzwl	510(%rsp), %r15d
153:
	cmpb	$1, 136(%rsp)
	setne	%al
	movl	%esi, %r12d
	shrl	$8, %r12d
	cmpq	$0, 632(%rsp)
	sete	%cl
	orb	%al, %cl
	jne	183f
	movq	624(%rsp), %rdi
	movq	%r10, %r14
	movq	%rdx, %rbp
	movl	%esi, 208(%rsp)
	callq	rattle_dealloc@PLT
	movl	208(%rsp), %esi
	movq	%rbp, %rdx
	movq	%r14, %r10
	jmp	183f
154:
	movq	(%rdi), %r9
	movq	8(%rdi), %r12
155:
	cmpb	$1, %cl
	setne	%al
	testq	%r13, %r13
	sete	%cl
	orb	%al, %cl
	jne	156f
	movq	%r9, %r14
	callq	rattle_dealloc@PLT
	movq	%r14, %r9
156:
	movq	%r9, %r14
	movq	$0, 70(%rsp)
	movq	$0, 64(%rsp)
	movq	%r9, 80(%rsp)
	movq	%r12, 88(%rsp)
	movdqa	224(%rsp), %xmm0
	movdqa	%xmm0, 96(%rsp)
	xorl	%eax, %eax
	movq	%r12, %r10
	xorl	%ebp, %ebp
	xorl	%r13d, %r13d
	xorl	%ecx, %ecx
	jmp	169f
157:
	movq	(%rdi), %r8
	movq	8(%rdi), %r12
158:
	cmpb	$1, %r9b
	setne	%al
	testq	%r13, %r13
	sete	%cl
	orb	%al, %cl
	jne	159f
	movq	%r8, %r14
	callq	rattle_dealloc@PLT
	movq	%r14, %r8
159:
	movq	128(%rsp), %r13
	movdqa	176(%rsp), %xmm0
	movdqa	%xmm0, 96(%rsp)
	pxor	%xmm1, %xmm1
	xorl	%ecx, %ecx
	movq	%r12, %rdi
	xorl	%r9d, %r9d
	xorl	%eax, %eax
	jmp	20b
160:
	movq	(%rdi), %r9
	movq	8(%rdi), %r12
161:
	cmpb	$1, %cl
	setne	%al
	testq	%r13, %r13
	sete	%cl
	orb	%al, %cl
	jne	162f
	movq	%r9, %r14
	callq	rattle_dealloc@PLT
	movq	%r14, %r9
162:
	movq	%r9, %r14
	movq	$0, 70(%rsp)
	movq	$0, 64(%rsp)
	movq	%r9, 80(%rsp)
	movq	%r12, 88(%rsp)
	movdqa	224(%rsp), %xmm0
	movdqa	%xmm0, 96(%rsp)
	xorl	%ebp, %ebp
	movq	%r12, %r10
	xorl	%r13d, %r13d
	xorl	%ecx, %ecx
	jmp	175f
163:
	movq	(%rdi), %r8
	movq	8(%rdi), %r12
164:
	cmpb	$1, %r9b
	setne	%al
	testq	%r13, %r13
	sete	%cl
	orb	%al, %cl
	jne	165f
	movq	%r8, %r14
	callq	rattle_dealloc@PLT
	movq	%r14, %r8
165:
	movq	128(%rsp), %r13
166:
	movdqa	176(%rsp), %xmm0
	movdqa	%xmm0, 96(%rsp)
	pxor	%xmm1, %xmm1
	xorl	%r9d, %r9d
	movq	%r12, %rdi
	xorl	%eax, %eax
	jmp	25b
167:
	movq	%rdx, 280(%rsp)
	movq	24(%rsp), %r8
	movq	40(%rsp), %r9
	movq	136(%rsp), %rdx
	movq	32(%rsp), %r12
168:
	leaq	272(%rsp), %rcx
	movq	%r12, %rbp
	movq	%r12, %rsi
	movq	%r8, %r14
	movq	%r9, %r12
	callq	"mime_lookup::cached::name_types::count_asked"
	movq	%r12, %r10
	movq	$0, 64(%rsp)
	movl	$1, 72(%rsp)
	movw	$0, 76(%rsp)
	movq	%r14, 80(%rsp)
	movq	%r12, 88(%rsp)
	movq	%rbp, 96(%rsp)
	movq	%r13, 104(%rsp)
	movb	$1, %cl
	xorl	%ebp, %ebp
	xorl	%r13d, %r13d
169:
	xorl	%edx, %edx
170:
	testb	%dl, %dl
	jne	177f
	testb	%cl, %cl
	je	182f
	movq	%rax, 32(%rsp)
	movq	%r10, 40(%rsp)
	movdqa	96(%rsp), %xmm0
	movdqa	%xmm0, 48(%rsp)
	movzbl	%r14b, %ebp
	movb	$1, %r12b
	xorl	%r13d, %r13d
	jmp	7b
171:
	movq	%rdx, 232(%rsp)
	movq	40(%rsp), %r8
	movq	32(%rsp), %rdx
	movq	24(%rsp), %rsi
172:
	leaq	224(%rsp), %rcx
	movq	%rdx, %r12
	movq	136(%rsp), %rdx
	movq	%r8, %r14
	movq	%rsi, %rbp
	callq	"mime_lookup::cached::name_types::count_asked"
	movq	%r12, %r8
	movq	%r14, %rdi
	movq	%rax, %rcx
	movq	%rbp, 96(%rsp)
	movq	%r13, 104(%rsp)
	pxor	%xmm1, %xmm1
	movb	$1, %r9b
	xorl	%eax, %eax
	movq	128(%rsp), %r13
	jmp	20b
173:
	movq	%rdx, 280(%rsp)
	movq	24(%rsp), %r8
	movq	40(%rsp), %r9
	movq	136(%rsp), %rdx
	movq	32(%rsp), %r12
174:
	leaq	272(%rsp), %rcx
	movq	%r12, %rbp
	movq	%r12, %rsi
	movq	%r8, %r14
	movq	%r9, %r12
	callq	"mime_lookup::cached::name_types::count_asked"
	movq	%r12, %r10
	movq	$0, 64(%rsp)
	movl	$1, 72(%rsp)
	movw	$0, 76(%rsp)
	movq	%r14, 80(%rsp)
	movq	%r12, 88(%rsp)
	movq	%rbp, 96(%rsp)
	movq	%r13, 104(%rsp)
	movb	$1, %cl
	xorl	%ebp, %ebp
	xorl	%r13d, %r13d
175:
	xorl	%eax, %eax
176:
	testb	%al, %al
	je	181f
177:
	cmpb	$7, %cl
	jne	179f
	movdqa	272(%rsp), %xmm0
	movq	264(%rsp), %rax
178:
	pxor	%xmm1, %xmm1
	movdqa	%xmm1, 64(%rsp)
	movq	$0, 80(%rsp)
	movl	$2, %ecx
	jmp	188f
179:
	movzbl	%cl, %ecx
	movdqa	272(%rsp), %xmm0
	movq	264(%rsp), %rax
	movzwl	%cx, %ecx
	movzbl	%cl, %r12d
	movl	$5, %ecx
	xorl	%edx, %edx
	leaq	216f(%rip), %rsi
	movslq	(%rsi,%r12,4), %rdi
	addq	%rsi, %rdi
	xorl	%esi, %esi
	jmpq	*%rdi
180:
	movl	$6, %ecx
	xorl	%r12d, %r12d
	movl	%r13d, %edx
	movl	%ebp, %esi
	jmp	201f
181:
	testb	%cl, %cl
	je	182f
	movq	%r10, 40(%rsp)
	movdqa	96(%rsp), %xmm0
	movdqa	%xmm0, 48(%rsp)
	movzbl	%r14b, %ebp
	xorl	%r13d, %r13d
	xorl	%r12d, %r12d
	jmp	6b
182:
	movq	%r15, 24(%rsp)
	movl	%r14d, %esi
	movl	%r14d, %r12d
	shrl	$8, %r12d
	movl	%r14d, %r13d
	shrl	$16, %r13d
	movq	%r14, %rdx
	shrq	$32, %rdx
	shrq	$48, %r14
	movl	%r14d, %r15d
183:
	movzwl	%r15w, %eax
	shlq	$48, %rax
	movzwl	%dx, %ecx
	shlq	$32, %rcx
	orq	%rax, %rcx
	shll	$16, %r13d
	orq	%rcx, %r13
	movzbl	%r12b, %ecx
	shll	$8, %ecx
	orq	%r13, %rcx
	movzbl	%sil, %esi
	movq	272(%rsp), %rdx
	movq	264(%rsp), %rax
	movq	24(%rsp), %r14
	movzbl	136(%r14), %edi
	cmpq	$1, %rdi
	jne	184f
	movq	144(%r14), %r9
	xorl	%r8d, %r8d
	subq	%rdx, %r9
	cmovaeq	%r9, %r8
	jmp	185f
184:
	xorl	%r8d, %r8d
185:
	movq	880(%rsp), %r9
	orq	%rsi, %rcx
	movdqa	272(%rsp), %xmm0
	movq	%rdi, 136(%r14)
	movq	%r8, 144(%r14)
	testq	%rax, %rax
	je	187f
	xorl	%esi, %esi
	subq	200(%r14), %rdx
	movzbl	152(%r14), %edi
	cmovbq	%rsi, %rdx
	cmpq	$1, %rdi
	jne	186f
	movq	160(%r14), %r8
	xorl	%esi, %esi
	subq	%rdx, %r8
	cmovaeq	%r8, %rsi
186:
	movq	%rdi, 152(%r14)
	movq	%rsi, 160(%r14)
187:
	movq	%rcx, (%r9)
	movq	%r10, 8(%r9)
	pxor	%xmm1, %xmm1
	movdqu	%xmm1, 16(%r9)
	movdqu	%xmm1, 32(%r9)
	movdqa	%xmm1, 64(%rsp)
	movq	$0, 80(%rsp)
	xorl	%ecx, %ecx
188:
	xorl	%edx, %edx
	xorl	%esi, %esi
	xorl	%r12d, %r12d
189:
	movq	80(%rsp), %rdi
	movq	%rdi, 688(%rsp)
	movaps	64(%rsp), %xmm1
	movaps	%xmm1, 672(%rsp)
190:
	movq	688(%rsp), %rdi
	movq	%rdi, 656(%rsp)
	movaps	672(%rsp), %xmm1
	movaps	%xmm1, 640(%rsp)
191:
	movaps	640(%rsp), %xmm1
	movaps	%xmm1, 704(%rsp)
	movq	656(%rsp), %rdi
	movq	%rdi, 720(%rsp)
192:
	movl	%ecx, (%rbx)
	movw	%dx, 4(%rbx)
	movw	%si, 6(%rbx)
	movq	%r12, 8(%rbx)
	movq	%rax, 16(%rbx)
	movdqu	%xmm0, 24(%rbx)
	movaps	704(%rsp), %xmm0
	movups	%xmm0, 40(%rbx)
	movq	720(%rsp), %rax
	movq	%rax, 56(%rbx)
	movq	%rbx, %rax
	addq	$808, %rsp
	popq	%rbx
	popq	%r12
	popq	%r13
	popq	%r14
	popq	%r15
	popq	%rbp
	retq
193:
	movl	$9, %ecx
	jmp	196f
194:
	movl	$7, %ecx
	jmp	200f
195:
	movl	$8, %ecx
196:
	xorl	%edx, %edx
	xorl	%esi, %esi
	movq	%r14, %r12
	jmp	201f
197:
	movl	$2, %ecx
	jmp	200f
198:
	movl	$10, %ecx
	jmp	200f
199:
	movl	$11, %ecx
200:
	xorl	%edx, %edx
	xorl	%esi, %esi
	xorl	%r12d, %r12d
201:
	pxor	%xmm1, %xmm1
	movdqa	%xmm1, 64(%rsp)
	movq	$0, 80(%rsp)
	jmp	189b
202:
	movq	%rdx, 232(%rsp)
	movq	40(%rsp), %r8
	movq	32(%rsp), %rdx
	movq	24(%rsp), %rsi
203:
	leaq	224(%rsp), %rcx
	movq	%rdx, %r12
	movq	%rsi, %rbp
	movq	136(%rsp), %rdx
	movq	%r8, %r14
	callq	"mime_lookup::cached::name_types::count_asked"
	movq	%r12, %r8
	movq	%r14, %rdi
	movq	%rbp, 96(%rsp)
	movq	%r13, 104(%rsp)
	pxor	%xmm1, %xmm1
	movb	$1, %r9b
	xorl	%eax, %eax
	movq	128(%rsp), %r13
	jmp	25b
204:
	movl	%r14d, %ecx
	jmp	17b
205:
	movl	%r14d, %r9d
	jmp	19b
206:
	movl	%r14d, %ecx
	movq	24(%rsp), %r15
	movq	32(%rsp), %rbx
	jmp	17b
207:
	movl	%r14d, %r9d
	movq	24(%rsp), %r15
	movq	128(%rsp), %r13
	movq	32(%rsp), %rbx
	jmp	19b
208:
	movl	%r14d, %ecx
	jmp	22b
209:
	movl	%r14d, %r9d
	jmp	24b
210:
	movl	%r14d, %ecx
	movq	24(%rsp), %r15
	movq	32(%rsp), %rbx
	jmp	22b
211:
	movl	%r14d, %r9d
	movq	24(%rsp), %r15
	movq	32(%rsp), %rbx
	jmp	24b
212:
	ud2
213:
	.size	database_look_up_with, 213b-database_look_up_with
	.section	.rodata,"a",@progbits
	.p2align	2, 0x0
214:
	.long	48b-214b
	.long	79b-214b
	.long	75b-214b
	.long	76b-214b
	.long	74b-214b
	.long	80b-214b
	.long	81b-214b
	.long	78b-214b
215:
	.long	1b-215b
	.long	149b-215b
	.long	212b-215b
	.long	178b-215b
216:
	.long	201b-216b
	.long	180b-216b
	.long	194b-216b
	.long	195b-216b
	.long	193b-216b
	.long	198b-216b
	.long	199b-216b
	.long	197b-216b

	.section	.rodata.cst16,"aM",@progbits,16
	.p2align	4, 0x0
1:
	.byte	3,2,1,0,7,6,5,4,11,10,9,8,15,14,13,12
	.text
	.globl	look_up_with
	.p2align	4
	.type	look_up_with,@function
look_up_with:
	pushq	%rbp
	pushq	%r15
	pushq	%r14
	pushq	%r13
	pushq	%r12
	pushq	%rbx
	subq	$1256, %rsp
	movl	1328(%rsp), %eax
	xorl	%r14d, %r14d
	testq	%rsi, %rsi
	sete	%r15b
	xorl	%ebx, %ebx
	testq	%rcx, %rcx
	sete	%bpl
	xorl	%r10d, %r10d
	testq	%r9, %r9
	sete	%r11b
	pxor	%xmm0, %xmm0
	movdqa	%xmm0, 656(%rsp)
	movq	$0, 672(%rsp)
	cmpl	$2, %eax
	ja	2f
	movb	%r15b, %r14b
	shll	$12, %r14d
	addq	%r14, %rsi
	movb	%bpl, %bl
	shll	$12, %ebx
	addq	%rbx, %rcx
	testb	$1, 1320(%rsp)
	je	3f
	movq	1312(%rsp), %rbx
	movb	%r11b, %r10b
	shll	$12, %r10d
	addq	%r10, %r9
	movq	$1, 1184(%rsp)
	movq	%r9, 1192(%rsp)
	movq	%rbx, 1200(%rsp)
	movq	$0, 648(%rsp)
	cmpq	$4096, %r8
	jbe	4f
	xorl	%eax, %eax
	xorl	%r9d, %r9d
	xorl	%r13d, %r13d
	xorl	%r12d, %r12d
	xorl	%esi, %esi
	xorl	%ebp, %ebp
	xorl	%edx, %edx
	xorl	%r15d, %r15d
	xorl	%r14d, %r14d
	xorl	%ebx, %ebx
	jmp	11f
2:
	movl	$12, (%rdi)
	movdqu	%xmm0, 4(%rdi)
	movdqu	%xmm0, 20(%rdi)
	movdqu	%xmm0, 36(%rdi)
	movdqu	%xmm0, 48(%rdi)
	jmp	71f
3:
	cmpq	$4096, %r8
	jbe	5f
	movdqa	%xmm0, 688(%rsp)
	movq	$0, 704(%rsp)
	movl	$1, %eax
	xorl	%r12d, %r12d
	xorl	%ecx, %ecx
	xorl	%esi, %esi
	xorl	%r15d, %r15d
	xorl	%ebx, %ebx
	jmp	69f
4:
	cmpq	$40, %rdx
	jae	6f
	xorl	%r13d, %r13d
	xorl	%r15d, %r15d
	jmp	9f
5:
	cmpq	$40, %rdx
	jae	7f
	xorl	%r15d, %r15d
	xorl	%r13d, %r13d
	jmp	20f
6:
	movl	(%rsi), %r9d
	cmpl	$33554688, %r9d
	bswapl	%r9d
	jne	8f
	cmpq	$268435456, %rdx
	jbe	26f
	movl	$1, %r15d
	movl	$2, %r13d
	jmp	9f
7:
	movl	(%rsi), %r9d
	cmpl	$33554688, %r9d
	bswapl	%r9d
	jne	18f
	cmpq	$268435456, %rdx
	jbe	30f
	movl	$2, %r13d
	jmp	19f
8:
	movl	%r9d, %eax
	andl	$-65536, %eax
	movzwl	%r9w, %ecx
	shlq	$32, %rcx
	leaq	(%rcx,%rax), %r13
	incq	%r13
	movl	$1, %r15d
9:
	movq	%r13, %rsi
	shrq	$32, %rsi
	movl	%r13d, %r12d
	shrl	$16, %r12d
	movl	$1, %r9d
	xorl	%edx, %edx
	xorl	%r11d, %r11d
	xorl	%r14d, %r14d
10:
	movq	%r14, %rbx
	movq	%r15, %r14
	movq	%rdx, %r15
	movzbl	%r13b, %r13d
	xorl	%eax, %eax
	xorl	%ebp, %ebp
	movq	%r11, %rdx
11:
	movzwl	%si, %ecx
	shlq	$32, %rcx
	orq	%rbp, %rcx
	shll	$16, %r12d
	orq	%rcx, %r12
	movzwl	%r13w, %esi
	orq	%r12, %rsi
	testb	%al, %al
	je	12f
	movq	1336(%rsp), %rax
	movq	%r9, (%rax)
	movq	%rsi, 8(%rax)
	pxor	%xmm0, %xmm0
	movdqu	%xmm0, 16(%rax)
	movdqu	%xmm0, 32(%rax)
	movdqa	%xmm0, 688(%rsp)
	movq	$0, 704(%rsp)
	xorl	%eax, %eax
	xorl	%r12d, %r12d
	xorl	%ecx, %ecx
	xorl	%esi, %esi
	movq	%r14, %rbx
	jmp	57f
12:
	movzbl	%r9b, %eax
	leaq	193f(%rip), %r8
	movslq	(%r8,%rax,4), %rax
	addq	%r8, %rax
	jmpq	*%rax
13:
	pxor	%xmm0, %xmm0
	movdqa	%xmm0, 688(%rsp)
	movq	$0, 704(%rsp)
	movl	$1, %eax
	jmp	17f
14:
	movzbl	%sil, %esi
	leaq	194f(%rip), %rax
	movslq	(%rax,%rsi,4), %r8
	addq	%rax, %r8
	jmpq	*%r8
15:
	movl	$5, %eax
	xorl	%r12d, %r12d
	xorl	%ecx, %ecx
	jmp	55f
16:
	pxor	%xmm0, %xmm0
	movdqa	%xmm0, 688(%rsp)
	movq	$0, 704(%rsp)
	movl	$2, %eax
17:
	xorl	%r12d, %r12d
	xorl	%ecx, %ecx
	xorl	%esi, %esi
	jmp	56f
18:
	movl	%r9d, %eax
	andl	$-65536, %eax
	movzwl	%r9w, %ecx
	shlq	$32, %rcx
	leaq	(%rcx,%rax), %r13
	incq	%r13
19:
	movl	$1, %r15d
20:
	movzbl	%r13b, %ecx
	movl	%r13d, %r12d
	shrl	$16, %r12d
	shrq	$32, %r13
	xorl	%ebx, %ebx
	xorl	%ebp, %ebp
	xorl	%r14d, %r14d
	xorl	%edx, %edx
	xorl	%esi, %esi
21:
	movzwl	%r13w, %eax
	shlq	$32, %rax
	shll	$16, %r12d
	orq	%rax, %r12
	orq	%r14, %r12
	movzwl	%cx, %eax
	orq	%r12, %rax
	testb	%bpl, %bpl
	je	22f
	movq	1336(%rsp), %rcx
	movq	%rax, (%rcx)
	movq	%rdx, 8(%rcx)
	movq	%rsi, 16(%rcx)
	pxor	%xmm0, %xmm0
	movdqu	%xmm0, 24(%rcx)
	movq	$0, 40(%rcx)
	movdqa	%xmm0, 688(%rsp)
	movq	$0, 704(%rsp)
	xorl	%eax, %eax
	jmp	23f
22:
	cmpb	$7, %al
	jne	24f
	pxor	%xmm0, %xmm0
	movdqa	%xmm0, 688(%rsp)
	movq	$0, 704(%rsp)
	movl	$2, %eax
23:
	xorl	%r12d, %r12d
	xorl	%ecx, %ecx
	xorl	%esi, %esi
	jmp	69f
24:
	movzbl	%al, %esi
	leaq	192f(%rip), %rax
	movslq	(%rax,%rsi,4), %rcx
	addq	%rax, %rcx
	jmpq	*%rcx
25:
	movl	$5, %eax
	xorl	%r12d, %r12d
	xorl	%ecx, %ecx
	jmp	68f
26:
	movdqu	20(%rsi), %xmm0
	movdqa	1b(%rip), %xmm1
	pshufb	%xmm1, %xmm0
	movl	36(%rsi), %r10d
	bswapl	%r10d
	movdqu	4(%rsi), %xmm2
	pshufb	%xmm1, %xmm2
	movq	%rsi, 296(%rsp)
	movq	%rdx, 304(%rsp)
	leaq	312(%rsp), %r13
	movq	%rsi, 312(%rsp)
	movq	%rdx, 320(%rsp)
	movl	%r9d, 328(%rsp)
	movdqu	%xmm2, 332(%rsp)
	movdqu	%xmm0, 348(%rsp)
	movl	%r10d, 364(%rsp)
	pxor	%xmm0, %xmm0
	movdqu	%xmm0, 368(%rsp)
	movdqu	%xmm0, 384(%rsp)
	movdqu	%xmm0, 400(%rsp)
	movdqu	%xmm0, 416(%rsp)
	movq	%rdx, %r9
	shrq	$2, %r9
	movq	$1, 264(%rsp)
	movq	$0, 272(%rsp)
	leaq	280(%rsp), %rsi
	movq	%r9, 280(%rsp)
	movq	%rdx, 288(%rsp)
	movdqa	%xmm0, 112(%rsp)
	movdqa	%xmm0, 96(%rsp)
	movq	$0, 128(%rsp)
	cmpb	$2, %al
	movq	%rdi, 8(%rsp)
	movq	%rcx, 40(%rsp)
	movq	%r8, 56(%rsp)
	je	32f
	movzbl	%al, %eax
	cmpl	$1, %eax
	jne	38f
	movb	$2, %r15b
	movb	$1, %r13b
	movq	$0, 48(%rsp)
	xorl	%ebp, %ebp
	xorl	%ebx, %ebx
	xorl	%r14d, %r14d
27:
	xorl	%r12d, %r12d
28:
	leaq	96(%rsp), %rdi
	leaq	296(%rsp), %rsi
	leaq	1184(%rsp), %rdx
	leaq	648(%rsp), %rcx
	leaq	264(%rsp), %r8
	callq	"mime_lookup::cached::read_content::<#73f701dc143d73f5>"
	movzbl	104(%rsp), %r9d
	movzwl	116(%rsp), %esi
	movq	120(%rsp), %r11
	cmpb	$0, 96(%rsp)
	je	73f
	movzwl	114(%rsp), %r12d
	movzbl	112(%rsp), %r13d
	cmpb	$2, %r15b
	je	29f
	movzbl	%r15b, %eax
	cmpl	$1, %eax
	cmpl	$1, %r14d
	setne	%al
	testq	%rbp, %rbp
	sete	%cl
	orb	%al, %cl
	jne	29f
	movq	%rbx, %rdi
	movq	%r9, %rbx
	movq	%r11, %r14
	movq	%rsi, %r15
	callq	rattle_dealloc@PLT
	movq	%r15, %rsi
	movq	%r14, %r11
	movq	%rbx, %r9
29:
	xorl	%ebp, %ebp
	jmp	155f
30:
	movdqu	20(%rsi), %xmm0
	movdqa	1b(%rip), %xmm1
	pshufb	%xmm1, %xmm0
	movl	36(%rsi), %r10d
	bswapl	%r10d
	movdqu	4(%rsi), %xmm2
	pshufb	%xmm1, %xmm2
	movq	%rsi, 296(%rsp)
	movq	%rdx, 304(%rsp)
	leaq	312(%rsp), %r15
	movq	%rsi, 312(%rsp)
	movq	%rdx, 320(%rsp)
	movl	%r9d, 328(%rsp)
	movdqu	%xmm2, 332(%rsp)
	movdqu	%xmm0, 348(%rsp)
	movl	%r10d, 364(%rsp)
	pxor	%xmm0, %xmm0
	movdqu	%xmm0, 368(%rsp)
	movdqu	%xmm0, 384(%rsp)
	movdqu	%xmm0, 400(%rsp)
	movdqu	%xmm0, 416(%rsp)
	movq	%rdx, %r9
	shrq	$2, %r9
	movq	$1, 192(%rsp)
	movq	$0, 200(%rsp)
	leaq	208(%rsp), %rsi
	movq	%r9, 208(%rsp)
	movq	%rdx, 216(%rsp)
	cmpb	$2, %al
	movq	%rdi, 8(%rsp)
	je	35f
	movzbl	%al, %eax
	cmpl	$1, %eax
	jne	41f
	movb	$2, %dl
	xorl	%r12d, %r12d
	xorl	%r15d, %r15d
	xorl	%r11d, %r11d
	xorl	%r14d, %r14d
	xorl	%eax, %eax
31:
	movl	352(%rsp), %ebx
	movq	320(%rsp), %rsi
	subq	%rbx, %rsi
	setae	%r9b
	cmpq	$12, %rsi
	setae	%r10b
	andb	%r9b, %r10b
	movq	192(%rsp), %rsi
	incq	%rsi
	movq	$-1, %r9
	cmovneq	%rsi, %r9
	movq	%r9, 192(%rsp)
	movzbl	%dl, %esi
	cmpb	$1, %r10b
	jne	72f
	movq	312(%rsp), %r9
	movl	4(%r9,%rbx), %r9d
	bswapl	%r9d
	cmpl	$129, %r9d
	movl	$128, %r10d
	cmovael	%r9d, %r10d
	movq	%r10, 16(%rsp)
	pxor	%xmm0, %xmm0
	movdqa	%xmm0, 496(%rsp)
	movq	$0, 512(%rsp)
	movq	$0, 120(%rsp)
	movdqa	%xmm0, 464(%rsp)
	movq	$0, 480(%rsp)
	movq	$0, 88(%rsp)
	movdqa	%xmm0, 432(%rsp)
	movq	$0, 448(%rsp)
	movq	$0, 248(%rsp)
	cmpb	$2, %dl
	je	82f
	cmpl	$1, %esi
	jne	85f
	movq	%r14, 144(%rsp)
	leaq	152(%rsp), %rdx
	movq	%r11, 152(%rsp)
	movq	%r12, 160(%rsp)
	movq	%r15, 168(%rsp)
	testq	%r14, %r14
	movq	%r11, %rbp
	cmovneq	%r11, %rdx
	movq	$1, 64(%rsp)
	leaq	.L67248b46a1a0(%rip), %rcx
	movq	%rcx, 72(%rsp)
	movq	$24, 80(%rsp)
	leaq	464(%rsp), %rdi
	leaq	296(%rsp), %rsi
	leaq	64(%rsp), %r8
	leaq	192(%rsp), %r9
	movq	%rax, %rcx
	callq	"mime_lookup::cached::by_content::choose"
	movzwl	472(%rsp), %ebx
	movzwl	474(%rsp), %r12d
	movzwl	476(%rsp), %r13d
	movq	480(%rsp), %rdx
	cmpq	$1, %r14
	setne	%cl
	testq	%r15, %r15
	sete	%al
	orb	%cl, %al
	cmpb	$0, 464(%rsp)
	jne	86f
	movzwl	478(%rsp), %r14d
	jmp	109f
32:
	movdqa	%xmm0, 160(%rsp)
	movdqa	%xmm0, 144(%rsp)
	movq	$0, 176(%rsp)
	movdqa	%xmm0, 720(%rsp)
	movdqa	%xmm0, 704(%rsp)
	movdqa	%xmm0, 688(%rsp)
	movq	%rsi, (%rsp)
	leaq	688(%rsp), %rdi
	leaq	264(%rsp), %r9
	movq	%r13, %rsi
	movq	%rcx, %rdx
	movq	%r8, %rcx
	movl	$1, %r8d
	callq	"mime_view::cache::Cache::glob_hits"
	movzbl	696(%rsp), %ebp
	movq	704(%rsp), %rbx
	cmpb	$0, 688(%rsp)
	jne	39f
	movzbl	%bpl, %r14d
	movq	728(%rsp), %r15
	movq	%r14, 224(%rsp)
	movq	%rbx, 232(%rsp)
	movdqu	712(%rsp), %xmm0
	movdqu	%xmm0, 240(%rsp)
	testb	%r14b, %r14b
	movq	240(%rsp), %r8
	movl	$1, %r13d
	cmovneq	%r8, %r13
	testq	%r13, %r13
	je	91f
	movq	%r15, 136(%rsp)
	movb	%bpl, 32(%rsp)
	testb	%bpl, %bpl
	je	101f
	movq	%r8, 48(%rsp)
	movq	%r14, 16(%rsp)
	movq	%rbx, 24(%rsp)
	addq	$8, %rbx
	movq	%r13, %r14
	jmp	34f
33:
	cmpq	$1, %rax
	cmoveq	%r15, %rbp
	movq	%rbp, -8(%rbx)
	movq	%r12, (%rbx)
	addq	$16, %rbx
	decq	%r14
	je	112f
34:
	movq	-8(%rbx), %rbp
	movq	(%rbx), %r12
	pxor	%xmm0, %xmm0
	movdqa	%xmm0, 80(%rsp)
	movdqa	%xmm0, 64(%rsp)
	movl	332(%rsp), %edx
	leaq	64(%rsp), %rdi
	leaq	264(%rsp), %r9
	leaq	312(%rsp), %rsi
	movq	%rbp, %rcx
	movq	%r12, %r8
	callq	"mime_view::pairs::look_up_pair"
	movzbl	72(%rsp), %eax
	movq	80(%rsp), %r15
	cmpb	$0, 64(%rsp)
	jne	89f
	cmpl	$1, %eax
	jne	33b
	movq	88(%rsp), %r12
	jmp	33b
35:
	movdqa	%xmm0, 160(%rsp)
	movdqa	%xmm0, 144(%rsp)
	movq	$0, 176(%rsp)
	movdqa	%xmm0, 720(%rsp)
	movdqa	%xmm0, 704(%rsp)
	movdqa	%xmm0, 688(%rsp)
	movq	%rsi, (%rsp)
	leaq	688(%rsp), %rdi
	leaq	192(%rsp), %r9
	movq	%r15, %rsi
	movq	%rcx, 40(%rsp)
	movq	%rcx, %rdx
	movq	%r8, 56(%rsp)
	movq	%r8, %rcx
	movl	$1, %r8d
	callq	"mime_view::cache::Cache::glob_hits"
	movzbl	696(%rsp), %ebp
	movq	704(%rsp), %rcx
	cmpb	$0, 688(%rsp)
	jne	42f
	movzbl	%bpl, %ebx
	movq	728(%rsp), %rax
	movq	%rax, 32(%rsp)
	movq	%rbx, 64(%rsp)
	movq	%rcx, 72(%rsp)
	movdqu	712(%rsp), %xmm0
	movdqu	%xmm0, 80(%rsp)
	testb	%bl, %bl
	movq	80(%rsp), %rax
	movl	$1, %r13d
	cmovneq	%rax, %r13
	testq	%r13, %r13
	movq	%rbx, 24(%rsp)
	movq	%rax, 16(%rsp)
	je	92f
	movb	%bpl, 48(%rsp)
	testb	%bpl, %bpl
	je	102f
	movq	%rcx, 136(%rsp)
	leaq	8(%rcx), %rbx
	movq	%r13, %r14
	jmp	37f
36:
	cmpq	$1, %rax
	cmoveq	%r15, %rbp
	movq	%rbp, -8(%rbx)
	movq	%r12, (%rbx)
	addq	$16, %rbx
	decq	%r14
	leaq	312(%rsp), %r15
	je	116f
37:
	movq	-8(%rbx), %rbp
	movq	(%rbx), %r12
	pxor	%xmm0, %xmm0
	movdqa	%xmm0, 112(%rsp)
	movdqa	%xmm0, 96(%rsp)
	movl	332(%rsp), %edx
	leaq	96(%rsp), %rdi
	leaq	192(%rsp), %r9
	movq	%r15, %rsi
	movq	%rbp, %rcx
	movq	%r12, %r8
	callq	"mime_view::pairs::look_up_pair"
	movzbl	104(%rsp), %eax
	movq	112(%rsp), %r15
	cmpb	$0, 96(%rsp)
	jne	90f
	cmpl	$1, %eax
	jne	36b
	movq	120(%rsp), %r12
	jmp	36b
38:
	movdqa	%xmm0, 160(%rsp)
	movdqa	%xmm0, 144(%rsp)
	movq	$0, 176(%rsp)
	movdqa	%xmm0, 720(%rsp)
	movdqa	%xmm0, 704(%rsp)
	movdqa	%xmm0, 688(%rsp)
	movq	%rsi, (%rsp)
	leaq	688(%rsp), %rdi
	leaq	264(%rsp), %r9
	movq	%r13, %rsi
	movq	%rcx, %rdx
	movq	%r8, %rcx
	xorl	%r8d, %r8d
	callq	"mime_view::cache::Cache::glob_hits"
	movzbl	696(%rsp), %ebp
	movq	704(%rsp), %rbx
	cmpb	$0, 688(%rsp)
	je	74f
39:
	movzwl	698(%rsp), %r12d
	movzwl	700(%rsp), %esi
	movq	8(%rsp), %rdi
	movq	%rbx, %r11
	cmpb	$7, %bpl
	jne	164f
40:
	movl	$3, %r9d
	xorl	%r13d, %r13d
	xorl	%r12d, %r12d
	xorl	%esi, %esi
	xorl	%ebp, %ebp
	movq	$0, 24(%rsp)
	xorl	%r11d, %r11d
	jmp	165f
41:
	movdqa	%xmm0, 160(%rsp)
	movdqa	%xmm0, 144(%rsp)
	movq	$0, 176(%rsp)
	movdqa	%xmm0, 720(%rsp)
	movdqa	%xmm0, 704(%rsp)
	movdqa	%xmm0, 688(%rsp)
	movq	%rsi, (%rsp)
	leaq	688(%rsp), %rdi
	leaq	192(%rsp), %r9
	movq	%r15, %rsi
	movq	%rcx, 40(%rsp)
	movq	%rcx, %rdx
	movq	%r8, 56(%rsp)
	movq	%r8, %rcx
	xorl	%r8d, %r8d
	callq	"mime_view::cache::Cache::glob_hits"
	movzbl	696(%rsp), %ebp
	movq	704(%rsp), %rcx
	cmpb	$0, 688(%rsp)
	je	77f
42:
	movzwl	698(%rsp), %r12d
	movzwl	700(%rsp), %r13d
	movq	8(%rsp), %rdi
43:
	movzbl	%bpl, %eax
	movl	%eax, 56(%rsp)
	xorl	%r14d, %r14d
	movq	%rcx, %rdx
44:
	xorl	%esi, %esi
	xorl	%ebp, %ebp
	jmp	133f
45:
	movl	$9, %eax
	jmp	48f
46:
	movl	$7, %eax
	jmp	53f
47:
	movl	$8, %eax
48:
	xorl	%r12d, %r12d
	xorl	%ecx, %ecx
	movq	%rdx, %rsi
	jmp	55f
49:
	movl	$2, %eax
	jmp	53f
50:
	shrl	$16, %r12d
	shrq	$32, %rcx
	movl	$6, %eax
	jmp	54f
51:
	movl	$10, %eax
	jmp	53f
52:
	movl	$11, %eax
53:
	xorl	%r12d, %r12d
	xorl	%ecx, %ecx
54:
	xorl	%esi, %esi
55:
	pxor	%xmm0, %xmm0
	movdqa	%xmm0, 688(%rsp)
	movq	$0, 704(%rsp)
56:
	movq	%r15, %rdx
	movq	%r14, %r15
57:
	movq	704(%rsp), %r8
	movq	%r8, 672(%rsp)
	movaps	688(%rsp), %xmm0
	movaps	%xmm0, 656(%rsp)
	jmp	70f
58:
	movl	$9, %eax
	jmp	61f
59:
	movl	$7, %eax
	jmp	66f
60:
	movl	$8, %eax
61:
	xorl	%r12d, %r12d
	xorl	%ecx, %ecx
	movq	%rdx, %rsi
	jmp	68f
62:
	movl	$2, %eax
	jmp	66f
63:
	movq	%r12, %rcx
	shrq	$32, %rcx
	shrl	$16, %r12d
	movl	$6, %eax
	jmp	67f
64:
	movl	$10, %eax
	jmp	66f
65:
	movl	$11, %eax
66:
	xorl	%r12d, %r12d
	xorl	%ecx, %ecx
67:
	xorl	%esi, %esi
68:
	pxor	%xmm0, %xmm0
	movdqa	%xmm0, 688(%rsp)
	movq	$0, 704(%rsp)
69:
	movq	704(%rsp), %rdx
	movq	%rdx, 672(%rsp)
	movaps	688(%rsp), %xmm0
	movaps	%xmm0, 656(%rsp)
	xorl	%edx, %edx
70:
	movl	%eax, (%rdi)
	movw	%r12w, 4(%rdi)
	movw	%cx, 6(%rdi)
	movq	%rsi, 8(%rdi)
	movq	%rdx, 16(%rdi)
	movq	%r15, 24(%rdi)
	movq	%rbx, 32(%rdi)
	movdqa	656(%rsp), %xmm0
	movdqu	%xmm0, 40(%rdi)
	movq	672(%rsp), %rax
	movq	%rax, 56(%rdi)
71:
	movq	%rdi, %rax
	addq	$1256, %rsp
	popq	%rbx
	popq	%r12
	popq	%r13
	popq	%r14
	popq	%r15
	popq	%rbp
	retq
72:
	movw	$3, %ax
	cmpb	$2, %dl
	je	83f
	cmpl	$1, %esi
	movl	%eax, 56(%rsp)
	cmpl	$1, %r14d
	setne	%al
	testq	%r15, %r15
	sete	%cl
	orb	%al, %cl
	jne	84f
	movq	%rdi, %r14
	movq	%r11, %rdi
	callq	rattle_dealloc@PLT
	movq	%r14, %rdi
	jmp	84f
73:
	movq	%rbx, 24(%rsp)
	movzwl	%si, %eax
	movq	128(%rsp), %rcx
	movq	%rcx, 32(%rsp)
	movl	112(%rsp), %ecx
	shlq	$32, %rax
	orq	%rcx, %rax
	movzwl	118(%rsp), %ebx
	shlq	$48, %rbx
	orq	%rax, %rbx
	xorl	%eax, %eax
	cmpl	$1, %r9d
	movq	%rbx, %rdi
	cmovneq	%rax, %rdi
	cmpq	$1, %r9
	cmovneq	%rax, %r11
	pxor	%xmm0, %xmm0
	movdqa	%xmm0, 64(%rsp)
	movdqa	%xmm0, 80(%rsp)
	movdqa	%xmm0, 224(%rsp)
	movdqa	%xmm0, 240(%rsp)
	movdqa	%xmm0, 624(%rsp)
	movq	$0, 640(%rsp)
	movdqa	%xmm0, 192(%rsp)
	movdqa	%xmm0, 208(%rsp)
	movdqa	%xmm0, 592(%rsp)
	movq	$0, 608(%rsp)
	movdqa	%xmm0, 496(%rsp)
	movdqa	%xmm0, 512(%rsp)
	movdqa	%xmm0, 560(%rsp)
	movq	$0, 576(%rsp)
	movdqa	%xmm0, 480(%rsp)
	movdqa	%xmm0, 464(%rsp)
	movdqa	%xmm0, 528(%rsp)
	movq	$0, 544(%rsp)
	movdqa	%xmm0, 448(%rsp)
	movdqa	%xmm0, 432(%rsp)
	testb	%r13b, %r13b
	je	80f
	movb	$1, %al
	testb	$1, 368(%rsp)
	movq	56(%rsp), %r13
	movq	40(%rsp), %r10
	je	81f
	jmp	96f
74:
	movzbl	%bpl, %eax
	movq	728(%rsp), %rcx
	movq	%rcx, 136(%rsp)
	movq	%rax, 224(%rsp)
	movq	%rbx, 232(%rsp)
	movdqu	712(%rsp), %xmm0
	movdqu	%xmm0, 240(%rsp)
	movq	%rax, 16(%rsp)
	testb	%al, %al
	movq	240(%rsp), %r8
	movl	$1, %r14d
	cmovneq	%r8, %r14
	testq	%r14, %r14
	movq	%rbx, 24(%rsp)
	je	93f
	movb	%bpl, 32(%rsp)
	testb	%bpl, %bpl
	je	103f
	movq	%r8, 48(%rsp)
	leaq	8(%rbx), %r12
	movq	%r14, %r13
	jmp	76f
75:
	cmpq	$1, %rax
	cmoveq	%r15, %rbp
	movq	%rbp, -8(%r12)
	movq	%rbx, (%r12)
	addq	$16, %r12
	decq	%r13
	je	120f
76:
	movq	-8(%r12), %rbp
	movq	(%r12), %rbx
	pxor	%xmm0, %xmm0
	movdqa	%xmm0, 80(%rsp)
	movdqa	%xmm0, 64(%rsp)
	movl	332(%rsp), %edx
	leaq	64(%rsp), %rdi
	leaq	264(%rsp), %r9
	leaq	312(%rsp), %rsi
	movq	%rbp, %rcx
	movq	%rbx, %r8
	callq	"mime_view::pairs::look_up_pair"
	movzbl	72(%rsp), %eax
	movq	80(%rsp), %r15
	cmpb	$0, 64(%rsp)
	jne	89f
	cmpl	$1, %eax
	jne	75b
	movq	88(%rsp), %rbx
	jmp	75b
77:
	movzbl	%bpl, %eax
	movq	728(%rsp), %r13
	movq	%rax, 64(%rsp)
	movq	%rcx, 72(%rsp)
	movdqu	712(%rsp), %xmm0
	movdqu	%xmm0, 80(%rsp)
	movq	%rax, 24(%rsp)
	testb	%al, %al
	movq	80(%rsp), %r12
	movl	$1, %r14d
	cmovneq	%r12, %r14
	testq	%r14, %r14
	je	94f
	movq	%r13, 32(%rsp)
	movb	%bpl, 48(%rsp)
	testb	%bpl, %bpl
	je	106f
	movq	%r12, 16(%rsp)
	movq	%rcx, 136(%rsp)
	leaq	8(%rcx), %r12
	movq	%r14, %r13
	jmp	79f
78:
	cmpq	$1, %rax
	cmoveq	%r15, %rbp
	movq	%rbp, -8(%r12)
	movq	%rbx, (%r12)
	addq	$16, %r12
	decq	%r13
	leaq	312(%rsp), %r15
	je	127f
79:
	movq	-8(%r12), %rbp
	movq	(%r12), %rbx
	pxor	%xmm0, %xmm0
	movdqa	%xmm0, 112(%rsp)
	movdqa	%xmm0, 96(%rsp)
	movl	332(%rsp), %edx
	leaq	96(%rsp), %rdi
	leaq	192(%rsp), %r9
	movq	%r15, %rsi
	movq	%rbp, %rcx
	movq	%rbx, %r8
	callq	"mime_view::pairs::look_up_pair"
	movzbl	104(%rsp), %eax
	movq	112(%rsp), %r15
	cmpb	$0, 96(%rsp)
	jne	90f
	cmpl	$1, %eax
	jne	78b
	movq	120(%rsp), %rbx
	jmp	78b
80:
	testq	%r14, %r14
	movq	56(%rsp), %r13
	movq	40(%rsp), %r10
	je	81f
	movb	$1, %al
	cmpq	$0, 48(%rsp)
	je	96f
81:
	cmpb	$1, 400(%rsp)
	jne	95f
	movq	320(%rsp), %rsi
	movq	408(%rsp), %r8
	movabsq	$-6148914691236517205, %rdx
	movq	%rsi, %rax
	mulq	%rdx
	shrq	$2, %rdx
	shrq	$4, %rsi
	addq	%rdx, %rsi
	movq	280(%rsp), %rax
	xorl	%edx, %edx
	subq	336(%r8), %rax
	cmovaeq	%rax, %rdx
	cmpq	%rdx, %rsi
	setbe	%al
	jmp	96f
82:
	movq	%rdi, %r15
	movq	$1, 224(%rsp)
	leaq	.L67248b46a1a0(%rip), %rax
	movq	%rax, 232(%rsp)
	movq	$24, 240(%rsp)
	leaq	432(%rsp), %rdi
	leaq	296(%rsp), %rsi
	leaq	224(%rsp), %rax
	leaq	192(%rsp), %r9
	movq	%rcx, %rdx
	movq	%r8, %rcx
	movq	%rax, %r8
	callq	"mime_lookup::cached::by_content::by_globs"
	movzwl	440(%rsp), %ebx
	movzwl	442(%rsp), %r12d
	movzwl	444(%rsp), %r13d
	movq	448(%rsp), %rdx
	cmpb	$0, 432(%rsp)
	je	107f
	movq	%r15, %rdi
	jmp	88f
83:
	movl	%eax, 56(%rsp)
84:
	xorl	%r12d, %r12d
	xorl	%r13d, %r13d
	xorl	%r14d, %r14d
	xorl	%esi, %esi
	xorl	%ebp, %ebp
	movq	%rbx, %rdx
	jmp	133f
85:
	movq	%r14, 688(%rsp)
	leaq	696(%rsp), %rdx
	movq	%r11, 696(%rsp)
	movq	%r12, 704(%rsp)
	testq	%r14, %r14
	movq	%r11, %rbp
	cmovneq	%r11, %rdx
	movq	%r15, 712(%rsp)
	movl	$1, %ecx
	cmovneq	%r12, %rcx
	movq	$1, 96(%rsp)
	leaq	.L67248b46a1a0(%rip), %rax
	movq	%rax, 104(%rsp)
	movq	$24, 112(%rsp)
	leaq	496(%rsp), %rdi
	leaq	296(%rsp), %rsi
	leaq	96(%rsp), %r8
	leaq	192(%rsp), %r9
	callq	"mime_lookup::cached::by_content::choose"
	movzwl	504(%rsp), %ebx
	movzwl	506(%rsp), %r12d
	movzwl	508(%rsp), %r13d
	movq	512(%rsp), %rdx
	cmpq	$1, %r14
	setne	%cl
	testq	%r15, %r15
	sete	%al
	orb	%cl, %al
	cmpb	$0, 496(%rsp)
	je	108f
86:
	testb	%al, %al
	jne	87f
	movq	%rbp, %rdi
	movq	%rdx, %r14
	callq	rattle_dealloc@PLT
	movq	%r14, %rdx
87:
	movq	8(%rsp), %rdi
88:
	movzbl	%bl, %eax
	movl	%eax, 56(%rsp)
	xorl	%r14d, %r14d
	jmp	44b
89:
	movzwl	76(%rsp), %ebx
	movzwl	74(%rsp), %ecx
	shll	$16, %ecx
	shlq	$32, %rbx
	orq	%rax, %rbx
	orq	%rcx, %rbx
	movq	8(%rsp), %rdi
	jmp	162f
90:
	movzwl	108(%rsp), %ebx
	movzwl	106(%rsp), %ecx
	shll	$16, %ecx
	shlq	$32, %rbx
	orq	%rax, %rbx
	orq	%rcx, %rbx
	movq	8(%rsp), %rdi
	movq	136(%rsp), %rdx
	jmp	182f
91:
	xorl	%r13d, %r13d
	jmp	114f
92:
	xorl	%r13d, %r13d
	jmp	118f
93:
	xorl	%r14d, %r14d
	jmp	122f
94:
	xorl	%r14d, %r14d
	jmp	129f
95:
	xorl	%eax, %eax
96:
	movdqa	%xmm0, 688(%rsp)
	movdqa	%xmm0, 704(%rsp)
	movq	$0, 720(%rsp)
	movdqa	%xmm0, 144(%rsp)
	movdqa	%xmm0, 160(%rsp)
	testq	%r9, %r9
	je	99f
	cmpb	$1, 384(%rsp)
	movq	%r9, 16(%rsp)
	jne	97f
	testb	%al, %al
	je	97f
	movq	320(%rsp), %rax
	shrq	$4, %rax
	cmpq	280(%rsp), %rax
	jbe	144f
97:
	movq	%r9, 1208(%rsp)
	movq	%rdi, 1216(%rsp)
	movq	%r11, 1224(%rsp)
	leaq	688(%rsp), %rdi
	leaq	1208(%rsp), %rdx
	leaq	264(%rsp), %r8
	leaq	312(%rsp), %rsi
	xorl	%ecx, %ecx
	callq	"mime_lookup::cached::sniff::sniff_front"
	movzbl	696(%rsp), %edx
	cmpb	$0, 688(%rsp)
	movq	704(%rsp), %r11
	je	100f
	movzwl	698(%rsp), %r12d
	movzwl	700(%rsp), %esi
	movzbl	%dl, %r13d
	cmpb	$2, %r15b
	je	98f
	movzbl	%r15b, %eax
	cmpl	$1, %eax
	cmpl	$1, %r14d
	setne	%al
	testq	%rbp, %rbp
	sete	%cl
	orb	%al, %cl
	je	143f
98:
	movq	16(%rsp), %rbp
	jmp	151f
99:
	movb	$1, %dl
	xorl	%eax, %eax
	leaq	.L67248b46a1a0(%rip), %r11
	movl	$24, %esi
	jmp	145f
100:
	movl	720(%rsp), %eax
	movq	712(%rsp), %rsi
	movq	40(%rsp), %r10
	movq	16(%rsp), %r9
	jmp	145f
101:
	movl	332(%rsp), %edx
	pxor	%xmm0, %xmm0
	movdqa	%xmm0, 80(%rsp)
	movdqa	%xmm0, 64(%rsp)
	leaq	64(%rsp), %rdi
	leaq	264(%rsp), %r9
	leaq	312(%rsp), %rsi
	movq	%rdx, 16(%rsp)
	movq	%rbx, %rcx
	movq	%r8, %rbp
	callq	"mime_view::pairs::look_up_pair"
	movzbl	72(%rsp), %eax
	movq	80(%rsp), %r15
	cmpb	$0, 64(%rsp)
	je	158f
	movq	%rbx, 24(%rsp)
	jmp	161f
102:
	movl	332(%rsp), %ebp
	pxor	%xmm0, %xmm0
	movdqa	%xmm0, 112(%rsp)
	movdqa	%xmm0, 96(%rsp)
	leaq	96(%rsp), %rdi
	leaq	192(%rsp), %r9
	movq	%r15, %rsi
	movq	%rbp, %rdx
	movq	%rcx, %r12
	movq	16(%rsp), %r8
	callq	"mime_view::pairs::look_up_pair"
	movzbl	104(%rsp), %eax
	movq	112(%rsp), %r15
	cmpb	$0, 96(%rsp)
	je	175f
	movq	8(%rsp), %rdi
	movq	%r12, %rdx
	jmp	181f
103:
	movl	332(%rsp), %edx
	pxor	%xmm0, %xmm0
	movdqa	%xmm0, 80(%rsp)
	movdqa	%xmm0, 64(%rsp)
	leaq	64(%rsp), %rdi
	leaq	264(%rsp), %r9
	movq	%r13, %rsi
	movq	%rdx, 48(%rsp)
	movq	%rbx, %rcx
	movq	%r8, %rbp
	callq	"mime_view::pairs::look_up_pair"
	movzbl	72(%rsp), %eax
	movq	80(%rsp), %r15
	cmpb	$0, 64(%rsp)
	jne	161f
	leaq	256(%rsp), %rcx
104:
	cmpb	$1, %al
	movq	%rbp, %r8
	jne	105f
	movq	88(%rsp), %r8
	movq	%r15, %rbx
105:
	movq	%rbx, 24(%rsp)
	movq	%rbx, 232(%rsp)
	movq	%r8, 240(%rsp)
	decq	%r14
	je	188f
	leaq	16(%rcx), %r12
	movq	-8(%rcx), %rbx
	movq	(%rcx), %r8
	pxor	%xmm0, %xmm0
	movdqa	%xmm0, 80(%rsp)
	movdqa	%xmm0, 64(%rsp)
	leaq	64(%rsp), %rdi
	leaq	264(%rsp), %r9
	movq	%r13, %rsi
	movq	48(%rsp), %rdx
	movq	%rbx, %rcx
	movq	%r8, %rbp
	callq	"mime_view::pairs::look_up_pair"
	movzbl	72(%rsp), %eax
	movq	80(%rsp), %r15
	cmpb	$0, 64(%rsp)
	movq	%r12, %rcx
	je	104b
	jmp	161f
106:
	movl	332(%rsp), %edx
	pxor	%xmm0, %xmm0
	movdqa	%xmm0, 112(%rsp)
	movdqa	%xmm0, 96(%rsp)
	leaq	96(%rsp), %rdi
	leaq	192(%rsp), %r9
	movq	%r15, %rsi
	movq	%rdx, 16(%rsp)
	movq	%rcx, %rbx
	movq	%r12, %r8
	callq	"mime_view::pairs::look_up_pair"
	movzbl	104(%rsp), %eax
	movq	112(%rsp), %r15
	cmpb	$0, 96(%rsp)
	je	178f
	movq	8(%rsp), %rdi
	movq	%rbx, %rdx
	jmp	181f
107:
	movzwl	446(%rsp), %r14d
	movq	%r15, %rdi
	jmp	111f
108:
	movzwl	510(%rsp), %r14d
109:
	testb	%al, %al
	jne	110f
	movq	%rbp, %rdi
	movq	%rdx, %r15
	callq	rattle_dealloc@PLT
	movq	%r15, %rdx
110:
	movq	8(%rsp), %rdi
111:
	movq	16(%rsp), %rsi
	movzwl	%bx, %eax
	shrl	$8, %eax
	jmp	132f
112:
	movq	24(%rsp), %rbx
	movq	16(%rsp), %r14
	movq	48(%rsp), %r8
113:
	movzbl	32(%rsp), %ebp
	movq	136(%rsp), %r15
114:
	testb	%bpl, %bpl
	movq	248(%rsp), %rcx
	movq	%r14, 144(%rsp)
	leaq	152(%rsp), %r12
	movq	%rbx, 152(%rsp)
	movq	%r8, 48(%rsp)
	movq	%r8, 160(%rsp)
	movq	%rcx, 16(%rsp)
	movq	%rcx, 168(%rsp)
	movq	%r15, 176(%rsp)
	cmovneq	%rbx, %r12
	leaq	264(%rsp), %rdx
	movq	%r12, %rdi
	movq	%r13, %rsi
	callq	"mime_lookup::cached::name_types::are_one_type"
	testb	%al, %al
	je	115f
	leaq	160(%rsp), %rax
	leaq	8(%rbx), %rcx
	testb	%bpl, %bpl
	movq	(%r12), %r14
	cmoveq	%rax, %rcx
	movq	(%rcx), %r11
	cmpb	$1, %bpl
	setne	%al
	cmpq	$0, 16(%rsp)
	sete	%cl
	orb	%al, %cl
	jne	124f
	movq	%rbx, %rdi
	jmp	123f
115:
	leaq	264(%rsp), %rcx
	movq	%r12, %rdi
	movq	%r13, %rsi
	movq	%r15, %rdx
	callq	"mime_lookup::cached::name_types::count_asked"
	movq	%rax, %r12
	movb	$1, %r15b
	xorl	%r13d, %r13d
	movq	16(%rsp), %rbp
	jmp	28b
116:
	movq	136(%rsp), %rcx
117:
	movzbl	48(%rsp), %ebp
	movq	24(%rsp), %rbx
118:
	testb	%bpl, %bpl
	movq	88(%rsp), %r15
	movq	%rbx, 144(%rsp)
	leaq	152(%rsp), %r12
	movq	%rcx, 152(%rsp)
	movq	16(%rsp), %rax
	movq	%rax, 160(%rsp)
	movq	%r15, 168(%rsp)
	movq	32(%rsp), %rbx
	movq	%rbx, 176(%rsp)
	cmovneq	%rcx, %r12
	leaq	192(%rsp), %rdx
	movq	%r12, %rdi
	movq	%r13, %rsi
	movq	%rcx, %r14
	callq	"mime_lookup::cached::name_types::are_one_type"
	testb	%al, %al
	je	119f
	leaq	160(%rsp), %rax
	leaq	8(%r14), %rcx
	testb	%bpl, %bpl
	movq	(%r12), %rbx
	cmoveq	%rax, %rcx
	movq	(%rcx), %rdx
	cmpb	$1, %bpl
	setne	%al
	testq	%r15, %r15
	sete	%cl
	orb	%al, %cl
	jne	131f
	movq	%r14, %rdi
	jmp	130f
119:
	leaq	192(%rsp), %rcx
	movq	%r12, %rdi
	movq	%r13, %rsi
	movq	%rbx, %rdx
	callq	"mime_lookup::cached::name_types::count_asked"
	movb	$1, %dl
	movq	8(%rsp), %rdi
	movq	56(%rsp), %r8
	movq	40(%rsp), %rcx
	movq	%r14, %r11
	jmp	142f
120:
	movq	48(%rsp), %r8
121:
	movzbl	32(%rsp), %ebp
122:
	testb	%bpl, %bpl
	movq	248(%rsp), %r12
	movq	16(%rsp), %rax
	movq	%rax, 144(%rsp)
	leaq	152(%rsp), %rbx
	movl	%ebp, %r15d
	movq	24(%rsp), %rbp
	movq	%rbp, 152(%rsp)
	movq	%r8, 48(%rsp)
	movq	%r8, 160(%rsp)
	movq	%r12, 168(%rsp)
	movq	136(%rsp), %r13
	movq	%r13, 176(%rsp)
	cmovneq	%rbp, %rbx
	leaq	264(%rsp), %rdx
	movq	%rbx, %rdi
	movq	%r14, %rsi
	callq	"mime_lookup::cached::name_types::are_one_type"
	testb	%al, %al
	je	126f
	leaq	160(%rsp), %rax
	leaq	8(%rbp), %rcx
	testb	%r15b, %r15b
	movq	(%rbx), %r14
	cmoveq	%rax, %rcx
	movq	(%rcx), %r11
	cmpb	$1, %r15b
	setne	%al
	testq	%r12, %r12
	sete	%cl
	orb	%al, %cl
	jne	124f
	movq	%rbp, %rdi
123:
	movq	%r11, %rbx
	callq	rattle_dealloc@PLT
	movq	%rbx, %r11
124:
	movl	%r14d, %ebp
	shrl	$8, %ebp
	movl	%r14d, %r12d
	shrl	$16, %r12d
	movq	%r14, %rsi
	shrq	$32, %rsi
	movq	%r14, %r15
	shrq	$48, %r15
125:
	movq	8(%rsp), %rdi
	movzwl	%r15w, %eax
	shlq	$48, %rax
	movzwl	%si, %ecx
	shlq	$32, %rcx
	orq	%rax, %rcx
	shll	$16, %r12d
	orq	%rcx, %r12
	movzbl	%bpl, %eax
	shll	$8, %eax
	orq	%r12, %rax
	movzbl	%r14b, %r9d
	orq	%rax, %r9
	movl	%r11d, %r12d
	shrl	$16, %r12d
	movq	%r11, %rsi
	shrq	$32, %rsi
	movabsq	$-281474976710656, %rbp
	andq	%r11, %rbp
	movb	$1, %al
	movq	%rax, 24(%rsp)
	movl	%r11d, %r13d
	xorl	%r11d, %r11d
	jmp	165f
126:
	leaq	264(%rsp), %rcx
	movq	%rbx, %rdi
	movq	%r14, %rsi
	movq	%r13, %rdx
	callq	"mime_lookup::cached::name_types::count_asked"
	xorl	%r13d, %r13d
	xorl	%r15d, %r15d
	movq	%rbp, %rbx
	movq	16(%rsp), %r14
	movq	%r12, %rbp
	jmp	27b
127:
	movq	136(%rsp), %rcx
	movzbl	48(%rsp), %ebp
	movq	16(%rsp), %r12
128:
	movq	32(%rsp), %r13
129:
	testb	%bpl, %bpl
	movq	88(%rsp), %r15
	movq	24(%rsp), %rax
	movq	%rax, 144(%rsp)
	leaq	152(%rsp), %rbx
	movq	%rcx, 152(%rsp)
	movq	%r12, 16(%rsp)
	movq	%r12, 160(%rsp)
	movq	%r15, 168(%rsp)
	movq	%r13, 176(%rsp)
	cmovneq	%rcx, %rbx
	leaq	192(%rsp), %rdx
	movq	%rbx, %rdi
	movq	%r14, %rsi
	movq	%rcx, %r12
	callq	"mime_lookup::cached::name_types::are_one_type"
	testb	%al, %al
	je	141f
	leaq	160(%rsp), %rax
	leaq	8(%r12), %rcx
	testb	%bpl, %bpl
	movq	(%rbx), %rbx
	cmoveq	%rax, %rcx
	movq	(%rcx), %rdx
	cmpb	$1, %bpl
	setne	%al
	testq	%r15, %r15
	sete	%cl
	orb	%al, %cl
	jne	131f
	movq	%r12, %rdi
130:
	movq	%rdx, %r14
	callq	rattle_dealloc@PLT
	movq	%r14, %rdx
131:
	movl	%ebx, %eax
	shrl	$8, %eax
	movl	%ebx, %r12d
	shrl	$16, %r12d
	movq	%rbx, %r13
	shrq	$32, %r13
	movq	%rbx, %r14
	shrq	$48, %r14
	xorl	%esi, %esi
	movq	8(%rsp), %rdi
132:
	shll	$8, %eax
	movzbl	%bl, %ecx
	orl	%eax, %ecx
	movl	%ecx, 56(%rsp)
	movzwl	%r14w, %r14d
	shlq	$48, %r14
	movb	$1, %bpl
133:
	movq	192(%rsp), %r15
	movq	200(%rsp), %rbx
	cmpb	$1, 368(%rsp)
	movq	%rdx, 40(%rsp)
	movq	%rsi, 16(%rsp)
	jne	136f
	movq	376(%rsp), %rsi
	movq	%rsi, 24(%rsp)
	leaq	688(%rsp), %rdi
	movl	$352, %edx
	callq	memcpy@PLT
	movq	24(%rsp), %rdi
	callq	rattle_dealloc@PLT
	leaq	688(%rsp), %rdi
	callq	"mime_lookup::mime_lookup++read_back++names++IndexedNames+Destruct::drop"
	movq	16(%rsp), %rsi
	movq	40(%rsp), %rdx
	movq	8(%rsp), %rdi
	cmpb	$1, 384(%rsp)
	je	137f
134:
	cmpb	$1, 400(%rsp)
	jne	138f
135:
	movq	408(%rsp), %rsi
	movq	%rsi, 24(%rsp)
	leaq	688(%rsp), %rdi
	movl	$344, %edx
	callq	memcpy@PLT
	movq	24(%rsp), %rdi
	callq	rattle_dealloc@PLT
	leaq	688(%rsp), %rdi
	callq	"mime_lookup::mime_lookup++read_back++pairs++IndexedPairs+Destruct::drop"
	movq	16(%rsp), %rsi
	movq	40(%rsp), %rdx
	movq	8(%rsp), %rdi
	cmpb	$1, 416(%rsp)
	je	139f
	jmp	140f
136:
	cmpb	$1, 384(%rsp)
	jne	134b
137:
	movq	392(%rsp), %rsi
	movq	%rsi, 24(%rsp)
	leaq	688(%rsp), %rdi
	movl	$200, %edx
	callq	memcpy@PLT
	movq	24(%rsp), %rdi
	callq	rattle_dealloc@PLT
	leaq	688(%rsp), %rdi
	callq	"mime_lookup::mime_lookup++indexed++magic_index++MagicIndex+Destruct::drop"
	movq	16(%rsp), %rsi
	movq	40(%rsp), %rdx
	movq	8(%rsp), %rdi
	cmpb	$1, 400(%rsp)
	je	135b
138:
	cmpb	$1, 416(%rsp)
	jne	140f
139:
	movq	424(%rsp), %rsi
	movq	%rsi, 24(%rsp)
	leaq	688(%rsp), %rdi
	movl	$496, %edx
	callq	memcpy@PLT
	movq	24(%rsp), %rdi
	callq	rattle_dealloc@PLT
	leaq	688(%rsp), %rdi
	callq	"mime_lookup::mime_lookup++read_back++icons++IndexedIcons+Destruct::drop"
	movq	16(%rsp), %rsi
	movq	40(%rsp), %rdx
	movq	8(%rsp), %rdi
140:
	movl	56(%rsp), %ecx
	jmp	21b
141:
	leaq	192(%rsp), %rcx
	movq	%rbx, %rdi
	movq	%r14, %rsi
	movq	%r13, %rdx
	callq	"mime_lookup::cached::name_types::count_asked"
	xorl	%edx, %edx
	xorl	%eax, %eax
	movq	8(%rsp), %rdi
	movq	56(%rsp), %r8
	movq	40(%rsp), %rcx
	movq	%r12, %r11
142:
	movq	24(%rsp), %r14
	movq	16(%rsp), %r12
	jmp	31b
143:
	movq	24(%rsp), %rdi
	movq	%r11, %r15
	movq	%rsi, %r14
	callq	rattle_dealloc@PLT
	movq	%r14, %rsi
	movq	%r15, %r11
	movq	16(%rsp), %rbp
	jmp	151f
144:
	movq	392(%rsp), %rsi
	movq	%r9, 1232(%rsp)
	movq	%rdi, 1240(%rsp)
	movq	%r11, 1248(%rsp)
	leaq	144(%rsp), %rdi
	leaq	1232(%rsp), %rdx
	xorl	%ecx, %ecx
	callq	"mime_lookup::cached::sniff::sniff_indexed"
	movq	16(%rsp), %r9
	movzbl	144(%rsp), %edx
	movdqu	152(%rsp), %xmm0
	movdqa	%xmm0, 704(%rsp)
	movl	168(%rsp), %eax
	movq	704(%rsp), %r11
	movq	712(%rsp), %rsi
	movq	40(%rsp), %r10
145:
	movzbl	%dl, %edi
	testb	%r15b, %r15b
	je	146f
	movzbl	%r15b, %edx
	cmpl	$1, %edx
	jne	148f
	movq	%rbp, %r15
	movq	%r9, %rbp
	movq	%r14, 224(%rsp)
	leaq	232(%rsp), %rdx
	movq	24(%rsp), %rcx
	movq	%rcx, 232(%rsp)
	testq	%r14, %r14
	cmovneq	%rcx, %rdx
	movq	48(%rsp), %r8
	movq	%r8, 240(%rsp)
	movl	$1, %ecx
	cmovneq	%r8, %rcx
	movq	%r15, 248(%rsp)
	testq	%rdi, %rdi
	cmoveq	%rcx, %r12
	movq	%rdi, 496(%rsp)
	movq	%r11, 504(%rsp)
	movq	%rsi, 512(%rsp)
	movl	%eax, 520(%rsp)
	leaq	592(%rsp), %rdi
	leaq	296(%rsp), %rsi
	leaq	496(%rsp), %r8
	leaq	264(%rsp), %r9
	movq	%r12, %rcx
	callq	"mime_lookup::cached::by_content::choose"
	movq	%r14, %rax
	movzwl	600(%rsp), %r14d
	movzwl	602(%rsp), %r12d
	movzwl	604(%rsp), %esi
	movq	608(%rsp), %r11
	cmpq	$1, %rax
	setne	%cl
	testq	%r15, %r15
	sete	%al
	orb	%cl, %al
	cmpb	$0, 592(%rsp)
	jne	147f
	movzwl	606(%rsp), %r15d
	jmp	157f
146:
	movq	%rbp, %r15
	movq	%r9, %rbp
	movq	%r14, 64(%rsp)
	leaq	72(%rsp), %rdx
	movq	24(%rsp), %rcx
	movq	%rcx, 72(%rsp)
	movq	48(%rsp), %r8
	movq	%r8, 80(%rsp)
	testq	%r14, %r14
	cmovneq	%rcx, %rdx
	movq	%r15, 88(%rsp)
	movl	$1, %ecx
	cmovneq	%r8, %rcx
	movq	%rdi, 192(%rsp)
	movq	%r11, 200(%rsp)
	movq	%rsi, 208(%rsp)
	movl	%eax, 216(%rsp)
	leaq	624(%rsp), %rdi
	leaq	296(%rsp), %rsi
	leaq	192(%rsp), %r8
	leaq	264(%rsp), %r9
	callq	"mime_lookup::cached::by_content::choose"
	movq	%r14, %rax
	movzwl	632(%rsp), %r14d
	movzwl	634(%rsp), %r12d
	movzwl	636(%rsp), %esi
	movq	640(%rsp), %r11
	cmpq	$1, %rax
	setne	%cl
	testq	%r15, %r15
	sete	%al
	orb	%cl, %al
	cmpb	$0, 624(%rsp)
	je	156f
147:
	movzbl	%r14b, %r13d
	testb	%al, %al
	jne	151f
	movq	24(%rsp), %rdi
	movq	%r11, %r14
	movq	%rsi, %r15
	callq	rattle_dealloc@PLT
	movq	%r15, %rsi
	movq	%r14, %r11
	jmp	151f
148:
	movq	%r9, %rbp
	testq	%rdi, %rdi
	jne	149f
	cmpl	$80, %eax
	jb	149f
	movq	%rdi, 464(%rsp)
	movq	%r11, 472(%rsp)
	movq	%rsi, 480(%rsp)
	movl	%eax, 488(%rsp)
	leaq	560(%rsp), %rdi
	leaq	296(%rsp), %rsi
	leaq	464(%rsp), %rdx
	leaq	264(%rsp), %rcx
	callq	"mime_lookup::cached::sniff::unalias"
	movzwl	568(%rsp), %r14d
	movzwl	570(%rsp), %r12d
	movzwl	572(%rsp), %esi
	movq	576(%rsp), %r11
	cmpb	$0, 560(%rsp)
	jne	150f
	movzwl	574(%rsp), %r15d
	jmp	185f
149:
	movq	%rdi, 432(%rsp)
	movq	%r11, 440(%rsp)
	movq	%rsi, 448(%rsp)
	movl	%eax, 456(%rsp)
	leaq	528(%rsp), %rdi
	leaq	296(%rsp), %rsi
	leaq	432(%rsp), %r8
	leaq	264(%rsp), %r9
	movq	%r10, %rdx
	movq	%r13, %rcx
	callq	"mime_lookup::cached::by_content::by_globs"
	movzwl	536(%rsp), %r14d
	movzwl	538(%rsp), %r12d
	movzwl	540(%rsp), %esi
	movq	544(%rsp), %r11
	cmpb	$0, 528(%rsp)
	je	184f
150:
	movzbl	%r14b, %r13d
151:
	movq	32(%rsp), %rcx
	cmpw	$7, %r13w
	jne	152f
	movl	$3, %r14d
	xorl	%r11d, %r11d
	xorl	%r13d, %r13d
	xorl	%r12d, %r12d
	xorl	%esi, %esi
	jmp	153f
152:
	movl	$1, %r14d
153:
	cmpl	$1, %ebp
	setne	%al
	testq	%rcx, %rcx
	sete	%cl
	orb	%al, %cl
	jne	154f
	movq	%rbx, %rdi
	movq	%r11, %rbx
	movq	%rsi, %r15
	callq	rattle_dealloc@PLT
	movq	%r15, %rsi
	movq	%rbx, %r11
154:
	xorl	%ebp, %ebp
	movq	%r14, %r9
155:
	movq	$0, 24(%rsp)
	movq	8(%rsp), %rdi
	jmp	165f
156:
	movzwl	638(%rsp), %r15d
157:
	testb	%al, %al
	jne	185f
	movq	24(%rsp), %rdi
	movq	%r11, 40(%rsp)
	movq	%rsi, %r13
	callq	rattle_dealloc@PLT
	movq	%r13, %rsi
	movq	40(%rsp), %r11
	jmp	185f
158:
	leaq	256(%rsp), %rcx
	movq	%rbx, %r12
159:
	movq	%r12, %rbx
	cmpb	$1, %al
	movq	%rbp, %r8
	jne	160f
	movq	88(%rsp), %r8
	movq	%r15, %rbx
160:
	movq	%rbx, 232(%rsp)
	movq	%r8, 240(%rsp)
	decq	%r13
	je	186f
	movq	%rbx, 24(%rsp)
	leaq	16(%rcx), %rbx
	movq	-8(%rcx), %r12
	movq	(%rcx), %r8
	pxor	%xmm0, %xmm0
	movdqa	%xmm0, 80(%rsp)
	movdqa	%xmm0, 64(%rsp)
	leaq	64(%rsp), %rdi
	leaq	264(%rsp), %r9
	leaq	312(%rsp), %rsi
	movq	16(%rsp), %rdx
	movq	%r12, %rcx
	movq	%r8, %rbp
	callq	"mime_view::pairs::look_up_pair"
	movzbl	72(%rsp), %eax
	movq	80(%rsp), %r15
	cmpb	$0, 64(%rsp)
	movq	%rbx, %rcx
	je	159b
161:
	movq	8(%rsp), %rdi
	movzwl	76(%rsp), %ebx
	movzbl	%al, %eax
	movzwl	74(%rsp), %ecx
	shll	$16, %ecx
	shlq	$32, %rbx
	orq	%rax, %rbx
	orq	%rcx, %rbx
162:
	movzbl	32(%rsp), %eax
	movl	%ebx, %r12d
	shrl	$16, %r12d
	movq	%rbx, %rsi
	shrq	$32, %rsi
	cmpb	$1, %al
	jne	163f
	cmpq	$0, 248(%rsp)
	je	163f
	movq	24(%rsp), %rdi
	movq	%rsi, %r14
	callq	rattle_dealloc@PLT
	movq	%r14, %rsi
	movq	8(%rsp), %rdi
163:
	movl	%ebx, %ebp
	movq	%r15, %rbx
	movq	%rbx, %r11
	cmpb	$7, %bpl
	je	40b
164:
	movzbl	%bpl, %r13d
	movl	$1, %r9d
	xorl	%ebp, %ebp
	movq	$0, 24(%rsp)
165:
	movq	264(%rsp), %r15
	movq	272(%rsp), %r14
	cmpb	$1, 368(%rsp)
	movq	%r9, 16(%rsp)
	movq	%r11, 40(%rsp)
	movq	%rsi, 56(%rsp)
	jne	170f
	movq	376(%rsp), %rbx
	leaq	688(%rsp), %rdi
	movl	$352, %edx
	movq	%rbx, %rsi
	callq	memcpy@PLT
	movq	%rbx, %rdi
	callq	rattle_dealloc@PLT
	leaq	688(%rsp), %rdi
	callq	"mime_lookup::mime_lookup++read_back++names++IndexedNames+Destruct::drop"
	movq	56(%rsp), %rsi
	movq	40(%rsp), %r11
	movq	16(%rsp), %r9
	movq	8(%rsp), %rdi
	cmpb	$1, 384(%rsp)
	je	171f
166:
	cmpb	$1, 400(%rsp)
	jne	172f
167:
	movq	408(%rsp), %rbx
	leaq	688(%rsp), %rdi
	movl	$344, %edx
	movq	%rbx, %rsi
	callq	memcpy@PLT
	movq	%rbx, %rdi
	callq	rattle_dealloc@PLT
	leaq	688(%rsp), %rdi
	callq	"mime_lookup::mime_lookup++read_back++pairs++IndexedPairs+Destruct::drop"
	movq	56(%rsp), %rsi
	movq	40(%rsp), %r11
	movq	16(%rsp), %r9
	movq	8(%rsp), %rdi
	cmpb	$1, 416(%rsp)
	je	173f
168:
	movq	648(%rsp), %rdx
	cmpb	$0, 24(%rsp)
	je	174f
169:
	movb	$1, %al
	xorl	%ebx, %ebx
	jmp	11b
170:
	cmpb	$1, 384(%rsp)
	jne	166b
171:
	movq	392(%rsp), %rbx
	leaq	688(%rsp), %rdi
	movl	$200, %edx
	movq	%rbx, %rsi
	callq	memcpy@PLT
	movq	%rbx, %rdi
	callq	rattle_dealloc@PLT
	leaq	688(%rsp), %rdi
	callq	"mime_lookup::mime_lookup++indexed++magic_index++MagicIndex+Destruct::drop"
	movq	56(%rsp), %rsi
	movq	40(%rsp), %r11
	movq	16(%rsp), %r9
	movq	8(%rsp), %rdi
	cmpb	$1, 400(%rsp)
	je	167b
172:
	cmpb	$1, 416(%rsp)
	jne	168b
173:
	movq	424(%rsp), %rbx
	leaq	688(%rsp), %rdi
	movl	$496, %edx
	movq	%rbx, %rsi
	callq	memcpy@PLT
	movq	%rbx, %rdi
	callq	rattle_dealloc@PLT
	leaq	688(%rsp), %rdi
	callq	"mime_lookup::mime_lookup++read_back++icons++IndexedIcons+Destruct::drop"
	movq	56(%rsp), %rsi
	movq	40(%rsp), %r11
	movq	16(%rsp), %r9
	movq	8(%rsp), %rdi
	movq	648(%rsp), %rdx
	cmpb	$0, 24(%rsp)
	jne	169b
174:
	movzbl	%r9b, %r9d
	jmp	10b
175:
	leaq	96(%rsp), %rdx
176:
	movq	%r12, %rcx
	cmpb	$1, %al
	movq	16(%rsp), %rax
	jne	177f
	movq	120(%rsp), %rax
	movq	%r15, %rcx
177:
	movq	%rcx, 72(%rsp)
	movq	%rax, 80(%rsp)
	decq	%r13
	je	187f
	movq	%rcx, %r14
	leaq	16(%rdx), %rbx
	movq	-8(%rdx), %r12
	movq	(%rdx), %r8
	pxor	%xmm0, %xmm0
	movdqa	%xmm0, 112(%rsp)
	movdqa	%xmm0, 96(%rsp)
	leaq	96(%rsp), %rdi
	leaq	192(%rsp), %r9
	leaq	312(%rsp), %rsi
	movq	%rbp, %rdx
	movq	%r12, %rcx
	movq	%r8, 16(%rsp)
	callq	"mime_view::pairs::look_up_pair"
	movzbl	104(%rsp), %eax
	movq	112(%rsp), %r15
	cmpb	$0, 96(%rsp)
	movq	%rbx, %rdx
	je	176b
	movq	8(%rsp), %rdi
	movq	%r14, %rdx
	jmp	181f
178:
	leaq	96(%rsp), %rdx
179:
	movq	%rbx, %rcx
	cmpb	$1, %al
	jne	180f
	movq	120(%rsp), %r12
	movq	%r15, %rcx
180:
	movq	%rcx, 72(%rsp)
	movq	%r12, 80(%rsp)
	decq	%r14
	je	189f
	movq	%rcx, %r13
	leaq	16(%rdx), %rbp
	movq	-8(%rdx), %rbx
	movq	(%rdx), %r12
	pxor	%xmm0, %xmm0
	movdqa	%xmm0, 112(%rsp)
	movdqa	%xmm0, 96(%rsp)
	leaq	96(%rsp), %rdi
	leaq	192(%rsp), %r9
	leaq	312(%rsp), %rsi
	movq	16(%rsp), %rdx
	movq	%rbx, %rcx
	movq	%r12, %r8
	callq	"mime_view::pairs::look_up_pair"
	movzbl	104(%rsp), %eax
	movq	112(%rsp), %r15
	cmpb	$0, 96(%rsp)
	movq	%rbp, %rdx
	je	179b
	movq	8(%rsp), %rdi
	movq	%r13, %rdx
181:
	movzwl	108(%rsp), %ebx
	movzbl	%al, %eax
	movzwl	106(%rsp), %ecx
	shll	$16, %ecx
	shlq	$32, %rbx
	orq	%rax, %rbx
	orq	%rcx, %rbx
182:
	movzbl	48(%rsp), %eax
	movl	%ebx, %r12d
	shrl	$16, %r12d
	movq	%rbx, %r13
	shrq	$32, %r13
	cmpb	$1, %al
	jne	183f
	cmpq	$0, 88(%rsp)
	je	183f
	movq	%rdx, %rdi
	callq	rattle_dealloc@PLT
	movq	8(%rsp), %rdi
183:
	movl	%ebx, %ebp
	movq	%r15, %rcx
	jmp	43b
184:
	movzwl	542(%rsp), %r15d
185:
	movq	32(%rsp), %rcx
	cmpl	$1, %ebp
	setne	%al
	movl	%r14d, %ebp
	shrl	$8, %ebp
	testq	%rcx, %rcx
	sete	%cl
	orb	%al, %cl
	jne	125b
	movq	%rbx, %rdi
	movq	%r11, %rbx
	movq	%rsi, %r13
	callq	rattle_dealloc@PLT
	movq	%r13, %rsi
	movq	%rbx, %r11
	jmp	125b
186:
	movl	$1, %r13d
	jmp	113b
187:
	movq	%rax, 16(%rsp)
	movl	$1, %r13d
	jmp	117b
188:
	movl	$1, %r14d
	jmp	121b
189:
	movl	$1, %r14d
	movzbl	48(%rsp), %ebp
	jmp	128b
190:
	ud2
191:
	.size	look_up_with, 191b-look_up_with
	.section	.rodata,"a",@progbits
	.p2align	2, 0x0
192:
	.long	25b-192b
	.long	63b-192b
	.long	59b-192b
	.long	60b-192b
	.long	58b-192b
	.long	64b-192b
	.long	65b-192b
	.long	62b-192b
193:
	.long	13b-193b
	.long	14b-193b
	.long	190b-193b
	.long	16b-193b
194:
	.long	15b-194b
	.long	50b-194b
	.long	46b-194b
	.long	47b-194b
	.long	45b-194b
	.long	51b-194b
	.long	52b-194b
	.long	49b-194b

	.text
	.globl	mimelook_check
	.p2align	4
	.type	mimelook_check,@function
mimelook_check:
	movq	%rdi, %rax
	cmpq	$39, %rdx
	ja	1f
	xorps	%xmm0, %xmm0
	movaps	%xmm0, -24(%rsp)
	movq	$0, -8(%rsp)
	movl	$5, %esi
	xorl	%edx, %edx
	xorl	%edi, %edi
	xorl	%ecx, %ecx
	jmp	3f
1:
	xorl	%ecx, %ecx
	testq	%rsi, %rsi
	sete	%cl
	shll	$12, %ecx
	movl	(%rsi,%rcx), %ecx
	xorps	%xmm0, %xmm0
	movaps	%xmm0, -24(%rsp)
	movq	$0, -8(%rsp)
	cmpl	$33554688, %ecx
	jne	2f
	xorl	%edi, %edi
	cmpq	$268435457, %rdx
	movl	$7, %esi
	cmovbl	%edi, %esi
	movl	$1, %edx
	xorl	%ecx, %ecx
	jmp	3f
2:
	bswapl	%ecx
	movl	%ecx, %edi
	shrl	$16, %edi
	movl	$6, %esi
	movl	$1, %edx
3:
	movl	%esi, (%rax)
	movw	%di, 4(%rax)
	movw	%cx, 6(%rax)
	movups	%xmm0, 8(%rax)
	movq	%rdx, 24(%rax)
	movq	$0, 32(%rax)
	movaps	-24(%rsp), %xmm0
	movups	%xmm0, 40(%rax)
	movq	-8(%rsp), %rcx
	movq	%rcx, 56(%rax)
	retq
4:
	.size	mimelook_check, 4b-mimelook_check

	.text
	.globl	mimelook_database_extent
	.p2align	4
	.type	mimelook_database_extent,@function
mimelook_database_extent:
	movq	%rdi, %rax
	testq	%rsi, %rsi
	je	1f
	movq	24(%rsi), %rdi
	movl	56(%rsi), %ecx
	subq	%rcx, %rdi
	setb	%r8b
	cmpq	$12, %rdi
	setb	%dil
	orb	%r8b, %dil
	je	2f
	xorps	%xmm0, %xmm0
	movaps	%xmm0, -24(%rsp)
	movq	$0, -8(%rsp)
	movl	$8, %esi
	movl	$1, %edx
	jmp	3f
1:
	xorps	%xmm0, %xmm0
	movaps	%xmm0, -24(%rsp)
	movq	$0, -8(%rsp)
	movl	$14, %esi
	xorl	%ecx, %ecx
	xorl	%edx, %edx
	jmp	3f
2:
	movq	16(%rsi), %rsi
	movl	4(%rsi,%rcx), %ecx
	bswapl	%ecx
	movq	%rcx, (%rdx)
	xorps	%xmm0, %xmm0
	movaps	%xmm0, -24(%rsp)
	movq	$0, -8(%rsp)
	xorl	%ecx, %ecx
	movl	$1, %edx
	xorl	%esi, %esi
3:
	movl	%esi, (%rax)
	movl	$0, 4(%rax)
	movq	%rcx, 8(%rax)
	movq	$0, 16(%rax)
	movq	%rdx, 24(%rax)
	movq	$0, 32(%rax)
	movaps	-24(%rsp), %xmm0
	movups	%xmm0, 40(%rax)
	movq	-8(%rsp), %rcx
	movq	%rcx, 56(%rax)
	retq
4:
	.size	mimelook_database_extent, 4b-mimelook_database_extent

	.text
	.globl	mimelook_database_hits
	.p2align	4
	.type	mimelook_database_hits,@function
mimelook_database_hits:
	pushq	%rbp
	pushq	%r15
	pushq	%r14
	pushq	%r13
	pushq	%r12
	pushq	%rbx
	subq	$264, %rsp
	movq	%rsi, %r14
	movq	%rdi, %rbx
	xorl	%eax, %eax
	testq	%rdx, %rdx
	sete	%sil
	xorl	%ebp, %ebp
	testq	%r8, %r8
	sete	%r13b
	testq	%r14, %r14
	je	1f
	cmpq	$4097, %rcx
	jb	3f
	pxor	%xmm2, %xmm2
	movdqa	%xmm2, 48(%rsp)
	movq	$0, 64(%rsp)
	movl	$1, %ecx
	jmp	2f
1:
	pxor	%xmm2, %xmm2
	movdqa	%xmm2, 48(%rsp)
	movq	$0, 64(%rsp)
	movl	$14, %ecx
2:
	xorl	%edx, %edx
	xorl	%r8d, %r8d
	xorl	%esi, %esi
	jmp	26f
3:
	movq	%rcx, 144(%rsp)
	movq	%r9, 40(%rsp)
	movq	%r8, 32(%rsp)
	movb	%sil, %al
	shll	$12, %eax
	addq	%rax, %rdx
	movq	%rdx, 136(%rsp)
	xorps	%xmm0, %xmm0
	movaps	%xmm0, 208(%rsp)
	movq	%r14, %rdi
	callq	"mime_c::database::open_database::OpenDatabase::read_paid"
	xorps	%xmm0, %xmm0
	movq	24(%r14), %rax
	movq	%rax, %r12
	shrq	$2, %r12
	movq	%r12, 224(%rsp)
	movq	%rax, 232(%rsp)
	movaps	%xmm0, 96(%rsp)
	movaps	%xmm0, 80(%rsp)
	movq	$0, 112(%rsp)
	cmpb	$1, 72(%r14)
	jne	13f
	movq	80(%r14), %rsi
	addq	$16, %rsi
	movaps	%xmm0, 240(%rsp)
	movaps	%xmm0, 176(%rsp)
	movaps	%xmm0, 160(%rsp)
	movq	$0, 192(%rsp)
	leaq	160(%rsp), %rdi
	leaq	240(%rsp), %r8
	movq	136(%rsp), %rdx
	movq	144(%rsp), %rcx
	callq	"mime_names::ranked::ranked_rules"
	cmpb	$0, 160(%rsp)
	je	5f
4:
	movw	$7, 88(%rsp)
	pxor	%xmm2, %xmm2
	movdqu	%xmm2, 90(%rsp)
	movq	88(%rsp), %rdi
	xorl	%eax, %eax
	movzbl	%dil, %esi
	movl	$5, %ecx
	xorl	%edx, %edx
	leaq	36f(%rip), %r8
	movslq	(%r8,%rsi,4), %r9
	addq	%r8, %r9
	xorl	%r8d, %r8d
	jmpq	*%r9
5:
	movq	168(%rsp), %rsi
	movq	176(%rsp), %r11
	movq	184(%rsp), %r9
	movq	192(%rsp), %r15
	testq	%r11, %r11
	je	7f
	movabsq	$384307168202282325, %rax
	cmpq	%rax, %r11
	ja	6f
	leaq	(,%r11,8), %rax
	leaq	(%rax,%rax,2), %rdi
	movq	%rsi, 16(%rsp)
	movl	$8, %esi
	movq	%r11, 24(%rsp)
	movq	%r9, 128(%rsp)
	callq	rattle_alloc@PLT
	movq	128(%rsp), %r9
	movq	16(%rsp), %rsi
	movq	24(%rsp), %r11
	testb	$1, %al
	je	6f
	movq	%rdx, %rdi
	cmpq	$1, %r11
	jne	8f
	xorl	%eax, %eax
	movq	32(%rsp), %rcx
	movq	40(%rsp), %rdx
	jmp	10f
6:
	testq	%r9, %r9
	je	4b
	movq	%rsi, %rdi
	callq	rattle_dealloc@PLT
	movw	$7, 88(%rsp)
	pxor	%xmm2, %xmm2
	movdqu	%xmm2, 90(%rsp)
	movq	88(%rsp), %rdi
	xorl	%eax, %eax
	movzbl	%dil, %esi
	movl	$5, %ecx
	xorl	%edx, %edx
	leaq	36f(%rip), %r8
	movslq	(%r8,%rsi,4), %r9
	addq	%r8, %r9
	xorl	%r8d, %r8d
	jmpq	*%r9
7:
	leaq	8(%rsp), %rdi
	movq	32(%rsp), %rcx
	movq	40(%rsp), %rdx
	jmp	11f
8:
	movabsq	$576460752303423486, %rcx
	andq	%r11, %rcx
	leaq	42(%rdi), %r8
	xorl	%eax, %eax
	movq	40(%rsp), %rdx
9:
	movq	(%rsi,%rax,8), %r9
	movzwl	60(%r9), %r10d
	movups	16(%r9), %xmm0
	movups	%xmm0, -42(%r8)
	movw	%r10w, -26(%r8)
	movw	$0, -20(%r8)
	movl	$0, -24(%r8)
	movq	8(%rsi,%rax,8), %r9
	movzwl	60(%r9), %r10d
	movups	16(%r9), %xmm0
	movups	%xmm0, -18(%r8)
	movw	%r10w, -2(%r8)
	movw	$0, 4(%r8)
	movl	$0, (%r8)
	addq	$2, %rax
	addq	$48, %r8
	cmpq	%rax, %rcx
	jne	9b
	testb	$1, %r11b
	movq	32(%rsp), %rcx
	movq	128(%rsp), %r9
	je	11f
10:
	movq	%rcx, %r8
	movq	16(%rsp), %rcx
	movq	(%rcx,%rax,8), %rsi
	movq	%r8, %rcx
	movzwl	60(%rsi), %r8d
	leaq	(%rax,%rax,2), %rax
	movups	16(%rsi), %xmm0
	movq	16(%rsp), %rsi
	movups	%xmm0, (%rdi,%rax,8)
	movw	%r8w, 16(%rdi,%rax,8)
	movw	$0, 22(%rdi,%rax,8)
	movl	$0, 18(%rdi,%rax,8)
11:
	testq	%r9, %r9
	je	12f
	movq	%rdi, 16(%rsp)
	movq	%rsi, %rdi
	movq	%r11, 24(%rsp)
	callq	rattle_dealloc@PLT
	movq	24(%rsp), %r11
	movq	40(%rsp), %rdx
	movq	16(%rsp), %rdi
	movq	32(%rsp), %rcx
12:
	cmpq	%r12, %r11
	jbe	27f
	callq	rattle_dealloc@PLT
13:
	leaq	16(%r14), %rsi
	leaq	80(%rsp), %rdi
	leaq	208(%rsp), %r8
	leaq	224(%rsp), %r9
	movq	136(%rsp), %rdx
	movq	144(%rsp), %rcx
	callq	"mime_view::cache::Cache::rule_hits"
	movq	88(%rsp), %rdi
	movq	96(%rsp), %rax
	cmpb	$0, 80(%rsp)
	movdqa	208(%rsp), %xmm2
	je	15f
	movzbl	%dil, %esi
	movl	$5, %ecx
	xorl	%edx, %edx
	leaq	36f(%rip), %r8
	movslq	(%r8,%rsi,4), %r9
	addq	%r8, %r9
	xorl	%r8d, %r8d
	jmpq	*%r9
14:
	movq	%rdi, %r8
	shrq	$32, %r8
	shrl	$16, %edi
	movl	$6, %ecx
	xorl	%esi, %esi
	movl	%edi, %edx
	jmp	25f
15:
	movq	104(%rsp), %r11
	movq	112(%rsp), %r15
	movq	32(%rsp), %rcx
	movq	40(%rsp), %rdx
	movzbl	136(%r14), %r8d
	cmpq	$1, %r8
	jne	28f
16:
	movq	144(%r14), %rsi
	movq	%xmm2, %r10
	xorl	%r9d, %r9d
	subq	%r10, %rsi
	cmovaeq	%rsi, %r9
	jmp	29f
17:
	movl	$9, %ecx
	jmp	20f
18:
	movl	$7, %ecx
	jmp	24f
19:
	movl	$8, %ecx
20:
	xorl	%edx, %edx
	xorl	%r8d, %r8d
	movq	%rax, %rsi
	jmp	25f
21:
	movl	$2, %ecx
	jmp	24f
22:
	movl	$10, %ecx
	jmp	24f
23:
	movl	$11, %ecx
24:
	xorl	%edx, %edx
	xorl	%r8d, %r8d
	xorl	%esi, %esi
25:
	xorps	%xmm0, %xmm0
	movaps	%xmm0, 48(%rsp)
	movq	$0, 64(%rsp)
26:
	movl	%ecx, (%rbx)
	movw	%dx, 4(%rbx)
	movw	%r8w, 6(%rbx)
	movq	%rsi, 8(%rbx)
	movq	$0, 16(%rbx)
	movdqu	%xmm2, 24(%rbx)
	movaps	48(%rsp), %xmm0
	movups	%xmm0, 40(%rbx)
	movq	64(%rsp), %rax
	movq	%rax, 56(%rbx)
	movq	%rbx, %rax
	addq	$264, %rsp
	popq	%rbx
	popq	%r12
	popq	%r13
	popq	%r14
	popq	%r15
	popq	%rbp
	retq
27:
	pxor	%xmm2, %xmm2
	movq	%r11, %rax
	movzbl	136(%r14), %r8d
	cmpq	$1, %r8
	je	16b
28:
	xorl	%r9d, %r9d
29:
	movq	320(%rsp), %rsi
	movq	%r8, 136(%r14)
	movq	%r9, 144(%r14)
	cmpq	%rax, %rdx
	cmovaeq	%rax, %rdx
	testq	%rdx, %rdx
	je	33f
	movb	%r13b, %bpl
	shll	$12, %ebp
	cmpq	$1, %rdx
	jne	30f
	xorl	%r8d, %r8d
	jmp	32f
30:
	movq	%r11, 24(%rsp)
	movq	%rdx, %r9
	andq	$-2, %r9
	leaq	41(%rdi), %r10
	leaq	(%rcx,%rbp), %r11
	addq	$64, %r11
	xorl	%r8d, %r8d
	.p2align	4
31:
	xorl	%r14d, %r14d
	cmpq	%r15, %r8
	setb	%r14b
	movzbl	-25(%r10), %r12d
	movzbl	-24(%r10), %r13d
	movups	-41(%r10), %xmm0
	movups	%xmm0, -64(%r11)
	movl	%r12d, -48(%r11)
	movw	%r13w, -44(%r11)
	movw	%r14w, -42(%r11)
	xorps	%xmm0, %xmm0
	movups	%xmm0, -40(%r11)
	leaq	1(%r8), %r14
	xorl	%r12d, %r12d
	cmpq	%r15, %r14
	setb	%r12b
	movzbl	-1(%r10), %r14d
	movzbl	(%r10), %r13d
	movups	-17(%r10), %xmm1
	movups	%xmm1, -24(%r11)
	movl	%r14d, -8(%r11)
	movw	%r13w, -4(%r11)
	movw	%r12w, -2(%r11)
	movups	%xmm0, (%r11)
	addq	$2, %r8
	addq	$48, %r10
	addq	$80, %r11
	cmpq	%r9, %r8
	jne	31b
	testb	$1, %dl
	movq	24(%rsp), %r11
	je	33f
32:
	addq	%rbp, %rcx
	leaq	(%r8,%r8,2), %rdx
	xorl	%r9d, %r9d
	cmpq	%r15, %r8
	setb	%r9b
	movzbl	16(%rdi,%rdx,8), %r10d
	movq	%r11, %r14
	movzbl	17(%rdi,%rdx,8), %r11d
	leaq	(%r8,%r8,4), %r8
	movups	(%rdi,%rdx,8), %xmm0
	movups	%xmm0, (%rcx,%r8,8)
	movl	%r10d, 16(%rcx,%r8,8)
	movw	%r11w, 20(%rcx,%r8,8)
	movq	%r14, %r11
	movw	%r9w, 22(%rcx,%r8,8)
	xorps	%xmm0, %xmm0
	movups	%xmm0, 24(%rcx,%r8,8)
33:
	movq	%rax, (%rsi)
	xorps	%xmm0, %xmm0
	movaps	%xmm0, 48(%rsp)
	movq	$0, 64(%rsp)
	testq	%r11, %r11
	je	34f
	movdqa	%xmm2, 144(%rsp)
	callq	rattle_dealloc@PLT
	movdqa	144(%rsp), %xmm2
34:
	xorl	%ecx, %ecx
	jmp	2b
35:
	.size	mimelook_database_hits, 35b-mimelook_database_hits
	.section	.rodata,"a",@progbits
	.p2align	2, 0x0
36:
	.long	25b-36b
	.long	14b-36b
	.long	18b-36b
	.long	19b-36b
	.long	17b-36b
	.long	22b-36b
	.long	23b-36b
	.long	21b-36b

	.section	.rodata.cst16,"aM",@progbits,16
	.p2align	4, 0x0
1:
	.zero	16,47
2:
	.zero	16,45
	.text
	.globl	mimelook_database_icons
	.p2align	4
	.type	mimelook_database_icons,@function
mimelook_database_icons:
	pushq	%rbp
	pushq	%r15
	pushq	%r14
	pushq	%r13
	pushq	%r12
	pushq	%rbx
	subq	$1224, %rsp
	movq	%rcx, %r13
	movq	%rdi, %rbx
	xorl	%eax, %eax
	testq	%rdx, %rdx
	sete	%cl
	testq	%r8, %r8
	sete	%bpl
	cmpq	$0, 1280(%rsp)
	sete	%r15b
	xorps	%xmm1, %xmm1
	movaps	%xmm1, 1072(%rsp)
	movq	$0, 1088(%rsp)
	movaps	%xmm1, 608(%rsp)
	movq	$0, 624(%rsp)
	testq	%rsi, %rsi
	je	3f
	movq	%rdx, %r12
	movq	%rsi, 176(%rsp)
	movq	%r9, 8(%rsp)
	movq	%r8, (%rsp)
	movb	%cl, %al
	shll	$12, %eax
	addq	%rax, %r12
	pxor	%xmm0, %xmm0
	movdqa	%xmm0, 640(%rsp)
	movq	$0, 656(%rsp)
	movq	%r12, %rdi
	movq	%r13, %rsi
	callq	"mime_base::names::is_type_name"
	testb	%al, %al
	je	4f
	pxor	%xmm0, %xmm0
	movdqa	%xmm0, 880(%rsp)
	movdqa	%xmm0, 896(%rsp)
	movdqa	%xmm0, 912(%rsp)
	movdqa	%xmm0, 928(%rsp)
	movdqa	%xmm0, 944(%rsp)
	movdqa	%xmm0, 960(%rsp)
	movdqa	%xmm0, 976(%rsp)
	movdqa	%xmm0, 992(%rsp)
	movdqa	%xmm0, 1008(%rsp)
	movdqa	%xmm0, 1104(%rsp)
	movdqa	%xmm0, 688(%rsp)
	movdqa	%xmm0, 704(%rsp)
	movdqa	%xmm0, 720(%rsp)
	movq	$0, 736(%rsp)
	movdqa	%xmm0, 496(%rsp)
	movq	$0, 512(%rsp)
	movdqa	%xmm0, 1040(%rsp)
	movdqa	%xmm0, 752(%rsp)
	movdqa	%xmm0, 768(%rsp)
	movdqa	%xmm0, 784(%rsp)
	movq	$0, 800(%rsp)
	movq	176(%rsp), %r14
	movq	%r14, %rdi
	callq	"mime_c::database::open_database::OpenDatabase::read_paid"
	pxor	%xmm0, %xmm0
	movdqa	%xmm0, 672(%rsp)
	movdqa	%xmm0, 544(%rsp)
	movdqa	%xmm0, 560(%rsp)
	movdqa	%xmm0, 576(%rsp)
	movq	$0, 592(%rsp)
	movq	$0, 408(%rsp)
	movq	$1, 400(%rsp)
	movdqa	%xmm0, 1184(%rsp)
	movdqa	%xmm0, 1120(%rsp)
	movdqa	%xmm0, 1136(%rsp)
	movdqa	%xmm0, 1152(%rsp)
	movq	$0, 1168(%rsp)
	movdqa	%xmm0, 1056(%rsp)
	movdqa	%xmm0, 816(%rsp)
	movdqa	%xmm0, 832(%rsp)
	movdqa	%xmm0, 848(%rsp)
	movq	$0, 864(%rsp)
	cmpb	$1, 120(%r14)
	movb	%bpl, 31(%rsp)
	movb	%r15b, 30(%rsp)
	jne	5f
	movq	128(%r14), %r14
	movdqa	%xmm0, 1200(%rsp)
	movdqa	%xmm0, 336(%rsp)
	movdqa	%xmm0, 352(%rsp)
	movdqa	%xmm0, 368(%rsp)
	movq	$0, 384(%rsp)
	leaq	16(%r14), %rdi
	movdqa	%xmm0, 416(%rsp)
	movdqa	%xmm0, 528(%rsp)
	movdqa	%xmm0, 432(%rsp)
	movdqa	%xmm0, 448(%rsp)
	movdqa	%xmm0, 464(%rsp)
	movq	$0, 480(%rsp)
	movq	%r12, %rsi
	movq	%r13, %rdx
	callq	"mime_lookup::read_back::targets::target_of"
	movq	%rax, %r12
	movq	%rdx, %r13
	pxor	%xmm0, %xmm0
	movdqa	%xmm0, 32(%rsp)
	movq	$0, 48(%rsp)
	cmpq	$8, %rdx
	jb	6f
	movq	%r13, %rax
	shrq	%rax
	movq	-4(%r12,%rax), %rax
	leaq	(%rax,%rax,2), %rcx
	addq	-8(%r12,%r13), %rcx
	movabsq	$-4658895280553007687, %rax
	imulq	%rcx, %rax
	shrq	$49, %rax
	andl	$-2, %eax
	jmp	7f
3:
	movl	$14, %r14d
	xorl	%r15d, %r15d
	xorps	%xmm5, %xmm5
	jmp	47f
4:
	movl	$3, %r14d
	xorl	%r15d, %r15d
	xorps	%xmm5, %xmm5
	xorps	%xmm1, %xmm1
	jmp	46f
5:
	movdqa	%xmm0, 288(%rsp)
	movdqa	%xmm0, 416(%rsp)
	movdqa	%xmm0, 432(%rsp)
	movdqa	%xmm0, 448(%rsp)
	movdqa	%xmm0, 464(%rsp)
	movq	$0, 480(%rsp)
	cmpb	$1, 72(%r14)
	jne	8f
	movl	$192, %edi
	addq	80(%r14), %rdi
	movq	%r12, %rsi
	movq	%r13, %rdx
	callq	"mime_lookup::read_back::targets::target_of"
	movq	176(%rsp), %r14
	movq	%rax, %r12
	movq	%rdx, %r13
	jmp	10f
6:
	xorl	%eax, %eax
7:
	movq	176(%r14), %rcx
	movzwl	(%rcx,%rax), %eax
	cmpq	%rax, 208(%r14)
	movq	%r14, 280(%rsp)
	jbe	33f
	movq	200(%r14), %r15
	shll	$3, %eax
	leaq	(%rax,%rax,4), %rbp
	cmpq	%r13, 8(%r15,%rbp)
	jne	30f
	movq	(%r15,%rbp), %rdi
	cmpq	$4, %r13
	jae	15f
	testq	%r13, %r13
	je	16f
	movzbl	(%rdi), %eax
	cmpb	(%r12), %al
	jne	28f
	cmpq	$1, %r13
	je	16f
	movzbl	1(%rdi), %ecx
	movl	$1, %eax
	cmpb	1(%r12), %cl
	jne	29f
	cmpq	$2, %r13
	je	16f
	movzbl	2(%rdi), %ecx
	movl	$2, %eax
	cmpb	2(%r12), %cl
	je	16f
	jmp	29f
8:
	leaq	16(%r14), %rsi
	movdqa	%xmm0, 48(%rsp)
	movdqa	%xmm0, 32(%rsp)
	movl	36(%r14), %edx
	leaq	32(%rsp), %rdi
	leaq	400(%rsp), %r9
	movq	%r12, %rcx
	movq	%r13, %r8
	callq	"mime_view::pairs::look_up_pair"
	movzbl	40(%rsp), %ebp
	movq	48(%rsp), %r15
	cmpb	$0, 32(%rsp)
	jne	11f
	cmpb	$1, %bpl
	jne	9f
	movq	56(%rsp), %r13
	movq	%r15, %r12
9:
	movq	176(%rsp), %r14
10:
	leaq	16(%r14), %rsi
	pxor	%xmm0, %xmm0
	movdqa	%xmm0, 48(%rsp)
	movdqa	%xmm0, 32(%rsp)
	movl	64(%r14), %edx
	leaq	32(%rsp), %rdi
	leaq	400(%rsp), %r9
	movq	%rsi, 280(%rsp)
	movq	%r12, %rcx
	movq	%r13, %r8
	callq	"mime_view::pairs::look_up_pair"
	movzbl	40(%rsp), %ebp
	movq	48(%rsp), %r15
	cmpb	$0, 32(%rsp)
	je	14f
11:
	movss	42(%rsp), %xmm1
	cmpb	$7, %bpl
	je	43f
12:
	movzbl	%bpl, %eax
	pxor	%xmm0, %xmm0
	leaq	141f(%rip), %rcx
	movslq	(%rcx,%rax,4), %rdx
	addq	%rcx, %rdx
	jmpq	*%rdx
13:
	movl	$5, %r14d
	movq	%rax, %r15
	jmp	25f
14:
	movq	56(%rsp), %rax
	movq	%rax, 16(%rsp)
	pxor	%xmm0, %xmm0
	movdqa	%xmm0, 48(%rsp)
	movdqa	%xmm0, 32(%rsp)
	movl	68(%r14), %edx
	leaq	32(%rsp), %rdi
	leaq	400(%rsp), %r9
	movq	280(%rsp), %rsi
	movq	%r12, %rcx
	movq	%r13, %r8
	callq	"mime_view::pairs::look_up_pair"
	movzbl	40(%rsp), %ecx
	movq	48(%rsp), %rax
	cmpb	$0, 32(%rsp)
	je	17f
	movss	42(%rsp), %xmm1
	movq	%rax, %r15
	movl	%ecx, %ebp
	cmpb	$7, %bpl
	jne	12b
	jmp	43f
15:
	movl	(%rdi), %eax
	cmpl	(%r12), %eax
	jne	30f
	movq	%r13, %rsi
	movq	%r12, %rdx
	callq	"core::cmp::slices::groups_equal::<i8,31'core::cmp::numbers::U8PartialEq{}>"
	testb	%al, %al
	je	30f
16:
	movq	16(%r15,%rbp), %rsi
	movq	24(%r15,%rbp), %r15
	jmp	31f
17:
	movq	16(%rsp), %r14
	movq	%rax, 520(%rsp)
	movq	56(%rsp), %rax
	movq	%rax, 280(%rsp)
	cmpb	$1, %bpl
	jne	27f
	movl	%ecx, %ebp
	pxor	%xmm0, %xmm0
	movdqa	%xmm0, 80(%rsp)
	movdqa	%xmm0, 64(%rsp)
	movdqa	%xmm0, 48(%rsp)
	movdqa	%xmm0, 32(%rsp)
	movq	$0, 96(%rsp)
	cmpq	$49, %r14
	jb	56f
	leaq	32(%rsp), %rdi
	movq	%r15, %rsi
	movq	%r14, %rdx
	callq	"smallvec::small_vec::SmallVec::from_slice::<#58247b01769054f4>"
	cmpb	$0, 32(%rsp)
	je	128f
	pxor	%xmm0, %xmm0
	movdqa	%xmm0, 336(%rsp)
	xorps	%xmm1, %xmm1
	movb	$1, %al
	xorl	%r14d, %r14d
	xorl	%edx, %edx
	jmp	64f
18:
	movl	$9, %r14d
	jmp	25f
19:
	movl	$7, %r14d
	jmp	24f
20:
	movl	$8, %r14d
	jmp	25f
21:
	movl	$6, %r14d
	xorl	%r15d, %r15d
	jmp	26f
22:
	movl	$10, %r14d
	jmp	24f
23:
	movl	$11, %r14d
24:
	xorl	%r15d, %r15d
25:
	xorps	%xmm1, %xmm1
26:
	movaps	400(%rsp), %xmm5
	movdqa	%xmm0, 32(%rsp)
	movq	$0, 48(%rsp)
	jmp	44f
27:
	pxor	%xmm0, %xmm0
	movdqa	%xmm0, 112(%rsp)
	movdqa	%xmm0, 128(%rsp)
	movdqa	%xmm0, 144(%rsp)
	movdqa	%xmm0, 32(%rsp)
	movdqa	%xmm0, 48(%rsp)
	movdqa	%xmm0, 64(%rsp)
	movdqa	%xmm0, 80(%rsp)
	movq	$0, 96(%rsp)
	movl	%ecx, %ebp
	cmpq	$49, %r13
	jae	127f
	leaq	112(%rsp), %rax
	subq	%r12, %rax
	leaq	112(%rsp), %rdi
	movq	%r12, %rsi
	movq	%r13, %rdx
	cmpq	%r13, %rax
	jae	57f
	callq	memcpy@PLT
	jmp	58f
28:
	xorl	%eax, %eax
29:
	cmpq	%r13, %rax
	jae	16b
30:
	cmpb	$0, 32(%r15,%rbp)
	je	32f
	leaq	176(%r14), %rsi
	leaq	32(%rsp), %rdi
	movq	%r12, %rdx
	movq	%r13, %rcx
	callq	"mime_lookup::name_map::other_value::<#643ceef07a9c3c2a>"
	movq	40(%rsp), %rsi
	movq	48(%rsp), %r15
	cmpb	$1, 32(%rsp)
	pxor	%xmm0, %xmm0
	movdqa	%xmm0, 288(%rsp)
	jne	34f
31:
	pxor	%xmm0, %xmm0
	movdqa	%xmm0, 80(%rsp)
	movdqa	%xmm0, 64(%rsp)
	movdqa	%xmm0, 48(%rsp)
	movdqa	%xmm0, 32(%rsp)
	movq	$0, 96(%rsp)
	cmpq	$49, %r15
	jb	51f
	leaq	32(%rsp), %rdi
	movq	%r15, %rdx
	callq	"smallvec::small_vec::SmallVec::from_slice::<#58247b01769054f4>"
	cmpb	$0, 32(%rsp)
	je	55f
	pxor	%xmm0, %xmm0
	movdqa	%xmm0, 288(%rsp)
	xorps	%xmm1, %xmm1
	movb	$1, %al
	xorl	%r14d, %r14d
	xorl	%edx, %edx
	jmp	42f
32:
	pxor	%xmm0, %xmm0
33:
	movdqa	%xmm0, 288(%rsp)
34:
	movdqa	%xmm0, 112(%rsp)
	movdqa	%xmm0, 128(%rsp)
	movdqa	%xmm0, 144(%rsp)
	movdqa	%xmm0, 32(%rsp)
	movdqa	%xmm0, 48(%rsp)
	movdqa	%xmm0, 64(%rsp)
	movdqa	%xmm0, 80(%rsp)
	movq	$0, 96(%rsp)
	cmpq	$49, %r13
	jae	54f
	leaq	112(%rsp), %rax
	subq	%r12, %rax
	leaq	112(%rsp), %rdi
	movq	%r12, %rsi
	movq	%r13, %rdx
	cmpq	%r13, %rax
	jae	35f
	callq	memcpy@PLT
	jmp	36f
35:
	callq	memmove@PLT
36:
	movdqa	1b(%rip), %xmm1
	movdqa	112(%rsp), %xmm2
	movdqa	128(%rsp), %xmm3
	movdqa	144(%rsp), %xmm4
	movdqa	%xmm2, %xmm0
	pcmpeqb	%xmm1, %xmm0
	movdqa	2b(%rip), %xmm5
	pblendvb	%xmm0, %xmm5, %xmm2
	movdqa	%xmm2, 112(%rsp)
	movdqa	%xmm3, %xmm0
	pcmpeqb	%xmm1, %xmm0
	pblendvb	%xmm0, %xmm5, %xmm3
	pcmpeqb	%xmm4, %xmm1
	movdqa	%xmm1, %xmm0
	pblendvb	%xmm0, %xmm5, %xmm4
	movdqa	%xmm3, 128(%rsp)
	movdqa	%xmm4, 144(%rsp)
	movdqu	%xmm4, 232(%rsp)
	movdqu	%xmm3, 216(%rsp)
	movdqu	%xmm2, 200(%rsp)
	movq	$0, 192(%rsp)
	movq	$48, 248(%rsp)
	cmpq	$48, %r13
	jne	38f
37:
	xorl	%edx, %edx
	jmp	40f
38:
	leaq	200(%rsp), %rdi
	addq	%r13, %rdi
	movl	$48, %edx
	subq	%r13, %rdx
	xorl	%esi, %esi
	callq	memset@PLT
	movq	%r13, 248(%rsp)
39:
	movzbl	192(%rsp), %edx
40:
	movq	200(%rsp), %r14
	movups	208(%rsp), %xmm1
	movdqu	224(%rsp), %xmm0
	movq	240(%rsp), %rax
	movq	%rax, 288(%rsp)
	movq	248(%rsp), %rax
	movq	%rax, 296(%rsp)
41:
	xorl	%eax, %eax
42:
	movq	288(%rsp), %rcx
	movq	%rcx, 528(%rsp)
	movq	296(%rsp), %rcx
	movq	%rcx, 536(%rsp)
	testb	%al, %al
	je	48f
43:
	movaps	400(%rsp), %xmm5
	xorps	%xmm1, %xmm1
	movaps	%xmm1, 32(%rsp)
	movq	$0, 48(%rsp)
	movl	$2, %r14d
	xorl	%r15d, %r15d
44:
	movq	48(%rsp), %rax
	movq	%rax, 512(%rsp)
	movaps	32(%rsp), %xmm0
	movaps	%xmm0, 496(%rsp)
45:
	movq	512(%rsp), %rax
	movq	%rax, 656(%rsp)
	movdqa	496(%rsp), %xmm0
	movdqa	%xmm0, 640(%rsp)
46:
	movq	656(%rsp), %rax
	movq	%rax, 1088(%rsp)
	movaps	640(%rsp), %xmm0
	movaps	%xmm0, 1072(%rsp)
	movaps	%xmm0, 608(%rsp)
	movq	%rax, 624(%rsp)
47:
	movl	%r14d, (%rbx)
	movss	%xmm1, 4(%rbx)
	movq	%r15, 8(%rbx)
	movq	$0, 16(%rbx)
	movups	%xmm5, 24(%rbx)
	movaps	608(%rsp), %xmm0
	movups	%xmm0, 40(%rbx)
	movq	624(%rsp), %rax
	movq	%rax, 56(%rbx)
	movq	%rbx, %rax
	addq	$1224, %rsp
	popq	%rbx
	popq	%r12
	popq	%r13
	popq	%r14
	popq	%r15
	popq	%rbp
	retq
48:
	movdqa	%xmm0, 1024(%rsp)
	movq	528(%rsp), %rax
	movq	%rax, 416(%rsp)
	movq	536(%rsp), %rax
	movq	%rax, 424(%rsp)
	pxor	%xmm0, %xmm0
	movdqa	%xmm0, 32(%rsp)
	movq	$0, 48(%rsp)
	cmpq	$8, %r13
	jb	49f
	movq	%r13, %rax
	shrq	%rax
	movq	-4(%r12,%rax), %rax
	leaq	(%rax,%rax,2), %rcx
	addq	-8(%r12,%r13), %rcx
	movabsq	$-4658895280553007687, %rax
	imulq	%rcx, %rax
	shrq	$49, %rax
	andl	$-2, %eax
	jmp	50f
49:
	xorl	%eax, %eax
50:
	movq	280(%rsp), %rsi
	movq	336(%rsi), %rcx
	movzwl	(%rcx,%rax), %eax
	cmpq	%rax, 368(%rsi)
	movq	%rdx, 16(%rsp)
	movaps	%xmm1, 256(%rsp)
	jbe	72f
	movq	360(%rsi), %r15
	shll	$3, %eax
	leaq	(%rax,%rax,4), %rbp
	cmpq	%r13, 8(%r15,%rbp)
	jne	70f
	movq	(%r15,%rbp), %rdi
	cmpq	$4, %r13
	jae	52f
	testq	%r13, %r13
	je	53f
	movzbl	(%rdi), %eax
	cmpb	(%r12), %al
	jne	68f
	cmpq	$1, %r13
	je	53f
	movzbl	1(%rdi), %ecx
	movl	$1, %eax
	cmpb	1(%r12), %cl
	jne	69f
	cmpq	$2, %r13
	je	53f
	movzbl	2(%rdi), %ecx
	movl	$2, %eax
	cmpb	2(%r12), %cl
	je	53f
	jmp	69f
51:
	movdqa	%xmm0, 144(%rsp)
	movdqa	%xmm0, 128(%rsp)
	movdqa	%xmm0, 112(%rsp)
	leaq	112(%rsp), %rdi
	movq	%r15, %rdx
	callq	memcpy@PLT
	movdqa	112(%rsp), %xmm0
	movdqa	128(%rsp), %xmm1
	movdqa	144(%rsp), %xmm2
	movdqu	%xmm2, 232(%rsp)
	movdqu	%xmm1, 216(%rsp)
	movdqu	%xmm0, 200(%rsp)
	movq	$0, 192(%rsp)
	movq	$48, 248(%rsp)
	cmpq	$48, %r15
	je	37b
	leaq	200(%rsp), %rdi
	addq	%r15, %rdi
	movl	$48, %edx
	subq	%r15, %rdx
	xorl	%esi, %esi
	callq	memset@PLT
	movq	%r15, 248(%rsp)
	jmp	39b
52:
	movl	(%rdi), %eax
	cmpl	(%r12), %eax
	jne	70f
	movq	%r13, %rsi
	movq	%r12, %rdx
	callq	"core::cmp::slices::groups_equal::<i8,31'core::cmp::numbers::U8PartialEq{}>"
	testb	%al, %al
	je	70f
53:
	movq	16(%r15,%rbp), %rsi
	movq	24(%r15,%rbp), %r12
	jmp	71f
54:
	leaq	32(%rsp), %rdi
	movq	%r12, %rsi
	movq	%r13, %rdx
	callq	"mime_lookup::cached::icons::long_with_hyphens"
	cmpb	$0, 32(%rsp)
	je	55f
	xorps	%xmm1, %xmm1
	movaps	%xmm1, 288(%rsp)
	movb	$1, %al
	xorl	%r14d, %r14d
	xorl	%edx, %edx
	pxor	%xmm0, %xmm0
	jmp	42b
55:
	movzbl	40(%rsp), %edx
	movq	48(%rsp), %r14
	movups	56(%rsp), %xmm1
	movdqu	72(%rsp), %xmm2
	movups	88(%rsp), %xmm0
	movaps	%xmm0, 288(%rsp)
	movdqa	%xmm2, %xmm0
	jmp	41b
56:
	movdqa	%xmm0, 144(%rsp)
	movdqa	%xmm0, 128(%rsp)
	movdqa	%xmm0, 112(%rsp)
	leaq	112(%rsp), %rdi
	movq	%r15, %rsi
	movq	%r14, %rdx
	callq	memcpy@PLT
	movdqa	112(%rsp), %xmm0
	movdqa	128(%rsp), %xmm1
	movdqa	144(%rsp), %xmm2
	movdqu	%xmm2, 232(%rsp)
	movdqu	%xmm1, 216(%rsp)
	movdqu	%xmm0, 200(%rsp)
	movq	$0, 192(%rsp)
	movq	$48, 248(%rsp)
	cmpq	$48, %r14
	je	59f
	leaq	200(%rsp), %rdi
	addq	%r14, %rdi
	movl	$48, %edx
	subq	%r14, %rdx
	xorl	%esi, %esi
	callq	memset@PLT
	movq	%r14, 248(%rsp)
	jmp	61f
57:
	callq	memmove@PLT
58:
	movdqa	1b(%rip), %xmm1
	movdqa	112(%rsp), %xmm2
	movdqa	128(%rsp), %xmm3
	movdqa	144(%rsp), %xmm4
	movdqa	%xmm2, %xmm0
	pcmpeqb	%xmm1, %xmm0
	movdqa	2b(%rip), %xmm5
	pblendvb	%xmm0, %xmm5, %xmm2
	movdqa	%xmm2, 112(%rsp)
	movdqa	%xmm3, %xmm0
	pcmpeqb	%xmm1, %xmm0
	pblendvb	%xmm0, %xmm5, %xmm3
	pcmpeqb	%xmm4, %xmm1
	movdqa	%xmm1, %xmm0
	pblendvb	%xmm0, %xmm5, %xmm4
	movdqa	%xmm3, 128(%rsp)
	movdqa	%xmm4, 144(%rsp)
	movdqu	%xmm4, 232(%rsp)
	movdqu	%xmm3, 216(%rsp)
	movdqu	%xmm2, 200(%rsp)
	movq	$0, 192(%rsp)
	movq	$48, 248(%rsp)
	cmpq	$48, %r13
	jne	60f
59:
	xorl	%edx, %edx
	jmp	62f
60:
	leaq	200(%rsp), %rdi
	addq	%r13, %rdi
	movl	$48, %edx
	subq	%r13, %rdx
	xorl	%esi, %esi
	callq	memset@PLT
	movq	%r13, 248(%rsp)
61:
	movzbl	192(%rsp), %edx
62:
	movq	200(%rsp), %r14
	movups	208(%rsp), %xmm1
	movdqu	224(%rsp), %xmm0
	movq	240(%rsp), %rax
	movq	%rax, 336(%rsp)
	movq	248(%rsp), %rax
	movq	%rax, 344(%rsp)
63:
	xorl	%eax, %eax
64:
	movq	336(%rsp), %rcx
	movq	%rcx, 416(%rsp)
	movq	344(%rsp), %rcx
	movq	%rcx, 424(%rsp)
	testb	%al, %al
	jne	43b
	movdqa	%xmm0, 1024(%rsp)
	movq	416(%rsp), %rax
	movq	%rax, 288(%rsp)
	movq	424(%rsp), %rax
	movq	%rax, 296(%rsp)
	cmpb	$1, %bpl
	movaps	%xmm1, 256(%rsp)
	jne	65f
	movq	%rdx, %r12
	pxor	%xmm0, %xmm0
	movdqa	%xmm0, 80(%rsp)
	movdqa	%xmm0, 64(%rsp)
	movdqa	%xmm0, 48(%rsp)
	movdqa	%xmm0, 32(%rsp)
	movq	$0, 96(%rsp)
	movq	280(%rsp), %r13
	cmpq	$49, %r13
	jb	114f
	leaq	32(%rsp), %rdi
	movq	520(%rsp), %rsi
	movq	%r13, %rdx
	callq	"smallvec::small_vec::SmallVec::from_slice::<#58247b01769054f4>"
	cmpb	$0, 32(%rsp)
	je	124f
	pxor	%xmm0, %xmm0
	movdqa	%xmm0, 144(%rsp)
	movdqa	%xmm0, 128(%rsp)
	movdqa	%xmm0, 112(%rsp)
	movq	$0, 160(%rsp)
	movb	$1, %sil
	xorl	%ecx, %ecx
	jmp	125f
65:
	pxor	%xmm0, %xmm0
	movdqa	%xmm0, 80(%rsp)
	movdqa	%xmm0, 64(%rsp)
	movdqa	%xmm0, 48(%rsp)
	movdqa	%xmm0, 32(%rsp)
	movq	$0, 96(%rsp)
	testq	%r13, %r13
	movq	%rdx, 16(%rsp)
	je	115f
	xorl	%ebp, %ebp
66:
	cmpb	$47, (%r12,%rbp)
	je	67f
	incq	%rbp
	cmpq	%rbp, %r13
	jne	66b
	movq	%r13, %rbp
67:
	cmpq	$39, %rbp
	jae	137f
	leaq	10(%rbp), %r15
	pxor	%xmm0, %xmm0
	movdqa	%xmm0, 368(%rsp)
	movdqa	%xmm0, 352(%rsp)
	movdqa	%xmm0, 336(%rsp)
	leaq	336(%rsp), %rax
	subq	%r12, %rax
	cmpq	%rbp, %rax
	jmp	116f
68:
	xorl	%eax, %eax
69:
	cmpq	%r13, %rax
	jae	53b
70:
	cmpb	$0, 32(%r15,%rbp)
	je	72f
	movq	280(%rsp), %rsi
	addq	$336, %rsi
	leaq	32(%rsp), %rdi
	movq	%r12, %rdx
	movq	%r13, %rcx
	callq	"mime_lookup::name_map::other_value::<#643ceef07a9c3c2a>"
	cmpb	$1, 32(%rsp)
	jne	72f
	movq	40(%rsp), %rsi
	movq	48(%rsp), %r12
71:
	pxor	%xmm0, %xmm0
	movdqa	%xmm0, 80(%rsp)
	movdqa	%xmm0, 64(%rsp)
	movdqa	%xmm0, 48(%rsp)
	movdqa	%xmm0, 32(%rsp)
	movq	$0, 96(%rsp)
	cmpq	$49, %r12
	jb	88f
	leaq	32(%rsp), %rdi
	movq	%r12, %rdx
	callq	"smallvec::small_vec::SmallVec::from_slice::<#58247b01769054f4>"
	jmp	111f
72:
	pxor	%xmm0, %xmm0
	movdqa	%xmm0, 80(%rsp)
	movdqa	%xmm0, 64(%rsp)
	movdqa	%xmm0, 48(%rsp)
	movdqa	%xmm0, 32(%rsp)
	movq	$0, 96(%rsp)
	testq	%r13, %r13
	je	75f
	xorl	%ebp, %ebp
	.p2align	4
73:
	cmpb	$47, (%r12,%rbp)
	je	74f
	incq	%rbp
	cmpq	%rbp, %r13
	jne	73b
	movq	%r13, %rbp
74:
	cmpq	$39, %rbp
	jae	110f
	leaq	10(%rbp), %r15
	pxor	%xmm0, %xmm0
	movdqa	%xmm0, 320(%rsp)
	movdqa	%xmm0, 304(%rsp)
	movdqa	%xmm0, 288(%rsp)
	leaq	288(%rsp), %rax
	subq	%r12, %rax
	cmpq	%rbp, %rax
	jmp	76f
75:
	movdqa	%xmm0, 320(%rsp)
	movdqa	%xmm0, 304(%rsp)
	movdqa	%xmm0, 288(%rsp)
	movl	$10, %r15d
	xorl	%ebp, %ebp
76:
	movq	%r14, %r13
	leaq	288(%rsp), %rdi
	movq	%r12, %rsi
	movq	%rbp, %rdx
	callq	memcpy@PLT
	movabsq	$8243116074773346349, %rax
	movq	%rax, 288(%rsp,%rbp)
	movw	$25449, 296(%rsp,%rbp)
	leaq	200(%rsp), %r14
	movaps	288(%rsp), %xmm0
	movaps	304(%rsp), %xmm1
	movaps	320(%rsp), %xmm2
	movups	%xmm2, 232(%rsp)
	movups	%xmm1, 216(%rsp)
	movups	%xmm0, 200(%rsp)
	movq	$0, 192(%rsp)
	movq	$48, 248(%rsp)
	cmpq	$47, %r15
	ja	77f
	leaq	(%r14,%r15), %rdi
	movl	$48, %edx
	subq	%r15, %rdx
	xorl	%esi, %esi
	callq	memset@PLT
	movq	%r15, 248(%rsp)
	movzbl	192(%rsp), %ecx
	jmp	78f
77:
	xorl	%ecx, %ecx
78:
	movq	(%rsp), %rax
	movq	8(%rsp), %rdx
	movq	176(%rsp), %r9
	movq	16(%rsp), %r10
	movdqa	256(%rsp), %xmm4
	movq	48(%r14), %rsi
	movq	%rsi, 160(%rsp)
	movdqu	(%r14), %xmm0
	movups	16(%r14), %xmm1
	movdqu	32(%r14), %xmm2
	movdqa	%xmm2, 144(%rsp)
	movaps	%xmm1, 128(%rsp)
	movdqa	%xmm0, 112(%rsp)
	xorl	%esi, %esi
	movq	%r13, %r14
79:
	pextrq	$1, %xmm4, %r13
	movq	160(%rsp), %rdi
	movq	%rdi, 480(%rsp)
	movdqa	112(%rsp), %xmm0
	movaps	128(%rsp), %xmm1
	movdqa	144(%rsp), %xmm2
	movdqa	%xmm2, 464(%rsp)
	movaps	%xmm1, 448(%rsp)
	movdqa	%xmm0, 432(%rsp)
	testb	%sil, %sil
	je	81f
80:
	cmpb	$1, %r10b
	jne	43b
	testq	%r13, %r13
	je	43b
	movq	%r14, %rdi
	callq	rattle_dealloc@PLT
	jmp	43b
81:
	movaps	416(%rsp), %xmm0
	movaps	432(%rsp), %xmm1
	movaps	448(%rsp), %xmm2
	movaps	464(%rsp), %xmm3
	movaps	%xmm1, 336(%rsp)
	movaps	%xmm2, 352(%rsp)
	movaps	%xmm3, 368(%rsp)
	movq	480(%rsp), %rsi
	movaps	%xmm0, 1056(%rsp)
	movaps	%xmm1, 816(%rsp)
	movaps	%xmm2, 832(%rsp)
	movaps	%xmm3, 848(%rsp)
	movq	%rsi, 864(%rsp)
	movaps	1056(%rsp), %xmm0
	movaps	%xmm0, 672(%rsp)
	movq	864(%rsp), %rsi
	movq	%rsi, 592(%rsp)
	movaps	816(%rsp), %xmm0
	movaps	832(%rsp), %xmm1
	movaps	848(%rsp), %xmm2
	movaps	%xmm2, 576(%rsp)
	movaps	%xmm1, 560(%rsp)
	movaps	%xmm0, 544(%rsp)
82:
	movzbl	%cl, %ebp
	movaps	400(%rsp), %xmm5
	movq	400(%rsp), %rsi
	movaps	672(%rsp), %xmm0
	movaps	%xmm0, 1040(%rsp)
	movaps	544(%rsp), %xmm0
	movaps	560(%rsp), %xmm1
	movaps	576(%rsp), %xmm2
	movaps	%xmm0, 752(%rsp)
	movaps	%xmm1, 768(%rsp)
	movaps	%xmm2, 784(%rsp)
	movq	592(%rsp), %rcx
	movq	%rcx, 800(%rsp)
	movzbl	184(%r9), %ecx
	cmpq	$1, %rcx
	jne	83f
	movq	192(%r9), %r8
	xorl	%edi, %edi
	subq	%rsi, %r8
	cmovaeq	%r8, %rdi
	jmp	84f
83:
	xorl	%edi, %edi
84:
	movq	%rcx, 184(%r9)
	movq	%rdi, 192(%r9)
	movzbl	%r10b, %ecx
	movaps	1040(%rsp), %xmm0
	movaps	%xmm0, 1104(%rsp)
	movaps	752(%rsp), %xmm1
	movaps	768(%rsp), %xmm2
	movdqa	784(%rsp), %xmm3
	movaps	%xmm1, 688(%rsp)
	movaps	%xmm2, 704(%rsp)
	movdqa	%xmm3, 720(%rsp)
	movq	800(%rsp), %rsi
	movq	%rsi, 736(%rsp)
	movq	%rcx, 880(%rsp)
	movq	%r14, 8(%rsp)
	movq	%r14, 888(%rsp)
	movdqa	%xmm4, 896(%rsp)
	movaps	1024(%rsp), %xmm1
	movaps	%xmm1, 912(%rsp)
	movaps	%xmm0, 928(%rsp)
	movq	%rbp, 944(%rsp)
	movq	736(%rsp), %rsi
	movq	%rsi, 1000(%rsp)
	movaps	688(%rsp), %xmm0
	movaps	704(%rsp), %xmm1
	movdqa	720(%rsp), %xmm2
	movdqu	%xmm2, 984(%rsp)
	movups	%xmm1, 968(%rsp)
	movups	%xmm0, 952(%rsp)
	movaps	%xmm5, 1008(%rsp)
	testb	%cl, %cl
	jne	85f
	movq	936(%rsp), %r14
	jmp	86f
85:
	movq	%xmm4, %r14
86:
	cmpq	%r14, %rdx
	movaps	%xmm5, 176(%rsp)
	jb	87f
	testq	%rbp, %rbp
	leaq	1000(%rsp), %rcx
	leaq	960(%rsp), %rdx
	cmoveq	%rcx, %rdx
	movq	(%rdx), %r12
	cmpq	%r12, 1288(%rsp)
	jae	89f
87:
	xorps	%xmm0, %xmm0
	movaps	%xmm0, 496(%rsp)
	movq	$0, 512(%rsp)
	movl	$4, %r14d
	jmp	108f
88:
	movq	%r14, %r15
	movdqa	%xmm0, 320(%rsp)
	movdqa	%xmm0, 304(%rsp)
	movdqa	%xmm0, 288(%rsp)
	leaq	288(%rsp), %rdi
	movq	%r12, %rdx
	callq	memcpy@PLT
	leaq	200(%rsp), %r14
	movaps	288(%rsp), %xmm0
	movaps	304(%rsp), %xmm1
	movaps	320(%rsp), %xmm2
	movups	%xmm2, 232(%rsp)
	movups	%xmm1, 216(%rsp)
	movups	%xmm0, 200(%rsp)
	movq	$0, 192(%rsp)
	movq	$48, 248(%rsp)
	cmpq	$48, %r12
	jne	95f
	xorl	%ecx, %ecx
	jmp	96f
89:
	xorl	%edx, %edx
	movzbl	31(%rsp), %ecx
	movb	%cl, %dl
	xorl	%ecx, %ecx
	movzbl	30(%rsp), %esi
	movb	%sil, %cl
	shll	$12, %edx
	shll	$12, %ecx
	movq	%rcx, (%rsp)
	leaq	888(%rsp), %rsi
	movq	%r10, 16(%rsp)
	testb	%r10b, %r10b
	cmovneq	8(%rsp), %rsi
	leaq	(%rax,%rdx), %rdi
	movq	%rdi, %rcx
	subq	%rsi, %rcx
	cmpq	%r14, %rcx
	jae	97f
	movq	%rdx, %r10
	cmpq	$4, %r14
	jb	90f
	cmpq	$32, %rcx
	jae	120f
90:
	xorl	%ecx, %ecx
91:
	movq	%r14, %r8
	movq	%rcx, %rdx
	andq	$3, %r8
	je	93f
	movq	%rcx, %rdx
92:
	movzbl	(%rsi,%rdx), %r9d
	movb	%r9b, (%rdi,%rdx)
	incq	%rdx
	decq	%r8
	jne	92b
93:
	subq	%r14, %rcx
	cmpq	$-4, %rcx
	ja	98f
	addq	%r10, %rax
	addq	$3, %rax
94:
	movzbl	(%rsi,%rdx), %ecx
	movb	%cl, -3(%rax,%rdx)
	movzbl	1(%rsi,%rdx), %ecx
	movb	%cl, -2(%rax,%rdx)
	movzbl	2(%rsi,%rdx), %ecx
	movb	%cl, -1(%rax,%rdx)
	movzbl	3(%rsi,%rdx), %ecx
	movb	%cl, (%rax,%rdx)
	addq	$4, %rdx
	cmpq	%rdx, %r14
	jne	94b
	jmp	98f
95:
	leaq	(%r14,%r12), %rdi
	movl	$48, %edx
	subq	%r12, %rdx
	xorl	%esi, %esi
	callq	memset@PLT
	movq	%r12, 248(%rsp)
	movzbl	192(%rsp), %ecx
96:
	movq	(%rsp), %rax
	movq	8(%rsp), %rdx
	movq	176(%rsp), %r9
	movq	16(%rsp), %r10
	movdqa	256(%rsp), %xmm4
	movq	48(%r14), %rsi
	movq	%rsi, 160(%rsp)
	movdqu	(%r14), %xmm0
	movups	16(%r14), %xmm1
	movdqu	32(%r14), %xmm2
	movdqa	%xmm2, 144(%rsp)
	movaps	%xmm1, 128(%rsp)
	movdqa	%xmm0, 112(%rsp)
	xorl	%esi, %esi
	movq	%r15, %r14
	jmp	79b
97:
	movq	%r14, %rdx
	callq	memmove@PLT
98:
	movq	(%rsp), %rax
	movq	1280(%rsp), %rcx
	leaq	(%rcx,%rax), %rdi
	testq	%rbp, %rbp
	je	99f
	movq	952(%rsp), %rsi
	jmp	100f
99:
	leaq	952(%rsp), %rsi
100:
	movq	1296(%rsp), %r15
	movq	%rdi, %rax
	subq	%rsi, %rax
	cmpq	%r12, %rax
	jae	106f
	cmpq	$4, %r12
	movq	16(%rsp), %r10
	movaps	176(%rsp), %xmm5
	jb	101f
	cmpq	$32, %rax
	jae	121f
101:
	xorl	%eax, %eax
102:
	movq	%r12, %rdx
	movq	%rax, %rcx
	andq	$3, %rdx
	je	104f
	movq	%rax, %rcx
103:
	movzbl	(%rsi,%rcx), %r8d
	movb	%r8b, (%rdi,%rcx)
	incq	%rcx
	decq	%rdx
	jne	103b
104:
	subq	%r12, %rax
	cmpq	$-4, %rax
	ja	107f
	movq	(%rsp), %rax
	movq	1280(%rsp), %rdx
	addq	%rdx, %rax
	addq	$3, %rax
105:
	movzbl	(%rsi,%rcx), %edx
	movb	%dl, -3(%rax,%rcx)
	movzbl	1(%rsi,%rcx), %edx
	movb	%dl, -2(%rax,%rcx)
	movzbl	2(%rsi,%rcx), %edx
	movb	%dl, -1(%rax,%rcx)
	movzbl	3(%rsi,%rcx), %edx
	movb	%dl, (%rax,%rcx)
	addq	$4, %rcx
	cmpq	%rcx, %r12
	jne	105b
	jmp	107f
106:
	movq	%r12, %rdx
	callq	memmove@PLT
	movq	16(%rsp), %r10
	movaps	176(%rsp), %xmm5
107:
	movq	%r14, (%r15)
	movq	%r12, 8(%r15)
	xorps	%xmm0, %xmm0
	movaps	%xmm0, 496(%rsp)
	movq	$0, 512(%rsp)
	xorl	%r14d, %r14d
108:
	cmpb	$1, %r10b
	jne	109f
	testq	%r13, %r13
	je	109f
	movq	8(%rsp), %rdi
	callq	rattle_dealloc@PLT
	movaps	176(%rsp), %xmm5
109:
	xorl	%r15d, %r15d
	xorps	%xmm1, %xmm1
	cmpl	$1, %ebp
	jne	45b
	cmpq	$0, 968(%rsp)
	je	45b
	movq	952(%rsp), %rdi
	callq	rattle_dealloc@PLT
	xorps	%xmm1, %xmm1
	movaps	176(%rsp), %xmm5
	xorl	%r15d, %r15d
	jmp	45b
110:
	leaq	32(%rsp), %rdi
	movq	%r12, %rsi
	movq	%rbp, %rdx
	callq	"mime_lookup::cached::icons::long_generic"
111:
	cmpb	$0, 32(%rsp)
	je	112f
	pxor	%xmm0, %xmm0
	movdqa	%xmm0, 144(%rsp)
	movdqa	%xmm0, 128(%rsp)
	movdqa	%xmm0, 112(%rsp)
	movq	$0, 160(%rsp)
	movb	$1, %sil
	xorl	%ecx, %ecx
	jmp	113f
112:
	movzbl	40(%rsp), %ecx
	movaps	48(%rsp), %xmm0
	movaps	%xmm0, 112(%rsp)
	movaps	64(%rsp), %xmm0
	movaps	%xmm0, 128(%rsp)
	movdqa	80(%rsp), %xmm0
	movdqa	%xmm0, 144(%rsp)
	movq	96(%rsp), %rax
	movq	%rax, 160(%rsp)
	xorl	%esi, %esi
113:
	movq	(%rsp), %rax
	movq	8(%rsp), %rdx
	movq	176(%rsp), %r9
	movq	16(%rsp), %r10
	movdqa	256(%rsp), %xmm4
	jmp	79b
114:
	movq	%r14, %r15
	movdqa	%xmm0, 368(%rsp)
	movdqa	%xmm0, 352(%rsp)
	movdqa	%xmm0, 336(%rsp)
	leaq	336(%rsp), %rdi
	movq	520(%rsp), %rsi
	movq	%r13, %rdx
	callq	memcpy@PLT
	leaq	200(%rsp), %r14
	movaps	336(%rsp), %xmm0
	movaps	352(%rsp), %xmm1
	movaps	368(%rsp), %xmm2
	movups	%xmm2, 232(%rsp)
	movups	%xmm1, 216(%rsp)
	movups	%xmm0, 200(%rsp)
	movq	$0, 192(%rsp)
	movq	$48, 248(%rsp)
	cmpq	$48, %r13
	jne	122f
	xorl	%ecx, %ecx
	jmp	123f
115:
	movdqa	%xmm0, 368(%rsp)
	movdqa	%xmm0, 352(%rsp)
	movdqa	%xmm0, 336(%rsp)
	movl	$10, %r15d
	xorl	%ebp, %ebp
116:
	movq	%r14, %r13
	leaq	336(%rsp), %rdi
	movq	%r12, %rsi
	movq	%rbp, %rdx
	callq	memcpy@PLT
	movabsq	$8243116074773346349, %rax
	movq	%rax, 336(%rsp,%rbp)
	movw	$25449, 344(%rsp,%rbp)
	leaq	200(%rsp), %r14
	movaps	336(%rsp), %xmm0
	movaps	352(%rsp), %xmm1
	movaps	368(%rsp), %xmm2
	movups	%xmm2, 232(%rsp)
	movups	%xmm1, 216(%rsp)
	movups	%xmm0, 200(%rsp)
	movq	$0, 192(%rsp)
	movq	$48, 248(%rsp)
	cmpq	$47, %r15
	ja	117f
	leaq	(%r14,%r15), %rdi
	movl	$48, %edx
	subq	%r15, %rdx
	xorl	%esi, %esi
	callq	memset@PLT
	movq	%r15, 248(%rsp)
	movzbl	192(%rsp), %ecx
	jmp	118f
117:
	xorl	%ecx, %ecx
118:
	movq	(%rsp), %rax
	movq	8(%rsp), %rdx
	movq	176(%rsp), %r9
	movq	16(%rsp), %r10
	movdqa	256(%rsp), %xmm4
	movq	48(%r14), %rsi
	movq	%rsi, 160(%rsp)
	movdqu	(%r14), %xmm0
	movups	16(%r14), %xmm1
	movdqu	32(%r14), %xmm2
	movdqa	%xmm2, 144(%rsp)
	movaps	%xmm1, 128(%rsp)
	movdqa	%xmm0, 112(%rsp)
	xorl	%esi, %esi
119:
	movq	%r13, %r14
	jmp	126f
120:
	cmpq	$32, %r14
	jae	129f
	xorl	%ecx, %ecx
	jmp	131f
121:
	cmpq	$32, %r12
	jae	133f
	xorl	%eax, %eax
	jmp	135f
122:
	leaq	(%r14,%r13), %rdi
	movl	$48, %edx
	subq	%r13, %rdx
	xorl	%esi, %esi
	callq	memset@PLT
	movq	%r13, 248(%rsp)
	movzbl	192(%rsp), %ecx
123:
	movq	(%rsp), %rax
	movq	8(%rsp), %rdx
	movq	176(%rsp), %r9
	movq	%r12, %r10
	movdqa	256(%rsp), %xmm4
	movq	48(%r14), %rsi
	movq	%rsi, 160(%rsp)
	movdqu	(%r14), %xmm0
	movups	16(%r14), %xmm1
	movdqu	32(%r14), %xmm2
	movdqa	%xmm2, 144(%rsp)
	movaps	%xmm1, 128(%rsp)
	movdqa	%xmm0, 112(%rsp)
	xorl	%esi, %esi
	movq	%r15, %r14
	jmp	126f
124:
	movzbl	40(%rsp), %ecx
	movaps	48(%rsp), %xmm0
	movaps	%xmm0, 112(%rsp)
	movaps	64(%rsp), %xmm0
	movaps	%xmm0, 128(%rsp)
	movdqa	80(%rsp), %xmm0
	movdqa	%xmm0, 144(%rsp)
	movq	96(%rsp), %rax
	movq	%rax, 160(%rsp)
	xorl	%esi, %esi
125:
	movq	(%rsp), %rax
	movq	8(%rsp), %rdx
	movq	176(%rsp), %r9
	movq	%r12, %r10
	movdqa	256(%rsp), %xmm4
126:
	pextrq	$1, %xmm4, %r13
	movq	160(%rsp), %rdi
	movq	%rdi, 480(%rsp)
	movdqa	112(%rsp), %xmm0
	movaps	128(%rsp), %xmm1
	movdqa	144(%rsp), %xmm2
	movdqa	%xmm2, 464(%rsp)
	movaps	%xmm1, 448(%rsp)
	movdqa	%xmm0, 432(%rsp)
	testb	%sil, %sil
	jne	80b
	movaps	288(%rsp), %xmm0
	movaps	432(%rsp), %xmm1
	movaps	448(%rsp), %xmm2
	movaps	464(%rsp), %xmm3
	movaps	%xmm1, 1120(%rsp)
	movaps	%xmm2, 1136(%rsp)
	movaps	%xmm3, 1152(%rsp)
	movq	480(%rsp), %rsi
	movaps	%xmm0, 672(%rsp)
	movaps	%xmm1, 544(%rsp)
	movaps	%xmm2, 560(%rsp)
	movaps	%xmm3, 576(%rsp)
	movq	%rsi, 592(%rsp)
	jmp	82b
127:
	leaq	32(%rsp), %rdi
	movq	%r12, %rsi
	movq	%r13, %rdx
	callq	"mime_lookup::cached::icons::long_with_hyphens"
	cmpb	$0, 32(%rsp)
	je	128f
	xorps	%xmm1, %xmm1
	movaps	%xmm1, 336(%rsp)
	movb	$1, %al
	xorl	%r14d, %r14d
	xorl	%edx, %edx
	pxor	%xmm0, %xmm0
	jmp	64b
128:
	movzbl	40(%rsp), %edx
	movq	48(%rsp), %r14
	movups	56(%rsp), %xmm1
	movdqu	72(%rsp), %xmm2
	movups	88(%rsp), %xmm0
	movaps	%xmm0, 336(%rsp)
	movdqa	%xmm2, %xmm0
	jmp	63b
129:
	movq	%r14, %rcx
	andq	$-32, %rcx
	leaq	(%r10,%rax), %rdx
	addq	$16, %rdx
	xorl	%r8d, %r8d
130:
	movups	(%rsi,%r8), %xmm0
	movups	16(%rsi,%r8), %xmm1
	movups	%xmm0, -16(%rdx,%r8)
	movups	%xmm1, (%rdx,%r8)
	addq	$32, %r8
	cmpq	%r8, %rcx
	jne	130b
	cmpq	%rcx, %r14
	je	98b
	testb	$28, %r14b
	je	91b
131:
	movq	%rcx, %rdx
	movq	%r14, %rcx
	andq	$-4, %rcx
132:
	movl	(%rsi,%rdx), %r8d
	movl	%r8d, (%rdi,%rdx)
	addq	$4, %rdx
	cmpq	%rdx, %rcx
	jne	132b
	cmpq	%rcx, %r14
	je	98b
	jmp	91b
133:
	movq	%r12, %rax
	andq	$-32, %rax
	movq	(%rsp), %rcx
	movq	1280(%rsp), %rdx
	addq	%rdx, %rcx
	addq	$16, %rcx
	xorl	%edx, %edx
134:
	movups	(%rsi,%rdx), %xmm0
	movups	16(%rsi,%rdx), %xmm1
	movups	%xmm0, -16(%rcx,%rdx)
	movups	%xmm1, (%rcx,%rdx)
	addq	$32, %rdx
	cmpq	%rdx, %rax
	jne	134b
	cmpq	%rax, %r12
	je	107b
	testb	$28, %r12b
	je	102b
135:
	movq	%rax, %rcx
	movq	%r12, %rax
	andq	$-4, %rax
136:
	movl	(%rsi,%rcx), %edx
	movl	%edx, (%rdi,%rcx)
	addq	$4, %rcx
	cmpq	%rcx, %rax
	jne	136b
	cmpq	%rax, %r12
	je	107b
	jmp	102b
137:
	movq	%r14, %r13
	leaq	32(%rsp), %rdi
	movq	%r12, %rsi
	movq	%rbp, %rdx
	callq	"mime_lookup::cached::icons::long_generic"
	cmpb	$0, 32(%rsp)
	je	138f
	pxor	%xmm0, %xmm0
	movdqa	%xmm0, 144(%rsp)
	movdqa	%xmm0, 128(%rsp)
	movdqa	%xmm0, 112(%rsp)
	movq	$0, 160(%rsp)
	movb	$1, %sil
	xorl	%ecx, %ecx
	jmp	139f
138:
	movzbl	40(%rsp), %ecx
	movaps	48(%rsp), %xmm0
	movaps	%xmm0, 112(%rsp)
	movaps	64(%rsp), %xmm0
	movaps	%xmm0, 128(%rsp)
	movdqa	80(%rsp), %xmm0
	movdqa	%xmm0, 144(%rsp)
	movq	96(%rsp), %rax
	movq	%rax, 160(%rsp)
	xorl	%esi, %esi
139:
	movq	(%rsp), %rax
	movq	8(%rsp), %rdx
	movq	176(%rsp), %r9
	movq	16(%rsp), %r10
	movdqa	256(%rsp), %xmm4
	jmp	119b
140:
	.size	mimelook_database_icons, 140b-mimelook_database_icons
	.section	.rodata,"a",@progbits
	.p2align	2, 0x0
141:
	.long	13b-141b
	.long	21b-141b
	.long	19b-141b
	.long	20b-141b
	.long	18b-141b
	.long	22b-141b
	.long	23b-141b

	.text
	.globl	mimelook_database_is_a
	.p2align	4
	.type	mimelook_database_is_a,@function
mimelook_database_is_a:
	pushq	%rbp
	pushq	%r15
	pushq	%r14
	pushq	%r13
	pushq	%r12
	pushq	%rbx
	subq	$248, %rsp
	movq	%rdx, %r13
	movq	%rdi, %rbx
	xorl	%eax, %eax
	testq	%rdx, %rdx
	sete	%dl
	xorl	%r12d, %r12d
	testq	%r8, %r8
	sete	%r14b
	xorps	%xmm2, %xmm2
	movaps	%xmm2, 224(%rsp)
	movq	$0, 240(%rsp)
	movaps	%xmm2, 160(%rsp)
	movq	$0, 176(%rsp)
	testq	%rsi, %rsi
	je	1f
	movq	%r9, %r15
	movq	%r8, %rbp
	movq	%rsi, 216(%rsp)
	movb	%dl, %al
	shll	$12, %eax
	addq	%rax, %r13
	xorps	%xmm0, %xmm0
	movaps	%xmm0, 192(%rsp)
	movq	$0, 208(%rsp)
	movq	%r13, %rdi
	movq	%rcx, 56(%rsp)
	movq	%rcx, %rsi
	callq	"mime_base::names::is_type_name"
	movl	$3, %r8d
	testb	%al, %al
	je	2f
	movb	%r14b, %r12b
	shll	$12, %r12d
	addq	%r12, %rbp
	movq	%rbp, %r12
	movq	%rbp, %rdi
	movq	%r15, %rsi
	callq	"mime_base::names::is_type_name"
	testb	%al, %al
	je	3f
	movq	216(%rsp), %r14
	movq	%r14, %rdi
	callq	"mime_c::database::open_database::OpenDatabase::read_paid"
	movq	24(%r14), %rax
	movq	%rax, %rcx
	shrq	$2, %rcx
	movq	$1, 128(%rsp)
	movq	$0, 136(%rsp)
	movq	%rcx, 144(%rsp)
	movq	%rax, 152(%rsp)
	xorps	%xmm0, %xmm0
	movaps	%xmm0, 64(%rsp)
	movq	$0, 80(%rsp)
	cmpb	$1, 104(%r14)
	jne	4f
	movq	112(%r14), %rdx
	leaq	128(%rsp), %rax
	movq	%rax, 8(%rsp)
	movq	%r15, (%rsp)
	leaq	64(%rsp), %rdi
	movq	%r14, %rsi
	movq	%r13, %rcx
	movq	56(%rsp), %r8
	movq	%r12, %r9
	callq	"mime_lookup::cached::subclass::by_pairs"
	movzbl	64(%rsp), %esi
	movzbl	65(%rsp), %ecx
	movzbl	72(%rsp), %edx
	movss	74(%rsp), %xmm2
	movq	80(%rsp), %rax
	testb	%sil, %sil
	jne	9f
	jmp	14f
1:
	movl	$14, %r8d
	xorl	%eax, %eax
	xorps	%xmm0, %xmm0
	jmp	30f
2:
	xorl	%eax, %eax
	xorps	%xmm0, %xmm0
	xorps	%xmm2, %xmm2
	jmp	29f
3:
	xorl	%eax, %eax
	xorps	%xmm0, %xmm0
	xorps	%xmm2, %xmm2
	movl	$3, %r8d
	jmp	29f
4:
	movaps	%xmm0, 96(%rsp)
	movq	$0, 112(%rsp)
	cmpb	$1, 72(%r14)
	movq	56(%rsp), %rax
	jne	5f
	movl	$192, %ebp
	movq	80(%r14), %rdi
	addq	%rbp, %rdi
	movq	%r13, %rsi
	movq	%rax, %rdx
	callq	"mime_lookup::read_back::targets::target_of"
	movq	%rax, %r13
	movq	%rdx, %rax
	cmpb	$1, 72(%r14)
	jne	6f
	addq	80(%r14), %rbp
	movq	%rbp, %rdi
	movq	%r12, %rsi
	movq	%r15, %rdx
	movq	%rax, %r15
	callq	"mime_lookup::read_back::targets::target_of"
	movq	%r15, %r8
	movq	%rax, %r12
	movq	%rdx, %r15
	jmp	12f
5:
	leaq	16(%r14), %rsi
	movaps	%xmm0, 32(%rsp)
	movaps	%xmm0, 16(%rsp)
	movl	36(%r14), %ebp
	leaq	16(%rsp), %rdi
	leaq	128(%rsp), %r9
	movq	%rbp, %rdx
	movq	%r13, %rcx
	movq	%rax, %r8
	callq	"mime_view::pairs::look_up_pair"
	movzbl	24(%rsp), %edx
	movq	32(%rsp), %rax
	cmpb	$0, 16(%rsp)
	jne	8f
	cmpb	$1, %dl
	jne	7f
	movq	40(%rsp), %rcx
	movq	%rcx, 56(%rsp)
	movq	%rax, %r13
	jmp	7f
6:
	movq	%rax, 56(%rsp)
	movl	36(%r14), %ebp
7:
	leaq	16(%r14), %rsi
	xorps	%xmm0, %xmm0
	movaps	%xmm0, 32(%rsp)
	movaps	%xmm0, 16(%rsp)
	leaq	16(%rsp), %rdi
	leaq	128(%rsp), %r9
	movq	%rbp, %rdx
	movq	%r12, %rcx
	movq	%r15, %r8
	callq	"mime_view::pairs::look_up_pair"
	movzbl	24(%rsp), %edx
	movq	32(%rsp), %rax
	cmpb	$0, 16(%rsp)
	je	11f
8:
	movss	26(%rsp), %xmm2
	movb	$1, %sil
	xorl	%ecx, %ecx
	testb	%sil, %sil
	je	14f
9:
	movzbl	%dl, %ecx
	xorps	%xmm0, %xmm0
	leaq	32f(%rip), %rdx
	movslq	(%rdx,%rcx,4), %rsi
	addq	%rdx, %rsi
	jmpq	*%rsi
10:
	movl	$5, %r8d
	movq	%rcx, %rax
	jmp	26f
11:
	cmpb	$1, %dl
	movq	56(%rsp), %r8
	jne	12f
	movq	40(%rsp), %r15
	movq	%rax, %r12
12:
	xorps	%xmm0, %xmm0
	movaps	%xmm0, 32(%rsp)
	movaps	%xmm0, 16(%rsp)
	leaq	128(%rsp), %rax
	movq	%rax, 8(%rsp)
	movq	%r15, (%rsp)
	leaq	96(%rsp), %rdi
	leaq	16(%rsp), %rdx
	movq	%r14, %rsi
	movq	%r13, %rcx
	movq	%r12, %r9
	callq	"mime_lookup::cached::ancestry::leads_to"
	cmpb	$1, 24(%rsp)
	jne	13f
	movq	32(%rsp), %rdi
	callq	"std_collections::btree::node::Node::destroy::<#edcdc2349bef7e9b>"
13:
	movzbl	96(%rsp), %esi
	movzbl	97(%rsp), %ecx
	movzbl	104(%rsp), %edx
	movss	106(%rsp), %xmm2
	movq	112(%rsp), %rax
	testb	%sil, %sil
	jne	9b
14:
	movq	304(%rsp), %rax
	movzbl	168(%r14), %edx
	xorl	%r8d, %r8d
	cmpq	$1, %rdx
	jne	15f
	movq	176(%r14), %rdi
	xorl	%esi, %esi
	subq	128(%rsp), %rdi
	cmovaeq	%rdi, %rsi
	jmp	16f
15:
	xorl	%esi, %esi
16:
	movq	%rdx, 168(%r14)
	movq	%rsi, 176(%r14)
	andb	$1, %cl
	movb	%cl, (%rax)
	xorps	%xmm2, %xmm2
	movaps	%xmm2, 16(%rsp)
	movq	$0, 32(%rsp)
17:
	xorl	%eax, %eax
	jmp	28f
18:
	movl	$9, %r8d
	jmp	26f
19:
	movl	$7, %r8d
	jmp	25f
20:
	movl	$8, %r8d
	jmp	26f
21:
	xorps	%xmm2, %xmm2
	movaps	%xmm2, 16(%rsp)
	movq	$0, 32(%rsp)
	movl	$2, %r8d
	jmp	17b
22:
	movl	$6, %r8d
	xorl	%eax, %eax
	jmp	27f
23:
	movl	$10, %r8d
	jmp	25f
24:
	movl	$11, %r8d
25:
	xorl	%eax, %eax
26:
	xorps	%xmm2, %xmm2
27:
	movaps	%xmm0, 16(%rsp)
	movq	$0, 32(%rsp)
28:
	movaps	128(%rsp), %xmm0
	movq	32(%rsp), %rcx
	movq	%rcx, 208(%rsp)
	movaps	16(%rsp), %xmm1
	movaps	%xmm1, 192(%rsp)
29:
	movq	208(%rsp), %rcx
	movq	%rcx, 240(%rsp)
	movaps	192(%rsp), %xmm1
	movaps	%xmm1, 224(%rsp)
	movaps	%xmm1, 160(%rsp)
	movq	%rcx, 176(%rsp)
30:
	movl	%r8d, (%rbx)
	movss	%xmm2, 4(%rbx)
	movq	%rax, 8(%rbx)
	movq	$0, 16(%rbx)
	movups	%xmm0, 24(%rbx)
	movaps	160(%rsp), %xmm0
	movups	%xmm0, 40(%rbx)
	movq	176(%rsp), %rax
	movq	%rax, 56(%rbx)
	movq	%rbx, %rax
	addq	$248, %rsp
	popq	%rbx
	popq	%r12
	popq	%r13
	popq	%r14
	popq	%r15
	popq	%rbp
	retq
31:
	.size	mimelook_database_is_a, 31b-mimelook_database_is_a
	.section	.rodata,"a",@progbits
	.p2align	2, 0x0
32:
	.long	10b-32b
	.long	22b-32b
	.long	19b-32b
	.long	20b-32b
	.long	18b-32b
	.long	23b-32b
	.long	24b-32b
	.long	21b-32b

	.text
	.globl	mimelook_database_listed_icons
	.p2align	4
	.type	mimelook_database_listed_icons,@function
mimelook_database_listed_icons:
	pushq	%rbp
	pushq	%r15
	pushq	%r14
	pushq	%r13
	pushq	%r12
	pushq	%rbx
	subq	$104, %rsp
	movq	%rcx, %r14
	movq	%rdi, %rbx
	xorl	%eax, %eax
	testq	%rdx, %rdx
	sete	%cl
	testq	%rsi, %rsi
	je	1f
	movq	%rdx, %r15
	movq	%rsi, %r12
	movq	%r8, 88(%rsp)
	movq	%r9, 96(%rsp)
	movb	%cl, %al
	shll	$12, %eax
	addq	%rax, %r15
	leaq	16(%rsi), %r13
	xorps	%xmm0, %xmm0
	movaps	%xmm0, 32(%rsp)
	movaps	%xmm0, 16(%rsp)
	movaps	%xmm0, (%rsp)
	movl	64(%rsi), %edx
	movq	%rsp, %rdi
	leaq	32(%rsp), %r9
	movq	%r13, %rsi
	movq	%r15, %rcx
	movq	%r14, %r8
	callq	"mime_view::pairs::look_up_pair"
	movzbl	8(%rsp), %ebp
	movq	16(%rsp), %rdi
	cmpb	$0, (%rsp)
	je	2f
	movss	10(%rsp), %xmm1
	movaps	32(%rsp), %xmm0
	movzbl	%bpl, %eax
	movl	$5, %ecx
	leaq	15f(%rip), %rdx
	movslq	(%rdx,%rax,4), %rsi
	addq	%rdx, %rsi
	movq	%rdi, %rdx
	xorps	%xmm2, %xmm2
	jmpq	*%rsi
1:
	xorps	%xmm2, %xmm2
	movaps	%xmm2, 48(%rsp)
	movq	$0, 64(%rsp)
	movl	$14, %ecx
	xorl	%eax, %eax
	xorps	%xmm0, %xmm0
	jmp	13f
2:
	movq	%rdi, 80(%rsp)
	movq	24(%rsp), %rax
	movq	%rax, 72(%rsp)
	xorps	%xmm0, %xmm0
	movaps	%xmm0, 16(%rsp)
	movaps	%xmm0, (%rsp)
	movl	68(%r12), %edx
	movq	%rsp, %rdi
	leaq	32(%rsp), %r9
	movq	%r13, %rsi
	movq	%r15, %rcx
	movq	%r14, %r8
	callq	"mime_view::pairs::look_up_pair"
	movzbl	8(%rsp), %ecx
	movq	16(%rsp), %rdx
	cmpb	$0, (%rsp)
	je	4f
	movss	10(%rsp), %xmm1
	movaps	32(%rsp), %xmm0
	movzbl	%cl, %eax
	movl	$5, %ecx
	leaq	15f(%rip), %rsi
	movslq	(%rsi,%rax,4), %rdi
	addq	%rsi, %rdi
	xorps	%xmm2, %xmm2
	jmpq	*%rdi
3:
	movl	$6, %ecx
	xorl	%eax, %eax
	movaps	%xmm1, %xmm2
	jmp	12f
4:
	xorl	%eax, %eax
	cmpb	$1, %bpl
	leaq	.L22d5119de29e(%rip), %rsi
	movq	80(%rsp), %r8
	cmovneq	%rsi, %r8
	movq	72(%rsp), %r9
	cmovneq	%rax, %r9
	cmpb	$1, %cl
	movq	24(%rsp), %rcx
	cmovneq	%rax, %rcx
	movaps	32(%rsp), %xmm0
	movq	88(%rsp), %rdi
	movq	%r8, (%rdi)
	movq	%r9, 8(%rdi)
	cmovneq	%rsi, %rdx
	movq	96(%rsp), %rsi
	movq	%rdx, (%rsi)
	movq	%rcx, 8(%rsi)
	xorps	%xmm2, %xmm2
	movaps	%xmm2, 48(%rsp)
	movq	$0, 64(%rsp)
	xorl	%ecx, %ecx
	jmp	13f
5:
	movl	$9, %ecx
	movq	%rdx, %rax
	jmp	12f
6:
	movl	$7, %ecx
	jmp	11f
7:
	movl	$8, %ecx
	movq	%rdx, %rax
	jmp	12f
8:
	movl	$2, %ecx
	jmp	11f
9:
	movl	$10, %ecx
	jmp	11f
10:
	movl	$11, %ecx
11:
	xorl	%eax, %eax
12:
	xorps	%xmm1, %xmm1
	movaps	%xmm1, 48(%rsp)
	movq	$0, 64(%rsp)
13:
	movl	%ecx, (%rbx)
	movss	%xmm2, 4(%rbx)
	movq	%rax, 8(%rbx)
	movq	$0, 16(%rbx)
	movups	%xmm0, 24(%rbx)
	movaps	48(%rsp), %xmm0
	movups	%xmm0, 40(%rbx)
	movq	64(%rsp), %rax
	movq	%rax, 56(%rbx)
	movq	%rbx, %rax
	addq	$104, %rsp
	popq	%rbx
	popq	%r12
	popq	%r13
	popq	%r14
	popq	%r15
	popq	%rbp
	retq
14:
	.size	mimelook_database_listed_icons, 14b-mimelook_database_listed_icons
	.section	.rodata,"a",@progbits
	.p2align	2, 0x0
15:
	.long	12b-15b
	.long	3b-15b
	.long	6b-15b
	.long	7b-15b
	.long	5b-15b
	.long	9b-15b
	.long	10b-15b
	.long	8b-15b

	.text
	.globl	mimelook_database_parents
	.p2align	4
	.type	mimelook_database_parents,@function
mimelook_database_parents:
	pushq	%rbp
	pushq	%r15
	pushq	%r14
	pushq	%r12
	pushq	%rbx
	subq	$224, %rsp
	movq	%rdi, %rbx
	xorl	%r14d, %r14d
	testq	%r8, %r8
	sete	%bpl
	testq	%rsi, %rsi
	je	3f
	movq	%rdx, %rax
	movq	%r9, %r12
	movq	%r8, %r15
	xorl	%edx, %edx
	testq	%rax, %rax
	sete	%dl
	shll	$12, %edx
	addq	%rax, %rdx
	xorps	%xmm0, %xmm0
	movaps	%xmm0, 192(%rsp)
	movq	$0, 208(%rsp)
	movaps	%xmm0, 112(%rsp)
	movaps	%xmm0, 48(%rsp)
	movaps	%xmm0, 64(%rsp)
	movaps	%xmm0, 80(%rsp)
	movq	$0, 96(%rsp)
	movq	24(%rsi), %rax
	addq	$16, %rsi
	movq	%rax, %rdi
	shrq	$2, %rdi
	movq	%rdi, 128(%rsp)
	movq	%rax, 136(%rsp)
	movaps	%xmm0, 16(%rsp)
	movaps	%xmm0, 32(%rsp)
	leaq	128(%rsp), %rax
	movq	%rax, (%rsp)
	leaq	48(%rsp), %rdi
	leaq	16(%rsp), %r8
	leaq	112(%rsp), %r9
	callq	"mime_view::cache::Cache::parents_of"
	cmpb	$1, 24(%rsp)
	jne	1f
	movq	32(%rsp), %rdi
	callq	"std_collections::btree::node::Node::destroy::<#d91dcfcc98d06f83>"
1:
	movzbl	56(%rsp), %esi
	movss	58(%rsp), %xmm2
	movq	64(%rsp), %rcx
	movzbl	72(%rsp), %eax
	movaps	80(%rsp), %xmm0
	movaps	%xmm0, 144(%rsp)
	movq	96(%rsp), %rdx
	movq	%rdx, 160(%rsp)
	cmpb	$0, 48(%rsp)
	movaps	112(%rsp), %xmm1
	movq	$0, 56(%rsp)
	je	4f
	xorps	%xmm0, %xmm0
	leaq	26f(%rip), %rax
	movslq	(%rax,%rsi,4), %rdx
	addq	%rax, %rdx
	jmpq	*%rdx
2:
	movl	$5, %edx
	movq	%rsi, %rcx
	jmp	14f
3:
	xorps	%xmm2, %xmm2
	movaps	%xmm2, 16(%rsp)
	movq	$0, 32(%rsp)
	movl	$14, %edx
	xorl	%ecx, %ecx
	xorps	%xmm1, %xmm1
	jmp	24f
4:
	movq	272(%rsp), %rdx
	movq	%rsi, 48(%rsp)
	movl	%ecx, 56(%rsp)
	movq	%rax, 64(%rsp)
	movaps	144(%rsp), %xmm0
	movups	%xmm0, 72(%rsp)
	movq	160(%rsp), %rcx
	movq	%rcx, 88(%rsp)
	cmpq	$1, %rsi
	jne	5f
	leaq	72(%rsp), %rcx
	testq	%rax, %rax
	movq	72(%rsp), %rdi
	cmovneq	%rdi, %rcx
	movl	$1, %esi
	cmovneq	80(%rsp), %rsi
	cmpq	%rsi, %r12
	cmovaeq	%rsi, %r12
	testq	%r12, %r12
	je	20f
	movb	%bpl, %r14b
	shll	$12, %r14d
	addq	%r14, %r15
	movl	%r12d, %r8d
	andl	$7, %r8d
	cmpq	$8, %r12
	jae	16f
	xorl	%r9d, %r9d
	jmp	18f
5:
	movq	$0, (%rdx)
	xorps	%xmm2, %xmm2
	movaps	%xmm2, 16(%rsp)
	movq	$0, 32(%rsp)
	jmp	21f
6:
	movl	$9, %edx
	jmp	14f
7:
	movl	$7, %edx
	jmp	13f
8:
	movl	$8, %edx
	jmp	14f
9:
	movl	$2, %edx
	jmp	13f
10:
	movl	$6, %edx
	xorl	%ecx, %ecx
	jmp	15f
11:
	movl	$10, %edx
	jmp	13f
12:
	movl	$11, %edx
13:
	xorl	%ecx, %ecx
14:
	xorps	%xmm2, %xmm2
15:
	movaps	%xmm0, 16(%rsp)
	movq	$0, 32(%rsp)
	jmp	23f
16:
	andq	$-8, %r12
	movl	$112, %r10d
	xorl	%r9d, %r9d
	.p2align	4
17:
	movups	-112(%rcx,%r10), %xmm0
	movups	%xmm0, -112(%r15,%r10)
	movups	-96(%rcx,%r10), %xmm0
	movups	%xmm0, -96(%r15,%r10)
	movups	-80(%rcx,%r10), %xmm0
	movups	%xmm0, -80(%r15,%r10)
	movups	-64(%rcx,%r10), %xmm0
	movups	%xmm0, -64(%r15,%r10)
	movups	-48(%rcx,%r10), %xmm0
	movups	%xmm0, -48(%r15,%r10)
	movups	-32(%rcx,%r10), %xmm0
	movups	%xmm0, -32(%r15,%r10)
	movups	-16(%rcx,%r10), %xmm0
	movups	%xmm0, -16(%r15,%r10)
	movups	(%rcx,%r10), %xmm0
	movups	%xmm0, (%r15,%r10)
	addq	$8, %r9
	subq	$-128, %r10
	cmpq	%r9, %r12
	jne	17b
	testq	%r8, %r8
	je	20f
18:
	shlq	$4, %r9
	addq	%r9, %r15
	addq	%r9, %rcx
	shll	$4, %r8d
	xorl	%r9d, %r9d
	.p2align	4
19:
	movups	(%rcx,%r9), %xmm0
	movups	%xmm0, (%r15,%r9)
	addq	$16, %r9
	cmpq	%r9, %r8
	jne	19b
20:
	movq	%rsi, (%rdx)
	xorps	%xmm2, %xmm2
	movaps	%xmm2, 16(%rsp)
	movq	$0, 32(%rsp)
	xorl	%edx, %edx
	cmpl	$1, %eax
	jne	22f
	cmpq	$0, 88(%rsp)
	je	22f
	movaps	%xmm1, 176(%rsp)
	callq	rattle_dealloc@PLT
	xorps	%xmm2, %xmm2
	movaps	176(%rsp), %xmm1
21:
	xorl	%edx, %edx
22:
	xorl	%ecx, %ecx
23:
	movq	32(%rsp), %rax
	movaps	16(%rsp), %xmm0
	movaps	%xmm0, 48(%rsp)
	movq	%rax, 64(%rsp)
	movaps	%xmm0, 16(%rsp)
	movq	%rax, 32(%rsp)
24:
	movl	%edx, (%rbx)
	movss	%xmm2, 4(%rbx)
	movq	%rcx, 8(%rbx)
	movq	$0, 16(%rbx)
	movups	%xmm1, 24(%rbx)
	movaps	16(%rsp), %xmm0
	movups	%xmm0, 40(%rbx)
	movq	32(%rsp), %rax
	movq	%rax, 56(%rbx)
	movq	%rbx, %rax
	addq	$224, %rsp
	popq	%rbx
	popq	%r12
	popq	%r14
	popq	%r15
	popq	%rbp
	retq
25:
	.size	mimelook_database_parents, 25b-mimelook_database_parents
	.section	.rodata,"a",@progbits
	.p2align	2, 0x0
26:
	.long	2b-26b
	.long	10b-26b
	.long	7b-26b
	.long	8b-26b
	.long	6b-26b
	.long	11b-26b
	.long	12b-26b
	.long	9b-26b

	.text
	.globl	mimelook_database_sniff
	.p2align	4
	.type	mimelook_database_sniff,@function
mimelook_database_sniff:
	pushq	%r15
	pushq	%r14
	pushq	%r13
	pushq	%r12
	pushq	%rbx
	subq	$80, %rsp
	movq	%rdi, %rbx
	testq	%rsi, %rsi
	je	1f
	movq	%r8, %r14
	movq	%rcx, %r12
	movq	%rsi, %r15
	xorl	%r13d, %r13d
	testq	%rdx, %rdx
	sete	%r13b
	shll	$12, %r13d
	addq	%rdx, %r13
	movq	%rsi, %rdi
	callq	"mime_c::database::open_database::OpenDatabase::read_paid"
	movq	$0, 40(%rsp)
	movq	24(%r15), %rax
	movq	%rax, %rcx
	shrq	$2, %rcx
	movq	$1, (%rsp)
	movq	$0, 8(%rsp)
	movq	%rcx, 16(%rsp)
	movq	%rax, 24(%rsp)
	leaq	48(%rsp), %rdi
	leaq	40(%rsp), %r8
	movq	%rsp, %r9
	movq	%r15, %rsi
	movq	%r13, %rdx
	movq	%r12, %rcx
	callq	"mime_lookup::cached::content_alone::sniff_opened"
	movaps	(%rsp), %xmm0
	movq	56(%rsp), %rax
	movq	64(%rsp), %rdi
	cmpb	$0, 48(%rsp)
	je	2f
	cmpb	$7, %al
	jne	3f
	xorps	%xmm1, %xmm1
	movaps	%xmm1, (%rsp)
	movq	$0, 16(%rsp)
	movl	$2, %ecx
	jmp	7f
1:
	xorps	%xmm0, %xmm0
	movaps	%xmm0, (%rsp)
	movq	$0, 16(%rsp)
	movl	$14, %ecx
	xorl	%eax, %eax
	xorl	%edx, %edx
	xorl	%esi, %esi
	xorl	%edi, %edi
	jmp	20f
2:
	movzbl	72(%rsp), %esi
	movl	76(%rsp), %edx
	movzbl	152(%r15), %r8d
	xorl	%ecx, %ecx
	cmpq	$1, %r8
	jne	5f
	movq	160(%r15), %r10
	xorl	%r9d, %r9d
	subq	(%rsp), %r10
	cmovaeq	%r10, %r9
	jmp	6f
3:
	movzbl	%al, %esi
	leaq	22f(%rip), %rcx
	movslq	(%rcx,%rsi,4), %rdx
	addq	%rcx, %rdx
	jmpq	*%rdx
4:
	movl	$5, %ecx
	xorl	%eax, %eax
	xorl	%edx, %edx
	jmp	18f
5:
	xorl	%r9d, %r9d
6:
	movq	%r8, 152(%r15)
	movq	%r9, 160(%r15)
	movl	%esi, %r8d
	andl	$1, %r8d
	cmpl	$1, %esi
	cmovnel	%ecx, %edx
	movq	%rax, (%r14)
	movq	%rdi, 8(%r14)
	movl	%edx, 16(%r14)
	movl	%r8d, 20(%r14)
	xorps	%xmm1, %xmm1
	movups	%xmm1, 24(%r14)
	movq	$0, 40(%r14)
	movaps	%xmm1, (%rsp)
	movq	$0, 16(%rsp)
7:
	xorl	%eax, %eax
	xorl	%edx, %edx
	xorl	%esi, %esi
	jmp	19f
8:
	movl	$9, %ecx
	jmp	11f
9:
	movl	$7, %ecx
	jmp	16f
10:
	movl	$8, %ecx
11:
	xorl	%eax, %eax
	xorl	%edx, %edx
	movq	%rdi, %rsi
	jmp	18f
12:
	movl	$2, %ecx
	jmp	16f
13:
	movq	%rax, %rdx
	shrq	$32, %rdx
	shrl	$16, %eax
	movl	$6, %ecx
	jmp	17f
14:
	movl	$10, %ecx
	jmp	16f
15:
	movl	$11, %ecx
16:
	xorl	%eax, %eax
	xorl	%edx, %edx
17:
	xorl	%esi, %esi
18:
	xorps	%xmm1, %xmm1
	movaps	%xmm1, (%rsp)
	movq	$0, 16(%rsp)
19:
	movq	40(%rsp), %rdi
	movq	16(%rsp), %r8
	movq	%r8, 64(%rsp)
	movaps	(%rsp), %xmm1
	movaps	%xmm1, 48(%rsp)
	movaps	%xmm1, (%rsp)
	movq	%r8, 16(%rsp)
20:
	movl	%ecx, (%rbx)
	movw	%ax, 4(%rbx)
	movw	%dx, 6(%rbx)
	movq	%rsi, 8(%rbx)
	movq	%rdi, 16(%rbx)
	movups	%xmm0, 24(%rbx)
	movaps	(%rsp), %xmm0
	movups	%xmm0, 40(%rbx)
	movq	16(%rsp), %rax
	movq	%rax, 56(%rbx)
	movq	%rbx, %rax
	addq	$80, %rsp
	popq	%rbx
	popq	%r12
	popq	%r13
	popq	%r14
	popq	%r15
	retq
21:
	.size	mimelook_database_sniff, 21b-mimelook_database_sniff
	.section	.rodata,"a",@progbits
	.p2align	2, 0x0
22:
	.long	4b-22b
	.long	13b-22b
	.long	9b-22b
	.long	10b-22b
	.long	8b-22b
	.long	14b-22b
	.long	15b-22b
	.long	12b-22b

	.text
	.globl	mimelook_database_unalias
	.p2align	4
	.type	mimelook_database_unalias,@function
mimelook_database_unalias:
	pushq	%r15
	pushq	%r14
	pushq	%r12
	pushq	%rbx
	subq	$88, %rsp
	movq	%rcx, %r15
	movq	%rdi, %rbx
	xorl	%eax, %eax
	testq	%rdx, %rdx
	sete	%cl
	testq	%rsi, %rsi
	je	1f
	movq	%r8, %r14
	movq	%rdx, %r12
	movb	%cl, %al
	shll	$12, %eax
	addq	%rax, %r12
	xorps	%xmm0, %xmm0
	movaps	%xmm0, 32(%rsp)
	cmpb	$1, 72(%rsi)
	jne	2f
	movl	$192, %edi
	addq	80(%rsi), %rdi
	movq	%r12, %rsi
	movq	%r15, %rdx
	callq	"mime_lookup::read_back::targets::target_of"
	xorps	%xmm2, %xmm2
	movq	%rax, %r12
	movq	%rdx, %r15
	jmp	5f
1:
	xorps	%xmm1, %xmm1
	movaps	%xmm1, (%rsp)
	movq	$0, 16(%rsp)
	movl	$14, %ecx
	xorl	%eax, %eax
	xorps	%xmm2, %xmm2
	jmp	16f
2:
	movaps	%xmm0, 64(%rsp)
	movaps	%xmm0, 48(%rsp)
	movl	36(%rsi), %edx
	addq	$16, %rsi
	leaq	48(%rsp), %rdi
	leaq	32(%rsp), %r9
	movq	%r12, %rcx
	movq	%r15, %r8
	callq	"mime_view::pairs::look_up_pair"
	movzbl	56(%rsp), %edx
	movq	64(%rsp), %rax
	cmpb	$0, 48(%rsp)
	je	4f
	xorps	%xmm0, %xmm0
	movl	%edx, %ecx
	leaq	18f(%rip), %rsi
	movslq	(%rsi,%rcx,4), %rcx
	addq	%rsi, %rcx
	jmpq	*%rcx
3:
	movl	$5, %ecx
	movq	%rdx, %rax
	jmp	14f
4:
	cmpl	$1, %edx
	cmoveq	72(%rsp), %r15
	movaps	32(%rsp), %xmm2
	cmoveq	%rax, %r12
5:
	movq	%r12, (%r14)
	movq	%r15, 8(%r14)
	xorps	%xmm1, %xmm1
	movaps	%xmm1, (%rsp)
	movq	$0, 16(%rsp)
	xorl	%eax, %eax
	xorl	%ecx, %ecx
	jmp	16f
6:
	movl	$9, %ecx
	jmp	14f
7:
	movl	$7, %ecx
	jmp	13f
8:
	movl	$8, %ecx
	jmp	14f
9:
	movl	$2, %ecx
	jmp	13f
10:
	movss	58(%rsp), %xmm1
	movl	$6, %ecx
	xorl	%eax, %eax
	jmp	15f
11:
	movl	$10, %ecx
	jmp	13f
12:
	movl	$11, %ecx
13:
	xorl	%eax, %eax
14:
	xorps	%xmm1, %xmm1
15:
	movaps	32(%rsp), %xmm2
	movaps	%xmm0, (%rsp)
	movq	$0, 16(%rsp)
16:
	movl	%ecx, (%rbx)
	movss	%xmm1, 4(%rbx)
	movq	%rax, 8(%rbx)
	movq	$0, 16(%rbx)
	movups	%xmm2, 24(%rbx)
	movaps	(%rsp), %xmm0
	movups	%xmm0, 40(%rbx)
	movq	16(%rsp), %rax
	movq	%rax, 56(%rbx)
	movq	%rbx, %rax
	addq	$88, %rsp
	popq	%rbx
	popq	%r12
	popq	%r14
	popq	%r15
	retq
17:
	.size	mimelook_database_unalias, 17b-mimelook_database_unalias
	.section	.rodata,"a",@progbits
	.p2align	2, 0x0
18:
	.long	3b-18b
	.long	10b-18b
	.long	7b-18b
	.long	8b-18b
	.long	6b-18b
	.long	11b-18b
	.long	12b-18b
	.long	9b-18b

	.text
	.globl	mimelook_extent
	.p2align	4
	.type	mimelook_extent,@function
mimelook_extent:
	movq	%rdi, %rax
	xorl	%edi, %edi
	testq	%rsi, %rsi
	sete	%r8b
	cmpq	$40, %rdx
	jae	2f
	movl	$5, %edx
	xorl	%ecx, %ecx
1:
	xorl	%esi, %esi
	xorl	%r8d, %r8d
	jmp	4f
2:
	movb	%r8b, %dil
	shll	$12, %edi
	addq	%rdi, %rsi
	movl	(%rsi), %r8d
	cmpl	$33554688, %r8d
	jne	3f
	cmpq	$268435456, %rdx
	jbe	7f
	movl	$7, %edx
	movl	$1, %ecx
	jmp	1b
3:
	bswapl	%r8d
	movl	%r8d, %esi
	shrl	$16, %esi
	movl	$6, %edx
	movl	$1, %ecx
4:
	xorl	%edi, %edi
5:
	xorps	%xmm0, %xmm0
	movaps	%xmm0, -24(%rsp)
	movq	$0, -8(%rsp)
6:
	movl	%edx, (%rax)
	movw	%si, 4(%rax)
	movw	%r8w, 6(%rax)
	movq	%rdi, 8(%rax)
	movq	$0, 16(%rax)
	movq	%rcx, 24(%rax)
	movq	$0, 32(%rax)
	movaps	-24(%rsp), %xmm0
	movups	%xmm0, 40(%rax)
	movq	-8(%rsp), %rcx
	movq	%rcx, 56(%rax)
	retq
7:
	movl	24(%rsi), %edi
	bswapl	%edi
	movl	%edi, %edi
	subq	%rdi, %rdx
	setb	%r8b
	cmpq	$12, %rdx
	setb	%r9b
	xorl	%edx, %edx
	orb	%r8b, %r9b
	je	8f
	movl	$8, %edx
	movl	$2, %ecx
	xorl	%esi, %esi
	xorl	%r8d, %r8d
	jmp	5b
8:
	movl	4(%rsi,%rdi), %esi
	bswapl	%esi
	movq	%rsi, (%rcx)
	xorps	%xmm0, %xmm0
	movaps	%xmm0, -24(%rsp)
	movq	$0, -8(%rsp)
	movl	$2, %ecx
	xorl	%esi, %esi
	xorl	%r8d, %r8d
	xorl	%edi, %edi
	jmp	6b
9:
	.size	mimelook_extent, 9b-mimelook_extent

	.section	.rodata.cst16,"aM",@progbits,16
	.p2align	4, 0x0
1:
	.byte	3,2,1,0,7,6,5,4,11,10,9,8,15,14,13,12
	.text
	.globl	mimelook_hits
	.p2align	4
	.type	mimelook_hits,@function
mimelook_hits:
	pushq	%rbp
	pushq	%r15
	pushq	%r14
	pushq	%r13
	pushq	%r12
	pushq	%rbx
	subq	$184, %rsp
	movq	%rdi, %rax
	xorl	%r10d, %r10d
	testq	%rsi, %rsi
	sete	%bl
	xorl	%edi, %edi
	testq	%rcx, %rcx
	sete	%r11b
	xorl	%r14d, %r14d
	testq	%r9, %r9
	sete	%bpl
	cmpq	$4097, %r8
	jb	2f
	movl	$1, (%rax)
	xorps	%xmm0, %xmm0
	movups	%xmm0, 4(%rax)
	movups	%xmm0, 20(%rax)
	movups	%xmm0, 36(%rax)
	movups	%xmm0, 48(%rax)
	jmp	18f
2:
	movq	$0, 8(%rsp)
	cmpq	$40, %rdx
	jae	4f
	xorl	%ecx, %ecx
	xorl	%edi, %edi
3:
	movd	%ecx, %xmm2
	xorl	%ecx, %ecx
	movzbl	%dil, %r8d
	movl	$5, %edx
	xorl	%esi, %esi
	leaq	26f(%rip), %r9
	movslq	(%r9,%r8,4), %r10
	addq	%r9, %r10
	xorl	%r9d, %r9d
	jmpq	*%r10
4:
	movb	%bl, %r10b
	shll	$12, %r10d
	addq	%r10, %rsi
	movq	$1, (%rsp)
	movl	(%rsi), %r10d
	cmpl	$33554688, %r10d
	bswapl	%r10d
	jne	5f
	cmpq	$268435457, %rdx
	jb	6f
	movl	$2, %edi
	movl	$1, %ecx
	jmp	3b
5:
	movl	%r10d, %ecx
	andl	$-65536, %ecx
	movzwl	%r10w, %edx
	shlq	$32, %rdx
	leaq	(%rdx,%rcx), %rdi
	incq	%rdi
	movl	$1, %ecx
	movd	%ecx, %xmm2
	xorl	%ecx, %ecx
	movzbl	%dil, %r8d
	movl	$5, %edx
	xorl	%esi, %esi
	leaq	26f(%rip), %r9
	movslq	(%r9,%r8,4), %r10
	addq	%r9, %r10
	xorl	%r9d, %r9d
	jmpq	*%r10
6:
	movq	%r9, %r15
	movq	%rax, %rbx
	movb	%r11b, %dil
	shll	$12, %edi
	addq	%rdi, %rcx
	movdqu	20(%rsi), %xmm0
	movdqa	1b(%rip), %xmm1
	pshufb	%xmm1, %xmm0
	movl	36(%rsi), %eax
	bswapl	%eax
	movdqu	4(%rsi), %xmm2
	pshufb	%xmm1, %xmm2
	movq	%rsi, 128(%rsp)
	movq	%rdx, 136(%rsp)
	movl	%r10d, 144(%rsp)
	movdqu	%xmm2, 148(%rsp)
	movdqu	%xmm0, 164(%rsp)
	movl	%eax, 180(%rsp)
	pxor	%xmm0, %xmm0
	movdqa	%xmm0, 48(%rsp)
	movdqa	%xmm0, 64(%rsp)
	movq	$0, 80(%rsp)
	movq	%rdx, %rax
	shrq	$2, %rax
	movq	%rax, 96(%rsp)
	movq	%rdx, 104(%rsp)
	leaq	48(%rsp), %rdi
	leaq	128(%rsp), %rsi
	movq	%rsp, %rax
	leaq	96(%rsp), %r9
	movq	%rcx, %rdx
	movq	%r8, %rcx
	movq	%rax, %r8
	callq	"mime_view::cache::Cache::rule_hits"
	movq	56(%rsp), %rdi
	movq	64(%rsp), %rcx
	cmpb	$0, 48(%rsp)
	movdqa	(%rsp), %xmm2
	je	19f
	movzbl	%dil, %r8d
	movl	$5, %edx
	xorl	%esi, %esi
	leaq	26f(%rip), %rax
	movslq	(%rax,%r8,4), %r10
	addq	%rax, %r10
	xorl	%r9d, %r9d
	movq	%rbx, %rax
	jmpq	*%r10
7:
	movl	%edi, %esi
	shrl	$16, %esi
	shrq	$32, %rdi
	movl	$6, %edx
	xorl	%r8d, %r8d
	movl	%edi, %r9d
	jmp	16f
8:
	movl	$9, %edx
	jmp	11f
9:
	movl	$7, %edx
	jmp	15f
10:
	movl	$8, %edx
11:
	xorl	%esi, %esi
	xorl	%r9d, %r9d
	movq	%rcx, %r8
	jmp	16f
12:
	movl	$2, %edx
	jmp	15f
13:
	movl	$10, %edx
	jmp	15f
14:
	movl	$11, %edx
15:
	xorl	%esi, %esi
	xorl	%r9d, %r9d
	xorl	%r8d, %r8d
16:
	pxor	%xmm0, %xmm0
	movdqa	%xmm0, 16(%rsp)
	movq	$0, 32(%rsp)
17:
	movl	%edx, (%rax)
	movw	%si, 4(%rax)
	movw	%r9w, 6(%rax)
	movq	%r8, 8(%rax)
	movq	$0, 16(%rax)
	movdqu	%xmm2, 24(%rax)
	movaps	16(%rsp), %xmm0
	movups	%xmm0, 40(%rax)
	movq	32(%rsp), %rcx
	movq	%rcx, 56(%rax)
18:
	addq	$184, %rsp
	popq	%rbx
	popq	%r12
	popq	%r13
	popq	%r14
	popq	%r15
	popq	%rbp
	retq
19:
	movq	248(%rsp), %r12
	movq	240(%rsp), %r9
	movq	72(%rsp), %rax
	cmpq	%rcx, %r9
	cmovaeq	%rcx, %r9
	testq	%r9, %r9
	je	23f
	movq	%r15, %rsi
	movb	%bpl, %r14b
	shll	$12, %r14d
	movq	80(%rsp), %r8
	cmpq	$1, %r9
	jne	20f
	xorl	%r10d, %r10d
	jmp	22f
20:
	movq	%r9, %r11
	andq	$-2, %r11
	leaq	41(%rdi), %r15
	leaq	(%r14,%rsi), %r12
	addq	$64, %r12
	xorl	%r10d, %r10d
	.p2align	4
21:
	xorl	%ebp, %ebp
	cmpq	%r8, %r10
	setb	%bpl
	movzbl	-25(%r15), %r13d
	movzbl	-24(%r15), %edx
	movdqu	-41(%r15), %xmm0
	movdqu	%xmm0, -64(%r12)
	movl	%r13d, -48(%r12)
	movw	%dx, -44(%r12)
	movw	%bp, -42(%r12)
	pxor	%xmm0, %xmm0
	movdqu	%xmm0, -40(%r12)
	leaq	1(%r10), %rdx
	xorl	%ebp, %ebp
	cmpq	%r8, %rdx
	setb	%bpl
	movzbl	-1(%r15), %edx
	movzbl	(%r15), %r13d
	movdqu	-17(%r15), %xmm1
	movdqu	%xmm1, -24(%r12)
	movl	%edx, -8(%r12)
	movw	%r13w, -4(%r12)
	movw	%bp, -2(%r12)
	movdqu	%xmm0, (%r12)
	addq	$2, %r10
	addq	$48, %r15
	addq	$80, %r12
	cmpq	%r11, %r10
	jne	21b
	testb	$1, %r9b
	movq	248(%rsp), %r12
	je	23f
22:
	addq	%r14, %rsi
	leaq	(%r10,%r10,2), %rdx
	xorl	%r9d, %r9d
	cmpq	%r8, %r10
	setb	%r9b
	movzbl	16(%rdi,%rdx,8), %r8d
	movzbl	17(%rdi,%rdx,8), %r11d
	leaq	(%r10,%r10,4), %r10
	movdqu	(%rdi,%rdx,8), %xmm0
	movdqu	%xmm0, (%rsi,%r10,8)
	movl	%r8d, 16(%rsi,%r10,8)
	movw	%r11w, 20(%rsi,%r10,8)
	movw	%r9w, 22(%rsi,%r10,8)
	pxor	%xmm0, %xmm0
	movdqu	%xmm0, 24(%rsi,%r10,8)
23:
	movq	%rcx, (%r12)
	pxor	%xmm0, %xmm0
	movdqa	%xmm0, 16(%rsp)
	movq	$0, 32(%rsp)
	testq	%rax, %rax
	je	24f
	movdqa	%xmm2, 112(%rsp)
	callq	rattle_dealloc@PLT
	movdqa	112(%rsp), %xmm2
24:
	xorl	%edx, %edx
	xorl	%esi, %esi
	xorl	%r9d, %r9d
	xorl	%r8d, %r8d
	movq	%rbx, %rax
	jmp	17b
25:
	.size	mimelook_hits, 25b-mimelook_hits
	.section	.rodata,"a",@progbits
	.p2align	2, 0x0
26:
	.long	16b-26b
	.long	7b-26b
	.long	9b-26b
	.long	10b-26b
	.long	8b-26b
	.long	13b-26b
	.long	14b-26b
	.long	12b-26b

	.section	.rodata.cst16,"aM",@progbits,16
	.p2align	4, 0x0
1:
	.byte	3,2,1,0,7,6,5,4,11,10,9,8,15,14,13,12
2:
	.zero	16,47
3:
	.zero	16,45
	.text
	.globl	mimelook_icons
	.p2align	4
	.type	mimelook_icons,@function
mimelook_icons:
	pushq	%rbp
	pushq	%r15
	pushq	%r14
	pushq	%r13
	pushq	%r12
	pushq	%rbx
	subq	$1688, %rsp
	movq	%r8, %r12
	movq	%rdx, %r15
	movq	%rsi, %rbp
	movq	%rdi, 16(%rsp)
	xorl	%r14d, %r14d
	testq	%rsi, %rsi
	sete	%bl
	xorl	%r13d, %r13d
	testq	%rcx, %rcx
	sete	%r13b
	shll	$12, %r13d
	addq	%rcx, %r13
	movq	%r9, 304(%rsp)
	testq	%r9, %r9
	sete	104(%rsp)
	cmpq	$0, 1752(%rsp)
	sete	15(%rsp)
	xorps	%xmm0, %xmm0
	movaps	%xmm0, 448(%rsp)
	movaps	%xmm0, 464(%rsp)
	movaps	%xmm0, 480(%rsp)
	movaps	%xmm0, 400(%rsp)
	movq	$0, 416(%rsp)
	movaps	%xmm0, 1088(%rsp)
	movaps	%xmm0, 1072(%rsp)
	movaps	%xmm0, 1056(%rsp)
	movq	$0, 1104(%rsp)
	movq	%r13, %rdi
	movq	%r8, %rsi
	callq	"mime_base::names::is_type_name"
	testb	%al, %al
	je	4f
	leaq	1056(%rsp), %rdi
	movq	%r13, %rsi
	movq	%r12, %rdx
	callq	"smallvec::small_vec::SmallVec::from_slice::<#940dc9c6c8ede164>"
	cmpb	$0, 1056(%rsp)
	je	7f
	movl	$2, %ebp
	jmp	5f
4:
	movl	$3, %ebp
5:
	movq	16(%rsp), %rbx
	pxor	%xmm1, %xmm1
	movdqa	%xmm1, 400(%rsp)
	movq	$0, 416(%rsp)
	xorl	%r15d, %r15d
	xorps	%xmm2, %xmm2
6:
	movl	%ebp, (%rbx)
	movd	%xmm1, 4(%rbx)
	movq	%r15, 8(%rbx)
	movq	$0, 16(%rbx)
	movups	%xmm2, 24(%rbx)
	movaps	400(%rsp), %xmm0
	movups	%xmm0, 40(%rbx)
	movq	416(%rsp), %rax
	movq	%rax, 56(%rbx)
	movq	%rbx, %rax
	addq	$1688, %rsp
	popq	%rbx
	popq	%r12
	popq	%r13
	popq	%r14
	popq	%r15
	popq	%rbp
	retq
7:
	movzbl	1064(%rsp), %ecx
	testq	%rcx, %rcx
	leaq	456(%rsp), %r12
	movaps	1072(%rsp), %xmm0
	movaps	1088(%rsp), %xmm1
	movups	%xmm0, 456(%rsp)
	movups	%xmm1, 472(%rsp)
	movq	1104(%rsp), %rax
	movq	%rax, 488(%rsp)
	leaq	488(%rsp), %rax
	movq	%rcx, 448(%rsp)
	xorps	%xmm0, %xmm0
	movaps	%xmm0, 832(%rsp)
	movaps	%xmm0, 848(%rsp)
	movaps	%xmm0, 864(%rsp)
	movaps	%xmm0, 880(%rsp)
	movaps	%xmm0, 896(%rsp)
	movaps	%xmm0, 912(%rsp)
	movaps	%xmm0, 928(%rsp)
	movaps	%xmm0, 944(%rsp)
	movaps	%xmm0, 960(%rsp)
	movaps	%xmm0, 992(%rsp)
	movaps	%xmm0, 512(%rsp)
	movaps	%xmm0, 528(%rsp)
	movaps	%xmm0, 544(%rsp)
	movq	$0, 560(%rsp)
	movaps	%xmm0, 976(%rsp)
	movaps	%xmm0, 368(%rsp)
	movq	$0, 384(%rsp)
	movaps	%xmm0, 1008(%rsp)
	movaps	%xmm0, 576(%rsp)
	movaps	%xmm0, 592(%rsp)
	movaps	%xmm0, 608(%rsp)
	cmovneq	456(%rsp), %r12
	movq	$0, 624(%rsp)
	leaq	464(%rsp), %rcx
	cmoveq	%rax, %rcx
	movaps	%xmm0, 320(%rsp)
	movq	(%rcx), %r8
	movaps	%xmm0, 1024(%rsp)
	movaps	%xmm0, 640(%rsp)
	movaps	%xmm0, 656(%rsp)
	movaps	%xmm0, 672(%rsp)
	movq	$0, 688(%rsp)
	cmpq	$40, %r15
	jae	8f
	xorl	%r13d, %r13d
	jmp	18f
8:
	movb	%bl, %r14b
	shll	$12, %r14d
	addq	%r14, %rbp
	movq	$1, 320(%rsp)
	movl	(%rbp), %eax
	cmpl	$33554688, %eax
	bswapl	%eax
	jne	17f
	movl	$2, %r13d
	cmpq	$268435456, %r15
	ja	18f
	movdqu	20(%rbp), %xmm2
	movdqa	1b(%rip), %xmm1
	pshufb	%xmm1, %xmm2
	movl	36(%rbp), %ebx
	bswapl	%ebx
	movdqu	4(%rbp), %xmm0
	pshufb	%xmm1, %xmm0
	movq	%rbp, 1552(%rsp)
	movq	%r15, 1560(%rsp)
	leaq	1568(%rsp), %rcx
	movq	%rbp, 1568(%rsp)
	movq	%rcx, %rbp
	movq	%r15, 1576(%rsp)
	movl	%eax, 1584(%rsp)
	movdqu	%xmm0, 1588(%rsp)
	movdqa	%xmm2, 32(%rsp)
	movdqu	%xmm2, 1604(%rsp)
	movl	%ebx, 1620(%rsp)
	pxor	%xmm1, %xmm1
	movdqu	%xmm1, 1624(%rsp)
	movdqu	%xmm1, 1640(%rsp)
	movdqu	%xmm1, 1656(%rsp)
	movdqu	%xmm1, 1672(%rsp)
	movdqa	%xmm1, 336(%rsp)
	movdqa	%xmm1, 240(%rsp)
	movdqa	%xmm1, 256(%rsp)
	movdqa	%xmm1, 272(%rsp)
	movq	$0, 288(%rsp)
	movdqa	%xmm1, 1040(%rsp)
	movdqa	%xmm1, 768(%rsp)
	movdqa	%xmm1, 784(%rsp)
	movdqa	%xmm1, 800(%rsp)
	movq	$0, 816(%rsp)
	movdqa	%xmm1, 496(%rsp)
	movdqa	%xmm1, 432(%rsp)
	movdqa	%xmm1, 704(%rsp)
	movdqa	%xmm1, 720(%rsp)
	movdqa	%xmm1, 736(%rsp)
	movq	$0, 752(%rsp)
	movdqa	%xmm1, 1072(%rsp)
	movdqa	%xmm1, 1056(%rsp)
	movq	%xmm0, %rax
	movl	%eax, %edx
	leaq	1056(%rsp), %rdi
	leaq	320(%rsp), %r9
	movq	%rcx, %rsi
	movq	%r12, %rcx
	movq	%r8, %r14
	callq	"mime_view::pairs::look_up_pair"
	movzbl	1064(%rsp), %r13d
	movq	1072(%rsp), %r15
	cmpb	$0, 1056(%rsp)
	jne	10f
	movdqa	32(%rsp), %xmm0
	cmpb	$1, %r13b
	jne	9f
	movq	1080(%rsp), %r14
	movq	%r15, %r12
9:
	pxor	%xmm1, %xmm1
	movdqa	%xmm1, 1072(%rsp)
	movdqa	%xmm1, 1056(%rsp)
	pextrd	$3, %xmm0, %edx
	leaq	1056(%rsp), %rdi
	leaq	320(%rsp), %r9
	movq	%rbp, %rsi
	movq	%r12, %rcx
	movq	%r14, %r8
	callq	"mime_view::pairs::look_up_pair"
	movzbl	1064(%rsp), %r13d
	movq	1072(%rsp), %r15
	cmpb	$0, 1056(%rsp)
	je	42f
10:
	movd	1066(%rsp), %xmm0
	movdqa	%xmm0, 32(%rsp)
	pxor	%xmm1, %xmm1
	movdqa	%xmm1, 336(%rsp)
	movdqa	%xmm1, 240(%rsp)
	movdqa	%xmm1, 256(%rsp)
	pxor	%xmm0, %xmm0
	movdqa	%xmm0, 112(%rsp)
	movdqa	%xmm1, 272(%rsp)
	movq	$0, 288(%rsp)
	movb	$1, %bl
11:
	movq	$0, 24(%rsp)
12:
	xorl	%r14d, %r14d
13:
	movdqa	%xmm0, 352(%rsp)
14:
	movzbl	1624(%rsp), %eax
	movaps	336(%rsp), %xmm0
	movaps	%xmm0, 1024(%rsp)
	movaps	240(%rsp), %xmm0
	movaps	256(%rsp), %xmm1
	movaps	272(%rsp), %xmm2
	movaps	%xmm0, 640(%rsp)
	movaps	%xmm1, 656(%rsp)
	movaps	%xmm2, 672(%rsp)
	movq	288(%rsp), %rcx
	movq	%rcx, 688(%rsp)
	cmpb	$1, %al
	jne	20f
	movq	1632(%rsp), %r12
	leaq	1056(%rsp), %rbp
	movl	$352, %edx
	movq	%rbp, %rdi
	movq	%r12, %rsi
	callq	memcpy@PLT
	movq	%r12, %rdi
	callq	rattle_dealloc@PLT
	movq	%rbp, %rdi
	callq	"mime_lookup::mime_lookup++read_back++names++IndexedNames+Destruct::drop"
	cmpb	$1, 1640(%rsp)
	je	21f
15:
	cmpb	$1, 1656(%rsp)
	jne	22f
16:
	movq	1664(%rsp), %r12
	leaq	1056(%rsp), %rbp
	movl	$344, %edx
	movq	%rbp, %rdi
	movq	%r12, %rsi
	callq	memcpy@PLT
	movq	%r12, %rdi
	callq	rattle_dealloc@PLT
	movq	%rbp, %rdi
	callq	"mime_lookup::mime_lookup++read_back++pairs++IndexedPairs+Destruct::drop"
	cmpb	$1, 1672(%rsp)
	je	23f
	jmp	24f
17:
	movl	%eax, %ecx
	andl	$-65536, %ecx
	movzwl	%ax, %eax
	shlq	$32, %rax
	leaq	(%rax,%rcx), %r13
	incq	%r13
18:
	movq	%r13, %rax
	shrq	$32, %rax
	movd	%r13d, %xmm1
	psrld	$16, %xmm1
	pinsrw	$1, %eax, %xmm1
	xorl	%eax, %eax
	xorl	%r15d, %r15d
	cmpb	$7, %r13b
	jne	26f
19:
	movaps	320(%rsp), %xmm2
	pxor	%xmm1, %xmm1
	movdqa	%xmm1, 1056(%rsp)
	movq	$0, 1072(%rsp)
	movl	$2, %ebp
	xorl	%r15d, %r15d
	movq	16(%rsp), %rbx
	jmp	37f
20:
	cmpb	$1, 1640(%rsp)
	jne	15b
21:
	movq	1648(%rsp), %r12
	leaq	1056(%rsp), %rbp
	movl	$200, %edx
	movq	%rbp, %rdi
	movq	%r12, %rsi
	callq	memcpy@PLT
	movq	%r12, %rdi
	callq	rattle_dealloc@PLT
	movq	%rbp, %rdi
	callq	"mime_lookup::mime_lookup++indexed++magic_index++MagicIndex+Destruct::drop"
	cmpb	$1, 1656(%rsp)
	je	16b
22:
	cmpb	$1, 1672(%rsp)
	jne	24f
23:
	movq	1680(%rsp), %r12
	leaq	1056(%rsp), %rbp
	movl	$496, %edx
	movq	%rbp, %rdi
	movq	%r12, %rsi
	callq	memcpy@PLT
	movq	%r12, %rdi
	callq	rattle_dealloc@PLT
	movq	%rbp, %rdi
	callq	"mime_lookup::mime_lookup++read_back++icons++IndexedIcons+Destruct::drop"
24:
	movaps	1024(%rsp), %xmm0
	movaps	%xmm0, 1008(%rsp)
	movaps	640(%rsp), %xmm0
	movaps	656(%rsp), %xmm1
	movaps	672(%rsp), %xmm2
	movaps	%xmm0, 576(%rsp)
	movaps	%xmm1, 592(%rsp)
	movaps	%xmm2, 608(%rsp)
	movq	688(%rsp), %rax
	movq	%rax, 624(%rsp)
	cmpb	$0, 24(%rsp)
	je	25f
	movq	1744(%rsp), %rax
	movaps	1008(%rsp), %xmm0
	movaps	%xmm0, 992(%rsp)
	movaps	576(%rsp), %xmm0
	movaps	592(%rsp), %xmm1
	movaps	608(%rsp), %xmm2
	movaps	%xmm0, 512(%rsp)
	movaps	%xmm1, 528(%rsp)
	movaps	%xmm2, 544(%rsp)
	movq	624(%rsp), %rcx
	movq	%rcx, 560(%rsp)
	movaps	320(%rsp), %xmm0
	movaps	%xmm0, 976(%rsp)
	movzbl	%r13b, %ecx
	movq	%rcx, 832(%rsp)
	movq	%r15, 840(%rsp)
	movdqa	112(%rsp), %xmm3
	movdqa	%xmm3, 848(%rsp)
	movaps	352(%rsp), %xmm0
	movaps	%xmm0, 864(%rsp)
	movaps	992(%rsp), %xmm0
	movaps	%xmm0, 880(%rsp)
	movq	%r14, 896(%rsp)
	movq	560(%rsp), %rdx
	movq	%rdx, 952(%rsp)
	movaps	512(%rsp), %xmm0
	movdqa	528(%rsp), %xmm1
	movaps	544(%rsp), %xmm2
	movups	%xmm2, 936(%rsp)
	movdqu	%xmm1, 920(%rsp)
	movups	%xmm0, 904(%rsp)
	movaps	976(%rsp), %xmm0
	movaps	%xmm0, 960(%rsp)
	testb	%cl, %cl
	jne	39f
	movq	888(%rsp), %r12
	jmp	40f
25:
	movabsq	$-281474976710656, %rax
	andq	%r15, %rax
	movdqa	32(%rsp), %xmm1
	cmpb	$7, %r13b
	je	19b
26:
	movabsq	$281474976710655, %rcx
	andq	%rcx, %r15
	orq	%rax, %r15
	movzbl	%r13b, %eax
	xorps	%xmm0, %xmm0
	leaq	107f(%rip), %rcx
	movslq	(%rcx,%rax,4), %rdx
	addq	%rcx, %rdx
	jmpq	*%rdx
27:
	movl	$5, %ebp
	movq	%rax, %r15
	jmp	35f
28:
	movl	$9, %ebp
	jmp	35f
29:
	movl	$7, %ebp
	jmp	34f
30:
	movl	$8, %ebp
	jmp	35f
31:
	movl	$6, %ebp
	xorl	%r15d, %r15d
	jmp	36f
32:
	movl	$10, %ebp
	jmp	34f
33:
	movl	$11, %ebp
34:
	xorl	%r15d, %r15d
35:
	pxor	%xmm1, %xmm1
36:
	movq	16(%rsp), %rbx
	movaps	320(%rsp), %xmm2
	movaps	%xmm0, 1056(%rsp)
	movq	$0, 1072(%rsp)
37:
	movq	1072(%rsp), %rax
	movq	%rax, 384(%rsp)
	movaps	1056(%rsp), %xmm0
	movaps	%xmm0, 368(%rsp)
38:
	movq	384(%rsp), %rax
	movq	%rax, 416(%rsp)
	movaps	368(%rsp), %xmm0
	movaps	%xmm0, 400(%rsp)
	cmpb	$1, 448(%rsp)
	jne	6b
	cmpq	$0, 472(%rsp)
	je	6b
	movq	456(%rsp), %rdi
	movdqa	%xmm1, 32(%rsp)
	movaps	%xmm2, 304(%rsp)
	callq	rattle_dealloc@PLT
	movaps	304(%rsp), %xmm2
	movdqa	32(%rsp), %xmm1
	jmp	6b
39:
	movq	%xmm3, %r12
40:
	cmpq	%r12, %rax
	jb	41f
	testq	%r14, %r14
	leaq	952(%rsp), %rax
	leaq	912(%rsp), %rcx
	cmoveq	%rax, %rcx
	movq	(%rcx), %rbp
	cmpq	%rbp, 1760(%rsp)
	jae	43f
41:
	movaps	960(%rsp), %xmm2
	xorps	%xmm0, %xmm0
	movaps	%xmm0, 368(%rsp)
	movq	$0, 384(%rsp)
	movl	$4, %ebp
	jmp	60f
42:
	movq	%rbp, %rsi
	movq	1080(%rsp), %rbp
	pxor	%xmm0, %xmm0
	movdqa	%xmm0, 1072(%rsp)
	movdqa	%xmm0, 1056(%rsp)
	movl	%ebx, %edx
	leaq	1056(%rsp), %rdi
	leaq	320(%rsp), %r9
	movq	%r12, %rcx
	movq	%r14, %r8
	callq	"mime_view::pairs::look_up_pair"
	movzbl	1064(%rsp), %eax
	movq	1072(%rsp), %rcx
	cmpb	$0, 1056(%rsp)
	je	62f
	movd	1066(%rsp), %xmm0
	movdqa	%xmm0, 32(%rsp)
	pxor	%xmm1, %xmm1
	movdqa	%xmm1, 336(%rsp)
	movdqa	%xmm1, 240(%rsp)
	movdqa	%xmm1, 256(%rsp)
	pxor	%xmm0, %xmm0
	movdqa	%xmm0, 112(%rsp)
	movdqa	%xmm1, 272(%rsp)
	movq	$0, 288(%rsp)
	movb	$1, %bl
	movq	$0, 24(%rsp)
	movq	%rcx, %r15
	movl	%eax, %r13d
	jmp	12b
43:
	movb	%bl, 32(%rsp)
	xorl	%ecx, %ecx
	movzbl	104(%rsp), %eax
	movb	%al, %cl
	xorl	%edx, %edx
	movzbl	15(%rsp), %eax
	movb	%al, %dl
	shll	$12, %ecx
	shll	$12, %edx
	movq	%rdx, 104(%rsp)
	leaq	840(%rsp), %rsi
	testb	%r13b, %r13b
	cmovneq	%r15, %rsi
	movq	304(%rsp), %rax
	leaq	(%rax,%rcx), %rdi
	movq	%rdi, %rax
	subq	%rsi, %rax
	cmpq	%r12, %rax
	jae	49f
	movq	%rcx, %r10
	cmpq	$4, %r12
	movq	1752(%rsp), %r9
	jb	44f
	cmpq	$32, %rax
	jae	65f
44:
	xorl	%eax, %eax
45:
	movq	%r12, %rdx
	movq	%rax, %rcx
	andq	$3, %rdx
	je	47f
	movq	%rax, %rcx
46:
	movzbl	(%rsi,%rcx), %r8d
	movb	%r8b, (%rdi,%rcx)
	incq	%rcx
	decq	%rdx
	jne	46b
47:
	subq	%r12, %rax
	cmpq	$-4, %rax
	ja	50f
	movq	304(%rsp), %rax
	addq	%r10, %rax
	addq	$3, %rax
48:
	movzbl	(%rsi,%rcx), %edx
	movb	%dl, -3(%rax,%rcx)
	movzbl	1(%rsi,%rcx), %edx
	movb	%dl, -2(%rax,%rcx)
	movzbl	2(%rsi,%rcx), %edx
	movb	%dl, -1(%rax,%rcx)
	movzbl	3(%rsi,%rcx), %edx
	movb	%dl, (%rax,%rcx)
	addq	$4, %rcx
	cmpq	%rcx, %r12
	jne	48b
	jmp	50f
49:
	movq	%r12, %rdx
	callq	memmove@PLT
	movq	1752(%rsp), %r9
50:
	movq	104(%rsp), %rax
	leaq	(%r9,%rax), %rdi
	testq	%r14, %r14
	je	51f
	movq	904(%rsp), %rsi
	jmp	52f
51:
	leaq	904(%rsp), %rsi
52:
	movq	1768(%rsp), %rbx
	movq	%rdi, %rax
	subq	%rsi, %rax
	cmpq	%rbp, %rax
	jae	58f
	cmpq	$4, %rbp
	jb	53f
	cmpq	$32, %rax
	jae	66f
53:
	xorl	%eax, %eax
54:
	movq	%rbp, %rdx
	movq	%rax, %rcx
	andq	$3, %rdx
	je	56f
	movq	%rax, %rcx
55:
	movzbl	(%rsi,%rcx), %r8d
	movb	%r8b, (%rdi,%rcx)
	incq	%rcx
	decq	%rdx
	jne	55b
56:
	subq	%rbp, %rax
	cmpq	$-4, %rax
	ja	59f
	movq	104(%rsp), %rax
	addq	%r9, %rax
	addq	$3, %rax
57:
	movzbl	(%rsi,%rcx), %edx
	movb	%dl, -3(%rax,%rcx)
	movzbl	1(%rsi,%rcx), %edx
	movb	%dl, -2(%rax,%rcx)
	movzbl	2(%rsi,%rcx), %edx
	movb	%dl, -1(%rax,%rcx)
	movzbl	3(%rsi,%rcx), %edx
	movb	%dl, (%rax,%rcx)
	addq	$4, %rcx
	cmpq	%rcx, %rbp
	jne	57b
	jmp	59f
58:
	movq	%rbp, %rdx
	callq	memmove@PLT
59:
	movq	%r12, (%rbx)
	movq	%rbp, 8(%rbx)
	movaps	960(%rsp), %xmm2
	xorps	%xmm0, %xmm0
	movaps	%xmm0, 368(%rsp)
	movq	$0, 384(%rsp)
	xorl	%ebp, %ebp
	movzbl	32(%rsp), %ebx
60:
	cmpb	$1, %r13b
	setne	%al
	orb	%bl, %al
	testb	$1, %al
	movaps	%xmm2, 304(%rsp)
	jne	61f
	movq	%r15, %rdi
	callq	rattle_dealloc@PLT
	movaps	304(%rsp), %xmm2
61:
	xorl	%r15d, %r15d
	pxor	%xmm1, %xmm1
	cmpl	$1, %r14d
	movq	16(%rsp), %rbx
	jne	38b
	cmpq	$0, 920(%rsp)
	je	38b
	movq	904(%rsp), %rdi
	callq	rattle_dealloc@PLT
	movaps	304(%rsp), %xmm2
	pxor	%xmm1, %xmm1
	xorl	%r15d, %r15d
	jmp	38b
62:
	movb	%al, 32(%rsp)
	movq	1080(%rsp), %rax
	movq	%rax, 24(%rsp)
	cmpb	$1, %r13b
	movq	%rcx, 392(%rsp)
	pxor	%xmm0, %xmm0
	jne	64f
	movdqa	%xmm0, 1104(%rsp)
	movdqa	%xmm0, 1088(%rsp)
	movdqa	%xmm0, 1072(%rsp)
	movdqa	%xmm0, 1056(%rsp)
	movq	$0, 1120(%rsp)
	cmpq	$49, %rbp
	jb	67f
	leaq	1056(%rsp), %rdi
	movq	%r15, %rsi
	movq	%rbp, %rdx
	callq	"smallvec::small_vec::SmallVec::from_slice::<#58247b01769054f4>"
	cmpb	$0, 1056(%rsp)
	je	83f
	pxor	%xmm0, %xmm0
	movdqa	%xmm0, 192(%rsp)
	pxor	%xmm1, %xmm1
63:
	movb	$1, %al
	xorl	%r15d, %r15d
	xorl	%r13d, %r13d
	pxor	%xmm2, %xmm2
	jmp	85f
64:
	movdqa	%xmm0, 48(%rsp)
	movdqa	%xmm0, 64(%rsp)
	movdqa	%xmm0, 80(%rsp)
	movdqa	%xmm0, 1056(%rsp)
	movdqa	%xmm0, 1072(%rsp)
	movdqa	%xmm0, 1088(%rsp)
	movdqa	%xmm0, 1104(%rsp)
	movq	$0, 1120(%rsp)
	movq	%r14, %rdx
	cmpq	$49, %r14
	jae	82f
	leaq	48(%rsp), %rax
	subq	%r12, %rax
	leaq	48(%rsp), %rdi
	movq	%r12, %rsi
	movq	%rdx, %rbx
	cmpq	%rdx, %rax
	jae	68f
	callq	memcpy@PLT
	jmp	69f
65:
	cmpq	$32, %r12
	jae	72f
	xorl	%eax, %eax
	jmp	74f
66:
	cmpq	$32, %rbp
	jae	76f
	xorl	%eax, %eax
	jmp	78f
67:
	movdqa	%xmm0, 80(%rsp)
	movdqa	%xmm0, 64(%rsp)
	movdqa	%xmm0, 48(%rsp)
	leaq	48(%rsp), %rdi
	movq	%r15, %rsi
	movq	%rbp, %rdx
	callq	memcpy@PLT
	movdqa	48(%rsp), %xmm0
	movaps	64(%rsp), %xmm1
	movaps	80(%rsp), %xmm2
	movups	%xmm2, 168(%rsp)
	movups	%xmm1, 152(%rsp)
	movdqu	%xmm0, 136(%rsp)
	movq	$0, 128(%rsp)
	movq	$48, 184(%rsp)
	cmpq	$48, %rbp
	jne	80f
	xorl	%r13d, %r13d
	jmp	81f
68:
	callq	memmove@PLT
69:
	movdqa	2b(%rip), %xmm1
	movdqa	48(%rsp), %xmm2
	movdqa	64(%rsp), %xmm3
	movdqa	80(%rsp), %xmm4
	movdqa	%xmm2, %xmm0
	pcmpeqb	%xmm1, %xmm0
	movdqa	3b(%rip), %xmm5
	pblendvb	%xmm0, %xmm5, %xmm2
	movdqa	%xmm2, 48(%rsp)
	movdqa	%xmm3, %xmm0
	pcmpeqb	%xmm1, %xmm0
	pblendvb	%xmm0, %xmm5, %xmm3
	pcmpeqb	%xmm4, %xmm1
	movdqa	%xmm1, %xmm0
	pblendvb	%xmm0, %xmm5, %xmm4
	movdqa	%xmm3, 64(%rsp)
	movdqa	%xmm4, 80(%rsp)
	movdqu	%xmm4, 168(%rsp)
	movdqu	%xmm3, 152(%rsp)
	movdqu	%xmm2, 136(%rsp)
	movq	$0, 128(%rsp)
	movq	$48, 184(%rsp)
	cmpq	$48, %rbx
	movq	%rbx, %rsi
	jne	70f
	xorl	%r13d, %r13d
	jmp	71f
70:
	leaq	136(%rsp), %rdi
	addq	%rsi, %rdi
	movl	$48, %edx
	subq	%rsi, %rdx
	xorl	%esi, %esi
	callq	memset@PLT
	movq	%r14, %rsi
	movq	%r14, 184(%rsp)
	movzbl	128(%rsp), %r13d
71:
	movq	136(%rsp), %r15
	movdqu	144(%rsp), %xmm1
	movdqu	160(%rsp), %xmm2
	movq	176(%rsp), %rax
	movq	%rax, 192(%rsp)
	movq	184(%rsp), %rax
	movq	%rax, 200(%rsp)
	xorl	%eax, %eax
	jmp	86f
72:
	movq	%r12, %rax
	andq	$-32, %rax
	movq	304(%rsp), %rcx
	addq	%r10, %rcx
	addq	$16, %rcx
	xorl	%edx, %edx
73:
	movups	(%rsi,%rdx), %xmm0
	movdqu	16(%rsi,%rdx), %xmm1
	movups	%xmm0, -16(%rcx,%rdx)
	movdqu	%xmm1, (%rcx,%rdx)
	addq	$32, %rdx
	cmpq	%rdx, %rax
	jne	73b
	cmpq	%rax, %r12
	je	50b
	testb	$28, %r12b
	je	45b
74:
	movq	%rax, %rcx
	movq	%r12, %rax
	andq	$-4, %rax
75:
	movl	(%rsi,%rcx), %edx
	movl	%edx, (%rdi,%rcx)
	addq	$4, %rcx
	cmpq	%rcx, %rax
	jne	75b
	cmpq	%rax, %r12
	je	50b
	jmp	45b
76:
	movq	%rbp, %rax
	andq	$-32, %rax
	movq	104(%rsp), %rcx
	addq	%r9, %rcx
	addq	$16, %rcx
	xorl	%edx, %edx
77:
	movups	(%rsi,%rdx), %xmm0
	movdqu	16(%rsi,%rdx), %xmm1
	movups	%xmm0, -16(%rcx,%rdx)
	movdqu	%xmm1, (%rcx,%rdx)
	addq	$32, %rdx
	cmpq	%rdx, %rax
	jne	77b
	cmpq	%rax, %rbp
	je	59b
	testb	$28, %bpl
	je	54b
78:
	movq	%rax, %rcx
	movq	%rbp, %rax
	andq	$-4, %rax
79:
	movl	(%rsi,%rcx), %edx
	movl	%edx, (%rdi,%rcx)
	addq	$4, %rcx
	cmpq	%rcx, %rax
	jne	79b
	cmpq	%rax, %rbp
	je	59b
	jmp	54b
80:
	leaq	136(%rsp), %rdi
	addq	%rbp, %rdi
	movl	$48, %edx
	subq	%rbp, %rdx
	xorl	%esi, %esi
	callq	memset@PLT
	movq	%rbp, 184(%rsp)
	movzbl	128(%rsp), %r13d
81:
	movq	136(%rsp), %r15
	movdqu	144(%rsp), %xmm1
	movdqu	160(%rsp), %xmm2
	movq	176(%rsp), %rax
	movq	%rax, 192(%rsp)
	movq	184(%rsp), %rax
	movq	%rax, 200(%rsp)
	jmp	84f
82:
	leaq	1056(%rsp), %rdi
	movq	%r12, %rsi
	callq	"mime_lookup::cached::icons::long_with_hyphens"
	cmpb	$0, 1056(%rsp)
	je	83f
	pxor	%xmm1, %xmm1
	movdqa	%xmm1, 192(%rsp)
	jmp	63b
83:
	movzbl	1064(%rsp), %r13d
	movq	1072(%rsp), %r15
	movdqu	1080(%rsp), %xmm1
	movdqu	1096(%rsp), %xmm2
	movdqu	1112(%rsp), %xmm0
	movdqa	%xmm0, 192(%rsp)
84:
	xorl	%eax, %eax
85:
	movq	%r14, %rsi
86:
	movq	192(%rsp), %rcx
	movq	%rcx, 432(%rsp)
	movq	200(%rsp), %rcx
	movq	%rcx, 440(%rsp)
	testb	%al, %al
	je	87f
	pxor	%xmm1, %xmm1
	movdqa	%xmm1, 336(%rsp)
	movdqa	%xmm1, 240(%rsp)
	movdqa	%xmm1, 256(%rsp)
	pxor	%xmm0, %xmm0
	movdqa	%xmm0, 32(%rsp)
	movdqa	%xmm1, 272(%rsp)
	movq	$0, 288(%rsp)
	movb	$7, %r13b
	movb	$1, %bl
	xorl	%r15d, %r15d
	movq	$0, 24(%rsp)
	xorl	%r14d, %r14d
	movdqa	%xmm0, 112(%rsp)
	jmp	13b
87:
	movq	432(%rsp), %rax
	movq	%rax, 496(%rsp)
	movq	440(%rsp), %rax
	movq	%rax, 504(%rsp)
	cmpb	$1, 32(%rsp)
	movdqa	%xmm1, 112(%rsp)
	movdqa	%xmm2, 352(%rsp)
	pxor	%xmm0, %xmm0
	jne	89f
	movdqa	%xmm0, 1104(%rsp)
	movdqa	%xmm0, 1088(%rsp)
	movdqa	%xmm0, 1072(%rsp)
	movdqa	%xmm0, 1056(%rsp)
	movq	$0, 1120(%rsp)
	movq	24(%rsp), %r14
	cmpq	$49, %r14
	jb	92f
	leaq	1056(%rsp), %rdi
	movq	392(%rsp), %rsi
	movq	%r14, %rdx
	callq	"smallvec::small_vec::SmallVec::from_slice::<#58247b01769054f4>"
	cmpb	$0, 1056(%rsp)
	je	105f
88:
	pxor	%xmm0, %xmm0
	movdqa	%xmm0, 80(%rsp)
	movdqa	%xmm0, 64(%rsp)
	movdqa	%xmm0, 48(%rsp)
	movq	$0, 96(%rsp)
	movb	$1, %cl
	xorl	%eax, %eax
	jmp	101f
89:
	movdqa	%xmm0, 1104(%rsp)
	movdqa	%xmm0, 1088(%rsp)
	movdqa	%xmm0, 1072(%rsp)
	movdqa	%xmm0, 1056(%rsp)
	movq	$0, 1120(%rsp)
	testq	%rsi, %rsi
	je	93f
	xorl	%ebp, %ebp
90:
	cmpb	$47, (%r12,%rbp)
	je	91f
	incq	%rbp
	cmpq	%rbp, %rsi
	jne	90b
	movq	%rsi, %rbp
91:
	cmpq	$39, %rbp
	jae	104f
	leaq	10(%rbp), %rbx
	pxor	%xmm0, %xmm0
	movdqa	%xmm0, 224(%rsp)
	movdqa	%xmm0, 208(%rsp)
	movdqa	%xmm0, 192(%rsp)
	leaq	192(%rsp), %rax
	subq	%r12, %rax
	cmpq	%rbp, %rax
	jmp	94f
92:
	movdqa	%xmm0, 224(%rsp)
	movdqa	%xmm0, 208(%rsp)
	movdqa	%xmm0, 192(%rsp)
	leaq	192(%rsp), %rdi
	movq	392(%rsp), %rsi
	movq	%r14, %rdx
	callq	memcpy@PLT
	leaq	136(%rsp), %rbx
	movaps	192(%rsp), %xmm0
	movaps	208(%rsp), %xmm1
	movaps	224(%rsp), %xmm2
	movups	%xmm2, 168(%rsp)
	movups	%xmm1, 152(%rsp)
	movups	%xmm0, 136(%rsp)
	movq	$0, 128(%rsp)
	movq	$48, 184(%rsp)
	cmpq	$48, %r14
	jne	97f
	xorl	%eax, %eax
	jmp	98f
93:
	movdqa	%xmm0, 224(%rsp)
	movdqa	%xmm0, 208(%rsp)
	movdqa	%xmm0, 192(%rsp)
	movl	$10, %ebx
	xorl	%ebp, %ebp
94:
	leaq	192(%rsp), %rdi
	movq	%r12, %rsi
	movq	%rbp, %rdx
	callq	memcpy@PLT
	movabsq	$8243116074773346349, %rax
	movq	%rax, 192(%rsp,%rbp)
	movw	$25449, 200(%rsp,%rbp)
	leaq	136(%rsp), %r14
	movaps	192(%rsp), %xmm0
	movaps	208(%rsp), %xmm1
	movaps	224(%rsp), %xmm2
	movups	%xmm2, 168(%rsp)
	movups	%xmm1, 152(%rsp)
	movups	%xmm0, 136(%rsp)
	movq	$0, 128(%rsp)
	movq	$48, 184(%rsp)
	cmpq	$47, %rbx
	ja	95f
	leaq	(%r14,%rbx), %rdi
	movl	$48, %edx
	subq	%rbx, %rdx
	xorl	%esi, %esi
	callq	memset@PLT
	movq	%rbx, 184(%rsp)
	movzbl	128(%rsp), %eax
	jmp	96f
95:
	xorl	%eax, %eax
96:
	movq	48(%r14), %rcx
	movq	%rcx, 96(%rsp)
	movdqu	(%r14), %xmm0
	movdqu	16(%r14), %xmm1
	movdqu	32(%r14), %xmm2
	jmp	99f
97:
	leaq	(%rbx,%r14), %rdi
	movl	$48, %edx
	subq	%r14, %rdx
	xorl	%esi, %esi
	callq	memset@PLT
	movq	%r14, 184(%rsp)
	movzbl	128(%rsp), %eax
98:
	movq	48(%rbx), %rcx
	movq	%rcx, 96(%rsp)
	movdqu	(%rbx), %xmm0
	movdqu	16(%rbx), %xmm1
	movdqu	32(%rbx), %xmm2
99:
	movdqa	%xmm2, 80(%rsp)
	movdqa	%xmm1, 64(%rsp)
	movdqa	%xmm0, 48(%rsp)
100:
	xorl	%ecx, %ecx
101:
	movdqa	112(%rsp), %xmm0
	pextrq	$1, %xmm0, %rdx
	movq	96(%rsp), %rsi
	movq	%rsi, 752(%rsp)
	movaps	48(%rsp), %xmm0
	movaps	64(%rsp), %xmm1
	movaps	80(%rsp), %xmm2
	movaps	%xmm2, 736(%rsp)
	movaps	%xmm1, 720(%rsp)
	movaps	%xmm0, 704(%rsp)
	testb	%cl, %cl
	je	103f
	xorps	%xmm1, %xmm1
	movaps	%xmm1, 1040(%rsp)
	movaps	%xmm1, 768(%rsp)
	movaps	%xmm1, 784(%rsp)
	xorps	%xmm0, %xmm0
	movaps	%xmm0, 112(%rsp)
	movaps	%xmm1, 800(%rsp)
	movq	$0, 816(%rsp)
	cmpb	$1, %r13b
	jne	102f
	testq	%rdx, %rdx
	je	102f
	movq	%r15, %rdi
	callq	rattle_dealloc@PLT
102:
	movaps	1040(%rsp), %xmm0
	movaps	%xmm0, 336(%rsp)
	movdqa	768(%rsp), %xmm0
	movdqa	784(%rsp), %xmm1
	movdqa	800(%rsp), %xmm2
	movdqa	%xmm0, 240(%rsp)
	movdqa	%xmm1, 256(%rsp)
	movdqa	%xmm2, 272(%rsp)
	movq	816(%rsp), %rax
	movq	%rax, 288(%rsp)
	pxor	%xmm0, %xmm0
	movdqa	%xmm0, 32(%rsp)
	movb	$7, %r13b
	movb	$1, %bl
	xorl	%r15d, %r15d
	jmp	11b
103:
	movaps	496(%rsp), %xmm0
	movaps	%xmm0, 336(%rsp)
	movdqa	704(%rsp), %xmm0
	movdqa	720(%rsp), %xmm1
	movdqa	736(%rsp), %xmm2
	movdqa	%xmm0, 240(%rsp)
	movdqa	%xmm1, 256(%rsp)
	movdqa	%xmm2, 272(%rsp)
	movq	752(%rsp), %rcx
	movq	%rcx, 288(%rsp)
	movzbl	%al, %r14d
	testq	%rdx, %rdx
	sete	%bl
	pxor	%xmm0, %xmm0
	movdqa	%xmm0, 32(%rsp)
	movb	$1, %al
	movq	%rax, 24(%rsp)
	jmp	14b
104:
	leaq	1056(%rsp), %rdi
	movq	%r12, %rsi
	movq	%rbp, %rdx
	callq	"mime_lookup::cached::icons::long_generic"
	cmpb	$0, 1056(%rsp)
	jne	88b
105:
	movzbl	1064(%rsp), %eax
	movaps	1072(%rsp), %xmm0
	movaps	%xmm0, 48(%rsp)
	movaps	1088(%rsp), %xmm0
	movaps	%xmm0, 64(%rsp)
	movdqa	1104(%rsp), %xmm0
	movdqa	%xmm0, 80(%rsp)
	movq	1120(%rsp), %rcx
	movq	%rcx, 96(%rsp)
	jmp	100b
106:
	.size	mimelook_icons, 106b-mimelook_icons
	.section	.rodata,"a",@progbits
	.p2align	2, 0x0
107:
	.long	27b-107b
	.long	31b-107b
	.long	29b-107b
	.long	30b-107b
	.long	28b-107b
	.long	32b-107b
	.long	33b-107b

	.section	.rodata.cst16,"aM",@progbits,16
	.p2align	4, 0x0
1:
	.byte	3,2,1,0,7,6,5,4,11,10,9,8,15,14,13,12
	.text
	.globl	mimelook_is_a
	.p2align	4
	.type	mimelook_is_a,@function
mimelook_is_a:
	pushq	%rbp
	pushq	%r15
	pushq	%r14
	pushq	%r13
	pushq	%r12
	pushq	%rbx
	subq	$520, %rsp
	movq	%r9, %r15
	movq	%r8, %r13
	movq	%rdx, 80(%rsp)
	movq	%rsi, %r12
	movq	%rdi, 72(%rsp)
	testq	%rsi, %rsi
	sete	24(%rsp)
	xorl	%ebp, %ebp
	testq	%rcx, %rcx
	sete	%bpl
	shll	$12, %ebp
	addq	%rcx, %rbp
	xorl	%r14d, %r14d
	testq	%r9, %r9
	sete	%bl
	xorps	%xmm0, %xmm0
	movaps	%xmm0, 272(%rsp)
	movaps	%xmm0, 256(%rsp)
	movaps	%xmm0, 240(%rsp)
	movq	$0, 288(%rsp)
	movq	%rbp, %rdi
	movq	%r8, %rsi
	callq	"mime_base::names::is_type_name"
	testb	%al, %al
	je	2f
	leaq	240(%rsp), %rdi
	movq	%rbp, %rsi
	movq	%r13, %rdx
	callq	"smallvec::small_vec::SmallVec::from_slice::<#940dc9c6c8ede164>"
	cmpb	$0, 240(%rsp)
	je	6f
	movl	$2, %ecx
	jmp	3f
2:
	movl	$3, %ecx
3:
	movq	72(%rsp), %rax
	movl	%ecx, (%rax)
4:
	xorps	%xmm0, %xmm0
	movups	%xmm0, 4(%rax)
	movups	%xmm0, 20(%rax)
	movups	%xmm0, 36(%rax)
	movups	%xmm0, 48(%rax)
5:
	addq	$520, %rsp
	popq	%rbx
	popq	%r12
	popq	%r13
	popq	%r14
	popq	%r15
	popq	%rbp
	retq
6:
	movq	576(%rsp), %r13
	movb	%bl, %r14b
	shll	$12, %r14d
	addq	%r14, %r15
	movzbl	248(%rsp), %ebp
	movaps	256(%rsp), %xmm0
	movdqa	272(%rsp), %xmm1
	movups	%xmm0, 200(%rsp)
	movdqu	%xmm1, 216(%rsp)
	movq	288(%rsp), %rax
	movq	%rax, 232(%rsp)
	movq	%rbp, 192(%rsp)
	xorps	%xmm0, %xmm0
	movaps	%xmm0, 272(%rsp)
	movaps	%xmm0, 256(%rsp)
	movaps	%xmm0, 240(%rsp)
	movq	$0, 288(%rsp)
	movq	%r15, %rdi
	movq	%r13, %rsi
	callq	"mime_base::names::is_type_name"
	testb	%al, %al
	je	7f
	leaq	240(%rsp), %rdi
	movq	%r15, %rsi
	movq	%r13, %rdx
	callq	"smallvec::small_vec::SmallVec::from_slice::<#940dc9c6c8ede164>"
	cmpb	$0, 240(%rsp)
	je	10f
	movl	$2, %ebx
	jmp	8f
7:
	movl	$3, %ebx
8:
	cmpb	$1, %bpl
	jne	9f
	cmpq	$0, 216(%rsp)
	je	9f
	movq	200(%rsp), %rdi
	callq	rattle_dealloc@PLT
9:
	movq	72(%rsp), %rax
	movl	%ebx, (%rax)
	jmp	4b
10:
	leaq	200(%rsp), %r15
	movzbl	248(%rsp), %ebx
	testb	%bpl, %bpl
	cmovneq	200(%rsp), %r15
	leaq	232(%rsp), %rcx
	leaq	208(%rsp), %rax
	cmoveq	%rcx, %rax
	testq	%rbx, %rbx
	movaps	256(%rsp), %xmm0
	movdqa	272(%rsp), %xmm1
	movaps	%xmm0, 480(%rsp)
	movdqa	%xmm1, 496(%rsp)
	movq	288(%rsp), %rcx
	movq	%rcx, 512(%rsp)
	movq	%rbx, 400(%rsp)
	leaq	408(%rsp), %r13
	movups	%xmm0, 408(%rsp)
	movdqu	%xmm1, 424(%rsp)
	movq	%rcx, 440(%rsp)
	leaq	440(%rsp), %rcx
	movq	408(%rsp), %rdi
	cmovneq	%rdi, %r13
	leaq	416(%rsp), %rdx
	cmoveq	%rcx, %rdx
	movq	80(%rsp), %r9
	cmpq	$40, %r9
	jae	11f
	xorl	%eax, %eax
	xorl	%ecx, %ecx
	jmp	14f
11:
	xorl	%ecx, %ecx
	movzbl	24(%rsp), %r8d
	movb	%r8b, %cl
	shll	$12, %ecx
	addq	%rcx, %r12
	movl	(%r12), %ecx
	cmpl	$33554688, %ecx
	bswapl	%ecx
	jne	12f
	cmpq	$268435456, %r9
	jbe	16f
	movl	$2, %ecx
	jmp	13f
12:
	movl	%ecx, %eax
	andl	$-65536, %eax
	movzwl	%cx, %ecx
	shlq	$32, %rcx
	addq	%rax, %rcx
	incq	%rcx
13:
	movl	$1, %eax
14:
	movl	%ecx, %edx
	movl	%ecx, %esi
	shrq	$32, %rcx
	movd	%esi, %xmm0
	psrld	$16, %xmm0
	pinsrw	$1, %ecx, %xmm0
	xorl	%ebp, %ebp
	movabsq	$281474976645120, %rcx
	andq	$0, %rcx
	movzwl	%ax, %r15d
	orq	%rcx, %r15
	movzbl	%dl, %r13d
	pxor	%xmm1, %xmm1
	movl	$5, %r12d
	leaq	35f(%rip), %rax
	movslq	(%rax,%r13,4), %rcx
	addq	%rax, %rcx
	xorl	%r14d, %r14d
	jmpq	*%rcx
15:
	movl	$6, %r12d
	xorl	%r13d, %r13d
	movdqa	%xmm0, %xmm1
	jmp	29f
16:
	movq	%rdi, 24(%rsp)
	movq	(%rax), %rbp
	movq	(%rdx), %rax
	movq	%rax, 392(%rsp)
	movdqu	20(%r12), %xmm0
	movdqa	1b(%rip), %xmm1
	pshufb	%xmm1, %xmm0
	movl	36(%r12), %eax
	bswapl	%eax
	movdqu	4(%r12), %xmm2
	pshufb	%xmm1, %xmm2
	movq	%r12, 240(%rsp)
	movq	%r9, 248(%rsp)
	leaq	256(%rsp), %rsi
	movq	%r12, 256(%rsp)
	movq	%r9, 264(%rsp)
	movl	%ecx, 272(%rsp)
	movdqu	%xmm2, 276(%rsp)
	movdqu	%xmm0, 292(%rsp)
	movl	%eax, 308(%rsp)
	pxor	%xmm0, %xmm0
	movdqu	%xmm0, 312(%rsp)
	movdqu	%xmm0, 328(%rsp)
	movdqu	%xmm0, 344(%rsp)
	movdqu	%xmm0, 360(%rsp)
	movq	%r9, %rax
	shrq	$2, %rax
	movq	$1, 96(%rsp)
	movq	$0, 104(%rsp)
	movq	%rax, 112(%rsp)
	movq	%r9, 120(%rsp)
	movdqa	%xmm0, 128(%rsp)
	movq	$0, 144(%rsp)
	movdqa	%xmm0, 48(%rsp)
	movdqa	%xmm0, 32(%rsp)
	movq	%xmm2, %rax
	movl	%eax, %r12d
	leaq	32(%rsp), %rdi
	leaq	96(%rsp), %r9
	movq	%r12, %rdx
	movq	%r15, %rcx
	movq	%rbp, %r8
	callq	"mime_view::pairs::look_up_pair"
	movzbl	40(%rsp), %esi
	movq	48(%rsp), %r14
	cmpb	$0, 32(%rsp)
	je	17f
	movd	42(%rsp), %xmm0
	jmp	18f
17:
	movb	%sil, 80(%rsp)
	movq	%rbp, 384(%rsp)
	movq	56(%rsp), %rbp
	pxor	%xmm0, %xmm0
	movdqa	%xmm0, 48(%rsp)
	movdqa	%xmm0, 32(%rsp)
	leaq	32(%rsp), %rdi
	leaq	96(%rsp), %r9
	leaq	256(%rsp), %rsi
	movq	%r12, %rdx
	movq	%r13, %rcx
	movq	392(%rsp), %r12
	movq	%r12, %r8
	callq	"mime_view::pairs::look_up_pair"
	movzbl	40(%rsp), %ecx
	movq	48(%rsp), %rax
	cmpb	$0, 32(%rsp)
	je	20f
	movd	42(%rsp), %xmm0
	movq	%rax, %r14
	movl	%ecx, %esi
18:
	movq	96(%rsp), %rax
	movq	104(%rsp), %rbp
	movabsq	$-281474976710656, %rdx
	andq	%rax, %rdx
	movabsq	$281474976645120, %rcx
	andq	%rax, %rcx
	orq	%rdx, %rcx
	movzwl	%ax, %r15d
	orq	%rcx, %r15
	movzbl	%sil, %r13d
	pxor	%xmm1, %xmm1
	movl	$5, %r12d
	leaq	35f(%rip), %rax
	movslq	(%rax,%r13,4), %rcx
	addq	%rax, %rcx
	movq	24(%rsp), %rdi
	jmpq	*%rcx
19:
	movl	$7, %r12d
	jmp	28f
20:
	movq	%rbp, %rsi
	leaq	96(%rsp), %rbp
	cmpb	$1, %cl
	jne	21f
	movq	56(%rsp), %r12
	movq	%rax, %r13
21:
	cmpb	$1, 80(%rsp)
	movq	384(%rsp), %r8
	cmoveq	%rsi, %r8
	cmoveq	%r14, %r15
	pxor	%xmm0, %xmm0
	movdqa	%xmm0, 448(%rsp)
	movdqa	%xmm0, 464(%rsp)
	movq	%rbp, 8(%rsp)
	movq	%r12, (%rsp)
	leaq	128(%rsp), %rdi
	leaq	240(%rsp), %rsi
	leaq	448(%rsp), %rdx
	movq	%r15, %rcx
	movq	%r13, %r9
	callq	"mime_lookup::cached::ancestry::leads_to"
	cmpb	$1, 456(%rsp)
	jne	22f
	movq	464(%rsp), %rdi
	callq	"std_collections::btree::node::Node::destroy::<#edcdc2349bef7e9b>"
22:
	movq	96(%rsp), %r15
	movq	104(%rsp), %rbp
	cmpb	$0, 128(%rsp)
	je	33f
	movd	138(%rsp), %xmm0
	movq	144(%rsp), %r14
	movabsq	$-281474976710656, %rcx
	andq	%r15, %rcx
	movabsq	$281474976645120, %rax
	andq	%r15, %rax
	orq	%rcx, %rax
	movzwl	%r15w, %r15d
	orq	%rax, %r15
	movzbl	136(%rsp), %r13d
	pxor	%xmm1, %xmm1
	movl	$5, %r12d
	leaq	35f(%rip), %rax
	movslq	(%rax,%r13,4), %rcx
	addq	%rax, %rcx
	movq	24(%rsp), %rdi
	jmpq	*%rcx
23:
	movl	$8, %r12d
	movq	%r14, %r13
	jmp	29f
24:
	movl	$9, %r12d
	movq	%r14, %r13
	jmp	29f
25:
	movdqa	%xmm1, 160(%rsp)
	movq	$0, 176(%rsp)
	movl	$2, %r12d
	xorl	%r13d, %r13d
	cmpb	$1, %bl
	movdqa	%xmm1, 80(%rsp)
	je	30f
	jmp	31f
26:
	movl	$10, %r12d
	jmp	28f
27:
	movl	$11, %r12d
28:
	xorl	%r13d, %r13d
29:
	pxor	%xmm0, %xmm0
	movdqa	%xmm0, 160(%rsp)
	movq	$0, 176(%rsp)
	cmpb	$1, %bl
	movdqa	%xmm1, 80(%rsp)
	jne	31f
30:
	cmpq	$0, 424(%rsp)
	je	31f
	callq	rattle_dealloc@PLT
	movdqa	80(%rsp), %xmm1
31:
	cmpb	$1, 192(%rsp)
	jne	32f
	cmpq	$0, 216(%rsp)
	je	32f
	movq	200(%rsp), %rdi
	callq	rattle_dealloc@PLT
	movdqa	80(%rsp), %xmm1
32:
	movq	72(%rsp), %rax
	movl	%r12d, (%rax)
	movd	%xmm1, 4(%rax)
	movq	%r13, 8(%rax)
	movq	$0, 16(%rax)
	movq	%r15, 24(%rax)
	movq	%rbp, 32(%rax)
	movaps	160(%rsp), %xmm0
	movups	%xmm0, 40(%rax)
	movq	176(%rsp), %rcx
	movq	%rcx, 56(%rax)
	jmp	5b
33:
	movq	584(%rsp), %rax
	movzbl	129(%rsp), %ecx
	andb	$1, %cl
	movb	%cl, (%rax)
	pxor	%xmm1, %xmm1
	movdqa	%xmm1, 160(%rsp)
	movq	$0, 176(%rsp)
	xorl	%r12d, %r12d
	xorl	%r13d, %r13d
	movq	24(%rsp), %rdi
	cmpb	$1, %bl
	movdqa	%xmm1, 80(%rsp)
	je	30b
	jmp	31b
34:
	.size	mimelook_is_a, 34b-mimelook_is_a
	.section	.rodata,"a",@progbits
	.p2align	2, 0x0
35:
	.long	29b-35b
	.long	15b-35b
	.long	19b-35b
	.long	23b-35b
	.long	24b-35b
	.long	26b-35b
	.long	27b-35b
	.long	25b-35b

	.text
	.globl	mimelook_is_type_name
	.p2align	4
	.type	mimelook_is_type_name,@function
mimelook_is_type_name:
	pushq	%rax
	xorl	%eax, %eax
	testq	%rdi, %rdi
	sete	%al
	shll	$12, %eax
	addq	%rax, %rdi
	callq	"mime_base::names::is_type_name"
	popq	%rcx
	retq
1:
	.size	mimelook_is_type_name, 1b-mimelook_is_type_name

	.section	.rodata.cst16,"aM",@progbits,16
	.p2align	4, 0x0
1:
	.byte	3,2,1,0,7,6,5,4,11,10,9,8,15,14,13,12
	.text
	.globl	mimelook_listed_icons
	.p2align	4
	.type	mimelook_listed_icons,@function
mimelook_listed_icons:
	pushq	%rbp
	pushq	%r15
	pushq	%r14
	pushq	%r13
	pushq	%r12
	pushq	%rbx
	subq	$152, %rsp
	movq	%rdi, %rax
	xorl	%edi, %edi
	testq	%rsi, %rsi
	sete	%bl
	xorl	%r10d, %r10d
	testq	%rcx, %rcx
	sete	%r11b
	pxor	%xmm2, %xmm2
	movdqa	%xmm2, 48(%rsp)
	movq	$0, 64(%rsp)
	movdqa	%xmm2, (%rsp)
	cmpq	$40, %rdx
	jae	3f
	xorl	%ebx, %ebx
2:
	movl	%ebx, %ecx
	movl	%ebx, %edx
	shrq	$32, %rbx
	movd	%edx, %xmm1
	psrld	$16, %xmm1
	pinsrw	$1, %ebx, %xmm1
	xorl	%esi, %esi
	movaps	(%rsp), %xmm0
	movzbl	%cl, %edx
	movl	$5, %ecx
	leaq	18f(%rip), %rdi
	movslq	(%rdi,%rdx,4), %r8
	addq	%rdi, %r8
	jmpq	*%r8
3:
	movb	%bl, %dil
	shll	$12, %edi
	addq	%rdi, %rsi
	movq	$1, (%rsp)
	movl	(%rsi), %edi
	cmpl	$33554688, %edi
	bswapl	%edi
	jne	4f
	movl	$2, %ebx
	cmpq	$268435456, %rdx
	ja	2b
	movq	%r9, 144(%rsp)
	movq	%rax, %r15
	movb	%r11b, %r10b
	shll	$12, %r10d
	addq	%r10, %rcx
	movdqu	20(%rsi), %xmm0
	movdqa	1b(%rip), %xmm1
	pshufb	%xmm1, %xmm0
	movl	36(%rsi), %r12d
	bswapl	%r12d
	movdqu	4(%rsi), %xmm2
	pshufb	%xmm1, %xmm2
	movq	%rsi, 80(%rsp)
	movq	%rdx, 88(%rsp)
	movl	%edi, 96(%rsp)
	movdqu	%xmm2, 100(%rsp)
	movdqu	%xmm0, 116(%rsp)
	movl	%r12d, 132(%rsp)
	pxor	%xmm1, %xmm1
	movdqa	%xmm1, 32(%rsp)
	movdqa	%xmm1, 16(%rsp)
	pextrd	$3, %xmm0, %edx
	leaq	16(%rsp), %rdi
	leaq	80(%rsp), %rsi
	movq	%rsp, %r9
	movq	%rcx, %r14
	movq	%r8, %rbx
	callq	"mime_view::pairs::look_up_pair"
	movzbl	24(%rsp), %ebp
	movq	32(%rsp), %r13
	cmpb	$0, 16(%rsp)
	je	6f
	movd	26(%rsp), %xmm1
	movaps	(%rsp), %xmm0
	movzbl	%bpl, %edx
	movl	$5, %ecx
	leaq	18f(%rip), %rax
	movslq	(%rax,%rdx,4), %rdi
	addq	%rax, %rdi
	movq	%r13, %rsi
	movq	%r15, %rax
	pxor	%xmm2, %xmm2
	jmpq	*%rdi
4:
	movl	%edi, %ecx
	andl	$-65536, %ecx
	movzwl	%di, %edx
	shlq	$32, %rdx
	addq	%rdx, %rcx
	incq	%rcx
	movl	%ecx, %edx
	movl	%ecx, %esi
	shrq	$32, %rcx
	movd	%esi, %xmm1
	psrld	$16, %xmm1
	pinsrw	$1, %ecx, %xmm1
	xorl	%esi, %esi
	movaps	(%rsp), %xmm0
	movzbl	%dl, %edx
	movl	$5, %ecx
	leaq	18f(%rip), %rdi
	movslq	(%rdi,%rdx,4), %r8
	addq	%rdi, %r8
	jmpq	*%r8
5:
	movl	$6, %ecx
	xorl	%edx, %edx
	movdqa	%xmm1, %xmm2
	jmp	14f
6:
	movq	40(%rsp), %rax
	movq	%rax, 136(%rsp)
	pxor	%xmm0, %xmm0
	movdqa	%xmm0, 32(%rsp)
	movdqa	%xmm0, 16(%rsp)
	movl	%r12d, %edx
	leaq	16(%rsp), %rdi
	leaq	80(%rsp), %rsi
	movq	%rsp, %r9
	movq	%r14, %rcx
	movq	%rbx, %r8
	callq	"mime_view::pairs::look_up_pair"
	movzbl	24(%rsp), %eax
	movq	32(%rsp), %rsi
	cmpb	$0, 16(%rsp)
	je	16f
	movd	26(%rsp), %xmm1
	movaps	(%rsp), %xmm0
	movzbl	%al, %edx
	movl	$5, %ecx
	leaq	18f(%rip), %rax
	movslq	(%rax,%rdx,4), %rdi
	addq	%rax, %rdi
	movq	%r15, %rax
	pxor	%xmm2, %xmm2
	jmpq	*%rdi
7:
	movl	$7, %ecx
	jmp	13f
8:
	movl	$9, %ecx
	movq	%rsi, %rdx
	jmp	14f
9:
	movl	$8, %ecx
	movq	%rsi, %rdx
	jmp	14f
10:
	movl	$2, %ecx
	jmp	13f
11:
	movl	$10, %ecx
	jmp	13f
12:
	movl	$11, %ecx
13:
	xorl	%edx, %edx
14:
	pxor	%xmm1, %xmm1
	movdqa	%xmm1, 80(%rsp)
	movq	$0, 96(%rsp)
15:
	movq	96(%rsp), %rsi
	movq	%rsi, 64(%rsp)
	movaps	80(%rsp), %xmm1
	movaps	%xmm1, 48(%rsp)
	movl	%ecx, (%rax)
	movd	%xmm2, 4(%rax)
	movq	%rdx, 8(%rax)
	movq	$0, 16(%rax)
	movups	%xmm0, 24(%rax)
	movaps	48(%rsp), %xmm0
	movups	%xmm0, 40(%rax)
	movq	64(%rsp), %rcx
	movq	%rcx, 56(%rax)
	addq	$152, %rsp
	popq	%rbx
	popq	%r12
	popq	%r13
	popq	%r14
	popq	%r15
	popq	%rbp
	retq
16:
	xorl	%ecx, %ecx
	cmpb	$1, %bpl
	leaq	.L22d5119de29e(%rip), %rdx
	cmovneq	%rdx, %r13
	movq	136(%rsp), %r9
	cmovneq	%rcx, %r9
	cmpb	$1, %al
	movq	40(%rsp), %rax
	cmovneq	%rcx, %rax
	movq	208(%rsp), %rdi
	movaps	(%rsp), %xmm0
	movq	144(%rsp), %r8
	movq	%r13, (%r8)
	movq	%r9, 8(%r8)
	cmovneq	%rdx, %rsi
	movq	%rsi, (%rdi)
	movq	%rax, 8(%rdi)
	pxor	%xmm2, %xmm2
	movdqa	%xmm2, 80(%rsp)
	movq	$0, 96(%rsp)
	xorl	%edx, %edx
	movq	%r15, %rax
	jmp	15b
17:
	.size	mimelook_listed_icons, 17b-mimelook_listed_icons
	.section	.rodata,"a",@progbits
	.p2align	2, 0x0
18:
	.long	14b-18b
	.long	5b-18b
	.long	7b-18b
	.long	9b-18b
	.long	8b-18b
	.long	11b-18b
	.long	12b-18b
	.long	10b-18b

	.text
	.globl	mimelook_merge
	.p2align	4
	.type	mimelook_merge,@function
mimelook_merge:
	pushq	%rbp
	pushq	%r15
	pushq	%r14
	pushq	%r13
	pushq	%r12
	pushq	%rbx
	subq	$56, %rsp
	movq	%r9, %r13
	movq	%r8, %r12
	movq	%rcx, %r15
	movq	%rdi, %rbx
	xorl	%eax, %eax
	testq	%rsi, %rsi
	sete	%al
	shll	$12, %eax
	addq	%rax, %rsi
	testq	%rcx, %rcx
	sete	%bpl
	xorps	%xmm0, %xmm0
	movaps	%xmm0, 32(%rsp)
	movaps	%xmm0, 16(%rsp)
	movq	$0, 48(%rsp)
	leaq	16(%rsp), %rdi
	callq	"mime_c::merge::merged_cache"
	cmpb	$0, 16(%rsp)
	movq	32(%rsp), %rdx
	je	1f
	movzbl	24(%rsp), %eax
	cmpl	$2, %eax
	je	2f
	cmpl	$1, %eax
	jne	3f
	xorps	%xmm0, %xmm0
	movaps	%xmm0, (%rsp)
	xorl	%eax, %eax
	movl	$7, %ebp
	jmp	14f
1:
	movq	24(%rsp), %r14
	movq	40(%rsp), %r9
	movq	%rdx, (%r13)
	cmpq	%rdx, %r12
	jae	4f
	xorps	%xmm0, %xmm0
	movaps	%xmm0, (%rsp)
	movl	$4, %ebp
	testq	%r9, %r9
	jne	12f
	jmp	13f
2:
	xorps	%xmm0, %xmm0
	movaps	%xmm0, (%rsp)
	xorl	%eax, %eax
	movl	$2, %ebp
	jmp	14f
3:
	movq	48(%rsp), %rcx
	movzbl	40(%rsp), %eax
	incl	%eax
	xorps	%xmm0, %xmm0
	movaps	%xmm0, (%rsp)
	movl	$13, %ebp
	jmp	15f
4:
	xorl	%eax, %eax
	movb	%bpl, %al
	shll	$12, %eax
	movq	%rax, %r10
	leaq	(%r15,%rax), %rdi
	movq	%rdi, %rax
	subq	%r14, %rax
	cmpq	%rdx, %rax
	jae	10f
	cmpq	$4, %rdx
	jb	5f
	cmpq	$32, %rax
	jae	16f
5:
	xorl	%eax, %eax
6:
	movq	%rdx, %rsi
	movq	%rax, %rcx
	andq	$3, %rsi
	je	8f
	movq	%rax, %rcx
	.p2align	4
7:
	movzbl	(%r14,%rcx), %r8d
	movb	%r8b, (%rdi,%rcx)
	incq	%rcx
	decq	%rsi
	jne	7b
8:
	subq	%rdx, %rax
	cmpq	$-4, %rax
	ja	11f
	leaq	(%r10,%r15), %rax
	addq	$3, %rax
	.p2align	4
9:
	movzbl	(%r14,%rcx), %esi
	movb	%sil, -3(%rax,%rcx)
	movzbl	1(%r14,%rcx), %esi
	movb	%sil, -2(%rax,%rcx)
	movzbl	2(%r14,%rcx), %esi
	movb	%sil, -1(%rax,%rcx)
	movzbl	3(%r14,%rcx), %esi
	movb	%sil, (%rax,%rcx)
	addq	$4, %rcx
	cmpq	%rcx, %rdx
	jne	9b
	jmp	11f
10:
	movq	%r14, %rsi
	movq	%r9, %r15
	callq	memmove@PLT
	movq	%r15, %r9
11:
	xorps	%xmm0, %xmm0
	movaps	%xmm0, (%rsp)
	xorl	%ebp, %ebp
	testq	%r9, %r9
	je	13f
12:
	movq	%r14, %rdi
	callq	rattle_dealloc@PLT
13:
	xorl	%eax, %eax
14:
	xorl	%edx, %edx
	xorl	%ecx, %ecx
15:
	movl	%ebp, (%rbx)
	movl	%eax, 4(%rbx)
	movq	%rdx, 8(%rbx)
	movq	%rcx, 16(%rbx)
	movaps	(%rsp), %xmm0
	movups	%xmm0, 24(%rbx)
	movq	%rbx, %rax
	addq	$56, %rsp
	popq	%rbx
	popq	%r12
	popq	%r13
	popq	%r14
	popq	%r15
	popq	%rbp
	retq
16:
	cmpq	$32, %rdx
	jae	17f
	xorl	%eax, %eax
	jmp	19f
17:
	movq	%rdx, %rax
	andq	$-32, %rax
	leaq	(%r10,%r15), %rcx
	addq	$16, %rcx
	xorl	%esi, %esi
	.p2align	4
18:
	movups	(%r14,%rsi), %xmm0
	movups	16(%r14,%rsi), %xmm1
	movups	%xmm0, -16(%rcx,%rsi)
	movups	%xmm1, (%rcx,%rsi)
	addq	$32, %rsi
	cmpq	%rsi, %rax
	jne	18b
	cmpq	%rax, %rdx
	je	11b
	testb	$28, %dl
	je	6b
19:
	movq	%rax, %rcx
	movq	%rdx, %rax
	andq	$-4, %rax
	.p2align	4
20:
	movl	(%r14,%rcx), %esi
	movl	%esi, (%rdi,%rcx)
	addq	$4, %rcx
	cmpq	%rcx, %rax
	jne	20b
	cmpq	%rax, %rdx
	je	11b
	jmp	6b
21:
	.size	mimelook_merge, 21b-mimelook_merge

	.text
	.globl	mimelook_open
	.p2align	4
	.type	mimelook_open,@function
mimelook_open:
	pushq	%r15
	pushq	%r14
	pushq	%rbx
	subq	$80, %rsp
	movq	%rcx, %r14
	movq	%rdi, %rbx
	xorl	%eax, %eax
	testq	%rsi, %rsi
	sete	%al
	shll	$12, %eax
	addq	%rax, %rsi
	xorps	%xmm0, %xmm0
	movaps	%xmm0, 32(%rsp)
	leaq	.L22d5119de29e(%rip), %rcx
	xorl	%r15d, %r15d
	leaq	56(%rsp), %rdi
	leaq	32(%rsp), %r9
	xorl	%r8d, %r8d
	callq	"mime_c::database::open::open"
	cmpb	$0, 56(%rsp)
	je	2f
	movzbl	64(%rsp), %eax
	movss	66(%rsp), %xmm0
	movq	72(%rsp), %rcx
	movq	$0, (%r14)
	leaq	15f(%rip), %rdx
	movslq	(%rdx,%rax,4), %rsi
	addq	%rdx, %rsi
	jmpq	*%rsi
1:
	movl	$5, %r15d
	jmp	11f
2:
	movq	64(%rsp), %rax
	movq	%rax, (%r14)
	movaps	32(%rsp), %xmm0
	xorps	%xmm2, %xmm2
	movaps	%xmm2, (%rsp)
	movq	$0, 16(%rsp)
	xorl	%eax, %eax
	jmp	13f
3:
	movl	$9, %r15d
	movq	%rcx, %rax
	jmp	11f
4:
	movl	$7, %r15d
	jmp	10f
5:
	movl	$8, %r15d
	movq	%rcx, %rax
	jmp	11f
6:
	movl	$2, %r15d
	jmp	10f
7:
	movl	$6, %r15d
	xorl	%eax, %eax
	movaps	%xmm0, %xmm2
	jmp	12f
8:
	movl	$10, %r15d
	jmp	10f
9:
	movl	$11, %r15d
10:
	xorl	%eax, %eax
11:
	xorps	%xmm2, %xmm2
12:
	movaps	32(%rsp), %xmm0
	xorps	%xmm1, %xmm1
	movaps	%xmm1, (%rsp)
	movq	$0, 16(%rsp)
13:
	movl	%r15d, (%rbx)
	movss	%xmm2, 4(%rbx)
	movq	%rax, 8(%rbx)
	movq	$0, 16(%rbx)
	movups	%xmm0, 24(%rbx)
	movaps	(%rsp), %xmm0
	movups	%xmm0, 40(%rbx)
	movq	16(%rsp), %rax
	movq	%rax, 56(%rbx)
	movq	%rbx, %rax
	addq	$80, %rsp
	popq	%rbx
	popq	%r14
	popq	%r15
	retq
14:
	.size	mimelook_open, 14b-mimelook_open
	.section	.rodata,"a",@progbits
	.p2align	2, 0x0
15:
	.long	1b-15b
	.long	7b-15b
	.long	4b-15b
	.long	5b-15b
	.long	3b-15b
	.long	8b-15b
	.long	9b-15b
	.long	6b-15b

	.section	.rodata.cst16,"aM",@progbits,16
	.p2align	4, 0x0
1:
	.byte	3,2,1,0,7,6,5,4,11,10,9,8,15,14,13,12
	.text
	.globl	mimelook_parents
	.p2align	4
	.type	mimelook_parents,@function
mimelook_parents:
	pushq	%rbp
	pushq	%r15
	pushq	%r14
	pushq	%rbx
	subq	$296, %rsp
	movq	%rdi, %rax
	xorl	%r10d, %r10d
	testq	%rsi, %rsi
	sete	%bl
	xorl	%edi, %edi
	testq	%rcx, %rcx
	sete	%r11b
	xorl	%r14d, %r14d
	testq	%r9, %r9
	sete	%bpl
	xorps	%xmm0, %xmm0
	movaps	%xmm0, 160(%rsp)
	movq	$0, 176(%rsp)
	movq	$0, 152(%rsp)
	cmpq	$40, %rdx
	jae	2f
	xorl	%ecx, %ecx
	xorl	%edi, %edi
	jmp	5f
2:
	movb	%bl, %r10b
	shll	$12, %r10d
	addq	%r10, %rsi
	movq	$1, 144(%rsp)
	movl	(%rsi), %r10d
	cmpl	$33554688, %r10d
	bswapl	%r10d
	jne	3f
	cmpq	$268435456, %rdx
	jbe	7f
	movl	$2, %edi
	jmp	4f
3:
	movl	%r10d, %ecx
	andl	$-65536, %ecx
	movzwl	%r10w, %edx
	shlq	$32, %rdx
	leaq	(%rdx,%rcx), %rdi
	incq	%rdi
4:
	movl	$1, %ecx
5:
	movl	%edi, %edx
	movl	%edi, %r8d
	shrl	$16, %r8d
	shrq	$32, %rdi
	movd	%ecx, %xmm1
	xorl	%r9d, %r9d
	movzbl	%dl, %esi
	movl	$5, %ecx
	xorl	%edx, %edx
	leaq	29f(%rip), %r10
	movslq	(%r10,%rsi,4), %r11
	addq	%r10, %r11
	xorl	%r10d, %r10d
	jmpq	*%r11
6:
	movl	$6, %ecx
	xorl	%esi, %esi
	movl	%r8d, %edx
	movl	%edi, %r10d
	jmp	17f
7:
	movq	%r9, %r15
	movq	%rax, %rbx
	movb	%r11b, %dil
	shll	$12, %edi
	addq	%rdi, %rcx
	movdqu	20(%rsi), %xmm0
	movdqa	1b(%rip), %xmm1
	pshufb	%xmm1, %xmm0
	movl	36(%rsi), %eax
	bswapl	%eax
	movdqu	4(%rsi), %xmm2
	pshufb	%xmm1, %xmm2
	movq	%rsi, 80(%rsp)
	movq	%rdx, 88(%rsp)
	movl	%r10d, 96(%rsp)
	movdqu	%xmm2, 100(%rsp)
	movdqu	%xmm0, 116(%rsp)
	movl	%eax, 132(%rsp)
	pxor	%xmm0, %xmm0
	movdqa	%xmm0, 16(%rsp)
	movdqa	%xmm0, 32(%rsp)
	movdqa	%xmm0, 48(%rsp)
	movq	$0, 64(%rsp)
	movq	%rdx, %rax
	shrq	$2, %rax
	movq	%rax, 192(%rsp)
	movq	%rdx, 200(%rsp)
	movdqa	%xmm0, 240(%rsp)
	movdqa	%xmm0, 256(%rsp)
	leaq	192(%rsp), %rax
	movq	%rax, (%rsp)
	leaq	16(%rsp), %rdi
	leaq	80(%rsp), %rsi
	leaq	240(%rsp), %rax
	leaq	144(%rsp), %r9
	movq	%rcx, %rdx
	movq	%r8, %rcx
	movq	%rax, %r8
	callq	"mime_view::cache::Cache::parents_of"
	cmpb	$1, 248(%rsp)
	jne	8f
	movq	256(%rsp), %rdi
	callq	"std_collections::btree::node::Node::destroy::<#d91dcfcc98d06f83>"
8:
	movzbl	24(%rsp), %eax
	movzbl	%al, %esi
	movzwl	26(%rsp), %r8d
	movzwl	28(%rsp), %edi
	movq	32(%rsp), %r9
	movzbl	40(%rsp), %edx
	movaps	48(%rsp), %xmm0
	movaps	%xmm0, 208(%rsp)
	movq	64(%rsp), %rax
	movq	%rax, 224(%rsp)
	cmpb	$0, 16(%rsp)
	movdqa	144(%rsp), %xmm1
	movq	$0, 24(%rsp)
	movq	%rbx, %rax
	je	19f
	movl	$5, %ecx
	xorl	%edx, %edx
	leaq	29f(%rip), %r10
	movslq	(%r10,%rsi,4), %r11
	addq	%r10, %r11
	xorl	%r10d, %r10d
	jmpq	*%r11
9:
	movl	$7, %ecx
	jmp	16f
10:
	movl	$9, %ecx
	jmp	12f
11:
	movl	$8, %ecx
12:
	xorl	%edx, %edx
	xorl	%r10d, %r10d
	movq	%r9, %rsi
	jmp	17f
13:
	movl	$2, %ecx
	jmp	16f
14:
	movl	$10, %ecx
	jmp	16f
15:
	movl	$11, %ecx
16:
	xorl	%edx, %edx
	xorl	%r10d, %r10d
	xorl	%esi, %esi
17:
	xorps	%xmm0, %xmm0
	movaps	%xmm0, 80(%rsp)
	movq	$0, 96(%rsp)
18:
	movq	96(%rsp), %rdi
	movq	%rdi, 176(%rsp)
	movaps	80(%rsp), %xmm0
	movaps	%xmm0, 160(%rsp)
	movl	%ecx, (%rax)
	movw	%dx, 4(%rax)
	movw	%r10w, 6(%rax)
	movq	%rsi, 8(%rax)
	movq	$0, 16(%rax)
	movdqu	%xmm1, 24(%rax)
	movaps	160(%rsp), %xmm0
	movups	%xmm0, 40(%rax)
	movq	176(%rsp), %rcx
	movq	%rcx, 56(%rax)
	addq	$296, %rsp
	popq	%rbx
	popq	%r14
	popq	%r15
	popq	%rbp
	retq
19:
	movq	344(%rsp), %r8
	movq	%rsi, 16(%rsp)
	movl	%r9d, 24(%rsp)
	movq	%rdx, 32(%rsp)
	movaps	208(%rsp), %xmm0
	movups	%xmm0, 40(%rsp)
	movq	224(%rsp), %rdi
	movq	%rdi, 56(%rsp)
	cmpb	$1, %sil
	jne	20f
	movq	336(%rsp), %r11
	leaq	40(%rsp), %rsi
	testq	%rdx, %rdx
	movq	40(%rsp), %rdi
	cmovneq	%rdi, %rsi
	movl	$1, %r9d
	cmovneq	48(%rsp), %r9
	cmpq	%r9, %r11
	cmovaeq	%r9, %r11
	testq	%r11, %r11
	je	25f
	movq	%r15, %rcx
	movb	%bpl, %r14b
	shll	$12, %r14d
	addq	%r14, %rcx
	movl	%r11d, %r10d
	andl	$7, %r10d
	cmpq	$8, %r11
	jae	21f
	xorl	%r14d, %r14d
	jmp	23f
20:
	movq	$0, (%r8)
	xorps	%xmm0, %xmm0
	movaps	%xmm0, 80(%rsp)
	movq	$0, 96(%rsp)
	jmp	26f
21:
	andq	$-8, %r11
	movl	$112, %r15d
	xorl	%r14d, %r14d
	.p2align	4
22:
	movups	-112(%rsi,%r15), %xmm0
	movups	%xmm0, -112(%rcx,%r15)
	movups	-96(%rsi,%r15), %xmm0
	movups	%xmm0, -96(%rcx,%r15)
	movups	-80(%rsi,%r15), %xmm0
	movups	%xmm0, -80(%rcx,%r15)
	movups	-64(%rsi,%r15), %xmm0
	movups	%xmm0, -64(%rcx,%r15)
	movups	-48(%rsi,%r15), %xmm0
	movups	%xmm0, -48(%rcx,%r15)
	movups	-32(%rsi,%r15), %xmm0
	movups	%xmm0, -32(%rcx,%r15)
	movups	-16(%rsi,%r15), %xmm0
	movups	%xmm0, -16(%rcx,%r15)
	movups	(%rsi,%r15), %xmm0
	movups	%xmm0, (%rcx,%r15)
	addq	$8, %r14
	subq	$-128, %r15
	cmpq	%r14, %r11
	jne	22b
	testq	%r10, %r10
	je	25f
23:
	shlq	$4, %r14
	addq	%r14, %rcx
	addq	%r14, %rsi
	shll	$4, %r10d
	xorl	%r11d, %r11d
	.p2align	4
24:
	movups	(%rsi,%r11), %xmm0
	movups	%xmm0, (%rcx,%r11)
	addq	$16, %r11
	cmpq	%r11, %r10
	jne	24b
25:
	movq	%r9, (%r8)
	xorps	%xmm0, %xmm0
	movaps	%xmm0, 80(%rsp)
	movq	$0, 96(%rsp)
	xorl	%ecx, %ecx
	cmpl	$1, %edx
	jne	27f
	cmpq	$0, 56(%rsp)
	je	27f
	movdqa	%xmm1, 272(%rsp)
	callq	rattle_dealloc@PLT
	movdqa	272(%rsp), %xmm1
	movq	%rbx, %rax
26:
	xorl	%ecx, %ecx
27:
	xorl	%edx, %edx
	xorl	%r10d, %r10d
	xorl	%esi, %esi
	jmp	18b
28:
	.size	mimelook_parents, 28b-mimelook_parents
	.section	.rodata,"a",@progbits
	.p2align	2, 0x0
29:
	.long	17b-29b
	.long	6b-29b
	.long	9b-29b
	.long	11b-29b
	.long	10b-29b
	.long	14b-29b
	.long	15b-29b
	.long	13b-29b

	.section	.rodata.cst16,"aM",@progbits,16
	.p2align	4, 0x0
1:
	.byte	3,2,1,0,7,6,5,4,11,10,9,8,15,14,13,12
	.text
	.globl	mimelook_sniff
	.p2align	4
	.type	mimelook_sniff,@function
mimelook_sniff:
	pushq	%rbp
	pushq	%r15
	pushq	%r14
	pushq	%r13
	pushq	%r12
	pushq	%rbx
	subq	$744, %rsp
	movq	%r9, %rbp
	movq	%rdi, %rax
	xorl	%edi, %edi
	testq	%rsi, %rsi
	sete	%r11b
	xorl	%r9d, %r9d
	testq	%rcx, %rcx
	sete	%r10b
	movq	$0, 24(%rsp)
	cmpq	$40, %rdx
	jae	2f
	xorl	%ecx, %ecx
	xorl	%r13d, %r13d
	jmp	5f
2:
	movb	%r11b, %dil
	shll	$12, %edi
	addq	%rdi, %rsi
	movl	(%rsi), %edi
	cmpl	$33554688, %edi
	bswapl	%edi
	jne	3f
	cmpq	$268435456, %rdx
	jbe	8f
	movl	$2, %r13d
	jmp	4f
3:
	movl	%edi, %ecx
	andl	$-65536, %ecx
	movzwl	%di, %edx
	shlq	$32, %rdx
	leaq	(%rdx,%rcx), %r13
	incq	%r13
4:
	movl	$1, %ecx
5:
	movl	%r13d, %r15d
	shrl	$16, %r15d
	movq	%r13, %rsi
	shrq	$32, %rsi
	movd	%ecx, %xmm1
	xorl	%edx, %edx
	xorl	%r12d, %r12d
	xorl	%ecx, %ecx
	cmpb	$7, %r13b
	jne	13f
6:
	pxor	%xmm0, %xmm0
	movdqa	%xmm0, 240(%rsp)
	movq	$0, 256(%rsp)
	movl	$2, %edx
7:
	xorl	%r15d, %r15d
	xorl	%esi, %esi
	xorl	%edi, %edi
	jmp	31f
8:
	movq	%rax, 64(%rsp)
	movb	%r10b, %r9b
	shll	$12, %r9d
	addq	%r9, %rcx
	movdqu	20(%rsi), %xmm0
	movdqa	1b(%rip), %xmm1
	pshufb	%xmm1, %xmm0
	movl	36(%rsi), %eax
	bswapl	%eax
	movdqu	4(%rsi), %xmm2
	pshufb	%xmm1, %xmm2
	movq	%rsi, 104(%rsp)
	movq	%rdx, 112(%rsp)
	movq	%rsi, 120(%rsp)
	movq	%rdx, 128(%rsp)
	movl	%edi, 136(%rsp)
	movdqu	%xmm2, 140(%rsp)
	movdqu	%xmm0, 156(%rsp)
	movl	%eax, 172(%rsp)
	pxor	%xmm0, %xmm0
	movdqu	%xmm0, 176(%rsp)
	movdqu	%xmm0, 192(%rsp)
	movdqu	%xmm0, 208(%rsp)
	movdqu	%xmm0, 224(%rsp)
	movq	%rdx, %rax
	shrq	$2, %rax
	movq	$1, 240(%rsp)
	movq	$0, 248(%rsp)
	movq	%rax, 256(%rsp)
	movq	%rdx, 264(%rsp)
	leaq	72(%rsp), %rdi
	leaq	104(%rsp), %rsi
	leaq	24(%rsp), %rax
	leaq	240(%rsp), %r9
	movq	%rcx, %rdx
	movq	%r8, %rcx
	movq	%rax, %r8
	callq	"mime_lookup::cached::content_alone::sniff_opened"
	movdqa	240(%rsp), %xmm1
	movzbl	72(%rsp), %eax
	movb	%al, 15(%rsp)
	movzwl	80(%rsp), %r13d
	movl	82(%rsp), %r15d
	movzwl	86(%rsp), %eax
	movq	%rax, 56(%rsp)
	movq	88(%rsp), %r12
	movzbl	96(%rsp), %eax
	movl	%eax, 16(%rsp)
	movl	100(%rsp), %eax
	movl	%eax, 20(%rsp)
	cmpb	$1, 176(%rsp)
	movdqa	%xmm1, 32(%rsp)
	je	15f
	cmpb	$1, 192(%rsp)
	je	16f
9:
	cmpb	$1, 208(%rsp)
	je	17f
10:
	cmpb	$1, 224(%rsp)
	je	18f
11:
	movq	24(%rsp), %rcx
	cmpb	$0, 15(%rsp)
	movq	64(%rsp), %rax
	je	19f
12:
	movl	%r15d, %esi
	shrl	$16, %esi
	movabsq	$-281474976710656, %rdx
	andq	%r12, %rdx
	cmpb	$7, %r13b
	je	6b
13:
	movabsq	$281474976710655, %rdi
	andq	%rdi, %r12
	orq	%rdx, %r12
	movzwl	%r13w, %edx
	movzbl	%dl, %edi
	leaq	33f(%rip), %rdx
	movslq	(%rdx,%rdi,4), %r8
	addq	%rdx, %r8
	jmpq	*%r8
14:
	movl	$5, %edx
	xorl	%r15d, %r15d
	xorl	%esi, %esi
	jmp	30f
15:
	movq	184(%rsp), %rbx
	leaq	240(%rsp), %r14
	movl	$352, %edx
	movq	%r14, %rdi
	movq	%rbx, %rsi
	callq	memcpy@PLT
	movq	%rbx, %rdi
	callq	rattle_dealloc@PLT
	movq	%r14, %rdi
	callq	"mime_lookup::mime_lookup++read_back++names++IndexedNames+Destruct::drop"
	movdqa	32(%rsp), %xmm1
	cmpb	$1, 192(%rsp)
	jne	9b
16:
	movq	200(%rsp), %rbx
	leaq	240(%rsp), %r14
	movl	$200, %edx
	movq	%r14, %rdi
	movq	%rbx, %rsi
	callq	memcpy@PLT
	movq	%rbx, %rdi
	callq	rattle_dealloc@PLT
	movq	%r14, %rdi
	callq	"mime_lookup::mime_lookup++indexed++magic_index++MagicIndex+Destruct::drop"
	movdqa	32(%rsp), %xmm1
	cmpb	$1, 208(%rsp)
	jne	10b
17:
	movq	216(%rsp), %rbx
	leaq	240(%rsp), %r14
	movl	$344, %edx
	movq	%r14, %rdi
	movq	%rbx, %rsi
	callq	memcpy@PLT
	movq	%rbx, %rdi
	callq	rattle_dealloc@PLT
	movq	%r14, %rdi
	callq	"mime_lookup::mime_lookup++read_back++pairs++IndexedPairs+Destruct::drop"
	movdqa	32(%rsp), %xmm1
	cmpb	$1, 224(%rsp)
	jne	11b
18:
	movq	232(%rsp), %rbx
	leaq	240(%rsp), %r14
	movl	$496, %edx
	movq	%r14, %rdi
	movq	%rbx, %rsi
	callq	memcpy@PLT
	movq	%rbx, %rdi
	callq	rattle_dealloc@PLT
	movq	%r14, %rdi
	callq	"mime_lookup::mime_lookup++read_back++icons++IndexedIcons+Destruct::drop"
	movdqa	32(%rsp), %xmm1
	movq	24(%rsp), %rcx
	cmpb	$0, 15(%rsp)
	movq	64(%rsp), %rax
	jne	12b
19:
	movzwl	%r13w, %esi
	shlq	$16, %r15
	orq	%rsi, %r15
	movq	56(%rsp), %rbx
	movq	%rbx, %rdi
	shlq	$48, %rdi
	orq	%r15, %rdi
	movq	%rdi, %r8
	shrq	$8, %r8
	movl	16(%rsp), %r10d
	movl	%r10d, %r9d
	andl	$1, %r9d
	xorl	%edx, %edx
	cmpl	$1, %r10d
	movl	20(%rsp), %r10d
	cmovnel	%edx, %r10d
	movb	%sil, (%rbp)
	movb	%bh, 7(%rbp)
	shrq	$40, %rdi
	movw	%di, 5(%rbp)
	movl	%r8d, 1(%rbp)
	movq	%r12, 8(%rbp)
	movl	%r10d, 16(%rbp)
	movl	%r9d, 20(%rbp)
	pxor	%xmm0, %xmm0
	movdqu	%xmm0, 24(%rbp)
	movq	$0, 40(%rbp)
	movdqa	%xmm0, 240(%rsp)
	movq	$0, 256(%rsp)
	jmp	7b
20:
	movl	$9, %edx
	jmp	23f
21:
	movl	$7, %edx
	jmp	28f
22:
	movl	$8, %edx
23:
	xorl	%r15d, %r15d
	xorl	%esi, %esi
	movq	%r12, %rdi
	jmp	30f
24:
	movl	$2, %edx
	jmp	28f
25:
	movl	$6, %edx
	jmp	29f
26:
	movl	$10, %edx
	jmp	28f
27:
	movl	$11, %edx
28:
	xorl	%r15d, %r15d
	xorl	%esi, %esi
29:
	xorl	%edi, %edi
30:
	pxor	%xmm0, %xmm0
	movdqa	%xmm0, 240(%rsp)
	movq	$0, 256(%rsp)
31:
	movl	%edx, (%rax)
	movw	%r15w, 4(%rax)
	movw	%si, 6(%rax)
	movq	%rdi, 8(%rax)
	movq	%rcx, 16(%rax)
	movdqu	%xmm1, 24(%rax)
	movaps	240(%rsp), %xmm0
	movups	%xmm0, 40(%rax)
	movq	256(%rsp), %rcx
	movq	%rcx, 56(%rax)
	addq	$744, %rsp
	popq	%rbx
	popq	%r12
	popq	%r13
	popq	%r14
	popq	%r15
	popq	%rbp
	retq
32:
	.size	mimelook_sniff, 32b-mimelook_sniff
	.section	.rodata,"a",@progbits
	.p2align	2, 0x0
33:
	.long	14b-33b
	.long	25b-33b
	.long	21b-33b
	.long	22b-33b
	.long	20b-33b
	.long	26b-33b
	.long	27b-33b
	.long	24b-33b

	.section	.rodata.cst16,"aM",@progbits,16
	.p2align	4, 0x0
1:
	.byte	3,2,1,0,7,6,5,4,11,10,9,8,15,14,13,12
	.text
	.globl	mimelook_unalias
	.p2align	4
	.type	mimelook_unalias,@function
mimelook_unalias:
	pushq	%r15
	pushq	%r14
	pushq	%r12
	pushq	%rbx
	subq	$136, %rsp
	movq	%rdi, %rax
	xorl	%edi, %edi
	testq	%rsi, %rsi
	sete	%bl
	xorl	%r10d, %r10d
	testq	%rcx, %rcx
	sete	%r11b
	xorps	%xmm0, %xmm0
	movaps	%xmm0, 48(%rsp)
	movq	$0, 64(%rsp)
	movq	$0, 8(%rsp)
	cmpq	$40, %rdx
	jae	2f
	xorl	%edx, %edx
	xorl	%ecx, %ecx
	jmp	5f
2:
	movb	%bl, %dil
	shll	$12, %edi
	addq	%rdi, %rsi
	movq	$1, (%rsp)
	movl	(%rsi), %edi
	cmpl	$33554688, %edi
	bswapl	%edi
	jne	3f
	cmpq	$268435456, %rdx
	jbe	7f
	movl	$2, %ecx
	jmp	4f
3:
	movl	%edi, %ecx
	andl	$-65536, %ecx
	movzwl	%di, %edx
	shlq	$32, %rdx
	addq	%rdx, %rcx
	incq	%rcx
4:
	movl	$1, %edx
5:
	movl	%ecx, %r8d
	shrl	$16, %r8d
	movq	%rcx, %r9
	shrq	$32, %r9
	movd	%edx, %xmm0
	xorl	%edi, %edi
	movzbl	%cl, %esi
	movl	$5, %ecx
	xorl	%edx, %edx
	leaq	21f(%rip), %r10
	movslq	(%r10,%rsi,4), %r11
	addq	%r10, %r11
	xorl	%r10d, %r10d
	jmpq	*%r11
6:
	movl	$6, %ecx
	xorl	%esi, %esi
	movl	%r8d, %edx
	movl	%r9d, %r10d
	jmp	16f
7:
	movq	%r9, %r14
	movq	%rax, %rbx
	movb	%r11b, %r10b
	shll	$12, %r10d
	addq	%r10, %rcx
	movdqu	20(%rsi), %xmm0
	movdqa	1b(%rip), %xmm1
	pshufb	%xmm1, %xmm0
	movl	36(%rsi), %eax
	bswapl	%eax
	movdqu	4(%rsi), %xmm2
	pshufb	%xmm1, %xmm2
	movq	%rsi, 80(%rsp)
	movq	%rdx, 88(%rsp)
	movl	%edi, 96(%rsp)
	movdqu	%xmm2, 100(%rsp)
	movdqu	%xmm0, 116(%rsp)
	movl	%eax, 132(%rsp)
	pxor	%xmm0, %xmm0
	movdqa	%xmm0, 32(%rsp)
	movdqa	%xmm0, 16(%rsp)
	movq	%xmm2, %rax
	movl	%eax, %edx
	leaq	16(%rsp), %rdi
	leaq	80(%rsp), %rsi
	movq	%rsp, %r9
	movq	%rcx, %r15
	movq	%r8, %r12
	callq	"mime_view::pairs::look_up_pair"
	movzbl	24(%rsp), %eax
	movq	32(%rsp), %rdi
	cmpb	$0, 16(%rsp)
	je	18f
	movzwl	26(%rsp), %r8d
	movzwl	28(%rsp), %r9d
	movdqa	(%rsp), %xmm0
	movzbl	%al, %esi
	movl	$5, %ecx
	xorl	%edx, %edx
	leaq	21f(%rip), %rax
	movslq	(%rax,%rsi,4), %r11
	addq	%rax, %r11
	xorl	%r10d, %r10d
	movq	%rbx, %rax
	jmpq	*%r11
8:
	movl	$7, %ecx
	jmp	15f
9:
	movl	$9, %ecx
	jmp	11f
10:
	movl	$8, %ecx
11:
	xorl	%edx, %edx
	xorl	%r10d, %r10d
	movq	%rdi, %rsi
	jmp	16f
12:
	movl	$2, %ecx
	jmp	15f
13:
	movl	$10, %ecx
	jmp	15f
14:
	movl	$11, %ecx
15:
	xorl	%edx, %edx
	xorl	%r10d, %r10d
	xorl	%esi, %esi
16:
	pxor	%xmm1, %xmm1
	movdqa	%xmm1, 80(%rsp)
	movq	$0, 96(%rsp)
17:
	movq	96(%rsp), %rdi
	movq	%rdi, 64(%rsp)
	movaps	80(%rsp), %xmm1
	movaps	%xmm1, 48(%rsp)
	movl	%ecx, (%rax)
	movw	%dx, 4(%rax)
	movw	%r10w, 6(%rax)
	movq	%rsi, 8(%rax)
	movq	$0, 16(%rax)
	movdqu	%xmm0, 24(%rax)
	movaps	48(%rsp), %xmm0
	movups	%xmm0, 40(%rax)
	movq	64(%rsp), %rcx
	movq	%rcx, 56(%rax)
	addq	$136, %rsp
	popq	%rbx
	popq	%r12
	popq	%r14
	popq	%r15
	retq
18:
	cmpb	$1, %al
	movq	%rbx, %rax
	jne	19f
	movq	40(%rsp), %r12
	movq	%rdi, %r15
19:
	movdqa	(%rsp), %xmm0
	movq	%r15, (%r14)
	movq	%r12, 8(%r14)
	pxor	%xmm1, %xmm1
	movdqa	%xmm1, 80(%rsp)
	movq	$0, 96(%rsp)
	xorl	%ecx, %ecx
	xorl	%edx, %edx
	xorl	%r10d, %r10d
	xorl	%esi, %esi
	jmp	17b
20:
	.size	mimelook_unalias, 20b-mimelook_unalias
	.section	.rodata,"a",@progbits
	.p2align	2, 0x0
21:
	.long	16b-21b
	.long	6b-21b
	.long	8b-21b
	.long	10b-21b
	.long	9b-21b
	.long	13b-21b
	.long	14b-21b
	.long	12b-21b

	.text
	.globl	open_directories
	.p2align	4
	.type	open_directories,@function
open_directories:
	pushq	%r15
	pushq	%r14
	pushq	%r13
	pushq	%r12
	pushq	%rbx
	subq	$112, %rsp
	movq	%r8, %r12
	movq	%rcx, %r14
	movq	%rdi, %rbx
	xorl	%eax, %eax
	testq	%rsi, %rsi
	sete	%al
	shll	$12, %eax
	addq	%rax, %rsi
	xorps	%xmm0, %xmm0
	movaps	%xmm0, 32(%rsp)
	movaps	%xmm0, 16(%rsp)
	movq	$0, 48(%rsp)
	leaq	16(%rsp), %rdi
	callq	"mime_c::merge::merged_cache"
	cmpb	$0, 16(%rsp)
	movq	32(%rsp), %r15
	je	1f
	movzbl	24(%rsp), %eax
	cmpl	$2, %eax
	je	2f
	cmpl	$1, %eax
	jne	4f
	xorps	%xmm0, %xmm0
	movaps	%xmm0, (%rsp)
	xorl	%ecx, %ecx
	movl	$7, %eax
	jmp	3f
1:
	movq	24(%rsp), %r13
	xorps	%xmm0, %xmm0
	movaps	%xmm0, 64(%rsp)
	leaq	88(%rsp), %rdi
	leaq	64(%rsp), %r9
	movq	%r13, %rsi
	movq	%r15, %rdx
	movq	%r13, %rcx
	movq	%r15, %r8
	callq	"mime_c::database::open::open"
	cmpb	$0, 88(%rsp)
	je	6f
	movq	%r13, (%r12)
	movq	%r15, 8(%r12)
	xorps	%xmm0, %xmm0
	movaps	%xmm0, (%rsp)
	movl	$2, %eax
	xorl	%ecx, %ecx
	jmp	7f
2:
	xorps	%xmm0, %xmm0
	movaps	%xmm0, (%rsp)
	xorl	%ecx, %ecx
	movl	$2, %eax
3:
	xorl	%r15d, %r15d
	xorl	%edx, %edx
	jmp	5f
4:
	movq	48(%rsp), %rdx
	movzbl	40(%rsp), %ecx
	incl	%ecx
	xorps	%xmm0, %xmm0
	movaps	%xmm0, (%rsp)
	movl	$13, %eax
5:
	movq	$0, (%r14)
	jmp	8f
6:
	movq	96(%rsp), %rcx
	xorps	%xmm0, %xmm0
	movaps	%xmm0, (%rsp)
	xorl	%eax, %eax
7:
	movq	%rcx, (%r14)
	xorl	%ecx, %ecx
	xorl	%r15d, %r15d
	xorl	%edx, %edx
8:
	movl	%eax, (%rbx)
	movl	%ecx, 4(%rbx)
	movq	%r15, 8(%rbx)
	movq	%rdx, 16(%rbx)
	movaps	(%rsp), %xmm0
	movups	%xmm0, 24(%rbx)
	movq	%rbx, %rax
	addq	$112, %rsp
	popq	%rbx
	popq	%r12
	popq	%r13
	popq	%r14
	popq	%r15
	retq
9:
	.size	open_directories, 9b-open_directories
