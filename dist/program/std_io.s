# Made by dist/refresh of what is proved.

	.section	.rodata.cst16,"aM",@progbits,16
	.p2align	4, 0x0
1:
	.zero	16,46
2:
	.quad	8458358670138239095,3327647951695996518
3:
	.quad	8367798494427701606,2334399978102268015
4:
	.byte	2,23,28,0
	.zero	1
	.zero	1
	.zero	1
	.zero	1
	.zero	1
	.zero	1
	.zero	1
	.zero	1
	.zero	1
	.zero	1
	.zero	1
	.zero	1
5:
	.byte	0,35,0,0
	.zero	1
	.zero	1
	.zero	1
	.zero	1
	.zero	1
	.zero	1
	.zero	1
	.zero	1
	.zero	1
	.zero	1
	.zero	1
	.zero	1
6:
	.byte	0,35,0,0,0,0,0,0,0,0,0,0,0,0,0,0
7:
	.byte	2,23,28,0,0,0,0,0,0,0,0,0,0,0,0,0
	.text
	.p2align	4
	.type	"std_io::io::buffer::Buffer::flush",@function
"std_io::io::buffer::Buffer::flush":
	pushq	%rbp
	pushq	%r15
	pushq	%r14
	pushq	%r13
	pushq	%r12
	pushq	%rbx
	subq	$104, %rsp
	movq	1032(%rdi), %r15
	movq	$0, 1032(%rdi)
	cmpq	$1025, %r15
	jae	15f
	leaq	4(%rdi), %r13
	movq	%rdi, 8(%rsp)
	movl	(%rdi), %ebp
	movq	$-64, %rbx
	xorl	%r12d, %r12d
	jmp	9f
	.p2align	4
8:
	callq	rattle_errno@PLT
	cmpl	$4, %eax
	jne	13f
	incq	%rbx
	cmpq	%rbx, %r15
	je	10f
9:
	movq	%r15, %r14
	subq	%r12, %r14
	jbe	11f
	leaq	(%r12,%r13), %rsi
	movl	%ebp, %edi
	movq	%r14, %rdx
	callq	write@PLT
	testq	%rax, %rax
	js	8b
	je	12f
	cmpq	%r14, %rax
	cmovbq	%rax, %r14
	addq	%r14, %r12
	incq	%rbx
	cmpq	%rbx, %r15
	jne	9b
10:
	movb	$1, %al
	cmpq	%r12, %r15
	jbe	16f
	xorps	%xmm0, %xmm0
	movss	6b(%rip), %xmm1
	movl	$4, %eax
	xorps	%xmm2, %xmm2
	xorps	%xmm3, %xmm3
	xorps	%xmm4, %xmm4
	xorps	%xmm5, %xmm5
	jmp	14f
11:
	movb	$1, %al
	jmp	16f
12:
	movaps	1b(%rip), %xmm3
	movaps	2b(%rip), %xmm2
	movaps	3b(%rip), %xmm0
	movss	7b(%rip), %xmm1
	xorl	%eax, %eax
	movaps	%xmm3, %xmm4
	movaps	%xmm3, %xmm5
	jmp	14f
13:
	leaq	16(%rsp), %rdi
	movl	%eax, %esi
	callq	"std_io::io::error::Error::from_raw_os_error"
	movsd	16(%rsp), %xmm1
	movl	20(%rsp), %eax
	movups	24(%rsp), %xmm0
	movups	40(%rsp), %xmm2
	movups	56(%rsp), %xmm3
	movups	72(%rsp), %xmm4
	movups	88(%rsp), %xmm5
14:
	movq	8(%rsp), %rcx
	movq	$1, 1040(%rcx)
	movss	%xmm1, 1048(%rcx)
	movl	%eax, 1052(%rcx)
	movups	%xmm0, 1056(%rcx)
	movups	%xmm2, 1072(%rcx)
	movups	%xmm3, 1088(%rcx)
	movups	%xmm4, 1104(%rcx)
	movups	%xmm5, 1120(%rcx)
15:
	xorl	%eax, %eax
16:
	addq	$104, %rsp
	popq	%rbx
	popq	%r12
	popq	%r13
	popq	%r14
	popq	%r15
	popq	%rbp
	retq
17:
	.size	"std_io::io::buffer::Buffer::flush", 17b-"std_io::io::buffer::Buffer::flush"

	.text
	.p2align	4
	.type	"std_io::io::error::Error::from_bytes",@function
"std_io::io::error::Error::from_bytes":
	pushq	%rbp
	pushq	%r15
	pushq	%r14
	pushq	%r13
	pushq	%r12
	pushq	%rbx
	subq	$408, %rsp
	movq	%r9, 400(%rsp)
	movl	%edx, 364(%rsp)
	movl	%esi, 360(%rsp)
	movq	%rdi, 392(%rsp)
	movabsq	$3314649325744685056, %r13
	movabsq	$12947848928690176, %rsi
	movabsq	$50577534877696, %r11
	movabsq	$197568495616, %r14
	movl	$3014656, %eax
	movq	%rax, 368(%rsp)
	movb	$46, 223(%rsp)
	movl	$11776, %eax
	movq	%rax, 376(%rsp)
	movl	$771751936, %eax
	movq	%rax, 384(%rsp)
	testq	%r8, %r8
	movq	%rcx, -64(%rsp)
	je	1f
	movzbl	(%rcx), %eax
	movb	%al, 222(%rsp)
	cmpq	$1, %r8
	movq	%r8, %r14
	jne	3f
	movq	%r13, -104(%rsp)
	movq	%r11, -96(%rsp)
	movl	$771751936, %eax
	movq	%rax, -88(%rsp)
	movl	$11776, %eax
	movq	%rax, -80(%rsp)
	movq	%r13, -72(%rsp)
	movq	%r11, -56(%rsp)
	movl	$771751936, %eax
	movq	%rax, -40(%rsp)
	movl	$11776, %eax
	movq	%rax, -24(%rsp)
	movq	%r13, -16(%rsp)
	movq	%r11, (%rsp)
	movl	$771751936, %eax
	movq	%rax, 16(%rsp)
	movb	$46, -105(%rsp)
	movb	$46, -121(%rsp)
	movb	$46, -122(%rsp)
	movb	$46, -123(%rsp)
	movb	$46, -124(%rsp)
	movb	$46, -125(%rsp)
	movb	$46, -126(%rsp)
	movb	$46, -127(%rsp)
	movl	$11776, %eax
	movq	%rax, 32(%rsp)
	movq	%r13, 40(%rsp)
	movq	%r11, 56(%rsp)
	movl	$771751936, %r12d
	movq	%rax, 80(%rsp)
	movq	%r13, 88(%rsp)
	movq	%r11, 104(%rsp)
	movl	$771751936, %r15d
	movq	%rax, 128(%rsp)
	movq	%r13, 136(%rsp)
	movq	%r11, 152(%rsp)
	movl	$771751936, %eax
	movq	%rax, 168(%rsp)
	movl	$11776, %eax
	movq	%rax, 184(%rsp)
	movq	%r13, 192(%rsp)
	movq	%r11, 208(%rsp)
	movl	$771751936, %eax
	movq	%rax, 232(%rsp)
	movl	$11776, %eax
	movq	%rax, 248(%rsp)
	movq	%r13, 256(%rsp)
	movq	%r11, 272(%rsp)
	movl	$771751936, %eax
	movq	%rax, 288(%rsp)
	movl	$11776, %eax
	movq	%rax, 304(%rsp)
	movq	%r13, 312(%rsp)
	movq	%r11, 328(%rsp)
	movl	$771751936, %eax
	movq	%rax, 344(%rsp)
	movl	$11776, %ebx
	jmp	5f
1:
	movq	%r13, -104(%rsp)
	movq	%r11, -96(%rsp)
	movq	%rax, -88(%rsp)
	movl	$11776, %eax
	movq	%rax, -80(%rsp)
	movq	%r13, -72(%rsp)
	movq	%r11, -56(%rsp)
	movl	$771751936, %eax
	movq	%rax, -40(%rsp)
	movl	$11776, %eax
	movq	%rax, -24(%rsp)
	movq	%r13, -16(%rsp)
	movq	%r11, (%rsp)
	movl	$771751936, %eax
	movq	%rax, 16(%rsp)
	movb	$46, 222(%rsp)
	movb	$46, -105(%rsp)
	movb	$46, -121(%rsp)
	movb	$46, -122(%rsp)
	movb	$46, -123(%rsp)
	movb	$46, -124(%rsp)
	movb	$46, -125(%rsp)
	movb	$46, -126(%rsp)
	movb	$46, -127(%rsp)
	movl	$11776, %eax
	movq	%rax, 32(%rsp)
	movq	%r13, 40(%rsp)
	movq	%r11, 56(%rsp)
	movl	$771751936, %r12d
	movq	%rax, 80(%rsp)
	movq	%r13, 88(%rsp)
	movq	%r11, 104(%rsp)
	movl	$771751936, %r15d
	movq	%rax, 128(%rsp)
	movq	%r13, 136(%rsp)
	movq	%r11, 152(%rsp)
	movl	$771751936, %eax
	movq	%rax, 168(%rsp)
	movl	$11776, %eax
	movq	%rax, 184(%rsp)
	movq	%r13, 192(%rsp)
	movq	%r11, 208(%rsp)
	movl	$771751936, %eax
	movq	%rax, 232(%rsp)
	movl	$11776, %eax
	movq	%rax, 248(%rsp)
	movq	%r13, 256(%rsp)
	movq	%r11, 272(%rsp)
	movl	$771751936, %eax
	movq	%rax, 288(%rsp)
	movl	$11776, %eax
	movq	%rax, 304(%rsp)
	movq	%r13, 312(%rsp)
	movq	%r11, 328(%rsp)
	movl	$771751936, %eax
	movq	%rax, 344(%rsp)
	movl	$3014656, %eax
	movq	%rax, 352(%rsp)
	movq	%r14, 336(%rsp)
	movq	%rsi, 320(%rsp)
	movq	%rax, 296(%rsp)
	movq	%r14, 280(%rsp)
	movq	%rsi, 264(%rsp)
	movq	%rax, 240(%rsp)
	movq	%r14, 224(%rsp)
	movq	%rsi, 200(%rsp)
	movq	%rax, 176(%rsp)
	movq	%r14, 160(%rsp)
	movq	%rsi, 144(%rsp)
	movq	%rax, 120(%rsp)
	movq	%r14, 112(%rsp)
	movq	%rsi, 96(%rsp)
	movq	%rax, 72(%rsp)
	movq	%r14, 64(%rsp)
	movq	%rsi, 48(%rsp)
	movq	%rax, 24(%rsp)
	movq	%r14, 8(%rsp)
	movq	%rsi, -8(%rsp)
	movq	%rax, -32(%rsp)
	movq	%r14, -48(%rsp)
	movq	%rsi, %rdi
	movl	$3014656, %r9d
	movq	%r14, %rdx
	movq	%rsi, %r10
	movq	%r14, %rcx
	movq	%r8, %r14
	movl	$11776, %ebx
	cmpq	$78, %r14
	jae	10f
2:
	movq	%rcx, %r8
	movq	%r11, %rcx
	jmp	12f
3:
	movzbl	1(%rcx), %ebx
	shll	$8, %ebx
	cmpq	$3, %r14
	jb	4f
	movzbl	2(%rcx), %eax
	shll	$16, %eax
	movq	%rax, 352(%rsp)
	cmpq	$3, %r14
	jne	13f
	movq	%r13, -104(%rsp)
	movq	%r11, -96(%rsp)
	movl	$771751936, %eax
	movq	%rax, -88(%rsp)
	movl	$11776, %eax
	movq	%rax, -80(%rsp)
	movq	%r13, -72(%rsp)
	movq	%r11, -56(%rsp)
	movl	$771751936, %eax
	movq	%rax, -40(%rsp)
	movl	$11776, %eax
	movq	%rax, -24(%rsp)
	movq	%r13, -16(%rsp)
	movq	%r11, (%rsp)
	movl	$771751936, %eax
	movq	%rax, 16(%rsp)
	movb	$46, -105(%rsp)
	movb	$46, -121(%rsp)
	movb	$46, -122(%rsp)
	movb	$46, -123(%rsp)
	movb	$46, -124(%rsp)
	movb	$46, -125(%rsp)
	movb	$46, -126(%rsp)
	movb	$46, -127(%rsp)
	movl	$11776, %eax
	movq	%rax, 32(%rsp)
	movq	%r13, 40(%rsp)
	movq	%r11, 56(%rsp)
	movl	$771751936, %r12d
	movq	%rax, 80(%rsp)
	movq	%r13, 88(%rsp)
	movq	%r11, 104(%rsp)
	movl	$771751936, %r15d
	movq	%rax, 128(%rsp)
	movq	%r13, 136(%rsp)
	movq	%r11, 152(%rsp)
	movl	$771751936, %eax
	movq	%rax, 168(%rsp)
	movl	$11776, %eax
	movq	%rax, 184(%rsp)
	movq	%r13, 192(%rsp)
	movq	%r11, 208(%rsp)
	movl	$771751936, %eax
	movq	%rax, 232(%rsp)
	movl	$11776, %eax
	movq	%rax, 248(%rsp)
	movq	%r13, 256(%rsp)
	movq	%r11, 272(%rsp)
	movl	$771751936, %eax
	movq	%rax, 288(%rsp)
	movl	$11776, %eax
	movq	%rax, 304(%rsp)
	movq	%r13, 312(%rsp)
	movq	%r11, 328(%rsp)
	movl	$771751936, %eax
	movq	%rax, 344(%rsp)
	jmp	15f
4:
	movq	%r13, -104(%rsp)
	movq	%r11, -96(%rsp)
	movl	$771751936, %eax
	movq	%rax, -88(%rsp)
	movl	$11776, %eax
	movq	%rax, -80(%rsp)
	movq	%r13, -72(%rsp)
	movq	%r11, -56(%rsp)
	movl	$771751936, %eax
	movq	%rax, -40(%rsp)
	movl	$11776, %eax
	movq	%rax, -24(%rsp)
	movq	%r13, -16(%rsp)
	movq	%r11, (%rsp)
	movl	$771751936, %eax
	movq	%rax, 16(%rsp)
	movb	$46, -105(%rsp)
	movb	$46, -121(%rsp)
	movb	$46, -122(%rsp)
	movb	$46, -123(%rsp)
	movb	$46, -124(%rsp)
	movb	$46, -125(%rsp)
	movb	$46, -126(%rsp)
	movb	$46, -127(%rsp)
	movl	$11776, %eax
	movq	%rax, 32(%rsp)
	movq	%r13, 40(%rsp)
	movq	%r11, 56(%rsp)
	movl	$771751936, %r12d
	movq	%rax, 80(%rsp)
	movq	%r13, 88(%rsp)
	movq	%r11, 104(%rsp)
	movl	$771751936, %r15d
	movq	%rax, 128(%rsp)
	movq	%r13, 136(%rsp)
	movq	%r11, 152(%rsp)
	movl	$771751936, %eax
	movq	%rax, 168(%rsp)
	movl	$11776, %eax
	movq	%rax, 184(%rsp)
	movq	%r13, 192(%rsp)
	movq	%r11, 208(%rsp)
	movl	$771751936, %eax
	movq	%rax, 232(%rsp)
	movl	$11776, %eax
	movq	%rax, 248(%rsp)
	movq	%r13, 256(%rsp)
	movq	%r11, 272(%rsp)
	movl	$771751936, %eax
	movq	%rax, 288(%rsp)
	movl	$11776, %eax
	movq	%rax, 304(%rsp)
	movq	%r13, 312(%rsp)
	movq	%r11, 328(%rsp)
	movl	$771751936, %eax
	movq	%rax, 344(%rsp)
5:
	movl	$3014656, %eax
	movq	%rax, 352(%rsp)
	movabsq	$197568495616, %rcx
	movq	%rcx, 336(%rsp)
	movq	%rsi, 320(%rsp)
6:
	movq	%rax, 296(%rsp)
7:
	movq	%rcx, 280(%rsp)
	movq	%rsi, 264(%rsp)
8:
	movq	%rax, 240(%rsp)
9:
	movq	%rcx, 224(%rsp)
	movq	%rsi, 200(%rsp)
	movq	%rax, 176(%rsp)
	movq	%rcx, 160(%rsp)
	movq	%rsi, 144(%rsp)
	movq	%rax, 120(%rsp)
	movq	%rcx, 112(%rsp)
	movq	%rsi, 96(%rsp)
	movq	%rax, 72(%rsp)
	movq	%rcx, 64(%rsp)
	movq	%rsi, 48(%rsp)
	movq	%rax, 24(%rsp)
	movq	%rcx, 8(%rsp)
	movq	%rsi, -8(%rsp)
	movq	%rax, -32(%rsp)
	movq	%rcx, -48(%rsp)
	movq	%rsi, %rdi
	movl	$3014656, %r9d
	movq	%rcx, %rdx
	movq	%rsi, %r10
	cmpq	$78, %r14
	jb	2b
10:
	movq	-64(%rsp), %rax
	movzbl	77(%rax), %ebp
	shlq	$40, %rbp
	movq	%rcx, %r8
	cmpq	$78, %r14
	jne	11f
	movq	%rbp, %rcx
	jmp	12f
11:
	movzbl	78(%rax), %esi
	shlq	$48, %rsi
	movq	%rbp, %rcx
	cmpq	$80, %r14
	jb	12f
	movzbl	79(%rax), %r13d
	shlq	$56, %r13
12:
	orq	%r13, %rsi
	movq	-80(%rsp), %r14
	orq	%r9, %r14
	movzbl	-127(%rsp), %eax
	orq	%rax, %r14
	movq	-88(%rsp), %rax
	orq	%rdx, %rax
	orq	-96(%rsp), %rax
	orq	%r14, %rax
	movq	%r10, %rbp
	orq	-104(%rsp), %rbp
	orq	%rax, %rbp
	movq	-24(%rsp), %rdx
	orq	-32(%rsp), %rdx
	movzbl	-126(%rsp), %eax
	orq	%rax, %rdx
	movq	-40(%rsp), %rax
	orq	-48(%rsp), %rax
	orq	-56(%rsp), %rax
	orq	%rdx, %rax
	movq	%rdi, %r9
	orq	-72(%rsp), %r9
	orq	%rax, %r9
	movq	32(%rsp), %rdx
	orq	24(%rsp), %rdx
	movzbl	-125(%rsp), %eax
	orq	%rax, %rdx
	movq	16(%rsp), %rax
	orq	8(%rsp), %rax
	orq	(%rsp), %rax
	orq	%rdx, %rax
	movq	-8(%rsp), %rdi
	orq	-16(%rsp), %rdi
	orq	%rax, %rdi
	movq	80(%rsp), %rdx
	orq	72(%rsp), %rdx
	movzbl	-124(%rsp), %eax
	orq	%rax, %rdx
	orq	64(%rsp), %r12
	orq	56(%rsp), %r12
	orq	%rdx, %r12
	movq	48(%rsp), %r10
	orq	40(%rsp), %r10
	orq	%r12, %r10
	movq	128(%rsp), %rdx
	orq	120(%rsp), %rdx
	movzbl	-123(%rsp), %eax
	orq	%rax, %rdx
	orq	112(%rsp), %r15
	orq	104(%rsp), %r15
	orq	%rdx, %r15
	movq	%rsi, %r12
	movq	96(%rsp), %rsi
	orq	88(%rsp), %rsi
	orq	%r15, %rsi
	movq	184(%rsp), %rdx
	orq	176(%rsp), %rdx
	movzbl	-122(%rsp), %eax
	orq	%rax, %rdx
	movq	168(%rsp), %rax
	orq	160(%rsp), %rax
	orq	152(%rsp), %rax
	orq	%rdx, %rax
	movq	144(%rsp), %r11
	orq	136(%rsp), %r11
	orq	%rax, %r11
	movq	248(%rsp), %rdx
	orq	240(%rsp), %rdx
	movzbl	-121(%rsp), %eax
	orq	%rax, %rdx
	movq	232(%rsp), %rax
	orq	224(%rsp), %rax
	orq	208(%rsp), %rax
	orq	%rdx, %rax
	movq	200(%rsp), %r13
	orq	192(%rsp), %r13
	orq	%rax, %r13
	movq	304(%rsp), %rdx
	orq	296(%rsp), %rdx
	movzbl	-105(%rsp), %eax
	orq	%rax, %rdx
	movq	288(%rsp), %rax
	orq	280(%rsp), %rax
	orq	272(%rsp), %rax
	orq	%rdx, %rax
	movq	264(%rsp), %r15
	orq	256(%rsp), %r15
	orq	%rax, %r15
	orq	352(%rsp), %rbx
	movzbl	222(%rsp), %eax
	orq	%rax, %rbx
	movq	344(%rsp), %rax
	orq	336(%rsp), %rax
	orq	328(%rsp), %rax
	orq	%rbx, %rax
	movq	320(%rsp), %rdx
	orq	312(%rsp), %rdx
	orq	%rax, %rdx
	movq	376(%rsp), %r14
	orq	368(%rsp), %r14
	movzbl	223(%rsp), %eax
	orq	%rax, %r14
	movq	384(%rsp), %rbx
	orq	%r8, %rbx
	orq	%rcx, %rbx
	orq	%r14, %rbx
	orq	%r12, %rbx
	movl	360(%rsp), %eax
	movq	392(%rsp), %rcx
	movb	%al, (%rcx)
	movl	364(%rsp), %eax
	movb	%al, 1(%rcx)
	movq	400(%rsp), %rax
	movb	%al, 2(%rcx)
	movb	$0, 3(%rcx)
	movl	$0, 4(%rcx)
	movq	%rdx, 8(%rcx)
	movq	%r15, 16(%rcx)
	movq	%r13, 24(%rcx)
	movq	%r11, 32(%rcx)
	movq	%rsi, 40(%rcx)
	movq	%r10, 48(%rcx)
	movq	%rdi, 56(%rcx)
	movq	%r9, 64(%rcx)
	movq	%rbp, 72(%rcx)
	movq	%rbx, 80(%rcx)
	addq	$408, %rsp
	popq	%rbx
	popq	%r12
	popq	%r13
	popq	%r14
	popq	%r15
	popq	%rbp
	retq
13:
	movzbl	3(%rcx), %eax
	shll	$24, %eax
	movq	%rax, 344(%rsp)
	cmpq	$5, %r14
	jb	14f
	movzbl	4(%rcx), %eax
	shlq	$32, %rax
	movq	%rax, 336(%rsp)
	cmpq	$5, %r14
	jne	16f
	movq	%r13, -104(%rsp)
	movq	%r11, -96(%rsp)
	movl	$771751936, %eax
	movq	%rax, -88(%rsp)
	movl	$11776, %eax
	movq	%rax, -80(%rsp)
	movq	%r13, -72(%rsp)
	movq	%r11, -56(%rsp)
	movl	$771751936, %eax
	movq	%rax, -40(%rsp)
	movl	$11776, %eax
	movq	%rax, -24(%rsp)
	movq	%r13, -16(%rsp)
	movq	%r11, (%rsp)
	movl	$771751936, %eax
	movq	%rax, 16(%rsp)
	movb	$46, -105(%rsp)
	movb	$46, -121(%rsp)
	movb	$46, -122(%rsp)
	movb	$46, -123(%rsp)
	movb	$46, -124(%rsp)
	movb	$46, -125(%rsp)
	movb	$46, -126(%rsp)
	movb	$46, -127(%rsp)
	movl	$11776, %eax
	movq	%rax, 32(%rsp)
	movq	%r13, 40(%rsp)
	movq	%r11, 56(%rsp)
	movl	$771751936, %r12d
	movq	%rax, 80(%rsp)
	movq	%r13, 88(%rsp)
	movq	%r11, 104(%rsp)
	movl	$771751936, %r15d
	movq	%rax, 128(%rsp)
	movq	%r13, 136(%rsp)
	movq	%r11, 152(%rsp)
	movl	$771751936, %eax
	movq	%rax, 168(%rsp)
	movl	$11776, %eax
	movq	%rax, 184(%rsp)
	movq	%r13, 192(%rsp)
	movq	%r11, 208(%rsp)
	movl	$771751936, %eax
	movq	%rax, 232(%rsp)
	movl	$11776, %eax
	movq	%rax, 248(%rsp)
	movq	%r13, 256(%rsp)
	movq	%r11, 272(%rsp)
	movl	$771751936, %eax
	movq	%rax, 288(%rsp)
	movl	$11776, %eax
	movq	%rax, 304(%rsp)
	movq	%r13, 312(%rsp)
	movq	%r11, 328(%rsp)
	jmp	18f
14:
	movq	%r13, -104(%rsp)
	movq	%r11, -96(%rsp)
	movl	$771751936, %eax
	movq	%rax, -88(%rsp)
	movl	$11776, %eax
	movq	%rax, -80(%rsp)
	movq	%r13, -72(%rsp)
	movq	%r11, -56(%rsp)
	movl	$771751936, %eax
	movq	%rax, -40(%rsp)
	movl	$11776, %eax
	movq	%rax, -24(%rsp)
	movq	%r13, -16(%rsp)
	movq	%r11, (%rsp)
	movl	$771751936, %eax
	movq	%rax, 16(%rsp)
	movb	$46, -105(%rsp)
	movb	$46, -121(%rsp)
	movb	$46, -122(%rsp)
	movb	$46, -123(%rsp)
	movb	$46, -124(%rsp)
	movb	$46, -125(%rsp)
	movb	$46, -126(%rsp)
	movb	$46, -127(%rsp)
	movl	$11776, %eax
	movq	%rax, 32(%rsp)
	movq	%r13, 40(%rsp)
	movq	%r11, 56(%rsp)
	movl	$771751936, %r12d
	movq	%rax, 80(%rsp)
	movq	%r13, 88(%rsp)
	movq	%r11, 104(%rsp)
	movl	$771751936, %r15d
	movq	%rax, 128(%rsp)
	movq	%r13, 136(%rsp)
	movq	%r11, 152(%rsp)
	movl	$771751936, %eax
	movq	%rax, 168(%rsp)
	movl	$11776, %eax
	movq	%rax, 184(%rsp)
	movq	%r13, 192(%rsp)
	movq	%r11, 208(%rsp)
	movl	$771751936, %eax
	movq	%rax, 232(%rsp)
	movl	$11776, %eax
	movq	%rax, 248(%rsp)
	movq	%r13, 256(%rsp)
	movq	%r11, 272(%rsp)
	movl	$771751936, %eax
	movq	%rax, 288(%rsp)
	movl	$11776, %eax
	movq	%rax, 304(%rsp)
	movq	%r13, 312(%rsp)
	movq	%r11, 328(%rsp)
15:
	movabsq	$197568495616, %rcx
	movq	%rcx, 336(%rsp)
	movq	%rsi, 320(%rsp)
	movl	$3014656, %eax
	jmp	6b
16:
	movzbl	5(%rcx), %eax
	shlq	$40, %rax
	movq	%rax, 328(%rsp)
	cmpq	$7, %r14
	jb	17f
	movzbl	6(%rcx), %eax
	shlq	$48, %rax
	movq	%rax, 320(%rsp)
	cmpq	$7, %r14
	jne	20f
	movq	%r13, -104(%rsp)
	movq	%r11, -96(%rsp)
	movl	$771751936, %eax
	movq	%rax, -88(%rsp)
	movl	$11776, %eax
	movq	%rax, -80(%rsp)
	movq	%r13, -72(%rsp)
	movq	%r11, -56(%rsp)
	movl	$771751936, %eax
	movq	%rax, -40(%rsp)
	movl	$11776, %eax
	movq	%rax, -24(%rsp)
	movq	%r13, -16(%rsp)
	movq	%r11, (%rsp)
	movl	$771751936, %eax
	movq	%rax, 16(%rsp)
	movb	$46, -105(%rsp)
	movb	$46, -121(%rsp)
	movb	$46, -122(%rsp)
	movb	$46, -123(%rsp)
	movb	$46, -124(%rsp)
	movb	$46, -125(%rsp)
	movb	$46, -126(%rsp)
	movb	$46, -127(%rsp)
	movl	$11776, %eax
	movq	%rax, 32(%rsp)
	movq	%r13, 40(%rsp)
	movq	%r11, 56(%rsp)
	movl	$771751936, %r12d
	movq	%rax, 80(%rsp)
	movq	%r13, 88(%rsp)
	movq	%r11, 104(%rsp)
	movl	$771751936, %r15d
	movq	%rax, 128(%rsp)
	movq	%r13, 136(%rsp)
	movq	%r11, 152(%rsp)
	movl	$771751936, %eax
	movq	%rax, 168(%rsp)
	movl	$11776, %eax
	movq	%rax, 184(%rsp)
	movq	%r13, 192(%rsp)
	movq	%r11, 208(%rsp)
	movl	$771751936, %eax
	movq	%rax, 232(%rsp)
	movl	$11776, %eax
	movq	%rax, 248(%rsp)
	movq	%r13, 256(%rsp)
	movq	%r11, 272(%rsp)
	movl	$771751936, %eax
	movq	%rax, 288(%rsp)
	movl	$11776, %eax
	movq	%rax, 304(%rsp)
	movq	%r13, 312(%rsp)
	jmp	19f
17:
	movq	%r13, -104(%rsp)
	movq	%r11, -96(%rsp)
	movl	$771751936, %eax
	movq	%rax, -88(%rsp)
	movl	$11776, %eax
	movq	%rax, -80(%rsp)
	movq	%r13, -72(%rsp)
	movq	%r11, -56(%rsp)
	movl	$771751936, %eax
	movq	%rax, -40(%rsp)
	movl	$11776, %eax
	movq	%rax, -24(%rsp)
	movq	%r13, -16(%rsp)
	movq	%r11, (%rsp)
	movl	$771751936, %eax
	movq	%rax, 16(%rsp)
	movb	$46, -105(%rsp)
	movb	$46, -121(%rsp)
	movb	$46, -122(%rsp)
	movb	$46, -123(%rsp)
	movb	$46, -124(%rsp)
	movb	$46, -125(%rsp)
	movb	$46, -126(%rsp)
	movb	$46, -127(%rsp)
	movl	$11776, %eax
	movq	%rax, 32(%rsp)
	movq	%r13, 40(%rsp)
	movq	%r11, 56(%rsp)
	movl	$771751936, %r12d
	movq	%rax, 80(%rsp)
	movq	%r13, 88(%rsp)
	movq	%r11, 104(%rsp)
	movl	$771751936, %r15d
	movq	%rax, 128(%rsp)
	movq	%r13, 136(%rsp)
	movq	%r11, 152(%rsp)
	movl	$771751936, %eax
	movq	%rax, 168(%rsp)
	movl	$11776, %eax
	movq	%rax, 184(%rsp)
	movq	%r13, 192(%rsp)
	movq	%r11, 208(%rsp)
	movl	$771751936, %eax
	movq	%rax, 232(%rsp)
	movl	$11776, %eax
	movq	%rax, 248(%rsp)
	movq	%r13, 256(%rsp)
	movq	%r11, 272(%rsp)
	movl	$771751936, %eax
	movq	%rax, 288(%rsp)
	movl	$11776, %eax
	movq	%rax, 304(%rsp)
	movq	%r13, 312(%rsp)
18:
	movq	%rsi, 320(%rsp)
19:
	movl	$3014656, %eax
	movq	%rax, 296(%rsp)
	movabsq	$197568495616, %rcx
	jmp	7b
20:
	movzbl	7(%rcx), %eax
	shlq	$56, %rax
	movq	%rax, 312(%rsp)
	cmpq	$9, %r14
	jb	21f
	movzbl	8(%rcx), %eax
	movb	%al, -105(%rsp)
	jne	23f
	movq	%r13, -104(%rsp)
	movq	%r11, -96(%rsp)
	movl	$771751936, %eax
	movq	%rax, -88(%rsp)
	movl	$11776, %eax
	movq	%rax, -80(%rsp)
	movq	%r13, -72(%rsp)
	movq	%r11, -56(%rsp)
	movl	$771751936, %eax
	movq	%rax, -40(%rsp)
	movl	$11776, %eax
	movq	%rax, -24(%rsp)
	movq	%r13, -16(%rsp)
	movq	%r11, (%rsp)
	movl	$771751936, %eax
	movq	%rax, 16(%rsp)
	movl	$11776, %eax
	movq	%rax, 32(%rsp)
	movb	$46, -121(%rsp)
	movb	$46, -122(%rsp)
	movb	$46, -123(%rsp)
	movb	$46, -124(%rsp)
	movb	$46, -125(%rsp)
	movb	$46, -126(%rsp)
	movb	$46, -127(%rsp)
	jmp	22f
21:
	movq	%r13, -104(%rsp)
	movq	%r11, -96(%rsp)
	movl	$771751936, %eax
	movq	%rax, -88(%rsp)
	movl	$11776, %eax
	movq	%rax, -80(%rsp)
	movq	%r13, -72(%rsp)
	movq	%r11, -56(%rsp)
	movl	$771751936, %eax
	movq	%rax, -40(%rsp)
	movl	$11776, %eax
	movq	%rax, -24(%rsp)
	movq	%r13, -16(%rsp)
	movq	%r11, (%rsp)
	movl	$771751936, %eax
	movq	%rax, 16(%rsp)
	movb	$46, -105(%rsp)
	movb	$46, -121(%rsp)
	movb	$46, -122(%rsp)
	movb	$46, -123(%rsp)
	movb	$46, -124(%rsp)
	movb	$46, -125(%rsp)
	movb	$46, -126(%rsp)
	movb	$46, -127(%rsp)
	movl	$11776, %eax
	movq	%rax, 32(%rsp)
22:
	movq	%r13, 40(%rsp)
	movq	%r11, 56(%rsp)
	movl	$771751936, %r12d
	movq	%rax, 80(%rsp)
	movq	%r13, 88(%rsp)
	movq	%r11, 104(%rsp)
	movl	$771751936, %r15d
	movq	%rax, 128(%rsp)
	movq	%r13, 136(%rsp)
	movq	%r11, 152(%rsp)
	movl	$771751936, %eax
	movq	%rax, 168(%rsp)
	movl	$11776, %eax
	movq	%rax, 184(%rsp)
	movq	%r13, 192(%rsp)
	movq	%r11, 208(%rsp)
	movl	$771751936, %eax
	movq	%rax, 232(%rsp)
	movl	$11776, %eax
	movq	%rax, 248(%rsp)
	movq	%r13, 256(%rsp)
	movq	%r11, 272(%rsp)
	movl	$771751936, %eax
	movq	%rax, 288(%rsp)
	movl	$11776, %eax
	movq	%rax, 304(%rsp)
	jmp	19b
23:
	movzbl	9(%rcx), %eax
	shll	$8, %eax
	movq	%rax, 304(%rsp)
	cmpq	$11, %r14
	jb	24f
	movzbl	10(%rcx), %eax
	shll	$16, %eax
	movq	%rax, 296(%rsp)
	cmpq	$11, %r14
	jne	25f
	movq	%r13, -104(%rsp)
	movq	%r11, -96(%rsp)
	movl	$771751936, %eax
	movq	%rax, -88(%rsp)
	movl	$11776, %eax
	movq	%rax, -80(%rsp)
	movq	%r13, -72(%rsp)
	movq	%r11, -56(%rsp)
	movl	$771751936, %eax
	movq	%rax, -40(%rsp)
	movl	$11776, %eax
	movq	%rax, -24(%rsp)
	movq	%r13, -16(%rsp)
	movq	%r11, (%rsp)
	movl	$771751936, %eax
	movq	%rax, 16(%rsp)
	movl	$11776, %eax
	movq	%rax, 32(%rsp)
	movb	$46, -121(%rsp)
	movb	$46, -122(%rsp)
	movb	$46, -123(%rsp)
	movb	$46, -124(%rsp)
	movb	$46, -125(%rsp)
	movb	$46, -126(%rsp)
	movb	$46, -127(%rsp)
	movq	%r13, 40(%rsp)
	movq	%r11, 56(%rsp)
	movl	$771751936, %r12d
	movq	%rax, 80(%rsp)
	movq	%r13, 88(%rsp)
	movq	%r11, 104(%rsp)
	movl	$771751936, %r15d
	movq	%rax, 128(%rsp)
	movq	%r13, 136(%rsp)
	movq	%r11, 152(%rsp)
	movl	$771751936, %eax
	movq	%rax, 168(%rsp)
	movl	$11776, %eax
	movq	%rax, 184(%rsp)
	movq	%r13, 192(%rsp)
	movq	%r11, 208(%rsp)
	movl	$771751936, %eax
	movq	%rax, 232(%rsp)
	movl	$11776, %eax
	movq	%rax, 248(%rsp)
	movq	%r13, 256(%rsp)
	movq	%r11, 272(%rsp)
	movl	$771751936, %eax
	movq	%rax, 288(%rsp)
	jmp	27f
24:
	movq	%r13, -104(%rsp)
	movq	%r11, -96(%rsp)
	movl	$771751936, %eax
	movq	%rax, -88(%rsp)
	movl	$11776, %eax
	movq	%rax, -80(%rsp)
	movq	%r13, -72(%rsp)
	movq	%r11, -56(%rsp)
	movl	$771751936, %eax
	movq	%rax, -40(%rsp)
	movl	$11776, %eax
	movq	%rax, -24(%rsp)
	movq	%r13, -16(%rsp)
	movq	%r11, (%rsp)
	movl	$771751936, %eax
	movq	%rax, 16(%rsp)
	movl	$11776, %eax
	movq	%rax, 32(%rsp)
	movb	$46, -121(%rsp)
	movb	$46, -122(%rsp)
	movb	$46, -123(%rsp)
	movb	$46, -124(%rsp)
	movb	$46, -125(%rsp)
	movb	$46, -126(%rsp)
	movb	$46, -127(%rsp)
	movq	%r13, 40(%rsp)
	movq	%r11, 56(%rsp)
	movl	$771751936, %r12d
	movq	%rax, 80(%rsp)
	movq	%r13, 88(%rsp)
	movq	%r11, 104(%rsp)
	movl	$771751936, %r15d
	movq	%rax, 128(%rsp)
	movq	%r13, 136(%rsp)
	movq	%r11, 152(%rsp)
	movl	$771751936, %eax
	movq	%rax, 168(%rsp)
	movl	$11776, %eax
	movq	%rax, 184(%rsp)
	movq	%r13, 192(%rsp)
	movq	%r11, 208(%rsp)
	movl	$771751936, %eax
	movq	%rax, 232(%rsp)
	movl	$11776, %eax
	movq	%rax, 248(%rsp)
	movq	%r13, 256(%rsp)
	movq	%r11, 272(%rsp)
	movl	$771751936, %eax
	movq	%rax, 288(%rsp)
	jmp	19b
25:
	movzbl	11(%rcx), %eax
	shll	$24, %eax
	movq	%rax, 288(%rsp)
	cmpq	$13, %r14
	jb	26f
	movzbl	12(%rcx), %eax
	shlq	$32, %rax
	movq	%rax, 280(%rsp)
	cmpq	$13, %r14
	jne	28f
	movq	%r13, -104(%rsp)
	movq	%r11, -96(%rsp)
	movl	$771751936, %eax
	movq	%rax, -88(%rsp)
	movl	$11776, %eax
	movq	%rax, -80(%rsp)
	movq	%r13, -72(%rsp)
	movq	%r11, -56(%rsp)
	movl	$771751936, %eax
	movq	%rax, -40(%rsp)
	movl	$11776, %eax
	movq	%rax, -24(%rsp)
	movq	%r13, -16(%rsp)
	movq	%r11, (%rsp)
	movl	$771751936, %eax
	movq	%rax, 16(%rsp)
	movl	$11776, %eax
	movq	%rax, 32(%rsp)
	movb	$46, -121(%rsp)
	movb	$46, -122(%rsp)
	movb	$46, -123(%rsp)
	movb	$46, -124(%rsp)
	movb	$46, -125(%rsp)
	movb	$46, -126(%rsp)
	movb	$46, -127(%rsp)
	movq	%r13, 40(%rsp)
	movq	%r11, 56(%rsp)
	movl	$771751936, %r12d
	movq	%rax, 80(%rsp)
	movq	%r13, 88(%rsp)
	movq	%r11, 104(%rsp)
	movl	$771751936, %r15d
	movq	%rax, 128(%rsp)
	movq	%r13, 136(%rsp)
	movq	%r11, 152(%rsp)
	movl	$771751936, %eax
	movq	%rax, 168(%rsp)
	movl	$11776, %eax
	movq	%rax, 184(%rsp)
	movq	%r13, 192(%rsp)
	movq	%r11, 208(%rsp)
	movl	$771751936, %eax
	movq	%rax, 232(%rsp)
	movl	$11776, %eax
	movq	%rax, 248(%rsp)
	movq	%r13, 256(%rsp)
	movq	%r11, 272(%rsp)
	jmp	30f
26:
	movq	%r13, -104(%rsp)
	movq	%r11, -96(%rsp)
	movl	$771751936, %eax
	movq	%rax, -88(%rsp)
	movl	$11776, %eax
	movq	%rax, -80(%rsp)
	movq	%r13, -72(%rsp)
	movq	%r11, -56(%rsp)
	movl	$771751936, %eax
	movq	%rax, -40(%rsp)
	movl	$11776, %eax
	movq	%rax, -24(%rsp)
	movq	%r13, -16(%rsp)
	movq	%r11, (%rsp)
	movl	$771751936, %eax
	movq	%rax, 16(%rsp)
	movl	$11776, %eax
	movq	%rax, 32(%rsp)
	movb	$46, -121(%rsp)
	movb	$46, -122(%rsp)
	movb	$46, -123(%rsp)
	movb	$46, -124(%rsp)
	movb	$46, -125(%rsp)
	movb	$46, -126(%rsp)
	movb	$46, -127(%rsp)
	movq	%r13, 40(%rsp)
	movq	%r11, 56(%rsp)
	movl	$771751936, %r12d
	movq	%rax, 80(%rsp)
	movq	%r13, 88(%rsp)
	movq	%r11, 104(%rsp)
	movl	$771751936, %r15d
	movq	%rax, 128(%rsp)
	movq	%r13, 136(%rsp)
	movq	%r11, 152(%rsp)
	movl	$771751936, %eax
	movq	%rax, 168(%rsp)
	movl	$11776, %eax
	movq	%rax, 184(%rsp)
	movq	%r13, 192(%rsp)
	movq	%r11, 208(%rsp)
	movl	$771751936, %eax
	movq	%rax, 232(%rsp)
	movl	$11776, %eax
	movq	%rax, 248(%rsp)
	movq	%r13, 256(%rsp)
	movq	%r11, 272(%rsp)
27:
	movabsq	$197568495616, %rcx
	movq	%rcx, 280(%rsp)
	movq	%rsi, 264(%rsp)
	movl	$3014656, %eax
	jmp	8b
28:
	movzbl	13(%rcx), %eax
	shlq	$40, %rax
	movq	%rax, 272(%rsp)
	cmpq	$15, %r14
	jb	29f
	movq	-64(%rsp), %rax
	movzbl	14(%rax), %eax
	shlq	$48, %rax
	movq	%rax, 264(%rsp)
	movq	%r14, -120(%rsp)
	cmpq	$15, %r14
	jne	31f
	movq	%r13, -104(%rsp)
	movq	%r11, -96(%rsp)
	movl	$771751936, %eax
	movq	%rax, -88(%rsp)
	movl	$11776, %eax
	movq	%rax, -80(%rsp)
	movq	%r13, -72(%rsp)
	movq	%r11, -56(%rsp)
	movl	$771751936, %eax
	movq	%rax, -40(%rsp)
	movl	$11776, %eax
	movq	%rax, -24(%rsp)
	movq	%r13, -16(%rsp)
	movq	%r11, (%rsp)
	movl	$771751936, %eax
	movq	%rax, 16(%rsp)
	movl	$11776, %eax
	movq	%rax, 32(%rsp)
	movb	$46, -121(%rsp)
	movb	$46, -122(%rsp)
	movb	$46, -123(%rsp)
	movb	$46, -124(%rsp)
	movb	$46, -125(%rsp)
	movb	$46, -126(%rsp)
	movb	$46, -127(%rsp)
	movq	%r13, 40(%rsp)
	movq	%r11, 56(%rsp)
	movl	$771751936, %r12d
	movq	%rax, 80(%rsp)
	movq	%r13, 88(%rsp)
	movq	%r11, 104(%rsp)
	movl	$771751936, %r15d
	movq	%rax, 128(%rsp)
	movq	%r13, 136(%rsp)
	movq	%r11, 152(%rsp)
	movl	$771751936, %eax
	movq	%rax, 168(%rsp)
	movl	$11776, %eax
	movq	%rax, 184(%rsp)
	movq	%r13, 192(%rsp)
	movq	%r11, 208(%rsp)
	movl	$771751936, %eax
	movq	%rax, 232(%rsp)
	movl	$11776, %eax
	movq	%rax, 248(%rsp)
	movq	%r13, 256(%rsp)
	jmp	34f
29:
	movq	%r13, -104(%rsp)
	movq	%r11, -96(%rsp)
	movl	$771751936, %eax
	movq	%rax, -88(%rsp)
	movl	$11776, %eax
	movq	%rax, -80(%rsp)
	movq	%r13, -72(%rsp)
	movq	%r11, -56(%rsp)
	movl	$771751936, %eax
	movq	%rax, -40(%rsp)
	movl	$11776, %eax
	movq	%rax, -24(%rsp)
	movq	%r13, -16(%rsp)
	movq	%r11, (%rsp)
	movl	$771751936, %eax
	movq	%rax, 16(%rsp)
	movl	$11776, %eax
	movq	%rax, 32(%rsp)
	movb	$46, -121(%rsp)
	movb	$46, -122(%rsp)
	movb	$46, -123(%rsp)
	movb	$46, -124(%rsp)
	movb	$46, -125(%rsp)
	movb	$46, -126(%rsp)
	movb	$46, -127(%rsp)
	movq	%r13, 40(%rsp)
	movq	%r11, 56(%rsp)
	movl	$771751936, %r12d
	movq	%rax, 80(%rsp)
	movq	%r13, 88(%rsp)
	movq	%r11, 104(%rsp)
	movl	$771751936, %r15d
	movq	%rax, 128(%rsp)
	movq	%r13, 136(%rsp)
	movq	%r11, 152(%rsp)
	movl	$771751936, %eax
	movq	%rax, 168(%rsp)
	movl	$11776, %eax
	movq	%rax, 184(%rsp)
	movq	%r13, 192(%rsp)
	movq	%r11, 208(%rsp)
	movl	$771751936, %eax
	movq	%rax, 232(%rsp)
	movl	$11776, %eax
	movq	%rax, 248(%rsp)
	movq	%r13, 256(%rsp)
30:
	movq	%rsi, 264(%rsp)
	movl	$3014656, %eax
	movq	%rax, 240(%rsp)
	movabsq	$197568495616, %rcx
	jmp	9b
31:
	movq	-64(%rsp), %rax
	movzbl	15(%rax), %eax
	shlq	$56, %rax
	movq	%rax, 256(%rsp)
	cmpq	$17, -120(%rsp)
	jb	32f
	movq	-64(%rsp), %rax
	movzbl	16(%rax), %eax
	movb	%al, -121(%rsp)
	jne	50f
	movq	%r13, -104(%rsp)
	movq	%r11, -96(%rsp)
	movl	$771751936, %eax
	movq	%rax, -88(%rsp)
	movl	$11776, %eax
	movq	%rax, -80(%rsp)
	movq	%r13, -72(%rsp)
	movq	%r11, -56(%rsp)
	movl	$771751936, %eax
	movq	%rax, -40(%rsp)
	movl	$11776, %eax
	movq	%rax, -24(%rsp)
	movq	%r13, -16(%rsp)
	movq	%r11, (%rsp)
	movl	$771751936, %eax
	movq	%rax, 16(%rsp)
	movl	$11776, %eax
	movq	%rax, 32(%rsp)
	jmp	33f
32:
	movq	%r13, -104(%rsp)
	movq	%r11, -96(%rsp)
	movl	$771751936, %eax
	movq	%rax, -88(%rsp)
	movl	$11776, %eax
	movq	%rax, -80(%rsp)
	movq	%r13, -72(%rsp)
	movq	%r11, -56(%rsp)
	movl	$771751936, %eax
	movq	%rax, -40(%rsp)
	movl	$11776, %eax
	movq	%rax, -24(%rsp)
	movq	%r13, -16(%rsp)
	movq	%r11, (%rsp)
	movl	$771751936, %eax
	movq	%rax, 16(%rsp)
	movl	$11776, %eax
	movq	%rax, 32(%rsp)
	movb	$46, -121(%rsp)
33:
	movb	$46, -122(%rsp)
	movb	$46, -123(%rsp)
	movb	$46, -124(%rsp)
	movb	$46, -125(%rsp)
	movb	$46, -126(%rsp)
	movb	$46, -127(%rsp)
	movq	%r13, 40(%rsp)
	movq	%r11, 56(%rsp)
	movl	$771751936, %r12d
	movq	%rax, 80(%rsp)
	movq	%r13, 88(%rsp)
	movq	%r11, 104(%rsp)
	movl	$771751936, %r15d
	movq	%rax, 128(%rsp)
	movq	%r13, 136(%rsp)
	movq	%r11, 152(%rsp)
	movl	$771751936, %eax
	movq	%rax, 168(%rsp)
	movl	$11776, %eax
	movq	%rax, 184(%rsp)
	movq	%r13, 192(%rsp)
	movq	%r11, 208(%rsp)
	movl	$771751936, %eax
	movq	%rax, 232(%rsp)
	movl	$11776, %eax
	movq	%rax, 248(%rsp)
34:
	movl	$3014656, %eax
	movq	%rax, 240(%rsp)
	movabsq	$197568495616, %rcx
	movq	%rcx, 224(%rsp)
	movq	%rsi, 200(%rsp)
35:
	movq	%rax, 176(%rsp)
36:
	movq	%rcx, 160(%rsp)
	movq	%rsi, 144(%rsp)
37:
	movq	%rax, 120(%rsp)
38:
	movq	%rcx, 112(%rsp)
	movq	%rsi, 96(%rsp)
39:
	movq	%rax, 72(%rsp)
40:
	movq	%rcx, 64(%rsp)
	movq	%rsi, 48(%rsp)
41:
	movq	%rax, 24(%rsp)
42:
	movq	%rcx, 8(%rsp)
43:
	movq	%rsi, -8(%rsp)
44:
	movq	%rax, -32(%rsp)
45:
	movq	%rcx, -48(%rsp)
46:
	movq	%rsi, %rdi
47:
	movl	$3014656, %r9d
48:
	movq	%rcx, %rdx
	movq	%rsi, %r10
49:
	movq	-120(%rsp), %r14
	cmpq	$78, %r14
	jae	10b
	jmp	2b
50:
	movq	-64(%rsp), %rax
	movzbl	17(%rax), %eax
	shll	$8, %eax
	movq	%rax, 248(%rsp)
	cmpq	$19, -120(%rsp)
	jb	51f
	movq	-64(%rsp), %rax
	movzbl	18(%rax), %eax
	shll	$16, %eax
	movq	%rax, 240(%rsp)
	cmpq	$19, -120(%rsp)
	jne	52f
	movq	%r13, -104(%rsp)
	movq	%r11, -96(%rsp)
	movl	$771751936, %eax
	movq	%rax, -88(%rsp)
	movl	$11776, %eax
	movq	%rax, -80(%rsp)
	movq	%r13, -72(%rsp)
	movq	%r11, -56(%rsp)
	movl	$771751936, %eax
	movq	%rax, -40(%rsp)
	movl	$11776, %eax
	movq	%rax, -24(%rsp)
	movq	%r13, -16(%rsp)
	movq	%r11, (%rsp)
	movl	$771751936, %eax
	movq	%rax, 16(%rsp)
	movl	$11776, %eax
	movq	%rax, 32(%rsp)
	movb	$46, -122(%rsp)
	movb	$46, -123(%rsp)
	movb	$46, -124(%rsp)
	movb	$46, -125(%rsp)
	movb	$46, -126(%rsp)
	movb	$46, -127(%rsp)
	movq	%r13, 40(%rsp)
	movq	%r11, 56(%rsp)
	movl	$771751936, %r12d
	movq	%rax, 80(%rsp)
	movq	%r13, 88(%rsp)
	movq	%r11, 104(%rsp)
	movl	$771751936, %r15d
	movq	%rax, 128(%rsp)
	movq	%r13, 136(%rsp)
	movq	%r11, 152(%rsp)
	movl	$771751936, %eax
	movq	%rax, 168(%rsp)
	movl	$11776, %eax
	movq	%rax, 184(%rsp)
	movq	%r13, 192(%rsp)
	movq	%r11, 208(%rsp)
	movl	$771751936, %eax
	movq	%rax, 232(%rsp)
	jmp	54f
51:
	movq	%r13, -104(%rsp)
	movq	%r11, -96(%rsp)
	movl	$771751936, %eax
	movq	%rax, -88(%rsp)
	movl	$11776, %eax
	movq	%rax, -80(%rsp)
	movq	%r13, -72(%rsp)
	movq	%r11, -56(%rsp)
	movl	$771751936, %eax
	movq	%rax, -40(%rsp)
	movl	$11776, %eax
	movq	%rax, -24(%rsp)
	movq	%r13, -16(%rsp)
	movq	%r11, (%rsp)
	movl	$771751936, %eax
	movq	%rax, 16(%rsp)
	movl	$11776, %eax
	movq	%rax, 32(%rsp)
	movb	$46, -122(%rsp)
	movb	$46, -123(%rsp)
	movb	$46, -124(%rsp)
	movb	$46, -125(%rsp)
	movb	$46, -126(%rsp)
	movb	$46, -127(%rsp)
	movq	%r13, 40(%rsp)
	movq	%r11, 56(%rsp)
	movl	$771751936, %r12d
	movq	%rax, 80(%rsp)
	movq	%r13, 88(%rsp)
	movq	%r11, 104(%rsp)
	movl	$771751936, %r15d
	movq	%rax, 128(%rsp)
	movq	%r13, 136(%rsp)
	movq	%r11, 152(%rsp)
	movl	$771751936, %eax
	movq	%rax, 168(%rsp)
	movl	$11776, %eax
	movq	%rax, 184(%rsp)
	movq	%r13, 192(%rsp)
	movq	%r11, 208(%rsp)
	movl	$771751936, %eax
	movq	%rax, 232(%rsp)
	jmp	34b
52:
	movq	-64(%rsp), %rax
	movzbl	19(%rax), %eax
	shll	$24, %eax
	movq	%rax, 232(%rsp)
	cmpq	$21, -120(%rsp)
	jb	53f
	movq	-64(%rsp), %rax
	movzbl	20(%rax), %eax
	shlq	$32, %rax
	movq	%rax, 224(%rsp)
	cmpq	$21, -120(%rsp)
	jne	55f
	movq	%r13, -104(%rsp)
	movq	%r11, -96(%rsp)
	movl	$771751936, %eax
	movq	%rax, -88(%rsp)
	movl	$11776, %eax
	movq	%rax, -80(%rsp)
	movq	%r13, -72(%rsp)
	movq	%r11, -56(%rsp)
	movl	$771751936, %eax
	movq	%rax, -40(%rsp)
	movl	$11776, %eax
	movq	%rax, -24(%rsp)
	movq	%r13, -16(%rsp)
	movq	%r11, (%rsp)
	movl	$771751936, %eax
	movq	%rax, 16(%rsp)
	movl	$11776, %eax
	movq	%rax, 32(%rsp)
	movb	$46, -122(%rsp)
	movb	$46, -123(%rsp)
	movb	$46, -124(%rsp)
	movb	$46, -125(%rsp)
	movb	$46, -126(%rsp)
	movb	$46, -127(%rsp)
	movq	%r13, 40(%rsp)
	movq	%r11, 56(%rsp)
	movl	$771751936, %r12d
	movq	%rax, 80(%rsp)
	movq	%r13, 88(%rsp)
	movq	%r11, 104(%rsp)
	movl	$771751936, %r15d
	movq	%rax, 128(%rsp)
	movq	%r13, 136(%rsp)
	movq	%r11, 152(%rsp)
	movl	$771751936, %eax
	movq	%rax, 168(%rsp)
	movl	$11776, %eax
	movq	%rax, 184(%rsp)
	movq	%r13, 192(%rsp)
	movq	%r11, 208(%rsp)
	jmp	57f
53:
	movq	%r13, -104(%rsp)
	movq	%r11, -96(%rsp)
	movl	$771751936, %eax
	movq	%rax, -88(%rsp)
	movl	$11776, %eax
	movq	%rax, -80(%rsp)
	movq	%r13, -72(%rsp)
	movq	%r11, -56(%rsp)
	movl	$771751936, %eax
	movq	%rax, -40(%rsp)
	movl	$11776, %eax
	movq	%rax, -24(%rsp)
	movq	%r13, -16(%rsp)
	movq	%r11, (%rsp)
	movl	$771751936, %eax
	movq	%rax, 16(%rsp)
	movl	$11776, %eax
	movq	%rax, 32(%rsp)
	movb	$46, -122(%rsp)
	movb	$46, -123(%rsp)
	movb	$46, -124(%rsp)
	movb	$46, -125(%rsp)
	movb	$46, -126(%rsp)
	movb	$46, -127(%rsp)
	movq	%r13, 40(%rsp)
	movq	%r11, 56(%rsp)
	movl	$771751936, %r12d
	movq	%rax, 80(%rsp)
	movq	%r13, 88(%rsp)
	movq	%r11, 104(%rsp)
	movl	$771751936, %r15d
	movq	%rax, 128(%rsp)
	movq	%r13, 136(%rsp)
	movq	%r11, 152(%rsp)
	movl	$771751936, %eax
	movq	%rax, 168(%rsp)
	movl	$11776, %eax
	movq	%rax, 184(%rsp)
	movq	%r13, 192(%rsp)
	movq	%r11, 208(%rsp)
54:
	movabsq	$197568495616, %rcx
	movq	%rcx, 224(%rsp)
	movq	%rsi, 200(%rsp)
	movl	$3014656, %eax
	jmp	35b
55:
	movq	-64(%rsp), %rax
	movzbl	21(%rax), %eax
	shlq	$40, %rax
	movq	%rax, 208(%rsp)
	cmpq	$23, -120(%rsp)
	jb	56f
	movq	-64(%rsp), %rax
	movzbl	22(%rax), %eax
	shlq	$48, %rax
	movq	%rax, 200(%rsp)
	cmpq	$23, -120(%rsp)
	jne	59f
	movq	%r13, -104(%rsp)
	movq	%r11, -96(%rsp)
	movl	$771751936, %eax
	movq	%rax, -88(%rsp)
	movl	$11776, %eax
	movq	%rax, -80(%rsp)
	movq	%r13, -72(%rsp)
	movq	%r11, -56(%rsp)
	movl	$771751936, %eax
	movq	%rax, -40(%rsp)
	movl	$11776, %eax
	movq	%rax, -24(%rsp)
	movq	%r13, -16(%rsp)
	movq	%r11, (%rsp)
	movl	$771751936, %eax
	movq	%rax, 16(%rsp)
	movl	$11776, %eax
	movq	%rax, 32(%rsp)
	movb	$46, -122(%rsp)
	movb	$46, -123(%rsp)
	movb	$46, -124(%rsp)
	movb	$46, -125(%rsp)
	movb	$46, -126(%rsp)
	movb	$46, -127(%rsp)
	movq	%r13, 40(%rsp)
	movq	%r11, 56(%rsp)
	movl	$771751936, %r12d
	movq	%rax, 80(%rsp)
	movq	%r13, 88(%rsp)
	movq	%r11, 104(%rsp)
	movl	$771751936, %r15d
	movq	%rax, 128(%rsp)
	movq	%r13, 136(%rsp)
	movq	%r11, 152(%rsp)
	movl	$771751936, %eax
	movq	%rax, 168(%rsp)
	movl	$11776, %eax
	movq	%rax, 184(%rsp)
	movq	%r13, 192(%rsp)
	jmp	58f
56:
	movq	%r13, -104(%rsp)
	movq	%r11, -96(%rsp)
	movl	$771751936, %eax
	movq	%rax, -88(%rsp)
	movl	$11776, %eax
	movq	%rax, -80(%rsp)
	movq	%r13, -72(%rsp)
	movq	%r11, -56(%rsp)
	movl	$771751936, %eax
	movq	%rax, -40(%rsp)
	movl	$11776, %eax
	movq	%rax, -24(%rsp)
	movq	%r13, -16(%rsp)
	movq	%r11, (%rsp)
	movl	$771751936, %eax
	movq	%rax, 16(%rsp)
	movl	$11776, %eax
	movq	%rax, 32(%rsp)
	movb	$46, -122(%rsp)
	movb	$46, -123(%rsp)
	movb	$46, -124(%rsp)
	movb	$46, -125(%rsp)
	movb	$46, -126(%rsp)
	movb	$46, -127(%rsp)
	movq	%r13, 40(%rsp)
	movq	%r11, 56(%rsp)
	movl	$771751936, %r12d
	movq	%rax, 80(%rsp)
	movq	%r13, 88(%rsp)
	movq	%r11, 104(%rsp)
	movl	$771751936, %r15d
	movq	%rax, 128(%rsp)
	movq	%r13, 136(%rsp)
	movq	%r11, 152(%rsp)
	movl	$771751936, %eax
	movq	%rax, 168(%rsp)
	movl	$11776, %eax
	movq	%rax, 184(%rsp)
	movq	%r13, 192(%rsp)
57:
	movq	%rsi, 200(%rsp)
58:
	movl	$3014656, %eax
	movq	%rax, 176(%rsp)
	movabsq	$197568495616, %rcx
	jmp	36b
59:
	movq	-64(%rsp), %rax
	movzbl	23(%rax), %eax
	shlq	$56, %rax
	movq	%rax, 192(%rsp)
	cmpq	$25, -120(%rsp)
	jb	60f
	movq	-64(%rsp), %rax
	movzbl	24(%rax), %eax
	movb	%al, -122(%rsp)
	jne	62f
	movq	%r13, -104(%rsp)
	movq	%r11, -96(%rsp)
	movl	$771751936, %eax
	movq	%rax, -88(%rsp)
	movl	$11776, %eax
	movq	%rax, -80(%rsp)
	movq	%r13, -72(%rsp)
	movq	%r11, -56(%rsp)
	movl	$771751936, %eax
	movq	%rax, -40(%rsp)
	movl	$11776, %eax
	movq	%rax, -24(%rsp)
	movq	%r13, -16(%rsp)
	movq	%r11, (%rsp)
	movl	$771751936, %eax
	movq	%rax, 16(%rsp)
	movl	$11776, %eax
	movq	%rax, 32(%rsp)
	movq	%r13, 40(%rsp)
	movb	$46, -123(%rsp)
	movb	$46, -124(%rsp)
	movb	$46, -125(%rsp)
	movb	$46, -126(%rsp)
	movb	$46, -127(%rsp)
	jmp	61f
60:
	movq	%r13, -104(%rsp)
	movq	%r11, -96(%rsp)
	movl	$771751936, %eax
	movq	%rax, -88(%rsp)
	movl	$11776, %eax
	movq	%rax, -80(%rsp)
	movq	%r13, -72(%rsp)
	movq	%r11, -56(%rsp)
	movl	$771751936, %eax
	movq	%rax, -40(%rsp)
	movl	$11776, %eax
	movq	%rax, -24(%rsp)
	movq	%r13, -16(%rsp)
	movq	%r11, (%rsp)
	movl	$771751936, %eax
	movq	%rax, 16(%rsp)
	movl	$11776, %eax
	movq	%rax, 32(%rsp)
	movb	$46, -122(%rsp)
	movb	$46, -123(%rsp)
	movb	$46, -124(%rsp)
	movb	$46, -125(%rsp)
	movb	$46, -126(%rsp)
	movb	$46, -127(%rsp)
	movq	%r13, 40(%rsp)
61:
	movq	%r11, 56(%rsp)
	movl	$771751936, %r12d
	movq	%rax, 80(%rsp)
	movq	%r13, 88(%rsp)
	movq	%r11, 104(%rsp)
	movl	$771751936, %r15d
	movq	%rax, 128(%rsp)
	movq	%r13, 136(%rsp)
	movq	%r11, 152(%rsp)
	movl	$771751936, %eax
	movq	%rax, 168(%rsp)
	movl	$11776, %eax
	movq	%rax, 184(%rsp)
	jmp	58b
62:
	movq	-64(%rsp), %rax
	movzbl	25(%rax), %eax
	shll	$8, %eax
	movq	%rax, 184(%rsp)
	cmpq	$27, -120(%rsp)
	jb	63f
	movq	-64(%rsp), %rax
	movzbl	26(%rax), %eax
	shll	$16, %eax
	movq	%rax, 176(%rsp)
	cmpq	$27, -120(%rsp)
	jne	64f
	movq	%r13, -104(%rsp)
	movq	%r11, -96(%rsp)
	movl	$771751936, %eax
	movq	%rax, -88(%rsp)
	movl	$11776, %eax
	movq	%rax, -80(%rsp)
	movq	%r13, -72(%rsp)
	movq	%r11, -56(%rsp)
	movl	$771751936, %eax
	movq	%rax, -40(%rsp)
	movl	$11776, %eax
	movq	%rax, -24(%rsp)
	movq	%r13, -16(%rsp)
	movq	%r11, (%rsp)
	movl	$771751936, %eax
	movq	%rax, 16(%rsp)
	movl	$11776, %eax
	movq	%rax, 32(%rsp)
	movq	%r13, 40(%rsp)
	movb	$46, -123(%rsp)
	movb	$46, -124(%rsp)
	movb	$46, -125(%rsp)
	movb	$46, -126(%rsp)
	movb	$46, -127(%rsp)
	movq	%r11, 56(%rsp)
	movl	$771751936, %r12d
	movq	%rax, 80(%rsp)
	movq	%r13, 88(%rsp)
	movq	%r11, 104(%rsp)
	movl	$771751936, %r15d
	movq	%rax, 128(%rsp)
	movq	%r13, 136(%rsp)
	movq	%r11, 152(%rsp)
	movl	$771751936, %eax
	movq	%rax, 168(%rsp)
	jmp	66f
63:
	movq	%r13, -104(%rsp)
	movq	%r11, -96(%rsp)
	movl	$771751936, %eax
	movq	%rax, -88(%rsp)
	movl	$11776, %eax
	movq	%rax, -80(%rsp)
	movq	%r13, -72(%rsp)
	movq	%r11, -56(%rsp)
	movl	$771751936, %eax
	movq	%rax, -40(%rsp)
	movl	$11776, %eax
	movq	%rax, -24(%rsp)
	movq	%r13, -16(%rsp)
	movq	%r11, (%rsp)
	movl	$771751936, %eax
	movq	%rax, 16(%rsp)
	movl	$11776, %eax
	movq	%rax, 32(%rsp)
	movq	%r13, 40(%rsp)
	movb	$46, -123(%rsp)
	movb	$46, -124(%rsp)
	movb	$46, -125(%rsp)
	movb	$46, -126(%rsp)
	movb	$46, -127(%rsp)
	movq	%r11, 56(%rsp)
	movl	$771751936, %r12d
	movq	%rax, 80(%rsp)
	movq	%r13, 88(%rsp)
	movq	%r11, 104(%rsp)
	movl	$771751936, %r15d
	movq	%rax, 128(%rsp)
	movq	%r13, 136(%rsp)
	movq	%r11, 152(%rsp)
	movl	$771751936, %eax
	movq	%rax, 168(%rsp)
	jmp	58b
64:
	movq	-64(%rsp), %rax
	movzbl	27(%rax), %eax
	shll	$24, %eax
	movq	%rax, 168(%rsp)
	cmpq	$29, -120(%rsp)
	jb	65f
	movq	-64(%rsp), %rax
	movzbl	28(%rax), %eax
	shlq	$32, %rax
	movq	%rax, 160(%rsp)
	cmpq	$29, -120(%rsp)
	jne	67f
	movq	%r13, -104(%rsp)
	movq	%r11, -96(%rsp)
	movl	$771751936, %eax
	movq	%rax, -88(%rsp)
	movl	$11776, %eax
	movq	%rax, -80(%rsp)
	movq	%r13, -72(%rsp)
	movq	%r11, -56(%rsp)
	movl	$771751936, %eax
	movq	%rax, -40(%rsp)
	movl	$11776, %eax
	movq	%rax, -24(%rsp)
	movq	%r13, -16(%rsp)
	movq	%r11, (%rsp)
	movl	$771751936, %eax
	movq	%rax, 16(%rsp)
	movl	$11776, %eax
	movq	%rax, 32(%rsp)
	movq	%r13, 40(%rsp)
	movb	$46, -123(%rsp)
	movb	$46, -124(%rsp)
	movb	$46, -125(%rsp)
	movb	$46, -126(%rsp)
	movb	$46, -127(%rsp)
	movq	%r11, 56(%rsp)
	movl	$771751936, %r12d
	movq	%rax, 80(%rsp)
	movq	%r13, 88(%rsp)
	movq	%r11, 104(%rsp)
	movl	$771751936, %r15d
	movq	%rax, 128(%rsp)
	movq	%r13, 136(%rsp)
	movq	%r11, 152(%rsp)
	jmp	69f
65:
	movq	%r13, -104(%rsp)
	movq	%r11, -96(%rsp)
	movl	$771751936, %eax
	movq	%rax, -88(%rsp)
	movl	$11776, %eax
	movq	%rax, -80(%rsp)
	movq	%r13, -72(%rsp)
	movq	%r11, -56(%rsp)
	movl	$771751936, %eax
	movq	%rax, -40(%rsp)
	movl	$11776, %eax
	movq	%rax, -24(%rsp)
	movq	%r13, -16(%rsp)
	movq	%r11, (%rsp)
	movl	$771751936, %eax
	movq	%rax, 16(%rsp)
	movl	$11776, %eax
	movq	%rax, 32(%rsp)
	movq	%r13, 40(%rsp)
	movb	$46, -123(%rsp)
	movb	$46, -124(%rsp)
	movb	$46, -125(%rsp)
	movb	$46, -126(%rsp)
	movb	$46, -127(%rsp)
	movq	%r11, 56(%rsp)
	movl	$771751936, %r12d
	movq	%rax, 80(%rsp)
	movq	%r13, 88(%rsp)
	movq	%r11, 104(%rsp)
	movl	$771751936, %r15d
	movq	%rax, 128(%rsp)
	movq	%r13, 136(%rsp)
	movq	%r11, 152(%rsp)
66:
	movabsq	$197568495616, %rcx
	movq	%rcx, 160(%rsp)
	movq	%rsi, 144(%rsp)
	movl	$3014656, %eax
	jmp	37b
67:
	movq	-64(%rsp), %rax
	movzbl	29(%rax), %eax
	shlq	$40, %rax
	movq	%rax, 152(%rsp)
	cmpq	$31, -120(%rsp)
	jb	68f
	movq	-64(%rsp), %rax
	movzbl	30(%rax), %eax
	shlq	$48, %rax
	movq	%rax, 144(%rsp)
	cmpq	$31, -120(%rsp)
	jne	71f
	movq	%r13, -104(%rsp)
	movq	%r11, -96(%rsp)
	movl	$771751936, %eax
	movq	%rax, -88(%rsp)
	movl	$11776, %eax
	movq	%rax, -80(%rsp)
	movq	%r13, -72(%rsp)
	movq	%r11, -56(%rsp)
	movl	$771751936, %eax
	movq	%rax, -40(%rsp)
	movl	$11776, %eax
	movq	%rax, -24(%rsp)
	movq	%r13, -16(%rsp)
	movq	%r11, (%rsp)
	movl	$771751936, %eax
	movq	%rax, 16(%rsp)
	movl	$11776, %eax
	movq	%rax, 32(%rsp)
	movq	%r13, 40(%rsp)
	movb	$46, -123(%rsp)
	movb	$46, -124(%rsp)
	movb	$46, -125(%rsp)
	movb	$46, -126(%rsp)
	movb	$46, -127(%rsp)
	movq	%r11, 56(%rsp)
	movl	$771751936, %r12d
	movq	%rax, 80(%rsp)
	movq	%r13, 88(%rsp)
	movq	%r11, 104(%rsp)
	movl	$771751936, %r15d
	movq	%rax, 128(%rsp)
	movq	%r13, 136(%rsp)
	jmp	70f
68:
	movq	%r13, -104(%rsp)
	movq	%r11, -96(%rsp)
	movl	$771751936, %eax
	movq	%rax, -88(%rsp)
	movl	$11776, %eax
	movq	%rax, -80(%rsp)
	movq	%r13, -72(%rsp)
	movq	%r11, -56(%rsp)
	movl	$771751936, %eax
	movq	%rax, -40(%rsp)
	movl	$11776, %eax
	movq	%rax, -24(%rsp)
	movq	%r13, -16(%rsp)
	movq	%r11, (%rsp)
	movl	$771751936, %eax
	movq	%rax, 16(%rsp)
	movl	$11776, %eax
	movq	%rax, 32(%rsp)
	movq	%r13, 40(%rsp)
	movb	$46, -123(%rsp)
	movb	$46, -124(%rsp)
	movb	$46, -125(%rsp)
	movb	$46, -126(%rsp)
	movb	$46, -127(%rsp)
	movq	%r11, 56(%rsp)
	movl	$771751936, %r12d
	movq	%rax, 80(%rsp)
	movq	%r13, 88(%rsp)
	movq	%r11, 104(%rsp)
	movl	$771751936, %r15d
	movq	%rax, 128(%rsp)
	movq	%r13, 136(%rsp)
69:
	movq	%rsi, 144(%rsp)
70:
	movl	$3014656, %eax
	movq	%rax, 120(%rsp)
	movabsq	$197568495616, %rcx
	jmp	38b
71:
	movq	-64(%rsp), %rax
	movzbl	31(%rax), %eax
	shlq	$56, %rax
	movq	%rax, 136(%rsp)
	cmpq	$33, -120(%rsp)
	jb	72f
	movq	-64(%rsp), %rax
	movzbl	32(%rax), %eax
	movb	%al, -123(%rsp)
	jne	74f
	movq	%r13, -104(%rsp)
	movq	%r11, -96(%rsp)
	movl	$771751936, %eax
	movq	%rax, -88(%rsp)
	movl	$11776, %eax
	movq	%rax, -80(%rsp)
	movq	%r13, -72(%rsp)
	movq	%r11, -56(%rsp)
	movl	$771751936, %eax
	movq	%rax, -40(%rsp)
	movl	$11776, %eax
	movq	%rax, -24(%rsp)
	movq	%r13, -16(%rsp)
	movq	%r11, (%rsp)
	movl	$771751936, %eax
	movq	%rax, 16(%rsp)
	movl	$11776, %eax
	movq	%rax, 32(%rsp)
	movq	%r13, 40(%rsp)
	jmp	73f
72:
	movq	%r13, -104(%rsp)
	movq	%r11, -96(%rsp)
	movl	$771751936, %eax
	movq	%rax, -88(%rsp)
	movl	$11776, %eax
	movq	%rax, -80(%rsp)
	movq	%r13, -72(%rsp)
	movq	%r11, -56(%rsp)
	movl	$771751936, %eax
	movq	%rax, -40(%rsp)
	movl	$11776, %eax
	movq	%rax, -24(%rsp)
	movq	%r13, -16(%rsp)
	movq	%r11, (%rsp)
	movl	$771751936, %eax
	movq	%rax, 16(%rsp)
	movl	$11776, %eax
	movq	%rax, 32(%rsp)
	movq	%r13, 40(%rsp)
	movb	$46, -123(%rsp)
73:
	movb	$46, -124(%rsp)
	movb	$46, -125(%rsp)
	movb	$46, -126(%rsp)
	movb	$46, -127(%rsp)
	movq	%r11, 56(%rsp)
	movl	$771751936, %r12d
	movq	%rax, 80(%rsp)
	movq	%r13, 88(%rsp)
	movq	%r11, 104(%rsp)
	movl	$771751936, %r15d
	movq	%rax, 128(%rsp)
	jmp	70b
74:
	movq	-64(%rsp), %rax
	movzbl	33(%rax), %eax
	shll	$8, %eax
	movq	%rax, 128(%rsp)
	cmpq	$35, -120(%rsp)
	jb	75f
	movq	-64(%rsp), %rax
	movzbl	34(%rax), %eax
	shll	$16, %eax
	movq	%rax, 120(%rsp)
	cmpq	$35, -120(%rsp)
	jne	76f
	movq	%r13, -104(%rsp)
	movq	%r11, -96(%rsp)
	movl	$771751936, %eax
	movq	%rax, -88(%rsp)
	movl	$11776, %eax
	movq	%rax, -80(%rsp)
	movq	%r13, -72(%rsp)
	movq	%r11, -56(%rsp)
	movl	$771751936, %eax
	movq	%rax, -40(%rsp)
	movl	$11776, %eax
	movq	%rax, -24(%rsp)
	movq	%r13, -16(%rsp)
	movq	%r11, (%rsp)
	movl	$771751936, %eax
	movq	%rax, 16(%rsp)
	movl	$11776, %eax
	movq	%rax, 32(%rsp)
	movq	%r13, 40(%rsp)
	movb	$46, -124(%rsp)
	movb	$46, -125(%rsp)
	movb	$46, -126(%rsp)
	movb	$46, -127(%rsp)
	movq	%r11, 56(%rsp)
	movl	$771751936, %r12d
	movq	%rax, 80(%rsp)
	movq	%r13, 88(%rsp)
	movq	%r11, 104(%rsp)
	movl	$771751936, %r15d
	jmp	78f
75:
	movq	%r13, -104(%rsp)
	movq	%r11, -96(%rsp)
	movl	$771751936, %eax
	movq	%rax, -88(%rsp)
	movl	$11776, %eax
	movq	%rax, -80(%rsp)
	movq	%r13, -72(%rsp)
	movq	%r11, -56(%rsp)
	movl	$771751936, %eax
	movq	%rax, -40(%rsp)
	movl	$11776, %eax
	movq	%rax, -24(%rsp)
	movq	%r13, -16(%rsp)
	movq	%r11, (%rsp)
	movl	$771751936, %eax
	movq	%rax, 16(%rsp)
	movl	$11776, %eax
	movq	%rax, 32(%rsp)
	movq	%r13, 40(%rsp)
	movb	$46, -124(%rsp)
	movb	$46, -125(%rsp)
	movb	$46, -126(%rsp)
	movb	$46, -127(%rsp)
	movq	%r11, 56(%rsp)
	movl	$771751936, %r12d
	movq	%rax, 80(%rsp)
	movq	%r13, 88(%rsp)
	movq	%r11, 104(%rsp)
	movl	$771751936, %r15d
	jmp	70b
76:
	movq	-64(%rsp), %rax
	movzbl	35(%rax), %r15d
	shll	$24, %r15d
	cmpq	$37, -120(%rsp)
	jb	77f
	movq	-64(%rsp), %rax
	movzbl	36(%rax), %eax
	shlq	$32, %rax
	movq	%rax, 112(%rsp)
	cmpq	$37, -120(%rsp)
	jne	79f
	movq	%r13, -104(%rsp)
	movq	%r11, -96(%rsp)
	movl	$771751936, %eax
	movq	%rax, -88(%rsp)
	movl	$11776, %eax
	movq	%rax, -80(%rsp)
	movq	%r13, -72(%rsp)
	movq	%r11, -56(%rsp)
	movl	$771751936, %eax
	movq	%rax, -40(%rsp)
	movl	$11776, %eax
	movq	%rax, -24(%rsp)
	movq	%r13, -16(%rsp)
	movq	%r11, (%rsp)
	movl	$771751936, %eax
	movq	%rax, 16(%rsp)
	movl	$11776, %eax
	movq	%rax, 32(%rsp)
	movq	%r13, 40(%rsp)
	movb	$46, -124(%rsp)
	movb	$46, -125(%rsp)
	movb	$46, -126(%rsp)
	movb	$46, -127(%rsp)
	movq	%r11, 56(%rsp)
	movl	$771751936, %r12d
	movq	%rax, 80(%rsp)
	movq	%r13, 88(%rsp)
	movq	%r11, 104(%rsp)
	jmp	81f
77:
	movq	%r13, -104(%rsp)
	movq	%r11, -96(%rsp)
	movl	$771751936, %eax
	movq	%rax, -88(%rsp)
	movl	$11776, %eax
	movq	%rax, -80(%rsp)
	movq	%r13, -72(%rsp)
	movq	%r11, -56(%rsp)
	movl	$771751936, %eax
	movq	%rax, -40(%rsp)
	movl	$11776, %eax
	movq	%rax, -24(%rsp)
	movq	%r13, -16(%rsp)
	movq	%r11, (%rsp)
	movl	$771751936, %eax
	movq	%rax, 16(%rsp)
	movl	$11776, %eax
	movq	%rax, 32(%rsp)
	movq	%r13, 40(%rsp)
	movb	$46, -124(%rsp)
	movb	$46, -125(%rsp)
	movb	$46, -126(%rsp)
	movb	$46, -127(%rsp)
	movq	%r11, 56(%rsp)
	movl	$771751936, %r12d
	movq	%rax, 80(%rsp)
	movq	%r13, 88(%rsp)
	movq	%r11, 104(%rsp)
78:
	movabsq	$197568495616, %rcx
	movq	%rcx, 112(%rsp)
	movq	%rsi, 96(%rsp)
	movl	$3014656, %eax
	jmp	39b
79:
	movq	-64(%rsp), %rax
	movzbl	37(%rax), %eax
	shlq	$40, %rax
	movq	%rax, 104(%rsp)
	cmpq	$39, -120(%rsp)
	jb	80f
	movq	-64(%rsp), %rax
	movzbl	38(%rax), %eax
	shlq	$48, %rax
	movq	%rax, 96(%rsp)
	cmpq	$39, -120(%rsp)
	jne	83f
	movq	%r13, -104(%rsp)
	movq	%r11, -96(%rsp)
	movl	$771751936, %eax
	movq	%rax, -88(%rsp)
	movl	$11776, %eax
	movq	%rax, -80(%rsp)
	movq	%r13, -72(%rsp)
	movq	%r11, -56(%rsp)
	movl	$771751936, %eax
	movq	%rax, -40(%rsp)
	movl	$11776, %eax
	movq	%rax, -24(%rsp)
	movq	%r13, -16(%rsp)
	movq	%r11, (%rsp)
	movl	$771751936, %eax
	movq	%rax, 16(%rsp)
	movl	$11776, %eax
	movq	%rax, 32(%rsp)
	movq	%r13, 40(%rsp)
	movb	$46, -124(%rsp)
	movb	$46, -125(%rsp)
	movb	$46, -126(%rsp)
	movb	$46, -127(%rsp)
	movq	%r11, 56(%rsp)
	movl	$771751936, %r12d
	movq	%rax, 80(%rsp)
	movq	%r13, 88(%rsp)
	jmp	82f
80:
	movq	%r13, -104(%rsp)
	movq	%r11, -96(%rsp)
	movl	$771751936, %eax
	movq	%rax, -88(%rsp)
	movl	$11776, %eax
	movq	%rax, -80(%rsp)
	movq	%r13, -72(%rsp)
	movq	%r11, -56(%rsp)
	movl	$771751936, %eax
	movq	%rax, -40(%rsp)
	movl	$11776, %eax
	movq	%rax, -24(%rsp)
	movq	%r13, -16(%rsp)
	movq	%r11, (%rsp)
	movl	$771751936, %eax
	movq	%rax, 16(%rsp)
	movl	$11776, %eax
	movq	%rax, 32(%rsp)
	movq	%r13, 40(%rsp)
	movb	$46, -124(%rsp)
	movb	$46, -125(%rsp)
	movb	$46, -126(%rsp)
	movb	$46, -127(%rsp)
	movq	%r11, 56(%rsp)
	movl	$771751936, %r12d
	movq	%rax, 80(%rsp)
	movq	%r13, 88(%rsp)
81:
	movq	%rsi, 96(%rsp)
82:
	movl	$3014656, %eax
	movq	%rax, 72(%rsp)
	movabsq	$197568495616, %rcx
	jmp	40b
83:
	movq	-64(%rsp), %rax
	movzbl	39(%rax), %eax
	shlq	$56, %rax
	movq	%rax, 88(%rsp)
	cmpq	$41, -120(%rsp)
	jb	84f
	movq	-64(%rsp), %rax
	movzbl	40(%rax), %eax
	movb	%al, -124(%rsp)
	jne	86f
	movq	%r13, -104(%rsp)
	movq	%r11, -96(%rsp)
	movl	$771751936, %eax
	movq	%rax, -88(%rsp)
	movl	$11776, %eax
	movq	%rax, -80(%rsp)
	movq	%r13, -72(%rsp)
	movq	%r11, -56(%rsp)
	movl	$771751936, %eax
	movq	%rax, -40(%rsp)
	movl	$11776, %eax
	movq	%rax, -24(%rsp)
	movq	%r13, -16(%rsp)
	movq	%r11, (%rsp)
	movl	$771751936, %eax
	movq	%rax, 16(%rsp)
	movl	$11776, %eax
	movq	%rax, 32(%rsp)
	movq	%r13, 40(%rsp)
	movq	%r11, 56(%rsp)
	movb	$46, -125(%rsp)
	movb	$46, -126(%rsp)
	movb	$46, -127(%rsp)
	jmp	85f
84:
	movq	%r13, -104(%rsp)
	movq	%r11, -96(%rsp)
	movl	$771751936, %eax
	movq	%rax, -88(%rsp)
	movl	$11776, %eax
	movq	%rax, -80(%rsp)
	movq	%r13, -72(%rsp)
	movq	%r11, -56(%rsp)
	movl	$771751936, %eax
	movq	%rax, -40(%rsp)
	movl	$11776, %eax
	movq	%rax, -24(%rsp)
	movq	%r13, -16(%rsp)
	movq	%r11, (%rsp)
	movl	$771751936, %eax
	movq	%rax, 16(%rsp)
	movl	$11776, %eax
	movq	%rax, 32(%rsp)
	movq	%r13, 40(%rsp)
	movb	$46, -124(%rsp)
	movb	$46, -125(%rsp)
	movb	$46, -126(%rsp)
	movb	$46, -127(%rsp)
	movq	%r11, 56(%rsp)
85:
	movl	$771751936, %r12d
	movq	%rax, 80(%rsp)
	jmp	82b
86:
	movq	-64(%rsp), %rax
	movzbl	41(%rax), %eax
	shll	$8, %eax
	movq	%rax, 80(%rsp)
	cmpq	$43, -120(%rsp)
	jb	87f
	movq	-64(%rsp), %rax
	movzbl	42(%rax), %eax
	shll	$16, %eax
	movq	%rax, 72(%rsp)
	cmpq	$43, -120(%rsp)
	jne	88f
	movq	%r13, -104(%rsp)
	movq	%r11, -96(%rsp)
	movl	$771751936, %eax
	movq	%rax, -88(%rsp)
	movl	$11776, %eax
	movq	%rax, -80(%rsp)
	movq	%r13, -72(%rsp)
	movq	%r11, -56(%rsp)
	movl	$771751936, %eax
	movq	%rax, -40(%rsp)
	movl	$11776, %eax
	movq	%rax, -24(%rsp)
	movq	%r13, -16(%rsp)
	movq	%r11, (%rsp)
	movl	$771751936, %eax
	movq	%rax, 16(%rsp)
	movl	$11776, %eax
	movq	%rax, 32(%rsp)
	movq	%r13, 40(%rsp)
	movq	%r11, 56(%rsp)
	movb	$46, -125(%rsp)
	movb	$46, -126(%rsp)
	movb	$46, -127(%rsp)
	movl	$771751936, %r12d
	jmp	90f
87:
	movq	%r13, -104(%rsp)
	movq	%r11, -96(%rsp)
	movl	$771751936, %eax
	movq	%rax, -88(%rsp)
	movl	$11776, %eax
	movq	%rax, -80(%rsp)
	movq	%r13, -72(%rsp)
	movq	%r11, -56(%rsp)
	movl	$771751936, %eax
	movq	%rax, -40(%rsp)
	movl	$11776, %eax
	movq	%rax, -24(%rsp)
	movq	%r13, -16(%rsp)
	movq	%r11, (%rsp)
	movl	$771751936, %eax
	movq	%rax, 16(%rsp)
	movl	$11776, %eax
	movq	%rax, 32(%rsp)
	movq	%r13, 40(%rsp)
	movq	%r11, 56(%rsp)
	movb	$46, -125(%rsp)
	movb	$46, -126(%rsp)
	movb	$46, -127(%rsp)
	movl	$771751936, %r12d
	jmp	82b
88:
	movq	-64(%rsp), %rax
	movzbl	43(%rax), %r12d
	shll	$24, %r12d
	cmpq	$45, -120(%rsp)
	jb	89f
	movq	-64(%rsp), %rax
	movzbl	44(%rax), %eax
	shlq	$32, %rax
	movq	%rax, 64(%rsp)
	cmpq	$45, -120(%rsp)
	jne	91f
	movq	%r13, -104(%rsp)
	movq	%r11, -96(%rsp)
	movl	$771751936, %eax
	movq	%rax, -88(%rsp)
	movl	$11776, %eax
	movq	%rax, -80(%rsp)
	movq	%r13, -72(%rsp)
	movq	%r11, -56(%rsp)
	movl	$771751936, %eax
	movq	%rax, -40(%rsp)
	movl	$11776, %eax
	movq	%rax, -24(%rsp)
	movq	%r13, -16(%rsp)
	movq	%r11, (%rsp)
	movl	$771751936, %eax
	movq	%rax, 16(%rsp)
	movl	$11776, %eax
	movq	%rax, 32(%rsp)
	movq	%r13, 40(%rsp)
	movq	%r11, 56(%rsp)
	movb	$46, -125(%rsp)
	movb	$46, -126(%rsp)
	movb	$46, -127(%rsp)
	movq	%rsi, 48(%rsp)
	jmp	93f
89:
	movq	%r13, -104(%rsp)
	movq	%r11, -96(%rsp)
	movl	$771751936, %eax
	movq	%rax, -88(%rsp)
	movl	$11776, %eax
	movq	%rax, -80(%rsp)
	movq	%r13, -72(%rsp)
	movq	%r11, -56(%rsp)
	movl	$771751936, %eax
	movq	%rax, -40(%rsp)
	movl	$11776, %eax
	movq	%rax, -24(%rsp)
	movq	%r13, -16(%rsp)
	movq	%r11, (%rsp)
	movl	$771751936, %eax
	movq	%rax, 16(%rsp)
	movl	$11776, %eax
	movq	%rax, 32(%rsp)
	movq	%r13, 40(%rsp)
	movq	%r11, 56(%rsp)
	movb	$46, -125(%rsp)
	movb	$46, -126(%rsp)
	movb	$46, -127(%rsp)
90:
	movabsq	$197568495616, %rcx
	movq	%rcx, 64(%rsp)
	movq	%rsi, 48(%rsp)
	movl	$3014656, %eax
	jmp	41b
91:
	movq	-64(%rsp), %rax
	movzbl	45(%rax), %eax
	shlq	$40, %rax
	movq	%rax, 56(%rsp)
	cmpq	$47, -120(%rsp)
	jb	92f
	movq	-64(%rsp), %rax
	movzbl	46(%rax), %eax
	shlq	$48, %rax
	movq	%rax, 48(%rsp)
	cmpq	$47, -120(%rsp)
	jne	95f
	movq	%r13, -104(%rsp)
	movq	%r11, -96(%rsp)
	movl	$771751936, %eax
	movq	%rax, -88(%rsp)
	movl	$11776, %eax
	movq	%rax, -80(%rsp)
	movq	%r13, -72(%rsp)
	movq	%r11, -56(%rsp)
	movl	$771751936, %eax
	movq	%rax, -40(%rsp)
	movl	$11776, %eax
	movq	%rax, -24(%rsp)
	movq	%r13, -16(%rsp)
	movq	%r11, (%rsp)
	movl	$771751936, %eax
	movq	%rax, 16(%rsp)
	movl	$11776, %eax
	movq	%rax, 32(%rsp)
	movq	%r13, 40(%rsp)
	movb	$46, -125(%rsp)
	movl	$3014656, %eax
	movq	%rax, 24(%rsp)
	movb	$46, -126(%rsp)
	movb	$46, -127(%rsp)
	jmp	94f
92:
	movq	%r13, -104(%rsp)
	movq	%r11, -96(%rsp)
	movl	$771751936, %eax
	movq	%rax, -88(%rsp)
	movl	$11776, %eax
	movq	%rax, -80(%rsp)
	movq	%r13, -72(%rsp)
	movq	%r11, -56(%rsp)
	movl	$771751936, %eax
	movq	%rax, -40(%rsp)
	movl	$11776, %eax
	movq	%rax, -24(%rsp)
	movq	%r13, -16(%rsp)
	movq	%r11, (%rsp)
	movl	$771751936, %eax
	movq	%rax, 16(%rsp)
	movl	$11776, %eax
	movq	%rax, 32(%rsp)
	movq	%r13, 40(%rsp)
	movq	%rsi, 48(%rsp)
	movb	$46, -125(%rsp)
	movb	$46, -126(%rsp)
	movb	$46, -127(%rsp)
93:
	movl	$3014656, %eax
	movq	%rax, 24(%rsp)
94:
	movabsq	$197568495616, %rcx
	jmp	42b
95:
	movq	-64(%rsp), %rax
	movzbl	47(%rax), %eax
	shlq	$56, %rax
	movq	%rax, 40(%rsp)
	cmpq	$49, -120(%rsp)
	jb	96f
	movq	-64(%rsp), %rax
	movzbl	48(%rax), %eax
	movb	%al, -125(%rsp)
	jne	98f
	movq	%r13, -104(%rsp)
	movq	%r11, -96(%rsp)
	movl	$771751936, %eax
	movq	%rax, -88(%rsp)
	movl	$11776, %eax
	movq	%rax, -80(%rsp)
	movq	%r13, -72(%rsp)
	movq	%r11, -56(%rsp)
	movl	$771751936, %eax
	movq	%rax, -40(%rsp)
	movl	$11776, %eax
	movq	%rax, -24(%rsp)
	movq	%r13, -16(%rsp)
	movq	%r11, (%rsp)
	movl	$771751936, %eax
	movq	%rax, 16(%rsp)
	movl	$11776, %eax
	movq	%rax, 32(%rsp)
	jmp	97f
96:
	movq	%r13, -104(%rsp)
	movq	%r11, -96(%rsp)
	movl	$771751936, %eax
	movq	%rax, -88(%rsp)
	movl	$11776, %eax
	movq	%rax, -80(%rsp)
	movq	%r13, -72(%rsp)
	movq	%r11, -56(%rsp)
	movl	$771751936, %eax
	movq	%rax, -40(%rsp)
	movl	$11776, %eax
	movq	%rax, -24(%rsp)
	movq	%r13, -16(%rsp)
	movq	%r11, (%rsp)
	movl	$771751936, %eax
	movq	%rax, 16(%rsp)
	movl	$11776, %eax
	movq	%rax, 32(%rsp)
	movb	$46, -125(%rsp)
97:
	movl	$3014656, %eax
	movq	%rax, 24(%rsp)
	movabsq	$197568495616, %rcx
	movq	%rcx, 8(%rsp)
	movb	$46, -126(%rsp)
	movb	$46, -127(%rsp)
	jmp	43b
98:
	movq	-64(%rsp), %rax
	movzbl	49(%rax), %eax
	shll	$8, %eax
	movq	%rax, 32(%rsp)
	cmpq	$51, -120(%rsp)
	jb	99f
	movq	-64(%rsp), %rax
	movzbl	50(%rax), %eax
	shll	$16, %eax
	movq	%rax, 24(%rsp)
	cmpq	$51, -120(%rsp)
	jne	100f
	movq	%r13, -104(%rsp)
	movq	%r11, -96(%rsp)
	movl	$771751936, %eax
	movq	%rax, -88(%rsp)
	movl	$11776, %eax
	movq	%rax, -80(%rsp)
	movq	%r13, -72(%rsp)
	movq	%r11, -56(%rsp)
	movl	$771751936, %eax
	movq	%rax, -40(%rsp)
	movl	$11776, %eax
	movq	%rax, -24(%rsp)
	movq	%r13, -16(%rsp)
	movq	%r11, (%rsp)
	movl	$771751936, %eax
	movq	%rax, 16(%rsp)
	movabsq	$197568495616, %rcx
	movq	%rcx, 8(%rsp)
	movq	%rsi, -8(%rsp)
	movb	$46, -126(%rsp)
	movl	$3014656, %eax
	movq	%rax, -32(%rsp)
	movb	$46, -127(%rsp)
	jmp	45b
99:
	movq	%r13, -104(%rsp)
	movq	%r11, -96(%rsp)
	movl	$771751936, %eax
	movq	%rax, -88(%rsp)
	movl	$11776, %eax
	movq	%rax, -80(%rsp)
	movq	%r13, -72(%rsp)
	movq	%r11, -56(%rsp)
	movl	$771751936, %eax
	movq	%rax, -40(%rsp)
	movl	$11776, %eax
	movq	%rax, -24(%rsp)
	movq	%r13, -16(%rsp)
	movq	%r11, (%rsp)
	movl	$771751936, %eax
	movq	%rax, 16(%rsp)
	movl	$3014656, %eax
	movq	%rax, 24(%rsp)
	movabsq	$197568495616, %rcx
	movq	%rcx, 8(%rsp)
	movq	%rsi, -8(%rsp)
	movb	$46, -126(%rsp)
	movb	$46, -127(%rsp)
	jmp	44b
100:
	movq	-64(%rsp), %rax
	movzbl	51(%rax), %eax
	shll	$24, %eax
	movq	%rax, 16(%rsp)
	cmpq	$53, -120(%rsp)
	jb	101f
	movq	-64(%rsp), %rax
	movzbl	52(%rax), %eax
	shlq	$32, %rax
	movq	%rax, 8(%rsp)
	cmpq	$53, -120(%rsp)
	jne	102f
	movq	%r13, -104(%rsp)
	movq	%r11, -96(%rsp)
	movl	$771751936, %eax
	movq	%rax, -88(%rsp)
	movl	$11776, %eax
	movq	%rax, -80(%rsp)
	movq	%r13, -72(%rsp)
	movq	%r11, -56(%rsp)
	movl	$771751936, %eax
	movq	%rax, -40(%rsp)
	movl	$11776, %eax
	movq	%rax, -24(%rsp)
	movq	%r13, -16(%rsp)
	movq	%r11, (%rsp)
	jmp	104f
101:
	movq	%r13, -104(%rsp)
	movq	%r11, -96(%rsp)
	movl	$771751936, %eax
	movq	%rax, -88(%rsp)
	movl	$11776, %eax
	movq	%rax, -80(%rsp)
	movq	%r13, -72(%rsp)
	movq	%r11, -56(%rsp)
	movl	$771751936, %eax
	movq	%rax, -40(%rsp)
	movl	$11776, %eax
	movq	%rax, -24(%rsp)
	movq	%r13, -16(%rsp)
	movq	%r11, (%rsp)
	movabsq	$197568495616, %rcx
	movq	%rcx, 8(%rsp)
	movq	%rsi, -8(%rsp)
	movb	$46, -126(%rsp)
	movl	$3014656, %eax
	movq	%rax, -32(%rsp)
	movq	%rcx, -48(%rsp)
	movb	$46, -127(%rsp)
	jmp	46b
102:
	movq	-64(%rsp), %rax
	movzbl	53(%rax), %eax
	shlq	$40, %rax
	movq	%rax, (%rsp)
	cmpq	$55, -120(%rsp)
	jb	103f
	movq	-64(%rsp), %rax
	movzbl	54(%rax), %eax
	shlq	$48, %rax
	movq	%rax, -8(%rsp)
	cmpq	$55, -120(%rsp)
	jne	105f
	movq	%r13, -104(%rsp)
	movq	%r11, -96(%rsp)
	movl	$771751936, %eax
	movq	%rax, -88(%rsp)
	movl	$11776, %eax
	movq	%rax, -80(%rsp)
	movq	%r13, -72(%rsp)
	movq	%r11, -56(%rsp)
	movl	$771751936, %eax
	movq	%rax, -40(%rsp)
	movl	$11776, %eax
	movq	%rax, -24(%rsp)
	movq	%r13, -16(%rsp)
	jmp	107f
103:
	movq	%r13, -104(%rsp)
	movq	%r11, -96(%rsp)
	movl	$771751936, %eax
	movq	%rax, -88(%rsp)
	movl	$11776, %eax
	movq	%rax, -80(%rsp)
	movq	%r13, -72(%rsp)
	movq	%r11, -56(%rsp)
	movl	$771751936, %eax
	movq	%rax, -40(%rsp)
	movl	$11776, %eax
	movq	%rax, -24(%rsp)
	movq	%r13, -16(%rsp)
104:
	movq	%rsi, -8(%rsp)
	jmp	107f
105:
	movq	-64(%rsp), %rax
	movzbl	55(%rax), %eax
	shlq	$56, %rax
	movq	%rax, -16(%rsp)
	cmpq	$57, -120(%rsp)
	jb	106f
	movq	-64(%rsp), %rax
	movzbl	56(%rax), %eax
	movb	%al, -126(%rsp)
	jne	108f
	movq	%r13, -104(%rsp)
	movq	%r11, -96(%rsp)
	movl	$771751936, %eax
	movq	%rax, -88(%rsp)
	movl	$11776, %eax
	movq	%rax, -80(%rsp)
	movq	%r13, -72(%rsp)
	movq	%r11, -56(%rsp)
	movl	$771751936, %eax
	movq	%rax, -40(%rsp)
	movl	$11776, %eax
	movq	%rax, -24(%rsp)
	jmp	110f
106:
	movq	%r13, -104(%rsp)
	movq	%r11, -96(%rsp)
	movl	$771751936, %eax
	movq	%rax, -88(%rsp)
	movl	$11776, %eax
	movq	%rax, -80(%rsp)
	movq	%r13, -72(%rsp)
	movq	%r11, -56(%rsp)
	movl	$771751936, %eax
	movq	%rax, -40(%rsp)
	movl	$11776, %eax
	movq	%rax, -24(%rsp)
107:
	movb	$46, -126(%rsp)
	jmp	110f
108:
	movq	-64(%rsp), %rax
	movzbl	57(%rax), %eax
	shll	$8, %eax
	movq	%rax, -24(%rsp)
	cmpq	$59, -120(%rsp)
	jb	109f
	movq	-64(%rsp), %rax
	movzbl	58(%rax), %eax
	shll	$16, %eax
	movq	%rax, -32(%rsp)
	cmpq	$59, -120(%rsp)
	jne	111f
	movq	%r13, -104(%rsp)
	movq	%r11, -96(%rsp)
	movl	$771751936, %eax
	movq	%rax, -88(%rsp)
	movl	$11776, %eax
	movq	%rax, -80(%rsp)
	movq	%r13, -72(%rsp)
	movq	%r11, -56(%rsp)
	movl	$771751936, %eax
	movq	%rax, -40(%rsp)
	jmp	113f
109:
	movq	%r13, -104(%rsp)
	movq	%r11, -96(%rsp)
	movl	$771751936, %eax
	movq	%rax, -88(%rsp)
	movl	$11776, %eax
	movq	%rax, -80(%rsp)
	movq	%r13, -72(%rsp)
	movq	%r11, -56(%rsp)
	movl	$771751936, %eax
	movq	%rax, -40(%rsp)
110:
	movl	$3014656, %eax
	movq	%rax, -32(%rsp)
	jmp	113f
111:
	movq	-64(%rsp), %rax
	movzbl	59(%rax), %eax
	shll	$24, %eax
	movq	%rax, -40(%rsp)
	cmpq	$61, -120(%rsp)
	jb	112f
	movq	-64(%rsp), %rax
	movzbl	60(%rax), %eax
	shlq	$32, %rax
	movq	%rax, -48(%rsp)
	cmpq	$61, -120(%rsp)
	jne	114f
	movq	%r13, -104(%rsp)
	movq	%r11, -96(%rsp)
	movl	$771751936, %eax
	movq	%rax, -88(%rsp)
	movl	$11776, %eax
	movq	%rax, -80(%rsp)
	movq	%r13, -72(%rsp)
	movq	%r11, -56(%rsp)
	jmp	116f
112:
	movq	%r13, -104(%rsp)
	movq	%r11, -96(%rsp)
	movl	$771751936, %eax
	movq	%rax, -88(%rsp)
	movl	$11776, %eax
	movq	%rax, -80(%rsp)
	movq	%r13, -72(%rsp)
	movq	%r11, -56(%rsp)
113:
	movabsq	$197568495616, %rcx
	movq	%rcx, -48(%rsp)
	movq	%rsi, %rdi
	movb	$46, -127(%rsp)
	jmp	47b
114:
	movq	-64(%rsp), %rax
	movzbl	61(%rax), %eax
	shlq	$40, %rax
	movq	%rax, -56(%rsp)
	cmpq	$63, -120(%rsp)
	jb	115f
	movq	-64(%rsp), %rax
	movzbl	62(%rax), %edi
	shlq	$48, %rdi
	cmpq	$63, -120(%rsp)
	jne	117f
	movq	%r13, -104(%rsp)
	movq	%r11, -96(%rsp)
	movl	$771751936, %eax
	movq	%rax, -88(%rsp)
	movl	$11776, %eax
	movq	%rax, -80(%rsp)
	movq	%r13, -72(%rsp)
	jmp	119f
115:
	movq	%r13, -104(%rsp)
	movq	%r11, -96(%rsp)
	movl	$771751936, %eax
	movq	%rax, -88(%rsp)
	movl	$11776, %eax
	movq	%rax, -80(%rsp)
	movq	%r13, -72(%rsp)
116:
	movq	%rsi, %rdi
	jmp	119f
117:
	movq	-64(%rsp), %rax
	movzbl	63(%rax), %eax
	shlq	$56, %rax
	movq	%rax, -72(%rsp)
	cmpq	$65, -120(%rsp)
	jb	118f
	movq	-64(%rsp), %rax
	movzbl	64(%rax), %eax
	movb	%al, -127(%rsp)
	jne	120f
	movq	%r13, -104(%rsp)
	movq	%r11, -96(%rsp)
	movl	$771751936, %eax
	movq	%rax, -88(%rsp)
	movl	$11776, %eax
	movq	%rax, -80(%rsp)
	jmp	122f
118:
	movq	%r13, -104(%rsp)
	movq	%r11, -96(%rsp)
	movl	$771751936, %eax
	movq	%rax, -88(%rsp)
	movl	$11776, %eax
	movq	%rax, -80(%rsp)
119:
	movb	$46, -127(%rsp)
	jmp	122f
120:
	movq	-64(%rsp), %rax
	movzbl	65(%rax), %eax
	shll	$8, %eax
	movq	%rax, -80(%rsp)
	cmpq	$67, -120(%rsp)
	jb	121f
	movq	-64(%rsp), %rax
	movzbl	66(%rax), %r9d
	shll	$16, %r9d
	cmpq	$67, -120(%rsp)
	jne	123f
	movq	%r13, -104(%rsp)
	movq	%r11, -96(%rsp)
	movl	$771751936, %eax
	movq	%rax, -88(%rsp)
	movabsq	$197568495616, %rcx
	jmp	48b
121:
	movq	%r13, -104(%rsp)
	movq	%r11, -96(%rsp)
	movl	$771751936, %eax
	movq	%rax, -88(%rsp)
122:
	movl	$3014656, %r9d
	movabsq	$197568495616, %rcx
	jmp	48b
123:
	movq	-64(%rsp), %rax
	movzbl	67(%rax), %eax
	shll	$24, %eax
	movq	%rax, -88(%rsp)
	cmpq	$69, -120(%rsp)
	jb	124f
	movq	-64(%rsp), %rax
	movzbl	68(%rax), %edx
	shlq	$32, %rdx
	cmpq	$69, -120(%rsp)
	jne	125f
	movq	%r13, -104(%rsp)
	movq	%r11, -96(%rsp)
	movq	%rsi, %r10
	movabsq	$197568495616, %rcx
	jmp	49b
124:
	movq	%r13, -104(%rsp)
	movq	%r11, -96(%rsp)
	movabsq	$197568495616, %rcx
	jmp	48b
125:
	movq	-64(%rsp), %rax
	movzbl	69(%rax), %eax
	shlq	$40, %rax
	movq	%rax, -96(%rsp)
	cmpq	$71, -120(%rsp)
	jb	126f
	movq	-64(%rsp), %rax
	movzbl	70(%rax), %r10d
	shlq	$48, %r10
	cmpq	$71, -120(%rsp)
	jne	127f
	movq	%r13, -104(%rsp)
	movabsq	$197568495616, %rcx
	jmp	49b
126:
	movq	%r13, -104(%rsp)
	movq	%rsi, %r10
	movabsq	$197568495616, %rcx
	jmp	49b
127:
	movq	-64(%rsp), %rax
	movzbl	71(%rax), %eax
	shlq	$56, %rax
	movq	%rax, -104(%rsp)
	cmpq	$73, -120(%rsp)
	jb	128f
	movq	-64(%rsp), %rax
	movzbl	72(%rax), %eax
	movb	%al, 223(%rsp)
	je	128f
	movq	-64(%rsp), %rax
	movzbl	73(%rax), %eax
	shll	$8, %eax
	movq	%rax, 376(%rsp)
	cmpq	$75, -120(%rsp)
	jb	128f
	movq	-64(%rsp), %rax
	movzbl	74(%rax), %eax
	shll	$16, %eax
	movq	%rax, 368(%rsp)
	cmpq	$75, -120(%rsp)
	je	128f
	movq	-64(%rsp), %rax
	movzbl	75(%rax), %eax
	shll	$24, %eax
	movq	%rax, 384(%rsp)
	cmpq	$77, -120(%rsp)
	jb	128f
	movq	-64(%rsp), %rax
	movzbl	76(%rax), %ecx
	shlq	$32, %rcx
	jmp	49b
128:
	movabsq	$197568495616, %rcx
	jmp	49b
129:
	.size	"std_io::io::error::Error::from_bytes", 129b-"std_io::io::error::Error::from_bytes"

	.text
	.p2align	4
	.type	"std_io::io::error::Error::from_raw_os_error",@function
"std_io::io::error::Error::from_raw_os_error":
	movb	$41, %al
	testl	%esi, %esi
	js	38f
	leal	-1(%rsi), %ecx
	cmpl	$121, %ecx
	ja	38f
	leaq	40f(%rip), %rdx
	movslq	(%rdx,%rcx,4), %rcx
	addq	%rdx, %rcx
	jmpq	*%rcx
1:
	movb	$1, %al
	jmp	38f
2:
	movb	$36, %al
	jmp	38f
3:
	movb	$4, %al
	jmp	38f
4:
	movb	$7, %al
	jmp	38f
5:
	movb	$26, %al
	jmp	38f
6:
	movb	$39, %al
	jmp	38f
7:
	movb	$9, %al
	jmp	38f
8:
	movb	$8, %al
	jmp	38f
9:
	movb	$30, %al
	jmp	38f
10:
	movb	$25, %al
	jmp	38f
11:
	movb	$32, %al
	jmp	38f
12:
	movb	$33, %al
	jmp	38f
13:
	movb	$22, %al
	jmp	38f
14:
	movb	$31, %al
	jmp	38f
15:
	movb	$29, %al
	jmp	38f
16:
	movb	$18, %al
	jmp	38f
17:
	movb	$10, %al
	jmp	38f
18:
	movb	$28, %al
	jmp	38f
19:
	movb	$14, %al
	jmp	38f
20:
	movb	$12, %al
	jmp	38f
21:
	movb	$5, %al
	jmp	38f
22:
	movb	$3, %al
	jmp	38f
23:
	xorl	%eax, %eax
	jmp	38f
24:
	movb	$13, %al
	jmp	38f
25:
	movb	$38, %al
	jmp	38f
26:
	movb	$11, %al
	jmp	38f
27:
	movb	$35, %al
	jmp	38f
28:
	movb	$34, %al
	jmp	38f
29:
	movb	$20, %al
	jmp	38f
30:
	movb	$15, %al
	jmp	38f
31:
	movb	$19, %al
	jmp	38f
32:
	movb	$16, %al
	jmp	38f
33:
	movb	$6, %al
	jmp	38f
34:
	movb	$27, %al
	jmp	38f
35:
	movb	$24, %al
	jmp	38f
36:
	movb	$2, %al
	jmp	38f
37:
	movb	$17, %al
38:
	movb	$0, (%rdi)
	movb	%al, 1(%rdi)
	movw	$0, 2(%rdi)
	movl	%esi, 4(%rdi)
	xorps	%xmm0, %xmm0
	movups	%xmm0, 8(%rdi)
	movups	%xmm0, 24(%rdi)
	movups	%xmm0, 40(%rdi)
	movups	%xmm0, 56(%rdi)
	movups	%xmm0, 72(%rdi)
	retq
39:
	.size	"std_io::io::error::Error::from_raw_os_error", 39b-"std_io::io::error::Error::from_raw_os_error"
	.section	.rodata,"a",@progbits
	.p2align	2, 0x0
40:
	.long	1b-40b
	.long	23b-40b
	.long	38b-40b
	.long	27b-40b
	.long	38b-40b
	.long	38b-40b
	.long	28b-40b
	.long	38b-40b
	.long	38b-40b
	.long	38b-40b
	.long	24b-40b
	.long	25b-40b
	.long	1b-40b
	.long	38b-40b
	.long	38b-40b
	.long	18b-40b
	.long	20b-40b
	.long	14b-40b
	.long	38b-40b
	.long	19b-40b
	.long	30b-40b
	.long	29b-40b
	.long	38b-40b
	.long	38b-40b
	.long	38b-40b
	.long	15b-40b
	.long	34b-40b
	.long	35b-40b
	.long	10b-40b
	.long	37b-40b
	.long	11b-40b
	.long	26b-40b
	.long	38b-40b
	.long	38b-40b
	.long	9b-40b
	.long	12b-40b
	.long	38b-40b
	.long	2b-40b
	.long	32b-40b
	.long	16b-40b
	.long	38b-40b
	.long	38b-40b
	.long	38b-40b
	.long	38b-40b
	.long	38b-40b
	.long	38b-40b
	.long	38b-40b
	.long	38b-40b
	.long	38b-40b
	.long	38b-40b
	.long	38b-40b
	.long	38b-40b
	.long	38b-40b
	.long	38b-40b
	.long	38b-40b
	.long	38b-40b
	.long	38b-40b
	.long	38b-40b
	.long	38b-40b
	.long	38b-40b
	.long	38b-40b
	.long	38b-40b
	.long	38b-40b
	.long	38b-40b
	.long	38b-40b
	.long	38b-40b
	.long	38b-40b
	.long	38b-40b
	.long	38b-40b
	.long	38b-40b
	.long	38b-40b
	.long	38b-40b
	.long	38b-40b
	.long	38b-40b
	.long	38b-40b
	.long	38b-40b
	.long	38b-40b
	.long	38b-40b
	.long	38b-40b
	.long	38b-40b
	.long	38b-40b
	.long	38b-40b
	.long	38b-40b
	.long	38b-40b
	.long	38b-40b
	.long	38b-40b
	.long	38b-40b
	.long	38b-40b
	.long	38b-40b
	.long	38b-40b
	.long	38b-40b
	.long	38b-40b
	.long	38b-40b
	.long	38b-40b
	.long	2b-40b
	.long	38b-40b
	.long	38b-40b
	.long	8b-40b
	.long	7b-40b
	.long	17b-40b
	.long	21b-40b
	.long	38b-40b
	.long	33b-40b
	.long	22b-40b
	.long	38b-40b
	.long	38b-40b
	.long	4b-40b
	.long	38b-40b
	.long	38b-40b
	.long	13b-40b
	.long	36b-40b
	.long	38b-40b
	.long	3b-40b
	.long	38b-40b
	.long	6b-40b
	.long	31b-40b
	.long	38b-40b
	.long	38b-40b
	.long	38b-40b
	.long	38b-40b
	.long	38b-40b
	.long	5b-40b
