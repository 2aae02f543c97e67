# Made by dist/refresh of what is proved.

	.text
	.p2align	4
	.type	"mimelook::main+start",@function
"mimelook::main+start":
	pushq	%rbp
	pushq	%r15
	pushq	%r14
	pushq	%rbx
	subq	$2440, %rsp
	xorps	%xmm0, %xmm0
	movaps	%xmm0, 96(%rsp)
	movaps	%xmm0, 80(%rsp)
	movaps	%xmm0, 64(%rsp)
	movaps	%xmm0, 48(%rsp)
	movaps	%xmm0, 32(%rsp)
	movaps	%xmm0, 16(%rsp)
	leaq	16(%rsp), %rdi
	leaq	15(%rsp), %rsi
	callq	"mimelook::run_system"
	cmpb	$0, 16(%rsp)
	je	6f
	movl	$2, 120(%rsp)
	leaq	124(%rsp), %rbx
	xorl	%r14d, %r14d
	movl	$1132, %edx
	movq	%rbx, %rdi
	xorl	%esi, %esi
	callq	memset@PLT
	movl	$32, 1256(%rsp)
	movq	$0, 1260(%rsp)
	movl	$0, 1268(%rsp)
	movq	$-1, 1272(%rsp)
	xorps	%xmm0, %xmm0
	movups	%xmm0, 1280(%rsp)
	movl	1256(%rsp), %eax
	movl	%eax, 1296(%rsp)
	movq	1260(%rsp), %rax
	movq	%rax, 1300(%rsp)
	movl	1268(%rsp), %eax
	movl	%eax, 1308(%rsp)
	movq	$-1, 1312(%rsp)
	movl	$32, 1256(%rsp)
	movl	$0, 1268(%rsp)
	movq	$0, 1260(%rsp)
	xorl	%r15d, %r15d
	jmp	2f
	.p2align	4
1:
	movb	%bpl, 124(%rsp,%rax)
	leaq	1(%rax), %r14
	movq	%r14, 1152(%rsp)
	incq	%r15
	cmpq	$23, %r15
	je	3f
2:
	leaq	.L9eed94c034fc(%rip), %rax
	movzbl	(%r15,%rax), %ebp
	movq	%r14, %rax
	cmpq	$1024, %r14
	jb	1b
	leaq	120(%rsp), %rdi
	callq	"std_io::io::buffer::Buffer::flush"
	testb	%al, %al
	je	5f
	movq	1152(%rsp), %rax
	cmpq	$1023, %rax
	jbe	1b
	jmp	5f
3:
	movq	1312(%rsp), %rcx
	movq	%rcx, 1148(%rbx)
	movaps	1296(%rsp), %xmm0
	movups	%xmm0, 1132(%rbx)
	movq	1148(%rbx), %rcx
	movq	%rcx, 1312(%rsp)
	movups	1132(%rbx), %xmm0
	movaps	%xmm0, 1296(%rsp)
	movl	$32, 1256(%rsp)
	movl	$0, 1144(%rbx)
	movq	$0, 1136(%rbx)
	movq	$-1, 1272(%rsp)
	cmpq	$0, 1280(%rsp)
	jne	8f
	cmpq	$1023, %rax
	jb	4f
	leaq	120(%rsp), %rdi
	callq	"std_io::io::buffer::Buffer::flush"
	movq	1152(%rsp), %r14
	cmpq	$1024, %r14
	setb	%cl
	andb	%al, %cl
	cmpb	$1, %cl
	jne	5f
4:
	movb	$10, 124(%rsp,%r14)
	incq	%r14
	movq	%r14, 1152(%rsp)
5:
	movq	1312(%rsp), %rax
	movq	%rax, 1148(%rbx)
	movaps	1296(%rsp), %xmm0
	movups	%xmm0, 1132(%rbx)
	movl	120(%rsp), %eax
	movl	%eax, 1296(%rsp)
	leaq	1300(%rsp), %rdi
	movl	$1132, %edx
	movq	%rbx, %rsi
	callq	memcpy@PLT
	leaq	1296(%rsp), %rdi
	callq	"std_io::io::buffer::Buffer::flush"
	movl	$4, %eax
	jmp	7f
6:
	movzbl	17(%rsp), %eax
7:
	addq	$2440, %rsp
	popq	%rbx
	popq	%r14
	popq	%r15
	popq	%rbp
	retq
8:
	leaq	.Lb9d66d2d8f9c(%rip), %rsi
	leaq	120(%rsp), %rdi
	movl	$1, %edx
	callq	"core::fmt::formatter::Formatter::write_indented::<#bf264aed5fa78656>"
	jmp	5b
9:
	.size	"mimelook::main+start", 9b-"mimelook::main+start"

	.section	.rodata.cst16,"aM",@progbits,16
	.p2align	4, 0x0
1:
	.zero	16,127
2:
	.zero	8
	.quad	3399988123389603631
3:
	.zero	16,47
4:
	.zero	8
	.quad	9187201950435737471
5:
	.byte	101,114,114,111,114,58,32,111,117,116,32,111,102,32,109,101
	.text
	.p2align	4
	.type	"mimelook::run_system",@function
"mimelook::run_system":
	pushq	%rbp
	pushq	%r15
	pushq	%r14
	pushq	%r13
	pushq	%r12
	pushq	%rbx
	subq	$2904, %rsp
	movq	%rsi, 1136(%rsp)
	movq	%rdi, 296(%rsp)
	pxor	%xmm0, %xmm0
	movdqa	%xmm0, 2880(%rsp)
	movdqa	%xmm0, 2864(%rsp)
	movdqa	%xmm0, 2848(%rsp)
	movdqa	%xmm0, 2832(%rsp)
	movq	$0, 1200(%rsp)
	movdqa	%xmm0, 1104(%rsp)
	movq	$0, 1120(%rsp)
	leaq	8(%rsp), %r14
	movq	%r14, 432(%rsp)
	movdqu	%xmm0, 440(%rsp)
	movq	%r14, 456(%rsp)
	movdqu	%xmm0, 464(%rsp)
	movl	$1, %edi
6:
	movl	$256, %ebx
	movl	$64, %r13d
	jmp	8f
	.p2align	4
7:
	decl	%r13d
	leaq	8(%rsp), %r14
	movq	%r12, %rdi
	je	96f
8:
	movq	%r14, 1472(%rsp)
	pxor	%xmm0, %xmm0
	leaq	1480(%rsp), %rax
	movdqu	%xmm0, (%rax)
	testq	%rbx, %rbx
	jne	11f
	xorl	%r15d, %r15d
9:
	movq	%rdi, %r12
	movq	%r14, %rsi
	movq	%r15, %rdx
	callq	rattle_arg@PLT
	movq	%rax, %rbp
	movl	$22, %eax
	cmpq	$-1, %rbp
	je	10f
	movl	$36, %eax
10:
	xorl	%edi, %edi
	testq	%rbp, %rbp
	cmovsl	%eax, %edi
	callq	rattle_set_errno@PLT
	callq	rattle_errno@PLT
	cmpl	$36, %eax
	jne	13f
	leaq	(%rbx,%rbx), %rax
	testq	%rbx, %rbx
	movq	$-1, %rbx
	cmovnsq	%rax, %rbx
	cmpq	$0, 1488(%rsp)
	je	7b
	movq	%r14, %rdi
	callq	rattle_dealloc@PLT
	jmp	7b
11:
	movq	%rdi, %r12
	leaq	1472(%rsp), %rdi
	movq	%rbx, %rsi
	callq	"std_alloc::vec::Vec::grow_amortized::<#1d775b5957dec42c>"
	testb	%al, %al
	je	95f
	movq	1472(%rsp), %r14
	movq	1480(%rsp), %rdi
	leaq	(%rdi,%rbx), %r15
	cmpq	%r15, %rdi
	jae	12f
	addq	%r14, %rdi
	xorl	%esi, %esi
	movq	%rbx, %rdx
	callq	memset@PLT
12:
	movq	%r15, 1480(%rsp)
	movq	%r12, %rdi
	jmp	9b
	.p2align	4
13:
	testl	%eax, %eax
	jne	51f
	cmpq	%r15, %rbp
	cmovbq	%rbp, %r15
	xorl	%ebx, %ebx
	testq	%rbp, %rbp
	cmovgq	%r15, %rbx
	movq	1488(%rsp), %r15
	pxor	%xmm0, %xmm0
	movdqa	%xmm0, 1472(%rsp)
	movq	$0, 1488(%rsp)
	leaq	1472(%rsp), %rdi
	movq	%r14, %rsi
	movq	%rbx, %rdx
	callq	"core::str::utf8::from_utf8"
	cmpb	$1, 1472(%rsp)
	jne	14f
	movq	%rbx, 208(%rsp)
	testq	%rbx, %rbx
	movq	%r15, 24(%rsp)
	je	16f
	cmpb	$45, (%r14)
	jne	16f
	leaq	.Lc1b0ea49b06c(%rip), %rsi
	movl	$1, %ebx
	movb	$1, %al
	jmp	17f
14:
	movq	440(%rsp), %rax
	cmpq	%rax, 448(%rsp)
	movq	%r12, %rdi
	je	38f
15:
	movq	432(%rsp), %rcx
	leaq	(%rax,%rax,2), %rdx
	movq	%r14, (%rcx,%rdx,8)
	movq	%rbx, 8(%rcx,%rdx,8)
	movq	%r15, 16(%rcx,%rdx,8)
	incq	%rax
	movq	%rax, 440(%rsp)
	incq	%rdi
	cmpq	$-1, %rdi
	leaq	8(%rsp), %r14
	jne	6b
	jmp	52f
16:
	leaq	.L22d5119de29e(%rip), %rsi
	xorl	%eax, %eax
	xorl	%ebx, %ebx
17:
	pxor	%xmm0, %xmm0
	leaq	1480(%rsp), %rcx
	movdqu	%xmm0, (%rcx)
	movl	$0, 52(%rcx)
	movl	$0, 49(%rcx)
	leaq	8(%rsp), %r15
	movq	%r15, 1472(%rsp)
	movq	$0, 1520(%rsp)
	movb	$0, 1528(%rsp)
	movl	$32, 1496(%rsp)
	movl	$0, 28(%rcx)
	movq	$0, 20(%rcx)
	movq	$-1, 1512(%rsp)
	testb	%al, %al
	jne	39f
	xorl	%r13d, %r13d
	xorl	%ebp, %ebp
18:
	leaq	(%r15,%rbp), %rdi
	movq	%rdi, %rax
	subq	%rsi, %rax
	cmpq	%rbx, %rax
	jae	19f
	movzbl	(%rsi), %eax
	movb	%al, (%rdi)
	jmp	20f
19:
	movq	%rbx, %rdx
	callq	memcpy@PLT
20:
	addq	%rbx, %rbp
	movq	%r15, 1472(%rsp)
	movq	%rbp, 1480(%rsp)
	movq	%r13, 1488(%rsp)
	movl	$32, 1496(%rsp)
	leaq	1480(%rsp), %rax
	movl	$0, 28(%rax)
	movq	$0, 20(%rax)
	movq	$-1, 1512(%rsp)
	cmpq	$0, 1520(%rsp)
	jne	40f
	cmpq	%rbp, %r13
	je	49f
21:
	movb	$0, (%r15,%rbp)
	incq	%rbp
	movq	%rbp, 1480(%rsp)
	movq	%r13, 1488(%rsp)
22:
	movl	$32, 1496(%rsp)
	leaq	1480(%rsp), %rax
	movl	$0, 28(%rax)
	movq	$0, 20(%rax)
	movq	$-1, 1512(%rsp)
	pxor	%xmm0, %xmm0
	movdqa	%xmm0, 2160(%rsp)
	movq	$0, 2176(%rsp)
	movl	$24, %ecx
	movq	%r12, %rdx
	cmpq	$100, %r12
	jb	24f
	movq	%r12, %rsi
	.p2align	4
23:
	movq	%rsi, %rax
	shrq	$2, %rax
	movabsq	$2951479051793528259, %rdx
	mulq	%rdx
	shrq	$2, %rdx
	imull	$100, %edx, %eax
	movl	%esi, %edi
	subl	%eax, %edi
	movzbl	%dil, %eax
	imull	$205, %eax, %edi
	shrl	$11, %edi
	leal	(%rdi,%rdi), %r8d
	leal	(%r8,%r8,4), %r8d
	subb	%r8b, %al
	orb	$48, %al
	movb	%al, 2159(%rsp,%rcx)
	orb	$48, %dil
	movb	%dil, 2158(%rsp,%rcx)
	addq	$-2, %rcx
	cmpq	$9999, %rsi
	movq	%rdx, %rsi
	ja	23b
24:
	cmpq	$10, %rdx
	jb	25f
	movzbl	%dl, %eax
	imull	$205, %eax, %eax
	shrl	$11, %eax
	leal	(%rax,%rax), %esi
	leal	(%rsi,%rsi,4), %esi
	subb	%sil, %dl
	orb	$48, %dl
	movb	%dl, 2159(%rsp,%rcx)
	orb	$48, %al
	movb	%al, 2158(%rsp,%rcx)
	addq	$-2, %rcx
	jmp	26f
25:
	orb	$48, %dl
	movb	%dl, 2159(%rsp,%rcx)
	decq	%rcx
26:
	leaq	(%rsp,%rcx), %rsi
	addq	$2160, %rsi
	movb	$45, 2159(%rsp,%rcx)
	movl	$24, %edx
	subq	%rcx, %rdx
	cmpq	$0, 1520(%rsp)
	jne	41f
	movq	1480(%rsp), %r15
	movq	1488(%rsp), %r13
	movq	%r13, %rax
	subq	%r15, %rax
	cmpq	%rax, %rdx
	ja	50f
27:
	movq	1472(%rsp), %rbp
	leaq	(%r15,%rbp), %rdi
	addq	%rdx, %r15
	callq	memcpy@PLT
	testq	%r15, %r15
	je	42f
28:
	js	121f
	movl	$1, %esi
	movq	%r15, %rdi
	callq	rattle_alloc@PLT
	testb	$1, %al
	je	121f
	movq	%rdx, %rbx
	movq	%rbx, %rcx
	subq	%rbp, %rcx
	cmpq	%r15, %rcx
	jae	43f
29:
	xorl	%eax, %eax
	cmpq	$4, %r15
	jb	34f
	cmpq	$32, %rcx
	jb	34f
	cmpq	$32, %r15
	jae	30f
	xorl	%eax, %eax
	jmp	32f
30:
	movq	%r15, %rax
	andq	$-32, %rax
	xorl	%ecx, %ecx
	.p2align	4
31:
	movdqu	(%rbp,%rcx), %xmm0
	movdqu	16(%rbp,%rcx), %xmm1
	movdqu	%xmm0, (%rbx,%rcx)
	movdqu	%xmm1, 16(%rbx,%rcx)
	addq	$32, %rcx
	cmpq	%rcx, %rax
	jne	31b
	cmpq	%rax, %r15
	je	44f
	testb	$28, %r15b
	je	34f
32:
	movq	%rax, %rcx
	movq	%r15, %rax
	andq	$-4, %rax
	.p2align	4
33:
	movl	(%rbp,%rcx), %edx
	movl	%edx, (%rbx,%rcx)
	addq	$4, %rcx
	cmpq	%rcx, %rax
	jne	33b
	cmpq	%rax, %r15
	je	44f
34:
	movq	%r15, %rdx
	movq	%rax, %rcx
	andq	$3, %rdx
	je	36f
	movq	%rax, %rcx
	.p2align	4
35:
	movzbl	(%rbp,%rcx), %esi
	movb	%sil, (%rbx,%rcx)
	incq	%rcx
	decq	%rdx
	jne	35b
36:
	subq	%r15, %rax
	cmpq	$-4, %rax
	ja	44f
	.p2align	4
37:
	movzbl	(%rbp,%rcx), %eax
	movb	%al, (%rbx,%rcx)
	movzbl	1(%rbp,%rcx), %eax
	movb	%al, 1(%rbx,%rcx)
	movzbl	2(%rbp,%rcx), %eax
	movb	%al, 2(%rbx,%rcx)
	movzbl	3(%rbp,%rcx), %eax
	movb	%al, 3(%rbx,%rcx)
	addq	$4, %rcx
	cmpq	%rcx, %r15
	jne	37b
	jmp	44f
38:
	movq	%rbx, %r12
	movq	%rdi, %rbx
	leaq	432(%rsp), %rdi
	callq	"std_alloc::vec::Vec::grow_amortized::<#973b4a116d082bbd>"
	testb	%al, %al
	je	149f
	movq	440(%rsp), %rax
	movq	%rbx, %rdi
	movq	%r12, %rbx
	jmp	15b
39:
	movq	%rsi, 200(%rsp)
	leaq	1472(%rsp), %rdi
	movl	$1, %esi
	callq	"std_alloc::vec::Vec::grow_amortized::<#1d775b5957dec42c>"
	testb	%al, %al
	je	139f
	movq	1472(%rsp), %r15
	movq	1480(%rsp), %rbp
	movq	1488(%rsp), %r13
	movq	200(%rsp), %rsi
	jmp	18b
40:
	leaq	.L0791a6fb5224(%rip), %rsi
	leaq	1472(%rsp), %rdi
	movl	$1, %edx
	callq	"core::fmt::formatter::Formatter::write_indented::<#0a7ff941e43d6b30>"
	testb	%al, %al
	je	22b
	jmp	139f
41:
	leaq	1472(%rsp), %rdi
	callq	"core::fmt::formatter::Formatter::write_indented::<#0a7ff941e43d6b30>"
	testb	%al, %al
	jne	139f
	movq	1472(%rsp), %rbp
	movq	1480(%rsp), %r15
	movq	1488(%rsp), %r13
	testq	%r15, %r15
	jne	28b
42:
	leaq	8(%rsp), %rbx
	movq	%rbx, %rcx
	subq	%rbp, %rcx
	cmpq	%r15, %rcx
	jb	29b
43:
	movq	%rbx, %rdi
	movq	%rbp, %rsi
	movq	%r15, %rdx
	callq	memmove@PLT
44:
	movq	440(%rsp), %rax
	cmpq	%rax, 448(%rsp)
	je	47f
45:
	movq	432(%rsp), %rcx
	leaq	(%rax,%rax,2), %rdx
	movq	%rbx, (%rcx,%rdx,8)
	movq	%r15, 8(%rcx,%rdx,8)
	movq	%r15, 16(%rcx,%rdx,8)
	incq	%rax
	movq	%rax, 440(%rsp)
	movq	464(%rsp), %rax
	cmpq	%rax, 472(%rsp)
	movq	208(%rsp), %rbx
	je	48f
46:
	movq	456(%rsp), %rcx
	imulq	$56, %rax, %rdx
	movq	%r12, (%rcx,%rdx)
	movq	%rbp, 8(%rcx,%rdx)
	movq	%r12, %rdi
	movq	%r15, 16(%rcx,%rdx)
	movq	%r13, 24(%rcx,%rdx)
	movq	%r14, 32(%rcx,%rdx)
	movq	%rbx, 40(%rcx,%rdx)
	movq	24(%rsp), %rsi
	movq	%rsi, 48(%rcx,%rdx)
	incq	%rax
	movq	%rax, 464(%rsp)
	incq	%rdi
	cmpq	$-1, %rdi
	leaq	8(%rsp), %r14
	jne	6b
	jmp	52f
47:
	leaq	432(%rsp), %rdi
	callq	"std_alloc::vec::Vec::grow_amortized::<#973b4a116d082bbd>"
	testb	%al, %al
	je	150f
	movq	440(%rsp), %rax
	jmp	45b
48:
	leaq	456(%rsp), %rdi
	callq	"std_alloc::vec::Vec::grow_amortized::<#97494d03d8baf6d3>"
	testb	%al, %al
	je	121f
	movq	464(%rsp), %rax
	jmp	46b
49:
	leaq	1472(%rsp), %rdi
	movl	$1, %esi
	callq	"std_alloc::vec::Vec::grow_amortized::<#1d775b5957dec42c>"
	testb	%al, %al
	je	139f
	movq	1472(%rsp), %r15
	movq	1480(%rsp), %rbp
	movq	1488(%rsp), %r13
	jmp	21b
50:
	movq	%rsi, %rbx
	leaq	1472(%rsp), %rdi
	movq	%rdx, %r13
	movq	%rdx, %rsi
	callq	"std_alloc::vec::Vec::grow_amortized::<#1d775b5957dec42c>"
	testb	%al, %al
	je	139f
	movq	1480(%rsp), %r15
	movq	1488(%rsp), %rax
	movq	%rbx, %rsi
	movq	%r13, %rdx
	movq	%rax, %r13
	jmp	27b
51:
	cmpq	$0, 1488(%rsp)
	je	52f
	movq	%r14, %rdi
	callq	rattle_dealloc@PLT
52:
	movq	432(%rsp), %r15
	movq	440(%rsp), %r12
	movq	448(%rsp), %rax
	movq	%rax, 416(%rsp)
	movq	456(%rsp), %rax
	movq	464(%rsp), %r14
	movq	472(%rsp), %rcx
	movq	%rcx, 424(%rsp)
	leaq	8(%rsp), %rcx
	movq	%rcx, 1472(%rsp)
	pxor	%xmm0, %xmm0
	movdqu	%xmm0, 1480(%rsp)
	testq	%r14, %r14
	movq	%r12, 24(%rsp)
	movq	%rax, 208(%rsp)
	movq	%r14, 200(%rsp)
	movq	%r15, 48(%rsp)
	je	60f
	leaq	40(%rax), %rbx
	leaq	8(%rsp), %rax
	xorl	%edx, %edx
	jmp	55f
53:
	movq	1472(%rsp), %rax
	movq	1480(%rsp), %rdx
	movq	216(%rsp), %rsi
	.p2align	4
54:
	leaq	(%rdx,%rdx,4), %rcx
	movq	%r15, (%rax,%rcx,8)
	movq	%r13, 8(%rax,%rcx,8)
	movq	%r12, 16(%rax,%rcx,8)
	movq	%rbp, 24(%rax,%rcx,8)
	movq	%rsi, 32(%rax,%rcx,8)
	incq	%rdx
	movq	%rdx, 1480(%rsp)
	addq	$56, %rbx
	decq	%r14
	je	59f
55:
	movq	-40(%rbx), %r15
	movq	-32(%rbx), %r13
	movq	-24(%rbx), %r12
	movq	-8(%rbx), %rbp
	movq	(%rbx), %rsi
	cmpq	%rdx, 1488(%rsp)
	jne	54b
	movq	%rsi, 216(%rsp)
	leaq	1472(%rsp), %rdi
	callq	"std_alloc::vec::Vec::grow_amortized::<#5cd6c36b4880780f>"
	testb	%al, %al
	jne	53b
	cmpq	$0, 1488(%rsp)
	je	56f
	movq	1472(%rsp), %rdi
	callq	rattle_dealloc@PLT
56:
	cmpq	$0, 24(%rsp)
	movq	208(%rsp), %r14
	movq	200(%rsp), %r12
	movq	48(%rsp), %r15
	je	115f
	leaq	16(%r15), %rbx
	jmp	58f
	.p2align	4
57:
	addq	$24, %rbx
	decq	24(%rsp)
	je	115f
58:
	cmpq	$0, (%rbx)
	je	57b
	movq	-16(%rbx), %rdi
	callq	rattle_dealloc@PLT
	jmp	57b
59:
	movq	%rdx, 96(%rsp)
	movq	1472(%rsp), %rcx
	cmpq	$0, 1488(%rsp)
	sete	%bl
	movq	48(%rsp), %r15
	movq	24(%rsp), %r12
	jmp	61f
60:
	movb	$1, %bl
	movq	$0, 96(%rsp)
61:
	movq	%rcx, 232(%rsp)
	pxor	%xmm0, %xmm0
	movdqa	%xmm0, 1472(%rsp)
	movdqa	%xmm0, 1488(%rsp)
	movq	$0, 1504(%rsp)
	movdqa	%xmm0, 432(%rsp)
	movdqa	%xmm0, 448(%rsp)
	movq	$0, 464(%rsp)
	movdqa	%xmm0, 2160(%rsp)
	movdqa	%xmm0, 2176(%rsp)
	movq	$0, 2192(%rsp)
	leaq	.Ldd92765a6a9a(%rip), %rsi
	leaq	1472(%rsp), %rdi
	movl	$13, %edx
	callq	"mimelook::variable"
	cmpb	$0, 1472(%rsp)
	je	73f
	movzbl	1473(%rsp), %r14d
	movq	200(%rsp), %r13
62:
	cmpb	$2, %r14b
	jne	66f
	testb	%bl, %bl
	jne	63f
	movq	232(%rsp), %rdi
	callq	rattle_dealloc@PLT
63:
	testq	%r12, %r12
	je	68f
	leaq	16(%r15), %rbx
	jmp	65f
	.p2align	4
64:
	addq	$24, %rbx
	decq	%r12
	je	68f
65:
	cmpq	$0, (%rbx)
	je	64b
	movq	-16(%rbx), %rdi
	callq	rattle_dealloc@PLT
	jmp	64b
66:
	movb	%bl, 216(%rsp)
	movb	$1, 63(%rsp)
	xorl	%r14d, %r14d
	movq	$0, 288(%rsp)
	movb	$1, 62(%rsp)
	movq	$0, 280(%rsp)
	movb	$1, 61(%rsp)
	movq	$0, 408(%rsp)
	movq	$0, 104(%rsp)
	movq	$0, 1168(%rsp)
	movq	$0, 1128(%rsp)
	movq	$0, 272(%rsp)
	movq	$0, 1160(%rsp)
	movq	$0, 136(%rsp)
	movq	$0, 1192(%rsp)
	movq	$0, 1176(%rsp)
	movq	$0, 1184(%rsp)
	movq	$0, 1152(%rsp)
67:
	movl	$1, %edi
	callq	isatty@PLT
	movl	%eax, %ebx
	movq	1136(%rsp), %rax
	movq	%rax, 1200(%rsp)
	movl	$65536, %edi
	movl	$1, %esi
	callq	rattle_alloc@PLT
	testb	$1, %al
	je	74f
	cmpl	$1, %ebx
	sete	%bpl
	movq	%rdx, 1104(%rsp)
	movq	$0, 1112(%rsp)
	movq	$65536, 1120(%rsp)
	leaq	1200(%rsp), %rax
	movq	%rax, 1440(%rsp)
	leaq	1104(%rsp), %rax
	movq	%rax, 1448(%rsp)
	leaq	8(%rsp), %rcx
	movq	%rcx, 192(%rsp)
	movq	%rcx, 1456(%rsp)
	pxor	%xmm0, %xmm0
	movdqa	%xmm0, 1232(%rsp)
	movdqa	%xmm0, 1248(%rsp)
	movdqa	%xmm0, 1264(%rsp)
	movdqa	%xmm0, 1280(%rsp)
	movdqa	%xmm0, 1296(%rsp)
	movdqa	%xmm0, 1312(%rsp)
	movdqa	%xmm0, 1328(%rsp)
	movdqa	%xmm0, 1344(%rsp)
	movdqa	%xmm0, 1360(%rsp)
	movq	$0, 1376(%rsp)
	movdqa	%xmm0, 384(%rsp)
	movq	$0, 400(%rsp)
	movdqa	%xmm0, 1392(%rsp)
	movdqa	%xmm0, 1408(%rsp)
	leaq	1472(%rsp), %rbx
	movl	$680, %edx
	movq	%rbx, %rdi
	xorl	%esi, %esi
	callq	memset@PLT
	movq	%rbx, %rdi
	callq	"mime_request::command::mimelook_command"
	cmpb	$0, 1472(%rsp)
	movq	%r14, 1136(%rsp)
	je	90f
	movb	$16, %r8b
	xorl	%r15d, %r15d
	xorl	%r10d, %r10d
	xorl	%r14d, %r14d
	xorl	%edx, %edx
	movq	96(%rsp), %rdi
	jmp	195f
68:
	cmpq	$0, 416(%rsp)
	je	69f
	movq	%r15, %rdi
	callq	rattle_dealloc@PLT
69:
	testq	%r13, %r13
	je	120f
	movq	208(%rsp), %rax
	leaq	48(%rax), %r14
	jmp	71f
	.p2align	4
70:
	addq	$56, %r14
	decq	%r13
	je	120f
71:
	movq	-16(%r14), %rbx
	movq	(%r14), %r15
	cmpq	$0, -24(%r14)
	je	72f
	movq	-40(%r14), %rdi
	callq	rattle_dealloc@PLT
72:
	testq	%r15, %r15
	je	70b
	movq	%rbx, %rdi
	callq	rattle_dealloc@PLT
	jmp	70b
73:
	movb	%bl, 216(%rsp)
	movzbl	1480(%rsp), %ebp
	movq	1488(%rsp), %rax
	movq	%rax, 280(%rsp)
	movq	1496(%rsp), %r14
	movq	1504(%rsp), %rbx
	leaq	.L26d6a82f2e39(%rip), %rsi
	leaq	432(%rsp), %rdi
	movl	$4, %edx
	callq	"mimelook::variable"
	cmpb	$0, 432(%rsp)
	movq	200(%rsp), %r13
	je	86f
	movzbl	433(%rsp), %r14d
	cmpl	$1, %ebp
	setne	%al
	testq	%rbx, %rbx
	sete	%cl
	orb	%al, %cl
	je	89f
	movzbl	216(%rsp), %ebx
	jmp	62b
74:
	testb	%r14b, %r14b
	movzbl	216(%rsp), %ebx
	je	77f
	cmpb	$0, 61(%rsp)
	je	93f
	cmpb	$0, 62(%rsp)
	je	94f
75:
	cmpb	$0, 63(%rsp)
	jne	77f
76:
	movq	408(%rsp), %rdi
	callq	rattle_dealloc@PLT
77:
	testb	%bl, %bl
	jne	78f
	movq	232(%rsp), %rdi
	callq	rattle_dealloc@PLT
78:
	testq	%r12, %r12
	je	81f
	leaq	16(%r15), %rbx
	jmp	80f
	.p2align	4
79:
	addq	$24, %rbx
	decq	%r12
	je	81f
80:
	cmpq	$0, (%rbx)
	je	79b
	movq	-16(%rbx), %rdi
	callq	rattle_dealloc@PLT
	jmp	79b
81:
	cmpq	$0, 416(%rsp)
	je	82f
	movq	%r15, %rdi
	callq	rattle_dealloc@PLT
82:
	testq	%r13, %r13
	je	120f
	movq	208(%rsp), %rax
	leaq	48(%rax), %r14
	jmp	84f
	.p2align	4
83:
	addq	$56, %r14
	decq	%r13
	je	120f
84:
	movq	-16(%r14), %rbx
	movq	(%r14), %r15
	cmpq	$0, -24(%r14)
	je	85f
	movq	-40(%r14), %rdi
	callq	rattle_dealloc@PLT
85:
	testq	%r15, %r15
	je	83b
	movq	%rbx, %rdi
	callq	rattle_dealloc@PLT
	jmp	83b
86:
	movq	%rbp, 104(%rsp)
	movzbl	440(%rsp), %ebp
	movq	448(%rsp), %rax
	movq	%rax, 288(%rsp)
	movq	456(%rsp), %r12
	movq	464(%rsp), %r15
	leaq	.L04051264a0a2(%rip), %rsi
	leaq	2160(%rsp), %rdi
	movl	$13, %edx
	callq	"mimelook::variable"
	cmpb	$0, 2160(%rsp)
	je	112f
	movzbl	2161(%rsp), %r14d
	cmpl	$1, %ebp
	setne	%al
	testq	%r15, %r15
	sete	%cl
	orb	%al, %cl
	jne	87f
	movq	288(%rsp), %rdi
	callq	rattle_dealloc@PLT
87:
	cmpl	$1, 104(%rsp)
	setne	%al
	testq	%rbx, %rbx
	sete	%cl
	orb	%al, %cl
	movq	48(%rsp), %r15
	jne	88f
	movq	280(%rsp), %rdi
	callq	rattle_dealloc@PLT
88:
	movq	24(%rsp), %r12
	movzbl	216(%rsp), %ebx
	jmp	62b
89:
	movq	280(%rsp), %rdi
	callq	rattle_dealloc@PLT
	movzbl	216(%rsp), %ebx
	jmp	62b
90:
	movb	%bpl, 135(%rsp)
	leaq	1480(%rsp), %rsi
	leaq	2160(%rsp), %rdi
	movl	$672, %edx
	callq	memcpy@PLT
	leaq	8(%rsp), %rax
	movq	%rax, 432(%rsp)
	pxor	%xmm0, %xmm0
	movdqu	%xmm0, 440(%rsp)
	testq	%r12, %r12
	je	114f
	movq	%r13, %rbp
	movq	48(%rsp), %rcx
	leaq	8(%rcx), %rbx
	xorl	%r15d, %r15d
	movq	%r12, %r14
	jmp	92f
	.p2align	4
91:
	movq	%r15, %rcx
	shlq	$4, %rcx
	movq	%r12, (%rax,%rcx)
	movq	%r13, 8(%rax,%rcx)
	incq	%r15
	movq	%r15, 440(%rsp)
	addq	$24, %rbx
	decq	%r14
	je	104f
92:
	movq	-8(%rbx), %r12
	movq	(%rbx), %r13
	cmpq	%r15, 448(%rsp)
	jne	91b
	leaq	432(%rsp), %rdi
	movl	$1, %esi
	callq	"std_alloc::vec::Vec::grow_amortized::<#3af3ba23e56e6a09>"
	testb	%al, %al
	je	142f
	movq	432(%rsp), %rax
	movq	440(%rsp), %r15
	jmp	91b
93:
	movq	280(%rsp), %rdi
	callq	rattle_dealloc@PLT
	cmpb	$0, 62(%rsp)
	jne	75b
94:
	movq	288(%rsp), %rdi
	callq	rattle_dealloc@PLT
	cmpb	$0, 63(%rsp)
	je	76b
	jmp	77b
95:
	cmpq	$0, 1488(%rsp)
	je	96f
	movq	1472(%rsp), %rdi
	callq	rattle_dealloc@PLT
96:
	movq	432(%rsp), %rbx
	movq	440(%rsp), %r15
	movq	448(%rsp), %r14
	testq	%r15, %r15
	je	99f
	leaq	16(%rbx), %r12
	jmp	98f
	.p2align	4
97:
	addq	$24, %r12
	decq	%r15
	je	99f
98:
	cmpq	$0, (%r12)
	je	97b
	movq	-16(%r12), %rdi
	callq	rattle_dealloc@PLT
	jmp	97b
99:
	testq	%r14, %r14
	je	100f
	movq	%rbx, %rdi
	callq	rattle_dealloc@PLT
100:
	movq	456(%rsp), %rbx
	movq	464(%rsp), %r12
	movq	472(%rsp), %r15
	testq	%r12, %r12
	je	133f
	leaq	48(%rbx), %r13
	jmp	102f
	.p2align	4
101:
	addq	$56, %r13
	decq	%r12
	je	133f
102:
	movq	-16(%r13), %r14
	movq	(%r13), %rbp
	cmpq	$0, -24(%r13)
	je	103f
	movq	-40(%r13), %rdi
	callq	rattle_dealloc@PLT
103:
	testq	%rbp, %rbp
	je	101b
	movq	%r14, %rdi
	callq	rattle_dealloc@PLT
	jmp	101b
104:
	movq	432(%rsp), %r14
	movq	448(%rsp), %r10
	testq	%r10, %r10
	sete	%bl
	xorl	%r12d, %r12d
	testq	%r15, %r15
	je	137f
	cmpb	$0, 2808(%rsp)
	movq	%rbp, %r13
	jne	171f
	movl	$1, %r12d
	cmpb	$1, 2240(%rsp)
	je	171f
	movb	%bl, 64(%rsp)
	movq	(%r14), %rbx
	movq	%r14, %r12
	movq	8(%r14), %r14
	testq	%r14, %r14
	je	110f
105:
	movq	$-1, %rax
	cmpb	$0, -1(%rbx,%r14)
	jns	106f
	movq	$-2, %rax
	cmpb	$-65, -2(%rbx,%r14)
	ja	106f
	xorl	%eax, %eax
	cmpb	$-64, -3(%rbx,%r14)
	setae	%al
	orq	$-4, %rax
106:
	leaq	(%rbx,%rax), %rdi
	movzbl	(%r14,%rdi), %ecx
	testb	%cl, %cl
	jns	109f
	movzbl	1(%rdi,%r14), %edx
	andl	$63, %edx
	cmpb	$-33, %cl
	ja	107f
	andl	$31, %ecx
	shll	$6, %ecx
	orl	%edx, %ecx
	jmp	109f
107:
	movzbl	2(%rdi,%r14), %esi
	andl	$63, %esi
	cmpb	$-17, %cl
	ja	108f
	shll	$12, %ecx
	movzwl	%cx, %ecx
	shll	$6, %edx
	orl	%ecx, %edx
	orl	%esi, %edx
	movl	%edx, %ecx
	jmp	109f
108:
	movzbl	3(%rdi,%r14), %edi
	andl	$63, %edi
	andl	$7, %ecx
	shll	$18, %ecx
	shll	$12, %edx
	orl	%ecx, %edx
	shll	$6, %esi
	orl	%edx, %esi
	orl	%edi, %esi
	movl	%esi, %ecx
109:
	cmpl	$47, %ecx
	jne	138f
	addq	%rax, %r14
	jne	105b
110:
	xorl	%r14d, %r14d
111:
	testq	%r14, %r14
	je	155f
	cmpb	$47, -1(%rbx,%r14)
	jne	140f
	movq	%r14, %rax
	jmp	154f
112:
	movq	%r12, 136(%rsp)
	movq	%rbp, 272(%rsp)
	movzbl	2168(%rsp), %edi
	movq	2176(%rsp), %rax
	movq	%rax, 408(%rsp)
	testq	%rbx, %rbx
	sete	%dl
	testq	%r15, %r15
	sete	%al
	cmpq	$0, 2192(%rsp)
	sete	%cl
	xorl	%esi, %esi
	movl	$0, %r9d
	movl	$0, %r10d
	movq	%rdi, 1192(%rsp)
	cmpq	$1, %rdi
	setne	%dil
	movq	104(%rsp), %r8
	jne	113f
	movq	2184(%rsp), %r9
	movq	408(%rsp), %r10
113:
	movq	%r10, 1176(%rsp)
	movq	%r9, 1184(%rsp)
	cmpq	$1, %r8
	movl	$0, %r8d
	cmoveq	280(%rsp), %r8
	movq	%r8, 1168(%rsp)
	cmovneq	%rsi, %r14
	movq	%r14, 1128(%rsp)
	setne	%r8b
	orb	%dl, %r8b
	movb	%r8b, 61(%rsp)
	cmpq	$1, 272(%rsp)
	movl	$0, %edx
	cmoveq	288(%rsp), %rdx
	movq	%rdx, 1160(%rsp)
	movq	136(%rsp), %rdx
	cmovneq	%rsi, %rdx
	movq	%rdx, 136(%rsp)
	setne	%dl
	orb	%al, %dl
	movb	%dl, 62(%rsp)
	orb	%cl, %dil
	movb	%dil, 63(%rsp)
	movl	$1, %eax
	movq	%rax, 1152(%rsp)
	movb	$1, %r14b
	movq	48(%rsp), %r15
	movq	24(%rsp), %r12
	jmp	67b
114:
	movb	$1, %bl
	leaq	8(%rsp), %r14
	xorl	%r15d, %r15d
	xorl	%r12d, %r12d
	jmp	171f
115:
	cmpq	$0, 416(%rsp)
	je	116f
	movq	%r15, %rdi
	callq	rattle_dealloc@PLT
116:
	addq	$48, %r14
	jmp	118f
	.p2align	4
117:
	addq	$56, %r14
	decq	%r12
	je	120f
118:
	movq	-16(%r14), %rbx
	movq	(%r14), %r15
	cmpq	$0, -24(%r14)
	je	119f
	movq	-40(%r14), %rdi
	callq	rattle_dealloc@PLT
119:
	testq	%r15, %r15
	je	117b
	movq	%rbx, %rdi
	callq	rattle_dealloc@PLT
	jmp	117b
120:
	cmpq	$0, 424(%rsp)
	je	135f
	movq	208(%rsp), %rdi
	jmp	134f
121:
	testq	%r13, %r13
	je	123f
	movq	%rbp, %rdi
122:
	callq	rattle_dealloc@PLT
123:
	cmpq	$0, 24(%rsp)
	je	125f
124:
	movq	%r14, %rdi
	callq	rattle_dealloc@PLT
125:
	movq	432(%rsp), %rbx
	movq	440(%rsp), %r15
	movq	448(%rsp), %r14
	testq	%r15, %r15
	je	128f
	leaq	16(%rbx), %r12
	jmp	127f
	.p2align	4
126:
	addq	$24, %r12
	decq	%r15
	je	128f
127:
	cmpq	$0, (%r12)
	je	126b
	movq	-16(%r12), %rdi
	callq	rattle_dealloc@PLT
	jmp	126b
128:
	testq	%r14, %r14
	je	129f
	movq	%rbx, %rdi
	callq	rattle_dealloc@PLT
129:
	movq	456(%rsp), %rbx
	movq	464(%rsp), %r12
	movq	472(%rsp), %r15
	testq	%r12, %r12
	je	133f
	leaq	48(%rbx), %r13
	jmp	131f
	.p2align	4
130:
	addq	$56, %r13
	decq	%r12
	je	133f
131:
	movq	-16(%r13), %r14
	movq	(%r13), %rbp
	cmpq	$0, -24(%r13)
	je	132f
	movq	-40(%r13), %rdi
	callq	rattle_dealloc@PLT
132:
	testq	%rbp, %rbp
	je	130b
	movq	%r14, %rdi
	callq	rattle_dealloc@PLT
	jmp	130b
133:
	testq	%r15, %r15
	je	135f
	movq	%rbx, %rdi
134:
	callq	rattle_dealloc@PLT
135:
	movq	296(%rsp), %rax
	movw	$1, (%rax)
	movw	$9729, 8(%rax)
	pxor	%xmm0, %xmm0
	movdqu	%xmm0, 10(%rax)
	movdqu	%xmm0, 26(%rax)
	movdqu	%xmm0, 42(%rax)
	movdqu	%xmm0, 58(%rax)
	movdqu	%xmm0, 74(%rax)
	movq	$0, 88(%rax)
136:
	addq	$2904, %rsp
	popq	%rbx
	popq	%r12
	popq	%r13
	popq	%r14
	popq	%r15
	popq	%rbp
	retq
137:
	movq	%rbp, %r13
	jmp	171f
138:
	cmpq	$7, %r14
	jbe	111b
	movabsq	$-9187201950435737472, %rcx
	movabsq	$9187201950435737471, %rdx
	movabsq	$3399988123389603631, %rsi
	leaq	-8(%r14), %rdi
	movq	-8(%rbx,%r14), %r8
	movq	%r8, %rax
	andq	%rdx, %rax
	xorq	%rsi, %rax
	addq	%rdx, %rax
	orq	%r8, %rax
	andq	%rcx, %rax
	cmpq	%rcx, %rax
	jne	144f
	movq	%rdi, %rax
	jmp	145f
139:
	cmpq	$0, 1488(%rsp)
	je	123b
	movq	1472(%rsp), %rdi
	jmp	122b
140:
	movq	%r14, %rax
	decq	%rax
	je	155f
	cmpb	$47, -2(%rbx,%r14)
	je	154f
	movq	%r14, %rax
	addq	$-2, %rax
	je	155f
	cmpb	$47, -3(%rbx,%r14)
	je	154f
	movq	%r14, %rax
	addq	$-3, %rax
	je	155f
	cmpb	$47, -4(%rbx,%r14)
	je	154f
	movq	%r14, %rax
	addq	$-4, %rax
	je	410f
	cmpb	$47, -5(%rbx,%r14)
	je	141f
	movq	%r14, %rax
	addq	$-5, %rax
	je	410f
	cmpb	$47, -6(%rbx,%r14)
	je	141f
	movq	%r14, %rax
	addq	$-6, %rax
	je	410f
	cmpb	$47, -7(%rbx,%r14)
	jne	421f
141:
	movq	%rbp, %r13
	jmp	154f
142:
	cmpq	$0, 448(%rsp)
	je	143f
	movq	432(%rsp), %rdi
	callq	rattle_dealloc@PLT
143:
	movl	$16, %eax
	movq	%rax, 112(%rsp)
	movb	$1, %al
	movl	%eax, 32(%rsp)
	jmp	174f
144:
	xorq	%rcx, %rax
	bsrq	%rax, %r8
	xorl	$56, %r8d
	shrl	$3, %r8d
	movq	%r14, %rax
	subq	%r8, %rax
	cmpq	%rax, %rdi
	jb	154f
145:
	movq	%rax, %rdi
	cmpq	$32, %rax
	jb	146f
	leaq	-32(%rdi), %rax
	movdqu	-32(%rbx,%rdi), %xmm0
	movdqu	-16(%rbx,%rdi), %xmm1
	movdqa	1b(%rip), %xmm2
	movdqa	%xmm0, %xmm3
	pand	%xmm2, %xmm3
	movdqa	2b(%rip), %xmm4
	pxor	3b(%rip), %xmm1
	pxor	%xmm0, %xmm4
	movq	%rsi, %xmm5
	pxor	%xmm5, %xmm3
	pslldq	$8, %xmm5
	pxor	%xmm0, %xmm5
	movdqa	%xmm1, %xmm0
	pand	4b(%rip), %xmm4
	pand	%xmm2, %xmm0
	pblendw	$15, %xmm3, %xmm4
	paddq	%xmm2, %xmm4
	por	%xmm5, %xmm4
	paddq	%xmm2, %xmm0
	por	%xmm1, %xmm0
	pand	%xmm4, %xmm0
	pshufd	$238, %xmm0, %xmm1
	pand	%xmm0, %xmm1
	movq	%xmm1, %r8
	notq	%r8
	testq	%r8, %rcx
	je	145b
146:
	leaq	-8(%rdi), %r8
	jmp	148f
147:
	addq	$-8, %rdi
	cmpq	%rax, %r8
	leaq	-8(%r8), %r8
	jb	154f
148:
	leaq	8(%r8), %rax
	cmpq	$9, %rax
	jb	153f
	movq	(%rbx,%r8), %rax
	movq	%rax, %r9
	andq	%rdx, %r9
	xorq	%rsi, %r9
	addq	%rdx, %r9
	orq	%rax, %r9
	andq	%rcx, %r9
	movq	%r8, %rax
	cmpq	%rcx, %r9
	je	147b
	xorq	%rcx, %r9
	bsrq	%r9, %r9
	xorl	$56, %r9d
	shrl	$3, %r9d
	movq	%rdi, %rax
	subq	%r9, %rax
	jmp	147b
149:
	testq	%r15, %r15
	jne	124b
	jmp	125b
150:
	testq	%r15, %r15
	je	151f
	movq	%rbx, %rdi
	callq	rattle_dealloc@PLT
151:
	testq	%r13, %r13
	movq	24(%rsp), %rbx
	je	152f
	movq	%rbp, %rdi
	callq	rattle_dealloc@PLT
152:
	testq	%rbx, %rbx
	jne	124b
	jmp	125b
153:
	movq	(%rbx), %rdi
	movq	%rdi, %rax
	andq	%rdx, %rax
	xorq	%rsi, %rax
	addq	%rdx, %rax
	orq	%rdi, %rax
	andq	%rcx, %rax
	cmpq	%rcx, %rax
	je	155f
	xorq	%rcx, %rax
	bsrq	%rax, %rcx
	xorl	$56, %ecx
	shrl	$3, %ecx
	movl	$8, %eax
	subq	%rcx, %rax
154:
	addq	%rax, %rbx
	subq	%rax, %r14
155:
	testq	%r14, %r14
	je	169f
	cmpq	$2, %r14
	jne	156f
	movzbl	(%rbx), %eax
	movzbl	1(%rbx), %ecx
	shll	$16, %eax
	movl	%ecx, %edx
	shll	$8, %edx
	orl	%eax, %edx
	orl	%ecx, %edx
	cmpl	$3026478, %edx
	jne	157f
	jmp	169f
156:
	testq	%r14, %r14
	js	158f
157:
	movl	$1, %esi
	movq	%r14, %rdi
	movq	%r10, %rbp
	callq	rattle_alloc@PLT
	movq	%rbp, %r10
	testb	$1, %al
	je	158f
	movq	%rdx, %rax
	subq	%rbx, %rax
	cmpq	%r14, %rax
	jae	159f
	xorl	%eax, %eax
	cmpq	$4, %r14
	jb	164f
	movq	%rdx, %rcx
	subq	%rbx, %rcx
	cmpq	$32, %rcx
	jb	164f
	cmpq	$32, %r14
	jae	160f
	xorl	%eax, %eax
	jmp	162f
158:
	movl	$16, %eax
	movq	%rax, 112(%rsp)
	movb	$1, %al
	movl	%eax, 32(%rsp)
	testq	%r10, %r10
	je	174f
	movq	%r12, %rdi
	jmp	173f
159:
	movq	%rdx, %rdi
	movq	%rbx, %rsi
	movq	%rdx, %rbx
	movq	%r14, %rdx
	callq	memmove@PLT
	movq	%rbx, %rdx
	jmp	168f
160:
	movq	%r14, %rax
	andq	$-32, %rax
	xorl	%ecx, %ecx
161:
	movdqu	(%rbx,%rcx), %xmm0
	movdqu	16(%rbx,%rcx), %xmm1
	movdqu	%xmm0, (%rdx,%rcx)
	movdqu	%xmm1, 16(%rdx,%rcx)
	addq	$32, %rcx
	cmpq	%rcx, %rax
	jne	161b
	cmpq	%rax, %r14
	je	168f
	testb	$28, %r14b
	je	164f
162:
	movq	%rax, %rcx
	movq	%r14, %rax
	andq	$-4, %rax
163:
	movl	(%rbx,%rcx), %esi
	movl	%esi, (%rdx,%rcx)
	addq	$4, %rcx
	cmpq	%rcx, %rax
	jne	163b
	cmpq	%rax, %r14
	je	168f
164:
	movq	%r14, %rsi
	movq	%rax, %rcx
	andq	$3, %rsi
	je	166f
	movq	%rax, %rcx
165:
	movzbl	(%rbx,%rcx), %edi
	movb	%dil, (%rdx,%rcx)
	incq	%rcx
	decq	%rsi
	jne	165b
166:
	subq	%r14, %rax
	cmpq	$-4, %rax
	ja	168f
167:
	movzbl	(%rbx,%rcx), %eax
	movb	%al, (%rdx,%rcx)
	movzbl	1(%rbx,%rcx), %eax
	movb	%al, 1(%rdx,%rcx)
	movzbl	2(%rbx,%rcx), %eax
	movb	%al, 2(%rdx,%rcx)
	movzbl	3(%rbx,%rcx), %eax
	movb	%al, 3(%rdx,%rcx)
	addq	$4, %rcx
	cmpq	%rcx, %r14
	jne	167b
168:
	movzbl	2240(%rsp), %ecx
	movq	2248(%rsp), %rdi
	movq	2264(%rsp), %rax
	movq	$1, 2240(%rsp)
	movq	%rdx, 2248(%rsp)
	movq	%r14, 2256(%rsp)
	movq	%r14, 2264(%rsp)
	cmpb	$1, %cl
	jne	169f
	testq	%rax, %rax
	movq	%r12, %r14
	movzbl	64(%rsp), %ebx
	je	170f
	callq	rattle_dealloc@PLT
	jmp	170f
169:
	movq	%r12, %r14
	movzbl	64(%rsp), %ebx
170:
	movl	$1, %r12d
171:
	cmpb	$0, 2829(%rsp)
	jne	172f
	movb	%bl, 64(%rsp)
	leaq	2160(%rsp), %rbx
	movq	%rbx, %rdi
	callq	"clap::builder::command::Command::depth"
	addq	$2, %rax
	movq	$-1, %rdi
	cmovaeq	%rax, %rdi
	movq	%rbx, %rsi
	movzbl	64(%rsp), %ebx
	callq	"clap::builder::command::building::build_levels"
	movb	%al, 2829(%rsp)
	testb	%al, %al
	jne	172f
	leaq	2160(%rsp), %rbp
	movq	%rbp, %rdi
	callq	"clap::builder::command::Command::depth"
	movq	%rax, %rdi
	movq	%rbp, %rsi
	callq	"clap::builder::command::building::name_levels"
	testb	%al, %al
	je	208f
172:
	movl	$16, %eax
	movq	%rax, 112(%rsp)
	movb	$1, %al
	movl	%eax, 32(%rsp)
	testb	%bl, %bl
	jne	174f
	movq	%r14, %rdi
173:
	callq	rattle_dealloc@PLT
174:
	movq	$0, 16(%rsp)
	movq	$0, 88(%rsp)
	movq	$0, 40(%rsp)
	xorl	%ebx, %ebx
175:
	cmpb	$1, 2208(%rsp)
	jne	176f
	cmpq	$0, 2232(%rsp)
	je	176f
	movq	2216(%rsp), %rdi
	callq	rattle_dealloc@PLT
176:
	cmpb	$1, 2240(%rsp)
	jne	177f
	cmpq	$0, 2264(%rsp)
	je	177f
	movq	2248(%rsp), %rdi
	callq	rattle_dealloc@PLT
177:
	cmpb	$1, 2272(%rsp)
	jne	178f
	cmpq	$0, 2296(%rsp)
	je	178f
	movq	2280(%rsp), %rdi
	callq	rattle_dealloc@PLT
178:
	cmpq	$0, 2536(%rsp)
	je	179f
	movq	2520(%rsp), %rdi
	callq	rattle_dealloc@PLT
179:
	cmpq	$0, 2560(%rsp)
	je	180f
	movq	2544(%rsp), %rdi
	callq	rattle_dealloc@PLT
180:
	movq	%rbx, 80(%rsp)
	cmpq	$0, 2584(%rsp)
	je	181f
	movq	2568(%rsp), %rdi
	callq	rattle_dealloc@PLT
181:
	movq	2736(%rsp), %rbx
	movq	2744(%rsp), %r13
	movq	2752(%rsp), %r12
	testq	%r13, %r13
	je	183f
	movq	%rbx, %r14
	.p2align	4
182:
	leaq	432(%rsp), %r15
	movl	$608, %edx
	movq	%r15, %rdi
	movq	%r14, %rsi
	callq	memcpy@PLT
	movq	%r15, %rdi
	callq	"clap::clap++builder++arg++Arg+Destruct::drop"
	addq	$608, %r14
	decq	%r13
	jne	182b
183:
	testq	%r12, %r12
	je	184f
	movq	%rbx, %rdi
	callq	rattle_dealloc@PLT
184:
	movq	2760(%rsp), %rbx
	movq	2768(%rsp), %r13
	movq	2776(%rsp), %r12
	testq	%r13, %r13
	je	186f
	movq	%rbx, %r14
	.p2align	4
185:
	leaq	432(%rsp), %r15
	movl	$672, %edx
	movq	%r15, %rdi
	movq	%r14, %rsi
	callq	memcpy@PLT
	movq	%r15, %rdi
	callq	"clap::clap++builder++command++Command+Destruct::drop"
	addq	$672, %r14
	decq	%r13
	jne	185b
186:
	testq	%r12, %r12
	je	187f
	movq	%rbx, %rdi
	callq	rattle_dealloc@PLT
187:
	movq	2784(%rsp), %rax
	movq	%rax, 64(%rsp)
	movq	2792(%rsp), %rbx
	movq	2800(%rsp), %rax
	movq	%rax, 120(%rsp)
	testq	%rbx, %rbx
	je	192f
	movq	64(%rsp), %rax
	leaq	88(%rax), %r13
	jmp	189f
	.p2align	4
188:
	addq	$104, %r13
	decq	%rbx
	je	192f
189:
	movq	-40(%r13), %r15
	movq	-24(%r13), %rbp
	movq	-16(%r13), %r14
	movq	(%r13), %r12
	cmpq	$0, -56(%r13)
	je	190f
	movq	-72(%r13), %rdi
	callq	rattle_dealloc@PLT
190:
	testq	%rbp, %rbp
	je	191f
	movq	%r15, %rdi
	callq	rattle_dealloc@PLT
191:
	testq	%r12, %r12
	je	188b
	movq	%r14, %rdi
	callq	rattle_dealloc@PLT
	jmp	188b
192:
	cmpq	$0, 120(%rsp)
	je	193f
	movq	64(%rsp), %rdi
	callq	rattle_dealloc@PLT
193:
	cmpb	$0, 32(%rsp)
	movq	200(%rsp), %r13
	movq	24(%rsp), %r12
	movq	80(%rsp), %r14
	movq	16(%rsp), %rdx
	movq	40(%rsp), %r10
	je	202f
	movq	112(%rsp), %r8
	cmpb	$2, %r8b
	movq	96(%rsp), %rdi
	jne	194f
	movb	$2, %r8b
	testq	%r12, %r12
	movq	48(%rsp), %rcx
	je	194f
	movq	(%rcx), %rax
	movq	8(%rcx), %rcx
	testq	%rcx, %rcx
	je	205f
	cmpb	$45, (%rax)
	jne	205f
194:
	movq	88(%rsp), %r15
195:
	pxor	%xmm0, %xmm0
	movdqa	%xmm0, 1360(%rsp)
	movdqa	%xmm0, 1344(%rsp)
	movdqa	%xmm0, 1328(%rsp)
	movq	$0, 1376(%rsp)
	movq	%r14, %rcx
	movl	%edx, %r9d
	movl	%r8d, %ebp
	testq	%rdi, %rdi
	je	265f
196:
	movq	232(%rsp), %rax
	movq	(%rax), %rdx
	pxor	%xmm0, %xmm0
	movdqa	%xmm0, 1488(%rsp)
	movdqa	%xmm0, 1472(%rsp)
	movq	$0, 1504(%rsp)
	cmpb	$16, %bpl
	jne	197f
	movb	$2, %bpl
	movb	$1, %al
	movl	%eax, 96(%rsp)
	xorl	%ebx, %ebx
	xorl	%edx, %edx
	movq	$0, 24(%rsp)
	xorl	%r14d, %r14d
	jmp	198f
197:
	leaq	1472(%rsp), %rdi
	leaq	1440(%rsp), %rsi
	movq	%r9, %rbx
	movq	%rcx, %r14
	callq	"mime_tool::words::refuse_word::<#2e1b2a3647f851f7>"
	movq	%r14, %rcx
	movq	%rbx, %r9
	movzbl	1472(%rsp), %eax
	movl	%eax, 96(%rsp)
	movzbl	1473(%rsp), %r14d
	movzbl	1480(%rsp), %ebp
	movq	1488(%rsp), %rbx
	movq	1496(%rsp), %rdx
	movq	1504(%rsp), %rax
	movq	%rax, 24(%rsp)
198:
	cmpb	$1, %r9b
	movq	%rdx, 104(%rsp)
	jne	201f
	testq	%rcx, %rcx
	je	201f
199:
	movq	%r15, %rdi
200:
	callq	rattle_dealloc@PLT
201:
	movq	48(%rsp), %r15
	jmp	285f
202:
	pxor	%xmm0, %xmm0
	movdqa	%xmm0, 432(%rsp)
	movdqa	%xmm0, 448(%rsp)
	movdqa	%xmm0, 464(%rsp)
	movdqa	%xmm0, 480(%rsp)
	movdqa	%xmm0, 496(%rsp)
	movdqa	%xmm0, 512(%rsp)
	movq	$0, 528(%rsp)
	movdqa	%xmm0, 352(%rsp)
	movq	$0, 368(%rsp)
	movzbl	%r10b, %ebx
	cmpq	$1, %rbx
	movq	%rbx, 40(%rsp)
	jne	204f
	movq	8(%r14), %rcx
	addq	$-3, %rcx
	cmpq	$4, %rcx
	ja	228f
	leaq	16(%r14), %rsi
	movq	(%r14), %rax
	leaq	423f(%rip), %rdx
	movslq	(%rdx,%rcx,4), %rcx
	addq	%rdx, %rcx
	jmpq	*%rcx
203:
	movzbl	(%rax), %ecx
	movzbl	1(%rax), %edx
	shll	$16, %ecx
	shll	$8, %edx
	orl	%ecx, %edx
	movzbl	2(%rax), %eax
	orl	%edx, %eax
	cmpl	$6910817, %eax
	jne	228f
	movdqa	%xmm0, 2192(%rsp)
	movdqa	%xmm0, 2176(%rsp)
	movdqa	%xmm0, 2160(%rsp)
	leaq	2160(%rsp), %rdi
	callq	"mime_request::request::data::source_of"
	movzbl	2168(%rsp), %r14d
	cmpb	$0, 2160(%rsp)
	movq	2176(%rsp), %rdx
	movq	2184(%rsp), %r15
	movq	2192(%rsp), %rax
	movq	2200(%rsp), %rcx
	je	367f
	movzbl	%dl, %r9d
	movq	$1, 432(%rsp)
	movb	%r14b, 440(%rsp)
	movq	%r9, 448(%rsp)
	movq	%r15, 456(%rsp)
	movq	%rax, 464(%rsp)
	movq	%rcx, 472(%rsp)
	pxor	%xmm0, %xmm0
	movdqa	%xmm0, 480(%rsp)
	movdqa	%xmm0, 496(%rsp)
	movdqa	%xmm0, 512(%rsp)
	movq	$0, 528(%rsp)
	movb	$1, %al
	movl	%r14d, %ebp
	jmp	230f
204:
	movdqa	%xmm0, 2160(%rsp)
	movdqa	%xmm0, 2176(%rsp)
	movq	$0, 2192(%rsp)
	leaq	1472(%rsp), %rbx
	movl	$0, 224(%rsp)
	movl	$680, %edx
	movq	%rbx, %rdi
	xorl	%esi, %esi
	callq	memset@PLT
	movq	%rbx, %rdi
	callq	"mime_request::command::mimelook_command"
	leaq	.Lc538526e0438(%rip), %rcx
	leaq	2160(%rsp), %rdi
	movl	$14, %r8d
	movq	%rbx, %rsi
	movl	$10, %edx
	callq	"mime_request::request::found::refusal_by"
	movzbl	2160(%rsp), %eax
	movl	%eax, 120(%rsp)
	movzbl	2168(%rsp), %eax
	movq	%rax, 32(%rsp)
	movdqa	2176(%rsp), %xmm0
	movdqa	%xmm0, 240(%rsp)
	movq	2192(%rsp), %rax
	movq	%rax, 64(%rsp)
	pxor	%xmm0, %xmm0
	movdqa	%xmm0, 384(%rsp)
	movq	$0, 400(%rsp)
	movdqa	%xmm0, 1392(%rsp)
	movdqa	%xmm0, 1408(%rsp)
	movq	16(%rsp), %r8
	jmp	232f
205:
	xorl	%edx, %edx
206:
	cmpq	%rdx, %rcx
	je	216f
	movzbl	(%rax,%rdx), %esi
	addb	$-97, %sil
	incq	%rdx
	cmpb	$26, %sil
	jb	206b
	pxor	%xmm0, %xmm0
	movdqa	%xmm0, 432(%rsp)
	movdqa	%xmm0, 448(%rsp)
	movq	$0, 464(%rsp)
	leaq	1472(%rsp), %rbx
	movl	$680, %edx
	movq	%rbx, %rdi
	xorl	%esi, %esi
	callq	memset@PLT
	movq	%rbx, %rdi
	callq	"mime_request::command::mimelook_command"
	leaq	.Ledcfde804ed8(%rip), %rcx
	leaq	432(%rsp), %rdi
	movl	$86, %r8d
	movq	%rbx, %rsi
	movl	$2, %edx
	callq	"mime_request::request::found::refusal_by"
	movzbl	432(%rsp), %r8d
	movzbl	440(%rsp), %ebx
	movq	448(%rsp), %r15
	movq	456(%rsp), %rax
	movq	%rax, 40(%rsp)
	movq	464(%rsp), %r14
	cmpb	$1, 16(%rsp)
	jne	207f
	cmpq	$0, 80(%rsp)
	je	207f
	movq	88(%rsp), %rdi
	movq	%r8, %rbp
	callq	rattle_dealloc@PLT
	movq	%rbp, %r8
207:
	movl	%ebx, %edx
	movq	96(%rsp), %rdi
	movq	40(%rsp), %r10
	jmp	195b
208:
	pxor	%xmm0, %xmm0
	movdqa	%xmm0, 144(%rsp)
	movdqa	%xmm0, 160(%rsp)
	movdqa	%xmm0, 176(%rsp)
	leaq	8(%rsp), %rax
	movq	%rax, 432(%rsp)
	movdqu	%xmm0, 440(%rsp)
	movdqu	%xmm0, 456(%rsp)
	movdqu	%xmm0, 472(%rsp)
	movdqu	%xmm0, 488(%rsp)
	movdqu	%xmm0, 504(%rsp)
	movdqu	%xmm0, 520(%rsp)
	movdqu	%xmm0, 536(%rsp)
	movq	$0, 552(%rsp)
	movq	%rbp, 1464(%rsp)
	movq	%rbp, %rdi
	callq	"clap::builder::command::Command::depth"
	movq	%r12, (%rsp)
	leaq	144(%rsp), %rdi
	leaq	1464(%rsp), %rsi
	leaq	432(%rsp), %rcx
	movq	%rax, %rdx
	movq	%r14, %r8
	movq	%r15, %r9
	callq	"clap::parser::parse::Parser::get_matches_with"
	movzbl	152(%rsp), %eax
	movq	%rax, 40(%rsp)
	movq	160(%rsp), %rbx
	cmpb	$0, 144(%rsp)
	je	217f
	movq	%r14, 120(%rsp)
	movq	%rbx, %rbp
	movq	168(%rsp), %rax
	movq	%rax, 88(%rsp)
	movq	176(%rsp), %rax
	movq	%rax, 240(%rsp)
	movq	184(%rsp), %rax
	movq	%rax, 112(%rsp)
	movq	432(%rsp), %rax
	movq	%rax, 80(%rsp)
	movq	440(%rsp), %rbx
	movq	448(%rsp), %rax
	movq	%rax, 32(%rsp)
	testq	%rbx, %rbx
	je	213f
	movq	80(%rsp), %rax
	leaq	88(%rax), %r14
	jmp	210f
209:
	addq	$104, %r14
	decq	%rbx
	je	213f
210:
	movq	-40(%r14), %r15
	movq	-24(%r14), %r13
	movq	-16(%r14), %rax
	movq	%rax, 16(%rsp)
	movq	(%r14), %r12
	cmpq	$0, -48(%r14)
	je	211f
	movq	-64(%r14), %rdi
	callq	rattle_dealloc@PLT
211:
	testq	%r13, %r13
	je	212f
	movq	%r15, %rdi
	callq	rattle_dealloc@PLT
212:
	testq	%r12, %r12
	je	209b
	movq	16(%rsp), %rdi
	callq	rattle_dealloc@PLT
	jmp	209b
213:
	movzbl	%bpl, %ebx
	cmpq	$0, 32(%rsp)
	je	214f
	movq	80(%rsp), %rdi
	callq	rattle_dealloc@PLT
214:
	cmpb	$1, 456(%rsp)
	movb	$1, %al
	movl	%eax, 32(%rsp)
	movq	%rbx, 16(%rsp)
	jne	335f
	cmpq	$0, 504(%rsp)
	movq	120(%rsp), %r14
	je	215f
	movq	488(%rsp), %rdi
	callq	rattle_dealloc@PLT
215:
	movq	40(%rsp), %rax
	movq	240(%rsp), %rcx
	movq	%rcx, 40(%rsp)
	movq	112(%rsp), %rbx
	jmp	389f
216:
	movq	88(%rsp), %r15
	movq	16(%rsp), %rdx
	jmp	195b
217:
	movq	432(%rsp), %rax
	movq	440(%rsp), %rcx
	movq	%rcx, 16(%rsp)
	movq	448(%rsp), %rcx
	cmpb	$1, 456(%rsp)
	jne	218f
	cmpq	$0, 504(%rsp)
	je	218f
	movq	488(%rsp), %rdi
	movq	%r14, %r12
	movq	%rax, %r14
	movq	%rcx, %r15
	callq	rattle_dealloc@PLT
	movq	%r15, %rcx
	movq	%r14, %rax
	movq	%r12, %r14
218:
	cmpb	$0, 2830(%rsp)
	je	334f
	movq	%r14, 120(%rsp)
	movq	%rax, 304(%rsp)
	movq	16(%rsp), %rax
	movq	%rax, 312(%rsp)
	movq	%rcx, 320(%rsp)
	movq	40(%rsp), %rax
	movq	%rax, 328(%rsp)
	movq	%rbx, 80(%rsp)
	movq	%rbx, 336(%rsp)
	leaq	8(%rsp), %rcx
	movq	%rcx, 352(%rsp)
	pxor	%xmm0, %xmm0
	movdqu	%xmm0, 360(%rsp)
	leaq	304(%rsp), %rax
	movq	%rax, 16(%rsp)
	xorl	%r15d, %r15d
	movq	%rbp, %rsi
	movq	584(%rsi), %r14
	testq	%r14, %r14
	je	224f
219:
	movq	576(%rsi), %rbx
	jmp	223f
220:
	movq	352(%rsp), %rcx
	movq	360(%rsp), %r15
	movq	112(%rsp), %rsi
221:
	movq	%r15, %rax
	shlq	$4, %rax
	movq	%r12, (%rcx,%rax)
	movq	%r13, 8(%rcx,%rax)
	incq	%r15
	movq	%r15, 360(%rsp)
	movq	%rbp, %r13
222:
	addq	$608, %rbx
	decq	%r14
	je	224f
223:
	cmpb	$1, 593(%rbx)
	jne	222b
	movq	%r13, %rbp
	movq	(%rbx), %r12
	movq	8(%rbx), %r13
	cmpq	%r15, 368(%rsp)
	jne	221b
	movq	%rsi, 112(%rsp)
	leaq	352(%rsp), %rdi
	movl	$1, %esi
	callq	"std_alloc::vec::Vec::grow_amortized::<#3af3ba23e56e6a09>"
	testb	%al, %al
	jne	220b
	jmp	379f
224:
	movq	16(%rsp), %r14
	cmpb	$1, 24(%r14)
	jne	337f
	movq	%rcx, %rbx
	movq	32(%r14), %r14
	movq	(%r14), %rdx
	movq	8(%r14), %rcx
	movq	600(%rsi), %rdi
	movq	608(%rsi), %rsi
	callq	"clap::builder::command::Command::find_subcommand"
	cmpb	$1, %al
	jne	337f
	movq	%rdx, %rsi
	addq	$16, %r14
	movq	%r14, 16(%rsp)
	movq	%rbx, %rcx
	movq	584(%rsi), %r14
	testq	%r14, %r14
	jne	219b
	jmp	224b
225:
	movl	(%rax), %ecx
	movl	1(%rax), %eax
	shlq	$32, %rax
	orq	%rcx, %rax
	movabsq	$7236274654328485218, %rcx
	cmpq	%rcx, %rax
	je	344f
	movabsq	$7738140083771238499, %rcx
	cmpq	%rcx, %rax
	je	342f
	movabsq	$7955997334979046512, %rcx
	cmpq	%rcx, %rax
	jne	228f
	movdqa	%xmm0, 1472(%rsp)
	movdqa	%xmm0, 1488(%rsp)
	movdqa	%xmm0, 1504(%rsp)
	movdqa	%xmm0, 2160(%rsp)
	movdqa	%xmm0, 2176(%rsp)
	movdqa	%xmm0, 2192(%rsp)
	movdqa	%xmm0, 144(%rsp)
	movdqa	%xmm0, 160(%rsp)
	movq	$0, 176(%rsp)
	movq	16(%r14), %rsi
	movq	24(%r14), %rdx
	leaq	1472(%rsp), %rdi
	callq	"mime_request::request::flags::options_of"
	movzbl	1480(%rsp), %ebp
	cmpb	$0, 1472(%rsp)
	je	393f
	movzbl	1488(%rsp), %r9d
	movq	1512(%rsp), %rax
	movq	$1, 432(%rsp)
	movb	%bpl, 440(%rsp)
	movq	%r9, 448(%rsp)
	movdqu	1496(%rsp), %xmm0
	movdqu	%xmm0, 456(%rsp)
	movq	%rax, 472(%rsp)
	jmp	399f
226:
	movl	(%rax), %ecx
	movq	%rcx, %rax
	shlq	$32, %rax
	orq	%rcx, %rax
	movabsq	$7309475736047352180, %r14
	cmpq	%r14, %rax
	je	348f
	movabsq	$7957688371062465385, %rcx
	cmpq	%rcx, %rax
	je	347f
	movabsq	$8391166445252471148, %rcx
	cmpq	%rcx, %rax
	jne	228f
	movdqa	%xmm0, 1504(%rsp)
	movdqa	%xmm0, 1488(%rsp)
	movdqa	%xmm0, 1472(%rsp)
	leaq	1472(%rsp), %rdi
	callq	"mime_request::request::data::source_of"
	movzbl	1480(%rsp), %ebp
	movq	1488(%rsp), %rdi
	cmpb	$0, 1472(%rsp)
	movq	1496(%rsp), %rcx
	movq	1504(%rsp), %rdx
	movq	1512(%rsp), %rsi
	pxor	%xmm0, %xmm0
	movdqu	%xmm0, 488(%rsp)
	movdqu	%xmm0, 504(%rsp)
	movdqu	%xmm0, 520(%rsp)
	jne	343f
	movzbl	%bpl, %r9d
	movb	$2, %bpl
	jmp	391f
227:
	movl	(%rax), %ecx
	movl	3(%rax), %eax
	shlq	$32, %rax
	orq	%rcx, %rax
	movabsq	$7955997335030364261, %rcx
	cmpq	%rcx, %rax
	jne	228f
	movdqa	%xmm0, 2160(%rsp)
	movdqa	%xmm0, 2176(%rsp)
	movdqa	%xmm0, 2192(%rsp)
	movdqa	%xmm0, 144(%rsp)
	movdqa	%xmm0, 160(%rsp)
	movdqa	%xmm0, 176(%rsp)
	leaq	2160(%rsp), %rdi
	movq	%rsi, %r14
	callq	"mime_request::request::data::source_of"
	movzbl	2168(%rsp), %r15d
	cmpb	$0, 2160(%rsp)
	movq	2176(%rsp), %rax
	movq	2184(%rsp), %r12
	movq	2192(%rsp), %rbx
	movq	2200(%rsp), %r13
	je	372f
	movq	$1, 432(%rsp)
	movb	%r15b, 440(%rsp)
	movl	%r15d, %ebp
	movzbl	%al, %ecx
	movq	%rcx, 448(%rsp)
	movq	%r12, 456(%rsp)
	movq	%rbx, 464(%rsp)
	movq	%r13, 472(%rsp)
	pxor	%xmm0, %xmm0
	movdqa	%xmm0, 480(%rsp)
	movdqa	%xmm0, 496(%rsp)
	movdqa	%xmm0, 512(%rsp)
	movq	$0, 528(%rsp)
	movb	$1, %al
	movl	%ecx, %r9d
	jmp	230f
228:
	movdqa	%xmm0, 2160(%rsp)
	movdqa	%xmm0, 2176(%rsp)
	movq	$0, 2192(%rsp)
	leaq	1472(%rsp), %rbx
	movl	$680, %edx
	movq	%rbx, %rdi
	xorl	%esi, %esi
	callq	memset@PLT
	movq	%rbx, %rdi
	callq	"mime_request::command::mimelook_command"
	leaq	.L529c2075d67a(%rip), %rcx
	leaq	2160(%rsp), %rdi
	movl	$32, %r8d
	movq	%rbx, %rsi
	movl	$2, %edx
	callq	"mime_request::request::found::refusal_by"
	movzbl	2160(%rsp), %ebp
	movzbl	2168(%rsp), %r9d
	movq	2192(%rsp), %rax
	movq	%rax, 368(%rsp)
	movdqa	2176(%rsp), %xmm0
	movdqa	%xmm0, 352(%rsp)
	movq	$1, 432(%rsp)
	movb	%bpl, 440(%rsp)
	movq	%r9, 448(%rsp)
	movdqu	%xmm0, 456(%rsp)
	movq	%rax, 472(%rsp)
229:
	movb	$1, %al
230:
	movq	16(%rsp), %r8
231:
	movl	%ebp, 120(%rsp)
	movq	%r9, 32(%rsp)
	movups	456(%rsp), %xmm0
	movaps	%xmm0, 240(%rsp)
	movq	472(%rsp), %rcx
	movq	%rcx, 64(%rsp)
	movzbl	480(%rsp), %ecx
	movb	%cl, 384(%rsp)
	movl	481(%rsp), %ecx
	movl	%ecx, 385(%rsp)
	movzwl	485(%rsp), %ecx
	movw	%cx, 389(%rsp)
	movzbl	487(%rsp), %ecx
	movb	%cl, 391(%rsp)
	movzbl	488(%rsp), %ecx
	movb	%cl, 392(%rsp)
	movl	489(%rsp), %ecx
	movl	%ecx, 393(%rsp)
	movzwl	493(%rsp), %ecx
	movw	%cx, 397(%rsp)
	movzbl	495(%rsp), %ecx
	movb	%cl, 399(%rsp)
	movq	496(%rsp), %rcx
	movq	%rcx, 400(%rsp)
	movups	504(%rsp), %xmm0
	movaps	%xmm0, 1392(%rsp)
	movdqu	520(%rsp), %xmm0
	movdqa	%xmm0, 1408(%rsp)
	testb	%al, %al
	sete	%al
	movl	%eax, 224(%rsp)
232:
	testq	%r8, %r8
	je	237f
	movq	112(%rsp), %rax
	leaq	88(%rax), %r13
	jmp	234f
	.p2align	4
233:
	addq	$104, %r13
	movq	%r15, %r8
	decq	%r8
	je	237f
234:
	movq	%r8, %r15
	movq	-40(%r13), %r14
	movq	-24(%r13), %rbp
	movq	-16(%r13), %rbx
	movq	(%r13), %r12
	cmpq	$0, -48(%r13)
	je	235f
	movq	-64(%r13), %rdi
	callq	rattle_dealloc@PLT
235:
	testq	%rbp, %rbp
	je	236f
	movq	%r14, %rdi
	callq	rattle_dealloc@PLT
236:
	testq	%r12, %r12
	je	233b
	movq	%rbx, %rdi
	callq	rattle_dealloc@PLT
	jmp	233b
237:
	cmpq	$0, 88(%rsp)
	movq	40(%rsp), %rbx
	je	238f
	movq	112(%rsp), %rdi
	callq	rattle_dealloc@PLT
238:
	cmpl	$1, %ebx
	movq	200(%rsp), %r13
	movq	24(%rsp), %r12
	movq	80(%rsp), %rdi
	movl	120(%rsp), %ebp
	jne	239f
	movzbl	40(%rdi), %ebx
	movq	48(%rdi), %r14
	movups	(%rdi), %xmm0
	movaps	%xmm0, 432(%rsp)
	movq	32(%rdi), %rax
	movq	%rax, 464(%rsp)
	movups	16(%rdi), %xmm0
	movaps	%xmm0, 448(%rsp)
	callq	rattle_dealloc@PLT
	movdqa	432(%rsp), %xmm0
	movdqa	448(%rsp), %xmm1
	movdqa	%xmm0, 1472(%rsp)
	movdqa	%xmm1, 1488(%rsp)
	movq	464(%rsp), %rax
	movq	%rax, 1504(%rsp)
	movq	%rbx, 1512(%rsp)
	movq	%r14, 1520(%rsp)
	leaq	1472(%rsp), %rdi
	callq	"mime_request::clap++parser++matches++SubCommand+Destruct::drop"
239:
	movq	400(%rsp), %rax
	movq	%rax, 1344(%rsp)
	movaps	384(%rsp), %xmm0
	movaps	%xmm0, 1328(%rsp)
	movaps	1392(%rsp), %xmm0
	movdqa	1408(%rsp), %xmm1
	movups	%xmm0, 1352(%rsp)
	movdqu	%xmm1, 1368(%rsp)
	movdqa	240(%rsp), %xmm0
	movq	%xmm0, %r15
	pextrq	$1, %xmm0, %r10
	cmpb	$0, 224(%rsp)
	movq	1128(%rsp), %rdi
	movq	136(%rsp), %r8
	je	264f
	leaq	1352(%rsp), %rax
	movzbl	%bpl, %esi
	movq	%rsi, 1232(%rsp)
	movzbl	32(%rsp), %ecx
	movq	%rcx, 1240(%rsp)
	movdqa	%xmm0, 1248(%rsp)
	movq	64(%rsp), %rcx
	movq	%rcx, 1264(%rsp)
	movaps	1328(%rsp), %xmm0
	movups	%xmm0, 1272(%rsp)
	movq	1344(%rsp), %rcx
	movq	%rcx, 1288(%rsp)
	movdqu	(%rax), %xmm0
	movdqu	16(%rax), %xmm1
	movdqa	%xmm0, 1296(%rsp)
	movdqa	%xmm1, 1312(%rsp)
	pxor	%xmm0, %xmm0
	movdqa	%xmm0, 432(%rsp)
	movdqa	%xmm0, 448(%rsp)
	movq	$0, 464(%rsp)
	movq	$0, 1552(%rsp)
	leaq	8(%rsp), %rax
	leaq	424f(%rip), %rcx
	movslq	(%rcx,%rsi,4), %rdx
	addq	%rcx, %rdx
	movq	96(%rsp), %r9
	movq	%r10, 40(%rsp)
	movq	%rsi, 192(%rsp)
	jmpq	*%rdx
240:
	xorl	%ecx, %ecx
241:
	movq	272(%rsp), %rdx
242:
	testq	%r9, %r9
	je	308f
	movq	232(%rsp), %rdi
	testq	%rcx, %rcx
	je	263f
	xorl	%esi, %esi
243:
	leaq	(%rsi,%rsi,4), %rdi
	movq	232(%rsp), %r12
	movq	16(%r12,%rdi,8), %r8
	leaq	-8(%r8), %rdx
	leaq	-16(%r8), %r10
	cmpq	$32, %r10
	movl	$32, %r11d
	cmovbq	%r10, %r11
	cmpq	$8, %rdx
	movl	$8, %ebx
	cmovbq	%rdx, %rbx
	cmpq	$16, %rdx
	movl	$16, %r14d
	cmovbq	%rdx, %r14
	movq	8(%r12,%rdi,8), %r9
	movq	%r8, %rdx
	leaq	(%r12,%rdi,8), %rdi
	subq	$8, %rdx
	jae	246f
	cmpq	$4, %r8
	jb	249f
	leaq	8(%rax), %rdx
	movq	%rcx, %r10
	jmp	245f
244:
	addq	$16, %rdx
	decq	%r10
	je	262f
245:
	cmpq	%r8, (%rdx)
	jne	244b
	movq	-8(%rdx), %r11
	movl	(%r11), %ebx
	movl	-4(%r11,%r8), %r11d
	shlq	$32, %r11
	orq	%rbx, %r11
	movl	(%r9), %ebx
	movl	-4(%r9,%r8), %r14d
	shlq	$32, %r14
	orq	%rbx, %r14
	cmpq	%r14, %r11
	jne	244b
	jmp	259f
246:
	cmpq	$32, %r8
	ja	252f
	leaq	8(%rax), %r10
	movq	%rcx, %r11
	jmp	248f
247:
	addq	$16, %r10
	decq	%r11
	je	262f
248:
	cmpq	%r8, (%r10)
	jne	247b
	movq	-8(%r10), %r12
	movq	(%r12), %r13
	cmpq	(%r9), %r13
	movq	200(%rsp), %r13
	jne	247b
	movq	(%r9,%rbx), %r13
	cmpq	%r13, (%r12,%rbx)
	movq	200(%rsp), %r13
	jne	247b
	movq	(%r9,%r14), %r13
	cmpq	%r13, (%r12,%r14)
	movq	200(%rsp), %r13
	jne	247b
	movq	(%r9,%rdx), %r13
	cmpq	%r13, (%r12,%rdx)
	movq	200(%rsp), %r13
	jne	247b
	jmp	259f
249:
	testq	%r8, %r8
	je	260f
	movq	%r8, %rdx
	shrq	%rdx
	leaq	8(%rax), %r10
	movq	%rcx, %r11
	jmp	251f
250:
	addq	$16, %r10
	decq	%r11
	je	262f
251:
	cmpq	%r8, (%r10)
	jne	250b
	movq	-8(%r10), %rbx
	movzbl	(%rbx), %ebp
	movzbl	(%rbx,%rdx), %r14d
	shll	$16, %ebp
	shll	$8, %r14d
	orl	%ebp, %r14d
	movzbl	-1(%rbx,%r8), %ebx
	orl	%r14d, %ebx
	movzbl	(%r9), %ebp
	movzbl	(%r9,%rdx), %r14d
	shll	$16, %ebp
	shll	$8, %r14d
	orl	%ebp, %r14d
	movzbl	-1(%r9,%r8), %ebp
	orl	%r14d, %ebp
	cmpl	%ebp, %ebx
	jne	250b
	jmp	259f
252:
	cmpq	$65, %r8
	jae	255f
	leaq	8(%rax), %rdx
	movq	%rcx, %rbx
	jmp	254f
253:
	addq	$16, %rdx
	decq	%rbx
	je	262f
254:
	cmpq	%r8, (%rdx)
	jne	253b
	movq	-8(%rdx), %r14
	movdqu	(%r14), %xmm0
	movdqu	16(%r14), %xmm1
	movdqu	(%r9), %xmm2
	pcmpeqb	%xmm0, %xmm2
	movdqu	16(%r9), %xmm0
	pcmpeqb	%xmm1, %xmm0
	pand	%xmm2, %xmm0
	movdqu	(%r14,%r11), %xmm1
	movdqu	(%r9,%r11), %xmm2
	pcmpeqb	%xmm1, %xmm2
	movdqu	(%r14,%r10), %xmm1
	movdqu	(%r9,%r10), %xmm3
	pcmpeqb	%xmm1, %xmm3
	pand	%xmm2, %xmm3
	pand	%xmm0, %xmm3
	pmovmskb	%xmm3, %ebp
	cmpl	$65535, %ebp
	jne	253b
	jmp	259f
255:
	xorl	%r10d, %r10d
	jmp	257f
256:
	incq	%r10
	cmpq	%rcx, %r10
	je	262f
257:
	movq	%r10, %rdx
	shlq	$4, %rdx
	cmpq	%r8, 8(%rax,%rdx)
	jne	256b
	movq	(%rax,%rdx), %r11
	xorl	%edx, %edx
	movq	%r8, %rbx
258:
	movdqu	(%r11,%rdx), %xmm0
	movdqu	16(%r11,%rdx), %xmm1
	movdqu	32(%r11,%rdx), %xmm2
	movdqu	48(%r11,%rdx), %xmm3
	movdqu	(%r9,%rdx), %xmm4
	pcmpeqb	%xmm0, %xmm4
	movdqu	16(%r9,%rdx), %xmm0
	pcmpeqb	%xmm1, %xmm0
	pand	%xmm4, %xmm0
	movdqu	32(%r9,%rdx), %xmm1
	pcmpeqb	%xmm2, %xmm1
	movdqu	48(%r9,%rdx), %xmm2
	pcmpeqb	%xmm3, %xmm2
	pand	%xmm1, %xmm2
	pand	%xmm0, %xmm2
	pmovmskb	%xmm2, %ebp
	cmpl	$65535, %ebp
	jne	256b
	addq	$64, %rdx
	addq	$-64, %rbx
	cmpq	$65, %rbx
	jae	258b
	movdqu	-64(%r11,%r8), %xmm0
	movdqu	-48(%r11,%r8), %xmm1
	movdqu	-32(%r11,%r8), %xmm2
	movdqu	-16(%r11,%r8), %xmm3
	movdqu	-64(%r9,%r8), %xmm4
	pcmpeqb	%xmm0, %xmm4
	movdqu	-48(%r9,%r8), %xmm0
	pcmpeqb	%xmm1, %xmm0
	pand	%xmm4, %xmm0
	movdqu	-32(%r9,%r8), %xmm1
	pcmpeqb	%xmm2, %xmm1
	movdqu	-16(%r9,%r8), %xmm2
	pcmpeqb	%xmm3, %xmm2
	pand	%xmm1, %xmm2
	pand	%xmm0, %xmm2
	pmovmskb	%xmm2, %edx
	cmpl	$65535, %edx
	jne	256b
259:
	incq	%rsi
	movq	96(%rsp), %r9
	cmpq	%r9, %rsi
	movq	24(%rsp), %r12
	movq	1128(%rsp), %rdi
	movq	272(%rsp), %rdx
	movq	136(%rsp), %r8
	jne	243b
	jmp	308f
260:
	leaq	8(%rax), %rdx
	movq	%rcx, %r8
261:
	cmpq	$0, (%rdx)
	je	259b
	addq	$16, %rdx
	decq	%r8
	jne	261b
262:
	movq	24(%rsp), %r12
263:
	movq	(%rdi), %rdx
	leaq	432(%rsp), %rdi
	leaq	1440(%rsp), %rsi
	callq	"mime_tool::words::refuse_word::<#2e1b2a3647f851f7>"
	movzbl	432(%rsp), %eax
	movl	%eax, 96(%rsp)
	movzbl	433(%rsp), %r14d
	movzbl	440(%rsp), %ebp
	movq	448(%rsp), %rbx
	movq	456(%rsp), %rdx
	movq	464(%rsp), %rax
	movq	%rax, 24(%rsp)
	leaq	425f(%rip), %rax
	movq	192(%rsp), %rcx
	movslq	(%rax,%rcx,4), %rcx
	addq	%rax, %rcx
	jmpq	*%rcx
264:
	movq	96(%rsp), %rdi
	movq	32(%rsp), %r9
	movq	64(%rsp), %rcx
	testq	%rdi, %rdi
	jne	196b
265:
	cmpb	$16, %bpl
	jne	268f
	cmpb	$1, %r9b
	jne	267f
	testq	%rcx, %rcx
	je	267f
266:
	movq	%r15, %rdi
	callq	rattle_dealloc@PLT
267:
	leaq	1104(%rsp), %rdi
	callq	"mime_tool::system::StreamSink::flush::<#87f05e477b504f42>"
	movb	$2, %bpl
	movq	$0, 24(%rsp)
	xorl	%ebx, %ebx
	movq	48(%rsp), %r15
	jmp	289f
268:
	pxor	%xmm0, %xmm0
	movdqu	%xmm0, 1480(%rsp)
	movl	$0, 1529(%rsp)
	movl	$0, 1532(%rsp)
	leaq	8(%rsp), %rax
	movq	%rax, 1472(%rsp)
	movq	$0, 1520(%rsp)
	movb	$0, 1528(%rsp)
	movl	$32, 1496(%rsp)
	movq	$0, 1500(%rsp)
	movl	$0, 1508(%rsp)
	movq	$-1, 1512(%rsp)
	cmpb	$1, %r9b
	movq	%rcx, 64(%rsp)
	jne	315f
	testq	%r10, %r10
	jne	320f
	xorl	%edx, %edx
	xorl	%eax, %eax
269:
	leaq	(%rax,%r10), %r14
	movq	192(%rsp), %rcx
	leaq	(%rcx,%rax), %rdi
	movq	%rdi, %rcx
	subq	%r15, %rcx
	cmpq	%r10, %rcx
	movq	%rdx, 24(%rsp)
	jae	276f
	cmpq	$4, %r10
	jb	270f
	cmpq	$32, %rcx
	jae	314f
270:
	xorl	%ecx, %ecx
271:
	movq	%r10, %rsi
	movq	%rcx, %rdx
	andq	$3, %rsi
	je	273f
	movq	%rcx, %rdx
272:
	movzbl	(%r15,%rdx), %r8d
	movb	%r8b, (%rdi,%rdx)
	incq	%rdx
	decq	%rsi
	jne	272b
273:
	subq	%r10, %rcx
	cmpq	$-4, %rcx
	ja	275f
	movq	192(%rsp), %rcx
	addq	%rcx, %rax
	addq	$3, %rax
274:
	movzbl	(%r15,%rdx), %ecx
	movb	%cl, -3(%rax,%rdx)
	movzbl	1(%r15,%rdx), %ecx
	movb	%cl, -2(%rax,%rdx)
	movzbl	2(%r15,%rdx), %ecx
	movb	%cl, -1(%rax,%rdx)
	movzbl	3(%r15,%rdx), %ecx
	movb	%cl, (%rax,%rdx)
	addq	$4, %rdx
	cmpq	%rdx, %r10
	jne	274b
275:
	movq	%r9, %rbx
	jmp	277f
276:
	movq	%r10, %rdx
	movq	%r9, %rbx
	movq	%r15, %rsi
	callq	memmove@PLT
277:
	cmpb	$11, %bpl
	jb	278f
	movzbl	%bpl, %eax
	movl	$53248, %ecx
	btl	%eax, %ecx
	jae	310f
278:
	leaq	1104(%rsp), %rdi
	callq	"mime_tool::system::StreamSink::flush::<#87f05e477b504f42>"
	testb	%al, %al
	je	280f
279:
	incb	%dl
	movl	%edx, 136(%rsp)
	jmp	281f
280:
	movq	192(%rsp), %rdi
	movq	%r14, %rsi
	callq	"mime_tool::stop::complain::<#6dca9f1b7737a2bb>"
	testb	%al, %al
	je	312f
	addb	%al, %al
	movl	%eax, 136(%rsp)
281:
	movb	$1, %al
	movl	%eax, 96(%rsp)
	xorl	%r14d, %r14d
282:
	movq	%rbx, %rax
	movq	64(%rsp), %rcx
	movq	24(%rsp), %rdx
	testq	%rdx, %rdx
	je	283f
	movq	192(%rsp), %rdi
	movq	%rax, %rbx
	movl	%r14d, %ebp
	movq	%rcx, %r14
	callq	rattle_dealloc@PLT
	movq	%r14, %rcx
	movl	%ebp, %r14d
	movq	%rbx, %rax
283:
	xorl	%ebx, %ebx
	cmpb	$1, %al
	jne	284f
	testq	%rcx, %rcx
	je	284f
	movq	%r15, %rdi
	callq	rattle_dealloc@PLT
	xorl	%ebx, %ebx
284:
	movq	$0, 104(%rsp)
	movq	$0, 24(%rsp)
	movq	48(%rsp), %r15
	movl	136(%rsp), %ebp
285:
	leaq	1104(%rsp), %rdi
	callq	"mime_tool::system::StreamSink::flush::<#87f05e477b504f42>"
	cmpb	$0, 96(%rsp)
	jne	286f
	testb	%al, %al
	je	291f
	incb	%dl
	xorl	%ebx, %ebx
	movq	$0, 104(%rsp)
	movq	$0, 24(%rsp)
	movl	%edx, %ebp
286:
	cmpb	$2, %bpl
	je	289f
	movzbl	%bpl, %eax
	cmpl	$1, %eax
	jne	287f
	leaq	.Lc1457d64b35f(%rip), %rdi
	movl	$30, %esi
	jmp	288f
287:
	movq	%rbx, %rdi
	movq	104(%rsp), %rsi
288:
	callq	"mime_tool::stop::complain::<#6dca9f1b7737a2bb>"
	movb	$3, %r14b
	testb	%al, %al
	je	290f
289:
	leaq	.Ld6e62bfbaaae(%rip), %rdi
	movl	$24, %esi
	callq	"mime_tool::stop::complain::<#6dca9f1b7737a2bb>"
	movb	$4, %r14b
290:
	testb	%bpl, %bpl
	jne	291f
	cmpq	$0, 24(%rsp)
	je	291f
	movq	%rbx, %rdi
	callq	rattle_dealloc@PLT
291:
	movdqa	1104(%rsp), %xmm0
	movdqa	%xmm0, 432(%rsp)
	movq	1120(%rsp), %rax
	movq	%rax, 448(%rsp)
	leaq	1472(%rsp), %rdi
	leaq	432(%rsp), %rsi
	callq	"std::io::buffered::BufWriter::flush_buf::<#ae3f758803b9f9a3>"
	cmpq	$0, 448(%rsp)
	je	292f
	movq	432(%rsp), %rdi
	callq	rattle_dealloc@PLT
292:
	cmpb	$0, 1136(%rsp)
	movzbl	216(%rsp), %ebx
	je	295f
	cmpb	$0, 61(%rsp)
	je	306f
	cmpb	$0, 62(%rsp)
	je	307f
293:
	cmpb	$0, 63(%rsp)
	jne	295f
294:
	movq	408(%rsp), %rdi
	callq	rattle_dealloc@PLT
295:
	testb	%bl, %bl
	jne	296f
	movq	232(%rsp), %rdi
	callq	rattle_dealloc@PLT
296:
	testq	%r12, %r12
	je	299f
	leaq	16(%r15), %rbx
	jmp	298f
	.p2align	4
297:
	addq	$24, %rbx
	decq	%r12
	je	299f
298:
	cmpq	$0, (%rbx)
	je	297b
	movq	-16(%rbx), %rdi
	callq	rattle_dealloc@PLT
	jmp	297b
299:
	cmpq	$0, 416(%rsp)
	je	300f
	movq	%r15, %rdi
	callq	rattle_dealloc@PLT
300:
	testq	%r13, %r13
	je	304f
	movq	208(%rsp), %rax
	leaq	48(%rax), %r15
	jmp	302f
	.p2align	4
301:
	addq	$56, %r15
	decq	%r13
	je	304f
302:
	movq	-16(%r15), %rbx
	movq	(%r15), %r12
	cmpq	$0, -24(%r15)
	je	303f
	movq	-40(%r15), %rdi
	callq	rattle_dealloc@PLT
303:
	testq	%r12, %r12
	je	301b
	movq	%rbx, %rdi
	callq	rattle_dealloc@PLT
	jmp	301b
304:
	cmpq	$0, 424(%rsp)
	je	305f
	movq	208(%rsp), %rdi
	callq	rattle_dealloc@PLT
305:
	movq	296(%rsp), %rax
	movb	$0, (%rax)
	movb	%r14b, 1(%rax)
	pxor	%xmm0, %xmm0
	movdqu	%xmm0, 8(%rax)
	movq	$0, 24(%rax)
	movaps	2832(%rsp), %xmm0
	movaps	2848(%rsp), %xmm1
	movaps	2864(%rsp), %xmm2
	movaps	2880(%rsp), %xmm3
	movups	%xmm0, 32(%rax)
	movups	%xmm1, 48(%rax)
	movups	%xmm2, 64(%rax)
	movups	%xmm3, 80(%rax)
	jmp	136b
306:
	movq	280(%rsp), %rdi
	callq	rattle_dealloc@PLT
	cmpb	$0, 62(%rsp)
	jne	293b
307:
	movq	288(%rsp), %rdi
	callq	rattle_dealloc@PLT
	cmpb	$0, 63(%rsp)
	je	294b
	jmp	295b
308:
	movq	1152(%rsp), %rax
	movq	%rax, 1472(%rsp)
	movq	104(%rsp), %rax
	movq	%rax, 1480(%rsp)
	movq	1168(%rsp), %rax
	movq	%rax, 1488(%rsp)
	movq	%rdi, 1496(%rsp)
	movq	%rdx, 1504(%rsp)
	movq	1160(%rsp), %rax
	movq	%rax, 1512(%rsp)
	movq	%r8, 1520(%rsp)
	movq	1192(%rsp), %rax
	movq	%rax, 1528(%rsp)
	movq	1176(%rsp), %rax
	movq	%rax, 1536(%rsp)
	movq	1184(%rsp), %rax
	movq	%rax, 1544(%rsp)
	movzbl	135(%rsp), %eax
	movb	%al, 1552(%rsp)
	leaq	432(%rsp), %rdi
	leaq	1440(%rsp), %rsi
	leaq	1472(%rsp), %rdx
	leaq	1232(%rsp), %rcx
	movq	232(%rsp), %r8
	callq	"mime_tool::program::answer::<#2d382ade8d012bfb>"
	movzbl	432(%rsp), %eax
	movl	%eax, 96(%rsp)
	movzbl	433(%rsp), %r14d
	movzbl	440(%rsp), %ebp
	movq	448(%rsp), %rbx
	movq	456(%rsp), %rdx
	movq	464(%rsp), %rax
	movq	%rax, 24(%rsp)
	leaq	425f(%rip), %rax
	movq	192(%rsp), %rcx
	movslq	(%rax,%rcx,4), %rcx
	addq	%rax, %rcx
	jmpq	*%rcx
309:
	cmpb	$1, 32(%rsp)
	movq	%rdx, 104(%rsp)
	jne	201b
	testb	%r15b, %r15b
	jne	201b
	cmpq	$0, 1272(%rsp)
	movq	48(%rsp), %r15
	je	285b
	movq	40(%rsp), %rdi
	callq	rattle_dealloc@PLT
	jmp	285b
310:
	testq	%r14, %r14
	je	311f
	leaq	1104(%rsp), %rdi
	movq	192(%rsp), %rsi
	movq	%r14, %rdx
	callq	"mime_tool::system::StreamSink::put::<#87f05e477b504f42>"
	testb	%al, %al
	jne	279b
311:
	movl	$0, 96(%rsp)
	xorl	%r14d, %r14d
	jmp	313f
312:
	movb	$2, %r14b
	movl	$0, 96(%rsp)
313:
	movl	$0, 136(%rsp)
	jmp	282b
314:
	cmpq	$32, %r10
	jae	316f
	xorl	%ecx, %ecx
	jmp	318f
315:
	movq	%r9, %rbx
	leaq	1472(%rsp), %rdi
	movl	$21, %esi
	callq	"std_alloc::vec::Vec::grow_amortized::<#1d775b5957dec42c>"
	testb	%al, %al
	je	321f
	movq	1488(%rsp), %rax
	movq	%rax, 24(%rsp)
	movq	1472(%rsp), %rcx
	movq	1480(%rsp), %r14
	pxor	%xmm0, %xmm0
	leaq	1480(%rsp), %rax
	movdqu	%xmm0, (%rax)
	movq	%rcx, 192(%rsp)
	leaq	(%rcx,%r14), %rax
	addq	$21, %r14
	leaq	.Le39770976fb1(%rip), %rcx
	movq	%rax, %rdx
	subq	%rcx, %rdx
	cmpq	$20, %rdx
	ja	374f
	movdqa	5b(%rip), %xmm0
	movdqu	%xmm0, (%rax)
	movl	$2037542765, 16(%rax)
	movb	$10, 20(%rax)
	jmp	277b
316:
	movq	%r10, %rcx
	andq	$-32, %rcx
	movq	192(%rsp), %rdx
	addq	%rax, %rdx
	addq	$16, %rdx
	xorl	%esi, %esi
317:
	movdqu	(%r15,%rsi), %xmm0
	movdqu	16(%r15,%rsi), %xmm1
	movdqu	%xmm0, -16(%rdx,%rsi)
	movdqu	%xmm1, (%rdx,%rsi)
	addq	$32, %rsi
	cmpq	%rsi, %rcx
	jne	317b
	cmpq	%rcx, %r10
	je	275b
	testb	$28, %r10b
	je	271b
318:
	movq	%rcx, %rdx
	movq	%r10, %rcx
	andq	$-4, %rcx
319:
	movl	(%r15,%rdx), %esi
	movl	%esi, (%rdi,%rdx)
	addq	$4, %rdx
	cmpq	%rdx, %rcx
	jne	319b
	cmpq	%rcx, %r10
	jne	271b
	jmp	275b
320:
	movq	%r10, %rsi
	movq	%r9, %rbx
	leaq	1472(%rsp), %rdi
	movq	%r10, %r14
	callq	"std_alloc::vec::Vec::grow_amortized::<#1d775b5957dec42c>"
	testb	%al, %al
	je	321f
	movq	1472(%rsp), %rax
	movq	%rax, 192(%rsp)
	movq	1480(%rsp), %rax
	movq	1488(%rsp), %rdx
	movq	%rbx, %r9
	movq	%r14, %r10
	jmp	269b
321:
	cmpq	$0, 1488(%rsp)
	je	322f
	movq	1472(%rsp), %rdi
	callq	rattle_dealloc@PLT
322:
	cmpb	$1, %bl
	movq	64(%rsp), %rax
	jne	267b
	testq	%rax, %rax
	jne	266b
	jmp	267b
323:
	movq	%rdx, 104(%rsp)
	cmpb	$0, 32(%rsp)
	setne	%al
	cmpq	$0, 64(%rsp)
	sete	%cl
	orb	%al, %cl
	je	199b
	jmp	201b
324:
	movq	%rdx, 104(%rsp)
	cmpb	$0, 32(%rsp)
	setne	%al
	cmpq	$0, 64(%rsp)
	sete	%cl
	orb	%al, %cl
	jne	325f
	movq	%r15, %rdi
	callq	rattle_dealloc@PLT
325:
	cmpb	$0, 1288(%rsp)
	jne	201b
	cmpq	$0, 1312(%rsp)
	movq	48(%rsp), %r15
	je	285b
	movq	1296(%rsp), %rdi
	callq	rattle_dealloc@PLT
	jmp	285b
326:
	leaq	1296(%rsp), %rcx
	jmp	330f
327:
	movq	%rdx, 104(%rsp)
	cmpb	$1, 32(%rsp)
	jne	328f
	testb	%r15b, %r15b
	jne	328f
	cmpq	$0, 1272(%rsp)
	je	328f
	movq	40(%rsp), %rdi
	callq	rattle_dealloc@PLT
328:
	cmpb	$0, 1296(%rsp)
	jne	201b
	cmpq	$0, 1320(%rsp)
	movq	48(%rsp), %r15
	je	285b
	movq	1304(%rsp), %rdi
	callq	rattle_dealloc@PLT
	jmp	285b
329:
	leaq	1288(%rsp), %rcx
330:
	cmpb	$0, (%rcx)
	movq	272(%rsp), %rdx
	je	336f
	xorl	%ecx, %ecx
	jmp	242b
331:
	movq	1296(%rsp), %rax
	movq	1304(%rsp), %rcx
	jmp	241b
332:
	movq	%rdx, 104(%rsp)
	cmpb	$1, 32(%rsp)
	jne	333f
	testb	%r15b, %r15b
	jne	333f
	cmpq	$0, 1272(%rsp)
	je	333f
	movq	40(%rsp), %rdi
	callq	rattle_dealloc@PLT
333:
	cmpq	$0, 1312(%rsp)
	je	201b
	movq	1296(%rsp), %rdi
	jmp	200b
334:
	movq	%rcx, 88(%rsp)
	movl	$0, 32(%rsp)
	jmp	389f
335:
	movq	40(%rsp), %rax
	movq	240(%rsp), %rcx
	movq	%rcx, 40(%rsp)
	movq	112(%rsp), %rbx
	movq	120(%rsp), %r14
	jmp	389f
336:
	movq	8(%rcx), %rax
	movq	16(%rcx), %rcx
	jmp	242b
337:
	leaq	8(%rsp), %rax
	movq	%rax, 1208(%rsp)
	pxor	%xmm0, %xmm0
	movdqu	%xmm0, 1216(%rsp)
	movq	352(%rsp), %rsi
	leaq	304(%rsp), %rdi
	leaq	1208(%rsp), %rcx
	movq	%rsi, 32(%rsp)
	movq	%r15, %rdx
	callq	"clap::parser::globals::fill_in_global_values"
	testb	%al, %al
	je	349f
	movq	1208(%rsp), %rax
	movq	%rax, 16(%rsp)
	movq	1216(%rsp), %rbx
	movq	1224(%rsp), %rax
	movq	%rax, 80(%rsp)
	testq	%rbx, %rbx
	je	354f
	movq	16(%rsp), %rax
	leaq	88(%rax), %r15
	jmp	339f
338:
	addq	$104, %r15
	decq	%rbx
	je	354f
339:
	movq	%r13, %rbp
	movq	-40(%r15), %r14
	movq	-24(%r15), %r13
	movq	-16(%r15), %rax
	movq	%rax, 40(%rsp)
	movq	(%r15), %r12
	cmpq	$0, -48(%r15)
	je	340f
	movq	-64(%r15), %rdi
	callq	rattle_dealloc@PLT
340:
	testq	%r13, %r13
	je	341f
	movq	%r14, %rdi
	callq	rattle_dealloc@PLT
341:
	testq	%r12, %r12
	movq	%rbp, %r13
	je	338b
	movq	40(%rsp), %rdi
	callq	rattle_dealloc@PLT
	jmp	338b
342:
	movdqa	%xmm0, 1504(%rsp)
	movdqa	%xmm0, 1488(%rsp)
	movdqa	%xmm0, 1472(%rsp)
	leaq	1472(%rsp), %rdi
	callq	"mime_request::request::data::source_of"
	movzbl	1480(%rsp), %ebp
	movq	1488(%rsp), %rdi
	cmpb	$0, 1472(%rsp)
	movq	1496(%rsp), %rcx
	movq	1504(%rsp), %rdx
	movq	1512(%rsp), %rsi
	pxor	%xmm0, %xmm0
	movdqu	%xmm0, 488(%rsp)
	movdqu	%xmm0, 504(%rsp)
	movdqu	%xmm0, 520(%rsp)
	je	390f
343:
	movzbl	%dil, %r9d
	movl	$1, %eax
	movq	%rcx, %rdi
	movq	%rdx, %rcx
	movq	%rsi, %rdx
	xorl	%esi, %esi
	jmp	392f
344:
	movdqa	%xmm0, 160(%rsp)
	movdqa	%xmm0, 144(%rsp)
	movq	$0, 176(%rsp)
	movq	24(%r14), %rdx
	testq	%rdx, %rdx
	je	366f
	movq	16(%r14), %rax
	leaq	56(%rax), %rcx
	movq	%rdx, %rdi
	jmp	346f
345:
	decq	%rdi
	addq	$104, %rcx
	testq	%rdi, %rdi
	je	366f
346:
	cmpq	$6, -48(%rcx)
	jne	345b
	movq	-56(%rcx), %r8
	movl	(%r8), %r9d
	movl	2(%r8), %r8d
	shlq	$32, %r8
	orq	%r9, %r8
	movabsq	$8391737126079985007, %r9
	cmpq	%r9, %r8
	jne	345b
	cmpq	$0, (%rcx)
	je	366f
	movq	%rsi, %rbx
	movq	-8(%rcx), %rcx
	movdqu	(%rcx), %xmm0
	movdqa	%xmm0, 64(%rsp)
	leaq	144(%rsp), %rdi
	movq	%rax, %rsi
	callq	"mime_request::request::data::directories_of"
	cmpb	$0, 144(%rsp)
	jne	407f
	movzbl	152(%rsp), %ecx
	leaq	160(%rsp), %rax
	movq	%rcx, %r9
	movzbl	%cl, %ecx
	movq	80(%rsp), %rdx
	movq	24(%rdx), %rsi
	testq	%rsi, %rsi
	je	412f
	movq	(%rbx), %rdx
	addq	$56, %rdx
	jmp	376f
347:
	movdqa	%xmm0, 2192(%rsp)
	movdqa	%xmm0, 2176(%rsp)
	movdqa	%xmm0, 2160(%rsp)
	leaq	2160(%rsp), %rdi
	movq	%rsi, %r12
	callq	"mime_request::request::data::source_of"
	movzbl	2168(%rsp), %ebx
	cmpb	$0, 2160(%rsp)
	movq	2176(%rsp), %rdx
	movq	2184(%rsp), %r15
	movq	2192(%rsp), %rax
	movq	2200(%rsp), %rcx
	je	394f
	movzbl	%dl, %r9d
	movq	$1, 432(%rsp)
	movb	%bl, 440(%rsp)
	movq	%r9, 448(%rsp)
	movq	%r15, 456(%rsp)
	movq	%rax, 464(%rsp)
	movq	%rcx, 472(%rsp)
	pxor	%xmm0, %xmm0
	movdqa	%xmm0, 480(%rsp)
	movdqa	%xmm0, 496(%rsp)
	movdqa	%xmm0, 512(%rsp)
	movq	$0, 528(%rsp)
	movb	$1, %al
	movl	%ebx, %ebp
	jmp	230b
348:
	leaq	432(%rsp), %rdi
	callq	"mime_request::request::cache::request_of_type"
	movzbl	432(%rsp), %eax
	movzbl	440(%rsp), %ebp
	movzbl	448(%rsp), %r9d
	jmp	230b
349:
	movq	304(%rsp), %rax
	movq	%rax, 112(%rsp)
	movq	336(%rsp), %rax
	movq	%rax, 80(%rsp)
	movzbl	328(%rsp), %eax
	movq	%rax, 40(%rsp)
	movq	1208(%rsp), %rax
	movq	%rax, 88(%rsp)
	movq	1216(%rsp), %rbx
	movq	1224(%rsp), %rax
	movq	%rax, 240(%rsp)
	testq	%rbx, %rbx
	je	361f
	movq	88(%rsp), %rax
	leaq	88(%rax), %r15
	jmp	351f
350:
	addq	$104, %r15
	decq	%rbx
	je	361f
351:
	movq	%r13, %rbp
	movq	-40(%r15), %r14
	movq	-24(%r15), %r13
	movq	-16(%r15), %rax
	movq	%rax, 16(%rsp)
	movq	(%r15), %r12
	cmpq	$0, -48(%r15)
	je	352f
	movq	-64(%r15), %rdi
	callq	rattle_dealloc@PLT
352:
	testq	%r13, %r13
	je	353f
	movq	%r14, %rdi
	callq	rattle_dealloc@PLT
353:
	testq	%r12, %r12
	movq	%rbp, %r13
	je	350b
	movq	16(%rsp), %rdi
	callq	rattle_dealloc@PLT
	jmp	350b
354:
	cmpq	$0, 80(%rsp)
	je	355f
	movq	16(%rsp), %rdi
	callq	rattle_dealloc@PLT
355:
	cmpq	$0, 368(%rsp)
	je	356f
	movq	32(%rsp), %rdi
	callq	rattle_dealloc@PLT
356:
	movq	304(%rsp), %rax
	movq	%rax, 16(%rsp)
	movq	312(%rsp), %rbx
	movq	320(%rsp), %rax
	movq	%rax, 80(%rsp)
	testq	%rbx, %rbx
	je	364f
	movq	16(%rsp), %rax
	leaq	88(%rax), %r14
	jmp	358f
357:
	addq	$104, %r14
	decq	%rbx
	je	364f
358:
	movq	%r13, %rbp
	movq	-40(%r14), %r15
	movq	-24(%r14), %r13
	movq	-16(%r14), %rax
	movq	%rax, 40(%rsp)
	movq	(%r14), %r12
	cmpq	$0, -48(%r14)
	je	359f
	movq	-64(%r14), %rdi
	callq	rattle_dealloc@PLT
359:
	testq	%r13, %r13
	je	360f
	movq	%r15, %rdi
	callq	rattle_dealloc@PLT
360:
	testq	%r12, %r12
	movq	%rbp, %r13
	je	357b
	movq	40(%rsp), %rdi
	callq	rattle_dealloc@PLT
	jmp	357b
361:
	cmpq	$0, 240(%rsp)
	je	362f
	movq	88(%rsp), %rdi
	callq	rattle_dealloc@PLT
362:
	cmpq	$0, 368(%rsp)
	movq	80(%rsp), %rbx
	movq	120(%rsp), %r14
	je	363f
	movq	32(%rsp), %rdi
	callq	rattle_dealloc@PLT
363:
	movq	312(%rsp), %rax
	movq	%rax, 16(%rsp)
	movq	320(%rsp), %rax
	movq	%rax, 88(%rsp)
	movl	$0, 32(%rsp)
	movq	112(%rsp), %rax
	jmp	389f
364:
	cmpq	$0, 80(%rsp)
	je	365f
	movq	16(%rsp), %rdi
	callq	rattle_dealloc@PLT
365:
	movl	$16, %eax
	movb	$1, %cl
	movl	%ecx, 32(%rsp)
	cmpb	$1, 328(%rsp)
	movq	120(%rsp), %r14
	jne	388f
	movq	336(%rsp), %rdi
	jmp	387f
366:
	movdqa	%xmm0, 2160(%rsp)
	movdqa	%xmm0, 2176(%rsp)
	movq	$0, 2192(%rsp)
	leaq	1472(%rsp), %rbx
	movl	$680, %edx
	movq	%rbx, %rdi
	xorl	%esi, %esi
	callq	memset@PLT
	movq	%rbx, %rdi
	callq	"mime_request::command::mimelook_command"
	leaq	.L68dfee7977ff(%rip), %rcx
	leaq	2160(%rsp), %rdi
	movl	$12, %r8d
	movq	%rbx, %rsi
	movl	$9, %edx
	callq	"mime_request::request::found::refusal_by"
	movzbl	2160(%rsp), %ebp
	movzbl	2168(%rsp), %r9d
	movdqa	2176(%rsp), %xmm0
	movdqu	%xmm0, 456(%rsp)
	movq	2192(%rsp), %rax
	movq	%rax, 472(%rsp)
	movq	$1, 432(%rsp)
	movb	%bpl, 440(%rsp)
	movq	%r9, 448(%rsp)
	jmp	399f
367:
	movq	%rdx, 32(%rsp)
	movq	%rcx, 64(%rsp)
	movq	80(%rsp), %rcx
	movq	24(%rcx), %rdx
	testq	%rdx, %rdx
	je	377f
	movzbl	%r14b, %ecx
	movq	80(%rsp), %rsi
	movq	16(%rsi), %rsi
	movabsq	$7309475736047352180, %r8
	leaq	56(%rsi), %rdi
	movq	%rdx, %r9
	jmp	369f
368:
	decq	%r9
	addq	$104, %rdi
	testq	%r9, %r9
	je	377f
369:
	cmpq	$4, -48(%rdi)
	jne	368b
	movq	-56(%rdi), %r10
	movl	(%r10), %r10d
	movq	%r10, %r11
	shlq	$32, %r11
	orq	%r10, %r11
	cmpq	%r8, %r11
	jne	368b
	cmpq	$0, (%rdi)
	je	377f
	movq	%r15, 120(%rsp)
	movq	-8(%rdi), %rdi
	movdqu	(%rdi), %xmm0
	addq	$56, %rsi
	jmp	371f
370:
	decq	%rdx
	addq	$104, %rsi
	testq	%rdx, %rdx
	je	408f
371:
	cmpq	$4, -48(%rsi)
	jne	370b
	movq	-56(%rsi), %rdi
	movl	(%rdi), %edi
	movq	%rdi, %r8
	shlq	$32, %r8
	orq	%rdi, %r8
	movabsq	$7310293695389196642, %rdi
	cmpq	%rdi, %r8
	jne	370b
	cmpq	$0, (%rsi)
	je	408f
	movq	-8(%rsi), %rdx
	movdqu	(%rdx), %xmm1
	movq	$0, 432(%rsp)
	movb	$5, 440(%rsp)
	movq	%rcx, 448(%rsp)
	movq	32(%rsp), %rcx
	movq	%rcx, 456(%rsp)
	movq	120(%rsp), %rcx
	movq	%rcx, 464(%rsp)
	movq	%rax, 472(%rsp)
	movq	64(%rsp), %rax
	movq	%rax, 480(%rsp)
	movdqu	%xmm0, 488(%rsp)
	movdqu	%xmm1, 504(%rsp)
	pxor	%xmm0, %xmm0
	movdqu	%xmm0, 520(%rsp)
	movb	$5, %bpl
	xorl	%eax, %eax
	movl	%r14d, %r9d
	jmp	230b
372:
	movq	%rax, 64(%rsp)
	movq	80(%rsp), %rax
	movq	16(%rax), %rsi
	movq	24(%rax), %rdx
	leaq	144(%rsp), %rdi
	callq	"mime_request::request::flags::options_of"
	movzbl	152(%rsp), %ebp
	cmpb	$0, 144(%rsp)
	je	400f
	movq	%r12, %rdi
	movzbl	160(%rsp), %ebx
	movzbl	168(%rsp), %edx
	movzbl	175(%rsp), %eax
	shll	$16, %eax
	movzwl	173(%rsp), %ecx
	orl	%eax, %ecx
	shlq	$32, %rcx
	movl	169(%rsp), %r14d
	orq	%rcx, %r14
	movq	%r13, %rcx
	movq	176(%rsp), %r8
	movq	184(%rsp), %r13
	movzbl	%bl, %r12d
	xorb	$1, %r15b
	orb	64(%rsp), %r15b
	setne	%al
	testq	%rcx, %rcx
	sete	%cl
	orb	%al, %cl
	jne	373f
	movl	%edx, %r15d
	movq	%r8, 64(%rsp)
	callq	rattle_dealloc@PLT
	movq	64(%rsp), %r8
	movl	%r15d, %edx
373:
	movq	$1, 432(%rsp)
	movb	%bpl, 440(%rsp)
	movq	%r12, 448(%rsp)
	movb	%dl, 456(%rsp)
	movl	%r14d, 457(%rsp)
	movq	%r14, %rax
	shrq	$48, %rax
	movb	%al, 463(%rsp)
	shrq	$32, %r14
	movw	%r14w, 461(%rsp)
	movq	%r8, 464(%rsp)
	movq	%r13, 472(%rsp)
	pxor	%xmm0, %xmm0
	movdqa	%xmm0, 480(%rsp)
	movdqa	%xmm0, 496(%rsp)
	movdqa	%xmm0, 512(%rsp)
	movq	$0, 528(%rsp)
	movb	$1, %al
	movl	%ebx, %r9d
	jmp	230b
374:
	movdqu	.Le39770976fb1(%rip), %xmm0
	movdqu	%xmm0, (%rax)
	movabsq	$754760235463568672, %rcx
	movq	%rcx, 13(%rax)
	jmp	277b
375:
	decq	%rsi
	addq	$104, %rdx
	testq	%rsi, %rsi
	je	412f
376:
	cmpq	$10, -48(%rdx)
	jne	375b
	movq	-56(%rdx), %rdi
	movabsq	$7599670634719703652, %r8
	cmpq	%r8, (%rdi)
	jne	375b
	movabsq	$8317701523571044463, %r8
	cmpq	%r8, 2(%rdi)
	jne	375b
	cmpq	$0, (%rdx)
	je	412f
	movq	-8(%rdx), %rdx
	cmpq	$4, 8(%rdx)
	jne	412f
	movq	(%rdx), %rdx
	movl	(%rdx), %edx
	movq	%rdx, %rsi
	shlq	$32, %rsi
	orq	%rdx, %rsi
	movabsq	$7310875414349836916, %rdx
	cmpq	%rdx, %rsi
	sete	%dl
	jmp	413f
377:
	pxor	%xmm0, %xmm0
	movdqa	%xmm0, 144(%rsp)
	movdqa	%xmm0, 160(%rsp)
	movq	$0, 176(%rsp)
	leaq	1472(%rsp), %rbx
	movl	$680, %edx
	movq	%rbx, %rdi
	xorl	%esi, %esi
	callq	memset@PLT
	movq	%rbx, %rdi
	callq	"mime_request::command::mimelook_command"
	leaq	.Lf64a66e42f56(%rip), %rcx
	leaq	144(%rsp), %rdi
	movl	$11, %r8d
	movq	%rbx, %rsi
	movl	$9, %edx
	callq	"mime_request::request::found::refusal_by"
	movzbl	144(%rsp), %ebp
	movzbl	152(%rsp), %r9d
	movzbl	160(%rsp), %edx
	movzbl	167(%rsp), %eax
	shll	$16, %eax
	movzwl	165(%rsp), %ecx
	orl	%eax, %ecx
	shlq	$32, %rcx
	movl	161(%rsp), %r13d
	orq	%rcx, %r13
	movq	168(%rsp), %rdi
	movq	176(%rsp), %rbx
	movzbl	%r9b, %r12d
	xorb	$1, %r14b
	orb	32(%rsp), %r14b
	setne	%al
	cmpq	$0, 64(%rsp)
	sete	%cl
	orb	%al, %cl
	jne	378f
	movq	%rdi, 64(%rsp)
	movq	%r15, %rdi
	movq	%r9, %r14
	movl	%edx, %r15d
	callq	rattle_dealloc@PLT
	movq	64(%rsp), %rdi
	movl	%r15d, %edx
	movq	%r14, %r9
378:
	movq	$1, 432(%rsp)
	movb	%bpl, 440(%rsp)
	movq	%r12, 448(%rsp)
	movb	%dl, 456(%rsp)
	movl	%r13d, 457(%rsp)
	movq	%r13, %rax
	shrq	$48, %rax
	movb	%al, 463(%rsp)
	shrq	$32, %r13
	movw	%r13w, 461(%rsp)
	movq	%rdi, 464(%rsp)
	movq	%rbx, 472(%rsp)
	jmp	399f
379:
	cmpq	$0, 368(%rsp)
	je	380f
	movq	352(%rsp), %rdi
	callq	rattle_dealloc@PLT
380:
	movq	304(%rsp), %rax
	movq	%rax, 112(%rsp)
	movq	312(%rsp), %rbx
	movq	320(%rsp), %rax
	movq	%rax, 32(%rsp)
	testq	%rbx, %rbx
	je	385f
	movq	112(%rsp), %rax
	leaq	88(%rax), %r14
	jmp	382f
381:
	addq	$104, %r14
	decq	%rbx
	je	385f
382:
	movq	-40(%r14), %r15
	movq	-24(%r14), %r13
	movq	-16(%r14), %rax
	movq	%rax, 16(%rsp)
	movq	(%r14), %r12
	cmpq	$0, -48(%r14)
	je	383f
	movq	-64(%r14), %rdi
	callq	rattle_dealloc@PLT
383:
	testq	%r13, %r13
	je	384f
	movq	%r15, %rdi
	callq	rattle_dealloc@PLT
384:
	testq	%r12, %r12
	je	381b
	movq	16(%rsp), %rdi
	callq	rattle_dealloc@PLT
	jmp	381b
385:
	cmpq	$0, 32(%rsp)
	je	386f
	movq	112(%rsp), %rdi
	callq	rattle_dealloc@PLT
386:
	movl	$16, %eax
	movb	$1, %cl
	movl	%ecx, 32(%rsp)
	cmpl	$1, 40(%rsp)
	movq	120(%rsp), %r14
	jne	388f
	movq	80(%rsp), %rdi
387:
	callq	"std_alloc::boxed::Box::drop::<#d2a52521aa2f4aea>"
	movl	$16, %eax
388:
	movq	$0, 16(%rsp)
	movq	$0, 88(%rsp)
	movq	$0, 40(%rsp)
	xorl	%ebx, %ebx
389:
	movq	%rax, 112(%rsp)
	cmpb	$0, 64(%rsp)
	jne	175b
	movq	%r14, %rdi
	callq	rattle_dealloc@PLT
	jmp	175b
390:
	movzbl	%bpl, %r9d
	movb	$3, %bpl
391:
	xorl	%eax, %eax
392:
	movq	16(%rsp), %r8
	movq	%rax, 432(%rsp)
	movb	%bpl, 440(%rsp)
	movq	%r9, 448(%rsp)
	movq	%rdi, 456(%rsp)
	movq	%rcx, 464(%rsp)
	movq	%rdx, 472(%rsp)
	movq	%rsi, 480(%rsp)
	jmp	231b
393:
	movzbl	1481(%rsp), %r12d
	movq	16(%r14), %rdx
	movq	24(%r14), %rcx
	leaq	2160(%rsp), %rdi
	xorl	%esi, %esi
	callq	"mime_request::request::found::subjects_of"
	movzbl	2168(%rsp), %r13d
	movq	2176(%rsp), %r15
	cmpb	$0, 2160(%rsp)
	movq	2184(%rsp), %rbx
	movq	2192(%rsp), %r14
	je	406f
	movq	2200(%rsp), %rax
	movzbl	%r15b, %r9d
	movq	$1, 432(%rsp)
	movb	%r13b, 440(%rsp)
	movq	%r9, 448(%rsp)
	movq	%rbx, 456(%rsp)
	movq	%r14, 464(%rsp)
	movq	%rax, 472(%rsp)
	pxor	%xmm0, %xmm0
	movdqa	%xmm0, 480(%rsp)
	movdqa	%xmm0, 496(%rsp)
	movdqa	%xmm0, 512(%rsp)
	movq	$0, 528(%rsp)
	movb	$1, %al
	movl	%r13d, %ebp
	jmp	230b
394:
	movq	%rdx, 32(%rsp)
	movq	%rcx, 64(%rsp)
	movq	80(%rsp), %rcx
	movq	24(%rcx), %rdx
	testq	%rdx, %rdx
	je	397f
	movzbl	%bl, %ecx
	movq	(%r12), %rsi
	addq	$56, %rsi
	jmp	396f
395:
	decq	%rdx
	addq	$104, %rsi
	testq	%rdx, %rdx
	je	397f
396:
	cmpq	$4, -48(%rsi)
	jne	395b
	movq	-56(%rsi), %rdi
	movl	(%rdi), %edi
	movq	%rdi, %r8
	shlq	$32, %r8
	orq	%rdi, %r8
	cmpq	%r14, %r8
	jne	395b
	cmpq	$0, (%rsi)
	je	397f
	movq	-8(%rsi), %rdx
	movdqu	(%rdx), %xmm0
	movq	$0, 432(%rsp)
	movb	$6, 440(%rsp)
	movq	%rcx, 448(%rsp)
	movq	32(%rsp), %rcx
	movq	%rcx, 456(%rsp)
	movq	%r15, 464(%rsp)
	movq	%rax, 472(%rsp)
	movq	64(%rsp), %rax
	movq	%rax, 480(%rsp)
	movdqu	%xmm0, 488(%rsp)
	pxor	%xmm0, %xmm0
	movdqu	%xmm0, 504(%rsp)
	movdqu	%xmm0, 520(%rsp)
	movb	$6, %bpl
	xorl	%eax, %eax
	movl	%ebx, %r9d
	jmp	230b
397:
	pxor	%xmm0, %xmm0
	movdqa	%xmm0, 144(%rsp)
	movdqa	%xmm0, 160(%rsp)
	movq	$0, 176(%rsp)
	leaq	1472(%rsp), %r14
	movl	$680, %edx
	movq	%r14, %rdi
	xorl	%esi, %esi
	callq	memset@PLT
	movq	%r14, %rdi
	callq	"mime_request::command::mimelook_command"
	leaq	.Lf64a66e42f56(%rip), %rcx
	leaq	144(%rsp), %rdi
	movl	$11, %r8d
	movq	%r14, %rsi
	movl	$9, %edx
	callq	"mime_request::request::found::refusal_by"
	movzbl	144(%rsp), %ebp
	movzbl	152(%rsp), %r9d
	movzbl	160(%rsp), %edx
	movzbl	167(%rsp), %eax
	shll	$16, %eax
	movzwl	165(%rsp), %ecx
	orl	%eax, %ecx
	shlq	$32, %rcx
	movl	161(%rsp), %r13d
	orq	%rcx, %r13
	movq	168(%rsp), %rdi
	movq	176(%rsp), %r14
	movzbl	%r9b, %r12d
	xorb	$1, %bl
	movq	32(%rsp), %rax
	orb	%bl, %al
	setne	%al
	cmpq	$0, 64(%rsp)
	sete	%cl
	orb	%al, %cl
	jne	398f
	movq	%rdi, 64(%rsp)
	movq	%r15, %rdi
	movq	%r9, %rbx
	movl	%edx, %r15d
	callq	rattle_dealloc@PLT
	movq	64(%rsp), %rdi
	movl	%r15d, %edx
	movq	%rbx, %r9
398:
	movq	$1, 432(%rsp)
	movb	%bpl, 440(%rsp)
	movq	%r12, 448(%rsp)
	movb	%dl, 456(%rsp)
	movl	%r13d, 457(%rsp)
	movq	%r13, %rax
	shrq	$48, %rax
	movb	%al, 463(%rsp)
	shrq	$32, %r13
	movw	%r13w, 461(%rsp)
	movq	%rdi, 464(%rsp)
	movq	%r14, 472(%rsp)
399:
	pxor	%xmm0, %xmm0
	movdqa	%xmm0, 480(%rsp)
	movdqa	%xmm0, 496(%rsp)
	movdqa	%xmm0, 512(%rsp)
	movq	$0, 528(%rsp)
	jmp	229b
400:
	movq	80(%rsp), %rax
	movq	24(%rax), %rcx
	testq	%rcx, %rcx
	movq	%r12, 224(%rsp)
	je	403f
	movq	%r15, %rax
	movzbl	%al, %eax
	movq	%rax, 1432(%rsp)
	movzbl	153(%rsp), %eax
	movb	%al, 134(%rsp)
	movq	(%r14), %rax
	addq	$56, %rax
	jmp	402f
401:
	decq	%rcx
	addq	$104, %rax
	testq	%rcx, %rcx
	je	403f
402:
	cmpq	$4, -48(%rax)
	jne	401b
	movq	-56(%rax), %rdx
	movl	(%rdx), %edx
	movq	%rdx, %rsi
	shlq	$32, %rsi
	orq	%rdx, %rsi
	movabsq	$7308332183824656742, %rdx
	cmpq	%rdx, %rsi
	jne	401b
	movq	%r13, %r14
	movl	%ebp, 120(%rsp)
	movq	(%rax), %rcx
	movq	%rcx, 264(%rsp)
	testq	%rcx, %rcx
	je	414f
	movabsq	$576460752303423486, %rcx
	addq	$2, %rcx
	movb	$16, %bpl
	movq	$0, 32(%rsp)
	cmpq	%rcx, 264(%rsp)
	jae	415f
	movq	-8(%rax), %rax
	movq	%rax, 1144(%rsp)
	movq	264(%rsp), %rdi
	shlq	$4, %rdi
	movl	$8, %esi
	callq	rattle_alloc@PLT
	movq	$0, 32(%rsp)
	movl	$0, %ecx
	movq	%rcx, 240(%rsp)
	movl	$0, %r12d
	movl	$0, %r13d
	testb	$1, %al
	je	404f
	cmpq	$1, 264(%rsp)
	jne	416f
	xorl	%eax, %eax
	jmp	418f
403:
	movq	%r13, %r14
	pxor	%xmm0, %xmm0
	movdqa	%xmm0, 304(%rsp)
	movdqa	%xmm0, 320(%rsp)
	movq	$0, 336(%rsp)
	leaq	1472(%rsp), %rbx
	movl	$680, %edx
	movq	%rbx, %rdi
	xorl	%esi, %esi
	callq	memset@PLT
	movq	%rbx, %rdi
	callq	"mime_request::command::mimelook_command"
	leaq	.L726cb91ce17f(%rip), %rcx
	leaq	304(%rsp), %rdi
	movl	$11, %r8d
	movq	%rbx, %rsi
	movl	$9, %edx
	callq	"mime_request::request::found::refusal_by"
	movzbl	304(%rsp), %ebp
	movzbl	312(%rsp), %r12d
	movq	320(%rsp), %r13
	movq	328(%rsp), %rax
	movq	%rax, 240(%rsp)
	movq	336(%rsp), %rax
	movq	%rax, 32(%rsp)
404:
	xorb	$1, %r15b
	orb	64(%rsp), %r15b
	setne	%al
	testq	%r14, %r14
	sete	%cl
	orb	%al, %cl
	jne	405f
	movq	224(%rsp), %rdi
	callq	rattle_dealloc@PLT
405:
	movq	$1, 432(%rsp)
	movb	%bpl, 440(%rsp)
	movq	%r12, 448(%rsp)
	movq	%r13, 456(%rsp)
	movq	240(%rsp), %rax
	movq	%rax, 464(%rsp)
	movq	32(%rsp), %rax
	movq	%rax, 472(%rsp)
	pxor	%xmm0, %xmm0
	movdqa	%xmm0, 480(%rsp)
	movdqa	%xmm0, 496(%rsp)
	movdqa	%xmm0, 512(%rsp)
	movq	$0, 528(%rsp)
	movb	$1, %al
	movl	%r12d, %r9d
	jmp	230b
406:
	movq	80(%rsp), %rax
	movq	16(%rax), %rsi
	movq	24(%rax), %rdx
	leaq	144(%rsp), %rdi
	callq	"mime_request::request::data::directories_of"
	cmpb	$0, 144(%rsp)
	je	411f
	testb	%r13b, %r13b
	setne	%al
	testq	%r14, %r14
	sete	%cl
	orb	%al, %cl
	jne	407f
	movq	%r15, %rdi
	callq	rattle_dealloc@PLT
407:
	movq	$1, 432(%rsp)
	movb	$16, 440(%rsp)
	pxor	%xmm0, %xmm0
	movdqa	%xmm0, 448(%rsp)
	movdqa	%xmm0, 464(%rsp)
	movdqa	%xmm0, 480(%rsp)
	movdqa	%xmm0, 496(%rsp)
	movdqa	%xmm0, 512(%rsp)
	movq	$0, 528(%rsp)
	movb	$1, %al
	movb	$16, %bpl
	xorl	%r9d, %r9d
	jmp	230b
408:
	pxor	%xmm0, %xmm0
	movdqa	%xmm0, 144(%rsp)
	movdqa	%xmm0, 160(%rsp)
	movq	$0, 176(%rsp)
	leaq	1472(%rsp), %rbx
	movl	$680, %edx
	movq	%rbx, %rdi
	xorl	%esi, %esi
	callq	memset@PLT
	movq	%rbx, %rdi
	callq	"mime_request::command::mimelook_command"
	leaq	.L38e6aa7b7826(%rip), %rcx
	leaq	144(%rsp), %rdi
	movl	$11, %r8d
	movq	%rbx, %rsi
	movl	$9, %edx
	callq	"mime_request::request::found::refusal_by"
	movzbl	144(%rsp), %ebp
	movzbl	152(%rsp), %edx
	movzbl	160(%rsp), %eax
	movb	%al, 240(%rsp)
	movzbl	167(%rsp), %eax
	shll	$16, %eax
	movzwl	165(%rsp), %ecx
	orl	%eax, %ecx
	shlq	$32, %rcx
	movl	161(%rsp), %r13d
	orq	%rcx, %r13
	movq	168(%rsp), %rbx
	movq	176(%rsp), %rax
	movq	%rax, 224(%rsp)
	movq	%rdx, %r15
	movzbl	%dl, %r12d
	xorb	$1, %r14b
	orb	32(%rsp), %r14b
	setne	%al
	cmpq	$0, 64(%rsp)
	sete	%cl
	orb	%al, %cl
	jne	409f
	movq	120(%rsp), %rdi
	callq	rattle_dealloc@PLT
409:
	movq	$1, 432(%rsp)
	movb	%bpl, 440(%rsp)
	movq	%r12, 448(%rsp)
	movzbl	240(%rsp), %eax
	movb	%al, 456(%rsp)
	movl	%r13d, 457(%rsp)
	movq	%r13, %rax
	shrq	$48, %rax
	movb	%al, 463(%rsp)
	shrq	$32, %r13
	movw	%r13w, 461(%rsp)
	movq	%rbx, 464(%rsp)
	movq	224(%rsp), %rax
	movq	%rax, 472(%rsp)
	pxor	%xmm0, %xmm0
	movdqa	%xmm0, 480(%rsp)
	movdqa	%xmm0, 496(%rsp)
	movdqa	%xmm0, 512(%rsp)
	movq	$0, 528(%rsp)
	movb	$1, %al
	jmp	420f
410:
	movq	%rbp, %r13
	jmp	155b
411:
	leaq	1473(%rsp), %rax
	movzbl	%r13b, %ecx
	movzbl	152(%rsp), %r9d
	movq	176(%rsp), %rdx
	movq	$0, 432(%rsp)
	movb	$1, 440(%rsp)
	movq	%r9, 448(%rsp)
	movdqa	160(%rsp), %xmm0
	movdqu	%xmm0, 456(%rsp)
	movq	%rdx, 472(%rsp)
	movl	(%rax), %edx
	movl	3(%rax), %eax
	movl	%edx, 480(%rsp)
	movl	%eax, 483(%rsp)
	movb	%bpl, 487(%rsp)
	movb	%r12b, 488(%rsp)
	movl	$0, 489(%rsp)
	movl	$0, 492(%rsp)
	movq	%rcx, 496(%rsp)
	movq	%r15, 504(%rsp)
	movq	%rbx, 512(%rsp)
	movq	%r14, 520(%rsp)
	movq	$0, 528(%rsp)
	movb	$1, %bpl
	xorl	%eax, %eax
	jmp	230b
412:
	xorl	%edx, %edx
413:
	movq	$0, 432(%rsp)
	movb	$0, 440(%rsp)
	movq	%rcx, 448(%rsp)
	movups	(%rax), %xmm0
	movups	%xmm0, 456(%rsp)
	movq	16(%rax), %rax
	movq	%rax, 472(%rsp)
	movb	%dl, 480(%rsp)
	movl	$0, 481(%rsp)
	movl	$0, 484(%rsp)
	movdqa	64(%rsp), %xmm0
	movdqu	%xmm0, 488(%rsp)
	pxor	%xmm0, %xmm0
	movdqu	%xmm0, 504(%rsp)
	movdqu	%xmm0, 520(%rsp)
	xorl	%ebp, %ebp
	xorl	%eax, %eax
	jmp	230b
414:
	leaq	8(%rsp), %rdx
	jmp	419f
415:
	movq	$0, 240(%rsp)
	xorl	%r12d, %r12d
	xorl	%r13d, %r13d
	jmp	404b
416:
	movabsq	$576460752303423486, %rdi
	andq	264(%rsp), %rdi
	movl	$24, %ecx
	xorl	%eax, %eax
	movq	1144(%rsp), %rsi
417:
	movups	-24(%rsi,%rcx), %xmm0
	movups	%xmm0, -24(%rdx,%rcx)
	movdqu	-8(%rsi,%rcx), %xmm0
	movdqu	%xmm0, -8(%rdx,%rcx)
	addq	$2, %rax
	addq	$32, %rcx
	cmpq	%rax, %rdi
	jne	417b
	testb	$1, 264(%rsp)
	je	419f
418:
	shlq	$4, %rax
	movq	1144(%rsp), %rcx
	movdqu	(%rcx,%rax), %xmm0
	movdqu	%xmm0, (%rdx,%rax)
419:
	movq	$0, 432(%rsp)
	movb	$4, 440(%rsp)
	movq	1432(%rsp), %rax
	movq	%rax, 448(%rsp)
	movq	64(%rsp), %rax
	movq	%rax, 456(%rsp)
	movq	224(%rsp), %rax
	movq	%rax, 464(%rsp)
	movq	%rbx, 472(%rsp)
	movq	%r14, 480(%rsp)
	leaq	145(%rsp), %rcx
	movl	(%rcx), %eax
	movl	3(%rcx), %ecx
	movl	%eax, 488(%rsp)
	movl	%ecx, 491(%rsp)
	movl	120(%rsp), %eax
	movb	%al, 495(%rsp)
	movzbl	134(%rsp), %eax
	movb	%al, 496(%rsp)
	movl	$0, 497(%rsp)
	movl	$0, 500(%rsp)
	movq	%rdx, 504(%rsp)
	movq	264(%rsp), %rbp
	movq	%rbp, 512(%rsp)
	movq	%rbp, 520(%rsp)
	movq	$0, 528(%rsp)
	movb	$4, %bpl
	xorl	%eax, %eax
420:
	movq	16(%rsp), %r8
	movq	%r15, %r9
	jmp	231b
421:
	movq	%r14, %rax
	addq	$-7, %rax
	movq	%rbp, %r13
	jne	154b
	jmp	155b
422:
	.size	"mimelook::run_system", 422b-"mimelook::run_system"
	.section	.rodata,"a",@progbits
	.p2align	2, 0x0
423:
	.long	203b-423b
	.long	226b-423b
	.long	225b-423b
	.long	228b-423b
	.long	227b-423b
424:
	.long	240b-424b
	.long	329b-424b
	.long	240b-424b
	.long	240b-424b
	.long	331b-424b
	.long	240b-424b
	.long	240b-424b
	.long	326b-424b
425:
	.long	323b-425b
	.long	324b-425b
	.long	309b-425b
	.long	309b-425b
	.long	332b-425b
	.long	309b-425b
	.long	309b-425b
	.long	327b-425b

	.text
	.p2align	4
	.type	"mimelook::variable",@function
"mimelook::variable":
	pushq	%rbp
	pushq	%r15
	pushq	%r14
	pushq	%r13
	pushq	%r12
	pushq	%rbx
	subq	$3072, %rsp
	movq	$0, (%rsp)
	subq	$3072, %rsp
	movq	$0, (%rsp)
	subq	$2104, %rsp
	movq	%rdx, %r15
	movq	%rsi, %r12
	movq	%rdi, 8(%rsp)
	xorl	%ebx, %ebx
	movl	$256, %r13d
	leaq	32(%rsp), %rax
1:
	leaq	7(%rsp), %r14
	movq	%r14, 24(%rsp)
	xorps	%xmm0, %xmm0
	movups	%xmm0, (%rax)
	testq	%r13, %r13
	jne	9f
	xorl	%edx, %edx
	xorl	%ebp, %ebp
2:
	xorl	%eax, %eax
	.p2align	4
3:
	movzbl	(%r12,%rax), %ecx
	testl	%ecx, %ecx
	je	12f
	cmpl	$61, %ecx
	je	12f
	incq	%rax
	cmpq	%rax, %r15
	jne	3b
	xorl	%eax, %eax
	movq	%rdx, 16(%rsp)
	movl	%ebx, (%rsp)
	.p2align	4
4:
	cmpb	$0, (%r12,%rax)
	je	5f
	incq	%rax
	cmpq	%rax, %r15
	jne	4b
	jmp	6f
5:
	cmpq	%r15, %rax
	jae	6f
	movl	$22, %edi
	callq	rattle_set_errno@PLT
	xorl	%ebx, %ebx
	jmp	7f
	.p2align	4
6:
	leaq	48(%rsp), %rdi
	movl	$4095, %edx
	xorl	%esi, %esi
	callq	memset@PLT
	leaq	48(%rsp), %rdi
	movq	%r12, %rsi
	movq	%r15, %rdx
	callq	memcpy@PLT
	movb	$0, 4143(%rsp)
	leaq	4152(%rsp), %rbx
	movl	$4096, %edx
	movq	%rbx, %rdi
	leaq	48(%rsp), %rsi
	callq	memcpy@PLT
	movq	%rbx, %rdi
	movq	%r14, %rsi
	movq	%rbp, %rdx
	callq	rattle_env@PLT
	cmpq	$-1, %rax
	movl	$22, %ecx
	movl	$36, %edi
	cmovel	%ecx, %edi
	cmpq	%rbp, %rax
	cmovbq	%rax, %rbp
	xorl	%ebx, %ebx
	testq	%rax, %rax
	cmovnsl	%ebx, %edi
	cmovgq	%rbp, %rbx
	callq	rattle_set_errno@PLT
7:
	callq	rattle_errno@PLT
	cmpl	$36, %eax
	jne	10f
	cmpq	$0, 16(%rsp)
	movl	(%rsp), %ebx
	je	8f
	movq	%r14, %rdi
	callq	rattle_dealloc@PLT
8:
	movq	%r13, %rax
	addq	%r13, %rax
	movq	$-1, %r13
	cmovaeq	%rax, %r13
	incl	%ebx
	cmpl	$64, %ebx
	leaq	32(%rsp), %rax
	jne	1b
	jmp	18f
9:
	leaq	24(%rsp), %rdi
	movq	%r13, %rsi
	callq	"std_alloc::vec::Vec::grow_amortized::<#1d775b5957dec42c>"
	testb	%al, %al
	je	17f
	movq	24(%rsp), %r14
	movq	32(%rsp), %rdi
	movq	40(%rsp), %rdx
	leaq	(%rdi,%r13), %rbp
	cmpq	%rbp, %rdi
	jae	2b
	addq	%r14, %rdi
	xorl	%esi, %esi
	movl	%ebx, (%rsp)
	movq	%rdx, %rbx
	movq	%r13, %rdx
	callq	memset@PLT
	movq	%rbx, %rdx
	movl	(%rsp), %ebx
	jmp	2b
10:
	testl	%eax, %eax
	movq	16(%rsp), %rdx
	jne	12f
	movq	%rdx, %r13
	xorps	%xmm0, %xmm0
	movaps	%xmm0, 48(%rsp)
	movq	$0, 64(%rsp)
	leaq	48(%rsp), %rdi
	movq	%r14, %rsi
	movq	%rbx, %rdx
	callq	"core::str::utf8::from_utf8"
	cmpb	$1, 48(%rsp)
	jne	16f
	movb	$1, %r15b
	testq	%r13, %r13
	movq	8(%rsp), %r12
	je	11f
	movq	%r14, %rdi
	callq	rattle_dealloc@PLT
11:
	xorl	%r14d, %r14d
	xorl	%ebx, %ebx
	xorl	%edx, %edx
	movb	$1, %al
	xorl	%ecx, %ecx
	jmp	15f
12:
	testq	%rdx, %rdx
	je	13f
	movq	%r14, %rdi
	callq	rattle_dealloc@PLT
13:
	xorl	%r14d, %r14d
	xorl	%ebx, %ebx
	xorl	%edx, %edx
	xorl	%r15d, %r15d
	xorl	%eax, %eax
14:
	xorl	%ecx, %ecx
	movq	8(%rsp), %r12
15:
	movb	%r15b, (%r12)
	movb	%al, 1(%r12)
	movq	%rcx, 8(%r12)
	movq	%r14, 16(%r12)
	movq	%rbx, 24(%r12)
	movq	%rdx, 32(%r12)
	addq	$8248, %rsp
	popq	%rbx
	popq	%r12
	popq	%r13
	popq	%r14
	popq	%r15
	popq	%rbp
	retq
16:
	xorl	%r15d, %r15d
	movl	$1, %ecx
	xorl	%eax, %eax
	movq	8(%rsp), %r12
	movq	%r13, %rdx
	jmp	15b
17:
	cmpq	$0, 40(%rsp)
	je	18f
	movq	24(%rsp), %rdi
	callq	rattle_dealloc@PLT
18:
	movb	$2, %al
	movb	$1, %r15b
	xorl	%r14d, %r14d
	xorl	%ebx, %ebx
	xorl	%edx, %edx
	jmp	14b
19:
	.size	"mimelook::variable", 19b-"mimelook::variable"
