# Made by dist/refresh of what is proved.

	.section	.rodata.cst16,"aM",@progbits,16
	.p2align	4, 0x0
1:
	.byte	42,42,42,42,42,42,42,42
	.zero	1
	.zero	1
	.zero	1
	.zero	1
	.zero	1
	.zero	1
	.zero	1
	.zero	1
2:
	.byte	63,63,63,63,63,63,63,63
	.zero	1
	.zero	1
	.zero	1
	.zero	1
	.zero	1
	.zero	1
	.zero	1
	.zero	1
3:
	.byte	92,92,92,92,92,92,92,92
	.zero	1
	.zero	1
	.zero	1
	.zero	1
	.zero	1
	.zero	1
	.zero	1
	.zero	1
4:
	.byte	91,91,91,91,91,91,91,91
	.zero	1
	.zero	1
	.zero	1
	.zero	1
	.zero	1
	.zero	1
	.zero	1
	.zero	1
	.text
	.p2align	4
	.type	"mime_text::dir_texts::read_dir",@function
"mime_text::dir_texts::read_dir":
	pushq	%rbp
	pushq	%r15
	pushq	%r14
	pushq	%r13
	pushq	%r12
	pushq	%rbx
	subq	$1656, %rsp
	movq	%rsi, 104(%rsp)
	movq	%rdi, 688(%rsp)
	pxor	%xmm0, %xmm0
	movdqa	%xmm0, 752(%rsp)
	movq	$0, 768(%rsp)
	movdqa	%xmm0, 720(%rsp)
	movq	$0, 736(%rsp)
	movdqa	%xmm0, 816(%rsp)
	movdqa	%xmm0, 832(%rsp)
	movdqa	%xmm0, 848(%rsp)
	movdqa	%xmm0, 1440(%rsp)
	movdqa	%xmm0, 1456(%rsp)
	movdqa	%xmm0, 1472(%rsp)
	movq	$0, 1488(%rsp)
	movdqa	%xmm0, 1376(%rsp)
	movdqa	%xmm0, 1392(%rsp)
	movdqa	%xmm0, 1408(%rsp)
	movq	$0, 1424(%rsp)
	movdqa	%xmm0, 1536(%rsp)
	movdqa	%xmm0, 1520(%rsp)
	movdqa	%xmm0, 1504(%rsp)
	movq	$0, 1552(%rsp)
	movdqa	%xmm0, 1600(%rsp)
	movdqa	%xmm0, 1584(%rsp)
	movdqa	%xmm0, 1568(%rsp)
	movq	$0, 1616(%rsp)
	movdqa	%xmm0, 1344(%rsp)
	movq	$0, 1360(%rsp)
	movdqa	%xmm0, 1312(%rsp)
	movq	$0, 1328(%rsp)
	movdqa	%xmm0, 1280(%rsp)
	movq	$0, 1296(%rsp)
	movdqa	%xmm0, 1248(%rsp)
	movq	$0, 1264(%rsp)
	movdqa	%xmm0, 1216(%rsp)
	movq	$0, 1232(%rsp)
	movdqa	%xmm0, 1184(%rsp)
	movq	$0, 1200(%rsp)
	movdqa	%xmm0, 1152(%rsp)
	movq	$0, 1168(%rsp)
	movdqa	%xmm0, 1120(%rsp)
	movq	$0, 1136(%rsp)
	movdqa	%xmm0, 1088(%rsp)
	movq	$0, 1104(%rsp)
	movdqa	%xmm0, 1056(%rsp)
	movq	$0, 1072(%rsp)
	movq	(%rdx), %r12
	movq	%rdx, 1048(%rsp)
	movq	8(%rdx), %r14
	movdqa	%xmm0, 192(%rsp)
	movdqa	%xmm0, 208(%rsp)
	movdqa	%xmm0, 224(%rsp)
	movdqa	%xmm0, 240(%rsp)
	movq	$0, 256(%rsp)
	movl	$0, 808(%rsp)
	movl	$0, 811(%rsp)
	movdqa	%xmm0, 912(%rsp)
	movdqa	%xmm0, 928(%rsp)
	movq	$0, 944(%rsp)
	movdqa	%xmm0, 432(%rsp)
	movdqa	%xmm0, 448(%rsp)
	movq	$0, 464(%rsp)
	movdqa	%xmm0, 592(%rsp)
	movdqa	%xmm0, 608(%rsp)
	movq	$0, 624(%rsp)
	movl	$0, 312(%rsp)
	movl	$0, 315(%rsp)
	movl	$0, 304(%rsp)
	movabsq	$-6148914691236517205, %rcx
	movq	%r14, %rax
	mulq	%rcx
	shrq	$4, %rdx
	cmpq	$4096, %rdx
	movl	$4096, %r13d
	cmovbq	%rdx, %r13
	movl	$0, 307(%rsp)
	movq	%rsp, %rbx
	movq	%rbx, %r8
	cmpq	$24, %r14
	jb	5f
	imulq	$112, %r13, %rdi
	movl	$8, %esi
	callq	rattle_alloc@PLT
	testb	$1, %al
	je	55f
	movq	%rdx, %r8
	pxor	%xmm0, %xmm0
5:
	movq	%r8, 320(%rsp)
	movq	$0, 328(%rsp)
	movq	%r13, 336(%rsp)
	movq	%rbx, 344(%rsp)
	movdqu	%xmm0, 352(%rsp)
	testq	%r14, %r14
	je	52f
	xorl	%r15d, %r15d
	jmp	8f
	.p2align	4
6:
	movl	$0, 315(%rsp)
	movl	$0, 312(%rsp)
	movl	$0, 304(%rsp)
	movl	$0, 307(%rsp)
	cmpb	$1, %al
	jne	51f
7:
	incq	%rdx
	movq	%r13, %r12
	subq	%rdx, %r14
	je	51f
8:
	movl	$10, %edi
	movq	%r12, %rsi
	movq	%r14, %rdx
	callq	"memchr::bytes::memchr"
	cmpb	$1, %al
	leaq	1(%r12,%rdx), %rcx
	movq	%rdx, %rbp
	cmovneq	%r14, %rbp
	leaq	.L22d5119de29e(%rip), %r13
	cmoveq	%rcx, %r13
	incq	%r15
	movl	$0, 888(%rsp)
	movl	$0, 891(%rsp)
	movl	$0, 480(%rsp)
	movl	$0, 483(%rsp)
	testq	%rbp, %rbp
	je	6b
	cmpb	$35, (%r12)
	je	6b
	movb	%al, 8(%rsp)
	movq	%rdx, 64(%rsp)
	movl	$58, %edi
	movq	%r12, %rsi
	movq	%rbp, %rdx
	callq	"memchr::bytes::memchr"
	cmpb	$1, %al
	jne	16f
	leaq	1(%rdx), %rax
	leaq	(%r12,%rdx), %rbx
	incq	%rbx
	subq	%rax, %rbp
	movl	$58, %edi
	movq	%rbx, %rsi
	movq	%rdx, 32(%rsp)
	movq	%rbp, %rdx
	callq	"memchr::bytes::memchr"
	cmpb	$1, %al
	jne	16f
	leaq	1(%rdx), %rax
	movq	%rdx, 88(%rsp)
	movq	%rbx, 56(%rsp)
	addq	%rdx, %rbx
	incq	%rbx
	subq	%rax, %rbp
	movl	$58, %edi
	movq	%rbx, %rsi
	movq	%rbp, %rdx
	callq	"memchr::bytes::memchr"
	cmpb	$1, %al
	movq	%rbp, %r9
	cmoveq	%rdx, %r9
	movq	%rbx, 16(%rsp)
	jne	11f
	movq	%r9, 112(%rsp)
	movq	%r15, 400(%rsp)
	leaq	1(%rdx), %rax
	subq	%rax, %rbp
	addq	%rdx, %rbx
	incq	%rbx
	movl	$58, %edi
	movq	%rbx, %rsi
	movq	%rbp, %rdx
	callq	"memchr::bytes::memchr"
	movq	%rdx, %r15
	cmpb	$1, %al
	cmovneq	%rbp, %r15
	jmp	10f
	.p2align	4
9:
	movq	%rcx, %rbx
	cmpb	$1, %al
	jne	12f
10:
	movl	$44, %edi
	movq	%rbx, %rsi
	movq	%r15, %rdx
	callq	"memchr::bytes::memchr"
	leaq	1(%rdx), %rsi
	xorl	%ecx, %ecx
	cmpb	$1, %al
	cmoveq	%rsi, %rcx
	cmovneq	%r15, %rdx
	subq	%rcx, %r15
	addq	%rbx, %rcx
	cmpq	$2, %rdx
	jne	9b
	cmpb	$99, (%rbx)
	jne	9b
	movzbl	1(%rbx), %edx
	cmpb	$115, %dl
	sete	%bpl
	cmpb	$1, %al
	jne	13f
	movq	%rcx, %rbx
	cmpb	$115, %dl
	jne	10b
	jmp	13f
11:
	xorl	%ebp, %ebp
	jmp	14f
12:
	xorl	%ebp, %ebp
13:
	movq	400(%rsp), %r15
	movq	112(%rsp), %r9
14:
	movq	32(%rsp), %r10
	testq	%r10, %r10
	movq	64(%rsp), %rdx
	movzbl	8(%rsp), %eax
	je	17f
	xorl	%ebx, %ebx
	xorl	%ecx, %ecx
	.p2align	4
15:
	movzbl	(%r12,%rcx), %esi
	addb	$-48, %sil
	cmpb	$9, %sil
	ja	17f
	addl	%ebx, %ebx
	leal	(%rbx,%rbx,4), %edi
	movzbl	%sil, %r8d
	addl	%edi, %r8d
	movzwl	%r8w, %esi
	cmpl	$256, %esi
	movl	$256, %ebx
	cmovbl	%r8d, %ebx
	incq	%rcx
	cmpq	%rcx, %r10
	jne	15b
	cmpl	$255, %esi
	ja	17f
	movq	%r9, 112(%rsp)
	pxor	%xmm0, %xmm0
	movdqa	%xmm0, 528(%rsp)
	movdqa	%xmm0, 512(%rsp)
	movdqa	%xmm0, 496(%rsp)
	movq	$0, 544(%rsp)
	movq	56(%rsp), %rdi
	movq	88(%rsp), %rsi
	callq	"mime_base::names::is_type_name"
	testb	%al, %al
	je	16f
	leaq	496(%rsp), %rdi
	movq	56(%rsp), %rsi
	movq	88(%rsp), %rdx
	callq	"smallvec::small_vec::SmallVec::from_slice::<#940dc9c6c8ede164>"
	cmpb	$0, 496(%rsp)
	jne	318f
	movq	%r15, 400(%rsp)
	movzbl	504(%rsp), %r11d
	movq	512(%rsp), %r10
	movq	520(%rsp), %r9
	movq	528(%rsp), %r15
	movq	536(%rsp), %rax
	movq	%rax, 56(%rsp)
	movq	544(%rsp), %rax
	movq	%rax, 160(%rsp)
	movq	112(%rsp), %r8
	cmpq	$11, %r8
	jne	20f
	movl	$10, %eax
	movq	%rax, 80(%rsp)
	movq	16(%rsp), %rdi
	cmpl	$1330536287, (%rdi)
	jne	21f
	leaq	.L357803851c0b(%rip), %rdx
	movl	$11, %esi
	movq	%r15, 96(%rsp)
	movq	%r10, %r15
	movq	%r11, 640(%rsp)
	movq	%r9, 704(%rsp)
	callq	"core::cmp::slices::groups_equal::<i8,31'core::cmp::numbers::U8PartialEq{}>"
	movq	704(%rsp), %r9
	movq	640(%rsp), %r11
	movq	%r15, %r10
	movq	96(%rsp), %r15
	movq	112(%rsp), %r8
	testb	%al, %al
	movq	64(%rsp), %rdx
	movzbl	8(%rsp), %eax
	je	22f
	movl	$0, 963(%rsp)
	movl	$0, 960(%rsp)
	movl	$0, 896(%rsp)
	movl	$0, 899(%rsp)
	movl	$1, %ebx
	movq	$0, 32(%rsp)
	movq	$0, 88(%rsp)
	movq	%r9, %rcx
	xorl	%r9d, %r9d
	movq	$0, 16(%rsp)
	movq	%r11, %r8
	movq	%r10, %r11
	movq	%rcx, %r10
	movq	%r15, 704(%rsp)
	movq	56(%rsp), %rcx
	movq	%rcx, 96(%rsp)
	movq	160(%rsp), %rcx
	movq	%rcx, 56(%rsp)
	movq	$0, 160(%rsp)
	xorl	%r15d, %r15d
	xorl	%edi, %edi
	xorl	%ebp, %ebp
	jmp	48f
	.p2align	4
16:
	movq	64(%rsp), %rdx
	movzbl	8(%rsp), %eax
17:
	movl	888(%rsp), %ecx
	movl	891(%rsp), %esi
	movl	%esi, 315(%rsp)
	movl	%ecx, 312(%rsp)
	movl	480(%rsp), %ecx
	movl	483(%rsp), %esi
	movl	%ecx, 304(%rsp)
	movl	%esi, 307(%rsp)
	movq	352(%rsp), %rcx
	cmpq	%rcx, 360(%rsp)
	je	19f
18:
	movq	344(%rsp), %rsi
	movq	%r15, (%rsi,%rcx,8)
	incq	%rcx
	movq	%rcx, 352(%rsp)
	cmpb	$1, %al
	je	7b
	jmp	51f
19:
	leaq	344(%rsp), %rdi
	callq	"std_alloc::vec::Vec::grow_amortized::<#6aa8efa60d943355>"
	testb	%al, %al
	je	318f
	movq	352(%rsp), %rcx
	movq	64(%rsp), %rdx
	movzbl	8(%rsp), %eax
	jmp	18b
20:
	leaq	-1(%r8), %rax
	movq	%rax, 80(%rsp)
	cmpq	$254, %rax
	movq	64(%rsp), %rdx
	movzbl	8(%rsp), %eax
	jbe	22f
	jmp	24f
21:
	movq	64(%rsp), %rdx
	movzbl	8(%rsp), %eax
22:
	movzwl	%bx, %ecx
	movq	%rcx, 152(%rsp)
	movq	32(%rsp), %rcx
	addq	88(%rsp), %rcx
	movq	%rcx, 32(%rsp)
	leaq	(%r12,%rcx), %rbx
	addq	$2, %rbx
	xorl	%ecx, %ecx
	.p2align	4
23:
	cmpq	%rcx, %r8
	je	25f
	movzbl	(%rbx,%rcx), %esi
	incq	%rcx
	cmpq	$58, %rsi
	ja	23b
	movabsq	$288230376151712769, %rdi
	btq	%rsi, %rdi
	jae	23b
24:
	cmpl	$1, %r11d
	setne	%cl
	testq	%r15, %r15
	sete	%sil
	orb	%cl, %sil
	movq	400(%rsp), %r15
	jne	17b
	movq	%r10, %rdi
	callq	rattle_dealloc@PLT
	movzbl	8(%rsp), %eax
	movq	64(%rsp), %rdx
	jmp	17b
25:
	movq	%r9, 704(%rsp)
	movq	%r15, 96(%rsp)
	movq	%r10, 144(%rsp)
	cmpq	$17, %r8
	movq	%r11, 640(%rsp)
	jae	26f
	pxor	%xmm0, %xmm0
	movdqa	%xmm0, 496(%rsp)
	leaq	496(%rsp), %rdi
	movq	16(%rsp), %r15
	movq	%r15, %rsi
	movq	%r8, %rdx
	callq	memcpy@PLT
	movq	%r15, %rdi
	movq	640(%rsp), %r11
	movq	112(%rsp), %r9
	movzbl	8(%rsp), %eax
	movq	64(%rsp), %rdx
	movq	496(%rsp), %r15
	movq	504(%rsp), %rcx
	movq	%rcx, 88(%rsp)
	xorl	%ecx, %ecx
	testq	%r9, %r9
	movq	144(%rsp), %r10
	movq	152(%rsp), %r8
	jne	38f
	jmp	42f
26:
	testq	%r8, %r8
	js	316f
	movl	$1, %esi
	movq	%r8, %rdi
	callq	rattle_alloc@PLT
	movq	640(%rsp), %r11
	movq	112(%rsp), %r9
	testb	$1, %al
	je	316f
	movq	%rdx, %r15
	movq	%rdx, 496(%rsp)
	movq	%rdx, %rax
	movq	16(%rsp), %rsi
	subq	%rsi, %rax
	cmpq	%r9, %rax
	jae	27f
	movq	32(%rsp), %rax
	addq	%r12, %rax
	movq	%r15, %rcx
	subq	%rax, %rcx
	addq	$-2, %rcx
	cmpq	$32, %rcx
	movq	64(%rsp), %rdx
	movzbl	8(%rsp), %eax
	movq	152(%rsp), %r8
	jae	28f
	xorl	%ecx, %ecx
	jmp	33f
27:
	movq	%r15, %rdi
	movq	%r9, %rdx
	callq	memmove@PLT
	movq	640(%rsp), %r11
	movq	112(%rsp), %r9
	movq	64(%rsp), %rdx
	movzbl	8(%rsp), %eax
	movq	144(%rsp), %r10
	movq	152(%rsp), %r8
	jmp	37f
28:
	movabsq	$9223372036854775776, %rsi
	cmpq	$32, %r9
	movq	144(%rsp), %r10
	jae	29f
	xorl	%ecx, %ecx
	jmp	31f
29:
	movq	%r9, %rcx
	andq	%rsi, %rcx
	movq	32(%rsp), %rdi
	addq	%r12, %rdi
	addq	$18, %rdi
	xorl	%r8d, %r8d
30:
	movdqu	-16(%rdi,%r8), %xmm0
	movdqu	(%rdi,%r8), %xmm1
	movdqu	%xmm0, (%r15,%r8)
	movdqu	%xmm1, 16(%r15,%r8)
	addq	$32, %r8
	cmpq	%r8, %rcx
	jne	30b
	cmpq	%rcx, %r9
	movq	152(%rsp), %r8
	je	37f
	testb	$28, %r9b
	je	33f
31:
	movq	%rcx, %rdi
	addq	$28, %rsi
	movq	%rsi, %rcx
	andq	%r9, %rcx
	movq	16(%rsp), %r10
32:
	movl	(%r10,%rdi), %esi
	movl	%esi, (%r15,%rdi)
	addq	$4, %rdi
	cmpq	%rdi, %rcx
	jne	32b
	cmpq	%rcx, %r9
	movq	144(%rsp), %r10
	je	37f
33:
	movq	%r9, %rdi
	movq	%rcx, %rsi
	andq	$3, %rdi
	movq	16(%rsp), %r10
	je	35f
	movq	%rcx, %rsi
34:
	movzbl	(%r10,%rsi), %r8d
	movb	%r8b, (%r15,%rsi)
	incq	%rsi
	decq	%rdi
	jne	34b
35:
	subq	%r9, %rcx
	cmpq	$-4, %rcx
	movq	152(%rsp), %r8
	movq	144(%rsp), %r10
	ja	37f
	movq	32(%rsp), %rcx
	addq	%r12, %rcx
	addq	$5, %rcx
36:
	movzbl	-3(%rcx,%rsi), %edi
	movb	%dil, (%r15,%rsi)
	movzbl	-2(%rcx,%rsi), %edi
	movb	%dil, 1(%r15,%rsi)
	movzbl	-1(%rcx,%rsi), %edi
	movb	%dil, 2(%r15,%rsi)
	movzbl	(%rcx,%rsi), %edi
	movb	%dil, 3(%r15,%rsi)
	addq	$4, %rsi
	cmpq	%rsi, %r9
	jne	36b
37:
	movb	$1, %cl
	movq	%r9, 88(%rsp)
	movq	16(%rsp), %rdi
38:
	movq	%rdi, %rsi
	cmpb	$42, (%rdi)
	jne	41f
	cmpq	$8, 80(%rsp)
	jb	39f
	movq	1(%rsi), %xmm0
	movdqa	1b(%rip), %xmm1
	pcmpeqb	%xmm0, %xmm1
	movdqa	2b(%rip), %xmm2
	pcmpeqb	%xmm0, %xmm2
	por	%xmm1, %xmm2
	movdqa	3b(%rip), %xmm1
	pcmpeqb	%xmm0, %xmm1
	pcmpeqb	4b(%rip), %xmm0
	por	%xmm1, %xmm0
	por	%xmm2, %xmm0
	pmovmskb	%xmm0, %esi
	movb	$2, %dil
	testb	%sil, %sil
	jne	47f
39:
	movq	32(%rsp), %rsi
	addq	%r12, %rsi
	addq	$3, %rsi
	xorl	%edi, %edi
	movabsq	$1688849862361089, %rbx
	movq	80(%rsp), %r12
40:
	cmpq	%rdi, %r12
	je	45f
	movzbl	(%rsi,%rdi), %r8d
	incq	%rdi
	addl	$-42, %r8d
	cmpl	$50, %r8d
	ja	40b
	btq	%r8, %rbx
	jae	40b
	movb	$2, %dil
	jmp	46f
41:
	cmpq	$8, %r9
	jb	42f
	movq	(%rsi), %xmm0
	movdqa	1b(%rip), %xmm1
	pcmpeqb	%xmm0, %xmm1
	movdqa	2b(%rip), %xmm2
	pcmpeqb	%xmm0, %xmm2
	por	%xmm1, %xmm2
	movdqa	3b(%rip), %xmm1
	pcmpeqb	%xmm0, %xmm1
	pcmpeqb	4b(%rip), %xmm0
	por	%xmm1, %xmm0
	por	%xmm2, %xmm0
	pmovmskb	%xmm0, %esi
	movb	$2, %dil
	testb	%sil, %sil
	jne	47f
42:
	xorl	%esi, %esi
	movabsq	$1688849862361089, %r12
43:
	cmpq	%rsi, %r9
	je	44f
	movzbl	(%rbx,%rsi), %edi
	incq	%rsi
	addl	$-42, %edi
	cmpl	$50, %edi
	ja	43b
	btq	%rdi, %r12
	jae	43b
	movb	$2, %dil
	jmp	47f
44:
	xorl	%edi, %edi
	jmp	47f
45:
	movb	$1, %dil
46:
	movq	152(%rsp), %r8
47:
	movq	%r15, 32(%rsp)
	movzbl	%cl, %r15d
	movl	$0, 963(%rsp)
	movl	$0, 960(%rsp)
	movl	$0, 896(%rsp)
	movl	$0, 899(%rsp)
	movb	$1, %cl
	movq	%rcx, 16(%rsp)
	xorl	%ebx, %ebx
48:
	movq	%rdi, %r12
	movl	960(%rsp), %ecx
	movl	963(%rsp), %esi
	movl	%esi, 315(%rsp)
	movl	%ecx, 312(%rsp)
	movl	896(%rsp), %ecx
	movl	899(%rsp), %esi
	movl	%ecx, 480(%rsp)
	movl	%esi, 483(%rsp)
	movl	480(%rsp), %ecx
	movl	483(%rsp), %esi
	movl	%ecx, 304(%rsp)
	movl	%esi, 307(%rsp)
	movq	328(%rsp), %rcx
	cmpq	%rcx, 336(%rsp)
	je	50f
49:
	movq	320(%rsp), %rsi
	imulq	$112, %rcx, %rdi
	movq	%rbx, (%rsi,%rdi)
	movq	%r8, 8(%rsi,%rdi)
	movq	%r11, 16(%rsi,%rdi)
	movq	%r10, 24(%rsi,%rdi)
	movq	704(%rsp), %r8
	movq	%r8, 32(%rsi,%rdi)
	movq	96(%rsp), %r8
	movq	%r8, 40(%rsi,%rdi)
	movq	56(%rsp), %r8
	movq	%r8, 48(%rsi,%rdi)
	movq	160(%rsp), %r8
	movq	%r8, 56(%rsi,%rdi)
	movq	%r15, 64(%rsi,%rdi)
	movq	32(%rsp), %r8
	movq	%r8, 72(%rsi,%rdi)
	movq	88(%rsp), %r8
	movq	%r8, 80(%rsi,%rdi)
	movq	%r9, 88(%rsi,%rdi)
	movb	%r12b, 96(%rsi,%rdi)
	movl	312(%rsp), %r8d
	movl	315(%rsp), %r9d
	movl	%r8d, 97(%rsi,%rdi)
	movl	%r9d, 100(%rsi,%rdi)
	movb	%bpl, 104(%rsi,%rdi)
	movl	304(%rsp), %r8d
	movl	307(%rsp), %r9d
	movl	%r8d, 105(%rsi,%rdi)
	movl	%r9d, 108(%rsi,%rdi)
	incq	%rcx
	movq	%rcx, 328(%rsp)
	movq	400(%rsp), %r15
	cmpb	$1, %al
	je	7b
	jmp	51f
50:
	movq	%r8, 152(%rsp)
	movq	%r11, 640(%rsp)
	movq	%r10, 144(%rsp)
	movq	%r9, 112(%rsp)
	leaq	320(%rsp), %rdi
	callq	"std_alloc::vec::Vec::grow_amortized::<#b0aa9f4bede84b75>"
	testb	%al, %al
	je	370f
	movq	328(%rsp), %rcx
	movq	64(%rsp), %rdx
	movzbl	8(%rsp), %eax
	movq	112(%rsp), %r9
	movq	144(%rsp), %r10
	movq	640(%rsp), %r11
	movq	152(%rsp), %r8
	jmp	49b
51:
	movq	320(%rsp), %r8
	movq	328(%rsp), %r9
	movq	336(%rsp), %r13
	movq	344(%rsp), %rbx
	movq	352(%rsp), %rcx
	movq	360(%rsp), %r14
	testq	%r9, %r9
	je	56f
	movabsq	$88686269585142075, %rax
	cmpq	%rax, %r9
	ja	53f
	imulq	$104, %r9, %rdi
	movl	$8, %esi
	movq	%r8, %r12
	movq	%rcx, %r15
	movq	%r9, %rbp
	callq	rattle_alloc@PLT
	movq	%rbp, %r9
	movq	%r12, %r8
	testb	$1, %al
	je	53f
	movq	%r15, %rcx
	jmp	57f
52:
	movq	%rsp, %rbx
	xorl	%r9d, %r9d
	xorl	%ecx, %ecx
	xorl	%r14d, %r14d
	movq	%rbx, %rdx
	jmp	57f
53:
	movq	%r8, 928(%rsp)
	movq	%r9, 936(%rsp)
	movq	%r13, 944(%rsp)
	leaq	928(%rsp), %rdi
	callq	"std_alloc::vec::Vec::drop::<#a85d6931f7cfb01d>"
	testq	%r14, %r14
	je	55f
	movq	%rbx, %rdi
54:
	callq	rattle_dealloc@PLT
55:
	movq	688(%rsp), %rdi
	movq	$1, (%rdi)
	movq	$1, 8(%rdi)
	addq	$16, %rdi
	movl	$304, %edx
	xorl	%esi, %esi
	callq	memset@PLT
	jmp	368f
56:
	movq	%rsp, %rdx
	xorl	%r9d, %r9d
57:
	movq	%rdx, 192(%rsp)
	movq	$0, 200(%rsp)
	movq	%r9, 208(%rsp)
	movq	%rsp, %r12
	movq	%r12, 216(%rsp)
	pxor	%xmm0, %xmm0
	movdqa	%xmm0, 224(%rsp)
	movq	%rbx, 240(%rsp)
	movq	%rcx, 248(%rsp)
	movq	%r14, 256(%rsp)
	testq	%r9, %r9
	je	65f
	movq	%r13, 56(%rsp)
	movq	%r8, 400(%rsp)
	leaq	96(%r8), %r13
	xorl	%r15d, %r15d
	movq	%r9, 112(%rsp)
	jmp	60f
	.p2align	4
58:
	movq	224(%rsp), %rax
	cmpq	%rax, 232(%rsp)
	movq	%r12, %r9
	je	62f
59:
	movzbl	8(%rsp), %ecx
	movq	216(%rsp), %rdx
	leaq	(%rax,%rax,2), %rsi
	shlq	$4, %rsi
	movq	%rcx, (%rdx,%rsi)
	movq	%rdi, 8(%rdx,%rsi)
	movq	%r8, 16(%rdx,%rsi)
	movq	%r10, 24(%rdx,%rsi)
	movups	%xmm3, 32(%rdx,%rsi)
	incq	%rax
	movq	%rax, 224(%rsp)
	incq	%r15
	addq	$112, %r13
	cmpq	%r15, %r9
	je	64f
60:
	movq	%r9, %r12
	movzbl	-88(%r13), %eax
	movb	%al, 8(%rsp)
	movzwl	-83(%r13), %ebx
	movzbl	-81(%r13), %ebp
	movl	-87(%r13), %r14d
	movq	-80(%r13), %rdi
	movq	-72(%r13), %r8
	movq	-64(%r13), %r10
	movdqu	-48(%r13), %xmm1
	movups	-56(%r13), %xmm3
	movq	-56(%r13), %rdx
	movzbl	-32(%r13), %esi
	movl	-31(%r13), %eax
	cmpb	$0, -96(%r13)
	movl	%eax, 496(%rsp)
	movl	-28(%r13), %eax
	movl	%eax, 499(%rsp)
	movq	-24(%r13), %r11
	movq	-8(%r13), %r9
	movdqu	-16(%r13), %xmm2
	movl	496(%rsp), %eax
	movl	499(%rsp), %ecx
	movl	%ecx, 811(%rsp)
	movl	%eax, 808(%rsp)
	movdqu	(%r13), %xmm0
	movdqa	%xmm0, 912(%rsp)
	jne	58b
	movq	%r9, 88(%rsp)
	movb	%sil, 32(%rsp)
	movq	%rdx, 64(%rsp)
	movq	200(%rsp), %rax
	cmpq	%rax, 208(%rsp)
	movq	%r12, %r9
	je	63f
61:
	shll	$16, %ebp
	orl	%ebp, %ebx
	shlq	$32, %rbx
	orq	%rbx, %r14
	movq	192(%rsp), %rcx
	imulq	$104, %rax, %rdx
	movzbl	8(%rsp), %esi
	movb	%sil, (%rcx,%rdx)
	movl	%r14d, 1(%rcx,%rdx)
	movq	%r14, %rsi
	shrq	$48, %rsi
	movb	%sil, 7(%rcx,%rdx)
	shrq	$32, %r14
	movw	%r14w, 5(%rcx,%rdx)
	movq	%rdi, 8(%rcx,%rdx)
	movq	%r8, 16(%rcx,%rdx)
	movq	%r10, 24(%rcx,%rdx)
	movq	64(%rsp), %rsi
	movq	%rsi, 32(%rcx,%rdx)
	movdqu	%xmm1, 40(%rcx,%rdx)
	movzbl	32(%rsp), %esi
	movb	%sil, 56(%rcx,%rdx)
	movl	808(%rsp), %esi
	movl	811(%rsp), %edi
	movl	%esi, 57(%rcx,%rdx)
	movl	%edi, 60(%rcx,%rdx)
	movq	%r11, 64(%rcx,%rdx)
	movdqu	%xmm2, 72(%rcx,%rdx)
	movdqa	912(%rsp), %xmm0
	movdqu	%xmm0, 88(%rcx,%rdx)
	incq	%rax
	movq	%rax, 200(%rsp)
	incq	%r15
	addq	$112, %r13
	cmpq	%r15, %r9
	jne	60b
	jmp	64f
62:
	movaps	%xmm3, 64(%rsp)
	movq	%r10, %rbp
	movq	%r8, %rbx
	movq	%rdi, %r14
	leaq	216(%rsp), %rdi
	callq	"std_alloc::vec::Vec::grow_amortized::<#84a938a65d12231e>"
	testb	%al, %al
	je	261f
	movq	224(%rsp), %rax
	movq	112(%rsp), %r9
	movq	%r14, %rdi
	movq	%rbx, %r8
	movq	%rbp, %r10
	movaps	64(%rsp), %xmm3
	jmp	59b
63:
	movdqa	%xmm2, 640(%rsp)
	movdqa	%xmm1, 704(%rsp)
	movq	%r11, 80(%rsp)
	movq	%r10, 96(%rsp)
	movq	%r8, 160(%rsp)
	movq	%rdi, 16(%rsp)
	leaq	192(%rsp), %rdi
	callq	"std_alloc::vec::Vec::grow_amortized::<#9f351709e7e1a03a>"
	testb	%al, %al
	je	266f
	movq	200(%rsp), %rax
	movq	112(%rsp), %r9
	movq	16(%rsp), %rdi
	movq	160(%rsp), %r8
	movq	96(%rsp), %r10
	movq	80(%rsp), %r11
	movdqa	704(%rsp), %xmm1
	movdqa	640(%rsp), %xmm2
	jmp	61b
64:
	movq	192(%rsp), %rax
	movq	%rax, 384(%rsp)
	movq	200(%rsp), %rax
	movq	%rax, 136(%rsp)
	movq	208(%rsp), %rax
	movq	%rax, 664(%rsp)
	movq	216(%rsp), %r12
	movq	224(%rsp), %rax
	movq	%rax, 392(%rsp)
	movq	232(%rsp), %rax
	movq	%rax, 672(%rsp)
	movq	240(%rsp), %rbx
	movq	248(%rsp), %rax
	movq	%rax, 1024(%rsp)
	movq	256(%rsp), %r14
	movq	56(%rsp), %r13
	movq	400(%rsp), %r8
	jmp	66f
65:
	movq	%rcx, 1024(%rsp)
	movq	%rdx, 384(%rsp)
	movq	$0, 672(%rsp)
	movq	$0, 392(%rsp)
	movq	$0, 664(%rsp)
	movq	$0, 136(%rsp)
66:
	movq	%r8, 592(%rsp)
	movq	$0, 600(%rsp)
	movq	%r13, 608(%rsp)
	movq	%r9, 616(%rsp)
	movq	$0, 624(%rsp)
	leaq	592(%rsp), %rdi
	callq	"std_alloc::vec::deque::VecDeque::drop::<#a85d6931f7cfb01d>"
	movq	1048(%rsp), %rax
	movq	24(%rax), %r15
	testq	%r15, %r15
	movq	%rbx, 784(%rsp)
	movq	%r14, 800(%rsp)
	movq	%r12, 792(%rsp)
	je	132f
	movq	16(%rax), %rcx
	leaq	.L6c36dbee23df(%rip), %rsi
	leaq	928(%rsp), %rdi
	movl	$12, %edx
	movq	%r15, %r8
	callq	"mime_text::magic::section::after_prefix"
	cmpb	$0, 928(%rsp)
	je	181f
	movq	936(%rsp), %r14
	movq	944(%rsp), %rbp
	pxor	%xmm0, %xmm0
	movdqa	%xmm0, 896(%rsp)
	movq	%rsp, %rbx
	movq	%rbx, 592(%rsp)
	movdqu	%xmm0, 600(%rsp)
	testq	%rbp, %rbp
	je	132f
	movq	%r15, 64(%rsp)
67:
	pxor	%xmm0, %xmm0
	movdqa	%xmm0, 912(%rsp)
	movdqa	%xmm0, 960(%rsp)
	movdqa	%xmm0, 432(%rsp)
	cmpb	$91, (%r14)
	jne	289f
	leaq	1(%r14), %rbx
	leaq	-1(%rbp), %rdx
	movl	$10, %edi
	movq	%rbx, %rsi
	movq	%rdx, %r15
	callq	"memchr::bytes::memchr"
	cmpb	$1, %al
	jne	290f
	movq	%rbp, %r13
	pxor	%xmm0, %xmm0
	movdqa	%xmm0, 320(%rsp)
	testq	%rdx, %rdx
	je	195f
	leaq	(%rbx,%rdx), %rdi
	incq	%rdi
	movq	%rdx, %rax
	incq	%rax
	subq	%rax, %r15
	xorl	%ebp, %ebp
	xorl	%eax, %eax
	.p2align	4
68:
	movzbl	1(%r14,%rax), %ecx
	leal	-48(%rcx), %esi
	cmpb	$9, %sil
	ja	69f
	leaq	(,%rbp,4), %rcx
	addq	%rbp, %rcx
	movzbl	%sil, %esi
	leaq	(%rsi,%rcx,2), %rcx
	movabsq	$4294967296, %rbp
	cmpq	%rbp, %rcx
	cmovbq	%rcx, %rbp
	incq	%rax
	cmpq	%rax, %rdx
	jne	68b
	jmp	195f
69:
	movq	%rbp, %rsi
	shrq	$32, %rsi
	jne	195f
	testq	%rax, %rax
	je	195f
	cmpb	$58, %cl
	jne	195f
	leaq	-1(%rdx), %rcx
	pxor	%xmm0, %xmm0
	movdqa	%xmm0, 496(%rsp)
	cmpq	%rax, %rcx
	je	195f
	leaq	(%r14,%rax), %rbx
	addq	$2, %rbx
	subq	%rax, %rdx
	cmpb	$93, -2(%rbx,%rdx)
	jne	195f
	movq	%rdi, 8(%rsp)
	addq	$-2, %rdx
	movdqa	%xmm0, 224(%rsp)
	movdqa	%xmm0, 208(%rsp)
	movdqa	%xmm0, 192(%rsp)
	movq	$0, 240(%rsp)
	movq	%rbx, %rdi
	movq	%rdx, %r14
	movq	%rdx, %rsi
	callq	"mime_base::names::is_type_name"
	testb	%al, %al
	je	195f
	leaq	192(%rsp), %rdi
	movq	%rbx, %rsi
	movq	%r14, %rdx
	callq	"smallvec::small_vec::SmallVec::from_slice::<#940dc9c6c8ede164>"
	cmpb	$0, 192(%rsp)
	jne	292f
	movzbl	200(%rsp), %ecx
	movdqa	208(%rsp), %xmm2
	movq	208(%rsp), %rax
	movq	%rax, 400(%rsp)
	movq	224(%rsp), %rax
	leaq	232(%rsp), %rdx
	movdqu	(%rdx), %xmm0
	movdqa	%xmm0, 960(%rsp)
	movdqa	%xmm0, 912(%rsp)
	pxor	%xmm0, %xmm0
	leaq	440(%rsp), %rdx
	movdqu	%xmm0, (%rdx)
	movq	%rsp, %rbx
	movq	%rbx, 432(%rsp)
	testq	%r15, %r15
	movq	%rax, 112(%rsp)
	movq	%rcx, 88(%rsp)
	je	126f
	movq	8(%rsp), %r14
	movzbl	(%r14), %eax
	cmpb	$62, %al
	setne	%cl
	addb	$-48, %al
	cmpb	$10, %al
	setae	%al
	xorl	%r9d, %r9d
	testb	%al, %cl
	jne	127f
70:
	cmpq	$5, %r15
	movq	%r15, %rbx
	jb	78f
	cmpb	$95, 3(%r14)
	je	71f
	cmpb	$11, 4(%r14)
	jne	78f
71:
	movq	%r9, %r15
	movdqa	%xmm2, 160(%rsp)
	leaq	.L11b0047a3772(%rip), %rsi
	leaq	496(%rsp), %rdi
	movl	$15, %edx
	movq	%r14, %rcx
	movq	%rbx, %r8
	callq	"mime_text::magic::section::after_prefix"
	cmpb	$1, 496(%rsp)
	jne	72f
	movq	504(%rsp), %r14
	movq	512(%rsp), %rax
	jmp	73f
72:
	leaq	.Lfd004d2b9c93(%rip), %rsi
	leaq	320(%rsp), %rdi
	movl	$14, %edx
	movq	%r14, %rcx
	movq	%rbx, %r8
	callq	"mime_text::magic::section::after_prefix"
	cmpb	$1, 320(%rsp)
	jne	77f
	movq	328(%rsp), %r14
	movq	336(%rsp), %rax
73:
	movq	%rax, 56(%rsp)
	movdqa	160(%rsp), %xmm2
74:
	xorl	%r15d, %r15d
	movl	$2, %ecx
	xorl	%r9d, %r9d
	xorl	%r11d, %r11d
	xorl	%r10d, %r10d
	xorl	%edx, %edx
	xorl	%edi, %edi
	xorl	%r8d, %r8d
	xorl	%ebx, %ebx
	xorl	%r13d, %r13d
75:
	movq	440(%rsp), %r12
	cmpq	%r12, 448(%rsp)
	je	90f
76:
	movq	432(%rsp), %rbx
	imulq	$88, %r12, %rax
	movl	%r13d, (%rbx,%rax)
	movq	%rcx, 8(%rbx,%rax)
	movq	%r8, 16(%rbx,%rax)
	movq	%rdi, 24(%rbx,%rax)
	movq	%rdx, 32(%rbx,%rax)
	movq	%r10, 40(%rbx,%rax)
	movq	%r10, 48(%rbx,%rax)
	movq	%r11, 56(%rbx,%rax)
	movq	%r9, 64(%rbx,%rax)
	movq	%r15, 72(%rbx,%rax)
	movq	%r15, 80(%rbx,%rax)
	incq	%r12
	movq	%r12, 440(%rsp)
	movq	56(%rsp), %rdx
	testq	%rdx, %rdx
	je	131f
	incl	%r13d
	movzbl	(%r14), %eax
	cmpb	$62, %al
	setne	%cl
	addb	$-48, %al
	cmpb	$10, %al
	setae	%al
	movq	%rdx, %r15
	movl	%r13d, %r9d
	testb	%al, %cl
	je	70b
	jmp	131f
77:
	leaq	.L0e1bfeee433c(%rip), %rsi
	leaq	192(%rsp), %rdi
	movl	$17, %edx
	movq	%r14, %rcx
	movq	%rbx, %r8
	callq	"mime_text::magic::section::after_prefix"
	cmpb	$1, 192(%rsp)
	movdqa	160(%rsp), %xmm2
	movq	%r15, %r9
	jne	78f
	movq	200(%rsp), %r14
	movq	208(%rsp), %rax
	movq	%rax, 56(%rsp)
	jmp	74b
78:
	movzbl	(%r14), %ecx
	movabsq	$4294967296, %rax
	cmpb	$62, %cl
	jne	79f
	leaq	-1(%rbx), %rcx
	xorl	%r13d, %r13d
	jmp	81f
79:
	addb	$-48, %cl
	cmpb	$9, %cl
	ja	334f
	movl	$1, %edx
	xorl	%r13d, %r13d
80:
	cmpq	%rdx, %rbx
	je	279f
	leaq	(,%r13,4), %rsi
	addq	%r13, %rsi
	movzbl	%cl, %ecx
	leaq	(%rcx,%rsi,2), %rsi
	cmpq	%rax, %rsi
	movq	%rax, %r13
	cmovbq	%rsi, %r13
	movzbl	1(%r14), %edi
	incq	%r14
	leal	-48(%rdi), %ecx
	incq	%rdx
	cmpb	$9, %cl
	jbe	80b
	movb	$1, %cl
	movq	%rcx, 8(%rsp)
	cmpq	$1, %rdx
	sete	%cl
	movq	%rsi, %r8
	shrq	$32, %r8
	setne	%r8b
	orb	%cl, %r8b
	jne	338f
	cmpb	$62, %dil
	jne	338f
	cmpl	%r13d, %r9d
	jb	341f
	cmpq	$63, %rsi
	ja	342f
	movq	%rbx, %rcx
	subq	%rdx, %rcx
81:
	movq	%r14, %r11
	movb	$1, %dl
	movq	%rdx, 8(%rsp)
	testq	%rcx, %rcx
	je	280f
	movq	%rbx, 16(%rsp)
	leaq	4(%r11), %r15
	xorl	%ebx, %ebx
	xorl	%r12d, %r12d
	.p2align	4
82:
	movzbl	1(%r11,%r12), %edx
	leal	-48(%rdx), %esi
	cmpb	$9, %sil
	ja	83f
	leaq	(%rbx,%rbx,4), %rdx
	movzbl	%sil, %esi
	leaq	(%rsi,%rdx,2), %rbx
	cmpq	%rax, %rbx
	cmovaeq	%rax, %rbx
	incq	%r12
	incq	%r15
	cmpq	%r12, %rcx
	jne	82b
	jmp	280f
83:
	movq	%rbx, %rsi
	shrq	$32, %rsi
	movb	$3, %sil
	movq	%rsi, 32(%rsp)
	jne	335f
	testq	%r12, %r12
	je	335f
	cmpb	$61, %dl
	jne	335f
	movq	%rcx, %rsi
	subq	%r12, %rsi
	cmpq	$3, %rsi
	jb	280f
	addq	$-3, %rsi
	movzbl	2(%r11,%r12), %edx
	movl	%edx, %r8d
	shll	$8, %r8d
	movzbl	3(%r11,%r12), %r9d
	leaq	(%r8,%r9), %r10
	cmpq	%r10, %rsi
	jb	280f
	addq	%r9, %r8
	movq	%rcx, %rsi
	subq	%r8, %rsi
	leaq	-3(%rsi), %rdi
	cmpq	%r12, %rdi
	je	280f
	leaq	(%r11,%r12), %rdi
	leaq	(%r10,%rdi), %r14
	addq	$4, %r14
	subq	%r12, %rsi
	movzbl	(%r14), %edi
	cmpb	$38, %dil
	movb	%dil, 704(%rsp)
	movq	%r8, 152(%rsp)
	movq	%r11, 640(%rsp)
	jne	84f
	addq	$-4, %rsi
	cmpq	%r10, %rsi
	jb	280f
	movl	%edx, %esi
	shll	$9, %esi
	leal	(%rsi,%r9,2), %esi
	subq	%rsi, %rcx
	leaq	-4(%rcx), %rsi
	cmpq	%r12, %rsi
	je	280f
	subq	%r12, %rcx
	addq	$-4, %rcx
	leaq	(%r11,%r10), %rsi
	addq	%r12, %rsi
	addq	$5, %rsi
	movq	%rsi, 144(%rsp)
	shll	$9, %edx
	leal	(%rdx,%r9,2), %edx
	addq	%r11, %rdx
	leaq	(%r12,%rdx), %r14
	addq	$5, %r14
	movzbl	5(%r12,%rdx), %edx
	movl	$1, %r11d
	movq	%rcx, %rsi
	movq	%r10, 880(%rsp)
	jmp	85f
84:
	addq	$-3, %rsi
	xorl	%r11d, %r11d
	movl	%edi, %edx
	movq	$0, 880(%rsp)
	movq	$0, 144(%rsp)
85:
	movl	$1, %r8d
	cmpb	$126, %dl
	movq	%r9, 96(%rsp)
	jne	87f
	decq	%rsi
	je	280f
	xorl	%r9d, %r9d
	xorl	%ecx, %ecx
86:
	movzbl	1(%r14,%rcx), %edx
	leal	-48(%rdx), %edi
	cmpb	$9, %dil
	ja	89f
	leaq	(%r9,%r9,4), %rdx
	movzbl	%dil, %edi
	leaq	(%rdi,%rdx,2), %r9
	cmpq	%rax, %r9
	cmovaeq	%rax, %r9
	incq	%rcx
	cmpq	%rcx, %rsi
	jne	86b
	jmp	280f
87:
	movq	%rsi, %r9
88:
	movl	$1, %ecx
	movq	%rcx, 80(%rsp)
	jmp	93f
89:
	movq	%r9, %rdi
	shrq	$32, %rdi
	jne	369f
	movq	%r9, 80(%rsp)
	testq	%rcx, %rcx
	je	369f
	movq	%rsi, %rdi
	subq	%rcx, %rdi
	movq	%rdi, %r9
	addq	%rcx, %r14
	incq	%r14
	movq	80(%rsp), %rcx
	cmpq	$2, %rcx
	je	91f
	cmpl	$1, %ecx
	je	88b
	xorl	%ecx, %ecx
	movq	96(%rsp), %r8
	jmp	92f
90:
	movq	%rcx, 704(%rsp)
	movq	%r9, 96(%rsp)
	movq	%rdx, 184(%rsp)
	movq	%rdi, 80(%rsp)
	movq	%r8, 8(%rsp)
	movq	%r11, 16(%rsp)
	movq	%r10, 32(%rsp)
	movdqa	%xmm2, 160(%rsp)
	leaq	432(%rsp), %rdi
	callq	"std_alloc::vec::Vec::grow_amortized::<#9df5fbc9122c907f>"
	testb	%al, %al
	je	374f
	movq	440(%rsp), %r12
	movdqa	160(%rsp), %xmm2
	movq	32(%rsp), %r10
	movq	16(%rsp), %r11
	movq	8(%rsp), %r8
	movq	80(%rsp), %rdi
	movq	184(%rsp), %rdx
	movq	96(%rsp), %r9
	movq	704(%rsp), %rcx
	jmp	76b
91:
	movq	96(%rsp), %r8
	movl	%r8d, %ecx
	xorb	$1, %cl
92:
	movq	80(%rsp), %rdi
	xorq	$4, %rdi
	andl	$3, %r8d
	orq	%rdi, %r8
	sete	%dil
	orb	%cl, %dil
	testb	$1, %dil
	movl	$1, %r8d
	je	373f
93:
	cmpb	$43, %dl
	jne	96f
	decq	%r9
	je	280f
	xorl	%r8d, %r8d
	xorl	%ecx, %ecx
94:
	movzbl	1(%r14,%rcx), %edx
	leal	-48(%rdx), %esi
	cmpb	$9, %sil
	ja	95f
	leaq	(%r8,%r8,4), %rdx
	movzbl	%sil, %esi
	leaq	(%rsi,%rdx,2), %r8
	cmpq	%rax, %r8
	cmovaeq	%rax, %r8
	incq	%rcx
	cmpq	%rcx, %r9
	jne	94b
	jmp	280f
95:
	movq	%r8, %rax
	shrq	$32, %rax
	jne	372f
	testq	%rcx, %rcx
	je	372f
	subq	%rcx, %r9
	addq	%rcx, %r14
	incq	%r14
96:
	incq	%r14
	decq	%r9
	cmpb	$10, %dl
	movdqa	%xmm2, 160(%rsp)
	jne	97f
	movq	%r9, 56(%rsp)
	leaq	(%r10,%rbx), %rax
	addq	%r8, %rax
	shrq	$32, %rax
	jne	282f
	testq	%r10, %r10
	movq	%r10, 32(%rsp)
	movq	%r11, 16(%rsp)
	movq	%r8, 8(%rsp)
	je	98f
	movl	$1, %esi
	movq	%r10, %rdi
	callq	rattle_alloc@PLT
	testb	$1, %al
	je	384f
	movdqa	160(%rsp), %xmm2
	movq	32(%rsp), %r10
	movq	16(%rsp), %r11
	movq	8(%rsp), %r8
	jmp	99f
97:
	movl	$10, %edi
	movq	%r14, %rsi
	movq	%r9, %rbx
	movq	%r9, %rdx
	callq	"memchr::bytes::memchr"
	cmpb	$1, %al
	jne	280f
	addq	%rdx, %r14
	incq	%r14
	incq	%rdx
	subq	%rdx, %rbx
	movq	%rbx, 56(%rsp)
	movl	$1, %ecx
	xorl	%r15d, %r15d
	xorl	%r9d, %r9d
	xorl	%r11d, %r11d
	xorl	%r10d, %r10d
	xorl	%edx, %edx
	xorl	%edi, %edi
	xorl	%r8d, %r8d
	xorl	%ebx, %ebx
	movdqa	160(%rsp), %xmm2
	jmp	75b
98:
	movq	%rsp, %rdx
99:
	movq	96(%rsp), %r9
	movq	%rdx, %rax
	movq	640(%rsp), %rsi
	subq	%rsi, %rax
	subq	%r12, %rax
	addq	$-4, %rax
	cmpq	%r10, %rax
	movq	%rdx, 184(%rsp)
	jae	105f
	cmpl	$4, %r10d
	movq	80(%rsp), %rdi
	jb	100f
	cmpq	$32, %rax
	jae	110f
100:
	xorl	%eax, %eax
101:
	subl	%eax, %r9d
	movq	%rax, %rcx
	andl	$3, %r9d
	je	103f
	movq	%rax, %rcx
102:
	movzbl	(%r15,%rcx), %esi
	movb	%sil, (%rdx,%rcx)
	incq	%rcx
	decq	%r9
	jne	102b
103:
	notq	%rax
	addq	152(%rsp), %rax
	cmpl	$3, %eax
	jb	106f
104:
	movzbl	(%r15,%rcx), %eax
	movb	%al, (%rdx,%rcx)
	movzbl	1(%r15,%rcx), %eax
	movb	%al, 1(%rdx,%rcx)
	movzbl	2(%r15,%rcx), %eax
	movb	%al, 2(%rdx,%rcx)
	movzbl	3(%r15,%rcx), %eax
	movb	%al, 3(%rdx,%rcx)
	addq	$4, %rcx
	cmpq	%rcx, %r10
	jne	104b
	jmp	106f
105:
	addq	%r12, %rsi
	addq	$4, %rsi
	movq	%rdx, %rdi
	movq	%r10, %rdx
	callq	memmove@PLT
	movq	184(%rsp), %rdx
	movq	8(%rsp), %r8
	movq	16(%rsp), %r11
	movq	32(%rsp), %r10
	movdqa	160(%rsp), %xmm2
	movq	80(%rsp), %rdi
106:
	xorl	%r15d, %r15d
	movl	$0, %r9d
	cmpb	$38, 704(%rsp)
	jne	125f
	movq	880(%rsp), %r15
	testq	%r15, %r15
	je	107f
	movl	$1, %esi
	movq	%r15, %rdi
	callq	rattle_alloc@PLT
	testb	$1, %al
	movq	144(%rsp), %rsi
	je	383f
	movq	%rdx, %r9
	movdqa	160(%rsp), %xmm2
	movq	32(%rsp), %r10
	movq	16(%rsp), %r11
	movq	8(%rsp), %r8
	movq	80(%rsp), %rdi
	jmp	108f
107:
	movq	%rsp, %r9
	movq	144(%rsp), %rsi
108:
	movq	%r9, %rcx
	subq	%rsi, %rcx
	cmpq	%r15, %rcx
	jae	109f
	xorl	%eax, %eax
	cmpl	$4, %r15d
	jb	120f
	cmpq	$32, %rcx
	jb	120f
	cmpl	$32, %r15d
	jae	115f
	xorl	%eax, %eax
	jmp	118f
109:
	movq	%r9, %rdi
	movq	%r15, %rdx
	movq	%r9, %r12
	callq	memmove@PLT
	movq	%r12, %r9
	movq	184(%rsp), %rdx
	movq	80(%rsp), %rdi
	movq	8(%rsp), %r8
	movq	16(%rsp), %r11
	movq	32(%rsp), %r10
	movdqa	160(%rsp), %xmm2
	jmp	125f
110:
	cmpl	$32, %r10d
	jae	111f
	xorl	%eax, %eax
	jmp	113f
111:
	movl	%r9d, %ecx
	andl	$31, %ecx
	movq	%r10, %rax
	subq	%rcx, %rax
	leaq	(%rsi,%r12), %r9
	addq	$20, %r9
	xorl	%esi, %esi
112:
	movdqu	-16(%r9,%rsi), %xmm0
	movdqu	(%r9,%rsi), %xmm1
	movdqu	%xmm0, (%rdx,%rsi)
	movdqu	%xmm1, 16(%rdx,%rsi)
	addq	$32, %rsi
	cmpq	%rsi, %rax
	jne	112b
	testq	%rcx, %rcx
	movq	96(%rsp), %r9
	je	106b
	cmpl	$4, %ecx
	jb	101b
113:
	movq	%rax, %rcx
	movl	%r9d, %r12d
	andl	$3, %r12d
	movq	%r10, %rax
	subq	%r12, %rax
	leaq	(%r15,%rcx), %rsi
	movq	152(%rsp), %rdi
	subq	%rcx, %rdi
	subq	%r12, %rdi
	addq	%rdx, %rcx
	xorl	%r8d, %r8d
114:
	movl	(%rsi,%r8), %r9d
	movl	%r9d, (%rcx,%r8)
	addq	$4, %r8
	cmpq	%r8, %rdi
	jne	114b
	testq	%r12, %r12
	movq	8(%rsp), %r8
	movq	80(%rsp), %rdi
	movq	184(%rsp), %rdx
	movq	96(%rsp), %r9
	jne	101b
	jmp	106b
115:
	movl	%r15d, %eax
	andl	$-32, %eax
	xorl	%ecx, %ecx
116:
	movdqu	(%rsi,%rcx), %xmm0
	movdqu	16(%rsi,%rcx), %xmm1
	movdqu	%xmm0, (%r9,%rcx)
	movdqu	%xmm1, 16(%r9,%rcx)
	addq	$32, %rcx
	cmpq	%rcx, %rax
	jne	116b
	cmpl	%eax, %r15d
	jne	117f
	movq	32(%rsp), %r10
	movq	16(%rsp), %r11
	movq	8(%rsp), %r8
	movq	80(%rsp), %rdi
	jmp	124f
117:
	testb	$28, %r15b
	movq	32(%rsp), %r10
	movq	16(%rsp), %r11
	movq	8(%rsp), %r8
	movq	80(%rsp), %rdi
	je	120f
118:
	movq	%rax, %rcx
	movl	%r15d, %eax
	andl	$-4, %eax
119:
	movl	(%rsi,%rcx), %edx
	movl	%edx, (%r9,%rcx)
	addq	$4, %rcx
	cmpq	%rcx, %rax
	jne	119b
	cmpl	%eax, %r15d
	je	124f
120:
	movq	%r15, %rdx
	movq	%rax, %rcx
	andq	$3, %rdx
	je	122f
	movq	%rax, %rcx
121:
	movq	%r9, %r12
	movzbl	(%rsi,%rcx), %r9d
	movb	%r9b, (%r12,%rcx)
	movq	%r12, %r9
	incq	%rcx
	decq	%rdx
	jne	121b
122:
	subl	%r15d, %eax
	cmpl	$-4, %eax
	ja	124f
123:
	movzbl	(%rsi,%rcx), %eax
	movb	%al, (%r9,%rcx)
	movzbl	1(%rsi,%rcx), %eax
	movb	%al, 1(%r9,%rcx)
	movzbl	2(%rsi,%rcx), %eax
	movb	%al, 2(%r9,%rcx)
	movzbl	3(%rsi,%rcx), %eax
	movb	%al, 3(%r9,%rcx)
	addq	$4, %rcx
	cmpq	%rcx, %r15
	jne	123b
124:
	movq	184(%rsp), %rdx
125:
	shlq	$32, %r8
	orq	%rbx, %r8
	movb	$1, %bl
	xorl	%ecx, %ecx
	jmp	75b
126:
	xorl	%r9d, %r9d
	xorl	%r12d, %r12d
	movq	8(%rsp), %r14
	movq	$0, 56(%rsp)
	jmp	128f
127:
	xorl	%r12d, %r12d
	movq	%r15, 56(%rsp)
128:
	movdqa	912(%rsp), %xmm0
	movdqa	%xmm0, 896(%rsp)
	movq	600(%rsp), %r13
	cmpq	%r13, 608(%rsp)
	je	130f
129:
	movq	592(%rsp), %rdx
	leaq	(,%r13,4), %rax
	addq	%r13, %rax
	shlq	$4, %rax
	movl	%ebp, (%rdx,%rax)
	movq	88(%rsp), %rcx
	movq	%rcx, 8(%rdx,%rax)
	movdqu	%xmm2, 16(%rdx,%rax)
	movq	112(%rsp), %rcx
	movq	%rcx, 32(%rdx,%rax)
	movdqa	896(%rsp), %xmm0
	movdqu	%xmm0, 40(%rdx,%rax)
	movq	%rbx, 56(%rdx,%rax)
	movq	%r12, 64(%rdx,%rax)
	movq	%r9, 72(%rdx,%rax)
	leaq	1(%r13), %rcx
	movq	%rcx, 600(%rsp)
	movq	56(%rsp), %rbp
	testq	%rbp, %rbp
	jne	67b
	jmp	294f
130:
	movq	%r9, %r15
	movdqa	%xmm2, 160(%rsp)
	leaq	592(%rsp), %rdi
	callq	"std_alloc::vec::Vec::grow_amortized::<#098efa60f427b085>"
	testb	%al, %al
	je	343f
	movq	600(%rsp), %r13
	movdqa	160(%rsp), %xmm2
	movq	%r15, %r9
	jmp	129b
131:
	movq	448(%rsp), %r9
	jmp	128b
132:
	movq	%rsp, %rdi
	movb	$1, %al
	xorl	%ebx, %ebx
	movb	$1, 31(%rsp)
	movq	$0, 416(%rsp)
	movq	%rdi, 296(%rsp)
	movq	$0, 424(%rsp)
133:
	pxor	%xmm0, %xmm0
	movdqa	%xmm0, 912(%rsp)
	movq	%rsp, %r14
	movq	%r14, 432(%rsp)
	movdqu	%xmm0, 440(%rsp)
	movq	%r14, 592(%rsp)
	movdqu	%xmm0, 600(%rsp)
	testb	%al, %al
	je	145f
134:
	cmpb	$0, 31(%rsp)
	jne	135f
	callq	rattle_dealloc@PLT
135:
	movq	592(%rsp), %r15
	movq	600(%rsp), %rax
	movq	%rax, 8(%rsp)
	movq	608(%rsp), %rax
	movq	%rax, 64(%rsp)
	movq	440(%rsp), %r12
	movq	448(%rsp), %rbx
	testq	%r12, %r12
	je	138f
	leaq	16(%r14), %rbp
	jmp	137f
	.p2align	4
136:
	addq	$112, %rbp
	decq	%r12
	je	138f
137:
	cmpb	$0, -8(%rbp)
	je	136b
	movups	80(%rbp), %xmm0
	movaps	%xmm0, 272(%rsp)
	movups	64(%rbp), %xmm0
	movaps	%xmm0, 256(%rsp)
	movdqu	(%rbp), %xmm0
	movdqu	16(%rbp), %xmm1
	movdqu	32(%rbp), %xmm2
	movups	48(%rbp), %xmm3
	movaps	%xmm3, 240(%rsp)
	movdqa	%xmm2, 224(%rsp)
	movdqa	%xmm1, 208(%rsp)
	movdqa	%xmm0, 192(%rsp)
	leaq	192(%rsp), %rdi
	callq	"mime_text::mime_base++magic++matchlet++Matchlet+Destruct::drop"
	jmp	136b
138:
	testq	%rbx, %rbx
	je	139f
	movq	%r14, %rdi
	callq	rattle_dealloc@PLT
139:
	movq	1048(%rsp), %r14
	movq	32(%r14), %rsi
	movq	40(%r14), %rdx
	leaq	1440(%rsp), %rdi
	callq	"mime_text::lines::pairs::read_pairs"
	cmpb	$0, 1440(%rsp)
	je	208f
	pxor	%xmm0, %xmm0
	movdqa	%xmm0, 752(%rsp)
	movq	$0, 768(%rsp)
	movdqa	%xmm0, 720(%rsp)
	movq	$0, 736(%rsp)
	movdqa	%xmm0, 816(%rsp)
	movdqa	%xmm0, 832(%rsp)
	movdqa	%xmm0, 848(%rsp)
	cmpq	$0, 8(%rsp)
	je	182f
	xorl	%r14d, %r14d
	jmp	141f
	.p2align	4
140:
	incq	%r14
	cmpq	8(%rsp), %r14
	je	182f
141:
	movq	%r14, %rax
	shlq	$4, %rax
	leaq	(%rax,%rax,4), %rax
	movq	56(%r15,%rax), %r13
	movq	64(%r15,%rax), %rbp
	movq	72(%r15,%rax), %r12
	cmpb	$0, 8(%r15,%rax)
	je	142f
	cmpq	$0, 32(%r15,%rax)
	je	142f
	movq	16(%r15,%rax), %rdi
	callq	rattle_dealloc@PLT
142:
	testq	%rbp, %rbp
	je	144f
	movq	%r13, %rbx
	.p2align	4
143:
	movups	80(%rbx), %xmm0
	movaps	%xmm0, 272(%rsp)
	movups	64(%rbx), %xmm0
	movaps	%xmm0, 256(%rsp)
	movdqu	(%rbx), %xmm0
	movdqu	16(%rbx), %xmm1
	movdqu	32(%rbx), %xmm2
	movups	48(%rbx), %xmm3
	movaps	%xmm3, 240(%rsp)
	movdqa	%xmm2, 224(%rsp)
	movdqa	%xmm1, 208(%rsp)
	movdqa	%xmm0, 192(%rsp)
	leaq	192(%rsp), %rdi
	callq	"mime_text::mime_base++magic++matchlet++Matchlet+Destruct::drop"
	addq	$96, %rbx
	decq	%rbp
	jne	143b
144:
	testq	%r12, %r12
	je	140b
	movq	%r13, %rdi
	callq	rattle_dealloc@PLT
	jmp	140b
145:
	leaq	328(%rsp), %r8
	leaq	199(%rsp), %r9
	xorl	%eax, %eax
	movq	%rdi, 376(%rsp)
	jmp	149f
	.p2align	4
146:
	movq	600(%rsp), %rax
	cmpq	%rax, 608(%rsp)
	je	180f
147:
	movq	592(%rsp), %rcx
	leaq	(%rax,%rax,4), %rdx
	shlq	$4, %rdx
	movl	1020(%rsp), %esi
	movl	%esi, (%rcx,%rdx)
	movq	872(%rsp), %rsi
	movq	%rsi, 8(%rcx,%rdx)
	movq	864(%rsp), %rsi
	movq	%rsi, 16(%rcx,%rdx)
	movaps	1632(%rsp), %xmm0
	movups	%xmm0, 24(%rcx,%rdx)
	movdqa	912(%rsp), %xmm0
	movdqu	%xmm0, 40(%rcx,%rdx)
	movq	%r15, 56(%rcx,%rdx)
	movq	%rbx, 64(%rcx,%rdx)
	movq	%r12, 72(%rcx,%rdx)
	incq	%rax
	movq	%rax, 600(%rsp)
	movq	680(%rsp), %rbx
148:
	testq	%rbx, %rbx
	movq	376(%rsp), %rdi
	movq	992(%rsp), %rax
	je	134b
149:
	movq	%rax, %rcx
	incq	%rax
	movq	%rax, 992(%rsp)
	movq	%rbx, 1040(%rsp)
	leaq	-1(%rbx), %rax
	movq	%rax, 680(%rsp)
	movq	%rcx, 1032(%rsp)
	leaq	(%rcx,%rcx,4), %rax
	shlq	$4, %rax
	movl	(%rdi,%rax), %ecx
	movl	%ecx, 1020(%rsp)
	movzbl	8(%rdi,%rax), %ecx
	movq	%rcx, 872(%rsp)
	movq	16(%rdi,%rax), %rcx
	movq	%rcx, 864(%rsp)
	movq	32(%rdi,%rax), %rcx
	movq	%rcx, 984(%rsp)
	movups	24(%rdi,%rax), %xmm0
	movaps	%xmm0, 1632(%rsp)
	movq	56(%rdi,%rax), %rcx
	movq	64(%rdi,%rax), %rsi
	movq	72(%rdi,%rax), %rdx
	movq	%rdx, 1000(%rsp)
	movdqu	40(%rdi,%rax), %xmm0
	movdqa	%xmm0, 928(%rsp)
	movq	440(%rsp), %r12
	testq	%rsi, %rsi
	movq	%rcx, 176(%rsp)
	jne	155f
150:
	movq	%rsp, %r15
	movq	%r15, 320(%rsp)
	pxor	%xmm0, %xmm0
	movdqu	%xmm0, (%r8)
	movb	$1, %bpl
	testq	%r12, %r12
	je	179f
	movl	$1, %r13d
	subq	%r12, %r13
	imulq	$112, %r12, %rax
	leaq	(%r14,%rax), %r12
	addq	$-96, %r12
	xorl	%ebx, %ebx
	jmp	171f
151:
	movq	%r13, 80(%rsp)
	movq	1008(%rsp), %rax
152:
	movl	$1, %r13d
	movq	704(%rsp), %r15
	movq	%r10, %r14
	movq	%r8, %r10
	movq	880(%rsp), %r8
	movq	%r8, 8(%rsp)
	movq	%r10, %r8
	movq	96(%rsp), %r10
	movq	%r10, 64(%rsp)
	movq	%r11, 32(%rsp)
	movq	184(%rsp), %r10
	movq	%r10, 88(%rsp)
	movq	%rax, 104(%rsp)
	movq	%rbx, 112(%rsp)
	movl	640(%rsp), %eax
	movl	%eax, 56(%rsp)
	movl	152(%rsp), %eax
	movl	%eax, 16(%rsp)
	movl	144(%rsp), %eax
	movl	%eax, 160(%rsp)
	movq	%r14, 400(%rsp)
	movb	$1, %r14b
153:
	cmpq	%r12, 448(%rsp)
	je	167f
154:
	movq	432(%rsp), %r14
	imulq	$112, %r12, %rax
	movl	%edi, (%r14,%rax)
	movq	%r13, 8(%r14,%rax)
	movl	56(%rsp), %esi
	movl	%esi, 16(%r14,%rax)
	movl	16(%rsp), %esi
	movl	%esi, 20(%r14,%rax)
	movl	160(%rsp), %esi
	movl	%esi, 24(%r14,%rax)
	movl	$0, 28(%r14,%rax)
	movq	%r15, 32(%r14,%rax)
	movq	8(%rsp), %rsi
	movq	%rsi, 40(%r14,%rax)
	movq	64(%rsp), %rsi
	movq	%rsi, 48(%r14,%rax)
	movq	400(%rsp), %rsi
	movq	%rsi, 56(%r14,%rax)
	movq	32(%rsp), %rsi
	movq	%rsi, 64(%r14,%rax)
	movq	88(%rsp), %rsi
	movq	%rsi, 72(%r14,%rax)
	movq	104(%rsp), %rsi
	movq	%rsi, 80(%r14,%rax)
	movq	112(%rsp), %rsi
	movq	%rsi, 88(%r14,%rax)
	movq	%rbp, 96(%r14,%rax)
	movq	80(%rsp), %rsi
	movq	%rsi, 104(%r14,%rax)
	incq	%r12
	movq	%r12, 440(%rsp)
	movq	%rdx, %rsi
	testq	%rdx, %rdx
	je	150b
155:
	leaq	-1(%rsi), %rdx
	imulq	$88, %rdx, %rax
	movl	(%rcx,%rax), %edi
	movzbl	8(%rcx,%rax), %r15d
	movl	16(%rcx,%rax), %r10d
	movl	%r10d, 640(%rsp)
	movl	20(%rcx,%rax), %r10d
	movl	%r10d, 152(%rsp)
	movl	24(%rcx,%rax), %r10d
	movl	%r10d, 144(%rsp)
	movq	32(%rcx,%rax), %r10
	movq	%r10, 704(%rsp)
	movq	40(%rcx,%rax), %r10
	movq	%r10, 880(%rsp)
	movq	48(%rcx,%rax), %r10
	movq	%r10, 96(%rsp)
	movzbl	56(%rcx,%rax), %r10d
	movq	64(%rcx,%rax), %r11
	movq	72(%rcx,%rax), %rbx
	movq	%rbx, 184(%rsp)
	movq	80(%rcx,%rax), %rax
	movq	%rsp, %rbx
	movq	%rbx, 320(%rsp)
	pxor	%xmm0, %xmm0
	movdqu	%xmm0, (%r8)
	testq	%r12, %r12
	je	160f
	movq	%rax, 1008(%rsp)
	imulq	$112, %r12, %rax
	cmpl	-112(%r14,%rax), %edi
	jae	161f
	decq	%r12
	addq	%rax, %r14
	addq	$-96, %r14
	xorl	%ebp, %ebp
	movq	%r12, %rax
	movq	%rsi, 488(%rsp)
	movq	%rdx, 696(%rsp)
	.p2align	4
156:
	movq	%rax, %r12
	cmpb	$1, -8(%r14)
	jne	158f
	movups	80(%r14), %xmm0
	movaps	%xmm0, 576(%rsp)
	movups	64(%r14), %xmm0
	movaps	%xmm0, 560(%rsp)
	movups	(%r14), %xmm0
	movups	16(%r14), %xmm1
	movups	32(%r14), %xmm2
	movups	48(%r14), %xmm3
	movaps	%xmm3, 544(%rsp)
	movaps	%xmm2, 528(%rsp)
	movaps	%xmm1, 512(%rsp)
	movaps	%xmm0, 496(%rsp)
	cmpq	%rbp, 336(%rsp)
	je	159f
157:
	leaq	(,%rbp,2), %rax
	addq	%rbp, %rax
	shlq	$5, %rax
	movaps	576(%rsp), %xmm0
	movups	%xmm0, 80(%rbx,%rax)
	movaps	560(%rsp), %xmm0
	movups	%xmm0, 64(%rbx,%rax)
	movdqa	496(%rsp), %xmm0
	movdqa	512(%rsp), %xmm1
	movdqa	528(%rsp), %xmm2
	movaps	544(%rsp), %xmm3
	movups	%xmm3, 48(%rbx,%rax)
	movdqu	%xmm2, 32(%rbx,%rax)
	movdqu	%xmm1, 16(%rbx,%rax)
	movdqu	%xmm0, (%rbx,%rax)
	incq	%rbp
	movq	%rbp, 328(%rsp)
	pxor	%xmm0, %xmm0
	movdqu	%xmm0, 80(%r9)
	movdqu	%xmm0, 64(%r9)
	movdqu	%xmm0, 48(%r9)
	movdqu	%xmm0, 32(%r9)
	movdqu	%xmm0, 16(%r9)
	movdqu	%xmm0, (%r9)
158:
	movq	%r12, %rax
	subq	$1, %rax
	jb	162f
	cmpl	-128(%r14), %edi
	leaq	-112(%r14), %r14
	jb	156b
	jmp	162f
159:
	movl	%r15d, %r13d
	movq	%r11, 64(%rsp)
	movq	%r10, 8(%rsp)
	movl	%edi, %r15d
	leaq	320(%rsp), %rdi
	callq	"std_alloc::vec::Vec::grow_amortized::<#fae293e493dc3251>"
	testb	%al, %al
	je	199f
	movq	320(%rsp), %rbx
	movq	328(%rsp), %rbp
	movq	176(%rsp), %rcx
	leaq	328(%rsp), %r8
	leaq	199(%rsp), %r9
	movq	488(%rsp), %rsi
	movq	696(%rsp), %rdx
	movl	%r15d, %edi
	movq	8(%rsp), %r10
	movq	64(%rsp), %r11
	movl	%r13d, %r15d
	jmp	157b
	.p2align	4
160:
	xorl	%r12d, %r12d
	movl	$0, %ebp
	movl	$0, %r14d
	movq	%r14, 80(%rsp)
	movl	$0, %r14d
	movq	%r8, %r13
	movl	$0, %r8d
	movq	%r8, 8(%rsp)
	movq	%r13, %r8
	movl	$0, %r13d
	movq	%r13, 64(%rsp)
	movl	$0, %r13d
	movq	%r13, 32(%rsp)
	movl	$0, %r13d
	movq	%r13, 88(%rsp)
	movl	$0, %r13d
	movq	%r13, 104(%rsp)
	movl	$0, %r13d
	movq	%r13, 112(%rsp)
	movl	$0, 56(%rsp)
	movl	$0, 16(%rsp)
	movl	$0, 160(%rsp)
	movl	$0, %r13d
	movq	%r13, 400(%rsp)
	movl	$0, %r13d
	testb	%r15b, %r15b
	movl	$0, %r15d
	jne	153b
	jmp	152b
	.p2align	4
161:
	movq	%r12, 440(%rsp)
	xorl	%ebp, %ebp
	movl	$0, %eax
	movq	%rax, 80(%rsp)
	movl	$0, %r14d
	movl	$0, %eax
	movq	%rax, 8(%rsp)
	movl	$0, %eax
	movq	%rax, 64(%rsp)
	movl	$0, %eax
	movq	%rax, 32(%rsp)
	movl	$0, %eax
	movq	%rax, 88(%rsp)
	movl	$0, %eax
	movq	%rax, 104(%rsp)
	movl	$0, %eax
	movq	%rax, 112(%rsp)
	movl	$0, 56(%rsp)
	movl	$0, 16(%rsp)
	movl	%r15d, %eax
	movl	$0, %r15d
	movl	$0, 160(%rsp)
	movl	$0, %r13d
	movq	%r13, 400(%rsp)
	movl	$0, %r13d
	testb	%al, %al
	movq	1008(%rsp), %rax
	jne	153b
	jmp	152b
	.p2align	4
162:
	movq	336(%rsp), %r13
	movq	%r12, 440(%rsp)
	testb	%r15b, %r15b
	je	151b
	movl	%edi, 96(%rsp)
	testq	%rbp, %rbp
	je	164f
	movq	%rbx, %r14
	.p2align	4
163:
	movups	80(%r14), %xmm0
	movaps	%xmm0, 272(%rsp)
	movups	64(%r14), %xmm0
	movaps	%xmm0, 256(%rsp)
	movdqu	(%r14), %xmm0
	movdqu	16(%r14), %xmm1
	movdqu	32(%r14), %xmm2
	movups	48(%r14), %xmm3
	movaps	%xmm3, 240(%rsp)
	movdqa	%xmm2, 224(%rsp)
	movdqa	%xmm1, 208(%rsp)
	movdqa	%xmm0, 192(%rsp)
	leaq	192(%rsp), %rdi
	callq	"mime_text::mime_base++magic++matchlet++Matchlet+Destruct::drop"
	addq	$96, %r14
	decq	%rbp
	jne	163b
164:
	testq	%r13, %r13
	je	165f
	movq	%rbx, %rdi
	callq	rattle_dealloc@PLT
	xorl	%r14d, %r14d
	movq	440(%rsp), %r12
	jmp	166f
165:
	xorl	%r14d, %r14d
166:
	xorl	%r15d, %r15d
	movq	$0, 8(%rsp)
	movq	$0, 64(%rsp)
	movq	$0, 32(%rsp)
	movq	$0, 88(%rsp)
	movq	$0, 104(%rsp)
	movq	$0, 112(%rsp)
	xorl	%ebp, %ebp
	movq	$0, 80(%rsp)
	movl	$0, 56(%rsp)
	movl	$0, 16(%rsp)
	movl	$0, 160(%rsp)
	movq	$0, 400(%rsp)
	xorl	%r13d, %r13d
	movq	176(%rsp), %rcx
	leaq	328(%rsp), %r8
	leaq	199(%rsp), %r9
	movq	488(%rsp), %rsi
	movq	696(%rsp), %rdx
	movl	96(%rsp), %edi
	jmp	153b
167:
	movl	%edi, %ebx
	movq	%rdx, 696(%rsp)
	movq	%rsi, %r12
	leaq	432(%rsp), %rdi
	callq	"std_alloc::vec::Vec::grow_amortized::<#b5570d1ab3d10a20>"
	testb	%al, %al
	je	239f
	movq	440(%rsp), %r12
	movq	176(%rsp), %rcx
	leaq	328(%rsp), %r8
	leaq	199(%rsp), %r9
	movq	696(%rsp), %rdx
	movl	%ebx, %edi
	jmp	154b
168:
	movq	320(%rsp), %r15
	movq	328(%rsp), %rbx
	movq	176(%rsp), %rcx
	leaq	328(%rsp), %r8
	leaq	199(%rsp), %r9
	.p2align	4
169:
	leaq	(%rbx,%rbx,2), %rax
	shlq	$5, %rax
	movaps	576(%rsp), %xmm0
	movups	%xmm0, 80(%r15,%rax)
	movaps	560(%rsp), %xmm0
	movups	%xmm0, 64(%r15,%rax)
	movdqa	496(%rsp), %xmm0
	movdqa	512(%rsp), %xmm1
	movdqa	528(%rsp), %xmm2
	movaps	544(%rsp), %xmm3
	movups	%xmm3, 48(%r15,%rax)
	movdqu	%xmm2, 32(%r15,%rax)
	movdqu	%xmm1, 16(%r15,%rax)
	movdqu	%xmm0, (%r15,%rax)
	incq	%rbx
	movq	%rbx, 328(%rsp)
	pxor	%xmm0, %xmm0
	movdqu	%xmm0, 80(%r9)
	movdqu	%xmm0, 64(%r9)
	movdqu	%xmm0, 48(%r9)
	movdqu	%xmm0, 32(%r9)
	movdqu	%xmm0, 16(%r9)
	movdqu	%xmm0, (%r9)
170:
	incq	%r13
	addq	$-112, %r12
	cmpq	$1, %r13
	je	175f
171:
	cmpb	$1, -8(%r12)
	jne	170b
	movups	80(%r12), %xmm0
	movaps	%xmm0, 576(%rsp)
	movups	64(%r12), %xmm0
	movaps	%xmm0, 560(%rsp)
	movups	(%r12), %xmm0
	movups	16(%r12), %xmm1
	movups	32(%r12), %xmm2
	movups	48(%r12), %xmm3
	movaps	%xmm3, 544(%rsp)
	movaps	%xmm2, 528(%rsp)
	movaps	%xmm1, 512(%rsp)
	movaps	%xmm0, 496(%rsp)
	cmpq	%rbx, 336(%rsp)
	jne	169b
	leaq	320(%rsp), %rdi
	callq	"std_alloc::vec::Vec::grow_amortized::<#fae293e493dc3251>"
	testb	%al, %al
	jne	168b
	negq	%r13
	movq	%r13, 440(%rsp)
	movaps	576(%rsp), %xmm0
	leaq	199(%rsp), %rax
	movups	%xmm0, 80(%rax)
	movaps	560(%rsp), %xmm0
	movups	%xmm0, 64(%rax)
	movaps	496(%rsp), %xmm0
	movaps	512(%rsp), %xmm1
	movaps	528(%rsp), %xmm2
	movaps	544(%rsp), %xmm3
	movups	%xmm3, 48(%rax)
	movups	%xmm2, 32(%rax)
	movups	%xmm1, 16(%rax)
	movups	%xmm0, (%rax)
	movups	80(%rax), %xmm0
	movaps	%xmm0, 576(%rsp)
	movups	64(%rax), %xmm0
	movaps	%xmm0, 560(%rsp)
	movdqu	(%rax), %xmm0
	movdqu	16(%rax), %xmm1
	movdqu	32(%rax), %xmm2
	movups	48(%rax), %xmm3
	movaps	%xmm3, 544(%rsp)
	movdqa	%xmm2, 528(%rsp)
	movdqa	%xmm1, 512(%rsp)
	movdqa	%xmm0, 496(%rsp)
	leaq	496(%rsp), %rdi
	callq	"mime_text::mime_base++magic++matchlet++Matchlet+Destruct::drop"
	movq	320(%rsp), %rbx
	movq	328(%rsp), %r12
	movq	336(%rsp), %r15
	testq	%r12, %r12
	je	173f
	movq	%rbx, %r13
	.p2align	4
172:
	movups	80(%r13), %xmm0
	movaps	%xmm0, 576(%rsp)
	movups	64(%r13), %xmm0
	movaps	%xmm0, 560(%rsp)
	movdqu	(%r13), %xmm0
	movdqu	16(%r13), %xmm1
	movdqu	32(%r13), %xmm2
	movups	48(%r13), %xmm3
	movaps	%xmm3, 544(%rsp)
	movdqa	%xmm2, 528(%rsp)
	movdqa	%xmm1, 512(%rsp)
	movdqa	%xmm0, 496(%rsp)
	leaq	496(%rsp), %rdi
	callq	"mime_text::mime_base++magic++matchlet++Matchlet+Destruct::drop"
	addq	$96, %r13
	decq	%r12
	jne	172b
173:
	testq	%r15, %r15
	je	174f
	movq	%rbx, %rdi
	callq	rattle_dealloc@PLT
174:
	xorl	%ebx, %ebx
	xorl	%r12d, %r12d
	xorl	%r15d, %r15d
	xorl	%ebp, %ebp
	movq	176(%rsp), %rcx
	leaq	328(%rsp), %r8
	leaq	199(%rsp), %r9
	cmpq	$0, 1000(%rsp)
	jne	176f
	jmp	177f
	.p2align	4
175:
	movq	$0, 440(%rsp)
	movq	336(%rsp), %r12
	cmpq	$0, 1000(%rsp)
	je	177f
176:
	movq	%rcx, %rdi
	callq	rattle_dealloc@PLT
	leaq	199(%rsp), %r9
	leaq	328(%rsp), %r8
177:
	testb	%bpl, %bpl
	je	245f
	movdqa	928(%rsp), %xmm0
	movdqa	%xmm0, 912(%rsp)
	testq	%rbx, %rbx
	jne	146b
	cmpl	$1, 872(%rsp)
	setne	%al
	cmpq	$0, 984(%rsp)
	sete	%cl
	orb	%al, %cl
	movq	680(%rsp), %rbx
	jne	178f
	movq	864(%rsp), %rdi
	callq	rattle_dealloc@PLT
	leaq	199(%rsp), %r9
	leaq	328(%rsp), %r8
178:
	testq	%r12, %r12
	je	148b
	movq	%r15, %rdi
	callq	rattle_dealloc@PLT
	leaq	199(%rsp), %r9
	leaq	328(%rsp), %r8
	jmp	148b
	.p2align	4
179:
	xorl	%ebx, %ebx
	xorl	%r12d, %r12d
	cmpq	$0, 1000(%rsp)
	jne	176b
	jmp	177b
180:
	leaq	592(%rsp), %rdi
	callq	"std_alloc::vec::Vec::grow_amortized::<#aac2e341597f1126>"
	testb	%al, %al
	je	295f
	movq	600(%rsp), %rax
	leaq	328(%rsp), %r8
	leaq	199(%rsp), %r9
	jmp	147b
181:
	movq	$0, 8(%rsp)
	jmp	353f
182:
	cmpq	$0, 64(%rsp)
	je	183f
	movq	%r15, %rdi
	callq	rattle_dealloc@PLT
183:
	movq	424(%rsp), %r14
	testq	%r14, %r14
	movq	792(%rsp), %r12
	je	186f
	movq	296(%rsp), %rbx
	jmp	185f
	.p2align	4
184:
	addq	$48, %rbx
	decq	%r14
	je	186f
185:
	cmpb	$0, (%rbx)
	je	184b
	cmpq	$0, 24(%rbx)
	je	184b
	movq	8(%rbx), %rdi
	callq	rattle_dealloc@PLT
	jmp	184b
186:
	cmpq	$0, 416(%rsp)
	je	187f
	movq	296(%rsp), %rdi
	callq	rattle_dealloc@PLT
187:
	movq	136(%rsp), %r13
	testq	%r13, %r13
	je	191f
	movq	384(%rsp), %rax
	leaq	80(%rax), %r14
	jmp	189f
	.p2align	4
188:
	addq	$104, %r14
	decq	%r13
	je	191f
189:
	movzbl	-24(%r14), %ebp
	movq	-16(%r14), %rbx
	movq	(%r14), %r15
	cmpb	$0, -72(%r14)
	je	190f
	cmpq	$0, -48(%r14)
	je	190f
	movq	-64(%r14), %rdi
	callq	rattle_dealloc@PLT
190:
	testb	%bpl, %bpl
	je	188b
	testq	%r15, %r15
	je	188b
	movq	%rbx, %rdi
	callq	rattle_dealloc@PLT
	jmp	188b
191:
	cmpq	$0, 664(%rsp)
	je	192f
	movq	384(%rsp), %rdi
	callq	rattle_dealloc@PLT
192:
	cmpq	$0, 392(%rsp)
	movq	784(%rsp), %r14
	je	234f
	movq	%r12, %rbx
	jmp	194f
	.p2align	4
193:
	addq	$48, %rbx
	decq	392(%rsp)
	je	234f
194:
	cmpb	$0, (%rbx)
	je	193b
	cmpq	$0, 24(%rbx)
	je	193b
	movq	8(%rbx), %rdi
	callq	rattle_dealloc@PLT
	jmp	193b
195:
	movb	$2, %al
	movq	%rax, 32(%rsp)
	movb	$1, %al
	movq	%rax, 8(%rsp)
	movq	64(%rsp), %r15
	movq	%r13, %rbp
196:
	movq	592(%rsp), %rbx
	movq	600(%rsp), %rdx
	movq	608(%rsp), %r14
	testq	%rdx, %rdx
	je	197f
	movq	%rbx, %rdi
	xorl	%esi, %esi
	callq	"std_alloc::vec::opened::drop_run::<#2dfd7e2cc785f18c>"
197:
	testq	%r14, %r14
	je	198f
	movq	%rbx, %rdi
	callq	rattle_dealloc@PLT
198:
	cmpb	$0, 8(%rsp)
	je	212f
	xorl	%ecx, %ecx
	subq	%rbp, %r15
	movl	$0, %eax
	movq	%rax, 8(%rsp)
	cmovbq	%rcx, %r15
	movzbl	32(%rsp), %eax
	movq	%rax, 64(%rsp)
	jmp	354f
199:
	movq	%r12, 440(%rsp)
	movdqa	496(%rsp), %xmm0
	movdqa	512(%rsp), %xmm1
	movdqa	528(%rsp), %xmm2
	movaps	544(%rsp), %xmm3
	movdqu	%xmm0, 199(%rsp)
	movdqu	%xmm1, 215(%rsp)
	movdqu	%xmm2, 231(%rsp)
	movups	%xmm3, 247(%rsp)
	movaps	560(%rsp), %xmm4
	movups	%xmm4, 263(%rsp)
	movaps	576(%rsp), %xmm5
	movups	%xmm5, 279(%rsp)
	movaps	%xmm5, 576(%rsp)
	movaps	%xmm4, 560(%rsp)
	movaps	%xmm3, 544(%rsp)
	movdqa	%xmm2, 528(%rsp)
	movdqa	%xmm1, 512(%rsp)
	movdqa	%xmm0, 496(%rsp)
	leaq	496(%rsp), %rdi
	callq	"mime_text::mime_base++magic++matchlet++Matchlet+Destruct::drop"
	movq	320(%rsp), %rbx
	movq	328(%rsp), %r15
	movq	336(%rsp), %r14
	testq	%r15, %r15
	je	201f
	movq	%rbx, %r12
	.p2align	4
200:
	movups	80(%r12), %xmm0
	movaps	%xmm0, 576(%rsp)
	movups	64(%r12), %xmm0
	movaps	%xmm0, 560(%rsp)
	movdqu	(%r12), %xmm0
	movdqu	16(%r12), %xmm1
	movdqu	32(%r12), %xmm2
	movups	48(%r12), %xmm3
	movaps	%xmm3, 544(%rsp)
	movdqa	%xmm2, 528(%rsp)
	movdqa	%xmm1, 512(%rsp)
	movdqa	%xmm0, 496(%rsp)
	leaq	496(%rsp), %rdi
	callq	"mime_text::mime_base++magic++matchlet++Matchlet+Destruct::drop"
	addq	$96, %r12
	decq	%r15
	jne	200b
201:
	testq	%r14, %r14
	je	202f
	movq	%rbx, %rdi
	callq	rattle_dealloc@PLT
202:
	testb	%r13b, %r13b
	movq	488(%rsp), %rdx
	jne	204f
	cmpq	$0, 96(%rsp)
	je	203f
	movq	704(%rsp), %rdi
	callq	rattle_dealloc@PLT
	movq	488(%rsp), %rdx
203:
	cmpl	$1, 8(%rsp)
	setne	%al
	cmpq	$0, 1008(%rsp)
	sete	%cl
	orb	%al, %cl
	jne	204f
	movq	64(%rsp), %rdi
	callq	rattle_dealloc@PLT
	movq	488(%rsp), %rdx
204:
	cmpq	$0, 696(%rsp)
	movq	176(%rsp), %rdi
	je	244f
	leaq	80(%rdi), %r14
	movl	$1, %r15d
	jmp	206f
	.p2align	4
205:
	incq	%r15
	addq	$88, %r14
	cmpq	%r15, %rdx
	je	244f
206:
	cmpb	$0, -72(%r14)
	jne	205b
	movzbl	-24(%r14), %ebp
	movq	-16(%r14), %rbx
	movq	(%r14), %r12
	cmpq	$0, -32(%r14)
	je	207f
	movq	-48(%r14), %rdi
	callq	rattle_dealloc@PLT
	movq	488(%rsp), %rdx
	movq	176(%rsp), %rdi
207:
	testb	%bpl, %bpl
	je	205b
	testq	%r12, %r12
	je	205b
	movq	%rbx, %rdi
	callq	rattle_dealloc@PLT
	movq	488(%rsp), %rdx
	movq	176(%rsp), %rdi
	jmp	205b
208:
	movq	1448(%rsp), %r13
	movq	1456(%rsp), %rbx
	movq	1464(%rsp), %rax
	movq	%rax, 32(%rsp)
	movq	1472(%rsp), %rbp
	movq	1488(%rsp), %rax
	movq	%rax, 88(%rsp)
	movdqu	1480(%rsp), %xmm0
	movdqa	%xmm0, 112(%rsp)
	movq	48(%r14), %rsi
	movq	56(%r14), %rdx
	leaq	1376(%rsp), %rdi
	callq	"mime_text::lines::pairs::read_pairs"
	cmpb	$0, 1376(%rsp)
	je	258f
	movq	%r13, 104(%rsp)
	movq	%rbp, 112(%rsp)
	pxor	%xmm0, %xmm0
	movdqa	%xmm0, 752(%rsp)
	movq	$0, 768(%rsp)
	movdqa	%xmm0, 720(%rsp)
	movq	$0, 736(%rsp)
	movdqa	%xmm0, 816(%rsp)
	movdqa	%xmm0, 832(%rsp)
	movdqa	%xmm0, 848(%rsp)
	testq	%rbx, %rbx
	je	213f
	movq	104(%rsp), %rbp
	jmp	210f
	.p2align	4
209:
	addq	$96, %rbp
	decq	%rbx
	je	213f
210:
	movzbl	48(%rbp), %r14d
	movq	56(%rbp), %r12
	movq	72(%rbp), %r13
	cmpb	$0, (%rbp)
	je	211f
	cmpq	$0, 24(%rbp)
	je	211f
	movq	8(%rbp), %rdi
	callq	rattle_dealloc@PLT
211:
	testb	%r14b, %r14b
	je	209b
	testq	%r13, %r13
	je	209b
	movq	%r12, %rdi
	callq	rattle_dealloc@PLT
	jmp	209b
212:
	movq	$0, 104(%rsp)
	movl	$1, %eax
	movq	%rax, 8(%rsp)
	jmp	353f
213:
	cmpq	$0, 32(%rsp)
	je	214f
	movq	104(%rsp), %rdi
	callq	rattle_dealloc@PLT
214:
	cmpq	$0, 88(%rsp)
	movq	112(%rsp), %rdi
	je	215f
	callq	rattle_dealloc@PLT
215:
	cmpq	$0, 8(%rsp)
	je	221f
	xorl	%r14d, %r14d
	jmp	217f
	.p2align	4
216:
	incq	%r14
	cmpq	8(%rsp), %r14
	je	221f
217:
	movq	%r14, %rax
	shlq	$4, %rax
	leaq	(%rax,%rax,4), %rax
	movq	56(%r15,%rax), %rbx
	movq	64(%r15,%rax), %rbp
	movq	72(%r15,%rax), %r12
	cmpb	$0, 8(%r15,%rax)
	je	218f
	cmpq	$0, 32(%r15,%rax)
	je	218f
	movq	16(%r15,%rax), %rdi
	callq	rattle_dealloc@PLT
218:
	testq	%rbp, %rbp
	je	220f
	movq	%rbx, %r13
	.p2align	4
219:
	movups	80(%r13), %xmm0
	movaps	%xmm0, 272(%rsp)
	movups	64(%r13), %xmm0
	movaps	%xmm0, 256(%rsp)
	movdqu	(%r13), %xmm0
	movdqu	16(%r13), %xmm1
	movdqu	32(%r13), %xmm2
	movups	48(%r13), %xmm3
	movaps	%xmm3, 240(%rsp)
	movdqa	%xmm2, 224(%rsp)
	movdqa	%xmm1, 208(%rsp)
	movdqa	%xmm0, 192(%rsp)
	leaq	192(%rsp), %rdi
	callq	"mime_text::mime_base++magic++matchlet++Matchlet+Destruct::drop"
	addq	$96, %r13
	decq	%rbp
	jne	219b
220:
	testq	%r12, %r12
	je	216b
	movq	%rbx, %rdi
	callq	rattle_dealloc@PLT
	jmp	216b
221:
	cmpq	$0, 64(%rsp)
	je	222f
	movq	%r15, %rdi
	callq	rattle_dealloc@PLT
222:
	movq	424(%rsp), %r14
	testq	%r14, %r14
	movq	792(%rsp), %r12
	je	225f
	movq	296(%rsp), %rbx
	jmp	224f
	.p2align	4
223:
	addq	$48, %rbx
	decq	%r14
	je	225f
224:
	cmpb	$0, (%rbx)
	je	223b
	cmpq	$0, 24(%rbx)
	je	223b
	movq	8(%rbx), %rdi
	callq	rattle_dealloc@PLT
	jmp	223b
225:
	cmpq	$0, 416(%rsp)
	je	226f
	movq	296(%rsp), %rdi
	callq	rattle_dealloc@PLT
226:
	movq	136(%rsp), %r13
	testq	%r13, %r13
	je	230f
	movq	384(%rsp), %rax
	leaq	80(%rax), %r14
	jmp	228f
	.p2align	4
227:
	addq	$104, %r14
	decq	%r13
	je	230f
228:
	movzbl	-24(%r14), %ebp
	movq	-16(%r14), %rbx
	movq	(%r14), %r15
	cmpb	$0, -72(%r14)
	je	229f
	cmpq	$0, -48(%r14)
	je	229f
	movq	-64(%r14), %rdi
	callq	rattle_dealloc@PLT
229:
	testb	%bpl, %bpl
	je	227b
	testq	%r15, %r15
	je	227b
	movq	%rbx, %rdi
	callq	rattle_dealloc@PLT
	jmp	227b
230:
	cmpq	$0, 664(%rsp)
	je	231f
	movq	384(%rsp), %rdi
	callq	rattle_dealloc@PLT
231:
	cmpq	$0, 392(%rsp)
	movq	784(%rsp), %r14
	je	234f
	movq	%r12, %rbx
	jmp	233f
	.p2align	4
232:
	addq	$48, %rbx
	decq	392(%rsp)
	je	234f
233:
	cmpb	$0, (%rbx)
	je	232b
	cmpq	$0, 24(%rbx)
	je	232b
	movq	8(%rbx), %rdi
	callq	rattle_dealloc@PLT
	jmp	232b
234:
	cmpq	$0, 672(%rsp)
	je	235f
	movq	%r12, %rdi
	callq	rattle_dealloc@PLT
235:
	cmpq	$0, 800(%rsp)
	je	238f
236:
	movq	%r14, %rdi
237:
	callq	rattle_dealloc@PLT
238:
	movq	688(%rsp), %rcx
	movq	$1, (%rcx)
	movq	$1, 8(%rcx)
	pxor	%xmm0, %xmm0
	movdqu	%xmm0, 16(%rcx)
	movdqu	%xmm0, 32(%rcx)
	movdqu	%xmm0, 48(%rcx)
	movdqu	%xmm0, 64(%rcx)
	movdqu	%xmm0, 80(%rcx)
	movdqu	%xmm0, 96(%rcx)
	movdqu	%xmm0, 112(%rcx)
	movdqu	%xmm0, 128(%rcx)
	movdqu	%xmm0, 144(%rcx)
	movdqu	%xmm0, 160(%rcx)
	jmp	366f
239:
	testb	%r14b, %r14b
	je	240f
	movl	56(%rsp), %eax
	movl	%eax, 192(%rsp)
	movl	16(%rsp), %eax
	movl	%eax, 196(%rsp)
	movl	160(%rsp), %eax
	movl	%eax, 200(%rsp)
	movl	$0, 204(%rsp)
	movq	%r15, 208(%rsp)
	movq	8(%rsp), %rax
	movq	%rax, 216(%rsp)
	movq	64(%rsp), %rax
	movq	%rax, 224(%rsp)
	movq	400(%rsp), %rax
	movq	%rax, 232(%rsp)
	movq	32(%rsp), %rax
	movq	%rax, 240(%rsp)
	movq	88(%rsp), %rax
	movq	%rax, 248(%rsp)
	movq	104(%rsp), %rax
	movq	%rax, 256(%rsp)
	movq	112(%rsp), %rax
	movq	%rax, 264(%rsp)
	movq	%rbp, 272(%rsp)
	movq	80(%rsp), %rax
	movq	%rax, 280(%rsp)
	leaq	192(%rsp), %rdi
	callq	"mime_text::mime_base++magic++matchlet++Matchlet+Destruct::drop"
240:
	cmpq	$0, 696(%rsp)
	movq	176(%rsp), %rdi
	je	244f
	movq	%r12, %rax
	leaq	80(%rdi), %r14
	movl	$1, %r15d
	jmp	242f
	.p2align	4
241:
	incq	%r15
	addq	$88, %r14
	cmpq	%r15, %rax
	je	244f
242:
	cmpb	$0, -72(%r14)
	jne	241b
	movzbl	-24(%r14), %ebp
	movq	-16(%r14), %r13
	movq	(%r14), %rbx
	cmpq	$0, -32(%r14)
	je	243f
	movq	-48(%r14), %rdi
	callq	rattle_dealloc@PLT
	movq	%r12, %rax
	movq	176(%rsp), %rdi
243:
	testb	%bpl, %bpl
	je	241b
	testq	%rbx, %rbx
	je	241b
	movq	%r13, %rdi
	callq	rattle_dealloc@PLT
	movq	%r12, %rax
	movq	176(%rsp), %rdi
	jmp	241b
244:
	cmpq	$0, 1000(%rsp)
	je	245f
	callq	rattle_dealloc@PLT
245:
	cmpl	$1, 872(%rsp)
	setne	%al
	cmpq	$0, 984(%rsp)
	sete	%cl
	orb	%al, %cl
	jne	246f
	movq	864(%rsp), %rdi
	callq	rattle_dealloc@PLT
246:
	movq	1040(%rsp), %rdx
	leaq	-1(%rdx), %rax
	testq	%rax, %rax
	movq	376(%rsp), %rbx
	je	247f
	addq	1032(%rsp), %rdx
	movq	%rbx, %rdi
	movq	992(%rsp), %rsi
	callq	"std_alloc::vec::opened::drop_run::<#2dfd7e2cc785f18c>"
247:
	cmpb	$0, 31(%rsp)
	jne	248f
	movq	%rbx, %rdi
	callq	rattle_dealloc@PLT
248:
	movq	592(%rsp), %rbx
	movq	600(%rsp), %rcx
	movq	608(%rsp), %rax
	movq	%rax, 64(%rsp)
	movq	%rcx, 8(%rsp)
	testq	%rcx, %rcx
	je	254f
	xorl	%r13d, %r13d
	jmp	250f
	.p2align	4
249:
	incq	%r13
	cmpq	8(%rsp), %r13
	je	254f
250:
	movq	%r13, %rax
	shlq	$4, %rax
	leaq	(%rax,%rax,4), %rax
	movq	56(%rbx,%rax), %r12
	movq	64(%rbx,%rax), %r15
	movq	72(%rbx,%rax), %rbp
	cmpb	$0, 8(%rbx,%rax)
	je	251f
	cmpq	$0, 32(%rbx,%rax)
	je	251f
	movq	16(%rbx,%rax), %rdi
	callq	rattle_dealloc@PLT
251:
	testq	%r15, %r15
	je	253f
	movq	%r12, %r14
	.p2align	4
252:
	movups	80(%r14), %xmm0
	movaps	%xmm0, 272(%rsp)
	movups	64(%r14), %xmm0
	movaps	%xmm0, 256(%rsp)
	movdqu	(%r14), %xmm0
	movdqu	16(%r14), %xmm1
	movdqu	32(%r14), %xmm2
	movups	48(%r14), %xmm3
	movaps	%xmm3, 240(%rsp)
	movdqa	%xmm2, 224(%rsp)
	movdqa	%xmm1, 208(%rsp)
	movdqa	%xmm0, 192(%rsp)
	leaq	192(%rsp), %rdi
	callq	"mime_text::mime_base++magic++matchlet++Matchlet+Destruct::drop"
	addq	$96, %r14
	decq	%r15
	jne	252b
253:
	testq	%rbp, %rbp
	je	249b
	movq	%r12, %rdi
	callq	rattle_dealloc@PLT
	jmp	249b
254:
	cmpq	$0, 64(%rsp)
	je	255f
	movq	%rbx, %rdi
	callq	rattle_dealloc@PLT
255:
	movq	432(%rsp), %rbx
	movq	440(%rsp), %r15
	movq	448(%rsp), %r14
	testq	%r15, %r15
	je	310f
	leaq	16(%rbx), %r12
	jmp	257f
	.p2align	4
256:
	addq	$112, %r12
	decq	%r15
	je	310f
257:
	cmpb	$0, -8(%r12)
	je	256b
	movups	80(%r12), %xmm0
	movaps	%xmm0, 272(%rsp)
	movups	64(%r12), %xmm0
	movaps	%xmm0, 256(%rsp)
	movdqu	(%r12), %xmm0
	movdqu	16(%r12), %xmm1
	movdqu	32(%r12), %xmm2
	movups	48(%r12), %xmm3
	movaps	%xmm3, 240(%rsp)
	movdqa	%xmm2, 224(%rsp)
	movdqa	%xmm1, 208(%rsp)
	movdqa	%xmm0, 192(%rsp)
	leaq	192(%rsp), %rdi
	callq	"mime_text::mime_base++magic++matchlet++Matchlet+Destruct::drop"
	jmp	256b
258:
	movq	1408(%rsp), %rax
	movq	%rax, 56(%rsp)
	movq	1424(%rsp), %r12
	movdqu	1416(%rsp), %xmm0
	movdqa	%xmm0, 400(%rsp)
	movq	64(%r14), %rsi
	movq	72(%r14), %rdx
	leaq	1504(%rsp), %rdi
	callq	"mime_text::lines::icons::read_icons"
	cmpb	$0, 1504(%rsp)
	je	262f
	pxor	%xmm0, %xmm0
	movdqa	%xmm0, 752(%rsp)
	movq	$0, 768(%rsp)
	movdqa	%xmm0, 720(%rsp)
	movq	$0, 736(%rsp)
	movdqa	%xmm0, 816(%rsp)
	movdqa	%xmm0, 832(%rsp)
	movdqa	%xmm0, 848(%rsp)
	leaq	1384(%rsp), %rdi
	callq	"std_alloc::vec::Vec::drop::<#c9bf5f63ee5b37bf>"
	testq	%r12, %r12
	movq	784(%rsp), %r14
	je	259f
	movq	56(%rsp), %rdi
	callq	rattle_dealloc@PLT
259:
	movq	%r13, 1344(%rsp)
	movq	%rbx, 1352(%rsp)
	movq	32(%rsp), %rax
	movq	%rax, 1360(%rsp)
	leaq	1344(%rsp), %rdi
	callq	"std_alloc::vec::Vec::drop::<#c9bf5f63ee5b37bf>"
	cmpq	$0, 88(%rsp)
	movq	792(%rsp), %rbx
	movq	384(%rsp), %r12
	je	260f
	movq	%rbp, %rdi
	callq	rattle_dealloc@PLT
260:
	movq	%r15, 1312(%rsp)
	movq	8(%rsp), %rax
	movq	%rax, 1320(%rsp)
	movq	64(%rsp), %rax
	movq	%rax, 1328(%rsp)
	leaq	1312(%rsp), %rdi
	callq	"std_alloc::vec::Vec::drop::<#19687a60d315e203>"
	movq	296(%rsp), %rax
	movq	%rax, 1280(%rsp)
	movq	424(%rsp), %rax
	movq	%rax, 1288(%rsp)
	movq	416(%rsp), %rax
	movq	%rax, 1296(%rsp)
	leaq	1280(%rsp), %rdi
	callq	"std_alloc::vec::Vec::drop::<#c11c0a2adfc4198f>"
	movq	%r12, 1248(%rsp)
	movq	136(%rsp), %rax
	movq	%rax, 1256(%rsp)
	movq	664(%rsp), %rax
	movq	%rax, 1264(%rsp)
	leaq	1248(%rsp), %rdi
	callq	"std_alloc::vec::Vec::drop::<#f76b5842e243a073>"
	movq	%rbx, 1216(%rsp)
	movq	392(%rsp), %rax
	movq	%rax, 1224(%rsp)
	movq	672(%rsp), %rax
	movq	%rax, 1232(%rsp)
	leaq	1216(%rsp), %rdi
	callq	"std_alloc::vec::Vec::drop::<#c11c0a2adfc4198f>"
	cmpq	$0, 800(%rsp)
	jne	236b
	jmp	238b
261:
	cmpb	$0, 8(%rsp)
	movq	56(%rsp), %rbx
	je	269f
	testq	%rbp, %rbp
	je	269f
	movq	%r14, %rdi
	jmp	268f
262:
	movq	%r12, 16(%rsp)
	movq	%r13, 104(%rsp)
	movq	1536(%rsp), %r12
	movq	1552(%rsp), %r13
	movdqu	1544(%rsp), %xmm0
	movdqa	%xmm0, 160(%rsp)
	movq	80(%r14), %rsi
	movq	88(%r14), %rdx
	leaq	1568(%rsp), %rdi
	callq	"mime_text::lines::icons::read_icons"
	cmpb	$0, 1568(%rsp)
	movq	784(%rsp), %rdx
	je	291f
	pxor	%xmm0, %xmm0
	movdqa	%xmm0, 752(%rsp)
	movq	$0, 768(%rsp)
	movdqa	%xmm0, 720(%rsp)
	movq	$0, 736(%rsp)
	movdqa	%xmm0, 816(%rsp)
	movdqa	%xmm0, 832(%rsp)
	movdqa	%xmm0, 848(%rsp)
	leaq	1512(%rsp), %rdi
	callq	"std_alloc::vec::Vec::drop::<#1e50bf88f4980553>"
	testq	%r13, %r13
	je	263f
	movq	%r12, %rdi
	callq	rattle_dealloc@PLT
263:
	leaq	1384(%rsp), %rdi
	callq	"std_alloc::vec::Vec::drop::<#c9bf5f63ee5b37bf>"
	cmpq	$0, 16(%rsp)
	movq	104(%rsp), %r12
	je	264f
	movq	56(%rsp), %rdi
	callq	rattle_dealloc@PLT
264:
	movq	%r12, 1184(%rsp)
	movq	%rbx, 1192(%rsp)
	movq	32(%rsp), %rax
	movq	%rax, 1200(%rsp)
	leaq	1184(%rsp), %rdi
	callq	"std_alloc::vec::Vec::drop::<#c9bf5f63ee5b37bf>"
	cmpq	$0, 88(%rsp)
	movq	792(%rsp), %rbx
	movq	384(%rsp), %r12
	je	265f
	movq	%rbp, %rdi
	callq	rattle_dealloc@PLT
265:
	movq	%r15, 1152(%rsp)
	movq	8(%rsp), %rax
	movq	%rax, 1160(%rsp)
	movq	64(%rsp), %rax
	movq	%rax, 1168(%rsp)
	leaq	1152(%rsp), %rdi
	callq	"std_alloc::vec::Vec::drop::<#19687a60d315e203>"
	movq	296(%rsp), %rax
	movq	%rax, 1120(%rsp)
	movq	424(%rsp), %rax
	movq	%rax, 1128(%rsp)
	movq	416(%rsp), %rax
	movq	%rax, 1136(%rsp)
	leaq	1120(%rsp), %rdi
	callq	"std_alloc::vec::Vec::drop::<#c11c0a2adfc4198f>"
	movq	%r12, 1088(%rsp)
	movq	136(%rsp), %rax
	movq	%rax, 1096(%rsp)
	movq	664(%rsp), %rax
	movq	%rax, 1104(%rsp)
	leaq	1088(%rsp), %rdi
	callq	"std_alloc::vec::Vec::drop::<#f76b5842e243a073>"
	movq	%rbx, 1056(%rsp)
	movq	392(%rsp), %rax
	movq	%rax, 1064(%rsp)
	movq	672(%rsp), %rax
	movq	%rax, 1072(%rsp)
	leaq	1056(%rsp), %rdi
	callq	"std_alloc::vec::Vec::drop::<#c11c0a2adfc4198f>"
	cmpq	$0, 800(%rsp)
	je	238b
	movq	784(%rsp), %rdi
	jmp	237b
266:
	cmpb	$0, 32(%rsp)
	sete	%al
	cmpq	$0, 88(%rsp)
	sete	%bl
	orb	%al, %bl
	cmpb	$0, 16(%rsp)
	movq	160(%rsp), %rdi
	movq	64(%rsp), %rax
	je	267f
	testq	%rax, %rax
	je	267f
	callq	rattle_dealloc@PLT
267:
	testb	%bl, %bl
	movq	56(%rsp), %rbx
	movq	80(%rsp), %rdi
	jne	269f
268:
	callq	rattle_dealloc@PLT
269:
	movq	400(%rsp), %rax
	movq	%rax, 432(%rsp)
	movq	%r15, %rax
	notq	%rax
	addq	112(%rsp), %rax
	movq	%rax, 440(%rsp)
	movq	%rbx, 448(%rsp)
	incq	%r15
	movq	%r15, 456(%rsp)
	movq	$0, 464(%rsp)
	leaq	432(%rsp), %rdi
	callq	"std_alloc::vec::deque::VecDeque::drop::<#a85d6931f7cfb01d>"
	movq	192(%rsp), %rbx
	movq	200(%rsp), %r12
	movq	208(%rsp), %rax
	movq	%rax, 8(%rsp)
	testq	%r12, %r12
	je	273f
	leaq	80(%rbx), %r13
	jmp	271f
	.p2align	4
270:
	addq	$104, %r13
	decq	%r12
	je	273f
271:
	movzbl	-24(%r13), %r15d
	movq	-16(%r13), %r14
	movq	(%r13), %rbp
	cmpb	$0, -72(%r13)
	je	272f
	cmpq	$0, -48(%r13)
	je	272f
	movq	-64(%r13), %rdi
	callq	rattle_dealloc@PLT
272:
	testb	%r15b, %r15b
	je	270b
	testq	%rbp, %rbp
	je	270b
	movq	%r14, %rdi
	callq	rattle_dealloc@PLT
	jmp	270b
273:
	cmpq	$0, 8(%rsp)
	je	274f
	movq	%rbx, %rdi
	callq	rattle_dealloc@PLT
274:
	movq	216(%rsp), %rbx
	movq	224(%rsp), %r15
	movq	232(%rsp), %r14
	testq	%r15, %r15
	je	277f
	movq	%rbx, %r12
	jmp	276f
	.p2align	4
275:
	addq	$48, %r12
	decq	%r15
	je	277f
276:
	cmpb	$0, (%r12)
	je	275b
	cmpq	$0, 24(%r12)
	je	275b
	movq	8(%r12), %rdi
	callq	rattle_dealloc@PLT
	jmp	275b
277:
	testq	%r14, %r14
	je	278f
	movq	%rbx, %rdi
	callq	rattle_dealloc@PLT
278:
	cmpq	$0, 256(%rsp)
	je	55b
	movq	240(%rsp), %rdi
	jmp	54b
279:
	movb	$1, %al
	movq	%rax, 8(%rsp)
280:
	movq	$0, 16(%rsp)
	movb	$1, %al
281:
	movq	%rax, 32(%rsp)
282:
	movq	432(%rsp), %rbx
	movq	440(%rsp), %r12
	movq	448(%rsp), %rax
	movq	%rax, 56(%rsp)
	testq	%r12, %r12
	je	286f
	leaq	80(%rbx), %r13
	jmp	284f
	.p2align	4
283:
	addq	$88, %r13
	decq	%r12
	je	286f
284:
	cmpb	$0, -72(%r13)
	jne	283b
	movzbl	-24(%r13), %r15d
	movq	-16(%r13), %r14
	movq	(%r13), %rbp
	cmpq	$0, -32(%r13)
	je	285f
	movq	-48(%r13), %rdi
	callq	rattle_dealloc@PLT
285:
	testb	%r15b, %r15b
	je	283b
	testq	%rbp, %rbp
	je	283b
	movq	%r14, %rdi
	callq	rattle_dealloc@PLT
	jmp	283b
286:
	cmpq	$0, 56(%rsp)
	je	287f
	movq	%rbx, %rdi
	callq	rattle_dealloc@PLT
287:
	movq	64(%rsp), %r15
	movq	112(%rsp), %rcx
	movq	88(%rsp), %rax
	movq	16(%rsp), %rbp
288:
	cmpl	$1, %eax
	setne	%al
	testq	%rcx, %rcx
	sete	%cl
	orb	%al, %cl
	jne	196b
	movq	400(%rsp), %rdi
	callq	rattle_dealloc@PLT
	jmp	196b
289:
	movb	$2, %al
	movq	%rax, 32(%rsp)
	movb	$1, %al
	movq	%rax, 8(%rsp)
	jmp	293f
290:
	movb	$1, %al
	movq	%rax, 8(%rsp)
	xorl	%ebp, %ebp
	movb	$1, %al
	movq	%rax, 32(%rsp)
	jmp	293f
291:
	movq	688(%rsp), %rcx
	movq	$0, (%rcx)
	movq	384(%rsp), %rax
	movq	%rax, 8(%rcx)
	movq	136(%rsp), %rax
	movq	%rax, 16(%rcx)
	movq	664(%rsp), %rax
	movq	%rax, 24(%rcx)
	movq	792(%rsp), %rax
	movq	%rax, 32(%rcx)
	movq	392(%rsp), %rax
	movq	%rax, 40(%rcx)
	movq	672(%rsp), %rax
	movq	%rax, 48(%rcx)
	movq	%rdx, 56(%rcx)
	movq	1024(%rsp), %rax
	movq	%rax, 64(%rcx)
	movq	800(%rsp), %rax
	movq	%rax, 72(%rcx)
	movq	%r15, 80(%rcx)
	movq	8(%rsp), %rax
	movq	%rax, 88(%rcx)
	movq	64(%rsp), %rax
	movq	%rax, 96(%rcx)
	movq	296(%rsp), %rax
	movq	%rax, 104(%rcx)
	movq	424(%rsp), %rax
	movq	%rax, 112(%rcx)
	movq	416(%rsp), %rax
	movq	%rax, 120(%rcx)
	movq	104(%rsp), %rax
	movq	%rax, 128(%rcx)
	movq	%rbx, 136(%rcx)
	movq	32(%rsp), %rax
	movq	%rax, 144(%rcx)
	movq	%rbp, 152(%rcx)
	movaps	112(%rsp), %xmm0
	movups	%xmm0, 160(%rcx)
	leaq	1384(%rsp), %rdx
	movq	16(%rdx), %rax
	movq	%rax, 192(%rcx)
	movups	(%rdx), %xmm0
	movups	%xmm0, 176(%rcx)
	movq	56(%rsp), %rax
	movq	%rax, 200(%rcx)
	movaps	400(%rsp), %xmm0
	movups	%xmm0, 208(%rcx)
	leaq	1512(%rsp), %rax
	movups	(%rax), %xmm0
	movups	%xmm0, 224(%rcx)
	movq	16(%rax), %rax
	movq	%rax, 240(%rcx)
	movq	%r12, 248(%rcx)
	movaps	160(%rsp), %xmm0
	movups	%xmm0, 256(%rcx)
	movdqu	1576(%rsp), %xmm0
	movdqu	1592(%rsp), %xmm1
	movdqu	1608(%rsp), %xmm2
	jmp	367f
292:
	movq	$0, 8(%rsp)
	movq	$0, 32(%rsp)
	xorl	%ebp, %ebp
293:
	movq	64(%rsp), %r15
	jmp	196b
294:
	movq	%rdx, 376(%rsp)
	movq	608(%rsp), %rdx
	testq	%rdx, %rdx
	sete	31(%rsp)
	movq	%rsp, %rax
	movq	%rax, 496(%rsp)
	pxor	%xmm0, %xmm0
	movdqu	%xmm0, 504(%rsp)
	testq	%rcx, %rcx
	je	315f
	movq	%rdx, 64(%rsp)
	movq	%rcx, 680(%rsp)
	movq	%rax, 8(%rsp)
	xorl	%ebx, %ebx
	xorl	%ebp, %ebp
	jmp	322f
295:
	cmpq	$0, 872(%rsp)
	je	296f
	cmpq	$0, 984(%rsp)
	je	296f
	movq	864(%rsp), %rdi
	callq	rattle_dealloc@PLT
296:
	movq	%r15, %r14
297:
	movups	80(%r14), %xmm0
	movaps	%xmm0, 272(%rsp)
	movups	64(%r14), %xmm0
	movaps	%xmm0, 256(%rsp)
	movdqu	(%r14), %xmm0
	movdqu	16(%r14), %xmm1
	movdqu	32(%r14), %xmm2
	movups	48(%r14), %xmm3
	movaps	%xmm3, 240(%rsp)
	movdqa	%xmm2, 224(%rsp)
	movdqa	%xmm1, 208(%rsp)
	movdqa	%xmm0, 192(%rsp)
	leaq	192(%rsp), %rdi
	callq	"mime_text::mime_base++magic++matchlet++Matchlet+Destruct::drop"
	addq	$96, %r14
	decq	%rbx
	jne	297b
	testq	%r12, %r12
	je	298f
	movq	%r15, %rdi
	callq	rattle_dealloc@PLT
298:
	movq	1040(%rsp), %rdx
	leaq	-1(%rdx), %rax
	testq	%rax, %rax
	movq	376(%rsp), %rbx
	je	299f
	addq	1032(%rsp), %rdx
	movq	%rbx, %rdi
	movq	992(%rsp), %rsi
	callq	"std_alloc::vec::opened::drop_run::<#2dfd7e2cc785f18c>"
299:
	cmpb	$0, 31(%rsp)
	jne	300f
	movq	%rbx, %rdi
	callq	rattle_dealloc@PLT
300:
	movq	592(%rsp), %rbx
	movq	600(%rsp), %rcx
	movq	608(%rsp), %rax
	movq	%rax, 64(%rsp)
	movq	%rcx, 8(%rsp)
	testq	%rcx, %rcx
	je	306f
	xorl	%r13d, %r13d
	jmp	302f
301:
	incq	%r13
	cmpq	8(%rsp), %r13
	je	306f
302:
	movq	%r13, %rax
	shlq	$4, %rax
	leaq	(%rax,%rax,4), %rax
	movq	56(%rbx,%rax), %r12
	movq	64(%rbx,%rax), %r15
	movq	72(%rbx,%rax), %rbp
	cmpb	$0, 8(%rbx,%rax)
	je	303f
	cmpq	$0, 32(%rbx,%rax)
	je	303f
	movq	16(%rbx,%rax), %rdi
	callq	rattle_dealloc@PLT
303:
	testq	%r15, %r15
	je	305f
	movq	%r12, %r14
	.p2align	4
304:
	movups	80(%r14), %xmm0
	movaps	%xmm0, 272(%rsp)
	movups	64(%r14), %xmm0
	movaps	%xmm0, 256(%rsp)
	movdqu	(%r14), %xmm0
	movdqu	16(%r14), %xmm1
	movdqu	32(%r14), %xmm2
	movups	48(%r14), %xmm3
	movaps	%xmm3, 240(%rsp)
	movdqa	%xmm2, 224(%rsp)
	movdqa	%xmm1, 208(%rsp)
	movdqa	%xmm0, 192(%rsp)
	leaq	192(%rsp), %rdi
	callq	"mime_text::mime_base++magic++matchlet++Matchlet+Destruct::drop"
	addq	$96, %r14
	decq	%r15
	jne	304b
305:
	testq	%rbp, %rbp
	je	301b
	movq	%r12, %rdi
	callq	rattle_dealloc@PLT
	jmp	301b
306:
	cmpq	$0, 64(%rsp)
	je	307f
	movq	%rbx, %rdi
	callq	rattle_dealloc@PLT
307:
	movq	432(%rsp), %rbx
	movq	440(%rsp), %r15
	movq	448(%rsp), %r14
	testq	%r15, %r15
	je	310f
	leaq	16(%rbx), %r12
	jmp	309f
308:
	addq	$112, %r12
	decq	%r15
	je	310f
309:
	cmpb	$0, -8(%r12)
	je	308b
	movups	80(%r12), %xmm0
	movaps	%xmm0, 272(%rsp)
	movups	64(%r12), %xmm0
	movaps	%xmm0, 256(%rsp)
	movdqu	(%r12), %xmm0
	movdqu	16(%r12), %xmm1
	movdqu	32(%r12), %xmm2
	movups	48(%r12), %xmm3
	movaps	%xmm3, 240(%rsp)
	movdqa	%xmm2, 224(%rsp)
	movdqa	%xmm1, 208(%rsp)
	movdqa	%xmm0, 192(%rsp)
	leaq	192(%rsp), %rdi
	callq	"mime_text::mime_base++magic++matchlet++Matchlet+Destruct::drop"
	jmp	308b
310:
	testq	%r14, %r14
	je	311f
	movq	%rbx, %rdi
	callq	rattle_dealloc@PLT
311:
	movq	424(%rsp), %r14
	testq	%r14, %r14
	movq	296(%rsp), %r15
	je	314f
	movq	%r15, %rbx
	jmp	313f
	.p2align	4
312:
	addq	$48, %rbx
	decq	%r14
	je	314f
313:
	cmpb	$0, (%rbx)
	je	312b
	cmpq	$0, 24(%rbx)
	je	312b
	movq	8(%rbx), %rdi
	callq	rattle_dealloc@PLT
	jmp	312b
314:
	cmpq	$0, 416(%rsp)
	je	351f
	movl	$1, %eax
	movq	%rax, 8(%rsp)
	movq	%r15, %rdi
	callq	rattle_dealloc@PLT
	jmp	352f
315:
	movq	%rax, 296(%rsp)
	movb	$1, %al
	xorl	%ebx, %ebx
	movq	$0, 416(%rsp)
	movq	$0, 424(%rsp)
	movq	376(%rsp), %rdi
	jmp	133b
316:
	cmpl	$1, %r11d
	setne	%al
	cmpq	$0, 96(%rsp)
	sete	%cl
	orb	%al, %cl
	jne	318f
	movq	144(%rsp), %rdi
317:
	callq	rattle_dealloc@PLT
318:
	leaq	320(%rsp), %rdi
	callq	"std_alloc::vec::Vec::drop::<#a85d6931f7cfb01d>"
	cmpq	$0, 360(%rsp)
	je	55b
	movq	344(%rsp), %rdi
	jmp	54b
319:
	movq	496(%rsp), %rax
	movq	%rax, 8(%rsp)
	movq	504(%rsp), %rbx
	movdqa	32(%rsp), %xmm1
320:
	leaq	(%rbx,%rbx,2), %rax
	shlq	$4, %rax
	movq	8(%rsp), %rcx
	movq	%r15, (%rcx,%rax)
	movq	%r14, 8(%rcx,%rax)
	movdqu	%xmm1, 16(%rcx,%rax)
	movdqa	192(%rsp), %xmm0
	movdqu	%xmm0, 32(%rcx,%rax)
	incq	%rbx
	movq	%rbx, 504(%rsp)
321:
	cmpq	%r13, %rbp
	leaq	1(%rbp), %rbp
	je	327f
322:
	leaq	(,%rbp,4), %rcx
	addq	%rbp, %rcx
	shlq	$4, %rcx
	movq	376(%rsp), %rsi
	leaq	(%rsi,%rcx), %rax
	movq	56(%rsi,%rcx), %rdx
	movq	64(%rsi,%rcx), %rcx
	addq	$8, %rdx
	incq	%rcx
	.p2align	4
323:
	decq	%rcx
	je	321b
	cmpb	$2, (%rdx)
	leaq	88(%rdx), %rdx
	jne	323b
	cmpb	$0, 8(%rax)
	je	324f
	movq	16(%rax), %r14
	addq	$24, %rax
	jmp	325f
324:
	leaq	16(%rax), %r14
	addq	$48, %rax
325:
	movq	(%rax), %r15
	pxor	%xmm0, %xmm0
	movdqa	%xmm0, 224(%rsp)
	movdqa	%xmm0, 208(%rsp)
	movdqa	%xmm0, 192(%rsp)
	movq	$0, 240(%rsp)
	movq	%r14, %rdi
	movq	%r15, %rsi
	callq	"mime_base::names::is_type_name"
	testb	%al, %al
	je	328f
	leaq	192(%rsp), %rdi
	movq	%r14, %rsi
	movq	%r15, %rdx
	callq	"smallvec::small_vec::SmallVec::from_slice::<#940dc9c6c8ede164>"
	cmpb	$0, 192(%rsp)
	jne	328f
	movzbl	200(%rsp), %r15d
	movq	208(%rsp), %r14
	movq	224(%rsp), %r12
	movdqu	216(%rsp), %xmm1
	leaq	232(%rsp), %rax
	movdqu	(%rax), %xmm0
	movdqa	%xmm0, 320(%rsp)
	movdqa	%xmm0, 192(%rsp)
	cmpq	%rbx, 512(%rsp)
	jne	320b
	movdqa	%xmm1, 32(%rsp)
	leaq	496(%rsp), %rdi
	callq	"std_alloc::vec::Vec::grow_amortized::<#84a938a65d12231e>"
	testb	%al, %al
	jne	319b
	testq	%r15, %r15
	je	326f
	testq	%r12, %r12
	je	326f
	movq	%r14, %rdi
	callq	rattle_dealloc@PLT
326:
	movq	496(%rsp), %rbx
	movq	504(%rsp), %r15
	movq	512(%rsp), %r14
	testq	%r15, %r15
	je	385f
	movq	%rbx, %r13
	jmp	337f
327:
	movq	%rbx, 424(%rsp)
	movq	496(%rsp), %rax
	movq	%rax, 296(%rsp)
	movq	512(%rsp), %rax
	movq	%rax, 416(%rsp)
	xorl	%eax, %eax
	movq	376(%rsp), %rdi
	movq	680(%rsp), %rbx
	jmp	133b
328:
	pxor	%xmm0, %xmm0
	movdqa	%xmm0, 320(%rsp)
	movq	512(%rsp), %r14
	testq	%rbx, %rbx
	je	331f
	movq	8(%rsp), %r15
	jmp	330f
329:
	addq	$48, %r15
	decq	%rbx
	je	331f
330:
	cmpb	$0, (%r15)
	je	329b
	cmpq	$0, 24(%r15)
	je	329b
	movq	8(%r15), %rdi
	callq	rattle_dealloc@PLT
	jmp	329b
331:
	testq	%r14, %r14
	je	333f
	movq	8(%rsp), %rdi
332:
	callq	rattle_dealloc@PLT
333:
	movq	376(%rsp), %r14
	movq	%r14, %rdi
	xorl	%esi, %esi
	movq	680(%rsp), %rdx
	callq	"std_alloc::vec::opened::drop_run::<#2dfd7e2cc785f18c>"
	cmpq	$0, 64(%rsp)
	movq	136(%rsp), %rbx
	je	339f
	movq	%r14, %rdi
	callq	rattle_dealloc@PLT
	movl	$1, %eax
	movq	%rax, 8(%rsp)
	movq	$0, 104(%rsp)
	jmp	340f
334:
	movq	%rbx, 16(%rsp)
	movb	$1, %al
	movq	%rax, 8(%rsp)
	movb	$3, %al
	jmp	281b
335:
	movq	%rcx, 16(%rsp)
	jmp	282b
336:
	addq	$48, %r13
	decq	%r15
	je	385f
337:
	cmpb	$0, (%r13)
	je	336b
	cmpq	$0, 24(%r13)
	je	336b
	movq	8(%r13), %rdi
	callq	rattle_dealloc@PLT
	jmp	336b
338:
	movq	%rbx, 16(%rsp)
	xorb	$1, %r8b
	addb	%r8b, %r8b
	addb	$3, %r8b
	movq	%r8, 32(%rsp)
	jmp	282b
339:
	movq	$0, 104(%rsp)
	movl	$1, %eax
	movq	%rax, 8(%rsp)
340:
	movq	$0, 64(%rsp)
	xorl	%r15d, %r15d
	jmp	355f
341:
	movq	%rbx, 16(%rsp)
	movb	$5, %al
	jmp	281b
342:
	movq	%rbx, 16(%rsp)
	movb	$6, %al
	jmp	281b
343:
	cmpq	$0, 88(%rsp)
	je	344f
	cmpq	$0, 112(%rsp)
	je	344f
	movq	400(%rsp), %rdi
	callq	rattle_dealloc@PLT
344:
	testq	%r12, %r12
	je	348f
	leaq	80(%rbx), %r13
	jmp	346f
345:
	addq	$88, %r13
	decq	%r12
	je	348f
346:
	cmpb	$0, -72(%r13)
	jne	345b
	movzbl	-24(%r13), %r14d
	movq	-16(%r13), %rdi
	movq	(%r13), %rbp
	cmpq	$0, -32(%r13)
	je	347f
	movq	%rdi, 8(%rsp)
	movq	-48(%r13), %rdi
	callq	rattle_dealloc@PLT
	movq	8(%rsp), %rdi
347:
	testb	%r14b, %r14b
	je	345b
	testq	%rbp, %rbp
	je	345b
	callq	rattle_dealloc@PLT
	jmp	345b
348:
	testq	%r15, %r15
	je	349f
	movq	%rbx, %rdi
	callq	rattle_dealloc@PLT
349:
	movq	592(%rsp), %rbx
	movq	600(%rsp), %rdx
	movq	608(%rsp), %r14
	testq	%rdx, %rdx
	je	350f
	movq	%rbx, %rdi
	xorl	%esi, %esi
	callq	"std_alloc::vec::opened::drop_run::<#2dfd7e2cc785f18c>"
350:
	testq	%r14, %r14
	je	351f
	movq	%rbx, %rdi
	callq	rattle_dealloc@PLT
351:
	movl	$1, %eax
	movq	%rax, 8(%rsp)
352:
	movq	$0, 104(%rsp)
353:
	movq	$0, 64(%rsp)
	xorl	%r15d, %r15d
354:
	movq	136(%rsp), %rbx
355:
	pxor	%xmm0, %xmm0
	movdqa	%xmm0, 752(%rsp)
	movq	$0, 768(%rsp)
	movdqa	%xmm0, 720(%rsp)
	movq	$0, 736(%rsp)
	movdqa	%xmm0, 816(%rsp)
	movdqa	%xmm0, 832(%rsp)
	movdqa	%xmm0, 848(%rsp)
	testq	%rbx, %rbx
	je	359f
	movq	384(%rsp), %rax
	leaq	80(%rax), %r12
	jmp	357f
	.p2align	4
356:
	addq	$104, %r12
	decq	%rbx
	je	359f
357:
	movzbl	-24(%r12), %ebp
	movq	-16(%r12), %r14
	movq	(%r12), %r13
	cmpb	$0, -72(%r12)
	je	358f
	cmpq	$0, -48(%r12)
	je	358f
	movq	-64(%r12), %rdi
	callq	rattle_dealloc@PLT
358:
	testb	%bpl, %bpl
	je	356b
	testq	%r13, %r13
	je	356b
	movq	%r14, %rdi
	callq	rattle_dealloc@PLT
	jmp	356b
359:
	cmpq	$0, 664(%rsp)
	je	360f
	movq	384(%rsp), %rdi
	callq	rattle_dealloc@PLT
360:
	cmpq	$0, 392(%rsp)
	movq	792(%rsp), %r12
	movq	104(%rsp), %r14
	je	363f
	movq	%r12, %rbx
	jmp	362f
	.p2align	4
361:
	addq	$48, %rbx
	decq	392(%rsp)
	je	363f
362:
	cmpb	$0, (%rbx)
	je	361b
	cmpq	$0, 24(%rbx)
	je	361b
	movq	8(%rbx), %rdi
	callq	rattle_dealloc@PLT
	jmp	361b
363:
	cmpq	$0, 672(%rsp)
	je	364f
	movq	%r12, %rdi
	callq	rattle_dealloc@PLT
364:
	cmpq	$0, 800(%rsp)
	je	365f
	movq	784(%rsp), %rdi
	callq	rattle_dealloc@PLT
365:
	movq	688(%rsp), %rcx
	movq	$1, (%rcx)
	movq	8(%rsp), %rax
	movq	%rax, 8(%rcx)
	movq	%r14, 16(%rcx)
	movq	64(%rsp), %rax
	movq	%rax, 24(%rcx)
	movq	%r15, 32(%rcx)
	pxor	%xmm0, %xmm0
	movdqu	%xmm0, 40(%rcx)
	movdqu	%xmm0, 56(%rcx)
	movdqu	%xmm0, 72(%rcx)
	movdqu	%xmm0, 88(%rcx)
	movdqu	%xmm0, 104(%rcx)
	movdqu	%xmm0, 120(%rcx)
	movdqu	%xmm0, 136(%rcx)
	movdqu	%xmm0, 152(%rcx)
	movq	$0, 168(%rcx)
366:
	movaps	752(%rsp), %xmm1
	movups	%xmm1, 176(%rcx)
	movq	768(%rsp), %rax
	movq	%rax, 192(%rcx)
	movdqu	%xmm0, 200(%rcx)
	movq	$0, 216(%rcx)
	movq	736(%rsp), %rax
	movq	%rax, 240(%rcx)
	movaps	720(%rsp), %xmm1
	movups	%xmm1, 224(%rcx)
	movdqu	%xmm0, 248(%rcx)
	movq	$0, 264(%rcx)
	movdqa	816(%rsp), %xmm0
	movdqa	832(%rsp), %xmm1
	movdqa	848(%rsp), %xmm2
367:
	movdqu	%xmm0, 272(%rcx)
	movdqu	%xmm1, 288(%rcx)
	movdqu	%xmm2, 304(%rcx)
368:
	addq	$1656, %rsp
	popq	%rbx
	popq	%r12
	popq	%r13
	popq	%r14
	popq	%r15
	popq	%rbp
	retq
369:
	movq	%rsi, 16(%rsp)
	jmp	282b
370:
	testq	%r15, %r15
	sete	%bl
	cmpq	$0, 112(%rsp)
	sete	%al
	cmpb	$0, 16(%rsp)
	je	382f
	orb	%al, %bl
	cmpb	$0, 640(%rsp)
	je	371f
	cmpq	$0, 96(%rsp)
	je	371f
	movq	144(%rsp), %rdi
	callq	rattle_dealloc@PLT
371:
	testb	%bl, %bl
	jne	318b
	movq	32(%rsp), %rdi
	jmp	317b
372:
	movq	%r9, 16(%rsp)
	jmp	282b
373:
	movb	$4, %al
	movq	%rax, 32(%rsp)
	movq	%rsi, 16(%rsp)
	jmp	282b
374:
	testb	%bl, %bl
	je	376f
	cmpq	$0, 32(%rsp)
	je	375f
	movq	184(%rsp), %rdi
	callq	rattle_dealloc@PLT
375:
	testq	%r15, %r15
	je	376f
	cmpq	$0, 16(%rsp)
	je	376f
	movq	96(%rsp), %rdi
	callq	rattle_dealloc@PLT
376:
	movq	432(%rsp), %rbx
	movq	440(%rsp), %r12
	movq	448(%rsp), %rax
	movq	%rax, 8(%rsp)
	testq	%r12, %r12
	je	380f
	leaq	80(%rbx), %r13
	jmp	378f
377:
	addq	$88, %r13
	decq	%r12
	je	380f
378:
	cmpb	$0, -72(%r13)
	jne	377b
	movzbl	-24(%r13), %r15d
	movq	-16(%r13), %r14
	movq	(%r13), %rbp
	cmpq	$0, -32(%r13)
	je	379f
	movq	-48(%r13), %rdi
	callq	rattle_dealloc@PLT
379:
	testb	%r15b, %r15b
	je	377b
	testq	%rbp, %rbp
	je	377b
	movq	%r14, %rdi
	callq	rattle_dealloc@PLT
	jmp	377b
380:
	cmpq	$0, 8(%rsp)
	je	381f
	movq	%rbx, %rdi
	callq	rattle_dealloc@PLT
381:
	movq	$0, 8(%rsp)
	movq	$0, 32(%rsp)
	xorl	%ebp, %ebp
	movq	64(%rsp), %r15
	movq	112(%rsp), %rcx
	movq	88(%rsp), %rax
	jmp	288b
382:
	cmpb	$0, 152(%rsp)
	je	318b
	cmpq	$0, 704(%rsp)
	je	318b
	movq	640(%rsp), %rdi
	jmp	317b
383:
	cmpq	$0, 32(%rsp)
	je	384f
	movq	184(%rsp), %rdi
	callq	rattle_dealloc@PLT
384:
	movq	$0, 32(%rsp)
	movq	$0, 8(%rsp)
	movq	$0, 16(%rsp)
	jmp	282b
385:
	testq	%r14, %r14
	je	333b
	movq	%rbx, %rdi
	jmp	332b
386:
	.size	"mime_text::dir_texts::read_dir", 386b-"mime_text::dir_texts::read_dir"

	.text
	.p2align	4
	.type	"mime_text::lines::icons::read_icons",@function
"mime_text::lines::icons::read_icons":
	pushq	%rbp
	pushq	%r15
	pushq	%r14
	pushq	%r13
	pushq	%r12
	pushq	%rbx
	subq	$440, %rsp
	movq	%rdx, %r14
	movq	%rsi, %r15
	movq	%rdi, 144(%rsp)
	xorps	%xmm0, %xmm0
	movaps	%xmm0, 288(%rsp)
	movaps	%xmm0, 272(%rsp)
	movaps	%xmm0, 256(%rsp)
	movq	$0, 303(%rsp)
	movaps	%xmm0, 192(%rsp)
	movaps	%xmm0, 208(%rsp)
	movaps	%xmm0, 224(%rsp)
	movaps	%xmm0, 176(%rsp)
	movabsq	$-6148914691236517205, %rcx
	movq	%rdx, %rax
	mulq	%rcx
	shrq	$4, %rdx
	cmpq	$4096, %rdx
	movl	$4096, %ebx
	cmovbq	%rdx, %rbx
	movaps	%xmm0, 160(%rsp)
	movq	%rsp, %r12
	movq	%r12, %rdx
	cmpq	$24, %r14
	jb	1f
	movq	%rbx, %rax
	shlq	$5, %rax
	leaq	(%rax,%rax,2), %rdi
	movl	$8, %esi
	callq	rattle_alloc@PLT
	testb	$1, %al
	je	20f
	xorps	%xmm0, %xmm0
1:
	movq	%rdx, 16(%rsp)
	movq	$0, 24(%rsp)
	movq	%rbx, 32(%rsp)
	movq	%r12, 40(%rsp)
	movups	%xmm0, 48(%rsp)
	testq	%r14, %r14
	je	15f
	xorl	%r12d, %r12d
	.p2align	4
2:
	movl	$10, %edi
	movq	%r15, %rsi
	movq	%r14, %rdx
	callq	"memchr::bytes::memchr"
	cmpb	$1, %al
	leaq	1(%r15,%rdx), %rcx
	movq	%rdx, %r13
	cmovneq	%r14, %r13
	leaq	.L22d5119de29e(%rip), %rbx
	cmoveq	%rcx, %rbx
	incq	%r12
	xorps	%xmm0, %xmm0
	movaps	%xmm0, 368(%rsp)
	movaps	%xmm0, 352(%rsp)
	testq	%r13, %r13
	je	3f
	cmpb	$35, (%r15)
	jne	4f
3:
	movaps	%xmm0, 176(%rsp)
	movaps	%xmm0, 160(%rsp)
	cmpb	$1, %al
	je	10f
	jmp	15f
	.p2align	4
4:
	movb	%al, 8(%rsp)
	movq	%rdx, 152(%rsp)
	movl	$58, %edi
	movq	%r15, %rsi
	movq	%r13, %rdx
	callq	"memchr::bytes::memchr"
	cmpb	$1, %al
	jne	7f
	movq	%rdx, %rbp
	xorps	%xmm0, %xmm0
	movaps	%xmm0, 96(%rsp)
	movaps	%xmm0, 80(%rsp)
	movaps	%xmm0, 64(%rsp)
	movq	$0, 112(%rsp)
	movq	%r15, %rdi
	movq	%rdx, %rsi
	callq	"mime_base::names::is_type_name"
	testb	%al, %al
	je	7f
	leaq	64(%rsp), %rdi
	movq	%r15, %rsi
	movq	%rbp, %rdx
	callq	"smallvec::small_vec::SmallVec::from_slice::<#940dc9c6c8ede164>"
	cmpb	$0, 64(%rsp)
	jne	17f
	leaq	1(%rbp), %rax
	movq	%r13, %rdx
	subq	%rax, %rdx
	movzbl	72(%rsp), %r8d
	movq	80(%rsp), %rdi
	movq	96(%rsp), %r9
	movups	88(%rsp), %xmm1
	leaq	104(%rsp), %rcx
	movups	(%rcx), %xmm0
	movaps	%xmm0, 384(%rsp)
	xorps	%xmm0, %xmm0
	movaps	%xmm0, 96(%rsp)
	movaps	%xmm0, 80(%rsp)
	movaps	%xmm0, 64(%rsp)
	movq	$0, 112(%rsp)
	leaq	-1(%rdx), %rcx
	cmpq	$254, %rcx
	ja	6f
	leaq	(%r15,%rbp), %rsi
	incq	%rsi
	.p2align	4
5:
	cmpq	%rax, %r13
	je	12f
	movzbl	(%r15,%rax), %ecx
	testl	%ecx, %ecx
	je	6f
	incq	%rax
	cmpl	$10, %ecx
	jne	5b
6:
	cmpl	$1, %r8d
	setne	%al
	testq	%r9, %r9
	sete	%cl
	orb	%al, %cl
	jne	7f
	callq	rattle_dealloc@PLT
	.p2align	4
7:
	movaps	368(%rsp), %xmm0
	movaps	%xmm0, 176(%rsp)
	movaps	352(%rsp), %xmm0
	movaps	%xmm0, 160(%rsp)
	movq	48(%rsp), %rax
	cmpq	%rax, 56(%rsp)
	je	11f
8:
	movq	40(%rsp), %rcx
	movq	%r12, (%rcx,%rax,8)
	incq	%rax
	movq	%rax, 48(%rsp)
9:
	movq	152(%rsp), %rdx
	movzbl	8(%rsp), %eax
	cmpb	$1, %al
	jne	15f
10:
	incq	%rdx
	movq	%rbx, %r15
	subq	%rdx, %r14
	jne	2b
	jmp	15f
11:
	leaq	40(%rsp), %rdi
	callq	"std_alloc::vec::Vec::grow_amortized::<#6aa8efa60d943355>"
	testb	%al, %al
	je	27f
	movq	48(%rsp), %rax
	jmp	8b
12:
	movaps	%xmm1, 336(%rsp)
	movq	%r9, %r13
	movq	%r8, %r15
	movq	%rdi, %rbp
	leaq	64(%rsp), %rdi
	callq	"smallvec::small_vec::SmallVec::from_slice::<#940dc9c6c8ede164>"
	cmpb	$0, 64(%rsp)
	jne	16f
	movzbl	72(%rsp), %r9d
	movq	80(%rsp), %r8
	movq	96(%rsp), %rcx
	movups	88(%rsp), %xmm2
	leaq	104(%rsp), %rax
	movups	(%rax), %xmm0
	movaps	384(%rsp), %xmm1
	movaps	%xmm1, 176(%rsp)
	movaps	%xmm0, 160(%rsp)
	movq	24(%rsp), %rax
	cmpq	%rax, 32(%rsp)
	movq	%rbp, %rsi
	movq	%r15, %rdi
	je	14f
13:
	movq	16(%rsp), %rcx
	leaq	(%rax,%rax,2), %rdx
	shlq	$5, %rdx
	movq	%rdi, (%rcx,%rdx)
	movq	%rsi, 8(%rcx,%rdx)
	movaps	336(%rsp), %xmm0
	movups	%xmm0, 16(%rcx,%rdx)
	movaps	176(%rsp), %xmm0
	movups	%xmm0, 32(%rcx,%rdx)
	movq	%r9, 48(%rcx,%rdx)
	movq	%r8, 56(%rcx,%rdx)
	movups	%xmm2, 64(%rcx,%rdx)
	movaps	160(%rsp), %xmm0
	movups	%xmm0, 80(%rcx,%rdx)
	incq	%rax
	movq	%rax, 24(%rsp)
	jmp	9b
14:
	movaps	%xmm2, 320(%rsp)
	movq	%rcx, 248(%rsp)
	movq	%r9, 128(%rsp)
	movq	%r8, 136(%rsp)
	leaq	16(%rsp), %rdi
	movl	$1, %esi
	callq	"std_alloc::vec::Vec::grow_amortized::<#af4d00d87a514b9c>"
	testb	%al, %al
	je	25f
	movq	24(%rsp), %rax
	movq	%rbp, %rsi
	movq	%r15, %rdi
	movq	136(%rsp), %r8
	movq	128(%rsp), %r9
	movaps	320(%rsp), %xmm2
	jmp	13b
15:
	movups	16(%rsp), %xmm0
	movq	32(%rsp), %rax
	movq	40(%rsp), %rcx
	movups	48(%rsp), %xmm1
	movups	%xmm1, 295(%rsp)
	movq	%rax, 279(%rsp)
	movq	%rcx, 287(%rsp)
	movups	%xmm0, 263(%rsp)
	movaps	%xmm0, 192(%rsp)
	movq	279(%rsp), %rax
	movq	%rax, 208(%rsp)
	movq	287(%rsp), %rax
	movq	%rax, 216(%rsp)
	movq	295(%rsp), %rax
	movq	%rax, 224(%rsp)
	movq	303(%rsp), %rax
	movq	%rax, 232(%rsp)
	movq	144(%rsp), %rdi
	movb	$0, (%rdi)
	movaps	192(%rsp), %xmm0
	movq	208(%rsp), %rax
	movq	216(%rsp), %rcx
	movq	224(%rsp), %rdx
	movq	232(%rsp), %rsi
	movups	%xmm0, 8(%rdi)
	movq	%rax, 24(%rdi)
	movq	%rcx, 32(%rdi)
	movq	%rdx, 40(%rdi)
	movq	%rsi, 48(%rdi)
	jmp	21f
16:
	cmpl	$1, %r15d
	setne	%al
	testq	%r13, %r13
	sete	%cl
	orb	%al, %cl
	jne	17f
	movq	%rbp, %rdi
	callq	rattle_dealloc@PLT
17:
	movq	16(%rsp), %r14
	movq	24(%rsp), %r12
	movq	32(%rsp), %rax
	movq	%rax, 8(%rsp)
	movq	%r14, %r13
	testq	%r12, %r12
	jne	23f
18:
	cmpq	$0, 8(%rsp)
	je	19f
	movq	%r14, %rdi
	callq	rattle_dealloc@PLT
19:
	cmpq	$0, 56(%rsp)
	je	20f
	movq	40(%rsp), %rdi
	callq	rattle_dealloc@PLT
20:
	movq	144(%rsp), %rax
	movb	$1, (%rax)
	xorps	%xmm0, %xmm0
	movups	%xmm0, 8(%rax)
	movups	%xmm0, 24(%rax)
	movups	%xmm0, 40(%rax)
21:
	addq	$440, %rsp
	popq	%rbx
	popq	%r12
	popq	%r13
	popq	%r14
	popq	%r15
	popq	%rbp
	retq
	.p2align	4
22:
	addq	$96, %r13
	decq	%r12
	je	18b
23:
	movzbl	48(%r13), %ebx
	movq	56(%r13), %r15
	movq	72(%r13), %rbp
	cmpb	$0, (%r13)
	je	24f
	cmpq	$0, 24(%r13)
	je	24f
	movq	8(%r13), %rdi
	callq	rattle_dealloc@PLT
24:
	testb	%bl, %bl
	je	22b
	testq	%rbp, %rbp
	je	22b
	movq	%r15, %rdi
	callq	rattle_dealloc@PLT
	jmp	22b
25:
	testq	%r15, %r15
	je	26f
	testq	%r13, %r13
	je	26f
	movq	%rbp, %rdi
	callq	rattle_dealloc@PLT
26:
	cmpq	$0, 128(%rsp)
	movq	136(%rsp), %rdi
	je	27f
	cmpq	$0, 248(%rsp)
	je	27f
	callq	rattle_dealloc@PLT
27:
	movq	16(%rsp), %r14
	movq	24(%rsp), %r12
	movq	32(%rsp), %rax
	movq	%rax, 8(%rsp)
	testq	%r12, %r12
	je	18b
	movq	%r14, %r13
	jmp	29f
28:
	addq	$96, %r13
	decq	%r12
	je	18b
29:
	movzbl	48(%r13), %ebx
	movq	56(%r13), %r15
	movq	72(%r13), %rbp
	cmpb	$0, (%r13)
	je	30f
	cmpq	$0, 24(%r13)
	je	30f
	movq	8(%r13), %rdi
	callq	rattle_dealloc@PLT
30:
	testb	%bl, %bl
	je	28b
	testq	%rbp, %rbp
	je	28b
	movq	%r15, %rdi
	callq	rattle_dealloc@PLT
	jmp	28b
31:
	.size	"mime_text::lines::icons::read_icons", 31b-"mime_text::lines::icons::read_icons"

	.text
	.p2align	4
	.type	"mime_text::lines::pairs::read_pairs",@function
"mime_text::lines::pairs::read_pairs":
	pushq	%rbp
	pushq	%r15
	pushq	%r14
	pushq	%r13
	pushq	%r12
	pushq	%rbx
	subq	$456, %rsp
	movq	%rdx, %r14
	movq	%rsi, %r15
	movq	%rdi, %r13
	xorps	%xmm0, %xmm0
	movaps	%xmm0, 304(%rsp)
	movaps	%xmm0, 288(%rsp)
	movaps	%xmm0, 272(%rsp)
	movq	$0, 319(%rsp)
	movaps	%xmm0, 208(%rsp)
	movaps	%xmm0, 224(%rsp)
	movaps	%xmm0, 240(%rsp)
	movaps	%xmm0, 192(%rsp)
	movabsq	$-6148914691236517205, %rcx
	movq	%rdx, %rax
	mulq	%rcx
	shrq	$4, %rdx
	cmpq	$4096, %rdx
	movl	$4096, %ebx
	cmovbq	%rdx, %rbx
	movaps	%xmm0, 176(%rsp)
	leaq	8(%rsp), %r12
	movq	%r12, %rdx
	cmpq	$24, %r14
	jb	1f
	movq	%rbx, %rax
	shlq	$5, %rax
	leaq	(%rax,%rax,2), %rdi
	movl	$8, %esi
	callq	rattle_alloc@PLT
	testb	$1, %al
	je	28f
	xorps	%xmm0, %xmm0
1:
	movq	%r13, 88(%rsp)
	movq	%rdx, 32(%rsp)
	movq	$0, 40(%rsp)
	movq	%rbx, 48(%rsp)
	movq	%r12, 56(%rsp)
	movups	%xmm0, 64(%rsp)
	testq	%r14, %r14
	je	14f
	movl	$1, %ebx
	.p2align	4
2:
	movl	$10, %edi
	movq	%r15, %rsi
	movq	%r14, %rdx
	callq	"memchr::bytes::memchr"
	cmpb	$1, %al
	movq	%rdx, %r12
	cmovneq	%r14, %r12
	leaq	1(%r15,%rdx), %rcx
	leaq	.L22d5119de29e(%rip), %r13
	cmoveq	%rcx, %r13
	xorps	%xmm0, %xmm0
	movaps	%xmm0, 384(%rsp)
	movaps	%xmm0, 368(%rsp)
	testq	%r12, %r12
	je	3f
	cmpb	$35, (%r15)
	jne	4f
3:
	movaps	%xmm0, 192(%rsp)
	movaps	%xmm0, 176(%rsp)
	cmpb	$1, %al
	je	11f
	jmp	14f
	.p2align	4
4:
	movb	%al, 24(%rsp)
	movq	%rdx, 168(%rsp)
	movl	$32, %edi
	movq	%r15, %rsi
	movq	%r12, %rdx
	callq	"memchr::bytes::memchr"
	cmpb	$1, %al
	jne	8f
	leaq	1(%rdx), %rax
	movq	%rdx, 16(%rsp)
	leaq	(%r15,%rdx), %rbp
	incq	%rbp
	subq	%rax, %r12
	movl	$32, %edi
	movq	%rbp, %rsi
	movq	%r12, %rdx
	callq	"memchr::bytes::memchr"
	cmpb	$1, %al
	jne	5f
	leaq	(%rdx,%rbp), %rsi
	incq	%rsi
	incq	%rdx
	subq	%rdx, %r12
	movl	$32, %edi
	movq	%r12, %rdx
	callq	"memchr::bytes::memchr"
	jmp	8f
5:
	xorps	%xmm0, %xmm0
	movaps	%xmm0, 128(%rsp)
	movaps	%xmm0, 112(%rsp)
	movaps	%xmm0, 96(%rsp)
	movq	$0, 144(%rsp)
	movq	%r15, %rdi
	movq	16(%rsp), %rsi
	callq	"mime_base::names::is_type_name"
	testb	%al, %al
	je	8f
	leaq	96(%rsp), %rdi
	movq	%r15, %rsi
	movq	16(%rsp), %rdx
	callq	"smallvec::small_vec::SmallVec::from_slice::<#940dc9c6c8ede164>"
	cmpb	$0, 96(%rsp)
	jne	16f
	movzbl	104(%rsp), %eax
	movq	%rax, 160(%rsp)
	movq	112(%rsp), %rax
	movq	%rax, 80(%rsp)
	movq	128(%rsp), %rax
	movq	%rax, 16(%rsp)
	movups	120(%rsp), %xmm0
	movaps	%xmm0, 352(%rsp)
	leaq	136(%rsp), %rax
	movups	(%rax), %xmm0
	movaps	%xmm0, 400(%rsp)
	xorps	%xmm0, %xmm0
	movaps	%xmm0, 128(%rsp)
	movaps	%xmm0, 112(%rsp)
	movaps	%xmm0, 96(%rsp)
	movq	$0, 144(%rsp)
	movq	%rbp, %r15
	movq	%rbp, %rdi
	movq	%r12, %rsi
	callq	"mime_base::names::is_type_name"
	testb	%al, %al
	je	7f
	movq	160(%rsp), %rbp
	leaq	96(%rsp), %rdi
	movq	%r15, %rsi
	movq	%r12, %rdx
	callq	"smallvec::small_vec::SmallVec::from_slice::<#940dc9c6c8ede164>"
	cmpb	$0, 96(%rsp)
	jne	15f
	movzbl	104(%rsp), %r12d
	movq	112(%rsp), %rdi
	movq	128(%rsp), %rcx
	movups	120(%rsp), %xmm2
	leaq	136(%rsp), %rax
	movups	(%rax), %xmm0
	movaps	400(%rsp), %xmm1
	movaps	%xmm1, 192(%rsp)
	movaps	%xmm0, 176(%rsp)
	movq	40(%rsp), %rax
	cmpq	%rax, 48(%rsp)
	movq	16(%rsp), %r15
	je	13f
6:
	movq	32(%rsp), %rcx
	leaq	(%rax,%rax,2), %rdx
	shlq	$5, %rdx
	movq	%rbp, (%rcx,%rdx)
	movq	80(%rsp), %rsi
	movq	%rsi, 8(%rcx,%rdx)
	movaps	352(%rsp), %xmm0
	movups	%xmm0, 16(%rcx,%rdx)
	movaps	192(%rsp), %xmm0
	movups	%xmm0, 32(%rcx,%rdx)
	movq	%r12, 48(%rcx,%rdx)
	movq	%rdi, 56(%rcx,%rdx)
	movups	%xmm2, 64(%rcx,%rdx)
	movaps	176(%rsp), %xmm0
	movups	%xmm0, 80(%rcx,%rdx)
	incq	%rax
	movq	%rax, 40(%rsp)
	jmp	10f
7:
	cmpl	$1, 160(%rsp)
	setne	%al
	cmpq	$0, 16(%rsp)
	sete	%cl
	orb	%al, %cl
	jne	8f
	movq	80(%rsp), %rdi
	callq	rattle_dealloc@PLT
	.p2align	4
8:
	movaps	384(%rsp), %xmm0
	movaps	%xmm0, 192(%rsp)
	movaps	368(%rsp), %xmm0
	movaps	%xmm0, 176(%rsp)
	movq	64(%rsp), %rax
	cmpq	%rax, 72(%rsp)
	je	12f
9:
	movq	56(%rsp), %rcx
	movq	%rbx, (%rcx,%rax,8)
	incq	%rax
	movq	%rax, 64(%rsp)
10:
	movq	168(%rsp), %rdx
	movzbl	24(%rsp), %eax
	cmpb	$1, %al
	jne	14f
11:
	incq	%rdx
	subq	%rdx, %r14
	incq	%rbx
	movq	%r13, %r15
	testq	%r14, %r14
	jne	2b
	jmp	14f
12:
	leaq	56(%rsp), %rdi
	callq	"std_alloc::vec::Vec::grow_amortized::<#6aa8efa60d943355>"
	testb	%al, %al
	je	22f
	movq	64(%rsp), %rax
	jmp	9b
13:
	movaps	%xmm2, 336(%rsp)
	movq	%rcx, 264(%rsp)
	movq	%rdi, 152(%rsp)
	leaq	32(%rsp), %rdi
	movl	$1, %esi
	callq	"std_alloc::vec::Vec::grow_amortized::<#ea7493c5bc8f7b4c>"
	testb	%al, %al
	je	20f
	movq	40(%rsp), %rax
	movq	152(%rsp), %rdi
	movaps	336(%rsp), %xmm2
	jmp	6b
14:
	movups	32(%rsp), %xmm0
	movq	48(%rsp), %rax
	movq	56(%rsp), %rcx
	movups	64(%rsp), %xmm1
	movups	%xmm1, 311(%rsp)
	movq	%rax, 295(%rsp)
	movq	%rcx, 303(%rsp)
	movups	%xmm0, 279(%rsp)
	movaps	%xmm0, 208(%rsp)
	movq	295(%rsp), %rax
	movq	%rax, 224(%rsp)
	movq	303(%rsp), %rax
	movq	%rax, 232(%rsp)
	movq	311(%rsp), %rax
	movq	%rax, 240(%rsp)
	movq	319(%rsp), %rax
	movq	%rax, 248(%rsp)
	movq	88(%rsp), %rdi
	movb	$0, (%rdi)
	movaps	208(%rsp), %xmm0
	movq	224(%rsp), %rax
	movq	232(%rsp), %rcx
	movq	240(%rsp), %rdx
	movq	248(%rsp), %rsi
	movups	%xmm0, 8(%rdi)
	movq	%rax, 24(%rdi)
	movq	%rcx, 32(%rdi)
	movq	%rdx, 40(%rdi)
	movq	%rsi, 48(%rdi)
	jmp	29f
15:
	cmpl	$1, %ebp
	setne	%al
	cmpq	$0, 16(%rsp)
	sete	%cl
	orb	%al, %cl
	jne	16f
	movq	80(%rsp), %rdi
	callq	rattle_dealloc@PLT
16:
	movq	32(%rsp), %r14
	movq	40(%rsp), %r12
	movq	48(%rsp), %rax
	movq	%rax, 24(%rsp)
	movq	%r14, %r13
	testq	%r12, %r12
	jne	18f
	jmp	26f
	.p2align	4
17:
	addq	$96, %r13
	decq	%r12
	je	26f
18:
	movzbl	48(%r13), %ebx
	movq	56(%r13), %r15
	movq	72(%r13), %rbp
	cmpb	$0, (%r13)
	je	19f
	cmpq	$0, 24(%r13)
	je	19f
	movq	8(%r13), %rdi
	callq	rattle_dealloc@PLT
19:
	testb	%bl, %bl
	je	17b
	testq	%rbp, %rbp
	je	17b
	movq	%r15, %rdi
	callq	rattle_dealloc@PLT
	jmp	17b
20:
	testq	%rbp, %rbp
	je	21f
	testq	%r15, %r15
	je	21f
	movq	80(%rsp), %rdi
	callq	rattle_dealloc@PLT
21:
	testq	%r12, %r12
	movq	152(%rsp), %rdi
	je	22f
	cmpq	$0, 264(%rsp)
	je	22f
	callq	rattle_dealloc@PLT
22:
	movq	32(%rsp), %r14
	movq	40(%rsp), %r12
	movq	48(%rsp), %rax
	movq	%rax, 24(%rsp)
	testq	%r12, %r12
	je	26f
	movq	%r14, %r13
	jmp	24f
23:
	addq	$96, %r13
	decq	%r12
	je	26f
24:
	movzbl	48(%r13), %ebx
	movq	56(%r13), %r15
	movq	72(%r13), %rbp
	cmpb	$0, (%r13)
	je	25f
	cmpq	$0, 24(%r13)
	je	25f
	movq	8(%r13), %rdi
	callq	rattle_dealloc@PLT
25:
	testb	%bl, %bl
	je	23b
	testq	%rbp, %rbp
	je	23b
	movq	%r15, %rdi
	callq	rattle_dealloc@PLT
	jmp	23b
26:
	cmpq	$0, 24(%rsp)
	je	27f
	movq	%r14, %rdi
	callq	rattle_dealloc@PLT
27:
	cmpq	$0, 72(%rsp)
	movq	88(%rsp), %r13
	je	28f
	movq	56(%rsp), %rdi
	callq	rattle_dealloc@PLT
28:
	movb	$1, (%r13)
	xorps	%xmm0, %xmm0
	movups	%xmm0, 8(%r13)
	movups	%xmm0, 24(%r13)
	movups	%xmm0, 40(%r13)
29:
	addq	$456, %rsp
	popq	%rbx
	popq	%r12
	popq	%r13
	popq	%r14
	popq	%r15
	popq	%rbp
	retq
30:
	.size	"mime_text::lines::pairs::read_pairs", 30b-"mime_text::lines::pairs::read_pairs"

	.text
	.p2align	4
	.type	"mime_text::magic::section::after_prefix",@function
"mime_text::magic::section::after_prefix":
	xorl	%eax, %eax
	movl	$0, %r9d
	movl	$0, %r10d
	subq	%rdx, %r8
	jb	1f
	leaq	-8(%rdx), %rax
	cmpq	$8, %rax
	movl	$8, %r9d
	cmovbq	%rax, %r9
	movq	-8(%rcx,%rdx), %xmm0
	movq	-8(%rsi,%rdx), %xmm1
	pcmpeqb	%xmm0, %xmm1
	pcmpeqd	%xmm0, %xmm0
	pxor	%xmm0, %xmm1
	movq	(%rcx,%r9), %xmm2
	movq	(%rcx), %xmm3
	punpcklqdq	%xmm2, %xmm3
	movq	(%rsi,%r9), %xmm2
	movq	(%rsi), %xmm4
	punpcklqdq	%xmm2, %xmm4
	pcmpeqb	%xmm3, %xmm4
	pxor	%xmm0, %xmm4
	por	%xmm4, %xmm1
	pblendw	$240, %xmm4, %xmm1
	pmovmskb	%xmm1, %esi
	addq	%rdx, %rcx
	xorl	%edx, %edx
	xorl	%eax, %eax
	testl	%esi, %esi
	sete	%al
	cmovneq	%rdx, %rcx
	cmovneq	%rdx, %r8
	movq	%rcx, %r9
	movq	%r8, %r10
1:
	movq	%rax, (%rdi)
	movq	%r9, 8(%rdi)
	movq	%r10, 16(%rdi)
	retq
2:
	.size	"mime_text::magic::section::after_prefix", 2b-"mime_text::magic::section::after_prefix"

	.text
	.p2align	4
	.type	"mime_text::merging::append::<#5757887c02ee9d34>",@function
"mime_text::merging::append::<#5757887c02ee9d34>":
	pushq	%rbp
	pushq	%r15
	pushq	%r14
	pushq	%r13
	pushq	%r12
	pushq	%rbx
	subq	$104, %rsp
	movq	(%rsi), %rbx
	movq	8(%rsi), %r14
	movq	16(%rsi), %r12
	movq	8(%rdi), %rax
	testq	%rax, %rax
	je	3f
	movq	16(%rdi), %rcx
	subq	%rax, %rcx
	cmpq	%rcx, %r14
	ja	10f
	testq	%r14, %r14
	je	6f
1:
	leaq	(%rax,%rax,2), %rax
	shlq	$5, %rax
	addq	(%rdi), %rax
	movq	%r14, %rcx
	shlq	$5, %rcx
	leaq	(%rcx,%rcx,2), %rdx
	movq	%rax, %rcx
	subq	%rbx, %rcx
	cmpq	%rdx, %rcx
	jae	4f
	movl	$56, %ecx
	movq	%r14, %rdx
	.p2align	4
2:
	movzbl	-56(%rbx,%rcx), %esi
	movq	-16(%rbx,%rcx), %r8
	movq	%r8, 96(%rsp)
	movups	-48(%rbx,%rcx), %xmm0
	movups	-32(%rbx,%rcx), %xmm1
	movaps	%xmm1, 80(%rsp)
	movaps	%xmm0, 64(%rsp)
	movzbl	-8(%rbx,%rcx), %r8d
	movups	(%rbx,%rcx), %xmm0
	movups	16(%rbx,%rcx), %xmm1
	movaps	%xmm1, 32(%rsp)
	movaps	%xmm0, 16(%rsp)
	movq	32(%rbx,%rcx), %r9
	movq	%r9, 48(%rsp)
	movq	%rsi, -56(%rax,%rcx)
	movaps	64(%rsp), %xmm0
	movaps	80(%rsp), %xmm1
	movups	%xmm0, -48(%rax,%rcx)
	movups	%xmm1, -32(%rax,%rcx)
	movq	96(%rsp), %rsi
	movq	%rsi, -16(%rax,%rcx)
	movq	%r8, -8(%rax,%rcx)
	movaps	16(%rsp), %xmm0
	movaps	32(%rsp), %xmm1
	movups	%xmm0, (%rax,%rcx)
	movups	%xmm1, 16(%rax,%rcx)
	movq	48(%rsp), %rsi
	movq	%rsi, 32(%rax,%rcx)
	addq	$96, %rcx
	decq	%rdx
	jne	2b
	jmp	5f
3:
	movq	(%rdi), %rax
	movq	%rbx, (%rdi)
	movq	%r14, 8(%rdi)
	cmpq	$0, 16(%rdi)
	movq	%r12, 16(%rdi)
	je	8f
	movq	%rax, %rdi
	jmp	7f
4:
	movq	%rdi, %r15
	movq	%rax, %rdi
	movq	%rbx, %rsi
	callq	memmove@PLT
	movq	%r15, %rdi
5:
	addq	%r14, 8(%rdi)
6:
	testq	%r12, %r12
	je	8f
	movq	%rbx, %rdi
7:
	callq	rattle_dealloc@PLT
8:
	xorl	%eax, %eax
9:
	addq	$104, %rsp
	popq	%rbx
	popq	%r12
	popq	%r13
	popq	%r14
	popq	%r15
	popq	%rbp
	retq
10:
	movq	%rdi, %r15
	movq	%r14, %rsi
	callq	"std_alloc::vec::Vec::grow_amortized::<#ea7493c5bc8f7b4c>"
	testb	%al, %al
	je	11f
	movq	%r15, %rdi
	movq	8(%r15), %rax
	jmp	1b
11:
	movq	%r12, 8(%rsp)
	movq	%rbx, %r13
	jmp	13f
	.p2align	4
12:
	addq	$96, %r13
	decq	%r14
	je	15f
13:
	movzbl	48(%r13), %r12d
	movq	56(%r13), %r15
	movq	72(%r13), %rbp
	cmpb	$0, (%r13)
	je	14f
	cmpq	$0, 24(%r13)
	je	14f
	movq	8(%r13), %rdi
	callq	rattle_dealloc@PLT
14:
	testb	%r12b, %r12b
	je	12b
	testq	%rbp, %rbp
	je	12b
	movq	%r15, %rdi
	callq	rattle_dealloc@PLT
	jmp	12b
15:
	movb	$1, %al
	cmpq	$0, 8(%rsp)
	je	9b
	movq	%rbx, %rdi
	callq	rattle_dealloc@PLT
	movb	$1, %al
	jmp	9b
16:
	.size	"mime_text::merging::append::<#5757887c02ee9d34>", 16b-"mime_text::merging::append::<#5757887c02ee9d34>"

	.text
	.p2align	4
	.type	"mime_text::merging::append::<#8c2796f1d9cd7278>",@function
"mime_text::merging::append::<#8c2796f1d9cd7278>":
	pushq	%rbp
	pushq	%r15
	pushq	%r14
	pushq	%r13
	pushq	%r12
	pushq	%rbx
	subq	$104, %rsp
	movq	(%rsi), %rbx
	movq	8(%rsi), %r14
	movq	16(%rsi), %r12
	movq	8(%rdi), %rax
	testq	%rax, %rax
	je	3f
	movq	16(%rdi), %rcx
	subq	%rax, %rcx
	cmpq	%rcx, %r14
	ja	10f
	testq	%r14, %r14
	je	6f
1:
	leaq	(%rax,%rax,2), %rax
	shlq	$5, %rax
	addq	(%rdi), %rax
	movq	%r14, %rcx
	shlq	$5, %rcx
	leaq	(%rcx,%rcx,2), %rdx
	movq	%rax, %rcx
	subq	%rbx, %rcx
	cmpq	%rdx, %rcx
	jae	4f
	movl	$56, %ecx
	movq	%r14, %rdx
	.p2align	4
2:
	movzbl	-56(%rbx,%rcx), %esi
	movq	-16(%rbx,%rcx), %r8
	movq	%r8, 96(%rsp)
	movups	-48(%rbx,%rcx), %xmm0
	movups	-32(%rbx,%rcx), %xmm1
	movaps	%xmm1, 80(%rsp)
	movaps	%xmm0, 64(%rsp)
	movzbl	-8(%rbx,%rcx), %r8d
	movups	(%rbx,%rcx), %xmm0
	movups	16(%rbx,%rcx), %xmm1
	movaps	%xmm1, 32(%rsp)
	movaps	%xmm0, 16(%rsp)
	movq	32(%rbx,%rcx), %r9
	movq	%r9, 48(%rsp)
	movq	%rsi, -56(%rax,%rcx)
	movaps	64(%rsp), %xmm0
	movaps	80(%rsp), %xmm1
	movups	%xmm0, -48(%rax,%rcx)
	movups	%xmm1, -32(%rax,%rcx)
	movq	96(%rsp), %rsi
	movq	%rsi, -16(%rax,%rcx)
	movq	%r8, -8(%rax,%rcx)
	movaps	16(%rsp), %xmm0
	movaps	32(%rsp), %xmm1
	movups	%xmm0, (%rax,%rcx)
	movups	%xmm1, 16(%rax,%rcx)
	movq	48(%rsp), %rsi
	movq	%rsi, 32(%rax,%rcx)
	addq	$96, %rcx
	decq	%rdx
	jne	2b
	jmp	5f
3:
	movq	(%rdi), %rax
	movq	%rbx, (%rdi)
	movq	%r14, 8(%rdi)
	cmpq	$0, 16(%rdi)
	movq	%r12, 16(%rdi)
	je	8f
	movq	%rax, %rdi
	jmp	7f
4:
	movq	%rdi, %r15
	movq	%rax, %rdi
	movq	%rbx, %rsi
	callq	memmove@PLT
	movq	%r15, %rdi
5:
	addq	%r14, 8(%rdi)
6:
	testq	%r12, %r12
	je	8f
	movq	%rbx, %rdi
7:
	callq	rattle_dealloc@PLT
8:
	xorl	%eax, %eax
9:
	addq	$104, %rsp
	popq	%rbx
	popq	%r12
	popq	%r13
	popq	%r14
	popq	%r15
	popq	%rbp
	retq
10:
	movq	%rdi, %r15
	movq	%r14, %rsi
	callq	"std_alloc::vec::Vec::grow_amortized::<#af4d00d87a514b9c>"
	testb	%al, %al
	je	11f
	movq	%r15, %rdi
	movq	8(%r15), %rax
	jmp	1b
11:
	movq	%r12, 8(%rsp)
	movq	%rbx, %r13
	jmp	13f
	.p2align	4
12:
	addq	$96, %r13
	decq	%r14
	je	15f
13:
	movzbl	48(%r13), %r12d
	movq	56(%r13), %r15
	movq	72(%r13), %rbp
	cmpb	$0, (%r13)
	je	14f
	cmpq	$0, 24(%r13)
	je	14f
	movq	8(%r13), %rdi
	callq	rattle_dealloc@PLT
14:
	testb	%r12b, %r12b
	je	12b
	testq	%rbp, %rbp
	je	12b
	movq	%r15, %rdi
	callq	rattle_dealloc@PLT
	jmp	12b
15:
	movb	$1, %al
	cmpq	$0, 8(%rsp)
	je	9b
	movq	%rbx, %rdi
	callq	rattle_dealloc@PLT
	movb	$1, %al
	jmp	9b
16:
	.size	"mime_text::merging::append::<#8c2796f1d9cd7278>", 16b-"mime_text::merging::append::<#8c2796f1d9cd7278>"

	.section	.text.unlikely,"ax",@progbits
	.p2align	4
	.type	"mime_text::merging::first::first_marks::<#3e18f2f50398609e>",@function
"mime_text::merging::first::first_marks::<#3e18f2f50398609e>":
	pushq	%rbp
	pushq	%r15
	pushq	%r14
	pushq	%r13
	pushq	%r12
	pushq	%rbx
	subq	$200, %rsp
	movq	%rdx, %r15
	movq	%rsi, 120(%rsp)
	movq	%rdi, %r14
	xorps	%xmm0, %xmm0
	movups	%xmm0, 79(%rsp)
	movaps	%xmm0, 64(%rsp)
	movaps	%xmm0, 16(%rsp)
	movq	$0, 32(%rsp)
	movaps	%xmm0, 160(%rsp)
	movaps	%xmm0, 176(%rsp)
	movq	%rdx, %rax
	shrq	$61, %rax
	leaq	(,%rdx,8), %rcx
	xorl	%ebp, %ebp
	negq	%rax
	sbbq	%rbp, %rbp
	orq	%rcx, %rbp
	orq	$1, %rbp
	leaq	15(%rsp), %rbx
	movq	%rbx, 128(%rsp)
	movups	%xmm0, 136(%rsp)
	leaq	128(%rsp), %rdi
	movq	%rbp, %rsi
	callq	"std_alloc::vec::Vec::grow_amortized::<#ba2bc337b3219e73>"
	testb	%al, %al
	je	12f
	movq	128(%rsp), %r12
	movq	136(%rsp), %rdi
	movq	144(%rsp), %rax
	movq	%rax, 40(%rsp)
	leaq	(%rdi,%rbp), %r13
	cmpq	%r13, %rdi
	jae	1f
	addq	%r12, %rdi
	xorl	%esi, %esi
	movq	%rbp, %rdx
	callq	memset@PLT
1:
	testq	%r15, %r15
	je	22f
	movq	120(%rsp), %rbx
	leaq	40(%rbx), %rcx
	xorl	%esi, %esi
	movq	%r15, %rdi
	jmp	4f
	.p2align	4
2:
	movb	%al, (%r12,%rdx)
3:
	incq	%rsi
	addq	$96, %rcx
	decq	%rdi
	je	13f
4:
	leaq	-32(%rcx), %rax
	cmpb	$0, -40(%rcx)
	je	6f
	leaq	(%rsi,%rsi,2), %rdx
	shlq	$5, %rdx
	addq	%rbx, %rdx
	movq	(%rax), %rax
	addq	$16, %rdx
	movq	(%rdx), %rdx
	cmpq	$8, %rdx
	jb	7f
5:
	movq	-8(%rax,%rdx), %r8
	bswapq	%r8
	movabsq	$-49064778989728563, %rax
	imulq	%r8, %rax
	jmp	8f
	.p2align	4
6:
	movq	%rcx, %rdx
	movq	(%rdx), %rdx
	cmpq	$8, %rdx
	jae	5b
7:
	xorl	%eax, %eax
8:
	addq	%rdx, %rax
	movq	%rax, %rdx
	orq	%rbp, %rdx
	shrq	$32, %rdx
	je	9f
	xorl	%edx, %edx
	divq	%rbp
	cmpq	%r13, %rdx
	jae	3b
	jmp	10f
	.p2align	4
9:
	xorl	%edx, %edx
	divl	%ebp
	cmpq	%r13, %rdx
	jae	3b
10:
	movzbl	(%r12,%rdx), %r8d
	movl	$255, %eax
	incb	%r8b
	je	11f
	movzbl	%r8b, %eax
11:
	cmpb	$2, %al
	jb	2b
	movl	$2, %eax
	jmp	2b
12:
	cmpq	$0, 144(%rsp)
	je	21f
	movq	128(%rsp), %rdi
	jmp	20f
13:
	xorps	%xmm0, %xmm0
	movaps	%xmm0, 96(%rsp)
	movq	$0, 112(%rsp)
	testq	%r15, %r15
	js	19f
	movl	$1, %esi
	movq	%r15, %rdi
	callq	rattle_alloc@PLT
	testb	$1, %al
	je	19f
	movq	%r12, 48(%rsp)
	movq	%r14, 56(%rsp)
	movq	%rdx, 16(%rsp)
	movq	$0, 24(%rsp)
	movq	%r15, 32(%rsp)
	leaq	40(%rbx), %rbp
	xorl	%r14d, %r14d
	xorl	%r12d, %r12d
	.p2align	4
14:
	movq	%r15, 152(%rsp)
	leaq	-32(%rbp), %rax
	cmpb	$0, -40(%rbp)
	je	15f
	movq	%rdx, %r15
	leaq	(%r12,%r12,2), %rcx
	shlq	$5, %rcx
	addq	%rbx, %rcx
	movq	(%rax), %rax
	addq	$16, %rcx
	jmp	16f
	.p2align	4
15:
	movq	%rdx, %r15
	movq	%rbp, %rcx
16:
	movq	(%rcx), %rcx
	movq	%rax, 160(%rsp)
	movq	%rcx, 168(%rsp)
	leaq	.L22d5119de29e(%rip), %rax
	movq	%rax, 176(%rsp)
	movq	$0, 184(%rsp)
	leaq	96(%rsp), %rdi
	leaq	160(%rsp), %rcx
	movq	48(%rsp), %rsi
	movq	%r13, %rdx
	callq	"mime_text::merging::first::is_first"
	testb	%al, %al
	jne	27f
	movl	%edx, %ebx
	cmpq	%r14, 32(%rsp)
	movq	%r15, %rdx
	movq	152(%rsp), %r15
	je	18f
17:
	andb	$1, %bl
	movb	%bl, (%rdx,%r14)
	incq	%r14
	movq	%r14, 24(%rsp)
	incq	%r12
	addq	$96, %rbp
	decq	%r15
	movq	120(%rsp), %rbx
	jne	14b
	jmp	31f
18:
	leaq	16(%rsp), %rdi
	callq	"std_alloc::vec::Vec::grow_amortized::<#0135d645f841a886>"
	testb	%al, %al
	je	33f
	movq	16(%rsp), %rdx
	movq	24(%rsp), %r14
	jmp	17b
19:
	cmpq	$0, 40(%rsp)
	je	21f
	movq	%r12, %rdi
20:
	callq	rattle_dealloc@PLT
21:
	movb	$1, (%r14)
	xorps	%xmm0, %xmm0
	movups	%xmm0, 8(%r14)
	movq	$0, 24(%r14)
	jmp	26f
22:
	movq	%rbx, 16(%rsp)
	movq	$0, 24(%rsp)
	movq	%r15, 32(%rsp)
	leaq	71(%rsp), %rbx
	movq	%r15, 87(%rsp)
	movq	16(%rsp), %rax
	movq	%rax, 71(%rsp)
	movq	24(%rsp), %rax
	movq	%rax, 79(%rsp)
	movq	40(%rsp), %rax
	testq	%rax, %rax
	je	24f
23:
	movq	%r12, %rdi
	callq	rattle_dealloc@PLT
24:
	movb	$0, (%r14)
25:
	movups	(%rbx), %xmm0
	movups	%xmm0, 8(%r14)
	movq	16(%rbx), %rax
	movq	%rax, 24(%r14)
26:
	addq	$200, %rsp
	popq	%rbx
	popq	%r12
	popq	%r13
	popq	%r14
	popq	%r15
	popq	%rbp
	retq
27:
	xorps	%xmm0, %xmm0
	movups	%xmm0, 71(%rsp)
	movq	$0, 87(%rsp)
	cmpq	$0, 32(%rsp)
	je	28f
	movq	%r15, %rdi
	callq	rattle_dealloc@PLT
28:
	cmpb	$1, 96(%rsp)
	movq	56(%rsp), %r14
	movq	48(%rsp), %r15
	jne	29f
	movq	104(%rsp), %rdi
	callq	"std_collections::btree::node::Node::destroy::<#ff262cf09b237c33>"
29:
	leaq	71(%rsp), %rbx
	cmpq	$0, 40(%rsp)
	je	30f
	movq	%r15, %rdi
	callq	rattle_dealloc@PLT
30:
	movb	$1, (%r14)
	jmp	25b
31:
	cmpb	$1, 96(%rsp)
	leaq	71(%rsp), %rbx
	movq	16(%rsp), %rax
	movq	%rax, 71(%rsp)
	movq	24(%rsp), %rax
	movq	%rax, 79(%rsp)
	movq	32(%rsp), %rax
	movq	%rax, 87(%rsp)
	jne	32f
	movq	104(%rsp), %rdi
	callq	"std_collections::btree::node::Node::destroy::<#ff262cf09b237c33>"
32:
	movq	56(%rsp), %r14
	movq	48(%rsp), %r12
	movq	40(%rsp), %rax
	testq	%rax, %rax
	jne	23b
	jmp	24b
33:
	cmpq	$0, 32(%rsp)
	je	34f
	movq	16(%rsp), %rdi
	callq	rattle_dealloc@PLT
34:
	cmpb	$1, 96(%rsp)
	movq	56(%rsp), %rbx
	movq	48(%rsp), %r14
	jne	35f
	movq	104(%rsp), %rdi
	callq	"std_collections::btree::node::Node::destroy::<#ff262cf09b237c33>"
35:
	cmpq	$0, 40(%rsp)
	je	36f
	movq	%r14, %rdi
	callq	rattle_dealloc@PLT
36:
	movb	$1, (%rbx)
	xorps	%xmm0, %xmm0
	movups	%xmm0, 8(%rbx)
	movq	$0, 24(%rbx)
	jmp	26b
37:
	.size	"mime_text::merging::first::first_marks::<#3e18f2f50398609e>", 37b-"mime_text::merging::first::first_marks::<#3e18f2f50398609e>"

	.section	.text.unlikely,"ax",@progbits
	.p2align	4
	.type	"mime_text::merging::first::first_marks::<#6173b1e72a96d278>",@function
"mime_text::merging::first::first_marks::<#6173b1e72a96d278>":
	pushq	%rbp
	pushq	%r15
	pushq	%r14
	pushq	%r13
	pushq	%r12
	pushq	%rbx
	subq	$200, %rsp
	movq	%rdx, %r15
	movq	%rsi, 120(%rsp)
	movq	%rdi, %r14
	xorps	%xmm0, %xmm0
	movups	%xmm0, 79(%rsp)
	movaps	%xmm0, 64(%rsp)
	movaps	%xmm0, 16(%rsp)
	movq	$0, 32(%rsp)
	movaps	%xmm0, 160(%rsp)
	movaps	%xmm0, 176(%rsp)
	movq	%rdx, %rax
	shrq	$61, %rax
	leaq	(,%rdx,8), %rcx
	xorl	%ebp, %ebp
	negq	%rax
	sbbq	%rbp, %rbp
	orq	%rcx, %rbp
	orq	$1, %rbp
	leaq	15(%rsp), %rbx
	movq	%rbx, 136(%rsp)
	movups	%xmm0, 144(%rsp)
	leaq	136(%rsp), %rdi
	movq	%rbp, %rsi
	callq	"std_alloc::vec::Vec::grow_amortized::<#ba2bc337b3219e73>"
	testb	%al, %al
	je	12f
	movq	136(%rsp), %r12
	movq	144(%rsp), %rdi
	movq	152(%rsp), %rax
	movq	%rax, 40(%rsp)
	leaq	(%rdi,%rbp), %r13
	cmpq	%r13, %rdi
	jae	1f
	addq	%r12, %rdi
	xorl	%esi, %esi
	movq	%rbp, %rdx
	callq	memset@PLT
1:
	testq	%r15, %r15
	je	24f
	movq	120(%rsp), %rbx
	leaq	40(%rbx), %rcx
	xorl	%esi, %esi
	movq	%r15, %rdi
	jmp	4f
	.p2align	4
2:
	movb	%al, (%r12,%rdx)
3:
	incq	%rsi
	addq	$96, %rcx
	decq	%rdi
	je	13f
4:
	leaq	-32(%rcx), %rax
	cmpb	$0, -40(%rcx)
	je	6f
	leaq	(%rsi,%rsi,2), %rdx
	shlq	$5, %rdx
	addq	%rbx, %rdx
	movq	(%rax), %rax
	addq	$16, %rdx
	movq	(%rdx), %rdx
	cmpq	$8, %rdx
	jb	7f
5:
	movq	-8(%rax,%rdx), %r8
	bswapq	%r8
	movabsq	$-49064778989728563, %rax
	imulq	%r8, %rax
	jmp	8f
	.p2align	4
6:
	movq	%rcx, %rdx
	movq	(%rdx), %rdx
	cmpq	$8, %rdx
	jae	5b
7:
	xorl	%eax, %eax
8:
	addq	%rdx, %rax
	movq	%rax, %rdx
	orq	%rbp, %rdx
	shrq	$32, %rdx
	je	9f
	xorl	%edx, %edx
	divq	%rbp
	cmpq	%r13, %rdx
	jae	3b
	jmp	10f
	.p2align	4
9:
	xorl	%edx, %edx
	divl	%ebp
	cmpq	%r13, %rdx
	jae	3b
10:
	movzbl	(%r12,%rdx), %r8d
	movl	$255, %eax
	incb	%r8b
	je	11f
	movzbl	%r8b, %eax
11:
	cmpb	$2, %al
	jb	2b
	movl	$2, %eax
	jmp	2b
12:
	cmpq	$0, 152(%rsp)
	je	23f
	movq	136(%rsp), %rdi
	jmp	22f
13:
	xorps	%xmm0, %xmm0
	movaps	%xmm0, 96(%rsp)
	movq	$0, 112(%rsp)
	testq	%r15, %r15
	js	21f
	movl	$1, %esi
	movq	%r15, %rdi
	callq	rattle_alloc@PLT
	testb	$1, %al
	je	21f
	movq	%r12, 48(%rsp)
	movq	%r14, 56(%rsp)
	movq	%rdx, 16(%rsp)
	movq	$0, 24(%rsp)
	movq	%r15, 32(%rsp)
	leaq	56(%rbx), %rbp
	xorl	%r14d, %r14d
	xorl	%r12d, %r12d
	.p2align	4
14:
	movq	%rdx, 128(%rsp)
	leaq	(%r12,%r12,2), %rax
	shlq	$5, %rax
	addq	%rbx, %rax
	leaq	-48(%rbp), %rcx
	cmpb	$0, -56(%rbp)
	je	16f
	movq	(%rcx), %rcx
	leaq	16(%rax), %rdx
	cmpb	$0, -8(%rbp)
	je	17f
15:
	movq	(%rbp), %rsi
	addq	$64, %rax
	jmp	18f
	.p2align	4
16:
	leaq	-16(%rbp), %rdx
	cmpb	$0, -8(%rbp)
	jne	15b
17:
	leaq	32(%rbp), %rax
	movq	%rbp, %rsi
18:
	movq	(%rdx), %rdx
	movq	(%rax), %rax
	movq	%rcx, 160(%rsp)
	movq	%rdx, 168(%rsp)
	movq	%rsi, 176(%rsp)
	movq	%rax, 184(%rsp)
	leaq	96(%rsp), %rdi
	leaq	160(%rsp), %rcx
	movq	48(%rsp), %rsi
	movq	%r13, %rdx
	callq	"mime_text::merging::first::is_first"
	testb	%al, %al
	jne	29f
	movl	%edx, %ebx
	cmpq	%r14, 32(%rsp)
	movq	128(%rsp), %rdx
	je	20f
19:
	andb	$1, %bl
	movb	%bl, (%rdx,%r14)
	incq	%r14
	movq	%r14, 24(%rsp)
	incq	%r12
	addq	$96, %rbp
	decq	%r15
	movq	120(%rsp), %rbx
	jne	14b
	jmp	33f
20:
	leaq	16(%rsp), %rdi
	callq	"std_alloc::vec::Vec::grow_amortized::<#0135d645f841a886>"
	testb	%al, %al
	je	35f
	movq	16(%rsp), %rdx
	movq	24(%rsp), %r14
	jmp	19b
21:
	cmpq	$0, 40(%rsp)
	je	23f
	movq	%r12, %rdi
22:
	callq	rattle_dealloc@PLT
23:
	movb	$1, (%r14)
	xorps	%xmm0, %xmm0
	movups	%xmm0, 8(%r14)
	movq	$0, 24(%r14)
	jmp	28f
24:
	movq	%rbx, 16(%rsp)
	movq	$0, 24(%rsp)
	movq	%r15, 32(%rsp)
	leaq	71(%rsp), %rbx
	movq	%r15, 87(%rsp)
	movq	16(%rsp), %rax
	movq	%rax, 71(%rsp)
	movq	24(%rsp), %rax
	movq	%rax, 79(%rsp)
	movq	40(%rsp), %rax
	testq	%rax, %rax
	je	26f
25:
	movq	%r12, %rdi
	callq	rattle_dealloc@PLT
26:
	movb	$0, (%r14)
27:
	movups	(%rbx), %xmm0
	movups	%xmm0, 8(%r14)
	movq	16(%rbx), %rax
	movq	%rax, 24(%r14)
28:
	addq	$200, %rsp
	popq	%rbx
	popq	%r12
	popq	%r13
	popq	%r14
	popq	%r15
	popq	%rbp
	retq
29:
	xorps	%xmm0, %xmm0
	movups	%xmm0, 71(%rsp)
	movq	$0, 87(%rsp)
	cmpq	$0, 32(%rsp)
	movq	128(%rsp), %rdi
	je	30f
	callq	rattle_dealloc@PLT
30:
	cmpb	$1, 96(%rsp)
	movq	56(%rsp), %r14
	movq	48(%rsp), %r15
	jne	31f
	movq	104(%rsp), %rdi
	callq	"std_collections::btree::node::Node::destroy::<#ff262cf09b237c33>"
31:
	leaq	71(%rsp), %rbx
	cmpq	$0, 40(%rsp)
	je	32f
	movq	%r15, %rdi
	callq	rattle_dealloc@PLT
32:
	movb	$1, (%r14)
	jmp	27b
33:
	cmpb	$1, 96(%rsp)
	leaq	71(%rsp), %rbx
	movq	16(%rsp), %rax
	movq	%rax, 71(%rsp)
	movq	24(%rsp), %rax
	movq	%rax, 79(%rsp)
	movq	32(%rsp), %rax
	movq	%rax, 87(%rsp)
	jne	34f
	movq	104(%rsp), %rdi
	callq	"std_collections::btree::node::Node::destroy::<#ff262cf09b237c33>"
34:
	movq	56(%rsp), %r14
	movq	48(%rsp), %r12
	movq	40(%rsp), %rax
	testq	%rax, %rax
	jne	25b
	jmp	26b
35:
	cmpq	$0, 32(%rsp)
	je	36f
	movq	16(%rsp), %rdi
	callq	rattle_dealloc@PLT
36:
	cmpb	$1, 96(%rsp)
	movq	56(%rsp), %rbx
	movq	48(%rsp), %r14
	jne	37f
	movq	104(%rsp), %rdi
	callq	"std_collections::btree::node::Node::destroy::<#ff262cf09b237c33>"
37:
	cmpq	$0, 40(%rsp)
	je	38f
	movq	%r14, %rdi
	callq	rattle_dealloc@PLT
38:
	movb	$1, (%rbx)
	xorps	%xmm0, %xmm0
	movups	%xmm0, 8(%rbx)
	movq	$0, 24(%rbx)
	jmp	28b
39:
	.size	"mime_text::merging::first::first_marks::<#6173b1e72a96d278>", 39b-"mime_text::merging::first::first_marks::<#6173b1e72a96d278>"

	.section	.text.unlikely,"ax",@progbits
	.p2align	4
	.type	"mime_text::merging::first::first_marks::<#d8c223a5b86f943b>",@function
"mime_text::merging::first::first_marks::<#d8c223a5b86f943b>":
	pushq	%rbp
	pushq	%r15
	pushq	%r14
	pushq	%r13
	pushq	%r12
	pushq	%rbx
	subq	$200, %rsp
	movq	%rdx, %r15
	movq	%rsi, 120(%rsp)
	movq	%rdi, %r14
	xorps	%xmm0, %xmm0
	movups	%xmm0, 79(%rsp)
	movaps	%xmm0, 64(%rsp)
	movaps	%xmm0, 16(%rsp)
	movq	$0, 32(%rsp)
	movaps	%xmm0, 160(%rsp)
	movaps	%xmm0, 176(%rsp)
	movq	%rdx, %rax
	shrq	$61, %rax
	leaq	(,%rdx,8), %rcx
	xorl	%ebp, %ebp
	negq	%rax
	sbbq	%rbp, %rbp
	orq	%rcx, %rbp
	orq	$1, %rbp
	leaq	15(%rsp), %rbx
	movq	%rbx, 128(%rsp)
	movups	%xmm0, 136(%rsp)
	leaq	128(%rsp), %rdi
	movq	%rbp, %rsi
	callq	"std_alloc::vec::Vec::grow_amortized::<#ba2bc337b3219e73>"
	testb	%al, %al
	je	12f
	movq	128(%rsp), %r12
	movq	136(%rsp), %rdi
	movq	144(%rsp), %rax
	movq	%rax, 40(%rsp)
	leaq	(%rdi,%rbp), %r13
	cmpq	%r13, %rdi
	jae	1f
	addq	%r12, %rdi
	xorl	%esi, %esi
	movq	%rbp, %rdx
	callq	memset@PLT
1:
	testq	%r15, %r15
	je	22f
	movq	120(%rsp), %rbx
	leaq	40(%rbx), %rcx
	xorl	%esi, %esi
	movq	%r15, %rdi
	jmp	4f
	.p2align	4
2:
	movb	%al, (%r12,%rdx)
3:
	incq	%rsi
	addq	$96, %rcx
	decq	%rdi
	je	13f
4:
	leaq	-32(%rcx), %rax
	cmpb	$0, -40(%rcx)
	je	6f
	leaq	(%rsi,%rsi,2), %rdx
	shlq	$5, %rdx
	addq	%rbx, %rdx
	movq	(%rax), %rax
	addq	$16, %rdx
	movq	(%rdx), %rdx
	cmpq	$8, %rdx
	jb	7f
5:
	movq	-8(%rax,%rdx), %r8
	bswapq	%r8
	movabsq	$-49064778989728563, %rax
	imulq	%r8, %rax
	jmp	8f
	.p2align	4
6:
	movq	%rcx, %rdx
	movq	(%rdx), %rdx
	cmpq	$8, %rdx
	jae	5b
7:
	xorl	%eax, %eax
8:
	addq	%rdx, %rax
	movq	%rax, %rdx
	orq	%rbp, %rdx
	shrq	$32, %rdx
	je	9f
	xorl	%edx, %edx
	divq	%rbp
	cmpq	%r13, %rdx
	jae	3b
	jmp	10f
	.p2align	4
9:
	xorl	%edx, %edx
	divl	%ebp
	cmpq	%r13, %rdx
	jae	3b
10:
	movzbl	(%r12,%rdx), %r8d
	movl	$255, %eax
	incb	%r8b
	je	11f
	movzbl	%r8b, %eax
11:
	cmpb	$2, %al
	jb	2b
	movl	$2, %eax
	jmp	2b
12:
	cmpq	$0, 144(%rsp)
	je	21f
	movq	128(%rsp), %rdi
	jmp	20f
13:
	xorps	%xmm0, %xmm0
	movaps	%xmm0, 96(%rsp)
	movq	$0, 112(%rsp)
	testq	%r15, %r15
	js	19f
	movl	$1, %esi
	movq	%r15, %rdi
	callq	rattle_alloc@PLT
	testb	$1, %al
	je	19f
	movq	%r12, 48(%rsp)
	movq	%r14, 56(%rsp)
	movq	%rdx, 16(%rsp)
	movq	$0, 24(%rsp)
	movq	%r15, 32(%rsp)
	leaq	40(%rbx), %rbp
	xorl	%r14d, %r14d
	xorl	%r12d, %r12d
	.p2align	4
14:
	movq	%r15, 152(%rsp)
	leaq	-32(%rbp), %rax
	cmpb	$0, -40(%rbp)
	je	15f
	movq	%rdx, %r15
	leaq	(%r12,%r12,2), %rcx
	shlq	$5, %rcx
	addq	%rbx, %rcx
	movq	(%rax), %rax
	addq	$16, %rcx
	jmp	16f
	.p2align	4
15:
	movq	%rdx, %r15
	movq	%rbp, %rcx
16:
	movq	(%rcx), %rcx
	movq	%rax, 160(%rsp)
	movq	%rcx, 168(%rsp)
	leaq	.L22d5119de29e(%rip), %rax
	movq	%rax, 176(%rsp)
	movq	$0, 184(%rsp)
	leaq	96(%rsp), %rdi
	leaq	160(%rsp), %rcx
	movq	48(%rsp), %rsi
	movq	%r13, %rdx
	callq	"mime_text::merging::first::is_first"
	testb	%al, %al
	jne	27f
	movl	%edx, %ebx
	cmpq	%r14, 32(%rsp)
	movq	%r15, %rdx
	movq	152(%rsp), %r15
	je	18f
17:
	andb	$1, %bl
	movb	%bl, (%rdx,%r14)
	incq	%r14
	movq	%r14, 24(%rsp)
	incq	%r12
	addq	$96, %rbp
	decq	%r15
	movq	120(%rsp), %rbx
	jne	14b
	jmp	31f
18:
	leaq	16(%rsp), %rdi
	callq	"std_alloc::vec::Vec::grow_amortized::<#0135d645f841a886>"
	testb	%al, %al
	je	33f
	movq	16(%rsp), %rdx
	movq	24(%rsp), %r14
	jmp	17b
19:
	cmpq	$0, 40(%rsp)
	je	21f
	movq	%r12, %rdi
20:
	callq	rattle_dealloc@PLT
21:
	movb	$1, (%r14)
	xorps	%xmm0, %xmm0
	movups	%xmm0, 8(%r14)
	movq	$0, 24(%r14)
	jmp	26f
22:
	movq	%rbx, 16(%rsp)
	movq	$0, 24(%rsp)
	movq	%r15, 32(%rsp)
	leaq	71(%rsp), %rbx
	movq	%r15, 87(%rsp)
	movq	16(%rsp), %rax
	movq	%rax, 71(%rsp)
	movq	24(%rsp), %rax
	movq	%rax, 79(%rsp)
	movq	40(%rsp), %rax
	testq	%rax, %rax
	je	24f
23:
	movq	%r12, %rdi
	callq	rattle_dealloc@PLT
24:
	movb	$0, (%r14)
25:
	movups	(%rbx), %xmm0
	movups	%xmm0, 8(%r14)
	movq	16(%rbx), %rax
	movq	%rax, 24(%r14)
26:
	addq	$200, %rsp
	popq	%rbx
	popq	%r12
	popq	%r13
	popq	%r14
	popq	%r15
	popq	%rbp
	retq
27:
	xorps	%xmm0, %xmm0
	movups	%xmm0, 71(%rsp)
	movq	$0, 87(%rsp)
	cmpq	$0, 32(%rsp)
	je	28f
	movq	%r15, %rdi
	callq	rattle_dealloc@PLT
28:
	cmpb	$1, 96(%rsp)
	movq	56(%rsp), %r14
	movq	48(%rsp), %r15
	jne	29f
	movq	104(%rsp), %rdi
	callq	"std_collections::btree::node::Node::destroy::<#ff262cf09b237c33>"
29:
	leaq	71(%rsp), %rbx
	cmpq	$0, 40(%rsp)
	je	30f
	movq	%r15, %rdi
	callq	rattle_dealloc@PLT
30:
	movb	$1, (%r14)
	jmp	25b
31:
	cmpb	$1, 96(%rsp)
	leaq	71(%rsp), %rbx
	movq	16(%rsp), %rax
	movq	%rax, 71(%rsp)
	movq	24(%rsp), %rax
	movq	%rax, 79(%rsp)
	movq	32(%rsp), %rax
	movq	%rax, 87(%rsp)
	jne	32f
	movq	104(%rsp), %rdi
	callq	"std_collections::btree::node::Node::destroy::<#ff262cf09b237c33>"
32:
	movq	56(%rsp), %r14
	movq	48(%rsp), %r12
	movq	40(%rsp), %rax
	testq	%rax, %rax
	jne	23b
	jmp	24b
33:
	cmpq	$0, 32(%rsp)
	je	34f
	movq	16(%rsp), %rdi
	callq	rattle_dealloc@PLT
34:
	cmpb	$1, 96(%rsp)
	movq	56(%rsp), %rbx
	movq	48(%rsp), %r14
	jne	35f
	movq	104(%rsp), %rdi
	callq	"std_collections::btree::node::Node::destroy::<#ff262cf09b237c33>"
35:
	cmpq	$0, 40(%rsp)
	je	36f
	movq	%r14, %rdi
	callq	rattle_dealloc@PLT
36:
	movb	$1, (%rbx)
	xorps	%xmm0, %xmm0
	movups	%xmm0, 8(%rbx)
	movq	$0, 24(%rbx)
	jmp	26b
37:
	.size	"mime_text::merging::first::first_marks::<#d8c223a5b86f943b>", 37b-"mime_text::merging::first::first_marks::<#d8c223a5b86f943b>"

	.text
	.p2align	4
	.type	"mime_text::merging::first::first_of_each::<#d8c223a5b86f943b>",@function
"mime_text::merging::first::first_of_each::<#d8c223a5b86f943b>":
	pushq	%rbp
	pushq	%r15
	pushq	%r14
	pushq	%r13
	pushq	%r12
	pushq	%rbx
	subq	$392, %rsp
	movq	%rdi, %rbx
	movq	(%rsi), %r14
	movq	8(%rsi), %r15
	movq	16(%rsi), %r13
	xorps	%xmm0, %xmm0
	movaps	%xmm0, 352(%rsp)
	movaps	%xmm0, 336(%rsp)
	cmpq	$2, %r15
	jae	3f
	movb	$0, (%rbx)
1:
	movq	%r14, 8(%rbx)
	movq	%r15, 16(%rbx)
	movq	%r13, 24(%rbx)
2:
	addq	$392, %rsp
	popq	%rbx
	popq	%r12
	popq	%r13
	popq	%r14
	popq	%r15
	popq	%rbp
	retq
3:
	leaq	336(%rsp), %rdi
	movq	%r14, %rsi
	movq	%r15, %rdx
	callq	"mime_text::merging::first::first_marks::<#d8c223a5b86f943b>"
	cmpb	$0, 336(%rsp)
	je	9f
	movq	%r13, 72(%rsp)
	movq	%r14, 48(%rsp)
	jmp	5f
	.p2align	4
4:
	addq	$96, %r14
	decq	%r15
	je	7f
5:
	movzbl	48(%r14), %r13d
	movq	56(%r14), %r12
	movq	72(%r14), %rbp
	cmpb	$0, (%r14)
	je	6f
	cmpq	$0, 24(%r14)
	je	6f
	movq	8(%r14), %rdi
	callq	rattle_dealloc@PLT
6:
	testb	%r13b, %r13b
	je	4b
	testq	%rbp, %rbp
	je	4b
	movq	%r12, %rdi
	callq	rattle_dealloc@PLT
	jmp	4b
7:
	cmpq	$0, 72(%rsp)
	je	8f
	movq	48(%rsp), %rdi
	callq	rattle_dealloc@PLT
8:
	movb	$1, (%rbx)
	xorps	%xmm0, %xmm0
	movups	%xmm0, 8(%rbx)
	movq	$0, 24(%rbx)
	jmp	2b
9:
	movq	344(%rsp), %r12
	movq	352(%rsp), %rcx
	movq	360(%rsp), %rax
	movq	%rax, 8(%rsp)
	xorl	%eax, %eax
	.p2align	4
10:
	cmpq	%rax, %rcx
	je	17f
	cmpb	$0, (%r12,%rax)
	leaq	1(%rax), %rax
	jne	10b
	movabsq	$96076792050570581, %rax
	cmpq	%rax, %r15
	movq	%r14, 48(%rsp)
	movq	%r13, 72(%rsp)
	ja	18f
	movq	%r15, %rax
	shlq	$5, %rax
	movq	%rcx, %rbp
	leaq	(%rax,%rax,2), %rdi
	movl	$8, %esi
	callq	rattle_alloc@PLT
	testb	$1, %al
	je	18f
	movq	%rdx, 88(%rsp)
	movq	$0, 96(%rsp)
	movq	%r15, 104(%rsp)
	movq	%r12, 112(%rsp)
	leaq	(%r12,%rbp), %rax
	decq	%rax
	movq	%rax, 40(%rsp)
	negq	%rbp
	leaq	(%r15,%r15,2), %rax
	shlq	$5, %rax
	leaq	(%rax,%r14), %r12
	addq	$-16, %r12
	xorl	%eax, %eax
	xorl	%esi, %esi
	movq	%rbp, 24(%rsp)
	jmp	14f
11:
	movq	%rdi, 120(%rsp)
	movups	-16(%r12), %xmm1
	movups	-64(%r12), %xmm2
	leaq	-48(%r12), %rax
	movups	(%rax), %xmm0
	movaps	%xmm0, 176(%rsp)
	movups	(%r12), %xmm0
	movaps	%xmm0, 128(%rsp)
	cmpq	%rsi, 104(%rsp)
	je	16f
12:
	leaq	(%rsi,%rsi,2), %rax
	shlq	$5, %rax
	movq	%rbp, (%rdx,%rax)
	movq	120(%rsp), %rdi
	movq	%rdi, 8(%rdx,%rax)
	movups	%xmm2, 16(%rdx,%rax)
	movaps	176(%rsp), %xmm0
	movups	%xmm0, 32(%rdx,%rax)
	movq	%r10, 48(%rdx,%rax)
	movq	%rcx, 56(%rdx,%rax)
	movups	%xmm1, 64(%rdx,%rax)
	movaps	128(%rsp), %xmm0
	movups	%xmm0, 80(%rdx,%rax)
	incq	%rsi
	movq	%rsi, 96(%rsp)
13:
	leaq	-1(%r9), %rax
	addq	$-96, %r12
	movq	%r15, %rcx
	addq	%rax, %rcx
	je	25f
14:
	movq	%rax, %r9
	movzbl	-80(%r12), %ebp
	movzbl	-32(%r12), %r10d
	movq	-24(%r12), %rcx
	movq	-8(%r12), %r11
	movq	-72(%r12), %rdi
	movq	-56(%r12), %r8
	movq	24(%rsp), %rax
	cmpq	%r9, %rax
	je	23f
	movq	%r8, 32(%rsp)
	movq	40(%rsp), %r8
	cmpb	$1, (%r8,%r9)
	je	11b
	testq	%rbp, %rbp
	movq	%r9, 16(%rsp)
	movq	%rdx, 224(%rsp)
	je	15f
	cmpq	$0, 32(%rsp)
	je	15f
	movq	%rsi, %rbp
	movq	%rcx, 56(%rsp)
	movq	%r10, 80(%rsp)
	movq	%r11, 64(%rsp)
	callq	rattle_dealloc@PLT
	movq	64(%rsp), %r11
	movq	80(%rsp), %r10
	movq	56(%rsp), %rcx
	movq	224(%rsp), %rdx
	movq	%rbp, %rsi
	movq	16(%rsp), %r9
15:
	testq	%r10, %r10
	je	13b
	testq	%r11, %r11
	je	13b
	movq	%rcx, %rdi
	movq	%rsi, %rbp
	callq	rattle_dealloc@PLT
	movq	224(%rsp), %rdx
	movq	%rbp, %rsi
	movq	16(%rsp), %r9
	jmp	13b
16:
	movaps	%xmm2, 368(%rsp)
	movaps	%xmm1, 224(%rsp)
	movq	%r11, 64(%rsp)
	movq	%r10, 80(%rsp)
	movq	%rcx, 56(%rsp)
	movq	%r9, 16(%rsp)
	leaq	88(%rsp), %rdi
	movl	$1, %esi
	callq	"std_alloc::vec::Vec::grow_amortized::<#af4d00d87a514b9c>"
	testb	%al, %al
	je	37f
	movq	88(%rsp), %rdx
	movq	96(%rsp), %rsi
	movq	16(%rsp), %r9
	movq	56(%rsp), %rcx
	movq	80(%rsp), %r10
	movaps	224(%rsp), %xmm1
	movaps	368(%rsp), %xmm2
	jmp	12b
17:
	cmpq	$0, 8(%rsp)
	je	22f
	movq	%r12, %rdi
	callq	rattle_dealloc@PLT
	xorl	%r12d, %r12d
	movb	%r12b, (%rbx)
	jmp	1b
18:
	cmpq	$0, 8(%rsp)
	je	20f
	movq	%r12, %rdi
	callq	rattle_dealloc@PLT
	jmp	20f
	.p2align	4
19:
	addq	$96, %r14
	decq	%r15
	je	49f
20:
	movzbl	48(%r14), %r13d
	movq	56(%r14), %r12
	movq	72(%r14), %rbp
	cmpb	$0, (%r14)
	je	21f
	cmpq	$0, 24(%r14)
	je	21f
	movq	8(%r14), %rdi
	callq	rattle_dealloc@PLT
21:
	testb	%r13b, %r13b
	je	19b
	testq	%rbp, %rbp
	je	19b
	movq	%r12, %rdi
	callq	rattle_dealloc@PLT
	jmp	19b
22:
	xorl	%r12d, %r12d
	movb	%r12b, (%rbx)
	jmp	1b
23:
	testq	%rbp, %rbp
	je	24f
	testq	%r8, %r8
	je	24f
	movq	%r9, 16(%rsp)
	movq	%rsi, %rbp
	movq	%rcx, 56(%rsp)
	movq	%r10, %r12
	movq	%r11, 64(%rsp)
	callq	rattle_dealloc@PLT
	movq	64(%rsp), %r11
	movq	%r12, %r10
	movq	56(%rsp), %rcx
	movq	%rbp, %rsi
	movq	16(%rsp), %r9
24:
	testq	%r10, %r10
	je	25f
	testq	%r11, %r11
	je	25f
	movq	%rcx, %rdi
	movq	%r9, %r12
	movq	%rsi, %rbp
	callq	rattle_dealloc@PLT
	movq	%rbp, %rsi
	movq	%r12, %r9
25:
	movq	%r9, %rbp
	movq	88(%rsp), %rdi
	cmpq	$15, %rsi
	movq	%rsi, 24(%rsp)
	movq	%rdi, 40(%rsp)
	jbe	26f
	movq	%rsi, %rdx
	shrq	%rdx
	movq	%rsi, %rax
	subq	%rdx, %rax
	leaq	(%rax,%rax,2), %rsi
	shlq	$5, %rsi
	addq	%rdi, %rsi
	callq	"core::slice::edits::mirror::<31'mime_base::database::icon::Icon>"
	movq	112(%rsp), %rdi
	movq	8(%rsp), %r13
	jmp	30f
26:
	cmpq	$2, %rsi
	movq	112(%rsp), %rdi
	movq	8(%rsp), %r13
	jb	30f
	movq	24(%rsp), %rsi
	leaq	-2(%rsi), %rax
	shrq	%rax
	movq	40(%rsp), %r8
	leaq	56(%r8), %rcx
	incq	%rax
	leaq	(%rsi,%rsi,2), %rdx
	shlq	$5, %rdx
	addq	%r8, %rdx
	addq	$-40, %rdx
	decq	%rsi
	xorl	%r12d, %r12d
	jmp	29f
27:
	movzbl	-56(%rcx), %r8d
	movq	-16(%rcx), %r9
	movq	%r9, 320(%rsp)
	movups	-48(%rcx), %xmm0
	movups	-32(%rcx), %xmm1
	movaps	%xmm1, 304(%rsp)
	movaps	%xmm0, 288(%rsp)
	movzbl	-8(%rcx), %r9d
	movups	(%rcx), %xmm0
	movups	16(%rcx), %xmm1
	movaps	%xmm1, 256(%rsp)
	movaps	%xmm0, 240(%rsp)
	movq	32(%rcx), %r10
	movq	%r10, 272(%rsp)
	movzbl	-56(%rdx), %r10d
	movups	-48(%rdx), %xmm0
	movups	-32(%rdx), %xmm1
	movaps	%xmm1, 192(%rsp)
	movaps	%xmm0, 176(%rsp)
	movq	-16(%rdx), %r11
	movq	%r11, 208(%rsp)
	movzbl	-8(%rdx), %r11d
	movups	(%rdx), %xmm0
	movups	16(%rdx), %xmm1
	movaps	%xmm1, 144(%rsp)
	movaps	%xmm0, 128(%rsp)
	movq	32(%rdx), %r14
	movq	%r14, 160(%rsp)
	movq	%r10, -56(%rcx)
	movaps	176(%rsp), %xmm0
	movaps	192(%rsp), %xmm1
	movups	%xmm0, -48(%rcx)
	movups	%xmm1, -32(%rcx)
	movq	208(%rsp), %r10
	movq	%r10, -16(%rcx)
	movq	%r11, -8(%rcx)
	movaps	128(%rsp), %xmm0
	movaps	144(%rsp), %xmm1
	movups	%xmm0, (%rcx)
	movups	%xmm1, 16(%rcx)
	movq	160(%rsp), %r10
	movq	%r10, 32(%rcx)
	movq	%r8, -56(%rdx)
	movaps	288(%rsp), %xmm0
	movaps	304(%rsp), %xmm1
	movups	%xmm0, -48(%rdx)
	movups	%xmm1, -32(%rdx)
	movq	320(%rsp), %r8
	movq	%r8, -16(%rdx)
	movq	%r9, -8(%rdx)
	movaps	240(%rsp), %xmm0
	movaps	256(%rsp), %xmm1
	movups	%xmm0, (%rdx)
	movups	%xmm1, 16(%rdx)
	movq	272(%rsp), %r8
	movq	%r8, 32(%rdx)
28:
	incq	%r12
	addq	$96, %rcx
	addq	$-96, %rdx
	decq	%rsi
	cmpq	%r12, %rax
	je	30f
29:
	cmpq	%rsi, %r12
	jb	27b
	jbe	28b
	movzbl	-56(%rdx), %r8d
	movq	-16(%rdx), %r9
	movq	%r9, 320(%rsp)
	movups	-48(%rdx), %xmm0
	movups	-32(%rdx), %xmm1
	movaps	%xmm1, 304(%rsp)
	movaps	%xmm0, 288(%rsp)
	movzbl	-8(%rdx), %r9d
	movups	(%rdx), %xmm0
	movups	16(%rdx), %xmm1
	movaps	%xmm1, 256(%rsp)
	movaps	%xmm0, 240(%rsp)
	movq	32(%rdx), %r10
	movq	%r10, 272(%rsp)
	movzbl	-56(%rcx), %r10d
	movups	-48(%rcx), %xmm0
	movups	-32(%rcx), %xmm1
	movaps	%xmm1, 192(%rsp)
	movaps	%xmm0, 176(%rsp)
	movq	-16(%rcx), %r11
	movq	%r11, 208(%rsp)
	movzbl	-8(%rcx), %r11d
	movups	(%rcx), %xmm0
	movups	16(%rcx), %xmm1
	movaps	%xmm1, 144(%rsp)
	movaps	%xmm0, 128(%rsp)
	movq	32(%rcx), %r14
	movq	%r14, 160(%rsp)
	movq	%r10, -56(%rdx)
	movaps	176(%rsp), %xmm0
	movaps	192(%rsp), %xmm1
	movups	%xmm0, -48(%rdx)
	movups	%xmm1, -32(%rdx)
	movq	208(%rsp), %r10
	movq	%r10, -16(%rdx)
	movq	%r11, -8(%rdx)
	movaps	128(%rsp), %xmm0
	movaps	144(%rsp), %xmm1
	movups	%xmm0, (%rdx)
	movups	%xmm1, 16(%rdx)
	movq	160(%rsp), %r10
	movq	%r10, 32(%rdx)
	movq	%r8, -56(%rcx)
	movaps	288(%rsp), %xmm0
	movaps	304(%rsp), %xmm1
	movups	%xmm0, -48(%rcx)
	movups	%xmm1, -32(%rcx)
	movq	320(%rsp), %r8
	movq	%r8, -16(%rcx)
	movq	%r9, -8(%rcx)
	movaps	240(%rsp), %xmm0
	movaps	256(%rsp), %xmm1
	movups	%xmm0, (%rcx)
	movups	%xmm1, 16(%rcx)
	movq	272(%rsp), %r8
	movq	%r8, 32(%rcx)
	jmp	28b
30:
	movq	%rbp, %rax
	leaq	(%r15,%rbp), %r14
	decq	%r14
	movq	104(%rsp), %rcx
	movq	%rcx, 8(%rsp)
	testq	%r13, %r13
	je	31f
	callq	rattle_dealloc@PLT
	movq	%rbp, %rax
31:
	testq	%r14, %r14
	je	35f
	addq	%rax, %r15
	movl	$1, %ebp
	movq	48(%rsp), %r14
	jmp	33f
32:
	incq	%rbp
	addq	$96, %r14
	cmpq	%rbp, %r15
	je	35f
33:
	movzbl	48(%r14), %r13d
	movq	56(%r14), %rdi
	movq	72(%r14), %r12
	cmpb	$0, (%r14)
	je	34f
	cmpq	$0, 24(%r14)
	je	34f
	movq	%rdi, 32(%rsp)
	movq	8(%r14), %rdi
	callq	rattle_dealloc@PLT
	movq	32(%rsp), %rdi
34:
	testb	%r13b, %r13b
	je	32b
	testq	%r12, %r12
	je	32b
	callq	rattle_dealloc@PLT
	jmp	32b
35:
	cmpq	$0, 72(%rsp)
	je	36f
	movq	48(%rsp), %rdi
	callq	rattle_dealloc@PLT
36:
	xorl	%r12d, %r12d
	movq	40(%rsp), %r14
	movq	24(%rsp), %r15
	movq	8(%rsp), %r13
	movb	%r12b, (%rbx)
	jmp	1b
37:
	testq	%rbp, %rbp
	je	38f
	cmpq	$0, 32(%rsp)
	je	38f
	movq	120(%rsp), %rdi
	callq	rattle_dealloc@PLT
38:
	cmpq	$0, 80(%rsp)
	je	39f
	cmpq	$0, 64(%rsp)
	je	39f
	movq	56(%rsp), %rdi
	callq	rattle_dealloc@PLT
39:
	movq	88(%rsp), %rax
	movq	%rax, 24(%rsp)
	movq	96(%rsp), %r12
	movq	104(%rsp), %rax
	movq	%rax, 40(%rsp)
	testq	%r12, %r12
	je	43f
	movq	24(%rsp), %r14
	jmp	41f
40:
	addq	$96, %r14
	decq	%r12
	je	43f
41:
	movzbl	48(%r14), %r13d
	movq	56(%r14), %rdi
	movq	72(%r14), %rbp
	cmpb	$0, (%r14)
	je	42f
	cmpq	$0, 24(%r14)
	je	42f
	movq	%rdi, 32(%rsp)
	movq	8(%r14), %rdi
	callq	rattle_dealloc@PLT
	movq	32(%rsp), %rdi
42:
	testb	%r13b, %r13b
	je	40b
	testq	%rbp, %rbp
	je	40b
	callq	rattle_dealloc@PLT
	jmp	40b
43:
	cmpq	$0, 40(%rsp)
	je	44f
	movq	24(%rsp), %rdi
	callq	rattle_dealloc@PLT
44:
	movq	16(%rsp), %rax
	leaq	(%r15,%rax), %r14
	decq	%r14
	cmpq	$0, 8(%rsp)
	je	45f
	movq	112(%rsp), %rdi
	callq	rattle_dealloc@PLT
45:
	testq	%r14, %r14
	je	49f
	addq	16(%rsp), %r15
	movl	$1, %ebp
	movq	48(%rsp), %r12
	jmp	47f
46:
	incq	%rbp
	addq	$96, %r12
	cmpq	%rbp, %r15
	je	49f
47:
	movzbl	48(%r12), %r13d
	movq	56(%r12), %rdi
	movq	72(%r12), %r14
	cmpb	$0, (%r12)
	je	48f
	cmpq	$0, 24(%r12)
	je	48f
	movq	%rdi, 32(%rsp)
	movq	8(%r12), %rdi
	callq	rattle_dealloc@PLT
	movq	32(%rsp), %rdi
48:
	testb	%r13b, %r13b
	je	46b
	testq	%r14, %r14
	je	46b
	callq	rattle_dealloc@PLT
	jmp	46b
49:
	movb	$1, %r12b
	cmpq	$0, 72(%rsp)
	je	50f
	movq	48(%rsp), %rdi
	callq	rattle_dealloc@PLT
50:
	xorl	%r14d, %r14d
	xorl	%r15d, %r15d
	xorl	%r13d, %r13d
	movb	%r12b, (%rbx)
	jmp	1b
51:
	.size	"mime_text::merging::first::first_of_each::<#d8c223a5b86f943b>", 51b-"mime_text::merging::first::first_of_each::<#d8c223a5b86f943b>"

	.text
	.p2align	4
	.type	"mime_text::merging::first::is_first",@function
"mime_text::merging::first::is_first":
	pushq	%rbp
	pushq	%r15
	pushq	%r14
	pushq	%r13
	pushq	%r12
	pushq	%rbx
	subq	$488, %rsp
	movq	%rdx, %r8
	movq	(%rcx), %r14
	movq	8(%rcx), %r15
	cmpq	$8, %r15
	jb	1f
	movq	-8(%r14,%r15), %rdx
	bswapq	%rdx
	movabsq	$-49064778989728563, %rax
	imulq	%rdx, %rax
	jmp	2f
1:
	xorl	%eax, %eax
2:
	testq	%r8, %r8
	je	57f
	movq	16(%rcx), %rdx
	movq	%rdx, 136(%rsp)
	movq	24(%rcx), %rcx
	movq	%rcx, 128(%rsp)
	addq	%r15, %rax
	movq	%rax, %rcx
	orq	%r8, %rcx
	shrq	$32, %rcx
	je	4f
	xorl	%edx, %edx
	divq	%r8
	movb	$1, %cl
	cmpb	$1, (%rsi,%rdx)
	jne	5f
3:
	xorl	%eax, %eax
	jmp	21f
4:
	xorl	%edx, %edx
	divl	%r8d
	movb	$1, %cl
	cmpb	$1, (%rsi,%rdx)
	je	3b
5:
	cmpq	$8, %r15
	jb	7f
	movq	-8(%r14,%r15), %rax
	bswapq	%rax
	movq	%rax, 112(%rsp)
	cmpb	$1, (%rdi)
	je	8f
6:
	movq	%rdi, %rbx
	movl	$608, %edi
	movl	$8, %esi
	callq	rattle_alloc@PLT
	testb	$1, %al
	je	20f
	movq	%r15, 96(%rsp)
	movq	%r14, 104(%rsp)
	movl	$0, (%rdx)
	movq	%rbx, %rdi
	movzbl	(%rbx), %eax
	movq	$1, (%rbx)
	movq	%rdx, 8(%rbx)
	cmpb	$1, %al
	jne	9f
	jmp	57f
7:
	movq	$0, 112(%rsp)
	cmpb	$1, (%rdi)
	jne	6b
8:
	movq	%r15, 96(%rsp)
	movq	%r14, 104(%rsp)
	movq	8(%rdi), %rdx
9:
	movq	%rdi, 88(%rsp)
	leaq	8(%rdi), %rax
	movq	%rax, 16(%rsp)
	movzwl	2(%rdx), %eax
	movl	$15, %ebp
	subq	%rax, %rbp
	movq	%rax, 24(%rsp)
	negb	%al
	movb	%al, 48(%rsp)
	xorl	%r14d, %r14d
	movq	%rdx, %rax
	xorl	%r13d, %r13d
	movq	%rdx, 40(%rsp)
	movq	%rdx, %r15
	movq	%rbp, 120(%rsp)
	xorl	%ebx, %ebx
10:
	movq	%r13, 32(%rsp)
	movq	%r15, 8(%rsp)
	movq	%rax, %r15
	movzwl	(%rax), %r12d
	testq	%r12, %r12
	je	16f
	movq	%r14, 56(%rsp)
	leaq	40(%r15), %r14
	xorl	%r13d, %r13d
	.p2align	4
11:
	movq	-32(%r14), %rax
	cmpq	%rax, 112(%rsp)
	setae	%al
	jne	12f
	movq	-24(%r14), %rdx
	movq	-16(%r14), %rcx
	movq	104(%rsp), %rdi
	movq	96(%rsp), %rsi
	callq	"core::cmp::slices::RefSliceOrd::cmp::<#914af4d8504a0b72>"
	cmpb	$1, %al
	jne	13f
	movq	-8(%r14), %rdx
	movq	(%r14), %rcx
	movq	136(%rsp), %rdi
	movq	128(%rsp), %rsi
	callq	"core::cmp::slices::RefSliceOrd::cmp::<#914af4d8504a0b72>"
	jmp	13f
	.p2align	4
12:
	addb	%al, %al
13:
	cmpb	$2, %al
	jne	14f
	incq	%r13
	addq	$40, %r14
	cmpq	%r13, %r12
	jne	11b
	movq	%r12, %r13
	jmp	15f
	.p2align	4
14:
	movzbl	%al, %eax
	testl	%eax, %eax
	jne	18f
15:
	movq	56(%rsp), %r14
	jmp	17f
	.p2align	4
16:
	xorl	%r13d, %r13d
17:
	shlq	$4, %rbx
	addq	%r13, %rbx
	incq	%rbp
	cmpw	$0, 2(%r15)
	je	19f
	movq	608(%r15,%r13,8), %rax
	incq	%r14
	incb	48(%rsp)
	jmp	10b
18:
	andl	$15, %r13d
	movq	24(%rsp), %rax
	addq	%rbp, %rax
	cmpq	$15, %rax
	movq	8(%rsp), %rax
	movq	32(%rsp), %rcx
	leaq	608(%rax,%rcx,8), %rax
	cmoveq	16(%rsp), %rax
	movq	(%rax), %rax
	movzwl	(%rax), %eax
	cmpl	%eax, %r13d
	jae	57f
	xorl	%ecx, %ecx
	xorl	%eax, %eax
	jmp	21f
19:
	movabsq	$9223372036854775806, %rax
	movq	88(%rsp), %rcx
	cmpq	%rax, 16(%rcx)
	jbe	22f
20:
	movb	$1, %al
	xorl	%ecx, %ecx
21:
	movl	%ecx, %edx
	addq	$488, %rsp
	popq	%rbx
	popq	%r12
	popq	%r13
	popq	%r14
	popq	%r15
	popq	%rbp
	retq
22:
	movq	%rbp, %rcx
	movq	120(%rsp), %rdx
	subq	%rdx, %rcx
	cmpq	$1, %rcx
	movq	8(%rsp), %rsi
	movq	32(%rsp), %rdi
	leaq	608(%rsi,%rdi,8), %rax
	cmoveq	16(%rsp), %rax
	movq	(%rax), %rax
	cmpw	$14, (%rax)
	ja	23f
	shlq	$3, %rdi
	movq	88(%rsp), %r15
	jmp	54f
23:
	movq	40(%rsp), %rax
	cmpw	$15, (%rax)
	movq	%rdx, %rax
	jae	51f
24:
	xorps	%xmm0, %xmm0
	movaps	%xmm0, 64(%rsp)
	movq	%rbp, %rcx
	subq	%rax, %rcx
	movq	%rcx, 24(%rsp)
	jbe	28f
	movl	%ebp, %ecx
	subl	%eax, %ecx
	addq	%rdx, %r14
	subq	%rax, %r14
	testb	$3, %cl
	je	26f
	movzbl	48(%rsp), %ecx
	subb	%al, %cl
	movzbl	%cl, %ecx
	andl	$3, %ecx
25:
	movl	%ebx, %edx
	andb	$15, %dl
	movb	%dl, 63(%rsp,%rbp)
	decq	%rbp
	shrq	$4, %rbx
	decq	%rcx
	jne	25b
26:
	cmpq	$3, %r14
	jb	28f
27:
	movl	%ebx, %ecx
	andb	$15, %cl
	movb	%cl, 63(%rsp,%rbp)
	movl	%ebx, %ecx
	shrb	$4, %cl
	movb	%cl, 62(%rsp,%rbp)
	movl	%ebx, %ecx
	shrl	$8, %ecx
	andb	$15, %cl
	movb	%cl, 61(%rsp,%rbp)
	movl	%ebx, %ecx
	shrl	$12, %ecx
	andb	$15, %cl
	movb	%cl, 60(%rsp,%rbp)
	addq	$-4, %rbp
	shrq	$16, %rbx
	cmpq	%rbp, %rax
	jb	27b
28:
	movl	$16, %r15d
	subq	%rax, %r15
	cmpq	$2, %r15
	movq	40(%rsp), %rcx
	jb	53f
	leaq	(%rsp,%rax), %rbx
	addq	$64, %rbx
	movq	16(%rsp), %r12
	jmp	32f
29:
	movq	48(%rsp), %rcx
	incl	%ecx
	movb	%cl, (%rbx)
	addb	$-8, %al
	movb	%al, 1(%rbx)
30:
	movq	%rbp, %r15
31:
	movzbl	%cl, %edi
	leaq	(%rsi,%rdi,8), %r12
	addq	$608, %r12
	incq	%rbx
	cmpq	$2, %r15
	leaq	-1(%r15), %r15
	jbe	52f
32:
	movzbl	(%rbx), %ebp
	movl	%ebp, %ecx
	movq	(%r12), %rsi
	movq	608(%rsi,%rbp,8), %rax
	cmpw	$15, (%rax)
	jb	31b
	movq	%rcx, 48(%rsp)
	movzwl	2(%rsi), %r14d
	decq	%r14
	je	33f
	movl	$736, %edi
	jmp	34f
33:
	movl	$608, %edi
34:
	movl	$8, %esi
	callq	rattle_alloc@PLT
	testb	$1, %al
	je	55f
	movw	%r14w, 2(%rdx)
	movq	%rdx, 8(%rsp)
	leaq	8(%rdx), %rdi
	movq	(%r12), %rax
	xorps	%xmm0, %xmm0
	movaps	%xmm0, 368(%rsp)
	movaps	%xmm0, 352(%rsp)
	movq	$0, 384(%rsp)
	movzwl	(%rax), %edx
	leaq	1(%rdx), %rsi
	xorl	%ecx, %ecx
	xorl	%r8d, %r8d
	cmpw	$0, 2(%rax)
	setne	%r8b
	cmoveq	%rcx, %rsi
	shll	$4, %r8d
	leaq	608(%rax), %r10
	leaq	8(%rax), %r9
	movq	%r9, 224(%rsp)
	movq	%rdx, 232(%rsp)
	movq	$15, 240(%rsp)
	movq	%r10, 248(%rsp)
	movq	%rdx, 256(%rsp)
	movq	$15, 264(%rsp)
	movq	%r10, 272(%rsp)
	movq	%rsi, 280(%rsp)
	movq	%r8, 288(%rsp)
	movq	%rax, 296(%rsp)
	movaps	%xmm0, 320(%rsp)
	movaps	%xmm0, 304(%rsp)
	movq	$0, 336(%rsp)
	movq	608(%rax,%rbp,8), %rax
	movaps	%xmm0, 464(%rsp)
	movaps	%xmm0, 448(%rsp)
	movq	$0, 480(%rsp)
	movzwl	2(%rax), %r14d
	movzwl	(%rax), %r8d
	leaq	1(%r8), %rdx
	xorl	%esi, %esi
	testw	%r14w, %r14w
	setne	%sil
	cmoveq	%rcx, %rdx
	shll	$4, %esi
	leaq	608(%rax), %rcx
	leaq	8(%rax), %r9
	movq	%r9, 144(%rsp)
	movq	$15, 160(%rsp)
	movq	%rcx, 168(%rsp)
	movq	$15, 184(%rsp)
	movq	%rcx, 192(%rsp)
	movq	%rdx, 200(%rsp)
	movq	%rsi, 208(%rsp)
	movq	%rax, 216(%rsp)
	leaq	-8(%r8), %r13
	leaq	328(%rax), %rsi
	leaq	-64(,%r8,8), %rcx
	leaq	(%rcx,%rcx,4), %rdx
	movq	%rdi, %rcx
	subq	%rsi, %rcx
	cmpq	%rdx, %rcx
	movq	%r10, 32(%rsp)
	jae	35f
	testq	%r13, %r13
	je	40f
	movl	%r8d, %ecx
	andl	$7, %ecx
	addl	$-9, %r8d
	cmpw	$7, %r8w
	jae	36f
	xorl	%edx, %edx
	jmp	38f
35:
	callq	memmove@PLT
	jmp	40f
36:
	movq	%r13, %r8
	andq	$-8, %r8
	xorl	%edx, %edx
	xorl	%r9d, %r9d
37:
	movups	(%rsi,%r9), %xmm0
	movups	16(%rsi,%r9), %xmm1
	movq	32(%rsi,%r9), %r10
	movq	%r10, 32(%rdi,%r9)
	movups	%xmm1, 16(%rdi,%r9)
	movups	%xmm0, (%rdi,%r9)
	movups	40(%rsi,%r9), %xmm0
	movups	56(%rsi,%r9), %xmm1
	movq	72(%rsi,%r9), %r10
	movq	%r10, 72(%rdi,%r9)
	movups	%xmm1, 56(%rdi,%r9)
	movups	%xmm0, 40(%rdi,%r9)
	movups	80(%rsi,%r9), %xmm0
	movups	96(%rsi,%r9), %xmm1
	movq	112(%rsi,%r9), %r10
	movq	%r10, 112(%rdi,%r9)
	movups	%xmm1, 96(%rdi,%r9)
	movups	%xmm0, 80(%rdi,%r9)
	movups	120(%rsi,%r9), %xmm0
	movups	136(%rsi,%r9), %xmm1
	movq	152(%rsi,%r9), %r10
	movq	%r10, 152(%rdi,%r9)
	movups	%xmm1, 136(%rdi,%r9)
	movups	%xmm0, 120(%rdi,%r9)
	movups	160(%rsi,%r9), %xmm0
	movups	176(%rsi,%r9), %xmm1
	movq	192(%rsi,%r9), %r10
	movq	%r10, 192(%rdi,%r9)
	movups	%xmm1, 176(%rdi,%r9)
	movups	%xmm0, 160(%rdi,%r9)
	movups	200(%rsi,%r9), %xmm0
	movups	216(%rsi,%r9), %xmm1
	movq	232(%rsi,%r9), %r10
	movq	%r10, 232(%rdi,%r9)
	movups	%xmm1, 216(%rdi,%r9)
	movups	%xmm0, 200(%rdi,%r9)
	movups	240(%rsi,%r9), %xmm0
	movups	256(%rsi,%r9), %xmm1
	movq	272(%rsi,%r9), %r10
	movq	%r10, 272(%rdi,%r9)
	movups	%xmm1, 256(%rdi,%r9)
	movups	%xmm0, 240(%rdi,%r9)
	movups	280(%rsi,%r9), %xmm0
	movups	296(%rsi,%r9), %xmm1
	movq	312(%rsi,%r9), %r10
	movq	%r10, 312(%rdi,%r9)
	movups	%xmm1, 296(%rdi,%r9)
	movups	%xmm0, 280(%rdi,%r9)
	addq	$8, %rdx
	addq	$320, %r9
	cmpq	%rdx, %r8
	jne	37b
	testq	%rcx, %rcx
	je	40f
38:
	shlq	$3, %rdx
	leaq	(%rdx,%rdx,4), %rdx
	addq	%rdx, %rax
	addq	$328, %rax
	movq	8(%rsp), %rsi
	addq	%rsi, %rdx
	addq	$8, %rdx
	shll	$3, %ecx
	leaq	(%rcx,%rcx,4), %rcx
	xorl	%esi, %esi
	.p2align	4
39:
	movups	(%rax,%rsi), %xmm0
	movups	16(%rax,%rsi), %xmm1
	movq	32(%rax,%rsi), %rdi
	movq	%rdi, 32(%rdx,%rsi)
	movups	%xmm1, 16(%rdx,%rsi)
	movups	%xmm0, (%rdx,%rsi)
	addq	$40, %rsi
	cmpq	%rsi, %rcx
	jne	39b
40:
	movq	%rbp, 56(%rsp)
	movq	$8, 152(%rsp)
	movq	$8, 176(%rsp)
	xorps	%xmm0, %xmm0
	movaps	%xmm0, 400(%rsp)
	movaps	%xmm0, 416(%rsp)
	movq	$0, 432(%rsp)
	leaq	400(%rsp), %rdi
	leaq	144(%rsp), %rsi
	movl	$7, %edx
	callq	"std_alloc::vec::Vec::remove::<#21647806b46d5bf1>"
	testw	%r14w, %r14w
	movq	8(%rsp), %r10
	je	47f
	leaq	608(%r10), %rdi
	movq	192(%rsp), %rax
	movq	200(%rsp), %r8
	leaq	64(%rax), %rsi
	leaq	-64(,%r8,8), %rdx
	movq	%rdi, %rcx
	subq	%rsi, %rcx
	cmpq	%rdx, %rcx
	jae	46f
	movq	%r8, %rcx
	addq	$-8, %rcx
	je	47f
	cmpq	$4, %rcx
	jb	41f
	movq	%r10, %rdx
	subq	%rax, %rdx
	addq	$544, %rdx
	cmpq	$32, %rdx
	jae	49f
41:
	xorl	%edx, %edx
42:
	movq	%r8, %r10
	movq	%rdx, %r9
	andq	$3, %r10
	je	44f
	movq	%rdx, %r9
43:
	movq	(%rsi,%r9,8), %r11
	movq	%r11, (%rdi,%r9,8)
	incq	%r9
	decq	%r10
	jne	43b
44:
	subq	%rdx, %r8
	addq	$-9, %r8
	cmpq	$3, %r8
	movq	8(%rsp), %r10
	jb	47f
45:
	movq	64(%rax,%r9,8), %rdx
	movq	%rdx, 608(%r10,%r9,8)
	movq	72(%rax,%r9,8), %rdx
	movq	%rdx, 616(%r10,%r9,8)
	movq	80(%rax,%r9,8), %rdx
	movq	%rdx, 624(%r10,%r9,8)
	movq	88(%rax,%r9,8), %rdx
	movq	%rdx, 632(%r10,%r9,8)
	addq	$4, %r9
	cmpq	%r9, %rcx
	jne	45b
	jmp	47f
46:
	callq	memmove@PLT
	movq	8(%rsp), %r10
47:
	movq	%r15, %rbp
	movzwl	152(%rsp), %eax
	movq	216(%rsp), %rcx
	movw	%ax, (%rcx)
	movw	%r13w, (%r10)
	movq	432(%rsp), %rax
	movaps	400(%rsp), %xmm0
	movaps	416(%rsp), %xmm1
	movaps	%xmm0, 304(%rsp)
	movaps	%xmm1, 320(%rsp)
	movq	%rax, 336(%rsp)
	movq	56(%rsp), %r13
	movq	32(%rsp), %rax
	movq	%rcx, (%rax,%r13,8)
	movq	336(%rsp), %rax
	movq	%rax, 384(%rsp)
	movaps	304(%rsp), %xmm0
	movaps	320(%rsp), %xmm1
	movaps	%xmm1, 368(%rsp)
	movaps	%xmm0, 352(%rsp)
	leaq	224(%rsp), %rdi
	leaq	352(%rsp), %rdx
	movq	%r13, %rsi
	callq	"std_alloc::vec::lodged::Vec+T+Lodged::insert_reserved::<39'(,,)::<i64,3'&[](*,i64,),3'&[](*,i64,)>>"
	incq	%r13
	movq	272(%rsp), %r14
	movq	280(%rsp), %rdx
	leal	(,%r13,8), %r15d
	subq	%r13, %rdx
	je	48f
	leaq	(%r14,%r15), %rsi
	leaq	(%r14,%r15), %rdi
	addq	$8, %rdi
	shlq	$3, %rdx
	callq	memmove@PLT
48:
	movq	8(%rsp), %rax
	movq	%rax, (%r14,%r15)
	movzwl	232(%rsp), %eax
	movq	296(%rsp), %rsi
	movw	%ax, (%rsi)
	movq	%rsi, (%r12)
	movzbl	1(%rbx), %eax
	cmpb	$7, %al
	ja	29b
	movzbl	(%rbx), %ecx
	jmp	30b
49:
	movq	%rcx, %rdx
	andq	$-4, %rdx
	xorl	%r9d, %r9d
50:
	movups	64(%rax,%r9,8), %xmm0
	movups	80(%rax,%r9,8), %xmm1
	movups	%xmm0, 608(%r10,%r9,8)
	movups	%xmm1, 624(%r10,%r9,8)
	addq	$4, %r9
	cmpq	%r9, %rdx
	jne	50b
	cmpq	%rdx, %rcx
	je	47b
	jmp	42b
51:
	cmpw	$10, 24(%rsp)
	ja	20b
	movl	$736, %edi
	movl	$8, %esi
	callq	rattle_alloc@PLT
	movq	%rdx, 40(%rsp)
	testb	$1, %al
	je	20b
	movq	24(%rsp), %rsi
	leal	1(%rsi), %eax
	movq	40(%rsp), %rdx
	movw	%ax, 2(%rdx)
	movq	16(%rsp), %rcx
	movq	(%rcx), %rax
	movq	%rax, 608(%rdx)
	movw	$0, (%rdx)
	movq	%rdx, (%rcx)
	movl	$14, %eax
	subq	%rsi, %rax
	movq	8(%rsp), %rsi
	movq	32(%rsp), %rdi
	movq	120(%rsp), %rdx
	jmp	24b
52:
	movq	16(%rsp), %rax
	movq	(%rax), %rcx
53:
	movq	%rcx, %rax
	cmpw	$0, (%rcx)
	je	56f
	movq	88(%rsp), %r15
	cmpb	$1, (%r15)
	movq	24(%rsp), %rcx
	jne	57f
	movzbl	79(%rsp), %ebx
	shlq	$3, %rdi
54:
	cmpq	$1, %rcx
	leaq	608(%rsi,%rdi), %r14
	cmoveq	16(%rsp), %r14
	andl	$15, %ebx
	movq	112(%rsp), %rax
	movq	%rax, 224(%rsp)
	movq	104(%rsp), %rax
	movq	%rax, 232(%rsp)
	movq	96(%rsp), %rax
	movq	%rax, 240(%rsp)
	movq	136(%rsp), %rax
	movq	%rax, 248(%rsp)
	movq	128(%rsp), %rax
	movq	%rax, 256(%rsp)
	movq	(%r14), %rax
	movzwl	(%rax), %ecx
	leaq	1(%rcx), %rdx
	xorl	%esi, %esi
	cmpw	$0, 2(%rax)
	setne	%sil
	movl	$0, %edi
	cmovneq	%rdx, %rdi
	shll	$4, %esi
	leaq	608(%rax), %rdx
	leaq	8(%rax), %r8
	movq	%r8, 144(%rsp)
	movq	%rcx, 152(%rsp)
	movq	$15, 160(%rsp)
	movq	%rdx, 168(%rsp)
	movq	%rcx, 176(%rsp)
	movq	$15, 184(%rsp)
	movq	%rdx, 192(%rsp)
	movq	%rdi, 200(%rsp)
	movq	%rsi, 208(%rsp)
	movq	%rax, 216(%rsp)
	leaq	144(%rsp), %rdi
	leaq	224(%rsp), %rdx
	movq	%rbx, %rsi
	callq	"std_alloc::vec::lodged::Vec+T+Lodged::insert_reserved::<39'(,,)::<i64,3'&[](*,i64,),3'&[](*,i64,)>>"
	xorl	%eax, %eax
	movzwl	152(%rsp), %ecx
	movq	216(%rsp), %rdx
	movw	%cx, (%rdx)
	movq	%rdx, (%r14)
	incq	16(%r15)
	movb	$1, %cl
	jmp	21b
55:
	movq	16(%rsp), %rax
	movq	(%rax), %rcx
	movq	%rcx, %rax
	cmpw	$0, (%rcx)
	jne	20b
56:
	cmpw	$0, 2(%rax)
	je	20b
	movq	%rax, %rdi
	movq	608(%rax), %rbx
	callq	rattle_dealloc@PLT
	movq	16(%rsp), %rax
	movq	%rbx, (%rax)
	jmp	20b
57:
	ud2
58:
	.size	"mime_text::merging::first::is_first", 58b-"mime_text::merging::first::is_first"

	.text
	.p2align	4
	.type	"mime_text::merging::first::marked::<#5757887c02ee9d34>",@function
"mime_text::merging::first::marked::<#5757887c02ee9d34>":
	pushq	%rbp
	pushq	%r15
	pushq	%r14
	pushq	%r13
	pushq	%r12
	pushq	%rbx
	subq	$344, %rsp
	movq	%rdi, %r15
	movq	(%rsi), %rax
	movq	%rax, 24(%rsp)
	movq	8(%rsi), %rbp
	movq	16(%rsi), %rax
	movq	%rax, 48(%rsp)
	movq	(%rdx), %rdi
	movq	8(%rdx), %r14
	movq	16(%rdx), %rcx
	xorl	%eax, %eax
	.p2align	4
1:
	cmpq	%rax, %r14
	je	7f
	cmpb	$0, (%rdi,%rax)
	leaq	1(%rax), %rax
	jne	1b
	testq	%rbp, %rbp
	je	11f
	movabsq	$96076792050570581, %rax
	cmpq	%rax, %rbp
	ja	2f
	movq	%rbp, %rax
	shlq	$5, %rax
	movq	%rdi, %rbx
	leaq	(%rax,%rax,2), %rdi
	movl	$8, %esi
	movq	%rcx, %r12
	callq	rattle_alloc@PLT
	movq	%r12, %rcx
	movq	%rbx, %rdi
	testb	$1, %al
	jne	12f
2:
	movq	%r15, %r13
	testq	%rcx, %rcx
	je	3f
	callq	rattle_dealloc@PLT
3:
	movq	24(%rsp), %rbx
	jmp	5f
	.p2align	4
4:
	addq	$96, %rbx
	decq	%rbp
	je	9f
5:
	movzbl	48(%rbx), %r12d
	movq	56(%rbx), %r15
	movq	72(%rbx), %r14
	cmpb	$0, (%rbx)
	je	6f
	cmpq	$0, 24(%rbx)
	je	6f
	movq	8(%rbx), %rdi
	callq	rattle_dealloc@PLT
6:
	testb	%r12b, %r12b
	je	4b
	testq	%r14, %r14
	je	4b
	movq	%r15, %rdi
	callq	rattle_dealloc@PLT
	jmp	4b
7:
	testq	%rcx, %rcx
	je	8f
	callq	rattle_dealloc@PLT
8:
	movb	$0, (%r15)
	movq	24(%rsp), %rax
	movq	%rax, 8(%r15)
	movq	%rbp, 16(%r15)
	movq	48(%rsp), %rax
	movq	%rax, 24(%r15)
	jmp	36f
9:
	cmpq	$0, 48(%rsp)
	je	10f
	movq	24(%rsp), %rdi
	callq	rattle_dealloc@PLT
10:
	movb	$1, (%r13)
	xorps	%xmm0, %xmm0
	movups	%xmm0, 8(%r13)
	movq	$0, 24(%r13)
	jmp	36f
11:
	leaq	32(%rsp), %rdx
12:
	movq	%rcx, 40(%rsp)
	movq	%rdx, 56(%rsp)
	movq	$0, 64(%rsp)
	movq	%rbp, 72(%rsp)
	testq	%rbp, %rbp
	movq	%rdi, 104(%rsp)
	je	19f
	movq	%r15, 80(%rsp)
	leaq	(%r14,%rdi), %rsi
	decq	%rsi
	negq	%r14
	leaq	(,%rbp,2), %rax
	addq	%rbp, %rax
	shlq	$5, %rax
	movq	24(%rsp), %rcx
	leaq	(%rax,%rcx), %r15
	addq	$-16, %r15
	movq	$0, (%rsp)
	xorl	%ebx, %ebx
	movq	%rsi, 16(%rsp)
	jmp	16f
	.p2align	4
13:
	movups	-16(%r15), %xmm1
	movups	-64(%r15), %xmm2
	leaq	-48(%r15), %rax
	movups	(%rax), %xmm0
	movaps	%xmm0, 160(%rsp)
	movups	(%r15), %xmm0
	movaps	%xmm0, 112(%rsp)
	movq	(%rsp), %rcx
	cmpq	%rcx, 72(%rsp)
	je	18f
14:
	leaq	(%rcx,%rcx,2), %rax
	shlq	$5, %rax
	movq	%r13, (%rdx,%rax)
	movq	%rdi, 8(%rdx,%rax)
	movups	%xmm2, 16(%rdx,%rax)
	movaps	160(%rsp), %xmm0
	movups	%xmm0, 32(%rdx,%rax)
	movq	%r9, 48(%rdx,%rax)
	movq	%r8, 56(%rdx,%rax)
	movups	%xmm1, 64(%rdx,%rax)
	movaps	112(%rsp), %xmm0
	movups	%xmm0, 80(%rdx,%rax)
	incq	%rcx
	movq	%rcx, (%rsp)
	movq	%rcx, 64(%rsp)
15:
	decq	%rbx
	addq	$-96, %r15
	movq	%rbp, %rax
	addq	%rbx, %rax
	je	24f
16:
	movzbl	-80(%r15), %r13d
	movzbl	-32(%r15), %r9d
	movq	-24(%r15), %r8
	movq	-8(%r15), %r10
	movq	-72(%r15), %rdi
	movq	-56(%r15), %r12
	cmpq	%rbx, %r14
	je	20f
	cmpb	$1, (%rsi,%rbx)
	je	13b
	testq	%r13, %r13
	je	17f
	testq	%r12, %r12
	je	17f
	movq	%rdx, %r12
	movq	%r8, 8(%rsp)
	movq	%r9, %r13
	movq	%r10, 88(%rsp)
	callq	rattle_dealloc@PLT
	movq	88(%rsp), %r10
	movq	%r13, %r9
	movq	8(%rsp), %r8
	movq	16(%rsp), %rsi
	movq	%r12, %rdx
17:
	testq	%r9, %r9
	je	15b
	testq	%r10, %r10
	je	15b
	movq	%r8, %rdi
	movq	%rdx, %r12
	callq	rattle_dealloc@PLT
	movq	16(%rsp), %rsi
	movq	%r12, %rdx
	jmp	15b
18:
	movaps	%xmm2, 304(%rsp)
	movaps	%xmm1, 320(%rsp)
	movq	%r10, 88(%rsp)
	movq	%r9, 96(%rsp)
	movq	%r8, 8(%rsp)
	movq	%rdi, (%rsp)
	leaq	56(%rsp), %rdi
	movl	$1, %esi
	callq	"std_alloc::vec::Vec::grow_amortized::<#ea7493c5bc8f7b4c>"
	testb	%al, %al
	je	37f
	movq	56(%rsp), %rdx
	movq	64(%rsp), %rcx
	movq	(%rsp), %rdi
	movq	16(%rsp), %rsi
	movq	8(%rsp), %r8
	movq	96(%rsp), %r9
	movaps	320(%rsp), %xmm1
	movaps	304(%rsp), %xmm2
	jmp	14b
19:
	xorl	%r14d, %r14d
	xorl	%ebp, %ebp
	movq	56(%rsp), %r12
	cmpq	$15, %r14
	ja	23f
	jmp	25f
20:
	testq	%r13, %r13
	je	21f
	testq	%r12, %r12
	je	21f
	movq	%r8, %r14
	movq	%r9, %r15
	movq	%r10, %r12
	callq	rattle_dealloc@PLT
	movq	%r12, %r10
	movq	%r15, %r9
	movq	%r14, %r8
21:
	addq	%rbx, %rbp
	decq	%rbp
	testq	%r9, %r9
	movq	80(%rsp), %r15
	movq	(%rsp), %r14
	je	22f
	testq	%r10, %r10
	je	22f
	movq	%r8, %rdi
	callq	rattle_dealloc@PLT
22:
	movq	56(%rsp), %r12
	cmpq	$15, %r14
	jbe	25f
23:
	movq	%r14, %rdx
	shrq	%rdx
	movq	%r14, %rax
	subq	%rdx, %rax
	leaq	(%rax,%rax,2), %rsi
	shlq	$5, %rsi
	addq	%r12, %rsi
	movq	%r12, %rdi
	callq	"core::slice::edits::mirror::<31'mime_base::database::pair::Pair>"
	jmp	29f
24:
	xorl	%ebp, %ebp
	movq	80(%rsp), %r15
	movq	(%rsp), %r14
	movq	56(%rsp), %r12
	cmpq	$15, %r14
	ja	23b
25:
	cmpq	$2, %r14
	jb	29f
	leaq	-2(%r14), %rax
	shrq	%rax
	leaq	56(%r12), %rcx
	incq	%rax
	leaq	(%r14,%r14,2), %rdx
	shlq	$5, %rdx
	addq	%r12, %rdx
	addq	$-40, %rdx
	leaq	-1(%r14), %rsi
	xorl	%edi, %edi
	jmp	28f
	.p2align	4
26:
	movzbl	-56(%rcx), %r8d
	movq	-16(%rcx), %r9
	movq	%r9, 288(%rsp)
	movups	-48(%rcx), %xmm0
	movups	-32(%rcx), %xmm1
	movaps	%xmm1, 272(%rsp)
	movaps	%xmm0, 256(%rsp)
	movzbl	-8(%rcx), %r9d
	movups	(%rcx), %xmm0
	movups	16(%rcx), %xmm1
	movaps	%xmm1, 224(%rsp)
	movaps	%xmm0, 208(%rsp)
	movq	32(%rcx), %r10
	movq	%r10, 240(%rsp)
	movzbl	-56(%rdx), %r10d
	movups	-48(%rdx), %xmm0
	movups	-32(%rdx), %xmm1
	movaps	%xmm1, 176(%rsp)
	movaps	%xmm0, 160(%rsp)
	movq	-16(%rdx), %r11
	movq	%r11, 192(%rsp)
	movzbl	-8(%rdx), %r11d
	movups	(%rdx), %xmm0
	movups	16(%rdx), %xmm1
	movaps	%xmm1, 128(%rsp)
	movaps	%xmm0, 112(%rsp)
	movq	32(%rdx), %rbx
	movq	%rbx, 144(%rsp)
	movq	%r10, -56(%rcx)
	movaps	160(%rsp), %xmm0
	movaps	176(%rsp), %xmm1
	movups	%xmm0, -48(%rcx)
	movups	%xmm1, -32(%rcx)
	movq	192(%rsp), %r10
	movq	%r10, -16(%rcx)
	movq	%r11, -8(%rcx)
	movaps	112(%rsp), %xmm0
	movaps	128(%rsp), %xmm1
	movups	%xmm0, (%rcx)
	movups	%xmm1, 16(%rcx)
	movq	144(%rsp), %r10
	movq	%r10, 32(%rcx)
	movq	%r8, -56(%rdx)
	movaps	256(%rsp), %xmm0
	movaps	272(%rsp), %xmm1
	movups	%xmm0, -48(%rdx)
	movups	%xmm1, -32(%rdx)
	movq	288(%rsp), %r8
	movq	%r8, -16(%rdx)
	movq	%r9, -8(%rdx)
	movaps	208(%rsp), %xmm0
	movaps	224(%rsp), %xmm1
	movups	%xmm0, (%rdx)
	movups	%xmm1, 16(%rdx)
	movq	240(%rsp), %r8
	movq	%r8, 32(%rdx)
27:
	incq	%rdi
	addq	$96, %rcx
	addq	$-96, %rdx
	decq	%rsi
	cmpq	%rdi, %rax
	je	29f
28:
	cmpq	%rsi, %rdi
	jb	26b
	jbe	27b
	movzbl	-56(%rdx), %r8d
	movq	-16(%rdx), %r9
	movq	%r9, 288(%rsp)
	movups	-48(%rdx), %xmm0
	movups	-32(%rdx), %xmm1
	movaps	%xmm1, 272(%rsp)
	movaps	%xmm0, 256(%rsp)
	movzbl	-8(%rdx), %r9d
	movups	(%rdx), %xmm0
	movups	16(%rdx), %xmm1
	movaps	%xmm1, 224(%rsp)
	movaps	%xmm0, 208(%rsp)
	movq	32(%rdx), %r10
	movq	%r10, 240(%rsp)
	movzbl	-56(%rcx), %r10d
	movups	-48(%rcx), %xmm0
	movups	-32(%rcx), %xmm1
	movaps	%xmm1, 176(%rsp)
	movaps	%xmm0, 160(%rsp)
	movq	-16(%rcx), %r11
	movq	%r11, 192(%rsp)
	movzbl	-8(%rcx), %r11d
	movups	(%rcx), %xmm0
	movups	16(%rcx), %xmm1
	movaps	%xmm1, 128(%rsp)
	movaps	%xmm0, 112(%rsp)
	movq	32(%rcx), %rbx
	movq	%rbx, 144(%rsp)
	movq	%r10, -56(%rdx)
	movaps	160(%rsp), %xmm0
	movaps	176(%rsp), %xmm1
	movups	%xmm0, -48(%rdx)
	movups	%xmm1, -32(%rdx)
	movq	192(%rsp), %r10
	movq	%r10, -16(%rdx)
	movq	%r11, -8(%rdx)
	movaps	112(%rsp), %xmm0
	movaps	128(%rsp), %xmm1
	movups	%xmm0, (%rdx)
	movups	%xmm1, 16(%rdx)
	movq	144(%rsp), %r10
	movq	%r10, 32(%rdx)
	movq	%r8, -56(%rcx)
	movaps	256(%rsp), %xmm0
	movaps	272(%rsp), %xmm1
	movups	%xmm0, -48(%rcx)
	movups	%xmm1, -32(%rcx)
	movq	288(%rsp), %r8
	movq	%r8, -16(%rcx)
	movq	%r9, -8(%rcx)
	movaps	208(%rsp), %xmm0
	movaps	224(%rsp), %xmm1
	movups	%xmm0, (%rcx)
	movups	%xmm1, 16(%rcx)
	movq	240(%rsp), %r8
	movq	%r8, 32(%rcx)
	jmp	27b
29:
	movq	%r12, 16(%rsp)
	movq	%r14, (%rsp)
	movq	%r15, %rbx
	movq	72(%rsp), %rax
	movq	%rax, 8(%rsp)
	cmpq	$0, 40(%rsp)
	je	30f
	movq	104(%rsp), %rdi
	callq	rattle_dealloc@PLT
30:
	testq	%rbp, %rbp
	je	34f
	movq	24(%rsp), %r14
	jmp	32f
	.p2align	4
31:
	addq	$96, %r14
	decq	%rbp
	je	34f
32:
	movzbl	48(%r14), %r12d
	movq	56(%r14), %r15
	movq	72(%r14), %r13
	cmpb	$0, (%r14)
	je	33f
	cmpq	$0, 24(%r14)
	je	33f
	movq	8(%r14), %rdi
	callq	rattle_dealloc@PLT
33:
	testb	%r12b, %r12b
	je	31b
	testq	%r13, %r13
	je	31b
	movq	%r15, %rdi
	callq	rattle_dealloc@PLT
	jmp	31b
34:
	cmpq	$0, 48(%rsp)
	je	35f
	movq	24(%rsp), %rdi
	callq	rattle_dealloc@PLT
35:
	movb	$0, (%rbx)
	movq	16(%rsp), %rax
	movq	%rax, 8(%rbx)
	movq	(%rsp), %rax
	movq	%rax, 16(%rbx)
	movq	8(%rsp), %rax
	movq	%rax, 24(%rbx)
36:
	addq	$344, %rsp
	popq	%rbx
	popq	%r12
	popq	%r13
	popq	%r14
	popq	%r15
	popq	%rbp
	retq
37:
	testq	%r13, %r13
	movq	(%rsp), %rdi
	je	38f
	testq	%r12, %r12
	je	38f
	callq	rattle_dealloc@PLT
38:
	cmpq	$0, 96(%rsp)
	movq	8(%rsp), %rdi
	je	39f
	cmpq	$0, 88(%rsp)
	je	39f
	callq	rattle_dealloc@PLT
39:
	movq	56(%rsp), %rax
	movq	%rax, 16(%rsp)
	movq	64(%rsp), %r15
	movq	72(%rsp), %rax
	movq	%rax, 8(%rsp)
	testq	%r15, %r15
	movq	40(%rsp), %rax
	je	43f
	movq	16(%rsp), %r12
	jmp	41f
40:
	addq	$96, %r12
	decq	%r15
	je	43f
41:
	movzbl	48(%r12), %r13d
	movq	56(%r12), %rdi
	movq	72(%r12), %r14
	cmpb	$0, (%r12)
	je	42f
	cmpq	$0, 24(%r12)
	je	42f
	movq	%rdi, (%rsp)
	movq	8(%r12), %rdi
	callq	rattle_dealloc@PLT
	movq	(%rsp), %rdi
	movq	40(%rsp), %rax
42:
	testb	%r13b, %r13b
	je	40b
	testq	%r14, %r14
	je	40b
	callq	rattle_dealloc@PLT
	movq	40(%rsp), %rax
	jmp	40b
43:
	cmpq	$0, 8(%rsp)
	je	44f
	movq	16(%rsp), %rdi
	callq	rattle_dealloc@PLT
	movq	40(%rsp), %rax
44:
	leaq	(%rbx,%rbp), %r14
	decq	%r14
	testq	%rax, %rax
	je	45f
	movq	104(%rsp), %rdi
	callq	rattle_dealloc@PLT
45:
	testq	%r14, %r14
	je	49f
	addq	%rbx, %rbp
	movl	$1, %ebx
	movq	24(%rsp), %r14
	jmp	47f
46:
	incq	%rbx
	addq	$96, %r14
	cmpq	%rbx, %rbp
	je	49f
47:
	movzbl	48(%r14), %r13d
	movq	56(%r14), %r15
	movq	72(%r14), %r12
	cmpb	$0, (%r14)
	je	48f
	cmpq	$0, 24(%r14)
	je	48f
	movq	8(%r14), %rdi
	callq	rattle_dealloc@PLT
48:
	testb	%r13b, %r13b
	je	46b
	testq	%r12, %r12
	je	46b
	movq	%r15, %rdi
	callq	rattle_dealloc@PLT
	jmp	46b
49:
	cmpq	$0, 48(%rsp)
	je	50f
	movq	24(%rsp), %rdi
	callq	rattle_dealloc@PLT
50:
	movq	80(%rsp), %rax
	movb	$1, (%rax)
	xorps	%xmm0, %xmm0
	movups	%xmm0, 8(%rax)
	movq	$0, 24(%rax)
	jmp	36b
51:
	.size	"mime_text::merging::first::marked::<#5757887c02ee9d34>", 51b-"mime_text::merging::first::marked::<#5757887c02ee9d34>"

	.text
	.p2align	4
	.type	"mime_text::merging::hidden::least_weight",@function
"mime_text::merging::hidden::least_weight":
	pushq	%rbp
	pushq	%r15
	pushq	%r14
	pushq	%r13
	pushq	%r12
	pushq	%rbx
	pushq	%rax
	movq	%rcx, %rbx
	cmpq	%rdx, %rcx
	jne	1f
	movq	%rbx, %rdx
	addq	$8, %rsp
	popq	%rbx
	popq	%r12
	popq	%r13
	popq	%r14
	popq	%r15
	popq	%rbp
	jmp	"mime_text::merging::hidden::weight_of"
1:
	movzbl	(%rsi,%rbx), %r14d
	leaq	1(%rbx), %rbp
	movq	%rdi, %r12
	movq	%rsi, %r13
	movq	%rdx, %r15
	movq	%rbp, %rcx
	callq	"mime_text::merging::hidden::least_weight"
	testw	%ax, %ax
	je	2f
	leal	-97(%r14), %ecx
	cmpb	$25, %cl
	ja	3f
	leal	-32(%r14), %ecx
	movb	%cl, (%r13,%rbx)
	movq	%r12, %rdi
	movq	%r13, %rsi
	movq	%r15, %rdx
	movq	%rbp, %rcx
	movl	%eax, %ebp
	callq	"mime_text::merging::hidden::least_weight"
	movb	%r14b, (%r13,%rbx)
	cmpw	%bp, %ax
	cmovbl	%eax, %ebp
	movl	%ebp, %eax
	jmp	4f
2:
	xorl	%eax, %eax
3:
4:
	addq	$8, %rsp
	popq	%rbx
	popq	%r12
	popq	%r13
	popq	%r14
	popq	%r15
	popq	%rbp
	retq
5:
	.size	"mime_text::merging::hidden::least_weight", 5b-"mime_text::merging::hidden::least_weight"

	.text
	.p2align	4
	.type	"mime_text::merging::hidden::weight_of",@function
"mime_text::merging::hidden::weight_of":
	cmpb	$1, (%rdi)
	jne	13f
	pushq	%rbp
	pushq	%r14
	pushq	%rbx
	addq	$8, %rdi
1:
	movq	(%rdi), %rax
	movzwl	(%rax), %edi
	xorl	%ecx, %ecx
	testq	%rdi, %rdi
	je	11f
	.p2align	4
2:
	movq	%rcx, %r8
	shlq	$4, %r8
	movq	8(%rax,%r8), %r9
	movq	16(%rax,%r8), %r8
	cmpq	%rdx, %r8
	movq	%rdx, %r10
	cmovbq	%r8, %r10
	xorl	%r11d, %r11d
	cmpq	$64, %r10
	jb	4f
	movq	%r10, %rbx
	.p2align	4
3:
	movdqu	(%rsi,%r11), %xmm0
	movdqu	16(%rsi,%r11), %xmm1
	movdqu	32(%rsi,%r11), %xmm2
	movdqu	48(%rsi,%r11), %xmm3
	movdqu	(%r9,%r11), %xmm4
	pcmpeqb	%xmm0, %xmm4
	movdqu	16(%r9,%r11), %xmm0
	pcmpeqb	%xmm1, %xmm0
	movdqu	32(%r9,%r11), %xmm1
	pcmpeqb	%xmm2, %xmm1
	pand	%xmm4, %xmm1
	movdqu	48(%r9,%r11), %xmm2
	pcmpeqb	%xmm3, %xmm2
	pand	%xmm0, %xmm2
	pand	%xmm1, %xmm2
	pmovmskb	%xmm2, %ebp
	cmpl	$65535, %ebp
	jne	4f
	addq	$64, %r11
	addq	$-64, %rbx
	cmpq	$63, %rbx
	ja	3b
4:
	movq	%r10, %rbx
	subq	%r11, %rbx
	cmpq	$8, %rbx
	jb	6f
	.p2align	4
5:
	movq	(%rsi,%r11), %r14
	cmpq	(%r9,%r11), %r14
	jne	6f
	addq	$8, %r11
	addq	$-8, %rbx
	cmpq	$7, %rbx
	ja	5b
6:
	cmpq	%r10, %r11
	jae	8f
	.p2align	4
7:
	movzbl	(%r9,%r11), %ebx
	cmpb	%bl, (%rsi,%r11)
	jne	9f
	incq	%r11
	cmpq	%r11, %r10
	jne	7b
8:
	cmpq	%r8, %rdx
	je	14f
9:
	jb	10f
	incq	%rcx
	cmpq	%rdi, %rcx
	jne	2b
	movq	%rdi, %rcx
10:
	shlq	$3, %rcx
	cmpw	$0, 2(%rax)
	jne	12f
	jmp	15f
	.p2align	4
11:
	cmpw	$0, 2(%rax)
	je	15f
12:
	leaq	(%rax,%rcx), %rdi
	addq	$280, %rdi
	jmp	1b
13:
	xorl	%eax, %eax
	retq
14:
	movzwl	248(%rax,%rcx,2), %eax
	popq	%rbx
	popq	%r14
	popq	%rbp
	retq
15:
	xorl	%eax, %eax
	popq	%rbx
	popq	%r14
	popq	%rbp
	retq
16:
	.size	"mime_text::merging::hidden::weight_of", 16b-"mime_text::merging::hidden::weight_of"

	.text
	.p2align	4
	.type	"mime_text::merging::merge",@function
"mime_text::merging::merge":
	pushq	%rbp
	pushq	%r15
	pushq	%r14
	pushq	%r13
	pushq	%r12
	pushq	%rbx
	subq	$1848, %rsp
	movq	%rdi, 216(%rsp)
	movq	(%rsi), %rdi
	movq	8(%rsi), %rdx
	movq	16(%rsi), %rax
	movq	%rax, 848(%rsp)
	pxor	%xmm0, %xmm0
	movdqa	%xmm0, 416(%rsp)
	movq	$0, 432(%rsp)
	movdqa	%xmm0, 1552(%rsp)
	movdqu	%xmm0, 1567(%rsp)
	movdqa	%xmm0, 1616(%rsp)
	movq	$0, 1632(%rsp)
	movdqa	%xmm0, 352(%rsp)
	movq	$0, 368(%rsp)
	movdqa	%xmm0, 384(%rsp)
	movq	$0, 400(%rsp)
	movdqa	%xmm0, 1216(%rsp)
	movdqu	%xmm0, 1231(%rsp)
	movdqa	%xmm0, 768(%rsp)
	movq	$0, 784(%rsp)
	movdqu	%xmm0, 879(%rsp)
	movdqa	%xmm0, 864(%rsp)
	movdqa	%xmm0, 800(%rsp)
	movq	$0, 816(%rsp)
	movdqa	%xmm0, 1664(%rsp)
	movdqa	%xmm0, 1648(%rsp)
	movdqa	%xmm0, 1296(%rsp)
	movq	$0, 1312(%rsp)
	movdqa	%xmm0, 1584(%rsp)
	movdqa	%xmm0, 1600(%rsp)
	movdqa	%xmm0, 1680(%rsp)
	movdqa	%xmm0, 1696(%rsp)
	movdqa	%xmm0, 1712(%rsp)
	movdqa	%xmm0, 1728(%rsp)
	movdqa	%xmm0, 1744(%rsp)
	movdqa	%xmm0, 1760(%rsp)
	movdqa	%xmm0, 1776(%rsp)
	movdqa	%xmm0, 1792(%rsp)
	movdqa	%xmm0, 1808(%rsp)
	leaq	288(%rsp), %rax
	movq	%rax, 480(%rsp)
	movdqu	%xmm0, 488(%rsp)
	movdqu	%xmm0, 504(%rsp)
	movq	$0, 520(%rsp)
	movq	%rax, 528(%rsp)
	movdqu	%xmm0, 536(%rsp)
	movdqu	%xmm0, 552(%rsp)
	movq	$0, 568(%rsp)
	movq	%rax, 576(%rsp)
	movdqu	%xmm0, 584(%rsp)
	movq	%rax, 600(%rsp)
	movdqu	%xmm0, 608(%rsp)
	movq	%rax, 624(%rsp)
	movdqu	%xmm0, 632(%rsp)
	movq	%rax, 648(%rsp)
	movdqu	%xmm0, 656(%rsp)
	testq	%rdx, %rdx
	je	67f
	leaq	312(%rdi), %r12
	xorl	%esi, %esi
	movq	%rdi, 832(%rsp)
1:
	imulq	$312, %rsi, %rax
	movq	(%rdi,%rax), %rbp
	movq	8(%rdi,%rax), %r9
	movq	16(%rdi,%rax), %r14
	movq	24(%rdi,%rax), %rcx
	movq	%rcx, 56(%rsp)
	movq	32(%rdi,%rax), %rcx
	movq	%rcx, 40(%rsp)
	movq	40(%rdi,%rax), %rcx
	movq	%rcx, 264(%rsp)
	movq	48(%rdi,%rax), %rcx
	movq	%rcx, 208(%rsp)
	movq	64(%rdi,%rax), %rcx
	movq	%rcx, 272(%rsp)
	movq	72(%rdi,%rax), %rcx
	movq	%rcx, 128(%rsp)
	movq	80(%rdi,%rax), %rcx
	movq	%rcx, 64(%rsp)
	movq	88(%rdi,%rax), %rcx
	movq	%rcx, 448(%rsp)
	movq	96(%rdi,%rax), %rcx
	movq	%rcx, 80(%rsp)
	movq	520(%rsp), %rcx
	orq	488(%rsp), %rcx
	movq	104(%rdi,%rax), %rcx
	movq	%rcx, 160(%rsp)
	movq	112(%rdi,%rax), %rcx
	movq	%rcx, 256(%rsp)
	movq	120(%rdi,%rax), %rcx
	movq	%rcx, 344(%rsp)
	movq	128(%rdi,%rax), %rcx
	movq	%rcx, 104(%rsp)
	movq	136(%rdi,%rax), %rcx
	movq	%rcx, 680(%rsp)
	movq	144(%rdi,%rax), %rcx
	movq	%rcx, 200(%rsp)
	movq	160(%rdi,%rax), %rcx
	movq	%rcx, 248(%rsp)
	movq	168(%rdi,%rax), %rcx
	movq	%rcx, 280(%rsp)
	movq	176(%rdi,%rax), %rcx
	movq	%rcx, 112(%rsp)
	movq	184(%rdi,%rax), %rcx
	movq	%rcx, 456(%rsp)
	movq	192(%rdi,%rax), %rcx
	movq	%rcx, 192(%rsp)
	movq	208(%rdi,%rax), %rcx
	movq	%rcx, 240(%rsp)
	movq	216(%rdi,%rax), %rcx
	movq	%rcx, 152(%rsp)
	movq	224(%rdi,%rax), %rcx
	movq	%rcx, 328(%rsp)
	movq	232(%rdi,%rax), %rcx
	movq	%rcx, 336(%rsp)
	movq	240(%rdi,%rax), %rcx
	movq	%rcx, 184(%rsp)
	movq	256(%rdi,%rax), %rcx
	movq	%rcx, 232(%rsp)
	movq	264(%rdi,%rax), %rcx
	movq	%rcx, 120(%rsp)
	movq	272(%rdi,%rax), %rcx
	movq	%rcx, 296(%rsp)
	movq	280(%rdi,%rax), %rcx
	movq	%rcx, 304(%rsp)
	movq	288(%rdi,%rax), %rcx
	movq	%rcx, 176(%rsp)
	movq	304(%rdi,%rax), %rax
	movq	%rax, 224(%rsp)
	pxor	%xmm0, %xmm0
	movdqa	%xmm0, 1424(%rsp)
	movq	$0, 1440(%rsp)
	movdqa	%xmm0, 1392(%rsp)
	movq	$0, 1408(%rsp)
	movdqa	%xmm0, 1360(%rsp)
	movq	$0, 1376(%rsp)
	movdqa	%xmm0, 1328(%rsp)
	movq	$0, 1344(%rsp)
	movdqa	%xmm0, 688(%rsp)
	movdqa	%xmm0, 704(%rsp)
	movq	$0, 720(%rsp)
	movq	%rsi, 312(%rsp)
	leaq	1(%rsi), %rax
	movq	%rax, 840(%rsp)
	movq	%rdx, 320(%rsp)
	leaq	-1(%rdx), %rax
	movq	%rax, 856(%rsp)
	jne	2f
	movq	480(%rsp), %rdi
	movq	%rbp, 480(%rsp)
	movq	%r9, 488(%rsp)
	cmpq	$0, 496(%rsp)
	movq	%r14, 496(%rsp)
	je	24f
	callq	rattle_dealloc@PLT
	jmp	24f
	.p2align	4
2:
	testq	%r9, %r9
	je	23f
	xorl	%esi, %esi
	movq	%r9, %rdi
	movq	%r9, 88(%rsp)
	movq	%r12, 136(%rsp)
	movq	%r14, 144(%rsp)
	jmp	6f
	.p2align	4
3:
	addq	%rbp, %rax
	movq	896(%rsp), %r12
	movq	928(%rsp), %r15
	movzbl	952(%rsp), %ebx
	movq	960(%rsp), %r13
	movq	976(%rsp), %rsi
	movdqu	968(%rsp), %xmm1
	movl	9(%rax), %ecx
	movl	12(%rax), %edx
	movl	%edx, 475(%rsp)
	movl	%ecx, 472(%rsp)
	movups	40(%rax), %xmm0
	movaps	%xmm0, 1248(%rsp)
	movl	57(%rax), %ecx
	movl	60(%rax), %edx
	movl	%edx, 467(%rsp)
	movl	%ecx, 464(%rsp)
	movdqu	88(%rax), %xmm0
	movdqa	%xmm0, 1504(%rsp)
	movq	488(%rsp), %rax
	cmpq	%rax, 496(%rsp)
	je	22f
4:
	movq	480(%rsp), %rcx
	imulq	$104, %rax, %rdx
	movq	%r12, (%rcx,%rdx)
	movb	%r14b, 8(%rcx,%rdx)
	movl	472(%rsp), %esi
	movl	475(%rsp), %edi
	movl	%esi, 9(%rcx,%rdx)
	movl	%edi, 12(%rcx,%rdx)
	movq	96(%rsp), %rsi
	movq	%rsi, 16(%rcx,%rdx)
	movq	168(%rsp), %rsi
	movq	%rsi, 24(%rcx,%rdx)
	movq	%r15, 32(%rcx,%rdx)
	movaps	1248(%rsp), %xmm0
	movups	%xmm0, 40(%rcx,%rdx)
	movb	%bl, 56(%rcx,%rdx)
	movl	464(%rsp), %esi
	movl	467(%rsp), %edi
	movl	%esi, 57(%rcx,%rdx)
	movl	%edi, 60(%rcx,%rdx)
	movq	%r13, 64(%rcx,%rdx)
	movdqu	%xmm1, 72(%rcx,%rdx)
	movdqa	1504(%rsp), %xmm0
	movdqu	%xmm0, 88(%rcx,%rdx)
	incq	%rax
	movq	%rax, 488(%rsp)
	movq	136(%rsp), %r12
	movq	144(%rsp), %r14
5:
	movq	48(%rsp), %rdi
	testq	%rdi, %rdi
	movq	72(%rsp), %rsi
	je	23f
6:
	imulq	$104, %rsi, %rax
	movups	(%rbp,%rax), %xmm0
	movdqu	16(%rbp,%rax), %xmm1
	movdqu	32(%rbp,%rax), %xmm2
	movdqu	48(%rbp,%rax), %xmm3
	movaps	%xmm0, 896(%rsp)
	movdqa	%xmm1, 912(%rsp)
	movdqa	%xmm3, 944(%rsp)
	movq	96(%rbp,%rax), %rcx
	movq	%rcx, 992(%rsp)
	movups	80(%rbp,%rax), %xmm0
	movaps	%xmm0, 976(%rsp)
	movdqu	64(%rbp,%rax), %xmm0
	movdqa	%xmm0, 960(%rsp)
	movdqa	%xmm2, 928(%rsp)
	movzbl	904(%rsp), %r14d
	movq	912(%rsp), %rcx
	movq	920(%rsp), %rdx
	movq	%rcx, 96(%rsp)
	movq	%rdx, 168(%rsp)
	testb	%r14b, %r14b
	jne	7f
	movq	944(%rsp), %rdx
	leaq	912(%rsp), %rcx
7:
	incq	%rsi
	movq	%rsi, 72(%rsp)
	decq	%rdi
	movq	%rdi, 48(%rsp)
	cmpb	$1, 504(%rsp)
	jne	3b
	leaq	512(%rsp), %rsi
8:
	movq	(%rsi), %rsi
	movzwl	(%rsi), %r8d
	xorl	%edi, %edi
	testq	%r8, %r8
	je	18f
	.p2align	4
9:
	leaq	(%rdi,%rdi,2), %r9
	movq	8(%rsi,%r9,8), %r10
	movq	16(%rsi,%r9,8), %r9
	cmpq	%rdx, %r9
	movq	%rdx, %r11
	cmovbq	%r9, %r11
	xorl	%r13d, %r13d
	cmpq	$64, %r11
	jb	11f
	movq	%r11, %rbx
	.p2align	4
10:
	movdqu	(%rcx,%r13), %xmm0
	movdqu	16(%rcx,%r13), %xmm1
	movdqu	32(%rcx,%r13), %xmm2
	movdqu	48(%rcx,%r13), %xmm3
	movdqu	(%r10,%r13), %xmm4
	pcmpeqb	%xmm0, %xmm4
	movdqu	16(%r10,%r13), %xmm0
	pcmpeqb	%xmm1, %xmm0
	movdqu	32(%r10,%r13), %xmm1
	pcmpeqb	%xmm2, %xmm1
	pand	%xmm4, %xmm1
	movdqu	48(%r10,%r13), %xmm2
	pcmpeqb	%xmm3, %xmm2
	pand	%xmm0, %xmm2
	pand	%xmm1, %xmm2
	pmovmskb	%xmm2, %r15d
	cmpl	$65535, %r15d
	jne	11f
	addq	$64, %r13
	addq	$-64, %rbx
	cmpq	$63, %rbx
	ja	10b
11:
	movq	%r11, %rbx
	subq	%r13, %rbx
	cmpq	$8, %rbx
	jb	13f
	.p2align	4
12:
	movq	(%rcx,%r13), %r15
	cmpq	(%r10,%r13), %r15
	jne	13f
	addq	$8, %r13
	addq	$-8, %rbx
	cmpq	$7, %rbx
	ja	12b
13:
	cmpq	%r11, %r13
	jae	15f
	.p2align	4
14:
	movzbl	(%r10,%r13), %ebx
	cmpb	%bl, (%rcx,%r13)
	jne	16f
	incq	%r13
	cmpq	%r13, %r11
	jne	14b
15:
	cmpq	%r9, %rdx
	je	20f
16:
	jb	17f
	incq	%rdi
	cmpq	%r8, %rdi
	jne	9b
	movq	%r8, %rdi
17:
	shlq	$3, %rdi
	movq	88(%rsp), %r9
	cmpw	$0, 2(%rsi)
	jne	19f
	jmp	3b
	.p2align	4
18:
	cmpw	$0, 2(%rsi)
	je	3b
19:
	addq	%rdi, %rsi
	addq	$368, %rsi
	jmp	8b
	.p2align	4
20:
	movzbl	952(%rsp), %r15d
	movq	960(%rsp), %r13
	movq	976(%rsp), %rbx
	testb	%r14b, %r14b
	je	21f
	cmpq	$0, 928(%rsp)
	je	21f
	movq	96(%rsp), %rdi
	callq	rattle_dealloc@PLT
21:
	testb	%r15b, %r15b
	movq	144(%rsp), %r14
	movq	88(%rsp), %r9
	je	5b
	testq	%rbx, %rbx
	je	5b
	movq	%r13, %rdi
	callq	rattle_dealloc@PLT
	movq	88(%rsp), %r9
	jmp	5b
22:
	movq	%rsi, 1496(%rsp)
	movdqa	%xmm1, 1824(%rsp)
	leaq	480(%rsp), %rdi
	callq	"std_alloc::vec::Vec::grow_amortized::<#9f351709e7e1a03a>"
	testb	%al, %al
	je	206f
	movq	488(%rsp), %rax
	movq	88(%rsp), %r9
	movdqa	1824(%rsp), %xmm1
	jmp	4b
	.p2align	4
23:
	movq	%rbp, 1456(%rsp)
	movq	$0, 1464(%rsp)
	movq	%r14, 1472(%rsp)
	movq	%r9, 1480(%rsp)
	movq	$0, 1488(%rsp)
	leaq	1456(%rsp), %rdi
	callq	"std_alloc::vec::deque::VecDeque::drop::<#f76b5842e243a073>"
24:
	movq	56(%rsp), %rbx
	movq	40(%rsp), %rax
	movq	%rax, %r14
	testq	%rax, %rax
	je	26f
	.p2align	4
25:
	leaq	504(%rsp), %rdi
	movq	%rbx, %rsi
	callq	"mime_text::merging::types::Types::add"
	testb	%al, %al
	jne	209f
	addq	$48, %rbx
	decq	%r14
	jne	25b
26:
	movq	$0, 688(%rsp)
	pxor	%xmm0, %xmm0
	movdqa	%xmm0, 1248(%rsp)
	movdqa	%xmm0, 1264(%rsp)
	movq	$0, 1280(%rsp)
	movq	568(%rsp), %rax
	orq	536(%rsp), %rax
	jne	27f
	movq	528(%rsp), %rdi
	movq	128(%rsp), %rax
	movq	%rax, 528(%rsp)
	movq	64(%rsp), %rax
	movq	%rax, 536(%rsp)
	cmpq	$0, 544(%rsp)
	movq	448(%rsp), %rax
	movq	%rax, 544(%rsp)
	je	51f
	callq	rattle_dealloc@PLT
	jmp	51f
	.p2align	4
27:
	movq	%r12, 136(%rsp)
	cmpq	$0, 64(%rsp)
	movq	128(%rsp), %rdx
	je	50f
	movq	$0, 72(%rsp)
	movq	64(%rsp), %rax
	movq	%rax, 48(%rsp)
	jmp	31f
	.p2align	4
28:
	movq	720(%rsp), %r15
	movq	744(%rsp), %rbx
	movq	752(%rsp), %rbp
	movq	760(%rsp), %r13
	movq	536(%rsp), %rax
	cmpq	%rax, 544(%rsp)
	je	49f
29:
	movq	528(%rsp), %rcx
	leaq	(%rax,%rax,4), %rdx
	shlq	$4, %rdx
	movl	88(%rsp), %esi
	movl	%esi, (%rcx,%rdx)
	movq	%r14, 8(%rcx,%rdx)
	movq	%rdi, 16(%rcx,%rdx)
	movq	%r12, 24(%rcx,%rdx)
	movq	%r15, 32(%rcx,%rdx)
	leaq	1480(%rsp), %rsi
	movdqu	(%rsi), %xmm0
	movdqu	%xmm0, 40(%rcx,%rdx)
	movq	%rbx, 56(%rcx,%rdx)
	movq	%rbp, 64(%rcx,%rdx)
	movq	%r13, 72(%rcx,%rdx)
	incq	%rax
	movq	%rax, 536(%rsp)
30:
	cmpq	$0, 48(%rsp)
	movq	128(%rsp), %rdx
	je	50f
31:
	movq	72(%rsp), %rax
	leaq	(%rax,%rax,4), %rax
	shlq	$4, %rax
	movl	(%rdx,%rax), %esi
	movzbl	8(%rdx,%rax), %r14d
	movq	48(%rdx,%rax), %rcx
	movq	%rcx, 1488(%rsp)
	movups	32(%rdx,%rax), %xmm0
	movaps	%xmm0, 1472(%rsp)
	movups	16(%rdx,%rax), %xmm0
	movaps	%xmm0, 1456(%rsp)
	movl	%esi, 88(%rsp)
	movl	%esi, 688(%rsp)
	movq	%r14, 696(%rsp)
	movq	48(%rdx,%rax), %rcx
	leaq	704(%rsp), %rsi
	movq	%rcx, 32(%rsi)
	movups	16(%rdx,%rax), %xmm0
	movdqu	32(%rdx,%rax), %xmm1
	movdqu	%xmm1, 16(%rsi)
	movups	%xmm0, (%rsi)
	movq	72(%rdx,%rax), %rcx
	movq	%rcx, 56(%rsi)
	movdqu	56(%rdx,%rax), %xmm0
	movdqu	%xmm0, 40(%rsi)
	movq	704(%rsp), %rdi
	movq	712(%rsp), %r12
	movq	%rdi, %rax
	movq	%r12, %rcx
	testq	%r14, %r14
	jne	32f
	movq	736(%rsp), %rcx
	leaq	704(%rsp), %rax
32:
	incq	72(%rsp)
	decq	48(%rsp)
	cmpb	$1, 552(%rsp)
	jne	28b
	leaq	560(%rsp), %rdx
33:
	movq	(%rdx), %rdx
	movzwl	(%rdx), %r8d
	xorl	%esi, %esi
	testq	%r8, %r8
	je	43f
	.p2align	4
34:
	leaq	(%rsi,%rsi,2), %r9
	movq	8(%rdx,%r9,8), %r10
	movq	16(%rdx,%r9,8), %r9
	cmpq	%rcx, %r9
	movq	%rcx, %r11
	cmovbq	%r9, %r11
	xorl	%ebx, %ebx
	cmpq	$64, %r11
	jb	36f
	movq	%r11, %r13
	.p2align	4
35:
	movdqu	(%rax,%rbx), %xmm0
	movdqu	16(%rax,%rbx), %xmm1
	movdqu	32(%rax,%rbx), %xmm2
	movdqu	48(%rax,%rbx), %xmm3
	movdqu	(%r10,%rbx), %xmm4
	pcmpeqb	%xmm0, %xmm4
	movdqu	16(%r10,%rbx), %xmm0
	pcmpeqb	%xmm1, %xmm0
	movdqu	32(%r10,%rbx), %xmm1
	pcmpeqb	%xmm2, %xmm1
	pand	%xmm4, %xmm1
	movdqu	48(%r10,%rbx), %xmm2
	pcmpeqb	%xmm3, %xmm2
	pand	%xmm0, %xmm2
	pand	%xmm1, %xmm2
	pmovmskb	%xmm2, %ebp
	cmpl	$65535, %ebp
	jne	36f
	addq	$64, %rbx
	addq	$-64, %r13
	cmpq	$63, %r13
	ja	35b
36:
	movq	%r11, %r15
	subq	%rbx, %r15
	cmpq	$8, %r15
	jb	38f
	.p2align	4
37:
	movq	(%rax,%rbx), %r13
	cmpq	(%r10,%rbx), %r13
	jne	38f
	addq	$8, %rbx
	addq	$-8, %r15
	cmpq	$7, %r15
	ja	37b
38:
	cmpq	%r11, %rbx
	jae	40f
	.p2align	4
39:
	movzbl	(%r10,%rbx), %ebp
	cmpb	%bpl, (%rax,%rbx)
	jne	41f
	incq	%rbx
	cmpq	%rbx, %r11
	jne	39b
40:
	cmpq	%r9, %rcx
	je	45f
41:
	jb	42f
	incq	%rsi
	cmpq	%r8, %rsi
	jne	34b
	movq	%r8, %rsi
42:
	shlq	$3, %rsi
	cmpw	$0, 2(%rdx)
	jne	44f
	jmp	28b
	.p2align	4
43:
	cmpw	$0, 2(%rdx)
	je	28b
44:
	addq	%rsi, %rdx
	addq	$368, %rdx
	jmp	33b
	.p2align	4
45:
	movq	744(%rsp), %rbx
	movq	752(%rsp), %r12
	movq	760(%rsp), %r15
	testq	%r14, %r14
	je	46f
	cmpq	$0, 720(%rsp)
	je	46f
	callq	rattle_dealloc@PLT
46:
	testq	%r12, %r12
	je	48f
	movq	%rbx, %r14
	.p2align	4
47:
	movups	80(%r14), %xmm0
	movaps	%xmm0, 976(%rsp)
	movups	64(%r14), %xmm0
	movaps	%xmm0, 960(%rsp)
	movdqu	(%r14), %xmm0
	movdqu	16(%r14), %xmm1
	movdqu	32(%r14), %xmm2
	movdqu	48(%r14), %xmm3
	movdqa	%xmm3, 944(%rsp)
	movdqa	%xmm2, 928(%rsp)
	movdqa	%xmm1, 912(%rsp)
	movdqa	%xmm0, 896(%rsp)
	leaq	896(%rsp), %rdi
	callq	"mime_text::mime_base++magic++matchlet++Matchlet+Destruct::drop"
	addq	$96, %r14
	decq	%r12
	jne	47b
48:
	testq	%r15, %r15
	je	30b
	movq	%rbx, %rdi
	callq	rattle_dealloc@PLT
	jmp	30b
49:
	movq	%rdi, 96(%rsp)
	leaq	528(%rsp), %rdi
	callq	"std_alloc::vec::Vec::grow_amortized::<#aac2e341597f1126>"
	testb	%al, %al
	je	305f
	movq	536(%rsp), %rax
	movq	96(%rsp), %rdi
	jmp	29b
	.p2align	4
50:
	movq	%rdx, 1504(%rsp)
	movq	$0, 1512(%rsp)
	movq	448(%rsp), %rax
	movq	%rax, 1520(%rsp)
	movq	64(%rsp), %rax
	movq	%rax, 1528(%rsp)
	movq	$0, 1536(%rsp)
	leaq	1504(%rsp), %rdi
	callq	"std_alloc::vec::deque::VecDeque::drop::<#19687a60d315e203>"
	movq	136(%rsp), %r12
51:
	movq	80(%rsp), %rbx
	movq	160(%rsp), %rax
	movq	%rax, %r14
	testq	%rax, %rax
	je	53f
	.p2align	4
52:
	leaq	552(%rsp), %rdi
	movq	%rbx, %rsi
	callq	"mime_text::merging::types::Types::add"
	testb	%al, %al
	jne	310f
	addq	$48, %rbx
	decq	%r14
	jne	52b
53:
	movq	344(%rsp), %rax
	movq	%rax, 1424(%rsp)
	movq	104(%rsp), %rax
	movq	%rax, 1432(%rsp)
	movq	680(%rsp), %rax
	movq	%rax, 1440(%rsp)
	leaq	1424(%rsp), %rsi
	leaq	576(%rsp), %rdi
	callq	"mime_text::merging::append::<#5757887c02ee9d34>"
	testb	%al, %al
	jne	130f
	movq	280(%rsp), %rax
	movq	%rax, 1392(%rsp)
	movq	112(%rsp), %rax
	movq	%rax, 1400(%rsp)
	movq	456(%rsp), %rax
	movq	%rax, 1408(%rsp)
	leaq	1392(%rsp), %rsi
	leaq	600(%rsp), %rdi
	callq	"mime_text::merging::append::<#5757887c02ee9d34>"
	testb	%al, %al
	movq	312(%rsp), %r14
	jne	157f
	movq	152(%rsp), %rax
	movq	%rax, 1360(%rsp)
	movq	328(%rsp), %rax
	movq	%rax, 1368(%rsp)
	movq	336(%rsp), %rax
	movq	%rax, 1376(%rsp)
	leaq	1360(%rsp), %rsi
	leaq	624(%rsp), %rdi
	callq	"mime_text::merging::append::<#8c2796f1d9cd7278>"
	testb	%al, %al
	jne	178f
	movq	120(%rsp), %rax
	movq	%rax, 1328(%rsp)
	movq	296(%rsp), %rax
	movq	%rax, 1336(%rsp)
	movq	304(%rsp), %rax
	movq	%rax, 1344(%rsp)
	leaq	1328(%rsp), %rsi
	leaq	648(%rsp), %rdi
	callq	"mime_text::merging::append::<#8c2796f1d9cd7278>"
	testb	%al, %al
	jne	195f
	cmpq	$0, 224(%rsp)
	je	54f
	movq	176(%rsp), %rdi
	callq	rattle_dealloc@PLT
54:
	cmpq	$0, 232(%rsp)
	je	55f
	movq	184(%rsp), %rdi
	callq	rattle_dealloc@PLT
55:
	cmpq	$0, 240(%rsp)
	je	56f
	movq	192(%rsp), %rdi
	callq	rattle_dealloc@PLT
56:
	cmpq	$0, 248(%rsp)
	je	57f
	movq	200(%rsp), %rdi
	callq	rattle_dealloc@PLT
57:
	movq	160(%rsp), %rax
	testq	%rax, %rax
	je	60f
	movq	80(%rsp), %rbx
	jmp	59f
	.p2align	4
58:
	addq	$48, %rbx
	decq	%rax
	je	60f
59:
	cmpb	$0, (%rbx)
	je	58b
	cmpq	$0, 24(%rbx)
	je	58b
	movq	8(%rbx), %rdi
	movq	%rax, %r14
	callq	rattle_dealloc@PLT
	movq	%r14, %rax
	jmp	58b
	.p2align	4
60:
	cmpq	$0, 256(%rsp)
	je	61f
	movq	80(%rsp), %rdi
	callq	rattle_dealloc@PLT
61:
	cmpq	$0, 40(%rsp)
	je	64f
	movq	56(%rsp), %rbx
	jmp	63f
	.p2align	4
62:
	addq	$48, %rbx
	decq	40(%rsp)
	je	64f
63:
	cmpb	$0, (%rbx)
	je	62b
	cmpq	$0, 24(%rbx)
	je	62b
	movq	8(%rbx), %rdi
	callq	rattle_dealloc@PLT
	jmp	62b
	.p2align	4
64:
	cmpq	$0, 264(%rsp)
	je	65f
	movq	56(%rsp), %rdi
	callq	rattle_dealloc@PLT
65:
	cmpq	$0, 272(%rsp)
	je	66f
	movq	208(%rsp), %rdi
	callq	rattle_dealloc@PLT
66:
	addq	$312, %r12
	movq	840(%rsp), %rsi
	movq	856(%rsp), %rax
	movq	%rax, %rdx
	testq	%rax, %rax
	movq	832(%rsp), %rdi
	jne	1b
67:
	cmpq	$0, 848(%rsp)
	je	68f
	callq	rattle_dealloc@PLT
68:
	movq	496(%rsp), %rax
	movq	%rax, 1575(%rsp)
	movups	480(%rsp), %xmm0
	movups	%xmm0, 1559(%rsp)
	movzbl	504(%rsp), %eax
	movb	%al, 96(%rsp)
	movq	512(%rsp), %rax
	movq	%rax, 104(%rsp)
	movq	528(%rsp), %r13
	movq	536(%rsp), %rbp
	movq	544(%rsp), %rax
	movq	%rax, 112(%rsp)
	movzbl	552(%rsp), %eax
	movb	%al, 168(%rsp)
	movq	560(%rsp), %rax
	movq	%rax, 144(%rsp)
	movq	576(%rsp), %r15
	movq	584(%rsp), %r12
	movq	592(%rsp), %rcx
	movq	600(%rsp), %rbx
	movq	608(%rsp), %rax
	movq	%rax, 48(%rsp)
	movq	616(%rsp), %r14
	movq	624(%rsp), %rax
	movq	%rax, 88(%rsp)
	movq	632(%rsp), %rax
	movq	%rax, 72(%rsp)
	leaq	648(%rsp), %rax
	movups	(%rax), %xmm0
	movq	16(%rax), %rax
	movq	%rax, 1632(%rsp)
	movq	%rax, 432(%rsp)
	movq	1575(%rsp), %rax
	movq	%rax, 368(%rsp)
	movq	640(%rsp), %rax
	movq	%rax, 128(%rsp)
	movaps	%xmm0, 1616(%rsp)
	movaps	%xmm0, 416(%rsp)
	movdqu	1559(%rsp), %xmm0
	movdqa	%xmm0, 352(%rsp)
	pxor	%xmm0, %xmm0
	movdqa	%xmm0, 896(%rsp)
	movdqa	%xmm0, 912(%rsp)
	movdqa	%xmm0, 480(%rsp)
	movdqa	%xmm0, 496(%rsp)
	cmpq	$1, %r12
	movq	%rbp, 40(%rsp)
	ja	122f
	movq	%r15, 904(%rsp)
	movq	%r12, 912(%rsp)
	movq	%rcx, 1239(%rsp)
	movq	904(%rsp), %rax
	movq	%rax, 1223(%rsp)
	movq	912(%rsp), %rax
	movq	%rax, 1231(%rsp)
69:
	movq	1239(%rsp), %rax
	movq	%rax, 400(%rsp)
	movq	1223(%rsp), %rax
	movq	%rax, 384(%rsp)
	movq	1231(%rsp), %rax
	movq	%rax, 392(%rsp)
	pxor	%xmm0, %xmm0
	movdqa	%xmm0, 896(%rsp)
	movdqa	%xmm0, 912(%rsp)
	movdqa	%xmm0, 480(%rsp)
	movdqa	%xmm0, 496(%rsp)
	movq	48(%rsp), %r12
	cmpq	$1, %r12
	ja	126f
	movq	%rbx, 904(%rsp)
	movq	%r12, 912(%rsp)
	movq	%r14, 887(%rsp)
	movq	904(%rsp), %rax
	movq	%rax, 871(%rsp)
	movq	912(%rsp), %rax
	movq	%rax, 879(%rsp)
70:
	movq	887(%rsp), %rax
	movq	%rax, 784(%rsp)
	movq	871(%rsp), %rax
	movq	%rax, 768(%rsp)
	movq	879(%rsp), %rax
	movq	%rax, 776(%rsp)
	cmpq	$20, %rbp
	ja	77f
	cmpq	$2, %rbp
	jb	82f
	movl	$1, %eax
	movq	%r13, %rcx
	jmp	74f
71:
	xorl	%edi, %edi
72:
	movl	%edx, (%r13,%rdi)
	movq	%rsi, 8(%r13,%rdi)
	movaps	896(%rsp), %xmm0
	movdqa	912(%rsp), %xmm1
	movups	%xmm0, 16(%r13,%rdi)
	movdqu	%xmm1, 32(%r13,%rdi)
	movq	928(%rsp), %rdx
	movq	%rdx, 48(%r13,%rdi)
	movdqa	480(%rsp), %xmm0
	movdqu	%xmm0, 56(%r13,%rdi)
	movq	496(%rsp), %rdx
	movq	%rdx, 72(%r13,%rdi)
73:
	incq	%rax
	addq	$80, %rcx
	cmpq	%rbp, %rax
	je	82f
74:
	leaq	(%rax,%rax,4), %rsi
	shlq	$4, %rsi
	movl	-80(%r13,%rsi), %r8d
	movl	(%r13,%rsi), %edx
	cmpl	%edx, %r8d
	jae	73b
	leaq	(%rsi,%r13), %r9
	movq	%rax, %rdi
	leaq	(%rsi,%r13), %r10
	addq	$-80, %r10
	movzbl	8(%r9), %esi
	movq	48(%r9), %r11
	movq	%r11, 928(%rsp)
	movups	16(%r9), %xmm0
	movups	32(%r9), %xmm1
	movaps	%xmm1, 912(%rsp)
	movaps	%xmm0, 896(%rsp)
	movups	56(%r9), %xmm0
	movaps	%xmm0, 480(%rsp)
	movq	72(%r9), %r11
	movq	%r11, 496(%rsp)
	movzbl	8(%r10), %r11d
	movl	%r8d, (%r9)
	movq	%r11, 8(%r9)
	movq	48(%r10), %r8
	movq	%r8, 48(%r9)
	movups	16(%r10), %xmm0
	movdqu	32(%r10), %xmm1
	movdqu	%xmm1, 32(%r9)
	movups	%xmm0, 16(%r9)
	movq	72(%r10), %r8
	movq	%r8, 72(%r9)
	movdqu	56(%r10), %xmm0
	movdqu	%xmm0, 56(%r9)
	decq	%rdi
	je	71b
	movq	%rcx, %r8
	.p2align	4
75:
	movl	-80(%r8), %r9d
	cmpl	%edx, %r9d
	jae	76f
	decq	%rdi
	movzbl	-72(%r8), %r10d
	movl	%r9d, (%r8)
	movq	%r10, 8(%r8)
	movups	-64(%r8), %xmm0
	movdqu	-48(%r8), %xmm1
	movups	%xmm0, 16(%r8)
	movdqu	%xmm1, 32(%r8)
	movq	-32(%r8), %r9
	movq	%r9, 48(%r8)
	movdqu	-24(%r8), %xmm0
	movdqu	%xmm0, 56(%r8)
	movq	-8(%r8), %r9
	movq	%r9, 72(%r8)
	addq	$-80, %r8
	testq	%rdi, %rdi
	jne	75b
	xorl	%edi, %edi
76:
	shlq	$4, %rdi
	leaq	(%rdi,%rdi,4), %rdi
	jmp	72b
77:
	movl	(%r13), %r12d
	movl	80(%r13), %ebx
	leaq	160(%r13), %rax
	movl	$2, %r14d
	cmpl	%ebx, %r12d
	jae	79f
	.p2align	4
78:
	movl	-80(%rax), %ecx
	cmpl	(%rax), %ecx
	jae	80f
	incq	%r14
	addq	$80, %rax
	cmpq	%r14, %rbp
	jne	78b
	jmp	81f
	.p2align	4
79:
	movl	-80(%rax), %ecx
	cmpl	(%rax), %ecx
	jb	80f
	incq	%r14
	addq	$80, %rax
	cmpq	%r14, %rbp
	jne	79b
	jmp	82f
80:
	cmpq	%rbp, %r14
	jne	89f
	cmpl	%ebx, %r12d
	jae	82f
81:
	movq	%r13, %rdi
	movq	%rbp, %rsi
	callq	"core::slice::edits::slice+T::reverse::<25'mime_base::magic::Section>"
82:
	movq	%r13, 800(%rsp)
	movq	%rbp, 808(%rsp)
	movq	112(%rsp), %rax
	movq	%rax, 816(%rsp)
	movq	88(%rsp), %rax
	movq	%rax, 1296(%rsp)
	movq	72(%rsp), %rax
	movq	%rax, 1304(%rsp)
	movq	128(%rsp), %rax
	movq	%rax, 1312(%rsp)
	leaq	1648(%rsp), %rdi
	leaq	1296(%rsp), %rsi
	callq	"mime_text::merging::first::first_of_each::<#d8c223a5b86f943b>"
	cmpb	$0, 1648(%rsp)
	je	85f
	leaq	800(%rsp), %rdi
	callq	"std_alloc::vec::Vec::drop::<#19687a60d315e203>"
	leaq	768(%rsp), %rdi
	callq	"std_alloc::vec::Vec::drop::<#c9bf5f63ee5b37bf>"
	leaq	384(%rsp), %rdi
	callq	"std_alloc::vec::Vec::drop::<#c9bf5f63ee5b37bf>"
	leaq	352(%rsp), %rdi
	callq	"std_alloc::vec::Vec::drop::<#f76b5842e243a073>"
	leaq	416(%rsp), %rdi
	callq	"std_alloc::vec::Vec::drop::<#1e50bf88f4980553>"
	cmpb	$1, 168(%rsp)
	jne	84f
83:
	movq	144(%rsp), %rdi
	callq	"std_collections::btree::node::Node::destroy::<#6f699a0b3f3d5921>"
84:
	cmpb	$1, 96(%rsp)
	jne	380f
	movq	104(%rsp), %rdi
	callq	"std_collections::btree::node::Node::destroy::<#6f699a0b3f3d5921>"
	jmp	380f
85:
	leaq	1656(%rsp), %rbx
	leaq	1584(%rsp), %rdi
	leaq	416(%rsp), %rsi
	callq	"mime_text::merging::first::first_of_each::<#d8c223a5b86f943b>"
	cmpb	$0, 1584(%rsp)
	je	86f
	movq	%rbx, %rdi
	callq	"std_alloc::vec::Vec::drop::<#1e50bf88f4980553>"
	leaq	800(%rsp), %rdi
	callq	"std_alloc::vec::Vec::drop::<#19687a60d315e203>"
	leaq	768(%rsp), %rdi
	callq	"std_alloc::vec::Vec::drop::<#c9bf5f63ee5b37bf>"
	leaq	384(%rsp), %rdi
	callq	"std_alloc::vec::Vec::drop::<#c9bf5f63ee5b37bf>"
	leaq	352(%rsp), %rdi
	callq	"std_alloc::vec::Vec::drop::<#f76b5842e243a073>"
	cmpb	$1, 168(%rsp)
	je	83b
	jmp	84b
86:
	leaq	871(%rsp), %rax
	movq	368(%rsp), %rcx
	movq	%rcx, 1696(%rsp)
	movaps	352(%rsp), %xmm0
	movaps	%xmm0, 1680(%rsp)
	movq	400(%rsp), %rcx
	movq	%rcx, 1720(%rsp)
	movaps	384(%rsp), %xmm0
	movups	%xmm0, 1704(%rsp)
	movq	16(%rax), %rcx
	movq	%rcx, 1744(%rsp)
	movups	(%rax), %xmm0
	movaps	%xmm0, 1728(%rsp)
	movaps	800(%rsp), %xmm0
	movups	%xmm0, 1752(%rsp)
	movq	816(%rsp), %rax
	movq	%rax, 1768(%rsp)
	movq	16(%rbx), %rax
	movq	%rax, 1792(%rsp)
	movups	(%rbx), %xmm0
	movaps	%xmm0, 1776(%rsp)
	movdqu	1592(%rsp), %xmm0
	movdqu	%xmm0, 1800(%rsp)
	movq	1608(%rsp), %rax
	movq	%rax, 1816(%rsp)
	cmpb	$1, 168(%rsp)
	jne	87f
	movq	144(%rsp), %rdi
	callq	"std_collections::btree::node::Node::destroy::<#6f699a0b3f3d5921>"
87:
	cmpb	$1, 96(%rsp)
	jne	88f
	movq	104(%rsp), %rdi
	callq	"std_collections::btree::node::Node::destroy::<#6f699a0b3f3d5921>"
88:
	movq	216(%rsp), %rdi
	movb	$0, (%rdi)
	addq	$8, %rdi
	leaq	1680(%rsp), %rsi
	movl	$144, %edx
	callq	memcpy@PLT
	jmp	381f
89:
	movq	%rbp, %rax
	shlq	$4, %rax
	leaq	(%rax,%rax,4), %rdi
	testq	%rdi, %rdi
	js	90f
	movl	$8, %esi
	callq	rattle_alloc@PLT
	testb	$1, %al
	je	90f
	movq	%rdx, 48(%rsp)
	movq	%rdx, 688(%rsp)
	movq	%rbp, 696(%rsp)
	cmpq	$65, %rbp
	setae	%cl
	movq	%rbp, %rax
	shrq	%rax
	cmpq	%rax, %r14
	setae	%dl
	orb	%cl, %dl
	jne	382f
	bsrq	%rbp, %rcx
	xorl	$63, %ecx
	addl	%ecx, %ecx
	xorl	$126, %ecx
	leaq	688(%rsp), %r8
	movq	%r13, %rdi
	movq	%rbp, %rsi
	movq	%rbp, %rdx
	callq	"core::slice::sort::stable::quicksort::<#54047240e3f04dbb>"
	jmp	387f
90:
	xorl	%r14d, %r14d
	jmp	92f
	.p2align	4
91:
	incq	%r14
	cmpq	40(%rsp), %r14
	je	96f
92:
	movq	%r14, %rax
	shlq	$4, %rax
	leaq	(%rax,%rax,4), %rax
	movq	56(%r13,%rax), %rbx
	movq	64(%r13,%rax), %r12
	movq	72(%r13,%rax), %r15
	cmpb	$0, 8(%r13,%rax)
	je	93f
	cmpq	$0, 32(%r13,%rax)
	je	93f
	movq	16(%r13,%rax), %rdi
	callq	rattle_dealloc@PLT
93:
	testq	%r12, %r12
	je	95f
	movq	%rbx, %rbp
	.p2align	4
94:
	movups	80(%rbp), %xmm0
	movaps	%xmm0, 976(%rsp)
	movups	64(%rbp), %xmm0
	movaps	%xmm0, 960(%rsp)
	movdqu	(%rbp), %xmm0
	movdqu	16(%rbp), %xmm1
	movdqu	32(%rbp), %xmm2
	movdqu	48(%rbp), %xmm3
	movdqa	%xmm3, 944(%rsp)
	movdqa	%xmm2, 928(%rsp)
	movdqa	%xmm1, 912(%rsp)
	movdqa	%xmm0, 896(%rsp)
	leaq	896(%rsp), %rdi
	callq	"mime_text::mime_base++magic++matchlet++Matchlet+Destruct::drop"
	addq	$96, %rbp
	decq	%r12
	jne	94b
95:
	testq	%r15, %r15
	je	91b
	movq	%rbx, %rdi
	callq	rattle_dealloc@PLT
	jmp	91b
96:
	cmpq	$0, 112(%rsp)
	je	97f
	movq	%r13, %rdi
	callq	rattle_dealloc@PLT
97:
	movq	768(%rsp), %rbx
	movq	776(%rsp), %r12
	movq	784(%rsp), %rax
	movq	%rax, 40(%rsp)
	testq	%r12, %r12
	je	101f
	movq	%rbx, %r13
	jmp	99f
	.p2align	4
98:
	addq	$96, %r13
	decq	%r12
	je	101f
99:
	movzbl	48(%r13), %r15d
	movq	56(%r13), %r14
	movq	72(%r13), %rbp
	cmpb	$0, (%r13)
	je	100f
	cmpq	$0, 24(%r13)
	je	100f
	movq	8(%r13), %rdi
	callq	rattle_dealloc@PLT
100:
	testb	%r15b, %r15b
	je	98b
	testq	%rbp, %rbp
	je	98b
	movq	%r14, %rdi
	callq	rattle_dealloc@PLT
	jmp	98b
101:
	cmpq	$0, 40(%rsp)
	je	102f
	movq	%rbx, %rdi
	callq	rattle_dealloc@PLT
102:
	movq	384(%rsp), %rbx
	movq	392(%rsp), %r12
	movq	400(%rsp), %rax
	movq	%rax, 40(%rsp)
	testq	%r12, %r12
	je	106f
	movq	%rbx, %r13
	jmp	104f
	.p2align	4
103:
	addq	$96, %r13
	decq	%r12
	je	106f
104:
	movzbl	48(%r13), %r15d
	movq	56(%r13), %r14
	movq	72(%r13), %rbp
	cmpb	$0, (%r13)
	je	105f
	cmpq	$0, 24(%r13)
	je	105f
	movq	8(%r13), %rdi
	callq	rattle_dealloc@PLT
105:
	testb	%r15b, %r15b
	je	103b
	testq	%rbp, %rbp
	je	103b
	movq	%r14, %rdi
	callq	rattle_dealloc@PLT
	jmp	103b
106:
	cmpq	$0, 40(%rsp)
	je	107f
	movq	%rbx, %rdi
	callq	rattle_dealloc@PLT
107:
	movq	352(%rsp), %rbx
	movq	360(%rsp), %r12
	movq	368(%rsp), %rax
	movq	%rax, 40(%rsp)
	testq	%r12, %r12
	je	111f
	leaq	80(%rbx), %r13
	jmp	109f
	.p2align	4
108:
	addq	$104, %r13
	decq	%r12
	je	111f
109:
	movzbl	-24(%r13), %r15d
	movq	-16(%r13), %r14
	movq	(%r13), %rbp
	cmpb	$0, -72(%r13)
	je	110f
	cmpq	$0, -48(%r13)
	je	110f
	movq	-64(%r13), %rdi
	callq	rattle_dealloc@PLT
110:
	testb	%r15b, %r15b
	je	108b
	testq	%rbp, %rbp
	je	108b
	movq	%r14, %rdi
	callq	rattle_dealloc@PLT
	jmp	108b
111:
	cmpq	$0, 40(%rsp)
	je	112f
	movq	%rbx, %rdi
	callq	rattle_dealloc@PLT
112:
	movq	416(%rsp), %rbx
	movq	424(%rsp), %r12
	movq	432(%rsp), %rax
	movq	%rax, 40(%rsp)
	testq	%r12, %r12
	je	116f
	movq	%rbx, %r13
	jmp	114f
	.p2align	4
113:
	addq	$96, %r13
	decq	%r12
	je	116f
114:
	movzbl	48(%r13), %r15d
	movq	56(%r13), %r14
	movq	72(%r13), %rbp
	cmpb	$0, (%r13)
	je	115f
	cmpq	$0, 24(%r13)
	je	115f
	movq	8(%r13), %rdi
	callq	rattle_dealloc@PLT
115:
	testb	%r15b, %r15b
	je	113b
	testq	%rbp, %rbp
	je	113b
	movq	%r14, %rdi
	callq	rattle_dealloc@PLT
	jmp	113b
116:
	cmpq	$0, 40(%rsp)
	je	117f
	movq	%rbx, %rdi
	callq	rattle_dealloc@PLT
117:
	movq	72(%rsp), %r13
	testq	%r13, %r13
	movq	88(%rsp), %r12
	je	121f
	movq	%r12, %r14
	jmp	119f
	.p2align	4
118:
	addq	$96, %r14
	decq	%r13
	je	121f
119:
	movzbl	48(%r14), %ebp
	movq	56(%r14), %rbx
	movq	72(%r14), %r15
	cmpb	$0, (%r14)
	je	120f
	cmpq	$0, 24(%r14)
	je	120f
	movq	8(%r14), %rdi
	callq	rattle_dealloc@PLT
120:
	testb	%bpl, %bpl
	je	118b
	testq	%r15, %r15
	je	118b
	movq	%rbx, %rdi
	callq	rattle_dealloc@PLT
	jmp	118b
121:
	cmpq	$0, 128(%rsp)
	je	303f
	movq	%r12, %rdi
	jmp	302f
122:
	movq	%rcx, 56(%rsp)
	leaq	480(%rsp), %rdi
	movq	%r15, %rsi
	movq	%r12, %rdx
	callq	"mime_text::merging::first::first_marks::<#3e18f2f50398609e>"
	cmpb	$0, 480(%rsp)
	movq	%rbx, 136(%rsp)
	movq	%r14, 320(%rsp)
	je	247f
	movq	%r15, %rbx
	movq	%r15, %rdi
	movq	%r15, 64(%rsp)
	jmp	124f
	.p2align	4
123:
	addq	$96, %rbx
	decq	%r12
	je	156f
124:
	movzbl	48(%rbx), %r15d
	movq	56(%rbx), %r14
	movq	72(%rbx), %rbp
	cmpb	$0, (%rbx)
	je	125f
	cmpq	$0, 24(%rbx)
	je	125f
	movq	8(%rbx), %rdi
	callq	rattle_dealloc@PLT
	movq	64(%rsp), %rdi
125:
	testb	%r15b, %r15b
	je	123b
	testq	%rbp, %rbp
	je	123b
	movq	%r14, %rdi
	callq	rattle_dealloc@PLT
	movq	64(%rsp), %rdi
	jmp	123b
126:
	leaq	480(%rsp), %rdi
	movq	%rbx, %rsi
	movq	%r12, %rdx
	callq	"mime_text::merging::first::first_marks::<#6173b1e72a96d278>"
	cmpb	$0, 480(%rsp)
	je	274f
	movq	%r14, 320(%rsp)
	movq	%rbx, 136(%rsp)
	movq	%rbx, %r14
	jmp	128f
	.p2align	4
127:
	addq	$96, %r14
	decq	48(%rsp)
	je	194f
128:
	movzbl	48(%r14), %ebp
	movq	56(%r14), %rbx
	movq	72(%r14), %r12
	cmpb	$0, (%r14)
	je	129f
	cmpq	$0, 24(%r14)
	je	129f
	movq	8(%r14), %rdi
	callq	rattle_dealloc@PLT
129:
	testb	%bpl, %bpl
	je	127b
	testq	%r12, %r12
	je	127b
	movq	%rbx, %rdi
	callq	rattle_dealloc@PLT
	jmp	127b
130:
	movq	296(%rsp), %rax
	testq	%rax, %rax
	je	134f
	movq	120(%rsp), %r14
	jmp	132f
	.p2align	4
131:
	addq	$96, %r14
	decq	%rax
	je	134f
132:
	movzbl	48(%r14), %ebp
	movq	56(%r14), %rbx
	movq	72(%r14), %r15
	cmpb	$0, (%r14)
	je	133f
	cmpq	$0, 24(%r14)
	je	133f
	movq	8(%r14), %rdi
	movq	%rax, %r13
	callq	rattle_dealloc@PLT
	movq	%r13, %rax
133:
	testb	%bpl, %bpl
	je	131b
	testq	%r15, %r15
	je	131b
	movq	%rbx, %rdi
	movq	%rax, %rbx
	callq	rattle_dealloc@PLT
	movq	%rbx, %rax
	jmp	131b
134:
	cmpq	$0, 304(%rsp)
	je	135f
	movq	120(%rsp), %rdi
	callq	rattle_dealloc@PLT
135:
	cmpq	$0, 224(%rsp)
	je	136f
	movq	176(%rsp), %rdi
	callq	rattle_dealloc@PLT
136:
	movq	328(%rsp), %rax
	testq	%rax, %rax
	je	140f
	movq	152(%rsp), %r14
	jmp	138f
	.p2align	4
137:
	addq	$96, %r14
	decq	%rax
	je	140f
138:
	movzbl	48(%r14), %ebp
	movq	56(%r14), %rbx
	movq	72(%r14), %r15
	cmpb	$0, (%r14)
	je	139f
	cmpq	$0, 24(%r14)
	je	139f
	movq	8(%r14), %rdi
	movq	%rax, %r13
	callq	rattle_dealloc@PLT
	movq	%r13, %rax
139:
	testb	%bpl, %bpl
	je	137b
	testq	%r15, %r15
	je	137b
	movq	%rbx, %rdi
	movq	%rax, %rbx
	callq	rattle_dealloc@PLT
	movq	%rbx, %rax
	jmp	137b
140:
	cmpq	$0, 336(%rsp)
	je	141f
	movq	152(%rsp), %rdi
	callq	rattle_dealloc@PLT
141:
	cmpq	$0, 232(%rsp)
	je	142f
	movq	184(%rsp), %rdi
	callq	rattle_dealloc@PLT
142:
	cmpq	$0, 112(%rsp)
	je	146f
	movq	280(%rsp), %r14
	jmp	144f
	.p2align	4
143:
	addq	$96, %r14
	decq	112(%rsp)
	je	146f
144:
	movzbl	48(%r14), %ebp
	movq	56(%r14), %rbx
	movq	72(%r14), %r15
	cmpb	$0, (%r14)
	je	145f
	cmpq	$0, 24(%r14)
	je	145f
	movq	8(%r14), %rdi
	callq	rattle_dealloc@PLT
145:
	testb	%bpl, %bpl
	je	143b
	testq	%r15, %r15
	je	143b
	movq	%rbx, %rdi
	callq	rattle_dealloc@PLT
	jmp	143b
146:
	cmpq	$0, 456(%rsp)
	je	147f
	movq	280(%rsp), %rdi
	callq	rattle_dealloc@PLT
147:
	cmpq	$0, 240(%rsp)
	movq	312(%rsp), %r14
	je	148f
	movq	192(%rsp), %rdi
	callq	rattle_dealloc@PLT
148:
	cmpq	$0, 248(%rsp)
	je	149f
	movq	200(%rsp), %rdi
	callq	rattle_dealloc@PLT
149:
	movq	160(%rsp), %rax
	testq	%rax, %rax
	je	152f
	movq	80(%rsp), %rbx
	jmp	151f
	.p2align	4
150:
	addq	$48, %rbx
	decq	%rax
	je	152f
151:
	cmpb	$0, (%rbx)
	je	150b
	cmpq	$0, 24(%rbx)
	je	150b
	movq	8(%rbx), %rdi
	movq	%rax, %r15
	callq	rattle_dealloc@PLT
	movq	%r15, %rax
	jmp	150b
152:
	cmpq	$0, 256(%rsp)
	je	153f
	movq	80(%rsp), %rdi
	callq	rattle_dealloc@PLT
153:
	cmpq	$0, 40(%rsp)
	je	341f
	movq	56(%rsp), %rbx
	jmp	155f
	.p2align	4
154:
	addq	$48, %rbx
	decq	40(%rsp)
	je	341f
155:
	cmpb	$0, (%rbx)
	je	154b
	cmpq	$0, 24(%rbx)
	je	154b
	movq	8(%rbx), %rdi
	callq	rattle_dealloc@PLT
	jmp	154b
156:
	cmpq	$0, 56(%rsp)
	je	248f
	callq	rattle_dealloc@PLT
	jmp	248f
157:
	movq	296(%rsp), %rax
	testq	%rax, %rax
	je	161f
	movq	120(%rsp), %r14
	jmp	159f
	.p2align	4
158:
	addq	$96, %r14
	decq	%rax
	je	161f
159:
	movzbl	48(%r14), %ebp
	movq	56(%r14), %rbx
	movq	72(%r14), %r15
	cmpb	$0, (%r14)
	je	160f
	cmpq	$0, 24(%r14)
	je	160f
	movq	8(%r14), %rdi
	movq	%rax, %r13
	callq	rattle_dealloc@PLT
	movq	%r13, %rax
160:
	testb	%bpl, %bpl
	je	158b
	testq	%r15, %r15
	je	158b
	movq	%rbx, %rdi
	movq	%rax, %rbx
	callq	rattle_dealloc@PLT
	movq	%rbx, %rax
	jmp	158b
161:
	cmpq	$0, 304(%rsp)
	je	162f
	movq	120(%rsp), %rdi
	callq	rattle_dealloc@PLT
162:
	cmpq	$0, 224(%rsp)
	je	163f
	movq	176(%rsp), %rdi
	callq	rattle_dealloc@PLT
163:
	movq	328(%rsp), %rax
	testq	%rax, %rax
	je	167f
	movq	152(%rsp), %r14
	jmp	165f
	.p2align	4
164:
	addq	$96, %r14
	decq	%rax
	je	167f
165:
	movzbl	48(%r14), %ebp
	movq	56(%r14), %rbx
	movq	72(%r14), %r15
	cmpb	$0, (%r14)
	je	166f
	cmpq	$0, 24(%r14)
	je	166f
	movq	8(%r14), %rdi
	movq	%rax, %r13
	callq	rattle_dealloc@PLT
	movq	%r13, %rax
166:
	testb	%bpl, %bpl
	je	164b
	testq	%r15, %r15
	je	164b
	movq	%rbx, %rdi
	movq	%rax, %rbx
	callq	rattle_dealloc@PLT
	movq	%rbx, %rax
	jmp	164b
167:
	cmpq	$0, 336(%rsp)
	je	168f
	movq	152(%rsp), %rdi
	callq	rattle_dealloc@PLT
168:
	cmpq	$0, 232(%rsp)
	movq	312(%rsp), %r14
	je	169f
	movq	184(%rsp), %rdi
	callq	rattle_dealloc@PLT
169:
	cmpq	$0, 240(%rsp)
	je	170f
	movq	192(%rsp), %rdi
	callq	rattle_dealloc@PLT
170:
	cmpq	$0, 248(%rsp)
	je	171f
	movq	200(%rsp), %rdi
	callq	rattle_dealloc@PLT
171:
	movq	160(%rsp), %rax
	testq	%rax, %rax
	je	174f
	movq	80(%rsp), %rbx
	jmp	173f
	.p2align	4
172:
	addq	$48, %rbx
	decq	%rax
	je	174f
173:
	cmpb	$0, (%rbx)
	je	172b
	cmpq	$0, 24(%rbx)
	je	172b
	movq	8(%rbx), %rdi
	movq	%rax, %r15
	callq	rattle_dealloc@PLT
	movq	%r15, %rax
	jmp	172b
174:
	cmpq	$0, 256(%rsp)
	je	175f
	movq	80(%rsp), %rdi
	callq	rattle_dealloc@PLT
175:
	cmpq	$0, 40(%rsp)
	je	341f
	movq	56(%rsp), %rbx
	jmp	177f
	.p2align	4
176:
	addq	$48, %rbx
	decq	40(%rsp)
	je	341f
177:
	cmpb	$0, (%rbx)
	je	176b
	cmpq	$0, 24(%rbx)
	je	176b
	movq	8(%rbx), %rdi
	callq	rattle_dealloc@PLT
	jmp	176b
178:
	movq	296(%rsp), %rax
	testq	%rax, %rax
	je	182f
	movq	120(%rsp), %r14
	jmp	180f
	.p2align	4
179:
	addq	$96, %r14
	decq	%rax
	je	182f
180:
	movzbl	48(%r14), %ebp
	movq	56(%r14), %rbx
	movq	72(%r14), %r15
	cmpb	$0, (%r14)
	je	181f
	cmpq	$0, 24(%r14)
	je	181f
	movq	8(%r14), %rdi
	movq	%rax, %r13
	callq	rattle_dealloc@PLT
	movq	%r13, %rax
181:
	testb	%bpl, %bpl
	je	179b
	testq	%r15, %r15
	je	179b
	movq	%rbx, %rdi
	movq	%rax, %rbx
	callq	rattle_dealloc@PLT
	movq	%rbx, %rax
	jmp	179b
182:
	cmpq	$0, 304(%rsp)
	je	183f
	movq	120(%rsp), %rdi
	callq	rattle_dealloc@PLT
183:
	cmpq	$0, 224(%rsp)
	movq	312(%rsp), %r14
	je	184f
	movq	176(%rsp), %rdi
	callq	rattle_dealloc@PLT
184:
	cmpq	$0, 232(%rsp)
	je	185f
	movq	184(%rsp), %rdi
	callq	rattle_dealloc@PLT
185:
	cmpq	$0, 240(%rsp)
	je	186f
	movq	192(%rsp), %rdi
	callq	rattle_dealloc@PLT
186:
	cmpq	$0, 248(%rsp)
	je	187f
	movq	200(%rsp), %rdi
	callq	rattle_dealloc@PLT
187:
	movq	160(%rsp), %rax
	testq	%rax, %rax
	je	190f
	movq	80(%rsp), %rbx
	jmp	189f
	.p2align	4
188:
	addq	$48, %rbx
	decq	%rax
	je	190f
189:
	cmpb	$0, (%rbx)
	je	188b
	cmpq	$0, 24(%rbx)
	je	188b
	movq	8(%rbx), %rdi
	movq	%rax, %r15
	callq	rattle_dealloc@PLT
	movq	%r15, %rax
	jmp	188b
190:
	cmpq	$0, 256(%rsp)
	je	191f
	movq	80(%rsp), %rdi
	callq	rattle_dealloc@PLT
191:
	cmpq	$0, 40(%rsp)
	je	341f
	movq	56(%rsp), %rbx
	jmp	193f
	.p2align	4
192:
	addq	$48, %rbx
	decq	40(%rsp)
	je	341f
193:
	cmpb	$0, (%rbx)
	je	192b
	cmpq	$0, 24(%rbx)
	je	192b
	movq	8(%rbx), %rdi
	callq	rattle_dealloc@PLT
	jmp	192b
194:
	cmpq	$0, 320(%rsp)
	je	275f
	movq	136(%rsp), %rdi
	callq	rattle_dealloc@PLT
	jmp	275f
195:
	cmpq	$0, 224(%rsp)
	je	196f
	movq	176(%rsp), %rdi
	callq	rattle_dealloc@PLT
196:
	cmpq	$0, 232(%rsp)
	je	197f
	movq	184(%rsp), %rdi
	callq	rattle_dealloc@PLT
197:
	cmpq	$0, 240(%rsp)
	je	198f
	movq	192(%rsp), %rdi
	callq	rattle_dealloc@PLT
198:
	cmpq	$0, 248(%rsp)
	je	199f
	movq	200(%rsp), %rdi
	callq	rattle_dealloc@PLT
199:
	movq	160(%rsp), %rax
	testq	%rax, %rax
	je	202f
	movq	80(%rsp), %rbx
	jmp	201f
	.p2align	4
200:
	addq	$48, %rbx
	decq	%rax
	je	202f
201:
	cmpb	$0, (%rbx)
	je	200b
	cmpq	$0, 24(%rbx)
	je	200b
	movq	8(%rbx), %rdi
	movq	%rax, %r15
	callq	rattle_dealloc@PLT
	movq	%r15, %rax
	jmp	200b
202:
	cmpq	$0, 256(%rsp)
	je	203f
	movq	80(%rsp), %rdi
	callq	rattle_dealloc@PLT
203:
	cmpq	$0, 40(%rsp)
	je	341f
	movq	56(%rsp), %rbx
	jmp	205f
	.p2align	4
204:
	addq	$48, %rbx
	decq	40(%rsp)
	je	341f
205:
	cmpb	$0, (%rbx)
	je	204b
	cmpq	$0, 24(%rbx)
	je	204b
	movq	8(%rbx), %rdi
	callq	rattle_dealloc@PLT
	jmp	204b
206:
	testb	%bl, %bl
	sete	%al
	cmpq	$0, 1496(%rsp)
	sete	%bl
	orb	%al, %bl
	testb	%r14b, %r14b
	je	207f
	testq	%r15, %r15
	je	207f
	movq	96(%rsp), %rdi
	callq	rattle_dealloc@PLT
207:
	testb	%bl, %bl
	movq	136(%rsp), %r12
	movq	144(%rsp), %rbx
	jne	208f
	movq	%r13, %rdi
	callq	rattle_dealloc@PLT
208:
	movq	%rbp, 688(%rsp)
	movq	48(%rsp), %rax
	movq	%rax, 696(%rsp)
	movq	%rbx, 704(%rsp)
	movq	72(%rsp), %rax
	movq	%rax, 712(%rsp)
	movq	$0, 720(%rsp)
	leaq	688(%rsp), %rdi
	callq	"std_alloc::vec::deque::VecDeque::drop::<#f76b5842e243a073>"
209:
	movq	296(%rsp), %rax
	testq	%rax, %rax
	je	213f
	movq	120(%rsp), %r14
	jmp	211f
	.p2align	4
210:
	addq	$96, %r14
	decq	%rax
	je	213f
211:
	movzbl	48(%r14), %ebp
	movq	56(%r14), %rbx
	movq	72(%r14), %r15
	cmpb	$0, (%r14)
	je	212f
	cmpq	$0, 24(%r14)
	je	212f
	movq	8(%r14), %rdi
	movq	%rax, %r13
	callq	rattle_dealloc@PLT
	movq	%r13, %rax
212:
	testb	%bpl, %bpl
	je	210b
	testq	%r15, %r15
	je	210b
	movq	%rbx, %rdi
	movq	%rax, %rbx
	callq	rattle_dealloc@PLT
	movq	%rbx, %rax
	jmp	210b
213:
	cmpq	$0, 304(%rsp)
	je	214f
	movq	120(%rsp), %rdi
	callq	rattle_dealloc@PLT
214:
	cmpq	$0, 224(%rsp)
	je	215f
	movq	176(%rsp), %rdi
	callq	rattle_dealloc@PLT
215:
	movq	328(%rsp), %rax
	testq	%rax, %rax
	je	219f
	movq	152(%rsp), %r14
	jmp	217f
	.p2align	4
216:
	addq	$96, %r14
	decq	%rax
	je	219f
217:
	movzbl	48(%r14), %ebp
	movq	56(%r14), %rbx
	movq	72(%r14), %r15
	cmpb	$0, (%r14)
	je	218f
	cmpq	$0, 24(%r14)
	je	218f
	movq	8(%r14), %rdi
	movq	%rax, %r13
	callq	rattle_dealloc@PLT
	movq	%r13, %rax
218:
	testb	%bpl, %bpl
	je	216b
	testq	%r15, %r15
	je	216b
	movq	%rbx, %rdi
	movq	%rax, %rbx
	callq	rattle_dealloc@PLT
	movq	%rbx, %rax
	jmp	216b
219:
	cmpq	$0, 336(%rsp)
	je	220f
	movq	152(%rsp), %rdi
	callq	rattle_dealloc@PLT
220:
	cmpq	$0, 232(%rsp)
	je	221f
	movq	184(%rsp), %rdi
	callq	rattle_dealloc@PLT
221:
	cmpq	$0, 112(%rsp)
	je	225f
	movq	280(%rsp), %r14
	jmp	223f
	.p2align	4
222:
	addq	$96, %r14
	decq	112(%rsp)
	je	225f
223:
	movzbl	48(%r14), %ebp
	movq	56(%r14), %rbx
	movq	72(%r14), %r15
	cmpb	$0, (%r14)
	je	224f
	cmpq	$0, 24(%r14)
	je	224f
	movq	8(%r14), %rdi
	callq	rattle_dealloc@PLT
224:
	testb	%bpl, %bpl
	je	222b
	testq	%r15, %r15
	je	222b
	movq	%rbx, %rdi
	callq	rattle_dealloc@PLT
	jmp	222b
225:
	cmpq	$0, 456(%rsp)
	je	226f
	movq	280(%rsp), %rdi
	callq	rattle_dealloc@PLT
226:
	cmpq	$0, 240(%rsp)
	je	227f
	movq	192(%rsp), %rdi
	callq	rattle_dealloc@PLT
227:
	cmpq	$0, 104(%rsp)
	je	231f
	movq	344(%rsp), %r14
	jmp	229f
	.p2align	4
228:
	addq	$96, %r14
	decq	104(%rsp)
	je	231f
229:
	movzbl	48(%r14), %ebp
	movq	56(%r14), %rbx
	movq	72(%r14), %r15
	cmpb	$0, (%r14)
	je	230f
	cmpq	$0, 24(%r14)
	je	230f
	movq	8(%r14), %rdi
	callq	rattle_dealloc@PLT
230:
	testb	%bpl, %bpl
	je	228b
	testq	%r15, %r15
	je	228b
	movq	%rbx, %rdi
	callq	rattle_dealloc@PLT
	jmp	228b
231:
	cmpq	$0, 680(%rsp)
	je	232f
	movq	344(%rsp), %rdi
	callq	rattle_dealloc@PLT
232:
	movq	%r12, %rbp
	cmpq	$0, 248(%rsp)
	je	233f
	movq	200(%rsp), %rdi
	callq	rattle_dealloc@PLT
233:
	cmpq	$0, 64(%rsp)
	je	239f
	xorl	%r14d, %r14d
	jmp	235f
	.p2align	4
234:
	incq	%r14
	cmpq	64(%rsp), %r14
	je	239f
235:
	movq	%r14, %rax
	shlq	$4, %rax
	leaq	(%rax,%rax,4), %rax
	movq	128(%rsp), %rcx
	movq	56(%rcx,%rax), %rbx
	movq	64(%rcx,%rax), %r12
	movq	72(%rcx,%rax), %r15
	cmpb	$0, 8(%rcx,%rax)
	je	236f
	cmpq	$0, 32(%rcx,%rax)
	je	236f
	movq	16(%rcx,%rax), %rdi
	callq	rattle_dealloc@PLT
236:
	testq	%r12, %r12
	je	238f
	movq	%rbx, %r13
	.p2align	4
237:
	movups	80(%r13), %xmm0
	movaps	%xmm0, 976(%rsp)
	movups	64(%r13), %xmm0
	movaps	%xmm0, 960(%rsp)
	movdqu	(%r13), %xmm0
	movdqu	16(%r13), %xmm1
	movdqu	32(%r13), %xmm2
	movdqu	48(%r13), %xmm3
	movdqa	%xmm3, 944(%rsp)
	movdqa	%xmm2, 928(%rsp)
	movdqa	%xmm1, 912(%rsp)
	movdqa	%xmm0, 896(%rsp)
	leaq	896(%rsp), %rdi
	callq	"mime_text::mime_base++magic++matchlet++Matchlet+Destruct::drop"
	addq	$96, %r13
	decq	%r12
	jne	237b
238:
	testq	%r15, %r15
	je	234b
	movq	%rbx, %rdi
	callq	rattle_dealloc@PLT
	jmp	234b
239:
	cmpq	$0, 448(%rsp)
	movq	128(%rsp), %rdi
	je	240f
	callq	rattle_dealloc@PLT
240:
	movq	160(%rsp), %rax
	testq	%rax, %rax
	movq	%rbp, %r12
	movq	312(%rsp), %r14
	je	243f
	movq	80(%rsp), %rbx
	jmp	242f
	.p2align	4
241:
	addq	$48, %rbx
	decq	%rax
	je	243f
242:
	cmpb	$0, (%rbx)
	je	241b
	cmpq	$0, 24(%rbx)
	je	241b
	movq	8(%rbx), %rdi
	movq	%rax, %r15
	callq	rattle_dealloc@PLT
	movq	%r15, %rax
	jmp	241b
243:
	cmpq	$0, 256(%rsp)
	je	244f
	movq	80(%rsp), %rdi
	callq	rattle_dealloc@PLT
244:
	cmpq	$0, 40(%rsp)
	je	341f
	movq	56(%rsp), %rbx
	jmp	246f
	.p2align	4
245:
	addq	$48, %rbx
	decq	40(%rsp)
	je	341f
246:
	cmpb	$0, (%rbx)
	je	245b
	cmpq	$0, 24(%rbx)
	je	245b
	movq	8(%rbx), %rdi
	callq	rattle_dealloc@PLT
	jmp	245b
247:
	leaq	488(%rsp), %rdx
	movq	%r15, 688(%rsp)
	movq	%r12, 696(%rsp)
	movq	56(%rsp), %rax
	movq	%rax, 704(%rsp)
	leaq	896(%rsp), %rdi
	leaq	688(%rsp), %rsi
	callq	"mime_text::merging::first::marked::<#5757887c02ee9d34>"
	movdqu	904(%rsp), %xmm0
	movdqu	%xmm0, 1223(%rsp)
	movq	920(%rsp), %rax
	movq	%rax, 1239(%rsp)
	cmpb	$0, 896(%rsp)
	je	69b
248:
	movq	352(%rsp), %rax
	movq	%rax, 64(%rsp)
	movq	360(%rsp), %r12
	movq	368(%rsp), %rax
	movq	%rax, 56(%rsp)
	testq	%r12, %r12
	je	252f
	movq	64(%rsp), %rax
	leaq	80(%rax), %rbx
	jmp	250f
	.p2align	4
249:
	addq	$104, %rbx
	decq	%r12
	je	252f
250:
	movzbl	-24(%rbx), %r15d
	movq	-16(%rbx), %r14
	movq	(%rbx), %rbp
	cmpb	$0, -72(%rbx)
	je	251f
	cmpq	$0, -48(%rbx)
	je	251f
	movq	-64(%rbx), %rdi
	callq	rattle_dealloc@PLT
251:
	testb	%r15b, %r15b
	je	249b
	testq	%rbp, %rbp
	je	249b
	movq	%r14, %rdi
	callq	rattle_dealloc@PLT
	jmp	249b
252:
	cmpq	$0, 56(%rsp)
	je	253f
	movq	64(%rsp), %rdi
	callq	rattle_dealloc@PLT
253:
	movq	416(%rsp), %rax
	movq	%rax, 64(%rsp)
	movq	424(%rsp), %r12
	movq	432(%rsp), %rax
	movq	%rax, 56(%rsp)
	testq	%r12, %r12
	je	257f
	movq	64(%rsp), %rbp
	jmp	255f
	.p2align	4
254:
	addq	$96, %rbp
	decq	%r12
	je	257f
255:
	movzbl	48(%rbp), %r15d
	movq	56(%rbp), %r14
	movq	72(%rbp), %rbx
	cmpb	$0, (%rbp)
	je	256f
	cmpq	$0, 24(%rbp)
	je	256f
	movq	8(%rbp), %rdi
	callq	rattle_dealloc@PLT
256:
	testb	%r15b, %r15b
	je	254b
	testq	%rbx, %rbx
	je	254b
	movq	%r14, %rdi
	callq	rattle_dealloc@PLT
	jmp	254b
257:
	cmpq	$0, 56(%rsp)
	je	258f
	movq	64(%rsp), %rdi
	callq	rattle_dealloc@PLT
258:
	cmpq	$0, 72(%rsp)
	movq	48(%rsp), %r15
	je	262f
	movq	88(%rsp), %r14
	jmp	260f
	.p2align	4
259:
	addq	$96, %r14
	decq	72(%rsp)
	je	262f
260:
	movzbl	48(%r14), %ebp
	movq	56(%r14), %rbx
	movq	72(%r14), %r12
	cmpb	$0, (%r14)
	je	261f
	cmpq	$0, 24(%r14)
	je	261f
	movq	8(%r14), %rdi
	callq	rattle_dealloc@PLT
261:
	testb	%bpl, %bpl
	je	259b
	testq	%r12, %r12
	je	259b
	movq	%rbx, %rdi
	callq	rattle_dealloc@PLT
	jmp	259b
262:
	cmpq	$0, 128(%rsp)
	je	263f
	movq	88(%rsp), %rdi
	callq	rattle_dealloc@PLT
263:
	testq	%r15, %r15
	je	267f
	movq	136(%rsp), %r14
	jmp	265f
	.p2align	4
264:
	addq	$96, %r14
	decq	%r15
	je	267f
265:
	movzbl	48(%r14), %ebp
	movq	56(%r14), %rbx
	movq	72(%r14), %r12
	cmpb	$0, (%r14)
	je	266f
	cmpq	$0, 24(%r14)
	je	266f
	movq	8(%r14), %rdi
	callq	rattle_dealloc@PLT
266:
	testb	%bpl, %bpl
	je	264b
	testq	%r12, %r12
	je	264b
	movq	%rbx, %rdi
	callq	rattle_dealloc@PLT
	jmp	264b
267:
	cmpq	$0, 320(%rsp)
	je	268f
	movq	136(%rsp), %rdi
	callq	rattle_dealloc@PLT
268:
	cmpq	$0, 40(%rsp)
	je	301f
	xorl	%r14d, %r14d
	jmp	270f
	.p2align	4
269:
	incq	%r14
	cmpq	40(%rsp), %r14
	je	301f
270:
	movq	%r14, %rax
	shlq	$4, %rax
	leaq	(%rax,%rax,4), %rax
	movq	56(%r13,%rax), %rbx
	movq	64(%r13,%rax), %r12
	movq	72(%r13,%rax), %r15
	cmpb	$0, 8(%r13,%rax)
	je	271f
	cmpq	$0, 32(%r13,%rax)
	je	271f
	movq	16(%r13,%rax), %rdi
	callq	rattle_dealloc@PLT
271:
	testq	%r12, %r12
	je	273f
	movq	%rbx, %rbp
	.p2align	4
272:
	movups	80(%rbp), %xmm0
	movaps	%xmm0, 976(%rsp)
	movups	64(%rbp), %xmm0
	movaps	%xmm0, 960(%rsp)
	movdqu	(%rbp), %xmm0
	movdqu	16(%rbp), %xmm1
	movdqu	32(%rbp), %xmm2
	movdqu	48(%rbp), %xmm3
	movdqa	%xmm3, 944(%rsp)
	movdqa	%xmm2, 928(%rsp)
	movdqa	%xmm1, 912(%rsp)
	movdqa	%xmm0, 896(%rsp)
	leaq	896(%rsp), %rdi
	callq	"mime_text::mime_base++magic++matchlet++Matchlet+Destruct::drop"
	addq	$96, %rbp
	decq	%r12
	jne	272b
273:
	testq	%r15, %r15
	je	269b
	movq	%rbx, %rdi
	callq	rattle_dealloc@PLT
	jmp	269b
274:
	leaq	488(%rsp), %rdx
	movq	%rbx, 688(%rsp)
	movq	%r12, 696(%rsp)
	movq	%r14, 704(%rsp)
	leaq	896(%rsp), %rdi
	leaq	688(%rsp), %rsi
	callq	"mime_text::merging::first::marked::<#5757887c02ee9d34>"
	movdqu	904(%rsp), %xmm0
	movdqu	%xmm0, 871(%rsp)
	movq	920(%rsp), %rax
	movq	%rax, 887(%rsp)
	cmpb	$0, 896(%rsp)
	je	70b
275:
	movq	384(%rsp), %rax
	movq	%rax, 48(%rsp)
	movq	392(%rsp), %r12
	movq	400(%rsp), %rax
	movq	%rax, 64(%rsp)
	testq	%r12, %r12
	je	279f
	movq	48(%rsp), %rbp
	jmp	277f
	.p2align	4
276:
	addq	$96, %rbp
	decq	%r12
	je	279f
277:
	movzbl	48(%rbp), %ebx
	movq	56(%rbp), %r14
	movq	72(%rbp), %r15
	cmpb	$0, (%rbp)
	je	278f
	cmpq	$0, 24(%rbp)
	je	278f
	movq	8(%rbp), %rdi
	callq	rattle_dealloc@PLT
278:
	testb	%bl, %bl
	je	276b
	testq	%r15, %r15
	je	276b
	movq	%r14, %rdi
	callq	rattle_dealloc@PLT
	jmp	276b
279:
	cmpq	$0, 64(%rsp)
	je	280f
	movq	48(%rsp), %rdi
	callq	rattle_dealloc@PLT
280:
	movq	352(%rsp), %rax
	movq	%rax, 48(%rsp)
	movq	360(%rsp), %r12
	movq	368(%rsp), %rax
	movq	%rax, 64(%rsp)
	testq	%r12, %r12
	je	284f
	movq	48(%rsp), %rax
	leaq	80(%rax), %r15
	jmp	282f
	.p2align	4
281:
	addq	$104, %r15
	decq	%r12
	je	284f
282:
	movzbl	-24(%r15), %ebx
	movq	-16(%r15), %r14
	movq	(%r15), %rbp
	cmpb	$0, -72(%r15)
	je	283f
	cmpq	$0, -48(%r15)
	je	283f
	movq	-64(%r15), %rdi
	callq	rattle_dealloc@PLT
283:
	testb	%bl, %bl
	je	281b
	testq	%rbp, %rbp
	je	281b
	movq	%r14, %rdi
	callq	rattle_dealloc@PLT
	jmp	281b
284:
	cmpq	$0, 64(%rsp)
	je	285f
	movq	48(%rsp), %rdi
	callq	rattle_dealloc@PLT
285:
	movq	416(%rsp), %rax
	movq	%rax, 48(%rsp)
	movq	424(%rsp), %r12
	movq	432(%rsp), %rax
	movq	%rax, 64(%rsp)
	testq	%r12, %r12
	je	289f
	movq	48(%rsp), %rbp
	jmp	287f
	.p2align	4
286:
	addq	$96, %rbp
	decq	%r12
	je	289f
287:
	movzbl	48(%rbp), %ebx
	movq	56(%rbp), %r14
	movq	72(%rbp), %r15
	cmpb	$0, (%rbp)
	je	288f
	cmpq	$0, 24(%rbp)
	je	288f
	movq	8(%rbp), %rdi
	callq	rattle_dealloc@PLT
288:
	testb	%bl, %bl
	je	286b
	testq	%r15, %r15
	je	286b
	movq	%r14, %rdi
	callq	rattle_dealloc@PLT
	jmp	286b
289:
	cmpq	$0, 64(%rsp)
	je	290f
	movq	48(%rsp), %rdi
	callq	rattle_dealloc@PLT
290:
	cmpq	$0, 72(%rsp)
	movq	88(%rsp), %r12
	je	294f
	movq	%r12, %r14
	jmp	292f
	.p2align	4
291:
	addq	$96, %r14
	decq	72(%rsp)
	je	294f
292:
	movzbl	48(%r14), %ebp
	movq	56(%r14), %rbx
	movq	72(%r14), %r15
	cmpb	$0, (%r14)
	je	293f
	cmpq	$0, 24(%r14)
	je	293f
	movq	8(%r14), %rdi
	callq	rattle_dealloc@PLT
293:
	testb	%bpl, %bpl
	je	291b
	testq	%r15, %r15
	je	291b
	movq	%rbx, %rdi
	callq	rattle_dealloc@PLT
	jmp	291b
294:
	cmpq	$0, 128(%rsp)
	je	295f
	movq	%r12, %rdi
	callq	rattle_dealloc@PLT
295:
	cmpq	$0, 40(%rsp)
	je	301f
	xorl	%r14d, %r14d
	jmp	297f
	.p2align	4
296:
	incq	%r14
	cmpq	40(%rsp), %r14
	je	301f
297:
	movq	%r14, %rax
	shlq	$4, %rax
	leaq	(%rax,%rax,4), %rax
	movq	56(%r13,%rax), %rbx
	movq	64(%r13,%rax), %r12
	movq	72(%r13,%rax), %r15
	cmpb	$0, 8(%r13,%rax)
	je	298f
	cmpq	$0, 32(%r13,%rax)
	je	298f
	movq	16(%r13,%rax), %rdi
	callq	rattle_dealloc@PLT
298:
	testq	%r12, %r12
	je	300f
	movq	%rbx, %rbp
	.p2align	4
299:
	movups	80(%rbp), %xmm0
	movaps	%xmm0, 976(%rsp)
	movups	64(%rbp), %xmm0
	movaps	%xmm0, 960(%rsp)
	movdqu	(%rbp), %xmm0
	movdqu	16(%rbp), %xmm1
	movdqu	32(%rbp), %xmm2
	movdqu	48(%rbp), %xmm3
	movdqa	%xmm3, 944(%rsp)
	movdqa	%xmm2, 928(%rsp)
	movdqa	%xmm1, 912(%rsp)
	movdqa	%xmm0, 896(%rsp)
	leaq	896(%rsp), %rdi
	callq	"mime_text::mime_base++magic++matchlet++Matchlet+Destruct::drop"
	addq	$96, %rbp
	decq	%r12
	jne	299b
300:
	testq	%r15, %r15
	je	296b
	movq	%rbx, %rdi
	callq	rattle_dealloc@PLT
	jmp	296b
301:
	cmpq	$0, 112(%rsp)
	je	303f
	movq	%r13, %rdi
302:
	callq	rattle_dealloc@PLT
303:
	cmpb	$1, 168(%rsp)
	movq	104(%rsp), %rbx
	jne	304f
	movq	144(%rsp), %rdi
	callq	"std_collections::btree::node::Node::destroy::<#6f699a0b3f3d5921>"
304:
	cmpb	$1, 96(%rsp)
	jne	380f
	movq	%rbx, %rdi
	callq	"std_collections::btree::node::Node::destroy::<#6f699a0b3f3d5921>"
	jmp	380f
305:
	testq	%r14, %r14
	movq	96(%rsp), %rdi
	je	306f
	testq	%r15, %r15
	je	306f
	callq	rattle_dealloc@PLT
306:
	testq	%rbp, %rbp
	movq	136(%rsp), %r12
	je	308f
	movq	%rbx, %r14
307:
	movups	80(%r14), %xmm0
	movaps	%xmm0, 976(%rsp)
	movups	64(%r14), %xmm0
	movaps	%xmm0, 960(%rsp)
	movdqu	(%r14), %xmm0
	movdqu	16(%r14), %xmm1
	movdqu	32(%r14), %xmm2
	movdqu	48(%r14), %xmm3
	movdqa	%xmm3, 944(%rsp)
	movdqa	%xmm2, 928(%rsp)
	movdqa	%xmm1, 912(%rsp)
	movdqa	%xmm0, 896(%rsp)
	leaq	896(%rsp), %rdi
	callq	"mime_text::mime_base++magic++matchlet++Matchlet+Destruct::drop"
	addq	$96, %r14
	decq	%rbp
	jne	307b
308:
	testq	%r13, %r13
	je	309f
	movq	%rbx, %rdi
	callq	rattle_dealloc@PLT
309:
	movq	128(%rsp), %rax
	movq	%rax, 1248(%rsp)
	movq	48(%rsp), %rax
	movq	%rax, 1256(%rsp)
	movq	448(%rsp), %rax
	movq	%rax, 1264(%rsp)
	movq	72(%rsp), %rax
	movq	%rax, 1272(%rsp)
	movq	$0, 1280(%rsp)
	leaq	1248(%rsp), %rdi
	callq	"std_alloc::vec::deque::VecDeque::drop::<#19687a60d315e203>"
310:
	movq	296(%rsp), %rax
	testq	%rax, %rax
	je	314f
	movq	120(%rsp), %r14
	jmp	312f
	.p2align	4
311:
	addq	$96, %r14
	decq	%rax
	je	314f
312:
	movzbl	48(%r14), %ebp
	movq	56(%r14), %rbx
	movq	72(%r14), %r15
	cmpb	$0, (%r14)
	je	313f
	cmpq	$0, 24(%r14)
	je	313f
	movq	8(%r14), %rdi
	movq	%rax, %r13
	callq	rattle_dealloc@PLT
	movq	%r13, %rax
313:
	testb	%bpl, %bpl
	je	311b
	testq	%r15, %r15
	je	311b
	movq	%rbx, %rdi
	movq	%rax, %rbx
	callq	rattle_dealloc@PLT
	movq	%rbx, %rax
	jmp	311b
314:
	cmpq	$0, 304(%rsp)
	je	315f
	movq	120(%rsp), %rdi
	callq	rattle_dealloc@PLT
315:
	cmpq	$0, 224(%rsp)
	je	316f
	movq	176(%rsp), %rdi
	callq	rattle_dealloc@PLT
316:
	movq	328(%rsp), %rax
	testq	%rax, %rax
	je	320f
	movq	152(%rsp), %r14
	jmp	318f
	.p2align	4
317:
	addq	$96, %r14
	decq	%rax
	je	320f
318:
	movzbl	48(%r14), %ebp
	movq	56(%r14), %rbx
	movq	72(%r14), %r15
	cmpb	$0, (%r14)
	je	319f
	cmpq	$0, 24(%r14)
	je	319f
	movq	8(%r14), %rdi
	movq	%rax, %r13
	callq	rattle_dealloc@PLT
	movq	%r13, %rax
319:
	testb	%bpl, %bpl
	je	317b
	testq	%r15, %r15
	je	317b
	movq	%rbx, %rdi
	movq	%rax, %rbx
	callq	rattle_dealloc@PLT
	movq	%rbx, %rax
	jmp	317b
320:
	cmpq	$0, 336(%rsp)
	je	321f
	movq	152(%rsp), %rdi
	callq	rattle_dealloc@PLT
321:
	cmpq	$0, 232(%rsp)
	je	322f
	movq	184(%rsp), %rdi
	callq	rattle_dealloc@PLT
322:
	cmpq	$0, 112(%rsp)
	je	326f
	movq	280(%rsp), %r14
	jmp	324f
	.p2align	4
323:
	addq	$96, %r14
	decq	112(%rsp)
	je	326f
324:
	movzbl	48(%r14), %ebp
	movq	56(%r14), %rbx
	movq	72(%r14), %r15
	cmpb	$0, (%r14)
	je	325f
	cmpq	$0, 24(%r14)
	je	325f
	movq	8(%r14), %rdi
	callq	rattle_dealloc@PLT
325:
	testb	%bpl, %bpl
	je	323b
	testq	%r15, %r15
	je	323b
	movq	%rbx, %rdi
	callq	rattle_dealloc@PLT
	jmp	323b
326:
	cmpq	$0, 456(%rsp)
	je	327f
	movq	280(%rsp), %rdi
	callq	rattle_dealloc@PLT
327:
	cmpq	$0, 240(%rsp)
	je	328f
	movq	192(%rsp), %rdi
	callq	rattle_dealloc@PLT
328:
	cmpq	$0, 104(%rsp)
	je	332f
	movq	344(%rsp), %r14
	jmp	330f
	.p2align	4
329:
	addq	$96, %r14
	decq	104(%rsp)
	je	332f
330:
	movzbl	48(%r14), %ebp
	movq	56(%r14), %rbx
	movq	72(%r14), %r15
	cmpb	$0, (%r14)
	je	331f
	cmpq	$0, 24(%r14)
	je	331f
	movq	8(%r14), %rdi
	callq	rattle_dealloc@PLT
331:
	testb	%bpl, %bpl
	je	329b
	testq	%r15, %r15
	je	329b
	movq	%rbx, %rdi
	callq	rattle_dealloc@PLT
	jmp	329b
332:
	cmpq	$0, 680(%rsp)
	je	333f
	movq	344(%rsp), %rdi
	callq	rattle_dealloc@PLT
333:
	cmpq	$0, 248(%rsp)
	movq	312(%rsp), %r14
	je	334f
	movq	200(%rsp), %rdi
	callq	rattle_dealloc@PLT
334:
	movq	160(%rsp), %rax
	testq	%rax, %rax
	je	337f
	movq	80(%rsp), %rbx
	jmp	336f
	.p2align	4
335:
	addq	$48, %rbx
	decq	%rax
	je	337f
336:
	cmpb	$0, (%rbx)
	je	335b
	cmpq	$0, 24(%rbx)
	je	335b
	movq	8(%rbx), %rdi
	movq	%rax, %r15
	callq	rattle_dealloc@PLT
	movq	%r15, %rax
	jmp	335b
337:
	cmpq	$0, 256(%rsp)
	je	338f
	movq	80(%rsp), %rdi
	callq	rattle_dealloc@PLT
338:
	cmpq	$0, 40(%rsp)
	je	341f
	movq	56(%rsp), %rbx
	jmp	340f
	.p2align	4
339:
	addq	$48, %rbx
	decq	40(%rsp)
	je	341f
340:
	cmpb	$0, (%rbx)
	je	339b
	cmpq	$0, 24(%rbx)
	je	339b
	movq	8(%rbx), %rdi
	callq	rattle_dealloc@PLT
	jmp	339b
341:
	cmpq	$0, 264(%rsp)
	je	342f
	movq	56(%rsp), %rdi
	callq	rattle_dealloc@PLT
342:
	cmpq	$0, 272(%rsp)
	je	343f
	movq	208(%rsp), %rdi
	callq	rattle_dealloc@PLT
343:
	cmpq	$0, 856(%rsp)
	movq	320(%rsp), %rax
	je	345f
	addq	%rax, %r14
	cmpq	%r14, 840(%rsp)
	jae	345f
	movl	$1, %r14d
	.p2align	4
344:
	leaq	896(%rsp), %rbx
	movl	$312, %edx
	movq	%rbx, %rdi
	movq	%r12, %rsi
	callq	memcpy@PLT
	movq	%rbx, %rdi
	callq	"mime_text::mime_text++merging++DirFiles+Destruct::drop"
	incq	%r14
	addq	$312, %r12
	cmpq	%r14, 320(%rsp)
	jne	344b
345:
	cmpq	$0, 848(%rsp)
	je	346f
	movq	832(%rsp), %rdi
	callq	rattle_dealloc@PLT
346:
	movq	480(%rsp), %r14
	movq	488(%rsp), %r13
	movq	496(%rsp), %rax
	movq	%rax, 72(%rsp)
	movzbl	504(%rsp), %eax
	movb	%al, 40(%rsp)
	movq	512(%rsp), %rax
	movq	%rax, 48(%rsp)
	testq	%r13, %r13
	je	350f
	leaq	80(%r14), %rbx
	jmp	348f
	.p2align	4
347:
	addq	$104, %rbx
	decq	%r13
	je	350f
348:
	movzbl	-24(%rbx), %r12d
	movq	-16(%rbx), %r15
	movq	(%rbx), %rbp
	cmpb	$0, -72(%rbx)
	je	349f
	cmpq	$0, -48(%rbx)
	je	349f
	movq	-64(%rbx), %rdi
	callq	rattle_dealloc@PLT
349:
	testb	%r12b, %r12b
	je	347b
	testq	%rbp, %rbp
	je	347b
	movq	%r15, %rdi
	callq	rattle_dealloc@PLT
	jmp	347b
350:
	cmpq	$0, 72(%rsp)
	je	351f
	movq	%r14, %rdi
	callq	rattle_dealloc@PLT
351:
	cmpb	$1, 40(%rsp)
	jne	352f
	movq	48(%rsp), %rdi
	callq	"std_collections::btree::node::Node::destroy::<#6f699a0b3f3d5921>"
352:
	movq	528(%rsp), %r14
	movq	536(%rsp), %rcx
	movq	544(%rsp), %rax
	movq	%rax, 48(%rsp)
	movzbl	552(%rsp), %eax
	movb	%al, 72(%rsp)
	movq	560(%rsp), %rax
	movq	%rax, 88(%rsp)
	movq	%rcx, 40(%rsp)
	testq	%rcx, %rcx
	je	358f
	xorl	%ebx, %ebx
	jmp	354f
	.p2align	4
353:
	incq	%rbx
	cmpq	40(%rsp), %rbx
	je	358f
354:
	movq	%rbx, %rax
	shlq	$4, %rax
	leaq	(%rax,%rax,4), %rax
	movq	56(%r14,%rax), %r13
	movq	64(%r14,%rax), %r12
	movq	72(%r14,%rax), %rbp
	cmpb	$0, 8(%r14,%rax)
	je	355f
	cmpq	$0, 32(%r14,%rax)
	je	355f
	movq	16(%r14,%rax), %rdi
	callq	rattle_dealloc@PLT
355:
	testq	%r12, %r12
	je	357f
	movq	%r13, %r15
	.p2align	4
356:
	movups	80(%r15), %xmm0
	movaps	%xmm0, 976(%rsp)
	movups	64(%r15), %xmm0
	movaps	%xmm0, 960(%rsp)
	movdqu	(%r15), %xmm0
	movdqu	16(%r15), %xmm1
	movdqu	32(%r15), %xmm2
	movdqu	48(%r15), %xmm3
	movdqa	%xmm3, 944(%rsp)
	movdqa	%xmm2, 928(%rsp)
	movdqa	%xmm1, 912(%rsp)
	movdqa	%xmm0, 896(%rsp)
	leaq	896(%rsp), %rdi
	callq	"mime_text::mime_base++magic++matchlet++Matchlet+Destruct::drop"
	addq	$96, %r15
	decq	%r12
	jne	356b
357:
	testq	%rbp, %rbp
	je	353b
	movq	%r13, %rdi
	callq	rattle_dealloc@PLT
	jmp	353b
358:
	cmpq	$0, 48(%rsp)
	je	359f
	movq	%r14, %rdi
	callq	rattle_dealloc@PLT
359:
	cmpb	$1, 72(%rsp)
	jne	360f
	movq	88(%rsp), %rdi
	callq	"std_collections::btree::node::Node::destroy::<#6f699a0b3f3d5921>"
360:
	movq	576(%rsp), %rbx
	movq	584(%rsp), %r12
	movq	592(%rsp), %rax
	movq	%rax, 40(%rsp)
	testq	%r12, %r12
	je	364f
	movq	%rbx, %r13
	jmp	362f
	.p2align	4
361:
	addq	$96, %r13
	decq	%r12
	je	364f
362:
	movzbl	48(%r13), %r15d
	movq	56(%r13), %r14
	movq	72(%r13), %rbp
	cmpb	$0, (%r13)
	je	363f
	cmpq	$0, 24(%r13)
	je	363f
	movq	8(%r13), %rdi
	callq	rattle_dealloc@PLT
363:
	testb	%r15b, %r15b
	je	361b
	testq	%rbp, %rbp
	je	361b
	movq	%r14, %rdi
	callq	rattle_dealloc@PLT
	jmp	361b
364:
	cmpq	$0, 40(%rsp)
	je	365f
	movq	%rbx, %rdi
	callq	rattle_dealloc@PLT
365:
	movq	600(%rsp), %rbx
	movq	608(%rsp), %r12
	movq	616(%rsp), %rax
	movq	%rax, 40(%rsp)
	testq	%r12, %r12
	je	369f
	movq	%rbx, %r13
	jmp	367f
	.p2align	4
366:
	addq	$96, %r13
	decq	%r12
	je	369f
367:
	movzbl	48(%r13), %r15d
	movq	56(%r13), %r14
	movq	72(%r13), %rbp
	cmpb	$0, (%r13)
	je	368f
	cmpq	$0, 24(%r13)
	je	368f
	movq	8(%r13), %rdi
	callq	rattle_dealloc@PLT
368:
	testb	%r15b, %r15b
	je	366b
	testq	%rbp, %rbp
	je	366b
	movq	%r14, %rdi
	callq	rattle_dealloc@PLT
	jmp	366b
369:
	cmpq	$0, 40(%rsp)
	je	370f
	movq	%rbx, %rdi
	callq	rattle_dealloc@PLT
370:
	movq	624(%rsp), %rbx
	movq	632(%rsp), %r12
	movq	640(%rsp), %rax
	movq	%rax, 40(%rsp)
	testq	%r12, %r12
	je	374f
	movq	%rbx, %r13
	jmp	372f
	.p2align	4
371:
	addq	$96, %r13
	decq	%r12
	je	374f
372:
	movzbl	48(%r13), %r15d
	movq	56(%r13), %r14
	movq	72(%r13), %rbp
	cmpb	$0, (%r13)
	je	373f
	cmpq	$0, 24(%r13)
	je	373f
	movq	8(%r13), %rdi
	callq	rattle_dealloc@PLT
373:
	testb	%r15b, %r15b
	je	371b
	testq	%rbp, %rbp
	je	371b
	movq	%r14, %rdi
	callq	rattle_dealloc@PLT
	jmp	371b
374:
	cmpq	$0, 40(%rsp)
	je	375f
	movq	%rbx, %rdi
	callq	rattle_dealloc@PLT
375:
	movq	648(%rsp), %rbx
	movq	656(%rsp), %r12
	movq	664(%rsp), %rax
	movq	%rax, 40(%rsp)
	testq	%r12, %r12
	je	379f
	movq	%rbx, %r13
	jmp	377f
	.p2align	4
376:
	addq	$96, %r13
	decq	%r12
	je	379f
377:
	movzbl	48(%r13), %r15d
	movq	56(%r13), %r14
	movq	72(%r13), %rbp
	cmpb	$0, (%r13)
	je	378f
	cmpq	$0, 24(%r13)
	je	378f
	movq	8(%r13), %rdi
	callq	rattle_dealloc@PLT
378:
	testb	%r15b, %r15b
	je	376b
	testq	%rbp, %rbp
	je	376b
	movq	%r14, %rdi
	callq	rattle_dealloc@PLT
	jmp	376b
379:
	cmpq	$0, 40(%rsp)
	je	380f
	movq	%rbx, %rdi
	callq	rattle_dealloc@PLT
380:
	movq	216(%rsp), %rax
	movb	$1, (%rax)
	pxor	%xmm0, %xmm0
	movdqu	%xmm0, 8(%rax)
	movdqu	%xmm0, 24(%rax)
	movdqu	%xmm0, 40(%rax)
	movdqu	%xmm0, 56(%rax)
	movdqu	%xmm0, 72(%rax)
	movdqu	%xmm0, 88(%rax)
	movdqu	%xmm0, 104(%rax)
	movdqu	%xmm0, 120(%rax)
	movdqu	%xmm0, 136(%rax)
381:
	addq	$1848, %rsp
	popq	%rbx
	popq	%r12
	popq	%r13
	popq	%r14
	popq	%r15
	popq	%rbp
	retq
382:
	pxor	%xmm0, %xmm0
	movdqa	%xmm0, 912(%rsp)
	movdqa	%xmm0, 896(%rsp)
	movq	$0, 928(%rsp)
	movl	$64, %r15d
	cmpq	$4097, %rbp
	jb	384f
	movabsq	$4294967296, %rdx
	xorl	%ecx, %ecx
	movq	40(%rsp), %r8
383:
	movq	%rcx, %rsi
	addq	%rdx, %rcx
	shrq	%rcx
	movq	%rcx, %rdi
	imulq	%rcx, %rdi
	cmpq	%r8, %rdi
	cmovaq	%rcx, %rdx
	cmovaq	%rsi, %rcx
	leaq	1(%rcx), %rsi
	cmpq	%rdx, %rsi
	jb	383b
	cmpq	$65, %rcx
	movl	$64, %r15d
	cmovaeq	%rcx, %r15
384:
	cmpq	%r15, %rax
	cmovbq	%rax, %r15
	movabsq	$4611686018427387904, %rax
	xorl	%edx, %edx
	divq	40(%rsp)
	movq	%rax, %rbp
	incq	%rbp
	cmpq	%r15, %r14
	setae	%al
	movq	%r15, %r8
	cmovaq	%r14, %r8
	cmpl	%ebx, %r12d
	jae	385f
	cmpq	%r15, %r14
	jb	385f
	movq	%r13, %rdi
	movq	%r14, %rsi
	callq	"core::slice::edits::slice+T::reverse::<25'mime_base::magic::Section>"
	movb	$1, %al
	movq	%r14, %r8
385:
	leaq	688(%rsp), %rcx
	movq	%rcx, 24(%rsp)
	movq	%rbp, 16(%rsp)
	movq	%r15, 8(%rsp)
	movl	$0, (%rsp)
	movzbl	%al, %r9d
	leaq	896(%rsp), %rdi
	movq	%r13, %rsi
	movq	40(%rsp), %rdx
	xorl	%ecx, %ecx
	callq	"core::slice::sort::runs::climb::<#54047240e3f04dbb>"
	testb	$1, 904(%rsp)
	jne	386f
	movq	896(%rsp), %rdx
	movl	$127, %eax
	bsrq	%rdx, %rax
	xorl	$63, %eax
	addl	%eax, %eax
	movl	$126, %ecx
	subl	%eax, %ecx
	leaq	688(%rsp), %r8
	movq	%r13, %rdi
	movq	%rdx, %rsi
	callq	"core::slice::sort::stable::quicksort::<#54047240e3f04dbb>"
386:
	movq	40(%rsp), %rbp
387:
	movq	48(%rsp), %rdi
	callq	rattle_dealloc@PLT
	jmp	82b
388:
	.size	"mime_text::merging::merge", 388b-"mime_text::merging::merge"

	.text
	.p2align	4
	.type	"mime_text::merging::types::Types::add",@function
"mime_text::merging::types::Types::add":
	pushq	%rbp
	pushq	%r15
	pushq	%r14
	pushq	%r13
	pushq	%r12
	pushq	%rbx
	subq	$376, %rsp
	movq	%rdi, %r14
	cmpb	$0, (%rsi)
	je	3f
	movq	8(%rsi), %r12
	addq	$16, %rsi
	movq	(%rsi), %rbx
	testq	%rbx, %rbx
	je	4f
1:
	movb	$1, %r13b
	js	33f
	movl	$1, %esi
	movq	%rbx, %rdi
	callq	rattle_alloc@PLT
	testb	$1, %al
	je	33f
	movq	%rdx, %r15
	movq	%r15, %rcx
	subq	%r12, %rcx
	cmpq	%rbx, %rcx
	jb	5f
2:
	movq	%r15, %rdi
	movq	%r12, %rsi
	movq	%rbx, %rdx
	callq	memmove@PLT
	jmp	14f
3:
	leaq	8(%rsi), %r12
	addq	$40, %rsi
	movq	(%rsi), %rbx
	testq	%rbx, %rbx
	jne	1b
4:
	leaq	31(%rsp), %r15
	movq	%r15, %rcx
	subq	%r12, %rcx
	cmpq	%rbx, %rcx
	jae	2b
5:
	xorl	%eax, %eax
	cmpq	$4, %rbx
	jb	10f
	cmpq	$32, %rcx
	jb	10f
	cmpq	$32, %rbx
	jae	6f
	xorl	%eax, %eax
	jmp	8f
6:
	movq	%rbx, %rax
	andq	$-32, %rax
	xorl	%ecx, %ecx
	.p2align	4
7:
	movdqu	(%r12,%rcx), %xmm0
	movdqu	16(%r12,%rcx), %xmm1
	movdqu	%xmm0, (%r15,%rcx)
	movdqu	%xmm1, 16(%r15,%rcx)
	addq	$32, %rcx
	cmpq	%rcx, %rax
	jne	7b
	cmpq	%rax, %rbx
	je	14f
	testb	$28, %bl
	je	10f
8:
	movq	%rax, %rcx
	movq	%rbx, %rax
	andq	$-4, %rax
	.p2align	4
9:
	movl	(%r12,%rcx), %edx
	movl	%edx, (%r15,%rcx)
	addq	$4, %rcx
	cmpq	%rcx, %rax
	jne	9b
	cmpq	%rax, %rbx
	je	14f
10:
	movq	%rbx, %rdx
	movq	%rax, %rcx
	andq	$3, %rdx
	je	12f
	movq	%rax, %rcx
	.p2align	4
11:
	movzbl	(%r12,%rcx), %esi
	movb	%sil, (%r15,%rcx)
	incq	%rcx
	decq	%rdx
	jne	11b
12:
	subq	%rbx, %rax
	cmpq	$-4, %rax
	ja	14f
	.p2align	4
13:
	movzbl	(%r12,%rcx), %eax
	movb	%al, (%r15,%rcx)
	movzbl	1(%r12,%rcx), %eax
	movb	%al, 1(%r15,%rcx)
	movzbl	2(%r12,%rcx), %eax
	movb	%al, 2(%r15,%rcx)
	movzbl	3(%r12,%rcx), %eax
	movb	%al, 3(%r15,%rcx)
	addq	$4, %rcx
	cmpq	%rcx, %rbx
	jne	13b
14:
	cmpb	$1, (%r14)
	jne	15f
	movq	8(%r14), %rdx
	jmp	16f
15:
	movl	$368, %edi
	movl	$8, %esi
	callq	rattle_alloc@PLT
	testb	$1, %al
	je	32f
	movl	$0, (%rdx)
	movzbl	(%r14), %eax
	movq	$1, (%r14)
	movq	%rdx, 8(%r14)
	cmpb	$1, %al
	je	69f
16:
	movq	%r14, 72(%rsp)
	leaq	8(%r14), %rax
	movq	%rax, 8(%rsp)
	movzwl	2(%rdx), %eax
	movl	$15, %ebp
	subq	%rax, %rbp
	movq	%rax, 40(%rsp)
	movl	%eax, %r13d
	negb	%r13b
	xorl	%r8d, %r8d
	movq	%rdx, %rdi
	movq	$0, 16(%rsp)
	movq	%rdx, 64(%rsp)
	movq	%rdx, (%rsp)
	movq	%rbp, 32(%rsp)
	xorl	%esi, %esi
	movq	%rdi, %rcx
	movzwl	(%rdi), %edi
	testq	%rdi, %rdi
	je	27f
17:
	movq	%r8, %rdx
	xorl	%eax, %eax
	.p2align	4
18:
	leaq	(%rax,%rax,2), %r8
	movq	8(%rcx,%r8,8), %r9
	movq	16(%rcx,%r8,8), %r8
	cmpq	%rbx, %r8
	movq	%rbx, %r14
	cmovbq	%r8, %r14
	xorl	%r11d, %r11d
	cmpq	$64, %r14
	jb	20f
	movq	%r14, %r10
	.p2align	4
19:
	movdqu	(%r15,%r11), %xmm0
	movdqu	16(%r15,%r11), %xmm1
	movdqu	32(%r15,%r11), %xmm2
	movdqu	48(%r15,%r11), %xmm3
	movdqu	(%r9,%r11), %xmm4
	pcmpeqb	%xmm0, %xmm4
	movdqu	16(%r9,%r11), %xmm0
	pcmpeqb	%xmm1, %xmm0
	movdqu	32(%r9,%r11), %xmm1
	pcmpeqb	%xmm2, %xmm1
	pand	%xmm4, %xmm1
	movdqu	48(%r9,%r11), %xmm2
	pcmpeqb	%xmm3, %xmm2
	pand	%xmm0, %xmm2
	pand	%xmm1, %xmm2
	pmovmskb	%xmm2, %r12d
	cmpl	$65535, %r12d
	jne	20f
	addq	$64, %r11
	addq	$-64, %r10
	cmpq	$63, %r10
	ja	19b
20:
	movq	%r14, %r10
	subq	%r11, %r10
	cmpq	$8, %r10
	jb	22f
	.p2align	4
21:
	movq	(%r15,%r11), %r12
	cmpq	(%r9,%r11), %r12
	jne	22f
	addq	$8, %r11
	addq	$-8, %r10
	cmpq	$7, %r10
	ja	21b
22:
	cmpq	%r14, %r11
	jae	24f
	.p2align	4
23:
	movzbl	(%r9,%r11), %r10d
	cmpb	%r10b, (%r15,%r11)
	jne	25f
	incq	%r11
	cmpq	%r11, %r14
	jne	23b
24:
	cmpq	%r8, %rbx
	je	29f
25:
	jb	26f
	incq	%rax
	cmpq	%rdi, %rax
	jne	18b
	movq	%rdi, %rax
26:
	movq	%rdx, %r8
	jmp	28f
	.p2align	4
27:
	xorl	%eax, %eax
28:
	shlq	$4, %rsi
	addq	%rax, %rsi
	incq	%rbp
	cmpw	$0, 2(%rcx)
	je	31f
	movq	368(%rcx,%rax,8), %rdi
	incq	%r8
	incb	%r13b
	movq	%rax, 16(%rsp)
	movq	%rcx, (%rsp)
	movq	%rdi, %rcx
	movzwl	(%rdi), %edi
	testq	%rdi, %rdi
	jne	17b
	jmp	27b
29:
	andl	$15, %eax
	movq	40(%rsp), %rcx
	addq	%rbp, %rcx
	cmpq	$15, %rcx
	movq	(%rsp), %rcx
	movq	16(%rsp), %rdx
	leaq	368(%rcx,%rdx,8), %rcx
	cmoveq	8(%rsp), %rcx
	movq	(%rcx), %rcx
	movzwl	(%rcx), %ecx
	cmpl	%ecx, %eax
	jae	69f
	testq	%rbx, %rbx
	je	30f
	movq	%r15, %rdi
	callq	rattle_dealloc@PLT
30:
	xorl	%r13d, %r13d
	jmp	33f
31:
	movabsq	$9223372036854775806, %rax
	movq	72(%rsp), %rcx
	cmpq	%rax, 16(%rcx)
	jbe	34f
32:
	movb	$1, %r13b
	testq	%rbx, %rbx
	je	33f
	movq	%r15, %rdi
	callq	rattle_dealloc@PLT
33:
	movl	%r13d, %eax
	addq	$376, %rsp
	popq	%rbx
	popq	%r12
	popq	%r13
	popq	%r14
	popq	%r15
	popq	%rbp
	retq
34:
	movq	%rbp, %rcx
	movq	32(%rsp), %r9
	subq	%r9, %rcx
	cmpq	$1, %rcx
	movq	(%rsp), %rax
	movq	16(%rsp), %rdi
	leaq	368(%rax,%rdi,8), %rax
	cmoveq	8(%rsp), %rax
	movq	(%rax), %rax
	cmpw	$14, (%rax)
	ja	35f
	shlq	$3, %rdi
	movq	72(%rsp), %r12
	jmp	66f
35:
	movq	64(%rsp), %rdx
	cmpw	$15, (%rdx)
	movq	%r9, %rax
	movq	%r9, %rdi
	jae	63f
36:
	pxor	%xmm0, %xmm0
	movdqa	%xmm0, 48(%rsp)
	movq	%rbp, %rcx
	subq	%rax, %rcx
	movq	%rcx, 192(%rsp)
	jbe	40f
	movl	%ebp, %ecx
	subl	%eax, %ecx
	addq	%rdi, %r8
	subq	%rax, %r8
	testb	$3, %cl
	je	38f
	subb	%al, %r13b
	movzbl	%r13b, %ecx
	andl	$3, %ecx
37:
	movl	%esi, %edi
	andb	$15, %dil
	movb	%dil, 47(%rsp,%rbp)
	decq	%rbp
	shrq	$4, %rsi
	decq	%rcx
	jne	37b
38:
	cmpq	$3, %r8
	jb	40f
39:
	movl	%esi, %ecx
	andb	$15, %cl
	movb	%cl, 47(%rsp,%rbp)
	movl	%esi, %ecx
	shrb	$4, %cl
	movb	%cl, 46(%rsp,%rbp)
	movl	%esi, %ecx
	shrl	$8, %ecx
	andb	$15, %cl
	movb	%cl, 45(%rsp,%rbp)
	movl	%esi, %ecx
	shrl	$12, %ecx
	andb	$15, %cl
	movb	%cl, 44(%rsp,%rbp)
	addq	$-4, %rbp
	shrq	$16, %rsi
	cmpq	%rbp, %rax
	jb	39b
40:
	movl	$16, %r12d
	subq	%rax, %r12
	cmpq	$2, %r12
	jb	65f
	leaq	(%rsp,%rax), %r8
	addq	$48, %r8
	movq	8(%rsp), %rsi
	jmp	44f
41:
	movq	200(%rsp), %rcx
	incl	%ecx
	movb	%cl, (%r8)
	addb	$-8, %al
	movb	%al, 1(%r8)
42:
	movq	32(%rsp), %r12
43:
	movzbl	%cl, %ecx
	leaq	(%rdx,%rcx,8), %rsi
	addq	$368, %rsi
	incq	%r8
	cmpq	$2, %r12
	leaq	-1(%r12), %r12
	jbe	64f
44:
	movzbl	(%r8), %edi
	movl	%edi, %ecx
	movq	(%rsi), %rdx
	movq	368(%rdx,%rdi,8), %rax
	cmpw	$15, (%rax)
	jb	43b
	movq	%r8, 40(%rsp)
	movq	%rdi, 16(%rsp)
	movq	%rsi, (%rsp)
	movq	%rcx, 200(%rsp)
	movzwl	2(%rdx), %r14d
	decq	%r14
	je	45f
	movl	$496, %edi
	jmp	46f
45:
	movl	$368, %edi
46:
	movl	$8, %esi
	callq	rattle_alloc@PLT
	testb	$1, %al
	je	67f
	movq	%rdx, %r13
	movw	%r14w, 2(%rdx)
	leaq	8(%rdx), %rdi
	movq	(%rsp), %rax
	movq	(%rax), %rax
	pxor	%xmm0, %xmm0
	movdqa	%xmm0, 288(%rsp)
	movq	$0, 304(%rsp)
	movzwl	(%rax), %edx
	xorl	%ecx, %ecx
	xorl	%esi, %esi
	cmpw	$0, 2(%rax)
	leaq	1(%rdx), %r8
	setne	%sil
	cmoveq	%rcx, %r8
	shll	$4, %esi
	leaq	368(%rax), %r10
	leaq	8(%rax), %r9
	movq	%r9, 208(%rsp)
	movq	%rdx, 216(%rsp)
	movq	$15, 224(%rsp)
	movq	%r10, 232(%rsp)
	movq	%rdx, 240(%rsp)
	movq	$15, 248(%rsp)
	movq	%r10, 64(%rsp)
	movq	%r10, 256(%rsp)
	movq	%r8, 264(%rsp)
	movq	%rsi, 272(%rsp)
	movq	%rax, 280(%rsp)
	movdqa	%xmm0, 160(%rsp)
	movq	$0, 176(%rsp)
	movq	16(%rsp), %rdx
	movq	368(%rax,%rdx,8), %rax
	movdqa	%xmm0, 352(%rsp)
	movq	$0, 368(%rsp)
	movzwl	2(%rax), %r14d
	movzwl	(%rax), %r8d
	leaq	1(%r8), %rdx
	xorl	%esi, %esi
	testw	%r14w, %r14w
	setne	%sil
	cmoveq	%rcx, %rdx
	shll	$4, %esi
	leaq	368(%rax), %rcx
	leaq	8(%rax), %r9
	movq	%r9, 80(%rsp)
	movq	$15, 96(%rsp)
	movq	%rcx, 104(%rsp)
	movq	$15, 120(%rsp)
	movq	%rcx, 128(%rsp)
	movq	%rdx, 136(%rsp)
	movq	%rsi, 144(%rsp)
	movq	%rax, 152(%rsp)
	leaq	-8(%r8), %r9
	leaq	200(%rax), %rsi
	leaq	-64(,%r8,8), %rcx
	leaq	(%rcx,%rcx,2), %rdx
	movq	%rdi, %rcx
	subq	%rsi, %rcx
	cmpq	%rdx, %rcx
	jae	47f
	movq	%r9, %rbp
	testq	%r9, %r9
	je	52f
	movl	%r8d, %ecx
	andl	$7, %ecx
	addl	$-9, %r8d
	cmpw	$7, %r8w
	jae	48f
	xorl	%edx, %edx
	jmp	50f
47:
	movq	%r9, %rbp
	callq	memmove@PLT
	jmp	52f
48:
	movq	%rbp, %r8
	andq	$-8, %r8
	xorl	%edx, %edx
	xorl	%r9d, %r9d
	.p2align	4
49:
	movups	(%rsi,%r9), %xmm0
	movq	16(%rsi,%r9), %r10
	movq	%r10, 16(%rdi,%r9)
	movups	%xmm0, (%rdi,%r9)
	movups	24(%rsi,%r9), %xmm0
	movq	40(%rsi,%r9), %r10
	movq	%r10, 40(%rdi,%r9)
	movups	%xmm0, 24(%rdi,%r9)
	movups	48(%rsi,%r9), %xmm0
	movq	64(%rsi,%r9), %r10
	movq	%r10, 64(%rdi,%r9)
	movups	%xmm0, 48(%rdi,%r9)
	movups	72(%rsi,%r9), %xmm0
	movq	88(%rsi,%r9), %r10
	movq	%r10, 88(%rdi,%r9)
	movups	%xmm0, 72(%rdi,%r9)
	movups	96(%rsi,%r9), %xmm0
	movq	112(%rsi,%r9), %r10
	movq	%r10, 112(%rdi,%r9)
	movups	%xmm0, 96(%rdi,%r9)
	movups	120(%rsi,%r9), %xmm0
	movq	136(%rsi,%r9), %r10
	movq	%r10, 136(%rdi,%r9)
	movups	%xmm0, 120(%rdi,%r9)
	movups	144(%rsi,%r9), %xmm0
	movq	160(%rsi,%r9), %r10
	movq	%r10, 160(%rdi,%r9)
	movups	%xmm0, 144(%rdi,%r9)
	movdqu	168(%rsi,%r9), %xmm0
	movq	184(%rsi,%r9), %r10
	movq	%r10, 184(%rdi,%r9)
	movdqu	%xmm0, 168(%rdi,%r9)
	addq	$8, %rdx
	addq	$192, %r9
	cmpq	%rdx, %r8
	jne	49b
	testq	%rcx, %rcx
	je	52f
50:
	shlq	$3, %rdx
	leaq	(%rdx,%rdx,2), %rdx
	addq	%rdx, %rax
	addq	$200, %rax
	addq	%r13, %rdx
	addq	$8, %rdx
	shll	$3, %ecx
	leaq	(%rcx,%rcx,2), %rcx
	xorl	%esi, %esi
	.p2align	4
51:
	movdqu	(%rax,%rsi), %xmm0
	movq	16(%rax,%rsi), %rdi
	movq	%rdi, 16(%rdx,%rsi)
	movdqu	%xmm0, (%rdx,%rsi)
	addq	$24, %rsi
	cmpq	%rsi, %rcx
	jne	51b
52:
	movq	$8, 88(%rsp)
	movq	$8, 112(%rsp)
	pxor	%xmm0, %xmm0
	movdqa	%xmm0, 320(%rsp)
	movq	$0, 336(%rsp)
	leaq	320(%rsp), %rdi
	leaq	80(%rsp), %rsi
	movl	$7, %edx
	callq	"std_alloc::vec::Vec::remove::<#c1573421a60ec32d>"
	testw	%r14w, %r14w
	je	59f
	leaq	368(%r13), %rdi
	movq	128(%rsp), %rax
	movq	136(%rsp), %r8
	leaq	64(%rax), %rsi
	leaq	-64(,%r8,8), %rdx
	movq	%rdi, %rcx
	subq	%rsi, %rcx
	cmpq	%rdx, %rcx
	jae	58f
	movq	%r8, %rcx
	addq	$-8, %rcx
	je	59f
	cmpq	$4, %rcx
	jb	53f
	movq	%r13, %rdx
	subq	%rax, %rdx
	addq	$304, %rdx
	cmpq	$32, %rdx
	jae	61f
53:
	xorl	%edx, %edx
54:
	movq	%r8, %r10
	movq	%rdx, %r9
	andq	$3, %r10
	je	56f
	movq	%rdx, %r9
55:
	movq	(%rsi,%r9,8), %r11
	movq	%r11, (%rdi,%r9,8)
	incq	%r9
	decq	%r10
	jne	55b
56:
	subq	%rdx, %r8
	addq	$-9, %r8
	cmpq	$3, %r8
	jb	59f
57:
	movq	64(%rax,%r9,8), %rdx
	movq	%rdx, 368(%r13,%r9,8)
	movq	72(%rax,%r9,8), %rdx
	movq	%rdx, 376(%r13,%r9,8)
	movq	80(%rax,%r9,8), %rdx
	movq	%rdx, 384(%r13,%r9,8)
	movq	88(%rax,%r9,8), %rdx
	movq	%rdx, 392(%r13,%r9,8)
	addq	$4, %r9
	cmpq	%r9, %rcx
	jne	57b
	jmp	59f
58:
	callq	memmove@PLT
59:
	movq	%r12, 32(%rsp)
	movzwl	88(%rsp), %eax
	movq	152(%rsp), %rcx
	movw	%ax, (%rcx)
	movw	%bp, (%r13)
	movq	336(%rsp), %rax
	movaps	320(%rsp), %xmm0
	movaps	%xmm0, 160(%rsp)
	movq	%rax, 176(%rsp)
	movq	16(%rsp), %rbp
	movq	64(%rsp), %rax
	movq	%rcx, (%rax,%rbp,8)
	movq	176(%rsp), %rax
	movq	%rax, 304(%rsp)
	movdqa	160(%rsp), %xmm0
	movdqa	%xmm0, 288(%rsp)
	leaq	208(%rsp), %rdi
	leaq	288(%rsp), %rdx
	movq	%rbp, %rsi
	callq	"std_alloc::vec::lodged::Vec+T+Lodged::insert_reserved::<#2262cf5b90b10fda>"
	incq	%rbp
	movq	256(%rsp), %r14
	movq	264(%rsp), %rdx
	leal	(,%rbp,8), %r12d
	subq	%rbp, %rdx
	je	60f
	leaq	(%r14,%r12), %rsi
	leaq	(%r14,%r12), %rdi
	addq	$8, %rdi
	shlq	$3, %rdx
	callq	memmove@PLT
60:
	movq	%r13, (%r14,%r12)
	movzwl	216(%rsp), %eax
	movq	280(%rsp), %rdx
	movw	%ax, (%rdx)
	movq	(%rsp), %rax
	movq	%rdx, (%rax)
	movq	40(%rsp), %r8
	movzbl	1(%r8), %eax
	cmpb	$7, %al
	ja	41b
	movzbl	(%r8), %ecx
	jmp	42b
61:
	movq	%rcx, %rdx
	andq	$-4, %rdx
	xorl	%r9d, %r9d
62:
	movdqu	64(%rax,%r9,8), %xmm0
	movdqu	80(%rax,%r9,8), %xmm1
	movdqu	%xmm0, 368(%r13,%r9,8)
	movdqu	%xmm1, 384(%r13,%r9,8)
	addq	$4, %r9
	cmpq	%r9, %rdx
	jne	62b
	cmpq	%rdx, %rcx
	je	59b
	jmp	54b
63:
	cmpw	$10, 40(%rsp)
	ja	32b
	movl	$496, %edi
	movq	%rsi, %r14
	movl	$8, %esi
	movq	%r8, %r12
	callq	rattle_alloc@PLT
	testb	$1, %al
	je	32b
	movq	%r12, %r8
	movq	%r14, %rsi
	movq	40(%rsp), %rdi
	leal	1(%rdi), %eax
	movw	%ax, 2(%rdx)
	movq	8(%rsp), %rcx
	movq	(%rcx), %rax
	movq	%rax, 368(%rdx)
	movw	$0, (%rdx)
	movq	%rdx, (%rcx)
	movl	$14, %eax
	subq	%rdi, %rax
	movq	32(%rsp), %rdi
	jmp	36b
64:
	movq	%rcx, 16(%rsp)
	movq	%rdx, (%rsp)
	movq	8(%rsp), %rax
	movq	(%rax), %rdx
65:
	movq	%rdx, %rdi
	cmpw	$0, (%rdx)
	je	68f
	movq	72(%rsp), %r12
	cmpb	$1, (%r12)
	movq	192(%rsp), %rcx
	jne	69f
	movzbl	63(%rsp), %esi
	movq	16(%rsp), %rdi
	shlq	$3, %rdi
66:
	movq	(%rsp), %rax
	cmpq	$1, %rcx
	leaq	368(%rax,%rdi), %r14
	cmoveq	8(%rsp), %r14
	andl	$15, %esi
	movq	%r15, 208(%rsp)
	movq	%rbx, 216(%rsp)
	movq	%rbx, 224(%rsp)
	movq	(%r14), %rax
	movzwl	(%rax), %ecx
	leaq	1(%rcx), %rdx
	xorl	%r13d, %r13d
	xorl	%edi, %edi
	cmpw	$0, 2(%rax)
	setne	%dil
	movl	$0, %r8d
	cmovneq	%rdx, %r8
	shll	$4, %edi
	leaq	368(%rax), %rdx
	leaq	8(%rax), %r9
	movq	%r9, 80(%rsp)
	movq	%rcx, 88(%rsp)
	movq	$15, 96(%rsp)
	movq	%rdx, 104(%rsp)
	movq	%rcx, 112(%rsp)
	movq	$15, 120(%rsp)
	movq	%rdx, 128(%rsp)
	movq	%r8, 136(%rsp)
	movq	%rdi, 144(%rsp)
	movq	%rax, 152(%rsp)
	leaq	80(%rsp), %rdi
	leaq	208(%rsp), %rdx
	callq	"std_alloc::vec::lodged::Vec+T+Lodged::insert_reserved::<#2262cf5b90b10fda>"
	movzwl	88(%rsp), %eax
	movq	152(%rsp), %rcx
	movw	%ax, (%rcx)
	movq	%rcx, (%r14)
	incq	16(%r12)
	jmp	33b
67:
	movq	8(%rsp), %rax
	movq	(%rax), %rax
	movq	%rax, %rdi
	cmpw	$0, (%rax)
	jne	32b
68:
	cmpw	$0, 2(%rdi)
	je	32b
	movq	368(%rdi), %r14
	callq	rattle_dealloc@PLT
	movq	8(%rsp), %rax
	movq	%r14, (%rax)
	jmp	32b
69:
	ud2
70:
	.size	"mime_text::merging::types::Types::add", 70b-"mime_text::merging::types::Types::add"

	.text
	.p2align	4
	.type	"mime_text::mime_base++magic++matchlet++Matchlet+Destruct::drop",@function
"mime_text::mime_base++magic++matchlet++Matchlet+Destruct::drop":
	pushq	%rbp
	pushq	%r15
	pushq	%r14
	pushq	%r13
	pushq	%r12
	pushq	%rbx
	subq	$104, %rsp
	movzbl	40(%rdi), %ebp
	movq	48(%rdi), %r14
	movq	64(%rdi), %r13
	movq	72(%rdi), %rbx
	movq	80(%rdi), %r12
	movq	88(%rdi), %r15
	cmpq	$0, 32(%rdi)
	je	1f
	movq	16(%rdi), %rdi
	callq	rattle_dealloc@PLT
1:
	testb	%bpl, %bpl
	je	2f
	testq	%r13, %r13
	je	2f
	movq	%r14, %rdi
	callq	rattle_dealloc@PLT
2:
	testq	%r12, %r12
	je	4f
	movq	%rbx, %r14
	.p2align	4
3:
	movups	80(%r14), %xmm0
	movaps	%xmm0, 80(%rsp)
	movups	64(%r14), %xmm0
	movaps	%xmm0, 64(%rsp)
	movups	(%r14), %xmm0
	movups	16(%r14), %xmm1
	movups	32(%r14), %xmm2
	movups	48(%r14), %xmm3
	movaps	%xmm3, 48(%rsp)
	movaps	%xmm2, 32(%rsp)
	movaps	%xmm1, 16(%rsp)
	movaps	%xmm0, (%rsp)
	movq	%rsp, %rdi
	callq	"mime_text::mime_base++magic++matchlet++Matchlet+Destruct::drop"
	addq	$96, %r14
	decq	%r12
	jne	3b
4:
	testq	%r15, %r15
	je	5f
	movq	%rbx, %rdi
	addq	$104, %rsp
	popq	%rbx
	popq	%r12
	popq	%r13
	popq	%r14
	popq	%r15
	popq	%rbp
	jmp	rattle_dealloc@PLT
5:
	addq	$104, %rsp
	popq	%rbx
	popq	%r12
	popq	%r13
	popq	%r14
	popq	%r15
	popq	%rbp
	retq
6:
	.size	"mime_text::mime_base++magic++matchlet++Matchlet+Destruct::drop", 6b-"mime_text::mime_base++magic++matchlet++Matchlet+Destruct::drop"

	.text
	.p2align	4
	.type	"mime_text::mime_text++merging++DirFiles+Destruct::drop",@function
"mime_text::mime_text++merging++DirFiles+Destruct::drop":
	pushq	%rbp
	pushq	%r15
	pushq	%r14
	pushq	%r13
	pushq	%r12
	pushq	%rbx
	subq	$360, %rsp
	movq	(%rdi), %rax
	movq	%rax, (%rsp)
	movq	8(%rdi), %rbp
	movq	16(%rdi), %rax
	movq	%rax, 112(%rsp)
	movq	24(%rdi), %rax
	movq	%rax, 136(%rsp)
	movq	32(%rdi), %rbx
	movq	40(%rdi), %rax
	movq	%rax, 120(%rsp)
	movq	48(%rdi), %rax
	movq	%rax, 72(%rsp)
	movq	64(%rdi), %rax
	movq	%rax, 128(%rsp)
	movq	72(%rdi), %rax
	movq	%rax, 40(%rsp)
	movq	80(%rdi), %rax
	movq	%rax, 32(%rsp)
	movq	88(%rdi), %rax
	movq	%rax, 144(%rsp)
	movq	96(%rdi), %rax
	movq	%rax, 168(%rsp)
	movq	104(%rdi), %rax
	movq	%rax, 152(%rsp)
	movq	112(%rdi), %rax
	movq	%rax, 160(%rsp)
	movq	120(%rdi), %rax
	movq	%rax, 8(%rsp)
	movq	128(%rdi), %rax
	movq	%rax, 48(%rsp)
	movq	136(%rdi), %rax
	movq	%rax, 176(%rsp)
	movq	144(%rdi), %rax
	movq	%rax, 80(%rsp)
	movq	160(%rdi), %rax
	movq	%rax, 184(%rsp)
	movq	168(%rdi), %rax
	movq	%rax, 16(%rsp)
	movq	176(%rdi), %rax
	movq	%rax, 56(%rsp)
	movq	184(%rdi), %rax
	movq	%rax, 192(%rsp)
	movq	192(%rdi), %rax
	movq	%rax, 88(%rsp)
	movq	208(%rdi), %rax
	movq	%rax, 200(%rsp)
	movq	216(%rdi), %rax
	movq	%rax, 24(%rsp)
	movq	224(%rdi), %rax
	movq	%rax, 64(%rsp)
	movq	232(%rdi), %rax
	movq	%rax, 208(%rsp)
	movq	240(%rdi), %rax
	movq	%rax, 96(%rsp)
	movq	256(%rdi), %rax
	movq	%rax, 216(%rsp)
	movq	264(%rdi), %rax
	movq	%rax, 248(%rsp)
	movq	272(%rdi), %rax
	movq	%rax, 224(%rsp)
	movq	280(%rdi), %rax
	movq	%rax, 232(%rsp)
	movq	288(%rdi), %rax
	movq	%rax, 104(%rsp)
	movq	304(%rdi), %rax
	movq	%rax, 240(%rsp)
	testq	%rbp, %rbp
	je	4f
	movq	(%rsp), %rax
	leaq	80(%rax), %r13
	jmp	2f
	.p2align	4
1:
	addq	$104, %r13
	decq	%rbp
	je	4f
2:
	movzbl	-24(%r13), %r12d
	movq	-16(%r13), %r15
	movq	(%r13), %r14
	cmpb	$0, -72(%r13)
	je	3f
	cmpq	$0, -48(%r13)
	je	3f
	movq	-64(%r13), %rdi
	callq	rattle_dealloc@PLT
3:
	testb	%r12b, %r12b
	je	1b
	testq	%r14, %r14
	je	1b
	movq	%r15, %rdi
	callq	rattle_dealloc@PLT
	jmp	1b
4:
	cmpq	$0, 112(%rsp)
	je	5f
	movq	(%rsp), %rdi
	callq	rattle_dealloc@PLT
5:
	testq	%rbx, %rbx
	movq	248(%rsp), %r12
	movq	136(%rsp), %r15
	je	8f
	movq	%r15, %r14
	jmp	7f
	.p2align	4
6:
	addq	$48, %r14
	decq	%rbx
	je	8f
7:
	cmpb	$0, (%r14)
	je	6b
	cmpq	$0, 24(%r14)
	je	6b
	movq	8(%r14), %rdi
	callq	rattle_dealloc@PLT
	jmp	6b
8:
	cmpq	$0, 120(%rsp)
	je	9f
	movq	%r15, %rdi
	callq	rattle_dealloc@PLT
9:
	cmpq	$0, 128(%rsp)
	movq	40(%rsp), %rbx
	je	10f
	movq	72(%rsp), %rdi
	callq	rattle_dealloc@PLT
10:
	cmpq	$0, 32(%rsp)
	je	16f
	xorl	%r15d, %r15d
	jmp	12f
	.p2align	4
11:
	incq	%r15
	cmpq	32(%rsp), %r15
	movq	40(%rsp), %rbx
	je	16f
12:
	movq	%r15, %rax
	shlq	$4, %rax
	leaq	(%rax,%rax,4), %rax
	movq	56(%rbx,%rax), %r14
	movq	64(%rbx,%rax), %r13
	movq	72(%rbx,%rax), %rbp
	cmpb	$0, 8(%rbx,%rax)
	je	13f
	cmpq	$0, 32(%rbx,%rax)
	je	13f
	movq	16(%rbx,%rax), %rdi
	callq	rattle_dealloc@PLT
13:
	testq	%r13, %r13
	je	15f
	movq	%r14, %rbx
	.p2align	4
14:
	movups	80(%rbx), %xmm0
	movaps	%xmm0, 336(%rsp)
	movups	64(%rbx), %xmm0
	movaps	%xmm0, 320(%rsp)
	movups	(%rbx), %xmm0
	movups	16(%rbx), %xmm1
	movups	32(%rbx), %xmm2
	movups	48(%rbx), %xmm3
	movaps	%xmm3, 304(%rsp)
	movaps	%xmm2, 288(%rsp)
	movaps	%xmm1, 272(%rsp)
	movaps	%xmm0, 256(%rsp)
	leaq	256(%rsp), %rdi
	callq	"mime_text::mime_base++magic++matchlet++Matchlet+Destruct::drop"
	addq	$96, %rbx
	decq	%r13
	jne	14b
15:
	testq	%rbp, %rbp
	je	11b
	movq	%r14, %rdi
	callq	rattle_dealloc@PLT
	jmp	11b
16:
	cmpq	$0, 144(%rsp)
	je	17f
	movq	%rbx, %rdi
	callq	rattle_dealloc@PLT
17:
	movq	152(%rsp), %r15
	testq	%r15, %r15
	movq	224(%rsp), %r13
	movq	168(%rsp), %r14
	je	20f
	movq	%r14, %rbx
	jmp	19f
	.p2align	4
18:
	addq	$48, %rbx
	decq	%r15
	je	20f
19:
	cmpb	$0, (%rbx)
	je	18b
	cmpq	$0, 24(%rbx)
	je	18b
	movq	8(%rbx), %rdi
	callq	rattle_dealloc@PLT
	jmp	18b
20:
	cmpq	$0, 160(%rsp)
	je	21f
	movq	%r14, %rdi
	callq	rattle_dealloc@PLT
21:
	cmpq	$0, 48(%rsp)
	je	25f
	movq	8(%rsp), %r14
	jmp	23f
	.p2align	4
22:
	addq	$96, %r14
	decq	48(%rsp)
	je	25f
23:
	movzbl	48(%r14), %ebp
	movq	56(%r14), %rbx
	movq	72(%r14), %r15
	cmpb	$0, (%r14)
	je	24f
	cmpq	$0, 24(%r14)
	je	24f
	movq	8(%r14), %rdi
	callq	rattle_dealloc@PLT
24:
	testb	%bpl, %bpl
	je	22b
	testq	%r15, %r15
	je	22b
	movq	%rbx, %rdi
	callq	rattle_dealloc@PLT
	jmp	22b
25:
	cmpq	$0, 176(%rsp)
	je	26f
	movq	8(%rsp), %rdi
	callq	rattle_dealloc@PLT
26:
	cmpq	$0, 184(%rsp)
	je	27f
	movq	80(%rsp), %rdi
	callq	rattle_dealloc@PLT
27:
	cmpq	$0, 56(%rsp)
	je	31f
	movq	16(%rsp), %r14
	jmp	29f
	.p2align	4
28:
	addq	$96, %r14
	decq	56(%rsp)
	je	31f
29:
	movzbl	48(%r14), %ebp
	movq	56(%r14), %rbx
	movq	72(%r14), %r15
	cmpb	$0, (%r14)
	je	30f
	cmpq	$0, 24(%r14)
	je	30f
	movq	8(%r14), %rdi
	callq	rattle_dealloc@PLT
30:
	testb	%bpl, %bpl
	je	28b
	testq	%r15, %r15
	je	28b
	movq	%rbx, %rdi
	callq	rattle_dealloc@PLT
	jmp	28b
31:
	cmpq	$0, 192(%rsp)
	je	32f
	movq	16(%rsp), %rdi
	callq	rattle_dealloc@PLT
32:
	cmpq	$0, 200(%rsp)
	je	33f
	movq	88(%rsp), %rdi
	callq	rattle_dealloc@PLT
33:
	cmpq	$0, 64(%rsp)
	je	37f
	movq	24(%rsp), %r14
	jmp	35f
	.p2align	4
34:
	addq	$96, %r14
	decq	64(%rsp)
	je	37f
35:
	movzbl	48(%r14), %ebp
	movq	56(%r14), %rbx
	movq	72(%r14), %r15
	cmpb	$0, (%r14)
	je	36f
	cmpq	$0, 24(%r14)
	je	36f
	movq	8(%r14), %rdi
	callq	rattle_dealloc@PLT
36:
	testb	%bpl, %bpl
	je	34b
	testq	%r15, %r15
	je	34b
	movq	%rbx, %rdi
	callq	rattle_dealloc@PLT
	jmp	34b
37:
	cmpq	$0, 208(%rsp)
	je	38f
	movq	24(%rsp), %rdi
	callq	rattle_dealloc@PLT
38:
	cmpq	$0, 216(%rsp)
	je	39f
	movq	96(%rsp), %rdi
	callq	rattle_dealloc@PLT
39:
	testq	%r13, %r13
	je	43f
	movq	%r12, %r14
	jmp	41f
	.p2align	4
40:
	addq	$96, %r14
	decq	%r13
	je	43f
41:
	movzbl	48(%r14), %ebp
	movq	56(%r14), %rbx
	movq	72(%r14), %r15
	cmpb	$0, (%r14)
	je	42f
	cmpq	$0, 24(%r14)
	je	42f
	movq	8(%r14), %rdi
	callq	rattle_dealloc@PLT
42:
	testb	%bpl, %bpl
	je	40b
	testq	%r15, %r15
	je	40b
	movq	%rbx, %rdi
	callq	rattle_dealloc@PLT
	jmp	40b
43:
	cmpq	$0, 232(%rsp)
	je	44f
	movq	%r12, %rdi
	callq	rattle_dealloc@PLT
44:
	cmpq	$0, 240(%rsp)
	je	45f
	movq	104(%rsp), %rdi
	addq	$360, %rsp
	popq	%rbx
	popq	%r12
	popq	%r13
	popq	%r14
	popq	%r15
	popq	%rbp
	jmp	rattle_dealloc@PLT
45:
	addq	$360, %rsp
	popq	%rbx
	popq	%r12
	popq	%r13
	popq	%r14
	popq	%r15
	popq	%rbp
	retq
46:
	.size	"mime_text::mime_text++merging++DirFiles+Destruct::drop", 46b-"mime_text::mime_text++merging++DirFiles+Destruct::drop"
