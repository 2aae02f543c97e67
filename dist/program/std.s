# Made by dist/refresh of what is proved.

	.section	.rodata.cst16,"aM",@progbits,16
	.p2align	4, 0x0
1:
	.byte	0,1,2,3,4,5,6,7,8,9,10,11,12,13,14,15
2:
	.byte	16,17,18,19,20,21,22,23,24,25,26,27,28,29,30,31
	.text
	.p2align	4
	.type	"std::fs::apply",@function
"std::fs::apply":
	pushq	%rbp
	pushq	%r15
	pushq	%r14
	pushq	%r13
	pushq	%r12
	pushq	%rbx
	subq	$568, %rsp
	movl	%esi, %ebp
	movq	%rdi, %rbx
	movzbl	(%rdx), %r12d
	movl	4(%rdx), %r14d
	movq	8(%rdx), %rax
	movq	%rax, 280(%rsp)
	pxor	%xmm0, %xmm0
	movdqa	%xmm0, 544(%rsp)
	movdqa	%xmm0, 528(%rsp)
	movdqa	%xmm0, 512(%rsp)
	movdqa	%xmm0, 496(%rsp)
	movdqa	%xmm0, 480(%rsp)
	movq	$0, 558(%rsp)
	movdqa	%xmm0, 288(%rsp)
	movdqa	%xmm0, 304(%rsp)
	movdqa	%xmm0, 320(%rsp)
	movdqa	%xmm0, 336(%rsp)
	movdqa	%xmm0, 352(%rsp)
	movq	$0, 366(%rsp)
	leaq	194(%rsp), %r13
	xorl	%r15d, %r15d
	.p2align	4
3:
	incq	%r15
	je	13f
	movl	%r12d, %eax
	leaq	17f(%rip), %rcx
	movslq	(%rcx,%rax,4), %rax
	addq	%rcx, %rax
	jmpq	*%rax
4:
	movl	%ebp, %edi
	movq	280(%rsp), %rsi
	callq	ftruncate@PLT
	jmp	9f
5:
	movl	%ebp, %edi
	movl	%r14d, %esi
	callq	flock@PLT
	jmp	9f
6:
	movl	%ebp, %edi
	callq	fsync@PLT
	jmp	9f
7:
	movl	%ebp, %edi
	callq	fdatasync@PLT
	jmp	9f
8:
	movl	%ebp, %edi
	movl	%r14d, %esi
	callq	fchmod@PLT
	.p2align	4
9:
	pxor	%xmm0, %xmm0
	movdqa	%xmm0, (%rsp)
	movdqa	%xmm0, 16(%rsp)
	movdqa	%xmm0, 32(%rsp)
	movdqa	%xmm0, 48(%rsp)
	movdqa	%xmm0, 64(%rsp)
	movq	$0, 78(%rsp)
	testl	%eax, %eax
	js	10f
	xorl	%eax, %eax
	jmp	11f
	.p2align	4
10:
	callq	rattle_errno@PLT
	leaq	192(%rsp), %rdi
	movl	%eax, %esi
	callq	"std_io::io::error::Error::from_raw_os_error"
	movq	192(%rsp), %xmm0
	movups	(%r13), %xmm1
	movups	16(%r13), %xmm2
	movups	32(%r13), %xmm3
	movups	48(%r13), %xmm4
	movaps	%xmm1, (%rsp)
	movaps	%xmm2, 16(%rsp)
	movaps	%xmm3, 32(%rsp)
	movaps	%xmm4, 48(%rsp)
	movups	64(%r13), %xmm1
	movaps	%xmm1, 64(%rsp)
	movq	78(%r13), %rax
	movq	%rax, 78(%rsp)
	movb	$1, %al
11:
	movq	78(%rsp), %rcx
	movq	%rcx, 174(%rsp)
	movaps	64(%rsp), %xmm1
	movaps	%xmm1, 160(%rsp)
	movaps	(%rsp), %xmm1
	movaps	16(%rsp), %xmm2
	movaps	32(%rsp), %xmm3
	movaps	48(%rsp), %xmm4
	movaps	%xmm4, 144(%rsp)
	movaps	%xmm3, 128(%rsp)
	movaps	%xmm2, 112(%rsp)
	movaps	%xmm1, 96(%rsp)
	movq	174(%rsp), %rcx
	movq	%rcx, 366(%rsp)
	movaps	160(%rsp), %xmm1
	movaps	%xmm1, 352(%rsp)
	movaps	96(%rsp), %xmm1
	movaps	112(%rsp), %xmm2
	movaps	128(%rsp), %xmm3
	movaps	144(%rsp), %xmm4
	movaps	%xmm4, 336(%rsp)
	movaps	%xmm3, 320(%rsp)
	movaps	%xmm2, 304(%rsp)
	movaps	%xmm1, 288(%rsp)
	testb	%al, %al
	je	14f
	movaps	1b(%rip), %xmm1
	movaps	%xmm1, 192(%rsp)
	movaps	2b(%rip), %xmm1
	movaps	%xmm1, 208(%rsp)
	movabsq	$2820983053732684064, %rax
	movq	%rax, 224(%rsp)
	movb	$40, 232(%rsp)
	pextrb	$1, %xmm0, %eax
	cmpb	$41, %al
	jae	12f
	movzbl	%al, %ecx
	cmpb	$35, 192(%rsp,%rcx)
	je	3b
12:
	movb	$1, (%rbx)
	pextrb	$0, %xmm0, 8(%rbx)
	movb	%al, 9(%rbx)
	movaps	288(%rsp), %xmm0
	movaps	304(%rsp), %xmm1
	movaps	320(%rsp), %xmm2
	movaps	336(%rsp), %xmm3
	movups	%xmm0, 10(%rbx)
	movups	%xmm1, 26(%rbx)
	movups	%xmm2, 42(%rbx)
	movups	%xmm3, 58(%rbx)
	movaps	352(%rsp), %xmm0
	movups	%xmm0, 74(%rbx)
	movq	366(%rsp), %rax
	jmp	15f
13:
	leaq	.L87b4d4e2734a(%rip), %rcx
	leaq	192(%rsp), %rdi
	movl	$43, %r8d
	movl	$43, %r9d
	movl	$2, %esi
	movl	$22, %edx
	callq	"std_io::io::error::Error::from_bytes"
	movzwl	192(%rsp), %eax
	movups	194(%rsp), %xmm0
	movaps	%xmm0, 384(%rsp)
	movups	210(%rsp), %xmm0
	movaps	%xmm0, 400(%rsp)
	movups	226(%rsp), %xmm0
	movaps	%xmm0, 416(%rsp)
	movups	242(%rsp), %xmm0
	movaps	%xmm0, 432(%rsp)
	movups	258(%rsp), %xmm0
	movaps	%xmm0, 448(%rsp)
	movq	272(%rsp), %rcx
	movq	%rcx, 462(%rsp)
	movb	$1, (%rbx)
	movw	%ax, 8(%rbx)
	movaps	384(%rsp), %xmm0
	movaps	400(%rsp), %xmm1
	movaps	416(%rsp), %xmm2
	movaps	432(%rsp), %xmm3
	movups	%xmm0, 10(%rbx)
	movups	%xmm1, 26(%rbx)
	movups	%xmm2, 42(%rbx)
	movups	%xmm3, 58(%rbx)
	movaps	448(%rsp), %xmm0
	movups	%xmm0, 74(%rbx)
	movq	462(%rsp), %rax
	jmp	15f
14:
	movb	$0, (%rbx)
	movw	$0, 8(%rbx)
	movaps	480(%rsp), %xmm0
	movaps	496(%rsp), %xmm1
	movaps	512(%rsp), %xmm2
	movaps	528(%rsp), %xmm3
	movups	%xmm0, 10(%rbx)
	movups	%xmm1, 26(%rbx)
	movups	%xmm2, 42(%rbx)
	movups	%xmm3, 58(%rbx)
	movaps	544(%rsp), %xmm0
	movups	%xmm0, 74(%rbx)
	movq	558(%rsp), %rax
15:
	movq	%rax, 88(%rbx)
	addq	$568, %rsp
	popq	%rbx
	popq	%r12
	popq	%r13
	popq	%r14
	popq	%r15
	popq	%rbp
	retq
16:
	.size	"std::fs::apply", 16b-"std::fs::apply"
	.section	.rodata,"a",@progbits
	.p2align	2, 0x0
17:
	.long	4b-17b
	.long	8b-17b
	.long	6b-17b
	.long	7b-17b
	.long	5b-17b

	.section	.rodata.cst16,"aM",@progbits,16
	.p2align	4, 0x0
1:
	.byte	0,1,2,3,4,5,6,7,8,9,10,11,12,13,14,15
2:
	.byte	16,17,18,19,20,21,22,23,24,25,26,27,28,29,30,31
	.text
	.p2align	4
	.type	"std::fs::options::OpenOptions::open::<#05cc10b2f530382b>",@function
"std::fs::options::OpenOptions::open::<#05cc10b2f530382b>":
	pushq	%rbp
	pushq	%r15
	pushq	%r14
	pushq	%r13
	pushq	%r12
	pushq	%rbx
	subq	$3072, %rsp
	movq	$0, (%rsp)
	subq	$3072, %rsp
	movq	$0, (%rsp)
	subq	$2712, %rsp
	movq	%rcx, %r15
	movq	%rdx, %r12
	movq	%rsi, %r14
	movq	%rdi, %rbx
	pxor	%xmm0, %xmm0
	movdqa	%xmm0, 144(%rsp)
	movdqa	%xmm0, 128(%rsp)
	movdqa	%xmm0, 112(%rsp)
	movdqa	%xmm0, 96(%rsp)
	movq	$0, 160(%rsp)
	movdqa	%xmm0, 16(%rsp)
	movdqa	%xmm0, 32(%rsp)
	movdqa	%xmm0, 48(%rsp)
	movdqa	%xmm0, 64(%rsp)
	movq	$0, 80(%rsp)
	testq	%rcx, %rcx
	je	5f
	xorl	%eax, %eax
	.p2align	4
3:
	cmpb	$0, (%r12,%rax)
	je	4f
	incq	%rax
	cmpq	%rax, %r15
	jne	3b
	jmp	5f
4:
	cmpq	%r15, %rax
	jae	5f
	leaq	.L399de51ae489(%rip), %rcx
	leaq	656(%rsp), %rdi
	movl	$42, %r8d
	movl	$42, %r9d
	movl	$2, %esi
	movl	$20, %edx
	callq	"std_io::io::error::Error::from_bytes"
	movq	656(%rsp), %rcx
	movq	664(%rsp), %rdx
	movq	736(%rsp), %rax
	movq	%rax, 480(%rsp)
	movups	720(%rsp), %xmm1
	movaps	%xmm1, 464(%rsp)
	movups	704(%rsp), %xmm2
	movaps	%xmm2, 448(%rsp)
	movups	688(%rsp), %xmm3
	movaps	%xmm3, 432(%rsp)
	movups	672(%rsp), %xmm4
	movaps	%xmm4, 416(%rsp)
	movd	%ecx, %xmm0
	shrq	$16, %rcx
	movaps	%xmm4, 96(%rsp)
	movaps	%xmm3, 112(%rsp)
	movaps	%xmm2, 128(%rsp)
	movaps	%xmm1, 144(%rsp)
	movq	%rax, 160(%rsp)
	xorl	%eax, %eax
	movl	$1, %esi
	jmp	54f
5:
	movdqa	%xmm0, 464(%rsp)
	movdqa	%xmm0, 448(%rsp)
	movdqa	%xmm0, 432(%rsp)
	movdqa	%xmm0, 416(%rsp)
	movq	$0, 480(%rsp)
	movdqa	%xmm0, 576(%rsp)
	movdqa	%xmm0, 592(%rsp)
	movdqa	%xmm0, 608(%rsp)
	movdqa	%xmm0, 624(%rsp)
	movq	$0, 640(%rsp)
	movdqa	%xmm0, 176(%rsp)
	movdqa	%xmm0, 192(%rsp)
	movdqa	%xmm0, 208(%rsp)
	movdqa	%xmm0, 224(%rsp)
	movq	$0, 240(%rsp)
	movdqa	%xmm0, 336(%rsp)
	movdqa	%xmm0, 352(%rsp)
	movdqa	%xmm0, 368(%rsp)
	movdqa	%xmm0, 384(%rsp)
	movq	$0, 400(%rsp)
	movdqa	%xmm0, 496(%rsp)
	movdqa	%xmm0, 512(%rsp)
	movdqa	%xmm0, 528(%rsp)
	movdqa	%xmm0, 544(%rsp)
	movq	$0, 560(%rsp)
	movzbl	1(%r14), %edx
	movzbl	2(%r14), %ecx
	cmpb	$1, (%r14)
	jne	6f
	movzbl	%dl, %eax
	leal	524544(,%rax,2), %esi
	testb	%cl, %cl
	movl	$525570, %eax
	cmovel	%esi, %eax
	jmp	9f
6:
	testb	%dl, %dl
	je	7f
	movl	$524545, %eax
	testb	%cl, %cl
	jne	8f
	jmp	9f
7:
	testb	%cl, %cl
	je	48f
8:
	movl	$525569, %eax
9:
	pxor	%xmm0, %xmm0
	movdqa	%xmm0, 304(%rsp)
	movdqa	%xmm0, 288(%rsp)
	movdqa	%xmm0, 272(%rsp)
	movdqa	%xmm0, 256(%rsp)
	movq	$0, 320(%rsp)
	movzbl	3(%r14), %esi
	testb	%sil, %sil
	jne	10f
	cmpb	$0, 4(%r14)
	je	11f
10:
	xorl	%edi, %edi
	orb	%cl, %dl
	je	12f
	jmp	13f
11:
	movzbl	5(%r14), %edi
	xorb	$1, %dil
	orb	%cl, %dl
	jne	13f
12:
	testb	%dil, %dil
	jne	13f
	leaq	.L2c207e1bad0a(%rip), %rcx
	leaq	656(%rsp), %rdi
	movl	$61, %r8d
	movl	$61, %r9d
	movl	$3, %esi
	movl	$20, %edx
	callq	"std_io::io::error::Error::from_bytes"
	movq	656(%rsp), %xmm0
	movl	658(%rsp), %eax
	movzwl	662(%rsp), %ecx
	shlq	$32, %rcx
	orq	%rax, %rcx
	movq	664(%rsp), %rdx
	movups	672(%rsp), %xmm1
	movaps	%xmm1, 176(%rsp)
	movups	688(%rsp), %xmm1
	movaps	%xmm1, 192(%rsp)
	movups	704(%rsp), %xmm1
	movaps	%xmm1, 208(%rsp)
	movups	720(%rsp), %xmm1
	movaps	%xmm1, 224(%rsp)
	movq	736(%rsp), %rax
	jmp	14f
13:
	movzbl	5(%r14), %edx
	testb	%cl, %sil
	je	16f
	movl	$192, %ecx
	testb	%dl, %dl
	jne	17f
	leaq	.L2c207e1bad0a(%rip), %rcx
	leaq	4760(%rsp), %rdi
	movl	$61, %r8d
	movl	$61, %r9d
	movl	$3, %esi
	movl	$20, %edx
	callq	"std_io::io::error::Error::from_bytes"
	movq	4760(%rsp), %xmm0
	movl	4762(%rsp), %eax
	movzwl	4766(%rsp), %ecx
	shlq	$32, %rcx
	orq	%rax, %rcx
	movq	4768(%rsp), %rdx
	movups	4776(%rsp), %xmm1
	movaps	%xmm1, 176(%rsp)
	movups	4792(%rsp), %xmm1
	movaps	%xmm1, 192(%rsp)
	movups	4808(%rsp), %xmm1
	movaps	%xmm1, 208(%rsp)
	movups	4824(%rsp), %xmm1
	movaps	%xmm1, 224(%rsp)
	movq	4840(%rsp), %rax
14:
	movq	%rax, 240(%rsp)
	movaps	176(%rsp), %xmm1
	movaps	192(%rsp), %xmm2
	movaps	208(%rsp), %xmm3
	movaps	224(%rsp), %xmm4
	movaps	%xmm1, 16(%rsp)
	movaps	%xmm2, 32(%rsp)
	movaps	%xmm3, 48(%rsp)
	movaps	%xmm4, 64(%rsp)
	movq	240(%rsp), %rax
15:
	movq	%rax, 80(%rsp)
	jmp	52f
16:
	movl	$192, %ecx
	testb	%dl, %dl
	jne	17f
	movzbl	4(%r14), %ecx
	shll	$6, %ecx
	movzbl	%sil, %edx
	shll	$9, %edx
	orl	%ecx, %edx
	movq	%rdx, %rcx
17:
	orl	%eax, %ecx
	movl	%ecx, %eax
	andl	$525571, %eax
	movl	%eax, 12(%rsp)
	leal	-524546(%rcx), %eax
	shldl	$26, %eax, %eax
	movl	%eax, 8(%rsp)
	movq	%rcx, 328(%rsp)
	leal	-524545(%rcx), %eax
	shldl	$26, %eax, %eax
	movl	%eax, 4(%rsp)
	movq	$-1, %rbp
	leaq	672(%rsp), %r13
	.p2align	4
18:
	subq	$1, %rbp
	jb	55f
	cmpq	$4096, %r15
	jb	20f
	movl	$36, %edi
19:
	callq	rattle_set_errno@PLT
	jmp	46f
	.p2align	4
20:
	movl	8(%r14), %ecx
	testq	%r15, %r15
	je	22f
	xorl	%eax, %eax
	.p2align	4
21:
	cmpb	$0, (%r12,%rax)
	je	23f
	incq	%rax
	cmpq	%rax, %r15
	jne	21b
	jmp	25f
22:
	movl	%ecx, (%rsp)
	leaq	656(%rsp), %rdi
	movl	$4095, %edx
	xorl	%esi, %esi
	callq	memset@PLT
	jmp	26f
23:
	cmpq	%r15, %rax
	jae	25f
24:
	movl	$22, %edi
	jmp	19b
	.p2align	4
25:
	movl	%ecx, (%rsp)
	leaq	656(%rsp), %rdi
	movl	$4095, %edx
	xorl	%esi, %esi
	callq	memset@PLT
	leaq	656(%rsp), %rdi
	movq	%r12, %rsi
	movq	%r15, %rdx
	callq	memcpy@PLT
26:
	movb	$0, 4751(%rsp)
	leaq	4760(%rsp), %rdi
	leaq	656(%rsp), %rsi
	movl	$4096, %edx
	callq	memcpy@PLT
	movq	328(%rsp), %rax
	cmpl	$524544, %eax
	jne	27f
	leaq	4760(%rsp), %rdi
	movl	$524544, %esi
	xorl	%eax, %eax
	callq	open@PLT
	testl	%eax, %eax
	js	46f
	jmp	56f
	.p2align	4
27:
	movl	12(%rsp), %ecx
	cmpl	$525569, %ecx
	je	31f
	cmpl	$524546, %ecx
	movl	8(%rsp), %edx
	je	29f
	cmpl	$524545, %ecx
	jne	32f
	movl	4(%rsp), %eax
	cmpl	$9, %eax
	ja	24b
	movl	%eax, %eax
	leaq	60f(%rip), %rcx
	movslq	(%rcx,%rax,4), %rax
	addq	%rcx, %rax
	jmpq	*%rax
28:
	leaq	4760(%rsp), %rdi
	movl	$524545, %esi
	jmp	45f
29:
	cmpl	$9, %edx
	ja	24b
	movl	%edx, %eax
	leaq	59f(%rip), %rcx
	movslq	(%rcx,%rax,4), %rax
	addq	%rcx, %rax
	jmpq	*%rax
30:
	leaq	4760(%rsp), %rdi
	movl	$524546, %esi
	jmp	45f
31:
	cmpl	$525761, %eax
	je	35f
	cmpl	$525633, %eax
	je	33f
	cmpl	$525569, %eax
	jne	24b
	leaq	4760(%rsp), %rdi
	movl	$525569, %esi
	jmp	45f
32:
	cmpl	$525762, %eax
	je	36f
	cmpl	$525634, %eax
	je	34f
	cmpl	$525570, %eax
	jne	24b
	leaq	4760(%rsp), %rdi
	movl	$525570, %esi
	jmp	45f
33:
	leaq	4760(%rsp), %rdi
	movl	$525633, %esi
	jmp	45f
34:
	leaq	4760(%rsp), %rdi
	movl	$525634, %esi
	jmp	45f
35:
	leaq	4760(%rsp), %rdi
	movl	$525761, %esi
	jmp	45f
36:
	leaq	4760(%rsp), %rdi
	movl	$525762, %esi
	jmp	45f
37:
	leaq	4760(%rsp), %rdi
	movl	$524738, %esi
	jmp	45f
38:
	leaq	4760(%rsp), %rdi
	movl	$524737, %esi
	jmp	45f
39:
	leaq	4760(%rsp), %rdi
	movl	$524610, %esi
	jmp	45f
40:
	leaq	4760(%rsp), %rdi
	movl	$525058, %esi
	jmp	45f
41:
	leaq	4760(%rsp), %rdi
	movl	$524609, %esi
	jmp	45f
42:
	leaq	4760(%rsp), %rdi
	movl	$525122, %esi
	jmp	45f
43:
	leaq	4760(%rsp), %rdi
	movl	$525057, %esi
	jmp	45f
44:
	leaq	4760(%rsp), %rdi
	movl	$525121, %esi
45:
	movl	(%rsp), %edx
	xorl	%eax, %eax
	callq	open@PLT
	testl	%eax, %eax
	jns	56f
	.p2align	4
46:
	callq	rattle_errno@PLT
	leaq	656(%rsp), %rdi
	movl	%eax, %esi
	callq	"std_io::io::error::Error::from_raw_os_error"
	movzbl	657(%rsp), %esi
	movl	658(%rsp), %eax
	movzwl	662(%rsp), %ecx
	movq	656(%rsp), %xmm0
	movq	664(%rsp), %rdx
	movups	(%r13), %xmm1
	movups	16(%r13), %xmm2
	movups	32(%r13), %xmm3
	movups	48(%r13), %xmm4
	movaps	%xmm1, 336(%rsp)
	movaps	%xmm2, 352(%rsp)
	movaps	%xmm3, 368(%rsp)
	movaps	%xmm4, 384(%rsp)
	movq	64(%r13), %rdi
	movq	%rdi, 400(%rsp)
	movaps	1b(%rip), %xmm1
	movaps	%xmm1, 656(%rsp)
	movaps	2b(%rip), %xmm1
	movaps	%xmm1, 672(%rsp)
	movabsq	$2820983053732684064, %rdi
	movq	%rdi, 688(%rsp)
	movb	$40, 696(%rsp)
	cmpq	$41, %rsi
	jae	47f
	cmpb	$35, 656(%rsp,%rsi)
	je	18b
47:
	shlq	$32, %rcx
	orq	%rax, %rcx
	movq	400(%rsp), %rax
	movq	%rax, 80(%rsp)
	movaps	336(%rsp), %xmm1
	movaps	352(%rsp), %xmm2
	movaps	368(%rsp), %xmm3
	movaps	384(%rsp), %xmm4
	jmp	51f
48:
	cmpb	$0, 4(%r14)
	jne	49f
	cmpb	$0, 5(%r14)
	jne	49f
	cmpb	$1, 3(%r14)
	jne	57f
49:
	leaq	.L2c207e1bad0a(%rip), %rcx
	leaq	656(%rsp), %rdi
	movl	$61, %r8d
	movl	$61, %r9d
	movl	$3, %esi
	movl	$20, %edx
	callq	"std_io::io::error::Error::from_bytes"
	movq	656(%rsp), %xmm0
	movl	658(%rsp), %eax
	movzwl	662(%rsp), %ecx
	shlq	$32, %rcx
	orq	%rax, %rcx
	movq	664(%rsp), %rdx
	movups	672(%rsp), %xmm1
	movaps	%xmm1, 256(%rsp)
	movups	688(%rsp), %xmm1
	movaps	%xmm1, 272(%rsp)
	movups	704(%rsp), %xmm1
	movaps	%xmm1, 288(%rsp)
	movups	720(%rsp), %xmm1
	movaps	%xmm1, 304(%rsp)
	movq	736(%rsp), %rax
50:
	movq	%rax, 320(%rsp)
	movq	320(%rsp), %rax
	movq	%rax, 80(%rsp)
	movaps	256(%rsp), %xmm1
	movaps	272(%rsp), %xmm2
	movaps	288(%rsp), %xmm3
	movaps	304(%rsp), %xmm4
51:
	movaps	%xmm4, 64(%rsp)
	movaps	%xmm3, 48(%rsp)
	movaps	%xmm2, 32(%rsp)
	movaps	%xmm1, 16(%rsp)
52:
	xorl	%eax, %eax
	movl	$1, %esi
53:
	movaps	16(%rsp), %xmm1
	movaps	32(%rsp), %xmm2
	movaps	48(%rsp), %xmm3
	movaps	64(%rsp), %xmm4
	movaps	%xmm1, 96(%rsp)
	movaps	%xmm2, 112(%rsp)
	movaps	%xmm3, 128(%rsp)
	movaps	%xmm4, 144(%rsp)
	movq	80(%rsp), %rdi
	movq	%rdi, 160(%rsp)
54:
	movl	%esi, (%rbx)
	movl	%eax, 4(%rbx)
	shlq	$16, %rcx
	pextrb	$1, %xmm0, %eax
	shll	$8, %eax
	orq	%rcx, %rax
	pextrb	$0, %xmm0, %ecx
	orq	%rax, %rcx
	movq	%rcx, 8(%rbx)
	movq	%rdx, 16(%rbx)
	movaps	96(%rsp), %xmm0
	movaps	112(%rsp), %xmm1
	movaps	128(%rsp), %xmm2
	movaps	144(%rsp), %xmm3
	movups	%xmm0, 24(%rbx)
	movups	%xmm1, 40(%rbx)
	movups	%xmm2, 56(%rbx)
	movups	%xmm3, 72(%rbx)
	movq	160(%rsp), %rax
	movq	%rax, 88(%rbx)
	addq	$8856, %rsp
	popq	%rbx
	popq	%r12
	popq	%r13
	popq	%r14
	popq	%r15
	popq	%rbp
	retq
55:
	leaq	.L87b4d4e2734a(%rip), %rcx
	leaq	656(%rsp), %rdi
	movl	$43, %r8d
	movl	$43, %r9d
	movl	$2, %esi
	movl	$22, %edx
	callq	"std_io::io::error::Error::from_bytes"
	movq	656(%rsp), %xmm0
	movl	658(%rsp), %eax
	movzwl	662(%rsp), %ecx
	shlq	$32, %rcx
	orq	%rax, %rcx
	movq	664(%rsp), %rdx
	movq	736(%rsp), %rax
	movq	%rax, 560(%rsp)
	movups	720(%rsp), %xmm1
	movaps	%xmm1, 544(%rsp)
	movups	704(%rsp), %xmm2
	movaps	%xmm2, 528(%rsp)
	movups	688(%rsp), %xmm3
	movaps	%xmm3, 512(%rsp)
	movups	672(%rsp), %xmm4
	movaps	%xmm4, 496(%rsp)
	movaps	%xmm4, 16(%rsp)
	movaps	%xmm3, 32(%rsp)
	movaps	%xmm2, 48(%rsp)
	movaps	%xmm1, 64(%rsp)
	jmp	15b
56:
	movq	640(%rsp), %rcx
	movq	%rcx, 80(%rsp)
	movaps	576(%rsp), %xmm0
	movaps	592(%rsp), %xmm1
	movaps	608(%rsp), %xmm2
	movaps	624(%rsp), %xmm3
	movaps	%xmm3, 64(%rsp)
	movaps	%xmm2, 48(%rsp)
	movaps	%xmm1, 32(%rsp)
	movaps	%xmm0, 16(%rsp)
	xorps	%xmm0, %xmm0
	xorl	%ecx, %ecx
	xorl	%edx, %edx
	xorl	%esi, %esi
	jmp	53b
57:
	leaq	.Lc6ab5bfca453(%rip), %rcx
	leaq	4760(%rsp), %rdi
	movl	$58, %r8d
	movl	$58, %r9d
	movl	$3, %esi
	movl	$20, %edx
	callq	"std_io::io::error::Error::from_bytes"
	movq	4760(%rsp), %xmm0
	movl	4762(%rsp), %eax
	movzwl	4766(%rsp), %ecx
	shlq	$32, %rcx
	orq	%rax, %rcx
	movq	4768(%rsp), %rdx
	movups	4776(%rsp), %xmm1
	movaps	%xmm1, 256(%rsp)
	movups	4792(%rsp), %xmm1
	movaps	%xmm1, 272(%rsp)
	movups	4808(%rsp), %xmm1
	movaps	%xmm1, 288(%rsp)
	movups	4824(%rsp), %xmm1
	movaps	%xmm1, 304(%rsp)
	movq	4840(%rsp), %rax
	jmp	50b
58:
	.size	"std::fs::options::OpenOptions::open::<#05cc10b2f530382b>", 58b-"std::fs::options::OpenOptions::open::<#05cc10b2f530382b>"
	.section	.rodata,"a",@progbits
	.p2align	2, 0x0
59:
	.long	30b-59b
	.long	39b-59b
	.long	24b-59b
	.long	37b-59b
	.long	24b-59b
	.long	24b-59b
	.long	24b-59b
	.long	24b-59b
	.long	40b-59b
	.long	42b-59b
60:
	.long	28b-60b
	.long	41b-60b
	.long	24b-60b
	.long	38b-60b
	.long	24b-60b
	.long	24b-60b
	.long	24b-60b
	.long	24b-60b
	.long	43b-60b
	.long	44b-60b

	.text
	.p2align	4
	.type	"std::fs::stat::stat_at",@function
"std::fs::stat::stat_at":
	pushq	%rbp
	pushq	%r15
	pushq	%r14
	pushq	%r13
	pushq	%r12
	pushq	%rbx
	subq	$3072, %rsp
	movq	$0, (%rsp)
	subq	$3072, %rsp
	movq	$0, (%rsp)
	subq	$2328, %rsp
	movq	%rdi, %rbx
	xorps	%xmm0, %xmm0
	movaps	%xmm0, 256(%rsp)
	movaps	%xmm0, 240(%rsp)
	movaps	%xmm0, 224(%rsp)
	movaps	%xmm0, 208(%rsp)
	movaps	%xmm0, 192(%rsp)
	movaps	%xmm0, 176(%rsp)
	movaps	%xmm0, 160(%rsp)
	movaps	%xmm0, 144(%rsp)
	movaps	%xmm0, 128(%rsp)
	movaps	%xmm0, 112(%rsp)
	movaps	%xmm0, 96(%rsp)
	movaps	%xmm0, 80(%rsp)
	movaps	%xmm0, 64(%rsp)
	movaps	%xmm0, 48(%rsp)
	movaps	%xmm0, 32(%rsp)
	movaps	%xmm0, 16(%rsp)
	cmpq	$4096, %rcx
	jb	2f
	movl	$36, %edi
1:
	callq	rattle_set_errno@PLT
	jmp	8f
2:
	movl	%r8d, %ebp
	movl	%esi, %r14d
	testq	%rcx, %rcx
	je	4f
	xorl	%eax, %eax
	.p2align	4
3:
	cmpb	$0, (%rdx,%rax)
	je	5f
	incq	%rax
	cmpq	%rax, %rcx
	jne	3b
	jmp	6f
4:
	leaq	4376(%rsp), %rdi
	movl	$4095, %edx
	xorl	%esi, %esi
	callq	memset@PLT
	jmp	7f
5:
	cmpq	%rcx, %rax
	jae	6f
	movl	$22, %edi
	jmp	1b
6:
	movq	%rdx, %r12
	movq	%rcx, %r15
	leaq	4376(%rsp), %rdi
	movl	$4095, %edx
	xorl	%esi, %esi
	callq	memset@PLT
	leaq	4376(%rsp), %rdi
	movq	%r12, %rsi
	movq	%r15, %rdx
	callq	memcpy@PLT
7:
	movb	$0, 8471(%rsp)
	leaq	280(%rsp), %r15
	leaq	4376(%rsp), %rsi
	movl	$4096, %edx
	movq	%r15, %rdi
	callq	memcpy@PLT
	leaq	16(%rsp), %r8
	movl	%r14d, %edi
	movq	%r15, %rsi
	movl	%ebp, %edx
	movl	$4095, %ecx
	callq	statx@PLT
	testl	%eax, %eax
	js	8f
	movzwl	44(%rsp), %r11d
	movq	56(%rsp), %r10
	movq	80(%rsp), %r8
	movl	88(%rsp), %r9d
	movq	128(%rsp), %rax
	movq	%rax, 8(%rsp)
	movl	136(%rsp), %eax
	movl	%eax, (%rsp)
	movl	16(%rsp), %edx
	movl	20(%rsp), %eax
	movl	%eax, 4(%rsp)
	movl	%edx, %ecx
	shll	$20, %ecx
	sarl	$31, %ecx
	andl	$2048, %edx
	je	9f
	movq	96(%rsp), %r14
	jmp	10f
8:
	callq	rattle_errno@PLT
	leaq	280(%rsp), %rdi
	movl	%eax, %esi
	callq	"std_io::io::error::Error::from_raw_os_error"
	movups	304(%rsp), %xmm0
	movq	280(%rsp), %rax
	movq	336(%rsp), %rcx
	movq	360(%rsp), %rdx
	movups	288(%rsp), %xmm1
	movups	320(%rsp), %xmm2
	movups	344(%rsp), %xmm3
	movq	$1, (%rbx)
	movq	%rax, 8(%rbx)
	movups	%xmm1, 16(%rbx)
	movups	%xmm0, 32(%rbx)
	movups	%xmm2, 48(%rbx)
	movq	%rcx, 64(%rbx)
	movups	%xmm3, 72(%rbx)
	movq	%rdx, 88(%rbx)
	xorps	%xmm0, %xmm0
	movups	%xmm0, 96(%rbx)
	movups	%xmm0, 112(%rbx)
	movups	%xmm0, 128(%rbx)
	movups	%xmm0, 144(%rbx)
	movups	%xmm0, 160(%rbx)
	jmp	11f
9:
	xorl	%r14d, %r14d
10:
	andl	104(%rsp), %ecx
	movl	152(%rsp), %r12d
	movl	156(%rsp), %r13d
	movl	%r12d, %r15d
	andl	$-4096, %r15d
	shlq	$32, %r15
	shll	$8, %r12d
	andl	$1048320, %r12d
	orq	%r15, %r12
	movzbl	%r13b, %r15d
	shlq	$12, %r13
	andq	$-1048576, %r13
	orq	%r12, %r15
	orq	%r13, %r15
	movl	144(%rsp), %r13d
	movl	148(%rsp), %ebp
	movl	%r13d, %r12d
	andl	$-4096, %r12d
	shlq	$32, %r12
	shll	$8, %r13d
	andl	$1048320, %r13d
	orq	%r12, %r13
	movzbl	%bpl, %r12d
	orq	%r13, %r12
	movq	112(%rsp), %rax
	shlq	$12, %rbp
	andq	$-1048576, %rbp
	orq	%rbp, %r12
	movl	120(%rsp), %ebp
	movq	48(%rsp), %rsi
	movl	40(%rsp), %edi
	movq	64(%rsp), %r13
	movq	$0, (%rbx)
	movl	%r11d, 8(%rbx)
	movl	$0, 12(%rbx)
	movq	%r10, 16(%rbx)
	movq	$1, 24(%rbx)
	movq	%r8, 32(%rbx)
	movl	%r9d, 40(%rbx)
	movl	$0, 44(%rbx)
	movq	$1, 48(%rbx)
	movq	8(%rsp), %r8
	movq	%r8, 56(%rbx)
	movl	(%rsp), %r8d
	movl	%r8d, 64(%rbx)
	shrl	$11, %edx
	movl	$0, 68(%rbx)
	movq	%rdx, 72(%rbx)
	movq	%r14, 80(%rbx)
	movl	%ecx, 88(%rbx)
	movl	$0, 92(%rbx)
	movq	$1, 96(%rbx)
	movq	%rax, 104(%rbx)
	movl	%ebp, 112(%rbx)
	movl	$0, 116(%rbx)
	movq	%r15, 120(%rbx)
	movq	%rsi, 128(%rbx)
	movq	32(%rsp), %rax
	movq	%rax, 136(%rbx)
	movl	%edi, 144(%rbx)
	movl	$0, 148(%rbx)
	movq	%r12, 152(%rbx)
	movl	4(%rsp), %eax
	movl	%eax, 160(%rbx)
	movl	$0, 164(%rbx)
	movq	%r13, 168(%rbx)
11:
	addq	$8472, %rsp
	popq	%rbx
	popq	%r12
	popq	%r13
	popq	%r14
	popq	%r15
	popq	%rbp
	retq
12:
	.size	"std::fs::stat::stat_at", 12b-"std::fs::stat::stat_at"

	.section	.rodata.cst16,"aM",@progbits,16
	.p2align	4, 0x0
1:
	.byte	0,1,2,3,4,5,6,7,8,9,10,11,12,13,14,15
2:
	.byte	16,17,18,19,20,21,22,23,24,25,26,27,28,29,30,31
	.text
	.p2align	4
	.type	"std::io::buffered::BufWriter::flush_buf::<#ae3f758803b9f9a3>",@function
"std::io::buffered::BufWriter::flush_buf::<#ae3f758803b9f9a3>":
	pushq	%rbp
	pushq	%r15
	pushq	%r14
	pushq	%r13
	pushq	%r12
	pushq	%rbx
	subq	$360, %rsp
	movq	8(%rsi), %rbp
	testq	%rbp, %rbp
	je	7f
	movq	(%rsi), %rax
	leaq	104(%rsp), %r14
	xorl	%r13d, %r13d
	movq	%rdi, (%rsp)
	movq	%rsi, 8(%rsp)
	movq	%rax, 184(%rsp)
3:
	leaq	(%rax,%r13), %r12
	movq	%rbp, %r15
	subq	%r13, %r15
	xorl	%ebx, %ebx
	.p2align	4
4:
	incq	%rbx
	je	9f
	movl	$1, %edi
	movq	%r12, %rsi
	movq	%r15, %rdx
	callq	write@PLT
	testq	%rax, %rax
	jns	5f
	callq	rattle_errno@PLT
	leaq	96(%rsp), %rdi
	movl	%eax, %esi
	callq	"std_io::io::error::Error::from_raw_os_error"
	movq	96(%rsp), %rax
	movups	(%r14), %xmm0
	movups	16(%r14), %xmm1
	movups	32(%r14), %xmm2
	movups	48(%r14), %xmm3
	movaps	%xmm0, 272(%rsp)
	movaps	%xmm1, 288(%rsp)
	movaps	%xmm2, 304(%rsp)
	movaps	%xmm3, 320(%rsp)
	movups	64(%r14), %xmm0
	movaps	%xmm0, 336(%rsp)
	movq	%rax, %rcx
	shrq	$8, %rcx
	movaps	1b(%rip), %xmm0
	movaps	%xmm0, 96(%rsp)
	movaps	2b(%rip), %xmm0
	movaps	%xmm0, 112(%rsp)
	movabsq	$2820983053732684064, %rdx
	movq	%rdx, 128(%rsp)
	movb	$40, 136(%rsp)
	cmpb	$41, %cl
	jae	6f
	andl	$63, %ecx
	cmpb	$35, 96(%rsp,%rcx)
	je	4b
	jmp	6f
	.p2align	4
5:
	cmpq	%r15, %rax
	cmovbq	%rax, %r15
	testq	%r15, %r15
	je	23f
	addq	%r15, %r13
	cmpq	%rbp, %r13
	movq	(%rsp), %rdi
	movq	8(%rsp), %rsi
	movq	184(%rsp), %rax
	jb	3b
	jmp	8f
6:
	movaps	336(%rsp), %xmm0
	movaps	%xmm0, 256(%rsp)
	movaps	272(%rsp), %xmm0
	movaps	288(%rsp), %xmm1
	movaps	304(%rsp), %xmm2
	movaps	320(%rsp), %xmm3
	movaps	%xmm3, 240(%rsp)
	movaps	%xmm2, 224(%rsp)
	movaps	%xmm1, 208(%rsp)
	movaps	%xmm0, 192(%rsp)
	jmp	10f
7:
	xorl	%r13d, %r13d
8:
	xorps	%xmm0, %xmm0
	movaps	%xmm0, 80(%rsp)
	movaps	%xmm0, 64(%rsp)
	movaps	%xmm0, 48(%rsp)
	movaps	%xmm0, 32(%rsp)
	movaps	%xmm0, 16(%rsp)
	xorl	%ecx, %ecx
	xorl	%eax, %eax
	movq	8(%rsi), %r14
	movq	%r14, %rdx
	subq	%r13, %rdx
	jne	12f
	jmp	21f
9:
	leaq	.L87b4d4e2734a(%rip), %rcx
	leaq	96(%rsp), %rdi
	movl	$43, %r8d
	movl	$43, %r9d
	movl	$2, %esi
	movl	$22, %edx
	callq	"std_io::io::error::Error::from_bytes"
	movq	96(%rsp), %rax
	movups	104(%rsp), %xmm0
	movaps	%xmm0, 192(%rsp)
	movups	120(%rsp), %xmm0
	movaps	%xmm0, 208(%rsp)
	movups	136(%rsp), %xmm0
	movaps	%xmm0, 224(%rsp)
	movups	152(%rsp), %xmm0
	movaps	%xmm0, 240(%rsp)
	movups	168(%rsp), %xmm0
	movaps	%xmm0, 256(%rsp)
10:
	movq	(%rsp), %rdi
	movaps	192(%rsp), %xmm0
	movaps	208(%rsp), %xmm1
	movaps	224(%rsp), %xmm2
	movaps	240(%rsp), %xmm3
	movaps	%xmm0, 16(%rsp)
	movaps	%xmm1, 32(%rsp)
	movaps	%xmm2, 48(%rsp)
	movaps	%xmm3, 64(%rsp)
	movaps	256(%rsp), %xmm0
	movaps	%xmm0, 80(%rsp)
	movb	$1, %cl
11:
	movq	8(%rsp), %rsi
	movq	8(%rsi), %r14
	movq	%r14, %rdx
	subq	%r13, %rdx
	je	21f
12:
	movq	(%rsi), %rbx
	cmpq	$4, %rdx
	setb	%r8b
	leaq	31(%r13), %r9
	cmpq	$32, %r9
	setb	%r9b
	orb	%r8b, %r9b
	je	13f
	xorl	%r8d, %r8d
	jmp	18f
13:
	cmpq	$32, %rdx
	jae	14f
	xorl	%r8d, %r8d
	jmp	16f
14:
	movq	%rdx, %r8
	andq	$-32, %r8
	leaq	16(%rbx), %r9
	movq	%r8, %r10
	.p2align	4
15:
	movups	-16(%r9,%r13), %xmm0
	movups	(%r9,%r13), %xmm1
	movups	%xmm0, -16(%r9)
	movups	%xmm1, (%r9)
	addq	$32, %r9
	addq	$-32, %r10
	jne	15b
	cmpq	%r8, %rdx
	je	20f
	testb	$28, %dl
	je	18f
16:
	movq	%r8, %r9
	movq	%rdx, %r8
	andq	$-4, %r8
	leaq	(%rbx,%r9), %r10
	subq	%r8, %r9
	.p2align	4
17:
	movl	(%r10,%r13), %r11d
	movl	%r11d, (%r10)
	addq	$4, %r10
	addq	$4, %r9
	jne	17b
	cmpq	%r8, %rdx
	je	20f
18:
	subq	%r8, %r14
	addq	%r8, %rbx
	.p2align	4
19:
	movzbl	(%rbx,%r13), %r8d
	movb	%r8b, (%rbx)
	decq	%r14
	incq	%rbx
	cmpq	%r14, %r13
	jne	19b
20:
	movq	8(%rsi), %r13
21:
	cmpq	%rdx, %r13
	jbe	22f
	movq	%rdx, 8(%rsi)
22:
	movb	%cl, (%rdi)
	movq	%rax, 8(%rdi)
	movaps	16(%rsp), %xmm0
	movaps	32(%rsp), %xmm1
	movaps	48(%rsp), %xmm2
	movaps	64(%rsp), %xmm3
	movups	%xmm0, 16(%rdi)
	movups	%xmm1, 32(%rdi)
	movups	%xmm2, 48(%rdi)
	movups	%xmm3, 64(%rdi)
	movaps	80(%rsp), %xmm0
	movups	%xmm0, 80(%rdi)
	addq	$360, %rsp
	popq	%rbx
	popq	%r12
	popq	%r13
	popq	%r14
	popq	%r15
	popq	%rbp
	retq
23:
	leaq	.L949f8d3ad925(%rip), %rcx
	leaq	96(%rsp), %rdi
	movl	$33, %r8d
	movl	$33, %r9d
	movl	$2, %esi
	movl	$23, %edx
	callq	"std_io::io::error::Error::from_bytes"
	movq	96(%rsp), %rax
	movups	104(%rsp), %xmm0
	movaps	%xmm0, 16(%rsp)
	movups	120(%rsp), %xmm0
	movaps	%xmm0, 32(%rsp)
	movups	136(%rsp), %xmm0
	movaps	%xmm0, 48(%rsp)
	movups	152(%rsp), %xmm0
	movaps	%xmm0, 64(%rsp)
	movups	168(%rsp), %xmm0
	movaps	%xmm0, 80(%rsp)
	movb	$1, %cl
	movq	(%rsp), %rdi
	jmp	11b
24:
	.size	"std::io::buffered::BufWriter::flush_buf::<#ae3f758803b9f9a3>", 24b-"std::io::buffered::BufWriter::flush_buf::<#ae3f758803b9f9a3>"

	.section	.rodata.cst16,"aM",@progbits,16
	.p2align	4, 0x0
1:
	.zero	16,46
2:
	.quad	3327647951695996518,3327647950551526958
3:
	.quad	2334399978102268015,8458358670138239095
4:
	.quad	1840898,8367798494427701606
5:
	.byte	0,1,2,3,4,5,6,7,8,9,10,11,12,13,14,15
6:
	.byte	16,17,18,19,20,21,22,23,24,25,26,27,28,29,30,31
	.section	.text.unlikely,"ax",@progbits
	.p2align	4
	.type	"std::io::buffered::BufWriter::write_all_cold::<#ae3f758803b9f9a3>",@function
"std::io::buffered::BufWriter::write_all_cold::<#ae3f758803b9f9a3>":
	pushq	%rbp
	pushq	%r15
	pushq	%r14
	pushq	%r13
	pushq	%r12
	pushq	%rbx
	subq	$200, %rsp
	movq	%rcx, %r14
	movq	%rdx, %r15
	movq	%rdi, %rbx
	xorps	%xmm0, %xmm0
	movaps	%xmm0, 176(%rsp)
	movaps	%xmm0, 160(%rsp)
	movaps	%xmm0, 144(%rsp)
	movaps	%xmm0, 128(%rsp)
	movaps	%xmm0, 112(%rsp)
	movaps	%xmm0, 96(%rsp)
	movq	16(%rsi), %r12
	cmpq	%rcx, %r12
	jbe	7f
	movaps	%xmm0, 80(%rsp)
	movaps	%xmm0, 64(%rsp)
	movaps	%xmm0, 48(%rsp)
	movaps	%xmm0, 32(%rsp)
	movaps	%xmm0, 16(%rsp)
	movaps	%xmm0, (%rsp)
	movq	8(%rsi), %rax
	movq	%r12, %rcx
	subq	%rax, %rcx
	cmpq	%r14, %rcx
	jae	13f
	movq	%rsp, %rdi
	movq	%rsi, %r13
	callq	"std::io::buffered::BufWriter::flush_buf::<#ae3f758803b9f9a3>"
	cmpb	$0, (%rsp)
	je	12f
	movups	8(%rsp), %xmm0
	movups	24(%rsp), %xmm1
	movups	40(%rsp), %xmm2
	movups	56(%rsp), %xmm3
	movups	72(%rsp), %xmm4
	movb	$1, %cl
	movq	88(%rsp), %rax
	jmp	22f
7:
	leaq	96(%rsp), %rdi
	callq	"std::io::buffered::BufWriter::flush_buf::<#ae3f758803b9f9a3>"
	cmpb	$0, 96(%rsp)
	je	8f
	movq	184(%rsp), %rax
	movb	$1, (%rbx)
	movups	104(%rsp), %xmm0
	movups	%xmm0, 8(%rbx)
	movups	120(%rsp), %xmm0
	movups	%xmm0, 24(%rbx)
	movups	136(%rsp), %xmm0
	movups	%xmm0, 40(%rbx)
	movups	152(%rsp), %xmm0
	movups	%xmm0, 56(%rbx)
	movups	168(%rsp), %xmm0
	movups	%xmm0, 72(%rbx)
	jmp	23f
8:
	movl	$1, %r12d
	jmp	10f
	.p2align	4
9:
	incq	%r12
	je	24f
10:
	testq	%r14, %r14
	je	21f
	movl	$1, %edi
	movq	%r15, %rsi
	movq	%r14, %rdx
	callq	write@PLT
	testq	%rax, %rax
	js	11f
	je	27f
	cmpq	%r14, %rax
	cmovaeq	%r14, %rax
	addq	%rax, %r15
	subq	%rax, %r14
	jmp	9b
	.p2align	4
11:
	callq	rattle_errno@PLT
	movq	%rsp, %rdi
	movl	%eax, %esi
	callq	"std_io::io::error::Error::from_raw_os_error"
	movaps	(%rsp), %xmm0
	movaps	16(%rsp), %xmm1
	movaps	32(%rsp), %xmm2
	movaps	48(%rsp), %xmm3
	movq	(%rsp), %rcx
	movaps	64(%rsp), %xmm4
	movq	80(%rsp), %rax
	shrq	$8, %rcx
	movaps	5b(%rip), %xmm5
	movaps	%xmm5, (%rsp)
	movaps	6b(%rip), %xmm5
	movaps	%xmm5, 16(%rsp)
	movabsq	$2820983053732684064, %rdx
	movq	%rdx, 32(%rsp)
	movb	$40, 40(%rsp)
	cmpb	$41, %cl
	jae	25f
	andl	$63, %ecx
	cmpb	$35, (%rsp,%rcx)
	je	9b
	jmp	25f
12:
	movq	%r13, %rsi
	movq	8(%r13), %rax
	movq	16(%r13), %r12
	movq	%r12, %rcx
	subq	%rax, %rcx
	cmpq	%rcx, %r14
	ja	32f
13:
	leaq	8(%rsi), %rcx
	leaq	(%rax,%r14), %r10
	movq	(%rsi), %rbp
	xorps	%xmm0, %xmm0
	movups	%xmm0, (%rcx)
	leaq	(%rax,%rbp), %rdi
	movq	%rdi, %rcx
	subq	%r15, %rcx
	cmpq	%r14, %rcx
	jae	19f
	cmpq	$4, %r14
	jb	14f
	cmpq	$32, %rcx
	jae	26f
14:
	xorl	%ecx, %ecx
15:
	movq	%r14, %r8
	movq	%rcx, %rdx
	andq	$3, %r8
	je	17f
	movq	%rcx, %rdx
	.p2align	4
16:
	movzbl	(%r15,%rdx), %r9d
	movb	%r9b, (%rdi,%rdx)
	incq	%rdx
	decq	%r8
	jne	16b
17:
	subq	%r14, %rcx
	cmpq	$-4, %rcx
	ja	20f
	addq	%rbp, %rax
	addq	$3, %rax
	.p2align	4
18:
	movzbl	(%r15,%rdx), %ecx
	movb	%cl, -3(%rax,%rdx)
	movzbl	1(%r15,%rdx), %ecx
	movb	%cl, -2(%rax,%rdx)
	movzbl	2(%r15,%rdx), %ecx
	movb	%cl, -1(%rax,%rdx)
	movzbl	3(%r15,%rdx), %ecx
	movb	%cl, (%rax,%rdx)
	addq	$4, %rdx
	cmpq	%rdx, %r14
	jne	18b
	jmp	20f
19:
	movq	%rsi, %r13
	movq	%r15, %rsi
	movq	%r14, %rdx
	movq	%r10, %r14
	callq	memmove@PLT
	movq	%r14, %r10
	movq	%r13, %rsi
20:
	movq	%rbp, (%rsi)
	movq	%r10, 8(%rsi)
	movq	%r12, 16(%rsi)
21:
	xorps	%xmm0, %xmm0
	xorl	%ecx, %ecx
	xorl	%eax, %eax
	xorps	%xmm1, %xmm1
	xorps	%xmm2, %xmm2
	xorps	%xmm3, %xmm3
	xorps	%xmm4, %xmm4
22:
	movb	%cl, (%rbx)
	movups	%xmm0, 8(%rbx)
	movups	%xmm1, 24(%rbx)
	movups	%xmm2, 40(%rbx)
	movups	%xmm3, 56(%rbx)
	movups	%xmm4, 72(%rbx)
23:
	movq	%rax, 88(%rbx)
	addq	$200, %rsp
	popq	%rbx
	popq	%r12
	popq	%r13
	popq	%r14
	popq	%r15
	popq	%rbp
	retq
24:
	leaq	.L87b4d4e2734a(%rip), %rcx
	movq	%rsp, %rdi
	movl	$43, %r8d
	movl	$43, %r9d
	movl	$2, %esi
	movl	$22, %edx
	callq	"std_io::io::error::Error::from_bytes"
	movaps	(%rsp), %xmm0
	movaps	16(%rsp), %xmm1
	movaps	32(%rsp), %xmm2
	movaps	48(%rsp), %xmm3
	movaps	64(%rsp), %xmm4
	movq	80(%rsp), %rax
25:
	movb	$1, %cl
	jmp	22b
26:
	cmpq	$32, %r14
	jae	28f
	xorl	%ecx, %ecx
	jmp	30f
27:
	movaps	1b(%rip), %xmm3
	movaps	2b(%rip), %xmm2
	movaps	3b(%rip), %xmm1
	movaps	4b(%rip), %xmm0
	movabsq	$3327647950551526958, %rax
	movb	$1, %cl
	movaps	%xmm3, %xmm4
	jmp	22b
28:
	movq	%r14, %rcx
	andq	$-32, %rcx
	leaq	(%rax,%rbp), %rdx
	addq	$16, %rdx
	xorl	%r8d, %r8d
	.p2align	4
29:
	movups	(%r15,%r8), %xmm0
	movups	16(%r15,%r8), %xmm1
	movups	%xmm0, -16(%rdx,%r8)
	movups	%xmm1, (%rdx,%r8)
	addq	$32, %r8
	cmpq	%r8, %rcx
	jne	29b
	cmpq	%rcx, %r14
	je	20b
	testb	$28, %r14b
	je	15b
30:
	movq	%rcx, %rdx
	movq	%r14, %rcx
	andq	$-4, %rcx
	.p2align	4
31:
	movl	(%r15,%rdx), %r8d
	movl	%r8d, (%rdi,%rdx)
	addq	$4, %rdx
	cmpq	%rdx, %rcx
	jne	31b
	cmpq	%rcx, %r14
	je	20b
	jmp	15b
32:
	movq	%rsi, %rdi
	movq	%r14, %rsi
	callq	"std_alloc::vec::Vec::grow_amortized::<#1d775b5957dec42c>"
	testb	%al, %al
	je	33f
	movq	%r13, %rsi
	movq	8(%r13), %rax
	movq	16(%r13), %r12
	jmp	13b
33:
	ud2
34:
	.size	"std::io::buffered::BufWriter::write_all_cold::<#ae3f758803b9f9a3>", 34b-"std::io::buffered::BufWriter::write_all_cold::<#ae3f758803b9f9a3>"
