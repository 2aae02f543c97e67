# Made by dist/refresh of what is proved.

	.section	.rodata.cst16,"aM",@progbits,16
	.p2align	4, 0x0
1:
	.byte	3,2,1,0,7,6,5,4,11,10,9,8,15,14,13,12
	.text
	.p2align	4
	.type	"mime_c::database::open::open",@function
"mime_c::database::open::open":
	pushq	%rbp
	pushq	%r15
	pushq	%r14
	pushq	%r13
	pushq	%r12
	pushq	%rbx
	subq	$232, %rsp
	movl	$0, 75(%rsp)
	movl	$0, 72(%rsp)
	movl	$0, 64(%rsp)
	movl	$0, 67(%rsp)
	movl	$0, 56(%rsp)
	movl	$0, 59(%rsp)
	movl	$0, 48(%rsp)
	movl	$0, 51(%rsp)
	xorl	%r11d, %r11d
	cmpq	$40, %rdx
	jae	2f
	xorl	%r13d, %r13d
	jmp	4f
2:
	movq	%rcx, %r10
	movq	%rsi, %rbp
	movq	(%r9), %rax
	incq	%rax
	movq	$-1, %rcx
	cmovneq	%rax, %rcx
	movq	%rcx, (%r9)
	movl	(%rsi), %ecx
	cmpl	$33554688, %ecx
	bswapl	%ecx
	jne	3f
	movq	%rdx, %r14
	movl	$2, %r13d
	cmpq	$268435456, %rdx
	ja	4f
	movdqu	20(%rbp), %xmm1
	movdqa	1b(%rip), %xmm0
	pshufb	%xmm0, %xmm1
	movl	36(%rbp), %r9d
	movdqu	4(%rbp), %xmm2
	movabsq	$-281474976710656, %r15
	movd	%xmm1, %edx
	leaq	4(%rdx), %rax
	cmpq	%rax, %r14
	jae	12f
	xorl	%esi, %esi
	jmp	13f
3:
	movl	%ecx, %eax
	andl	$-65536, %eax
	movzwl	%cx, %ecx
	shlq	$32, %rcx
	leaq	(%rcx,%rax), %r13
	incq	%r13
4:
	movzbl	%r13b, %eax
	movl	%eax, 12(%rsp)
	movl	$0, 43(%rsp)
	movl	$0, 40(%rsp)
	movl	$0, 32(%rsp)
	movl	$0, 35(%rsp)
	movl	$0, 24(%rsp)
	movl	$0, 27(%rsp)
	movl	$0, 16(%rsp)
	movl	$0, 19(%rsp)
	pxor	%xmm2, %xmm2
	pxor	%xmm1, %xmm1
	xorl	%eax, %eax
	xorl	%r15d, %r15d
	xorl	%r14d, %r14d
	xorl	%ebp, %ebp
	xorl	%r9d, %r9d
	movq	$0, 120(%rsp)
	xorl	%ebx, %ebx
	xorl	%r12d, %r12d
	xorl	%ecx, %ecx
	xorl	%edx, %edx
	xorl	%esi, %esi
	xorl	%r10d, %r10d
	xorl	%r8d, %r8d
5:
	movl	$0, 104(%rsp)
	movl	$0, 107(%rsp)
	movl	$0, 96(%rsp)
	movl	$0, 99(%rsp)
	movl	$0, 88(%rsp)
	movl	$0, 91(%rsp)
	movl	$0, 80(%rsp)
	movl	$0, 83(%rsp)
	testb	%al, %al
	je	6f
	movq	%rdx, 144(%rsp)
	movq	%rcx, 112(%rsp)
	movl	40(%rsp), %ecx
	movl	43(%rsp), %edx
	movl	%edx, 107(%rsp)
	movl	%ecx, 104(%rsp)
	movl	32(%rsp), %ecx
	movl	35(%rsp), %edx
	movl	%ecx, 96(%rsp)
	movl	%edx, 99(%rsp)
	movl	24(%rsp), %ecx
	movl	27(%rsp), %edx
	movl	%ecx, 88(%rsp)
	movl	%edx, 91(%rsp)
	movl	16(%rsp), %ecx
	movl	19(%rsp), %edx
	movl	%ecx, 80(%rsp)
	movl	%edx, 83(%rsp)
	movq	%r14, 136(%rsp)
	jmp	7f
6:
	movl	12(%rsp), %ecx
	movzbl	%cl, %ecx
	movl	%ecx, 12(%rsp)
	pxor	%xmm2, %xmm2
	pxor	%xmm1, %xmm1
	xorl	%ebp, %ebp
	movq	$0, 136(%rsp)
	xorl	%r11d, %r11d
	xorl	%r9d, %r9d
	movq	$0, 120(%rsp)
	xorl	%ebx, %ebx
	xorl	%r12d, %r12d
	movq	$0, 112(%rsp)
	movq	$0, 144(%rsp)
	xorl	%esi, %esi
	xorl	%r10d, %r10d
	xorl	%r8d, %r8d
	xorl	%r15d, %r15d
7:
	movl	104(%rsp), %ecx
	movl	107(%rsp), %edx
	movl	%edx, 75(%rsp)
	movl	%ecx, 72(%rsp)
	movl	96(%rsp), %ecx
	movl	99(%rsp), %edx
	movl	%ecx, 64(%rsp)
	movl	%edx, 67(%rsp)
	movl	88(%rsp), %ecx
	movl	91(%rsp), %edx
	movl	%ecx, 56(%rsp)
	movl	%edx, 59(%rsp)
	movl	80(%rsp), %ecx
	movl	83(%rsp), %edx
	movl	%ecx, 48(%rsp)
	movl	%edx, 51(%rsp)
	testb	%al, %al
	je	8f
	movq	%r12, 152(%rsp)
	movq	%rbx, 160(%rsp)
	movl	%r9d, %ebx
	movq	%r11, %r12
	movq	%rsi, 168(%rsp)
	movdqa	%xmm2, 192(%rsp)
	movdqa	%xmm1, 208(%rsp)
	movq	%r8, 176(%rsp)
	movq	%r10, 184(%rsp)
	movq	%rdi, 128(%rsp)
	movl	$224, %edi
	movl	$8, %esi
	callq	rattle_alloc@PLT
	testb	$1, %al
	je	9f
	movabsq	$281474976645120, %rax
	andq	%rax, %r13
	orq	%r13, %r15
	movzwl	12(%rsp), %eax
	orq	%r15, %rax
	movq	%rax, (%rdx)
	movq	%r14, 8(%rdx)
	movq	%rbp, 16(%rdx)
	movq	136(%rsp), %rax
	movq	%rax, 24(%rdx)
	movl	%r12d, 32(%rdx)
	movaps	192(%rsp), %xmm0
	movups	%xmm0, 36(%rdx)
	movdqa	208(%rsp), %xmm0
	movdqu	%xmm0, 52(%rdx)
	movl	%ebx, 68(%rdx)
	movb	$0, 72(%rdx)
	movl	72(%rsp), %eax
	movl	75(%rsp), %ecx
	movl	%eax, 73(%rdx)
	movl	%ecx, 76(%rdx)
	movq	$0, 80(%rdx)
	movb	$0, 88(%rdx)
	movl	64(%rsp), %eax
	movl	67(%rsp), %ecx
	movl	%eax, 89(%rdx)
	movl	%ecx, 92(%rdx)
	movq	$0, 96(%rdx)
	movb	$0, 104(%rdx)
	movl	56(%rsp), %eax
	movl	59(%rsp), %ecx
	movl	%ecx, 108(%rdx)
	movl	%eax, 105(%rdx)
	movq	$0, 112(%rdx)
	movb	$0, 120(%rdx)
	movl	48(%rsp), %eax
	movl	51(%rsp), %ecx
	movl	%ecx, 124(%rdx)
	movl	%eax, 121(%rdx)
	movq	$0, 128(%rdx)
	movq	120(%rsp), %rcx
	movq	%rcx, 136(%rdx)
	movq	160(%rsp), %rax
	movq	%rax, 144(%rdx)
	movq	%rcx, 152(%rdx)
	movq	152(%rsp), %rax
	movq	%rax, 160(%rdx)
	movq	%rcx, 168(%rdx)
	movq	112(%rsp), %rax
	movq	%rax, 176(%rdx)
	movq	%rcx, 184(%rdx)
	movq	144(%rsp), %rax
	movq	%rax, 192(%rdx)
	movq	168(%rsp), %rax
	movq	%rax, 200(%rdx)
	movq	184(%rsp), %rax
	movq	%rax, 208(%rdx)
	movq	176(%rsp), %rax
	movq	%rax, 216(%rdx)
	movq	128(%rsp), %r15
	movq	$0, (%r15)
	movq	%rdx, 8(%r15)
	jmp	10f
8:
	movzbl	12(%rsp), %eax
	movq	$1, (%rdi)
	movabsq	$281474976645120, %rcx
	andq	%rcx, %r13
	orq	%r13, %rax
	movq	%rax, 8(%rdi)
	movq	%r14, 16(%rdi)
	jmp	11f
9:
	movq	128(%rsp), %r15
	movq	$1, (%r15)
	movq	$7, 8(%r15)
10:
	movq	$0, 16(%r15)
11:
	addq	$232, %rsp
	popq	%rbx
	popq	%r12
	popq	%r13
	popq	%r14
	popq	%r15
	popq	%rbp
	retq
12:
	movl	(%rbp,%rdx), %edx
	bswapl	%edx
	leaq	(%rdx,%rdx,2), %rsi
	leaq	(%rax,%rsi,4), %rax
	xorl	%esi, %esi
	cmpq	%rax, %r14
	cmovaeq	%rdx, %rsi
13:
	bswapl	%r9d
	pshufb	%xmm0, %xmm2
	andq	%rbp, %r15
	movq	%r14, %rax
	shrq	$2, %rax
	movq	%r14, %rdx
	shrq	$3, %rdx
	leaq	(%rax,%rdx), %rbx
	addq	$5, %rbx
	leaq	2(%rdx), %r12
	movq	%r14, %rax
	shrq	%rax
	addq	%rdx, %rax
	addq	$3, %rax
	movq	%rax, 112(%rsp)
	leaq	4(%rdx,%rdx,2), %rdx
	movl	$0, 43(%rsp)
	movl	$0, 40(%rsp)
	movl	$0, 32(%rsp)
	movl	$0, 35(%rsp)
	movl	$0, 24(%rsp)
	movl	$0, 27(%rsp)
	movl	$0, 16(%rsp)
	movl	$0, 19(%rsp)
	movl	$1, %eax
	movq	%rax, 120(%rsp)
	movb	$1, %al
	movl	%ebp, %r11d
	movl	%r11d, 12(%rsp)
	movq	%rbp, %r13
	movl	%ecx, %r11d
	movq	112(%rsp), %rcx
	jmp	5b
14:
	.size	"mime_c::database::open::open", 14b-"mime_c::database::open::open"

	.text
	.p2align	4
	.type	"mime_c::database::open_database::OpenDatabase::read_paid",@function
"mime_c::database::open_database::OpenDatabase::read_paid":
	subq	$24, %rsp
	xorps	%xmm0, %xmm0
	movaps	%xmm0, (%rsp)
	cmpb	$1, 136(%rdi)
	jne	1f
	cmpq	$0, 144(%rdi)
	jne	1f
	leaq	136(%rdi), %rax
	movups	%xmm0, (%rax)
	movq	%rsp, %rsi
	callq	"mime_lookup::cached::paid_cache::PaidCache::read_names"
	addq	$24, %rsp
	retq
1:
	cmpb	$1, 152(%rdi)
	jne	2f
	cmpq	$0, 160(%rdi)
	jne	2f
	leaq	152(%rdi), %rax
	movups	%xmm0, (%rax)
	movq	%rsp, %rsi
	callq	"mime_lookup::cached::paid_cache::PaidCache::read_magic"
	addq	$24, %rsp
	retq
2:
	cmpb	$1, 168(%rdi)
	jne	3f
	cmpq	$0, 176(%rdi)
	jne	3f
	leaq	168(%rdi), %rax
	movups	%xmm0, (%rax)
	movq	%rsp, %rsi
	callq	"mime_lookup::cached::paid_cache::PaidCache::read_pairs"
	addq	$24, %rsp
	retq
3:
	cmpb	$1, 184(%rdi)
	jne	4f
	cmpq	$0, 192(%rdi)
	jne	4f
	leaq	184(%rdi), %rax
	movups	%xmm0, (%rax)
	movq	%rsp, %rsi
	callq	"mime_lookup::cached::paid_cache::PaidCache::read_icons"
4:
	addq	$24, %rsp
	retq
5:
	.size	"mime_c::database::open_database::OpenDatabase::read_paid", 5b-"mime_c::database::open_database::OpenDatabase::read_paid"

	.text
	.p2align	4
	.type	"mime_c::merge::merged_cache",@function
"mime_c::merge::merged_cache":
	pushq	%rbp
	pushq	%r15
	pushq	%r14
	pushq	%r13
	pushq	%r12
	pushq	%rbx
	subq	$1784, %rsp
	movq	%rdx, %r14
	movq	%rsi, %r15
	movq	%rdi, 1032(%rsp)
	movl	$0, 139(%rsp)
	movl	$0, 136(%rsp)
	movl	$0, 864(%rsp)
	movl	$0, 867(%rsp)
	movl	$0, 216(%rsp)
	movl	$0, 219(%rsp)
	movl	$0, 344(%rsp)
	movl	$0, 347(%rsp)
	leaq	1184(%rsp), %rdi
	movl	$320, %edx
	xorl	%esi, %esi
	callq	memset@PLT
	leaq	8(%rsp), %rbx
	movq	%rbx, 784(%rsp)
	pxor	%xmm0, %xmm0
	movdqu	%xmm0, 792(%rsp)
	movq	%r14, 200(%rsp)
	testq	%r14, %r14
	je	4f
	leaq	1224(%rsp), %r14
	xorl	%ebp, %ebp
	xorl	%r13d, %r13d
	.p2align	4
1:
	leaq	1184(%rsp), %rdi
	movq	%r13, %rsi
	movq	%r15, %rdx
	callq	"mime_text::dir_texts::read_dir"
	movq	1192(%rsp), %r12
	movq	1200(%rsp), %rax
	movq	%rax, 16(%rsp)
	movzbl	1208(%rsp), %eax
	movq	%rax, 208(%rsp)
	movq	1216(%rsp), %rax
	movq	%rax, 24(%rsp)
	cmpb	$0, 1184(%rsp)
	jne	5f
	movl	-15(%r14), %eax
	movl	-12(%r14), %ecx
	movl	%eax, 352(%rsp)
	movl	%ecx, 355(%rsp)
	leaq	400(%rsp), %rdi
	movl	$280, %edx
	movq	%r14, %rsi
	callq	memcpy@PLT
	cmpq	%rbp, 800(%rsp)
	je	3f
2:
	imulq	$312, %rbp, %rax
	movq	%r12, (%rbx,%rax)
	movq	16(%rsp), %rcx
	movq	%rcx, 8(%rbx,%rax)
	movq	208(%rsp), %rcx
	movb	%cl, 16(%rbx,%rax)
	movl	352(%rsp), %ecx
	movl	355(%rsp), %edx
	movl	%ecx, 17(%rbx,%rax)
	movl	%edx, 20(%rbx,%rax)
	movq	24(%rsp), %rcx
	movq	%rcx, 24(%rbx,%rax)
	leaq	(%rbx,%rax), %rdi
	addq	$32, %rdi
	leaq	400(%rsp), %rsi
	movl	$280, %edx
	callq	memcpy@PLT
	incq	%rbp
	movq	%rbp, 792(%rsp)
	incq	%r13
	addq	$96, %r15
	cmpq	%r13, 200(%rsp)
	jne	1b
	jmp	10f
3:
	leaq	784(%rsp), %rdi
	callq	"std_alloc::vec::Vec::grow_amortized::<#a3975ff14a0d29f4>"
	testb	%al, %al
	je	289f
	movq	784(%rsp), %rbx
	movq	792(%rsp), %rbp
	jmp	2b
4:
	leaq	8(%rsp), %rcx
	xorl	%eax, %eax
	xorl	%ebp, %ebp
	jmp	11f
5:
	movq	800(%rsp), %r13
	testq	%rbp, %rbp
	je	7f
	movq	%rbx, %r14
	.p2align	4
6:
	leaq	400(%rsp), %r15
	movl	$312, %edx
	movq	%r15, %rdi
	movq	%r14, %rsi
	callq	memcpy@PLT
	movq	%r15, %rdi
	callq	"mime_text::mime_text++merging++DirFiles+Destruct::drop"
	addq	$312, %r14
	decq	%rbp
	jne	6b
7:
	testq	%r13, %r13
	je	8f
	movq	%rbx, %rdi
	callq	rattle_dealloc@PLT
8:
	testb	%r12b, %r12b
	je	195f
9:
	movl	$2, %eax
	xorl	%esi, %esi
	xorl	%ecx, %ecx
	xorl	%edi, %edi
	jmp	196f
10:
	movq	784(%rsp), %rcx
	movzbl	800(%rsp), %eax
11:
	movl	801(%rsp), %edx
	movl	804(%rsp), %esi
	movl	%esi, 867(%rsp)
	movl	%edx, 864(%rsp)
	pxor	%xmm0, %xmm0
	movdqa	%xmm0, 1184(%rsp)
	movdqa	%xmm0, 1200(%rsp)
	movdqa	%xmm0, 1216(%rsp)
	movdqa	%xmm0, 1232(%rsp)
	movdqa	%xmm0, 1248(%rsp)
	movdqa	%xmm0, 1264(%rsp)
	movdqa	%xmm0, 1280(%rsp)
	movdqa	%xmm0, 1296(%rsp)
	movdqa	%xmm0, 1312(%rsp)
	movq	$0, 1328(%rsp)
	movq	%rcx, 1056(%rsp)
	movq	%rbp, 1064(%rsp)
	movb	%al, 1072(%rsp)
	movl	864(%rsp), %eax
	movl	867(%rsp), %ecx
	movl	%eax, 1073(%rsp)
	movl	%ecx, 1076(%rsp)
	leaq	1184(%rsp), %rdi
	leaq	1056(%rsp), %rsi
	callq	"mime_text::merging::merge"
	cmpb	$0, 1184(%rsp)
	jne	329f
	movq	1192(%rsp), %rbx
	movq	1200(%rsp), %r15
	movq	1208(%rsp), %rax
	movq	%rax, 336(%rsp)
	movq	1216(%rsp), %rax
	movq	%rax, 304(%rsp)
	movq	1224(%rsp), %r13
	movq	1232(%rsp), %rax
	movq	%rax, 992(%rsp)
	movq	1240(%rsp), %rax
	movq	%rax, 296(%rsp)
	movq	1248(%rsp), %r12
	movq	1256(%rsp), %rax
	movq	%rax, 1000(%rsp)
	movq	1264(%rsp), %rax
	movq	%rax, 272(%rsp)
	movq	1272(%rsp), %rax
	movq	%rax, 200(%rsp)
	movq	1280(%rsp), %rax
	movq	%rax, 1008(%rsp)
	movq	1288(%rsp), %rax
	movq	%rax, 288(%rsp)
	movq	1296(%rsp), %rax
	movq	%rax, 208(%rsp)
	movq	1304(%rsp), %rax
	movq	%rax, 1016(%rsp)
	pxor	%xmm0, %xmm0
	movdqa	%xmm0, 880(%rsp)
	movq	$0, 896(%rsp)
	movq	$0, 720(%rsp)
	movdqa	%xmm0, 752(%rsp)
	movq	$0, 768(%rsp)
	movdqa	%xmm0, 400(%rsp)
	movq	$0, 416(%rsp)
	movq	1312(%rsp), %rax
	movq	%rax, 280(%rsp)
	movq	1320(%rsp), %rax
	movq	%rax, 328(%rsp)
	movq	1328(%rsp), %rax
	movq	%rax, 1024(%rsp)
	testq	%r15, %r15
	movq	%r12, 112(%rsp)
	movq	%r13, 152(%rsp)
	movq	%rbx, 56(%rsp)
	movq	%r15, 32(%rsp)
	je	197f
	movq	$0, 256(%rsp)
	xorl	%ecx, %ecx
	jmp	14f
	.p2align	4
12:
	movq	32(%rsp), %r15
	movq	88(%rsp), %rcx
13:
	incq	%rcx
	cmpq	%r15, %rcx
	je	81f
14:
	imulq	$104, %rcx, %rax
	cmpb	$1, 96(%rbx,%rax)
	jne	13b
	movq	%rcx, 88(%rsp)
	addq	%rbx, %rax
	cmpb	$0, 56(%rax)
	je	15f
	movq	64(%rax), %r15
	leaq	72(%rax), %rcx
	jmp	16f
15:
	leaq	64(%rax), %r15
	leaq	80(%rax), %rcx
16:
	movq	(%rcx), %rbp
	movzbl	(%rax), %r14d
	leaq	400(%rsp), %rdi
	movq	%r15, %rsi
	movq	%rbp, %rdx
	callq	"mime_text::merging::hidden::weight_of"
	movl	%r14d, 48(%rsp)
	cmpw	%r14w, %ax
	ja	12b
	cmpb	$1, 400(%rsp)
	jne	17f
	movq	408(%rsp), %rax
	movq	%rax, 64(%rsp)
	movzwl	2(%rax), %eax
	jmp	18f
17:
	movl	$280, %edi
	movl	$8, %esi
	callq	rattle_alloc@PLT
	movq	%rdx, 64(%rsp)
	testb	$1, %al
	je	295f
	movq	64(%rsp), %rax
	movl	$0, (%rax)
	movq	$1, 400(%rsp)
	movq	%rax, 408(%rsp)
	xorl	%eax, %eax
18:
	incl	48(%rsp)
	movzwl	%ax, %eax
	movl	$15, %r12d
	subq	%rax, %r12
	movq	%rax, 40(%rsp)
	movl	%eax, %ebx
	negb	%bl
	xorl	%edx, %edx
	movq	64(%rsp), %rax
	movq	%rax, %rsi
	movq	$0, 16(%rsp)
	movq	%rax, 24(%rsp)
	movq	%r12, 160(%rsp)
	xorl	%r13d, %r13d
19:
	movq	%rsi, %rcx
	movzwl	(%rsi), %esi
	xorl	%eax, %eax
	testq	%rsi, %rsi
	je	28f
	.p2align	4
20:
	movq	%rax, %rdi
	shlq	$4, %rdi
	movq	8(%rcx,%rdi), %r8
	movq	16(%rcx,%rdi), %rdi
	cmpq	%rbp, %rdi
	movq	%rbp, %r9
	cmovbq	%rdi, %r9
	xorl	%r10d, %r10d
	cmpq	$64, %r9
	jb	22f
	movq	%r9, %r11
	.p2align	4
21:
	movdqu	(%r15,%r10), %xmm0
	movdqu	16(%r15,%r10), %xmm1
	movdqu	32(%r15,%r10), %xmm2
	movdqu	48(%r15,%r10), %xmm3
	movdqu	(%r8,%r10), %xmm4
	pcmpeqb	%xmm0, %xmm4
	movdqu	16(%r8,%r10), %xmm0
	pcmpeqb	%xmm1, %xmm0
	movdqu	32(%r8,%r10), %xmm1
	pcmpeqb	%xmm2, %xmm1
	pand	%xmm4, %xmm1
	movdqu	48(%r8,%r10), %xmm2
	pcmpeqb	%xmm3, %xmm2
	pand	%xmm0, %xmm2
	pand	%xmm1, %xmm2
	pmovmskb	%xmm2, %r14d
	cmpl	$65535, %r14d
	jne	22f
	addq	$64, %r10
	addq	$-64, %r11
	cmpq	$63, %r11
	ja	21b
22:
	movq	%r9, %r11
	subq	%r10, %r11
	cmpq	$8, %r11
	jb	24f
	.p2align	4
23:
	movq	(%r15,%r10), %r14
	cmpq	(%r8,%r10), %r14
	jne	24f
	addq	$8, %r10
	addq	$-8, %r11
	cmpq	$7, %r11
	ja	23b
24:
	cmpq	%r9, %r10
	jae	26f
	.p2align	4
25:
	movzbl	(%r8,%r10), %r11d
	cmpb	%r11b, (%r15,%r10)
	jne	27f
	incq	%r10
	cmpq	%r10, %r9
	jne	25b
26:
	cmpq	%rdi, %rbp
	je	29f
27:
	jb	28f
	incq	%rax
	cmpq	%rsi, %rax
	jne	20b
	movq	%rsi, %rax
28:
	shlq	$4, %r13
	addq	%rax, %r13
	incq	%r12
	cmpw	$0, 2(%rcx)
	je	30f
	movq	280(%rcx,%rax,8), %rsi
	incq	%rdx
	incb	%bl
	movq	%rax, 16(%rsp)
	movq	%rcx, 24(%rsp)
	jmp	19b
	.p2align	4
29:
	andl	$15, %eax
	addq	40(%rsp), %r12
	cmpq	$15, %r12
	movq	24(%rsp), %rcx
	movq	16(%rsp), %rdx
	leaq	280(%rcx,%rdx,8), %rcx
	leaq	408(%rsp), %rdx
	cmoveq	%rdx, %rcx
	movq	(%rcx), %rcx
	movzwl	(%rcx), %edx
	cmpq	%rdx, %rax
	jae	503f
	movl	48(%rsp), %edx
	movw	%dx, 248(%rcx,%rax,2)
	movq	112(%rsp), %r12
	movq	152(%rsp), %r13
	movq	56(%rsp), %rbx
	jmp	12b
30:
	movabsq	$9223372036854775806, %rax
	cmpq	%rax, 256(%rsp)
	ja	294f
	movq	%r12, %rax
	subq	160(%rsp), %rax
	movq	%rax, 184(%rsp)
	cmpq	$1, %rax
	movq	24(%rsp), %rax
	movq	16(%rsp), %rdi
	leaq	280(%rax,%rdi,8), %rax
	leaq	408(%rsp), %rcx
	cmoveq	%rcx, %rax
	movq	(%rax), %rax
	cmpw	$15, (%rax)
	jae	31f
	shlq	$3, %rdi
	movq	24(%rsp), %rcx
	jmp	78f
31:
	movq	%rdx, %r14
	movq	64(%rsp), %rax
	cmpw	$15, (%rax)
	jae	32f
	movq	160(%rsp), %rax
	jmp	33f
32:
	cmpw	$10, 40(%rsp)
	ja	294f
	movl	$408, %edi
	movl	$8, %esi
	callq	rattle_alloc@PLT
	testb	$1, %al
	je	294f
	movq	%rdx, %rcx
	movq	40(%rsp), %rdx
	leal	1(%rdx), %eax
	movw	%ax, 2(%rcx)
	movq	64(%rsp), %rax
	movq	%rax, 280(%rcx)
	movw	$0, (%rcx)
	movq	%rcx, 408(%rsp)
	movl	$14, %eax
	subq	%rdx, %rax
	movq	%rcx, 64(%rsp)
33:
	pxor	%xmm0, %xmm0
	movdqa	%xmm0, 784(%rsp)
	movq	%r12, %rcx
	subq	%rax, %rcx
	movq	%rcx, 184(%rsp)
	jbe	37f
	movl	%r12d, %ecx
	subl	%eax, %ecx
	testb	$3, %cl
	je	35f
	subb	%al, %bl
	movzbl	%bl, %ecx
	andl	$3, %ecx
	.p2align	4
34:
	movl	%r13d, %esi
	andb	$15, %sil
	movb	%sil, 783(%rsp,%r12)
	decq	%r12
	shrq	$4, %r13
	decq	%rcx
	jne	34b
35:
	addq	160(%rsp), %r14
	subq	%rax, %r14
	cmpq	$3, %r14
	jb	37f
	.p2align	4
36:
	movl	%r13d, %ecx
	andb	$15, %cl
	movb	%cl, 783(%rsp,%r12)
	movl	%r13d, %ecx
	shrb	$4, %cl
	movb	%cl, 782(%rsp,%r12)
	movl	%r13d, %ecx
	shrl	$8, %ecx
	andb	$15, %cl
	movb	%cl, 781(%rsp,%r12)
	movl	%r13d, %ecx
	shrl	$12, %ecx
	andb	$15, %cl
	movb	%cl, 780(%rsp,%r12)
	addq	$-4, %r12
	shrq	$16, %r13
	cmpq	%r12, %rax
	jb	36b
37:
	movdqa	784(%rsp), %xmm0
	movdqa	%xmm0, 352(%rsp)
	movl	$16, %r14d
	subq	%rax, %r14
	cmpq	$2, %r14
	movq	24(%rsp), %rcx
	movq	16(%rsp), %rdi
	jb	77f
	leaq	(%rsp,%rax), %r12
	addq	$352, %r12
	leaq	408(%rsp), %rsi
	jmp	40f
38:
	movq	144(%rsp), %rdx
	incl	%edx
	movb	%dl, (%r12)
	addb	$-8, %al
	movb	%al, 1(%r12)
39:
	movzbl	%dl, %edi
	leaq	(%rcx,%rdi,8), %rsi
	addq	$280, %rsi
	incq	%r12
	cmpq	$2, %r14
	leaq	-1(%r14), %r14
	jbe	76f
40:
	movzbl	(%r12), %edi
	movl	%edi, %edx
	movq	(%rsi), %rcx
	movq	280(%rcx,%rdi,8), %rax
	cmpw	$15, (%rax)
	jb	39b
	movq	%rdi, 16(%rsp)
	movq	%rsi, 64(%rsp)
	movq	%rdx, 144(%rsp)
	movzwl	2(%rcx), %ebx
	decq	%rbx
	movq	%r14, 40(%rsp)
	movq	%r12, 160(%rsp)
	je	41f
	movl	$408, %edi
	movl	$8, %esi
	callq	rattle_alloc@PLT
	testb	$1, %al
	jne	42f
	jmp	292f
41:
	movl	$280, %edi
	movl	$8, %esi
	callq	rattle_alloc@PLT
	testb	$1, %al
	je	292f
42:
	movq	%rdx, %r13
	movw	%bx, 2(%rdx)
	leaq	8(%rdx), %rdi
	movq	64(%rsp), %rax
	movq	(%rax), %r9
	movzwl	(%r9), %eax
	movq	%rax, 96(%rsp)
	leaq	1(%rax), %rcx
	xorl	%r8d, %r8d
	cmpw	$0, 2(%r9)
	cmovneq	%rcx, %r8
	movq	16(%rsp), %rax
	movq	280(%r9,%rax,8), %r12
	movzwl	2(%r12), %r10d
	movzwl	(%r12), %ebx
	leaq	-8(%rbx), %r11
	leaq	136(%r12), %rsi
	movq	%r11, %rdx
	shlq	$4, %rdx
	movq	%rdi, %rax
	subq	%rsi, %rax
	cmpq	%rdx, %rax
	movq	%r9, 24(%rsp)
	movq	%rcx, 256(%rsp)
	movq	%r8, 104(%rsp)
	movw	%r10w, 120(%rsp)
	jae	43f
	testq	%r11, %r11
	je	44f
	movl	%ebx, %eax
	andl	$7, %eax
	leal	-9(%rbx), %ecx
	cmpw	$7, %cx
	jae	45f
	xorl	%ecx, %ecx
	leaq	248(%r13), %rdi
	jmp	47f
43:
	movq	%rbx, %r14
	movq	%r11, %rbx
	callq	memmove@PLT
	movq	%rbx, %r11
	movq	%r14, %rbx
	leaq	248(%r13), %rdi
	jmp	49f
44:
	movq	%rbx, %r14
	movq	%r11, %rbx
	leaq	264(%r12), %rsi
	xorl	%edx, %edx
	leaq	248(%r13), %rdi
	jmp	56f
45:
	movq	%r11, %rdx
	andq	$-8, %rdx
	leaq	120(%r13), %rsi
	leaq	248(%r12), %rdi
	xorl	%ecx, %ecx
	xorl	%r8d, %r8d
	.p2align	4
46:
	movups	-112(%rdi,%r8), %xmm0
	movups	%xmm0, -112(%rsi,%r8)
	movups	-96(%rdi,%r8), %xmm0
	movups	%xmm0, -96(%rsi,%r8)
	movups	-80(%rdi,%r8), %xmm0
	movups	%xmm0, -80(%rsi,%r8)
	movups	-64(%rdi,%r8), %xmm0
	movups	%xmm0, -64(%rsi,%r8)
	movups	-48(%rdi,%r8), %xmm0
	movups	%xmm0, -48(%rsi,%r8)
	movups	-32(%rdi,%r8), %xmm0
	movups	%xmm0, -32(%rsi,%r8)
	movups	-16(%rdi,%r8), %xmm0
	movups	%xmm0, -16(%rsi,%r8)
	movdqu	(%rdi,%r8), %xmm0
	movdqu	%xmm0, (%rsi,%r8)
	addq	$8, %rcx
	subq	$-128, %r8
	cmpq	%rcx, %rdx
	jne	46b
	testq	%rax, %rax
	leaq	248(%r13), %rdi
	je	49f
47:
	shlq	$4, %rcx
	leaq	(%r12,%rcx), %rdx
	addq	$136, %rdx
	addq	%r13, %rcx
	addq	$8, %rcx
	shll	$4, %eax
	xorl	%esi, %esi
	.p2align	4
48:
	movdqu	(%rdx,%rsi), %xmm0
	movdqu	%xmm0, (%rcx,%rsi)
	addq	$16, %rsi
	cmpq	%rsi, %rax
	jne	48b
49:
	leaq	264(%r12), %rsi
	leaq	(%r11,%r11), %rdx
	movq	%rdi, %rax
	subq	%rsi, %rax
	cmpq	%rdx, %rax
	jae	55f
	testq	%r11, %r11
	movq	16(%rsp), %r10
	je	57f
	cmpl	$4, %r11d
	jb	50f
	movq	%r13, %rax
	subq	%r12, %rax
	addq	$-16, %rax
	cmpq	$32, %rax
	jae	69f
50:
	xorl	%eax, %eax
51:
	movq	%rbx, %rdx
	movq	%rax, %rcx
	andq	$3, %rdx
	je	53f
	movq	%rax, %rcx
	.p2align	4
52:
	movzwl	(%rsi,%rcx,2), %r8d
	movw	%r8w, (%rdi,%rcx,2)
	incq	%rcx
	decq	%rdx
	jne	52b
53:
	negq	%rax
	addq	%rbx, %rax
	addq	$-9, %rax
	cmpl	$3, %eax
	jb	57f
	.p2align	4
54:
	movzwl	264(%r12,%rcx,2), %eax
	movw	%ax, 248(%r13,%rcx,2)
	movzwl	266(%r12,%rcx,2), %eax
	movw	%ax, 250(%r13,%rcx,2)
	movzwl	268(%r12,%rcx,2), %eax
	movw	%ax, 252(%r13,%rcx,2)
	movzwl	270(%r12,%rcx,2), %eax
	movw	%ax, 254(%r13,%rcx,2)
	addq	$4, %rcx
	cmpq	%rcx, %r11
	jne	54b
	jmp	57f
55:
	movq	%rbx, %r14
	movq	%r11, %rbx
56:
	callq	memmove@PLT
	movq	16(%rsp), %r10
	movq	%rbx, %r11
	movq	%r14, %rbx
57:
	movq	120(%r12), %rax
	movq	%rax, 128(%rsp)
	movq	128(%r12), %r14
	movzwl	262(%r12), %r8d
	cmpw	$0, 120(%rsp)
	je	64f
	leaq	280(%r13), %rdi
	leaq	344(%r12), %rsi
	leaq	-56(,%rbx,8), %rdx
	movq	%rdi, %rax
	subq	%rsi, %rax
	cmpq	%rdx, %rax
	jae	63f
	movq	%rbx, %rax
	addq	$-7, %rax
	je	64f
	cmpl	$4, %eax
	jb	58f
	movq	%r13, %rcx
	subq	%r12, %rcx
	addq	$-64, %rcx
	cmpq	$32, %rcx
	jae	70f
58:
	xorl	%ecx, %ecx
59:
	movq	%r14, 192(%rsp)
	movl	%r8d, %r14d
	movl	%ebx, %r8d
	notl	%r8d
	movq	%rcx, %rdx
	testb	$3, %r8b
	je	61f
	leal	1(%rbx), %r8d
	andl	$3, %r8d
	movq	%rcx, %rdx
	.p2align	4
60:
	movq	(%rsi,%rdx,8), %r9
	movq	%r9, (%rdi,%rdx,8)
	incq	%rdx
	decq	%r8
	jne	60b
61:
	negq	%rcx
	addq	%rbx, %rcx
	addq	$-8, %rcx
	cmpl	$3, %ecx
	movl	%r14d, %r8d
	movq	192(%rsp), %r14
	jb	64f
	.p2align	4
62:
	movq	344(%r12,%rdx,8), %rcx
	movq	%rcx, 280(%r13,%rdx,8)
	movq	352(%r12,%rdx,8), %rcx
	movq	%rcx, 288(%r13,%rdx,8)
	movq	360(%r12,%rdx,8), %rcx
	movq	%rcx, 296(%r13,%rdx,8)
	movq	368(%r12,%rdx,8), %rcx
	movq	%rcx, 304(%r13,%rdx,8)
	addq	$4, %rdx
	cmpq	%rdx, %rax
	jne	62b
	jmp	64f
63:
	movq	%r11, %rbx
	movw	%r8w, 120(%rsp)
	callq	memmove@PLT
	movzwl	120(%rsp), %r8d
	movq	%rbx, %r11
	movq	16(%rsp), %r10
64:
	movq	24(%rsp), %rax
	leaq	280(%rax), %rsi
	leaq	248(%rax), %rcx
	addq	$8, %rax
	movw	$7, (%r12)
	movw	%r11w, (%r13)
	movq	%r12, (%rsi,%r10,8)
	movl	%r10d, %r12d
	shll	$4, %r12d
	addq	%rax, %r12
	movq	96(%rsp), %rbx
	cmpl	%r10d, %ebx
	jne	65f
	movq	128(%rsp), %rax
	movq	%rax, (%r12)
	movq	%r14, 8(%r12)
	movw	%r8w, (%rcx,%r10,2)
	jmp	66f
65:
	leaq	16(%r12), %rdi
	subq	%r10, %rbx
	movq	%rbx, %rdx
	shlq	$4, %rdx
	movq	%rsi, 96(%rsp)
	movq	%r12, %rsi
	movw	%r8w, 120(%rsp)
	movq	%r14, 192(%rsp)
	movq	%rcx, %r14
	callq	memmove@PLT
	movq	128(%rsp), %rax
	movq	%rax, (%r12)
	movq	192(%rsp), %rax
	movq	%rax, 8(%r12)
	movq	16(%rsp), %rax
	leaq	(%r14,%rax,2), %rsi
	movq	16(%rsp), %rax
	leaq	(%r14,%rax,2), %rdi
	addq	$2, %rdi
	addq	%rbx, %rbx
	movq	%rbx, %rdx
	callq	memmove@PLT
	movq	96(%rsp), %rsi
	movq	16(%rsp), %r10
	movzwl	120(%rsp), %eax
	movw	%ax, (%r14,%r10,2)
66:
	movq	104(%rsp), %rdx
	incq	%r10
	cmpl	%r10d, %edx
	movq	160(%rsp), %r12
	jne	67f
	shll	$3, %edx
	jmp	68f
67:
	leal	(,%r10,8), %ebx
	leaq	(%rsi,%rbx), %rdi
	addq	$8, %rdi
	addq	%rbx, %rsi
	subq	%r10, %rdx
	shlq	$3, %rdx
	callq	memmove@PLT
	movq	%rbx, %rdx
68:
	movq	24(%rsp), %rcx
	movq	40(%rsp), %r14
	movq	64(%rsp), %rax
	movq	%r13, 280(%rcx,%rdx)
	movq	256(%rsp), %rdx
	movw	%dx, (%rcx)
	movq	%rcx, (%rax)
	movzbl	1(%r12), %eax
	cmpb	$7, %al
	ja	38b
	movzbl	(%r12), %edx
	jmp	39b
69:
	cmpl	$16, %r11d
	jae	72f
	xorl	%eax, %eax
	jmp	74f
70:
	movq	%rax, %rcx
	andq	$-4, %rcx
	xorl	%edx, %edx
	.p2align	4
71:
	movdqu	344(%r12,%rdx,8), %xmm0
	movdqu	360(%r12,%rdx,8), %xmm1
	movdqu	%xmm0, 280(%r13,%rdx,8)
	movdqu	%xmm1, 296(%r13,%rdx,8)
	addq	$4, %rdx
	cmpq	%rdx, %rcx
	jne	71b
	cmpl	%ecx, %eax
	je	64b
	jmp	59b
72:
	movq	%r11, %rax
	andq	$-16, %rax
	xorl	%ecx, %ecx
	.p2align	4
73:
	movdqu	264(%r12,%rcx,2), %xmm0
	movdqu	280(%r12,%rcx,2), %xmm1
	movdqu	%xmm0, 248(%r13,%rcx,2)
	movdqu	%xmm1, 264(%r13,%rcx,2)
	addq	$16, %rcx
	cmpq	%rcx, %rax
	jne	73b
	cmpl	%eax, %r11d
	je	57b
	testb	$12, %r11b
	je	51b
74:
	movq	%rax, %rcx
	movq	%r11, %rax
	andq	$-4, %rax
	.p2align	4
75:
	movq	(%rsi,%rcx,2), %rdx
	movq	%rdx, (%rdi,%rcx,2)
	addq	$4, %rcx
	cmpq	%rcx, %rax
	jne	75b
	cmpl	%eax, %r11d
	je	57b
	jmp	51b
76:
	movq	408(%rsp), %rax
	movq	%rax, 64(%rsp)
77:
	movq	64(%rsp), %rax
	cmpw	$0, (%rax)
	je	293f
	movzbl	367(%rsp), %r13d
	shlq	$3, %rdi
78:
	cmpq	$1, 184(%rsp)
	leaq	280(%rcx,%rdi), %rdx
	leaq	408(%rsp), %rax
	cmoveq	%rax, %rdx
	andl	$15, %r13d
	movq	(%rdx), %rbx
	movzwl	(%rbx), %esi
	movl	%r13d, %eax
	shll	$4, %eax
	movq	%rsi, %r14
	leaq	(%rbx,%rax), %r12
	addq	$8, %r12
	subq	%r13, %r14
	jne	79f
	movq	%r15, (%r12)
	movq	%rbp, 8(%r12)
	addl	%r13d, %r13d
	jmp	80f
79:
	leaq	16(%r12), %rdi
	movq	%rdx, 24(%rsp)
	movq	%r14, %rdx
	shlq	$4, %rdx
	movq	%rsi, 16(%rsp)
	movq	%r12, %rsi
	callq	memmove@PLT
	movq	%r15, (%r12)
	movq	%rbp, 8(%r12)
	addl	%r13d, %r13d
	leaq	248(%rbx), %rsi
	leaq	(%rsi,%r13), %rdi
	addq	$2, %rdi
	addq	%r13, %rsi
	addq	%r14, %r14
	movq	%r14, %rdx
	callq	memmove@PLT
	movq	16(%rsp), %rsi
	movq	24(%rsp), %rdx
80:
	movq	88(%rsp), %rcx
	incl	%esi
	movl	48(%rsp), %eax
	movw	%ax, 248(%rbx,%r13)
	movw	%si, (%rbx)
	movq	%rbx, (%rdx)
	movq	416(%rsp), %rdx
	incq	%rdx
	movq	%rdx, 256(%rsp)
	movq	%rdx, 416(%rsp)
	movq	112(%rsp), %r12
	movq	152(%rsp), %r13
	movq	56(%rsp), %rbx
	movq	32(%rsp), %r15
	jmp	13b
81:
	movzbl	400(%rsp), %ebx
	movq	408(%rsp), %r14
	movq	%rbx, 880(%rsp)
	movq	%r14, 888(%rsp)
	movq	256(%rsp), %rax
	movq	%rax, 896(%rsp)
	movq	$0, 720(%rsp)
	testq	%r15, %r15
	js	200f
	movl	$1, %esi
	movq	%r15, %rdi
	callq	rattle_alloc@PLT
	testb	$1, %al
	je	200f
	movq	%rdx, 752(%rsp)
	movq	$0, 760(%rsp)
	movq	%r15, 768(%rsp)
	xorl	%ebx, %ebx
	xorl	%r12d, %r12d
	movq	$0, 128(%rsp)
	movq	$0, 88(%rsp)
	jmp	85f
	.p2align	4
82:
	movq	152(%rsp), %r13
	movq	32(%rsp), %r15
	movq	24(%rsp), %r12
83:
	cmpq	%rbx, 768(%rsp)
	je	94f
84:
	movq	752(%rsp), %r14
	movb	%bpl, (%r14,%rbx)
	incq	%rbx
	movq	%rbx, 760(%rsp)
	incq	%r12
	cmpq	%r15, %r12
	je	243f
85:
	imulq	$104, %r12, %rax
	movb	$1, %bpl
	movq	56(%rsp), %rcx
	cmpb	$0, 96(%rcx,%rax)
	jne	83b
	leaq	(%rcx,%rax), %r14
	movzbl	56(%r14), %r15d
	leaq	64(%r14), %r13
	testb	%r15b, %r15b
	movq	%r12, 24(%rsp)
	je	86f
	movq	64(%r14), %rsi
	leaq	72(%r14), %rcx
	jmp	87f
86:
	leaq	80(%r14), %rcx
	movq	%r13, %rsi
87:
	movq	56(%rsp), %rdx
	movzbl	(%rdx,%rax), %r12d
	movq	(%rcx), %rdx
	leaq	880(%rsp), %rdi
	callq	"mime_text::merging::hidden::weight_of"
	movl	%r12d, 16(%rsp)
	cmpw	%r12w, %ax
	jbe	82b
	cmpb	$2, 88(%r14)
	movq	24(%rsp), %r12
	jne	88f
	movq	152(%rsp), %r13
	movq	32(%rsp), %r15
	jmp	83b
88:
	testb	%r15b, %r15b
	je	95f
	movq	64(%r14), %r13
	addq	$72, %r14
	movq	(%r14), %r14
	testq	%r14, %r14
	movq	32(%rsp), %r15
	je	96f
89:
	js	339f
	movl	$1, %esi
	movq	%r14, %rdi
	callq	rattle_alloc@PLT
	testb	$1, %al
	je	339f
	movq	%rdx, 400(%rsp)
	movq	$0, 408(%rsp)
	movq	%r14, 416(%rsp)
	xorl	%r15d, %r15d
	xorl	%ebx, %ebx
	jmp	92f
90:
	movq	400(%rsp), %rdx
	movq	408(%rsp), %r15
	.p2align	4
91:
	movb	%bpl, (%rdx,%r15)
	incq	%r15
	movq	%r15, 408(%rsp)
	incq	%rbx
	cmpq	%rbx, %r14
	je	93f
92:
	movzbl	(%r13,%rbx), %eax
	leal	-65(%rax), %ecx
	leal	32(%rax), %esi
	cmpb	$26, %cl
	movzbl	%sil, %ebp
	cmovael	%eax, %ebp
	cmpq	%r15, 416(%rsp)
	jne	91b
	leaq	400(%rsp), %rdi
	callq	"std_alloc::vec::Vec::grow_amortized::<#0cdf28b7eeb0a4d1>"
	testb	%al, %al
	jne	90b
	jmp	338f
93:
	movq	400(%rsp), %rbp
	movq	416(%rsp), %r14
	cmpb	$1, 88(%rsp)
	movq	152(%rsp), %r13
	movq	56(%rsp), %rbx
	je	97f
	jmp	109f
94:
	leaq	752(%rsp), %rdi
	callq	"std_alloc::vec::Vec::grow_amortized::<#0135d645f841a886>"
	testb	%al, %al
	je	348f
	movq	760(%rsp), %rbx
	jmp	84b
95:
	addq	$80, %r14
	movq	(%r14), %r14
	testq	%r14, %r14
	movq	32(%rsp), %r15
	jne	89b
96:
	leaq	8(%rsp), %rbp
	xorl	%r14d, %r14d
	xorl	%r15d, %r15d
	cmpb	$1, 88(%rsp)
	movq	152(%rsp), %r13
	movq	56(%rsp), %rbx
	jne	109f
97:
	leaq	720(%rsp), %rax
98:
	movq	(%rax), %rax
	movzwl	(%rax), %edx
	xorl	%ecx, %ecx
	testq	%rdx, %rdx
	je	108f
	.p2align	4
99:
	leaq	(%rcx,%rcx,2), %rsi
	movq	8(%rax,%rsi,8), %rdi
	movq	16(%rax,%rsi,8), %rsi
	cmpq	%r15, %rsi
	movq	%r15, %r8
	cmovbq	%rsi, %r8
	xorl	%r9d, %r9d
	cmpq	$64, %r8
	jb	101f
	movq	%r8, %r10
	.p2align	4
100:
	movdqu	(%rbp,%r9), %xmm0
	movdqu	16(%rbp,%r9), %xmm1
	movdqu	32(%rbp,%r9), %xmm2
	movdqu	48(%rbp,%r9), %xmm3
	movdqu	(%rdi,%r9), %xmm4
	pcmpeqb	%xmm0, %xmm4
	movdqu	16(%rdi,%r9), %xmm0
	pcmpeqb	%xmm1, %xmm0
	movdqu	32(%rdi,%r9), %xmm1
	pcmpeqb	%xmm2, %xmm1
	pand	%xmm4, %xmm1
	movdqu	48(%rdi,%r9), %xmm2
	pcmpeqb	%xmm3, %xmm2
	pand	%xmm0, %xmm2
	pand	%xmm1, %xmm2
	pmovmskb	%xmm2, %r11d
	cmpl	$65535, %r11d
	jne	101f
	addq	$64, %r9
	addq	$-64, %r10
	cmpq	$63, %r10
	ja	100b
101:
	movq	%r8, %r10
	subq	%r9, %r10
	cmpq	$8, %r10
	jb	103f
	.p2align	4
102:
	movq	(%rbp,%r9), %r11
	cmpq	(%rdi,%r9), %r11
	jne	103f
	addq	$8, %r9
	addq	$-8, %r10
	cmpq	$7, %r10
	ja	102b
103:
	cmpq	%r8, %r9
	jae	105f
	.p2align	4
104:
	movzbl	(%rdi,%r9), %r10d
	cmpb	%r10b, (%rbp,%r9)
	jne	106f
	incq	%r9
	cmpq	%r9, %r8
	jne	104b
105:
	cmpq	%rsi, %r15
	je	111f
106:
	jb	107f
	incq	%rcx
	cmpq	%rdx, %rcx
	jne	99b
	movq	%rdx, %rcx
107:
	shlq	$3, %rcx
108:
	cmpw	$0, 2(%rax)
	je	109f
	addq	%rcx, %rax
	addq	$400, %rax
	jmp	98b
109:
	movq	%r14, 256(%rsp)
	testq	%r15, %r15
	je	113f
	js	346f
	movl	$1, %esi
	movq	%r15, %rdi
	callq	rattle_alloc@PLT
	testb	$1, %al
	je	346f
	movq	%rdx, %r14
	movq	%r14, %rcx
	subq	%rbp, %rcx
	cmpq	%r15, %rcx
	jae	114f
110:
	xorl	%eax, %eax
	cmpq	$4, %r15
	jb	119f
	cmpq	$32, %rcx
	jb	119f
	cmpq	$32, %r15
	jae	115f
	xorl	%eax, %eax
	jmp	117f
111:
	movq	%r14, %rdx
	movzwl	368(%rax,%rcx,2), %r14d
	testq	%rdx, %rdx
	je	112f
	movq	%rbp, %rdi
	callq	rattle_dealloc@PLT
112:
	movq	32(%rsp), %r15
	movl	16(%rsp), %ebx
	jmp	141f
113:
	leaq	8(%rsp), %r14
	movq	%r14, %rcx
	subq	%rbp, %rcx
	cmpq	%r15, %rcx
	jb	110b
114:
	movq	%r14, %rdi
	movq	%rbp, %rsi
	movq	%r15, %rdx
	callq	memmove@PLT
	leaq	880(%rsp), %rdi
	movq	%r14, %rsi
	movq	%r15, %rdx
	xorl	%ecx, %ecx
	callq	"mime_text::merging::hidden::least_weight"
	movw	%ax, 104(%rsp)
	testq	%r15, %r15
	jne	124f
	jmp	125f
115:
	movq	%r15, %rax
	andq	$-32, %rax
	xorl	%ecx, %ecx
	.p2align	4
116:
	movdqu	(%rbp,%rcx), %xmm0
	movdqu	16(%rbp,%rcx), %xmm1
	movdqu	%xmm0, (%r14,%rcx)
	movdqu	%xmm1, 16(%r14,%rcx)
	addq	$32, %rcx
	cmpq	%rcx, %rax
	jne	116b
	cmpq	%rax, %r15
	je	123f
	testb	$28, %r15b
	je	119f
117:
	movq	%rax, %rcx
	movq	%r15, %rax
	andq	$-4, %rax
	.p2align	4
118:
	movl	(%rbp,%rcx), %edx
	movl	%edx, (%r14,%rcx)
	addq	$4, %rcx
	cmpq	%rcx, %rax
	jne	118b
	cmpq	%rax, %r15
	je	123f
119:
	movq	%r15, %rdx
	movq	%rax, %rcx
	andq	$3, %rdx
	je	121f
	movq	%rax, %rcx
	.p2align	4
120:
	movzbl	(%rbp,%rcx), %esi
	movb	%sil, (%r14,%rcx)
	incq	%rcx
	decq	%rdx
	jne	120b
121:
	subq	%r15, %rax
	cmpq	$-4, %rax
	ja	123f
	.p2align	4
122:
	movzbl	(%rbp,%rcx), %eax
	movb	%al, (%r14,%rcx)
	movzbl	1(%rbp,%rcx), %eax
	movb	%al, 1(%r14,%rcx)
	movzbl	2(%rbp,%rcx), %eax
	movb	%al, 2(%r14,%rcx)
	movzbl	3(%rbp,%rcx), %eax
	movb	%al, 3(%r14,%rcx)
	addq	$4, %rcx
	cmpq	%rcx, %r15
	jne	122b
123:
	leaq	880(%rsp), %rdi
	movq	%r14, %rsi
	movq	%r15, %rdx
	xorl	%ecx, %ecx
	callq	"mime_text::merging::hidden::least_weight"
	movw	%ax, 104(%rsp)
124:
	movq	%r14, %rdi
	callq	rattle_dealloc@PLT
125:
	cmpb	$1, 88(%rsp)
	jne	126f
	movq	720(%rsp), %rax
	movq	%rax, 160(%rsp)
	movzwl	2(%rax), %eax
	jmp	127f
126:
	movl	$400, %edi
	movl	$8, %esi
	callq	rattle_alloc@PLT
	movq	%rdx, 160(%rsp)
	testb	$1, %al
	je	354f
	movq	160(%rsp), %rax
	movl	$0, (%rax)
	movq	%rax, 720(%rsp)
	xorl	%eax, %eax
127:
	movzwl	%ax, %eax
	movl	$15, %ebx
	subq	%rax, %rbx
	movq	%rax, 96(%rsp)
	movl	%eax, %edi
	negb	%dil
	xorl	%edx, %edx
	movq	160(%rsp), %rax
	movq	%rax, %rsi
	movq	$0, 64(%rsp)
	movq	%rax, 48(%rsp)
	movq	%rbx, 120(%rsp)
	xorl	%r14d, %r14d
	movq	%rsi, %rcx
	movzwl	(%rsi), %esi
	testq	%rsi, %rsi
	je	138f
128:
	movb	%dil, 40(%rsp)
	xorl	%eax, %eax
	.p2align	4
129:
	leaq	(%rax,%rax,2), %rdi
	movq	8(%rcx,%rdi,8), %r8
	movq	16(%rcx,%rdi,8), %rdi
	cmpq	%r15, %rdi
	movq	%r15, %r9
	cmovbq	%rdi, %r9
	xorl	%r10d, %r10d
	cmpq	$64, %r9
	jb	131f
	movq	%r9, %r11
	.p2align	4
130:
	movdqu	(%rbp,%r10), %xmm0
	movdqu	16(%rbp,%r10), %xmm1
	movdqu	32(%rbp,%r10), %xmm2
	movdqu	48(%rbp,%r10), %xmm3
	movdqu	(%r8,%r10), %xmm4
	pcmpeqb	%xmm0, %xmm4
	movdqu	16(%r8,%r10), %xmm0
	pcmpeqb	%xmm1, %xmm0
	movdqu	32(%r8,%r10), %xmm1
	pcmpeqb	%xmm2, %xmm1
	pand	%xmm4, %xmm1
	movdqu	48(%r8,%r10), %xmm2
	pcmpeqb	%xmm3, %xmm2
	pand	%xmm0, %xmm2
	pand	%xmm1, %xmm2
	pmovmskb	%xmm2, %r13d
	cmpl	$65535, %r13d
	jne	131f
	addq	$64, %r10
	addq	$-64, %r11
	cmpq	$63, %r11
	ja	130b
131:
	movq	%r9, %r11
	subq	%r10, %r11
	cmpq	$8, %r11
	jb	133f
	.p2align	4
132:
	movq	(%rbp,%r10), %r13
	cmpq	(%r8,%r10), %r13
	jne	133f
	addq	$8, %r10
	addq	$-8, %r11
	cmpq	$7, %r11
	ja	132b
133:
	cmpq	%r9, %r10
	movq	152(%rsp), %r13
	jae	135f
	.p2align	4
134:
	movzbl	(%r8,%r10), %r11d
	cmpb	%r11b, (%rbp,%r10)
	jne	136f
	incq	%r10
	cmpq	%r10, %r9
	jne	134b
135:
	cmpq	%rdi, %r15
	je	140f
136:
	jb	137f
	incq	%rax
	cmpq	%rsi, %rax
	jne	129b
	movq	%rsi, %rax
137:
	movzbl	40(%rsp), %edi
	jmp	139f
138:
	xorl	%eax, %eax
139:
	shlq	$4, %r14
	addq	%rax, %r14
	incq	%rbx
	cmpw	$0, 2(%rcx)
	je	142f
	movq	400(%rcx,%rax,8), %rsi
	incq	%rdx
	incb	%dil
	movq	%rax, 64(%rsp)
	movq	%rcx, 48(%rsp)
	movq	%rsi, %rcx
	movzwl	(%rsi), %esi
	testq	%rsi, %rsi
	jne	128b
	jmp	138b
140:
	andl	$15, %eax
	addq	96(%rsp), %rbx
	cmpq	$15, %rbx
	movq	48(%rsp), %rcx
	movq	64(%rsp), %rdx
	leaq	400(%rcx,%rdx,8), %rcx
	leaq	720(%rsp), %rdx
	cmovneq	%rcx, %rdx
	movq	(%rdx), %rcx
	movzwl	(%rcx), %edx
	cmpq	%rdx, %rax
	jae	503f
	movzwl	104(%rsp), %r14d
	movw	%r14w, 368(%rcx,%rax,2)
	cmpq	$0, 256(%rsp)
	movq	32(%rsp), %r15
	movl	16(%rsp), %ebx
	je	141f
	movq	%rbp, %rdi
	callq	rattle_dealloc@PLT
141:
	cmpw	%bx, %r14w
	setbe	%bpl
	movb	$1, %al
	movq	%rax, 88(%rsp)
	movq	760(%rsp), %rbx
	jmp	83b
142:
	movb	$1, %al
	movq	%rax, 88(%rsp)
	movabsq	$9223372036854775806, %rax
	cmpq	%rax, 128(%rsp)
	ja	366f
	movb	%dil, 40(%rsp)
	movq	%rdx, 144(%rsp)
	movq	%rbx, %rcx
	movq	120(%rsp), %r8
	subq	%r8, %rcx
	cmpq	$1, %rcx
	movq	48(%rsp), %rax
	movq	64(%rsp), %rsi
	leaq	400(%rax,%rsi,8), %rax
	leaq	720(%rsp), %rdi
	cmoveq	%rdi, %rax
	movq	(%rax), %rax
	cmpw	$15, (%rax)
	jae	143f
	shlq	$3, %rsi
	movq	%rsi, %rdx
	jmp	193f
143:
	movq	160(%rsp), %rax
	cmpw	$15, (%rax)
	movq	%r8, %rax
	jb	144f
	cmpw	$10, 96(%rsp)
	ja	366f
	movl	$528, %edi
	movl	$8, %esi
	callq	rattle_alloc@PLT
	movq	160(%rsp), %rcx
	testb	$1, %al
	je	366f
	movq	96(%rsp), %rsi
	leal	1(%rsi), %eax
	movw	%ax, 2(%rdx)
	movq	%rcx, 400(%rdx)
	movw	$0, (%rdx)
	movq	%rdx, 720(%rsp)
	movl	$14, %eax
	subq	%rsi, %rax
	movq	%rdx, 160(%rsp)
	leaq	720(%rsp), %rdi
144:
	pxor	%xmm0, %xmm0
	movdqa	%xmm0, 400(%rsp)
	movq	%rbx, %rcx
	subq	%rax, %rcx
	movq	%rcx, 184(%rsp)
	jbe	148f
	movl	%ebx, %ecx
	subl	%eax, %ecx
	testb	$3, %cl
	je	146f
	movzbl	40(%rsp), %ecx
	subb	%al, %cl
	movzbl	%cl, %ecx
	andl	$3, %ecx
145:
	movl	%r14d, %esi
	andb	$15, %sil
	movb	%sil, 399(%rsp,%rbx)
	decq	%rbx
	shrq	$4, %r14
	decq	%rcx
	jne	145b
146:
	movq	144(%rsp), %rcx
	addq	120(%rsp), %rcx
	subq	%rax, %rcx
	cmpq	$3, %rcx
	jb	148f
147:
	movl	%r14d, %ecx
	andb	$15, %cl
	movb	%cl, 399(%rsp,%rbx)
	movl	%r14d, %ecx
	shrb	$4, %cl
	movb	%cl, 398(%rsp,%rbx)
	movl	%r14d, %ecx
	shrl	$8, %ecx
	andb	$15, %cl
	movb	%cl, 397(%rsp,%rbx)
	movl	%r14d, %ecx
	shrl	$12, %ecx
	andb	$15, %cl
	movb	%cl, 396(%rsp,%rbx)
	addq	$-4, %rbx
	shrq	$16, %r14
	cmpq	%rbx, %rax
	jb	147b
148:
	movdqa	400(%rsp), %xmm0
	movdqa	%xmm0, 1120(%rsp)
	movl	$16, %ecx
	subq	%rax, %rcx
	cmpq	$2, %rcx
	jb	192f
	leaq	(%rsp,%rax), %r14
	addq	$1120, %r14
	jmp	152f
149:
	incl	%esi
	movb	%sil, (%r14)
	addb	$-8, %al
	movb	%al, 1(%r14)
150:
	movq	160(%rsp), %rcx
151:
	movzbl	%sil, %esi
	leaq	(%rdx,%rsi,8), %rdi
	addq	$400, %rdi
	incq	%r14
	cmpq	$2, %rcx
	leaq	-1(%rcx), %rcx
	jbe	191f
152:
	movzbl	(%r14), %esi
	movq	(%rdi), %rdx
	movq	400(%rdx,%rsi,8), %rax
	cmpw	$15, (%rax)
	jb	151b
	movq	%rsi, 48(%rsp)
	movq	%rcx, 160(%rsp)
	movq	%rdi, 40(%rsp)
	movzwl	2(%rdx), %ebx
	decq	%rbx
	je	153f
	movl	$528, %edi
	jmp	154f
153:
	movl	$400, %edi
154:
	movl	$8, %esi
	callq	rattle_alloc@PLT
	testb	$1, %al
	je	364f
	movq	%rdx, %r11
	movw	%bx, 2(%rdx)
	leaq	8(%rdx), %rdi
	leaq	368(%rdx), %rax
	movq	%rax, 192(%rsp)
	movq	40(%rsp), %rax
	movq	(%rax), %rcx
	pxor	%xmm0, %xmm0
	movdqa	%xmm0, 912(%rsp)
	movq	$0, 928(%rsp)
	movzwl	(%rcx), %edx
	xorl	%eax, %eax
	xorl	%esi, %esi
	cmpw	$0, 2(%rcx)
	leaq	1(%rdx), %r8
	setne	%sil
	cmoveq	%rax, %r8
	shll	$4, %esi
	leaq	400(%rcx), %rbx
	leaq	368(%rcx), %r9
	leaq	8(%rcx), %r10
	movq	%r10, 784(%rsp)
	movq	%rdx, 792(%rsp)
	movq	$15, 800(%rsp)
	movq	%r9, 808(%rsp)
	movq	%rdx, 816(%rsp)
	movq	$15, 824(%rsp)
	movq	%rbx, 96(%rsp)
	movq	%rbx, 832(%rsp)
	movq	%r8, 840(%rsp)
	movq	%rsi, 848(%rsp)
	movq	%rcx, 856(%rsp)
	movdqa	%xmm0, 1088(%rsp)
	movq	$0, 1104(%rsp)
	movq	48(%rsp), %rdx
	movq	400(%rcx,%rdx,8), %r13
	movdqa	%xmm0, 224(%rsp)
	movq	$0, 240(%rsp)
	movdqa	%xmm0, 944(%rsp)
	movq	$0, 960(%rsp)
	movzwl	2(%r13), %r9d
	movzwl	(%r13), %ebx
	leaq	1(%rbx), %rcx
	xorl	%edx, %edx
	testw	%r9w, %r9w
	cmoveq	%rax, %rcx
	setne	%dl
	shll	$4, %edx
	leaq	400(%r13), %rax
	leaq	368(%r13), %rsi
	leaq	8(%r13), %r8
	movq	%r8, 400(%rsp)
	movq	$15, 416(%rsp)
	movq	%rsi, 424(%rsp)
	movq	$15, 440(%rsp)
	movq	%rax, 448(%rsp)
	movq	%rcx, 456(%rsp)
	movq	%rdx, 464(%rsp)
	movq	%r13, 472(%rsp)
	leaq	-8(%rbx), %r10
	leaq	200(%r13), %rsi
	leaq	-64(,%rbx,8), %rax
	leaq	(%rax,%rax,2), %rdx
	movq	%rdi, %rax
	subq	%rsi, %rax
	cmpq	%rdx, %rax
	movq	%r11, 64(%rsp)
	movq	%r10, 120(%rsp)
	movw	%r9w, 144(%rsp)
	jae	155f
	testq	%r10, %r10
	je	156f
	movl	%ebx, %eax
	andl	$7, %eax
	leal	-9(%rbx), %ecx
	cmpw	$7, %cx
	jae	157f
	xorl	%ecx, %ecx
	leaq	368(%r11), %rdi
	jmp	159f
155:
	callq	memmove@PLT
	leaq	-8(%rbx), %r10
	movq	64(%rsp), %r11
	movq	192(%rsp), %rdi
	jmp	161f
156:
	movq	$8, 408(%rsp)
	addq	$384, %r13
	xorl	%edx, %edx
	movq	%r13, %rsi
	movq	192(%rsp), %rdi
	jmp	167f
157:
	movq	%r10, %rdx
	andq	$-8, %rdx
	xorl	%ecx, %ecx
	xorl	%r8d, %r8d
158:
	movups	(%rsi,%r8), %xmm0
	movq	16(%rsi,%r8), %r9
	movq	%r9, 16(%rdi,%r8)
	movups	%xmm0, (%rdi,%r8)
	movups	24(%rsi,%r8), %xmm0
	movq	40(%rsi,%r8), %r9
	movq	%r9, 40(%rdi,%r8)
	movups	%xmm0, 24(%rdi,%r8)
	movups	48(%rsi,%r8), %xmm0
	movq	64(%rsi,%r8), %r9
	movq	%r9, 64(%rdi,%r8)
	movups	%xmm0, 48(%rdi,%r8)
	movups	72(%rsi,%r8), %xmm0
	movq	88(%rsi,%r8), %r9
	movq	%r9, 88(%rdi,%r8)
	movups	%xmm0, 72(%rdi,%r8)
	movups	96(%rsi,%r8), %xmm0
	movq	112(%rsi,%r8), %r9
	movq	%r9, 112(%rdi,%r8)
	movups	%xmm0, 96(%rdi,%r8)
	movups	120(%rsi,%r8), %xmm0
	movq	136(%rsi,%r8), %r9
	movq	%r9, 136(%rdi,%r8)
	movups	%xmm0, 120(%rdi,%r8)
	movups	144(%rsi,%r8), %xmm0
	movq	160(%rsi,%r8), %r9
	movq	%r9, 160(%rdi,%r8)
	movups	%xmm0, 144(%rdi,%r8)
	movdqu	168(%rsi,%r8), %xmm0
	movq	184(%rsi,%r8), %r9
	movq	%r9, 184(%rdi,%r8)
	movdqu	%xmm0, 168(%rdi,%r8)
	addq	$8, %rcx
	addq	$192, %r8
	cmpq	%rcx, %rdx
	jne	158b
	testq	%rax, %rax
	leaq	368(%r11), %rdi
	je	161f
159:
	shlq	$3, %rcx
	leaq	(%rcx,%rcx,2), %rdx
	leaq	(%rdx,%r13), %rcx
	addq	$200, %rcx
	addq	%r11, %rdx
	addq	$8, %rdx
	shll	$3, %eax
	leaq	(%rax,%rax,2), %rax
	xorl	%esi, %esi
160:
	movdqu	(%rcx,%rsi), %xmm0
	movq	16(%rcx,%rsi), %r8
	movq	%r8, 16(%rdx,%rsi)
	movdqu	%xmm0, (%rdx,%rsi)
	addq	$24, %rsi
	cmpq	%rsi, %rax
	jne	160b
161:
	movq	$8, 408(%rsp)
	leaq	384(%r13), %rsi
	leaq	(%r10,%r10), %rdx
	movq	%rdi, %rax
	subq	%rsi, %rax
	cmpq	%rdx, %rax
	jae	167f
	testq	%r10, %r10
	je	168f
	cmpl	$4, %r10d
	jb	162f
	movq	%r11, %rax
	subq	%r13, %rax
	addq	$-16, %rax
	cmpq	$32, %rax
	jae	184f
162:
	xorl	%eax, %eax
163:
	movq	%rbx, %rdx
	movq	%rax, %rcx
	andq	$3, %rdx
	je	165f
	movq	%rax, %rcx
164:
	movzwl	(%rsi,%rcx,2), %r8d
	movw	%r8w, (%rdi,%rcx,2)
	incq	%rcx
	decq	%rdx
	jne	164b
165:
	negq	%rax
	addq	%rbx, %rax
	addq	$-9, %rax
	cmpl	$3, %eax
	jb	168f
166:
	movzwl	384(%r13,%rcx,2), %eax
	movw	%ax, 368(%r11,%rcx,2)
	movzwl	386(%r13,%rcx,2), %eax
	movw	%ax, 370(%r11,%rcx,2)
	movzwl	388(%r13,%rcx,2), %eax
	movw	%ax, 372(%r11,%rcx,2)
	movzwl	390(%r13,%rcx,2), %eax
	movw	%ax, 374(%r11,%rcx,2)
	addq	$4, %rcx
	cmpq	%rcx, %r10
	jne	166b
	jmp	168f
167:
	callq	memmove@PLT
168:
	movq	$8, 432(%rsp)
	pxor	%xmm0, %xmm0
	movdqa	%xmm0, 352(%rsp)
	movq	$0, 368(%rsp)
	leaq	352(%rsp), %rdi
	leaq	400(%rsp), %rsi
	movl	$7, %ebx
	movl	$7, %edx
	callq	"std_alloc::vec::Vec::remove::<#c1573421a60ec32d>"
	movq	424(%rsp), %rax
	movq	432(%rsp), %rsi
	movzwl	14(%rax), %r13d
	leaq	-1(%rsi), %rcx
	leaq	-8(%rsi), %rdx
	movl	$14, %r8d
	cmpq	$1025, %rdx
	jb	171f
	leaq	64(%rax), %r8
	leaq	-1032(%rsi), %r9
	movl	$7, %ebx
	.p2align	4
169:
	movq	%r9, %rdi
	xorl	%edx, %edx
	.p2align	4
170:
	movdqu	-48(%r8,%rdx,2), %xmm0
	movdqu	-32(%r8,%rdx,2), %xmm1
	movdqu	-16(%r8,%rdx,2), %xmm2
	movdqu	(%r8,%rdx,2), %xmm3
	movdqu	%xmm0, -50(%r8,%rdx,2)
	movdqu	%xmm1, -34(%r8,%rdx,2)
	movdqu	%xmm2, -18(%r8,%rdx,2)
	movdqu	%xmm3, -2(%r8,%rdx,2)
	addq	$32, %rdx
	cmpq	$1024, %rdx
	jne	170b
	addq	$1024, %rbx
	movq	%rcx, %rdx
	subq	%rbx, %rdx
	addq	$2048, %r8
	leaq	-1024(%rdi), %r9
	cmpq	$1024, %rdx
	ja	169b
	cmpq	$-1, %rbx
	je	172f
	leaq	(%rbx,%rbx), %r8
171:
	cmpq	%rbx, %rcx
	je	174f
	leaq	(%rax,%r8), %rdi
	leaq	(%rax,%r8), %rsi
	addq	$2, %rsi
	addq	%rdx, %rdx
	callq	memmove@PLT
	jmp	174f
172:
	testq	%rsi, %rsi
	je	174f
	movzwl	-2(%rax,%rsi,2), %ecx
	leaq	(%rax,%rsi,2), %rax
	addq	$-4, %rax
173:
	movw	%cx, (%rax)
	addq	$-2, %rax
	decq	%rdi
	jne	173b
174:
	movq	368(%rsp), %rax
	movq	%rax, 960(%rsp)
	movdqa	352(%rsp), %xmm0
	movdqa	%xmm0, 944(%rsp)
	cmpw	$0, 144(%rsp)
	movq	64(%rsp), %r10
	je	181f
	leaq	400(%r10), %rdi
	movq	448(%rsp), %rax
	movq	456(%rsp), %r8
	leaq	64(%rax), %rsi
	leaq	-64(,%r8,8), %rdx
	movq	%rdi, %rcx
	subq	%rsi, %rcx
	cmpq	%rdx, %rcx
	jae	180f
	movq	%r8, %rcx
	addq	$-8, %rcx
	je	181f
	cmpq	$4, %rcx
	jb	175f
	movq	%r10, %rdx
	subq	%rax, %rdx
	addq	$336, %rdx
	cmpq	$32, %rdx
	jae	185f
175:
	xorl	%edx, %edx
176:
	movq	%r8, %r10
	movq	%rdx, %r9
	andq	$3, %r10
	je	178f
	movq	%rdx, %r9
177:
	movq	(%rsi,%r9,8), %r11
	movq	%r11, (%rdi,%r9,8)
	incq	%r9
	decq	%r10
	jne	177b
178:
	subq	%rdx, %r8
	addq	$-9, %r8
	cmpq	$3, %r8
	movq	64(%rsp), %r10
	jb	181f
179:
	movq	64(%rax,%r9,8), %rdx
	movq	%rdx, 400(%r10,%r9,8)
	movq	72(%rax,%r9,8), %rdx
	movq	%rdx, 408(%r10,%r9,8)
	movq	80(%rax,%r9,8), %rdx
	movq	%rdx, 416(%r10,%r9,8)
	movq	88(%rax,%r9,8), %rdx
	movq	%rdx, 424(%r10,%r9,8)
	addq	$4, %r9
	cmpq	%r9, %rcx
	jne	179b
	jmp	181f
180:
	callq	memmove@PLT
	movq	64(%rsp), %r10
181:
	movzwl	408(%rsp), %eax
	movq	472(%rsp), %rcx
	movw	%ax, (%rcx)
	movq	120(%rsp), %rax
	movw	%ax, (%r10)
	movq	960(%rsp), %rax
	movaps	944(%rsp), %xmm0
	movaps	%xmm0, 1088(%rsp)
	movq	%rax, 1104(%rsp)
	movq	48(%rsp), %rbx
	movq	96(%rsp), %rax
	movq	%rcx, (%rax,%rbx,8)
	movq	1104(%rsp), %rax
	movq	%rax, 928(%rsp)
	movdqa	1088(%rsp), %xmm0
	movdqa	%xmm0, 912(%rsp)
	leaq	784(%rsp), %rdi
	leaq	912(%rsp), %rdx
	movq	%rbx, %rsi
	callq	"std_alloc::vec::lodged::Vec+T+Lodged::insert_reserved::<#2262cf5b90b10fda>"
	movq	%rbx, %rsi
	movq	808(%rsp), %rbx
	movq	816(%rsp), %rdx
	subq	%rsi, %rdx
	je	182f
	leal	(%rsi,%rsi), %eax
	leaq	(%rbx,%rax), %rsi
	leaq	(%rbx,%rax), %rdi
	addq	$2, %rdi
	addq	%rdx, %rdx
	callq	memmove@PLT
	movq	48(%rsp), %rsi
182:
	movw	%r13w, (%rbx,%rsi,2)
	movq	%rsi, %rax
	incq	%rax
	movq	832(%rsp), %rbx
	movq	840(%rsp), %rdx
	leal	(,%rax,8), %r13d
	subq	%rax, %rdx
	je	183f
	leaq	(%rbx,%r13), %rsi
	leaq	(%rbx,%r13), %rdi
	addq	$8, %rdi
	shlq	$3, %rdx
	callq	memmove@PLT
	movq	48(%rsp), %rsi
183:
	movq	64(%rsp), %rax
	movq	%rax, (%rbx,%r13)
	movzwl	792(%rsp), %eax
	movq	856(%rsp), %rdx
	movw	%ax, (%rdx)
	movq	40(%rsp), %rax
	movq	%rdx, (%rax)
	movzbl	1(%r14), %eax
	cmpb	$7, %al
	ja	149b
	movzbl	(%r14), %esi
	jmp	150b
184:
	cmpl	$16, %r10d
	jae	187f
	xorl	%eax, %eax
	jmp	189f
185:
	movq	%rcx, %rdx
	andq	$-4, %rdx
	xorl	%r9d, %r9d
186:
	movdqu	64(%rax,%r9,8), %xmm0
	movdqu	80(%rax,%r9,8), %xmm1
	movdqu	%xmm0, 400(%r10,%r9,8)
	movdqu	%xmm1, 416(%r10,%r9,8)
	addq	$4, %r9
	cmpq	%r9, %rdx
	jne	186b
	cmpq	%rdx, %rcx
	je	181b
	jmp	176b
187:
	movq	%r10, %rax
	andq	$-16, %rax
	xorl	%ecx, %ecx
188:
	movdqu	384(%r13,%rcx,2), %xmm0
	movdqu	400(%r13,%rcx,2), %xmm1
	movdqu	%xmm0, 368(%r11,%rcx,2)
	movdqu	%xmm1, 384(%r11,%rcx,2)
	addq	$16, %rcx
	cmpq	%rcx, %rax
	jne	188b
	cmpl	%eax, %r10d
	je	168b
	testb	$12, %r10b
	je	163b
189:
	movq	%rax, %rcx
	movq	%r10, %rax
	andq	$-4, %rax
190:
	movq	(%rsi,%rcx,2), %rdx
	movq	%rdx, (%rdi,%rcx,2)
	addq	$4, %rcx
	cmpq	%rcx, %rax
	jne	190b
	cmpl	%eax, %r10d
	je	168b
	jmp	163b
191:
	movq	%rsi, 64(%rsp)
	movq	%rdx, 48(%rsp)
	movq	720(%rsp), %rax
	movq	%rax, 160(%rsp)
192:
	movq	160(%rsp), %rax
	cmpw	$0, (%rax)
	je	365f
	movzbl	1135(%rsp), %r14d
	movq	64(%rsp), %rdx
	shlq	$3, %rdx
	movq	184(%rsp), %rcx
193:
	cmpq	$1, %rcx
	movq	48(%rsp), %rax
	leaq	400(%rax,%rdx), %rax
	leaq	720(%rsp), %rbx
	cmovneq	%rax, %rbx
	andl	$15, %r14d
	movq	%rbp, 784(%rsp)
	movq	%r15, 792(%rsp)
	movq	256(%rsp), %rax
	movq	%rax, 800(%rsp)
	movq	(%rbx), %rax
	movzwl	(%rax), %ecx
	leaq	1(%rcx), %rdx
	xorl	%esi, %esi
	xorl	%edi, %edi
	cmpw	$0, 2(%rax)
	setne	%dil
	cmovneq	%rdx, %rsi
	shll	$4, %edi
	leaq	400(%rax), %rdx
	leaq	368(%rax), %r8
	leaq	8(%rax), %r9
	movq	%r9, 400(%rsp)
	movq	%rcx, 408(%rsp)
	movq	$15, 416(%rsp)
	movq	%r8, 424(%rsp)
	movq	%rcx, 432(%rsp)
	movq	$15, 440(%rsp)
	movq	%rdx, 448(%rsp)
	movq	%rsi, 456(%rsp)
	movq	%rdi, 464(%rsp)
	movq	%rax, 472(%rsp)
	leaq	400(%rsp), %rdi
	leaq	784(%rsp), %rdx
	movq	%r14, %rsi
	callq	"std_alloc::vec::lodged::Vec+T+Lodged::insert_reserved::<#2262cf5b90b10fda>"
	movq	424(%rsp), %r15
	movq	432(%rsp), %rdx
	leal	(%r14,%r14), %r13d
	subq	%r14, %rdx
	je	194f
	leaq	(%r15,%r13), %rsi
	leaq	(%r15,%r13), %rdi
	addq	$2, %rdi
	addq	%rdx, %rdx
	callq	memmove@PLT
194:
	movzwl	104(%rsp), %r14d
	movw	%r14w, (%r15,%r13)
	movzwl	408(%rsp), %eax
	movq	472(%rsp), %rcx
	movw	%ax, (%rcx)
	movq	%rcx, (%rbx)
	incq	128(%rsp)
	movq	152(%rsp), %r13
	jmp	112b
195:
	xorl	%eax, %eax
	movq	24(%rsp), %rsi
	movq	16(%rsp), %rcx
	movq	208(%rsp), %rdi
196:
	movq	1032(%rsp), %rdx
	movq	$1, (%rdx)
	movq	%rax, 8(%rdx)
	movq	%rcx, 16(%rdx)
	movb	%dil, 24(%rdx)
	movl	136(%rsp), %eax
	movl	139(%rsp), %ecx
	movl	%eax, 25(%rdx)
	movl	%ecx, 28(%rdx)
	movq	%rsi, 32(%rdx)
	jmp	332f
197:
	leaq	8(%rsp), %r14
	xorl	%ebp, %ebp
	xorl	%ebx, %ebx
198:
	xorl	%eax, %eax
	.p2align	4
199:
	cmpq	%rax, %rbx
	je	207f
	cmpb	$0, (%r14,%rax)
	leaq	1(%rax), %rax
	jne	199b
	testq	%r15, %r15
	je	245f
	movq	%r14, 48(%rsp)
	movabsq	$88686269585142075, %rax
	cmpq	%rax, %r15
	ja	209f
	imulq	$104, %r15, %r12
	movl	$8, %esi
	movq	%r12, %rdi
	callq	rattle_alloc@PLT
	testb	$1, %al
	je	209f
	movq	%rdx, %r14
	movq	%rbp, 64(%rsp)
	movq	%rdx, 784(%rsp)
	movq	$0, 792(%rsp)
	movq	%r15, 800(%rsp)
	movq	48(%rsp), %rax
	leaq	(%rbx,%rax), %rdx
	decq	%rdx
	negq	%rbx
	movq	56(%rsp), %rax
	leaq	(%r12,%rax), %rbp
	addq	$-16, %rbp
	xorl	%eax, %eax
	movq	$0, 24(%rsp)
	movq	%rdx, 16(%rsp)
	jmp	204f
200:
	cmpb	$1, %bl
	movq	56(%rsp), %rbx
	jne	296f
	movq	%r14, %rdi
	callq	"std_collections::btree::node::Node::destroy::<#541a865a6e83d6a3>"
	jmp	296f
201:
	movq	-88(%rbp), %r9
	leaq	-79(%rbp), %rax
	movdqu	-64(%rbp), %xmm2
	leaq	-48(%rbp), %rcx
	leaq	-31(%rbp), %rdx
	movdqu	-16(%rbp), %xmm1
	movl	(%rax), %esi
	movl	3(%rax), %eax
	movl	%eax, 947(%rsp)
	movl	%esi, 944(%rsp)
	movups	(%rcx), %xmm0
	movaps	%xmm0, 400(%rsp)
	movl	(%rdx), %eax
	movl	3(%rdx), %ecx
	movl	%ecx, 227(%rsp)
	movl	%eax, 224(%rsp)
	movdqu	(%rbp), %xmm0
	movdqa	%xmm0, 352(%rsp)
	movq	24(%rsp), %rsi
	cmpq	%rsi, 800(%rsp)
	je	206f
202:
	imulq	$104, %rsi, %rax
	movq	%r9, (%r14,%rax)
	movb	%r15b, 8(%r14,%rax)
	movl	944(%rsp), %ecx
	movl	947(%rsp), %edx
	movl	%ecx, 9(%r14,%rax)
	movl	%edx, 12(%r14,%rax)
	movq	%rdi, 16(%r14,%rax)
	movdqu	%xmm2, 24(%r14,%rax)
	movaps	400(%rsp), %xmm0
	movups	%xmm0, 40(%r14,%rax)
	movb	%r13b, 56(%r14,%rax)
	movl	224(%rsp), %ecx
	movl	227(%rsp), %edx
	movl	%ecx, 57(%r14,%rax)
	movl	%edx, 60(%r14,%rax)
	movq	%r10, 64(%r14,%rax)
	movdqu	%xmm1, 72(%r14,%rax)
	movdqa	352(%rsp), %xmm0
	movdqu	%xmm0, 88(%r14,%rax)
	incq	%rsi
	movq	%rsi, 24(%rsp)
	movq	%rsi, 792(%rsp)
	movq	32(%rsp), %r15
	movq	16(%rsp), %rdx
203:
	leaq	-1(%r8), %rax
	addq	$-104, %rbp
	movq	%r15, %rcx
	addq	%rax, %rcx
	je	335f
204:
	movq	%rax, %r8
	movzbl	-80(%rbp), %r15d
	movq	-72(%rbp), %rdi
	movq	-56(%rbp), %r12
	movzbl	-32(%rbp), %r13d
	movq	-24(%rbp), %r10
	movq	-8(%rbp), %r11
	cmpq	%rax, %rbx
	je	333f
	cmpb	$1, (%rdx,%r8)
	je	201b
	testb	%r15b, %r15b
	je	205f
	testq	%r12, %r12
	je	205f
	movq	%r8, %r15
	movq	%r10, 88(%rsp)
	movq	%r11, %r12
	callq	rattle_dealloc@PLT
	movq	%r12, %r11
	movq	88(%rsp), %r10
	movq	16(%rsp), %rdx
	movq	%r15, %r8
205:
	testb	%r13b, %r13b
	movq	32(%rsp), %r15
	je	203b
	testq	%r11, %r11
	je	203b
	movq	%r10, %rdi
	movq	%r8, %r12
	callq	rattle_dealloc@PLT
	movq	16(%rsp), %rdx
	movq	%r12, %r8
	jmp	203b
206:
	movq	%r9, 104(%rsp)
	movdqa	%xmm2, 256(%rsp)
	movdqa	%xmm1, 160(%rsp)
	movq	%r11, %r14
	movq	%r10, 88(%rsp)
	movq	%r8, 24(%rsp)
	movq	%rdi, 40(%rsp)
	leaq	784(%rsp), %rdi
	callq	"std_alloc::vec::Vec::grow_amortized::<#9f351709e7e1a03a>"
	testb	%al, %al
	je	379f
	movq	784(%rsp), %r14
	movq	792(%rsp), %rsi
	movq	40(%rsp), %rdi
	movq	24(%rsp), %r8
	movq	88(%rsp), %r10
	movdqa	160(%rsp), %xmm1
	movdqa	256(%rsp), %xmm2
	movq	104(%rsp), %r9
	jmp	202b
207:
	testq	%rbp, %rbp
	je	208f
	movq	%r14, %rdi
	callq	rattle_dealloc@PLT
208:
	movq	56(%rsp), %rbx
	jmp	253f
209:
	testq	%rbp, %rbp
	je	210f
	movq	48(%rsp), %rdi
	callq	rattle_dealloc@PLT
210:
	movq	56(%rsp), %rax
	leaq	8(%rax), %rbx
	movq	328(%rsp), %r12
	jmp	212f
	.p2align	4
211:
	addq	$104, %rbx
	movq	%r13, %r15
	decq	%r15
	je	214f
212:
	movq	%r15, %r13
	movzbl	48(%rbx), %ebp
	movq	56(%rbx), %r14
	movq	72(%rbx), %r15
	cmpb	$0, (%rbx)
	je	213f
	cmpq	$0, 24(%rbx)
	je	213f
	movq	8(%rbx), %rdi
	callq	rattle_dealloc@PLT
213:
	testb	%bpl, %bpl
	je	211b
	testq	%r15, %r15
	je	211b
	movq	%r14, %rdi
	callq	rattle_dealloc@PLT
	jmp	211b
214:
	cmpq	$0, 336(%rsp)
	movq	152(%rsp), %r13
	je	216f
215:
	movq	56(%rsp), %rdi
	callq	rattle_dealloc@PLT
216:
	testq	%r12, %r12
	je	220f
	movq	280(%rsp), %r14
	jmp	218f
	.p2align	4
217:
	addq	$96, %r14
	decq	%r12
	je	220f
218:
	movzbl	48(%r14), %ebp
	movq	56(%r14), %rbx
	movq	72(%r14), %r15
	cmpb	$0, (%r14)
	je	219f
	cmpq	$0, 24(%r14)
	je	219f
	movq	8(%r14), %rdi
	callq	rattle_dealloc@PLT
219:
	testb	%bpl, %bpl
	je	217b
	testq	%r15, %r15
	je	217b
	movq	%rbx, %rdi
	callq	rattle_dealloc@PLT
	jmp	217b
220:
	cmpq	$0, 1024(%rsp)
	je	221f
	movq	280(%rsp), %rdi
	callq	rattle_dealloc@PLT
221:
	cmpq	$0, 208(%rsp)
	je	225f
	movq	288(%rsp), %r14
	jmp	223f
	.p2align	4
222:
	addq	$96, %r14
	decq	208(%rsp)
	je	225f
223:
	movzbl	48(%r14), %ebp
	movq	56(%r14), %rbx
	movq	72(%r14), %r15
	cmpb	$0, (%r14)
	je	224f
	cmpq	$0, 24(%r14)
	je	224f
	movq	8(%r14), %rdi
	callq	rattle_dealloc@PLT
224:
	testb	%bpl, %bpl
	je	222b
	testq	%r15, %r15
	je	222b
	movq	%rbx, %rdi
	callq	rattle_dealloc@PLT
	jmp	222b
225:
	cmpq	$0, 1016(%rsp)
	je	226f
	movq	288(%rsp), %rdi
	callq	rattle_dealloc@PLT
226:
	cmpq	$0, 200(%rsp)
	movq	272(%rsp), %rbp
	je	232f
	xorl	%r14d, %r14d
	jmp	228f
	.p2align	4
227:
	incq	%r14
	cmpq	200(%rsp), %r14
	movq	152(%rsp), %r13
	je	232f
228:
	movq	%r14, %rax
	shlq	$4, %rax
	leaq	(%rax,%rax,4), %rax
	movq	56(%rbp,%rax), %rbx
	movq	64(%rbp,%rax), %r12
	movq	72(%rbp,%rax), %r15
	cmpb	$0, 8(%rbp,%rax)
	je	229f
	cmpq	$0, 32(%rbp,%rax)
	je	229f
	movq	16(%rbp,%rax), %rdi
	callq	rattle_dealloc@PLT
229:
	testq	%r12, %r12
	je	231f
	movq	%rbx, %r13
	.p2align	4
230:
	movups	80(%r13), %xmm0
	movaps	%xmm0, 480(%rsp)
	movups	64(%r13), %xmm0
	movaps	%xmm0, 464(%rsp)
	movdqu	(%r13), %xmm0
	movdqu	16(%r13), %xmm1
	movdqu	32(%r13), %xmm2
	movdqu	48(%r13), %xmm3
	movdqa	%xmm3, 448(%rsp)
	movdqa	%xmm2, 432(%rsp)
	movdqa	%xmm1, 416(%rsp)
	movdqa	%xmm0, 400(%rsp)
	leaq	400(%rsp), %rdi
	callq	"mime_text::mime_base++magic++matchlet++Matchlet+Destruct::drop"
	addq	$96, %r13
	decq	%r12
	jne	230b
231:
	testq	%r15, %r15
	je	227b
	movq	%rbx, %rdi
	callq	rattle_dealloc@PLT
	jmp	227b
232:
	cmpq	$0, 1008(%rsp)
	je	233f
	movq	%rbp, %rdi
	callq	rattle_dealloc@PLT
233:
	movq	112(%rsp), %r12
	testq	%r12, %r12
	je	237f
	movq	296(%rsp), %r14
	jmp	235f
	.p2align	4
234:
	addq	$96, %r14
	decq	%r12
	je	237f
235:
	movzbl	48(%r14), %ebp
	movq	56(%r14), %rbx
	movq	72(%r14), %r15
	cmpb	$0, (%r14)
	je	236f
	cmpq	$0, 24(%r14)
	je	236f
	movq	8(%r14), %rdi
	callq	rattle_dealloc@PLT
236:
	testb	%bpl, %bpl
	je	234b
	testq	%r15, %r15
	je	234b
	movq	%rbx, %rdi
	callq	rattle_dealloc@PLT
	jmp	234b
237:
	cmpq	$0, 1000(%rsp)
	je	238f
	movq	296(%rsp), %rdi
	callq	rattle_dealloc@PLT
238:
	testq	%r13, %r13
	je	242f
	movq	304(%rsp), %r14
	jmp	240f
	.p2align	4
239:
	addq	$96, %r14
	decq	%r13
	je	242f
240:
	movzbl	48(%r14), %ebp
	movq	56(%r14), %rbx
	movq	72(%r14), %r15
	cmpb	$0, (%r14)
	je	241f
	cmpq	$0, 24(%r14)
	je	241f
	movq	8(%r14), %rdi
	callq	rattle_dealloc@PLT
241:
	testb	%bpl, %bpl
	je	239b
	testq	%r15, %r15
	je	239b
	movq	%rbx, %rdi
	callq	rattle_dealloc@PLT
	jmp	239b
242:
	cmpq	$0, 992(%rsp)
	je	329f
	movq	304(%rsp), %rdi
	jmp	328f
243:
	movq	768(%rsp), %rbp
	cmpb	$0, 88(%rsp)
	je	244f
	movq	720(%rsp), %rdi
	callq	"std_collections::btree::node::Node::destroy::<#75908c3a02a00b6b>"
244:
	cmpb	$1, 880(%rsp)
	movq	112(%rsp), %r12
	jne	198b
	movq	888(%rsp), %rdi
	callq	"std_collections::btree::node::Node::destroy::<#541a865a6e83d6a3>"
	jmp	198b
245:
	movq	$0, 800(%rsp)
	leaq	8(%rsp), %rax
	movq	%rax, 16(%rsp)
	xorl	%r12d, %r12d
	xorl	%ebx, %ebx
246:
	movq	%rbx, 24(%rsp)
	movq	800(%rsp), %r13
	testq	%rbp, %rbp
	je	247f
	movq	%r14, %rdi
	callq	rattle_dealloc@PLT
247:
	testq	%r12, %r12
	je	251f
	movq	56(%rsp), %rax
	leaq	80(%rax), %r15
	jmp	249f
	.p2align	4
248:
	addq	$104, %r15
	decq	%r12
	je	251f
249:
	movzbl	-24(%r15), %r14d
	movq	-16(%r15), %rbx
	movq	(%r15), %rbp
	cmpb	$0, -72(%r15)
	je	250f
	cmpq	$0, -48(%r15)
	je	250f
	movq	-64(%r15), %rdi
	callq	rattle_dealloc@PLT
250:
	testb	%r14b, %r14b
	je	248b
	testq	%rbp, %rbp
	je	248b
	movq	%rbx, %rdi
	callq	rattle_dealloc@PLT
	jmp	248b
251:
	cmpq	$0, 336(%rsp)
	je	252f
	movq	56(%rsp), %rdi
	callq	rattle_dealloc@PLT
252:
	movq	16(%rsp), %rbx
	movq	24(%rsp), %r15
	movq	%r13, 336(%rsp)
	movq	112(%rsp), %r12
	movq	152(%rsp), %r13
253:
	movl	$0, 1048(%rsp)
	movl	$0, 1051(%rsp)
	movl	$0, 872(%rsp)
	movl	$0, 875(%rsp)
	pxor	%xmm0, %xmm0
	movdqa	%xmm0, 416(%rsp)
	movdqa	%xmm0, 400(%rsp)
	movdqa	%xmm0, 800(%rsp)
	movdqa	%xmm0, 784(%rsp)
	movdqa	%xmm0, 368(%rsp)
	movdqa	%xmm0, 352(%rsp)
	movdqa	%xmm0, 960(%rsp)
	movdqa	%xmm0, 944(%rsp)
	movdqa	%xmm0, 240(%rsp)
	movdqa	%xmm0, 224(%rsp)
	movdqa	%xmm0, 1104(%rsp)
	movdqa	%xmm0, 1088(%rsp)
	movdqa	%xmm0, 880(%rsp)
	movq	$0, 896(%rsp)
	movdqa	%xmm0, 752(%rsp)
	movq	$0, 768(%rsp)
	movdqa	%xmm0, 1056(%rsp)
	movq	$0, 1072(%rsp)
	movdqa	%xmm0, 1120(%rsp)
	movq	$0, 1136(%rsp)
	movdqa	%xmm0, 720(%rsp)
	movq	$0, 736(%rsp)
	movdqa	%xmm0, 1760(%rsp)
	movq	$0, 1776(%rsp)
	movdqa	%xmm0, 1728(%rsp)
	movq	$0, 1744(%rsp)
	movdqa	%xmm0, 1696(%rsp)
	movq	$0, 1712(%rsp)
	movdqa	%xmm0, 1664(%rsp)
	movq	$0, 1680(%rsp)
	movdqa	%xmm0, 1632(%rsp)
	movq	$0, 1648(%rsp)
	movdqa	%xmm0, 1600(%rsp)
	movq	$0, 1616(%rsp)
	movdqa	%xmm0, 1568(%rsp)
	movq	$0, 1584(%rsp)
	movdqa	%xmm0, 1536(%rsp)
	movq	$0, 1552(%rsp)
	movdqa	%xmm0, 1504(%rsp)
	movq	$0, 1520(%rsp)
	leaq	400(%rsp), %rdi
	movq	304(%rsp), %rsi
	movq	%r13, %rdx
	callq	"mime_store::pairs::texts_of_pairs"
	cmpb	$0, 400(%rsp)
	movq	%rbx, 56(%rsp)
	jne	257f
	movq	%r15, 32(%rsp)
	movq	408(%rsp), %r14
	movq	416(%rsp), %r15
	movq	424(%rsp), %rbp
	movq	%r14, %rdi
	movq	%r15, %rsi
	callq	"mime_store::pairs::sort_pairs"
	testb	%al, %al
	jne	255f
	leaq	784(%rsp), %rdi
	movq	296(%rsp), %rsi
	movq	%r12, %rdx
	callq	"mime_store::pairs::texts_of_pairs"
	cmpb	$0, 784(%rsp)
	jne	255f
	movq	%r15, 48(%rsp)
	movq	792(%rsp), %rdi
	movq	800(%rsp), %rsi
	movq	808(%rsp), %r15
	movq	%rdi, 16(%rsp)
	movq	%rsi, 88(%rsp)
	callq	"mime_store::pairs::sort_pairs"
	testb	%al, %al
	je	340f
	testq	%r15, %r15
	je	255f
254:
	movq	16(%rsp), %rdi
	callq	rattle_dealloc@PLT
255:
	testq	%rbp, %rbp
	movq	32(%rsp), %r15
	je	257f
	movq	%r14, %rdi
256:
	callq	rattle_dealloc@PLT
257:
	movl	$0, 219(%rsp)
	movl	$0, 216(%rsp)
258:
	movl	344(%rsp), %eax
	movl	347(%rsp), %ecx
	movl	%eax, 136(%rsp)
	movl	%ecx, 139(%rsp)
	testq	%r15, %r15
	je	262f
	movq	56(%rsp), %rax
	leaq	80(%rax), %rbx
	jmp	260f
	.p2align	4
259:
	addq	$104, %rbx
	movq	%r13, %r15
	decq	%r15
	je	262f
260:
	movq	%r15, %r13
	movzbl	-24(%rbx), %ebp
	movq	-16(%rbx), %r14
	movq	(%rbx), %r15
	cmpb	$0, -72(%rbx)
	je	261f
	cmpq	$0, -48(%rbx)
	je	261f
	movq	-64(%rbx), %rdi
	callq	rattle_dealloc@PLT
261:
	testb	%bpl, %bpl
	je	259b
	testq	%r15, %r15
	je	259b
	movq	%r14, %rdi
	callq	rattle_dealloc@PLT
	jmp	259b
262:
	cmpq	$0, 336(%rsp)
	je	263f
	movq	56(%rsp), %rdi
	callq	rattle_dealloc@PLT
263:
	movq	152(%rsp), %r13
	testq	%r13, %r13
	je	267f
	movq	304(%rsp), %r14
	jmp	265f
	.p2align	4
264:
	addq	$96, %r14
	decq	%r13
	je	267f
265:
	movzbl	48(%r14), %ebp
	movq	56(%r14), %rbx
	movq	72(%r14), %r15
	cmpb	$0, (%r14)
	je	266f
	cmpq	$0, 24(%r14)
	je	266f
	movq	8(%r14), %rdi
	callq	rattle_dealloc@PLT
266:
	testb	%bpl, %bpl
	je	264b
	testq	%r15, %r15
	je	264b
	movq	%rbx, %rdi
	callq	rattle_dealloc@PLT
	jmp	264b
267:
	cmpq	$0, 992(%rsp)
	je	268f
	movq	304(%rsp), %rdi
	callq	rattle_dealloc@PLT
268:
	testq	%r12, %r12
	je	272f
	movq	296(%rsp), %r14
	jmp	270f
	.p2align	4
269:
	addq	$96, %r14
	decq	%r12
	je	272f
270:
	movzbl	48(%r14), %ebp
	movq	56(%r14), %rbx
	movq	72(%r14), %r15
	cmpb	$0, (%r14)
	je	271f
	cmpq	$0, 24(%r14)
	je	271f
	movq	8(%r14), %rdi
	callq	rattle_dealloc@PLT
271:
	testb	%bpl, %bpl
	je	269b
	testq	%r15, %r15
	je	269b
	movq	%rbx, %rdi
	callq	rattle_dealloc@PLT
	jmp	269b
272:
	cmpq	$0, 1000(%rsp)
	je	273f
	movq	296(%rsp), %rdi
	callq	rattle_dealloc@PLT
273:
	cmpq	$0, 200(%rsp)
	movq	272(%rsp), %rbp
	je	279f
	xorl	%r14d, %r14d
	jmp	275f
	.p2align	4
274:
	incq	%r14
	cmpq	200(%rsp), %r14
	je	279f
275:
	movq	%r14, %rax
	shlq	$4, %rax
	leaq	(%rax,%rax,4), %rax
	movq	56(%rbp,%rax), %rbx
	movq	64(%rbp,%rax), %r12
	movq	72(%rbp,%rax), %r15
	cmpb	$0, 8(%rbp,%rax)
	je	276f
	cmpq	$0, 32(%rbp,%rax)
	je	276f
	movq	16(%rbp,%rax), %rdi
	callq	rattle_dealloc@PLT
276:
	testq	%r12, %r12
	je	278f
	movq	%rbx, %r13
	.p2align	4
277:
	movups	80(%r13), %xmm0
	movaps	%xmm0, 1264(%rsp)
	movups	64(%r13), %xmm0
	movaps	%xmm0, 1248(%rsp)
	movdqu	(%r13), %xmm0
	movdqu	16(%r13), %xmm1
	movdqu	32(%r13), %xmm2
	movdqu	48(%r13), %xmm3
	movdqa	%xmm3, 1232(%rsp)
	movdqa	%xmm2, 1216(%rsp)
	movdqa	%xmm1, 1200(%rsp)
	movdqa	%xmm0, 1184(%rsp)
	leaq	1184(%rsp), %rdi
	callq	"mime_c::mime_base++magic++matchlet++Matchlet+Destruct::drop"
	addq	$96, %r13
	decq	%r12
	jne	277b
278:
	testq	%r15, %r15
	je	274b
	movq	%rbx, %rdi
	callq	rattle_dealloc@PLT
	jmp	274b
279:
	cmpq	$0, 1008(%rsp)
	je	280f
	movq	%rbp, %rdi
	callq	rattle_dealloc@PLT
280:
	cmpq	$0, 208(%rsp)
	movq	328(%rsp), %r12
	je	284f
	movq	288(%rsp), %r14
	jmp	282f
	.p2align	4
281:
	addq	$96, %r14
	decq	208(%rsp)
	je	284f
282:
	movzbl	48(%r14), %ebp
	movq	56(%r14), %rbx
	movq	72(%r14), %r15
	cmpb	$0, (%r14)
	je	283f
	cmpq	$0, 24(%r14)
	je	283f
	movq	8(%r14), %rdi
	callq	rattle_dealloc@PLT
283:
	testb	%bpl, %bpl
	je	281b
	testq	%r15, %r15
	je	281b
	movq	%rbx, %rdi
	callq	rattle_dealloc@PLT
	jmp	281b
284:
	cmpq	$0, 1016(%rsp)
	je	285f
	movq	288(%rsp), %rdi
	callq	rattle_dealloc@PLT
285:
	testq	%r12, %r12
	je	327f
	movq	280(%rsp), %r14
	jmp	287f
	.p2align	4
286:
	addq	$96, %r14
	decq	%r12
	je	327f
287:
	movzbl	48(%r14), %ebp
	movq	56(%r14), %rbx
	movq	72(%r14), %r15
	cmpb	$0, (%r14)
	je	288f
	cmpq	$0, 24(%r14)
	je	288f
	movq	8(%r14), %rdi
	callq	rattle_dealloc@PLT
288:
	testb	%bpl, %bpl
	je	286b
	testq	%r15, %r15
	je	286b
	movq	%rbx, %rdi
	callq	rattle_dealloc@PLT
	jmp	286b
289:
	movq	%r12, 400(%rsp)
	movq	16(%rsp), %rax
	movq	%rax, 408(%rsp)
	movq	208(%rsp), %rax
	movb	%al, 416(%rsp)
	movl	-15(%r14), %eax
	movl	-12(%r14), %ecx
	movl	%eax, 417(%rsp)
	movl	%ecx, 420(%rsp)
	movq	24(%rsp), %rax
	movq	%rax, 424(%rsp)
	leaq	432(%rsp), %rdi
	movl	$280, %edx
	movq	%r14, %rsi
	callq	memcpy@PLT
	leaq	400(%rsp), %rdi
	callq	"mime_text::mime_text++merging++DirFiles+Destruct::drop"
	movq	784(%rsp), %rbx
	movq	792(%rsp), %r13
	movq	800(%rsp), %r12
	movq	%rbx, %r14
	testq	%r13, %r13
	je	291f
	.p2align	4
290:
	leaq	400(%rsp), %r15
	movl	$312, %edx
	movq	%r15, %rdi
	movq	%r14, %rsi
	callq	memcpy@PLT
	movq	%r15, %rdi
	callq	"mime_text::mime_text++merging++DirFiles+Destruct::drop"
	addq	$312, %r14
	decq	%r13
	jne	290b
291:
	testq	%r12, %r12
	je	9b
	movq	%rbx, %rdi
	callq	rattle_dealloc@PLT
	jmp	9b
292:
	movq	408(%rsp), %rax
	movq	%rax, 64(%rsp)
	cmpw	$0, (%rax)
	jne	294f
293:
	movq	64(%rsp), %rax
	cmpw	$0, 2(%rax)
	je	294f
	movq	64(%rsp), %rdi
	movq	280(%rdi), %rbx
	callq	rattle_dealloc@PLT
	movq	%rbx, 64(%rsp)
294:
	movq	64(%rsp), %rdi
	callq	"std_collections::btree::node::Node::destroy::<#541a865a6e83d6a3>"
	movq	112(%rsp), %r12
	movq	56(%rsp), %rbx
295:
	movq	32(%rsp), %r15
296:
	addq	$8, %rbx
	jmp	298f
	.p2align	4
297:
	addq	$104, %rbx
	movq	%r13, %r15
	decq	%r15
	je	300f
298:
	movq	%r15, %r13
	movzbl	48(%rbx), %ebp
	movq	56(%rbx), %r14
	movq	72(%rbx), %r15
	cmpb	$0, (%rbx)
	je	299f
	cmpq	$0, 24(%rbx)
	je	299f
	movq	8(%rbx), %rdi
	callq	rattle_dealloc@PLT
299:
	testb	%bpl, %bpl
	je	297b
	testq	%r15, %r15
	je	297b
	movq	%r14, %rdi
	callq	rattle_dealloc@PLT
	jmp	297b
300:
	cmpq	$0, 336(%rsp)
	je	301f
	movq	56(%rsp), %rdi
	callq	rattle_dealloc@PLT
301:
	movq	152(%rsp), %r13
	testq	%r13, %r13
	je	305f
	movq	304(%rsp), %r14
	jmp	303f
	.p2align	4
302:
	addq	$96, %r14
	decq	%r13
	je	305f
303:
	movzbl	48(%r14), %ebp
	movq	56(%r14), %rbx
	movq	72(%r14), %r15
	cmpb	$0, (%r14)
	je	304f
	cmpq	$0, 24(%r14)
	je	304f
	movq	8(%r14), %rdi
	callq	rattle_dealloc@PLT
304:
	testb	%bpl, %bpl
	je	302b
	testq	%r15, %r15
	je	302b
	movq	%rbx, %rdi
	callq	rattle_dealloc@PLT
	jmp	302b
305:
	cmpq	$0, 992(%rsp)
	je	306f
	movq	304(%rsp), %rdi
	callq	rattle_dealloc@PLT
306:
	testq	%r12, %r12
	je	310f
	movq	296(%rsp), %r14
	jmp	308f
	.p2align	4
307:
	addq	$96, %r14
	decq	%r12
	je	310f
308:
	movzbl	48(%r14), %ebp
	movq	56(%r14), %rbx
	movq	72(%r14), %r15
	cmpb	$0, (%r14)
	je	309f
	cmpq	$0, 24(%r14)
	je	309f
	movq	8(%r14), %rdi
	callq	rattle_dealloc@PLT
309:
	testb	%bpl, %bpl
	je	307b
	testq	%r15, %r15
	je	307b
	movq	%rbx, %rdi
	callq	rattle_dealloc@PLT
	jmp	307b
310:
	cmpq	$0, 1000(%rsp)
	je	311f
	movq	296(%rsp), %rdi
	callq	rattle_dealloc@PLT
311:
	cmpq	$0, 200(%rsp)
	movq	272(%rsp), %rbp
	je	317f
	xorl	%r14d, %r14d
	jmp	313f
	.p2align	4
312:
	incq	%r14
	cmpq	200(%rsp), %r14
	je	317f
313:
	movq	%r14, %rax
	shlq	$4, %rax
	leaq	(%rax,%rax,4), %rax
	movq	56(%rbp,%rax), %rbx
	movq	64(%rbp,%rax), %r12
	movq	72(%rbp,%rax), %r15
	cmpb	$0, 8(%rbp,%rax)
	je	314f
	cmpq	$0, 32(%rbp,%rax)
	je	314f
	movq	16(%rbp,%rax), %rdi
	callq	rattle_dealloc@PLT
314:
	testq	%r12, %r12
	je	316f
	movq	%rbx, %r13
	.p2align	4
315:
	movups	80(%r13), %xmm0
	movaps	%xmm0, 480(%rsp)
	movups	64(%r13), %xmm0
	movaps	%xmm0, 464(%rsp)
	movdqu	(%r13), %xmm0
	movdqu	16(%r13), %xmm1
	movdqu	32(%r13), %xmm2
	movdqu	48(%r13), %xmm3
	movdqa	%xmm3, 448(%rsp)
	movdqa	%xmm2, 432(%rsp)
	movdqa	%xmm1, 416(%rsp)
	movdqa	%xmm0, 400(%rsp)
	leaq	400(%rsp), %rdi
	callq	"mime_text::mime_base++magic++matchlet++Matchlet+Destruct::drop"
	addq	$96, %r13
	decq	%r12
	jne	315b
316:
	testq	%r15, %r15
	je	312b
	movq	%rbx, %rdi
	callq	rattle_dealloc@PLT
	jmp	312b
317:
	cmpq	$0, 1008(%rsp)
	je	318f
	movq	%rbp, %rdi
	callq	rattle_dealloc@PLT
318:
	cmpq	$0, 208(%rsp)
	movq	328(%rsp), %r12
	je	322f
	movq	288(%rsp), %r14
	jmp	320f
	.p2align	4
319:
	addq	$96, %r14
	decq	208(%rsp)
	je	322f
320:
	movzbl	48(%r14), %ebp
	movq	56(%r14), %rbx
	movq	72(%r14), %r15
	cmpb	$0, (%r14)
	je	321f
	cmpq	$0, 24(%r14)
	je	321f
	movq	8(%r14), %rdi
	callq	rattle_dealloc@PLT
321:
	testb	%bpl, %bpl
	je	319b
	testq	%r15, %r15
	je	319b
	movq	%rbx, %rdi
	callq	rattle_dealloc@PLT
	jmp	319b
322:
	cmpq	$0, 1016(%rsp)
	je	323f
	movq	288(%rsp), %rdi
	callq	rattle_dealloc@PLT
323:
	testq	%r12, %r12
	je	327f
	movq	280(%rsp), %r14
	jmp	325f
	.p2align	4
324:
	addq	$96, %r14
	decq	%r12
	je	327f
325:
	movzbl	48(%r14), %ebp
	movq	56(%r14), %rbx
	movq	72(%r14), %r15
	cmpb	$0, (%r14)
	je	326f
	cmpq	$0, 24(%r14)
	je	326f
	movq	8(%r14), %rdi
	callq	rattle_dealloc@PLT
326:
	testb	%bpl, %bpl
	je	324b
	testq	%r15, %r15
	je	324b
	movq	%rbx, %rdi
	callq	rattle_dealloc@PLT
	jmp	324b
327:
	cmpq	$0, 1024(%rsp)
	je	329f
	movq	280(%rsp), %rdi
328:
	callq	rattle_dealloc@PLT
329:
	movq	1032(%rsp), %rdx
	movq	$1, (%rdx)
	movq	$2, 8(%rdx)
330:
	movq	$0, 16(%rdx)
	movb	$0, 24(%rdx)
331:
	movl	136(%rsp), %eax
	movl	139(%rsp), %ecx
	movl	%eax, 25(%rdx)
	movl	%ecx, 28(%rdx)
	movq	$0, 32(%rdx)
332:
	addq	$1784, %rsp
	popq	%rbx
	popq	%r12
	popq	%r13
	popq	%r14
	popq	%r15
	popq	%rbp
	retq
333:
	testb	%r15b, %r15b
	je	334f
	testq	%r12, %r12
	je	334f
	movq	%r8, %rbx
	movq	%r10, %r14
	movq	%r11, %r15
	callq	rattle_dealloc@PLT
	movq	%r15, %r11
	movq	%r14, %r10
	movq	%rbx, %r8
334:
	testb	%r13b, %r13b
	movq	32(%rsp), %r15
	je	335f
	testq	%r11, %r11
	je	335f
	movq	%r10, %rdi
	movq	%r8, %rbx
	callq	rattle_dealloc@PLT
	movq	%rbx, %r8
335:
	movq	784(%rsp), %rdi
	leaq	(%r15,%r8), %r12
	decq	%r12
	movq	24(%rsp), %rbx
	cmpq	$15, %rbx
	movq	%rdi, 16(%rsp)
	jbe	336f
	movq	%rbx, %rdx
	shrq	%rdx
	movq	%rbx, %rax
	subq	%rdx, %rax
	imulq	$104, %rax, %rsi
	addq	%rdi, %rsi
	callq	"core::slice::edits::mirror::<35'mime_base::database::rule::GlobRule>"
	movq	48(%rsp), %r14
	movq	64(%rsp), %rbp
	jmp	246b
336:
	cmpq	$2, %rbx
	movq	48(%rsp), %r14
	movq	64(%rsp), %rbp
	jb	246b
	leaq	-2(%rbx), %rcx
	movq	%rcx, %rax
	shrq	%rax
	movq	%rbx, %rdx
	decq	%rdx
	je	337f
	imulq	$104, %rdx, %rdx
	movq	96(%rdi), %rsi
	movq	%rsi, 496(%rsp)
	movups	80(%rdi), %xmm0
	movaps	%xmm0, 480(%rsp)
	movups	64(%rdi), %xmm0
	movaps	%xmm0, 464(%rsp)
	movups	(%rdi), %xmm0
	movups	16(%rdi), %xmm1
	movups	32(%rdi), %xmm2
	movups	48(%rdi), %xmm3
	movaps	%xmm3, 448(%rsp)
	movaps	%xmm2, 432(%rsp)
	movaps	%xmm1, 416(%rsp)
	movaps	%xmm0, 400(%rsp)
	movq	96(%rdi,%rdx), %rsi
	movups	80(%rdi,%rdx), %xmm0
	movups	64(%rdi,%rdx), %xmm1
	movups	(%rdi,%rdx), %xmm2
	movups	16(%rdi,%rdx), %xmm3
	movdqu	32(%rdi,%rdx), %xmm4
	movups	48(%rdi,%rdx), %xmm5
	movups	%xmm2, (%rdi)
	movups	%xmm3, 16(%rdi)
	movdqu	%xmm4, 32(%rdi)
	movups	%xmm5, 48(%rdi)
	movups	%xmm1, 64(%rdi)
	movups	%xmm0, 80(%rdi)
	movq	%rsi, 96(%rdi)
	movq	496(%rsp), %rsi
	movq	%rsi, 96(%rdi,%rdx)
	movaps	480(%rsp), %xmm0
	movups	%xmm0, 80(%rdi,%rdx)
	movaps	464(%rsp), %xmm0
	movups	%xmm0, 64(%rdi,%rdx)
	movdqa	400(%rsp), %xmm0
	movdqa	416(%rsp), %xmm1
	movdqa	432(%rsp), %xmm2
	movdqa	448(%rsp), %xmm3
	movdqu	%xmm3, 48(%rdi,%rdx)
	movdqu	%xmm2, 32(%rdi,%rdx)
	movdqu	%xmm1, 16(%rdi,%rdx)
	movdqu	%xmm0, (%rdi,%rdx)
337:
	testq	%rax, %rax
	je	246b
	cmpq	$1, %rcx
	jbe	355f
	imulq	$104, %rcx, %rcx
	movq	200(%rdi), %rdx
	movq	%rdx, 496(%rsp)
	movups	184(%rdi), %xmm0
	movaps	%xmm0, 480(%rsp)
	movups	168(%rdi), %xmm0
	movaps	%xmm0, 464(%rsp)
	movups	104(%rdi), %xmm0
	movups	120(%rdi), %xmm1
	movups	136(%rdi), %xmm2
	movups	152(%rdi), %xmm3
	movaps	%xmm3, 448(%rsp)
	movaps	%xmm2, 432(%rsp)
	movaps	%xmm1, 416(%rsp)
	movaps	%xmm0, 400(%rsp)
	movq	96(%rdi,%rcx), %rdx
	movups	80(%rdi,%rcx), %xmm0
	movups	64(%rdi,%rcx), %xmm1
	movups	(%rdi,%rcx), %xmm2
	movups	16(%rdi,%rcx), %xmm3
	movdqu	32(%rdi,%rcx), %xmm4
	movups	48(%rdi,%rcx), %xmm5
	movups	%xmm2, 104(%rdi)
	movups	%xmm3, 120(%rdi)
	movdqu	%xmm4, 136(%rdi)
	movups	%xmm5, 152(%rdi)
	movups	%xmm1, 168(%rdi)
	movups	%xmm0, 184(%rdi)
	movq	%rdx, 200(%rdi)
	movq	496(%rsp), %rdx
	movq	%rdx, 96(%rdi,%rcx)
	movaps	480(%rsp), %xmm0
	movups	%xmm0, 80(%rdi,%rcx)
	movaps	464(%rsp), %xmm0
	movups	%xmm0, 64(%rdi,%rcx)
	movdqa	400(%rsp), %xmm0
	movdqa	416(%rsp), %xmm1
	movdqa	432(%rsp), %xmm2
	movdqa	448(%rsp), %xmm3
	movdqu	%xmm3, 48(%rdi,%rcx)
	movdqu	%xmm2, 32(%rdi,%rcx)
	movdqu	%xmm1, 16(%rdi,%rcx)
	movdqu	%xmm0, (%rdi,%rcx)
	jmp	356f
338:
	cmpq	$0, 416(%rsp)
	movq	32(%rsp), %r15
	je	339f
	movq	400(%rsp), %rdi
	callq	rattle_dealloc@PLT
339:
	movq	112(%rsp), %r12
	movq	56(%rsp), %rbx
	jmp	368f
340:
	movq	%r15, 24(%rsp)
	leaq	8(%rsp), %rcx
	movq	%rcx, 912(%rsp)
	pxor	%xmm0, %xmm0
	movdqu	%xmm0, 920(%rsp)
	movq	32(%rsp), %rax
	testq	%rax, %rax
	je	351f
	movq	%rbp, 160(%rsp)
	movq	%r14, 256(%rsp)
	leaq	8(%rsp), %r14
	xorl	%r15d, %r15d
	movq	%rax, %r12
	xorl	%ebp, %ebp
	jmp	343f
341:
	movq	%r15, %rax
	shlq	$5, %rax
	movq	%r13, (%r14,%rax)
	movdqu	%xmm0, 8(%r14,%rax)
	movq	%rbx, 24(%r14,%rax)
	incq	%r15
	movq	%r15, 920(%rsp)
342:
	incq	%rbp
	addq	$104, %rbx
	decq	%r12
	je	350f
343:
	cmpb	$0, 88(%rbx)
	jne	342b
	pxor	%xmm0, %xmm0
	movdqa	%xmm0, 1200(%rsp)
	movdqa	%xmm0, 1184(%rsp)
	leaq	64(%rbx), %rdx
	cmpb	$0, 56(%rbx)
	je	344f
	imulq	$104, %rbp, %rax
	addq	56(%rsp), %rax
	movq	(%rdx), %rdx
	addq	$72, %rax
	jmp	345f
344:
	leaq	80(%rbx), %rax
345:
	movq	(%rax), %rcx
	movzbl	96(%rbx), %esi
	leaq	1184(%rsp), %rdi
	callq	"mime_store::rules::compared"
	cmpb	$0, 1184(%rsp)
	jne	357f
	movq	1192(%rsp), %r13
	movdqa	1200(%rsp), %xmm0
	cmpq	%r15, 928(%rsp)
	jne	341b
	movdqa	%xmm0, 64(%rsp)
	movq	1208(%rsp), %r14
	leaq	912(%rsp), %rdi
	callq	"std_alloc::vec::Vec::grow_amortized::<#52d1c8244e310953>"
	testb	%al, %al
	je	399f
	movq	912(%rsp), %r14
	movq	920(%rsp), %r15
	movdqa	64(%rsp), %xmm0
	jmp	341b
346:
	cmpq	$0, 256(%rsp)
	je	347f
	movq	%rbp, %rdi
	callq	rattle_dealloc@PLT
347:
	movq	112(%rsp), %r12
	movq	32(%rsp), %r15
	jmp	368f
348:
	cmpq	$0, 768(%rsp)
	je	349f
	movq	752(%rsp), %rdi
	callq	rattle_dealloc@PLT
349:
	cmpb	$0, 88(%rsp)
	movq	112(%rsp), %r12
	movq	56(%rsp), %rbx
	jne	370f
	jmp	371f
350:
	movq	912(%rsp), %rcx
	movq	928(%rsp), %rax
	movq	%rax, 40(%rsp)
	movq	112(%rsp), %r12
	movq	56(%rsp), %rbx
	movq	256(%rsp), %r14
	movq	160(%rsp), %rbp
	jmp	352f
351:
	movq	$0, 40(%rsp)
	xorl	%r15d, %r15d
352:
	movq	%rcx, %rdi
	movq	%rcx, 64(%rsp)
	movq	%r15, %rsi
	callq	"mime_store::rules::sort_rules"
	testb	%al, %al
	je	353f
	movq	64(%rsp), %rax
	movq	%rax, 880(%rsp)
	movq	%r15, 888(%rsp)
	movq	40(%rsp), %rax
	movq	%rax, 896(%rsp)
	leaq	880(%rsp), %rdi
	jmp	376f
353:
	leaq	352(%rsp), %rdi
	movq	%rbx, %rsi
	movq	32(%rsp), %rdx
	callq	"mime_store::suffix_tree::endings"
	cmpb	$0, 352(%rsp)
	je	372f
	movq	64(%rsp), %rax
	movq	%rax, 752(%rsp)
	movq	%r15, 760(%rsp)
	movq	40(%rsp), %rax
	movq	%rax, 768(%rsp)
	leaq	752(%rsp), %rdi
	jmp	376f
354:
	movq	$0, 88(%rsp)
	jmp	367f
355:
	testq	%rcx, %rcx
	jne	356f
	imulq	$104, %rcx, %rcx
	movq	96(%rdi,%rcx), %rdx
	movq	%rdx, 496(%rsp)
	movups	80(%rdi,%rcx), %xmm0
	movaps	%xmm0, 480(%rsp)
	movups	64(%rdi,%rcx), %xmm0
	movaps	%xmm0, 464(%rsp)
	movups	(%rdi,%rcx), %xmm0
	movups	16(%rdi,%rcx), %xmm1
	movups	32(%rdi,%rcx), %xmm2
	movups	48(%rdi,%rcx), %xmm3
	movaps	%xmm3, 448(%rsp)
	movaps	%xmm2, 432(%rsp)
	movaps	%xmm1, 416(%rsp)
	movaps	%xmm0, 400(%rsp)
	movq	200(%rdi), %rdx
	movups	184(%rdi), %xmm0
	movups	168(%rdi), %xmm1
	movups	104(%rdi), %xmm2
	movups	120(%rdi), %xmm3
	movdqu	136(%rdi), %xmm4
	movups	152(%rdi), %xmm5
	movups	%xmm2, (%rdi,%rcx)
	movups	%xmm3, 16(%rdi,%rcx)
	movdqu	%xmm4, 32(%rdi,%rcx)
	movups	%xmm5, 48(%rdi,%rcx)
	movups	%xmm1, 64(%rdi,%rcx)
	movups	%xmm0, 80(%rdi,%rcx)
	movq	%rdx, 96(%rdi,%rcx)
	movq	496(%rsp), %rcx
	movq	%rcx, 200(%rdi)
	movaps	480(%rsp), %xmm0
	movups	%xmm0, 184(%rdi)
	movaps	464(%rsp), %xmm0
	movups	%xmm0, 168(%rdi)
	movdqa	400(%rsp), %xmm0
	movdqa	416(%rsp), %xmm1
	movdqa	432(%rsp), %xmm2
	movdqa	448(%rsp), %xmm3
	movdqu	%xmm3, 152(%rdi)
	movdqu	%xmm2, 136(%rdi)
	movdqu	%xmm1, 120(%rdi)
	movdqu	%xmm0, 104(%rdi)
356:
	cmpq	$1, %rax
	je	246b
	leaq	-3(%rbx), %rcx
	cmpq	$2, %rcx
	jbe	373f
	imulq	$104, %rcx, %rcx
	movq	304(%rdi), %rdx
	movq	%rdx, 496(%rsp)
	movups	288(%rdi), %xmm0
	movaps	%xmm0, 480(%rsp)
	movups	272(%rdi), %xmm0
	movaps	%xmm0, 464(%rsp)
	movups	208(%rdi), %xmm0
	movups	224(%rdi), %xmm1
	movups	240(%rdi), %xmm2
	movups	256(%rdi), %xmm3
	movaps	%xmm3, 448(%rsp)
	movaps	%xmm2, 432(%rsp)
	movaps	%xmm1, 416(%rsp)
	movaps	%xmm0, 400(%rsp)
	movq	96(%rdi,%rcx), %rdx
	movups	80(%rdi,%rcx), %xmm0
	movups	64(%rdi,%rcx), %xmm1
	movups	(%rdi,%rcx), %xmm2
	movups	16(%rdi,%rcx), %xmm3
	movdqu	32(%rdi,%rcx), %xmm4
	movups	48(%rdi,%rcx), %xmm5
	movups	%xmm2, 208(%rdi)
	movups	%xmm3, 224(%rdi)
	movdqu	%xmm4, 240(%rdi)
	movups	%xmm5, 256(%rdi)
	movups	%xmm1, 272(%rdi)
	movups	%xmm0, 288(%rdi)
	movq	%rdx, 304(%rdi)
	movq	496(%rsp), %rdx
	movq	%rdx, 96(%rdi,%rcx)
	movaps	480(%rsp), %xmm0
	movups	%xmm0, 80(%rdi,%rcx)
	movaps	464(%rsp), %xmm0
	movups	%xmm0, 64(%rdi,%rcx)
	movdqa	400(%rsp), %xmm0
	movdqa	416(%rsp), %xmm1
	movdqa	432(%rsp), %xmm2
	movdqa	448(%rsp), %xmm3
	movdqu	%xmm3, 48(%rdi,%rcx)
	movdqu	%xmm2, 32(%rdi,%rcx)
	movdqu	%xmm1, 16(%rdi,%rcx)
	movdqu	%xmm0, (%rdi,%rcx)
	jmp	374f
357:
	movq	928(%rsp), %rbx
	testq	%r15, %r15
	movq	112(%rsp), %r12
	movq	24(%rsp), %rax
	je	360f
	movq	%r15, %rbp
	leaq	16(%r14), %r15
	jmp	359f
358:
	addq	$32, %r15
	decq	%rbp
	je	360f
359:
	cmpq	$0, (%r15)
	je	358b
	movq	-16(%r15), %rdi
	callq	rattle_dealloc@PLT
	movq	24(%rsp), %rax
	jmp	358b
360:
	testq	%rbx, %rbx
	je	362f
361:
	movq	%r14, %rdi
	callq	rattle_dealloc@PLT
	movq	24(%rsp), %rax
362:
	testq	%rax, %rax
	movq	32(%rsp), %r15
	je	363f
	movq	16(%rsp), %rdi
	callq	rattle_dealloc@PLT
363:
	cmpq	$0, 160(%rsp)
	je	257b
	movq	256(%rsp), %rdi
	jmp	256b
364:
	movq	720(%rsp), %rax
	movq	%rax, 160(%rsp)
	cmpw	$0, (%rax)
	jne	366f
365:
	movq	160(%rsp), %rax
	cmpw	$0, 2(%rax)
	je	366f
	movq	160(%rsp), %rdi
	movq	400(%rdi), %rbx
	callq	rattle_dealloc@PLT
	movq	%rbx, 720(%rsp)
366:
	movq	56(%rsp), %rbx
367:
	cmpq	$0, 256(%rsp)
	movq	112(%rsp), %r12
	movq	32(%rsp), %r15
	je	368f
	movq	%rbp, %rdi
	callq	rattle_dealloc@PLT
368:
	cmpq	$0, 768(%rsp)
	je	369f
	movq	752(%rsp), %rdi
	callq	rattle_dealloc@PLT
369:
	cmpb	$1, 88(%rsp)
	jne	371f
370:
	movq	720(%rsp), %rdi
	callq	"std_collections::btree::node::Node::destroy::<#75908c3a02a00b6b>"
371:
	cmpb	$1, 880(%rsp)
	jne	296b
	movq	888(%rsp), %rdi
	callq	"std_collections::btree::node::Node::destroy::<#541a865a6e83d6a3>"
	jmp	296b
372:
	movq	360(%rsp), %rdi
	movq	368(%rsp), %rsi
	movq	376(%rsp), %rax
	movq	%rax, 120(%rsp)
	movq	%rdi, 96(%rsp)
	movq	%rsi, 104(%rsp)
	callq	"mime_store::suffix_tree::sort_endings"
	testb	%al, %al
	je	375f
	movq	96(%rsp), %rax
	movq	%rax, 1056(%rsp)
	movq	104(%rsp), %rax
	movq	%rax, 1064(%rsp)
	movq	120(%rsp), %rax
	movq	%rax, 1072(%rsp)
	leaq	1056(%rsp), %rdi
	callq	"std_alloc::vec::Vec::drop::<#b75285eeea4a2d4d>"
	movq	64(%rsp), %rax
	movq	%rax, 1120(%rsp)
	movq	%r15, 1128(%rsp)
	movq	40(%rsp), %rax
	movq	%rax, 1136(%rsp)
	leaq	1120(%rsp), %rdi
	jmp	376f
373:
	je	374f
	imulq	$104, %rcx, %rcx
	movq	96(%rdi,%rcx), %rdx
	movq	%rdx, 496(%rsp)
	movups	80(%rdi,%rcx), %xmm0
	movaps	%xmm0, 480(%rsp)
	movups	64(%rdi,%rcx), %xmm0
	movaps	%xmm0, 464(%rsp)
	movups	(%rdi,%rcx), %xmm0
	movups	16(%rdi,%rcx), %xmm1
	movups	32(%rdi,%rcx), %xmm2
	movups	48(%rdi,%rcx), %xmm3
	movaps	%xmm3, 448(%rsp)
	movaps	%xmm2, 432(%rsp)
	movaps	%xmm1, 416(%rsp)
	movaps	%xmm0, 400(%rsp)
	movq	304(%rdi), %rdx
	movups	288(%rdi), %xmm0
	movups	272(%rdi), %xmm1
	movups	208(%rdi), %xmm2
	movups	224(%rdi), %xmm3
	movdqu	240(%rdi), %xmm4
	movups	256(%rdi), %xmm5
	movups	%xmm2, (%rdi,%rcx)
	movups	%xmm3, 16(%rdi,%rcx)
	movdqu	%xmm4, 32(%rdi,%rcx)
	movups	%xmm5, 48(%rdi,%rcx)
	movups	%xmm1, 64(%rdi,%rcx)
	movups	%xmm0, 80(%rdi,%rcx)
	movq	%rdx, 96(%rdi,%rcx)
	movq	496(%rsp), %rcx
	movq	%rcx, 304(%rdi)
	movaps	480(%rsp), %xmm0
	movups	%xmm0, 288(%rdi)
	movaps	464(%rsp), %xmm0
	movups	%xmm0, 272(%rdi)
	movdqa	400(%rsp), %xmm0
	movdqa	416(%rsp), %xmm1
	movdqa	432(%rsp), %xmm2
	movdqa	448(%rsp), %xmm3
	movdqu	%xmm3, 256(%rdi)
	movdqu	%xmm2, 240(%rdi)
	movdqu	%xmm1, 224(%rdi)
	movdqu	%xmm0, 208(%rdi)
374:
	cmpq	$2, %rax
	je	246b
	leaq	-4(%rbx), %rcx
	cmpq	$3, %rcx
	jbe	377f
	imulq	$104, %rcx, %rcx
	movq	408(%rdi), %rdx
	movq	%rdx, 496(%rsp)
	movups	392(%rdi), %xmm0
	movaps	%xmm0, 480(%rsp)
	movups	376(%rdi), %xmm0
	movaps	%xmm0, 464(%rsp)
	movups	312(%rdi), %xmm0
	movups	328(%rdi), %xmm1
	movups	344(%rdi), %xmm2
	movups	360(%rdi), %xmm3
	movaps	%xmm3, 448(%rsp)
	movaps	%xmm2, 432(%rsp)
	movaps	%xmm1, 416(%rsp)
	movaps	%xmm0, 400(%rsp)
	movq	96(%rdi,%rcx), %rdx
	movups	80(%rdi,%rcx), %xmm0
	movups	64(%rdi,%rcx), %xmm1
	movups	(%rdi,%rcx), %xmm2
	movups	16(%rdi,%rcx), %xmm3
	movdqu	32(%rdi,%rcx), %xmm4
	movups	48(%rdi,%rcx), %xmm5
	movups	%xmm2, 312(%rdi)
	movups	%xmm3, 328(%rdi)
	movdqu	%xmm4, 344(%rdi)
	movups	%xmm5, 360(%rdi)
	movups	%xmm1, 376(%rdi)
	movups	%xmm0, 392(%rdi)
	movq	%rdx, 408(%rdi)
	movq	496(%rsp), %rdx
	movq	%rdx, 96(%rdi,%rcx)
	movaps	480(%rsp), %xmm0
	movups	%xmm0, 80(%rdi,%rcx)
	movaps	464(%rsp), %xmm0
	movups	%xmm0, 64(%rdi,%rcx)
	movdqa	400(%rsp), %xmm0
	movdqa	416(%rsp), %xmm1
	movdqa	432(%rsp), %xmm2
	movdqa	448(%rsp), %xmm3
	movdqu	%xmm3, 48(%rdi,%rcx)
	movdqu	%xmm2, 32(%rdi,%rcx)
	movdqu	%xmm1, 16(%rdi,%rcx)
	movdqu	%xmm0, (%rdi,%rcx)
	jmp	378f
375:
	leaq	944(%rsp), %rdi
	movq	%rbx, %rsi
	movq	32(%rsp), %rdx
	callq	"mime_store::rules::glob_rules"
	cmpb	$0, 944(%rsp)
	je	392f
	movq	96(%rsp), %rax
	movq	%rax, 720(%rsp)
	movq	104(%rsp), %rax
	movq	%rax, 728(%rsp)
	movq	120(%rsp), %rax
	movq	%rax, 736(%rsp)
	leaq	720(%rsp), %rdi
	callq	"std_alloc::vec::Vec::drop::<#b75285eeea4a2d4d>"
	movq	64(%rsp), %rax
	movq	%rax, 1760(%rsp)
	movq	%r15, 1768(%rsp)
	movq	40(%rsp), %rax
	movq	%rax, 1776(%rsp)
	leaq	1760(%rsp), %rdi
376:
	callq	"std_alloc::vec::Vec::drop::<#a9a081909576c235>"
	cmpq	$0, 24(%rsp)
	jne	254b
	jmp	255b
377:
	je	378f
	imulq	$104, %rcx, %rcx
	movq	96(%rdi,%rcx), %rdx
	movq	%rdx, 496(%rsp)
	movups	80(%rdi,%rcx), %xmm0
	movaps	%xmm0, 480(%rsp)
	movups	64(%rdi,%rcx), %xmm0
	movaps	%xmm0, 464(%rsp)
	movups	(%rdi,%rcx), %xmm0
	movups	16(%rdi,%rcx), %xmm1
	movups	32(%rdi,%rcx), %xmm2
	movups	48(%rdi,%rcx), %xmm3
	movaps	%xmm3, 448(%rsp)
	movaps	%xmm2, 432(%rsp)
	movaps	%xmm1, 416(%rsp)
	movaps	%xmm0, 400(%rsp)
	movq	408(%rdi), %rdx
	movups	392(%rdi), %xmm0
	movups	376(%rdi), %xmm1
	movups	312(%rdi), %xmm2
	movups	328(%rdi), %xmm3
	movdqu	344(%rdi), %xmm4
	movups	360(%rdi), %xmm5
	movups	%xmm2, (%rdi,%rcx)
	movups	%xmm3, 16(%rdi,%rcx)
	movdqu	%xmm4, 32(%rdi,%rcx)
	movups	%xmm5, 48(%rdi,%rcx)
	movups	%xmm1, 64(%rdi,%rcx)
	movups	%xmm0, 80(%rdi,%rcx)
	movq	%rdx, 96(%rdi,%rcx)
	movq	496(%rsp), %rcx
	movq	%rcx, 408(%rdi)
	movaps	480(%rsp), %xmm0
	movups	%xmm0, 392(%rdi)
	movaps	464(%rsp), %xmm0
	movups	%xmm0, 376(%rdi)
	movdqa	400(%rsp), %xmm0
	movdqa	416(%rsp), %xmm1
	movdqa	432(%rsp), %xmm2
	movdqa	448(%rsp), %xmm3
	movdqu	%xmm3, 360(%rdi)
	movdqu	%xmm2, 344(%rdi)
	movdqu	%xmm1, 328(%rdi)
	movdqu	%xmm0, 312(%rdi)
378:
	cmpq	$3, %rax
	je	246b
	leaq	-5(%rbx), %rcx
	cmpq	$4, %rcx
	jbe	393f
	imulq	$104, %rcx, %rcx
	movq	512(%rdi), %rdx
	movq	%rdx, 496(%rsp)
	movups	496(%rdi), %xmm0
	movaps	%xmm0, 480(%rsp)
	movups	480(%rdi), %xmm0
	movaps	%xmm0, 464(%rsp)
	movups	416(%rdi), %xmm0
	movups	432(%rdi), %xmm1
	movups	448(%rdi), %xmm2
	movups	464(%rdi), %xmm3
	movaps	%xmm3, 448(%rsp)
	movaps	%xmm2, 432(%rsp)
	movaps	%xmm1, 416(%rsp)
	movaps	%xmm0, 400(%rsp)
	movq	96(%rdi,%rcx), %rdx
	movups	80(%rdi,%rcx), %xmm0
	movups	64(%rdi,%rcx), %xmm1
	movups	(%rdi,%rcx), %xmm2
	movups	16(%rdi,%rcx), %xmm3
	movdqu	32(%rdi,%rcx), %xmm4
	movups	48(%rdi,%rcx), %xmm5
	movups	%xmm2, 416(%rdi)
	movups	%xmm3, 432(%rdi)
	movdqu	%xmm4, 448(%rdi)
	movups	%xmm5, 464(%rdi)
	movups	%xmm1, 480(%rdi)
	movups	%xmm0, 496(%rdi)
	movq	%rdx, 512(%rdi)
	movq	496(%rsp), %rdx
	movq	%rdx, 96(%rdi,%rcx)
	movaps	480(%rsp), %xmm0
	movups	%xmm0, 80(%rdi,%rcx)
	movaps	464(%rsp), %xmm0
	movups	%xmm0, 64(%rdi,%rcx)
	movdqa	400(%rsp), %xmm0
	movdqa	416(%rsp), %xmm1
	movdqa	432(%rsp), %xmm2
	movdqa	448(%rsp), %xmm3
	movdqu	%xmm3, 48(%rdi,%rcx)
	movdqu	%xmm2, 32(%rdi,%rcx)
	movdqu	%xmm1, 16(%rdi,%rcx)
	movdqu	%xmm0, (%rdi,%rcx)
	jmp	394f
379:
	testb	%r13b, %r13b
	sete	%al
	testq	%r14, %r14
	sete	%bl
	orb	%al, %bl
	testb	%r15b, %r15b
	je	380f
	testq	%r12, %r12
	je	380f
	movq	40(%rsp), %rdi
	callq	rattle_dealloc@PLT
380:
	testb	%bl, %bl
	jne	381f
	movq	88(%rsp), %rdi
	callq	rattle_dealloc@PLT
381:
	movq	784(%rsp), %r14
	movq	792(%rsp), %r15
	movq	800(%rsp), %rax
	movq	%rax, 16(%rsp)
	testq	%r15, %r15
	je	385f
	leaq	80(%r14), %r13
	jmp	383f
382:
	addq	$104, %r13
	decq	%r15
	je	385f
383:
	movzbl	-24(%r13), %ebx
	movq	-16(%r13), %r12
	movq	(%r13), %rbp
	cmpb	$0, -72(%r13)
	je	384f
	cmpq	$0, -48(%r13)
	je	384f
	movq	-64(%r13), %rdi
	callq	rattle_dealloc@PLT
384:
	testb	%bl, %bl
	je	382b
	testq	%rbp, %rbp
	je	382b
	movq	%r12, %rdi
	callq	rattle_dealloc@PLT
	jmp	382b
385:
	cmpq	$0, 16(%rsp)
	je	386f
	movq	%r14, %rdi
	callq	rattle_dealloc@PLT
386:
	movq	32(%rsp), %rax
	movq	24(%rsp), %rcx
	leaq	(%rax,%rcx), %rbx
	decq	%rbx
	cmpq	$0, 64(%rsp)
	movq	152(%rsp), %r13
	je	387f
	movq	48(%rsp), %rdi
	callq	rattle_dealloc@PLT
387:
	testq	%rbx, %rbx
	je	391f
	movq	24(%rsp), %rax
	addq	%rax, 32(%rsp)
	movq	56(%rsp), %rax
	leaq	80(%rax), %rbx
	movl	$1, %r15d
	jmp	389f
388:
	incq	%r15
	addq	$104, %rbx
	cmpq	%r15, 32(%rsp)
	je	391f
389:
	movzbl	-24(%rbx), %ebp
	movq	-16(%rbx), %r14
	movq	(%rbx), %r12
	cmpb	$0, -72(%rbx)
	je	390f
	cmpq	$0, -48(%rbx)
	je	390f
	movq	-64(%rbx), %rdi
	callq	rattle_dealloc@PLT
390:
	testb	%bpl, %bpl
	je	388b
	testq	%r12, %r12
	je	388b
	movq	%r14, %rdi
	callq	rattle_dealloc@PLT
	jmp	388b
391:
	cmpq	$0, 336(%rsp)
	movq	328(%rsp), %r12
	jne	215b
	jmp	216b
392:
	movq	%rbp, 160(%rsp)
	movq	%r14, 256(%rsp)
	leaq	952(%rsp), %rbx
	leaq	224(%rsp), %rdi
	movq	288(%rsp), %rsi
	movq	208(%rsp), %rdx
	callq	"mime_store::pairs::texts_of_icons"
	cmpb	$0, 224(%rsp)
	je	397f
	movq	%rbx, %rdi
	callq	"std_alloc::vec::Vec::drop::<#a9a081909576c235>"
	movq	96(%rsp), %rax
	movq	%rax, 1728(%rsp)
	movq	104(%rsp), %rax
	movq	%rax, 1736(%rsp)
	movq	120(%rsp), %rax
	movq	%rax, 1744(%rsp)
	leaq	1728(%rsp), %rdi
	callq	"std_alloc::vec::Vec::drop::<#b75285eeea4a2d4d>"
	movq	64(%rsp), %rax
	movq	%rax, 1696(%rsp)
	movq	%r15, 1704(%rsp)
	movq	40(%rsp), %rax
	movq	%rax, 1712(%rsp)
	leaq	1696(%rsp), %rdi
	jmp	411f
393:
	je	394f
	imulq	$104, %rcx, %rcx
	movq	96(%rdi,%rcx), %rdx
	movq	%rdx, 496(%rsp)
	movups	80(%rdi,%rcx), %xmm0
	movaps	%xmm0, 480(%rsp)
	movups	64(%rdi,%rcx), %xmm0
	movaps	%xmm0, 464(%rsp)
	movups	(%rdi,%rcx), %xmm0
	movups	16(%rdi,%rcx), %xmm1
	movups	32(%rdi,%rcx), %xmm2
	movups	48(%rdi,%rcx), %xmm3
	movaps	%xmm3, 448(%rsp)
	movaps	%xmm2, 432(%rsp)
	movaps	%xmm1, 416(%rsp)
	movaps	%xmm0, 400(%rsp)
	movq	512(%rdi), %rdx
	movups	496(%rdi), %xmm0
	movups	480(%rdi), %xmm1
	movups	416(%rdi), %xmm2
	movups	432(%rdi), %xmm3
	movdqu	448(%rdi), %xmm4
	movups	464(%rdi), %xmm5
	movups	%xmm2, (%rdi,%rcx)
	movups	%xmm3, 16(%rdi,%rcx)
	movdqu	%xmm4, 32(%rdi,%rcx)
	movups	%xmm5, 48(%rdi,%rcx)
	movups	%xmm1, 64(%rdi,%rcx)
	movups	%xmm0, 80(%rdi,%rcx)
	movq	%rdx, 96(%rdi,%rcx)
	movq	496(%rsp), %rcx
	movq	%rcx, 512(%rdi)
	movaps	480(%rsp), %xmm0
	movups	%xmm0, 496(%rdi)
	movaps	464(%rsp), %xmm0
	movups	%xmm0, 480(%rdi)
	movdqa	400(%rsp), %xmm0
	movdqa	416(%rsp), %xmm1
	movdqa	432(%rsp), %xmm2
	movdqa	448(%rsp), %xmm3
	movdqu	%xmm3, 464(%rdi)
	movdqu	%xmm2, 448(%rdi)
	movdqu	%xmm1, 432(%rdi)
	movdqu	%xmm0, 416(%rdi)
394:
	cmpq	$4, %rax
	je	246b
	leaq	-6(%rbx), %rcx
	cmpq	$5, %rcx
	jbe	395f
	imulq	$104, %rcx, %rcx
	movq	616(%rdi), %rdx
	movq	%rdx, 496(%rsp)
	movups	600(%rdi), %xmm0
	movaps	%xmm0, 480(%rsp)
	movups	584(%rdi), %xmm0
	movaps	%xmm0, 464(%rsp)
	movups	520(%rdi), %xmm0
	movups	536(%rdi), %xmm1
	movups	552(%rdi), %xmm2
	movups	568(%rdi), %xmm3
	movaps	%xmm3, 448(%rsp)
	movaps	%xmm2, 432(%rsp)
	movaps	%xmm1, 416(%rsp)
	movaps	%xmm0, 400(%rsp)
	movq	96(%rdi,%rcx), %rdx
	movups	80(%rdi,%rcx), %xmm0
	movups	64(%rdi,%rcx), %xmm1
	movups	(%rdi,%rcx), %xmm2
	movups	16(%rdi,%rcx), %xmm3
	movdqu	32(%rdi,%rcx), %xmm4
	movups	48(%rdi,%rcx), %xmm5
	movups	%xmm2, 520(%rdi)
	movups	%xmm3, 536(%rdi)
	movdqu	%xmm4, 552(%rdi)
	movups	%xmm5, 568(%rdi)
	movups	%xmm1, 584(%rdi)
	movups	%xmm0, 600(%rdi)
	movq	%rdx, 616(%rdi)
	movq	496(%rsp), %rdx
	movq	%rdx, 96(%rdi,%rcx)
	movaps	480(%rsp), %xmm0
	movups	%xmm0, 80(%rdi,%rcx)
	movaps	464(%rsp), %xmm0
	movups	%xmm0, 64(%rdi,%rcx)
	movdqa	400(%rsp), %xmm0
	movdqa	416(%rsp), %xmm1
	movdqa	432(%rsp), %xmm2
	movdqa	448(%rsp), %xmm3
	movdqu	%xmm3, 48(%rdi,%rcx)
	movdqu	%xmm2, 32(%rdi,%rcx)
	movdqu	%xmm1, 16(%rdi,%rcx)
	movdqu	%xmm0, (%rdi,%rcx)
	jmp	396f
395:
	je	396f
	imulq	$104, %rcx, %rcx
	movq	96(%rdi,%rcx), %rdx
	movq	%rdx, 496(%rsp)
	movups	80(%rdi,%rcx), %xmm0
	movaps	%xmm0, 480(%rsp)
	movups	64(%rdi,%rcx), %xmm0
	movaps	%xmm0, 464(%rsp)
	movups	(%rdi,%rcx), %xmm0
	movups	16(%rdi,%rcx), %xmm1
	movups	32(%rdi,%rcx), %xmm2
	movups	48(%rdi,%rcx), %xmm3
	movaps	%xmm3, 448(%rsp)
	movaps	%xmm2, 432(%rsp)
	movaps	%xmm1, 416(%rsp)
	movaps	%xmm0, 400(%rsp)
	movq	616(%rdi), %rdx
	movups	600(%rdi), %xmm0
	movups	584(%rdi), %xmm1
	movups	520(%rdi), %xmm2
	movups	536(%rdi), %xmm3
	movdqu	552(%rdi), %xmm4
	movups	568(%rdi), %xmm5
	movups	%xmm2, (%rdi,%rcx)
	movups	%xmm3, 16(%rdi,%rcx)
	movdqu	%xmm4, 32(%rdi,%rcx)
	movups	%xmm5, 48(%rdi,%rcx)
	movups	%xmm1, 64(%rdi,%rcx)
	movups	%xmm0, 80(%rdi,%rcx)
	movq	%rdx, 96(%rdi,%rcx)
	movq	496(%rsp), %rcx
	movq	%rcx, 616(%rdi)
	movaps	480(%rsp), %xmm0
	movups	%xmm0, 600(%rdi)
	movaps	464(%rsp), %xmm0
	movups	%xmm0, 584(%rdi)
	movdqa	400(%rsp), %xmm0
	movdqa	416(%rsp), %xmm1
	movdqa	432(%rsp), %xmm2
	movdqa	448(%rsp), %xmm3
	movdqu	%xmm3, 568(%rdi)
	movdqu	%xmm2, 552(%rdi)
	movdqu	%xmm1, 536(%rdi)
	movdqu	%xmm0, 520(%rdi)
396:
	cmpq	$5, %rax
	je	405f
	movq	24(%rsp), %rax
	addq	$-7, %rax
	cmpq	$6, %rax
	jbe	404f
	imulq	$104, %rax, %rax
	movq	16(%rsp), %rdx
	movq	720(%rdx), %rcx
	movq	%rcx, 496(%rsp)
	movups	704(%rdx), %xmm0
	movaps	%xmm0, 480(%rsp)
	movups	688(%rdx), %xmm0
	movaps	%xmm0, 464(%rsp)
	movups	624(%rdx), %xmm0
	movups	640(%rdx), %xmm1
	movups	656(%rdx), %xmm2
	movups	672(%rdx), %xmm3
	movaps	%xmm3, 448(%rsp)
	movaps	%xmm2, 432(%rsp)
	movaps	%xmm1, 416(%rsp)
	movaps	%xmm0, 400(%rsp)
	movq	96(%rdx,%rax), %rcx
	movups	80(%rdx,%rax), %xmm0
	movups	64(%rdx,%rax), %xmm1
	movups	(%rdx,%rax), %xmm2
	movups	16(%rdx,%rax), %xmm3
	movdqu	32(%rdx,%rax), %xmm4
	movups	48(%rdx,%rax), %xmm5
	movups	%xmm2, 624(%rdx)
	movups	%xmm3, 640(%rdx)
	movdqu	%xmm4, 656(%rdx)
	movups	%xmm5, 672(%rdx)
	movups	%xmm1, 688(%rdx)
	movups	%xmm0, 704(%rdx)
	movq	%rcx, 720(%rdx)
	movq	496(%rsp), %rcx
	movq	%rcx, 96(%rdx,%rax)
	movaps	480(%rsp), %xmm0
	movups	%xmm0, 80(%rdx,%rax)
	movaps	464(%rsp), %xmm0
	movups	%xmm0, 64(%rdx,%rax)
	movdqa	400(%rsp), %xmm0
	movdqa	416(%rsp), %xmm1
	movdqa	432(%rsp), %xmm2
	movdqa	448(%rsp), %xmm3
	movdqu	%xmm3, 48(%rdx,%rax)
	movdqu	%xmm2, 32(%rdx,%rax)
	movdqu	%xmm1, 16(%rdx,%rax)
	movdqu	%xmm0, (%rdx,%rax)
	jmp	405f
397:
	movq	%rbx, 1160(%rsp)
	movq	%r15, 128(%rsp)
	movq	232(%rsp), %rdi
	movq	240(%rsp), %rsi
	movq	248(%rsp), %rax
	movq	%rax, 392(%rsp)
	movq	%rdi, 320(%rsp)
	movq	%rsi, 1168(%rsp)
	callq	"mime_store::pairs::sort_pairs"
	testb	%al, %al
	je	406f
	cmpq	$0, 392(%rsp)
	je	398f
	movq	320(%rsp), %rdi
	callq	rattle_dealloc@PLT
398:
	leaq	952(%rsp), %rdi
	callq	"std_alloc::vec::Vec::drop::<#a9a081909576c235>"
	movq	96(%rsp), %rax
	movq	%rax, 1664(%rsp)
	movq	104(%rsp), %rax
	movq	%rax, 1672(%rsp)
	movq	120(%rsp), %rax
	movq	%rax, 1680(%rsp)
	leaq	1664(%rsp), %rdi
	callq	"std_alloc::vec::Vec::drop::<#b75285eeea4a2d4d>"
	movq	64(%rsp), %rax
	movq	%rax, 1632(%rsp)
	movq	128(%rsp), %rax
	movq	%rax, 1640(%rsp)
	movq	40(%rsp), %rax
	movq	%rax, 1648(%rsp)
	leaq	1632(%rsp), %rdi
	jmp	411f
399:
	testq	%r14, %r14
	je	400f
	movq	%r13, %rdi
	callq	rattle_dealloc@PLT
400:
	movq	912(%rsp), %r14
	movq	920(%rsp), %r15
	movq	928(%rsp), %rbx
	testq	%r15, %r15
	je	403f
	leaq	16(%r14), %r12
	jmp	402f
401:
	addq	$32, %r12
	decq	%r15
	je	403f
402:
	cmpq	$0, (%r12)
	je	401b
	movq	-16(%r12), %rdi
	callq	rattle_dealloc@PLT
	jmp	401b
403:
	testq	%rbx, %rbx
	movq	112(%rsp), %r12
	movq	24(%rsp), %rax
	jne	361b
	jmp	362b
404:
	je	405f
	imulq	$104, %rax, %rax
	movq	16(%rsp), %rdx
	movq	96(%rdx,%rax), %rcx
	movq	%rcx, 496(%rsp)
	movups	80(%rdx,%rax), %xmm0
	movaps	%xmm0, 480(%rsp)
	movups	64(%rdx,%rax), %xmm0
	movaps	%xmm0, 464(%rsp)
	movups	(%rdx,%rax), %xmm0
	movups	16(%rdx,%rax), %xmm1
	movups	32(%rdx,%rax), %xmm2
	movups	48(%rdx,%rax), %xmm3
	movaps	%xmm3, 448(%rsp)
	movaps	%xmm2, 432(%rsp)
	movaps	%xmm1, 416(%rsp)
	movaps	%xmm0, 400(%rsp)
	movq	720(%rdx), %rcx
	movups	704(%rdx), %xmm0
	movups	688(%rdx), %xmm1
	movups	624(%rdx), %xmm2
	movups	640(%rdx), %xmm3
	movdqu	656(%rdx), %xmm4
	movups	672(%rdx), %xmm5
	movups	%xmm2, (%rdx,%rax)
	movups	%xmm3, 16(%rdx,%rax)
	movdqu	%xmm4, 32(%rdx,%rax)
	movups	%xmm5, 48(%rdx,%rax)
	movups	%xmm1, 64(%rdx,%rax)
	movups	%xmm0, 80(%rdx,%rax)
	movq	%rcx, 96(%rdx,%rax)
	movq	496(%rsp), %rax
	movq	%rax, 720(%rdx)
	movaps	480(%rsp), %xmm0
	movups	%xmm0, 704(%rdx)
	movaps	464(%rsp), %xmm0
	movups	%xmm0, 688(%rdx)
	movdqa	400(%rsp), %xmm0
	movdqa	416(%rsp), %xmm1
	movdqa	432(%rsp), %xmm2
	movdqa	448(%rsp), %xmm3
	movdqu	%xmm3, 672(%rdx)
	movdqu	%xmm2, 656(%rdx)
	movdqu	%xmm1, 640(%rdx)
	movdqu	%xmm0, 624(%rdx)
405:
	movq	48(%rsp), %r14
	movq	64(%rsp), %rbp
	movq	24(%rsp), %rbx
	jmp	246b
406:
	leaq	1088(%rsp), %rdi
	movq	280(%rsp), %rsi
	movq	328(%rsp), %rdx
	callq	"mime_store::pairs::texts_of_icons"
	cmpb	$0, 1088(%rsp)
	je	408f
	cmpq	$0, 392(%rsp)
	je	407f
	movq	320(%rsp), %rdi
	callq	rattle_dealloc@PLT
407:
	leaq	952(%rsp), %rdi
	callq	"std_alloc::vec::Vec::drop::<#a9a081909576c235>"
	movq	96(%rsp), %rax
	movq	%rax, 1600(%rsp)
	movq	104(%rsp), %rax
	movq	%rax, 1608(%rsp)
	movq	120(%rsp), %rax
	movq	%rax, 1616(%rsp)
	leaq	1600(%rsp), %rdi
	callq	"std_alloc::vec::Vec::drop::<#b75285eeea4a2d4d>"
	movq	64(%rsp), %rax
	movq	%rax, 1568(%rsp)
	movq	128(%rsp), %rax
	movq	%rax, 1576(%rsp)
	movq	40(%rsp), %rax
	movq	%rax, 1584(%rsp)
	leaq	1568(%rsp), %rdi
	jmp	411f
408:
	movq	1096(%rsp), %rdi
	movq	1104(%rsp), %rsi
	movq	1112(%rsp), %rax
	movq	%rax, 984(%rsp)
	movq	%rdi, 384(%rsp)
	movq	%rsi, 1152(%rsp)
	callq	"mime_store::pairs::sort_pairs"
	testb	%al, %al
	je	413f
	cmpq	$0, 984(%rsp)
	je	409f
	movq	384(%rsp), %rdi
	callq	rattle_dealloc@PLT
409:
	cmpq	$0, 392(%rsp)
	je	410f
	movq	320(%rsp), %rdi
	callq	rattle_dealloc@PLT
410:
	leaq	952(%rsp), %rdi
	callq	"std_alloc::vec::Vec::drop::<#a9a081909576c235>"
	movq	96(%rsp), %rax
	movq	%rax, 1536(%rsp)
	movq	104(%rsp), %rax
	movq	%rax, 1544(%rsp)
	movq	120(%rsp), %rax
	movq	%rax, 1552(%rsp)
	leaq	1536(%rsp), %rdi
	callq	"std_alloc::vec::Vec::drop::<#b75285eeea4a2d4d>"
	movq	64(%rsp), %rax
	movq	%rax, 1504(%rsp)
	movq	128(%rsp), %rax
	movq	%rax, 1512(%rsp)
	movq	40(%rsp), %rax
	movq	%rax, 1520(%rsp)
	leaq	1504(%rsp), %rdi
411:
	callq	"std_alloc::vec::Vec::drop::<#a9a081909576c235>"
	cmpq	$0, 24(%rsp)
	je	412f
	movq	16(%rsp), %rdi
	callq	rattle_dealloc@PLT
412:
	cmpq	$0, 160(%rsp)
	movq	112(%rsp), %r12
	movq	32(%rsp), %r15
	movq	256(%rsp), %rdi
	jne	256b
	jmp	257b
413:
	movq	952(%rsp), %rax
	movq	%rax, 312(%rsp)
	movq	960(%rsp), %rax
	movq	%rax, 184(%rsp)
	movq	968(%rsp), %rax
	movq	%rax, 1040(%rsp)
	leaq	8(%rsp), %rax
	movq	%rax, 1184(%rsp)
	pxor	%xmm0, %xmm0
	movdqu	%xmm0, 1192(%rsp)
	cmpq	$0, 88(%rsp)
	je	428f
	movq	16(%rsp), %rcx
	leaq	8(%rcx), %rax
	movq	%rax, 1080(%rsp)
	leaq	8(%rsp), %rax
	movq	%rax, 1176(%rsp)
	movq	$0, 144(%rsp)
	xorl	%eax, %eax
	jmp	417f
414:
	movq	%r14, %rbx
415:
	movq	144(%rsp), %rdx
	cmpq	%rdx, 1200(%rsp)
	je	426f
416:
	movq	16(%rsp), %rcx
	addq	%rcx, %r15
	movq	%rdx, %rax
	shlq	$5, %rax
	movq	1176(%rsp), %rsi
	movq	%rbp, (%rsi,%rax)
	movq	%r13, 8(%rsi,%rax)
	movq	%r15, 16(%rsi,%rax)
	movq	%rbx, 24(%rsi,%rax)
	incq	%rdx
	movq	%rdx, 144(%rsp)
	movq	%rdx, 1192(%rsp)
	movq	192(%rsp), %rax
	addq	%rbx, %rax
	cmpq	88(%rsp), %rax
	jae	427f
417:
	movq	%rax, %rdx
	shlq	$5, %rdx
	movq	(%rcx,%rdx), %rbp
	movq	%rdx, %r15
	movq	8(%rcx,%rdx), %r13
	movq	88(%rsp), %r14
	movq	%rax, 192(%rsp)
	subq	%rax, %r14
	cmpq	$4, %r13
	jae	422f
	testq	%r13, %r13
	je	424f
	movq	1080(%rsp), %rax
	addq	%r15, %rax
	xorl	%ebx, %ebx
	movq	%rbp, %rdi
	jmp	421f
418:
	xorl	%edx, %edx
419:
	cmpq	%r13, %rdx
	jb	415b
420:
	incq	%rbx
	addq	$32, %rax
	cmpq	%rbx, %r14
	je	414b
421:
	cmpq	%r13, (%rax)
	jne	415b
	movq	-8(%rax), %rcx
	movzbl	(%rcx), %edx
	cmpb	(%rdi), %dl
	jne	418b
	cmpq	$1, %r13
	je	420b
	movzbl	1(%rcx), %esi
	movl	$1, %edx
	cmpb	1(%rdi), %sil
	jne	419b
	cmpq	$2, %r13
	je	420b
	movzbl	2(%rcx), %ecx
	movl	$2, %edx
	cmpb	2(%rdi), %cl
	jne	419b
	jmp	420b
422:
	movq	1080(%rsp), %rax
	leaq	(%rax,%r15), %r12
	xorl	%ebx, %ebx
	movq	%rbp, %rdx
423:
	cmpq	%r13, (%r12)
	jne	415b
	movq	-8(%r12), %rdi
	movl	(%rdi), %eax
	cmpl	(%rdx), %eax
	jne	415b
	movq	%r13, %rsi
	callq	"core::cmp::slices::groups_equal::<i8,31'core::cmp::numbers::U8PartialEq{}>"
	testb	%al, %al
	je	415b
	incq	%rbx
	addq	$32, %r12
	cmpq	%rbx, %r14
	movq	%rbp, %rdx
	jne	423b
	jmp	414b
424:
	movq	1080(%rsp), %rax
	addq	%r15, %rax
	xorl	%ebx, %ebx
425:
	cmpq	$0, (%rax)
	jne	415b
	incq	%rbx
	addq	$32, %rax
	cmpq	%rbx, %r14
	jne	425b
	jmp	414b
426:
	leaq	1184(%rsp), %rdi
	callq	"std_alloc::vec::Vec::grow_amortized::<#d1a3832c1f454e62>"
	testb	%al, %al
	je	504f
	movq	1184(%rsp), %rax
	movq	%rax, 1176(%rsp)
	movq	1192(%rsp), %rdx
	jmp	416b
427:
	movq	1184(%rsp), %r13
	cmpq	$0, 1200(%rsp)
	sete	88(%rsp)
	jmp	429f
428:
	movq	%rax, %r13
	movb	$1, 88(%rsp)
	movq	$0, 144(%rsp)
429:
	cmpq	$0, 48(%rsp)
	je	431f
	movq	256(%rsp), %rax
	addq	$24, %rax
	movl	$268435368, %edx
	movq	48(%rsp), %rcx
430:
	subq	$8, %rdx
	jb	453f
	movq	-16(%rax), %rsi
	cmpq	%rsi, %rdx
	jbe	453f
	movq	%rsi, %rdi
	orq	$-4, %rdi
	subq	%rdi, %rsi
	movq	%rdx, %rdi
	subq	%rsi, %rdi
	movl	$0, %edx
	cmovaeq	%rdi, %rdx
	jb	453f
	movq	(%rax), %rsi
	cmpq	%rsi, %rdx
	jbe	453f
	movq	%rsi, %rdi
	orq	$-4, %rdi
	subq	%rdi, %rsi
	subq	%rsi, %rdx
	jb	453f
	addq	$32, %rax
	decq	%rcx
	jne	430b
	jmp	432f
431:
	movl	$268435368, %edx
432:
	cmpq	$0, 144(%rsp)
	je	436f
	xorl	%eax, %eax
433:
	subq	$12, %rdx
	jb	453f
	movq	%rax, %rsi
	shlq	$5, %rsi
	movq	8(%r13,%rsi), %rcx
	cmpq	%rcx, %rdx
	jbe	453f
	movq	%rcx, %rdi
	orq	$-4, %rdi
	subq	%rdi, %rcx
	subq	%rcx, %rdx
	jb	453f
	movq	24(%r13,%rsi), %rcx
	testq	%rcx, %rcx
	je	435f
	movq	16(%r13,%rsi), %rsi
	addq	$24, %rsi
434:
	subq	$4, %rdx
	jb	453f
	movq	(%rsi), %rdi
	cmpq	%rdi, %rdx
	jbe	453f
	movq	%rdi, %r8
	orq	$-4, %r8
	subq	%r8, %rdi
	subq	%rdi, %rdx
	jb	453f
	addq	$32, %rsi
	decq	%rcx
	jne	434b
435:
	incq	%rax
	cmpq	144(%rsp), %rax
	jne	433b
436:
	cmpq	$0, 128(%rsp)
	je	439f
	movq	64(%rsp), %rax
	addq	$24, %rax
	movq	128(%rsp), %rcx
437:
	subq	$12, %rdx
	jb	453f
	movq	-16(%rax), %rsi
	cmpq	%rsi, %rdx
	jbe	453f
	movq	%rsi, %rdi
	orq	$-4, %rdi
	subq	%rdi, %rsi
	subq	%rsi, %rdx
	jae	438f
	movl	$0, %edx
438:
	jb	453f
	movq	(%rax), %rsi
	leaq	24(%rsi), %rdi
	leaq	48(%rsi), %r8
	cmpb	$0, 8(%rsi)
	cmoveq	%r8, %rdi
	movq	(%rdi), %rsi
	cmpq	%rsi, %rdx
	jbe	453f
	movq	%rsi, %rdi
	orq	$-4, %rdi
	subq	%rdi, %rsi
	subq	%rsi, %rdx
	jb	453f
	addq	$32, %rax
	decq	%rcx
	jne	437b
439:
	cmpq	$0, 104(%rsp)
	je	447f
	xorl	%esi, %esi
	xorl	%eax, %eax
	xorl	%edi, %edi
440:
	leaq	(%rax,%rax,4), %rcx
	movq	96(%rsp), %r8
	leaq	(%r8,%rcx,8), %rcx
	testb	$1, %sil
	je	444f
	movq	32(%rdi), %rsi
	xorl	%r8d, %r8d
	cmpb	$0, 56(%rsi)
	sete	%r8b
	movq	72(%rsi,%r8,8), %r10
	decq	%r10
	movq	32(%rcx), %rsi
	movzbl	56(%rsi), %r8d
	xorl	%r9d, %r9d
	testb	%r8b, %r8b
	sete	%r9b
	movq	72(%rsi,%r9,8), %r9
	decq	%r9
	cmpq	%r10, %r9
	cmovaeq	%r10, %r9
	testq	%r9, %r9
	je	445f
	movq	%r9, %r11
	negq	%r11
	movq	$-8, %rbx
	xorl	%r14d, %r14d
441:
	movq	%rbx, %r10
	addq	$8, %r10
	jae	442f
	leaq	(%rdi,%r14), %r12
	leaq	(%rcx,%r14), %rbp
	jmp	443f
442:
	movq	8(%rdi), %r12
	addq	%rbx, %r12
	movq	8(%rcx), %rbp
	addq	%rbx, %rbp
443:
	movzbl	(%r12), %r12d
	cmpb	(%rbp), %r12b
	jne	446f
	incq	%r14
	leaq	(%r11,%rbx), %r10
	incq	%r10
	incq	%rbx
	cmpq	$-8, %r10
	jne	441b
	movq	%r9, %r10
	jmp	446f
444:
	movq	32(%rcx), %rsi
	movzbl	56(%rsi), %r8d
445:
	xorl	%r10d, %r10d
446:
	xorl	%edi, %edi
	testb	%r8b, %r8b
	sete	%dil
	movq	72(%rsi,%rdi,8), %rdi
	subq	%r10, %rdi
	shlq	$2, %rdi
	leaq	(%rdi,%rdi,2), %rdi
	movq	%rdx, %r8
	subq	%rdi, %r8
	movl	$0, %edx
	cmovaeq	%r8, %rdx
	jb	453f
	leaq	24(%rsi), %rdi
	leaq	48(%rsi), %r8
	cmpb	$0, 8(%rsi)
	cmoveq	%r8, %rdi
	movq	(%rdi), %rsi
	cmpq	%rsi, %rdx
	jbe	453f
	movq	%rsi, %rdi
	orq	$-4, %rdi
	subq	%rdi, %rsi
	subq	%rsi, %rdx
	jb	453f
	incq	%rax
	movb	$1, %sil
	movq	%rcx, %rdi
	cmpq	104(%rsp), %rax
	jne	440b
447:
	cmpq	$0, 184(%rsp)
	je	450f
	movq	312(%rsp), %rax
	addq	$24, %rax
	movq	184(%rsp), %rcx
448:
	subq	$12, %rdx
	jb	453f
	movq	-16(%rax), %rsi
	cmpq	%rsi, %rdx
	jbe	453f
	movq	%rsi, %rdi
	orq	$-4, %rdi
	subq	%rdi, %rsi
	subq	%rsi, %rdx
	jae	449f
	movl	$0, %edx
449:
	jb	453f
	movq	(%rax), %rsi
	leaq	24(%rsi), %rdi
	leaq	48(%rsi), %r8
	cmpb	$0, 8(%rsi)
	cmoveq	%r8, %rdi
	movq	(%rdi), %rsi
	cmpq	%rsi, %rdx
	jbe	453f
	movq	%rsi, %rdi
	orq	$-4, %rdi
	subq	%rdi, %rsi
	subq	%rsi, %rdx
	jb	453f
	addq	$32, %rax
	decq	%rcx
	jne	448b
450:
	cmpq	$0, 200(%rsp)
	je	452f
	movq	272(%rsp), %rax
	leaq	64(%rax), %rbx
	movq	200(%rsp), %r14
451:
	subq	$16, %rdx
	jb	453f
	leaq	24(%rbx), %rax
	leaq	48(%rbx), %rcx
	cmpb	$0, -56(%rbx)
	cmoveq	%rcx, %rax
	movq	-64(%rax), %rax
	cmpq	%rax, %rdx
	jbe	453f
	movq	%rax, %rcx
	orq	$-4, %rcx
	subq	%rcx, %rax
	subq	%rax, %rdx
	jb	453f
	movq	-8(%rbx), %rsi
	movq	(%rbx), %rax
	movq	%rdx, %rdi
	movq	%rax, %rdx
	callq	"mime_store::room::take_lines"
	cmpb	$1, %al
	jne	453f
	addq	$80, %rbx
	decq	%r14
	jne	451b
452:
	movq	%rdx, %rdi
	movq	320(%rsp), %rsi
	movq	1168(%rsp), %rdx
	callq	"mime_store::list::take_list::<#a1c591a832a2edc1>"
	cmpb	$1, %al
	jne	453f
	movq	%rdx, %rdi
	movq	384(%rsp), %rsi
	movq	1152(%rsp), %rdx
	callq	"mime_store::list::take_list::<#a1c591a832a2edc1>"
	cmpb	$1, %al
	jne	453f
	movl	$268435456, %r14d
	subq	%rdx, %r14
	pxor	%xmm0, %xmm0
	movdqa	%xmm0, 1200(%rsp)
	movdqa	%xmm0, 1184(%rsp)
	movq	$0, 1216(%rsp)
	cmpq	$268435456, %rdx
	jne	518f
	leaq	8(%rsp), %rdx
	jmp	519f
453:
	cmpb	$0, 88(%rsp)
	jne	454f
	movq	%r13, %rdi
	callq	rattle_dealloc@PLT
454:
	cmpq	$0, 160(%rsp)
	je	455f
	movq	256(%rsp), %rdi
	callq	rattle_dealloc@PLT
455:
	cmpq	$0, 24(%rsp)
	je	456f
	movq	16(%rsp), %rdi
	callq	rattle_dealloc@PLT
456:
	cmpq	$0, 128(%rsp)
	je	459f
	movq	64(%rsp), %rax
	leaq	16(%rax), %rbx
	jmp	458f
457:
	addq	$32, %rbx
	decq	128(%rsp)
	je	459f
458:
	cmpq	$0, (%rbx)
	je	457b
	movq	-16(%rbx), %rdi
	callq	rattle_dealloc@PLT
	jmp	457b
459:
	cmpq	$0, 40(%rsp)
	je	460f
	movq	64(%rsp), %rdi
	callq	rattle_dealloc@PLT
460:
	cmpq	$0, 104(%rsp)
	je	463f
	movq	96(%rsp), %rax
	leaq	24(%rax), %rbx
	jmp	462f
461:
	addq	$40, %rbx
	decq	104(%rsp)
	je	463f
462:
	cmpq	$0, (%rbx)
	je	461b
	movq	-16(%rbx), %rdi
	callq	rattle_dealloc@PLT
	jmp	461b
463:
	cmpq	$0, 120(%rsp)
	je	464f
	movq	96(%rsp), %rdi
	callq	rattle_dealloc@PLT
464:
	cmpq	$0, 184(%rsp)
	je	467f
	movq	312(%rsp), %rax
	leaq	16(%rax), %rbx
	jmp	466f
465:
	addq	$32, %rbx
	decq	184(%rsp)
	je	467f
466:
	cmpq	$0, (%rbx)
	je	465b
	movq	-16(%rbx), %rdi
	callq	rattle_dealloc@PLT
	jmp	465b
467:
	cmpq	$0, 1040(%rsp)
	je	468f
	movq	312(%rsp), %rdi
	callq	rattle_dealloc@PLT
468:
	cmpq	$0, 392(%rsp)
	je	469f
	movq	320(%rsp), %rdi
	callq	rattle_dealloc@PLT
469:
	cmpq	$0, 984(%rsp)
	je	470f
	movq	384(%rsp), %rdi
	callq	rattle_dealloc@PLT
470:
	movl	1048(%rsp), %eax
	movl	1051(%rsp), %ecx
	movl	%ecx, 219(%rsp)
	movl	%eax, 216(%rsp)
	movl	344(%rsp), %eax
	movl	347(%rsp), %ecx
	movl	%eax, 136(%rsp)
	movl	%ecx, 139(%rsp)
	cmpq	$0, 32(%rsp)
	je	474f
	movq	56(%rsp), %rax
	leaq	80(%rax), %rbx
	jmp	472f
471:
	addq	$104, %rbx
	decq	32(%rsp)
	je	474f
472:
	movzbl	-24(%rbx), %ebp
	movq	-16(%rbx), %r14
	movq	(%rbx), %r15
	cmpb	$0, -72(%rbx)
	je	473f
	cmpq	$0, -48(%rbx)
	je	473f
	movq	-64(%rbx), %rdi
	callq	rattle_dealloc@PLT
473:
	testb	%bpl, %bpl
	je	471b
	testq	%r15, %r15
	je	471b
	movq	%r14, %rdi
	callq	rattle_dealloc@PLT
	jmp	471b
474:
	cmpq	$0, 336(%rsp)
	je	475f
	movq	56(%rsp), %rdi
	callq	rattle_dealloc@PLT
475:
	cmpq	$0, 152(%rsp)
	je	479f
	movq	304(%rsp), %r14
	jmp	477f
476:
	addq	$96, %r14
	decq	152(%rsp)
	je	479f
477:
	movzbl	48(%r14), %ebp
	movq	56(%r14), %rbx
	movq	72(%r14), %r15
	cmpb	$0, (%r14)
	je	478f
	cmpq	$0, 24(%r14)
	je	478f
	movq	8(%r14), %rdi
	callq	rattle_dealloc@PLT
478:
	testb	%bpl, %bpl
	je	476b
	testq	%r15, %r15
	je	476b
	movq	%rbx, %rdi
	callq	rattle_dealloc@PLT
	jmp	476b
479:
	cmpq	$0, 992(%rsp)
	je	480f
	movq	304(%rsp), %rdi
	callq	rattle_dealloc@PLT
480:
	cmpq	$0, 112(%rsp)
	je	484f
	movq	296(%rsp), %r14
	jmp	482f
481:
	addq	$96, %r14
	decq	112(%rsp)
	je	484f
482:
	movzbl	48(%r14), %ebp
	movq	56(%r14), %rbx
	movq	72(%r14), %r15
	cmpb	$0, (%r14)
	je	483f
	cmpq	$0, 24(%r14)
	je	483f
	movq	8(%r14), %rdi
	callq	rattle_dealloc@PLT
483:
	testb	%bpl, %bpl
	je	481b
	testq	%r15, %r15
	je	481b
	movq	%rbx, %rdi
	callq	rattle_dealloc@PLT
	jmp	481b
484:
	cmpq	$0, 1000(%rsp)
	je	485f
	movq	296(%rsp), %rdi
	callq	rattle_dealloc@PLT
485:
	cmpq	$0, 200(%rsp)
	je	491f
	xorl	%r14d, %r14d
	jmp	487f
486:
	incq	%r14
	cmpq	200(%rsp), %r14
	je	491f
487:
	movq	%r14, %rax
	shlq	$4, %rax
	leaq	(%rax,%rax,4), %rax
	movq	272(%rsp), %rcx
	movq	56(%rcx,%rax), %rbx
	movq	64(%rcx,%rax), %r12
	movq	72(%rcx,%rax), %r15
	cmpb	$0, 8(%rcx,%rax)
	je	488f
	cmpq	$0, 32(%rcx,%rax)
	je	488f
	movq	16(%rcx,%rax), %rdi
	callq	rattle_dealloc@PLT
488:
	testq	%r12, %r12
	je	490f
	movq	%rbx, %r13
489:
	movups	80(%r13), %xmm0
	movaps	%xmm0, 1264(%rsp)
	movups	64(%r13), %xmm0
	movaps	%xmm0, 1248(%rsp)
	movdqu	(%r13), %xmm0
	movdqu	16(%r13), %xmm1
	movdqu	32(%r13), %xmm2
	movdqu	48(%r13), %xmm3
	movdqa	%xmm3, 1232(%rsp)
	movdqa	%xmm2, 1216(%rsp)
	movdqa	%xmm1, 1200(%rsp)
	movdqa	%xmm0, 1184(%rsp)
	leaq	1184(%rsp), %rdi
	callq	"mime_c::mime_base++magic++matchlet++Matchlet+Destruct::drop"
	addq	$96, %r13
	decq	%r12
	jne	489b
490:
	testq	%r15, %r15
	je	486b
	movq	%rbx, %rdi
	callq	rattle_dealloc@PLT
	jmp	486b
491:
	cmpq	$0, 1008(%rsp)
	je	492f
	movq	272(%rsp), %rdi
	callq	rattle_dealloc@PLT
492:
	cmpq	$0, 208(%rsp)
	je	496f
	movq	288(%rsp), %r14
	jmp	494f
493:
	addq	$96, %r14
	decq	208(%rsp)
	je	496f
494:
	movzbl	48(%r14), %ebp
	movq	56(%r14), %rbx
	movq	72(%r14), %r15
	cmpb	$0, (%r14)
	je	495f
	cmpq	$0, 24(%r14)
	je	495f
	movq	8(%r14), %rdi
	callq	rattle_dealloc@PLT
495:
	testb	%bpl, %bpl
	je	493b
	testq	%r15, %r15
	je	493b
	movq	%rbx, %rdi
	callq	rattle_dealloc@PLT
	jmp	493b
496:
	cmpq	$0, 1016(%rsp)
	je	497f
	movq	288(%rsp), %rdi
	callq	rattle_dealloc@PLT
497:
	cmpq	$0, 328(%rsp)
	je	501f
	movq	280(%rsp), %r14
	jmp	499f
498:
	addq	$96, %r14
	decq	328(%rsp)
	je	501f
499:
	movzbl	48(%r14), %ebp
	movq	56(%r14), %rbx
	movq	72(%r14), %r15
	cmpb	$0, (%r14)
	je	500f
	cmpq	$0, 24(%r14)
	je	500f
	movq	8(%r14), %rdi
	callq	rattle_dealloc@PLT
500:
	testb	%bpl, %bpl
	je	498b
	testq	%r15, %r15
	je	498b
	movq	%rbx, %rdi
	callq	rattle_dealloc@PLT
	jmp	498b
501:
	cmpq	$0, 1024(%rsp)
	je	502f
	movq	280(%rsp), %rdi
	callq	rattle_dealloc@PLT
502:
	movq	1032(%rsp), %rdx
	movq	$1, (%rdx)
	movq	$1, 8(%rdx)
	jmp	330b
503:
	ud2
504:
	cmpq	$0, 1200(%rsp)
	je	505f
	movq	1184(%rsp), %rdi
	callq	rattle_dealloc@PLT
505:
	cmpq	$0, 160(%rsp)
	je	506f
	movq	256(%rsp), %rdi
	callq	rattle_dealloc@PLT
506:
	cmpq	$0, 24(%rsp)
	je	507f
	movq	16(%rsp), %rdi
	callq	rattle_dealloc@PLT
507:
	cmpq	$0, 128(%rsp)
	je	510f
	movq	64(%rsp), %rax
	leaq	16(%rax), %rbx
	jmp	509f
508:
	addq	$32, %rbx
	decq	128(%rsp)
	je	510f
509:
	cmpq	$0, (%rbx)
	je	508b
	movq	-16(%rbx), %rdi
	callq	rattle_dealloc@PLT
	jmp	508b
510:
	cmpq	$0, 40(%rsp)
	je	511f
	movq	64(%rsp), %rdi
	callq	rattle_dealloc@PLT
511:
	cmpq	$0, 104(%rsp)
	je	514f
	movq	96(%rsp), %rax
	leaq	24(%rax), %rbx
	jmp	513f
512:
	addq	$40, %rbx
	decq	104(%rsp)
	je	514f
513:
	cmpq	$0, (%rbx)
	je	512b
	movq	-16(%rbx), %rdi
	callq	rattle_dealloc@PLT
	jmp	512b
514:
	cmpq	$0, 120(%rsp)
	je	515f
	movq	96(%rsp), %rdi
	callq	rattle_dealloc@PLT
515:
	cmpq	$0, 184(%rsp)
	je	538f
	movq	312(%rsp), %rax
	leaq	16(%rax), %rbx
	jmp	517f
516:
	addq	$32, %rbx
	decq	184(%rsp)
	je	538f
517:
	cmpq	$0, (%rbx)
	je	516b
	movq	-16(%rbx), %rdi
	callq	rattle_dealloc@PLT
	jmp	516b
518:
	testq	%r14, %r14
	js	524f
	movl	$1, %esi
	movq	%r14, %rdi
	callq	rattle_alloc@PLT
	testb	$1, %al
	je	524f
519:
	movq	%rdx, 224(%rsp)
	movq	$0, 232(%rsp)
	movq	%r14, 240(%rsp)
	movl	$40, %ebx
	xorl	%eax, %eax
	jmp	521f
520:
	movb	$0, (%rdx,%rax)
	incq	%rax
	movq	%rax, 232(%rsp)
	decq	%rbx
	je	522f
521:
	cmpq	%rax, 240(%rsp)
	jne	520b
	leaq	224(%rsp), %rdi
	movl	$1, %esi
	callq	"std_alloc::vec::Vec::grow_amortized::<#5c0d41a9695ab8a2>"
	testb	%al, %al
	je	523f
	movq	224(%rsp), %rdx
	movq	232(%rsp), %rax
	jmp	520b
522:
	leaq	224(%rsp), %rdi
	movq	256(%rsp), %rsi
	movq	48(%rsp), %rdx
	callq	"mime_store::list::write_list::<#a1c591a832a2edc1>"
	xorl	%ecx, %ecx
	testb	$1, %al
	cmovel	%edx, %ecx
	movl	%ecx, 48(%rsp)
	testb	%al, %al
	je	542f
523:
	cmpq	$0, 240(%rsp)
	je	524f
	movq	224(%rsp), %rdi
	callq	rattle_dealloc@PLT
524:
	cmpb	$0, 88(%rsp)
	jne	525f
	movq	%r13, %rdi
	callq	rattle_dealloc@PLT
525:
	cmpq	$0, 160(%rsp)
	je	526f
	movq	256(%rsp), %rdi
	callq	rattle_dealloc@PLT
526:
	cmpq	$0, 24(%rsp)
	je	527f
	movq	16(%rsp), %rdi
	callq	rattle_dealloc@PLT
527:
	cmpq	$0, 128(%rsp)
	je	530f
	movq	64(%rsp), %rax
	leaq	16(%rax), %rbx
	jmp	529f
528:
	addq	$32, %rbx
	decq	128(%rsp)
	je	530f
529:
	cmpq	$0, (%rbx)
	je	528b
	movq	-16(%rbx), %rdi
	callq	rattle_dealloc@PLT
	jmp	528b
530:
	cmpq	$0, 40(%rsp)
	je	531f
	movq	64(%rsp), %rdi
	callq	rattle_dealloc@PLT
531:
	cmpq	$0, 104(%rsp)
	je	534f
	movq	96(%rsp), %rax
	leaq	24(%rax), %rbx
	jmp	533f
532:
	addq	$40, %rbx
	decq	104(%rsp)
	je	534f
533:
	cmpq	$0, (%rbx)
	je	532b
	movq	-16(%rbx), %rdi
	callq	rattle_dealloc@PLT
	jmp	532b
534:
	cmpq	$0, 120(%rsp)
	je	535f
	movq	96(%rsp), %rdi
	callq	rattle_dealloc@PLT
535:
	cmpq	$0, 184(%rsp)
	je	538f
	movq	312(%rsp), %rax
	leaq	16(%rax), %rbx
	jmp	537f
536:
	addq	$32, %rbx
	decq	184(%rsp)
	je	538f
537:
	cmpq	$0, (%rbx)
	je	536b
	movq	-16(%rbx), %rdi
	callq	rattle_dealloc@PLT
	jmp	536b
538:
	cmpq	$0, 1040(%rsp)
	je	539f
	movq	312(%rsp), %rdi
	callq	rattle_dealloc@PLT
539:
	cmpq	$0, 392(%rsp)
	je	540f
	movq	320(%rsp), %rdi
	callq	rattle_dealloc@PLT
540:
	cmpq	$0, 984(%rsp)
	je	541f
	movq	384(%rsp), %rdi
	callq	rattle_dealloc@PLT
541:
	movl	$0, 219(%rsp)
	movl	$0, 216(%rsp)
	movq	112(%rsp), %r12
	movq	32(%rsp), %r15
	jmp	258b
542:
	movq	144(%rsp), %rax
	leaq	(%rax,%rax), %r14
	testq	%rax, %rax
	movq	$-1, %rdi
	cmovnsq	%r14, %rdi
	xorl	%edx, %edx
	movl	$0, %eax
	movl	$0, %ebx
	cmpq	$5, %rdi
	jb	543f
	movq	%rdi, %rax
	shrq	$61, %rax
	jne	523b
	shlq	$2, %rdi
	movl	$4, %esi
	callq	rattle_alloc@PLT
	testb	$1, %al
	je	523b
	movl	$1, %ebx
	movq	%r14, %rax
543:
	movq	%rbx, 352(%rsp)
	movq	%rdx, 360(%rsp)
	movq	$0, 368(%rsp)
	movq	%rax, 376(%rsp)
	cmpq	$0, 144(%rsp)
	je	551f
	movq	$0, 192(%rsp)
544:
	movq	192(%rsp), %rbx
	shlq	$5, %rbx
	movq	(%r13,%rbx), %rsi
	movq	8(%r13,%rbx), %rdx
	leaq	224(%rsp), %rdi
	callq	"mime_store::bytes::append_text"
	testb	%al, %al
	jne	555f
	movl	%edx, %r15d
	movq	16(%r13,%rbx), %r12
	movq	24(%r13,%rbx), %rbx
	cmpq	$5, %rbx
	jb	545f
	movq	%rbx, %rax
	shrq	$61, %rax
	jne	555f
	leaq	(,%rbx,4), %rdi
	movl	$4, %esi
	callq	rattle_alloc@PLT
	testb	$1, %al
	je	555f
	movq	$1, 400(%rsp)
	movq	%rdx, 408(%rsp)
	movq	$0, 416(%rsp)
	movq	%rbx, 424(%rsp)
	jmp	546f
545:
	pxor	%xmm0, %xmm0
	movdqa	%xmm0, 416(%rsp)
	movdqa	%xmm0, 400(%rsp)
	testq	%rbx, %rbx
	je	548f
546:
	addq	$24, %r12
	movq	%rbx, %rbp
547:
	movq	-8(%r12), %rsi
	movq	(%r12), %rdx
	leaq	224(%rsp), %rdi
	callq	"mime_store::bytes::append_text"
	testb	%al, %al
	jne	553f
	movl	%edx, 912(%rsp)
	leaq	400(%rsp), %rdi
	leaq	912(%rsp), %rsi
	movl	$1, %edx
	callq	"smallvec::small_vec::SmallVec::extend_from_slice::<#8f588e0f66f62309>"
	testb	%al, %al
	jne	553f
	addq	$32, %r12
	decq	%rbp
	jne	547b
	movzbl	400(%rsp), %eax
	jmp	549f
548:
	xorl	%eax, %eax
549:
	leaq	408(%rsp), %rdx
	movq	16(%rdx), %rcx
	leaq	792(%rsp), %rsi
	movq	%rcx, 16(%rsi)
	movdqu	(%rdx), %xmm0
	movdqu	%xmm0, (%rsi)
	movzbl	%al, %ebp
	movq	%rbp, 784(%rsp)
	testb	%bpl, %bpl
	movq	792(%rsp), %r12
	movq	%r12, %rdx
	cmoveq	%rsi, %rdx
	movq	808(%rsp), %r14
	movq	800(%rsp), %rcx
	cmoveq	%r14, %rcx
	leaq	224(%rsp), %rdi
	movl	%ebx, %esi
	callq	"mime_store::bytes::append_list"
	movl	%edx, %ebx
	cmpb	$1, %bpl
	setne	%dl
	testq	%r14, %r14
	sete	%cl
	orb	%dl, %cl
	testb	%al, %al
	jne	561f
	testb	%cl, %cl
	jne	550f
	movq	%r12, %rdi
	callq	rattle_dealloc@PLT
550:
	movl	%r15d, %eax
	shlq	$32, %rbx
	orq	%rax, %rbx
	movq	%rbx, 1088(%rsp)
	leaq	352(%rsp), %rdi
	leaq	1088(%rsp), %rsi
	movl	$2, %edx
	callq	"smallvec::small_vec::SmallVec::extend_from_slice::<#8f588e0f66f62309>"
	testb	%al, %al
	jne	555f
	movq	192(%rsp), %rcx
	incq	%rcx
	movq	%rcx, 192(%rsp)
	cmpq	144(%rsp), %rcx
	jne	544b
	movzbl	352(%rsp), %ebx
551:
	leaq	360(%rsp), %rax
	movdqu	(%rax), %xmm0
	movdqu	%xmm0, 952(%rsp)
	movq	16(%rax), %rbp
	movq	%rbp, 968(%rsp)
	movzbl	%bl, %eax
	movq	%rax, 944(%rsp)
	movq	952(%rsp), %r14
	movq	%rbp, %rcx
	testb	%al, %al
	je	552f
	movq	960(%rsp), %rcx
	movq	%r14, 1160(%rsp)
552:
	leaq	224(%rsp), %rdi
	movq	144(%rsp), %rsi
	movq	1160(%rsp), %rdx
	callq	"mime_store::bytes::append_list"
	movl	%edx, %r12d
	cmpb	$1, %bl
	setne	%dl
	testq	%rbp, %rbp
	sete	%cl
	orb	%dl, %cl
	testb	%al, %al
	je	556f
	testb	%cl, %cl
	jne	523b
	movq	%r14, %rdi
	callq	rattle_dealloc@PLT
	jmp	523b
553:
	cmpb	$1, 400(%rsp)
	jne	555f
	cmpq	$0, 424(%rsp)
	je	555f
	movq	408(%rsp), %rdi
554:
	callq	rattle_dealloc@PLT
555:
	cmpb	$1, 352(%rsp)
	jne	523b
	cmpq	$0, 376(%rsp)
	je	523b
	movq	360(%rsp), %rdi
	callq	rattle_dealloc@PLT
	jmp	523b
556:
	testb	%cl, %cl
	jne	557f
	movq	%r14, %rdi
	callq	rattle_dealloc@PLT
557:
	leaq	224(%rsp), %rdi
	movq	64(%rsp), %rsi
	movq	128(%rsp), %rdx
	callq	"mime_store::list::write_list::<#aefa0a0a70fe95cb>"
	testb	%al, %al
	jne	523b
	movl	%edx, %r14d
	leaq	224(%rsp), %rdi
	movq	96(%rsp), %rsi
	movq	104(%rsp), %rdx
	callq	"mime_store::suffix_tree::write_tree"
	testb	%al, %al
	jne	523b
	movl	%edx, %ebx
	leaq	224(%rsp), %rdi
	movq	312(%rsp), %rsi
	movq	184(%rsp), %rdx
	callq	"mime_store::list::write_list::<#aefa0a0a70fe95cb>"
	testb	%al, %al
	jne	523b
	movl	%edx, %ebp
	leaq	224(%rsp), %rdi
	movq	272(%rsp), %rsi
	movq	200(%rsp), %rdx
	callq	"mime_store::magic::write_magic"
	testb	%al, %al
	jne	523b
	movl	%edx, %r15d
	leaq	.L22d5119de29e(%rip), %rdx
	leaq	224(%rsp), %rdi
	xorl	%esi, %esi
	xorl	%ecx, %ecx
	callq	"mime_store::bytes::append_list"
	movl	%edx, 144(%rsp)
	testb	%al, %al
	jne	523b
	leaq	224(%rsp), %rdi
	movq	320(%rsp), %rsi
	movq	1168(%rsp), %rdx
	callq	"mime_store::list::write_list::<#a1c591a832a2edc1>"
	movl	%edx, 192(%rsp)
	testb	%al, %al
	jne	523b
	leaq	224(%rsp), %rdi
	movq	384(%rsp), %rsi
	movq	1152(%rsp), %rdx
	callq	"mime_store::list::write_list::<#a1c591a832a2edc1>"
	testb	%al, %al
	jne	523b
	movl	$65538, 1184(%rsp)
	movl	48(%rsp), %eax
	movl	%eax, 1188(%rsp)
	movl	%r12d, 1192(%rsp)
	movl	%r14d, 1196(%rsp)
	movl	%ebx, 1200(%rsp)
	movl	%ebp, 1204(%rsp)
	movl	%r15d, 1208(%rsp)
	movl	144(%rsp), %eax
	movl	%eax, 1212(%rsp)
	movl	192(%rsp), %eax
	movl	%eax, 1216(%rsp)
	movl	%edx, 1220(%rsp)
	movq	224(%rsp), %rdi
	movq	232(%rsp), %rax
	movq	%rax, 144(%rsp)
	leaq	1184(%rsp), %rsi
	movq	%rdi, 48(%rsp)
	callq	"mime_store::bytes::patch"
	movzbl	240(%rsp), %eax
	movb	%al, 192(%rsp)
	movl	241(%rsp), %eax
	movl	%eax, 872(%rsp)
	movl	244(%rsp), %eax
	movl	%eax, 875(%rsp)
	cmpb	$0, 88(%rsp)
	jne	558f
	movq	%r13, %rdi
	callq	rattle_dealloc@PLT
558:
	cmpq	$0, 160(%rsp)
	je	559f
	movq	256(%rsp), %rdi
	callq	rattle_dealloc@PLT
559:
	cmpq	$0, 24(%rsp)
	je	560f
	movq	16(%rsp), %rdi
	callq	rattle_dealloc@PLT
560:
	cmpq	$0, 128(%rsp)
	je	564f
	movq	64(%rsp), %rax
	leaq	16(%rax), %rbx
	jmp	563f
561:
	testb	%cl, %cl
	jne	555b
	movq	%r12, %rdi
	jmp	554b
562:
	addq	$32, %rbx
	decq	128(%rsp)
	je	564f
563:
	cmpq	$0, (%rbx)
	je	562b
	movq	-16(%rbx), %rdi
	callq	rattle_dealloc@PLT
	jmp	562b
564:
	cmpq	$0, 40(%rsp)
	je	565f
	movq	64(%rsp), %rdi
	callq	rattle_dealloc@PLT
565:
	cmpq	$0, 104(%rsp)
	je	568f
	movq	96(%rsp), %rax
	leaq	24(%rax), %rbx
	jmp	567f
566:
	addq	$40, %rbx
	decq	104(%rsp)
	je	568f
567:
	cmpq	$0, (%rbx)
	je	566b
	movq	-16(%rbx), %rdi
	callq	rattle_dealloc@PLT
	jmp	566b
568:
	cmpq	$0, 120(%rsp)
	je	569f
	movq	96(%rsp), %rdi
	callq	rattle_dealloc@PLT
569:
	cmpq	$0, 184(%rsp)
	je	572f
	movq	312(%rsp), %rax
	leaq	16(%rax), %rbx
	jmp	571f
570:
	addq	$32, %rbx
	decq	184(%rsp)
	je	572f
571:
	cmpq	$0, (%rbx)
	je	570b
	movq	-16(%rbx), %rdi
	callq	rattle_dealloc@PLT
	jmp	570b
572:
	cmpq	$0, 1040(%rsp)
	je	573f
	movq	312(%rsp), %rdi
	callq	rattle_dealloc@PLT
573:
	cmpq	$0, 392(%rsp)
	je	574f
	movq	320(%rsp), %rdi
	callq	rattle_dealloc@PLT
574:
	cmpq	$0, 984(%rsp)
	je	575f
	movq	384(%rsp), %rdi
	callq	rattle_dealloc@PLT
575:
	movl	872(%rsp), %eax
	movl	875(%rsp), %ecx
	movl	%ecx, 219(%rsp)
	movl	%eax, 216(%rsp)
	movl	216(%rsp), %eax
	movl	219(%rsp), %ecx
	movl	%eax, 344(%rsp)
	movl	%ecx, 347(%rsp)
	movl	%eax, 136(%rsp)
	movl	%ecx, 139(%rsp)
	cmpq	$0, 32(%rsp)
	je	579f
	movq	56(%rsp), %rax
	leaq	80(%rax), %rbx
	jmp	577f
576:
	addq	$104, %rbx
	decq	32(%rsp)
	je	579f
577:
	movzbl	-24(%rbx), %ebp
	movq	-16(%rbx), %r14
	movq	(%rbx), %r12
	cmpb	$0, -72(%rbx)
	je	578f
	cmpq	$0, -48(%rbx)
	je	578f
	movq	-64(%rbx), %rdi
	callq	rattle_dealloc@PLT
578:
	testb	%bpl, %bpl
	je	576b
	testq	%r12, %r12
	je	576b
	movq	%r14, %rdi
	callq	rattle_dealloc@PLT
	jmp	576b
579:
	cmpq	$0, 336(%rsp)
	je	580f
	movq	56(%rsp), %rdi
	callq	rattle_dealloc@PLT
580:
	cmpq	$0, 152(%rsp)
	je	584f
	movq	304(%rsp), %r14
	jmp	582f
581:
	addq	$96, %r14
	decq	152(%rsp)
	je	584f
582:
	movzbl	48(%r14), %ebp
	movq	56(%r14), %rbx
	movq	72(%r14), %r12
	cmpb	$0, (%r14)
	je	583f
	cmpq	$0, 24(%r14)
	je	583f
	movq	8(%r14), %rdi
	callq	rattle_dealloc@PLT
583:
	testb	%bpl, %bpl
	je	581b
	testq	%r12, %r12
	je	581b
	movq	%rbx, %rdi
	callq	rattle_dealloc@PLT
	jmp	581b
584:
	cmpq	$0, 992(%rsp)
	je	585f
	movq	304(%rsp), %rdi
	callq	rattle_dealloc@PLT
585:
	cmpq	$0, 112(%rsp)
	je	589f
	movq	296(%rsp), %r14
	jmp	587f
586:
	addq	$96, %r14
	decq	112(%rsp)
	je	589f
587:
	movzbl	48(%r14), %ebp
	movq	56(%r14), %rbx
	movq	72(%r14), %r12
	cmpb	$0, (%r14)
	je	588f
	cmpq	$0, 24(%r14)
	je	588f
	movq	8(%r14), %rdi
	callq	rattle_dealloc@PLT
588:
	testb	%bpl, %bpl
	je	586b
	testq	%r12, %r12
	je	586b
	movq	%rbx, %rdi
	callq	rattle_dealloc@PLT
	jmp	586b
589:
	cmpq	$0, 1000(%rsp)
	je	590f
	movq	296(%rsp), %rdi
	callq	rattle_dealloc@PLT
590:
	cmpq	$0, 200(%rsp)
	je	596f
	xorl	%r14d, %r14d
	jmp	592f
591:
	incq	%r14
	cmpq	200(%rsp), %r14
	je	596f
592:
	movq	%r14, %rax
	shlq	$4, %rax
	leaq	(%rax,%rax,4), %rax
	movq	272(%rsp), %rcx
	movq	56(%rcx,%rax), %r12
	movq	64(%rcx,%rax), %rbp
	movq	72(%rcx,%rax), %r13
	cmpb	$0, 8(%rcx,%rax)
	je	593f
	movq	272(%rsp), %rcx
	cmpq	$0, 32(%rcx,%rax)
	je	593f
	movq	272(%rsp), %rcx
	movq	16(%rcx,%rax), %rdi
	callq	rattle_dealloc@PLT
593:
	testq	%rbp, %rbp
	je	595f
	movq	%r12, %rbx
594:
	movups	80(%rbx), %xmm0
	movaps	%xmm0, 1264(%rsp)
	movups	64(%rbx), %xmm0
	movaps	%xmm0, 1248(%rsp)
	movdqu	(%rbx), %xmm0
	movdqu	16(%rbx), %xmm1
	movdqu	32(%rbx), %xmm2
	movdqu	48(%rbx), %xmm3
	movdqa	%xmm3, 1232(%rsp)
	movdqa	%xmm2, 1216(%rsp)
	movdqa	%xmm1, 1200(%rsp)
	movdqa	%xmm0, 1184(%rsp)
	leaq	1184(%rsp), %rdi
	callq	"mime_c::mime_base++magic++matchlet++Matchlet+Destruct::drop"
	addq	$96, %rbx
	decq	%rbp
	jne	594b
595:
	testq	%r13, %r13
	je	591b
	movq	%r12, %rdi
	callq	rattle_dealloc@PLT
	jmp	591b
596:
	cmpq	$0, 1008(%rsp)
	je	597f
	movq	272(%rsp), %rdi
	callq	rattle_dealloc@PLT
597:
	cmpq	$0, 208(%rsp)
	je	601f
	movq	288(%rsp), %r14
	jmp	599f
598:
	addq	$96, %r14
	decq	208(%rsp)
	je	601f
599:
	movzbl	48(%r14), %ebp
	movq	56(%r14), %rbx
	movq	72(%r14), %r12
	cmpb	$0, (%r14)
	je	600f
	cmpq	$0, 24(%r14)
	je	600f
	movq	8(%r14), %rdi
	callq	rattle_dealloc@PLT
600:
	testb	%bpl, %bpl
	je	598b
	testq	%r12, %r12
	je	598b
	movq	%rbx, %rdi
	callq	rattle_dealloc@PLT
	jmp	598b
601:
	cmpq	$0, 1016(%rsp)
	je	602f
	movq	288(%rsp), %rdi
	callq	rattle_dealloc@PLT
602:
	cmpq	$0, 328(%rsp)
	je	606f
	movq	280(%rsp), %r14
	jmp	604f
603:
	addq	$96, %r14
	decq	328(%rsp)
	je	606f
604:
	movzbl	48(%r14), %ebp
	movq	56(%r14), %rbx
	movq	72(%r14), %r12
	cmpb	$0, (%r14)
	je	605f
	cmpq	$0, 24(%r14)
	je	605f
	movq	8(%r14), %rdi
	callq	rattle_dealloc@PLT
605:
	testb	%bpl, %bpl
	je	603b
	testq	%r12, %r12
	je	603b
	movq	%rbx, %rdi
	callq	rattle_dealloc@PLT
	jmp	603b
606:
	cmpq	$0, 1024(%rsp)
	je	607f
	movq	280(%rsp), %rdi
	callq	rattle_dealloc@PLT
607:
	movq	1032(%rsp), %rdx
	movq	$0, (%rdx)
	movq	48(%rsp), %rax
	movq	%rax, 8(%rdx)
	movq	144(%rsp), %rax
	movq	%rax, 16(%rdx)
	movzbl	192(%rsp), %eax
	movb	%al, 24(%rdx)
	jmp	331b
608:
	.size	"mime_c::merge::merged_cache", 608b-"mime_c::merge::merged_cache"

	.text
	.p2align	4
	.type	"mime_c::mime_base++magic++matchlet++Matchlet+Destruct::drop",@function
"mime_c::mime_base++magic++matchlet++Matchlet+Destruct::drop":
	pushq	%rbp
	pushq	%r15
	pushq	%r14
	pushq	%r13
	pushq	%r12
	pushq	%rbx
	subq	$104, %rsp
	movzbl	40(%rdi), %ebp
	movq	48(%rdi), %r14
	movq	64(%rdi), %r13
	movq	72(%rdi), %rbx
	movq	80(%rdi), %r12
	movq	88(%rdi), %r15
	cmpq	$0, 32(%rdi)
	je	1f
	movq	16(%rdi), %rdi
	callq	rattle_dealloc@PLT
1:
	testb	%bpl, %bpl
	je	2f
	testq	%r13, %r13
	je	2f
	movq	%r14, %rdi
	callq	rattle_dealloc@PLT
2:
	testq	%r12, %r12
	je	4f
	movq	%rbx, %r14
	.p2align	4
3:
	movups	80(%r14), %xmm0
	movaps	%xmm0, 80(%rsp)
	movups	64(%r14), %xmm0
	movaps	%xmm0, 64(%rsp)
	movups	(%r14), %xmm0
	movups	16(%r14), %xmm1
	movups	32(%r14), %xmm2
	movups	48(%r14), %xmm3
	movaps	%xmm3, 48(%rsp)
	movaps	%xmm2, 32(%rsp)
	movaps	%xmm1, 16(%rsp)
	movaps	%xmm0, (%rsp)
	movq	%rsp, %rdi
	callq	"mime_c::mime_base++magic++matchlet++Matchlet+Destruct::drop"
	addq	$96, %r14
	decq	%r12
	jne	3b
4:
	testq	%r15, %r15
	je	5f
	movq	%rbx, %rdi
	addq	$104, %rsp
	popq	%rbx
	popq	%r12
	popq	%r13
	popq	%r14
	popq	%r15
	popq	%rbp
	jmp	rattle_dealloc@PLT
5:
	addq	$104, %rsp
	popq	%rbx
	popq	%r12
	popq	%r13
	popq	%r14
	popq	%r15
	popq	%rbp
	retq
6:
	.size	"mime_c::mime_base++magic++matchlet++Matchlet+Destruct::drop", 6b-"mime_c::mime_base++magic++matchlet++Matchlet+Destruct::drop"
