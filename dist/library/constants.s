# Made by dist/refresh of what is proved.

	.type	.L0e1bfeee433c,@object
	.section	.rodata,"a",@progbits
.L0e1bfeee433c:
	.ascii	">0=\000\013__NOMAGIC__\n"
	.size	.L0e1bfeee433c, 17

	.type	.L11b0047a3772,@object
	.section	.rodata,"a",@progbits
.L11b0047a3772:
	.ascii	">0=__NOMAGIC__\n"
	.size	.L11b0047a3772, 15

	.type	.L1a16e401f121,@object
	.section	.rodata,"a",@progbits
.L1a16e401f121:
	.ascii	"-x-generic"
	.size	.L1a16e401f121, 10

	.type	.L22d5119de29e,@object
	.section	.rodata,"a",@progbits
	.p2align	2, 0x0
.L22d5119de29e:
	.size	.L22d5119de29e, 0

	.type	.L2f9e9aa9650f,@object
	.section	.rodata,"a",@progbits
.L2f9e9aa9650f:
	.ascii	"\000\001\002\003\004\005\006\007\b\t\n\013\f\r\016\017\020\021\022\023\024\025\026\027\030\031\032\033\034\035\036\037\000\001\002\003\004\005\006\007\b\t\n\013\f\r\016\017\020\021\022\023\024\025\026\027\030\031\032\033\034\035\036\037 !\"#$%&'()*+,-./0123456789:;<=>? !\"#$%&'()*+,-./0123456789:;<=>?\000\001\002\003\004\005\006\007\b\t\n\013\f\r\016\017\020\021\022\023\024\025\026\027\030\031\032\033\034\035\036\037\000\001\002\003\004\005\006\007\b\t\n\013\f\r\016\017\020\021\022\023\024\025\026\027\030\031\032\033\034\035\036\037 !\"#$%&'()*+,-./0123456789:;<=>? !\"#$%&'()*+,-./0123456789:;<=>?"
	.size	.L2f9e9aa9650f, 256

	.type	.L357803851c0b,@object
	.section	.rodata,"a",@progbits
.L357803851c0b:
	.ascii	"__NOGLOBS__"
	.size	.L357803851c0b, 11

	.type	.L67248b46a1a0,@object
	.section	.rodata,"a",@progbits
.L67248b46a1a0:
	.ascii	"application/octet-stream"
	.size	.L67248b46a1a0, 24

	.type	.L6c36dbee23df,@object
	.section	.rodata,"a",@progbits
.L6c36dbee23df:
	.ascii	"MIME-Magic\000\n"
	.size	.L6c36dbee23df, 12

	.type	.L74bbd0aeee0d,@object
	.section	.rodata,"a",@progbits
.L74bbd0aeee0d:
	.ascii	"application/x-zerosize"
	.size	.L74bbd0aeee0d, 22

	.type	.Laafe98300121,@object
	.section	.rodata,"a",@progbits
.Laafe98300121:
	.ascii	"text/plain"
	.size	.Laafe98300121, 10

	.type	.Lfd004d2b9c93,@object
	.section	.rodata,"a",@progbits
.Lfd004d2b9c93:
	.ascii	">0__NOMAGIC__\n"
	.size	.Lfd004d2b9c93, 14
