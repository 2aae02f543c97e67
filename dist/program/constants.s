# Made by dist/refresh of what is proved.

	.type	.L0049c4eb9448,@object
	.section	.rodata,"a",@progbits
.L0049c4eb9448:
	.ascii	"generic-icons"
	.size	.L0049c4eb9448, 13

	.type	.L010e1dde2212,@object
	.section	.rodata,"a",@progbits
.L010e1dde2212:
	.ascii	"all-globs"
	.size	.L010e1dde2212, 9

	.type	.L01d6a3bc2498,@object
	.section	.rodata.cst4,"aM",@progbits,4
.L01d6a3bc2498:
	.ascii	"LIST"
	.size	.L01d6a3bc2498, 4

	.type	.L0204640a40f4,@object
	.section	.rodata,"a",@progbits
.L0204640a40f4:
	.ascii	"equal sign is needed when assigning values to '"
	.size	.L0204640a40f4, 47

	.type	.L0264059b8465,@object
	.section	.rodata,"a",@progbits
.L0264059b8465:
	.byte	60
	.size	.L0264059b8465, 1

	.type	.L036fffc6ae9d,@object
	.section	.rodata,"a",@progbits
.L036fffc6ae9d:
	.ascii	"no header"
	.size	.L036fffc6ae9d, 9

	.type	.L04051264a0a2,@object
	.section	.rodata,"a",@progbits
.L04051264a0a2:
	.ascii	"XDG_DATA_DIRS"
	.size	.L04051264a0a2, 13

	.type	.L043ca65c74e6,@object
	.section	.rodata,"a",@progbits
.L043ca65c74e6:
	.ascii	"check"
	.size	.L043ca65c74e6, 5

	.type	.L048e159fe161,@object
	.section	.rodata.cst8,"aM",@progbits,8
.L048e159fe161:
	.ascii	"' exists"
	.size	.L048e159fe161, 8

	.type	.L0668db01e73d,@object
	.section	.rodata,"a",@progbits
.L0668db01e73d:
	.zero	2,46
	.size	.L0668db01e73d, 2

	.type	.L07334fd0fe93,@object
	.section	.rodata,"a",@progbits
.L07334fd0fe93:
	.ascii	"long text at "
	.size	.L07334fd0fe93, 13

	.type	.L0791a6fb5224,@object
	.section	.rodata,"a",@progbits
.L0791a6fb5224:
	.zero	1
	.size	.L0791a6fb5224, 1

	.type	.L08eec631916e,@object
	.section	.rodata,"a",@progbits
.L08eec631916e:
	.ascii	"data-dirs"
	.size	.L08eec631916e, 9

	.type	.L08f2e589dacb,@object
	.section	.rodata,"a",@progbits
.L08f2e589dacb:
	.ascii	"magic"
	.size	.L08f2e589dacb, 5

	.type	.L098174e864e3,@object
	.section	.rodata,"a",@progbits
.L098174e864e3:
	.ascii	"Messages go to standard error. The cache is read back; one that spells no\ndatabase is refused as by check. Below FILE: TYPE stand, each after two spaces,\na line glob WEIGHT PATTERN TYPE for each glob rule that matches the name, the\npreferred first; a line magic PRIORITY TYPE for the first section of magic that\nholds for the content, or magic none TYPE for one that has its type by its bytes\nalone; and what decides. Behind a rule stand cs where it is case-sensitive, kept\nwhere no other is preferred to it, and -> OTHER where TYPE is an alias of OTHER.\nBy name: the rules give one type. By content: the content gives it, since no\nrule matches or it is asked first. By both: of the types of the rules one is\nthat of the content or derived from it. By default: neither; it is the first\ntype of the rules, or the default.\nThe content is read even where the name decides, but no further than magic can\nlook. With -d the cache is made of DIRS, as build makes it; without -c and -d,\nof the user's data directories (see mimelook --help).\n\nExit status:\n  0  every FILE was answered; or help or the version was printed\n  1  some FILE can't be opened or read, or its name is too long (above 4096\n     bytes); the others were answered; or the cache spells no database\n  2  the command line is wrong, or a word but a FILE is not UTF-8\n  3  the data can't be read or is refused, or the output can't be written\n  4  out of memory\n\nExample:\n  $ mimelook explain --name-only notes.txt\n  notes.txt: text/plain\n    glob 50 *.txt text/plain kept\n    by name"
	.size	.L098174e864e3, 1540

	.type	.L0a6ea6bc3df4,@object
	.section	.rodata,"a",@progbits
.L0a6ea6bc3df4:
	.ascii	"..="
	.size	.L0a6ea6bc3df4, 3

	.type	.L0b4a2d47cb3a,@object
	.section	.rodata,"a",@progbits
.L0b4a2d47cb3a:
	.ascii	"Prints FILE: TYPE for each FILE, by a cache"
	.size	.L0b4a2d47cb3a, 43

	.type	.L0c04eb6798c6,@object
	.section	.rodata,"a",@progbits
.L0c04eb6798c6:
	.ascii	"Messages go to standard error. TYPE is BASE where they are the same type, or a\nparent of TYPE is BASE. Any text type is text/plain, and any type but those of\ninode is application/octet-stream. TYPE and BASE may be aliases. With -d the\ncache is made of DIRS, as build makes it; without -c and -d, of the user's data\ndirectories (see mimelook --help).\n\nExit status:\n  0  yes was printed; or help or the version was printed\n  1  no was printed\n  2  the command line is wrong, a word of it is not UTF-8, or TYPE or BASE is no\n     type\n  3  the data can't be read or is refused, or the output can't be written\n  4  out of memory\n\nExample:\n  $ mimelook isa text/html text/plain\n  yes"
	.size	.L0c04eb6798c6, 678

	.type	.L0d0a70152a48,@object
	.section	.rodata,"a",@progbits
.L0d0a70152a48:
	.byte	93
	.size	.L0d0a70152a48, 1

	.type	.L0e1bfeee433c,@object
	.section	.rodata,"a",@progbits
.L0e1bfeee433c:
	.ascii	">0=\000\013__NOMAGIC__\n"
	.size	.L0e1bfeee433c, 17

	.type	.L0ed347691fda,@object
	.section	.rodata,"a",@progbits
.L0ed347691fda:
	.ascii	"mimelook: XDG_DATA_HOME, HOME or XDG_DATA_DIRS is not text (UTF-8)\n"
	.size	.L0ed347691fda, 67

	.type	.L10b3d796d864,@object
	.section	.rodata,"a",@progbits
.L10b3d796d864:
	.ascii	"cannot parse char from empty string"
	.size	.L10b3d796d864, 35

	.type	.L10dd95ff2c9c,@object
	.section	.rodata,"a",@progbits
.L10dd95ff2c9c:
	.ascii	"stdin"
	.size	.L10dd95ff2c9c, 5

	.type	.L11b0047a3772,@object
	.section	.rodata,"a",@progbits
.L11b0047a3772:
	.ascii	">0=__NOMAGIC__\n"
	.size	.L11b0047a3772, 15

	.type	.L131d21b81ca1,@object
	.section	.rodata,"a",@progbits
.L131d21b81ca1:
	.ascii	"unexpected argument '"
	.size	.L131d21b81ca1, 21

	.type	.L13a276205647,@object
	.section	.rodata,"a",@progbits
.L13a276205647:
	.ascii	"[OPTIONS] "
	.size	.L13a276205647, 10

	.type	.L13ac6419e7c4,@object
	.section	.rodata,"a",@progbits
.L13ac6419e7c4:
	.ascii	"\nlines "
	.size	.L13ac6419e7c4, 7

	.type	.L14f56114f1a6,@object
	.section	.rodata,"a",@progbits
.L14f56114f1a6:
	.ascii	"icon: "
	.size	.L14f56114f1a6, 6

	.type	.L1585dab617f1,@object
	.section	.rodata,"a",@progbits
.L1585dab617f1:
	.ascii	"Print help (see more with '--help')"
	.size	.L1585dab617f1, 35

	.type	.L16bb5452660d,@object
	.section	.rodata,"a",@progbits
.L16bb5452660d:
	.ascii	"Print a zero byte after FILE and one after TYPE, in\nplace of a colon and a newline"
	.size	.L16bb5452660d, 82

	.type	.L17c8f2afbe26,@object
	.section	.rodata,"a",@progbits
.L17c8f2afbe26:
	.ascii	"inode"
	.size	.L17c8f2afbe26, 5

	.type	.L192cf5a5ec61,@object
	.section	.rodata,"a",@progbits
.L192cf5a5ec61:
	.ascii	"' but none was supplied"
	.size	.L192cf5a5ec61, 23

	.type	.L1a16e401f121,@object
	.section	.rodata,"a",@progbits
.L1a16e401f121:
	.ascii	"-x-generic"
	.size	.L1a16e401f121, 10

	.type	.L1aa1dd9a1423,@object
	.section	.rodata,"a",@progbits
.L1aa1dd9a1423:
	.ascii	"/mime/globs2"
	.size	.L1aa1dd9a1423, 12

	.type	.L1aa50446f32c,@object
	.section	.rodata,"a",@progbits
.L1aa50446f32c:
	.ascii	"  magic none "
	.size	.L1aa50446f32c, 13

	.type	.L1b44da35fd51,@object
	.section	.rodata,"a",@progbits
.L1b44da35fd51:
	.ascii	"Let content of high priority (80 or more) decide\nbefore names"
	.size	.L1b44da35fd51, 61

	.type	.L1bc533bd799b,@object
	.section	.rodata.cst4,"aM",@progbits,4
.L1bc533bd799b:
	.ascii	"null"
	.size	.L1bc533bd799b, 4

	.type	.L1e0d957ec356,@object
	.section	.rodata,"a",@progbits
.L1e0d957ec356:
	.zero	3,46
	.size	.L1e0d957ec356, 3

	.type	.L1e56a0063e76,@object
	.section	.rodata,"a",@progbits
.L1e56a0063e76:
	.ascii	"\n\n  tip: subcommand '"
	.size	.L1e56a0063e76, 21

	.type	.L1f00a5318f3f,@object
	.section	.rodata,"a",@progbits
	.p2align	3, 0x0
.L1f00a5318f3f:
	.ascii	"\001\000\000\000\000\000\000\000\n\000\000\000\000\000\000\000d\000\000\000\000\000\000\000\350\003\000\000\000\000\000\000\020'\000\000\000\000\000\000\240\206\001\000\000\000\000\000@B\017\000\000\000\000\000\200\226\230\000\000\000\000\000\000\341\365\005\000\000\000\000\000\312\232;\000\000\000\000\000\344\013T\002\000\000\000\000\350vH\027\000\000\000\000\020\245\324\350\000\000\000\000\240rN\030\t\000\000\000@z\020\363Z\000\000\000\200\306\244~\215\003\000\000\000\301o\362\206#\000\000\000\212]xEc\001\000\000d\247\263\266\340\r\000\000\350\211\004#\307\212"
	.size	.L1f00a5318f3f, 160

	.type	.L1f2087385df6,@object
	.section	.rodata.cst16,"aM",@progbits,16
.L1f2087385df6:
	.ascii	"inode/chardevice"
	.size	.L1f2087385df6, 16

	.type	.L1fba8e2a4222,@object
	.section	.rodata,"a",@progbits
.L1fba8e2a4222:
	.ascii	"inode/fifo"
	.size	.L1fba8e2a4222, 10

	.type	.L1fd369fd7617,@object
	.section	.rodata,"a",@progbits
.L1fd369fd7617:
	.ascii	"  by default\n"
	.size	.L1fd369fd7617, 13

	.type	.L200fec9a0c52,@object
	.section	.rodata,"a",@progbits
.L200fec9a0c52:
	.ascii	"\n\nFor more information, try 'help'.\n"
	.size	.L200fec9a0c52, 36

	.type	.L20b52a83b3e7,@object
	.section	.rodata,"a",@progbits
.L20b52a83b3e7:
	.ascii	"mimelook: database too large\n"
	.size	.L20b52a83b3e7, 29

	.type	.L216771760d56,@object
	.section	.rodata,"a",@progbits
.L216771760d56:
	.ascii	"\n\n  tip: a similar argument exists: '"
	.size	.L216771760d56, 37

	.type	.L221f28267b7a,@object
	.section	.rodata,"a",@progbits
.L221f28267b7a:
	.ascii	"Usage: "
	.size	.L221f28267b7a, 7

	.type	.L226a292f443d,@object
	.section	.rodata,"a",@progbits
.L226a292f443d:
	.ascii	": "
	.size	.L226a292f443d, 2

	.type	.L2283e8e1e283,@object
	.section	.rodata,"a",@progbits
.L2283e8e1e283:
	.ascii	": cannot write\n"
	.size	.L2283e8e1e283, 15

	.type	.L22d5119de29e,@object
	.section	.rodata,"a",@progbits
	.p2align	2, 0x0
.L22d5119de29e:
	.size	.L22d5119de29e, 0

	.type	.L2423db314c3e,@object
	.section	.rodata,"a",@progbits
.L2423db314c3e:
	.ascii	"isa"
	.size	.L2423db314c3e, 3

	.type	.L2592ead59db3,@object
	.section	.rodata,"a",@progbits
.L2592ead59db3:
	.ascii	"/globs2: DIRS end before /mime"
	.size	.L2592ead59db3, 30

	.type	.L26d6a82f2e39,@object
	.section	.rodata.cst4,"aM",@progbits,4
.L26d6a82f2e39:
	.ascii	"HOME"
	.size	.L26d6a82f2e39, 4

	.type	.L27dbf9885ebd,@object
	.section	.rodata,"a",@progbits
.L27dbf9885ebd:
	.ascii	"\\u{"
	.size	.L27dbf9885ebd, 3

	.type	.L28bf7eaf625e,@object
	.section	.rodata,"a",@progbits
.L28bf7eaf625e:
	.ascii	"no database: magic"
	.size	.L28bf7eaf625e, 18

	.type	.L28ccb1e04a55,@object
	.section	.rodata,"a",@progbits
.L28ccb1e04a55:
	.ascii	"Messages go to standard error. The cache is read back, and each of its lists is\ncounted, and the lines of magic. One that spells no database is refused by its\nfirst part that can't be read back: header, aliases, subclasses, literals,\nsuffixes, globs, magic, icons or generic icons. With -d the cache is made of\nDIRS, as build makes it; without -c and -d, of the user's data directories (see\nmimelook --help).\n\nExit status:\n  0  the counts were printed; or help or the version was printed\n  1  the cache can be opened, but spells no database\n  2  the command line is wrong, or a word of it is not UTF-8\n  3  the data can't be read or is refused, or the output can't be written\n  4  out of memory\n\nExample:\n  $ mimelook check -c mime.cache\n  rules 2\n  aliases 1\n  subclasses 1\n  sections 1\n  lines 1\n  icons 0\n  generic-icons 0"
	.size	.L28ccb1e04a55, 825

	.type	.L28ef7528cbc3,@object
	.section	.rodata,"a",@progbits
.L28ef7528cbc3:
	.ascii	"cache"
	.size	.L28ef7528cbc3, 5

	.type	.L2a504c07f025,@object
	.section	.rodata,"a",@progbits
.L2a504c07f025:
	.ascii	"false"
	.size	.L2a504c07f025, 5

	.type	.L2c207e1bad0a,@object
	.section	.rodata,"a",@progbits
.L2c207e1bad0a:
	.ascii	"creating or truncating a file requires write or append access"
	.size	.L2c207e1bad0a, 61

	.type	.L2cc55e3b3d11,@object
	.section	.rodata,"a",@progbits
.L2cc55e3b3d11:
	.ascii	"number too small to fit in target type"
	.size	.L2cc55e3b3d11, 38

	.type	.L2e403fc0c1a9,@object
	.section	.rodata,"a",@progbits
.L2e403fc0c1a9:
	.ascii	"inode/directory"
	.size	.L2e403fc0c1a9, 15

	.type	.L2f9e9aa9650f,@object
	.section	.rodata,"a",@progbits
.L2f9e9aa9650f:
	.ascii	"\000\001\002\003\004\005\006\007\b\t\n\013\f\r\016\017\020\021\022\023\024\025\026\027\030\031\032\033\034\035\036\037\000\001\002\003\004\005\006\007\b\t\n\013\f\r\016\017\020\021\022\023\024\025\026\027\030\031\032\033\034\035\036\037 !\"#$%&'()*+,-./0123456789:;<=>? !\"#$%&'()*+,-./0123456789:;<=>?\000\001\002\003\004\005\006\007\b\t\n\013\f\r\016\017\020\021\022\023\024\025\026\027\030\031\032\033\034\035\036\037\000\001\002\003\004\005\006\007\b\t\n\013\f\r\016\017\020\021\022\023\024\025\026\027\030\031\032\033\034\035\036\037 !\"#$%&'()*+,-./0123456789:;<=>? !\"#$%&'()*+,-./0123456789:;<=>?"
	.size	.L2f9e9aa9650f, 256

	.type	.L32cfbbe30233,@object
	.section	.rodata,"a",@progbits
.L32cfbbe30233:
	.ascii	"no database: globs"
	.size	.L32cfbbe30233, 18

	.type	.L32d1a5938230,@object
	.section	.rodata,"a",@progbits
.L32d1a5938230:
	.zero	2,45
	.size	.L32d1a5938230, 2

	.type	.L32e35d8552b3,@object
	.section	.rodata,"a",@progbits
.L32e35d8552b3:
	.ascii	"Print help (see a summary with '-h')"
	.size	.L32e35d8552b3, 36

	.type	.L337bb3f0084d,@object
	.section	.rodata,"a",@progbits
.L337bb3f0084d:
	.ascii	"Prints FILE: TYPE for each FILE, with no cache between"
	.size	.L337bb3f0084d, 54

	.type	.L357803851c0b,@object
	.section	.rodata,"a",@progbits
.L357803851c0b:
	.ascii	"__NOGLOBS__"
	.size	.L357803851c0b, 11

	.type	.L35e6fa06256e,@object
	.section	.rodata,"a",@progbits
.L35e6fa06256e:
	.ascii	"name-only"
	.size	.L35e6fa06256e, 9

	.type	.L36c229d505b2,@object
	.section	.rodata,"a",@progbits
.L36c229d505b2:
	.ascii	"give --content-only without --name-only, --magic-first and --all-globs"
	.size	.L36c229d505b2, 70

	.type	.L36cca807a933,@object
	.section	.rodata.cst4,"aM",@progbits,4
.L36cca807a933:
	.ascii	"[-- "
	.size	.L36cca807a933, 4

	.type	.L374fab0a52ad,@object
	.section	.rodata,"a",@progbits
.L374fab0a52ad:
	.ascii	"explain"
	.size	.L374fab0a52ad, 7

	.type	.L38ad3f25f51f,@object
	.section	.rodata,"a",@progbits
.L38ad3f25f51f:
	.ascii	": cannot read\n"
	.size	.L38ad3f25f51f, 14

	.type	.L38e6aa7b7826,@object
	.section	.rodata,"a",@progbits
.L38e6aa7b7826:
	.ascii	"give a BASE"
	.size	.L38e6aa7b7826, 11

	.type	.L39011da91f15,@object
	.section	.rodata.cst4,"aM",@progbits,4
.L39011da91f15:
	.ascii	" -> "
	.size	.L39011da91f15, 4

	.type	.L399de51ae489,@object
	.section	.rodata,"a",@progbits
.L399de51ae489:
	.ascii	"file name contained an unexpected NUL byte"
	.size	.L399de51ae489, 42

	.type	.L39f4ebcc1166,@object
	.section	.rodata,"a",@progbits
.L39f4ebcc1166:
	.ascii	"escape"
	.size	.L39f4ebcc1166, 6

	.type	.L3a4325345b7b,@object
	.section	.rodata,"a",@progbits
.L3a4325345b7b:
	.ascii	" ignored\n"
	.size	.L3a4325345b7b, 9

	.type	.L3af445e6ed54,@object
	.section	.rodata.cst16,"aM",@progbits,16
.L3af445e6ed54:
	.ascii	"out of range at "
	.size	.L3af445e6ed54, 16

	.type	.L3b8880383644,@object
	.section	.rodata,"a",@progbits
.L3b8880383644:
	.ascii	"\n\nFor more information, try '-"
	.size	.L3b8880383644, 30

	.type	.L3bd543a532d6,@object
	.section	.rodata,"a",@progbits
.L3bd543a532d6:
	.ascii	"unrecognized subcommand '"
	.size	.L3bd543a532d6, 25

	.type	.L3c133a697ae7,@object
	.section	.rodata,"a",@progbits
.L3c133a697ae7:
	.ascii	"cannot open"
	.size	.L3c133a697ae7, 11

	.type	.L3c4fa2a70e83,@object
	.section	.rodata,"a",@progbits
.L3c4fa2a70e83:
	.ascii	"\n\nFor more information, try '--"
	.size	.L3c4fa2a70e83, 31

	.type	.L3d0ec50b8ed2,@object
	.section	.rodata,"a",@progbits
.L3d0ec50b8ed2:
	.ascii	"no\n"
	.size	.L3d0ec50b8ed2, 3

	.type	.L3e85f977af39,@object
	.section	.rodata,"a",@progbits
.L3e85f977af39:
	.ascii	"Take the FILEs from the file LIST, or from standard\ninput where LIST is -: each ends with a zero byte"
	.size	.L3e85f977af39, 101

	.type	.L3ef631d2bde6,@object
	.section	.rodata,"a",@progbits
.L3ef631d2bde6:
	.ascii	"'.\n"
	.size	.L3ef631d2bde6, 3

	.type	.L3f2a817f0bb3,@object
	.section	.rodata,"a",@progbits
.L3f2a817f0bb3:
	.ascii	"no database: suffixes"
	.size	.L3f2a817f0bb3, 21

	.type	.L3f2f752be469,@object
	.section	.rodata.cst16,"aM",@progbits,16
.L3f2f752be469:
	.ascii	"Print TYPE alone"
	.size	.L3f2f752be469, 16

	.type	.L3f46215654cf,@object
	.section	.rodata,"a",@progbits
.L3f46215654cf:
	.ascii	"' exists; to use it, remove the '--' before it"
	.size	.L3f46215654cf, 46

	.type	.L3fd39479eab8,@object
	.section	.rodata,"a",@progbits
.L3fd39479eab8:
	.ascii	"The type that it may be, such as text/plain"
	.size	.L3fd39479eab8, 43

	.type	.L43a52e568a8d,@object
	.section	.rodata.cst4,"aM",@progbits,4
.L43a52e568a8d:
	.ascii	"list"
	.size	.L43a52e568a8d, 4

	.type	.L454bde90644f,@object
	.section	.rodata,"a",@progbits
.L454bde90644f:
	.ascii	"\n\nFor more information, try '--help'.\n"
	.size	.L454bde90644f, 38

	.type	.L454e4f5a64d7,@object
	.section	.rodata,"a",@progbits
.L454e4f5a64d7:
	.ascii	"Messages go to standard error. With -d the cache is made of DIRS, as build makes\nit; without -c and -d, of the user's data directories (see mimelook --help).\nA FILE that is a pipe can't be opened, nor one whose name is not UTF-8, which\nhas a type by --name-only; a pipe has one by --inode. A CACHE that is a pipe\ncan't be read. LIST may be one; its names are looked up as they come.\n\nExit status:\n  0  every FILE was answered; or help or the version was printed\n  1  some FILE can't be opened or read, its name is too long (above 4096 bytes),\n     or a name of LIST is empty; the others were answered\n  2  the command line is wrong, or a word but a FILE is not UTF-8\n  3  the data or LIST can't be read, the data is refused, or the output can't\n     be written\n  4  out of memory\n\nExample:\n  $ mimelook type notes.txt\n  notes.txt: text/plain"
	.size	.L454e4f5a64d7, 841

	.type	.L46d14cdbc0b0,@object
	.section	.rodata,"a",@progbits
.L46d14cdbc0b0:
	.ascii	"plain"
	.size	.L46d14cdbc0b0, 5

	.type	.L487bbde8fa82,@object
	.section	.rodata,"a",@progbits
.L487bbde8fa82:
	.ascii	"a value is required for '"
	.size	.L487bbde8fa82, 25

	.type	.L496971ad93b5,@object
	.section	.rodata,"a",@progbits
.L496971ad93b5:
	.ascii	" was provided"
	.size	.L496971ad93b5, 13

	.type	.L49b706c40dc1,@object
	.section	.rodata,"a",@progbits
.L49b706c40dc1:
	.ascii	"mimelook build [-d DIRS] [--drop-twins] -o FILE"
	.size	.L49b706c40dc1, 47

	.type	.L49c1a40b24b3,@object
	.section	.rodata,"a",@progbits
.L49c1a40b24b3:
	.ascii	"{n}"
	.size	.L49c1a40b24b3, 3

	.type	.L4a8652ca931c,@object
	.section	.rodata,"a",@progbits
.L4a8652ca931c:
	.ascii	"invalid value '"
	.size	.L4a8652ca931c, 15

	.type	.L4aed72c3dd5d,@object
	.section	.rodata,"a",@progbits
.L4aed72c3dd5d:
	.ascii	"\n  tip: to pass '"
	.size	.L4aed72c3dd5d, 17

	.type	.L4c6ba88da681,@object
	.section	.rodata,"a",@progbits
.L4c6ba88da681:
	.ascii	"The cache to write; it is written as FILE.new and then\nrenamed; - is standard output, if that is no terminal"
	.size	.L4c6ba88da681, 108

	.type	.L4ebc56ecf78e,@object
	.section	.rodata,"a",@progbits
.L4ebc56ecf78e:
	.ascii	"' requires a subcommand but one was not provided"
	.size	.L4ebc56ecf78e, 48

	.type	.L50972cac8e3a,@object
.L50972cac8e3a:
	.ascii	": magic "
	.size	.L50972cac8e3a, 8

	.type	.L50e695259f83,@object
	.section	.rodata.cst4,"aM",@progbits,4
.L50e695259f83:
	.ascii	".new"
	.size	.L50e695259f83, 4

	.type	.L529c2075d67a,@object
	.section	.rodata.cst32,"aM",@progbits,32
.L529c2075d67a:
	.ascii	"give a command that --help names"
	.size	.L529c2075d67a, 32

	.type	.L52ad132b7e53,@object
	.section	.rodata,"a",@progbits
.L52ad132b7e53:
	.ascii	"mimelook: word "
	.size	.L52ad132b7e53, 15

	.type	.L533c39e6460b,@object
	.section	.rodata,"a",@progbits
.L533c39e6460b:
	.ascii	"magic-first"
	.size	.L533c39e6460b, 11

	.type	.L534e072772c2,@object
	.section	.rodata,"a",@progbits
.L534e072772c2:
	.ascii	"mimelook <COMMAND>"
	.size	.L534e072772c2, 18

	.type	.L543dcfd44baf,@object
	.section	.rodata,"a",@progbits
.L543dcfd44baf:
	.ascii	"' found"
	.size	.L543dcfd44baf, 7

	.type	.L555bd5c6dcac,@object
	.section	.rodata,"a",@progbits
.L555bd5c6dcac:
	.ascii	"give one of FILEs, --files0-from LIST and --stdin NAME"
	.size	.L555bd5c6dcac, 54

	.type	.L558c2c36d03f,@object
	.section	.rodata.cst4,"aM",@progbits,4
.L558c2c36d03f:
	.ascii	"dirs"
	.size	.L558c2c36d03f, 4

	.type	.L578e4c20615e,@object
	.section	.rodata,"a",@progbits
.L578e4c20615e:
	.ascii	"no database: header"
	.size	.L578e4c20615e, 19

	.type	.L579358eabf37,@object
	.section	.rodata,"a",@progbits
.L579358eabf37:
	.ascii	"The files to tell the types of; put -- before one that begins\nwith -"
	.size	.L579358eabf37, 68

	.type	.L5830d5e096db,@object
	.section	.rodata,"a",@progbits
.L5830d5e096db:
	.ascii	"  by name\n"
	.size	.L5830d5e096db, 10

	.type	.L5860946f919d,@object
	.section	.rodata,"a",@progbits
.L5860946f919d:
	.ascii	"Print help"
	.size	.L5860946f919d, 10

	.type	.L599d078cb9c2,@object
	.section	.rodata,"a",@progbits
.L599d078cb9c2:
	.ascii	"give --escape or -0, not both"
	.size	.L599d078cb9c2, 29

	.type	.L5a0b363d9402,@object
	.section	.rodata,"a",@progbits
.L5a0b363d9402:
	.ascii	"Arguments"
	.size	.L5a0b363d9402, 9

	.type	.L5b8add496c03,@object
	.section	.rodata,"a",@progbits
.L5b8add496c03:
	.ascii	"bad section"
	.size	.L5b8add496c03, 11

	.type	.L5cb27ebbff29,@object
	.section	.rodata,"a",@progbits
.L5cb27ebbff29:
	.ascii	" kept"
	.size	.L5cb27ebbff29, 5

	.type	.L5ced0f1dcfaa,@object
	.section	.rodata,"a",@progbits
.L5ced0f1dcfaa:
	.ascii	"COMMAND"
	.size	.L5ced0f1dcfaa, 7

	.type	.L614b23338c11,@object
	.section	.rodata,"a",@progbits
.L614b23338c11:
	.ascii	" values required for '"
	.size	.L614b23338c11, 22

	.type	.L62256f76d65b,@object
	.section	.rodata,"a",@progbits
.L62256f76d65b:
	.ascii	"no database: aliases"
	.size	.L62256f76d65b, 20

	.type	.L623ff20ee80d,@object
	.section	.rodata,"a",@progbits
.L623ff20ee80d:
	.ascii	" bytes="
	.size	.L623ff20ee80d, 7

	.type	.L629ef5b6a999,@object
	.section	.rodata,"a",@progbits
.L629ef5b6a999:
	.ascii	" ["
	.size	.L629ef5b6a999, 2

	.type	.L6679d5cceabe,@object
	.section	.rodata.cst8,"aM",@progbits,8
.L6679d5cceabe:
	.ascii	"Commands"
	.size	.L6679d5cceabe, 8

	.type	.L67248b46a1a0,@object
	.section	.rodata,"a",@progbits
.L67248b46a1a0:
	.ascii	"application/octet-stream"
	.size	.L67248b46a1a0, 24

	.type	.L6771e55d57d5,@object
	.section	.rodata,"a",@progbits
.L6771e55d57d5:
	.ascii	"  by both\n"
	.size	.L6771e55d57d5, 10

	.type	.L6816ec0e2931,@object
	.section	.rodata,"a",@progbits
.L6816ec0e2931:
	.ascii	"rules "
	.size	.L6816ec0e2931, 6

	.type	.L68dfee7977ff,@object
	.section	.rodata,"a",@progbits
.L68dfee7977ff:
	.ascii	"give -o FILE"
	.size	.L68dfee7977ff, 12

	.type	.L6916822dd05f,@object
	.section	.rodata,"a",@progbits
.L6916822dd05f:
	.ascii	"no database: literals"
	.size	.L6916822dd05f, 21

	.type	.L697ad99c4710,@object
	.section	.rodata,"a",@progbits
.L697ad99c4710:
	.ascii	"[possible values: "
	.size	.L697ad99c4710, 18

	.type	.L69d9f1dd2e31,@object
	.section	.rodata,"a",@progbits
.L69d9f1dd2e31:
	.ascii	"Messages go to standard error. The --help of a command says more of its exit\nstatuses. Without -c CACHE and -d DIRS, each command asks the user's data\ndirectories: XDG_DATA_HOME, or else .local/share below HOME, and then those of\nXDG_DATA_DIRS, or else /usr/local/share and /usr/share.\n\nExit status:\n  0  what was asked for was done; or help or the version was printed\n  1  some file not answered, isa says no, or the cache that check or explain\n     reads back spells no database\n  2  the command line is wrong\n  3  database, cache or output refused\n  4  out of memory\n\nExamples:\n  $ mimelook type notes.txt\n  notes.txt: text/plain\n  $ mimelook type -c /usr/share/mime/mime.cache notes.txt\n  notes.txt: text/plain\n  $ mimelook build -d /usr/local/share:/usr/share -o mime.cache"
	.size	.L69d9f1dd2e31, 778

	.type	.L6a32fb5c392b,@object
.L6a32fb5c392b:
	.ascii	"TYPE"
	.size	.L6a32fb5c392b, 4

	.type	.L6a680ce25e93,@object
	.section	.rodata,"a",@progbits
.L6a680ce25e93:
	.ascii	"subcommand"
	.size	.L6a680ce25e93, 10

	.type	.L6b2d212ddde4,@object
	.section	.rodata,"a",@progbits
.L6b2d212ddde4:
	.ascii	" were provided"
	.size	.L6b2d212ddde4, 14

	.type	.L6c36dbee23df,@object
	.section	.rodata,"a",@progbits
.L6c36dbee23df:
	.ascii	"MIME-Magic\000\n"
	.size	.L6c36dbee23df, 12

	.type	.L6d755b90110b,@object
	.section	.rodata,"a",@progbits
.L6d755b90110b:
	.ascii	"truncated"
	.size	.L6d755b90110b, 9

	.type	.L6df7900dd9eb,@object
	.section	.rodata,"a",@progbits
.L6df7900dd9eb:
	.ascii	" some similar subcommands exist: "
	.size	.L6df7900dd9eb, 33

	.type	.L6e2fce03fc0a,@object
	.section	.rodata,"a",@progbits
.L6e2fce03fc0a:
	.ascii	"number too large to fit in target type"
	.size	.L6e2fce03fc0a, 38

	.type	.L6f732a247f6f,@object
	.section	.rodata,"a",@progbits
.L6f732a247f6f:
	.ascii	"Look up standard input, by the name NAME, in place\nof FILEs; no more of it is read than is needed"
	.size	.L6f732a247f6f, 97

	.type	.L6ff22be34a97,@object
	.section	.rodata,"a",@progbits
.L6ff22be34a97:
	.ascii	"1.0.0"
	.size	.L6ff22be34a97, 5

	.type	.L70c461461cd4,@object
	.section	.rodata,"a",@progbits
.L70c461461cd4:
	.ascii	"Messages go to standard error. A line ends in :cs where the rule is\ncase-sensitive. With -d the cache is made of DIRS, as build makes it; without -c\nand -d, of the user's data directories (see mimelook --help).\n\nExit status:\n  0  every rule was printed; or help or the version was printed\n  2  the command line is wrong, or a word of it is not UTF-8\n  3  the data can't be read or is refused, or the output can't be written\n  4  out of memory\n\nExample:\n  $ mimelook list -c /usr/share/mime/mime.cache\n  50:text/plain:*.txt"
	.size	.L70c461461cd4, 522

	.type	.L70fd1cee362c,@object
	.section	.rodata,"a",@progbits
.L70fd1cee362c:
	.ascii	"mimelook icon [-c CACHE | -d DIRS] TYPE"
	.size	.L70fd1cee362c, 39

	.type	.L72431cffa757,@object
	.section	.rodata,"a",@progbits
.L72431cffa757:
	.byte	39
	.size	.L72431cffa757, 1

	.type	.L726cb91ce17f,@object
	.section	.rodata,"a",@progbits
.L726cb91ce17f:
	.ascii	"give a FILE"
	.size	.L726cb91ce17f, 11

	.type	.L726dde07b5f3,@object
	.section	.rodata,"a",@progbits
.L726dde07b5f3:
	.ascii	"content-only"
	.size	.L726dde07b5f3, 12

	.type	.L72a2fe0f915b,@object
	.section	.rodata,"a",@progbits
.L72a2fe0f915b:
	.byte	48
	.size	.L72a2fe0f915b, 1

	.type	.L741e9e856c49,@object
	.section	.rodata,"a",@progbits
.L741e9e856c49:
	.ascii	"  glob "
	.size	.L741e9e856c49, 7

	.type	.L74bbd0aeee0d,@object
	.section	.rodata,"a",@progbits
.L74bbd0aeee0d:
	.ascii	"application/x-zerosize"
	.size	.L74bbd0aeee0d, 22

	.type	.L7545b12a9df2,@object
	.section	.rodata,"a",@progbits
.L7545b12a9df2:
	.ascii	" read="
	.size	.L7545b12a9df2, 6

	.type	.L75e163a368dc,@object
	.section	.rodata,"a",@progbits
.L75e163a368dc:
	.ascii	"value was not a boolean"
	.size	.L75e163a368dc, 23

	.type	.L75f850512cff,@object
	.section	.rodata.cst8,"aM",@progbits,8
.L75f850512cff:
	.ascii	"too deep"
	.size	.L75f850512cff, 8

	.type	.L78410b8842b3,@object
	.section	.rodata,"a",@progbits
.L78410b8842b3:
	.ascii	"/usr/local/share:/usr/share"
	.size	.L78410b8842b3, 27

	.type	.L78868f2a1a13,@object
	.section	.data.rel.ro,"aw",@progbits
	.p2align	3, 0x0
.L78868f2a1a13:
	.quad	.L78868f2a1a13+16
	.ascii	"\000\003\000\000\000\000\000\000000001002003004005006007008009010011012013014015016017018019020021022023024025026027028029030031032033034035036037038039040041042043044045046047048049050051052053054055056057058059060061062063064065066067068069070071072073074075076077078079080081082083084085086087088089090091092093094095096097098099100101102103104105106107108109110111112113114115116117118119120121122123124125126127128129130131132133134135136137138139140141142143144145146147148149150151152153154155156157158159160161162163164165166167168169170171172173174175176177178179180181182183184185186187188189190191192193194195196197198199200201202203204205206207208209210211212213214215216217218219220221222223224225226227228229230231232233234235236237238239240241242243244245246247248249250251252253254255"
	.size	.L78868f2a1a13, 784

	.type	.L78f7cac7802d,@object
	.section	.rodata,"a",@progbits
.L78f7cac7802d:
	.ascii	"The files to explain the types of; put -- before one that\nbegins with -"
	.size	.L78f7cac7802d, 71

	.type	.L797f014df943,@object
	.section	.rodata,"a",@progbits
.L797f014df943:
	.ascii	"Data directories, most preferred first, with colons\nbetween them, such as /usr/local/share:/usr/share;\nan empty part is skipped"
	.size	.L797f014df943, 127

	.type	.L7990ae6ec50f,@object
	.section	.rodata,"a",@progbits
.L7990ae6ec50f:
	.ascii	"mimelook: no cache is written to a terminal\n"
	.size	.L7990ae6ec50f, 44

	.type	.L79d79dcad8f3,@object
	.section	.rodata,"a",@progbits
.L79d79dcad8f3:
	.ascii	"name "
	.size	.L79d79dcad8f3, 5

	.type	.L79e8aea61817,@object
	.section	.rodata,"a",@progbits
.L79e8aea61817:
	.ascii	"Messages go to standard error. Where the cache names no icon, it is TYPE with -\nin place of /; the generic one is then the part before the / and -x-generic.\nTYPE may be an alias. With -d the cache is made of DIRS, as build makes it;\nwithout -c and -d, of the user's data directories (see mimelook --help).\n\nExit status:\n  0  both were printed; or help or the version was printed\n  2  the command line is wrong, a word of it is not UTF-8, or TYPE is no type\n  3  the data can't be read or is refused, or the output can't be written\n  4  out of memory\n\nExample:\n  $ mimelook icon text/html\n  icon: text-html\n  generic: text-x-generic"
	.size	.L79e8aea61817, 631

	.type	.L7ae2a5bad0f0,@object
	.section	.rodata,"a",@progbits
.L7ae2a5bad0f0:
	.ascii	"too large"
	.size	.L7ae2a5bad0f0, 9

	.type	.L7b0baf189013,@object
	.section	.rodata,"a",@progbits
.L7b0baf189013:
	.ascii	"Prints FILE: TYPE for each FILE, and below it why"
	.size	.L7b0baf189013, 49

	.type	.L7de201737f33,@object
	.section	.rodata,"a",@progbits
.L7de201737f33:
	.ascii	"Print version"
	.size	.L7de201737f33, 13

	.type	.L7e728961b7cf,@object
	.section	.rodata,"a",@progbits
.L7e728961b7cf:
	.ascii	"\ngeneric: "
	.size	.L7e728961b7cf, 10

	.type	.L7e7e9dc2ef5a,@object
	.section	.rodata.cst4,"aM",@progbits,4
.L7e7e9dc2ef5a:
	.ascii	"DIRS"
	.size	.L7e7e9dc2ef5a, 4

	.type	.L80268cd09f04,@object
	.section	.rodata,"a",@progbits
.L80268cd09f04:
	.ascii	"' as a value, use '"
	.size	.L80268cd09f04, 19

	.type	.L807e89e39460,@object
	.section	.rodata,"a",@progbits
.L807e89e39460:
	.ascii	", "
	.size	.L807e89e39460, 2

	.type	.L81cfd07821a2,@object
	.section	.rodata,"a",@progbits
.L81cfd07821a2:
	.ascii	": not replaced\n"
	.size	.L81cfd07821a2, 15

	.type	.L81e54fa2e54f,@object
	.section	.rodata,"a",@progbits
.L81e54fa2e54f:
	.ascii	"The cache to read, such as\n/usr/share/mime/mime.cache"
	.size	.L81e54fa2e54f, 53

	.type	.L83a8e6e0358f,@object
	.section	.rodata,"a",@progbits
.L83a8e6e0358f:
	.ascii	"too many characters in string"
	.size	.L83a8e6e0358f, 29

	.type	.L840b088e8271,@object
	.section	.rodata.cst4,"aM",@progbits,4
.L840b088e8271:
	.ascii	" at "
	.size	.L840b088e8271, 4

	.type	.L85097403f6a7,@object
.L85097403f6a7:
	.ascii	"BASE"
	.size	.L85097403f6a7, 4

	.type	.L86b0a5dcfbaa,@object
	.section	.rodata,"a",@progbits
.L86b0a5dcfbaa:
	.ascii	"sections "
	.size	.L86b0a5dcfbaa, 9

	.type	.L87269e8ec07e,@object
	.section	.rodata,"a",@progbits
.L87269e8ec07e:
	.ascii	"-- "
	.size	.L87269e8ec07e, 3

	.type	.L87a13c65db5a,@object
	.section	.rodata,"a",@progbits
.L87a13c65db5a:
	.ascii	"mimelook isa [-c CACHE | -d DIRS] TYPE BASE"
	.size	.L87a13c65db5a, 43

	.type	.L87b4d4e2734a,@object
	.section	.rodata,"a",@progbits
.L87b4d4e2734a:
	.ascii	"gave up reading or writing after 2^64 tries"
	.size	.L87b4d4e2734a, 43

	.type	.L8861b7b71362,@object
	.section	.rodata.cst4,"aM",@progbits,4
.L8861b7b71362:
	.ascii	"cost"
	.size	.L8861b7b71362, 4

	.type	.L8a62443031f8,@object
	.section	.rodata.cst4,"aM",@progbits,4
.L8a62443031f8:
	.ascii	"help"
	.size	.L8a62443031f8, 4

	.type	.L8ac30d2a01e2,@object
	.section	.rodata,"a",@progbits
.L8ac30d2a01e2:
	.ascii	"[="
	.size	.L8ac30d2a01e2, 2

	.type	.L8d8772752b95,@object
	.section	.rodata,"a",@progbits
.L8d8772752b95:
	.ascii	"\n  tip: '"
	.size	.L8d8772752b95, 9

	.type	.L8db0c9845b42,@object
	.section	.rodata.cst4,"aM",@progbits,4
.L8db0c9845b42:
	.zero	4,32
	.size	.L8db0c9845b42, 4

	.type	.L8ea678d01413,@object
	.section	.rodata,"a",@progbits
.L8ea678d01413:
	.ascii	"Prints a line WEIGHT:TYPE:PATTERN for each glob rule of a cache"
	.size	.L8ea678d01413, 63

	.type	.L9003dc4c537c,@object
	.section	.rodata,"a",@progbits
.L9003dc4c537c:
	.byte	61
	.size	.L9003dc4c537c, 1

	.type	.L9078467ae595,@object
	.section	.rodata,"a",@progbits
.L9078467ae595:
	.ascii	"' for '"
	.size	.L9078467ae595, 7

	.type	.L912ff23d9ff8,@object
	.section	.rodata,"a",@progbits
.L912ff23d9ff8:
	.ascii	"budget spent"
	.size	.L912ff23d9ff8, 12

	.type	.L920aa9c63673,@object
	.section	.rodata.cst4,"aM",@progbits,4
.L920aa9c63673:
	.ascii	"icon"
	.size	.L920aa9c63673, 4

	.type	.L92a1455e1d13,@object
	.section	.rodata,"a",@progbits
.L92a1455e1d13:
	.ascii	"files0-from"
	.size	.L92a1455e1d13, 11

	.type	.L93928807f5f1,@object
	.section	.rodata.cst16,"aM",@progbits,16
.L93928807f5f1:
	.ascii	"the subcommand '"
	.size	.L93928807f5f1, 16

	.type	.L949f8d3ad925,@object
	.section	.rodata,"a",@progbits
.L949f8d3ad925:
	.ascii	"failed to write the buffered data"
	.size	.L949f8d3ad925, 33

	.type	.L95afaa5ccfdf,@object
	.section	.rodata,"a",@progbits
.L95afaa5ccfdf:
	.ascii	"' cannot be used with"
	.size	.L95afaa5ccfdf, 21

	.type	.L96ff05348ebf,@object
	.section	.rodata,"a",@progbits
.L96ff05348ebf:
	.byte	92
	.size	.L96ff05348ebf, 1

	.type	.L97b0cfc04742,@object
	.section	.data.rel.ro,"aw",@progbits
	.p2align	3, 0x0
.L97b0cfc04742:
	.quad	.L97b0cfc04742+96
	.asciz	"\001\000\000\000\000\000\000"
	.quad	.L97b0cfc04742+97
	.asciz	"\003\000\000\000\000\000\000"
	.quad	.L97b0cfc04742+100
	.asciz	"\001\000\000\000\000\000\000"
	.quad	.L97b0cfc04742+101
	.asciz	"\004\000\000\000\000\000\000"
	.quad	.L97b0cfc04742+105
	.asciz	"\002\000\000\000\000\000\000"
	.quad	.L97b0cfc04742+107
	.asciz	"\001\000\000\000\000\000\000\000yyesttrueon1\000\000\000"
	.size	.L97b0cfc04742, 112

	.type	.L98fd8ea9c184,@object
	.section	.rodata,"a",@progbits
.L98fd8ea9c184:
	.ascii	" is not in "
	.size	.L98fd8ea9c184, 11

	.type	.L9a6d2b0c00a7,@object
	.section	.rodata,"a",@progbits
.L9a6d2b0c00a7:
	.ascii	"invalid float literal"
	.size	.L9a6d2b0c00a7, 21

	.type	.L9b460a3ab27c,@object
	.section	.rodata,"a",@progbits
.L9b460a3ab27c:
	.ascii	"' but "
	.size	.L9b460a3ab27c, 6

	.type	.L9b770efd7ae0,@object
	.section	.rodata,"a",@progbits
.L9b770efd7ae0:
	.byte	32
	.size	.L9b770efd7ae0, 1

	.type	.L9c57e44a2f2d,@object
	.section	.rodata,"a",@progbits
.L9c57e44a2f2d:
	.ascii	" '"
	.size	.L9c57e44a2f2d, 2

	.type	.L9dcb29949991,@object
	.section	.rodata,"a",@progbits
.L9dcb29949991:
	.ascii	"icons"
	.size	.L9dcb29949991, 5

	.type	.L9dce95591b63,@object
	.section	.rodata,"a",@progbits
.L9dce95591b63:
	.ascii	"name too long"
	.size	.L9dce95591b63, 13

	.type	.L9eed94c034fc,@object
	.section	.rodata,"a",@progbits
.L9eed94c034fc:
	.ascii	"mimelook: out of memory"
	.size	.L9eed94c034fc, 23

	.type	.La0a61d465b98,@object
	.section	.rodata,"a",@progbits
.La0a61d465b98:
	.ascii	"Messages go to standard error. The files are DIR/mime/globs2, magic, aliases,\nsubclasses, icons and generic-icons; a missing one counts as empty. Without -d\nthe directories are the user's (see mimelook --help).\nglobs2 gives each rule with cs a twin without it, by which CORE and A.GS have a\ntype. With --drop-twins they have none, since GLib, Qt and xdgmime read caches\nthat have no twins.\n\nExit status:\n  0  FILE was written; or help or the version was printed\n  2  the command line is wrong, or a word of it is not UTF-8\n  3  the data can't be read or is refused, the database is too large, FILE\n     can't be written, or it is there and no directory has a text file\n  4  out of memory\n\nExample:\n  $ mimelook build -d /usr/local/share:/usr/share -o mime.cache"
	.size	.La0a61d465b98, 761

	.type	.La1415167c923,@object
	.section	.rodata,"a",@progbits
.La1415167c923:
	.ascii	"\n  [subcommands: "
	.size	.La1415167c923, 17

	.type	.La1f949b3aadb,@object
	.section	.rodata,"a",@progbits
.La1f949b3aadb:
	.ascii	"not a type"
	.size	.La1f949b3aadb, 10

	.type	.La3c42d80fcd3,@object
	.section	.rodata,"a",@progbits
.La3c42d80fcd3:
	.ascii	"no database: icons"
	.size	.La3c42d80fcd3, 18

	.type	.La487fc8a0498,@object
	.section	.rodata,"a",@progbits
.La487fc8a0498:
	.byte	46
	.size	.La487fc8a0498, 1

	.type	.La548cbe73342,@object
	.section	.rodata,"a",@progbits
.La548cbe73342:
	.ascii	"build"
	.size	.La548cbe73342, 5

	.type	.La61b5a71a1b3,@object
	.section	.rodata,"a",@progbits
.La61b5a71a1b3:
	.ascii	", -"
	.size	.La61b5a71a1b3, 3

	.type	.La6e8590c0799,@object
	.section	.rodata,"a",@progbits
.La6e8590c0799:
	.ascii	" is empty"
	.size	.La6e8590c0799, 9

	.type	.La72ca670bb94,@object
	.section	.rodata,"a",@progbits
.La72ca670bb94:
	.ascii	"unexpected value '"
	.size	.La72ca670bb94, 18

	.type	.La75402a5534b,@object
	.section	.rodata,"a",@progbits
.La75402a5534b:
	.ascii	"CACHE"
	.size	.La75402a5534b, 5

	.type	.La7e343717825,@object
	.section	.rodata,"a",@progbits
.La7e343717825:
	.ascii	"es"
	.size	.La7e343717825, 2

	.type	.Laa68302af712,@object
	.section	.rodata,"a",@progbits
.Laa68302af712:
	.ascii	"invalid digit found in string"
	.size	.Laa68302af712, 29

	.type	.Laafe98300121,@object
	.section	.rodata,"a",@progbits
.Laafe98300121:
	.ascii	"text/plain"
	.size	.Laafe98300121, 10

	.type	.Lab5c34a0a1e7,@object
	.section	.rodata,"a",@progbits
.Lab5c34a0a1e7:
	.ascii	"give a FILE, --files0-from LIST or --stdin NAME"
	.size	.Lab5c34a0a1e7, 47

	.type	.Lac43eb984e3c,@object
	.section	.rodata,"a",@progbits
.Lac43eb984e3c:
	.ascii	"\nicons "
	.size	.Lac43eb984e3c, 7

	.type	.Lac7356f345ce,@object
	.section	.rodata,"a",@progbits
.Lac7356f345ce:
	.ascii	" is not text (UTF-8)\n"
	.size	.Lac7356f345ce, 21

	.type	.Lacc9607a0d71,@object
	.section	.rodata,"a",@progbits
.Lacc9607a0d71:
	.ascii	"Go by the names alone: no FILE is opened"
	.size	.Lacc9607a0d71, 40

	.type	.Lad6fdadda423,@object
	.section	.rodata,"a",@progbits
.Lad6fdadda423:
	.ascii	"; there is "
	.size	.Lad6fdadda423, 11

	.type	.Ladfe6cd27f2c,@object
	.section	.rodata,"a",@progbits
.Ladfe6cd27f2c:
	.ascii	"Messages go to standard error. The files are DIR/mime/globs2, magic, aliases,\nsubclasses, icons and generic-icons; a missing one counts as empty. Without -d\nthe directories are the user's (see mimelook --help).\nA FILE that is a pipe can't be opened, nor one whose name is not UTF-8, which\nhas a type by --name-only; a pipe has one by --inode. LIST may be a pipe; its\nnames are looked up as they come.\n\nExit status:\n  0  every FILE was answered; or help or the version was printed\n  1  some FILE can't be opened or read, its name is too long (above 4096 bytes),\n     or a name of LIST is empty; the others were answered\n  2  the command line is wrong, or a word but a FILE is not UTF-8\n  3  the data or LIST can't be read, the data is refused, or the output can't\n     be written\n  4  out of memory\n\nExample:\n  $ mimelook plain -d /usr/local/share:/usr/share notes.txt\n  notes.txt: text/plain"
	.size	.Ladfe6cd27f2c, 891

	.type	.Lafc90defa187,@object
	.section	.rodata,"a",@progbits
.Lafc90defa187:
	.ascii	"cannot parse float from empty string"
	.size	.Lafc90defa187, 36

	.type	.Lb0d9555b4c30,@object
	.section	.rodata.cst4,"aM",@progbits,4
.Lb0d9555b4c30:
	.ascii	"true"
	.size	.Lb0d9555b4c30, 4

	.type	.Lb18950a248ac,@object
	.section	.rodata,"a",@progbits
.Lb18950a248ac:
	.ascii	"aliases"
	.size	.Lb18950a248ac, 7

	.type	.Lb497d0178b7a,@object
	.section	.rodata,"a",@progbits
.Lb497d0178b7a:
	.ascii	"' found; no more were expected"
	.size	.Lb497d0178b7a, 30

	.type	.Lb4d0460a73df,@object
	.section	.rodata,"a",@progbits
.Lb4d0460a73df:
	.ascii	"no database: subclasses"
	.size	.Lb4d0460a73df, 23

	.type	.Lb4e2c38a2c91,@object
	.section	.rodata,"a",@progbits
.Lb4e2c38a2c91:
	.ascii	"give --magic-first or --all-globs, not both"
	.size	.Lb4e2c38a2c91, 43

	.type	.Lb6d94fa03dd2,@object
	.section	.rodata,"a",@progbits
.Lb6d94fa03dd2:
	.ascii	"- "
	.size	.Lb6d94fa03dd2, 2

	.type	.Lb7b781d5a1fb,@object
	.section	.rodata,"a",@progbits
.Lb7b781d5a1fb:
	.ascii	" one or more of the other specified arguments"
	.size	.Lb7b781d5a1fb, 45

	.type	.Lb9d66d2d8f9c,@object
	.section	.rodata,"a",@progbits
.Lb9d66d2d8f9c:
	.byte	10
	.size	.Lb9d66d2d8f9c, 1

	.type	.Lbca628426a44,@object
	.section	.rodata,"a",@progbits
.Lbca628426a44:
	.ascii	"give -c CACHE or -d DIRS, not both"
	.size	.Lbca628426a44, 34

	.type	.Lbd551c3abc3e,@object
	.section	.rodata,"a",@progbits
.Lbd551c3abc3e:
	.ascii	"/mime/"
	.size	.Lbd551c3abc3e, 6

	.type	.Lbd5f4b5772e7,@object
	.section	.rodata,"a",@progbits
.Lbd5f4b5772e7:
	.ascii	"Let content choose among all patterns that match,\nnot among the preferred ones alone; not with\n--magic-first"
	.size	.Lbd5f4b5772e7, 108

	.type	.Lbd8f0e955afa,@object
	.section	.rodata,"a",@progbits
.Lbd8f0e955afa:
	.ascii	"Print this message or the help of the given subcommand(s)"
	.size	.Lbd8f0e955afa, 57

	.type	.Lbdf5ca500ffb,@object
	.section	.rodata,"a",@progbits
.Lbdf5ca500ffb:
	.byte	91
	.size	.Lbdf5ca500ffb, 1

	.type	.Lbf28a0ac4edc,@object
	.section	.rodata,"a",@progbits
.Lbf28a0ac4edc:
	.ascii	"inode/blockdevice"
	.size	.Lbf28a0ac4edc, 17

	.type	.Lbf390fbfa02b,@object
	.section	.rodata,"a",@progbits
.Lbf390fbfa02b:
	.ascii	"  by content\n"
	.size	.Lbf390fbfa02b, 13

	.type	.Lbf4f69522365,@object
	.section	.rodata,"a",@progbits
.Lbf4f69522365:
	.ascii	"version"
	.size	.Lbf4f69522365, 7

	.type	.Lbfbdcc43a9ef,@object
	.section	.rodata,"a",@progbits
.Lbfbdcc43a9ef:
	.ascii	"Tells the MIME types of files"
	.size	.Lbfbdcc43a9ef, 29

	.type	.Lc001665c5e53,@object
	.section	.rodata,"a",@progbits
.Lc001665c5e53:
	.ascii	"Prints yes where TYPE is BASE or is derived from it, and else no"
	.size	.Lc001665c5e53, 64

	.type	.Lc0d8ce03ca58,@object
	.section	.data.rel.ro,"aw",@progbits
	.p2align	3, 0x0
.Lc0d8ce03ca58:
	.quad	.Lc0d8ce03ca58+16
	.asciz	"\002\000\000\000\000\000\000\000  \000\000\000\000\000"
	.size	.Lc0d8ce03ca58, 24

	.type	.Lc1457d64b35f,@object
	.section	.rodata,"a",@progbits
.Lc1457d64b35f:
	.ascii	"mimelook: cannot write output\n"
	.size	.Lc1457d64b35f, 30

	.type	.Lc1b0ea49b06c,@object
	.section	.rodata,"a",@progbits
.Lc1b0ea49b06c:
	.byte	45
	.size	.Lc1b0ea49b06c, 1

	.type	.Lc1b67e27bb9f,@object
	.section	.rodata,"a",@progbits
.Lc1b67e27bb9f:
	.ascii	"cannot parse integer from empty string"
	.size	.Lc1b67e27bb9f, 38

	.type	.Lc353831ac29d,@object
	.section	.rodata,"a",@progbits
.Lc353831ac29d:
	.zero	2,10
	.size	.Lc353831ac29d, 2

	.type	.Lc4782f9c8cbe,@object
	.section	.rodata,"a",@progbits
.Lc4782f9c8cbe:
	.ascii	"[alias"
	.size	.Lc4782f9c8cbe, 6

	.type	.Lc50172a78548,@object
	.section	.rodata,"a",@progbits
.Lc50172a78548:
	.ascii	"|-"
	.size	.Lc50172a78548, 2

	.type	.Lc538526e0438,@object
	.section	.rodata,"a",@progbits
.Lc538526e0438:
	.ascii	"give a command"
	.size	.Lc538526e0438, 14

	.type	.Lc666ae85776d,@object
	.section	.rodata,"a",@progbits
.Lc666ae85776d:
	.ascii	"the argument '"
	.size	.Lc666ae85776d, 14

	.type	.Lc6ab5bfca453,@object
	.section	.rodata,"a",@progbits
.Lc6ab5bfca453:
	.ascii	"must specify at least one of read, write, or append access"
	.size	.Lc6ab5bfca453, 58

	.type	.Lc86eb0c0bc7c,@object
	.section	.data.rel.ro,"aw",@progbits
	.p2align	3, 0x0
.Lc86eb0c0bc7c:
	.quad	.Lc86eb0c0bc7c+96
	.asciz	"\006\000\000\000\000\000\000"
	.quad	.Lc86eb0c0bc7c+102
	.asciz	"\005\000\000\000\000\000\000"
	.quad	.Lc86eb0c0bc7c+107
	.asciz	"\007\000\000\000\000\000\000"
	.quad	.Lc86eb0c0bc7c+114
	.asciz	"\n\000\000\000\000\000\000"
	.quad	.Lc86eb0c0bc7c+124
	.asciz	"\005\000\000\000\000\000\000"
	.quad	.Lc86eb0c0bc7c+129
	.asciz	"\r\000\000\000\000\000\000\000globs2magicaliasessubclassesiconsgeneric-icons\000"
	.size	.Lc86eb0c0bc7c, 144

	.type	.Lc870429636bc,@object
	.section	.rodata,"a",@progbits
.Lc870429636bc:
	.ascii	"\naliases "
	.size	.Lc870429636bc, 9

	.type	.Lc8848e2626bc,@object
	.section	.rodata,"a",@progbits
.Lc8848e2626bc:
	.ascii	"inode/socket"
	.size	.Lc8848e2626bc, 12

	.type	.Lc8bb6ad023bf,@object
	.section	.rodata,"a",@progbits
.Lc8bb6ad023bf:
	.ascii	"Prints the icon and the generic icon of a type"
	.size	.Lc8bb6ad023bf, 46

	.type	.Lc8cecd517f92,@object
	.section	.rodata,"a",@progbits
.Lc8cecd517f92:
	.ascii	"Options"
	.size	.Lc8cecd517f92, 7

	.type	.Lc8e59cb6a35a,@object
	.section	.rodata,"a",@progbits
.Lc8e59cb6a35a:
	.ascii	"[default: "
	.size	.Lc8e59cb6a35a, 10

	.type	.Lc9c10f50e645,@object
	.section	.rodata,"a",@progbits
.Lc9c10f50e645:
	.ascii	"error: "
	.size	.Lc9c10f50e645, 7

	.type	.Lca59f735d667,@object
	.section	.rodata,"a",@progbits
.Lca59f735d667:
	.ascii	"mimelook explain [-c CACHE | -d DIRS] [--name-only | --content-only]\n                        [--magic-first | --all-globs] [--escape] FILE..."
	.size	.Lca59f735d667, 141

	.type	.Lca64d732d5f8,@object
	.section	.rodata,"a",@progbits
.Lca64d732d5f8:
	.ascii	"mimelook list [-c CACHE | -d DIRS]"
	.size	.Lca64d732d5f8, 34

	.type	.Lcae166085bec,@object
	.section	.rodata,"a",@progbits
.Lcae166085bec:
	.ascii	"\ngeneric-icons "
	.size	.Lcae166085bec, 15

	.type	.Lcbd2e040a5e1,@object
	.section	.rodata,"a",@progbits
.Lcbd2e040a5e1:
	.ascii	": line "
	.size	.Lcbd2e040a5e1, 7

	.type	.Lcc00331ed980,@object
	.section	.rodata,"a",@progbits
.Lcc00331ed980:
	.ascii	"Print behind each TYPE what the answer cost:\nnodes=N, records of the cache that were visited;\nbytes=B, bytes that were read or compared; read=R,\nbytes of FILE that were read"
	.size	.Lcc00331ed980, 173

	.type	.Lccd068a4cc1e,@object
	.section	.rodata,"a",@progbits
.Lccd068a4cc1e:
	.ascii	"cannot read"
	.size	.Lccd068a4cc1e, 11

	.type	.Lcd262ffbb50e,@object
	.section	.rodata,"a",@progbits
.Lcd262ffbb50e:
	.ascii	" cs"
	.size	.Lcd262ffbb50e, 3

	.type	.Lce1aeece1a5a,@object
	.section	.rodata,"a",@progbits
.Lce1aeece1a5a:
	.ascii	"globs2"
	.size	.Lce1aeece1a5a, 6

	.type	.Lce444474aa36,@object
	.section	.rodata,"a",@progbits
.Lce444474aa36:
	.byte	34
	.size	.Lce444474aa36, 1

	.type	.Lcf324260551e,@object
	.section	.rodata,"a",@progbits
.Lcf324260551e:
	.ascii	"subclasses"
	.size	.Lcf324260551e, 10

	.type	.Ld07916865064,@object
	.section	.rodata,"a",@progbits
.Ld07916865064:
	.ascii	"\nsubclasses "
	.size	.Ld07916865064, 12

	.type	.Ld225cf273187,@object
	.section	.rodata,"a",@progbits
.Ld225cf273187:
	.ascii	"Print inode/directory, chardevice, blockdevice, fifo\nor socket for what is no regular file, and\ninode/symlink for a link that leads nowhere; none of\nthem is opened"
	.size	.Ld225cf273187, 163

	.type	.Ld27fc74a6e00,@object
	.section	.rodata.cst8,"aM",@progbits,8
.Ld27fc74a6e00:
	.ascii	"mimelook"
	.size	.Ld27fc74a6e00, 8

	.type	.Ld38e3d4473f4,@object
	.section	.rodata,"a",@progbits
.Ld38e3d4473f4:
	.ascii	"/globs2"
	.size	.Ld38e3d4473f4, 7

	.type	.Ld40b30192e9d,@object
	.section	.rodata,"a",@progbits
.Ld40b30192e9d:
	.ascii	"mimelook type [-c CACHE | -d DIRS] [--name-only | --content-only]\n                     [--magic-first | --all-globs] [--inode] [--cost] [-0] [-b]\n                     [--escape] {FILE... | --files0-from LIST | --stdin NAME}"
	.size	.Ld40b30192e9d, 223

	.type	.Ld42309c85a1b,@object
	.section	.rodata,"a",@progbits
.Ld42309c85a1b:
	.ascii	"inode/symlink"
	.size	.Ld42309c85a1b, 13

	.type	.Ld4ff8cedf1ce,@object
	.section	.rodata,"a",@progbits
.Ld4ff8cedf1ce:
	.ascii	"brief"
	.size	.Ld4ff8cedf1ce, 5

	.type	.Ld5ea52cbc0d4,@object
	.section	.rodata.cst8,"aM",@progbits,8
.Ld5ea52cbc0d4:
	.ascii	"\n       "
	.size	.Ld5ea52cbc0d4, 8

	.type	.Ld6e62bfbaaae,@object
	.section	.rodata,"a",@progbits
.Ld6e62bfbaaae:
	.ascii	"mimelook: out of memory\n"
	.size	.Ld6e62bfbaaae, 24

	.type	.Ld6f1b0994a9e,@object
	.section	.rodata,"a",@progbits
.Ld6f1b0994a9e:
	.byte	62
	.size	.Ld6f1b0994a9e, 1

	.type	.Ld9078770f0cd,@object
	.section	.rodata,"a",@progbits
.Ld9078770f0cd:
	.ascii	"mimelook: "
	.size	.Ld9078770f0cd, 10

	.type	.Ld93099d7ee70,@object
	.section	.rodata,"a",@progbits
.Ld93099d7ee70:
	.ascii	"mimelook check [-c CACHE | -d DIRS]"
	.size	.Ld93099d7ee70, 35

	.type	.Ld973209b3923,@object
	.section	.rodata,"a",@progbits
	.p2align	4, 0x0
.Ld973209b3923:
	.ascii	"?;\241\006)\252?\021Z\326;\222\326S\364\356\007\305$\244Y\312\307J\370ee\033f\264X\225I\366-\r\360\274y]v\277>\242\177\341\256\272\334sy\020,,\330\364So\316\212\337\231Z\351i\350K\212\233\033\007y\224\005\301\266+\240\330\221\204\342\336l\202\342H\227\371Fq\2446\310N\266%\233\026\b#\033\033\375\267\230\215MDz\342\343\367 \016\345\365\3600\376r\177x\260j\214m\2165\251Q^3-\275\275O\237\226\\\205\357\b\262\202\023\3465\200x,\255#G\274\263f+\213\3361\314\257!P\313;Lv\254U0 \373\026\213=\277\033*$\276J\337\223\027k<\350\271\334\255\r\257\2424\255m\035\327x\335\205Kb\350S\331h\255\345@\214dr\206k\2523o=q\324\207\302\030\037Q\257\375\016h\006\225\000\313\214\215\311\251\362\336f%\033\275\022\002H\272\300\375\357\360;\324WK`\3670\266K\001mt\230\376\225v\245\204-^85\275\243\236A\210\221>~;\324\316\245\271u\206\202\254L\006R\3525\316]J\211B\317\223\t\224\321\353\357Cs\262\341\240z\316\225\211\201\370\013\371\305\346\353\024\020\037\032I\031B\373\353\241\366Nww\340&\032\324\246`\233\237\022\372f\312\264\"U\225\230\260 \211\3208\202G\227\270\000\375\2605U]_n\264U\202c\261\214^s \236\035\203\2524\367\211!\353b\274\335/6\220\250\305\344#\325\001u\354\351\245{+\325\273C\264\022\367n6%!\3113\262G-;eU\252\260k\232\n\204ni\273\300\236\231\370\211\276\352\324\234\006\301\r%\312C\352p\006\300v,n%\nDH\361(W^j\222\006\0048\312\333dW\206*\315\226\362\354\365\0047\b\005\306\274\022>\355'u\200\274.h3\306DJ\206\367k\227\215\350q\222\240\353\035!\340\373j\356\263z\243~X1\207[D\223d)\330\272\005\352`YL\236\256\375hr\025\270\2753\216)\207$\271o\337E\032=\003\317\032\346V\340\370y\324\266\323\245\253k0\006b\301\320\217l\030w\230\211\244H\217\226\206\274\207\272\361\304\263\207\336\224\376\253\315\0323<\250\253)).\266\340\024\013\035\177\213\300\360\237%I\013\272\331\334q\214\331M\344^\256\360\354\007o\033\216(\020T\216\257Pa\235\366\331,\350\311J\242\2612\024\351q\333\322\\\":\b\0341\276n\005\257\237\2541'\211\006\364\252H\nc\275m\312\306\232\307\027\376p\253\b\261\325\332\314\273,\t}x\201\271\235=M\326\245\216\305\b`\365\273%N\353\360\223\202F\360\205N\362\366\n\270\362*\257!&\3558#Xl\247\341\256\264\rf\257\365\032\252o(\007,nG\321M\355\220\310\237\215\331P\312Ey\204\333\244\314\202\240(\265\272\007\361\017\345<\227\227e\022\316\177\243\310rb\251I\355S\036\f}\375\376\226\301_\314z\017\273\023\234\350\350%O\334\274\276\374\261w\377\254\351T\214a\221\261w\261\t6\367=\317\252\237\027$j\357\271\365\235\325\035\214\003u\r\203\225\307\035\255Dk(s\005K%oD\322\320\343z\3712\354\nC\371g\343Nw\305j\203b\316\354\233?\247\315\223\367A\234\"\325vE$\373\001\350\302\017\021\301xuRCk\212\324V\355y\002\242\363\251\252xk\211\023\n\203\326DV4\214AE\230S\325V\306k\230\314#\f\326kA\357\221V\276\250\212\354\267\206\276\277,\217\313\306\021k6\354\355\251\326\3632\024\327\367{9?\034\353\002\242\263\224S\314\260?\331\314\365\332\007O\343\245\203\212\340\271h\377\234\217\017@\263\321\311\"\\\217$\255X\350\241\037\302\271\t\b\020#\276\225\231\3316l7\221\212\2472(\f\n\324\253-\373\377\217DG\205\265lQ?2\217\f\311\026\371\371\377\263\025\231\346\342\343\222g\177\331\247=\256;\374\177\220\255\037\320\215\234wA\337\317\021\315\231J\373\237\364\230'D\261\203\325\021\327CV@@\035\372\3071\1771\225\335r%kf\3525(HR\374\034\177\357>}\212\317\356\005\000eC2\332f;\344^\253\216\034\255\202j\007@>\324\276\220@J\2356V\262c\330\221\242\004\350\246DwZhN\"\342uO>\2076\313\005\242\320\025\025q\002\342\252ZS\343\r\251\003>\207\312D[Z\r\203\232U1(\\Q\323\302\206\224\376\nyX\350\221\200\325\036\231\331\022\204r\2509\276M\227nb\266\340\212f\377\217\027\245\217\022\310-!=\n\373\343\230-@\377s]\316\231\013\235\2744f\346|\216\177\034\210\177h\372\200\200N\304\353\301\377\037\034r\237#j\237\0029\241 b\265f\262\377'\243N\207\254DGC\207\311\250\272b\000\237\377\361K\"\251\327\025\031\024\351\373\251\264=`\303?wo\265\311\246\255\217\254q\235\323!M8\264\017U\313\"|\020\231\263\027\316\304Hj`F\241S*~+\233T\177\240\235\001\366mB\374\313Dt\332.\373\340\224O\204\002\301\231\bS\373\376U\021\221\3729\031zc%C1\300\312'\272~\253U5y\210\237X\274\356\223=\360\336X4/\213U\301K\265c\2675u|&\226\026o\001\373\355\252\261\236\242<%\203\222\033\260\273\334\312\301y\251\025^F\313\213\356#w\"\234\352\311\036\031\354\211\315\372\013_\027uv\212\225\241\222{f\037g\354\200\371\3166]\022\024\355\372I\267\032@\347\200'\341\267\202\204\364\026Y\250y\034\345\020\210\220\260\270\354\262\321\322X\2567\t\3141\217\025\252\264\334\346\247\037\206\007\357\231\205\013?\376\262\232\324\341\223\340\221\247g\311j\000g\316\316\275\337\340$m\\,\273\310\340\275B`\000A\241\326\213\030n\210s\367\351\372XmSx@\221I\314\256\236\211jPu\2449\257Hh\226\220\365[\177\332\003\226BR\311\006\204m-\001^zy\231\217\210\203;\323\246{\b\345\310x\201\365\330\327\177\263\252d\n\210\220\232J\036\373\326\3412\317\315_`\325\177\006U\232\240\356\362\\&\315\177\241\340;\\\205\036H\352\300H\252/\364o\300\337\311\330J\263\246&\332$\361\332\224;\361\213\260W\374\216\035`\320X\b\267\326\b=\305vW\316\266]y\022<\202n\312d\fK\214vT\355\201$\265\027\027\313\242\t\375}\317]/\224\251h\242m\242\335\334}\313L|]C5;\371\323\002\013\t\013\025T]\376\257m\032J\001\305{\304\341\246\345&\215T\372\236\033\t\241\234A\266\2325\232\020\237p\260\351\270\306bK\311\003\322c\001\303\300\324\306\214\034$g\370\035\317]Bc\336\340y\370D\374\327\221v@\233\344B\365\022\374\025Y\2306V\373M6\224\020\302\235\223\262\027{[o>\304+z\341C\271\224\362B\234\317\356,\231\005\247Z[\354l\312\363\234\227S\203\203*x\377\306P1r'\b\2750\204\275(d$5V\277\370\244\275N1J\354<\345\354\231\2766\341\225w\033\2076\321^\256\023F\017\224?n\204Y{U\342(\204\205\366\231\230\027\023\271\317\211\345/\332\352\0323\345&t\300~\335W\347!v\357]\310\322\360?O\230H8o\352\226\220\251Skuz\007\355\017c\276Z\006\013\245\274\264\224(\306\022YI\350\323\373m\361\307M\316\353\341\\\331\273\253\327-qd\275\344\366\234\360`3\215\263\317\252\226My\215\275\354\2354\304,9\200\260\240\203U\374\240\327\360\354g\305A\365wG\240\334Dr\265\235\304\206\026\364`\033I\371\252,\344\211\325\316\"\305u(\03419b\233\267\3257]\254\213\202k6\2232c}\307:\202%\313\205t\327\2271\003\002\234\377]\256\274dq\367\236\323\250\206\374\375\203\002\203\177\365\331\353\275M\265\206\bS\250{\375$\303c\337r\320f-\241b\250\312g\322m\036\367Y\236\313GB`\274\244=\251\336\200\203\b\346t\360\205\276\331Rx\353\r\215S\026a\244\213\037\222l'.\220gVfQp\350[y\315\266S\333\243\330\034\272\000\366\3372Fq\331k\200\244(\322\314\016\244\350\200\363\227\277\227\315\317\206\240\315\262\006\200\022\315\"a\360}\257\375\300\203\250\310\201_\b W\200kyl]\033=\261\244\322\372\260;\005t60\343\313c\0321\306\356\246\303\234\234\212\006\021D\374\333\276\374`\275w\252\220\364\303D-H\025U\373\222\356;\271\254\025\325\264\361\364J\034M-\025\335\033u\305\363\213-\005\021\027\231]c\240xZ\324b\322\266\360\356xF\325\\\2774|\310\026q\211\373\206\344\254*\027\230\n4\357\240M=\256\3465]\324\016\254z\016\237\206\200\225\t\241\314Y`\203t\211\022W\031\322F\250\340\272K\311?p8\244\321+\327\254\237\206X\322\230\351\317\335'F\243\006c{\006\314#Tw\203\377\221B\325\261\027L\310;\032\b\277,)Ud\177\266\223J\236\035_\272\312 \312\356wsj=\037\344\234\356\202r{\264~T>\365*\210b\206\223\216C\252#O\232a\236\351\215\2625*\373g8\262\324\224\354\342\000\372\005d1\037\303\364\371\201\306\336\004\335\323\215@\274\203\336~\363\3718<\021<\213E\324H\261P\253$\226^p8G\213\025\013\256W\t\233\335$\326\255;v\214\006\031\356\332\215\331\326\345\200\n\327\245L\345\311\027\244\317\324\250\370\207L\037!\315L\317\237^\274\035\215\003\n\323\366\251\037gi\000 \303Gv+ep\204\314\207t\324s\340A\000\364\331\354);?\306\322\337\324\310\204\220XR\000q\020h\364\t\317w\307\027\n\373\245\264\356f@\215\024\202q\314\302U\271\235\314y\3170U@H\330L\361\306\277\231\325\223\342\037\254\201|jPZ\016\240\255\270/\000\3138\333'\027\242\034\205\344\360\021\b\331\246;\300\375\006\322\361\234\312c\246\035m\026J\217\220J0\275\210F.D\375\376\2072\004N\216Y\232.>v\025\354\234J\236\375)?\205\341\361\357@\272\315\323\032'D\335\305|\364\216\346Y\356+\321(\301\210\3410\225T\367\316X\0310\370t\273\202\271x\365\214>\335\224\232\001\257\037<6Rj\343\347\32620\216\024:\301\301\232'\313\303\346D\334\241\214?\274\261\231\210\361\271\300\370^:\020\253)\345\267\247\025\017`\365\226\347\360\266\366H\324\025t\336\245\021\333\022\270\262\274!\255d4[I\033\021V\017\326\221\027f\337\3534\354\276\000\331\r\261\312\225\311%\273\316\237k\223B\247\356@OQ]=\373;\357i\302\207F\270\022Q*\021\243\245\264\f\372\nk\004\263)X\346\253r\272\352\205\347\360G\334\346\302\342\017\032\367\217V\017ieg!\355Y\223\240s\333\223\340\364\263,S\303>\301ih0\270\210P\322\270\030\362\340\373\023:\307\030BA\036sUr\203sO\227\214\372\230\b\371\236\222\321\345\317\352NdP#\275\2579\277J\267F\367E\337\203\245b}$l\254\333\203\267\2162\214\272\213kr\247]\316\226\303K\211de2?/\251n\006O\021\365\201|\264\236\253\275\376\376\016{S\n\310\242Ur\242\233a\206\3266__\351,t\006\275\205u\207E\001\375\023\206\0047\267#8\021H,\347R\351\226A\374\230\247\305\004\245,\206\025Z\367\240\247\243\374Q;\177\321\373\"\347\333sM\230\232\304H\346=\023\205\357\202\272\353\340\322\320`>\301\365\332_\rXf\253\243\250&\231\007\005\371\2151\263\321\267\020\356?\226\314Rp\177IFw\361\375\037\306\345\224\351\317\273\3773\246\357\355\213\352\266\376\323\233\017\375\361a\325\237\300\217k\351.\245d\376\310\202S|n\272\312\307\260s\306\243z\316\375={ch\033\ni\275\371N\b\\\246\f\241\276\006->!Q\246a\026\234b\n\363\317OInH\270\215i\345\017\372\033\303\372\314\357\303\243\333\211Z&\361\303\336\223\370\342\363\034\340uZF)\226\370\267v:k\\\333m\230#X\023\361\227\263\273\366e\024\t\2063R\211\276,.X\355}\240jt\177Y\213g\300\246+\356\334\034W\264N\244\302\250\357\027\267@8H\333\224\023\344labM\363\222\353\335\344PF\032\022\272\027\035\310\371\272 \260wf\025\036\345\327\240\226\350.\022\035\334t\024\316\n`\3152\357\206$^\221\272V$\023\222\231\201\r\270\200\377\252\250\255\265\265il\355\227\366\377\341\020\346`\277\325\022\031#\343\301c\364\036\372?\215\312\217\234\227\305\253\357\365\215\262|\261\246\370\2170\275\263\203\375\266\226ks\261\336\333]\320\366\263|\254\240\344\274d|F\320\335k\251:Bz\360\315k\344\016\366\276\r,\242\212\306S\311\322\230l\301\206\235\222\263.\021\267J\255\267\250{\007\277\307q\350Dw`z\325d\235\330rI\255d\327\034G\021\213J|l\005_b\207\317\233\330=\r\344\230\325-]\233\307\306\366:\251\303\302N\215\020\035\377Jy4\202yx\264\211\323\2729QX*r\337\316\313`\361K\313\0206\204(\210e\356\264N\227\302\376\270\355\036\376\224C\2452\352\376)b\"=s>'\251\246=z\224\316_R?Z}5\006\b\207\270)\210f\314\034\201\367&\317\260\334\302\007\312\250&4*\200\377c\241\265\360\002\335\223\263\211\374R0\3014`\377\274\311\342\254C\324x \254\273g|\361A8?,\374\rL\252\204K\224K\325\300\3556)\203\247\233\235\021\337\324e^y\236\n1\251\204\363c\221\002\305\325\026J\377\265\027FM}\323e\360\2745C\366EN\216\277\321\316KP.\244?\026\226\001\352\231\326\341q/\206\302^\3449\215\317\233\373\201d\300LZN\273'sv]\210p\303\202z\242}\360o\370\020\325\370\007j:U&\272\221\214\205N\226\2136U\n\367\211\004\211\352\257(\266\357&\342\273.\204\352\314t\254E+\345\333\262\243\253\260\332\352\235\222\022\000\311\213\013;o\311OFk\256\310\222D7\027@\273n\316\t\313\273\343\027\006\332z\267\025\005\035\020j\nB\314\275\252\334\235\207\220Y\345-#\022J\202F\251\237\266\352\251\302T\372W\217\371\253\226\334\"\230\223GdeT\363\351\370-\263\367V\274\223+~xY\275~)p$w\371\337Z\266U<\333N\353W6\357\031\306v\352\373\213\361#k\013\222\"\346\355\003k\240w\024\345\372\256\355\354E\2166\253_\351\304\205\210\225Y\236\271\332\024\264\353\030\002\313\333\021\233Su\375\367\002\264\210\031\241&\237\302\275R\326\201\250\322\374\265\003\341\252_I\360F3m\347K\242R\007|\243D\231\325\333-V\f@\244po\245\223\204-\346\312\177\205R\271k\017P\315L\313\216\270\345\270\237\275\337\246\247\247F\023\244\000 ~\262&\037\247\007\255\227\320\310(\f\214f\000\324\216/xs\310$\314^\202\3722\017/\200\000\211r;V\220\372-\177\366\242\271\377\322:\240@+O\312k4y\371\036\264\313\250\277\207I\310\020\366\342\274\206\201\327\267&\241\376\311\327\364-}\312\331\r6\364\260\3462\270$\237\273\rry\034=P\221C1]\240?\346\355\306*\221\316\227cL\244u\224}t\210\317_\251\370\272\032\341>\276\257\206\311|\316H\265\341\333i\233ha\231\316\255[\350\373\033\002\233\"\332RD\302\303\271?B\231r\342\372\242\302A\253\220g\325\362\032\324g\311\237\207\315\334\245\031\tk\272`\305\227 \311\301\273\207\351\000T\017`\313\005\351\270\266\275h;\262\252\351#\001)\0238>G#g$\355!e\257\nr\266\240\371\013\343\206\fv\3006\224i>[\215\016\344\b\370\316\233\250\217\223pD\271\004\016\2620\022\035\013\266\302\302\222s\270\214\225\347\302Ho^+\362\306\261\271\271;H\363w\275\220\363\032\0136\266\2568\036(\250J\032\360\325\354\264\260\341\215\303c\332\306%2R\335 l\013(\342\016\2558Z~H\234W_S\212\224#\007Y\215Q\330\306\360\235Z\203-7\350\254y\354H\257\260e\216\370lE1\344\370D\"\030\230'\033\333\334\377X\033d\313\236\216\033k\025\017\277\370\360\b\212?/\"=~Fr\342\305\332\322\3566-\213\254\017\273j\314\035\330\016[w\221\207\252\204\370\255\327\351\264\302\237\022G\351\230\352\272\224\352R\273\314\206$b\263G\327\230#?\245\3519\245'\352\177\250\255:\240\031\r\177\354\216\016d\210\216\261\344\237\322\254$\0040h\317S\031\211>\025\371\356\356\243\203\327-\005<B\303\250_+\216Z\267\252\352\214\244My\006\313\022\364\2227\26611eU%\260\315\320\013\344\276\213\330\273\342\021\277>_U\027\216\200\304\016\235\256\256\316j[\326n\016\267*\235\261\240uRDZZ\202E\362\213\n\322du\004\336\310\022g\325\360\360\342\326\356.\215\006\276\222\205\025\373k`\205\226\326MFU=\030\304\266{s\355\234\206\270&<L\341\227\252L\036u\244Z\320(\304\250f0K\237\331=\325\337e\222Mq\0043\365)@\376\216\003\250F\345\253\177{\320\306\342?\2313\320\275r\004R\230\336\226_\232\204x\333\217\277@Dm\217\205f>\226|\367\300\245V\322s\357\250J\244y\023\000\347\335\255\232\230'vc\250\225R]\rX\030\300`UY\301~\261S|\022\273\246\264\020n\036\360\270\252\257q\336\235h\033\327\351\350p\312\004\023\226\263\312\r\007\253b!q&\222\"\r\375\305\227{`=\321\310U\273i\r\260\266jP|\267}\232\270\214\005;+*\304\020\\\344B\262\255\222\216`\363w\343\004[\232z\212\271\216\323\036Y7\2628\360U\034\306\361@\031\355g\262\210f/\305\336Flk\2437.\221_\350\001\337\025\240=;K\254##\306\342\274\272;1a\213\032\b\r\n^\227\354\253w\033l\251\212}9\256!J\220\2145\275\347\226U\"\307S\355\334\307\331T.\332wA\326P~uu\\T\024\352\034\210\351\271\320\325\321\013\345\335\322\222si\231$$\252d\350DK\306N^\225\207w\320\303\277-\255\324>\021\013\357;\361Z\275\264Jb\332\227<\354\204\216\325\315\352\212\255\261\354a\335\372\320\275K'\246\362J\201\245\355\030\336g\272\2249E\255\036\261\317\327\316p\207\224\317\352\200\364\374CK,\263\316\201\215\002M\251y\203%\2411\374\024^\367_B\2420C\240\023X\344n\t>;\2325\365\367\322\312\374S\210\030n\235\312\213\r\312\000\203\362\265\207\375}4U\317d\242^wH~\340\221\267\321t\236\235\201*\003\376J6\225\332\235Xv%\006\022\306\004\"\365\203\275\335\203:Q\305\356\323\256\207\226\367B5yr\226j\222\304R;uD\315\024\276\232\223\202\027\017<\005\267u'\212\222\225\000\232m\3018c\335\022\213\306$S\261,\367\272\200\000\311\361\003^\312\353\026\374\366\323\356{\332tP\240\035\227\204\365\274\246\034\273\364\210\352\032\021\222d\b\345\274\3452l\320\343\3511+\245a\225\266}J\036\354\317\237Cb.2\377:\007]\035\222\216\356\222\223\302\207\324\372\271\376\276\tI\264\24462\252w\270\263\251\211yh\276.L[\341M\304\276\224\225\346\020\n\366K\0017\235\017\331\254\260:\367|\035\220\224\214\363\236\301\204\204S\017\330\\\t5\334$\264\271o\260\006\362\245e(\023\016\264KB\023.\341\323E.D\267\207?\371\313\210Po\t\314\274\214H\3279\025\245i\217\367\376\252$\313\013\377\353\257\033M\210Z\016Ds\265\276\325\355\275\316\376\346\33300\225\370\210\nh1\227\245\2646A_p\211=|\2726+\r\302\375\374\316a\204\021w\314\253L\033i\004v\2202=\274Bz\345\325\224\277\326\017\261\301\302I\232?\246\265il\257\005\2757\206S\035r3\334\200\317\017#\204G\033G\254\305\247\250\244N@\023a\303\323+e\031\342X\027\267\321\351&1\b\254\034Zd;\337O\215\227n\022\203\243p=\n\327\243p=\n\327\243p=\n\327\243\314\314\314\314\314\314\314\314\314\314\314\314\314\314\314\314\000\000\000\000\000\000\000\000\000\000\000\000\000\000\000\200\000\000\000\000\000\000\000\000\000\000\000\000\000\000\000\240\000\000\000\000\000\000\000\000\000\000\000\000\000\000\000\310\000\000\000\000\000\000\000\000\000\000\000\000\000\000\000\372\000\000\000\000\000\000\000\000\000\000\000\000\000\000@\234\000\000\000\000\000\000\000\000\000\000\000\000\000\000P\303\000\000\000\000\000\000\000\000\000\000\000\000\000\000$\364\000\000\000\000\000\000\000\000\000\000\000\000\000\200\226\230\000\000\000\000\000\000\000\000\000\000\000\000\000 \274\276\000\000\000\000\000\000\000\000\000\000\000\000\000(k\356\000\000\000\000\000\000\000\000\000\000\000\000\000\371\002\225\000\000\000\000\000\000\000\000\000\000\000\000@\267C\272\000\000\000\000\000\000\000\000\000\000\000\000\020\245\324\350\000\000\000\000\000\000\000\000\000\000\000\000*\347\204\221\000\000\000\000\000\000\000\000\000\000\000\200\364 \346\265\000\000\000\000\000\000\000\000\000\000\000\2401\251_\343\000\000\000\000\000\000\000\000\000\000\000\004\277\311\033\216\000\000\000\000\000\000\000\000\000\000\000\305.\274\242\261\000\000\000\000\000\000\000\000\000\000@v:k\013\336\000\000\000\000\000\000\000\000\000\000\350\211\004#\307\212\000\000\000\000\000\000\000\000\000\000b\254\305\353x\255\000\000\000\000\000\000\000\000\000\200z\027\267&\327\330\000\000\000\000\000\000\000\000\000\220\254n2x\206\207\000\000\000\000\000\000\000\000\000\264W\n?\026h\251\000\000\000\000\000\000\000\000\000\241\355\314\316\033\302\323\000\000\000\000\000\000\000\000\240\204\024@aQY\204\000\000\000\000\000\000\000\000\310\245\031\220\271\245o\245\000\000\000\000\000\000\000\000:\017 \364'\217\313\316\000\000\000\000\000\000\000@\204\t\224\370x9?\201\000\000\000\000\000\000\000P\345\013\2716\327\007\217\241\000\000\000\000\000\000\000\244\336Ng\004\315\311\362\311\000\000\000\000\000\000\000M\226\"\201E@|o\374\000\000\000\000\000\000 \360\235\265p+\250\255\305\235\000\000\000\000\000\000(l\005\343L6\022\0317\305\000\000\000\000\000\0002\307\306\033\340\303V\337\204\366\000\000\000\000\000@\177<\\\021l:\226\013\023\232\000\000\000\000\000\020\237K\263\025\007\311{\316\227\300\000\000\000\000\000\324\206\036 \333H\273\032\302\275\360\000\000\000\000\200D\024\023\364\210\r\265P\231v\226\000\000\000\000\240U\331\0271\353P\342\244?\024\274\000\000\000\000\b\253\317]\375%\345\032\216O\031\353\000\000\000\000\345\312\241Z\2767\317\320\270\321\357\222\000\000\000@\236=J\361\255\005\003\005'\306\253\267\000\000\000\320\005\315\234m\031\307C\306\260\267\226\345\000\000\000\242#\000\202\344o\\\352{\3162~\217\000\000\200\212,\200\242\335\213\363\344\032\202\277]\263\000\000 \2557 \013\325n0\236\241b/5\340\000\0004\314\"\364&EE\336\002\245\235=!\214\000\000A\177+\261p\226\326\225C\016\005\215)\257\000@\021_v\335\f<L{\324QF\360\363\332\000\310j\373i\n\210\245\017\315$\363+v\330\210\000zEz\004\r\352\216S\000\356\357\266\223\016\253\200\330\326\230E\220\244rh\200\351\253\2448\322\325PG\206\177+\332\246GA\360q\353fc\243\205$\331g_\266\220\220\231QlN\246@<\f\247m\317A\367\343\264\364\377e\007\342\317PK\317\320\244!\211z\016\361\370\277\237D\355\201\022\217\201\202\rj+\031R-\367\257\307\225h\"\327\362!\243\220Dv\237\246\370\364\2339\273\002\353\214o\352\313\264\325SG\3206\362\002\bj\303%p\013\345\376\220e\224,Bb\327\001E\"\232\027&'O\237\365~\271\267\322:MB\326\252\200\235\357\360\"\307\262\336\247e\207\211\340\322\213\325\340\204+\255\353\370/\353\210\237\364U\314cw\205\f3;L\223\233\373%k\307qk\277<\325\246\317\377I\037x\302z\357E9NF\357\213\212\220\303\177\034'\026\363\254\265\313\343\360\213u\227V:\332\317q\330\355\227\027\243\276\034\355\356R=\354\310\320C\216N\351\275\335K\356c\250\252\247L'\373\304\3241\242c\355j\357t>\251\312\350\217\370\034\373$_E^\224D+\022\216S\375\342\2636\3449\356\266\326u\271\026\266\226q\250\274\333`D]\310\251dL\323\347\3151\376F\351U\211\274J:\035\352\276\017\344\220A\276\275\230c\253\253k\335\210\244\244\256\023\035\265\321-\355~<\226\226\306\024\253\315M\232Xd\342\242<T\317\345\035\036\374\354\212\240p`\267~\215\313K)C_\245%;\250\255\310\2148e\336\260\276\236\363\023\267\016\357I\022\331\372\257\206\376\025\3357Cxl2i5n\253\307\374-\024\277-\212\004T\226\007\177\303\302I\226\371{9\331.\271\254\006\351{\311^t3\334\373\367\332\207\217z\347\327\243q\355=\273(\240i\375\332\350\264\231\254\360\206\f\316h\r\3522\b\304\274\021#\"\300\327\254\250\220\001\303\220\244?\n\365+\326\253*\260\r\330\322\372\340y\332\306g&y\333e\253\032\216\b\307\2038Y\030\221\270\001pWR?V\241\261\312\270\244\206o^\265&\002L\355&\317\253\t^\375\346\315\264\005[1X\201OTxa\013\306Z^\260\200!\307\261=\256aci\3269\216w\361u\334\240\3518\036\315\031:\274\003L\310q\325m\223\023\311#\307e@\240H\253\004_:\316JIxX\373v\234?(d\r\353b{\344\300\316-K\027\235\224\203O2\275\320\245;\232\035qB\371\035]\304yd\343~\354D\217\312\000e\r\223wet\365\313\036N\317\023\213\231~ _\350\273j\277h\231~\246!\303\330\355?\236\350v\342jE\357\302\277\036\020\352\363N\351\317\305\242\024\233\305\026\253\263\357\022JrX\321\361\241\273\345\354\200;\356J\320\225\227\334\216\256En\212*\037(a\312\251]D\273\275\2232\032\327\t-\365&r\371<\024u\025\352V\234_p&&<YX\347\033\246,iM\222l\203w\f\260/\213o.\341\242\317w\303\340\266Gd\225\017\234\373m\013z\231\213\303U\364\230\344\254^\275\211A\275$G\354?7\232\265\230\337\216W\266,\354\221\354\355X\347\017\305\000\343~\227\262\355\3437g\266g)/\341S\366\300\233^=\337t\356\202\000\322\340y\275l\364\231X![\206\213\021\252\243\200\006Y\330\354\207q\300\256\351\361g\256\225\224\314 Ho\016\350\351\215p\032d\356\001\332\335\334\177\024\215\005\t1\262X\206\220\3764A\210\025\324\237Y\360FK\275\336\356\2474>\202Q\252\032\311\007p\254\030\236l\226\352\321\301\315\342\345\324\260\335\004\306k\317\342\003\2362#\231\300\255\017\205\034\025\206\267F\203\333\204E\377k\2770\231S\246c\232ge\030d\022\346\026\377F\357|\177\350\317~\300`?\217~\313On_\214\025\256O\361\201\235\3608\0173^\276\343Iw\357\232\231\243m\242\305,\007\323\277\365\255\\\034U\253\001\200\f\t\313\366\367\310\307/s\331sc*\026\002\240O\313\375\372\232\335\334\375\347g(~\332M\001\304\021\237\236\270\001\025T\375\341\201\262\035Q\241\0015\326F\306&B\032\251|Z\"\037e\245\tB\302\213\330\367Xi\260\351\215xu3_\007FiYW\347\232\256\203\034d\261\326R\0007\211\227\303/-\241\301\232\244#\275]\214g\300\204k}\264{x\t\362\340F6\226\272\267@\3702c\316PM\353E\227\230\330\303;\251\345P\266\377\373\001\245 f\027\275\276\316\264\212\023\037\345\243\377zB\316\250?]\3547\001\2616l3o\306\337\214\351\200\311G\272\223\204A]DG\000\013\270\027\360#\341\273\331\250\270\345\221t\025Y\300\r\246\035\354l\331*\020\323\346/\333h\2557\230\310\207\222\023\344\307\032\352C\220\373\021\303\230E\276\272)w\030\335y\241\344T\264z\326\363\376\326m)\364\224^T\330\311\035j\341\ffX_\246\344\231\030\035\2734'\236R\342\214\217\177.\367\317]\300^\344\351\001\261E\347\032\260s\037\372\364Cupv]dB\035\027\241!\334\250S\034yJI\006j\272~Ir\256\004\225\211\222hc\027\235\333\207\004i\336\333\016\332E\372\253\266B<]\204\322\251E\003\326\222\222P\327\370\326\262\251E\272\222#\212\013\302\305\233[\222\206[\206\036\024\327hw\254l\2162\267\202\3626h\362\247&\331\fC\225\327\0072\377d#\257D\002\357\321\270\007\350I\275\346D\177\037\037v\355ja5\203\246\tb\234l \026_\347\246\323\250\305\271\002\244\017\214z\303\207\250\3336\241\220\b\0237h\003\315\211\227,\332TII\302dZ\345k\"!\"\200l\275\267\020\252\233\333\362\375\260\336\006k\251*\240\307\254\345\224\224\202\222o=]\226\310\305S5\310\371\027\037\2729#w\313\214\364\273:\267\250B\372\373nS\024\004v*\377\327x\265\204r\251i\234\272Jh\031\205\023\365\376\r\327\342%\317\023\204\303i]\302_fX\262~\321\214[\357\302\030e\364az\331\373?w/\357\0028\231\325y/\277\230\372\330\317\372\017U\373\252\003\206\377JX\373\356\2768\317\203\371S*\272\225\204g\277].\272\252\356\203a\362{tZ\224\335\262\240\227\372\\\264*\225\344\371\356\232\021q\371\224\337\210=9tau\272]\270\252\001V\3157z\027\353\214G\321\271\022\351:\263\n\301U\340b\254\356\022\270\314\"\264\253\221\t`M1k\230{W\252\027\346\177+\241\026\266\013\270\240\375\205~Z\355\224\235\337_vI\234\343\007s\204\276\023\217X\024}\302\353\373\351\255A\216\310\217%\256\330\262nY\034\263\346zd\031\322\261\273\363\256\331\216_\312o\343_\240\231\275\237F\336TX\rH\271{\336%\356;\004\200\326#\354\212j\256\020\232\247\032V\257\351J\005 \314,\247\255\004\332\224\200Q\241+\033\244\235\006(\377\367\020\331B\b]\360\322D\373\220\206\"\004y\377\232\252\207SJt\254\007\026:5(+EW\277A\225\251\350\\\221\227\211\233\210B\362u\026-/\222\372\323\021\332\272\3765a\225i\267\t.|]\233|\204\225\220i~\203\271\372C%\2149\3334\302\233\245\273\364\003^\344g\371\224.\357\007\022\302\262\002\317\365x\302\272\356\340\033\035}\365DK\271\257a\2012\027si*\331bd\3342\026\236\247\033\272\241\376\334\317\003u\217{}\223\277\233\205\221\242(\312>\324\303DRs\332\\x\257\002\3475\313\262\374\247d\372j\023\210\b:\253\255a\260\001\277\357\235\320\375\270E\030\252\212\b\026\031z\034\302\256k\305E='W\236T\255\212[\237\230\243r\232\306\366K\206x\366\342T\2546\231c?\246\207 <\232\335\247\026\264\033jW\204\177<\317\217\251(\313\300\325Q\034\241\242Dme\237\013\303\363\323\362\375\360%\263\261\244\345Jd\237C\347Yx\304\267\236\226\356\037\336\r\237]=\207\024ap\226\265eF\274\352\247U\321\006\265\f\251Yy\f\374\"\377W\353\362\210\325B$\361\247\t\330\313\207\335u\377\026\223/\353\212Sm\355\021\f\316\276\351TS\277\334\267\372\245m\250\310h\026\217\201.$*(\357\323\345\274\207Di}\001n\371\020\235V\032yu\244\217\254\251\225\303\334\201\3117UD\354`\327\222\215\263\027\024{\364S\342\273\205jU'9\215\367p\340\216\354\314xtm\225\223b\225\270C\270\232F\214\262'\000\227\321\310z8\273\272\246TfAX\257\2361\300\374\005{\231\006ji\320\351\277Q.\333\003\037\370\275\343\354\037D\342A\"\362\027\363\374\210\303&v\255\034\350'\325Z\322\252\356\335/<\253t\260\323\330#\342q\212\361\206Uj\325;\013\326IN\204gV-\207\366Vtube\005\307\205\333ae\001\254\370(\264l\321\022\273\276\3068\247R\272\276\001\32763\341\307\205\327in\370\006\321s4\027aF\002\300\354\234\263&\002E[\244\202\220\001]\371\327\002\360'\204`\260B\026rM\243\364A\264\367\215\003\3541\245x\\\323\233\316 \314qR\241uq\004g~\316\2263\310B\002)\377\206\323\204\351\306b\000\017A> \275i\241y\237h\b\346\243x{\300R\321Mh,\304\tX\307\202\212\337\314V\232p\247Ea\20275\f.\371\221\266\013@v`\246\210\313|\261B\241\307\274\2335\244\016\320\223\370\317j\376\333]\223\211\371\253\302CM\022\304\270\366\203\005\376R5\370\353\367V\363Jp\213z3zr\303\336S!{\363Z\026\230\\L.Y\300\030Ot\326\250\351Y\260\361\033\276s\337yo\360\336b\021\f\023dp\034\356\242\355\250+\254EV\313\335\212\347\213>\306\321\324\205\224\2226\027\327+>\225m\341.\3167\006J\247\2717\004\335\314\266\215\372\310\231\272\301\305\207\034\021\350\242\"\n@\222\230\234\035\240\024\231\333\324\261\n\221K\253\f\320\266\276\003%\310Y\177\022J^M\265\035\326\017\204d\256D.:0\037\227\334\265\240\342\322\345\211\322\376\354\352\\$~s\336\251q\244\215G_,\207>\250%t\255]\020V\024\216\r\261\031w\367(N\022/\321\030u\224k\231\361P\335o\252\232\331pk\275\202/\311<\343\377\226R\212\013U\001\020M\306lc{\373\013\334\277<\347\254N\252\001T\340\367G<Z\372\016\323\357\013!\330q\n\2014\354\372\254ex\\\351\343u\247\024\207\rM\241A\2479\030\177\226\263\343\\S\321\331\250P\240\t\022\021H\336\036|\240\0344\250E\020\3232\004F\253\n\355J\223M\344\221 \211+\352\203?\205\027VM\250\035\370`]\266hk\266\344\244\216f\235\253`\022%6\271\364\343B\006\344\035\316\031`Bk|+\327\301\363x\316\351\203\256\322\200\037\370\022\206[\366L\2620\027B\344$Z\007\241'\266\227g\3623\340\336\374\234R\035\2560I\311\261\243}\001\357@\230\026<D\247\244\331|\233\373N\206\356`\225(\037\216\245\212\350\006\b.A\235\342'*\271\272\362\246\361N\255\242\b\212y\221\304\333\261tgi\257\020\256\242X\313\212\354\327\265\365)\357\250\340\241m\312\254e\027\277\326\363\246\221\231\363*\323X\n\t\375\027?\335n\314\260\020\366\277\260\365\007\357LK\374\335\216\224\212\377\334\224\363\357\216\371d\025\020\257\275J\331\234\266\037\n=\370\225\3617\276\032\324\032m\235\017D\244\247LLv\273\355\305m!\211a\310\204\023U\215\321_\337S\352\264\233\344\264\365<\3752,U\370\342\233kt\222\241\302\035\"3\214\274?wj\266\333\202\206\021\267J3\245\352?\257\253\017\025\005\244\222#\350\325\344\016@\247\362\207M\313)-\203\246;\026\261\005\217\022\020Q\357\351 >t\370#\220\312[\035\307\262\026T%k$\251M\221\366,4\275\262\344x\337\216T\367\302\266\211\320\032\032\234@\266\357\216\253\213\261)\265s$\254\204\241 \303\320\243\253r\226\256\036t\242\220-\327\345\311\350\363\304\214V\017<\332\222\210ez|\246/~q\030\373\027\226\211e\210\267\352\376\230\033\220\273\335\215\336\371\235\373\353~\252e\245>\177\"t*U1Vx\205\372\246\036\325_'\207\217\225\210:\325\3365k\223\\(3\2057\361h\363\272*\211\212V\003F\270s\362\177\246\205-C\260iu+-,\204W\246\020\357\037\320s\374)\016b);\234\233\262\366gj\365\023\202\217{\264\221\272\363I\203B_\364\001\305\362\230\242s\232!6\251p\034$\023wqBv/?\313\020\001\252\203\323\214#\355\327\324\r\323S\373\016\376\252@J2\00486\364\006\245\350c\024]\311\236\325\320\334>\005\306C\261H\316\342|Y\264{\306\n\005\224\216\206\267\224\335\332\201\033\334o\241\032\370&\203\034\031\264\362|\312(1\221\351\345\244\020\233\360\243c\037a/\034\375r}\365c\037\316\324\301\354\214<g9;c\274\317\334\362<\247\001J\362\023\330\205\340\003\005\276\325\001\312\027\206\bAn\227\030N\247\330D\206-K\202\274\235\247J\321I\275\236!\321\016\326\347\370\335\242+\205Q\235E\234\354\003\265B\311\345\220\273\312E;\363R\202\253\341\223Cb\223;\037uj=\027\n\260\347b\026\332\270\324:x\ng\022\305\f\235\f\234\241\373\233\020\347\305$\213f\200+\373'\342\207\001E}aj\220\366\355-\200`\366\371\261\332\351A\226\334\371\204\264si9\240\370sx^Qd\322\273S8\246\341\350\341#d{H\013\333\262~cU4\343\007\215b\332,=\232\032\316\221_^\274j\001\334I\260\373\020x\314@\241Av\367uk\305\001S\\\334\235\n\313\177\310\004\351\251\272)c\033\341\263\271\211D\315\275\237\372EcT)\364;b\331 (\254\225@\255Gy\027|\2513\361\312\272\017)2\327]H\314\314\253\216\355I\300\326\276\324\251Y\177\206tZ\377\277V\362h\\p\214\356I\0240\037\250\0211\377o\354.\203s\214/j\\\031\374&\322\253~\377\305S\3751\310\267]\302\331\217]X\203U^\177\267\250|>\272%\3652\320\363t.\244\3535_\345\322\033\316(o\262?\3040\022:\315\263\201[\317c\321\200y\205\317\247z^KD\200\037b2\303\274\005\341\327f\303Q\0316^U\240\247\372\376\363+G\331\215@4\246\237\303\265j\310Q\271\376\360\366\230O\261P\301\217\2074c\205\372\3233\237V\232\277\321n\322\330\271\324\000^\223\234\310\000G\354\200/\206\n\007O\350\t\2015\270\303\372\300X'a\273'\315\310bbL\341B\246\364\234x\227\270\034\3258\200\275}\275\317\314\351\347\230\303V\275\346c\nG\340,\335\254\003@\344!\277t\254l\340\374\314X\030x\024\230\004P]\352\356\310\353C\f\036\2007\017\313\f\337\002RzR\225\272\346T\217%`\005\323\375\317\226\203\346\030\247\272i *\363.\270\306G\375\203|$ \337P\351AT\372W\0353\334L~\322\315\026t\213\322\221R\351\370\255\344?\023\340\035G\201\034Q.G\266\246#w\331\335\017\030X\345\230\241c\345\371\330\343Hv\352\247\352\t\017W\217\377D^/\234g\216\332\023\345Qe\314\322,s?\3265;\203\001\262\321X^\246~\177\007\370O\317K\003\n\344\201\336\202\367\372'\257\257\004\373\221a\017B\206.\021\213c\265\371\361\232\333\305y\3669\223\322'z\325\255\274\"x\256\201R7\030t\b8\307\261\330J\331\265\025\013\r\221\223\"\217H\005\203\034o\307\316\207\"\333MPu8\353\262\232\306\243\343Jy\302\251\353Qa\244\222\006\246_A\270\214\234\235\0273\3243\323\274\246\033\304\307\333(\363\327\201\302\356\237\204\000\bl\220\"\265\271\022\363\357M\"s\352\307\245\000\n\2074k\"h\327\357k\341\352\017\3459\317@f\324\000\203\025\241\346u\343\314\362)/\204\201\320\177\t\301\343ZI`S\034\200o\364:\345\241\304\337K\261\234\261[8h#`\213\261\211^\312\265\327\236\335\003\236rFB,8\356\035,\366\374\321F\203j\302\242\007l\251\033\343\264\222\333\031\236\205\030$\005s\213\t\307\223\342\033bwR\240\305"
	.size	.Ld973209b3923, 10688

	.type	.Ld9a5e6fa4e6b,@object
	.section	.rodata,"a",@progbits
.Ld9a5e6fa4e6b:
	.ascii	"|--"
	.size	.Ld9a5e6fa4e6b, 3

	.type	.Ldd8fd1fef8b0,@object
	.section	.rodata,"a",@progbits
.Ldd8fd1fef8b0:
	.ascii	"Writes a mime.cache from the text files of data directories"
	.size	.Ldd8fd1fef8b0, 59

	.type	.Ldd92765a6a9a,@object
	.section	.rodata,"a",@progbits
.Ldd92765a6a9a:
	.ascii	"XDG_DATA_HOME"
	.size	.Ldd92765a6a9a, 13

	.type	.Lde0243567b8f,@object
	.section	.rodata.cst4,"aM",@progbits,4
.Lde0243567b8f:
	.ascii	"base"
	.size	.Lde0243567b8f, 4

	.type	.Lde0ed5b30e30,@object
	.section	.rodata,"a",@progbits
.Lde0ed5b30e30:
	.ascii	"\n\n  tip: a similar value exists: '"
	.size	.Lde0ed5b30e30, 34

	.type	.Lde150d97cf6e,@object
	.section	.rodata,"a",@progbits
.Lde150d97cf6e:
	.ascii	" values required by '"
	.size	.Lde150d97cf6e, 21

	.type	.Le2d0fcf04739,@object
	.section	.rodata.cst4,"aM",@progbits,4
.Le2d0fcf04739:
	.ascii	"FILE"
	.size	.Le2d0fcf04739, 4

	.type	.Le3776d12c9ab,@object
	.section	.rodata.cst32,"aM",@progbits,32
.Le3776d12c9ab:
	.ascii	"Print help for the subcommand(s)"
	.size	.Le3776d12c9ab, 32

	.type	.Le39770976fb1,@object
	.section	.rodata,"a",@progbits
.Le39770976fb1:
	.ascii	"error: out of memory\n"
	.size	.Le39770976fb1, 21

	.type	.Le3bb24733db3,@object
	.section	.rodata,"a",@progbits
.Le3bb24733db3:
	.ascii	"bad number"
	.size	.Le3bb24733db3, 10

	.type	.Le47040ea339c,@object
	.section	.rodata.cst4,"aM",@progbits,4
.Le47040ea339c:
	.ascii	", --"
	.size	.Le47040ea339c, 4

	.type	.Le48613a08e5f,@object
	.section	.rodata,"a",@progbits
.Le48613a08e5f:
	.ascii	"': "
	.size	.Le48613a08e5f, 3

	.type	.Le50f104f86f8,@object
	.section	.rodata.cst16,"aM",@progbits,16
.Le50f104f86f8:
	.ascii	"Possible values:"
	.size	.Le50f104f86f8, 16

	.type	.Le52463dbde38,@object
	.section	.rodata,"a",@progbits
.Le52463dbde38:
	.ascii	"' as a value, use '-- "
	.size	.Le52463dbde38, 22

	.type	.Le6dda6977809,@object
	.section	.rodata,"a",@progbits
.Le6dda6977809:
	.ascii	"mimelook: no data directories\n"
	.size	.Le6dda6977809, 30

	.type	.Le77ae2271c7f,@object
	.section	.rodata,"a",@progbits
.Le77ae2271c7f:
	.ascii	"' cannot be used multiple times"
	.size	.Le77ae2271c7f, 31

	.type	.Le7fc7dfcc8a5,@object
	.section	.rodata,"a",@progbits
.Le7fc7dfcc8a5:
	.ascii	" nodes="
	.size	.Le7fc7dfcc8a5, 7

	.type	.Le82ebdfa5267,@object
	.section	.rodata,"a",@progbits
.Le82ebdfa5267:
	.ascii	"the following required arguments were not provided:"
	.size	.Le82ebdfa5267, 51

	.type	.Le8771719ab66,@object
	.section	.rodata.cst4,"aM",@progbits,4
.Le8771719ab66:
	.ascii	"NAME"
	.size	.Le8771719ab66, 4

	.type	.Le8bc6d23da8b,@object
	.section	.rodata,"a",@progbits
.Le8bc6d23da8b:
	.ascii	":\n"
	.size	.Le8bc6d23da8b, 2

	.type	.Le9a4351e97e0,@object
	.section	.rodata,"a",@progbits
.Le9a4351e97e0:
	.ascii	"no text files, such as "
	.size	.Le9a4351e97e0, 23

	.type	.Leb88b6dc7e6f,@object
	.section	.rodata,"a",@progbits
.Leb88b6dc7e6f:
	.ascii	"/.local/share"
	.size	.Leb88b6dc7e6f, 13

	.type	.Leb8ff08a20bd,@object
	.section	.rodata,"a",@progbits
.Leb8ff08a20bd:
	.ascii	"drop-twins"
	.size	.Leb8ff08a20bd, 10

	.type	.Lec2ba9672c9d,@object
	.section	.rodata,"a",@progbits
.Lec2ba9672c9d:
	.ascii	"give --cost without -0 and -b"
	.size	.Lec2ba9672c9d, 29

	.type	.Ledb79723a52c,@object
	.section	.rodata,"a",@progbits
.Ledb79723a52c:
	.ascii	"Prints how much a cache has of each list, if it is sound"
	.size	.Ledb79723a52c, 56

	.type	.Ledcfde804ed8,@object
	.section	.rodata,"a",@progbits
.Ledcfde804ed8:
	.ascii	"the first word is no command\n\n  tip: 'mimelook type FILE...' prints the types of files"
	.size	.Ledcfde804ed8, 86

	.type	.Lee247ddd7fed,@object
	.section	.rodata,"a",@progbits
.Lee247ddd7fed:
	.ascii	"mimelook plain [-d DIRS] [--name-only | --content-only]\n                      [--magic-first | --all-globs] [--inode] [-0] [-b]\n                      [--escape] {FILE... | --files0-from LIST | --stdin NAME}"
	.size	.Lee247ddd7fed, 206

	.type	.Lef1df2877dd3,@object
	.section	.rodata.cst4,"aM",@progbits,4
.Lef1df2877dd3:
	.ascii	" -- "
	.size	.Lef1df2877dd3, 4

	.type	.Lf104d05df27b,@object
	.section	.rodata.cst4,"aM",@progbits,4
.Lf104d05df27b:
	.ascii	"type"
	.size	.Lf104d05df27b, 4

	.type	.Lf1c38b9a8d70,@object
	.section	.rodata,"a",@progbits
.Lf1c38b9a8d70:
	.byte	58
	.size	.Lf1c38b9a8d70, 1

	.type	.Lf21f90705abb,@object
	.section	.rodata,"a",@progbits
.Lf21f90705abb:
	.ascii	"Go by the contents alone: no name is looked at; not\nwith --magic-first or --all-globs"
	.size	.Lf21f90705abb, 85

	.type	.Lf2c7ae87a724,@object
	.section	.rodata.cst8,"aM",@progbits,8
.Lf2c7ae87a724:
	.ascii	"bad word"
	.size	.Lf2c7ae87a724, 8

	.type	.Lf36a7e586395,@object
	.section	.rodata,"a",@progbits
.Lf36a7e586395:
	.ascii	"output"
	.size	.Lf36a7e586395, 6

	.type	.Lf5ac3b24db59,@object
	.section	.data.rel.ro,"aw",@progbits
	.p2align	3, 0x0
.Lf5ac3b24db59:
	.quad	.Lf5ac3b24db59+96
	.asciz	"\001\000\000\000\000\000\000"
	.quad	.Lf5ac3b24db59+97
	.asciz	"\002\000\000\000\000\000\000"
	.quad	.Lf5ac3b24db59+99
	.asciz	"\001\000\000\000\000\000\000"
	.quad	.Lf5ac3b24db59+100
	.asciz	"\005\000\000\000\000\000\000"
	.quad	.Lf5ac3b24db59+105
	.asciz	"\003\000\000\000\000\000\000"
	.quad	.Lf5ac3b24db59+108
	.asciz	"\001\000\000\000\000\000\000\000nnoffalseoff0\000\000"
	.size	.Lf5ac3b24db59, 112

	.type	.Lf6312c8630b2,@object
	.section	.rodata.cst4,"aM",@progbits,4
.Lf6312c8630b2:
	.ascii	"yes\n"
	.size	.Lf6312c8630b2, 4

	.type	.Lf633811c48da,@object
	.section	.rodata,"a",@progbits
.Lf633811c48da:
	.byte	123
	.size	.Lf633811c48da, 1

	.type	.Lf638752c7fdf,@object
	.section	.rodata,"a",@progbits
.Lf638752c7fdf:
	.ascii	"no database: generic icons"
	.size	.Lf638752c7fdf, 26

	.type	.Lf64a66e42f56,@object
	.section	.rodata,"a",@progbits
.Lf64a66e42f56:
	.ascii	"give a TYPE"
	.size	.Lf64a66e42f56, 11

	.type	.Lf70c8939a4a7,@object
	.section	.rodata,"a",@progbits
.Lf70c8939a4a7:
	.ascii	"bad indent"
	.size	.Lf70c8939a4a7, 10

	.type	.Lf75583cc875e,@object
	.section	.rodata,"a",@progbits
.Lf75583cc875e:
	.ascii	"The type that is asked about, such as text/html"
	.size	.Lf75583cc875e, 47

	.type	.Lf989c82a9506,@object
	.section	.rodata,"a",@progbits
.Lf989c82a9506:
	.byte	125
	.size	.Lf989c82a9506, 1

	.type	.Lfbf471e2654e,@object
	.section	.rodata,"a",@progbits
.Lfbf471e2654e:
	.ascii	"In FILE and TYPE, write the bytes below 32, 127 and\n\\ as \\ and three octal digits"
	.size	.Lfbf471e2654e, 81

	.type	.Lfc5be5b2afb6,@object
	.section	.rodata,"a",@progbits
.Lfc5be5b2afb6:
	.ascii	" a similar subcommand exists: "
	.size	.Lfc5be5b2afb6, 30

	.type	.Lfcdf8571ef04,@object
	.section	.rodata.cst4,"aM",@progbits,4
.Lfcdf8571ef04:
	.ascii	"file"
	.size	.Lfcdf8571ef04, 4

	.type	.Lfd004d2b9c93,@object
	.section	.rodata,"a",@progbits
.Lfd004d2b9c93:
	.ascii	">0__NOMAGIC__\n"
	.size	.Lfd004d2b9c93, 14

	.type	.Lfde4e117bca6,@object
	.section	.rodata,"a",@progbits
.Lfde4e117bca6:
	.ascii	"Leave out each rule without cs where one with cs has\nthe same weight, type and pattern"
	.size	.Lfde4e117bca6, 86

	.type	.Lfeb30b8b2119,@object
	.section	.rodata,"a",@progbits
.Lfeb30b8b2119:
	.ascii	"\n  [possible values: "
	.size	.Lfeb30b8b2119, 21

	.type	.Lff015fab1aa8,@object
	.section	.rodata.cst8,"aM",@progbits,8
.Lff015fab1aa8:
	.ascii	"'; only "
	.size	.Lff015fab1aa8, 8

	.type	.Lff74aa3ca5f0,@object
	.section	.rodata,"a",@progbits
.Lff74aa3ca5f0:
	.ascii	":cs"
	.size	.Lff74aa3ca5f0, 3

	.type	".Lswitch.table.clap::builder::command::building::build_levels",@object
	.section	.rodata,"a",@progbits
	.p2align	3, 0x0
".Lswitch.table.clap::builder::command::building::build_levels":
	.quad	0,0,2,2,5,0,0,0,0
	.size	".Lswitch.table.clap::builder::command::building::build_levels", 72

	.type	".Lswitch.table.clap::builder::command::building::build_levels.2665",@object
	.section	.rodata,"a",@progbits
	.p2align	3, 0x0
".Lswitch.table.clap::builder::command::building::build_levels.2665":
	.quad	0,0,0,0,255,0,0,0,0
	.size	".Lswitch.table.clap::builder::command::building::build_levels.2665", 72

	.type	".Lswitch.table.clap::parser::parse::Parser::check_value",@object
	.section	.rodata.cst32,"aM",@progbits,32
	.p2align	3, 0x0
".Lswitch.table.clap::parser::parse::Parser::check_value":
	.quad	38,29,38,38
	.size	".Lswitch.table.clap::parser::parse::Parser::check_value", 32

	.type	".Lswitch.table.clap::parser::parse::Parser::check_value.2666",@object
	.section	.data.rel.ro,"aw",@progbits
	.p2align	3, 0x0
".Lswitch.table.clap::parser::parse::Parser::check_value.2666":
	.quad	.Lc1b67e27bb9f
	.quad	.Laa68302af712
	.quad	.L6e2fce03fc0a
	.quad	.L2cc55e3b3d11
	.size	".Lswitch.table.clap::parser::parse::Parser::check_value.2666", 32

	.type	".Lswitch.table.mime_tool::desk::StreamsDesk::exists::<#6c31bac265adaac4>",@object
	.section	.rodata,"a",@progbits
".Lswitch.table.mime_tool::desk::StreamsDesk::exists::<#6c31bac265adaac4>":
	.asciz	"\000\000\000\000\000\000\000\000\000\000\000\000\000\000\000\000\000\000\000\000\000\000\000\000\000\000\000\000\000\000\000\000\000\000\000\000\000\000\001\000\000"
	.size	".Lswitch.table.mime_tool::desk::StreamsDesk::exists::<#6c31bac265adaac4>", 42

	.type	".Lswitch.table.mime_tool::desk::StreamsDesk::exists::<#6c31bac265adaac4>.2670",@object
	.section	.rodata,"a",@progbits
".Lswitch.table.mime_tool::desk::StreamsDesk::exists::<#6c31bac265adaac4>.2670":
	.ascii	"\000\001\001\001\001\001\001\001\001\001\001\001\001\001\001\001\001\001\001\001\001\001\001\001\001\001\001\001\001\001\001\001\001\001\001\001\001\001\000\001\001\001"
	.size	".Lswitch.table.mime_tool::desk::StreamsDesk::exists::<#6c31bac265adaac4>.2670", 42

	.type	".Lswitch.table.mime_tool::explain::explain_lists::<#2e1b2a3647f851f7>",@object
	.section	.rodata.cst32,"aM",@progbits,32
	.p2align	3, 0x0
".Lswitch.table.mime_tool::explain::explain_lists::<#2e1b2a3647f851f7>":
	.quad	10,13,10,13
	.size	".Lswitch.table.mime_tool::explain::explain_lists::<#2e1b2a3647f851f7>", 32

	.type	".Lswitch.table.mime_tool::explain::explain_lists::<#2e1b2a3647f851f7>.2673",@object
	.section	.data.rel.ro,"aw",@progbits
	.p2align	3, 0x0
".Lswitch.table.mime_tool::explain::explain_lists::<#2e1b2a3647f851f7>.2673":
	.quad	.L5830d5e096db
	.quad	.Lbf390fbfa02b
	.quad	.L6771e55d57d5
	.quad	.L1fd369fd7617
	.size	".Lswitch.table.mime_tool::explain::explain_lists::<#2e1b2a3647f851f7>.2673", 32

	.type	".Lswitch.table.mime_tool::line::print_line::<#2e1b2a3647f851f7>",@object
	.section	.rodata,"a",@progbits
	.p2align	3, 0x0
".Lswitch.table.mime_tool::line::print_line::<#2e1b2a3647f851f7>":
	.quad	10,16
	.zero	8
	.quad	15
	.zero	8
	.quad	17
	.size	".Lswitch.table.mime_tool::line::print_line::<#2e1b2a3647f851f7>", 48

	.type	".Lswitch.table.mime_tool::line::print_line::<#2e1b2a3647f851f7>.2672",@object
	.section	.data.rel.ro,"aw",@progbits
	.p2align	3, 0x0
".Lswitch.table.mime_tool::line::print_line::<#2e1b2a3647f851f7>.2672":
	.quad	.L1fba8e2a4222
	.quad	.L1f2087385df6
	.zero	8
	.quad	.L2e403fc0c1a9
	.zero	8
	.quad	.Lbf28a0ac4edc
	.size	".Lswitch.table.mime_tool::line::print_line::<#2e1b2a3647f851f7>.2672", 48

	.type	".Lswitch.table.mime_tool::program::answer::<#2d382ade8d012bfb>.2668",@object
	.section	.rodata,"a",@progbits
	.p2align	3, 0x0
".Lswitch.table.mime_tool::program::answer::<#2d382ade8d012bfb>.2668":
	.quad	19,20,23,21,21,18,18,18,26
	.size	".Lswitch.table.mime_tool::program::answer::<#2d382ade8d012bfb>.2668", 72

	.type	".Lswitch.table.mime_tool::program::answer::<#2d382ade8d012bfb>.2669",@object
	.section	.data.rel.ro,"aw",@progbits
	.p2align	3, 0x0
".Lswitch.table.mime_tool::program::answer::<#2d382ade8d012bfb>.2669":
	.quad	.L578e4c20615e
	.quad	.L62256f76d65b
	.quad	.Lb4d0460a73df
	.quad	.L6916822dd05f
	.quad	.L3f2a817f0bb3
	.quad	.L32cfbbe30233
	.quad	.L28bf7eaf625e
	.quad	.La3c42d80fcd3
	.quad	.Lf638752c7fdf
	.size	".Lswitch.table.mime_tool::program::answer::<#2d382ade8d012bfb>.2669", 72

	.type	".Lswitch.table.mime_tool::system::SystemFilesFiles::whole::<#a1ba6ce099ef6b20>.2671",@object
	.section	.rodata,"a",@progbits
".Lswitch.table.mime_tool::system::SystemFilesFiles::whole::<#a1ba6ce099ef6b20>.2671":
	.ascii	"\001\001\001\001\001\001\001\001\001\001\001\001\001\001\001\000\001\001\001\001\001\001\001\001\001\001\001\001\001\001\001\001\001\001\001\001\001\001\002\001\001\001"
	.size	".Lswitch.table.mime_tool::system::SystemFilesFiles::whole::<#a1ba6ce099ef6b20>.2671", 42
