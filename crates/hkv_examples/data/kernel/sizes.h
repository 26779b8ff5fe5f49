/* What comes in: nothing. What goes out: the sizes of the tables, and where they lie in memory. kernel.c, boot.c, the
 * programs in user/ and kernel.ld read this file. Each size may be set on the command line of the compiler. */

#ifndef SIZES_H
#define SIZES_H

#ifndef NPROC
#define NPROC 4 /* processes */
#endif
#ifndef NFD
#define NFD 4 /* descriptors of a process */
#endif
#ifndef NFILE
#define NFILE 3 /* open files */
#endif
#ifndef NPIPE
#define NPIPE 2 /* pipes */
#endif
#ifndef NPIPEWORD
#define NPIPEWORD 4 /* words that a pipe holds */
#endif
#ifndef NMIDDLE
#define NMIDDLE 4 /* page tables of the middle level */
#endif
#ifndef NLEAF
#define NLEAF 4 /* page tables of the lowest level */
#endif
#ifndef NFRAME
#define NFRAME 6 /* frames: pages of a process's own */
#endif
#ifndef ROOTE
#define ROOTE 2 /* entries of a root that are used; a table has 512 */
#endif
#ifndef MIDDLEE
#define MIDDLEE 2 /* entries of a middle table that are used */
#endif
#ifndef LEAFE
#define LEAFE 8 /* entries of a leaf that are used */
#endif
#ifndef NWORD
#define NWORD 512 /* words of a frame, of 8 bytes */
#endif
#ifndef NIMAGE
#define NIMAGE 3 /* pages of the user programs' text */
#endif
#ifndef NKERNEL
#define NKERNEL 1 /* pages of the kernel's tables that may be looked at */
#endif
#ifndef NVECTOR
#define NVECTOR 2 /* interrupt vectors */
#endif
#ifndef NSOURCE
#define NSOURCE 16 /* sources of the board's interrupt controller */
#endif
#define NDEVICE 2 /* device pages: the serial port, the clock */
#define NPORT 2   /* single registers of the board */

#define INIT (NPROC - 1) /* the process that runs at boot and never sleeps */

/* Physical addresses. The board's memory begins at 0x80000000. */
#define TEXT_AT 0x80000000
#define KERNEL_AT 0x80020000 /* the kernel's small tables */
#define IMAGE_AT 0x80040000  /* the text of the user programs */
#define ROOTS_AT 0x80100000
#define MIDDLES_AT (ROOTS_AT + NPROC * 4096)
#define LEAVES_AT (MIDDLES_AT + NMIDDLE * 4096)
#define FRAMES_AT (LEAVES_AT + NLEAF * 4096)
#define SERIAL_AT 0x10000000
#define CLOCK_AT 0x101000

/* Where user programs see their text: the last entry of a root, the last of a middle table, the first of a leaf. */
#define IMAGE_SEEN_AT 0x40200000

#endif
