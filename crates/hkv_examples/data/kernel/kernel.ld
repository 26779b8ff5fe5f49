/* Where the parts of the image lie: the addresses of sizes.h, which clang puts in for the names. */
#include "sizes.h"

ENTRY(_start)

PHDRS { text PT_LOAD; boot PT_LOAD; kernel PT_LOAD; roots PT_LOAD; middles PT_LOAD; leaves PT_LOAD; frames PT_LOAD; image PT_LOAD; }

SECTIONS {
    .text TEXT_AT : { start.o(.text.start) *.o(EXCLUDE_FILE(*programs.o) .text EXCLUDE_FILE(*programs.o) .text.*) } :text
    .rodata : { boot.o(.rodata*) kernel.o(.rodata*) } :text
    .boot : { boot.o(.data* .bss*) start.o(.bss*) } :boot
    .kernel KERNEL_AT : { kernel.o(.data .bss) } :kernel
    .roots ROOTS_AT : { kernel.o(.roots) } :roots
    .middles MIDDLES_AT : { kernel.o(.middles) } :middles
    .leaves LEAVES_AT : { kernel.o(.leaves) } :leaves
    .frames FRAMES_AT : { kernel.o(.bss.frames) } :frames
    .image IMAGE_SEEN_AT : AT(IMAGE_AT) { programs.o(.text.first) programs.o(.text .text.* .rodata .rodata.*) } :image
    .symtab : { *(.symtab) }
    .shstrtab : { *(.shstrtab) }
    .strtab : { *(.strtab) }
    /DISCARD/ : { *(.comment .note* .eh_frame .riscv.attributes .debug* .llvm_addrsig) }
}

ASSERT(SIZEOF(.kernel) <= NKERNEL * 4096, "the kernel's tables have more pages than NKERNEL")
ASSERT(SIZEOF(.image) <= NIMAGE * 4096, "the programs have more pages than NIMAGE")
ASSERT(ADDR(.boot) + SIZEOF(.boot) <= KERNEL_AT, "the kernel's text is too large")
ASSERT(SIZEOF(.kernel) > 0 && SIZEOF(.image) > 0, "a part is missing")
