/* The calls as functions for user programs: the number in a7, arguments and result where a function has them; call_NAME is that of the handler NAME. */

#include "../calls.h"

    .section .text.first, "ax"
first:
    j main

    .text
    .set number, 0
    .macro make name
    .globl call_\name
call_\name:
    li a7, number
    ecall
    ret
    .set number, number + 1
    .endm
#define MAKE(name) make name;
CALLS(MAKE)
