# Where a C program begins. It calls main, and ends with main's answer as its exit status. The stack pointer
# x2 was set before, by asc or by another emulator.

    .section .text.start
    .globl _start
_start:
    call main
    li a7, 93           # exit
    ecall
