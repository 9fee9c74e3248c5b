# Where a program over picolibc begins. It sets gp and tp, calls what is to be called before main, then main, and
# hands main's answer to exit. The stack pointer x2 was set before, by asc or by another emulator.

    .section .text.start
    .globl _start
_start:
    .option push
    .option norelax     # the linker would reach this address by way of gp
    la gp, __global_pointer$
    .option pop
    la tp, __tls_base   # the one thread's own variables, as errno
    call __libc_init_array
    call main
    call exit
