# A static program: it calls a routine by JSB and a procedure by CALLS, puts out the byte that they leave in R0, and exits.
        .text
        .globl  _start
        .type   _start, @function
_start: jsb     routine
        pushl   %r0
        calls   $1, procedure
        chmk    $2
        chmk    $1

        .type   routine, @function
routine:
        movzbl  five, %r0
        rsb

        .type   procedure, @function
procedure:
        .word   0
        movl    4(%ap), counter
        movl    counter, %r0
        ret

        .section .rodata
text:   .asciz  "VAX"

        .data
five:   .byte   5

        .bss
        .balign 4
counter:
        .space  4
