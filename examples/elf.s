# Puts out a text by a procedure that CALLS calls, and exits with the number of its bytes.
        .text
        .globl  _start
_start: pushal  text
        calls   $1, put_text
        movl    count, %r0
        chmk    $1

        .type   put_text, @function
put_text:
        .word   0x4                     # it saves R2
        movl    4(%ap), %r2
next:   movzbl  (%r2)+, %r0
        beql    done
        chmk    $2
        incl    count
        brb     next
done:   ret

        .section .rodata
text:   .asciz  "assembled and linked\n"

        .bss
        .balign 4
count:
        .space  4
