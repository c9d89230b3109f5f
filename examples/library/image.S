/* An image: code that can stand at any address. It says who it is, and goes back to the loader. */
        .text
        mov     $1, %eax
        mov     $1, %edi
        lea     text(%rip), %rsi
        mov     $text_end - text, %edx
        syscall
        ret
text:   .ascii  "image: version 1 runs\n"
text_end:

        .section .note.GNU-stack, "", @progbits
