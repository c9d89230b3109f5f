/* The loader's first instruction, and what stands in its memory: the maker's key, the image, and its signature. */
        .globl  _start, key, image, image_end, signature, signature_end

        .text
_start: xor     %ebp, %ebp
        and     $-16, %rsp
        call    loader

        .balign 16
image:  .incbin "image"
image_end:

        .section .rodata
key:    .incbin "key"
signature:
        .incbin "signature"
signature_end:

        .section .note.GNU-stack, "", @progbits
