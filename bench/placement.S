/* Stands before the code of both engines and moves it PAD bytes past a multiple of 64. */
    .text
    .balign 64
    .globl placement
placement:
    .skip PAD
