/* The vectors first, at the start of flash; then the code. The firmware keeps all else on its stack. */
SECTIONS
{
    .text 0 : { *(.text.vectors) *(.text .text.*) }
    /DISCARD/ : { *(*) }
}
