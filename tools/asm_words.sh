#!/bin/sh
# The words of an assembly text by GNU binutils (as -march=rv32im), one a line in hexadecimal: makes the expected output of
# asm_list anew. Usage, at the top of the repository: tools/asm_words.sh < crates/asm_list/stdin > crates/asm_list/stdout
# Three forms are written for as otherwise: the line of the ports is left out, a target that is a number is the place of the
# instruction and that number, and fence with registers and a number is an .insn.
set -e
tool=riscv64-unknown-elf
dir=$(mktemp -d)
trap 'rm -rf "$dir"' EXIT
{
    echo '.option norelax'
    echo '.globl _start'
    echo '_start:'
    sed -e 's/#.*//' -e '/^[ \t]*ports[ \t]/d' \
        -e 's/^\([ \t]*\(jal\|beq\|bne\|blt\|bge\|bltu\|bgeu\)[ \t].*,\)[ \t]*\(-\{0,1\}[0-9][0-9a-fA-Fx]*\)[ \t]*$/\1 . + (\3)/' \
        -e 's/^[ \t]*fence[ \t][ \t]*/.insn i 0x0f, 0, /'
} > "$dir/text.s"
"$tool-as" -march=rv32im -mabi=ilp32 -o "$dir/text.o" "$dir/text.s"
"$tool-ld" -m elf32lriscv -Ttext=0x200000 -o "$dir/text.elf" "$dir/text.o"
"$tool-objcopy" -O binary -j .text "$dir/text.elf" "$dir/text.bin"
od -An -v -w4 -tx4 "$dir/text.bin" | sed 's/^ 0*//'
