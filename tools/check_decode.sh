#!/usr/bin/env bash
# Compares what rv_list says of words with what binutils' objdump says: all 48 instructions of RV32IM with several
# operands each, and some thousand words at random. Prints 'N words agree', or the first difference and exits with 1.
set -euo pipefail
cd "$(dirname "$0")/.."
tools=riscv64-unknown-elf
command -v $tools-objdump >/dev/null || tools=riscv64-linux-gnu
if ! command -v $tools-as >/dev/null || ! command -v $tools-objdump >/dev/null; then
    echo 'skipped: no binutils for RISC-V' && exit 0
fi
dir=$(mktemp -d)
trap 'rm -r "$dir"' EXIT

# Every instruction, with registers 0, 1 and 31, and with the least and the greatest numbers.
instructions() {
    local regs='x0 x1 x31' imms='-2048 -1 0 1 2047' op a b c
    for op in lui auipc; do for a in $regs; do for c in 0 1 0x80000 0xfffff; do echo "$op $a,$c"; done; done; done
    for a in $regs; do for c in -1048576 -2 +0 +8 +1048574; do echo "jal $a,.$c"; done; done
    for a in $regs; do for b in $regs; do
        for op in beq bne blt bge bltu bgeu; do for c in -4096 -2 +0 +8 +4094; do echo "$op $a,$b,.$c"; done; done
        for op in jalr lb lh lw lbu lhu sb sh sw; do for c in $imms; do echo "$op $a,$c($b)"; done; done
        for op in addi slti sltiu xori ori andi; do for c in $imms; do echo "$op $a,$b,$c"; done; done
        for op in slli srli srai; do for c in 0 1 31; do echo "$op $a,$b,$c"; done; done
        for op in add sub sll slt sltu xor srl sra or and mul mulh mulhsu mulhu div divu rem remu; do
            for c in $regs; do echo "$op $a,$b,$c"; done
        done
    done; done
    printf '%s\n' 'fence' 'fence r,w' 'fence i,o' 'fence.tso' 'ecall' 'ebreak'
}

# Words of 32-bit instructions at random (their low bits are 11, and not 11111), half of them with an opcode of RV32I.
random_words() {
    local opcodes=(3 15 19 23 35 51 55 99 103 111 115) i w
    RANDOM=7
    for ((i = 0; i < 6000; i++)); do
        w=$(((RANDOM << 17 ^ RANDOM << 10 ^ RANDOM) & 0xffffffff))
        if ((i % 2)); then w=$((w & ~127 | ${opcodes[RANDOM % 11]})); else w=$((w & ~28 | w % 7 << 2 | 3)); fi
        if ((i % 4 == 3)); then w=$((w & 0x43ffffff)); fi
        printf '.word 0x%08x\n' $w
    done
    # of SYSTEM and MISC-MEM: returns, waits, CSRs, calls with a register, FENCE.I
    printf '.word 0x%s\n' 30200073 10200073 00200073 7b200073 10500073 12000073 c0001073 30052573 000000f3 00108073 0000100f
}

# The words of an assembler text, and of each what rv_list is to say. Without symbols objdump takes all for code.
disassembled() {
    $tools-as -march=rv32im -mabi=ilp32 -mno-relax -o "$dir/words.o" -
    $tools-strip "$dir/words.o"
    $tools-objdump -d -M no-aliases,numeric "$dir/words.o" | while IFS=$'\t' read -r place word name operands; do
        [[ $place =~ ^\ *([0-9a-f]+):$ ]] || continue
        place=$((16#${BASH_REMATCH[1]})) word=${word%% *} operands=${operands%% *}
        local w=$((16#$word)) said="$name${operands:+ $operands}"
        case $name in
        # No instruction; or one that objdump knows with rv32im too: of the privileged levels, and a name for a CSR's write.
        .* | mret | sret | uret | dret | wfi | sfence.vm | sfence.vma | unimp) said=- ;;
        # Objdump takes shifts of 64 bits too.
        slli | srli | srai) ((16#${operands##*,0x} < 32)) || said=- ;;
        # A branch's and a jump's target, as an offset.
        b* | jal)
            local target=${operands##*,}
            said="$name ${operands%,*},$((((0x${target#0x} - place + (1 << 31)) & 0xffffffff) - (1 << 31)))" ;;
        esac
        # FENCE by its fields: the manual has all of them taken as fences, and objdump names some.
        if (((w & 0x707f) == 0x0f)); then said="fence x$((w >> 7 & 31)),x$((w >> 15 & 31)),$(((w >> 20 ^ 0x800) - 0x800))"; fi
        printf '%s\t%s\n' "$word" "$said"
    done
}

instructions | disassembled >"$dir/wanted"
names=$(cut -f2 "$dir/wanted" | cut -d' ' -f1 | sort -u | grep -vc '^-')
random_words | disassembled >>"$dir/wanted"
# Words of other lengths, by their low bits.
for low in 0 1 2 31; do printf '%08x\t-\n' $((0x00a58500 + low)) $((0x40c5d500 + low)); done >>"$dir/wanted"
[[ $names == 48 ]] || { echo "the assembler text has $names instructions"; exit 1; }
(cd crates/rv_list && rt run </dev/null >"$dir/log" 2>&1) || { cat "$dir/log"; exit 2; }
cut -f1 "$dir/wanted" | crates/rv_list/out/rv_list >"$dir/said"
paste "$dir/wanted" "$dir/said" | awk -F'\t' '$2 != $3 { print "word " $1 ": objdump has \"" $2 "\", rv_list \"" $3 "\""; bad = 1; exit }
    END { if (!bad) print NR " words agree"; exit bad }'
