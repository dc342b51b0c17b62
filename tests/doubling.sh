#!/usr/bin/env bash
# Holds that the archive doubles a block by the same instructions for every block.
#
#     tests/doubling.sh INSTRUCTIONS
#
# INSTRUCTIONS is what `objdump -d --no-show-raw-insn librasppuce.a` prints. The compiler puts
# `modes::double` into the functions that call it, where the constant 135 shows it. Straight code is
# a run of instructions that no jump, call or return leaves and no jump enters. The one around the
# constant has to hold the doubling whole, with the highest bits of all sixteen bytes moved, each by
# a shift of 7 or 31 places or eight by one shift of words; in `inputs::double_shares` it holds three.
# Its function may have no instruction that looks at a flag, but for four jumps of `ctrmac::mac`, each
# by the text's length.
set -euo pipefail

awk -v doubling='ctrmac::first_subkey=0 ctrmac::mac=4 inputs::double_shares=0' '
    # Looks at straight code, from instruction `first` to `last`, if it has the constant.
    function look(first, last,    k, here, moved) {
        for (k = first; k <= last; k++) {
            if (does[k] ~ /\$0xf*87,/) here++
            if (does[k] ~ /^(shr|sar) +\$0x(7|1f),/) moved++
            if (does[k] ~ /^psrlw +\$0x7,/) moved += 8
        }
        if (!here) return
        printf "%s: %d instructions in a row, %d highest bits moved\n", of[first], last - first + 1, moved
        places[of[first]]++
        whole[of[first]] += moved >= 16 * here
    }
    function fault(words) {
        print "FAILED " words
        failed++
    }
    /^[0-9a-f]+ <.*>:$/ { name = substr($2, 2, length($2) - 3) }
    /^ +[0-9a-f]+:\t/ {
        of[++count] = name
        at[count] = substr($1, 1, length($1) - 1)
        does[count] = substr($0, index($0, "\t") + 1)
        if (does[count] ~ /^j/) entered[name, $3] = 1
        if (does[count] ~ /^(j[^m]|cmov|set|adc|sbb|rcl|rcr)/) flags[name]++
    }
    END {
        first = 1
        for (k = 2; k <= count + 1; k++)
            if (of[k] != of[k - 1] || (of[k], at[k]) in entered || does[k - 1] ~ /^(j|call|ret)/) {
                look(first, k - 1)
                first = k
            }
        for (k = split(doubling, listed, " "); k > 0; k--) {
            split(listed[k], part, "=")
            name = part[1]
            if (places[name] == 1 && whole[name] == 1 && flags[name] + 0 == part[2]) passed++
            else fault("the doubling in " name ", which looks at a flag " flags[name] + 0 " times")
            delete places[name]
        }
        for (name in places) fault("a doubling in " name ", which is not listed")
        printf "%d passed, %d failed\n", passed, failed
        exit failed > 0
    }' "$1"
