# Reads a disassembly (objdump -d --no-show-raw-insn) and prints the level of x86-64 that its instructions belong to, with the
# number of functions that hold instructions of each level above the first. Code that is behind a question to the processor
# counts too, so the program may run at a lower level. (tzcnt is not counted: an older processor takes it for bsf.)
BEGIN {
    v2 = "^(cmpxchg16b|lahf|sahf|popcnt[wlq]?|fisttp[lq]*|lddqu|mov(d|sh|sl)dup|(h?add|h?sub|addsub)p[sd]_|h(add|sub)p[sd]|addsubp[sd]" \
        "|pabs[bwd]|palignr|ph(add|sub)(w|d|sw)|pmaddubsw|pmulhrsw|pshufb|psign[bwd]|p?blendv?(p[sd]|b|w)|dpp[sd]|extractps|insertps" \
        "|movntdqa|mpsadbw|packusdw|pcmpeqq|pextr[bdq]|phminposuw|pinsr[bdq]|pm(ax|in)(sb|sd|uw|ud)|pmov[sz]x[bwdq]+|pmuldq|pmulld" \
        "|ptest|round[ps][sd]|crc32[bwlq]?|pcmp[ei]str[im]|pcmpgtq)$"
    v3 = "^(v[a-z0-9]+|andn|bextr|blsi|blsmsk|blsr|bzhi|lzcnt|mulx|pdep|pext|rorx|sarx|shlx|shrx|movbe)$"
    v4 = "[%]zmm|[{][%]k[0-7][}]|[%][xy]mm(1[6-9]|2[0-9]|3[01])"
}
/^[0-9a-f]+ <.*>:$/ { name = $2 }
/^ *[0-9a-f]+:\t/ {
    split($0, part, "\t")
    split(part[2], word, " ")
    level = part[2] ~ v4 ? 4 : word[1] ~ v3 && word[1] !~ /^ver[rw]$/ ? 3 : word[1] ~ v2 ? 2 : 1
    if (level > most) most = level
    if (level > 1 && !((level, name) in seen)) seen[level, name] = ++functions[level]
}
END {
    if (!most) exit 1
    text = "instructions of x86-64" (most == 1 ? "" : "-v" most)
    for (level = 2; level <= 4; level++) if (functions[level]) text = text (told++ ? ", v" : ": v") level " in " functions[level] " functions"
    print text
}
