# The walk of scripts/stack. It reads 'objdump -w -t -r', then 'objdump -w -d -r --no-show-raw-insn', both of one archive.
#
# A place is "member|section|offset", the offset in decimal; a function is the place where it begins. An indirect jump is one through a
# table of the same function: 'movslq (A,I,4),J; add A,J; jmp *J' in one piece of straight code, on every way to it 'lea TABLE(%rip),A',
# and each address in the table stands in the function. With %rbp or %r13 for A a displacement of 0 is written. Any other address of code in
# data, or taken by code, is refused.

function refuse(what) {
    if (!refused)
        print "scripts/stack: " what > "/dev/stderr"
    refused = 1
    exit 1
}

function where(i) {
    return name[of[i]] ", " address_text[i] ": " said[i]
}

# Hexadecimal digits as a number; one that opens with ffffffff is negative.
function hex(text,    i, value) {
    sub(/^0x/, "", text)
    if (length(text) == 16 && substr(text, 1, 8) == "ffffffff")
        return hex(substr(text, 9)) - 4294967296
    for (i = 1; i <= length(text); i++)
        value = 16 * value + index("0123456789abcdef", substr(text, i, 1)) - 1
    return value + 0
}

# A number with its sign, as -0x18.
function signed(text) {
    return text ~ /^-/ ? -hex(substr(text, 2)) : hex(text)
}

# referred(TEXT): "SYMBOL+0x1c" as its symbol, and its number in addend.
function referred(text) {
    addend = 0
    if (match(text, /[-+]0x[0-9a-f]+$/)) {
        addend = signed(substr(text, RSTART + (substr(text, RSTART, 1) == "+")))
        text = substr(text, 1, RSTART - 1)
    }
    return text
}

# The place of a symbol, of this member or of all; "" where no member has it.
function place_of(symbol, more,    p) {
    if ((member, symbol) in twice)
        refuse("two symbols are called " symbol)
    if ((member, symbol) in local_symbol)
        p = local_symbol[member, symbol]
    else if (symbol in global_symbol)
        p = global_symbol[symbol]
    else
        return ""
    return moved(p, more)
}

function moved(p, more,    part) {
    if (more == 0)
        return p
    split(p, part, "|")
    return part[1] "|" part[2] "|" (part[3] + more)
}

# ---- What objdump says

/: +file format / {
    member = $0
    sub(/: +file format .*/, "", member)
    if (!/elf64-x86-64/)
        refuse(member " is not for x86-64")
    members[member] = 1
    section = kind = ""
    next
}
/^SYMBOL TABLE:/ { kind = "symbols"; next }
/^RELOCATION RECORDS FOR / {
    kind = "data"
    section = $0
    sub(/^RELOCATION RECORDS FOR \[/, "", section)
    sub(/\]:$/, "", section)
    next
}
/^Disassembly of section / {
    kind = "code"
    section = $0
    sub(/^Disassembly of section /, "", section)
    sub(/:$/, "", section)
    is_code[member, section] = 1
    inside = ""
    next
}

# VALUE FLAGS SECTION<tab>SIZE NAME: the flags are seven letters, with blanks between.
kind == "symbols" && /^[0-9a-f]+ .......  ?[^\t]*\t/ {
    split($0, half, "\t")
    symbol = half[2]
    sub(/^[0-9a-f]+ +/, "", symbol)
    sub(/^\.(hidden|internal|protected) /, "", symbol)
    flags = substr($0, 18, 7)
    its_section = substr(half[1], 26)
    if (its_section == "*UND*" || its_section == "*ABS*" || flags ~ /f/)
        next
    place = member "|" its_section "|" hex($1)
    if (flags ~ /^[gu!]|^.w/) {
        if (symbol in global_symbol)
            refuse("two symbols are called " symbol)
        global_symbol[symbol] = place
        if (flags ~ /F/ && half[2] !~ / \.(hidden|internal) /)
            exported[symbol] = place
    } else {
        if ((member, symbol) in local_symbol && local_symbol[member, symbol] != place)
            twice[member, symbol] = 1
        local_symbol[member, symbol] = place
    }
    if (flags ~ /F/) {
        if (!(place in name))
            function_at[++functions] = place
        name[place] = symbol
    }
    next
}

kind == "data" && /^[0-9a-f]+ R_/ {
    if (section !~ /^\.(eh_frame|debug|llvm_addrsig|note|comment)/) {
        data_member[++entries] = member
        data_section[entries] = section
        data_offset[entries] = hex($1)
        data_type[entries] = $2
        data_value[entries] = $3
    }
    next
}

kind == "code" && /^[0-9a-f]+ <.*>:$/ {
    place = member "|" section "|" hex($1)
    if (place in name)
        inside = place
    next
}
kind == "code" && /^ *[0-9a-f]+:\t/ {
    count = split($0, half, "\t")
    text = half[1]
    gsub(/[ :]/, "", text)
    i = ++instructions
    address[i] = hex(text)
    address_text[i] = text
    its_member[i] = member
    its_place[i] = member "|" section
    at[member "|" section "|" address[i]] = i
    of[i] = inside
    read_instruction(half[2])
    for (k = 3; k < count; k++)
        if (half[k] ~ /^[0-9a-f]+: R_/) {
            split(half[k], half_of_it, " ")
            if (i in relocation)
                refuse("two relocations: " where(i))
            relocation[i] = half_of_it[2]
            symbol_text[i] = half[k + 1]
        }
    next
}

# MNEMONIC OPERANDS [<where>] [# comment], with prefixes that change nothing here taken away.
function read_instruction(text,    at_blank) {
    sub(/ +#.*$/, "", text)
    said[i] = text
    while (text ~ /^(data16|cs|ds|es|ss|rep|repz|repnz|lock|bnd|notrack|rex[.A-Z]*) /)
        sub(/^[^ ]+ +/, "", text)
    at_blank = index(text, " ")
    op[i] = at_blank ? substr(text, 1, at_blank - 1) : text
    operands[i] = at_blank ? substr(text, at_blank) : ""
    gsub(/ +|<.*>/, "", operands[i])
    if (said[i] ~ /\(bad\)/)
        op[i] = "(bad)"
}

# ---- Operands

# The last operand, which is the one that is written.
function last_operand(text,    k, level) {
    for (k = length(text); k >= 1; k--) {
        if (substr(text, k, 1) == ")")
            level++
        else if (substr(text, k, 1) == "(")
            level--
        else if (substr(text, k, 1) == "," && level == 0)
            return substr(text, k + 1)
    }
    return text
}

# The four names of a register of 64 bits, between blanks.
function names_of(register,    r) {
    r = substr(register, 3)
    if (r ~ /^[0-9]/)
        return " %r" r " %r" r "d %r" r "w %r" r "b "
    if (r ~ /x$/)
        return " %r" r " %e" r " %" r " %" substr(r, 1, 1) "l %" substr(r, 1, 1) "h "
    return " %r" r " %e" r " %" r " %" r "l "
}

function mentions(text, register,    word, k, n, all) {
    all = names_of(register)
    n = split(text, word, /[(),*]/)
    for (k = 1; k <= n; k++)
        if (word[k] != "" && index(all, " " word[k] " "))
            return 1
    return 0
}

# ---- The walk of a function

function reach(i, depth) {
    if (!(i in op) || of[i] != walked)
        refuse("a way leaves " name[walked] " without a jump")
    if (i in depth_at) {
        if (depth_at[i] != depth)
            refuse("two depths, " depth_at[i] " and " depth ": " where(i))
        return
    }
    if (depth < 0)
        refuse("more is taken from the stack than was put there: " where(i))
    depth_at[i] = depth
    deeper(depth)
    todo[++left] = i
}

function deeper(depth) {
    if (depth > own[walked])
        own[walked] = depth
}

function follow(i) {
    return its_place[i + 1] == its_place[i] ? i + 1 : 0
}

# target(I): the place that a direct jump or call goes to; a function of the C library by its name.
function target(i,    symbol, p) {
    if (!(i in relocation)) {
        if (operands[i] !~ /^[0-9a-f]+$/)
            refuse("an indirect call: " where(i))
        return its_place[i] "|" hex(operands[i])
    }
    if (relocation[i] !~ /^R_X86_64_(PC32|PLT32)$/)
        refuse("an unknown relocation, " relocation[i] ": " where(i))
    symbol = referred(symbol_text[i])
    member = its_member[i]
    p = place_of(symbol, addend + 4)
    if (p == "" && addend == -4 && symbol in allowance)
        return symbol
    if (p == "")
        refuse("a call of " symbol ", which is not there: " where(i))
    return p
}

function calls(p, depth, i) {
    if (!(p in name) && !(p in allowance))
        refuse("a call of no function: " where(i))
    callee[walked, ++called[walked]] = p
    callee_depth[walked, called[walked]] = depth
}

function jump(i, depth,    p) {
    p = target(i)
    if (p in at && of[at[p]] == walked && p != walked) {
        reach(at[p], depth)
        return
    }
    if (p == walked && depth == 0 && !(i in relocation)) {
        reach(at[p], depth)
        return
    }
    if (depth != 0)
        refuse("a jump away while a frame stands: " where(i))
    calls(p, 0, i)
    goes_on[walked, p] = 1
}

# An instruction that is not a jump: what it does to the depth.
function changed(i, depth,    text, o, last) {
    text = operands[i]
    o = op[i]
    if (o ~ /^pushq?$/)
        return depth + 8
    if (o ~ /^popq?$/ && text !~ /%[re]?sp/)
        return depth - 8
    if (o ~ /^subq?$/ && text ~ /^\$0x[0-9a-f]+,%rsp$/)
        return depth + hex(substr(text, 2, length(text) - 6))
    if (o ~ /^addq?$/ && text ~ /^\$0x[0-9a-f]+,%rsp$/)
        return depth - hex(substr(text, 2, length(text) - 6))
    if (o == "lea" && text ~ /^-?0x[0-9a-f]+\(%rsp\),%rsp$/)
        return depth - signed(substr(text, 1, index(text, "(") - 1))
    if (o ~ /^(\(bad\)|leave|enter|iret|int$|into|sys|push|pop|call|ljmp|lcall|lret|xbegin|cli|sti)/)
        refuse("an unknown instruction: " where(i))
    last = last_operand(text)
    if (last ~ /^%[re]?spl?$/ && o !~ /^(cmp|test)/)
        refuse("a frame whose size is no constant: " where(i))
    if (o ~ /^(xchg|xadd|cmpxchg)/ && text ~ /%[re]?spl?(,|$)/)
        refuse("a frame whose size is no constant: " where(i))
    return depth
}

# What is read or written beside the frame: below the stack pointer, and the arguments above the return address.
function beside(i, depth,    text, offset, behind) {
    text = operands[i]
    if (!match(text, /(-?0x[0-9a-f]+)?\(%rsp[,)]/))
        return
    behind = substr(text, RSTART + RLENGTH - 1, 1)
    offset = substr(text, RSTART, index(substr(text, RSTART), "(") - 1)
    offset = offset == "" ? 0 : signed(offset)
    if (offset < 0 && op[i] == "lea" && last_operand(text) == "%rsp")
        return
    if (offset < 0)
        deeper(depth + (behind == "," || op[i] == "lea" ? RED_ZONE : -offset + (8 + offset % 8) % 8))
    if (offset >= depth + 8 && offset - depth > above[walked])
        above[walked] = offset - depth - (offset - depth) % 8
}

# A frame of many pages is made in a loop that touches each: 'lea -N(%rsp),%r11; sub $0x1000,%rsp; movq $0x0,(%rsp); cmp %r11,%rsp; jne' to
# the second. N, or 0 where the lines are others.
function by_pages(i,    bytes) {
    if (op[i] != "lea" || operands[i] !~ /^-0x[0-9a-f]+\(%rsp\),%r11$/)
        return 0
    bytes = -signed(substr(operands[i], 1, index(operands[i], "(") - 1))
    if (op[i + 1] operands[i + 1] != "sub$0x1000,%rsp" || op[i + 2] operands[i + 2] != "movq$0x0,(%rsp)" ||
        op[i + 3] operands[i + 3] != "cmp%r11,%rsp" || op[i + 4] != "jne" || hex(operands[i + 4]) != address[i + 1] ||
        its_place[i + 5] != its_place[i] || before[i + 1] != 2 || before[i + 2] + before[i + 3] + before[i + 4] != 3)
        return 0
    return bytes % 4096 == 0 ? bytes : 0
}

function step(i,    depth, o) {
    depth = depth_at[i]
    o = op[i]
    if (by_pages(i)) {
        reach(i + 5, depth + by_pages(i))
        return
    }
    beside(i, depth)
    if (o ~ /^callq?$/) {
        if (operands[i] ~ /\*/)
            refuse("an indirect call: " where(i))
        calls(target(i), depth + 8, i)
    } else if (o ~ /^jmpq?$/ && operands[i] ~ /^\*/) {
        through_table(i, depth)
        return
    } else if (o ~ /^j|^loop/) {
        jump(i, depth)
        if (o ~ /^jmpq?$/)
            return
    } else if (o ~ /^retq?$/) {
        if (depth != 0 || operands[i] != "")
            refuse("a return while a frame stands: " where(i))
        return
    } else if (o ~ /^(ud2|hlt|int3)$/)
        return
    else {
        takes_address(i)
        depth = changed(i, depth)
    }
    reach(follow(i), depth)
}

# An instruction that names an address of code, where it is no call: a pointer to a function. Without a relocation it is of its own section.
function takes_address(i,    symbol, p, part) {
    if (!(i in relocation)) {
        if (operands[i] !~ /%[re]ip/)
            return
    } else {
        member = its_member[i]
        symbol = referred(symbol_text[i])
        p = place_of(symbol, 0)
        split(p, part, "|")
        if (p != "" && !((part[1], part[2]) in is_code))
            return
    }
    refuse("the address of a function is taken: " where(i))
}

# ---- Jump tables

# Each address of code that stands in data belongs to a table, and each table to the one function that names it. Plain constants may be
# named by several.
function find_tables(    i, symbol, p, k, best) {
    for (i = 1; i <= instructions; i++) {
        if (op[i] != "lea" || !(i in relocation))
            continue
        member = its_member[i]
        symbol = referred(symbol_text[i])
        p = place_of(symbol, addend + 4)
        if (p in table_of && table_of[p] != of[i])
            shared[p] = i
        table_of[p] = of[i]
    }
    for (k = 1; k <= entries; k++) {
        member = data_member[k]
        if ((member, data_section[k]) in is_code)
            continue
        symbol = referred(data_value[k])
        p = place_of(symbol, addend)
        split(p, part, "|")
        if (p != "" && !((part[1], part[2]) in is_code))
            continue
        best = data_offset[k]
        while (best >= 0 && !((member "|" data_section[k] "|" best) in table_of))
            best--
        if (best < 0 || data_type[k] != "R_X86_64_PC32" || p == "")
            refuse("an address of code in data: " data_section[k] ", " data_value[k])
        best = member "|" data_section[k] "|" best
        if (best in shared)
            refuse("two functions read one table: " where(shared[best]))
        p = moved(p, best_offset(best) - data_offset[k])
        if (!(p in at) || of[at[p]] != table_of[best])
            refuse("a jump table of " name[table_of[best]] " leads out of it, to " data_value[k])
        table_entry[best, ++table_length[best]] = at[p]
    }
}

function best_offset(p,    part) {
    split(p, part, "|")
    return part[3]
}

# An instruction that may write a register that it does not name last. A product with two operands names it; one exchange is padding.
function writes_more(i) {
    if (op[i] ~ /^(mul|imul|div|idiv)/)
        return last_operand(operands[i]) == operands[i]
    return op[i] ~ /^(xchg|xadd|cmpxchg|cpuid|rdtsc|c[lqw]t|xlat|lods|stos|cmps|scas|movs[bwlq]?$)/ && operands[i] != "%ax,%ax" ||
        said[i] ~ /^rep/
}

# The jump's register is the sum of a table's place and an entry of it, by the lines before it, which no jump leads into.
function through_table(i, depth,    j, base, k, stage, p, n) {
    j = substr(operands[i], 2)
    if (j !~ /^%r[0-9a-z]+$/)
        refuse("an indirect jump: " where(i))
    for (k = i - 1; stage < 2; k--) {
        if (k < 1 || its_place[k] != its_place[i] || jumped_to[its_place[k + 1] "|" address[k + 1]] ||
            op[k] ~ /^(j|call|ret|loop|ud2)/ || writes_more(k))
            refuse("an indirect jump, through no table: " where(i))
        if (stage == 0 && mentions(operands[k], j)) {
            base = substr(operands[k], 1, index(operands[k], ",") - 1)
            if (op[k] != "add" || operands[k] != base "," j || base !~ /^%r/ || base == j)
                refuse("an indirect jump, through no table: " where(i))
            stage = 1
        } else if (stage == 1 && (mentions(operands[k], j) || mentions(last_operand(operands[k]), base))) {
            if (op[k] != "movslq" || !entry_of(operands[k], base) || operands[k] !~ /,4\),%r[0-9a-z]+$/ ||
                last_operand(operands[k]) != j)
                refuse("an indirect jump, through no table: " where(i))
            stage = 2
        }
    }
    p = table_in(base, k + 1, i)
    if (!(p in table_length))
        refuse("an indirect jump, through an empty table: " where(i))
    for (n = 1; n <= table_length[p]; n++)
        reach(table_entry[p, n], depth)
}

# entry_of(OPERANDS, BASE): what is read stands in the table that begins at the register's place. No code says so of %rbp and %r13 but with a
# displacement of 0.
function entry_of(text, base) {
    sub(/^0x0\(/, "(", text)
    return index(text, "(" base ",%r") == 1
}

# table_in(BASE, K, I): the table whose place the register has at K, on every way that leads there. I is the jump, for the message. A way
# back ends at the lea of the table; one that ends at another write, at a call that may change the register, or at the function's
# beginning is none.
function table_in(base, k, i,    seen, list, count, n, b, p, found, kept) {
    kept = base ~ /^%r(bx|bp|12|13|14|15)$/
    list[count = 1] = k
    seen[k] = 1
    while (count) {
        k = list[count--]
        if (at[of[k]] == k)
            refuse("an indirect jump, through no table on some way: " where(i))
        for (n = 1; n <= before[k]; n++) {
            b = before[k, n]
            if (op[b] == "lea" && b in relocation && last_operand(operands[b]) == base) {
                member = its_member[b]
                p = referred(symbol_text[b])
                p = place_of(p, addend + 4)
                if (found != "" && found != p)
                    refuse("an indirect jump, through two tables: " where(i))
                found = p
            } else if (writes_more(b) || op[b] ~ /^call/ && !kept || op[b] !~ /^(push|cmp|test|bt$|j)/ && writes(b, base))
                refuse("an indirect jump, through no table on some way: " where(i))
            else if (!(b in seen)) {
                seen[b] = 1
                list[++count] = b
            }
        }
    }
    return found
}

# writes(I, REGISTER): its last operand is the register, by one of its names.
function writes(i, register,    last) {
    last = last_operand(operands[i])
    return last !~ /\(/ && mentions(last, register)
}

# Where a jump leads, a table's or a plain one's; and from where each instruction is come to. An indirect jump leads to each entry of each
# table of its function: to more than it can.
function find_jumped_to(    i, p, part, list) {
    for (p in table_entry) {
        split(p, part, SUBSEP)
        jumped_to[its_place[table_entry[p]] "|" address[table_entry[p]]] = 1
        list[table_of[part[1]]] = list[table_of[part[1]]] " " table_entry[p]
    }
    for (i = 1; i <= instructions; i++) {
        if (op[i] !~ /^(jmp|ret|ud2|hlt|int3)/ && its_place[i + 1] == its_place[i])
            comes(i, i + 1)
        if (op[i] ~ /^j|^loop/ && operands[i] ~ /^[0-9a-f]+$/ && !(i in relocation)) {
            p = its_place[i] "|" hex(operands[i])
            jumped_to[p] = 1
            if (p in at)
                comes(i, at[p])
        } else if (op[i] ~ /^jmp/ && operands[i] ~ /^\*/)
            come_all(i, list[of[i]])
    }
}

function comes(from, to) {
    before[to, ++before[to]] = from
}

function come_all(from, text,    to, k, n) {
    n = split(text, to, " ")
    for (k = 1; k <= n; k++)
        comes(from, to[k] + 0)
}

# ---- The call graph

# need(F): the bytes below the return address of F, at most.
function need(f,    k, most, here, by) {
    if (f in allowance)
        return allowance[f]
    if (f in known)
        return known[f]
    if (f in open_now)
        refuse("recursion: " name[f] " is called by what it calls")
    open_now[f] = 1
    most = own[f]
    for (k = 1; k <= called[f]; k++) {
        here = callee_depth[f, k] + need(callee[f, k])
        if (here > most) {
            most = here
            by = k
        }
    }
    delete open_now[f]
    deepest[f] = by
    return known[f] = most
}

# The arguments on the stack that F reads, or a function that it goes on to by a jump.
function arguments(f,    k, most, more) {
    most = above[f] + 0
    for (k = 1; k <= called[f]; k++)
        if ((f, callee[f, k]) in goes_on && !(callee[f, k] in allowance)) {
            more = arguments(callee[f, k])
            if (more > most)
                most = more
        }
    return most
}

# In all, below the stack pointer of a caller, which keeps it at multiples of 16.
function bound(f,    given) {
    given = need(f)
    return arguments(f) + arguments(f) % 16 + 8 + given
}

function with_comma(n) {
    return n < 1000 ? n : int(n / 1000) "," sprintf("%03d", n % 1000)
}

function tell_way(f,    k) {
    while (f in deepest && deepest[f]) {
        k = deepest[f]
        printf "%7d  %s calls %s\n", callee_depth[f, k], name[f], callee[f, k] in name ? name[callee[f, k]] : callee[f, k]
        f = callee[f, k]
    }
    printf "%7d  %s\n", f in allowance ? allowance[f] : own[f], f in name ? name[f] : f " (allowed)"
}

function ordered(    symbol, n, k, t) {
    for (symbol in exported) {
        for (k = ++n; k > 1 && order[k - 1] > symbol; k--)
            order[k] = order[k - 1]
        order[k] = symbol
    }
    return n
}

BEGIN {
    RED_ZONE = 128
    # The two that include/qamhudeer.h names. A library that calls another is refused.
    allowance["memcpy"] = allowance["memset"] = 128
}

END {
    if (refused)
        exit 1
    if (!functions)
        refuse("there is no function here")
    find_tables()
    find_jumped_to()
    for (f = 1; f <= functions; f++) {
        walked = function_at[f]
        own[walked] = 0
        if (!(walked in at))
            refuse(name[walked] " has no code")
        reach(at[walked], 0)
        while (left)
            step(todo[left--])
    }
    for (f = 1; f <= functions; f++)
        need(function_at[f])
    count = ordered()
    if (wish == "--table")
        printf "| Function | Stack, bytes at most |\n|---|---|\n"
    else if (wish != "" && !(wish in exported))
        refuse("no " wish " is exported")
    for (k = 1; k <= count; k++) {
        bytes = bound(exported[order[k]])
        if (wish == "")
            print order[k], bytes
        else if (wish == "--table" && bytes > 8)
            printf "| `%s` | %s |\n", order[k], with_comma(bytes)
        else if (wish == order[k]) {
            print order[k] ": " bytes " bytes, of which " arguments(exported[wish]) " are arguments and 8 the return address"
            tell_way(exported[wish])
        }
    }
}
