# Slices in a module of LLVM that was made for pointers of 64 bits, for a machine whose pointers have 32: awk -f slices.awk MODULE MODULE
#
# A slice stands in 16 bytes, its pointer in front and its length from byte 8 on, and is copied as 16 bytes. Four of them are a hole there, and a compiler that copies a hole keeps the
# slice in memory. So each copy of a slice is written as one of its pointer and one of its length. An object of 16 bytes is a slice where a pointer is read or stored at its front, or
# where it is copied from or to a slice, or handed to a function as one or taken by a function as one: Rattle has no other 16 bytes with a pointer in them.
function same(a, b) { ones[++pairs] = a; others[pairs] = b }
function spread(  k, more) {
    do {
        more = 0
        for (k = 1; k <= pairs; k++) {
            if (ones[k] in slice && !(others[k] in slice)) { slice[others[k]]; more = 1 }
            if (others[k] in slice && !(ones[k] in slice)) { slice[ones[k]]; more = 1 }
        }
    } while (more)
}
# a function's name, or that of the function that a line calls
function called(line) { sub(/^[^@]*@/, "", line); sub(/\(.*/, "", line); return line }
function last(words) { sub(/.* /, "", words); return words }

FNR == 1 && NR > 1 { spread(); writes = 1 }
/^define / { own = called($0) }
{ copies = $0 ~ /^  call void @llvm\.mem(move|cpy)\.p0\.p0\.i64\(ptr %[^ ]+, ptr %[^ ]+, i64 16, i1 false\)$/ }
copies { to = $4; from = $6; sub(/,$/, "", to); sub(/,$/, "", from) }
writes && copies && (own, to) in slice {
    n++
    print "  %slice" n ".data = load ptr, ptr " from ", align 8"
    print "  %slice" n ".from = getelementptr i8, ptr " from ", i64 8"
    print "  %slice" n ".size = load i64, ptr %slice" n ".from, align 8"
    print "  store ptr %slice" n ".data, ptr " to ", align 8"
    print "  %slice" n ".to = getelementptr i8, ptr " to ", i64 8"
    print "  store i64 %slice" n ".size, ptr %slice" n ".to, align 8"
    next
}
writes { print; next }
copies { same(own SUBSEP to, own SUBSEP from); next }
/^  %[^ ]+ = load ptr, ptr %/ { place = $6; sub(/,$/, "", place); slice[own, place] }
/^  store ptr %[^ ]+, ptr %/ { place = $5; sub(/,$/, "", place); slice[own, place] }
/^  (%[^ ]+ = )?(tail )?call / {
    if ((callee = called($0)) ~ /^llvm\./) next
    words = $0
    sub(/^[^@]*@[^(]*\(/, "", words)
    sub(/\)[^)]*$/, "", words)
    count = split(words, given, ", ")
    for (k = 1; k <= count; k++) if (given[k] ~ /^ptr /) same(own SUBSEP last(given[k]), callee SUBSEP "%a" (k - 1))
}
