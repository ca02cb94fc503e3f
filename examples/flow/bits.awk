# Makes of a dump by Icarus Verilog or Verilator one of single bits, with the names that a netlist has: a vector `sample [3:0]` becomes
# sample[3], sample[2], sample[1] and sample[0], and the backslash before an escaped name is taken off.
#
#     awk -f bits.awk [-v zero='NAME..'] DUMP
#
# Each variable that `zero` names is 0 before it is first driven, a vector in all its bits: where a testbench drives inputs only after
# the first rise of the clock. The clock is none of them, since an unknown clock that goes to 1 does not rise.
BEGIN { count = split(zero, names, " "); for (i = 1; i <= count; i++) begins[names[i]] = 1 }

# A bit gets a value. One that begins with 0 is unknown no more.
function put(bit, value) {
    if (bit in waits) { if (value !~ /[01]/) return; delete waits[bit] }
    if (last[bit] == value) return
    last[bit] = value
    print value bit
}

# The bits of a variable get numbers as their ids, from first[id] on, the leftmost first. Several variables may have one id. Variables
# that are no bits of a design are left out.
!dumping && $1 == "$var" {
    if ($2 ~ /^(integer|parameter|real|realtime|time|event|string)$/) next
    id = $4
    if (!(id in first)) { first[id] = bits + 0; size[id] = $3; bits += $3 }
    name = $5
    sub(/^\\/, "", name)
    split($6, range, /[\[:\]]/)
    high = $6 ~ /:/ ? range[2] + 0 : $3 - 1
    down = $6 ~ /:/ && range[2] + 0 < range[3] + 0 ? -1 : 1
    for (i = 0; i < $3; i++) {
        if (name in begins) waits[first[id] + i] = 1
        print "$var", $2, 1, first[id] + i, name ($3 > 1 ? "[" (high - down * i) "]" : $6 == "$end" ? "" : $6), "$end"
    }
    next
}
!dumping {
    print
    if ($1 != "$enddefinitions") next
    dumping = 1
    for (bit in waits) { print "0" bit; last[bit] = 0 }
    next
}
/^[01xXzZ]/ && substr($1, 2) in first { put(first[substr($1, 2)], tolower(substr($1, 1, 1))) }
/^[bB]/ && $2 in first {
    value = tolower(substr($1, 2))
    fill = value ~ /^1/ ? "0" : substr(value, 1, 1)
    while (length(value) < size[$2]) value = fill value
    for (i = 0; i < size[$2]; i++) put(first[$2] + i, substr(value, i + 1, 1))
}
/^[#$]/
