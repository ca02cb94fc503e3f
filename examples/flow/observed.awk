# Reads an original as BLIF, and then its gated netlist as it was stored as Verilog. Writes that with a net `observed` besides, which is 1
# where the enable of a gating cell that is new is 0 and the next bit of a register that it clocks is not the register's own, though the
# gating cell that clocks the register in the original, where one does, is open.
function pin_of(line, names,  text) {
    if (!match(line, "\\.\\\\(" names ") \\([^)]*\\)")) return ""
    text = substr(line, RSTART, RLENGTH)
    sub(/^[^(]*\(/, "", text)
    sub(/\)$/, "", text)
    return text
}
function observe(clock, next_bit, bit,  name, given) {
    if (!(clock in enable)) return
    name = bit
    sub(/^\\/, "", name)
    sub(/ $/, "", name)
    given = (name in clocked && clocked[name] in enable_given) ? " & \\" enable_given[clocked[name]] " " : ""
    print "  wire \\observed_" (++count) " ;"
    observed[count] = "  assign \\observed_" count " = ~" enable[clock] given " & (" next_bit "^ " bit ");"
}
FNR == NR && $1 == ".gate" {
    split("", pin)
    for (i = 3; i <= NF; i++) { at = index($i, "="); pin[substr($i, 1, at - 1)] = substr($i, at + 1) }
    if ("GCK" in pin) enable_given[pin["GCK"]] = pin["E"]
    if ("GCLK" in pin) enable_given[pin["GCLK"]] = pin["EN"]
    if ("CLK" in pin && "Q" in pin) clocked[pin["Q"]] = pin["CLK"]
}
FNR == NR && $1 == ".latch" && NF >= 5 { clocked[$3] = $5 }
FNR == NR { next }
$1 ~ /^\\/ {
    gated = pin_of($0, "GCLK|GCK")
    if (gated ~ /^\\cg_/) enable[gated] = pin_of($0, "EN|E")
    if (pin_of($0, "Q") != "") observe(pin_of($0, "CLK"), pin_of($0, "D"), pin_of($0, "Q"))
}
$1 == "always" {
    bit = next_bit = $0
    sub(/^[^)]*\) */, "", bit)
    sub(/<=.*/, "", bit)
    sub(/^[^<]*<= */, "", next_bit)
    sub(/;.*/, "", next_bit)
    observe($3 " ", next_bit, bit)
}
/^endmodule/ {
    for (k = 1; k <= count; k++) print observed[k]
    printf "  (* keep *) wire \\observed = 1'b0"
    for (k = 1; k <= count; k++) printf " | \\observed_%d ", k
    print ";"
}
{ print }
