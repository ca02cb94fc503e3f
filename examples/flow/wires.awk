# Declares each net of a netlist before it is first used, as Verilog does not ask for: over many nets that are not declared Yosys takes
# time by their square.
$1 ~ /^(input|output|reg)$/ { known[$2] = 1 }
$1 == "assign" || $1 ~ /^\\/ {
    for (i = $1 == "assign" ? 2 : 3; i <= NF; i++) {
        place = index($i, "\\")
        if (place == 0 || $i ~ /^\(?\.\\/) continue
        name = substr($i, place)
        if (!(name in known)) print "  wire " name " ;"
        known[name] = 1
    }
}
{ print }
