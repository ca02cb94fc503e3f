# Has a netlist count the clock edges of those registers that are no placed cells: each `always` gets another one beside it.
{ print }
$1 == "always" { sub(/\).*/, ") testbench.edges = testbench.edges + 1;"); print }
