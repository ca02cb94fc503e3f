# Cuts a proof file into claimN.cnf and claimN.lrat, a pair for each certificate, and says which claim has which number.
$1 == "c" && $2 == "stage" { close(out); out = "claim" ++n ".cnf"; print n ": " substr($0, 3); next }
$1 == "c" && $2 == "lrat" { close(out); out = "claim" n ".lrat"; next }
{ print > out }
