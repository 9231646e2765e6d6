# The table that examples/host prints, from a listing of the same sheet.
function without(verdict) { printf "%9d  %-22s %8s %8s %8s\n", $1, verdict, "-", "-", "-" }
$1 == "refused" { print "refused " $2 " at byte " $3; next }
!head++ { printf "component  %-22s %8s %8s %8s\n", "verdict", "capacity", "margin", "at" }
$1 == "end" { next }
$2 == "long" { without("common period too long") }
$2 == "none" { without("no capacity is enough") }
$2 == "waiting" { without("waiting for a child") }
$2 == "accepted" && $4 == "-" { printf "%9d  %-22s %8d %8s %8s\n", $1, "accepted", $3, "-", "-" }
$2 == "accepted" && $4 != "-" { printf "%9d  %-22s %8d %+8d %8d\n", $1, "accepted", $3, $4, $5 }
$2 == "short" { printf "%9d  %-22s %8d %+8d %8d\n", $1, "short at " $4, $3, $5, $6 }
