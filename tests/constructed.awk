# A component judged, and then the walks of the runs that are constructed for it: each of them misses just at the first short instant, or
# nowhere. The margin in the same answer is below 0 if the component is short, and stands at that instant or behind it; else it is not.
function judged_done() { if (NR > 1 && !walks) { print "answer " NR ": judged, and no walk before it"; wrong = 1; exit } }
function measured() { return $2 == "short" ? NF == 6 && $5 < 0 && $6 >= $3 : NF == 4 && $4 == "none" || NF == 5 && $4 >= 0 && $5 > 0 }
($2 == "accepted" || $2 == "short") && !measured() { print "answer " NR ": " $0; wrong = 1; exit }
$2 == "accepted" || $2 == "short" { judged_done(); verdict = $2; instant = $3; walks = 0; next }
{ if (++walks > 1) several++ }
verdict == "short" && $2 == "miss" && $3 == instant { short++; next }
verdict == "accepted" && $2 == "none" { accepted++; next }
{ print "answer " NR ": " verdict " " instant ", then " $0; wrong = 1; exit }
END { if (wrong || !walks || !short || !accepted || !several) exit 1 }
