# Answers about runs of accepted trees: every walk says none, every service is legal, and some units were served.
$1 == "ok" && $2 == "none" { served += $3; next }
$0 == "ok yes" { legal++; next }
{ print "call " NR ": " $0; wrong = 1; exit }
END { if (wrong || !served || !legal) exit 1 }
