# For tests/run: passes on what rt ci says, as it comes, and fails where the line 'rt: ok' counts edits of must-fail that could not be tried, which rt lets
# pass. The last line is rt's last.
NR > 1 { print last; fflush() }
{ last = $0 }
/^rt: ok.*, [0-9]+ bad/ { bad = 1 }
END {
    if (bad) print "test: wrong edits of must-fail are bad, as told above: each has to be refused"
    if (NR > 0) print last
    exit bad
}
