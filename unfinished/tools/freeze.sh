#!/bin/bash
# freeze.sh CMD..: everything else that computes is stopped while CMD runs
P=$(pgrep -f "rattle (build|check|cases)|bin/rattle|rattle-cases|valgrind|cargo|rustc|antt" | grep -v $$)
kill -STOP $P 2>/dev/null
"$@"
kill -CONT $P 2>/dev/null
