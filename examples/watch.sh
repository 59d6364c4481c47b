#!/usr/bin/env bash
# Shows what a certificate has so far, and what comes while a run writes it: watch.sh PROOF [PID]
PYTHONPATH=$(dirname "$(realpath "$0")")/../board${PYTHONPATH:+:$PYTHONPATH} exec python3 -m tidewise_board.library.watch "$@"
