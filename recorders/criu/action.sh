#!/bin/sh
# What CRIU runs at its stages (--action-script): tells, in the file of the accesses, that the process is frozen at the source with
# its images written, and that its memory stands guarded at the target and it is about to run.
case $CRTOOLS_SCRIPT_ACTION in
post-dump) echo "s halted" >> "$RECORD_LOG" ;;
pre-resume) echo "t resume" >> "$RECORD_LOG" ;;
esac
