#!/bin/sh
# Prints for Snakemake how a job of Slurm stands: running, success or failed.
#
#   status.sh JOB
#
# The controller is asked first, and the accounts of Slurm where it has forgotten the job. What neither knows has failed, unless the
# controller does not answer now.
state=$(scontrol -o show job "$1" 2>/dev/null | sed -n 's/.*JobState=\([A-Z_]*\).*/\1/p')
[ -n "$state" ] || state=$(sacct -nXPo State -j "$1" 2>/dev/null | sed -n '1s/ .*//p')
[ -n "$state" ] || scontrol ping 2>/dev/null | grep -q 'is UP' || state=PENDING
case $state in
COMPLETED) echo success ;;
PENDING | CONFIGURING | RUNNING | SUSPENDED | COMPLETING | REQUEUED | RESIZING | STAGE_OUT) echo running ;;
*) echo failed ;;
esac
