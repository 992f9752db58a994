#!/bin/sh
# Starts a Slurm of one machine on the loopback, with all its files in a folder of its own, and runs a command in it:
#
#   sh tests/slurm.sh COMMAND..
#
# The status is that of the command; it is 77 where there is no Slurm, or it does not start, and one line says why. Everything is ended
# at the end: munged, slurmctld and slurmd are those that this script started.
set -u
PATH=$PATH:/usr/sbin:/sbin
for tool in munged slurmctld slurmd sbatch scontrol; do
    command -v $tool >/dev/null || { echo "skipped: $tool is not on this machine (slurm-wlm, munge), so nothing was tried on Slurm" && exit 77; }
done
room=$(mktemp -d) && mkdir -m 700 "$room/munge" && mkdir "$room/state" "$room/spool" || exit 1
started=
finish() {
    for child in $started; do kill "$child" 2>/dev/null; done
    wait
    rm -rf "$room"
}
trap finish EXIT
trap 'exit 1' HUP INT TERM
node=$(hostname -s)
dd if=/dev/urandom of="$room/munge/key" bs=1024 count=1 2>/dev/null && chmod 400 "$room/munge/key"
munged --force --foreground --key-file="$room/munge/key" --socket="$room/munge/socket" --pid-file="$room/munge/pid" \
    --log-file="$room/munge/log" --seed-file="$room/munge/seed" >/dev/null 2>&1 &
started="$!"
cat >"$room/slurm.conf" <<CONF
ClusterName=lwmap
SlurmctldHost=$node(127.0.0.1)
SlurmUser=$(id -un)
SlurmdUser=$(id -un)
AuthType=auth/munge
AuthInfo=socket=$room/munge/socket
CredType=cred/munge
SlurmctldPort=${SLURM_PORT:-36817}
SlurmdPort=$((${SLURM_PORT:-36817} + 1))
SlurmctldPidFile=$room/slurmctld.pid
SlurmdPidFile=$room/slurmd.pid
SlurmctldLogFile=$room/slurmctld.log
SlurmdLogFile=$room/slurmd.log
StateSaveLocation=$room/state
SlurmdSpoolDir=$room/spool
ProctrackType=proctrack/linuxproc
TaskPlugin=task/none
MpiDefault=none
SelectType=select/cons_tres
SelectTypeParameters=CR_Core
ReturnToService=2
NodeName=$node NodeAddr=127.0.0.1 CPUs=$(nproc) RealMemory=$(awk '/^MemTotal:/ {print int($2 / 2048)}' /proc/meminfo) State=UNKNOWN
PartitionName=all Nodes=$node Default=YES MaxTime=INFINITE State=UP
CONF
SLURM_CONF=$room/slurm.conf
export SLURM_CONF
turn=0
until [ -S "$room/munge/socket" ] || [ $turn -eq 100 ]; do sleep 0.1 && turn=$((turn + 1)); done
slurmctld -D -f "$SLURM_CONF" >/dev/null 2>&1 &
started="$! $started"
slurmd -D -f "$SLURM_CONF" >/dev/null 2>&1 &
started="$! $started"
turn=0
until sinfo -h -o %t 2>/dev/null | grep -q '^idle$' || [ $turn -eq 150 ]; do sleep 0.2 && turn=$((turn + 1)); done
if [ $turn -eq 150 ]; then
    echo "skipped: Slurm does not start here: $(tail -q -n 1 "$room/slurmctld.log" "$room/slurmd.log" "$room/munge/log" 2>/dev/null | tr '\n' ' ')"
    exit 77
fi
"$@"
