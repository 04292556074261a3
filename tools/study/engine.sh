#!/bin/sh
# Runs the command beside a Slurm of its own, on this machine alone: munged, slurmctld and slurmd in a new folder, with a key of
# their own, which all end after the command. To try slurm.sh where there is no cluster. Run by root; of Debian it wants the
# package slurm-wlm.
# usage: engine.sh COMMAND..
set -u
. "$(dirname -- "$0")/../usage.sh"
takes 1 $# "$@"
for tool in munged mungekey slurmctld slurmd sbatch; do
    command -v "$tool" >/dev/null 2>&1 || { echo "engine.sh: there is no $tool" >&2; exit 1; }
done
place=$(mktemp -d) || exit 1
chmod 755 "$place"
mkdir "$place/state" "$place/spool" "$place/log"
daemons=
# Each daemon is ended by its number, the last one first.
finish() {
    for daemon in $daemons; do
        kill "$daemon" 2>/dev/null && wait "$daemon" 2>/dev/null
    done
    rm -rf "$place"
}
trap finish EXIT
trap 'exit 1' HUP INT TERM

# starts COMMAND..: a daemon in the foreground of its own
starts() {
    "$@" >"$place/log/out" 2>&1 </dev/null &
    daemons="$! $daemons"
}

# comes COMMAND..: waits up to a minute until the command succeeds
comes() {
    times=0
    until "$@" >/dev/null 2>&1; do
        times=$((times + 1))
        [ "$times" -lt 120 ] || { echo "engine.sh: $1 fails" >&2; tail -n 5 "$place"/log/* >&2; exit 1; }
        sleep 0.5
    done
}

host=$(uname -n)
cat >"$place/slurm.conf" <<END
ClusterName=here
SlurmctldHost=$host(127.0.0.1)
SlurmctldPort=16817
SlurmdPort=16818
SlurmUser=root
SlurmdUser=root
AuthType=auth/munge
CryptoType=crypto/munge
AuthInfo=socket=$place/munge.socket
StateSaveLocation=$place/state
SlurmdSpoolDir=$place/spool
SlurmctldPidFile=$place/slurmctld.pid
SlurmdPidFile=$place/slurmd.pid
SlurmctldLogFile=$place/log/slurmctld
SlurmdLogFile=$place/log/slurmd
ProctrackType=proctrack/linuxproc
TaskPlugin=task/none
SelectType=select/cons_tres
SelectTypeParameters=CR_CPU
ReturnToService=2
MpiDefault=none
JobAcctGatherType=jobacct_gather/none
AccountingStorageType=accounting_storage/none
NodeName=$host NodeAddr=127.0.0.1 CPUs=$(nproc) State=UNKNOWN
PartitionName=all Nodes=$host Default=YES MaxTime=INFINITE State=UP
END
export SLURM_CONF="$place/slurm.conf"
mungekey --create --keyfile="$place/munge.key" || exit 1
starts munged --foreground --force --socket="$place/munge.socket" --key-file="$place/munge.key" \
    --pid-file="$place/munged.pid" --log-file="$place/log/munged" --seed-file="$place/munged.seed"
comes munge -n -S "$place/munge.socket"
starts slurmctld -D -c
comes scontrol ping
starts slurmd -D -N "$host"
comes sh -c 'sinfo -h -o %t | grep -qx idle'
"$@"
