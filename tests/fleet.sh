#!/bin/bash
# fleet.sh PROGRAM: audits the cases of examples/fleet by GNU parallel and by a Slurm job array on this machine, each for real, and compares the table
# of tools/collect.py: a case that conforms, one that doesn't, one that is refused, one that has no memory (its memory-mb), and one whose job is killed
# and runs again. While they run, collect has to tell of each case what it says in the end, or that it has no result. Then it is asked what results
# count as, and examples/fleet/job.yaml is checked. slurmctld and slurmd are this test's own, on the loopback address, and end with it. An engine that
# isn't installed is left out, which is told.
program=$(realpath "$1") || exit 1
. "$(dirname "$0")/telling.sh" || exit 1
cd "$(dirname "$0")/.." || exit 1
top=$PWD
scratch=$(mktemp -d)
export PYTHONDONTWRITEBYTECODE=1
unset SLURM_CONF
started=()

await() { # SECONDS COMMAND.. : until it succeeds
    end=$((SECONDS + $1))
    shift
    until "$@"; do
        if [ "$SECONDS" -ge "$end" ]; then return 1; fi
        sleep 0.1
    done
}

queue_is_empty() {
    [ -z "$(squeue -h -r 2>&1)" ]
}

finish() {
    if [ -n "$SLURM_CONF" ]; then
        # What runs of a job would outlive its daemons.
        timeout 10 scancel --user="$(id -un)" 2> /dev/null
        await 20 queue_is_empty
    fi
    if [ "${#started[@]}" != 0 ]; then kill "${started[@]}" 2> /dev/null; wait "${started[@]}" 2> /dev/null; fi
    rm -rf "$scratch"
}
trap finish EXIT

cp -r examples/fleet/cases "$scratch/cases"
cp -r "$scratch/cases/ams-1" "$scratch/cases/killed"
cat > "$scratch/wanted" << 'END'
ams-1,0,conforming 90 datagrams 1 lanes,,
ber-1,1,not shown,R3 other user,0.20 198.51.100.7:40004 to 192.0.2.1:3478 96 bytes
cdg-1,2,refused V1 in capture 0,,
killed,0,conforming 90 datagrams 1 lanes,,
END
worst=2

starts_in() { # MEGABYTES : whether so much room is enough for the program to start
    { (ulimit -v $(($1 << 10)) && "$program" --version) > /dev/null; } 2> /dev/null
}

# A case of 36 MB of captures, in room for the program and a third of what they take. A build with run-time checks asks for terabytes of
# addresses as it starts, so that this can't be tried with it.
room=16
until starts_in "$room" || [ "$room" -gt 512 ]; do room=$((room + 8)); done
if [ "$room" -le 512 ]; then
    python3 bench/make_capture.py "$scratch/big" --datagrams 200000 > /dev/null || exit 1
    mkdir "$scratch/cases/no-memory"
    cp "$scratch/big/policy" "$scratch/cases/no-memory/policy"
    cp "$scratch/big/creds" "$scratch/cases/no-memory/users"
    printf '%s\n' "$scratch/big/client.pcapng" "$scratch/big/peer.pcapng" > "$scratch/cases/no-memory/captures"
    echo $((room + 20)) > "$scratch/cases/no-memory/memory-mb"
    echo "no-memory,3,out of memory,," >> "$scratch/wanted"
    worst=3
else
    echo "fleet: this program takes no limit of memory, not tried"
fi

# The program, but for the first audit of the case `killed`: that one hangs, and says by which numbers its runner and itself are known.
cat > "$scratch/turnaudit" << END
#!/bin/sh
case "\$1 \$*" in
    audit*/cases/killed/*)
        if ! [ -e "\$FLEET_MARK" ]; then
            echo "\$PPID \$\$" > "\$FLEET_MARK.new"
            mv "\$FLEET_MARK.new" "\$FLEET_MARK"
            exec sleep 300
        fi ;;
esac
exec "$program" "\$@"
END
chmod +x "$scratch/turnaudit"
export TURNAUDIT=$scratch/turnaudit

collect() { # RESULTS : the table without seconds and memory
    tools/collect.py "$scratch/cases" "$1" --csv - 2> /dev/null | sed 1d | sed 's/,[^,]*,[^,]*$//'
}

watch() { # RESULTS : collects while the audits run, until there is a file `over`, and notes each row that is neither the last one nor `no result`
    until [ -e "$1/over" ]; do
        collect "$1" | grep -v -x -F -f "$scratch/wanted" | grep -v '^[a-z0-9-]*,-,no result,,$' >> "$1/strange"
        echo >> "$1/looks"
    done
}

compare() { # ENGINE RESULTS
    collect "$2" > "$scratch/found"
    if diff "$scratch/wanted" "$scratch/found"; then tell "the table by $1" yes; else tell "the table by $1" no; fi
    tools/collect.py "$scratch/cases" "$2" --csv "$2/table.csv" > "$2/table" 2> /dev/null
    status=$?
    ok=no
    if [ "$status" = "$worst" ] && [ "$(wc -l < "$2/table")" = "$(sed -n '$=' "$2/table.csv")" ] && cut -d, -f1-5 "$2/table.csv" | sed 1d | cmp -s - "$scratch/wanted"; then ok=yes; fi
    tell "the worst status and the files by $1" "$ok"
    ok=no
    if [ -s "$2/looks" ] && ! [ -s "$2/strange" ]; then ok=yes; else head -5 "$2/strange"; fi
    tell "the table while audits run by $1" "$ok"
    ok=no
    if [ -z "$(find "$2" -name '.*.*')" ] && sed 1d "$2/ams-1/inputs" | sha256sum --quiet --check && grep -q "^$(sha256sum < "$scratch/cases/ams-1/policy" | cut -d' ' -f1)  " "$2/ams-1/inputs"; then ok=yes; fi
    tell "the hashes by $1, and nothing left" "$ok"
    echo "fleet: by $1 in $3 seconds, looked at $(wc -l < "$2/looks") times meanwhile"
}

if command -v parallel > /dev/null && parallel --version 2> /dev/null | grep -q '^GNU parallel'; then
    results=$scratch/by_parallel
    mkdir "$results"
    export FLEET_MARK=$scratch/mark_of_parallel
    begin=$SECONDS
    watch "$results" &
    watching=$!
    examples/fleet/by_parallel "$scratch/cases" "$results" --jobs 2 > "$scratch/told" 2>&1 &
    running=$!
    started+=("$watching" "$running")
    if await 60 test -e "$FLEET_MARK"; then
        read -r runner hanging < "$FLEET_MARK"
        kill -KILL "$runner" "$hanging"
    fi
    wait "$running"
    status=$?
    ok=no
    if [ "$status" = 0 ]; then ok=yes; else cat "$scratch/told"; fi
    tell "parallel has a result of each job" "$ok"
    touch "$results/over"
    wait "$watching"
    compare "GNU parallel" "$results" $((SECONDS - begin))
else
    echo "fleet: no GNU parallel, not tried"
fi

start_slurm() { # a controller and a node of this test's own
    mkdir "$scratch/slurm" "$scratch/slurm/state" "$scratch/slurm/spool"
    read -r port other < <(python3 -c '
import socket
held = [socket.create_server(("127.0.0.1", 0)) for _ in range(2)]
print(*(one.getsockname()[1] for one in held))')
    cat > "$scratch/slurm/slurm.conf" << END
ClusterName=fleet
SlurmctldHost=$(hostname -s)(127.0.0.1)
SlurmctldPort=$port
SlurmdPort=$other
AuthType=auth/none
CredType=cred/none
AuthInfo=cred_expire=5
SlurmUser=$(id -un)
SlurmdUser=$(id -un)
StateSaveLocation=$scratch/slurm/state
SlurmdSpoolDir=$scratch/slurm/spool
SlurmctldPidFile=$scratch/slurm/slurmctld.pid
SlurmdPidFile=$scratch/slurm/slurmd.pid
SlurmctldLogFile=$scratch/slurm/slurmctld.log
SlurmdLogFile=$scratch/slurm/slurmd.log
ProctrackType=proctrack/pgid
TaskPlugin=task/none
JobAcctGatherType=jobacct_gather/none
MpiDefault=none
MailProg=/bin/true
SelectType=select/cons_tres
SelectTypeParameters=CR_CPU_Memory
SlurmdParameters=config_overrides
SchedulerParameters=sched_interval=2,bf_interval=2
ReturnToService=2
KillWait=2
NodeName=fleet1 NodeHostname=$(hostname -s) NodeAddr=127.0.0.1 CPUs=2 RealMemory=2048 State=UNKNOWN
PartitionName=fleet Nodes=fleet1 Default=YES MaxTime=INFINITE State=UP
END
    export SLURM_CONF=$scratch/slurm/slurm.conf
    slurmctld -D > "$scratch/slurm/said" 2>&1 &
    started+=("$!")
    slurmd -D -N fleet1 >> "$scratch/slurm/said" 2>&1 &
    started+=("$!")
    await 30 has_node
}

has_node() {
    [ "$(sinfo -h -o %t 2> /dev/null)" = idle ]
}

if command -v slurmctld > /dev/null && command -v slurmd > /dev/null && command -v sbatch > /dev/null; then
    if start_slurm; then
        results=$scratch/by_slurm
        mkdir "$results"
        export FLEET_MARK=$scratch/mark_of_slurm
        begin=$SECONDS
        watch "$results" &
        watching=$!
        started+=("$watching")
        count=$(examples/fleet/run_case "$scratch/cases" | wc -l)
        sbatch --quiet --array=0-$((count - 1))%2 --output="$results/slurm-%a.out" examples/fleet/array.sbatch "$top/examples/fleet/run_case" "$scratch/cases" "$results"
        if await 60 test -e "$FLEET_MARK"; then
            read -r runner hanging < "$FLEET_MARK"
            kill -KILL "$runner" "$hanging"
        fi
        ok=no
        if await 120 queue_is_empty; then ok=yes; else squeue -r; fi
        tell "Slurm has a result of each job" "$ok"
        touch "$results/over"
        wait "$watching"
        compare Slurm "$results" $((SECONDS - begin))
    else
        tail -5 "$scratch"/slurm/*.log "$scratch/slurm/said"
        tell "Slurm starts" no
    fi
else
    echo "fleet: no slurmctld, slurmd and sbatch, not tried"
fi

# By the number that Kubernetes gives a pod, and by one that no case has.
results=$scratch/by_index
JOB_COMPLETION_INDEX=2 examples/fleet/run_case "$scratch/cases" "$results" && JOB_COMPLETION_INDEX=9 examples/fleet/run_case "$scratch/cases" "$results" 2> "$scratch/told"
status=$?
ok=no
if [ "$status" = 1 ] && [ "$(cat "$scratch/told")" = "run_case: JOB_COMPLETION_INDEX is 9, and $scratch/cases has $(ls "$scratch/cases" | wc -l) cases, counted from 0" ] \
    && [ "$(ls "$results")" = cdg-1 ] && [ "$(cat "$results/cdg-1/status")" = 2 ]; then ok=yes; fi
tell "a case by its number" "$ok"

count_as() { # STATUS VERDICT WANTED : what collect ends with where the one case has this status and verdict; no status: no result
    rm -rf "$scratch/one"
    mkdir -p "$scratch/one/cases/it" "$scratch/one/results/it"
    touch "$scratch/one/cases/it/policy" "$scratch/one/results/it/stderr"
    (cd "$scratch/one/results/it" && printf 'turnaudit-report 1\n%s\n' "$2" > report && echo 0.10 > seconds && echo 1024 > memory-kb && if [ -n "$1" ]; then echo "$1" > status; fi)
    tools/collect.py "$scratch/one/cases" "$scratch/one/results" > /dev/null 2>&1
    ended=$?
    ok=no
    if [ "$ended" = "$3" ]; then ok=yes; fi
    tell "status '$1' with '$2' counts as $3, not $ended" "$ok"
}

count_as 0 "conforming 2 datagrams 1 lanes" 0
count_as 0 "conforming 0 datagrams 0 lanes" 1
count_as 1 "not shown" 1
count_as 137 "" 137
count_as "" "" 6

if python3 tests/fleet_job.py; then tell job.yaml yes; else tell job.yaml no; fi
echo "fleet: $passed passed, $failed failed"
[ "$failed" = 0 ]
