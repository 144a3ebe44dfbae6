"""Tests of fmm fleet on Slurm and Dask: the daemons are started here, and ended after the tests."""
import json
import os
import shutil
import signal
import socket
import subprocess

from .place import PYTHON, check, run_all, wait_for

# ---- Slurm

class Daemons:
    """Processes that end with the test."""

    def __init__(self):
        self.processes = []

    def start(self, *words, env=None, log=os.devnull):
        with open(log, "ab") as file:
            process = subprocess.Popen(words, stdin=subprocess.DEVNULL, stdout=file, stderr=file, env={**os.environ, **(env or {})})
        self.processes.append(process)
        return process

    def end(self):
        for process in reversed(self.processes):
            if process.poll() is None:
                process.terminate()
                try:
                    process.wait(5)
                except subprocess.TimeoutExpired:
                    process.kill()
                    process.wait()


def free_port():
    with socket.socket() as server:
        server.bind(("127.0.0.1", 0))
        return server.getsockname()[1]


def start_slurm(place, daemons):
    """One host with four processors."""
    folder, host = place.path("slurm"), socket.gethostname().split(".")[0]
    for name in ("state", "spool", "munge"):
        os.makedirs(os.path.join(folder, name))
    key = f"{folder}/munge/key"
    with open(key, "wb") as file:
        file.write(os.urandom(1024))
    os.chmod(key, 0o400)
    daemons.start("munged", "--foreground", "--force", f"--key-file={key}", f"--socket={folder}/munge/socket",
                  f"--pid-file={folder}/munge/pid", f"--log-file={folder}/munge/log", f"--seed-file={folder}/munge/seed")
    with open(f"{folder}/slurm.conf", "w") as file:
        file.write(f"""ClusterName=fleet
SlurmctldHost={host}(127.0.0.1)
SlurmctldPort={free_port()}
SlurmdPort={free_port()}
SlurmUser=root
SlurmdUser=root
AuthType=auth/munge
AuthInfo=socket={folder}/munge/socket,cred_expire=5
StateSaveLocation={folder}/state
SlurmdSpoolDir={folder}/spool
SlurmctldPidFile={folder}/slurmctld.pid
SlurmdPidFile={folder}/slurmd.pid
SlurmctldLogFile={folder}/slurmctld.log
SlurmdLogFile={folder}/slurmd.log
ProctrackType=proctrack/pgid
TaskPlugin=task/none
SwitchType=switch/none
MpiDefault=none
JobAcctGatherType=jobacct_gather/none
SelectType=select/cons_tres
SelectTypeParameters=CR_Core
SchedulerParameters=batch_sched_delay=0,sched_interval=1,sched_min_interval=10000,bf_interval=1
ReturnToService=2
KillWait=1
NodeName={host} NodeAddr=127.0.0.1 CPUs=4 RealMemory=2000
PartitionName=all Nodes={host} Default=YES MaxTime=INFINITE State=UP
""")
    env = {"SLURM_CONF": f"{folder}/slurm.conf"}
    wait_for(lambda: os.path.exists(f"{folder}/munge/socket"), 10)
    daemons.start("slurmctld", "-D", env=env)
    daemons.start("slurmd", "-D", env=env)

    def idle():
        done = subprocess.run(["sinfo", "-h", "-o", "%t"], capture_output=True, text=True, env={**os.environ, **env})
        return done.stdout.strip() == "idle"
    if not wait_for(idle, 20):
        raise RuntimeError(f"Slurm does not start; see {folder}/slurmctld.log")
    return env


def test_slurm(place):
    daemons = Daemons()
    try:
        env = start_slurm(place, daemons)
        slurm_cases(place, env)
    except RuntimeError as fault:
        check("slurm", False, str(fault))
    finally:
        daemons.end()


def slurm_cases(place, env):
    more = ("--engine", "slurm", "--points", "600", "--memory", "300", "--jobs", "4")

    def killed():
        program = place.stub("slurm_killing", 'if mkdir "$mark" 2>/dev/null; then kill -9 $PPID; sleep 5; fi')
        done = place.fleet("slurm_killed", *more, program=program, env=env)
        check("Slurm: a task was killed", os.path.isdir(program + ".mark"))
        place.good("Slurm: a task killed", "slurm_killed", done)

    def interrupted():
        program = place.stub("slurm_holding",
                             'if [ -e "$mark" ] && ! mkdir "$mark.first" 2>/dev/null; then echo > "$mark.held"; sleep 60; fi')
        open(program + ".mark", "w").close()
        process = subprocess.Popen(place.words("slurm_broken", *more, program=program), stderr=subprocess.DEVNULL,
                                   env={**os.environ, **env})
        check("Slurm: a task at work", wait_for(lambda: os.path.exists(program + ".mark.held") and place.parts("slurm_broken")))
        process.send_signal(signal.SIGKILL)
        process.wait()
        os.remove(program + ".mark")
        before = len(place.parts("slurm_broken"))
        done = place.fleet("slurm_broken", *more, program=program, env=env)
        place.good("Slurm: after an interruption", "slurm_broken", done)
        again = int(done.stderr.split("matched before")[1].split()[0]) if done.returncode == 0 else -1
        check("Slurm: only what is missing", again >= before > 0, done.stderr)
        check("Slurm: the task that was held is cancelled", not os.path.exists(place.path("slurm_broken/slurm/job")))

    def unfit():
        done = place.fleet("slurm_unfit", "--engine", "slurm", "--memory", "999999", env=env)
        place.refused("Slurm: more memory than a host has", done, "sbatch: ")

    def pattern():
        done = place.fleet("slurm %j", *more, env=env)
        place.good("Slurm: a folder named like a pattern", "slurm %j", done)
        check("Slurm: its logs are there", os.listdir(place.path("slurm %j/logs")))

    def foreign():
        """The job of somebody else, whose number is in the folder, goes on."""
        words = ["sbatch", "--parsable", "--hold", "--wrap", "true", f"--output={place.path('foreign.log')}"]
        job = subprocess.run(words, capture_output=True, text=True, env={**os.environ, **env}).stdout.strip()
        place.fleet("slurm_foreign", "--points", "600", "--engine", "none")
        os.makedirs(place.path("slurm_foreign/slurm"))
        with open(place.path("slurm_foreign/slurm/job"), "w") as file:
            file.write(job)
        place.good("Slurm: a number of another job", "slurm_foreign", place.fleet("slurm_foreign", *more[:4], env=env))
        state = subprocess.run(["squeue", "-h", "-j", job, "-o", "%T"], capture_output=True, text=True,
                               env={**os.environ, **env}).stdout
        check("Slurm: the other job is not cancelled", state == "PENDING\n", state)
        subprocess.run(["scancel", job], env={**os.environ, **env})

    run_all([killed, interrupted, unfit, pattern, foreign])


# ---- Dask

def test_dask(place):
    daemons = Daemons()
    try:
        folder = place.path("dask")
        os.makedirs(folder)
        note, log = f"{folder}/scheduler.json", f"{folder}/log"
        scheduler = daemons.start("dask-scheduler", "--port", "0", "--host", "127.0.0.1", "--no-dashboard", "--scheduler-file", note, log=log)
        workers = [daemons.start("dask-worker", "--scheduler-file", note, "--nthreads", "1", "--no-nanny", "--no-dashboard",
                                 "--memory-limit", "0", "--local-directory", folder, log=log) for _ in range(2)]
        if not wait_for(lambda: os.path.exists(note) and os.path.getsize(note), 30):
            raise RuntimeError("the scheduler does not start")
        with open(note) as file:
            address = json.load(file)["address"]
        program = place.stub("dask_killing",
                             'if mkdir "$mark" 2>/dev/null; then kill -9 $(cut -d " " -f 4 /proc/$PPID/stat); sleep 5; fi')
        done = place.fleet("dask_killed", "--engine", "dask", "--points", "600", program=program,
                           env={"DASK_SCHEDULER_ADDRESS": address})
        check("Dask: one of two workers was killed", sorted(worker.poll() is None for worker in workers) == [False, True])
        place.good("Dask: a worker killed", "dask_killed", done)
        address = {"DASK_SCHEDULER_ADDRESS": address}
        for worker in workers:
            worker.kill()
        done = place.fleet("dask_alone", "--engine", "dask", "--points", "600", "--wait", "3", env=address)
        place.refused("Dask: no worker", done, "no worker of Dask within 3 seconds")
        check("Dask: it says what it waits for", "waiting for worker of Dask; --wait" in done.stderr, done.stderr)
        scheduler.kill()
        scheduler.wait()
        done = place.fleet("dask_alone", "--engine", "dask", "--points", "600", "--wait", "3", env=address)
        place.refused("Dask: no scheduler", done, "no Dask scheduler at tcp")
    except RuntimeError as fault:
        check("dask", False, str(fault))
    finally:
        daemons.end()


def engines():
    """The engine tests that can run here; says why others cannot."""
    wanted = os.environ.get("FLEET_ENGINES", "")
    tests = []
    programs = ("munged", "slurmctld", "slurmd", "sbatch", "squeue", "scontrol", "scancel", "sinfo")
    missing = [name for name in programs if not shutil.which(name)]
    reasons = {"slurm": "it is not root" if os.getuid() else f"there is no {missing[0]}" if missing else "",
               "dask": "there is no dask-scheduler" if not shutil.which("dask-scheduler") else
               f"{PYTHON} has no distributed" if subprocess.run(
                   [PYTHON, "-c", "import importlib.util as u, sys; sys.exit(not u.find_spec('distributed'))"]).returncode else ""}
    for name, test in (("slurm", test_slurm), ("dask", test_dask)):
        why = reasons[name] or ("FLEET_ENGINES=0" if wanted == "0" else "")
        if not why:
            tests.append(test)
        elif wanted == "1":
            check(name, False, why)
        else:
            print(f"tests/fleet: left out: fleets by {name.title()}, since {why}", flush=True)
    return tests
