"""What all.py and plot.py measure with: the document of a trial, calls with their time and memory, and the OWL API.

Times are those of the processor, of the user and the system together and of all threads, so that they tell
something on a machine that does other work too. Memory is the most that was held at once (ru_maxrss); where that is
not more than the memory of the caller, it is that of one call more, by /usr/bin/time, which is smaller.
"""

import collections
import glob
import os
import re
import resource
import shutil
import subprocess
import sys
import time

TOP = os.path.dirname(os.path.dirname(os.path.abspath(__file__)))
LIMIT = 600  # seconds of the processor, after which a call is ended
CALLERS = 10000  # kilobytes, which the caller does not take

# Calls a program, and tells what it took in a last line behind what it notes. The system counts a program from the
# memory of its caller on, which is this little one.
CALLER = """
import posix, sys, time
begun = time.monotonic()
child = posix.posix_spawnp(sys.argv[1], sys.argv[1:], posix.environ)
_, status, used = posix.wait4(child, 0)
print(used.ru_utime + used.ru_stime, used.ru_maxrss, time.monotonic() - begun, status, file=sys.stderr)
"""

# What takes part of Debian's libowlapi-java and of what it depends on
JARS = """owlapi-distribution guava caffeine jsr305 commons-io commons-rdf-api atinject-jsr330-api hppcrt xz
    rdf4j-model rdf4j-model-api rdf4j-rio-api rdf4j-util slf4j-api slf4j-nop"""
JARS = [f"/usr/share/java/{name}.jar" for name in JARS.split()]

Call = collections.namedtuple("Call", "seconds kilobytes clock status note")


def tell(text):
    print(text, file=sys.stderr, flush=True)


def call(words, output=os.devnull):
    """Calls a program once, with its output in a file."""
    with open(output, "wb") as file:
        done = subprocess.run([sys.executable, "-IS", "-c", CALLER, *words], stdout=file, stderr=subprocess.PIPE, check=True)
    *notes, told = done.stderr.decode(errors="replace").splitlines()
    seconds, kilobytes, clock, status = told.split()
    return Call(float(seconds), int(kilobytes), float(clock), os.waitstatus_to_exitcode(int(status)), notes[-1] if notes else "")


def little(words, kilobytes):
    """The kilobytes of one call more, by a caller that takes some 1,000. Those that are known where it isn't there."""
    if not os.access("/usr/bin/time", os.X_OK):
        return kilobytes
    done = subprocess.run(["/usr/bin/time", "-f", "%M", *words], stdout=subprocess.DEVNULL, stderr=subprocess.PIPE, check=False)
    return int(done.stderr.splitlines()[-1])


def best(program, words, output=os.devnull, runs=5, enough=3):
    """The quickest of some calls, of fewer where they take enough seconds together. None, which is told, where the
    program doesn't know the words."""
    calls = []
    while len(calls) < runs and sum(it.seconds for it in calls) < enough:
        calls.append(call([program, *words], output))
        if calls[-1].status == 2:
            tell(f"left out, since the program does not know it: {' '.join(words)}")
            return None
        if calls[-1].status not in (0, 1):
            raise SystemExit(f"{' '.join(words)}: status {calls[-1].status}: {calls[-1].note}")
    done = min(calls)
    return done if done.kilobytes > CALLERS else done._replace(kilobytes=little([program, *words], done.kilobytes))


def write_document(name, classes):
    with open(name, "wb") as file:
        subprocess.run([sys.executable, f"{TOP}/tools/make_trial.py", str(classes)], stdout=file, check=True)


def program_at(path):
    """The program, bin/owl if none is named, so that it can be called from any folder, within the limit."""
    path = os.path.abspath(path or f"{TOP}/bin/owl")
    if not os.access(path, os.X_OK):
        raise SystemExit(f"there is no program {path}")
    resource.setrlimit(resource.RLIMIT_CPU, (LIMIT, resource.getrlimit(resource.RLIMIT_CPU)[1]))
    resource.setrlimit(resource.RLIMIT_CORE, (0, 0))
    return path


def owl_api():
    """The words that call OwlApiBench.java, made in this folder. None, which is told, where the OWL API isn't there."""
    if not os.path.exists(JARS[0]) or not shutil.which("javac"):
        tell("left out, since libowlapi-java or a compiler of Java is not there: the OWL API")
        return None
    path = ":".join([*JARS, os.getcwd()])
    subprocess.run(["javac", "-d", ".", "-cp", path, f"{TOP}/bench/OwlApiBench.java"], check=True)
    return ["java", "-cp", path, "OwlApiBench"]


def call_api(api, jobs, output, times=1):
    """Has the OWL API do these jobs, so many times in turn. None, which is told, where it fails."""
    done = call([*api, str(times), *(word for job in jobs for word in job)], output)
    if done.status == 0:
        return done
    tell(f"left out, since the OWL API fails: {'; '.join(map(' '.join, jobs))}: status {done.status}: {done.note}")
    return None


def serdi():
    """The version of serdi. None, which is told, where it isn't there."""
    if not shutil.which("serdi"):
        tell("left out, since it is not there: serdi")
        return None
    return subprocess.run(["serdi", "-v"], stdout=subprocess.PIPE, check=True).stdout.decode().split()[1]


def taken():
    """The seconds of the processors that others have taken, and those of the clock, since the machine began."""
    with open("/proc/stat", encoding="utf-8") as file:
        user, nice, system, _, _, *others = (int(it) for it in file.readline().split()[1:9])
    own = [resource.getrusage(it) for it in (resource.RUSAGE_SELF, resource.RUSAGE_CHILDREN)]
    all_of = (user + nice + system + sum(others)) / os.sysconf("SC_CLK_TCK")
    return all_of - sum(it.ru_utime + it.ru_stime for it in own), time.monotonic()


def machine(api, begun):
    """What measured since something was taken: the processors, what others did with them, the memory, and the versions
    of the OWL API and of Java."""
    seconds, clock = (now - before for now, before in zip(taken(), begun))
    with open("/proc/cpuinfo", encoding="utf-8") as file:
        names = re.findall(r"^model name\s*: (.*)", file.read(), re.MULTILINE) or ["unnamed"]
    name = re.sub(r"\((R|TM)\)", "", names[0])
    memory = os.sysconf("SC_PHYS_PAGES") * os.sysconf("SC_PAGE_SIZE") / 1e9
    told = f"{os.cpu_count()} processors ({name}), of which others took {max(0, seconds / clock):.1f} meanwhile, {memory:.0f} GB"
    if not api:
        return told
    versions = [it.removesuffix(".jar").rpartition("-")[2] for it in glob.glob(JARS[0].replace(".jar", "-*.jar"))]
    java = subprocess.run(["java", "-version"], stderr=subprocess.PIPE, check=True).stderr.decode().split('"')[1]
    return f"{told}; OWL API {' '.join(versions)}, Java {java}"
