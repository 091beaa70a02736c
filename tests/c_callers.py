"""The tests of the examples in C: the reader of plans, plan.h, and the loader."""

import glob
import itertools
import os
import random
import re
import shutil
import struct
import sys

import loader_cases
import plan_texts
from whole_runs import TOP, bytes_of, objects_with, run_command, shown, skip
from toolkit import processes, repository, unproved

C = os.path.join(TOP, "examples", "c")
LOADER, READER = os.path.join(C, "loader.c"), os.path.join(TOP, "tests", "read_plans.c")
SCRIPT = os.path.join(TOP, "examples", "load_plan.py")
OBJECTS = os.path.join(TOP, "tests", "objects")
STRICT = ["-std=c99", "-Wall", "-Wextra", "-Wshadow", "-Werror", "-I", C]
SANITIZED = ["-g", "-O1", "-fsanitize=address,undefined", "-fno-sanitize-recover=all"]
# The loader ends with its programs loaded, and gives nothing back before.
LOADER_ENVIRONMENT = {"ASAN_OPTIONS": "detect_leaks=0"}
# What is changed at random: the same in each run.
SEED, TEXTS, FILES, OBJECT_CHANGES = 82, 4000, 200, 300


class Compiler:
    """A C compiler, and the options for programs that check themselves, where it has them."""

    def __init__(self, name, folder):
        self.name, self.folder = name, folder
        path = os.path.join(folder, "probe.c")
        with open(path, "w", encoding="ascii") as file:
            file.write("int main(void) { return 0; }\n")
        probe = os.path.join(folder, "probe")
        is_sanitized = run_command([name, *SANITIZED, path, "-o", probe]).status == 0 and run_command([probe]).status == 0
        self.options = SANITIZED if is_sanitized else ["-g", "-O1"]
        if not is_sanitized:
            skip(f"sanitizers: {name} hasn't got them")

    def build(self, count, program, words):
        """Builds a program without a warning, and gives its path."""
        path = os.path.join(self.folder, program)
        said = run_command([self.name, *STRICT, *self.options, *words, "-o", path])
        count.check(f"{self.name} builds {program}", said == (0, b"", b""), shown(said.err))
        return path


def read_plans(program, way, path):
    """What a reader prints of a file of texts, as lines."""
    said = run_command([program, way, path] if way else [program, path])
    return said.out.decode().splitlines() if said.status == 0 else [f"status {said.status}: {shown(said.err)[-300:]}"]


def exercises():
    """The program whose `Plan::read` is compared with: the proved one, or else one of the same sources without a proof."""
    for path in (repository.program_file("exercises"), unproved.kept_file("exercises")):
        if repository.is_current(path, "exercises"):
            return path
    return skip("Plan::read: the program exercises isn't built (`bin/run_program exercises read-plans` builds it)")


def check_changed_bytes(count, reader, program):
    """Plans with each byte set to each other value."""
    for name in plan_texts.ROWS:
        path = os.path.join(TOP, "tests", "rows", name, "stdout")
        given, wanted = read_plans(reader, "changed", path), plan_texts.changed_lines(bytes_of(path))
        for at, (line, other) in enumerate(zip(given, wanted)):
            count.check(f"plan.h on {name}, byte {at}", line == other, f"{line}, wanted {other}")
        count.check(f"plan.h on the bytes of {name}", len(given) == len(wanted), given[-1:])
        if program == repository.program_file("exercises"):  # without a proof this takes hours
            count.check(f"Plan::read on {name}", read_plans(program, "changed-lines", path) == given)


def plan_files():
    rows = [path for path in glob.glob(os.path.join(TOP, "tests", "rows", "*", "stdout")) if bytes_of(path).startswith(b"bpf-plan")]
    exercise = os.path.join(TOP, "tests", "exercises", "read-plans", "*.plan")
    return sorted(rows) + sorted(glob.glob(exercise)) + sorted(glob.glob(os.path.join(OBJECTS, "*.plan")))


def texts_of_plans():
    """Texts of plans, as they are and changed: the same ones in each run."""
    texts = [bytes_of(path) for path in plan_files()]
    small = [text for text in texts if len(text) < 20000]
    source = random.Random(SEED)
    return texts + [plan_texts.changed_text(source.choice(small), small, source) for _ in range(TEXTS)]


def line_said(text):
    """The line that `exercises read-plans` says a text is refused at, 0 where it is read."""
    refused = re.search(r": refused at line (\d+)$", text)
    return refused[1] if refused else "0" if ": read" in text else text


def check_texts(count, readers, folder, program):
    """Readers on texts that are changed at random; `readers` have the words before a file's name by a reader's name."""
    texts, path = texts_of_plans(), os.path.join(folder, "texts")
    with open(path, "wb") as file:
        file.write(b"".join(struct.pack("<I", len(text)) + text for text in texts))
    wanted = [str(plan_texts.refused_line(text)) for text in texts]
    read = wanted.count("0")
    count.check("changed texts are read and refused", TEXTS // 20 < read < len(texts) // 2, f"{read} of {len(texts)} are read")
    for name, words in readers.items():
        given = run_command([*words, path]).out.decode().splitlines()
        wrong = [at for at, line in enumerate(wanted) if given[at : at + 1] != [line]]
        count.check(f"{name} on {len(texts)} texts", not wrong, [(texts[at][-200:], wanted[at]) for at in wrong[:2]])
    if program:
        names = [os.path.join(folder, f"{at}.plan") for at in range(FILES)]
        for name, text in zip(names, texts[-FILES:]):
            with open(name, "wb") as file:
                file.write(text)
        said = run_command([program, "read-plans", *names]).out.decode().splitlines()
        count.check("Plan::read on changed texts", [line_said(line) for line in said] == wanted[-FILES:])


def check_reader(count, compiler, folder, other_readers):
    """plan.h takes what `Plan::read` takes, gives all that is in it, and reads nothing beside the text."""
    reader, program = compiler.build(count, "read_plans", ["-pedantic", READER]), exercises()
    as_cxx = ["g++", "-std=c++11", "-Wall", "-Wextra", "-Werror", "-x", "c++", "-fsyntax-only", os.path.join(C, "plan.h")]
    if shutil.which("g++"):
        said = run_command(as_cxx)
        count.check("plan.h is C++ too", said.status == 0, shown(said.err))
    else:
        skip("plan.h in C++: there is no g++")
    check_changed_bytes(count, reader, program)
    check_texts(count, {"plan.h": [reader, "texts"], **other_readers}, folder, program)


# The loader.


def run_loader(program, words, **how):
    return run_command([program, *words], env={**os.environ, **LOADER_ENVIRONMENT, **how.pop("env", {})}, **how)


def stored_plans():
    for plan in sorted(glob.glob(os.path.join(OBJECTS, "*.little.plan"))):
        yield os.path.basename(plan)[: -len(".little.plan")], plan, plan[: -len("plan")] + "o"


def plan_of_kinds(folder):
    """A plan with a program of each kind and each of its fields."""
    kinds = [(kind, *fields) for kind in range(plan_texts.KINDS)
             for fields in itertools.product(*(range(most + 1) for most in plan_texts.FIELDS.get(kind, (0, 0))))]
    path = os.path.join(folder, "kinds.plan")
    with open(path, "w", encoding="ascii") as file:
        programs = (loader_cases.program(f"p{at:02}", kind=" ".join(map(str, kind))) for at, kind in enumerate(kinds))
        file.write(loader_cases.plan_of(["types none", *programs]))
    return path


def check_dry_runs(count, loader, folder):
    """The calls that load a plan are those of load_plan.py."""
    for name, plan, path in [*stored_plans(), ("each kind", plan_of_kinds(folder), os.path.join(TOP, "examples", "trace_unlink.o"))]:
        for words in ([plan], ["--object", path, plan]):
            script = run_command([sys.executable, SCRIPT, "--dry-run", *words])
            said = run_loader(loader, ["--dry-run", *words])
            wanted = (script.status, script.out, sorted(script.err.replace(b"load_plan.py:", b"loader:").splitlines()))
            given = (said.status, said.out, sorted(said.err.splitlines()))
            count.check(f"calls for {name}, {len(words)} words", given == wanted, given)


def attaching(name, section, kind):
    """The call that attaches a program, by its section's name and its kind; nothing where it is attached to no such thing."""
    target = section.partition("/")[2]
    events = {"KProbe": "kprobe", "KRetProbe": "kretprobe", "TracePoint": "tracepoint"}
    if kind in events:
        return f"perf_event_open {name} {events[kind]} {target}" if target else None
    if kind == "RawTracePoint":
        return f"BPF_RAW_TRACEPOINT_OPEN {name} {target}"
    if kind in ("FEntry", "FExit", "BtfTracePoint", "Lsm"):
        return f"BPF_RAW_TRACEPOINT_OPEN {name} -"
    return f"BPF_LINK_CREATE {name} attach-type 37 interface lo" if section in ("xdp", "xdp.frags") else None


def check_attaching(count, loader, folder):
    """What programs are attached to is what the sections say that `inspect_object` lists."""
    seen, with_map = set(), os.path.join(folder, "with_map.plan")
    for name, plan, path in stored_plans():
        lines = [line.split() for line in bytes_of(path[: -len("o")] + "txt").decode().splitlines()]
        sections = {words[1]: words[3] for words in lines if words[0] == "section"}
        programs = [(words[1], sections[words[3]], words[7]) for words in lines if words[0] == "program"]
        # Programs are attached where a map is watched: each plan gets one more, whose name is below all others.
        map_line = loader_cases.a_map("!", 2**31 - 1).encode()
        with open(with_map, "wb") as file:
            file.write(re.sub(rb"^types .*$", rb"\g<0>\n" + map_line, bytes_of(plan), count=1, flags=re.MULTILINE))
        said = run_loader(loader, ["--dry-run", "--object", path, "--watch", "!", "--interface", "lo", with_map]).out.decode()
        given = sorted(line for line in said.splitlines() if not re.match("BPF_(MAP|PROG|BTF)_", line))
        wanted = sorted(filter(None, (attaching(*program) for program in programs)))
        count.check(f"what programs of {name} are attached to", given == wanted, (given, wanted))
        seen |= {line.split()[0] for line in given}
    count.check("calls that attach", seen == {"perf_event_open", "BPF_RAW_TRACEPOINT_OPEN", "BPF_LINK_CREATE"}, seen)


def check_changed_objects(count, loader, folder):
    """An object with changed bytes is read or refused in one line: nothing is read beside it."""
    path, changed = os.path.join(TOP, "examples", "trace_unlink.o"), os.path.join(folder, "changed.o")
    plan, source = os.path.join(TOP, "tests", "rows", "trace-unlink", "stdout"), random.Random(SEED)
    header_and_sections = [*range(64), *range(int.from_bytes(bytes_of(path)[40:48], "little"), os.path.getsize(path))]
    refused = 0
    for number in range(OBJECT_CHANGES):
        data = bytearray(bytes_of(path))
        for at in source.sample(header_and_sections, 3):
            data[at] = source.choice([0, 1, 8, 127, 128, 255])
        with open(changed, "wb") as file:
            file.write(data)
        said = run_loader(loader, ["--dry-run", "--object", changed, plan])
        is_read = said.status == 0 and said.out.count(b"\n") == 1
        is_refused = (said.status, said.out) == (2, b"") and said.err.count(b"\n") == 1
        refused += is_refused
        count.check(f"changed object {number}", is_read or is_refused, shown(said.out + said.err))
    count.check("changed objects are read and refused", 0 < refused < OBJECT_CHANGES, refused)


def strict(plan):
    """A case's plan with all lines that a plan has; load_plan.py does without that on types."""
    lines = list(plan)
    if isinstance(plan, str) or any(line.startswith("types ") for line in lines):
        return plan
    lines.insert(sum(line.startswith("feature ") for line in lines), "types none")
    return lines


def case_environment(case):
    version, refuses = case.kernel.get("version", (6, 18)), case.kernel.get("refuses", {})
    environment = {
        "STUB_VERSION": ".".join(map(str, version)),
        "STUB_REFUSES": "\n".join(f"{error} {begin}" for begin, error in refuses.items()),
        "STUB_LOG_LINES": str(case.kernel.get("log", b"\n").count(b"\n")),
    }
    return environment if case.kernel.get("has_limit", True) else {**environment, "STUB_NO_LIMIT": "1"}


def renamed(text):
    return text.replace("load_plan.py", "loader").replace("load_plan", "loader")


def cases():
    """The cases of load_plan.py that are those of the loader in C too, with its words. Of a wrong plan it tells the line alone."""
    for case in loader_cases.CASES:
        words = tuple(word.replace("=2", "=fentry/f") for word in case.words)
        if case.name.startswith("a plan with "):
            told = "big-endian" if "big-endian" in case.name else "is no plan: line "
            yield case._replace(plan=strict(case.plan), has=[told])
        elif not case.name.startswith("words ") and case.name != "another machine":
            yield case._replace(plan=strict(case.plan), words=words)


WRONG_WORDS = (
    (("PLAN", "none=kprobe/f"), "no program none"),
    (("PLAN", "trailing"), "trailing isn't PROGRAM=SECTION"),
    (("PLAN", "--object"), "argument --object"),
    (("PLAN", "--dry"), "no option --dry"),
    (("PLAN", "--types", "OBJECT"), "no option --types"),
    (("PLAN", "--watch", "none"), "the plan has no map none"),
    (("none.plan",), "none.plan: No such file"),
    ((), "no plan is named"),
)


def check_cases(count, compiler):
    """The loader over a stub of the calls, which answers as kernels of several versions do."""
    wraps = "-Wl,--wrap=syscall,--wrap=setrlimit,--wrap=uname"
    names = ["-DKERNEL_TYPES=\"kernel\"", "-DPOSSIBLE_PROCESSORS=\"possible\"", "-std=gnu99"]
    loader = compiler.build(count, "stubbed", [*names, LOADER, os.path.join(TOP, "tests", "stub_kernel.c"), wraps])
    wrong = [loader_cases.Case(f"words {' '.join(words)}", ["types none"], 2, [told], words=words) for words, told in WRONG_WORDS]
    for case in [*cases(), *wrong]:
        with processes.folder() as folder:
            said = run_loader(loader, loader_cases.written(case, folder), cwd=folder, env=case_environment(case))
        text = shown(said.out + said.err)
        is_told = all(renamed(words) in text for words in case.has) and not any(renamed(words) in text for words in case.lacks)
        is_one_line = said.status != 2 or said.err.count(b"\n") == 1
        count.check(f"loader: {case.name}", said.status == case.status and is_told and is_one_line, f"{said.status}\n{text}")


def is_permitted(loader, plan):
    """Whether the running kernel lets this process load a program."""
    return run_loader(loader, [plan]).status == 0


def check_loading(count, loader):
    """The running kernel says of each program what it says where load_plan.py loads it."""
    for name, plan, path in stored_plans():
        words = ["--object", path, plan]
        script, said = run_command([sys.executable, SCRIPT, *words]), run_loader(loader, words)
        # Addresses in logs differ from run to run.
        wanted, given = (sorted(re.sub(rb"0x[0-9a-f]{8,}", b"", err).splitlines())
                         for err in (script.err.replace(b"load_plan.py:", b"loader:"), said.err))
        count.check(f"the kernel's answers to {name}", (said.status, said.out, given) == (script.status, script.out, wanted),
                    shown(said.out + said.err))


def check_events(count, *loaders):
    """The loader ends with an event that it has seen."""
    said = run_command([sys.executable, os.path.join(TOP, "tests", "observe_events"), *loaders])
    *lines, last = shown(said.out).splitlines() or [""]
    found = re.fullmatch(r"(\d+) events agree, (\d+) differ", last)
    print("\n".join(lines))
    count.check("events are observed", found, shown(said.out + said.err))
    if found:
        count.agree += int(found[1])
        count.differ += int(found[2])


def words_of_types(words):
    """The words on a kernel of those that a plan is made with, which the loader takes too; nothing where there are others."""
    pairs = list(zip(words[::2], words[1::2]))
    if not {option for option, _value in pairs} <= {b"--map", b"--types", b"--symbols"}:
        return None
    return [os.fsdecode(word) for pair in pairs if pair[0] != b"--map" for word in pair]


def check_object_loader(count, compiler, library):
    """The loader with the library makes the calls of an object's plan, and sees an event."""
    words = ["-DWITH_MORVEZIN", "-I", os.path.join(TOP, "include"), LOADER, os.path.join(library, "libmorvezin.a")]
    loader = compiler.build(count, "loader_of_objects", words)
    plain = os.path.join(compiler.folder, "loader")
    for printed in objects_with("plan"):
        of_types = words_of_types(printed.words)
        if ".little." not in printed.path or of_types is None:
            continue
        said = run_loader(loader, ["--dry-run", "--object", printed.path, *of_types])
        wanted = run_loader(plain, ["--dry-run", "--object", printed.path, printed.path[: -len("o")] + "plan"])
        count.check(f"calls for {os.path.basename(printed.path)}", said == wanted and wanted.out, shown(said.out + said.err))
    refused = run_loader(loader, ["--dry-run", "--object", os.path.join(OBJECTS, "task_reads.big.o")])
    is_told = refused.status == 2 and refused.err.startswith(b"loader: ") and refused.err.count(b"\n") == 1
    count.check("an object that is refused", is_told, shown(refused.err))
    return loader


def check_made_plans(count, loader):
    """The running kernel's verdicts on plans that the loader has made for it, where their kernel isn't a later one."""
    folder = os.path.join(TOP, "tests", "running_kernel")
    verdicts = [line.split(" ", 3) for line in bytes_of(os.path.join(folder, "verdicts")).decode().splitlines()]
    release = [int(number) for number in re.findall(r"\d+", os.uname().release)[:2]]
    if not os.path.exists("/sys/kernel/btf/vmlinux") or any(release < [int(number) for number in it[2].split(".")] for it in verdicts):
        return skip("plans that are made for the running kernel: it has no types, or is older than the verdicts")
    said = {name: run_loader(loader, ["--object", os.path.join(folder, f"{name}.o")]) for name, *_rest in verdicts}
    for name, program, _since, verdict in verdicts:
        out, err = shown(said[name].out), shown(said[name].err)
        if f"program {program} isn't loaded: Operation not permitted\n" in err:
            skip(f"{program} of {name}: not permitted")
        else:
            count.check(f"{program} of {name}", (f"loaded {program}\n" in out) == (verdict == "loads"), out + err)
    return None


def check_loader(count, compiler, library):
    """The loader, also with the library where this is built."""
    loader = compiler.build(count, "loader", ["-pedantic", LOADER])
    check_dry_runs(count, loader, compiler.folder)
    check_attaching(count, loader, compiler.folder)
    check_changed_objects(count, loader, compiler.folder)
    check_cases(count, compiler)
    loaders = [loader, check_object_loader(count, compiler, library)] if library else [loader]
    if not is_permitted(loader, os.path.join(TOP, "tests", "rows", "trace-unlink", "stdout")):
        return skip("loading and attaching: the kernel doesn't permit it")
    check_loading(count, loader)
    check_events(count, *loaders)
    for of_objects in loaders[1:]:
        check_made_plans(count, of_objects)
    return None
