#!/usr/bin/env python3
# What is proved and built, and what is made of it. `rt ci` leaves the programs and the libraries that it built in crates/NAME/out, and keeps no word of which texts
# they are of; `mark` writes that down, in target/ci. So what comes after it takes them as they stand; where a text has changed since, `rt` proves and builds anew.
#   proved.py clear                before an `rt ci`: it lays a library only where none stands, so one of an earlier text would stay
#   proved.py mark                 after an `rt ci` that passed
#   proved.py program NAME         a program, crates/NAME/out/NAME. Each crate that is proved for it is said as it comes, on the error stream
#   proved.py archive NAME OUT.a MODULE.bc      a static library, and the LLVM module that it is compiled from
#   proved.py check NAME [FOLDER]  the crate, or the texts of FOLDER in place of its own, over the libraries below it: what the prover says, and its status
#   proved.py sum                  the sum of all that is proved
import contextlib, fcntl, functools, hashlib, os, re, shutil, subprocess, sys, tempfile, time

HERE = os.path.abspath(os.path.join(os.path.dirname(os.path.abspath(__file__)), ".."))
MARK = os.path.join(HERE, "target/ci")
LINE = re.compile(r"^(\w+)( +staticlib)?[^:#\n]*:([^#\n]*)", re.M)
RT = os.environ.get("RT", "rt")


class Failed(Exception):
    """What `rt` or the prover said, where it did not end well."""


def path(*parts):
    return os.path.join(HERE, *parts)


@functools.cache
def crates():
    """What crates.txt says: of each crate the libraries that its line names."""
    with open(path("crates.txt"), encoding="utf-8") as f:
        return {name: below.split() for name, _, below in LINE.findall(f.read())}


@functools.cache
def below(name):
    """The libraries of this tree below a crate, lowest first."""
    found = []
    for one in (n for n in crates()[name] if n in crates()):
        found += [n for n in (*below(one), one) if n not in found]
    return tuple(found)


@functools.cache
def kit():
    """The folder of the kit, and its one-line identity."""
    asked = [subprocess.run([RT, word], stdout=subprocess.PIPE, check=True, text=True).stdout.strip() for word in ("doc", "version")]
    return os.path.dirname(asked[0]), asked[1]


def texts(names):
    """The files that these crates are proved from."""
    files = ["crates.txt"]
    for name in names:
        for part in ("src", "specs", "proofs"):
            for folder, _, inside in os.walk(path("crates", name, part)):
                files += [os.path.relpath(os.path.join(folder, one), HERE) for one in inside]
    return sorted(files, key=lambda f: f.encode())


def digest(file):
    with open(path(file), "rb") as f:
        return hashlib.sha256(f.read()).hexdigest()


def sum_of(names):
    """As by: find crates.txt crates/*/src crates/*/specs crates/*/proofs -type f | LC_ALL=C sort | xargs sha256sum | sha256sum"""
    return hashlib.sha256("".join(f"{digest(f)}  {f}\n" for f in texts(names)).encode()).hexdigest()


def state(names):
    return f"{sum_of(names)} {kit()[1]}"


@contextlib.contextmanager
def alone():
    """One at a time makes something here: as in a pipe, where two programs are asked for at once."""
    os.makedirs(path("target"), exist_ok=True)
    with open(path("target/lock"), "w") as lock:
        fcntl.flock(lock, fcntl.LOCK_EX)
        yield


def program_of(name):
    return f"crates/{name}/out/{name}"


def clear():
    for name in crates():
        shutil.rmtree(path("crates", name, "out/rlib"), ignore_errors=True)


def mark():
    programs = [n for n in crates() if os.path.isfile(path("crates", n, "src/main.rt"))]
    os.makedirs(path("target"), exist_ok=True)
    with open(MARK, "w", encoding="utf-8") as f:
        f.write("".join(f"{line}\n" for line in [state(crates()), *(f"{digest(program_of(n))}  {program_of(n)}" for n in programs)]))
    print(f"{len(programs)} programs and their libraries stand as `rt ci` built them")


@functools.cache
def marked():
    """What the mark says, where it is of this tree."""
    try:
        with open(MARK, encoding="utf-8") as f:
            lines = f.read().split("\n")
    except OSError:
        return []
    return lines if lines[0] == state(crates()) else []


def stands(name):
    """Whether the libraries below a crate stand as `rt ci` left them: those that another `rt` built have a stamp of its own."""
    own = [path("crates", one, "out/rlib") for one in below(name)]
    return bool(marked()) and all(os.path.isfile(f"{at}/{one}.rlib/format") and not os.path.exists(f"{at}/stamp") for one, at in zip(below(name), own))


def rt(name, *words):
    """`rt` in a crate's folder. Each crate that is proved there is said on the error stream."""
    said, crate, began = [], name, time.time()
    with subprocess.Popen([RT, *words], cwd=path("crates", name), stdin=subprocess.DEVNULL, stdout=subprocess.PIPE, stderr=subprocess.STDOUT, errors="replace") as ran:
        for line in ran.stdout:
            said.append(line)
            crate = next(iter(re.findall(r"^crate (\w+): modules loaded=", line)), crate)
            if line.startswith("logic=proved "):
                print(f"proved {crate}, {time.time() - began:.0f} s", file=sys.stderr, flush=True)
                began = time.time()
    return ran.returncode, "".join(said)


def libraries(name):
    """Sees that the libraries below a crate are proved and built."""
    if below(name) and not stands(name):
        status, said = rt(name, "check", "--only", "")
        if status:
            raise Failed(said)


def program(name):
    if f"{digest(program_of(name))}  {program_of(name)}" in marked() if os.path.isfile(path(program_of(name))) else False:
        return
    status, said = rt(name, "run")  # it builds, and then runs it once on nothing; that status is the program's own
    if not re.search(rf"^rt: running out/{name};", said, re.M):
        raise Failed(said)


def words(name):
    """What the prover is given, as `rt` gives it: the crate, its libraries and the logic."""
    home = kit()[0]
    given = ["--crate-name", name, "src/main.rt" if os.path.isfile(path("crates", name, "src/main.rt")) else "src/lib.rt"]
    for one in ("std", *(n for n in crates()[name] if n not in crates())):
        given += ["--extern", f"{one}={home}/rlibs/{one}.rlib"]
    given += ["-L", f"dependency={home}/rlibs"]
    for one in crates()[name]:
        given += ["--extern", f"{one}={path('crates', one, 'out/rlib', one + '.rlib')}"] if one in crates() else []
    for one in below(name):
        given += ["-L", f"dependency={path('crates', one, 'out/rlib')}"]
    given += ["--antt-project", f"{home}/rattle/logic/antt-project.json", "--logic-built", f"{home}/logic_built", "--jobs", "1", "--links", f"{name}="]
    with open(path("crates.txt"), encoding="utf-8") as f:
        is_static = any(kind and one == name for one, kind, _ in LINE.findall(f.read()))
    return given + (["--crate-type", "staticlib"] if is_static else [])


def rattle(verb, name, folder, *more):
    """The prover over the libraries that stand: its status and what it says."""
    ran = subprocess.run([f"{kit()[0]}/bin/rattle", verb, *words(name), *more], cwd=folder, stdin=subprocess.DEVNULL, stdout=subprocess.PIPE, stderr=subprocess.STDOUT, errors="replace")
    return ran.returncode, ran.stdout


def archive(name, out, module):
    """A static library and its module, unless those that are there are of these texts."""
    kept, now = f"{module}.sum", state([*below(name), name])
    if os.path.exists(out) and os.path.exists(module) and os.path.exists(kept) and open(kept, encoding="utf-8").read() == now:
        return
    libraries(name)
    for file in (out, module):
        os.makedirs(os.path.dirname(os.path.abspath(file)), exist_ok=True)
    with tempfile.TemporaryDirectory() as room:
        # the kit's tools as links, but for a compiler that keeps the module which it is given
        tools = f"{kit()[0]}/toolchain"
        os.makedirs(f"{room}/tools/bin")
        for part in ("", "bin/"):
            for one in os.listdir(f"{tools}/{part}"):
                if part + one not in ("bin", "bin/clang"):
                    os.symlink(f"{tools}/{part}{one}", f"{room}/tools/{part}{one}")
        with open(f"{room}/tools/bin/clang", "w") as f:
            f.write(f'#!/bin/sh\nfor a; do case $a in *.bc) cp "$a" "{room}/module.bc" ;; esac; done\nexec "{tools}/bin/clang" "$@"\n')
        os.chmod(f"{room}/tools/bin/clang", 0o755)
        status, said = rattle("build", name, path("crates", name), "--toolchain", f"{room}/tools", "-o", f"{room}/made.a")
        if status:
            raise Failed(said)
        if os.path.exists(kept):
            os.remove(kept)
        for made, file in ((f"{room}/made.a", out), (f"{room}/module.bc", module)):
            shutil.copyfile(made, f"{file}.new")
            os.replace(f"{file}.new", file)
    with open(kept, "w", encoding="utf-8") as f:
        f.write(now)


def main(verb="", *given):
    if verb == "clear" and not given:
        clear()
    elif verb == "mark" and not given:
        mark()
    elif verb == "sum" and not given:
        print(sum_of(crates()))
    elif verb == "program" and len(given) == 1:
        with alone():
            program(*given)
    elif verb == "archive" and len(given) == 3:
        with alone():
            archive(*given)
    elif verb == "check" and len(given) in (1, 2):
        with alone():
            libraries(given[0])
        status, said = rattle("check", given[0], given[1] if len(given) == 2 else path("crates", given[0]))
        print(said, end="")
        return status
    else:
        print("\n".join(line[4:] for line in open(__file__, encoding="utf-8") if line.startswith("#   proved.py")), file=sys.stderr)
        return 2
    return 0


if __name__ == "__main__":
    try:
        sys.exit(main(*sys.argv[1:]))
    except Failed as said:
        print(str(said), end="", file=sys.stderr)
        sys.exit(1)
