"""What the scripts of this folder share: how each binding is built, tested and run over the library in out/lib."""
import os
import re
import shlex
import shutil
import subprocess
import sys
import sysconfig
import tempfile
from pathlib import Path

HERE = Path(__file__).resolve().parent
TOP = HERE.parent
LIB = TOP / "out" / "lib"
BUILT = TOP / "out" / "bindings"

NODE_HEADER, PYTHON_HEADER = "node_api.h", "Python.h"

# Each binding, with the commands and the header that it needs, and the Debian packages that have them.
ALL = {
    "c": {"cc": "gcc", "pkg-config": "pkg-config"},
    "python": {"python3": "python3", PYTHON_HEADER: "python3-dev", "cc": "gcc"},
    "rust": {"cargo": "cargo", "cc": "gcc"},
    "go": {"go": "golang-go", "cc": "gcc", "pkg-config": "pkg-config"},
    "node": {"node": "nodejs", NODE_HEADER: "libnode-dev", "cc": "gcc", "pkg-config": "pkg-config"},
}

DOCUMENTS = 10_000


def has_library(script):
    """Whether the library is built; says so if it is not."""
    if (LIB / "pkgconfig" / "vorxindak.pc").exists():
        return True
    print(f"{script}: there is no library; `./library` builds it", file=sys.stderr)
    return False


def is_there(needed):
    """Whether a command is found, or the header of node's or Python's."""
    if needed == PYTHON_HEADER:
        return Path(sysconfig.get_path("include"), PYTHON_HEADER).exists()
    if needed != NODE_HEADER:
        return shutil.which(needed) is not None
    node = shutil.which("node")
    return node is not None and (Path(node).resolve().parent.parent / "include" / "node" / NODE_HEADER).exists()


def missing(name):
    """What a binding needs, and is neither there nor can be installed."""
    lacking = [it for it in ALL[name] if not is_there(it)]
    if lacking and os.geteuid() == 0 and shutil.which("apt-get"):
        packages = sorted({ALL[name][it] for it in lacking})
        for words in (["update"], ["install", "-y", "--no-install-recommends", *packages]):
            subprocess.run(["apt-get", *words], stdout=subprocess.DEVNULL, stderr=subprocess.DEVNULL)
        lacking = [it for it in lacking if not is_there(it)]
    return lacking


def environment():
    """The environment in which the bindings find the library and keep what they build out of their folders."""
    return {
        **os.environ,
        "PKG_CONFIG_PATH": str(LIB / "pkgconfig"),
        "LD_LIBRARY_PATH": str(LIB),
        "VORXINDAK_LIB_DIR": str(LIB),
        "VORXINDAK_LIBRARY": str(LIB / "libvorxindak.so"),
        "CARGO_TARGET_DIR": str(BUILT / "rust"),
        "PYTHONDONTWRITEBYTECODE": "1",
        "PYTHONPATH": str(HERE / "python"),
        "GOFLAGS": "-buildvcs=false",
    }


def runs(words, folder):
    """Whether a command ends with 0."""
    return subprocess.run([str(it) for it in words], cwd=folder, env=environment(), stdin=subprocess.DEVNULL).returncode == 0


def compiles(source, binary):
    """Whether a program in C is built against the library."""
    asked = subprocess.run(["pkg-config", "--cflags", "--libs", "vorxindak"], env=environment(), stdout=subprocess.PIPE)
    flags = shlex.split(asked.stdout.decode())
    binary.parent.mkdir(parents=True, exist_ok=True)
    return asked.returncode == 0 and runs(["cc", "-O2", "-Wall", "-Wextra", "-Werror", source, *flags, "-o", binary], HERE / "c")


def passes_c():
    """Whether the example ends as its first lines say."""
    binary, data = BUILT / "example", TOP / "crates" / "lint" / "data" / "shop"
    if not compiles("example.c", binary):
        return False
    statuses = {"account_overview": 0, "unknown_field": 1}
    for name, status in statuses.items():
        words = [binary, data / "schema.graphql", data / "queries" / f"{name}.graphql"]
        if subprocess.run(words, env=environment(), stdout=subprocess.DEVNULL).returncode != status:
            return False
    return True


def forms(name):
    """The forms of a binding by their names, each with the words by which its programs take it."""
    return {"python": [], "python (ctypes)": ["--ctypes"]} if name == "python" else {name: []}


def has_graphql():
    """Whether graphql-core 3 is there, by which the example for Python executes."""
    words = ["python3", "-c", "from graphql import build_schema"]
    return subprocess.run(words, stderr=subprocess.DEVNULL).returncode == 0


def passes_examples(name):
    """Whether the requests to the server of a binding are answered right, where it has one."""
    folder = HERE / "examples" / f"{name}_server"
    if name == "python" and not has_graphql():
        print("  no graphql-core 3: the server that executes by it is not tested", flush=True)
        return True
    words = {"python": ["python3", "test.py"], "go": ["go", "test", "-count=1", "./..."]}
    return name not in words or runs(words[name], folder)


def passes(name):
    """Whether the tests of a binding and of its server pass."""
    return passes_tests(name) and passes_examples(name)


def passes_tests(name):
    """Whether the tests of a binding pass."""
    if name == "c":
        return passes_c()
    if name in ("node", "python") and not runs(["./compile"], HERE / name):
        return False
    words = {
        "python": ["python3", "test.py"],
        "rust": ["cargo", "test", "--offline", "--quiet"],
        "go": ["go", "test", "-count=1", "./..."],
        "node": ["node", "--test", "test.js"],
    }
    return all(runs([*words[name], *form], HERE / name) for form in forms(name).values())


def many(name):
    """The command of a binding's program that validates as many documents as a further word says; None if it has none."""
    if name == "c":
        return [BUILT / "many"] if compiles("many.c", BUILT / "many") else None
    if name == "python":
        return [shutil.which("python3"), HERE / "python" / "many.py"] if runs(["./compile"], HERE / "python") else None
    if name == "rust":
        built = runs(["cargo", "build", "--offline", "--quiet", "--release", "--example", "many"], HERE / "rust")
        return [BUILT / "rust" / "release" / "examples" / "many"] if built else None
    if name == "go":
        return [BUILT / "many_go"] if runs(["go", "build", "-o", BUILT / "many_go", "./many"], HERE / "go") else None
    return ["node", HERE / "node" / "many.js"] if runs(["./compile"], HERE / "node") else None


def under_valgrind(words, options, **variables):
    """What a command writes and what valgrind says of it, or None where it fails."""
    with tempfile.NamedTemporaryFile(suffix=".log") as log:
        words = ["valgrind", f"--log-file={log.name}", *options, *words]
        variables = {**environment(), "GODEBUG": "asyncpreemptoff=1", **variables}
        ran = subprocess.run([str(it) for it in words], env=variables, stdout=subprocess.PIPE, stdin=subprocess.DEVNULL)
        said = Path(log.name).read_text("utf-8", "replace")
    return None if ran.returncode else (ran.stdout.decode(), said)


def faults_of(said):
    """The faults that valgrind found in the library or in memory that it asked for.

    Valgrind does not know the memory that Go hands out: it takes each use of it for a fault, and names a segment. Node
    does not free the handle itself, which is closed, at its end.
    """
    records = re.split(r"(?m)^==\d+== *\n", said)
    kinds = r"Invalid (?:read|write|free)|definitely lost in|uninitialised|Mismatched"
    found = [it for it in records if re.search(kinds, it) and "vorxindak" in it]
    known = r"is in a rw- anonymous segment|\d bytes in 1 blocks are definitely lost(?s:.*)by 0x\w+: create \(in [^\n]*vorxindak.node"
    return [it for it in found if not re.search(known, it)]


def holds_memory(name):
    """Whether many documents through each form of a binding leave no fault and no leak of the library."""
    words = many(name)
    return bool(words) and all([holds_memory_of(form, [*words, *more]) for form, more in forms(name).items()])


def holds_memory_of(form, words):
    """Whether the many documents of a program leave no fault and no leak of the library."""
    options = ["--leak-check=full", "--show-leak-kinds=definite", "--num-callers=40", "--error-limit=no"]
    ran = under_valgrind([*words, DOCUMENTS], options, PYTHONMALLOC="malloc")
    if ran is None:
        return False
    written, said = ran
    faults = faults_of(said)
    print(*faults[:3], sep="\n", end="\n" if faults else "")
    print(f"  {form}: {DOCUMENTS} documents with {written.strip()} errors: {len(faults)} faults of memory", flush=True)
    return not faults
