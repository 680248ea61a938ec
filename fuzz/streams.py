"""Streams and files of the system that fail: full, closed, broken, unreadable. Each kind of output and input is tried with programs that
print, read, halt and end."""
import itertools
import os
import subprocess

HEAD = "// #Sireum\nimport org.sireum._\nobject X extends App {\n  def main(args: ISZ[String]): Z = {\n"
FOOT = "  }\n}\n"
# Programs, with their status, what they print, and their line
PROGRAMS = {
    "silent": ("    return 3\n", 3, b"", b""),
    "prints": ('    println("one")\n    println(2)\n    return 4\n', 4, b"one\n2\n", b""),
    "reads": ("    val a: Z = Port.get()\n    return a\n", 7, b"", b""),
    "halts": ('    println("one")\n    halt("x")\n    return 0\n', 66, b"one\n", b"halt Halt halts:6\n"),
    "far": ("    return 64\n", 69, b"", b"exit value 64\n"),
}
OUTPUT_FAULT, INPUT_FAULT, FOLDER_FAULT = b"output fault\n", b"input fault\n", b"folder fault\n"


def closed(*numbers):
    """Closes these streams in the child."""

    def close():
        for number in numbers:
            os.close(number)

    return close


def broken_pipe():
    """The writing end of a pipe that nobody reads."""
    reading, writing = os.pipe()
    os.close(reading)
    return os.fdopen(writing, "wb")


def outputs_fail(product):
    """Standard output and standard error that take nothing, with each program."""
    def streams_of(kind, number):
        if kind == "closed":
            return {"preexec_fn": closed(number)}
        stream = open("/dev/full", "wb") if kind == "full" else broken_pipe()
        return {"stdout" if number == 1 else "stderr": stream}

    for (name, (_, status, printed, note)), kind in itertools.product(PROGRAMS.items(), ["full", "closed", "a broken pipe"]):
        wanted = (b"", 75, OUTPUT_FAULT) if printed else (b"", status, note)
        product.compare(f"run {name}, output {kind}", product.slangc("run", name, data=b"\x07", **streams_of(kind, 1)), wanted)
        wanted = (printed, 75 if note else status, b"")
        product.compare(f"run {name}, standard error {kind}", product.slangc("run", name, data=b"\x07", **streams_of(kind, 2)), wanted)
        emitted = product.slangc("emit", "-o", "q", name, **streams_of(kind, 1))
        product.compare(f"emit {name}, output {kind}", emitted, (b"", 75, OUTPUT_FAULT))
        product.compare(f"emit {name}, output {kind}: the C stands", (b"int main(void)" in (product.read("q.c") or b""), 0), (True, 0))
    for kind in ["full", "closed", "a broken pipe"]:
        product.compare(f"check, output {kind}", product.slangc("check", "silent", **streams_of(kind, 1)), (b"", 75, OUTPUT_FAULT))
        product.compare(f"check, standard error {kind}", product.slangc("check", "silent", **streams_of(kind, 2)), (b"accepted\n", 0, b""))
    refused = {64: [], 65: ["run", "/dev/null"], 72: ["run", "away"], 73: ["run", "."], 77: ["run", "silent", "silent"]}
    for (status, words), kind in itertools.product(refused.items(), ["full", "closed", "a broken pipe"]):
        wanted = (b"", status if status in (73, 77) else 75, b"")
        product.compare(f"{words}, standard error {kind}", product.slangc(*words, **streams_of(kind, 2)), wanted)


def inputs_fail(product):
    """Standard input that is closed, a folder, at its end, or open for writing alone."""
    folder = os.open(product.folder, os.O_RDONLY)
    writing = os.open(os.path.join(product.folder, "w"), os.O_WRONLY | os.O_CREAT)
    kinds = {
        "a folder": {"stdin": folder}, "open for writing alone": {"stdin": writing},
        "closed": {"stdin": subprocess.DEVNULL, "preexec_fn": closed(0)},
    }
    for (name, (_, status, printed, note)), (kind, streams) in itertools.product(PROGRAMS.items(), kinds.items()):
        wanted = (b"", 74, INPUT_FAULT) if name == "reads" else (printed, status, note)
        product.compare(f"run {name}, input {kind}", product.slangc("run", name, **streams), wanted)
    os.close(folder)
    os.close(writing)
    product.compare("input at its end", product.slangc("run", "reads", stdin=subprocess.DEVNULL), (b"", 69, b"exit value -1\n"))
    product.compare("all closed", product.slangc("run", "prints", preexec_fn=closed(0, 1, 2)), (b"", 75, b""))


def files_fail(product):
    """Files that can't be opened, read or written."""
    at = product.folder
    os.symlink("circle", os.path.join(at, "circle"))
    os.symlink("/dev/full", os.path.join(at, "full.c"))
    os.mkdir(os.path.join(at, "folder.c"))
    os.symlink("away", os.path.join(at, "dangling"))
    fault = (b"", 73, FOLDER_FAULT)
    for name in [".", "circle", "/proc/self/mem", "/dev/full", "folder.c", "n" * 300, "d/" * 3000]:
        product.compare(f"run {name[:20]}", product.slangc("run", name), fault)
    for name in ["full", "folder", "away/q", "/proc/q", "n" * 254, "/dev/null/q"]:
        product.compare(f"emit -o {name[:20]}", product.slangc("emit", "-o", name, "silent"), fault)
    for name in ["dangling", "silent/below", "/dev/null/x"]:
        product.compare(f"run {name}", product.slangc("run", name), (b"", 72, f"no file {name}\n".encode()))


def check(product, source, count):
    """All of these."""
    del source, count
    for name, (body, _, _, _) in PROGRAMS.items():
        product.write(name, (HEAD + body + FOOT).encode())
    before = product.calls
    outputs_fail(product)
    inputs_fail(product)
    files_fail(product)
    return f"{product.calls - before} calls with streams and files that fail"
