"""Want of memory: each allocation of some calls is refused, by itself and with all later ones, and the address space is made small."""
import os
import resource

from streams import FOOT, HEAD

# Programs, with the words that are called for them, and what these answer where memory is enough
CALLS = [
    ("prints", '    println("hello")\n    return 0\n', ["run", "prints"], (b"hello\n", 0, b"")),
    ("written", '    println("hello")\n    return 0\n', ["emit", "-o", "q", "written"], None),
    ("halts", "    var x: Z = 9223372036854775807\n    x = x + 1\n    return 0\n", ["run", "halts"], (b"", 66, b"halt Range halts:6\n")),
    ("turns", "    while (F) {}\n    return 0\n", ["run", "--turns", "1", "turns"], (b"", 67, b"turns spent\n")),
    ("checked", "    val b: Z = 1\n    while (b > 2) { println(b) }\n    return 0\n", ["check", "checked"], (b"accepted\n", 0, b"")),
    ("broken", "    val b: Z = ((1 + 2) * 3\n    return 0\n", ["check", "broken"], (b"", 65, b"broken:6:5: G1\n")),
    ("reads", "    val b: Z = Port.get()\n    println(b)\n    return 0\n", ["run", "reads"], (b"-1\n", 0, b"")),
]
SPENT = b"no memory\n"


def is_named(found, wanted):
    """What was found is the whole answer, or that of status 76 with a prefix of what is printed, or that of 79."""
    printed, status, note = found
    if status == 76:
        return wanted[0].startswith(printed) and note == SPENT
    return found == wanted or found == (b"", 79, b"")


def refuse_each(product, words, wanted, shim, later):
    """Refuses each allocation of a call in turn. Gives how many there are, and how many calls ended with 76."""
    spent = 0
    number = 0
    while True:
        number += 1
        reading, writing = os.pipe()
        # The program gets no environment from here but what the shim reads
        given = {"LD_PRELOAD": shim, "REFUSE": str(number), "REFUSE_COUNT": str(writing)}
        if later:
            given["REFUSE_LATER"] = "1"
        product.calls += 1
        found = product.call(product.program, *words, env=given, pass_fds=[writing])
        os.close(writing)
        made = int(os.read(reading, 32) or b"0")
        os.close(reading)
        if found[1] == 76:
            spent += 1
            product.compare(f"{words}: no C after 76", (product.read("q.c"), 0), (None, 0))
        named = is_named(found, wanted)
        product.compare(f"{words}, allocation {number} refused", found, found if named else wanted)
        if product.read("q.c") is not None:
            os.remove(os.path.join(product.folder, "q.c"))
        if made < number:
            # a shim that isn't loaded counts nothing, and would refuse nothing
            product.compare(f"{words}: allocations are counted and refused", (b"", int(made > 0 and spent > 0), b""), (b"", 1, b""))
            return made, spent


def address_spaces(product):
    """Address spaces from a few pages up. Where the program can't be loaded, the system ends it before it begins."""
    loaded = False
    for pages in range(512, 8192, 64):
        limit = pages * resource.getpagesize()
        found = product.call(product.program, "run", "prints", preexec_fn=lambda limit=limit: resource.setrlimit(resource.RLIMIT_AS, (limit, limit)))
        loaded = loaded or 0 <= found[1] < 127
        if loaded:
            product.calls += 1
            product.compare(f"{pages} pages", found, found if is_named(found, CALLS[0][3]) else CALLS[0][3])
    product.compare("the program is loaded in some address space", (b"", int(loaded), b""), (b"", 1, b""))


def check(product, source, count):
    """All of these, on the program that the launcher has built."""
    del source, count
    shim = os.path.join(product.folder, "refuse.so")
    shim_source = os.path.join(os.path.dirname(os.path.abspath(__file__)), "refuse.c")
    _, status, note = product.call("cc", "-shared", "-fPIC", "-O1", "-Wall", "-o", shim, shim_source)
    if status != 0:
        return f"not tried, since cc gives no shim: {note.decode()}"
    told = []
    for name, body, words, wanted in CALLS:
        product.write(name, (HEAD + body + FOOT).encode())
        whole = product.slangc(*words)
        product.compare(f"{words}", whole, wanted or (whole[0], 0, b""))
        for later in (False, True):
            made, spent = refuse_each(product, words, whole, shim, later)
            told.append(f"{name}{' with all later ones' if later else ''}: {made} refused, {spent} of them 76")
    address_spaces(product)
    return "; ".join(told)
