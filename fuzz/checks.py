"""Random files for `check`: sentences of the grammar in any layout, with changes of tokens and bytes, deep ones, plain ones, and parts of samples."""
from changes import TOKENS, changed_text, changed_tokens, cut_off, with_faults
from grammar import Chart, refusal
from plain import DEEPEST
from programs import HEAD
from reading import check_answer, run_answer
from runs import laid_freely, made, plain_file, text_of, with_skipped
from samples import samples
from sentences import nested, printed, sentence, spells, words_of
from tokens import Broken, Unknown, tokens

TURNS = 300
MOST_FILES = 4


def is_front(chart):
    """Whether the tokens begin a file, or nest too deep."""
    broken = chart.refused()
    return broken is None or broken[0] == "G6"


def spelled(source, words):
    """The bytes of a file that spells a sentence, which the recogniser has to take."""
    for _ in range(20):
        data = printed(source, words)
        if spells(data, words):
            assert is_front(Chart(tokens(data))), data
            return data
    raise AssertionError(words)


def of_sentence(source, found):
    del found
    return spelled(source, sentence(source, source.choice([None, None, "notes", "calls", "targets", "targets"])))


def of_changed_sentence(source, found):
    del found
    words = sentence(source, source.choice([None, None, None, "notes", "calls", "targets"]))
    for _ in range(source.choice([1, 1, 1, 2, 3])):
        words = changed_tokens(source, words)
    return printed(source, words)


def of_nested(source, found):
    del found
    return printed(source, nested(source))


def of_plain(source, found):
    del found
    return plain_file(source)[0]


def of_changed_plain(source, found):
    """A plain file, changed in its text or in its tokens, mostly in other layout."""
    del found
    data = text_of(with_skipped(source, made(source)[0]))
    for _ in range(source.choice([1, 1, 2])):
        try:
            words = words_of(data)
        except (Broken, Unknown):
            break
        data = printed(source, changed_tokens(source, words)) if source.random() < 0.4 else changed_text(source, data)
    try:
        return printed(source, words_of(data)) if source.random() < 0.5 else data
    except (Broken, Unknown):
        return data


def of_nested_plain(source, found):
    """Blocks within blocks, about as many as a plain file may have."""
    del found
    lines, closing = list(HEAD), []
    for number in range(source.randint(DEEPEST - 2, DEEPEST + 1)):
        opening, end = source.choice([("if (T) {", "}"), ("if (F) {", "} else { }"), ("while (F) {", "}"), (f"for (v{number} <- 0 until 1) {{", "}")])
        lines.append(opening)
        closing.append(end)
    lines += source.choice([[], ["while (F) {}"], ["while (F) {", 'l"a"', "}"], ["if (F) {", "}"], ["println(1)"], ["Contract(a)"]])
    lines = [*lines, *reversed(closing), "return 0", "}", "}"]
    return laid_freely(source, lines)


def whole(source, found):
    """A sentence, a plain file or a sample."""
    return source.choice([lambda: printed(source, sentence(source)), lambda: plain_file(source)[0], lambda: source.choice(found)])()


def of_changed_text(source, found):
    """One of these with some bytes changed, or cut off."""
    data = whole(source, found)
    if source.random() < 0.4:
        return cut_off(source, data)
    for _ in range(source.choice([1, 1, 1, 2, 4])):
        data = changed_text(source, data)
    return data


def of_faulty_text(source, found):
    """One of these with something put in that may be no token."""
    return with_faults(source, whole(source, found))


def of_sample(source, found):
    """A sample with some tokens changed, in any layout."""
    words = words_of(source.choice(found))
    for _ in range(source.choice([0, 1, 1, 2])):
        words = changed_tokens(source, words)
    return printed(source, words)


def of_tokens(source, found):
    """Any tokens, mostly behind the library's import."""
    del found
    head = source.choice([[], [*"import org . sireum . _".split(), "\n"], [*"import org . sireum . _ \n object X { def f : Z = {".split(" ")]])
    return printed(source, [*head, *(source.choice(TOKENS) for _ in range(source.randint(0, 12)))])


KINDS = [of_sentence, of_sentence, of_sentence, of_changed_sentence, of_changed_sentence, of_nested, of_plain, of_changed_plain, of_changed_plain,
         of_nested_plain, of_changed_text, of_changed_text, of_faulty_text, of_faulty_text, of_sample, of_sample, of_tokens]


def random_files(source, found):
    """One file or some, by their names."""
    count = source.randint(2, MOST_FILES) if source.random() < 0.12 else 1
    return [(f"{'abcd'[number]}.scala", source.choice(KINDS)(source, found)) for number in range(count)]


def fronts_hold(source):
    """Each front of a sentence's tokens begins a file, and none of its nodes nests deeper than that of a longer front."""
    data = spelled(source, sentence(source))
    all_tokens = tokens(data)
    chart = Chart(all_tokens)
    heights = [chart.height(count) for count in range(len(all_tokens) + 1)]
    assert heights == sorted(heights), data
    for count in source.sample(range(len(all_tokens) + 1), min(len(all_tokens), 5)):
        front = Chart(all_tokens[:count])
        assert front.front == count and refusal(front, data) in (None, ("G1", len(data))), data


def check(product, source, count):
    """So many calls of `check`, and some of `run` and `emit` with the same files."""
    found = samples()
    calls = product.calls
    for number in range(count):
        if number % 20 == 0:
            fronts_hold(source)
        files = random_files(source, found)
        given = source.randbytes(source.randint(0, 3))
        try:
            wanted, ran = check_answer(files), run_answer(files, given, TURNS)
        except Unknown:
            continue
        names = [name for name, _ in files]
        for name, data in files:
            product.write(name, data)
        product.compare(f"check {number}", product.slangc("check", *names), wanted, *names)
        if source.random() < 0.3:
            product.compare(f"run of check {number}", product.slangc("run", f"--turns={TURNS}", *names, data=given), ran, *names)
        if source.random() < 0.2:
            emitted = product.slangc("emit", "-o", "q", *names)
            told = (f"q.c {len(product.read('q.c') or b'')} bytes\n".encode(), 0, b"") if wanted[1] == 0 else wanted
            product.compare(f"emit of check {number}", emitted, told, *names)
            product.remove("q.c")
    return f"{count} times some files, {product.calls - calls} calls"
