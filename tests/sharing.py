"""Wikis whose models are small and whose trees of successors are large, or endless: no sentence of theirs is red for the budget, and one
that contradicts them is red for a contradiction.

sharing.py PROGRAM: the sentences below are added one by one, at the budget that the program starts with. The processor time and the
memory of each wiki are bounded so that no way through the whole tree would do: a node for each of the successors takes over 600 MB.
"""
import json, os, subprocess, sys, tempfile

LETTERS = "abcdefghijklmnopqrst"
SECONDS, KILOBYTES = 30, 400_000
VERBS = [["borders", "border", "bordered"], ["likes", "like", "liked"]]


def letters(number):
    return LETTERS[number // 400] + LETTERS[number // 20 % 20] + LETTERS[number % 20]


def noun(kind, number):
    """A noun without an article, of which no two forms coincide and none begins with a vowel letter."""
    return f"{kind}{letters(number)}"


def word(kind, *forms):
    return dict(do="word", kind=kind, forms=list(forms))


def wiki(nouns, sentences):
    """The requests of a wiki with Mary, two verbs and these nouns, whose sentences all stand in Mary's article."""
    words = [word("name", "Mary"), *(word("verb", *forms) for forms in VERBS), *(word("noun", one, one + "s") for one in nouns)]
    return words, [dict(do="add", article="Mary", text=text) for text in sentences]


def levels(count, verbs):
    """Each noun of so many but the last is related to the next one by so many verbs."""
    nouns = [noun("level", number) for number in range(count)]
    steps = [f"Every {one} {forms[0]} a {other}." for one, other in zip(nouns, nouns[1:]) for forms in VERBS[:verbs]]
    return wiki(nouns, steps + [f"Mary is a {nouns[0]}."]), f"Mary borders no {nouns[1]}."


def borders(count):
    """What borders a first noun is a second one, and every third one borders a first one; Mary is of each third noun."""
    nouns = [noun(kind, number) for number in range(count) for kind in ("first", "second", "third")]
    sentences = []
    for number in range(count):
        one, two, three = (noun(kind, number) for kind in ("first", "second", "third"))
        sentences += [f"Everything that borders a {one} is a {two}.", f"Every {three} borders a {one}.", f"Mary is a {three}."]
    return wiki(nouns, sentences), f"Mary is not a {noun('second', count - 1)}."


def circle(count):
    """Each noun of so many is related to the next one by both verbs, and the last one to the first, with what is asked backwards."""
    nouns = [noun("level", number) for number in range(count)]
    sentences = [f"Every {one} {forms[0]} a {other}." for one, other in zip(nouns, nouns[1:] + nouns[:1]) for forms in VERBS]
    sentences += [f"Everything that is liked by a {one} is a {other}." for one, other in zip(nouns, nouns[1:] + nouns[:1])]
    return wiki(nouns, sentences + [f"Mary is a {nouns[0]}."]), f"Mary likes no {nouns[1]}."


def valued(count):
    """Each noun of so many but the last likes the next one, what it borders is none, and each of them but the first is liked by Mary."""
    nouns = [noun("level", number) for number in range(count)]
    sentences = [f"Every {one} {forms[0]} a {other}." for one, other in zip(nouns, nouns[1:]) for forms in VERBS]
    sentences += [f"Every {one} is liked by Mary." for one in nouns[1:]] + [f"Every {one} does not border Mary." for one in nouns]
    return wiki(nouns, sentences + [f"Mary is a {nouns[0]}."]), f"Mary likes no {nouns[1]}."


def chosen(count):
    """Each noun of so many but the last is related to the next one by both verbs, and is a left or a right one; no left one is a level."""
    nouns = [noun("level", number) for number in range(count)]
    sentences = [f"Every {one} {forms[0]} a {other}." for one, other in zip(nouns, nouns[1:]) for forms in VERBS]
    sentences += [f"Every {one} is a left or is a right." for one in nouns] + [f"No left is a {one}." for one in nouns[::2]]
    return wiki(nouns + ["left", "right"], sentences + [f"Mary is a {nouns[0]}."]), f"Mary borders no {nouns[1]}."


def replayed(program, requests):
    """The replies, and what processor time and memory they took."""
    with tempfile.TemporaryFile() as lines, tempfile.TemporaryFile() as output:
        lines.write("".join(json.dumps(request) + "\n" for request in requests).encode())
        lines.seek(0)
        child = subprocess.Popen([program, "replay"], stdin=lines, stdout=output)
        _, status, took = os.wait4(child.pid, 0)
        child.returncode = os.WEXITSTATUS(status)
        output.seek(0)
        return [json.loads(line) for line in output], took.ru_utime, took.ru_maxrss


WIKIS = [
    ("two verbs to each of 23 nouns", levels(23, 2)),
    ("two verbs to each of 100 nouns", levels(100, 2)),
    ("one verb to each of 900 nouns", levels(900, 1)),
    ("200 borders", borders(200)),
    ("two verbs in a circle of 60 nouns", circle(60)),
    ("two verbs to each of 60 nouns, with values", valued(60)),
    ("two verbs to each of 60 nouns, with choices", chosen(60)),
]


def main(program):
    for name, ((words, sentences), last) in WIKIS:
        requests = words + sentences + [dict(do="add", article="Mary", text=last)]
        expected = [dict(done="word") for _ in words] + [dict(done="add", status="asserted") for _ in sentences] + [dict(done="add", status="contradiction")]
        replies, seconds, kilobytes = replayed(program, requests)
        print(f"{name}: {len(sentences)} sentences, {seconds:.2f} s, {kilobytes} KB", flush=True)
        for request, wanted, reply in zip(requests, expected, replies):
            if reply != wanted:
                sys.exit(f"sharing: {name}: to {json.dumps(request)} expected {wanted}, came {reply}")
        if len(replies) != len(requests) or seconds > SECONDS or kilobytes > KILOBYTES:
            sys.exit(f"sharing: {name}: {len(replies)} replies to {len(requests)} requests, {seconds:.1f} s and {kilobytes} KB; "
                     f"at most {SECONDS} s and {KILOBYTES} KB are right")


if __name__ == "__main__":
    main(*sys.argv[1:])
