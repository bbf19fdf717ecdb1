"""limits.py PROGRAM: a wiki with as many words, sentences, sessions and tokens as there may be, and one more of each; texts and
lines of the greatest length, and of one byte more; and the least budgets.
"""
import itertools, json, subprocess, sys


def line(do, **members):
    return json.dumps({"do": do, **members})


def full(which, limit):
    return {"refused": 7, "name": "Full", "which": which, "limit": limit}


def run(program, exchange, budget="1000000"):
    """Ends the script where a line has another reply; `...` stands for any."""
    lines = "".join(asked + "\n" for asked, _ in exchange)
    ran = subprocess.run([program, "replay", "--budget", budget], input=lines.encode(), capture_output=True)
    replies = [json.loads(reply) for reply in ran.stdout.splitlines()]
    if ran.returncode or len(replies) != len(exchange):
        raise SystemExit(f"limits: the program ended with {ran.returncode} after {len(replies)} of {len(exchange)} replies")
    for (asked, wanted), reply in zip(exchange, replies):
        if wanted is not ... and reply != wanted:
            raise SystemExit(f"limits: {asked[:200]} has the reply {str(reply)[:300]} and not {str(wanted)[:300]}")
    return replies


def word(kind, *forms, told={"done": "word"}):
    return line("word", kind=kind, forms=forms), told


def names(count):
    """So many texts of letters."""
    for letters in itertools.islice(itertools.product("abcdefghijklmnopqrstuvwxyz", repeat=3), count):
        yield "N" + "".join(letters)


def typed(session, tokens):
    return [(line("type", session=session, text=token), {"done": "type", "tokens": place + 1}) for place, token in enumerate(tokens.split())]


def many_words(program):
    one_more = full("words", 5000)
    run(program, [word("name", form) for form in names(5000)] + [
        word("name", "Bern", told=one_more),
        word("noun", "Naaa", told={"refused": 3, "name": "Taken", "text": "Naaa", "word": "Naaa"}),
        word("name", "every", told={"refused": 4, "name": "Reserved", "text": "every"}),
        (line("find", word="Bern"), {"refused": 1, "name": "NoWord", "text": "Bern"}),
        (line("unword", word="Naaa"), {"done": "unword"}),
        word("name", "Bern"),
        word("name", "Naaa", told=one_more),
    ])


def many_sentences(program):
    one_more, asserted = full("sentences", 2000), {"done": "add", "status": "asserted"}
    text, long = "Bern is something.", "Bern " * 41
    add = line("add", article="Bern", text=text)
    run(program, [word("name", "Bern"), (line("open", article="Bern"), {"done": "open", "session": 1})] + [(add, asserted)] * 2000 + [
        (add, one_more),
        (line("add", article="Bern", at=0, text=long), one_more),
        (line("add", article="Bern", at=2001, text=long), {"refused": 5, "name": "NoPlace", "length": 2000}),
        (line("edit", article="Bern", at=2000, text=text), {"refused": 5, "name": "NoPlace", "length": 2000}),
        (line("edit", article="Bern", at=1999, text=long), full("tokens", 40)),
        (line("edit", article="Bern", at=1999, text=text), {"done": "edit", "status": "asserted"}),
        *typed(1, "Bern is something ."),
        # the session is stale besides
        (line("commit", session=1), one_more),
        (line("refresh", session=1), {"done": "refresh"}),
        (line("commit", session=1), one_more),
        (line("remove", article="Bern", at=1999), {"done": "remove"}),
        (line("commit", session=1), {"refused": 8, "name": "Stale", "revision": 2002}),
        (line("refresh", session=1), {"done": "refresh"}),
        (line("commit", session=1), {"done": "commit", "article": "Bern", "status": "asserted"}),
        (line("commit", session=1), one_more),
    ])


def many_sessions(program):
    open_one = line("open", article="Bern")
    run(program, [word("name", "Bern")] + [(open_one, {"done": "open", "session": number + 1}) for number in range(64)] + [
        (open_one, full("sessions", 64)),
        (line("open", article="Bonn"), {"refused": 1, "name": "NoWord", "text": "Bonn"}),
        (line("drop", session=3), {"done": "drop"}),
        (open_one, {"done": "open", "session": 65}),
        (line("menu", session=3), {"refused": 6, "name": "NoSession", "session": 3}),
        (open_one, full("sessions", 64)),
    ])


def many_tokens(program):
    words = [word("name", "Mary"), word("noun", "cat"), word("verb", "sees", "see", "seen")]
    longest = "Mary sees a cat" + " and sees a cat" * 8 + " and sees Mary"
    run(program, words + [
        (line("open", article="Mary"), {"done": "open", "session": 1}),
        *typed(1, longest + " ."),
        (line("type", session=1, text="fish"), full("tokens", 40)),
        (line("commit", session=1), {"done": "commit", "article": "Mary", "status": "asserted"}),
        (line("add", article="Mary", text=longest + "."), {"done": "add", "status": "asserted"}),
        (line("parse", text=longest + " and."), full("tokens", 40)),
        (line("edit", article="Mary", at=1, text=longest + " and."), full("tokens", 40)),
        (line("add", article="Mary", text=longest + " and."), full("tokens", 40)),
    ])


def long_texts(program):
    letters = "x" * 64
    token = "x" * 65_000
    shortest = len(line("find", word=""))
    run(program, [
        word("noun", letters, told={"refused": 2, "name": "BadForm", "which": 1}),
        word("name", letters + "x", told={"refused": 2, "name": "BadForm", "which": 0}),
        word("noun", letters, letters),
        word("name", "Mary"),
        (line("open", article="Mary"), {"done": "open", "session": 1}),
        (line("type", session=1, text=token), {"refused": 9, "name": "NotOffered", "text": token}),
        (line("find", word="x" * (65_535 - shortest)), {"refused": 1, "name": "NoWord", "text": "x" * (65_535 - shortest)}),
        (line("find", word="x" * (65_536 - shortest)), {"refused": 0, "name": "BadRequest"}),
        (line("find", word="Mary"), {"done": "find", "word": {"kind": "name", "forms": ["Mary"]}}),
    ])


def small_budgets(program):
    """Each verdict of this exchange takes at most one step. Without a step the second sentence may be red, and then the third isn't."""
    def exchange(*statuses):
        texts = [("city", "No city is a country."), ("Bern", "Bern is a city."), ("Bern", "Bern is a country.")]
        words = [word("noun", "city"), word("noun", "country"), word("name", "Bern")]
        return words + [(line("add", article=article, text=text), status) for (article, text), status in zip(texts, statuses)]
    status = lambda name: {"done": "add", "status": name}
    for budget in ("1", "1000000"):
        run(program, exchange(status("asserted"), status("asserted"), status("contradiction")), budget)
    told = run(program, exchange(status("asserted"), ..., ...), "0")[-2:]
    allowed = [["asserted", "contradiction"], ["asserted", "budget"], ["budget", "asserted"]]
    if [it["status"] for it in told] not in allowed:
        raise SystemExit(f"limits: without a step the statuses are {told}, and not one of {allowed}")


for check in (many_words, many_sentences, many_sessions, many_tokens, long_texts, small_budgets):
    check(sys.argv[1])
