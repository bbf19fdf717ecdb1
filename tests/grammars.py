"""The grammars of grammars/, as docs/LANGUAGE.md tells of them.

grammars.py PROGRAM COUNT: the sentences of the tables there, by each grammar; that english.codeco has the built-in rules and that
english-more.codeco begins with them; that so many sentences, generated from the rules, mean the same by both; and what
tools/grammar makes of comments, brackets and long texts.
"""
import json, os, random, re, subprocess, sys, tempfile

ROOT = os.path.dirname(os.path.dirname(os.path.abspath(__file__)))
KINDS = {"name": "name", "noun": "noun", "of-construct": "of", "verb": "verb", "adjective": "adjective"}
# Of some of these words two forms coincide.
GENERATED_FROM = [("name", ["Mary"]), ("name", ["Bill"]), ("noun", ["man", "men"]), ("noun", ["owl", "owls"]), ("noun", ["sheep", "sheep"]),
                  ("verb", ["sees", "see", "seen"]), ("verb", ["puts", "put", "put"]), ("verb", ["cut", "cut", "cut"]),
                  ("of", ["part"]), ("adjective", ["near"])]
MOST_TOKENS = 24


def fail(sentence):
    print(f"grammars: {sentence}")
    sys.exit(1)


def expect(what, wanted, got):
    if wanted != got:
        fail(f"{what}: expected {wanted}, came {got}")


def path_of(name):
    return f"{ROOT}/grammars/{name}.codeco"


def written(*words):
    """What tools/grammar says to these words: its status, its output, and its errors."""
    ran = subprocess.run([f"{ROOT}/tools/grammar", *words], stdout=subprocess.PIPE, stderr=subprocess.PIPE)
    return ran.returncode, ran.stdout.decode(), ran.stderr.decode()


def text_of(path):
    """The text of the request line of a grammar's file."""
    status, line, errors = written(path)
    expect(f"tools/grammar {path}", (0, ""), (status, errors))
    return json.loads(line)["text"]


# What the documents tell.

def tables(head):
    """The rows of each table of docs/LANGUAGE.md with this head, a list of cells each."""
    with open(f"{ROOT}/docs/LANGUAGE.md") as file:
        lines = file.read().split("\n")
    found = []
    for place, line in enumerate(lines):
        if line == head:
            for row in lines[place + 2:]:
                if not row.startswith("|"):
                    break
                found.append([cell.strip() for cell in row.strip("|").split(" | ")])
    if not found:
        fail(f"docs/LANGUAGE.md has no table {head}")
    return found


def words_told():
    return [(KINDS[kind], forms.split()) for kind, all_forms in tables("| Kind | Words of the tables below |")
            for forms in re.findall("`([^`]*)`", all_forms)]


def means(sentence, cell):
    """What a cell says that a sentence means."""
    parts = re.findall("`([^`]*)`", cell)
    if cell == "no":
        return "no sentence"
    if cell.startswith("outside, "):
        return {"cause": parts[0]}
    return {"class": parts[0]} if sentence.endswith("?") else {"axioms": parts}


# What the program tells.

def line_of(**request):
    return json.dumps(request)


def answered(program, grammar, words, requests):
    """The replies to requests in a wiki of these words that begins with a grammar, or with none."""
    lines = [] if grammar is None else [line_of(do="grammar", text=grammar)]
    lines += [line_of(do="word", kind=kind, forms=forms) for kind, forms in words]
    ran = subprocess.run([program, "replay", "--budget", "0"], input="\n".join(lines + requests).encode(), stdout=subprocess.PIPE)
    replies = ran.stdout.decode().splitlines()
    expect("replies", len(lines) + len(requests), len(replies))
    for line, reply in zip(lines, replies):
        expect(f"the reply to {line[:80]}", json.dumps({"done": json.loads(line)["do"]}, separators=(",", ":")), reply)
    return replies[len(lines):]


def told(program, grammar, words, sentences):
    """Of each sentence the replies to `parse`, `add` and `axioms`."""
    article = words[0][1][0]
    requests = []
    for text in sentences:
        requests += [line_of(do="parse", text=text), line_of(do="add", article=article, at=0, text=text),
                     line_of(do="axioms", article=article, at=0), line_of(do="remove", article=article, at=0)]
    replies = answered(program, grammar, words, requests)
    return [replies[4 * place:4 * place + 3] for place in range(len(sentences))]


def meaning_told(replies):
    added, meant = json.loads(replies[1]), json.loads(replies[2])
    if added.get("name") == "NotSentence":
        return "no sentence"
    if added.get("done") != "add":
        return added
    if "cause" in meant:
        return {"cause": meant["cause"]}
    return {key: meant[key] for key in ("axioms", "class") if key in meant}


# Sentences of a grammar: what its rules derive, its references not looked at.

def rules_of(text):
    """The declared values, and the rules as texts, from a text without comments."""
    items = re.findall(r"((?:\[[^\]]*\]|[^\[.])+)\.", text)
    declared = {}
    for item in items:
        if item.strip().startswith("feature "):
            name, values = item.strip()[len("feature "):].split(":")
            declared[name.strip()] = [value.strip() for value in values.split(",")]
    return declared, [item.strip() for item in items if not item.strip().startswith("feature ")]


def features_of(text):
    return dict(part.replace(" ", "").split(":") for part in text.split(",")) if text else {}


def plain_rules(rules):
    """Of each rule the head and the elements that take tokens: a sign, a name, features."""
    category = r"[a-z]\w*(?:\([^)]*\))?"
    special = rf"/?<(?:\s*[+-]\s*{category})+|>>?\s*{category}|#[A-Z]\w*|//"
    for rule in rules:
        head, body = re.split("-->|~~>", re.sub(r"^{\w+}", "", rule), maxsplit=1)
        elements = re.findall(r"\[([^\]]*)\]|(\$?)([a-z]\w*)(?:\(([^)]*)\))?", re.sub(special, " ", body))
        name, features = re.fullmatch(r"\s*([a-z]\w*)(?:\(([^)]*)\))?\s*", head).groups()
        yield name, features_of(features), [("[", token, {}) if token else (sign, name, features_of(given)) for token, sign, name, given in elements]


class Sentences:
    """Random lists of tokens by the rules of a grammar, with these words."""

    def __init__(self, text, words, seed):
        self.draws = random.Random(seed)
        declared, rules = rules_of(text)
        self.bound = {name for name, values in declared.items() if values in (["word"], ["position"])}
        self.values = declared
        self.rules = {}
        for name, features, elements in plain_rules(rules):
            self.rules.setdefault(name, []).append((features, elements))
        self.forms = {}
        for kind, forms in words:
            for place, form in enumerate(forms):
                values = {"noun": {"num": ("sg", "pl")[place % 2]}, "verb": {"form": ("third", "inf", "part")[place]}}.get(kind, {})
                values["vow"] = "yes" if form[0] in "aeiouAEIOU" else "no"
                self.forms.setdefault({"adjective": "adj"}.get(kind, kind), []).append((form, values))

    def agreed(self, features, values, known):
        """What is known of the variables once features have these values, or None."""
        known = dict(known)
        for name, term in features.items():
            if name not in self.bound and name in values:
                wanted = known.setdefault(term, values[name]) if term[0].isupper() else term
                if wanted != values[name]:
                    return None
        return known

    def phrase(self, name, values, depth):
        """The tokens of a phrase and the values of its head, or None."""
        rules = list(self.rules[name])
        self.draws.shuffle(rules)
        if depth < 0:
            rules.sort(key=lambda rule: sum(sign == "" for sign, _, _ in rule[1]))
        if depth < -12:
            return None
        for features, elements in rules:
            known = self.agreed(features, values, {})
            made = known is not None and self.body(elements, known, depth)
            if made:
                return made[0], {one: made[1].get(term) if term[0].isupper() else term for one, term in features.items()}
        return None

    def body(self, elements, known, depth):
        tokens = []
        for sign, name, features in elements:
            if sign == "[":
                tokens.append(name)
                continue
            if sign == "$":
                fitting = [(form, values) for form, values in self.forms[name] if self.agreed(features, values, known) is not None]
                if not fitting:
                    return None
                form, values = self.draws.choice(fitting)
                tokens.append(form)
            else:
                asked = {one: known.get(term) if term[0].isupper() else term for one, term in features.items() if one not in self.bound}
                made = self.phrase(name, {one: value for one, value in asked.items() if value}, depth - 1)
                if not made:
                    return None
                tokens += made[0]
                values = {one: value for one, value in made[1].items() if value}
            known = self.agreed(features, values, known)
            if known is None:
                return None
        return tokens, known

    def next(self):
        while True:
            made = self.phrase("text", {}, self.draws.randint(2, 9))
            if made and len(made[0]) <= MOST_TOKENS:
                *tokens, last = made[0]
                text = " ".join(tokens) + last
                return text if tokens[0] in dict(self.forms["name"]) else text[0].upper() + text[1:]


# What is looked at.

def documents(program):
    """Each row of the tables, by each grammar."""
    words, rows = words_told(), tables("| Tried | english | english-more | Remark, or what to say by either |")
    if len(rows) < 60:
        fail(f"docs/LANGUAGE.md has {len(rows)} sentences that people try first, and not sixty")
    sentences = [row[0].strip("`") for row in rows]
    columns = [[row[1] for row in rows], [row[1] if row[2] == "the same" else row[2] for row in rows]]
    for name, cells in zip(("english", "english-more"), columns):
        replies = told(program, text_of(path_of(name)), words, sentences)
        for sentence, cell, reply in zip(sentences, cells, replies):
            expect(f"{sentence!r} by {name}", means(sentence, cell), meaning_told(reply))
    said = [sentence for row in rows for sentence in re.findall(r"`([A-Z][^` ]* [^`]*[.?])`", row[3])]
    for name in ("english", "english-more"):
        for sentence, reply in zip(said, told(program, text_of(path_of(name)), words, said)):
            if meaning_told(reply) == "no sentence":
                fail(f"{sentence!r}, which the tables say instead, is no sentence by {name}")


def example(program):
    """The rule that docs/LANGUAGE.md writes, behind the built-in ones, says what it is for and no more."""
    with open(f"{ROOT}/docs/LANGUAGE.md") as file:
        rule = re.search("```\n *({not}.*)\n", file.read())[1]
    sentences = ["Bern isn't a city.", "Bern is not a city.", "Which cities isn't Bern?"]
    new, old, other = map(meaning_told, told(program, f"{text_of(path_of('english'))} {rule}", words_told(), sentences))
    expect(sentences[0], {"axioms": ["ClassAssertion(ObjectComplementOf(:city) :Bern)"]}, new)
    expect(sentences[1], new, old)
    expect(sentences[2], "no sentence", other)


def rules():
    """The one file has the built-in rules, and the other one begins with them."""
    english, more = text_of(path_of("english")), text_of(path_of("english-more"))
    expect("english.codeco", text_of(f"{ROOT}/crates/ace_grammar/data/built_in.codeco"), english)
    expect("the first rules of english-more.codeco", rules_of(english)[1], rules_of(more)[1][:len(rules_of(english)[1])])


def kept(program, count):
    """Generated sentences have the code and the meaning by each grammar that they have in a wiki that took none."""
    english, more = text_of(path_of("english")), text_of(path_of("english-more"))
    generated, left = Sentences(english, GENERATED_FROM, 1), count
    while left > 0:
        sentences = [generated.next() for _ in range(min(2 * left, 1000))]
        pairs = zip(sentences, told(program, None, GENERATED_FROM, sentences))
        sound = [(sentence, reply) for sentence, reply in pairs if meaning_told(reply) != "no sentence"][:left]
        left -= len(sound)
        for name, grammar in (("english", english), ("english-more", more)):
            again = told(program, grammar, GENERATED_FROM, [sentence for sentence, _ in sound])
            for (sentence, reply), other in zip(sound, again):
                expect(f"{sentence!r} by {name}", reply, other)


def lines():
    """What tools/grammar makes of a text."""
    with tempfile.TemporaryDirectory() as folder:
        path = f"{folder}/text"
        for text, wanted in [(b"a --> [%] % [b]\n\t[x].%", '{"do":"grammar","text":"a --> [%] [x]."}\n'), (b"", '{"do":"grammar","text":""}\n'),
                             (b'\r\n% "\na-->["]["\\].', '{"do":"grammar","text":"a-->[\\"][\\"\\\\]."}\n')]:
            with open(path, "wb") as file:
                file.write(text)
            expect(f"the line of {text}", (0, wanted, ""), written(path))
        for size, status in ((65509, 0), (65510, 1)):
            with open(path, "wb") as file:
                file.write(b"x" * size)
            expect(f"the status of a text of {size} bytes", status, written(path)[0])
        expect("what is told of it", "grammar: the line would have 65536 bytes, and a wiki reads lines of at most 65535\n", written(path)[2])
        expect("a file that isn't there", 1, written(f"{folder}/none")[0])
        expect("no file", 2, written()[0])


lines()
rules()
documents(sys.argv[1])
example(sys.argv[1])
kept(sys.argv[1], int(sys.argv[2]))
