"""Whether `acewiki why` tells the sentences that the rule of docs/REASONING.md ("Reasons") leaves: each sentence is left out, from the
first on, without which those that are left have no model.

reasons.py PROGRAM COUNT: small wikis are drawn until so many reasons were compared: why a sentence is red, why a retracted one can't be
taken up again, and why a name is an answer. What sentences mean is written here by docs/MEANING.md, and whether sentences have a
model is told by an exhaustive search through all interpretations of up to three elements (small_models.py). Where it finds one,
that decides; where it finds none, the program may know of a larger model, or its budget may be spent: that is counted, and may
be so of few. Marks are compared in the same way: a sentence isn't red where there is a small model.
"""
import json, random, subprocess, sys
from said import Draws, Words, parsed
from small_models import SmallModels

FORMS = {":man": ["man", "men"], ":owl": ["owl", "owls"], ":sheep": ["sheep", "sheep"], ":see": ["sees", "see", "seen"], ":own": ["owns", "own", "owned"],
         ":Mary": ["Mary"], ":Bill": ["Bill"], ":Ann": ["Ann"]}
# Nouns, verbs and names; the more of them, the more interpretations.
SHAPES = [([":man", ":owl", ":sheep"], [":see"], [":Mary", ":Bill"]), ([":man", ":owl"], [":see"], [":Mary", ":Bill", ":Ann"]),
          ([":man"], [":see", ":own"], [":Mary", ":Bill"])]
LEAST, MOST = 8, 14  # sentences
# The least budget from which on all ways of searching are taken.
BUDGET = ["--budget", "100000"]


class SmallDraws(Draws):
    """Sentences with their axioms, over a few words."""

    def __init__(self, draw, nouns, verbs, names):
        self.draw, self.nouns, self.verbs, self.names = draw, nouns, verbs, names
        kinds = {word: kind for kind, words in (("noun", nouns), ("verb", verbs), ("name", names)) for word in words}
        self.words = [dict(kind=kinds[word], forms=FORMS[word]) for word in draw.sample(sorted(kinds), len(kinds))]
        self.said, self.ahead = Words(self.words), []

    def relation(self):
        return self.verb()

    def joint(self):
        return f"ObjectIntersectionOf({self.basic()} {self.basic()})"

    def shown(self, tokens, last="."):
        text = " ".join(tokens) + last
        return text if ":" + tokens[0] in self.names else text[0].upper() + text[1:]

    def further(self):
        """A sentence that no axiom is said as, with its axiom."""
        draw, said = self.draw, self.said
        one, other, noun, name, verb = self.basic(), self.basic(), self.noun(), self.name(), self.verb()
        phrases = [said.basic(parsed(part)) for part in (one, other)]
        whole = f"ObjectIntersectionOf({noun} {one})"
        return draw.choice([
            (["everything", "that"] + phrases[0] + phrases[1], f"SubClassOf({one} {other})"),
            (["every", said.form(noun, "noun"), "that"] + phrases[0] + phrases[1], f"SubClassOf({whole} {other})"),
            (["nothing", "that"] + phrases[0] + phrases[1], f"SubClassOf({one} ObjectComplementOf({other}))"),
            (["no", said.form(noun, "noun")] + phrases[0], f"SubClassOf({noun} ObjectComplementOf({one}))"),
            (["no", said.form(noun, "noun"), "who"] + phrases[0] + phrases[1], f"SubClassOf({whole} ObjectComplementOf({other}))"),
            (["something"] + said.related(parsed(verb), ["something"]), None),
            (["something"] + said.related(parsed(verb), said.name(name)), f"ClassAssertion(ObjectSomeValuesFrom(ObjectInverseOf({verb}) owl:Thing) {name})"),
            (said.name(name) + [said.form(verb, "verb", 0), "every", said.form(noun, "noun")], f"SubClassOf({noun} ObjectHasValue(ObjectInverseOf({verb}) {name}))"),
            (said.name(name) + phrases[0] + ["and"] + phrases[1], f"ClassAssertion(ObjectIntersectionOf({one} {other}) {name})"),
        ])

    def sentence(self):
        """A text and its axiom, none where the sentence has none."""
        if self.draw.random() < 0.3:
            tokens, axiom = self.further()
            return self.shown(tokens), axiom
        if not self.ahead:
            self.ahead = self.rows()
            self.draw.shuffle(self.ahead)
        axiom = self.ahead.pop()
        return self.said.line(axiom), axiom

    def question(self):
        """A text and the class that is asked for."""
        part, noun = self.basic(), self.noun()
        phrase = self.said.basic(parsed(part))
        return self.draw.choice([
            (self.shown(["who"] + phrase, "?"), part),
            (self.shown(["which", self.said.form(noun, "noun")] + phrase, "?"), f"ObjectIntersectionOf({noun} {part})"),
        ])


class SmallWiki:
    """A drawn wiki: its requests, and its articles as lists of sentences, each a list of its text, axiom or class, and status."""

    def __init__(self, draw, nouns, verbs, names):
        self.draws = SmallDraws(draw, nouns, verbs, names)
        self.draw, self.names = draw, names
        self.requests = [dict(word, do="word") for word in self.draws.words]
        self.articles = {word["forms"][word["kind"] == "verb"]: [] for word in self.draws.words}
        self.changes = []
        for _ in range(draw.randint(LEAST, MOST)):
            self.add(*self.draws.sentence())
            if draw.random() < 0.1:
                self.retract()
        self.add(*self.draws.question())

    def add(self, text, meaning):
        article = self.draw.choice(sorted(self.articles))
        sentences, new = self.articles[article], [text, meaning, None]
        place = self.draw.randint(0, len(sentences))
        sentences.insert(place, new)
        self.requests.append(dict(do="add", article=article, at=place, text=text))
        self.changes.append(("add", new))

    def retract(self):
        article = self.draw.choice(sorted(name for name, sentences in self.articles.items() if sentences))
        place = self.draw.randrange(len(self.articles[article]))
        self.requests.append(dict(do="retract", article=article, at=place))
        self.changes.append(("retract", self.articles[article][place]))

    def lines(self):
        return "".join(json.dumps(request) + "\n" for request in self.requests)

    def parts(self, asked=None):
        """The places and the axioms of the asserted sentences that have some, and of the one that is asked about."""
        return [(article, place, sentence) for article, sentences in self.articles.items() for place, sentence in enumerate(sentences)
                if sentence[1] and (sentence[2] == "asserted" or sentence is asked)]

    def targets(self):
        """What may be asked: words of the command, the sentence where it is one, and the denial where there is one."""
        for article, sentences in self.articles.items():
            for place, sentence in enumerate(sentences):
                if sentence[2] in ("contradiction", "budget", "retracted") and sentence[1]:
                    yield [article, str(place)], sentence, None
                if sentence[2] == "question":
                    for name in self.names:
                        yield [article, str(place), "--name", name[1:]], None, f"ClassAssertion(ObjectComplementOf({sentence[1]}) {name})"


class Comparison:
    """What was compared so far."""

    def __init__(self, program):
        self.program = program
        self.models = [SmallModels(*shape) for shape in SHAPES]
        self.reasons = self.kept = self.consistent = self.marks = self.spent = 0
        self.beyond = []

    def fail(self, wiki, sentence):
        print(f"reasons: {sentence}, of the wiki\n{wiki.lines()}", end="")
        sys.exit(1)

    def ran(self, wiki, *words):
        """The lines that the program writes for a wiki."""
        done = subprocess.run([self.program, *words, *BUDGET], input=wiki.lines().encode(), stdout=subprocess.PIPE, timeout=300)
        if done.returncode:
            self.fail(wiki, f"to {' '.join(words)} came status {done.returncode}")
        return done.stdout.decode().splitlines()

    def one_more(self, draw):
        shape = draw.randrange(len(SHAPES))
        self.small = self.models[shape]
        wiki = SmallWiki(draw, *SHAPES[shape])
        self.compare_marks(wiki)
        targets = list(wiki.targets())
        red = [target for target in targets if target[1] and target[1][2] != "retracted"]
        if red or draw.random() < 0.3:
            self.compare_reason(wiki, *draw.choice(red if red and draw.random() < 0.8 else targets))

    def tells_of_larger(self, wiki, sentence):
        """The program tells of a model, and there is none of few elements."""
        self.beyond.append(f"{sentence}, of the wiki\n{wiki.lines()}")

    def compare_marks(self, wiki):
        """Steps through the requests, and compares each mark with what the search finds."""
        words = len(wiki.requests) - len(wiki.changes)
        told = [json.loads(line) for line in self.ran(wiki, "replay")[words:]]
        for number, (request, (name, sentence), reply) in enumerate(zip(wiki.requests[words:], wiki.changes, told)):
            if name == "retract":
                if reply.get("done") == "retract":
                    sentence[2] = "retracted"
                continue
            sentence[2] = reply.get("status")
            if sentence[2] not in ("question", "outside") and sentence[1]:
                before = [other for name, other in wiki.changes[:number] if name == "add"]
                self.compare_mark(wiki, request, [other[1] for other in before if other[1] and other[2] == "asserted"], sentence, reply)
            elif (sentence[2] == "outside") != (sentence[1] is None):
                self.fail(wiki, f"to {json.dumps(request)} came {reply}")

    def compare_mark(self, wiki, request, stand, sentence, reply):
        has_model = self.small.has_model(stand + [sentence[1]])
        if sentence[2] not in ("asserted", "contradiction", "budget") or (has_model and sentence[2] != "asserted"):
            self.fail(wiki, f"to {json.dumps(request)} expected {'asserted' if has_model else 'asserted or red'}, came {reply}")
        self.marks += 1
        self.spent += sentence[2] == "budget"
        if not has_model and sentence[2] == "asserted":
            self.tells_of_larger(wiki, f"to {json.dumps(request)} came {reply}")

    def compare_reason(self, wiki, words, asked, denial):
        lines, parts, what = self.ran(wiki, "why", *words), wiki.parts(asked), f"why {' '.join(words)}"
        told = [f"{article} {place} {sentence[0]}" for article, place, sentence in parts]
        axioms = [sentence[1] for _, _, sentence in parts] + ([denial] if denial else [])
        has_model = self.small.has_model(axioms)
        if lines == ["consistent"]:
            self.consistent += 1
            if not has_model:
                self.tells_of_larger(wiki, f"to {what} came {lines}")
            return
        if lines == ["budget"] and not has_model:
            self.spent += 1
            return
        if has_model or [line for line in told if line in lines] != lines:
            self.fail(wiki, f"to {what} came {lines}, expected {'consistent' if has_model else f'some of {told} in this order'}")
        self.compare_list(wiki, f"to {what} came {lines}", axioms, [line in lines for line in told] + ([True] if denial else []))
        self.reasons += 1

    def compare_list(self, wiki, what, axioms, kept):
        """Whether each axiom was left out without which those that were left then have no model, and no other."""
        for place, axiom in enumerate(axioms):
            others = [other for at, other in enumerate(axioms) if at > place or (at < place and kept[at])]
            has_model = self.small.has_model(others)
            if has_model and not kept[place]:
                self.fail(wiki, f"{what}, and without {axiom} those that are left then have a model")
            self.kept += kept[place]
            if kept[place] and not has_model:
                self.tells_of_larger(wiki, f"{what}, with {axiom}")
        if self.small.has_model([axiom for axiom, is_kept in zip(axioms, kept) if is_kept]):
            self.fail(wiki, f"{what}, and these have a model")


def main(program, count):
    comparison, draw = Comparison(program), random.Random(36)
    while comparison.reasons < int(count):
        comparison.one_more(draw)
    print(f"{comparison.reasons} reasons with {comparison.kept} parts are the same, {comparison.consistent} times all parts have a model, and"
          f" {comparison.marks} marks; in {len(comparison.beyond)} cases the program tells of a model and none has three elements or fewer,"
          f" in {comparison.spent} its budget is spent")
    if 100 * len(comparison.beyond) > comparison.kept + comparison.marks:
        sys.exit(f"reasons: these are more than one of a hundred; the first is that {comparison.beyond[0]}")
    if 100 * comparison.spent > comparison.reasons + comparison.marks:
        sys.exit("reasons: of more than one of a hundred the budget is spent")


if __name__ == "__main__":
    main(*sys.argv[1:])
