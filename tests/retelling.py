"""What `say` and `why` write behind the lines of their input.

retelling.py PROGRAM say|why [FILE]: the worked runs below, and the recorded runs of the command in FILE, one object of JSON a
line with `words`, `input` and `output`, where each character is one byte.
"""
import json, subprocess, sys
import recorded

WORDS = {
    "Bern": ("name", "Bern"), "city": ("noun", "city"), "country": ("noun", "country"),
    "Mary": ("name", "Mary"), "Bill": ("name", "Bill"), "cat": ("noun", "cat", "cats"), "dog": ("noun", "dog", "dogs"),
    "man": ("noun", "man", "men"), "see": ("verb", "sees", "see", "seen"), "own": ("verb", "owns", "own", "owned"),
    "Ann": ("name", "Ann"), "Bob": ("name", "Bob"), "Cid": ("name", "Cid"), "lead": ("verb", "leads", "lead", "led"),
}
PETS = ["Mary", "cat", "dog", "see", "Bill", "own", "man"]
CITIES = ["city", "country", "Bern"]
LEADERS = ["Ann", "Bob", "Cid", "lead"]
BORDERS = [("city", "No city is a country."), ("Bern", "Bern is a city."), ("Bern", "Bern is a country."),
           ("country", "Every country is something that is a country.")]
LEADING = [("Ann", "If X leads Y and Y leads Z then X leads Z."), ("Ann", "Ann leads Bob."), ("Ann", "Bob leads Cid."),
           ("Ann", "Ann does not lead Cid."), ("Ann", "Who leads Cid?")]

# The words of the command, the words of the wiki, its sentences, further lines, and what is written.
SAID = [
    ("say", [], [], [], ""),
    ("say", PETS, [("Mary", "Every man owns only dogs."), ("Mary", "Mary owns no dog."), ("Mary", "Mary owns a dog or sees a cat.")], [],
     "Every man owns only dogs.\nEvery dog is not owned by Mary.\nMary owns a dog or sees a cat.\n"),
    ("say", PETS, [("Mary", "Every man owns a dog that sees Mary.")], [],
     "- SubClassOf(:man ObjectSomeValuesFrom(:own ObjectIntersectionOf(:dog ObjectHasValue(:see :Mary))))\n"),
    ("say --budget 5", CITIES, BORDERS[:3], [], "Every city is not a country.\nBern is a city.\n"),
    ("say", LEADERS, LEADING, [], "If X leads Y and Y leads Z then X leads Z.\nAnn leads Bob.\nBob leads Cid.\n"),
]
RED = "city 0 No city is a country.\nBern 0 Bern is a city.\nBern 1 Bern is a country.\n"
TOLD = [
    ("why Bern 1", CITIES, BORDERS, [], RED),
    ("why Bern 1 --budget 1000000", CITIES, BORDERS, [], RED),
    ("why Bern 0", CITIES, BORDERS, [], "no case\n"),
    ("why Bern 2", CITIES, BORDERS, [], "no case\n"),
    ("why Bonn 0", CITIES, BORDERS, [], "no case\n"),
    ("why cities 0", CITIES, BORDERS, [], "no case\n"),
    ("why Bern 4294967295", CITIES, BORDERS, [], "no case\n"),
    ("why Bern 1 --name Bern", CITIES, BORDERS, [], "no case\n"),
    ("why Bern 0", CITIES, BORDERS[:2], [{"do": "retract", "article": "Bern", "at": 0}], "consistent\n"),
    ("why Ann 4 --name Ann", LEADERS, LEADING, [],
     "Ann 0 If X leads Y and Y leads Z then X leads Z.\nAnn 1 Ann leads Bob.\nAnn 2 Bob leads Cid.\n"),
    ("why Ann 4 --name Bob", LEADERS, LEADING, [], "Ann 2 Bob leads Cid.\n"),
    ("why Ann 4 --name Cid", LEADERS, LEADING, [], "consistent\n"),
    ("why Ann 4 --name Dan", LEADERS, LEADING, [], "no case\n"),
    ("why Ann 4 --name lead", LEADERS, LEADING, [], "no case\n"),
    ("why Ann 4", LEADERS, LEADING, [], "no case\n"),
]
REFUSED = {
    "say": ["say Bern", "say --events 5", "say --name Bern", "say --budget", "say --budget 1000000001"],
    "why": ["why", "why Bern", "why Bern x", "why Bern 4294967296", "why Bern -1", "why Be-rn- 0", "why 5 0", "why Bern 0 --events 5",
            "why Bern 0 --name", "why Bern 0 --name 5", "why Bern 0 --name Bern --name Bern", "why --budget 5 Bern 0"],
}


def ran(program, words, given):
    return subprocess.run([program, *words], input=given, stdout=subprocess.PIPE, stderr=subprocess.PIPE, timeout=300)


def lines_of(words, sentences, more):
    lines = [dict(do="word", kind=WORDS[word][0], forms=list(WORDS[word][1:])) for word in words]
    lines += [dict(do="add", article=article, text=text) for article, text in sentences]
    return "".join(json.dumps(line) + "\n" for line in lines + more).encode()


def expect(words, done, output):
    if done.returncode != 0 or done.stdout != output:
        raise SystemExit(f"{words[0]}: {' '.join(words)}: expected status 0 and {output!r}, came {done.returncode}, {done.stdout!r} and {done.stderr!r}")


def main(program, command, *files):
    for words, live, sentences, more, output in SAID if command == "say" else TOLD:
        expect(words.split(), ran(program, words.split(), lines_of(live, sentences, more)), output.encode())
    for words in REFUSED[command]:
        done = ran(program, words.split(), b"")
        if done.returncode != 2 or done.stdout:
            raise SystemExit(f"{command}: {words}: expected status 2, came {done.returncode} and {done.stdout!r}")
    recorded.compare(command, files, lambda words, given: ran(program, words, given), expect)


main(*sys.argv[1:])
