"""The editor page in headless Chromium, by real keys and clicks, over a wiki that the program serves.

client.py PROGRAM [acts|bad|looks|long|FOLDER [PART]..]: goes through the parts below (acts), those of client_bad.py (bad) and of
client_looks.py (looks), or all, each with a wiki of its own, and ends with status 1 at the first page that isn't as it should be.
Where the program serves the page itself, that one is opened, else, or where CLIENT_TRY is set, the one of tools/client --try.
Pictures of the pages go to FOLDER; with `long` 60 pages crash at once.
"""
import json, os, sys, threading, time, traceback

import client_bad, client_looks
from client_stage import Page, Place, reply
from running import Closed, replayed
from webdriver import Browser, Driver, Failed, expect, expect_in


def part_words(page, place):
    browser = page.browser
    page.words()
    expect("words by kind", browser.texts(".kind li"), ["city", "river", "place", "Bern", "Aare", "Basel", "cross", "part", "located-in"])
    browser.click("#filter")
    browser.keys("IT")
    expect("the filter", browser.texts(".kind li"), ["city"])
    browser.keys("/")
    expect("a / in a field", browser.script("return document.activeElement.value"), "IT/")
    browser.script("document.activeElement.blur()")
    browser.keys("/")
    expect("the key /", page.focused(), "open-word")
    browser.keys("cities", "Enter")
    page.has(["Every city is a place."])
    expect("any form opens", browser.texts("h1"), ["city"])
    browser.keys("/", "bonn", "Enter")
    page.notice("No word has the form \u201cbonn\u201d")
    page.words()
    for kind, text, forms in [("noun", "box", ["box", "boxes"]), ("name", "Inn", ["Inn"]), ("verb", "try", ["tries", "try", "tried"]),
                              ("of", "bank", ["bank"]), ("adjective", "near-to", ["near-to"])]:
        browser.click(f'.word-form input[value="{kind}"]')
        browser.click(".word-form .field input")
        browser.keys(text)
        shown = browser.script("return [...document.querySelectorAll('.word-form .field input')].map((it) => it.value)")
        expect("the suggested forms", sorted(shown), sorted(forms))
        browser.keys("Enter")
        page.notice("Added ")
        browser.until(lambda: text in browser.texts(".kind li"), text)
        expect("the word's forms", place.ask(do="find", word=text)["word"]["forms"], forms)
    changed_before(page, place)
    suggestions(page)


def changed_before(page, place):
    """A suggested form can be changed before; what is refused is told, with the focus in its field."""
    browser = page.browser
    browser.click('.word-form input[value="noun"]')
    browser.click(".word-form .field input")
    browser.keys("mouse", "Tab")
    browser.script("document.activeElement.select()")
    browser.keys("mice", "Enter")
    browser.until(lambda: "mouse" in browser.texts(".kind li"), "the word")
    expect("a form that was changed before", place.ask(do="find", word="mice")["word"]["forms"], ["mouse", "mice"])
    browser.click(".word-form .field input")
    browser.keys("Bern", "Enter")
    page.notice("is a form of another word already")
    expect("the field of a refusal", browser.script("return document.activeElement.value"), "Bern")
    browser.script("document.activeElement.select()")
    browser.keys("a b", "Enter")
    page.notice("The form number 1 can't be one")
    browser.script("document.activeElement.select()")
    browser.keys("every", "Enter")
    page.notice("is a word of the grammar")


def suggestions(page):
    """The forms that the page suggests for 500 words are those that the wiki gives them."""
    ends = ["a", "s", "x", "z", "ch", "sh", "y", "ay", "ey", "iy", "oy", "uy", "-y", "ty", "e", "ee", "Ay", "\u00e9y", "h", "o"]
    texts = [f"{a}{b}q{end}" for a in "bcdfg" for b in "aeiou" for end in ends]
    kinds = ["noun" if number % 2 else "verb" for number in range(len(texts))]
    asked = [[{"do": "word", "kind": kind, "forms": [text]}, {"do": "find", "word": text}] for kind, text in zip(kinds, texts)]
    told = replayed(sys.argv[1], b"".join(json.dumps(it).encode() + b"\n" for pair in asked for it in pair))[1::2]
    got = page.browser.wait_script("""const { suggested } = await import('/editor/lexicon.js');
        return given[0].map(([kind, text]) => suggested(kind, text));""", [list(pair) for pair in zip(kinds, texts)])
    expect("so many words", len(got), 500)
    expect("the suggestions", got, [it["word"]["forms"] for it in told])


def part_word(page, place):
    browser = page.browser
    page.article("place", [])
    browser.button("Other forms\u2026")
    expect_in("what can't be changed is told", "A form that a sentence uses can't be changed", " ".join(browser.texts(".panel p")))
    browser.script("document.activeElement.select()")
    browser.keys("spot")
    browser.button("Change the forms")
    page.notice("The forms can't be changed: sentence 1 of city uses one of them")
    browser.click("#notices a")
    page.has(["Every city is a place."])
    page.article("place", [])
    browser.button("Remove the word\u2026")
    browser.keys("Enter")
    page.notice("The word can't be removed: sentence 1 of city")
    browser.click("#notices a")
    page.has(["Every city is a place."])
    browser.until(lambda: browser.texts(".pointed .text"), "the sentence that stands against it")
    page.article("part", [])
    browser.button("Other forms\u2026")
    browser.script("document.activeElement.select()")
    browser.keys("piece", "Enter")
    browser.until(lambda: browser.texts("h1") == ["piece"], "the word's new name")
    browser.button("Remove the word\u2026")
    browser.keys("Enter")
    browser.until(lambda: browser.texts("h1") == ["Words"] and "piece" not in browser.texts(".kind li"), "the words without it")
    searches(page, place)
    page.open("#/article/newcomer")
    browser.until(lambda: browser.find(".word-form"), "a form for a missing word")
    expect("its text", browser.script("return document.querySelector('.word-form .field input').value"), "newcomer")


def searches(page, place):
    """The sentences that hold a word: told beforehand, with progress, and stopped."""
    browser, between = page.browser, place.between

    def others():
        return [it for it in between.seen_of("read") if it["article"] == "Aare"]

    page.article("river", ["No river is a city."])
    browser.button("Sentences with it\u2026")
    expect_in("what the search does is told", "all 8 articles are read", " ".join(browser.texts(".panel p")))
    expect("nothing is read before", others(), [])
    browser.keys("Enter")
    browser.until(lambda: "3 sentences with this word in 8 articles." in browser.texts(".panel p"), "the sentences with a word")
    expect("they are links", browser.texts(".panel li > a"), ["Aare is a river.", "A river crosses a city.", "No river is a city."])
    browser.button("Sentences with it\u2026")
    held = threading.Event()
    between.meddle = lambda request: held.wait(60) and None if request["do"] == "read" and request["article"] == "Basel" else None
    browser.keys("Enter")
    browser.until(lambda: browser.script("const it = document.querySelector('progress'); return it && it.value === 2 && it.max === 8"), "progress")
    browser.button("Stop")
    held.set()
    browser.until(lambda: "2 sentences with this word in 3 articles; stopped before the end." in browser.texts(".panel p"), "that it was stopped")
    between.meddle = None


def part_article(page, place):
    browser = page.browser
    page.article("Aare", ["Aare is a river.", "Aare crosses Bern.", "Aare is a city."])
    expect("statuses in words", page.statuses(), ["asserted", "asserted", "contradiction"])
    colours = browser.script("return [...document.querySelectorAll('.status')].map((it) => getComputedStyle(it).color)")
    expect("colours differ", len(set(colours)), 2)
    expect("each word is a link", browser.texts(".sentence:nth-child(2) .text a"), ["Aare", "crosses", "Bern"])
    browser.click(".sentence:nth-child(2) a:nth-of-type(3)")
    page.has(["Bern is a city.", "What crosses Bern?"])
    expect("answers are links", browser.texts(".answers a"), ["Aare"])
    details(page, place)
    page.article("Aare", place.texts("Aare"))
    page.act(0, "Retract")
    browser.until(lambda: page.statuses()[0] == "retracted", "a retracted sentence")
    page.act(2, "Reassert")
    browser.until(lambda: page.statuses() == ["retracted", "asserted", "asserted"], "a sentence taken up again")
    page.act(0, "Reassert")
    browser.until(lambda: page.statuses()[0] == "contradiction", "the other way round")
    page.act(1, "Remove")
    page.has(["Aare is a river.", "Aare is a city."])
    browser.keys("Enter")
    page.has(["Aare is a river.", "Aare crosses Bern.", "Aare is a city."])
    page.act(2, "Edit")
    page.settled()
    expect("an old sentence in the editor", page.typed(), "Aare is a city.|")
    page.type("Backspace", "Backspace", "place.")
    browser.keys("Enter")
    page.has(["Aare is a river.", "Aare crosses Bern.", "Aare is a place."])
    page.act(0, "Insert before")
    page.type("Aare crosses Basel.")
    browser.keys("Enter")
    page.has(["Aare crosses Basel.", "Aare is a river.", "Aare crosses Bern.", "Aare is a place."])


def details(page, place):
    """What a sentence means, why it means nothing of OWL's, and the code of its reading."""
    browser = page.browser

    def shows(article, at, part):
        page.article(article, place.texts(article))
        page.act(at, "Details")
        code = " ".join(map(str, place.ask(do="parse", text=place.texts(article)[at])["code"]))
        for wanted in (part, code):
            browser.until(lambda: wanted in " ".join(browser.texts(".details")), f"{wanted} in the details")

    shows("Basel", 0, "Nothing leads from a name")
    shows("Aare", 1, "ObjectPropertyAssertion(:cross :Aare :Bern)")
    shows("Bern", 1, place.ask(do="axioms", article="Bern", at=1)["class"])


def part_statuses(page, place):
    """Each status in its own words, an answer that isn't known, and a link for each."""
    known = ["asserted", "retracted", "contradiction", "budget", "outside", "question", "question-outside"]
    told = [{"status": it, "text": "Aare is a river."} for it in known]
    told[5].update(answers=["Bern"], unknown=["Basel"])
    told[4].update(cause="cycle")
    place.between.meddle = lambda request: reply("read", revision=7, sentences=told) if request["do"] == "read" else None
    page.article("city", ["Aare is a river."] * 7)
    expect("each status in words", page.statuses(), ["asserted", "retracted", "contradiction", "undecided", "outside OWL", "question", "question outside OWL"])
    expect("answers", page.browser.texts(".answers li"), ["Bern", "Basel not known"])
    expect("answers are links", page.browser.script("return [...document.querySelectorAll('.answers a')].map((it) => it.hash)"), ["#/article/Bern", "#/article/Basel"])
    page.actions(4)
    expect_in("the cause in a sentence", "Its relations go round in a circle", " ".join(page.browser.texts(".details")))
    for at, name in enumerate(["Retract", "Reassert", "Reassert", "Reassert", None, None, None]):
        page.actions(at)
        found = page.browser.texts(f".sentence:nth-child({at + 1}) .actions button")
        expect("what can be done", [it for it in found if it.endswith("ert") or it == "Retract"], [name] if name else [])


def part_others(page, place):
    """What somebody else changes appears by itself, and isn't overwritten."""
    browser, between = page.browser, place.between
    page.article("Aare", place.texts("Aare"))
    page.actions(2)
    place.ask(do="add", article="Aare", at=0, text="Aare is something.")
    page.has(["Aare is something.", "Aare is a river.", "Aare crosses Bern.", "Aare is a city."])
    page.notice("Somebody else changed this article")
    expect("what was open stays open", page.focused(), "Edit")
    changes = [("Retract", 2, lambda: place.ask(do="retract", article="Aare", at=2)), ("Reassert", 2, lambda: place.ask(do="remove", article="Aare", at=0)),
               ("Remove", 1, lambda: place.ask(do="edit", article="Aare", at=1, text="Aare crosses Basel.")),
               ("Details", 1, lambda: place.ask(do="add", article="Aare", at=0, text="Aare is something."))]
    for name, at, change in changes:
        page.quiet()
        between.before("read", change)
        page.act(at, name)
        page.notice("Nothing was sent, since somebody else changed this place", "Somebody else changed this article")
        between.meddle = None
        page.again("Aare")
    expect("nothing was sent", [it["do"] for it in between.seen if it["do"] in ("retract", "reassert", "remove", "axioms")], [])
    typed_meanwhile(page, place)
    hit_meanwhile(page, place)
    page.article("Bern", place.texts("Bern"))
    place.ask(do="add", article="Basel", text="Basel crosses Bern.")
    browser.until(lambda: browser.texts(".answers a") == ["Aare", "Basel"] or browser.texts(".answers a") == ["Basel"], "an answer that changed without a revision", 60)


def typed_meanwhile(page, place):
    """A sentence that somebody else changes while it is edited here isn't overwritten, nor is one inserted elsewhere."""
    browser, between = page.browser, place.between
    now = place.texts("Aare")
    page.act(1, "Edit")
    page.settled()
    between.before("read", lambda: place.ask(do="edit", article="Aare", at=1, text="Aare crosses something."))
    page.type("Backspace", "Backspace", "place.")
    browser.keys("Enter")
    page.notice("omebody else changed")
    between.meddle = None
    expect("nothing is overwritten", place.texts("Aare"), [now[0], "Aare crosses something.", *now[2:]])
    expect("what was typed is there", page.typed(), "Aare is a place.|")
    page.again("Aare")


def hit_meanwhile(page, place):
    """Where the revision isn't one higher afterwards, what changed is shown."""
    between = place.between
    between.before("retract", lambda: place.ask(do="add", article="Aare", text="Aare crosses Aare."))
    at = page.statuses().index("asserted")
    page.act(at, "Retract")
    page.notice("Somebody else changed the article at the same moment. This changed altogether:")
    expect_in("what changed", "new: Aare crosses Aare.", " ".join(page.browser.texts(".changed")))
    between.meddle = None
    page.quiet()
    page.act(at, "Remove")
    page.notice("Removed ")
    between.before("read", lambda: place.ask(do="remove", article="Aare", at=at))
    page.browser.keys("Enter")
    page.notice("Nothing was sent, since somebody else changed this place", "Removed ")
    between.meddle = None


WATCHED = """const { watch } = await import('/editor/watch.js');
    const [real, now] = [window.setTimeout, performance.now.bind(performance)];
    const pauses = []; let clock = 0;
    const fire = () => new Promise((resolve) => real(resolve, 0));
    window.setTimeout = (action, pause) => { pauses.push([Math.round(pause), action]); return 0; };
    performance.now = () => clock;
    const end = watch(async () => { clock += given[0][pauses.length - 1]; return 1; }, async () => {}, () => true);
    for (let turn = 0; turn < given[0].length; turn += 1) { clock += pauses[turn][0]; pauses[turn][1](); await fire(); await fire(); }
    end(); window.setTimeout = real; performance.now = now;
    return pauses.map(([pause]) => pause)"""


def part_watch(page, place):
    """An open article is read every 5 s, or ten times as long as the last reading took; never while the page is hidden."""
    browser = page.browser
    page.article("Basel", ["A river crosses a city."])
    expect("pauses", browser.wait_script(WATCHED, [100, 499, 700, 2000, 3]), [5000, 5000, 5000, 7000, 20000, 5000])
    reads = len(place.between.seen_of("read"))
    browser.until(lambda: len(place.between.seen_of("read")) > reads, "a reading by itself")
    browser.call("POST", "/window/minimize", {})
    browser.until(lambda: browser.script("return document.hidden"), "a hidden page")
    time.sleep(0.5)
    reads = len(place.between.seen_of("read"))
    place.ask(do="add", article="Basel", text="Basel is a city.")
    time.sleep(7)
    expect("readings while it is hidden", len(place.between.seen_of("read")), reads)
    browser.call("POST", "/window/rect", {"width": 1100, "height": 800})
    page.has(["A river crosses a city.", "Basel is a city."])


def part_editor(page, place):
    browser = page.browser
    page.article("Basel", ["A river crosses a city."])
    page.editor()
    expect("the groups", browser.texts(".group-name"), ["Function words", "Names", "Nouns", "Of-constructs", "Verbs", "Adjectives"])
    tops = browser.script("return [...document.querySelectorAll('.group')].map((it) => it.getBoundingClientRect()).map((it) => [it.top, it.left])")
    expect("they stand side by side", (len({top for top, _ in tops}), [left for _, left in tops]), (1, sorted(left for _, left in tops)))
    expect("names first", page.options(2), ["Aare", "Basel", "Bern"])
    page.type("a")
    expect("one field filters all groups", [page.options(group) for group in (1, 2)], [[it for it in page.options(1) if "a" in it.lower()], ["Aare", "Basel"]])
    page.type("Backspace", "ba")
    expect("the filter", page.marked(), ["Basel"])
    told = browser.script("""const it = document.querySelector('.next'); const of = (name) => document.getElementById(it.getAttribute(name));
        return [it.getAttribute('role'), of('aria-controls').getAttribute('role'), of('aria-activedescendant').innerText]""")
    expect("what a reader of the screen is told", told, ["combobox", "listbox", "Basel"])
    page.type("Enter")
    page.type("Down")
    expect("an arrow", page.marked(), ["does"])
    page.type("Up", "Down")
    expect("and back", page.marked(), ["does"])
    page.type("Right")
    expect("the next group", page.marked(), ["crosses"])
    page.type("Left", "Down", "Enter")
    expect("two tokens", page.typed(), "Basel is|")
    page.type("Backspace")
    page.type("is", "Tab")
    expect("Tab takes a word", page.typed(), "Basel is|")
    expect("no end yet", browser.texts(".end.lit"), [])
    page.type("a ", "cit", "Tab")
    expect("a sentence that may end", browser.texts(".end.lit"), ["."])
    browser.script("document.querySelector('.next').focus()")
    browser.keys("Tab")
    expect("Tab leaves the empty field", page.focused(), ".")
    browser.keys("Enter")
    page.settled()
    expect("whole", page.typed(), "Basel is a city.|")
    place.between.seen.clear()
    browser.keys("Enter")
    page.has(["A river crosses a city.", "Basel is a city."])
    browser.until(lambda: place.between.seen_of("drop"), "an end of the session")
    expect("what a commit asks for", [it["do"] for it in place.between.seen if it["do"] != "parse"],
           ["open", "read", "type", "type", "type", "type", "type", "commit", "read", "drop"])
    page.type("every ")
    browser.script("[...document.querySelectorAll('.menu [role=option]')].find((it) => it.innerText === 'river').setAttribute('data-test', '')")
    browser.click("[data-test]")
    page.settled()
    expect("a click takes any", page.typed(), "Every river|")
    pasted(page)
    new_word(page, place)


def pasted(page):
    browser = page.browser
    page.paste("crosses a city that Aare fish")
    expect("what can stand stays", page.typed(), "Every river crosses a city that Aare|fish")
    page.notice("\u201cfish\u201d can't stand after")
    expect("the menu is what may follow", page.options(5), [])
    page.type("Escape")
    expect("and after that", page.options(5), ["crosses"])
    page.type(*["Backspace"] * 7)
    expect("taken back", page.typed(), "|")
    page.paste(" ".join(["Aare is a city and"] * 9))
    page.notice("the first 40 were tried")
    page.type("Escape")
    page.type(*["Backspace"] * 40)
    page.paste("Which rivers cross Bern")
    expect("a question that may end", browser.texts(".end.lit"), ["?"])
    page.type("?")
    expect("a whole sentence", page.typed(), "Which rivers cross Bern?|")
    page.type(*["Backspace"] * 5)


def new_word(page, place):
    """A word that doesn't exist yet is added without leaving, also one that is part of another one."""
    browser = page.browser
    page.type("Rhine ")
    browser.button("Add the word \u201cRhine\u201d\u2026")
    browser.click('.editor .word-form input[value="name"]')
    browser.button("Add the word", ".editor .word-form")
    browser.until(lambda: page.typed() == "Rhine|", "the new word in the sentence")
    page.settled()
    page.type("is a river.")
    browser.keys("Enter")
    page.has(["A river crosses a city.", "Basel is a city.", "Rhine is a river."])
    page.type("Aar ")
    expect("a word that is part of another one", page.typed(), "|Aar")
    browser.button("Add the word \u201cAar\u201d\u2026")
    browser.button("Cancel", ".editor .word-form")
    page.type("Escape")
    browser.keys("Escape")
    browser.until(lambda: not browser.find(".editor"), "a closed editor")


def part_sessions(page, place):
    """Commits that go wrong: the network fails, tokens are another's, the article isn't this one."""
    browser, between = page.browser, place.between
    page.article("Basel", ["A river crosses a city."])
    page.editor()
    page.type("Basel is a city.")
    between.meddle = lambda request: reply("type", tokens=7) if request["do"] == "type" else None
    browser.keys("Enter")
    page.notice("Nothing was committed")
    expect("a session that may be another's isn't touched", [len(between.seen_of(it)) for it in ("type", "commit", "drop")], [1, 0, 0])
    page.quiet()
    between.meddle = lambda request: (browser.offline(True), time.sleep(0.5), None)[2] if request["do"] == "type" else None
    browser.script("document.querySelector('.next').focus()")
    browser.keys("Enter")
    page.notice("The wiki can't be reached. Look whether the program runs", "can't reach the wiki")
    between.meddle = None
    browser.offline(False)
    time.sleep(0.5)
    expect("after a failure of the network the session isn't touched", (len(between.seen_of("drop")), len(between.seen_of("commit"))), (0, 0))
    expect("what was typed is there", page.typed(), "Basel is a city.|")
    page.quiet()
    between.meddle = lambda request: reply("commit", article="city", status="asserted") if request["do"] == "commit" else None
    browser.script("document.querySelector('.next').focus()")
    browser.keys("Enter")
    page.notice("added the sentence to another article")
    between.meddle = None


def part_together(page, place):
    """Two browsers on one article; sessions that are all taken."""
    browser = page.browser
    other = Page(Browser(browser.driver), place)
    for one in (page, other):
        one.article("Basel", ["A river crosses a city."])
        one.editor()
        one.type("Basel is a ")
    page.type("city.")
    other.type("place.")
    browser.keys("Enter")
    page.has(["A river crosses a city.", "Basel is a city."])
    other.browser.keys("Enter")
    other.browser.until(lambda: len(place.texts("Basel")) == 3 or other.browser.find(".offer"), "a commit or an offer")
    if other.browser.find(".offer"):
        expect_in("what changed is shown", "new: Basel is a city.", " ".join(other.browser.texts(".offer")))
        other.browser.keys("Enter")
    other.has(["A river crosses a city.", "Basel is a city.", "Basel is a place."])
    other.browser.close()
    moved(page, place)
    full(page, place)


def moved(page, place):
    """The article moves on between its last reading and the commit: what changed is shown, and the sentence goes on."""
    page.has(["A river crosses a city.", "Basel is a city.", "Basel is a place."])
    page.type("Basel is a river.")
    place.between.before("read", lambda: place.ask(do="remove", article="Basel", at=0))
    page.browser.keys("Enter")
    page.notice("Somebody else changed the article since it was shown here")
    expect_in("what changed is shown", "gone: A river crosses a city.", " ".join(page.browser.texts(".offer")))
    place.between.meddle = None
    page.browser.keys("Enter")
    page.has(["Basel is a city.", "Basel is a place.", "Basel is a river."])
    page.type("Basel crosses Aare.")
    place.between.before("commit", lambda: place.ask(do="add", article="Basel", text="Basel is something."))
    page.browser.keys("Enter")
    page.notice("Somebody else changed the article")
    place.between.meddle = None
    page.browser.keys("Enter")
    page.has(["Basel is a city.", "Basel is a place.", "Basel is a river.", "Basel is something.", "Basel crosses Aare."])


def full(page, place):
    between, now = place.between, page.sentences()
    page.browser.until(lambda: len(between.seen_of("drop")) == len(between.seen_of("open")), "as many drops as sessions")
    while "session" in place.ask(do="open", article="Bern"):
        pass
    page.type("Basel crosses Bern.")
    page.browser.keys("Enter")
    page.notice("All places for people who write are taken")
    page.notice("A change between the two isn't noticed")
    page.browser.keys("Enter")
    page.has([*now, "Basel crosses Bern."])


def part_ask(page, place):
    browser = page.browser
    page.open("#/ask")
    browser.until(lambda: browser.find(".next"), "the editor")
    page.settled()
    page.type("Which rivers cross a city?")
    browser.keys("Enter")
    browser.until(lambda: browser.texts(".answered .answers a") == ["Aare"], "the answer")
    expect("the question stands in an article", place.texts("river")[-1], "Which rivers cross a city?")
    expect_in("it is told", "The question was added as sentence 2 of river", " ".join(browser.texts(".answered")))
    browser.button("Remove the question again")
    page.notice("The question was removed again")
    expect("the question is gone", place.texts("river"), ["No river is a city."])
    page.type("Bern is a city.")
    browser.keys("Enter")
    page.notice("This is a statement and no question")
    browser.keys("Escape")


def part_map(page, place):
    browser = page.browser
    page.open("#/map")
    page.drawn()
    drawn = {kind: browser.script("return [...document.querySelectorAll(arguments[0])].map((it) => it.textContent)", kind)
             for kind in (".class-name", ".chip-name", ".relation-name")}
    expect("classes", sorted(drawn[".class-name"]), ["city", "in no class", "place", "river"])
    expect("names", sorted(drawn[".chip-name"]), ["Aare", "Basel", "Bern"])
    expect("relations", drawn[".relation-name"], ["cross"])
    expect("the hierarchy", len(browser.find("svg .isa")), 1)
    reads = len(place.between.seen_of("axioms"))
    browser.button("Read again")
    page.drawn()
    expect("axioms are kept", len(place.between.seen_of("axioms")), reads)
    browser.click('svg a[href="#/article/Aare"] text')
    page.has(["Aare is a river.", "Aare crosses Bern.", "Aare is a city."])


def part_keyboard(page, place):
    """Adds a word, writes, edits, inserts, retracts, reasserts, removes and asks by the keyboard alone, from the first page on."""
    browser = page.browser
    page.words()
    browser.script("document.activeElement.blur()")
    page.to("Filter")
    browser.keys("rive")
    page.to("Singular")
    browser.keys("lake", "Enter")
    page.notice("Added ")
    page.to("Add the word")
    browser.keys("/", "Basel", "Enter")
    page.has(["A river crosses a city."])
    page.to("Write a sentence")
    browser.keys("Enter")
    page.settled()
    page.type("Basel is a city.")
    browser.keys("Enter")
    page.has(["A river crosses a city.", "Basel is a city."])
    not_trapped(page)
    browser.keys("Escape")
    page.to("Actions", 2)
    browser.keys("Enter")
    page.to("Retract")
    browser.keys("Enter")
    browser.until(lambda: page.statuses()[1] == "retracted", "a retracted sentence")
    page.to("Actions")
    browser.keys("Enter")
    page.to("Reassert")
    browser.keys("Enter")
    browser.until(lambda: page.statuses()[1] == "asserted", "a sentence taken up again")
    page.to("Actions")
    browser.keys("Enter", "Enter")
    page.settled()
    page.type("Backspace", "Backspace", "place.")
    browser.keys("Enter")
    page.has(["A river crosses a city.", "Basel is a place."])
    page.to("Actions")
    browser.keys("Enter")
    page.to("Insert before")
    browser.keys("Enter")
    page.type("Basel is a lake.")
    browser.keys("Enter")
    page.has(["A river crosses a city.", "Basel is a lake.", "Basel is a place."])
    page.to("Actions")
    browser.keys("Enter")
    page.to("Remove")
    browser.keys("Enter")
    page.has(["A river crosses a city.", "Basel is a place."])
    page.to("Ask a question")
    browser.keys("Enter")
    page.settled()
    page.type("What crosses Bern?")
    browser.keys("Enter")
    page.has(["A river crosses a city.", "Basel is a place.", "What crosses Bern?"])
    browser.until(lambda: browser.texts(".answers a") == ["Aare"], "the answer")
    expect("the keyboard gets round the page", len(around(page)) > 10, True)


def not_trapped(page):
    """The editor's field is left by Tab where it is empty or holds what can't be taken, and by Shift and Tab always."""
    browser = page.browser
    for typed in ("", "qqq"):
        page.type(typed) if typed else None
        expect("the field", page.focused(), "Next word")
        browser.keys("Tab")
        expect("Tab leaves it", page.focused() == "Next word", False)
        browser.chord("Shift", "\ue004")
        expect("and comes back", page.focused(), "Next word")
        browser.chord("Shift", "\ue004")
        expect("Shift and Tab leave it", page.focused() == "Next word", False)
        browser.keys("Tab")
    page.type("Escape")
    page.type("cit")
    browser.chord("Shift", "\ue004")
    expect("Shift and Tab leave a filter", page.focused() == "Next word", False)
    browser.keys("Tab")
    page.type("Escape")


def around(page):
    """What has the focus, one after the other, until it is the page's first again; it comes round in any case."""
    seen = []
    page.browser.script("document.activeElement.blur(); document.querySelector('#skip').focus()")
    for _ in range(200):
        page.browser.keys("Tab")
        name = page.browser.script("const it = document.activeElement; return it.id + '/' + it.className + '/' + (it.innerText || it.value || '')")
        if seen and name.startswith("skip/"):
            return seen
        seen.append(name)
    raise Failed(f"the focus doesn't come round: {seen[-5:]}")


def parts_of(names):
    return {name[5:]: part for name, part in names.items() if name.startswith("part_")}


GROUPS = {"acts": parts_of(globals()), "bad": parts_of(vars(client_bad)), "looks": parts_of(vars(client_looks))}
PARTS = {name: part for group in GROUPS.values() for name, part in group.items()}


def tell(name, error, browser):
    try:
        print("client: the page showed:", " | ".join(" ".join(browser.texts("body")).split("\n"))[:1500])
        print("client: its console:", browser.logs()[-5:])
        if "CLIENT_PICTURE" in os.environ:
            browser.picture(os.environ["CLIENT_PICTURE"])
    except (Failed, OSError):
        pass
    print(f"client: {name}: {error}")


def main():
    driver, places, name = Driver(), [], "start"
    try:
        browser = Browser(driver)
        for name in sys.argv[3:] or GROUPS.get("".join(sys.argv[2:3])) or PARTS:
            begun = time.time()
            places.append(Place())
            PARTS[name](Page(browser, places[-1]), places[-1])
            places.pop().stop()
            print(f"client: {name} is as it should be, in {time.time() - begun:.1f} s", flush=True)
        return 0
    except (Failed, Closed) as error:
        traceback.print_exc()
        tell(name, error, browser)
        return 1
    finally:
        driver.stop()
        for place in places:
            place.stop()


if __name__ == "__main__":
    sys.exit(main())
