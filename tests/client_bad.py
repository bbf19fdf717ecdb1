"""Parts of the tests of the editor page: statuses and answers that are no good, words and sentences of every kind, pages that
crash or are left, a program that is slow or stops."""
import sys, threading, time

from client_stage import Page, lines, reply, response
from webdriver import Failed, expect, expect_in

STATUSES = [(401, "You are not signed in"), (403, "The server doesn't let you do this"), (429, "Too many requests"), (502, "can't reach the wiki"),
            (503, "too many visitors"), (504, "took too long")]


def part_errors(page, place):
    """Each status has its sentence; a change is sent once, and its article read; a reading is sent again."""
    browser, between = page.browser, place.between
    page.article("Basel", ["A river crosses a city."])
    for status, part in STATUSES:
        between.meddle = lambda request, status=status: response(status, "<p>no</p>") if request["do"] == "remove" else None
        page.act(0, "Remove")
        page.notice(part)
        expect("an error is an alert", len(browser.find("#notices .bad[role=alert]")) > 0, True)
        if status >= 500:
            page.notice("so the change was not done")
        page.quiet()
    between.meddle = lambda request: response(200, "<p>Sign in</p>") if request["do"] == "remove" else None
    page.act(0, "Remove")
    page.notice("is no answer of the wiki")
    page.notice("so the change was not done")
    expect("a change is sent once", len(between.seen_of("remove")), len(STATUSES) + 1)
    between.meddle = lambda request: (place.ask(**request), response(504, "<p>no</p>"))[1] if request["do"] == "remove" else None
    page.quiet()
    page.act(0, "Remove")
    page.notice("The article was changed. Look whether your change is among these:")
    page.has([])
    for status in (503, 429):
        failures = [status]
        between.meddle = lambda request: response(failures.pop(), "<p>no</p>") if request["do"] == "words" and failures else None
        page.words()
        expect("a read is sent again", failures, [])
    between.meddle = lambda request: response(200, "<p>Sign in</p>") if request["do"] == "words" else None
    page.open()
    page.notice("is no answer of the wiki")
    between.meddle = None
    refused(page)


def refused(page):
    """Each refusal of the wiki is a sentence of its own, and no link of it is empty."""
    names = ["BadRequest", "NoWord", "BadForm", "Taken", "Reserved", "NoPlace", "NoSession", "Full", "Stale", "NotOffered", "Nothing",
             "Unfinished", "NotSentence", "InUse", "Breaks", "BadStatus", "GrammarRefused", "Bare"]
    cases = [(name, "words") for name in names] + [("Full", which) for which in ("sentences", "sessions", "tokens", "numbers")]
    told = page.browser.wait_script("""const { explain } = await import('/editor/refusals.js');
        const { Trouble } = await import('/editor/api.js');
        const reply = { text: 'fish', word: 'fish', length: 1, limit: 5, article: 'fish', at: 0, status: 'asserted', fault: 'Syntax' };
        return given[0].map(([name, which]) => explain(new Trouble('refused', 'read',
            { status: 409, reply: { ...reply, name, which: name === 'BadForm' ? 1 : which } })).flat(9).map((it) => it.textContent || it).join(''));""", cases)
    if len(set(told)) != len(cases) or any(not text.endswith(".") or "refused this" in text or "undefined" in text for text in told):
        raise Failed(f"refusals as sentences: {told}")


def part_late(page, place):
    """An /api that answers late: the page says that it waits, takes keys meanwhile, and the waiting can be ended."""
    browser, between = page.browser, place.between
    page.article("Basel", ["A river crosses a city."])
    page.editor()
    between.meddle = lambda request: time.sleep(0.7)
    browser.keys("Basel is a city.", "Enter")
    page.settled()
    page.has(["A river crosses a city.", "Basel is a city."])
    held = threading.Event()
    between.meddle = lambda request: held.wait(60) and None if request["do"] == "words" else None
    page.open()
    browser.until(lambda: "Waiting for the wiki" in " ".join(browser.texts("#waiting")), "that it waits")
    browser.button("Stop waiting")
    page.notice("not waited for any longer")
    held.set()
    between.meddle = None


def part_restart(page, place):
    """The program stops and starts again under an open page."""
    browser = page.browser
    page.article("Basel", ["A river crosses a city."])
    page.editor()
    page.type("Basel is a city.")
    place.wiki.kill()
    browser.keys("Enter")
    page.notice("can't reach the wiki", "can't be reached")
    browser.until(lambda: browser.find(".lost"), "that the wiki doesn't answer", 60)
    place.restart()
    browser.until(lambda: not browser.find(".lost"), "the wiki again", 60)
    expect("what was typed is there", page.typed(), "Basel is a city.|")
    browser.script("document.querySelector('.next').focus()")
    browser.keys("Enter")
    page.has(["A river crosses a city.", "Basel is a city."])


def part_leaving(page, place):
    """Pages that are left in the midst of a commit leave no session behind."""
    browser = page.browser
    place.between.meddle = lambda request: time.sleep(0.5) if request["do"] == "type" else None
    for _ in range(4):
        page.article("Basel", ["A river crosses a city."])
        page.editor()
        page.type("Basel is a city.")
        begun = len(place.between.seen_of("type"))
        browser.keys("Enter")
        browser.until(lambda: len(place.between.seen_of("type")) > begun, "a token on its way")
        browser.go("about:blank")
    place.between.meddle = None
    browser.until(lambda: len(place.between.seen_of("drop")) == len(place.between.seen_of("open")) == 4, "as many drops as sessions")
    expect("nothing was committed", place.texts("Basel"), ["A river crosses a city."])


# In the long form all of the 60 are pages; else the others are sessions that somebody holds.
HELD = 60
CRASHING = HELD if sys.argv[2:3] == ["long"] else 10
# Opens so many pages, all of one process. A browser keeps six links at most to one place, so the tokens are held in the pages.
OPENED = """window.pages = [window]; while (window.pages.length < arguments[0]) { window.pages.push(window.open(location.href)); }"""
READY = "return window.pages.filter((it) => it.document.querySelector('.article-foot button')).length"
WRITTEN = """for (const it of window.pages) {
    const field = it.document.querySelector('.next');
    if (!field) {
        const send = it.fetch;
        it.fetch = (path, options) => (options.body.startsWith('{"do":"type"') ? new Promise(() => { it.holds = true; }) : send.call(it, path, options));
        [...it.document.querySelectorAll('.article-foot button')].find((found) => found.textContent === 'Write a sentence').click();
    } else if (it.document.querySelector('.typed-text').textContent === '') {
        field.value = 'Basel is a city.';
        field.dispatchEvent(new it.Event('input'));
    } else if (!it.asked && it.document.querySelector('.editor[aria-busy="false"]')) {
        it.asked = true;
        it.document.querySelector('.editor .main').click();
    } }
    return window.pages.filter((it) => it.holds).length"""


def part_crash(page, place):
    """Pages that crash while they commit: their sessions stay, as nobody can drop them; others write all the same."""
    browser, between = page.browser, place.between
    for _ in range(HELD - CRASHING):
        place.ask(do="open", article="Basel")
    first = browser.windows()[0]
    browser.new_window()
    page.open("#/article/Basel")
    browser.until(lambda: browser.find(".article-foot button"), "an article")
    browser.script(OPENED, CRASHING)
    browser.until(lambda: browser.script(READY) == CRASHING, f"{CRASHING} articles", 120)
    browser.until(lambda: browser.script(WRITTEN) == CRASHING, f"{CRASHING} commits on their way", 120)
    browser.crash()
    browser.window(first)
    expect("sessions, and what came of them", [len(between.seen_of(it)) for it in ("open", "drop", "commit")], [CRASHING, 0, 0])
    page.open("#/article/Basel")
    page.editor()
    page.type("Basel is a city.")
    browser.keys("Enter")
    page.has(["A river crosses a city.", "Basel is a city."])
    while "session" in place.ask(do="open", article="Bern"):
        pass
    page.type("Basel is a place.")
    browser.keys("Enter")
    page.notice("All places for people who write are taken")
    browser.keys("Enter")
    page.has(["A river crosses a city.", "Basel is a city.", "Basel is a place."])
    expect("dropped", len(between.seen_of("drop")), 1)


ODD = ["constructor", "toString", "hasOwnProperty", "w" * 64, "\u05e9\u05dc\u05d5\u05dd", "\u0628\u062d\u0631", "\u0628\u064b\u0628", "\u0915\u093f\u0924\u093e\u092c", "h\u00e9"]
REFUSED = ["__proto__", "he\u0301", "w" * 65]


def part_bad(page, place):
    """Words that are no good keys, long ones, other directions, combining letters; markup that an /api tells."""
    browser = page.browser
    for word in ODD:
        expect(f"the word {word}", place.ask(do="word", kind="noun", forms=[word, "v" * 64 if len(word) == 64 else word + "x"]), {"done": "word"})
        expect(f"a sentence with {word}", place.ask(do="add", article=word, text=f"Bern is not a {word}.")["done"], "add")
    page.words()
    expect("words that objects have", browser.texts(".kind:first-child li"), ["city", "river", "place", *ODD])
    expect("no word makes the page wider", browser.script("return document.documentElement.scrollWidth <= innerWidth"), True)
    for word in ODD:
        page.article(word, [f"Bern is not a {word}."])
        expect("links of its sentence", browser.texts(".text a"), ["Bern", word])
    directions = browser.script("return [...document.querySelectorAll('.text a, h1')].every((it) => it.querySelector('bdi'))")
    expect("each word has its own direction", directions, True)
    page.editor()
    page.type("Every constructor is a toString.")
    expect("odd words typed", page.typed(), "Every constructor is a toString.|")
    browser.keys("Enter")
    browser.until(lambda: "Every constructor is a toString." in page.sentences(), "the sentence")
    page.type(f"No {ODD[4]} is a {ODD[6]}.")
    expect("right to left, with what is written above letters", page.typed(), f"No {ODD[4]} is a {ODD[6]}.|")
    for word in REFUSED:
        expect(f"the wiki refuses {word}", place.ask(do="word", kind="name", forms=[word])["name"], "BadForm")
        page.words()
        browser.click('.word-form input[value="name"]')
        browser.click(".word-form .field input")
        browser.keys(word, "Enter")
        page.notice("The form number 1 can't be one")
    markup(page, place)


def markup(page, place):
    """What an /api tells is text, whatever stands in it."""
    browser, bad = page.browser, "<img src=x onerror=window.ran=1>"
    words = [{"kind": "noun", "forms": [bad, bad + "s"]}, {"kind": "name", "forms": ["Bern"]}]
    sentence = {"status": bad, "cause": bad, "text": f"Bern is a {bad}.", "answers": [bad], "unknown": [bad]}
    place.between.meddle = lambda request: {"words": reply("words", words=words), "read": reply("read", revision=1, sentences=[sentence]),
                                            "remove": reply("no", refused=9, name=bad, text=bad)}.get(request["do"])
    page.words()
    expect_in("a word", bad, browser.texts(".kind li"))
    page.article("Bern", [f"Bern is a {bad}."])
    page.act(0, "Remove")
    page.notice("The wiki refused this: " + bad)
    page.open("#/map")
    browser.until(lambda: browser.find("svg"), "a drawing")
    page.open("#/article/%3Cimg%20src%3Dx%20onerror%3Dwindow.ran%3D1%3Ey")
    browser.until(lambda: "No word has the form" in " ".join(browser.texts("main p")), "a word that isn't there")
    page.open("#/article/%E0%A4%A")
    browser.until(lambda: browser.texts("h1") == ["Words"], "the first page at a broken address")
    expect("no markup is in the page", (len(browser.find("img")), browser.script("return window.ran === undefined")), (0, True))
    place.between.meddle = None


KEYS = ["w", "o", "r", "d", "a", "a", *["Backspace"] * 6]
ROUNDS = 3
# Milliseconds that a key may take. The long form holds the page to what docs/CLIENT.md says of an idle machine; the gate's machine does
# other work beside, and there a page fails that looks at all words again and again.
MOST = 50 if sys.argv[2:3] == ["long"] else 250


def keys_of(page, selector, what):
    """Types a word and takes it back. Of each key the page's own time counts, of which a busy machine takes nothing, and the least of
    some rounds."""
    browser, rounds = page.browser, []
    browser.click(selector)
    for _ in range(ROUNDS):
        rounds.append([browser.busy(lambda key=key: browser.keys(key)) for key in KEYS])
    quick(what, [min(times) for times in zip(*rounds)])


def quick(what, times):
    print(f"client: a key in {what} takes {max(times):.0f} ms at most")
    if max(times) > MOST:
        raise Failed(f"a key in {what} takes more than {MOST} ms: {times}")


def spelled(number):
    return "".join("abcdefghij"[int(digit)] for digit in str(number))


def part_many(page, place):
    """The most words and sentences that a wiki can have: 5,000, and 2,000 in one article."""
    browser = page.browser
    nouns = [f"thing{spelled(number)}" for number in range(100)]
    names = [f"word{spelled(number)}" for number in range(4899)]
    words = [("noun", noun) for noun in nouns] + [("verb", "see")] + [("name", name) for name in names]
    texts = [(nouns[0], f"A {nouns[number // 100]} sees a {nouns[number % 100]}.") for number in range(2000)]
    full = type(place)(lines(words, texts), is_straight=True)
    page = Page(browser, full)
    try:
        page.words()
        keys_of(page, "#filter", f"the filter of {len(words)} words")
        for left in (4799, 4299):
            browser.button(f"Show 500 more of {left}")
        expect("the focus is on the first of them", page.focused(), names[600])
        browser.click("#filter")
        quick("the filter where more of them are shown", [browser.busy(lambda: browser.keys("w"))])
        keys_of(page, "#open-word", "the field above")
        begun = time.time()
        browser.go(full.address + f"#/article/{nouns[0]}")
        browser.until(lambda: browser.script("return document.querySelectorAll('.sentence').length") == 2000, "2,000 sentences", 60)
        print(f"client: an article of 2,000 sentences is there after {time.time() - begun:.1f} s")
        page.editor()
        keys_of(page, ".next", "the editor")
        page.type("wordcccc ", "sees a thingc.")
        browser.keys("Enter")
        page.notice("All articles together have 2000 sentences")
        browser.button("Close", ".editor")
        page.act(1999, "Remove")
        page.notice("Removed \u201cA thingbj sees a thingjj.\u201d")
        expect("one sentence less", len(page.browser.find(".sentence")), 1999)
    finally:
        full.stop()
