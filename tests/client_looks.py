"""Parts of the tests of the editor page: a large map, pages of other sites, and how it looks and reads: contrast, names, focus."""
import http.server, json, os, random, re, socketserver, sys, threading

from client_bad import spelled
from client_stage import HERE, Page, lines, reply
from running import form_of
from webdriver import Failed, expect, expect_in

# Where the program doesn't serve the page itself, the modules come to a page of its own as they stand in client/.
MODULES = ("api", "lexicon", "page", "mapshapes", "mapfacts", "mapdrawing")
LOADED = """const made = new Map();
    for (const [name, text] of given[0]) {
        const code = text.replace(/from '\\.\\/(\\w+)\\.js'/g, (all, it) => `from '${made.get(it)}'`);
        made.set(name, URL.createObjectURL(new Blob([code], { type: 'text/javascript' }))); }
    return [...made]"""
BARE = """const begun = performance.now();
    for (let it = 0; it < 50; it += 1) { await (await fetch('/api', { method: 'POST', body: '{"do":"find","word":"nounaq"}' })).text(); }
    return (performance.now() - begun) / 50"""
TIMED = """const { gather } = await import(given[0]); const { draw } = await import(given[1]);
    const real = window.fetch; let requests = 0; window.fetch = (...all) => { requests += 1; return real(...all); };
    const begun = performance.now(); const facts = await gather(() => true); const read = performance.now();
    const drawing = draw(facts); document.body.replaceChildren(drawing.element); document.body.offsetHeight;
    return [read - begun, performance.now() - read, requests]"""
# The words, each article, two sentences of each of three shapes and one of a name's relation to itself, and once more their articles.
MOST_REQUESTS = 1 + 300 + 2 * 7


def part_large(page, place):
    """A map of 300 words and 600 sentences."""
    browser = page.browser
    nouns, names, verbs = ([f"{kind}{spelled(it)}q" for it in range(count)] for kind, count in (("noun", 90), ("Name", 190), ("verb", 20)))
    texts = [(noun, f"Every {noun} is a {nouns[number // 3]}.") for number, noun in enumerate(nouns) if number]
    texts += [(name, f"{name} is a {nouns[number * 7 % 90]}.") for number, name in enumerate(names)]
    texts += [(name, f"{name} {verbs[number % 20]}s {names[number * 13 % 190]}.") for number, name in enumerate(names)]
    texts += [(name, f"{name} {verbs[number % 7]}s {names[number * 11 % 190]}.") for number, name in enumerate(names[:131])]
    words = [(kind, form) for kind, forms in (("noun", nouns), ("name", names), ("verb", verbs)) for form in forms]
    large = type(place)(lines(words, texts), is_straight=True)
    try:
        timed(browser, large, f"{len(words)} words and {len(texts)} sentences")
        page = Page(browser, large)
        page.open("#/map")
        page.drawn()
        expect_in("what is drawn", "90 classes, 190 names, 321 relations", " ".join(browser.texts("[role=status]")))
        readable(browser)
        keep_picture(page, "large")
    finally:
        large.stop()


def timed(browser, place, what):
    """How long it takes from the program itself, with nothing between. On a busy machine each request takes longer."""
    browser.go(f"http://127.0.0.1:{place.wiki.port}/")
    modules = dict(browser.wait_script(LOADED, [[name, text_of(name)] for name in MODULES]))
    bare = browser.wait_script(BARE)
    read, drawn, requests = browser.wait_script(TIMED, modules["mapfacts"], modules["mapdrawing"])
    bare = max(bare, browser.wait_script(BARE))
    print(f"client: {what} are read in {read / 1000:.1f} s by {requests} requests and drawn in {drawn / 1000:.1f} s, "
          f"where a bare request takes {bare:.1f} ms")
    if requests > MOST_REQUESTS or read + drawn > max(3000, MOST_REQUESTS * bare * 2 + 1000):
        raise Failed("a map takes too long")


def text_of(module):
    with open(os.path.join(HERE, "..", "client", f"{module}.js")) as file:
        return file.read()


def readable(browser):
    """No box lies on another one, no text leaves its box, and letters are large enough."""
    crossing = browser.script("""const boxes = [...document.querySelectorAll('.box')].map((it) => it.getBBox());
        return boxes.filter((a, i) => boxes.some((b, j) => j > i && a.x < b.x + b.width && b.x < a.x + a.width && a.y < b.y + b.height && b.y < a.y + a.height)).length""")
    expect("boxes that lie on each other", crossing, 0)
    wide = browser.script("""return [...document.querySelectorAll('.map-frame svg a')].filter((it) => it.querySelector('text').getBBox().width > it.querySelector('rect').getBBox().width).length""")
    expect("texts that are wider than their boxes", wide, 0)
    expect("letters of 13 pixels", browser.script("return getComputedStyle(document.querySelector('.class-name')).fontSize"), "13px")


def keep_picture(page, name):
    if os.path.isdir("".join(sys.argv[2:3])):
        page.browser.picture(os.path.join(sys.argv[2], f"client-{name}.png"))


# ---- axioms that the page infers

# Of each kind words with all forms alike, some alike, and none; some that begin with a vowel letter, and some odd ones.
FORMS = {"noun": [["city", "cities"], ["river", "rivers"], ["animal", "animals"], ["island", "islands"], ["sheep", "sheep"], ["deer", "deer"], ["constructor", "undefined"]],
         "name": [["Bern"], ["Aare"], ["Mary"], ["toString"], ["\u05e9\u05dc\u05d5\u05dd"]],
         "verb": [["sees", "see", "seen"], ["owns", "own", "owned"], ["puts", "put", "put"], ["hits", "hit", "hit"], ["cast", "cast", "cast"]],
         "of": [["part"], ["area"], ["capital"]], "adjective": [["located-in"], ["older-than"]]}
# A slot is a kind and the place of a form, from 0; a further digit tells words apart, so that one word may stand twice.
PATTERNS = ["{name0} is a {noun0}.", "Every {noun0} is a {noun0b}.", "{name0} {verb0} {name0b}.", "{name0} {verb0} {name0}.", "{name0} does not {verb1} {name0b}.",
            "{name0} is {verb2} by {name0b}.", "Every {noun0} {verb0} only {noun1b}.", "Every {noun0} {verb0} only {noun1}.", "{name0} is {adjective0} {name0b}.",
            "If X {verb0} Y then X {verb0b} Y.", "If X {verb0} Y then Y {verb0} X.", "Every {noun0} is a {of0} of a {noun0b}.", "{name0} is a {of0} of {name0b}.",
            "{name0} {verb0} a {noun0} or is a {noun0b} that {verb0b} {name0b}.", "Every {noun0} that {name0} {verb0} is a {noun0} that is {verb2b} by {name0}.",
            "If a {noun0} {verb0} {name0} then the {noun0} is a {noun0b}.", "If {name0} {verb0} a {noun0} then {name0} {verb0b} a {of0} of {name0b}."]


def filled(pattern, drawn):
    """The pattern with words that are drawn: the same for the same slot, and for those that differ in the form alone."""
    chosen = {}

    def word(found):
        kind, place, which = found.groups()
        chosen.setdefault((kind, which), drawn.choice(FORMS[kind]))
        return chosen[kind, which][int(place)]

    text = re.sub(r"\{([a-z]+?)(\d)(b?)\}", word, pattern)
    return re.sub(r"\ba (?=[aeiouAEIOU])", "an ", text)


def part_shapes(page, place):
    """What the page infers of sentences by others of their shape is what the wiki tells of them."""
    drawn = random.Random(7)
    texts = [filled(pattern, drawn) for pattern in PATTERNS for _ in range(12)]
    told = [{"do": "word", "kind": kind, "forms": forms} for kind, words in FORMS.items() for forms in words]
    told += [{"do": "add", "article": "Bern" if number % 3 else "city", "text": text} for number, text in enumerate(texts)]
    shaped = type(place)(b"".join(json.dumps(it).encode() + b"\n" for it in told), options=("--budget", "100"))
    try:
        sentences = inferred(Page(page.browser, shaped), shaped)
        asked = len(shaped.between.seen_of("axioms"))
        print(f"client: of {sentences} asserted sentences of many shapes the page asked for {asked}")
        expect("many are inferred", sentences - asked > 25, True)
    finally:
        shaped.stop()
    unfitting(page, place)
    moving(page, place)


INFERRED = """const { axiomsOf } = await import('/editor/mapshapes.js'); return given[0].map((text) => axiomsOf(text) || null)"""


def inferred(page, place):
    """How many sentences are asserted. Once the map is drawn, the page has the axioms of each of them as the wiki tells them."""
    page.open("#/map")
    page.browser.until(lambda: page.browser.find("svg") and not page.browser.find("progress"), "a drawing", 90)
    told = []
    for article in map(form_of, place.ask(do="words")["words"]):
        read = place.ask(do="read", article=article)["sentences"]
        told += [(it["text"], place.ask(do="axioms", article=article, at=at)["axioms"]) for at, it in enumerate(read) if it["status"] == "asserted"]
    expect("the axioms", page.browser.wait_script(INFERRED, [text for text, _ in told]), [axioms for _, axioms in told])
    return len(told)


def asked_for(place):
    return [(it["article"], it["at"]) for it in place.between.seen_of("axioms")]


def unfitting(page, place):
    """Where the axioms of a shape's second sentence aren't those that the first one's lead to, all of the shape are asked for."""
    for article in ("Bern", "Aare", "Basel"):
        place.ask(do="add", article=article, text=f"{article} is a place.")
    other = reply("axioms", axioms=["ClassAssertion(:city :Bern)"])
    place.between.meddle = lambda request: other if request["do"] == "axioms" and (request["article"], request["at"]) == ("Bern", 2) else None
    page.open("#/map")
    page.drawn()
    expect("what is asked for", asked_for(place), [("Bern", 0), ("Bern", 2), ("Aare", 0), ("Aare", 1), ("Aare", 3), ("Basel", 1), ("city", 0), ("river", 0)])
    place.between.meddle = None


def moving(page, place):
    """What was asked for while its article changed is forgotten, and the article read and asked for anew, also where it is shorter."""
    between = place.between
    for change, again in [({"do": "edit", "article": "Bern", "at": 0, "text": "Bern is not a city."}, [("Bern", 0), ("Bern", 2)] * 2),
                          ({"do": "remove", "article": "Bern", "at": 2}, [("Bern", 0), ("Bern", 2), ("Bern", 0)])]:
        between.seen.clear()
        between.before("axioms", lambda change=change: place.ask(**change))
        inferred(page, place)
        expect("what is asked for", [it for it in asked_for(place) if it[0] == "Bern"], again)
    between.seen.clear()
    between.before("axioms", lambda: [place.ask(do="remove", article="Bern", at=0), place.ask(do="remove", article="Bern", at=0)])
    inferred(page, place)
    expect("what is asked for", [it for it in asked_for(place) if it[0] == "Bern"], [("Bern", 0)])
    between.meddle = None


# ---- other sites

FOREIGN = """<!DOCTYPE html><title>Elsewhere</title>
<form id="bare" method="post" action="{site}/word" target="_blank"><input name="kind" value="noun"><input name="forms" value="foreign"><button>Go</button></form>
<iframe id="boxed" sandbox="allow-scripts allow-forms" srcdoc="&lt;form method=post action={site}/word&gt;&lt;input name=kind value=noun&gt;&lt;input name=forms value=boxed&gt;&lt;button&gt;Go&lt;/button&gt;&lt;/form&gt;"></iframe>
<iframe id="framed" src="{site}/editor/index.html"></iframe>"""
SENT = """return fetch(given[0] + '/api', { method: 'POST', mode: 'no-cors', body: '{"do":"word","kind":"noun","forms":["scripted"]}' }).then(() => 'sent')"""


class Elsewhere(socketserver.ThreadingTCPServer):
    """A page of another port, which posts to the wiki and frames its editor."""

    allow_reuse_address = daemon_threads = True

    def __init__(self, site):
        class Handler(http.server.BaseHTTPRequestHandler):
            def do_GET(self):
                data = FOREIGN.format(site=site).encode()
                self.send_response(200)
                self.send_header("Content-Type", "text/html")
                self.send_header("Content-Length", str(len(data)))
                self.end_headers()
                self.wfile.write(data)

            def log_message(self, *words):
                """What a browser asks for is no news."""

        super().__init__(("127.0.0.1", 0), Handler)
        threading.Thread(target=self.serve_forever, daemon=True).start()

    def handle_error(self, request, client_address):
        """A browser that goes away is no fault."""


def part_origin(page, place):
    """Our own forms and the editor may write; a page of another port and a frame without an origin may not."""
    browser, posts = page.browser, place.between.posts
    browser.go(place.site + "/")
    browser.script("document.querySelector('input[name=kind]').value = 'noun'; document.querySelector('input[name=forms]').value = 'own'")
    browser.click("form button")
    browser.until(lambda: "own (noun)" in browser.texts("li"), "a word by the bare form")
    expect("the origin that Chromium sends", posts[-1][:2], ("/word", place.site))
    page.words()
    browser.click('.word-form input[value="name"]')
    browser.click(".word-form .field input")
    browser.keys("Edited", "Enter")
    page.notice("Added ")
    expect("the editor's origin", {origin for path, origin, _ in posts if path == "/api"}, {place.site})
    elsewhere = Elsewhere(place.site)
    try:
        foreign(browser, place, f"http://127.0.0.1:{elsewhere.server_address[1]}")
    finally:
        elsewhere.shutdown()
        elsewhere.server_close()


def foreign(browser, place, there):
    posts, first = place.between.posts, browser.windows()[0]
    browser.go(there)
    browser.until(lambda: browser.script("return document.querySelector('#framed') !== null"), "the other page")
    for word, press, origin in (("foreign", lambda: browser.click("#bare button"), there),
                                ("scripted", lambda: browser.wait_script(SENT, place.site), there),
                                ("boxed", lambda: (browser.enter("#boxed"), browser.click("button"), browser.enter(None)), "null")):
        known = len(posts)
        press()
        browser.until(lambda: len(posts) > known, f"the request of {word}")
        expect(f"what is answered to {word}", posts[known][1:], (origin, "403"))
        expect(f"the word {word}", place.ask(do="find", word=word)["name"], "NoWord")
        for window in [it for it in browser.windows() if it != first]:
            browser.window(window)
            browser.call("DELETE", "/window")
        browser.window(first)
    seen = len(place.between.seen)
    browser.enter("#framed")
    browser.until(lambda: "doesn't work inside another page" in " ".join(browser.texts("body")), "a page that does nothing in a frame")
    expect("it has neither buttons nor fields", len(browser.find("button, input, form")), 0)
    browser.enter(None)
    expect("it asks for nothing", len(place.between.seen), seen)


def part_frame(page, place):
    """In a frame of its own site it does nothing too, and its policy keeps everything inline and elsewhere out."""
    browser = page.browser
    page.words()
    browser.script("const it = document.createElement('iframe'); it.id = 'frame'; it.src = location.pathname; document.body.append(it)")
    browser.until(lambda: "doesn't work inside another page" in browser.script(
        "const it = document.querySelector('#frame').contentDocument; return it && it.body ? it.body.innerText : ''"), "a page that does nothing")
    ran = browser.wait_script("""const it = document.createElement('script'); it.textContent = 'window.ran = true'; document.body.append(it);
        const other = document.createElement('div'); other.innerHTML = '<p style="color: red">x</p><img src=x onerror="window.ran = true">'; document.body.append(other);
        await new Promise((resolve) => setTimeout(resolve, 200)); return [window.ran === true, getComputedStyle(other.firstChild).color === 'rgb(255, 0, 0)']""")
    expect("an inline script, and an inline style", ran, [False, False])
    went = browser.wait_script("return fetch('http://localhost:9/').then(() => 'went', (error) => 'stopped')")
    expect_in("the policy", "Content Security Policy", " ".join(browser.logs()))
    expect("a request elsewhere", went, "stopped")


# ---- how it looks and reads

NAMELESS = """return [...document.querySelectorAll('input, select, button, a, [role=option], [role=listbox], [role=group], [role=region], section, nav, svg a, progress, ol')].filter((it) => {
    const by = (it.getAttribute('aria-labelledby') || '').split(' ').map((id) => document.getElementById(id)).map((e) => e ? e.textContent : '').join('');
    const own = /^(SECTION|NAV|OL|SELECT|INPUT|PROGRESS)$/.test(it.tagName) || /listbox|group|region/.test(it.getAttribute('role')) ? '' : it.textContent;
    const name = it.getAttribute('aria-label') || by || (it.labels && [...it.labels].map((l) => l.textContent).join('')) || own || it.title;
    return !name.trim() && !it.matches('.kind'); }).map((it) => it.outerHTML.slice(0, 120))"""
COLOURS = """const parts = (c) => { const it = c.match(/[\\d.]+/g).map(Number); return it.length > 3 ? it : [...it, 1]; };
    const over = (top, below) => top.slice(0, 3).map((v, at) => v * top[3] + below[at] * (1 - top[3]));
    const light = (c) => { const [r, g, b] = c.map((v) => v / 255).map((v) => (v <= 0.03928 ? v / 12.92 : ((v + 0.055) / 1.055) ** 2.4)); return 0.2126 * r + 0.7152 * g + 0.0722 * b; };
    const ratio = (one, other) => { const [a, b] = [light(one), light(other)].sort((x, y) => y - x); return (a + 0.05) / (b + 0.05); };
    const fade = (it) => { let all = 1; for (let e = it; e; e = e.parentElement) { all *= Number(getComputedStyle(e).opacity); } return all; };
    const ground = (it) => { const layers = []; for (let e = it; e; e = e.parentElement) { layers.push(parts(getComputedStyle(e).backgroundColor)); }
        return layers.reverse().reduce((below, top) => over(top, below), [255, 255, 255]); };
    const seen = (it) => it.getClientRects().length > 0 && getComputedStyle(it).visibility === 'visible'; """
TEXTS = COLOURS + """const own = (it) => [...it.childNodes].some((n) => n.nodeType === 3 && n.textContent.trim());
    const told = [];
    for (const it of document.querySelectorAll('body *')) {
        if (!seen(it)) { continue; }
        const isSvg = it.namespaceURI.endsWith('svg');
        const below = isSvg ? parts(getComputedStyle(it.previousElementSibling && it.previousElementSibling.tagName === 'rect' ? it.previousElementSibling : it.closest('.map-frame'))[it.previousElementSibling && it.previousElementSibling.tagName === 'rect' ? 'fill' : 'backgroundColor']) : null;
        const under = isSvg ? (below[3] === 0 ? ground(it.closest('.map-frame')) : below) : ground(it);
        if (own(it)) { const c = parts(isSvg ? getComputedStyle(it).fill : getComputedStyle(it).color); c[3] *= fade(it); told.push([ratio(over(c, under), under), it.tagName + '.' + (it.getAttribute('class') || ''), it.textContent.slice(0, 30)]); }
        if (it.matches('input:not([type=radio])')) { const c = parts(getComputedStyle(it, '::placeholder').color); told.push([ratio(over(c, under), under), 'placeholder', it.placeholder]); }
    }
    return told"""
EDGES = COLOURS + """return [...document.querySelectorAll('button:not(.close):not(.more), input:not([type=radio]):not(.next), select, .typed')].filter(seen).map((it) => {
        const c = parts(getComputedStyle(it).borderTopColor); const around = ground(it.parentElement); const inside = ground(it);
        return [Math.max(ratio(over(c, around), around), ratio(inside, around)), it.tagName + '.' + it.className, it.textContent.slice(0, 30)]; })"""
FOCUS = """const it = document.activeElement; const s = getComputedStyle(it);
    const boxed = it.closest('.typed'); const own = s.outlineStyle !== 'none' && parseFloat(s.outlineWidth) > 0;
    return [it.tagName + '#' + it.id + '.' + (it.getAttribute('class') || '') + ' ' + (it.textContent || '').slice(0, 20), own || (boxed !== null && getComputedStyle(boxed).outlineStyle !== 'none')]"""
SMALL = """return [...document.querySelectorAll('button, select, input, .choice')].filter((it) => it.getClientRects().length && !it.matches('[type=radio], .next')).filter((it) => {
    const r = it.getBoundingClientRect(); return r.width < 24 || r.height < 24; }).map((it) => it.outerHTML.slice(0, 100))"""
MOVING = """return [...document.querySelectorAll('body *')].filter((it) => { const s = getComputedStyle(it); return parseFloat(s.transitionDuration) > 0 || s.animationName !== 'none'; }).length"""
HEADINGS = """const levels = [...document.querySelectorAll('h1, h2, h3, h4')].filter((it) => it.getClientRects().length).map((it) => Number(it.tagName[1]));
    return [levels.filter((it) => it === 1).length, levels.every((it, at) => at === 0 || it <= levels[at - 1] + 1)]"""
MARKS = """return [document.documentElement.lang, document.title !== '', ...['header', 'nav', 'main', '[role=search]', '[role=status]', '[aria-live=polite]'].map((it) => document.querySelectorAll(it).length > 0)]"""
SCREENS = [("wide", 1100, 800), ("narrow", 390, 800), ("zoomed", 320, 640)]


def part_looks(page, place):
    """Light and dark, wide, narrow, and as at 400 %: names, contrast, sizes, headings, no sideways scrolling. Pictures of each page."""
    browser, least, titles = page.browser, {}, {}
    for name, show in PICTURED:
        browser.look("light", 1100, 800)
        show(page, place)
        titles[name] = browser.script("return document.title").split(" ")[0]
        for scheme, (width, *size) in ((scheme, screen) for scheme in ("light", "dark") for screen in SCREENS):
            browser.look(scheme, *size)
            reads(browser, f"{name}, {scheme}, {width}", least)
            if width != "zoomed":
                keep_picture(page, f"{name}-{scheme}-{width}")
    expect("titles", titles, {"words": "Words", "article": "Aare", "editor": "Aare", "ask": "Ask", "map": "Map"})
    for what, (ratio, *where) in least.items():
        print(f"client: the least contrast of {what} is {ratio:.2f}, of {where}")
    focus_seen(page, place)


def reads(browser, where, least):
    expect(f"without a name: {where}", browser.script(NAMELESS), [])
    expect(f"too small: {where}", browser.script(SMALL), [])
    expect(f"moving: {where}", browser.script(MOVING), 0)
    expect(f"headings: {where}", browser.script(HEADINGS), [1, True])
    expect(f"language, title and marks: {where}", browser.script(MARKS), ["en"] + [True] * 7)
    expect(f"no wider than the screen: {where}", browser.script("return document.documentElement.scrollWidth <= innerWidth"), True)
    for what, script, wanted in (("texts", TEXTS, 4.5), ("edges", EDGES, 3)):
        told = browser.script(script)
        expect(f"contrast of {what}: {where}", [it for it in told if it[0] < wanted], [])
        least[what] = min([*told, *([least[what]] if what in least else [])])


def focus_seen(page, place):
    """On the way by Tab round each page, what has the focus can be seen."""
    browser = page.browser
    browser.look("light", 1100, 800)
    for name, show in PICTURED:
        show(page, place)
        browser.script("document.querySelector('#skip').focus()")
        for _ in range(25):
            browser.keys("Tab")
            where, is_seen = browser.script(FOCUS)
            if where.startswith("BODY"):
                break
            expect(f"{name}: the focus is seen on {where}", is_seen, True)


def show_editor(page, place):
    page.open()
    page.article("Aare", ["Aare is a river.", "Aare crosses Bern.", "Aare is a city."])
    page.editor()
    page.type("every river ")


def show_article(page, place):
    page.open()
    page.article("Aare", ["Aare is a river.", "Aare crosses Bern.", "Aare is a city."])
    page.act(2, "Details")
    page.browser.until(lambda: page.browser.texts(".details code"), "details")


def show_map(page, place):
    page.open("#/map")
    page.drawn()


def show_ask(page, place):
    page.open("#/ask")
    page.browser.until(lambda: page.browser.find(".next"), "the editor")
    page.settled()


PICTURED = [("words", lambda page, place: page.words()), ("article", show_article), ("editor", show_editor), ("ask", show_ask), ("map", show_map)]
