"""Two browsers on one wiki: headless Chromium on the bare pages.

browser.py PROGRAM FOLDER: starts PROGRAM serve, opens the index, adds words by its form, writes sentences token by token
from the menus, sees a contradiction marked and a question answered, and lets two people edit one article. Pictures of the
index, an article and a session go to FOLDER. The status is 1 at the first page that isn't as it should be.
"""
import os, sys, time

from running import Wiki
from webdriver import Browser, Driver, Failed, expect


class Person:
    """One browser with a profile of its own."""

    def __init__(self, wiki, driver):
        self.site, self.browser = f"http://127.0.0.1:{wiki.port}", Browser(driver, size="900,640")

    def go(self, path):
        self.browser.go(self.site + path)

    def texts(self, selector):
        return self.browser.texts(selector)

    def write(self, selector, text):
        self.browser.click(selector)
        self.browser.keys(text)

    def press(self, button):
        """Presses the button with this text, and waits for the page that comes."""
        body = self.browser.find("body")
        self.browser.button(button)
        self.browser.until(lambda: self.browser.find("body") not in ([], body), f"another page behind {button} on {self.path()}")

    def path(self):
        return self.browser.address()[len(self.site):]

    def picture(self, name):
        self.browser.picture(os.path.join(sys.argv[2], f"{name}.png"))


def add_word(person, kind, forms):
    person.go("/")
    person.write("input[name=kind]", kind)
    person.write("input[name=forms]", forms)
    person.press("Add")
    expect("after a word", person.path(), "/")


def write_sentence(person, tokens):
    """Types the tokens on a session's page, each of which its menu has to offer."""
    for token in tokens:
        if token not in person.texts("li"):
            raise Failed(f"{token} isn't offered after {person.texts('p')}")
        person.write("input[name=token]", token)
        person.press("Type")


def write(person, article, tokens):
    person.go("/article/" + article)
    person.press("Editor")
    write_sentence(person, tokens)
    person.press("Commit")
    expect("after a commit", person.path(), "/article/" + article)


def sentences(person):
    return person.browser.script("return [...document.querySelectorAll('li')].map((it) => [it.className, it.innerText])")


def alone(person):
    for kind, forms in [("name", "Bern"), ("name", "Aare"), ("noun", "city"), ("noun", "river"), ("verb", "cross")]:
        add_word(person, kind, forms)
    expect("the index", person.texts("li"), ["Bern (name)", "Aare (name)", "city (noun)", "river (noun)", "cross (verb)"])
    person.picture("index")
    write(person, "river", ["no", "river", "is", "a", "city", "."])
    write(person, "Aare", ["Aare", "is", "a", "river", "."])
    write(person, "Aare", ["Aare", "crosses", "Bern", "."])
    write(person, "Bern", ["Bern", "is", "a", "city", "."])
    write(person, "Aare", ["Aare", "is", "a", "city", "."])
    write(person, "Aare", ["who", "crosses", "a", "city", "?"])
    expect("an article", sentences(person), [
        ["asserted", "Aare is a river."], ["asserted", "Aare crosses Bern."],
        ["contradiction", "Aare is a city."], ["question", "Who crosses a city? Aare"]])
    red = person.browser.script("return getComputedStyle(document.querySelector('li.contradiction')).color")
    expect("the colour of a contradiction", red, "rgb(255, 0, 0)")
    person.picture("article")


def together(one, other):
    for person in (one, other):
        person.go("/article/Bern")
        person.press("Editor")
    write_sentence(one, ["every", "city"])
    write_sentence(other, ["Bern", "is", "not", "a", "river", "."])
    expect("one's tokens", one.texts("p"), ["Every city"])
    one.picture("session")
    write_sentence(one, ["is", "crossed", "by", "a", "river", "."])
    one.press("Commit")
    expect("one's article", sentences(one)[-1], ["asserted", "Every city is crossed by a river."])
    other.press("Commit")
    expect("a stale commit", other.texts("p"), ["8 Stale"])


def main():
    wiki, driver = Wiki(sys.argv[1]), Driver()
    try:
        one, other = Person(wiki, driver), Person(wiki, driver)
        begun = time.time()
        alone(one)
        together(one, other)
        print(f"browser: two browsers, every page as it should be, in {time.time() - begun:.1f} s")
    except Failed as error:
        raise SystemExit(f"browser: {error}")
    finally:
        driver.stop()
        wiki.stop()


main()
