"""A small ceremony of EAST on the example's day, of six people and three steps, and a desk whose register took it. The
tests of `page.py` and `page_kills.py` begin with it.
"""
import kcr
from desk import Desk, contains
from kcr import Wrong, post

YEAR = b'"from":"2025-01-01","until":"2025-12-31"'
DAY = "2025-02-13"
SCRIPT = "step,activity,seats\\n1,Check bags,CA;IW\\n2,Open the module,CA;CO*2\\n3,End,CA\\n"


def at(clock):
    """A moment of the example's day."""
    return f"{DAY}T{clock}Z"


def training(who, role):
    """The command that trains a person for 2025."""
    return post(f"/people/{who}/roles".encode(), f"t-{who}-{role}".encode(), b'"role":"%s",%s' % (role.encode(), YEAR))


def plan(number, facility="EAST", day=DAY, script=SCRIPT):
    """The command that plans a ceremony of three steps."""
    return post(b"/ceremonies", b"plan-%d" % number, (
        f'"number":{number},"facility":"{facility}","day":"{day}","script":"{script}"').encode())


def act(number, path, key, clock, members=""):
    """An act of a ceremony on the example's day."""
    return post(f"/ceremonies/{number}/{path}".encode(), key.encode(), f'{members}"at":"{at(clock)}"'.encode())


def staff():
    """Six people, their trainings, a place, and a planned ceremony."""
    names = (("AA", "Ann Abel"), ("BB", "Bob Berg"), ("CC", "Cole, Cy"), ("EA", "Eva Ames"), ("EC", "Edda Cruz"),
             ("VV", "Vi"))
    return [
        *(kcr.person(f"p-{who}".encode(), who.encode(), name.encode()) for who, name in names),
        training("AA", "CA"), training("BB", "IW"), training("CC", "SSC2"),
        post(b"/custodians", b"c-EA", b'"place":"CO-EAST-1","who":"EA","day":"2025-01-01"'), plan(61)]


def opened(script=SCRIPT):
    """The same, with the ceremony open and five people in the room."""
    return [*staff()[:-1], plan(61, script=script), act(61, "opening", "o", "20:00:00"),
            act(61, "sheet", "s", "20:05:00", '"way":"in","who":["AA","BB","CC","EA","EC"],')]


def prepared(program, browser, requests, where="#/script/61", clock="20:08:00", file=None):
    """A desk whose register took these requests, with the page open and its clock set."""
    found = Desk(program, browser, file)
    if b"refusal" in (answers := found.send(requests) if requests else b""):
        raise Wrong(f"a request was refused: {answers[-300:]!r}")
    browser.driver.get(found.url)
    browser.clock(at(clock))
    found.open(where)
    return found


def refused(browser, word, *parts):
    """Sees that the last answer is a refusal with this word, in words."""
    browser.until(f"the refusal {word}", lambda: f"Refused: {word} (" in browser.text("answer"))
    told = browser.text("answer")
    for part in parts:
        contains(f"the answer {word}", part, told)
