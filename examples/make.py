#!/usr/bin/env python3
"""Writes the example ceremony, as a stream of requests (ceremony.http) and as a shell script of curl (ceremony.sh).

    examples/make.py [FOLDER]

The two files are written into FOLDER, which is the folder of this program where none is given. People, serials and
times are invented. The script of the ceremony is ceremony.csv; everything else stands below, in the order in which it
is sent. Each request says in a field `X-Why` what it is for, and here also which status it gets.
"""
import datetime
import json
import pathlib
import shlex
import sys

HERE = pathlib.Path(__file__).resolve().parent
SCRIPT = "ceremony.csv"
SMALL_SCRIPT = """step,activity,seats
1,See that all who are in the room stand on the sheet,CA;IW
2,"Take over the module, the laptop and the medium; compare their numbers with the delivery note",CA;IW;SA
3,Seal each of them into a bag of its own,CA;IW
4,Put the bags into safe 1,CA;IW;SSC1
5,Seal the cards of each Crypto Officer into a bag,CA;IW;CO*3
6,Put the bags into the boxes of their places,CA;IW;SSC2;CO*3
7,See that both safes are shut,CA;IW
"""

requests = []  # each with method, path, members of the body or None, what it is for, and its status


def get(path, why):
    """A question."""
    requests.append(("GET", path, None, why, 200))


def post(path, key, why, status=200, **members):
    """A command. A member whose name is a word of Python has an underscore behind it here."""
    body = {"key": key} | {name.rstrip("_"): value for name, value in members.items()}
    requests.append(("POST", path, body, why, status))


class Ceremony:
    """A ceremony, with a clock that goes on from one command to the next."""

    def __init__(self, number, day, hour):
        self.number = number
        self.now = datetime.datetime.fromisoformat(f"{day}T{hour:02}:00:00")
        self.signed = self.turned = 0

    def at(self, seconds):
        """The moment so many seconds after that of the last command."""
        self.now += datetime.timedelta(seconds=seconds)
        return f"{self.now.isoformat()}Z"

    def do(self, seconds, path, key, why, status=200, **members):
        """A command of this ceremony."""
        post(f"/ceremonies/{self.number}/{path}", f"{self.number}-{key}", why, status, **members, at=self.at(seconds))

    def sheet(self, seconds, way, who, key, why, status=200):
        """People come in or go out."""
        self.do(seconds, "sheet", key, why, status, way=way, who=who.split())

    def sign(self, seconds, count=1):
        """The next steps are signed, each so many seconds after what was before."""
        for _ in range(count):
            self.signed += 1
            self.do(seconds, f"steps/{self.signed}/signature", f"step-{self.signed}", f"step {self.signed} is signed")

    def safe(self, seconds, safe, is_open, who):
        """A safe is opened or shut."""
        self.turned += 1
        word = "opens" if is_open else "shuts"
        self.do(seconds, f"safes/{safe}", f"safe-{self.turned}", f"{who} {word} safe {safe}", open_=is_open, by=who)

    def bag(self, seconds, serial, act, why, **members):
        """A bag is sealed, taken, put or cut."""
        self.do(seconds, f"bags/{serial}/{act}", f"{act}-{serial}", why, **members)

    def item(self, seconds, item, why):
        """An item comes to the facility."""
        post("/items", f"{self.number}-{item}", why, ceremony=self.number, item=item, at=self.at(seconds))


def people():
    """Everybody, their training, and the places of the custodians."""
    for who, name, roles in [
            ("AL", "Ada Lund", "CA"), ("CD", "Chi Dang", "IW SW"), ("DS", "Dora Silva", "SA"),
            ("EQ", "Erik Quist", "SSC1"), ("FM", "Fay Moreau", "SSC2"), ("GT", "Tanaka, Gil", "RKOS"),
            ("HN", "Hana Novák", "SW"), ("PW", "Per Wirth", "CA IW"), ("RB", "Rosa Bauer", "IW"),
            ("JB", "Joan O'Brien", ""), ("KV", "Kofi Vance", ""), ("LR", 'Lea "Lou" Rossi', ""),
            ("NI", "Nils Iversen", ""), ("OT", "Olu Taiwo", ""), ("VS", "Vera Stone", "")]:
        post("/people", f"person-{who}", f"{who} is entered", who=who, name=name)
        for role in roles.split():
            post(f"/people/{who}/roles", f"trained-{who}-{role}", f"{who} is trained as {role}", role=role,
                 from_="2025-01-01", until="2025-12-31")
    for place, who in (("CO-EAST-1", "JB"), ("CO-EAST-2", "KV"), ("CO-EAST-3", "OT"), ("CO-EAST-5", "NI")):
        post("/custodians", f"appoint-{place}", f"{who} holds {place} from then on", place=place, who=who,
             day="2025-01-01")
    for box, place in ((101, "CO-EAST-1"), (102, "CO-EAST-2"), (105, "CO-EAST-5")):
        post("/boxes", f"box-{box}", f"box {box} belongs to {place}", facility="EAST", box=box, place=place)
    post("/people/JB/roles", "trained-JB-CA", "a custodian is never trained for a role of the staff: 15 apart", 409,
         role="CA", from_="2025-01-01", until="2025-12-31")
    post("/people", "person-v", "initials are capital letters: 10 form", 422, who="v", name="Vera Stone")


def material():
    """A small ceremony, in which the material comes to the facility."""
    c = Ceremony(60, "2025-01-15", 18)
    post("/ceremonies", "60-plan", "a small ceremony is planned, by which the material comes in", number=60,
         facility="EAST", day="2025-01-15", script=SMALL_SCRIPT)
    c.do(0, "opening", "opening", "it is opened")
    c.sheet(60, "in", "AL CD DS EQ FM JB KV NI", "in", "eight people come in")
    c.sign(240)
    for item in ("HSM7", "LAPTOP4", "MEDIUM12", "PRINTER2"):
        c.item(20, item, f"{item} comes to the facility")
    c.sign(300)
    for serial, item in (("BB51184601", "HSM7"), ("BB51184602", "LAPTOP4"), ("BB51184603", "MEDIUM12")):
        c.bag(90, serial, "seal", f"{item} goes into a bag", items=[item])
    c.sign(60)
    c.safe(60, 1, True, "EQ")
    for serial in ("BB51184601", "BB51184602", "BB51184603"):
        c.bag(40, serial, "put", "a bag goes into safe 1", to="safe1")
    c.safe(40, 1, False, "EQ")
    c.sign(30)
    for place in (1, 2, 5):
        for item in (f"OPCARD{place}", f"SOCARD{place}"):
            c.item(15, item, f"{item} comes to the facility")
    for serial, place in (("BB51184604", 1), ("BB51184605", 2), ("BB51184606", 5)):
        c.bag(80, serial, "seal", f"the cards of place {place} go into a bag",
              items=[f"OPCARD{place}", f"SOCARD{place}"])
    c.sign(60)
    c.safe(60, 2, True, "FM")
    for serial, box in (("BB51184604", "101"), ("BB51184605", "102"), ("BB51184606", "105")):
        c.bag(50, serial, "put", f"a bag goes into box {box}", to=box)
    c.safe(40, 2, False, "FM")
    c.sign(30, 2)
    c.sheet(120, "out", "AL CD DS EQ FM JB KV NI", "out", "all go out")
    c.do(60, "closing", "closing", "it is closed")


def between():
    """What changes before the ceremony."""
    post("/custodians/CO-EAST-5/replacement", "replace-CO-EAST-5", "LR takes the place of NI", who="LR",
         day="2025-02-01")
    post("/custodians/CO-EAST-3/release", "release-CO-EAST-3", "OT gives the place back", day="2025-02-01")
    post("/people/RB/withdrawals", "withdraw-RB-IW", "RB is an internal witness no more", role="IW", day="2025-02-01")
    post("/ceremonies", "61-plan", "the ceremony is planned by its script", number=61, facility="EAST",
         day="2025-02-13", script=(HERE / SCRIPT).read_text())
    get("/people", "everybody and their training")
    get("/custodians/2025-02-13", "who holds which place on the day")


def first_act(c):
    c.do(0, "opening", "opening", "the ceremony is opened")
    c.sheet(60, "in", "AL", "in-1", "nobody is ever alone in the room: 26 lone", 409)
    c.sheet(30, "in", "AL CD DS PW", "in-1", "so four come in together; a refused command leaves its key free")
    c.sheet(45, "in", "EQ FM HN", "in-2", "the controllers of the safes and the staff witness come in")
    c.sheet(130, "in", "JB KV LR VS", "in-3", "three Crypto Officers and a visitor come in")
    c.do(40, "exceptions", "exception-1", "an exception that passes over no step", pass_=False,
         text="The visitor's badge did not open the door; DS opened it from inside")
    c.sign(160)
    c.sign(190)
    c.sign(95)
    c.do(20, "steps/5/signature", "step-5", "step 4 comes before step 5: 23 order", 409)
    c.sign(150)
    c.sign(75)
    c.sign(120)
    c.sheet(30, "in", "GT", "in-4", "operations comes later")
    c.sign(110)


def second_act(c):
    c.do(40, "safes/2", "safe-1", "EQ has safe 1, not safe 2: 30 absent", 409, open_=True, by="EQ")
    c.safe(25, 2, True, "FM")
    c.sign(50)
    c.bag(70, "BB51184604", "take", "the bag of place 1 comes out")
    c.sign(45)
    c.bag(65, "BB51184605", "take", "the bag of place 2 comes out")
    c.sign(40)
    c.sheet(20, "out", "LR", "out-1", "LR goes out for a call")
    c.do(60, "bags/BB51184606/take", "take-BB51184606", "the holder of place 5 is not in the room: 30 absent", 409)
    c.sheet(340, "in", "LR", "in-5", "LR comes back")
    c.bag(50, "BB51184606", "take", "the bag of place 5 comes out")
    c.sign(45)
    c.safe(45, 2, False, "FM")
    c.sign(30)
    c.safe(90, 1, True, "EQ")
    c.sign(40)
    for serial, what in (("BB51184601", "the module"), ("BB51184602", "the laptop"), ("BB51184603", "the medium")):
        c.bag(60, serial, "take", f"the bag of {what} comes out")
        c.sign(35)
    c.safe(55, 1, False, "EQ")
    c.sign(30)
    c.sign(260)
    c.sheet(60, "out", "EQ FM", "out-2", "the controllers of the safes go out")


def third_act(c):
    c.bag(120, "BB51184602", "cut", "the bag of the laptop is cut")
    c.bag(40, "BB51184603", "cut", "the bag of the medium is cut")
    c.sign(50)
    c.sign(310)
    c.sign(420)
    c.sign(90)
    c.do(400, "exceptions", "exception-2", "an exception that passes over step 23", pass_=True,
         text="PRINTER2 draws no paper; logs are copied to the medium, and nothing is printed today")
    c.signed += 1
    c.sign(100)
    c.bag(80, "BB51184601", "cut", "the bag of the module is cut")
    c.sign(60)
    c.sign(200)
    c.sign(110)


def fourth_act(c):
    for serial, place in (("BB51184604", 1), ("BB51184605", 2), ("BB51184606", 5)):
        c.bag(60, serial, "cut", f"the bag of place {place} is cut")
        c.sign(40)
    c.sheet(40, "out", "KV", "out-3", "KV goes out")
    c.do(60, "steps/31/signature", "step-31", "three seats, and two Crypto Officers in the room: 32 short", 409)
    c.sheet(480, "in", "KV", "in-6", "KV comes back")
    c.sign(200)
    requests.append((*requests[-1][:3], "the same command again: the same answer, and nothing changes", 200))
    c.do(30, "steps/31/signature", "step-31", "another command under a key that is taken: 11 key", 409)
    c.sign(70)
    c.sign(330)
    c.sign(280)
    c.sign(150)
    c.sheet(45, "out", "HN", "out-4", "the staff witness goes out")
    c.sign(140)
    get("/ceremonies/61/room/2025-02-13T19:00:00Z", "who is in the room at a moment")
    c.item(60, "RESPONSE61", "the medium with the response is one more thing to keep")
    c.sign(240)
    c.sign(60)
    c.sheet(90, "out", "GT VS", "out-5", "operations and the visitor go out")
    c.sheet(120, "out", "AL", "out-6", "the Ceremony Administrator goes out, and the deputy goes on")
    c.sign(190)
    c.sign(80)
    c.sheet(60, "in", "AL HN", "in-7", "both come back")


def fifth_act(c):
    c.bag(120, "BB51184611", "seal", "the module goes into a new bag", items=["HSM7"])
    c.sign(40)
    c.bag(150, "BB51184612", "seal", "the laptop goes into a new bag", items=["LAPTOP4"])
    c.sign(40)
    c.bag(90, "BB51184613", "seal", "the media go into a new bag", items=["MEDIUM12", "RESPONSE61"])
    c.sign(40)
    c.bag(80, "BB51184614", "seal", "the cards of place 1 go into a new bag", items=["OPCARD1", "SOCARD1"])
    c.sign(40)
    c.bag(80, "BB51184615", "seal", "the cards of place 2 go into a new bag", items=["OPCARD2", "SOCARD2"])
    c.bag(60, "BB51184615", "cut", "its seam has torn, so it is cut again")
    c.do(30, "bags/BB51184615/seal", "seal-BB51184615-again", "a serial is used once: 13 taken", 409,
         items=["OPCARD2", "SOCARD2"])
    c.bag(60, "BB51184617", "seal", "the cards of place 2 go into the next bag", items=["OPCARD2", "SOCARD2"])
    c.do(40, "exceptions", "exception-3", "an exception that passes over no step", pass_=False,
         text="The seam of bag BB51184615 tore; the cards went into bag BB51184617")
    c.sign(45)
    c.bag(80, "BB51184616", "seal", "the cards of place 5 go into a new bag", items=["OPCARD5", "SOCARD5"])
    c.sign(40)
    c.sign(180)
    c.do(30, "bags/BB51184611/put", "put-BB51184611", "safe 1 is shut: 28 safe", 409, to="safe1")
    c.sheet(60, "in", "EQ FM", "in-8", "the controllers of the safes come back")
    c.safe(90, 1, True, "EQ")
    c.sign(40)
    for serial, what in (("BB51184611", "the module"), ("BB51184612", "the laptop"), ("BB51184613", "the media")):
        c.bag(50, serial, "put", f"the bag of {what} goes into safe 1", to="safe1")
        c.sign(30)
    c.safe(45, 1, False, "EQ")
    c.sign(30)
    c.safe(80, 2, True, "FM")
    c.sign(40)
    for serial, box, place in (("BB51184614", "101", 1), ("BB51184617", "102", 2), ("BB51184616", "105", 5)):
        c.bag(55, serial, "put", f"the bag of place {place} goes into its box", to=box)
        c.sign(30)
    c.safe(45, 2, False, "FM")
    c.sign(30)


def sixth_act(c):
    c.sign(300)
    c.sign(240)
    c.sign(200)
    c.sign(90)
    c.do(30, "closing", "closing", "somebody is still in the room: 31 unfinished", 409)
    c.sheet(60, "out", "AL CD DS EQ FM HN JB KV LR", "out-7", "PW would be left alone: 26 lone", 409)
    c.sheet(60, "out", "AL CD DS EQ FM HN JB KV LR PW", "out-7", "so all go out together")
    c.do(120, "closing", "closing", "the ceremony is closed")
    c.sheet(60, "in", "AL PW", "in-9", "nobody comes in after the closing: 20 state", 409)


def afterwards():
    """What may no longer change, and the reports."""
    post("/custodians", "appoint-CO-EAST-4", "places are settled up to the day of the ceremony: 18 settled", 409,
         place="CO-EAST-4", who="NI", day="2025-02-13")
    post("/custodians", "appoint-CO-EAST-4", "the day after it NI may hold a place", place="CO-EAST-4", who="NI",
         day="2025-02-14")
    get("/bags/BB51184613", "where a bag is, and what is in it")
    get("/bags/BB51184615", "and where the torn one is")
    get("/ceremonies/61/script", "the annotated script")
    get("/ceremonies/61/attendance.csv", "the attendance")


# The two files

def as_stream():
    """The requests as bytes, with an empty line behind each for the eye."""
    for method, path, body, why, _ in requests:
        text = b"" if body is None else json.dumps(body, ensure_ascii=False, separators=(",", ":")).encode()
        length = "" if body is None else f"Content-Length: {len(text)}\r\n"
        head = f"{method} {path} HTTP/1.1\r\nHost: localhost\r\nX-Why: {why}\r\n{length}\r\n"
        yield head.encode() + text + (b"\r\n\r\n" if text else b"")


SHELL = r'''#!/bin/sh
# The example ceremony, as calls of curl to a register that is empty. In one window:
#     kcr serve --port 8053 --connections 1000 --file register.db
# and in another:
#     examples/ceremony.sh http://127.0.0.1:8053 FOLDER
# Each answer is a line: its status, the request, and the body. The annotated script and the attendance go into FOLDER,
# which is the working folder where none is given. It ends with status 1 at the first answer whose status is another one
# than stands here. Written by make.py.
set -eu
url=${1:-http://127.0.0.1:8053}
folder=${2:-.}
here=$(dirname "$0")

# The text of a file as it stands in a text of JSON.
text() {
  sed 's/["\\]/\\&/g' "$here/$1" | awk '{ printf "%s\\n", $0 }'
}

# Asks, and prints the answer. $1 the status that it gets, $2 the method, $3 the path, $4 the body, if it has one.
ask() {
  told=$(curl --noproxy '*' -sS -X "$2" ${4+-H 'Content-Type: application/json' --data-binary "$4"} \
    -w '\n%{http_code}' "$url$3") || exit 1
  status=${told##*
}
  printf '%s %s %s %s\n' "$status" "$2" "$3" "${told%
*}"
  test "$status" = "$1" || { echo "ceremony.sh: the status is $status, and not $1" >&2; exit 1; }
}

# Keeps a report. $1 the path, $2 the name of the file.
keep() {
  status=$(curl --noproxy '*' -sS -o "$folder/$2" -w '%{http_code}' "$url$1") || exit 1
  printf '%s GET %s > %s\n' "$status" "$1" "$2"
  test "$status" = 200 || { echo "ceremony.sh: the status is $status, and not 200" >&2; exit 1; }
}
'''
REPORTS = {"/ceremonies/61/script": "ceremony.script.txt", "/ceremonies/61/attendance.csv": "ceremony.attendance.csv"}


def as_calls():
    """The requests as calls."""
    yield SHELL
    for method, path, body, why, status in requests:
        yield f"\n# {why}\n"
        if path in REPORTS:
            yield f"keep {path} {REPORTS[path]}\n"
            continue
        text = json.dumps(body, ensure_ascii=False, separators=(",", ":"))
        quoted = shlex.quote(text)
        if body and body.get("script") == (HERE / SCRIPT).read_text():
            begin, end = json.dumps(body | {"script": "\n"}, separators=(",", ":")).split("\\n")
            quoted = f"{shlex.quote(begin)}\"$(text {SCRIPT})\"{shlex.quote(end)}"
        yield f"ask {status} {method} {path}" + (f" {quoted}" if body else "") + "\n"


def main():
    folder = pathlib.Path(sys.argv[1]) if len(sys.argv) > 1 else HERE
    people()
    material()
    between()
    c = Ceremony(61, "2025-02-13", 17)
    for act in (first_act, second_act, third_act, fourth_act, fifth_act, sixth_act):
        act(c)
    afterwards()
    (folder / "ceremony.http").write_bytes(b"".join(as_stream()))
    (folder / "ceremony.sh").write_text("".join(as_calls()))
    (folder / "ceremony.sh").chmod(0o755)


if __name__ == "__main__":
    main()
