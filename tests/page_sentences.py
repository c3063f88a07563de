"""A stream in which each command of the register is refused in each way, with what the page says of it. `page_rules.py`
plays it.
"""
import json

import kcr

DAY = "2025-02-13"
SCRIPT = "step,activity,seats\n1,Check bags,CA;IW\n2,Open the module,CA;CO*2\n3,End,CA\n"
WHEN = "T20:00:00Z"
ACT_PATHS = {  # each act with members that are of their form
    "closing": {}, "sheet": {"way": "in", "who": ["VV"]}, "steps/1/signature": {},
    "exceptions": {"text": "Something", "pass": False}, "safes/1": {"open": True, "by": "DD"},
    "bags/BB51184299/seal": {"items": ["HSM4"]}, "bags/BB51184287/take": {}, "bags/BB51184287/put": {"to": "safe1"},
    "bags/BB51184287/cut": {},
}


def at(second):
    """A moment of the day."""
    return f"{DAY}T{second // 3600:02}:{second // 60 % 60:02}:{second % 60:02}Z"
BAG_ACTS = {"seal": {"items": ["HSM4"]}, "take": {}, "put": {"to": "3"}, "cut": {}}


class Play:
    """A stream of commands: those that are accepted, and those that are refused with what the page says of them."""

    def __init__(self):
        self.requests, self.wanted = [], []

    def send(self, wanted, path, members):
        """Adds a command, with its number and sentence if it is refused."""
        self.wanted.append(wanted)
        body = json.dumps({"key": f"k{len(self.requests)}", **members}, separators=(",", ":"))
        self.requests.append(kcr.request(b"POST", path.encode(), body.encode()))

    def ok(self, path, /, **members):
        """Adds a command that is accepted."""
        self.send(None, path, members)

    def no(self, number, sentence, path, /, **members):
        """Adds a command that is refused with this number; the page's sentence has this part."""
        self.send((number, sentence), path, members)

    def act(self, path, clock, /, **members):
        """Adds an act of ceremony 61 that is accepted, at a time of day."""
        self.ok(f"/ceremonies/61/{path}", **members, at=f"{DAY}T{clock}Z")

    def not_act(self, number, sentence, path, clock, /, **members):
        """Adds an act of ceremony 61 that is refused."""
        self.no(number, sentence, f"/ceremonies/61/{path}", **members, at=f"{DAY}T{clock}Z")

    def each_act(self, number, sentence, at, ceremony=61, bags=True):
        """Adds each kind of act, all refused with this; those on bags only if they are there."""
        for path, members in ACT_PATHS.items():
            if bags or "bags" not in path:
                self.no(number, sentence, f"/ceremonies/{ceremony}/{path}", **members, at=at)
        self.no(number, sentence, "/items", ceremony=ceremony, item="CARD9", at=at)


def play_people(play):
    """People, trainings and places."""
    for who, name in (("AA", "Ann Abel"), ("BB", "Bob Berg"), ("CC", "Cole, Cy"), ("DD", "Dee Dorn"),
                      ("EA", "Eva Ames"),
                      ("EB", "Eli Boon"), ("VV", "Vi"), ("WA", "Wim")):
        play.ok("/people", who=who, name=name)
    year = {"from": "2025-01-01", "until": "2025-12-31"}
    for who, role in (("AA", "CA"), ("BB", "IW"), ("CC", "SSC2"), ("DD", "SSC1")):
        play.ok(f"/people/{who}/roles", role=role, **year)
    play.ok("/custodians", place="CO-EAST-1", who="EA", day="2025-01-01")
    play.ok("/custodians", place="CO-EAST-2", who="EB", day="2025-01-01")
    play.ok("/custodians", place="CO-WEST-1", who="WA", day="2025-01-01")
    play.no(10, "'a1': initials are 2 to 4 capital letters.", "/people", who="a1", name="X")
    play.no(10, "Initials are missing: 2 to 4 capital letters.", "/people", who="", name="X")
    play.no(10, "A name has 1 to 120 bytes on one line: it is empty.", "/people", who="XX", name="")
    play.no(10, "it has 121 bytes, and at most 120 are taken", "/people", who="XX", name="x" * 121)
    play.no(13, "AA is in the register already: Ann Abel.", "/people", who="AA", name="Ann")
    play.no(7, "'a1': initials are 2 to 4 capital letters.", "/people/a1/roles", role="CA", **year)
    play.no(10, "The first day must be like 2026-11-20, a day that exists, of 2000 to 2099: not '2025-02-30'.",
            "/people/VV/roles", role="CA", **{**year, "from": "2025-02-30"})
    play.no(10, "The last day must be like 2026-11-20", "/people/VV/roles", role="CA", **{**year, "until": "soon"})
    play.no(12, "The register has no person ZZ: enter ZZ under People first.", "/people/ZZ/roles", role="CA", **year)
    play.no(13, "AA has this training already: CA from 2025-01-01 to 2025-12-31.", "/people/AA/roles", role="CA",
            **year)
    play.no(14, "The last day, 2024-12-31, is before the first, 2025-01-01.", "/people/VV/roles", role="CA",
            **{**year, "until": "2024-12-31"})
    play.no(15, "EA was put in CO-EAST-1: nobody is both", "/people/EA/roles", role="CA", **year)
    play.no(7, "'a1': initials", "/people/a1/withdrawals", role="CA", day="2025-03-01")
    play.no(10, "The day must be like 2026-11-20", "/people/AA/withdrawals", role="CA", day="x")
    play.no(12, "no person ZZ", "/people/ZZ/withdrawals", role="CA", day="2025-03-01")
    play.no(17, "VV is trained as CA neither on 2025-03-01 nor later.", "/people/VV/withdrawals", role="CA",
            day="2025-03-01")
    place = {"place": "CO-EAST-3", "who": "VV", "day": "2025-03-01"}
    play.no(10, "'v': initials are", "/custodians", **{**place, "who": "v"})
    play.no(10, "The day must be like 2026-11-20", "/custodians", **{**place, "day": "2025-3-1"})
    play.no(12, "no person ZZ", "/custodians", **{**place, "who": "ZZ"})
    play.no(15, "AA was trained (CA): nobody is both", "/custodians", **{**place, "who": "AA"})
    play.no(16, "EA holds CO-EAST-1 on 2025-03-01 or later.", "/custodians", **{**place, "who": "EA"})
    play.no(16, "CO-EAST-1 has a holder on 2025-03-01 or later, EA: replace or release the holder.", "/custodians",
            **{**place, "place": "CO-EAST-1"})
    play_replacements(play)


def play_replacements(play):
    """Replacements, releases and boxes."""
    first = "/custodians/CO-EAST-1/replacement"
    play.no(10, "'v': initials are", first, who="v", day="2025-03-01")
    play.no(10, "The day must be like", first, who="VV", day="")
    play.no(12, "no person ZZ", first, who="ZZ", day="2025-03-01")
    play.no(14, "EA holds CO-EAST-1 only from 2025-01-01 on: take a later day.", first, who="VV", day="2025-01-01")
    play.no(15, "BB was trained (IW): nobody is both", first, who="BB", day="2025-03-01")
    play.no(16, "EB holds CO-EAST-2 on 2025-03-01 or later.", first, who="EB", day="2025-03-01")
    play.no(17, "CO-EAST-7 has no holder: appoint one instead.", "/custodians/CO-EAST-7/replacement", who="VV",
            day="2025-03-01")
    play.no(10, "The day must be like", "/custodians/CO-EAST-1/release", day="never")
    play.no(14, "EA holds CO-EAST-1 only from 2025-01-01 on", "/custodians/CO-EAST-1/release", day="2025-01-01")
    play.no(17, "RKSH-7 has no holder", "/custodians/RKSH-7/release", day="2025-03-01")
    play.ok("/boxes", facility="EAST", box=3, place="CO-EAST-1")
    play.ok("/boxes", facility="EAST", box=4, place="CO-EAST-4")
    play.ok("/boxes", facility="WEST", box=7, place="CO-WEST-1")
    play.no(10, "The number of a box is 1 to 9999, without zeros in front: not '0'.", "/boxes", facility="EAST", box=0,
            place="CO-EAST-2")
    play.no(13, "EAST has box 3 already, for CO-EAST-1.", "/boxes", facility="EAST", box=3, place="CO-EAST-2")
    play.no(13, "CO-EAST-1 has box 3 already.", "/boxes", facility="EAST", box=5, place="CO-EAST-1")
    play.no(14, "CO-WEST-2 is no place of a crypto officer of EAST.", "/boxes", facility="EAST", box=5,
            place="CO-WEST-2")


FAULTS = (
    (1, "the first row is step,activity,seats", ""),
    (1, "the first row is step,activity,seats", "step,activity\n1,One,CA\n"),
    (2, "there is no step", "step,activity,seats\n"),
    (3, "'CA*1' is no seat", "step,activity,seats\n1,One,CA\n2,Two,CA*1\n"),
    (3, "the step's number is 2, not '3'", "step,activity,seats\n1,One,CA\n3,Two,CA\n"),
    (2, "it has 4 fields, and a step has three", "step,activity,seats\n1,One, two,CA\n"),
    (2, "the activity: it is empty", "step,activity,seats\n1,,CA\n"),
    (2, "the activity: it has 501 bytes", f"step,activity,seats\n1,{'x' * 501},CA\n"),
    (2, "another control character", 'step,activity,seats\n1,"One\ntwo",CA\n'),
    (2, "17 seats, and a step has at most 16", "step,activity,seats\n1,One,CA*7;CA*7;IW*3\n"),
    (402, "at most 400 steps", "step,activity,seats\n" + "".join(f"{n},Step,CA\n" for n in range(1, 402))),
)


def play_plans(play):
    """Plans, their scripts, and openings."""
    plan = {"number": 61, "facility": "EAST", "day": DAY, "script": SCRIPT}
    play.ok("/ceremonies", **plan)
    play.ok("/ceremonies", **{**plan, "number": 63})
    play.ok("/ceremonies", **{**plan, "number": 64, "facility": "WEST"})
    play.no(10, "The number of a ceremony is 1 to 9999", "/ceremonies", **{**plan, "number": 10_000})
    play.no(10, "The day must be like", "/ceremonies", **{**plan, "day": "13.2.2025"})
    play.no(13, "Ceremony 61 is there already: EAST, 2025-02-13.", "/ceremonies", **plan)
    for row, why, text in FAULTS:
        play.no(19, f"Row {row}: ", "/ceremonies", **{**plan, "number": 70, "script": text})
        play.no(19, why, "/ceremonies", **{**plan, "number": 70, "script": text})
    play.each_act(20, "Ceremony 61 is planned for 2025-02-13, and not open yet.", f"{DAY}{WHEN}", bags=False)
    play.no(14, "Ceremony 61 is planned for 2025-02-13, and is not opened on an earlier day.", "/ceremonies/61/opening",
            at="2025-02-12T20:00:00Z")
    play.no(10, "The moment must be like 2026-11-20T20:45:10Z", "/ceremonies/61/opening", at="20:00")
    play.no(12, "The register has no ceremony 99: plan it first.", "/ceremonies/99/opening", at=f"{DAY}{WHEN}")
    play.act("opening", "20:00:00")
    play.not_act(20, "Ceremony 61 is open already, since 2025-02-13T20:00:00Z.", "opening", "20:00:00")
    play.no(21, "Ceremony 61 is open in EAST: close it first.", "/ceremonies/63/opening", at=f"{DAY}{WHEN}")
    play.each_act(10, "The moment must be like 2026-11-20T20:45:10Z", "now")
    play.each_act(12, "The register has no ceremony 99: plan it first.", f"{DAY}{WHEN}", 99)


def play_room(play):
    """The sheet."""
    sheet = "sheet"
    play.not_act(10, "Name who comes in or goes out.", sheet, "20:05:00", way="in", who=[])
    play.not_act(10, "'x': initials are", sheet, "20:05:00", way="in", who=["AA", "x"])
    play.not_act(10, "AA is named twice.", sheet, "20:05:00", way="in", who=["AA", "BB", "AA"])
    play.not_act(10, "At most 32 are taken at once: here are 33.", sheet, "20:05:00", way="in",
                 who=[kcr.initials(n).decode() for n in range(33)])
    play.not_act(12, "no person ZZ", sheet, "20:05:00", way="in", who=["AA", "ZZ"])
    play.not_act(22, "Who comes or goes does so after it: not at 2025-02-13T20:00:00Z.", sheet, "20:00:00", way="in",
                 who=["AA", "BB"])
    play.not_act(26, "At 2025-02-13T20:05:00Z exactly one person would be in the room: AA.", sheet, "20:05:00",
                 way="in",
                 who=["AA"])
    play.act(sheet, "20:05:00", way="in", who=["AA", "BB", "CC", "EA"])
    play.not_act(24, "AA is in the room already, since 2025-02-13T20:05:00Z.", sheet, "20:06:00", way="in", who=["AA"])
    play.not_act(24, "AA has an entry at 2025-02-13T20:05:00Z: the moment must be later.", sheet, "20:04:00", way="out",
                 who=["AA"])
    play.not_act(24, "VV is not in the room.", sheet, "20:06:00", way="out", who=["VV"])
    play.ok("/ceremonies/64/opening", at=f"{DAY}T20:00:00Z")
    play.no(24, "AA is in the room of ceremony 61, and goes out there first.", "/ceremonies/64/sheet", way="in",
            who=["AA"], at=f"{DAY}T20:06:00Z")
    play.no(24, "AA is in the room of ceremony 61, not in this one.", "/ceremonies/64/sheet", way="out", who=["AA"],
            at=f"{DAY}T20:06:00Z")


def play_steps(play):
    """Signatures and exceptions."""
    play.not_act(12, "Ceremony 61 has no step 4.", "steps/4/signature", "20:10:00")
    play.not_act(23, "The next step is 1.", "steps/2/signature", "20:10:00")
    play.act("steps/1/signature", "20:10:00")
    play.not_act(23, "The next step is 2: step 1 is done already.", "steps/1/signature", "20:10:00")
    play.not_act(32,
                 "Too few people fit: seat 2, CO (crypto officer): in the room EA; seat 3, CO (crypto officer): in the "
                     "room EA. In the room: AA BB CC EA.", "steps/2/signature", "20:10:00")
    play.not_act(10, "What happened has 1 to 1000 bytes on one line: it is empty.", "exceptions", "20:10:00", text="",
                 **{"pass": False})
    play.each_act(22, "The ceremony has an act at 2025-02-13T20:10:00Z", f"{DAY}T20:09:00Z", bags=False)
    play.not_act(31, "Steps 2 to 3 are neither signed nor passed over.", "closing", "20:10:00")


def play_custody(play):
    """Safes, items and bags, from 20:10 on."""
    bag, at_20 = "bags/BB51184287", "20:20:00"
    play.no(10, "'HS': an item has capital letters and digits, 4 to 16 of them.", "/items", ceremony=61, item="HS",
            at=f"{DAY}T20:11:00Z")
    for item in ("HSM4", "CARD5"):
        play.ok("/items", ceremony=61, item=item, at=f"{DAY}T20:11:00Z")
    play.no(13, "HSM4 was added before", "/items", ceremony=61, item="HSM4", at=f"{DAY}T20:11:00Z")
    for what, members in BAG_ACTS.items():
        play.not_act(7, "'bb-1': a serial has capital letters and digits, 4 to 16 of them.", f"bags/bb-1/{what}",
                     "20:12:00", **members)
    play.not_act(10, "Name the items.", f"{bag}/seal", "20:12:00", items=[])
    play.not_act(10, "HSM4 is named twice.", f"{bag}/seal", "20:12:00", items=["HSM4", "HSM4"])
    play.not_act(12, "The register has no item CARD7: add it first.", f"{bag}/seal", "20:12:00", items=["CARD7"])
    for what in ("take", "put", "cut"):
        play.not_act(12, "The register has no bag BB51184287: look at its serial again.", f"{bag}/{what}", "20:12:00",
                     **BAG_ACTS[what])
    play.act(f"{bag}/seal", "20:12:00", items=["HSM4"])
    play.not_act(13, "BB51184287 was sealed before: each bag has a new serial.", f"{bag}/seal", "20:12:00",
                 items=["HSM4"])
    play.not_act(29, "HSM4 is in bag BB51184287, and not loose.", "bags/BB51184288/seal", "20:12:00", items=["HSM4"])
    play.not_act(29, "Bag BB51184287 is in no safe of EAST: it is at table EAST.", f"{bag}/take", "20:12:00")
    play.not_act(10, "'box': a store is safe 1, or the number of a box, 1 to 9999.", f"{bag}/put", "20:12:00", to="box")
    play.not_act(12, "EAST has no box 9: add it under Places first.", f"{bag}/put", "20:12:00", to="9")
    play.not_act(28, "Safe 1 is shut: open it first.", f"{bag}/put", "20:12:00", to="safe1")
    play.not_act(28, "Box 3 is in safe 2, which is shut: open it first.", f"{bag}/put", "20:12:00", to="3")
    play.not_act(10, "Choose who does it: somebody in the room.", "safes/2", "20:12:00", open=True, by="")
    play.not_act(12, "no person ZZ", "safes/2", "20:12:00", open=True, by="ZZ")
    play.not_act(28, "Safe 2 is shut already.", "safes/2", "20:12:00", open=False, by="CC")
    play.not_act(30, "DD is not in the room.", "safes/1", "20:12:00", open=True, by="DD")
    play.not_act(30, "AA is here but not trained as SSC2 on 2025-02-13.", "safes/2", "20:12:00", open=True, by="AA")
    play_safes(play, bag, at_20)


def play_safes(play, bag, at_20):
    """Safes and boxes, and who must be in the room."""
    play.act("safes/2", "20:12:00", open=True, by="CC")
    play.not_act(28, "Safe 2 is open already.", "safes/2", "20:12:00", open=True, by="CC")
    play.not_act(30, "CO-EAST-4, whose box it is, has no holder on 2025-02-13.", f"{bag}/put", "20:13:00", to="4")
    play.act(f"{bag}/put", "20:13:00", to="3")
    play.not_act(29, "Bag BB51184287 is not on the table of EAST: it is at box 3 EAST.", f"{bag}/cut", "20:14:00")
    play.not_act(29, "Bag BB51184287 is not on the table of EAST: it is at box 3 EAST.", f"{bag}/put", "20:14:00",
                 to="3")
    play.act("sheet", "20:14:00", way="out", who=["EA"])
    play.not_act(30, "EA holds CO-EAST-1, whose box it is, and is not in the room.", f"{bag}/take", "20:15:00")
    play.act("safes/2", "20:15:00", open=False, by="CC")
    play.not_act(28, "Bag BB51184287 is at box 3 EAST, and that safe is shut: open it first.", f"{bag}/take",
                 "20:15:00")
    play.act("sheet", "20:16:00", way="in", who=["EA", "EB"])
    play.act("safes/2", "20:17:00", open=True, by="CC")
    play.act("sheet", "20:17:10", way="out", who=["AA"])
    play.not_act(30, "Nobody in the room is trained as CA on 2025-02-13.", f"{bag}/take", "20:17:20")
    play.act("sheet", "20:17:30", way="in", who=["AA"])
    play.act(f"{bag}/take", "20:18:00")
    play.act("sheet", "20:18:10", way="out", who=["EA"])
    play.not_act(30, "EA holds CO-EAST-1, whose box it is, and is not in the room.", f"{bag}/put", "20:18:20", to="3")
    play.act("sheet", "20:18:30", way="in", who=["EA"])
    play.act("sheet", "20:19:00", way="out", who=["AA"])
    play.no(30, "Nobody in the room is trained as CA on 2025-02-13.", "/items", ceremony=61, item="CARD1",
            at=f"{DAY}T{at_20}Z")
    for path, members in ((f"{bag}/cut", {}), (f"{bag}/put", {"to": "3"}), ("bags/BB51184288/seal",
                                                                         {"items": ["CARD5"]})):
        play.not_act(30, "Nobody in the room is trained as CA on 2025-02-13.", path, at_20, **members)
    play.not_act(32, "Too few people fit: seat 1, CA (ceremony administrator): nobody in the room fits.", "exceptions",
                 at_20, text="No", **{"pass": True})


def play_end(play):
    """Closing, and what is refused at the end."""
    play.act("sheet", "20:21:00", way="in", who=["AA"])
    play.act("steps/2/signature", "20:22:00")
    play.not_act(31, "Step 3 is neither signed nor passed over.", "closing", "20:22:00")
    play.act("exceptions", "20:23:00", text="Passed", **{"pass": True})
    play.not_act(23, "No step is left to pass over.", "exceptions", "20:23:00", text="Again", **{"pass": True})
    play.not_act(23, "All steps of the script are done.", "steps/3/signature", "20:23:00")
    play.not_act(31, "In the room: AA Ann Abel, BB Bob Berg, CC Cole, Cy, EA Eva Ames, EB Eli Boon.", "closing",
                 "20:23:00")
    play.act("sheet", "20:30:00", way="out", who=["AA", "BB", "CC", "EA", "EB"])
    play.not_act(31, "Open in EAST: safe 2.", "closing", "20:30:00")
    play.act("sheet", "20:31:00", way="in", who=["AA", "CC"])
    play.act("safes/2", "20:32:00", open=False, by="CC")
    play.act("sheet", "20:33:00", way="out", who=["AA", "CC"])
    play.not_act(31, "On the table of EAST: BB51184287.", "closing", "20:33:00")
    play.act("sheet", "20:34:00", way="in", who=["AA", "CC"])
    play.act("bags/BB51184287/cut", "20:35:00")
    play.act("sheet", "20:36:00", way="out", who=["AA", "CC"])
    play.act("sheet", "20:38:00", way="in", who=["EA", "EB"])
    play.act("sheet", "20:39:00", way="out", who=["EA", "EB"])
    play.not_act(31, "The sheet has an entry of EA after 2025-02-13T20:37:00Z.", "closing", "20:37:00")
    play.each_act(22, "The ceremony has an act at 2025-02-13T20:35:00Z", f"{DAY}T20:34:00Z")
    play.no(29, "HSM4 is loose at EAST, not here.", "/ceremonies/64/bags/BB51184289/seal", items=["HSM4"],
            at=f"{DAY}T20:40:00Z")
    play.act("closing", "20:40:00")
    play.each_act(20, "Ceremony 61 is closed since 2025-02-13T20:40:00Z. A closed one stays closed.",
                  f"{DAY}T20:41:00Z")
    play.not_act(20, "Ceremony 61 is closed since 2025-02-13T20:40:00Z.", "opening", "20:41:00")
    play.no(18, "Up to 2025-02-13, the day of the last act in a ceremony, places no longer change", "/custodians",
            place="CO-EAST-3", who="VV", day=DAY)
    play.no(18, "places no longer change", "/custodians/CO-EAST-1/replacement", who="VV", day=DAY)
    play.no(18, "places no longer change", "/custodians/CO-EAST-1/release", day=DAY)
    play.no(18, "trainings are no longer withdrawn", "/people/AA/withdrawals", role="CA", day=DAY)


def play_next_day(play):
    """A bag in a box whose place has no holder the next day."""
    def act(path, clock, /, **members):
        play.ok(f"/ceremonies/64/{path}", **members, at=f"{DAY}T{clock}Z")
    act("sheet", "20:41:00", way="in", who=["AA", "CC", "WA"])
    play.ok("/items", ceremony=64, item="UNIT1", at=f"{DAY}T20:42:00Z")
    act("bags/BB51184290/seal", "20:43:00", items=["UNIT1"])
    act("safes/2", "20:44:00", open=True, by="CC")
    act("bags/BB51184290/put", "20:45:00", to="7")
    play.ok("/custodians/CO-WEST-1/release", day="2025-02-14")
    play.no(30, "CO-WEST-1, whose box it is, has no holder on 2025-02-14.", "/ceremonies/64/bags/BB51184290/take",
            at="2025-02-14T08:00:00Z")


def play_limits(play):
    """A full room, 1,000 entries of people who came in, and 200 exceptions."""
    many = [kcr.initials(n).decode() for n in range(128)]
    for who in many:
        play.ok("/people", who=who, name="Many")
    play.ok("/ceremonies/63/opening", at=f"{DAY}T21:00:00Z")
    lists = [many[start:start + 32] for start in range(0, 128, 32)]

    def sheet(way, second, some):
        return {"way": way, "who": some, "at": at(76_000 + second)}
    second = 1
    for some in lists:
        play.ok("/ceremonies/63/sheet", **sheet("in", second, some))
    play.no(25, "more than 128 people would be in the room", "/ceremonies/63/sheet", **sheet("in", second + 1, ["VV"]))
    for _ in range(6):
        second += 2
        for some in lists:
            play.ok("/ceremonies/63/sheet", **sheet("out", second, some))
        for some in lists:
            play.ok("/ceremonies/63/sheet", **sheet("in", second + 1, some))
    second += 2
    for some in lists:
        play.ok("/ceremonies/63/sheet", **sheet("out", second, some))
    for some in lists[:3]:
        play.ok("/ceremonies/63/sheet", **sheet("in", second + 1, some))
    play.ok("/ceremonies/63/sheet", **sheet("in", second + 2, lists[3][:8]))
    play.no(27, "The ceremony has 1,000 entries of people who came in: no more are taken.",
            "/ceremonies/63/sheet", **sheet("in", second + 3, lists[3][8:9]))
    late = {"text": "Again", "pass": False, "at": at(80_000)}
    for _ in range(200):
        play.ok("/ceremonies/63/exceptions", **late)
    play.no(27, "The ceremony has 200 exceptions: no more are taken.", "/ceremonies/63/exceptions", **late)


def whole_play():
    """All of it."""
    play = Play()
    for part in (play_people, play_plans, play_room, play_steps, play_custody, play_end, play_next_day, play_limits):
        part(play)
    return play
