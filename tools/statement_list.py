"""What the statement is made of: the contracts, their sentences, and the parts in which the definitions are read."""

# The functions whose contracts the statement is: the crate, the file in `src/`, and the function.
CONTRACTS = [
    ("kcr_tool", "tasks", "run_file"),
    ("kcr_tool", "listen", "serve_file"),
    ("kcr_tool", "act", "report_copied"),
    ("kcr_tool", "verify", "verify_copied"),
    ("kcr_desk", "desk", "serve"),
    ("kcr_store", "register", "Register::in_memory"),
    ("kcr_store", "register", "Register::adopt"),
    ("kcr_tool", "act", "act"),
    ("kcr_verify", "verification", "verify"),
    ("kcr_verify", "verification", "rebuild"),
]

# Clauses of these contracts that the statement leaves out. `by_rows` of `serve` says the same of rows that no history
# has: it leads to all that decides a command by rows, which the theorem does not need.
LEFT_OUT = [("kcr_desk::serve", "by_rows")]

# The worked examples: the files whose public lemmas they are.
EXAMPLES = [
    "crates/kcr_script/proofs/Examples.antt",
    "crates/kcr_worked/proofs/Commands.antt",
    "crates/kcr_worked/proofs/Registers.antt",
    "crates/kcr_worked/proofs/Shown.antt",
]

# What shows the definitions of a file to which no example leads: cases of `tests/cases`, `words/` and one of
# `tests/words`, tests of `tests/unproved` and scripts of `tests`, each with one of its functions.
CASES = {
    "kcr_base/Lists": "values-out-of-range lib.txt:lists_name_nobody_twice",
    "kcr_base/Rows": "rows.txt:rows_of_people rows.txt:rows_of_custody",
    "kcr_base/Counted": "lib.txt:counted_streams",
    "kcr_base/Forms": "values-out-of-range bodies-of-people lib.txt:codes lib.txt:numbers",
    "kcr_base/Refusal": "questions lib.txt:texts_of_refusals",
    "kcr_script/Seat": "seat-texts",
    "kcr_script/Seats": "seat-texts lib.txt:seat_texts",
    "kcr_room/Stays": "attendance room-at-a-moment rows.txt:presence",
    "kcr_room/Forms": "values-out-of-range",
    "kcr_people/People": "training-and-custodians settled-day withdrawals-of-two-trainings",
    "kcr_people/Laws": "withdrawals-of-two-trainings",
    "kcr_custody/Custody": "bag-into-a-box custody-report",
    "kcr_custody/Destinations": "values-out-of-range",
    "kcr_history/Tables": "holder-on-the-day-of-a-replacement",
    "kcr_history/Conditions": "exception-that-passes-nothing no-step-left-to-pass",
    "kcr_history/Views": "questions",
    "kcr_history/Questions": "questions withdrawals-of-two-trainings holder-on-the-day-of-a-replacement",
    "kcr_history/Prints": "annotated-script attendance reports",
    "kcr_history/Texts": "commands lib.txt:texts_of_commands",
    "kcr_rules/Refusals": "rules.py:played_cases",
    "kcr_audit/Views": "changed.py:findings",
    "kcr_forms/Forms": "values-out-of-range",
    "kcr_forms/OrMemory": "malformed-bodies memory.py:examples_over_memory",
    "kcr_forms/Reading": "bodies-of-people",
    "kcr_forms/Shapes": "commands",
    "kcr_forms/Posts": "commands body-with-more-members",
    "kcr_wire/Routes": "targets",
    "kcr_wire/Endpoints": "targets questions method-of-another-path",
    "kcr_wire/Members": "malformed-bodies bodies-of-people",
    "kcr_wire/Commands": "commands bodies-of-people",
    "kcr_wire/Questions": "questions commands-beyond-the-end",
    "kcr_wire/Methods": "method-of-another-path head-of-a-list",
    "kcr_print/Requests": "commands feed.py:its_bounds",
    "kcr_wire/Requests": "commands export.py:each_command_once",
    "kcr_wire/Bodies": "commands export.py:each_command_once",
    "kcr_journal/Sentences": "journal.py:each_command_a_line",
    "kcr_journal/Lines": "journal.py:each_command_a_line",
    "kcr_journal/Journal": "journal.py:each_command_a_line",
    "kcr_journal/Replies": "journal.py:each_command_a_line changed.py:other_people",
    "kcr_desk/Run": "the-same-command-again head-cut-short body-cut-short",
    "kcr_desk/Answers": "entered-and-listed method-of-another-path reports commands",
    "kcr_desk/Streams": "streams.py:read_fails streams.py:write_fails",
    "kcr_desk/Members": "close-among-members",
    "kcr_desk/Framing": "two-hosts head-without-host two-lengths length-with-a-sign transfer-coding",
    "kcr_desk/Stream": "continue http-1.0-closes",
    "kcr_desk/Texts": "entered-and-listed head-of-a-list continue method-of-another-path",
    "kcr_rows/Values": "rows.txt:rows_of_people changed.py:differences",
    "kcr_rows/States": "rows.txt:rows_of_ceremonies changed.py:differences",
    "kcr_rows/Rows": "rows.txt:rows_of_people rows.txt:rows_of_custody changed.py:differences",
    "kcr_rows/Columns": "program.py:another_schema",
    "kcr_rows/Keyed": "rows.txt:a_new_register",
    "kcr_rows/Kinds": "changed.py:differences",
    "kcr_tables/Schema": "program.py:another_schema older.txt:other_databases_are_refused",
    "kcr_tables/StoredTables": "changed.py:findings changed.py:differences",
    "kcr_tables/NewTables": "rows.txt:a_new_register",
    "kcr_tables/Creation": "stops.py:tables_are_made",
    "kcr_edges/Image": "pack.py:the_same_register",
    "kcr_older/OldFiles": "older.txt:older_versions_are_brought",
    "kcr_older/Kind": "program.py:no_one_number older.txt:other_databases_are_refused",
    "kcr_store/Register": "stops.py:commands_are_taken",
    "kcr_verify/Verification": "changed.py:differences changed.py:changed_commands",
    "kcr_verify/Seated": "program.py:other_seatings changed.py:other_people",
    "kcr_verify/FirstRow": "changed.py:differences",
    "kcr_verify/Quoted": "changed.py:differences",
    "kcr_arguments/Commands": "words/help words/serve-idle-301 words/export-after-4000000001",
    "kcr_arguments/Tasks": "words/serve-longest-0 words/print-ceremony-0 words/pack-into-a-wal words/run-explained",
    "kcr_fault/Lines": "changed.py:findings changed.py:differences changed.py:keys_of_invalid_rows damage.py:frames_are_changed server.py:taken_port",
    "kcr_fault/Faults": "program.py:no_database server.py:taken_port server.py:lost_files words/run-explained",
}

# A sentence for each clause that has no comment of its own in the sources. A comment there goes before a sentence here.
SENTENCES = {
    "kcr_desk::serve": {
        "clean": "A disk that is clean at the end was clean at the beginning.",
        "bound": "At most 1,000,000 reads return bytes.",
    },
    "kcr_store::Register::in_memory": {
        "new": "The register stands at the empty history.",
        "fault": "The fault is `Memory` or `Disk`.",
    },
    "kcr_store::Register::adopt": {
        "autocommit": "The connection is outside of a transaction.",
        "unbroken": "The register is not broken.",
        "kept": "The register is outside of a transaction.",
        "taken": "A database that holds a history's tables is refused only for memory or for the device.",
        "known": "Only an empty database, or one with the whole schema of version 1, 2 or 3, is taken.",
    },
    "kcr_tool::run_file": {
        "cause": "The fault is that of the stream: `Read` only if a read failed or 1,000,000 reads gave a byte, and "
        "`Write` only if a write failed. Memory has no cause.",
        "unopened": "If the file was not opened, nothing was read or written.",
    },
    "kcr_tool::serve_file": {
        "part": "After a fault a prefix of that line was written, or nothing.",
        "cause": "The faults are those of a port, of a write, of memory, of a lost file and of a broken register.",
        "unopened": "If the file was not opened, nothing was written.",
    },
    "kcr_tool::report_copied": {
        "cause": "The fault is why the copy was not opened, or why the report stopped.",
        "noted": "At most a line stands on `faults`, which says that no register or no command is there: if the "
        "report is done, or if lines are explained.",
    },
    "kcr_tool::verify_copied": {
        "own_in_part": "After a fault a prefix of that line was written, or nothing.",
        "cause": "The fault is why the rows were not read, or why the verification stopped.",
    },
    "kcr_tool::act": {
        "status": "The exit status is 0, 1 or 2.",
        "answered": "Over any register: the words are a task, each message got a reply, and the line of a port, "
        "an audit, a verification or a rebuild was written. Of a report nothing is said.",
        "answered_in_part": "Over any register: a finding was told, or nothing was written, or a prefix of the "
        "replies or of the task's line was. Of a report nothing is said.",
    },
    "kcr_verify::verify": {
        "told": "If the answer is `Verified`, the rows are the tables of a history that the machine reaches, with "
        "that many commands. Otherwise the difference that is named is one.",
        "cause": "The refusals are those for memory and for the device.",
    },
}

# The parts in the order in which they are read: a title, what the part says, and its files in their order, as
# `crate/File` for one in `specs/` and `crate/src/file`. A file that is not here goes to the end of the part with most
# files of its crate.
PARTS = [
    ("Values",
     "A number is a `ℕ` to a clause, a text the list of its bytes. A type of Rust is the record or the choice that it "
     "declares.",
     """kcr_base/src/place kcr_base/Same kcr_base/Lists kcr_base/Rows kcr_base/Initials kcr_base/Line kcr_base/Serial
     kcr_base/Number kcr_base/Facility kcr_base/Place kcr_base/Role kcr_base/Day kcr_base/Days kcr_base/Moment
     kcr_base/src/day kcr_base/src/initials kcr_base/src/key kcr_base/src/line kcr_base/src/lists kcr_base/src/moment
     kcr_base/src/number kcr_base/src/positions kcr_base/src/serial kcr_base/src/text kcr_base/src/refusal
     kcr_custody/src/lib kcr_custody/Spots kcr_room/src/lib kcr_people/src/lib kcr_base/src/tally kcr_base/src/counted
     kcr_base/Counted"""),
    ("Scripts and seats as texts",
     "Which texts are scripts, and which steps and seats they stand for.",
     """kcr_script/src/seat kcr_script/src/seats kcr_script/src/script kcr_script/Seat kcr_script/Seats
     kcr_script/Script kcr_script/Reading"""),
    ("Commands and the history",
     "A register is the list of its accepted commands. All else is said of that list.",
     """kcr_history/src/lists kcr_history/src/commands kcr_history/History kcr_history/Training kcr_history/Ceremonies
     kcr_room/Room kcr_room/Moments kcr_room/Stays kcr_history/Room kcr_history/Custody"""),
    ("The rows of the history",
     "For each table the rows of a history, in the order in which they were made.",
     """kcr_history/src/row_types kcr_history/Tables"""),
    ("Conditions by command",
     "Why a command of each kind is refused: the first condition of its list that holds.",
     """kcr_base/Refuse kcr_people/People kcr_people/Laws kcr_custody/Custody kcr_room/Requests
     kcr_history/Conditions"""),
    ("Seats", "Who fits a seat, the first seating, and a least shortage.", "kcr_history/Seating"),
    ("The machine",
     "One step of the machine: what a command is answered, and the history after it.",
     "kcr_history/Machine"),
    ("The run",
     "The machine's steps over the messages of a stream, and all that is written. The messages and the texts that it "
     "names stand in the parts below.",
     """kcr_desk/src/fault kcr_desk/src/stream kcr_rows/Refusals kcr_store/Commands kcr_store/Rows
     kcr_print/Written
     kcr_desk/Run kcr_desk/Answers kcr_desk/Streams kcr_desk/Connections kcr_machine/RowDecision kcr_rules/Refusals"""),
    ("The cut of the stream",
     "Which bytes are which messages, and how a stream ends.",
     """kcr_desk/src/head kcr_desk/Members kcr_desk/Framing kcr_desk/Stream"""),
    ("Questions and reports",
     "What a question is shown, and the text of each report, by the history.",
     """kcr_history/src/report_rows kcr_history/src/questions kcr_history/Views kcr_history/Questions kcr_store/Shown
     kcr_history/Prints"""),
    ("Requests as texts",
     "Which path and which body are which command, question or report.",
     """kcr_wire/src/method kcr_wire/src/allow kcr_wire/src/after kcr_wire/src/route kcr_wire/src/endpoint
     kcr_wire/src/question kcr_forms/src/post kcr_base/Forms kcr_custody/Destinations kcr_room/Forms kcr_forms/Forms
     kcr_forms/OrMemory kcr_forms/Reading kcr_forms/Shapes kcr_forms/Posts kcr_wire/Routes kcr_wire/Endpoints kcr_wire/Members kcr_wire/Commands
     kcr_wire/Questions kcr_wire/Methods"""),
    ("Answers as texts",
     "The bytes of each answer, the text of a command that is kept, and its request in a feed.",
     """kcr_base/Refusal kcr_history/Json kcr_history/Refusals kcr_history/Texts kcr_wire/ShownJson kcr_print/Requests
     kcr_wire/Requests kcr_wire/Bodies kcr_desk/src/response kcr_desk/Texts"""),
    ("The journal",
     "The line of each accepted command, for people.",
     """kcr_journal/Sentences kcr_journal/Lines kcr_journal/Journal"""),
    ("The tables of the file",
     "The cells of each row, the schema, and what trees hold the tables of a history. For a crash it is enough that "
     "what it leaves and what an opening takes are one fact, `IsTables`; what the fact says counts for those who read "
     "the file with another program.",
     """kcr_rows/src/row_impls kcr_rows/Values kcr_rows/States kcr_rows/Rows kcr_rows/Columns kcr_rows/Keyed
     kcr_tables/Schema kcr_tables/StoredTables kcr_tables/NewTables kcr_tables/MachineTables kcr_tables/Creation"""),
    ("The file and crash",
     "What a file holds of a history, what an opening makes of it, and what a crash may leave.",
     """kcr_edges/src/reading kcr_edges/Image kcr_older/OldFiles kcr_older/Kind kcr_store/src/open
     kcr_store/Stored kcr_store/Register kcr_store/src/register kcr_store/Opening"""),
    ("The verification",
     "What it means that a register is the one of its own commands.",
     """kcr_history/src/views kcr_audit/Views kcr_store/FullView kcr_forms/Acts kcr_verify/src/compare
     kcr_verify/src/verification kcr_journal/Replies kcr_verify/Seated kcr_verify/Verification"""),
    ("The program",
     "Which arguments are which task, and what each task writes.",
     """kcr_verify/src/new_register kcr_log/src/judgement kcr_store/src/breakage kcr_arguments/src/words kcr_fault/src/fault
     kcr_arguments/Commands kcr_arguments/Tasks kcr_fault/Lines kcr_fault/Faults kcr_tool/Audits
     kcr_tool/Verifications kcr_tool/Runs"""),
]

# The contract whose definitions the table at the front counts.
FIRST = "serve"

# The last part of what is answered and kept. The parts behind it say how that is written as bytes, and what the program
# does with it.
CORE_ENDS = "The cut of the stream"

ABOUT = """
# The statement

This page is all that one has to read to believe the theorem without believing us: the contracts of the outermost
functions of the program, each clause below a sentence, and every definition that they name, in the order in which a
reader needs them. A definition has the comment that its file has. `tools/statement.py` writes the page from the
sources, and the gate compares the two.

How to read it: `f : A → B` says that `f` takes an `A` and returns a `B`. Behind each `|` stands a case, with its
arguments before the `=`; the first that fits counts. `f (x : A) : B = y` says both in one. A fact is a type: a
definition that ends in `Type 0` is a fact and no value. `(x : A) → P` says that `P` holds of each `x`, `(x : A) × P`
that it holds of some `x`. A record of facts holds if each of its fields does. `x.old` is a value before the call,
`x.new` after it. `type A = B` is a type of the program that clauses see as `B`.

The words are those of the files, on fewer lines: without `abbrev`, `unfoldable` and `pub`, a function of one case with
its arguments before the colon, a text as `"EAST"` for `codes "EAST"`, and a variant behind the name of its type. A
comment stands over its definition or behind its head. `[kcr_base/Same]` heads what stands in
`crates/kcr_base/specs/Same.antt`, and `[kcr_base/src/day]` what stands in `crates/kcr_base/src/day.rt`. “here `f` of
`M`” marks a name that several files define, or that `M` spells differently.
""".strip().split("\n") + [""]

# What the statement leaves out, and why.
NOT_IN_IT = [
    ("the proofs, in `proofs/`", "the prover checks them, and refuses a wrong one"),
    ("the bodies of functions, and all other contracts: those of `R::apply`, `R::look` and the rows that a register gives "
     "one at a time, of the decisions by rows, of the tables, of the reports' parts",
     "the prover checks each body against its contract, and proves the contracts here from the others"),
    ("the clause `by_rows` of `serve`", "it says the same of rows that no history has, by definitions of its own"),
    ("{unreached:,} definitions to which no clause here leads (`tools/statement.py --unreached` lists them)",
     "they serve other contracts or proofs: no clause here says anything else if one of them is wrong"),
    ("how a type keeps its value", "a clause speaks only of the value"),
    ("the definitions of the kit", "they are named at the end, each with what it stands for; they stand in the kit"),
    ("the step from a crash after a call to a crash within one",
     "the kit argues it and does not prove it (`sqlite_wal/README.md`): after a crash within a call each call of the "
     "disk fails, so the function returns, and its clauses hold of what the crash may leave"),
    ("the prover, the compilers, the machine code", "they are trusted (README); no statement is about them"),
]

CONTRACTS_ABOUT = (
    "The comment over a clause is its sentence. The first four are the program over a file: `run_file` and `serve_file` "
    "open it, `report_copied` and `verify_copied` read a copy of it. `start` is a value of the caller's type `B`: its "
    "ghost `B.Start` stands for the bytes that the file and its log held when they were opened, which no code can read. "
    "`main` passes `Unknown`, of whose bytes nothing is known: so a clause about a real file is the one for each `B`, with "
    "the kit's argument that the files' real bytes are such a `B` (`sqlite_disk/README.md`). `serve` is the theorem "
    "for a stream over any register, `in_memory` and `adopt` make one. `act` is the program, from its words to its "
    "exit status. `verify` and `rebuild` compare a register with its own commands."
)

KIT_ABOUT = (
    "These are named above and not unfolded. Each is a definition of the kit, or a type or a trait of one of its "
    "crates."
)

EXAMPLES_ABOUT = (
    "Examples are lemmas, in `kcr_script` and `kcr_worked`: the prover computes the definitions that they name, and the "
    "answers stand there in words of their own. They lead to {shown} of the "
    "definitions with a value. Each of these stands behind the example that leads to its name by the fewest names "
    "between. Cases for a kind of command are followed only if the example has such a command. The names do not "
    "show which of its other cases a definition takes. The other {none} are shown by cases of `tests/cases` and by "
    "other tests: the program is proved equal to its definitions, so what tests its answers tests the definitions "
    "too. `tools/check.py` computes the answers of the cases by a reading of the rules of its own. Facts and types "
    "are not listed; `kcr_worked` has examples of facts that no code computes."
)
