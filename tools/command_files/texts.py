"""What manual pages say beyond help texts; pages of other commands are written by hand."""

from dataclasses import dataclass


@dataclass(frozen=True)
class Text:
    """The purpose for the head of a page, paragraphs, what status 1 means, and other pages."""

    purpose: str
    paragraphs: tuple[str, ...]
    refused: str
    see: tuple[str, ...]


SIDE_FILE = (
    "The side file has the name of the deck with .json at its end. It has the calendar, the unit of"
    " durations, currency, and for each code of the deck the task that it stands for. A deck"
    " written by hand needs none."
)
WHOLE = (
    "A file is written completely or not at all: if the command is interrupted, an older one"
    " stays."
)

TEXTS = {
    "pert-import": Text(
        "makes a deck from a list or a planner's file",
        (
            "A deck has no place for some of what planners know, such as calendars of single tasks."
            " Each thing that is not carried over is named with its task, its kind, and where it is"
            " in the file. The deck is written only if all of these kinds are accepted.",
            "After that, the dates that pert(1) computes are compared with those of the file, and"
            " the number of tasks that differ is reported.",
            SIDE_FILE,
            WHOLE,
        ),
        "The file cannot be used; or something is not carried over and not accepted; or dates"
        " differ and --strict is given.",
        ("pert-days(1)", "pert-schedule(1)", "pert-export(1)"),
    ),
    "pert-days": Text(
        "turns the dates of a deck into counts of working time, and back",
        (
            "pert(1) counts one day for each unit of a duration. If durations are working days or"
            " hours, its dates are right only for a deck whose own dates are counts too: the first"
            " day, and one day more for each unit of working time since then. This command writes"
            " that deck, and turns the dates of a report back into days of the calendar.",
            SIDE_FILE,
            "The other commands of the companion count by themselves: they take the deck as it is.",
        ),
        "The deck, its side file or the report cannot be used.",
        ("pert-import(1)", "pert-schedule(1)"),
    ),
    "pert-portfolio": Text(
        "makes one page of several projects",
        (
            "The page has one row for each deck. Each project has a unit and a calendar of its own:"
            " no figure adds or averages the performance of several projects, and there is no curve"
            " of all of them.",
            "Decks are read side by side. What was computed for a deck is kept by the checksum of"
            " the deck, its side file and the programs: a second run computes only what changed.",
            SIDE_FILE,
            WHOLE,
        ),
        "A deck was refused, or a file cannot be read or written. The page is written all the"
        " same if only decks were refused, with their faults.",
        ("pert-report(1)", "pert-schedule(1)"),
    ),
    "pert-schedule": Text(
        "makes a dated schedule of a deck",
        (SIDE_FILE, WHOLE),
        "The deck or its side file cannot be used.",
        ("pert-export(1)", "pert-report(1)"),
    ),
    "pert-export": Text(
        "writes a schedule for planners, spreadsheets and calendars",
        (SIDE_FILE, WHOLE),
        "The deck or its side file cannot be used, or something cannot be written in this format.",
        ("pert-import(1)", "pert-schedule(1)"),
    ),
    "pert-report": Text(
        "makes the report page of a deck",
        (SIDE_FILE, WHOLE),
        "The deck or its side file cannot be used, or its figures do not agree.",
        ("pert-schedule(1)", "pert-compare(1)"),
    ),
    "pert-ledger": Text(
        "books vouchers on the accounts of a deck",
        (
            "The ledger next to the deck has its name with .ledger.csv at its end. It keeps every"
            " voucher and every amount to go, whole and in the order in which they were brought."
            " The deck has the balance of each account at the close of the data date: a credit"
            " reduces the latest earlier charges of its account.",
            "The data date is the close of a day. Vouchers of that day are in the report, as is"
            " work that was finished on it; vouchers of the next day are not. The ASOF card has the"
            " next morning.",
            "pert-import(1) takes the money of a ledger that is next to the deck that it writes, so"
            " the plan and the vouchers of a month can come in either order.",
            SIDE_FILE,
            WHOLE,
        ),
        "A list cannot be used, or something in it is odd and not accepted; nothing is written.",
        ("pert-import(1)", "pert-compare(1)", "pert-check-status(1)"),
    ),
    "pert-check-status": Text(
        "names what of a state is hard to believe",
        (
            "Nothing that is named is wrong in itself. Each line says what the state has, and what"
            " that does to the estimate or to the forecast: amounts to go of 0 on work that has not"
            " begun, amounts to go on finished work, amounts to go that did not fall by what was"
            " spent, money spent on work that has not begun, finished work with remaining duration,"
            " work out of sequence, percent and remaining duration that disagree, critical work"
            " without progress, and budgets that moved without a row in changes.csv.",
            SIDE_FILE,
        ),
        "The deck or its side file cannot be used; or something is named and --strict is given.",
        ("pert-ledger(1)", "pert-compare(1)"),
    ),
    "pert-desk": Text(
        "opens a folder of projects in the browser",
        (
            "It listens on 127.0.0.1 and prints one address with a token. The first browser that"
            " opens it gets a cookie, and the token is used up. Nobody else can ask: other sites"
            " are told apart by Host and Origin, and names of files never come from the browser.",
            "Projects are the decks of the folder, with their side files and ledgers. What is"
            " edited is kept in a journal in the folder .pert-desk at once, and written into the"
            " deck when you save; what was there before each save is kept there too. States of a"
            " date are in wing.states/ next to wing.csv.",
            "Each step is what a command does. The page History has these commands.",
            "It ends with Ctrl-C, with SIGTERM, or when its terminal is closed, and leaves no"
            " process. If it is killed, unsaved edits are there again when the project is opened,"
            " and a save that had begun is finished.",
            SIDE_FILE,
        ),
        "The folder cannot be opened, or another desk has it open.",
        ("pert-edit(1)", "pert-import(1)", "pert-report(1)", "pert_whatif(1)"),
    ),
    "pert-edit": Text(
        "changes figures of a deck and its side file",
        (
            "A deck and its side file belong together: a duration that is changed in the deck alone"
            " no longer fits. This command changes both, and the budget of a package with a cost."
            " A shortest duration that was the normal one follows it, and so does a single"
            " estimate.",
            "Progress is taken as from a list of progress for pert-ledger(1). A new data date books"
            " the ledger next to the deck again.",
            SIDE_FILE,
            WHOLE,
        ),
        "The deck or its side file cannot be used, or an edit makes no sense or is refused by"
        " pert(1); nothing is written.",
        ("pert-desk(1)", "pert-ledger(1)"),
    ),
}
