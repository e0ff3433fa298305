"""How a desk stands: the tree, or one account with its amounts and what could be taken out."""

from dataclasses import asdict
from pathlib import Path
from typing import Any

from desk import figures
from desk.amounts import rupees
from desk.figures import Holding, Holdings, Standing
from desk.names import Names
from desk.scratch import Scratch
from desk.stops import Failed
from desk.tables import table
from desk.words import KINDS

SORTS = {"cm": "clearing member", "tm": "trading member", "client": "client", "cp": "custodial participant"}


def tree(standings: list[Standing]) -> list[tuple[int, Standing]]:
    """The accounts in the tree's order, each with its depth: CM, each TM with its clients, then CPs."""
    under: dict[int, list[Standing]] = {}
    for each in standings:
        if each.sort == "client":
            under.setdefault(each.tm, []).append(each)
    placed = [(0, each) for each in standings if each.sort == "cm"]
    for each in standings:
        if each.sort == "tm":
            placed.append((1, each))
            placed += [(2, client) for client in under.pop(each.number, [])]
    placed += [(2, client) for clients in under.values() for client in clients]
    return placed + [(1, each) for each in standings if each.sort == "cp"]


def use(holding: Holding) -> str:
    """Use in percent of collateral, as `holdings` has it."""
    return "no cover" if holding.use is None else f"{holding.use}%"


def all_lines(standings: list[Standing], holdings: Holdings, names: Names) -> list[str]:
    """`loft show DESK`."""
    rows = [["account", "no.", "collateral", "blocked", "deemed", "free", "use", "mode"]]
    for depth, each in tree(standings):
        name = "  " * depth + names.name(each.number)
        if each.state != "live":
            rows.append([name, str(each.number), *[""] * 5, "retired"])
            continue
        amounts = map(rupees, (each.collateral, each.blocked, each.deemed, each.free))
        mode = each.mode if each.sort in ("cm", "tm") else ""
        rows.append([name, str(each.number), *amounts, use(holdings.accounts[each.number]), mode])
    return [*table(rows), "", shortfall(standings)]


def shortfall(standings: list[Standing]) -> str:
    """What the clearing member is short of."""
    short = next(each.shortfall for each in standings if each.sort == "cm")
    return f"The clearing member is short of {rupees(short)}." if short else "There is no shortfall."


def asked(scratch: Scratch, book: Path, holdings: Holdings, number: int) -> dict[str, tuple[int, int]]:
    """How much would pass of each way to take something out: a refusal or 0, and the amount. The records asked of have a serial
    that isn't the next, so that `explain` answers each at the book as it is."""
    ways = [f"{word} {number} {kind} 1" for word in ("handback", "release") for kind in KINDS]
    ways += [f"unpledge {number} 1", f"margin {number} 1"]
    serial = (holdings.serial + 1) % 65_536
    text = "".join(f"serial {serial} {way}\n" for way in ways).encode()
    day = scratch.file("day", scratch.programs.run("write", scratch.file("text", text), book))
    if scratch.programs.run("read", book, given=day) != text:
        raise Failed("write and read don't agree")
    said = scratch.programs.run("explain", book, given=day)
    answers = [line.split() for line in said.decode().splitlines()[:-1]]
    return {way.rpartition(" ")[0]: (int(answer[5]), int(answer[6])) for way, answer in zip(ways, answers)}


def _passes(most: tuple[int, int]) -> str:
    refusal, amount = most
    return rupees(amount) if refusal in (0, 11) else f"0.00 ({refusal})"


def one_lines(standing: Standing, holdings: Holdings, names: Names, most: dict[str, tuple[int, int]]) -> list[str]:
    """`loft show DESK ACCOUNT`."""
    number = standing.number
    held = holdings.accounts[number]
    under = f" of {names.name(standing.tm)}" if standing.sort == "client" else ""
    head = f"{names.name(number)}, number {number}, {SORTS[standing.sort]}{under}, {standing.state}"
    if standing.state != "live":
        return [head]
    rows = [["", "received", "allocated", "may be handed back", "may be released"]]
    for place, kind in enumerate(KINDS):
        passes = [_passes(most[f"{word} {number} {kind}"]) for word in ("handback", "release")]
        rows.append([kind, rupees(held.received[place]), rupees(held.allocated[place]), *passes])
    rows.append(["pledged", "", rupees(held.pledged), "", _passes(most[f"unpledge {number}"])])
    rest = [["margin", rupees(held.margin)], ["may rise to", _passes(most[f"margin {number}"])]]
    rest += [[word, rupees(getattr(standing, word))] for word in ("collateral", "need", "blocked", "deemed", "free")]
    rest.append(["use", use(held)])
    if standing.sort in ("cm", "tm"):
        rest.append(["risk reduction mode", standing.mode])
    if standing.sort == "cm":
        rest.append(["shortfall", rupees(standing.shortfall)])
    return [head, "", *table(rows), "", *table(rest)]


def as_json(standings: list[Standing], holdings: Holdings, names: Names) -> dict[str, Any]:
    """The same for another program: amounts in paise, use in percent as text."""
    accounts = []
    for _, each in tree(standings):
        held = holdings.accounts[each.number]
        said = asdict(each) | {"name": names.name(each.number), "use": None if held.use is None else str(held.use)}
        said |= {"received": dict(zip(KINDS, held.received)), "allocated": dict(zip(KINDS, held.allocated))}
        accounts.append(said | {"pledged": held.pledged, "margin": held.margin})
    return {"unit": "paise", "serial": holdings.serial, "next_number": holdings.number, "accounts": accounts}


def most_json(most: dict[str, tuple[int, int]]) -> list[dict[str, Any]]:
    """How much would pass, for another program."""
    return [{"record": way, "refusal": refusal, "amount": amount} for way, (refusal, amount) in most.items()]


def look(scratch: Scratch, book: Path) -> tuple[list[Standing], Holdings]:
    """What `standings` and `holdings` say of a book."""
    return figures.standings(scratch, book), figures.holdings(scratch, book)
