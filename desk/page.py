"""One self-contained page: the tree with bars, who is near risk reduction mode, refusals in words, the close-out."""

from dataclasses import dataclass, field
from decimal import Decimal
from html import escape

from desk.amounts import rupees
from desk.figures import Holdings, Payment, Standing
from desk.names import Names
from desk.showing import shortfall, tree, use
from desk.style import CSS, PATTERNS

# Off is below 85%; from here on an account is near.
NEAR = Decimal(80)
MOST_REFUSALS = 200


@dataclass
class Refusal:
    """A refused record: its posting, the clerk's words, and why."""

    posting: int
    file: str
    words: str
    why: str


@dataclass
class Sheet:
    """All that a page shows."""

    title: str
    moment: str
    standings: list[Standing]
    holdings: Holdings
    names: Names
    day: str
    refusals: list[Refusal] = field(default_factory=list)
    refusal: int = 0
    payments: list[Payment] = field(default_factory=list)
    uncovered: int | None = None


def html(sheet: Sheet) -> str:
    """The page."""
    parts = [
        f"<h1>{escape(sheet.title)}</h1>",
        f'<p class="soft">{escape(sheet.moment)}. Amounts in rupees.</p>',
        _shortfall(sheet),
        _tree(sheet),
        _near(sheet),
        _refusals(sheet),
        _closeout(sheet) if sheet.uncovered is not None else "",
    ]
    return (
        '<!doctype html>\n<html lang="en"><head><meta charset="utf-8">'
        '<meta name="viewport" content="width=device-width, initial-scale=1">'
        f"<title>{escape(sheet.title)}</title><style>{CSS}</style></head>\n<body>{PATTERNS}\n" + "\n".join(parts) + "\n</body></html>\n"
    )


def _figure(number: int, what: str, paise: int, label: str = "") -> str:
    return f'<td data-label="{label or what}" data-account="{number}" data-figure="{what}">{rupees(paise)}</td>'


def _shortfall(sheet: Sheet) -> str:
    cm = next(each for each in sheet.standings if each.sort == "cm")
    kind = "told short" if cm.shortfall else "told"
    return f'<p class="{kind}" data-account="0" data-figure="shortfall">{escape(shortfall(sheet.standings))}</p>'


def bar(parts: list[tuple[str, int]], whole: int, label: str) -> str:
    """Parts of a whole side by side, each by its pattern."""
    at, said = 0.0, []
    for name, amount in parts:
        width = 100 * amount / whole if whole else 0
        if width:
            said.append(f'<rect data-part="{name}" x="{at:.3f}%" width="{width:.3f}%" height="18" fill="url(#{name})" stroke="#1c2330"/>')
        at += width
    frame = "" if said else '<line x1="0" x2="100%" y1="17" y2="17" stroke="#c9ced8"/>'
    return f'<svg height="18" role="img" aria-label="{escape(label)}">{frame}{"".join(said)}</svg>'


def key(parts: dict[str, str]) -> str:
    """What each pattern means."""
    said = [
        f'<span><svg height="16"><rect width="34" height="16" fill="url(#{name})" stroke="#1c2330"/></svg>{escape(words)}</span>'
        for name, words in parts.items()
    ]
    return f'<div class="key">{"".join(said)}</div>'


def _tree(sheet: Sheet) -> str:
    rows = [_row(sheet, depth, each) for depth, each in tree(sheet.standings)]
    titles = "".join(f"<th>{title}</th>" for title in ("collateral", "blocked", "deemed", "free", "use", "mode"))
    return (
        "<h2>How the accounts stand</h2>"
        + key({"blocked": "blocked", "free": "free", "deemed": "deemed: blocked one level up"})
        + f'<table class="tree"><thead><tr><th class="l">account</th><th class="l">its collateral, and what it is deemed</th>{titles}</tr></thead>'
        + f"<tbody>{''.join(rows)}</tbody></table>"
    )


def _row(sheet: Sheet, depth: int, each: Standing) -> str:
    name = f'<th scope="row">{escape(sheet.names.name(each.number))} <small>{each.number}</small></th>'
    if each.state != "live":
        return f'<tr class="d{depth} retired">{name}<td class="bar"></td><td class="wide" colspan="6">retired</td></tr>'
    parts = [("blocked", each.blocked), ("free", each.free), ("deemed", each.deemed)]
    label = ", ".join(f"{part} {rupees(amount)}" for part, amount in parts)
    drawn = bar(parts, each.collateral + each.deemed, label)
    amounts = "".join(_figure(each.number, what, getattr(each, what)) for what in ("collateral", "blocked", "deemed", "free"))
    said = f'<td data-label="use" data-account="{each.number}" data-figure="use">{use(sheet.holdings.accounts[each.number])}</td>'
    mode = each.mode if each.sort in ("cm", "tm") else ""
    told = f'<td{" data-label=mode" if mode else ""} data-account="{each.number}" data-figure="mode" class="{mode}">{mode}</td>'
    return f'<tr class="d{depth}">{name}<td class="bar">{drawn}</td>{amounts}{said}{told}</tr>'


def near(sheet: Sheet) -> list[Standing]:
    """The TMs and the CM that are in the mode or near it, the highest use first."""

    def height(each: Standing) -> Decimal:
        held = sheet.holdings.accounts[each.number].use
        return Decimal("Infinity") if held is None else held

    members = [each for each in sheet.standings if each.sort in ("cm", "tm") and each.state == "live"]
    return sorted((each for each in members if each.mode == "on" or height(each) >= NEAR), key=height, reverse=True)


def _near(sheet: Sheet) -> str:
    head = "<h2>Risk reduction mode</h2><p>It goes on at a use of 90% of collateral and off below 85%. "
    found = near(sheet)
    if not found:
        return head + f"No member is in it, and none has a use of {NEAR}% or more.</p>"
    rows = []
    for each in found:
        held = sheet.holdings.accounts[each.number]
        words = "in risk reduction mode" if each.mode == "on" else "near it"
        rows.append(
            f'<tr><th scope="row">{escape(sheet.names.name(each.number))} <small>{each.number}</small></th>'
            f'<td class="bar">{_gauge(held.use)}</td><td data-label="use" data-account="{each.number}" data-figure="use">{use(held)}</td>'
            f'<td class="l {each.mode}">{words}</td></tr>'
        )
    return head + f"Those in it, and those with a use of {NEAR}% or more; the two marks are 85% and 90%, and the scale ends at 120%:</p><table><tbody>{''.join(rows)}</tbody></table>"


def _gauge(held: Decimal | None) -> str:
    """Use on a scale to 120%, with marks at 85 and 90."""
    width = min(float(held), 120.0) / 1.2 if held is not None else 100.0
    marks = "".join(f'<line x1="{at / 1.2:.2f}%" x2="{at / 1.2:.2f}%" y1="-3" y2="21" stroke="#1c2330" stroke-width="2"/>' for at in (85, 90))
    frame = '<rect width="100%" height="18" fill="#fff" stroke="#c9ced8"/>'
    return f'<svg height="18" role="img" aria-label="use">{frame}<rect data-part="use" width="{width:.3f}%" height="18" fill="url(#use)" stroke="#1c2330"/>{marks}</svg>'


def _refusals(sheet: Sheet) -> str:
    head = f"<h2>Refused on {escape(sheet.day)}</h2>"
    if not sheet.refusals:
        return head + "<p>Nothing was refused.</p>"
    rows = [
        f'<tr><td data-label="posting">{each.posting}</td><td class="l" data-label="file">{escape(each.file)}</td>'
        f'<td class="l wide"><code>{escape(each.words)}</code></td><td class="l wide">{escape(each.why)}</td></tr>'
        for each in sheet.refusals[:MOST_REFUSALS]
    ]
    titles = '<th>posting</th><th class="l">file</th><th class="l">record</th><th class="l">why</th>'
    more = len(sheet.refusals) - MOST_REFUSALS
    told = f"<p>{more:,} more are in the trail.</p>" if more > 0 else ""
    return head + f'<table class="refused"><thead><tr>{titles}</tr></thead><tbody>{"".join(rows)}</tbody></table>{told}'


# The purses, as an account sees them and as all accounts do.
ALL_PAID = {"own": "paid from accounts' own collateral", "tm": "paid from TMs' collateral", "cm": "paid from the CM's collateral", "uncovered": "uncovered"}
PAID = {"own": "from its own collateral", "tm": "from its TM's", "cm": "from the CM's", "uncovered": "uncovered"}


def _closeout(sheet: Sheet) -> str:
    head = "<h2>The close-out: who pays what</h2>"
    if sheet.refusal:
        return head + f'<p class="told">The close-out is refused ({sheet.refusal}).</p>'
    lost = [each for each in sheet.payments if each.loss]
    if not lost:
        return head + "<p>There is no loss.</p>"
    rows = []
    for each in lost:
        parts = [(name, getattr(each, name)) for name in PAID]
        label = ", ".join(f"{PAID[name]} {rupees(amount)}" for name, amount in parts)
        amounts = "".join(_figure(each.number, f"paid-{name}", amount, PAID.get(name, name)) for name, amount in [("loss", each.loss), *parts])
        rows.append(
            f'<tr><th scope="row">{escape(sheet.names.name(each.number))} <small>{each.number}</small></th>'
            f'<td class="bar">{bar(parts, each.loss, label)}</td>{amounts}</tr>'
        )
    titles = "".join(f"<th>{title}</th>" for title in ("loss", *PAID.values()))
    table = f'<table class="paid"><thead><tr><th class="l">account</th><th class="l"></th>{titles}</tr></thead><tbody>{"".join(rows)}</tbody></table>'
    return head + _waterfall(lost, sheet.uncovered or 0) + key(PAID) + table


def _waterfall(lost: list[Payment], uncovered: int) -> str:
    """All losses, then what each purse takes off them, down to what is left."""
    whole = sum(each.loss for each in lost)
    steps = [("loss", "all losses", whole, 0)]
    at = 0
    for name, words in ALL_PAID.items():
        amount = uncovered if name == "uncovered" else sum(getattr(each, name) for each in lost)
        steps.append((name, words, amount, at))
        at += amount
    rows = []
    for place, (name, words, amount, start) in enumerate(steps):
        x, width, y = 100 * start / whole, 100 * amount / whole, 46 * place
        drawn = f'<rect data-part="{name}" x="{x:.3f}%" y="{y + 18}" width="{max(width, 0.15):.3f}%" height="20" fill="url(#{name})" stroke="#1c2330"/>'
        rows.append(f'<text y="{y + 13}">{escape(words)}: <tspan data-figure="total-{name}">{rupees(amount)}</tspan></text>{drawn}')
    return f'<figure style="margin:.6rem 0"><svg class="waterfall" height="{46 * len(steps)}" role="img" aria-label="waterfall">{"".join(rows)}</svg></figure>'
