"""Rupees as people write them, and whole paise as the programs do."""

CEILING = 10_000_000_000_000


class BadAmount(ValueError):
    """What is wrong with an amount, in words."""


def digits(amount: str) -> str:
    """The paise of an amount in rupees, as digits without zeros in front."""
    whole, dot, part = amount.partition(".")
    if not dot:
        joined = whole + "00"
    elif len(part) == 2:
        joined = whole + part
    elif len(part) == 1:
        joined = whole + part + "0"
    else:
        raise BadAmount(_wrong(amount, whole, part))
    if "," in whole:
        if not _is_grouped(whole):
            raise BadAmount(_wrong(amount, whole, part))
        joined = joined.replace(",", "")
    if not (joined.isascii() and joined.isdigit() and whole):
        raise BadAmount(_wrong(amount, whole, part))
    joined = joined.lstrip("0") or "0"
    if len(joined) > 13 and (len(joined) > 14 or int(joined) > CEILING):
        raise BadAmount(f"{amount} is above the ceiling of {rupees(CEILING)}")
    return joined


def paise(amount: str) -> int:
    """The paise of an amount in rupees."""
    return int(digits(amount))


def signed(amount: str) -> int:
    """The paise of a figure that may be below 0."""
    return -paise(amount[1:]) if amount.startswith("-") else paise(amount)


def rupees(amount: int) -> str:
    """An amount of paise in rupees, with Indian grouping: 1,00,000.00."""
    if amount < 0:
        return "-" + rupees(-amount)
    said = f"{amount:03d}"
    return f"{grouped(said[:-2])}.{said[-2:]}"


def grouped(whole: str) -> str:
    """Digits with a comma before the last three, and before each two ahead of them."""
    if len(whole) <= 3:
        return whole
    head, said = whole[:-3], whole[-3:]
    while len(head) > 2:
        head, said = head[:-2], f"{head[-2:]},{said}"
    return f"{head},{said}"


def _is_grouped(whole: str) -> bool:
    """Whether commas stand as 1,00,000 has them, or as 100,000."""
    commas = whole.count(",")
    indian = whole[-4::-3] == "," * commas
    thousands = whole[-4::-4] == "," * commas
    return (indian or thousands) and whole[0] != ","


def _wrong(amount: str, whole: str, part: str) -> str:
    if amount.startswith("-"):
        return f"{amount} is below 0"
    plain = whole.replace(",", "")
    if not (plain.isascii() and plain.isdigit()) or (part and not part.isdigit()):
        return f"{amount} is no amount in rupees"
    if len(part) > 2:
        return f"{amount} has more than two decimals: an amount ends with whole paise"
    if "," in whole and not _is_grouped(whole):
        return f"in {amount} the commas stand wrong: write {grouped(plain.lstrip('0') or '0')}, or no commas"
    return f"{amount} is no amount in rupees"
