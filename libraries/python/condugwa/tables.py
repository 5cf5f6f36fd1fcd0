"""Tables for notebooks and for pandas."""

import html
import typing

if typing.TYPE_CHECKING:
    import pandas

    from condugwa.accounts import Account


def html_table(rows: "typing.Iterable[tuple[str, object]]") -> str:
    """A table in HTML: a row for each name and its value; a value None has no row."""
    cells = (
        f"<tr><th style='text-align:left'>{html.escape(name)}</th><td>{html.escape(str(value))}</td></tr>"
        for name, value in rows
        if value is not None
    )
    return f"<table>{''.join(cells)}</table>"


def html_rows(names: "typing.Sequence[str]", rows: "typing.Iterable[typing.Sequence[object]]") -> str:
    """A table in HTML with a name above each column; a value None leaves its cell empty."""
    head = "".join(f"<th>{html.escape(name)}</th>" for name in names)
    body = "".join(
        f"<tr>{''.join(f'<td>{html.escape(str(value)) if value is not None else str()}</td>' for value in row)}</tr>" for row in rows
    )
    return f"<table><tr>{head}</tr>{body}</table>"


def accounts_frame(accounts: "typing.Iterable[Account]") -> "pandas.DataFrame":
    """Accounts as a table of pandas: a row for each, and the columns of `Account`, with `cost` and the word that it stored.

    Raises ImportError where pandas is not installed.
    """
    try:
        import pandas
    except ImportError:
        raise ImportError("accounts_frame needs pandas: pip install pandas, or Debian's package python3-pandas") from None
    return pandas.DataFrame([_row(account) for account in accounts], columns=_COLUMNS)


_COLUMNS = ["clock", "at", "label", "order", "find", "take", "seek", "act", "cost", "before", "after", "stored_at", "stored", "printed", "passed"]


def _row(account: "Account") -> "list[object]":
    stored = account.stored
    places = (stored.address, stored.after.digits) if stored else (None, None)
    values = (getattr(account, name) for name in _COLUMNS[:11])
    return [*values, *places, account.printed, account.passed]
