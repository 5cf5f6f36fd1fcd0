"""Accounts, panels and profiles are read from the replies of examples/for-programs-json.told, which the whole check compares with the program's."""

import json
import pathlib

import pytest

from condugwa import accounts, panels, profiles, records

TOLD = (pathlib.Path(__file__).resolve().parents[3] / "examples" / "for-programs-json.told").read_text().split("\n")


def replies_with(key: str) -> "list[str]":
    """The records of the session's replies that begin with a key."""
    return [line for line in TOLD if line.startswith(f'{{"{key}":')]


def test_accounts_are_read():
    first, second, third = accounts.accounts_of(replies_with("clock"))
    assert (first.clock, first.at, first.label, first.order) == (0, "0000", None, "b 0003")
    assert (first.find, first.take, first.seek, first.act, first.cost) == (64, 1, 26, 1, 92)
    assert (first.before, first.after, first.stored) == ("00000000", "00000008", None)
    assert second.stored == accounts.Stored("0004", None, "00000000", "00000008")
    assert second.put_there == accounts.PutThere(None, None, 0, None, "z 0000")
    assert second.stored is not None and (second.stored.after.number(), second.stored.after.order) == (4, "z 0002")
    assert third.clock + third.cost == 213
    assert (third.put_there, third.printed, third.passed) == (None, None, 0)
    assert not any(account.in_register for account in (first, second, third))


ORDER = {"clock": 228868, "find": 31, "take": 1, "seek": 42, "act": 1, "before": "0000000q", "after": "00000054"}


def account_with(**fields: object) -> accounts.Account:
    named = {key.replace("_", "-"): value for key, value in fields.items()}
    (account,) = accounts.accounts_of([json.dumps({**ORDER, "stored": None, **named})])
    return account


def test_labels_and_details_are_read():
    account = account_with(
        at="1011 get1",
        order="b 1130 table",
        stored="1131 table+1",
        found="00000006",
        found_order="z 0001",
        found_number=3,
        left="80000000",
        left_number=-1073741824,
        printed=3,
        sign=" ",
        passed=4,
    )
    assert (account.at, account.label, account.order, account.cost) == ("1011", "get1", "b 1130 table", 75)
    assert (account.in_register, account.printed, account.passed) == (False, 3, 4)
    assert account.stored is not None
    assert (account.stored.label, account.stored.after) == ("table+1", "80000000")
    assert account.stored.after.number() == -1073741824


@pytest.mark.parametrize(
    ("fields", "put_there"),
    [
        ({"put_by": "y 0001", "put_at": "0000", "put_clock": 0, "put_ago": 1, "put_over": "u 0005"}, ("y 0001", "0000", 0, 1, "u 0005")),
        (
            {"put_by": "r 0017 exit", "put_at": "0064 call", "put_clock": 90, "put_ago": 12, "put_over": "z 0000"},
            ("r 0017 exit", "0064", 90, 12, "z 0000"),
        ),
        (
            {"put_by": "h 0136", "put_at": "register", "put_clock": 69, "put_ago": 2, "put_over": "00000008 = 4"},
            ("h 0136", None, 69, 2, "00000008 = 4"),
        ),
        ({"put_by": "hand", "put_clock": 5, "put_over": "z 0000"}, (None, None, 5, None, "z 0000")),
    ],
)
def test_what_put_an_order_there_is_read(fields, put_there):
    account = account_with(at="0001", order="u 0000", **fields)
    assert account.put_there == accounts.PutThere(*put_there)


def test_what_stood_at_no_address_is_read():
    reading = account_with(status="reading")
    assert (reading.at, reading.order, reading.in_register) == (None, "reading", False)
    executing = account_with(at="register", order="z 0000")
    assert (executing.at, executing.label, executing.in_register) == (None, None, True)


def test_a_key_that_is_not_known_is_passed_over():
    assert account_with(order="z 0000", later=5) == account_with(order="z 0000")


@pytest.mark.parametrize("lines", [['{"order":"z 0000"}'], ['{"clock":0}'], ["clock 0"], [""], ["[]"], [json.dumps({**ORDER, "at": "0000"})]])
def test_other_lines_are_no_account(lines):
    with pytest.raises(ValueError):
        accounts.accounts_of(lines)


def test_records_are_read():
    lines = ['{"orders":2,"label":null}', '{"place":"0000 a\\"b","times":"9007199254740993"}']
    told = records.records_of(lines)
    assert told == [{"orders": 2}, {"place": '0000 a"b', "times": "9007199254740993"}]
    assert records.number_of(told[1], "times") == 2**53 + 1
    assert records.records_of([]) == []


def test_a_panel_is_read():
    (reply,) = replies_with("counter")
    assert panels.Panel.of_data(reply) == panels.Panel("0003", "00000008", "00000000", "halted stop", "normal", "uuuuuu", False, 0, 213)
    moved = {**json.loads(reply), "bp8": "down", "reader": "on", "tape": 17}
    panel = panels.Panel.of_data(json.dumps(moved))
    assert (panel.switches, panel.reading, panel.tape) == ("uuduuu", True, 17)
    assert [name for name, is_down in panel.down.items() if is_down] == ["bp8"]


@pytest.mark.parametrize("reply", ["", "clock 94\n", '{"clock":94}\n', '{"counter":"0000"}\n{"counter":"0000"}\n', '{"counter":"0000","bp8":"down"}\n'])
def test_another_reply_is_no_panel(reply):
    with pytest.raises(ValueError):
        panels.Panel.of_data(reply)


def test_a_profile_is_read():
    profile = profiles.profile_of([*replies_with("orders"), *replies_with("place")])
    assert (profile.orders, profile.times, profile.elsewhere) == (3, 213, 0)
    assert profile.find + profile.take + profile.seek + profile.act == profile.times
    assert profile.places == (profiles.Place("0000", None, 92), profiles.Place("0001", None, 73), profiles.Place("0002", None, 48))


@pytest.mark.parametrize("lines", [[], ['{"ran":"3 rest"}'] * 6, ['{"place":"0000","times":3}'], ['{"orders":3}']])
def test_other_lines_are_no_profile(lines):
    with pytest.raises(ValueError):
        profiles.profile_of(lines)
