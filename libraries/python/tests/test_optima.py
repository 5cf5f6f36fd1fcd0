"""What `json optimum-data` tells is read from records as docs/FORMATS.md describes them."""

import json

import pytest

from condugwa import optima

TOTALS = json.dumps({"orders": 42, "times": 2910, "together": 320})


def gain(address, sector, best, saved, freedom, label=None):
    """The record of a word."""
    return json.dumps({"word": address, "label": label, "sector": sector, "best": best, "saved": saved, "freedom": freedom})


WORDS = [
    TOTALS,
    gain("0021", 21, 0, 256, "free", "start"),
    gain("0020", 20, 19, 64, "free"),
    gain("0009", 9, 26, 256, "performed"),
    gain("0100", 0, 24, 64, "changed"),
]


def word(freedom, **changed):
    """The record of a word whose best sector is 15; a field that is changed to None has no value."""
    record = {
        "orders": 42,
        "times": 2910,
        "word": "0000",
        "label": "start",
        "sector": 0,
        "best": 15,
        "saved": 64,
        "freedom": freedom,
        "freedom-sentence": "it may be moved" if freedom == "free" else "it is not to be moved",
        "numbers": list(range(100, 164)),
    }
    return [json.dumps({**record, **changed})]


def test_the_words_of_a_run_are_read():
    optimum = optima.optimum_of(WORDS)
    assert (optimum.orders, optimum.times, optimum.together) == (42, 2910, 320)
    assert optimum.free == (optima.Gain("0021", "start", 21, 0, 256), optima.Gain("0020", None, 20, 19, 64))
    assert optimum.performed == (optima.Gain("0009", None, 9, 26, 256),)
    assert optimum.named_by_changed == (optima.Gain("0100", None, 0, 24, 64),)


def test_a_run_without_an_order_has_no_words():
    assert optima.optimum_of(['{"orders":0,"times":0,"together":0}']) == optima.Optimum(0, 0, (), 0, (), ())


def test_a_word_is_read():
    seen = optima.word_optimum_of(word("free"))
    assert (seen.orders, seen.times, seen.best, seen.saved) == (42, 2910, 15, 64)
    assert seen.by_sector == tuple(range(100, 164))


@pytest.mark.parametrize("freedom", ["performed", "changed", "unnamed"])
@pytest.mark.parametrize(("numbers", "sectors"), [(list(range(64)), 64), ([140] * 64, 0)])
def test_a_word_that_may_not_be_moved_has_no_best_sector(freedom, numbers, sectors):
    seen = optima.word_optimum_of(word(freedom, numbers=numbers))
    assert (len(seen.by_sector), seen.best, seen.saved) == (sectors, None, 0)


@pytest.mark.parametrize(
    "lines",
    [[], ["ran 3 rest"], ['{"ran":"3 rest"}'], WORDS[1:], [*WORDS, gain("0000", 0, 1, 2, "none")], [*WORDS, "line"], [*WORDS, "{}"]],
)
def test_other_lines_are_no_optimum(lines):
    with pytest.raises(ValueError):
        optima.optimum_of(lines)


@pytest.mark.parametrize("lines", [[], ["ran 3 rest"], word("free", numbers=None), word("free", numbers=[1, 2, 3]), word("free", best=None), WORDS])
def test_other_lines_are_no_optimum_of_a_word(lines):
    with pytest.raises(ValueError):
        optima.word_optimum_of(lines)
