"""Words: their digits, numbers, fractions and orders, both ways, compared with what the laboratory says of them."""

import fractions
import json

import pytest

import condugwa
from condugwa import Word

DIGITS = ["00000000", "00000002", "00000018", "7wwwwwwq", "80000000", "wwwwwwwq", "wwwwwwwj", "000f0100", "0j000000", "kqgf1234"]


@pytest.fixture(scope="module")
def laboratory():
    with condugwa.Laboratory() as opened:
        yield opened


@pytest.mark.parametrize("digits", DIGITS)
def test_a_word_stands_for_what_the_laboratory_says(laboratory, digits):
    word = Word(digits)
    laboratory.put("0100", word)
    shown = json.loads(laboratory.answer("json show-data 0100 1"))
    assert (word.digits, word.number(), word.order) == (shown["digits"], shown["number"], shown["order"])
    assert abs(word.fraction - float(shown["fraction"])) < 1e-9
    for point in (0, 10, 30):
        told = laboratory.answer(f"numbers 0100 1 {point}").split()
        assert abs(word.number(point) - float(told[-1])) < 1e-9
    assert [type(word.number(point)) for point in (0, 30)] == [int if word[1:] == "0000000" else float, int]


@pytest.mark.parametrize("digits", DIGITS)
def test_a_word_comes_back_from_what_it_stands_for(digits):
    word = Word(digits)
    assert Word.of_number(word.number()) == word
    assert Word.of_fraction(word.fraction) == word
    if word.order is not None:
        assert Word.of_order(word.order) == word


@pytest.mark.parametrize(("number", "point"), [(3, 5), (-1000, 10), (1073741823, 30), (-1, 0)])
def test_a_number_is_put_as_the_monitor_puts_it(laboratory, number, point):
    laboratory.answer(f"put 0100 = {number} {point}")
    assert laboratory.words("0100")["0100"] == Word.of_number(number, point)
    assert laboratory.numbers("0100", 1, point) == {"0100": number}


@pytest.mark.parametrize("fraction", [".5", "-.5", ".123456789", "-.987654321"])
def test_a_fraction_is_put_as_the_monitor_puts_it(laboratory, fraction):
    laboratory.answer(f"put 0100 {fraction}")
    assert laboratory.words("0100")["0100"] == Word.of_fraction(fractions.Fraction(fraction))


def test_a_word_is_its_digits():
    word = Word("0000000f")
    assert (str(word), f"{word}", repr(word), word == "0000000f") == ("0000000f", "0000000f", "Word('0000000f')", True)
    assert type(word.digits) is str
    assert (Word("00000007").order, Word("wwwwwwww").bits) == (None, 2**32 - 1)
    assert (condugwa.word_value("00000018"), condugwa.word_value("wwwwwwwj")) == (12, -2)


@pytest.mark.parametrize("value", [None, True, [], 3.5j, b"00000000"])
def test_a_value_of_another_type_is_named(laboratory, value):
    with pytest.raises(TypeError, match="a word is a text of digits or an order, a whole number, or a fraction, and not"):
        laboratory.put("0000", value)


@pytest.mark.parametrize(
    ("made", "said"),
    [
        (lambda: Word(12), "a text of eight digits"),
        (lambda: Word.of_number(1.5), "a whole number, and not 1.5"),
        (lambda: Word.of_number(1, 2.0), "a point is a whole number"),
        (lambda: Word.of_fraction("1"), "a fraction is a float or a Fraction"),
        (lambda: Word.of_order(5), "an order is a text"),
    ],
)
def test_a_wrong_type_is_named(made, said):
    with pytest.raises(TypeError, match=said):
        made()


@pytest.mark.parametrize(
    ("made", "said"),
    [
        (lambda: Word("0000000a"), "0123456789fgjkqw"),
        (lambda: Word("000"), "eight of the digits"),
        (lambda: Word.of_number(2**30), "from -1073741824 to 1073741823"),
        (lambda: Word.of_number(1, 31), "from 0 to 30"),
        (lambda: Word.of_fraction(1), "from -1 to below 1"),
        (lambda: Word.of_order("= 5"), "an operation and an address"),
        (lambda: Word.of_order("x 0100"), "an operation and an address"),
        (lambda: Word.of_order("00000002"), "an operation and an address"),
        (lambda: Word.of_order("b 0100\n"), "an operation and an address"),
    ],
)
def test_what_is_no_word_is_refused(made, said):
    with pytest.raises(ValueError, match=said):
        made()


def test_a_fraction_near_one_is_the_greatest_word():
    assert Word.of_fraction(1 - 2**-40) == "7wwwwwwq"
