"""The calls of a laboratory that take and give values."""

import pytest

import condugwa

SOURCE = "start b x\n a x\n h sum\n z\nx int 5 30\nsum int 0 30\n end start\n"


@pytest.fixture
def laboratory():
    with condugwa.Laboratory() as opened:
        yield opened


@pytest.fixture
def loaded(laboratory):
    laboratory.source(SOURCE)
    laboratory.load()
    laboratory.go("start")
    return laboratory


def test_a_source_is_loaded_run_and_looked_at(laboratory):
    assert laboratory.source(SOURCE) == condugwa.Source(6, "0000")
    assert laboratory.load() > 0
    assert laboratory.labels() == {"start": "0000", "x": "0004", "sum": "0005"}
    laboratory.go("start")
    assert laboratory.run(100) == condugwa.Run(4, "rest")
    assert laboratory.numbers("x", 2) == {"0004": 5, "0005": 10}
    assert laboratory.panel().accumulator.number() == 10


def test_faults_have_line_columns_and_sentence(laboratory):
    with pytest.raises(condugwa.FaultyError) as refusal:
        laboratory.source("start b x\n add x\nx z\n end start")
    (fault,) = refusal.value.faults
    assert (fault.line, fault.kind, fault.columns) == (2, "UnknownOrder", (1, 4))
    assert str(fault).startswith("line 2: there is no such operation: write one of ")
    assert str(refusal.value) == f"? 9 Faults\n{fault}"
    assert isinstance(refusal.value, ValueError)
    # the laboratory goes on
    assert laboratory.source(" z\n end\n") == condugwa.Source(1, None)


def test_a_source_that_is_none_leaves_nothing_open(laboratory):
    with pytest.raises(ValueError, match="a point alone"):
        laboratory.source(" z\n.\n end\n")
    with pytest.raises(TypeError, match="and not int: 5"):
        laboratory.source(5)
    with pytest.raises(condugwa.TooLongError):
        laboratory.source(";" * 5000)
    assert laboratory.panel().clock == 0


def test_a_step_is_one_account_and_none_at_rest(loaded):
    step = loaded.step()
    assert (step.at, step.label, step.order, step.after.number()) == ("0000", "start", "b 0004 x", 5)
    assert loaded.last_run == condugwa.Run(1, "limit")
    assert loaded.last_run.state is None
    assert [loaded.step().at for _ in range(3)] == ["0001", "0002", "0003"]
    assert loaded.step() is None
    assert loaded.last_run == condugwa.Run(0, "rest")


@pytest.mark.parametrize("call", ["run", "trace", "profile", "drum", "optimum"])
def test_each_run_says_what_ended_it(loaded, call):
    getattr(loaded, call)(100)
    assert loaded.last_run == condugwa.Run(4, "rest")
    assert loaded.last_run.state == "a stop order halted the machine: press start to continue"
    assert loaded.last_run.sentence == "4 orders; a stop order halted the machine: press start to continue"


def test_rules_stop_a_run(loaded):
    assert (loaded.break_at("0002"), loaded.watch("sum")) == (0, 1)
    assert loaded.rules() == [condugwa.Rule(0, "break", "0002", None), condugwa.Rule(1, "watch", "0005", "sum")]
    assert loaded.breakpoints() == ["0002"]
    assert loaded.run(100) == condugwa.Run(2, "rule", 0)
    assert loaded.trace(100).run == condugwa.Run(1, "rule", 1)
    loaded.drop(0)
    assert loaded.breakpoints() == []
    with pytest.raises(condugwa.NoRuleError):
        loaded.drop(9)


def test_a_run_waits_for_a_condition(loaded):
    assert loaded.run(100, until="0002") == condugwa.Run(2, "limit", is_met=True)
    assert loaded.run(100, until="sum = 0").is_met is False
    assert loaded.transcript().endswith("run 2\nrun 2\n")
    with pytest.raises(condugwa.FormError):
        loaded.run(100, until="sum = x")
    with pytest.raises(condugwa.FormError):
        loaded.run(100, until="")


def test_why_says_what_put_a_word_there(loaded):
    loaded.answer("press manual")
    loaded.put("6000", 3)
    loaded.go("start")
    loaded.run(100)
    put = loaded.why("sum")
    assert (put.order, put.at, put.orders_ago, put.lost) == ("h 0005", "0002", 2, "z 0000")
    loaded.back(1)
    assert loaded.why("sum").orders_ago == 1
    assert (loaded.why("6000").order, loaded.why("6000").orders_ago) == (None, None)
    assert loaded.why("6001") is None


def test_words_are_put_as_values(laboratory):
    laboratory.put("0100", 3)
    laboratory.put("0101", -3, point=10)
    laboratory.put("0102", 0.5)
    laboratory.put("0103", "b 0100")
    laboratory.put("0104", condugwa.Word("0000000f"))
    assert list(laboratory.words("0100", 5).values()) == ["00000006", "wwf00000", "40000000", "00010100", "0000000f"]
    assert laboratory.numbers("0101", 1, 10) == {"0101": -3}


@pytest.mark.parametrize(
    ("call", "said"),
    [
        (lambda laboratory: laboratory.words(50), "an address is a text, such as '0050' or a label, and not 50"),
        (lambda laboratory: laboratory.go(None), "and not None"),
        (lambda laboratory: laboratory.run("10"), "a whole number, and not '10'"),
        (lambda laboratory: laboratory.run(True), "a whole number, and not True"),
        (lambda laboratory: laboratory.answer(5), "a text or bytes, and not int: 5"),
        (lambda laboratory: laboratory.answers(["panel"]), "several lines are one text, and not list"),
    ],
)
def test_wrong_types_are_named(laboratory, call, said):
    with pytest.raises(TypeError, match=said):
        call(laboratory)


@pytest.mark.parametrize("call", [lambda it: it.words("0000 1\n"), lambda it: it.go(""), lambda it: it.run(-1), lambda it: it.put("0000", "b 0000\npanel")])
def test_wrong_values_are_refused_before_they_are_a_line(laboratory, call):
    with pytest.raises(ValueError):
        call(laboratory)
    assert laboratory.transcript() == ""


def test_a_laboratory_of_its_own_at_each_order(loaded):
    # the jump to `start` is the first order
    loaded.run(100)
    assert [moment.panel().counter for moment in loaded.moments()] == ["0000", "0000", "0001", "0002", "0003", "0004"]
    there = loaded.at(3)
    assert there.numbers("sum") == {"0005": 0}
    assert there.run(100) == condugwa.Run(2, "rest")
    assert there.numbers("sum") == loaded.numbers("sum") == {"0005": 10}
    assert "press start\norders 2\n" in there.transcript()
    with pytest.raises(condugwa.TooFarError) as refused:
        loaded.at(6)
    assert refused.value.detail == 5
    with pytest.raises(ValueError):
        next(loaded.moments(0))


def test_a_laboratory_is_brought_to_an_order(loaded):
    loaded.run(100)
    assert loaded.to(last="changed sum") == 3
    assert loaded.numbers("sum") == {"0005": 0}
    with pytest.raises(condugwa.TooFarError) as refused:
        loaded.to(4)
    assert refused.value.detail == 3
    with pytest.raises(condugwa.NoHitError) as refused:
        loaded.to(first="changed sum")
    assert refused.value.detail == 3
    assert loaded.to(order=1) == 1
    assert loaded.transcript().endswith("press start\n")
    assert loaded.run(100) == condugwa.Run(4, "rest")
    for call in (loaded.to, lambda: loaded.to(1, first="changed sum")):
        with pytest.raises(ValueError, match="one of order, first and last"):
            call()


def test_a_line_that_was_refused_is_refused_again_in_a_moment(laboratory):
    with pytest.raises(condugwa.FormError):
        laboratory.answer("no such command")
    laboratory.put("0000", 3)
    assert laboratory.at(0).transcript() == laboratory.transcript()
