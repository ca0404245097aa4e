"""Tests of dev/law_runs.py: in runs of the model every law holds, and with the mistake of each wrong table one that the table names
is false in some run. So no law is too weak for its tables, whatever the prover says of its proof."""
import law_runs
import laws_page
import wrong_tables


def test_the_laws_are_those_of_run_laws():
    assert set(law_runs.LAWS) <= {name for name, _, _ in laws_page.laws()}


def test_each_holds_in_runs_of_the_model():
    assert law_runs.first_false(law_runs.model(), law_runs.LAWS, 24) is None


def test_each_table_makes_one_of_its_laws_false():
    tables = wrong_tables.tables()
    found = {it.name: law_runs.first_false(law_runs.model(it.model), [law for law in it.laws if law in law_runs.LAWS], law_runs.SEEDS) for it in tables}
    assert [name for name, wrong in found.items() if wrong is None] == []
    assert len(tables) > 100


def test_an_edit_of_the_model_that_does_not_fit_is_seen():
    try:
        law_runs.model([('sender.py', 'not there', 'x')])
    except ValueError as why:
        assert 'sender.py' in str(why)
    else:
        raise AssertionError('it was taken')
