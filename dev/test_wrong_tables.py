"""Tests of dev/wrong_tables.txt and of what bench/wrong_tables.csv keeps: each edit fits its definition, names laws that there are,
and has the same mistake in the model (dev/test_law_runs.py). What the prover says of them is tried by hand."""
import wrong_tables


def test_each_fits_and_names_a_law():
    found = wrong_tables.tables()
    assert {it.name: it.fault() for it in found} == {it.name: None for it in found}
    assert all(it.model for it in found)
    assert len({it.name for it in found}) == len(found) > 100


def test_an_edit_that_does_not_fit_is_seen():
    table = wrong_tables.Table('a\nlaws: no_flow_hangs\nfile: crates/port/specs/Port.antt\nold: not there\nnew: x')
    assert 'Port.antt' in table.fault()
    assert 'no law strange' in wrong_tables.Table('a\nlaws: strange').fault()


def test_sources_are_the_crates_up_to_the_laws():
    libraries = wrong_tables.build.declared()
    table = wrong_tables.Table('a\nlaws: no_flow_hangs\nfile: crates/reno_sender/specs/Table.antt\nold: x\nnew: y')
    assert table.sources(libraries) == ('reno_sender', 'node_core', 'table_run')


def test_a_crate_of_the_toolchain_is_passed_to_the_sources_that_use_it():
    libraries = wrong_tables.build.declared()
    words = wrong_tables.check_words('/kit', libraries, ('aqm', 'port', 'node_core', 'table_run'), '/folder', ['codel_drops_for_cause'])
    assert 'smallvec=/kit/rlibs/smallvec.rlib' in words
    assert words[-2:] == ['--only', 'laws::codel_drops_for_cause']


def test_what_was_tried_is_what_is_there():
    """A row is of the files, the edit and the laws' statements as they are: else the table has to be tried again, and its row goes."""
    tables, rows = {it.name: it for it in wrong_tables.tables()}, wrong_tables.kept()
    assert [name for name, row in rows.items() if name not in tables or not wrong_tables.is_kept(tables[name], row)] == []
    assert all(set(row['refused by'].split()) <= set(tables[name].laws) for name, row in rows.items())


def test_a_row_of_another_statement_does_not_fit(monkeypatch):
    table = wrong_tables.tables()[0]
    row = {'refused by': ' '.join(table.laws), 'sum': table.sum(table.laws)}
    assert wrong_tables.is_kept(table, row)
    monkeypatch.setattr(wrong_tables.laws_page, 'statement', lambda law: ['weaker'])
    assert not wrong_tables.is_kept(table, row)
