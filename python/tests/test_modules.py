"""Tests of what python/ promises of its modules: how long they are, what they say, what they import."""
import ast
import os

import pytest

from clone import BIN, TOP, read_text

PYTHON = os.path.join(TOP, 'python')
MOST_LINES = 400
MODULES = sorted(os.path.relpath(os.path.join(folder, name), PYTHON) for package in ('tcpsim', 'tcpsim_model')
                 for folder, _, names in os.walk(os.path.join(PYTHON, package)) for name in names if name.endswith('.py'))


def public(body, before=''):
    """The names of a module, or of a class, that others may use."""
    for node in body:
        if isinstance(node, (ast.FunctionDef, ast.ClassDef)) and (not node.name.startswith('_') or node.name == '__init__' and before):
            yield before + node.name, node
            if isinstance(node, ast.ClassDef):
                yield from public(node.body, f'{before}{node.name}.')


def imported(tree):
    """The packages of which a module imports something, wherever in it."""
    for node in ast.walk(tree):
        names = [it.name for it in node.names] if isinstance(node, ast.Import) else \
            [node.module or ''] if isinstance(node, ast.ImportFrom) else []
        yield from (name.partition('.')[0] for name in names)


@pytest.mark.parametrize('path', MODULES)
def test_no_module_is_long(path):
    assert read_text(PYTHON, path).count('\n') <= MOST_LINES


@pytest.mark.parametrize('path', MODULES)
def test_modules_say_what_they_are(path):
    tree = ast.parse(read_text(PYTHON, path))
    assert ast.get_docstring(tree)
    if path.startswith('tcpsim' + os.sep):
        assert [name for name, node in public(tree.body) if not name.endswith('__init__') and not ast.get_docstring(node)] == []


def untyped(function):
    """What of a function has no type: its arguments, and its answer."""
    given = function.args
    arguments = [*given.posonlyargs, *given.args, *given.kwonlyargs, *filter(None, (given.vararg, given.kwarg))]
    lacking = [it.arg for it in arguments if it.annotation is None and it.arg not in ('self', 'cls')]
    return lacking + ['its answer'] * (function.returns is None and function.name != '__init__')


@pytest.mark.parametrize('path', [path for path in MODULES if not path.startswith('tcpsim_model')])
def test_public_names_have_types(path):
    functions = [(name, node) for name, node in public(ast.parse(read_text(PYTHON, path)).body) if isinstance(node, ast.FunctionDef)]
    assert {name: lack for name, node in functions if (lack := untyped(node))} == {}


@pytest.mark.parametrize('path', MODULES)
def test_the_model_is_independent(path):
    """It imports nothing of the tools; of the tools its own command imports it, and what runs queues of one's own by it."""
    wanted = set(imported(ast.parse(read_text(PYTHON, path))))
    if path.startswith('tcpsim_model'):
        assert 'tcpsim' not in wanted
    elif path not in (os.path.join('tcpsim', 'commands', 'model.py'), os.path.join('tcpsim', 'api', 'by_model.py')):
        assert 'tcpsim_model' not in wanted


def test_each_command_has_its_modules():
    names = [name.removeprefix('tcpsim-') for name in os.listdir(BIN)]
    assert len(names) >= 9
    for name in names:
        assert os.path.join('tcpsim', 'commands', f'{name}.py') in MODULES
        assert name == 'model' or os.path.join('tcpsim', 'cli', f'{name}.py') in MODULES
