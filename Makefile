# `make run` builds the program and runs it on the first example; `make test` passes all tests, those
# of the gate, and those of dev/ and python/tests, of the tools and of the built program, side by side
# (`make test-tools` passes those that are in Python alone);
# `make mutants` tries the mutants that stand beside the gate, `make mutants NAME=aqm` those
# of one crate, over what `make run` keeps, and keeps in bench/mutants.csv what it came to;
# `make bench` measures the built program and writes bench/RESULTS.md and its tables in bench/csv (python3 and valgrind);
# `make pictures` draws the pictures of README.md and docs/ (python3 and matplotlib);
# `make page` writes the page with the simulator, out/page/tcpsim.html, of the module of the program's proof (chromium or
# firefox-esr open it; libjs-codemirror and python3-markdown of Debian);
# `make pages` writes the replay of every example and a list of them into pages/;
# `make install PREFIX=DIR` puts the program, the tools tcpsim-NAME, their man pages, the documents with
# the examples, and completions for bash, zsh and fish below DIR, /usr/local if none is given, and
# `make uninstall PREFIX=DIR` takes them away;
# `make dist` writes what is installed elsewhere, from the built program, into out/dist: a tarball, a .deb, a wheel, the
# page where out/page has it, a MANIFEST and SHA256SUMS;
# `make test-dist` tries each of them, the .deb in a Debian 12 of its own (root, debootstrap, and a network).
.PHONY: run test test-tools setup mutants bench pictures page pages install uninstall dist test-dist

# A python3 that has these modules: the one that is found first, or Debian's own.
python_with = $(shell for python in python3 /usr/bin/python3; do \
	$$python -c 'import $(1)' 2>/dev/null && { echo $$python; break; }; done)
PYTHON = $(call python_with,matplotlib)
PYTEST = $(or $(call python_with,pytest; import matplotlib),$(call python_with,pytest))
WITH_MARKDOWN = $(call python_with,markdown)
PROGRAM = crates/tcpsim/out/tcpsim
PREFIX = /usr/local
# The crates of `make mutants`, all where none is named.
NAME =
# When make began, in seconds: where CI=true the last step of `make test` is left out when it is late.
BEGUN := $(shell date +%s)
DOCUMENTS = share/doc/tcpsim
BASH_COMPLETIONS = share/bash-completion/completions
ZSH_COMPLETION = share/zsh/site-functions/_tcpsim
FISH_COMPLETIONS = share/fish/vendor_completions.d
# The tools that are installed, each started by bin/tcpsim-NAME, and the packages below python/ that they are made of.
TOOLS = run debug plot flows net sweep find replay follow stalls time diff model
PACKAGES = tcpsim tcpsim_model

# Where CI=true all that tests want is installed first, and a test that is left out has failed.
test: setup
	@python3 dev/build.py --ready
	@python3 dev/mutants.py --check
	@python3 dev/pass_gate.py
	@python3 dev/build.py --module
	@python3 dev/run_tests.py --python '$(PYTEST)'
	@python3 dev/mutants.py --due --begun $(BEGUN)

setup:
	@[ "$$CI" != true ] || dev/setup

test-tools: setup
	@python3 dev/run_tests.py --python '$(PYTEST)' $(wildcard dev/test_*.py python/tests/test_*.py)

mutants:
	@python3 dev/mutants.py $(NAME)

run:
	@python3 dev/build.py
	@$(PROGRAM) run < examples/one_segment.txt

bench:
	@python3 bench/measure.py
	@python3 bench/tables.py

pictures:
	@[ -n '$(PYTHON)' ] || { echo 'no python3 with matplotlib: apt-get install python3-matplotlib'; exit 1; }
	@'$(PYTHON)' dev/pictures.py
	@'$(PYTHON)' dev/validate.py --pictures
	@'$(PYTHON)' python/tests/test_replay.py

# The prover runs where no module is kept that is of the program's proof: after `make run` or `make test` it has nothing to
# do, after `rt ci` alone the last crate.
page:
	@[ -n '$(WITH_MARKDOWN)' ] || { echo 'no python3 with markdown: apt-get install python3-markdown'; exit 1; }
	@python3 dev/build.py --module
	@'$(WITH_MARKDOWN)' dev/page.py

pages:
	@python3 dev/pages.py -o pages

dist:
	@python3 dev/dist.py

test-dist: dist
	@python3 dev/try_dist.py

# Below DIR: bin/tcpsim and bin/tcpsim-NAME, the packages in lib/tcpsim, and share/. Recipes have DIR as $$ROOT, so that
# whatever it has in it, quotes too, is its name.
install uninstall: export ROOT = $(DESTDIR)$(PREFIX)
install:
	@test -x $(PROGRAM) || { echo '$(PROGRAM) is not there: build it with `make run`'; exit 1; }
	install -D -m 755 $(PROGRAM) "$$ROOT/bin/tcpsim"
	install -d "$$ROOT/share/man/man1" \
	"$$ROOT/$(BASH_COMPLETIONS)" "$$ROOT/$(FISH_COMPLETIONS)"
	@for it in $$(find $(PACKAGES:%=python/%) -type f ! -path '*/__pycache__/*' ! -name '*.md'); do \
	install -D -m 644 "$$it" "$$ROOT/lib/tcpsim/$${it#python/}" || exit 1; done
	install -m 755 $(TOOLS:%=bin/tcpsim-%) "$$ROOT/bin"
	install -m 644 man/*.1 "$$ROOT/share/man/man1"
	@for it in README.md CHANGELOG.md CONTRIBUTING.md SECURITY.md THIRD-PARTY LICENSE-MIT LICENSE-APACHE docs/*.md docs/pictures/* crates/README.md \
	bench/*.md examples/* dev/README.md python/README.md python/tcpsim_model/README.md $$(find editors -type f); do \
	install -D -m 644 "$$it" "$$ROOT/$(DOCUMENTS)/$$it" || exit 1; done
	@python3 dev/crates_page.py --files "$$ROOT/$(DOCUMENTS)/docs/FILES.md" && chmod 644 "$$ROOT/$(DOCUMENTS)/docs/FILES.md"
	install -m 644 completions/tcpsim.bash "$$ROOT/$(BASH_COMPLETIONS)/tcpsim"
	install -D -m 644 completions/_tcpsim "$$ROOT/$(ZSH_COMPLETION)"
	install -m 644 completions/tcpsim.fish "$$ROOT/$(FISH_COMPLETIONS)/tcpsim.fish"
	@for it in $(TOOLS); do \
	ln -sfn tcpsim "$$ROOT/$(BASH_COMPLETIONS)/tcpsim-$$it" && \
	ln -sfn tcpsim.fish "$$ROOT/$(FISH_COMPLETIONS)/tcpsim-$$it.fish" || exit 1; done

uninstall:
	rm -rf "$$ROOT/lib/tcpsim" "$$ROOT/$(DOCUMENTS)"
	rm -f "$$ROOT/bin/tcpsim" "$$ROOT/share/man/man1/tcpsim.1" \
	"$$ROOT/$(BASH_COMPLETIONS)/tcpsim" "$$ROOT/$(ZSH_COMPLETION)" \
	"$$ROOT/$(FISH_COMPLETIONS)/tcpsim.fish"
	@for it in $(TOOLS); do rm -f "$$ROOT/bin/tcpsim-$$it" \
	"$$ROOT/share/man/man1/tcpsim-$$it.1" \
	"$$ROOT/$(BASH_COMPLETIONS)/tcpsim-$$it" \
	"$$ROOT/$(FISH_COMPLETIONS)/tcpsim-$$it.fish"; done
