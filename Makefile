# rbacaudit: the commands of this repository. docs/BUILD.md says what they need of a machine.

PREFIX ?= /usr/local
PROGRAM = crates/rbacaudit/out/rbacaudit

.PHONY: run test fuzz calls wrong-bodies build words install dist

# One question on the example export: may the CI account of the shop update deployments there, and why? The proved program
# answers if it is built and no source has changed since; otherwise the sources answer, unproved. What the kit says of such a try
# is shown only if it fails.
QUESTION = can-i --as system:serviceaccount:shop:ci -n shop --why update deployments.apps
SOURCES = crates.txt $(wildcard crates/*/src crates/*/specs crates/*/proofs)
IS_BUILT = [ -x $(PROGRAM) ] && [ -z "$$(find $(SOURCES) -newer $(PROGRAM) | head -n 1)" ]

run:
	@if $(IS_BUILT); then \
	    $(PROGRAM) $(QUESTION) examples/shop.json; \
	else \
	    echo 'make run: this answer isn'\''t from a proved build, and takes a few minutes; make build proves and builds the program' >&2; \
	    cd crates/rbacaudit && { said=$$(rt try --data shop.json=../../examples/shop.json -- $(QUESTION) shop.json 2>&1 >&3) || \
	        { echo "$$said" >&2; false; } } 3>&1; \
	fi

# Everything that must hold; the last line is `N passed, M failed`.
test:
	bash tests/all.sh

# Bad documents through the built program, against the table of refusals, in about a minute; `make fuzz SEED=N COUNT=N` tries others.
fuzz:
	python3 tests/fuzz.py "$(SEED)" "$(COUNT)"

# Single public calls: every allocation in them fails in turn. The libraries are proved first, but for those that an `rt check` of a crate
# above them left built in out/, and then the program that makes the calls, which takes some 20 processor minutes.
calls:
	python3 tests/calls.py

# Each wrong body, tried over the libraries that rt ci keeps on this machine; `make wrong-bodies CRATE=NAME` tries those of a crate, or of
# several, and `make wrong-bodies CHANGED=COMMIT` those that a change since that commit can touch. The gate tries one of each public function.
wrong-bodies:
	python3 tools/wrong_bodies.py $(if $(CHANGED),--changed "$(CHANGED)") $(CRATE)

# The program, proved and compiled: from nothing 50 to 75 minutes of four cores; what was proved before on this machine and is unchanged is kept.
build:
	@python3 tools/build.py

# What the completions and the man page say of options, arguments and commands, from the built program's help; `make words WITH=PROGRAM`
# takes the help of another build, such as one that isn't proved yet.
words:
	@$(if $(WITH),,$(IS_BUILT) || { echo 'make words: the program isn'\''t built, or a source has changed since: make build first' >&2; exit 1; };) \
	    python3 tools/words.py $(if $(WITH),"$(WITH)")

# The completions and the man page go where each shell and man look; the files of the page where rbacaudit-page looks.
SHARE = $(DESTDIR)$(PREFIX)/share
# (the package is compiled there if that goes: who may not write into the folder would compile it at each start)
HULL = $(DESTDIR)$(PREFIX)/lib/rbacaudit/rbacaudit_kubectl

# (what is built isn't built again, so that `sudo make install` after `make build` neither needs rt nor proves all of it for root,
# for whom the kit keeps nothing of what it has proved for another user)
install: $(shell $(IS_BUILT) || echo build)
	install -d $(DESTDIR)$(PREFIX)/bin $(SHARE)/bash-completion/completions $(SHARE)/zsh/site-functions \
	    $(SHARE)/fish/vendor_completions.d $(SHARE)/man/man1 $(HULL) $(SHARE)/rbacaudit/page
	install -m 755 $(PROGRAM) $(DESTDIR)$(PREFIX)/bin/rbacaudit
	install -m 755 plugin/kubectl-rbacaudit $(DESTDIR)$(PREFIX)/bin/kubectl-rbacaudit
	install -m 755 plugin/kubectl_complete-rbacaudit $(DESTDIR)$(PREFIX)/bin/kubectl_complete-rbacaudit
	install -m 644 plugin/rbacaudit_kubectl/*.py plugin/rbacaudit_kubectl/defaults.json $(HULL)
	@python3 -m compileall -q $(HULL) >/dev/null 2>&1 || true
	install -m 755 plugin/rbacaudit-page $(DESTDIR)$(PREFIX)/bin/rbacaudit-page
	install -m 755 plugin/rbacaudit-show $(DESTDIR)$(PREFIX)/bin/rbacaudit-show
	install -m 644 page/* $(SHARE)/rbacaudit/page
	install -m 644 man/rbacaudit-page.1 man/rbacaudit-show.1 $(SHARE)/man/man1
	install -m 644 completions/rbacaudit-page.bash $(SHARE)/bash-completion/completions/rbacaudit-page
	install -m 644 completions/_rbacaudit-page $(SHARE)/zsh/site-functions/_rbacaudit-page
	install -m 644 completions/rbacaudit-page.fish $(SHARE)/fish/vendor_completions.d/rbacaudit-page.fish
	install -m 644 completions/rbacaudit-show.bash $(SHARE)/bash-completion/completions/rbacaudit-show
	install -m 644 completions/_rbacaudit-show $(SHARE)/zsh/site-functions/_rbacaudit-show
	install -m 644 completions/rbacaudit-show.fish $(SHARE)/fish/vendor_completions.d/rbacaudit-show.fish
	install -m 644 completions/rbacaudit.bash $(SHARE)/bash-completion/completions/rbacaudit
	install -m 644 completions/_rbacaudit $(SHARE)/zsh/site-functions/_rbacaudit
	install -m 644 completions/rbacaudit.fish $(SHARE)/fish/vendor_completions.d/rbacaudit.fish
	install -m 644 man/rbacaudit.1 man/kubectl-rbacaudit.1 $(SHARE)/man/man1

# What others install without the kit, in dist/: an archive, a Containerfile, a manifest for krew, and SHA256SUMS. GATE=FILE is what
# `make test` printed, whose last line goes into PROVED.txt; URL=ADDRESS is where the archive is going to be, for krew.
dist:
	@$(IS_BUILT) || { echo 'make dist: the program isn'\''t built, or a source has changed since: make build first' >&2; exit 1; }
	@python3 tools/dist.py "$(GATE)" "$(URL)"
