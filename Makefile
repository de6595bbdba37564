# make              proves the programs with all crates below them, builds them into bin/, and shows what they do on an example; later only what changed
# make programs     proves and builds them, and shows nothing
# make try          runs pert with the words FORM on the deck DECK in about a minute, before anything is proved (FORM='point 6')
# make recheck      proves the second checker with Coq (coq/), and builds it into bin/pert-recheck
# make check        runs the gate (every proof, edit, test and program) and the acceptance cases
# make reading      writes all definitions behind the promises, in reading order, into out/reading/ (needs python3)
# make install      copies programs, manual pages, docs, examples and completion below $(PREFIX)
# make uninstall    takes them away again
# make dist         packs them into one archive in out/, for offices that have no kit: the same bytes from the same sources
# make deb          packs them into three Debian packages in out/ (pert, pert-companion, pert-doc): the same bytes from the same sources
# make soak         tries generated decks, certificates and failing memory for MINUTES minutes (SEED=.. repeats a run), then the edits of tests/edits/
# make clean        removes all that was built, and the proofs that are kept in out/

PREFIX ?= /usr/local
# where the documents are according to the pages, if that is not where they are copied to
PLACE ?= $(PREFIX)
MINUTES ?= 30
PROGRAMS := pert pert_check pert_whatif
# What is installed is listed, so that no stray file is: tests/docs/files.sh compares the list with what git tracks.
INSTALLED := $(shell cat tools/installed 2>/dev/null)
# The second checker is installed, with its manual page, if `make recheck` has built it.
RECHECK := $(notdir $(wildcard bin/pert-recheck))
SECTION1 := $(filter-out $(if $(RECHECK),,pert-recheck.1),$(patsubst docs/man/%,%,$(filter docs/man/%.1,$(INSTALLED))))
PAGES := README.md CHANGELOG.md $(filter docs/%.md,$(INSTALLED))
PICTURES := $(filter docs/%.png docs/%.svg,$(INSTALLED))
SCHEMAS := $(filter docs/json/%.json,$(INSTALLED))
EXAMPLES := $(filter examples/%,$(INSTALLED))

# The companion: its commands, and the files of its package
COMMANDS := $(sort $(notdir $(wildcard companion/bin/*)))
PACKAGE := $(shell cd companion/src 2>/dev/null && find pert_companion -type f ! -name '*.pyc' | LC_ALL=C sort)

VERSION := $(shell cat VERSION)
# What the programs are built from; no program needs the crates of tests.
SOURCES := crates.txt VERSION Makefile tools/prove.py $(wildcard tools/proving/*.py) \
	$(shell find crates \( -path '*/out' -o -path 'crates/*_tests' \) -prune -o -type f \( -name '*.rt' -o -name '*.antt' \) -print)
ROOT := $(DESTDIR)$(PREFIX)
LIBRARY := $(ROOT)/lib/pert-companion
DOC := $(ROOT)/share/doc/pert
MAN := $(ROOT)/share/man
COMPLETIONS := $(ROOT)/share/bash-completion/completions
# Debian's package puts those for zsh elsewhere.
ZSH ?= share/zsh/site-functions
FISH := share/fish/vendor_completions.d
MENU := share/applications
ICONS := share/icons/hicolor/scalable/apps

all: programs
	@tools/first-run.sh

programs: $(PROGRAMS:%=bin/%)

# All programs are proved and built by one run, which starts from the proofs that earlier runs and `rt check` kept. What an earlier run built is
# removed first, and bin/ is written last. Since `make install`, `make dist` and `make deb` may come here too, a line says why it begins.
$(PROGRAMS:%=bin/%): out/built
out/built: $(SOURCES)
	@if [ -e $@ ]; then echo "make: $(firstword $?)$(if $(word 2,$?), and $(words $(wordlist 2,$(words $?),$?)) more files are, is) newer than the programs:" \
		"proving what changed, and building them again"; else echo "make: the programs are not built yet: proving and building them"; fi
	@rm -f out/built $(PROGRAMS:%=bin/%)
	@command -v python3 >/dev/null || { echo "make: there is no 'python3' on the path, in which rt and tools/prove.py are written" >&2; exit 1; }
	@tools/prove.py $(PROGRAMS)
	@mkdir -p bin
	@for program in $(PROGRAMS); do cp "crates/$$program/out/$$program" "bin/$$program" || exit 1; done
	@touch $@
	@echo "built $(PROGRAMS:%=bin/%)"

# A first answer without a proof. Nothing that this builds is kept, installed or packed.
FORM ?= times
DECK ?= examples/shed.csv
try:
	@tools/try.py $(FORM) <"$(DECK)"

# The second checker needs Coq and OCaml, and nothing of the kit.
recheck: bin/pert-recheck
bin/pert-recheck: $(wildcard coq/*)
	@coq/build.sh
	@mkdir -p bin
	@cp out/recheck/pert-recheck $@

check:
	.ci/run

reading:
	@tools/reading-list.py out/reading
	@echo "written: out/reading/headline.md and out/reading/rest.md"

# A page as it is installed, for readers who have no sources
SHOWN = tools/installed-page.py
AT = '$(subst ','\'',$(PLACE)/share/doc/pert)'

# A prefix with one of these characters would not get through the commands below.
placed:
	@case '$(subst ','\'',$(ROOT) $(PLACE))' in *[\"\`\$$\\%]*) echo 'make: PREFIX must not have any of the characters " ` $$ \ %' >&2; exit 1 ;; esac
	@[ -n "$(INSTALLED)" ] || { echo "make: tools/installed, the list of what is installed, is missing" >&2; exit 1; }

install: placed programs
	install -d "$(ROOT)/bin" "$(MAN)/man1" "$(MAN)/man5" "$(DOC)/docs" "$(DOC)/examples" "$(COMPLETIONS)" "$(ROOT)/$(ZSH)" "$(ROOT)/$(FISH)"
	install -m 755 $(PROGRAMS:%=bin/%) $(RECHECK:%=bin/%) "$(ROOT)/bin"
	for command in $(COMMANDS); do install -m 755 companion/launch "$(ROOT)/bin/$$command" || exit 1; done
	install -d "$(LIBRARY)" $(foreach folder,$(sort $(dir $(PACKAGE))),"$(LIBRARY)/$(folder)")
	for file in $(PACKAGE); do install -m 644 "companion/src/$$file" "$(LIBRARY)/$$file" || exit 1; done
	for page in $(SECTION1); do $(SHOWN) "docs/man/$$page" $(AT) >"$(MAN)/man1/$$page" || exit 1; done
	for page in $(PAGES); do $(SHOWN) "$$page" $(AT) >"$(DOC)/$$page" || exit 1; done
	tools/deck-page.awk "$(DOC)/docs/deck.md" | sed 's/@VERSION@/$(VERSION)/' >"$(MAN)/man5/pert-deck.5"
	for picture in $(PICTURES); do install -m 644 "$$picture" "$(DOC)/docs" || exit 1; done
	install -d "$(DOC)/docs/json"
	for schema in $(SCHEMAS); do install -m 644 "$$schema" "$(DOC)/docs/json" || exit 1; done
	install -d $(foreach folder,$(sort $(dir $(EXAMPLES))),"$(DOC)/$(folder)")
	for file in $(EXAMPLES); do install -m 644 "$$file" "$(DOC)/$$file" || exit 1; done
	chmod 644 $(SECTION1:%="$(MAN)/man1/%") "$(MAN)/man5/pert-deck.5" $(PAGES:%="$(DOC)/%")
	for program in $(PROGRAMS) $(RECHECK); do install -m 644 tools/completion/pert.bash "$(COMPLETIONS)/$$program" || exit 1; done
	for command in $(COMMANDS); do install -m 644 tools/completion/companion.bash "$(COMPLETIONS)/$$command" || exit 1; done
	install -m 644 tools/completion/_pert tools/completion/_pert-companion "$(ROOT)/$(ZSH)"
	install -m 644 $(PROGRAMS:%=tools/completion/%.fish) $(RECHECK:%=tools/completion/%.fish) $(COMMANDS:%=tools/completion/%.fish) "$(ROOT)/$(FISH)"
	install -d "$(ROOT)/$(MENU)" "$(ROOT)/$(ICONS)"
	install -m 644 companion/pert-desk.desktop "$(ROOT)/$(MENU)"
	install -m 644 companion/src/pert_companion/desk/static/icon.svg "$(ROOT)/$(ICONS)/pert-desk.svg"
	@[ ! -d crates/pert_cli ] || { umask 022 && tools/reading-list.py "$(DOC)/reading"; }

# Folders go too if nothing else is in them.
uninstall: placed
	rm -f $(PROGRAMS:%="$(ROOT)/bin/%") $(COMMANDS:%="$(ROOT)/bin/%") $(SECTION1:%="$(MAN)/man1/%") "$(MAN)/man5/pert-deck.5" $(PROGRAMS:%="$(COMPLETIONS)/%")
	rm -f $(COMMANDS:%="$(COMPLETIONS)/%") "$(ROOT)/$(ZSH)/_pert" "$(ROOT)/$(ZSH)/_pert-companion"
	rm -f "$(ROOT)/bin/pert-recheck" "$(MAN)/man1/pert-recheck.1" "$(COMPLETIONS)/pert-recheck" "$(ROOT)/$(FISH)/pert-recheck.fish"
	rm -f $(PROGRAMS:%="$(ROOT)/$(FISH)/%.fish") $(COMMANDS:%="$(ROOT)/$(FISH)/%.fish")
	rm -f "$(ROOT)/$(MENU)/pert-desk.desktop" "$(ROOT)/$(ICONS)/pert-desk.svg"
	rm -rf "$(DOC)" "$(LIBRARY)"
	@cd "$(ROOT)" && rmdir -p --ignore-fail-on-non-empty bin lib share/man/man1 share/man/man5 share/doc share/bash-completion/completions \
		$(ZSH) $(FISH) $(MENU) $(ICONS)

# The archive holds a folder with bin/ and share/, whose pages name /usr/local, and the checksum of each file. Names are sorted, and
# owners, times and modes are fixed, so that whoever builds the same sources gets the same archive.
ARCHIVE := pert-$(VERSION)
dist: programs recheck
	rm -rf "out/$(ARCHIVE)" "out/$(ARCHIVE).tar.gz"
	$(MAKE) -s install DESTDIR= PREFIX="$(CURDIR)/out/$(ARCHIVE)" PLACE=/usr/local
	cd "out/$(ARCHIVE)" && find . -type f ! -name SHA256SUMS | LC_ALL=C sort | xargs sha256sum >SHA256SUMS
	tar -C out --sort=name --format=ustar --owner=0 --group=0 --numeric-owner --mtime=@0 --mode=u=rwX,go=rX -cf - "$(ARCHIVE)" \
		| gzip -9n >"out/$(ARCHIVE).tar.gz"
	rm -rf "out/$(ARCHIVE)"
	@sha256sum "out/$(ARCHIVE).tar.gz"

# The packages of debian/, which any Debian builds with `dpkg-buildpackage -b` from a folder in which `make programs recheck` was run
deb: programs recheck
	@tools/deb.sh

soak:
	tests/soak.sh $(MINUTES) $(SEED)

clean:
	rm -rf bin out crates/*/out

.PHONY: all programs placed try recheck check reading install uninstall dist deb soak clean
