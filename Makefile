# make demo: proves and builds what is needed, builds a small catalogue and shows what it did.
# make test: the gate, as CI runs it.
.PHONY: demo test

# The file of the smallest worked catalogue (docs/FORMAT.md): 42 bytes.
CATALOGUE = \000\004\002\000\000\000\000\000\000\000\000\000\000\000\000\000\000\000\000\000\000\000\000\000\000\000\000\000\001\000\000\000\000\000\000\003\011\007\003\005\254\002

# A catalogue of two patterns, 3.5 on shelf 300 and 3.9 on shelf 7, in the words of docs/SCRIPT.md.
SCRIPT = patterns 4\nmember 3.5 300\nmember 3.9 7\nbuild\nlist\npeek first 3\npeek second 5\npeek second 9\npeek slot 2\npeek slot 3\nwork\nmember 4.0 1\nbuild\n

# A day's work on it: two lookups, a code whose place another has, one that finds room, a new shelf, and one taken out.
DAY = patterns 4\nmember 3.5 300\nmember 3.9 7\nbuild\nlookup 3.9\nlookup 2.5\ninsert 2.5 1\ninsert 4.5 12\nreplace 3.5 301\nremove 3.9\nlookup 3.9\nlist\n

demo:
	@command -v rt >/dev/null || { echo "the command rt is missing: install the Rattle kit named in README.md"; exit 1; }
	@echo "Proving and building (some minutes the first time) .."
	@for program in calls numbers; do \
	    (cd crates/$$program && rt run </dev/null >demo.log 2>&1 && rm demo.log) || { cat crates/$$program/demo.log; rm crates/$$program/demo.log; exit 1; }; \
	done
	@echo; echo "A script that builds a small catalogue:"
	@printf '$(SCRIPT)' | sed 's/^/    /'
	@echo; echo "What it answers (members and shared pairs; the list of places; displacements; slots; the work list;"
	@echo "and a third code, which half width 4 does not take):"
	@printf '$(SCRIPT)' | crates/calls/out/calls | sed 's/^/    /'
	@echo; echo "A day's work on it:"
	@printf '$(DAY)' | sed 's/^/    /'
	@echo; echo "What that answers (built; found with its place and shelf; absent; another code has place 2; and so on):"
	@printf '$(DAY)' | crates/calls/out/calls | sed 's/^/    /'
	@echo; echo "The file of the catalogue as it was built, byte by byte:"
	@printf '$(CATALOGUE)' | od -An -v -tx1
	@echo; echo "The numbers that it holds, each behind its offset:"
	@printf '$(CATALOGUE)' | crates/numbers/out/numbers | sed 's/^/    /'
	@echo; echo "The same file without its last byte, as a box would refuse it:"
	@printf '$(CATALOGUE)' | head -c 41 | crates/numbers/out/numbers 2>&1 | tail -n 3 | sed 's/^/    /'

test:
	bash .ci/run
