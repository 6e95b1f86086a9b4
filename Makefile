# make demo      builds the part and shows a call of two stations in each mode; one mode: make demo MODE=dtmf
# make test      the gate: every proof and every test; a proof that it passed on this machine counts while its files stay as
#                they are
# make check     while you work: proves what has changed, tries the must-fail edits of the crates that have changed since
#                origin/main, or since another commit (make check SINCE=HEAD~3), and runs every test; not the verdict
# make lib       target/staticlib/libcuyrapaq.a, for hosts in C, as `rt lib` makes it in crates/cuyrapaq
# make hosts     the example hosts, in target/host: baudot, call, and line, a bench tool for the line
# make list      lists the Baudot codes of a line of text; another line: make list TEXT='GA TO YOU'
# make bench     speed and sizes of the engine beside the reference
# make vectors   rewrites the test vectors and the expected output of the test programs from the reference
# make docs      rewrites the parts of the documents that a tool writes
#
# Needs rt, gcc and cargo, and no network. No target needs another one first.

MODE = all
TEXT = HELLO 73
SINCE =
export MODE TEXT SINCE

LIBRARY = target/staticlib/libcuyrapaq.a
SOURCES = $(shell find crates/*/src crates/*/specs crates/*/proofs -name '*.rt' -o -name '*.antt') crates.txt

.PHONY: demo test check lib hosts list bench vectors docs

demo: hosts
	@target/host/call "$$MODE"

test:
	.ci/run

check:
	tests/check "$$SINCE"

lib: $(LIBRARY)

$(LIBRARY): $(SOURCES)
	cd crates/cuyrapaq && rt lib --cpu x86-64
	mkdir -p $(@D)
	cp crates/cuyrapaq/out/$(@F) $@

hosts: lib
	tests/compile examples/baudot.c examples/call.c examples/line.c

list:
	cd crates/baudot_list && rt run </dev/null >/dev/null
	@printf 'Baudot codes of "%s":\n' "$$TEXT"
	@printf '%s' "$$TEXT" | crates/baudot_list/out/baudot_list

bench: lib
	tests/bench

vectors:
	tests/tables --write

docs:
	tests/documents --write
