# make alone prints the targets. Each target first tells what it needs and is not here.
TARGETS := run test lib display pictures install uninstall fuzz bench stack model map mutants
PREFIX := /usr/local

run.does := proves and builds the command program, and shows a paper with its key, and document 01's example
run.needs := rt python3
run.takes := some 6 minutes the first time, then seconds
run.by := bash tests/demo.sh

test.does := the whole gate: proofs, must-fail edits, programs, reference model, definitions executed, pages; .ci/run calls it
test.needs := rt rustc python3 cc c++ ld objcopy nm pkg-config valgrind
test.takes := 35 to 60 minutes
test.by := bash tests/run.sh

lib.does := proves the exports and builds target/lib/libjirdtungsten.a and .so; docs/LIBRARY.md says their use
lib.needs := rt cc ld objcopy python3
lib.takes := some 6 minutes the first time, then seconds
lib.by := bash library/build.sh

install.does := installs headers, library, chartkey, the proved program and the pages; PREFIX=/usr/local, DESTDIR=
install.needs := install python3
install.takes := a second, after make lib and make run
install.by = PREFIX='$(PREFIX)' DESTDIR='$(DESTDIR)' bash library/install.sh install

uninstall.does := takes away what make install puts there; the same PREFIX and DESTDIR
uninstall.needs := find
uninstall.takes := a second
uninstall.by = PREFIX='$(PREFIX)' DESTDIR='$(DESTDIR)' bash library/install.sh uninstall

display.does := builds helm-display, which draws charts, key and cutter head as PNG, SVG or PDF (docs/DISPLAY.md)
display.needs := cc
display.takes := 10 seconds where the library is made (make lib); cairo is named if it is missing, and installed as root
display.by := bash display/build.sh

pictures.does := draws the pictures of the pages anew, docs/pictures/, by helm-display
pictures.needs := cc python3
pictures.takes := 10 seconds where the library is made
pictures.by := bash display/build.sh && bash display/pictures.sh

fuzz.does := drawn command streams by the command program and by the reference model, log for log; SEED=7, SECONDS=600 or STREAMS=100000
fuzz.needs := target/bin/overlay_log rustc cc python3
fuzz.takes := a minute, or what SECONDS says; Ctrl-C ends it with the tally
fuzz.by = bash tests/model.sh build && python3 tests/fuzz.py $(fuzz.options) target/bin/overlay_log
fuzz.options = $(if $(SEED),--seed $(SEED)) $(if $(SECONDS),--seconds $(SECONDS)) $(if $(STREAMS),--streams $(STREAMS))

bench.does := time per load, insert, locate, window, soundness and overlay of the library beside hand-written engines in C, in one run; BEFORE=ARCHIVE COUNT=1
bench.needs := rt cc ld objcopy python3 $(if $(BEFORE),nm) $(if $(COUNT),valgrind)
bench.takes := a minute, and what make lib takes
bench.by = bash bench/run.sh $(if $(COUNT),--count) $(BEFORE)

stack.does := the stack that each export uses, on small and on full tables, beside what its header says
stack.needs := rt cc ld objcopy python3
stack.takes := seconds, and what make lib takes
stack.by := bash library/build.sh && python3 tests/stack.py

model.does := builds the reference model, runs its own tests and the stored command streams
model.needs := rustc cc python3
model.takes := half a minute
model.by := bash tests/model.sh build && bash tests/model.sh test && python3 tests/log_cases.py target/model/model log

map.does := writes docs/MAP.md, the storeys and what stands on what, from crates.txt and the texts of the crates
map.needs := python3
map.takes := a second
map.by := python3 tests/map.py

mutants.does := small wrong versions of the definitions, and which of them the proofs and examples accept; OPTIONS="--crates spec_plane"
mutants.needs := rt rustc cc python3
mutants.takes := hours for all, with progress; outside the gate
mutants.by = python3 tests/mutants.py $(OPTIONS)

.PHONY: help $(TARGETS)
help:
	$(info make TARGET, where TARGET is one of these (times on 2 cores, with an older kit of Rattle):)
	$(foreach t,$(TARGETS),$(info )$(info $t: $($t.does))$(info $()  needs $($t.needs); takes $($t.takes)))
	@:

$(TARGETS):
	@sh tests/need.sh $@ bash $($@.needs)
	@$($@.by)
