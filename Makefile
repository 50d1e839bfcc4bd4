# Wizqamul. Two commands do everything, and set up what they need:
#   make book FILE=examples/day.bwa   books the records of a file into an empty book, one line printed for each
#   make test                         the whole gate; its last line is `N passed, 0 failed`
# Besides: make lib, make host, make compare, make bench, make counts, make fuzz, make mutants, make clean.

.PHONY: book test lib host compare desk-compare desk-fault sanitized header bench counts fuzz mutants reference-mutants host-mutants tools clean

# The library is x86-64 code. On another machine its C programs are built by Debian's cross compiler and run under its emulator.
ifeq ($(shell uname -m),x86_64)
COMPILER = gcc
RUN =
PACKAGES = gcc libc6-dev
MACHINE = x86-64, not emulated
SANITIZERS = address,undefined
COUNTER = valgrind --tool=callgrind --callgrind-out-file=/dev/null
else
COMPILER = x86_64-linux-gnu-gcc
EMULATOR = qemu-x86_64
RUN = $(EMULATOR) -L /usr/x86_64-linux-gnu
PACKAGES = gcc-x86-64-linux-gnu libc6-dev-amd64-cross qemu-user
MACHINE = $(shell uname -m), x86-64 emulated
SANITIZERS = undefined
PLUGIN = target/c/count.so
COUNTER = $(RUN) -plugin $(PLUGIN)
endif

WARNINGS = -std=c99 -Wall -Wextra -pedantic
LIBRARY = target/staticlib/libwizqamul.a
REFERENCE = $(wildcard tests/reference_*.c)
DRIVER = $(wildcard tests/compare*.c tests/input*.c tests/samples*.c) tests/classes.c tests/lending.c
HEADERS = $(wildcard include/*.h tests/*.h host/*.h)
RATTLE = crates.txt $(wildcard crates/*/src/*.rt)

# Books the records of a file into an empty book and prints one line each.
book: target/bin/desk tools
	@test -n "$(FILE)" || { echo "usage: make book FILE=examples/day.bwa" >&2; exit 2; }
	@$(RUN) target/bin/desk < "$(FILE)"

# The layout of every file, every proof, every must-fail edit and every program; then the C library against an independent implementation, and the host program, side by side: the host's tests wait more than they work. The verdict of the proofs stands last. `rt ci` lets an edit pass that it could not apply or read: here that fails. The desk program of these checks is the one that `rt ci` built, and the library is built anew, since `rt ci` builds none.
test:
	@log=$$(mktemp); trap 'rm -f $$log' EXIT; \
	LOG=$$log tests/proving.sh all rt ci || exit 1; verdict=$$(tail -n 1 $$log); \
	case "$$verdict" in *" passed, 0 failed") ;; *) exit 1 ;; esac; \
	grep -q '^rt: ok;' $$log && ! grep -E '^rt: (ok;.*, [1-9][0-9]* bad|.*: BAD EDIT: )' $$log >&2 || exit 1; \
	mkdir -p target/bin && cp crates/desk/out/desk target/bin/desk && rm -f $(LIBRARY) || exit 1; \
	$(MAKE) --no-print-directory -j3 -O header compare desk-compare desk-fault sanitized host-test && echo "$$verdict"

lib: $(LIBRARY)

host: target/c/wizqamul-host
	@echo "target/c/wizqamul-host order BOOK WISHES OUT, book BOOK FILE.., or list BOOK; --help says all"

# More than a million calls, given to the library and to the independent implementation.
compare: target/c/compare
	@$(RUN) target/c/compare

# What the desk program must print of its stored day and of the example, by the independent implementation.
desk-compare: target/c/desk target/bin/desk
	@$(RUN) target/c/desk < crates/desk/stdin > target/c/stored.out && cmp target/c/stored.out crates/desk/stdout
	@$(RUN) target/bin/desk < examples/day.bwa > target/c/day.out && $(RUN) target/c/desk < examples/day.bwa > target/c/day.expected && cmp target/c/day.out target/c/day.expected
	@echo "desk: 2 days compared, 0 differences"

# An input that fails after its bytes: the record before the fault is booked, the one that it cut off is not, and that is said, also by the exit status.
desk-fault: target/c/fault target/bin/desk
	@head -n 1 examples/day.bwa > target/c/first.bwa && $(RUN) target/bin/desk < target/c/first.bwa > target/c/first.out
	@$(RUN) target/c/fault "$$(sed -n '1p;2s/\r$$//p' examples/day.bwa)" $(RUN) target/bin/desk > target/c/fault.out 2> target/c/fault.err; [ $$? -eq 1 ]
	@cmp target/c/first.out target/c/fault.out && grep -q 'not be read to its end' target/c/fault.err && echo "desk: of a failed input nothing is booked that the fault cut off"

# The comparison for longer, with fresh seeds, until it is stopped.
SEED ?= 1
fuzz: target/c/compare
	@$(RUN) target/c/compare 0 $(SEED)

# Small wrong variants of the independent implementation and of the host program: the comparison and the host's tests have to catch them all. Outside the gate, since it takes long.
mutants:
	@status=0; for list in reference-mutants host-mutants; do $(MAKE) --no-print-directory $$list || status=1; done; exit $$status

MUTANT_CALLS = 200000
reference-mutants: $(LIBRARY) | tools
	@tests/mutants.sh tests/mutants.txt "$(DRIVER) $(REFERENCE)" "$(COMPILER) $(WARNINGS) -O2" $(LIBRARY) '$(RUN) "$$1" $(MUTANT_CALLS)'

host-mutants: $(LIBRARY) | tools
	@RUN="$(RUN)" tests/mutants.sh host/mutants.txt "$(wildcard host/*.c)" "$(COMPILER) $(WARNINGS) -O2 -Iinclude" $(LIBRARY) host/test.sh

# Time of the library over that of the independent implementation.
bench: target/c/bench
	@echo "machine: $(MACHINE)"
	@$(RUN) target/c/bench crates/papers/stdin

# Instructions of the library over those of the independent implementation, which do not move from run to run as times do. Counted by valgrind, where it is installed, or by the emulator with a plugin that the machine's own cc builds.
counts: target/c/bench $(PLUGIN)
	@echo "machine: $(MACHINE)"
	@tests/counts.sh target/c/bench crates/papers/stdin $(COUNTER)

# A part of the comparison with the C side under AddressSanitizer and UBSan, where the compiler has them; under the emulator UBSan alone, since it has not the memory that the other asks for. The driver's own status decides, and all that it said is shown where it fails.
SANITIZE = -g -fsanitize=$(SANITIZERS) -fno-sanitize-recover=undefined
SANITIZED_CALLS = 300000
sanitized: $(LIBRARY) $(DRIVER) $(REFERENCE) $(HEADERS) | tools target/c
	@if echo 'int main(void) { return 0; }' | $(COMPILER) -x c $(SANITIZE) -o target/c/probe - 2> /dev/null && $(RUN) target/c/probe; then \
	$(COMPILER) $(WARNINGS) -O1 $(SANITIZE) -o target/c/compare-sanitized $(DRIVER) $(REFERENCE) $(LIBRARY) && \
	{ $(RUN) target/c/compare-sanitized $(SANITIZED_CALLS) > target/c/sanitized.out || { cat target/c/sanitized.out; exit 1; }; } && tail -n 1 target/c/sanitized.out; \
	else echo "sanitizers: not on this machine"; fi

# The header by itself, as C and, where there is a compiler for it, as C++.
header: tools
	@$(COMPILER) $(WARNINGS) -fsyntax-only -x c include/wizqamul.h
	@if command -v $(COMPILER:gcc=g++) > /dev/null; then $(COMPILER:gcc=g++) -Wall -Wextra -pedantic -fsyntax-only -x c++ include/wizqamul.h; fi

.PHONY: host-test
host-test: target/c/wizqamul-host
	@RUN="$(RUN)" host/test.sh target/c/wizqamul-host

# The kit builds a program where it runs it, here on no records.
target/bin/desk: $(RATTLE)
	@tests/proving.sh desk rt run >&2
	@mkdir -p $(@D) && cp crates/desk/out/desk $@

$(LIBRARY): $(RATTLE)
	@tests/proving.sh wizqamul rt lib >&2
	@mkdir -p $(@D) && cp crates/wizqamul/out/libwizqamul.a $@

target/c/compare: $(DRIVER) $(REFERENCE) $(HEADERS) $(LIBRARY) | tools target/c
	@$(COMPILER) $(WARNINGS) -O2 -o $@ $(DRIVER) $(REFERENCE) $(LIBRARY)

target/c/desk: tests/desk.c $(REFERENCE) $(HEADERS) | tools target/c
	@$(COMPILER) $(WARNINGS) -O2 -o $@ tests/desk.c $(REFERENCE)

target/c/fault: tests/fault.c | tools target/c
	@$(COMPILER) $(WARNINGS) -O2 -o $@ tests/fault.c

target/c/bench: tests/bench.c $(REFERENCE) $(HEADERS) $(LIBRARY) | tools target/c
	@$(COMPILER) $(WARNINGS) -O2 -o $@ tests/bench.c $(REFERENCE) $(LIBRARY)

target/c/count.so: tests/count.c | target/c
	@cc $(WARNINGS) -O2 -shared -fPIC -o $@ tests/count.c

target/c/wizqamul-host: $(wildcard host/*.c) $(HEADERS) $(LIBRARY) | tools target/c
	@$(COMPILER) $(WARNINGS) -O2 -Iinclude -o $@ $(wildcard host/*.c) $(LIBRARY)

target/c:
	@mkdir -p $@

# What the C side needs, from Debian where it is missing.
tools:
	@command -v $(COMPILER) > /dev/null && { [ -z "$(EMULATOR)" ] || command -v $(EMULATOR) > /dev/null; } \
	|| { if [ "$$(id -u)" = 0 ]; then apt-get -q update && apt-get -q -y install $(PACKAGES); \
	else sudo apt-get -q update && sudo apt-get -q -y install $(PACKAGES); fi; } >&2

clean:
	@rm -rf target crates/*/out
