# `make run` builds the program unproved, and shows the README's example; `make build` proves it; `make test` is the gate.
# `make libraries` gives a clone what is proved already, so that tools/prove begins at once.
# `make fmt` lays all files out, which the gate asks for; `make bench` prints nanoseconds, `make bench_threads` those of
# threads; `make wrong_bodies` tries all those of which the gate tries a few; `make plant` makes definitions wrong, and says what
# refuses that. `make doc` writes doc/index.html, the public items of all crates with their contracts. `make c` builds the core
# for C, proved, and tries it: bin/libtirnouch_core.a and .so, with c/include/tirnouch_core.h; `make bench_c` measures it, `make
# bench-ir` counts instructions, and fails where a row takes more than at the last landing. `make c-usb`
# builds libusb's own interface over it, bin/libusb-1.0.so.0 and .a; `make c-try` the same unproved, in two minutes; `make c-test` tries it, and `make c-abi` compares the header with libusb's.
# `make hostile` tries the programs in hostile ways, some minutes; HOSTILE has options of tools/hostile, or parts. `make
# hostile-sanitized` tries broken texts over a build of usbtrace with the address sanitizer.
# `make captures` tries captures on tshark and on libusb over umockdev, some minutes; CAPTURES has options of tools/captures, or parts.

SCENARIO = rows/cancel_amid_transfer.in

.PHONY: run build test libraries fmt doc bench bench_threads c c-usb c-test c-abi bench-usb bench_c captures wrong_bodies plant always

run:
	@tools/progress.py timed run -- tools/program.py try
	@tools/program.py state
	@bin/usbtrace run < $(SCENARIO)

build:
	@tools/program.py build

test:
	tools/wrong_bodies.py fit
	tools/rows.py check
	tools/layers.py check
	tools/pages.py check
	tools/tests.py check
	tools/c_header.py check
	tools/times.py check
	@RT_JOBS=$$(nproc) tools/progress.py proofs test -- rt ci
	@tools/program.py keep
	@tools/rows.py run
	@tools/wrong_bodies.py turn
	@tools/pictures.py check
	@tools/scenarios.py check
	@tools/usbtrace_test.py
	@python3 tools/hostile gate

# Gives this clone the libraries that gates proved on this machine, or those of FROM: a clone, or a file of `tools/libraries.py pack`.
libraries:
	@tools/libraries.py take $(FROM)

fmt:
	@for crate in crates/*; do (cd $$crate && rt fmt); done
	@rustfmt --edition 2021 bench/main.rs

doc:
	@python3 tools/api write

bench: bin/bench
	@bin/bench

bench_threads: bin/bench
	@bin/bench threads

# The library's side is proved and built as the gate does; rustc builds the harness and the plain forms, for the same processor.
bin/bench: always
	@tools/program.py build check_parts check_library
	@rustc -O --edition 2021 -C target-cpu=x86-64-v2 bench/main.rs -o $@

C_FLAGS = -std=c11 -O2 -Wall -Wextra -pedantic -fPIC -Ic/include

# One object, of which only the header's names are to be seen. CORE says which core stands in it: `build` the proved one, `try` one
# that isn't proved, where no proved one is there. What only that needs is an archive, of which a proved one takes nothing.
CORE = build
bin/libtirnouch_core.a: always
	@tools/program.py $(CORE) tirnouch_c
	@$(CC) $(C_FLAGS) -c c/heap.c -o bin/heap.o
	@$(CC) $(C_FLAGS) -DCORE_BUILD="\"$$(tools/program.py state tirnouch_c)\"" -c c/description.c -o bin/description.o
	@$(CC) $(C_FLAGS) -c c/unproved.c -o bin/unproved.o
	@rm -f bin/unproved.a && $(AR) rcs bin/unproved.a bin/unproved.o
	@$(LD) -r --whole-archive bin/libtirnouch_c.a --no-whole-archive bin/heap.o bin/description.o bin/unproved.a -o bin/core.o
	@objcopy --wildcard --keep-global-symbol='tirnouch_*' bin/core.o
	@rm -f $@ && $(AR) rcs $@ bin/core.o
	@rm -f bin/heap.o bin/description.o bin/unproved.o bin/unproved.a bin/core.o

bin/libtirnouch_core.so: bin/libtirnouch_core.a
	@$(CC) -shared -Wl,--version-script=c/core.map -Wl,--whole-archive $< -Wl,--no-whole-archive -o $@

c: bin/libtirnouch_core.a bin/libtirnouch_core.so
	@$(CC) $(C_FLAGS) c/tests/core/*.c $< -o bin/core_test
	@bin/core_test | diff c/tests/core/expected -
	@echo "the core behind C answers as c/tests/core/expected says"

# libusb's own interface over it: of the library only the headers' names are to be seen.
USB_OBJECTS = $(patsubst c/usb/%.c,bin/usb/%.o,$(wildcard c/usb/*.c))
USB_NAMES = libusb_* tirnouch_plug tirnouch_begin tirnouch_end tirnouch_on_control tirnouch_on_packet tirnouch_on_event tirnouch_ready tirnouch_pull tirnouch_show \
	tirnouch_replug tirnouch_left tirnouch_report tirnouch_error tirnouch_trace tirnouch_now tirnouch_advance tirnouch_took tirnouch_requests

bin/usb/%.o: c/usb/%.c $(wildcard c/usb/*.h) $(wildcard c/include/*.h)
	@mkdir -p bin/usb
	@$(CC) $(C_FLAGS) -D_GNU_SOURCE -c $< -o $@

bin/libusb-1.0.a: $(USB_OBJECTS) bin/libtirnouch_core.a
	@$(LD) -r $(USB_OBJECTS) --whole-archive bin/libtirnouch_core.a --no-whole-archive -o bin/usb/all.o
	@objcopy --wildcard $(foreach name,$(USB_NAMES),--keep-global-symbol='$(name)') bin/usb/all.o
	@rm -f $@ && $(AR) rcs $@ bin/usb/all.o

bin/libusb-1.0.so.0: bin/libusb-1.0.a c/usb.map
	@$(CC) -shared -Wl,-soname,libusb-1.0.so.0 -Wl,--version-script=c/usb.map -Wl,--whole-archive $< -Wl,--no-whole-archive -pthread -o $@
	@rm -f bin/libusb-1.0.so && cp $@ bin/libusb-1.0.so

# What stands before libusb, ours or the system's, and writes down what a program moves: tools/tirnouch-record.
bin/libtirnouch-record.so: $(wildcard c/record/*) c/record.map bin/libusb-1.0.so.0
	@$(CC) $(C_FLAGS) -D_GNU_SOURCE -shared -Wl,--version-script=c/record.map $(wildcard c/record/*.c) \
		-Wl,--no-as-needed -Lbin -l:libusb-1.0.so.0 -pthread -o $@

c-usb: bin/libusb-1.0.a bin/libusb-1.0.so.0 bin/libtirnouch-record.so

# The same libraries over an unproved core. TRUST=1 leaves out its checks.
.PHONY: c-try
c-try:
	@tools/progress.py timed c-try -- $(MAKE) --no-print-directory CORE=try bin/libusb-1.0.a bin/libusb-1.0.so.0 bin/libtirnouch-record.so

c-test: c c-usb
	@tools/progress.py timed c-test -- tools/c_test.py

# Devices in Python: their own tests, and the tests of c/example. What can't run here is skipped, and told. `make python` builds the package
# as a wheel, of what stands in bin/; `make python-test` tries it, and all that docs/PYTHON.md has, over what stands there.
.PHONY: python python-try python-test
python-try: c-try
	@tools/device_test.py
	@tools/python_test.py

python:
	@tools/python_wheel.py

python-test:
	@tools/python_test.py all

# gcc's analyzer and cppcheck over the C code; what they find is explained in c/findings.txt.
.PHONY: c-lint
c-lint:
	@tools/c_lint.py

c-abi: c-usb
	@tools/c_abi.py --symbols bin/libusb-1.0.so.0
	@tools/c_abi.py

# Programs of Debian, unchanged, against scripted devices: CLIENTS=DIR names a folder into which packages were unpacked.
.PHONY: c-clients
c-clients: c-usb
	@c/clients/run $(if $(CLIENTS),--root $(CLIENTS))

# libfprint's own tests of its USB drivers, unchanged, against the captures that come with them: where Debian's libfprint-2-tests is installed.
.PHONY: c-fprint
c-fprint: c-usb
	@python3 tools/fprint $(FPRINT)

# The scenes of c/tests/usb on libusb itself, over a faked kernel: CLIENTS=DIR names a folder into which libusb was unpacked.
.PHONY: c-compare
c-compare:
	@tools/c_compare.py $(if $(CLIENTS),--root $(CLIENTS))

# Beside libusb's own code over a faked kernel: LIBUSB=FILE names libusb, where it isn't installed.
bench-usb: bin/libusb-1.0.a
	@bench/usb/run $(if $(LIBUSB),--libusb $(LIBUSB))

# Instructions of the library for C and of usbtrace, beside those of the last landing: docs/BENCH.md.
.PHONY: bench-ir
bench-ir:
	@bench/instructions/run

bench_c: bin/libtirnouch_core.a
	@$(CC) $(C_FLAGS) -D_DEFAULT_SOURCE bench/core.c $< -o bin/bench_core
	@bin/bench_core

# Tells what is wrong, and counts what came: docs/HOSTILE.md.
.PHONY: hostile
hostile:
	@tools/program.py state
	@tools/program.py try check_library check_parts
	@python3 tools/hostile $(HOSTILE)

.PHONY: hostile-sanitized
hostile-sanitized:
	@tools/program.py sanitized
	@python3 tools/hostile --program bin/usbtrace.sanitized $(or $(HOSTILE),random damaged descriptors streams --count 200)

# Runs as captures and captures as scenarios, tried by tshark, and by libusb over umockdev: docs/CAPTURES.md.
captures:
	@tools/program.py state
	@tools/program.py try
	@python3 tools/captures $(CAPTURES)

include tools/install.mk

# Short programs of threads, in every order that a bound allows: docs/CONTRIBUTING.md. INTERLEAVINGS has a part, c or rattle, and options.
.PHONY: interleavings
interleavings:
	@$(MAKE) --no-print-directory CORE=try bin/libtirnouch_core.a
	@python3 tools/interleavings $(INTERLEAVINGS)

wrong_bodies:
	tools/wrong_bodies.py try

plant:
	tools/plant_definitions.py
