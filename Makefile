# `make` reads the ridge example, `make ridge-ban` the one with a turn banned, `make islands` the one across the 180th meridian,
# `make test` runs the gate,
# `make bench` measures against plain Rust (`make bench ROWS=read`: of one kind; `make bench ROWS=worst`: maps made against reader and writer, which no
# other run has and which may take minutes),
# `make count` counts the proved writer's searches and leg tests, `make host` runs a C host on the ridge and on the islands,
# `make hydrant` one that marks a hydrant on the ridge, `make morning` one that sends several stretches of the ridge in one message, to a box with the same
# map and to one with another,
# `make test-host` tests the C functions, `make test-plain` tests plain Rust and holds it to the stored cases,
# `make differential` holds the C functions to plain Rust (`make differential CALLS=1000000 SEED=2`),
# `make counts` counts definitions, code, proofs and tests, `make contracts` prints every function's contract (`make contracts SINCE=REVISION`: what changed in
# them), `make figures` makes docs/FIGURES.md anew.
.PHONY: ridge ridge-ban islands test bench count archive host hydrant morning test-host test-plain differential counts contracts figures
.DELETE_ON_ERROR:

CALLS = 400000
SEED = 1
# Where it is not on the path, cargo is sought where rustup puts it.
CARGO := $(shell command -v cargo || echo "$$HOME/.cargo/bin/cargo")
PLAIN = --offline --quiet --manifest-path bench/Cargo.toml

WARNINGS = -pedantic -Wall -Wextra -Werror
C_FLAGS = -std=c11 $(WARNINGS) -Iinclude
CXX_FLAGS = -std=c++11 $(WARNINGS) -Iinclude
SANITIZED = -g -fsanitize=address,undefined -fno-sanitize-recover=all
ARCHIVE = target/staticlib/libopenlr.a
MEASURED = target/staticlib/libmeasured.a
SOURCES := crates.txt $(shell find crates -name out -prune -o \( -name '*.rt' -o -name '*.antt' \) -print)

ridge: target/bin/openlr_show
	cd examples/ridge && ../../target/bin/openlr_show

ridge-ban: target/bin/openlr_show
	cd examples/ridge_ban && ../../target/bin/openlr_show

islands: target/bin/openlr_show
	cd examples/islands && ../../target/bin/openlr_show

# `rt run` leaves the program where it is copied from; what it prints where there is no map is not wanted.
target/bin/openlr_show: $(SOURCES)
	cd crates/openlr_show && rt run </dev/null >/dev/null
	mkdir -p $(@D)
	cp crates/openlr_show/out/openlr_show $@

test:
	bash .ci/run

bench: $(MEASURED) $(ARCHIVE)
	$(CARGO) run --release $(PLAIN) --features measured --bin bench -- $(ROWS)

count:
	bash bench/count_calls.sh

archive: $(ARCHIVE)

# `rt lib` first builds the libraries below, one after another, as far as earlier commands have not. The gate makes the archive for C by tools/archive.py.
$(ARCHIVE): $(SOURCES)
	cd crates/openlr_c && rt lib >&2
	mkdir -p $(@D)
	cp crates/openlr_c/out/libopenlr_c.a $@

$(MEASURED): $(SOURCES)
	cd crates/measured && rt lib >&2
	mkdir -p $(@D)
	cp crates/measured/out/libmeasured.a $@

# Lines 0 and 1 without the first 50 m. Offsets are in centimetres.
STRETCH = examples/ridge/map.bin 5000 0 0 1

host: $(ARCHIVE)
	mkdir -p target/host
	$(CC) $(C_FLAGS) -O2 -o target/host/host examples/host.c $(ARCHIVE)
	target/host/host $(STRETCH)
	target/host/host examples/islands/map.bin 0 0 0 1 2

# Line 2, 12 m along it, without orientation, on the right side.
HYDRANT = examples/ridge/map.bin 2 1200 0 1

hydrant: $(ARCHIVE)
	mkdir -p target/host
	$(CC) $(C_FLAGS) -O2 -o target/host/hydrant examples/hydrant.c $(ARCHIVE)
	target/host/hydrant $(HYDRANT)

# Lines 0 and 1, lines 2 and 3, and line 0 alone: where the box has the office's map, and where it has the one with a turn banned.
MORNING = examples/ridge/map.bin examples/ridge/map.bin 0,1 2,3 0
OTHER_MAP = examples/ridge/map.bin examples/ridge_ban/map.bin 0,1 2,3 0

morning: $(ARCHIVE)
	mkdir -p target/host
	$(CC) $(C_FLAGS) -O2 -o target/host/morning examples/morning.c $(ARCHIVE)
	target/host/morning $(MORNING)
	! target/host/morning $(OTHER_MAP)

test-host: $(ARCHIVE) target/bin/openlr_show target/host/stack
	mkdir -p target/host
	$(CC) $(C_FLAGS) $(SANITIZED) -o target/host/read tests/host_read.c $(ARCHIVE)
	$(CC) $(C_FLAGS) $(SANITIZED) -o target/host/write tests/host_write.c $(ARCHIVE)
	$(CC) $(C_FLAGS) $(SANITIZED) -o target/host/point tests/host_point.c $(ARCHIVE)
	$(CC) $(C_FLAGS) $(SANITIZED) -o target/host/message tests/host_message.c $(ARCHIVE)
	$(CC) $(C_FLAGS) $(SANITIZED) -o target/host/of_message tests/host_of_message.c $(ARCHIVE)
	$(CC) $(C_FLAGS) $(SANITIZED) -o target/host/header tests/host_header.c
	$(CC) $(C_FLAGS) $(SANITIZED) -o target/host/answer tests/answer.c $(ARCHIVE)
	$(CC) $(C_FLAGS) $(SANITIZED) -o target/host/host examples/host.c $(ARCHIVE)
	$(CC) $(C_FLAGS) $(SANITIZED) -o target/host/hydrant examples/hydrant.c $(ARCHIVE)
	$(CC) $(C_FLAGS) $(SANITIZED) -o target/host/morning examples/morning.c $(ARCHIVE)
	target/host/read
	target/host/write
	target/host/point
	target/host/message
	target/host/of_message
	target/host/header
	target/host/stack
	if command -v $(CXX) >/dev/null; then $(CXX) $(CXX_FLAGS) -o target/host/cpp tests/host.cpp $(ARCHIVE) && target/host/cpp; \
	else echo "no C++ compiler: openlr.h is not tried in C++"; fi
	target/host/host $(STRETCH) >target/host/printed
	diff target/host/printed tests/host_ridge.txt
	target/host/host examples/islands/map.bin 0 0 0 1 2 >target/host/printed
	diff target/host/printed tests/host_islands.txt
	target/host/hydrant $(HYDRANT) >target/host/printed
	diff target/host/printed tests/hydrant_ridge.txt
	target/host/morning $(MORNING) >target/host/printed
	diff target/host/printed tests/morning_ridge.txt
	target/host/morning $(OTHER_MAP) >target/host/printed; test $$? -eq 1
	diff target/host/printed tests/morning_other_map.txt
	python3 oracle/check_host.py target/host/answer 500
	python3 oracle/check_format_page.py target/host/answer

# Without sanitizers, which need more stack.
target/host/stack: tests/host_stack.c tests/front.h tests/ridge.h include/openlr.h $(ARCHIVE)
	mkdir -p target/host
	$(CC) $(C_FLAGS) -O2 -pthread -o $@ tests/host_stack.c $(ARCHIVE)

test-plain:
	$(CARGO) test $(PLAIN)
	$(CARGO) build $(PLAIN) --bin answer
	python3 oracle/check_plain.py bench/target/debug/answer

differential: $(ARCHIVE)
	$(CARGO) build --release $(PLAIN) --features openlr --bin differential
	bench/target/release/differential $(CALLS) $(SEED)

counts:
	@python3 docs/counts.py

contracts:
	@python3 docs/contracts.py $(if $(SINCE),--since $(SINCE))

figures:
	python3 docs/figures.py $(if $(GATE),--gate $(GATE))
