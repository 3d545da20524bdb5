# run: the main job. test: the gate. library: the C functions for a program to link. picture: a section through a part.
# compare: the large comparison. replay: csx's answers without Rust. sample: makes their file again.
# load: a million calls with random bytes. bench: ratios of speed. install: the program point-list.
.PHONY: run test library archives picture compare compare-published compare-port replay sample load bench install
.DELETE_ON_ERROR:

PREFIX ?= /usr/local
VIEWER_FLAGS = -std=c++17 -O2 -Wall -Wextra -Wpedantic -Wconversion -Wshadow -Werror
# csx with the differences that the port lists is compiled in a folder of its own.
PORT = --features port --target-dir target/port

# What proofs and builds read. What rt makes of it lies in the crates too, in out/.
SOURCES := crates.txt $(shell find crates -name out -prune -o \( -name '*.rt' -o -name '*.antt' \) -print)

run: target/bin/point_list
	target/bin/point_list < crates/point_list/stdin

test:
	.ci/run

library: target/libzirwennach.a

# What the tests link: the library, and the functions that only tests call.
archives: target/libzirwennach.a target/staticlib/libprobes.a

target/libzirwennach.a: crate = zirwennach
target/staticlib/libprobes.a: crate = probes
target/libzirwennach.a target/staticlib/libprobes.a: $(SOURCES)
	cd crates/$(crate) && rt lib
	install -D -m 644 crates/$(crate)/out/lib$(crate).a $@

# rt runs the program that it has proved and built, here for the build alone.
target/bin/point_list: crate = point_list
target/replay: crate = csx_answers
target/bin/point_list target/replay: $(SOURCES)
	cd crates/$(crate) && rt run < stdin > /dev/null
	install -D crates/$(crate)/out/$(crate) $@

target/viewer: target/libzirwennach.a examples/viewer.cpp include/zirwennach.h
	g++ $(VIEWER_FLAGS) -Iinclude examples/viewer.cpp -Ltarget -lzirwennach -lm -o $@

picture: library target/viewer
	target/viewer picture docs/section.png

# Both forms at once, one on each core. -O prints the output of each when it ends.
compare: archives
	cd tests && cargo build --offline --locked --release --bin compare --bin summary
	cd tests && cargo build --offline --locked --release $(PORT) --bin compare
	$(MAKE) --no-print-directory -j 2 -O compare-published compare-port
	tests/target/release/summary tests/target/published.counts tests/target/port.counts docs/COMPARISON.md

compare-published:
	tests/target/release/compare large --counts tests/target/published.counts

compare-port:
	tests/target/port/release/compare large --counts tests/target/port.counts

replay: target/replay
	target/replay < crates/csx_answers/stdin

sample: archives
	cd tests && cargo run --offline --locked --release $(PORT) --bin sample > ../crates/csx_answers/stdin

load: archives
	cd tests && cargo build --offline --locked --release $(PORT) --bin load
	valgrind -q --error-exitcode=9 tests/target/port/release/load 1000000

bench: archives
	cd tests && cargo run --offline --locked --release --bin bench

install: target/bin/point_list
	install -D target/bin/point_list $(DESTDIR)$(PREFIX)/bin/point-list
