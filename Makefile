# make           the static libraries, target/staticlib/libslotpool.a and, of the second engine, libslotpool_plain.a
# make demo      builds the first and runs the example
# make lockstep  builds both and runs the second engine as a monitor of the first
# make replay    target/bin/replay, which replays a field trace, and target/bin/trace, which writes and shows one
# make test      proves everything, tries every edit that must be refused, and runs the host's tests
# make bench     times both engines and the replay beside the second implementation and the C libraries' malloc
.PHONY: all demo lockstep replay test bench
# two runs of rt do not get on in one tree
.NOTPARALLEL:
LIB = target/staticlib/libslotpool.a
LIBS = $(LIB) target/staticlib/libslotpool_plain.a
PROVED = crates.txt $(shell find crates -name out -prune -o \( -name '*.rt' -o -name '*.antt' \) -print)
CC11 = cc -O2 -Wall -Wextra -std=c11 -Iinclude

all: $(LIBS)

# from what has been proved, so they depend on code, definitions and proofs
$(LIBS): target/staticlib/lib%.a: $(PROVED)
	.ci/lib $*

target/bin/replay: $(PROVED)
	cd crates/replay && ../../.ci/show rt run < /dev/null
	install -D crates/replay/out/replay $@

target/bin/trace: host/Cargo.toml host/build.rs $(shell find host/src -name '*.rs') $(LIBS)
	cd host && cargo build --quiet --release --offline --bin trace
	install -D host/target/release/trace $@

replay: target/bin/replay target/bin/trace

target/gather: examples/gather.c include/slotpool.h $(LIB)
	$(CC11) -o $@ examples/gather.c $(LIB)

demo: target/gather
	target/gather

target/lockstep: examples/lockstep.c include/slotpool.h include/slotpool_plain.h $(LIBS)
	$(CC11) -o $@ examples/lockstep.c $(LIBS)

lockstep: target/lockstep
	target/lockstep

test:
	.ci/run

bench: $(LIBS) replay
	@cd host && cargo bench --quiet --offline --bench bench
	@printf '\nthe C libraries, nanoseconds: median of 15 runs (least to most)\n'
	@cc -O2 -o target/malloc host/benches/malloc.c && target/malloc glibc
	@if command -v musl-gcc >/dev/null; then musl-gcc -O2 -static -o target/malloc-musl host/benches/malloc.c && target/malloc-musl musl; else echo "musl-gcc is not installed (Debian: musl-tools)"; fi
