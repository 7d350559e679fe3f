# make test:           everything, ending in 'N passed, 0 failed'; its log is target/test.log (tests/clock).
# make check:          proves what has changed and runs the programs, without the must-fail edits; its log is target/check.log.
# make run:            proves what the lister needs, and lists a sample.
# make run IMAGE=file: the same, and lists that file.
# Both leave target/bin/lister and target/bin/sample; what the prover says goes to target/run.log.
# make lib:            the static library that C links, with include/ladlewillow.h.
# make compare:        port and original side by side, a million cases or twenty minutes; ORACLE_SRC names the original.
# make speed:          the times of both.
.PHONY: test check run lib compare speed rt
export IMAGE

rt:
	@command -v rt >/dev/null || { echo "make: the Rattle kit's 'rt' is not on the PATH" >&2; exit 2; }

test:
	@tests/all

check: rt
	@mkdir -p target
	@bash -o pipefail -c "rt all test 2>&1 | tee target/check.log | grep --line-buffered '^rt: '" || \
	    { grep -E ': error|it is not proved' target/check.log | cut -c1-300 | head -n 40; exit 1; }

run: rt
	@mkdir -p target/bin
	@for program in lister sample; do \
	    (cd crates/$$program && rt run </dev/null) >target/run.log 2>&1 || { tail -n 40 target/run.log; exit 1; }; \
	    cp crates/$$program/out/$$program target/bin/; \
	done
	@if [ -n "$$IMAGE" ]; then target/bin/lister <"$$IMAGE"; else target/bin/sample image | target/bin/lister; fi

lib: rt
	@mkdir -p target/staticlib
	@(cd crates/ffi_c && rt lib) >target/lib.log 2>&1 || { tail -n 40 target/lib.log; exit 1; }
	@cp crates/ffi_c/out/libffi_c.a target/staticlib/libffi.a
	@echo 'target/staticlib/libffi.a; link it with: cc prog.c -Iinclude target/staticlib/libffi.a'

compare: lib
	@CASES=500000 EACH=600 tests/compare

speed: lib
	@command -v cargo >/dev/null || { echo "make: 'cargo' is not on the PATH" >&2; exit 2; }
	@[ -d "$$ORACLE_SRC/libsave3ds/src" ] || { echo "make: ORACLE_SRC has to name the folder of the original" >&2; exit 2; }
	@cd compare && PORT_LIB=$(CURDIR)/target/staticlib cargo run --quiet --offline --release -p speed
