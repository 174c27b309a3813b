.PHONY: demo test clib bench compare

# A sample edition: its digest, and four houses that agree on it; then the rehearsal of docs/REHEARSAL.md.
demo:
	@tools/build digest certify rehearse
	@target/bin/digest < samples/spring.txt
	@target/bin/certify < samples/spring.txt
	@target/bin/rehearse < crates/rehearse/stdin

# The gate: every crate proved, every edit tried, every program run.
test:
	@bash .ci/run

# The library for C with its header, ready to link; it needs no other library than C's.
clib:
	@tools/build bodunkwa
	@mkdir -p target/clib
	@cp include/bodunkwa.h target/staticlib/libbodunkwa.a target/clib
	@echo "cc your.c -Itarget/clib target/clib/libbodunkwa.a"

# The proved functions beside plain Rust.
bench:
	@bench/run

# The program rehearse beside a model of it in Python, on random inputs.
compare:
	@tools/build rehearse
	@python3 tools/rehearse_compare.py target/bin/rehearse 3000
