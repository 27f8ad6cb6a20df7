.PHONY: test demo judge judge_log bench archive
RECORDS = $(sort $(wildcard examples/*.litmus))

# all proofs, must-fail edits, programs and tests; the last line is 'N passed, 0 failed'
test:
	.ci/run

# judges the cases of examples/
demo: judge
	target/bin/judge $(RECORDS)

# the program target/bin/judge
judge:
	cd crates/judge && rt run -- --help > /dev/null
	install -D crates/judge/out/judge target/bin/judge

# the program target/bin/judge_log
judge_log:
	cd crates/judge_log && rt run -- --help > /dev/null
	install -D crates/judge_log/out/judge_log target/bin/judge_log

# times beside an ordinary Rust implementation; with BEFORE=ARCHIVE judging also beside another version's liblitmus.a,
# and with PART=judging or PART=traces nothing else
bench: archive judge_log
	cd rust && BEFORE=$(abspath $(BEFORE)) cargo run --release --offline --bin bench $(PART)

# the static library that C and Rust link, target/staticlib/liblitmus.a
archive:
	tools/archive.sh
