SCORE = scores/first_light

.PHONY: play test scores lists compare bench

# A score's listing: make play, or make play SCORE=file.
play:
	@sh tools/play.sh '$(SCORE)'

# The gate: proves every crate, tries the must-fail edits, runs the programs.
test:
	@bash .ci/run

# The bundled scores anew from their texts; `write`, which makes them, is proved and built first.
scores:
	sh tools/programs.sh write
	sh tools/score.sh scores/first_light.txt > scores/first_light
	sh tools/score.sh scores/fading.txt > scores/fading

# The oracle's lists anew, from the original in SID_SOURCE (tools/oracle/README.md).
lists:
	cd tools/oracle && cargo build --release
	tools/oracle/target/release/oracle list bus > crates/bus_cases/data/bus
	tools/oracle/target/release/oracle list envelope > crates/envelope_cases/data/envelope
	tools/oracle/target/release/oracle list rises > crates/envelope_cases/data/rises
	tools/oracle/target/release/oracle list forecasts > crates/forecast_cases/stdin
	tools/oracle/target/release/oracle list oscillator_calls > crates/oscillator_cases/data/calls
	tools/oracle/target/release/oracle list oscillator_states > crates/oscillator_cases/data/states
	tools/oracle/target/release/oracle list replay_scores > crates/replay_cases/data/scores
	tools/oracle/target/release/oracle list replay_listings > crates/replay_cases/stdout
	tools/oracle/target/release/oracle list sid > crates/sid_cases/stdin
	tools/oracle/target/release/oracle list waveforms > crates/waveforms_cases/data/waveforms
	tools/oracle/target/release/oracle list settling > crates/waveforms_cases/data/settling
	tools/oracle/target/release/oracle list writer_lists > crates/writer_cases/stdin
	tools/oracle/target/release/oracle list writer_answers > crates/writer_cases/stdout

# Not in the gate: the programs in target/bin (make test) against the original at length, by the seed.
compare:
	cd tools/oracle && cargo build --release
	tools/oracle/target/release/oracle compare-calls 1000 100000 1 sh tools/run.sh target/bin/sid_cases
	tools/oracle/target/release/oracle compare-scores 10500 1 sh $(CURDIR)/tools/run.sh $(CURDIR)/target/bin/replay_cases
	tools/oracle/target/release/oracle compare-replay 20 1 sh tools/run.sh target/bin/replay
	tools/oracle/target/release/oracle compare-writer 7500 1 sh tools/run.sh target/bin/writer_cases
	tools/oracle/target/release/oracle compare-texts 300 1 sh tools/run.sh target/bin
	tools/oracle/target/release/oracle compare-rises 12000 1 sh $(CURDIR)/tools/run.sh $(CURDIR)/target/bin/envelope_cases
	tools/oracle/target/release/oracle compare-forecasts 15000 1 sh tools/run.sh target/bin/forecast_cases

# This chip against the original, scene by scene (docs/PERFORMANCE.md). Needs cargo, and the original as for the lists.
bench:
	sh tools/bench/archive.sh
	cd tools/bench && cargo build --release
	tools/bench/target/release/bench
