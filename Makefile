# make run: both programs, proved and built, on their samples. make test: the gate. make histories: ten
# thousand histories through console, compared with the reference. make speed: how fast readout lists.
.PHONY: run test histories speed

run: target/bin/readout target/bin/console
	@echo 'readout, input (sample/corrected.bin, in hex):'
	@od -An -v -tx1 sample/corrected.bin
	@echo 'listing:'
	@target/bin/readout <sample/corrected.bin
	@echo
	@echo 'console, script (sample/try.txt):'
	@cat sample/try.txt
	@echo 'answers:'
	@target/bin/console <sample/try.txt

target/bin/readout target/bin/console: target/bin/%: $(shell find crates -type f -not -path '*/out/*') crates.txt
	@mkdir -p target/bin
	cd crates/$* && rt run -- --help >/dev/null
	cp crates/$*/out/$* target/bin/

test:
	.ci/run

histories: target/bin/console
	python3 -B reference/run_histories.py target/bin/console 10000

speed: target/bin/readout
	python3 -B reference/speed.py
