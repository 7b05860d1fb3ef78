# `make demo` serves a zone on a free port, by the program as compiled, before any proof, and shows two
# requests with their replies; `make test` runs all tests and tables of rows with nothing proved;
# `make prove` is the gate: names and log lines in documents, sentences of definitions, public items that nothing
# uses, all proofs, the edits that it tries, the tests and the tables by the program that it proved
# (`make prove ANEW=1` proves what an earlier run on this machine has kept, too);
# `make dnsd` proves and builds the program alone; `make mistakes [CRATE="NAME .."]` tries the edits that
# the gate leaves out; `make refused [CRATE="NAME .."]` runs tests with each request for memory, or for
# a thread, refused in turn.
.PHONY: demo dnsd test prove mistakes refused

demo:
	./demo.sh

dnsd:
	cd crates/dnsd && rt run -- --help >/dev/null
	@echo "the proved program is crates/dnsd/out/dnsd"

test:
	@tests/all.py

prove:
	@tests/definitions.py --check && tests/names.py && tests/unused.py && tests/log_list.py
	@mkdir -p out
	@tests/gate_times.py record out/gate.log rt ci $(if $(ANEW),--anew)
	@tests/gate_times.py show out/gate.log
	@tests/rows.sh

mistakes:
	./mistakes.sh $(CRATE)

refused:
	./refused.sh $(CRATE)
