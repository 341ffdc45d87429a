# make run: proves and builds program duty if needed, runs it on the worked plan, and shows plan and outcome side by side
# make test: the gate

.PHONY: run test

PLAN = crates/duty/stdin

run:
	@mkdir -p target && (cd crates/duty && rt run < stdin) > target/run.log 2>&1 || { tail -n 30 target/run.log; exit 1; }
	@grep '^logic=' target/run.log | tail -n 1
	@crates/duty/out/duty < $(PLAN) | paste -d '|' $(PLAN) - | awk -F '|' '{ printf "%-24s | %s\n", $$1, $$2 }'

test:
	@.ci/run
