.PHONY: demo test
# Builds the programs and shows the main job on a throw-away directory.
demo:
	@bash demo/run

# Proves every crate and runs every test: the gate.
test:
	@bash .ci/run
