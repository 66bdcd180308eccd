# Needs the Rattle kit, whose command is `rt`.

OUT = crates/som/out
SOM = $(OUT)/som
HELLO = examples/hello/hello
EXAMPLES = zoo shop document plugin vendors
TABLE = crates/som_test_tables/data/try.rows

# Where `make install` puts the program and what belongs to it; DESTDIR stands before it.
PREFIX = /usr/local

.PHONY: try table hello examples report report-test pipeline install uninstall test planted starve budget bench pictures

# the promise, with what each command prints: by the program where it is built, and else by a run of the same commands with no
# proof, which tells where what comes differs
try:
	@if [ -x $(SOM) ]; then examples/session $(SOM) examples/zoo/try.commands $(OUT)/examples/try; \
	else cat examples/zoo/try.expected && echo && echo "# There is no program yet, so these commands are now run as a table, with no proof, in a minute or two:" && \
	$(MAKE) --no-print-directory table; fi

# runs the commands of a table with no proof, and tells where something else is printed: make table TABLE=mine.rows
table:
	cd crates/som_test_tables && rt try --steps 1 --seconds 300 --data fixtures.rows=data/fixtures.rows --data table.rows=$(abspath $(TABLE)) -- fixtures.rows table.rows
	@echo "# 0 differences says that each command printed what the table has. The line on an interpreter can be passed over."

# the program: proves what isn't proved yet, crates side by side, each once those below it are; `make test` takes these proofs
$(SOM): $(shell find crates -name out -prune -o -name '*.rt' -print -o -name '*.antt' -print)
	tools/build

# builds the program, compiles the first two images from their texts, looks whether they are those that stand byte by byte in
# docs/IMAGES.md, and runs them
hello: $(SOM)
	$(SOM) library $(OUT)/hello.img $(HELLO).idl $(HELLO).bod
	$(SOM) client $(OUT)/hello.cli $(OUT)/hello.img $(HELLO).main
	cmp $(OUT)/hello.img crates/som/data/hello.img
	cmp $(OUT)/hello.cli crates/som/data/hello.cli
	$(SOM) run $(OUT)/hello.cli $(OUT)/hello.img

# runs the commands of each example and shows what they print, which has to be what stands in its .expected
examples: $(SOM)
	@for e in $(EXAMPLES); do examples/session $(SOM) examples/$$e/$$e.commands $(OUT)/examples/$$e || exit 1; echo; done

# the page that shows why the third release of the shop is refused: of the program where it is built, and else of what it said when
# tools/data/examples.record was written. Any other page is made by tools/report OUT.html OLD NEW [CLIENT..]
report:
	@mkdir -p $(OUT)
	@if [ -x $(SOM) ]; then examples/session $(SOM) examples/shop/shop.commands $(OUT)/examples/shop > /dev/null && \
	cd $(OUT)/examples/shop && $(CURDIR)/tools/report --som $(abspath $(SOM)) $(abspath $(OUT))/report.html shop2 shop3 till books; \
	else tools/report --recorded $(OUT)/report.html shop2 shop3 till books; fi
	@echo "# open $(OUT)/report.html in a browser"

# opens the reports of all examples in headless Chromium, the Debian package chromium, and keeps pictures of them outside of here
report-test: $(SOM)
	tools/report-test --som $(SOM)

# a vendor's release gate, as docs/CI.md has it: three releases are shipped, and the fourth is stopped
pipeline: $(SOM)
	examples/pipeline/run $(SOM) $(OUT)/examples/pipeline

# the program with a manual page, completion for bash and zsh, and highlighting for editors
install: $(SOM)
	tools/install $(PREFIX) $(SOM)

uninstall:
	tools/install --uninstall $(PREFIX)

# the gate: every proof, every edit that has to be refused, every test, and the program as two compilers build it
test:
	.ci/run

# the bugs that the gate does not try, those of the crates that are named, and else of all, which takes hours; what is not refused
# is told at the end: make planted NAMES="som_hooks som_proxy"
planted:
	@tools/planted $(NAMES)

# the gate from nothing, and how long each proof, test and edit takes, for docs/BUDGET.md; what it says is kept in LOG, which stands
# outside of out/, since the gate clears that
budget:
	tools/budget --run $(or $(LOG),/tmp/budget.log)

# refuses each allocation of each command of the examples in turn, and looks what it then tells and leaves; $(CC) compiles what refuses
starve: $(SOM)
	$(CC) -shared -fPIC -O2 -o $(OUT)/starve.so tools/starve.c
	tools/starve $(SOM) $(OUT)/starve.so

# the pictures in docs/pictures, of what the pages and examples show; the gate tells where they aren't what these lines make
pictures:
	tools/graph --pictures

# how long the commands take, as a table for docs/PERFORMANCE.md
bench: $(SOM)
	bench/measure.py $(SOM)
