# make run      plays a day of the logger, the tag and its screen (day/day.txt), and builds their programs first where they are not built; make alone
#               does this
# make test     the gate: the stored scripts are those of the second opinion, everything is proved and run, each edit is refused for each thing that
#               it changes, the header, its structs and the examples in C are the library's, which has no table for the check sum, and the day and a
#               reading written at a desk come out as they are to
# make long     tries programs that are wrong in one thing each on the stored scripts, then compares both programs with the second opinion on a
#               million lines of fresh scripts (N=1000 SEED=7: so many, from that seed)
# make board    builds the library for firmware in C, and runs a main loop and a logger over it
# make bench    times the proved tag against a plain one in C, and counts instructions, bytes and stack
# make scripts  writes the scripts anew that the gate plays
# make clean    removes all that was built and proved in this folder: the next make run does it again
# make help     says this
.PHONY: run test long board bench scripts clean help

run:
	@./day/play

test:
	@tools/gate

long:
	@python3 second wrong
	@./corridor --build
	@./workshop --build
	@python3 second long $(N) $(SEED)

board:
	@tools/native board

bench:
	@tools/native bench

scripts:
	@python3 second write

clean:
	@rm -rf target crates/*/out

help:
	@sed -n -e 's/^# make/make/p' -e 's/^#     /    /p' Makefile
