# make build  prove the programs, and put them into target/bin
# make demo   prove the model, name what is proved, and have a right and a wrong simulator judged
# make test   every check, from nothing; the last line is 'N passed, M failed'
# make edits CRATE=bus   that crate's must-fail edits alone, and the error that refuses each; without CRATE, of every crate
.PHONY: build demo test edits

build:
	@tools/build

demo:
	@tools/demo

test:
	@tools/test

edits:
	@tools/edits $(CRATE)
