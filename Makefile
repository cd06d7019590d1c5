# The commands of the README. What crates there are, and which stand on which, tools/ reads from crates.txt.

PREFIX ?= /usr/local
PROGRAM := crates/rds/out/rds
MANUAL := $(DESTDIR)$(PREFIX)/share/man

.PHONY: rds hello try test edits man install

# Proves and builds the program rds, with the crates that it stands on and no others.
rds:
	@tools/build rds

# Plays examples/hello.rds by a program that isn't proved.
hello:
	@tools/try play < examples/hello.rds

# Runs that program with other words, on standard input: make try ARGS="run --wire tcp" < SCRIPT
try:
	@tools/try $(ARGS)

# The gate: every proof, test and program, and the edits of crates/NAME/must-fail, which have to be refused.
test:
	@rt ci

# The edits of crates/NAME/edits, which have to be refused too: of all crates, or make edits CRATES="rds_conn rds_line"
edits:
	@tools/edits $(CRATES)

# Makes the manual pages, in man/, from docs/.
man:
	@tools/man

# Puts the program that make built, and the manual pages, below PREFIX.
install: man
	@test -x $(PROGRAM) || { echo "there is no $(PROGRAM): make builds it" >&2; exit 1; }
	@install -v -D -m 755 $(PROGRAM) $(DESTDIR)$(PREFIX)/bin/rds
	@for page in man/*.1 man/*.7; do \
		install -v -D -m 644 $$page $(MANUAL)/man$${page##*.}/$${page##*/} || exit 1; \
	done
