# What a C programmer and a packager need; ./test is the gate.
# PREFIX, DESTDIR and RUNS reach scripts/install as they are given, spaces and all.
PREFIX ?= /usr/local
DESTDIR ?=
RUNS ?= 5
export PREFIX DESTDIR RUNS

help:
	@echo 'make build       prove and build the programs, the archive and the text form'
	@echo 'make install     build, then put header, archive, jougsilver.pc, commands and manual'
	@echo '                 into PREFIX (/usr/local), below the folder DESTDIR where it is given'
	@echo 'make uninstall   take the same files away'
	@echo 'make measure     stack and time of the calls on the hardest sheets, in RUNS (5) runs'
	@echo './test           prove everything and test it'

build install uninstall measure:
	@scripts/install $@

.PHONY: help build install uninstall measure
