# What can be done here; make alone lists it.
.PHONY: help run lib install uninstall test bench torture reproduce

N ?= 20000
SEED ?= 1000000
PREFIX ?= /usr/local
DESTDIR ?=

help:
	@echo 'make help        prints this, as make alone does'
	@echo 'make run         builds the proved library and shows a box at work, and a year'"'"'s heat split; once built, a few seconds'
	@echo 'make lib         proves and builds target/staticlib/libpaviluko.a, and prints its identity; some five to ten minutes at first'
	@echo 'make install     puts header, archive, pkg-config file and man page below PREFIX (/usr/local; DESTDIR before it)'
	@echo 'make uninstall   takes them away again, from the same PREFIX and DESTDIR'
	@echo 'make test        the whole gate: everything proved, then all tests; from nothing some half an hour'
	@echo 'make bench       our speed beside other libraries'"'"', and the stack of each call'
	@echo 'make torture     N random histories (20000) from SEED (1000000) on, library and model side by side'
	@echo 'make reproduce   builds the library from nothing in another folder and compares the archives; some five to ten minutes'

run:
	@sh tools/run.sh

lib:
	@sh tools/lib.sh

install:
	@sh tools/lib.sh --brief
	@sh tools/install.sh '$(PREFIX)' '$(DESTDIR)'

uninstall:
	@sh tools/install.sh --remove '$(PREFIX)' '$(DESTDIR)'

test:
	@bash tests/all.sh

bench:
	@bash bench/all.sh

torture:
	@bash tests/histories/torture.sh $(N) $(SEED)

reproduce:
	@sh tools/reproduce.sh
