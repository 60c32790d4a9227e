# make                    proves the programs of worked cases and damaged files, runs them and prints their lines
# make test               all tests; the last line reads 'N passed, 0 failed'
# make lib                target/liboptional_index.a, the calls for C, on x86-64
# make install PREFIX=..  archive, header and pkg-config file
.PHONY: all test lib install gateway-test

PREFIX ?= /usr/local
CC ?= cc
CFLAGS ?= -O2
C = $(CC) -std=c11 -Wall -Wextra $(CFLAGS) -Iinclude

all:
	@mkdir -p target
	@for c in cases damaged; do \
	    (cd crates/$$c && rt run) >target/$$c.out 2>target/$$c.log || { tail -n 40 target/$$c.log; exit 1; }; \
	    cat target/$$c.out; \
	done

# The gate passes edits that cannot be applied, and says 'N bad': here such an edit fails.
test: gateway-test
	@mkdir -p target
	@rm -f target/ci.status
	@{ rt ci; echo $$? >target/ci.status; } 2>&1 | tee target/ci.log
	@[ "$$(cat target/ci.status)" = 0 ]
	@! grep -E '^rt: ok.*, [1-9][0-9]* bad' target/ci.log

lib:
	@mkdir -p target
	@(cd crates/gateway && rt lib) >target/lib.log 2>&1 || { tail -n 40 target/lib.log; exit 1; }
	@cp crates/gateway/out/libgateway.a target/liboptional_index.a

# The archive is made for x86-64: on another machine there is nothing to link, and the calls are tested by the check alone.
ifeq ($(shell uname -m),x86_64)
gateway-test: lib
	@$(C) tests/gateway.c target/liboptional_index.a -o target/gateway-test
	@$(C) examples/ask.c target/liboptional_index.a -o target/ask
	@target/gateway-test
else
gateway-test:
	@echo 'gateway: not linked, since this machine is not x86-64'
endif

install: lib
	install -d $(DESTDIR)$(PREFIX)/include $(DESTDIR)$(PREFIX)/lib/pkgconfig
	install -m 644 include/optional_index.h $(DESTDIR)$(PREFIX)/include
	install -m 644 target/liboptional_index.a $(DESTDIR)$(PREFIX)/lib
	sed 's|@PREFIX@|$(PREFIX)|' optional_index.pc.in >$(DESTDIR)$(PREFIX)/lib/pkgconfig/optional_index.pc
