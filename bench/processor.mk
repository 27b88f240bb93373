# The library is x86-64 code. On another processor the programs that link it are compiled for x86-64 too, by clang, against the C
# library of the Rattle toolchain, and run under qemu-x86_64, which the toolchain has no more. Whoever names a compiler (make CC=..) has
# decided otherwise.
#
# RUN stands before each program that is run.

PROCESSOR := $(shell uname -m)

ifneq ($(PROCESSOR),x86_64)
ifeq ($(origin CC),default)
TOOLCHAIN := $(abspath $(dir $(realpath $(shell command -v rt)))../toolchain)
CC = clang --target=x86_64-linux-gnu -fuse-ld=lld -nodefaultlibs -B$(TOOLCHAIN)/lib -idirafter /usr/include/$(PROCESSOR)-linux-gnu
CXX = $(CC)
LDLIBS = $(addprefix $(TOOLCHAIN)/lib/,libc.so.6 libc_nonshared.a libgcc.a)
RUN = qemu-x86_64 $(TOOLCHAIN)/lib/ld-linux-x86-64.so.2 --library-path $(TOOLCHAIN)/lib
endif
endif
