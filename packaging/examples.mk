# Builds the examples over the library that is installed: `make`, or `make CC=clang CFLAGS='-O2 -Wall'`.
CFLAGS ?= -std=c11 -Wall -Wextra -O2

all: two_maps bursts ranging voice refusals threads journal keeper resume feed

%: %.c
	$(CC) $(CFLAGS) $< $(shell pkg-config --cflags --libs mapsched) -pthread -o $@
