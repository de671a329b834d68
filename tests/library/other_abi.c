/* A library of another interface: the bindings must say so, and call nothing else of it. */
unsigned bracha_abi(void) { return 2; }
