int main(void) { __assert_fail("a", "b", 1, "c"); return 0; }
