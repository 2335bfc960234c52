int main(void) { __assert_fail("a") "b"; return 0; }
