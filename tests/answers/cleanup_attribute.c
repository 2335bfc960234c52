void f(void); int main(void) { int x __attribute__((cleanup(f))); return 0; }
