struct __attribute__((packed)) s { int a; }; int main(void) { struct s x; return 0; }
