int main(void) { return 0 }
struct u { int a; };
