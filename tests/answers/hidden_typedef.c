typedef int T; int main(void) { int T; T = 1; (T); return 0; }
