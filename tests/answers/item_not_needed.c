double d; int main(void) { return 0; }
