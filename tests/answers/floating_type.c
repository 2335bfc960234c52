double d; int main(void) { return d; }
