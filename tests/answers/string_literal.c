int main(void) { return "a"[0]; }
