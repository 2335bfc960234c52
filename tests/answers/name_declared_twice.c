int main(void) { void *p; void *p; return 0; }
