typedef int A; int main(void) { if (sizeof(enum { A })) ; return (A)0; }
