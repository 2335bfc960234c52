__extension__ struct s { int a[]; }; int main(void) { struct s *p; return 0; }
