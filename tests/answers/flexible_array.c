struct s { int n; int a[]; }; int main(void) { struct s *p; return 0; }
