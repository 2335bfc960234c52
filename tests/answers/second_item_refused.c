struct s { float f; }; typedef struct s T; int main(void) { T x; return 0; }
