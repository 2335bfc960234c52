#pragma pack(1)
struct s { char a; int b; }; int main(void) { struct s x; return 0; }
