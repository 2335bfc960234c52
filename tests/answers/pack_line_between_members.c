struct s { char a;
#pragma pack(1)
 int b; }; int main(void) { struct s x; return 0; }
