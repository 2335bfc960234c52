int main(void) { __int128 x; return 0; }
