// Functions and variables that are gone in the new library (`ruled_new.c`), under two versions.
int f_alpha(int a) { return a; }
int f_beta(int a) { return a; }
int g_alpha(int a) { return a; }
int g_beta(int a) { return a; }
int kept(int a) { return a; }
int v_one = 1;
int v_two = 2;
