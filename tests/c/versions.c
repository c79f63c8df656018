/* A library with symbol versions. The option -DBUILD selects the build: 1 is the first one, 2 one that may replace it, and 3
   one that may not. */
__asm__(".symver pick_1, pick@V1");
int pick_1(int x) { return x; }
int apart_1(int x) { return x; }
int apart_2(int x) { return x + 1; }
__asm__(".symver apart_2, apart@@V2");
int plain(int x) { return x - 1; }

#if BUILD == 1
__asm__(".symver pick_2, pick@@V2");
__asm__(".symver apart_1, apart@V1");
int pick_2(int x) { return x + 2; }
int lost(int x) { return x; }
int shape(int x) { return x; }
int table[1] = {1};
#elif BUILD == 2
__asm__(".symver pick_2, pick@V2");
__asm__(".symver pick_3, pick@@V3");
__asm__(".symver apart_1, apart@V1");
__asm__(".symver late_2, late@V2");
int late_2(int x) { return x; }
int only(int x) { return x; }
int pick_2(int x) { return x + 2; }
int pick_3(int x) { return x + 3; }
int lost(int x) { return x + 1; }
int shape(int x) { return x; }
int table[1] = {2};
#else
__asm__(".symver pick_3, pick@@V3");
int pick_3(int x) { return x + 3; }
int shape = 1;
int table[2] = {1, 2};
#endif
