/* The exports of old.c in another order, and three more. */
int added(int x) { return x - 1; }
int border(int width, int height) { return 2 * width + 2 * height; }
int area(int width, int height) { return height * width; }
extern int outside(int x);
int around(int x) { return outside(x) + 1; }
__attribute__((visibility("protected"))) int kept(int x) { return x; }
int maybe(int x) { return x; }
int count = 2;
int total;
__thread int current;
