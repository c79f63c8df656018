/* The exports of old.c without `border` and `count`: one is hidden now, and the other is gone. */
__attribute__((visibility("hidden"))) int border(int width, int height) { return 2 * (width + height); }
__attribute__((weak)) int maybe(int x) { return x; }
int kept(int x) { return border(x, x); }
int area(int width, int height) { return width * height; }
extern int outside(int x);
int around(int x) { return outside(x); }
